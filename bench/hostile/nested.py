"""Designs and dumps that nest as deep as the limits allow: shapes of a depth, in the innermost of a chain of instances."""
import collections
import itertools

from .ideas import HEAD, many

INSTANCES = 64
PORTS = "(input a, input clk)"
BODY = '#0\n0!\n0"\n#5\n1!\n#10\n1"\n#15\n0"\n#20\n0!\n#25\n1"\n#30\n0"\n'
VARIABLES = '$var wire 1 ! a $end\n$var wire 1 " clk $end\n'
DUMP = f"$scope module tb $end\n{VARIABLES}$upscope $end\n$enddefinitions $end\n{BODY}"

# what stands before and after a part, once for each level; `#` is the sign of an assignment, `%` the number of the level
STATEMENTS = {
    "begin": ("begin ", " end"),
    "if": ("if (a) ", ""),
    "else": ("if (a) y # 0; else ", ""),
    "open if": ("if (s) ", ""),
    "open else": ("if (s) y # a; else ", ""),
    "case": ("case (a) 1: ", " endcase"),
    "open case": ("case (s) 0: y # a; default: ", " endcase"),
    "for": ("for (i% = 0; i% < 1; i% = i% + 1) ", ""),
}
EXPRESSIONS = {
    "parentheses": ("(", ")"),
    "not": ("~", ""),
    "minus": ("- ", ""),
    "reduction": ("| ", ""),
    "sum to the left": ("", " + a"),
    "sum to the right": ("a + (", ")"),
    "and": ("", " && a"),
    "comparison": ("(", " == a)"),
    "shift": ("(", " << a)"),
    "choice at its end": ("a ? a : ", ""),
    "choice in its middle": ("a ? ", " : a"),
    "choice in its test": ("(", " ? a : a)"),
    "concatenation": ("{", "}"),
    "repeat": ("{1{", "}}"),
    "sign": ("$signed(", ")"),
    "select": ("w[", "]"),
    "slide": ("w[", " +: 1]"),
    "word": ("v[", "]"),
}
# where an expression is; `s` and `v` are not known, and the loop variables come before
PLACES = {
    "net": "wire y = {};",
    "block": "reg y; always @* y = {};",
    "register": "reg y; always @(posedge clk) y <= {};",
    "test": "reg y; always @(posedge clk) if ({}) y <= a; else y <= s;",
    "index of a target": "reg [1:0] y; always @(posedge clk) y[{}] <= a;",
    "connection": "wire y; inner x({});",
}
# where a constant expression of the value 1 is
CONSTANTS = {
    "range": "wire [{}:0] y;",
    "words": "reg y [0:{}];",
    "override": "inner #({}) x(a);",
    "count": "wire y = {{{}{{a}}}};",
    "part": "wire y = w[{}:1];",
    "index": "wire y = w[{}];",
    "bound of a loop": "reg y; always @* for (i0 = 0; i0 < {}; i0 = i0 + 1) y = a;",
    "label": "reg y; always @* case (a) {}: y = a; default: y = 0; endcase",
    "turn of a loop": "reg y; always @* for (i0 = 0; i0 < 1; i0 = i0 + {}) y = a;",
}

Shape = collections.namedtuple("Shape", "make most refusal")


def chain(items, instances=INSTANCES):
    """A chain of so many instances, the top among them, of which the last has these items."""
    names = ["m", *(f"m{k}" for k in range(1, instances))]
    outer = "".join(f"module {name}{PORTS}; {inner} u(a, clk); endmodule\n" for name, inner in itertools.pairwise(names))
    inner = "module inner(input p); parameter Q = 1; wire q = p; endmodule\n"
    return f"{outer}module {names[-1]}{PORTS};\n{items}\nendmodule\n{inner}"


def design(items, depth=0):
    """The files and words of a chain whose last module has what the shapes name, and these items."""
    loops = f"integer {many(max(depth, 1), 'i%', ', ')};"
    # an instance in the last one is one level more
    deep = INSTANCES - ("inner " in items)
    known = "reg s; always @(posedge clk) s <= a & s; reg v [0:1]; wire [1:0] w = {a, s};"
    return {"m.v": chain(f"{loops} {known}\n{items}", deep), "D": DUMP}, HEAD


def wrapped(kinds, depth, text):
    """A text in so many parts, of these kinds in turn."""
    taken = [kinds[k % len(kinds)] for k in range(depth)]
    before = "".join(it[0].replace("%", str(k)) for k, it in enumerate(taken))
    return before + text + "".join(it[1] for it in reversed(taken))


def block(kinds, depth, edge, value="a"):
    """A process with statements in one another, the innermost an assignment of a value."""
    text = wrapped(kinds, depth, f"y # {value};").replace("#", "<=" if edge else "=")
    return f"reg y; always @(posedge clk) {text}" if edge else f"reg y; always @* begin y = 0; {text} end"


def both(depth):
    """Statements of all kinds in one another, and in the innermost an expression of all kinds, of half of the depth each."""
    value = wrapped(list(EXPRESSIONS.values()), depth - depth // 2, "s")
    return design(block(list(STATEMENTS.values()), depth // 2, True, value), depth)


def macros(depth):
    """Macros in one another."""
    texts = "`define q0 a\n" + "".join(f"`define q{k} `q{k - 1}\n" for k in range(1, depth))
    return {"m.v": texts + chain(f"wire y = `q{depth - 1};"), "D": DUMP}, HEAD


def includes(depth):
    """Included files in one another."""
    files = {f"f{k}": f'`include "f{k + 1}"\n' for k in range(1, depth)} | {f"f{depth}": "wire y = a;\n"}
    return {"m.v": chain('`include "f1"\n'), "D": DUMP, **files}, HEAD


def macros_and_includes(depth):
    """Macros that include a file in which the next macro is used."""
    last = "wire y = a;"
    files = {f"f{k}": f"`q{k + 1}\n" if 2 * k < depth else f"{last}\n" for k in range(1, depth // 2 + 1)}
    macro = (f'`define q{k} ' + (f'`include "f{k}"' if 2 * k <= depth else last) + "\n" for k in range(1, (depth + 1) // 2 + 1))
    return {"m.v": "".join(macro) + chain("`q1\n"), "D": DUMP, **files}, HEAD


def instances(depth):
    """Instances in one another."""
    return {"m.v": chain("wire y = a;", depth), "D": DUMP}, HEAD


def scopes(depth):
    """Scopes of a dump in one another, beside that of the top."""
    more = "$scope module s $end\n" * (depth - 1) + "$var wire 1 # b $end\n" + "$upscope $end\n" * (depth - 1)
    return {"m.v": chain("wire y = a;"), "D": DUMP.replace("$upscope $end\n", f"{more}$upscope $end\n", 1)}, HEAD


def everything(depth):
    """Statements and expressions by macros in one another in files in one another."""
    files, words = both(depth)
    value = wrapped(list(EXPRESSIONS.values()), depth - depth // 2, "s")
    texts = f"`define q0 {value}\n" + "".join(f"`define q{k} `q{k - 1}\n" for k in range(1, 32))
    more = {f"f{k}": f'`include "f{k + 1}"\n' for k in range(1, 32)} | {"f32": files["m.v"].replace(value, "`q31")}
    return {**files, "m.v": f'{texts}`include "f1"\n', **more}, words


def shapes():
    """The shapes by their names."""
    deep = "parse 3 TooDeep"
    found = {}
    for name, kind in STATEMENTS.items():
        for place, edge in (("block", False), ("register", True)):
            found[f"{name} in a {place}"] = Shape(lambda n, k=kind, e=edge: design(block([k], n, e), n), 300, deep)
    for name, kind in EXPRESSIONS.items():
        for place, text in PLACES.items():
            inner = "a" if place in ("net", "connection") or "block" in place else "s"
            found[f"{name} in a {place}"] = Shape(
                lambda n, k=kind, t=text, i=inner: design(t.format(wrapped([k], n, i))), 300, deep)
        if "[" not in kind[0]:
            constant = (kind[0].replace("a", "1"), kind[1].replace("a", "1")) if "sign" not in kind[0] else kind
            found[f"{name} in a parameter"] = Shape(
                lambda n, k=constant: design(f"parameter P = {wrapped([k], n, chr(49) + chr(39) + 'b1')}; wire y = a;"), 300, deep)
    for place, text in CONSTANTS.items():
        for name, kind in (("parentheses", ("(", ")")), ("sum", ("", " + 1'b0"))):
            found[f"{name} in a {place}"] = Shape(
                lambda n, k=kind, t=text: design(t.format(wrapped([k], n, "1"))), 300, deep)
    found["targets"] = Shape(lambda n: design("reg y; always @(posedge clk) " + wrapped([("{", "}")], n, "y") + " <= a;"), 300, deep)
    found["statements and expressions"] = Shape(both, 300, deep)
    found["macros"] = Shape(macros, 100, "lex 7 MacroDepth")
    found["includes"] = Shape(includes, 100, "lex 7 MacroDepth")
    found["macros and includes"] = Shape(macros_and_includes, 100, "lex 7 MacroDepth")
    found["instances"] = Shape(instances, 100, "elab 12 Limit")
    found["scopes"] = Shape(scopes, 100, "dump: 9 DeepScope")
    found["all in one another"] = Shape(everything, 300, deep)
    return found
