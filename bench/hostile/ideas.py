"""Small inputs that might cost more than near their size. Each idea makes files and words of a size."""

HEAD = ["score", "-t", "m", "-i", "tb", "-v", "m.v", "-vcd", "D", "-o", "B"]


def enters(ideas):
    """A mark of functions that make a source or files of a size, which enters them among ideas with the sizes to try."""
    def idea(*sizes):
        def enter(function):
            ideas[function.__name__.replace("_", "-")] = (function, sizes)
            return function
        return enter
    return idea


def dump(inputs, steps=("0", "1", "0"), more=""):
    """A dump of inputs of one bit in the scope tb, which all have these values in turn, and more lines in its body."""
    codes = {name: code(number) for number, name in enumerate(inputs)}
    lines = ["$scope module tb $end", *(f"$var wire 1 {it} {name} $end" for name, it in codes.items()), "$upscope $end",
             "$enddefinitions $end"]
    for number, value in enumerate(steps):
        lines += [f"#{5 * number}", *(value + it for it in codes.values())]
    return "\n".join([*lines, more, ""])


def code(number):
    """A code of a dump."""
    made = ""
    while True:
        made += chr(33 + number % 94)
        number //= 94
        if not number:
            return made


def inputs_of(source):
    """Inputs for a source: those that the generated sources have."""
    return [name for name in ("a", "clk") if f"input {name}" in source]


def call(made):
    """The files and the words of what an idea made: a source, or files by their names, or both files and words."""
    files, words = made if isinstance(made, tuple) else (made, HEAD)
    if isinstance(files, str):
        files = {"m.v": files}
    if "D" not in files and "m.v" in files:
        files["D"] = dump(inputs_of(files["m.v"]))
    return files, words


def module(body, ports="input a"):
    """A module around items."""
    return f"module m({ports});\n{body}\nendmodule\n"


def many(count, template, between=""):
    """A text so many times, with its number for `%`."""
    return between.join(template.replace("%", str(number)) for number in range(count))
