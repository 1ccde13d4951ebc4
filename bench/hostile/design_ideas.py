"""Ideas for elaboration, for the points, for dumps, for the replay, for databases and for what is made of them."""
from .ideas import HEAD, code, dump, enters, many, module

IDEAS = {}
idea = enters(IDEAS)

LIST = (250, 500, 1000)


@idea(250, 500, 1000)
def parameters_chain(n):
    return module("parameter p0 = 1;\n" + "".join(f"parameter p{k + 1} = p{k} + p{k};\n" for k in range(n)))


@idea(16, 32, 60)
def overrides_chain(n):
    inner = "".join(f"module m{k}(); parameter P = 1; m{k + 1} #(P + P) u(); endmodule\n" for k in range(n))
    return f"module m(input a); m0 #(1) u(); endmodule\n{inner}module m{n}(); parameter P = 1; endmodule\n"


@idea(6, 8, 10, 12, 14)
def empty_instances_by_two(n):
    inner = "".join(f"module m{k}(); m{k + 1} u(), v(); endmodule\n" for k in range(n))
    return f"module m(input a); m0 u(); endmodule\n{inner}module m{n}(); endmodule\n"


@idea(6, 8, 10, 12, 63)
def missing_instances_by_two(n):
    inner = "".join(f"module m{k}(); m{k + 1} u(), v(); endmodule\n" for k in range(n))
    return f"module m(input a); m0 u(); endmodule\n{inner}"


@idea(32, 64, 128, 256)
def constants_in_instances(n):
    parts = many(n, "localparam p% = 1;\n")
    return f"module m(input a);\n{many(n, 'c u%();')}\nendmodule\nmodule c();\n{parts}endmodule\n"


@idea(32, 64, 128, 256)
def aliases_in_instances(n):
    ports = many(n, "input p%", ", ")
    return (f"module m(input a);\n{many(n, 'd u%(a);')}\nendmodule\nmodule d(input a);\nc u({many(n, 'a', ', ')});\nendmodule\n"
            f"module c({ports});\nendmodule\n")


@idea(32, 64, 128, 256)
def initial_parts_in_instances(n):
    parts = many(n, "initial y = %;\n")
    return f"module m(input a);\n{many(n, 'c u%();')}\nendmodule\nmodule c();\n{parts}endmodule\n"


@idea(32, 64, 128, 256)
def labels_in_a_loop(n):
    return module(f"reg y; integer i; always @* for (i = 0; i < {n}; i = i + 1) case (a) {many(n, chr(49), ', ')}: y = a;"
                  " default: y = 0; endcase")


@idea(32, 64, 128, 256)
def terms_in_instances(n):
    body = f"case (a) {many(n, 'a', ', ')}: y = 1; default: y = 0; endcase"
    return module(many(n, "c u%(a);\n")) + f"module c(input a); reg y; always @* {body} endmodule\n"


@idea(*LIST)
def list_of_modules(n):
    return module("") + many(n, "module n%(); endmodule\n")


@idea(*LIST)
def list_of_instances(n):
    return module(many(n, "c u%(.a(a));\n")) + "module c(input a); endmodule\n"


@idea(*LIST)
def list_of_instances_of_many_modules(n):
    return module(many(n, "c% u%(.a(a));\n")) + many(n, "module c%(input a); endmodule\n")


@idea(*LIST)
def ports_by_name(n):
    inner = f"module c({many(n, 'input p%', ', ')}); endmodule\n"
    return module(f"c u({many(n, '.p%(a)', ', ')});") + inner


@idea(*LIST)
def ports_by_position(n):
    inner = f"module c({many(n, 'input p%', ', ')}); endmodule\n"
    return module(f"c u({many(n, 'a', ', ')});") + inner


@idea(*LIST)
def overrides_by_name(n):
    inner = f"module c(); {many(n, 'parameter p% = 1;')} endmodule\n"
    return module(f"c #({many(n, '.p%(2)', ', ')}) u();") + inner


@idea(*LIST)
def ports_declared_later(n):
    return f"module m(a, {many(n, 'p%', ', ')}); input a;\n{many(n, 'output p%; wire p%;')}\nendmodule\n"


@idea(*LIST)
def list_of_nets(n):
    return module("wire " + many(n, "w% = a", ", ") + ";")


@idea(*LIST)
def list_of_undeclared(n):
    return module(many(n, "assign w% = v%;\n"))


@idea(*LIST)
def list_of_assigns(n):
    return module(many(n, "wire w%; assign w% = a;\n"))


@idea(*LIST)
def assigns_that_chain_backwards(n):
    return module("".join(f"wire w{k}; assign w{k} = ~w{k + 1};\n" for k in range(n)) + f"wire w{n}; assign w{n} = a;")


@idea(*LIST)
def blocks_that_chain_backwards(n):
    return module("".join(f"reg w{k}; always @* w{k} = ~w{k + 1};\n" for k in range(n)) + f"wire w{n}; assign w{n} = a;")


@idea(*LIST)
def assigns_in_a_ring(n):
    return module("".join(f"wire w{k}; assign w{k} = a & w{(k + 1) % n};\n" for k in range(n)))


@idea(*LIST)
def one_block_reads_many(n):
    return module("wire " + many(n, "w% = a", ", ") + ";\nreg y; always @* begin\n" + many(n, "y = w%;\n") + "end")


@idea(*LIST)
def one_list_of_many_names(n):
    return module("wire " + many(n, "w% = a", ", ") + f";\nreg y; always @({many(n, 'w%', ' or ')}) begin\n"
                  + many(n, "y = w%;\n") + "end")


@idea(*LIST)
def one_block_writes_many(n):
    return module("reg " + many(n, "w%", ", ") + ";\nalways @* begin\n" + many(n, "w% = a;\n") + "end")


@idea(*LIST)
def one_list_of_many_edges(n):
    return module(f"wire {many(n, 'w% = a', ', ')};\nreg y; always @({many(n, 'posedge w%', ' or ')}) y <= a;")


@idea(*LIST)
def one_list_of_equal_edges(n):
    return module(f"reg y; always @({many(n, 'posedge clk', ' or ')}) y <= a;", "input a, input clk")


@idea(*LIST)
def list_of_labels(n):
    return module("reg y; always @* case (a) " + many(n, "1'b1", ", ") + ": y = a; default: y = 0; endcase")


@idea(*LIST)
def list_of_arms(n):
    return module("reg y; always @* case (a)\n" + many(n, "1'b1: y = a;\n") + "default: y = 0; endcase")


@idea(*LIST)
def registers_of_one_clock(n):
    return module(many(n, "reg q%; always @(posedge clk) q% <= a;\n"), "input a, input clk")


@idea(*LIST)
def registers_behind_a_chain(n):
    return module(f"wire w0 = a;\n{''.join(f'wire w{k + 1} = ~w{k};' for k in range(n))}\n"
                  + "".join(f"reg q{k}; always @(posedge clk) q{k} <= w{k};\n" for k in range(n)), "input a, input clk")


@idea(*LIST)
def ripple_of_clocks(n):
    return module("wire q0 = clk;\n" + "".join(f"reg q{k + 1}; always @(posedge q{k}) q{k + 1} <= ~q{k + 1};\n" for k in range(n)),
                  "input clk")


@idea(*LIST)
def registers_that_chain_by_blocking(n):
    return module("wire q0 = a;\n" + "".join(f"reg q{k + 1}; always @(posedge clk) q{k + 1} = q{k};\n" for k in range(n)),
                  "input a, input clk")


@idea(32, 64, 120, 200)
def undecided_ifs_nest(n):
    return module("reg s, y; always @(posedge clk) begin s <= a & s; " + "if (s) y <= a; else begin y <= s; " * (n // 2)
                  + "end " * (n // 2) + "end", "input a, input clk")


@idea(32, 64, 120, 200)
def undecided_cases_nest(n):
    return module("reg s, y; always @(posedge clk) begin s <= a & s; " + "case (s) 0: y <= a; 1'bx: y <= s; default: " * (n // 2)
                  + "; " + "endcase " * (n // 2) + "end", "input a, input clk")


@idea(32, 64, 120, 200)
def undecided_blocking_cases_nest(n):
    return module("reg s, y; always @(posedge clk) begin s = a & s; " + "case (y) 0: y = a; 1'bx: y = s; default: " * (n // 2)
                  + "; " + "endcase " * (n // 2) + "end", "input a, input clk")


@idea(*LIST)
def undecided_ifs_in_a_row(n):
    return module("reg s, y; always @(posedge clk) begin s = a & s;\n" + "if (s) y = a; else s = y;\n" * n + "end",
                  "input a, input clk")


@idea(*LIST)
def undecided_ifs_over_many(n):
    return module(f"reg s, {many(n, 'y%', ', ')}; always @(posedge clk) begin s = a & s;\n"
                  + many(n, "if (s) y% = a; else y% = s;\n") + "end", "input a, input clk")


@idea(32, 64, 120, 200)
def undecided_ifs_nest_over_many(n):
    return module(f"reg s, {many(n, 'y%', ', ')}; always @(posedge clk) begin s = a & s;\n"
                  + many(n, "if (s) begin y% = a; ") + "end " * n + "end", "input a, input clk")


@idea(1024, 4096, 16384)
def words_by_an_open_index(n):
    return module(f"reg [15:0] i; reg [7:0] m [0:{n - 1}]; reg [7:0] y; always @(posedge clk)"
                  " begin i <= i + a; m[i] <= y; y <= m[i]; end", "input a, input clk")


@idea(*LIST)
def words_by_many_open_indexes(n):
    return module(f"reg [15:0] i; reg [7:0] m [0:{n - 1}]; reg [7:0] y; always @(posedge clk) begin i <= i + a;\n"
                  + "m[i] <= y; y <= m[i];\n" * (n // 10) + "end", "input a, input clk")


@idea(*LIST)
def slides_by_an_open_base(n):
    return module("reg [6:0] i; reg [127:0] y, z; always @(posedge clk) begin i <= i + a;\n"
                  + "y[i +: 64] = z[i -: 64];\n" * (n // 10) + "end", "input a, input clk")


@idea(*LIST)
def divisions(n):
    return module("reg [127:0] y; always @(posedge clk) begin\n" + "y = (y * 128'd3 + a) / 128'd7 % 128'd1001;\n" * (n // 10)
                  + "end", "input a, input clk")


@idea(*LIST)
def machines_in_words(n):
    states = ",".join(f"P{k}" for k in range(4))
    words = [word for k in range(n // 10) for word in ("-states", f"m=s{k}:{states}")]
    return module(f"{many(4, 'parameter P% = %;')} reg [1:0] {many(n // 10, 's%', ', ')};"), HEAD + words


@idea(8, 16, 32, 64)
def states_of_machines_of_many_instances(n):
    inner = f"module c(input a); {many(n, 'parameter P% = %;')} reg [7:0] s; endmodule\n"
    return module(many(n, "c u%(.a(a));\n")) + inner, [*HEAD, "-states", f"c=s:{many(n, 'P%', ',')}"]


@idea(*LIST)
def sources_in_words(n):
    files = {f"f{k}": "" for k in range(n // 10)}
    return {"m.v": module(""), **files}, HEAD + [word for name in files for word in ("-v", name)]


def with_dump(text, source=module("")):
    """A source and a dump."""
    return {"m.v": source, "D": text}


@idea(*LIST)
def variables_of_a_dump(n):
    return with_dump("$scope module tb $end $var wire 1 ! a $end\n" + "".join(f"$var wire 1 {code(k + 1)} v{k} $end\n" for k in range(n))
                     + "$enddefinitions $end\n#0 0!\n")


@idea(*LIST)
def variables_of_one_code(n):
    return with_dump("$scope module tb $end $var wire 1 ! a $end\n" + "".join(f"$var wire 1 ! v{k} $end\n" for k in range(n))
                     + "$enddefinitions $end\n#0 0!\n")


@idea(*LIST)
def variables_of_one_name(n):
    return with_dump("$scope module tb $end $var wire 1 ! a $end\n" + "".join(f"$var wire 2 {code(k + 1)} a $end\n" for k in range(n))
                     + "$enddefinitions $end\n#0 0!\n")


@idea(*LIST)
def signals_of_one_code(n):
    names = "".join(f"$var wire 1 ! w{k} $end\n" for k in range(n))
    return with_dump(f"$scope module tb $end $var wire 1 ! a $end\n{names}$enddefinitions $end\n#0 0!\n"
                     + "".join(f"#{k + 1} {k % 2}!\n" for k in range(n // 10)), module("wire " + many(n, "w% = a", ", ") + ";"))


@idea(*LIST)
def scopes_in_a_row(n):
    return with_dump("$scope module tb $end $var wire 1 ! a $end\n" + many(n, "$scope module s% $end $upscope $end\n")
                     + "$enddefinitions $end\n#0 0!\n")


@idea(1000, 2000, 4000, 8000)
def variables_in_a_scope_of_a_long_name(n):
    scope = "$scope module " + "x" * n + " $end\n"
    return with_dump("$scope module tb $end $var wire 1 ! a $end\n" + scope + "$var wire 1 ! b $end\n" * (n // 20)
                     + "$enddefinitions $end\n#0 0!\n")


@idea(*LIST)
def variables_of_equal_hash(n):
    # the bytes 8 to 16 are the multiplier of the library's hash of texts, so that the eight before do not count
    names = "".join(f"$var wire 1 ! {k:08}\x15\x7c\x4a\x7f\xb9\x79\x37\x9e{'x' * 17} $end\n" for k in range(n))
    return with_dump(f"$scope module tb $end $var wire 1 ! a $end\n{names}$enddefinitions $end\n#0 0!\n")


@idea(*LIST)
def variables_of_another_hash(n):
    names = "".join(f"$var wire 1 ! {k:08}\x16\x7c\x4a\x7f\xb9\x79\x37\x9e{'x' * 17} $end\n" for k in range(n))
    return with_dump(f"$scope module tb $end $var wire 1 ! a $end\n{names}$enddefinitions $end\n#0 0!\n")


@idea(1000, 4000, 16000)
def changes_of_one_time(n):
    return with_dump(dump(["a"], more="1! 0!\n" * n), module("wire y = a;"))


@idea(*LIST)
def times_without_changes(n):
    return with_dump(dump(["a"], more=many(n, "#%1\n")).replace("#5", "#1").replace("#10", "#2"), module("wire y = a;"))


@idea(1000, 4000, 16000)
def digits_of_a_wide_code(n):
    return with_dump("$scope module tb $end $var wire 1 ! a $end $var wire 999999999 # b $end $enddefinitions $end\n#0 0!\nb"
                     + "1" * n + " #\n")


@idea(1000, 4000, 16000)
def comment_in_a_dump(n):
    return with_dump("$comment " + "x " * n + "$end\n" + dump(["a"]) + "$comment " + "x " * n)


@idea(*LIST)
def aliases_of_one_signal(n):
    source = module(many(n, "c u%(.p(w));\n") + "wire w = a;") + "module c(input p); endmodule\n"
    scopes = many(n, "$scope module u% $end $var wire 1 # q $end $upscope $end\n")
    return with_dump(f"$scope module tb $end $var wire 1 ! a $end\n{scopes}$upscope $end $enddefinitions $end\n#0 0! 0#\n", source)


def database(instances, points, sources=1):
    """A database of instances and points."""
    files = "".join(f"source {k + 1} f{k}\n" for k in range(sources))
    paths = sorted(["m", *(f"m.u{k}" for k in range(instances))])
    lines = "".join(f"instance {path} {'c' if '.' in path else 'm'}\n" for path in paths)
    return f"covered-db 1\ntop m\n{files}{lines}points {len(points)}\n" + "".join(f"{it}\n" for it in points) + "end\n"


REPORT = ["report", "-d", "v", "-m", "ltcfm", "B"]


@idea(*LIST)
def report_of_points(n):
    return {"B": database(0, [f"t m a {k} 01 = ? {k} m.a" for k in range(n)])}, REPORT


@idea(*LIST)
def report_of_instances(n):
    return {"B": database(n, [f"t {path} a - 01 = missed" for path in sorted(f"m.u{k}" for k in range(n))])}, REPORT


@idea(*LIST)
def report_of_each_instance(n):
    return {"B": database(n, [f"t {path} a - 01 = missed" for path in sorted(f"m.u{k}" for k in range(n))])}, [*REPORT, "-i"]


@idea(*LIST)
def report_of_sources(n):
    return {"B": database(0, ["l m 1 1:1 if = hit"], n)}, REPORT


@idea(*LIST)
def tracefile_of_points_of_a_line(n):
    points = [f"l m {k + 1} 1:1 assign = hit" for k in range(n)]
    points += [f"c m {k + 1} 1:1 value {it} = missed" for k in range(n) for it in "01"]
    return {"B": database(0, points)}, ["lcov", "-o", "O", "B"]


@idea(*LIST)
def tracefile_of_sources(n):
    points = [f"l m {k + 1} {k + 1}:1 assign = hit" for k in range(n)]
    return {"B": database(0, points, n)}, ["lcov", "-o", "O", "B"]


@idea(*LIST)
def tracefile_of_sources_backwards(n):
    points = [f"l m {k + 1} {n - k}:{n - k} assign = hit" for k in range(n)]
    return {"B": database(0, points, n)}, ["lcov", "-o", "O", "B"]


@idea(20, 40, 80, 160)
def merge_of_files(n):
    text = database(0, [f"t m a {k} 01 = ? {k} m.a" for k in range(40)])
    return {f"b{k}": text for k in range(n)}, ["merge", "-o", "B", *(f"b{k}" for k in range(n))]


def toggles(count):
    """The addresses of so many points."""
    return [f"t m a {k} 01" for k in range(count)]


def with_windows(text, lines):
    """A database of version 2 with windows, of one of version 1."""
    return text.replace("covered-db 1", "covered-db 2").replace("end\n", f"windows {len(lines)}\n{''.join(lines)}end\n")


def excluded(addresses, text):
    """A database with excluded points."""
    return f"covered-ex 1\nexcluded {len(addresses)}\n" + "".join(f"{it}\n" for it in addresses) + with_windows(text, [])


@idea(20, 40, 80, 160)
def ranking_of_files(n):
    files = {f"b{k}": database(0, [f"t m a {it} 01 = {'hit' if (it + k) % n < 3 else 'missed'}" for it in range(160)]) for k in range(n)}
    return files, ["rank", *files]


@idea(*LIST)
def points_excluded_in_words(n):
    words = [word for it in toggles(n) for word in ("-point", it)]
    return {"B": database(0, [f"{it} = missed" for it in toggles(n)])}, ["exclude", "-o", "O", *words, "B"]


@idea(*LIST)
def points_restored_in_words(n):
    words = [word for it in reversed(toggles(n)) for word in ("-point", it)]
    text = database(0, [f"{it} = missed" for it in toggles(n)])
    return {"B": excluded(toggles(n), text)}, ["restore", "-o", "O", *words, "B"]


@idea(*LIST)
def report_of_excluded_points(n):
    text = database(0, [f"{it} = missed" for it in toggles(n)])
    return {"B": excluded(toggles(n), text)}, REPORT


def windows(pairs):
    """A database of one point with windows."""
    return with_windows(database(0, ["t m a - 01 = missed"]), [f"window {first} {last}\n" for first, last in pairs])


@idea(*LIST)
def windows_of_a_merge(n):
    files = {"b0": windows([(2 * k, 2 * k + 9) for k in range(n)]), "b1": windows([(2 * k + 1, 2 * k + 9) for k in range(n)])}
    return files, ["merge", "-o", "O", *files]


@idea(64, 256, 1023)
def stretches_of_a_dump(n):
    gaps = (f"#{20 + 3 * k} $dumpoff x! $end\n#{21 + 3 * k} $dumpon 1! $end\n#{22 + 3 * k} 0!\n" for k in range(n))
    return with_dump(dump(["a"], more="".join(gaps)), module("wire y = a;"))


@idea(64, 128, 256, 512)
def missing_inputs_at_many_times(n):
    ports = f"input a, {many(n, 'input p%', ', ')}"
    return with_dump(dump(["a"], more="".join(f"#{20 + 2 * k} {k % 2}!\n" for k in range(n))),
                     module(many(n, "wire w% = a & p%;\n"), ports))


@idea(1000, 4000, 16000)
def steps_of_a_selfrun(n):
    return {}, ["selfrun", "7", str(n)]
