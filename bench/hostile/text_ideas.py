"""Ideas for the lexer and for the parser."""
from .ideas import HEAD, enters, many, module

IDEAS = {}
idea = enters(IDEAS)

EMPTY = module("")


@idea(8, 10, 12, 14)
def macros_double(n):
    return "`define m0\n" + "".join(f"`define m{k + 1} `m{k} `m{k}\n" for k in range(n)) + f"`m{n}\n" + EMPTY


@idea(8, 10, 12)
def includes_double(n):
    files = {f"f{k + 1}": f'`include "f{k}"\n`include "f{k}"\n' for k in range(n)}
    return {"f0": "", **files, "m.v": f'`include "f{n}"\n' + EMPTY}


@idea(500, 1000, 2000, 4000)
def macro_of_spaces_used_often(n):
    return "`define s " + "/**/" * (n // 4) + "\n" + "`s\n" * n + EMPTY


@idea(500, 1000, 2000, 4000)
def comment_included_often(n):
    return {"c": "/*" + " " * n + "*/\n", "m.v": '`include "c"\n' * n + EMPTY}


@idea(30, 60, 120, 240)
def chain_of_includes(n):
    body = "// x\n" * 50
    return {f"f{k}": body + (f'`include "f{k + 1}"\n' if k % 60 != 59 and k + 1 < n else "") for k in range(n)} | \
        {"m.v": "".join(f'`include "f{k}"\n' for k in range(0, n, 60)) + EMPTY}


@idea(1000, 4000, 16000)
def conditions_nest(n):
    return "`ifdef A\n" * n + "`endif\n" * n + EMPTY


@idea(1000, 4000, 16000)
def conditions_nest_taken(n):
    return "`ifndef A\n" * n + "`endif\n" * n + EMPTY


@idea(1000, 4000, 16000)
def elsif_list(n):
    return "`ifdef A\n" + "`elsif A\n" * n + "`endif\n" + EMPTY


@idea(500, 1000, 2000, 4000)
def open_quotes_left_out(n):
    return "`ifdef A\n\"" + '\\"' * n + "\n`endif\n" + EMPTY


@idea(500, 1000, 2000, 4000)
def open_quotes_in_a_define(n):
    return "`define A \"" + '\\"' * n + "\n" + EMPTY


@idea(500, 1000, 2000, 4000)
def quotes_continued_in_a_define(n):
    return "`define A " + '"\\\n' * n + "\n" + EMPTY


@idea(1000, 4000, 16000)
def open_comment(n):
    return EMPTY + "/*" * n


@idea(1000, 4000, 16000)
def open_attribute(n):
    return EMPTY + "(* " * n


@idea(1000, 4000, 16000)
def open_string(n):
    return EMPTY + '"' + "\\\"" * n


@idea(1000, 4000, 16000)
def open_comments_in_macros(n):
    return "`define A /*\n" + "`A */\n" * n + EMPTY


@idea(500, 1000, 2000, 4000)
def defines_and_uses(n):
    return many(n, "`define name_% \n") + many(n, "`name_%\n") + EMPTY


@idea(500, 1000, 2000, 4000)
def one_name_defined_often(n):
    return "`define A x\n" * n + "`undef A\n" * n + EMPTY


@idea(250, 500, 1000, 2000)
def defines_in_words(n):
    return EMPTY, HEAD + [word for k in range(n) for word in ("-D", f"name_{k}=1")]


@idea(1000, 4000, 16000)
def one_long_identifier(n):
    return EMPTY + "x" * n


@idea(1000, 4000, 16000)
def one_long_number(n):
    return EMPTY + "1" * n


@idea(1000, 4000, 16000)
def one_long_based_number(n):
    return module("parameter P = 8'b" + "_1" * n + ";")


@idea(16, 32, 64, 128, 250)
def parentheses(n):
    return module("wire y = " + "(" * n + "a" + ")" * n + ";")


@idea(16, 32, 64, 128, 250)
def unary_signs(n):
    return module("wire y = " + "~" * n + "a;")


@idea(16, 32, 64, 128, 250)
def left_sums(n):
    return module("wire [7:0] y = a" + " + a" * n + ";")


@idea(16, 32, 64, 128, 250)
def right_sums(n):
    return module("wire [7:0] y = " + "a + (" * (n // 2) + "a" + ")" * (n // 2) + ";")


@idea(16, 32, 64, 128, 250)
def choices_on_the_right(n):
    return module("wire y = " + "a ? a : " * n + "a;")


@idea(16, 32, 64, 128, 250)
def choices_in_the_middle(n):
    return module("wire y = " + "a ? " * n + "a" + " : a" * n + ";")


@idea(16, 32, 64, 128, 250)
def choices_in_the_test(n):
    return module("wire y = " + "(" * (n // 2) + "a" + " ? a : a)" * (n // 2) + ";")


@idea(16, 32, 64, 128, 250)
def comparisons_nest(n):
    return module("wire y = " + "(" * (n // 2) + "a" + " == a)" * (n // 2) + ";")


@idea(16, 32, 64, 128, 250)
def concatenations_nest(n):
    return module("wire y = " + "{" * n + "a" + "}" * n + ";")


@idea(16, 32, 64, 128, 250)
def signs_nest(n):
    return module("wire y = " + "$signed(" * n + "a" + ")" * n + ";")


@idea(8, 16, 32, 64, 120)
def repeats_nest(n):
    return module("wire y = " + "{1{" * n + "a" + "}}" * n + ";")


@idea(8, 16, 32, 64, 120)
def counts_nest(n):
    return module("wire y = " + "{" * n + "1" + "{1'b1}}" * n + ";")


@idea(8, 16, 32, 64, 120)
def counts_nest_in_sums(n):
    return module("parameter P = " + "{1 + " * n + "0" + "{1'b1}}" * n + ";")


@idea(8, 16, 32, 60)
def counts_nest_on_both_sides(n):
    return module("parameter P = " + "{({" * n + "1" + "{1'b1}} + {1{1'b0}}){1'b1}}" * n + ";")


@idea(8, 16, 32, 64, 120)
def selects_nest(n):
    return module("wire y = " + "w[" * n + "a" + "]" * n + ";\nwire [1:0] w;")


@idea(8, 16, 32, 64, 120)
def slides_nest(n):
    return module("wire y = " + "w[" * n + "a" + "+:1]" * n + ";\nwire [1:0] w;")


@idea(8, 16, 32, 64, 120)
def words_nest(n):
    return module("wire [1:0] y = " + "w[" * n + "a" + "]" * n + ";\nreg [1:0] w [0:3];")


@idea(8, 16, 32, 64, 120)
def targets_nest(n):
    return module("wire y; assign " + "{" * n + "y" + "}" * n + " = a;")


@idea(16, 32, 64, 128, 250)
def blocks_nest(n):
    return module("reg y; always @* " + "begin " * n + "y = a; " + "end " * n)


@idea(16, 32, 64, 128, 250)
def ifs_nest(n):
    return module("reg y; always @* begin y = 0; " + "if (a) " * n + "y = a; end")


@idea(16, 32, 64, 128, 250)
def elses_nest(n):
    return module("reg y; always @* " + "if (a) y = 0; else " * n + "y = a;")


@idea(16, 32, 64, 128, 250)
def cases_nest(n):
    return module("reg y; always @* begin y = 0; " + "case (a) 1: " * n + "y = a; " + "endcase " * n + "end")


@idea(1, 2, 4, 8)
def loops_nest_by_two(n):
    names = ", ".join(f"i{k}" for k in range(n))
    loops = "".join(f"for (i{k} = 0; i{k} < 2; i{k} = i{k} + 1) " for k in range(n))
    return module(f"reg y; integer {names}; always @* begin y = a; {loops} ; end")


@idea(32, 64, 128, 256, 400, 1025)
def two_loops_of_nothing(n):
    return module(f"reg y; integer i, j; always @* begin y = a; for (i = 0; i < {n}; i = i + 1)"
                  f" for (j = 0; j < {n}; j = j + 1) ; end")


@idea(16, 32, 64, 128, 250)
def loops_without_turns_nest(n):
    names = ", ".join(f"i{k}" for k in range(n))
    loops = "".join(f"for (i{k} = 0; i{k} < 0; i{k} = i{k} + 1) " for k in range(n))
    return module(f"reg y; integer {names}; always @* begin y = a; {loops} ; end")


@idea(16, 32, 64, 128, 250)
def loops_of_one_turn_nest(n):
    names = ", ".join(f"i{k}" for k in range(n))
    loops = "".join(f"for (i{k} = 0; i{k} < 1; i{k} = i{k} + 1) " for k in range(n))
    return module(f"reg y; integer {names}; always @* begin y = a; {loops} ; end")


@idea(8, 16, 32, 64)
def terms_in_a_loop(n):
    return module("reg y; integer i; always @* for (i = 0; i < 1024; i = i + 1) y = a" + " ^ a" * n + ";")


@idea(8, 16, 32, 64)
def loops_with_long_headers(n):
    return module("reg y; integer i, j; always @* begin y = a; for (i = 0; i < 64; i = i + 1)"
                  " for (j = 0; j < 64" + " + 0" * n + "; j = j + 1) ; end")


@idea(8, 16, 32, 48)
def terms_in_two_loops(n):
    return module(f"reg y; integer i, j; always @* for (i = 0; i < {n}; i = i + 1) for (j = 0; j < {n}; j = j + 1) y = a" + " ^ a" * n + ";")


@idea(8, 16, 32, 64)
def long_headers_in_two_loops(n):
    return module(f"reg y; integer i, j; always @* begin y = a; for (i = 0; i < {n}; i = i + 1)"
                  f" for (j = 0; j < {n}" + " + 0" * n + "; j = j + 1) ; end")


@idea(64, 256, 1024)
def empty_statements(n):
    return module("reg y; always @* begin y = a; " + ";" * n + " end")
