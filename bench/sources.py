#!/usr/bin/env python3
"""Time the lexer, the parser and elaboration on generated sources.

    sources.py PROGRAM

Each source is scored three times: with a byte of no token at its end, which the lexer refuses when it has all else; with
a module that does not end, which the parser refuses; and whole. The words name a state machine of a module that no source
has, so the whole design is refused after elaboration, before its points are listed. What each stage takes is the
difference. The least processor time of three runs is taken.
"""
import os
import resource
import subprocess
import sys
import tempfile

MODULE = """// Module {n} of the generated source. It adds a constant to its operand, and at each rising edge of its clock
// it keeps one of three values, by the lowest four bits of the sum. The reset sets all bits of its output to 0.
// These lines are the comments of a usual source, so that a token takes eight bytes and more on average.
module generated_module_number_{n} #(parameter WIDTH_OF_DATA = 16)(input clock_signal, input reset_signal, \
input [15:0] operand_from_left, output reg [15:0] data_output_register);
  wire [15:0] intermediate_result_{n} = operand_from_left + 16'h{low:04x}; // line {n} of the generated source
  always @(posedge clock_signal or posedge reset_signal) begin : named_block_{n}
    if (reset_signal) data_output_register <= {{WIDTH_OF_DATA{{1'b0}}}};
    else case (intermediate_result_{n}[3:0])
      4'd0, 4'd1: data_output_register <= intermediate_result_{n} ? operand_from_left : ~operand_from_left;
      default: data_output_register[7:0] <= (operand_from_left << 2) ^ intermediate_result_{n};
    endcase
  end
endmodule
"""
CELL = """module cell(input clk, input [15:0] d);
  reg [15:0] q;
  always @(posedge clk) begin
{body}  end
endmodule
"""


def modules(megabytes):
    """Modules with comments, of so many bytes together, and the name of the first."""
    parts, size, n = [], 0, 0
    while size < megabytes << 20:
        parts.append(MODULE.format(n=n, low=n % 65536))
        size += len(parts[-1])
        n += 1
    return "".join(parts), "generated_module_number_0"


def instances(count):
    """A top with so many instances of a module with sixteen statements, and the name of the top."""
    cells = "".join(f"  cell c{i}(.clk(clk), .d(d));\n" for i in range(count))
    body = "".join(f"    q[{i}] <= d[{i}] ^ q[{(i + 1) % 16}];\n" for i in range(16))
    return f"module top(input clk, input [15:0] d);\n{cells}endmodule\n" + CELL.format(body=body), "top"


def used():
    """The processor seconds of the programs that have ended."""
    usage = resource.getrusage(resource.RUSAGE_CHILDREN)
    return usage.ru_utime + usage.ru_stime


def seconds(program, source, top, answer):
    """The least time in which the program refuses the source with this answer."""
    with open("source.v", "w") as file:
        file.write(source)
    words = [program, "score", "-t", top, "-i", "tb.dut", "-v", "source.v", "-vcd", "none.vcd", "-o", "none.db",
             "-states", "absent=state:A,B"]
    least = None
    for _ in range(3):
        start = used()
        done = subprocess.run(words, capture_output=True, text=True)
        taken = used() - start
        if done.returncode != 2 or answer not in done.stderr:
            sys.exit(f"status {done.returncode}: {done.stderr[:200]}")
        least = taken if least is None else min(least, taken)
    return least


def stages(program, source, top):
    """The seconds of the lexer with the reading of the file, of the parser, and of elaboration."""
    lexed = seconds(program, source + "\x01", top, "BadByte")
    parsed = seconds(program, source + "module unended;", top, "EarlyEnd")
    whole = seconds(program, source, top, "NoState")
    return lexed, parsed - lexed, whole - parsed


def main():
    program = os.path.abspath(sys.argv[1])
    with tempfile.TemporaryDirectory() as folder:
        os.chdir(folder)
        for megabytes in (1, 4, 16, 32):
            source, top = modules(megabytes)
            lexed, parsed, _ = stages(program, source, top)
            size = len(source) / 1e6
            print(f"{megabytes} MB: lexer {size / lexed:.0f} MB/s, parser {size / parsed:.0f} MB/s")
        for count in (6000, 60000):
            source, top = instances(count)
            print(f"{count + 1} instances: elaboration {stages(program, source, top)[2]:.2f} s")


if __name__ == "__main__":
    main()
