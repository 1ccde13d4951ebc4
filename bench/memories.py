#!/usr/bin/env python3
"""Scores FIFOs of 16 and of 65,536 words, and four with 262,144 words in all, and prints how fast and in how much memory.

    bench/memories.py PROGRAM [CLOCKS]

A FIFO is a memory of bytes, written by a clocked block where a push is enabled and read by a continuous assignment, with two pointers
of 17 bits as registers, whatever its size. A bench drives its clock, and random pushes, pops and data where the clock falls, the same
for each size: it never holds more than 15 words. Icarus Verilog simulates it for CLOCKS clocks (200,000, in which the pointers go past
65,536) into a dump with all signals, the memory of course not, and into one of two times. Printed are the nanoseconds a step of the
dump, which are what the long dump takes more than the short one, so that the set-up, the list of points and the database are not in
them; their ratio to those of 16 words; the seconds of the short dump; and the greatest resident memory of both.

The four FIFOs together have as many words as a design may have, and the same stimulus. Printed is also what they take more than four of
16 words each, against what the limits say: 50 MB for the words, and 100 MB for 1,048,576 points, of which a word has two.

Seconds are processor time, the least of three runs.
"""
import os
import shutil
import subprocess
import sys
import tempfile
from dataclasses import dataclass

import dump

CLOCKS = 200_000
MOST_POINTS = 1_048_576
WORDS_KB, POINTS_KB = 50_000, 100_000
FIFO = """module fifo(input clk, input reset, input push, input pop, input [7:0] data, output [7:0] out, output empty, output full);
  reg [7:0] words [0:{last}];
  reg [16:0] head, tail;
  assign empty = head == tail;
  assign full = head - tail == 17'd{words};
  assign out = words[tail[{high}:0]];
  always @(posedge clk)
    if (reset) begin
      head <= 17'd0;
      tail <= 17'd0;
    end else begin
      if (push && !full) begin
        words[head[{high}:0]] <= data;
        head <= head + 17'd1;
      end
      if (pop && !empty) tail <= tail + 17'd1;
    end
endmodule
"""
BENCH = """module tb;
  reg clk, reset, push, pop;
  reg [7:0] data;
  reg [31:0] x;
  integer k, clocks, held;
  reg [8*256:1] name;
  fifos dut(.clk(clk), .reset(reset), .push(push), .pop(pop), .data(data));
  initial begin
    clk = 0; reset = 1; push = 0; pop = 0; data = 0; x = 1; held = 0;
    k = $value$plusargs("clocks=%d", clocks);
    k = $value$plusargs("dump=%s", name);
    $dumpfile(name);
    $dumpvars(0, dut);
    #5 clk = 1;
    for (k = 0; k < clocks; k = k + 1) begin
      #5 clk = 0; reset = 0;
      x = x * 1664525 + 1013904223;
      push = x[31] && held < 15;
      pop = x[30] && held > 0;
      held = held + push - pop;
      data = x[29:22];
      #5 clk = 1;
    end
    $finish;
  end
endmodule
"""


def write_source(path, count, words):
    """So many FIFOs of so many words each, with the same inputs."""
    with open(path, "w", encoding="ascii") as it:
        it.write(FIFO.format(words=words, last=words - 1, high=(words - 1).bit_length() - 1))
        it.write("module fifos(input clk, input reset, input push, input pop, input [7:0] data);\n")
        for n in range(count):
            it.write(f"  wire [7:0] out{n};\n  wire empty{n}, full{n};\n"
                     f"  fifo f{n}(clk, reset, push, pop, data, out{n}, empty{n}, full{n});\n")
        it.write("endmodule\n")


@dataclass
class Taken:
    """What scoring a design takes: a step, the short dump, and the resident memory for the short dump and the long one."""
    nanoseconds: float
    start: float
    short_memory: int
    memory: int
    points: int


def write_dump(compiled, file, clocks):
    """Simulates so many clocks into a dump, and gives the count of its times."""
    subprocess.run(["vvp", "-n", compiled, f"+clocks={clocks}", f"+dump={file}"], check=True, stdout=subprocess.DEVNULL)
    with open(file, encoding="ascii") as it:
        return sum(line.startswith("#") for line in it)


def points_of(database):
    """The count of points that a database says to list."""
    with open(database, encoding="ascii") as it:
        return next(int(line.split()[1]) for line in it if line.startswith("points "))


def measure(program, folder, count, words, clocks):
    """Scores so many FIFOs of so many words each under a dump of two times and a long one."""
    source, bench, compiled, database = (f"{folder}/{name}" for name in ("fifos.v", "bench.v", "bench.vvp", "fifos.db"))
    write_source(source, count, words)
    with open(bench, "w", encoding="ascii") as it:
        it.write(BENCH)
    subprocess.run(["iverilog", "-g2001", "-s", "tb", "-o", compiled, bench, source], check=True)
    score = [program, "score", "-t", "fifos", "-i", "tb.dut", "-v", source, "-o", database, "-vcd"]
    short, long = f"{folder}/short.vcd", f"{folder}/long.vcd"
    few, many = write_dump(compiled, short, 0), write_dump(compiled, long, clocks)
    if few != 2:
        sys.exit(f"the short dump has {few} times")
    start, short_memory = dump.least([*score, short])
    seconds, memory = dump.least([*score, long])
    return Taken((seconds - start) / (many - few) * 1e9, start, short_memory, memory, points_of(database))


def figures(taken, least):
    """The figures of a design, and the ratio of its step to that of another."""
    return (f"{taken.nanoseconds:.0f} ns a step, {taken.nanoseconds / least.nanoseconds:.2f} times; {taken.start:.2f} s for the dump of two times; "
            f"{taken.memory} kB, {taken.short_memory} kB for two times")


def main():
    if len(sys.argv) < 2:
        sys.exit(__doc__)
    if not (shutil.which("iverilog") and shutil.which("vvp")):
        sys.exit("Icarus Verilog is not installed")
    program, clocks = os.path.abspath(sys.argv[1]), int(sys.argv[2]) if len(sys.argv) > 2 else CLOCKS
    with tempfile.TemporaryDirectory() as folder:
        least = measure(program, folder, 1, 16, clocks)
        print(f"16 words: {figures(least, least)}", flush=True)
        print(f"65,536 words: {figures(measure(program, folder, 1, 65_536, clocks), least)}", flush=True)
        small = measure(program, folder, 4, 16, clocks)
        print(f"64 words in four FIFOs: {figures(small, small)}", flush=True)
        large = measure(program, folder, 4, 65_536, clocks)
    more, promised = large.memory - small.memory, WORDS_KB + POINTS_KB * (large.points - small.points) / MOST_POINTS
    print(f"262,144 words in four FIFOs, {large.points} points: {figures(large, small)}; {more} kB more than 64 words, "
          f"{more / promised:.2f} times the {promised:.0f} kB of the limits")


if __name__ == "__main__":
    main()
