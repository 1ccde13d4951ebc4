#!/usr/bin/env python3
"""Scores pipelines of 10, 1,000 and 10,000 registers, against Icarus Verilog and Verilator, and prints how fast.

    bench/pipeline.py PROGRAM [UPDATES [CLOCKS [SIZES]]]

The registers have 32 bits and a block each, ten to a module: with an enable, with a case, and with adders. A bench drives their
clock, and random data and enables where the clock falls. Icarus Verilog simulates it into a dump with all signals and into one
with the ports alone, for so many clocks that the registers take UPDATES values (2,000,000). Both are scored. Printed are the
seconds, what they are of the seconds of the simulation without a dump and with the same dump, and of a run of Verilator with
`--coverage` of the same design and stimulus, where it is installed; and the resident memory for the dump and for one of a quarter
of its length. What Verilator takes to compile is printed apart; of 10,000 registers it is long. Then ten registers are scored beside 10, 1,000 and 10,000 others
whose clock stays, over CLOCKS clocks (50,000): printed are the nanoseconds a step and their ratios. SIZES are other numbers of
registers than these three, such as 10,100.

Seconds are processor time, the least of three runs, and of each program what all clocks take more than the first hundredth of
them, so that elaboration is not in them; that of the scored design is printed apart.
"""
import os
import shutil
import subprocess
import sys
import tempfile

import dump

GROUP = 10
SIZES = (10, 1_000, 10_000)
QUIET = {"stdout": subprocess.DEVNULL, "stderr": subprocess.DEVNULL}
PORTS = "clk, reset_n, enable, data, out"

# the same stimulus as the bench: data and enable are one random number, which moves where the clock falls
DRIVER = r"""
#include <cstdio>
#include <cstdlib>
#include "verilated.h"
#include "verilated_cov.h"
#include "Vpipeline.h"

int main(int argc, char** argv) {
    VerilatedContext context;
    Vpipeline dut{&context};
    const long clocks = std::atol(argv[1]);
    uint32_t x = 1;
    auto drive = [&](int clk, int reset_n) {
        dut.clk = clk; dut.reset_n = reset_n; dut.enable = x >> 31; dut.data = x; dut.eval();
    };
    drive(0, 1);
    drive(0, 0);
    for (long k = 0; k < clocks; k++) {
        x = x * 1664525u + 1013904223u;
        drive(0, 1);
        drive(1, 1);
    }
    context.coveragep()->write(argv[2]);
    std::printf("%08x\n", dut.out);
    return 0;
}
"""


def register(number):
    """The block of a register: it takes the one before it by an enable, a case or adders."""
    r, before, k = f"r{number}", f"r{number - 1}" if number else "in", 0x9E3779B9 * (number + 1) % (1 << 32)
    head = f"always @(posedge clk or negedge reset_n) if (!reset_n) {r} <= 32'd0; else"
    if number % 3 == 0:
        return f"{head} if (enable) {r} <= {before};"
    if number % 3 == 1:
        return (f"{head} case ({before}[1:0]) 2'd0: {r} <= {before} ^ 32'd{k}; 2'd1: {r} <= ~{before}; "
                f"default: {r} <= {{{before}[0], {before}[31:1]}}; endcase")
    return f"{head} {r} <= {r} + {before} + 32'd{k};"


def group():
    """A module of ten registers, of which the last is its output."""
    last = GROUP - 1
    names = [f"reg [31:0] r{n};" for n in range(last)]
    return "\n".join([f"module group(input clk, input reset_n, input enable, input [31:0] in, output reg [31:0] r{last});", *names,
                      *(register(n) for n in range(GROUP)), "endmodule\n"])


def write_groups(it, name, count, ends):
    """So many groups of registers, one after the other, between their clock, their enable, the first input and the last output."""
    clock, enable, first, last = ends
    it.writelines(f"wire [31:0] {name}w{n};\n" for n in range(count - 1))
    for n in range(count):
        before, after = f"{name}w{n - 1}" if n else first, f"{name}w{n}" if n < count - 1 else last
        it.write(f"group {name}{n}({clock}, reset_n, {enable}, {before}, {after});\n")


def write_source(path, registers, idle):
    """The design: a pipeline of so many registers, and another one of so many whose clock is an input of its own."""
    with open(path, "w", encoding="ascii") as it:
        stays = ", input stays" if idle else ""
        it.write(group() + f"module pipeline(input clk, input reset_n, input enable, input [31:0] data{stays}, output [31:0] out);\n")
        write_groups(it, "g", registers // GROUP, ("clk", "enable", "data", "out"))
        write_groups(it, "i", idle // GROUP, ("stays", "stays", "{32{stays}}", ""))
        it.write("endmodule\n")


def write_bench(path, idle):
    """What Icarus Verilog simulates; with `+all` the dump has all signals, those of the first ten registers first."""
    ports = PORTS + (", stays" if idle else "")
    with open(path, "w", encoding="ascii") as it:
        it.write("module tb;\nreg clk, reset_n, stays;\nreg [31:0] x;\nwire [31:0] out;\ninteger k, clocks;\nreg [8*256:1] name;\n"
                 "wire enable = x[31];\nwire [31:0] data = x;\n"
                 f"pipeline dut({', '.join(f'.{port}({port})' for port in ports.split(', '))});\n"
                 "initial begin\nclk = 0; reset_n = 1; stays = 0; x = 1;\n"
                 'k = $value$plusargs("clocks=%d", clocks);\n'
                 'if ($value$plusargs("dump=%s", name)) begin\n$dumpfile(name);\n'
                 f"$dumpvars(0, {', '.join(f'dut.{port}' for port in ports.split(', '))});\n"
                 'if ($test$plusargs("all")) begin $dumpvars(0, dut.g0); $dumpvars(0, dut); end\nend\n'
                 "#5 reset_n = 0;\n"
                 "for (k = 0; k < clocks; k = k + 1) begin\n"
                 "#5 x = x * 1664525 + 1013904223; clk = 0; reset_n = 1;\n#5 clk = 1;\nend\n"
                 '#5 $display("%h", out);\n$finish;\nend\nendmodule\n')


def between(few, many):
    """The processor seconds that one command takes more than another."""
    return dump.least(many)[0] - dump.least(few)[0]


class Pipeline:
    """A pipeline in a folder, its compiled bench, and how it is scored."""

    def __init__(self, program, folder, registers, idle=0):
        self.program, self.folder = program, folder
        self.source, self.bench, self.compiled = f"{folder}/pipeline.v", f"{folder}/bench.v", f"{folder}/bench.vvp"
        write_source(self.source, registers, idle)
        write_bench(self.bench, idle)
        subprocess.run(["iverilog", "-g2001", "-s", "tb", "-o", self.compiled, self.bench, self.source], check=True)

    def simulation(self, clocks, file=None, all_signals=False):
        """The words that simulate so many clocks, into a dump or into none."""
        words = ["vvp", "-n", self.compiled, f"+clocks={clocks}"]
        return words + ([f"+dump={file}"] if file else []) + (["+all"] if all_signals else [])

    def write_dump(self, clocks, all_signals):
        """Writes a dump of so many clocks, and gives its name."""
        file = f"{self.folder}/{clocks}.vcd"
        subprocess.run(self.simulation(clocks, file, all_signals), check=True, **QUIET)
        return file

    def score(self, file):
        """The words that score a dump."""
        return [self.program, "score", "-t", "pipeline", "-i", "tb.dut", "-v", self.source, "-vcd", file, "-o", f"{self.folder}/db"]


def printed(words):
    return subprocess.run(words, check=True, capture_output=True, text=True).stdout.strip()


def first_of(clocks):
    return max(clocks // 100, 2)


def build_verilator(design):
    """The driver of the design with coverage, the processor seconds that it took to compile, and those of Verilator alone."""
    driver, made = f"{design.folder}/driver.cpp", f"{design.folder}/made"
    with open(driver, "w", encoding="ascii") as it:
        it.write(DRIVER)
    # modules that are not inlined compile in a fifth of the time, and run as fast
    translated = dump.run(["verilator", "--cc", "--exe", "--coverage", "-O3", "-fno-inline", "--output-split", "20000", "-Wno-fatal", "-Wno-lint",
                           "-CFLAGS", "-O2", "--top-module", "pipeline", "--Mdir", made, design.source, driver])[0]
    compiled = dump.run(["make", "-s", "-j", "4", "-C", made, "-f", "Vpipeline.mk", "Vpipeline"])[0]
    return f"{made}/Vpipeline", translated, compiled


def verilator_seconds(design, clocks):
    """The processor seconds of a run of Verilator with coverage, or nothing where it is not installed."""
    if not shutil.which("verilator"):
        return None
    program, translated, compiled = build_verilator(design)
    few, many = ([program, str(count), f"{design.folder}/coverage.dat"] for count in (first_of(clocks), clocks))
    if printed(few) != printed(design.simulation(first_of(clocks))):
        sys.exit("the last output of Verilator is another one than that of Icarus Verilog")
    seconds = between(few, many)
    print(f"  Verilator with coverage: {seconds:.2f} s; translated in {translated:.1f} s and compiled in {compiled:.1f} s")
    return seconds


def times(seconds, other):
    """How many times the seconds of another program these are, where that took long enough to be measured."""
    return f"{seconds / other:.2f} times" if other and other > 0.005 else "not compared with"


def show_pipeline(program, folder, registers, updates):
    """Prints the seconds and the memory of scoring a pipeline, against its simulations."""
    design, clocks = Pipeline(program, folder, registers), max(updates // registers, 20)
    first = first_of(clocks)
    print(f"{registers} registers, {clocks} clocks")
    plain, verilator = between(design.simulation(first), design.simulation(clocks)), verilator_seconds(design, clocks)
    print(f"  Icarus Verilog without a dump: {plain:.2f} s")
    for name, all_signals in (("all signals", True), ("the ports alone", False)):
        few, quarter, many = (design.write_dump(count, all_signals) for count in (first, max(clocks // 4, 2), clocks))
        start, (whole, memory) = dump.least(design.score(few))[0], dump.least(design.score(many))
        part, seconds = dump.run(design.score(quarter))[1], whole - start
        dumping = between(design.simulation(first, few, all_signals), design.simulation(clocks, many, all_signals))
        print(f"  {name}, {os.path.getsize(many) / 1e6:.1f} MB: {seconds:.2f} s after {start:.2f} s for {first} clocks, "
              f"{seconds / (clocks - first) / registers * 1e9:.0f} ns a register and clock; {times(seconds, plain)} the simulation, "
              f"{times(seconds, dumping)} that with its dump ({dumping:.2f} s), {times(seconds, verilator)} Verilator; "
              f"{memory} kB, {part} kB for a quarter")


def show_idle(program, folder, sizes, clocks):
    """Prints the time of a step in which ten registers are active, beside others whose clock stays."""
    least = None
    for idle in sizes:
        design = Pipeline(program, folder, GROUP, idle)
        first = first_of(clocks)
        few, many = (design.write_dump(count, True) for count in (first, clocks))
        step = between(design.score(few), design.score(many)) / (clocks - first) / 2 * 1e9
        least = least or step
        print(f"ten registers beside {idle} whose clock stays: {step:.0f} ns a step, {step / least:.2f} times")


def main():
    if len(sys.argv) < 2:
        sys.exit(__doc__)
    if not (shutil.which("iverilog") and shutil.which("vvp")):
        sys.exit("Icarus Verilog is not installed")
    program, numbers = os.path.abspath(sys.argv[1]), [int(word) for word in sys.argv[2:4]]
    updates, clocks = [*numbers, *(2_000_000, 50_000)[len(numbers):]]
    sizes = tuple(int(word) for word in sys.argv[4].split(",")) if len(sys.argv) > 4 else SIZES
    for registers in sizes:
        with tempfile.TemporaryDirectory() as folder:
            show_pipeline(program, folder, registers, updates)
    with tempfile.TemporaryDirectory() as folder:
        show_idle(program, folder, sizes, clocks)


if __name__ == "__main__":
    main()
