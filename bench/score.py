#!/usr/bin/env python3
"""Scores continuous assignments and combinational blocks, of which ten or all are active, and prints how fast.

    bench/score.py PROGRAM [MEGABYTES [STEPS]]

The designs have 100 and 10,000 blocks in groups of a hundred, each group a module: one half are assignments, the other blocks
with an `if` and a `case`, each of an input and a target of its own of eight bits. Icarus Verilog simulates them and writes the
dumps, which have all signals. Where ten blocks are active, in so many steps, the rest of the inputs stay, so that the dumps of
both designs have the same changes: printed are the nanoseconds a step and their ratio. Where all are active, printed are
megabytes a second, the nanoseconds a block and step, and the ratio of the seconds to those in which Icarus Verilog simulates the
same steps, with the moves of the bench, without a dump and with one. Seconds are processor time, the least of three runs, and of
each program what all steps take more than the first hundredth of them, so that elaboration is not in them.
"""
import os
import shutil
import subprocess
import sys
import tempfile

import dump

ACTIVE = 10
GROUP = 100
QUIET = {"stdout": subprocess.DEVNULL, "stderr": subprocess.DEVNULL}


def block(number):
    """An assignment or a block, of input `a` and output `y` of this number."""
    a, y, k = f"a{number}", f"y{number}", number % 256
    if number % 2 == 0:
        return f"assign {y} = ({a} + 8'd{k}) ^ ({a} >> 3) & ({a} == 8'd{k} ? {a} : ~{a});"
    return (f"always @* if ({a}[0]) {y} = {a} + 8'd{k}; else case ({a}[2:1]) 2'd0: {y} = {a}; 2'd1: {y} = ~{a}; "
            f"default: {y} = {a} ^ 8'd{k}; endcase")


def group(ports):
    """A module of a hundred blocks. Its inputs are ports, or variables that a bench assigns."""
    inputs = [f"{'input' if ports else 'reg'} [7:0] a{n}" for n in range(GROUP)]
    head = [f"module group({', '.join(inputs)});"] if ports else ["module group;", *(f"{it};" for it in inputs)]
    outputs = [f"{'reg' if n % 2 else 'wire'} [7:0] y{n};" for n in range(GROUP)]
    return "\n".join([*head, *outputs, *(block(n) for n in range(GROUP)), "endmodule\n"])


def write_source(path, blocks):
    """The design that is scored: its inputs are those of its groups."""
    groups = range(blocks // GROUP)
    with open(path, "w", encoding="ascii") as it:
        it.write(group(True))
        it.write(f"module blocks({', '.join(f'input [7:0] a{g}_{n}' for g in groups for n in range(GROUP))});\n")
        it.writelines(f"group g{g}({', '.join(f'a{g}_{n}' for n in range(GROUP))});\n" for g in groups)
        it.write("endmodule\n")


def write_bench(path, blocks, active):
    """What Icarus Verilog simulates: the groups without ports, which it compiles in a tenth of the time, and their inputs.

    The first inputs move in each step, all by one random number; the blocks that are active where ten are come first in the dump.
    """
    groups, names = range(blocks // GROUP), [f"dut.g{n // GROUP}.a{n % GROUP}" for n in range(blocks)]
    first = ", ".join(f"dut.g0.a{n}, dut.g0.y{n}" for n in range(ACTIVE))
    with open(path, "w", encoding="ascii") as it:
        it.write(group(False) + "module blocks;\n")
        it.writelines(f"group g{g}();\n" for g in groups)
        it.write("endmodule\nmodule tb;\ninteger k, steps;\nreg [31:0] x;\nreg [8*256:1] name;\nblocks dut();\ninitial begin\n")
        it.writelines(f"{name} = {n % 256};\n" for n, name in enumerate(names))
        it.write('k = $value$plusargs("steps=%d", steps);\nx = 1;\n')
        it.write('if ($value$plusargs("dump=%s", name)) begin\n'
                 f"$dumpfile(name);\n$dumpvars(0, {first});\n$dumpvars(0, dut);\nend\n")
        it.write("for (k = 0; k < steps; k = k + 1) begin\n#5 x = x * 1664525 + 1013904223;\n")
        it.writelines(f"{name} = x[31:24] ^ {n % 256};\n" for n, name in enumerate(names[:active]))
        it.write("end\n#5 $finish;\nend\nendmodule\n")


class Simulation:
    """A compiled bench of a design in a folder."""

    def __init__(self, folder, blocks, active):
        self.source, self.program = f"{folder}/blocks-{blocks}.v", f"{folder}/blocks-{blocks}-{active}.vvp"
        write_source(self.source, blocks)
        write_bench(f"{folder}/bench.v", blocks, active)
        subprocess.run(["iverilog", "-g2001", "-s", "tb", "-o", self.program, f"{folder}/bench.v"], check=True)

    def words(self, steps, file=None):
        return ["vvp", "-n", self.program, f"+steps={steps}", *([f"+dump={file}"] if file else [])]

    def write_dump(self, file, steps):
        subprocess.run(self.words(steps, file), check=True, **QUIET)
        return os.path.getsize(file) / 1_000_000

    def score(self, program, file):
        """The words that score a dump."""
        return [program, "score", "-t", "blocks", "-i", "tb.dut", "-v", self.source, "-vcd", file, "-o", f"{file}.db"]


def between(few, many):
    """The processor seconds that one command takes more than another."""
    return dump.least(many)[0] - dump.least(few)[0]


class Dumps:
    """A long dump of a simulation and one of the first hundredth of its steps."""

    def __init__(self, simulation, folder, steps):
        self.simulation, self.first, self.all = simulation, max(steps // 100, 2), steps
        self.few, self.many = f"{folder}/few.vcd", f"{folder}/many.vcd"
        self.megabytes = simulation.write_dump(self.many, steps) - simulation.write_dump(self.few, self.first)
        self.steps = steps - self.first

    def score_seconds(self, program):
        return between(self.simulation.score(program, self.few), self.simulation.score(program, self.many))

    def simulation_seconds(self, dumping):
        few, many = (self.few, self.many) if dumping else (None, None)
        return between(self.simulation.words(self.first, few), self.simulation.words(self.all, many))


def show_active(program, folder, steps):
    """Prints the time of a step in which ten blocks are active."""
    times = []
    for blocks in (100, 10_000):
        dumps = Dumps(Simulation(folder, blocks, ACTIVE), folder, steps)
        times.append(dumps.score_seconds(program) / dumps.steps * 1e9)
    print(f"ten active of 100: {times[0]:.0f} ns a step; of 10,000: {times[1]:.0f} ns, {times[1] / times[0]:.2f} times")


def show_all(program, folder, blocks, megabytes):
    """Prints the speed where all blocks are active."""
    simulation, some = Simulation(folder, blocks, blocks), max(100_000 // blocks, 20)
    dumps = Dumps(simulation, folder, int(some * megabytes / simulation.write_dump(f"{folder}/many.vcd", some)))
    seconds, plain, dumping = dumps.score_seconds(program), dumps.simulation_seconds(False), dumps.simulation_seconds(True)
    print(f"all of {blocks} active, {dumps.megabytes:.0f} MB in {dumps.steps} steps: {seconds:.2f} s, "
          f"{dumps.megabytes / seconds:.0f} MB/s, {seconds / dumps.steps / blocks * 1e9:.0f} ns a block and step; Icarus Verilog "
          f"{plain:.2f} s, with its dump {dumping:.2f} s: {seconds / plain:.2f} and {seconds / dumping:.2f} times")


def main():
    if len(sys.argv) < 2:
        sys.exit(__doc__)
    if not (shutil.which("iverilog") and shutil.which("vvp")):
        sys.exit("Icarus Verilog is not installed")
    program, megabytes = os.path.abspath(sys.argv[1]), int(sys.argv[2]) if len(sys.argv) > 2 else 100
    steps = int(sys.argv[3]) if len(sys.argv) > 3 else 200_000
    with tempfile.TemporaryDirectory() as folder:
        show_active(program, folder, steps)
        for blocks in (100, 10_000):
            show_all(program, folder, blocks, megabytes)


if __name__ == "__main__":
    main()
