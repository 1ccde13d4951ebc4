#!/usr/bin/env python3
"""Time the binding of a design to a dump with many variables.

    binding.py PROGRAM

The design has inputs of the top and as many ports of instances that are other names of them; the dump has 64 scopes
full of variables, of which the design binds some. Each size is scored by `covered score`, and the least processor time
of three runs is printed, with that of a design of one input under the same dump, and with that of the design alone: a
dump without variables, which is refused after the design is elaborated.
"""
import os
import resource
import subprocess
import sys
import tempfile

SCOPES = 64


def write_source(path, signals):
    """A top with `signals` inputs of one bit, and instances of 64 ports each that are joined to them."""
    modules = signals // 64
    with open(path, "w") as file:
        names = ", ".join(f"s{n}" for n in range(signals))
        file.write(f"module top(input {names});\n")
        for m in range(modules):
            ports = ", ".join(f".p{k}(s{m * 64 + k})" for k in range(64))
            file.write(f"leaf u{m}({ports});\n")
        file.write("endmodule\n")
        file.write("module leaf(input " + ", ".join(f"p{k}" for k in range(64)) + ");\nendmodule\n")


def write_dump(path, signals, variables):
    """Scopes with variables of other names; every second input is dumped under the name of its port alone."""
    modules = signals // 64
    each = variables // SCOPES
    with open(path, "w") as file:
        file.write("$timescale 1ns $end\n$scope module tb $end\n")
        for scope in range(SCOPES):
            file.write(f"$scope module other{scope} $end\n")
            for n in range(each):
                file.write(f"$var wire 1 a v{n} $end\n")
            file.write("$upscope $end\n")
        file.write("$scope module dut $end\n")
        for n in range(0, signals, 2):
            file.write(f"$var wire 1 b s{n} $end\n")
        for m in range(modules):
            file.write(f"$scope module u{m} $end\n")
            for k in range(1, 64, 2):
                file.write(f"$var wire 1 b p{k} $end\n")
            file.write("$upscope $end\n")
        file.write("$upscope $end\n$upscope $end\n$enddefinitions $end\n")
        file.write("#0\n0a\n0b\n#5\n1b\n#9\n0b\n#12\n")


def used():
    """The processor seconds of the programs that have ended."""
    usage = resource.getrusage(resource.RUSAGE_CHILDREN)
    return usage.ru_utime + usage.ru_stime


def seconds(words, status=0):
    least = None
    for _ in range(3):
        start = used()
        done = subprocess.run(words, capture_output=True)
        taken = used() - start
        if done.returncode != status:
            sys.exit(f"status {done.returncode}: {done.stderr.decode()[:200]}")
        least = taken if least is None else min(least, taken)
    return least


def main():
    program = os.path.abspath(sys.argv[1])
    with tempfile.TemporaryDirectory() as folder:
        os.chdir(folder)
        with open("one.v", "w") as file:
            file.write("module top(input s0);\nendmodule\n")
        with open("none.vcd", "w") as file:
            file.write("$enddefinitions $end\n")
        for signals, variables in ((32768, 500000), (65536, 1000000)):
            write_source("many.v", signals)
            write_dump("many.vcd", signals, variables)
            score = [program, "score", "-t", "top", "-i", "tb.dut"]
            many = seconds(score + ["-v", "many.v", "-vcd", "many.vcd", "-o", "many.db"])
            one = seconds(score + ["-v", "one.v", "-vcd", "many.vcd", "-o", "one.db"])
            alone = seconds(score + ["-v", "many.v", "-vcd", "none.vcd", "-o", "many.db"], status=3)
            print(
                f"{signals} signals, {variables} variables: {many:.2f} s; the dump with one signal {one:.2f} s; "
                f"the design alone {alone:.2f} s"
            )


if __name__ == "__main__":
    main()
