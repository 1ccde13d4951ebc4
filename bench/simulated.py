#!/usr/bin/env python3
"""Scores dumps that simulators write of a real design, `designs/chip.v`, and prints how fast.

    bench/simulated.py PROGRAM [MEGABYTES [BENCH]]

The dumps are written by Icarus Verilog (`iverilog` and `vvp`) and by Verilator, each where it is installed. The design that
is scored binds the first hundred variables of the instance `dut` of the chip. What is printed is as for `dump.py`.
"""
import os
import shutil
import subprocess
import sys
import tempfile

import dump

BOUND = 100
CHIP = os.path.join(os.path.dirname(os.path.abspath(__file__)), "designs", "chip.v")
QUIET = {"stdout": subprocess.DEVNULL, "stderr": subprocess.DEVNULL}


def build_icarus(folder):
    subprocess.run(["iverilog", "-g2001", "-s", "tb", "-o", f"{folder}/chip.vvp", CHIP], check=True)
    return ["vvp", "-n", f"{folder}/chip.vvp"]


def build_verilator(folder):
    words = ["verilator", "--binary", "--trace", "--timing", "-Wno-fatal", "--top-module", "tb", "-Mdir", f"{folder}/chip"]
    subprocess.run([*words, CHIP], check=True, **QUIET)
    return [f"{folder}/chip/Vtb"]


SIMULATORS = {"iverilog": ("Icarus Verilog", build_icarus), "verilator": ("Verilator", build_verilator)}


def simulate(words, file, clocks):
    subprocess.run([*words, f"+clocks={clocks}", f"+dump={file}"], check=True, **QUIET)
    return os.path.getsize(file)


def write_dump(words, file, size):
    """Writes a dump of about so many bytes."""
    clocks = 20_000
    simulate(words, file, int(clocks * size / simulate(words, file, clocks)))


def variables_of(file):
    """Returns the scope of the instance `dut`, and the kind of port that each of its variables would be."""
    scope, found = [], {}
    with open(file, encoding="ascii", errors="replace") as it:
        for line in it:
            words = line.split()
            if words[:1] == ["$scope"]:
                scope.append(words[2])
            elif words[:1] == ["$upscope"]:
                scope.pop()
            elif words[:1] == ["$var"] and scope[-1:] == ["dut"]:
                path, name, more = ".".join(scope), words[4].split("[")[0], "".join(words[4:-1]).partition("[")[2]
                found[name] = f"input [{more} {name}" if more else f"input {name}"
            elif words[:1] == ["$enddefinitions"]:
                return path, found
    sys.exit(f"{file} has no header")


def measure(program, bench, name, words, folder, megabytes):
    source, long, short, out = (f"{folder}/{it}" for it in ("bound.v", "long.vcd", "short.vcd", "bound.db"))
    write_dump(words, long, megabytes * 1_000_000)
    write_dump(words, short, megabytes * 250_000)
    path, ports = variables_of(long)
    with open(source, "w", encoding="ascii") as it:
        it.write(f"module bound({', '.join(list(ports.values())[:BOUND])});\nendmodule\n")
    score = [program, "score", "-t", "bound", "-i", path, "-v", source, "-o", out, "-vcd"]
    print(f"{name}, {min(BOUND, len(ports))} of its variables bound")
    dump.show(score, bench, long, short, f"{folder}/long.fst")


def main():
    if len(sys.argv) < 2:
        sys.exit(__doc__)
    megabytes = int(sys.argv[2]) if len(sys.argv) > 2 else 200
    bench = os.path.abspath(sys.argv[3]) if len(sys.argv) > 3 else None
    for command, (name, build) in SIMULATORS.items():
        if not shutil.which(command):
            print(f"{name} is not installed")
            continue
        with tempfile.TemporaryDirectory() as folder:
            measure(os.path.abspath(sys.argv[1]), bench, name, build(folder), folder, megabytes)


if __name__ == "__main__":
    main()
