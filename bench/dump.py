#!/usr/bin/env python3
"""Scores generated dumps with 100 and with 100,000 variables, and prints how fast.

    bench/dump.py PROGRAM [MEGABYTES [BENCH]]

For each dump: seconds of `covered score`, megabytes a second, the ratio to a plain pass over the same bytes (`wc -l`)
and to `vcd2fst` of the Debian package gtkwave where it is installed, and the resident memory for the dump and for one
of a quarter of its length; and, with BENCH, which is `crates/bench/out/bench`, the same for the reader of dumps
alone. Seconds are processor time, since other work on the machine changes it less than the time of the clock. The
least of three runs counts, and all are of the same file.
"""
import os
import random
import shutil
import sys
import tempfile

INPUTS = 100


def code_of(number):
    """The code of a variable, as simulators write them: the fewest printable bytes."""
    code = ""
    while True:
        code += chr(33 + number % 94)
        number = number // 94 - 1
        if number < 0:
            return code


def width_of(number):
    return 32 if number % 12 == 0 else 1


def write_source(path):
    ports = ", ".join(f"input [31:0] a{n}" if width_of(n) == 32 else f"input a{n}" for n in range(INPUTS))
    with open(path, "w", encoding="ascii") as it:
        it.write(f"module wide({ports});\nendmodule\n")


def change(number, code, chance):
    if width_of(number) == 32:
        return f"b{chance.getrandbits(32):b} {code}\n"
    return f"{chance.getrandbits(1)}{code}\n"


def write_dump(path, variables, size):
    """Writes a dump of at least so many bytes, in which each step changes twenty variables."""
    chance = random.Random(1)
    codes = [code_of(n) for n in range(variables)]
    with open(path, "w", encoding="ascii", buffering=1 << 20) as it:
        it.write("$timescale 1ns $end\n$scope module tb $end\n$scope module dut $end\n")
        for n in range(variables):
            it.write(f"$var wire {width_of(n)} {codes[n]} a{n} $end\n")
        it.write("$upscope $end\n$upscope $end\n$enddefinitions $end\n#0\n$dumpvars\n")
        it.writelines(change(n, codes[n], chance) for n in range(variables))
        it.write("$end\n")
        at = 0
        while it.tell() < size:
            for _ in range(1000):
                at += 5
                it.write(f"#{at}\n")
                for n in chance.choices(range(variables), k=20):
                    it.write(change(n, codes[n], chance))


def run(words):
    """Returns the processor seconds that the command took and its greatest resident memory in kilobytes."""
    child = os.fork()
    if child == 0:
        with open(os.devnull, "w", encoding="ascii") as none:
            os.dup2(none.fileno(), 1)
            os.execvp(words[0], words)
    _, status, used = os.wait4(child, 0)
    if status:
        sys.exit(f"{words[0]} ended with {os.waitstatus_to_exitcode(status)}")
    return used.ru_utime + used.ru_stime, used.ru_maxrss


def least(words):
    runs = [run(words) for _ in range(3)]
    return min(seconds for seconds, _ in runs), max(memory for _, memory in runs)


def measure(program, folder, variables, megabytes, bench):
    source, dump, short, out = (f"{folder}/{name}" for name in ("wide.v", "long.vcd", "short.vcd", "wide.db"))
    write_source(source)
    write_dump(dump, variables, megabytes * 1_000_000)
    write_dump(short, variables, megabytes * 250_000)
    score = [program, "score", "-t", "wide", "-i", "tb.dut", "-v", source, "-o", out, "-vcd"]
    print(f"{variables} variables")
    show(score, bench, dump, short, f"{folder}/long.fst")


def show(score, bench, dump, short, fst):
    """Prints the figures of the command for a dump and for a short one, and with `bench` those of the reader alone."""
    seconds, memory = least([*score, dump])
    _, short_memory = run([*score, short])
    plain, _ = least(["wc", "-l", dump])
    size = os.path.getsize(dump) / 1_000_000
    other = least(["vcd2fst", dump, fst])[0] if shutil.which("vcd2fst") else None
    print(f"  {size:.0f} MB: {figures(size, seconds, plain, other)}, "
          f"{memory} kB resident ({short_memory} kB for a quarter of it)")
    if bench:
        alone, _ = least([bench, "dump", dump])
        print(f"  the reader alone: {figures(size, alone, plain, other)}")


def figures(size, seconds, plain, other):
    """The speed, and the ratios to the other programs."""
    text = f"{seconds:.2f} s, {size / seconds:.0f} MB/s, {seconds / plain:.1f} times `wc -l`"
    return text if other is None else f"{text}, {seconds / other:.2f} times vcd2fst"


def main():
    if len(sys.argv) < 2:
        sys.exit(__doc__)
    megabytes = int(sys.argv[2]) if len(sys.argv) > 2 else 200
    bench = os.path.abspath(sys.argv[3]) if len(sys.argv) > 3 else None
    with tempfile.TemporaryDirectory() as folder:
        for variables in (100, 100_000):
            measure(os.path.abspath(sys.argv[1]), folder, variables, megabytes, bench)


if __name__ == "__main__":
    main()
