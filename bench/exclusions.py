#!/usr/bin/env python3
"""Time `covered exclude` and `covered restore` of 100,000 points of a database of a million.

    exclusions.py PROGRAM

The addresses are given in three calls, since a command line has room for some 40,000 of them; each call reads the database and
writes it. The points are restored in another order, and the text is then to be that of the file before. The processor time of
all three calls is printed, and that of three reports of the plain database, which read it and print a few lines.
"""
import os
import random
import resource
import subprocess
import sys
import tempfile

BITS = 500000
EXCLUDED = 100000
AT_ONCE = 34000


def write_database(path):
    """A database with two verdicts for each of half a million bits."""
    with open(path, "w") as file:
        file.write(f"covered-db 2\ntop m\nsource 1 m.v\ninstance m m\npoints {2 * BITS}\n")
        for bit in range(BITS):
            file.write(f"t m q {bit} 01 = hit\nt m q {bit} 10 = missed\n")
        file.write("windows 0\nend\n")


def seconds(program, words):
    """The processor time of a call, which has to end with status 0."""
    start = resource.getrusage(resource.RUSAGE_CHILDREN)
    done = subprocess.run([program, *words], capture_output=True, text=True)
    end = resource.getrusage(resource.RUSAGE_CHILDREN)
    if done.returncode != 0:
        sys.exit(f"status {done.returncode}: {done.stderr[:200]}")
    return end.ru_utime + end.ru_stime - start.ru_utime - start.ru_stime


def change_all(program, command, addresses, before, after):
    """The processor time of the calls that change all these points, from one file to another."""
    taken = 0.0
    for place in range(0, len(addresses), AT_ONCE):
        points = [word for address in addresses[place : place + AT_ONCE] for word in ("-point", address)]
        taken += seconds(program, [command, "-o", after, *points, before])
        before = after
    return taken


def main():
    program = os.path.abspath(sys.argv[1])
    with tempfile.TemporaryDirectory() as folder:
        os.chdir(folder)
        write_database("m.db")
        addresses = [f"t m q {bit} {edge}" for bit in random.Random(1).sample(range(BITS), EXCLUDED // 2) for edge in ("01", "10")]
        read = sum(seconds(program, ["report", "m.db"]) for _ in range(3))
        excluded = change_all(program, "exclude", addresses, "m.db", "e.db")
        random.Random(2).shuffle(addresses)
        restored = change_all(program, "restore", addresses, "e.db", "r.db")
        with open("m.db") as first, open("r.db") as last:
            if first.read() != last.read():
                sys.exit("the restored text is another one")
        print(f"{EXCLUDED} of {2 * BITS} points: excluded {excluded:.2f} s, restored {restored:.2f} s, three reports {read:.2f} s")


if __name__ == "__main__":
    main()
