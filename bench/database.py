#!/usr/bin/env python3
"""Time the merge of a database of a million points with itself, and its reading alone.

    database.py PROGRAM

A merge reads the file twice, joins the two tables and writes the text, which is to be that of the file. The reading alone
is a merge that is refused after both files are read: the second file is of another design. The least processor time of
three runs is printed.
"""
import os
import resource
import subprocess
import sys
import tempfile

POINTS = 1000000


def write_database(path, top):
    """A database with two verdicts for each of half a million bits."""
    with open(path, "w") as file:
        file.write(f"covered-db 1\ntop {top}\nsource 1 m.v\ninstance {top} m\npoints {POINTS}\n")
        for n in range(POINTS // 2):
            file.write(f"t {top} data_output_register {n} 01 = hit\n")
            file.write(f"t {top} data_output_register {n} 10 = ? {n} {top}.control_signal\n")
        file.write("end\n")


def seconds(words, status):
    """The least processor time of three runs that end with this status."""
    least = None
    for _ in range(3):
        start = resource.getrusage(resource.RUSAGE_CHILDREN)
        done = subprocess.run(words, capture_output=True, text=True)
        end = resource.getrusage(resource.RUSAGE_CHILDREN)
        if done.returncode != status:
            sys.exit(f"status {done.returncode}: {done.stderr[:200]}")
        taken = end.ru_utime + end.ru_stime - start.ru_utime - start.ru_stime
        least = taken if least is None else min(least, taken)
    return least


def main():
    program = os.path.abspath(sys.argv[1])
    with tempfile.TemporaryDirectory() as folder:
        os.chdir(folder)
        write_database("m.db", "m")
        write_database("n.db", "n")
        read = seconds([program, "merge", "-o", "all.db", "m.db", "n.db"], 7)
        merged = seconds([program, "merge", "-o", "all.db", "m.db", "m.db"], 0)
        with open("m.db") as before, open("all.db") as after:
            if before.read() != after.read():
                sys.exit("the merge is another text")
        print(f"{POINTS} points: read twice {read:.2f} s, joined and written {merged - read:.2f} s")


if __name__ == "__main__":
    main()
