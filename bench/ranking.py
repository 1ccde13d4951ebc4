#!/usr/bin/env python3
"""Rank generated tables in three ways, and print the times and the resident memory.

    bench/ranking.py PROGRAM [TABLES POINTS]

PROGRAM is crates/bench/out/bench, built by `rt run` in crates/bench. Without numbers it ranks 1,000 tables of 100,000
points.
"""
import os
import subprocess
import sys

PATTERNS = {
    "half": "half of all points each",
    "own": "few points of its own each",
    "rising": "more points each than the one before",
}


def main():
    if len(sys.argv) not in (2, 4):
        sys.exit(__doc__)
    program = sys.argv[1]
    tables, points = sys.argv[2:] or ["1000", "100000"]
    for pattern, name in PATTERNS.items():
        run = subprocess.Popen([program, "ranking", pattern, tables, points], stdout=subprocess.PIPE, text=True)
        millis, used, hit, _ = run.stdout.read().split()
        _, status, usage = os.wait4(run.pid, 0)
        print(f"{name}: {millis} ms, {used} used, {hit} of {points} points, {usage.ru_maxrss:,} kB resident memory")
        if status:
            sys.exit(os.waitstatus_to_exitcode(status))
    print(f"the bits of all tables take {int(tables) * int(points) // 8192:,} kB")


if __name__ == "__main__":
    main()
