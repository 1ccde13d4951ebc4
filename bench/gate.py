#!/usr/bin/env python3
"""Processor time of the gate, by crate: of proofs, tests and wrong bodies.

    bench/gate.py            runs the gate from nothing in this repository, and prints a table when it ends
    bench/gate.py --pid PID  watches a run of `rt ci` that has begun

The processes below the run are looked at twice a second. Times are user and system time in seconds; what a process
uses after the last look at it is lost, which is less than a second for each process.
"""
import os
import re
import subprocess
import sys
import time

TICK = os.sysconf("SC_CLK_TCK")
KINDS = ["proof", "tests", "wrong bodies", "other"]


def processes():
    """The parent and the processor seconds of each process, by its number and start."""
    found = {}
    for name in os.listdir("/proc"):
        if not name.isdigit():
            continue
        try:
            with open(f"/proc/{name}/stat") as file:
                fields = file.read().rsplit(")", 1)[1].split()
        except OSError:
            continue
        found[int(name)] = (int(fields[1]), fields[19], (int(fields[11]) + int(fields[12])) / TICK)
    return found


def below(root, found):
    """The processes that descend from a process."""
    members = {root}
    grown = True
    while grown:
        more = {pid for pid, entry in found.items() if entry[0] in members} - members
        grown = bool(more)
        members |= more
    return members - {root}


def kind_of(pid):
    """Of which crate a process is, and what it does for it."""
    try:
        with open(f"/proc/{pid}/cmdline", "rb") as file:
            words = file.read().decode(errors="replace").split("\0")
        folder = os.readlink(f"/proc/{pid}/cwd")
    except OSError:
        return None
    if "--crate-name" not in words:
        return ("-", "other")
    crate = words[words.index("--crate-name") + 1]
    if re.search(r"rt-edit|must-fail", folder):
        return (crate, "wrong bodies")
    return (crate, "tests" if "--test" in words else "proof")


def from_nothing():
    """What has `rt ci` prove all again: a kit that keeps what has passed takes a word for it, and others keep nothing."""
    said = subprocess.run(["rt", "help"], capture_output=True, text=True, check=False)
    return ["--anew"] if "--anew" in said.stdout + said.stderr else []


def main():
    if sys.argv[1:2] == ["--pid"]:
        root, run = int(sys.argv[2]), None
    else:
        run = subprocess.Popen(["rt", "ci", *from_nothing()])
        root = run.pid
    begun, seconds, kinds = time.time(), {}, {}
    while (run.poll() is None) if run else os.path.exists(f"/proc/{root}"):
        found = processes()
        for pid in below(root, found):
            key = (pid, found[pid][1])
            if key not in kinds or kinds[key] is None or kinds[key][0] == "-":
                kinds[key] = kind_of(pid)
            seconds[key] = found[pid][2]
        time.sleep(0.5)
    table = {}
    for key, used in seconds.items():
        crate, kind = kinds[key] or ("-", "other")
        table.setdefault(crate, dict.fromkeys(KINDS, 0.0))[kind] += used
    print("| Crate | " + " | ".join(KINDS) + " |")
    print("|---|" + "---|" * len(KINDS))
    for crate in sorted(table, key=lambda name: -sum(table[name].values())):
        print(f"| `{crate}` | " + " | ".join(f"{table[crate][kind]:.0f}" for kind in KINDS) + " |")
    print("| all | " + " | ".join(f"{sum(row[kind] for row in table.values()):.0f}" for kind in KINDS) + " |")
    print(f"{(time.time() - begun) / 60:.0f} minutes on {os.cpu_count()} processors")
    return run.returncode if run else 0


sys.exit(main())
