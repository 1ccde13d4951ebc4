"""Compares a database with what the simulation hits and with what the dump leaves open."""
import re
from collections import Counter

from .points import head_of, points_of, tail_of

UNDETERMINED = re.compile(r"\? (\d+) (\S+)$")


def is_drawn(address):
    """Whether a point is of a drawn machine: the names of its states are digits."""
    return address.startswith("f ") and address.split()[3][0].isdigit()


def read_verdicts(text, head, points, tail):
    """The verdict of each point in order, and what is wrong with the form of the database."""
    lines = text.split("\n")
    want = [*head, *(point.address for point in points), *tail, ""]
    addresses = [line.partition(" = ")[0] if line[:2] in ("l ", "c ", "t ", "f ", "m ") else line for line in lines]
    pairs = enumerate(zip(want, addresses), 1)
    faults = [f"line {number} is `{got}` instead of `{it}`" for number, (it, got) in pairs if it != got]
    if len(want) != len(addresses):
        faults.append(f"{len(addresses)} lines instead of {len(want)}")
    return [line.partition(" = ")[2] for line in lines[len(head):len(head) + len(points)]], faults[:3]


class Comparison:
    """The faults of a database: of its form, and of its verdicts. All of `runs` show the dump."""

    def __init__(self, flat, sources, runs, doubts):
        self.doubts, self.points = doubts, points_of(flat)
        self.head, self.tail = head_of(flat, sources, len(self.points)), tail_of(runs[0].dump.times)
        self.hits = [run.hits() for run in runs]
        self.named = {it.full_name: it for it in flat.signals + flat.memories}
        self.counts, self.verdicts = Counter(), []

    def faults(self, text):
        verdicts, found = read_verdicts(text, self.head, self.points, self.tail)
        self.verdicts = verdicts
        if found:
            return found
        for point, verdict in zip(self.points, verdicts):
            fault = self.fault(point, verdict)
            if fault:
                found.append(f"{point.address} = {verdict}: {fault}")
        return found

    def fault(self, point, verdict):
        """What is wrong with the verdict, if something is; `times` are those at which each run hits the point."""
        times = [point.times(hits) for hits in self.hits]
        word = verdict if verdict in ("hit", "missed") else "undetermined"
        self.counts[word] += 1
        if point.address.startswith("m "):
            self.counts[f"words {word}"] += 1
        if is_drawn(point.address):
            self.counts[f"drawn {word}"] += 1
        check = self.undetermined_fault if word == "undetermined" else self.decided_fault
        return check(point, verdict, times)

    def decided_fault(self, point, verdict, times):
        """A point that is hit in no run, or in each at a listed time."""
        for number, found in enumerate(times):
            if verdict == "hit" and not found:
                return f"run {number} does not hit it"
            if verdict == "missed" and found:
                return f"run {number} hits it at {found}"
        if verdict == "hit" and not set.intersection(*map(set, times)) & self.doubts.listed:
            return f"the runs hit it at {times}, and all of them at no listed time"
        reached = self.doubts.reached_at(point) if verdict == "missed" else None
        return f"its block reaches it at {reached}" if reached is not None else None

    def undetermined_fault(self, point, verdict, times):
        match = UNDETERMINED.match(verdict)
        if not match:
            return "no verdict"
        time, named = int(match[1]), self.named.get(match[2])
        if time not in self.doubts.times(point) or named is None:
            return "no time of the window that a reason has, or no signal or memory"
        self.counts["reasons at hidden times"] += time not in self.doubts.listed
        if named not in self.doubts.doubtful(point, time):
            names = sorted(it.full_name for it in self.doubts.doubtful(point, time))
            return f"not in doubt there; in doubt are {names}"
        sure = [time for found in times for time in found if not self.doubts.doubtful(point, time)]
        if sure:
            return f"nothing is in doubt at {sure}, where a run hits it"
        reached = self.doubts.reached_at(point)
        return f"its block reaches it at {reached}" if reached is not None else None
