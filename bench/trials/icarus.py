"""Simulation by Icarus Verilog, what it prints of settled values, and the dump that it writes."""
import resource
import signal
import subprocess
from dataclasses import dataclass, field
from functools import lru_cache

from .copies import in_bench
from .stimuli import settled_digits
from .vectors import extend

UNREAD_KINDS = ("real", "realtime", "event", "string", "parameter")


class SimulationFault(Exception):
    """Icarus Verilog refuses the design, or the simulation does not end."""


def run(words, folder, seconds):
    """The output of a command, whose status must be 0, and which has so many seconds of processor time."""
    pipes = {"stdout": subprocess.PIPE, "stderr": subprocess.PIPE}
    with subprocess.Popen(words, cwd=folder, text=True, errors="replace", **pipes) as done:
        resource.prlimit(done.pid, resource.RLIMIT_CPU, (seconds, seconds))
        output, said = done.communicate()
    if done.returncode in (-signal.SIGXCPU, -signal.SIGKILL):
        raise SimulationFault(f"{words[0]} does not end")
    if done.returncode:
        raise SimulationFault(f"{words[0]} ends with {done.returncode}: {(said or output)[:500]}")
    return output


def build(folder):
    """Compiles `bench.v` in the folder."""
    run(["iverilog", "-g2001", "-s", "tb", "-o", "bench.vvp", "bench.v"], folder, 60)


@dataclass
class Settled:
    """What is settled after one step: the value of each signal and word, and the probes and last evaluation of each process.

    `entries` has for each clocked block the values with which each of its evaluations in the step began.
    """
    time: int
    values: dict
    probes: list = field(default_factory=list)
    acted: list = field(default_factory=list)
    entries: dict = field(default_factory=dict)


def simulate(folder, copy, words):
    """Runs the bench with these words, and gives what is settled after each step."""
    return read_settled(run(["vvp", "-n", "bench.vvp", *words], folder, 2), copy)


@lru_cache(maxsize=4)
def read_settled(output, copy):
    """What the output of a simulation says; that of one bench is mostly the same whatever is dumped."""
    lines, found, entries = iter(output.split("\n")), [], {}
    for line in lines:
        if line.startswith("A "):
            add_entry(line.split(), copy, entries)
        if line.startswith("T "):
            settled = Settled(int(line.split()[1]), {signal: settled_digits(next(lines)) for signal in copy.flat.things()})
            for _ in copy.probes:
                digits, time = next(lines).split()
                settled.probes.append(digits[::-1])
                settled.acted.append(time)
            settled.entries = entries.pop(settled.time, {})
            found.append(settled)
    return found


def add_entry(words, copy, entries):
    """Adds the values with which a clocked block begins, by its time and the block."""
    process = copy.process(words[1], int(words[2]))
    values = {signal: settled_digits(digits) for signal, digits in zip(process.used(), words[4:])}
    entries.setdefault(int(words[3]), {}).setdefault(process, []).append(values)


# ---------------------------------------------------------------- dumps

@dataclass
class Dump:
    """A dump: its variables by scope and name, its listed times, and the values of each code at each of them."""
    variables: dict = field(default_factory=dict)
    times: list = field(default_factory=list)
    values: list = field(default_factory=list)

    def find(self, path, width):
        """The code of the first variable of this path and size that holds a value."""
        return next((code for code, size, kind in self.variables.get(path, []) if size == width and kind not in UNREAD_KINDS), None)


def read_dump(file):
    """Reads a dump as Icarus Verilog writes it."""
    with open(file, encoding="ascii") as it:
        words = iter(it.read().split())
    dump, scopes, sizes = Dump(), [], {}
    for word in words:
        if word == "$enddefinitions":
            break
        section = list(iter(lambda: next(words), "$end"))
        if word == "$scope":
            scopes.append(section[1])
        elif word == "$upscope":
            scopes.pop()
        elif word == "$var":
            kind, size, code, name = section[0], int(section[1]), section[2], section[3].split("[")[0]
            dump.variables.setdefault(".".join([*scopes, name]), []).append((code, size, kind))
            sizes[code] = size
    read_changes(words, dump, sizes)
    return dump


def read_changes(words, dump, sizes):
    now = {}
    for word in words:
        if word[0] == "#":
            if dump.times and dump.times[-1] == int(word[1:]):
                continue
            dump.times.append(int(word[1:]))
            now = dict(now)
            dump.values.append(now)
        elif word[0] in "01xzXZ":
            now[word[1:]] = settled_digits(word[0])
        elif word[0] in "bB":
            code = next(words)
            now[code] = extend(settled_digits(word[1:]), sizes[code], word[1] in "xzXZ")


def write_dump(file, dump, bound):
    """Writes a dump of the bound signals; `dump.values` has for each time the digits of each of them."""
    with open(file, "w", encoding="ascii") as it:
        codes = {signal: f"v{number}" for number, signal in enumerate(bound)}
        for signal, code in codes.items():
            scopes = in_bench(signal.path).split(".")
            it.writelines(f"$scope module {scope} $end\n" for scope in scopes)
            it.write(f"$var wire {signal.width} {code} {signal.name} $end\n")
            it.writelines("$upscope $end\n" for _ in scopes)
        it.write("$enddefinitions $end\n")
        for time, values in zip(dump.times, dump.values):
            it.write(f"#{time}\n")
            it.writelines(f"b{digits} {codes[signal]}\n" for signal, digits in values.items())


def bind(flat, dump):
    """The code of each signal that the dump has, by its own name or by the first other name that has a variable."""
    found = {}
    for signal in flat.signals:
        names = [signal.full_name, *(name for name, it in flat.aliases if it is signal)]
        codes = (dump.find(in_bench(name), signal.width) for name in names)
        code = next((code for code in codes if code is not None), None)
        if code is not None:
            found[signal] = code
    return found
