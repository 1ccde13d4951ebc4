"""A dump that says the same in more words: values that do not last, values again, times again, and times without a change.

More times are not the same where the dump lacks an input, since nothing is hit at one that is not listed.
"""
from .icarus import read_dump
from .vectors import digits_of

END = "$enddefinitions $end\n"


def change_line(chance, code, digits):
    """A change of a code, in one of the forms that it may have."""
    digits = digits.upper() if chance.random() < 0.2 else digits
    if len(digits) == 1 and chance.random() < 0.6:
        return digits + code
    if digits[0] == "0" and len(digits) > 1 and digits[1] in "01" and chance.random() < 0.5:
        digits = digits.lstrip("0") or "0"
        digits = digits if digits[0] == "1" else "0" + digits
    return f"{chance.choice('bB')}{digits} {code}"


def noisy_step(chance, time, lines, settled):
    """The lines of one step: at times with values before the last, with those that stay, and with its time twice."""
    codes = [code for code in settled if chance.random() < 0.3]
    before = [change_line(chance, code, "".join(chance.choice("01xz") for _ in settled[code])) for code in codes]
    changed = {line.split()[-1] if line[0] in "bB" else line[1:] for line in lines if line[0] != "$"}
    after = [change_line(chance, code, settled[code]) for code in codes if code not in changed]
    again = [f"#{time}"] if chance.random() < 0.3 else []
    return [f"#{time}", *before, *again, *lines, *after]


def add_noise(file, chance):
    """Rewrites a dump with noise; between two of its times there may be one without a change."""
    dump, steps = read_dump(file), []
    with open(file, encoding="ascii") as it:
        header, _, body = it.read().partition(END)
    for line in body.splitlines():
        if line.startswith("#"):
            steps.append([])
        elif line:
            steps[-1].append(line)
    lines = []
    for number, (time, values, step) in enumerate(zip(dump.times, dump.values, steps)):
        settled = {code: digits_of(value) for code, value in values.items()}
        lines += noisy_step(chance, time, step, settled) if chance.random() < 0.7 else [f"#{time}", *step]
        if number + 1 < len(steps) and time + 2 < dump.times[number + 1] and chance.random() < 0.2:
            lines.append(f"#{time + 2}")
    with open(file, "w", encoding="ascii") as it:
        it.write(header + END + "\n".join(lines) + "\n")


def add_times(file, chance):
    """Lists more times of a dump, at which it has no change."""
    share, last = chance.choice([0.0, 0.0, 0.0, 0.05, 0.3, 0.9]), None
    with open(file, encoding="ascii") as it:
        header, _, body = it.read().partition(END)
    lines = []
    for line in body.splitlines():
        if line.startswith("#"):
            time = int(line[1:])
            lines += [f"#{more}" for more in range(time if last is None else last + 1, time) if chance.random() < share]
            last = time
        lines.append(line)
    with open(file, "w", encoding="ascii") as it:
        it.write(header + END + "\n".join(lines) + "\n")
