"""What must hold of each run on whatever input, and of what it leaves behind."""
import os
import re

VALUES = {b"score": (b"-t", b"-i", b"-v", b"-vcd", b"-o", b"-D", b"-I", b"-states", b"-F"), b"merge": (b"-o",),
          b"report": (b"-d", b"-m", b"-o"), b"lcov": (b"-o",), b"exclude": (b"-o", b"-point"), b"restore": (b"-o", b"-point")}
COMMANDS = (b"merge", b"report", b"lcov", b"rank", b"exclude", b"restore")
NAMES = {
    "lex": ["BadByte", "BadNumber", "OpenComment", "OpenCondition", "UnknownDirective", "UnknownMacro", "MacroDepth",
            "TooManyTokens", "IncludeMissing", "SourcesTooLong", "TooManySources", "ExpansionTooLong"],
    "parse": ["Unexpected", "EarlyEnd", "TooDeep", "LeftOut"],
    "const": ["NotConstant", "TooWide", "LoopNotConstant", "LoopTooLong", "BadRange"],
    "elab": ["NoModule", "TwoModules", "Recursion", "Undeclared", "TwiceDeclared", "PortMismatch", "TwoDrivers", "MixedAssign",
             "Incomplete", "EventNotBit", "SelfAssign", "Limit", "WrongTarget", "WrongUse"],
    "points": ["NoState", "SameState", "TooManyPoints", "TooManyStates", "NoMachine"],
    "dump": ["BadHeader", "BadChange", "UnknownCode", "VectorTooLong", "TimeBack", "Truncated", "LongCode", "Gap", "DeepScope",
             "DumpTooLong", "TimeTooLarge", "HeaderTooLong"],
    "database": ["BadLine", "WrongVersion", "WrongCount", "DesignsDiffer", "DbTooLong"],
    "point": ["", "", "", "", "", "NoPoint", "AlreadyOut", "NotOut"],
}
CALLS = "open_read|read|open_write|write|close_write|print"
DOTTED = r"[A-Za-z_][\w$]*(?:\.[A-Za-z_][\w$]*)*"


def numbered(stage):
    """An expression for the number and the name of each fault of a stage."""
    return "(?:" + "|".join(f"{number} {name}" for number, name in enumerate(NAMES[stage], 1) if name) + ")"


def line_of(pattern):
    """An expression of a whole line."""
    return re.compile(pattern.encode() + rb"\n\Z", re.DOTALL | re.ASCII)


STAGES = "|".join(f"{stage} {numbered(stage)}" for stage in ("lex", "parse", "const", "elab", "points"))
LINES = {
    1: line_of(r"covered: usage: (?:no command|(?:unknown command|unknown word|bad value) (?P<word>.*)|(?P<given>.*) given twice"
               r"|(?P<needs>-\w+) needs a value|missing (?:-t|-i|-v|-vcd|-o|-point|file|NUMBER|STEPS))"),
    2: line_of(rf"covered: source: (?:{STAGES}|early)(?: (?P<detail>[^\n]*?))?(?: at (?P<file>[^\n]*):(?P<line>\d+):(?P<column>\d+))?"),
    3: line_of(rf"covered: dump: (?:{numbered('dump')} at byte (?P<byte>\d+)|bind (?:1 NoInstance [^\n]+|3 NoBaseline {DOTTED}))"),
    4: line_of(rf"covered: contradiction: {DOTTED} at \d+: dumped (?P<dumped>[01xz]+), computed (?P<computed>[01xz?]+)"),
    5: line_of(rf"covered: files: (?P<call>{CALLS}) (?P<name>[^\n]+)"),
    6: line_of(r"covered: memory"),
    7: line_of(rf"covered: database: (?P<name>[^\n]+): (?:{numbered('point')} [^\n]+"
               rf"|{numbered('database')}(?: (?P<line>\d+))?(?P<both>\n< [^\n]*\n> [^\n]*)?)"),
}

PRINTS = {
    b"report": rb"covered report 1\ntop [^\n]+\n(?:[^\n]*\n)*all [^\n]*\n\Z",
    b"rank": rb"covered rank 1\n(?:use \d+ \d+ [^\n]+\n)*(?:skip [^\n]+\n)*hit \d+ of \d+\n\Z",
    b"selfrun": rb"covered selfrun 1\ntimes \d+\npoints \d+\nhit \d+\nmissed \d+\nundetermined 0\n\Z",
}


def values(words, option):
    """The values of an option in the words of a command, read as the program reads them."""
    found, rest = [], iter(words[1:])
    for word in rest:
        if word in VALUES.get(words[0] if words else b"", ()):
            value = next(rest, None)
            if word == option and value is not None:
                found.append(value)
    return found


def output_of(words):
    """The name of the file that a command may write, or none."""
    found = values(words, b"-o")
    return os.path.normpath(os.fsdecode(found[0])) if found and found[0] else None


def databases(words):
    """The words of a command that name databases to be read."""
    found, rest = [], iter(words[1:] if words and words[0] in COMMANDS else [])
    for word in rest:
        if word in VALUES.get(words[0], ()):
            next(rest, None)
        else:
            found.append(word)
    return found


def is_utf8(words):
    """Whether all words are texts of UTF-8."""
    try:
        return b" ".join(words).decode() is not None
    except UnicodeDecodeError:
        return False


def place_faults(found, words, files):
    """What is wrong with the place of a message about sources."""
    if found["file"] is None:
        return
    name = os.fsdecode(found["file"])
    folder = os.fsdecode((values(words, b"-I") or [b""])[0])
    text = next((files[it] for it in (os.path.normpath(name), os.path.normpath(os.path.join(folder, name))) if it in files), None)
    if text is None:
        yield "place", f"{name} is no file of the run"
        return
    rows, row, column = text.split(b"\n"), int(found["line"]), int(found["column"])
    if not (1 <= row <= len(rows) and 1 <= column <= len(rows[row - 1]) + 1):
        yield "place", f"{name} has no {row}:{column}"


def message_faults(run, words, files):
    """What is wrong with the warning output of a run."""
    if run.status == 0:
        if run.err:
            yield "message", "a warning with the status 0"
        return
    found = LINES[run.status].match(run.err)
    if found is None:
        if run.err or run.status not in (5, 6) or is_utf8(words):
            yield "message", f"no message of the status {run.status}"
        return
    if run.status == 1 and any(found[it] is not None and found[it] not in words for it in ("word", "given", "needs")):
        yield "message", "a word is named that was not given"
    if run.status == 2:
        yield from place_faults(found, words, files)
    if run.status == 3 and found["byte"]:
        # a device has no end
        dumps = [files.get(os.path.normpath(os.fsdecode(it))) for it in values(words, b"-vcd")]
        if all(it is not None and int(found["byte"]) > len(it) for it in dumps):
            yield "place", "a byte behind the end of the dump"
    if run.status == 4 and len(found["dumped"]) != len(found["computed"]):
        yield "message", "values of two lengths"
    if run.status == 7:
        rows = files.get(os.path.normpath(os.fsdecode(found["name"])), b"").count(b"\n") + 1
        if found["line"] and int(found["line"]) > rows or (found["both"] is not None) != (b"DesignsDiffer" in run.err):
            yield "message", "a line that the database does not have, or lines of a difference without one"


def may_be(run, before):
    """A test of what the output file may hold after a run, before which it held the given text or was absent."""
    call = LINES[5].match(run.err) if run.status == 5 else None
    if run.status in (0, 6) or call and call["call"] in (b"write", b"close_write"):
        return lambda text: True
    if call and call["call"] == b"open_write":
        return lambda text: text in (before, b"")
    return lambda text: text == before


def file_faults(run, words, before, after):
    """What was written where it must not be."""
    name = output_of(words)
    for it in sorted(set(before) | set(after)):
        if it == name:
            if not may_be(run, before.get(it))(after.get(it)):
                yield "output", f"{it} was written with the status {run.status}"
        elif before.get(it) != after.get(it):
            yield "files", f"{it} was written, made or removed"
    if run.status == 0 and name and not name.startswith("/") and name not in after:
        yield "output", f"{name} was not written"


def print_faults(run, words):
    """What is wrong with the standard output."""
    printed = PRINTS.get(words[0]) if run.status == 0 and words and output_of(words) is None else None
    if printed is None:
        if run.out:
            yield "print", "something was printed"
    elif not re.match(printed, run.out):
        yield "print", f"no {os.fsdecode(words[0])} was printed"


def faults(run, words, before, after, limits):
    """The kind and the text of all that is wrong with a run, before and after which the folder held the given files."""
    if run.seconds > limits.seconds:
        yield "time", f"{run.seconds:.2f} s of the processor"
    if run.kilobytes > limits.megabytes << 10:
        yield "memory", f"{run.kilobytes} kB"
    if run.stopped:
        yield "stopped", f"for its {run.stopped}"
        return
    if run.signal or run.status > 7:
        yield "end", run.shown()
        return
    yield from message_faults(run, words, before)
    yield from file_faults(run, words, before, after)
    yield from print_faults(run, words)
