"""The example cases as words and files, with what can be run on the databases that they expect."""
import os
import re
import tomllib

COMMANDS = ("score", "merge", "report", "lcov", "rank", "exclude", "restore", "selfrun")
LONGEST = 20000
POINT = re.compile(rb"^([ltcfm] .*) = ", re.MULTILINE)


class Example:
    """The words of a call and the files it finds, and whether it is accepted as it is."""

    def __init__(self, name, words, files, accepted=True):
        self.name, self.words, self.files, self.accepted = name, words, files, accepted


def tree(folder, skip=()):
    """The files below a folder by their names there, except those of the names to skip."""
    found = {}
    for root, folders, files in os.walk(folder):
        folders[:] = sorted(name for name in folders if root != folder or name not in skip)
        for name in sorted(files):
            path = os.path.join(root, name)
            if root != folder or name not in skip:
                with open(path, "rb") as it:
                    found[os.path.relpath(path, folder)] = it.read()
    return found


def of_databases(name, files):
    """Calls over the databases among some files: reports in several forms, a tracefile, merges, rankings and excluded points."""
    texts = [text for text in files.values() if text.startswith(b"covered-db ")]
    for text in texts[:1]:
        one = {"a.db": text}
        yield Example(f"{name}: report", ["report", "-d", "v", "-m", "ltcfm", "a.db"], one)
        yield Example(f"{name}: report -i", ["report", "-i", "-c", "-d", "d", "-o", "B", "a.db"], one)
        yield Example(f"{name}: lcov", ["lcov", "-o", "B", "a.db"], one)
        yield Example(f"{name}: merge", ["merge", "-o", "B", "a.db", "b.db"], {"a.db": text, "b.db": texts[-1]})
        yield Example(f"{name}: rank", ["rank", "a.db", "b.db"], {"a.db": text, "b.db": texts[-1]})
        points = POINT.findall(text)[:2]
        words = [word for address in points for word in ("-point", address.decode())]
        if points:
            yield Example(f"{name}: exclude", ["exclude", "-o", "B", *words, "a.db"], one)
        # excluded points are in texts of version 2 alone
        if points and text.startswith(b"covered-db 2\n"):
            excluded = b"covered-ex 1\nexcluded %d\n%s\n" % (len(points), b"\n".join(points)) + text
            yield Example(f"{name}: restore", ["restore", "-o", "B", *words[:2], "a.db"], {"a.db": excluded})
            yield Example(f"{name}: report of excluded", ["report", "-d", "v", "a.db"], {"a.db": excluded})


def of_case(folder, name):
    """The examples of the folder of one case."""
    with open(os.path.join(folder, "case.toml"), "rb") as it:
        table = tomllib.load(it)
    files = tree(folder, ("case.toml", "expect"))
    if table["words"] and table["words"][0] in COMMANDS:
        yield Example(name, table["words"], files, table["status"] == 0)
    expected = tree(os.path.join(folder, "expect"))
    yield from of_databases(name, {**files, **expected})


def examples(folder):
    """The examples of all cases of a folder whose files are short."""
    found = []
    for name in sorted(os.listdir(folder)):
        if os.path.isfile(os.path.join(folder, name, "case.toml")):
            found += of_case(os.path.join(folder, name), name)
    return [it for it in found if sum(map(len, it.files.values())) <= LONGEST]


def kind(text):
    """What a file is, by its first bytes: a database, a dump or a source."""
    if text.startswith((b"covered-db", b"covered-ex")):
        return "database"
    return "dump" if text.lstrip().startswith(b"$") else "source"
