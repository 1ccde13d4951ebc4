"""Calls of every command over the examples: which files they find, and which databases are made for them first."""
import os

from .examples import tree

OUTPUT = "O"
TURNS = 10000
STATES = ("-states", "door=state:CLOSED,OPENING,OPEN,CLOSING")
DRAWN = ("-F", "door=state,state")
POINTS = [word for case in ("00", "10") for word in ("-point", f"c uart_tx 5 1:18 + {case}")]
WIDTH = "`define WIDTH 2\n"
PART = '`include "width.v"\nmodule part(input a, output y); assign y = ~a; endmodule\n'
WHOLE = "module whole(input [`WIDTH-1:0] a, output y); part p(a[`LOW], y); endmodule\n"
INVERTER = "module inv(input a, output y); assign y = ~a; endmodule\n"
HEAD = "$scope module tb $end $scope module dut $end $var wire {} ! a $end $var wire 1 # y $end $enddefinitions $end\n"


def score(top, source, dump, output=OUTPUT, *more, instance="tb.dut"):
    """The words of a score."""
    return ["score", "-t", top, "-i", instance, "-v", source, "-vcd", dump, "-o", output, *more]


BEFORE = [
    score("pads", "pads.v", "pads.vcd", "pads.db"), score("pads", "pads.v", "icarus.vcd", "icarus.db"),
    score("uart_tx", "uart_tx.v", "sent.vcd", "sent.db"), score("uart_tx", "uart_tx.v", "aborted.vcd", "aborted.db"),
    ["merge", "-o", "uart.db", "sent.db", "aborted.db"], ["exclude", "-o", "seen.db", *POINTS, "uart.db"],
    score("door", "door.v", "door.vcd", "door.db", *STATES, "-late"), score("fifo", "fifo.v", "some.vcd", "fifo.db"),
]

CALLS = {
    "score, inputs alone": score("pads", "pads.v", "pads.vcd"),
    f"score, the same dump {TURNS} times": score("pads", "pads.v", "long.vcd"),
    "score, registers": score("uart_tx", "uart_tx.v", "sent.vcd"),
    "score, without an input": score("uart_tx", "uart_tx.v", "no_data.vcd"),
    "score, off and on": score("ff", "ff.v", "gap.vcd"),
    "score, a memory": score("fifo", "fifo.v", "filled.vcd"),
    "score, named states": score("door", "door.v", "door.vcd", OUTPUT, *STATES),
    "score, drawn states": score("door", "door.v", "door.vcd", OUTPUT, *DRAWN),
    "score, both and late": score("door", "door.v", "door.vcd", OUTPUT, *STATES, *DRAWN, "-late"),
    "score, two sources and one included": score("whole", "part.v", "whole.vcd", OUTPUT, "-v", "whole.v", "-I", "inc", "-D", "LOW=0"),
    "merge of two": ["merge", "-o", OUTPUT, "sent.db", "aborted.db"],
    "merge into one of its files": ["merge", "-o", "sent.db", "sent.db", "aborted.db"],
    "report": ["report", "uart.db"],
    "report -d d": ["report", "-d", "d", "uart.db"],
    "report -d v": ["report", "-d", "v", "uart.db"],
    "report -d v of states": ["report", "-d", "v", "-m", "f", "door.db"],
    "report -d v of a memory": ["report", "-d", "v", "-m", "ltcfm", "fifo.db"],
    "report -i": ["report", "-i", "-d", "v", "cells.db"],
    "report -c": ["report", "-c", "-d", "d", "uart.db"],
    "report without excluded points": ["report", "-d", "v", "seen.db"],
    "report -o": ["report", "-o", OUTPUT, "uart.db"],
    "report -d v -o": ["report", "-d", "v", "-o", OUTPUT, "uart.db"],
    "report -i -c -o": ["report", "-i", "-c", "-d", "d", "-o", OUTPUT, "cells.db"],
    "lcov": ["lcov", "-o", OUTPUT, "uart.db"],
    "lcov of several modules": ["lcov", "-o", OUTPUT, "cells.db"],
    "rank": ["rank", "sent.db", "aborted.db", "uart.db"],
    "exclude": ["exclude", "-o", OUTPUT, *POINTS, "uart.db"],
    "exclude into the same file": ["exclude", "-o", "uart.db", *POINTS, "uart.db"],
    "restore": ["restore", "-o", OUTPUT, *POINTS[:2], "seen.db"],
    "restore of all": ["restore", "-o", OUTPUT, *POINTS, "seen.db"],
    "selfrun": ["selfrun", "7", "100"],
    "refused: words": ["score", "-t", "pads", "-i"],
    "refused: a source": score("pads", "bad.v", "pads.vcd"),
    "refused: a state": score("door", "door.v", "door.vcd", OUTPUT, "-states", "door=state:CLOSED,OPENED"),
    "refused: a dump": score("pads", "pads.v", "bad.vcd"),
    "refused: an instance": score("pads", "pads.v", "icarus.vcd", instance="tb.other"),
    "refused: a contradiction": score("inv", "inv.v", "inv.vcd"),
    "refused: an absent dump": score("pads", "pads.v", "none.vcd"),
    "refused: no database": ["report", "pads.v"],
    "refused: two designs": ["merge", "-o", OUTPUT, "pads.db", "uart.db"],
    "refused: a point": ["exclude", "-o", OUTPUT, *POINTS[:2], "-point", "c uart_tx 5 1:18 + 99", "uart.db"],
}


def repeated(dump, turns):
    """A dump whose body comes so many times, each time later than before."""
    head, end, body = dump.decode().partition("$enddefinitions $end\n")
    lines = body.splitlines()
    span = max(int(it[1:]) for it in lines if it.startswith("#")) + 1
    again = [f"#{int(it[1:]) + turn * span}" if it.startswith("#") else it for turn in range(turns) for it in lines]
    return "\n".join([head + end + again[0], *again[1:], ""]).encode()


def files(root):
    """The files that the calls find, by their names, of a repository in this folder."""
    found = {}
    for name in ("pads", "uart", "door", "fifo", "cells"):
        found |= tree(os.path.join(root, "examples", name))
    gap = tree(os.path.join(root, "cases", "dump-with-gap"))
    texts = {"inc/width.v": WIDTH, "part.v": PART, "whole.v": WHOLE, "inv.v": INVERTER, "bad.v": "module pads(input clk;\n",
             "whole.vcd": HEAD.format("2") + "#0 b01 ! 0#\n#5 b10 ! 1#\n#10 b11 ! 0#\n",
             "inv.vcd": HEAD.format("1") + "#0 0! 1#\n#5 1! 1#\n#10 0!\n"}
    return found | {name: text.encode() for name, text in texts.items()} | {
        "ff.v": gap["ff.v"], "gap.vcd": gap["D"], "long.vcd": repeated(found["pads.vcd"], TURNS),
        "no_data.vcd": found["sent.vcd"].replace(b" data [7:0] ", b" other "), "bad.vcd": found["pads.vcd"] + b"2!\n"}


def named(words, found):
    """Those of the files that a call may read: the ones that its words name, and what lies in a folder that they name."""
    return {name: text for name, text in found.items() if name in words or name.split("/")[0] in words}
