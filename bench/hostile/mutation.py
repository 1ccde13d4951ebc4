"""Damage of texts and of words. Each change takes a random source, the text, and a function that gives another text."""
import re

TOKEN = re.compile(rb"[A-Za-z_$`][A-Za-z0-9_$]*|[0-9]+|\s+|.", re.DOTALL)
NUMBER = re.compile(rb"[0-9]+")
NUMBERS = [b"0", b"1", b"2", b"63", b"64", b"65", b"127", b"128", b"129", b"255", b"256", b"1023", b"1024", b"1025", b"65535",
           b"65536", b"65537", b"262144", b"999999999", b"1000000000", b"1048575", b"1048576", b"1048577", b"2147483648",
           b"4294967295", b"4294967296", b"9223372036854775807", b"9223372036854775808", b"18446744073709551615",
           b"18446744073709551616", b"340282366920938463463374607431768211456", b"1" + b"0" * 60, b"007"]
BYTES = [0, 9, 10, 11, 12, 13, 31, 32, 34, 35, 36, 39, 40, 41, 42, 45, 46, 47, 59, 91, 92, 93, 96, 123, 125, 126, 127, 128, 255]
PIECES = {
    "source": [b"module m(input a);", b"endmodule", b"module", b"(", b")", b"[", b"]", b"{", b"}", b"begin", b"end", b"if (a)",
               b"else", b"case (a)", b"casez (a)", b"endcase", b"default:", b"for (i = 0; i < 1024; i = i + 1)", b"integer i;",
               b"always @*", b"always @(posedge clk)", b"assign", b"initial", b"wire", b"reg", b"[0:65535]", b"[127:0]",
               b"[128:0]", b"input", b"output", b"signed", b"parameter P = 1;", b"localparam", b"<=", b"=", b"?", b":", b"+:",
               b"-:", b"+", b"-", b"/ 0", b"% 0", b"*", b"<<", b">>>", b"===", b"&&", b"~", b"4'bx1z0", b"128'hx", b"'d", b"'s",
               b"1'b0", b"{128{1'b1}}", b"{0{a}}", b"$signed(", b"$display(", b'"', b"//", b"/*", b"*/", b"(*", b"*)", b"\\",
               b"`define M `M", b"`M", b"`define N", b"`ifdef M", b"`else", b"`elsif N", b"`endif", b"`undef M",
               b'`include "x.v"', b'`include "m.v"', b'`include "."', b"`line", b"`timescale", b"`", b";", b",", b".", b"#(",
               b"@", b"#1", b"**", b"function", b"generate", b"inout", b"u();", b"u(.a(a));", b"or", b"posedge"],
    "dump": [b"$scope module tb $end", b"$scope module", b"$upscope $end", b"$var wire 1 ! a $end", b"$var reg 999999999 ! a $end",
             b"$var real 1 ! a $end", b"$var", b"$end", b"$enddefinitions $end", b"$comment", b"$dumpvars", b"$dumpoff",
             b"$dumpall", b"$dumpon", b"#", b"#0", b"#5", b"#9223372036854775807", b"#9223372036854775808", b"0!", b"1!", b"x!",
             b"z!", b"b", b"bx !", b"bz1 !", b"b0101 !", b"r1.5 !", b"sabc !", b"b" + b"1" * 300 + b" !", b"[3:0]", b"\\a",
             b"12345678", b"123456789", b"!", b"module"],
    "database": [b"covered-db 1\n", b"covered-db 2\n", b"top m\n", b"source 1 m.v\n", b"source 2 n.v\n", b"instance m m\n",
                 b"instance m.u n\n", b"points 0\n", b"points 1\n", b"points 4294967295\n", b"end\n", b" = hit\n", b" = missed\n",
                 b" = ? 5 m.a\n", b"? ", b"= ", b"hit", b"l m 1 1:1 if = hit\n", b"c m 1 1:1 & 0- = missed\n",
                 b"t m a - 01 = hit\n", b"f m s A = hit\n", b"f m s A B = hit\n", b"m m w 0 r = hit\n", b" ", b"\n", b"\r\n", b"-"],
}
SPECIAL = [b"", b" ", b"-", b"--", b"-o", b"-t", b"-i", b"-v", b"-vcd", b"-D", b"-I", b"-states", b"-late", b"-d", b"-m", b"-c",
           b"score", b"merge", b"report", b"lcov", b"selfrun", b"-h", b"--help", b".", b"./B", b"sub/B", b"none/B", b"/dev/full",
           b"/dev/null", b"B/", b"a\nb", b"\xff", b"\xc3\xa4", b"A=B:C,D", b"m=q:A,B", b"A=1", b"A=`A", b"A=/*", b"A", b"=", b"A=",
           b"ltcfm", b"s", b"d", b"v", b"x" * 10000, b"x" * 300, b"tb..dut", b".tb", b"tb.dut.", b"tb dut", b"1", b"m\t"]


def place(random, text):
    """A place in a text."""
    return random.randrange(len(text) + 1)


def flip(random, text, _):
    """Some bits the other way."""
    made = bytearray(text)
    for _ in range(random.choice((1, 1, 2, 8)) if made else 0):
        made[random.randrange(len(made))] ^= 1 << random.randrange(8)
    return bytes(made)


def replace(random, text, _):
    """Some bytes replaced."""
    made = bytearray(text)
    for _ in range(random.choice((1, 1, 3)) if made else 0):
        made[random.randrange(len(made))] = random.choice(BYTES)
    return bytes(made)


def insert(random, text, _):
    """A byte put in between, at times many times."""
    at = place(random, text)
    return text[:at] + bytes([random.choice(BYTES)]) * random.choice((1, 1, 2, 70, 300, 2000)) + text[at:]


def remove(random, text, _):
    """A part left out."""
    at = place(random, text)
    return text[:at] + text[at + random.choice((1, 2, 5, 20, 100)):]


def lines(random, text, _):
    """Lines dropped, doubled, repeated or exchanged."""
    made = text.splitlines(keepends=True)
    if not made:
        return text
    at, to = random.randrange(len(made)), random.randrange(len(made))
    how = random.randrange(5)
    if how == 0:
        del made[at]
    elif how == 1:
        made.insert(at, made[at])
    elif how == 2:
        made[at], made[to] = made[to], made[at]
    elif how == 3:
        made[min(at, to):max(at, to)] *= random.choice((0, 2, 3, 10))
    else:
        made[at:at] = [made[at]] * random.choice((10, 100, 400))
    return b"".join(made)


def number(random, text, _):
    """A number replaced, mostly by a huge one or one at a limit."""
    found = list(NUMBER.finditer(text))
    if not found:
        return text
    it = random.choice(found)
    return text[:it.start()] + random.choice(NUMBERS) + text[it.end():]


def cut(random, text, _):
    """The beginning or the end alone."""
    at = place(random, text)
    return text[:at] if random.random() < 0.7 else text[at:]


def join(random, text, other):
    """The text and another one, or a beginning of the one and an end of the other."""
    more = other()
    how = random.randrange(4)
    if how == 0:
        return text + more
    if how == 1:
        return more + text
    if how == 2:
        return text[:place(random, text)] + more[place(random, more):]
    at = place(random, text)
    return text[:at] + more + text[at:]


def tokens(random, text, other):
    """A token dropped, exchanged, repeated, or taken from elsewhere."""
    made = TOKEN.findall(text)
    if not made:
        return text
    at, to = random.randrange(len(made)), random.randrange(len(made))
    how = random.randrange(5)
    if how == 0:
        del made[at]
    elif how == 1:
        made[at], made[to] = made[to], made[at]
    elif how == 2:
        made[at] = made[to]
    elif how == 3:
        made[at] = random.choice(TOKEN.findall(other()) or [b""])
    else:
        made[at] *= random.choice((2, 64, 65, 256, 257, 3000))
    return b"".join(made)


def nest(random, text, _):
    """A part with many signs before and after it that open and close."""
    made = TOKEN.findall(text)
    at = place(random, made)
    to = min(len(made), at + random.choice((1, 1, 3, 20)))
    before, after = random.choice(((b"(", b")"), (b"{", b"}"), (b"{1{", b"}}"), (b"begin ", b" end"), (b"if (a) ", b""),
                                   (b"~", b""), (b"a ? ", b" : 1"), (b"`ifdef A\n", b"\n`endif\n"), (b"case (a) 1: ", b" endcase"),
                                   (b"$scope module a $end ", b" $upscope $end"), (b"[", b"]"), (b"- ", b""), (b"1 + ", b"")))
    count = random.choice((2, 10, 60, 64, 65, 120, 250, 256, 257, 1000))
    return b"".join(made[:at]) + before * count + b"".join(made[at:to]) + after * count + b"".join(made[to:])


def piece(random, text, _):
    """A piece of one of the languages put in between."""
    at = place(random, text)
    them = random.choice(PIECES[random.choice(list(PIECES))])
    return text[:at] + random.choice((b" ", b"\n", b"")) + them + random.choice((b" ", b"\n", b"")) + text[at:]


def space(random, text, _):
    """Other line ends, or one line."""
    return text.replace(b"\n", random.choice((b"\r\n", b" ", b"\r", b"\n\n", b"\\\n", b"\v", b"\0")))


CHANGES = [flip, replace, insert, remove, lines, lines, number, number, cut, join, tokens, tokens, nest, piece, piece, space]


def damaged(random, text, other, longest):
    """A text after one or several changes, of at most so many bytes."""
    for _ in range(random.choice((1, 1, 1, 2, 2, 3, 5, 9))):
        text = random.choice(CHANGES)(random, text, other)[:longest]
    return text


def damaged_word(random, word, words):
    """A word with a change."""
    how = random.randrange(5)
    if how == 0:
        return random.choice(SPECIAL)
    if how == 1:
        return random.choice(words)
    if how == 2 and word:
        return flip(random, word, None)
    if how == 3:
        return number(random, word, None)
    return insert(random, word, None)


def damaged_words(random, words):
    """Words after one or several changes: dropped, doubled, exchanged, added or changed. They hold no zero byte."""
    made = list(words)
    for _ in range(random.choice((1, 1, 2, 3))):
        at = random.randrange(len(made)) if made else 0
        how = random.randrange(6)
        if how == 0:
            del made[at:at + random.choice((1, 1, 2))]
        elif how == 1:
            made[at:at] = made[at:at + random.choice((1, 2))]
        elif how == 2 and made:
            to = random.randrange(len(made))
            made[at], made[to] = made[to], made[at]
        elif how == 3:
            made.insert(at, random.choice(SPECIAL))
        elif made:
            made[at] = damaged_word(random, made[at], words)
    return [word.replace(b"\0", b"0") for word in made]


def safe(word):
    """Whether a word names nothing outside of the folder of the run."""
    return word in SPECIAL or not (word.startswith(b"/") or b".." in word)
