"""Random expressions, targets and numbers within the limits of the language: 128 bits, constant selects in range."""
from . import terms, vectors
from .terms import Binary, Bit, Choice, Concat, Name, Number, Paren, Part, Sign, Slide, Unary, decimal
from .words import SelectOfWord, WordOf

WIDEST = 128
BASES = {"b": 1, "o": 3, "h": 4}


def random_width(chance):
    return chance.choices([1, chance.randrange(2, 9), chance.randrange(9, 34), chance.randrange(34, 129)], [35, 42, 15, 8])[0]


def based_digits(digits, base):
    """Digits of base 2 in another base, as far as it has them; `z` is also written `?`."""
    size = BASES[base]
    digits = digits.rjust(-(-len(digits) // size) * size, digits[0] if digits[0] in "xz" else "0")
    groups = [digits[k:k + size] for k in range(0, len(digits), size)]
    if not all(set(group) <= set("01") or len(set(group)) == 1 for group in groups):
        return None
    return "".join(group[0] if group[0] in "xz" else f"{int(group, 2):x}" for group in groups)


def random_number(chance, width=None, unknown=0.06, ignored=0.0):
    """A literal: sized of base 2, 8, 10 or 16, or a plain decimal. `ignored` is how many digits are z, written `?`."""
    if width is None and chance.random() < 0.35:
        return decimal(chance.choice([0, 1, 2, 3, chance.randrange(256), chance.randrange(1 << 16)]))
    width = width or random_width(chance)
    digits = "".join(chance.choice("xz") if chance.random() < unknown else "z" if chance.random() < ignored else chance.choice("01")
                     for _ in range(width))
    signed = chance.random() < 0.25
    base = chance.choice("bboh")
    written = based_digits(digits, base) or based_digits(digits, base := "b")
    if ignored:
        written = written.replace("z", "?")
    if chance.random() < 0.2 and set(digits) <= set("01"):
        base, written = "d", str(int(digits, 2))
    base = chance.choice([base, base.upper()])
    text = f"{width}'{chance.choice('sS') if signed else ''}{base}{written}"
    return Number(text, vectors.of_digits(digits), signed)


class Expressions:
    """Makes expressions in one module. `scopes` has the meaning of its names for each way in which its parameters are set."""

    def __init__(self, chance, scopes):
        self.chance, self.scopes = chance, scopes
        self.readable, self.constants, self.memories = [], [], []

    def width(self, term):
        """The greatest width that a term has alone."""
        return max(term.own_width(scope) for scope in self.scopes)

    def bounds(self, name):
        """The indexes that a signal has whatever the parameters are, or None where it has none."""
        signals = [scope.find(name) for scope in self.scopes]
        if not all(it.ranged for it in signals):
            return None
        low = max(min(it.high, it.low) for it in signals)
        high = min(max(it.high, it.low) for it in signals)
        return (low, high) if low <= high else None

    def falls(self, name):
        """Whether the range of a signal falls, which is the same whatever the parameters are."""
        signal = self.scopes[0].find(name)
        return signal.high >= signal.low

    def one_direction(self, name):
        return len({it.find(name).high >= it.find(name).low for it in self.scopes if it.find(name).width > 1}) < 2

    # ---------------------------------------------------------------- leaves

    def leaf(self):
        chance = self.chance
        if self.memories and chance.random() < 0.15:
            return self.word()
        form = chance.choices(["name", "select", "number", "constant"], [60, 22, 12, 6])[0]
        if form == "number" or not self.readable:
            return random_number(chance)
        if form == "constant" and self.constants:
            return Name(chance.choice(self.constants))
        name = self.pick()
        return self.select(name) if form == "select" else Name(name)

    def word(self):
        """A word of a memory, or some bits of it."""
        name, chance = self.chance.choice(self.memories), self.chance
        word = WordOf(name, self.word_index(name))
        if chance.random() < 0.75:
            return word
        select = self.select(name)
        return word if isinstance(select, Name) else SelectOfWord(word, select)

    def word_bounds(self, name):
        """The indexes that a memory has whatever the parameters are."""
        ends = [sorted((it.first, it.last)) for it in (scope.find(name) for scope in self.scopes)]
        return max(low for low, _ in ends), min(high for _, high in ends)

    def word_index(self, name):
        """An index of a memory: constant, a signal, bits of one, or an expression, which may name no word."""
        chance, (low, high) = self.chance, self.word_bounds(name)
        form = chance.choices(["constant", "strange", "name", "bits", "sum", "term"], [20, 4, 22, 30, 14, 12])[0]
        if form == "strange":
            return self.strange_index()
        index = None if form == "constant" or not self.readable else self.signal_index(form, low, high)
        if index and all(index.mentions(scope) and index.own_width(scope) <= 32 for scope in self.scopes):
            return self.with_own_width(index)
        return self.constant_index(low, high)

    def strange_index(self):
        """An index with x bits: mostly, as far as a signal says so, since Icarus Verilog fails at some constant ones."""
        digits = "".join(self.chance.choice("01xz") for _ in range(2)) + "x"
        number = Number(f"3'b{digits}", vectors.of_digits(digits), False)
        narrow = [name for name in self.readable if max(scope.find(name).width for scope in self.scopes) <= 3]
        if not narrow or self.chance.random() < 0.15:
            return number
        return Concat([Binary(self.chance.choice("&|^"), Name(self.chance.choice(narrow)), number)])

    def with_own_width(self, index):
        """An index between braces where it is an operator on what has a size: Icarus Verilog cuts no sum in an index."""
        is_operator = isinstance(terms.bare(index), (Unary, Binary, Choice))
        return Concat([index]) if is_operator and self.has_size(index) else index

    def constant_index(self, low, high):
        """A number in the range, or a parameter that is."""
        names = [name for name in self.constants if name[0] in "WPL" and all(self.is_within(scope.find(name), low, high)
                                                                              for scope in self.scopes)]
        if names and self.chance.random() < 0.4:
            return Name(self.chance.choice(names))
        return decimal(self.chance.randint(low, high))

    @staticmethod
    def is_within(constant, low, high):
        index = vectors.index(constant.vector, constant.signed)
        return index is not None and low <= index <= high

    def signal_index(self, form, low, high):
        """An index that names a signal, at times one of more bits than the words need."""
        chance = self.chance
        if form == "term":
            return self.term(chance.choice([1, 1, 2]))
        name = self.pick()
        bounds, bits = self.bounds(name), max(high.bit_length(), 1)
        if bounds and form != "name" and bounds[1] - bounds[0] >= bits and self.one_direction(name):
            last = bounds[0] + bits - 1
            index = Part(name, *map(decimal, (last, bounds[0]) if self.falls(name) else (bounds[0], last)))
        else:
            narrow = [it for it in self.readable if max(scope.find(it).width for scope in self.scopes) <= bits]
            index = Name(chance.choice(narrow)) if narrow and chance.random() < 0.7 else Name(name)
        if form == "sum":
            index = Binary(chance.choice("+-^"), index, decimal(chance.randint(0, max(low, 2))))
        return index

    def pick(self):
        """A readable name; later ones, which depend on more, are likelier."""
        if self.chance.random() < 0.4:
            return self.chance.choice(self.readable[-6:])
        return self.chance.choice(self.readable)

    def select(self, name, constant=False):
        """Some bits of a signal, or all where it has no range."""
        bounds, chance = self.bounds(name), self.chance
        if not bounds or not self.one_direction(name):
            return Name(name)
        low, high = bounds
        index = None if constant else self.index(high)
        form = chance.choice(["bit", "part", "slide", "any bit", "any slide"][:5 if index else 3])
        if form == "bit":
            return Bit(name, decimal(chance.randint(low, high)))
        if form == "any bit":
            return Bit(name, index)
        first, last = sorted(chance.randint(low, high) for _ in range(2))
        if form == "part":
            ends = (last, first) if self.falls(name) else (first, last)
            return Part(name, *map(decimal, ends))
        up, size = chance.random() < 0.6, decimal(last - first + 1)
        if form == "slide":
            return Slide(name, decimal(first if up else last), size, up)
        return Slide(name, index, size, up)

    def index(self, high):
        """An index that is not constant, if a name is narrow enough. Icarus Verilog takes one of 2^31 or more as negative."""
        chance = self.chance
        narrow = [name for name in self.readable if max(scope.find(name).width for scope in self.scopes) <= 8]
        if not narrow:
            return None
        term = Name(chance.choice(narrow))
        if chance.random() < 0.3:
            term = Binary(chance.choice("+^&"), term, decimal(chance.randint(0, high)))
        return term

    # ---------------------------------------------------------------- operators

    def term(self, depth):
        """An expression at most so deep."""
        if depth <= 0 or self.chance.random() < 0.2:
            return self.leaf()
        forms = {self.unary: 16, self.bitwise: 22, self.arithmetic: 12, self.compared: 14, self.shifted: 8, self.logic: 10,
                 self.choice: 10, self.concat: 6, self.sign: 2}
        made = self.chance.choices(list(forms), list(forms.values()))[0](depth - 1)
        if self.width(made) > WIDEST:
            return self.leaf()
        return Paren(made) if self.chance.random() < 0.08 else made

    def unary(self, depth):
        """An operator before an operand; seldom `+`, which Icarus Verilog leaves out where a bit is x or z."""
        operators = ["!", "~", "&", "~&", "|", "~|", "^", "~^", "^~", "-", "+"]
        return Unary(self.chance.choices(operators, [8, 12, 6, 6, 6, 6, 6, 6, 6, 6, 0.4])[0], self.term(depth))

    def two(self, operators, depth):
        return Binary(self.chance.choice(operators), self.term(depth), self.term(depth))

    def bitwise(self, depth):
        return self.two(["&", "&", "|", "|", "^", "~^", "^~"], depth)

    def arithmetic(self, depth):
        return self.two(["+", "+", "-", "-", "*", "/", "%"], depth)

    def compared(self, depth):
        return self.two(["==", "==", "!=", "<", "<=", ">", ">=", "===", "!=="], depth)

    def logic(self, depth):
        return self.two(["&&", "||"], depth)

    def shifted(self, depth):
        amount = decimal(self.chance.randrange(10)) if self.chance.random() < 0.5 else self.leaf()
        return Binary(self.chance.choice(["<<", ">>", "<<<", ">>>", ">>>"]), self.term(depth), amount)

    def choice(self, depth):
        return Choice(self.term(depth), self.term(depth), self.term(depth))

    def sign(self, depth):
        return Sign(self.chance.random() < 0.5, self.term(depth))

    def concat(self, depth):
        """A concatenation, repeated at times; its parts have a size."""
        chance = self.chance
        parts = [it if self.has_size(it) else self.sized_leaf() for it in (self.term(depth) for _ in range(chance.randint(1, 3)))]
        count = decimal(chance.randint(1, 4)) if chance.random() < 0.3 else None
        made = Concat(parts, count)
        return made if self.width(made) <= WIDEST else self.leaf()

    def sized_leaf(self):
        return Name(self.pick()) if self.readable else random_number(self.chance, 4)

    def has_size(self, term):
        """Whether no number or constant without a size gives the term its width."""
        if isinstance(term, Number):
            return "'" in term.text()
        if isinstance(term, Name):
            return not isinstance(self.scopes[0].find(term.name()), terms.Constant)
        if isinstance(term, (Sign, Paren)) or isinstance(term, Unary) and term.is_wide():
            return self.has_size(term.operand)
        if isinstance(term, Choice):
            return self.has_size(term.yes) and self.has_size(term.no)
        if isinstance(term, Binary) and term.word in terms.WIDE:
            return self.has_size(term.left) and self.has_size(term.right)
        return self.has_size(term.left) if isinstance(term, Binary) and term.word in vectors.SHIFTS else True

    # ---------------------------------------------------------------- targets

    def target(self, names):
        """A target of a block: a signal or some bits of it, or several side by side."""
        chance = self.chance
        if len(names) > 1 and chance.random() < 0.15:
            picked = chance.sample(names, 2)
            made = Concat([self.one_target(name) for name in picked])
            return made if self.width(made) <= WIDEST else Name(picked[0])
        return self.one_target(chance.choice(names))

    def one_target(self, name):
        return Name(name) if self.chance.random() < 0.6 else self.select(name)
