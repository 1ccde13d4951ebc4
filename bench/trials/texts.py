"""The text of a design, which also says on which line each statement and each term begins."""
from .designs import Always, Assign, Clocked, Instance
from .statements import Block, Case, Empty, For, If, Set, Task, statements_in


def range_text(declared):
    return f"[{declared.high.text()}:{declared.low.text()}] " if declared.high else ""


def declaration(declared, kind):
    """A declaration without its semicolon; `kind` is the words before the sign."""
    value = f" = {declared.initial}" if declared.initial else ""
    signed = "signed " if declared.signed and declared.kind != "integer" else ""
    words = f" [{':'.join(bound.text() for bound in declared.words)}]" if declared.words else ""
    return f"{kind} {signed}{range_text(declared)}{declared.name}{words}{value}"


def param_text(param):
    word = "localparam" if param.local else "parameter"
    return f"{word} {param.range_text}{param.name} = {param.value.text()}"


def needs_block(statement):
    """Whether an `else` after the statement would belong to an `if` in it."""
    while isinstance(statement, (If, For)):
        if isinstance(statement, If) and not statement.no:
            return True
        statement = statement.no if isinstance(statement, If) else statement.body
    return False


class ModuleText:
    """Writes one module. `lead` is what goes before the next line's text."""

    def __init__(self, module, name=None):
        self.module, self.name = module, name or module.name
        self.lines, self.depth, self.lead = [], 0, ""

    def put(self, text):
        self.lines.append("  " * self.depth + self.lead + text)
        self.lead = ""

    def mark(self, *terms):
        """These terms begin on the next line."""
        for term in terms:
            for inner in term.everything():
                inner.line = len(self.lines) + 1

    def write(self):
        """The lines of the module."""
        self.head()
        self.depth = 1
        self.declarations()
        for item in self.module.items:
            self.item(item)
        self.depth = 0
        self.put("endmodule")
        return self.lines

    def head(self):
        module = self.module
        header = [param_text(param) for param in module.params if param.header]
        ports = [declaration(it, self.port_words(it)) if module.ansi else it.name for it in module.ports]
        self.put(f"module {self.name}{' #(' + ', '.join(header) + ')' if header else ''}({', '.join(ports)});")

    @staticmethod
    def port_words(declared):
        return declared.direction + (" reg" if declared.kind == "reg" else "")

    def declarations(self):
        for param in self.module.params:
            if not param.header:
                self.put(param_text(param) + ";")
        for declared in [] if self.module.ansi else self.module.ports:
            words = declared.direction if declared.twice else self.port_words(declared)
            self.put(declaration(declared, words) + ";")
            if declared.twice:
                self.put(declaration(declared, declared.kind) + ";")
        for declared in self.module.declared:
            self.put(declaration(declared, declared.kind) + ";")
        for name in dict.fromkeys(name for item in self.module.items if isinstance(item, Always) for name in item.loops):
            self.put(f"integer {name};")

    def item(self, item):
        if isinstance(item, Assign):
            self.assign(item)
        elif isinstance(item, Always):
            self.always(item)
        elif isinstance(item, Instance):
            self.put(self.instance(item, item.module.name))
        else:
            self.put(item.text)

    def assign(self, item):
        for target, value in item.sets:
            self.mark(target, value)
        if item.declared:
            self.put(f"{declaration(item.declared, 'wire')} = {item.sets[0][1].text()};")
        else:
            self.put("assign " + ", ".join(f"{target.text()} = {value.text()}" for target, value in item.sets) + ";")

    @staticmethod
    def event_text(item):
        if isinstance(item, Clocked):
            return "(" + item.separator.join(f"{edge} {name}" for edge, name in item.events) + ")"
        if item.listed is None:
            return item.star
        return "(" + item.separator.join(item.listed) + ")"

    def always(self, item):
        self.lead = f"always @{self.event_text(item)} "
        self.statement(item.body)

    @staticmethod
    def instance(item, module_name):
        overrides = ", ".join(f".{name}({term.text()})" if item.overrides_by_name else term.text()
                              for name, term in item.overrides.items())
        given = [(name, term.text() if term else "") for name, term in item.connections.items()]
        joined = ", ".join(f".{name}({text})" if item.by_name else text for name, text in given)
        return f"{module_name} {'#(' + overrides + ') ' if overrides else ''}{item.name}({joined});"

    def mark_statement(self, statement):
        statement.line = len(self.lines) + 1

    def statement(self, statement):
        self.mark_statement(statement)
        write = {Block: self.block, If: self.branch, Case: self.case, For: self.loop, Set: self.set, Empty: self.empty,
                 Task: self.task}
        write[type(statement)](statement)

    def below(self, statement):
        self.depth += 1
        self.statement(statement)
        self.depth -= 1

    def block(self, statement):
        self.put("begin" + (f" : {statement.named}" if statement.named else ""))
        for inner in statement.statements:
            self.below(inner)
        self.put("end")

    def empty(self, statement):
        self.put(";")

    def task(self, statement):
        self.put(statement.written + ";")

    def set(self, statement):
        self.mark(statement.target, statement.value)
        self.put(f"{statement.target.text()} {'<=' if statement.queued else '='} {statement.value.text()};")

    def branch(self, statement):
        self.mark(statement.test)
        wrapped = statement.no and needs_block(statement.yes)
        self.put(f"if ({statement.test.text()})" + (" begin" if wrapped else ""))
        self.below(statement.yes)
        if wrapped:
            self.put("end")
        if statement.no:
            self.lead = "else "
            self.statement(statement.no)

    def loop(self, statement):
        name, sign = statement.variable, "+" if statement.step > 0 else "-"
        header = f"{name} = {statement.first}; {name} {'<' if statement.step > 0 else '>'} {statement.end}"
        self.put(f"for ({header}; {name} = {name} {sign} {abs(statement.step)})")
        self.below(statement.body)

    def case(self, statement):
        self.mark(statement.selector)
        self.put(f"{statement.kind} ({statement.selector.text()})")
        self.depth += 1
        for arm in statement.arms:
            self.mark(*arm.labels)
            self.lead = (", ".join(label.text() for label in arm.labels) or "default") + ": "
            self.statement(arm.body)
        self.depth -= 1
        self.put("endcase")


def source_texts(design):
    """The text of each source of a design, a list of modules with the top last, by its number."""
    texts = {}
    for module in design:
        lines = texts.setdefault(module.source, [])
        added = ModuleText(module).write()
        shift_lines(module, len(lines))
        lines.extend(added)
    return {number: "\n".join(lines) + "\n" for number, lines in sorted(texts.items())}


def shift_lines(module, by):
    """Counts the lines of a module from that of its source."""
    for term in module_terms(module):
        term.line += by
    for statement in module_statements(module):
        statement.line += by


def module_statements(module):
    """All statements of a module."""
    return [statement for item in module.items if isinstance(item, Always) for statement in statements_in(item.body)]


def module_terms(module):
    """All terms that are counted or in which some may be."""
    roots = [term for item in module.items if isinstance(item, Assign) for pair in item.sets for term in pair]
    roots += [term for statement in module_statements(module) for term in statement.texts()]
    return [inner for root in roots for inner in root.everything()]
