"""A walk over the tokens of a source by the rules of the grammar.

It stops at the token at which the fault is certain, as the program does, and knows what could stand there. Of a source
without a fault it keeps what the tools ask for: devices, specifications, tasks and transfers.
"""

from dataclasses import dataclass, field

from .tokens import Token, Tokens, tokens

STATEMENTS, BRACKETS, DYADIC, MONADIC, STRUCTS = 32, 32, 100, 8, 8

OPERATORS = {"**", "*", "//", "REM", "><", "+", "-", "<>", "SHIFT", "<", ">", "<=", ">=", "==", "/=", "AND", "OR", "EXOR"}
SIGNS = {"+", "-", "ABS", "SIGN", "NOT"}
LITERALS = {"number", "decimal", "clock", "bits", "text"}
EXPRESSIONS = SIGNS | LITERALS | {"id", "(", "NOW", "TRY", "LWB", "UPB"}
LOOPS = ["FOR", "FROM", "BY", "TO", "WHILE", "REPEAT"]
STARTS = ["AT", "AFTER", "WHEN", "ALL"]
LENGTHS = ["FIXED", "BIT", "CHAR"]
BASIC = LENGTHS + ["CLOCK", "DURATION"]
FREE_ITEMS = ["A", "B", "B1", "B2", "B3", "B4", "X", "SKIP"]
WIDE_ITEMS = ["F", "T", "D"]
STATEMENT = {";", "id", "CALL", "IF", "CASE", "EXIT", "BEGIN", "RETURN", "ACTIVATE", "CONTINUE", "SUSPEND", "TERMINATE",
             "PREVENT", "REQUEST", "RELEASE", "ENABLE", "DISABLE", "TRIGGER", "PUT", "GET", "SEND", "TAKE", *LOOPS, *STARTS}


class Fault(Exception):
    """The token at which no source begins any more with the tokens so far, and what could stand there."""

    def __init__(self, index, token, wanted, limit="", opened=None):
        super().__init__(token.place)
        self.index, self.token, self.wanted, self.limit, self.opened = index, token, wanted, limit, opened


@dataclass
class Device:
    """A device of the system part."""

    word: str
    number: int
    place: int


@dataclass
class Spec:
    """A name of the problem part that stands for a device: its use is INTERRUPT, ALPHIC or BASIC."""

    name: str
    place: int
    use: str
    direction: str = ""
    kind: tuple = ()


@dataclass
class Task:
    """A task with its declared priority, or none."""

    name: str
    place: int
    priority: int | None
    main: bool


@dataclass
class Item:
    """An item of a format."""

    word: str
    width: int | None
    place: int


@dataclass
class Transfer:
    """PUT, GET, SEND or TAKE: its dation, how many values or targets it has, and its items."""

    word: str
    place: int
    dation: str = ""
    dation_place: int = 0
    count: int = 0
    items: list = field(default_factory=list)


class Walk:
    """Reads the tokens of one source, from the left to the right."""

    # What a walk that goes on behind faults keeps of them.
    stray = faults = ()

    def __init__(self, source):
        """The source as text with a character for each byte; raises NoToken or Fault."""
        self.prepare(tokens(source), len(source))
        self.module()

    def prepare(self, all_tokens, end):
        self.tokens = Tokens([*all_tokens, Token("end", "", end, end, "end")])
        self.at, self.term, self.wanted, self.deep, self.opened = 0, self.tokens[0].term, [], 0, []
        self.devices, self.specs, self.tasks, self.transfers, self.known = {}, [], [], [], set()
        self.semaphores = []
        self.lengths = {"FIXED": 31, "BIT": 1, "CHAR": 1}

    # Tokens.

    @property
    def token(self):
        return self.tokens[self.at]

    def sees(self, terms, name=""):
        """Whether the token is one of these; else they are kept as what could stand here, under a name or each."""
        if self.term in terms:
            return True
        self.wanted += [name] if name else terms if isinstance(terms, list) else [terms]
        return False

    def reads(self, words, name):
        """Whether the token is a name that is spelled as one of these; else the name is kept as what could stand here."""
        if self.term == "id" and self.token.text in words:
            return True
        self.wanted.append(name)
        return False

    def step(self):
        token = self.token
        self.at, self.wanted = self.at + 1, []
        self.term = self.tokens[self.at].term
        return token

    def skip(self, term):
        """Passes this token where it stands here."""
        if self.sees([term]):
            self.step()
            return True
        return False

    def take(self, *terms):
        """Passes one of these tokens, which must stand here."""
        if not self.sees(list(terms)):
            self.fail()
        return self.step()

    def fail(self, limit=""):
        raise Fault(self.at, self.token, list(dict.fromkeys(self.wanted)), limit, self.opened[-1] if self.opened else None)

    def name(self):
        if not self.sees(["id"], "a name"):
            self.fail()
        return self.step()

    def number(self):
        if not self.sees(["number"], "a number"):
            self.fail()
        return int(self.step().text.lstrip("0") or "0")

    def several(self, part):
        """One part, or more with commas between them."""
        found = [part()]
        while self.skip(","):
            found.append(part())
        return found

    def in_brackets(self, part):
        self.take("(")
        found = part()
        self.take(")")
        return found

    # The module.

    def module(self):
        self.take("MODULE")
        if self.skip("("):
            self.name()
            self.take(")")
        elif self.sees(["id"], "a name"):
            self.step()
        self.take(";")
        if self.skip("SYSTEM"):
            self.take(";")
            self.each(self.device, ["PROBLEM"])
        self.take("PROBLEM")
        self.take(";")
        self.each(self.declaration, ["MODEND"])
        self.take("MODEND")
        self.skip(";")
        if self.term != "end":
            self.wanted.append("the end of the source")
            self.fail()

    def each(self, part, ends):
        """Parts up to one of these ends."""
        while not self.sees(ends):
            part()

    def head(self, part, *_ends):
        """The part that stands before a body, up to one of these ends."""
        part()

    def device(self):
        name = self.name()
        self.take(":")
        if not self.sees(["INTERRUPT"]) and not self.sees(["id"], "TERMINAL, INPUT, OUTPUT"):
            self.fail()
        word = self.step()
        number = self.in_brackets(self.number)
        self.take(";")
        told = word.term if word.term == "INTERRUPT" else word.text
        self.devices.setdefault(name.text, Device(told, number, name.place))

    def declaration(self):
        if self.skip("LENGTH"):
            word = self.take(*LENGTHS)
            number = self.in_brackets(self.number)
            self.take(";")
            if 1 <= number <= {"FIXED": 63, "BIT": 64, "CHAR": 255}[word.term]:
                self.lengths[word.term] = number
        elif self.skip("TYPE"):
            self.name()
            self.typing(0)
            self.take(";")
        elif self.skip("DCL"):
            self.several(self.declared)
            self.take(";")
        elif self.skip("SPC"):
            self.several(self.specified)
            self.take(";")
        elif self.sees(["id"], "the name of a task or procedure"):
            name = self.step()
            self.take(":")
            self.known.add(name.text)
            if self.sees(["TASK", "PROC"]):
                self.opened.append(self.step())
                self.head(lambda: (self.task if self.opened[-1].term == "TASK" else self.procedure)(name), ";")
                self.take(";")
                self.body()
                self.take("END")
                self.opened.pop()
                self.take(";")
            else:
                self.fail()
        else:
            self.fail()

    def task(self, name):
        priority, main = None, False
        if self.skip("PRIO"):
            priority = self.number()
            main = self.skip("MAIN")
        elif self.skip("MAIN"):
            main = True
            if self.skip("PRIO"):
                priority = self.number()
        self.tasks.append(Task(name.text, name.place, priority, main))

    def procedure(self, _):
        if self.sees(["("]):
            self.in_brackets(lambda: self.several(self.parameter))
        if self.skip("RETURNS"):
            self.in_brackets(self.basic)

    def parameter(self):
        self.names()
        self.basic()
        self.skip("IDENT")

    def names(self):
        if self.skip("("):
            found = self.several(self.name)
            self.take(")")
        else:
            found = [self.name()]
        self.known.update(it.text for it in found)
        return found

    def declared(self):
        names = self.names()
        if self.skip("SEMA"):
            self.semaphores += [it.text for it in names]
            if self.skip("PRESET"):
                self.in_brackets(lambda: self.several(self.number))
        else:
            self.item_behind_names()

    def item(self):
        self.names()
        self.item_behind_names()

    def item_behind_names(self):
        if self.sees(["("]):
            self.bounds()
        self.skip("INV")
        self.typing(0)
        if self.skip("INIT"):
            self.in_brackets(lambda: self.several(self.constant))

    def bounds(self):
        self.in_brackets(lambda: self.several(self.bound))

    def bound(self):
        self.integer()
        if self.skip(":"):
            self.integer()

    def integer(self):
        self.skip("-")
        self.number()

    def typing(self, depth):
        if self.sees(["STRUCT"]):
            if depth == STRUCTS:
                self.fail(f"STRUCT stands at most {STRUCTS} deep within one another")
            self.step()
            self.take("[")
            self.several(lambda: self.member(depth + 1))
            self.take("]")
        elif self.sees(["id"], "the name of a TYPE"):
            self.step()
        else:
            self.basic()

    def member(self, depth):
        self.names()
        if self.sees(["("]):
            self.bounds()
        self.typing(depth)

    def basic(self):
        """A basic type, as its sort and its length."""
        word = self.take(*BASIC).term
        if word not in LENGTHS:
            return word, 0
        if self.sees(["("]):
            return word, self.in_brackets(self.number)
        return word, self.lengths[word]

    def specified(self):
        names = self.names()
        if self.skip("INTERRUPT"):
            self.specs += [Spec(it.text, it.place, "INTERRUPT") for it in names]
            return
        self.take("DATION")
        direction = self.take("IN", "OUT", "INOUT").term
        use, kind = self.take("ALPHIC", "BASIC").term, ()
        if use == "BASIC":
            kind = self.basic()
        if self.reads(["CONTROL"], "CONTROL"):
            self.step()
            self.in_brackets(lambda: self.take("ALL"))
        self.specs += [Spec(it.text, it.place, use, direction, kind) for it in names]

    def constant(self):
        if not self.skip("+"):
            self.skip("-")
        if not self.sees(LITERALS, "a literal"):
            self.fail()
        self.literal()

    # Bodies and statements.

    def body(self):
        while self.skip("DCL"):
            self.several(self.item)
            self.take(";")
        self.each(self.statement, ["END"])

    def deeper(self):
        if self.deep == STATEMENTS:
            self.fail(f"IF, CASE, REPEAT and BEGIN stand at most {STATEMENTS} deep within one another")
        self.deep += 1
        self.opened.append(self.token)

    def statement(self):
        if not self.sees(STATEMENT, "a statement"):
            self.fail()
        word = self.term
        if word in LOOPS:
            self.loop()
        elif word == "id":
            self.by_name()
        elif word in STARTS:
            self.scheduled()
        else:
            token = self.token
            if word in ("IF", "CASE", "BEGIN"):
                self.deeper()
            self.step()
            self.FORMS.get(word, Walk.empty)(self, token)

    def empty(self, _):
        """Behind `;`, which is a statement."""

    def call(self, _):
        self.name()
        if self.sees(["("]):
            self.in_brackets(lambda: self.several(lambda: self.expression(0)))
        self.take(";")

    def by_name(self):
        self.step()
        shape = ""
        while self.term in ("(", "."):
            shape += self.selector(0)
        self.sees(["(", "."])
        if shape in ("", "(") and self.skip(";"):
            return
        self.take(":=")
        self.expression(0)
        self.take(";")

    def condition(self, _):
        self.head(lambda: self.expression(0), "THEN")
        self.take("THEN")
        self.each(self.statement, ["ELSE", "FIN"])
        if self.skip("ELSE"):
            self.each(self.statement, ["FIN"])
        self.close("FIN")

    def choice(self, _):
        self.head(lambda: self.expression(0), "ALT")
        self.take("ALT")
        self.each(self.statement, ["ALT", "OUT", "FIN"])
        while self.skip("ALT"):
            self.each(self.statement, ["ALT", "OUT", "FIN"])
        if self.skip("OUT"):
            self.each(self.statement, ["FIN"])
        self.close("FIN")

    def close(self, word):
        self.take(word)
        self.deep -= 1
        self.opened.pop()
        self.take(";")

    def loop(self):
        self.deeper()
        self.head(self.steps, "REPEAT")
        self.take("REPEAT")
        self.body()
        self.close("END")

    def steps(self):
        """What stands before REPEAT."""
        if self.skip("FOR"):
            self.name()
        for word in ["FROM", "BY", "TO", "WHILE"]:
            if self.skip(word):
                self.expression(0)

    def begin(self, _):
        self.body()
        self.close("END")

    def leave(self, _):
        self.take(";")

    def result(self, _):
        if self.sees(["("]):
            self.in_brackets(lambda: self.expression(0))
        self.take(";")

    def scheduled(self):
        """A statement that begins with a schedule: RESUME and CONTINUE stand behind a single moment alone."""
        once = True
        if self.term in ("AT", "AFTER"):
            self.step()
            self.expression(0)
        elif self.term == "WHEN":
            self.step()
            self.name()
            if self.skip("AFTER"):
                once = False
                self.expression(0)
        if self.skip("ALL"):
            once = False
            self.expression(0)
            if self.skip("UNTIL") or self.skip("DURING"):
                self.expression(0)
        if self.skip("ACTIVATE"):
            self.activate(None)
        elif once and self.skip("CONTINUE"):
            self.one_name(None)
        elif once and self.skip("RESUME"):
            self.take(";")
        else:
            self.fail()

    def activate(self, _):
        self.name()
        if self.skip("PRIO"):
            self.expression(0)
        self.take(";")

    def one_name(self, _):
        self.name()
        self.take(";")

    def perhaps_name(self, _):
        if self.sees(["id"], "a name"):
            self.step()
        self.take(";")

    def many_names(self, _):
        self.several(self.name)
        self.take(";")

    def put(self, token):
        transfer = Transfer("PUT", token.place)
        if not self.sees(["TO"]):
            transfer.count = len(self.several(lambda: self.expression(0)))
        self.take("TO")
        self.formatted(transfer)

    def get(self, token):
        transfer = Transfer("GET", token.place)
        if not self.sees(["FROM"]):
            transfer.count = len(self.several(self.target))
        self.take("FROM")
        self.formatted(transfer)

    def formatted(self, transfer):
        self.to_dation(transfer)
        self.take("BY")
        transfer.items = self.several(self.format_item)
        self.take(";")

    def to_dation(self, transfer):
        name = self.name()
        transfer.dation, transfer.dation_place = name.text, name.place
        self.transfers.append(transfer)

    def send(self, token):
        self.expression(0)
        self.take("TO")
        self.to_dation(Transfer("SEND", token.place, count=1))
        self.take(";")

    def take_value(self, token):
        self.target()
        self.take("FROM")
        self.to_dation(Transfer("TAKE", token.place, count=1))
        self.take(";")

    def format_item(self):
        place, width = self.token.place, None
        if self.reads(FREE_ITEMS, "an item of a format"):
            word = self.step().text
            if self.sees(["("]):
                width = self.in_brackets(self.number)
        elif self.reads(WIDE_ITEMS, "an item of a format"):
            word = self.step().text
            width = self.in_brackets(self.number)
        else:
            self.fail()
        return Item(word, width, place)

    FORMS = {"CALL": call, "IF": condition, "CASE": choice, "EXIT": leave, "BEGIN": begin, "RETURN": result,
             "ACTIVATE": activate, "CONTINUE": one_name, "SUSPEND": perhaps_name, "TERMINATE": perhaps_name,
             "PREVENT": perhaps_name, "REQUEST": many_names, "RELEASE": many_names, "ENABLE": one_name,
             "DISABLE": one_name, "TRIGGER": one_name, "PUT": put, "GET": get, "SEND": send, "TAKE": take_value}

    # Expressions.

    def expression(self, depth):
        self.operand(depth)
        count = 0
        while self.sees(OPERATORS, "an operator"):
            if count == DYADIC:
                self.fail(f"an expression has at most {DYADIC} operators outside its brackets")
            self.step()
            self.operand(depth)
            count += 1

    def operand(self, depth):
        count = 0
        while self.term in SIGNS:
            if count == MONADIC:
                self.fail(f"at most {MONADIC} signs stand before an operand")
            self.step()
            count += 1
        if not self.sees(EXPRESSIONS, "an expression"):
            self.fail()
        self.primary(depth)

    def primary(self, depth):
        word = self.term
        if word in LITERALS:
            if self.literal() and self.sees(["LWB", "UPB"], "LWB, UPB"):
                self.step()
                self.reference(depth)
        elif word == "id":
            self.reference(depth)
        elif word == "(":
            self.bracket(depth)
            self.expression(depth + 1)
            self.take(")")
        elif word == "NOW":
            self.step()
        elif word == "TRY":
            self.step()
            self.name()
        else:
            self.step()
            self.reference(depth)

    def bracket(self, depth):
        if depth == BRACKETS:
            self.fail(f"brackets stand at most {BRACKETS} deep within one another")
        self.step()

    def reference(self, depth):
        self.name()
        while self.term in ("(", "."):
            if self.term == "(" and depth == BRACKETS:
                self.bracket(depth)
            self.selector(depth + 1)
        self.sees(["(", "."])

    def target(self):
        """A reference whose own brackets aren't counted."""
        self.name()
        while self.term in ("(", "."):
            self.selector(0)
        self.sees(["(", "."])

    def selector(self, depth):
        """What stands in brackets or behind a point; `(` or `.`."""
        if self.step().text == ".":
            self.name()
            return "."
        self.several(lambda: self.expression(depth))
        self.take(")")
        return "("

    def literal(self):
        """Passes a literal; whether it is a number without a unit."""
        word = self.step().sort
        if word == "decimal":
            self.take("SEC")
        if word != "number":
            return False
        if not self.sees(["HRS", "MIN", "SEC"], "a unit of time"):
            return True
        unit = self.step().term
        if unit == "HRS" and self.sees(["number"], "a number"):
            self.step()
            if self.take("MIN", "SEC").term == "MIN":
                self.seconds()
        elif unit == "HRS":
            self.decimal_seconds()
        elif unit == "MIN":
            self.seconds()
        return False

    def seconds(self):
        if self.sees(["number"], "a number"):
            self.step()
            self.take("SEC")
        else:
            self.decimal_seconds()

    def decimal_seconds(self):
        if self.sees(["decimal"], "a number"):
            self.step()
            self.take("SEC")
