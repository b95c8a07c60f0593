"""The lines of a journal, and why one is refused."""

import difflib
import re
from dataclasses import dataclass

from .places import MARK, MARKED, character

LAST = 2**40
MOST_NUMBER = 2**63 - 1
WORDS = {
    "clock": "clock 12:00:00", "run": "run N", "tick": "tick N", "pass": "pass D N", "irpt": "irpt K",
    "chars": "chars K 'TEXT'", "line": "line K 'TEXT'", "value": "value K V", "turn": "turn NAME", "state": "state",
}
CLOCK = re.compile(r"(\d+):(\d+):(\d+)(?:\.(\d+))?", re.A)
TEXT = re.compile(r"'(?:[ -&(-~]|'')*'")
BITS = re.compile(r"'([0-9A-Za-z]*)'B([1-4]?)")
SPAN = re.compile(
    r"(?:(\d+)[ \t]*HRS(?:[ \t]+|$))?(?:(\d+)[ \t]*MIN(?:[ \t]+|$))?(?:(\d+)(?:\.(\d{1,3}))?[ \t]*SEC)?", re.A)


class Bad(Exception):
    """A line that is refused: the code, the column of its fault (from 0, in bytes), and the reason."""

    def __init__(self, code, column, why):
        super().__init__(why)
        self.code, self.column, self.why = code, column, why


@dataclass
class Entry:
    """An accepted line: its word, and its numbers, texts or values."""

    word: str
    device: int = 0
    count: int = 0
    picks: int = 0
    value: object = None
    kind: tuple = ()


@dataclass
class Plant:
    """What a journal may name: inputs with their kinds, terminals with their directions, interrupts and tasks."""

    inputs: dict
    terminals: dict
    outputs: dict
    interrupts: dict
    tasks: list

    @classmethod
    def of(cls, walk):
        """The devices that the problem part specifies, and the tasks, of a source that was read."""
        plant = cls({}, {}, {}, {}, [task.name for task in walk.tasks])
        for spec in walk.specs:
            device = walk.devices.get(spec.name)
            if device:
                place = {"INPUT": plant.inputs, "OUTPUT": plant.outputs, "TERMINAL": plant.terminals,
                         "INTERRUPT": plant.interrupts}.get(device.word, {})
                place.setdefault(device.number, spec)
        return plant

    def named(self, sort, number):
        """The name of the device, where it is specified."""
        spec = {"input": self.inputs, "output": self.outputs, "terminal": self.terminals,
                "interrupt": self.interrupts}[sort].get(int(number))
        return spec.name if spec else None


def value_of(digits):
    digits = digits.lstrip("0")
    return int(digits or "0") if len(digits) < 30 else 10**30


class Line:
    """A line that is being read, cut into words."""

    def __init__(self, text, plant, first, moment):
        self.text, self.plant, self.first, self.moment = text, plant, first, moment
        self.words = [(found[0], found.start()) for found in re.finditer(r"[^ \t]+", text)]

    def bad(self, code, at, why):
        """A fault at the word with this number, or behind the last one."""
        column = self.words[at][1] if at < len(self.words) else len(self.text.rstrip(" \t"))
        return Bad(code, column, why)

    def count(self, number):
        """Asks for so many words."""
        word = self.words[0][0]
        if len(self.words) > number:
            raise self.bad(1, number, f"nothing stands behind `{WORDS[word]}`; a comment stands on a line of its own")
        self.at_least(number)

    def at_least(self, number):
        word = self.words[0][0]
        if len(self.words) < number:
            raise self.bad(1, len(self.words), f"something is missing: the line is `{WORDS[word]}`")

    def number(self, at, what):
        word = self.words[at][0]
        if not re.fullmatch(r"\d+", word, re.A):
            raise self.bad(1, at, f"{what} is digits alone, and `{word}` isn't")
        if value_of(word) > MOST_NUMBER:
            raise self.bad(1, at, f"{what} is at most 2^63 - 1")
        return value_of(word)

    def rest(self, at):
        """Where the word with this number begins, and all from there on without blanks at the end."""
        column = self.words[at][1]
        return column, self.text[column:].rstrip(" \t")

    def entry(self):
        word = self.words[0][0]
        if word not in WORDS:
            near = difflib.get_close_matches(word.lower(), WORDS, 1)
            hint = f"; is `{near[0]}` meant?" if near else f": a line begins with {', '.join(WORDS)} or #"
            raise self.bad(1, 0, f"no line begins with `{word}`{hint}")
        return getattr(self, f"{word}_line")()

    def clock_line(self):
        self.count(2)
        value, why = clock(self.words[1][0])
        if why:
            raise self.bad(1, 1, why)
        if not self.first:
            raise self.bad(1, 0, "`clock` stands only as the first entry: before any other line but comments")
        return Entry("clock", value=value)

    def run_line(self):
        self.count(2)
        return Entry("run", picks=self.number(1, "N"))

    def tick_line(self):
        self.count(2)
        return Entry("tick", count=self.passing(self.number(1, "N")))

    def pass_line(self):
        if len(self.words) == 2:
            raise self.bad(1, 2, "N is missing: `pass D N` lets D milliseconds pass, and up to N actions in each of them")
        self.count(3)
        count, picks = self.number(1, "D"), self.number(2, "N")
        return Entry("pass", count=self.passing(count), picks=picks)

    def passing(self, count):
        if self.moment + count > LAST:
            moment = self.moment + count
            raise self.bad(3, 1, f"the moment would be {moment}, and no run goes past {LAST} milliseconds (2^40)")
        return count

    def irpt_line(self):
        self.count(2)
        number = self.number(1, "K")
        self.specified(number, self.plant.interrupts, "INTERRUPT")
        return Entry("irpt", device=number)

    def specified(self, number, there, word):
        if number in there:
            return
        known = ", ".join(f"{it} ({spec.name})" for it, spec in sorted(there.items())) or "none"
        raise self.bad(2, 1, f"{word}({number}) isn't specified in the problem part; there: {known}")

    def chars_line(self):
        return self.text_entry(1)

    def line_line(self):
        return self.text_entry(0)

    def text_entry(self, least):
        self.at_least(3)
        number = self.number(1, "K")
        column, rest = self.rest(2)
        text = literal_text(rest, column)
        if len(text) < least:
            raise Bad(1, column, "the text of `chars` has at least one character; an empty line is `line K ''`")
        if len(text) > 255:
            raise Bad(1, column, f"a text has at most 255 characters, and this has {len(text)}")
        self.specified(number, self.plant.terminals, "TERMINAL")
        if self.plant.terminals[number].direction == "OUT":
            raise self.bad(2, 1, f"nothing comes in at {self.plant.terminals[number].name}: it is specified as OUT")
        return Entry(self.words[0][0], device=number, value=text)

    def value_line(self):
        self.at_least(3)
        number = self.number(1, "K")
        column, rest = self.rest(2)
        value, kind = literal(rest, column)
        self.specified(number, self.plant.inputs, "INPUT")
        why = unsuited(value, kind, self.plant.inputs[number])
        if why:
            raise Bad(4, column, why)
        return Entry("value", device=number, value=value, kind=kind)

    def turn_line(self):
        self.count(2)
        name = self.words[1][0]
        if not re.fullmatch(r"[A-Za-z]\w{0,62}", name, re.A):
            raise self.bad(1, 1, f"`{name}` has not the letters or the length of a name")
        if name not in self.plant.tasks:
            same = [it for it in self.plant.tasks if it.lower() == name.lower()]
            hint = f"; is `{same[0]}` meant?" if same else f"; there: {', '.join(self.plant.tasks) or 'none'}"
            raise self.bad(2, 1, f"no task is called `{name}`{hint}")
        return Entry("turn", value=name)

    def state_line(self):
        self.count(1)
        return Entry("state")


def clock(word):
    """The milliseconds of a time of day, or why it is none."""
    found = CLOCK.fullmatch(word)
    if not found:
        if re.fullmatch(r"\d+:\d+", word, re.A):
            return 0, f"a time of day has seconds: {word}:00"
        return 0, f"`{word}` is no time of day, as 14:30:00 or 14:30:00.250"
    if found[4] and len(found[4]) > 3:
        return 0, "a time of day has at most three digits behind the point"
    hours, minutes, seconds = (value_of(it) for it in found.groups()[:3])
    if hours > 23 or minutes > 59 or seconds > 59:
        return 0, f"{word} is no time of day, which ends at 23:59:59.999"
    return ((hours * 60 + minutes) * 60 + seconds) * 1000 + int((found[4] or "").ljust(3, "0")), ""


def literal_text(rest, column):
    """What the text between apostrophes means that is all of the rest."""
    if TEXT.fullmatch(rest):
        return rest[1:-1].replace("''", "'")
    if rest[:1] != "'":
        raise Bad(1, column, "a text stands between apostrophes: 'text'")
    begun = re.compile(r"'(?:[ -&(-~]|'')*").match(rest).end()
    if begun == len(rest):
        raise Bad(1, column, "the text isn't closed by an apostrophe")
    if rest[begun] == "'":
        why = "behind the closing apostrophe stands something; an apostrophe in a text is written twice"
        raise Bad(1, column + begun, why)
    raise Bad(1, column + begun, f"a text has characters from 32 to 126 alone, and {character(rest, begun)} is none of them")


def literal(rest, column):
    """The value and the kind of a literal that is all of the rest."""
    found = BITS.fullmatch(rest)
    if found:
        bits = int(found[2] or "1")
        wrong = [it for it in found[1] if it not in "0123456789ABCDEF"[:1 << bits]]
        if not wrong and 1 <= len(found[1]) * bits <= 64:
            return "".join(f"{int(it, 16):0{bits}b}" for it in found[1]), ("BIT", len(found[1]) * bits)
        no_digit = wrong and f"`{wrong[0]}` is no digit of {bits} bit{'s' if bits > 1 else ''}"
        raise Bad(1, column, no_digit or "bits are 1 to 64")
    if rest[:1] == "'":
        text = literal_text(rest, column)
        if not 1 <= len(text) <= 255:
            raise Bad(1, column, "a text has 1 to 255 characters")
        return text, ("CHAR", len(text))
    if CLOCK.fullmatch(rest):
        value, why = clock(rest)
        if why:
            raise Bad(1, column, why)
        return value, ("CLOCK", 0)
    return number_or_span(rest, column)


def number_or_span(rest, column):
    sign, digits = (-1, rest[1:].lstrip(" \t")) if rest[:1] == "-" else (1, rest)
    if re.fullmatch(r"\d+", digits, re.A):
        if value_of(digits) > MOST_NUMBER:
            raise Bad(1, column, "a number is at most 2^63 - 1")
        return sign * value_of(digits), ("FIXED", 63)
    found = SPAN.fullmatch(digits)
    if found and any(found.groups()):
        hours, minutes, seconds = (value_of(it or "0") for it in found.groups()[:3])
        if max(hours, minutes, seconds) <= MOST_NUMBER:
            thousandths = int((found[4] or "").ljust(3, "0"))
            return sign * (((hours * 60 + minutes) * 60 + seconds) * 1000 + thousandths), ("DURATION", 0)
    if re.fullmatch(r"[-+]?\d+[.,]\d+", rest, re.A):
        raise Bad(1, column, f"{rest} isn't whole: values are whole numbers, so send tenths, as {re.sub('[.,]', '', rest)}")
    if re.fullmatch(r"\+\d+", rest, re.A):
        raise Bad(1, column, "a number has no + in front")
    if re.fullmatch(r"-?\d+:\d+", rest, re.A):
        raise Bad(1, column, f"a time of day has seconds: {rest}:00")
    raise Bad(1, column, f"`{rest}` is no value: a number, '101'B, 'text', 14:30:00 or 1 HRS 30 MIN 0.5 SEC")


def kind_text(kind):
    return f"{kind[0]}({kind[1]})" if kind[0] in ("FIXED", "BIT", "CHAR") else kind[0]


def unsuited(value, kind, spec):
    """Why a value can't come in at an input, or nothing."""
    sort, length = spec.kind
    wanted = f"{spec.name} takes {kind_text(spec.kind)}"
    if kind[0] != sort:
        return f"{wanted}, and this is {kind[0]}"
    if sort == "FIXED" and not -2**length <= value < 2**length:
        return f"{wanted}, from {-2**length} to {2**length - 1}"
    if sort in ("BIT", "CHAR") and kind[1] > length:
        return f"{wanted}, and this is {kind_text(kind)}"
    if sort == "DURATION" and abs(value) > LAST:
        return f"{wanted}, at most 2^40 milliseconds"
    return ""


def read_line(raw, plant, first=False, moment=0):
    """The entry of a line's bytes without their end, or None where it is skipped; raises Bad."""
    if len(raw) > 1024:
        raise Bad(1, 1024, f"a line has at most 1,024 bytes, and this has {len(raw)}")
    text = raw.decode("latin-1")
    if text.startswith(MARK):
        raise Bad(1, 0, MARKED)
    stripped = text.strip(" \t")
    if not stripped or stripped[0] == "#":
        return None
    return Line(text, plant, first, moment).entry()


def lines(journal):
    """The lines' bytes, without their ends."""
    found = journal.split(b"\n")
    if found[-1] == b"":
        found.pop()
    return [line[:-1] if line.endswith(b"\r") else line for line in found]


def entries(journal, plant):
    """The number, the bytes and the entry of each line that isn't skipped; raises Bad with a `line` of its own."""
    first, moment = True, 0
    for number, raw in enumerate(lines(journal), 1):
        try:
            entry = read_line(raw, plant, first, moment)
        except Bad as fault:
            fault.line, fault.raw = number, raw
            raise
        if entry:
            first, moment = False, moment + entry.count
            yield number, raw, entry
