"""More of a fault than the program tells: what could stand there, and which cause of a rule it is."""

import difflib

from . import porting
from .grammar import Fault, Walk
from .journal import kind_text
from .leftout import at_fault
from .places import Lines
from .recovery import LEFT_OVER, WholeWalk
from .tokens import WORDS, NoToken

# The kind that each data item is for.
VALUES = {"A": "CHAR", **dict.fromkeys(["B", "B1", "B2", "B3", "B4"], "BIT"), "F": "FIXED", "T": "CLOCK", "D": "DURATION"}
# The class that each transfer asks for, and the direction that it can't use.
TRANSFERS = {"PUT": ("ALPHIC", "IN"), "GET": ("ALPHIC", "OUT"), "SEND": ("BASIC", "IN"), "TAKE": ("BASIC", "OUT")}


def listed(names):
    """Names with commas, and `or` before the last."""
    return names[0] if len(names) == 1 else f"{', '.join(names[:-1])} or {names[-1]}"


def wanted(fault):
    """What could stand at a fault: what ends most first."""
    return listed([it if " " in it else f"`{it}`" for it in reversed(fault.wanted)])


def stands(token):
    if token.sort == "end":
        return "the source ends"
    text = token.text if len(token.text) <= 30 else token.text[:29] + "\u2026"
    return f"`{text}` stands"


def recipe(match):
    """The form of old sources at a fault with what to write instead, or nothing."""
    return [f"{match.form.name}: {porting.recipes()[match.form.name]}"] if match else []


class Source:
    """A source, read once."""

    def __init__(self, raw):
        self.lines, self.text = Lines(raw), raw.decode("latin-1")
        self.fault, self.walk, self.all_of_it = None, None, None
        try:
            self.walk = Walk(self.text)
        except (NoToken, Fault) as fault:
            self.fault = fault

    def place(self):
        """The place of the fault of syntax, or None."""
        if isinstance(self.fault, Fault):
            return self.fault.token.place
        return self.fault.place if self.fault else None

    def whole(self):
        """The walk that goes on behind faults."""
        if self.all_of_it is None:
            self.all_of_it = self.walk or WholeWalk(self.text)
        return self.all_of_it

    def syntax(self, fault=None):
        """What is told of a fault of syntax, and notes that may help."""
        fault = fault or self.fault
        whole = self.whole()
        if isinstance(fault, NoToken):
            return fault.why, recipe(at_fault(whole.tokens, whole.tokens.from_place(fault.place)))
        said = fault.limit or f"{stands(fault.token)} where {wanted(fault)} belongs"
        index = whole.tokens.from_place(fault.token.place)
        notes = recipe(at_fault(whole.tokens, index, fault.wanted)) or self.slips(whole.tokens, index)
        return said, notes + self.missing(fault, whole.tokens, index)

    def slips(self, tokens, index):
        """Small letters in place of a word's capitals, and `!=`, which begins a comment."""
        for token in reversed(tokens[max(0, index - 1):index + 1]):
            if token.sort == "id" and token.text.upper() in WORDS:
                return [f"the words of the language are in capitals: {token.text.upper()}"]
        begun = tokens[index - 1].end if index else 0
        if "!=" in self.text[begun:tokens[index].place]:
            return ["from `!` to the end of the line is a comment; unequal is /= or NE"]
        return []

    def missing(self, fault, tokens, index):
        """A `;` that may be missing in a line before, and what isn't closed yet."""
        notes, before = [], tokens[index - 1] if index else None
        if before and ";" in fault.wanted and self.lines.row(before.place) < self.lines.row(fault.token.place):
            notes.append(f"perhaps `;` is missing behind `{before.text}` in line {self.lines.row(before.place)}")
        if fault.opened and fault.token.term in LEFT_OVER | {"end", "MODEND"} and {"END", "FIN"} & set(fault.wanted):
            word = {"IF": "FIN", "CASE": "FIN"}.get(fault.opened.term, "END")
            notes.append(f"the {fault.opened.text} of line {self.lines.row(fault.opened.place)} has no {word} yet")
        return notes

    def rule(self, rule, place):
        """Which of its causes a rule has, as notes."""
        if self.walk is None:
            return []
        index = next((at for at, token in enumerate(self.walk.tokens) if token.place == place), None)
        token = self.walk.tokens[index] if index is not None else None
        if token is None:
            return []
        return {"S2": self.unknown, "S14": self.device, "S15": self.operator, "S32": self.dation,
                "S33": self.items}.get(rule, lambda *_: [])(token, index)

    def unknown(self, token, index):
        """S2: a form of old sources, or a name that is written nearly so."""
        match = at_fault(self.walk.tokens, index)
        if match and self.walk.tokens[match.told].text == token.text:
            return recipe(match)
        if token.text.upper() in WORDS:
            return [f"the words of the language are in capitals: {token.text.upper()}"]
        same = [it for it in self.walk.known if it.lower() == token.text.lower()]
        if same:
            return [f"{same[0]} is declared: small letters and capitals are different"]
        near = difflib.get_close_matches(token.text, sorted(self.walk.known), 1)
        return [f"is {near[0]} meant?"] if near else []

    def operator(self, token, _):
        """S15: `<>`, which compares in other languages."""
        return ["`<>` turns bits, as CSHIFT; unequal is /= or NE"] if token.text == "<>" else []

    def spec(self, name):
        return next((it for it in self.walk.specs if it.name == name), None)

    def told_device(self, name):
        device = self.walk.devices.get(name)
        return f"{name} is {device.word}({device.number})" if device else name

    def device(self, token, _):
        """S14: what the device asks for."""
        spec = next((it for it in self.walk.specs if it.place == token.place), None)
        if spec is None or spec.name not in self.walk.devices:
            return []
        word = self.walk.devices[spec.name].word
        asked = {"TERMINAL": "a TERMINAL has ALPHIC", "INPUT": "an INPUT has DATION IN BASIC with its type",
                 "OUTPUT": "an OUTPUT has DATION OUT BASIC with its type"}.get(word)
        return [f"{self.told_device(spec.name)}, specified as DATION {spec.direction} {spec.use}: {asked}"] if asked else []

    def dation(self, token, _):
        """S32: the class, the direction, or else the kind."""
        transfer = next((it for it in self.walk.transfers if it.dation_place == token.place), None)
        spec = self.spec(token.text)
        if transfer is None or spec is None:
            return []
        use, way = TRANSFERS[transfer.word]
        said = f"{spec.name} is specified as DATION {spec.direction} {spec.use}"
        if spec.use != use:
            return [f"{said}, and {transfer.word} is for {use}"]
        if spec.direction == way:
            return [f"{said}, and {transfer.word} goes the other way"]
        kind = kind_text(spec.kind)
        if transfer.word == "SEND":
            return [f"{spec.name} takes {kind}, which the value doesn't suit"]
        return [f"{spec.name} gives {kind}, which doesn't suit the target"]

    def items(self, token, _):
        """S33: the number of items, their widths, or the kind that an item is for."""
        for transfer in self.walk.transfers:
            data = [it for it in transfer.items if it.word in VALUES]
            if transfer.place == token.place and transfer.word in ("PUT", "GET"):
                return self.all_items(transfer, data)
            for item in transfer.items:
                if item.place == token.place:
                    return [self.one_item(transfer, item, data)]
        return []

    @staticmethod
    def all_items(transfer, data):
        what = "values" if transfer.word == "PUT" else "targets"
        if len(data) != transfer.count:
            return [f"data items: {len(data)}, {what}: {transfer.count}; X and SKIP are no data items"]
        if len(data) > 64:
            return [f"{len(data)} data items, and 64 are the most"]
        return ["the widths of all items are above 1,024 together; write several, one behind the other"]

    @staticmethod
    def one_item(transfer, item, data):
        if item.width is not None and not 1 <= item.width <= 255:
            return f"the width of {item.word} is {item.width}, and it is 1 to 255"
        if item.word == "T" and item.width < 8:
            return f"T({item.width}) is too narrow for a time of day, which takes 8, as 14:30:00"
        number = data.index(item) + 1
        what = "value" if transfer.word == "PUT" else "target"
        return f"{item.word} is for {VALUES[item.word]}, and {what} {number} of this {transfer.word} is of another kind"
