"""The tokens of a source, and why something is none."""

import os
import re
from bisect import bisect_left
from dataclasses import dataclass
from functools import cached_property

from .places import MARK, MARKED, character

TOP = os.path.dirname(os.path.dirname(os.path.dirname(os.path.realpath(__file__))))
WORD_TABLE = os.path.join(TOP, "crates", "pearl_tree", "src", "word.rt")

SYMBOLS = ["<=", ">=", "><", "<>", ":=", "==", "/=", "//", "**",
           "(", ")", "[", "]", ",", ";", ":", ".", "=", "<", ">", "+", "-", "*"]
# Words and symbols that mean a symbol that the grammar names.
AS_SYMBOL = {"EQ": "==", "NE": "/=", "LT": "<", "GT": ">", "LE": "<=", "GE": ">=", "CAT": "><", "CSHIFT": "<>", "=": ":="}

SYMBOL = re.compile("|".join(map(re.escape, SYMBOLS)))
BLANK = re.compile(r"[\t\n\f\r ]+|![^\n]*\n?|/\*.*?\*/", re.S)
NAME = re.compile(r"[A-Za-z][A-Za-z0-9_]*")
CLOCK = re.compile(r"(\d+):(\d+):(\d+)(?:\.(\d+))?", re.A)
DECIMAL = re.compile(r"(\d+)\.(\d+)", re.A)
NUMBER = re.compile(r"\d+", re.A)
QUOTED = re.compile(r"'((?:[ -&(-~]|'')*)'(?!')")
GROUP = re.compile(r"B([1-4]?)(?![A-Za-z0-9_])")

MOST_NUMBER = 2**63 - 1


@dataclass(slots=True)
class Token:
    """A token: its sort, how it is spelled, and its first byte and the one behind its last."""

    sort: str
    text: str
    place: int
    end: int
    term: str


class Tokens(list):
    """The tokens of a whole source."""

    @cached_property
    def border(self):
        """The number of the token PROBLEM, or 0 where there is none."""
        return next((at for at, token in enumerate(self) if token.text == "PROBLEM"), 0)

    @cached_property
    def closing(self):
        """For each bracket that is closed the number of the token that closes it."""
        found, opened = {}, []
        for at, token in enumerate(self):
            if token.text in ("(", "["):
                opened.append(at)
            elif token.text in (")", "]") and opened:
                found[opened.pop()] = at
        return found

    def from_place(self, place):
        """The number of the first token that begins at this place or behind it."""
        return bisect_left(self, place, key=lambda it: it.place)


class NoToken(Exception):
    """At this place no token begins."""

    def __init__(self, place, why):
        super().__init__(why)
        self.place, self.why = place, why


class Unclosed(NoToken):
    """No text ends that begins at this place: it breaks off at `stop`."""

    def __init__(self, place, stop, why):
        super().__init__(place, why)
        self.stop = stop


def word_table():
    """The words, each with the one of the same meaning that the grammar names, from the program's own table."""
    with open(WORD_TABLE, encoding="utf-8") as file:
        rows = re.findall(r'^ +b"([A-Z]+)" ([A-Z]+);$', file.read(), re.M)
    return dict(rows)


WORDS = word_table()


def text_of(source):
    """The bytes of a source, one character for each."""
    return source.decode("latin-1")


def value(digits):
    """The value of digits, which may be very many."""
    digits = digits.lstrip("0")
    return int(digits or "0") if len(digits) < 30 else 10**30


def numeric(text, at):
    """The sort and the end of what begins with the digit at this place."""
    found = CLOCK.match(text, at)
    if found:
        if found[4] and len(found[4]) > 3:
            raise NoToken(at, "a time has at most three digits behind the point")
        if value(found[1]) > 23 or value(found[2]) > 59 or value(found[3]) > 59:
            raise NoToken(at, f"{found[0]} is no time of day, which ends at 23:59:59.999")
        return "clock", found.end()
    found = DECIMAL.match(text, at)
    if found and len(found[2]) > 3:
        raise NoToken(at, "a number has at most three digits behind the point, and only before SEC")
    sort, found = ("decimal", found) if found else ("number", NUMBER.match(text, at))
    if value(NUMBER.match(text, at)[0]) > MOST_NUMBER:
        raise NoToken(at, f"a number is at most {MOST_NUMBER}, which is 2^63 - 1")
    return sort, found.end()


def unclosed(text, at):
    """Where what begins with the apostrophe at this place breaks off, and why no text ends."""
    stop = re.compile(r"'(?:[ -&(-~]|'')*").match(text, at).end()
    if stop == len(text) or text[stop] in "\r\n":
        return stop, "the text isn't closed in its line by an apostrophe"
    return stop, f"a text has characters from 32 to 126 alone, and {character(text, stop)} is none of them"


def quoted(text, at):
    """The sort and the end of what begins with the apostrophe at this place."""
    found = QUOTED.match(text, at)
    if not found:
        raise Unclosed(at, *unclosed(text, at))
    group = GROUP.match(text, found.end())
    if not group:
        length = len(found[1].replace("''", "'"))
        if length == 0:
            raise NoToken(at, "a text has at least one character")
        if length > 255:
            raise NoToken(at, f"a text has at most 255 characters, and this has {length}")
        return "text", found.end()
    bits = int(group[1] or "1")
    for digit in found[1]:
        if digit not in "0123456789ABCDEF"[:1 << bits]:
            raise NoToken(at, f"`{digit}` is no digit of {bits} bit{'s' if bits > 1 else ''}, which B{group[1]} asks for")
    if not 1 <= len(found[1]) * bits <= 64:
        raise NoToken(at, f"bits are 1 to 64, and these are {len(found[1]) * bits}")
    return "bits", group.end()


def nothing(text, at):
    """Why no token begins at this place."""
    if text.startswith("/*", at):
        return "the comment isn't closed by */"
    if text.startswith(MARK, at):
        return MARKED
    if text[at] == '"':
        return "a text stands between apostrophes: 'text'"
    return f"{character(text, at)} begins no token"


def token_at(text, at):
    """The token that begins at this place."""
    name = NAME.match(text, at)
    if name:
        if name[0] in WORDS:
            return Token("word", name[0], at, name.end(), AS_SYMBOL.get(name[0], WORDS[name[0]]))
        if len(name[0]) > 63:
            raise NoToken(at, f"a name has at most 63 characters, and this has {len(name[0])}")
        return Token("id", name[0], at, name.end(), "id")
    if text[at] in "0123456789'":
        sort, end = quoted(text, at) if text[at] == "'" else numeric(text, at)
        return Token(sort, text[at:end], at, end, sort)
    symbol = SYMBOL.match(text, at)
    if symbol:
        return Token("symbol", symbol[0], at, symbol.end(), AS_SYMBOL.get(symbol[0], symbol[0]))
    raise NoToken(at, nothing(text, at))


def tokens(text, stray=None):
    """All tokens. Where a list `stray` is given, what is no token goes there, and its first character is left out."""
    found, at, broken = [], 0, None
    while at < len(text):
        blank = BLANK.match(text, at)
        if blank:
            at = blank.end()
            continue
        try:
            # Behind the apostrophe of a text that breaks off stand pairs of them alone: up to there no other is closed.
            if broken and at < broken.stop and text[at] == "'":
                raise Unclosed(at, broken.stop, broken.why)
            found.append(token_at(text, at))
            at = found[-1].end
        except NoToken as fault:
            if stray is None:
                raise
            stray.append(fault)
            broken = fault if isinstance(fault, Unclosed) else broken
            at = behind(text, at)
    return found


def behind(text, at):
    """Where to go on behind what is no token: behind a name or digits as a whole, else behind one character."""
    run = re.compile(r"[A-Za-z0-9_.:]+|#[^\n]*|/\*.*|'[^\n']*'?|[\x80-\xff]+|.", re.S).match(text, at)
    return run.end()
