"""The lines of a transcript."""

import re
from dataclasses import dataclass

FORMS = {
    "start": r"(\w+) (\d+)",
    "end": r"(\w+)",
    "stop": r"(\w+)",
    "trap": r"(\w+) (\w+)",
    "kept": r"(\w+) ([1-3])",
    "overrun": r"(\w+)",
    "masked": r"(\d+)",
    "lost": r"(terminal|input) (\d+)",
    "out": r"(\d+) '(.*)'",
    "send": r"(\d+) (.+)",
    "state": r"(\w+) (dormant|suspended|blocked|running|runnable)(?: (\d+))?",
    "close": r"",
}


class Refused(Exception):
    """The text isn't a transcript."""


@dataclass
class Line:
    """A line of the transcript: its moment, its first word, and what stands behind that."""

    moment: int
    word: str
    parts: tuple
    text: str

    def lane(self):
        """What the line is about: a sort, and a name or a number."""
        if self.word == "lost":
            return self.parts
        sorts = {"masked": "interrupt", "out": "terminal", "send": "output", "state": "state", "close": "run"}
        return sorts.get(self.word, "task"), (self.parts or ("",))[0]


def parsed(text):
    """The lines of a transcript, and the refusal at its end or an empty text."""
    if not text:
        raise Refused("it is empty")
    lines = []
    for number, line in enumerate(text.splitlines(), 1):
        if re.match(r"error [a-z]", line):
            if not lines:
                raise Refused(f"nothing ran: {line}")
            return lines, line
        head = re.fullmatch(r"(\d+) ([a-z]+)(?: (.*))?", line)
        form = FORMS.get(head[2]) if head else None
        parts = re.fullmatch(form, head[3] or "") if form is not None else None
        if not parts:
            raise Refused(f"line {number} is none of a transcript: {line[:60]}")
        lines.append(Line(int(head[1]), head[2], parts.groups(), line))
    return lines, ""


def plain(label):
    """What a text of an `out` line spells, without line ends."""
    return re.sub(r"''|\\(.)", lambda found: "'" if found[0] == "''" else found[1].replace("n", ""), label)


def read(path, standard_input):
    """The lines and the refusal of a transcript in a file, or of standard input for `-`; raises Refused or OSError."""
    with (standard_input.buffer if path == "-" else open(path, "rb")) as file:
        raw = file.read()
    try:
        return parsed(raw.decode("ascii"))
    except UnicodeDecodeError as error:
        raise Refused(f"byte {error.start} is none of a transcript") from error
