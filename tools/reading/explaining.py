"""Tells the program's line of a refusal as people expect it."""

import os
import re

from . import journal
from .causes import Source
from .leftout import FORMS, at_fault, matches
from .places import Line, shown
from .porting import recipes
from .tokens import TOP

RULES = os.path.join(TOP, "docs", "use", "rules.md")
WORDS = ("run SOURCE JOURNAL", "check SOURCE", "print SOURCE", "compile SOURCE", "exec OBJECT JOURNAL", "list OBJECT",
         "watch OBJECT JOURNAL NAME ..", "save OBJECT JOURNAL", "resume SNAPSHOT JOURNAL", "bench N")
USAGE = "usage: " + "       ".join(f"pearl {words}\n" for words in WORDS)
CODES = {
    1: "the line is none of a journal's (docs/use/journal.md), or is too long",
    2: "no such task is declared, or no such device is specified",
    3: "the moment would pass 2^40",
    4: "the value doesn't suit the input, or doesn't fit",
}
LENGTHS = {1_048_577: "source", 67_108_865: "journal", 16_777_217: "object", 268_435_457: "snapshot"}


def sentences():
    """For each rule what docs/use/rules.md says of it."""
    with open(RULES, encoding="utf-8") as file:
        return dict(re.findall(r"^\| (S\d+) \| (.+) \| `.+` \|$", file.read(), re.M))


def encoded(text):
    return text.encode("utf-8", "surrogateescape")


def noted(notes):
    return b"".join(encoded(f"  {note}\n") for note in notes)


class Explainer:
    """Explains what the program says of a source, and of a journal where there is one."""

    def __init__(self, source, log=None):
        self.source, self.log = source, log

    def explained(self, line):
        """What is written in place of one line of the program, as bytes."""
        answers = {
            rb"error syntax (\d+)": lambda place: self.syntax(int(place)),
            rb"error source (\d+) (S\d+)": lambda place, rule: self.rule(int(place), rule.decode()),
            rb"error journal (\d+) (\d+)": lambda number, code: self.bad_line(int(number), int(code)),
            rb"error name (\d+)": lambda number: self.bad_name(int(number)),
            rb"error read": self.unread,
            rb"error usage": lambda: encoded(USAGE),
            rb"error too long (\d+)": lambda count: self.too_long(int(count)),
            rb"error memory": lambda: b"the memory of this machine isn't enough for this run\n",
        }
        for form, answer in answers.items():
            found = re.fullmatch(form + rb"\n?", line)
            if found:
                return answer(*found.groups())
        return line

    @staticmethod
    def read(name):
        with open(name, "rb") as file:
            return file.read()

    @staticmethod
    def at(name, lines, place, what):
        """The head with the position of a place, its line, and the caret."""
        row, column, line = lines.position(place)
        return encoded(f"{name}:{row}:{column}: {what}\n") + shown(line, column)

    def syntax(self, place):
        source = Source(self.read(self.source))
        if source.place() != place:
            return self.at(self.source, source.lines, place, "syntax")
        said, notes = source.syntax()
        return self.at(self.source, source.lines, place, f"syntax: {said}") + noted(notes)

    def rule(self, place, rule):
        source = Source(self.read(self.source))
        what = f"{rule}: {sentences().get(rule, 'a rule of the language is broken')}"
        return self.at(self.source, source.lines, place, what) + noted(source.rule(rule, place))

    def bad_line(self, number, code):
        said = CODES.get(code, "the line is refused")
        if self.log is None:
            return encoded(f"line {number} of the journal: {said}; name the journal behind the source to see it\n")
        raw, source = self.read(self.log), Source(self.read(self.source))
        lines, column = journal.lines(raw), 0
        line = lines[number - 1] if number <= len(lines) else b""
        if source.walk:
            try:
                for _ in journal.entries(raw, journal.Plant.of(source.walk)):
                    pass
            except journal.Bad as fault:
                if (fault.line, fault.code) == (number, code):
                    said, column = fault.why, fault.column
        row = len(line[:column].decode("utf-8", "replace")) + 1
        return encoded(f"{self.log}:{number}:{row}: journal: {said}\n") + shown(Line(line), row)

    @staticmethod
    def bad_name(number):
        return encoded(f"name {number} can't be watched: no variable of the module has it, or it stands before, or with it more "
                       "than 1,024 slots are watched\n  the lines `leaf` that `pearl list OBJECT` writes tell the names and slots\n")

    def unread(self):
        for name in filter(None, [self.source, self.log]):
            try:
                with open(name, "rb") as file:
                    file.read(1)
            except OSError as error:
                return encoded(f"{name}: it can't be read: {error.strerror}\n")
        return b"a file can't be read: the source, or the journal\n"

    def too_long(self, count):
        what = LENGTHS.get(count)
        name = {"source": self.source, "journal": self.log}.get(what) or f"the {what or 'file'}"
        return encoded(f"{name}: it has more than {count - 1:,} bytes, the most that a {what or 'file'} may have\n")


def everything(name):
    """Each fault of syntax and each form of old sources once, as bytes, in the order of the source."""
    with open(name, "rb") as file:
        source = Source(file.read())
    whole = source.whole()
    found = faults_of(source, whole)
    for match in matches(whole.tokens, FORMS, declared=whole.known):
        means = "means something else here" if match.form.means_otherwise else "left out"
        found.append((match.form.name, whole.tokens[match.told].place, means, []))
    told = {place for _, place, _, _ in found}
    found += [(None, it.place, f"syntax: {it.why}", []) for it in whole.stray if it.place not in told]
    return b"".join(told_once(name, source, found))


def faults_of(source, whole):
    """The faults of syntax, each with the form of old sources at it or None, its place, and what is told."""
    found = []
    for fault in whole.faults:
        match = at_fault(whole.tokens, fault.index, fault.wanted)
        if match and match.form in FORMS:
            found.append((match.form.name, whole.tokens[match.told].place, "left out", []))
        else:
            said, notes = source.syntax(fault)
            found.append((match.form.name if match else None, fault.token.place, f"syntax: {said}", notes))
    return found


def told_once(name, source, found):
    """For each form its first place with the recipe and the other lines; each other fault by itself."""
    told, instead, seen = {}, recipes(), set()
    for form, place, said, notes in sorted(found, key=lambda it: it[1]):
        if place not in seen:
            told.setdefault(form or place, []).append((place, said, notes))
        seen.add(place)
    for form, places in told.items():
        place, said, notes = places[0]
        yield Explainer.at(name, source.lines, place, said)
        yield noted([f"{form}: {instead[form]}"] if form in instead else notes)
        others = dict.fromkeys(source.lines.row(other) for other, _, _ in places[1:])
        rows = [row for row in others if row != source.lines.row(place)]
        if rows:
            yield noted([f"also in line{'s' if len(rows) > 1 else ''} {', '.join(map(str, rows))}"])
