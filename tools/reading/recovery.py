"""A walk that goes on behind each fault, so that all faults of an old source are found at once."""

from .grammar import STATEMENT, Fault, Walk
from .tokens import Token, tokens

# At these words something begins, or ends, that isn't a part of the statement with the fault.
BORDERS = {"END", "FIN", "ELSE", "ALT", "MODEND", "DCL", "SPC", "TYPE", "LENGTH"} | STATEMENT - {
    ";", "id", "FROM", "BY", "TO", "WHILE", "AT", "AFTER", "WHEN", "ALL"}
# Where a statement before was broken off, these may be left over.
LEFT_OVER = {"END", "FIN", "ELSE", "ALT", "OUT", "REPEAT", "THEN"}


class Ended(Exception):
    """Nothing more of the inner bodies can be read: the module goes on here, or ends."""


class WholeWalk(Walk):
    """Keeps its faults, in the order of their places, and reads to the end of the source."""

    def __init__(self, source):
        self.stray, self.faults = [], []
        found = tokens(source, self.stray)
        found += [Token("stray", source[it.place:it.place + 1], it.place, it.place + 1, "stray") for it in self.stray]
        found.sort(key=lambda it: it.place)
        self.prepare(found, len(source))
        try:
            self.module()
        except Fault as fault:
            self.keep(fault)
        except Ended:
            pass

    def keep(self, fault):
        """Keeps a fault, unless it follows from one before it."""
        if self.faults and (fault.index <= self.faults[-1].index or fault.token.term in LEFT_OVER | {"end", "MODEND"}):
            return
        if fault.token.sort != "stray":
            self.faults.append(fault)

    def follows_module(self):
        """Whether a task or a procedure of the module begins at the token."""
        terms = [it.term for it in self.tokens[self.at:self.at + 3]]
        return len(terms) == 3 and terms[:2] == ["id", ":"] and terms[2] in ("TASK", "PROC")

    def each(self, part, ends):
        while not self.sees(ends):
            if self.term == "end" or (self.term == "MODEND" and "PROBLEM" not in ends):
                self.keep(Fault(self.at, self.token, list(dict.fromkeys([*ends, *self.wanted])), "",
                                self.opened[-1] if self.opened else None))
                raise Ended
            begun = self.at
            try:
                part()
            except Fault as fault:
                self.keep(fault)
                self.go_on(begun, "MODEND" in ends)
            except Ended:
                if "MODEND" not in ends or self.term == "end":
                    raise
                self.opened.clear()
                self.deep = 0

    def go_on(self, begun, in_module):
        """Goes to where the next part may begin."""
        if self.term == ":" and self.at > 0 and self.tokens[self.at - 1].term == "id":
            if self.tokens[self.at + 1].term in ("TASK", "PROC") and not in_module:
                self.move(self.at - 1)
                raise Ended
            self.step()
            return
        if self.at == begun or self.term == "stray":
            self.step()
        while self.term not in {";", "end"} | BORDERS and not self.follows_module():
            self.step()
        if self.term == ";":
            self.step()

    def move(self, at):
        self.at, self.term, self.wanted = at, self.tokens[at].term, []

    def step(self):
        return super().step() if self.term != "end" else self.token

    def take(self, *terms):
        try:
            return super().take(*terms)
        except Fault as fault:
            if terms in (("THEN",), ("REPEAT",), ("ALT",)):
                self.keep(fault)
                return self.step() if self.term == "id" else self.token
            if terms != (";",):
                raise
            self.keep(fault)
        while self.term not in {";", "end"} | BORDERS and not self.follows_module():
            self.step()
        if self.term == ";":
            self.step()
        return self.token

    def head(self, part, *ends):
        try:
            part()
            if self.sees(list(ends)):
                return
            self.fail()
        except Fault as fault:
            self.keep(fault)
        here = self.at
        while self.term not in {";", "end", *ends} | BORDERS:
            self.step()
        if self.term not in ends:
            self.move(here)
