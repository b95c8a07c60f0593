"""Where the statements of a source stand in its code.

A statement that plans the own task, with a duration that nothing else has, is put before each statement and each end of a list
of statements. In the code of that source its constant stands where the statement's code begins, less what was put before.
"""

from bisect import bisect_right
from dataclasses import dataclass

from . import objects
from .grammar import Walk

# The first duration in seconds; each next one has one more. They are below 2^40 milliseconds, the most that there is.
FIRST = 1_000_000_000
PUT = "AFTER {} SEC RESUME; "
# So many instructions stand for what is put: the constant, and RESUME with AFTER.
RESUME = ("Resume", (2,))


@dataclass
class Stand:
    """A statement, or the end of a list of them: its first byte in the source, and its routine's name and first byte."""

    place: int
    routine: str
    head: int


class StatementWalk(Walk):
    """Keeps where each statement and each end of a list of them stands."""

    def prepare(self, *source):
        super().prepare(*source)
        self.stands, self.name_token = [], None

    def task(self, name):
        self.name_token = name
        super().task(name)

    def procedure(self, name):
        self.name_token = name
        super().procedure(name)

    def note(self):
        self.stands.append(Stand(self.token.place, self.name_token.text, self.name_token.place))

    def statement(self):
        if self.term != ";":
            self.note()
        super().statement()

    def each(self, part, ends):
        """The end of an empty list within a statement isn't kept: what stands there might need code that the source has not."""
        before = len(self.stands)
        super().each(part, ends)
        if part == self.statement and (len(self.stands) > before or self.deep == 0):
            self.note()


def stands_of(text):
    """The statements and ends of a source that is accepted, in its order."""
    return StatementWalk(text).stands


def marked(text, stands):
    """The source with a statement put before each of these."""
    parts, before = [], 0
    for number, stand in enumerate(stands):
        parts += [text[before:stand.place], PUT.format(FIRST + number)]
        before = stand.place
    return "".join(parts) + text[before:]


def put_in(code, count):
    """For each instruction that begins what was put in: its place without all that was, and the number of the stand."""
    found = []
    for at, (name, *operands) in enumerate(code):
        if name == "Const" and operands[0][0][0] == "DURATION":
            number, rest = divmod(operands[0][1] - FIRST * 1000, 1000)
            if 0 <= number < count and rest == 0 and code[at + 1:at + 2] == [RESUME]:
                found.append((at - 2 * len(found), number))
    return found


class Lines:
    """For each routine of an object the places at which the source's statements begin in its code."""

    def __init__(self, stands, plain, with_marks):
        """The object of the source, and that of the marked source."""
        self.stands = stands
        self.begins = [put_in(routine.code, len(stands)) for routine in with_marks.routines()]
        lengths = [len(routine.code) - 2 * len(found) for routine, found in zip(with_marks.routines(), self.begins)]
        found = sorted(number for routine in self.begins for _, number in routine)
        if found != list(range(len(stands))) or lengths != [len(routine.code) for routine in plain.routines()]:
            raise objects.Unread(0)

    def stand(self, routine, place):
        """The statement, or end, whose code has the instruction at this place; of a routine's first ones its head."""
        begins = self.begins[routine]
        before = bisect_right([at for at, _ in begins], place)
        number = begins[before - 1 if before else 0][1]
        found = self.stands[number]
        return found if before else Stand(found.head, found.routine, found.head)
