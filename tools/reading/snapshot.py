"""The bytes of snapshots, as docs/use/snapshot.md spells them: an object, and how a run of it stands."""

from dataclasses import dataclass

from .objects import REFERENCE, Object, Reader, Unread, parsed as object_parsed

MAGIC = b"PRS1"
STATES = ("dormant", "active", "suspended")


class Unfit(Unread):
    """The fields are a snapshot's, but they don't go together."""


@dataclass
class Series:
    """Moments: the first, then each that is whole periods later, up to the last where there is one."""

    first: int
    period: int
    last: int | None

    def coming(self, now):
        """The next moment behind this one, or None."""
        if self.first > now:
            found = self.first
        elif self.period:
            found = self.first + ((now - self.first) // self.period + 1) * self.period
        else:
            return None
        return found if self.last is None or found <= self.last else None


@dataclass
class Plan:
    """A plan: the interrupt that it waits for as a device's number in the object, or None; the priority of a start."""

    when: int | None
    after: int
    period: int
    until: int | None
    during: int | None
    series: Series | None
    priority: int = 0


@dataclass
class Frame:
    """A routine that was entered, its instruction that comes next, its cells and its operands."""

    routine: int
    place: int
    cells: list
    operands: list


@dataclass
class Task:
    """How a task stands; the last frame is that of the procedure in which it is."""

    state: str
    priority: int
    kept: list
    continuation: Plan | None
    activation: Plan | None
    frames: list


@dataclass
class Snapshot:
    """A run that stands still; terminals, inputs and switches in the order of the object's devices."""

    object: Object
    code: bytes
    moment: int
    clock: int
    last: int | None
    slots: list
    counts: list
    switches: list
    terminals: list
    inputs: list
    tasks: list


def less_one(number):
    """None for 0, which stands for nothing."""
    return number - 1 if number else None


class SnapshotReader(Reader):
    """Reads the fields of a snapshot; raises Unread."""

    def inner(self):
        """The bytes of the object, and what they spell."""
        begin = self.at
        raw = self.bytes(self.number())
        try:
            return raw, object_parsed(raw)
        except Unread as wrong:
            raise Unread(begin) from wrong

    def cell(self):
        """A literal; or a reference to a variable or an array, as a word and what it leads to."""
        sort = self.byte(2)
        if sort == 0:
            return self.literal()
        kind = self.kind()
        target = ("slot", self.number()) if self.byte(1) == 0 else ("cell", self.number(), self.number())
        return (REFERENCE, kind), target, self.many(self.pair) if sort == 2 else []

    def plan(self, starts):
        if self.byte(1) == 0:
            return None
        when, after, period, end = less_one(self.number()), self.number(), self.number(), self.byte(2)
        until, during = (self.number() if end == it else None for it in (1, 2))
        series = Series(self.number(), self.number(), less_one(self.number())) if self.byte(1) else None
        return Plan(when, after, period, until, during, series, self.byte() if starts else 0)

    def frame(self):
        return Frame(self.number(), self.number(), self.many(self.cell), self.many(self.cell))

    def task(self):
        state = self.byte(2)
        priority, kept = (self.byte(), self.many(self.byte)) if state else (0, [])
        continuation, activation = self.plan(False), self.plan(True)
        return Task(STATES[state], priority, kept, continuation, activation, self.many(self.frame) if state else [])

    def snapshot(self):
        self.begins(MAGIC)
        code, made = self.inner()
        found = Snapshot(made, code, self.number(), self.number(), less_one(self.number()), self.many(self.literal),
                         self.many(self.number), self.many(lambda: self.byte(1) == 1), self.many(self.text),
                         self.many(lambda: self.many(self.literal)), self.many(self.task))
        self.ends()
        if not is_whole(found):
            raise Unfit(self.at)
        return found


def is_whole(found):
    """Whether there are as many parts as the object asks for, and each frame stands at an instruction."""
    made = found.object
    asked = [(found.slots, sum(it.slots for it in made.leaves)), (found.counts, len(made.presets)),
             (found.tasks, len(made.tasks)), *((part, len(made.of_sort(sort))) for part, sort in (
                 (found.switches, "INTERRUPT"), (found.terminals, "TERMINAL"), (found.inputs, "INPUT")))]
    frames = [(frame, made.routines()[frame.routine:frame.routine + 1]) for task in found.tasks for frame in task.frames]
    return (all(len(part) == count for part, count in asked)
            and all(routine and frame.place < len(routine[0].code) for frame, routine in frames)
            and all((task.state == "dormant") == (not task.frames) for task in found.tasks))


def is_snapshot(raw):
    return raw[:len(MAGIC)] == MAGIC


def parsed(raw):
    """The snapshot of these bytes; raises Unread."""
    return SnapshotReader(raw).snapshot()
