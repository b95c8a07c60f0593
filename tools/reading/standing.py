"""How a plant stands in a snapshot, in the names of its source: tasks and what they wait for, plans, devices, variables."""

from . import gets, table
from .journal import Plant
from .objects import SORTS

# So many of the values of an array, of an input or a terminal are shown, unless all are asked for.
SHOWN = 20


def joined(words):
    """Words with commas, and `and` before the last."""
    return words[0] if len(words) == 1 else f"{', '.join(words[:-1])} and {words[-1]}"


class Standing:
    """A snapshot beside the walk over its source."""

    def __init__(self, snapshot, walk):
        self.snapshot, self.walk, self.plant = snapshot, walk, Plant.of(walk)
        self.made = snapshot.object

    def is_of_its_source(self):
        """Whether the object has the tasks, semaphores and devices of the source, by their names and numbers."""
        devices = [(it.sort, it.number) for it in self.made.devices]
        found = [(sort, number) for sort, there in zip(SORTS, (self.plant.interrupts, self.plant.terminals, self.plant.inputs,
                                                               self.plant.outputs)) for number in sorted(there)]
        return ([it.name for it in self.made.tasks] == [it.name for it in self.walk.tasks] and devices == found
                and len(self.made.presets) == len(self.walk.semaphores))

    # Names.

    def device(self, number):
        """The name of a device by its number in the object."""
        device = self.made.devices[number]
        return self.plant.named(device.sort.lower(), device.number)

    def named(self, sort, values):
        """The devices of a sort by name, each with its value."""
        return list(zip([self.plant.named(sort.lower(), it.number) for it in self.made.of_sort(sort)], values))

    def at(self, moment):
        """A moment, and the time of day."""
        return f"{moment} ({table.time_text(self.snapshot.clock + moment)})"

    # Who can act.

    def next_of(self, task):
        """The instruction that an active task does next."""
        frame = task.frames[-1]
        return self.made.routines()[frame.routine].code[frame.place]

    def wanted(self, task):
        """What an active task's next action waits for, or nothing where it can be done."""
        name, *operands = self.next_of(task)
        if name == "Request":
            taken = [self.walk.semaphores[it] for it in operands[0] if self.snapshot.counts[it] == 0]
            return f"waits for {joined(taken)}" if taken else ""
        if name == "Take":
            waiting = dict(self.named("INPUT", self.snapshot.inputs))[self.device(operands[0])]
            return "" if waiting else f"waits for a value of {self.device(operands[0])}"
        if name == "Get":
            return self.wanted_by_get(task, *operands)
        return ""

    def wanted_by_get(self, task, device, number, first):
        """What a GET waits for: more than what there is at its terminal."""
        items, cells = self.made.formats[number], self.made.routines()[task.frames[-1].routine].cells
        count = sum(item not in gets.NO_DATA for item, _ in items)
        waiting = dict(self.named("TERMINAL", self.snapshot.terminals))[self.device(device)]
        if gets.can_be_done(items, cells[first:first + count], waiting):
            return ""
        return f"waits for more at {self.device(device)}"

    def running(self):
        """The number of the task that acts next, or None."""
        able = [number for number, task in enumerate(self.snapshot.tasks)
                if task.state == "active" and not self.wanted(task)]
        best = [it for it in able if self.snapshot.tasks[it].priority == min(self.snapshot.tasks[at].priority for at in able)]
        return self.snapshot.last if self.snapshot.last in best else best[0] if best else None

    def state(self, number):
        """How a task stands, in a word as `state` tells it, and what it waits for."""
        task = self.snapshot.tasks[number]
        if task.state == "dormant":
            return "dormant", ""
        if task.state == "suspended":
            return "suspended", "" if task.continuation else "waits for CONTINUE"
        wanted = self.wanted(task)
        return "blocked" if wanted else "running" if self.running() == number else "runnable", wanted

    # Plans.

    def plans(self, number):
        """What is planned for a task, a line each."""
        task = self.snapshot.tasks[number]
        lines = [f"goes on {self.planned(task.continuation)}"] if task.continuation else []
        if task.activation:
            priority, declared = task.activation.priority, self.made.tasks[number].priority
            with_priority = f", with priority {priority}" if priority != declared else ""
            lines.append(f"starts {self.planned(task.activation)}{with_priority}")
        if task.kept:
            count = f"{len(task.kept)} start{'s' if len(task.kept) > 1 else ''}"
            lines.append(f"keeps {count}, with priority {joined([str(it) for it in task.kept])}")
        return lines

    def planned(self, plan):
        """When a plan serves."""
        said, coming = "", plan.series.coming(self.snapshot.moment) if plan.series else None
        if plan.when is not None:
            said = f"{f'{plan.after} ms after' if plan.after else 'when'} {self.device(plan.when)} occurs"
        elif coming is not None:
            said = f"at {self.at(coming)}"
        else:
            said = "no more: its moments are over"
        if plan.period and (coming is not None or plan.when is not None):
            said += f", then each {plan.period} ms"
        said += self.ending(plan)
        return said + (f"; next at {self.at(coming)}" if plan.when is not None and coming is not None else "")

    def ending(self, plan):
        """Up to when a plan serves, where it has an end."""
        if plan.series and plan.series.last is not None:
            return f", up to {self.at(plan.series.last)}"
        if plan.until is not None:
            return f", until {table.time_text(plan.until)}"
        return f", for {plan.during} ms" if plan.during is not None else ""

    # Values.

    def variables(self, every):
        """The module's variables by name, a line each."""
        lines, first = [], 0
        for leaf in self.made.leaves:
            values = [table.told(value, kind) for kind, value in self.snapshot.slots[first:first + leaf.slots]]
            lines.append(f"{leaf.name} {several(values, every)}")
            first += leaf.slots
        return lines

    def waiting(self, every):
        """What waits at each input and terminal, a line each."""
        lines = [f"{name} {several([table.told(value, kind) for kind, value in values], every)}"
                 for name, values in self.named("INPUT", self.snapshot.inputs)]
        return lines + [f"{name} {shown_text(text, every)}" for name, text in self.named("TERMINAL", self.snapshot.terminals)]

    def semaphores(self):
        return [f"{name} {count}" for name, count in zip(self.walk.semaphores, self.snapshot.counts)]

    def interrupts(self):
        return [f"{name} {'enabled' if on else 'disabled'}" for name, on in self.named("INTERRUPT", self.snapshot.switches)]


def several(values, every):
    """Values with blanks between them; of many the first ones and how many there are."""
    if every or len(values) <= SHOWN:
        return " ".join(values) or "nothing"
    return f"{' '.join(values[:SHOWN])} .. ({len(values)} in all)"


def shown_text(text, every):
    """The bytes that wait at a terminal, as a transcript tells texts; of many the first ones."""
    if not text:
        return "nothing"
    cut = text if every or len(text) <= 4 * SHOWN else text[:4 * SHOWN]
    said = cut.replace("'", "''").replace("\\", "\\\\").replace("\n", "\\n")
    return f"'{said}'" + (f" .. ({len(text)} bytes in all)" if cut != text else "")
