"""What tools/hostile.py has tried: counts that add up, and a file for each part of the numbers."""

import json
import os
from collections import Counter
from dataclasses import dataclass, field

from .answers import FILES


def by_number(status):
    """The order of statuses, which are texts."""
    return len(status), status


@dataclass
class Tally:
    """Inputs by their sort, runs by command and status, how many of these were compared, seconds of a processor, what wasn't
    right, how many inputs were tried again alone, and the numbers of those that are still to be."""

    inputs: Counter = field(default_factory=Counter)
    runs: Counter = field(default_factory=Counter)
    compared: int = 0
    seconds: float = 0
    wrong: list = field(default_factory=list)
    again: int = 0
    late: list = field(default_factory=list)

    def ran(self, command, answer):
        """Counts a run."""
        self.runs[command, str(answer.status)] += 1

    def add(self, other):
        """Adds what another one has."""
        self.inputs.update(other.inputs)
        self.runs.update(other.runs)
        self.compared += other.compared
        self.seconds += other.seconds
        self.wrong += other.wrong
        self.again += other.again
        self.late += other.late

    def by_command(self):
        """The runs of each command, by status."""
        found = {}
        for command, status in sorted(self.runs, key=lambda it: (it[0], by_number(it[1]))):
            found.setdefault(command, {})[status] = self.runs[command, status]
        return found

    def lines(self):
        """What was tried, in lines."""
        yield "inputs: " + ", ".join(f"{count:,} {sort}" for sort, count in sorted(self.inputs.items()))
        for command, ends in self.by_command().items():
            yield f"{command}: " + ", ".join(f"{count:,} with status {status}" for status, count in ends.items())
        if self.again or self.late:
            numbers = f": {', '.join(map(str, self.late))}" if self.late else ""
            yield f"{self.again} tried again alone, {len(self.late)} still to be{numbers}"
        yield (f"{self.inputs.total():,} inputs, {self.runs.total():,} runs, {self.compared:,} of them beside another "
               f"implementation: {len(self.wrong)} not right")

    def table(self):
        """The runs as a table, in lines: a row for each command, a column for each status."""
        statuses = sorted({status for _, status in self.runs}, key=by_number)
        yield f"| Runs, by status | {' | '.join(statuses)} |"
        yield "|---" * (len(statuses) + 1) + "|"
        found = self.by_command()
        for command in (*FILES, "no command"):
            if command in found:
                ends = (f" {found[command][status]:,} |" if status in found[command] else " |" for status in statuses)
                yield f"| {command} |" + "".join(ends)

    def write(self, path, numbers):
        """Writes the file of a part; numbers are those that were tried: the seed, the sort, the first, and the one behind."""
        told = {**numbers, "inputs": dict(sorted(self.inputs.items())), "runs": self.by_command(), "compared": self.compared,
                "seconds": round(self.seconds, 1), "wrong": self.wrong, "again": self.again, "late": self.late}
        with open(path + ".part", "w", encoding="utf-8") as file:
            json.dump(told, file, indent=1)
            file.write("\n")
        os.replace(path + ".part", path)

    @classmethod
    def of(cls, told):
        """What the file of a part has."""
        runs = {(command, status): count for command, ends in told["runs"].items() for status, count in ends.items()}
        others = (told[it] for it in ("compared", "seconds", "wrong", "again", "late"))
        return cls(Counter(told["inputs"]), Counter(runs), *others)


def summed(paths):
    """What the files of parts have together; raises ValueError where two of them have the same number of a seed."""
    whole, parts = Tally(), []
    for path in paths:
        with open(path, encoding="utf-8") as file:
            told = json.load(file)
        parts.append((told["seed"], told["only"], told["from"], told["behind"], path))
        whole.add(Tally.of(told))
    parts.sort()
    for one, other in zip(parts, parts[1:]):
        if one[:2] == other[:2] and other[2] < one[3]:
            raise ValueError(f"{one[4]} and {other[4]} have the same numbers")
    return whole
