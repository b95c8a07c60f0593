"""The lines of a monitor: how watched slots change, mark by mark."""

import re
from dataclasses import dataclass

from .transcript import Refused


@dataclass
class Change:
    """A line of a monitor: a slot's value from a mark on. The slot has its leaf's name, and its number where it isn't alone."""

    moment: int
    slot: str
    literal: str
    text: str


def is_number(literal):
    return re.fullmatch(r"-?\d+", literal) is not None


def is_bits(literal):
    return re.fullmatch(r"'[01]+'B", literal) is not None


def number(literal):
    """The number that a literal of BIT spells."""
    return int(literal[1:-2], 2)


def parsed(text):
    """The changes that a monitor wrote, in order. Its last line may be a refusal."""
    found = []
    for place, line in enumerate(text.splitlines(), 1):
        parts = re.fullmatch(r"(\d+) (\d+) value (.*?) (\d+) (.+)", line)
        if parts:
            found.append((line, *parts.groups()))
        elif not re.fullmatch(r"\d+ \d+ close|error [a-z].*", line):
            raise Refused(f"line {place} is none of a monitor's: {line[:60]}")
    if not found:
        raise Refused("nothing is watched")
    several = {name for _, _, _, name, slot, _ in found if slot != "0"}
    return [Change(int(moment), f"{name} {slot}" if name in several else name, literal, line)
            for line, _, moment, name, slot, literal in found]


def read(path):
    """The changes of a monitor's text in a file; raises Refused or OSError."""
    with open(path, "rb") as file:
        raw = file.read()
    return parsed(raw.decode("ascii", "replace"))
