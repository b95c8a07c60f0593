"""Fronts of journals: up to a moment, or up to one of the actions of a moment."""

from . import journal
from .asked import Unusable

# The words of lines in which tasks act.
ACTING = ("run", "pass")


def plant_of(source):
    return journal.Plant.of(source.walk)


def start_of(raw, plant):
    """The time of day at the start, which `clock` tells as the first entry, or None."""
    entry = next((entry for _, _, entry in journal.entries(raw, plant)), None)
    return entry.value if entry and entry.word == "clock" else None


def joined(lines):
    """The bytes of a journal with these lines."""
    return b"".join(line + b"\n" for line in lines)


def passing(entry, count):
    """The line in which so much of an entry's time passes, as a list; none of no time."""
    if not count:
        return []
    return [b"tick %d" % count if entry.word == "tick" else b"pass %d %d" % (count, entry.picks)]


def up_to(raw, plant, moment):
    """The lines of a journal up to the end of a moment: all that happens at it is done."""
    lines, found, now = journal.lines(raw), [], 0
    for number, _, entry in journal.entries(raw, plant):
        if now + entry.count > moment:
            return found + lines[len(found):number - 1] + passing(entry, moment - now)
        found, now = lines[:number], now + entry.count
    if now < moment:
        raise Unusable(f"--at: the journal ends at the moment {now}, before {moment}")
    return found


def opened(raw, plant, moment):
    """The lines of a journal up to the first ones in which tasks act at a moment, and the others of that moment."""
    head, rest, now = [], [], 0
    for _, line, entry in journal.entries(raw, plant):
        end = now + entry.count
        if entry.count and now < moment <= end:
            if entry.word == "tick":
                head += passing(entry, moment - now)
            else:
                head += [*passing(entry, moment - now - 1), b"tick 1"]
                rest.append(b"run %d" % entry.picks)
        elif end > moment:
            break
        else:
            (rest if now == moment and (rest or entry.word in ACTING) else head).append(line)
        if end > moment:
            break
        now = end
    return head, rest


def least(most, holds):
    """The least number from 1 to the most for which this holds, where it holds for the most and for each behind the least."""
    high = 1
    while high < most and not holds(high):
        high *= 2
    low, high = high // 2, min(high, most)
    while low + 1 < high:
        middle = (low + high) // 2
        low, high = (low, middle) if holds(middle) else (middle, high)
    return high


def last_front(lines, holds):
    """The front of some lines, the last one of which may be a `run` of fewer actions, one action before this holds first."""
    count = least(len(lines), lambda number: holds(lines[:number]))
    before, last = lines[:count - 1], lines[count - 1].split()
    if last[:1] != [b"run"]:
        return before
    picks = least(int(last[1]), lambda number: holds([*before, b"run %d" % number]))
    return before + ([b"run %d" % (picks - 1)] if picks > 1 else [])
