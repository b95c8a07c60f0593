"""Whether a GET can be done with the bytes that wait at a terminal, as docs/use/formats.md says."""

import re

from . import journal

DIGITS = "0123456789ABCDEF"
NO_DATA = ("X", "SKIP")


def digit_bits(item):
    return int(item[1])


def width_of(item, width, kind):
    """How many bytes the field of an item has at most."""
    if width or item == "X":
        return width or 1
    return kind[1] if item == "A" else -(-kind[1] // digit_bits(item))


def is_good(item, kind, field):
    """Whether a complete field has a value of this kind."""
    length, field = kind[1], field.strip(" ")
    if item == "A":
        return True
    if item == "F":
        return bool(re.fullmatch(r"[+-]?\d+", field, re.A)) and -2**length <= int(field) < 2**length
    if item.startswith("B"):
        bits = digit_bits(item)
        spelled = "".join(f"{DIGITS.find(it):0{bits}b}" for it in field if it in DIGITS[:1 << bits])
        return 0 < len(field) * bits == len(spelled) and "1" not in spelled[length:]
    try:
        value, (sort, _) = journal.literal(field, 0)
    except journal.Bad:
        return False
    return sort == "CLOCK" if item == "T" else sort == "DURATION" and abs(value) <= journal.LAST


def can_be_done(items, kinds, pending):
    """Whether a GET by these items, for targets of these kinds, needs no more bytes: each item is complete, or one is bad."""
    at, targets = 0, iter(kinds)
    for item, width in items:
        if item == "SKIP":
            for _ in range(width or 1):
                end = pending.find("\n", at)
                if end < 0:
                    return False
                at = end + 1
            continue
        kind = None if item == "X" else next(targets)
        wide = width_of(item, width, kind)
        end = pending.find("\n", at, at + wide)
        if end < 0 and len(pending) < at + wide:
            return False
        end = at + wide if end < 0 else end
        if kind and not is_good(item, kind, pending[at:end]):
            return True
        at = end
    return True
