"""What several tools ask for in their words: sources, times of day and scales."""

import sys
from decimal import Decimal

from . import table
from .causes import Source
from .journal import Plant, clock


class Unusable(Exception):
    """A file or a word that can't be used, and why."""


def source_of(name):
    """The source in a file, which has no fault of syntax."""
    with open(name, "rb") as file:
        source = Source(file.read())
    if source.walk is None:
        raise Unusable(f"{name}: the source isn't accepted; ./pearl check {name} | tools/explain {name} tells why")
    return source


def plant_of(name):
    """What the source in a file declares."""
    return Plant.of(source_of(name).walk)


def start_of(word):
    """The time of day of `--start`, or None where it isn't there."""
    if word is None:
        return None
    start, why = clock(word)
    if why:
        raise Unusable(f"--start: {why}")
    return start


def moment_of(word, start, option):
    """A moment in milliseconds, of digits or of a time of day."""
    try:
        moment, _, clock = table.time_of(word)
    except table.Wrong as error:
        raise Unusable(f"{option}: {error}") from error
    if moment is not None:
        return moment
    if start is None:
        raise Unusable(f"{option}: a time of day asks for the one at the start")
    return (clock - start) % table.DAY


def scales(words):
    """The scales of all `--scale NAME=N`, by the names."""
    try:
        return {name: Decimal(scale) for name, scale in (it.split("=") for it in words)}
    except (ValueError, ArithmeticError) as error:
        raise Unusable("--scale has a name and a number: --scale Fuehler=10") from error


def rows(table, faults):
    """The faults of a table's rows, each with its line."""
    return Unusable("\n".join(f"{table}:{line}: {why}" for line, why in sorted(faults)))


def refuse(tool, error, table=None):
    """Tells why nothing is done; rows of a table begin with its name. The status of a tool."""
    if isinstance(error, OSError):
        print(f"{tool}: {error.filename}: {error.strerror}", file=sys.stderr)
    elif table and str(error).startswith(f"{table}:"):
        print(error, file=sys.stderr)
    else:
        print(f"{tool}: {error}", file=sys.stderr)
    return 2
