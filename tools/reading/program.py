"""Which program the tools run: the one that ./pearl has proved and built, or the one that PEARL_PROGRAM names."""

import os
import time

from .tokens import TOP

BUILT = os.path.join(TOP, "crates", "pearl", "out", "pearl")


class Missing(Exception):
    """There is no program to run."""


def is_stale():
    """Whether the built program is older than its sources."""
    built = os.path.getmtime(BUILT)
    for folder, folders, names in os.walk(os.path.join(TOP, "crates")):
        folders[:] = [name for name in folders if name != "out"]
        for name in names:
            if name.endswith((".rt", ".antt")) and os.path.getmtime(os.path.join(folder, name)) > built:
                return True
    return os.path.getmtime(os.path.join(TOP, "crates.txt")) > built


def program(build, instead=""):
    """The path of the program, and where it comes from; raises Missing, which tells what may be done instead."""
    named = os.environ.get("PEARL_PROGRAM")
    if named:
        return named, f"{named}, which PEARL_PROGRAM names"
    if build:
        return os.path.join(TOP, "pearl"), "./pearl, which proves and builds it where it is needed"
    if not os.access(BUILT, os.X_OK):
        raise Missing(f"the program isn't built: --build proves and builds it{instead}")
    if is_stale():
        raise Missing(f"the program is older than its sources: --build proves and builds it anew{instead}")
    day = time.strftime("%Y-%m-%d %H:%M", time.localtime(os.path.getmtime(BUILT)))
    return BUILT, f"{BUILT}, proved and built on {day}"
