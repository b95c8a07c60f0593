#!/usr/bin/env python3
"""Checks that crates cite each other's proofs by their doors.

usage: tools/check_doors.py [CHECKOUT]

What other crates may cite of a crate's proofs stands in its proofs/Offered.antt, the door: groups of `pub use`, each
below a comment of one line.

- Nothing imports another crate's file of proofs but by its door. (What the toolchain makes of a type, as
  proofs/FILE/TYPE/TheLaws, is no file of proofs.)
- Another crate cites each name of a door.
- A crate doesn't import its own door, which would go in a circle.
- A door has nothing but comments and groups, and passes on what the crate's own proofs have.

Prints what doesn't hold, and ends with status 1 if there is something.
"""

import os
import re
import sys

TOP = os.path.dirname(os.path.dirname(os.path.abspath(__file__)))
DOOR = "Offered"
HEADER = re.compile(r"(?:unfoldable )?(?:pub )?(?:ghost )?use ")
IMPORT = re.compile(r"use Rattle\.(\w+)\.proofs\.([\w.]+?)(?:\.\{([^{}]*)\}|(?: as (\w+))?);?$")
# In Rust's paths, as a tactic's list of lemmas has them, and in a path with no import.
PATHS = [re.compile(r"\b(\w+)::proofs::(\w+)::(\w+)"), re.compile(r"\bRattle\.(\w+)\.proofs\.(\w+)\.([^\s.,;(){}]+)")]


def read(path):
    with open(path, encoding="utf-8") as file:
        return file.read()


def crates(top):
    lines = (line.split("#")[0] for line in read(os.path.join(top, "crates.txt")).splitlines())
    return [line.split(":")[0].split()[0] for line in lines if line.strip()]


def files(top, crate):
    """The crate's code, definitions and proofs."""
    for part in ("src", "specs", "proofs"):
        for folder, _, names in os.walk(os.path.join(top, "crates", crate, part)):
            yield from (os.path.join(folder, name) for name in sorted(names) if name.endswith((".rt", ".antt")))


def names_in(braces):
    """The names of an import in braces, each as it is called there and as it is called here."""
    for item in braces.split(","):
        there, _, here = item.strip().partition(" as ")
        yield there, here or there


def cited(text):
    """Which names of which crate's files of proofs a text cites, with the line: (line, crate, file, name)."""
    behind = []
    for at, line in enumerate(text.splitlines(), 1):
        line = re.sub(r"--.*|//.*", "", line).rstrip()
        found = HEADER.match(line) and IMPORT.search(line)
        if found and found[3] is not None:
            yield from ((at, found[1], found[2], there) for there, _ in names_in(found[3]))
        elif found:
            behind.append((found[4] or found[2].split(".")[-1], found[1], found[2]))
            yield at, found[1], found[2], None
        else:
            yield from ((at, *path) for form in PATHS for path in form.findall(line))
            yield from ((at, crate, file, name) for module, crate, file in behind
                        for name in re.findall(rf"(?<![\w.'◌-]){module}\.([^\s.,;(){{}}]+)", line))


def door(top, crate):
    """The names that a crate's door has, and what is wrong with it."""
    path = os.path.join(top, "crates", crate, "proofs", f"{DOOR}.antt")
    offered, wrong, before = [], [], None
    for at, line in enumerate(read(path).splitlines() if os.path.exists(path) else [], 1):
        group = re.fullmatch(rf"(?:unfoldable )?pub use Rattle\.{crate}\.proofs\.([\w.]+)\.\{{([^{{}}]*)\}}", line)
        if group:
            offered += [here for _, here in names_in(group[2])]
            if before not in ("comment", group[1]):
                wrong.append(f"{crate} proofs/{DOOR}: line {at}: no comment says what the group is")
        elif line.strip() and not line.startswith("--"):
            wrong.append(f"{crate} proofs/{DOOR}: line {at}: a door has comments and groups alone")
        before = group[1] if group else "comment" if line.startswith("--") else None
    return offered, wrong


def main(top):
    wrong, used = [], set()
    listed = crates(top)
    for crate in listed:
        for path in files(top, crate):
            for at, low, file, name in cited(read(path)):
                place = f"{os.path.relpath(path, top)}:{at}"
                if low == crate:
                    wrong += [f"{place}: the door of the own crate"] if file == DOOR else []
                elif file == DOOR:
                    used.add((low, name))
                elif os.path.exists(os.path.join(top, "crates", low, "proofs", *file.split(".")) + ".antt"):
                    wrong.append(f"{place}: {low} proofs/{file}" + (f" ({name})" if name else "") + f" but by proofs/{DOOR}")
    for crate in listed:
        offered, faults = door(top, crate)
        wrong += faults
        wrong += [f"{crate} proofs/{DOOR}: no other crate cites {name}" for name in offered if (crate, name) not in used]
    for line in wrong:
        print(line)
    sys.exit(1 if wrong else 0)


if __name__ == "__main__":
    main(sys.argv[1] if len(sys.argv) > 1 else TOP)
