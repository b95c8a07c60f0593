#!/usr/bin/env python3
"""Checks that each line of crates.txt lists the libraries that its crate names, and no others.

usage: tools/check_crates.py [--write]

A crate names a library in its .rt and .antt files, as in `pearl_value::cell` or `Rattle.pearl_value.specs`. It stands on
crates of its own heading and of those above. Prints what doesn't hold, and ends with status 1 if there is something. With
--write the lists are mended first: what is named and not listed is added at the end, what isn't named goes, and the rest
keeps its order (another order would have each crate above proved anew).
"""

import os
import re
import sys

TOP = os.path.dirname(os.path.dirname(os.path.abspath(__file__)))
LIST = os.path.join(TOP, "crates.txt")
NAME = re.compile(r"\b(?:Rattle\.(\w+)|([a-z]\w*)::)")


def read(path):
    with open(path, encoding="utf-8") as file:
        return file.read()


def told():
    """Each crate of the list, with the number of its heading and the libraries that stand there."""
    heading, crates = 0, {}
    for line in read(LIST).splitlines():
        heading += line.startswith("#")
        crate, colon, listed = line.split("#")[0].partition(":")
        if colon:
            crates[crate] = heading, listed.split()
    return crates


def named(crate):
    """The words in the crate's files that name a library, if there is one of this name."""
    words = set()
    for folder, folders, files in os.walk(os.path.join(TOP, "crates", crate)):
        folders[:] = [name for name in folders if name != "out"]
        for name in files:
            if name.endswith((".rt", ".antt")):
                words.update(one or other for one, other in NAME.findall(read(os.path.join(folder, name))))
    return words - {crate}


def needed(crates):
    """For each crate the libraries that it names: those of the list first, in its order, then those of the kit."""
    libraries = [crate for crate in crates if os.path.exists(os.path.join(TOP, "crates", crate, "src", "lib.rt"))]
    kit = sorted({name for _, listed in crates.values() for name in listed if name not in crates})
    return {crate: [name for name in libraries + kit if name in words]
            for crate, words in ((crate, named(crate)) for crate in crates)}


def mended(listed, needs):
    """The listed libraries that are needed, in their order, and then those that lack."""
    return [name for name in listed if name in needs] + [name for name in needs if name not in listed]


def write():
    needs, lines = needed(told()), []
    for line in read(LIST).splitlines():
        crate, colon, listed = line.split("#")[0].partition(":")
        lines.append(" ".join([crate + ":"] + mended(listed.split(), needs[crate])) if colon else line)
    with open(LIST, "w", encoding="utf-8") as file:
        file.write("\n".join(lines) + "\n")


def faults():
    crates = told()
    for crate, needs in needed(crates).items():
        heading, listed = crates[crate]
        yield from (f"{crate} lists {name}, and doesn't name it" for name in listed if name not in needs)
        yield from (f"{crate} names {name}, and doesn't list it" for name in needs if name not in listed)
        yield from (f"{crate} stands on {name} of a later heading" for name in listed
                    if name in crates and crates[name][0] > heading)


def main():
    if "--write" in sys.argv:
        write()
    found = list(faults())
    print("\n".join(found or ["crates.txt is right"]))
    return bool(found)


if __name__ == "__main__":
    sys.exit(main())
