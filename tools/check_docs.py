#!/usr/bin/env python3
"""Checks that the documents lead to what is there.

usage: tools/check_docs.py [--write]

The documents are README.md and those of docs/ and docs/use/.

- docs/index.md has one line for each file of definitions of each crate, and none for another; where the crate's
  specs/Lib.antt has a comment above the file's name, it is that line.
- Each crate of crates.txt has a row in docs/index.md.
- Each link leads to a file or folder that is there, and to a heading of it where it names one. A document is linked,
  not quoted.
- Each name in backquotes that is written like one of the code's stands somewhere in crates/.
- Each file in backquotes is there, and so is each file of definitions that is named behind its crate, as in
  `CRATE` specs/FILE, FILE (`name`), with the names in brackets in that file.
- Each row of docs/promises.md has a sentence of at most 25 words, and links to files in which the clauses, functions or
  definitions stand that the links name.
- Each law, a function of a crate's src/laws.rt, is called by another crate or file, or a document names it.
- README.md has at most 80 lines of at most 110 columns.

Prints what doesn't hold, and ends with status 1 if there is something. With --write the files of definitions are first
told anew in docs/index.md, each by the comment above its name in specs/Lib.antt, or else by the line that it has.
"""

import os
import re
import sys

TOP = os.path.dirname(os.path.dirname(os.path.abspath(__file__)))
# The document that tells the files of definitions, and where it begins to.
INDEX = "docs/index.md"
LIST = "## Every file of definitions"
PROMISES = "docs/promises.md"

# Names of examples.
EXAMPLES = {"pump_2"}

FOLDERS = ["docs", "docs/use"]
DOCS = ["README.md"] + sorted(f"{folder}/{name}" for folder in FOLDERS for name in os.listdir(os.path.join(TOP, folder))
                              if name.endswith(".md"))


def read(path):
    with open(os.path.join(TOP, path), encoding="utf-8") as file:
        return file.read()


def crates():
    lines = (line.split("#")[0] for line in read("crates.txt").splitlines())
    return [line.split(":")[0].split()[0] for line in lines if line.strip()]


def told_files(text):
    """For each crate the files that the index tells, with their lines."""
    told, crate = {}, None
    for line in text[text.index(LIST):].splitlines():
        head = re.fullmatch(r"### `(\w+)`", line)
        entry = re.fullmatch(r"- `(\w+)`: (.*)", line)
        if head:
            crate = told.setdefault(head[1], {})
        elif entry:
            crate[entry[1]] = entry[2]
        elif line.startswith("  ") and crate:
            last = list(crate)[-1]
            crate[last] += " " + line.strip()
    return told


def modules(crate):
    """The files of definitions that the crate's Lib.antt names, in order, each with the comment above its name."""
    path = f"crates/{crate}/specs/Lib.antt"
    found, comment = {}, None
    for line in read(path).splitlines() if os.path.exists(os.path.join(TOP, path)) else []:
        module = re.match(r"pub mod (\w+)", line)
        if line.startswith("-- "):
            comment = f"{comment} {line[3:]}" if comment else line[3:]
        elif module:
            found[module[1]] = comment
            comment = None
    return found


def definitions():
    wrong = []
    told = told_files(read(INDEX))
    for crate in crates():
        there, lines = modules(crate), told.get(crate, {})
        wrong += [f"{INDEX} has no line for {crate} specs/{name}" for name in there if name not in lines]
        wrong += [f"{crate} has no specs/{name}" for name in lines if name not in there]
        for name, comment in there.items():
            if comment and lines.get(name, comment) != comment:
                wrong.append(f"{crate} specs/Lib.antt says of {name}: {comment}")
    return wrong


def write():
    text = read(INDEX)
    told = told_files(text)
    head = text[:text.index(LIST)] + LIST + text[text.index(LIST) + len(LIST):].split("\n### ")[0].rstrip("\n")
    parts = [head + "\n"]
    for crate in crates():
        there = modules(crate)
        if there:
            lines = [f"- `{name}`: {comment or told.get(crate, {}).get(name, '')}" for name, comment in there.items()]
            parts.append("\n".join([f"\n### `{crate}`\n"] + lines) + "\n")
    with open(os.path.join(TOP, INDEX), "w", encoding="utf-8") as file:
        file.write("".join(parts))


def rows():
    text = read(INDEX)
    return [f"{INDEX} has no row for {crate}" for crate in crates() if f"| `{crate}` |" not in text]


def anchor(heading):
    """The name by which a link leads to a heading."""
    kept = re.sub(r"[^\w\- ]", "", re.sub(r"\[([^\]]*)\]\([^)]*\)", r"\1", heading).strip().lower())
    return kept.replace(" ", "-")


def headings(path):
    text = re.sub(r"^```.*?^```", "", read(path), flags=re.M | re.S)
    return {anchor(heading) for heading in re.findall(r"^#+ (.+)$", text, re.M)}


def links():
    wrong = []
    for path in DOCS:
        text = re.sub(r"`[^`\n]*`", "", re.sub(r"^```.*?^```", "", read(path), flags=re.M | re.S))
        for target in re.findall(r"\]\(([^)\s]+)\)", text):
            file, _, heading = target.partition("#")
            there = os.path.normpath(os.path.join(os.path.dirname(path), file)) if file else path
            if re.match(r"\w+:", target):
                continue
            if not os.path.exists(os.path.join(TOP, there)):
                wrong.append(f"{path}: there is no {target}")
            elif heading and (not there.endswith(".md") or heading not in headings(there)):
                wrong.append(f"{path}: no heading leads to {target}")
    return wrong


def known_names():
    names = set(crates())
    for folder, folders, files in os.walk(os.path.join(TOP, "crates")):
        folders[:] = [name for name in folders if name != "out"]
        for name in files:
            if name.endswith((".rt", ".antt", ".pearl", ".edit")):
                names.add(name.rsplit(".", 1)[0])
                with open(os.path.join(folder, name), encoding="utf-8") as file:
                    names.update(re.findall(r"[A-Za-z_][A-Za-z_0-9]*'?", file.read()))
    return names


def names_and_files():
    wrong = []
    known = known_names()
    for path in DOCS:
        text = re.sub(r"```.*?```", "", read(path), flags=re.S)
        for quoted in re.findall(r"`([^`\n]+)`", text):
            if "NAME" in quoted or "CRATE" in quoted or quoted in EXAMPLES:
                continue
            if re.fullmatch(r"[\w/]+\.md", quoted):
                wrong.append(f"{path}: {quoted} is quoted, not linked")
            elif re.fullmatch(r"(docs|tools|crates)/[\w/.-]+", quoted):
                if not os.path.exists(os.path.join(TOP, quoted)):
                    wrong.append(f"{path}: there is no {quoted}")
            elif re.fullmatch(r"pearl_\w+/src/(\w+\.rt)?", quoted):
                if not os.path.exists(os.path.join(TOP, "crates", quoted)):
                    wrong.append(f"{path}: there is no crates/{quoted}")
            elif re.fullmatch(r"\w*[a-z]_\w+|[A-Z][a-z]\w*'?|\w+(::\w+)+", quoted):
                wrong += [f"{path}: nothing is called {name}" for name in quoted.split("::") if name not in known]
    return wrong


def cited_files():
    wrong = []
    one = r"[A-Z]\w*(?: \([^)]*\))?"
    for path in DOCS:
        text = " ".join(read(path).split())
        for crate, files in re.findall(rf"`(pearl_\w+)`(?:'s)? specs/({one}(?:, {one})*)", text):
            for file, names in re.findall(r"([A-Z]\w*)(?: \(([^)]*)\))?", re.sub(r"`\w+`(?![^(]*\))", "", files)):
                if file not in modules(crate):
                    wrong.append(f"{path}: {crate} has no specs/{file}")
                    continue
                words = re.findall(r"`(\w+)`", names)
                there = read(f"crates/{crate}/specs/{file}.antt") if words else ""
                wrong += [f"{path}: {crate} specs/{file} has no {word}" for word in words if not re.search(rf"\b{word}\b", there)]
    return wrong


def part_of(source, owner, name):
    """The text of a function in a source, or in what an owner implements, from its name to the next function."""
    if owner:
        source = "\n".join(re.findall(rf"^impl\b[^{{\n]*\b{owner}\b.*?^}}", source, re.M | re.S))
    found = re.search(rf"\bfn {name}\b.*?(?=^\s*(?:pub )?fn |\Z)", source, re.M | re.S)
    return found[0] if found else ""


def missing(path, names):
    """Which of the names a clause's link tells don't stand in its file: a function and its clauses, or definitions."""
    source = read(path)
    if path.endswith(".antt"):
        return [name for name in names if not re.search(rf"^(?:\w+ )*{name}\b", source, re.M)]
    owner, _, name = names[0].rpartition("::")
    part = part_of(source, owner, name)
    if not part and (owner or not re.search(rf"\b(?:struct|enum|trait) {name}\b", source)):
        return [names[0]]
    return [clause for clause in names[1:] if not re.search(rf"\b(?:ensures|requires) {clause} ", part)]


def promises():
    wrong = []
    for row in read(PROMISES).splitlines():
        cells = [cell.strip() for cell in row.strip("|").split(" | ")]
        if not row.startswith("| ") or "---" in row or cells[0] in ("Promise", "Question"):
            continue
        sentence = re.sub(r"\[([^\]]*)\]\([^)]*\)", r"\1", cells[0])
        clauses = re.findall(r"\[([^\]]*)\]\(([^)]*)\)", cells[1])
        if len(cells) != 4 or len(sentence.split()) > 25:
            wrong.append(f"{PROMISES}: a row has four columns, and a sentence of at most 25 words: {sentence}")
        if not clauses:
            wrong.append(f"{PROMISES}: no clause is linked: {sentence}")
        for text, target in clauses:
            path = os.path.normpath(os.path.join("docs", target))
            names = re.findall(r"`([^`]+)`", text)
            if not names or not os.path.isfile(os.path.join(TOP, path)):
                wrong.append(f"{PROMISES}: no clause of a file is named: {sentence}")
                continue
            wrong += [f"{PROMISES}: {path} has no {name}" for name in missing(path, names)]
    return wrong


def sources():
    """The text of each file of code."""
    found = {}
    for folder, folders, files in os.walk(os.path.join(TOP, "crates")):
        folders[:] = [name for name in folders if name not in ("out", "specs", "proofs")]
        paths = (os.path.relpath(os.path.join(folder, name), TOP) for name in files if name.endswith(".rt"))
        found.update((path, read(path)) for path in paths)
    return found


def laws():
    found = sources()
    words = {path: set(re.findall(r"\w+", text)) for path, text in found.items()}
    named = {name for path in DOCS for name in re.findall(r"\w+", read(path))}
    return [f"{path}: nothing calls {law}, and no document names it" for path, text in found.items()
            if path.endswith("/laws.rt") for law in re.findall(r"^pub fn (\w+)", text, re.M)
            if law not in named and not any(law in words[other] for other in found if other != path)]


def readme():
    lines = read("README.md").splitlines()
    wrong = [f"README.md has {len(lines)} lines"] if len(lines) > 80 else []
    return wrong + [f"README.md: line {at} is too long" for at, line in enumerate(lines, 1) if len(line) > 110]


def main():
    if "--write" in sys.argv[1:]:
        write()
    wrong = definitions() + rows() + links() + names_and_files() + cited_files() + promises() + laws() + readme()
    for line in wrong:
        print(line)
    sys.exit(1 if wrong else 0)


if __name__ == "__main__":
    main()
