#!/usr/bin/env python3
"""Tries `check` and tools/explain on one source for each rule, and on one for each form of old sources.

usage: tools/check_explain.py [PROGRAM]

The sources are the examples of docs/use/rules.md, which has one row for each of the rules S1 to S34, and of
docs/use/porting.md. PROGRAM (default: the script `pearl` beside this folder) is run as `PROGRAM check FILE`, and must
tell the rule of the row at its mark; tools/explain must tell that line by its position and its sentence, and each form by
its name. Then PROGRAM must write what tools/tests/explain keeps of its sources and journals. Prints what differs, and
ends with status 1 if something does.
"""

import os
import re
import subprocess
import sys
import tempfile

from reading import porting
from reading.explaining import Explainer, everything

TOP = os.path.dirname(os.path.dirname(os.path.abspath(__file__)))
ROW = re.compile(r"^\| S(\d+) \| (.+) \| `(.+)` \|$", re.M)

# Sources with a mark before the told byte or none, what is told, and how; NAME stands for the file's name.
OTHERS = [
    ("MODULE(m);\nPROBLEM;\n  t: TASK;\n\tx := ^% 1;\n  END;\nMODEND;", "error syntax {}\n",
     "NAME:4:7: syntax: `%` begins no token\n\tx := % 1;\n\t     ^\n"),
    ("MODULE(m);\nPROBLEM;^", "error syntax {}\n",
     "NAME:2:9: syntax: the source ends where the name of a task or procedure, `SPC`, `DCL`, `TYPE`, `LENGTH` or `MODEND` "
     "belongs\nPROBLEM;\n        ^\n"),
    ("MODULE(m);\r\nPROBLEM;\r\n  t: TASK; ^x := 1; END;\r\nMODEND;\r\n", "error source {} S2\n",
     "NAME:3:12: S2: SENTENCE\n  t: TASK; x := 1; END;\n           ^\n"),
    ("MODULE(m);PROBLEM;MODEND;", "accepted 0 0 0\n", "accepted 0 0 0\n"),
]


def cases():
    """Sources with their marks, each with the program's line and what is to be made of it."""
    with open(os.path.join(TOP, "docs", "use", "rules.md"), encoding="utf-8") as file:
        rows = ROW.findall(file.read())
    if [int(number) for number, _, _ in rows] != list(range(1, 35)):
        sys.exit("docs/use/rules.md: the rows aren't those of S1 to S34, each once and in order")
    sentences = {number: sentence for number, sentence, _ in rows}
    for number, sentence, example in rows:
        source = f"MODULE(m);{example}MODEND;"
        column = source.index("^")
        line = source.replace("^", "")
        told = f"NAME:1:{column + 1}: S{number}: {sentence}\n{line}\n{' ' * column}^\n"
        yield source, "error source {} S" + number + "\n", told
    for source, line, told in OTHERS:
        yield source, line, told.replace("SENTENCE", sentences["2"])


def written(path, source):
    with open(path, "w", encoding="ascii", newline="") as file:
        file.write(source.replace("^", ""))


def checked(program, path):
    """What the program writes of a source, and its status."""
    ended = subprocess.run([program, "check", path], stdout=subprocess.PIPE, check=False)
    return ended.stdout.decode(), ended.returncode


def rules(program, path):
    """Each rule of docs/use/rules.md, and other sources."""
    for source, line, told in cases():
        written(path, source)
        line, told = line.format(source.find("^")), told.replace("NAME", path)
        said, status = checked(program, path)
        if (said, status) != (line, 2 if "error" in line else 0):
            yield f"{source!r}: check writes {said!r} with status {status}, not {line!r}"
        ended = subprocess.run([os.path.join(TOP, "tools", "explain"), path], input=line.encode(),
                               stdout=subprocess.PIPE, check=False)
        # Behind the line and its caret more may be told, indented.
        behind = ended.stdout.decode().removeprefix(told)
        if behind == ended.stdout.decode() or re.sub(r"  .*\n", "", behind) or ended.returncode != ("error" in line):
            yield f"{source!r}: explain writes {ended.stdout.decode()!r} with status {ended.returncode}, not {told!r}"


def forms(program, path):
    """Each form of docs/use/porting.md: the program refuses it at its mark, and it is told by its name."""
    for name, example, _ in porting.rows():
        source = porting.whole(example)
        written(path, source)
        said, _ = checked(program, path)
        place = source.find("^")
        if not re.fullmatch(f"error (syntax {place}|source {place} S2)\n" if place >= 0 else r"accepted .*\n", said):
            yield f"{name}: check writes {said!r} of {source!r}"
        told = Explainer(path).explained(said.encode()).decode() if place >= 0 else everything(path).decode()
        if f"\n  {name}: " not in told:
            yield f"{name}: explain writes {told!r}"


def kept(program):
    """What the program writes of the sources of tools/tests/explain is what their tests ask to be explained."""
    folder = os.path.join(TOP, "tools", "tests", "explain")
    for name in sorted(os.listdir(folder)):
        path, said = os.path.splitext(os.path.join(folder, name))[0], None
        if name.endswith(".journal"):
            words = ["run", os.path.join(folder, "plant.pearl"), f"{path}.journal"]
            said = subprocess.run([program, *words], stdout=subprocess.PIPE, check=False).stdout.decode()
        elif name.endswith(".pearl") and os.path.exists(f"{path}.told"):
            said, _ = checked(program, f"{path}.pearl")
        if said is not None:
            with open(f"{path}.told", encoding="ascii") as file:
                told = file.read()
            if told != said:
                yield f"{name}: the program writes {said!r}, not {told!r}"


def main():
    program = sys.argv[1] if len(sys.argv) > 1 else os.path.join(TOP, "pearl")
    with tempfile.TemporaryDirectory() as folder:
        path = os.path.join(folder, "m.pearl")
        wrong = [*rules(program, path), *forms(program, path), *kept(program)]
    for line in wrong:
        print(line)
    sys.exit(1 if wrong else 0)


if __name__ == "__main__":
    main()
