#!/usr/bin/env python3
"""Lets each call that the program makes outside itself fail in turn, and judges what it answers then.

usage: tools/faults.py [--program PROGRAM] [--only WORD] [--kinds KIND,..] [--most N] [--part K/N] [--jobs N] [--minutes N]
                       [--summary FILE]
       tools/faults.py --sum FILE ..
       tools/faults.py --kit NUMBER,.. [--kinds alloc,io,short]

PROGRAM (default: crates/pearl/out/pearl beside this folder; `./pearl` builds it) is run with every command over the plants
of crates/pearl_examples/data, over refused sources, objects and journals, and over words that are no command; each time
with a library before the system's own (tools/faults.c, which `cc` builds) that counts its calls and lets one fail, or one
and all later ones. `watch`, which looks at each millisecond, has journals in which less time passes. With --kit a checked
build of the program's text is tried in its place, over one plant, by `rt try --fail-alloc` for each of the numbers and,
where the kit has them, `--fail-io` and `--short-io`; each number is a build of its own, which takes minutes.

Kinds of calls: `alloc` an allocation, `open` and `read` those of files, `write`, `nothing` a write that takes no byte,
`short` a read or a write of several bytes that moves one. With --most at most so many of each kind fail for one command,
spread evenly. What is right is told beside each kind below (`after_..`). Where nothing else is said, nothing comes on
standard error, and the program ends by itself.

So many workers as the machine has processors, or --jobs, deal with shares of a command's faults, each of them every 16th one,
first the first share of every command, so that what --minutes breaks off has tried some of all. Each share asks the command
again without faults, which has to answer the same each time.

Each difference is told with what reproduces it. At the end stands a table of what was tried, with how many shares of how
many. FILE has the same after each share, so that what is ended in any way is told as well; --sum adds up the files of parts.
The status is 1 where an answer wasn't right.
"""

import argparse
import glob
import hashlib
import json
import multiprocessing
import os
import shutil
import struct
import subprocess
import sys
import tempfile
import time
from collections import Counter
from dataclasses import dataclass, field

from reading import damage
from reading.answers import (FILES, MEMORY, NAMES, NO_MEMORY, READ, READ_FAULT, SLOTS, USAGE, WRITE_FAULT, Answer, asked,
                             by_try, has_journal, is_command, leaves, unlawful)

HERE = os.path.dirname(os.path.abspath(__file__))
TOP = os.path.dirname(HERE)
DATA = os.path.join(TOP, "crates", "pearl_examples", "data")
KINDS = ("alloc", "open", "read", "write", "short", "nothing")
KIT = {"alloc": "--fail-alloc", "io": "--fail-io", "short": "--short-io"}
# What tools/faults.c tells: counts by kind, hits, bytes given, bytes written, files, allocations before each file, a name.
TOLD = struct.Struct("6q 4q 8q 256s")
SECONDS = 300
# The faults of a command are dealt with in so many shares.
SHARES = 16


@dataclass(frozen=True)
class Fault:
    """The call of this kind and number fails, and perhaps all later ones do."""

    kind: str
    number: int
    on: bool = False

    def __str__(self):
        return f"{self.kind} {self.number}{' and on' if self.on else ''}"


@dataclass
class Hit:
    """What the library told: calls by kind, how many failed, what the file at hand had given and what was written before."""

    calls: dict
    hits: int = 0
    given: int = 0
    written: int = 0
    opened: list = field(default_factory=list)
    name: str = ""


class Runner:
    """Runs the program behind the library."""

    def __init__(self, program, folder, library=None):
        self.program, self.told = program, os.path.join(folder, "told")
        self.library = library or os.path.join(folder, "faults.so")
        if not library:
            subprocess.run(["cc", "-O1", "-shared", "-fPIC", "-o", self.library, os.path.join(HERE, "faults.c")], check=True)

    def run(self, words, fault=None):
        """The answer and what was told."""
        with open(self.told, "wb") as file:
            file.write(bytes(TOLD.size))
        kept = {**os.environ, "LD_PRELOAD": self.library, "FAULTS_TOLD": self.told}
        if fault:
            kept.update(FAULTS_KIND=fault.kind, FAULTS_NUMBER=str(fault.number), FAULTS_ON=str(int(fault.on)))
        answer = asked([self.program, *words], SECONDS, kept)
        with open(self.told, "rb") as file:
            numbers = TOLD.unpack(file.read())
        files = list(numbers[10:10 + min(numbers[9], 8)])
        return answer, Hit(dict(zip(KINDS, numbers)), *numbers[6:9], files, os.fsdecode(numbers[-1].split(b"\0")[0]))

    def plain(self, words):
        """The answer where nothing fails."""
        return asked([self.program, *words], SECONDS)


class Whole:
    """A command where nothing fails: its answer, its calls, and what is due of it where something does."""

    def __init__(self, runner, words):
        self.runner, self.words, self.kept = runner, words, {}
        self.answer, self.hit = runner.run(words)
        other = runner.run(["none", *words[1:]])[1] if is_command(words) else self.hit
        self.worded = other.calls["alloc"]

    def lines_before(self, given):
        """What is written of a journal of which so many bytes were read: the lines of its whole lines."""
        front = b""
        if given:
            with open(self.words[2], "rb") as file:
                front = file.read(given)
        front = front[:front.rfind(b"\n") + 1]
        if front not in self.kept:
            cut = os.path.join(os.path.dirname(self.runner.told), "front")
            with open(cut, "wb") as file:
                file.write(front + b"?\n")
            lines = self.runner.plain([*self.words[:2], cut, *self.words[3:]]).out.splitlines(keepends=True)
            self.kept[front] = b"".join(lines[:-1])
        return self.kept[front]


def after_alloc(whole, fault, answer, _):
    """`error memory` alone, with status 7; or all goes on, where a room isn't needed, as for what waits to be written, or is
    only made smaller; or the words couldn't be had, which writes nothing. Words that are no command take no other memory."""
    if (answer.status, answer.out) == (whole.answer.status, whole.answer.out):
        return None
    if (answer.status, answer.out) == (NO_MEMORY, b"") and fault.number <= whole.worded:
        return None
    if (answer.status, answer.out) == (NO_MEMORY, MEMORY) and whole.answer.status != USAGE:
        return None
    return f"{answer.shown()}, in place of `error memory`"


def after_read(whole, _, answer, hit):
    """`error read`, with status 5: alone, or where the journal is read behind the lines of what was read whole."""
    before = b""
    if has_journal(whole.words) and hit.name == whole.words[2] != whole.words[1]:
        before = whole.lines_before(hit.given)
    if (answer.status, answer.out) == (READ_FAULT, before + READ):
        return None
    return f"{answer.shown()}, in place of {len(before)} bytes and `error read`"


def after_write(whole, _, answer, hit):
    """Status 6, and nothing is written behind what was taken before, which isn't all."""
    if answer.status == WRITE_FAULT and answer.out == whole.answer.out[:hit.written] != whole.answer.out:
        return None
    return f"{answer.shown()}, in place of status 6 behind {hit.written} bytes"


def after_short(whole, _, answer, __):
    """The same as without."""
    return None if answer == whole.answer else f"{answer.shown()}, in place of {whole.answer.shown()}"


AFTER = {"alloc": after_alloc, "open": after_read, "read": after_read, "write": after_write, "nothing": after_write,
         "short": after_short}


def judged(whole, fault, answer, hit):
    """Why the answer isn't right, or None."""
    if answer.status is None or answer.status < 0 or answer.told:
        return unlawful(whole.words, answer)
    if not hit.hits:
        return "the call wasn't made"
    return AFTER[fault.kind](whole, fault, answer, hit)


def without_faults(whole):
    """Why the command isn't right where nothing fails, or None: its answer, and that a run takes no memory behind the
    first byte of its journal; `save` takes some for what it writes."""
    why = unlawful(whole.words, whole.answer)
    if why or not has_journal(whole.words) or len(whole.hit.opened) != 2 or whole.words[0] == "save":
        return why
    taken = whole.hit.calls["alloc"] - whole.hit.opened[1]
    return f"{taken} allocations behind the journal's first byte" if taken else None


def numbers(count, most):
    """The numbers of the calls that are to fail: all, or so many of them spread evenly."""
    if not most or count <= most:
        return range(1, count + 1)
    return sorted({1 + round(step * (count - 1) / max(1, most - 1)) for step in range(most)})


def faults(whole, kinds, most):
    """The faults of a command: each call once, and the same with all later ones where more than one can fail; of short ones
    that with all alone."""
    for kind in kinds:
        count = whole.hit.calls[kind]
        for number in numbers(count, most):
            yield Fault(kind, number)
            if number < count and (kind in ("alloc", "write", "nothing") or kind == "short" and number == 1):
                yield Fault(kind, number, True)


def journals(plant):
    """The journals of a plant."""
    return sorted(glob.glob(f"{plant[:-len('.pearl')]}*.journal"))


def object_of(runner, source, path):
    """Writes the source's object."""
    with open(path, "wb") as file:
        file.write(runner.plain(["compile", source]).out)
    return path


def halves_of(runner, made, journal):
    """Writes the snapshot of an object's run over the first half of a journal's lines, and the other half."""
    with open(journal, "rb") as file:
        lines = file.read().splitlines(keepends=True)
    first, rest, path = (f"{made}.{os.path.basename(journal)}.{name}" for name in ("first", "rest", "snapshot"))
    for name, part in ((first, lines[:len(lines) // 2]), (rest, lines[len(lines) // 2:])):
        with open(name, "wb") as file:
            file.write(b"".join(part))
    with open(path, "wb") as file:
        file.write(runner.plain(["save", made, first]).out)
    return path, rest


def shortened(made, journal):
    """Writes a journal in which less time passes, since a monitor looks at each millisecond."""
    with open(journal, "rb") as file:
        data = damage.bounded(file.read())
    path = f"{made}.{os.path.basename(journal)}.shortened"
    with open(path, "wb") as file:
        file.write(data)
    return path


def names_of(runner, made):
    """As many leaves of an object as can be watched together."""
    slots, found = leaves(runner.plain(["list", made]).out), []
    for name in slots:
        if sum(map(slots.get, [*found, name])) <= SLOTS and len(found) < NAMES:
            found.append(name)
    return found


def plants(runner, folder):
    """Every command over each plant."""
    for plant in sorted(glob.glob(os.path.join(DATA, "*.pearl"))):
        made = object_of(runner, plant, os.path.join(folder, os.path.basename(plant)[:-len("pearl")] + "object"))
        for command in ("check", "print", "compile"):
            yield [command, plant]
        yield ["list", made]
        for journal in journals(plant):
            yield ["run", plant, journal]
            yield ["exec", made, journal]
            yield ["watch", made, shortened(made, journal), *names_of(runner, made)]
            yield ["save", made, journal]
            yield ["resume", *halves_of(runner, made, journal)]


def refused(folder):
    """Files that are refused, that are too long, and that aren't there; words that are no command."""
    def kept(name, data):
        path = os.path.join(folder, name)
        with open(path, "wb") as file:
            file.write(data)
        return path

    plant = os.path.join(DATA, "crossing.pearl")
    with open(os.path.join(folder, "crossing.object"), "rb") as file:
        made = file.read()
    with open(plant, "rb") as file:
        text = file.read()
    journal = kept("refused.journal", b"run 5\nrun x\nrun 5\n")
    broken = text.replace(b"MODEND", b"x: TASK; y := 1; END; MODEND")
    for source in (kept("syntax.pearl", text[:-9]), kept("rule.pearl", broken), kept("long.pearl", b" " * 1048577),
                   os.path.join(folder, "missing")):
        for command in ("check", "print", "compile"):
            yield [command, source]
        yield ["run", source, journal]
    for changed in (kept("cut.object", made[:-1]), kept("jump.object", bytes.fromhex(
            "50524c31 0000000000 01 0174 ff01 01 00 01 03 00001f02 1302 19 00")), os.path.join(folder, "missing")):
        yield ["list", changed]
        yield ["exec", changed, journal]
        yield ["watch", changed, journal, "x"]
        yield ["save", changed, journal]
    whole, saved = os.path.join(folder, "crossing.object"), os.path.join(folder, "crossing.object.crossing.journal.snapshot")
    with open(saved, "rb") as file:
        state = file.read()
    for changed in (kept("cut.snapshot", state[:-1]), kept("state.snapshot", bytes.fromhex(
            "50525331 0a 50524c31 000000000000 00 80b89929 00 00 00 00 00 00 00")), os.path.join(folder, "missing")):
        yield ["resume", changed, journal]
    for log in (journal, os.path.join(folder, "missing")):
        yield ["run", plant, log]
        yield ["exec", whole, log]
        yield ["watch", whole, log, "Nachts"]
        yield ["save", whole, log]
        yield ["resume", saved, log]
    for names in (["Nachts", "nachts"], ["Nachts", "Nachts"], [], ["x"] * 65):
        yield ["watch", whole, journal, *names]
    for words in (["bench", "1"], ["bench", "3"], ["bench", "0"], [], ["check"], ["run", plant], ["list", "a", "b"]):
        yield words


def name_of(words):
    """A command by the names of its files."""
    return " ".join(os.path.basename(word) for word in words) or "(no words)"


# The runner of a worker.
WORKER = {}


def begun(program, library):
    """Gives a worker a runner with a folder of its own."""
    WORKER["runner"] = Runner(program, tempfile.mkdtemp(dir=os.path.dirname(library)), library)


def share(work):
    """Tries one share of a command's faults: the command, how it is without them, how many, and what wasn't right."""
    words, number, kinds, most = work
    runner, row = WORKER["runner"], Counter()
    whole = Whole(runner, words)
    if whole.answer.status is None:
        return words, None, row, [("nothing", "it didn't end in time, and none of this share was tried")]
    problems = []
    if number == 0:
        row["commands"] += 1
        problems.append(("nothing", without_faults(whole)))
    for fault in list(faults(whole, kinds, most))[number::SHARES]:
        answer, hit = runner.run(words, fault)
        row[fault.kind] += 1
        row["went on"] += fault.kind == "alloc" and answer == whole.answer
        problems.append((fault, judged(whole, fault, answer, hit)))
    return words, (whole.answer, whole.hit.calls), row, [(str(fault), why) for fault, why in problems if why]


def shares(args, commands):
    """The shares of the chosen commands, the first of each first."""
    chosen = [words for words in commands if args.only in name_of(words)]
    return [(words, number, args.kinds, args.most) for number in range(SHARES) for words in chosen]


def command_of(words):
    """The name by which what was tried of these words is counted."""
    return words[0] if is_command(words) else "no command"


@dataclass
class Sums:
    """What was tried of each command, how many shares of how many, and what wasn't right; and which parts of the commands."""

    counts: dict = field(default_factory=dict)
    wrong: list = field(default_factory=list)
    parts: list = field(default_factory=list)
    lacking: int = 0

    def is_all(self):
        """Whether no share and no part is left."""
        whole = self.whole()
        return whole["tried"] == whole["shares"] and not self.lacking

    def count(self, command, row):
        self.counts.setdefault(command, Counter()).update(row)

    def whole(self):
        """The counts of all commands together."""
        return sum(self.counts.values(), Counter())

    def write(self, path, asked):
        """Writes the file of a part, with what was asked for besides."""
        counts = {command: dict(row) for command, row in self.counts.items()}
        told = {"asked": asked, "parts": self.parts, "wrong": self.wrong, "counts": counts}
        with open(path + ".part", "w", encoding="utf-8") as file:
            json.dump(told, file, indent=1)
            file.write("\n")
        os.replace(path + ".part", path)

    def add(self, path, asked):
        """Adds the file of a part, for which the same was asked; raises ValueError where it isn't so, or the part was added."""
        with open(path, encoding="utf-8") as file:
            told = json.load(file)
        if told["asked"] != asked:
            raise ValueError(f"{path} is of other faults")
        if any(it in self.parts for it in told["parts"]):
            raise ValueError(f"{path} has a part again")
        self.parts += told["parts"]
        self.wrong += told["wrong"]
        for command, row in told["counts"].items():
            self.count(command, row)

    def lines(self):
        """The table of what was tried, a row for each command, and how many answers weren't right."""
        columns = ("commands", "alloc", "went on", "open", "read", "write", "nothing", "short")
        heads = ("Commands", "Allocations", "of which it went on", "Opens", "Reads", "Writes", "Writes of nothing", "Short")
        yield f"| Command | {' | '.join(heads)} | Shares |"
        yield "|---" * (len(heads) + 2) + "|"
        rows = [(name, self.counts[name]) for name in (*FILES, "no command") if name in self.counts]
        for name, row in [*rows, ("all", self.whole())]:
            yield f"| {name} | " + " | ".join(f"{row[it]:,}" for it in columns) + f" | {row['tried']:,} of {row['shares']:,} |"
        rest = "" if self.is_all() else ", and some weren't tried"
        yield f"{sum(self.whole()[it] for it in KINDS):,} runs, {len(self.wrong)} not right{rest}"


def asked_of(args):
    """What a file of a part has to have in common with those of the others: the faults, how many parts there are, and the
    program."""
    with open(args.program, "rb") as file:
        program = hashlib.sha256(file.read()).hexdigest()
    return {"only": args.only, "kinds": list(args.kinds), "most": args.most, "parts": args.part[1], "program": program}


def told(words, problems, sums):
    """Tells what wasn't right of a share."""
    for fault, why in problems:
        sums.wrong.append(f"{name_of(words)}: {fault}: {why}\n    words: {' '.join(words)}")
        print(sums.wrong[-1], flush=True)


def kept(args, sums):
    """Writes what was tried so far, where a file is named."""
    if args.summary:
        sums.write(args.summary, asked_of(args))


def tried(runner, args, folder):
    """Tries all faults of all commands of a part; what was tried."""
    part, parts = args.part
    work = shares(args, [*plants(runner, folder), *refused(folder)][part - 1::parts])
    sums, wholes, ends = Sums(parts=[part]), {}, time.monotonic() + 60 * args.minutes
    for words, *_ in work:
        sums.count(command_of(words), {"shares": 1})
    kept(args, sums)
    with multiprocessing.Pool(args.jobs, begun, (runner.program, runner.library)) as pool:
        for words, whole, row, problems in pool.imap_unordered(share, work):
            sums.count(command_of(words), {**row, "tried": 1})
            if whole and wholes.setdefault(tuple(words), whole) != whole:
                problems.append(("nothing", "it isn't the same each time"))
            told(words, problems, sums)
            kept(args, sums)
            if args.minutes and time.monotonic() > ends:
                print("broken off", flush=True)
                break
    return sums


def by_files(paths):
    """Adds up what the files of parts have."""
    sums = Sums()
    try:
        with open(paths[0], encoding="utf-8") as file:
            asked_for = json.load(file)["asked"]
        for path in paths:
            sums.add(path, asked_for)
    except ValueError as error:
        sys.exit(str(error))
    print("\n".join([*sums.wrong, f"parts {', '.join(map(str, sorted(sums.parts)))} of {asked_for['parts']}"]))
    sums.lacking = asked_for["parts"] - len(sums.parts)
    return sums


def kit_judged(kind, whole, answer):
    """Why the answer of a try isn't right, or None: which read or write it was isn't known here."""
    if answer.status is None:
        return f"it didn't end: {answer.told!r}"
    same = (answer.status, answer.out) == (whole.status, whole.out)
    if kind == "alloc":
        right = same or answer.status == NO_MEMORY and answer.out in (b"", MEMORY)
    elif kind == "io":
        front = answer.out[:-len(READ)]
        lines = front == b"" or front.endswith(b"\n") and whole.out.startswith(front)
        right = (same or answer.status == READ_FAULT and answer.out.endswith(READ) and lines
                 or answer.status == WRITE_FAULT and whole.out.startswith(answer.out) and whole.out != answer.out)
    else:
        right = same
    return None if right else f"{answer.shown()}, where the whole has {whole.shown()}"


def by_kits(args, folder):
    """The same by `rt try`, for a few numbers and every command over one plant; how many answers weren't right."""
    shelf, plant = os.path.join(folder, "cases"), os.path.join(DATA, "crossing")
    os.makedirs(shelf)

    def cases(*commands):
        for words in commands:
            for name, text in ((words[0], ""), (words[0] + ".args", "\n".join(words) + "\n")):
                with open(os.path.join(shelf, name), "w", encoding="ascii") as file:
                    file.write(text)

    data = ["--data", f"p={plant}.pearl", "--data", f"j={plant}.journal"]
    cases(["compile", "p"])
    with open(os.path.join(folder, "object"), "wb") as file:
        file.write(by_try(shelf, data)["compile"].out)
    data += ["--data", f"o={file.name}"]
    cases(["run", "p", "j"], ["exec", "o", "j"], ["check", "p"], ["print", "p"], ["list", "o"],
          ["watch", "o", "j", "Nachts"], ["bench", "1"])
    whole, tries, wrong = by_try(shelf, data), 0, 0
    for kind in args.kinds:
        for number in args.kit:
            answers = by_try(shelf, [*data, KIT[kind], str(number)])
            if answers is None:
                print(f"this kit has no {KIT[kind]}")
                break
            for name, fine in whole.items():
                why = kit_judged(kind, fine, answers.get(name, Answer(None, b"")))
                tries, wrong = tries + 1, wrong + bool(why)
                print(f"{name} {KIT[kind]} {number}: {why or answers[name].shown()}", flush=True)
    print(f"{tries} runs, {wrong} not right")
    return wrong


def words_of(text):
    """A list of words between commas."""
    return tuple(text.split(","))


def main():
    parser = argparse.ArgumentParser(description=__doc__.splitlines()[0])
    parser.add_argument("--program", default=os.path.join(TOP, "crates", "pearl", "out", "pearl"))
    parser.add_argument("--kit", type=lambda text: [int(it) for it in text.split(",")], help="numbers for `rt try`")
    parser.add_argument("--only", default="", help="commands with this in their words")
    parser.add_argument("--kinds", type=words_of, default=None)
    parser.add_argument("--part", type=lambda text: [int(it) for it in text.split("/")], default=(1, 1),
                        help="as 2/8: the second of eight parts of the commands")
    parser.add_argument("--most", type=int, default=0, help="so many faults of a kind for a command; 0: all")
    parser.add_argument("--jobs", type=int, default=os.cpu_count(), help="so many workers")
    parser.add_argument("--minutes", type=float, default=0, help="broken off after so many; 0: never")
    parser.add_argument("--summary", help="a file for what was tried")
    parser.add_argument("--sum", nargs="+", help="files of parts, which are added up")
    args = parser.parse_args()
    args.kinds = args.kinds or (tuple(KIT) if args.kit else KINDS)
    if args.kit:
        with tempfile.TemporaryDirectory() as folder:
            sys.exit(1 if by_kits(args, folder) else 0)
    if not args.sum and not (os.access(args.program, os.X_OK) and shutil.which("cc")):
        sys.exit(f"{args.program} is no program, or there is no cc: build it first, or name one by --program")
    with tempfile.TemporaryDirectory() as folder:
        sums = by_files(args.sum) if args.sum else tried(Runner(os.path.abspath(args.program), folder), args, folder)
    print("\n".join(sums.lines()))
    sys.exit(1 if sums.wrong or not sums.is_all() else 0)


if __name__ == "__main__":
    main()
