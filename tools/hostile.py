#!/usr/bin/env python3
"""Gives the program random and damaged files for every command, and judges what it answers.

usage: tools/hostile.py [--program PROGRAM | --try] [--count N] [--seed S] [--from K] [--share I/J] [--only SORT]
                        [--jobs N] [--copies] [--seconds N] [--summary FILE] [--other PROGRAM [--each N]] [--keep FOLDER]
       tools/hostile.py --sum FILE ..

PROGRAM (default: crates/pearl/out/pearl beside this folder; `./pearl` builds it) gets N inputs, the K-th on, each made of
the seed and its number alone, from the plants of crates/pearl_examples/data, their journals and their objects:

- a source: `check`, `print`, `compile` and `run`; of what is accepted `list` and `exec` of its object too; of what is
  printed `print` again;
- an object: `list`, `exec` and `watch`;
- a journal: `run`, `exec` and `watch` of the plant and its object; then in two parts, `save` and `resume`;
- a snapshot of the plant over a front of its journal: `resume`;
- words.

Each answer has to be one that the command may have (tools/reading/answers.py), and those over one input have to go
together: `check`, `print`, `compile` and `run` refuse a source with one line, `exec` of an object does what `run` of its
source does, `watch` ends as `exec` does or refuses the name that `list` shows to be wrong, `save` refuses what `exec` does,
`resume` goes on as `exec` of both parts does, `list` and `exec` refuse the same bytes at the same place, the text of a text
is itself. With --other another implementation is asked for each N-th input, run with the same words, and has to answer the
same status and bytes; only the bytes of an object may be others, which it then lists and executes as well.

Each run has ten seconds (--seconds) and 4 GiB, and is a process of its own. An input with a run that didn't end in time is
tried again when all others were, alone, with as many seconds of a processor. --jobs tries N inputs at once. With --copies
(tools/copies.c, which `cc` builds) the program is loaded once for a hundred inputs, and each run begins in a copy of the
loaded process, which costs less. --share tries the I-th of J parts of the numbers alone.

With --try it is the program's text that runs, by `rt try --cases`, which takes some minutes for each command before it
begins: the answers are judged one by one.

Each difference is told with its seed and number, behind the hundred inputs that it is one of, and kept in FOLDER. The
status is 1 where there is one, or an input that is still to be tried again. Where it is ended by a signal, or one of its
workers ends, what was tried so far is told. FILE has the counts, after each hundred inputs; --sum adds such files up, and writes the runs as a table.
"""

import argparse
import glob
import multiprocessing
import os
import random
import re
import resource
import shutil
import signal
import sys
import tempfile
from contextlib import contextmanager

from reading import damage
from reading.answers import (BAD_NAME, BAD_OBJECT, DONE, NO_WORDS, Answer, by_try, disagreement, gone_on, is_command, leaves,
                             refused_name, unlawful)
from reading.asking import Copies, Runs, library
from reading.tally import Tally, summed

TOP = os.path.dirname(os.path.dirname(os.path.abspath(__file__)))
DATA = os.path.join(TOP, "crates", "pearl_examples", "data")
SORTS = ("source", "source", "source", "object", "object", "journal", "journal", "snapshot", "snapshot", "words")
MEMORY = 4 << 30
# So many inputs are tried between two words of how far it has come.
SPAN = 100
# Where the files of an input stand: in memory where there is such a place, unless TMPDIR names one.
SHELF = None if "TMPDIR" in os.environ or not os.path.isdir("/dev/shm") else "/dev/shm"


def read(path):
    with open(path, "rb") as file:
        return file.read()


def written(folder, name, data):
    """The path of a file with these bytes."""
    path = os.path.join(folder, name)
    with open(path, "wb") as file:
        file.write(data)
    return path


class Plants:
    """The plants, each with its source, its journals and its object, as bytes, and how many slots its leaves have."""

    def __init__(self, compiled, listed):
        self.paths = sorted(glob.glob(os.path.join(DATA, "*.pearl")))
        self.sources = [read(path) for path in self.paths]
        self.logs = [[damage.bounded(read(log)) for log in sorted(glob.glob(f"{path[:-len('.pearl')]}*.journal"))]
                     for path in self.paths]
        self.objects = [compiled(path) for path in self.paths]
        self.slots = [leaves(listed(made)) for made in self.objects]

    def any(self, dice, place, files):
        """The file of this plant, or sometimes another one's; files are lists of one or more for each plant."""
        found = files[place if dice.randrange(4) else dice.randrange(len(files))]
        return found if isinstance(found, bytes) else dice.choice(found)


def dice_of(seed, number):
    """What the input of this number is made of."""
    return random.Random(f"{seed}/{number}")


def sort_of(dice, only):
    sorts = [sort for sort in SORTS if only in sort]
    return dice.choice(sorts or SORTS)


def spent():
    """The seconds of a processor of this process and of those that it has waited for."""
    return sum(sum(resource.getrusage(who)[:2]) for who in (resource.RUSAGE_SELF, resource.RUSAGE_CHILDREN))


class Judge:
    """Runs one input after the other, and tells what isn't right; alone each run has its seconds of a processor."""

    def __init__(self, args, alone=False):
        self.args, self.alone = args, alone
        self.files, self.problems, self.tally = {}, [], Tally()

    def __enter__(self):
        self.shelf = tempfile.TemporaryDirectory(dir=SHELF)
        self.folder = self.shelf.name
        self.runs = Copies(self.args.program, self.args.library) if self.args.copies else Runs()
        self.plants = Plants(lambda path: self.ask(["compile", path], True).out,
                             lambda made: self.ask(["list", self.file("object", made)], True).out)
        return self

    def __exit__(self, *_):
        self.runs.close()
        self.shelf.cleanup()

    def file(self, name, data):
        """The path of a file of this input with these bytes."""
        self.files[name] = data
        return written(self.folder, name, data)

    def ask(self, words, alone):
        return self.runs.asked([self.args.program, *words], self.args.seconds, alone)

    def answer(self, words, compare):
        """The answer of a command, judged by itself and beside the other's."""
        answer = self.ask(words, self.alone)
        self.tally.ran(words[0] if is_command(words) else "no command", answer)
        why = unlawful(words, answer)
        if compare and answer.status != NO_WORDS:
            other = self.runs.asked([self.args.other, *words], 30 * self.args.seconds)
            self.tally.compared += 1
            free = (words[:1], answer.status) == (["compile"], DONE)
            if other.status != answer.status or other.out != answer.out and not free:
                why = why or f"it has {answer.shown()}, the other {other.shown()}"
        if why:
            self.problems.append(f"{ascii(' '.join(map(os.path.basename, words)))}: {why}")
        return answer

    def source(self, dice, compare):
        """All commands over a source, and over what they make of it."""
        place = dice.randrange(len(self.plants.paths))
        data = damage.source(dice, self.plants.sources[place], dice.choice(self.plants.sources))
        path = self.file("source", data)
        log = self.file("journal", dice.choice(self.plants.logs[place]))
        answers = {name: self.answer([name, path], compare) for name in ("check", "print", "compile")}
        answers["run"] = self.answer(["run", path, log], compare)
        if answers["compile"].status == DONE:
            made = self.file("object", answers["compile"].out)
            answers["exec"] = self.answer(["exec", made, log], compare)
            if self.answer(["list", made], compare).status != DONE:
                self.problems.append("list refuses what compile made")
        if answers["print"].status == DONE:
            text = self.file("text", answers["print"].out)
            if self.answer(["print", text], compare) != answers["print"]:
                self.problems.append("the text of a text isn't itself")
            self.sizes_are_kept(self.answer(["check", text], compare), answers["check"])
        self.problems += filter(None, [disagreement(answers)])

    def sizes_are_kept(self, again, first):
        """A source's text is accepted with the same sizes, or breaks the same rule."""
        if again.status != first.status or again.out.split()[-1:] != first.out.split()[-1:]:
            self.problems.append(f"check has {first.shown()}, and of the text {again.shown()}")

    def object(self, dice, compare):
        """An object, over a journal of the plant that it comes of."""
        place = dice.randrange(len(self.plants.paths))
        data = damage.made(dice, self.plants.objects[place], self.plants.any(dice, place, self.plants.objects))
        path = self.file("object", data)
        log = self.file("journal", dice.choice(self.plants.logs[place]))
        listed, run = self.answer(["list", path], compare), self.answer(["exec", path, log], compare)
        if (listed.status == BAD_OBJECT) != bool(re.fullmatch(rb"error object \d+\n", run.out)):
            self.problems.append(f"list has {listed.shown()}, exec {run.shown()}")
        if listed.status == BAD_OBJECT and listed != run:
            self.problems.append(f"list has {listed.shown()}, exec {run.shown()}")
        self.watch(dice, compare, (path, log), leaves(listed.out), run)

    def watch(self, dice, compare, files, slots, run):
        """A monitor of some leaves of an object, which have these slots, over a journal over which it runs so."""
        names = damage.names(dice, sorted(slots))
        watched = self.answer(["watch", *files, *names], compare)
        if not is_command(["watch", *files, *names]):
            return
        self.problems += filter(None, [disagreement({"exec": run, "watch": watched})])
        number = refused_name(slots, names) if run.status != BAD_OBJECT else None
        if number and (watched.status, watched.out) != (BAD_NAME, f"error name {number}\n".encode()):
            self.problems.append(f"watch has {watched.shown()}, where list refuses name {number}")

    def journal(self, dice, compare):
        """A journal, over a plant and over its object."""
        place = dice.randrange(len(self.plants.paths))
        data, other = dice.choice(self.plants.logs[place]), self.plants.any(dice, place, self.plants.logs)
        log = self.file("journal", damage.journal(dice, data, other))
        made = self.file("object", self.plants.objects[place])
        one = self.answer(["run", self.plants.paths[place], log], compare)
        two = self.answer(["exec", made, log], compare)
        if one != two:
            self.problems.append(f"run has {one.shown()}, exec of the object {two.shown()}")
        self.watch(dice, compare, (made, log), self.plants.slots[place], two)
        self.parts(dice, compare, made, read(log), two)

    def parts(self, dice, compare, made, data, whole):
        """A journal in two parts, over an object that does this over the whole: saved behind the first, then gone on with."""
        *both, lines = damage.parted(dice, data)
        first, rest = (self.file(name, part) for name, part in zip(("first", "rest"), both))
        saved, run = self.answer(["save", made, first], compare), self.answer(["exec", made, first], False)
        self.problems += filter(None, [disagreement({"exec": run, "save": saved})])
        if saved.status == DONE and run.status == DONE:
            path, nothing = self.file("snapshot", saved.out), self.file("nothing", b"")
            closing, on = self.answer(["resume", path, nothing], compare), self.answer(["resume", path, rest], compare)
            has_clock = re.search(rb"^[ \t]*clock", both[1], re.M)
            self.problems += filter(None, [None if has_clock else gone_on(whole, run, closing, on, lines)])

    def snapshot(self, dice, compare):
        """A damaged snapshot of a plant over a front of its journal; what is taken is gone on with."""
        place = dice.randrange(len(self.plants.paths))
        made = self.file("object", self.plants.objects[place])
        first, rest, _ = damage.parted(dice, dice.choice(self.plants.logs[place]))
        saved = self.answer(["save", made, self.file("first", first)], compare)
        if saved.status == DONE:
            path = self.file("snapshot", damage.snapshot(dice, saved.out, saved.out))
            self.answer(["resume", path, self.file("rest", rest)], compare)

    def words(self, dice, compare):
        """Words, among them paths."""
        self.answer(damage.words(dice, [*self.plants.paths[:2], self.folder, os.path.join(self.folder, "missing")]), compare)

    def go(self, number):
        """What comes of the input of this number, which is late where a run of it didn't end in time."""
        dice, self.problems, self.files, self.tally = dice_of(self.args.seed, number), [], {}, Tally()
        sort = sort_of(dice, self.args.only)
        getattr(self, sort)(dice, bool(self.args.other) and number % self.args.each == 0)
        if not self.alone and any(status == "None" for _, status in self.tally.runs):
            return Tally(late=[number])
        self.tally.inputs[sort] += 1
        self.tally.wrong = [f"seed {self.args.seed} number {number}, {sort}: {problem}" for problem in self.problems]
        if self.problems and self.args.keep:
            os.makedirs(self.args.keep, exist_ok=True)
            for name, data in self.files.items():
                written(self.args.keep, f"{self.args.seed}-{number}-{name}", data)
        return self.tally

    def tried(self, numbers):
        """What comes of the inputs of these numbers."""
        before, whole = spent(), Tally()
        for number in numbers:
            whole.add(self.go(number))
        self.runs.end()
        whole.seconds = spent() - before
        return whole


def work(args, spans, sender):
    """What a worker does: it sends what comes of these spans of numbers, one after the other."""
    signal.signal(signal.SIGINT, signal.SIG_IGN)
    signal.signal(signal.SIGTERM, lambda *_: sys.exit(1))
    with Judge(args) as judge:
        for span in spans:
            sender.send(judge.tried(span))


def by_workers(args, spans):
    """What comes of each span of numbers, in order; the workers take turns in them."""
    context, workers = multiprocessing.get_context("fork"), []
    try:
        for place in range(args.jobs):
            receiver, sender = context.Pipe(duplex=False)
            workers.append((context.Process(target=work, args=(args, spans[place::args.jobs], sender)), receiver))
            workers[-1][0].start()
            sender.close()
        for place, span in enumerate(spans):
            try:
                tally = workers[place % args.jobs][1].recv()
            except EOFError as ended:
                raise ChildProcessError(f"a worker ended in the numbers {span[0]} to {span[-1]}") from ended
            yield tally
        for process, _ in workers:
            process.join()
    finally:
        for process, receiver in workers:
            process.terminate()
            process.join()
            receiver.close()


def tallies(args, spans):
    """What comes of each span of numbers, in order."""
    if args.jobs > 1:
        yield from by_workers(args, spans)
    else:
        with Judge(args) as judge:
            yield from map(judge.tried, spans)


def again(args, numbers):
    """What comes of the inputs of these numbers where each is tried alone."""
    with Judge(args, alone=True) as judge:
        tally = judge.tried(numbers)
    tally.again = len(numbers)
    return tally


@contextmanager
def limited():
    """Each process that is begun has so much memory and writes so much at most, and SIGTERM breaks off."""
    limits = {limit: resource.getrlimit(limit) for limit in (resource.RLIMIT_AS, resource.RLIMIT_FSIZE)}
    before = signal.signal(signal.SIGTERM, signal.default_int_handler)
    try:
        for limit, (_, most) in limits.items():
            resource.setrlimit(limit, (MEMORY, most))
        yield
    finally:
        signal.signal(signal.SIGTERM, before)
        for limit, kept in limits.items():
            resource.setrlimit(limit, kept)


def told(args, whole, tally, behind):
    """Adds what came of some inputs, and tells it; the numbers below this one were tried."""
    whole.add(tally)
    for line in tally.wrong:
        print(line, flush=True)
    if args.summary:
        whole.write(args.summary, {"seed": args.seed, "only": args.only, "from": args.begin, "behind": behind})


def by_program(args):
    """Tries them with a program; how many answers weren't right."""
    end, size = args.begin + args.count, max(1, min(SPAN, -(-args.count // args.jobs)))
    spans = [range(begin, min(begin + size, end)) for begin in range(args.begin, end, size)]
    whole, behind, ended = Tally(), args.begin, 0
    try:
        with limited():
            for tally in tallies(args, spans):
                behind = min(behind + size, end)
                told(args, whole, tally, behind)
            late, whole.late = whole.late, []
            if late:
                told(args, whole, again(args, late), behind)
    except KeyboardInterrupt:
        print(f"broken off behind number {behind - 1}")
    except ChildProcessError as why:
        print(f"broken off behind number {behind - 1}: {why}")
        ended = 1
    print("\n".join(whole.lines()))
    return len(whole.wrong) + len(whole.late) + ended


def forms_of(source, log):
    """For each command the sort of its input, its words, in which `{}` is the input, and the files that stand beside it."""
    return {"check": ("source", ["check", "{}"], {}), "print": ("source", ["print", "{}"], {}),
            "compile": ("source", ["compile", "{}"], {}), "list": ("object", ["list", "{}"], {}),
            "exec": ("object", ["exec", "{}", "j"], {"j": log}), "run": ("journal", ["run", "s", "{}"], {"s": source}),
            "watch": ("object", ["watch", "{}", "j", "Wert", "Stand"], {"j": log})}


def by_command(args, shelf, make, sort, words, data):
    """What comes of inputs that are made so, where the program's text is given them with these words."""
    for name in os.listdir(shelf):
        os.remove(os.path.join(shelf, name))
    for number in range(args.begin, args.begin + args.count):
        written(shelf, f"i{number}", make(dice_of(args.seed, number)))
    flags = [it for name, path in data.items() for it in ("--data", f"{name}={path}")]
    answers, tally = by_try(shelf, flags, words), Tally()
    for name in os.listdir(shelf):
        answer = answers.get(name, Answer(None, b""))
        paths = [os.path.join(shelf, name) if word == "{}" else data.get(word, word) for word in words]
        why = unlawful(paths, answer)
        tally.inputs[sort] += 1
        tally.ran(words[0], answer)
        if why:
            tally.wrong.append(f"seed {args.seed} number {name[1:]}, {words[0]}: {why}")
    return tally


def by_text(args):
    """Tries them with the program's text; how many answers weren't right."""
    whole, plants = Tally(), sorted(glob.glob(os.path.join(DATA, "*.pearl")))
    with tempfile.TemporaryDirectory() as folder:
        shelf = os.path.join(folder, "cases")
        logs = [damage.bounded(read(path)) for path in sorted(glob.glob(os.path.join(DATA, "*.journal")))]
        log, sources = written(folder, "journal", logs[0]), [read(plant) for plant in plants]
        os.makedirs(shelf)
        for place, plant in enumerate(sources):
            written(shelf, f"i{place}", plant)
        objects = [answer.out for answer in by_try(shelf, [], ["compile", "{}"]).values()]
        makers = {"source": lambda dice: damage.source(dice, dice.choice(sources), dice.choice(sources)),
                  "object": lambda dice: damage.made(dice, dice.choice(objects), dice.choice(objects)),
                  "journal": lambda dice: damage.journal(dice, logs[0], dice.choice(logs))}
        for sort, words, data in forms_of(plants[0], log).values():
            if args.only in (sort, ""):
                told(args, whole, by_command(args, shelf, makers[sort], sort, words, data), args.begin + args.count)
    print("\n".join(whole.lines()))
    return len(whole.wrong)


def by_files(paths):
    """Adds up what the files of parts have; how many answers weren't right."""
    try:
        whole = summed(paths)
    except ValueError as error:
        sys.exit(str(error))
    print("\n".join([*whole.wrong, *whole.lines(), f"{whole.seconds:,.0f} s of a processor", "", *whole.table()]))
    return len(whole.wrong) + len(whole.late)


def options():
    """What the words ask for."""
    parser = argparse.ArgumentParser(description=__doc__.splitlines()[0])
    parser.add_argument("--program", default=os.path.join(TOP, "crates", "pearl", "out", "pearl"))
    parser.add_argument("--try", dest="by_try", action="store_true", help="the program's text, by `rt try`")
    parser.add_argument("--count", type=int, default=1000)
    parser.add_argument("--seed", default="1")
    parser.add_argument("--from", dest="begin", type=int, default=1)
    parser.add_argument("--share", type=lambda text: [int(it) for it in text.split("/")], default=(1, 1),
                        help="as 2/8: the second of eight parts of the numbers")
    parser.add_argument("--only", default="", help="source, object, journal, snapshot or words")
    parser.add_argument("--jobs", type=int, default=1, help="so many inputs at once")
    parser.add_argument("--copies", action="store_true", help="load the program once for many runs")
    parser.add_argument("--seconds", type=int, default=10, help="so many for each run")
    parser.add_argument("--summary", help="a file for the counts")
    parser.add_argument("--sum", nargs="+", help="files of counts, which are added up")
    parser.add_argument("--other", help="another implementation's program")
    parser.add_argument("--each", type=int, default=1, help="with --other each N-th input is compared")
    parser.add_argument("--keep", help="a folder for inputs that are not answered right")
    args = parser.parse_args()
    (part, parts), begin, count = args.share, args.begin, args.count
    args.begin = begin + count * (part - 1) // parts
    args.count = begin + count * part // parts - args.begin
    return args


def main():
    args = options()
    if args.sum or args.by_try:
        sys.exit(1 if (by_files(args.sum) if args.sum else by_text(args)) else 0)
    if not os.access(args.program, os.X_OK):
        sys.exit(f"{args.program} is no program: build it first, or name one by --program")
    if args.copies and not shutil.which("cc"):
        sys.exit("--copies asks for cc, which isn't there")
    args.program = os.path.abspath(args.program)
    with tempfile.TemporaryDirectory() as folder:
        args.library = library(folder) if args.copies else None
        sys.exit(1 if by_program(args) else 0)


if __name__ == "__main__":
    main()
