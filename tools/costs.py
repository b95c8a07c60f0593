#!/usr/bin/env python3
"""What a command costs: peak memory and time over generated sources, one form a row.

usage: tools/costs.py COMMAND [--program PROGRAM] [--runs N] [--only WORD].. [--seconds N] [--markdown] [--check]
                      [--instructions]
       tools/costs.py COMMAND --names

COMMAND is `print`, `check`, `compile` or `run`: each source is one module that is filled with one thing up to 256 KiB or
to 1 MiB, the longest source that is read, and run over the journal `run 1` (tools/cost_forms.py). Or it is `list` or
`exec`, with objects of 4 MiB and 16 MiB that are filled with one opcode, and no journal; or `journal`, which runs a plant
over journals of 16 MiB and 64 MiB of one line (tools/cost_objects.py).

PROGRAM (default: crates/pearl/out/pearl beside this folder; `./pearl` builds it) is run N times for each file, and broken
off after so many seconds (100) of a processor. Told are the greatest resident set of all runs, the least time of a
processor, and the time for the longer file over that for the shorter one; of what was broken off `more than`. --only takes
the forms whose names have a word in them, and may stand several times; --names tells the names and measures nothing.

Behind a row stands what isn't as it should be: a run that ended with another status than its form is marked with, for
which the status is 1, and a figure above its bound, for which it is 1 with --check. The ratio may be up to 4.8, and is
`noise` up to 6 where the shorter file takes less than 0.1 s; below 0.1 s for the longer one it isn't judged. With --markdown
both are told on standard error.

With --instructions it is instructions that are told and compared in place of seconds, in thousands of millions: valgrind
counts them, some twenty times as slow and never broken off, and they are the same whatever else the machine does. What
memory takes isn't in them.
"""

import argparse
import os
import re
import resource
import shutil
import signal
import subprocess
import sys
import tempfile
from dataclasses import dataclass

from cost_forms import FORMS
from cost_objects import PLANT

KIB = 1024
SIZES = {"list": (4096 * KIB, 16384 * KIB), "exec": (4096 * KIB, 16384 * KIB), "journal": (16384 * KIB, 65536 * KIB)}
SOURCES = (256 * KIB, 1024 * KIB)

# The greatest ratio of times that counts as linear for four times as much, the greatest where times are short, and which are.
RATIO, NOISY, SHORT = 4.8, 6, 0.1


def filled(text, size):
    """The file of this form with as much as goes into `size` bytes, a text filled with line ends: where it must lie by the
    lengths of a smaller and a larger one, or in the middle by turns."""
    low, high, made, turn = 1, 2, text(1), True
    while len(larger := text(high)) <= size:
        low, high, made = high, 2 * high, larger
    longest = len(larger)
    while high - low > 1:
        count = low + (high - low) * (size - len(made)) // (longest - len(made)) if turn else (low + high) // 2
        count = min(max(count, low + 1), high - 1)
        here = text(count)
        if len(here) <= size:
            low, made = count, here
        else:
            high, longest = count, len(here)
        turn = not turn
    return made if isinstance(made, bytes) else (made + "\n" * (size - len(made))).encode("ascii")


def run(words, most=None):
    """Status, processor seconds and greatest resident set in bytes of one run, and the front of what it wrote. After so
    many seconds it is ended by a signal."""
    limited = most and (lambda: resource.setrlimit(resource.RLIMIT_CPU, (most, most + 1)))
    with tempfile.TemporaryFile() as out:
        child = subprocess.Popen(words, stdout=out, stderr=subprocess.STDOUT, preexec_fn=limited)
        _, status, usage = os.wait4(child.pid, 0)
        child.returncode = os.waitstatus_to_exitcode(status)
        out.seek(0)
        said = out.read(200)
    return child.returncode, usage.ru_utime + usage.ru_stime, usage.ru_maxrss * KIB, said


# Counts the instructions of a program, and tells them on standard error.
COUNTER = ["valgrind", "--tool=cachegrind", "--cache-sim=no", "--cachegrind-out-file=/dev/null"]


def instructions(words):
    """How many thousands of millions of instructions a run takes, and its status."""
    done = subprocess.run([*COUNTER, *words], stdout=subprocess.DEVNULL, stderr=subprocess.PIPE, check=False)
    counted = re.search(rb"I *refs: +([\d,]+)", done.stderr)
    if not counted:
        sys.exit(f"{COUNTER[0]} counted nothing: {done.stderr[-200:]!r}")
    return int(counted[1].replace(b",", b"")) / 1e9, done.returncode


@dataclass
class Cost:
    """What the runs over one file took: the least seconds, or the instructions, the greatest peak in bytes, their statuses,
    and what they wrote."""

    seconds: float
    peak: int
    statuses: set
    said: bytes


def words_of(args, folder, form, size):
    """Writes the files of a form for this size: the words that run the program over them."""
    file, journal = (os.path.join(folder, name) for name in ("file", "journal"))
    made = filled(form.text, size)
    contents = made, b"" if args.command == "exec" else b"run 1\n"
    for path, content in zip((file, journal), (PLANT.encode("ascii"), made) if args.command == "journal" else contents):
        with open(path, "wb") as written:
            written.write(content)
    command = "run" if args.command == "journal" else args.command
    return [args.program, command, file, *([journal] if command in ("run", "exec") else [])]


def measured(args, folder, form, size):
    """What the runs of a form cost; one that is broken off is the last."""
    words = words_of(args, folder, form, size)
    cost = Cost(float("inf"), 0, set(), b"")
    for _ in range(args.runs):
        status, seconds, peak, said = run(words, args.seconds)
        cost.peak = max(cost.peak, peak)
        if status == -signal.SIGXCPU:
            cost.seconds, cost.said = float("inf"), b"broken off"
            return cost
        cost.seconds, cost.said = min(cost.seconds, seconds), said
        cost.statuses.add(status)
    if args.instructions:
        cost.seconds, status = instructions(words)
        cost.statuses.add(status)
    return cost


def judged(form, small, large, counted=False):
    """What isn't as it should be: of how the runs ended, and of what they took; instructions have no bound but the ratio."""
    ends = [f"ENDED WITH {sorted(it.statuses)}, NOT {form.status}" for it in (small, large) if it.statuses - {form.status}]
    ratio, above = ratio_of(small, large), []
    if large.peak >= form.megabytes * 1e6 or large.seconds >= form.seconds and not counted:
        above.append("ABOVE ITS BOUND")
    if ratio > RATIO and (counted or large.seconds >= SHORT):
        above.append("noise" if small.seconds < SHORT and ratio <= NOISY and not counted else "NOT LINEAR")
    return ends, above


def ratio_of(small, large):
    """The time for the longer file over that for the shorter one."""
    return large.seconds / small.seconds if 0 < small.seconds < float("inf") else float("inf")


def told(args, name, small, large, notes):
    """One row: peaks in MB (10^6 bytes), times in seconds or instructions, and their ratio; behind it the notes."""
    peaks, times = [it.peak / 1e6 for it in (small, large)], [it.seconds for it in (small, large)]
    ratio = ratio_of(small, large)
    if args.markdown:
        shown = [f"{peak:.0f} MB" for peak in peaks]
        unit = "" if args.instructions else " s"
        shown += [f"{time:.2f}{unit}" if time < float("inf") else f"more than {args.seconds} s" for time in times]
        print(f"| {name} | {' | '.join(shown)} | {f'{ratio:.1f}' if ratio < float('inf') else ''} |", flush=True)
        if notes:
            print(f"{name}: {'; '.join(notes)}", file=sys.stderr, flush=True)
    else:
        said = large.said.decode("ascii", "replace").strip()[:40] if args.command in ("check", "run") else ""
        figures = "{:9.1f}{:9.1f}{:9.3f}{:9.3f}{:8.2f}".format(*peaks, *times, ratio)
        print(f"{name:82}{figures}  {'  '.join([said, *notes])}".rstrip(), flush=True)


def head(args, sizes):
    """The line above the rows."""
    what, unit = ("Instructions / 10^9", "10^9") if args.instructions else ("Time", "s")
    names = [f"{size // KIB // KIB} MiB" if size >= KIB * KIB else f"{size // KIB} KiB" for size in sizes]
    if args.markdown:
        print(f"| Form | Peak, {names[0]} | Peak, {names[1]} | {what}, {names[0]} | {what}, {names[1]} | Ratio |")
        print("|---|---|---|---|---|---|")
    else:
        print(f"{'form':82}{f'MB {names[0]}':>9}{f'MB {names[1]}':>9}{names[0]:>9}{names[1]:>9}{'ratio':>8}  ({unit})")


def main():
    here = os.path.dirname(os.path.dirname(os.path.abspath(__file__)))
    parser = argparse.ArgumentParser(description=__doc__.splitlines()[0])
    parser.add_argument("command", choices=sorted(FORMS))
    parser.add_argument("--program", default=os.path.join(here, "crates", "pearl", "out", "pearl"))
    parser.add_argument("--runs", type=int, default=3)
    parser.add_argument("--only", action="append", default=[], help="forms whose name has this in it, or another such word")
    parser.add_argument("--names", action="store_true", help="the names of the forms alone")
    parser.add_argument("--seconds", type=int, default=100, help="a run is broken off after so many")
    parser.add_argument("--markdown", action="store_true", help="rows of a table for docs/evidence.md")
    parser.add_argument("--check", action="store_true", help="status 1 where a bound is passed")
    parser.add_argument("--instructions", action="store_true", help="count instructions in place of seconds, by valgrind")
    args = parser.parse_args()
    forms = [form for form in FORMS[args.command] if not args.only or any(word in form.name for word in args.only)]
    if args.names:
        print("\n".join(form.name for form in forms))
        return
    if not os.access(args.program, os.X_OK):
        sys.exit(f"{args.program} is no program: build it first, or name one by --program")
    if args.instructions and not shutil.which(COUNTER[0]):
        sys.exit(f"--instructions asks for {COUNTER[0]}, which isn't there")

    sizes = SIZES.get(args.command, SOURCES)
    head(args, sizes)
    right = True
    with tempfile.TemporaryDirectory() as folder:
        for form in forms:
            small, large = (measured(args, folder, form, size) for size in sizes)
            ends, above = judged(form, small, large, args.instructions)
            right = right and not ends and not (args.check and set(above) - {"noise"})
            told(args, form.name, small, large, [*ends, *above])
    sys.exit(0 if right else 1)


if __name__ == "__main__":
    main()
