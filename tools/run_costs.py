#!/usr/bin/env python3
"""What a run costs where a plant has many tasks, plans or lines that wait: one workload a row.

usage: tools/run_costs.py [--program PROGRAM] [--runs N] [--only WORD] [--markdown]

PROGRAM (default: crates/pearl/out/pearl beside this folder; `./pearl` builds it) runs each plant with a long journal and
with one without what is measured, N times each. Told are the seconds of a processor that the long one takes more, the
least of all runs, and what that is for each pick, millisecond, line or start, in microseconds. Of monitors it is what
`watch` takes over the long journal, from the object on, with the greatest memory, for each slot that is compared or each
millisecond.
"""

import argparse
import os
import subprocess
import sys
import tempfile

from costs import run

HEAD = "MODULE(m); SYSTEM; tty: TERMINAL(1); PROBLEM; SPC tty DATION INOUT ALPHIC;\n"
TAIL = "MODEND;\n"


def tasks(count, body, attributes=""):
    """So many tasks with this body, in which # is the number of the task."""
    text = f"t#: TASK{attributes};\n{body}\nEND;\n"
    return "".join(text.replace("#", str(number)) for number in range(count))


def ready(count):
    """All ready: each goes round and hands nothing over; the first one alone acts."""
    return HEAD + "DCL x FIXED;\n" + tasks(count, "REPEAT x := 1; END;", " PRIO 5 MAIN") + TAIL


def waiting(count):
    """One acts, and all others wait for a semaphore that nobody releases."""
    return (HEAD + "DCL x FIXED; DCL s SEMA PRESET(0);\nworks: TASK PRIO 9 MAIN;\nREPEAT x := 1; END;\nEND;\n"
            + tasks(count - 1, "REQUEST s;", " PRIO 5 MAIN") + TAIL)


def dormant(count):
    """One acts, and no other is started."""
    return (HEAD + "DCL x FIXED;\nworks: TASK PRIO 9 MAIN;\nREPEAT x := 1; END;\nEND;\n"
            + tasks(count - 1, "x := 1;", " PRIO 5") + TAIL)


def handing(count):
    """All hand a semaphore around."""
    presets = ",".join(["1"] + ["0"] * (count - 1))
    names = ",".join(f"s{number}" for number in range(count))
    bodies = "".join(f"t{n}: TASK PRIO {n % 250 + 1} MAIN;\nREPEAT REQUEST s{n}; RELEASE s{(n + 1) % count}; END;\nEND;\n"
                     for n in range(count))
    return f"{HEAD}DCL ({names}) SEMA PRESET({presets});\n{bodies}{TAIL}"


def locking(count):
    """All request and release one semaphore."""
    return HEAD + "DCL s SEMA PRESET(1);\n" + tasks(count, "REPEAT REQUEST s; RELEASE s; END;", " PRIO 5 MAIN") + TAIL


def planned(count, first, period):
    """So many plans that start a task each, with these schedules in milliseconds."""
    starts = "".join(f"AFTER {first(n)} SEC ALL {period(n)} SEC ACTIVATE t{n};\n" for n in range(count))
    return f"{HEAD}DCL x FIXED;\nbegins: TASK PRIO 1 MAIN;\n{starts}END;\n{tasks(count, 'x := 1;', ' PRIO 5')}{TAIL}"


def often(number):
    """Seconds: a millisecond for the first plan, an hour for each other."""
    return 3600 if number else "0.001"


def series(count):
    """Two plans for each of so many tasks, none of which fires in the first hours: starts, and goings on."""
    starts = "".join(f"AFTER {n + 1} HRS ALL 1 HRS ACTIVATE t{n};\n" for n in range(count))
    bodies = tasks(count, "AFTER 90 HRS RESUME;", " PRIO 5 MAIN")
    return f"{HEAD}begins: TASK PRIO 200 MAIN;\n{starts}END;\n{bodies}{TAIL}"


def gets(count, items):
    """So many tasks that wait in a GET of one value for these items."""
    return differing(count, lambda _: items)


def differing(count, items):
    """So many tasks that wait in a GET of one value, each for the items of its number."""
    bodies = "".join(f"t{n}: TASK PRIO 5 MAIN;\nDCL a FIXED; REPEAT GET a FROM tty BY {items(n)}; END;\nEND;\n"
                     for n in range(count))
    return HEAD + bodies + TAIL


def reading(count, items):
    """One task reads digit by digit, and so many others wait in a GET of one value, each for the items of its number."""
    reads = "reads: TASK PRIO 9 MAIN;\nDCL a FIXED; REPEAT GET a FROM tty BY F(1); END;\nEND;\n"
    return differing(count, items)[:-len(TAIL)] + reads + TAIL


def lines(count):
    """The items of so many lines that are passed over."""
    rest = f"SKIP({count % 255}), " if count % 255 else ""
    return "SKIP(255), " * (count // 255) + rest


# 3,000 bytes that wait, none of which ends a line.
FULL = f"chars 1 '{'1' * 250}'\n" * 12

# Each row: a name, the plant, the journal's part that is measured, how much of what it has, and, where the lines by
# themselves are not to be measured, what stands in its place in the other journal.
WORK = [
    *[(f"a pick, {count} tasks, {what}", plant(count), f"run {picks}\n", picks, "pick")
      for what, plant, picks in [("all ready", ready, 1_000_000), ("all but one waiting", waiting, 1_000_000),
                                 ("all but one dormant", dormant, 1_000_000), ("handing around", handing, 400_000),
                                 ("locking", locking, 400_000)]
      for count in (2, 20, 200)],
    ("a millisecond, 400 series, none due", series(198), "pass 1000000 1\n", 1_000_000, "millisecond"),
    ("a line `tick 1`, 400 series, none due", series(198), "tick 1\n" * 100_000, 100_000, "line", "#ick 1\n" * 100_000),
    ("a line `tick 1`, no series", dormant(2), "tick 1\n" * 100_000, 100_000, "line", "#ick 1\n" * 100_000),
    ("a day, a start each minute", planned(1, lambda _: 60, lambda _: 60), "pass 86400000 1000\n", 1439, "start"),
    ("100,000 milliseconds, one of 198 plans fires in each", planned(198, often, often),
     "pass 100000 2\n", 100_000, "millisecond"),
    ("a day, 198 plans of a second each, all at once", planned(198, lambda _: 1, lambda _: 1), "pass 86400000 1000\n",
     86_399 * 198, "start"),
    ("1,000 lines, 198 tasks wait in a GET of F(4)", gets(198, "F(4)"), "line 1 '1'\n" * 1000, 1000, "line"),
    ("1,000 lines, 198 tasks wait in a GET of 1,020 lines", gets(198, "SKIP(255), " * 4 + "F(4)"), "line 1 '1'\n" * 1000,
     1000, "line"),
    ("1,000 lines of a byte, 198 tasks wait in a GET", gets(198, "SKIP(1), F(4)"), "chars 1 '1'\n" * 1000, 1000, "line"),
    ("1,000 lines, 198 tasks wait in GETs of 823 to 1,020 lines", differing(198, lambda n: lines(1020 - n) + "F(4)"),
     "line 1 '123'\n" * 1000, 1000, "line"),
    ("1,000 lines, each fifth completes one of 198 GETs", differing(198, lambda n: lines(5 * n + 1) + "F(4)"),
     "line 1 '123'\n" * 1000, 1000, "line"),
    ("400 lines that take 198 GETs a line further each", differing(198, lambda n: "X, SKIP, " * 400 + f"F({n + 4})"),
     "line 1 '1'\n" * 400, 400, "line"),
    ("1,000 lines, each read by one of 198 GETs", differing(198, lambda n: f"F({n + 4}), SKIP"),
     "line 1 '1'\nrun 2\n" * 1000, 1000, "line"),
    ("3,000 bytes read by one task alone, digit by digit", reading(0, str), FULL + "run 6000\n",
     3000, "byte", FULL),
    ("3,000 bytes read, 197 tasks wait in a GET of 255 lines", reading(197, lambda _: "SKIP(255), F(4)"), FULL + "run 6000\n",
     3000, "byte", FULL),
    ("3,000 bytes read, 197 tasks wait in GETs of lines, no two alike", reading(197, lambda n: f"SKIP({n + 1}), F(4)"),
     FULL + "run 6000\n", 3000, "byte", FULL),
    ("1,000 states, 199 tasks, all ready", ready(199), "state\n" * 1000, 1000, "state"),
]


def arrays(count, size):
    """So many arrays with so many elements each, one element of two of which changes each second."""
    names = ",".join(f"v{number}" for number in range(count))
    body = f"n := n + 1; v0(n REM {size} + 1) := n; v{count - 1}(n REM {size} + 1) := n;"
    return (f"{HEAD}DCL ({names})({size}) FIXED, n FIXED;\nbegins: TASK PRIO 1 MAIN;\nALL 1 SEC ACTIVATE t0;\nEND;\n"
            + tasks(1, body, " PRIO 5") + TAIL)


# Each row: a name, the plant, how many of its arrays are watched, a journal, how much of what it has.
WATCHED = [
    ("a day, 64 names with 1,024 slots watched, two change each second", arrays(64, 16), 64, "pass 86400000 1000\n",
     86_400_000, "millisecond"),
    ("a day, one slot watched, which changes each second", arrays(2, 1), 1, "pass 86400000 1000\n", 86_400_000, "millisecond"),
    ("1,000,000 picks, 64 names with 1,024 slots watched", arrays(64, 16).replace("PRIO 5;", "PRIO 5;\nREPEAT v0(1) := 1; END;"),
     64, "run 1000000\n", 1_000_000, "pick"),
]


def seconds(program, words, runs):
    """The least seconds of a processor of so many runs, and the greatest peak of memory in MB (10^6 bytes)."""
    spent, peak = [], []
    for _ in range(runs):
        status, one, most, said = run([program, *words])
        if status != 0:
            sys.exit(f"a run ended with status {status}: {said!r}")
        spent.append(one)
        peak.append(most / 1e6)
    return min(spent), max(peak)


def monitors(args, folder):
    """What monitors cost."""
    source, made, journal = (os.path.join(folder, name) for name in ("source.pearl", "object", "journal"))
    for name, plant, count, text, much, unit in WATCHED:
        if args.only not in name:
            continue
        for path, data in ((source, plant), (journal, text)):
            with open(path, "w", encoding="ascii") as file:
                file.write(data)
        with open(made, "wb") as file:
            subprocess.run([args.program, "compile", source], stdout=file, check=True)
        spent, peak = seconds(args.program, ["watch", made, journal, *(f"v{number}" for number in range(count))], args.runs)
        print(f"{name:68}{spent:10.3f} s {spent * 1e6 / much:10.3f} microseconds each {unit} {peak:8.1f} MB", flush=True)


def main():
    here = os.path.dirname(os.path.dirname(os.path.abspath(__file__)))
    parser = argparse.ArgumentParser(description=__doc__.splitlines()[0])
    parser.add_argument("--program", default=os.path.join(here, "crates", "pearl", "out", "pearl"))
    parser.add_argument("--runs", type=int, default=3)
    parser.add_argument("--only", default="", help="workloads whose name has this in it")
    parser.add_argument("--markdown", action="store_true", help="rows of a table for docs/evidence.md")
    args = parser.parse_args()
    if not os.access(args.program, os.X_OK):
        sys.exit(f"{args.program} is no program: build it first, or name one by --program")
    form = "| {} | {:.3f} s | {:.3f} |" if args.markdown else "{:52}{:10.3f} s {:12.3f} microseconds"
    if args.markdown:
        print("| Workload | Seconds | Microseconds each |\n|---|---|---|")
    with tempfile.TemporaryDirectory() as folder:
        source, journal = (os.path.join(folder, name) for name in ("source.pearl", "journal"))
        for name, plant, part, count, _, *instead in WORK:
            if args.only not in name:
                continue
            spent = []
            for text in (part, *(instead or [""])):
                with open(source, "w", encoding="ascii") as file:
                    file.write(plant)
                with open(journal, "w", encoding="ascii") as file:
                    file.write("run 1000\n" + text)
                spent.append(seconds(args.program, ["run", source, journal], args.runs)[0])
            more = max(0.0, spent[0] - spent[1])
            print(form.format(name, more, more * 1e6 / count), flush=True)
        monitors(args, folder)


if __name__ == "__main__":
    main()
