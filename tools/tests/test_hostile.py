"""tools/hostile.py, over a script in tests/hostile that stands for the program, and what damaged files are."""

import glob
import os
import random
import re
import shutil
import signal
import subprocess
import sys
import tempfile
import time
import unittest

import tool
from reading import asking, damage, tally

PROGRAM = os.path.join(tool.HERE, "hostile", "program")
SOURCE, JOURNAL = tool.data("crossing.pearl"), tool.data("crossing.journal")


def read(path):
    with open(path, "rb") as file:
        return file.read()


class Hostile(unittest.TestCase):
    """Random and damaged inputs for a small program."""

    def tried(self, *options, does="", mark=""):
        return tool.run("hostile.py", "--program", PROGRAM, "--count", "12", *options, variables={"WRONG": does, "MARK": mark})

    def test_a_right_program(self):
        status, out, told = self.tried("--count", "30")
        self.assertEqual((status, told), (0, ""), out)
        self.assertRegex(out.splitlines()[-1], r"^30 inputs, \d+ runs, 0 of them beside another implementation: 0 not right$")
        self.assertEqual(self.tried("--count", "30")[1], out)
        self.assertNotEqual(self.tried("--count", "30", "--seed", "2")[1], out)

    def test_what_is_wrong_is_found(self):
        for does, sort in {"loud": "words", "killed": "words", "words": "words", "place": "source", "other": "source",
                           "compile": "source", "run": "source", "close": "journal", "object": "object", "name": "object", "marks": "journal",
                           "twice": "journal", "moment": "journal", "save": "journal", "resume": "journal",
                           "state": "snapshot"}.items():
            status, out, _ = self.tried("--only", sort, does=does)
            self.assertEqual(status, 1, does)
            self.assertRegex(out, rf"^seed 1 number \d+, {sort}: ")

    def test_another_implementation(self):
        """The other's answers are compared, and an input with another answer is kept."""
        options = ("--only", "journal", "--other", PROGRAM, "--each", "3")
        self.assertIn(" 24 of them beside another implementation: 0 not right", self.tried(*options)[1])
        with tempfile.TemporaryDirectory() as folder:
            kept = os.path.join(folder, "kept")
            status, out, _ = self.tried("--only", "object", "--other", "/bin/false", "--each", "12", "--keep", kept)
            self.assertEqual(status, 1)
            self.assertIn("seed 1 number 12, object: 'list object': it has ", out)
            self.assertEqual(sorted(os.listdir(kept)), ["1-12-journal", "1-12-object"])

    def test_workers_and_copies(self):
        """Several workers, and copies of the loaded program, answer what one worker does."""
        one = self.tried("--count", "40")
        self.assertEqual(self.tried("--count", "40", "--jobs", "3"), one)
        wrong = self.tried(does="close")
        self.assertEqual(self.tried("--jobs", "2", does="close"), wrong)
        if shutil.which("cc"):
            self.assertEqual(self.tried("--count", "40", "--copies", "--jobs", "2"), one)
            self.assertEqual(self.tried("--copies", does="close"), wrong)
            self.assertIn("it was ended by signal 9", self.tried("--copies", does="killed")[1])

    def test_parts_add_up(self):
        """Shares have the counts of the whole together, and none is added twice."""
        with tempfile.TemporaryDirectory() as folder:
            parts = [os.path.join(folder, f"{part}") for part in range(4)]
            self.tried("--count", "50", "--from", "7", "--summary", parts[3], does="name")
            for part in (1, 2, 3):
                self.tried("--count", "50", "--from", "7", "--share", f"{part}/3", "--summary", parts[part - 1], does="name")
            status, out, told = tool.run("hostile.py", "--sum", *parts[:3])
            self.assertEqual((status, told), (1, ""))
            whole, sums = tally.summed(parts[3:]), tally.summed(parts[:3])
            self.assertEqual((sums.inputs.total(), len(sums.wrong) > 0), (50, True))
            for one, other in ((whole.inputs, sums.inputs), (whole.runs, sums.runs), (whole.wrong, sums.wrong)):
                self.assertEqual(one, other)
            for line in (*whole.lines(), *whole.table(), *whole.wrong):
                self.assertIn(f"{line}\n", out)
            self.assertRegex(tool.run("hostile.py", "--sum", *parts[2:])[0], " have the same numbers$")

    def test_what_is_late(self):
        """An input with a run that doesn't end in time is tried again alone, and told where it doesn't then."""
        options = ("--only", "snapshot", "--count", "2", "--seconds", "1")
        for more in ((), ("--copies",)) if shutil.which("cc") else ((),):
            with tempfile.TemporaryDirectory() as folder:
                status, out, _ = self.tried(*options, *more, does="busy", mark=os.path.join(folder, "mark"))
            self.assertEqual(status, 0, out)
            self.assertRegex(out, r"[12] tried again alone, 0 still to be\n2 inputs, 4 runs")
        status, out, _ = self.tried(*options, "--count", "1", does="endless")
        self.assertEqual(status, 1)
        self.assertIn("seed 1 number 1, snapshot: 'resume snapshot rest': it didn't end in time", out)

    def test_a_worker_that_ends(self):
        """The numbers in which it ended are told, and what was tried so far, with a status."""
        with tempfile.TemporaryDirectory() as folder:
            words = [sys.executable, os.path.join(tool.TOOLS, "hostile.py"), "--program", PROGRAM, "--count", "8", "--jobs", "2"]
            done = subprocess.run(words, env={**os.environ, "WRONG": "parent", "TMPDIR": folder}, stdout=subprocess.PIPE, check=False)
        self.assertEqual(done.returncode, 1)
        self.assertRegex(done.stdout, rb"^broken off behind number 0: a worker ended in the numbers 1 to 4\ninputs: \n0 inputs, 0 runs, ")

    def test_late_numbers_are_told(self):
        late = tally.Tally(late=[5, 17])
        self.assertIn("0 tried again alone, 2 still to be: 5, 17", list(late.lines()))

    def test_a_signal_breaks_off(self):
        """What was tried so far is told, and no file is left."""
        with tempfile.TemporaryDirectory() as folder:
            summary, variables = os.path.join(folder, "summary"), {**os.environ, "WRONG": "", "TMPDIR": folder}
            words = [sys.executable, os.path.join(tool.TOOLS, "hostile.py"), "--program", PROGRAM, "--count", "100000",
                     "--jobs", "2", "--summary", summary]
            with subprocess.Popen(words, env=variables, stdout=subprocess.PIPE) as run:
                while not os.path.exists(summary):
                    time.sleep(0.05)
                run.send_signal(signal.SIGTERM)
                out = run.communicate()[0].decode()
            behind = int(re.search(r"^broken off behind number (\d+)$", out, re.M)[1])
            self.assertEqual((run.returncode, behind % 100), (0, 0))
            self.assertEqual(tally.summed([summary]).inputs.total(), behind)
            self.assertIn(f"\n{behind:,} inputs, ", out)
            self.assertEqual(glob.glob(os.path.join(folder, "*")), [summary])


class Asking(unittest.TestCase):
    """What a program answers that is run again and again."""

    def setUp(self):
        self.runs = asking.Runs()
        self.addCleanup(self.runs.close)

    def asked(self, script, *more):
        answer = self.runs.asked(["sh", "-c", script], *more)
        return answer.status, answer.out, answer.told

    def test_all_is_told(self):
        """Each answer has its own status and bytes, however many."""
        for _ in range(2):
            long = self.asked("printf %0200000d 7; echo told >&2; exit 3", 10)
            self.assertEqual(long, (3, b"0" * 199999 + b"7", b"told\n"))
            self.assertEqual(self.asked("cat; printf out; kill -11 $$", 10), (-11, b"out", b""))

    def test_time_is_bounded(self):
        """By the clock, or alone by a processor's time, of which waiting takes none."""
        for script, alone, status in (("while :; do :; done", True, None), ("exec sleep 5", False, None),
                                      ("sleep 1.2", True, 0)):
            self.assertEqual(self.asked(f"printf out; {script}", 1, alone), (status, b"out", b""))


class Damage(unittest.TestCase):
    """Files that are made of a seed."""

    def test_files_differ(self):
        """Most are none of those that they come of, and of two seeds they aren't the same."""
        source, log = read(SOURCE), read(JOURNAL)
        saved = b"PRS1\x14PRL1" + bytes(40)
        for make, data in ((damage.source, source), (damage.made, b"PRL1" + bytes(60)), (damage.snapshot, saved), (damage.journal, log)):
            one, again, other = ([make(random.Random(f"{seed}/{number}"), data, data) for number in range(200)] for seed in (1, 1, 2))
            self.assertEqual(one, again)
            self.assertGreater(sum(a != b for a, b in zip(one, other)), 150)
            self.assertGreater(sum(it != data for it in one), 150)
            self.assertGreater(sum(it[:8] == data[:8] for it in one), 50)

    def test_parts_are_the_whole(self):
        """A journal in two parts has its lines, of which one may be two that do as much."""
        for data in (read(JOURNAL), b"run 7", b"", b"tick 3\npass 2 9\n", b"# a\rb\nrun 5\r\n"):
            halves = 0
            for number in range(200):
                first, rest, before = damage.parted(random.Random(number), data)
                whole = first + rest
                self.assertTrue(not first or first.endswith(b"\n"))
                cut = whole.split() != data.split()
                halves += cut
                self.assertEqual(first.count(b"\n") - cut, before)
                totals = [sum(int(it) for it in re.findall(rb"^(?:run|tick|pass) (\d+)", text, re.M)) for text in (whole, data)]
                self.assertEqual(totals[0], totals[1])
            self.assertTrue(halves > 20 or not data)

    def test_tokens_and_lines_are_whole(self):
        for data in (read(SOURCE), read(JOURNAL), b"a\r\n'b", bytes(range(256))):
            self.assertEqual(b"".join(damage.tokens(data)), data)
            self.assertEqual(b"".join(damage.lines(data)), data)

    def test_journals_are_bounded(self):
        """No run of a journal takes long, and what is refused for its size still is."""
        self.assertEqual(damage.bounded(b"run 5\npass 10 20\n"), b"run 5\npass 10 20\n")
        self.assertEqual(damage.bounded(b"run 9223372036854775808\n"), b"run 9223372036854775808\n")
        self.assertLessEqual(len(damage.bounded(b"run 1\n" * 5000).splitlines()), damage.MOST_LINES)
        for text in (b"run 5000000\n", b"pass 86400000 1000\n", b"tick 4000000000\npass 1000 1000\n", b"run 99999\n" * 400):
            spent = 0
            for line in damage.bounded(text).splitlines():
                numbers = [int(it) for it in re.findall(rb"\d+", line)]
                spent += numbers[0] * (numbers[1] if len(numbers) > 1 else 1)
            self.assertLessEqual(spent, 11 * damage.MOST, text)


if __name__ == "__main__":
    unittest.main()
