"""tools/faults.py, over a program in tests/faults that stands for the real one, and what a command may answer."""

import argparse
import glob
import os
import shutil
import subprocess
import tempfile
import unittest
from collections import Counter

import tool
import faults
from reading import damage
from reading.answers import Answer, disagreement, gone_on, is_command, leaves, refused_name, unlawful

PLANT, JOURNAL = tool.data("crossing.pearl"), tool.data("crossing.journal")


@unittest.skipUnless(shutil.which("cc"), "needs cc")
class Faults(unittest.TestCase):
    """Each call of a small program fails in turn."""

    @classmethod
    def setUpClass(cls):
        cls.folder = tempfile.TemporaryDirectory()
        cls.program, cls.journal, cls.small = (os.path.join(cls.folder.name, name) for name in ("program", "journal", "small"))
        subprocess.run(["cc", "-O1", "-fno-builtin", "-o", cls.program, os.path.join(tool.HERE, "faults", "program.c")],
                       check=True)
        with open(cls.journal, "wb") as file:
            file.write(b"run 1\n\nrun 123456\nrun 2")
        with open(cls.small, "wb") as file:
            file.write(b"MODULE(m);")
        cls.runner = faults.Runner(cls.program, cls.folder.name)

    @classmethod
    def tearDownClass(cls):
        cls.folder.cleanup()

    def wrong(self, words, does=""):
        """The kinds of faults whose answers aren't right, where the program does this wrong."""
        os.environ["WRONG"] = does
        try:
            whole = faults.Whole(self.runner, words)
            found = {"whole"} if faults.without_faults(whole) else set()
            for fault in faults.faults(whole, faults.KINDS, 0):
                if faults.judged(whole, fault, *self.runner.run(words, fault)):
                    found.add(fault.kind)
            return found
        finally:
            del os.environ["WRONG"]

    def test_a_right_program(self):
        for words in (["check", self.journal], ["run", self.journal, self.journal + "s"], ["check"],
                      ["run", self.program + ".c", self.journal], ["run", self.small, self.journal]):
            self.assertEqual(self.wrong(words), set(), words)

    def test_what_is_wrong_is_found(self):
        run = ["run", self.small, self.journal]
        for does, kinds in {"ends": {"write", "nothing"}, "seam": {"short"}, "short": {"short"}, "eager": {"open", "read"},
                            "line": {"open", "read"}, "says": {"alloc"}, "faults": {"alloc"}, "silent": {"alloc"},
                            "late": {"whole", "alloc"}}.items():
            self.assertEqual(self.wrong(run, does), kinds, does)

    def test_shares_leave_nothing_out(self):
        """The shares of a command try each fault once, find what is wrong, and agree on what it does without faults."""
        run = ["run", self.small, self.journal]
        all_of = Counter(fault.kind for fault in faults.faults(faults.Whole(self.runner, run), faults.KINDS, 0))
        faults.WORKER["runner"] = self.runner
        for does, kinds in ({"": set(), "seam": {"short"}, "ends": {"write", "nothing"}, "late": {"alloc", "nothing"}}).items():
            os.environ["WRONG"] = does
            try:
                made = [faults.share((run, number, faults.KINDS, 0)) for number in range(faults.SHARES)]
            finally:
                del os.environ["WRONG"]
            tried = sum((row for _, _, row, _ in made), Counter())
            found = {why[0].split()[0] for _, _, _, problems in made for why in problems}
            self.assertEqual(found, kinds, does)
            self.assertEqual(tried["commands"], 1)
            if not does:
                self.assertEqual({kind: tried[kind] for kind in faults.KINDS}, dict(all_of))
            self.assertEqual(len({repr(whole) for _, whole, _, _ in made}), 1)

    def test_parts_are_added_up(self):
        """What was tried and what wasn't right of parts together is that of the whole; no part is added twice, nor one of others."""
        with tempfile.TemporaryDirectory() as folder:
            files = [os.path.join(folder, str(number)) for number in range(4)]
            words = ("--program", self.program, "--only", "check plant", "--jobs", "2")
            for part, file in zip(("1/1", "1/2", "2/2", "2/3"), files):
                status, out, _ = tool.run("faults.py", *words, "--part", part, "--summary", file, variables={"WRONG": "ends"})
                self.assertEqual(status, int("\n| check |" in out), out)
            whole, parts = (tool.run("faults.py", "--sum", *it) for it in (files[:1], files[1:3]))
            self.assertEqual((whole[0], whole[2]), (1, ""))
            told = parts[1].replace("parts 1, 2 of 2", "parts 1 of 1")
            self.assertEqual((sorted(told.splitlines()), parts[2]), (sorted(whole[1].splitlines()), ""))
            self.assertIn("\ncheck plant.pearl: ", "\n" + whole[1])
            self.assertRegex(whole[1], r"\n\| check \| 1 \| 3 \| .* \| 16 of 16 \|\n\| all \| 1 \| .*\n\d+ runs, \d+ not right\n$")
            self.assertRegex(tool.run("faults.py", "--sum", files[1])[1], r"\nparts 1 of 2\n(.*\n)+.* not right, and some weren't tried\n$")
            for wrong, why in (([files[1], files[1]], "has a part again"), ([files[1], files[3]], "is of other faults")):
                self.assertRegex(tool.run("faults.py", "--sum", *wrong)[0], why)

    def test_journals_of_monitors(self):
        """They have as many lines, and less time passes."""
        with tempfile.TemporaryDirectory() as folder:
            for log in glob.glob(tool.data("*.journal")):
                with open(log, "rb") as file, open(faults.shortened(os.path.join(folder, "object"), log), "rb") as short:
                    lines, shorter = file.read().splitlines(), short.read().splitlines()
                self.assertEqual([line.split()[:1] for line in shorter], [line.split()[:1] for line in lines][:damage.MOST_LINES])
                passing = [sum(int(line.split()[1]) for line in it if line.startswith(b"pass ")) for it in (lines, shorter)]
                self.assertLessEqual(passing[1], min(passing[0], 11 * damage.MOST))

    def test_first_shares_come_first(self):
        args = argparse.Namespace(only="check", kinds=("read",), most=3)
        work = faults.shares(args, [["check", "a"], ["print", "a"], ["check", "b"]])
        self.assertEqual([(words[1], number) for words, number, _, _ in work[:3]], [("a", 0), ("b", 0), ("a", 1)])
        self.assertEqual(len(work), 2 * faults.SHARES)

    def test_all_calls_are_counted(self):
        """Of each kind all calls fail once, and those of memory and writing also with all later ones."""
        whole = faults.Whole(self.runner, ["check", self.journal])
        size = os.path.getsize(self.journal)
        reads = -(-size // 7) + 1
        self.assertEqual(whole.hit.calls, {"alloc": 2, "open": reads, "read": reads, "write": 1, "short": reads + 1, "nothing": 1})
        self.assertEqual(len(list(faults.faults(whole, ("alloc", "read"), 0))), 3 + reads)
        self.assertEqual([fault.number for fault in faults.faults(whole, ("read",), 3)], [1, 1 + round((reads - 1) / 2), reads])


class Tries(unittest.TestCase):
    """What is right of a try by the kit."""

    def test_answers(self):
        whole = Answer(0, b"0 start a 1\n0 close\n")
        for kind, status, out in (("alloc", 7, b"error memory\n"), ("alloc", 7, b""), ("alloc", 0, whole.out), ("io", 5, b"error read\n"),
                                  ("io", 5, b"0 start a 1\nerror read\n"), ("io", 6, b"0 sta"), ("short", 0, whole.out)):
            self.assertIsNone(faults.kit_judged(kind, whole, Answer(status, out)), (kind, status, out))
        for kind, status, out in (("alloc", 7, b"0 start a 1\nerror memory\n"), ("alloc", 0, b""), ("alloc", None, b""),
                                  ("io", 5, b"0 staerror read\n"), ("io", 5, b"0 start b 1\nerror read\n"), ("io", 6, whole.out),
                                  ("io", 6, b"1"), ("io", 7, b"error memory\n"), ("short", 0, b"0 close\n"), ("short", 5, b"error read\n")):
            self.assertIsNotNone(faults.kit_judged(kind, whole, Answer(status, out)), (kind, status, out))


class Answers(unittest.TestCase):
    """What a command may answer."""

    def right(self, words, status, out):
        self.assertIsNone(unlawful(words, Answer(status, out)))

    def wrong(self, words, status, out, told=b""):
        self.assertIsNotNone(unlawful(words, Answer(status, out, told)))

    def test_words(self):
        self.assertTrue(is_command(["bench", "100"]))
        for words in (["bench", "0"], ["bench", "01"], ["bench", "101"], ["bench"], [], ["check"], ["run", "a"], ["stop", "a"]):
            self.assertFalse(is_command(words), words)
            self.right(words, 1, b"error usage\n")
            self.wrong(words, 7, b"error memory\n")
        self.wrong(["check", PLANT], 1, b"error usage\n")
        self.right(["check", "\udcff"], 10, b"")
        self.wrong(["check", PLANT], 10, b"")

    def test_transcripts_of_the_plants(self):
        transcripts = glob.glob(os.path.join(os.path.dirname(PLANT), "*.transcript"))
        self.assertGreaterEqual(len(transcripts), 8)
        for path in transcripts:
            with open(path, "rb") as file:
                self.right(["run", PLANT, JOURNAL], 0, file.read())

    def test_answers(self):
        run = ["run", PLANT, JOURNAL]
        self.right(run, 0, b"0 start a 1\n5 out 1 'it''s'\n7 close\n")
        self.right(run, 4, b"0 start a 1\nerror journal 3 1\n")
        self.right(run, 2, b"error source 12 S2\n")
        for status, out in ((0, b"0 start a 1\n"), (0, b"0 begin a\n0 close\n"), (4, b"0 start a 1\n"), (2, b"error source 12\n"),
                            (2, b"0 start a 1\nerror source 12 S2\n"), (2, b"error source 99999 S2\n"), (3, b"error object 1\n"),
                            (4, b"error journal 0 1\n"), (4, b"error journal 3 5\n"), (8, b"error too long 1048577\n"),
                            (5, b"error read\n"), (6, b""), (7, b"error memory\n"), (None, b""), (-11, b"")):
            self.wrong(run, status, out)
        self.wrong(run, 0, b"0 close\n", b"panic")
        self.right(["run", PLANT, "/none/none"], 5, b"0 start a 1\nerror read\n")
        self.wrong(["run", PLANT, "/none/none"], 5, b"0 start a 1\n")
        self.right(["check", PLANT], 0, b"accepted 5 0 2\n")
        self.wrong(["check", PLANT], 0, b"accepted 05 0 2\n")
        self.right(["print", PLANT], 0, b"MODULE ( m ) ;\nPROBLEM ;\nMODEND ;\n")
        self.wrong(["print", PLANT], 2, b"error source 1 S1\n")
        self.right(["list", PLANT], 0, b"")
        self.wrong(["list", PLANT], 3, b"error object routine 0 instruction 0 V1\n")
        self.right(["exec", PLANT, JOURNAL], 3, b"error object routine 0 instruction 0 V1\n")

    def test_monitors(self):
        watch = ["watch", PLANT, JOURNAL, "x", "y.z"]
        self.right(watch, 0, b"0 0 value x 0 '0101'B\n0 0 value y.z 0 -5\n3 0 value x 0 '0100'B\n9 7 close\n")
        self.right(watch, 4, b"0 0 value x 0 5\nerror journal 3 1\n")
        self.right(watch, 0, b"0 0 value  0 5\n0 0 value a 1 0 5\n0 0 value a 0 'a 1 5'\n0 0 close\n")
        self.right(watch, 9, b"error name 2\n")
        self.right(watch, 3, b"error object routine 0 instruction 0 V1\n")
        self.right(["watch", PLANT, "/none/none", "x"], 5, b"0 0 value x 0 5\nerror read\n")
        for status, out in ((0, b"0 close\n"), (0, b"0 0 value x 0 5\n"), (0, b"0 0 value x 5\n0 0 close\n"), (9, b"error name 3\n"),
                            (9, b"error name 0\n"), (9, b"0 0 value x 0 5\nerror name 1\n"), (0, b"5 0 value x 0 5\n4 0 close\n"),
                            (0, b"5 1 value x 0 5\n6 0 value x 0 6\n6 0 close\n"), (4, b"0 start a 1\nerror journal 3 1\n"),
                            (0, b"0 0 value x 0 5\n1 0 value x 0 5\n1 0 close\n"), (0, b"0 0 value x 0 5\n0 close\n")):
            self.wrong(watch, status, out)
        self.wrong(["exec", PLANT, JOURNAL], 9, b"error name 1\n")
        for count, right in ((0, False), (1, True), (64, True), (65, False)):
            self.assertEqual(is_command(["watch", "o", "j", *["x"] * count]), right, count)

    def test_saved_runs(self):
        save, resume = ["save", PLANT, JOURNAL], ["resume", PLANT, JOURNAL]
        self.right(save, 0, b"PRS1\x0a\xff\n")
        self.right(save, 4, b"error journal 3 1\n")
        self.right(save, 3, b"error object routine 0 instruction 0 V1\n")
        self.right(["save", PLANT, "/none/none"], 5, b"error read\n")
        self.right(resume, 0, b"5 end a\n7 close\n")
        self.right(resume, 4, b"5 end a\nerror journal 3 1\n")
        for line in (b"error snapshot 12\n", b"error snapshot state N6\n"):
            self.right(resume, 3, line)
            self.wrong(save, 3, line)
        for words, status, out in ((save, 0, b"PRL1"), (save, 0, b"0 close\n"), (save, 4, b"0 start a 1\nerror journal 3 1\n"),
                                   (["save", PLANT, "/none/none"], 5, b"0 start a 1\nerror read\n"),
                                   (resume, 0, b"PRS1"), (resume, 3, b"error object 1\n"), (resume, 3, b"error snapshot state N7\n"),
                                   (resume, 3, b"error snapshot 99999\n"), (resume, 8, b"error too long 268435457\n"),
                                   (save, 8, b"error too long 268435457\n")):
            self.wrong(words, status, out)

    def test_runs_that_go_on(self):
        """What `resume` writes behind the lines of the first journal is what both journals make."""
        closing, first = Answer(0, b"5 state a dormant\n5 close\n"), Answer(0, b"0 start a 1\n5 state a dormant\n5 close\n")
        whole, rest = Answer(0, b"0 start a 1\n7 end a\n9 close\n"), Answer(0, b"7 end a\n9 close\n")
        self.assertIsNone(gone_on(whole, first, closing, rest, 3))
        bad = Answer(4, b"0 start a 1\n7 end a\nerror journal 5 1\n")
        self.assertIsNone(gone_on(bad, first, closing, Answer(4, b"7 end a\nerror journal 2 1\n"), 3))
        for other in (Answer(0, b"0 start a 1\n7 end a\n9 close\n"), Answer(0, b"9 close\n"), Answer(4, rest.out)):
            self.assertIsNotNone(gone_on(whole, first, closing, other, 3))
        self.assertIsNotNone(gone_on(bad, first, closing, Answer(4, b"7 end a\nerror journal 5 1\n"), 3))
        self.assertIsNotNone(gone_on(whole, first, Answer(0, b"5 state a suspended 1\n5 close\n"), rest, 3))

    def test_names(self):
        """Which name is refused, by what `list` writes: the first leaf of a name counts."""
        slots = leaves(b"device INPUT 1\nleaf 0 x FIXED(31) 1\nleaf 1 v.w CHAR(4) 1024\nleaf 2 x BIT(1) 9\nleaf 3 u CLOCK 1025\n"
                       b"leaf 4  FIXED(31) 2\nleaf 5 a b DURATION 3\n")
        self.assertEqual(slots, {"x": 1, "v.w": 1024, "u": 1025, "": 2, "a b": 3})
        for names, number in ((["x"], None), (["v.w"], None), (["y"], 1), (["x", "x"], 2), (["x", "v.w"], 2), (["v.w", "x"], 2),
                              (["u"], 1), (["x", "y", "u"], 2)):
            self.assertEqual(refused_name(slots, names), number, names)

    def test_answers_go_together(self):
        syntax, rule, done = Answer(2, b"error syntax 3\n"), Answer(2, b"error source 3 S1\n"), Answer(0, b"accepted 0 0 0\n")
        other, made, run = Answer(2, b"error syntax 4\n"), Answer(0, b"PRL1"), Answer(0, b"0 close\n")
        for answers in ({"check": syntax, "print": syntax, "compile": syntax}, {"check": rule, "print": made, "compile": rule},
                        {"check": done, "print": made, "compile": made, "run": run, "exec": run}):
            self.assertIsNone(disagreement(answers))
        named, line = Answer(9, b"error name 1\n"), Answer(4, b"0 start a 1\nerror journal 3 1\n")
        for one, watched in ((run, Answer(0, b"7 0 close\n")), (run, named), (line, Answer(4, b"error journal 3 1\n")), (line, named)):
            self.assertIsNone(disagreement({"exec": one, "watch": watched}))
        for one, watched in ((run, Answer(0, b"7 1 close\n")), (run, line), (line, Answer(4, b"error journal 2 1\n")),
                             (Answer(3, b"error object 1\n"), named), (Answer(3, b"error object 1\n"), Answer(3, b"error object 2\n"))):
            self.assertIsNotNone(disagreement({"exec": one, "watch": watched}))
        for one, saved in ((run, Answer(0, b"PRS1")), (line, Answer(4, b"error journal 3 1\n"))):
            self.assertIsNone(disagreement({"exec": one, "save": saved}))
        for one, saved in ((run, Answer(4, b"error journal 3 1\n")), (line, Answer(4, b"error journal 2 1\n")),
                           (line, Answer(0, b"PRS1"))):
            self.assertIsNotNone(disagreement({"exec": one, "save": saved}))
        for answers in ({"check": syntax, "print": other}, {"check": rule, "print": syntax}, {"check": done, "compile": rule},
                        {"check": done, "print": syntax}, {"check": rule, "compile": made}, {"check": rule, "run": run},
                        {"check": done, "run": run, "exec": Answer(0, b"1 close\n")}):
            self.assertIsNotNone(disagreement(answers), answers)


if __name__ == "__main__":
    unittest.main()
