"""tools/explain: what it makes of the program's lines, which tests/explain keeps (NAME.told and NAME.explained)."""

import glob
import os
import unittest

import tool
from tool import DATA, HERE

from reading import leftout, porting
from reading.causes import Source
from reading.explaining import Explainer, everything

FOLDER = os.path.join(HERE, "explain")


def read(name):
    with open(name, "rb") as file:
        return file.read()


def run(*words, given=b"", program="/nowhere"):
    """The status and the output of tools/explain."""
    return tool.run("explain", *words, folder=FOLDER, given=given, variables={"PEARL_PROGRAM": program})


class Kept(unittest.TestCase):
    """The files of tests/explain."""

    def test_each(self):
        os.chdir(FOLDER)
        names = [name[:-5] for name in sorted(glob.glob("*.told"))]
        self.assertGreater(len(names), 40)
        for name in names:
            words = ["plant.pearl", f"{name}.journal"] if os.path.exists(f"{name}.journal") else [f"{name}.pearl"]
            explainer = Explainer(*words)
            said = b"".join(explainer.explained(line) for line in read(f"{name}.told").splitlines(keepends=True))
            self.assertEqual(said, read(f"{name}.explained"), name)

    def test_places(self):
        """The walk stops where the program does."""
        for name in glob.glob(os.path.join(FOLDER, "*.told")):
            words = read(name).split()
            if words[:2] == [b"error", b"syntax"]:
                self.assertEqual(Source(read(name[:-5] + ".pearl")).place(), int(words[2]), name)


class Forms(unittest.TestCase):
    """The forms of docs/use/porting.md."""

    def test_rows(self):
        self.assertEqual([name for name, _, _ in porting.rows()], porting.names())

    def test_each_is_told(self):
        for name, example, _ in porting.rows():
            source = porting.whole(example)
            read_source = Source(source.replace("^", "").encode())
            place = read_source.place()
            if place is None:
                continue
            self.assertEqual(place, source.find("^"), name)
            _, notes = read_source.syntax()
            self.assertEqual(notes[0].split(": ")[0], name)

    def test_right_sources_have_none(self):
        """No form is seen in a source that is accepted."""
        for name in sorted(glob.glob(os.path.join(DATA, "*.pearl"))):
            self.assertEqual(everything(name), b"", name)

    def test_old_source(self):
        os.chdir(FOLDER)
        self.assertEqual(everything("old.source"), read("old.all"))

    def test_words_that_are_declared(self):
        whole = Source(b"MODULE;PROBLEM;DCL FLOAT FIXED;t:TASK;FLOAT := FLOAT + 1;END;MODEND;").whole()
        self.assertEqual(leftout.matches(whole.tokens, leftout.FORMS, declared=whole.known), [])


class Words(unittest.TestCase):
    """The command itself."""

    def test_usage(self):
        self.assertEqual(run()[0], 2)
        self.assertEqual(run("--every", "goto.pearl")[0], 2)
        told = run("goto.pearl", given=b"error usage\n")[1]
        self.assertIn("usage: pearl run SOURCE JOURNAL\n", told)
        self.assertIn("       pearl watch OBJECT JOURNAL NAME ..\n", told)

    def test_missing_file(self):
        status, out, _ = run("missing.pearl", given=b"error read\n")
        self.assertEqual((status, out), (1, "missing.pearl: it can't be read: No such file or directory\n"))
        status, out, _ = run("plant.pearl", "missing.journal", given=b"0 start Anlauf 255\nerror read\n")
        self.assertEqual(out, "0 start Anlauf 255\nmissing.journal: it can't be read: No such file or directory\n")
        self.assertEqual(run("missing.pearl", given=b"error syntax 3\n")[0], 2)

    def test_other_lines(self):
        self.assertEqual(run("goto.pearl", given=b"accepted 1 0 0\n"), (0, "accepted 1 0 0\n", ""))
        self.assertRegex(run("goto.pearl", given=b"error name 12\n")[1], "^name 12 can't be watched: .*\n  .*`leaf`.*\n$")
        self.assertIn("1,048,576 bytes", run("goto.pearl", given=b"error too long 1048577\n")[1])

    def test_check(self):
        """Without the program the syntax is asked; else what the program writes is told in one line."""
        status, out, told = run("--check", "goto.pearl")
        self.assertEqual((status, out.count("\n")), (1, 1))
        self.assertTrue(out.startswith("goto.pearl:11:10: syntax: "))
        self.assertIn("only the syntax", told)
        status, out, told = run("--check", "near.pearl", program=os.path.join(FOLDER, "program"))
        self.assertEqual((status, told), (1, ""))
        self.assertEqual(out, "near.pearl:11:5: S2: no declaration of this name is seen here\n")

    def test_all(self):
        self.assertEqual(run("--all", "old.source")[0], 1)
        self.assertEqual(run("--all", "plant.pearl"), (0, "", ""))


if __name__ == "__main__":
    unittest.main()
