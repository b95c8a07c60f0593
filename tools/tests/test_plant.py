"""tools/plant, with scripts in tests/plant that stand for the program and for the kit."""

import os
import tempfile
import unittest

from tool import HERE, data, read, run

FOLDER = os.path.join(HERE, "plant")
SOURCE, JOURNAL = data("incident.pearl"), data("incident.journal")


class Plant(unittest.TestCase):
    """A run, its files, and what is told of it."""

    def setUp(self):
        self.kept = tempfile.TemporaryDirectory()
        self.into = os.path.join(self.kept.name, "out")

    def tearDown(self):
        self.kept.cleanup()

    def plant(self, *words, program="program", path=None):
        variables = {"PEARL_PROGRAM": program and os.path.join(FOLDER, program)}
        variables["PATH"] = (path + ":" if path else "") + os.environ["PATH"]
        return run("plant", "--into", self.into, *words, folder=FOLDER, variables=variables)

    def test_run(self):
        status, out, told = self.plant(SOURCE, JOURNAL)
        self.assertEqual((status, told), (0, f"program: {FOLDER}/program, which PEARL_PROGRAM names\n"))
        self.assertEqual(out.splitlines(), [
            f"{self.into}/incident.transcript: 118 lines, up to the moment 40000",
            "  traps: 1, the first `10000 trap Protokoll Format`",
            "  starts kept: 6, the first `12000 kept Regeln 1`",
            "  overruns: 24, the first `15000 overrun Regeln`",
            "  lines of the journal lost: 14, the first `35000 lost input 2`",
            f"{self.into}/incident.svg",
        ])
        self.assertEqual(read(self.into, "incident.transcript"), read(data("incident.transcript")))
        self.assertIn("Schluessel (interrupt 4)", read(self.into, "incident.svg"))

    def test_quick(self):
        """The program's text by `rt try`."""
        status, out, told = self.plant("--quick", SOURCE, JOURNAL, path=FOLDER)
        self.assertEqual((status, out.splitlines()[-1]), (0, f"{self.into}/incident.svg"))
        self.assertIn("rt try; nothing of it is proved", told)

    def test_refused_source(self):
        """A refusal is explained, and no file is written."""
        source = os.path.join(HERE, "explain", "goto.pearl")
        status, out, told = self.plant(source, JOURNAL, program="refusing")
        self.assertEqual((status, out), (2, ""))
        self.assertIn(f"{source}:11:10: syntax: `nochmal` stands where", told)
        self.assertFalse(os.path.exists(self.into))

    def test_refused_journal(self):
        """What ran before the fault is kept and drawn."""
        folder = os.path.join(HERE, "explain")
        status, out, told = self.plant(os.path.join(folder, "plant.pearl"), os.path.join(folder, "plant-value.journal"))
        self.assertEqual((status, out.splitlines()[-1]), (4, f"{self.into}/plant-value.svg"))
        self.assertIn("plant-value.journal:3:9: journal: 90.5 isn't whole", told)

    def test_words(self):
        self.assertEqual(self.plant(SOURCE)[0], 2)
        self.assertEqual(self.plant("--quick", "--build", SOURCE, JOURNAL)[0], 2)
        status, _, told = self.plant(SOURCE, JOURNAL, program="missing")
        self.assertEqual((status, told.splitlines()[-1]), (2, f"plant: {FOLDER}/missing: No such file or directory"))


if __name__ == "__main__":
    unittest.main()
