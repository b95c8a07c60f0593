"""tools/journal over the tables of tests/journal and the journals of the examples."""

import os
import unittest

from tool import HERE, data, read, run

FOLDER = os.path.join(HERE, "journal")
SOURCE, KEPT = data("incident.pearl"), data("incident.journal")


def made(*words):
    return run("journal", *words, folder=FOLDER)


class Tables(unittest.TestCase):
    """Journals of tables."""

    def is_kept(self, name, *words):
        self.assertEqual(made(*words), (0, read(FOLDER, name), ""))

    def test_incident(self):
        """Times of day, a comma, a scale, and an interrupt."""
        self.is_kept("incident.journal", "--scale", "Fuehler=10", "--until", "40000", SOURCE, "incident.csv")

    def test_sheet(self):
        """A column for each interrupt, and a time behind midnight."""
        self.is_kept("day.journal", "--picks", "20", "--start", "21:58:00", "--until", "00:10:02", data("crossing.pearl"),
                     "day.csv")

    def test_logger(self):
        """The journal of an example is that of its table."""
        told = run("journal", "--start", "0:00:00", "--scale", "Fuehler=10", "--until", "86410000", "logger.pearl", "logger.csv",
                   folder=data(""))
        self.assertEqual(told, (0, read(data("logger.journal")), ""))

    def test_kinds(self):
        """A value of each kind, a line for a terminal, and milliseconds."""
        self.is_kept("kinds.journal", "--scale", "Zahl=10", "kinds.pearl", "kinds.csv")

    def test_faults(self):
        """Each row that can't be used is told with its line."""
        told = made("--scale", "Fuehler=10", "--scale", "Pumpe=3", SOURCE, "wrong.csv")
        self.assertEqual(told, (2, "", read(FOLDER, "wrong.told")))
        self.assertEqual(made("kinds.pearl", "kinds-wrong.csv"), (2, "", read(FOLDER, "kinds-wrong.told")))

    def test_round(self):
        status, out, _ = made("--round", "kinds.pearl", "kinds.csv")
        self.assertEqual((status, out.splitlines()[2]), (0, "value 1 -12"))

    def test_words(self):
        self.assertEqual(made(SOURCE)[0], 2)
        self.assertEqual(made(SOURCE, "missing.csv")[2], "journal: missing.csv: No such file or directory\n")
        self.assertEqual(made("--start", "25:00:00", SOURCE, "incident.csv")[0], 2)
        self.assertEqual(made("--scale", "Fuehler", SOURCE, "incident.csv")[0], 2)


class Changed(unittest.TestCase):
    """Journals that are opened."""

    def test_cut(self):
        self.assertEqual(made("--cut", "10000", SOURCE, KEPT), (0, read(FOLDER, "cut.journal"), ""))
        self.assertEqual(made("--cut", "14:30:10", SOURCE, KEPT)[1], read(FOLDER, "cut.journal"))

    def test_cut_steps(self):
        """Of fifty picks the first two are opened."""
        _, out, _ = made("--cut", "10000", "--steps", "2", SOURCE, KEPT)
        self.assertIn("pass 999 50\ntick 1\nstate\nrun 1\nstate\nrun 1\nstate\nrun 48\n", out)

    def test_cut_at_the_start(self):
        _, out, _ = made("--cut", "0", "--steps", "1", SOURCE, KEPT)
        self.assertIn("clock 14:30:00\nstate\nrun 1\nstate\nrun 49\n", out)

    def test_cut_behind_the_end(self):
        self.assertEqual(made("--cut", "40001", SOURCE, KEPT),
                         (2, "", "journal: --cut: nothing is done at 40001; the journal ends at 40000\n"))

    def test_every(self):
        self.assertEqual(made("--every", "2500", SOURCE, KEPT), (0, read(FOLDER, "every.journal"), ""))
        self.assertEqual(made("--every", "0", SOURCE, KEPT)[0], 2)

    def test_fault(self):
        """A line of the journal that is refused is told."""
        status, out, told = made("--every", "100", os.path.join(HERE, "explain", "plant.pearl"),
                                 os.path.join(HERE, "explain", "plant-value.journal"))
        self.assertEqual((status, out), (2, ""))
        self.assertIn("plant-value.journal:3:9: 90.5 isn't whole", told)


if __name__ == "__main__":
    unittest.main()
