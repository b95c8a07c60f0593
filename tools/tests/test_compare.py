"""tools/compare over the transcripts of the examples, and the tables of tests/compare."""

import os
import unittest

from tool import HERE, data, read, run

FOLDER = os.path.join(HERE, "compare")
KEPT, KEY = data("incident.transcript"), data("incident-key.transcript")


def compare(*words, given=b""):
    return run("compare", *words, folder=FOLDER, given=given)


def logged(*words, table):
    return compare("--start", "14:30:00", "--logged", table, *words, data("incident.pearl"), KEPT)


class Transcripts(unittest.TestCase):
    """Two transcripts."""

    def test_same(self):
        status, out, _ = compare(KEPT, KEPT)
        self.assertEqual(status, 0)
        self.assertIn("output 3: the same, 8 lines\n", out)

    def test_parts(self):
        status, out, _ = compare("--source", data("incident.pearl"), KEPT, KEY)
        self.assertEqual((status, out), (1, read(FOLDER, "incident.told")))

    def test_within(self):
        """A value that comes later by 26 milliseconds."""
        late = read(KEPT).replace("37026 send 3 0", "37000 send 3 0").encode()
        status, out, _ = compare("--only", "output 3", KEPT, "-", given=late)
        self.assertEqual((status, out), (1, "output 3: 7 lines the same, then\n  37026 send 3 0 | 37000 send 3 0\n"))
        self.assertEqual(compare("--within", "26", "--only", "output 3", KEPT, "-", given=late)[0], 0)
        self.assertEqual(compare("--within", "25", "--only", "output 3", KEPT, "-", given=late)[0], 1)

    def test_lanes(self):
        status, out, _ = compare("--only", "Anlauf,terminal 1", KEPT, KEY)
        self.assertEqual([line.split(":")[0] for line in out.splitlines() if line[0] != " "], ["terminal 1", "task Anlauf"])
        self.assertEqual(compare("--without", "terminal 1, Regeln, Freigabe, Protokoll, output 3, input 2", "--within", "20000",
                                 KEPT, KEY)[0], 0)
        self.assertEqual(compare("--source", data("incident.pearl"), "--only", "Ventil", KEPT, KEPT)[1],
                         "output 3 (Ventil): the same, 8 lines\n")

    def test_states(self):
        other = read(KEPT).replace("state Messen blocked 10", "state Messen suspended 10").encode()
        self.assertEqual(compare(KEPT, "-", given=other)[0], 0)
        status, out, _ = compare("--states", "--only", "Messen", KEPT, "-", given=other)
        self.assertEqual(status, 1)
        self.assertIn("states of Messen: from the beginning\n", out)

    def test_refusal(self):
        """A run that was refused parts at its end."""
        broken = b"0 start Anlauf 1\n0 start Messen 10\n0 end Anlauf\nerror journal 5 1\n"
        status, out, _ = compare("--only", "Anlauf,run", KEPT, "-", given=broken)
        self.assertEqual(status, 1)
        self.assertIn("run: from the beginning\n  40000 close | 0 error journal 5 1\n", out)

    def test_unusable(self):
        self.assertEqual(compare(KEPT, "missing")[0], 2)
        status, _, told = compare(KEPT, "-", given=b"0 begin\n")
        self.assertEqual((status, told), (2, "compare: -: line 1 is none of a transcript: 0 begin\n"))
        self.assertEqual(compare(KEPT)[0], 2)


class Tables(unittest.TestCase):
    """A transcript and what was logged."""

    def test_same(self):
        self.assertEqual(logged("--within", "26", table="valve.csv")[:2], (0, "output 3 (Ventil): the same, 8 lines\n"))
        self.assertEqual(logged(table="valve.csv")[0], 1)

    def test_parts(self):
        status, out, _ = logged("--scale", "Ventil=100", table="percent.csv")
        self.assertEqual((status, out), (1, read(FOLDER, "percent.told")))

    def test_sampled(self):
        self.assertEqual(logged("--sampled", table="stood.csv"),
                         (0, "output 3 (Ventil): the same, 4 samples\nterminal 1 (Warte): the same, 1 samples\n", ""))
        status, out, _ = logged("--sampled", "--scale", "Ventil=100", table="percent.csv")
        self.assertEqual((status, out.splitlines()[0]), (1, "output 3 (Ventil): parts at 7000"))

    def test_faults(self):
        status, out, told = logged(table="wrong.csv")
        self.assertEqual((status, out, told), (2, "", read(FOLDER, "wrong.told")))


if __name__ == "__main__":
    unittest.main()
