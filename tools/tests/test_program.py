"""The built program, where what it writes is longer than what waits at most."""

import os
import subprocess
import tempfile
import unittest

from tool import TOOLS

PROGRAM = os.path.join(os.path.dirname(TOOLS), "pearl")
TURNS = 12000
SOURCE = ("MODULE(m); SYSTEM; tty: TERMINAL(1); PROBLEM; SPC tty DATION OUT ALPHIC;\n"
          "t: TASK MAIN; FOR i TO %d REPEAT PUT i TO tty BY F(9), SKIP; END; END;\nMODEND;\n" % TURNS)


class LongTranscripts(unittest.TestCase):
    """A transcript of some 260 KB, of which 64 KiB wait at most."""

    def setUp(self):
        self.folder = tempfile.TemporaryDirectory()
        self.source, self.journal = (os.path.join(self.folder.name, name) for name in ("m.pearl", "m.journal"))
        with open(self.source, "w", encoding="ascii") as file:
            file.write(SOURCE)
        with open(self.journal, "w", encoding="ascii") as file:
            file.write("run %d\n" % (3 * TURNS))

    def tearDown(self):
        self.folder.cleanup()

    def test_a_long_text_is_written(self):
        """A canonical text of some 90 KB, which is one piece: the text of that text is the same."""
        with open(self.source, "w", encoding="ascii") as file:
            file.write("MODULE(m);PROBLEM;t:TASK;" + "x:=1;" * 10000 + "END;MODEND;")
        first = subprocess.run([PROGRAM, "print", self.source], stdout=subprocess.PIPE, timeout=600, check=True).stdout
        with open(self.source, "wb") as file:
            file.write(first)
        again = subprocess.run([PROGRAM, "print", self.source], stdout=subprocess.PIPE, timeout=600, check=True).stdout
        self.assertEqual(first, again)
        self.assertGreater(len(first), 80000)
        self.assertEqual(first.count(b"x := 1"), 10000)

    def run_into(self, out):
        return subprocess.run([PROGRAM, "run", self.source, self.journal], stdout=out, timeout=600, check=False)

    def test_each_line_is_written(self):
        """All lines are there, in their order."""
        done = self.run_into(subprocess.PIPE)
        lines = done.stdout.decode("ascii").splitlines()
        self.assertEqual(done.returncode, 0)
        self.assertEqual([line for line in lines if " out " in line], ["0 out 1 '%9d\\n'" % (i + 1) for i in range(TURNS)])
        self.assertEqual(lines[-1], "0 close")

    @unittest.skipUnless(os.path.exists("/dev/full"), "needs /dev/full")
    def test_a_full_disk_is_told(self):
        """Where nothing can be written, also by the last write of all, the status is that of a write fault."""
        with open("/dev/full", "wb") as full:
            self.assertEqual(self.run_into(full).returncode, 6)
            with open(self.journal, "w", encoding="ascii") as file:
                file.write("run 1\n")
            self.assertEqual(self.run_into(full).returncode, 6)


if __name__ == "__main__":
    unittest.main()
