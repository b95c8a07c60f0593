"""tools/timeline: pictures of the examples' transcripts, and of made ones."""

import os
import re
import tempfile
import unittest
from html import unescape
from xml.etree import ElementTree

from tool import HERE, data, read, run

KEPT = data("incident.transcript")
SOURCE, JOURNAL = data("incident.pearl"), data("incident.journal")


def drawn(*words, given=b""):
    """The picture's texts, or what is told of a refusal."""
    status, out, told = run("timeline", *words, folder=HERE, given=given)
    if status:
        return status, told
    ElementTree.fromstring(out)
    return status, out


def texts(picture):
    """The texts that are seen, with their left and right edges."""
    for x, anchor, words in re.findall(r'<text x="([\d.-]+)" y="[\d.]+" class="[\w ]+" text-anchor="(\w+)">([^<]*)<', picture):
        width = 6.7 * len(words)
        yield words, float(x) - {"start": 0, "middle": width / 2, "end": width}[anchor], width


def seen(picture):
    return [words for words, _, _ in texts(picture)]


class Pictures(unittest.TestCase):
    """What is drawn."""

    def test_same_picture(self):
        """A transcript has one picture, also from standard input but for its name."""
        one = drawn(KEPT)[1]
        other = drawn("-", given=read(KEPT).encode())[1]
        self.assertEqual(one.replace(">incident<", ">run<"), other)

    def test_names(self):
        words = seen(drawn("--source", SOURCE, KEPT)[1])
        self.assertIn("Ventil (output 3)", words)
        self.assertEqual([it for it in words if it in ("Anlauf", "Messen", "Regeln")][:3], ["Anlauf", "Messen", "Regeln"])
        self.assertIn("output 3", seen(drawn(KEPT)[1]))

    def test_inputs(self):
        """What comes in has its lanes, and its lines where one points at it."""
        picture = drawn("--source", SOURCE, "--journal", JOURNAL, KEPT)[1]
        self.assertIn("Schluessel (interrupt 4)", seen(picture))
        self.assertIn("<title>37000 irpt 4</title>", picture)
        self.assertIn("0 value 2 900\n0 value 2 900", picture)
        self.assertIn("900..901", seen(picture))
        self.assertIn("14:30:37", seen(picture))

    def test_clock(self):
        words = seen(drawn("--start", "23:59:58", KEPT)[1])
        self.assertIn("00:00:02", words)

    def test_part(self):
        """From one moment to another: what began before is drawn from the edge on."""
        picture = drawn("--from", "12000", "--to", "15000", KEPT)[1]
        moments = re.findall(r"<title>(?:\d+ start \w+ \d+\n)?(\d+) (\w+)", picture)
        self.assertTrue(all(int(it) <= 15000 for it, _ in moments))
        self.assertNotIn("5000 out 1", picture)
        self.assertIn("<title>11000 start Regeln 20</title>", picture)
        self.assertNotIn("Freigabe 2", picture)

    def test_part_without_ended_tasks(self):
        """A task that has ended before isn't drawn."""
        self.assertNotIn("start Anlauf", drawn("--from", "12000", KEPT)[1])

    def test_lanes(self):
        picture = drawn("--source", SOURCE, "--only", "Regeln,Ventil", KEPT)[1]
        self.assertEqual([it for it in seen(picture) if it in ("Regeln", "Messen") or "(" in it][:2], ["Regeln", "Ventil (output 3)"])
        self.assertNotIn("Protokoll", picture)

    def test_trap(self):
        """Only the end of a trapped task is red: its bar is that of any other."""
        picture = drawn(KEPT)[1]
        trapped = re.search(r"<title>[^<]*trap Protokoll Format</title>(.*?)</g>", picture)[1]
        self.assertRegex(trapped, r'^<rect class="ended"[^>]*/><path class="trap"')

    def test_kept(self):
        """A start that is kept has its sign in the task's lane, and the legend tells it."""
        picture = drawn("--only", "Regeln", KEPT)[1]
        self.assertEqual(re.findall(r'<title>([^<]*)</title><path class="kept"', picture),
                         ["14000 kept Regeln 3", "13000 kept Regeln 2", "12000 kept Regeln 1"])
        self.assertIn("kept", seen(picture))

    def test_texts_fit(self):
        """No text begins or ends outside of the picture."""
        long = "".join(f"{at * 7} start T{at % 5} 1\n{at * 7} out 1 'value {at}'\n{at * 7 + 1} end T{at % 5}\n"
                       for at in range(400)) + "1000000000 close\n"
        for picture in [drawn(KEPT)[1], drawn("--source", SOURCE, "--journal", JOURNAL, KEPT)[1],
                        drawn("-", given=long.encode())[1]]:
            for words, left, width in texts(picture):
                self.assertGreaterEqual(left, 0, words)
                self.assertLessEqual(left + width, 1201, words)

    def test_labels_stay(self):
        """Each text that goes out has its label, as a whole or cut behind eleven letters."""
        long = "".join(f"{at} out 1 'text {at:03} of many'\n" for at in range(100)) + "100 close\n"
        words = seen(drawn("-", given=long.encode())[1])
        self.assertEqual(sum(it.startswith("text 0") for it in words), 100)

    def test_height(self):
        """A very long run ends with the moment to go on with."""
        long = "".join(f"{at * 1000} out 1 'text {at}'\n" for at in range(6000)) + "6000000 close\n"
        picture = drawn("-", given=long.encode())[1]
        self.assertLess(int(re.search(r'height="(\d+)"', picture)[1]), 6100)
        last = re.search(r"the picture ends here; --from (\d+) goes on", picture)
        self.assertIn(f"--from {last[1]} goes on", picture)
        self.assertNotIn(f"<title>{last[1]} out", picture)


class Watched(unittest.TestCase):
    """What a monitor wrote of the same run."""

    WATCHED = data("incident.watched")
    SHORT = (b"0 0 value n 0 -4\n0 0 value b 0 '0'B\n0 0 value v 0 '0101'B\n0 0 value v 1 '0000'B\n0 0 value c 0 'it''s'\n"
             b"3 0 value b 0 '1'B\n7 5 value n 0 6\n9 5 value n 0 1\n12 9 value b 0 '0'B\n12 9 value c 0 '<&>'\n15 20 close\n")

    def drawn(self, given, *words, lines=b"0 start A 1\n5 end A\n9 start A 1\n20 close\n"):
        with tempfile.TemporaryDirectory() as folder:
            path = os.path.join(folder, "watched")
            with open(path, "wb") as file:
                file.write(given)
            return drawn("--watch", path, *words, "-", given=lines)

    def test_lanes(self):
        """A slot is called by its leaf, and by its number where its leaf has several; a curve tells its least and greatest
        value."""
        words = [unescape(it) for it in seen(self.drawn(self.SHORT)[1])]
        self.assertEqual([it for it in words if it in ("A", "n", "b", "v 0", "v 1", "c", "-4..6")], ["A", "n", "-4..6", "b", "v 0", "v 1", "c"])
        self.assertEqual([it for it in words if "'" in it], ["'0101'B", "'0000'B", "'it''s'", "'<&>'"])

    def test_curve(self):
        """It goes level up to each change, and at a moment through all its values; its edges are those of the lane."""
        picture = self.drawn(self.SHORT)[1]
        path = re.search(r'<path class="curve" d="(M[^"]*)"/><g><title>0 0 value n', picture.replace("\n", ""))[1]
        found = re.fullmatch(r"M([\d.]+) ([\d.]+)H([\d.]+)V([\d.]+)V([\d.]+)H([\d.]+)", path)
        begin, first, change, highest, last, end = map(float, found.groups())
        self.assertLess(begin, change)
        self.assertLess(change, end)
        self.assertEqual(first - highest, 34)
        self.assertAlmostEqual(last, first - 34 * 5 / 10)
        self.assertIn("<title>7 5 value n 0 6\n9 5 value n 0 1</title>", picture)

    def test_bands(self):
        picture = self.drawn(self.SHORT, "--only", "b")[1]
        bands = re.findall(r'<title>([^<]*)</title><(rect class="bits"|path class="curve")', unescape(picture))
        self.assertEqual(bands, [("0 0 value b 0 '0'B\n3 0 value b 0 '1'B", 'rect class="bits"'), ("12 9 value b 0 '0'B", 'path class="curve"')])

    def test_part(self):
        """From a later moment on a slot has the value that it had before."""
        picture = self.drawn(self.SHORT, "--from", "6", "--only", "n,b")[1]
        self.assertIn('<rect class="bits"', picture)
        self.assertNotIn("7 5 value", picture)
        self.assertIn("9 value b", picture)
        self.assertIn("-4..6", seen(picture))

    def test_the_incident(self):
        """Its picture is that of the documents, and each change is told in it."""
        picture = drawn("--source", SOURCE, "--start", "14:30:00", "--watch", self.WATCHED, KEPT)
        self.assertEqual(picture, (0, read(HERE, "..", "..", "docs", "use", "watch.svg")))
        told = set(re.findall(r"^\d+ \d+ value .*", "\n".join(re.findall(r"<title>([^<]*)</title>", picture[1])), re.M))
        self.assertEqual(told, {it for it in read(self.WATCHED).splitlines() if " value " in it})

    def test_refused(self):
        self.assertEqual(self.drawn(b"error name 2\n")[0], 1)
        self.assertRegex(self.drawn(b"error name 2\n")[1], "nothing is watched")
        self.assertRegex(self.drawn(b"0 0 value x 0 5\n0 start A 1\n")[1], "line 2 is none of a monitor's: 0 start A 1")
        self.assertEqual(self.drawn(b"0 0 value x 0 5\nerror journal 3 1\n")[0], 0)
        self.assertEqual(drawn("--watch", "missing", KEPT), (1, "timeline: missing: No such file or directory\n"))


class Documents(unittest.TestCase):
    """The pictures of docs/use are those of the kept transcripts."""

    def is_kept(self, name, *words):
        picture = drawn(*words, "--source", data(f"{name}.pearl"), "--journal", data(f"{name}.journal"), data(f"{name}.transcript"))
        self.assertEqual(picture, (0, read(HERE, "..", "..", "docs", "use", f"{name}.svg")))

    def test_each(self):
        self.is_kept("readers")
        self.is_kept("lift")
        self.is_kept("logger", "--from", "46800000", "--to", "68400000")


class Words(unittest.TestCase):
    """What can't be drawn."""

    def test_refused(self):
        self.assertEqual(drawn("-", given=b""), (1, "timeline: -: it is empty\n"))
        self.assertEqual(drawn("-", given=b"error syntax 3\n"), (1, "timeline: -: nothing ran: error syntax 3\n"))
        self.assertEqual(drawn("-", given=b"\xff"), (1, "timeline: -: byte 0 is none of a transcript\n"))
        fourth = "timeline: -: line 2 is none of a transcript: 0 kept A 4\n"
        self.assertEqual(drawn("-", given=b"0 kept A 3\n0 kept A 4\n"), (1, fourth))
        self.assertEqual(drawn("missing"), (1, "timeline: missing: No such file or directory\n"))
        self.assertEqual(drawn("--from", "50000", KEPT)[0], 1)
        self.assertEqual(drawn("--journal", JOURNAL, KEPT), (1, "timeline: --journal asks for --source\n"))
        self.assertEqual(drawn()[0], 2)

    def test_a_run_that_was_refused(self):
        picture = drawn("-", given=b"0 start A 1\nerror journal 5 1\n")[1]
        self.assertIn("error journal 5 1", seen(picture))


if __name__ == "__main__":
    unittest.main()
