"""tools/moment over kept snapshots, with a script in tests/moment that stands for the program."""

import os
import re
import shutil
import tempfile
import unittest
from unittest import mock

import tool
from tool import HERE, data, read, run

from reading import cutting, gets, journal, objects, program as programs, snapshot, statements
from reading.asked import Unusable, source_of
from reading.standing import Standing

FOLDER = os.path.join(HERE, "moment")
SOURCE, JOURNAL = data("incident.pearl"), data("incident.journal")


def read_bytes(name):
    with open(os.path.join(FOLDER, name), "rb") as file:
        return file.read()


def moment(*words, program="program"):
    """The status and the output of tools/moment, with paths as a user has them who stands in the folder of the files."""
    variables = {"PEARL_PROGRAM": program and os.path.join(FOLDER, program)}
    return run("moment", *words, folder=FOLDER, variables=variables)


def without_program(*words):
    """The same where no program is built and none is named."""
    with mock.patch.object(programs, "BUILT", os.path.join(FOLDER, "missing")):
        return moment(*words, program="")


def changed(folder, name, at, *bytes_there):
    """The path of a snapshot with other bytes from this place on."""
    raw, path = read_bytes(name), os.path.join(folder, "changed.snapshot")
    with open(path, "wb") as file:
        file.write(raw[:at] + bytes(bytes_there) + raw[at + len(bytes_there):])
    return path


def script(folder, *lines):
    """The path of a program with these lines, before those of the one that stands for the program."""
    path = os.path.join(folder, "script")
    with open(path, "w", encoding="ascii") as file:
        file.write("\n".join(["#!/bin/sh", *lines, f'exec "{FOLDER}/program" "$@"', ""]))
    os.chmod(path, 0o755)
    return path


class Shown(unittest.TestCase):
    """What is told of a moment, against kept pages."""

    def is_kept(self, name, *words, told=""):
        status, out, err = moment(*words)
        self.assertEqual((status, err), (0, told))
        self.assertEqual(out.replace(data(""), ""), read(FOLDER, name))

    def test_before_a_trap(self):
        """The task that is to trap is at the line that traps."""
        self.is_kept("trap.moment", "--before-trap", "Protokoll", SOURCE, JOURNAL)

    def test_at_a_moment(self):
        """All tasks wait for one semaphore; a time of day is the moment with the journal's clock."""
        self.is_kept("hangs.moment", "--at", "20000", SOURCE, JOURNAL)
        self.is_kept("hangs.moment", "--at", "14:30:20", SOURCE, JOURNAL)

    def test_a_time_of_day_without_clock(self):
        """The run starts at 00:00:00 where its journal has no `clock`."""
        with tempfile.TemporaryDirectory() as folder:
            log, kept = (os.path.join(folder, it) for it in ("journal", "kept"))
            with open(log, "wb") as file:
                file.write(b"run 5\ntick 3000\n")
            keeps = script(folder, f'[ $1 = save ] && cp "$3" {kept} && cat {FOLDER}/trap.snapshot && exit 0')
            for at, lines in (("00:00:01", "run 5\ntick 1000\n"), ("0:00:02.5", "run 5\ntick 2500\n")):
                status, _, told = moment("--at", at, SOURCE, log, program=keeps)
                self.assertEqual((status, told, read(kept)), (0, "", lines))
            self.assertEqual(moment("--at", "00:00:04", SOURCE, log, program=keeps),
                             (2, "", "moment: --at: the journal ends at the moment 3000, before 4000\n"))

    def test_a_snapshot(self):
        """Everything that a task may wait for, plans of all forms, a procedure within a procedure, and values of all kinds."""
        self.is_kept("stand.moment", "stand.pearl", "stand.snapshot")
        self.is_kept("stand.moment", "stand.pearl", "stand.journal")

    def test_all_values(self):
        out = moment("--all", SOURCE, "hangs.snapshot")[1]
        self.assertIn("  Fuehler 1000 999 999 998 ", out)
        self.assertNotIn("in all", out)

    def without_lines(self, why, **kept):
        """What is told by a program that makes other objects of these sources."""
        with tempfile.TemporaryDirectory() as folder:
            there = {it: it for it in ("program", "stand.pearl", "stand.snapshot")}
            for name, source in {**there, **kept}.items():
                shutil.copy(os.path.join(FOLDER, source), os.path.join(folder, name.replace("_", ".")))
            status, out, told = moment("stand.pearl", "stand.snapshot", program=os.path.join(folder, "program"))
        self.assertEqual((status, told), (0, f"moment: {why}; places are instructions\n"))
        self.assertIn("Sperren: blocked, priority 15, waits for Voll\n  task Sperren, instruction 0 Request\n", out)

    def test_without_lines(self):
        """Where the marked source is refused, and where the object is another one, places are instructions."""
        self.without_lines("the program takes no source with a mark before each statement", stand_object="stand.object")
        self.without_lines("the program makes another object of the source than that of the snapshot",
                           stand_object="incident.object")


class Refused(unittest.TestCase):
    """What can't be used."""

    def is_refused(self, why, *words):
        status, out, told = moment(*words)
        self.assertEqual((status, out), (2, ""))
        self.assertIn(why, told)

    def test_words(self):
        self.assertEqual(moment(SOURCE)[0], 2)
        self.assertEqual(moment("--at", "1", "--before-trap", "Regeln", SOURCE, JOURNAL)[0], 2)
        self.is_refused("which is of one moment", "--at", "1", SOURCE, "trap.snapshot")
        self.is_refused("Regeln doesn't trap in this run", "--before-trap", "Regeln", SOURCE, JOURNAL)
        self.is_refused("the journal ends at the moment 40000", "--at", "40001", SOURCE, JOURNAL)
        self.is_refused("missing: No such file", SOURCE, "missing")
        self.assertEqual(moment(SOURCE, JOURNAL, program="missing")[::2],
                         (2, f"moment: {os.path.join(FOLDER, 'missing')}: No such file or directory\n"))

    def test_files(self):
        self.is_refused("aren't those of", SOURCE, "stand.snapshot")
        folder = os.path.join(HERE, "explain")
        wrong = os.path.join(folder, "plant-value.journal")
        self.is_refused("plant-value.journal:3:9: journal: 90.5 isn't whole", SOURCE, wrong)
        self.is_refused("plant-value.journal:3:9: 90.5 isn't whole", "--at", "40000", SOURCE, wrong)
        self.is_refused("the source isn't accepted", os.path.join(folder, "goto.pearl"), JOURNAL)
        with tempfile.NamedTemporaryFile(suffix=".snapshot") as file:
            file.write(read_bytes("trap.snapshot")[:-1])
            file.flush()
            self.is_refused("moment: error snapshot state N5\n", SOURCE, file.name)


class Damaged(unittest.TestCase):
    """Snapshots that the program refuses, or that can't be read where there is none."""

    def setUp(self):
        self.kept = tempfile.TemporaryDirectory()
        self.folder = self.kept.name

    def tearDown(self):
        self.kept.cleanup()

    def is_told(self, why, path, ended):
        """One line on standard error, and nothing shown."""
        self.assertEqual(ended, (2, "", f"{path}: {why}\n"))

    def test_the_program_is_asked_first(self):
        """What can be shown isn't shown where the program refuses it: a variable with another value."""
        at = read_bytes("trap.snapshot").index(b"\0\x0f\xd2\x0f")
        path = changed(self.folder, "trap.snapshot", at + 2, 0xd4)
        self.assertIn("\n  Wert 1002\n", without_program(SOURCE, path)[1])
        self.assertEqual(moment(SOURCE, path), (2, "", "moment: error snapshot state N5\n"))
        takes = script(self.folder, f'[ $1 = resume ] && cmp -s "$2" "{path}" && [ ! -s "$3" ] && exit 0')
        self.assertIn("\n  Wert 1002\n", moment(SOURCE, path, program=takes)[1])
        full = script(self.folder, "[ $1 = resume ] && echo error memory && exit 7")
        self.assertEqual(moment(SOURCE, path, program=full),
                         (2, "", "moment: the memory of this machine isn't enough for this run\n"))

    def test_parts_that_do_not_go_together(self):
        """A TAKE of an interrupt, a format F(0), a GET into cells that aren't there, a text with the byte 1,
        and a frame behind its code: each in one line, also where a program goes on from it."""
        takes = script(self.folder, "[ $1 = resume ] && exit 0")
        for at, byte in ((392, 0), (125, 0), (436, 5), (621, 5), (871, 127)):
            path = changed(self.folder, "stand.snapshot", at, byte)
            for ended in (without_program("stand.pearl", path), moment("stand.pearl", path, program=takes)):
                self.is_told("the parts of the snapshot don't go together", path, ended)

    def test_bytes(self):
        """What is cut is told to end there; a byte that nothing has, and one too many, by their places."""
        raw = read_bytes("trap.snapshot")
        for cut in (4, 5, 300, len(raw) - 1):
            path = os.path.join(self.folder, "cut.snapshot")
            with open(path, "wb") as file:
                file.write(raw[:cut])
            ended = without_program(SOURCE, path)
            self.is_told(f"the snapshot isn't whole: it ends at byte {cut}", path, ended)
        for at, byte in ((len(raw), 0), (4, 0)):
            path = changed(self.folder, "trap.snapshot", at, byte)
            why = f"what stands at byte {at} is none of a snapshot's"
            self.is_told(why, path, without_program(SOURCE, path))


class Bytes(unittest.TestCase):
    """Objects and snapshots are read to their last byte, and nothing else is."""

    def test_each_cut(self):
        for name in ("trap.snapshot", "stand.snapshot"):
            raw = read_bytes(name)
            snapshot.parsed(raw)
            for wrong in [raw[:at] for at in range(len(raw))] + [raw + b"\0"]:
                with self.assertRaises(snapshot.Unread):
                    snapshot.parsed(wrong)

    def test_numbers(self):
        reads = lambda raw: objects.Reader(bytes(raw)).number()
        self.assertEqual([reads([127]), reads([172, 2]), reads([255] * 9 + [1])], [127, 300, 2**64 - 1])
        for wrong in ([128], [128, 0], [255] * 9 + [2], []):
            with self.assertRaises(objects.Unread):
                reads(wrong)
        self.assertEqual([objects.Reader(bytes([it])).signed() for it in range(4)], [0, -1, 1, -2])



def page(name):
    return read(os.path.dirname(tool.TOOLS), "docs", "use", name)


def table_bytes(text):
    """The bytes of a page's table, and the place of the first one."""
    rows = re.findall(r"^\| (\d+) \| `([0-9a-f ]+)` \|", text, re.M)
    found, first = b"", int(rows[0][0])
    for at, spelled in rows:
        assert int(at) == first + len(found), at
        found += bytes.fromhex(spelled)
    return found, first


class Pages(unittest.TestCase):
    """What docs/use shows by bytes is what is read, and what it shows of the incident is what is told."""

    def test_the_lamp(self):
        """The object, and the snapshot that has it."""
        made, first = table_bytes(page("object-format.md"))
        self.assertEqual((first, len(made)), (0, 85))
        lamp = objects.parsed(made)
        self.assertEqual([(it.name, it.priority, it.main) for it in lamp.tasks], [("start", 255, True), ("flash", 5, False)])
        self.assertEqual(lamp.tasks[0].code, [("Activate", 1, (3, 0), 0, 0), ("Enable", 0), ("End",)])
        state, first = table_bytes(page("snapshot.md"))
        self.assertEqual(b"PRS1\x55" + made + state, read_bytes("lamp.snapshot"))
        found = snapshot.parsed(read_bytes("lamp.snapshot"))
        self.assertEqual((first, found.code, found.clock, found.switches), (90, made, 52_200_000, [True]))
        self.assertEqual(found.tasks[1].frames, [snapshot.Frame(1, 7, [], [(("BIT", 1), "1")])])

    def test_the_incident(self):
        shown = re.findall(r"^```\n(.*?)^```", page("moment.md"), re.M | re.S)
        self.assertEqual(shown[1].split("\n", 1)[1], read(FOLDER, "trap.moment"))
        for part in shown[2].split("...\n"):
            self.assertIn(part, read(FOLDER, "hangs.moment"))


class Places(unittest.TestCase):
    """Which statement a place of the code belongs to."""

    def setUp(self):
        self.text = read(FOLDER, "stand.pearl")
        self.stands = statements.stands_of(self.text)
        self.made, self.marked = (objects.parsed(read_bytes(name)) for name in ("stand.object", "stand-marked.object"))

    def test_the_marked_source(self):
        self.assertEqual(statements.marked(self.text, self.stands), read(FOLDER, "stand-marked.pearl"))
        text = read(SOURCE)
        self.assertEqual(statements.marked(text, statements.stands_of(text)), read(FOLDER, "incident-marked.pearl"))

    def test_each_place(self):
        """Each action of a procedure with a loop stands at its statement; code before the first statement at the head. Of a
        CASE the code of OUT comes before that of its ALTs."""
        lines = statements.Lines(self.stands, self.made, self.marked)
        found = {}
        for routine, code in enumerate(self.made.routines()):
            for place, (name, *_) in enumerate(code.code):
                found.setdefault((routine, name), self.text[lines.stand(routine, place).place:].split("\n")[0])
        self.assertEqual([found[0, name] for name in ("Turn", "ReadAt", "Return", "Trap")],
                         ["FOR i TO n REPEAT", "s := s + Menge(i);", "RETURN(s);", "END;"])
        self.assertEqual([found[1, name] for name in ("Call", "Return")], ["aus :=", "END;"])
        rest = [it.name for it in self.made.routines()].index("Rechnen")
        self.assertEqual([found[rest, name] for name in ("Fill", "Turn", "Case", "Call", "Store", "End")],
                         ["Rechnen: TASK PRIO 20;", "REPEAT", "CASE k", "Doppelt(3, Lager.Anzahl);", "k := 1;", "END;"])

    def test_ends(self):
        """The end of a body is kept, and of a list within a statement only where the list has a statement."""
        text = "MODULE;PROBLEM;t:TASK;IF a THEN ELSE ;FIN; REPEAT END; BEGIN b := 1; END; END;p:PROC;END;MODEND;"
        found = [text[it.place:].split()[0].split(";")[0] for it in statements.stands_of(text)]
        self.assertEqual(found, ["IF", "REPEAT", "BEGIN", "b", "END", "END", "END"])

    def test_other_code(self):
        """Code that isn't that of the marked source tells no lines."""
        with self.assertRaises(objects.Unread):
            statements.Lines(self.stands, self.made, self.made)
        with self.assertRaises(objects.Unread):
            statements.Lines(self.stands, self.marked, self.marked)


class Cuts(unittest.TestCase):
    """Fronts of journals."""

    RAW = b"clock 6:00:00\nrun 5\ntick 10\nvalue 2 1\nrun 7\npass 10 3\nirpt 4\nrun 8\n"

    def setUp(self):
        self.plant = cutting.plant_of(source_of(SOURCE))

    def up_to(self, at):
        return cutting.joined(cutting.up_to(self.RAW, self.plant, at)).decode().split("\n")[:-1]

    def opened(self, at):
        return [b"|".join(it).decode() for it in cutting.opened(self.RAW, self.plant, at)]

    def test_up_to(self):
        """All that happens at the moment is done, and nothing behind it."""
        self.assertEqual(self.up_to(0), ["clock 6:00:00", "run 5"])
        self.assertEqual(self.up_to(4)[2:], ["tick 4"])
        self.assertEqual(self.up_to(10)[2:], ["tick 10", "value 2 1", "run 7"])
        self.assertEqual(self.up_to(13)[5:], ["pass 3 3"])
        self.assertEqual(cutting.joined(cutting.up_to(self.RAW, self.plant, 20)), self.RAW)
        with self.assertRaises(Unusable):
            self.up_to(21)

    def test_opened(self):
        """What comes before the first action of a moment, and all lines from there on that are of it."""
        self.assertEqual(self.opened(0), ["clock 6:00:00", "run 5"])
        self.assertEqual(self.opened(4), ["clock 6:00:00|run 5|tick 4", ""])
        self.assertEqual(self.opened(10), ["clock 6:00:00|run 5|tick 10|value 2 1", "run 7"])
        self.assertEqual(self.opened(11), ["clock 6:00:00|run 5|tick 10|value 2 1|run 7|tick 1", "run 3"])
        self.assertEqual(self.opened(20), ["clock 6:00:00|run 5|tick 10|value 2 1|run 7|pass 9 3|tick 1", "run 3|irpt 4|run 8"])

    def test_the_last_front(self):
        """One action before so many actions were done, over several lines."""
        lines = [b"run 3", b"irpt 4", b"run 100"]

        def after(count):
            return lambda front: sum(int(it.split()[1]) for it in front if it.startswith(b"run")) >= count
        self.assertEqual(cutting.last_front(lines, after(1)), [])
        self.assertEqual(cutting.last_front(lines, after(3)), [b"run 2"])
        self.assertEqual(cutting.last_front(lines, after(4)), [b"run 3", b"irpt 4"])
        self.assertEqual(cutting.last_front(lines, after(70)), [b"run 3", b"irpt 4", b"run 66"])
        self.assertEqual(cutting.last_front(lines, after(103)), [b"run 3", b"irpt 4", b"run 99"])

    def test_a_start(self):
        self.assertEqual(cutting.start_of(self.RAW, self.plant), 6 * 3_600_000)
        self.assertIsNone(cutting.start_of(b"run 1\nclock 6:00:00\n", self.plant))
        with self.assertRaises(journal.Bad):
            cutting.up_to(b"run 1\nclock 6:00:00\n", self.plant, 0)


class Gets(unittest.TestCase):
    """Whether a GET waits, by the rows of docs/use/formats.md."""

    def test_rows(self):
        seven, six = ("FIXED", 7), ("BIT", 6)
        for done, items, kinds, text in (
                (False, [("F", 3)], [seven], "12"), (True, [("F", 3)], [seven], " -7"), (True, [("F", 3)], [seven], "1x2"),
                (True, [("F", 5)], [seven], "7\n89"), (True, [("F", 3)], [seven], "128"), (True, [("B1", 4)], [six], "101 "),
                (True, [("B4", 2)], [six], "BD"), (True, [("A", 5)], [("CHAR", 3)], "abcdefg"),
                (True, [("A", 3)], [("CHAR", 3)], "\n"), (True, [("D", 10)], [("DURATION", 0)], "1 HRS2 MIN"),
                (True, [("F", 3), ("X", 0), ("F", 2), ("SKIP", 0)], [seven, seven], " 12 -4\n"),
                (False, [("F", 3), ("X", 0), ("F", 2), ("SKIP", 0)], [seven, seven], " 12 x"),
                (True, [("F", 1), ("F", 9)], [seven, seven], "x"), (False, [("B2", 0)], [six], "12"),
                (True, [("B2", 0)], [six], "123"),
                (False, [("SKIP", 2)], [], "\n"), (True, [("SKIP", 2)], [], "\n\n"), (False, [("A", 0)], [("CHAR", 3)], "ab")):
            self.assertEqual(gets.can_be_done(items, kinds, text), done, (items, text))

    def test_fields(self):
        good = [("F", ("FIXED", 7), "-128"), ("F", ("FIXED", 7), " +7 "), ("B1", ("BIT", 2), "1100"), ("B4", ("BIT", 6), "BC"),
                ("T", ("CLOCK", 0), " 6:0:00.5"), ("D", ("DURATION", 0), "- 2MIN 1.5 SEC"), ("A", ("CHAR", 1), "")]
        bad = [("F", ("FIXED", 7), "128"), ("F", ("FIXED", 7), ""), ("F", ("FIXED", 7), "- 1"), ("B1", ("BIT", 2), "1110"),
               ("B4", ("BIT", 6), "BD"), ("B1", ("BIT", 2), "12"), ("B1", ("BIT", 2), ""), ("T", ("CLOCK", 0), "24:00:00"),
               ("T", ("CLOCK", 0), "7"), ("D", ("DURATION", 0), "7"), ("D", ("DURATION", 0), "305419897 HRS")]
        for expected, fields in ((True, good), (False, bad)):
            for item, kind, field in fields:
                self.assertEqual(gets.is_good(item, kind, field), expected, (item, field))


class Standings(unittest.TestCase):
    """Who acts next."""

    def test_running(self):
        """The most urgent task that can act; of several the one that acted last, else the first."""
        found = snapshot.parsed(read_bytes("stand.snapshot"))
        standing = Standing(found, source_of(os.path.join(FOLDER, "stand.pearl")).walk)
        names = [it.name for it in found.object.tasks]
        self.assertEqual(names[standing.running()], "Rechnen")
        found.last = names.index("Nachher")
        self.assertEqual(names[standing.running()], "Nachher")
        found.counts[1] = 1
        self.assertEqual((names[standing.running()], standing.state(names.index("Sperren"))), ("Sperren", ("running", "")))


if __name__ == "__main__":
    unittest.main()
