"""The sources, objects and journals of tools/costs.py: how long they are, and that the built program takes them."""

import argparse
import os
import shutil
import subprocess
import tempfile
import unittest

import tool
import cost_forms
import cost_objects
import costs

PROGRAM = os.path.join(os.path.dirname(tool.TOOLS), "pearl")
SIZE = 20000


class Files(unittest.TestCase):
    """Each form is filled up to a length."""

    def test_lengths(self):
        for command in ("print", "check", "list", "journal"):
            for form in cost_forms.FORMS[command]:
                made = costs.filled(form.text, SIZE)
                least = SIZE if command != "list" else SIZE - 39
                self.assertTrue(least <= len(made) <= SIZE, (command, form.name, len(made)))

    def test_names(self):
        """A form is chosen by its name, so no two of a command have the same one."""
        for command, forms in cost_forms.FORMS.items():
            names = [form.name for form in forms]
            self.assertEqual(len(set(names)), len(names), command)

    def test_names_of_one_hash(self):
        """They differ, and some letters by which one of them was found lead where all lead."""
        names = cost_forms.one_hash()
        self.assertEqual(len(set(names)), cost_forms.HASHED)
        for name in names[::1000]:
            state = 0x243F6A8885A308D3
            for size, bytes_read in [(8, len(name))] + [(1, ord(letter) * 0x010101) for letter in name]:
                both = (state ^ bytes_read) * (0x9E3779B97F4A7C15 ^ 2 * size)
                state = both % 2**64 ^ both // 2**64
            self.assertEqual((state ^ state >> 32) % 1024, 0)

    def test_numbers(self):
        for value, spelled in {0: b"\x00", 127: b"\x7f", 128: b"\x80\x01", 300: b"\xac\x02", 2**21: b"\x80\x80\x80\x01"}.items():
            self.assertEqual(cost_objects.number(value), spelled)

    def test_every_opcode_is_there(self):
        """The 73 opcodes, Const and Drop in one form."""
        self.assertEqual(len(cost_objects.CODES), 72)


class Judged(unittest.TestCase):
    """What is told of a form besides its figures."""

    def told(self, small, large, statuses=(0, 0), form=cost_forms.Form("a", str, 560, 3), counted=False):
        costs_of = (costs.Cost(seconds, peak, {status}, b"") for (seconds, peak), status in zip((small, large), statuses))
        return costs.judged(form, *costs_of, counted)

    def test_bounds(self):
        self.assertEqual(self.told((0.5, 1e8), (2.4, 5.5e8)), ([], []))
        for small, large, above in (((1, 1e8), (3.1, 1e8), "ABOVE ITS BOUND"), ((1, 1e8), (2, 5.7e8), "ABOVE ITS BOUND"),
                                    ((0.5, 1e8), (2.5, 1e8), "NOT LINEAR"), ((0.05, 1e8), (0.29, 1e8), "noise"),
                                    ((0.05, 1e8), (0.31, 1e8), "NOT LINEAR"), ((0.5, 1e8), (float("inf"), 1e8), "NOT LINEAR")):
            self.assertIn(above, self.told(small, large)[1], (small, large))
        self.assertEqual(self.told((0.01, 1e8), (0.09, 1e8)), ([], []))
        for large, above in (((0.047, 1e8), []), ((0.049, 1e8), ["NOT LINEAR"]), ((0.047, 5.7e8), ["ABOVE ITS BOUND"])):
            self.assertEqual(self.told((0.01, 1e8), large, counted=True)[1], above, large)
        self.assertEqual(self.told((1, 1e8), (4.7, 1e8), counted=True)[1], [])

    def test_statuses(self):
        refused = cost_forms.Form("a", str, 560, 3, cost_forms.REFUSED)
        self.assertEqual(self.told((1, 1), (1, 1), (2, 2), refused)[0], [])
        self.assertEqual(self.told((1, 1), (1, 1), (2, 0), refused)[0], ["ENDED WITH [0], NOT 2"])
        self.assertEqual(self.told((1, 1), (1, 1), (7, 7))[0], ["ENDED WITH [7], NOT 0"] * 2)

    def test_what_is_broken_off(self):
        """A run that is broken off has no status and no time; what the runs before it ended with is still told."""
        with tempfile.TemporaryDirectory() as folder:
            program = os.path.join(folder, "program")
            with open(program, "w", encoding="ascii") as file:
                file.write(f"#!/bin/sh\nif [ -e {folder}/once ]; then while :; do :; done; fi\ntouch {folder}/once\nexit 7\n")
            os.chmod(program, 0o755)
            form = cost_forms.Form("a", lambda count: "a" * count, 560, 3)
            args = argparse.Namespace(command="check", program=program, runs=2, seconds=1, instructions=False)
            cost = costs.measured(args, folder, form, 100)
            self.assertEqual((cost.seconds, cost.statuses, cost.said), (float("inf"), {7}, b"broken off"))

    @unittest.skipUnless(shutil.which(costs.COUNTER[0]), "needs valgrind")
    def test_instructions(self):
        """A program that does nothing takes few, and those of a longer loop are more."""
        counts = [costs.instructions(["sh", "-c", f"i=0; while [ $i -lt {many} ]; do i=$((i+1)); done"])[0] for many in (0, 1000, 2000)]
        self.assertEqual(costs.instructions(["sh", "-c", "exit 3"])[1], 3)
        self.assertLess(counts[0], 0.1)
        self.assertLess(abs((counts[2] - counts[1]) / (counts[1] - counts[0]) - 1), 0.2)

    def test_names_alone(self):
        status, out, _ = tool.run("costs.py", "check", "--names", "--only", "BEGINs", "--only", "one CASE")
        self.assertEqual((status, len(out.splitlines())), (0, 5), out)


class Taken(unittest.TestCase):
    """What the built program makes of each form, a short one of it."""

    def setUp(self):
        self.folder = tempfile.TemporaryDirectory()

    def tearDown(self):
        self.folder.cleanup()

    def written(self, name, data):
        path = os.path.join(self.folder.name, name)
        with open(path, "wb") as file:
            file.write(data if isinstance(data, bytes) else data.encode("ascii"))
        return path

    def ends(self, *words):
        done = subprocess.run([PROGRAM, *words], stdout=subprocess.PIPE, timeout=600, check=False)
        return done.returncode, done.stdout.splitlines()[-1:]

    def test_objects(self):
        none = self.written("journal", b"")
        for form in cost_objects.OBJECTS:
            path = self.written("object", form.text(5))
            status, last = self.ends("exec", path, none)
            self.assertEqual((status, last == [b"0 close"]), (form.status, not form.status), form.name)
            self.assertEqual(self.ends("list", path)[0], 0, form.name)

    def test_journals(self):
        plant = self.written("plant", cost_objects.PLANT)
        for form in cost_objects.JOURNALS:
            status, last = self.ends("run", plant, self.written("journal", form.text(5)))
            self.assertEqual((status, last[0].split()[1:]), (0, [b"close"]), form.name)

    def test_sources(self):
        """A short text of a form may be accepted where its long one is refused, and not the other way round."""
        for form in cost_forms.PRINTED:
            self.assertEqual(self.ends("print", self.written("source", form.text(3)))[0], form.status, form.name)
        for form in cost_forms.CHECKED:
            path = self.written("source", form.text(3))
            check = self.ends("check", path)
            self.assertIn(check[0], (0, form.status), form.name)
            self.assertEqual(self.ends("compile", path)[0], check[0], form.name)

    def test_refused_sources(self):
        """What is marked as refused is so at a length above which it stays so, and what isn't marked isn't."""
        for form in cost_forms.CHECKED:
            path = self.written("source", costs.filled(form.text, 4 * SIZE))
            self.assertEqual(self.ends("check", path)[0], form.status, form.name)


if __name__ == "__main__":
    unittest.main()
