"""tools/check_doors.py, over small crates that are written here."""

import os
import tempfile
import unittest

from tool import run

LOW = """-- What other crates may cite of this crate's proofs.

-- sums
pub use Rattle.low.proofs.Sums.{add_one, add_two as add_both, add_long}
pub use Rattle.low.proofs.Sums.{add_none}
-- lists
unfoldable pub use Rattle.low.proofs.Lists.{longer}
"""
FILES = {
    "crates.txt": "low:\n# a comment\nhigh: low  # the upper one\n",
    "crates/low/proofs/Offered.antt": LOW,
    "crates/low/proofs/Sums.antt": "pub add_one : Unit {0}\n",
    "crates/low/proofs/Lists.antt": "use Rattle.low.proofs.Sums.{add_one}\n",
    "crates/high/proofs/Above.antt": "use Rattle.low.proofs.Offered.{add_one, longer as long}\n"
                                     "use Rattle.low.proofs.Offered as low\nuse Rattle.low.proofs.kind.Kind.TheLaws.{the_size}\n"
                                     "both = (low.add_both n, long)\n",
    "crates/high/proofs/top/call/Answers.antt": "use Rattle.low.proofs.Offered as sums\nreturns c = sums.add_none c.0\n",
    "crates/high/src/lib.rt": "#![tactic(auto, using(low::proofs::Offered::add_long))]\n",
}


class Doors(unittest.TestCase):
    """What is wrong, where one file is otherwise."""

    def told(self, path=None, text=None):
        with tempfile.TemporaryDirectory() as folder:
            for name, what in {**FILES, **({path: text} if path else {})}.items():
                os.makedirs(os.path.dirname(os.path.join(folder, name)), exist_ok=True)
                with open(os.path.join(folder, name), "w", encoding="utf-8") as file:
                    file.write(what)
            status, out, _ = run("check_doors.py", folder)
        self.assertEqual(status, 1 if out else 0)
        return out.splitlines()

    def test_nothing(self):
        self.assertEqual(self.told(), [])

    def test_by_the_window(self):
        path = "crates/high/proofs/New.antt"
        for text in ["use Rattle.low.proofs.Sums.{add_one}\n", "x = Rattle.low.proofs.Sums.add_one\n"]:
            self.assertEqual(self.told(path, text), [f"{path}:1: low proofs/Sums (add_one) but by proofs/Offered"])
        text = "ghost use Rattle.low.proofs.Sums as sums;\nx = sums.add_one\n"
        self.assertEqual(self.told(path, text), [f"{path}:1: low proofs/Sums but by proofs/Offered",
                                                 f"{path}:2: low proofs/Sums (add_one) but by proofs/Offered"])
        path = "crates/high/src/new.rt"
        self.assertEqual(self.told(path, "#[tactic(auto, using(low::proofs::Lists::longer))]\n"),
                         [f"{path}:1: low proofs/Lists (longer) but by proofs/Offered"])

    def test_nobody_cites(self):
        self.assertEqual(self.told("crates/high/src/lib.rt", "// low::proofs::Offered::add_long\n"),
                         ["low proofs/Offered: no other crate cites add_long"])
        self.assertEqual(self.told("crates/high/proofs/Above.antt", "use Rattle.low.proofs.Offered as low\nx = low.longer\n"),
                         [f"low proofs/Offered: no other crate cites {name}" for name in ("add_one", "add_both")])

    def test_own_door(self):
        path = "crates/low/proofs/Lists.antt"
        self.assertEqual(self.told(path, "use Rattle.low.proofs.Offered.{add_one}\n"), [f"{path}:1: the door of the own crate"])

    def test_a_door_alone(self):
        path = "crates/low/proofs/Offered.antt"
        self.assertEqual(self.told(path, LOW.replace("-- lists\n", "")),
                         ["low proofs/Offered: line 6: no comment says what the group is"])
        self.assertEqual(self.told(path, LOW + "pub here : Unit {0}\n"),
                         ["low proofs/Offered: line 8: a door has comments and groups alone"])
        self.assertEqual(self.told(path, LOW + "pub use Rattle.other.proofs.Sums.{far}\n"),
                         ["low proofs/Offered: line 8: a door has comments and groups alone"])


if __name__ == "__main__":
    unittest.main()
