"""editor/: the files are those that editor/make.py writes, and they name each word of the program's table."""

import json
import os
import re
import unittest

from tool import HERE, data, read, run

from reading.tokens import WORDS

EDITOR = os.path.join(HERE, "..", "..", "editor")


def scopes(line):
    """The pieces of a line with their scopes, as an editor finds them: the earliest match, of several the first pattern's."""
    patterns = json.loads(read(EDITOR, "textmate", "pearl.tmLanguage.json"))["patterns"]
    at, found = 0, []
    while True:
        here = [(piece.start(), number, piece, it) for number, it in enumerate(patterns) if "match" in it
                for piece in [re.compile(it["match"]).search(line, at)] if piece]
        if not here:
            return found
        _, _, piece, pattern = min(here, key=lambda it: it[:2])
        found.append((piece[0], pattern.get("name") or pattern["captures"]["1"]["name"]))
        at = max(piece.end(), at + 1)


class Editor(unittest.TestCase):
    """The files of editor/."""

    def test_made(self):
        self.assertEqual(run("../editor/make.py", "--check"), (0, "", ""))
        self.assertEqual(run("../editor/make.py", "--all")[0], 2)

    def test_words(self):
        """Each word is one of the language's in both, and in no text."""
        vim = read(EDITOR, "vim", "syntax", "pearl.vim")
        keywords = [word for line in re.findall(r"^syntax keyword \w+ (.*)$", vim, re.M) for word in line.split()]
        self.assertEqual(sorted(keywords), sorted(WORDS))
        for word in WORDS:
            self.assertNotEqual(scopes(word)[0][1], "variable.other.pearl", word)
            self.assertEqual(scopes(f"'{word}'"), [(f"'{word}'", "string.quoted.single.pearl")])
            self.assertEqual(scopes(word + "x"), [(word + "x", "variable.other.pearl")])

    def test_line(self):
        found = scopes("Regeln: TASK PRIO 20; PUT 'it''s', 'FF'B4 TO w BY A; AT 12:30:00.5 ALL 2.5 SEC RESUME; ! IF")
        self.assertEqual(found[0][1], "entity.name.function.pearl")
        self.assertIn(("'it''s'", "string.quoted.single.pearl"), found)
        self.assertIn(("'FF'B4", "constant.numeric.bits.pearl"), found)
        self.assertIn(("12:30:00.5", "constant.numeric.pearl"), found)
        self.assertEqual(found[-1], ("! IF", "comment.line.exclamation.pearl"))

    def test_examples(self):
        """Words of the examples are none of the other names."""
        for line in read(data("incident.pearl")).splitlines():
            for piece, scope in scopes(line):
                self.assertFalse(scope == "variable.other.pearl" and piece in WORDS, line)


if __name__ == "__main__":
    unittest.main()
