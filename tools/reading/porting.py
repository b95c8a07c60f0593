"""The rows of docs/use/porting.md: for each form of old sources an example and what to write instead."""

import os
import re
from functools import cache

from .leftout import FORMS, SLIPS
from .tokens import TOP

PAGE = os.path.join(TOP, "docs", "use", "porting.md")
ROW = re.compile(r"^\| (.+?) \| `(.+?)` \| (.+) \|$", re.M)


def rows():
    """The rows of the page: form, example, and what to write instead."""
    with open(PAGE, encoding="utf-8") as file:
        return ROW.findall(file.read())


@cache
def recipes():
    """What to write instead, by the names of the forms."""
    return {name: instead for name, _, instead in rows()}


def whole(example):
    """The source in which an example stands."""
    if example.startswith(("SYSTEM", "#")):
        return f"MODULE(m);{example}{'PROBLEM;' if 'PROBLEM' not in example else ''}MODEND;"
    declares = re.match(r"\^?(DCL|SPC|TYPE|OPERATOR)\b|\w+: (TASK|PROC)\b", example)
    return f"MODULE(m);PROBLEM;{example}MODEND;" if declares else f"MODULE(m);PROBLEM;t:TASK;{example}END;MODEND;"


def names():
    """The forms that the patterns know, each once, in order."""
    return list(dict.fromkeys(form.name for form in FORMS + SLIPS))
