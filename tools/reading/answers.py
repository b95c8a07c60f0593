"""What a command may answer, by docs/use/statuses.md: which status, with which bytes, and how answers go together."""

import os
import re
import subprocess
from dataclasses import dataclass
from functools import lru_cache

from . import objects, snapshot
from .tokens import TOP

DONE, USAGE, REFUSED, BAD_OBJECT, BAD_JOURNAL, READ_FAULT, WRITE_FAULT, NO_MEMORY, TOO_LONG, BAD_NAME = range(10)
NO_WORDS = 10
READ, MEMORY = b"error read\n", b"error memory\n"
LIMITS = {"source": 1048576, "object": 16777216, "snapshot": 268435456, "journal": 67108864}
FILES = {"run": ("source", "journal"), "compile": ("source",), "exec": ("object", "journal"), "check": ("source",),
         "print": ("source",), "list": ("object",), "watch": ("object", "journal"), "save": ("object", "journal"),
         "resume": ("snapshot", "journal"), "bench": ()}
# So many names may stand behind the files of `watch`, and so many slots may be watched.
NAMES, SLOTS = 64, 1024
# A byte of a word that is no UTF-8.
NO_TEXT = re.compile("[\udc80-\udcff]")

NUMBER = r"(?:0|[1-9]\d*)"
KIND = r"(?:FIXED\(\d+\)|BIT\(\d+\)|CHAR\(\d+\)|CLOCK|DURATION)"
EVENT = (r"(?:start \w+ \d+|end \w+|stop \w+|trap \w+ (?:Overflow|ZeroDivide|Index|Range|Format|SemaLimit)|"
         r"kept \w+ [1-3]|overrun \w+|masked \d+|lost (?:terminal|input) \d+|out \d+ '[ -~]*'|send \d+ [ -~]+|"
         r"state \w+ (?:dormant|(?:suspended|blocked|running|runnable) \d+))")
EVENTS = rf"(?:{NUMBER} {EVENT}\n)*"
WATCHED = rf"({NUMBER}) ({NUMBER}) (?:value ([ -~]*? {NUMBER}) ([ -~]+)|close)\n"
VALUES = rf"(?:{NUMBER} {NUMBER} value [ -~]* {NUMBER} [ -~]+\n)*"
LISTED = (r"(?:(?:device|semaphore|leaf|format|procedure|task|\d+) [ -~]*\n)*")

# For each command and status the whole of what is written; the first group is a place, and the line of a journal.
SYNTAX = rf"error syntax ({NUMBER})\n"
RULE = rf"{SYNTAX}|error source ({NUMBER}) S[1-9]\d?\n"
OBJECT = rf"error object ({NUMBER})\n"
VALIDATOR = rf"{OBJECT}|error object routine {NUMBER} instruction {NUMBER} V[1-9]\d?\n"
SNAPSHOT = rf"error snapshot (?:({NUMBER})|state N[1-6])\n"
JOURNAL = r"error journal ([1-9]\d*) [1-4]\n"
LONG_SOURCE, LONG_OBJECT = "error too long 1048577\n", "error too long 16777217\n"
LONG_SNAPSHOT, LONG_JOURNAL = "error too long 268435457\n", "error too long 67108865\n"
FORMS = {
    ("run", DONE): rf"{EVENTS}{NUMBER} close\n", ("run", REFUSED): RULE, ("run", BAD_JOURNAL): EVENTS + JOURNAL,
    ("run", TOO_LONG): rf"{LONG_SOURCE}|{EVENTS}{LONG_JOURNAL}",
    ("exec", DONE): rf"{EVENTS}{NUMBER} close\n", ("exec", BAD_OBJECT): VALIDATOR, ("exec", BAD_JOURNAL): EVENTS + JOURNAL,
    ("exec", TOO_LONG): rf"{LONG_OBJECT}|{EVENTS}{LONG_JOURNAL}",
    ("watch", DONE): rf"{VALUES}{NUMBER} {NUMBER} close\n", ("watch", BAD_OBJECT): VALIDATOR,
    ("watch", BAD_JOURNAL): VALUES + JOURNAL, ("watch", BAD_NAME): r"error name ([1-9]\d?)\n",
    ("watch", TOO_LONG): rf"{LONG_OBJECT}|{VALUES}{LONG_JOURNAL}",
    ("compile", DONE): r"PRL[12][\x00-\xff]*", ("compile", REFUSED): RULE, ("compile", TOO_LONG): LONG_SOURCE,
    ("check", DONE): rf"accepted {NUMBER} {NUMBER} {NUMBER}\n", ("check", REFUSED): RULE, ("check", TOO_LONG): LONG_SOURCE,
    ("print", DONE): r"(?:[ -~]*\n)*MODEND ;\n", ("print", REFUSED): SYNTAX, ("print", TOO_LONG): LONG_SOURCE,
    ("save", DONE): r"PRS1[\x00-\xff]*", ("save", BAD_OBJECT): VALIDATOR, ("save", BAD_JOURNAL): JOURNAL,
    ("save", TOO_LONG): rf"{LONG_OBJECT}|{LONG_JOURNAL}",
    ("resume", DONE): rf"{EVENTS}{NUMBER} close\n", ("resume", BAD_OBJECT): SNAPSHOT, ("resume", BAD_JOURNAL): EVENTS + JOURNAL,
    ("resume", TOO_LONG): rf"{LONG_SNAPSHOT}|{EVENTS}{LONG_JOURNAL}",
    ("list", DONE): LISTED, ("list", BAD_OBJECT): OBJECT, ("list", TOO_LONG): LONG_OBJECT,
    ("bench", DONE): rf"bench {NUMBER} starts {NUMBER} ends {NUMBER} overruns {NUMBER}\n",
}


@dataclass(frozen=True)
class Answer:
    """How a command ended, what it wrote, and what came on standard error; the status is None where it didn't end."""

    status: int
    out: bytes
    told: bytes = b""

    def shown(self):
        """The answer in a line."""
        return f"status {self.status} with {len(self.out)} bytes ending in {self.out[-60:]!r}"


def is_command(words):
    """Whether the words are one of the commands."""
    if words[:1] == ["bench"]:
        return len(words) == 2 and bool(re.fullmatch(r"[1-9]\d?|100", words[1], re.A))
    if not words or words[0] not in FILES:
        return False
    names = len(words) - 1 - len(FILES[words[0]])
    return 1 <= names <= NAMES if words[0] == "watch" else names == 0


def has_journal(words):
    """Whether the words are a command that carries a journal out."""
    return is_command(words) and FILES[words[0]][1:] == ("journal",)


def leaves(listing):
    """How many slots the leaves have that are watched by their names, by what `list` writes of the object."""
    found = {}
    for name, slots in re.findall(rb"^leaf \d+ ([ -~]*) \S+ (\d+)$", listing, re.M):
        found.setdefault(name.decode(), int(slots))
    return found


def refused_name(slots, names):
    """The number of the first of these names that can't be watched, or None; slots are those of the leaves."""
    watched = 0
    for place, name in enumerate(names):
        watched += slots.get(name, SLOTS + 1)
        if watched > SLOTS or name in names[:place]:
            return place + 1
    return None


def length_of(path):
    """How many bytes the file has, or none where it can't be read."""
    try:
        with open(path, "rb") as file:
            return file.seek(0, 2)
    except OSError:
        return None


def wrong_place(found, length):
    """Whether a place that is told lies behind the file's end."""
    places = [int(it) for it in found.groups() if it]
    return length is not None and any(place > length for place in places)


def is_too_long(words):
    """Whether a file passes its limit, or can't be told."""
    lengths = {sort: length_of(path) for sort, path in zip(FILES[words[0]], words[1:])}
    return any(length is not None and length > LIMITS[sort] for sort, length in lengths.items())


@lru_cache(8)
def matched(form, out):
    """How all that was written is of this form, or None. The last ones are kept, since commands often write the same."""
    return re.fullmatch(form, out.decode("latin-1"), re.A)


def unlawful(words, answer):
    """Why these words can't have this answer where nothing outside fails and memory is there, or None."""
    if answer.status is None:
        return "it didn't end in time"
    if answer.status < 0:
        return f"it was ended by signal {-answer.status}"
    if answer.told:
        return f"standard error has {answer.told[:80]!r}"
    if any(map(NO_TEXT.search, words)):
        return None if (answer.status, answer.out) == (NO_WORDS, b"") else f"words that aren't UTF-8 have {answer.shown()}"
    if not is_command(words):
        right = (answer.status, answer.out) == (USAGE, b"error usage\n")
        return None if right else f"words that are no command have {answer.shown()}"
    files = words[1:1 + len(FILES[words[0]])]
    if answer.status == READ_FAULT and any(length_of(path) is None for path in files):
        before = {"watch": VALUES, "save": ""}.get(words[0], EVENTS)
        return None if matched(rf"{before}error read\n", answer.out) else "`error read` isn't all"
    form = FORMS.get((words[0], answer.status))
    if form is None:
        return f"{words[0]} has status {answer.status}"
    found = matched(form, answer.out)
    if not found:
        return f"{words[0]} has {answer.shown()}"
    if answer.status == TOO_LONG and not is_too_long(words):
        return "no file passes its limit"
    if answer.status in (REFUSED, BAD_OBJECT) and wrong_place(found, length_of(words[1])):
        return "the place lies behind the file's end"
    if answer.status == BAD_NAME and int(found[1]) > len(words) - 3:
        return "there is no name of that number"
    return told_twice(answer.out) if words[0] == "watch" else None


def told_twice(out):
    """Why these can't be lines of a monitor, or None: marks and moments only rise, and a slot's lines have other values."""
    before, values = (0, 0), {}
    for marks, moment, slot, value in re.findall(WATCHED, out.decode("latin-1"), re.A):
        here = int(marks), int(moment)
        if here < before or here[1] < before[1]:
            return f"{marks} {moment} stands behind {before[0]} {before[1]}"
        if slot and values.get(slot) == value:
            return f"{slot} is told to be {value} twice"
        before, values[slot] = here, value
    return None


def refusal(answer):
    """The status and the line of a refusal, else the status alone."""
    return answer.status, answer.out if answer.status in (REFUSED, BAD_OBJECT, TOO_LONG) else b""


def disagreement(answers):
    """Why the answers of several commands over the same file can't be, or None; by the name of the command."""
    check, printed, compiled = (answers.get(it) for it in ("check", "print", "compile"))
    if check and compiled and refusal(check) != refusal(compiled):
        return f"check has {check.shown()}, compile {compiled.shown()}"
    if check and printed and check.out.startswith(b"error syntax") != (printed.status == REFUSED):
        return f"check has {check.shown()}, print {printed.shown()}"
    if check and printed and printed.status == REFUSED and check.out != printed.out:
        return f"check has {check.shown()}, print {printed.shown()}"
    runs = answers.get("run"), answers.get("exec")
    if all(runs) and runs[0] != runs[1] and check and check.status == DONE:
        return f"run has {runs[0].shown()}, exec of the object {runs[1].shown()}"
    if runs[0] and check and check.status != DONE and refusal(runs[0]) != refusal(check):
        return f"check has {check.shown()}, run {runs[0].shown()}"
    watched, saved = answers.get("watch"), answers.get("save")
    if runs[1] and watched and not end_alike(runs[1], watched):
        return f"exec has {runs[1].shown()}, watch {watched.shown()}"
    ends = [(it.status, it.status and last_line(it)) for it in (runs[1], saved) if it]
    if runs[1] and saved and ends[0] != ends[1]:
        return f"exec has {runs[1].shown()}, save {saved.shown()}"
    return None


def last_line(answer):
    return b"".join(answer.out.splitlines(keepends=True)[-1:])


def gone_on(whole, first, closing, rest, lines):
    """Why a run doesn't go on from its snapshot as it should, or None: over both journals and over the first one the object
    is run so, and from the snapshot over nothing and over the second one; the first journal has so many lines."""
    out = rest.out
    if rest.status == BAD_JOURNAL:
        out = re.sub(rb"(?<=^error journal )\d+", lambda found: b"%d" % (int(found[0]) + lines), out, flags=re.M)
    if closing.status != DONE or not first.out.endswith(closing.out):
        return f"exec has {first.shown()}, resume of its snapshot {closing.shown()}"
    if (rest.status, first.out.removesuffix(closing.out) + out) != (whole.status, whole.out):
        return f"exec has {whole.shown()}, resume in its midst {rest.shown()}"
    return None


def end_alike(run, watched):
    """Whether a run and a monitor may end so over the same object and journal: with the same status and the same last
    line, but for the marks before the monitor's, or the names are refused, of an object that isn't."""
    if watched.status == BAD_NAME:
        return run.status != BAD_OBJECT
    last, told = (answer.out.splitlines()[-1:] for answer in (run, watched))
    marks = rb"\d+ " if run.status == DONE else b""
    return run.status == watched.status and bool(last and told and re.fullmatch(marks + re.escape(last[0]), told[0]))


def asked(command, seconds, variables=None, folder=None):
    """The answer of a program that is run with these words, in so many seconds at most."""
    try:
        done = subprocess.run(command, stdin=subprocess.DEVNULL, stdout=subprocess.PIPE, stderr=subprocess.PIPE,
                              timeout=seconds, env=variables, cwd=folder, check=False)
    except subprocess.TimeoutExpired as late:
        return Answer(None, late.stdout or b"", late.stderr or b"")
    return Answer(done.returncode, done.stdout, done.stderr)


def by_try(cases, flags, words=()):
    """The answers of the program's text, by the names of the files of a folder: `rt try` builds it once and runs it with
    these words and those of NAME.args, each `{}` being the file; or nothing where the kit hasn't one of the flags."""
    done = subprocess.run(["rt", "try", *flags, "--cases", cases, "--", *words], cwd=os.path.join(TOP, "crates", "pearl"),
                          stdin=subprocess.DEVNULL, stdout=subprocess.PIPE, stderr=subprocess.PIPE, check=False)
    if b"this kit is older" in done.stderr:
        return None
    parts = re.split(rb"^== (\w+)\n", done.stdout, flags=re.M)
    outs = dict(zip(parts[1::2], parts[2::2]))
    ends = dict(re.findall(rb"^case=(\w+) run=ended status=(\d+)", done.stderr, re.M))
    return {name.decode(): Answer(int(status), without_end(outs.get(name, b""))) for name, status in ends.items()}


def without_end(out):
    """What a try wrote: the kit puts a line end behind an object or a snapshot, which is none of its bytes."""
    for reader in (objects.parsed, snapshot.parsed):
        try:
            reader(out[:-1])
            return out[:-1]
        except objects.Unread:
            continue
    return out
