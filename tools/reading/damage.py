"""Random and damaged files for the program: sources, objects, journals and words, each made of a seed."""

import re
from functools import lru_cache

from .objects import Reader

TOKEN = re.compile(rb"[A-Za-z]\w*|\d+(?:\.\d+)?|'[^'\n]*'|:=|/=|<=|>=|//|\*\*|<>|[ \t\r\n]+|.", re.S)
TIMES = re.compile(rb"^([ \t]*(?:run|tick|pass)[ \t]+)(\d+)([ \t]+(\d+))?", re.M)
EDGES = [0, 1, 2, 63, 64, 99, 100, 127, 128, 255, 256, 1024, 32767, 65535, 65536, 65537, 2**31 - 1, 2**31, 2**40, 2**40 + 1,
         2**63 - 1, 2**63, 2**64]
LETTERS = b" \t\n\r'()[];:,.+-*/=<>#_0123456789ABCDEFGHIJKLMNOPQRSTUVWXYZabcdefghijklmnopqrstuvwxyz"
# What a `run`, `tick` or `pass` may cost, so that each run ends soon; the whole of a journal is kept below ten times that.
MOST = 20000
MOST_LINES = 400
WORDS = ["run", "compile", "exec", "check", "print", "list", "bench", "watch", "save", "resume", "link", "help", "--help",
         "-", "", "0", "1", "5", "05", "100", "101", "-1", "Run", "run ", "\t", "x" * 300, "\u00e4", "\udcff"]
# What an instruction, a kind or a list may begin with, and longer spellings of numbers.
BYTES = [bytes([it]) for it in (0, 1, 2, 3, 4, 5, 6, 31, 63, 64, 72, 73, 127, 128, 255)] + [
    b"\x80\x00", b"\x80\x01", b"\xff\x01", b"\xff\xff\x03", b"\xff\xff\xff\xff\x0f", b"\xff" * 9 + b"\x01", b"\x80" * 12]


def noise(dice, most=300):
    """Bytes without a meaning: any, or those that sources and journals have."""
    alphabet = dice.choice([range(256), LETTERS, range(32, 127), b"\x00\x01\x80\xff"])
    return bytes(dice.choice(alphabet) for _ in range(dice.choice([0, 1, 2, 3, 8, 40, most])))


def span(dice, length, most=40):
    """A place and one behind it."""
    begin = dice.randrange(length + 1)
    return begin, min(length, begin + dice.randrange(1, most + 1))


def by_bytes(dice, data, other):
    """One change of some bytes; other is a file of the same sort."""
    begin, end = span(dice, len(data))
    front, part, back = data[:begin], data[begin:end], data[end:]
    change = dice.randrange(8)
    if change == 0 and part:
        return front + bytes([part[0] ^ 1 << dice.randrange(8)]) + part[1:] + back
    if change == 1 and part:
        return front + dice.choice(BYTES) + part[1:] + back
    if change == 2:
        return front + dice.choice(BYTES) + part + back
    if change == 3:
        return front + back
    if change == 4:
        return front + part * dice.choice([2, 2, 2, 40]) + back
    if change == 5:
        at, to = span(dice, len(other), 200)
        return front + other[at:to] + back
    if change == 6:
        return front + noise(dice, 20) + back
    return front if dice.randrange(4) else front + part


def number(dice):
    return str(dice.choice(EDGES) + dice.choice([0, 0, 0, 1, -1])).encode()


def by_parts(dice, parts, others):
    """One change of some parts, which stand in a list; others are parts of files of the same sort."""
    begin, end = span(dice, len(parts), 12)
    front, part, back = parts[:begin], parts[begin:end], parts[end:]
    change = dice.randrange(7)
    if change == 0 and part:
        return front + [dice.choice(others)] + part[1:] + back
    if change == 1:
        return front + [dice.choice(others)] + part + back
    if change == 2:
        return front + part[1:] + back
    if change == 3:
        return front + part * 2 + back
    if change == 4:
        at, to = span(dice, len(others), 12)
        return front + others[at:to] + back
    if change == 5 and len(back) > 1:
        at = dice.randrange(len(back))
        return front + back[at:at + 1] + part[1:] + back[:at] + part[:1] + back[at + 1:]
    return [number(dice) if it.isdigit() and not dice.randrange(6) else it for it in parts]


@lru_cache(64)
def tokens(data):
    return TOKEN.findall(data)


@lru_cache(64)
def no_blanks(data):
    """The tokens that aren't blanks."""
    return [it for it in tokens(data) if it.strip()]


def lines(data):
    return data.splitlines(keepends=True)


def source(dice, data, other):
    """A damaged source, tokens of another one without order, or noise."""
    sort = dice.randrange(12)
    if sort == 0:
        return noise(dice)
    pool = no_blanks(other)
    if sort == 1:
        return b" ".join(dice.choice(pool) for _ in range(dice.randrange(60)))
    for _ in range(dice.choice([1, 1, 1, 2, 3, 8])):
        data = by_bytes(dice, data, other) if sort < 4 else b"".join(by_parts(dice, tokens(data), pool))
    return data


def made(dice, data, other):
    """A damaged object, or its front with noise."""
    if not dice.randrange(12):
        return dice.choice([b"", b"PRL1", b"PRL2", data[:dice.randrange(40)]]) + noise(dice)
    for _ in range(dice.choice([1, 1, 1, 1, 2, 4])):
        data = by_bytes(dice, data, other)
    return data


def snapshot(dice, data, other):
    """A damaged snapshot, or its front with noise: mostly what stands behind the object is damaged."""
    if not dice.randrange(12):
        return dice.choice([b"", b"PRS1", b"PRS1\n", data[:dice.randrange(40)]]) + noise(dice)
    begin = object_end(data) if dice.randrange(5) else 0
    front, state, other = data[:begin], data[begin:], other[object_end(other):]
    for _ in range(dice.choice([1, 1, 1, 1, 2, 4])):
        state = by_bytes(dice, state, other)
    return front + state


def object_end(data):
    """Where the object of a snapshot ends."""
    reader = Reader(data)
    reader.begins(b"PRS1")
    return reader.number() + reader.at


def bounded(data):
    """The journal with fewer lines and smaller numbers, where these let a run take long: its `run`, `tick` and `pass`."""
    spent = 0

    def smaller(digits, most):
        count = int(digits[:30])
        return digits if count <= most or count >= 2**63 else str(count % most + 1).encode()

    def cut(found):
        nonlocal spent
        head, first, _, second = found.groups()
        most = max(1, min(MOST, 10 * MOST - spent))
        first = smaller(first, most)
        count = int(first[:30])
        picks = smaller(second, max(1, most // max(1, min(count, most)))) if second else b""
        spent += min(count, most) * max(1, min(int(picks or b"1"), most))
        return head + first + (b" " + picks if picks else b"")

    return TIMES.sub(cut, b"".join(lines(data)[:MOST_LINES]))


def journal(dice, data, other):
    """A damaged journal, or noise."""
    sort = dice.randrange(12)
    if sort == 0:
        return bounded(noise(dice))
    for _ in range(dice.choice([1, 1, 2, 4])):
        if sort < 4:
            data = by_bytes(dice, data, other)
        elif sort < 8:
            data = b"".join(by_parts(dice, lines(data), lines(other) or [b"\n"]))
        else:
            data = b"".join(by_parts(dice, tokens(data), no_blanks(other) or [b"1"]))
    return bounded(data)


def parted(dice, data):
    """A journal in two parts, the first of which ends with a line end: at a line, or within a `run`, `tick` or `pass`; and how
    many of its lines are before the second part's first one."""
    parts = re.findall(rb"[^\n]*\n", data if data[-1:] == b"\n" else data + b"\n")
    at = dice.randrange(len(parts) + 1)
    before, after = parts[:at], parts[at:]
    found = re.fullmatch(rb"(run|tick|pass) (\d{1,9})( \d+)?\r?\n", after[0]) if after else None
    if found and dice.randrange(2):
        word, count, picks = found[1], int(found[2]), found[3] or b""
        begun = dice.randrange(count + 1)
        one, other = (b"%s %d%s\n" % (word, part, picks) for part in (begun, count - begun))
        before, after = before + [one], [other] + after[1:]
    return b"".join(before), b"".join(after), at


def words(dice, paths):
    """Words, some of which are commands over files that are there or not."""
    given = [dice.choice([*WORDS, *paths]) for _ in range(dice.choice([0, 1, 1, 2, 2, 3, 3, 4, 30]))]
    if given and dice.randrange(2):
        given[0] = dice.choice(WORDS[:8])
    return given


def names(dice, leaves):
    """Names to be watched: of leaves, and sometimes others, or one twice, or more than there may be."""
    others = [word for word in WORDS if word.isprintable()]
    given = [dice.choice([*leaves, *others]) if not dice.randrange(9) else dice.choice(leaves or others)
             for _ in range(dice.choice([1, 1, 2, 3, 5, 8]))]
    if dice.randrange(4):
        given = list(dict.fromkeys(given))
    return given * 40 if not dice.randrange(40) else given
