"""Places of bytes as people see them: lines, columns and a caret below."""

import re
import unicodedata
from bisect import bisect_left, bisect_right
from functools import cached_property

# A longer line is shown in part.
LONG = 200
# What is told where a file begins with the mark of its encoding.
MARK = "\xef\xbb\xbf"
MARKED = "here stand the bytes EF BB BF, a mark that some editors put before a text: save it without (UTF-8 without BOM)"


def decoded(line):
    """A line as characters: as UTF-8, or else a character for each byte."""
    try:
        return line.decode("utf-8")
    except UnicodeDecodeError:
        return line.decode("latin-1")


def character(text, at):
    """The character whose first byte stands at this place of a text with a character for each byte."""
    raw = text[at:at + 4].encode("latin-1")
    for length in range(1, 5):
        try:
            char = raw[:length].decode("utf-8")
        except UnicodeDecodeError:
            continue
        return f"`{char}`" if char.isprintable() else f"the byte {raw[0]}"
    return f"the byte {raw[0]}"


def columns(char):
    """How many columns of a screen a character takes."""
    if unicodedata.combining(char) or unicodedata.category(char) in ("Mn", "Me", "Cf"):
        return 0
    return 2 if unicodedata.east_asian_width(char) in "WF" else 1


class Line:
    """A line of a file: its bytes with and without their end, and its characters."""

    def __init__(self, raw, end=b""):
        self.raw, self.ended, self.text = raw, raw + end, decoded(raw)

    @cached_property
    def begins(self):
        """Where characters begin as far as the line is UTF-8, and where it no longer is."""
        try:
            self.ended.decode("utf-8")
            end = len(self.ended)
        except UnicodeDecodeError as error:
            end = error.start
        return [*(at for at, byte in enumerate(self.ended[:end]) if byte & 0xC0 != 0x80), end]

    def column(self, place):
        """The column of the byte at this place of the line, counted from 1, in characters."""
        if self.ended.isascii():
            return place + 1
        before = bisect_left(self.begins, place)
        return (before if place in self.begins[before:before + 1] else place) + 1


class Lines:
    """The lines of a file, found by the places of their bytes."""

    def __init__(self, raw):
        self.raw = raw
        self.starts = [0, *(it.end() for it in re.finditer(b"\n", raw))]
        self.last = None, None

    def row(self, place):
        """The number of the line in which a byte stands, counted from 1."""
        return bisect_right(self.starts, place)

    def position(self, place):
        """The line and the column of a byte, counted from 1, the column in characters; and the line."""
        row = self.row(place)
        if self.last[0] != row:
            end = self.starts[row] if row < len(self.starts) else len(self.raw)
            ended = self.raw[self.starts[row - 1]:end]
            raw = ended.rstrip(b"\r\n")
            self.last = row, Line(raw, ended[len(raw):])
        line = self.last[1]
        return row, line.column(place - self.starts[row - 1]), line


def margin(text):
    """What stands before the caret below this text: a tab for each tab, else blanks."""
    if text.isascii():
        return re.sub(r"[^\t]", " ", text)
    return "".join("\t" if char == "\t" else " " * columns(char) for char in text)


def shown(line, column):
    """A line, and below it the caret at a column, as bytes; of a long line what is near to the column."""
    if len(line.text) <= LONG:
        return line.raw + b"\n" + margin(line.text[:column - 1]).encode("ascii") + b"^\n"
    begin = max(0, column - 1 - LONG // 2)
    near = line.text[begin:begin + LONG]
    return near.encode("utf-8") + b"\n" + margin(near[:column - 1 - begin]).encode("ascii") + b"^\n"
