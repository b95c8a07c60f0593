"""Tables of what came in or went out: a CSV with a row for each value, or a day sheet with a column for each device.

The first column is the time. A header of three columns whose last two are called device and value makes a row for each
value; else each further column is headed by a device's name, and an empty cell is nothing.
"""

import csv
import re
from dataclasses import dataclass
from datetime import date
from decimal import Decimal, InvalidOperation

from . import journal

DAY = 86_400_000
TIME = re.compile(r"(?:(\d{4})-(\d\d)-(\d\d)[ T])?(\d{1,2}):(\d\d)(?::(\d\d)(?:[.,](\d{1,3}))?)?", re.A)
ON, OFF = {"1", "on", "true", "yes", "ein", "x"}, {"0", "off", "false", "no", "aus"}


class Wrong(Exception):
    """A cell that can't be used, and why."""


@dataclass
class Value:
    """A cell: the line of its row, its moment in milliseconds, its device, and what stands in it."""

    line: int
    moment: int
    sort: str
    number: int
    spec: object
    text: str


def time_text(milliseconds):
    """A time of day as a journal has it."""
    seconds, rest = divmod(milliseconds % DAY, 1000)
    said = f"{seconds // 3600:02}:{seconds // 60 % 60:02}:{seconds % 60:02}"
    return f"{said}.{rest:03}" if rest else said


def days(year, month, day):
    """The number of a day of the calendar."""
    try:
        return date(int(year), int(month), int(day)).toordinal()
    except ValueError as error:
        raise Wrong(f"{year}-{month}-{day} is no day: {error}") from error


def time_of(cell):
    """A time as milliseconds since the start; or the day, or None, and the time of day."""
    if re.fullmatch(r"\d+", cell, re.A):
        return int(cell), None, None
    found = TIME.fullmatch(cell)
    if not found:
        raise Wrong(f"`{cell}` is no time: milliseconds since the start, or a time of day as 14:30:05.250")
    hours, minutes, seconds = int(found[4]), int(found[5]), int(found[6] or 0)
    if hours > 23 or minutes > 59 or seconds > 59:
        raise Wrong(f"{cell} is no time of day")
    clock = ((hours * 60 + minutes) * 60 + seconds) * 1000 + int((found[7] or "").ljust(3, "0"))
    return None, days(*found.groups()[:3]) if found[1] else None, clock


def number(cell, scale, rounding):
    """A decimal times the scale, as a whole number."""
    try:
        product = Decimal(cell.replace(",", ".").replace(" ", "")) * scale
    except InvalidOperation as error:
        raise Wrong(f"`{cell}` is no number") from error
    if product != product.to_integral_value() and not rounding:
        hint = f"{cell} times {scale} isn't whole" if scale != 1 else f"{cell} isn't whole"
        raise Wrong(f"{hint}: give a scale, as --scale NAME=10, or --round")
    return int(product.to_integral_value(rounding="ROUND_HALF_EVEN"))


def quoted(text):
    for char in text:
        if not 32 <= ord(char) <= 126:
            raise Wrong(f"a text has characters from 32 to 126 alone, and `{char}` is none of them")
    return "'" + text.replace("'", "''") + "'"


def literal(value, scale=Decimal(1), rounding=False):
    """The literal of a cell for a device's kind."""
    sort, cell = value.spec.kind[0], value.text
    if sort == "FIXED":
        said = str(number(cell, scale, rounding))
    elif sort == "BIT":
        said = bits(cell)
    elif sort == "CHAR":
        said = cell if cell.startswith("'") else quoted(cell)
    elif sort == "CLOCK":
        _, _, clock = time_of(cell)
        said = time_text(clock) if clock is not None else cell
    else:
        said = cell if "SEC" in cell or "MIN" in cell or "HRS" in cell else span(number(cell, scale * 1000, rounding))
    try:
        read, kind = journal.literal(said, 0)
    except journal.Bad as fault:
        raise Wrong(fault.why) from fault
    why = journal.unsuited(read, kind, value.spec)
    if why:
        raise Wrong(f"{why} (the cell is {cell})" if said != cell else why)
    return said


def bits(cell):
    if cell.startswith("'"):
        return cell
    if cell.lower() in ON | OFF:
        return "'1'B" if cell.lower() in ON else "'0'B"
    if re.fullmatch("[01]+", cell):
        return f"'{cell}'B"
    raise Wrong(f"`{cell}` is no bits: digits 0 and 1, on or off, or as in a journal")


def span(milliseconds):
    """A length of time as a journal has it."""
    sign = "-" if milliseconds < 0 else ""
    return f"{sign}{abs(milliseconds) // 1000}.{abs(milliseconds) % 1000:03} SEC"


def sent(literal_text, kind):
    """A literal as a transcript tells it behind `send`, for the kind of an output."""
    value, _ = journal.literal(literal_text, 0)
    return told(value, kind)


def told(value, kind):
    """A value of a kind as a transcript tells it: of BIT its digits, of CHAR its text, else a number."""
    sort, length = kind
    if sort == "BIT":
        return f"'{value.ljust(length, '0')}'B"
    if sort == "CHAR":
        return quoted(value.ljust(length))
    if sort == "CLOCK":
        return time_text(value)
    if sort == "DURATION":
        sign, size = "-" if value < 0 else "", abs(value)
        return f"{sign}{size // 3_600_000} HRS {size // 60_000 % 60:02} MIN {size // 1000 % 60:02}.{size % 1000:03} SEC"
    return str(value)


class Table:
    """The cells of a table, in the order of their rows; faults are kept with their lines."""

    def __init__(self, raw, plant, sorts, start=None):
        self.faults, self.values, self.start, self.named = [], [], start, start is not None
        self.devices = self.known(plant, sorts)
        self.day, self.before = None, 0
        try:
            text = raw.decode("utf-8-sig")
        except UnicodeDecodeError:
            text = raw.decode("latin-1")
        head = text.split("\n", 1)[0]
        mark = max(";\t,", key=head.count)
        reader = csv.reader(text.splitlines(), delimiter=mark)
        header = [cell.strip() for cell in next(reader, [])]
        if len(header) < 2:
            self.faults.append((1, "the header has the time, and then a column for each device, or device and value"))
        long = [it.lower() for it in header[1:]] in (["device", "value"], ["ger\u00e4t", "wert"], ["geraet", "wert"])
        columns = [] if long else [self.device(1, name) for name in header[1:]]
        for cells in reader:
            cells = [cell.strip() for cell in cells]
            if any(cells) and not cells[0].startswith("#"):
                self.row(reader.line_num, cells, columns, long)

    @staticmethod
    def known(plant, sorts):
        """The devices of these sorts by name, and also by word and number."""
        found = {}
        for sort in sorts:
            for at, spec in getattr(plant, sort + "s").items():
                found[spec.name] = found[f"{sort.upper()}({at})"] = (sort, at, spec)
        return found

    def device(self, line, name):
        """The device of this name, or None and a fault."""
        if name not in self.devices:
            names = ", ".join(it for it in self.devices if "(" not in it) or "none"
            self.faults.append((line, f"no device is called `{name}`; there: {names}"))
        return self.devices.get(name)

    def row(self, line, cells, columns, long):
        try:
            moment = self.moment(cells[0])
        except Wrong as fault:
            self.faults.append((line, str(fault)))
            return
        if long:
            device = self.device(line, cells[1] if len(cells) > 1 else "")
            pairs = [(device, cells[2] if len(cells) > 2 else "")]
        else:
            pairs = [pair for pair in zip(columns, cells[1:]) if pair[1]]
            if any(cells[1 + len(columns):]):
                self.faults.append((line, "the row has more cells than the header"))
        self.values += [Value(line, moment, *device, cell) for device, cell in pairs if device]

    def moment(self, cell):
        """The milliseconds from the start on; what is more than half a day before the row above is the next day's."""
        moment, day, clock = time_of(cell)
        if moment is None:
            if self.start is None:
                self.start = clock
            moment = clock - self.start
            if day is not None:
                self.day = self.day if self.day is not None else day
                moment += (day - self.day) * DAY
            else:
                moment += -(-(self.before - DAY // 2 - moment) // DAY) * DAY if moment < self.before - DAY // 2 else 0
        if moment < self.before:
            raise Wrong(f"the time {cell} is before {'that of a row above' if self.before else 'the start'}")
        self.before = moment
        return moment
