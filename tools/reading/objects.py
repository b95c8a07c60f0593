"""The bytes of objects, as docs/use/object-format.md spells them: devices, semaphores, leaves, formats and code."""

from dataclasses import dataclass

SORTS = ("INTERRUPT", "TERMINAL", "INPUT", "OUTPUT")
DIRECTIONS = {1: "IN", 2: "OUT", 3: "INOUT"}
ITEMS = ("A", "B1", "B2", "B3", "B4", "F", "T", "D", "X", "SKIP")
KINDS = ("FIXED", "BIT", "CHAR", "CLOCK", "DURATION")
REFERENCE = "REF"

# Each instruction by its opcode, and how its operands are spelled: n a number, N a list of numbers, b a byte, k a kind,
# L a literal, P a list of pairs of signed numbers, s a start.
INSTRUCTIONS = [row.split() for row in (
    "Const L|Load n|Store n|Fill nnk|Drop|Conv k|Index P|LoadAt nn|StoreAt nn|Read n|Write n|ReadAt n|WriteAt n|RefSlot n|"
    "RefSlotAt n|RefCell n|RefCellAt nn|ReadRef|WriteRef|Jump n|JumpZero n|Case N|Turn|Call n|Return|End|Trap b|Within n|"
    "Advance nn|NonZero|Plus|Minus|Abs|Sign|Not|Pow|Mul|Div|Rem|Cat|Add|Sub|Cshift|Shift|Lt|Gt|Le|Ge|Eq|Ne|And|Or|Exor|Now|"
    "Request N|Release N|Try n|Activate nsbb|Continue ns|Resume s|Suspend n|Terminate n|Prevent n|SuspendOwn|TerminateOwn|"
    "PreventOwn|Enable n|Disable n|Trigger n|Put nn|Get nnn|Take n|Send n").split("|")]


class Unread(Exception):
    """The bytes are none of these; the place at which that is seen."""

    def __init__(self, place):
        super().__init__(f"byte {place}")
        self.place = place


@dataclass
class Device:
    """A device: its sort and number, and the direction of a terminal or the kind of values."""

    sort: str
    number: int
    use: object = None


@dataclass
class Leaf:
    """A part of the module's variables that has one kind."""

    name: str
    kind: tuple
    slots: int


@dataclass
class Routine:
    """A procedure or a task: the kinds of its cells and its instructions, each a name and operands."""

    name: str
    cells: list
    code: list
    parameters: int = 0
    priority: int = 0
    main: bool = False


@dataclass
class Object:
    """A compiled plant."""

    devices: list
    presets: list
    leaves: list
    formats: list
    procedures: list
    tasks: list

    def routines(self):
        return self.procedures + self.tasks

    def of_sort(self, sort):
        return [it for it in self.devices if it.sort == sort]


class Reader:
    """Reads fields, from the first byte on; raises Unread."""

    def __init__(self, raw):
        self.raw, self.at = raw, 0

    def bytes(self, count):
        if self.at + count > len(self.raw):
            raise Unread(len(self.raw))
        self.at += count
        return self.raw[self.at - count:self.at]

    def byte(self, most=255):
        """A byte that is no greater than this."""
        found = self.bytes(1)[0]
        if found > most:
            raise Unread(self.at - 1)
        return found

    def number(self):
        begin, found, shift = self.at, 0, 0
        while True:
            byte = self.byte()
            found |= (byte & 127) << shift
            shift += 7
            if byte < 128:
                break
        if found >= 2**64 or byte == 0 and self.at - begin > 1:
            raise Unread(begin)
        return found

    def signed(self):
        found = self.number()
        return found // 2 if found % 2 == 0 else -(found // 2) - 1

    def many(self, part):
        """A list: its length, and then its members."""
        return [part() for _ in range(self.number())]

    def text(self):
        """A list of bytes, one character for each."""
        return self.bytes(self.number()).decode("latin-1")

    def begins(self, word):
        if self.raw[:len(word)] != word:
            raise Unread(0)
        self.at = len(word)

    def ends(self):
        if self.at < len(self.raw):
            raise Unread(self.at)

    def kind(self):
        sort = KINDS[self.byte(4)]
        return sort, self.byte() if sort in ("FIXED", "BIT", "CHAR") else 0

    def cell_kind(self):
        if self.raw[self.at:self.at + 1] == b"\5":
            self.at += 1
            return (REFERENCE, self.kind())
        return self.kind()

    def literal(self):
        """A kind and a value: of BIT its digits, of CHAR its text, else a number."""
        sort, length = kind = self.kind()
        if sort == "BIT":
            return kind, f"{self.number():0{length}b}"
        if sort == "CHAR":
            return kind, self.bytes(length).decode("latin-1")
        return kind, self.number() if sort == "CLOCK" else self.signed()

    def pair(self):
        return self.signed(), self.signed()

    # The parts of an object.

    def device(self):
        sort, number = SORTS[self.byte(3)], self.byte(99)
        use = DIRECTIONS.get(self.byte(3)) if sort == "TERMINAL" else self.kind() if sort in ("INPUT", "OUTPUT") else None
        return Device(sort, number, use)

    def leaf(self):
        name, kind, slots = self.text(), self.kind(), self.number()
        self.many(self.literal)
        return Leaf(name, kind, slots)

    def item(self):
        return ITEMS[self.byte(9)], self.byte()

    def procedure(self):
        parameters = self.number()
        if self.byte(1):
            self.kind()
        return Routine("", *self.code(), parameters=parameters)

    def task(self):
        name, priority, main = self.text(), self.number(), self.byte(1) == 1
        return Routine(name, *self.code(), priority=priority, main=main)

    def code(self):
        """The kinds of the cells, and the instructions; the depth and the stated shapes aren't kept."""
        cells = self.many(self.cell_kind)
        self.number()
        instructions = self.many(self.instruction)
        self.many(lambda: (self.number(), self.many(self.cell_kind)))
        return cells, instructions

    def instruction(self):
        name, *forms = INSTRUCTIONS[self.byte(len(INSTRUCTIONS) - 1)]
        return (name, *(self.operand(form) for form in "".join(forms)))

    def operand(self, form):
        parts = {"n": self.number, "N": lambda: self.many(self.number), "b": self.byte, "k": self.kind, "L": self.literal,
                 "P": lambda: self.many(self.pair), "s": self.start}
        return parts[form]()

    def start(self):
        form = self.byte(4)
        return (form, self.number()) if form >= 3 else (form,)

    def object(self):
        self.begins(b"PRL1")
        lists = [self.many(part) for part in (self.device, self.number, self.leaf, lambda: self.many(self.item),
                                              self.procedure, self.task)]
        self.ends()
        return Object(*lists)


def parsed(raw):
    """The object of these bytes; raises Unread."""
    return Reader(raw).object()
