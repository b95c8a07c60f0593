"""Objects and journals for tools/costs.py: of each opcode an object that is filled with it, of each line a journal.

An object has one task, one procedure, a device of each sort, a semaphore, a leaf of eight slots and a format; its code is
one opcode again and again, with what has to stand before and behind it (docs/use/object-format.md). All these are valid.
What is dear without instructions comes behind them.
"""

from typing import Callable, NamedTuple


class Form(NamedTuple):
    """A file by how much there is of something, its bounds in MB (10^6 bytes) and seconds, and the status of its runs."""

    name: str
    text: Callable
    megabytes: float
    seconds: float
    status: int = 0


FIXED, BIT, CHAR = b"\x00\x1f", b"\x01\x01", b"\x02\x01"
ONE, TRUE, TEXT, SPAN = b"\x00" + FIXED + b"\x02", b"\x00" + BIT + b"\x01", b"\x00" + CHAR + b"x", b"\x00\x04\x00"
DROP, SLOT, OF_THREE, OF_EIGHT = b"\x04", b"\x0d\x00", ONE + b"\x06\x01\x02\x06", ONE + b"\x06\x01\x02\x10"
# How many instructions stand in what comes before an opcode.
PARTS = {b"": 0, ONE: 1, TRUE: 1, TEXT: 1, SPAN: 1, SLOT: 1, OF_THREE: 2, OF_EIGHT: 2, DROP: 1}


def number(value):
    """A number, seven bits a byte, the lowest first."""
    spelled = b""
    while value > 127:
        spelled += bytes([value & 127 | 128])
        value >>= 7
    return spelled + bytes([value])


def unit(before, opcode, behind=b""):
    """Parts, an opcode with its operands, and perhaps a Drop: the bytes, and how many instructions they are."""
    return b"".join(before) + opcode + behind, sum(PARTS[it] for it in before) + 1 + PARTS[behind]


# What stands before an opcode, its number and operands, and what stands behind it.
UNITS = {
    "Const, Drop": unit([], ONE, DROP), "Load": unit([], b"\x01\x00", DROP), "Store": unit([ONE], b"\x02\x00"),
    "Fill": unit([], b"\x03\x00\x03" + FIXED), "Conv": unit([ONE], b"\x05" + FIXED, DROP),
    "Index": unit([ONE], b"\x06\x01\x02\x10", DROP), "LoadAt": unit([OF_THREE], b"\x07\x00\x03", DROP),
    "StoreAt": unit([OF_THREE, ONE], b"\x08\x00\x03"),
    "Read": unit([], b"\x09\x00", DROP), "Write": unit([ONE], b"\x0a\x00"),
    "ReadAt": unit([OF_EIGHT], b"\x0b\x00", DROP), "WriteAt": unit([OF_EIGHT, ONE], b"\x0c\x00"),
    "RefSlot": unit([], b"\x0d\x00", DROP), "RefSlotAt": unit([OF_EIGHT], b"\x0e\x00", DROP),
    "RefCell": unit([], b"\x0f\x00", DROP), "RefCellAt": unit([OF_THREE], b"\x10\x00\x03", DROP),
    "ReadRef": unit([SLOT], b"\x11", DROP), "WriteRef": unit([SLOT, ONE], b"\x12"),
    "Case": unit([ONE], b"\x15\x00"), "Turn": unit([], b"\x16"), "Call": unit([], b"\x17\x00"), "End": unit([], b"\x19"),
    "Trap": unit([], b"\x1a\x01"), "Within": unit([], b"\x1b\x00", DROP), "NonZero": unit([ONE], b"\x1d", DROP),
    "Now": unit([], b"\x35", DROP), "Request": unit([], b"\x36\x01\x00"), "Release": unit([], b"\x37\x01\x00"),
    "Try": unit([], b"\x38\x00", DROP), "Activate": unit([], b"\x39\x00\x00\x00\x00"), "Continue": unit([], b"\x3a\x00\x00"),
    "Resume": unit([SPAN], b"\x3b\x02"), "Suspend": unit([], b"\x3c\x00"), "Terminate": unit([], b"\x3d\x00"),
    "Prevent": unit([], b"\x3e\x00"), "SuspendOwn": unit([], b"\x3f"), "TerminateOwn": unit([], b"\x40"),
    "PreventOwn": unit([], b"\x41"), "Enable": unit([], b"\x42\x00"), "Disable": unit([], b"\x43\x00"),
    "Trigger": unit([], b"\x44\x00"), "Put": unit([ONE], b"\x45\x01\x00"), "Get": unit([], b"\x46\x01\x00\x00"),
    "Take": unit([], b"\x47\x02", DROP), "Send": unit([ONE], b"\x48\x03"),
    **{name: unit([ONE], bytes([30 + place]), DROP) for place, name in enumerate(["Plus", "Minus", "Abs", "Sign"])},
    "Not": unit([TRUE], b"\x22", DROP),
    **{name: unit([ONE, ONE], bytes([35 + place]), DROP) for place, name in enumerate(["Pow", "Mul", "Div", "Rem"])},
    "Cat": unit([TEXT, TEXT], b"\x27", DROP),
    **{name: unit([ONE, ONE], bytes([40 + place]), DROP) for place, name in enumerate(["Add", "Sub"])},
    **{name: unit([TRUE, ONE], bytes([42 + place]), DROP) for place, name in enumerate(["Cshift", "Shift"])},
    **{name: unit([ONE, ONE], bytes([44 + place]), DROP) for place, name in enumerate(["Lt", "Gt", "Le", "Ge", "Eq", "Ne"])},
    **{name: unit([TRUE, TRUE], bytes([50 + place]), DROP) for place, name in enumerate(["And", "Or", "Exor"])},
}
# Opcodes that lead to the next instruction, with what stands before them.
JUMPS = {"Jump": (b"", b"\x13"), "JumpZero": (TRUE, b"\x14"), "Advance": (b"", b"\x1c\x00")}

DEVICES = b"\x04" + b"\x00\x01" + b"\x01\x01\x03" + b"\x02\x01" + FIXED + b"\x03\x01" + FIXED
FRONT = b"PRL1" + DEVICES + b"\x01\x01" + b"\x01\x01v" + FIXED + b"\x08\x00"
FORMATS, NO_SHAPES = b"\x01\x01\x05\x05", b"\x00"
CELLS, DEPTH = b"\x03" + FIXED * 3, 8


def whole(code, count, returns=b"", many=0, formats=FORMATS, shapes=NO_SHAPES):
    """An object whose task has this code of so many instructions, and an End; its procedure returns so many times more."""
    procedure = b"\x01\x00\x00" + b"\x00\x00" + number(many + 1) + returns + b"\x18" + b"\x00"
    task = b"\x01\x01t\xff\x01\x00" + CELLS + number(DEPTH) + number(count + 1) + code + b"\x19" + shapes
    return FRONT + formats + procedure + task


def of_unit(part, instructions):
    return lambda count: whole(part * count, instructions * count)


def of_jump(before, opcode):
    step = PARTS[before] + 1
    return lambda count: whole(b"".join(before + opcode + number(step * (i + 1)) for i in range(count)), step * count)


def of_formats(one):
    """An object of many formats."""
    return lambda count: whole(b"", 0, formats=number(count) + one * count)


def of_shape(count):
    """An object with one shape, of so many operands where none may lie: at an End to which nothing leads."""
    return whole(b"\x19", 1, shapes=b"\x01\x01" + number(count) + b"\x03" * count)


def lines(text):
    """A journal of one line again and again, behind picks for the start."""
    return lambda count: "run 9\n" + text * count


# The plant that these journals suit: a task that takes what comes, and one that nothing starts.
PLANT = ("MODULE(m);SYSTEM;i:INTERRUPT(1);t:TERMINAL(1);p:INPUT(1);PROBLEM;SPC i INTERRUPT;SPC t DATION INOUT ALPHIC;"
         "SPC p DATION IN BASIC FIXED;takes:TASK MAIN;DCL a FIXED;REPEAT TAKE a FROM p;END;END;"
         "waits:TASK;DCL a FIXED;a:=1;END;MODEND;")

# What an object of 16 MiB may take: an instruction is at least one byte of it, and some 50 while it is read and validated; a
# format is at least one byte, and some 90; a kind of a shape is at least one, and some 80. BAD_OBJECT refuses a shape so long.
BAD_OBJECT = 3
CODES = [Form(f"`{name}`", of_unit(*it), 900, 3) for name, it in UNITS.items()]
CODES += [Form(f"`{name}`", of_jump(*it), 900, 3) for name, it in JUMPS.items()]
CODES += [Form("`Return`", lambda count: whole(b"", 0, b"\x18" * count, count), 900, 3)]
OBJECTS = CODES + [Form("formats without items", of_formats(b"\x00"), 1600, 3),
                   Form("formats of one item", of_formats(b"\x01\x05\x05"), 1100, 3),
                   Form("one stated shape", of_shape, 1500, 5, BAD_OBJECT)]
# `list` asks no rule of the code.
LISTED = [form._replace(status=0) for form in OBJECTS]
JOURNALS = [Form("`" + text.strip().replace("\n", "`, `") + "`" if text.strip() else "empty lines", lines(text), 10, 60)
            for text in ("\n", "#\n", "run 1\n", "tick 1\n", "pass 1 1\n", "irpt 1\n", "chars 1 'x'\n", "line 1 'x'\n",
                         "value 1 5\n", "value 1 5\nrun 2\n", "turn waits\n", "state\n")]
