"""What old sources write that the language hasn't, or means otherwise.

Each form has a name, which is that of its row in docs/use/porting.md, and patterns over the tokens. A pattern is a row
of words, each for one token: a spelling; `id`, `number`, `decimal`, `text`; `re:` and an expression; `..` for all up to
and with the closing bracket; `a|b` for one of several; `not:a|b` for any other. The token before which `^` stands is that
of the form. A form is looked for in the whole source, or only where a fault is (`at_fault`), as its words are right
elsewhere; `wants` is what must be possible at a fault.
"""

import re
from dataclasses import dataclass

FUNCTIONS = "ROUND|ENTIER|SQRT|SIN|COS|TAN|ATAN|TANH|EXP|LN"
CONVERSIONS = "TOFIXED|TOFLOAT|TOBIT|TOCHAR"
BEFORE = ";|THEN|ELSE|REPEAT|BEGIN|ALT|OUT|:|)"


@dataclass(eq=False)
class Form:
    """A form of old sources."""

    name: str
    patterns: list
    part: str = "PROBLEM"
    at_fault: bool = False
    means_otherwise: bool = False
    wants: str = ""


FORMS = [
    Form("GOTO", ["^GOTO id"]),
    Form("labels", [f"{BEFORE} ^id : not:TASK|PROC"], wants=":="),
    Form("EXIT with a name", ["EXIT ^id"], wants=";"),
    Form("a name behind END", ["END ^id ;"], wants=";"),
    Form("values behind ALT", ["ALT ^( .."]),
    Form("SIGNAL, ON, INDUCE", ["^SIGNAL ;|,|(", f"{BEFORE} ^ON id :", "^INDUCE id", "^RST ("]),
    Form("FLOAT", ["^FLOAT (", "^FLOAT not::=|="]),
    Form("numbers with a point", ["^decimal not:SEC", r"^number re:[Ee]\d*"]),
    Form("division", ["^/"], part=""),
    Form("ROUND, ENTIER and functions", [f"^{FUNCTIONS} id|number|decimal|(", f"^{FUNCTIONS} - "]),
    Form("FIT", ["id|number|) ^FIT id|number|("]),
    Form("TOFIXED, TOBIT, TOCHAR", [f"^{CONVERSIONS} id|number|text|bits|("]),
    Form(".BIT(i)", [". ^BIT"]),
    Form(".CHAR(i)", [". ^CHAR"]),
    Form("lengths of numbers", ["^number ( number )"], at_fault=True),
    Form("binary numbers", ["number ^B"]),
    Form("REF", ["^REF FIXED|BIT|CHAR|CLOCK|DURATION|STRUCT|FLOAT|PROC|TASK|id|("]),
    Form("dations of one's own", ["DCL id ^DATION", ", id ^DATION IN|OUT|INOUT SYSTEM|ALL|FORWARD|DIRECT"], at_fault=True),
    Form("other kinds of dations", ["DATION IN|OUT|INOUT ^not:ALPHIC|BASIC"]),
    Form("arrays of semaphores", ["id ( .. ^SEMA", "id ( ) ^SEMA"]),
    Form("semaphores in bodies", ["^SEMA"], at_fault=True, wants="the name of a TYPE"),
    Form("declarations behind statements", ["^DCL"], at_fault=True, wants="a statement"),
    Form("names in bounds", ["DCL|,|TYPE|) id ( ^id", "DCL|,|TYPE|) id ( number|- : ^id", "DCL|,|TYPE|) id ( .. : ^id"],
         at_fault=True),
    Form("names in INIT", ["INIT ( ^id", "INIT|INITIAL ( + ^id", "INIT|INITIAL ( - ^id"]),
    Form("names in INIT", ["number|text|bits|clock|SEC|MIN|HRS , ^id"], at_fault=True, wants="a literal"),
    Form("repetition in INIT", ["number ^* number|text|bits"], at_fault=True),
    Form("INITIAL", ["^INITIAL ("]),
    Form("names as lengths", ["FIXED|BIT|CHAR ( ^id )", "PRIO ^id MAIN|;|RESIDENT|GLOBAL"], at_fault=True),
    Form("INV parameters", ["^INV FIXED|BIT|CHAR|CLOCK|DURATION|id"], at_fault=True),
    Form("arrays as parameters", ["(|, id ^( )", "(|, id ^( ,"], at_fault=True, wants="FIXED"),
    Form("structures as parameters", ["(|, id ^STRUCT|id", "RETURNS ( ^id|STRUCT"], at_fault=True, wants="FIXED"),
    Form("REENT", ["^REENT ;|RETURNS|GLOBAL"]),
    Form("RESIDENT", ["^RESIDENT ;|,|GLOBAL|MAIN|PRIO"]),
    Form("GLOBAL", ["^GLOBAL", "SPC|SPECIFY id ^FIXED|BIT|CHAR|CLOCK|DURATION|STRUCT|SEMA|TASK|PROC|ENTRY|FLOAT|INV"]),
    Form("BOLT", ["^BOLT", "^RESERVE|FREE|ENTER|LEAVE id"]),
    Form("operators of one's own", ["^OPERATOR|PRECEDENCE id|+|-|*|//|REM|("]),
    Form("procedures in procedures", ["id ^: PROC|TASK"], at_fault=True),
    Form("OPEN, CLOSE", ["^OPEN|CLOSE id"]),
    Form("READ, WRITE", ["^READ|WRITE id|text"]),
    Form("items E, LIST, PAGE and others", ["BY|, ^E|LIST|PAGE|COL|LINE|POS|ADV|SOP|R|S|RST|IDF|NO|EOF ;|,|("],
         at_fault=True, wants="an item of a format"),
    Form("decimals in F", ["F ( number ^, number"]),
    Form("widths by a name", ["F|T|D|A|B|B1|B2|B3|B4|X|SKIP ( ^id"], at_fault=True, wants="a number"),
    Form("repeated items", ["BY|, ^( number )", "BY|, ^( id )", "BY|, ^number A|F|B|X|(", "BY|, ^( F|A|B|X"],
         at_fault=True, wants="an item of a format"),
    Form("PUT and GET without BY", ["TO|FROM id ^;"], at_fault=True, wants="BY"),
    Form("BY in TAKE and SEND", ["TO|FROM id ^BY"], at_fault=True, wants=";"),
    Form("several values in TAKE and SEND", ["TAKE|SEND id ^, id", "TAKE|SEND id ( .. ^,"]),
    Form("PRIO behind CONTINUE", ["CONTINUE id ^PRIO"]),
    Form("schedules before other statements",
         ["^TERMINATE|PREVENT|SUSPEND|REQUEST|RELEASE|ENABLE|DISABLE|TRIGGER|INDUCE|CALL|PUT|SEND|TAKE|GET"],
         at_fault=True, wants="ACTIVATE"),
    Form("ALL before RESUME and CONTINUE", ["^RESUME|CONTINUE"], at_fault=True, wants="ACTIVATE"),
    Form("DATE", ["^DATE not::=|=|:|("]),
    Form("connections in SYSTEM", ["^- >", "^< -", "^: id *", "id ^* number", ") ^* number"], part="SYSTEM"),
    Form("devices without a number", [": id ^;", ": id ^, "], part="SYSTEM"),
    Form("lines of a preprocessor", ["^#"], part=""),
    Form("INIT of arrays of structures", ["id ( .. ^STRUCT [ .. INIT|INITIAL (", "id ( .. INV ^STRUCT [ .. INIT|INITIAL ("],
         means_otherwise=True),
    Form("control characters in texts", [r"^re:'.*\\.*'"], means_otherwise=True),
]

SLIPS = [
    Form("FOR with =", ["FOR id ^=|:="], at_fault=True),
    Form("= as a comparison", ["^= not:;"], at_fault=True, wants="an operator"),
    Form("DO", ["^DO|LOOP"], at_fault=True, wants="REPEAT"),
    Form("times without seconds", ["^number : number"], at_fault=True),
    Form("brackets without arguments", ["id ( ^)"], at_fault=True, wants="an expression"),
    Form("RETURN without brackets", ["RETURN ^id|number|text|bits|clock|-|+|NOT"], at_fault=True),
    Form("units of time", ["number ^S|MS|MSEC|SECS|SECONDS|SECOND|MINUTES|MINUTE|MINS|HOUR|HOURS|H|M|DAYS|ms|s|min|h|sec"]),
    Form("BY before TO", ["^BY F|A|B|T|D|X|SKIP|B1|B2|B3|B4"], at_fault=True, wants="TO"),
    Form("ELSIF", ["^ELSIF|ELSEIF|ELIF|FI|ENDIF|ENDFOR|ENDCASE|ENDLOOP"]),
]


@dataclass
class Match:
    """A form that stands in a source: its tokens from the first to the last, and the one that is told."""

    form: Form
    first: int
    last: int
    told: int


SORTS = {"id", "number", "decimal", "text", "bits", "clock"}


class Word:
    """A word of a pattern: which tokens it stands for."""

    def __init__(self, text):
        self.is_rest, self.is_other = text == "..", text.startswith("not:")
        self.expression = re.compile(text[3:]) if text.startswith("re:") else None
        choices = set(text.removeprefix("not:").split("|"))
        self.sorts, self.texts = choices & SORTS, choices - SORTS

    def says(self, token):
        """Whether the token is one that the word stands for."""
        if self.expression:
            return self.expression.fullmatch(token.text) is not None
        one = token.sort in self.sorts or token.text in self.texts
        one = one or (token.sort == "word" and token.term in self.texts)
        return one != self.is_other

    def may_say(self, token):
        """Whether the word may stand for a token of this one's kind."""
        return self.is_rest or self.expression is not None or self.says(token)


class Pattern:
    """A pattern of a form: its words, and the number of the one that is told."""

    def __init__(self, form, text):
        words = text.split()
        self.form, self.text = form, text
        self.words = [Word(word.removeprefix("^")) for word in words]
        self.told = next((number for number, word in enumerate(words) if word.startswith("^")), 0)


PATTERNS = [Pattern(form, text) for form in FORMS + SLIPS for text in form.patterns]
ORDER = {form: number for number, form in enumerate(FORMS + SLIPS)}
SPELLINGS = set().union(*(word.texts for pattern in PATTERNS for word in pattern.words))
# The patterns that may begin at tokens of two kinds, as far as it was asked.
BEGUN = {}


def kind(token):
    """What words of patterns tell tokens apart by, but for expressions."""
    return token.sort, token.text if token.sort == "word" or token.text in SPELLINGS else ""


def begun(tokens, at):
    """The patterns whose first two words may stand at this token."""
    pair = tokens[at:at + 2]
    kinds = tuple(map(kind, pair))
    if kinds not in BEGUN:
        BEGUN[kinds] = [it for it in PATTERNS if all(word.may_say(token) for word, token in zip(it.words, pair))]
    return BEGUN[kinds]


def matched(pattern, tokens, at):
    """The last token and the told one, where the pattern stands at this token; else None."""
    told = at
    for number, word in enumerate(pattern.words):
        if number == pattern.told:
            told = at
        if word.is_rest:
            if at - 1 not in tokens.closing:
                return None
            at = tokens.closing[at - 1]
        elif at == len(tokens) or not word.says(tokens[at]):
            return None
        at += 1
    return at - 1, told


def matches(tokens, forms, fault=None, declared=()):
    """The forms that stand in the tokens, but words that are declared; with a fault's token those of which it is a part."""
    found, asked = [], {form for form in forms if fault is not None or not form.at_fault}
    window = range(len(tokens)) if fault is None else range(max(0, fault - 12), min(len(tokens), fault + 1))
    for at in window:
        part, last = "SYSTEM" if at < tokens.border else "PROBLEM", None
        for pattern in begun(tokens, at):
            form = pattern.form
            if form is last or form not in asked or form.part not in ("", part):
                continue
            end = matched(pattern, tokens, at)
            if end and tokens[end[1]].text in declared and tokens[end[1]].text in pattern.text:
                continue
            if end and (fault is None or at <= fault <= end[0] + 1):
                found.append(Match(form, at, *end))
                last = form
    return sorted(found, key=lambda it: ORDER[it.form])


def at_fault(tokens, fault, wanted=()):
    """The form of which the token with the fault is a part, or None: the one that is told nearest to it."""
    found = [it for it in matches(tokens, FORMS + SLIPS, fault) if not it.form.means_otherwise]
    found = [it for it in found if not it.form.wants or it.form.wants in wanted]
    found = [it for it in found if not it.form.at_fault or it.told == fault or it.told == fault - 1]
    return min(found, key=lambda it: abs(it.told - fault), default=None)
