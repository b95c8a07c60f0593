"""The forms of tools/costs.py: for each command its sources' names, texts by how much there is, bounds, and how they end.

The text of a form is a function from a number to a module that has so many of its parts; it grows with the number, with
line ends where what it has is bounded. Bounds are those at 1 MiB, the peak in MB (10^6 bytes) and the time in seconds. A
form that is refused is marked so: it holds of the lengths that are measured, a short text of it may be accepted.
"""

from functools import lru_cache
from itertools import product
from string import ascii_letters

from cost_objects import JOURNALS, LISTED, OBJECTS, Form

# The status of a form that breaks a rule.
REFUSED = 2

HEAD, TAIL = "MODULE(m);PROBLEM;", "MODEND;"
TASK, END = "t:TASK;", "END;"
# A module with a device of each sort, a variable and semaphores.
PLANT = ("MODULE(m);SYSTEM;k:TERMINAL(1);i:INPUT(1);o:OUTPUT(1);w:INTERRUPT(1);PROBLEM;SPC k DATION INOUT ALPHIC,"
         "i DATION IN BASIC FIXED,o DATION OUT BASIC FIXED,w INTERRUPT;DCL x FIXED,b BIT,"
         f"({','.join(f's{i}' for i in range(1000))}) SEMA;")


def module(declarations, statements="", procedures=""):
    """A module with one task."""
    return HEAD + declarations + TASK + statements + END + procedures + TAIL


def task_of(front, part, back):
    """A form whose only task has a part again and again."""
    return lambda count: module("", front + part * count + back)


def in_task(declarations, part):
    """A form of one statement again and again in a task, behind declarations."""
    return lambda count: module(declarations, part * count)


def each(part):
    """A form of declarations, each made of its number."""
    return lambda count: module("".join(map(part, range(count))))


def within(depth, declarations, part):
    """A form of one statement again and again in the innermost of so many BEGINs."""
    return lambda count: module(declarations, "BEGIN " * depth + part * count + "END;" * depth)


def in_plant(part):
    """A form of one statement again and again in the task of a module with devices."""
    return lambda count: PLANT + TASK + part * count + END + TAIL


def each_in_plant(part):
    """The same of statements, each made of its number."""
    return lambda count: PLANT + TASK + "".join(map(part, range(count))) + END + TAIL


def spread(front, part, most):
    """A form of one part again and again, so many in a task at most, as what has cells has to be."""
    def text(count):
        tasks = (part * min(most, count - begin) for begin in range(0, count, most))
        return front + "".join(f"k{i}:TASK;{it}END;" for i, it in enumerate(tasks)) + TAIL
    return text


def items(count):
    """One declaration of items, so long that no more of them than slots fit into a source."""
    return module("DCL " + ",".join(f"a{i} FIXED(15)" for i in range(count)) + ";")


def used_declarations(count):
    declared = "".join(f"DCL a{i} FIXED;" for i in range(count))
    return module(declared, "".join(f"a{i}:=1;" for i in range(count // 2)))


def devices(count):
    return "MODULE(m);SYSTEM;" + "".join(f"d{i}:W{i}(1);" for i in range(count)) + "PROBLEM;" + TAIL


def specified_devices(count):
    system = "".join(f"d{i}:TERMINAL({i + 1});" for i in range(count))
    specified = "".join(f"SPC d{i} INTERRUPT;" for i in range(count))
    return "MODULE(m);SYSTEM;" + system + "PROBLEM;" + specified + TAIL


def doubled_types(init):
    """60 TYPEs, each with two of the one before, and variables of the last."""
    types = "TYPE t0 FIXED;" + "".join(f"TYPE t{i + 1} STRUCT[(a,b) t{i}];" for i in range(60))
    return lambda count: module(types + "".join(f"DCL v{i} t60{init};" for i in range(count)))


def nested_types(init):
    """TYPEs within one another, and as many variables of the last."""
    def text(count):
        types = "TYPE t0 FIXED;" + "".join(f"TYPE t{i + 1} STRUCT[a t{i}];" for i in range(count))
        return module(types + "".join(f"DCL v{i} t{count}{init};" for i in range(count)))
    return text


def two_fields(depth):
    """TYPEs within one another, each with a second field behind the one before."""
    return "TYPE t0 FIXED;" + "".join(f"TYPE t{i + 1} STRUCT[a t{i},b FIXED];" for i in range(depth))


def twice_nested(count):
    """TYPEs of two fields within one another, and as many variables of the last with INIT: more slots than there may be."""
    return module(two_fields(count) + "".join(f"DCL v{i} t{count} INIT(1);" for i in range(count)))


def twice_nested_in_routines(count):
    """The same, 4,000 at most, and as many routines as there may be with one variable, which has nearly all cells."""
    depth = min(count, 4000)
    return HEAD + two_fields(depth) + routines(count, f"DCL x t{depth} INIT(1);") + "\n" * count + TAIL


def twice_nested_in_slots(count):
    """The same, as deep as a name may be and as many variables as there are slots."""
    depth, many = min(count, 509), min(count, 128)
    return module(two_fields(depth) + "".join(f"DCL v{i} t{depth} INIT(1);" for i in range(many))) + "\n" * count


def named_leaves(depth, fields):
    """A variable with leaves whose names go down TYPEs of one field within one another, at most so many of each."""
    def text(count):
        chain = min(count, depth)
        types = "TYPE t0 FIXED;" + "".join(f"TYPE t{i + 1} STRUCT[a t{i}];" for i in range(chain))
        leaves = ",".join(f"f{i} t{chain}" for i in range(min(count, fields)))
        return HEAD + types + f"DCL x STRUCT[{leaves}];" + "\n" * count + TAIL
    return text


def long_references(count):
    """TYPEs within one another, and ten assignments that go down all of them."""
    types = "TYPE t0 FIXED;" + "".join(f"TYPE t{i + 1} STRUCT[a t{i}];" for i in range(count))
    return HEAD + types + TASK + f"DCL x t{count};" + f"x{'.a' * count}:=1;" * 10 + END + TAIL


def long_names(count):
    """Names of 63 bytes that differ in the last ones, and as many assignments."""
    names = [f"{'n' * 57}{i:06}" for i in range(count)]
    return module("".join(f"DCL {name} FIXED;" for name in names), "".join(f"{name}:=1;" for name in names))


def wide_struct(count):
    fields = ",".join(f"f{i} FIXED" for i in range(count))
    return module(f"DCL v STRUCT[{fields}];", "".join(f"v.f{i}:=1;" for i in range(count)))


def callers(last):
    """Procedures that each call the next, and what the last one does; the 201st breaks a rule."""
    def text(count):
        each_next = "".join(f"p{i}:PROC;CALL p{i + 1};END;" for i in range(count))
        return module("", "", each_next + f"p{count}:PROC;{last(count)}END;")
    return text


def called_by_all(count):
    """200 procedures that each call all that come later, again and again."""
    many = count // 200
    procedures = "".join(f"p{i}:PROC;" + "".join(f"p{i + 1 + k % (199 - i)};" for k in range(many)) + "END;"
                         for i in range(199)) + "p199:PROC;END;"
    return module("", "", procedures)


# How many routines a module has, how many names of one hash are sought, and how the kit's maps hash a name: the first state,
# the factor, that of a letter, and how many of the lowest bits lead to one place in a map of so many names.
ROUTINES, HASHED = 400, 9000
SEED, FACTOR, LETTER, BITS, WORD = 0x243F6A8885A308D3, 0x9E3779B97F4A7C15 ^ 2, 0x010101, 1023, 2**64 - 1


def folded(state, factor):
    """The lower half of a product of 128 bits, joined with the upper one."""
    both = state * factor
    return both & WORD ^ both >> 64


@lru_cache(maxsize=None)
def one_hash():
    """9,000 names of five letters that a map by hashes keeps at one place, since the hash is the same in every run."""
    found, begin = [], folded(SEED ^ 5, FACTOR ^ 2 ^ 16)
    for front in product(ascii_letters, repeat=4):
        state = begin
        for letter in front:
            state = folded(state ^ ord(letter) * LETTER, FACTOR)
        for letter in ascii_letters:
            code = folded(state ^ ord(letter) * LETTER, FACTOR)
            if (code ^ code >> 32) & BITS == 0:
                found.append("".join(front) + letter)
        if len(found) >= HASHED:
            break
    return found[:HASHED]


def hashed_names(count):
    """Names of one hash, and as many assignments to them as there are besides."""
    names = one_hash()
    uses = "".join(f"{names[-1 - i % 100]}:=1;" for i in range(max(0, count - len(names))))
    return module(f"DCL ({','.join(names[:max(1, count)])}) FIXED;", uses)


def hashed_fields(count):
    """A STRUCT with fields of one hash, and as many assignments to them as there are besides."""
    names = one_hash()
    uses = "".join(f"v.{names[-1 - i % 100]}:=1;" for i in range(max(0, count - len(names))))
    return module(f"DCL v STRUCT[({','.join(names[:max(1, count)])}) FIXED];", uses)


def hashed_devices(count):
    """Devices with names of one hash and words of one hash, and more of other names."""
    names = one_hash()[:count] + [f"d{i}" for i in range(count - HASHED)]
    return "MODULE(m);SYSTEM;" + "".join(f"{name}:{name}(1);" for name in names) + "PROBLEM;" + TAIL


def routines(count, body):
    """So many procedures and tasks, 200 of each at most, with this body."""
    many = min(count, ROUTINES)
    return "".join(f"r{i}:{'PROC' if i < ROUTINES // 2 else 'TASK'};{body}END;" for i in range(many))


def chains_with_leaves(count):
    """TYPEs within one another, a STRUCT of the last with as many leaves, and as many routines with a variable of it."""
    types = "TYPE t0 FIXED;" + "".join(f"TYPE t{i + 1} STRUCT[a t{i}];" for i in range(count))
    leaves = ",".join(f"f{i}" for i in range(min(count, 4000)))
    return HEAD + types + f"TYPE u STRUCT[({leaves}) t{count}];" + routines(count, "DCL x u;") + TAIL


def deep_init(count):
    """TYPEs within one another, and as many variables of the last with INIT, 3,500 to a task."""
    types = "TYPE t0 FIXED;" + "".join(f"TYPE t{i + 1} STRUCT[a t{i}];" for i in range(count))
    tasks = ("".join(f"DCL v{i} t{count} INIT(1);" for i in range(begin, min(count, begin + 3500)))
             for begin in range(0, count, 3500))
    return HEAD + types + "".join(f"k{i}:TASK;{text}END;" for i, text in enumerate(tasks)) + TAIL


def wide_texts(count):
    """Routines with a variable of 4,000 CHAR(255), each with INIT."""
    return HEAD + routines(count, "DCL x(4000) CHAR(255) INIT('a');") + "\n" * count + TAIL


def wide_struct_of_texts(lengths):
    """Routines with a STRUCT of as many texts, 4,000 at most, and INIT; neighbours have these lengths by turns."""
    def text(count):
        fields = ",".join(f"f{i} CHAR({lengths[i % len(lengths)]})" for i in range(min(count, 4000)))
        return HEAD + f"TYPE u STRUCT[{fields}];" + routines(count, "DCL x u INIT('a');") + "\n" * count + TAIL
    return text


def initials(kind, constant):
    """One array of the module with a constant for each element."""
    return lambda count: module(f"DCL a({count}) {kind} INIT({','.join([constant] * count)});")


def named_initials(front, back):
    """So many names between these, and a constant for each."""
    def text(count):
        names, numbers = ",".join(f"a{i}" for i in range(count)), ",".join(["123456789"] * count)
        return module(f"DCL {front}({names}) FIXED{back} INIT({numbers});")
    return text


def initials_in_bodies(kind, constant):
    """Arrays of tasks and procedures, 4,000 elements in each at most, with a constant for each element."""
    def text(count):
        sizes = [min(4000, count - begin) for begin in range(0, count, 4000)]
        bodies = (f"DCL a({size}) {kind} INIT({','.join([constant] * size)});" for size in sizes)
        return HEAD + "".join(f"r{i}:{'PROC' if i % 2 else 'TASK'};{it}END;" for i, it in enumerate(bodies)) + TAIL
    return text


def wide_calls(count):
    """Calls with 2,000 arguments, as many as two weights have room for."""
    parameters = ",".join(f"b{i}" for i in range(2000))
    return module("DCL a FIXED;", f"p({','.join(['a'] * 2000)});" * count, f"p:PROC(({parameters}) FIXED);END;")


def semaphores(count):
    """REQUEST and RELEASE of 16 semaphores, others each time."""
    def part(number):
        names = ",".join(f"s{(16 * number + i) % 1000}" for i in range(16))
        return f"REQUEST {names};RELEASE {names};"
    return each_in_plant(part)(count)


def formatted(number):
    """PUT with a format that no smaller number has."""
    return f"PUT x TO k BY X({number % 200 + 1}),X({number // 200 % 200 + 1}),F({number // 40000 + 1});"


def cased(part):
    """A form of one CASE with an alternative again and again, and one more."""
    return lambda count: module("DCL x FIXED;", "CASE x ALT " + part * count + "FIN;")


def chosen(depth, part):
    """A statement again and again in the last alternatives of so many CASEs within one another."""
    return lambda count: module("DCL x FIXED;", "CASE x ALT x:=2;ALT " * depth + part * count + "FIN;" * depth)


def nested(opening, closing):
    """A form of 32 statements within one another, again and again."""
    return in_task("DCL x FIXED;", opening * 32 + closing * 32)


def with_function(part):
    """A form of one statement again and again in a task, beside a function of one parameter."""
    return lambda count: module("DCL x FIXED,a(2) FIXED;", part * count, "f:PROC((b) FIXED) RETURNS(FIXED);RETURN(b);END;")


def looped(depth, part):
    """A statement again and again in so many loops within one another."""
    return lambda count: module("DCL x FIXED;", "REPEAT " * depth + part * count + "END;" * depth)


SUM, LOOP = "a+" * 100 + "a", "FOR i TO 9 REPEAT a:=i;END;"

PRINTED = [
    Form("`;`", task_of("", ";", ""), 400, 60),
    Form("`x:=1;`", task_of("", "x:=1;", ""), 400, 60),
    Form("`f(1);`", task_of("", "f(1);", ""), 460, 60),
    Form("`a;`", task_of("", "a;", ""), 460, 60),
    Form("`a(a(a(..)));`, 32 deep", task_of("", "a(" * 33 + "a" + ")" * 33 + ";", ""), 460, 60),
    Form("`f(a,a,..);`, one call", task_of("f(", "a,", "a);"), 460, 60),
    Form("`x:=a+a+..;`, 100 operators", task_of("", f"x:={SUM};", ""), 560, 60),
    Form("`x:=+a+ +a+..;`, 100 operators", task_of("", "x:=" + "+a+" * 100 + "+a;", ""), 560, 60),
    Form("`x:=++++++++a;`, 8 signs", task_of("", "x:=" + "+" * 8 + "a;", ""), 560, 60),
    Form("`f(a+a+..,a+a+..,..);`, one call", task_of("f(", SUM + ",", "a);"), 560, 60),
]

UNTIL, DURING = "ALL 1 SEC UNTIL 4:5:6", "ALL 1 SEC DURING 1 HRS"

CHECKED = [
    Form("declarations, and assignments to half of them", used_declarations, 560, 2),
    Form("TYPEs", each(lambda i: f"TYPE t{i} FIXED;"), 560, 2),
    Form("TYPEs of a STRUCT", each(lambda i: f"TYPE t{i} STRUCT[a FIXED];"), 560, 2),
    Form("LENGTHs", each(lambda i: "LENGTH FIXED(15);"), 560, 2),
    Form("LENGTHs, a declaration behind each", each(lambda i: f"LENGTH FIXED(15);DCL a{i} FIXED;"), 560, 2),
    Form("devices, each with a word that is none", devices, 560, 2, REFUSED),
    Form("devices, each specified as what it isn't", specified_devices, 560, 2, REFUSED),
    Form("60 TYPEs, each with two of the one before, and variables", doubled_types(""), 560, 2, REFUSED),
    Form("60 TYPEs, each with two of the one before, and variables with INIT", doubled_types(" INIT(1)"), 560, 2, REFUSED),
    Form("TYPEs within one another, and as many variables", nested_types(""), 560, 2, REFUSED),
    Form("a STRUCT with many fields, and each of them used", wide_struct, 560, 2),
    Form("declarations of one name", each(lambda i: "DCL a FIXED;"), 560, 2, REFUSED),
    Form("a use in the innermost of 30 BEGINs", within(30, "DCL a FIXED;", "a:=a;"), 560, 3),
    Form("`a:=1;`", in_task("DCL a FIXED;", "a:=1;"), 560, 2),
    Form("`a:=a+a+..;`, 100 operators", in_task("DCL a FIXED;", f"a:={SUM};"), 560, 2),
    Form("`IF a>1 THEN a:=1;FIN;`", in_task("DCL a FIXED;", "IF a>1 THEN a:=1;FIN;"), 560, 2),
    Form("`FOR i TO 9 REPEAT a:=i;END;`", in_task("DCL a FIXED;", LOOP), 560, 2, REFUSED),
    Form("`FOR i TO 9 REPEAT a:=i;END;`, 1,300 to a task", spread(HEAD + "DCL a FIXED;", LOOP, 1300), 560, 3),
    Form("`p(a);`", lambda count: module("DCL a FIXED;", "p(a);" * count, "p:PROC((b) FIXED);END;"), 560, 2),
    Form("`p(a);`, IDENT", lambda count: module("DCL a FIXED;", "p(a);" * count, "p:PROC((b) FIXED IDENT);END;"), 560, 3),
    Form("calls with 2,000 arguments", wide_calls, 560, 3),
    Form("`x:=f(f(f(..)));`, 32 deep", with_function("x:=" + "f(" * 32 + "x" + ")" * 32 + ";"), 560, 3),
    Form("`x:=a(a(a(..)));`, 32 deep", with_function("x:=" + "a(" * 32 + "x" + ")" * 32 + ";"), 560, 3),
    Form("`x:=((x+x)+x..);`, 32 deep", with_function("x:=" + "(" * 32 + "x" + "+x)" * 32 + ";"), 560, 3),
    Form("`RETURN(1);`", lambda count: module("", "", "f:PROC RETURNS(FIXED);" + "RETURN(1);" * count + "END;"), 560, 3),
    Form("procedures that each call the next", callers(lambda count: ""), 560, 2, REFUSED),
    Form("procedures that each call the next, and the last one itself", callers("CALL p{};".format), 560, 2, REFUSED),
    Form("200 procedures that call those which come later", called_by_all, 560, 2),
    Form("assignments of names that nothing declares", task_of("", "a:=1;", ""), 560, 2, REFUSED),
    Form("9,000 names of one hash, and assignments to some of them", hashed_names, 560, 2),
    Form("9,000 fields of one hash, and assignments to some of them", hashed_fields, 560, 2),
    Form("devices, 9,000 of them with names and words of one hash", hashed_devices, 560, 2, REFUSED),
    Form("names of 63 bytes, and assignments", long_names, 560, 3),
    Form("one DCL with many items", items, 560, 3),
    Form("TYPEs within one another, and references that go down all of them", long_references, 560, 3),
    Form("TYPEs within one another, leaves, and routines with a variable", chains_with_leaves, 560, 3),
    Form("TYPEs within one another, and as many variables with INIT", nested_types(" INIT(1)"), 560, 3, REFUSED),
    Form("TYPEs within one another, and variables with INIT, 3,500 to a task", deep_init, 560, 3),
    Form("TYPEs within one another with two fields, and as many variables with INIT", twice_nested, 560, 3, REFUSED),
    Form("4,000 TYPEs within one another with two fields, and 400 routines with INIT", twice_nested_in_routines, 560, 3),
    Form("509 TYPEs within one another with two fields, and variables with INIT", twice_nested_in_slots, 560, 3),
    Form("TYPEs within one another, and leaves of the last with names", named_leaves(10 ** 6, 10 ** 6), 560, 3, REFUSED),
    Form("505 TYPEs within one another, and leaves of the last with names", named_leaves(505, 65536), 560, 3),
    Form("400 routines with 4,000 CHAR(255) and INIT", wide_texts, 560, 3),
    Form("400 routines with a STRUCT of 4,000 CHAR(255) and INIT", wide_struct_of_texts([255]), 560, 3),
    Form("400 routines with a STRUCT of 4,000 CHAR(255) and CHAR(254) by turns and INIT",
         wide_struct_of_texts([255, 254]), 560, 3),
    Form("declarations with INIT", each(lambda i: f"DCL a{i} FIXED INIT(1);"), 560, 3),
    Form("INIT with a number for each element", initials("FIXED(63)", "123456789012345"), 560, 3),
    Form("one declaration of many names, INIT with a number for each", named_initials("", ""), 560, 3),
    Form("a STRUCT with many fields, INIT with a number for each", named_initials("v STRUCT[", "]"), 560, 3),
    Form("INIT with a text for each element", initials("CHAR(13)", "'abcdefghijklm'"), 560, 3),
    Form("INIT with a number for each element, 4,000 to a routine", initials_in_bodies("FIXED", "1"), 560, 3),
    Form("INIT with a text for each element, 4,000 to a routine", initials_in_bodies("CHAR(1)", "'a'"), 560, 3),
    Form("`c:='a';`", in_task("DCL c CHAR(255);", "c:='a';"), 560, 3),
    Form("`c:='aa..';`, 255 letters", in_task("DCL c CHAR(255);", f"c:='{'a' * 255}';"), 560, 3),
    Form("`c:='a'><'a'><..;`, 100 operators", in_task("DCL c CHAR(255);", "c:='a'" + "><'a'" * 100 + ";"), 560, 3),
    Form("`d:=1 SEC;`", in_task("DCL d DURATION;", "d:=1 SEC;"), 560, 3),
    Form("`c:=1:2:3;`", in_task("DCL c CLOCK;", "c:=1:2:3;"), 560, 3),
    Form("`b:='1'B;`", in_task("DCL b BIT;", "b:='1'B;"), 560, 3),
    Form("`c:=NOW;`", in_task("DCL c CLOCK;", "c:=NOW;"), 560, 3),
    Form("`a(x,x,x):=a(x,x,x);`", in_task("DCL x FIXED,a(2,2,2) FIXED;", "a(x,x,x):=a(x,x,x);"), 560, 3),
    Form("BEGINs with a variable each, 4,000 to a task", spread(HEAD, "BEGIN DCL a FIXED;a:=1;END;", 4000), 560, 3),
    Form("loops with a variable each, 4,000 to a task", spread(HEAD, "REPEAT DCL a FIXED;a:=1;END;", 4000), 560, 3),
    Form("`x:=1;` in 31 loops within one another", looped(31, "x:=1;"), 560, 3),
    Form("`IF x>1 THEN EXIT;FIN;` in 30 loops within one another", looped(30, "IF x>1 THEN EXIT;FIN;"), 560, 3),
    Form("`x:=1;` in 32 CASEs within one another", chosen(32, "x:=1;"), 560, 3),
    Form("32 IFs within one another, again and again", nested("IF x>1 THEN ", "FIN;"), 560, 3),
    Form("32 CASEs within one another, again and again", nested("CASE x ALT ", "FIN;"), 560, 3),
    Form("32 loops within one another, again and again", nested("REPEAT ", "END;"), 560, 3),
    Form("32 BEGINs within one another, again and again", nested("BEGIN ", "END;"), 560, 3),
    Form("`EXIT;` in one loop", looped(1, "EXIT;"), 560, 3),
    Form("one CASE with many ALTs, `x:=1;` in each", cased("ALT x:=1;"), 560, 3),
    Form("one CASE with many ALTs, nothing in them", cased("ALT "), 560, 3),
    Form("`PUT x TO k BY F(5);`", in_plant("PUT x TO k BY F(5);"), 560, 3),
    Form("`PUT 'a' TO k BY A;`", in_plant("PUT 'a' TO k BY A;"), 560, 3),
    Form("PUT of 64 values", in_plant(f"PUT {','.join('x' * 64)} TO k BY {','.join(['F(5)'] * 64)};"), 560, 3),
    Form("PUT, each with a format of its own", each_in_plant(formatted), 560, 3),
    Form("`GET x FROM k BY F(5);`, 2,000 to a task", spread(PLANT, "GET x FROM k BY F(5);", 2000), 560, 3),
    Form("GET of 64 targets, 31 to a task",
         spread(PLANT, f"GET {','.join('x' * 64)} FROM k BY {','.join(['F(5)'] * 64)};", 31), 560, 3),
    Form("`TAKE x FROM i;SEND x TO o;`", in_plant("TAKE x FROM i;SEND x TO o;"), 560, 3),
    Form("`ACTIVATE t;`", in_plant("ACTIVATE t;"), 560, 3),
    Form(f"`AT 1:2:3 {UNTIL} ACTIVATE t PRIO 3;`", in_plant(f"AT 1:2:3 {UNTIL} ACTIVATE t PRIO 3;"), 560, 3),
    Form(f"`WHEN w AFTER 1 SEC {DURING} ACTIVATE t;`", in_plant(f"WHEN w AFTER 1 SEC {DURING} ACTIVATE t;"), 560, 3),
    Form("`SUSPEND;TERMINATE;PREVENT;`", in_plant("SUSPEND;TERMINATE;PREVENT;"), 560, 3),
    Form("`ENABLE w;TRIGGER w;DISABLE w;`", in_plant("ENABLE w;TRIGGER w;DISABLE w;"), 560, 3),
    Form("`AFTER 1 SEC RESUME;WHEN w CONTINUE t;`", in_plant("AFTER 1 SEC RESUME;WHEN w CONTINUE t;"), 560, 3),
    Form("`REQUEST s1;RELEASE s1;`", in_plant("REQUEST s1;RELEASE s1;"), 560, 3),
    Form("`b:=TRY s1;`", in_plant("b:=TRY s1;"), 560, 3),
    Form("REQUEST and RELEASE of 16 semaphores, others each time", semaphores, 560, 3),
]

# What breaks no rule costs more to compile and to run.
COMPILED = [form._replace(seconds=3) for form in CHECKED]

FORMS = {"print": PRINTED, "check": CHECKED, "compile": COMPILED, "run": COMPILED, "list": LISTED, "exec": OBJECTS,
         "journal": JOURNALS}
