#!/usr/bin/env python3
"""Makes the syntax files for editors from the program's table of words.

usage: editor/make.py [--check]

Writes the files of editor/vim and editor/textmate. With --check nothing is written, and the status is 1 where a file isn't
what would be written; tools/tests/test_editor.py asks that in the gate. Each word of the table must stand in a group below.
"""

import json
import os
import sys

HERE = os.path.dirname(os.path.abspath(__file__))
sys.path.insert(0, os.path.join(os.path.dirname(HERE), "tools"))

from reading.tokens import WORDS  # noqa: E402

# For each group of words its words, its name in Vim, and its scope in TextMate grammars.
GROUPS = {
    "parts": ("MODULE MODEND SYSTEM PROBLEM", "Structure", "keyword.other.part"),
    "declarations": ("DECLARE DCL SPECIFY SPC TYPE LENGTH TASK PROCEDURE PROC RETURNS", "Keyword", "storage.type"),
    "attributes": ("INV INIT PRESET MAIN PRIORITY PRIO IDENTICAL IDENT IN OUT INOUT ALPHIC BASIC GLOBAL", "StorageClass",
                   "storage.modifier"),
    "types": ("FIXED BIT CHARACTER CHAR CLOCK DURATION DUR STRUCT SEMA INTERRUPT IRPT DATION BOLT", "Type", "support.type"),
    "branches": ("IF THEN ELSE FIN CASE ALT", "Conditional", "keyword.control.conditional"),
    "loops": ("FOR FROM BY TO WHILE REPEAT EXIT", "Repeat", "keyword.control.loop"),
    "blocks": ("BEGIN END CALL RETURN", "Statement", "keyword.control.flow"),
    "tasking": ("ACTIVATE TERMINATE SUSPEND CONTINUE RESUME PREVENT AT AFTER ALL UNTIL DURING WHEN REQUEST RELEASE TRY ENABLE "
                "DISABLE TRIGGER RESERVE FREE ENTER LEAVE", "Statement", "keyword.control.tasking"),
    "transfers": ("GET PUT TAKE SEND", "Statement", "keyword.control.transfer"),
    "operators": ("NOW REM ABS SIGN EQ NE LT GT LE GE AND OR EXOR NOT CAT CSHIFT SHIFT LWB UPB", "Operator", "keyword.operator"),
    "units": ("HRS MIN SEC", "Number", "constant.numeric.unit"),
}
CLOCK, DECIMAL, NUMBER = r"\d+:\d+:\d+(\.\d{1,3})?", r"\d+\.\d{1,3}", r"\d+"


def groups():
    """The groups with their words; ends where they aren't the words of the table, each once."""
    found = {name: (words.split(), vim, scope) for name, (words, vim, scope) in GROUPS.items()}
    there = [word for words, _, _ in found.values() for word in words]
    if sorted(there) != sorted(WORDS):
        missing, more = set(WORDS) - set(there), [it for it in there if it not in WORDS or there.count(it) > 1]
        sys.exit(f"editor/make.py: words in no group: {sorted(missing)}; not in the table, or twice: {sorted(set(more))}")
    return found


def vim():
    """The syntax file for Vim."""
    lines = [
        '" Vim syntax file for PEARL 90, made by editor/make.py.',
        'if exists("b:current_syntax")',
        "  finish",
        "endif",
        "syntax case match",
        r"syntax match pearlName /\<[A-Za-z]\w*\>/",
        r"syntax match pearlNumber /\<\d\+\>/",
        r"syntax match pearlNumber /\<\d\+\.\d\{1,3}\>/",
        r"syntax match pearlNumber /\<\d\+:\d\+:\d\+\(\.\d\{1,3}\)\?\>/",
        r"syntax match pearlText /'\([ -&(-~]\|''\)*'/",
        r"syntax match pearlBits /'[0-9A-F]\+'B[1-4]\?\>/",
        *(f"syntax keyword pearl{name.capitalize()} {' '.join(words)}" for name, (words, _, _) in groups().items()),
        "syntax match pearlComment /!.*$/",
        r"syntax region pearlComment start=/\/\*/ end=/\*\//",
        *(f"highlight default link pearl{name.capitalize()} {link}" for name, (_, link, _) in groups().items()),
        "highlight default link pearlNumber Number",
        "highlight default link pearlBits Number",
        "highlight default link pearlText String",
        "highlight default link pearlComment Comment",
        'let b:current_syntax = "pearl"',
    ]
    return "\n".join(lines) + "\n"


def compiler():
    """Lets `:make` in Vim ask tools/explain."""
    return "\n".join([
        '" Vim compiler file for PEARL 90, made by editor/make.py: `:compiler pearl`, then `:make`.',
        'if exists("current_compiler")',
        "  finish",
        "endif",
        'let current_compiler = "pearl"',
        "let s:tool = fnamemodify(resolve(expand('<sfile>:p')), ':h:h:h:h') . '/tools/explain'",
        "execute 'CompilerSet makeprg=' . escape(s:tool . ' --check %', ' ')",
        r"CompilerSet errorformat=%f:%l:%v:\ %m",
    ]) + "\n"


def textmate():
    """The grammar for editors with TextMate grammars."""
    words = [{"name": f"{scope}.pearl", "match": rf"\b({'|'.join(words)})\b"} for words, _, scope in groups().values()]
    patterns = [
        {"name": "comment.line.exclamation.pearl", "match": "!.*$"},
        {"name": "comment.block.pearl", "begin": r"/\*", "end": r"\*/"},
        {"name": "constant.numeric.bits.pearl", "match": r"'[0-9A-F]+'B[1-4]?\b"},
        {"name": "string.quoted.single.pearl", "match": "'([ -&(-~]|'')*'"},
        *({"name": "constant.numeric.pearl", "match": rf"\b{form}\b"} for form in (CLOCK, DECIMAL, NUMBER)),
        *words,
        {"match": r"\b([A-Za-z]\w*)\s*:\s*(?=TASK|PROC)", "captures": {"1": {"name": "entity.name.function.pearl"}}},
        {"name": "variable.other.pearl", "match": r"\b[A-Za-z]\w*\b"},
        {"name": "keyword.operator.pearl", "match": r":=|==|/=|<=|>=|><|<>|//|\*\*|[-+*<>=]"},
    ]
    # A task's name comes before the words and the other names.
    patterns.insert(7, patterns.pop(-3))
    whole = {"$comment": "Made by editor/make.py.", "name": "PEARL 90", "scopeName": "source.pearl", "fileTypes": ["pearl"],
             "patterns": patterns}
    return json.dumps(whole, indent=2) + "\n"


def language():
    """What an editor with TextMate grammars asks for besides: brackets and comments."""
    return json.dumps({
        "comments": {"lineComment": "!", "blockComment": ["/*", "*/"]},
        "brackets": [["(", ")"], ["[", "]"]],
        "indentationRules": {
            "increaseIndentPattern": r"\b(THEN|ELSE|ALT|REPEAT|BEGIN|OUT|TASK|PROC)\b(?!.*\b(END|FIN)\b)",
            "decreaseIndentPattern": r"^\s*(END|FIN|ELSE|ALT|OUT)\b",
        },
    }, indent=2) + "\n"


def package():
    """The description of the folder for editors that install it as an extension."""
    return json.dumps({
        "name": "pearl-90", "displayName": "PEARL 90", "version": "1.0.0", "engines": {"vscode": "^1.60.0"},
        "contributes": {
            "languages": [{"id": "pearl", "aliases": ["PEARL 90"], "extensions": [".pearl"],
                           "configuration": "./language-configuration.json"}],
            "grammars": [{"language": "pearl", "scopeName": "source.pearl", "path": "./pearl.tmLanguage.json"}],
        },
    }, indent=2) + "\n"


FILES = {
    "vim/syntax/pearl.vim": vim,
    "vim/compiler/pearl.vim": compiler,
    "vim/ftdetect/pearl.vim": lambda: 'autocmd BufNewFile,BufRead *.pearl set filetype=pearl\n',
    "textmate/pearl.tmLanguage.json": textmate,
    "textmate/language-configuration.json": language,
    "textmate/package.json": package,
}


def kept(path):
    """What stands in a file, or nothing."""
    if not os.path.exists(path):
        return None
    with open(path, encoding="ascii", newline="") as file:
        return file.read()


def main():
    if sys.argv[1:] not in ([], ["--check"]):
        print(__doc__.split("\n\n")[1], file=sys.stderr)
        return 2
    different = []
    for name, text in FILES.items():
        path = os.path.join(HERE, name)
        if not sys.argv[1:]:
            os.makedirs(os.path.dirname(path), exist_ok=True)
            with open(path, "w", encoding="ascii", newline="") as file:
                file.write(text())
        elif kept(path) != text():
            different.append(name)
    for name in different:
        print(f"editor/{name} isn't what editor/make.py writes")
    return 1 if different else 0


if __name__ == "__main__":
    sys.exit(main())
