#!/usr/bin/env python3
"""Respells the repository's own definitions and lemmas, by the table beside this file: words are in snake case, types and modules in camel case.

usage: python3 tools/respell.py [FOLDER]      (by default the folder above this file)

It turns whole words in the .antt and .rt files and in the must-fail edits below FOLDER/crates. In an edit it also turns the older form of a
projection (`c .elapsed`), of a quoted field and of a path, and the words of respell-edits.tsv, which the kit's own script turned elsewhere.
Strings of Rust code are left alone; no name of the table is one of Rust's. A second run changes nothing.
"""

import pathlib
import re
import sys

HERE = pathlib.Path(__file__).resolve().parent
WORD = re.compile(r"[^\s(){}\[\].,;:@\"`«»]+")
STRING = re.compile(r'b?"(?:\\.|[^"\\])*"', re.S)


def table(name):
    rows = (line.split("\t") for line in (HERE / name).read_text().splitlines() if line)
    return {old: new for old, new in rows}


def turned(text, words):
    return WORD.sub(lambda m: words.get(m[0], m[0]), text)


def turned_code(text, words):
    parts, at = [], 0
    for string in STRING.finditer(text):
        parts += [turned(text[at : string.start()], words), string[0]]
        at = string.end()
    return "".join(parts) + turned(text[at:], words)


def turned_edit(text, words):
    lines = []
    for line in text.splitlines(keepends=True):
        if line.startswith(("old: ", "new: ")):
            line = re.sub(r"\bRattle·(\w+)\.specs\.", r"Rattle.\1.specs.", line)
            line = re.sub(r"(?<=≡ )(\w+(?: \w+)+) \.(\w+)$", r"(\1).\2", line)
            line = re.sub(r"\((\w+(?: \w+)+) \.(\w+)\)", r"(\1).\2", line)
            line = re.sub(r"(?<=[\w)]) \.(?=[\w«])", ".", line)
            line = re.sub(r"\((\w+(?:\.[\w«»]+)+)\)", r"\1", line)
            line = re.sub(r"«(time_scale|complete_fired)»", r"\1", line)
            line = turned(line, words)
        lines.append(line)
    return "".join(lines)


def main():
    top = pathlib.Path(sys.argv[1]) if len(sys.argv) > 1 else HERE.parent
    words = table("respell.tsv")
    edits = words | table("respell-edits.tsv")
    for path in sorted((top / "crates").rglob("*")):
        if path.suffix not in (".antt", ".rt", ".edit"):
            continue
        old = path.read_text(encoding="utf-8")
        if path.suffix == ".edit":
            new = turned_edit(old, edits)
        elif path.suffix == ".rt":
            new = turned_code(old, words)
        else:
            new = turned(old, words)
        if new != old:
            path.write_text(new, encoding="utf-8")


main()
