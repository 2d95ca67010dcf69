#!/usr/bin/env python3
"""Brings the names of definitions and lemmas to today's spelling: words in snake case.

Runs once, behind port.py, at the top: `python3 tools/port_names.py [FOLDER]`. The names stand in
port_names.txt beside this file, a line for each: the old one and the new. A lemma that would have
its definition's name has `_lem` behind it. It turns specs/, proofs/, clauses and comments of src/,
and the edits under must-fail/. Functions of src/, strings, inputs and outputs keep their names.
"""

import pathlib
import re
import sys

TOKEN = re.compile(r"[A-Za-z_][A-Za-z0-9_'\-]*")
STRING = re.compile(r'"(?:[^"\\]|\\.)*"')


def names():
    lines = (pathlib.Path(__file__).parent / "port_names.txt").read_text().splitlines()
    return dict(line.split() for line in lines)


def is_plain(name):
    """Such a name may be a function's too, so it is turned in files of proofs alone."""
    return re.fullmatch(r"[a-z0-9_]+", name) is not None


def turned(text, known):
    return TOKEN.sub(lambda m: known.get(m.group(0), m.group(0)), text)


def turned_source(text, known):
    done, at = [], 0
    for string in STRING.finditer(text):
        done += [turned(text[at : string.start()], known), string.group(0)]
        at = string.end()
    return "".join(done + [turned(text[at:], known)])


def main(top):
    known = names()
    shared = {old: new for old, new in known.items() if not is_plain(old)}
    for file in sorted(top.glob("crates/**/*")):
        if file.suffix not in (".antt", ".rt", ".edit") or "out" in file.parts or not file.is_file():
            continue
        text = file.read_text()
        if file.suffix == ".rt":
            new = turned_source(text, shared)
        elif file.suffix == ".antt" and "proofs" in file.parts:
            new = turned(text, known)
        else:
            new = turned(text, shared)
        if new != text:
            file.write_text(new)


main(pathlib.Path(sys.argv[1] if len(sys.argv) > 1 else "."))
