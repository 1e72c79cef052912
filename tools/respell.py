#!/usr/bin/env python3
"""Turns the repository's own names to the spelling of today's Rattle: words in snake case, facts in upper camel case.

usage: python3 tools/respell.py        at the top, once, right after port.py

tools/respell.txt has a line for each name: the old one and the new one. Names of Rust code, strings, inputs and outputs
stay. A name is a whole word of antt, so that a part of a longer name is never touched.
"""

import os
import re

HERE = os.path.dirname(os.path.abspath(__file__))
TOP = os.path.dirname(HERE)
TABLE = dict(line.split() for line in open(os.path.join(HERE, "respell.txt"), encoding="utf-8") if line.strip())
WORD = re.compile(r'"[^"]*"|[^\s(){},;."@`|]+')
CAMEL = re.compile(r"[a-z][a-z0-9]*(?:[A-Z][a-z0-9]*)+")

# edits whose text is a ghost member of an impl, not Rust
EDITS = {
    "outstanding = c .outstanding }": "outstanding = c.outstanding }",
    "outstanding = c .stations }": "outstanding = c.stations }",
    "held (t .stations) (t .limit) (t .tokens) };": "held t.stations t.limit t.tokens };",
    "held (t .stations) 0 (t .tokens) };": "held t.stations 0 t.tokens };",
}


def respelled(text, allowed=lambda word: True):
    return WORD.sub(lambda m: TABLE[m[0]] if m[0] in TABLE and allowed(m[0]) else m[0], text)


def rust(line):
    ghost = re.search(r"ghost |ensures|requires", line)
    return respelled(line, lambda word: ghost or CAMEL.fullmatch(word))


def turned(path, text):
    if path.endswith(".antt"):
        return respelled(text)
    if path.endswith(".rt"):
        return "".join(rust(line) for line in text.splitlines(True))
    if path.endswith(".edit"):
        for old, new in EDITS.items():
            text = text.replace(old, new)
        return "".join(rust(line) if "specs/" not in text else respelled(line) for line in text.splitlines(True))
    if path.endswith(".md"):
        return re.sub(r"`[^`\n]*`", lambda m: respelled(m[0]), text)
    return text


def main():
    changed = 0
    for start in ("crates", "docs", "README.md"):
        root = os.path.join(TOP, start)
        files = [root] if os.path.isfile(root) else [os.path.join(d, f) for d, _, fs in os.walk(root) if "/out" not in d for f in fs]
        for path in sorted(files):
            if not path.endswith((".antt", ".rt", ".edit", ".md")):
                continue
            with open(path, encoding="utf-8") as f:
                old = f.read()
            new = turned(path, old)
            if new != old:
                changed += 1
                with open(path, "w", encoding="utf-8") as f:
                    f.write(new)
    print(f"respell: {changed} files")


main()
