#!/usr/bin/env python3
"""respell.py: brings the repository's own definitions, lemmas and fields to the spelling of today's Rattle, words in snake case.

Runs once, at the top, after the kit's port.py. Each line of respell.txt has an old name and the new one. A name is changed where it stands
alone: in .antt files, in the code of .rt files, and in the texts of must-fail edits; in comments only where it is in mixed case. A field that
Rattle makes, as `.in-first` or `.loop-end`, is left."""
import os
import re
import sys

top = os.path.dirname(os.path.dirname(os.path.abspath(__file__)))
root = sys.argv[1] if len(sys.argv) > 1 else top
table = dict(line.split() for line in open(os.path.join(top, "tools", "respell.txt"), encoding="utf-8"))
NAME = re.compile(r"[A-Za-z_◌'][\w'◌-]*")
MADE = re.compile(r"(if|in|then|else|loop|index)-")
fields = set()


def sources():
    for folder, inner, files in os.walk(os.path.join(root, "crates")):
        inner[:] = sorted(d for d in inner if d != "out")
        for name in sorted(files):
            if name.endswith((".antt", ".rt", ".edit")):
                yield os.path.join(folder, name)


def code(text):
    def one(m):
        name, before = m.group(), text[: m.start()]
        if name not in table:
            return name
        if before.endswith(".") and MADE.match(name) and name not in fields:
            return name
        return table[name]

    return NAME.sub(one, text)


def comment(text):
    return NAME.sub(lambda m: table.get(m.group(), m.group()) if re.search(r"[a-z][A-Z]", m.group()) else m.group(), text)


def strings(text):
    parts = re.split(r"(\"(?:[^\"\\]|\\.)*\")", text)
    return "".join(p if p.startswith('"') else code(p) for p in parts)


def line_of(path, line):
    if path.endswith(".edit"):
        m = re.match(r"(old|new): ", line)
        return line[: m.end()] + code(line[m.end() :]) if m else comment(line)
    mark = "--" if path.endswith(".antt") else "//"
    m = re.search(r"(^|\s)" + mark + r"(\s|$)", line)
    at = m.start() if m else len(line)
    return (code if path.endswith(".antt") else strings)(line[:at]) + comment(line[at:])


for path in sources():
    if path.endswith(".antt"):
        for line in open(path, encoding="utf-8"):
            m = re.match(r"\s+pub\s+((?:[^\s(){}:]+\s+)+):", line)
            if m:
                fields.update(m.group(1).split())
changed = 0
for path in sources():
    old = open(path, encoding="utf-8").read()
    new = "\n".join(line_of(path, line) for line in old.split("\n"))
    if new != old:
        open(path, "w", encoding="utf-8").write(new)
        changed += 1
print(f"respell: {changed} files changed")
