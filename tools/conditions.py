#!/usr/bin/env python3
"""conditions.py: gives the repository's own choice between two values a name of its own, `when b then x else y`.

Today's Rattle keeps `if◌then◌else◌` for the library's, which unfolds everywhere; the repository's unfolds only where a proof says so. Runs once,
at the top, after respell.py."""
import os
import re
import sys

root = sys.argv[1] if len(sys.argv) > 1 else os.path.dirname(os.path.dirname(os.path.abspath(__file__)))
WORD = re.compile(r"(?<![\w'◌-])if(?=◌then◌else◌)|(?<![\w'.◌-])if(?![\w'◌-])")


def code(text):
    return WORD.sub("when", text)


def line_of(path, line):
    mark = {".antt": "--", ".rt": "//", ".edit": "#"}[os.path.splitext(path)[1]]
    m = re.search(r"(^|\s)" + mark + r"(\s|$)", line) if not path.endswith(".edit") else re.match(mark, line)
    at = m.start() if m else len(line)
    if path.endswith(".antt") or " then " in line[:at] or "if◌" in line[:at]:
        return code(line[:at]) + line[at:]
    return line


changed = 0
for folder, inner, files in os.walk(os.path.join(root, "crates")):
    inner[:] = sorted(d for d in inner if d != "out")
    for name in sorted(files):
        path = os.path.join(folder, name)
        if name.endswith((".antt", ".rt", ".edit")):
            old = open(path, encoding="utf-8").read()
            new = "\n".join(line_of(path, line) for line in old.split("\n"))
            if new != old:
                open(path, "w", encoding="utf-8").write(new)
                changed += 1
print(f"conditions: {changed} files changed")
