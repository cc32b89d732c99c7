#!/usr/bin/env python3
"""Answers from outside, as the test programs store them.

    tests/vectors.py read FILE...    adds lines of reading to crates/vectors/stdin and stdout
    tests/vectors.py house FILE...   adds lines of rewriting to crates/house/stdin and stdout
    tests/vectors.py calls FILE...   adds lines of calls to crates/calls/stdin and stdout
    tests/vectors.py layout 8        lays the rows of all stored lines, which have eight words, out anew

A file has a line for each question, with its answer after a bar; `-` stands for no bytes, no words or nothing asked, and a line that begins
with `#` is a comment:

    read     EDITION HEX ROWS-LENT | NUMBER PLACE ROWS-USED | ROW / ROW / ...
    house    EDITION HEX ROWS-LENT BYTES-LENT | NUMBER PLACE BYTES-WRITTEN | HEX | ...
    calls    CALL HEX WORDS ARGUMENTS | ANSWER

EDITION is old or new. A row is its words with a comma between two. CALL is address or packedvalue (row, indexes), table, tablevalue or
tabletext (row, leaf row, indexes), value or text (row), or lookup (row, name in hex, and a wish, of which only `first` is stored, since the
program has no other); other calls are passed over. A question that is stored already is not added again, and must have the stored answer.

`layout` works out the words that the stored rows lack from those that they have, by nothing but document 01 and the requests: `laid_out`
is the one place that knows how. The programs' own answers are never asked. Rows had eight words before request No. 8.
"""
import os
import sys

ROOT = os.path.dirname(os.path.dirname(os.path.abspath(__file__)))
KIND = 0
LINK = 6
CONTAINERS = {5, 6, 7, 8, 10, 11}
SHOWN = 40
CALLS = {
    "address": "packed_slot",
    "table": "table_slot",
    "value": "value_at_row",
    "packedvalue": "value_in_packed",
    "tablevalue": "value_in_table",
    "text": "text_at_row",
    "tabletext": "text_in_table",
    "lookup": "lookup",
}


def stored(crate, name):
    """The lines of a program's stored input or output."""
    with open(f"{ROOT}/crates/{crate}/{name}") as file:
        return file.read().split("\n")[:-1]


def store(crate, name, lines):
    with open(f"{ROOT}/crates/{crate}/{name}", "w") as file:
        file.write("".join(line + "\n" for line in lines))


def asked(line):
    """The parts of a line of a file, the bars taken out."""
    return [part.strip() for part in line.split("|")]


def none(word):
    return "" if word == "-" else word


def letter(edition):
    return {"old": "o", "new": "n"}[edition]


def shown(rows):
    """Rows as the reader's program lists them: of more than forty the first three."""
    if not rows:
        return ""
    rows = rows.split(" / ")
    return " | " + " / ".join(rows if len(rows) <= SHOWN else rows[:3] + ["..."])


def of_read(line):
    question, answer, rows = asked(line)
    edition, message, lent = question.split()
    return f"{letter(edition)} {lent} {none(message)}".rstrip(), answer + shown(rows)


def of_house(line):
    question, answer, output = asked(line)[:3]
    edition, message, lent, room = question.split()
    return f"{letter(edition)} {lent} {room} {none(message)}".rstrip(), f"{answer} {output}"


def of_call(line):
    question, answer = asked(line)
    call, message, words, *rest = question.split()
    if call not in CALLS:
        return None
    row, leaf, indexes, name = rest[0], "-", "-", "-"
    if call in ("address", "packedvalue"):
        indexes = rest[1]
    elif call in ("table", "tablevalue", "tabletext"):
        leaf, indexes = rest[1:3]
    elif call == "lookup":
        name = rest[1]
        if rest[2:] and rest[2] != "first":
            return None
    return f"{CALLS[call]} {message} {words} {row} {leaf} {indexes} {name}", answer


def add(crate, line_of, files):
    """Adds the lines of files to what a program has stored."""
    questions, answers = stored(crate, "stdin"), stored(crate, "stdout")
    known, passed = dict(zip(questions, answers)), 0
    for file in files:
        for line in open(file).read().split("\n"):
            if not line or line.startswith("#"):
                continue
            pair = line_of(line)
            if pair is None or pair[0] in known:
                if pair and known[pair[0]] != pair[1]:
                    sys.exit(f"{file}: stored with another answer, {known[pair[0]]}: {line}")
                passed += 1
                continue
            known[pair[0]] = pair[1]
            questions.append(pair[0])
            answers.append(pair[1])
    store(crate, "stdin", questions)
    store(crate, "stdout", answers)
    print(f"{crate}: {len(questions)} lines, {passed} passed over")


def laid_out(rows):
    """Rows of eight words with their parents and depths: a row's parent is the innermost container before it whose link passes it."""
    open_rows, out = [], []
    for number, row in enumerate(rows):
        while open_rows and rows[open_rows[-1]][LINK] <= number:
            open_rows.pop()
        parent = open_rows[-1] + 1 if open_rows else 0
        out.append(row + [parent, len(open_rows)])
        if row[KIND] in CONTAINERS:
            open_rows.append(number)
    return out


def layout(wide):
    """Lays stored rows of so many words out anew."""
    answers, found = stored("vectors", "stdout"), False
    for i, line in enumerate(answers):
        head, bar, rows = line.partition(" | ")
        if bar and rows.split(" / ")[0].count(",") + 1 == wide:
            found = True
            rows, dots, _ = rows.partition(" / ...")
            laid = laid_out([[int(word) for word in row.split(",")] for row in rows.split(" / ")])
            answers[i] = head + bar + " / ".join(",".join(map(str, row)) for row in laid) + dots
    if not found:
        sys.exit(f"no stored row has {wide} words")
    store("vectors", "stdout", answers)
    questions = stored("calls", "stdin")
    for i, line in enumerate(questions):
        parts = line.split(" ")
        if parts[2] != "-":
            words = [int(word) for word in parts[2].split(",")]
            whole = len(words) // wide * wide
            laid = laid_out([words[k : k + wide] for k in range(0, whole, wide)])
            parts[2] = ",".join(str(word) for row in laid + [words[whole:]] for word in row)
            questions[i] = " ".join(parts)
    store("calls", "stdin", questions)


def main():
    command, files = (sys.argv[1:2] or [""])[0], sys.argv[2:]
    if command == "layout" and files == ["8"]:
        layout(8)
    elif command == "read" and files:
        add("vectors", of_read, files)
    elif command == "house" and files:
        add("house", of_house, files)
    elif command == "calls" and files:
        add("calls", of_call, files)
    else:
        sys.exit(__doc__)


if __name__ == "__main__":
    main()
