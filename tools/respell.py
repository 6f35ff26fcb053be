#!/usr/bin/env python3
"""Respells the definitions and lemmas of this repository: types in upper camel case, all else in snake case.

usage: python3 tools/respell.py [--docs]      at the top of the repository, once

tools/respelled.txt has a line for each name: the old spelling and the new one. In .antt files each such word
is turned, but for a member of a generated record and a goal that is answered; in .rt files each such word of a
clause, a ghost item or a `ghost use` line. With --docs the words between backticks in README.md and docs/ are
turned too. Functions of src/, strings, inputs and outputs keep their names.
"""
import glob
import os
import re
import sys

HERE = os.path.dirname(os.path.realpath(__file__))
WORD = re.compile(r"(?<![\w'\-])(?:\u00ab)?[A-Za-z_\u2115\u228e\u03b1-\u03c9][\w'\-\u2115\u2264\u2261]*")
# these are members of records, and turned behind a dot too
MEMBERS = {"ceiling-fits", "first-many", "second-many", "isCount", "isWord"}


def table():
    with open(os.path.join(HERE, "respelled.txt"), encoding="utf-8") as f:
        return dict(line.split() for line in f if line.strip())


def turned(text, names):
    def one(m):
        word = m.group(0)
        if word not in names:
            return word
        before = text[: m.start()]
        if before.endswith(".") and not before.endswith("..") and not before[-2:-1].isspace() and word not in MEMBERS:
            return word
        return names[word]

    return WORD.sub(one, text)


def turned_rt(text, names):
    """Turns the ghost lines and clauses of a source file."""
    out, depth = [], 0
    for line in text.split("\n"):
        ghost = depth > 0 or re.match(r"\s*(pub )?(ghost\b|requires\b|ensures\b)", line)
        if ghost:
            depth += line.count("{") - line.count("}")
            line = turned(line, names)
        out.append(line)
    return "\n".join(out)


def main():
    names = table()
    changed = 0
    for path in sorted(glob.glob("crates/*/*/**/*", recursive=True)):
        if not path.endswith((".antt", ".rt")) or "/out/" in path:
            continue
        with open(path, encoding="utf-8") as f:
            old = f.read()
        here = {k: v for k, v in names.items() if k not in ("all_pass", "allPass") or path.startswith("crates/worked/")}
        new = turned(old, here) if path.endswith(".antt") else turned_rt(old, here)
        if new != old:
            changed += 1
            with open(path, "w", encoding="utf-8") as f:
                f.write(new)
    if "--docs" in sys.argv:
        for path in ["README.md", *sorted(glob.glob("docs/*.md"))]:
            with open(path, encoding="utf-8") as f:
                old = f.read()
            new = re.sub(r"`[^`\n]+`", lambda m: turned(m.group(0), names), old)
            if new != old:
                changed += 1
                with open(path, "w", encoding="utf-8") as f:
                    f.write(new)
    print(changed, "files respelled")


main()
