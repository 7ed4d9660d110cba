#!/usr/bin/env python3
"""Respells this repository's own definitions and lemmas, by the table respelled.tsv beside it.

usage: python3 tools/respell.py [FOLDER]     at the top of the repository, or of a copy of it

Words go to snake case and types to camel case. It is run once, after the kit's own script for older repositories and
before any edit by hand: a second run would change names that are new. Functions of src/, strings, inputs and outputs
keep their names, and so do the names that the prover makes (of goals, of steps, of loops).

Where a name is looked for:
- in .antt files everywhere but in comments; there only names with a capital inside, since 'well-formed' is English too;
- in .rt files, must-fail edits and pages only names with a capital inside, and in pages only between backticks.
"""

import os
import re
import sys

HERE = os.path.dirname(os.path.realpath(__file__))
# what can't stand in a name of antt
APART = r"\s(){};,.«»\"=→|@\[\]`"
TOKEN = re.compile("[^" + APART + "]+")
CAPITAL = re.compile(r"^[a-z][A-Za-z0-9]*[A-Z]|^[A-Z][a-z]*-")
TICKED = re.compile(r"`[^`\n]*`")
TEXT = re.compile(r'"(?:[^"\\]|\\.)*"')


def table():
    """The pairs of names that hold everywhere, and those of single files."""
    everywhere, of_file = {}, {}
    with open(os.path.join(HERE, "respelled.tsv"), encoding="utf-8") as f:
        for line in f:
            parts = line.rstrip("\n").split("\t")
            if line.startswith("#") or len(parts) < 2:
                continue
            if len(parts) > 2:
                of_file.setdefault(parts[2], {})[parts[0]] = parts[1]
            else:
                everywhere[parts[0]] = parts[1]
    return everywhere, of_file


def turn(text, names):
    return TOKEN.sub(lambda m: names.get(m.group(0), m.group(0)), text)


def turn_apart(text, pattern, names, inside):
    """Turns what the pattern finds, or what lies between."""
    done, at = [], 0
    for m in pattern.finditer(text):
        between = text[at:m.start()]
        done.append(between if inside else turn(between, names))
        done.append(turn(m.group(0), names) if inside else m.group(0))
        at = m.end()
    between = text[at:]
    done.append(between if inside else turn(between, names))
    return "".join(done)


def antt(text, names, capital):
    lines = []
    for line in text.split("\n"):
        code, dash, comment = line.partition("--") if not line.startswith("--") else ("", "--", line[2:])
        lines.append(turn(code, names) + dash + turn(comment, capital))
    return "\n".join(lines)


def edit(text, names, capital):
    """An edit of a definition is antt, one of the code is Rattle."""
    of_antt = re.search(r"^file: \S+\.antt$", text, re.M)
    lines = []
    for line in text.split("\n"):
        head, colon, rest = line.partition(": ")
        if head in ("old", "new"):
            rest = turn(rest, names) if of_antt else turn_apart(rest, TEXT, capital, False)
        lines.append(head + colon + rest)
    return "\n".join(lines)


def files(root):
    for folder, dirs, names in os.walk(root):
        dirs[:] = sorted(d for d in dirs if d not in ("out", "target", ".git", "tools"))
        for name in sorted(names):
            yield os.path.join(folder, name)


def main():
    root = sys.argv[1] if len(sys.argv) > 1 else "."
    everywhere, of_file = table()
    changed = 0
    for path in files(root):
        names = everywhere | of_file.get(os.path.relpath(path, root), {})
        capital = {k: v for k, v in names.items() if CAPITAL.match(k)}
        if not path.endswith((".antt", ".rt", ".edit", ".md")):
            continue
        with open(path, encoding="utf-8") as f:
            was = f.read()
        if path.endswith(".antt"):
            now = antt(was, names, capital)
        elif path.endswith(".rt"):
            now = turn_apart(was, TEXT, capital, False)
        elif path.endswith(".edit"):
            now = edit(was, names, capital)
        else:
            now = turn_apart(was, TICKED, capital, True)
        if now != was:
            with open(path, "w", encoding="utf-8") as f:
                f.write(now)
            changed += 1
    print(f"respell: {changed} files changed")


main()
