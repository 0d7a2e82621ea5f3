#!/usr/bin/env python3
"""Brings this repository's own definitions and lemmas to today's spelling: words in snake case, a dash only between two names.

usage: python3 tools/respell.py        at the top of the repository, once, after /opt/rattle/port/port.py

tools/respell.tsv has a row for each name: old, a tab, new. A name turns as a whole word: in the code of specs/ and proofs/, in
the .rt files outside of strings, in the old: and new: lines of the must-fail edits, and in spans in backticks of comments and
pages. In bare prose a name turns only where it has a hump, since a word with a dash may be plain English. The answers
(BAD-TABLE and the others) keep their dash in prose and pages, where they are the rule book's words.
"""

import glob
import os
import re
import sys

WORD = re.compile(r"[^\s(){}.;,@\"«»`|⌜⌝&*!?\[\]:<>=]+")
ANTT_WORD = re.compile(r"[^\s(){}.;,@\"«»]+")
COMMENT = {"antt": r"(?<![^\s(){}.;,@\"«»])--[^\n]*", "rt": r"//[^\n]*"}
STRING = r"\"(?:[^\"\\\n]|\\.)*\""
SPAN = re.compile(r"`[^`\n]+`")
HUMP = re.compile(r"[a-z0-9][A-Z]")


def main():
    here = os.path.dirname(os.path.abspath(__file__))
    with open(os.path.join(here, "respell.tsv"), encoding="utf-8") as f:
        rows = dict(line.rstrip("\n").split("\t") for line in f if line.strip())
    for path in sorted(glob.glob("crates/*/specs/**/*.antt", recursive=True) + glob.glob("crates/*/proofs/**/*.antt", recursive=True)):
        turn(path, lambda text: of_code(text, rows, "antt"))
    # a row without a dash or a hump is a lemma that would fall together with a definition; in .rt the word is a function's name
    marked = {word: new for word, new in rows.items() if "-" in word or HUMP.search(word)}
    for path in sorted(glob.glob("crates/*/src/**/*.rt", recursive=True)):
        turn(path, lambda text: of_code(text, marked, "rt"))
    for path in sorted(glob.glob("crates/*/must-fail/*.edit")):
        turn(path, lambda text: of_edit(text, rows))
    pages = glob.glob("*.md") + glob.glob("docs/**/*.md", recursive=True) + glob.glob("embedding/*.md")
    for path in sorted(pages):
        turn(path, lambda text: of_prose(text, rows))


def turn(path, by):
    with open(path, encoding="utf-8") as f:
        text = f.read()
    new = by(text)
    if new != text:
        with open(path, "w", encoding="utf-8") as f:
            f.write(new)


# A name without a dash or a hump is a lemma that has a definition's new name; behind a dot it is a field, and stays.
def spelled(word, rows, behind_dot):
    new = rows.get(word)
    if new is None or (behind_dot and "-" not in word and not HUMP.search(word)):
        return word
    return new


def words(text, rows, pattern):
    return pattern.sub(lambda m: spelled(m[0], rows, m.start() > 0 and text[m.start() - 1] == "."), text)


def of_code(text, rows, kind):
    pattern = ANTT_WORD if kind == "antt" else WORD
    parts = re.compile(f"({COMMENT[kind]}|{STRING})")
    out = []
    for part in parts.split(text):
        if part.startswith("--") or part.startswith("//"):
            out.append(of_prose(part, rows))
        elif part.startswith('"'):
            out.append(part)
        else:
            out.append(words(part, rows, pattern))
    return "".join(out)


def of_edit(text, rows):
    lines = text.split("\n")
    kind = "antt" if any(line.startswith("file:") and line.strip().endswith(".antt") for line in lines) else "rt"
    return "\n".join(of_code(line, rows, kind) if re.match(r"(old|new):", line) else line for line in lines)


def of_prose(text, rows):
    some = {word: new for word, new in rows.items() if not word.isupper()}
    bare = {word: new for word, new in some.items() if HUMP.search(word)}
    out = []
    at = 0
    for m in SPAN.finditer(text):
        out.append(words(text[at : m.start()], bare, WORD))
        out.append(words(m[0], some, WORD))
        at = m.end()
    out.append(words(text[at:], bare, WORD))
    return "".join(out)


if __name__ == "__main__":
    sys.exit(main())
