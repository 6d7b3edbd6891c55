#!/usr/bin/env python3
"""Brings the repository's own definitions and lemmas to today's spelling, by the table beside this file (old name, tab, new name).

usage: python3 tools/respell_names.py            at the top of the repository, once, right after port.py

In .antt files a name is respelled wherever it stands; in a comment only where it is written with a capital or between backticks, so that
plain words joined by a dash stay. In .rt files and edits the same: functions, strings, inputs and outputs keep theirs. In the papers a name
is respelled where it is written with a capital or between backticks. Landing notes are history and stay."""
import glob
import os
import re

HERE = os.path.dirname(os.path.realpath(__file__))
NAMES = dict(l.rstrip("\n").split("\t") for l in open(os.path.join(HERE, "names.tsv"), encoding="utf-8") if l.strip())
TOKEN = re.compile(r"(?<![\w'’·-])[A-Za-z_][\w'₀-₉]*(?:-[\w'₀-₉]+)*(?![\w'·-])")
CAMEL = re.compile(r"[a-z0-9][A-Z]")


def respell(text):
    return TOKEN.sub(lambda m: NAMES.get(m[0], m[0]), text)


def prose(text):
    def word(m):
        return NAMES.get(m[0], m[0]) if CAMEL.search(m[0]) else m[0]

    parts = text.split("`")
    if len(parts) % 2 == 0:
        return TOKEN.sub(word, text)
    return "`".join(respell(p) if i % 2 else TOKEN.sub(word, p) for i, p in enumerate(parts))


def line_of(line, mark):
    code, at = [], 0
    # a string of Rust stays; a comment is prose
    for m in re.finditer(r'"(?:[^"\\]|\\.)*"|' + re.escape(mark) + r".*", line):
        code.append(respell(line[at:m.start()]))
        code.append(prose(m[0]) if m[0].startswith(mark) else m[0])
        at = m.end()
    code.append(respell(line[at:]))
    return "".join(code)


def antt_line(line):
    # a comment begins with two dashes at the line's start or behind a space
    m = re.search(r"(?:^|(?<=\s))--(?=\s|-|$)", line)
    return respell(line) if not m else respell(line[: m.start()]) + prose(line[m.start():])


def edit_line(line):
    return prose(line) if line.startswith("#") else line_of(line, "//")


def rewrite(path, each):
    with open(path, encoding="utf-8") as f:
        old = f.read()
    new = "\n".join(each(l) for l in old.split("\n"))
    if new != old:
        with open(path, "w", encoding="utf-8") as f:
            f.write(new)


def main():
    for path in sorted(glob.glob("crates/*/specs/**/*.antt", recursive=True) + glob.glob("crates/*/proofs/**/*.antt", recursive=True)):
        rewrite(path, antt_line)
    for path in sorted(glob.glob("crates/*/src/**/*.rt", recursive=True)):
        rewrite(path, lambda l: line_of(l, "//"))
    for path in sorted(glob.glob("crates/*/must-fail/*.edit")):
        rewrite(path, edit_line)
    for path in ["README.md"] + sorted(glob.glob("docs/*.md")):
        if os.path.basename(path) != "PORT.md":
            rewrite(path, prose)


if __name__ == "__main__":
    main()
