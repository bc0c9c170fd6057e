#!/usr/bin/env python3
"""Brings this repository's own definitions and lemmas to today's spelling: types and facts in camel case, words in
snake case, a dash only between two names. Run once, at the top, after the toolchain's port.py. The words stand in
respell.tsv, old and new, a line each. It turns .antt and .rt files, must-fail edits, and in comments and documents
what stands between backquotes; strings of the code, functions of src/, inputs and outputs keep their names."""

import os
import re

HERE = os.path.dirname(os.path.realpath(__file__))
TOKEN = re.compile(r"[^\s(){}\[\];,.`\"]+")


def words():
    with open(os.path.join(HERE, "respell.tsv"), encoding="utf-8") as f:
        return dict(line.rstrip("\n").split("\t") for line in f)


def turned(text, new):
    def one(m):
        # a generated field, as in `w.first-is`, says what a variable is
        if m[0].endswith("-is") and text[: m.start()].endswith("."):
            return m[0]
        return new.get(m[0], m[0])

    return TOKEN.sub(one, text)


def quoted(text, new):
    return re.sub(r"`[^`\n]*`", lambda m: turned(m[0], new), text)


def respelled(line, mark, new):
    at = re.search(r"(?:^|\s)" + mark, line)
    cut = at.start() if at else len(line)
    return turned(line[:cut], new) + quoted(line[cut:], new)


def main():
    new = words()
    for top in ("crates", "docs", "README.md"):
        walk = [(".", [], [top])] if os.path.isfile(top) else os.walk(top)
        for folder, dirs, files in walk:
            dirs[:] = sorted(d for d in dirs if d not in ("out", "target"))
            for name in sorted(files):
                path = os.path.join(folder, name)
                if not name.endswith((".antt", ".rt", ".edit", ".md")) or name == "PORT.md":
                    continue
                with open(path, encoding="utf-8") as f:
                    text = f.read()
                if name.endswith(".md"):
                    is_now = quoted(text, new)
                else:
                    mark = "--" if name.endswith(".antt") else "//"
                    is_now = "\n".join(respelled(line, mark, new) for line in text.split("\n"))
                if is_now != text:
                    with open(path, "w", encoding="utf-8") as f:
                        f.write(is_now)


main()
