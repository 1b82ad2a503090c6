#!/usr/bin/env python3
"""Spells the repository's own definitions and lemmas as the present Rattle's library does: words in snake case, types and modules in camel case.

usage: python3 tools/respell.py [FOLDER]     (the top of a checkout; else the one that this file lies in)

names.tsv, beside this file, has a row for each name: old, a tab, new. Run it once, on what the kit's port.py wrote: a name that one row makes may be
what another row turns. Whole words turn: in .antt files everywhere, but a name with a dash in a comment only between backticks, since it may be
a word there; in .rt and .edit files, in the documents and in mutate/ likewise. Quoted text of .rt files stays. Names that rt makes for goals have no row.
"""
import os
import re
import sys

HERE = os.path.dirname(os.path.realpath(__file__))
WORD = re.compile(r"[^\s(){}\[\].;,@\"`«»:!=<>&*/|+?#\\]+")
QUOTED = re.compile(r'"(?:[^"\\\n]|\\.)*"')
TICKED = re.compile(r"`[^`\n]*`")


def rows():
    with open(os.path.join(HERE, "names.tsv"), encoding="utf-8") as f:
        return dict(line.rstrip("\n").split("\t") for line in f if line.strip())


def words(text, table):
    return WORD.sub(lambda m: table.get(m[0], m[0]), text)


def prose(text, camel, table):
    """Words between backticks turn all; elsewhere those in camel case."""
    out, at = [], 0
    for m in TICKED.finditer(text):
        out += [words(text[at : m.start()], camel), words(m[0], table)]
        at = m.end()
    return "".join(out) + words(text[at:], camel)


def by_lines(text, mark, camel, table, code):
    """Each line's code by `code`, what stands behind the comment's mark as prose."""
    out = []
    for line in text.split("\n"):
        at = line.find(mark)
        # a mark inside quoted text begins no comment
        while at >= 0 and any(m.start() < at < m.end() for m in QUOTED.finditer(line)):
            at = line.find(mark, at + 1)
        at = len(line) if at < 0 else at
        out.append(code(line[:at]) + prose(line[at:], camel, table))
    return "\n".join(out)


def unquoted(text, table):
    out, at = [], 0
    for m in QUOTED.finditer(text):
        out += [words(text[at : m.start()], table), m[0]]
        at = m.end()
    return "".join(out) + words(text[at:], table)


def turned(path, text, camel, table):
    if path.endswith(".antt"):
        return by_lines(text, "--", camel, table, lambda code: words(code, table))
    if path.endswith(".rt"):
        return by_lines(text, "//", camel, table, lambda code: unquoted(code, camel))
    if path.endswith(".edit") or os.path.basename(path) == "survivors.txt":
        return words(text, table)
    if path.endswith(".py"):
        return "".join(words(part, table) for part in re.split(r"(\\[nt])", text))
    if path.endswith(".md"):
        return prose(text, camel, table)
    return text


def main():
    root = os.path.abspath(sys.argv[1]) if len(sys.argv) > 1 else os.path.dirname(HERE)
    table = rows()
    camel = {old: new for old, new in table.items() if "-" not in old and "◌" not in old}
    files = 0
    for folder, below, names in os.walk(root):
        below[:] = sorted(d for d in below if d not in ("out", ".git", "target", "tools") and not os.path.islink(os.path.join(folder, d)))
        for name in sorted(names):
            path = os.path.join(folder, name)
            if not name.endswith((".antt", ".rt", ".edit", ".md", ".py", ".txt")) or name == "PORT.md":
                continue
            with open(path, encoding="utf-8", newline="") as f:
                old = f.read()
            new = turned(path, old, camel, table)
            if new != old:
                with open(path, "w", encoding="utf-8", newline="") as f:
                    f.write(new)
                files += 1
    print(f"{files} files")


if __name__ == "__main__":
    main()
