#!/usr/bin/env python3
"""Brings the repository's own definitions and lemmas to the spelling of today's Rattle: words in snake case.

usage: python3 tools/respell.py [FOLDER]     in a checkout that port.py of the kit has turned, once

tools/respell.tsv has a row for each name: old, a tab, new. A dash stays where it joins the names of two functions, as in `length-reversed`.
What turns: whole words of the code of each .antt file; the clauses of each .rt file; code spans of comments, of the pages and of the edits, and
the edits' own text. A word of a page or an edit that is spelled as before port.py, and whose underscored form the code has, turns too.
"""
import os
import re
import sys

WORD = re.compile(r"[^\s(){}.;,@\"«»\[\]⟨⟩`:|=]+")
COMMENT = re.compile(r"(?:(?<=\s)|^)--.*$|//.*$")
SPAN = re.compile(r"`[^`\n]*`")


def texts(root, endings):
    for folder, dirs, files in os.walk(root):
        dirs[:] = sorted(d for d in dirs if d not in ("out", "target", ".git"))
        for name in sorted(files):
            if name.endswith(endings):
                yield os.path.join(folder, name)


def read(path):
    with open(path, encoding="utf-8") as f:
        return f.read()


def words(table, text):
    return WORD.sub(lambda m: table.get(m.group(), m.group()), text)


def line_of_code(table, line):
    comment = COMMENT.search(line)
    code, rest = (line[: comment.start()], line[comment.start() :]) if comment else (line, "")
    return words(table, code) + SPAN.sub(lambda m: words(table, m.group()), rest)


def code(table, text):
    return "\n".join(line_of_code(table, line) for line in text.split("\n"))


def names(root):
    found = set()
    for path in texts(os.path.join(root, "crates"), (".antt", ".rt")):
        found.update(WORD.findall(read(path)))
    return found


def older(table, known):
    """The table, and beside it each dashed word that the code no longer has while it has the underscored one."""

    def new(word):
        if word in table:
            return table[word]
        turned = word.replace("-", "_")
        return turned if word not in known and turned in known else word

    class Table(dict):
        def get(self, word, default=None):
            return new(word)

    return Table()


def main(argv):
    root = argv[0] if argv else "."
    here = os.path.dirname(os.path.realpath(__file__))
    table = dict(row.split("\t") for row in read(os.path.join(here, "respell.tsv")).splitlines())
    for path in texts(os.path.join(root, "crates"), (".antt", ".rt")):
        before = read(path)
        after = code(table, before)
        if after != before:
            with open(path, "w", encoding="utf-8") as f:
                f.write(after)
    wide = older(table, names(root))
    for path in texts(root, (".edit", ".md")):
        before = read(path)
        if path.endswith(".edit"):
            after = "\n".join(line if line.startswith("file:") else words(wide, line) for line in before.split("\n"))
        else:
            after = SPAN.sub(lambda m: words(wide, m.group()), before)
        if after != before:
            with open(path, "w", encoding="utf-8") as f:
                f.write(after)


if __name__ == "__main__":
    main(sys.argv[1:])
