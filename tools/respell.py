#!/usr/bin/env python3
"""Turns the repository's own names to today's spelling, by the tables respell.tsv and respell-papers.tsv beside this script.

usage: python3 tools/respell.py [FOLDER]    FOLDER is the top of the repository, by default this script's

It runs once, right behind the kit's port.py, which turns only the names that are the library's too, and those in .antt
and .rt files alone: respell-papers.tsv has these, for the other files. Each row of a table is a name, a tab and its new
spelling. Whole words turn: in .antt, .rt and .edit files all but strings, and of comments only what stands in
backticks; in .md files what stands in backticks. A folder of proofs that is named after a cycle of calls gets the
cycle's new name.
"""

import os
import re
import sys

HERE = os.path.dirname(os.path.realpath(__file__))
WORD = re.compile(r"[^\s(){}\[\].;:,@\"«»+`#]+")
STRING = re.compile(r'"(?:[^"\\]|\\.)*"')
SPAN = re.compile(r"`[^`\n]*`")


def turn(text, table):
    return WORD.sub(lambda m: table.get(m.group(), m.group()), text)


def turn_spans(text, table):
    return SPAN.sub(lambda m: turn(m.group(), table), text)


def turn_code(line, table, mark):
    """A line of code: its words but for strings, and the backticked words of its comment."""
    out, at = [], 0
    for m in re.finditer(STRING.pattern + "|" + mark, line):
        out.append(turn(line[at : m.start()], table))
        if m.group().startswith('"'):
            out.append(m.group())
            at = m.end()
        else:
            return "".join(out) + turn_spans(line[m.start() :], table)
    return "".join(out) + turn(line[at:], table)


def turned(path, text, table, papers):
    lines = text.split("\n")
    if path.endswith(".antt"):
        return "\n".join(turn_code(l, table, r"(?<![^\s])--(?=\s|$)") for l in lines)
    if path.endswith(".rt"):
        return "\n".join(turn_code(l, table, "//") for l in lines)
    if path.endswith(".edit"):
        return "\n".join(turn(l, papers) if l.startswith(("old:", "new:")) else l for l in lines)
    return "\n".join(turn_spans(l, papers) for l in lines)


def rows(name):
    with open(os.path.join(HERE, name), encoding="utf-8") as f:
        return dict(l.rstrip("\n").split("\t") for l in f)


def main(argv):
    root = os.path.realpath(argv[0] if argv else os.path.join(HERE, ".."))
    table = rows("respell.tsv")
    papers = rows("respell-papers.tsv") | table
    changed = 0
    for top in ("crates", "docs", "host", "vectors", "README.md"):
        top = os.path.join(root, top)
        walked = [(root, [], ["README.md"])] if top.endswith(".md") else os.walk(top)
        for folder, dirs, files in walked:
            dirs[:] = sorted(d for d in dirs if d not in ("out", "target"))
            for name in list(dirs):
                new = "+" + table.get(name[1:], "")
                if name.startswith("+") and len(new) > 1:
                    os.rename(os.path.join(folder, name), os.path.join(folder, new))
                    dirs[dirs.index(name)] = new
            for name in sorted(files):
                path = os.path.join(folder, name)
                if not name.endswith((".antt", ".rt", ".edit", ".md")) or name == "PORT.md":
                    continue
                with open(path, encoding="utf-8") as f:
                    text = f.read()
                new = turned(path, text, table, papers)
                if new != text:
                    with open(path, "w", encoding="utf-8") as f:
                        f.write(new)
                    changed += 1
    print(f"respell: {changed} files changed")
    return 0


if __name__ == "__main__":
    raise SystemExit(main(sys.argv[1:]))
