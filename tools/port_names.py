#!/usr/bin/env python3
"""Spells this repository's own definitions and lemmas in snake case, by tools/port_names.tsv, after the kit's port.py has run.

usage: tools/port_names.py        at the top of the repository, once

It turns whole names in crates/*/specs, crates/*/proofs, in clauses and `ghost use` lines of crates/*/src and in must-fail edits.
In comments a name in camel case turns, and one with a dash only between backquotes. Functions of src/, strings and outputs keep their names.
Where two old names fall together, one takes the common spelling and the other a name of its own, in the files that the table lists.
"""

import os
import re

HERE = os.path.dirname(os.path.realpath(__file__))
NAME = re.compile(r"""[^\s(){}.;,@"«»`']+'*""")
QUOTED = re.compile(r'"(?:\\.|[^"\\\n])*"')
COMMENT = re.compile(r"(?:(?<=\s)|^)(?:--|//)[^\n]*", re.M)
SPAN = re.compile(r"`[^`\n]*`")


def table():
    common, apart = {}, []
    with open(os.path.join(HERE, "port_names.tsv"), encoding="utf-8") as f:
        for line in f:
            if line.startswith("#"):
                continue
            row = line.rstrip("\n").split("\t")
            if len(row) == 4:
                common[row[0]] = row[0].replace("-", "_")
                apart.append((row[0], row[1], set(row[3].split(" "))))
            else:
                common[row[0]] = row[1]
    return common, apart


COMMON, APART = table()


def names_of(path, text):
    """The names that turn in this file."""
    turns = dict(COMMON)
    here = set(NAME.findall(text))
    for old, new, files in APART:
        if path not in files:
            continue
        turns[old] = new
        # port.py has turned it already: where a file has both names, port.py turned one of them at most
        if old not in here:
            turns[old.replace("-", "_")] = new
    return turns


def turned(text, turns, dashes=True):
    def one(m):
        word = m[0]
        new = turns.get(word)
        if new is None and word.rstrip("'") in turns:
            new = turns[word.rstrip("'")] + word[len(word.rstrip("'")):]
        return new if new and (dashes or "-" not in word) else word

    return NAME.sub(one, text)


def code_turned(text, turns):
    out, at = [], 0
    for m in re.finditer(QUOTED.pattern + "|" + COMMENT.pattern, text, re.M):
        out.append(turned(text[at : m.start()], turns))
        it = m[0]
        if it.startswith('"'):
            out.append(it)
        else:
            spans, b = [], 0
            for s in SPAN.finditer(it):
                spans += [turned(it[b : s.start()], turns, False), turned(s[0], turns)]
                b = s.end()
            out.append("".join(spans) + turned(it[b:], turns, False))
        at = m.end()
    return "".join(out) + turned(text[at:], turns)


def main():
    for folder, dirs, files in os.walk("crates"):
        dirs[:] = sorted(d for d in dirs if d != "out")
        for f in sorted(files):
            path = os.path.join(folder, f)
            if f.endswith((".antt", ".rt", ".edit")):
                with open(path, encoding="utf-8") as it:
                    old = it.read()
                if f.endswith(".edit"):
                    new = edit_turned(path, old)
                else:
                    new = code_turned(old, names_of(path, old))
                if new != old:
                    with open(path, "w", encoding="utf-8") as it:
                        it.write(new)


def edit_turned(path, text):
    """An edit still has the old spelling, which port.py left."""
    out, turns = [], dict(COMMON)
    for line in text.split("\n"):
        head, colon, rest = line.partition(": ")
        if head == "file":
            turns = names_of(os.path.join(os.path.dirname(os.path.dirname(path)), rest.strip()), " ".join(old for old, *_ in APART))
        out.append(head + colon + turned(rest, turns) if head in ("old", "new") else line)
    return "\n".join(out)


if __name__ == "__main__":
    main()
