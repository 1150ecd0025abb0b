"""Reads docs/TOUR.md: the lines of its file, what its table says of each, and the lines that it spoils.

The page is the only source of all that; replay_cases.py makes cases of it. Whatever is not as expected ends the run with a message.
"""
import re
import sys
from typing import NamedTuple

# lines 1 to 3 are fixed, so what is open before them is not asked
OPENING = 3
HEAD = r"^\| Line \| Record \| Open before it \| .*\n\|[-|]+\|\n((?:\|.*\n)+)"


class Row(NamedTuple):
    """Of one line: the open records before it, innermost first, as number and name; its parent; 20, 21 or 0, and the line compared with."""
    open: list
    parent: int
    rule: int
    against: int


class Page(NamedTuple):
    lines: list
    rows: list
    spoiled: list


def stop(message):
    sys.exit("tour: docs/TOUR.md: " + message)


def name_of(text):
    return text.split("|")[0]


def match(pattern, text):
    return re.fullmatch(pattern, text) or stop("not understood: " + text)


def blocks(text, language):
    return [block.splitlines() for block in re.findall(rf"^```{language}\n(.*?)^```$", text, re.M | re.S)]


def numbered(line):
    found = match(r" *(\d+)  (\S.*\|)", line)
    return int(found[1]), found[2]


def lines_of(text):
    """The one file, its lines numbered from 1."""
    found = [numbered(line) for block in blocks(text, "dirf") for line in block]
    if [number for number, _ in found] != list(range(1, len(found) + 1)) or not found:
        stop("the lines of the file do not count from 1")
    return [line for _, line in found]


def open_of(cell, number, lines):
    """`7 BPFDEC, 4 IDREC` as numbers and names; `-` for the lines that are fixed, and for these alone."""
    if number <= OPENING:
        match("-", cell)
        return []
    found = [match(r"(\d+) (\w+)", item).groups() for item in cell.split(", ")]
    found = [(int(at), name) for at, name in found]
    for at, name in found:
        if at >= number or name_of(lines[at - 1]) != name:
            stop(f"line {number}: no {name} stands before it in line {at}")
    return found


def rows_of(text, lines):
    table = re.search(HEAD, text, re.M) or stop("no table of the lines")
    rows = []
    for number, row in enumerate(table[1].splitlines(), 1):
        at, name, opened, _, parent, asked = [cell.strip() for cell in match(r"\|(.*)\|", row)[1].split("|")]
        if number > len(lines) or (int(at), name) != (number, name_of(lines[number - 1])):
            stop("no such line: " + row)
        # a second value record would be a breach, so 21 finds none
        found = match(r"neither|(20|21): none|(20): line (\d+)", asked)
        rule, against = int(found[1] or found[2] or 0), int(found[3] or 0)
        rows.append(Row(open_of(opened, number, lines), int(parent), rule, against))
    if len(rows) != len(lines):
        stop("the table has not every line")
    return rows


def spoiled_of(text):
    """Each spoiled line: its number, what it becomes, and the answer's number, line and field."""
    found = []
    for changed, answer in blocks(text, "spoiled"):
        number, line, field, entries = [int(word) for word in answer.split()]
        if entries != line - 1:
            stop("a refusal has one entry fewer than its line: " + answer)
        found.append((*numbered(changed), (number, line, field)))
    return found if len(found) == 5 else stop("five lines are to be spoiled")


def read(path):
    with open(path, encoding="utf-8") as page:
        text = page.read()
    lines = lines_of(text)
    return Page(lines, rows_of(text, lines), spoiled_of(text))
