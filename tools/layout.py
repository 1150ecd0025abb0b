"""Reads layout.txt: of each edition kinds, rows and what may stand below what, as crates/dirf/specs has them (docs/TABLES.md)."""
import os
import sys
from typing import NamedTuple

PATH = os.path.join(os.path.dirname(os.path.abspath(__file__)), "layout.txt")
# whose a line is, by its first word
EDITIONS = {"2025": (2025,), "2022": (2022,), "both": (2025, 2022)}
# what a row holds where the sources print its values
LISTED = ("oneOf", "sOrN")


class Row(NamedTuple):
    format: str
    fill: str
    size: int
    need: str
    holds: str
    values: tuple


class Layout(NamedTuple):
    """Of an edition, in the order of the file: numbers by identifier; kinds left for later; rows by kind; children by declarant, parent."""
    kinds: dict
    later: list
    rows: dict
    below: dict


def row_of(form, fill, size, need, holds, values):
    # S before N or N before S: the order in which they are printed says nothing
    return Row(form, fill, int(size), need, holds, tuple(sorted(values.split(","))) if holds in LISTED else ())


def take(table, words):
    """One line; 0 where it is none that is known."""
    if words[0] == "kind" and len(words) == 4:
        table.kinds[words[3]] = int(words[1])
    elif words[0] == "later" and len(words) == 2:
        table.later.append(words[1])
    elif words[0] == "row" and len(words) == 9:
        table.rows.setdefault(words[1], []).append(row_of(*words[3:]))
    elif words[0] == "below" and len(words) == 4:
        table.below.setdefault(words[1], {}).setdefault(words[2], []).append(words[3])
    else:
        return 0
    return 1


def read(path=PATH):
    """The layout of each edition, by its year."""
    tables = {edition: Layout({}, [], {}, {}) for edition in EDITIONS["both"]}
    with open(path, encoding="utf-8") as file:
        for line in file:
            whose, *words = line.split()
            if whose == "#":
                continue
            if whose not in EDITIONS or not all(take(tables[edition], words) for edition in EDITIONS[whose]):
                sys.exit("layout: not understood: " + line)
    return tables
