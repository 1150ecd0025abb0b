#!/usr/bin/env python3
"""Writes stdin, a run of cases, and stdout, what documents 01 and 02 demand for each, to crates/replay or to the folder that is named.

Nothing here asks the program. Of a file the number, the line and the field are written beside it, and the indents of its lines say which
line is the parent of which, and so the last line of each group; of docs/TOUR.md's file the page says it. Records, rows and lists are those
of layout.txt, and each case says what it breaks; all else in it is right, check digits and flags too, since makers.py makes them. What
cases are made of is in replay_form.py, those of groups and of the search are in search_cases.py, those of totals in totals_cases.py, and
the layout of a case is in docs/REPLAY.md. Run it from anywhere; it writes the same bytes every time.
"""
import itertools
import os
import sys

# no folder of compiled modules is left in the repository
sys.dont_write_bytecode = True
import makers
import search_cases
import totals_cases
import tour as tour_page
from replay_form import (
    ANNUAL, CNPJ, CPF, END, FIRST, KIND, LATER, LAYOUT, LAYOUTS, LEAD, LINE, MONTHLY, NUMBERS, OTHER_CNPJ, ROWS, RUN, WANTED,
    bytes_of, case, cells_of, check, check_bytes, held, number, older, pf, pj, string, suits, with_cell, with_cells, with_field,
    with_fields, with_first, words,
)

ROOT = os.path.dirname(os.path.dirname(os.path.abspath(__file__)))
# two digits swapped
SWAPPED = "11144477753"

# one of each group of records that have their rows together
SAMPLES = [name for name in ROWS if name not in MONTHLY[1:] + ANNUAL[1:]]

# DECPJ's list, which has every record that DECPF's has; below an IDREC it hangs on what that belongs to
HELD = LAYOUT.below["DECPJ"]
ORDER, PEOPLE = HELD["DECPJ"], HELD["IDREC"] + HELD["SCP"]
# the beneficiaries of each block, whose names end as its own does, the declarant's own under ""
BLOCKS = {block: [who for who in PEOPLE if who.endswith(block or "DEC")] for block in ["", *ORDER[1:]]}


def values_below(table):
    """By declarant, the value records of each beneficiary."""
    below = {declarant: {who: names for who, names in held.items() if who in PEOPLE} for declarant, held in table.below.items()}
    # what a person may declare of a BPFDEC comes first in a company's file too
    below["DECPJ"]["BPFDEC"] = sorted(below["DECPJ"]["BPFDEC"], key=lambda name: name not in below["DECPF"]["BPFDEC"])
    return below


BELOW = values_below(LAYOUT)
# what opens below a beneficiary, and the records of a health plan
PENSIONS, PLAN = ["INFPC", "INFPA"], ["OPSE", "TPSE", "RTPSE", "DTPSE", "RDTPSE"]
OTHERS = [name for name in ROWS if name not in MONTHLY + ANNUAL + PENSIONS and any(name in HELD[who] for who in PEOPLE)]
VALUES = MONTHLY + ANNUAL + OTHERS

# what the older edition has not
GONE = ("RTDS", "ESDS")

# what has a lawyer, in fields 4 to 6
WITH_LAWYER = ("PROC", "RRA")


def write(kind, cells, breach, field=0, room=300, contents=None, lengths=None, edition=None):
    """By `W`, or by `E` where an edition is named."""
    contents = "".join(cells) if contents is None else contents
    lengths = [len(cell) for cell in cells] if lengths is None else lengths
    text = "".join(cell + "|" for cell in cells) + END if breach == 0 else ""
    given = [number(kind), number(room), string(contents), number(len(lengths))] + [number(n) for n in lengths]
    letter, told = ("W", []) if edition is None else ("E", [number(edition)])
    case(letter, told + given, words(breach, field, len(text), 1, text.encode("latin-1").hex()))


def lawyer(name, field, cell):
    """What field 4 of PROC and RRA says where this stands in field 5 or 6: 2 for a CNPJ and for a name, else 1."""
    if name not in WITH_LAWYER or field not in (5, 6):
        return {}
    return {4: "2" if field == 6 or len(cell) == makers.CNPJ_SIZE else "1"}


# ---- files


SIX = pf(
    """
  SCP
    BPFSCP
FIMDirf
"""
)


def marked():
    """M1 to M8."""
    check_bytes("", [], 1, 1)
    check(SIX, 0, 6)
    check("\n".join(SIX.split("\n")[:5]), 1, 6)
    check(SIX, 2, 7, after="\n")
    check(SIX.replace("Dirf\nRESPO", "=DIRF|2025|2024|N||R6GP3ZA|\nRESPO"), 9, 1, 1)
    check(SIX.replace("\nFIMDirf", "\n=FIMDirf"), 8, 6)
    check(SIX.replace("DECPF", with_field("DECPF", 8, "S", ["SCP"])), 19, 3, 9)
    check(SIX.replace("FIMDirf", "    BPFSCP\nFIMDirf"), 20, 6, 2)


def line_ends():
    """4, 5, 6 and 8, at 1,024 and 1,025 bytes too, in line 1 and in line 2."""
    for before in ([], [(LINE["Dirf"], 0)]):
        head = bytes_of(before)
        line = len(before) + 1
        for data, breach in [
            ("a", 5), ("a\r", 5), ("\r", 5), ("a|", 5), ("FIMDirf|\r", 5),
            ("\n", 6), ("a\n", 6), ("a\nb\r", 6), ("a\rb", 6), ("a\r\r\n", 6), ("a\rb\r\n", 6), ("\n\r", 6), ("\n\r\n", 6), ("\r\r", 6),
            ("a|\nb|\r\n", 6),
            ("\r\n", 8), ("a\r\n", 8), ("a|b\r\n", 8), ("\r\n\r\n", 8), (" \r\n", 8), ("Dirf|2025\r\n", 8),
            ("a" * 1024, 5), ("a" * 1024 + "\r", 5), ("a" * 1024 + "\n", 6), ("a" * 1024 + "\rb", 6), ("a" * 1024 + "\r\n", 8),
            ("a" * 1023 + "|\r\n", 9),
            ("a" * 1025, 4), ("a" * 1025 + "\r", 4), ("a" * 1025 + "\n", 4), ("a" * 1025 + "\rb", 4), ("a" * 1025 + "\r\n", 4),
            ("a" * 1024 + "|\r\n", 4),
            ("a" * 3000, 4),
        ]:
            check_bytes(head + data, before, breach, line, 1 if breach == 9 else 0)


def identifiers():
    """9 and 10: every kind left for later is known, whatever stands behind it and wherever it stands."""
    for text in ["dirf|", "DIRF|", "Dir|", "Dirff|", "|", " Dirf|", "Dirf |", "FIMDIRF|", "RTRTX|", "RTR|", "BPFRRRA|", "BPFICI|",
    "QTMESSES|", "\x00|", "\xff|"]:
        check("=" + text, 9, 1, 1)
        check(pj("  =" + text + "\nFIMDirf"), 9, 4, 1)
    for name in LATER:
        check("=" + name + "|", 10, 1, 1)
        check(pj("  =" + name + "|1|2|\nFIMDirf"), 10, 4, 1)


FULL_PJ = """
  IDREC
    BPFDEC
%s
    BPJDEC
%s
  IDREC|0588|
    BPFDEC
  FCI
    IDREC
      BPFFCI
%s
      BPJFCI
%s
  PROC
    IDREC
      BPFPROC
%s
      BPJPROC
%s
  RRA
    IDREC
      BPFRRA
%s
  SCP
    BPFSCP
%s
    BPJSCP
%s
  PSE
%s
FIMDirf"""

FULL_PF = """
  IDREC
    BPFDEC
%s
    BPJDEC
%s
  RRA
    IDREC
      BPFRRA
%s
  SCP
    BPFSCP
%s
    BPJSCP
%s
  PSE
%s
FIMDirf"""


def values(held, outer, holder, names, depth):
    """Lines of these records, and below each all that may stand there."""
    rows = []
    for name in names:
        if suits(outer, holder, name):
            rows += [" " * depth + name, *values(held, holder, name, held.get(name, []), depth + 2)]
    return rows


def full(declarant, turned, below=BELOW):
    """Every record that the declarant's list has, each value record once; turned round, below a beneficiary in the other order."""
    has = {who: names[::-1] if turned else names for who, names in below[declarant].items()}
    held, tree = LAYOUT.below[declarant], pj if declarant == "DECPJ" else pf
    order = [("BPFDEC", 6), ("BPJDEC", 6), ("BPFFCI", 8), ("BPJFCI", 8), ("BPFPROC", 8), ("BPJPROC", 8), ("BPFRRA", 8), ("BPFSCP", 6),
    ("BPJSCP", 6)]
    parts = [values(held, "", who, has[who], depth) for who, depth in order if who in has] + [values(held, declarant, "PSE", ["OPSE"], 4)]
    return tree((FULL_PJ if declarant == "DECPJ" else FULL_PF) % tuple("\n".join(part) for part in parts))


def whole_files():
    """Files that keep every rule, every kind of the base among them."""
    for declarant in ("DECPF", "DECPJ"):
        for turned in (False, True):
            tree = full(declarant, turned)
            check(tree, 0, len(tree.strip("\n").split("\n")))
    check(pf("FIMDirf"), 0, 4)
    check(pj("FIMDirf"), 0, 4)
    for name in "IDREC FCI PROC RRA SCP PSE".split():
        check(pj("  " + name + "\nFIMDirf"), 0, 5)
    for name in "IDREC RRA SCP PSE".split():
        check(pf("  " + name + "\nFIMDirf"), 0, 5)
    # nothing is left, and FIMDirf was not read
    check(LINE["Dirf"], 1, 2)
    check("Dirf\nRESPO", 1, 3)
    check(pj("  IDREC\n    BPFDEC\n      RTRT"), 1, 7)
    for after in ("\n", "x", "\r\n", LINE["FIMDirf"] + END, "a" * 2000):
        check(pj("FIMDirf"), 2, 5, after=after)


def places():
    """12, and the parents where a record may stand."""
    for name in LINE:
        if name != "Dirf":
            check(name + "\nRESPO", 12, 1, 1)
        if name != "RESPO":
            check("Dirf\n" + name, 12, 2, 1)
        if name not in ("DECPF", "DECPJ"):
            check("Dirf\nRESPO\n" + name, 12, 3, 1)
        if name not in "IDREC RRA SCP PSE FIMDirf".split():
            check(pf("  " + name), 12, 4, 1)
        if name not in "IDREC FCI PROC RRA SCP PSE FIMDirf".split():
            check(pj("  " + name), 12, 4, 1)
    # READINGS.md's five
    check(pj("  FCI\n    BPFFCI"), 12, 5, 1)
    check(pj("  PROC\n    IDREC\n      BPFDEC"), 12, 6, 1)
    check(pj("  FCI\n    IDREC\n      BPFDEC"), 12, 6, 1)
    check(pj("  SCP\n    IDREC"), 12, 5, 1)
    check(pf("  SCP\n    IDREC"), 12, 5, 1)
    check(pj("  IDREC\n    BPFFCI"), 12, 5, 1)
    # the beneficiaries of one block, below an IDREC of another
    for tree, block in ((pj, ""), (pj, "FCI"), (pj, "PROC"), (pj, "RRA"), (pf, ""), (pf, "RRA")):
        for other in BLOCKS:
            for name in BLOCKS[other]:
                lead = "  IDREC\n    " if block == "" else "  " + block + "\n    IDREC\n      "
                line = 5 if block == "" else 6
                if other == block:
                    check(tree(lead + name + "\nFIMDirf"), 0, line + 1)
                else:
                    check(tree(lead + name), 12, line, 1)
    for name in "BPFDEC BPJDEC BPFFCI BPJFCI BPFPROC BPJPROC BPFRRA".split():
        check(pj("  SCP\n    " + name), 12, 5, 1)
        check(pj("  RRA\n    " + name), 12, 5, 1)
    # blocks and beneficiaries in their order
    for i, first in enumerate(ORDER):
        for j, second in enumerate(ORDER):
            # an IDREC behind FCI, PROC or RRA is theirs; behind SCP it may not stand
            if second == "IDREC" and first in ("FCI", "PROC", "RRA"):
                check(pj("  " + first + "\n    IDREC\nFIMDirf"), 0, 6)
            elif i < j:
                check(pj("  " + first + "\n  " + second + "\nFIMDirf"), 0, 6)
            elif i > j:
                check(pj("  " + first + "\n  " + second), 12, 5, 1)
    check(pj("  IDREC\n    BPJDEC\n    BPFDEC"), 12, 6, 1)
    check(pj("  FCI\n    IDREC\n      BPJFCI\n      BPFFCI"), 12, 7, 1)
    check(pj("  PROC\n    IDREC\n      BPJPROC\n      BPFPROC"), 12, 7, 1)
    check(pj("  SCP\n    BPJSCP\n    BPFSCP"), 12, 6, 1)
    # a new IDREC or block closes the beneficiary
    check(pj("  IDREC\n    BPFDEC\n  IDREC|0588|\n    RTRT"), 12, 7, 1)
    check(pj("  IDREC\n    BPFDEC\n  FCI\n    RTRT"), 12, 7, 1)
    check(pj("  IDREC\n    RTRT"), 12, 5, 1)
    check(pj("  SCP\n    RISCP"), 12, 5, 1)
    # an IDREC after PROC is the PROC's, the next one too
    check(pj("  PROC\n    IDREC\n      BPFPROC\n    IDREC|0588|\n      BPFPROC\n        RTRT\nFIMDirf"), 0, 10)
    check(pj("  IDREC\n    BPFDEC\n  PROC\n    IDREC\n      BPFPROC\n  RRA\n    IDREC\n      BPFRRA\n        DAJUD\nFIMDirf"), 0, 13)
    # FIMDirf may stand anywhere after line 3
    for tree in ("  IDREC", "  IDREC\n    BPFDEC", "  IDREC\n    BPFDEC\n      RTRT", "  FCI\n    IDREC", "  SCP"):
        check(pj(tree + "\nFIMDirf"), 0, 5 + tree.count("\n"))


def below():
    """Every value record below every beneficiary, under both declarants, where the lists do not have it."""
    for declarant, tree in (("DECPF", pf), ("DECPJ", pj)):
        for who, has in BELOW[declarant].items():
            line = 5 + LEAD[who].count("\n")
            for name in VALUES + PENSIONS + PLAN:
                if name not in has:
                    check(tree(LEAD[who] + who + "\n  " + name), 12, line, 1, spare=0)


def orders():
    """20 and 21."""
    for name in "BPFSCP BPJSCP BPFDEC BPJDEC BPFFCI BPJFCI BPFPROC BPJPROC BPFRRA".split():
        lead = LEAD[name]
        size = len(cells_of(name)[1])
        fives = int("5" * (size - makers.CHECK_SIZE))
        same, more, less = [with_field(name, 2, makers.key(size, serial)) for serial in (fives, fives + 1, fives - 1)]
        indent = " " * (len(lead) - lead.rfind("\n") - 1)
        line = 5 + lead.count("\n")
        check(pj(lead + same + "\n" + indent + more + "\nFIMDirf"), 0, line + 1)
        check(pj(lead + same + "\n" + indent + same), 20, line, 2)
        check(pj(lead + same + "\n" + indent + less), 20, line, 2)
        # compared as bytes with their zeros, from the first byte on
        nines = int("4" + "9" * (size - makers.CHECK_SIZE - 1))
        check(pj(lead + same + "\n" + indent + with_field(name, 2, makers.key(size, nines))), 20, line, 2)
    for name in ("IDREC", "FCI", "SCP"):
        size = len(cells_of(name)[1])
        one, other = with_field(name, 2, makers.key(size, 1)), with_field(name, 2, makers.key(size, 2))
        check(pj("  " + one + "\n  " + other + "\nFIMDirf"), 0, 6)
        check(pj("  " + one + "\n  " + one), 20, 5, 2)
        check(pj("  " + other + "\n  " + one), 20, 5, 2)
    # PROC and RRA: field 2, then field 3, as bytes, a proper beginning first, the empty key the least
    for name, tree in (("PROC", pj), ("RRA", pj), ("RRA", pf)):
        for (a, b), (x, y), breach in [
            (("1", "10"), ("1", "9"), 0), (("1", "9"), ("1", "10"), 20), (("1", "1"), ("1", "10"), 0), (("1", "10"), ("1", "1"), 20),
            (("1", "5"), ("1", "5"), 20), (("1", "9"), ("2", "1"), 0), (("2", "1"), ("1", "9"), 20), (("1", "A"), ("1", "a"), 0), (("1",
            "Z\xff"), ("1", "Z"), 20),
            (("1", "007"), ("1", "7"), 0), (("1", "7"), ("1", "007"), 20), (("2", "B"), ("2", "A"), 20),
        ]:
            first = "|".join([name, a, b]) + "|||||"
            second = "|".join([name, x, y]) + "|||||"
            check(tree("  " + first + "\n  " + second + "\nFIMDirf"), breach, 6 if breach == 0 else 5, 0 if breach == 0 else 2)
    check(pj("  RRA|1||||||\n  RRA|1|1|||||\nFIMDirf"), 0, 6)
    check(pj("  RRA|1|1|||||\n  RRA|1||||||"), 20, 5, 2)
    check(pj("  RRA|1||||||\n  RRA|1||||||"), 20, 5, 2)
    # the one before need not be the line before
    low, high = with_field("BPFDEC", 2, makers.cpf(1)), with_field("BPFDEC", 2, makers.cpf(2))
    check(pj(f"  IDREC\n    {high}\n      RTRT\n      RIO\n    {low}"), 20, 8, 2)
    check(pj(f"  IDREC\n    {low}\n      RTRT\n    {high}\n      RTRT\nFIMDirf"), 0, 9)
    check(pj(f"  IDREC\n    {low}\n  IDREC"), 20, 6, 2)
    check(pj("  FCI\n    IDREC\n      BPFFCI\n  FCI"), 20, 7, 2)
    check(pj("  PROC\n    IDREC\n      BPFPROC\n        RTRT\n  PROC"), 20, 8, 2)
    # the order starts afresh under a new parent
    check(pj(f"  IDREC\n    {high}\n  IDREC|0588|\n    {low}\n  IDREC|1708|\n    {low}\nFIMDirf"), 0, 10)
    funds = f"  IDREC|9999|\n  FCI\n    IDREC\n  FCI|{OTHER_CNPJ}|B|\n    IDREC\n"
    others = "  PROC\n    IDREC\n      BPFPROC\n  RRA\n    IDREC\n      BPFRRA\n"
    check(pj(funds + others + "FIMDirf"), 0, 15)
    check(pj(f"  SCP\n    BPFSCP\n  SCP|{OTHER_CNPJ}|B|\n    BPFSCP\nFIMDirf"), 0, 8)
    check(pj("  IDREC|0588|\n  FCI\n    IDREC|0561|\n    IDREC|0561|"), 20, 7, 2)
    # 21: once under one beneficiary, and again under the next
    for who, lead, depth in (("BPFDEC", "  IDREC\n    ", 4), ("BPFSCP", "  SCP\n    ", 4), ("BPFRRA", "  RRA\n    IDREC\n      ", 6),
    ("BPFPROC", "  PROC\n    IDREC\n      ", 6)):
        value = BELOW["DECPJ"][who][0]
        line = 6 + lead.count("\n")
        next_one = with_field(who, 2, makers.cpf(999999999))
        deep = " " * (depth + 2)
        check(pj(f"{lead}{who}\n{deep}{value}\n{deep}{value}"), 21, line, 1)
        check(pj(f"{lead}{who}\n{deep}{value}\n{' ' * depth}{next_one}\n{deep}{value}\nFIMDirf"), 0, line + 2)
    check(pj("  IDREC\n    BPFDEC\n      RTRT\n      RTPO\n      RIO\n      RTRT"), 21, 9, 1)
    check(pj("  IDREC\n    BPFDEC\n      RIO\n      RIO|200|AINDA OUTROS|"), 21, 7, 1)


# of each number a file that gives it: the tree, the line, the field
def faults():
    short = "  IDREC\n    BPFDEC\n"
    yield 8, pj(short + "      =RTRT"), 6, 0
    yield 9, pj(short + "      =RTRR|"), 6, 1
    yield 10, pj(short + "      =VPEIM|"), 6, 1
    yield 12, pj(short + "      RISCP"), 6, 1
    yield 11, pj(short + "      RTRT|1|"), 6, 0
    yield 13, pj(short + "      RIO||OUTROS|"), 6, 2
    yield 14, pj(short + "      RIO|x|OUTROS|"), 6, 2
    yield 15, pj(short + "      RIO|12345678901234|OUTROS|"), 6, 2
    yield 16, pj(short + "      RIO|0|OUTROS|"), 6, 2
    yield 17, pj("  IDREC\n    " + with_field("BPFDEC", 4, "20230229")), 5, 4
    yield 18, pj("  IDREC\n    " + with_field("BPFDEC", 5, "X")), 5, 5
    yield 26, pj("  IDREC\n    " + with_field("BPFDEC", 2, SWAPPED)), 5, 2
    yield 19, "Dirf\nRESPO\n" + with_field("DECPF", 8, "S"), 3, 9
    yield 19, pj("  " + with_field("PROC", 5, CPF)), 4, 5
    yield 19, pj("  " + with_field("RRA", 6, "RUI BARBOSA")), 4, 6
    yield 21, pj(short + "      RTRT\n      RTRT"), 7, 1
    yield 20, pj("  IDREC\n  IDREC"), 5, 2
    # of a private pension, alimony and a health plan
    yield 12, pj(short + "      RTPP"), 6, 1
    yield 12, pj(short + "      INFPC\n        RTPP\n      RIDAC\n      RTFA"), 9, 1
    yield 12, pj("  PSE\n  PSE"), 5, 1
    yield 11, pj(short + "      INFPC|1|"), 6, 0
    yield 13, pj(LEAD["TPSE"] + with_field("TPSE", 4, "")), 6, 4
    yield 15, pj(LEAD["DTPSE"] + with_field("DTPSE", 6, "1" * 10)), 7, 6
    yield 15, pj(LEAD["RTPSE"] + with_field("RTPSE", 2, "1" * 12)), 7, 2
    yield 16, pj(LEAD["RDTPSE"] + with_field("RDTPSE", 5, "0")), 8, 5
    yield 17, pj(LEAD["DTPSE"] + with_field("DTPSE", 3, "20230229")), 7, 3
    yield 18, pj(LEAD["INFPA"] + with_field("INFPA", 5, "05")), 6, 5
    yield 26, pj(LEAD["RTPSE"] + with_field("RTPSE", 2, SWAPPED)), 7, 2
    yield 21, pj(short + "      RTRT\n      INFPC\n      RTRT"), 8, 1
    yield 21, pj(short + "      INFPC\n        RTPP\n        RTPP"), 8, 1
    yield 20, pj(short + "      INFPC\n      INFPA\n      RIDAC\n      INFPC"), 9, 2
    yield 20, pj(LEAD["RTPSE"] + "RTPSE\n        RTPSE"), 8, 2


def rooms():
    """7, tried last: against every other fault of its line, and before those of later lines."""
    for breach, tree, line, field in faults():
        check(tree, breach, line, field, room=line)
        check(tree, breach, line, field, room=line - 1)
        if line > 3:
            check(tree, 7, line - 1, 0, room=line - 2)
    for spare in range(NUMBERS):
        check(SIX, 0, 6, room=6, spare=spare)
        check(SIX, 7, 6, room=5, spare=spare)
        check(SIX, 7, 1, room=0, spare=spare)
    check(SIX, 2, 7, room=6, spare=0, after="\n")
    check(SIX, 7, 6, room=5, spare=0, after="\n")
    check("\n".join(SIX.split("\n")[:5]), 1, 6, room=5, spare=0)
    check_bytes("", [], 1, 1, room=0, spare=0)
    for data, breach in (("a" * 1025, 4), ("a", 5), ("a\n", 6), ("\r\n", 8)):
        check_bytes(LINE["Dirf"] + END + data, [(LINE["Dirf"], 0)], breach, 2, room=1, spare=0)
    check(SIX, 0, 6, room=3000)


def pairs():
    """Two faults in one line or one file: which is named."""
    # 12 against 11: the identifier alone decides 12
    check(pf("  FCI|"), 12, 4, 1)
    check(pj("  IDREC\n    BPFFCI|1|"), 12, 5, 1)
    check("RESPO|", 12, 1, 1)
    # 9 and 10 against 11 and 12
    check("INF|1|2|3|", 10, 1, 1)
    # 11 against 13 and 14
    check("Dirf||", 11, 1)
    check("Dirf|x|2024|N||R6GP3ZA|N|", 11, 1)
    check("Dirf|2025|2024|N||R6GP3ZA||", 11, 1)
    check("Dirf|", 11, 1)
    for more in ("|", "||", "A|", "|" * 900):
        check("Dirf\nRESPO\n=" + LINE["DECPF"] + more, 11, 3)
    check("=FIMDirf||", 12, 1, 1)
    check(pf("=FIMDirf||"), 11, 4)
    # 8 against 9
    check("=XXXX", 8, 1)
    # 13 in a low field against 14 in a high one, and the other way about
    check("Dirf||2024|N|x|R6GP3ZA|", 13, 1, 2)
    check("Dirf|2025||N|x|R6GP3ZA|", 13, 1, 3)
    check("Dirf|x|2024|||R6GP3ZA|", 14, 1, 2)
    check("Dirf|2025|2024|||X|", 13, 1, 4)
    check("Dirf|2026|2024|||R6GP3ZA|", 18, 1, 2)
    # 14 against 15: a masked CPF is both
    masked = "111.444.777-35"
    check("Dirf\n" + with_field("RESPO", 2, masked), 14, 2, 2)
    check("Dirf\nRESPO\n" + with_field("DECPF", 2, masked), 14, 3, 2)
    check(pj("  IDREC\n    " + with_field("BPFDEC", 2, masked)), 14, 5, 2)
    check("Dirf\n" + with_field("RESPO", 2, "111444777350"), 15, 2, 2)
    # 15 against 16
    check("Dirf\n" + with_field("RESPO", 4, "011"), 15, 2, 4)
    check("Dirf\n" + with_field("RESPO", 4, "0"), 15, 2, 4)
    check("Dirf\n" + with_field("RESPO", 4, "01"), 16, 2, 4)  # M12
    check("Dirf\n" + with_field("RESPO", 4, "0x"), 14, 2, 4)
    check(pj("  IDREC\n    BPFDEC\n      RIO|00000000000000|OUTROS|"), 15, 6, 2)
    check(pj("  IDREC\n    BPFDEC\n      RIO|0000000000000|OUTROS|"), 16, 6, 2)
    check(pj("  IDREC\n    BPFDEC\n      RIO|0|" + "A" * 61 + "|"), 16, 6, 2)
    check(pj("  IDREC\n    BPFDEC\n      RIO||" + "A" * 61 + "|"), 13, 6, 2)
    check(pj("  IDREC\n    BPFDEC\n      RIO|1|" + "A" * 61 + "|"), 15, 6, 3)
    # 17 against 18, by field
    both = cells_of("DECPF")
    both[8], both[9] = "20230229", "3"
    check("Dirf\nRESPO\n" + "|".join(both) + "|", 17, 3, 9)
    both[3] = "X"
    check("Dirf\nRESPO\n" + "|".join(both) + "|", 18, 3, 4)
    # 13 to 18 of every field before 19
    late = cells_of("DECPF")
    late[7], late[14] = "S", "A" * 61
    check("Dirf\nRESPO\n" + "|".join(late) + "|", 15, 3, 15)
    # 19 against 20 and 21, which only later lines of that file can have
    check("Dirf\nRESPO\n" + with_field("DECPF", 8, "S") + "\n  IDREC\n  IDREC", 19, 3, 9)
    check("Dirf\nRESPO\n" + with_field("DECPF", 8, "S") + "\n  IDREC\n    BPFDEC\n      RTRT\n      RTRT", 19, 3, 9)
    # 18 and 17 against 20 and 21
    check(pj("  IDREC\n    BPFDEC\n    " + with_field("BPFDEC", 6, "n")), 18, 6, 6)
    check(pj("  IDREC\n    BPFDEC\n    " + with_field("BPFDEC", 4, "20241301")), 17, 6, 4)
    check(pj("  IDREC\n    BPFDEC\n      RTRT\n      " + with_field("RTRT", 14, "0")), 16, 7, 14)
    # 12 against 20 and 21: a value record below a closed beneficiary is 12, not 21
    check(pj("  IDREC\n    BPFDEC\n      RTRT\n  IDREC|0588|\n    RTRT"), 12, 8, 1)
    # the first line with a fault, not the gravest
    check(pj("  " + with_field("IDREC", 2, "056") + "\n=\n=XXXX"), 15, 4, 2)
    # reading stops at a bad beneficiary: its amounts go to nobody
    check(pj("  IDREC\n    BPFDEC\n      RTRT\n    " + with_field("BPFDEC", 2, "1114447773") + "\n      RTRT"), 15, 7, 2)


# ---- the fields of each record


# of fields that are alike these are tried
MONTHS = {"RTRT": (2, 8, 14), "QTMESES": (2, 13)}


def ones(size):
    """So many digits, the check digits of a CPF or CNPJ right."""
    return makers.key(size, makers.serial_of("1" * size))


# the sizes of what holds check digits
IDENTITY = {"cpf": (11,), "cnpj": (14,), "cpfOrCnpj": (11, 14)}


def neighbours(digits):
    """The same number with one of its check digits one more or one less: each is wrong, whatever the other digit."""
    for at in (len(digits) - 2, len(digits) - 1):
        for step in (1, 9):
            yield digits[:at] + str((int(digits[at]) + step) % 10) + digits[at + 1 :]


def dates_taken():
    for day in "19000101 20991231 20240229 20000229 20240131 20240430 20241231".split():
        yield day, 0
    for day in "18991231 21000101 20230229 19000229 20240230 20240431 20240001 20241301 20240100 20240132 00000000 99999999".split():
        yield day, 17
    for bad in ("2024022A", "2024/2/9", "29-02-2024", "2024 229"):
        yield bad, 14
    for bad in ("2024022", "202402290", "240229"):
        yield bad, 15


def bytes_taken(row):
    if row.format == "C":
        for byte in "|\r\n":
            yield ("A" + byte + "A")[: row.size] if row.size > 1 else byte, 14
        return
    for byte in "x/: -":
        yield (byte + "1" * 20)[: row.size], 14
    yield "1" * (row.size - 1) + "\xb2", 14


def listed_taken(row):
    size, values = row.size, row.values
    for value in values:
        yield value, 0
    yield "0" * size if row.format == "N" and "0" not in values else "9" * size, 18
    if row.format == "C":
        yield values[0].lower() if values[0].lower() not in values else "X" * size, 18
        yield "\x00" * size, 18
    yield values[0] + "1", 15


def held_taken(row):
    """What hangs on what the field holds, where any byte of its format may stand."""
    size = row.size
    if row.holds in ("amount", "months"):
        yield "9" * size, 0
        yield "0", 16
        yield "0" + "1" * (size - 1), 16
        yield "0" * (size + 1), 15
        yield "-1", 14
        yield "1,00", 14
    elif row.holds == "ddd":
        yield "01", 16
        yield "00", 16
        yield "10", 0
    elif row.format == "N":
        yield "0" * size, 0
    else:
        yield "\x00\xff\x7f "[:size] + "A" * max(0, size - 4), 0


def sized_taken(row):
    size, filling = row.size, "A" if row.format == "C" else "1"
    if row.fill == "fixed":
        yield ones(size) if row.format == "N" else filling * size, 0
        yield filling * (size - 1), 15
    for count in IDENTITY.get(row.holds, ()):
        yield next(neighbours(ones(count))), 26
    yield filling * (size + 1), 15
    if row.holds == "telephone":
        yield "11111111", 0
        yield "111111111", 0
        yield "1111111", 15
        yield "011111111", 0
    elif row.holds == "cpfOrCnpj":
        for count in (11, 14):
            yield ones(count), 0
        for count in (1, 10, 12, 13):
            yield "1" * count, 15
    else:
        if row.fill == "variable":
            yield filling, 0
            yield filling * size, 0
        yield from held_taken(row)


def taken(row):
    """Contents that a row takes, and contents that it refuses, each with the number."""
    yield "", 13 if row.need == "obligatory" else 0
    if row.format == "D":
        yield from dates_taken()
        return
    yield from bytes_taken(row)
    yield from listed_taken(row) if row.values else sized_taken(row)


def field_rules():
    """Every row, through the line writer: all of its contents where the row is new, else the first for each number."""
    known = set()
    for name in SAMPLES:
        for field, row in enumerate(ROWS[name], 1):
            if field == 1 or (name in MONTHS and field not in MONTHS[name]):
                continue
            # S in this one is the conditions' matter
            if (name, field) == ("DECPF", 8):
                row = row._replace(values=("N",))
            given = set()
            for cell, breach in taken(row):
                if row in known and breach in given:
                    continue
                given.add(breach)
                write(KIND[name], with_cells(name, {field: cell, **lawyer(name, field, cell)}), breach, field if breach else 0)
            known.add(row)


def identifier_rules():
    """Field 1: the row that the source prints, then the identifier itself."""
    for name in LINE:
        write(KIND[name], cells_of(name), 0)
        write(KIND[name], with_cell(name, 1, "X" * len(name)), 18, 1)
        write(KIND[name], with_cell(name, 1, "X" * (ROWS[name][0].size + 1)), 15, 1)
    for name in ("Dirf", "RTRT", "RIJMRE", "RIO", "FIMDirf"):
        write(KIND[name], with_cell(name, 1, ""), 13, 1)
        write(KIND[name], with_cell(name, 1, name[:-1]), 18 if ROWS[name][0].fill == "variable" else 15, 1)
    write(KIND["RTRT"], with_cell("RTRT", 1, "RTPO"), 18, 1)
    write(KIND["Dirf"], with_cell("Dirf", 1, "DIRF"), 18, 1)
    for byte in "|\r\n":
        write(KIND["Dirf"], with_cell("Dirf", 1, "Dir" + byte), 14, 1)


def conditions():
    """19: field 8 is S: 9 and 10 are filled; and 10 is 1: 11 is S; and 13 is empty. The lowest field is named."""
    for nine, ten, eleven, thirteen, field in [
        ("", "", "N", "", 9), ("20240101", "", "N", "", 10), ("", "2", "N", "", 9), ("20240101", "1", "N", "", 11), ("20240101", "1", "S",
        "", 0),
        ("20240101", "2", "N", "", 0), ("20240101", "2", "S", "", 0), ("20240101", "2", "N", "0", 13), ("20240101", "1", "S", "1", 13),
        ("", "", "S", "1", 9),
        ("20240101", "1", "N", "1", 11), ("20240101", "", "N", "1", 10),
    ]:
        for eight in ("S", "N"):
            cells = cells_of("DECPF")
            cells[7:13] = [eight, nine, ten, eleven, "", thirteen]
            breach = 19 if eight == "S" and field else 0
            write(KIND["DECPF"], cells, breach, field if breach else 0)
            line = "|".join(cells) + "|"
            if breach:
                check("Dirf\nRESPO\n" + line, 19, 3, field)
            else:
                check("Dirf\nRESPO\n" + line + "\nFIMDirf", 0, 4)


def writer_order():
    """22, 11, 23, 13 to 18 and 26, 19, 24."""
    cells = cells_of("IDREC")
    for kind in [0, 74, 75, 255, 256, 261, 65536 + 5, 2**31, 2**32 - 1] + [KIND[name] for name in LATER]:
        write(kind, cells, 22)
        write(kind, [], 22, room=0)
    for name in SAMPLES:
        count = len(ROWS[name])
        write(KIND[name], [], 11)
        write(KIND[name], ["A"] * (count + 1), 11)
        write(KIND[name], ["A"] * (count - 1), 11)
    write(KIND["IDREC"], ["A"] * 32, 11)
    write(KIND["IDREC"], [], 11, contents="IDREC0561")
    # 11 against 23, 23 against 13 to 18 and 26
    write(KIND["IDREC"], [], 11, contents="IDREC0561", lengths=[5, 5, 5])
    for lengths in ([5, 3], [5, 5], [0, 0], [4, 4], [9, 1], [10, 0], [2**64 - 1, 10], [2**63, 2**63 + 9], [2**64 - 1, 2**64 - 1], [5,
    2**64 - 5 + 4]):
        write(KIND["IDREC"], [], 23, contents="IDREC0561", lengths=lengths)
    write(KIND["IDREC"], [], 23, contents="", lengths=[0, 1])
    write(KIND["IDREC"], [], 13, 1, contents="", lengths=[0, 0])
    write(KIND["IDREC"], [], 15, 1, contents="IDREC0561", lengths=[9, 0])
    write(KIND["IDREC"], [], 13, 1, contents="IDREC0561", lengths=[0, 9])
    write(KIND["IDREC"], [], 15, 1, contents="IDREC0561", lengths=[4, 5])
    # 24, and before it every other
    for name in ("IDREC", "FIMDirf", "DECPJ", "RTRT"):
        size = len(LINE[name]) + 2
        for room in (size, size + 1, 4096):
            write(KIND[name], cells_of(name), 0, room=room)
        for room in (0, 1, 2, size - 2, size - 1):
            write(KIND[name], cells_of(name), 24, room=room)
    write(KIND["IDREC"], with_cell("IDREC", 2, "056"), 15, 2, room=0)
    write(KIND["BPFDEC"], with_cell("BPFDEC", 2, SWAPPED), 26, 2, room=0)
    write(KIND["BPFDEC"], with_cell("BPFDEC", 2, SWAPPED), 23, contents="BPFDEC" + SWAPPED)
    write(KIND["BPFDEC"], with_cell("BPFDEC", 2, SWAPPED)[:5], 11)
    write(KIND["DECPF"], with_cell("DECPF", 8, "S"), 19, 9, room=0)
    # the longest line that a record can have
    longest = ["RRA", "2", "P" * 20, "2", ones(14), "N" * 150, "9" * 13]
    write(KIND["RRA"], longest, 0)
    check(pj("  " + "|".join(longest) + "|\nFIMDirf"), 0, 5)
    # place and order are the file's concern
    write(KIND["RIMOG"], cells_of("RIMOG"), 0)


def field_places():
    for text, fields in [
        ("", []), ("|", [(0, 0)]), ("a|", [(0, 1)]), ("ab|cd|", [(0, 2), (3, 2)]), ("ab|cd", [(0, 2)]), ("||", [(0, 0), (1, 0)]), ("a",
        []), ("|a|", [(0, 0), (1, 1)]),
        ("a||b|c", [(0, 1), (2, 0), (3, 1)]), ("\r\n|\x00|\xff|", [(0, 2), (3, 1), (5, 1)]), ("a" * 2000 + "|b|", [(0, 2000), (2001, 1)]),
        ("Dirf|2025|2024|N||R6GP3ZA|", [(0, 4), (5, 4), (10, 4), (15, 1), (17, 0), (18, 7)]),
    ]:
        for k in range(1, len(fields) + 1):
            case("F", [number(k), string(text)], words(1, *fields[k - 1]))
        for k in (0, len(fields) + 1, len(fields) + 2, 2**32, 2**64 - 1):
            case("F", [number(k), string(text)], words(0, len(text), 0))
    many = "|" * 500
    for k in (1, 15, 16, 500):
        case("F", [number(k), string(many)], words(1, k - 1, 0))
    case("F", [number(501), string(many)], words(0, 500, 0))


def numbers():
    """M9, M10 and the readers and writers of amounts and month counts."""
    for letter, size in (("A", 13), ("M", 4)):
        nines = "9" * size
        for text, breach in [
            ("", 0), ("1", 0), ("10", 0), ("12", 0), (nines, 0), ("1" + "0" * (size - 1), 0), ("0", 16), ("01", 16), ("0" * size, 16),
            ("0" + nines, 15), ("1" + nines, 15),
            ("9" + nines, 15), ("0" * 300, 15), ("x", 14), ("-1", 14), ("+1", 14), ("1.0", 14), ("1,0", 14), (" 1", 14), ("1 ", 14),
            ("0x", 14), (nines + "x", 14),
            ("x" * (size + 1), 14), ("/", 14), (":", 14), ("\x00", 14), ("\xb9", 14), ("|", 14), ("1|", 14), ("1\r\n", 14),
        ]:
            case(letter, [string(text)], words(breach, int(text) if breach == 0 and text else 0))
    for letter, size in (("a", 13), ("m", 4)):
        most = 10**size - 1
        for value in (0, 1, 9, 10, 99, 100, 1000, 9999, 10**size // 10, most):
            digits = str(value) if value else ""
            for room in sorted({len(digits), len(digits) + 1, size, 20, 4096}):
                case(letter, [number(value), number(room)], words(0, len(digits), 1, digits.encode().hex()))
            for room in range(max(0, len(digits) - 2), len(digits)):
                case(letter, [number(value), number(room)], words(24, 0, 1))
        for value in (most + 1, most + 2, 10 ** (size + 2), 2**32, 2**63, 2**64 - 1):
            if value > most:
                for room in (0, size, 20):
                    case(letter, [number(value), number(room)], words(15, 0, 1))


def wrong_checkers():
    """The inputs at which docs/PROMISES.md tells the named wrong checkers from ours."""
    masked = with_field("BPFDEC", 2, "529.982.247-25")
    check(SIX.replace("RESPO", with_field("RESPO", 2, "111.444.777-35")), 14, 2, 2)
    check(pf("  IDREC\n    BPFDEC\n      RTRT\n    " + masked + "\n      RTPO\nFIMDirf"), 14, 7, 2)
    check(pf("  IDREC\n    " + with_field("BPFDEC", 2, makers.cpf(529982247)) + "\n  IDREC|0588|\n    BPFDEC\nFIMDirf"), 0, 8)
    check(pj("  PROC\n    IDREC\n      BPFDEC\nFIMDirf"), 12, 6, 1)
    check(pj("  PROC|1|9|||||\n  PROC|1|10|||||\nFIMDirf"), 20, 5, 2)
    check(pf("  SCP\n    " + with_field("BPFSCP", 2, makers.cpf(1)) + "\n    BPFSCP\nFIMDirf"), 0, 7)
    check(SIX.replace("FIMDirf", "    BPFSCP\nFIMDirf"), 20, 6, 2, room=5, spare=0)


# ---- docs/TOUR.md: what the page says of each line, held by what that line and others in its place would give


def check_lines(lines, breach, line, field=0):
    check_bytes(bytes_of(lines), lines, breach, line, field)


def may_hold(holder, outer, name):
    """Whether a record may stand directly below an open one, which itself stands below an outer one."""
    if holder == "IDREC":
        return name in BLOCKS.get("" if outer == "DECPJ" else outer, [])
    return name in HELD.get(holder, []) and suits(outer, holder, name)


def parent_among(opened, name):
    """The line of the innermost open record that may hold a record; 0 where none may, or where a later kind has opened below it."""
    inner = ""
    for (number, holder), (_, outer) in zip(opened, opened[1:] + [(0, "nothing")]):
        if may_hold(holder, outer, name):
            return number if inner in ["", *PENSIONS] or (KIND[inner] <= KIND[name] and inner != "PSE") else 0
        inner = holder
    return 0


# for each record that can be open in that file one that stands below it, with a key that no other passes
PROBES = [LINE["RTIRF"], LINE["RISCP"], LINE["ESPP"], "IDREC|9999|", "PROC|3|9|||||"]
PROBES += [with_field(name, 2, makers.cnpj(999999999999)) for name in ("BPJDEC", "BPJPROC", "BPJSCP", "SCP", "OPSE")]
PROBES += [with_field(name, 2, makers.cpf(999999999)) for name in ("TPSE", "DTPSE")]


def tour_open(before, opened):
    """What is open: each probe goes below the open record that may hold it, and is 12 where none may."""
    line, held = len(before) + 1, set()
    for text in PROBES:
        name = text.split("|")[0]
        parent = parent_among(opened, name)
        held.add(parent)
        lines = before + [(text, parent)]
        if parent == 0:
            check_lines(lines, 12, line, 1)
        elif name in VALUES and (name, parent) in [(there.split("|")[0], above) for there, above in before]:
            check_lines(lines, 21, line, 1)
        else:
            check_lines(lines, 1, line + 1)
    # behind a PSE nothing more stands below the declarant
    shut = ["DECPJ"] if "PSE" in dict(opened).values() else []
    if not held >= {number for number, name in opened if name not in shut}:
        tour_page.stop(f"line {line}: no record would go below each of {opened}")


def with_key(text, key):
    cells = text.split("|")
    return "|".join([cells[0], key] + cells[2:])


# PSE has no key
KEYED = ORDER[:-1] + PEOPLE + PENSIONS + PLAN


def tour_before(lines, line, row):
    """What 20 and 21 look at: the least key passes where there is nothing before, else the key must pass that of the line named."""
    before, (text, parent) = lines[: line - 1], lines[line - 1]
    name, key = text.split("|")[:2]
    # which of the two looks back hangs on the kind alone
    if row.rule != (21 if name in VALUES else 20 if name in KEYED else 0):
        tour_page.stop(f"line {line}: {row.rule} is not what looks back from {name}")
    if row.rule == 21:
        check_lines(before + 2 * [(text, parent)], 21, line + 1, 1)
    elif row.rule == 20 and row.against == 0:
        least = "1" if name in ("PROC", "RRA") else makers.key(len(key), 0)
        check_lines(before + [(with_key(text, least), parent)], 1, line + 1)
    elif row.rule == 20:
        there, above = lines[row.against - 1]
        there, key = there.split("|")[:2]
        if row.against >= line or (there, above) != (name, parent):
            tour_page.stop(f"line {line}: line {row.against} is not one before it of its kind under its parent")
        check_lines(before + [(with_key(text, key), parent)], 20, line, 2)
        check_lines(before + [(with_key(text, makers.key(len(key), makers.serial_of(key) + 1)), parent)], 1, line + 1)


def tour():
    """The file of docs/TOUR.md whole and cut after each line; what the page says of each line; its spoiled lines."""
    page = tour_page.read(os.path.join(ROOT, "docs", "TOUR.md"))
    lines = [(text, row.parent) for text, row in zip(page.lines, page.rows)]
    for line in range(1, len(lines)):
        check_lines(lines[:line], 1, line + 1)
    check_lines(lines, 0, len(lines))
    for line, row in enumerate(page.rows, 1):
        if line > tour_page.OPENING:
            tour_open(lines[: line - 1], row.open)
        tour_before(lines, line, row)
    for line, text, answer in page.spoiled:
        check_lines(lines[: line - 1] + [(text, 0)] + lines[line:], *answer)


# ---- check digits: document 02, A1. The numbers are written out; what each is there for is held by the makers' sums


# right numbers: the sum for the first digit leaves 0, 1 and 10, and then that for the second
RESTS = {
    "12345680202": (0, 0), "12345678909": (0, 1), "12345679115": (0, 10),
    "12345680040": (1, 0), "12345679620": (1, 1), "12345679891": (1, 10),
    "12345678002805": (0, 0), "12345678000608": (0, 1), "12345678000519": (0, 10),
    "12345678000780": (1, 0), "12345678003020": (1, 1), "12345678000861": (1, 10),
}
# of equal digits every CPF is right, and of the CNPJs that of zeros alone
EQUAL = [digit * 11 for digit in "0123456789"] + ["0" * 14]
# what a wrong rule would take: each weight one more, each one less, the weights of another place (one on, one back, from the other end);
# the second digit right for a first that is not; for a CPF the first and the last ten of a CNPJ's weights
TAKEN_BY_WRONG = """11144477708 11144477768 11144477723 11144477707 11144477725 11144477743 11144477765 11144477705
11222333000117 11222333000149 11222333000150 11222333000160 11222333000147 11222333000190""".split()


def rest_of(digits, which):
    """What the sum for the first (0) or the second (1) check digit leaves."""
    weights, front = (makers.CPF_WEIGHTS, 11) if len(digits) == makers.CPF_SIZE else (makers.CNPJ_WEIGHTS, 6)
    return makers.rest(digits, [front] + weights if which else weights)


def identity(digits, breach):
    """A CPF below an IDREC, or a CNPJ, through the check and through the writer."""
    held(makers.is_right(digits) == (breach == 0), digits)
    name = "BPFDEC" if len(digits) == makers.CPF_SIZE else "BPJDEC"
    field = 2 if breach else 0
    check(pj("  IDREC\n    " + with_field(name, 2, digits) + "\nFIMDirf"), breach, 5 if breach else 6, field)
    write(KIND[name], with_cell(name, 2, digits), breach, field)


def check_digits():
    """Right numbers and wrong ones: each remainder in either digit, a digit changed, two neighbours swapped, other weights."""
    for digits, (which, left) in RESTS.items():
        held(rest_of(digits, which) == left, digits)
    for digits in [CPF, CNPJ, *RESTS, *EQUAL]:
        identity(digits, 0)
        for wrong in neighbours(digits):
            identity(wrong, 26)
    for digits in (CPF, CNPJ):
        for at, digit in enumerate(digits):
            identity(digits[:at] + str((int(digit) + 1) % 10) + digits[at + 1 :], 26)
            if digits[at : at + 2] not in (digit, digit * 2):
                identity(digits[:at] + digits[at + 1] + digit + digits[at + 2 :], 26)
    for digits in TAKEN_BY_WRONG + ["1" * 14]:
        identity(digits, 26)


def standing(name, text):
    """A tree that ends with this line of a record, and the line's number."""
    top = {"RESPO": "Dirf\n", "DECPF": "Dirf\nRESPO\n", "DECPJ": "Dirf\nRESPO\n"}
    lead = top.get(name) or pj(LEAD.get(name, "  "))
    return lead + text, lead.count("\n") + 1


def judged(name, cells, breach, field):
    """A line of a record with these fields, by the check and by the writer of either edition."""
    line = with_cells(name, cells)
    tree, at = standing(name, "|".join(line) + "|")
    for edition, first in FIRST.items():
        check(with_first(first, tree), breach or 1, at if breach else at + 1, field)
        write(KIND[name], line, breach, field, edition=edition)


def digit_fields():
    """Every field that can be 26, through the check and the writer of either edition: right, wrong and, where it may be, empty."""
    fields = [(name, field, row) for name, rows in ROWS.items() for field, row in enumerate(rows, 1) if row.holds in IDENTITY]
    held(len(fields) == 25, "the list of fields that hold a CPF or a CNPJ")
    for name, field, row in fields:
        right = [ones(size) for size in IDENTITY[row.holds]] + [""] * (row.need == "optional")
        wrong = [digits for size in IDENTITY[row.holds] for digits in neighbours(ones(size))]
        for cell in right + wrong:
            breach = 26 if cell in wrong else 0
            judged(name, {field: cell, **lawyer(name, field, cell)}, breach, field if breach else 0)


# two faults of one record: what stands in which fields, and the number and the field that are named
DIGIT_PAIRS = [
    # 13, 14, 15, 17 and 18 in a later and in an earlier field
    ("DECPF", {2: SWAPPED, 3: ""}, 26, 2), ("DECPF", {3: "", 14: SWAPPED}, 13, 3),
    ("DECPJ", {2: "11222333000118", 3: ""}, 26, 2), ("DECPJ", {3: "", 5: SWAPPED}, 13, 3),
    ("RESPO", {2: SWAPPED, 4: "1x"}, 26, 2), ("DECPJ", {4: "x", 5: SWAPPED}, 14, 4),
    ("BPFDEC", {2: SWAPPED, 3: "A" * 61}, 26, 2), ("DECPF", {3: "A" * 61, 14: SWAPPED}, 15, 3),
    ("RESPO", {2: SWAPPED, 4: "01"}, 26, 2),
    ("BPFDEC", {2: SWAPPED, 4: "20230229"}, 26, 2), ("DECPF", {9: "20230229", 14: SWAPPED}, 17, 9),
    ("DECPF", {2: SWAPPED, 4: "X"}, 26, 2), ("DECPF", {4: "X", 14: SWAPPED}, 18, 4),
    ("PROC", {4: "3", 5: SWAPPED}, 18, 4), ("PROC", {4: "1", 5: SWAPPED, 7: "0"}, 26, 5), ("RRA", {5: SWAPPED, 6: "N" * 151}, 26, 5),
    # 14 and 15 of the same field
    ("BPFDEC", {2: "111.444.777-53"}, 14, 2), ("BPFDEC", {2: "1114447775"}, 15, 2), ("BPFDEC", {2: CNPJ}, 15, 2),
    ("PROC", {5: "1114447775x"}, 14, 5), ("PROC", {5: "111444777533"}, 15, 5),
    # 26 twice, and 19
    ("DECPJ", {2: "11222333000118", 5: SWAPPED}, 26, 2), ("DECPF", {2: SWAPPED, 14: SWAPPED}, 26, 2),
    ("DECPF", {2: SWAPPED, 8: "S"}, 26, 2), ("DECPF", {8: "S", 14: SWAPPED}, 26, 14), ("DECPF", {8: "S", 14: CPF}, 19, 9),
]


def digit_pairs():
    """26 against the others: by field, and in a line before 19, 20 and 7, behind 11 and 12."""
    for name, cells, breach, field in DIGIT_PAIRS:
        line = with_cells(name, cells)
        tree, at = standing(name, "|".join(line) + "|")
        check(tree, breach, at, field)
        check(tree, breach, at, field, room=at - 1)
        write(KIND[name], line, breach, field)
    # 20: the key of a wrong number is smaller, or the same
    low = with_field("BPFDEC", 2, "00000000199")
    check(pj("  IDREC\n    BPFDEC\n    " + low), 26, 6, 2)
    check(pj(f"  IDREC\n    {with_field('BPFDEC', 2, makers.cpf(1))}\n      RTRT\n    {low}\n      RTRT"), 26, 7, 2)
    for digits, breach, field in ((SWAPPED, 26, 5), (CPF, 20, 2)):
        check(pj("  PROC\n  " + "|".join(with_cells("PROC", {4: "1", 5: digits})) + "|"), breach, 5, field)
    # 21 and 20 of an earlier line, 26 of a later one, and the other way about
    check(pj("  IDREC\n    BPFDEC\n      RTRT\n      RTRT\n    " + low), 21, 7, 1)
    check(pj(f"  IDREC\n    BPFDEC\n    {with_field('BPFDEC', 2, '99999999989')}\n    BPFDEC"), 26, 6, 2)
    # 12 and 11: the fields are not looked at
    check(pj("  IDREC\n    " + with_field("BPFFCI", 2, SWAPPED)), 12, 5, 1)
    check(pj(f"  IDREC\n    =BPFDEC|{SWAPPED}|ANA LIMA|"), 11, 5)
    # document 01's six lines, and no amount goes on to the person above
    check(SIX.replace("BPFSCP", with_field("BPFSCP", 2, SWAPPED)), 26, 5, 2)
    check(pj(f"  IDREC\n    BPFDEC\n      RTRT\n    {with_field('BPFDEC', 2, '52998224752')}\n      RTRT\nFIMDirf"), 26, 7, 2)
    # which is the CPF's rule and which the CNPJ's, the length says
    for digits in ("11144477765", "11144477705"):
        check(pj("  " + "|".join(with_cells("PROC", {4: "1", 5: digits})) + "|"), 26, 4, 5)


# ---- the lawyer of PROC and RRA: document 02, A2


# by what field 4 says: what may stand in field 5, and the most bytes of field 6
LAWYERS = {"1": (("", CPF), 60), "2": (("", CNPJ), 150), "": (("",), 0)}


def lawyers():
    """Each kind with each number, and with names at the edges; through the check and the writer of either edition."""
    for name in WITH_LAWYER:
        for kind, (numbers, most) in LAWYERS.items():
            for digits in ("", CPF, CNPJ):
                for size in (0, 1, 60, 61, 150):
                    field = 5 if digits not in numbers else 6 if size > most else 0
                    judged(name, {4: kind, 5: digits, 6: "N" * size}, 19 if field else 0, field)
            # other lengths are 15, whatever the kind says
            judged(name, {4: kind, 6: "N" * 151}, 15, 6)
            for count in (1, 10, 12, 13, 15):
                judged(name, {4: kind, 5: "1" * count}, 15, 5)


# 19 and another fault of one line: what stands in which fields, and the number and the field that are named
LAWYER_PAIRS = [
    # both fields, and 19 in one with the other right
    ({4: "1", 5: CNPJ, 6: "N" * 61}, 19, 5), ({5: CPF, 6: "N"}, 19, 5), ({4: "1", 5: CPF, 6: "N" * 61}, 19, 6),
    # 15 of the other field, or of the same
    ({4: "1", 5: CNPJ, 6: "N" * 151}, 15, 6), ({4: "1", 5: "1" * 12, 6: "N" * 61}, 15, 5), ({5: "1" * 13, 6: "N"}, 15, 5),
    # 26 of field 5
    ({5: SWAPPED}, 26, 5), ({4: "2", 5: SWAPPED}, 26, 5), ({4: "1", 5: "11222333000118", 6: "N" * 61}, 26, 5),
    ({5: SWAPPED, 6: "N"}, 26, 5),
    # 14, 16 and 18 in field 7, in 5 and in 4
    ({4: "1", 5: CNPJ, 7: "0"}, 16, 7), ({5: CPF, 7: "1,00"}, 14, 7), ({4: "2", 5: CPF, 7: "1" * 14}, 15, 7),
    ({4: "1", 5: "111.444.777-35", 6: "N" * 61}, 14, 5), ({4: "3", 5: CNPJ, 6: "N" * 61}, 18, 4), ({4: "x", 5: CPF}, 14, 4),
    ({2: "9", 5: CPF}, 18, 2), ({2: "", 6: "N"}, 13, 2),
]


def lawyer_pairs():
    """19 of a lawyer against the others: by field, and in a line before 20 and 7, behind 11 and 12."""
    for name in WITH_LAWYER:
        for cells, breach, field in LAWYER_PAIRS:
            judged(name, cells, breach, field)
            tree, at = standing(name, "|".join(with_cells(name, cells)) + "|")
            check(tree, breach, at, field, room=at - 1)
            write(KIND[name], with_cells(name, cells), breach, field, room=0)
        # 20: the same key once more
        for digits, breach, field in ((CNPJ, 19, 5), (CPF, 20, 2)):
            check(pj(f"  {name}\n  " + "|".join(with_cells(name, {4: "1", 5: digits})) + "|"), breach, 5, field)
        # 11: the fields are not looked at
        check(pj(f"  ={name}|1|1||{CPF}||"), 11, 4)
        # nothing below such a line is read, and the next one is not asked
        tree = pj("  " + with_field(name, 5, CPF) + "\n    IDREC\n      BPF" + name + "\n        RTRT\nFIMDirf")
        check(tree, 19, 4, 5)
        check(tree.replace(f"||{CPF}|", f"|1|{CPF}|"), 0, 8)
    # 12 of a PROC under DECPF, and RRA under both declarants
    check(pf("  " + with_field("PROC", 5, CPF)), 12, 4, 1)
    for kind, digits, field in (("1", CPF, 0), ("2", CNPJ, 0), ("1", CNPJ, 5), ("2", CPF, 5), ("", CPF, 5), ("", CNPJ, 5)):
        check(pf("  " + "|".join(with_cells("RRA", {4: kind, 5: digits})) + "|"), 19 if field else 1, 4 if field else 5, field)


# ---- private pension, alimony and health plan: document 02, A3. What stands where is written out, and held against layout.txt


BELOW_PENSION = {
    "DECPF": {"INFPC": "RTPP RTFA ESPP ESFA".split(), "INFPA": "RTPA ESPA".split()},
    "DECPJ": {"INFPC": "RTPP RTFA RTSP RTEP ESPP ESFA ESSP ESEP".split(), "INFPA": "RTPA ESPA".split()},
}
WITH_PENSION = {"BPFDEC": PENSIONS, "BPFRRA": ["INFPA"]}


def pension_places():
    """Each record behind an INFPC or INFPA, under each declarant and in each edition: below it, below the person, or 12."""
    for edition, first in FIRST.items():
        for declarant, tree in (("DECPF", pf), ("DECPJ", pj)):
            has = LAYOUTS[edition].below[declarant]
            for who, pensions in WITH_PENSION.items():
                held([name for name in has[who] if name in PENSIONS] == pensions, who)
                lead, line = LEAD[who] + who, 6 + LEAD[who].count("\n")
                depth = len(LEAD[who]) - LEAD[who].rfind("\n") + 1
                for pension in pensions:
                    held(has[pension] == BELOW_PENSION[declarant][pension], pension)
                    for name in VALUES + PLAN + ["PSE"]:
                        if edition == 2022 and name in GONE:
                            continue
                        below_it = name in BELOW_PENSION[declarant][pension] and suits(who, pension, name)
                        stands = below_it or name in has[who] or name == "PSE"
                        indent = depth + 2 if below_it else depth if name in has[who] else 2
                        rows = tree(f"{lead}\n{' ' * depth}{pension}\n{' ' * indent}{name}")
                        check(with_first(first, rows), 1 if stands else 12, line + 1 if stands else line, 0 if stands else 1)


SHORT = "  IDREC\n    BPFDEC\n"


def person(*rows, after=""):
    """A file with these lines below a BPFDEC, the values of an INFPC or INFPA indented."""
    return pj(SHORT + "\n".join("      " + row for row in rows) + after)


def groups():
    """A record closes what is open below its parent; below a beneficiary there is no order; 21 is asked under its own parent."""
    other = with_field("INFPC", 2, OTHER_CNPJ)
    kin = with_field("INFPA", 2, makers.cpf(999999999))
    for parts in itertools.permutations([["RTRT"], ["INFPC", "  RTPP", "  ESPP"], ["INFPA", "  ESPA", "  RTPA"], ["RIO"]]):
        rows = [row for part in parts for row in part]
        check(person(*rows, after="\nFIMDirf"), 0, 6 + len(rows))
    # closed by a value record of the person, by an INFPA, by the next INFPC and by the next person
    check(person("INFPC", "  RTPP", "RIDAC", "RTFA"), 12, 9, 1)
    check(person("INFPC", "RIDAC", "RTPP"), 12, 8, 1)
    check(person("INFPA", "RTRT", "RTPA"), 12, 8, 1)
    check(person("INFPC", "  RTPP", "INFPA", "  RTPA", "RTFA"), 12, 10, 1)
    check(person("INFPA", "  RTPA", "INFPC", "ESPA"), 12, 9, 1)
    check(pj(SHORT + f"      INFPC\n        RTPP\n    {with_field('BPFDEC', 2, makers.cpf(999999999))}\n      RTFA"), 12, 9, 1)
    check(pj(SHORT + "      INFPC\n        RTPP\n    BPJDEC\n      RTFA"), 12, 9, 1)
    check(pj(SHORT + "      INFPC\n        RTPP\n  SCP\n    RTFA"), 12, 9, 1)
    # each at most once under its own parent, and what the person has had is not forgotten at an INFPC
    check(person("INFPC", "  RTPP", other, "  RTPP", after="\nFIMDirf"), 0, 10)
    check(person("INFPA", "  RTPA", kin, "  RTPA", "RTRT", after="\nFIMDirf"), 0, 11)
    for rows in (["INFPC", "  RTPP", "  RTPP"], ["INFPC", "  RTPP", "  ESPP", "  RTPP"], ["INFPA", "  ESPA", "  RTPA", "  ESPA"],
                 ["RTRT", "INFPC", "RTRT"], ["RTRT", "INFPC", "  RTPP", "RTRT"], ["RTRT", "INFPA", "  RTPA", "RIO", "INFPC", "RTRT"]):
        check(person(*rows), 21, 5 + len(rows), 1)
    # BPFPROC holds its own, an INFPC below it is 12
    check(pj("  PROC\n    IDREC\n      BPFPROC\n        RTPP\n        RTPA\n        RTPP"), 21, 9, 1)
    check(pj("  PROC\n    IDREC\n      BPFPROC\n        INFPC"), 12, 7, 1)
    check(pj("  PROC\n    IDREC\n      BPFPROC\n        RTEP"), 12, 7, 1)


# of a record with a key of CPF and date: the first, the next, and whether the next may follow
LOW, HIGH = makers.cpf(1), makers.cpf(2)
DATED = [
    ((LOW, ""), (HIGH, ""), 0), ((HIGH, ""), (LOW, ""), 20), ((LOW, ""), (LOW, ""), 20), (("", ""), ("", ""), 20), (("", ""), (LOW, ""), 0),
    ((LOW, ""), ("", ""), 20), (("", "20200101"), ("", "20200102"), 0), (("", "20200102"), ("", "20200101"), 20),
    (("", "20200101"), ("", "20200101"), 20), (("", ""), ("", "19990101"), 0), (("", "19990101"), ("", ""), 20),
    ((LOW, "20200101"), (LOW, "20200102"), 0), ((LOW, "20200102"), (LOW, "20200101"), 20), ((LOW, "20200102"), (HIGH, "20200101"), 0),
    ((LOW, ""), (LOW, "19990101"), 0), ((LOW, "19990101"), (LOW, ""), 20), (("", "20991231"), (LOW, ""), 0),
    ((LOW, ""), ("", "20991231"), 20),
]


def dated(name, cpf, date):
    return with_fields(name, {2: cpf, 3: date})


def pension_keys():
    """20 of INFPC and INFPA, with nothing, with their own values and with records of other kinds between."""
    low, high = with_field("INFPC", 2, CNPJ), with_field("INFPC", 2, OTHER_CNPJ)
    for between in ([], ["  RTPP"], ["INFPA"], ["INFPA", "  RTPA", "RIDAC"], ["RTRT", "RIO"]):
        for one, next_one, breach in ((low, high, 0), (high, low, 20), (low, low, 20)):
            line = 7 + len(between)
            check(person(one, *between, next_one, after="\nFIMDirf"), breach, line if breach else line + 1, 2 if breach else 0)
    for between in ([], ["  RTPA"], ["INFPC", "  RTPP"]):
        for first, second, breach in DATED:
            rows = [dated("INFPA", *first), *between, dated("INFPA", *second)]
            check(person(*rows, after="\nFIMDirf"), breach, 5 + len(rows) + (breach == 0), 2 if breach else 0)
            check(pj(f"{LEAD['BPFRRA']}BPFRRA\n        {rows[0]}\n        {rows[-1]}"), breach or 1, 8 + (breach == 0), 2 if breach else 0)
    # an INFPC is not compared with the INFPA between, whatever stands in their fields, and the order starts afresh with the next person
    check(person(low, with_field("INFPA", 2, makers.cpf(999999999)), high, after="\nFIMDirf"), 0, 9)
    check(person(with_field("INFPA", 2, HIGH), with_field("INFPC", 2, makers.cnpj(1)), after="\nFIMDirf"), 0, 8)
    check(pj(SHORT + f"      {high}\n    {with_field('BPFDEC', 2, makers.cpf(999999999))}\n      {low}\nFIMDirf"), 0, 9)
    # 19, 21 and 12 of other lines, 13 to 18 and 26 of the same
    check(person("INFPA", dated("INFPA", SWAPPED, "")), 26, 7, 2)
    check(person("INFPA", dated("INFPA", LOW, "20230229")), 17, 7, 3)
    check(person("INFPC", "=INFPC|" + CNPJ + "|"), 11, 7)


# what each record of a health plan stands below
PLAN_ABOVE = {"OPSE": "PSE", "TPSE": "OPSE", "RTPSE": "TPSE", "DTPSE": "TPSE", "RDTPSE": "DTPSE"}
PLAN_PATHS = ["PSE", "PSE OPSE", "PSE OPSE TPSE", "PSE OPSE TPSE RTPSE", "PSE OPSE TPSE DTPSE", "PSE OPSE TPSE DTPSE RDTPSE"]


def plan_row(name, text=""):
    """A line of a health plan, indented by what it stands below."""
    depth, above = 2, name
    while above in PLAN_ABOVE:
        depth, above = depth + 2, PLAN_ABOVE[above]
    return " " * depth + (text or name)


def plan(*rows, after=""):
    """A file with these lines, each a name or a name with its line."""
    return pj("\n".join(plan_row(*(row if isinstance(row, tuple) else (row,))) for row in rows) + after)


def plan_places():
    """Every record behind each of the ways in which a health plan can be open, under each declarant: its parent, or 12."""
    for tree in (pf, pj):
        for path in map(str.split, PLAN_PATHS):
            line = 4 + len(path)
            lead = "\n".join(map(plan_row, path)) + "\n"
            for name in LINE:
                if name == "FIMDirf":
                    check(tree(lead + name), 0, line)
                    continue
                # an RTPSE behind a DTPSE of the same TPSE is 12
                stands = name in PLAN and PLAN_ABOVE[name] in path and not (name == "RTPSE" and "DTPSE" in path)
                size = len(cells_of(name)[1]) if stands else 0
                text = with_field(name, 2, makers.key(size, int("9" * (size - makers.CHECK_SIZE)))) if stands else name
                row = plan_row(name, text) if stands else "  " + text
                check(tree(lead + row), 1 if stands else 12, line + stands, 0 if stands else 1)
    # behind each block, and nothing behind it
    for name in ORDER[:-1]:
        check(pj(f"  {name}\n  PSE\n    OPSE\nFIMDirf"), 0, 7)
        check(pj(f"  PSE\n    OPSE\n  {name}"), 12, 6, 1)
    check(plan("PSE", "PSE"), 12, 5, 1)
    check(plan("PSE", "OPSE", "TPSE", "DTPSE", "PSE"), 12, 8, 1)
    # 12 against 11: the identifier alone decides
    check(plan("PSE", ("PSE", "=PSE||")), 12, 5, 1)
    check(plan(("PSE", "=PSE||")), 11, 4)
    for name in PLAN:
        check(pj("  " + LEAD[name].lstrip(" ") + "=" + name + "|"), 11, 4 + LEAD[name].count("\n"))
        check(pj("  =" + name + "|"), 12, 4, 1)


# numbers of who was paid: the first, the next, and whether the next may follow. 11 digits come before 14, whatever the digits
PAID = [
    (LOW, HIGH, 0), (HIGH, LOW, 20), (LOW, LOW, 20), (CNPJ, OTHER_CNPJ, 0), (OTHER_CNPJ, CNPJ, 20), (CNPJ, CNPJ, 20),
    (makers.cpf(999999999), makers.cnpj(1), 0), (makers.cnpj(1), makers.cpf(999999999), 20), (LOW, makers.cnpj(1), 0),
    (makers.cnpj(999999999999), LOW, 20), (makers.cnpj(1), LOW, 20),
]


def plan_keys():
    """20 in a health plan, with what stands below and behind between; never 21."""
    for name in ("OPSE", "TPSE"):
        size = len(cells_of(name)[1])
        low, high = [with_field(name, 2, makers.key(size, serial)) for serial in (1, 2)]
        lead = ["PSE"] if name == "OPSE" else ["PSE", "OPSE"]
        below_it = {"OPSE": ["TPSE", "DTPSE"], "TPSE": ["RTPSE", "DTPSE", "RDTPSE"]}[name]
        for between in ([], below_it):
            for one, next_one, breach in ((low, high, 0), (high, low, 20), (low, low, 20)):
                rows = lead + [(name, one)] + between + [(name, next_one)]
                check(plan(*rows, after="\nFIMDirf"), breach, 3 + len(rows) + (breach == 0), 2 if breach else 0)
    for between in ([], ["RDTPSE"]):
        for first, second, breach in DATED:
            rows = ["PSE", "OPSE", "TPSE", "RTPSE", ("DTPSE", dated("DTPSE", *first)), *between, ("DTPSE", dated("DTPSE", *second))]
            check(plan(*rows, after="\nFIMDirf"), breach, 3 + len(rows) + (breach == 0), 2 if breach else 0)
    for name, lead in (("RTPSE", ["PSE", "OPSE", "TPSE"]), ("RDTPSE", ["PSE", "OPSE", "TPSE", "DTPSE"])):
        for first, second, breach in PAID:
            rows = lead + [(name, with_field(name, 2, first)), (name, with_field(name, 2, second))]
            check(plan(*rows, after="\nFIMDirf"), breach, 3 + len(rows) + (breach == 0), 2 if breach else 0)
    # afresh under the next holder, dependant and operator
    high = makers.cpf(999999999)
    next_one = ("TPSE", with_field("TPSE", 2, high))
    check(plan("PSE", "OPSE", "TPSE", ("RTPSE", with_field("RTPSE", 2, CNPJ)), next_one, "RTPSE", after="\nFIMDirf"), 0, 10)
    check(plan("PSE", "OPSE", "TPSE", "DTPSE", "RDTPSE", ("DTPSE", dated("DTPSE", high, "")), "RDTPSE", after="\nFIMDirf"), 0, 11)
    check(plan("PSE", "OPSE", next_one, ("OPSE", with_field("OPSE", 2, OTHER_CNPJ)), "TPSE", after="\nFIMDirf"), 0, 9)


def plan_fields():
    """Amounts of nine digits, relations and the number of who was paid, through the check and the writer of either edition."""
    for name, field, obligatory in (("TPSE", 4, True), ("DTPSE", 6, True), ("RTPSE", 4, False), ("RTPSE", 5, False), ("RDTPSE", 4, False),
                                    ("RDTPSE", 5, False)):
        for cell, breach in (("", 13 if obligatory else 0), ("1", 0), ("999999999", 0), ("1000000000", 15), ("0", 16), ("012345678", 16),
                             ("0123456789", 15), ("1,00", 14), ("-1", 14)):
            judged(name, {field: cell}, breach, field if breach else 0)
    for name in ("INFPA", "DTPSE"):
        for cell, breach in [(cell, 0) for cell in ("", "03", "04", "06", "08", "10")] + [("00", 18), ("01", 18), ("05", 18), ("07", 18),
        ("09", 18), ("11", 18), ("3", 15), ("003", 15), ("3 ", 14)]:
            judged(name, {5: cell}, breach, 5 if breach else 0)
        for date, breach in (("", 0), ("20240229", 0), ("20230229", 17)):
            judged(name, {3: date}, breach, 3 if breach else 0)
            judged(name, {2: "", 3: date}, breach, 3 if breach else 0)
    for name in ("RTPSE", "RDTPSE"):
        # a person's name of over 60 is not looked at
        for size, breach in ((1, 0), (60, 0), (61, 0), (150, 0), (151, 15)):
            judged(name, {3: "N" * size}, breach, 3 if breach else 0)


# ---- the two editions: document 02, A4, and of the older one what document 000 prints


def first_lines():
    """Field 6 of a Dirf picks the edition, fields 2 and 3 do not; what stands in line 1 is judged by that edition."""
    for fields, breach, field in [
        ("2022|2021|N||XJFSFHB|", 0, 0), ("2022|2022|N||XJFSFHB|", 0, 0), ("2022|2022|S|123456789012|XJFSFHB|", 0, 0),
        ("2025|2021|N||XJFSFHB|", 18, 2), ("2025|2024|N||XJFSFHB|", 18, 2), ("2021|2021|N||XJFSFHB|", 18, 2),
        ("2022|2024|N||XJFSFHB|", 18, 3), ("2022|2020|N||XJFSFHB|", 18, 3), ("2022|2023|N||XJFSFHB|", 18, 3),
        ("|2021|N||XJFSFHB|", 13, 2), ("2022||N||XJFSFHB|", 13, 3), ("2022|2021|||XJFSFHB|", 13, 4), ("2022|2021|n||XJFSFHB|", 18, 4),
        ("202x|2021|N||XJFSFHB|", 14, 2), ("2022|20211|N||XJFSFHB|", 15, 3), ("2022|2021|N|1|XJFSFHB|", 15, 5),
        # the mark of 2025
        ("2022|2021|N||R6GP3ZA|", 18, 2), ("2022|2024|N||R6GP3ZA|", 18, 2), ("2025|2021|N||R6GP3ZA|", 18, 3),
        ("2025|2022|N||R6GP3ZA|", 18, 3),
        # a mark of neither, by the rules of 2025
        ("2025|2024|N||XJFSFHA|", 18, 6), ("2025|2024|N|||", 13, 6), ("2022|2021|N||XJFSFHA|", 18, 2), ("2022|2021|N|||", 18, 2),
        ("2025|2024|N||xjfsfhb|", 18, 6), ("2025|2024|N||XJFSFHb|", 18, 6), ("2022|2021|N||xjfsfhb|", 18, 2),
        ("2025|2024|N||XJFSFHBX|", 15, 6), ("2025|2024|N||XJFSFHB |", 15, 6), ("2025|2024|N|| XJFSFHB|", 15, 6),
        ("2025|2024|N||XJFSFH|", 15, 6), ("2022|2021|N||XJFSFHBX|", 18, 2),
        # a mark without its bar; one field too many or too few
        ("2022|2021|N||XJFSFHB", 8, 0), ("2025|2024|N||XJFSFHB", 8, 0), ("2022|2021|N||XJFSFHB||", 11, 0),
        ("2022|2021|N||XJFSFHB|R6GP3ZA|", 11, 0), ("2022|2021|N|XJFSFHB|", 11, 0), ("2022|2021|N|||XJFSFHB|", 11, 0),
    ]:
        check(with_first("Dirf|" + fields, SIX), breach, 1 if breach else 6, field)


def picked():
    """Field 6 of any record in line 1 picks: RTDS and ESDS there are 9 by the older edition and 12 by that of 2025."""
    for name in GONE:
        for fields, breach in [
            ("2022|2021|N||XJFSFHB|", 9), ("2025|2024|N||XJFSFHB|", 9), ("2022|2021|N||R6GP3ZA|", 12), ("2025|2024|N||R6GP3ZA|", 12),
            ("||||XJFSFHB|", 9), ("||||XJFSFHB|R6GP3ZA|", 9), ("||||XJFSFHB" + "|" * 9, 9), ("||||R6GP3ZA|XJFSFHB|", 12),
            ("", 12), ("|" * 4, 12), ("|" * 5, 12), ("|" * 13, 12), ("|||XJFSFHB|", 12), ("|||XJFSFHB||", 12), ("|||||XJFSFHB|", 12),
            ("||||XJFSFHA|", 12), ("||||xjfsfhb|", 12), ("||||XJFSFHb|", 12), ("||||XJFSFHBX|", 12), ("||||XXJFSFHB|", 12),
            ("||||XJFSFHB |", 12), ("|||| XJFSFHB|", 12), ("||||XJFSFHB\x00|", 12), ("||||XJFSFH|", 12), ("||||JFSFHB|", 12),
            # lines of 1,024 bytes
            ("A" * 1007 + "||||XJFSFHB|", 9), ("A" * 1007 + "||||R6GP3ZA|", 12), ("||||XJFSFHB|" + "A" * 1006 + "|", 9),
        ]:
            check("=" + name + "|" + fields, breach, 1, 1)
        # line 1 alone picks, however few fields it has
        check("=" + name + "|||||\n=XJFSFHB|", 12, 1, 1)
        check("=" + name + "|\n=" + name + "|||||XJFSFHB|", 12, 1, 1)
        # the other identifiers have one number in both
        for other, breach in (("RESPO", 12), ("RTDP", 12), ("FIMDirf", 12), ("INFPC", 12), ("VPEIM", 10), ("DIRF", 9), ("", 9)):
            check("=" + other + "|||||XJFSFHB|\n=" + name + "|", breach, 1, 1)


def later_lines():
    """A mark in a later line picks nothing."""
    check(with_first("Dirf|2025|2024|N||", SIX.replace("RESPO", "=RESPO|||||XJFSFHB|")), 11, 1)
    for name in GONE:
        tree = f"  PROC|1|1|1|{CPF}|%s||\n    IDREC\n      BPFPROC\n        {name}\nFIMDirf"
        for mark in ("XJFSFHB", "R6GP3ZA"):
            check(pj(tree % mark), 0, 8)
            check(older(pj(tree % mark)), 9, 7, 1)
    for first, second in ((2025, 2022), (2022, 2025)):
        check(f"={FIRST[first]}\n={FIRST[second]}", 12, 2, 1)


def first_line_ends():
    """Line 1 refused with 4, 5, 6 or 8: alike in both editions, and for a record that one of them has not."""
    for line in [*FIRST.values(), "RTDS|||||XJFSFHB|", "RTDS|||||R6GP3ZA|"]:
        for data, breach in [
            (line, 5), (line + "\r", 5), (line + "\n", 6), (line + "\rx", 6), (line + "\r\r\n", 6), (line + "\n\r\n", 6),
            (line.replace("|", "|\n", 1) + END, 6), (line[:-1] + "\r|" + END, 6),
            (line[:-1] + END, 8), (line + "x" + END, 8), (END + line + END, 8),
            (line + "x" * 1024, 4), (line + "x" * 1024 + END, 4), (line + "|" * 1024 + END, 4),
        ]:
            check_bytes(data, [], breach, 1)


def older_files():
    """Files of the older edition: every record that it has, every breach of a line, and what it has not."""
    below = values_below(LAYOUTS[2022])
    for declarant in ("DECPF", "DECPJ"):
        for turned in (False, True):
            tree = full(declarant, turned, below)
            for first in FIRST.values():
                check(with_first(first, tree), 0, tree.count("\n") + 1)
            # a file of 2025 under the older mark ends at the first record that is gone
            tree = older(full(declarant, turned))
            records = [row.strip() for row in tree.split("\n")]
            check(tree, 9, 1 + min(records.index(name) for name in GONE), 1)
    for breach, tree, line, field in faults():
        check(older(tree), breach, line, field)
    for name in LATER:
        check("=" + name + "|2022|2021|N||XJFSFHB|", 10, 1, 1)
        for tree in (pf, pj):
            check(older(tree("  =" + name + "|1|2|\nFIMDirf")), 10, 4, 1)
    check(older("Dirf\nRESPO"), 1, 3)
    check(older(SIX), 2, 7, after="\n")
    check(older(SIX), 7, 6, room=5)


def gone():
    """What the older edition has not, in every line from the second on: 9, before 12 and before 11."""
    below = {declarant: {who: names[:1] for who, names in has.items()} for declarant, has in values_below(LAYOUTS[2022]).items()}
    for declarant in ("DECPF", "DECPJ"):
        rows = older(full(declarant, False, below)).split("\n")
        for line in range(2, len(rows) + 1):
            for name in GONE:
                for text in (LINE[name], name + "|"):
                    check("\n".join(rows[: line - 1] + ["=" + text]), 9, line, 1)


def first_cells(edition):
    return FIRST[edition].split("|")[:-1]


def kinds_written():
    """Every kind by the line writer of each edition: 22, before all else, for those that it has not in its base."""
    names = {number: name for name, number in KIND.items()}
    for edition in FIRST:
        for kind in [*range(len(KIND) + 2), 255, 2**32 - 1]:
            name = names.get(kind, "")
            cells = first_cells(edition) if name == "Dirf" else cells_of(name)
            refused = name == "" or name in LATER or (edition == 2022 and name in GONE)
            write(kind, cells, 22 if refused else 0, edition=edition)
        for name in GONE:
            write(KIND[name], [], 22 if edition == 2022 else 11, edition=edition)
            write(KIND[name], [], 22 if edition == 2022 else 23, contents="", lengths=[2**64 - 1] * 14, edition=edition)
            write(KIND[name], cells_of(name), 22 if edition == 2022 else 24, room=0, edition=edition)


def first_lines_written():
    """Line 1 by the line writer: of each row what it takes and what it refuses; the other edition's values are 18, and pick nothing."""
    for edition, other in ((2025, 2022), (2022, 2025)):
        right, wrong = first_cells(edition), first_cells(other)
        write(KIND["Dirf"], wrong, 18, 2, edition=edition)
        tried = [(field, wrong[field - 1], 18) for field in (2, 3, 6)]
        for field, row in enumerate(LAYOUTS[edition].rows["Dirf"][1:], 2):
            tried += [(field, cell, breach) for cell, breach in taken(row)]
        for field, cell, breach in tried:
            write(KIND["Dirf"], right[: field - 1] + [cell] + right[field:], breach, field if breach else 0, edition=edition)
    # W is for 2025
    write(KIND["Dirf"], first_cells(2022), 18, 2)


def limits():
    """The most that a case may have, and last of all a case beyond it: what comes after that is not read."""
    check(SIX, 0, 6, room=4000, spare=3)
    for edition in (None, 2025, 2022):
        write(KIND["FIMDirf"], ["FIMDirf"], 0, room=4096, edition=edition)
    case("C", [number(20004), string("")], "bad case")
    RUN.append(b"A" + string("1"))


def main(folder=os.path.join(ROOT, "crates", "replay")):
    for group in (marked, line_ends, identifiers, whole_files, places, below, orders, rooms, pairs, field_rules, identifier_rules,
    conditions, writer_order, field_places, numbers, wrong_checkers, tour, check_digits, digit_fields, digit_pairs, lawyers, lawyer_pairs,
    pension_places, groups, pension_keys, plan_places, plan_keys, plan_fields,
    first_lines, picked, later_lines, first_line_ends, older_files, gone, kinds_written, first_lines_written,
    *search_cases.GROUPS, *totals_cases.GROUPS, limits):
        group()
    with open(os.path.join(folder, "stdin"), "wb") as out:
        out.write(b"".join(RUN))
    with open(os.path.join(folder, "stdout"), "w", newline="\n") as out:
        out.write("".join(line + "\n" for line in WANTED))
    print(f"{len(WANTED)} cases")


if __name__ == "__main__":
    main(*sys.argv[1:])
