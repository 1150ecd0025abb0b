"""What the cases of the replay run are made of: their form, lines of every record, and files as trees of lines, each with its table.

A case is put at the end of RUN, the line that it has to print at the end of WANTED; docs/REPLAY.md has the form of both. Records and rows
are those of layout.txt. replay_cases.py, search_cases.py and totals_cases.py make their cases with it.
"""
import struct
import sys

import layout
import makers

END = "\r\n"
CPF, CNPJ, OTHER_CNPJ = makers.PERSON, makers.COMPANY, makers.cnpj(222223330001)

# names, rows and lists are not typed again: tools/layout.txt has them
LAYOUTS = layout.read()
# a kind has the same number in both editions, and the older one has no other kinds and no other rows but Dirf's
LAYOUT = LAYOUTS[2025]
KIND, LATER, ROWS = LAYOUT.kinds, LAYOUT.later, LAYOUT.rows


def alike(name):
    """The records that have the rows of this one, the identifier aside."""
    return [other for other, rows in ROWS.items() if rows[1:] == ROWS[name][1:]]


MONTHLY, ANNUAL = alike("RTRT"), alike("RIL96")

# a line of each record that keeps every rule; value records besides, below. The declarants' are those of a file without blocks
LINE = {
    "Dirf": "Dirf|2025|2024|N||R6GP3ZA|",
    "RESPO": f"RESPO|{CPF}|ANA LIMA|11|33334444||||",
    "DECPF": makers.declarant("DECPF"),
    "DECPJ": makers.declarant("DECPJ"),
    "IDREC": "IDREC|0561|",
    "BPFDEC": f"BPFDEC|{CPF}|ANA LIMA||N|N|",
    "BPJDEC": f"BPJDEC|{CNPJ}|SERRA LTDA|",
    "FCI": f"FCI|{CNPJ}|FUNDO SERRA|",
    "BPFFCI": f"BPFFCI|{CPF}|ANA LIMA||",
    "BPJFCI": f"BPJFCI|{CNPJ}|SERRA LTDA|",
    "PROC": "PROC|1|12345|||||",
    "BPFPROC": f"BPFPROC|{CPF}|ANA LIMA||",
    "BPJPROC": f"BPJPROC|{CNPJ}|SERRA LTDA|",
    "RRA": "RRA|1||||||",
    "BPFRRA": f"BPFRRA|{CPF}|ANA LIMA|||N|",
    "RIO": "RIO|100|OUTROS|",
    "QTMESES": "QTMESES|10" + "|" * 12,
    "SCP": f"SCP|{CNPJ}|SCP SERRA|",
    "BPFSCP": f"BPFSCP|{CPF}|ANA LIMA||",
    "BPJSCP": f"BPJSCP|{CNPJ}|SERRA LTDA||",
    "INFPC": f"INFPC|{CNPJ}|PREVIDENCIA SERRA|",
    "INFPA": f"INFPA|{CPF}||BIA LIMA||",
    "PSE": "PSE|",
    "OPSE": f"OPSE|{CNPJ}|SAUDE SERRA||",
    "TPSE": f"TPSE|{CPF}|ANA LIMA|100|",
    "RTPSE": f"RTPSE|{CPF}|RUI DIAS|100||",
    "DTPSE": f"DTPSE|{CPF}||BIA LIMA||100|",
    "RDTPSE": f"RDTPSE|{CPF}|RUI DIAS|100||",
    "FIMDirf": "FIMDirf|",
}
LINE.update({name: name + "|100" + "|" * 13 for name in MONTHLY})
LINE.update({name: name + "|100|" for name in ANNUAL})

# what stands between the declarant and a beneficiary
LEAD = {
    "BPFDEC": "  IDREC\n    ", "BPJDEC": "  IDREC\n    ", "BPFFCI": "  FCI\n    IDREC\n      ", "BPJFCI": "  FCI\n    IDREC\n      ",
    "BPFPROC": "  PROC\n    IDREC\n      ", "BPJPROC": "  PROC\n    IDREC\n      ", "BPFRRA": "  RRA\n    IDREC\n      ",
    "BPFSCP": "  SCP\n    ", "BPJSCP": "  SCP\n    ",
    "INFPC": "  IDREC\n    BPFDEC\n      ", "INFPA": "  IDREC\n    BPFDEC\n      ",
    "OPSE": "  PSE\n    ", "TPSE": "  PSE\n    OPSE\n      ", "RTPSE": "  PSE\n    OPSE\n      TPSE\n        ",
    "DTPSE": "  PSE\n    OPSE\n      TPSE\n        ", "RDTPSE": "  PSE\n    OPSE\n      TPSE\n        DTPSE\n          ",
}

# of an entry: kind, start, length, parent, last line of its group so far
NUMBERS = 5

# line 1 of each edition
FIRST = {2025: LINE["Dirf"], 2022: "Dirf|2022|2021|N||XJFSFHB|"}

RUN = []
WANTED = []


# ---- the form of a case


def number(value):
    return struct.pack("<Q", value)


def string(data):
    data = data if isinstance(data, bytes) else data.encode("latin-1")
    return number(len(data)) + data


def case(letter, parts, line):
    RUN.append(letter.encode() + b"".join(parts))
    WANTED.append(line)


def words(*items):
    return " ".join(str(item) for item in items if item != "")


def line_of(name, records):
    """The line of a record, in a file that has these records: a declarant's flags follow from them."""
    return makers.declarant(name, records) if name in makers.FLAGS else LINE.get(name, name)


def lines_of(tree):
    """The lines of a tree, and of each the number of the line above it that is indented less, 0 where none is."""
    lines, open_lines = [], []
    rows = tree.strip("\n").split("\n")
    records = {row.lstrip(" ").split("|")[0] for row in rows}
    for row in rows:
        text = row.lstrip(" ")
        depth = len(row) - len(text)
        open_lines = [(d, n) for d, n in open_lines if d < depth]
        # a name stands for its line above; = means the text as it is
        text = text[1:] if text.startswith("=") else line_of(text, records)
        lines.append((text, open_lines[-1][1] if open_lines else 0))
        open_lines.append((depth, len(lines)))
    return lines


def ends_of(parents):
    """Of each line the last one of its group: every line is, when it is taken, the last of itself and of all records above it."""
    ends = []
    for line, parent in enumerate(parents, 1):
        ends.append(line)
        while parent:
            ends[parent - 1] = line
            parent = parents[parent - 1]
    return ends


def table_of(lines):
    """The table of these lines, each with its parent, number by number."""
    table, start = [], 0
    for (text, parent), end in zip(lines, ends_of([parent for _, parent in lines])):
        table += [KIND[text.split("|")[0]], start, len(text), parent, end]
        start += len(text) + len(END)
    return table


def bytes_of(lines):
    return "".join(text + END for text, _ in lines)


def suits(outer, holder, name):
    """Whether a record may stand below one that is itself below an outer one: an ESPA not below the INFPA of a BPFRRA."""
    return (outer, holder, name) != ("BPFRRA", "INFPA", "ESPA")


def entries_of(breach, line):
    """How many lines have an entry: all on acceptance, on refusal those before the line that is named."""
    return line if breach == 0 else line - 1


def size_of(lines, room, spare):
    """The numbers of a table with room for so many entries, two more than the lines where none is named, and some to spare."""
    return NUMBERS * (len(lines) + 2 if room is None else room) + spare


def check_bytes(data, lines, breach, line, field=0, room=None, spare=3):
    """A file's bytes; the lines that stand in it, as far as the line named; and document 01's number, line and field."""
    entries = entries_of(breach, line)
    case("C", [number(size_of(lines, room, spare)), string(data)], words(breach, line, field, entries, 1, *table_of(lines[:entries])))


def check(tree, breach, line, field=0, after="", **more):
    """A tree of lines; `after` is what follows the last one's CR LF."""
    lines = lines_of(tree)
    check_bytes(bytes_of(lines) + after, lines, breach, line, field, **more)


def pf(tree):
    return "Dirf\nRESPO\nDECPF\n" + tree.strip("\n")


def pj(tree):
    return "Dirf\nRESPO\nDECPJ\n" + tree.strip("\n")


def cells_of(name, records=()):
    return line_of(name, records).split("|")[:-1]


def with_cell(name, field, cell, records=()):
    cells = cells_of(name, records)
    return cells[: field - 1] + [cell] + cells[field:]


def with_field(name, field, cell, records=()):
    return "|".join(with_cell(name, field, cell, records)) + "|"


def with_cells(name, cells):
    """The fields of a record with these put in, by their numbers."""
    return [cells.get(field, cell) for field, cell in enumerate(cells_of(name), 1)]


def with_fields(name, cells):
    """The line of a record with these fields put in."""
    return "|".join(with_cells(name, cells)) + "|"


def with_first(line, tree):
    return "=" + line + tree[tree.index("\n") :]


def older(tree):
    return with_first(FIRST[2022], tree)


def held(what, name):
    if not what:
        sys.exit(f"replay_cases.py: {name} is not what it is there for")
