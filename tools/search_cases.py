"""The cases of groups and of the search: document 02, A6. replay_cases.py puts them into its run.

Nothing here asks the program. In the files below the last line of each group stands in front of its row. What a search comes to is written
out, or worked out by reading every line (`by_reading`), from whose child each line is: the last lines have no part in that.
"""
from typing import NamedTuple

import makers
from replay_form import (
    CNPJ, END, FIRST, KIND, NUMBERS, OTHER_CNPJ,
    bytes_of, case, cells_of, check, ends_of, held, lines_of, number, string, table_of, with_field, with_first, words,
)

PERSONS = ("BPFDEC", "BPFFCI", "BPFPROC", "BPFRRA", "BPFSCP")
COMPANIES = ("BPJDEC", "BPJFCI", "BPJPROC", "BPJSCP")

# three persons, and keys before, between and behind them; TOP is a person of CITY, too
A, B, C = [makers.cpf(serial) for serial in (101, 303, 505)]
BOTTOM, AB, BC, MORE, TOP = [makers.cpf(serial) for serial in (1, 202, 404, 606, 999999999)]
WORD = 2**32 - 1
NO_WAY = (27, 0, 0)


def stop(line, count):
    """The answer of a search that is not refused: the line found, 0 for none, and the entries looked at."""
    return (0, line, count)


# ---- files with the last line of each group in front. NAME:SERIAL is the record's line with the key of that serial number


CITY = """
  1 Dirf
  2 RESPO
 68 DECPJ
 17   IDREC:561
  9     BPFDEC:101
  6       RTRT
  8       INFPC
  8         RTPP
  9       RIO
 10     BPFDEC:303
 14     BPFDEC:505
 12       RTRT
 14       INFPA
 14         RTPA
 16     BPJDEC
 16       RTRT
 17     BPJDEC:222223330001
 18   IDREC:588
 22   IDREC:1708
 21     BPJDEC
 21       RTRT
 22     BPJDEC:222223330001
 25   IDREC:3208
 24     BPFDEC:303
 25     BPFDEC:999999999
 36   FCI
 33     IDREC:561
 29       BPFFCI:101
 29         RTRT
 30       BPFFCI:303
 32       BPFFCI:505
 32         RTRT
 33       BPJFCI
 36     IDREC:588
 36       BPFFCI:303
 36         RTRT
 39   FCI:222223330001
 39     IDREC:561
 39       BPJFCI
 48   PROC
 47     IDREC:561
 44       BPFPROC:101
 43         RTRT
 44         RTPP
 45       BPFPROC:303
 46       BPFPROC:505
 47       BPJPROC
 48     IDREC:588
 59   RRA
 57     IDREC:561
 54       BPFRRA:101
 53         INFPA
 53           RTPA
 54         RTRT
 56       BPFRRA:303
 56         RTRT
 57       BPFRRA:505
 59     IDREC:1889
 59       BPFRRA:303
 62   SCP
 61     BPFSCP:101
 62     BPJSCP
 68   PSE
 68     OPSE
 68       TPSE
 66         RTPSE
 68         DTPSE
 68           RDTPSE
 69 FIMDirf
"""

TOWN = """
  1 Dirf
  2 RESPO
 19 DECPF
 11   IDREC:561
  6     BPFDEC:101
  6       RTRT
 10     BPFDEC:303
 10       INFPA
  9         RTPA
 10         ESPA
 11     BPJDEC
 13   IDREC:588
 13     BPFDEC:303
 19   RRA
 18     IDREC:561
 16       BPFRRA:101
 18       BPFRRA:303
 18         RTRT
 19     IDREC:588
 20 FIMDirf
"""

SMALL = """
  1 Dirf
  2 RESPO
 14 DECPJ
 12   IDREC:561
  6     BPFDEC:101
  6       RTRT
  9     BPFDEC:303
  8       RTRT
  9       RIO
 10     BPFDEC:505
 12     BPJDEC
 12       RTRT
 14   IDREC:588
 14     BPFDEC:303
 15 FIMDirf
"""
# its two IDRECs, and its first, second and third person and the company below the one
HERE, THERE = 4, 13
ONE, TWO, THREE, FIRM = 5, 7, 10, 11
ENTRIES = 15


def keyed(row):
    name, _, serial = row.strip().partition(":")
    if not serial:
        return row
    return row.replace(row.strip(), with_field(name, 2, makers.key(len(cells_of(name)[1]), int(serial))))


def rows_of(text):
    return [keyed(row[4:]) for row in text.strip("\n").split("\n")]


def tree_of(text):
    return "\n".join(rows_of(text))


def written_ends(text):
    return [int(row[:3]) for row in text.strip("\n").split("\n")]


# ---- the two kinds of search


class Checked(NamedTuple):
    """A file, its lines that have an entry after the check, and the numbers of the table that the check was lent."""
    data: str
    lines: list
    size: int


def checked(tree, breach=0, line=None, field=0, room=None, spare=3, after=""):
    """A file that is checked, and accepted where nothing else is said; a case of its own says that it is so."""
    lines = lines_of(tree)
    line = len(lines) if line is None else line
    room = len(lines) + 2 if room is None else room
    check(tree, breach, line, field, after, room=room, spare=spare)
    return Checked(bytes_of(lines) + after, lines[: line - (breach != 0)], NUMBERS * room + spare)


def key_of(text):
    """Field 2 of a line: what stands behind the last bar is no field."""
    return (text.split("|")[:-1] + ["", ""])[1]


def by_reading(lines, line, key):
    """What reading every line gives: below the IDREC the persons with a smaller key, and one more if there is one, are looked at."""
    names = [text.split("|")[0] for text, _ in lines]
    if not 1 <= line <= len(lines) or names[line - 1] != "IDREC":
        return NO_WAY
    below = [(at, name, key_of(text)) for at, (name, (text, parent)) in enumerate(zip(names, lines), 1) if parent == line]
    persons = [(at, has) for at, name, has in below if name in PERSONS]
    smaller = len([has for _, has in persons if has < key])
    found = [at for at, has in persons if has == key]
    return stop(found[0] if found else 0, smaller + (smaller < len(below)))


def own(file, line, key, answer=None):
    """A search with the file's own table; an answer that is written out has to be that of reading every line."""
    read = by_reading(file.lines, line, key)
    held(answer in (None, read), f"the search for {key!r} from line {line}")
    case("S", [number(file.size), string(file.data), number(line), string(key)], words(*read))


def given(data, table, line, key, answer):
    """A search with a table that is given, number by number."""
    case("T", [number(len(table)), *map(number, table), string(data), number(line), string(key)], words(*answer))


# ---- groups


def group_ends():
    """The last line of each group in files that are whole, cut after each line, and refused at each line."""
    for text in (CITY, TOWN, SMALL):
        rows, ends, lines = rows_of(text), written_ends(text), lines_of(tree_of(text))
        for line in range(1, len(rows)):
            # of the lines read so far a group has those that it has in the whole file
            held(ends_of([parent for _, parent in lines[:line]]) == [min(end, line) for end in ends[:line]], f"group after line {line}")
            check("\n".join(rows[:line]), 1, line + 1)
        held(ends_of([parent for _, parent in lines]) == ends, "a whole file's groups")
        for first in FIRST.values():
            check(with_first(first, tree_of(text)), 0, len(rows))
    # 7 comes last of all that is asked of a line, 9 early; 2 behind the end
    for first in FIRST.values():
        for text in (TOWN, SMALL):
            tree = with_first(first, tree_of(text))
            for line in range(1, tree.count("\n") + 2):
                check(tree, 7, line, room=line - 1, spare=NUMBERS - 1)
                check("\n".join(tree.split("\n")[: line - 1] + ["=XXX|"]), 9, line, 1)
            check(tree, 2, tree.count("\n") + 2, after="x")


# ---- files with their own tables


KEYS = [BOTTOM, A, AB, B, BC, C, MORE, TOP, CNPJ, OTHER_CNPJ, ""]
# of CITY: the line of an IDREC, a key, the line found and the count
WRITTEN_OUT = [
    (4, BOTTOM, 0, 1), (4, A, 5, 1), (4, AB, 0, 2), (4, B, 10, 2), (4, BC, 0, 3), (4, C, 11, 3), (4, MORE, 0, 4), (4, TOP, 0, 4),
    (4, CNPJ, 0, 4), (4, OTHER_CNPJ, 0, 4), (4, "", 0, 1),
    # nothing below, companies only, and no company behind the last person
    (18, A, 0, 0), (18, "", 0, 0), (19, A, 0, 1), (19, CNPJ, 0, 1), (19, OTHER_CNPJ, 0, 1), (19, "", 0, 1),
    (23, A, 0, 1), (23, B, 24, 1), (23, C, 0, 2), (23, CNPJ, 0, 2), (23, TOP, 25, 2),
    (27, A, 28, 1), (27, B, 30, 2), (27, C, 31, 3), (27, CNPJ, 0, 4), (34, A, 0, 1), (34, B, 35, 1), (34, C, 0, 1), (38, A, 0, 1),
    (38, CNPJ, 0, 1),
    (41, A, 42, 1), (41, B, 45, 2), (41, C, 46, 3), (41, MORE, 0, 4), (48, A, 0, 0),
    (50, A, 51, 1), (50, B, 55, 2), (50, C, 57, 3), (50, MORE, 0, 3), (58, A, 0, 1), (58, B, 59, 1), (58, C, 0, 1),
]


def idrecs(lines):
    return [line for line, (text, _) in enumerate(lines, 1) if text.startswith("IDREC|")]


def searches():
    """Every IDREC of a file of each declarant: under the declarant, FCI, PROC and RRA, with persons, companies, both and nothing below."""
    city, town = [checked(tree_of(text)) for text in (CITY, TOWN)]
    for line, key, found, count in WRITTEN_OUT:
        own(city, line, key, stop(found, count))
    known = {(line, key) for line, key, _, _ in WRITTEN_OUT}
    for file in (city, town):
        for line in idrecs(file.lines):
            for key in KEYS:
                if file is town or (line, key) not in known:
                    own(file, line, key)
    for text in (CITY, TOWN):
        file = checked(with_first(FIRST[2022], tree_of(text)))
        for line in idrecs(file.lines):
            for key in (A, B, C, MORE):
                own(file, line, key)


def search_keys():
    """Keys that are no CPF of the file: beginnings, longer ones, none, other bytes; they are compared as bytes, from the first one on."""
    file = checked(tree_of(SMALL))
    last = int(B[-1])
    held(0 < last < 9, "a last digit with one below and one above it")
    for key, found, count in [
        (A, ONE, 1), (B, TWO, 2), (C, THREE, 3), (MORE, 0, 4),
        # proper beginnings, and longer ones
        ("0", 0, 1), (A[:1], 0, 1), (A[:10], 0, 1), (B[:10], 0, 2), (C[:10], 0, 3), (C[:7], 0, 3), (A + "0", 0, 2), (A + "\0", 0, 2),
        (B + B, 0, 3), (C + "\0", 0, 4), (A + "|", 0, 2), (A + "|ANA LIMA|", 0, 2), (A + " ", 0, 2), (A + "9" * 1000, 0, 2),
        ("0" * 1000, 0, 1), ("9" * 1000, 0, 4),
        # the last digit one less and one more, the first one
        (B[:-1] + str(last - 1), 0, 2), (B[:-1] + str(last + 1), 0, 3), ("1" + B[1:], 0, 4), ("/" + B[1:], 0, 1),
        # without its zeros, masked, with a blank in front
        (str(int(A)), 0, 4), (f"{B[:3]}.{B[3:6]}.{B[6:9]}-{B[9:]}", 0, 1), (" " + A, 0, 1),
        # other bytes: below and above the digits, over 127
        ("", 0, 1), ("\0", 0, 1), ("\r\n", 0, 1), ("/", 0, 1), (":", 0, 4), ("|", 0, 4), ("\x7f", 0, 4), ("\x80", 0, 4), ("\xff", 0, 4),
        ("\xff" * 11, 0, 4), ("0\xff", 0, 4), ("BPFDEC", 0, 4), ("BPFDEC|" + A, 0, 4), ("ANA LIMA", 0, 4),
        # a company is never found
        (CNPJ, 0, 4), (CNPJ[:13], 0, 4), (CNPJ + "0", 0, 4),
    ]:
        own(file, HERE, key, stop(found, count))


def search_lines():
    """Every line of a file, none, and lines past the table: 27 where no IDREC stands there."""
    file = checked(tree_of(CITY))
    for line in [*range(len(file.lines) + 3), 73, 256 + 4, 2**16 + 4, 2**31 + 4, WORD - 1, WORD]:
        own(file, line, B)
    small = tree_of(SMALL)
    # the numbers behind the entries are not lent
    for room, spare in ((ENTRIES, 0), (ENTRIES, 4), (ENTRIES + 1, 0), (4000, 3)):
        file = checked(small, room=room, spare=spare)
        for line in (HERE, THERE, ENTRIES, ENTRIES + 1, ENTRIES + 2):
            own(file, line, B)


# what is refused behind so many lines of SMALL: the row, the number and the field
REFUSED = [
    (4, "    BPFFCI", 12, 1), (4, "    RTRT", 12, 1), (4, "    BPFDEC|", 11, 0), (4, "    =BPFDEC", 8, 0), (4, "    =BPFDEK|", 9, 1),
    (4, "    =VPEIM|", 10, 1), (4, "  IDREC:561", 20, 2), (4, "    " + with_field("BPFDEC", 2, ""), 13, 2),
    (4, "    " + with_field("BPFDEC", 2, A[:10] + "x"), 14, 2), (4, "    " + with_field("BPFDEC", 2, A[:10]), 15, 2),
    (4, "    " + with_field("BPFDEC", 2, A[:9] + A[:-3:-1]), 26, 2),
    (5, "    BPFDEC:101", 20, 2), (6, "    BPFDEC:1", 20, 2), (6, "      RTRT", 21, 1), (6, "      RISCP", 12, 1),
    (7, "    BPFDEC:202", 20, 2), (9, "      RIO", 21, 1), (9, "    " + with_field("BPFDEC", 4, "20230229"), 17, 4),
    (10, "    " + with_field("BPFDEC", 5, "X"), 18, 5), (10, "    BPFDEC:505", 20, 2), (11, "    BPFDEC:606", 12, 1),
    (11, "    BPJDEC", 20, 2), (12, "  IDREC:561", 20, 2), (13, "    BPFRRA", 12, 1), (14, "    BPFDEC:303", 20, 2),
]


def search_refused():
    """Refused files, searched with the entries of the lines before: an IDREC may be the last of them, or the refused line its child."""
    rows = rows_of(SMALL)
    for taken in range(ENTRIES):
        files = [checked("\n".join(rows[:taken]), 1, taken + 1)] if taken else []
        for spare in (0, 4):
            files.append(checked("\n".join(rows), 7, taken + 1, room=taken, spare=spare))
        for file in files:
            for line, key in ((HERE, B), (HERE, MORE), (THERE, B)):
                own(file, line, key)
    for taken, row, breach, field in REFUSED:
        file = checked("\n".join(rows[:taken] + [keyed(row)]), breach, taken + 1, field)
        for line in sorted({HERE, taken, taken + 1}):
            for key in (A, C, MORE):
                own(file, line, key)
    # 27 without any entry; and a person behind the refused line is not found
    own(Checked("", [], 5), 1, A, NO_WAY)
    own(Checked("\n", [], 5), 0, "", NO_WAY)
    file = checked("\n".join(rows[:4] + ["=XXX|"] + rows[4:]), 9, 5, 1)
    own(file, HERE, A, stop(0, 0))
    own(checked("\n".join(rows), 2, ENTRIES + 1, after="\n"), HERE, C, stop(THREE, 3))


# ---- tables that are given


KIND_OF, START, LENGTH, PARENT, LAST = range(NUMBERS)


class Small(NamedTuple):
    """SMALL as it is, with its table; a case may change numbers of that, each named by its line and its place in the entry."""
    data: str
    table: list

    def at(self, line, which):
        return self.table[NUMBERS * (line - 1) + which]

    def changed(self, changes):
        table = list(self.table)
        for (line, which), value in changes.items():
            table[NUMBERS * (line - 1) + which] = value
        return table

    def search(self, changes, key, answer, line=HERE):
        given(self.data, self.changed(changes), line, key, answer)


def small_file():
    lines = lines_of(tree_of(SMALL))
    return Small(bytes_of(lines), table_of(lines))


def given_tables():
    """Tables as they are: the answers are those of the file's own."""
    small, lines = small_file(), lines_of(tree_of(SMALL))
    for line in range(ENTRIES + 2):
        for key in (B, MORE) if line in (HERE, THERE) else (B,):
            small.search({}, key, by_reading(lines, line, key), line)
    for key, answer in ((BOTTOM, stop(0, 1)), (A, stop(ONE, 1)), (AB, stop(0, 2)), (B, stop(TWO, 2)), (BC, stop(0, 3)), (C, stop(THREE, 3)),
                        (CNPJ, stop(0, 4)), ("", stop(0, 1))):
        small.search({}, key, answer)
    for line in (ENTRIES + 1, 2**16 + HERE, 2**31 + HERE, WORD - 1, WORD):
        small.search({}, B, NO_WAY, line)
    lines = lines_of(tree_of(CITY))
    for line, key, found, count in WRITTEN_OUT[::3]:
        given(bytes_of(lines), table_of(lines), line, key, stop(found, count))


# of SMALL: a line that a search comes to, the key, and the answer as the table is: the IDREC, the first person, later ones that are stepped
# over, those that stop the search, found or not, and the company that does
SPOTS = [
    (HERE, B, stop(TWO, 2)), (ONE, B, stop(TWO, 2)), (ONE, A, stop(ONE, 1)), (TWO, C, stop(THREE, 3)), (TWO, B, stop(TWO, 2)),
    (TWO, AB, stop(0, 2)), (THREE, MORE, stop(0, 4)), (THREE, C, stop(THREE, 3)), (FIRM, MORE, stop(0, 4)), (FIRM, CNPJ, stop(0, 4)),
]


def other_kinds(line):
    """Numbers that are no IDREC's, or no beneficiary's: of other records, of none, and alike in their low bits."""
    right = ["IDREC"] if line == HERE else PERSONS + COMPANIES
    own_kind = KIND["IDREC"] if line == HERE else KIND["BPFDEC"]
    others = ["Dirf", "RTRT", "INFPC", "INFPA", "FCI", "SCP", "PSE", "FIMDirf", "BPFDEC" if line == HERE else "IDREC"]
    held(not set(others) & set(right), "the kinds that are refused")
    return [KIND[name] for name in others] + [0, 74, own_kind + 2**8, own_kind + 2**16, own_kind + 2**31, WORD]


def outside(small, line):
    """Starts and lengths whose sum passes the file's length by one, by more, and past 32 bits."""
    size, start, length = len(small.data), small.at(line, START), small.at(line, LENGTH)
    return [
        (start, size - start + 1), (size - length + 1, length), (size, 1), (size + 1, 0), (start, WORD), (WORD, length), (WORD, 0),
        (0, WORD),
        # 2^32 and more: without the bit above, 0, the start alone and the right end
        (WORD, 1), (1, WORD), (2**31, 2**31), (start, 2**32 - start), (start + 1, WORD), (WORD, start + length + 1), (WORD, WORD),
    ]


def spoiled():
    """Every cause of 27 by itself, at each entry that a search can come to, the one that stops it too."""
    small = small_file()
    for line, key, _ in SPOTS:
        for kind in other_kinds(line):
            small.search({(line, KIND_OF): kind}, key, NO_WAY)
        for start, length in outside(small, line):
            small.search({(line, START): start, (line, LENGTH): length}, key, NO_WAY)
        # before itself, and past the table
        for last in (line - 1, line - 2, 1, 0, ENTRIES + 1, ENTRIES + 2, 2**16 + line, 2**31 + line, WORD):
            small.search({(line, LAST): last}, key, NO_WAY)


def at_the_edge():
    """What just stays within file and table; a last line past the IDREC's own only ends the search."""
    small = small_file()
    size = len(small.data)
    for line, key, answer in SPOTS:
        # a longer line has the same field 2
        for length in (size - small.at(line, START), small.at(line, LENGTH) + 1):
            small.search({(line, LENGTH): length}, key, answer)
        # an empty part at the file's end has none: it is smaller, and the search goes on
        empty = {(TWO, B): stop(0, 3), (TWO, AB): stop(0, 3), (THREE, C): stop(0, 4), (ONE, A): stop(0, 2)}
        small.search({(line, START): size, (line, LENGTH): 0}, key, empty.get((line, key), answer))
        # its own line: below the IDREC nothing; behind a person that is stepped over the next line, which is an amount
        alone = {(HERE, B): stop(0, 0), (ONE, B): NO_WAY, (TWO, C): NO_WAY}
        small.search({(line, LAST): line}, key, alone.get((line, key), answer))
        # the table's last line, and those past the IDREC's last
        ended = {(ONE, B): stop(0, 1), (TWO, C): stop(0, 2), (THREE, MORE): stop(0, 3)}
        for last in range(12, ENTRIES + 1):
            small.search({(line, LAST): last}, key, ended.get((line, key), answer))
    # a person's last line leads anywhere ahead: to the third person, to the company, to an amount
    for last, key, answer in ((9, C, stop(THREE, 2)), (9, B, stop(0, 2)), (10, B, stop(0, 2)), (10, C, stop(0, 2)), (11, B, NO_WAY),
                              (7, B, NO_WAY), (8, B, NO_WAY)):
        small.search({(ONE, LAST): last}, key, answer)


def idrec_ends():
    """The IDREC's last line, and nothing else, says where its persons end."""
    small = small_file()
    for last, key, answer in [
        (5, A, stop(ONE, 1)), (5, B, stop(0, 1)), (6, B, stop(0, 1)), (7, B, stop(TWO, 2)), (7, C, stop(0, 2)), (9, C, stop(0, 2)),
        (9, AB, stop(0, 2)), (10, C, stop(THREE, 3)), (10, MORE, stop(0, 3)), (11, MORE, stop(0, 4)), (13, MORE, stop(0, 4)),
        (15, MORE, stop(0, 4)),
    ]:
        small.search({(HERE, LAST): last}, key, answer)
    # with a person in the company's place, whose key is the CNPJ: behind it comes the next IDREC, no beneficiary
    person = {(FIRM, KIND_OF): KIND["BPFDEC"]}
    small.search(person, CNPJ, stop(FIRM, 4))
    small.search(person, MORE, stop(0, 4))
    for last, answer in ((12, stop(0, 4)), (13, NO_WAY), (15, NO_WAY)):
        small.search({**person, (HERE, LAST): last}, "9", answer)
    # with a person in that IDREC's place, too, whose key is its code: the search goes on to the end of the table, where FIMDirf stands
    persons = {**person, (THERE, KIND_OF): KIND["BPFDEC"]}
    for last, answer in ((13, stop(0, 5)), (14, stop(0, 5)), (15, NO_WAY)):
        small.search({**persons, (HERE, LAST): last}, "9", answer)
    small.search({**persons, (HERE, LAST): 14, (FIRM, START): 0, (FIRM, LENGTH): 0}, "0588", stop(THERE, 5))
    # any entry may be called an IDREC
    small.search({(THREE, KIND_OF): KIND["IDREC"]}, C, stop(0, 0), THREE)
    small.search({(1, KIND_OF): KIND["IDREC"]}, C, stop(0, 0), 1)
    small.search({(3, KIND_OF): KIND["IDREC"]}, C, NO_WAY, 3)
    small.search({(6, KIND_OF): KIND["IDREC"], (6, LAST): 12}, C, stop(THREE, 2), 6)
    small.search({(15, KIND_OF): KIND["IDREC"]}, C, stop(0, 0), 15)


def not_asked():
    """The parents, the lines that are stepped over, those before the IDREC and those behind the stop: whatever stands there."""
    small = small_file()
    for line, key, answer in SPOTS:
        for parent in (0, line, WORD):
            small.search({(line, PARENT): parent}, key, answer)
    small.search({(line, PARENT): WORD for line in range(1, ENTRIES + 1)}, C, stop(THREE, 3))
    for key, answer, lines in [
        (A, stop(ONE, 1), [1, 2, 3, *range(6, 16)]), (AB, stop(0, 2), [1, 2, 3, 6, *range(8, 16)]),
        (B, stop(TWO, 2), [1, 2, 3, 6, *range(8, 16)]), (C, stop(THREE, 3), [1, 2, 3, 6, 8, 9, *range(11, 16)]),
        (MORE, stop(0, 4), [1, 2, 3, 6, 8, 9, *range(12, 16)]), (CNPJ, stop(0, 4), [1, 2, 3, 6, 8, 9, *range(12, 16)]),
    ]:
        for value in (0, 1, KIND["BPJDEC"], WORD):
            small.search({(line, which): value for line in lines for which in range(NUMBERS)}, key, answer)
        for line in lines:
            small.search({(line, which): WORD for which in range(NUMBERS)}, key, answer)
    # stepped over, with kinds at which a search would stop
    for name in ("IDREC", "BPFDEC", "BPJDEC", "FIMDirf"):
        small.search({(line, KIND_OF): KIND[name] for line in (6, 8, 9)}, C, stop(THREE, 3))


def table_sizes():
    """Whole entries only: a table that is cut, also inside an entry, and one with numbers behind it."""
    small = small_file()
    for entries, line, key, answer in [
        (0, 1, B, NO_WAY), (3, HERE, B, NO_WAY), (4, HERE, B, NO_WAY), (11, HERE, B, NO_WAY), (12, HERE, B, stop(TWO, 2)),
        (12, HERE, MORE, stop(0, 4)), (12, THERE, B, NO_WAY), (13, THERE, B, NO_WAY), (14, THERE, B, stop(14, 1)),
        (14, THERE, C, stop(0, 1)),
    ]:
        for more in range(NUMBERS):
            given(small.data, small.table[: NUMBERS * entries + more], line, key, answer)
    # an entry at the end of which one number is missing is none: not as a line asked for, nor as a last line
    idrec = [KIND["IDREC"], 0, 0, 0]
    for table, line, answer in [
        (idrec + [1], 1, stop(0, 0)), (idrec, 1, NO_WAY), (idrec + [2], 1, NO_WAY), (idrec + [2, 6, 0, 0, 0], 1, NO_WAY),
        (idrec + [2, 6, 0, 0, 0, 2], 1, stop(0, 1)), (idrec + [1, 6, 0, 0, 0], 1, stop(0, 0)), (idrec + [1] + idrec, 2, NO_WAY),
        (idrec + [1] + idrec + [2], 2, stop(0, 0)),
    ]:
        given("", table, line, "x", answer)
    for behind in ([0], [0] * 4, [0] * 5, [WORD] * 4, [WORD] * 5, [WORD] * 999, [KIND["IDREC"], 0, 0, 0, 16], small.table):
        for key, answer in ((B, stop(TWO, 2)), (MORE, stop(0, 4))):
            given(small.data, small.table + behind, HERE, key, answer)
    # with an entry more, line 16 is within the table
    for more, answer in ((4, NO_WAY), (5, stop(TWO, 2)), (9, stop(TWO, 2))):
        given(small.data, small.changed({(HERE, LAST): ENTRIES + 1}) + [WORD] * more, HERE, B, answer)


def other_files():
    """The table of another file: what the lines hold is this one's, and nothing past its end is looked at."""
    small = small_file()
    data, end = small.data, small.at(TWO, START) + small.at(TWO, LENGTH)
    for file, key, answer in [
        # cut behind the person that stops the search, and one byte before
        (data[:end], B, stop(TWO, 2)), (data[: end - 1], B, NO_WAY), (data[:end], C, NO_WAY), (data[:end], AB, stop(0, 2)),
        (data[: small.at(HERE, START) + small.at(HERE, LENGTH)], B, NO_WAY), ("", B, NO_WAY), ("", "", NO_WAY),
        (data + "x" * 1000, B, stop(TWO, 2)),
        # a byte more or less in front: the identifier is another, field 2 is not
        ("x" + data, B, stop(TWO, 2)), (data[1:], B, stop(TWO, 2)), ("x" + data, MORE, stop(0, 4)), (data[1:], MORE, stop(0, 4)),
        # no field at all, and empty ones: three persons with the empty key
        ("x" * len(data), "", stop(ONE, 1)), ("x" * len(data), A, stop(0, 4)), ("|" * len(data), "", stop(ONE, 1)),
        ("|" * len(data), A, stop(0, 4)),
        # the same lines with another person
        (data.replace(A, AB), A, stop(0, 1)), (data.replace(A, AB), AB, stop(ONE, 1)), (data.replace(B, BC), B, stop(0, 2)),
        (data.replace(B, BC), BC, stop(TWO, 2)), (data.replace(B, MORE), C, stop(0, 2)), (data.replace(A, TOP), B, stop(0, 1)),
    ]:
        given(file, small.table, HERE, key, answer)
    # of the two files the first lines are alike; this one ends before the other's RRA
    lines = lines_of(tree_of(CITY))
    given(bytes_of(lines), small.table, HERE, A, stop(ONE, 1))
    given(data, table_of(lines), HERE, A, stop(ONE, 1))
    held(len(data) < len(bytes_of(lines[:49])), "a file that is shorter")
    for line in (50, 58):
        given(data, table_of(lines), line, A, NO_WAY)


def line_parts():
    """The key is field 2 of what start and length name: none without a second bar, and a line without one has the empty key."""
    small = small_file()
    start, size = small.at(ONE, START), len(small.data)
    whole = len("BPFDEC|" + A + "|")
    for length in (0, 1, 6, 7, 8, 12, whole - 1):
        small.search({(ONE, LENGTH): length}, "", stop(ONE, 1))
        small.search({(ONE, LENGTH): length}, A, stop(0, 2))
        small.search({(ONE, LENGTH): length}, B, stop(TWO, 2))
        small.search({(THREE, LENGTH): length}, C, stop(0, 4))
    for length in (whole, whole + 1):
        small.search({(ONE, LENGTH): length}, "", stop(0, 1))
        small.search({(ONE, LENGTH): length}, A, stop(ONE, 1))
    for changed, key, answer in [
        # the name is field 2; the line end before it is in field 1; the whole file, whose field 2 is the year; nothing of it
        ((start + 7, 21), "ANA LIMA", stop(ONE, 1)), ((start + 7, 21), A, stop(0, 1)), ((start + 7, 20), "ANA LIMA", stop(0, 4)),
        ((start + 7, 20), A, stop(0, 2)), ((start - 2, 30), A, stop(ONE, 1)),
        ((0, size), "2025", stop(ONE, 1)), ((0, size), A, stop(0, 1)), ((0, 9), "2025", stop(0, 4)), ((0, 10), "2025", stop(ONE, 1)),
        ((0, 0), "", stop(ONE, 1)), ((0, 0), A, stop(0, 2)), ((small.at(TWO, START), small.at(TWO, LENGTH)), B, stop(ONE, 1)),
    ]:
        small.search({(ONE, START): changed[0], (ONE, LENGTH): changed[1]}, key, answer)
    # of the IDREC and of the company no field is asked
    for line in (HERE, FIRM):
        small.search({(line, START): 0, (line, LENGTH): 0}, MORE, stop(0, 4))
        small.search({(line, START): 0, (line, LENGTH): 0}, C, stop(THREE, 3))


def nine_kinds():
    """Each kind of beneficiary in the place of each: a person's key is compared, a company ends the search."""
    small = small_file()
    for name in PERSONS + COMPANIES:
        company = name in COMPANIES
        for line, key, answer, at_company in [
            (ONE, B, stop(TWO, 2), stop(0, 1)), (ONE, A, stop(ONE, 1), stop(0, 1)), (TWO, B, stop(TWO, 2), stop(0, 2)),
            (THREE, MORE, stop(0, 4), stop(0, 3)), (FIRM, CNPJ, stop(FIRM, 4), stop(0, 4)), (FIRM, "9", stop(0, 4), stop(0, 4)),
        ]:
            small.search({(line, KIND_OF): KIND[name]}, key, at_company if company else answer)
    # and every other kind is none
    persons, companies = [[KIND[name] for name in names] for names in (PERSONS, COMPANIES)]
    for kind in range(80):
        answer = stop(TWO, 2) if kind in persons else stop(0, 1) if kind in companies else NO_WAY
        small.search({(ONE, KIND_OF): kind}, B, answer)


# ---- tables that no check writes


def loose(rows, line, key, answer):
    """A file of these lines, each a kind and a key, below the IDREC in line 1; every group but that one is a line."""
    texts = ["IDREC|0561|"] + [f"{name}|{has}|" for name, has in rows]
    table, start = [], 0
    for at, (text, name) in enumerate(zip(texts, ["IDREC"] + [name for name, _ in rows]), 1):
        table += [KIND[name], start, len(text), 0, at if at > 1 else len(texts)]
        start += len(text) + len(END)
    given("".join(text + END for text in texts), table, line, key, answer)


def of(*keys):
    """Persons with these keys."""
    return [("BPFDEC", key) for key in keys]


def loose_tables():
    """Persons in no order, kinds mixed, keys of any bytes: the search stops at the first key that isn't smaller, and at no later one."""
    for rows, key, answer in [
        (of(B, A), A, stop(0, 1)), (of(B, A), B, stop(2, 1)), (of(B, A), C, stop(0, 2)), (of(A, C, B), B, stop(0, 2)),
        (of(A, C, B), C, stop(3, 2)), (of(B, B), B, stop(2, 1)), (of(A, B, B, B), B, stop(3, 2)), (of(A, A, A), B, stop(0, 3)),
        # as bytes: not as numbers, not signed, zeros count, a beginning comes first
        (of("1", "10", "9"), "10", stop(3, 2)), (of("1", "10", "9"), "2", stop(0, 3)), (of("1", "10", "9"), "9", stop(4, 3)),
        (of("007", "7"), "7", stop(3, 2)), (of("007", "7"), "07", stop(0, 2)), (of("\x7f", "\x80", "\xff"), "\x80", stop(3, 2)),
        (of("\x7f", "\x80", "\xff"), "\xff", stop(4, 3)), (of("\xff"), "\x7f", stop(0, 1)), (of("\0", "\0\0"), "\0\0", stop(3, 2)),
        (of("A", "a"), "a", stop(3, 2)), (of("", A), "", stop(2, 1)), (of("", A), A, stop(3, 2)), (of("", "", ""), A, stop(0, 3)),
        (of(A, A + "0"), A + "0", stop(3, 2)), (of(A[:10], A), A, stop(3, 2)), (of("N" * 500, "N" * 501), "N" * 501, stop(3, 2)),
        # kinds in any order
        ([("BPJDEC", A), ("BPFDEC", B)], B, stop(0, 1)), ([("BPFDEC", A), ("BPJDEC", B), ("BPFDEC", B)], B, stop(0, 2)),
        ([("BPJSCP", A)], A, stop(0, 1)), ([("BPFSCP", A), ("BPJSCP", B)], B, stop(0, 2)), ([("BPFSCP", A), ("BPFSCP", B)], B, stop(3, 2)),
        (list(zip(PERSONS, "12345")), "5", stop(6, 5)), (list(zip(PERSONS, "12345")), "6", stop(0, 5)),
        (list(zip(PERSONS, "12345")), "35", stop(0, 4)),
        (list(zip(PERSONS + COMPANIES, "123456789")), "7", stop(0, 6)), (list(zip(COMPANIES + PERSONS, "123456789")), "9", stop(0, 1)),
        ([("BPFDEC", A), ("IDREC", B), ("BPFDEC", B)], B, NO_WAY), ([("BPFDEC", A), ("IDREC", B), ("BPFDEC", B)], A, stop(2, 1)),
        ([("BPFDEC", A), ("SCP", B)], B, NO_WAY), ([("RTRT", "1")], "1", NO_WAY), ([("RRA", "1")], "", NO_WAY), ([], A, stop(0, 0)),
        ([], "", stop(0, 0)),
        (of(*"0123456789" * 20), "~", stop(0, 200)),
    ]:
        loose(rows, 1, key, answer)
    loose(of(A), 2, A, NO_WAY)
    loose([("IDREC", "0588"), ("BPFDEC", A)], 2, A, stop(0, 0))


def wrong_searches():
    """The inputs that tell wrong programs from ours."""
    rows, small = rows_of(SMALL), small_file()
    # the check forgets the declarant's last line, or counts FIMDirf into its group
    file = checked("\n".join(rows))
    held([small.at(line, LAST) for line in (3, ENTRIES)] == [ENTRIES - 1, ENTRIES], "the declarant's last line")
    # stops at the first key that isn't greater; does not count the entry that it stops at
    own(file, HERE, B, stop(TWO, 2))
    own(file, HERE, A, stop(ONE, 1))
    own(file, THERE, A, stop(0, 1))
    # goes on past the first company: to the second one, to one whose CNPJ is the key, or to a person in another's file
    two = checked("\n".join(rows[:12] + ["    " + with_field("BPJDEC", 2, OTHER_CNPJ)] + rows[12:]))
    for key in (MORE, CNPJ, OTHER_CNPJ, TOP):
        own(two, HERE, key, stop(0, 4))
    small.search({(TWO, KIND_OF): KIND["BPJDEC"]}, C, stop(0, 2))
    # trusts a last line before its own: goes round and round, back to the IDREC, or takes the IDREC for one with nothing below
    for line, last, key in ((TWO, ONE - 1, C), (TWO, TWO - 1, C), (ONE, 0, B), (ONE, HERE - 1, B), (HERE, HERE - 1, B), (HERE, 0, B),
                            (FIRM, 0, MORE)):
        small.search({(line, LAST): last}, key, NO_WAY)
    # reads every line: an amount's, whose field 2 is the key, and a person's below the next IDREC
    own(file, HERE, "100", stop(0, 4))
    own(checked("\n".join(rows[:9] + rows[12:])), HERE, C, stop(0, 2))


GROUPS = (
    group_ends, searches, search_keys, search_lines, search_refused, given_tables, spoiled, at_the_edge, idrec_ends, not_asked, table_sizes,
    other_files, line_parts, nine_kinds, loose_tables, wrong_searches,
)
