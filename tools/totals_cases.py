"""The cases of totals: document 02, A7. replay_cases.py puts them into its run.

Nothing here asks the program, and no line is read again: each carries, beside its text, the amounts that were written into it. The totals
that a case has to print are the sums of these by kind, over the lines that the check takes; number, line and field stand with each file.
"""
import itertools

import makers
from replay_form import (
    ANNUAL, CNPJ, CPF, END, FIRST, KIND, LATER, LAYOUTS, LEAD, LINE, MONTHLY, NUMBERS, OTHER_CNPJ, ROWS,
    bytes_of, case, cells_of, entries_of, held, line_of, number, size_of, string, suits, with_field, with_fields, words,
)
from search_cases import CITY, TOP, keyed, rows_of

# of each record that has a total the fields of its amounts: months and thirteenth, the year, the two of a reimbursement
AMOUNTS = {name: range(2, 15) for name in MONTHLY}
AMOUNTS.update({name: (2,) for name in "RIL96 RIPTS RIJMRE RIRSR RIO".split()})
PLAN = ("RTPSE", "RDTPSE")
AMOUNTS.update({name: (4, 5) for name in PLAN})
# they are printed in the order of their kinds
SUMMED = sorted(AMOUNTS, key=KIND.get)
held((len(MONTHLY), len(SUMMED)) == (33, 40) and set(ANNUAL) < set(AMOUNTS), "the list of records that have a total")

# amounts that no total has: what a PROC and an RRA cost, what a holder and a dependant paid
OTHERS = {"PROC": 7, "RRA": 7, "TPSE": 4, "DTPSE": 6}
MONTH_COUNTS = range(2, 14)
FILE_BYTES = 65536
# a record of each form
SAMPLES = ("RTRT", "RIL96", "RIO", *PLAN)


def most(name):
    return 10 ** ROWS[name][AMOUNTS[name][0] - 1].size - 1


held([most(name) for name in SAMPLES] == [9999999999999] * 3 + [999999999] * 2, "the largest amount")


# ---- lines, each with the amounts that were written into it


def paid(name, amounts, cells=None):
    """A value record with these amounts by field, and none in its other fields of amounts."""
    written = {field: str(amounts.get(field, "")) for field in AMOUNTS[name]}
    return with_fields(name, {**written, **(cells or {})}), tuple(amounts.values())


def each(name, amount):
    """The same amount in every field."""
    return dict.fromkeys(AMOUNTS[name], amount)


def varied(name, seed):
    """Another amount in every field, of another line as well."""
    return {field: seed * 100 + field for field in AMOUNTS[name]}


def placed(name):
    """In each field one digit, at a place of its own: the total shows which fields are in it."""
    return {field: (1 + KIND[name] % 9) * 10 ** (field - 2) for field in AMOUNTS[name]}


def file_of(items, declarant="DECPJ", edition=2025):
    """Lines 1 to 3 and these: each is a line with its amounts, or a name or a text without any that has a total."""
    items = [FIRST[edition], "RESPO", declarant, *items]
    records = {item.split("|")[0] for item in items if isinstance(item, str)}
    held(not records & set(AMOUNTS), "a line without its amounts")
    return [(line_of(item, records), ()) if isinstance(item, str) else item for item in items]


def totals_of(lines):
    """Kind and total, of each kind whose total is not 0."""
    totals = dict.fromkeys(SUMMED, 0)
    for text, amounts in lines:
        if amounts:
            totals[text.split("|")[0]] += sum(amounts)
    return [word for name, total in totals.items() if total for word in (KIND[name], total)]


def told(lines, breach=0, line=None, field=0, data=None, room=None, spare=3):
    """A file, accepted where nothing else is said; the bytes are those of its lines where they aren't given."""
    line = len(lines) if line is None else line
    data = bytes_of(lines) if data is None else data
    held(len(data) <= FILE_BYTES, "the size of a file")
    entries = entries_of(breach, line)
    case("N", [number(size_of(lines, room, spare)), string(data)], words(breach, line, field, entries, *totals_of(lines[:entries])))


def homes(edition, name):
    """Each declarant, and each record of its list below which this one may stand."""
    for declarant in ("DECPJ", "DECPF"):
        for holder, names in LAYOUTS[edition].below[declarant].items():
            if name in names:
                yield declarant, holder


def kinds_of(edition):
    """The records with a total that an edition has."""
    names = [name for name in SUMMED if name in LAYOUTS[edition].kinds]
    held(len(names) == {2025: 40, 2022: 38}[edition], "the list of an edition's totals")
    return names


def above(holder):
    return [*LEAD[holder].split(), holder]


def alone(name, amounts, edition=2025, which=0):
    """A file with one value record, in one of its places."""
    places = list(homes(edition, name))
    declarant, holder = places[which % len(places)]
    told(file_of([*above(holder), paid(name, amounts), "FIMDirf"], declarant, edition))


# ---- each kind


def each_field():
    """Of each kind each amount alone, in the one edition a small one and in the other nearly the largest; its places take turns."""
    for edition in FIRST:
        for name in kinds_of(edition):
            for field in AMOUNTS[name]:
                amount = KIND[name] * 1000003 + field if edition == 2025 else most(name) - 100 * KIND[name] - field
                alone(name, {field: amount}, edition, field)


def each_kind():
    """Each kind alone, every amount filled; those with one amount are above."""
    for edition in FIRST:
        for name in [name for name in kinds_of(edition) if len(AMOUNTS[name]) > 1]:
            alone(name, placed(name), edition)


def each_holder():
    """Below each record that may hold value records all of them, in each edition under each declarant."""
    for edition in FIRST:
        for declarant in ("DECPF", "DECPJ"):
            for holder, names in LAYOUTS[edition].below[declarant].items():
                rows = [paid(name, placed(name)) for name in names if name in AMOUNTS]
                if rows:
                    told(file_of([*above(holder), *rows, "FIMDirf"], declarant, edition))


# ---- files with many kinds, by the lists


# a key of digits stands in field 2
KEYED = ["IDREC", *[name for name, rows in ROWS.items() if len(rows) > 1 and rows[1].holds in ("cpf", "cnpj", "cpfOrCnpj")]]


def made(name, serial, give):
    """A line with a key of this serial number, money in the fields that no total has, and in the others what is given."""
    cells = {2: "1", 3: str(serial).zfill(8)} if name in ("PROC", "RRA") else {}
    if name in KEYED:
        cells[2] = makers.key(len(cells_of(name)[1]), serial)
    if name in AMOUNTS:
        return paid(name, give(name), cells)
    if name in OTHERS:
        cells[OTHERS[name]] = str(serial * 11)
    if name == "QTMESES":
        cells = {field: str(serial + field) for field in MONTH_COUNTS}
    return with_fields(name, cells), ()


def fits(path, name):
    """Whether a record that the list has below the path's last one may stand at its end: a beneficiary goes with its block."""
    if path[-1] == "IDREC":
        return name.endswith("DEC" if path[-2] in makers.FLAGS else path[-2])
    return len(path) < 2 or suits(path[-2], path[-1], name)


def grown(below, path, choose, give, serials):
    """Of the records that may stand at the end of the path those that are chosen, in that order, and all below them."""
    for name in choose(path[-1], [name for name in below.get(path[-1], []) if fits(path, name)]):
        yield made(name, next(serials), give)
        yield from grown(below, [*path, name], choose, give, serials)


def grown_file(edition, declarant, choose, give):
    lines = list(grown(LAYOUTS[edition].below[declarant], [declarant], choose, give, itertools.count(1)))
    # the declarant's flags follow from the blocks
    blocks = [text.split("|")[0] for text, _ in lines]
    return [(FIRST[edition], ()), (LINE["RESPO"], ()), (line_of(declarant, blocks), ()), *lines, (LINE["FIMDirf"], ())]


# below these there is no order
LOOSE = ("BPFDEC", "BPJDEC", "BPFFCI", "BPJFCI", "BPFPROC", "BPJPROC", "BPFRRA", "INFPC", "INFPA")


def in_order(_, names):
    return names


def turned(holder, names):
    return names[::-1] if holder in LOOSE else names


def whole_files():
    """Every record below every other where it may stand: amounts of every size, the largest, the smallest and none."""
    for edition in FIRST:
        for declarant in ("DECPF", "DECPJ"):
            for choose in (in_order, turned):
                told(grown_file(edition, declarant, choose, placed))
        lines = grown_file(edition, "DECPJ", in_order, lambda name: each(name, most(name)))
        held(totals_of(lines)[::2] == [KIND[name] for name in kinds_of(edition)], "a file with all kinds")
        told(lines)
        told(grown_file(edition, "DECPJ", in_order, lambda name: each(name, 1)))
        # an amount of a year may not be empty
        told(grown_file(edition, "DECPJ", in_order, lambda name: each(name, 1) if len(AMOUNTS[name]) == 1 else {}))


# ---- the edges of amounts and sums


def persons(name, holder, amounts):
    """A record below as many of its holders, one after another."""
    rows = [(keyed(f"{holder}:{serial}"), paid(name, given)) for serial, given in enumerate(amounts, 1)]
    return [*LEAD[holder].split(), *itertools.chain(*rows)]


def edges():
    """The largest amount in every field, and no amount; sums of one digit more and past 31 and 32 bits."""
    for name in SAMPLES:
        alone(name, each(name, most(name)))
    for name, edition in zip(("RTRT", "DAJUD", "RISCP", *PLAN), itertools.cycle(FIRST)):
        alone(name, {}, edition)
    for total in [10**size for size in (1, 2, 3, 9, 10, 13)] + [2**31, 2**32 - 1, 2**32, 2**32 + 1, 2**40]:
        told(file_of([*persons("RTIRF", "BPFDEC", [{14: total - 1}, {2: 1}]), "FIMDirf"]))
        told(file_of([*persons("RIO", "BPFDEC", [{2: total - 1}, {2: 1}]), "FIMDirf"], "DECPF", 2022))


def filling(name, holder, edition):
    """As many lines of the largest amounts as a case holds."""
    size = len(bytes_of([(keyed(f"{holder}:1"), ()), paid(name, each(name, most(name)))]))
    count = (FILE_BYTES - 500) // size
    return file_of([*persons(name, holder, [each(name, most(name))] * count), "FIMDirf"], "DECPJ", edition)


def large_files():
    """Totals past 53 bits, which a number with a fraction would round; the last amounts refused."""
    lines = filling("RTRT", "BPFDEC", 2025)
    held(totals_of(lines)[1] > 2**53, "a total past 53 bits")
    told(lines)
    told(lines, 7, len(lines) - 1, room=len(lines) - 2, spare=4)
    told(filling("RTPSE", "TPSE", 2022))


# ---- what enters no total


def not_money():
    """Month counts, the amounts of other records, and digits in names, descriptions, shares and codes."""
    person, plan, rio = ["RRA", "IDREC", "BPFRRA"], ["PSE", "OPSE"], ["IDREC", "BPFDEC"]
    after = paid("RTRT", {2: 7})
    files = [[*person, with_field("QTMESES", field, count)] for field, count in zip(MONTH_COUNTS, itertools.cycle(["1", "9999"]))]
    for counts in ("1", "9999"):
        months = with_fields("QTMESES", dict.fromkeys(MONTH_COUNTS, counts))
        files += [[*person, months], [*person, after, months, paid("DAJUD", {14: 5})], [*person, months, after]]
    for cell in ("1", "9999999999999"):
        for block in ("PROC", "RRA"):
            charged = with_field(block, 7, cell)
            files += [[charged], [charged, "IDREC", "BPF" + block, after]]
    for cell in ("1", "999999999"):
        holder, dependant = with_field("TPSE", 4, cell), with_field("DTPSE", 6, cell)
        files += [[*plan, holder], [*plan, holder, paid("RTPSE", {5: 3}), dependant], [*plan, holder, dependant, paid("RDTPSE", {4: 2})]]
    for digits in ("1", "100", "0000000000001", "9999999999999", "9" * 60):
        files.append([*rio, paid("RIO", {2: 4}, {3: digits})])
        files.append([*rio[:1], with_field("BPFDEC", 3, digits), after])
        files.append([*plan, "TPSE", paid("RTPSE", {4: 6}, {3: digits})])
    for who in ("BPFSCP", "BPJSCP"):
        files.append(["SCP", with_field(who, 4, "1000"), paid("RISCP", {3: 8})])
    for edition, items in zip(itertools.cycle(FIRST), files):
        told(file_of([*items, "FIMDirf"], "DECPJ", edition))


# ---- one kind under many records


def many_parents():
    """The same kind under persons, companies, blocks, INFPC, INFPA and BPFPROC, with the other kinds between: one total for all."""
    pensions = [
        "INFPC", paid("RTPP", {2: 1}), paid("ESPP", {2: 20}), with_field("INFPC", 2, OTHER_CNPJ), paid("RTPP", {14: 300}),
        "INFPA", paid("RTPA", {3: 4000}), with_field("INFPA", 2, TOP), paid("RTPA", {4: 50000}), paid("ESPA", {5: 600000}),
    ]
    own = [paid("RTRT", {2: 7}), *pensions, paid("RIO", {2: 80}), paid("RIJMRE", {2: 900})]
    second = [with_field("BPFDEC", 2, TOP), "INFPC", paid("RTPP", {7: 10**9}), paid("RTRT", {9: 10**8})]
    company = ["BPJDEC", paid("RTRT", {6: 2000})]
    fund = ["FCI", "IDREC", "BPFFCI", paid("RTRT", {6: 30000}), "BPJFCI", paid("RTRT", {6: 400000})]
    lawsuit = ["PROC", "IDREC", "BPFPROC", *[paid(name, {2: 5 * 10**6}) for name in ("RTPP", "RTPA", "RTRT", "RIJMRE")]]
    arrears = ["RRA", "IDREC", "BPFRRA", "INFPA", paid("RTPA", {8: 6 * 10**7}), paid("RIJMRE", {2: 6 * 10**7}), LINE["QTMESES"]]
    parts = [["IDREC", "BPFDEC", *own], second, company, ["IDREC|0588|", "BPFDEC", *own], fund, lawsuit, arrears]
    for edition in FIRST:
        for count in range(1, len(parts) + 1):
            lines = file_of([*itertools.chain(*parts[:count]), "FIMDirf"], "DECPJ", edition)
            told(lines)
        told(lines[:-1], 1, len(lines))
    # a pension, an alimony and the person's own amounts in every order
    for rows in itertools.permutations([[paid("RTRT", {2: 1})], pensions[:3], pensions[5:7], [paid("RIO", {2: 10**6})]]):
        told(file_of(["IDREC", "BPFDEC", *itertools.chain(*rows), "FIMDirf"]))
    twice = [paid("RTPSE", {4: 1, 5: 20}), paid("RTPSE", {4: 300}, {2: CNPJ}), "DTPSE", paid("RDTPSE", {5: 4000}, {2: CNPJ})]
    told(file_of(["PSE", "OPSE", "TPSE", *twice, with_field("TPSE", 2, TOP), *twice, "FIMDirf"], "DECPF"))


def after_each_line():
    """The file of the search, cut behind each line with amounts, and with no room for it."""
    rows = [row.strip() for row in rows_of(CITY)[3:]]
    items = [paid(row, varied(row, line)) if row in AMOUNTS else row for line, row in enumerate(rows, 4)]
    lines = file_of(items)
    for first in FIRST.values():
        told([(first, ()), *lines[1:]])
    for line in [line for line, (_, amounts) in enumerate(lines, 1) if amounts]:
        told(lines[:line], 1, line + 1)
        told(lines, 7, line, room=line - 1, spare=line % NUMBERS)


# ---- refused lines


def broken(lines, at):
    """A file whose line is broken as any line can be, behind line 3: the bytes, the number and the field."""
    text, head, tail = lines[at - 1][0], bytes_of(lines[: at - 1]), bytes_of(lines[at:])
    for data, breach, field in [
        ("", 1, 0), (text, 5, 0), (text[:-1], 5, 0), (text + "\r", 5, 0),
    ]:
        yield head + data, breach, field
    for data, breach, field in [
        (text + "\n", 6, 0), (text + "\rx" + END, 6, 0), (text + "\r" + END, 6, 0), (text + "x" * 1024 + END, 4, 0),
        (text + "|" * 1024 + END, 4, 0), (text.rstrip("|") + END, 8, 0), (END, 8, 0), (text + "1" + END, 8, 0), ("X" + text + END, 9, 1),
        (text.lower() + END, 9, 1), (LATER[0] + "|100|" + END, 10, 1), (text + "|" + END, 11, 0), (LINE["RESPO"] + END, 12, 1),
    ]:
        yield head + data + tail, breach, field


def spoiled_fields(name):
    """A value record with amounts in all fields but one, which is refused: the text, the number and the field."""
    fields, size = AMOUNTS[name], len(str(most(name)))
    for field in sorted({fields[0], fields[len(fields) // 2], fields[-1]}):
        for cell, breach in (("1x", 14), ("1" * (size + 1), 15), ("0" + "1" * (size - 1), 16)):
            yield paid(name, varied(name, 9), {field: cell})[0], breach, field
    if len(fields) == 1:
        yield paid(name, {})[0], 13, 2
    right = paid(name, varied(name, 9))[0]
    # the last field left away
    yield right[: right[:-1].rindex("|") + 1], 11, 0
    if name in PLAN:
        yield with_fields(name, {2: CPF[:-1] + "6", 4: "1", 5: "2"}), 26, 2
    if name == "RIO":
        yield paid(name, {2: 9}, {3: "9" * 61})[0], 15, 3


def two_holders(name, edition=2025):
    """A file with a value record below one holder, and with another of its kind below the next; and the line of that."""
    declarant, holder = next(homes(edition, name))
    rows = persons(name, holder, [varied(name, 3), varied(name, 5)])
    # what stands behind the refused line enters no total, whatever it is
    behind = [] if holder in ("TPSE", "DTPSE") else ["SCP", with_field("BPFSCP", 2, TOP), paid("RISCP", varied("RISCP", 8))]
    return file_of([*rows, *behind, "FIMDirf"], declarant, edition), 3 + len(rows)


def replaced(lines, at, text):
    return bytes_of([*lines[: at - 1], (text, ()), *lines[at:]])


def refused_values():
    """A record of each form refused for every reason that a line of its own can have; the amount of its kind before it stays."""
    for edition, name in itertools.product(FIRST, SAMPLES):
        lines, at = two_holders(name, edition)
        for text, breach, field in spoiled_fields(name):
            if edition == 2025 or field == AMOUNTS[name][-1]:
                told(lines, breach, at, field, replaced(lines, at, text))
    # half of the ways in the one edition, half in the other
    for (half, edition), name in itertools.product(enumerate(FIRST), SAMPLES[:-1]):
        lines, at = two_holders(name, edition)
        for data, breach, field in list(broken(lines, at))[half::2]:
            told(lines, breach, at, field, data)
    # month counts are refused like amounts
    months = [(with_field("QTMESES", 13, "0"), 16, 13), (with_field("QTMESES", 2, "10000"), 15, 2), ("QTMESES|1|", 11, 0)]
    for text, breach, field in months:
        told(file_of([*above("BPFRRA"), paid("DAJUD", {2: 1}), text, "FIMDirf"]), breach, 8, field)


def refused_kinds():
    """Of each kind a line that is repeated, or has no greater key, and one that has no room; of each form one that may not stand here."""
    for name in SUMMED:
        lines, at = two_holders(name)
        again = [*lines[: at - 2], lines[at - 1], *lines[at - 1 :]]
        told(again, 20 if name in PLAN else 21, at - 1, 2 if name in PLAN else 1)
        told(lines, 7, at, room=at - 1, spare=KIND[name] % NUMBERS)
    for name in SAMPLES:
        told(file_of(["IDREC", "BPFDEC", paid("RTRT", {2: 1}), "PSE", paid(name, varied(name, 9)), "FIMDirf"]), 12, 8, 1)
    # what the older edition has not
    for name in ("RTDS", "ESDS"):
        told(file_of(["IDREC", "BPFDEC", paid("RTRT", {2: 1}), paid(name, {2: 1}), "FIMDirf"], "DECPF", 2022), 9, 7, 1)


def refused_others():
    """A line that is no value record's refused behind some amounts, with more behind it: nothing of these goes to anybody."""
    person = ["IDREC", "BPFDEC", paid("RTRT", varied("RTRT", 1)), paid("RIO", {2: 77})]
    plan = ["PSE", "OPSE", "TPSE", paid("RTPSE", {4: 5, 5: 6})]
    refused = [
        (person, "IDREC", 20, 2), (person, "IDREC|058|", 15, 2), (person, "BPFDEC", 20, 2), (person, "BPFFCI", 12, 1),
        (person, with_field("BPFDEC", 2, "52998224752"), 26, 2), (person, with_fields("BPFDEC", {2: TOP, 4: "20230229"}), 17, 4),
        (person, with_fields("BPFDEC", {2: TOP, 5: "X"}), 18, 5), (person, "BPFDEC|", 11, 0), (person, "INFPC|1|2|", 15, 2),
        (person, with_fields("PROC", {5: CPF, 7: "100"}), 19, 5), (person, with_field("RRA", 7, "0"), 16, 7), (person, "FIMDirf||", 11, 0),
        ([*person, "INFPC", paid("RTPP", {2: 8})], "INFPC", 20, 2), ([*person, "INFPA", paid("RTPA", {2: 9})], "INFPA", 20, 2),
        (plan, with_fields("TPSE", {2: TOP, 4: ""}), 13, 4), (plan, with_field("DTPSE", 6, "1" * 10), 15, 6), (plan, "TPSE", 20, 2),
        ([*plan, "DTPSE", paid("RDTPSE", {4: 1})], "DTPSE", 20, 2), (plan, "PSE", 12, 1), (plan, "IDREC", 12, 1),
    ]
    for edition, (before, text, breach, field) in zip(itertools.cycle(FIRST), refused):
        lines = file_of([*before, text, paid("RTRT", {2: 10**6}), paid("RTPSE", {4: 10**6}), "FIMDirf"], "DECPJ", edition)
        told(lines, breach, 4 + len(before), field)
    lines = file_of([*person, "FIMDirf"])
    for at in (5, len(lines)):
        for data, breach, field in broken(lines, at):
            told(lines, breach, at, field, data)
    for after in ("\n", "x", END, LINE["FIMDirf"] + END, paid("RTRT", {2: 1})[0] + END):
        told(lines, 2, len(lines) + 1, 0, bytes_of(lines) + after)


def without_amounts():
    """No line at all, lines 1 to 3 refused, and files without a value record: no total."""
    told([], 1, 1, room=0, spare=0)
    value = paid("RTRT", {2: 1})
    for edition, declarant in zip(FIRST, ("DECPF", "DECPJ")):
        lines = file_of([*above("BPFDEC"), value, "FIMDirf"], declarant, edition)
        for at in (1, 2, 3):
            told(lines[: at - 1], 1, at)
            told(lines, 9, at, 1, replaced(lines, at, "X|"))
            told(lines, 12, at, 1, replaced(lines, at, value[0]))
            told(lines, 7, at, room=at - 1, spare=at)
        for items in ([], ["IDREC"], ["IDREC", "BPFDEC"], ["RRA", "IDREC", "BPFRRA", "INFPA"], ["SCP", "BPFSCP"], ["PSE", "OPSE", "TPSE"]):
            told(file_of([*items, "FIMDirf"], declarant, edition))


def rooms():
    """Tables of no number up to one entry more than the file has lines, and the most numbers that a case may have."""
    lines = file_of([*above("BPFDEC"), paid("RTRT", varied("RTRT", 1)), paid("RIO", {2: 3}), "FIMDirf"])
    for numbers in range(NUMBERS * (len(lines) + 1) + 1):
        room, spare = divmod(numbers, NUMBERS)
        # just enough for so many entries, and one number less than for another
        if spare in (0, NUMBERS - 1):
            short = room < len(lines)
            told(lines, 7 if short else 0, room + 1 if short else None, room=room, spare=spare)
    told(lines, room=4000, spare=3)
    # a fault of the line itself comes before its want of room
    told(lines, 16, 6, 2, replaced(lines, 6, with_field("RTRT", 2, "0")), room=5, spare=4)
    told(lines, 2, 9, 0, bytes_of(lines) + "x", room=8, spare=0)


# ---- files by chance


class Chance:
    """Numbers that follow from a seed alone, whatever Python runs this."""

    def __init__(self, seed):
        self.state = seed

    def below(self, count):
        self.state = (self.state * 6364136223846793005 + 1442695040888963407) % 2**64
        return (self.state >> 33) % count

    def some(self, holder, names):
        """Some of the names; below a holder with no order in any, else those with a key up to twice."""
        if holder in LOOSE:
            return sorted([name for name in names if self.below(3)], key=lambda name: self.below(1000))
        return [name for name in names for _ in range(self.below(3) if name in KEYED else self.below(2))]

    def amount(self, name):
        """Of any number of digits that the record takes."""
        return int(str(1 + self.below(9)) + "".join(str(self.below(10)) for _ in range(self.below(len(str(most(name)))))))

    def amounts(self, name):
        """Of a month's amounts and a reimbursement's some are empty."""
        return {field: self.amount(name) for field in AMOUNTS[name] if len(AMOUNTS[name]) == 1 or self.below(3)}


def by_chance():
    """Whole files of both declarants and editions, each broken and with too little room somewhere behind line 3, too."""
    for seed in range(20):
        chance = Chance(seed)
        edition, declarant = list(FIRST)[seed % 2], ("DECPJ", "DECPF")[seed // 2 % 2]
        lines = grown_file(edition, declarant, chance.some, chance.amounts)
        told(lines)
        at = 4 + chance.below(len(lines) - 3)
        ways = list(broken(lines, at))
        data, breach, field = ways[chance.below(len(ways))]
        told(lines, breach, at, field, data)
        told(lines, 7, at, room=at - 1, spare=chance.below(NUMBERS))


GROUPS = (
    each_field, each_kind, each_holder, whole_files, edges, large_files, not_money, many_parents, after_each_line, refused_values,
    refused_kinds, refused_others, without_amounts, rooms, by_chance,
)
