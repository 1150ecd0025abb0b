"""Transcribe record tables and nesting of both editions out of the two layout texts.

usage: transcribe.py 004 000 [--compare SPECS_DIR]
       transcribe.py --store SPECS_DIR

004 is the 2025 layout (structure lists, records 3.1 to 3.3), 000 the older
edition, called 2022 by its year: all of that one, and of 2025 the records from
3.4 on.  Without --compare the neutral form goes to stdout; with it, every line
that only the sources or only the specs of an edition have, then a line for each
edition, and the entries in which the editions differ by the sources.
With --store the tables of the specs go to stdout as tools/layout.txt has them;
that needs no texts.
Anything in the texts that no rule here expects ends the run with a message.
"""
import re
import sys
from collections import Counter
from difflib import SequenceMatcher
from itertools import groupby
from pathlib import Path

YEARS = (2025, 2022)
NAME = r'(?:Dirf|FIMDirf|[A-Z][A-Z0-9]+)'

# Corrections.  004's lists misspell three identifiers.
SPELLING = {'BPFRRRA': 'BPFRRA', 'BPFICI': 'BPFFCI', 'QTMESSES': 'QTMESES'}
# Cells of 000 into which other print ran: in 3.3 a stroke (field 11) and the ends
# of two names (13 and 14), in 3.19 the heading of 3.20 (field 14).
SMUDGED = {', c': 'C', 'o N': 'N', 'nte N': 'N',
           'N loros a': 'N', 'tributávoic <i>l</i> e': '-', 'Não om roto': 'Não'}
# Records of 2025 that 000 lacks, and whose rows they take.
BORROWED = {'RTDS': 'RTDP', 'ESDS': 'RTDP'}
# Value cells that are prose, not values.
PROSE = ('De acordo com a tabela', 'Nome da pessoa física', 'Valor pago para o advogado')

# What the flat lists cannot tell: which kinds frame the file, which are blocks.
FRAME = {'Dirf', 'RESPO', 'DECPF', 'DECPJ', 'FIMDirf'}
BLOCKS = {'VPEIM', 'FCI', 'PROC', 'RRA', 'SCP', 'PSE', 'RPDE', 'INF'}
BLOCKS_WITH_IDREC = {'FCI', 'PROC', 'RRA'}
BLOCKS_WITHOUT_BENEFICIARY = {'VPEIM', 'PSE', 'RPDE'}
BENEFICIARY = ('BPF', 'BPJ')
HOLDERS = {'INFPC', 'INFPA'}  # records that hold others below a beneficiary
LATER_ROOTS = {'VPEIM', 'RPDE', 'INF'}  # document 01, and 02's A3

FORMAT = {'C': 'C', '\u0421': 'C', 'N': 'N', 'D': 'D'}  # U+0421: Cyrillic
FILL = {'Fixo': 'fixed', 'Variável': 'variable'}
NEED = {'Sim': 'obligatory', 'Não': 'optional'}

def stop(message):
    sys.exit('transcribe: ' + message)

def sections(text):
    """Number -> lines of the record sections 3.1, 3.2, ..."""
    found, lines = {}, []
    for line in text.split('\n'):
        heading = re.match(r'(?:#+ )?3\.(\d+) (?:- )?Registro ', line)
        if heading:
            lines = found[int(heading[1])] = []
        lines.append(line)
    return found

def heading_names(lines):
    """The identifiers that a section is for; 3.20 has them below its heading."""
    found = re.search(r'\(identificador(?:es)? ([^)]*)\)', ' '.join(lines))
    return re.findall(rf'\b{NAME}\b', found[1])

def cells(line):
    """A table line's cells; 000 has Markdown bars, 004 has tabs."""
    parts = line.strip()[1:-1].split('|') if line.startswith('|') else line.split('\t')
    parts = [' '.join(part.replace('<br>', ' ').split()) for part in parts]
    return [SMUDGED.get(part, part) for part in parts] if len(parts) > 1 else []

def read_rows(lines):
    """The rows of a section's table, as column heading -> text."""
    rows, heads = [], None
    for line in lines:
        row = cells(line)
        # Observations look like rows; with them the record's table is over.
        if re.match(r'\W*Observ', line) or 'Descrição' in row:
            break
        if 'Formato' in row:
            heads = [cell.replace(' ', '') for cell in row]  # 'Preenchiment o'
            continue
        if heads is None or not row or re.fullmatch(r'[-| ]+', line):
            continue
        pick = dict(zip(heads, row))
        if pick['Formato'] in FORMAT:
            # RTPSE's table has no column Ordem; elsewhere it must count up.
            if int(pick.get('Ordem', len(rows) + 1)) != len(rows) + 1:
                stop('row out of order: ' + line)
            rows.append(pick)
        elif rows and {head for head in pick if pick[head]} <= {'Campo', 'Valoresválidos'}:
            # A page break or a gap in the cell: more text for the row above.
            rows[-1]['Valoresválidos'] += ' ' + pick['Valoresválidos']
        elif not all(c.startswith('Identificador de registro') for c in row if c):
            # (RTPSE's last row repeats each whole column in one cell.)
            stop('row not understood: ' + line)
    return rows

def values(text, field, name):
    """The printed valid values in the neutral form."""
    text = text.strip()
    if text in ('', '-', '_') or text.startswith(PROSE):
        return '-'
    digits = re.fullmatch(r'CPF com (\d+) dígitos CNPJ com (\d+) dígitos', text)
    if digits:
        return '|'.join(digits.groups())
    code = r'(?<!\S)([A-Z]|\d+) [-–] '
    if re.match(code, text):
        return ','.join(re.findall(code, text))
    words = text.replace(' ou ', ' ').split()  # 000's 3.1, field 3
    if not all(re.fullmatch(NAME + '|[A-Z0-9]+', word) for word in words):
        stop('values not understood: ' + text)
    return name if field == 1 and name in words else ','.join(words)

def all_rows(parts, borrowed):
    """Name -> rows, out of an edition's sections."""
    table = {}
    for lines in parts.values():
        rows = read_rows(lines)
        for name in heading_names(lines):
            table[name] = [(FORMAT[row['Formato']], FILL[row['Preenchimento']],
                            str(int(row['Tamanho'])), NEED[row['Obrigatório']],
                            values(row['Valoresválidos'], field, name))
                           for field, row in enumerate(rows, 1)]
    for name, owner in borrowed.items():  # all but the identifier itself
        table[name] = [(*row[:4], row[4].replace(owner, name)) for row in table[owner]]
    return table

def listed(text, start, end):
    """(indent, identifier) of each entry of a structure list, in order; in 000 a
    bullet, a heading's mark or bold type stands before some."""
    part = text[text.index(start):text.index(end)]
    found = re.findall(rf'^( *)(?:- |#+ |\*\*)?({NAME})\b', part, re.M)
    return [(len(dent), SPELLING.get(name, name)) for dent, name in found]

def lists_of(text):
    """The structure lists 2.1 and 2.2 of a text."""
    return listed(text, '2.1 Estrutura', '2.2 Estrutura'), listed(text, '2.2 Estrutura', '3. Leiaute')

def held(text000):
    """(beneficiary, INFPC or INFPA) -> what 000's list 2.2 indents under it."""
    found, beneficiary, holder, depth = {}, None, None, 0
    for dent, name in lists_of(text000)[1]:
        if name.startswith(BENEFICIARY):
            beneficiary = name
        if holder and dent > depth:
            found[beneficiary, holder].add(name)
            continue
        holder = name if name in HOLDERS else None
        if holder:
            depth = dent
            found[beneficiary, holder] = set()
    return found

def tied(parts000):
    """Name -> the record that 000 says it must be associated with, if just one."""
    found = {}
    for lines in parts000.values():
        text = re.sub(r'[|\s]+', ' ', ' '.join(lines))  # one rule is cut into cells
        rule = re.search(rf'associado [a-z ]*tipo ({NAME})[;.]', text)
        if rule:
            found.update(dict.fromkeys(heading_names(lines), rule[1]))
    return found

def nesting(entries, declarant, held_by, tied_to):
    """(declarant, parent, child) for a list, by the order of its entries: 004's
    have no indents, and those of 000 break off where a page does."""
    pairs, block, beneficiary, holder = set(), None, None, None
    for _, name in entries:
        if name in FRAME:
            continue
        if name == 'IDREC':
            parent = block if block in BLOCKS_WITH_IDREC else declarant
        elif name in BLOCKS:
            block, beneficiary, holder = name, None, None
            parent = declarant
        elif name.startswith(BENEFICIARY):
            beneficiary, holder = name, None
            parent = 'SCP' if name.endswith('SCP') else 'IDREC'
        elif block in BLOCKS_WITHOUT_BENEFICIARY:
            # Here the order does not tell it, but 000's prose rules do.
            parent = tied_to.get(name, block)
        elif holder and name in held_by[beneficiary, holder]:
            parent = holder
        else:
            parent = beneficiary
            holder = name if name in HOLDERS else None
        pairs.add((declarant, parent, name))
    return pairs

def left_for_later(pairs):
    """Document 01's roots and all that stand only below these."""
    later, before = set(LATER_ROOTS), None
    while later != before:
        before = set(later)
        kept = {child for _, parent, child in pairs if parent not in later}
        later |= {child for _, _, child in pairs} - kept
    return later

def kinds_of(lists):
    """The kinds that list 2.2 names, in its order, DECPF before DECPJ."""
    kinds = list(dict.fromkeys(name for _, name in lists[1]))
    kinds.insert(kinds.index('DECPJ'), 'DECPF')
    return kinds

def transcribe(lists, table, rules, numbers):
    """An edition in the neutral form: the lines that specs must have, and those
    that concern kinds left for later, which they need not have."""
    kinds = kinds_of(lists)
    if ({name for _, name in lists[0]} | set(table)) - set(kinds) or set(kinds) - set(numbers):
        stop('list 2.1 or the tables have kinds that list 2.2 lacks, or list 2.2 has kinds that 004 lacks')
    pairs = nesting(lists[0], 'DECPF', *rules) | nesting(lists[1], 'DECPJ', *rules)
    later = left_for_later(pairs)
    must = [f'kind {numbers[name]} {name} {name}' for name in kinds]
    must += [f'later {name}' for name in kinds if name in later]
    may = []
    for name in kinds:
        rows = enumerate(table.get(name, []), 1)
        (may if name in later else must).extend(' '.join(['row', name, str(field), *row]) for field, row in rows)
    for pair in sorted(pairs):
        (may if later & set(pair) else must).append(' '.join(('below', *pair)))
    return must, may

def transcribed(text004, text000):
    """Year -> that edition, as transcribe gives it.  In both a kind has its number of 2025."""
    parts000 = sections(text000)
    rules = held(text000), tied(parts000)
    numbers = {name: number for number, name in enumerate(kinds_of(lists_of(text004)), 1)}
    # 004 decides the sections that it has.
    rows2025 = all_rows({**parts000, **sections(text004)}, BORROWED)
    return {2025: transcribe(lists_of(text004), rows2025, rules, numbers),
            2022: transcribe(lists_of(text000), all_rows(parts000, {}), rules, numbers)}

# The specs are read as what they are: lists, pairs, texts, and functions of such.

ENDS = (')', ',', '∷')

def words_of(text):
    """The words of an expression, and a bracket that ends it."""
    word = r'"[^"]*"|\[\]|[(),∷]|\w+'
    if re.sub(rf'{word}|\s', '', text):
        stop('not understood in specs: ' + text)
    return re.findall(word, text) + [')']

def argument(words, known):
    """What the next part of an expression comes to; its words are taken away.
    A name that is not known (a kind, a format) stands for itself."""
    word = words.pop(0)
    if word == '[]':
        return []
    if word.startswith('"'):
        return word[1:-1]
    if word != '(':
        return known[word]() if word in known else word
    items = [expression(words, known)]
    while words.pop(0) == ',':
        if words[0] != ')':  # a pair that is broken over lines ends with a comma
            items.append(expression(words, known))
    return items[0] if len(items) == 1 else tuple(items)

def expression(words, known):
    """What an expression comes to, up to the bracket or the comma behind it."""
    if words[0] in known:
        function, given = known[words.pop(0)], []
        while words[0] not in ENDS:
            given.append(argument(words, known))
        value = function(*given)
    else:
        value = argument(words, known)
    if words[0] not in ENDS:
        stop('not understood in specs: ' + ' '.join(words))
    if words[0] != '∷':
        return value
    words.pop(0)
    return [value, *expression(words, known)]

def defined(name, parameters, text, known):
    """A definition as a function of its parameters."""
    def function(*given):
        if len(given) != len(parameters):
            stop(f'{name} is given {len(given)} arguments in specs')
        own = {parameter: lambda value=value: value for parameter, value in zip(parameters, given)}
        return expression(words_of(text), {**known, **own})
    return function

def spec_text(directory):
    """The definition files, one behind the other, without comments."""
    text = '\n'.join(Path(directory, file).read_text(encoding='utf-8')
                     for file in ('Kinds.antt', 'Layout.antt', 'Below.antt', 'Edition.antt'))
    return re.sub(' *--.*', '', re.sub('^ *--.*\n', '', text, flags=re.M))

def definitions(text):
    """Name -> function, of what begins small: a kind stands for itself."""
    known = {'bytes': str, 'one_of': list, 'row': lambda *row: row,
             'replicate': lambda times, row: [row] * int(times)}
    for name, parameters, part in re.findall(r'^([a-z]\w*)((?: \w+)*) =\s(.*?)(?:\n\n|\Z)', text, re.M | re.S):
        known[name] = defined(name, parameters.split(), part, known)
    return known

def spec_values(holds, identifier):
    if isinstance(holds, list):
        return ','.join(holds)
    words = dict.fromkeys('plain amount months ddd telephone cpf cnpj'.split(), '-')
    words.update(identifier=identifier, s_or_n='S,N', cpf_or_cnpj='11|14')
    return words.get(holds, holds)  # an unknown word shows up as a difference

# What a row holds, where tools/layout.txt has another word for it than the specs; its readers know these.
STORED_WORDS = {'one_of': 'oneOf', 's_or_n': 'sOrN', 'cpf_or_cnpj': 'cpfOrCnpj'}

def spec_rows(layout, names, stored):
    """The rows' lines; tools/layout.txt has what a row holds before its values."""
    for group, rows in layout:
        for name in group:
            for field, (*row, holds) in enumerate(rows, 1):
                word = 'one_of' if isinstance(holds, list) else holds
                word = [STORED_WORDS.get(word, word)] if stored else []
                yield ' '.join(['row', name, str(field), *row, *word, spec_values(holds, names.get(name, name))])

def spec_lines(text, year, stored=False):
    """The lines of an edition, of the tables that its definition puts together."""
    known = definitions(text)
    numbers = dict(re.findall(rf'^abbrev pub ({NAME}) : ℕ\n\1 = (\d+)$', text, re.M))
    tables = re.search(rf'^edition{year} = record {{ names = (\w+); layout = (\w+); '
                       r'below = by_declarant (\w+) (\w+) }$', text, re.M) or stop(f'no edition{year} in specs')
    names, layout, *below = [known[table]() for table in tables.groups()]
    lines = [f'kind {numbers.get(name)} {name} {identifier}' for name, identifier in names]
    lines += [f'later {name}' for name in known['later']()]
    lines += spec_rows(layout, dict(names), stored)
    for declarant, parents in zip(('DECPF', 'DECPJ'), below):
        lines += [f'below {declarant} {parent} {child}' for parent, children in parents for child in children]
    return lines

# What tools/layout.txt begins with.
STORED = """\
# The tables of crates/dirf/specs, written by `python3 tools/transcribe.py --store crates/dirf/specs`. Do not change it by hand:
# tests/tables holds it against the definitions, byte for byte. A line is of the edition 2025, of 2022, or of both:
# EDITION kind NUMBER NAME IDENTIFIER; EDITION later NAME; EDITION below DECLARANT PARENT CHILD;
# EDITION row NAME FIELD FORMAT FILL SIZE NEED HOLDS VALUES"""

def with_editions(newer, older):
    """The lines of both editions in order, each behind the edition that it is of."""
    lines = []
    for same, start, end, start_older, end_older in SequenceMatcher(None, newer, older, autojunk=False).get_opcodes():
        tag = 'both' if same == 'equal' else YEARS[0]
        lines += [f'{tag} {line}' for line in newer[start:end]]
        if tag != 'both':
            lines += [f'{YEARS[1]} {line}' for line in older[start_older:end_older]]
    return '\n'.join(lines)

def compare(year, must, may, specs):
    """Print what differs of an edition; the result is how much."""
    missed = Counter(must) - Counter(specs)
    added = Counter(specs) - Counter(must + may)
    for where, several in ('the sources', missed), ('specs', added):
        for line in several:
            print(f'edition {year}, only in {where}: {line}')
    return len(missed) + len(added)

def counted(lines):
    counts = [sum(line.startswith(word) for line in lines) for word in ('kind ', 'row ', 'below ')]
    return '{} kinds, {} rows, {} pairs'.format(*counts)

# How many words say what a line is about; those behind them say what it is.
SUBJECT = {'kind': 3, 'later': 2, 'row': 3, 'below': 4}

def by_subject(lines):
    found = {}
    for words in map(str.split, lines):
        size = SUBJECT[words[0]]
        found[' '.join(words[:size])] = ' '.join(words[size:])
    return found

def differing(editions):
    """(subject, what each edition has of it) wherever that is not the same."""
    has = {year: by_subject(lines) for year, lines in editions.items()}
    for subject in dict.fromkeys(subject for entries in has.values() for subject in entries):
        said = {year: entries[subject] for year, entries in has.items() if subject in entries}
        if len(said) == 1:
            yield subject, f'{min(said)} alone'
        elif len(set(said.values())) > 1:
            yield subject, ', '.join(f'{year} has {entry}' for year, entry in said.items())

def print_differing(editions):
    """A line for each; rows of one record of which the same is said are one line."""
    found = list(differing(editions))
    print(f'the editions differ in {counted([subject for subject, _ in found])}:')
    for (_, said), several in groupby(found, lambda item: (re.sub(r'^(row \w+) \d+$', r'\1', item[0]), item[1])):
        first, *others = [subject for subject, _ in several]
        last = ' to ' + others[-1].split()[-1] if others else ''
        print(f'  {first}{last}: {said}')

def main(arguments):
    if len(arguments) == 2 and arguments[0] == '--store':
        text = spec_text(arguments[1])
        print(STORED, with_editions(*(spec_lines(text, year, stored=True) for year in YEARS)), sep='\n')
        return 0
    if len(arguments) not in (2, 4) or arguments[2:3] not in ([], ['--compare']):
        sys.exit(__doc__)
    sources = transcribed(*(Path(path).read_text(encoding='utf-8') for path in arguments[:2]))
    if len(arguments) == 2:
        print(with_editions(*(must + may for must, may in sources.values())))
        return 0
    text = spec_text(arguments[3])
    different = {year: compare(year, *lines, spec_lines(text, year)) for year, lines in sources.items()}
    for year, (must, _) in sources.items():
        print(f'edition {year} compared: {counted(must)}; {different[year]} differences')
    print_differing({year: must for year, (must, _) in sources.items()})
    return 1 if any(different.values()) else 0

if __name__ == '__main__':
    sys.exit(main(sys.argv[1:]))
