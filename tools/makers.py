"""Makers for the files of the suites: a CPF or a CNPJ of a serial number, and a declarant's line whose flags follow from its blocks.

What they make is right: check digits by modulo 11, which of the makers this one and tests/makers/people.c alone work out, and each flag
S exactly when its block is there. Greater serial numbers give greater CPFs and CNPJs.
"""
# of the first check digit; that of the second has one more in front
CPF_WEIGHTS = [10, 9, 8, 7, 6, 5, 4, 3, 2]
CNPJ_WEIGHTS = [5, 4, 3, 2, 9, 8, 7, 6, 5, 4, 3, 2]
CPF_SIZE, CNPJ_SIZE, CHECK_SIZE = 11, 14, 2

# the declarant's field that says whether there is such a block: 004's 3.3, 000's 3.4
FLAGS = {"DECPF": {"PSE": 6, "SCP": 7}, "DECPJ": {"SCP": 6, "PSE": 10}}

# a beneficiary's field that says whether such records stand below it: 000's 3.6 and 3.16
INDICATORS = {"BPFDEC": {"INFPA": 5, "INFPC": 6}, "BPFRRA": {"INFPA": 6}}


def rest(digits, weights):
    return sum(int(digit) * weight for digit, weight in zip(digits, weights)) % 11


def check_digit(digits, weights):
    left = rest(digits, weights)
    return "0" if left < 2 else str(11 - left)


def with_check_digits(digits, weights, front):
    first = digits + check_digit(digits, weights)
    return first + check_digit(first, [front] + weights)


def cpf(serial):
    return with_check_digits("%09d" % serial, CPF_WEIGHTS, 11)


def cnpj(serial):
    return with_check_digits("%012d" % serial, CNPJ_WEIGHTS, 6)


def key(size, serial):
    """A key of so many digits: a CPF, a CNPJ or, of any other size, the serial number itself."""
    return cpf(serial) if size == CPF_SIZE else cnpj(serial) if size == CNPJ_SIZE else str(serial).zfill(size)


def serial_of(digits):
    return int(digits[:-CHECK_SIZE] if len(digits) in (CPF_SIZE, CNPJ_SIZE) else digits)


def is_right(field):
    """Whether a field holds a CPF or a CNPJ with right check digits."""
    return len(field) in (CPF_SIZE, CNPJ_SIZE) and field.isascii() and field.isdigit() and field == key(len(field), serial_of(field))


PERSON, COMPANY = cpf(111444777), cnpj(112223330001)
DECLARANTS = {
    "DECPF": f"DECPF|{PERSON}|ANA LIMA|N|N|N|N|N|||N|||||",
    "DECPJ": f"DECPJ|{COMPANY}|SERRA LTDA|0|{PERSON}|N|N|N|N|N|N|N|N||",
}


def declarant(kind, blocks=()):
    """The line of a declarant whose file has these records, each by its identifier."""
    cells = DECLARANTS[kind].split("|")
    for block, field in FLAGS[kind].items():
        cells[field - 1] = "S" if block in blocks else "N"
    return "|".join(cells)
