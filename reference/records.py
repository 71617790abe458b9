"""Event records by document 01, 'Event records' and 'Units and ceilings'. It shares nothing with the Rattle code: what the
program `readback` reads and must write is made here.

    python3 reference/records.py cases [FOLDER]       prints the tests, one to a line: crates/readback/stdin
    python3 reference/records.py readback < TESTS     prints what document 01 makes of each: crates/readback/stdout

A test is an event file in hex, or `w`, a room's size, a kind, thirteen fields and exceptions: a record to be written. FOLDER,
../shared/vectors/base, has event files, of which those named bytes-*.events and ends-*.events are tests too.
"""
import re
import sys
from pathlib import Path

# "Units and ceilings": from and to. The last row is of 'Calendar and contract months': "up to 400 exception days".
RANGES = {
    'account': (1, 9_999_999),
    'lots': (1, 1_000),
    'margin or reference rate': (1, 100_000_000),
    'clearing limit': (0, 1_000_000),
    'tolerance, special margin': (0, 10**14),
    'amount': (1, 10**14),
    'multiplier': (100, 1_000),
    'day': (0, 3_652),
    'time': (0, 86_399),
    'code': (0, 9_999),
    'side': (0, 1),
    'rate': (-100_000, 100_000),
    'number of exceptions': (0, 400),
}

# "A record is a kind and its fields."
KINDS = [
    ['margin or reference rate', 'multiplier', 'number of exceptions'],
    ['account', 'clearing limit', 'tolerance, special margin'],
    ['account', 'amount'],
    ['account', 'amount'],
    ['account', 'amount'],
    ['account', 'tolerance, special margin'],
    ['account', 'clearing limit', 'tolerance, special margin'],
    ['day'] + 6 * ['rate'] + 6 * ['margin or reference rate'],
    ['time', 'code', 'account', 'account', 'lots', 'rate'],
    ['time', 'code', 'side', 'rate'],
    [],
    [],
    ['rate'],
]
START = 0
MOST_EXCEPTIONS = 400
CELLS = 13


class Malformed(Exception):
    """Refusal 1: "record cut short, not shortest, over 64 bits, unknown kind, over 400 exceptions"."""


# "Groups of seven bits, least significant group first, top bit set on all bytes but the last, shortest form only."
def encode(number):
    groups = [number % 128]
    while number >= 128:
        number //= 128
        groups.append(number % 128)
    return bytes([group + 128 for group in groups[:-1]] + groups[-1:])


# The number at a place, and the place after it.
def read_number(data, at):
    end = at
    while end < len(data) and data[end] >= 128:
        end += 1
    if end >= len(data):
        raise Malformed('cut short')
    end += 1
    number = sum((byte % 128) << (7 * i) for i, byte in enumerate(data[at:end]))
    if encode(number) != data[at:end]:
        raise Malformed('not shortest')
    if number >= 2**64:
        raise Malformed('over 64 bits')
    return number, end


# Some numbers from a place on, and the place after them.
def read_numbers(data, at, count):
    numbers = []
    for _ in range(count):
        number, at = read_number(data, at)
        numbers.append(number)
    return numbers, at


# The record at a place: its kind, the numbers of its fields, its exceptions, and the place after it.
def read_record(data, at):
    kind, at = read_number(data, at)
    if kind >= len(KINDS):
        raise Malformed('unknown kind')
    numbers, at = read_numbers(data, at, len(KINDS[kind]))
    exceptions = []
    if kind == START:
        if numbers[2] > MOST_EXCEPTIONS:
            raise Malformed('over 400 exceptions')
        exceptions, at = read_numbers(data, at, numbers[2])
    return kind, numbers, exceptions, at


# "Signed fields (rates, but not margin or reference rates) are folded first: 0, -1, 1, -2 become 0, 1, 2, 3."
def folded(value):
    return 2 * value if value >= 0 else -2 * value - 1


def unfolded(number):
    return number // 2 if number % 2 == 0 else -(number + 1) // 2


# The fields' values, of which only rates can be below 0.
def values_of(kind, numbers):
    return [unfolded(n) if name == 'rate' else n for name, n in zip(KINDS[kind], numbers)]


# The numbers of the fields' values.
def numbers_of(kind, values):
    return [folded(v) if name == 'rate' else v for name, v in zip(KINDS[kind], values)]


def is_within(name, value):
    least, greatest = RANGES[name]
    return least <= value <= greatest


# Whether refusal 2 is not due: "field out of range, or exceptions not rising".
def in_range(kind, numbers, exceptions):
    fields = all(is_within(name, value) for name, value in zip(KINDS[kind], values_of(kind, numbers)))
    days = all(is_within('day', e) for e in exceptions)
    rising = all(earlier < later for earlier, later in zip(exceptions, exceptions[1:]))
    return fields and days and rising


# The record of numbers as they are, whether or not a reader takes it.
def encode_all(kind, numbers, exceptions=()):
    return b''.join(encode(n) for n in [kind, *numbers, *exceptions])


# Whether a kind, thirteen cells and exceptions are a record that a reader takes: "refused 1 (place 0) for a record no reader
# would take under 1". The exceptions are as many as announced, only a start has any, and what is no field is 0.
def is_record(kind, cells, exceptions):
    if kind >= len(KINDS) or any(cells[len(KINDS[kind]):]):
        return False
    announced = cells[2] if kind == START else 0
    return len(exceptions) == announced <= MOST_EXCEPTIONS


# What is printed of a record: its length is that of the bytes read, since each record has one form only.
def record_line(kind, numbers, exceptions, length):
    verdict = 'ok' if in_range(kind, numbers, exceptions) else 2
    return ' '.join(map(str, [kind, *values_of(kind, numbers), *exceptions, verdict, length]))


# "A bad record prints `bad` and its place, and ends."
def file_lines(data):
    lines, at = [], 0
    while at < len(data):
        try:
            kind, numbers, exceptions, end = read_record(data, at)
        except Malformed:
            return lines + [f'bad {at}']
        lines.append(record_line(kind, numbers, exceptions, end - at))
        at = end
    return lines + ['end']


# "Writing puts a record at the start of lent room and answers its length; the room after it stays. It is refused 1 .., else
# 16 exactly when the room is shorter than the record; then nothing is written."
def writing_line(size, kind, cells, exceptions):
    room = bytes([0xAA] * size)
    if not is_record(kind, cells, exceptions):
        answer = 'no 1 0'
    else:
        record = encode_all(kind, cells[:len(KINDS[kind])], exceptions)
        if size < len(record):
            answer = 'no 16'
        else:
            answer = f'done {len(record)}'
            room = record + room[len(record):]
    return answer + ' ' + room.hex().upper() if room else answer


# The lines that answer a test, or none for a line that is no test.
def answer_lines(line):
    if re.fullmatch('([0-9A-Fa-f]{2}){0,8192}', line):
        return file_lines(bytes.fromhex(line))
    if re.fullmatch('w( [0-9]+){15,465}', line):
        size, kind, *numbers = [int(word) for word in line.split()[1:]]
        if size <= 4096 and max(kind, *numbers) < 2**64:
            return [writing_line(size, kind, numbers[:CELLS], numbers[CELLS:])]
    return None


# ---- the tests

EXTREMES = [0, 2**63 - 1, 2**63, 2**64 - 1]
UNKNOWN = [13, 127, 128, 2**64 - 1]

# "Input: start 3,000,000, 100, none; .." of 'A printed day', each record with its values.
PRINTED_DAY = [
    (0, [3_000_000, 100, 0]),
    (1, [1_000_001, 10, 0]),
    (1, [1_000_002, 10, 0]),
    (2, [1_000_001, 100_000_000]),
    (2, [1_000_002, 100_000_000]),
    (7, [1_339] + 6 * [23_000] + 6 * [3_000_000]),
    (10, []),
    (8, [34_200, 2_312, 1_000_001, 1_000_002, 4, 23_100]),
    (12, [0]),
]

# An ordinary record of each kind.
ORDINARY = [
    (0, [3_000_000, 150, 0]),
    (1, [1_000_001, 10, 2_500_000]),
    (2, [1_000_001, 100_000_000]),
    (3, [1_000_002, 250]),
    (4, [9_999_998, 70_000_000_000]),
    (5, [3, 1_000_000]),
    (6, [1_000_002, 700_000, 99]),
    (7, [1_339, 23_000, -23_100, 0, 1, -1, 99_999, 1, 2, 300, 3_000_000, 40_000_000, 99_999_999]),
    (8, [34_200, 2_312, 1_000_001, 1_000_002, 4, -23_100]),
    (9, [56_000, 2_403, 1, 64]),
    (10, []),
    (11, []),
    (12, [-65]),
]


# The bytes of a record with values in range or not, but not below what a field can hold.
def record(kind, values, exceptions=()):
    return encode_all(kind, numbers_of(kind, values), exceptions)


# The same record with one field changed.
def with_field(values, i, value):
    return values[:i] + [value] + values[i + 1:]


# A start with these exceptions, all announced.
def start(exceptions):
    return record(START, [3_000_000, 100, len(exceptions)], exceptions)


# A number's form with needless groups: the last group's top bit is set, and groups of zeros follow.
def needless(number, groups):
    form = encode(number)
    return form[:-1] + bytes([form[-1] + 128]) + bytes([0x80] * (groups - 1)) + b'\0'


# The kinds' fields, but for the number of exceptions, which stands with the starts.
def fields():
    for kind, values in ORDINARY:
        for i, name in enumerate(KINDS[kind]):
            if name != 'number of exceptions':
                yield kind, values, i, name


# Nothing; every kind; the printed day; the marked examples 1 and 2, the second as a kind and as a field.
def ordinary_files():
    yield b''
    yield from (record(*r) for r in ORDINARY)
    yield from (record(*r) for r in PRINTED_DAY)
    yield b''.join(record(*r) for r in PRINTED_DAY)
    yield b''.join(record(*r) for r in ORDINARY)
    yield bytes.fromhex('08 98 8B 02 88 12 C1 84 3D C2 84 3D 04 F8 E8 02')
    yield from map(bytes.fromhex, ['80 00', '00', '0C 80 00', '0C 00'])


# Every field at its ends and one beyond, at the extremes of 64 bits, and where a number's form grows by a byte.
def field_files():
    for kind, values, i, name in fields():
        least, greatest = RANGES[name]
        for value in [least - 1, least, greatest, greatest + 1]:
            if value >= 0 or name == 'rate':
                yield record(kind, with_field(values, i, value))
        for number in EXTREMES:
            yield encode_all(kind, with_field(numbers_of(kind, values), i, number))
    for bits in range(7, 64, 7):
        for number in [2**bits - 1, 2**bits]:
            yield encode_all(2, [1_000_001, number])
            yield encode_all(12, [number])


# Every cut of every ordinary record, and every byte of it changed, with a settlement behind it.
def broken_files():
    for kind, values in ORDINARY:
        data = record(kind, values)
        yield from (data[:n] for n in range(len(data)))
        for i in range(len(data)):
            for byte in [0x00, 0x01, 0x7F, 0x80, 0x81, 0xFF]:
                yield data[:i] + bytes([byte]) + data[i + 1:] + encode(10)


# Forms that are no number, or only just one, as a kind, in the middle of a record and at its end.
def form_files():
    forms = [needless(number, groups) for groups in range(1, 10) for number in [0, 1, 8, 127, 128, 2**63]]
    forms += [nine * 9 + bytes([tenth]) for nine in [b'\x80', b'\xFF'] for tenth in [1, 2, 0, 127, 128, 255]]
    forms += [ten * 10 + bytes([last]) for ten in [b'\x80', b'\xFF'] for last in [0, 1, 127]]
    for form in forms:
        yield form
        yield encode(2) + form + encode(7)
        yield encode(2) + encode(7) + form
        yield record(START, [3_000_000, 100, 2]) + encode(7) + form


# Kinds that there are not, alone and before what would be fields.
def unknown_files():
    for kind in UNKNOWN:
        yield encode(kind)
        yield encode(kind) + record(2, [1_000_001, 7])


# Starts: no, one, most and too many exceptions; equal, falling, past the calendar, cut, and fewer than announced.
def start_files():
    most, day = list(range(400)), record(*PRINTED_DAY[1])
    for exceptions in [[], [0], [3_652], most, list(range(3_253, 3_653)), list(range(401))]:
        yield start(exceptions)
        yield start(exceptions) + day
    for exceptions in [[5, 5], [6, 5], [5, 6, 6], [3_653], [3_651, 3_653], [2**64 - 1], most[:399] + [398], [9] + most[1:]]:
        yield start(exceptions)
    for announced in [399, 400, 401, 2**63, 2**64 - 1]:
        yield record(START, [3_000_000, 100, announced], most)
    for exceptions in [[1], [1, 200, 3_000]]:
        yield from (start(exceptions)[:-n] for n in range(1, 6))
    yield record(START, [3_000_000, 100, 3], [1, 2]) + day


# A fault in a later record, so that its place is not 0.
def later_files():
    faults = [encode(13), needless(10, 1), b'\x80', record(*ORDINARY[8])[:-1], b'\xFF' * 9 + b'\x02', start(list(range(401)))]
    for before in [[ORDINARY[10]], ORDINARY[:5], PRINTED_DAY]:
        for fault in faults:
            yield b''.join(record(*r) for r in before) + fault


# The largest file: two starts of 400 numbers of ten bytes, and settlements to the last byte.
def full_file():
    largest = encode_all(START, [2**64 - 1, 2**64 - 1, 400], 400 * [2**64 - 1])
    return (2 * largest).ljust(8192, encode(10))


# A record to be written, whose cells after those given are 0.
def writing(size, kind, cells, exceptions=()):
    return ' '.join(map(str, ['w', size, kind, *cells, *(CELLS - len(cells)) * [0], *exceptions]))


# The same into rooms of its length, one less, some more, and none.
def writings(kind, cells, exceptions=()):
    length = len(encode_all(kind, cells, exceptions))
    for size in [length, length - 1, length + 1, length + 20, 0]:
        yield writing(size, kind, cells, exceptions)


# What is a record: every kind, values out of range, the least and the most exceptions.
def record_writings():
    for kind, values in ORDINARY:
        yield from writings(kind, numbers_of(kind, values))
    for kind, values, i, _ in fields():
        for number in EXTREMES:
            yield writing(150, kind, with_field(numbers_of(kind, values), i, number))
    for bits in range(7, 64, 7):
        yield from writings(12, [2**bits - 1])
        yield from writings(12, [2**bits])
    for exceptions in [[0], [9, 9, 8], list(range(400)), 400 * [2**64 - 1]]:
        yield from writings(START, [3_000_000, 100, len(exceptions)], exceptions)
    yield writing(4096, START, [2**64 - 1, 2**64 - 1, 400], 400 * [2**64 - 1])


# What is none: the room's size does not matter then.
def other_writings():
    for size in [0, 30, 4096]:
        yield from (writing(size, kind, [1, 2, 0]) for kind in UNKNOWN)
        yield writing(size, START, [1, 100, 401], range(401))
        yield writing(size, START, [1, 100, 450], range(450))
    for announced, given in [(0, 1), (1, 0), (2, 3), (3, 2), (400, 401), (401, 400), (401, 0), (2**64 - 1, 0), (2**64 - 1, 1)]:
        yield writing(900, START, [1, 100, announced], range(given))
    for kind, values in ORDINARY[1:]:
        yield writing(60, kind, numbers_of(kind, values), [7])
    yield writing(60, 1, [1, 2, 1], [7])
    for kind, values in ORDINARY:
        for cell in range(len(values), CELLS):
            cells = (numbers_of(kind, values) + CELLS * [0])[:CELLS]
            yield writing(60, kind, with_field(cells, cell, 1))


# The tests, of which the largest file and those of the folder are in lower case.
def cases(folder):
    for group in [ordinary_files, field_files, broken_files, form_files, unknown_files, start_files, later_files]:
        yield from (data.hex().upper() for data in group())
    yield full_file().hex()
    if folder:
        for pattern in ['bytes-*.events', 'ends-*.events']:
            yield from (path.read_bytes().hex() for path in sorted(Path(folder).glob(pattern)))
    yield from record_writings()
    yield from other_writings()


# Each test once, and at the end a line that is none, which ends the run, with a test behind it that is not answered.
def print_cases(folder):
    print('\n'.join(dict.fromkeys(cases(folder))))
    print('0A0')
    print('0A')


# The answers, up to the first line that is no test.
def print_readback():
    for line in sys.stdin:
        answer = answer_lines(line.rstrip('\n'))
        if answer is None:
            print('bad input')
            return
        print('\n'.join(answer))


def main():
    if sys.argv[1:2] == ['cases'] and len(sys.argv) <= 3:
        print_cases(sys.argv[2] if len(sys.argv) == 3 else None)
    elif sys.argv[1:] == ['readback']:
        print_readback()
    else:
        sys.exit(__doc__)


if __name__ == '__main__':
    main()
