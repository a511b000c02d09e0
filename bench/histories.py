#!/usr/bin/env python3
"""histories.py FOLDER KIND..: writes histories of profile number 1 below the folder, a file KIND.history each.

runs-RECORDS-TESTS-CLASS: so many records of mutants, spread over so many tests, and before them one of each test on the
program as it is; a mutant's class file has so many bytes and is its own. Each record consults ten names and reaches twenty
lines.

Hostile ones, each of the length that a history may have, or of so many bytes where KIND-BYTES is asked for: prefixes
(classes of 500 bytes that differ in the last four), names (a million of 500 bytes in one record), shared (a class of 4 MB
that each record names), small (records of 37 bytes), equal (so are these, and the last two are equal), entries (each record is of a test of
its own and names the same 127 names of a byte), short (names of four bytes, all in one record); and counts (four
billion names are said to be there, and none is)."""
import os
import struct
import sys

MOST = 536870912
u1, u2, u4, u8 = (struct.Struct(form).pack for form in ('>B', '>H', '>I', '>Q'))


def text(name):
    return u2(len(name)) + name


def record(test, method, consulted=(), reached=(), limit=100000, steps=1000, heap=1 << 20):
    """A record of a test that passes; consulted are names and class numbers."""
    names = b''.join(text(name) + u4(number) for name, number in consulted)
    lines = b''.join(u4(place) + u2(line) for place, line in reached)
    return (text(test) + text(method) + u4(heap) + u4(1024) + u8(limit) + u1(0) + u8(steps)
            + u4(len(consulted)) + names + u4(len(reached)) + lines)


def put(file, classes, records):
    """Writes a history; classes and records are lists, or a count and what gives them one after the other."""
    (many, classes), (few, records) = classes, records
    file.write(b'MTHI' + u2(2) + u2(1) + u4(many))
    for one in classes:
        file.write(u4(len(one)) + one)
    file.write(u4(few))
    for one in records:
        file.write(one)


def runs(file, records, tests, size):
    helpers = 8
    filler = bytes(range(256)) * (size // 256 + 1)

    def class_of(kind, number):
        return (kind + u4(number) + filler)[:size]

    def originals(test):
        return [(b'app/Test%d' % test, 1 + test * (helpers + 2)), (b'app/Changed%d' % test, 2 + test * (helpers + 2))] + [
            (b'app/Helper%d_%d' % (test, k), 3 + k + test * (helpers + 2)) for k in range(helpers)]

    lines = [(place, line) for place in range(10) for line in (10, 20)]
    first = tests * (helpers + 2)

    def all_classes():
        for test in range(tests):
            for k in range(helpers + 2):
                yield class_of(b'original', test * (helpers + 2) + k)
        for mutant in range(records):
            yield class_of(b'mutant..', mutant)

    def all_records():
        for test in range(tests):
            yield record(b'app/Test%d' % test, b'works', originals(test), lines)
        for mutant in range(records):
            consulted = originals(mutant % tests)
            consulted[1] = (consulted[1][0], first + mutant + 1)
            yield record(b'app/Test%d' % (mutant % tests), b'works', consulted, lines)

    put(file, (first + records, all_classes()), (tests + records, all_records()))


def prefixes(file, most=MOST):
    each = 500
    count = (most - 1000) // (each + 4 + 14)
    classes = (b'x' * (each - 4) + u4(k) for k in range(count))
    body = record(b'T', b't', [(b'n%07d' % k, k + 1) for k in range(count)])
    put(file, (count, classes), (1, [body]))


def names(file, most=MOST):
    put(file, (0, []), (1, [record(b'T', b't', [(b'x' * 490 + b'%010d' % k, 0) for k in range((most - 1000) // 506)])]))


def shared(file, most=MOST):
    count = (most - 4195000) // 55
    put(file, (1, [b'c' * 4194304]), (count, (record(b'T', b't%07d' % k, [(b'N', 1)]) for k in range(count))))


def small(file, most=MOST):
    count = (most - 16) // 37
    put(file, (0, []), (count, (record(b'', b'', heap=k) for k in range(count))))


def entries(file, most=MOST):
    consulted = [(bytes([k + 1]), 0) for k in range(127)]
    count = (most - 16) // len(record(b'T', b't00000', consulted))
    put(file, (0, []), (count, (record(b'T', b't%05x' % k, consulted) for k in range(count))))


def short(file, most=MOST):
    count = (most - 100) // 10
    digits = bytes(range(1, 128))

    def name(k):
        return bytes((digits[k // 2048383], digits[k // 16129 % 127], digits[k // 127 % 127], digits[k % 127]))

    tail = u4(0)
    head = record(b'T', b't')[:-8] + u4(count)
    file.write(b'MTHI' + u2(2) + u2(1) + u4(0) + u4(1) + head)
    for k in range(count):
        file.write(b'\0\4' + name(k) + b'\0\0\0\0')
    file.write(tail)


def counts(file):
    file.write(b'MTHI' + u2(2) + u2(1) + u4(0) + u4(1) + record(b'T', b't')[:-8] + u4(4294967295))


def equal(file, most=MOST):
    count = (most - 16) // 37
    put(file, (0, []), (count, (record(b'', b'', heap=min(k, count - 2)) for k in range(count))))


def main():
    if len(sys.argv) < 3:
        sys.exit(__doc__)
    for kind in sys.argv[2:]:
        with open(os.path.join(sys.argv[1], kind + '.history'), 'wb') as file:
            word, *numbers = kind.split('-')
            kinds = {'runs': runs, 'prefixes': prefixes, 'names': names, 'shared': shared, 'small': small, 'counts': counts,
                     'equal': equal, 'entries': entries, 'short': short}
            kinds[word](file, *map(int, numbers))


if __name__ == '__main__':
    main()
