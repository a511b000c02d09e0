#!/usr/bin/env python3
"""one_class.py FOLDER METHODS CLASSES [TESTS [TEST_CLASSES]]: writes CLASSES classes into FOLDER/c, each with METHODS static methods of six mutants, and TEST_CLASSES classes with TESTS tests in all into FOLDER/t (one test in one class where none is given). The tests call the methods one after the other, each one method; a single test calls the first method alone. With TESTS 0 each method of the classes has a test."""
import os, struct, sys

out, methods, classes = sys.argv[1], int(sys.argv[2]), int(sys.argv[3])
tests = int(sys.argv[4]) if len(sys.argv) > 4 else 1
holders = int(sys.argv[5]) if len(sys.argv) > 5 else 1
tests = tests or methods * classes
u1, u2, u4 = (lambda n: struct.pack('>B', n)), (lambda n: struct.pack('>H', n)), (lambda n: struct.pack('>I', n))


class Pool:
    def __init__(self): self.bytes, self.count, self.known = [], 0, {}

    def add(self, key, data):
        if key not in self.known:
            self.bytes.append(data)
            self.count += 1
            self.known[key] = self.count
        return self.known[key]

    def text(self, s): return self.add(('text', s), u1(1) + u2(len(s)) + s.encode())

    def name(self, s): return self.add(('class', s), u1(7) + u2(self.text(s)))

    def pair(self, n, d): return self.add(('pair', n, d), u1(12) + u2(self.text(n)) + u2(self.text(d)))

    def method(self, c, n, d): return self.add(('method', c, n, d), u1(10) + u2(self.name(c)) + u2(self.pair(n, d)))


def attr(p, name, content): return u2(p.text(name)) + u4(len(content)) + content


def member(p, name, desc, flags, attrs): return u2(flags) + u2(p.text(name)) + u2(p.text(desc)) + u2(len(attrs)) + b''.join(attrs)


def code(p, stack, slots, ops, attrs):
    return attr(p, 'Code', u2(stack) + u2(slots) + u4(len(ops)) + ops + u2(0) + u2(len(attrs)) + b''.join(attrs))


# LineNumberTable: rows of an offset and a line; StackMapTable: one frame like the first, at an offset below 64
def lines(p, rows): return attr(p, 'LineNumberTable', u2(len(rows)) + b''.join(u2(at) + u2(line) for at, line in rows))


def same_frame(p, at): return attr(p, 'StackMapTable', u2(1) + u1(at))


def put(side, name, p, members):
    heads = u2(0x21) + u2(p.name(name)) + u2(p.name('java/lang/Object')) + u2(0) + u2(0)
    body = heads + u2(len(members)) + b''.join(members) + u2(0)
    os.makedirs(os.path.join(out, side), exist_ok=True)
    with open(os.path.join(out, side, name + '.class'), 'wb') as file:
        file.write(b'\xca\xfe\xba\xbe' + u2(0) + u2(52) + u2(p.count + 1) + b''.join(p.bytes) + body)


# static int mI(int a, int b) { if (a < b) { return a + b; } return a - b; }
def method(p, number):
    ops = b'\x1a\x1b\xa2\x00\x07' + b'\x1a\x1b\x60\xac' + b'\x1a\x1b\x64\xac'
    line = 1 + 3 * number
    return member(p, f'm{number}', '(II)I', 9, [code(p, 2, 2, ops, [lines(p, [(0, line), (5, line + 1), (9, line + 2)]), same_frame(p, 9)])])


# @Test public void tN() { assertEquals(7L, (long) C.mI(3, 4)); }
def test(p, number):
    which = number % (methods * classes)
    called = p.method(f'C{which // methods}', f'm{which % methods}', '(II)I')
    equal = p.method('org/junit/Assert', 'assertEquals', '(JJ)V')
    ops = b'\x10\x07\x85' + b'\x06\x07\xb8' + u2(called) + b'\x85' + b'\xb8' + u2(equal) + b'\xb1'
    note = attr(p, 'RuntimeVisibleAnnotations', u2(1) + u2(p.text('Lorg/junit/Test;')) + u2(0))
    return member(p, f't{number}', '()V', 1, [code(p, 4, 1, ops, []), note])


for number in range(classes):
    p = Pool()
    put('c', f'C{number}', p, [method(p, each) for each in range(methods)])
for holder in range(holders):
    p = Pool()
    begin = b'\x2a\xb7' + u2(p.method('java/lang/Object', '<init>', '()V')) + b'\xb1'
    members = [member(p, '<init>', '()V', 1, [code(p, 1, 1, begin, [])])]
    put('t', f'T{holder}', p, members + [test(p, each) for each in range(tests * holder // holders, tests * (holder + 1) // holders)])
