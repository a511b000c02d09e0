#!/usr/bin/env python3
"""programs.py FOLDER [CASE..]: writes programs that are hostile to linking and to walks over supers, below a folder: for each case its classes in `c` and its tests in `t`."""
import os, struct, sys

out, wanted = sys.argv[1], sys.argv[2:]
u1, u2, u4 = (lambda n: struct.pack('>B', n)), (lambda n: struct.pack('>H', n)), (lambda n: struct.pack('>I', n))
OBJECT = 'java/lang/Object'


class Pool:
    def __init__(self): self.bytes, self.count, self.known = [], 0, {}

    def raw(self, data): self.bytes.append(data); self.count += 1; return self.count

    def add(self, key, data):
        if key not in self.known: self.known[key] = self.raw(data)
        return self.known[key]

    def text(self, s): s = s.encode(); return self.add(('text', s), u1(1) + u2(len(s)) + s)

    def name(self, s): return self.add(('class', s), u1(7) + u2(self.text(s)))

    def pair(self, n, d): return self.add(('pair', n, d), u1(12) + u2(self.text(n)) + u2(self.text(d)))

    def method(self, c, n, d): return self.add(('method', c, n, d), u1(10) + u2(self.name(c)) + u2(self.pair(n, d)))


def attr(p, name, content): return u2(p.text(name)) + u4(len(content)) + content


def member(p, name, desc, flags, attrs=()): return u2(flags) + u2(p.text(name)) + u2(p.text(desc)) + u2(len(attrs)) + b''.join(attrs)


def code(p, ops): return attr(p, 'Code', u2(1) + u2(1) + u4(len(ops)) + ops + u2(0) + u2(0))


def klass(name, parent=OBJECT, flags=33, interfaces=(), methods=(), p=None):
    p = p or Pool()
    heads = u2(flags) + u2(p.name(name)) + u2(p.name(parent)) + u2(len(interfaces)) + b''.join(u2(p.name(i)) for i in interfaces)
    body = heads + u2(0) + u2(len(methods)) + b''.join(methods) + u2(0)
    return b'\xca\xfe\xba\xbe' + u2(0) + u2(52) + u2(p.count + 1) + b''.join(p.bytes) + body


def interface(name, interfaces=()): return klass(name, flags=0x601, interfaces=interfaces)


def test(parent=OBJECT, interfaces=()):
    p = Pool()
    init = member(p, '<init>', '()V', 1, [code(p, b'\x2a\xb7' + u2(p.method(parent, '<init>', '()V')) + b'\xb1')])
    note = attr(p, 'RuntimeVisibleAnnotations', u2(1) + u2(p.text('Lorg/junit/Test;')) + u2(0))
    run = member(p, 't', '()V', 1, [code(p, b'\xb1'), note])
    return klass('T', parent, interfaces=interfaces, methods=[init, run], p=p)


def put(case, tests, classes=()):
    for side, files in ('t', tests), ('c', classes):
        folder = os.path.join(out, case, side)
        os.makedirs(folder, exist_ok=True)
        for name, data in files:
            with open(os.path.join(folder, name + '.class'), 'wb') as file: file.write(data)


CASES = {}


def case(name):
    def keep(make): CASES[name] = make; return make
    return keep


# a class that is its own superclass, and one below a cycle of three
@case('own-super')
def _(): put('own-super', [('T', test('T'))], [('A', klass('A'))])


@case('cycle')
def _(): put('cycle', [('T', test('A'))], [('A', klass('A', 'B')), ('B', klass('B', 'C')), ('C', klass('C', 'A'))])


# a chain of 19,999 superclasses, with T as many classes as a program may have; the same, closed to a cycle
@case('chain')
def _(): put('chain', [('T', test('P0'))], [(f'P{i}', klass(f'P{i}', f'P{i + 1}' if i < 19998 else OBJECT)) for i in range(19999)])


@case('chain-cycle')
def _(): put('chain-cycle', [('T', test('P0'))], [(f'P{i}', klass(f'P{i}', f'P{(i + 1) % 19999}')) for i in range(19999)])


# a chain of 19,999 interfaces
@case('interfaces')
def _(): put('interfaces', [('T', test(interfaces=['I0']))], [(f'I{i}', interface(f'I{i}', [f'I{i + 1}'] if i < 19998 else [])) for i in range(19999)])


# 9,999 superclasses, each with an interface of its own
@case('beside')
def _():
    rows = [(f'P{i}', klass(f'P{i}', f'P{i + 1}' if i < 9998 else OBJECT, interfaces=[f'I{i}'])) for i in range(9999)]
    put('beside', [('T', test('P0'))], rows + [(f'I{i}', interface(f'I{i}')) for i in range(9999)])


# 30, 100 and 1,000 levels of two interfaces that each name both of the next level
def diamonds(name, levels):
    def make():
        rows = [(f'{n}{k}', interface(f'{n}{k}', [f'A{k - 1}', f'B{k - 1}'] if k else [])) for k in range(levels) for n in 'AB']
        put(name, [('T', test(interfaces=[f'A{levels - 1}', f'B{levels - 1}']))], rows)
    CASES[name] = make


diamonds('diamonds-30', 30)
diamonds('diamonds-100', 100)
diamonds('diamonds-1000', 1000)


# 20 levels of 20 interfaces that each name all of the next level
@case('wide-diamonds')
def _():
    rows = [(f'I{k}_{n}', interface(f'I{k}_{n}', [f'I{k - 1}_{m}' for m in range(20)] if k else [])) for k in range(20) for n in range(20)]
    put('wide-diamonds', [('T', test(interfaces=[f'I19_{n}' for n in range(20)]))], rows)


# a class that names one interface 65,535 times
@case('one-interface')
def _(): put('one-interface', [('T', test(interfaces=['I'] * 65535))], [('I', interface('I'))])


# 65,000 class entries of one text of 65,535 units
@case('entries')
def _():
    p = Pool(); long = p.text('x' * 65535)
    for _ in range(65000): p.raw(u1(7) + u2(long))
    put('entries', [('T', test())], [('A', klass('A', p=p))])


# 21,000 method entries of one long name and one long descriptor, each with a pair of its own
@case('long-pairs')
def _():
    p = Pool(); c, n, d = p.name('A'), p.text('n' * 65535), p.text('(' + 'I' * 65500 + ')V')
    for _ in range(21000): p.raw(u1(10) + u2(c) + u2(p.raw(u1(12) + u2(n) + u2(d))))
    put('long-pairs', [('T', test())], [('A', klass('A', p=p))])


# 60,000 method entries, and 60,000 methods of the class that they name: of one name, and each of its own
@case('targets')
def _():
    p = Pool(); c, pair = p.name('A'), p.pair('absent', '()V')
    for _ in range(60000): p.raw(u1(10) + u2(c) + u2(pair))
    put('targets', [('T', test())], [('A', klass('A', flags=0x421, methods=[member(p, 'm', '()V', 0x401)] * 60000, p=p))])


@case('methods')
def _():
    p = Pool(); methods = [member(p, f'm{i}', '()V', 0x401) for i in range(60000)]
    put('methods', [('T', test())], [('A', klass('A', flags=0x421, methods=methods, p=p))])


# 16 class files of 4 MB, of jumps that two mutators change: 44,000,000 mutants
@case('mutants')
def _():
    p = Pool(); jumps = code(p, b'\x9b\x00\x03' * 21844 + b'\xb1')
    put('mutants', [('T', test())], [(f'C{i}', klass(f'C{i}', methods=[member(p, 'm', '()V', 9, [jumps])] * 63, p=p)) for i in range(16)])


# 120,000 tests in two classes
@case('tests')
def _():
    def tests(name):
        p = Pool(); note = attr(p, 'RuntimeVisibleAnnotations', u2(1) + u2(p.text('Lorg/junit/Test;')) + u2(0))
        init = member(p, '<init>', '()V', 1, [code(p, b'\x2a\xb7' + u2(p.method(OBJECT, '<init>', '()V')) + b'\xb1')])
        return klass(name, methods=[init] + [member(p, f't{i}', '()V', 1, [code(p, b'\xb1'), note]) for i in range(60000)], p=p)
    put('tests', [(name, tests(name)) for name in ('T', 'U')], [('A', klass('A'))])


for name in wanted or CASES: CASES[name]()
