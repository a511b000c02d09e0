#!/usr/bin/env python3
"""hostile.py FOLDER [COLLIDING]: writes class files of up to 4 MiB below the folder, one kind each, at the largest size that the format lets stand: some that are hostile to a reader, and below folders `c`, each with a folder `t` without a test beside it, some that are hostile to the checker of types. With the program COLLIDING, made of colliding.c, also some that are hostile to tables of names, and beside each, by ordinary names of the same length, one that isn't."""
import os, struct, subprocess, sys
out = sys.argv[1] if len(sys.argv) > 1 else '.'
u1, u2, u4 = (lambda n: struct.pack('>B', n)), (lambda n: struct.pack('>H', n)), (lambda n: struct.pack('>I', n))


class Pool:
    def __init__(self): self.bytes, self.count, self.known = [], 0, {}

    def add(self, data, key=None):
        if key in self.known: return self.known[key]
        self.bytes.append(data); self.count += 1
        if key is not None: self.known[key] = self.count
        return self.count

    def text(self, s):
        s = s.encode() if isinstance(s, str) else s
        return self.add(u1(1) + u2(len(s)) + s, ('text', s))

    def name(self, s): return self.add(u1(7) + u2(self.text(s)), ('class', s))

    def pair(self, n, d): return self.add(u1(12) + u2(self.text(n)) + u2(self.text(d)), ('pair', n, d))


def attr(p, name, content): return u2(p.text(name)) + u4(len(content)) + content


def member(p, name, desc, flags, attrs=()): return u2(flags) + u2(p.text(name)) + u2(p.text(desc)) + u2(len(attrs)) + b''.join(attrs)


def code(p, ops, stack=2, attrs=()): return attr(p, 'Code', u2(stack) + u2(2) + u4(len(ops)) + ops + u2(0) + u2(len(attrs)) + b''.join(attrs))


def klass(p, name='A', flags=0x421, interfaces=(), fields=(), methods=(), attrs=(), parent='java/lang/Object'):
    body = u2(flags) + u2(p.name(name)) + u2(p.name(parent)) + u2(len(interfaces)) + b''.join(map(u2, interfaces))
    for items in (fields, methods, attrs): body += u2(len(items)) + b''.join(items)
    return b'\xca\xfe\xba\xbe' + u2(0) + u2(52) + u2(p.count + 1) + b''.join(p.bytes) + body


def put(name, data):
    os.makedirs(os.path.join(out, name), exist_ok=True)
    open(os.path.join(out, name, 'A.class'), 'wb').write(data)


def noted(p, notes): return attr(p, 'RuntimeVisibleAnnotations', notes)


LONG = 'L' + 'x' * 65533 + ';'

# 1,300,000 arrays of an annotation in one another
p = Pool(); front = u2(1) + u2(p.text('LA;')) + u2(1) + u2(p.text('v'))
put('arrays', klass(p, attrs=[noted(p, front + b'[\x00\x01' * 1300000 + b'[\x00\x00')]))

# 65,535 arrays beside one another at each of 20 levels of annotations
p = Pool(); kind, v = p.text('LA;'), p.text('v'); note = u2(kind) + u2(1) + u2(v) + b'[' + u2(65535) + b'[\x00\x00' * 65534
put('wide-arrays', klass(p, attrs=[noted(p, u2(1) + note + (b'@' + note) * 19 + b'[\x00\x00')]))

# 1,000,000 annotations of one long type
p = Pool(); kind = p.text(LONG)
put('types', klass(p, methods=[member(p, f'm{i}', '()V', 0x401, [noted(p, u2(64000) + (u2(kind) + u2(0)) * 64000)]) for i in range(16)]))

# 65,000 pairs of one long descriptor, and as many method entries of one of them
p = Pool(); n, d, c = p.text('f'), p.text('(' + LONG[:65500] + ';)V'), p.name('A')
for _ in range(32000): pair = p.add(u1(12) + u2(n) + u2(d))
for _ in range(32000): p.add(u1(10) + u2(c) + u2(pair))
put('pairs', klass(p))

# 65,535 fields and as many methods of one long name and one long descriptor
p = Pool(); long_name, desc = 'n' * 65535, LONG
fields = [member(p, long_name, desc, 9)] * 65535
p.text('(' + 'I' * 65530 + ')V'); methods = [member(p, long_name, '(' + 'I' * 65530 + ')V', 0x401)] * 65535
put('members', klass(p, fields=fields, methods=methods))

# 800,000 interface calls of one long descriptor, whose count is wrong in the last
p = Pool(); c = p.name('A'); pair = p.pair('m', '(' + LONG[:65000] + ';)V'); call = p.add(u1(11) + u2(c) + u2(pair))
ops = (b'\xb9' + u2(call) + b'\x02\x00') * 13000 + b'\xb1'
body = code(p, ops)
put('calls', klass(p, methods=[member(p, f'm{i}', '()V', 9, [body]) for i in range(60)]))

# 65,000 class entries of one text
p = Pool(); big = p.text('[' * 60000 + 'I')
for _ in range(65000): p.add(u1(7) + u2(big))
put('entries', klass(p))


def put_run(name, data):
    put(os.path.join(name, 'c'), data)
    os.makedirs(os.path.join(out, name, 't'), exist_ok=True)
    open(os.path.join(out, name, 't', 'README'), 'wb').close()


UNITS = 65535

# 65,000 class entries of one text
p = Pool(); big = p.text('x' * UNITS)
for _ in range(65000): p.add(u1(7) + u2(big))
put_run('class-entries', klass(p))

# 65,000 field entries of one long class
p = Pool(); owner, pair = p.name('x' * UNITS), p.pair('f', 'I')
for _ in range(65000): p.add(u1(9) + u2(owner) + u2(pair))
put_run('field-classes', klass(p))

# 65,000 entries of one field of the class itself, with a long name and a long descriptor
p = Pool(); name, desc = 'n' * UNITS, 'L' + 'x' * (UNITS - 2) + ';'
owner, pair = p.name('A'), p.pair(name, desc)
for _ in range(65000): p.add(u1(9) + u2(owner) + u2(pair))
put_run('own-fields', klass(p, fields=[member(p, name, desc, 9)]))

# 65,000 method entries of one long class
p = Pool(); owner, pair = p.name('x' * UNITS), p.pair('m', '()V')
for _ in range(65000): p.add(u1(10) + u2(owner) + u2(pair))
put_run('method-classes', klass(p))

# 65,000 method entries of one descriptor with a long class, and as many of one with many arguments
p = Pool(); owner = p.name('A')
pairs = [p.pair('m', '(L' + 'x' * (UNITS - 6) + ';)V'), p.pair('m', '(' + 'I' * (UNITS - 3) + ')V')]
for at in range(65000): p.add(u1(10) + u2(owner) + u2(pairs[at % 2]))
put_run('method-types', klass(p))


def put_suite(name, classes=(), tests=()):
    for side, files in ('c', classes), ('t', tests):
        folder = os.path.join(out, name, side)
        os.makedirs(folder, exist_ok=True)
        open(os.path.join(folder, 'README'), 'wb').close()
        for at, data in enumerate(files):
            with open(os.path.join(folder, f'{at}.class'), 'wb') as file: file.write(data)


def put_text(name, lines):
    os.makedirs(os.path.join(out, name), exist_ok=True)
    with open(os.path.join(out, name, 'A.txt'), 'w', encoding='utf-8', newline='\n') as file: file.writelines(line + '\n' for line in lines)


def call(p, opcode, owner, name): return opcode + u2(p.add(u1(10) + u2(p.name(owner)) + u2(p.pair(name, '()V')), ('call', owner, name)))


def some_in_each(p, pieces, most):
    """Static methods m0, m1, .. of one class, each with so many of these pieces of code, and the calls of all."""
    parts = [b''.join(pieces[at:at + most]) for at in range(0, len(pieces), most)]
    return ([member(p, f'm{at}', '()V', 9, [code(p, part + b'\xb1')]) for at, part in enumerate(parts)],
            b''.join(call(p, b'\xb8', 'T', f'm{at}') for at in range(len(parts))))


def test_class(p, ops=b'', parent='java/lang/Object', methods=()):
    init = member(p, '<init>', '()V', 1, [code(p, b'\x2a' + call(p, b'\xb7', parent, '<init>') + b'\xb1')])
    run = member(p, 't', '()V', 1, [code(p, ops + b'\xb1'), noted(p, u2(1) + u2(p.text('Lorg/junit/Test;')) + u2(0))])
    return klass(p, 'T', 33, methods=[init, run, *methods], parent=parent)


def put_named(front, names, long_names, texts):
    """Cases for each table that is kept by names of a file, with these names."""
    put_suite(front + '-classes', [klass(Pool(), name) for name in names[:20000]])

    p = Pool(); put_suite(front + '-methods', [klass(p, methods=[member(p, name, '()V', 0x401) for name in names])])

    # casts to 32,000 classes
    p = Pool(); casts = [b'\x01\xc0' + u2(p.name(name)) + b'\x57' for name in names[:32000]]
    put_suite(front + '-casts', [klass(p, 'T', methods=some_in_each(p, casts, 13000)[0])])

    # a test that loads 32,000 literals
    p = Pool(); loads = [b'\x13' + u2(p.add(u1(8) + u2(p.text(name)))) + b'\x57' for name in names[:32000]]
    methods, calls = some_in_each(p, loads, 16000)
    put_suite(front + '-literals', tests=[test_class(p, calls, methods=methods)])

    # a test whose superclass has 28,000 methods
    p = Pool(); above = klass(p, 'U', 0x421, methods=[member(p, '<init>', '()V', 1, [code(p, b'\x2a' + call(p, b'\xb7', 'java/lang/Object', '<init>') + b'\xb1')]),
                                                      *(member(p, name, '()V', 0x401) for name in long_names)])
    put_suite(front + '-heads', tests=[above, test_class(Pool(), parent='U')])

    head = 'class A super java/lang/Object flags 33 major 52'
    put_text(front + '-labels', [head, 'method 9 m ()V stack 0 locals 0', *(line for name in names for line in (name + ':', 'nop')), 'return', 'end'])
    put_text(front + '-fields', [head, *(f'field 9 {name} I' for name in texts), 'end'])


def made(what, count, blocks, tail):
    return subprocess.run([sys.argv[2], what, *map(str, (count, blocks, tail))], stdout=subprocess.PIPE, check=True).stdout.decode().split('\n')[:-1]


if len(sys.argv) > 2:
    for front, what in ('ordinary', ('ordinary', 'ordinary')), ('colliding', ('names', 'texts')):
        put_named(front, made(what[0], 65000, 5, 2), made(what[0], 28000, 15, 0), made(what[1], 65000, 5, 2))
