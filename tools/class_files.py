"""Class files as tools/lacks reads them: what they declare, what each instruction names, and what of them no class file of the profile has."""
import bisect
import struct

FLOAT_OPCODES = {*range(0x0b, 0x10), 0x17, 0x18, *range(0x22, 0x2a), 0x30, 0x31, 0x38, 0x39, *range(0x43, 0x4b), 0x51, 0x52, 0x62, 0x63, 0x66, 0x67, 0x6a,
                 0x6b, 0x6e, 0x6f, 0x72, 0x73, 0x76, 0x77, 0x86, 0x87, *range(0x89, 0x91), *range(0x95, 0x99), 0xae, 0xaf}
# How many bytes stand behind an opcode (JVMS 6.5), but for switches and wide.
BEHIND = {**{op: 0 for op in range(256)}, **{op: 1 for op in (0x10, 0x12, 0xbc, *range(0x15, 0x1a), *range(0x36, 0x3b), 0xa9)},
          **{op: 2 for op in (0x11, 0x13, 0x14, 0x84, *range(0x99, 0xa9), *range(0xb2, 0xb9), 0xbb, 0xbd, 0xc0, 0xc1, 0xc6, 0xc7)},
          0xc5: 3, 0xb9: 4, 0xba: 4, 0xc8: 4, 0xc9: 4}
INVOKEDYNAMIC, LDC, LDC_W, LDC2_W = 0xba, 0x12, 0x13, 0x14
FIELDS, CALLS, CLASSES = range(0xb2, 0xb6), range(0xb6, 0xba), {0xbb, 0xbd, 0xc0, 0xc1, 0xc5}
# The opcodes whose instruction names something or may be refused; those of more than one length.
JUDGED = {*FLOAT_OPCODES, *FIELDS, *CALLS, *CLASSES, LDC, LDC_W, LDC2_W, 0xa8, 0xa9, INVOKEDYNAMIC,
          0xbc, 0xc4, *range(0xc9, 256)}
VARYING = {0xaa, 0xab, 0xc4}
SIZES = [1 + BEHIND[op] for op in range(256)]
INTERFACE, ABSTRACT, NATIVE, PRIVATE, STATIC, FINAL, ENUM = 0x200, 0x400, 0x100, 0x2, 0x8, 0x10, 0x4000
ANNOTATION = 0x2000


class Refused(Exception):
    """A file that the class reader refuses, with what is wrong."""


class Reader:
    def __init__(self, data):
        self.data, self.at = data, 0

    def take(self, form):
        try:
            value = struct.unpack_from('>' + form, self.data, self.at)[0]
        except struct.error:
            raise Refused('the file ends inside an item [5]') from None
        self.at += struct.calcsize(form)
        return value

    def bytes(self, count):
        if self.at + count > len(self.data):
            raise Refused('the file ends inside an item [5]')
        self.at += count
        return self.data[self.at - count:self.at]


def has_float(descriptor):
    """Whether F or D stands as a kind in a descriptor: class names in it don't count."""
    at = 0
    while at < len(descriptor):
        if descriptor[at] in 'FD':
            return True
        at = descriptor.index(';', at) + 1 if descriptor[at] == 'L' else at + 1
    return False


class Member:
    def __init__(self, flags, name, descriptor):
        self.flags, self.name, self.descriptor = flags, name, descriptor
        self.annotations, self.uses, self.catches, self.code = [], [], [], None

    def is_static(self):
        return bool(self.flags & STATIC)


class Code:
    """The code of a method: its instructions, its frames as the file has them, and its lines."""

    def __init__(self, place, instructions, rows, most_locals):
        self.place, self.instructions, self.rows = place, instructions, rows
        self.most_locals, self.frames, self.starts, self.lines = most_locals, b'', [], []

    def set_lines(self, lines):
        """Takes pairs of a start and a line. Of two with one start the later one counts."""
        lines.sort(key=lambda pair: pair[0])
        self.starts, self.lines = [start for start, _ in lines], [line for _, line in lines]

    def placed(self, at):
        row = bisect.bisect_right(self.starts, at)
        line = self.lines[row - 1] if row else 0
        return f'{self.place} line {line}' if line else f'{self.place} byte {at}'


class Class:
    """What is asked of a class, be it a class file's or the library's."""

    def __init__(self, name, flags, above, interfaces):
        self.name, self.flags, self.above, self.interfaces = name, flags, above, interfaces
        self.fields, self.methods, self.annotations, self.faults = {}, {}, [], []

    def is_interface(self):
        return bool(self.flags & INTERFACE)


class ClassFile:
    def __init__(self, data):
        reader = self.reader = Reader(data)
        if reader.take('I') != 0xcafebabe:
            raise Refused('it does not begin as a class file [5]')
        reader.take('H')
        self.major = reader.take('H')
        self.texts, self.members = {}, {}
        self.read_pool()
        self.behind_pool = reader.at
        if self.major not in (51, 52):
            raise Refused(f'its major version is {self.major}, and not 51 or 52: compile with --release 8 [5]')
        flags, name, above = reader.take('H'), self.class_name(reader.take('H')), reader.take('H')
        interfaces = [self.class_name(reader.take('H')) for _ in range(reader.take('H'))]
        self.read = Class(name, flags, self.class_name(above) if above else None, interfaces)
        self.faults = self.read.faults
        self.read_members(self.read.fields, 'field ')
        self.read_members(self.read.methods, '')
        for what, content in self.attributes():
            if what in ('RuntimeVisibleAnnotations', 'RuntimeInvisibleAnnotations'):
                self.read.annotations += self.annotations(Reader(content))
        for kind, value in self.pool:
            if kind == 12 and has_float(self.text(value[1])):
                self.faults.append((name, f'names {self.text(value[0])} {self.text(value[1])}, which has a float or a double [5]'))
            elif kind == 7 and self.text(value).startswith('[') and has_float(self.text(value)):
                self.faults.append((name, f'names {self.text(value)}, an array of floats or doubles [5]'))

    def read_pool(self):
        reader = self.reader
        self.pool = [(0, None)]
        count = reader.take('H')
        while len(self.pool) < count:
            tag = reader.take('B')
            if tag == 1:
                self.pool.append((tag, reader.bytes(reader.take('H'))))
            elif tag in (3, 4):
                self.pool.append((tag, reader.take('i')))
            elif tag in (5, 6):
                self.pool += [(tag, reader.take('q')), (0, None)]
            elif tag in (7, 8, 16, 19, 20):
                self.pool.append((tag, reader.take('H')))
            elif tag in (9, 10, 11, 12, 17, 18):
                self.pool.append((tag, (reader.take('H'), reader.take('H'))))
            elif tag == 15:
                self.pool.append((tag, (reader.take('B'), reader.take('H'))))
            else:
                raise Refused(f'{tag} is no tag of an entry of the constant pool [5]')

    def text(self, index):
        found = self.texts.get(index)
        if found is None:
            kind, value = self.pool[index] if index < len(self.pool) else (0, None)
            if kind != 1:
                raise Refused('an index names no text [5]')
            found = value.replace(b'\xc0\x80', b'\0').decode('utf-8', 'surrogatepass')
            self.texts[index] = found
        return found

    def class_name(self, index):
        kind, value = self.pool[index] if index < len(self.pool) else (0, None)
        if kind != 7:
            raise Refused('an index names no class [5]')
        return self.text(value)

    def member(self, index):
        """The class, the name and the descriptor of a member of the pool, and whether it is named as an interface's."""
        found = self.members.get(index)
        if found is None:
            kind, value = self.pool[index]
            name, descriptor = self.pool[value[1]][1]
            found = self.class_name(value[0]), self.text(name), self.text(descriptor), kind == 11
            self.members[index] = found
        return found

    def attributes(self, reader=None):
        reader = reader or self.reader
        for _ in range(reader.take('H')):
            name = self.text(reader.take('H'))
            yield name, reader.bytes(reader.take('I'))

    def read_members(self, into, word):
        for _ in range(self.reader.take('H')):
            member = Member(self.reader.take('H'), self.text(self.reader.take('H')), self.text(self.reader.take('H')))
            place = f'{self.read.name}.{word}{member.name}{"" if word else member.descriptor}'
            if has_float(member.descriptor):
                self.faults.append((place, f'has the descriptor {member.descriptor}: a float or a double [5]'))
            into[member.name, member.descriptor] = member
            for what, content in self.attributes():
                if what in ('RuntimeVisibleAnnotations', 'RuntimeInvisibleAnnotations'):
                    member.annotations += self.annotations(Reader(content))
                elif what == 'Code' and not word:
                    self.read_code(Reader(content), member, place)

    def annotations(self, reader):
        return [self.annotation(reader) for _ in range(reader.take('H'))]

    def annotation(self, reader):
        kind, elements = self.text(reader.take('H')), []
        for _ in range(reader.take('H')):
            elements.append(self.text(reader.take('H')))
            self.element(reader)
        return kind, elements

    def element(self, reader):
        tag = chr(reader.take('B'))
        if tag == '[':
            for _ in range(reader.take('H')):
                self.element(reader)
        elif tag == '@':
            self.annotation(reader)
        else:
            reader.bytes(4 if tag == 'e' else 2)

    def read_code(self, reader, method, place):
        reader.take('H')
        most_locals = reader.take('H')
        instructions = reader.bytes(reader.take('I'))
        rows = [[reader.take('H') for _ in range(4)] for _ in range(reader.take('H'))]
        code = method.code = Code(place, instructions, rows, most_locals)
        lines = []
        for what, content in self.attributes(reader):
            if what == 'LineNumberTable':
                lines += struct.iter_unpack('>HH', content[2:])
            elif what == 'StackMapTable':
                code.frames = content
        code.set_lines(lines)
        self.read_instructions(instructions, method, code.placed)
        for start, _, _, index in rows:
            if index:
                method.catches.append((code.placed(start), self.class_name(index)))

    def read_instructions(self, code, method, placed):
        at = 0
        while at < len(code):
            op = code[at]
            if op in JUDGED:
                self.judge_instruction(code, at, op, method, placed)
            size = self.size_of(code, at) if op in VARYING else SIZES[op]
            if size < 1:
                raise Refused('an instruction has no length [5]')
            at += size

    def judge_instruction(self, code, at, op, method, placed):
        if op in FIELDS or op in CALLS:
            name, *key = self.member(code[at + 1] << 8 | code[at + 2])
            method.uses.append((placed(at), op, name, tuple(key)))
        elif op in CLASSES:
            name = self.class_name(code[at + 1] << 8 | code[at + 2])
            method.uses.append((placed(at), op, name, None))
        elif op in (LDC, LDC_W, LDC2_W):
            index = code[at + 1] if op == LDC else code[at + 1] << 8 | code[at + 2]
            kind = self.pool[index][0]
            if kind in (4, 6):
                self.faults.append((placed(at), 'has a float or a double constant [5]'))
            elif kind in (15, 16, 17):
                what = 'has a constant of a method or a dynamic constant [5]'
                self.faults.append((placed(at), what))
            elif kind == 7:
                method.uses.append((placed(at), op, self.class_name(index), None))
        elif (op in FLOAT_OPCODES or op == 0xbc and code[at + 1] in (6, 7)
              or op == 0xc4 and code[at + 1] in FLOAT_OPCODES):
            self.faults.append((placed(at), 'computes with a float or a double [5]'))
        elif op == INVOKEDYNAMIC:
            name = self.text(self.pool[self.pool[code[at + 1] << 8 | code[at + 2]][1][1]][1][0])
            how = (f'a lambda or a method reference, for {name}' if name != 'makeConcatWithConstants'
                   else 'strings are joined: compile with --release 8')
            self.faults.append((placed(at), f'has a dynamic call ({how}) [5]'))
        elif op in (0xa8, 0xa9, 0xc9) or op > 0xc9:
            self.faults.append((placed(at), f'has the opcode {op:#x}, which is not read [5]'))

    @staticmethod
    def size_of(code, at):
        op = code[at]
        if op == 0xc4:
            return 6 if code[at + 1] == 0x84 else 4
        if op in (0xaa, 0xab):
            start = at + 1 + -(at + 1) % 4
            first, second = struct.unpack_from('>ii', code, start + 4)
            return start - at + (12 + 4 * (second - first + 1) if op == 0xaa else 8 + 8 * first)
        return SIZES[op]
