"""A class file that can be changed and written again: pool entries keep their numbers, and what isn't touched keeps its bytes."""
import struct

from class_files import BEHIND, FLOAT_OPCODES, Reader, Refused, has_float

NOP, ACONST_NULL, ALOAD_0, ATHROW, RETURN, POP, DUP = 0x00, 0x01, 0x2a, 0xbf, 0xb1, 0x57, 0x59
LDC, LDC_W, LDC2_W = 0x12, 0x13, 0x14
GETSTATIC, PUTSTATIC, GETFIELD, PUTFIELD = 0xb2, 0xb3, 0xb4, 0xb5
INVOKEVIRTUAL, INVOKESPECIAL, INVOKESTATIC, INVOKEINTERFACE, INVOKEDYNAMIC = 0xb6, 0xb7, 0xb8, 0xb9, 0xba
NEW, NEWARRAY, ANEWARRAY, CHECKCAST, INSTANCEOF, WIDE, MULTIANEWARRAY = 0xbb, 0xbc, 0xbd, 0xc0, 0xc1, 0xc4, 0xc5
TABLESWITCH, LOOKUPSWITCH, GOTO_W = 0xaa, 0xab, 0xc8
SHORT_JUMPS = {*range(0x99, 0xa8), 0xc6, 0xc7}
SUBROUTINES = {0xa8, 0xa9, 0xc9}

UTF8, INTEGER, FLOAT, LONG, DOUBLE, CLASS, STRING = 1, 3, 4, 5, 6, 7, 8
FIELD_REF, METHOD_REF, INTERFACE_REF, NAME_AND_TYPE = 9, 10, 11, 12
METHOD_HANDLE, METHOD_TYPE, DYNAMIC, INVOKE_DYNAMIC = 15, 16, 17, 18
PACKED = {UTF8: None, INTEGER: '>Bi', FLOAT: '>Bi', LONG: '>Bq', DOUBLE: '>Bq', CLASS: '>BH', STRING: '>BH', METHOD_TYPE: '>BH'}

# How long an instruction is, 0 where that stands in its operands; and which ones name something.
LENGTHS = [0 if op in (TABLESWITCH, LOOKUPSWITCH, WIDE) else BEHIND[op] + 1 for op in range(256)]
NAMING = [op in (LDC, LDC_W, LDC2_W, NEW, NEWARRAY, ANEWARRAY, CHECKCAST, INSTANCEOF, WIDE, MULTIANEWARRAY) or GETSTATIC <= op <= INVOKEDYNAMIC
          or op in FLOAT_OPCODES or op in SUBROUTINES or op > 0xc9 for op in range(256)]


def bytes_of(text):
    return text.encode('utf-8', 'surrogatepass').replace(b'\0', b'\xc0\x80')


def text_of(data):
    return data.replace(b'\xc0\x80', b'\0').decode('utf-8', 'surrogatepass')


class TooLong(Exception):
    """A code that can't be written, with why."""


class Pool:
    """The constant pool. Entries are only added, and replaced by plain ones; texts are kept as bytes."""

    def __init__(self, entries):
        self.entries, self.texts, self.known = entries, {}, None

    def text(self, index):
        found = self.texts.get(index)
        if found is None:
            kind, value = self.entries[index] if 0 < index < len(self.entries) else (0, None)
            if kind != UTF8:
                raise Refused('an index names no text')
            found = self.texts[index] = text_of(value)
        return found

    def value(self, index, *kinds):
        kind, value = self.entries[index] if 0 < index < len(self.entries) else (0, None)
        if kind not in kinds:
            raise Refused('an index names no entry of its kind')
        return value

    def class_name(self, index):
        return self.text(self.value(index, CLASS))

    def pair(self, index):
        name, descriptor = self.value(index, NAME_AND_TYPE)
        return self.text(name), self.text(descriptor)

    def member(self, index):
        """Owner, name, descriptor and kind of a field or a method."""
        owner, pair = self.value(index, FIELD_REF, METHOD_REF, INTERFACE_REF)
        return (self.class_name(owner), *self.pair(pair), self.entries[index][0])

    def add(self, kind, value):
        if self.known is None:
            self.known = {}
            for index in range(len(self.entries) - 1, 0, -1):
                self.known[self.entries[index]] = index
        index = self.known.get((kind, value))
        if index is None:
            index = self.known[kind, value] = len(self.entries)
            self.entries.append((kind, value))
            if index > 65534:
                raise Refused('the constant pool is full')
        return index

    def add_number(self, kind, value):
        """An int, or a long, which takes two entries."""
        count = len(self.entries)
        index = self.add(kind, value)
        if kind == LONG and index == count:
            self.entries.append((0, None))
        return index

    def add_text(self, text):
        return self.add(UTF8, bytes_of(text))

    def add_class(self, name):
        return self.add(CLASS, self.add_text(name))

    def add_string(self, text):
        return self.add(STRING, self.add_text(text))

    def add_member(self, kind, owner, name, descriptor):
        return self.add(kind, (self.add_class(owner), self.add(NAME_AND_TYPE, (self.add_text(name), self.add_text(descriptor)))))

    def make_plain(self):
        """Puts the number 0 for entries outside of the profile: handles, dynamic calls, and what has a float in its descriptor."""
        bad, self.known = set(), None
        for index, (kind, value) in enumerate(self.entries):
            if kind in (METHOD_HANDLE, METHOD_TYPE, DYNAMIC, INVOKE_DYNAMIC):
                self.entries[index] = (INTEGER, 0)
            elif kind == NAME_AND_TYPE and has_float(self.text(value[1])):
                self.entries[index] = (INTEGER, 0)
                bad.add(index)
            elif kind == CLASS and self.text(value).startswith('[') and has_float(self.text(value)):
                self.entries[index] = (INTEGER, 0)
                bad.add(index)
        for index, (kind, value) in enumerate(self.entries):
            if kind in (FIELD_REF, METHOD_REF, INTERFACE_REF) and (value[0] in bad or value[1] in bad):
                self.entries[index] = (INTEGER, 0)

    def written(self):
        parts, wide = [struct.pack('>H', len(self.entries))], False
        for kind, value in self.entries[1:]:
            if wide:
                wide = False
            elif kind == UTF8:
                parts.append(struct.pack('>BH', 1, len(value)) + value)
            elif kind == METHOD_HANDLE:
                parts.append(struct.pack('>BBH', kind, *value))
            elif kind in PACKED:
                parts.append(struct.pack(PACKED[kind], kind, value))
                wide = kind in (LONG, DOUBLE)
            else:
                parts.append(struct.pack('>BHH', kind, *value))
        return b''.join(parts)


def read_pool(reader):
    entries, count = [(0, None)], reader.take('H')
    while len(entries) < count:
        tag = reader.take('B')
        if tag == UTF8:
            entries.append((tag, reader.bytes(reader.take('H'))))
        elif tag in (INTEGER, FLOAT):
            entries.append((tag, reader.take('i')))
        elif tag in (LONG, DOUBLE):
            entries += [(tag, reader.take('q')), (0, None)]
        elif tag in (CLASS, STRING, METHOD_TYPE, 19, 20):
            entries.append((tag, reader.take('H')))
        elif tag in (FIELD_REF, METHOD_REF, INTERFACE_REF, NAME_AND_TYPE, DYNAMIC, INVOKE_DYNAMIC):
            entries.append((tag, (reader.take('H'), reader.take('H'))))
        elif tag == METHOD_HANDLE:
            entries.append((tag, (reader.take('B'), reader.take('H'))))
        else:
            raise Refused(f'{tag} is no tag of an entry of the constant pool')
    return Pool(entries)


class Member:
    """A field or a method. Its code is read when it is asked for."""

    def __init__(self, flags, name, descriptor, attributes):
        self.flags, self.name, self.descriptor, self.attributes = flags, name, descriptor, attributes
        self.code = None

    @property
    def key(self):
        return self.name, self.descriptor


class Code:
    def __init__(self, content, pool):
        reader = Reader(content)
        self.stack, self.locals = reader.take('H'), reader.take('H')
        self.code = bytearray(reader.bytes(reader.take('I')))
        self.handlers = [tuple(reader.take('H') for _ in range(4)) for _ in range(reader.take('H'))]
        self.attributes = read_attributes(reader, pool)
        if reader.at != len(content):
            raise Refused('bytes follow a code')

    def attribute(self, name):
        return next((content for what, content in self.attributes if what == name), None)

    def naming(self):
        """The places and opcodes of the instructions that name something, or that no class file of the profile has."""
        code, at, end, found = self.code, 0, len(self.code), []
        try:
            while at < end:
                op = code[at]
                if NAMING[op]:
                    found.append((at, op))
                at += LENGTHS[op] or length_of(code, at)
        except (IndexError, struct.error):
            raise Refused('an instruction has no end') from None
        if at != end:
            raise Refused('an instruction passes the end of its code')
        return found

    def operand(self, at):
        return self.code[at + 1] << 8 | self.code[at + 2]

    def put_operand(self, at, index):
        self.code[at + 1:at + 3] = struct.pack('>H', index)

    def written(self, pool):
        return b''.join((struct.pack('>HHI', self.stack, self.locals, len(self.code)), self.code, struct.pack('>H', len(self.handlers)),
                         *(struct.pack('>4H', *row) for row in self.handlers), written_attributes(self.attributes, pool)))

    def replace(self, with_bytes, nulls=frozenset()):
        """Puts other instructions in the place of those at the given places, one for one; `nulls` are places of a `new` that becomes `null`."""
        places = self.places_with(with_bytes)
        parts, at, end = [], 0, len(self.code)
        while at < end:
            size = length_of(self.code, at)
            parts.append(with_bytes[at] if at in with_bytes else self.moved(at, size, places))
            at += size
        self.code = bytearray(b''.join(parts))
        if len(self.code) > 65535:
            raise TooLong('is too long')
        self.handlers = [(places[start], places[stop], places[handler], kind) for start, stop, handler, kind in self.handlers]
        self.attributes = [(name, moved_table(name, content, places, nulls)) for name, content in self.attributes
                           if name in ('LineNumberTable', 'StackMapTable')]

    def places_with(self, with_bytes):
        places, at, new = {}, 0, 0
        while at < len(self.code):
            places[at] = new
            size = length_of(self.code, at)
            if at in with_bytes:
                new += len(with_bytes[at])
            elif self.code[at] in (TABLESWITCH, LOOKUPSWITCH):
                new += size - -(at + 1) % 4 + -(new + 1) % 4
            else:
                new += size
            at += size
        places[at] = new
        return places

    def moved(self, at, size, places):
        code, op, here = self.code, self.code[at], places[at]
        if op in SHORT_JUMPS:
            to = places[at + struct.unpack_from('>h', code, at + 1)[0]] - here
            if not -32768 <= to < 32768:
                raise TooLong('has a jump that is too far')
            return struct.pack('>Bh', op, to)
        if op == GOTO_W:
            return struct.pack('>Bi', op, places[at + struct.unpack_from('>i', code, at + 1)[0]] - here)
        if op not in (TABLESWITCH, LOOKUPSWITCH):
            return bytes(code[at:at + size])
        start = at + 1 + -(at + 1) % 4
        numbers = list(struct.unpack_from(f'>{(at + size - start) // 4}i', code, start))
        jumps = [0, *range(3, len(numbers))] if op == TABLESWITCH else [0, *range(3, len(numbers), 2)]
        for jump in jumps:
            numbers[jump] = places[at + numbers[jump]] - here
        return struct.pack('>B', op) + b'\0' * (-(here + 1) % 4) + struct.pack(f'>{len(numbers)}i', *numbers)


def length_of(code, at):
    op = code[at]
    if op == WIDE:
        return 6 if code[at + 1] == 0x84 else 4
    if op in (TABLESWITCH, LOOKUPSWITCH):
        start = at + 1 + -(at + 1) % 4
        first, second = struct.unpack_from('>ii', code, start + 4)
        count = second - first + 1 if op == TABLESWITCH else first
        if count < 0:
            raise Refused('a switch has no length')
        return start - at + (12 + 4 * count if op == TABLESWITCH else 8 + 8 * count)
    return LENGTHS[op]


def moved_table(name, content, places, nulls):
    reader = Reader(content)
    count = reader.take('H')
    if name == 'LineNumberTable':
        rows = [(places[reader.take('H')], reader.take('H')) for _ in range(count)]
        return struct.pack('>H', count) + b''.join(struct.pack('>HH', *row) for row in rows)
    parts, old, new = [struct.pack('>H', count)], -1, -1
    for _ in range(count):
        tag = reader.take('B')
        delta = tag if tag < 64 else tag - 64 if tag < 128 else reader.take('H')
        old += delta + 1
        if tag < 64:
            kind, body = 251, b''
        elif tag < 128 or tag == 247:
            kind, body = 247, moved_types(reader, 1, places, nulls)
        elif 248 <= tag <= 251:
            kind, body = tag, b''
        elif 252 <= tag <= 254:
            kind, body = tag, moved_types(reader, tag - 251, places, nulls)
        elif tag == 255:
            many = reader.take('H')
            body = struct.pack('>H', many) + moved_types(reader, many, places, nulls)
            many = reader.take('H')
            kind, body = tag, body + struct.pack('>H', many) + moved_types(reader, many, places, nulls)
        else:
            raise Refused(f'{tag} is no tag of a frame')
        delta, new = places[old] - new - 1, places[old]
        if kind == 251 and tag < 64 and delta < 64:
            parts.append(struct.pack('>B', delta))
        elif kind == 247 and tag != 247 and delta < 64:
            parts.append(struct.pack('>B', 64 + delta) + body)
        else:
            parts.append(struct.pack('>BH', kind, delta) + body)
    return b''.join(parts)


def moved_types(reader, count, places, nulls):
    parts = []
    for _ in range(count):
        tag = reader.take('B')
        if tag == 7:
            parts.append(struct.pack('>BH', tag, reader.take('H')))
        elif tag == 8:
            at = reader.take('H')
            parts.append(b'\5' if at in nulls else struct.pack('>BH', tag, places[at]))
        else:
            parts.append(struct.pack('>B', tag))
    return b''.join(parts)


def frame_classes(content):
    """The indices of the classes that stack map frames name."""
    reader, found = Reader(content), []
    for _ in range(reader.take('H')):
        tag = reader.take('B')
        if tag >= 128:
            reader.take('H')
        if 64 <= tag < 128 or tag == 247:
            counts = [1]
        elif 252 <= tag <= 254:
            counts = [tag - 251]
        else:
            counts = [None, None] if tag == 255 else []
        for count in counts:
            for _ in range(reader.take('H') if count is None else count):
                kind = reader.take('B')
                if kind in (7, 8):
                    value = reader.take('H')
                    if kind == 7:
                        found.append(value)
    return found


def read_attributes(reader, pool):
    found = []
    for _ in range(reader.take('H')):
        name = pool.text(reader.take('H'))
        found.append((name, reader.bytes(reader.take('I'))))
    return found


def written_attributes(attributes, pool):
    return struct.pack('>H', len(attributes)) + b''.join(
        struct.pack('>HI', pool.add_text(name), len(content)) + content for name, content in attributes)


class ClassEdit:
    def __init__(self, data):
        self.reader = Reader(data)
        try:
            self.read(data)
        except (Refused, UnicodeDecodeError, IndexError) as fault:
            what = fault if isinstance(fault, Refused) else 'a text or an index is wrong'
            raise Refused(f'{str(what).removesuffix(" [5]")}, before byte {self.reader.at}') from None

    def read(self, data):
        reader = self.reader
        if reader.take('I') != 0xcafebabe:
            raise Refused('it does not begin as a class file')
        reader.take('H')
        self.major = reader.take('H')
        self.pool = pool = read_pool(reader)
        self.flags, self.name, above = reader.take('H'), pool.class_name(reader.take('H')), reader.take('H')
        self.above = pool.class_name(above) if above else None
        self.interfaces = [pool.class_name(reader.take('H')) for _ in range(reader.take('H'))]
        self.fields = self.read_members()
        self.methods = self.read_members()
        for method in self.methods:
            for name, content in method.attributes:
                if name == 'Code':
                    method.code = self.code_of(method, content)
        self.attributes = read_attributes(reader, pool)
        if reader.at != len(data):
            raise Refused('bytes follow the class')

    def code_of(self, method, content):
        try:
            return Code(content, self.pool)
        except Refused as fault:
            raise Refused(f'{str(fault).removesuffix(" [5]")} in the code of {method.name}{method.descriptor}') from None

    def read_members(self):
        reader, pool = self.reader, self.pool
        return [Member(reader.take('H'), pool.text(reader.take('H')), pool.text(reader.take('H')), read_attributes(reader, pool))
                for _ in range(reader.take('H'))]

    def written(self):
        pool = self.pool
        head = struct.pack('>HHH', self.flags, pool.add_class(self.name), pool.add_class(self.above) if self.above else 0)
        head += struct.pack('>H', len(self.interfaces)) + b''.join(struct.pack('>H', pool.add_class(name)) for name in self.interfaces)
        body = [head, self.written_members(self.fields), self.written_members(self.methods), written_attributes(self.attributes, pool)]
        return struct.pack('>IHH', 0xcafebabe, 0, self.major) + pool.written() + b''.join(body)

    def written_members(self, members):
        pool, parts = self.pool, [struct.pack('>H', len(members))]
        for member in members:
            attributes = [(name, member.code.written(pool) if name == 'Code' else content) for name, content in member.attributes]
            parts.append(struct.pack('>HHH', member.flags, pool.add_text(member.name), pool.add_text(member.descriptor)))
            parts.append(written_attributes(attributes, pool))
        return b''.join(parts)
