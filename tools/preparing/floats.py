"""Floats by integers: a float is an int and a double is a long, by their bits, and each instruction that computes with them calls a static method.

What stands in the place of what:
- F is I and D is J, in constants, locals, fields, arrays and frames. A method with one of them in its descriptor gets a name that tells what stood
  there (`max(DD)D` is `max$DDD(JJ)J`), so that overloads and overriding stay what they were. A constructor that only floats tell apart from another
  one of its class takes a null besides.
- `more/floats/Soft` has a method for each instruction, under its name.
- Number is the interface `more/java/lang/Number`; an array of Numbers is one of objects.
- `more/floats/Arrays` makes arrays of floats and of Numbers and knows them again, so that none is taken for one of integers or objects;
  `more/floats/Kinds` has their classes. What stores in an array by the name of one of objects asks there, too, in a program that has such arrays.
- A class of the companion library by a name of Java's that has floats in a descriptor gets a name of its own, below `more/floats`: a JVM's own class
  of the name has the floats themselves.
"""
import re
import struct

from class_files import Reader, has_float
from preparing import class_edit as ce
from preparing.builder import new_class
from preparing.companion import FLOATS, MORE
from preparing.jdk import is_java

SOFT, ARRAYS = FLOATS + 'Soft', FLOATS + 'Arrays'
NUMBER, OBJECT = 'java/lang/Number', 'java/lang/Object'
MARK = f'L{ARRAYS};'
NUMBERS = f'[L{NUMBER};'
# What an array of arrays of floats, or of Numbers, can be named as.
GENERAL = {OBJECT, 'java/lang/Cloneable', 'java/io/Serializable'}
WORDS = {'I': 'Ints', 'J': 'Longs', 'F': 'Floats', 'D': 'Doubles'}
MOST_DIMENSIONS = 3
# What goes between a float and its bits, which here are the same.
BITS = {('java/lang/Double', 'doubleToRawLongBits'), ('java/lang/Double', 'longBitsToDouble'), ('java/lang/Float', 'floatToRawIntBits'),
        ('java/lang/Float', 'intBitsToFloat')}

CALLED = {op + at: prefix + name for op, name in ((0x62, 'add'), (0x66, 'sub'), (0x6a, 'mul'), (0x6e, 'div'), (0x72, 'rem'), (0x76, 'neg'))
          for at, prefix in enumerate('fd')}
CALLED.update({0x86: 'i2f', 0x87: 'i2d', 0x89: 'l2f', 0x8a: 'l2d', 0x8b: 'f2i', 0x8c: 'f2l', 0x8d: 'f2d', 0x8e: 'd2i', 0x8f: 'd2l', 0x90: 'd2f',
               0x95: 'fcmpl', 0x96: 'fcmpg', 0x97: 'dcmpl', 0x98: 'dcmpg'})
# Instructions that only move: the one for integers.
MOVES = {0x0b: 0x03, 0x0e: 0x09, 0x17: 0x15, 0x18: 0x16, 0x30: 0x2e, 0x31: 0x2f, 0x38: 0x36, 0x39: 0x37, 0x51: 0x4f, 0x52: 0x50, 0xae: 0xac, 0xaf: 0xad,
         **{0x22 + at: 0x1a + at for at in range(8)}, **{0x43 + at: 0x3b + at for at in range(8)}}
CONSTANTS = {0x0c: (ce.INTEGER, 0x3f800000), 0x0d: (ce.INTEGER, 0x40000000), 0x0f: (ce.LONG, 0x3ff << 52)}
FRAME_TYPES = {2: 1, 3: 4}
# A name that a method with floats may get.
MADE_NAME = re.compile(r'.\$[AIJFDNO]*[FDN][AIJFDNO]*$')


class Clash(Exception):
    """A class whose members can't be told apart once floats are integers."""


def soft_descriptor(name):
    """The descriptor of the method for an instruction."""
    kinds = {'i': 'I', 'l': 'J', 'f': 'I', 'd': 'J'}
    if name[1] == '2':
        return f'({kinds[name[0]]}){kinds[name[2]]}'
    kind = kinds[name[0]]
    if name[1:4] == 'cmp':
        return f'({kind}{kind})I'
    return f'({kind}){kind}' if name[1:] == 'neg' else f'({kind}{kind}){kind}'


def parts_of(descriptor):
    """The types in a descriptor, of a field or of a method, with the signs between them."""
    found, at = [], 0
    while at < len(descriptor):
        start = at
        while descriptor[at] == '[':
            at += 1
        at = descriptor.index(';', at) + 1 if descriptor[at] == 'L' else at + 1
        found.append(descriptor[start:at])
    return found


class Floats:
    def __init__(self, program, companion):
        self.program, self.companion = program, companion
        self.names, self.descriptors, self.suffixes, self.marks = {}, {}, {}, {}
        # Whether the program has arrays of arrays of floats, or of Numbers, which go by the name of arrays of objects, too.
        self.are_arrays_subtle = False

    # Names and descriptors.

    def name_of(self, name):
        """The name that a class gets."""
        if name.startswith('['):
            return self.type_of(name)
        if name == NUMBER:
            return MORE + NUMBER
        found = self.names.get(name)
        if found is None:
            of = name.partition('$')[0]
            found = self.names[name] = FLOATS + name if of in self.companion.with_floats or self.is_below(of) else name
        return found

    def is_below(self, name):
        """Whether a class of Java's that isn't in a library here stands below one that gets another name."""
        program = self.program
        return is_java(name) and name not in program.library and name not in self.companion.files and any(
            above in self.companion.with_floats for above in program.jdk.above(name))

    def type_of(self, kind):
        inner = kind.lstrip('[')
        if inner in ('F', 'D'):
            inner = 'I' if inner == 'F' else 'J'
        elif inner.startswith('L'):
            name = inner[1:-1]
            inner = f'L{OBJECT if name == NUMBER and inner != kind else self.name_of(name)};'
        return '[' * kind.count('[') + inner

    def descriptor_of(self, descriptor):
        found = self.descriptors.get(descriptor)
        if found is None:
            found = self.descriptors[descriptor] = ''.join(map(self.type_of, parts_of(descriptor)))
        return found

    def method_of(self, name, descriptor):
        """The name and the descriptor that a method gets."""
        mapped = self.descriptor_of(descriptor)
        if mapped == descriptor or name.startswith('<'):
            return name, mapped
        suffix = self.suffixes.get(descriptor)
        if suffix is None:
            suffix = self.suffixes[descriptor] = self.suffix_of(descriptor)
        return name + suffix, mapped

    @staticmethod
    def suffix_of(descriptor):
        """What tells a descriptor from all others that come to be the same."""
        kinds = parts_of(descriptor)
        inner = [kind.lstrip('[') for kind in kinds]
        if not any(kind in ('F', 'D') or kind == f'L{NUMBER};' != whole for kind, whole in zip(inner, kinds)):
            return ''
        letters = {'I': 'I', 'J': 'J', 'F': 'F', 'D': 'D'}
        of_arrays = {f'L{NUMBER};': 'N', f'L{OBJECT};': 'O'}
        parts = []
        for kind, whole in zip(inner, kinds):
            letter = letters.get(kind) or (of_arrays.get(kind) if kind != whole else None)
            parts.append('A' * (len(whole) - len(kind)) + letter if letter else '')
        return '$' + ''.join(parts)

    def marks_of(self, owner, descriptor):
        """How many nulls a constructor takes besides, since others of its class come to have its descriptor."""
        found = self.marks.get(owner)
        if found is None:
            info, alike = self.program.class_of(owner), {}
            for name, stated in info.methods if info is not None else ():
                if name == '<init>':
                    alike.setdefault(self.descriptor_of(stated), []).append(stated)
            found = self.marks[owner] = {stated: at for same in alike.values() for at, stated in enumerate(sorted(same, key=lambda one: (
                has_float(one) or f'[L{NUMBER};' in one, one)))}
        return found.get(descriptor, 0)

    def learn_arrays(self, edits):
        """Learns from the classes in constant pools whether a program has subtle arrays."""
        self.are_arrays_subtle = any(kind == ce.CLASS and (edit.pool.text(value) == NUMBER or NUMBERS in edit.pool.text(value)
                                                           or edit.pool.text(value).lstrip('[') in ('F', 'D'))
                                     for edit in edits for kind, value in edit.pool.entries)

    def is_cut(self, cuts, method):
        """Why a method is cut out, by its own name or by the one it gets."""
        return cuts.get(method.key) or cuts.get(self.method_of(*method.key))

    # Instructions.

    def lower(self, code, pool, at, op, with_bytes):
        """Puts an instruction that computes with floats in other words; one that moves them is another of the same length."""
        if op in MOVES:
            code.code[at] = MOVES[op]
        elif op in CONSTANTS:
            kind, value = CONSTANTS[op]
            with_bytes[at] = struct.pack('>BH', ce.LDC_W if kind == ce.INTEGER else ce.LDC2_W, pool.add_number(kind, value))
        else:
            with_bytes[at] = self.call(pool, SOFT, CALLED[op], soft_descriptor(CALLED[op]))

    @staticmethod
    def call(pool, owner, name, descriptor):
        return struct.pack('>BH', ce.INVOKESTATIC, pool.add_member(ce.METHOD_REF, owner, name, descriptor))

    def lower_wide(self, code, at):
        code.code[at + 1] = MOVES.get(code.code[at + 1], code.code[at + 1])

    def lower_new_array(self, code, pool, at, with_bytes):
        """`newarray` of floats."""
        kind = {6: 'F', 7: 'D'}.get(code.code[at + 1])
        if kind:
            with_bytes[at] = self.call(pool, ARRAYS, 'new' + WORDS[kind], '(I)' + self.type_of('[' + kind))

    def lower_array(self, code, pool, at, op, name, with_bytes):
        """An instruction that names an array of ints, longs, floats or doubles: gives whether it was put in other words; None where that can't be."""
        inner, depth = name.lstrip('['), name.count('[')
        if op == ce.ANEWARRAY:
            depth += 1
        if depth and inner in (NUMBER, f'L{NUMBER};'):
            return self.lower_numbers(pool, at, op, depth, with_bytes)
        if inner not in WORDS or not depth or op in (ce.ANEWARRAY, ce.MULTIANEWARRAY) and inner in 'IJ':
            return False
        if depth > MOST_DIMENSIONS:
            return None
        word = WORDS[inner] + ('' if depth == 1 else str(depth))
        made = '[' * depth + self.type_of(inner)
        if op == ce.ANEWARRAY:
            with_bytes[at] = self.call(pool, ARRAYS, 'new' + word, '(I)' + made)
        elif op == ce.MULTIANEWARRAY:
            given = code.code[at + 3]
            with_bytes[at] = self.call(pool, ARRAYS, 'new' + word, f'({"I" * given}){made}')
        elif op == ce.CHECKCAST:
            with_bytes[at] = self.call(pool, ARRAYS, 'to' + word, f'(L{OBJECT};){made}')
        else:
            with_bytes[at] = self.call(pool, ARRAYS, 'is' + word, f'(L{OBJECT};)Z')
        return True

    def lower_numbers(self, pool, at, op, depth, with_bytes):
        """An instruction that names an array of Numbers: gives whether it was put in other words; None where that can't be."""
        if depth > 1 or op == ce.MULTIANEWARRAY:
            return None
        name, descriptor = {ce.ANEWARRAY: ('newNumbers', f'(I)[L{OBJECT};'), ce.CHECKCAST: ('toNumbers', f'(L{OBJECT};)[L{OBJECT};'),
                            ce.INSTANCEOF: ('isNumbers', f'(L{OBJECT};)Z')}[op]
        with_bytes[at] = self.call(pool, ARRAYS, name, descriptor)
        return True

    def lower_store(self, pool, at, with_bytes):
        """`aastore` in an array that may be one of arrays of floats, or of Numbers. A call without a result would have a mutant."""
        with_bytes[at] = self.call(pool, ARRAYS, 'stored', f'([L{OBJECT};IL{OBJECT};)Z') + bytes([ce.POP])

    @staticmethod
    def kind_of(pool, index):
        """The class that stands for the one of an array of floats or Numbers that is a constant; else None."""
        tag, value = pool.entries[index]
        name = pool.text(value) if tag == ce.CLASS else ''
        if name == NUMBERS:
            return f'{FLOATS}Kinds$Numbers'
        depth, inner = name.count('['), name.lstrip('[')
        if inner not in ('F', 'D') or not 0 < depth <= MOST_DIMENSIONS:
            return None
        return f'{FLOATS}Kinds${WORDS[inner]}' + ('' if depth == 1 else str(depth))

    def clone(self, pool, code, at, owner):
        """A copy of an array of floats or Numbers is one, too."""
        inner = owner.lstrip('[')
        if has_float(owner) or inner[0] == 'L' and inner[1:-1] in (NUMBER, *GENERAL):
            code.code[at:at + 3] = self.call(pool, ARRAYS, 'clone' if has_float(owner) else 'cloneAny', f'(L{OBJECT};)L{OBJECT};')

    # A whole class file, at the end.

    def rename(self, edit):
        """Gives all that a class file has and names the names and the types of integers."""
        pool = edit.pool
        self.judge_names(edit)
        self.rename_constructors(edit)
        for index in range(len(pool.entries)):
            kind, value = pool.entries[index]
            if kind == ce.NAME_AND_TYPE:
                name, descriptor = pool.pair(index)
                new = self.method_of(name, descriptor) if descriptor.startswith('(') else (name, self.descriptor_of(descriptor))
                if new != (name, descriptor):
                    pool.entries[index] = (kind, (pool.add_text(new[0]), pool.add_text(new[1])))
            elif kind == ce.CLASS:
                name = pool.text(value)
                if self.name_of(name) != name:
                    pool.entries[index] = (kind, pool.add_text(self.name_of(name)))
            elif kind in (ce.FLOAT, ce.DOUBLE):
                pool.entries[index] = (ce.INTEGER if kind == ce.FLOAT else ce.LONG, value)
        pool.known = None
        edit.name = self.name_of(edit.name)
        edit.above = OBJECT if edit.above == NUMBER else edit.above and self.name_of(edit.above)
        edit.interfaces = [self.name_of(name) for name in edit.interfaces]
        for field in edit.fields:
            field.descriptor = self.descriptor_of(field.descriptor)
        for method in edit.methods:
            method.name, method.descriptor = self.method_of(*method.key)
            if method.code is not None:
                self.rename_frames(method.code)
        if len({field.key for field in edit.fields}) < len(edit.fields):
            raise Clash('has two fields of one name that only floats tell apart')

    @staticmethod
    def judge_names(edit):
        """No method may have a name that one with floats, here or above or below, could come to have."""
        for method in edit.methods:
            if MADE_NAME.search(method.name):
                raise Clash(f'has a method {method.name}, whose name is one that methods with floats get')

    def stub(self, head):
        """A class without members, below what stands above one of Java."""
        above = head.above if head.above == NUMBER else head.above and self.name_of(head.above)
        return new_class(self.name_of(head.name), head.flags, above, [self.name_of(name) for name in head.interfaces])

    def rename_constructors(self, edit):
        """A constructor with a mark takes it as its last argument; the frames of its code know it, too."""
        for method in edit.methods:
            marks = self.marks_of(edit.name, method.descriptor) if method.name == '<init>' else 0
            if marks:
                if method.code is not None:
                    self.add_marks(method.code, edit.pool, parts_of(method.descriptor)[1:-2], marks)
                method.descriptor = self.marked(method.descriptor, marks)

    @staticmethod
    def add_marks(code, pool, kinds, marks):
        """Makes room for the marks behind the arguments, and a whole frame of the first one, since it begins without them."""
        code.locals = max(code.locals, 1 + sum(2 if kind in 'JD' else 1 for kind in kinds) + marks)
        content = code.attribute('StackMapTable')
        if content is None or content[:2] == b'\0\0':
            return
        types = [b'\6'] + [struct.pack('>BH', 7, pool.add_class(kind if kind[0] == '[' else kind[1:-1])) if kind[0] in 'L[' else
                           bytes([{'F': 2, 'D': 3, 'J': 4}.get(kind, 1)]) for kind in kinds]
        reader, stack = Reader(content[2:]), []
        tag = reader.take('B')
        if tag == 255:
            return
        delta = tag % 64 if tag < 128 else reader.take('H')

        def item():
            kind = reader.bytes(1)
            return kind + reader.bytes(2) if kind in b'\7\10' else kind
        if 64 <= tag < 128 or tag == 247:
            stack = [item()]
        elif 248 <= tag <= 250:
            types = types[:tag - 251]
        elif tag > 251:
            types = types + [item() for _ in range(tag - 251)]
        whole = struct.pack('>BHH', 255, delta, len(types)) + b''.join(types) + struct.pack('>H', len(stack)) + b''.join(stack)
        code.attributes = [(name, content[:2] + whole + content[2 + reader.at:] if name == 'StackMapTable' else row) for name, row in code.attributes]

    @staticmethod
    def marked(descriptor, marks):
        before, _, after = descriptor.rpartition(')')
        return f'{before}{MARK * marks}){after}'

    @staticmethod
    def rename_frames(code):
        """The types of floats in a method's frames are those of integers."""
        content = code.attribute('StackMapTable')
        if content is None:
            return
        changed, reader = bytearray(content), Reader(content)
        for _ in range(reader.take('H')):
            tag = reader.take('B')
            if tag >= 128:
                reader.take('H')
            counts = [1] if 64 <= tag < 128 or tag == 247 else [tag - 251] if 252 <= tag <= 254 else [None, None] if tag == 255 else []
            for count in counts:
                for _ in range(reader.take('H') if count is None else count):
                    kind = reader.take('B')
                    changed[reader.at - 1] = FRAME_TYPES.get(kind, kind)
                    if kind in (7, 8):
                        reader.take('H')
        code.attributes = [(name, bytes(changed) if name == 'StackMapTable' else row) for name, row in code.attributes]
