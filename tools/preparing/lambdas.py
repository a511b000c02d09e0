"""Lambdas and method references: each site calls a static method that makes an object of a small class, as the JVM's own factory would."""
import struct

from class_files import INTERFACE, PRIVATE, STATIC, Reader, Refused
from preparing import class_edit as ce
from preparing.builder import add_method, new_class

PUBLIC, FINAL, SYNTHETIC, BRIDGE = 0x1, 0x10, 0x1000, 0x40
FACTORY = 'java/lang/invoke/LambdaMetafactory'
OF_VIRTUAL, OF_STATIC, OF_SPECIAL, OF_NEW, OF_INTERFACE = 5, 6, 7, 8, 9
MARKERS, BRIDGES = 2, 4
BOXES = {'Z': ('java/lang/Boolean', 'booleanValue'), 'C': ('java/lang/Character', 'charValue'), 'B': ('java/lang/Byte', 'byteValue'),
         'S': ('java/lang/Short', 'shortValue'), 'I': ('java/lang/Integer', 'intValue'), 'J': ('java/lang/Long', 'longValue'),
         'F': ('java/lang/Float', 'floatValue'), 'D': ('java/lang/Double', 'doubleValue')}
UNBOXED = {f'L{box};': kind for kind, (box, _) in BOXES.items()}
OBJECT = 'Ljava/lang/Object;'
ALOAD, ARETURN, VOID_RETURN, POP, POP2 = 0x19, 0xb0, 0xb1, 0x57, 0x58
LOADS = {**dict.fromkeys('ZBCSI', 0x15), 'J': 0x16, 'F': 0x17, 'D': 0x18}
RETURNS = {**dict.fromkeys('ZBCSI', 0xac), 'J': 0xad, 'F': 0xae, 'D': 0xaf}
WIDENINGS = {'IJ': 0x85, 'IF': 0x86, 'ID': 0x87, 'JF': 0x89, 'JD': 0x8a, 'FD': 0x8d}


class NoLambda(Exception):
    """A dynamic call that isn't lowered, with what it is."""


def types_of(descriptor):
    """The types of the arguments, and of the result."""
    found, at = [], 1
    while descriptor[at] != ')':
        start = at
        while descriptor[at] == '[':
            at += 1
        at = descriptor.index(';', at) + 1 if descriptor[at] == 'L' else at + 1
        found.append(descriptor[start:at])
    return found, descriptor[at + 1:]


def slots_of(descriptor):
    return sum(2 if kind in 'JD' else 1 for kind in types_of(descriptor)[0])


def is_reference(kind):
    return kind[0] in 'L['


def class_of(kind):
    return kind[1:-1] if kind[0] == 'L' else kind


def load(kind, slot):
    return struct.pack('>BBH', ce.WIDE, LOADS.get(kind, ALOAD), slot)


def result_of(kind):
    return VOID_RETURN if kind == 'V' else RETURNS.get(kind, ARETURN)


def width(kind):
    return 2 if kind in 'JD' else 1


def widened(kind, want):
    """The instruction that makes a number of another kind of one, where they differ."""
    from_, to = (one if one in 'JFD' else 'I' for one in (kind, want))
    return b'' if from_ == to else bytes([WIDENINGS[from_ + to]])


class Lambdas:
    """The lambdas of one class file, and the classes that stand for them."""

    def __init__(self, edit):
        self.edit, self.made, self.accessors, self.rows = edit, [], 0, None

    def mark(self):
        return len(self.made)

    def reset(self, mark):
        del self.made[mark:]

    def bootstraps(self):
        if self.rows is None:
            self.rows = []
            for name, content in self.edit.attributes:
                if name == 'BootstrapMethods':
                    reader = Reader(content)
                    self.rows += [(reader.take('H'), [reader.take('H') for _ in range(reader.take('H'))]) for _ in range(reader.take('H'))]
        return self.rows

    def factory(self, index):
        """The entry of the pool that names the static method which makes the object of a site."""
        pool = self.edit.pool
        number, pair = pool.value(index, ce.INVOKE_DYNAMIC)
        if number >= len(self.bootstraps()):
            raise Refused('a dynamic call has no bootstrap method')
        handle, arguments = self.bootstraps()[number]
        owner, how = pool.member(pool.value(handle, ce.METHOD_HANDLE)[1])[:2]
        name, taken = pool.pair(pair)
        if owner != FACTORY:
            what = 'strings are joined: compile with --release 8' if how == 'makeConcatWithConstants' else how
            raise NoLambda(f'has a dynamic call ({what})')
        stated, real = (pool.text(pool.value(arguments[at], ce.METHOD_TYPE)) for at in (0, 2))
        kind, member = pool.value(arguments[1], ce.METHOD_HANDLE)
        target = pool.member(member)
        captures, made = types_of(taken)
        interfaces, bridges = self.extras(how, arguments)
        kind, target = self.reachable(kind, target)
        name_of = f'{self.edit.name}$$Lambda${len(self.made)}'
        beside = new_class(name_of, SYNTHETIC | FINAL | 0x20, 'java/lang/Object', [class_of(made), *interfaces])
        self.add_factory(beside, captures, made)
        for descriptor in dict.fromkeys((stated, *bridges)):
            self.add_call(beside, name, descriptor, real, captures, kind, target)
        self.made.append(beside)
        return pool.add_member(ce.METHOD_REF, name_of, 'make', taken)

    def extras(self, how, arguments):
        """What altMetafactory is told besides: marker interfaces and descriptors of bridges."""
        if how != 'altMetafactory':
            return [], []
        pool, flags, at = self.edit.pool, self.edit.pool.value(arguments[3], ce.INTEGER), 4
        found = {MARKERS: [], BRIDGES: []}
        for flag, read in ((MARKERS, pool.class_name), (BRIDGES, lambda index: pool.text(pool.value(index, ce.METHOD_TYPE)))):
            if flags & flag:
                count = pool.value(arguments[at], ce.INTEGER)
                found[flag] = [read(index) for index in arguments[at + 1:at + 1 + count]]
                at += 1 + count
        return found[MARKERS], found[BRIDGES]

    def reachable(self, kind, target):
        """The method that is called, reachable from a class of the same package: a private one by a static method beside it."""
        owner, name, descriptor, tag = target
        own = next((method for method in self.edit.methods if owner == self.edit.name and method.key == (name, descriptor)), None)
        if own is None or not own.flags & PRIVATE:
            return kind, target
        is_interface = bool(self.edit.flags & INTERFACE)
        if own.flags & STATIC:
            own.flags = own.flags & ~PRIVATE | (PUBLIC if is_interface else 0)
            return kind, target
        types, result = types_of(descriptor)
        code, slot = b'', 0
        if kind == OF_NEW:
            code, result = struct.pack('>BHB', ce.NEW, self.edit.pool.add_class(owner), ce.DUP), f'L{owner};'
            loaded = types
        else:
            loaded = [f'L{owner};', *types]
        for type_ in loaded:
            code += load(type_, slot)
            slot += width(type_)
        code += struct.pack('>BHB', ce.INVOKESPECIAL, self.edit.pool.add_member(tag, owner, name, descriptor), result_of(result))
        stated, called = f'({"".join(loaded)}){result}', f'lambda$access${self.accessors}'
        self.accessors += 1
        add_method(self.edit, STATIC | SYNTHETIC | (PUBLIC if is_interface else 0), called, stated, code, slot + 4, slot)
        return OF_STATIC, (owner, called, stated, ce.INTERFACE_REF if is_interface else ce.METHOD_REF)

    @staticmethod
    def add_factory(beside, captures, made):
        pool, stored, pushed, slot = beside.pool, bytes([ce.ALOAD_0, ce.INVOKESPECIAL]), b'', 0
        stored += struct.pack('>H', pool.add_member(ce.METHOD_REF, 'java/lang/Object', '<init>', '()V'))
        for at, kind in enumerate(captures):
            beside.fields.append(ce.Member(PRIVATE | FINAL, f'c{at}', kind, []))
            stored += bytes([ce.ALOAD_0]) + load(kind, slot + 1)
            stored += struct.pack('>BH', ce.PUTFIELD, pool.add_member(ce.FIELD_REF, beside.name, f'c{at}', kind))
            pushed += load(kind, slot)
            slot += width(kind)
        taken = '(' + ''.join(captures) + ')'
        add_method(beside, PRIVATE, '<init>', taken + 'V', stored + bytes([ce.RETURN]), 3, slot + 1)
        pushed = struct.pack('>BHB', ce.NEW, pool.add_class(beside.name), ce.DUP) + pushed
        pushed += struct.pack('>BHB', ce.INVOKESPECIAL, pool.add_member(ce.METHOD_REF, beside.name, '<init>', taken + 'V'), ARETURN)
        add_method(beside, STATIC, 'make', taken + made, pushed, slot + 2, slot)

    def add_call(self, beside, name, stated, real, captures, kind, target):
        owner, called, descriptor, tag = target
        pool, code, slot = beside.pool, b'', 1
        wanted, given = types_of(descriptor)
        if kind == OF_NEW:
            code, given = struct.pack('>BHB', ce.NEW, pool.add_class(owner), ce.DUP), f'L{owner};'
        elif kind != OF_STATIC:
            wanted = [f'L{owner};' if not owner.startswith('[') else owner, *wanted]
        for at, type_ in enumerate(captures):
            code += struct.pack('>BBH', ce.ALOAD_0, ce.GETFIELD, pool.add_member(ce.FIELD_REF, beside.name, f'c{at}', type_))
        types, result = types_of(stated)
        for type_, seen, want in zip(types, types_of(real)[0], wanted[len(captures):], strict=True):
            code += load(type_, slot) + self.adapted(pool, type_, seen, want)
            slot += width(type_)
        if kind == OF_INTERFACE:
            count = sum(map(width, wanted))
            code += struct.pack('>BHBB', ce.INVOKEINTERFACE, pool.add_member(tag, owner, called, descriptor), count, 0)
        else:
            op = {OF_VIRTUAL: ce.INVOKEVIRTUAL, OF_STATIC: ce.INVOKESTATIC, OF_NEW: ce.INVOKESPECIAL, OF_SPECIAL: ce.INVOKEVIRTUAL}[kind]
            code += struct.pack('>BH', op, pool.add_member(tag, owner, called, descriptor))
        code += self.adapted_result(pool, given, result, types_of(real)[1]) + bytes([result_of(result)])
        stack = sum(map(width, wanted)) + 5
        add_method(beside, PUBLIC, name, stated, code, stack, slot)

    @staticmethod
    def adapted(pool, stated, seen, want):
        """Makes of an argument of the interface's type what the called method takes."""
        def cast(kind):
            return b'' if kind in (stated, OBJECT) else struct.pack('>BH', ce.CHECKCAST, pool.add_class(class_of(kind)))
        if is_reference(stated):
            if is_reference(want):
                return cast(seen)
            kind = UNBOXED.get(seen, want)
            box, method = BOXES[kind]
            code = cast(f'L{box};') + struct.pack('>BH', ce.INVOKEVIRTUAL, pool.add_member(ce.METHOD_REF, box, method, '()' + kind))
            return code + widened(kind, want)
        return boxed(pool, stated, want)

    @staticmethod
    def adapted_result(pool, given, result, seen):
        if result == 'V':
            return b'' if given == 'V' else bytes([POP2 if given in 'JD' else POP])
        if is_reference(given) and is_reference(result):
            return b'' if result in (given, OBJECT) else struct.pack('>BH', ce.CHECKCAST, pool.add_class(class_of(result)))
        if is_reference(given):
            kind = UNBOXED.get(given, UNBOXED.get(seen, result))
            box, method = BOXES[kind]
            code = struct.pack('>BH', ce.CHECKCAST, pool.add_class(box))
            code += struct.pack('>BH', ce.INVOKEVIRTUAL, pool.add_member(ce.METHOD_REF, box, method, '()' + kind))
            return code + widened(kind, result)
        return boxed(pool, given, result)


def boxed(pool, kind, want):
    """A number where a number or an object is wanted."""
    if is_reference(want):
        box = BOXES[kind][0]
        return struct.pack('>BH', ce.INVOKESTATIC, pool.add_member(ce.METHOD_REF, box, 'valueOf', f'({kind})L{box};'))
    return widened(kind, want)
