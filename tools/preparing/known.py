"""The class `more/Known`: what the companion library asks of classes by their names, of those that the code itself names."""
import struct

from class_files import ABSTRACT, ENUM, INTERFACE
from preparing import class_edit as ce
from preparing.builder import add_method, new_class
from preparing.floats import NUMBER, OBJECT

NAME = 'more/Known'
PRIMITIVES = ('int', 'long', 'short', 'byte', 'char', 'boolean', 'float', 'double', 'void')
LOOKUPS = {
    'named': '(Ljava/lang/String;)Ljava/lang/Class;',
    'array': '(Ljava/lang/String;I)[Ljava/lang/Object;',
    'above': '(Ljava/lang/String;)Ljava/lang/String;',
    'make': '(Ljava/lang/String;)Ljava/lang/Object;',
    'values': '(Ljava/lang/String;)[Ljava/lang/Object;',
    'methods': '(Ljava/lang/String;)Ljava/lang/String;',
}
# How far a method may jump: what is too much for one goes into another, which it calls.
MOST_BYTES = 24000
# How many classes are known at all, and how long a text may be.
MOST_CLASSES, MOST_TEXT = 3000, 60000
PUBLIC_STATIC, ARETURN, IFEQ, ILOAD_1 = 0x9, 0xb0, 0x99, 0x1b


def hash_of(text):
    code = 0
    units = text.encode('utf-16-be', 'surrogatepass')
    for at in range(0, len(units), 2):
        code = (31 * code + int.from_bytes(units[at:at + 2], 'big')) & 0xffffffff
    return code - (1 << 32) if code >= 1 << 31 else code


def methods_of(info):
    """The methods that a class declares: each by its name, its descriptor and its flags, with a space behind them."""
    return ''.join(f'{method.name}{method.descriptor}{method.flags} ' for method in info.methods.values() if not method.name.startswith('<'))


def answer(pool, lookup, info, names_above, told):
    """The instructions that push what a lookup answers of a class; None where that is null."""
    name = info.name
    if lookup == 'methods':
        text = methods_of(info) if name in told else None
        return struct.pack('>BH', ce.LDC_W, pool.add_string(text)) if text is not None and len(text) < MOST_TEXT and text.isascii() else None
    if lookup == 'named':
        return struct.pack('>BH', ce.LDC_W, pool.add_class(name))
    if lookup == 'array':
        return struct.pack('>BBH', ILOAD_1, ce.ANEWARRAY, pool.add_class(OBJECT if name == NUMBER else name))
    if lookup == 'above':
        return struct.pack('>BH', ce.LDC_W, pool.add_string(''.join(above.replace('/', '.') + ',' for above in names_above(info))))
    if lookup == 'make':
        if info.flags & (ABSTRACT | INTERFACE) or ('<init>', '()V') not in info.methods:
            return None
        return struct.pack('>BHBBH', ce.NEW, pool.add_class(name), ce.DUP, ce.INVOKESPECIAL, pool.add_member(ce.METHOD_REF, name, '<init>', '()V'))
    stated = f'()[L{name};'
    if not info.flags & ENUM or ('values', stated) not in info.methods:
        return None
    return struct.pack('>BH', ce.INVOKESTATIC, pool.add_member(ce.METHOD_REF, name, 'values', stated))


def add_lookups(made, lookup, infos, names_above, floats, told):
    """The methods of a lookup, each of which calls the next one for what it doesn't know."""
    parts, sizes = [{}], [0]
    for info in infos:
        code = answer(made.pool, lookup, info, names_above, told)
        for name in dict.fromkeys((info.name, floats.name_of(info.name))) if code is not None else ():
            shown = name.replace('/', '.')
            if sizes[-1] > MOST_BYTES:
                parts.append({})
                sizes.append(0)
            if hash_of(shown) not in parts[-1]:
                parts[-1][hash_of(shown)] = shown, code + bytes([ARETURN])
                sizes[-1] += 20 + len(code)
    for at, cases in enumerate(parts):
        add_lookup(made, lookup, at, cases, at + 1 < len(parts))


def add_lookup(made, lookup, number, cases, has_next):
    """A switch over the hash codes of names; behind each case the name itself is compared."""
    pool, descriptor = made.pool, LOOKUPS[lookup]
    equals = pool.add_member(ce.METHOD_REF, 'java/lang/String', 'equals', '(Ljava/lang/Object;)Z')
    rows = {key: (struct.pack('>BBHBHB', ce.ALOAD_0, ce.LDC_W, pool.add_string(shown), ce.INVOKEVIRTUAL, equals, IFEQ), code)
            for key, (shown, code) in cases.items()}
    start = struct.pack('>BBH', ce.ALOAD_0, ce.INVOKEVIRTUAL, pool.add_member(ce.METHOD_REF, 'java/lang/String', 'hashCode', '()I'))
    at = len(start)
    body_at = at + 1 + -(at + 1) % 4 + 8 + 8 * len(rows)
    none_at = body_at + sum(len(head) + 2 + len(code) for head, code in rows.values())
    parts, jumps, place = [], [], body_at
    for code_of, (head, code) in sorted(rows.items()):
        jumps.append(struct.pack('>ii', code_of, place - at))
        jump_at = place + len(head) - 1
        parts.append(head + struct.pack('>h', none_at - jump_at) + code)
        place += len(parts[-1])
    switch = struct.pack('>B', ce.LOOKUPSWITCH) + b'\0' * (-(at + 1) % 4) + struct.pack('>ii', none_at - at, len(rows)) + b''.join(jumps)
    none = bytes([ce.ACONST_NULL, ARETURN])
    if has_next:
        called = pool.add_member(ce.METHOD_REF, NAME, named(lookup, number + 1), descriptor)
        none = bytes([ce.ALOAD_0, *([ILOAD_1] if lookup == 'array' else [])]) + struct.pack('>BHB', ce.INVOKESTATIC, called, ARETURN)
    code = start + switch + b''.join(parts) + none
    method = add_method(made, PUBLIC_STATIC, named(lookup, number), descriptor, code, 3, 2 if lookup == 'array' else 1)
    frames, last = [], -1
    place = body_at
    for part in [*parts, b'']:
        frames.append(struct.pack('>BH', 251, place - last - 1))
        last, place = place, place + len(part)
    method.code.attributes = [('StackMapTable', struct.pack('>H', len(frames)) + b''.join(frames))]


def named(lookup, number):
    return lookup if number == 0 else f'{lookup}{number}'


def known(infos, names_above, floats, told=()):
    """The class file, for the classes of which these are the heads; `names_above` gives what stands above one, its superclass first, and `told` are the
    names of those whose methods are known. A class that `floats` gives another name is known by both."""
    made = new_class(NAME, 0x1021, 'java/lang/Object')
    infos = sorted(infos, key=lambda info: info.name)[:MOST_CLASSES]
    for lookup in LOOKUPS:
        add_lookups(made, lookup, infos, names_above, floats, told)
    floats.rename(made)
    return made.written()
