"""Annotations of a class file's parts: read, taken away and added."""
import struct

from class_files import Reader

VISIBLE = 'RuntimeVisibleAnnotations'


class Annotation:
    def __init__(self, kind, elements, raw):
        self.kind, self.elements, self.raw = kind, elements, raw


def element(reader, pool):
    tag = chr(reader.take('B'))
    if tag == '[':
        return [element(reader, pool) for _ in range(reader.take('H'))]
    if tag == '@':
        return annotation(reader, pool)
    if tag == 'e':
        return pool.text(reader.take('H')), pool.text(reader.take('H'))
    index = reader.take('H')
    return pool.text(index) if tag in 'cs' else pool.entries[index][1]


def annotation(reader, pool):
    start = reader.at
    kind = pool.text(reader.take('H'))
    elements = {pool.text(reader.take('H')): element(reader, pool) for _ in range(reader.take('H'))}
    return Annotation(kind, elements, reader.data[start:reader.at])


def annotations_of(member, pool):
    """The annotations of a class, a field or a method that can be seen when it runs."""
    found = []
    for name, content in member.attributes:
        if name == VISIBLE:
            reader = Reader(content)
            found += [annotation(reader, pool) for _ in range(reader.take('H'))]
    return found


def put_annotations(member, raws):
    member.attributes = [row for row in member.attributes if row[0] != VISIBLE]
    if raws:
        member.attributes.append((VISIBLE, struct.pack('>H', len(raws)) + b''.join(raws)))


def drop(member, pool, is_dropped):
    found = annotations_of(member, pool)
    kept = [one.raw for one in found if not is_dropped(one.kind)]
    if len(kept) < len(found):
        put_annotations(member, kept)


def add(member, pool, kind, value=None):
    """Adds an annotation, with a text as its value where one is given, unless one of the kind is there."""
    found = annotations_of(member, pool)
    if any(one.kind == kind for one in found):
        return
    raw = struct.pack('>HH', pool.add_text(kind), 0 if value is None else 1)
    if value is not None:
        raw += struct.pack('>HBH', pool.add_text('value'), ord('s'), pool.add_text(value))
    put_annotations(member, [one.raw for one in found] + [raw])
