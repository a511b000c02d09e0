"""Which instructions store in an array that is named as one of objects, and may be one of arrays of floats, or of Numbers."""
from class_files import STATIC, Refused
from preparing.class_edit import ANEWARRAY, length_of
from preparing.floats import GENERAL, NUMBER
from stack_types import NULL, Flow

# What stands in the arrays of numbers that may be in arrays, and the classes of Number that are known to be.
NUMBERS = ('D', 'F', 'J', 'I')
BOXES = [NUMBER, *(f'java/lang/{name}' for name in ('Integer', 'Long', 'Double', 'Float', 'Short', 'Byte'))]


class Made(str):
    """The type of an array that was made here, so of exactly this one."""


class File:
    """A class file as Flow reads it."""

    def __init__(self, edit):
        pool = edit.pool
        self.read, self.pool, self.text, self.class_name, self.member = edit, pool.entries, pool.text, pool.class_name, pool.member

    @staticmethod
    def size_of(code, at):
        return length_of(code, at)


class Method:
    """A method with its code, as Flow reads it."""

    def __init__(self, method):
        self.name, self.descriptor, self.flags, self.code = method.name, method.descriptor, method.flags, self
        code = method.code
        self.instructions, self.rows, self.frames, self.most_locals = code.code, code.handlers, code.attribute('StackMapTable') or b'', code.locals

    def is_static(self):
        return bool(self.flags & STATIC)


class Stores(Flow):
    def __init__(self, edit, method):
        super().__init__(File(edit), Method(method), lambda *_: None, lambda *_: None)
        self.places = set()

    def named(self, at, op):
        super().named(at, op)
        if op == ANEWARRAY:
            self.stack[-1] = Made(self.stack[-1])

    def put(self, at, array, _, given):
        if not isinstance(array, str) or given == NULL:
            return
        inner = array.lstrip('[')
        if inner in NUMBERS if array[1] == '[' else inner == f'L{NUMBER};':
            is_open = given not in (array[1:], *BOXES)
        else:
            is_open = inner[1:-1] in GENERAL and not isinstance(array, Made)
        if is_open:
            self.places.add(at)


def stores(edit, method):
    """The places of such instructions; what can't be read has none, since it is cut out."""
    found = Stores(edit, method)
    try:
        found.run()
    except (Refused, IndexError, TypeError):
        pass
    return found.places
