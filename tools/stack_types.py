"""The types on the stack of each instruction of a method, by its stack map frames (JVMS 4.10.1).

For tools/lacks. It takes code that `javac` made, which is typed: it asks of no item whether it may
stand there, but of each class whether it is assignable to the one that is wanted, for that changes
where classes are missing. A class's or an array's type is its name; the others are numbers, as in
a frame.
"""
from class_files import CALLS, FIELDS, INVOKEDYNAMIC, SIZES, VARYING, Reader, Refused

TOP, INT, FLOAT, DOUBLE, LONG, NULL, THIS = range(7)
WIDE = (LONG, DOUBLE)
OBJECT, STRING, CLASS = 'java/lang/Object', 'java/lang/String', 'java/lang/Class'
THROWABLE = 'java/lang/Throwable'
OF_LETTER = {**dict.fromkeys('ZBCSI', INT), 'F': FLOAT, 'D': DOUBLE, 'J': LONG}
OF_ARRAY_CODE = dict(zip(range(4, 12), ('[Z', '[C', '[F', '[D', '[B', '[S', '[I', '[J')))
# Which rule of the type checker it breaks where a value of another type falls into a frame, is
# taken, is there at a jump or at a handler, is returned.
FALLS, TAKES, LEADS, CATCHES, RETURNS = 'V5', 'V7', 'V9', 'V10', 'V11'

# What an opcode takes off the stack and puts on it, where no operand counts.
PLAIN = {0x00: (0, None), 0x01: (0, NULL), 0x10: (0, INT), 0x11: (0, INT), 0x84: (0, None)}
PLAIN.update({op: (0, INT) for op in range(0x02, 0x09)})
PLAIN.update({0x09: (0, LONG), 0x0a: (0, LONG), 0x0e: (0, DOUBLE), 0x0f: (0, DOUBLE)})
PLAIN.update({op: (0, FLOAT) for op in range(0x0b, 0x0e)})
PLAIN.update(zip((0x2e, 0x2f, 0x30, 0x31, 0x33, 0x34, 0x35),
                 ((2, kind) for kind in (INT, LONG, FLOAT, DOUBLE, INT, INT, INT))))
PLAIN.update({op: (3, None) for op in range(0x4f, 0x57) if op != 0x53})
PLAIN[0x57] = (1, None)
# Of two numbers the lower one's type is the result's, which so stays where it is.
PLAIN.update({op: (1, None) for op in (*range(0x60, 0x74), *range(0x78, 0x84))})
PLAIN.update({op: (0, None) for op in range(0x74, 0x78)})
PLAIN.update(zip(range(0x85, 0x94), ((1, kind) for kind in (
    LONG, FLOAT, DOUBLE, INT, FLOAT, DOUBLE, INT, LONG, DOUBLE, INT, LONG, FLOAT, INT, INT, INT))))
PLAIN.update({op: (2, INT) for op in range(0x94, 0x99)})
PLAIN.update({0xbe: (1, INT), 0xc1: (1, INT), 0xc2: (1, None), 0xc3: (1, None)})
LOADED = (INT, LONG, FLOAT, DOUBLE)
JUMPS = {**{op: 1 for op in range(0x99, 0x9f)}, **{op: 2 for op in range(0x9f, 0xa7)},
         0xa7: 0, 0xc6: 1, 0xc7: 1, 0xc8: 0}
ENDS = {0xa7, 0xc8, 0xaa, 0xab, *range(0xac, 0xb2), 0xbf}
# dup, dup_x1, .. swap: how many items it takes where none is wide, and the places in them that it
# puts back, the lowest item's place being 0.
WORDS = {0x58: (2, ()), 0x59: (1, (0, 0)), 0x5a: (2, (1, 0, 1)), 0x5b: (3, (2, 0, 1, 2)),
         0x5c: (2, (0, 1, 0, 1)), 0x5d: (3, (1, 2, 0, 1, 2)), 0x5e: (4, (2, 3, 0, 1, 2, 3)),
         0x5f: (2, (1, 0))}


def kind_of(descriptor):
    """The type of one field descriptor."""
    if descriptor[0] == 'L':
        return descriptor[1:-1]
    return descriptor if descriptor[0] == '[' else OF_LETTER[descriptor]


SIGNATURES = {}


def signature(descriptor):
    """The types of a method's arguments, and of its result, None where there is none."""
    found = SIGNATURES.get(descriptor)
    if found is None:
        kinds, at = [], 1
        while descriptor[at] != ')':
            start = at
            while descriptor[at] == '[':
                at += 1
            at = descriptor.index(';', at) + 1 if descriptor[at] == 'L' else at + 1
            kinds.append(kind_of(descriptor[start:at]))
        result = descriptor[at + 1:]
        found = SIGNATURES[descriptor] = kinds, None if result == 'V' else kind_of(result)
    return found


def component_of(array):
    """What stands in an array by its type; null's has no type of its own."""
    return kind_of(array[1:]) if isinstance(array, str) else NULL


def with_tops(kinds):
    """The locals of these types: behind a wide one stands a further place."""
    found = []
    for kind in kinds:
        found += (kind, TOP) if kind in WIDE else (kind,)
    return found


class Flow:
    """One method's way through its frames. `wants(at, rule, given, wanted)` is called for each
    value that goes where another type than its own is stated, `calls(at, name, key, given)` for
    each call with the types of what it takes, the object's first."""

    def __init__(self, file, method, wants, calls):
        self.file, self.code, self.wants, self.calls = file, method.code, wants, calls
        self.bytes = method.code.instructions
        kinds, self.result = signature(method.descriptor)
        own = [] if method.is_static() else [THIS if method.name == '<init>' else file.read.name]
        self.stack, self.locals = [], self.filled([*own, *kinds])
        self.frames = dict(self.frames_stated([*own, *kinds]))
        self.handlers = [(start, end, handler, file.class_name(index) if index else THROWABLE)
                         for start, end, handler, index in self.code.rows]

    def filled(self, kinds):
        """All locals of the method, where these types come first."""
        locals_ = with_tops(kinds)
        return locals_ + [TOP] * (self.code.most_locals - len(locals_))

    # ---- frames

    def frames_stated(self, items):
        reader, at = Reader(self.code.frames), -1
        for _ in range(reader.take('H') if self.code.frames else 0):
            tag, stack = reader.take('B'), []
            if tag < 128:
                at += (tag & 63) + 1
                stack = [self.item(reader)] if tag >= 64 else []
            else:
                at += reader.take('H') + 1
                if tag == 247:
                    stack = [self.item(reader)]
                elif tag < 251:
                    items = items[:len(items) - (251 - tag)]
                elif tag < 255:
                    items = items + [self.item(reader) for _ in range(tag - 251)]
                else:
                    items = [self.item(reader) for _ in range(reader.take('H'))]
                    stack = [self.item(reader) for _ in range(reader.take('H'))]
            yield at, (self.filled(items), stack)

    def item(self, reader):
        tag = reader.take('B')
        if tag == 7:
            return self.file.class_name(reader.take('H'))
        return ('new', reader.take('H')) if tag == 8 else tag

    def leads(self, at, rule, to, stack):
        """From the instruction at this place to the frame that is stated at another."""
        frame = self.frames.get(to)
        if frame is None:
            return
        for given, wanted in zip(self.locals + stack, frame[0] + frame[1]):
            if given != wanted and wanted != TOP:
                self.wants(at, rule, given, wanted)

    # ---- instructions

    def run(self):
        at, size, alive = 0, len(self.bytes), True
        bytes_, frames, handlers = self.bytes, self.frames, self.handlers
        while at < size:
            if at in frames:
                if alive:
                    self.leads(at, FALLS, at, self.stack)
                self.locals, self.stack = (list(part) for part in frames[at])
            elif not alive:
                return
            op = bytes_[at]
            if handlers:
                self.catch(at, op)
            plain = PLAIN.get(op)
            if plain is not None:
                takes, gives = plain
                if takes:
                    del self.stack[-takes:]
                if gives is not None:
                    self.stack.append(gives)
            else:
                self.step(at, op)
            alive = op not in ENDS
            at += self.file.size_of(bytes_, at) if op in VARYING else SIZES[op]

    def catch(self, at, op):
        """To the handlers here: where one begins to catch, and before a local changes."""
        for start, end, handler, name in self.handlers:
            if start == at or 0x36 <= op < 0x4f and start < at < end:
                self.leads(at, CATCHES, handler, [name])

    def short(self, at):
        return self.bytes[at] << 8 | self.bytes[at + 1]

    def target(self, at, op):
        wide = op == 0xc8
        return at + int.from_bytes(self.bytes[at + 1:at + (5 if wide else 3)], 'big', signed=True)

    def step(self, at, op):
        bytes_, stack = self.bytes, self.stack
        if op in CALLS:
            self.call(at, op)
        elif op in FIELDS:
            self.field(at, op)
        elif op == INVOKEDYNAMIC:
            self.makes(self.file.pool[self.short(at + 1)][1][1])
        elif 0x15 <= op <= 0x2d:
            self.load(op, bytes_[at + 1] if op < 0x1a else None)
        elif 0x36 <= op <= 0x4e:
            self.store(op, bytes_[at + 1] if op < 0x3b else None)
        elif op in JUMPS:
            if JUMPS[op]:
                del stack[-JUMPS[op]:]
            self.leads(at, LEADS, self.target(at, op), stack)
        elif op in WORDS:
            self.move(op)
        elif op in (0x12, 0x13, 0x14):
            stack.append(self.constant(bytes_[at + 1] if op == 0x12 else self.short(at + 1)))
        elif op == 0x32:
            stack.pop()
            stack.append(component_of(stack.pop()))
        elif op == 0x53:
            self.put(at, *stack[-3:])
            del stack[-3:]
        elif 0xac <= op <= 0xb0:
            given = stack.pop()
            if given != self.result:
                self.wants(at, RETURNS, given, self.result)
        elif op == 0xbb:
            stack.append(('new', at))
        elif op == 0xbc:
            stack[-1] = OF_ARRAY_CODE[bytes_[at + 1]]
        elif op in (0xbd, 0xc0, 0xc5):
            self.named(at, op)
        elif op == 0xbf:
            self.wants(at, TAKES, stack.pop(), THROWABLE)
        elif op in (0xaa, 0xab):
            self.switch(at, op)
        elif op == 0xc4 and bytes_[at + 1] != 0x84:
            (self.load if bytes_[at + 1] < 0x36 else self.store)(bytes_[at + 1], self.short(at + 2))
        elif op not in (0xb1, 0xc4):
            raise Refused(f'the opcode {op:#x} is not read [5]')

    def constant(self, index):
        tag = self.file.pool[index][0]
        return {3: INT, 4: FLOAT, 5: LONG, 6: DOUBLE, 7: CLASS, 8: STRING}.get(tag, OBJECT)

    def load(self, op, place):
        if place is None:
            op, place = 0x15 + (op - 0x1a) // 4, (op - 0x1a) % 4
        self.stack.append(self.locals[place] if op == 0x19 else LOADED[op - 0x15])

    def store(self, op, place):
        if place is None:
            place = (op - 0x3b) % 4
        kind = self.stack.pop()
        if place and self.locals[place - 1] in WIDE:
            self.locals[place - 1] = TOP
        self.locals[place:place + (2 if kind in WIDE else 1)] = with_tops([kind])

    def move(self, op):
        """pop2 and dup to swap. A wide item stands for two, and so moves with its other half."""
        takes, places = WORDS[op]
        words = []
        while len(words) < takes:
            kind = self.stack.pop()
            words[:0] = (kind, None) if kind in WIDE else (kind,)
        self.stack += [words[place] for place in places if words[place] is not None]

    def named(self, at, op):
        name, stack = self.file.class_name(self.short(at + 1)), self.stack
        if op == 0xc5:
            del stack[-self.bytes[at + 3]:]
        else:
            stack.pop()
        if op == 0xbd:
            name = '[' + (name if name[0] == '[' else f'L{name};')
        stack.append(name)

    def put(self, at, array, _, given):
        """`aastore`, with the types that it takes."""

    def switch(self, at, op):
        self.stack.pop()
        start = at + 1 + -(at + 1) % 4
        end = min(at + self.file.size_of(self.bytes, at), len(self.bytes))
        step, first = (4, start + 12) if op == 0xaa else (8, start + 12)
        for place in (start, *range(first, end, step)):
            to = at + int.from_bytes(self.bytes[place:place + 4], 'big', signed=True)
            self.leads(at, LEADS, to, self.stack)

    def field(self, at, op):
        name, _, descriptor, _ = self.file.member(self.short(at + 1))
        kind, stack = kind_of(descriptor), self.stack
        if op in (0xb3, 0xb5):
            given = stack.pop()
            if given != kind:
                self.wants(at, TAKES, given, kind)
        if op in (0xb4, 0xb5):
            given = stack.pop()
            if given != name:
                self.wants(at, TAKES, given, name)
        if op in (0xb2, 0xb4):
            stack.append(kind)

    def call(self, at, op):
        name, member, descriptor, _ = self.file.member(self.short(at + 1))
        kinds, result = signature(descriptor)
        stack = self.stack
        wanted = kinds if op == 0xb8 else [name, *kinds]
        given = stack[len(stack) - len(wanted):]
        del stack[len(stack) - len(wanted):]
        if member == '<init>':
            self.initialise(given[0])
        if given != wanted:
            for value, kind in zip(given, wanted):
                if value != kind:
                    self.wants(at, TAKES, value, kind)
        self.calls(at, op, name, (member, descriptor), given)
        if result is not None:
            stack.append(result)

    def makes(self, index):
        """A dynamic call, of which the name and descriptor stand at this index."""
        kinds, result = signature(self.file.text(self.file.pool[index][1][1]))
        del self.stack[len(self.stack) - len(kinds):]
        if result is not None:
            self.stack.append(result)

    def initialise(self, made):
        """All copies of an object are of its class once its constructor was called."""
        if made == THIS:
            name = self.file.read.name
        else:
            name = self.file.class_name(self.short(made[1] + 1))
        self.locals = [name if kind == made else kind for kind in self.locals]
        self.stack[:] = [name if kind == made else kind for kind in self.stack]
