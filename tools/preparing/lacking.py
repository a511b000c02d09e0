"""What a test that fails may have come to that isn't there: the nearest of it, by the calls in the lowered code."""
from preparing import class_edit as ce
from preparing.companion import MORE

MOST_METHODS = 3000


class Lacking:
    def __init__(self, world, edits, floats):
        self.world, self.edits, self.floats, self.uses = world, edits, floats, {}

    def nearest(self, owner, test, around):
        """The first thing that lacks on the way from a test, and what runs around it; or None."""
        todo, seen = [(owner, '<init>', '()V'), *((owner, name, '()V') for name in around), (owner, test, '()V')], set()
        for at in range(MOST_METHODS):
            if at >= len(todo):
                return None
            place = self.place_of(*todo[at])
            if place is None or place in seen:
                continue
            seen.add(place)
            lacking, calls = self.uses_of(place)
            if lacking is not None:
                return lacking
            todo += calls
        return None

    def place_of(self, owner, name, descriptor):
        """The class whose file has a method's code, from a class upwards."""
        while owner in self.edits:
            edit, methods = self.edits[owner]
            if (name, descriptor) in methods:
                return owner, name, descriptor
            if name in ('<init>', '<clinit>'):
                return None
            owner = edit.above
        return None

    def uses_of(self, place):
        if place not in self.uses:
            edit, methods = self.edits[place[0]]
            method = methods[place[1:]]
            lacking, calls = None, []
            # The companion's own code for X asks a JVM's X first, where it expects that something lacks.
            own = place[0][len(MORE):].partition('$')[0] if place[0].startswith(MORE) else None
            for at, op in (method.code.naming() if method.code is not None else ()):
                if lacking is None and (ce.GETSTATIC <= op <= ce.INVOKEINTERFACE or op == ce.NEW):
                    if own is None or op < ce.INVOKEVIRTUAL or op == ce.NEW or edit.pool.member(method.code.operand(at))[0] != own:
                        lacking = self.judge(edit.pool, method.code, at, op, calls)
            self.uses[place] = lacking, calls
        return self.uses[place]

    def has_field(self, found, name, descriptor):
        """Whether a class has a field, by the descriptor that it gets."""
        world = self.world
        return any(name == own and descriptor == self.floats.descriptor_of(stated) for above in world.supers(found)
                   for where in (above, *world.interfaces(above)) for own, stated in where.fields)

    def judge(self, pool, code, at, op, calls):
        """Adds the methods that an instruction comes to; gives what of it isn't there."""
        world = self.world
        if op == ce.NEW:
            owner = pool.class_name(code.operand(at))
            calls.append((owner, '<clinit>', '()V'))
            if '$$Lambda$' in owner:
                calls += [(owner, *key) for key in self.edits[owner][1]]
            return None
        owner, name, descriptor, _ = pool.member(code.operand(at))
        found = world.class_of(owner)
        if owner.startswith('[') or owner in self.edits and found is None:
            calls.append((owner, name, descriptor))
            return None
        if found is None:
            return owner
        if op <= ce.PUTFIELD:
            calls.append((owner, '<clinit>', '()V'))
            return None if self.has_field(found, name, descriptor) else f'{owner}.{name}'
        if self.place_of(owner, name, descriptor) is None and world.method(found, (name, descriptor)) is None:
            return f'{owner}.{name}{descriptor}'
        calls.append((owner, name, descriptor))
        if op == ce.INVOKESTATIC:
            calls.append((owner, '<clinit>', '()V'))
        return 'a method that is cut' if owner == 'java/lang/LinkageError' and name == '<init>' else None
