"""All classes that there are: the profile's library, the code, the tests, the companion library, jars, and the heads of Java's own."""
import os
import zipfile

from class_files import INTERFACE, Class, Member, Refused
from preparing.class_edit import ClassEdit
from preparing import known
from preparing.companion import MORE
from preparing.jdk import is_java
from programs import Program

CODE, TESTS, JAR, COMPANION = 'classes', 'tests', 'jar', 'companion'


class Unit:
    """A class file and where it comes from."""

    def __init__(self, origin, place, data):
        self.origin, self.place, self.data = origin, place, data
        self.edit, self.suite, self.info = None, None, None


class Classes:
    """The classes by name, each read when it is asked for."""

    def __init__(self, world):
        self.world = world

    def get(self, name, default=None):
        return self.world.info(name) or default

    def __contains__(self, name):
        return self.world.info(name) is not None

    def __getitem__(self, name):
        return self.world.info(name)


class World(Program):
    def __init__(self, library, companion, jdk, jars):
        super().__init__(Classes(self))
        self.library, self.companion, self.jdk = library, companion, jdk
        self.units, self.infos, self.out, self.mores = {}, {}, {}, {}
        self.known = Class(known.NAME, 0x1021, 'java/lang/Object', [])
        self.known.methods.update({key: Member(0x9, *key) for key in known.LOOKUPS.items()})
        self.jars = {}
        for path in jars:
            archive = zipfile.ZipFile(path)
            for entry in archive.namelist():
                if entry.endswith('.class') and not entry.startswith('META-INF/'):
                    self.jars.setdefault(entry[:-6], (path, archive, entry))

    def unit(self, name):
        """The class file that stands for a name, or None."""
        if name in self.units:
            return self.units[name]
        unit = None
        if name in self.library or name in self.out:
            return None
        if name in self.companion.files:
            unit = Unit(COMPANION, name, self.companion.files[name])
        elif name in self.jars and not is_java(name) and not name.startswith(MORE):
            path, archive, entry = self.jars[name]
            unit = Unit(JAR, f'{path}!{entry}', archive.read(entry))
        if unit is not None:
            try:
                unit.edit = ClassEdit(unit.data)
            except (Refused, UnicodeDecodeError) as fault:
                self.out[name] = f'is no class file that is read: {fault}'
                unit = None
            else:
                if unit.edit.major not in (51, 52):
                    self.out[name] = f'its major version is {unit.edit.major}, and not 51 or 52'
                    unit = None
        self.units[name] = unit
        return unit

    def info(self, name):
        """A class's head and members, as it stands once it is lowered; or None."""
        if name in self.library:
            return self.library[name]
        if name == known.NAME:
            return self.known
        if name not in self.infos:
            self.infos[name] = None
            unit = self.unit(name)
            if unit is None:
                self.infos[name] = self.jdk.head(name) if name not in self.out else None
            elif self.has_supers(unit.edit):
                self.infos[name] = found = self.info_of(unit.edit)
                found.interfaces += [more for more in self.more_above(name) if more not in found.interfaces]
            else:
                self.units[name] = None
        return self.infos[name]

    def leave_out(self, name, why):
        """Takes a class away, so that what stands below it goes too."""
        self.out[name] = why
        self.units[name] = None
        self.infos.clear()
        self.mores.clear()

    def has_supers(self, edit):
        """Whether all that stands directly above a class is there; a class above itself counts as not there."""
        for above, how in [(edit.above, 'extends'), *((name, 'implements') for name in edit.interfaces)]:
            if above is not None and self.info(above) is None:
                self.out[edit.name] = f'{how} {above}, which is not there'
                return False
        return True

    def info_of(self, edit):
        above = self.companion.subclass(edit.above) if edit.above and not edit.name.startswith(MORE) else edit.above
        found = Class(edit.name, edit.flags, above, list(edit.interfaces))
        for into, members in ((found.fields, edit.fields), (found.methods, edit.methods)):
            into.update({member.key: Member(member.flags, *member.key) for member in members})
        return found

    def is_of_java(self, name):
        """Whether a name is that of a class of Java, or of a testing library that the profile has, which the program doesn't define itself."""
        return (is_java(name) or name in self.library or name in self.companion.files) and not (
            self.units.get(name) is not None and self.units[name].origin in (CODE, TESTS))

    def java_above(self, name):
        """The classes of Java above a class, the nearest first, itself among them."""
        todo, found, seen = [name], [], set()
        while todo:
            name = todo.pop(0)
            if name in seen:
                continue
            seen.add(name)
            if not name.startswith(MORE) and self.is_of_java(name):
                found.append(name)
            todo += self.heads_above(name)
        return found

    def heads_above(self, name):
        head = self.jdk.head(name) if is_java(name) else None
        if head is None and name in self.library:
            head = self.library[name]
        if head is None:
            unit = self.unit(name)
            head = unit.edit if unit is not None else None
        if head is None:
            return []
        return [*([head.above] if head.above else []), *head.interfaces]

    def more_above(self, name):
        """The companion's interfaces that a class of the program gets, but for those that its own supers get."""
        if name in self.library:
            return []
        if name not in self.mores:
            self.mores[name] = []
            unit = self.unit(name)
            if unit is None or name.startswith(MORE) and unit.edit.flags & INTERFACE:
                return []
            found = [above for above in self.java_above(name) if above in self.companion.interfaces]
            for above in [unit.edit.above, *unit.edit.interfaces]:
                if above and not self.is_of_java(above):
                    taken = set(self.java_above(above))
                    found = [of for of in found if of not in taken]
            self.mores[name] = [more for of in found for more in self.companion.interfaces[of]]
        return self.mores[name]

    def all_above(self, info):
        """The names of all that stands above a class, its superclass first, then interfaces; what the class file itself doesn't say is left out."""
        todo, found = [info], []
        while todo:
            of = todo.pop(0)
            for name in [*([] if of.above is None or of.is_interface() else [of.above]), *of.interfaces]:
                head = self.info(name)
                if head is not None and name not in found:
                    found.append(name)
                    todo.append(head)
        return found

    def names_above(self, name):
        """The names of the superclasses of a class, itself among them, as far as they are there."""
        found = []
        while name and name not in found:
            found.append(name)
            unit = self.unit(name)
            head = unit.edit if unit is not None else self.library.get(name) or self.jdk.head(name)
            name = head.above if head is not None else None
        return found


def class_files(folder):
    for base, _, names in sorted(os.walk(folder)):
        for name in sorted(names):
            if name.endswith('.class'):
                yield os.path.join(base, name)
