"""The companion library: class files that stand in for what the profile's library lacks.

A class `more/X` completes the class X of Java:
- a static method stands for the method of X with its name; for one of an object, what it is called on is its first argument; `make` stands for a
  constructor, with two nulls of the class before the arguments, in the place of what `new` and `dup` push;
- `cast` and `isInstance`, of an object, stand for a cast to X and for `instanceof X`;
- a static field stands for the one of X;
- where it extends X, a program's `new X`, and a class that extends X, get it instead;
- where it is an interface, each class of the program that stands below X gets it as one of its interfaces.
A class `more/floats/X` completes X in the same way by what has floats, and comes before `more/X`.
Every other class of it has the name of a class of Java or of JUnit that the profile's library has not.
"""
import os

from class_files import has_float
from preparing.class_edit import ClassEdit

MORE = 'more/'
FLOATS = 'more/floats/'


class Companion:
    def __init__(self, folder):
        self.files, self.edits = {}, {}
        for base, _, names in sorted(os.walk(folder)):
            for name in sorted(names):
                if name.endswith('.class'):
                    path = os.path.join(base, name)
                    with open(path, 'rb') as stream:
                        self.files[os.path.relpath(path, folder)[:-6]] = stream.read()
        self.methods, self.fields, self.interfaces, self.subclasses = {}, {}, {}, set()
        own = {}
        for name, data in sorted(self.files.items(), key=lambda row: (not row[0].startswith(FLOATS), row[0])):
            if name.startswith(MORE) and '$' not in name:
                self.add_more(name, ClassEdit(data))
            elif name.startswith('java/'):
                own[name] = ClassEdit(data)
        self.with_floats = with_floats(own)

    def add_more(self, name, edit):
        of = name[len(FLOATS if name.startswith(FLOATS) else MORE):]
        if name == FLOATS + 'java/lang/Math':
            self.add_methods('java/lang/StrictMath', name, edit, False)
        is_interface = bool(edit.flags & 0x200)
        self.add_methods(of, name, edit, is_interface)
        for field in edit.fields:
            if field.flags & 0x8 and not field.flags & 0x2:
                self.fields.setdefault((of, field.name, field.descriptor), name)
        if is_interface and any(not method.flags & 0x8 for method in edit.methods):
            self.interfaces.setdefault(of, []).append(name)
        elif edit.above == of and not name.startswith(FLOATS):
            self.subclasses.add(of)

    def add_methods(self, of, name, edit, is_interface):
        for method in edit.methods:
            if method.flags & 0x8 and not method.flags & 0x2 and method.name != '<clinit>':
                self.methods.setdefault((of, method.name, method.descriptor), []).append((name, is_interface))

    def method(self, key, inside):
        """The class with the static method for a method of Java, and whether it is an interface, as seen from a class; or None."""
        found = self.methods.get(key, ())
        own = next((at for at, row in enumerate(found) if row[0] == inside), -1)
        return found[own + 1] if own + 1 < len(found) else None

    def subclass(self, name):
        """The class that stands in for a class of Java in `new` and `extends`, or that class."""
        return MORE + name if name in self.subclasses else name


def with_floats(edits):
    """The classes by names of Java's that have a float in a descriptor, and what stands below them."""
    found = {name.partition('$')[0] for name, edit in edits.items()
             if any(has_float(member.descriptor) for member in (*edit.fields, *edit.methods) if not member.flags & 0x2)}
    while True:
        below = {name.partition('$')[0] for name, edit in edits.items() if found & {edit.above, *edit.interfaces}} - found
        if not below:
            return found
        found |= below
