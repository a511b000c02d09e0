"""What stands above the classes of Java 8, from the table of them that a JDK's compiler has (lib/ct.sym)."""
import os
import shutil
import zipfile

from class_files import Class, Reader
from preparing.class_edit import read_pool


def table():
    """The path of a JDK's ct.sym, or None."""
    homes = [os.environ.get('JAVA_HOME', '')]
    for program in ('javac', 'java'):
        found = shutil.which(program)
        if found:
            homes.append(os.path.dirname(os.path.dirname(os.path.realpath(found))))
    for home in homes:
        path = os.path.join(home, 'lib', 'ct.sym')
        if home and os.path.isfile(path):
            return path
    return None


class Jdk:
    def __init__(self):
        path = table()
        self.archive = zipfile.ZipFile(path) if path else None
        self.heads, self.entries = {}, {}
        for name in self.archive.namelist() if self.archive else ():
            release, _, rest = name.partition('/')
            if '8' in release and name.endswith('.sig'):
                self.entries[rest.partition('/')[2][:-4]] = name

    def head(self, name):
        """A class of Java 8 with what stands above it and without members, or None."""
        if name not in self.heads:
            entry = self.entries.get(name)
            self.heads[name] = read_head(self.archive.read(entry)) if entry else None
        return self.heads[name]

    def above(self, name):
        """The names of all that stands above a class of Java 8, the nearest first, itself among them."""
        todo, found = [name], []
        while todo:
            head = self.head(todo.pop(0))
            if head is not None and head.name not in found:
                found.append(head.name)
                todo += [*head.interfaces, *([head.above] if head.above else [])]
        return found


def read_head(data):
    reader = Reader(data)
    reader.bytes(8)
    pool = read_pool(reader)
    flags, name, above = reader.take('H'), pool.class_name(reader.take('H')), reader.take('H')
    interfaces = [pool.class_name(reader.take('H')) for _ in range(reader.take('H'))]
    return Class(name, flags, pool.class_name(above) if above else None, interfaces)


def is_java(name):
    return name.startswith(('java/', 'javax/', 'sun/', 'jdk/', 'com/sun/', 'org/w3c/', 'org/xml/'))
