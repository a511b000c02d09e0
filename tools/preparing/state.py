"""What a call of tools/prepare leaves for the next one: what was read, what was decided, what was written."""
import hashlib
import json
import os

NAME = 'prepared.state'


def sum_of(data):
    return hashlib.sha256(data).hexdigest()


def sum_of_files(paths):
    """One sum over the bytes of files."""
    found = hashlib.sha256()
    for path in paths:
        with open(path, 'rb') as stream:
            found.update(hashlib.sha256(stream.read()).digest())
    return found.hexdigest()


class State:
    def __init__(self, out, tool):
        """The state of a folder; of one that another version wrote only its files are known."""
        self.path, self.tool = os.path.join(out, NAME), tool
        self.is_there, self.kept, self.files = False, {}, {}
        try:
            with open(self.path, encoding='utf-8') as stream:
                kept = json.load(stream)
            self.is_there, self.files = True, kept['files']
            if kept['tool'] == tool:
                self.kept = kept
        except FileNotFoundError:
            pass
        except (ValueError, KeyError, TypeError):
            self.is_there = True

    def get(self, key):
        return self.kept.get(key, {})

    def changed(self, inputs):
        """The names of the classes that are new, gone or other than they were."""
        before = self.get('inputs')
        return {name for name in {*before, *inputs} if before.get(name) != inputs.get(name)}

    def affected(self, changed):
        """The classes that come to one of these by what class files name."""
        naming = {}
        for name, named in self.get('names').items():
            for other in named:
                naming.setdefault(other, []).append(name)
        todo, found = list(changed), set()
        while todo:
            name = todo.pop()
            if name not in found:
                found.add(name)
                todo += naming.get(name, ())
        return found

    def save(self, kept):
        data = json.dumps({**kept, 'tool': self.tool}, sort_keys=True).encode('utf-8', 'surrogatepass')
        with open(self.path + '.tmp', 'wb') as stream:
            stream.write(data)
        os.replace(self.path + '.tmp', self.path)
