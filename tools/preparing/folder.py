"""The folder that tools/prepare writes: nothing outside of it is touched, and nothing in it that it didn't write itself."""
import os

from preparing.state import sum_of


class Occupied(Exception):
    """The folder has something in the way, with what."""


class Folder:
    def __init__(self, path, written):
        """`written` has the sums of the files that an earlier call wrote, by their paths in the folder."""
        self.path, self.written = path, dict(written)

    def is_as_written(self):
        """Whether all files are as they were written; those that aren't count as not written from now on."""
        changed = [path for path, total in self.written.items() if self.sum_at(path) != total]
        for path in changed:
            self.written[path] = None
        return not changed

    def sum_at(self, path):
        try:
            with open(os.path.join(self.path, path), 'rb') as stream:
                return sum_of(stream.read())
        except OSError:
            return None

    def judge(self, parts, is_own):
        """Refuses a folder whose parts are there and aren't the tool's, or lead elsewhere."""
        if os.path.exists(self.path) and not os.path.isdir(self.path):
            raise Occupied(f'{self.path} is no folder')
        for part in parts:
            path = os.path.join(self.path, part)
            if os.path.islink(path):
                raise Occupied(f'{path} leads elsewhere')
            if os.path.exists(path) and not is_own:
                raise Occupied(f'{path} is there, and not of prepare: name another folder, or remove it')

    def put(self, path, data):
        """Writes a file, unless it stands so already."""
        total = sum_of(data)
        if self.written.get(path) == total:
            return
        full = os.path.join(self.path, path)
        home = os.path.dirname(full)
        os.makedirs(home, exist_ok=True)
        inside = os.path.realpath(self.path)
        if os.path.commonpath((inside, os.path.realpath(home))) != inside:
            raise Occupied(f'{home} leads elsewhere')
        with open(full + '.tmp', 'wb') as stream:
            stream.write(data)
        os.replace(full + '.tmp', full)
        self.written[path] = total

    def keep_only(self, paths):
        """Removes what an earlier call wrote and this one hasn't."""
        for path in set(self.written) - set(paths):
            try:
                os.remove(os.path.join(self.path, path))
            except FileNotFoundError:
                pass
            del self.written[path]
