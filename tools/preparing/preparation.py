"""One call of tools/prepare: reads, lowers what tests reach, writes it, asks mutest, and leaves out what that refuses."""
import os
import struct
import sys
import time

from class_files import ENUM, Class, Refused
from preparing import known, trial
from preparing.builder import new_class
from preparing.class_edit import ClassEdit
from preparing.companion import MORE, Companion
from preparing.floats import Clash
from preparing.folder import Folder
from preparing.jdk import Jdk
from preparing.lacking import Lacking
from preparing.lower import Lowered, Lowering, classes_in
from preparing.state import State, sum_of, sum_of_files
from preparing.suites import Suites, is_concrete
from preparing.world import CODE, COMPANION, JAR, TESTS, Unit, World, class_files
from programs import library

HOME = os.path.dirname(os.path.dirname(os.path.dirname(os.path.abspath(__file__))))
ANNOTATION, MODULE, PUBLIC_FINAL = 0x2000, 0x8000, 0x31
MOST_ROUNDS = 1000
LONGEST_NAME = 240


# What reading a damaged class file ends in.
WRONG = (Refused, KeyError, IndexError, ValueError, TypeError, struct.error)


class Damaged(Exception):
    """A class file that can't be read, with its path and place."""


class Summary:
    """What is in and what is out: classes and tests by their reasons, methods that were cut."""

    def __init__(self, classes, tests, out, cut, off):
        self.classes, self.tests, self.out, self.cut, self.off = classes, tests, out, cut, off

    def rows(self):
        return (('out', self.out), ('cut', self.cut), ('off', self.off))

    def details(self):
        return ''.join(f'{word} {place}  {why}\n' for word, rows in self.rows() for place, why in sorted(rows.items()))

    def text(self):
        lines = [f'classes {self.classes} in {len(self.out)} out, tests {self.tests} in {len(self.off)} out, methods {len(self.cut)} cut out']
        for word, rows in (('classes out', self.out), ('methods cut', self.cut), ('tests out', self.off)):
            counts = {}
            for why in rows.values():
                counts[why] = counts.get(why, 0) + 1
            lines += [f'  {count} {word}: {why}' for why, count in sorted(counts.items(), key=lambda row: (-row[1], row[0]))]
        return '\n'.join(lines) + '\n'


def tool_sum(jars):
    """What a result rests on besides class files: the tool, the companion library, the profile, the program and the jars."""
    paths = [os.path.join(HOME, 'tools', name) for name in ('prepare', 'programs.py', 'class_files.py')]
    for folder in ('tools/preparing', 'library/classes', 'crates/lib_table/specs', 'dist'):
        for base, _, names in sorted(os.walk(os.path.join(HOME, folder))):
            paths += [os.path.join(base, name) for name in sorted(names) if not name.endswith('.pyc')]
    return sum_of_files([*paths, *jars])


class Preparation:
    def __init__(self, code, tests, out, jars):
        self.folders = ((CODE, code), (TESTS, tests))
        self.state = State(out, tool_sum(jars))
        self.folder = Folder(out, self.state.files)
        self.jars = jars
        self.inputs, self.units_read, self.out = {}, [], {}

    def run(self):
        """Gives the answer of mutest on what was written, with the summary's text."""
        self.folder.judge((CODE, TESTS), self.state.is_there)
        self.read()
        changed = {row.partition(' ')[2] for row in self.state.changed(self.inputs)}
        if self.folder.is_as_written() and self.state.kept and not changed:
            return self.state.get('status'), self.state.get('summary')
        self.world = World(library(), Companion(os.path.join(HOME, 'library', 'classes')), Jdk(), self.jars)
        self.lowering = Lowering(self.world, self.world.companion, self.world.jdk)
        self.suites = Suites(self.world.names_above, self.edit_of)
        self.take_in()
        self.lowering.floats.learn_arrays(edit for *_, edit in self.units_read)
        self.lowered = {}
        self.take_decisions(self.state.affected(changed))
        self.find_suites()
        self.reuse_lowered(changed)
        answer = self.settle()
        summary = self.summary()
        self.folder.put('prepared.txt', summary.details().encode('utf-8', 'backslashreplace'))
        text = summary.text() + (answer.text if answer is not None and answer.status else '')
        status = 8 if answer is None or not summary.tests else 0 if answer.status == 0 else 1
        self.save(status, text)
        return status, text

    # Reading.

    def read(self):
        for origin, folder in self.folders:
            for path in class_files(folder):
                with open(path, 'rb') as stream:
                    data = stream.read()
                try:
                    edit = ClassEdit(data)
                except Refused as fault:
                    raise Damaged(f'{path} is no class file that is read: {fault}') from None
                self.judge_name(path, edit.name)
                self.units_read.append((origin, path, data, edit))
                self.inputs[f'{origin} {edit.name}'] = sum_of(data) + self.inputs.get(f'{origin} {edit.name}', '')

    @staticmethod
    def judge_name(path, name):
        parts = name.split('/')
        is_odd = any(sign in name for sign in '\0\n\r\\') or name.startswith('[')
        if is_odd or any(part in ('', '.', '..') or len(part) > LONGEST_NAME for part in parts):
            raise Damaged(f'{path} has a class whose name is no path: {name[:LONGEST_NAME]!r}')

    def take_in(self):
        for origin, path, data, edit in self.units_read:
            name, why = edit.name, self.never(edit)
            if why is None and name in self.world.units:
                self.out[f'{name} of {path}'] = 'stands twice'
            elif why is not None:
                self.out[name] = self.world.out[name] = why
            else:
                self.world.units[name] = unit = Unit(origin, path, data)
                unit.edit = edit

    def never(self, edit):
        """Why a class file never comes in, whatever the others are; None where it may."""
        if edit.flags & MODULE or edit.name.endswith(('package-info', 'module-info')):
            return 'is no class, but notes on a package or a module'
        if edit.flags & ANNOTATION:
            return 'is an annotation type'
        if edit.name in self.world.library:
            return "has the name of a class of the profile's library"
        if edit.name.startswith(MORE):
            return 'has a name of the companion library'
        if edit.major not in (51, 52):
            return f'its major version is {edit.major}, and not 51 or 52: compile with --release 8'
        return None

    def find_suites(self):
        """Lowers the test classes' files as far as tests go, and tells the tests of each class that can have some."""
        units = {name: unit for name, unit in list(self.world.units.items()) if unit and unit.origin == TESTS}
        # A class around another one first.
        for unit in sorted(units.values(), key=lambda unit: unit.edit.name.count('$')):
            try:
                unit.suite = self.suites.lower(unit.edit)
            except WRONG as fault:
                raise Damaged(f'{unit.place} is no class file that is read: {fault}') from None
        self.tests, self.ignored = {}, {}
        for name, unit in units.items():
            self.ignored.update({f'{name}.{test}': why for test, why in unit.suite.out})
            if is_concrete(unit.edit.flags) and self.world.info(name) is not None:
                self.find_tests(name, unit)

    def find_tests(self, name, unit):
        found, hidden, off = [], set(), None
        for above in self.world.names_above(name):
            suite = self.suite_of(above)
            if suite is not None:
                found += [test for test in suite.tests if (test, '()V') not in hidden]
                hidden |= set(suite.methods)
                off = off or suite.off
        if ('<init>', '()V') not in {method.key for method in unit.edit.methods}:
            off = off or 'has no constructor without arguments'
        if found:
            self.tests[name] = found
            if off:
                self.class_off[name] = off

    def suite_of(self, name):
        unit = self.world.unit(name)
        return unit.suite if unit is not None else None

    def edit_of(self, name):
        unit = self.world.unit(name)
        return unit.edit if unit is not None else None

    # What an earlier call found out.

    def take_decisions(self, affected):
        """Takes over what was decided of classes that come to nothing that changed."""
        self.cuts = {name: {tuple(key): why for key, why in rows} for name, rows in self.state.get('cuts').items() if name not in affected}
        self.off = {name: dict(rows) for name, rows in self.state.get('off').items() if name not in affected}
        self.class_off = {name: why for name, why in self.state.get('class_off').items() if name not in affected}
        for name, why in self.state.get('world_out').items():
            if name not in affected and name in self.world.units:
                self.world.out[name] = why
                self.world.units[name] = None

    def heads(self):
        """A sum over what classes say of one another: where it is as before, an unchanged class file is lowered as before."""
        heads = [(name, unit.origin, unit.edit.flags, unit.edit.above, unit.edit.interfaces,
                  [(member.flags, *member.key) for member in (*unit.edit.fields, *unit.edit.methods)])
                 for name, unit in sorted(self.world.units.items()) if unit and unit.origin in (CODE, TESTS)]
        subtle = self.lowering.floats.are_arrays_subtle
        return sum_of(repr((heads, sorted(self.world.out), subtle)).encode('utf-8', 'surrogatepass'))

    def reuse_lowered(self, changed):
        self.head_sum = self.heads()
        if self.state.get('heads') != self.head_sum:
            return
        for name, kept in self.state.get('lowered').items():
            if name not in changed and kept['decided'] == self.decided(name):
                data = [(made, self.written(name, made)) for made in kept['made']]
                if all(content is not None for _, content in data):
                    done = Lowered(None)
                    done.names, done.literals = set(kept['names']), set(kept['literals'])
                    done.cuts = {tuple(key): why for key, why in kept['cuts']}
                    self.lowered[name] = done, data

    def written(self, name, made):
        unit = self.world.unit(name)
        path = self.path_of(unit, made) if unit is not None else None
        if path is None or self.folder.written.get(path) is None or self.folder.sum_at(path) != self.folder.written[path]:
            return None
        with open(os.path.join(self.folder.path, path), 'rb') as stream:
            return stream.read()

    def decided(self, name):
        """What was decided of a class, in a form that can be kept."""
        return [sorted([*key, why] for key, why in self.cuts.get(name, {}).items()),
                sorted([test, why] for test, why in self.off.get(name, {}).items()), self.class_off.get(name)]

    # Lowering.

    @staticmethod
    def path_of(unit, name):
        return f'{CODE if unit.origin == CODE else TESTS}/{name}.class'

    def fresh(self, name, unit):
        """The lowered class file of a unit, by all that was decided of it."""
        try:
            return self.lowered_file(name, unit)
        except WRONG as fault:
            what = fault if isinstance(fault, Refused) else 'its code or its attributes are wrong'
            raise Damaged(f'{unit.place} is no class file that is read: {what}, in {name}') from None

    def lowered_file(self, name, unit):
        edit = ClassEdit(unit.data)
        if unit.origin == TESTS:
            self.suites.lower(edit)
            if name in self.class_off:
                self.suites.ignore_class(edit, self.class_off[name])
            for test, why in sorted(self.off.get(name, {}).items()):
                self.suites.ignore_test(edit, test, why)
        return self.lowering.lower(edit, self.cuts.get(name, {}))

    def is_lowered(self, name, unit):
        """Lowers a unit, unless that was done; a class of a jar that is damaged isn't there, nor one whose members clash."""
        if name not in self.lowered:
            try:
                done = self.fresh(name, unit)
            except Clash as clash:
                self.world.leave_out(name, str(clash))
                return False
            except Damaged as fault:
                if unit.origin != JAR:
                    raise
                self.world.leave_out(name, str(fault))
                return False
            self.lowered[name] = done, [(made.name, made.written()) for made in (done.edit, *done.made)]
        return True

    def lower_reached(self):
        """Lowers the code, the tests and all that these reach, and makes stubs of the classes of Java that are named besides; gives the files by path.
        Without tests there are none."""
        todo, self.reached, files = [name for name in self.tests if name not in self.class_off], set(), {}
        if todo:
            todo += [name for name, unit in self.world.units.items() if unit and unit.origin in (CODE, TESTS)]
        while todo:
            name = todo.pop()
            if name in self.reached:
                continue
            self.reached.add(name)
            if self.world.info(name) is None or name in self.world.library or name == known.NAME:
                continue
            unit = self.world.unit(name)
            if unit is None:
                head = self.world.info(name)
                stub = self.lowering.floats.stub(head)
                files[f'{TESTS}/{stub.name}.class'] = stub.written()
                todo += [*head.interfaces, *([head.above] if head.above else [])]
                continue
            if not self.is_lowered(name, unit):
                continue
            done, made = self.lowered[name]
            files.update({self.path_of(unit, own): data for own, data in made})
            todo += done.names
        if known.NAME in self.reached:
            self.add_known(files)
        return files

    def add_known(self, files):
        told = self.told()
        heads = self.literals(told)
        for name in known.PRIMITIVES:
            files[f'{TESTS}/{name}.class'] = new_class(name, PUBLIC_FINAL, 'java/lang/Object').written()
            heads.append(Class(name, PUBLIC_FINAL, None, []))
        files[f'{TESTS}/{known.NAME}.class'] = known.known(heads, self.world.all_above, self.lowering.floats, told)

    def told(self):
        """The classes whose methods the code may ask for, where it asks for those of some: all but Java's own."""
        units = {name: self.world.unit(name) for name in self.reached}
        own = {name: unit for name, unit in units.items() if unit is not None and unit.origin != COMPANION}
        asks = any(b'getDeclaredMethods' in unit.data for unit in own.values())
        return set(own) if asks and len(own) < known.MOST_CLASSES // 2 else set()

    def literals(self, told):
        """The heads of the classes that the code names as such, of enums, of those that are told with what their methods name, and of what stands above
        them."""
        names = {of for name in told for method in self.world.info(name).methods.values() for of in classes_in(method.descriptor)}
        names |= told | {name for name in self.reached if self.world.info(name) is not None and self.world.info(name).flags & ENUM}
        for name in self.reached & set(self.lowered):
            names |= self.lowered[name][0].literals
        found = {}
        for name in names:
            while name and name not in found and self.world.info(name) is not None and name in self.reached | set(self.world.library):
                found[name] = self.world.info(name)
                name = found[name].above
        return list(found.values())

    # Asking mutest.

    def settle(self):
        """Lowers, writes and asks until mutest has nothing against it that can be left out; gives its last answer."""
        answer = None
        for _ in range(MOST_ROUNDS):
            started = time.time()
            files = self.lower_reached()
            if not files:
                self.folder.keep_only(())
                return None
            lowered = time.time()
            for path, data in files.items():
                self.folder.put(path, data)
            self.folder.keep_only(files)
            written = time.time()
            answer = trial.ask(os.path.join(HOME, 'mutest'), os.path.join(HOME, 'library', 'nothing'), self.folder.path)
            if os.environ.get('PREPARE_TRACE'):
                took = f'lower {lowered - started:.2f} write {written - lowered:.2f} ask {time.time() - written:.2f}'
                print(f'{took}: {answer.status} {answer.text[:120]!r}', file=sys.stderr, flush=True)
            if not self.learn(answer):
                break
        return answer

    def learn(self, answer):
        """Takes from what mutest tells what else has to be left out; gives whether that was anything."""
        before = self.size_of_decisions()
        for word, *rest in answer.lines:
            if word == 'NotGreen':
                self.leave_out_test(rest[0], ' '.join(rest[1:]))
            elif word == 'BadProgram' and rest[0].startswith('V'):
                self.leave_out_method(rest[1], trial.method_key(rest[2]), f'is refused by the type checker: {rest[0]} at instruction {rest[3]}')
            elif word == 'BadProgram':
                self.leave_out_class(rest[1], f'is refused as part of a program: {rest[0]}')
            elif word == 'BadClass':
                name = os.path.relpath(rest[0], self.folder.path).partition('/')[2].removesuffix('.class')
                self.leave_out_class(name.partition('$$Lambda$')[0], f'is refused as a class file: {" ".join(rest[1:])}')
            elif word in ('RunnerUsed', 'BadTest'):
                self.class_off[rest[0]] = f'is refused as a test class: {" ".join((word, *rest[1:]))}'
                self.lowered.pop(rest[0], None)
        return before != self.size_of_decisions()

    def size_of_decisions(self):
        return len(self.world.out), sum(map(len, self.cuts.values())), sum(map(len, self.off.values())), len(self.class_off)

    def leave_out_test(self, test, why):
        owner, _, name = test.rpartition('.')
        self.off.setdefault(owner, {})[name] = why
        self.lowered.pop(owner, None)

    def leave_out_method(self, owner, key, why):
        home = owner.partition('$$Lambda$')[0]
        if home != owner or key in self.cuts.get(home, {}):
            self.leave_out_class(home, why)
        else:
            self.cuts.setdefault(home, {})[key] = why
            self.lowered.pop(home, None)

    def leave_out_class(self, name, why):
        self.world.leave_out(name, why)
        self.lowering.targets.clear()
        self.lowered.clear()
        self.tests.pop(name, None)

    # Telling.

    def explained(self):
        """Why each test is off; of one that failed, with what it may have come to that isn't there."""
        self.lower_kept()
        edits = {edit.name: (edit, {method.key: method for method in edit.methods})
                 for done, _ in self.lowered.values() if done.edit is not None for edit in (done.edit, *done.made)}
        lacking, found = Lacking(self.world, edits, self.lowering.floats), {}
        for owner, tests in self.off.items():
            around = [key[0] for above in self.world.names_above(owner) for suite in [self.suite_of(above)] if suite is not None
                      for key in suite.around]
            for test, why in tests.items():
                lacks = lacking.nearest(owner, test, around) if why == 'Failed' else None
                found[f'{owner}.{test}'] = why if lacks is None else f'{why}, and may come to {lacks}'
        return found

    def lower_kept(self):
        """Lowers what was taken from an earlier call, since reasons are looked for in the code."""
        for name, (done, files) in list(self.lowered.items()):
            if done.edit is None:
                self.lowered[name] = self.fresh(name, self.world.unit(name)), files

    def summary(self):
        has_failed = any('Failed' in tests.values() for tests in self.off.values())
        off = {f'{name}.{test}': why for name, tests in self.off.items() for test, why in tests.items()}
        off = {**self.ignored, **(self.explained() if has_failed else off)}
        off.update({f'{name}.{test}': why for name, why in self.class_off.items() for test in self.tests.get(name, ())})
        own = [name for name, unit in self.world.units.items() if unit and unit.origin in (CODE, TESTS)]
        out = {**{name: why for name, why in self.world.out.items() if name in self.own_names()}, **self.out,
               **{name: 'no test reaches it' for name in own if name not in self.reached}}
        cut = {f'{name}.{"".join(key)}': why for name in own if name in self.reached and name in self.lowered
               for key, why in self.lowered[name][0].cuts.items()}
        ids = {f'{name}.{test}' for name, tests in self.tests.items() for test in tests}
        return Summary(sum(name in self.reached for name in own), len(ids - set(off)), out, cut, off)

    def own_names(self):
        return {edit.name for _, _, _, edit in self.units_read}

    def save(self, status, text):
        self.state.save({
            'inputs': self.inputs, 'status': status, 'summary': text, 'files': self.folder.written, 'heads': self.head_sum,
            'cuts': {name: sorted([key, why] for key, why in rows.items()) for name, rows in self.cuts.items()},
            'off': self.off, 'class_off': self.class_off,
            'world_out': {name: why for name, why in self.world.out.items() if why.startswith('is refused')},
            'names': {name: sorted(done.names) for name, (done, _) in self.lowered.items()},
            'lowered': {name: {'names': sorted(done.names), 'literals': sorted(done.literals), 'made': [made for made, _ in files],
                               'cuts': sorted([key, why] for key, why in done.cuts.items()), 'decided': self.decided(name)}
                        for name, (done, files) in self.lowered.items()}})
