"""Tests in the words of the profile: JUnit 3 gets annotations, what can't be run is ignored with its reason, and tests are counted."""
import struct

from class_files import ABSTRACT, INTERFACE, PRIVATE, STATIC
from preparing import annotations, class_edit as ce
from preparing.builder import add_method

PUBLIC, PROTECTED, SYNTHETIC = 0x1, 0x4, 0x1000
FOUR, FIVE = 'Lorg/junit/', 'Lorg/junit/jupiter/api/'
TEST, TEST_FIVE = FOUR + 'Test;', FIVE + 'Test;'
TESTS, IGNORE = {TEST, TEST_FIVE}, FOUR + 'Ignore;'
OFF = {IGNORE, FIVE + 'Disabled;'}
BEFORE, AFTER = FOUR + 'Before;', FOUR + 'After;'
AROUND_EACH = {BEFORE, AFTER, FIVE + 'BeforeEach;', FIVE + 'AfterEach;'}
AROUND_ALL = {FOUR + 'BeforeClass;', FOUR + 'AfterClass;', FIVE + 'BeforeAll;', FIVE + 'AfterAll;'}
RUN_WITH, EXTEND_WITH = FOUR + 'runner/RunWith;', FIVE + 'extension/ExtendWith;'
NESTED, RULE = FIVE + 'Nested;', FOUR + 'Rule;'
OF_CLASSES = {RUN_WITH, EXTEND_WITH, NESTED}
MAKING = {'Lorg/junit/jupiter/params/ParameterizedTest;', FIVE + 'RepeatedTest;', FIVE + 'TestFactory;', FIVE + 'TestTemplate;',
          'Lorg/junit/experimental/theories/Theory;'}
PLAIN_RUNNERS = {f'Lorg/junit/{name};' for name in ('runners/JUnit4', 'runners/BlockJUnit4ClassRunner', 'internal/runners/JUnit4ClassRunner')}
# Rules without which a test that passes is as strong: what they give is missed where it is used, what they limit is limited here too.
HARMLESS_RULES = {f'Lorg/junit/rules/{name};' for name in ('ExpectedException', 'TemporaryFolder', 'TestName', 'Timeout', 'DisableOnDebug')}
CASE = 'junit/framework/TestCase'
EXPECTING = 'Lorg/junit/rules/ExpectedException;'
ASTORE_1, ALOAD_1 = 0x4c, 0x2b


def class_of(kind):
    return kind[1:-1]


def shown(kind):
    return kind[1:-1].rpartition('/')[2]


class Suite:
    """What a test class's own file says of its tests."""

    def __init__(self):
        self.tests, self.methods, self.around, self.off, self.out = [], {}, [], None, []


class Suites:
    """Reads and lowers the test classes; `above` gives the names of a class and its superclasses, `edit_of` the class file of a name, or None."""

    def __init__(self, above, edit_of):
        self.above, self.edit_of = above, edit_of

    def lower(self, edit):
        """Lowers a test class's file in place, and tells what its own methods are."""
        suite, pool = Suite(), edit.pool
        above = self.above(edit.name)
        is_three = CASE in above
        if is_three:
            self.lower_three(edit, suite)
        for found in annotations.annotations_of(edit, pool):
            if found.kind in OF_CLASSES and not (found.kind == RUN_WITH and found.elements.get('value') in PLAIN_RUNNERS):
                value = found.elements.get('value')
                value = value[0] if isinstance(value, list) and value else value
                if found.kind != NESTED or not self.lower_nested(edit):
                    suite.off = f'has the annotation {shown(found.kind)}' + (f' of {shown(value)}' if isinstance(value, str) else '')
        annotations.drop(edit, pool, OF_CLASSES.__contains__)
        expecting = self.expecting_field(edit)
        for field in edit.fields:
            if any(one.kind == RULE for one in annotations.annotations_of(field, pool)) and field.descriptor not in HARMLESS_RULES:
                suite.off = suite.off or f'has a rule of {shown(field.descriptor)}'
            annotations.drop(field, pool, {RULE, EXTEND_WITH}.__contains__)
        for method in list(edit.methods):
            self.lower_method(edit, method, suite)
            if expecting is not None and method.name in suite.tests and method.descriptor == '()V':
                self.lower_expecting(edit, method, expecting)
        return suite

    def lower_nested(self, edit):
        """Makes a nested class's constructor one without arguments, which makes the object around it, where nothing runs around that one's tests."""
        outer = edit.name.rpartition('$')[0]
        taken = [method.descriptor for method in edit.methods if method.name == '<init>']
        for name in self.above(outer):
            around = self.edit_of(name)
            if around is not None and any(one.kind in AROUND_EACH | AROUND_ALL for method in around.methods
                                          for one in annotations.annotations_of(method, around.pool)):
                return False
        around, pool = self.edit_of(outer), edit.pool
        if taken != [f'(L{outer};)V'] or around is None or around.flags & ABSTRACT:
            return False
        init = next(method for method in edit.methods if method.name == '<init>')
        if not any(method.key == ('<init>', '()V') and not method.flags & PRIVATE for method in around.methods):
            return False
        if init.code.attribute('StackMapTable') is not None or ce.length_of(init.code.code, 0) != 1:
            return False
        made = pool.add_member(ce.METHOD_REF, outer, '<init>', '()V')
        begin = struct.pack('>BHBBHB', ce.NEW, pool.add_class(outer), ce.DUP, ce.INVOKESPECIAL, made, ASTORE_1)
        init.code.replace({0: begin + bytes(init.code.code[:1])})
        init.code.stack, init.descriptor = max(init.code.stack, 2), '()V'
        edit.attributes = [row for row in edit.attributes if row[0] != 'InnerClasses']
        return True

    def expecting_field(self, edit):
        """The owner and the name of the field with a rule that expects exceptions, of a class or one above it."""
        for name in self.above(edit.name):
            found = self.edit_of(name)
            for field in found.fields if found is not None else ():
                if field.descriptor == EXPECTING and not field.flags & STATIC:
                    return name, field.name
        return None

    @staticmethod
    def lower_expecting(edit, method, field):
        """Puts the rule's question around a test's body, which becomes a method of its own."""
        pool, name = edit.pool, method.name
        marks = [row for row in method.attributes if row[0] == annotations.VISIBLE]
        method.attributes = [row for row in method.attributes if row[0] != annotations.VISIBLE]
        method.name = name + '$expecting'
        rule = pool.add_member(ce.FIELD_REF, field[0], field[1], EXPECTING)
        caught = pool.add_class('java/lang/Throwable')
        ended = pool.add_member(ce.METHOD_REF, class_of(EXPECTING), 'ended', '()V')
        code = struct.pack('>BBHBBHBHB', ce.ALOAD_0, ce.INVOKEVIRTUAL, pool.add_member(ce.METHOD_REF, edit.name, method.name, '()V'),
                           ce.ALOAD_0, ce.GETFIELD, rule, ce.INVOKEVIRTUAL, ended, ce.RETURN)
        handler = len(code)
        code += struct.pack('>BBBHBBHB', ASTORE_1, ce.ALOAD_0, ce.GETFIELD, rule, ALOAD_1, ce.INVOKEVIRTUAL,
                            pool.add_member(ce.METHOD_REF, class_of(EXPECTING), 'caught', '(Ljava/lang/Throwable;)V'), ce.RETURN)
        around = add_method(edit, method.flags, name, '()V', code, 2, 2)
        around.attributes += marks
        around.code.handlers = [(0, 4, handler, caught)]
        around.code.attributes = [('StackMapTable', struct.pack('>HBBH', 1, 64 + handler, 7, caught))]

    def lower_three(self, edit, suite):
        pool = edit.pool
        for method in edit.methods:
            if method.descriptor == '()V' and method.flags & PUBLIC and not method.flags & (STATIC | ABSTRACT) and method.name.startswith('test'):
                annotations.add(method, pool, TEST)
            elif method.key in (('setUp', '()V'), ('tearDown', '()V')):
                method.flags = method.flags & ~PROTECTED | PUBLIC
                annotations.add(method, pool, BEFORE if method.name == 'setUp' else AFTER)
            elif method.name in ('runBare', 'runTest', 'run') and not method.flags & ABSTRACT and method.descriptor in ('()V',):
                suite.off = f'runs its tests itself, in {method.name}'
        inits = {method.descriptor: method for method in edit.methods if method.name == '<init>'}
        if not edit.flags & (ABSTRACT | INTERFACE) and '()V' not in inits and '(Ljava/lang/String;)V' in inits:
            code = struct.pack('>BBHBHB', ce.ALOAD_0, ce.LDC_W, pool.add_string('test'), ce.INVOKESPECIAL,
                               pool.add_member(ce.METHOD_REF, edit.name, '<init>', '(Ljava/lang/String;)V'), ce.RETURN)
            add_method(edit, PUBLIC | SYNTHETIC, '<init>', '()V', code, 2, 1)
        for method in edit.methods:
            # JUnit 4 asks a public `suite` for the tests.
            if method.name == 'suite' and method.descriptor.startswith('()') and method.flags & STATIC:
                method.flags = method.flags & ~PUBLIC | PROTECTED
        for descriptor, method in inits.items():
            # JUnit 4 takes a class with one public constructor.
            if descriptor != '()V' and method.flags & PUBLIC:
                method.flags = method.flags & ~PUBLIC | PROTECTED

    @staticmethod
    def lower_method(edit, method, suite):
        pool = edit.pool
        kinds = {one.kind for one in annotations.annotations_of(method, pool)}
        made = kinds & MAKING
        if made:
            suite.out.append((method.name, f'has the annotation {shown(min(made))}'))
            annotations.drop(method, pool, lambda kind: kind in MAKING or kind in TESTS)
            kinds -= MAKING | TESTS
        annotations.drop(method, pool, {RULE, EXTEND_WITH}.__contains__)
        if RULE in kinds:
            suite.off = suite.off or 'has a rule that a method gives'
        if kinds & TESTS and not kinds & OFF:
            wrong = ('takes or gives something' if method.descriptor != '()V' else 'is static' if method.flags & STATIC else
                     'is private' if method.flags & PRIVATE else None)
            if wrong:
                suite.out.append((method.name, f'is a test that {wrong}'))
                annotations.drop(method, pool, TESTS.__contains__)
                kinds -= TESTS
        around = kinds & (AROUND_EACH | AROUND_ALL)
        if around:
            suite.around.append(method.key)
            if method.descriptor != '()V' or bool(method.flags & STATIC) != bool(around & AROUND_ALL) or method.flags & PRIVATE:
                suite.off = suite.off or f'has {method.name}{method.descriptor}, which can\'t be called around tests'
        if kinds & TESTS and not kinds & OFF and not method.flags & ABSTRACT:
            suite.tests.append(method.name)
        elif kinds & TESTS and kinds & OFF:
            suite.out.append((method.name, 'is ignored'))
        suite.methods[method.key] = method.flags

    @staticmethod
    def ignore_class(edit, why):
        annotations.add(edit, edit.pool, IGNORE, why)

    @staticmethod
    def ignore_test(edit, name, why):
        """Ignores a test of a class: its method, or one that is put before an inherited one."""
        pool = edit.pool
        own = next((method for method in edit.methods if method.key == (name, '()V')), None)
        if own is None:
            code = struct.pack('>BBHB', ce.ALOAD_0, ce.INVOKESPECIAL, pool.add_member(ce.METHOD_REF, edit.above, name, '()V'), ce.RETURN)
            own = add_method(edit, PUBLIC | SYNTHETIC, name, '()V', code, 1, 1)
            annotations.add(own, pool, TEST)
        annotations.add(own, pool, IGNORE, why)


def is_concrete(flags):
    return not flags & (ABSTRACT | INTERFACE)
