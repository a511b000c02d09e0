"""Lowers one class file to the profile: what its methods need that the profile lacks is put in other words, one instruction for one, or cut out."""
import struct

from class_files import FLOAT_OPCODES, NATIVE, STATIC, has_float
from preparing import class_edit as ce
from preparing.builder import new_code
from preparing.class_edit import TooLong
from preparing.companion import MORE
from preparing.floats import ARRAYS, BITS, NUMBER, OBJECT, SOFT, Floats
from preparing.lambdas import Lambdas, NoLambda, slots_of
from preparing.stores import stores

CLASS_OF_FLOATS = 'asks for the class of an array of floats or Numbers'
LEFT_OUT_ERROR = 'java/lang/LinkageError'
KEPT_OF_CLASS = {'SourceFile', 'RuntimeVisibleAnnotations', 'RuntimeInvisibleAnnotations', 'InnerClasses', 'Synthetic'}
KEPT_OF_MEMBER = {'Code', 'ConstantValue', 'Exceptions', 'RuntimeVisibleAnnotations', 'RuntimeInvisibleAnnotations', 'Synthetic'}
STRICT = 0x800


class Cut(Exception):
    """A method that can't be lowered, with what is outside of the profile."""


def classes_in(descriptor):
    """The names of the classes in a descriptor, or in the name of an array's class."""
    found, at = [], descriptor.find('L')
    while at >= 0:
        end = descriptor.index(';', at)
        found.append(descriptor[at + 1:end])
        at = descriptor.find('L', end)
    return found


def classes_of(name):
    return classes_in(name) if name.startswith('[') else [name]


class Lowered:
    """A class file in other words: the file itself and those that were made beside it, what it names, and what was cut out of it."""

    def __init__(self, edit):
        self.edit, self.made, self.names, self.literals, self.cuts = edit, [], set(), set(), {}


class Lowering:
    def __init__(self, program, companion, jdk):
        self.program, self.companion, self.jdk = program, companion, jdk
        self.targets, self.floats = {}, Floats(program, companion)

    def lower(self, edit, cuts):
        """Lowers a class file in place; `cuts` has methods that are cut out besides, by name and descriptor, with why."""
        done = Lowered(edit)
        self.put_supers(edit)
        for member in (*edit.fields, *edit.methods):
            member.attributes = [row for row in member.attributes if row[0] in KEPT_OF_MEMBER]
        lambdas = Lambdas(edit)
        methods = list(edit.methods)
        for method in methods:
            why = self.floats.is_cut(cuts, method)
            if why is None:
                why = self.lower_method(edit, method, lambdas, done)
            if why is not None:
                self.cut(edit, method, why)
                done.cuts[method.key] = why
        for method in edit.methods[len(methods):]:
            self.lower_method(edit, method, lambdas, done)
        for method in edit.methods:
            self.add_names(edit, method, done)
        edit.attributes = [row for row in edit.attributes if row[0] in KEPT_OF_CLASS]
        done.names |= {edit.above, *edit.interfaces} - {None}
        for field in edit.fields:
            done.names.update(classes_in(field.descriptor))
        if NUMBER in done.names:
            done.names.add(MORE + NUMBER)
        self.floats.rename(edit)
        edit.pool.make_plain()
        edit.major = 52
        for made in lambdas.made:
            beside = self.lower(made, {})
            done.made += [made, *beside.made]
            done.names |= beside.names
            done.literals |= beside.literals
        return done

    def put_supers(self, edit):
        if edit.above and not edit.name.startswith(MORE):
            edit.above = self.companion.subclass(edit.above)
        edit.interfaces += [name for name in self.program.more_above(edit.name) if name not in edit.interfaces]

    def lower_method(self, edit, method, lambdas, done):
        """Puts a method's instructions in other words; gives why that can't be."""
        if method.flags & NATIVE:
            return 'is native'
        if method.code is None:
            return None
        code, pool = method.code, edit.pool
        with_bytes, news, dropped = {}, {}, set()
        mark = lambdas.mark()
        try:
            naming = code.naming()
            if self.floats.are_arrays_subtle and edit.name not in self.companion.files:
                for at in stores(edit, method):
                    self.floats.lower_store(pool, at, with_bytes)
            for at, op in naming:
                self.lower_instruction(edit, method, at, op, lambdas, with_bytes, news, dropped)
            if with_bytes:
                code.replace(with_bytes, dropped)
        except (Cut, NoLambda) as cut:
            lambdas.reset(mark)
            return str(cut)
        except TooLong as long:
            lambdas.reset(mark)
            return f'{long} once it is lowered'
        return None

    def lower_instruction(self, edit, method, at, op, lambdas, with_bytes, news, dropped):
        code, pool = method.code, edit.pool
        if op in FLOAT_OPCODES:
            self.floats.lower(code, pool, at, op, with_bytes)
        elif op == ce.NEWARRAY:
            self.floats.lower_new_array(code, pool, at, with_bytes)
        elif op == ce.WIDE:
            if code.code[at + 1] == 0xa9:
                raise Cut('has the opcode 0xa9, which is not read')
            self.floats.lower_wide(code, at)
        elif op in (ce.LDC, ce.LDC_W, ce.LDC2_W):
            index = code.code[at + 1] if op == ce.LDC else code.operand(at)
            kind = self.floats.kind_of(pool, index)
            if kind is not None:
                with_bytes[at] = struct.pack('>BH', ce.LDC_W, pool.add_class(kind))
            else:
                self.judge_constant(pool, index)
        elif op == ce.INVOKEDYNAMIC:
            target = lambdas.factory(code.operand(at))
            with_bytes[at] = struct.pack('>BH', ce.INVOKESTATIC, target)
        elif ce.GETSTATIC <= op <= ce.PUTFIELD:
            self.lower_field(edit, code, at, op)
        elif ce.INVOKEVIRTUAL <= op <= ce.INVOKEINTERFACE:
            self.lower_call(edit, method, at, op, with_bytes, news, dropped)
        elif op in (ce.NEW, ce.ANEWARRAY, ce.CHECKCAST, ce.INSTANCEOF, ce.MULTIANEWARRAY):
            name = pool.class_name(code.operand(at))
            is_array = edit.name != ARRAYS and self.floats.lower_array(code, pool, at, op, name, with_bytes)
            if is_array is None:
                raise Cut('has an array of Numbers of more than one dimension' if NUMBER in name else
                          'has an array of numbers of more than three dimensions')
            if is_array:
                return
            if op in (ce.CHECKCAST, ce.INSTANCEOF):
                self.lower_test(edit, code, at, op, name)
            elif op == ce.NEW:
                news.setdefault(name, []).append(at)
                if name in self.companion.subclasses and edit.name != MORE + name:
                    code.put_operand(at, pool.add_class(MORE + name))
        else:
            raise Cut(f'has the opcode {op:#x}, which is not read')

    def lower_test(self, edit, code, at, op, name):
        """Puts a method of the companion library in the place of a cast, or of a question for a class, where it has one."""
        called, stated = ('cast', '(Ljava/lang/Object;)Ljava/lang/Object;') if op == ce.CHECKCAST else ('isInstance', '(Ljava/lang/Object;)Z')
        found = self.companion.method((name, called, stated), edit.name)
        if found is not None and edit.name != MORE + name:
            code.code[at] = ce.INVOKESTATIC
            code.put_operand(at, edit.pool.add_member(ce.INTERFACE_REF if found[1] else ce.METHOD_REF, found[0], called, stated))

    @staticmethod
    def judge_constant(pool, index):
        kind, value = pool.entries[index]
        if kind in (ce.METHOD_HANDLE, ce.METHOD_TYPE, ce.DYNAMIC):
            raise Cut('has a constant of a method or a dynamic constant')
        if kind == ce.CLASS and pool.text(value).startswith('[') and (has_float(pool.text(value)) or f'[L{NUMBER};' in pool.text(value)):
            raise Cut(CLASS_OF_FLOATS)

    def lower_field(self, edit, code, at, op):
        owner, name, descriptor, _ = edit.pool.member(code.operand(at))
        if op == ce.GETSTATIC:
            target = self.target_of_field(owner, name, descriptor)
            if target is not None and target != edit.name:
                code.put_operand(at, edit.pool.add_member(ce.FIELD_REF, target, name, descriptor))

    def target_of_field(self, owner, name, descriptor):
        key = ('field', owner, name, descriptor)
        if key not in self.targets:
            found = self.program.class_of(owner)
            target = None
            if found is None or self.program.field(found, (name, descriptor)) is None:
                fields = self.companion.fields
                target = next((fields[above, name, descriptor] for above in self.program.java_above(owner) if (above, name, descriptor) in fields), None)
            self.targets[key] = target
        return self.targets[key]

    def lower_call(self, edit, method, at, op, with_bytes, news, dropped):
        code, pool = method.code, edit.pool
        owner, name, descriptor, _ = pool.member(code.operand(at))
        if name == 'clone' and owner.startswith('['):
            if edit.name != ARRAYS:
                self.floats.clone(pool, code, at, owner)
            return
        if (owner, name) in BITS:
            code.code[at:at + 3] = self.floats.call(pool, SOFT, 'bits', self.floats.descriptor_of(descriptor))
            return
        if name == '<init>':
            self.lower_constructor(edit, code, at, owner, descriptor, with_bytes, news, dropped)
            return
        if op == ce.INVOKESPECIAL:
            if owner in self.companion.subclasses and owner != edit.name and edit.above == MORE + owner and not edit.name.startswith(MORE):
                code.put_operand(at, pool.add_member(ce.METHOD_REF, MORE + owner, name, descriptor))
            return
        stated = self.target_of_call(op, owner, name, descriptor)
        target = self.companion.method(stated, edit.name) if stated is not None else None
        if target is None:
            return
        (where, is_interface), stated = target, stated[2]
        index = pool.add_member(ce.INTERFACE_REF if is_interface else ce.METHOD_REF, where, name, stated)
        if op == ce.INVOKEINTERFACE:
            with_bytes[at] = struct.pack('>BH', ce.INVOKESTATIC, index)
        else:
            code.code[at] = ce.INVOKESTATIC
            code.put_operand(at, index)

    def target_of_call(self, op, owner, name, descriptor):
        """Of which class of Java the companion library has a static method that stands for a method, with its name and descriptor; or None."""
        key = (op == ce.INVOKESTATIC, owner, name, descriptor)
        if key not in self.targets:
            self.targets[key] = self.searched_target(*key)
        return self.targets[key]

    def searched_target(self, is_static, owner, name, descriptor):
        methods = self.companion.methods

        def stated(above):
            return descriptor if is_static else f'(L{above};{descriptor[1:]}'
        if (owner, name, stated(owner)) in methods:
            return owner, name, stated(owner)
        found = self.program.class_of(owner)
        if found is not None and self.program.method(found, (name, descriptor)) is not None:
            return None
        for above in self.program.java_above(owner):
            if (above, name, stated(above)) in methods:
                return above, name, stated(above)
        return None

    def lower_constructor(self, edit, code, at, owner, descriptor, with_bytes, news, dropped):
        pool, begun = edit.pool, news.get(owner)
        started = begun.pop() if begun else None
        stated = f'(L{owner};L{owner};{descriptor[1:-1]}L{owner};'
        maker = self.companion.method((owner, 'make', stated), edit.name)
        if owner in self.companion.subclasses and (maker is None or started is None):
            if edit.name != MORE + owner and (started is not None or edit.above != owner):
                code.put_operand(at, pool.add_member(ce.METHOD_REF, MORE + owner, '<init>', descriptor))
            return
        if owner == NUMBER and edit.above == NUMBER:
            code.put_operand(at, pool.add_member(ce.METHOD_REF, OBJECT, '<init>', descriptor))
            return
        marks = self.floats.marks_of(owner, descriptor)
        if marks:
            called = pool.add_member(ce.METHOD_REF, owner, '<init>', self.floats.marked(descriptor, marks))
            with_bytes[at] = bytes([ce.ACONST_NULL] * marks) + struct.pack('>BH', ce.INVOKESPECIAL, called)
            code.stack += marks
            return
        if started is None or maker is None or code.code[started + 3] != ce.DUP or edit.name == MORE + owner:
            return
        found = self.program.class_of(owner)
        if found is not None and ('<init>', descriptor) in found.methods:
            return
        with_bytes[started] = bytes([ce.ACONST_NULL])
        dropped.add(started)
        code.code[at] = ce.INVOKESTATIC
        code.put_operand(at, pool.add_member(ce.INTERFACE_REF if maker[1] else ce.METHOD_REF, maker[0], 'make', stated))

    @staticmethod
    def cut(edit, method, why):
        """Puts a body that throws an error in the place of a method's own."""
        pool = edit.pool
        method.flags &= ~(NATIVE | STRICT)
        init = pool.add_member(ce.METHOD_REF, LEFT_OUT_ERROR, '<init>', '(Ljava/lang/String;)V')
        code = struct.pack('>BHBBHBHB', ce.NEW, pool.add_class(LEFT_OUT_ERROR), ce.DUP, ce.LDC_W, pool.add_string('cut out: ' + why),
                           ce.INVOKESPECIAL, init, ce.ATHROW)
        slots = slots_of(method.descriptor) + (0 if method.flags & STATIC else 1)
        method.code = new_code(pool, code, 3, slots)
        if not any(name == 'Code' for name, _ in method.attributes):
            method.attributes.append(('Code', None))

    @staticmethod
    def add_names(edit, method, done):
        """The classes that a method names: in its descriptor, its instructions with what these call, its handlers and its frames."""
        pool, code, names = edit.pool, method.code, done.names
        names.update(classes_in(method.descriptor))
        if code is None:
            return
        for at, op in code.naming():
            if ce.GETSTATIC <= op <= ce.INVOKEINTERFACE:
                owner, _, descriptor, _ = pool.member(code.operand(at))
                names.update(classes_of(owner))
                names.update(classes_in(descriptor))
            elif op in (ce.LDC, ce.LDC_W):
                kind, value = pool.entries[code.code[at + 1] if op == ce.LDC else code.operand(at)]
                if kind == ce.CLASS:
                    names.update(classes_of(pool.text(value)))
                    done.literals.update(classes_of(pool.text(value)))
            elif op == ce.ANEWARRAY:
                names.update(classes_of(pool.class_name(code.operand(at))))
                done.literals.update(classes_of(pool.class_name(code.operand(at))))
            elif op in (ce.NEW, ce.CHECKCAST, ce.INSTANCEOF, ce.MULTIANEWARRAY):
                names.update(classes_of(pool.class_name(code.operand(at))))
        for *_, kind in code.handlers:
            if kind:
                names.add(pool.class_name(kind))
        frames = code.attribute('StackMapTable')
        if frames is not None:
            for index in ce.frame_classes(frames):
                names.update(classes_of(pool.class_name(index)))
