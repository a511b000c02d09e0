"""Class files made from nothing: stubs, factories of lambdas."""
import struct

from preparing.class_edit import ClassEdit, Code, Member, Pool


def new_class(name, flags, above, interfaces=()):
    made = ClassEdit.__new__(ClassEdit)
    made.major, made.pool, made.flags, made.name, made.above = 52, Pool([(0, None)]), flags, name, above
    made.interfaces, made.fields, made.methods, made.attributes = list(interfaces), [], [], []
    return made


def add_method(owner, flags, name, descriptor, code, stack, slots):
    """A method with straight code; gives it."""
    method = Member(flags, name, descriptor, [])
    method.code = new_code(owner.pool, code, stack, slots)
    method.attributes.append(('Code', None))
    owner.methods.append(method)
    return method


def new_code(pool, code, stack, slots):
    return Code(struct.pack('>HHI', stack, slots, len(code)) + code + b'\0\0\0\0', pool)
