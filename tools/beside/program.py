"""A BPF program that makes a program's lookup, update or delete, as told in an array map; assembled here."""
import ctypes
import os
import struct

import system

# The helpers bpf_map_lookup_elem, .._update_elem and .._delete_elem, by whose numbers a verb is told too.
LOOKUP, UPDATE, DELETE = 1, 2, 3
# Where in the array's value these stand; the key follows, and the value behind it.
VERB, FLAGS, RESULT, KEY = 0, 8, 16, 24
ENOENT = 2
# The code of a load or a store of so many bytes.
SIZES = {8: 0x18, 4: 0x00, 2: 0x08, 1: 0x10}


def instruction(code, to=0, by=0, offset=0, number=0):
    return struct.pack("=BBhi", code, to | by << 4, offset, number)


def move(to, by):
    return instruction(0xBF, to, by)


def set_to(to, number):
    return instruction(0xB7, to, number=number)


def add(to, number):
    return instruction(0x07, to, number=number)


def read(size, to, by, offset):
    """to = *(by + offset)"""
    return instruction(0x61 | SIZES[size], to, by, offset)


def write(size, to, offset, by):
    """*(to + offset) = by"""
    return instruction(0x63 | SIZES[size], to, by, offset)


def choose(register, number, then, other):
    """`then` where the register is the number, `other` where it isn't."""
    other += instruction(0x05, offset=len(then) // 8)
    return instruction(0x15, register, offset=len(other) // 8, number=number) + other + then


def call(helper):
    return instruction(0x85, number=helper)


def address_of_map(to, fd):
    return instruction(0x18, to, 1, number=fd) + instruction(0)


def address_of_value(to, fd):
    """Of the first value of an array map."""
    return instruction(0x18, to, 2, number=fd) + instruction(0)


def copy(size, to, offset, by):
    code, at = b"", 0
    while at < size:
        part = next(part for part in SIZES if part <= size - at)
        code += read(part, 1, by, at) + write(part, to, offset + at, 1)
        at += part
    return code


def assemble(map_fd, array_fd, key_size, value_size):
    """Register 6 is the array's value, 0 at last what the helper answered, or -ENOENT of a lookup that found nothing."""
    value = KEY + -(-key_size // 8) * 8
    found = copy(value_size, 6, value, 0) + set_to(0, 0)
    lookup = call(LOOKUP) + choose(0, 0, set_to(0, -ENOENT), found)
    update = move(3, 6) + add(3, value) + read(8, 4, 6, FLAGS) + call(UPDATE)
    delete = call(DELETE)
    code = address_of_value(6, array_fd) + read(8, 7, 6, VERB)
    code += address_of_map(1, map_fd) + move(2, 6) + add(2, KEY)
    code += choose(7, UPDATE, update, choose(7, DELETE, delete, lookup))
    return code + write(4, 6, RESULT, 0) + set_to(0, 0) + instruction(0x95)


class Caller:
    """Makes a program's calls on one map."""

    def __init__(self, map_fd, made):
        self.value = KEY + -(-made.key_size // 8) * 8
        self.packet, self.index = system.buffer(bytes(64)), system.buffer(bytes(4))
        self.value_size = made.value_size
        self.size = self.value + -(-made.value_size // 8) * 8
        self.told = system.room(self.size)
        self.array = system.create(2, 4, self.size, 1, 0)
        try:
            self.program = system.load(assemble(map_fd, self.array, made.key_size, made.value_size))
        except BaseException:
            os.close(self.array)
            raise

    def close(self):
        os.close(self.program)
        os.close(self.array)

    def call(self, verb, key, value=b"", flags=0):
        """The error, 0 where there is none, and the value that a lookup found."""
        told = struct.pack("=QQQ", verb, flags, 0) + key
        told = told.ljust(self.value, b"\0") + value
        ctypes.memmove(self.told, told.ljust(self.size, b"\0"), self.size)
        for error in (
            system.on_element(system.UPDATE, self.array, self.index, self.told),
            system.test_run(self.program, self.packet),
            system.on_element(system.LOOKUP, self.array, self.index, self.told),
        ):
            if error:
                raise OSError(error, f"running a program: {system.name_of(error)}")
        result = struct.unpack_from("=i", self.told, RESULT)[0]
        return -result, self.told.raw[self.value : self.value + self.value_size]
