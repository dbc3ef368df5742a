"""bpf(2), by ctypes: the commands that are used of it, each with the part of its attributes that it needs."""
import ctypes
import errno
import os
import struct

# The number of the system call bpf, by machine.
NUMBERS = {"x86_64": 321, "aarch64": 280, "riscv64": 280, "loongarch64": 280, "ppc64le": 361}
CREATE, LOOKUP, UPDATE, DELETE, NEXT, LOAD, TEST_RUN, INFO, TAKE = 0, 1, 2, 3, 4, 5, 10, 15, 21
LOOKUP_BATCH, TAKE_BATCH, UPDATE_BATCH, DELETE_BATCH = 24, 25, 26, 27
SOCKET_FILTER = 1
ENOTSUPP = 524
# What a batch's next start is where the kernel wrote none.
UNWRITTEN = 0xFFFFFFFF

libc = ctypes.CDLL(None, use_errno=True)
number = NUMBERS.get(os.uname().machine)


class NotAllowed(Exception):
    """bpf(2) isn't there, or what is needed of it isn't allowed."""


class MapRefused(Exception):
    """A map that the kernel doesn't create, with the name of the error."""


def name_of(error):
    """As a report names an error."""
    return "enotsupp" if error == ENOTSUPP else errno.errorcode.get(error, f"errno {error}").lower()


def bpf(command, attributes):
    """The result and the error, 0 where there is none. The attributes are a buffer, into which the kernel writes."""
    result = libc.syscall(number, command, attributes, len(attributes))
    return result, ctypes.get_errno() if result < 0 else 0


def opened(what, command, attributes):
    """The descriptor of what is made."""
    if number is None:
        raise NotAllowed(f"the number of bpf(2) on {os.uname().machine} isn't known here")
    descriptor, error = bpf(command, buffer(attributes))
    if error in (errno.EPERM, errno.EACCES, errno.ENOSYS):
        raise NotAllowed(f"bpf(2) isn't allowed here: {what}: {name_of(error).upper()}")
    if error:
        raise OSError(error, f"{what}: {name_of(error)}")
    return descriptor


def buffer(content):
    return ctypes.create_string_buffer(bytes(content), len(content))


def room(size):
    return ctypes.create_string_buffer(max(size, 1))


def create(kind, key_size, value_size, entries, flags):
    words = struct.pack("=7I16s", kind, key_size, value_size, entries, flags, 0, 0, b"beside_kernel")
    try:
        return opened("creating a map", CREATE, words)
    except OSError as why:
        raise MapRefused(name_of(why.errno)) from None


def load(code):
    """A program of the kind socket filter."""
    licence, text = buffer(b"GPL\0"), buffer(code)
    at = map(ctypes.addressof, (text, licence))
    words = struct.pack("=2I2Q2IQ2I16s", SOCKET_FILTER, len(code) // 8, *at, 0, 0, 0, 0, 0, b"beside_kernel")
    return opened("loading a program", LOAD, words)


def test_run(program, packet):
    words = struct.pack("=4I2Q2I", program, 0, len(packet), 0, ctypes.addressof(packet), 0, 1, 0)
    return bpf(TEST_RUN, buffer(words))[1]


def on_element(command, fd, key, other=None, flags=0):
    """One of LOOKUP, UPDATE, DELETE, NEXT, TAKE: its error."""
    at = ctypes.addressof
    words = struct.pack("=I4x3Q", fd, at(key) if key else 0, at(other) if other else 0, flags)
    return bpf(command, buffer(words))[1]


def batch(command, fd, start, keys, values, count, flags):
    """The error, how many elements, and the next start, UNWRITTEN where none was written."""
    at, next_start = ctypes.addressof, buffer(struct.pack("=I", UNWRITTEN))
    first = None if start is None else buffer(struct.pack("=I", start))
    words = (at(first) if first else 0, at(next_start), at(keys), at(values) if values else 0, count, fd, flags, 0)
    attributes = buffer(struct.pack("=4Q2I2Q", *words))
    error = bpf(command, attributes)[1]
    return error, struct.unpack_from("=I", attributes, 32)[0], struct.unpack("=I", next_start)[0]


def capacity(fd):
    """The most entries, as the kernel has them of this map."""
    told = room(80)
    error = bpf(INFO, buffer(struct.pack("=2IQ", fd, len(told), ctypes.addressof(told))))[1]
    if error:
        raise OSError(error, f"asking for the map: {name_of(error)}")
    return struct.unpack_from("=I", told, 16)[0]
