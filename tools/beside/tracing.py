"""Programs that are attached to the kernel's functions of hash maps, and tell each call on one map by a ring buffer."""
import collections
import ctypes
import errno
import mmap
import os
import struct

import system
from limits import REFUSED, Stop
from program import add, address_of_map, address_of_value, call, instruction, move, read, set_to, write
from system import NotAllowed

BTF = "/sys/kernel/btf/vmlinux"
KINDS = {1: "hash", 5: "percpu_hash", 9: "lru_hash", 10: "lru_percpu_hash"}
RAW_TRACEPOINT_OPEN, GET_FD_BY_ID = 17, 14
TRACING, RAW_TRACEPOINT, FENTRY, RINGBUF, ARRAY = 26, 17, 24, 27, 2
# Helpers.
CPU, PID, CURRENT, READ_USER, READ_KERNEL, RESERVE, SUBMIT, TASK, REGS = 8, 14, 35, 112, 113, 131, 132, 158, 175
# The commands of bpf(2) that make a call of each verb.
COMMANDS = {"lookup": (1,), "update": (2, 26), "delete": (3, 27), "next": (4,)}
# By machine: where a task's registers have the number of its system call, and its first and its second argument.
REGISTERS = {"x86_64": (120, 112, 104), "aarch64": (280, 0, 8)}
# Of the commands of bpf(2) on one element the verb.
VERBS = {1: "syslookup", 2: "sysupdate", 3: "delete", 4: "next", 21: "take"}
# Where the kernel's types have what leads from a task and a descriptor to its map.
MEMBERS = {("bpf_map", "id"), ("task_struct", "files"), ("files_struct", "fdt"), ("fdtable", "fd"), ("file", "private_data")}
# The functions, each with its verb. Where a name is told twice the inner one is left out (Recorder.is_inner).
FUNCTIONS = {
    "hash": {"htab_map_update_elem": "update", "htab_map_delete_elem": "delete", "htab_map_lookup_elem": "lookup",
             "__htab_map_lookup_elem": "lookup", "htab_map_lookup_and_delete_elem": "take",
             "htab_map_lookup_batch": "batch_lookup", "htab_map_lookup_and_delete_batch": "batch_take"},
    "lru_hash": {"htab_lru_map_update_elem": "update", "htab_lru_map_delete_elem": "delete",
                 "htab_lru_map_lookup_elem": "lookup", "htab_lru_map_lookup_elem_sys": "syslookup",
                 "__htab_map_lookup_elem": "lookup", "htab_lru_map_lookup_and_delete_elem": "take",
                 "htab_lru_map_lookup_batch": "batch_lookup", "htab_lru_map_lookup_and_delete_batch": "batch_take"},
    "percpu_hash": {"htab_percpu_map_update_elem": "update", "bpf_percpu_hash_update": "sysupdate",
                    "htab_map_delete_elem": "delete", "htab_percpu_map_lookup_elem": "lookup",
                    "bpf_percpu_hash_copy": "syslookup", "__htab_map_lookup_elem": "lookup",
                    "htab_percpu_map_lookup_and_delete_elem": "take", "htab_percpu_map_lookup_batch": "batch_lookup",
                    "htab_percpu_map_lookup_and_delete_batch": "batch_take"},
    "lru_percpu_hash": {"htab_lru_percpu_map_update_elem": "update", "bpf_percpu_hash_update": "sysupdate",
                        "htab_lru_map_delete_elem": "delete", "htab_lru_percpu_map_lookup_elem": "lookup",
                        "bpf_percpu_hash_copy": "syslookup", "__htab_map_lookup_elem": "lookup",
                        "htab_lru_percpu_map_lookup_and_delete_elem": "take",
                        "htab_lru_percpu_map_lookup_batch": "batch_lookup",
                        "htab_lru_percpu_map_lookup_and_delete_batch": "batch_take"},
}
INNER = "__htab_map_lookup_elem"
# Where in a record these stand; the key follows, and the value behind it.
AT_CPU, AT_FUNCTION, AT_PID, AT_POINTER, AT_FLAGS, AT_COMMAND, KEY = 0, 4, 8, 16, 24, 32, 40
# How much of the attributes of a batch is read, and where its count and its flags stand there.
BATCH, COUNT, FLAGS = 48, 32, 40
BUFFER = 1 << 24
PAGE = mmap.PAGESIZE

Told = collections.namedtuple("Told", "id fd kind key_size value_size entries flags")
Call = collections.namedtuple("Call", "cpu verb key value flags count start", defaults=(None, None, 0, 0, None))


def rounded(size):
    return -(-size // 8) * 8


class Types:
    """Of the kernel's types the functions by their names, and where the id of a map stands."""

    EXTRA = {1: 4, 3: 12, 14: 4, 17: 4}
    EACH = {4: 12, 5: 12, 6: 8, 13: 8, 15: 12, 19: 12}

    def __init__(self, data):
        head = struct.unpack_from("=HBBIIIII", data)
        types, strings, self.data = head[3] + head[4], head[3] + head[6], data
        at, end, number, self.functions, self.places = types, types + head[5], 0, {}, {}
        structures = {structure for structure, _ in MEMBERS}
        while at < end:
            name, info, _ = struct.unpack_from("=III", data, at)
            number, kind, count = number + 1, info >> 24 & 31, info & 0xFFFF
            if kind == 12:
                self.functions[self.text(strings + name)] = number
            elif kind == 4 and (structure := self.text(strings + name)) in structures:
                for member in range(count):
                    its_name, _, bits = struct.unpack_from("=III", data, at + 12 + 12 * member)
                    place = structure, self.text(strings + its_name)
                    if place in MEMBERS:
                        self.places[place] = (bits & 0xFFFFFF) // 8 if info >> 31 else bits // 8
            at += 12 + self.EXTRA.get(kind, 0) + self.EACH.get(kind, 0) * count

    def text(self, at):
        return self.data[at : self.data.index(0, at)].decode(errors="replace")


class Kernel:
    def __init__(self):
        name = os.uname()
        self.release = f"{name.sysname} {name.release}"
        if name.machine not in REGISTERS:
            raise NotAllowed(f"how to tell a system call's call on {name.machine} isn't known here")
        self.registers = REGISTERS[name.machine]
        possible = open("/sys/devices/system/cpu/possible").read().strip()
        self.cpus = int(possible.split(",")[-1].split("-")[-1]) + 1

    def types(self):
        try:
            with open(BTF, "rb") as source:
                return Types(source.read())
        except OSError as why:
            raise NotAllowed(f"this kernel doesn't tell its types: {BTF}: {why.strerror}") from None

    def map(self, number):
        try:
            fd = system.opened(f"the map with id {number}", GET_FD_BY_ID, struct.pack("=3I", number, 0, 0))
        except OSError as why:
            raise Stop(REFUSED, f"map id {number}: there is no such map" if why.errno == errno.ENOENT else str(why)) from None
        told = system.room(80)
        error = system.bpf(system.INFO, system.buffer(struct.pack("=2IQ", fd, len(told), ctypes.addressof(told))))[1]
        if error:
            raise NotAllowed(f"asking for the map: {system.name_of(error)}")
        kind, _, key_size, value_size, entries, flags = struct.unpack_from("=6I", told)
        return Told(number, fd, KINDS.get(kind, str(kind)), key_size, value_size, entries, flags)

    def entries(self, told, table):
        """What the map holds, in the order of a walk, each value as the system call has it."""
        found, key, following = {}, None, system.room(told.key_size)
        value = system.room(max(table.side, rounded(told.value_size) * self.cpus))
        # (a key that goes makes a walk begin anew; so it ends when it has come by twice as many)
        for _ in range(2 * told.entries + 16):
            if system.on_element(system.NEXT, told.fd, key, following):
                break
            key = system.buffer(following.raw[: told.key_size])
            if not system.on_element(system.LOOKUP, told.fd, key, value):
                found[key.raw[: told.key_size].hex()] = value.raw[: table.side].hex()
        return dict(list(found.items())[: told.entries])


class Recorder:
    def __init__(self, kernel, told, has_values):
        self.kernel, self.told, self.has_values = kernel, told, has_values
        self.calls, self.outer, self.fds, self.own = [], {}, [], os.getpid()
        self.key_room = max(rounded(told.key_size), BATCH + 8)
        self.names = list(FUNCTIONS[told.kind].items())
        self.is_per_cpu = "percpu" in told.kind
        # Why programs' calls aren't recorded, where they aren't: of the system call alone there is a raw tracepoint.
        self.refusal = None

    def value_size(self, verb):
        """The bytes of the value of a call."""
        if verb == "sysupdate":
            return rounded(self.told.value_size) * self.kernel.cpus
        return self.told.value_size if verb == "update" else 0

    def code(self, at, id_at):
        """A program for the function with this number."""
        verb, value = self.names[at][1], self.value_size(self.names[at][1]) if self.has_values else 0
        is_batch, size = verb.startswith("batch"), KEY + self.key_room + rounded(value)
        number_at, argument_at, _ = self.kernel.registers
        body = move(8, 0) + call(CPU) + write(4, 8, AT_CPU, 0) + set_to(1, at) + write(4, 8, AT_FUNCTION, 1)
        body += call(PID) + write(8, 8, AT_PID, 0) + read(8, 1, 6, 8) + write(8, 8, AT_POINTER, 1)
        body += (read(8, 1, 6, 24) if "update" in verb else set_to(1, 0)) + write(8, 8, AT_FLAGS, 1)
        body += call(TASK) + move(1, 0) + call(REGS) + read(4, 1, 0, number_at) + read(4, 2, 0, argument_at)
        body += instruction(0x15, 1, offset=1, number=system.number) + set_to(2, 0xFFFF) + write(4, 8, AT_COMMAND, 2)
        body += self.read_from(READ_KERNEL, KEY, BATCH if is_batch else self.told.key_size, read(8, 3, 6, 8))
        if is_batch:
            body += self.read_from(READ_USER, KEY + BATCH, 4, read(8, 3, 8, KEY))
        if value:
            body += self.read_from(READ_KERNEL, KEY + self.key_room, value, read(8, 3, 6, 16))
        body += move(1, 8) + set_to(2, 0) + call(SUBMIT)
        full = address_of_value(1, self.array) + set_to(2, 1) + instruction(0xDB, 1, 2)
        # (a record is reserved, or one more is lost)
        body += instruction(0x05, offset=len(full) // 8)
        took = address_of_map(1, self.ring) + set_to(2, size) + set_to(3, 0) + call(RESERVE)
        took += instruction(0x15, 0, offset=len(body) // 8) + body + full
        other = instruction(0x55, 1, offset=len(took) // 8, number=self.told.id)
        its_id = move(1, 10) + add(1, -8) + set_to(2, 4) + read(8, 3, 6, 0) + add(3, id_at) + call(READ_KERNEL) + read(4, 1, 10, -8)
        return move(6, 1) + its_id + other + took + set_to(0, 0) + instruction(0x95)

    def call_code(self, places):
        """A program for the begin of each system call: it tells those of bpf(2) on one element of the map."""
        _, first, second = self.kernel.registers
        value = rounded(self.value_size("sysupdate" if self.is_per_cpu else "update")) if self.has_values else 0
        size = KEY + self.key_room + value

        def stack(helper, at, size, address, offset=0):
            """So many bytes to the stack, at a place below its top."""
            return move(1, 10) + add(1, -at) + set_to(2, size) + address + add(3, offset) + call(helper)

        body = move(8, 0) + call(CPU) + write(4, 8, AT_CPU, 0) + call(PID) + write(8, 8, AT_PID, 0)
        # (at the top of the stack: the command, the attributes of bpf(2), what leads to the map)
        for to, size_of, at in ((AT_FUNCTION, 4, -8), (AT_FLAGS, 8, -24), (AT_POINTER, 8, -40)):
            body += read(size_of, 1, 10, at) + write(size_of, 8, to, 1)
        body += self.read_from(READ_USER, KEY, self.told.key_size, read(8, 3, 10, -40))
        if value:
            body += self.read_from(READ_USER, KEY + self.key_room, value, read(8, 3, 10, -32))
        body += move(1, 8) + set_to(2, 0) + call(SUBMIT)
        full = address_of_value(1, self.array) + set_to(2, 1) + instruction(0xDB, 1, 2)
        body += instruction(0x05, offset=len(full) // 8)
        took = address_of_map(1, self.ring) + set_to(2, size) + set_to(3, 0) + call(RESERVE)
        took += instruction(0x15, 0, offset=len(body) // 8) + body + full
        way = stack(READ_KERNEL, 8, 8, read(8, 3, 6, 0), first) + stack(READ_KERNEL, 16, 8, read(8, 3, 6, 0), second)
        way += stack(READ_USER, 48, 32, read(8, 3, 10, -16))
        way += call(CURRENT) + move(3, 0) + stack(READ_KERNEL, 56, 8, b"", places["task_struct", "files"])
        for structure, member in (("files_struct", "fdt"), ("fdtable", "fd")):
            way += stack(READ_KERNEL, 56, 8, read(8, 3, 10, -56), places[structure, member])
        # (the descriptor's place among the files)
        descriptor = read(4, 4, 10, -48) + instruction(0x67, 4, number=3) + read(8, 3, 10, -56) + instruction(0x0F, 3, 4)
        way += stack(READ_KERNEL, 56, 8, descriptor)
        way += stack(READ_KERNEL, 56, 8, read(8, 3, 10, -56), places["file", "private_data"])
        way += stack(READ_KERNEL, 64, 4, read(8, 3, 10, -56), places["bpf_map", "id"]) + read(4, 1, 10, -64)
        way += instruction(0x55, 1, offset=len(took) // 8, number=self.told.id) + took
        start = move(6, 1) + read(8, 1, 6, 8)
        return start + instruction(0x55, 1, offset=len(way) // 8, number=system.number) + way + set_to(0, 0) + instruction(0x95)

    def read_from(self, helper, to, size, address):
        return move(1, 8) + add(1, to) + set_to(2, size) + address + call(helper)

    def __enter__(self):
        types = self.kernel.types()
        try:
            self.ring = self.keep(system.create(RINGBUF, 0, 0, BUFFER, 0))
            self.array = self.keep(system.create(ARRAY, 4, 8, 1, 0))
            missing = sorted(MEMBERS - set(types.places))
            if missing:
                raise NotAllowed(f"this kernel's types have no {'.'.join(missing[0])}")
            try:
                self.attach_all(types)
            except NotAllowed as why:
                self.refusal = str(why)
                self.attach("sys_enter", None, self.call_code(types.places))
            self.own_page = mmap.mmap(self.ring, PAGE, mmap.MAP_SHARED, mmap.PROT_READ | mmap.PROT_WRITE, offset=0)
            self.pages = mmap.mmap(self.ring, PAGE + 2 * BUFFER, mmap.MAP_SHARED, mmap.PROT_READ, offset=PAGE)
        except system.MapRefused as why:
            self.close()
            raise NotAllowed(f"bpf(2) makes no ring buffer: {why}") from None
        except BaseException:
            self.close()
            raise
        return self

    def attach_all(self, types):
        kept, attached = len(self.fds), 0
        try:
            for at, (name, _) in enumerate(self.names):
                if name in types.functions:
                    self.attach(name, types.functions[name], self.code(at, types.places["bpf_map", "id"]))
                    attached += 1
            if not attached:
                raise NotAllowed("this kernel tells none of the functions of its hash maps")
        except NotAllowed:
            while len(self.fds) > kept:
                os.close(self.fds.pop())
            raise

    def __exit__(self, *_):
        self.lost_count = self.lost()
        self.close()

    def close(self):
        for fd in reversed(self.fds):
            os.close(fd)
        self.fds = []

    def keep(self, fd):
        self.fds.append(fd)
        return fd

    def attach(self, name, number, code):
        """At the function with this number, or at a raw tracepoint."""
        licence, text, log = system.buffer(b"GPL\0"), system.buffer(code), system.room(1 << 16)
        at = [ctypes.addressof(each) for each in (text, licence, log)]
        kind, place = (RAW_TRACEPOINT, 0) if number is None else (TRACING, FENTRY)
        words = struct.pack("=2I2Q2IQ2I16s3IIQ2IQ3I", kind, len(code) // 8, at[0], at[1], 1, len(log), at[2], 0, 0,
                            b"record", 0, place, 0, 0, 0, 0, 0, 0, 0, number or 0, 0)
        program, error = system.bpf(system.LOAD, system.buffer(words))
        if error:
            why = log.value.decode(errors="replace").strip().splitlines()
            raise NotAllowed(f"bpf(2) doesn't load a program for {name}: {system.name_of(error).upper()}"
                             + (f" ({why[-2] if len(why) > 1 else why[-1]})" if why else ""))
        self.keep(program)
        point = system.buffer(name.encode() + b"\0")
        at = ctypes.addressof(point) if number is None else 0
        link, error = system.bpf(RAW_TRACEPOINT_OPEN, system.buffer(struct.pack("=QI4x", at, program)))
        if error:
            raise NotAllowed(f"bpf(2) doesn't attach a program to {name}: {system.name_of(error).upper()}")
        self.keep(link)

    def lost(self):
        if not self.fds:
            return self.lost_count
        told = system.room(8)
        system.on_element(system.LOOKUP, self.array, system.buffer(bytes(4)), told)
        return struct.unpack("=Q", told.raw[:8])[0]

    def take_in(self):
        """Takes what stands in the ring buffer."""
        while True:
            end, at = struct.unpack_from("=Q", self.pages, 0)[0], struct.unpack_from("=Q", self.own_page, 0)[0]
            if at >= end:
                return
            while at < end:
                place = PAGE + at % BUFFER
                length = struct.unpack_from("=I", self.pages, place)[0]
                if length & 1 << 31:
                    break
                if not length & 1 << 30:
                    self.tell(self.pages[place + 8 : place + 8 + length])
                at += rounded(length + 8)
            struct.pack_into("=Q", self.own_page, 0, at)
            if at < end:
                return

    def tell(self, record):
        cpu, at = struct.unpack_from("=2I", record, AT_CPU)
        pid, pointer, flags = struct.unpack_from("=3Q", record, AT_PID)
        command = struct.unpack_from("=I", record, AT_COMMAND)[0]
        if self.refusal:
            return self.tell_command(record, cpu, at, pid >> 32, flags)
        name, verb = self.names[at]
        if pid >> 32 == self.own or self.is_inner(name, pid, pointer):
            return
        if verb.startswith("batch"):
            first = struct.unpack_from("=Q", record, KEY)[0]
            count, flags = struct.unpack_from("=I", record, KEY + COUNT)[0], struct.unpack_from("=Q", record, KEY + FLAGS)[0]
            start = struct.unpack_from("=I", record, KEY + BATCH)[0] if first else None
            self.calls.append(Call(cpu, verb, count=count, start=start, flags=flags))
            return
        if command in COMMANDS.get(verb, ()) and not (verb == "lookup" and self.told.kind != "hash"):
            verb = {"lookup": "syslookup", "update": "sysupdate"}.get(verb, verb)
        key = record[KEY : KEY + self.told.key_size].hex()
        size = self.value_size("update" if verb == "sysupdate" and not self.is_per_cpu else verb)
        value = record[KEY + self.key_room : KEY + self.key_room + size].hex() if self.has_values and size else None
        self.calls.append(Call(cpu, verb, key, value, flags))

    def tell_command(self, record, cpu, command, process, flags):
        """A call of the system call, by its command."""
        if process == self.own or command not in VERBS:
            return
        verb, pointer = VERBS[command], struct.unpack_from("=Q", record, AT_POINTER)[0]
        key = record[KEY : KEY + self.told.key_size].hex() if pointer else None
        value = None
        if verb == "sysupdate" and self.has_values:
            size = self.value_size("sysupdate" if self.is_per_cpu else "update")
            value = record[KEY + self.key_room : KEY + self.key_room + size].hex()
        self.calls.append(Call(cpu, verb, key, value, flags if verb == "sysupdate" else 0))

    def is_inner(self, name, pid, pointer):
        """Whether a lookup was told already, by the function that made it: with the key at the same place, just before."""
        is_inner = name == INNER and self.outer.get(pid) == pointer
        is_outer = name != INNER and FUNCTIONS[self.told.kind][name] in ("lookup", "syslookup")
        self.outer[pid] = pointer if is_outer else None
        return is_inner
