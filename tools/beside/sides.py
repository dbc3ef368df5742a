"""Who answers a script: the running kernel, the program, or the program in the kernel's place.

Each answers with a list: `capacity N` first, then the replies as a report has them, and last `walk` with each KEY=VALUE
of the map at the end, in the order of a walk by next key.
"""
import errno
import os
import re
import subprocess

import program
import system
from drawn import ZERO_SEED, Map, text

NUMBERS = {"hash": 1, "percpu_hash": 5, "lru_hash": 9, "lru_percpu_hash": 10}
POSSIBLE = "/sys/devices/system/cpu/possible"


class CannotCompare(Exception):
    """A script or a machine that one of the two sides doesn't take."""


class Program:
    """./bpfmap, in mode serial."""

    name, has_batches, has_take = "program", True, True

    def __init__(self, path):
        # How many evictions and thefts the last run had.
        self.path, self.evictions, self.thefts = path, 0, 0

    def report(self, script):
        """The report of a script, or the line of one whose map is refused."""
        words = [self.path, "serial", "--history"]
        try:
            done = subprocess.run(words, input=script.encode(), stdout=subprocess.PIPE)
        except OSError as why:
            raise CannotCompare(f"the program {self.path} can't be run: {why.strerror}") from None
        report = done.stdout.decode(errors="replace")
        if done.returncode not in (0, 6):
            raise CannotCompare(f"the program ended with status {done.returncode}: {report.strip()}")
        return report

    def run(self, made, calls):
        # (no map has more entries, and a count above its elements counts as that number)
        report = self.report(text(made, calls) + "0 batch_lookup 65536 -\n")
        if report.startswith("bpfmap: map refused: "):
            return refused(report.strip().split(": ")[2], calls)
        if not report.startswith("map ") or report.count("\n") < len(calls) + 2:
            raise CannotCompare(f"the program gave no report of a script: {self.path}")
        self.evictions, self.thefts = report.count(" removed\n"), len(re.findall(r" steal (?:free|pending) ", report))
        first, *replies = report.splitlines()[: len(calls) + 2]
        replies = [reply.split(" ", 1)[1] for reply in replies]
        return [f"capacity {first.split()[3]}", *replies[:-1], " ".join(["walk", *replies[-1].split()[5:]])]


class Fake(Program):
    """The program in the kernel's place."""

    name, release, cpus, usable = "fake", "none, the program in its place", 4, (0, 1, 2, 3)


class Kernel:
    """Maps of the running kernel, each made for one script."""

    name = "kernel"

    def __init__(self):
        self.release, self.usable = f"Linux {os.uname().release}", sorted(os.sched_getaffinity(0))
        with OnKernel(Map("hash", 4, 4, 1, 1, ZERO_SEED)) as on_map:
            key, value = on_map.key, on_map.value
            self.has_take = system.on_element(system.TAKE, on_map.fd, key, value) == errno.ENOENT
            self.has_batches = system.batch(system.LOOKUP_BATCH, on_map.fd, None, key, value, 0, 0)[0] == 0
        self.cpus = possible_cpus()

    def run(self, made, calls):
        if made.cpus != self.cpus or not made.flags & ZERO_SEED or made.seed:
            raise CannotCompare(f"a script for this kernel has `cpus {self.cpus}`, flags with 64 and no seed but 0")
        if other := {call.cpu for call in calls}.difference(self.usable):
            raise CannotCompare(f"no call can be made on CPU {min(other)} here")
        try:
            on_map = OnKernel(made)
        except system.MapRefused as why:
            return refused(str(why), calls)
        with on_map:
            replies = [f"capacity {system.capacity(on_map.fd)}"]
            replies += [on_map.reply(call) for call in calls]
            return [*replies, on_map.walk()]


def refused(why, calls):
    """The answers where the map can't be created."""
    return [f"refused {why}"] * (len(calls) + 2)


def is_refused(answers):
    return answers[0].startswith("refused ")


def possible_cpus():
    told = open(POSSIBLE).read().strip()
    first, _, last = told.partition("-")
    if first != "0" or not (last or first).isdigit() or int(last or first) > 15:
        raise CannotCompare(f"the possible CPUs are {told} here, and the program has CPUs from 0 on, at most 16")
    return int(last or first) + 1


class OnKernel:
    """One map of the kernel, with the calls on it."""

    def __init__(self, made):
        self.made, self.cpus = made, os.sched_getaffinity(0)
        self.size = made.value_size
        if made.is_per_cpu:
            self.size = -(-made.value_size // 8) * 8 * made.cpus
        self.key, self.next_key, self.value = map(system.room, (made.key_size, made.key_size, self.size))
        # (the CPU that makes a map gives the spares)
        self.on_cpu(min(self.cpus))
        try:
            self.fd = system.create(NUMBERS[made.kind], made.key_size, made.value_size, made.entries, made.flags)
        except BaseException:
            os.sched_setaffinity(0, self.cpus)
            raise
        try:
            self.caller = program.Caller(self.fd, made)
        except BaseException:
            os.sched_setaffinity(0, self.cpus)
            os.close(self.fd)
            raise

    def __enter__(self):
        return self

    def __exit__(self, *_):
        self.caller.close()
        os.close(self.fd)
        os.sched_setaffinity(0, self.cpus)

    def on_cpu(self, cpu):
        if getattr(self, "cpu", None) != cpu:
            os.sched_setaffinity(0, {cpu})
            self.cpu = cpu

    def reply(self, call):
        self.on_cpu(call.cpu)
        if call.verb.startswith("batch_"):
            return self.batch(call)
        if call.verb == "next":
            return self.next(call.key)
        key, value = bytes.fromhex(call.key), bytes.fromhex(call.value)
        if call.side == "sys" or call.verb == "take":
            return self.by_system(call, key, value)
        verb = {"lookup": program.LOOKUP, "update": program.UPDATE, "delete": program.DELETE}[call.verb]
        error, found = self.caller.call(verb, key, value, call.flags)
        return answer(error, found if call.verb == "lookup" else None)

    def by_system(self, call, key, value):
        self.key.raw = key
        if call.verb == "update":
            self.value[: len(value)] = value
            return answer(system.on_element(system.UPDATE, self.fd, self.key, self.value, call.flags))
        command = system.LOOKUP if call.verb == "lookup" else system.TAKE
        error = system.on_element(command, self.fd, self.key, self.value)
        return answer(error, self.value.raw[: self.size])

    def next(self, key):
        if key is not None:
            self.key.raw = bytes.fromhex(key)
        error = system.on_element(system.NEXT, self.fd, self.key if key is not None else None, self.next_key)
        return answer(error, self.next_key.raw)

    def batch(self, call):
        reads, key_size = call.verb in ("batch_lookup", "batch_take"), self.made.key_size
        command = {"lookup": system.LOOKUP_BATCH, "take": system.TAKE_BATCH, "update": system.UPDATE_BATCH}
        command = command.get(call.verb[len("batch_") :], system.DELETE_BATCH)
        count = call.count if reads else len(call.pairs)
        keys, values = system.room(count * key_size), system.room(count * self.size)
        for at, (key, value) in enumerate(call.pairs):
            keys[at * key_size : (at + 1) * key_size] = bytes.fromhex(key)
            values[at * self.size : at * self.size + len(value) // 2] = bytes.fromhex(value)
        error, done, following = system.batch(command, self.fd, call.start, keys, values, count, call.flags)
        stop = system.name_of(error) if error else "ok"
        if not reads:
            # (flags that are refused leave the count as it was)
            return stop if error == errno.EINVAL else f"{stop} done {done}"
        if following == system.UNWRITTEN:
            return stop
        pairs = [f"{cut(keys, at, key_size)}={cut(values, at, self.size)}" for at in range(done)]
        return " ".join([f"{stop} taken {done} next {following}", *pairs])

    def walk(self):
        """The keys by next key, each with what the system call looks up."""
        pairs, key = [], None
        while (reply := self.next(key)).startswith("ok "):
            key = reply[3:]
            if len(pairs) > self.made.capacity:
                return "walk without an end"
            self.key.raw = bytes.fromhex(key)
            error = system.on_element(system.LOOKUP, self.fd, self.key, self.value)
            pairs.append(f"{key}={system.name_of(error) if error else self.value.raw[: self.size].hex()}")
        return " ".join(["walk", *pairs])


def answer(error, found=None):
    if error:
        return system.name_of(error)
    return "ok" if found is None else f"ok {found.hex()}"


def cut(content, at, size):
    return content.raw[at * size : (at + 1) * size].hex()
