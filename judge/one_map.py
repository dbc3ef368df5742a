"""One plain map: the turns of all buckets, in the order of their tickets, are those of one map from keys to values, and each
call is answered as that map answers at turns of its own, its points.

A key goes only by a delete, a take, a batch read that removes and tells it, or an eviction. Elements, lists and the order in
a bucket aren't known here, but for one thing: on a map that evicts which key each element has, since an eviction's entry
names the element.
"""
import collections
import dataclasses

from reports import Evict, First, Lookup, Next, Removal, Unlawful, Update, Walk, need


class PlainMap:
    """The values of each key."""

    def __init__(self, made):
        self.made, self.values = made, {}
        self.buckets = {}
        # The keys of each bucket; the order says nothing.
        self.keys = collections.defaultdict(dict)
        # Of a map that evicts the key of each element, and the element of each key.
        self.keys_of, self.elements_of = {}, {}

    def bucket(self, key):
        if key not in self.buckets:
            self.buckets[key] = self.made.bucket(self.made.hash(key))
        return self.buckets[key]

    def put(self, key, side, cpu, value):
        there = self.values.get(key)
        if there is not None and self.made.is_per_cpu:
            self.values[key] = self.made.written(there, side, cpu, value)
        else:
            self.values[key] = self.made.started(side, cpu, value)
        self.keys[self.bucket(key)][key] = None

    def give(self, key, element):
        """The key has this element, in place of the one that it had."""
        if self.made.evicts:
            self.keys_of.pop(self.elements_of.pop(key, None), None)
            need(len(self.values) <= self.made.elements, "more keys than elements")
            need(element not in self.keys_of, f"no turn took the key of element {element} out")
            self.keys_of[element], self.elements_of[key] = key, element

    def remove(self, key):
        del self.values[key], self.keys[self.bucket(key)][key]
        self.keys_of.pop(self.elements_of.pop(key, None), None)

    def evict(self, bucket, part):
        """An element's key goes, or the element is in a hand, and has none."""
        key = self.keys_of.get(part.element)
        need((key is None) == (part.holder is not None), f"whether element {part.element} has a key")
        if key is not None:
            need(self.bucket(key) == bucket, "the bucket of the key that goes")
            self.remove(key)

    def pairs(self, bucket, side, cpu):
        """The keys of a bucket, each with what a side reads of it."""
        return {key: self.made.read(self.values[key], side, cpu) for key in self.keys[bucket]}

    def check_told(self, bucket, part, cpu):
        """What a turn on keys tells is so before it."""
        if isinstance(part, First):
            own = self.keys[bucket]
            need(part.key in own if own else part.key is None, "a first key that isn't there, or none where there is one")
        elif isinstance(part, Walk):
            self.check_walk(bucket, part, cpu)
        else:
            need(self.bucket(part.key) == bucket, f"the bucket of key {part.key}")
            self.check_key(bucket, part, cpu, self.values.get(part.key))

    def check_walk(self, bucket, part, cpu):
        own = self.keys[bucket]
        if part.over is not None:
            need(part.over == len(own), "how many keys the bucket has")
            return
        need(len(part.taken) == len(own), "how many keys the bucket has")
        need({key: value for _, key, value in part.taken} == self.pairs(bucket, "sys", cpu), "the keys and values of the bucket")

    def check_key(self, bucket, part, cpu, there):
        if isinstance(part, Update):
            if there is None:
                allowed = ["absent"] if part.flags == 2 else ["added"] if self.made.evicts else ["added", "full"]
            else:
                allowed = ["exists"] if part.flags == 1 else ["written"] if self.made.is_per_cpu else ["replaced"]
            need(part.put in allowed, f"an update that {part.put}, of key {part.key}")
        elif isinstance(part, Next):
            need((part.found == "absent") == (there is None), f"whether key {part.key} is there")
            if part.found == "key":
                need(part.after in self.keys[bucket] and part.after != part.key, "a next key that isn't there")
        else:
            need((part.element is None) == (there is None), f"whether key {part.key} is there")
            side = part.side if isinstance(part, Lookup) else "sys" if part.verb == "take" else None
            if there is not None and side:
                need(part.value == self.made.read(there, side, cpu), f"the value of key {part.key}")


# The reply of a call, as the map answers at the call's points, where the call changes it. Each waits for its points, whose
# bucket and part it is sent. What may be answered in several ways is taken from the report: a refusal with ENOMEM or E2BIG,
# which key is the next one, and in which order a bucket's keys are told.


def answer(plain, call, reply):
    if call.verb in ("lookup", "update", "delete", "take"):
        return one_key(plain, call, reply)
    if call.verb in ("batch_update", "batch_delete"):
        return batch_write(plain, call, reply)
    return next_key(plain, call) if call.verb == "next" else walk(plain, call, reply)


def is_of(part, call):
    """Whether a turn on a key is one of this call."""
    if call.verb == "lookup":
        return isinstance(part, Lookup) and (part.side, part.key) == (call.side, call.key)
    if call.verb == "update":
        given = call.side, call.flags, call.key, call.value
        return isinstance(part, Update) and (part.side, part.flags, part.key, part.value) == given
    return isinstance(part, Removal) and (part.verb, part.key) == (call.verb, call.key)


def one_key(plain, call, reply):
    if call.verb == "update":
        if call.flags > 2:
            return "einval"
        if plain.made.evicts and reply == "enomem":
            return "enomem"
    _, part = yield
    need(is_of(part, call), "a turn of another call")
    there = plain.values.get(call.key)
    if call.verb == "update":
        return put(plain, call, part, there)
    if there is None:
        return "enoent"
    if call.verb == "lookup":
        return f"ok {plain.made.read(there, call.side, call.cpu)}"
    plain.remove(call.key)
    return f"ok {plain.made.read(there, 'sys', call.cpu)}" if call.verb == "take" else "ok"


def put(plain, call, part, there):
    if there is None and call.flags == 2:
        return "enoent"
    if there is not None and call.flags == 1:
        return "eexist"
    if part.put == "full":
        return "e2big"
    plain.put(call.key, call.side, call.cpu, call.value)
    if part.put != "written":
        plain.give(call.key, part.element)
    return "ok"


def batch_write(plain, call, reply):
    if call.flags:
        return "einval"
    verb = call.verb.removeprefix("batch_")
    for done, (key, value) in enumerate(call.pairs):
        entry = dataclasses.replace(call, verb=verb, side="sys", key=key, value=value)
        answered = yield from one_key(plain, entry, "enomem" if reply == f"enomem done {done}" else "ok")
        if answered != "ok":
            return f"{answered} done {done}"
    return f"ok done {len(call.pairs)}"


def next_key(plain, call):
    first = 0
    if call.key is not None:
        bucket, part = yield
        need(isinstance(part, Next) and part.key == call.key, "a turn of another call")
        if part.found == "key":
            return f"ok {part.after}"
        first = bucket[1] + 1 if call.key in plain.values else 0
    for number in range(first, plain.made.buckets):
        bucket, part = yield
        need(isinstance(part, First) and bucket == ("bucket", number), f"no turn of bucket {number}")
        if part.key is not None:
            return f"ok {part.key}"
    return "enoent"


def walk(plain, call, reply):
    """A batch read, or a walk over all elements: each bucket is told whole, but where a walk ends at the key that stops it."""
    made, is_each = plain.made, call.verb == "each"
    if call.flags:
        return "einval"
    if not is_each and call.count == 0:
        return "ok"
    number, room = call.start or 0, made.elements if is_each else min(call.count, made.elements)
    if number >= made.buckets:
        return "enoent"
    words, taken, stop = reply.split(" ")[5:], 0, None
    told = [word.partition("=")[::2] for word in words]
    while number < made.buckets and stop is None:
        bucket, part = yield
        need(isinstance(part, Walk) and bucket == ("bucket", number), f"no turn of bucket {number}")
        need(part.removes == (call.verb == "batch_take"), "a turn of another call")
        there = plain.pairs(bucket, "prog" if is_each else "sys", call.cpu)
        if part.over is not None:
            need(len(there) > room - taken, f"bucket {number} has room")
            stop = "ok" if is_each or taken else "enospc"
            continue
        need(len(there) <= room - taken, f"bucket {number} has no room")
        number += 1
        own = told[taken : taken + len(there)]
        if is_each and call.stop in there:
            keys = [pair[0] for pair in own]
            need(call.stop in keys, f"the key at which the walk ends isn't told of bucket {number - 1}")
            own, stop = own[: keys.index(call.stop) + 1], "ok"
            there = {key: there[key] for key in keys[: len(own)] if key in there}
        need(len(own) == len(there) and dict(own) == there, f"what is told of bucket {number - 1}")
        taken += len(own)
        if part.removes:
            for key in there:
                plain.remove(key)
    stop = stop or ("ok" if is_each else "enoent")
    return " ".join([f"{stop} taken {taken} next {number}", *words[:taken]])


class Calls:
    """The calls of a script, each with what it waits for, or what it was answered."""

    def __init__(self, plain, script, replies):
        self.script, self.answered, self.waiting = script, {}, {}
        for number, (call, reply) in enumerate(zip(script.calls, replies), 1):
            self.waiting[number] = answer(plain, call, reply)
            self.go_on(number, None)

    def go_on(self, number, point):
        """A call is sent its point, or begins."""
        try:
            self.waiting[number].send(point)
        except StopIteration as done:
            self.answered[number] = done.value
            del self.waiting[number]

    def check(self, replies):
        for number, reply in enumerate(replies, 1):
            need(number in self.answered, f"call {number}: no turn of its own at which the map answers")
            wanted = self.answered[number]
            need(reply == wanted, f"call {number}: the reply is {reply!r}, and the map answers {wanted!r}")


def check_one_map(script, report, turns, is_run):
    """Raises Unlawful where these turns of all locks, each a lock and an entry, in the order of their tickets, aren't those of
    one map. Of runs it is asked too that phases never fall along them, and that the calls of each CPU stand in their order.
    The answer is the number of points."""
    plain, points = PlainMap(script.made), 0
    calls = Calls(plain, script, report.replies)
    if is_run:
        check_order(script, turns)
    for bucket, entry in turns:
        if bucket[0] != "bucket":
            continue
        try:
            if isinstance(entry.part, Evict):
                need(script.made.evicts, "an eviction on a map that doesn't evict")
                plain.evict(bucket, entry.part)
                continue
            points += 1
            need(1 <= entry.call <= len(script.calls) and entry.cpu == script.calls[entry.call - 1].cpu, "the call, or its CPU")
            plain.check_told(bucket, entry.part, entry.cpu)
            need(entry.call in calls.waiting, f"a further turn on keys of call {entry.call}")
            calls.go_on(entry.call, (bucket, entry.part))
        except Unlawful as why:
            raise Unlawful(f"ticket {entry.ticket}, on the one map: {why}") from None
    calls.check(report.replies)
    lines = [line.split(" ") for line in report.dump if line.startswith("bucket ")]
    kept = {key: values for _, _, _, key, *values in lines}
    need(len(kept) == len(lines) and kept == plain.values, "the keys and values at the end aren't those of the one map")
    return points


def check_order(script, turns):
    last, reached = {}, 0
    for _, entry in turns:
        phase = script.phase_of(entry.call)
        need(phase >= reached, f"ticket {entry.ticket}: phase {phase} behind phase {reached}")
        need(entry.call >= last.get(entry.cpu, 0), f"ticket {entry.ticket}: a turn of CPU {entry.cpu} behind its later call")
        last[entry.cpu], reached = entry.call, phase
