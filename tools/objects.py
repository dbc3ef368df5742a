"""What a report tells, as objects that JSON can have: numbers as numbers, keys and values as texts of hexadecimal digits. A
value for each CPU is a list, `values`, in the place of `value`. docs/report.schema.json says what each object has."""
from reports import Add, Evict, First, Lookup, Next, OnStack, Pop, Push, Refill, Removal, Steal, Turn, Update, Walk, number


def lock_object(lock):
    return {"kind": lock[0]} if lock[0] == "global" else {"kind": lock[0], "number": lock[1]}


def map_object(made):
    told = {"kind": made.kind, "key_size": made.key_size, "value_size": made.value_size, "max": made.entries,
            "cpus": made.cpus, "flags": made.flags, "seed": made.seed}
    return {**told, "capacity": made.capacity, "elements": made.elements, "buckets": made.buckets}


def value_of(made, side, value):
    """A value as a side reads or writes it: the system call has all CPUs' on kinds with a value for each."""
    if made.is_per_cpu and side == "sys":
        return {"values": made.fields(value)}
    return {"value": value}


# Turns.


def visits(pairs):
    return [{"element": element, "bit": bit} for element, bit in pairs]


def looks(all):
    return [{"element": look.element, "bit": look.bit, "probed": look.is_probed, "removed": look.is_removed,
             "held_by": look.holder} for look in all]


def shrink_object(shrink):
    if shrink is None:
        return None
    return {"target": shrink.target, "looks": looks(shrink.looks), "forced": looks(shrink.forced)}


def bucket_part(made, part):
    if isinstance(part, Lookup):
        found = {} if part.element is None else value_of(made, part.side, part.value)
        return {"did": "lookup", "side": part.side, "key": part.key, "element": part.element, **found}
    if isinstance(part, Update):
        told = {"did": "update", "side": part.side, "flags": part.flags, "key": part.key}
        told |= value_of(made, part.side, part.value)
        return {**told, "offer": part.offer, "put": part.put, "element": part.element, "old": part.old}
    if isinstance(part, Removal):
        found = value_of(made, "sys", part.value) if part.verb == "take" and part.element is not None else {}
        return {"did": part.verb, "key": part.key, "element": part.element, **found}
    if isinstance(part, Next):
        return {"did": "next", "key": part.key, "found": part.found, "next_key": part.after or None}
    if isinstance(part, First):
        return {"did": "first", "key": part.key}
    if isinstance(part, Evict):
        return {"did": "evict", "element": part.element, "removed": part.holder is None, "held_by": part.holder}
    taken = [{"element": element, "key": key, **value_of(made, "sys", value)} for element, key, value in part.taken]
    return {"did": "walk", "removes": part.removes, "room": part.room, "over": part.over, "taken": taken}


def list_part(lock, part):
    if isinstance(part, OnStack):
        return {"did": part.verb} if part.element is None else {"did": part.verb, "element": part.element}
    if isinstance(part, Pop):
        return {"did": "pop", "hash": f"{part.hash:08x}", "element": part.element}
    if isinstance(part, Refill):
        return {"did": "refill", "hash": f"{part.hash:08x}", "flushed": visits(part.flushed), "gained": part.gained,
                "got": part.got}
    if isinstance(part, Steal):
        return {"did": "steal", "took": part.how, "element": part.element, "first": looks(part.first),
                "second": looks(part.second)}
    if isinstance(part, Add):
        return {"did": "add", "hash": f"{part.hash:08x}", "element": part.element, "cursor": part.cursor}
    if isinstance(part, Push):
        return {"did": "push", "element": part.element, "moved": part.how == "moved"}
    told = {"did": "turn", "active": visits(part.active), "inactive": visits(part.inactive)}
    if lock[0] == "lru":
        return {**told, "hash": f"{part.hash:08x}", "shrink": shrink_object(part.shrink), "got": part.got}
    flushed = [{"element": element, "hash": f"{hash:08x}", "bit": bit} for element, hash, bit in part.flushed]
    return {**told, "flushed": flushed, "free": part.free, "shrink": shrink_object(part.shrink)}


def turn_object(made, lock, entry):
    is_of_bucket = isinstance(entry.part, (Lookup, Update, Removal, Next, First, Evict, Walk))
    part = bucket_part(made, entry.part) if is_of_bucket else list_part(lock, entry.part)
    return {"ticket": entry.ticket, "cpu": entry.cpu, "call": entry.call, "lock": lock_object(lock), **part}


def history_objects(made, report):
    """The turns by tickets, the phases, and each strand with the tickets of its turns."""
    turns = [turn_object(made, lock, entry) for lock, entries in report.histories.items() for entry in entries]
    phases = [{"phase": at, "ticket": start.ticket, "marked": start.marked} for at, start in enumerate(report.phases)]
    strands = [{"phase": phase, "cpus": cpus, "tickets": [report.histories[lock][at].ticket for lock, at in steps]}
               for phase, cpus, steps in report.strands]
    return {"history": sorted(turns, key=lambda turn: turn["ticket"]), "phases": phases, "strands": strands}


# Calls and replies.


def pairs_of(made, side, words):
    pairs = (word.split("=") for word in words)
    return [{"key": key, **value_of(made, side, value)} for key, value in pairs]


def reply_object(made, call, reply):
    result, *rest = reply.split(" ")
    told = {"result": result}
    if call.verb in ("lookup", "take") and rest:
        return told | value_of(made, "sys" if call.verb == "take" else call.side, rest[0])
    if call.verb == "next" and rest:
        return told | {"next_key": rest[0]}
    if call.verb in ("batch_lookup", "batch_take", "each") and rest:
        side = "prog" if call.verb == "each" else "sys"
        return told | {"taken": number(rest[1]), "next_bucket": number(rest[3]), "pairs": pairs_of(made, side, rest[4:])}
    return told | ({"done": number(rest[1])} if rest else {})


def call_objects(script, words, replies):
    """The calls with their replies. `words` has the words of each call's line."""
    told = []
    for at, (call, own, reply) in enumerate(zip(script.calls, words, replies), 1):
        each = {"call": at, "phase": script.phase_of(at), "cpu": call.cpu, "verb": own[1], "line": " ".join(own)}
        if call.key is not None:
            each["key"] = call.key
        told.append({**each, "reply": reply_object(script.made, call, reply)})
    return told


# What a map holds.


def element_or_none(word):
    return None if word == "-" else number(word)


def dump_object(made, lines):
    """Of the lines of a dump. Which of its members are there hangs on the kind."""
    told = {"buckets": []}
    for line in lines:
        name, *rest = line.split(" ")
        if name == "bucket":
            at, element, key, *values = rest
            value = {"values": values} if made.is_per_cpu else {"value": values[0]}
            told["buckets"].append({"bucket": number(at), "element": number(element), "key": key, **value})
        elif name == "freelist":
            told.setdefault("freelists", []).append([number(word) for word in rest[1:]])
        elif name == "spare":
            told.setdefault("spares", []).append(number(rest[1]))
        elif name == "marked":
            told["marked"] = [number(word) for word in rest]
        elif name == "global":
            list_line(told.setdefault("global", {}), rest)
        elif name in ("local", "lru"):
            each = told.setdefault(name, [])
            if number(rest[0]) == len(each):
                each.append({})
            list_line(each[number(rest[0])], rest[1:])
        else:
            raise ValueError(f"the line {line[:40]!r} of a dump")
    return told


def list_line(into, words):
    name, *rest = words
    into[name] = element_or_none(rest[0]) if name in ("cursor", "steal") else [number(word) for word in rest]
