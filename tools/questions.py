"""The answers of tools/why as objects that JSON can have (docs/why.schema.json)."""
from about import version
from evictions import evictions
from life import Life
from objects import map_object, reply_object, turn_object
from plain import Plain

WHY = "why: "


def head(kept, question):
    told = {"format": "bpfmap-why", "version": 1, "tool": version(), "question": question}
    return {**told, "map": map_object(kept.made), "calls": kept.count}


def call_object(kept, call):
    """A call: its line, and its reply where there is one."""
    told = {"call": call, "line": kept.told(call)}
    if kept.script.cuts:
        told["phase"] = kept.script.phase_of(call)
    if kept.replies is not None:
        told["reply"] = reply_object(kept.made, kept.script.calls[call - 1], kept.answer(call))
    return told


def key_answer(kept, key):
    life = Life(kept, key)
    life.read()
    events = []
    for event in life.events:
        turns = [turn_object(kept.made, lock, entry) for lock, entry in kept.of_call(event.call)
                 if event.has_ticket and entry.ticket == event.ticket]
        events.append({
            "ticket": event.ticket if event.has_ticket else None, "call": event.call, "cpu": event.cpu, "text": event.text,
            "steps": [line for line in event.more if not line.startswith(WHY)],
            "why": [line.removeprefix(WHY) for line in event.more if line.startswith(WHY)],
            "turn": turns[0] if turns else None,
        })
    is_there = life.stay is not None
    at_end = {"there": is_there}
    if is_there:
        at_end |= {"element": life.stay.element, "list": life.stay.place or None, **held(kept, life)}
    told = {"key": key, "hash": f"{life.hash:08x}", "bucket": life.bucket[1], "events": events, "at_end": at_end}
    return {**head(kept, "key"), **told}


def held(kept, life):
    """What the dump says of the key's element, where the report has one."""
    begin = f"bucket {life.bucket[1]} {life.stay.element} "
    row = next((line.split(" ") for line in kept.dump if line.startswith(begin)), None)
    if row is None:
        return {}
    value = {"values": row[4:]} if kept.made.is_per_cpu else {"value": row[4]}
    return value | ({"bit": str(life.stay.element) in kept.dump[-1].split(" ")[1:]} if kept.made.evicts else {})


def call_answer(kept, number):
    entries = kept.of_call(number)
    plain = Plain(kept, number)
    plain.see(entries)
    turns = [{**turn_object(kept.made, lock, entry), "text": plain.sentences(lock, entry)} for lock, entry in entries]
    return {**head(kept, "call"), **call_object(kept, number), "turns": turns}


def evicted_answer(kept):
    told = [{"ticket": ticket, "call": int(call), "cpu": int(cpu), "key": key, "for_key": taker,
             "last_lookup": None if lookup is None else int(lookup)}
            for ticket, call, cpu, key, taker, lookup in evictions(kept)]
    return {**head(kept, "evicted"), "evictions": told}


def errors_answer(kept):
    """Each call that answered an error. Of E2BIG and ENOMEM all that it had looked at."""
    if kept.replies is not None:
        named = [(at, reply.split(" ")[0]) for at, reply in enumerate(kept.replies, 1)]
    else:
        lines = (line for lock, (_, lines) in kept.histories.items() if lock[0] == "bucket" for line in lines)
        named = sorted((int(line.split(" ")[2]), "e2big") for line in lines if line.endswith(" full"))
    counts, refused = {}, []
    for call, error in named:
        if error == "ok":
            continue
        counts[error] = counts.get(error, 0) + 1
        each = {**call_object(kept, call), "error": error}
        if error in ("e2big", "enomem"):
            each["turns"] = [turn_object(kept.made, lock, entry) for lock, entry in kept.of_call(call)]
        refused.append(each)
    return {**head(kept, "errors"), "errors": counts, "refused": refused}
