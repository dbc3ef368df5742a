"""Which calls were refused with E2BIG or ENOMEM, and what each had looked at."""
import bisect
import collections

from plain import lock_name
from reports import Evict, Refill, Steal, Turn, Update


# In this order they are counted: those that are told of first.
ERRORS = ("e2big", "enomem", "eexist", "enoent", "einval", "enospc")


class Hands:
    """Which call of a CPU had an element in its hand: the one that comes to a bucket with it next, or frees it."""

    def __init__(self, kept):
        self.kept, self.ends = kept, collections.defaultdict(list)
        for lock, (_, lines) in kept.histories.items():
            for index, line in enumerate(lines):
                words = line.split(" ")
                if words[3] == "push":
                    self.ends[int(words[1]), int(words[4])].append((int(words[0]), lock, index))
                elif words[3] == "update" and words[9] != "-":
                    self.ends[int(words[1]), int(words[9])].append((int(words[0]), lock, index))
        for ends in self.ends.values():
            ends.sort()

    def tell(self, cpu, element, ticket):
        """What the CPU was to do with the element that it had when this ticket was drawn."""
        ends = self.ends[cpu, element]
        at = bisect.bisect_right(ends, (ticket, ("~",), 0))
        if at == len(ends):
            return ""
        _, lock, index = ends[at]
        entry = self.kept.entry(lock, index)
        if isinstance(entry.part, Update):
            taken = f"call {entry.call} had taken it for key {entry.part.key}"
            return f": {taken}, and came to the bucket at ticket {entry.ticket}"
        return f": call {entry.call} had it to free, and freed it at ticket {entry.ticket}"


def is_full(entry):
    return isinstance(entry.part, Update) and entry.part.put == "full"


def refused(kept):
    """The calls that answered E2BIG or ENOMEM, each with the error. Where there are no replies, an entry tells E2BIG."""
    if kept.replies is not None:
        named = ((at, reply.split(" ")[0]) for at, reply in enumerate(kept.replies, 1))
        return [(at, name) for at, name in named if name in ("e2big", "enomem")]
    lines = (line for lock, (_, lines) in kept.histories.items() if lock[0] == "bucket" for line in lines)
    return sorted((int(line.split(" ")[2]), "e2big") for line in lines if line.endswith(" full"))


def last_update(entries, is_over):
    """What belongs to the update that was refused: what comes behind the one before, in a batch."""
    before = [at for at, (_, entry) in enumerate(entries) if isinstance(entry.part, Update) and not is_over(entry)]
    return entries[before[-1] + 1 :] if before else entries


def tell_full(kept, entries):
    full = entries[-1][1]
    for lock, entry in entries[:-1]:
        yield f"  ticket {entry.ticket}, {lock_name(lock)}: empty"
        for index in kept.between(lock, entry.ticket, full.ticket):
            other = kept.entry(lock, index)
            if other.part.verb == "push":
                freed = f"call {other.call} of CPU {other.cpu} freed element {other.part.element} here"
                yield f"    behind its back {freed} (ticket {other.ticket})"
    bucket = kept.made.bucket(kept.made.hash(full.part.key))
    key = full.part.key
    yield f"  ticket {full.ticket}, {lock_name(bucket)}: key {key} wasn't there, and no element was found free: E2BIG"


def candidates(looks, kind, probes, hands):
    """Each candidate that a turn looked at: its bit, and whose hand held it."""
    for look in looks:
        bit = "whatever its bit" if look.bit is None else "bit set" if look.bit else "bit clear"
        if not look.is_probed:
            yield f"    {kind} at element {look.element}, {bit}: {'spared, to active' if kind == 'look' else 'passed over'}"
            continue
        ticket = probes.pop(0).ticket
        hand = f"in the hand of CPU {look.holder} (ticket {ticket}){hands.tell(look.holder, look.element, ticket)}"
        yield f"    {kind} at element {look.element}, {bit}: {hand}"


def tell_lists(kept, entries, hands):
    probes = [entry for _, entry in entries if isinstance(entry.part, Evict)]
    for lock, entry in entries:
        part, begin = entry.part, f"  ticket {entry.ticket}, {lock_name(lock)}:"
        if isinstance(part, Turn):
            shrink = part.shrink
            is_empty = not shrink.looks + shrink.forced
            yield f"{begin} nothing free, and the shrink " + ("found nothing listed" if is_empty else "could have none:")
            yield from candidates(shrink.looks, "look", probes, hands)
            yield from candidates(shrink.forced, "forced try", probes, hands)
        elif isinstance(part, Refill):
            yield f"{begin} so the refill got nothing, and a round of thefts began"
        elif isinstance(part, Steal):
            yield f"{begin} nothing free, " + ("and nothing pending could be had:" if part.second else "nothing pending")
            yield from candidates(part.first, "first walk", probes, hands)
            yield from candidates(part.second, "second walk", probes, hands)
    elsewhere = "each list was empty when this call looked at it, as the elements stood elsewhere or were on their way"
    has_looked = any(isinstance(entry.part, Evict) for _, entry in entries)
    yield "  nothing was left to look at: ENOMEM" if has_looked else f"  {elsewhere}: ENOMEM"


def tell_errors(kept):
    found, hands = refused(kept), None
    for call, name in found:
        yield f"call {call}: {kept.told(call)}: {name.upper()}"
        entries = kept.of_call(call)
        if name == "e2big":
            yield from tell_full(kept, last_update(entries, is_full))
        else:
            hands = hands or Hands(kept)
            yield from tell_lists(kept, last_update(entries, lambda entry: False), hands)
    counts = kept.errors()
    told = ", ".join(f"{counts[name]} {name.upper()}" for name in ERRORS if counts[name])
    total = sum(counts.values())
    yield f"of {kept.count} calls {total} answered an error: {told}" if total else f"of {kept.count} calls none answered an error"
