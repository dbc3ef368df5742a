"""The life of a key: each turn that was about it, or about the element that had it, and why it went."""
import bisect
import dataclasses

from plain import FLAGS, SIDES, lock_name, several
from reports import Evict, First, Lookup, Next, Removal, Steal, Turn, Update, Walk


@dataclasses.dataclass
class Event:
    ticket: int
    call: int
    cpu: int
    text: str
    # Lines below it.
    more: list = dataclasses.field(default_factory=list)
    # Whether it is of a call that made no turn, and stands behind the turn of this ticket.
    has_ticket: bool = True


@dataclasses.dataclass
class Step:
    """What a turn of lists did with one element: flush, active, inactive, look, try, first or second."""

    what: str
    bit: bool | None
    is_probed: bool = False
    holder: int | None = None

    @property
    def is_removed(self):
        return self.is_probed and self.holder is None

    @property
    def answer(self):
        hand = f"in the hand of CPU {self.holder}, so it stays"
        return "passed over" if not self.is_probed else "removed" if self.is_removed else hand


@dataclasses.dataclass
class Stay:
    """The time in which an element has the key."""

    element: int
    ticket: int
    call: int
    # The list on which the element stands.
    place: str
    # The uses that set its bit, by tickets.
    uses: list


def steps_of(part, element):
    """In the order in which they were made."""
    if isinstance(part, Steal):
        looks = [("first", part.first), ("second", part.second)]
        visits = []
    else:
        visits = [("flush", [(e, bit) for e, _, bit in part.flushed]), ("active", part.active), ("inactive", part.inactive)]
        looks = [("look", part.shrink.looks), ("try", part.shrink.forced)] if part.shrink else []
    steps = [Step(what, bit) for what, pairs in visits for e, bit in pairs if e == element]
    own = [(what, look) for what, all in looks for look in all if look.element == element]
    return steps + [Step(what, look.bit, look.is_probed, look.holder) for what, look in own]


@dataclasses.dataclass
class Use:
    """A turn of the bucket that set the bit: after its low ticket and before its own."""

    low: int
    ticket: int
    call: int


class Bits:
    """What is known of an element's bit. A turn of lists reads and clears it after the ticket of its lock's turn before, and
    before its own; a bucket's lock puts the uses in one order. What may lie either way the race leaves open."""

    def __init__(self, stay, is_race):
        self.uses, self.is_race = stay.uses, is_race
        # When the bit was clear, at last: it was so after the first of these tickets, and before the second.
        self.low = self.high = -1
        # Which use may have come since; the ticket of the last clearing; and who set what the last turn found set.
        self.left, self.cleared, self.by, self.missed = 0, -1, None, ""
        took = "it took the key" if stay.uses and stay.uses[0].ticket == stay.ticket else "it was taken for this key"
        self.since = f"{took} (call {stay.call})"

    def users(self, uses):
        return several(list(dict.fromkeys(use.call for use in uses)), "call") if uses else "nobody"

    def read(self, bit, low, entry, is_cleared):
        """What explains a bit that this turn found."""
        first = bisect.bisect_right(self.uses, self.low, lo=self.left, key=lambda use: use.ticket)
        may = self.uses[first : bisect.bisect_left(self.uses, entry.ticket, lo=first, key=lambda use: use.low)]
        told = self.read_set(may) if bit else self.read_clear([use for use in may if self.high < use.ticket < entry.ticket])
        if bit and is_cleared:
            # (the first of them came before this clearing, whichever set the bit)
            self.left = first + 1 if may else self.left
            self.cleared, self.since = entry.ticket, f"it was cleared in call {entry.call} (ticket {entry.ticket})"
        if is_cleared or not bit:
            self.low, self.high = low, entry.ticket
        return told

    def read_set(self, may):
        at = next((at for at, use in enumerate(may) if use.low >= self.high), len(may))
        setters = may[: at + 1]
        by = self.users(may if not self.is_race else setters)
        if self.is_race and len(setters) > 1:
            by = f"one of {by}: which, the race leaves open"
        self.by = self.by or by
        return f"bit set by {by}"

    def read_clear(self, late):
        """In a race uses with lower tickets may have left a bit clear."""
        self.missed = ""
        if late and all(use.low >= self.high for use in late):
            self.missed = f"{self.users(late)} used it only after this look, though before this turn ended"
        elif late:
            used = f"by tickets {self.users(late)} used it since {self.since}"
            self.missed = f"{used}; whether before the clearing or after this look, the race leaves open"
        return f"bit clear ({self.missed})" if late else "bit clear"

    def lacked(self, ticket):
        """Why it was found clear by a turn with this ticket."""
        if self.missed:
            return f"its bit was clear: {self.missed}"
        past = [use for use in self.uses if use.ticket < ticket]
        before = f"; earlier uses ({self.users(past)}) count no more" if past else ""
        return f"its bit was clear: no program looked it up, and nobody updated it, since {self.since}{before}"

    def unseen(self, ticket):
        """What is known of it where a turn with this ticket didn't look at it."""
        uses = [use for use in self.uses if self.cleared < use.ticket < ticket]
        if self.is_race:
            return f"its bit wasn't looked at in this turn; by tickets {self.users(uses)} used it since {self.since}"
        return f"its bit, which this turn didn't look at, was set by {self.users(uses)}" if uses else self.lacked(ticket)


def turn_of(lock):
    if lock[0] == "local":
        return f"a steal from the pending list of CPU {lock[1]}"
    return "a turn of the global lists" if lock[0] == "global" else f"a turn of {lock_name(lock)}"


class Life:
    def __init__(self, kept, key):
        self.kept, self.made, self.key = kept, kept.made, key
        self.hash = self.made.hash(key)
        self.bucket = self.made.bucket(self.hash)
        self.events, self.stay, self.was_there = [], None, False

    def add(self, entry, text, more=()):
        self.events.append(Event(entry.ticket, entry.call, entry.cpu, text, list(more)))

    # The bucket's turns.

    def read(self):
        for index, line in enumerate(self.kept.lines(self.bucket)):
            is_named = f" {self.key}" in line or f":{self.key}=" in line
            if is_named or (self.stay and f" evict {self.stay.element} removed" in line):
                self.take_in(self.kept.entry(self.bucket, index))
        if self.stay:
            self.follow(None)
        self.add_refused()
        self.events.sort(key=lambda event: (event.ticket, not event.has_ticket))

    def take_in(self, entry):
        part = entry.part
        if isinstance(part, Evict):
            self.evicted(entry)
        elif isinstance(part, Walk):
            self.walked(entry)
        elif isinstance(part, First) and part.key == self.key:
            self.add(entry, "answered as the first key of its bucket")
        elif isinstance(part, Next) and part.found == "key" and part.after == self.key:
            self.add(entry, f"answered as the next key behind {part.key}")
        elif getattr(part, "key", None) == self.key:
            {Lookup: self.looked_up, Update: self.updated, Removal: self.removed, Next: self.asked}[type(part)](entry)

    def used(self, entry):
        """A use that sets the bit of the key's element; the answer says so."""
        if not self.made.evicts:
            return ""
        self.stay.uses.append(Use(self.low(self.bucket, entry), entry.ticket, entry.call))
        return ": this sets its bit"

    def looked_up(self, entry):
        part = entry.part
        who = f"looked up by {SIDES[part.side]}"
        if part.element is None:
            return self.add(entry, f"{who}: not there")
        no_bit = ": this sets no bit" if self.made.evicts else ""
        bit = self.used(entry) if part.side == "prog" else no_bit
        self.add(entry, f"{who}, value {part.value}{bit}")

    def updated(self, entry):
        part = entry.part
        flags = "" if part.flags == 0 else f" under {FLAGS[part.flags]}"
        given = f"by {SIDES[part.side]}{flags}, value {part.value}"
        if part.put == "added":
            self.begin(entry, part.element)
            bit = ", bit clear" if self.made.evicts else ""
            self.add(entry, f"added {given}: element {part.element}{self.stands()}{bit}")
        elif part.put == "replaced":
            self.end(entry)
            self.begin(entry, part.element)
            goes = f"the spare of CPU {entry.cpu} now" if self.made.kind == "hash" else "freed"
            old = f"element {part.old}, which is {goes}"
            bit = self.used(entry)
            self.add(entry, f"replaced {given}: element {part.element}{self.stands()} for {old}{bit}")
        elif part.put == "written":
            self.add(entry, f"written in place {given}{self.used(entry)}")
        else:
            why = {"exists": "EEXIST, since it was there", "absent": "ENOENT, since it wasn't there",
                   "full": "E2BIG, since it wasn't there and no freelist had an element"}[part.put]
            self.add(entry, f"update {given}: refused, {why}")

    def removed(self, entry):
        verb = {"delete": "deleted", "take": "taken (looked up and deleted)"}[entry.part.verb]
        if entry.part.element is None:
            return self.add(entry, f"to be {verb}: not there")
        self.end(entry)
        self.add(entry, f"{verb}: gone from element {entry.part.element}")

    def asked(self, entry):
        found = {"absent": "not there", "last": "the bucket's last", "key": f"key {entry.part.after}"}[entry.part.found]
        self.add(entry, f"asked for the key behind it: {found}")

    def walked(self, entry):
        part, call = entry.part, self.kept.script.calls[entry.call - 1]
        keys = [key for _, key, _ in part.taken]
        if self.key not in keys:
            return
        at = keys.index(self.key)
        element, _, value = part.taken[at]
        no_bit = ": this sets no bit" if self.made.evicts else ""
        if part.removes:
            self.end(entry)
            self.add(entry, f"taken by a batch, value {value}: gone from element {element}")
        elif call.verb != "each":
            self.add(entry, f"read by a batch, value {value}{no_bit}")
        elif call.stop in keys[:at]:
            self.add(entry, f"read in a walk over all elements, which is stopped before it{no_bit}")
        else:
            value = self.made.read(self.made.fields(value), "prog", call.cpu)
            self.add(entry, f"handed over in a walk over all elements, value {value}{no_bit}")

    def low(self, lock, entry):
        """A ticket after which a turn began. Where no other CPU runs beside it, it is its own: nothing else is done meanwhile."""
        if not self.kept.is_raced(entry.call):
            return entry.ticket
        return max(self.kept.before(lock, entry.ticket), self.kept.start(entry.call) - 1)

    # Stays.

    def begin(self, entry, element):
        place, self.was_there = "", True
        if self.made.evicts:
            place = f"pending of CPU {entry.cpu}" if self.made.shares_lists else f"inactive of CPU {entry.cpu}"
        self.stay = Stay(element, entry.ticket, entry.call, place, [])

    def stands(self):
        return f" on {self.stay.place}" if self.stay.place else ""

    def end(self, entry):
        self.follow(entry.ticket)
        self.stay = None

    def locks(self):
        """The locks whose lists the element may stand on."""
        if self.made.has_own_sets:
            return [("lru", self.stay.element // (self.made.elements // self.made.cpus))]
        return [("global",), *(("local", cpu) for cpu in range(self.made.cpus))]

    def turns(self, end):
        """The turns of lists that did something with the element while it had the key, by tickets."""
        found = []
        for lock in self.locks():
            lines = self.kept.lines(lock)
            for index in self.kept.between(lock, self.stay.ticket, end):
                # (what a refill flushed its turn of the global lists tells too)
                if f" {self.stay.element}:" in lines[index] and " refill " not in lines[index]:
                    found.append((lock, self.kept.entry(lock, index)))
        return sorted(found, key=lambda pair: pair[1].ticket)

    def follow(self, end):
        """Tells the turns of lists of a stay that ends with a ticket, or doesn't. The answer is what is known of the bit."""
        bits = Bits(self.stay, self.kept.is_race)
        for lock, entry in self.turns(end) if self.made.evicts else []:
            told = self.step_words(lock, entry, bits)
            self.add(entry, f"{self.turn_name(lock, entry)}: {'; '.join(told)}")
        return bits

    def turn_name(self, lock, entry):
        if lock[0] == "local":
            return f"CPU {entry.cpu} looked for an element to steal in the local lists of CPU {lock[1]}"
        return f"looked at in {turn_of(lock)}"

    def step_words(self, lock, entry, bits):
        bits.by = None
        return [self.step(lock, entry, step, bits) for step in steps_of(entry.part, self.stay.element)]

    def step(self, lock, entry, step, bits):
        """One step in words. The place and what is known of the bit follow it."""
        low, is_cleared = self.low(lock, entry), step.what != "first"
        found = "" if step.bit is None else f", {bits.read(step.bit, low, entry, is_cleared)}"
        shrink = f"shrink for {entry.part.shrink.target}" if step.what == "look" else ""
        if step.what in ("try", "first", "second") or step.is_probed:
            name = {"try": f"forced, tried from the tail of {self.stay.place} whatever its bit", "look": shrink,
                    "first": "first walk, past set bits", "second": "second walk, whatever its bit"}[step.what]
            return f"{name}{found}: {step.answer}"
        lists = "global {}" if lock[0] == "global" else f"{{}} of CPU {lock[-1]}"
        goes = "active" if step.bit else "inactive"
        name = f"flushed from {self.stay.place}" if step.what == "flush" else shrink or f"rotation of {step.what}"
        where = "stays on" if step.what == goes else "spared, to" if step.what == "look" else "to"
        self.stay.place = lists.format(goes)
        return f"{name}{found}: {where} {self.stay.place}{', bit cleared' if step.bit else ''}"

    # Evictions.

    def evicted(self, entry):
        """Its turn ends after it, as the call's first turn of lists that tells so."""
        later = [(lock, other) for lock, other in self.kept.of_call(entry.call) if other.ticket > entry.ticket]
        element = self.stay.element
        lock, turn = next((lock, other) for lock, other in later if isinstance(other.part, (Turn, Steal))
                          and any(step.is_removed for step in steps_of(other.part, element)))
        update = next(other for _, other in later if other.ticket > turn.ticket and isinstance(other.part, Update))
        bits = self.follow(entry.ticket)
        told = self.step_words(lock, turn, bits)
        why = [*self.reasons(lock, turn, bits), *self.own_key(update)]
        text = f"evicted from element {element} for key {update.part.key}, in {turn_of(lock)} (ticket {turn.ticket})"
        self.add(entry, text, [*told, *(f"why: {reason}" for reason in why)])
        self.stay = None

    def reasons(self, lock, turn, bits):
        steps = steps_of(turn.part, self.stay.element)
        if lock[0] == "local":
            yield f"CPU {turn.cpu} had nothing free and got nothing from the global lists, so it went round the local lists"
            if steps[-1].what == "second":
                nothing = self.nothing(turn.part.first)
                yield f"the first walk removed nothing ({nothing}), so the second took the first that it could have"
            else:
                yield bits.lacked(turn.ticket)
            return
        if steps[-1].what == "try":
            nothing = self.nothing(turn.part.shrink.looks)
            yield f"forced: the shrink's looks removed nothing ({nothing}), so the first to be had goes, whatever its bit"
        cleared = next((step.what for step in steps if step.bit), None)
        if cleared:
            name = {"flush": "flush", "look": "shrink"}.get(cleared, f"rotation of {cleared}")
            same = f"but the {name} of this same turn cleared it: a use saves a key from one such step"
            yield f"its bit was set by {bits.by}, {same}"
        else:
            yield bits.unseen(turn.ticket) if all(step.bit is None for step in steps) else bits.lacked(turn.ticket)

    def nothing(self, looks):
        spared, hands = sum(not look.is_probed for look in looks), sum(look.is_held for look in looks)
        told = [f"{spared} had the bit set"] * bool(spared) + [f"{hands} were in the hands of other CPUs"] * bool(hands)
        return ", ".join(told) or "inactive was empty"

    def own_key(self, update):
        if update.part.key == self.key:
            flags = FLAGS[update.part.flags]
            ends = {"absent": "then the key wasn't there: ENOENT", "added": "then it added the key anew"}
            end = ends.get(update.part.put, "then another CPU had added the key anew")
            taking = f"call {update.call} updates this very key under {flags}, and takes an element before it looks for it"
            yield f"{taking}; {end}"

    # Calls on the key that never came to its bucket.

    def add_refused(self):
        for at, call in enumerate(self.kept.script.calls or (), 1):
            reply = self.kept.answer(at)
            if reply.startswith("enomem") and self.is_stopped_at(call, reply):
                last = self.kept.of_call(at)[-1][1]
                self.add(last, "update: refused, ENOMEM, since no element could be had for it (--errors tells more)")
            elif reply == "einval" and call.verb == "update" and call.key == self.key:
                before = self.ticket_before(at, call.cpu)
                self.events.append(Event(before, at, call.cpu, "update: refused, EINVAL, for its flags", [], False))

    def is_stopped_at(self, call, reply):
        if call.key is not None:
            return call.key == self.key
        return call.pairs[int(reply.rsplit(" ", 1)[1])][0] == self.key

    def ticket_before(self, call, cpu):
        calls, start = self.kept.script.calls, self.kept.start(call)
        for before in range(call - 1, 0, -1):
            if self.kept.start(before) < start:
                break
            if calls[before - 1].cpu == cpu or not self.kept.is_raced(call):
                entries = self.kept.of_call(before)
                if entries:
                    return entries[-1][1].ticket
        return start - 1


def at_end(life):
    """Whether the key is there at the end, and where."""
    if life.stay is None:
        return "At the end the key isn't there."
    told = f"At the end the key is there, as element {life.stay.element}{life.stands()}"
    begin = f"bucket {life.bucket[1]} {life.stay.element} "
    row = next((line.split(" ") for line in life.kept.dump if line.startswith(begin)), None)
    if row is None:
        return f"{told}. (The report has no dump, which would tell its value.)"
    told += f", with {' '.join(row[4:])}"
    if not life.made.evicts:
        return f"{told}."
    is_marked = str(life.stay.element) in life.kept.dump[-1].split(" ")[1:]
    return f"{told}; its bit is {'set' if is_marked else 'clear'}."


def map_words(made):
    cpus = "1 CPU" if made.cpus == 1 else f"{made.cpus} CPUs"
    lists = "" if not made.evicts else ", shared lists" if made.shares_lists else ", lists of each CPU's own"
    return f"{made.kind}, capacity {made.capacity}, {cpus}{lists}"


def tell_key(kept, key):
    life = Life(kept, key)
    life.read()
    yield f"key {key}: hash {life.hash:08x}, bucket {life.bucket[1]} ({map_words(kept.made)})"
    if not life.events:
        yield "The key was never there, and no turn was about it."
        return
    rows = [(str(e.ticket) if e.has_ticket else "-", str(e.call), str(e.cpu), e) for e in life.events]
    heads = ("ticket", "call", "CPU")
    widths = [max(len(row[at]) for row in [heads, *rows]) for at in range(3)]
    yield "  ".join(head.rjust(width) for head, width in zip(heads, widths)) + "  what happened"
    for row in rows:
        yield "  ".join(word.rjust(width) for word, width in zip(row, widths)) + f"  {row[3].text}"
        yield from (" " * (sum(widths) + 6) + more for more in row[3].more)
    yield at_end(life) if life.was_there else "The key was never there."
