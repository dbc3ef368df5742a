"""What a turn did, in plain words."""
from reports import Add, Evict, First, Lookup, Next, OnStack, Pop, Push, Refill, Removal, Steal, Turn, Update, Walk

FLAGS = ("BPF_ANY", "BPF_NOEXIST", "BPF_EXIST")
SIDES = {"prog": "a program", "sys": "the system call"}
# How many elements are named one by one.
MOST = 12


def several(elements, name="element"):
    """`no element`, `element 3`, `elements 3, 4 and 5`; of many the first and the last."""
    words = [str(element) for element in elements]
    if not words:
        return f"no {name}"
    if len(words) == 1:
        return f"{name} {words[0]}"
    if len(words) > MOST:
        return f"{len(words)} {name}s ({words[0]}, {words[1]} .. {words[-1]})"
    return f"{name}s {', '.join(words[:-1])} and {words[-1]}"


def lock_name(lock):
    name, number = lock[0], lock[-1]
    named = {"bucket": f"bucket {number}", "freelist": f"freelist of CPU {number}", "local": f"local lists of CPU {number}"}
    return named.get(name, "global lists" if name == "global" else f"CPU {number}'s own lists")


def held(looks):
    """Of each CPU what was in its hand."""
    holders = sorted({look.holder for look in looks if look.is_held})
    hands = [(cpu, [look.element for look in looks if look.holder == cpu]) for cpu in holders]
    return [f"{several(elements)} in the hand of CPU {cpu}" for cpu, elements in hands]


class Plain:
    """Words for the turns of one call."""

    def __init__(self, kept, number):
        self.kept, self.made, self.number = kept, kept.made, number
        self.keys = {}

    def see(self, entries):
        """Learns from the call's entries and its line which key each hash is of."""
        keys = [entry.part.key for _, entry in entries if isinstance(entry.part, Update)]
        if self.kept.script.calls is not None:
            call = self.kept.script.calls[self.number - 1]
            keys += [call.key] if call.key else [key for key, _ in call.pairs]
        self.keys = {self.made.hash(key): key for key in keys}

    def key(self, hash):
        return f"key {self.keys[hash]}" if hash in self.keys else f"a key of hash {hash:08x}"

    def sentences(self, lock, entry):
        part = entry.part
        told = {
            Lookup: self.lookup, Update: self.update, Removal: self.removal, Next: self.next_key, First: self.first,
            Walk: self.walk, Evict: self.evict, OnStack: self.on_stack, Pop: self.pop, Refill: self.refill,
            Steal: self.steal, Add: self.add, Push: self.push, Turn: self.turn,
        }[type(part)](lock, entry, part)
        return [told] if isinstance(told, str) else told

    def sets_bit(self, element):
        return f"; this set the bit of element {element}" if self.made.evicts else ""

    def lookup(self, lock, entry, part):
        who = SIDES[part.side]
        if part.element is None:
            return f"{who} looked up key {part.key}: not there"
        no_bit = "; this set no bit" if self.made.evicts else ""
        sets = self.sets_bit(part.element) if part.side == "prog" else no_bit
        return f"{who} looked up key {part.key}: element {part.element} has it, value {part.value}{sets}"

    def update(self, lock, entry, part):
        flags = FLAGS[part.flags]
        offer = "" if part.offer is None else f", with element {part.offer} taken for it"
        old = f"; {part.old} is " + (f"the spare of CPU {entry.cpu} now" if self.made.kind == "hash" else "to be freed")
        sets = self.sets_bit(part.element)
        done = {
            "added": f"it wasn't there, and was added as element {part.element}",
            "replaced": f"it was there as element {part.old}, and element {part.element} took its place{sets}{old}",
            "written": f"it was there, and was written in place in element {part.element}{sets}",
            "exists": "it was there: refused, EEXIST",
            "absent": "it wasn't there: refused, ENOENT",
            "full": "it wasn't there, and no element was found free: refused, E2BIG",
        }[part.put]
        unused = part.offer is not None and part.put not in ("added", "replaced")
        rest = f"; element {part.offer} wasn't needed, and is to be freed" if unused else ""
        return f"{SIDES[part.side]} updated key {part.key} to {part.value} under {flags}{offer}: {done}{rest}"

    def removal(self, lock, entry, part):
        if part.element is None:
            return f"key {part.key} was to go: not there"
        value = f" and read as {part.value}" if part.verb == "take" else ""
        return f"key {part.key} was taken out{value}; element {part.element} had it"

    def next_key(self, lock, entry, part):
        found = {"absent": "it isn't there", "last": "it is the bucket's last", "key": f"key {part.after}"}[part.found]
        return f"the key behind {part.key} was asked for: {found}"

    def first(self, lock, entry, part):
        return f"the bucket's first key: {part.key}" if part.key is not None else "the bucket is empty"

    def walk(self, lock, entry, part):
        call = self.kept.script.calls[self.number - 1]
        who = f"a {'walk over all elements' if call.verb == 'each' else 'batch'} with room for {part.room} more"
        if part.over is not None:
            return f"{who} came by: the bucket has {part.over}, too many, and it took none"
        keys = [key for _, key, _ in part.taken]
        gone = ", and took them out" if part.removes and part.taken else ""
        stopped = f", and was stopped at key {call.stop}" if call.stop in keys else ""
        return f"{who} read {several(keys, 'key')}{gone}{stopped}"

    def evict(self, lock, entry, part):
        if part.holder is not None:
            return f"element {part.element} was to be evicted, but the hand of CPU {part.holder} had it, and not the bucket"
        return f"element {part.element} was taken out, and key {self.key_before(lock, entry)} with it: evicted"

    def key_before(self, lock, entry):
        """The key that the element of an eviction had."""
        for index in reversed(self.kept.between(lock, -1, entry.ticket)):
            line, element = self.kept.lines(lock)[index], entry.part.element
            if f" added {element}" in line or f" replaced {element} " in line:
                part = self.kept.entry(lock, index).part
                if part.element == element:
                    return part.key
        return "-"

    def on_stack(self, lock, entry, part):
        if part.verb == "empty":
            return "it was empty"
        return f"element {part.element} was popped" if part.verb == "pop" else f"element {part.element} was pushed: free"

    def pop(self, lock, entry, part):
        return f"element {part.element}, the head of local free, was taken for {self.key(part.hash)}: pending, bit clear"

    def refill(self, lock, entry, part):
        set_bits, clear = [e for e, bit in part.flushed if bit], [e for e, bit in part.flushed if not bit]
        lists = [f"{several(set_bits)} to global active (bit set)"] * bool(set_bits)
        lists += [f"{several(clear)} to global inactive (bit clear)"] * bool(clear)
        flushed = f"what was pending was flushed: {'; '.join(lists)}" if lists else "nothing was pending to flush"
        told = f"a refill, since local free was empty: {flushed}"
        if not part.gained:
            return [told, "the global lists gave nothing, so it got none"]
        got = f"took element {part.got} for {self.key(part.hash)}: pending, bit clear"
        return [told, f"gained {several(part.gained)} from the global lists, and {got}"]

    def steal(self, lock, entry, part):
        who = f"CPU {entry.cpu} looked here for an element to steal"
        if part.how == "free":
            return f"{who}: took element {part.element}, the head of local free"
        told = [f"{who}: nothing is free" + ("" if part.first else ", and nothing is pending")]
        if part.first:
            told.append("first walk of pending, tail first, past set bits: " + self.looks(part.first, "passed over"))
        if part.second:
            told.append("second walk, whatever the bits: " + self.looks(part.second, ""))
        return told

    def add(self, lock, entry, part):
        stands = f"pending here, bit clear; the next round of thefts starts at CPU {part.cursor}"
        return f"stolen element {part.element} came home for {self.key(part.hash)}: {stands}"

    def push(self, lock, entry, part):
        if part.how == "moved":
            return f"element {part.element} was to be freed here, but a refill had flushed it: it goes to global free"
        return f"element {part.element} was freed: local free" if lock[0] == "local" else f"element {part.element} was freed"

    def turn(self, lock, entry, part):
        told = []
        if part.flushed:
            flushed = [(e, bit) for e, _, bit in part.flushed]
            told.append("flush: " + self.visited(flushed, "to active, bit cleared", "to inactive"))
        if part.active:
            told.append("rotation of active: " + self.visited(part.active, "left there, bit cleared", "to inactive"))
        if part.inactive:
            told.append("rotation of inactive: " + self.visited(part.inactive, "to active, bit cleared", "left there"))
        if not told:
            told.append("nothing was listed to flush or rotate" if lock[0] == "global" else "nothing was listed to rotate")
        if part.free:
            told.append(f"off global free: {several(part.free)}")
        told += self.shrink(part.shrink) if part.shrink else []
        if lock[0] == "lru":
            got = f"element {part.got} was taken for {self.key(part.hash)}: head of inactive, bit clear"
            told.append(got if part.got is not None else f"nothing was free for {self.key(part.hash)}: ENOMEM")
        return told

    def shrink(self, shrink):
        looks = self.looks(shrink.looks, "spared, to active, bit cleared") if shrink.looks else "inactive was empty"
        told = [f"shrink, to free up to {shrink.target}: {looks}"]
        if shrink.forced:
            told.append("forced, since nothing was removed: whatever the bits, tail first: " + self.looks(shrink.forced, ""))
        return told

    def visited(self, visits, if_set, if_clear):
        told = [(several([e for e, bit in visits if bit is wanted]), words) for wanted, words in
                ((True, f"bit set: {if_set}"), (False, f"bit clear: {if_clear}"))]
        return "; ".join(f"{elements}, {words}" for elements, words in told if not elements.startswith("no "))

    def looks(self, looks, if_set):
        spared = [look.element for look in looks if not look.is_probed]
        told = [f"{several(spared)}, bit set: {if_set}"] * bool(spared)
        removed = [look.element for look in looks if look.is_removed]
        clear = "" if looks[0].bit is None else ", bit clear"
        told += [f"{several(removed)}{clear}: removed"] * bool(removed)
        told += [f"{hand}: left there" for hand in held(looks)]
        return "; ".join(told)


def tell_call(kept, number):
    """All that a call did, under each lock."""
    entries = kept.of_call(number)
    plain = Plain(kept, number)
    plain.see(entries)
    reply = kept.answer(number)
    phase = f" in phase {kept.script.phase_of(number)}" if kept.script.cuts else ""
    yield f"call {number}{phase}: {kept.told(number)}" + ("" if reply is None else f": answered {reply}")
    for lock, entry in entries:
        yield kept.raw(lock, entry)
        told = plain.sentences(lock, entry)
        yield f"    {lock_name(lock)}: {told[0]}"
        yield from (f"    {more}" for more in told[1:])
    if not entries:
        yield "It made no turn: nothing was looked at or changed."
