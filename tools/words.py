"""An entry in words: what was done in a turn, line by line, with each visit, look and try."""
from reports import Add, Evict, First, Lookup, Next, OnStack, Pop, Push, Refill, Removal, Steal, Turn, Update, Walk

SIDES = {"prog": "a program's", "sys": "the system call's"}
FLAGS = {0: "any", 1: "noexist", 2: "exist"}
# The most digits of a key or a value that are shown.
SHOWN = 40


def short(digits):
    if len(digits) <= SHOWN:
        return digits or "(empty)"
    return f"{digits[:SHOWN - 8]}.. ({len(digits) // 2} bytes)"


def count(number, name):
    return f"{number} {name}{'' if number == 1 else 's'}"


class Words:
    """Tells entries of a map. `key_of` has the key of each element that has or had one."""

    def __init__(self, made, key_of, key=short):
        # (how a key is told)
        self.key = key
        self.made, self.key_of, self.taken_for, self.call = made, key_of, None, None
        self.tellers = {
            Lookup: self.lookup,
            Update: self.update,
            Removal: self.removal,
            Next: self.next,
            First: self.first,
            Walk: self.walk,
            Evict: self.evict,
            OnStack: self.on_stack,
            Pop: self.pop,
            Refill: self.refill,
            Steal: self.steal,
            Add: self.add,
            Push: self.push,
            Turn: self.turn,
        }

    def lines(self, part, taken_for, call):
        """The lines of a part of a call, with the key for which it takes an element, or none."""
        self.taken_for, self.call = taken_for, call
        return self.tellers[type(part)](part)

    def named(self, element):
        key = self.key_of.get(element)
        return f"element {element}" if key is None else f"element {element} (key {self.key(key)})"

    # Buckets.

    def lookup(self, part):
        who = f"{SIDES[part.side]} lookup of key {self.key(part.key)}"
        if part.element is None:
            return [f"{who}: it isn't there"]
        lines = [f"{who}: element {part.element} has it", f"value {short(part.value)}"]
        if self.made.evicts and part.side == "prog":
            lines.append("the element's bit is set")
        return lines

    def update(self, part):
        flags = FLAGS.get(part.flags, part.flags)
        lines = [f"{SIDES[part.side]} update ({flags}) of key {self.key(part.key)}", f"to value {short(part.value)}"]
        if part.offer is not None:
            lines.append(f"with element {part.offer}, which was taken for it")
        put = {
            "added": f"the key wasn't there: added, as element {part.element}",
            "replaced": f"the key was there: element {part.element} replaces element {part.old}",
            "written": f"the key was there: written in place, in element {part.element}",
            "exists": "the key is there: EEXIST",
            "absent": "the key isn't there: ENOENT",
            "full": "the key isn't there, and each freelist was found empty: E2BIG",
        }
        return [*lines, put[part.put]]

    def removal(self, part):
        who = f"{part.verb} of key {self.key(part.key)}"
        if part.element is None:
            return [f"{who}: it isn't there"]
        lines = [f"{who}: element {part.element} is out of the bucket"]
        return lines + [f"value {short(part.value)}"] * (part.verb == "take")

    def next(self, part):
        found = {
            "absent": "it isn't there",
            "last": "it is the last of this bucket",
            "key": f"key {self.key(part.after)} follows",
        }
        return [f"next key behind {self.key(part.key)}: {found[part.found]}"]

    def first(self, part):
        return ["the bucket is empty" if part.key is None else f"the first key is {self.key(part.key)}"]

    def walk(self, part):
        verb = "walk over all elements" if self.call.verb == "each" else f"batch {'take' if part.removes else 'lookup'}"
        who = f"a {verb} with room for {part.room}"
        if part.over is not None:
            return [f"{who}: the bucket has {part.over}, too many"]
        did = "takes out" if part.removes else "reads"
        lines = [f"{who}: {did} {count(len(part.taken), 'element')}"]
        lines += [f"- element {row[0]}: key {self.key(row[1])}, value {short(row[2])}" for row in part.taken]
        if self.call.stop in [key for _, key, _ in part.taken]:
            lines.append(f"it is stopped at key {self.key(self.call.stop)}: what stands behind it isn't handed over")
        return lines

    def evict(self, part):
        who = f"{self.named(part.element)} is to be evicted"
        if part.holder is None:
            return [f"{who}: removed, its key is gone"]
        return [f"{who}: it isn't in the bucket, the hand of CPU {part.holder} has it"]

    # Freelists and lists.

    def on_stack(self, part):
        if part.verb == "empty":
            return ["no element is free here"]
        if part.verb == "pop":
            return [f"element {part.element} is taken"]
        return [f"{self.named(part.element)} is freed"]

    def pop(self, part):
        return [f"{self.taken(part.element)}, off the free list", f"it is pending now, with hash {part.hash:08x}"]

    def refill(self, part):
        lines = [f"refill for a key with hash {part.hash:08x}, as no element is free here"]
        lines.append(f"flushes {count(len(part.flushed), 'pending element')}, tail first")
        lines += [f"- {self.named(element)}: {self.flushed_to(bit)}" for element, bit in part.flushed]
        lines.append(f"gains {count(len(part.gained), 'free element')}{listed(part.gained)}")
        return lines + [self.got(part.got)]

    def flushed_to(self, bit):
        return "bit set, to global active" if bit else "bit not set, to global inactive"

    def got(self, element):
        return "gets no element" if element is None else self.taken(element)

    def taken(self, element):
        return f"element {element} is taken for key {self.key(self.taken_for)}"

    def steal(self, part):
        took = {
            "free": f"a theft: takes element {part.element} off the free list",
            "pending": f"a theft: takes element {part.element} off pending",
            "none": "a theft that gets nothing here",
        }
        lines = [took[part.how]]
        if part.how != "free":
            lines.append(f"first walk over pending: {count(len(part.first), 'look')}")
            lines += [self.look(look, "bit set, passed over") for look in part.first]
            lines.append(f"second walk, whatever the bits: {count(len(part.second), 'try').replace('trys', 'tries')}")
            lines += [self.look(look, "") for look in part.second]
        return lines

    def add(self, part):
        lines = [f"the stolen {self.taken(part.element)}", f"it is pending now, with hash {part.hash:08x}"]
        return [*lines, f"the next theft starts at CPU {part.cursor}"]

    def push(self, part):
        if part.how == "moved":
            who = self.named(part.element)
            return [f"{who} isn't here any more: it was flushed", "it is freed in a turn of the global lists"]
        return [f"{self.named(part.element)} is freed"]

    def turn(self, part):
        lines = []
        if part.hash is None:
            lines.append(f"takes in {count(len(part.flushed), 'flushed element')}")
            lines += [f"- {self.named(element)}: {self.flushed_to(bit)}" for element, _, bit in part.flushed]
        else:
            lines.append(f"an element is taken for a key with hash {part.hash:08x}")
        lines.append(f"rotation: {count(len(part.active), 'visit')} of active")
        lines += [self.visit(*visit, "stays on active, at its head", "to inactive") for visit in part.active]
        lines.append(f"rotation: {count(len(part.inactive), 'visit')} of inactive")
        lines += [self.visit(*visit, "to active", "stays") for visit in part.inactive]
        if part.hash is None:
            lines.append(f"gives {count(len(part.free), 'element')} off its free list{listed(part.free)}")
        lines += self.shrink(part.shrink)
        return lines if part.hash is None else [*lines, self.got(part.got)]

    def visit(self, element, bit, then, otherwise):
        return f"- {self.named(element)}: " + (f"bit set, cleared, {then}" if bit else f"bit not set, {otherwise}")

    def shrink(self, shrink):
        if shrink is None:
            return ["no shrink, as enough was free"]
        lines = [f"shrink for {shrink.target}: {count(len(shrink.looks), 'look')}"]
        lines += [self.look(look, "bit set, cleared, spared: to active") for look in shrink.looks]
        if shrink.forced:
            lines.append("forced, whatever the bits:")
            lines += [self.look(look, "") for look in shrink.forced]
        return lines

    def look(self, look, passed):
        bit = "" if look.bit is None else "bit not set, "
        if look.is_removed:
            return f"- {self.named(look.element)}: {bit}removed from its bucket"
        if look.is_held:
            return f"- {self.named(look.element)}: {bit}held by CPU {look.holder}"
        return f"- {self.named(look.element)}: {passed}"


def listed(elements):
    return ": " + " ".join(map(str, elements)) if elements else ""
