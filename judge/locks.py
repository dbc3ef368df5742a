"""What lies under each lock, and each turn's condition and effect there. Lists of elements are head first."""
from reports import Add, Evict, First, Lookup, Next, OnStack, Pop, Push, Refill, Removal, Steal, Turn, Update, Walk, need

# How many elements a rotation or a shrink looks at, and how many a set is to free: of the global set, and of a CPU's own.
GLOBAL_SCANS = GLOBAL_TARGET = 128
OWN_SCANS = OWN_TARGET = 4


class Bucket:
    def __init__(self, made):
        self.made = made
        # (element, key, values)
        self.rows = []

    def turn(self, entry):
        part, cpu = entry.part, entry.cpu
        if isinstance(part, Evict):
            return self.evict(part, cpu)
        if isinstance(part, (Next, First, Walk)):
            return self.walk(part, cpu)
        need(isinstance(part, (Lookup, Update, Removal)), "a part of another lock")
        found = next((row for row in self.rows if row[1] == part.key), None)
        if isinstance(part, Update):
            self.update(part, cpu, found)
        elif isinstance(part, Lookup):
            self.reads(part, found, part.side, cpu)
        else:
            self.reads(part, found, "sys" if part.verb == "take" else None, cpu)
            if found:
                self.rows.remove(found)

    def reads(self, part, found, side, cpu):
        need((part.element is not None) == (found is not None), "whether the key is there")
        if found:
            need(part.element == found[0], "the element of the key")
            need(side is None or part.value == self.made.read(found[2], side, cpu), "the value of the key")

    def update(self, part, cpu, found):
        if found is None:
            allowed = ["absent"] if part.flags == 2 else ["added"] if self.made.evicts else ["added", "full"]
        elif part.flags == 1:
            allowed = ["exists"]
        else:
            allowed = ["written"] if self.made.is_per_cpu else ["replaced"]
        need(part.flags <= 2 and part.put in allowed, f"an update that {part.put}")
        if part.put in ("added", "replaced"):
            if found:
                need(part.old == found[0], "the element replaced")
                self.rows.remove(found)
            self.rows.insert(0, (part.element, part.key, self.made.started(part.side, cpu, part.value)))
        elif part.put == "written":
            need(part.element == found[0], "the element written")
            values = self.made.written(found[2], part.side, cpu, part.value)
            self.rows[self.rows.index(found)] = (*found[:2], values)

    def walk(self, part, cpu):
        keys = [key for _, key, _ in self.rows]
        if isinstance(part, First):
            need(part.key == (keys[0] if keys else None), "the first key")
        elif isinstance(part, Next):
            behind = keys[keys.index(part.key) + 1 :] if part.key in keys else None
            found = "absent" if behind is None else "key" if behind else "last"
            need(part.found == found and (found != "key" or part.after == behind[0]), "the next key")
        elif part.over is not None:
            need(part.over == len(keys) > part.room, "a bucket for which there is no room")
        else:
            rows = [(element, key, self.made.read(values, "sys", cpu)) for element, key, values in self.rows]
            need(part.taken == rows and len(rows) <= part.room, "what is taken of a bucket")
            self.rows = [] if part.removes else self.rows

    def evict(self, part, cpu):
        found = next((row for row in self.rows if row[0] == part.element), None)
        need((found is None) == (part.holder is not None), "whether the element is in the bucket")
        if found:
            self.rows.remove(found)
        else:
            need(part.holder != cpu and part.holder < self.made.cpus, "the CPU that holds an element")

    def lies(self):
        """The free elements under the lock, and those that are listed, head first."""
        return [], [row[0] for row in self.rows]

    def lines(self, number):
        return [f"bucket {number} {element} {key} {' '.join(values)}" for element, key, values in self.rows]


class Freelist:
    def __init__(self, elements):
        # (the top is last)
        self.stack = list(elements)

    def turn(self, entry):
        part = entry.part
        need(isinstance(part, OnStack), "a part of another lock")
        if part.verb == "push":
            self.stack.append(part.element)
        elif part.verb == "pop":
            need(self.stack and self.stack.pop() == part.element, "what is popped")
        else:
            need(not self.stack, "an empty freelist")

    def lies(self):
        return self.stack[::-1], []


class Local:
    """A CPU's local lists, where CPUs share lists."""

    def __init__(self, cpu, cpus):
        self.cpus, self.steal = cpus, cpu
        self.free, self.pending, self.hashes = [], [], {}
        # What put an element on pending last, or took it off.
        self.last_change = {}

    def turn(self, entry):
        part = entry.part
        if isinstance(part, Pop):
            need(self.free and self.free.pop(0) == part.element, "the head of the local free list")
            self.add(part.element, part.hash, part)
        elif isinstance(part, Refill):
            self.refill(entry, part)
        elif isinstance(part, Steal):
            self.steal_from(entry, part)
        elif isinstance(part, Add):
            need(part.element not in self.pending + self.free and part.cursor < self.cpus, "an element added")
            self.steal = part.cursor
            self.add(part.element, part.hash, part)
        else:
            need(isinstance(part, Push), "a part of another lock")
            need((part.element in self.pending) == (part.how == "done"), f"a push {part.how}")
            if part.how == "done":
                self.leave(part.element, part)
                self.free.insert(0, part.element)
            entry.was_flushed = isinstance(self.last_change.get(part.element), Refill)

    def add(self, element, hash, part):
        self.pending.insert(0, element)
        self.hashes[element] = hash
        self.last_change[element] = part

    def leave(self, element, part):
        self.pending.remove(element)
        self.last_change[element] = part

    def refill(self, entry, part):
        need(not self.free, "a refill where the local free list isn't empty")
        need([element for element, _ in part.flushed] == self.pending[::-1], "what is flushed")
        need(part.got == (part.gained[-1] if part.gained else None), "what a refill got")
        entry.flushed = [(element, self.hashes[element], bit) for element, bit in part.flushed]
        for element, _ in part.flushed:
            self.leave(element, part)
        self.free = part.gained[::-1][1:]
        if part.got is not None:
            self.add(part.got, part.hash, part)

    def steal_from(self, entry, part):
        if part.how == "free":
            need(self.free and self.free.pop(0) == part.element, "the head of the local free list")
            need(not part.first and not part.second, "a search behind a steal from the free list")
            return
        need(not self.free, "a steal where the local free list isn't empty")
        taken = None
        for number, looks in enumerate((part.first, part.second)):
            if taken is not None:
                need(not looks, "a second search")
                continue
            for at, look in enumerate(looks):
                need(taken is None and at < len(self.pending), "where a search ends")
                need(look.element == self.pending[-1 - at], "the order of a search")
                need(look.is_probed == (number == 1 or not look.bit), "which looks have a probe")
                taken = look.element if look.is_removed else None
            need(taken is not None or len(looks) == len(self.pending), "where a search ends")
        need(part.element == taken and (part.how == "pending") == (taken is not None), "what is stolen")
        probed = [look for look in part.first + part.second if look.is_probed]
        entry.probes = [(look.element, self.hashes[look.element], look.holder) for look in probed]
        if taken is not None:
            self.leave(taken, part)

    def lies(self):
        return self.free[:], self.pending[:]


class ListSet:
    """The global set, or the set of a CPU."""

    def __init__(self, free, is_global):
        self.is_global = is_global
        self.scans, self.target = (GLOBAL_SCANS, GLOBAL_TARGET) if is_global else (OWN_SCANS, OWN_TARGET)
        self.active, self.inactive, self.free = [], [], list(free)
        # None at the mark.
        self.cursor = None
        self.hashes = {}

    def turn(self, entry):
        part = entry.part
        if isinstance(part, Push):
            need(part.element in self.active + self.inactive, "an element that is pushed free")
            self.leave(part.element)
            self.free.insert(0, part.element)
            return
        need(isinstance(part, Turn), "a part of another lock")
        for element, hash, bit in part.flushed:
            need(element not in self.active + self.inactive + self.free, "a flushed element is in the set")
            (self.active if bit else self.inactive).insert(0, element)
            self.hashes[element] = hash
        self.rotate(part.active, part.inactive)
        if self.is_global:
            need(part.free == self.free[:GLOBAL_TARGET], "what leaves the global free list")
            self.free = self.free[len(part.free) :]
            self.shrink(entry, GLOBAL_TARGET - len(part.free))
        else:
            self.free = self.shrink(entry, 0 if self.free else OWN_TARGET)[::-1] + self.free
            got = self.free.pop(0) if self.free else None
            need(part.got == got, "what a turn got")
            if got is not None:
                self.inactive.insert(0, got)
                self.hashes[got] = part.hash

    def leave(self, element):
        """Takes an element off active or inactive. A cursor at it moves towards the head."""
        if element in self.active:
            self.active.remove(element)
            return
        at = self.inactive.index(element)
        if self.cursor == element:
            self.cursor = self.inactive[at - 1] if at else None
        del self.inactive[at]

    def rotate(self, active, inactive):
        due = self.active[::-1][: self.scans] if len(self.inactive) < len(self.active) else []
        need([element for element, _ in active] == due, "the visits of active")
        self.active = [element for element, bit in active[::-1] if bit] + self.active[: len(self.active) - len(due)]
        self.inactive = [element for element, bit in active[::-1] if not bit] + self.inactive
        before = self.inactive
        start = 0 if self.cursor is None else before.index(self.cursor) + 1
        due = (before[:start][::-1] + before[start:][::-1])[: self.scans]
        need([element for element, _ in inactive] == due, "the visits of inactive")
        moved = [element for element, bit in inactive if bit]
        self.active = moved[::-1] + self.active
        self.inactive = [element for element in before if element not in moved]
        if due:
            ahead = [element for element in before[: before.index(due[-1])] if element not in moved]
            self.cursor = ahead[-1] if ahead else None

    def shrink(self, entry, target):
        """Frees so many elements, or as many as can be; the answer is those freed, in order. With 0 there is no shrink."""
        note = entry.part.shrink
        need((note is not None) == (target > 0), "whether there is a shrink")
        if note is None:
            return []
        need(note.target == target, "the target of a shrink")
        freed, due = [], self.inactive[::-1]
        for at, look in enumerate(note.looks):
            need(at < min(len(due), self.scans) and len(freed) < target, "where the looks end")
            need(look.element == due[at], "the order of the looks")
            need(look.is_probed == (not look.bit), "which looks have a probe")
            self.probed(entry, look, freed)
            if look.bit:
                self.leave(look.element)
                self.active.insert(0, look.element)
        need(len(note.looks) == min(len(due), self.scans) or len(freed) == target, "where the looks end")
        if freed:
            need(not note.forced, "a forced search")
            return freed
        due = (self.inactive or self.active)[::-1]
        for at, look in enumerate(note.forced):
            need(at < len(due) and not freed, "where the forced search ends")
            need(look.element == due[at], "the order of the forced search")
            self.probed(entry, look, freed)
        need(freed or len(note.forced) == len(due), "where the forced search ends")
        return freed

    def probed(self, entry, look, freed):
        if look.is_probed:
            entry.probes.append((look.element, self.hashes[look.element], look.holder))
        if look.is_removed:
            self.leave(look.element)
            freed.append(look.element)

    def lies(self):
        return self.free[:], self.active + self.inactive


def opening(made):
    """What lies under each lock of a map at first, and the spare of each CPU."""
    locks = {("bucket", number): Bucket(made) for number in range(made.buckets)}
    spares = {}
    if made.shares_lists:
        locks["global",] = ListSet(range(made.elements)[::-1], True)
        locks |= {("local", cpu): Local(cpu, made.cpus) for cpu in range(made.cpus)}
    elif made.evicts:
        each = made.elements // made.cpus
        for cpu in range(made.cpus):
            locks["lru", cpu] = ListSet(range(cpu * each, (cpu + 1) * each)[::-1], False)
    else:
        each, more = divmod(made.elements, made.cpus)
        first = 0
        for cpu in range(made.cpus):
            count = each + (cpu < more)
            locks["freelist", cpu] = Freelist(range(first, first + count))
            first += count
        if made.kind == "hash":
            for cpu in range(made.cpus):
                giver = next(other for other in range(made.cpus) if locks["freelist", other].stack)
                spares[cpu] = locks["freelist", giver].stack.pop()
    return locks, spares
