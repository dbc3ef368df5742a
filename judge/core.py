"""Where the elements are: the turns of all CPUs, in the order of their tickets, as steps of the core (docs/ARCHITECTURE.md).

A CPU takes a lock that nobody holds, of a higher rank than those that it holds. An element is free, in a bucket or in a CPU's
hand, and on a map that evicts its home is the lock on whose lists it is, or the hand that carries it to other lists.
"""
from reports import Add, Evict, OnStack, Pop, Push, Refill, Removal, Steal, Turn, Unlawful, Update, Walk, need

RANKS = {"local": 1, "global": 2, "lru": 2, "bucket": 3, "freelist": 4}
FREE = ("free",)
GLOBAL = ("global",)


class Core:
    """Of each lock its holder, and what lies under it, free and listed, head first; of each element its owner and its home."""

    def __init__(self, made, locks, spares):
        self.made, self.holders = made, {}
        self.lists = {lock: lists.lies() for lock, lists in locks.items()}
        self.owners = {element: FREE for element in range(made.elements)}
        self.owners |= {element: ("hand", cpu) for cpu, element in spares.items()}
        self.homes = {element: lock for lock, (free, _) in self.lists.items() if made.evicts for element in free}

    def take(self, cpu, lock):
        need(lock not in self.holders, f"{name(lock)} is held")
        held = [RANKS[other[0]] for other, by in self.holders.items() if by == cpu]
        need(all(rank < RANKS[lock[0]] for rank in held), f"{name(lock)} is taken out of order")
        self.holders[lock] = cpu

    def give(self, lock, left):
        """The lock's turn leaves these lists: they have the same elements free, and the same listed, each once."""
        for now, then in zip(left, self.lists[lock]):
            need(sorted(now) == sorted(then) and len(set(now)) == len(now), f"what {name(lock)} is given back with")
        self.lists[lock] = left
        del self.holders[lock]

    def leave(self, element, lock):
        """It leaves the lists of a lock that is held; the answer is those where it goes on to be free, and to be listed."""
        which = self.owners[element] != FREE
        lists = list(map(list, self.lists[lock]))
        need(element in lists[which], f"element {element} isn't there")
        lists[which].remove(element)
        self.lists[lock] = tuple(lists)

    def join(self, element, lock):
        """It comes to the head of the free list or of the listed ones, as its owner says. A freelist lists nothing."""
        which = self.owners[element] != FREE
        if not (which and lock[0] == "freelist"):
            lists = list(map(list, self.lists[lock]))
            lists[which].insert(0, element)
            self.lists[lock] = tuple(lists)

    def holds(self, cpu, lock):
        need(self.holders.get(lock) == cpu, f"{name(lock)} isn't held")

    def is_in_hand(self, cpu, element):
        need(self.owners[element] == ("hand", cpu), f"element {element} isn't in the hand of CPU {cpu}")

    def claim(self, cpu, element, lock):
        self.holds(cpu, lock)
        need(self.lists[lock][0][:1] == [element], f"element {element} isn't the first free one")
        self.leave(element, lock)
        self.owners[element] = "hand", cpu
        self.join(element, lock)

    def settle(self, cpu, element, lock):
        self.holds(cpu, lock)
        self.is_in_hand(cpu, element)
        if self.made.evicts:
            self.leave(element, lock)
        self.owners[element] = FREE
        self.join(element, lock)

    def attach(self, cpu, element, bucket):
        self.holds(cpu, bucket)
        self.is_in_hand(cpu, element)
        need(not self.made.evicts or self.homes[element][0] != "hand", f"element {element} is carried")
        self.owners[element] = bucket
        self.join(element, bucket)

    def detach(self, cpu, element, bucket):
        self.holds(cpu, bucket)
        self.leave(element, bucket)
        self.owners[element] = "hand", cpu

    def rehome(self, cpu, element, home):
        for there in (self.homes[element], home):
            if there[0] == "hand":
                need(there[1] == cpu, f"element {element} is carried by another CPU")
            else:
                self.holds(cpu, there)
        if home != GLOBAL and (home[0] == "hand" or self.owners[element] != FREE):
            self.is_in_hand(cpu, element)
        if self.homes[element][0] != "hand":
            self.leave(element, self.homes[element])
        self.homes[element] = home
        if home[0] != "hand":
            self.join(element, home)

    def turn(self, lock, entry, around):
        """What a turn does once its lock is held, inside the turn of this bucket or of none."""
        part, cpu = entry.part, entry.cpu
        if lock[0] == "bucket":
            self.bucket_turn(lock, part, cpu)
        elif isinstance(part, OnStack):
            if part.verb == "push":
                if around:
                    self.detach(cpu, part.element, around)
                self.settle(cpu, part.element, lock)
            elif part.verb == "pop":
                self.claim(cpu, part.element, lock)
        elif lock[0] == "local":
            self.local_turn(lock, part, cpu)
        elif isinstance(part, Push):
            self.settle(cpu, part.element, lock)
        elif lock == GLOBAL:
            self.global_turn(part, cpu)
        else:
            for element in freed(part.shrink):
                self.settle(cpu, element, lock)
            if part.got is not None:
                self.claim(cpu, part.got, lock)

    def bucket_turn(self, lock, part, cpu):
        if isinstance(part, Update):
            if part.put in ("added", "replaced"):
                self.attach(cpu, part.element, lock)
            if part.put == "replaced":
                self.detach(cpu, part.old, lock)
        elif isinstance(part, Evict):
            if part.holder is None:
                self.detach(cpu, part.element, lock)
            else:
                self.is_in_hand(part.holder, part.element)
        elif self.made.evicts and isinstance(part, Removal):
            if part.element is not None:
                self.detach(cpu, part.element, lock)
        elif self.made.evicts and isinstance(part, Walk) and part.removes:
            for element, _, _ in part.taken:
                self.detach(cpu, element, lock)

    def local_turn(self, lock, part, cpu):
        if isinstance(part, Pop):
            self.claim(cpu, part.element, lock)
        elif isinstance(part, Refill):
            if part.got is not None:
                self.claim(cpu, part.got, lock)
        elif isinstance(part, Steal):
            if part.how == "free":
                self.claim(cpu, part.element, lock)
            if part.how != "none":
                self.rehome(cpu, part.element, ("hand", cpu))
        elif isinstance(part, Add):
            self.rehome(cpu, part.element, lock)
        elif part.how == "done":
            self.settle(cpu, part.element, lock)

    def global_turn(self, part, cpu):
        local = "local", cpu
        for element, _, _ in part.flushed:
            self.rehome(cpu, element, GLOBAL)
        for element in part.free:
            self.rehome(cpu, element, local)
        for element in freed(part.shrink):
            self.rehome(cpu, element, local)
            self.settle(cpu, element, local)


def freed(shrink):
    return [look.element for look in shrink.looks + shrink.forced if look.is_removed] if shrink else []


def name(lock):
    return " ".join(map(str, lock))


def is_inner(part):
    """Whether a turn is made inside another one: of a freelist in a bucket's, an eviction in that of the lists whose probe it
    answers, and a turn of the global lists in a refill."""
    return isinstance(part, (OnStack, Evict)) or isinstance(part, Turn) and part.hash is None


def enclosing(turns):
    """Of each turn the one that encloses it, by its place, or none: the first later one of its call with a lower rank."""
    outer, later = [None] * len(turns), {}
    for at in range(len(turns) - 1, -1, -1):
        lock, entry = turns[at]
        own, rank = later.setdefault((entry.cpu, entry.call), {}), RANKS[lock[0]]
        if is_inner(entry.part):
            outer[at] = min((place for other, place in own.items() if other < rank), default=None)
        own[rank] = at
    return outer


def check_steps(made, opened, turns):
    """Each turn, in the order of tickets, may be made where those before it left the elements and the locks. The locks of the
    turns that enclose it are taken before its own, the outermost first."""
    core, outer, begun = Core(made, *opened), enclosing(turns), [False] * len(turns)
    for at, (lock, entry) in enumerate(turns):
        around, last = [], at
        while last is not None:
            around.append(last)
            last = outer[last]
        try:
            for place in around[::-1]:
                if not begun[place]:
                    begun[place] = True
                    core.take(turns[place][1].cpu, turns[place][0])
            inside = turns[outer[at]][0] if outer[at] is not None else None
            core.turn(lock, entry, inside if inside and inside[0] == "bucket" else None)
            core.give(lock, entry.left)
        except Unlawful as why:
            raise Unlawful(f"ticket {entry.ticket}: {why}") from None
