"""A run as one story: its turns in the order of their tickets, which lie in which, and what each is about."""
from array import array

from asked import Asked
from reports import Add, Evict, First, Lookup, Next, OnStack, Pop, Push, Refill, Removal, Steal, Turn, Unlawful, Update, Walk, need
from words import Words, short

# Bits of a turn's mark. (A moment is a turn on keys: one of a bucket that is no eviction.)
EVICTED, ENOMEM, E2BIG, HELD, MOMENT = 1, 2, 4, 8, 16
ON_KEYS = (Lookup, Update, Removal, Next, First, Walk)


class Ragged:
    """Lists of numbers, one behind another: that of row N goes from starts[N] to starts[N + 1]."""

    def __init__(self, rows):
        self.starts, self.values = array("I", [0]), array("I")
        for row in rows:
            self.values.extend(row)
            self.starts.append(len(self.values))


class Story:
    """What a report tells of a map with these calls: by ticket the turn, its enclosing one, elements, keys, and counts."""

    def __init__(self, made, calls, report, key=short):
        self.made, self.calls = made, calls
        self.turns = [None] * sum(map(len, report.histories.values()))
        for lock, entries in report.histories.items():
            of = {"global": 1, "bucket": made.buckets}.get(lock[0], made.cpus)
            need(lock[-1] == "global" or lock[-1] < of, f"there is no lock {' '.join(map(str, lock))}")
            for entry in entries:
                self.turns[entry.ticket] = lock, entry
        # The ticket of the enclosing turn and 1, or 0.
        self.parents = array("I", [0]) * len(self.turns)
        self.marks = bytearray(len(self.turns))
        self.elements, self.keys, self.lines = [], [], []
        # How many elements are free, and in buckets, behind each turn.
        self.free, self.kept = array("I"), array("I")
        self.free_at_first = made.elements - (made.cpus if made.kind == "hash" else 0)
        self.numbers, self.key_of = {}, {}
        # Of each time in which an element was in a CPU's hand: the CPU, the element, the first and the last ticket, the call,
        # and the number of the key for which it was taken and 1, or 0 where it was to be freed.
        self.hands, self.in_hand = [], {}
        self.words = Words(made, self.key_of, key)
        self.asked = Asked(calls)
        self.replay()
        self.mark_refusals(report.replies)

    def replay(self):
        free, kept = self.free_at_first, 0
        open_turns = [[] for _ in range(self.made.cpus)]
        for ticket, (lock, entry) in enumerate(self.turns):
            part = entry.part
            wrong = self.asked.wrong(entry.cpu, entry.call, *call_words(part))
            need(not wrong, wrong)
            self.enclose(ticket, lock, entry, open_turns[entry.cpu])
            self.follow_hands(ticket, entry)
            self.tell(part, self.calls[entry.call - 1])
            if isinstance(part, Evict):
                self.marks[ticket] |= EVICTED if part.holder is None else HELD
            elif isinstance(part, Update) and part.put == "full":
                self.marks[ticket] |= E2BIG
            if isinstance(part, ON_KEYS):
                self.marks[ticket] |= MOMENT
            free, kept = free + freed(part), kept + brought(part)
            need(free >= 0 and kept >= 0, f"the entry with ticket {ticket}: so many elements don't exist")
            self.free.append(free)
            self.kept.append(kept)
        for element in list(self.in_hand):
            self.let_go(element, len(self.turns) - 1)

    def follow_hands(self, ticket, entry):
        """Which elements come into the hand of the turn's CPU, and which leave it. On maps that don't evict each is popped and
        pushed inside the turn of its bucket, and no other CPU can find it in a hand."""
        part = entry.part
        if not self.made.evicts:
            return
        if isinstance(part, Update):
            if part.put in ("added", "replaced"):
                self.let_go(part.element, ticket)
            if part.put == "replaced":
                self.take_up(part.old, ticket, entry, 0)
            if part.put not in ("added", "replaced") and part.offer is not None:
                self.take_up(part.offer, ticket, entry, 0)
        elif isinstance(part, Push) or isinstance(part, OnStack) and part.verb == "push":
            if part.element is not None and getattr(part, "how", "done") == "done":
                self.let_go(part.element, ticket)
        elif isinstance(part, Removal) and part.element is not None:
            self.take_up(part.element, ticket, entry, 0)
        elif isinstance(part, Walk) and part.removes:
            for element, _, _ in part.taken:
                self.take_up(element, ticket, entry, 0)
        else:
            self.take_for_key(ticket, entry)

    def take_for_key(self, ticket, entry):
        part, call = entry.part, self.calls[entry.call - 1]
        element = taken(part)
        if isinstance(part, Steal) and part.how != "none":
            element = part.element
        if isinstance(part, OnStack) and part.verb == "pop":
            element = part.element
        if element is None or self.in_hand.get(element, (None,))[0] == entry.cpu:
            return
        key = call.key if call.key is not None or not hasattr(part, "hash") else self.key_for(part, call)
        self.take_up(element, ticket, entry, 0 if key is None else self.number(key) + 1)

    def take_up(self, element, ticket, entry, key):
        self.let_go(element, ticket)
        self.in_hand[element] = entry.cpu, ticket, entry.call, key

    def let_go(self, element, ticket):
        if element in self.in_hand:
            cpu, begin, call, key = self.in_hand.pop(element)
            self.hands.append((cpu, element, begin, ticket, call, key))

    def enclose(self, ticket, lock, entry, inside):
        """The turns of a CPU that no other has enclosed yet lie in its next one, if that may hold any. A turn of a freelist,
        a probe's turn and a turn of the global lists for a refill wait for the one that encloses them."""
        part = entry.part
        waits = isinstance(part, (OnStack, Evict))
        if not waits:
            for child in inside:
                self.parents[child] = ticket + 1
                if isinstance(part, Update):
                    self.keys[child][self.number(part.key)] = None
            inside.clear()
        if waits or (lock[0] == "global" and isinstance(part, Turn)):
            inside.append(ticket)

    def tell(self, part, call):
        """Notes which elements and keys a turn is about, and tells it in words, before what it takes has its new key."""
        elements, keyed = touched(part)
        most = max(elements, default=0)
        need(most < self.made.elements, f"it names element {most}, and the map has {self.made.elements}")
        element = taken(part)
        key = None if element is None else self.key_for(part, call)
        self.elements.append(dict.fromkeys(elements))
        keys = [*named_keys(part), *(self.key_of[old] for old in keyed if old in self.key_of)]
        self.keys.append({self.number(name): None for name in (keys if key is None else [*keys, key])})
        self.lines.append("\n".join(self.words.lines(part, key, call)))
        if element is not None:
            self.key_of[element] = key

    def key_for(self, part, call):
        """The key of its call for which a turn takes an element, or puts it in."""
        if isinstance(part, Update):
            return part.key
        if call.key is not None:
            return call.key
        found = next((key for key, _ in call.pairs if self.made.hash(key) == part.hash), None)
        need(found is not None, "an element was taken for no key of its call")
        return found

    def number(self, key):
        return self.numbers.setdefault(key, len(self.numbers))

    def mark_refusals(self, replies):
        """Marks the last turn of each call that answered ENOMEM."""
        last = {entry.call: ticket for ticket, (_, entry) in enumerate(self.turns)}
        for call, reply in enumerate(replies, 1):
            if reply.startswith("enomem") and call in last:
                self.marks[last[call]] |= ENOMEM

    def check_end(self, dump):
        """What the turns add up to is what the dump shows."""
        lines = [line.split(" ") for line in dump]
        kept = sum(words[0] == "bucket" for words in lines)
        free = sum(len(words) - 2 for words in lines if words[0] == "freelist" or words[:2] == ["global", "free"])
        free += sum(len(words) - 3 for words in lines if words[0] in ("local", "lru") and words[2] == "free")
        if self.turns and (kept, free) != (self.kept[-1], self.free[-1]):
            raise Unlawful("the history doesn't lead to what the dump shows")


def taken(part):
    """The element that a turn takes for a key, or puts into a bucket with it."""
    if isinstance(part, Update):
        return part.element if part.put in ("added", "replaced") else None
    if isinstance(part, (Refill, Turn)):
        return part.got
    return part.element if isinstance(part, (Pop, Add)) else None


def touched(part):
    """The elements that a turn touches, and of these those that had a key before it."""
    if isinstance(part, Turn):
        looks = part.shrink.looks + part.shrink.forced if part.shrink else []
        keyed = [row[0] for row in part.flushed + part.active + part.inactive] + [look.element for look in looks]
        return keyed + part.free + ([] if part.got is None else [part.got]), keyed
    if isinstance(part, Refill):
        keyed = [element for element, _ in part.flushed]
        return keyed + part.gained, keyed
    if isinstance(part, Steal):
        keyed = [look.element for look in part.first + part.second]
        return keyed + ([part.element] if part.how == "free" else []), keyed
    if isinstance(part, Walk):
        return [element for element, _, _ in part.taken], []
    if isinstance(part, Update):
        return [element for element in (part.element, part.old, part.offer) if element is not None], []
    element = getattr(part, "element", None)
    elements = [] if element is None else [element]
    is_taken = isinstance(part, (Pop, Add)) or isinstance(part, OnStack) and part.verb == "pop"
    return elements, [] if is_taken else elements


def call_words(part):
    """The verb, the key and the value of its call that a turn names, where it is one of a bucket that does."""
    if isinstance(part, Update):
        return "update", part.key, part.value
    if isinstance(part, Removal):
        return part.verb, part.key
    return ("lookup" if isinstance(part, Lookup) else "next", part.key) if isinstance(part, (Lookup, Next)) else ()


def named_keys(part):
    """The keys that a bucket's turn names."""
    if isinstance(part, Walk):
        return [key for _, key, _ in part.taken]
    keys = [getattr(part, "key", None), getattr(part, "after", None)]
    return [key for key in keys if key]


def removed(part):
    """How many elements a shrink removed from their buckets."""
    looks = part.shrink.looks + part.shrink.forced if part.shrink else []
    return sum(look.is_removed for look in looks)


def freed(part):
    """How many more elements are free behind a turn."""
    if isinstance(part, Turn):
        return removed(part) - (part.got is not None)
    if isinstance(part, Refill):
        return -(part.got is not None)
    if isinstance(part, Steal):
        return -(part.how == "free")
    if isinstance(part, Push):
        return part.how == "done"
    if isinstance(part, OnStack):
        return (part.verb == "push") - (part.verb == "pop")
    return -isinstance(part, Pop)


def brought(part):
    """How many more elements are in buckets behind a turn."""
    if isinstance(part, Update):
        return part.put == "added"
    if isinstance(part, Removal):
        return -(part.element is not None)
    if isinstance(part, Evict):
        return -(part.holder is None)
    return -len(part.taken) if isinstance(part, Walk) and part.removes else 0
