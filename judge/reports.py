"""What a report with history and dump says: replies, each lock's history, strands, and the lists at the end."""
import dataclasses

LOCKS = ("local", "global", "lru", "bucket", "freelist")
# By the version of the script the first line of a history, which tells what stands in its lines.
RECORDS = {1: "record 2", 2: "record 3"}


class Unlawful(Exception):
    """A report that the rules don't allow, with what they refuse."""

    # Under which flaw of a record.
    flaw = None


def need(holds, what):
    if not holds:
        raise Unlawful(what)


@dataclasses.dataclass
class Lookup:
    side: str
    key: str
    element: int | None = None
    value: str = ""


@dataclasses.dataclass
class Update:
    side: str
    flags: int
    key: str
    value: str
    offer: int | None
    # One of added, replaced, written, exists, absent, full.
    put: str
    element: int | None = None
    old: int | None = None


@dataclasses.dataclass
class Removal:
    # One of delete, take.
    verb: str
    key: str
    element: int | None = None
    value: str = ""


@dataclasses.dataclass
class Next:
    key: str
    # One of absent, last, key.
    found: str
    after: str = ""


@dataclasses.dataclass
class First:
    key: str | None


@dataclasses.dataclass
class Walk:
    removes: bool
    room: int
    # The bucket's length where that is more than there is room for, else what was taken, each an element, key and value.
    over: int | None
    taken: list


@dataclasses.dataclass
class Evict:
    element: int
    # The CPU in whose hand the element is; none where it was removed from the bucket.
    holder: int | None


@dataclasses.dataclass
class OnStack:
    # One of push, pop, empty.
    verb: str
    element: int | None = None


@dataclasses.dataclass
class Look:
    """An element that a shrink or a steal looked at: its bit, where that was read, and what its probe answered, if any."""

    element: int
    bit: bool | None
    is_probed: bool
    holder: int | None = None

    @property
    def is_removed(self):
        return self.is_probed and self.holder is None

    @property
    def is_held(self):
        return self.is_probed and self.holder is not None


@dataclasses.dataclass
class Pop:
    hash: int
    element: int


@dataclasses.dataclass
class Refill:
    hash: int
    flushed: list
    gained: list
    got: int | None


@dataclasses.dataclass
class Steal:
    # One of free, pending, none.
    how: str
    element: int | None
    first: list
    second: list


@dataclasses.dataclass
class Add:
    hash: int
    element: int
    cursor: int


@dataclasses.dataclass
class Push:
    element: int
    # On a local lock done or moved.
    how: str = "done"


@dataclasses.dataclass
class Shrink:
    target: int
    looks: list
    forced: list


@dataclasses.dataclass
class Turn:
    """A turn of a list set in which an element was taken. Of the global set it has no hash and nothing got."""

    hash: int | None
    flushed: list
    active: list
    inactive: list
    free: list
    shrink: Shrink | None
    got: int | None


@dataclasses.dataclass
class Entry:
    # The turn's place among all turns of the run, from 0.
    ticket: int
    cpu: int
    call: int
    part: object
    # What the replay adds: the probes of a turn of lists, each an element, its stored hash then and the holder or none;
    # what a refill flushed, each an element, its stored hash and its bit; of a push that found its element moved, whether
    # the last change of the element's row was a refill that flushed it; and what lies under the lock after the turn, the
    # free elements and those that are listed.
    probes: list = dataclasses.field(default_factory=list)
    flushed: list = dataclasses.field(default_factory=list)
    was_flushed: bool = False
    left: tuple = ()


class Words:
    """The words of a line, read from left to right."""

    def __init__(self, line):
        self.left = line.split(" ")[::-1]

    def word(self, *allowed):
        need(self.left, "a line ends early")
        word = self.left.pop()
        need(not allowed or word in allowed, f"the word {word!r}")
        return word

    def number(self):
        return number(self.word())

    def number_or_none(self):
        word = self.word()
        return None if word == "-" else number(word)

    def bytes(self):
        return hexadecimal(self.word())

    def hash(self):
        word = self.bytes()
        need(len(word) == 8, "a hash")
        return int(word, 16)

    def many(self, read):
        """A number, and so many words, each read by this function."""
        return [read(self.word()) for _ in range(self.number())]

    def rest(self):
        """All words that are left."""
        rest, self.left = self.left[::-1], []
        return rest

    def end(self):
        need(not self.left, "a line is too long")


def number(word):
    need(word.isascii() and word.isdigit() and str(int(word)) == word, f"the number {word!r}")
    return int(word)


def hexadecimal(word):
    need(len(word) % 2 == 0 and all(char in "0123456789abcdef" for char in word), f"the bytes {word!r}")
    return word


def bit(word):
    need(word in ("0", "1"), f"the bit {word!r}")
    return word == "1"


def visit(word):
    """`E:B` as an element and its bit."""
    element, _, rest = word.partition(":")
    return number(element), bit(rest)


def flushed(word):
    """`E:HASH:B` as an element, its stored hash and its bit."""
    fields = word.split(":")
    need(len(fields) == 3 and len(fields[1]) == 8, "a flushed element")
    return number(fields[0]), int(fields[1], 16), bit(fields[2])


def look(word):
    """`E:B`, `E:B:r` or `E:B:hH`."""
    element, *rest = word.split(":")
    need(len(rest) in (1, 2), "a look")
    is_probed = len(rest) == 2
    return Look(number(element), bit(rest[0]), is_probed, holder(rest[1]) if is_probed else None)


def forced_look(word):
    """`E:r` or `E:hH`."""
    element, _, answer = word.partition(":")
    return Look(number(element), None, True, holder(answer))


def holder(answer):
    need(answer == "r" or answer[:1] == "h", f"the answer {answer!r}")
    return None if answer == "r" else number(answer[1:])


def taken(word):
    """`E:KEY=HEX`."""
    element, _, rest = word.partition(":")
    key, _, value = rest.partition("=")
    return number(element), hexadecimal(key), hexadecimal(value)


def walk_part(verb, words):
    if verb == "next":
        key, found = words.bytes(), words.word("absent", "last", "key")
        return Next(key, found, words.bytes() if found == "key" else "")
    if verb == "first":
        return First(words.bytes() if words.word("none", "key") == "key" else None)
    removes, room = words.word("keep", "drop") == "drop", words.number()
    if words.word("over", "taken") == "over":
        return Walk(removes, room, words.number(), [])
    return Walk(removes, room, None, words.many(taken))


def bucket_part(words):
    verb = words.word("lookup", "update", "delete", "take", "next", "first", "walk", "evict")
    if verb in ("next", "first", "walk"):
        return walk_part(verb, words)
    if verb == "lookup":
        side, key = words.word("prog", "sys"), words.bytes()
        if words.word("none", "got") == "none":
            return Lookup(side, key)
        return Lookup(side, key, words.number(), words.bytes())
    if verb == "update":
        given = words.word("prog", "sys"), words.number(), words.bytes(), words.bytes()
        words.word("offer")
        offer = words.number_or_none()
        put = words.word("added", "replaced", "written", "exists", "absent", "full")
        element = words.number() if put in ("added", "replaced", "written") else None
        return Update(*given, offer, put, element, words.number() if put == "replaced" else None)
    if verb == "evict":
        element = words.number()
        return Evict(element, words.number() if words.word("removed", "held") == "held" else None)
    key = words.bytes()
    if words.word("none", "gone") == "none":
        return Removal(verb, key)
    return Removal(verb, key, words.number(), words.bytes() if verb == "take" else "")


def freelist_part(words):
    verb = words.word("push", "pop", "empty")
    return OnStack(verb, None if verb == "empty" else words.number())


def local_part(words):
    verb = words.word("pop", "refill", "steal", "add", "push")
    if verb == "pop":
        return Pop(words.hash(), words.number())
    if verb == "refill":
        hash = words.hash()
        words.word("flush")
        flushed = words.many(visit)
        words.word("gain")
        gained = words.many(number)
        words.word("got")
        return Refill(hash, flushed, gained, words.number_or_none())
    if verb == "steal":
        how = words.word("free", "pending", "none")
        element = None if how == "none" else words.number()
        words.word("first")
        first = words.many(look)
        words.word("second")
        return Steal(how, element, first, words.many(forced_look))
    if verb == "add":
        hash, element = words.hash(), words.number()
        words.word("cursor")
        return Add(hash, element, words.number())
    return Push(words.number(), words.word("done", "moved"))


def set_part(words, is_global):
    if words.word("turn", "push") == "push":
        return Push(words.number())
    hash, flushes, free, shrink, got = None, [], [], None, None
    if is_global:
        words.word("flush")
        flushes = words.many(flushed)
    else:
        hash = words.hash()
    words.word("active")
    active = words.many(visit)
    words.word("inactive")
    inactive = words.many(visit)
    if is_global:
        words.word("free")
        free = words.many(number)
    words.word("shrink")
    target = words.word()
    if target != "no":
        looks = words.many(look)
        words.word("forced")
        shrink = Shrink(number(target), looks, words.many(forced_look))
    if not is_global:
        words.word("got")
        got = words.number_or_none()
    return Turn(hash, flushes, active, inactive, free, shrink, got)


def read_entry(lock, line):
    words = Words(line)
    ticket, cpu, call = words.number(), words.number(), words.number()
    if lock[0] == "bucket":
        part = bucket_part(words)
    elif lock[0] == "freelist":
        part = freelist_part(words)
    elif lock[0] == "local":
        part = local_part(words)
    else:
        part = set_part(words, lock[0] == "global")
    words.end()
    return Entry(ticket, cpu, call, part)


@dataclasses.dataclass
class PhaseStart:
    # How many tickets were drawn before it.
    ticket: int
    # The elements whose bit is set then.
    marked: list


@dataclasses.dataclass
class Report:
    head: str
    replies: list
    # The entries of each lock, whose name is a tuple, as ("global",) or ("bucket", 3).
    histories: dict
    # The start of each phase.
    phases: list
    # The phase and the CPUs of each strand, and its steps, each a lock and an index.
    strands: list
    # The lines behind the strands, without the last, `end`.
    dump: list


def read_lock(words):
    name = words.word(*LOCKS)
    return (name,) if name == "global" else (name, words.number())


def read_report(text, calls, version=1):
    """The report of a script of so many calls, and of this version."""
    need(text.endswith("\nend\n"), "no end")
    lines = text.split("\n")[:-2]
    head, lines = lines[0], lines[1:]
    replies = []
    need(len(lines) >= calls, "replies")
    for index in range(calls):
        count, _, reply = lines[index].partition(" ")
        need(count == str(index + 1), f"the number of reply {index + 1}")
        replies.append(reply)
    need(calls < len(lines) and lines[calls].startswith("record "), "no line of the record")
    need(lines[calls] == RECORDS[version], "another record")
    at, histories, strands = calls + 1, {}, []
    while at < len(lines) and lines[at].startswith("lock "):
        words = Words(lines[at].removeprefix("lock "))
        lock, count = read_lock(words), words.number()
        words.end()
        need(lock not in histories and count, f"the history of {lock}")
        need(at + count < len(lines), "a history ends early")
        histories[lock] = [read_entry(lock, line) for line in lines[at + 1 : at + 1 + count]]
        at += 1 + count
    need(list(histories) == sorted(histories, key=lambda lock: (LOCKS.index(lock[0]), lock[1:])), "the order of the locks")
    # (a script of version 1 is one phase, and its report has no line of that)
    phases = [] if version > 1 else [PhaseStart(0, [])]
    while version > 1 and at < len(lines) and lines[at].startswith("phase "):
        phases.append(read_phase(lines[at], len(phases)))
        at += 1
    while at < len(lines) and lines[at].startswith("strand "):
        words = Words(lines[at].removeprefix("strand "))
        phase = words.number() if version > 1 else 0
        named, count = words.word(), words.number()
        words.end()
        # (of a strand without CPUs, which no run leaves, the word is empty)
        cpus = [number(cpu) for cpu in named.split(",")] if named else []
        need(at + count < len(lines), "a strand ends early")
        strands.append((phase, cpus, [read_step(line) for line in lines[at + 1 : at + 1 + count]]))
        at += 1 + count
    need(not "".join(lines[at : at + 1]).startswith(("lock ", "phase ", "strand ", "at ")), "a line out of its place")
    return Report(head, replies, histories, phases, strands, lines[at:])


def read_phase(line, phase):
    """The start of the phase with this number."""
    words = Words(line.removeprefix("phase "))
    need(words.number() == phase, f"the number of phase {phase}")
    ticket = words.number()
    words.word("marked")
    return PhaseStart(ticket, [number(word) for word in words.rest()])


def read_step(line):
    words = Words(line)
    words.word("at")
    step = read_lock(words), words.number()
    words.end()
    return step
