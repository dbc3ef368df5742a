"""Maps, calls and phases as scripts name them, and scripts of random calls on few keys."""
import bisect
import dataclasses

KINDS = ("hash", "percpu_hash", "lru_hash", "lru_percpu_hash")
NO_COMMON_LRU = 2
FLAGS = {"any": 0, "noexist": 1, "exist": 2}
WORD = 0xFFFFFFFF
PHASES = 64


@dataclasses.dataclass(frozen=True)
class Map:
    kind: str
    key_size: int
    value_size: int
    entries: int
    cpus: int
    flags: int = 0
    seed: int = 0

    @property
    def evicts(self):
        return self.kind.startswith("lru_")

    @property
    def is_per_cpu(self):
        return "percpu" in self.kind

    @property
    def has_own_sets(self):
        return bool(self.flags & NO_COMMON_LRU)

    @property
    def shares_lists(self):
        return self.evicts and not self.has_own_sets

    @property
    def capacity(self):
        return -(-self.entries // self.cpus) * self.cpus if self.has_own_sets else self.entries

    @property
    def elements(self):
        return self.capacity + (self.cpus if self.kind == "hash" else 0)

    @property
    def buckets(self):
        return 1 << (self.capacity - 1).bit_length()

    def ring(self, cpu):
        """All CPUs from this one upwards, wrapping."""
        return [(cpu + i) % self.cpus for i in range(self.cpus)]

    def hash(self, key):
        return jhash(bytes.fromhex(key), self.seed)

    def bucket(self, hash):
        return ("bucket", hash & (self.buckets - 1))

    # The values of an element: a list of hexadecimal texts, one for each CPU on the kinds that have them, else one.

    def fields(self, value):
        """The values that a system call gives."""
        if not self.is_per_cpu:
            return [value]
        field = 2 * (-(-self.value_size // 8) * 8)
        return [value[i : i + field][: 2 * self.value_size] for i in range(0, len(value), field)]

    def started(self, side, cpu, value):
        """The values of a new element."""
        if side == "sys" or not self.is_per_cpu:
            return self.fields(value)
        zero = "00" * self.value_size
        return [value if other == cpu else zero for other in range(self.cpus)]

    def written(self, values, side, cpu, value):
        """The values after a write in place."""
        if side == "sys":
            return self.fields(value)
        return values[:cpu] + [value] + values[cpu + 1 :]

    def read(self, values, side, cpu):
        if not self.is_per_cpu:
            return values[0]
        if side == "prog":
            return values[cpu]
        return "".join(value + "00" * (-self.value_size % 8) for value in values)


@dataclasses.dataclass(frozen=True)
class Call:
    cpu: int
    # Without the `sys` of a system call's lookup or update.
    verb: str
    side: str = "prog"
    # Of next, none where no key is given.
    key: str | None = None
    flags: int = 0
    value: str = ""
    # Of a batch that reads: how many, and the first bucket.
    count: int = 0
    start: int | None = None
    # Of a batch that writes: keys, with a value each where it updates.
    pairs: tuple = ()
    # Of a walk over all elements, the key at which it stops: none where it stops at none.
    stop: str | None = None


@dataclasses.dataclass(frozen=True)
class Script:
    """A script of calls."""

    version: int
    made: Map
    calls: list
    # How many calls stand before each line `phase`.
    cuts: list

    @property
    def phases(self):
        """The calls of each phase, each with its number in the script."""
        numbered = list(enumerate(self.calls, 1))
        bounds = [0, *self.cuts, len(self.calls)]
        return [numbered[low:high] for low, high in zip(bounds, bounds[1:])]

    def phase_of(self, number):
        """The phase of the call with this number."""
        return bisect.bisect_left(self.cuts, number)


def jhash(key, seed):
    a = b = c = (0xDEADBEEF + len(key) + seed) & WORD

    def word(at):
        return int.from_bytes(key[at : at + 4], "little")

    def rol(x, n):
        return (x << n | x >> (32 - n)) & WORD

    at = 0
    while len(key) - at > 12:
        a, b, c = (a + word(at)) & WORD, (b + word(at + 4)) & WORD, (c + word(at + 8)) & WORD
        for turn in (4, 6, 8, 16, 19, 4):
            a = (a - c) & WORD ^ rol(c, turn)
            c = (c + b) & WORD
            a, b, c = b, c, a
        at += 12
    a, b, c = (a + word(at)) & WORD, (b + word(at + 4)) & WORD, (c + word(at + 8)) & WORD
    for turn in (14, 11, 25, 16, 4, 14, 24):
        c = ((c ^ b) - rol(b, turn)) & WORD
        a, b, c = b, c, a
    # (the last of the seven steps was made on c, which the turns then moved to b)
    return b


def read_script(text):
    """A script without a generator line. ValueError and the like where it is none."""
    lines = [words for line in text.splitlines() if (words := line.split("#")[0].split())]
    version = read_version(lines[0])
    kind, rest = lines[1][1], lines[1][2:]
    sizes = dict(zip(rest[::2], map(int, rest[1::2])))
    made = Map(kind, sizes["key"], sizes["value"], sizes["max"], sizes["cpus"], sizes.get("flags", 0), sizes.get("seed", 0))
    calls, cuts = [], []
    for words in lines[2:]:
        if is_phase(version, words):
            cuts.append(len(calls))
        else:
            calls.append(read_call(words))
            if calls[-1].verb == "each" and version < 2:
                raise ValueError("a verb of version 2")
    if len(cuts) >= PHASES:
        raise ValueError("too many phases")
    return Script(version, made, calls, cuts)


def read_version(words):
    if words not in (["bpfmap", "1"], ["bpfmap", "2"]):
        raise ValueError("the version")
    return int(words[1])


def is_phase(version, words):
    """Whether a line starts the next phase."""
    if version < 2 or words[0] != "phase":
        return False
    if words[1:]:
        raise ValueError("a token behind `phase`")
    return True


def read_call(words):
    cpu, verb, rest = int(words[0]), words[1], [word.lower() for word in words[2:]]
    if verb in ("batch_lookup", "batch_take"):
        count, start, *flags = rest
        first = None if start == "-" else int(start)
        return Call(cpu, verb, flags=int(flags[0]) if flags else 0, count=int(count), start=first)
    if verb == "batch_update":
        return Call(cpu, verb, flags=int(rest[0]), pairs=tuple(zip(rest[1::2], rest[2::2])))
    if verb == "batch_delete":
        return Call(cpu, verb, flags=int(rest[0]), pairs=tuple((key, "") for key in rest[1:]))
    if verb == "each":
        flags, stop = rest
        return Call(cpu, verb, flags=int(flags), stop=None if stop == "-" else stop)
    side = "sys" if verb.startswith("sys") else "prog"
    verb = verb.removeprefix("sys")
    if verb == "update":
        flag, key, value = rest
        return Call(cpu, verb, side, key, int(FLAGS.get(flag, flag)), value)
    return Call(cpu, verb, side, *rest)


def random_script(draw, kind, flags, cpus, count, walks=False, phases=False, entries=None):
    """A script of calls on few keys: sometimes more than the map has room for, with few or many deletions; with phases
    some of these are of one CPU, and some empty."""
    entries = entries or draw.choice((1, 1, 2, 3, 5, 8, 20, 150, 700))
    keys = draw.randrange(entries, 2 * entries + 3)
    made = Map(kind, 2, draw.choice((1, 2, 9)), entries, cpus, flags, draw.choice((0, 12345)))
    verbs = ["update"] * 8 + ["lookup"] * 4 + ["sysupdate", "syslookup"]
    verbs += draw.choice((0, 1, 3)) * ["delete", "delete", "take"]
    if walks:
        verbs += ["next", "batch_lookup", "batch_take", "batch_update", "batch_delete"]
        # (scripts with phases are of version 2)
        verbs += ["each"] if phases else []
    sizes = f"key 2 value {made.value_size} max {entries}"
    lines = [f"bpfmap {1 + phases}", f"map {kind} {sizes} cpus {cpus} flags {flags} seed {made.seed}"]
    if not phases:
        lines += [random_call(draw, made, keys, draw.choice(verbs), index) for index in range(count)]
        return "\n".join(lines) + "\n"
    bounds = [0, *random_cuts(draw, count), count]
    for phase, (low, high) in enumerate(zip(bounds, bounds[1:])):
        lines += ["phase"] if phase else []
        # (of one CPU, or of all)
        alone = draw.choice((None, None, draw.randrange(cpus)))
        lines += [random_call(draw, made, keys, draw.choice(verbs), index, alone) for index in range(low, high)]
    return "\n".join(lines) + "\n"


def random_cuts(draw, count):
    """How many calls stand before each line `phase`: anywhere, or a few calls or none behind another one."""
    cuts = []
    for _ in range(draw.choice((1, 2, 5, 20, PHASES - 1))):
        near = cuts and draw.randrange(2)
        cuts.append(min(count, draw.choice(cuts) + draw.choice((0, 1, 2, 5)) if near else draw.randrange(count + 1)))
    return sorted(cuts)


def random_call(draw, made, keys, verb, index, cpu=None):
    def key():
        return draw.randrange(keys).to_bytes(2, "little").hex()

    def value(number):
        return (number % 251 + 1).to_bytes(1, "little").hex() * made.value_size

    def system_value():
        # (what stands in a field behind the value is not kept)
        fields = [value(index + cpu) + "ff" * (-made.value_size % 8) for cpu in range(made.cpus)]
        return "".join(fields) if made.is_per_cpu else value(index)

    if verb in ("batch_lookup", "batch_take"):
        start = draw.choice(("-", "-", draw.randrange(made.buckets + 1)))
        words = [draw.randrange(2 * made.entries + 2), start, draw.choice((0, 0, 0, 1))]
    elif verb == "batch_update":
        words = [draw.choice((0, 0, 0, 1)), *(word for _ in range(draw.randrange(4)) for word in (key(), system_value()))]
    elif verb == "batch_delete":
        words = [draw.choice((0, 0, 0, 1)), *(key() for _ in range(draw.randrange(4)))]
    elif verb == "each":
        words = [draw.choice((0, 0, 0, 1)), draw.choice(("-", key(), key()))]
    elif verb == "next":
        words = draw.choice(([], [key()], [key()]))
    elif verb.endswith("update"):
        flag = draw.choice(("any", "any", "any", "noexist", "exist", "4"))
        words = [flag, key(), system_value() if verb == "sysupdate" else value(index)]
    else:
        words = [key()]
    return " ".join(map(str, [draw.randrange(made.cpus) if cpu is None else cpu, verb, *words]))
