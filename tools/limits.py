"""What the program takes: its kinds, flags and limits, and a script as lines that are counted while they come."""
import pathlib
import sys
import typing

sys.path.append(str(pathlib.Path(__file__).resolve().parents[1] / "judge"))
import called

KINDS = ("hash", "percpu_hash", "lru_hash", "lru_percpu_hash")
NO_PREALLOC, NO_COMMON_LRU, ZERO_SEED = 1, 2, 64
CPUS, ENTRIES, KEY, VALUE = 16, 65536, 512, 4096
POOL, CALLS, REPLIES, BYTES = 268435456, 200000, 67108864, 16777216
# The statuses of the tools: what was read is wrong, the words are, a read, a write, the map or the script is past what
# the program takes, the program itself could not be run.
INPUT, WORDS, READ, WRITE, REFUSED, LONG, PROGRAM = 1, 2, 3, 4, 6, 7, 70


class Stop(Exception):
    """Ends a tool with a status and one line."""

    def __init__(self, status, line):
        super().__init__(line)
        self.status = status


class Words(called.Parser):
    """Words that are wrong get one line."""

    def __init__(self, name, **form):
        super().__init__(name, name=f"tools/{name}", **form)

    def error(self, message):
        self.exit(WORDS, f"{self.prog}: {message}\n")


class Map(typing.NamedTuple):
    kind: str
    key: int
    value: int
    max: int
    cpus: int
    flags: int = 0

    @property
    def evicts(self):
        return self.kind.startswith("lru_")

    @property
    def per_cpu(self):
        return self.kind.endswith("percpu_hash")

    @property
    def own(self):
        return bool(self.flags & NO_COMMON_LRU)

    @property
    def side(self):
        """The bytes of a value as the system call sees it."""
        return (self.value + 7) // 8 * 8 * self.cpus if self.per_cpu else self.value

    @property
    def capacity(self):
        return -(-self.max // self.cpus) * self.cpus if self.own else self.max

    def line(self):
        flags = f" flags {self.flags}" if self.flags else ""
        return f"map {self.kind} key {self.key} value {self.value} max {self.max} cpus {self.cpus}{flags}"

    def check(self, names=("cpus", "max", "key", "value")):
        """Stops where the program would refuse the map for a limit. The names are those of the fields."""
        sizes, limits = (self.cpus, self.max, self.key, self.value), (CPUS, ENTRIES, KEY, VALUE)
        for name, size, limit in zip(names, sizes, limits):
            if not 1 <= size <= limit:
                raise Stop(REFUSED, f"{name}: {size} is not in the range 1 to {limit} that the program takes")
        if self.own and not self.evicts:
            raise Stop(REFUSED, f"flags: {NO_COMMON_LRU} (own lists) is for kinds that evict, and not for {self.kind}")
        elements = self.capacity + (self.cpus if self.kind == "hash" else 0)
        if elements * (self.key + self.side) > POOL:
            raise Stop(REFUSED, f"{names[1]}: the elements have {elements * (self.key + self.side)} bytes, and the "
                       f"program takes at most {POOL}")


class Script:
    """The lines of a script for a map, held to the limits of the program."""

    def __init__(self, table):
        self.table = table
        self.lines = []
        self.calls = self.replies = self.bytes = 0
        self.add("bpfmap 1")

    def add(self, line):
        self.lines.append(line)
        self.bytes += len(line) + 1
        if self.bytes > BYTES:
            raise Stop(LONG, f"script: more than the {BYTES} bytes that the program reads, at call {self.calls}")

    def call(self, cpu, verb, *words):
        self.calls += 1
        if self.calls > CALLS:
            raise Stop(LONG, f"script: more than the {CALLS} calls that the program makes")
        self.replies += {"lookup": self.table.value, "syslookup": self.table.side, "next": self.table.key}.get(verb, 0)
        if self.replies > REPLIES:
            raise Stop(LONG, f"script: its replies may have more than {REPLIES} bytes, from call {self.calls} on")
        self.add(" ".join((str(cpu), verb, *words)))

    def text(self):
        return "".join(line + "\n" for line in self.lines)


def write(text):
    if sys.stdout is None:
        raise Stop(WRITE, "standard output: it is closed")
    try:
        sys.stdout.write(text)
        sys.stdout.flush()
    except BrokenPipeError:
        raise
    except OSError as why:
        # (else Python tries it once more at its end)
        sys.stdout = None
        raise Stop(WRITE, f"standard output: {why.strerror}")


def run(name, main):
    """Runs a tool: its statuses and its one line, with its name, on standard error."""
    def stopped():
        try:
            return main()
        except Stop as stop:
            print(f"{name}: {stop}", file=sys.stderr)
            return stop.status

    called.run(name, stopped, WRITE)
