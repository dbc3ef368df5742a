"""Random scripts for a kernel, and the lines of a script. Maps and calls are those of the judge of races."""
import pathlib
import sys

sys.path.append(str(pathlib.Path(__file__).resolve().parents[2] / "judge"))
from scripts import FLAGS, NO_COMMON_LRU, Call, Map

# So that keys have the same hashes on both sides.
ZERO_SEED = 64
NAMES = {number: name for name, number in FLAGS.items()}
# As many of each verb as are drawn, of all together.
VERBS = {"update": 8, "lookup": 6, "sysupdate": 2, "syslookup": 2, "delete": 2, "take": 1, "next": 1}
BATCHES = {"batch_lookup": 1, "batch_take": 1, "batch_update": 1, "batch_delete": 1}


def line(call):
    """A call as a script has it."""
    verb = "sys" * (call.side == "sys") + call.verb
    if call.verb in ("batch_lookup", "batch_take"):
        words = [call.count, "-" if call.start is None else call.start, *([call.flags] if call.flags else [])]
    elif call.verb in ("batch_update", "batch_delete"):
        words = [call.flags, *(word for pair in call.pairs for word in pair if word)]
    elif call.verb == "update":
        words = [NAMES.get(call.flags, call.flags), call.key, call.value]
    else:
        words = [call.key] if call.key is not None else []
    return " ".join(map(str, [call.cpu, verb, *words]))


def head(made):
    """The first two lines of a script."""
    sizes = f"key {made.key_size} value {made.value_size} max {made.entries} cpus {made.cpus}"
    return ["bpfmap 1", f"map {made.kind} {sizes} flags {made.flags}"]


def text(made, calls):
    return "\n".join([*head(made), *map(line, calls)]) + "\n"


def random_map(draw, kind, flags, cpus, entries=None):
    entries = entries or draw.choice((1, 2, 3, 5, 8, 13, 20, 40, 64, 100))
    sizes = (1, 2, 4, 5, 8, 11, 12, 13, 16, 24, 27) if entries < 100 else (2, 4, 13, 24)
    return Map(kind, draw.choice(sizes), draw.choice((1, 2, 5, 8, 12, 16)), entries, cpus, flags | ZERO_SEED)


class Drawing:
    """Draws calls on a map's keys: sometimes more than it has room for, with few or many deletions."""

    def __init__(self, draw, made, side, padding=0):
        self.draw, self.made, self.usable, self.padding = draw, made, side.usable, padding
        count = draw.randrange(made.entries, 3 * made.entries + 4)
        self.keys = sorted({draw.randbytes(made.key_size).hex() for _ in range(count)})
        self.weights = dict(VERBS, **BATCHES if side.has_batches else {})
        if not side.has_take:
            del self.weights["take"]
        if draw.randrange(2):
            for verb in ("delete", "take", "batch_take", "batch_delete"):
                self.weights[verb] = 0
        self.drawn = 0

    def key(self):
        return self.draw.choice(self.keys)

    def value(self):
        self.drawn += 1
        return (self.drawn % 251 + 1).to_bytes(1, "little").hex() * self.made.value_size

    def system_value(self):
        if not self.made.is_per_cpu:
            return self.value()
        behind = bytes([self.padding]).hex() * (-self.made.value_size % 8)
        return "".join(self.value() + behind for _ in range(self.made.cpus))

    def call(self):
        draw, cpu = self.draw, self.draw.choice(self.usable)
        verb = draw.choices(*zip(*self.weights.items()))[0]
        if verb in ("batch_lookup", "batch_take"):
            start = draw.choice((None, draw.randrange(self.made.buckets + 1)))
            return Call(cpu, verb, flags=draw.choice((0,) * 9 + (1, 2, 4)), count=draw.randrange(9), start=start)
        if verb.startswith("batch_"):
            value = self.system_value if verb == "batch_update" else str
            pairs = tuple((self.key(), value()) for _ in range(draw.randrange(5)))
            return Call(cpu, verb, flags=draw.choice((0,) * 9 + (1, 2, 4)), pairs=pairs)
        if verb == "next":
            return Call(cpu, verb, key=draw.choice((None, self.key(), self.key())))
        side = "sys" if verb.startswith("sys") else "prog"
        if verb.endswith("update"):
            value = self.system_value() if side == "sys" else self.value()
            return Call(cpu, "update", side, self.key(), draw.choice((0,) * 8 + (1, 1, 2, 2, 3, 4)), value)
        return Call(cpu, verb.removeprefix("sys"), side, self.key())

    def calls(self, count):
        return [self.call() for _ in range(count)]
