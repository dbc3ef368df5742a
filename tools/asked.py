"""Whether the turns of buckets are those of a script's calls: the CPU, the verb, the key, and of an update the value."""
from scripts import Call

# The turns of a bucket that name their call's key, and the calls that make such.
VERBS = {"lookup": ("lookup",), "update": ("update", "batch_update"), "delete": ("delete", "batch_delete"),
         "take": ("take",), "next": ("next",)}


class Asked:
    def __init__(self, calls):
        self.calls = calls
        # (of a batch, made once: a batch may have many)
        self.pairs = {}

    def wrong(self, cpu, number, verb="", key=None, value=""):
        """How a turn differs from the call of which it says that it is; none where it doesn't."""
        if not 1 <= number <= len(self.calls):
            return f"it has a turn of call {number}, and the script has calls 1 to {len(self.calls)}"
        call = self.calls[number - 1]
        if call.cpu != cpu:
            return f"its call {number} is of CPU {cpu}, and the script's of CPU {call.cpu}"
        if not verb:
            return None
        if call.verb not in VERBS[verb]:
            return f"its call {number} made a turn `{verb}`, and the script's is a {call.verb}"
        if call.key is None and number not in self.pairs:
            self.pairs[number] = set(call.pairs)
        if (key, value) == (call.key, call.value) or (key, value) in self.pairs.get(number, ()):
            return None
        told = f"key {key}, value {value}" if verb == "update" else f"key {key}"
        if call.key is None:
            return f"its call {number} has {told}, and the script's {call.verb} has no such"
        own = f"key {call.key}, value {call.value}" if verb == "update" else f"key {call.key}"
        return f"its call {number} has {told}, and the script's {own}"


def generated(made, seed, count, keys, mix):
    """The calls for which a generator line stands, and their texts."""
    calls, texts, names, state = [], [], {}, seed

    def draw(choices):
        nonlocal state
        state = (state * 1664525 + 1013904223) % 2**32
        return (state >> 16) % choices

    for index in range(count):
        if mix:
            cpu, choice, key = draw(made.cpus), draw(8), draw(keys)
            verb = "update" if choice < 3 else "lookup" if choice < 7 else "delete"
        else:
            cpu, key = index % made.cpus, index % keys
            verb = "lookup" if index // keys % 2 else "update"
        name = names.setdefault(key, little_endian(key + 1, made.key_size))
        value = little_endian(index + 1, made.value_size) if verb == "update" else ""
        calls.append(Call(cpu, verb, key=name, value=value))
        texts.append(f"{cpu} update any {name} {value}" if verb == "update" else f"{cpu} {verb} {name}")
    return calls, texts


def little_endian(number, size):
    return number.to_bytes(max(size, 8), "little")[:size].hex()
