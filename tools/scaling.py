"""A map and its keys scaled down to what the program takes: which keys stay, and what stays true of the scaled map."""
import zlib

import limits
from filling import FETCH
from limits import Stop

# How many elements a CPU frees at once of its own lists.
OWN_FETCH = 4


def place_of(key):
    """Where a key stands in an order that has nothing to do with its bytes, nor with its bucket: from 0 up to 1."""
    return zlib.crc32(bytes.fromhex(key), 0x5CA1E) / 2**32


def share(part, whole):
    return f"{part / whole * 100:.1f} %"


class Scale:
    """From a map for so many entries on so many CPUs to a smaller one."""

    def __init__(self, table, cpus, entries):
        self.big, self.table = table, table._replace(cpus=cpus, max=entries)
        if entries > table.max or cpus > table.cpus:
            name, what = ("entries", f"{entries}, and the map has {table.max}") if entries > table.max else (
                "cpus", f"{cpus}, and the machine has {table.cpus}")
            raise Stop(limits.WORDS, f"--{name}: {what}: a map is scaled down, and not up")
        self.factor, self.least = entries / table.max, None
        self.left = self.calls_left = 0

    def choose(self, keys):
        """Of the keys of a dump the share that the map is scaled by, in their order."""
        count = min(self.table.capacity, round(len(keys) * self.factor))
        first = sorted(keys, key=lambda key: (place_of(key), key))
        self.left = len(keys) - count
        # (a key of no dump stays where its place is below that of the last one that stays)
        self.least = place_of(first[count]) if count < len(first) else None
        chosen = set(first[:count])
        return {key: value for key, value in keys.items() if key in chosen}

    def has(self, key):
        """Whether calls on this key are made."""
        return place_of(key) < (self.factor if self.least is None else self.least)

    def value(self, value):
        """The values of the CPUs that are left, of a value as the system call has it."""
        return value[: 2 * self.table.side]

    def tell(self, say):
        big, small = self.big, self.table
        say(f"scaled from max_entries {big.max} on {big.cpus} CPUs to {small.max} on {small.cpus}")
        if self.left or self.calls_left:
            say(f"left out: {self.left} keys of the dump and {self.calls_left} calls, by a draw over the keys that is the same "
                "each time")
        say("what stays true: the kind, the flags, keys and values; which share of the map is in use; of the keys that are left "
            "all calls, in their order")
        if big.per_cpu and small.cpus < big.cpus:
            say(f"of each value those of CPUs 0 to {small.cpus - 1} are left")
        if big.evicts:
            self.tell_fetch(say)
        load = [table.max / (1 << (table.capacity - 1).bit_length()) for table in (big, small)]
        say(f"what doesn't: how many keys share a bucket (at most {load[1]:.2f} each, and {load[0]:.2f} there); counts of calls, "
            "evictions and errors, which are those of a part; how often CPUs meet")

    def tell_fetch(self, say):
        """128 elements for each CPU are another share of a smaller map."""
        big, small = self.big, self.table
        fetch = OWN_FETCH if big.own else FETCH
        here, there = fetch * small.cpus, fetch * big.cpus
        took = "frees at most 4 elements at once of its own" if big.own else "takes 128 elements at once"
        same = round(big.max * small.cpus / big.cpus)
        if here * big.max == there * small.max:
            say(f"as there: a CPU {took}, together {share(here, small.max)} of the map")
            return
        fits = f"--entries {same} would keep it" if 0 < same <= limits.ENTRIES else (
            f"{limits.ENTRIES} entries are the most here, and {same} would keep it")
        say(f"what doesn't: a CPU {took} whatever the map, together {share(here, small.max)} of this one and "
            f"{share(there, big.max)} of that one: keys go {'sooner' if here * big.max > there * small.max else 'later'} here. "
            f"{fits}")
