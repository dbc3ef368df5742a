"""The calls that fill a map with the keys of a dump."""
import limits
from limits import Stop

# How many elements a CPU takes at once where lists are shared.
FETCH = 128


def fillers(table, keys):
    """Keys that have to come first where CPUs share lists, so that no key of the dump is evicted by the last refill.

    A refill is to get 128 elements. Where fewer are left over it evicts for those that lack, the oldest keys first."""
    left = table.max % FETCH
    if not table.evicts or table.own or table.max < FETCH or not left or len(keys) <= table.max - left:
        return []
    found, number = [], 0
    while len(found) < FETCH - left:
        key = number.to_bytes(table.key, "little").hex()
        number += 1
        if key not in keys:
            found.append(key)
    return found


def fill(script, entries, path, cpu):
    """The keys of the dump, the last one first: a new key comes to the head of its bucket."""
    table = script.table
    if len(entries) > table.capacity:
        raise Stop(limits.INPUT, f"{path}: {len(entries)} keys, and max_entries is {table.max}")
    first = fillers(table, entries)
    if first:
        script.add(f"# fillers, {len(first)} keys of no dump: the last refill wants {FETCH} elements, finds "
                   f"{table.max % FETCH}, and evicts these for the others")
    for key in first:
        script.call(cpu, "sysupdate", "any", key, "00" * table.side)
    script.add(f"# keys of the dump: {len(entries)}, the last one first")
    for place, (key, value) in enumerate(reversed(entries.items())):
        script.call(place % table.cpus if table.own else cpu, "sysupdate", "any", key, value)
