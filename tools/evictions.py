"""Each key that was evicted, by tickets, and for which key it went."""
import bisect
import collections


def evictions(kept):
    """Of each its ticket, call and CPU, the key, the key for which it went, and which call looked it up last, if any did. Each
    line of a bucket is read once. In its bucket a key has the element at which it was added last."""
    gone, updates = [], collections.defaultdict(list)
    for lock, (_, lines) in kept.histories.items():
        keys, lookups = {}, {}
        for words in (line.split(" ") for line in lines) if lock[0] == "bucket" else ():
            ticket, cpu, call, verb = int(words[0]), words[1], words[2], words[3]
            if verb == "update":
                updates[call].append((ticket, words[6]))
                if words[10] in ("added", "replaced"):
                    keys[words[11]] = words[6]
                if words[10] == "added":
                    lookups.pop(words[6], None)
            elif verb == "lookup" and words[4] == "prog" and words[6] == "got":
                lookups[words[5]] = call
            elif verb == "evict" and words[5] == "removed":
                gone.append((ticket, call, cpu, keys[words[4]], lookups.get(keys[words[4]])))
    for own in updates.values():
        own.sort()
    for ticket, call, cpu, key, lookup in sorted(gone):
        # (of a batch the update that comes next)
        own = updates[call]
        yield ticket, call, cpu, key, own[bisect.bisect_left(own, (ticket,))][1], lookup


def tell_evictions(kept):
    rows = [("ticket", "call", "CPU", "what happened")]
    for ticket, call, cpu, key, taker, lookup in evictions(kept):
        used = f"; last looked up by call {lookup}" if lookup else ""
        rows.append((str(ticket), call, cpu, f"key {key} evicted for key {taker}{used}"))
    gone = len(rows) - 1
    widths = [max(len(row[at]) for row in rows) for at in range(3)]
    for row in rows if gone else ():
        yield "  ".join([*(word.rjust(width) for word, width in zip(row, widths)), row[3]])
    yield f"{gone} eviction{'' if gone == 1 else 's'}, of {kept.count} calls"
