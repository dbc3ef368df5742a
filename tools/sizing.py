"""The same calls on maps of several sizes: how many flows stayed, and the smallest map tried that lost no live one."""
import json
import math
import sys
import time
import typing

import limits
from about import version
from filling import FETCH

ROW = "{:>6}  {:>6}  {:>7}  {:>7}  {:>7}  {:>7}  {:>8}\n"
SEEDS = "{:>6}  {:>6}  {:>6}  {:>6}  {:>7}  {:>7}  {:>7}  {:>7}  {:>8}\n"
SHARED = ("Shared lists: a CPU without a free element takes 128 from the global list, so free elements lie in the "
          "local lists of CPUs that may need none.\n")
OWN = "Own lists: each CPU has max / CPUs elements for its flows, however few the others have.\n"
ALONE = ("That holds for this script alone: with another order of the calls, on other CPUs, or in a race, another "
         "size is enough.\n")
SURE = "How sure: of runs as these, drawn in the same way, with calls one after another. In a race another size is enough.\n"
# How sure a bound is to be.
CONFIDENCE = 0.95


class Outcome(typing.NamedTuple):
    max: int
    stayed: int
    evicted: int
    live: int
    refused: int
    hits: int
    lookups: int

    @property
    def keeps(self):
        """Whether the map lost no live flow: none was evicted, and none refused."""
        return not self.live and not self.refused


def evictions(lines):
    """The call and the key of each eviction. In its bucket a key has the element at which it was added last."""
    at, keys = "", {}
    for line in lines:
        words = line.split()
        if words[0] == "lock":
            at, keys = words[1], {}
        elif words[0] == "strand":
            return
        elif at == "bucket" and words[3] == "update":
            if words[-2] == "added":
                keys[words[-1]] = words[6]
            elif words[-3] == "replaced":
                keys[words[-2]] = words[6]
        elif at == "bucket" and words[3] == "evict" and words[5] == "removed":
            yield int(words[2]), keys[words[4]]


def tally(text, table, traffic):
    """What came of the calls, by the report with its history and its dump."""
    lines = text.splitlines()
    calls = traffic.calls
    replies = [line.split(" ", 2)[1] for line in lines[1:1 + len(calls)]]
    asked = [reply for reply, (_, verb, _) in zip(replies, calls) if verb == "lookup"]
    gone = live = 0
    for call, key in evictions(lines[2 + len(calls):]):
        flow = traffic.flows[number_of(key) - 1]
        gone += 1
        live += flow.ended is None or call - 1 < flow.ended
    held = {number_of(line.split()[3]) for line in lines if line.startswith("bucket ")}
    stayed = sum(flow.ended is None and flow.number in held for flow in traffic.flows)
    return Outcome(table.max, stayed, gone, live, replies.count("e2big"), asked.count("ok"), len(asked))


def number_of(key):
    return int.from_bytes(bytes.fromhex(key), "little")


class Progress:
    """Lines on standard error, at most one in so many seconds."""

    def __init__(self, every):
        self.every, self.begun, self.runs = every, time.monotonic(), 0
        self.told = self.begun

    def tell(self, what):
        now = time.monotonic()
        if now - self.told >= self.every:
            self.told = now
            print(f"flows: {what}; runs made: {self.runs}, in {now - self.begun:.0f} s", file=sys.stderr, flush=True)
        self.runs += 1


class Tries:
    """The runs on maps with one sort of lists, each made once: by size and seed what came of it."""

    def __init__(self, name, base, seeds, run, progress):
        self.name, self.base, self.seeds, self.make, self.progress = name, base, seeds, run, progress
        self.made = {}

    @property
    def title(self):
        return "This kind" if self.name == "-" else f"{self.name.capitalize()} lists"

    @property
    def step(self):
        return self.base.cpus if self.base.own else 1

    @property
    def top(self):
        room = limits.POOL // (self.base.key + self.base.side) - self.base.cpus
        return max(1, min(limits.ENTRIES, room) // self.step) * self.step

    def run(self, size, seed, between=""):
        if (size, seed) not in self.made:
            sized = self.base._replace(max=size)
            sized.check(("--cpus", "--size", "--key", "--value"))
            name = "" if self.name == "-" else f"{self.name} lists, "
            of = f" of seeds {self.seeds[0]} to {self.seeds[-1]}" if len(self.seeds) > 1 else ""
            self.progress.tell(f"{name}max {size}{between}, seed {seed}{of}")
            self.made[size, seed] = self.make(sized, seed)
        return self.made[size, seed]

    def keeps(self, size, seed, between=""):
        return self.run(size, seed, between).keeps

    def all_keep(self, size):
        """Whether no seed loses a flow at this size. All are run."""
        return all([self.keeps(size, seed) for seed in self.seeds])

    def need(self, seed, low, high):
        """By bisection the smallest size above low at which this seed loses none, or nothing: sizes that grow from high on,
        and then halves of the gap below."""
        low, high, top = low // self.step, max(1, -(-high // self.step)), self.top // self.step
        high = min(top, high)
        while not self.keeps(high * self.step, seed, f", above {low * self.step}"):
            if high == top:
                return None
            low, high = high, min(top, high * 2)
        while high - low > 1:
            middle = (low + high) // 2
            between = f", between {low * self.step} and {high * self.step}"
            low, high = (low, middle) if self.keeps(middle * self.step, seed, between) else (middle, high)
        return high * self.step

    def search(self, flows):
        """A size at which no seed loses a flow, from the need of the first on. What one seed needs more is added."""
        found = self.need(self.seeds[0], 0, flows)
        while found is not None:
            more = next((seed for seed in self.seeds if not self.keeps(found, seed)), None)
            if more is None:
                return
            found = self.need(more, found, found * 9 // 8)

    def sizes(self):
        return sorted({size for size, _ in self.made})

    def at(self, size):
        return [self.made[size, seed] for seed in self.seeds if (size, seed) in self.made]

    def found(self):
        """The smallest size tried at which no seed lost a flow, all of them run."""
        wholes = (size for size in self.sizes() if len(self.at(size)) == len(self.seeds))
        return next((size for size in wholes if all(each.keeps for each in self.at(size))), None)


def share(each):
    # (rounded down, so 100 says that none missed)
    return f"{1000 * each.hits // each.lookups / 10} %" if each.lookups else "-"


def rows(tries):
    for size in tries.sizes():
        outcomes = tries.at(size)
        if len(tries.seeds) == 1:
            each = outcomes[0]
            yield ROW.format(tries.name, each.max, each.stayed, each.evicted, each.live, each.refused, share(each))
            continue
        kept = sum(each.keeps for each in outcomes)
        # (what the search of one seed alone came by, and kept all, tells nothing)
        if kept == len(outcomes) < len(tries.seeds):
            continue
        worst = max(outcomes, key=lambda each: (each.live + each.refused, -each.stayed))
        least = min(outcomes, key=lambda each: each.hits / each.lookups if each.lookups else 1)
        yield SEEDS.format(tries.name, size, len(outcomes), kept, min(each.stayed for each in outcomes),
                           max(each.evicted for each in outcomes), worst.live, worst.refused, share(least))


def bound(count):
    """Of runs drawn alike at most this share loses a flow, where none of so many did: rounded up to a thousandth. If the
    share were greater, so many runs without one would come less often than one time in twenty."""
    return math.ceil((1 - (1 - CONFIDENCE) ** (1 / count)) * 1000 - 1e-9) / 1000


def verdict(tries):
    evicts, count, found = tries.base.evicts, len(tries.seeds), tries.found()
    if count == 1:
        lost = "no live flow of this run was evicted" if evicts else "no flow of this run was refused"
        if found:
            return f"{tries.title}: {found} is the smallest max tried at which {lost}.\n"
        return f"{tries.title}: there is no max among these at which {lost}.\n"
    lost = "no live flow was evicted" if evicts else "no flow was refused"
    if not found:
        return f"{tries.title}: there is no max among these at which {lost} in any of the {count} runs.\n"
    return (f"{tries.title}: {found} is the smallest max tried at which {lost} in any of {count} runs. So at most "
            f"{bound(count) * 100:.1f} % of such runs lose one, at 95 % confidence.\n")


def rule(tries, loads):
    """The max that is counted from the flows, and how many keys."""
    if not tries.base.evicts:
        keys = max(load.most_kept for load in loads)
        return keys, keys
    if tries.base.own:
        keys = max(load.most_near for load in loads)
        return tries.base.cpus * keys, keys
    keys = max(load.most_used for load in loads)
    return keys + FETCH * tries.base.cpus, keys


def counted(tries, size, keys):
    """The rule in words, and what came of the runs at its size."""
    used = "the flows open at a packet of one, and those that come before its next, stopped ones among them"
    if not tries.base.evicts:
        words = f"{keys} keys at a time, since one whose flow just stops stays"
    elif tries.base.own:
        words = f"{keys} keys in use on a CPU ({used}), times {tries.base.cpus} CPUs"
    else:
        words = f"{keys} keys in use ({used}), and {FETCH} for each CPU"
    outcomes = tries.at(size)
    if not outcomes:
        return f"Counted: {words}: max {size}, which is past what is tried.\n"
    kept = sum(each.keeps for each in outcomes)
    came = "no flow was lost" if kept == len(outcomes) else "a flow was lost"
    in_runs = f" in {kept if kept == len(outcomes) else len(outcomes) - kept} of {len(outcomes)} runs"
    return f"Counted: {words}: max {size}. At it {came}{in_runs if len(tries.seeds) > 1 else ''}.\n"


def as_object(asked, table, loads, every):
    """What was found, as docs/flows.schema.json has it."""
    lists = []
    for tries, size, keys in every:
        found = tries.found()
        lists.append({
            "lists": None if tries.name == "-" else tries.name,
            "runs": [{"seed": seed, **outcome._asdict(), "kept": outcome.keeps}
                     for (_, seed), outcome in sorted(tries.made.items())],
            "found": found,
            "at_most": None if found is None else bound(len(tries.seeds)),
            "confidence": CONFIDENCE,
            "counted": {"max": size, "keys": keys},
        })
    seeds = [{"seed": seed, "came": load.came, "open_at_end": load.open, "most_open": load.most_open, "most_used": load.most_used}
             for seed, load in loads.items()]
    made = {"kind": table.kind, "key_size": table.key, "value_size": table.value, "cpus": table.cpus}
    told = {"format": "bpfmap-flows", "version": 1, "tool": version(), "map": made, "calls": asked.calls}
    return {**told, "seeds": seeds, "lists": lists}


def size_up(asked, table, traffic_of, report):
    """Prints the table. `report` runs the calls of a traffic on a map."""
    names = ("-",) if not table.evicts else (asked.lists,) if asked.lists else ("shared", "own")
    seeds = range(asked.seed, asked.seed + asked.seeds)
    progress, loads, every = Progress(asked.every), {}, []
    for seed in seeds:
        loads[seed] = traffic_of(seed).load

    def run(sized, seed):
        traffic = traffic_of(seed)
        return tally(report(sized, traffic), sized, traffic)

    for name in names:
        base = table._replace(flags=limits.NO_COMMON_LRU if name == "own" else 0)
        tries = Tries(name, base, seeds, run, progress)
        size, keys = rule(tries, loads.values())
        for given in sorted(set(asked.size)):
            tries.all_keep(given)
        if not asked.size:
            tries.search(max(load.open for load in loads.values()))
            if size <= tries.top:
                tries.all_keep(size)
        every.append((tries, size, keys))
    warn(asked.flows, min(load.open for load in loads.values()))
    if asked.json:
        limits.write(json.dumps(as_object(asked, table, loads, every)) + "\n")
        return
    write_table(asked, table, loads, every)


def warn(flows, still):
    """A run in which a good part of the flows never opened tells of a smaller map."""
    if 10 * still < 9 * flows:
        print(f"flows: only {still} of {flows} flows are open at the end: such a run tells a size that is too small. "
              "--fill opens all at its begin, and more --calls tell of longer pauses", file=sys.stderr)


def write_table(asked, table, loads, every):
    came, still = [load.came for load in loads.values()], [load.open for load in loads.values()]
    if len(loads) == 1:
        flows = f"{came[0]} flows came, {still[0]} are open at the end"
        heads = ROW.format("lists", "max", "stayed", "evicted", "live", "refused", "hit rate")
    else:
        flows = (f"{min(came)} to {max(came)} flows came, {min(still)} to {max(still)} are open at the end, with seeds "
                 f"{min(loads)} to {max(loads)}")
        heads = SEEDS.format("lists", "max", "seeds", "kept", "stayed", "evicted", "live", "refused", "hit rate")
    out = [f"{table.kind} on {table.cpus} CPUs, {asked.calls} calls: {flows}\n", heads]
    for tries, _, _ in every:
        out += rows(tries)
    out += [verdict(tries) for tries, _, _ in every]
    out += [counted(*each) for each in every if not asked.size]
    names = [tries.name for tries, _, _ in every]
    rules = [SHARED if "shared" in names else "", OWN if "own" in names else ""]
    limits.write("".join(out + [ALONE if len(loads) == 1 else SURE] + rules))
