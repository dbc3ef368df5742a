"""Judges the report of a copy, with history and dump: it is two, that of the source's script with the reads of the copy behind
its calls, and that of the target's script, whose calls are the puts."""
import dataclasses
import random

from judge import judge
from reports import Walk, need, read_report
from scripts import KINDS, NO_COMMON_LRU, Map, random_script, read_script

COPIER = 0


@dataclasses.dataclass
class Copy:
    """A script of a copy."""

    # The text without the target line, which is a script of calls.
    text: str
    source: object
    target: Map
    # How many pairs the first read asks for.
    count: int


@dataclasses.dataclass
class Read:
    count: int
    start: int
    stop: str
    pairs: list
    next: int

    @property
    def call(self):
        return f"{COPIER} batch_lookup {self.count} {self.start}"

    @property
    def reply(self):
        return " ".join([f"{self.stop} taken {len(self.pairs)} next {self.next}", *(f"{key}={value}" for key, value in self.pairs)])

    @property
    def put(self):
        return " ".join([f"{COPIER} batch_update 0", *(f"{key} {value}" for key, value in self.pairs)])


def read_copy(text):
    """A script of a copy that is well formed. ValueError and the like where it is none."""
    lines = text.splitlines()
    third = [at for at, line in enumerate(lines) if line.split("#")[0].split()][2]
    word, kind, *rest = lines[third].split("#")[0].split()
    if word != "target" or kind not in KINDS:
        raise ValueError("the target line")
    lines[third] = ""
    source = read_script("\n".join(lines))
    if source.version != 2 or any(call.cpu == COPIER for _, call in source.phases[-1]):
        raise ValueError("the version, or a call of CPU 0 in the last phase")
    sizes, made = dict(zip(rest[::2], map(int, rest[1::2]))), source.made
    target = Map(kind, made.key_size, made.value_size, sizes["max"], made.cpus, sizes.get("flags", 0), sizes.get("seed", 0))
    if target.is_per_cpu != made.is_per_cpu:
        raise ValueError("the kinds")
    return Copy("\n".join(lines) + "\n", source, target, sizes["count"])


def halves(text, report_text):
    """The script and the report of the source with the reads, and those of the target. The reads are those that the source's
    history tells: each begins where the one before it says, and asks for as many pairs, or where that had no room for twice as
    many, at most for all elements."""
    copy = read_copy(text)
    kept, parted, told = report_text.partition("\ntarget ")
    need(parted and report_text.endswith("\nend\n"), "no copy")
    lines = told.split("\n")[:-2]
    need(len(lines) >= 4, "what came of the copy")
    made = copy.target
    need(lines[0] == f"{made.kind} capacity {made.capacity} elements {made.elements} buckets {made.buckets}", "the target")
    calls = len(copy.source.calls)
    reads = made_reads(copy, read_report(f"{kept}\nend\n", calls, 2))
    need(lines[1] == f"reads {len(reads)}", "the number of reads")
    replies = puts_told([len(read.pairs) for read in reads if read.pairs], *lines[2:4])
    need(replies and not replies[-1].startswith("ok ") or reads[-1].stop == "enoent", "a copy that ends too early")
    head = kept.split("\n")
    numbered = [f"{number} {read.reply}" for number, read in enumerate(reads, calls + 1)]
    source = copy.text + "".join(f"{read.call}\n" for read in reads)
    flags = f"flags {made.flags} seed {made.seed}"
    sizes = f"key {made.key_size} value {made.value_size} max {made.entries} cpus {made.cpus} {flags}"
    puts = "".join(f"{read.put}\n" for read in reads if read.pairs)
    return (
        (source, "\n".join([*head[: calls + 1], *numbered, *head[calls + 1 :], "end"]) + "\n"),
        (
            f"bpfmap 1\nmap {made.kind} {sizes}\n{puts}",
            "\n".join([f"map {lines[0]}", *(f"{at} {reply}" for at, reply in enumerate(replies, 1)), *lines[4:], "end"]) + "\n",
        ),
    )


def made_reads(copy, report):
    """The reads of a copy, by the walks that the source's history tells of them."""
    calls, turns = len(copy.source.calls), {}
    for lock, entries in report.histories.items():
        for entry in entries:
            if entry.call > calls:
                turns.setdefault(entry.call, []).append((entry.ticket, lock, entry))
    made, reads, count, start = copy.source.made, [], copy.count, 0
    while not reads or reads[-1].stop != "enoent" and calls + len(reads) + 1 in turns:
        own = sorted(turns.pop(calls + len(reads) + 1, []), key=lambda turn: turn[0])
        read = made_read(made, own, count, start)
        reads.append(read)
        start = read.next
        count = min(2 * count, made.elements) if read.stop == "enospc" else count
    need(not turns, "a read behind the end of the copy")
    need(len(reads) <= made.buckets + 17, "too many reads")
    return reads


def made_read(made, own, count, start):
    """A read that asks for so many pairs, from this bucket on, by its turns."""
    at, pairs, stop = start, [], "enoent"
    for _, lock, entry in own:
        need(stop == "enoent" and lock == ("bucket", at) and isinstance(entry.part, Walk), "a turn of a read")
        need(entry.cpu == COPIER and entry.part.room == min(count, made.elements) - len(pairs), "the room of a read, or its CPU")
        if entry.part.over is not None:
            stop = "ok" if pairs else "enospc"
        else:
            pairs += [(key, value) for _, key, value in entry.part.taken]
            at += 1
    need(own and (stop != "enoent" or at == made.buckets), "a read that ends too early")
    return Read(count, start, stop, pairs, at)


def puts_told(lengths, copied, stop):
    """The replies of puts of so many pairs each, by these two lines: each is done whole, but for one that stopped, the last."""
    word, _, name = stop.partition(" ")
    need(word == "stop" and (name == "-" or lengths), "the line of the stop")
    done = sum(lengths[:-1] if name != "-" else lengths)
    replies = [f"ok done {length}" for length in lengths]
    if name != "-":
        word, _, number = copied.partition(" ")
        last = int(number) - done if number.isdigit() else -1
        need(0 <= last < lengths[-1], "how many entries were done")
        replies[-1], done = f"{name} done {last}", done + last
    need(copied == f"copied {done}", "how many entries were done")
    return replies


def judge_copy(text, report_text):
    """Raises Unlawful where the rules don't allow the report of a copy. The answer counts what happened."""
    source, target = halves(text, report_text)
    counts = judge(*source, is_race=True)
    puts = judge(*target)
    need(len(read_report(target[1], int(puts["calls"]), 1).strands) == 1, "the strands of the target")
    calls = len(read_copy(text).source.calls)
    counts["reads"], counts["calls"] = counts["calls"] - calls, calls
    counts["turns among the reads"] = turns_among(read_report(source[1], calls + counts["reads"], 2), calls)
    counts["puts"], counts["evictions of the target"] = puts["calls"], puts["evictions"]
    counts["stopped"] = "\nstop -\n" not in report_text
    return counts


def turns_among(report, calls):
    """How many turns of other CPUs came between the first turn of the reads and the last."""
    entries = [entry for entries in report.histories.values() for entry in entries]
    own = [entry.ticket for entry in entries if entry.call > calls]
    return sum(min(own) < entry.ticket < max(own) for entry in entries if entry.call <= calls)


def random_copy(seed, calls):
    """A script of a copy of a small map into another one, beside calls of other CPUs: none, or some of these calls, or all."""
    draw = random.Random(seed)
    variants = [(kind, flags) for kind in KINDS for flags in ((0, NO_COMMON_LRU) if kind.startswith("lru_") else (0,))]
    kind, flags = variants[seed % len(variants)]
    cpus = (1, 2, 4, 16)[seed // len(variants) % 4]
    entries = draw.choice((1, 2, 5, 20, 150, 700))
    version, head, *lines = random_script(draw, kind, flags, cpus, calls, True, True, entries).splitlines()
    lines = [line for line in lines if line != "phase"]
    cut = len(lines) if cpus == 1 else draw.choice((0, calls // 4, calls // 2, len(lines)))
    lines[cut:] = [f"{draw.randrange(1, cpus)} {line.partition(' ')[2]}" for line in lines[cut:]]
    for at in sorted((draw.randrange(cut + 1) for _ in range(draw.choice((0, 1, 3)))), reverse=True):
        lines.insert(at, "phase")
        cut += 1
    # (where the cut is at the beginning all calls are in the only phase)
    if cut:
        lines.insert(cut, "phase")
    made = read_script(f"{version}\n{head}\n").made
    kind, flags = draw.choice([(kind, flags) for kind, flags in variants if ("percpu" in kind) == made.is_per_cpu])
    room = draw.choice((1, max(1, entries // 4), max(1, entries // 2), entries, 2 * entries))
    count = draw.choice((1, 1, 2, 5, made.elements, 65536))
    target = f"target {kind} max {room} count {count} flags {flags} seed {draw.choice((0, made.seed, 7))}"
    return "\n".join([version, head, target, *lines]) + "\n"
