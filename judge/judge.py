"""Judges a report of a script, with history and dump, by the rules alone."""
import collections
import contextlib

from calls import Caller, Strand, Trace
from core import check_steps
from exact import check_bits
from locks import opening
from one_map import check_one_map
from reports import Unlawful, need, number, read_report
from scripts import read_script

# What may be wrong with a record, in the order in which it is asked.
FLAWS = ("record", "history", "phase", "strand", "call", "finals", "ticket", "step")
# What races are made for, each with the name under which it is counted.
EVENTS = {"a theft": "steals", "an ENOMEM": "enomem", "a push that found its element moved": "pushes moved"}


def judge(text, report_text, is_race=False):
    """Raises Unlawful where the rules don't allow the report. The answer counts what happened."""
    script, report = read(text, report_text)
    check_forms(script, report, is_race)
    counts = check_record(script, report)
    check_starts(script, report)
    turns = in_order(report)
    counts["points"] = check_one_map(script, report, turns, is_run=True)
    exact = {phase for phase, cpus, _ in report.strands if len(cpus) == script.made.cpus}
    if script.version > 1:
        counts |= {"phases": len(script.phases), "phases in serial order": len(exact)}
    for phase in exact:
        for index, _ in script.phases[phase]:
            need(report.replies[index - 1] != "enomem", f"call {index}: ENOMEM in a phase that runs in serial order")
    ends = [start.marked for start in report.phases[1:]]
    ends.append(list(map(number, report.dump[-1].split(" ")[1:])) if script.made.evicts else [])
    check_bits(script.made, report.phases, [entry for _, entry in turns], ends, exact)
    return counts


def judge_record(text, report_text):
    """Raises Unlawful where the report isn't a record whose turns, as their tickets order them, may have been made: it tells
    under which of FLAWS. What runs do besides isn't asked: which CPUs share a strand, at which ticket a phase starts beside
    one without turns, and what the bits are. Of each record it is asked too that its calls are answered by one map."""
    script, report = read(text, report_text)
    counts = check_record(script, report)
    counts["points"] = check_one_map(script, report, in_order(report), is_run=False)
    return counts


def judge_one_map(text, report_text):
    """Raises Unlawful where the turns on keys aren't those of one map, or the calls aren't answered by it; nothing else is
    asked."""
    script, report = read(text, report_text)
    check_one_map(script, report, in_order(report), is_run=True)


def read(text, report_text):
    script = read_script(text)
    made = script.made
    with asking("record"):
        report = read_report(report_text, len(script.calls), script.version)
        head = f"map {made.kind} capacity {made.capacity} elements {made.elements} buckets {made.buckets}"
        need(report.head == head, "the map")
    return script, report


def check_record(script, report):
    """Asks for what a record has to be, flaw after flaw. The answer counts what happened."""
    made, (locks, spares) = script.made, opening(script.made)
    with asking("history"):
        replay(locks, report)
    with asking("phase"):
        check_phases(script, report)
    with asking("strand"):
        check_strands(script, report)
    callers = {cpu: Caller(cpu, spares.get(cpu)) for cpu in range(made.cpus)}
    counts = collections.Counter(calls=len(script.calls))
    with asking("call"):
        for phase, calls in enumerate(script.phases):
            counts += check_calls(made, callers, report, phase, calls)
    with asking("finals"):
        check_lists(made, locks, {cpu: caller.spare for cpu, caller in callers.items()}, report.dump)
    with asking("ticket"):
        check_tickets(report)
    with asking("step"):
        check_steps(made, opening(made), in_order(report))
    return counts


@contextlib.contextmanager
def asking(flaw):
    """What is refused within is this flaw."""
    try:
        yield
    except Unlawful as why:
        why.flaw = flaw
        raise


def in_order(report):
    """The turns of all locks in the order of their tickets, each a lock and an entry."""
    turns = [(lock, entry) for lock, entries in report.histories.items() for entry in entries]
    return sorted(turns, key=lambda turn: turn[1].ticket)


def unseen(runs):
    """What races are made for, of which the counts of none of these runs tell."""
    return [event for event, name in EVENTS.items() if not any(counts[name] for counts in runs)]


def check_calls(made, callers, report, phase, calls):
    """The calls of a phase are traces, one behind another in the strand of each. The answer counts what happened."""
    counts, strands = collections.Counter(), []
    for of, cpus, steps in report.strands:
        if of == phase:
            strands.append(Strand(report, steps))
            for cpu in cpus:
                callers[cpu].strand = strands[-1]
    for index, call in calls:
        trace, reply = Trace(made, callers[call.cpu], index, call), report.replies[index - 1]
        try:
            wanted = trace.reply()
        except Unlawful as why:
            raise Unlawful(f"call {index}: {why}") from None
        need(reply == wanted, f"call {index}: the reply is {reply!r} and not {wanted!r}")
        counts += trace.counts
        counts[reply.split(" ")[0]] += 1
    need(all(strand.next() == (None, None) for strand in strands), "a step of no call")
    return counts


def replay(locks, report):
    """Replays the history of each lock: each turn has to be allowed on what lay there."""
    for lock, entries in report.histories.items():
        need(lock in locks, f"there is no lock {lock}")
        for index, entry in enumerate(entries):
            try:
                locks[lock].turn(entry)
            except Unlawful as why:
                raise Unlawful(f"entry {index} of {' '.join(map(str, lock))}: {why}") from None
            entry.left = locks[lock].lies()


def shapes(script):
    """The strands of a race and those of a serial run, each as its phase and its CPUs. A phase whose calls are all of one
    CPU, or that has none, has one with all CPUs in a race too."""
    every = list(range(script.made.cpus))
    cpus = [{call.cpu for _, call in calls} for calls in script.phases]
    apart = [[every] if len(own) < 2 else [[cpu] for cpu in every] for own in cpus]
    return [(phase, one) for phase, rows in enumerate(apart) for one in rows], [(phase, every) for phase in range(len(cpus))]


def check_forms(script, report, is_race):
    """The strands are those of a race, or where that may be those of a serial run; a map that doesn't evict marks nothing."""
    raced, serial = shapes(script)
    found = [(phase, cpus) for phase, cpus, _ in report.strands]
    need(found == raced or not is_race and found == serial, "the strands of the phases and CPUs")
    for phase, start in enumerate(report.phases):
        need(script.made.evicts or not start.marked, f"the elements that are marked at the start of phase {phase}")


def check_strands(script, report):
    """In each phase each CPU is in one strand. Each strand names the entries that its CPUs have for calls of its phase, each
    once and in order."""
    found = [(phase, cpu, at) for at, (phase, cpus, _) in enumerate(report.strands) for cpu in cpus]
    every = [(phase, cpu) for phase in range(len(script.phases)) for cpu in range(script.made.cpus)]
    need(sorted(of[:2] for of in found) == every, "in which strands the CPUs stand in each phase")
    of = {(phase, cpu): at for phase, cpu, at in found}
    own = [collections.defaultdict(list) for _ in report.strands]
    for lock, entries in report.histories.items():
        for index, entry in enumerate(entries):
            need(1 <= entry.call <= len(script.calls) and entry.cpu < script.made.cpus, "an entry of no call, or no CPU")
            own[of[script.phase_of(entry.call), entry.cpu]][lock].append(index)
    for (phase, cpus, steps), wanted in zip(report.strands, own):
        named = collections.defaultdict(list)
        for lock, index in steps:
            named[lock].append(index)
        for lock in wanted.keys() | named.keys():
            where = f" in phase {phase}" if script.version > 1 else ""
            need(named[lock] == wanted[lock], f"the steps of the CPUs {cpus} on {lock}{where}")


def check_phases(script, report):
    """Phase 0 starts with nothing. Each entry has a ticket from the start of its phase on, and below that of the next one."""
    made, starts = script.made, [start.ticket for start in report.phases]
    need(len(starts) == len(script.phases), "the number of phases")
    need(report.phases[0].ticket == 0 and not report.phases[0].marked, "the start of phase 0")
    for entries in report.histories.values():
        for entry in entries:
            phase = script.phase_of(entry.call)
            need(entry.ticket >= starts[phase], f"the ticket {entry.ticket} of phase {phase} is below its start")
            is_before = phase + 1 == len(starts) or entry.ticket < starts[phase + 1]
            need(is_before, f"the ticket {entry.ticket} of phase {phase} isn't below the start of phase {phase + 1}")
    for phase, start in enumerate(report.phases):
        need(is_marked(made, start.marked), f"the elements that are marked at the start of phase {phase}")


def check_starts(script, report):
    """As many tickets were drawn before a phase as the phases before it have entries."""
    of = collections.Counter(script.phase_of(entry.call) for entries in report.histories.values() for entry in entries)
    drawn = 0
    for phase, start in enumerate(report.phases):
        need(start.ticket == drawn, f"the ticket of the start of phase {phase}")
        drawn += of[phase]


def is_marked(made, marked):
    """Whether these may be the elements whose bit is set."""
    return marked == sorted(set(marked)) and all(element < made.elements for element in marked)


def check_tickets(report):
    """All turns were made in the order of their tickets, in which those of each lock and those of each strand stand."""
    tickets = {lock: [entry.ticket for entry in entries] for lock, entries in report.histories.items()}
    drawn = sorted(ticket for own in tickets.values() for ticket in own)
    for ticket, found in enumerate(drawn):
        need(found >= ticket, f"the ticket {found} stands twice")
        need(found <= ticket, f"no entry has the ticket {ticket}")
    for lock, own in tickets.items():
        need(own == sorted(own), f"the order of the tickets of {' '.join(map(str, lock))}")
    for _, cpus, steps in report.strands:
        own = [tickets[lock][index] for lock, index in steps]
        need(own == sorted(own), f"the order of the tickets of the CPUs {cpus}")


def check_lists(made, locks, spares, dump):
    """The lists at the end are those to which the histories lead, and each element stands in them once."""
    need(dump and dump[: len(dump) - made.evicts] == list(list_lines(made, locks, spares)), "the lists at the end")
    kept = [row[0] for lock, bucket in locks.items() if lock[0] == "bucket" for row in bucket.rows]
    if not made.evicts:
        free = [element for lock, freelist in locks.items() if lock[0] == "freelist" for element in freelist.stack]
        spare = list(spares.values()) if made.kind == "hash" else []
        need(sorted(kept + free + spare) == list(range(made.elements)), "each element once")
        return
    free, listed = [], []
    for lock, lists in locks.items():
        if lock[0] != "bucket":
            free += lists.free
            listed += lists.pending if lock[0] == "local" else lists.active + lists.inactive
    need(sorted(kept + free) == list(range(made.elements)), "each element once")
    need(sorted(listed + free) == list(range(made.elements)), "each element on one list")
    word, *marked = dump[-1].split(" ")
    need(word == "marked" and is_marked(made, [number(element) for element in marked]), "marked elements")


def list_lines(made, locks, spares):
    def line(name, elements):
        return " ".join([name, *map(str, elements)])

    def set_lines(name, lists):
        yield line(f"{name} active", lists.active)
        yield line(f"{name} inactive", lists.inactive)
        yield line(f"{name} free", lists.free)
        yield f"{name} cursor {'-' if lists.cursor is None else lists.cursor}"

    for bucket in range(made.buckets):
        yield from locks["bucket", bucket].lines(bucket)
    if made.shares_lists:
        yield from set_lines("global", locks["global",])
        for cpu in range(made.cpus):
            local = locks["local", cpu]
            yield line(f"local {cpu} free", local.free)
            yield line(f"local {cpu} pending", local.pending)
            yield f"local {cpu} steal {local.steal}"
    elif made.evicts:
        for cpu in range(made.cpus):
            yield from set_lines(f"lru {cpu}", locks["lru", cpu])
    else:
        for cpu in range(made.cpus):
            yield line(f"freelist {cpu}", locks["freelist", cpu].stack[::-1])
        if made.kind == "hash":
            yield from (f"spare {cpu} {spares[cpu]}" for cpu in range(made.cpus))
