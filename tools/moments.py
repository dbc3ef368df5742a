"""A run as calls that came one after another: each at its moment, beside what a plain map from keys to values answers then.
A call on one key has one turn on keys, a turn of its key's bucket that is no eviction, and that turn's place among all turns is
its moment. A batch and a walk have a moment for each entry or bucket. The plain map has no elements, no order and no lists."""
import collections
import dataclasses

from about import version
from asked import generated
from objects import map_object
from reports import Evict, First, Lookup, Next, Removal, Update, Walk

ERRORS = {"exists": "eexist", "absent": "enoent", "full": "e2big"}
READS, WRITES = ("batch_lookup", "batch_take", "each"), ("batch_update", "batch_delete")
# The widest that a column is made for what is asked, and for the plain map's answer: a longer text goes on to the right.
WIDEST = 48, 24


def several(count, name="key"):
    return f"{count} {name}{'' if count == 1 else 's'}" if count else f"no {name}"


class PlainMap:
    """A dictionary from keys to what is kept for them: a value for each CPU on the kinds that have those, else one."""

    def __init__(self, made):
        self.made, self.kept = made, {}
        # Which of its keys a walk of a bucket has to tell, as the turns name buckets; and each key's bucket.
        self.told_by, self.bucket_of = collections.defaultdict(dict), {}

    def read(self, key, side, cpu):
        return self.made.read(self.kept[key], side, cpu)

    def lookup(self, key, side, cpu):
        return f"ok {self.read(key, side, cpu)}" if key in self.kept else "enoent"

    def judge_update(self, key, flags):
        """What an update answers."""
        if flags > 2:
            return "einval"
        if key in self.kept:
            return "eexist" if flags == 1 else "ok"
        return "enoent" if flags == 2 else "ok"

    def put(self, key, side, cpu, value, bucket):
        made = self.made
        is_over = made.is_per_cpu and key in self.kept
        self.kept[key] = made.written(self.kept[key], side, cpu, value) if is_over else made.started(side, cpu, value)
        self.remove(key, is_to_go=False)
        self.told_by[bucket][key], self.bucket_of[key] = None, bucket

    def remove(self, key, is_to_go=True):
        if key in self.bucket_of:
            del self.told_by[self.bucket_of.pop(key)][key]
        if is_to_go:
            self.kept.pop(key, None)


@dataclasses.dataclass
class Row:
    """A moment, an eviction, or a call that has no moment."""

    # The ticket of the turn, or none.
    ticket: int | None
    call: int
    cpu: int
    # One of call, entry, bucket, eviction, unseen.
    kind: str
    # What is asked, or what was evicted.
    text: str
    plain: str | None = None
    told: str | None = None
    differs: bool = False
    # Whether it was refused for want of an element though the map has fewer keys than room.
    spurious: bool = False
    note: str = ""
    # Of a batch write from 1 which entry, of a walk or next key which bucket, of an eviction which key.
    entry: int | None = None
    bucket: int | None = None
    key: str | None = None
    # Of a batch, a walk and next key, at the last of their moments: the reply without its pairs.
    reply: str | None = None


class Progress:
    """What a call of several moments told so far."""

    def __init__(self):
        self.done, self.stop, self.pairs, self.next_bucket, self.found = 0, None, [], None, None
        self.is_over = False


class Moments:
    def __init__(self, kept):
        self.kept, self.made = kept, kept.made
        self.plain = PlainMap(self.made)
        script = kept.script
        if script.is_generator:
            self.calls, self.words = generated(self.made, *map(int, script.rows[2][1][2::2]))
        else:
            self.calls, self.words = script.calls, script.words
        # Of each bucket the key that each of its elements has.
        self.keys = collections.defaultdict(dict)
        self.progress = {}
        self.count_turns()

    def count_turns(self):
        """The turns of buckets, and the last ticket of each call."""
        self.turns, self.left, self.last = [], collections.Counter(), {}
        for lock, (_, lines) in self.kept.histories.items():
            for index, line in enumerate(lines):
                ticket, _, call = map(int, line.split(" ", 3)[:3])
                self.last[call] = max(self.last.get(call, -1), ticket)
                if lock[0] == "bucket":
                    entry = self.kept.entry(lock, index)
                    self.turns.append((ticket, 0, lock[1], entry))
                    self.left[call] += not isinstance(entry.part, Evict)

    def unseen(self):
        """The calls that have no moment, or end with none, as a batch does of which an entry got no element. Each stands behind
        its last turn and behind what its CPU did before."""
        before = {}
        for number, call in enumerate(self.calls, 1):
            at = max(before.get(call.cpu, -1), self.kept.start(number) - 1, self.last.get(number, -1))
            before[call.cpu] = at
            reply = self.kept.answer(number)
            is_short = call.verb == "batch_update" and reply is not None and reply.startswith("enomem")
            if is_short or not self.left[number]:
                self.left[number] += is_short
                yield at, 1, number, None

    def rows(self):
        for ticket, kind, at, entry in sorted([*self.turns, *self.unseen()], key=lambda event: event[:3]):
            if kind:
                yield self.unseen_row(at)
            elif not isinstance(entry.part, Evict):
                yield self.row(at, entry)
            elif entry.part.holder is None:
                key = self.keys[at].pop(entry.part.element)
                self.plain.remove(key)
                text = f"key {key} evicted by call {entry.call}"
                yield Row(ticket, entry.call, entry.cpu, "eviction", text, key=key, bucket=at)

    def at_end(self):
        """Behind all rows the keys of which the dump says otherwise than the plain map, each with what is wrong; none where there
        is no dump."""
        rows = [line.split(" ") for line in self.kept.dump if line.startswith("bucket ")]
        held, there = {row[3]: row[4:] for row in rows}, self.plain.kept
        for key in sorted(held.keys() | there.keys()) if self.kept.dump else ():
            if key not in held:
                yield key, "the plain map has it, and the dump doesn't"
            elif key not in there:
                yield key, "the dump has it, and the plain map doesn't"
            elif held[key] != there[key]:
                yield key, f"the plain map has {' '.join(there[key])}, and the dump {' '.join(held[key])}"

    def note_element(self, bucket, part):
        """Which element has which key, which evictions need."""
        keys = self.keys[bucket]
        if isinstance(part, Update) and part.put in ("added", "replaced"):
            keys.pop(part.old, None)
            keys[part.element] = part.key
        elif isinstance(part, Removal) and part.element is not None:
            keys.pop(part.element, None)
        elif isinstance(part, Walk) and part.removes:
            for element, _, _ in part.taken:
                keys.pop(element, None)

    def row(self, bucket, entry):
        call, part = self.calls[entry.call - 1], entry.part
        self.note_element(bucket, part)
        self.left[entry.call] -= 1
        row = Row(entry.ticket, entry.call, entry.cpu, "call", "")
        if call.verb in WRITES:
            self.write_entry(row, call, part, bucket)
        elif call.verb in READS:
            self.read_bucket(row, call, part, bucket)
        elif call.verb == "next":
            self.step(row, call, part, bucket)
        else:
            self.one_key(row, call, part, bucket)
        if row.kind != "call" and not self.left[entry.call]:
            self.close(row, call)
        return row

    def words_of(self, number):
        return self.words[number - 1].partition(" ")[2]

    def one_key(self, row, call, part, bucket):
        """A call on one key, at its only moment."""
        reply = self.kept.answer(row.call)
        row.text = self.words_of(row.call)
        self.ask(row, call, said(part) if reply is None else reply, bucket)
        if self.left[row.call]:
            row.differs, row.note = True, "a call on one key has one moment, and this one has more"

    def write_entry(self, row, call, part, bucket):
        """An entry of a batch that writes: its k-th turn on keys is of its k-th entry."""
        done = self.progress.setdefault(row.call, Progress())
        row.kind, row.entry = "entry", done.done + 1
        key, value = call.pairs[done.done] if done.done < len(call.pairs) else (None, "")
        row.text = f"{call.verb}, entry {row.entry} of {len(call.pairs)}: {' '.join(filter(None, (key, value)))}"
        if key != part.key or done.stop:
            row.differs, row.note = True, "this turn is of no entry that was to come"
            return
        one = dataclasses.replace(call, verb=call.verb.removeprefix("batch_"), side="sys", key=key, value=value)
        answer = self.ask(row, one, said(part), bucket)
        done.stop = None if answer == "ok" else answer
        done.done += answer == "ok"

    def ask(self, row, call, told, bucket):
        """What the plain map answers to a call on one key, and what it makes of it. The answer is the call's."""
        plain, key, cpu = self.plain, call.key, call.cpu
        row.told = told
        if call.verb == "lookup":
            row.plain = plain.lookup(key, call.side, cpu)
        elif call.verb == "take":
            row.plain = plain.lookup(key, "sys", cpu)
            plain.remove(key)
        elif call.verb == "delete":
            row.plain = "ok" if key in plain.kept else "enoent"
            plain.remove(key)
        else:
            row.plain = plain.judge_update(key, call.flags)
            if told == "e2big" and row.plain == "ok" and key not in plain.kept and not self.made.evicts:
                self.note_room(row)
                return told
            if row.plain == "ok":
                plain.put(key, call.side, cpu, call.value, bucket)
        row.differs = row.plain != told
        return row.plain

    def note_room(self, row):
        """An update that was refused for want of an element changes nothing. Where the map has fewer keys than room that may be
        spurious: an element was on its way, or in another CPU's hand."""
        count, room = len(self.plain.kept), self.made.capacity
        row.spurious = row.told == "enomem" or count < room
        begin = "may be spurious: " if row.spurious else "full: "
        row.note = f"{begin}the map has {several(count)}, and room for {room}"

    def read_bucket(self, row, call, part, bucket):
        """A bucket that a batch or a walk over all elements reads. (The plain map tells keys in no order of their own.)"""
        done = self.progress.setdefault(row.call, Progress())
        row.kind, row.bucket, row.text = "bucket", bucket, f"{call.verb}, bucket {bucket}"
        if not isinstance(part, Walk):
            row.differs, row.note = True, "this turn is none of its call"
            return
        there, done.next_bucket = self.plain.told_by[bucket], bucket + (part.over is None)
        if part.over is not None:
            done.is_over = True
            row.plain, row.told = several(len(there)), f"{several(part.over)}, no room"
            row.differs = len(there) != part.over
            return
        side = "prog" if call.verb == "each" else "sys"
        keys = [key for _, key, _ in part.taken]
        is_same = len(keys) == len(there) and all(key in there for key in keys)
        pairs = [f"{key}={self.plain.read(key, side, call.cpu)}" for key in (keys if is_same else list(there))]
        told = [f"{key}={self.made.read(self.made.fields(value), side, call.cpu)}" for _, key, value in part.taken]
        row.plain, row.told = " ".join(pairs) or "no key", " ".join(told) or "no key"
        row.differs = pairs != told
        stop = keys.index(call.stop) + 1 if call.stop in keys else None
        done.pairs += pairs[:stop]
        if part.removes:
            for key in list(there) if is_same else keys:
                self.plain.remove(key)

    def step(self, row, call, part, bucket):
        """Next key, in a bucket: whether its key is there, or which key is the bucket's first. (Which comes behind which is the
        order of elements, of which the plain map knows nothing: a key that is told has to be there.)"""
        done = self.progress.setdefault(row.call, Progress())
        row.kind, row.bucket = "bucket", bucket
        there = self.plain.told_by[bucket]
        if isinstance(part, Next):
            row.text = f"next {part.key}, bucket {bucket}"
            is_there = part.key in self.plain.kept
            row.plain = "there" if is_there else "not there"
            row.told = {"absent": "not there", "last": "there, the last", "key": f"there, then {part.after}"}[part.found]
            done.found = part.after or None
            row.differs = is_there == (part.found == "absent") or part.found == "key" and part.after not in there
        elif isinstance(part, First):
            row.text = f"next, first of bucket {bucket}"
            row.plain, row.told = several(len(there)), "no key" if part.key is None else f"first {part.key}"
            done.found = part.key
            row.differs = bool(there) if part.key is None else part.key not in there
        else:
            row.differs, row.note = True, "this turn is none of its call"

    def close(self, row, call):
        """At the last moment of a call with several: its reply has to be what they make of it."""
        done, reply = self.progress.pop(row.call, Progress()), self.kept.answer(row.call)
        if call.verb == "next":
            whole = "enoent" if done.found is None else f"ok {done.found}"
        elif call.verb in WRITES:
            whole = f"{done.stop or 'ok'} done {done.done}"
        else:
            result = "ok" if call.verb == "each" or done.is_over and done.pairs else "enospc" if done.is_over else "enoent"
            whole = " ".join([result, "taken", str(len(done.pairs)), "next", str(done.next_bucket), *done.pairs])
        row.reply = " ".join(reply.split(" ")[:5]) if call.verb in READS else reply
        row.differs |= reply != whole

    def unseen_row(self, number):
        """A call, or the last entry of a batch, that no turn on keys answers."""
        call, reply = self.calls[number - 1], self.kept.answer(number)
        row = Row(None, number, call.cpu, "unseen", self.words_of(number), told=reply)
        done = self.progress.get(number)
        if done is not None or call.verb in WRITES and reply.startswith("enomem"):
            done = done or self.progress.setdefault(number, Progress())
            row.entry, row.told = done.done + 1, reply.partition(" ")[0]
            pair = call.pairs[done.done] if done.done < len(call.pairs) else ()
            row.text = f"{call.verb}, entry {row.entry} of {len(call.pairs)}: {' '.join(pair)}"
            done.stop = row.told
            self.left[number] -= 1
            self.close(row, call)
        is_update = call.verb in ("update", "batch_update")
        if row.told == "enomem" and is_update and self.made.evicts:
            self.note_room(row)
        elif not row.differs:
            row.differs = not self.is_unseen(call, row.told)
        row.note = f"no moment; {row.note}" if row.note else "no moment"
        return row

    def is_unseen(self, call, reply):
        """Whether a call is so answered whatever the map has."""
        if call.verb in (*READS, *WRITES) and call.flags or call.verb == "update" and call.flags > 2:
            return reply == "einval"
        if call.verb in WRITES:
            return not call.pairs and reply == "ok done 0"
        if call.verb in ("batch_lookup", "batch_take"):
            return reply == "ok" if not call.count else reply == "enoent" and (call.start or 0) >= self.made.buckets
        return False


def said(part):
    """The answer for which a turn on one key stands."""
    if isinstance(part, Update):
        return ERRORS.get(part.put, "ok")
    if part.element is None:
        return "enoent"
    has_value = isinstance(part, Lookup) or part.verb == "take"
    return f"ok {part.value}" if has_value else "ok"


def folded(rows):
    """Of buckets without a key, which a call passed one after another, one line."""
    last, count, begin = None, 0, ""
    for row in rows:
        is_empty = row.kind == "bucket" and row.plain == row.told == "no key" and not row.differs
        is_next = last is not None and is_empty and row.call == last.call and row.bucket == last.bucket + count
        if is_next:
            count += 1
            last.reply = row.reply
            last.text = f"{begin}buckets {last.bucket} to {row.bucket}, until ticket {row.ticket}"
            continue
        if last is not None:
            yield last
        last, count = row, 1
        begin = row.text.rpartition("bucket ")[0] if is_empty else ""
        if not is_empty:
            yield row
            last = None
    if last is not None:
        yield last


def tell_row(row, widths):
    words = ["-" if row.ticket is None else str(row.ticket), str(row.call), str(row.cpu)]
    told = [*(word.rjust(width) for word, width in zip(words, widths)), row.text.ljust(widths[3])]
    if row.kind == "eviction":
        return "  ".join(told).rstrip()
    told += [(row.plain or "-").ljust(widths[4]), row.told or "-"]
    notes = ["differs"] * row.differs + [row.note] * bool(row.note) + [f"the call answered {row.reply}"] * bool(row.reply)
    return "  ".join(told).rstrip() + (f" ({'; '.join(notes)})" if notes else "")


def tell_moments(kept):
    moments = Moments(kept)
    rows, wrong = list(moments.rows()), dict(moments.at_end())
    shown = list(folded(map(dataclasses.replace, rows)))
    head = ("ticket", "call", "CPU", "what is asked", "plain map", "reply")
    texts = [(str(row.ticket), str(row.call), str(row.cpu), "" if row.kind == "eviction" else row.text, row.plain or "")
             for row in shown]
    widths = [max(len(row[at]) for row in [head, *texts]) for at in range(5)]
    widths[3:] = map(min, widths[3:], WIDEST)
    titles = [title.rjust(width) for title, width in zip(head[:3], widths)]
    yield "  ".join([*titles, head[3].ljust(widths[3]), head[4].ljust(widths[4]), head[5]])
    phase = 0
    for row in shown:
        if kept.script.cuts and kept.script.phase_of(row.call) != phase:
            phase = kept.script.phase_of(row.call)
            yield f"phase {phase}"
        yield tell_row(row, widths)
    for key, what in wrong.items():
        yield f"differs at the end: key {key}: {what}"
    yield total(kept, counts_of(rows, wrong))


def counts_of(rows, wrong):
    """How many moments, evictions, answers that differ and keys that do at the end, and refusals for want of an element."""
    evicted = sum(row.kind == "eviction" for row in rows)
    moments = sum(row.ticket is not None for row in rows) - evicted
    differ, refused = sum(row.differs for row in rows), sum(row.told in ("e2big", "enomem") and not row.differs for row in rows)
    return {"moments": moments, "evictions": evicted, "differ": differ + len(wrong), "refused": refused}


def total(kept, counts):
    differ, refused = counts["differ"], counts["refused"]
    told = f"{several(kept.count, 'call')}, {several(counts['moments'], 'moment')}, {several(counts['evictions'], 'eviction')}: "
    if differ:
        return told + f"{several(differ, 'difference')} from the plain map"
    but = f", but for {several(refused, 'refusal')} for want of an element" if refused else ""
    return told + f"the plain map answers the same{but}"


def moments_answer(kept):
    """The answer as an object: each row with its members, those that it hasn't left out."""
    moments, told = Moments(kept), []
    rows, wrong = list(moments.rows()), dict(moments.at_end())
    for row in rows:
        one = {"ticket": row.ticket, "call": row.call, "cpu": row.cpu, "kind": row.kind, "text": row.text}
        if row.kind != "eviction":
            one |= {"plain": row.plain, "told": row.told, "differs": row.differs, "may_be_spurious": row.spurious}
        one |= {name: of for name in ("entry", "bucket", "key", "reply") if (of := getattr(row, name)) is not None}
        told.append(one | ({"note": row.note} if row.note else {}))
    head = {"format": "bpfmap-why", "version": 1, "tool": version(), "question": "moments", "map": map_object(kept.made)}
    at_end = [{"key": key, "text": what} for key, what in wrong.items()]
    return {**head, "calls": kept.count, **counts_of(rows, wrong), "rows": told, "at_end": at_end}
