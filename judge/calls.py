"""The turns and the reply that each call may have."""
import collections
import dataclasses

from locks import GLOBAL_TARGET
from reports import Add, Evict, First, Lookup, Next, OnStack, Pop, Push, Refill, Removal, Steal, Turn, Update, Walk, need

ERRORS = {"exists": "eexist", "absent": "enoent", "full": "e2big"}
# The most that an update does where CPUs share lists (moves besides those flushed, turns of list locks besides one for
# each CPU, evictions), and where each has lists of its own.
SHARED_BOUNDS = (514, 5, 128)
OWN_BOUNDS = (15, 2, 4)


class Strand:
    """A strand of a report, whose steps the calls of its CPUs take one after another."""

    def __init__(self, report, steps):
        self.steps = [(lock, report.histories[lock][index]) for lock, index in steps]
        self.at = 0

    def next(self):
        """The next step: a lock and an entry, or none."""
        return self.steps[self.at] if self.at < len(self.steps) else (None, None)


class Caller:
    """What a CPU's calls leave for its later ones, and its strand of the phase that is judged."""

    def __init__(self, cpu, spare):
        self.strand, self.spare = None, spare
        self.steal = cpu


class Trace:
    """The turns of one call."""

    def __init__(self, made, caller, number, call):
        self.made, self.caller, self.number, self.call = made, caller, number, call
        # Of the call's turns: moves between lists, those flushed among them, turns of list locks, evictions, steals that
        # gave an element, and pushes that found their element moved.
        self.counts = collections.Counter()

    def comes(self, kind, name=None):
        """Whether the call's next turn has a part of this kind, under a lock of this name."""
        lock, entry = self.caller.strand.next()
        is_own = entry is not None and (entry.cpu, entry.call) == (self.call.cpu, self.number)
        return is_own and isinstance(entry.part, kind) and (name is None or lock[0] == name)

    def entry(self, kind):
        """The lock and the entry of the next turn, which has to be the call's and of this kind."""
        need(self.comes(kind), f"no turn with a part {kind.__name__}")
        lock, entry = self.caller.strand.next()
        self.caller.strand.at += 1
        self.count(lock, entry.part)
        return lock, entry

    def turn(self, kind, lock):
        """The part of the next turn, which has to be of this kind and under this lock."""
        found, entry = self.entry(kind)
        need(found == lock, f"another lock for a part {kind.__name__}")
        return entry.part

    def count(self, lock, part):
        moves = 0
        if isinstance(part, Turn):
            shrink = part.shrink
            moves = len(part.flushed) + len(part.active) + sum(bit for _, bit in part.inactive) + len(part.free)
            if shrink:
                moves += sum(not look.is_held for look in shrink.looks) + sum(look.is_removed for look in shrink.forced)
            self.counts["flushed"] += len(part.flushed)
        if isinstance(part, (Turn, Refill)):
            moves += part.got is not None
        elif isinstance(part, Steal):
            moves += part.element is not None
            self.counts["steals"] += part.element is not None
        elif isinstance(part, (Pop, Add)):
            moves += 1
        elif isinstance(part, Push):
            moves += part.how == "done"
            self.counts["pushes moved"] += part.how == "moved"
        elif isinstance(part, Evict):
            self.counts["evictions"] += part.holder is None
        self.counts["moves"] += moves
        self.counts["looks"] += lock[0] in ("local", "global", "lru")

    def reply(self):
        """Takes the call's turns; the answer is the reply that they allow."""
        if self.call.verb == "lookup":
            return self.lookup()
        if self.call.verb in ("delete", "take"):
            return self.removal()
        if self.call.verb == "next":
            return self.next_key()
        if self.call.verb in ("batch_lookup", "batch_take"):
            return self.batch_read()
        if self.call.verb in ("batch_update", "batch_delete"):
            return self.batch_write()
        if self.call.verb == "each":
            return self.hand_over()
        if self.call.flags > 2:
            return "einval"
        reply = self.evicting_update() if self.made.evicts else self.plain_update()
        if self.made.evicts:
            self.check_bounds()
        return reply

    def check_bounds(self):
        moves, looks, evictions = SHARED_BOUNDS if self.made.shares_lists else OWN_BOUNDS
        if self.made.shares_lists:
            moves, looks = moves + self.counts["flushed"], looks + self.made.cpus
        need(self.counts["moves"] <= moves, "too many moves")
        need(self.counts["looks"] <= looks, "too many turns of lists")
        need(self.counts["evictions"] <= evictions, "too many evictions")

    def bucket(self):
        return self.made.bucket(self.made.hash(self.call.key))

    def lookup(self):
        part = self.turn(Lookup, self.bucket())
        need((part.side, part.key) == (self.call.side, self.call.key), "the lookup of another call")
        return "enoent" if part.element is None else f"ok {part.value}"

    def removal(self):
        pushed = None
        if not self.made.evicts and self.comes(OnStack):
            stacked = self.turn(OnStack, ("freelist", self.call.cpu))
            need(stacked.verb == "push", "a removal that pops")
            pushed = stacked.element
        part = self.turn(Removal, self.bucket())
        need((part.verb, part.key) == (self.call.verb, self.call.key), "the removal of another call")
        if self.made.evicts:
            if part.element is not None:
                self.free(part.element)
        else:
            need(part.element == pushed, "the element that is pushed")
        if part.element is None:
            return "enoent"
        return f"ok {part.value}" if part.verb == "take" else "ok"

    def next_key(self):
        first = 0
        if self.call.key is not None:
            part = self.turn(Next, self.bucket())
            need(part.key == self.call.key, "the next key of another call")
            if part.found == "key":
                return f"ok {part.after}"
            first = self.bucket()[1] + 1 if part.found == "last" else 0
        for bucket in range(first, self.made.buckets):
            key = self.turn(First, ("bucket", bucket)).key
            if key is not None:
                return f"ok {key}"
        return "enoent"

    def batch_read(self):
        call, bucket, pairs, stop = self.call, self.call.start or 0, [], None
        if call.flags:
            return "einval"
        if call.count == 0:
            return "ok"
        if bucket >= self.made.buckets:
            return "enoent"
        while bucket < self.made.buckets and stop is None:
            part = self.walk(bucket, min(call.count, self.made.elements) - len(pairs))
            if part.over is not None:
                stop = "ok" if pairs else "enospc"
            else:
                pairs += [f" {key}={value}" for _, key, value in part.taken]
                bucket += 1
        return f"{stop or 'enoent'} taken {len(pairs)} next {bucket}{''.join(pairs)}"

    def hand_over(self):
        """A walk over all elements: it hands each over as a program on its CPU reads it, up to the key at which it stops."""
        call, bucket, pairs = self.call, 0, []
        if call.flags:
            return "einval"
        ends = False
        while bucket < self.made.buckets and not ends:
            part = self.walk(bucket, self.made.elements - len(pairs))
            if part.over is not None:
                break
            bucket += 1
            for _, key, value in part.taken:
                pairs.append(f" {key}={self.made.read(self.made.fields(value), 'prog', call.cpu)}")
                if key == call.stop:
                    ends = True
                    break
        return f"ok taken {len(pairs)} next {bucket}{''.join(pairs)}"

    def walk(self, bucket, room):
        """The walk of a bucket, with the pushes of what it removes: on a freelist inside its turn, else free after it."""
        pushed, removes = [], self.call.verb == "batch_take"
        while not self.made.evicts and self.comes(OnStack):
            stacked = self.turn(OnStack, ("freelist", self.call.cpu))
            need(stacked.verb == "push", "a walk that pops")
            pushed.append(stacked.element)
        part = self.turn(Walk, ("bucket", bucket))
        need((part.removes, part.room) == (removes, room), "the walk of another call, or its room")
        gone = [element for element, _, _ in part.taken] if removes else []
        if self.made.evicts:
            for element in gone[::-1]:
                self.free(element)
        else:
            need(pushed == gone, "the elements that are pushed")
        return part

    def batch_write(self):
        if self.call.flags:
            return "einval"
        verb = self.call.verb.removeprefix("batch_")
        for done, (key, value) in enumerate(self.call.pairs):
            call = dataclasses.replace(self.call, verb=verb, side="sys", key=key, value=value)
            one = Trace(self.made, self.caller, self.number, call)
            reply = one.reply()
            self.counts += one.counts
            if reply != "ok":
                return f"{reply} done {done}"
        return f"ok done {len(self.call.pairs)}"

    def update(self, offer):
        part = self.turn(Update, self.bucket())
        given = self.call.side, self.call.flags, self.call.key, self.call.value
        need((part.side, part.flags, part.key, part.value) == given, "the update of another call")
        need(part.offer == offer, "the element offered")
        return part

    def plain_update(self):
        looked, popped = 0, None
        for cpu in self.made.ring(self.call.cpu):
            if popped is not None or not self.comes(OnStack):
                break
            part = self.turn(OnStack, ("freelist", cpu))
            need(part.verb in ("pop", "empty"), "an update that pushes")
            looked, popped = looked + 1, part.element
        part = self.update(None)
        if part.put == "added":
            need(popped is not None and part.element == popped, "the element that was popped")
        elif part.put == "full":
            need(popped is None and looked == self.made.cpus, "a full map")
        else:
            need(looked == 0, "freelists that need no look")
        if part.put == "replaced":
            need(part.element == self.caller.spare, "the spare")
            self.caller.spare = part.old
        return ERRORS.get(part.put, "ok")

    def evicting_update(self):
        in_place = self.made.is_per_cpu and self.call.flags == 2
        offer = None
        if not in_place:
            hash = self.made.hash(self.call.key)
            offer = self.take_shared(hash) if self.made.shares_lists else self.take_own(hash)
            if offer is None:
                return "enomem"
        part = self.update(offer)
        if part.put in ("added", "replaced"):
            need(part.element == offer, "the element that was taken")
        unused = {"added": None, "replaced": part.old}.get(part.put, offer)
        if unused is not None:
            self.free(unused)
        return ERRORS.get(part.put, "ok")

    def chased(self, kind, lock):
        """The entry of a turn of lists, behind the evictions by which its probes are answered, in order."""
        answered = []
        while self.comes(Evict):
            bucket, entry = self.entry(Evict)
            answered.append((bucket, entry.part.element, entry.part.holder))
        found, entry = self.entry(kind)
        need(found == lock, f"another lock for a part {kind.__name__}")
        probes = [(self.made.bucket(hash), element, holder) for element, hash, holder in entry.probes]
        need(answered == probes, "how probes are answered")
        return entry

    def check_nothing_free(self, turn):
        """Where a turn of a set gave nothing, all that it tried by force was held by other CPUs."""
        need(not turn.free and turn.shrink is not None, "something was free")
        need(all(look.is_held and look.holder != self.call.cpu for look in turn.shrink.forced), "something could be freed")

    def take_own(self, hash):
        turn = self.chased(Turn, ("lru", self.call.cpu)).part
        need(turn.hash == hash, "the hash of an element taken")
        if turn.got is None:
            self.check_nothing_free(turn)
        return turn.got

    def take_shared(self, hash):
        own = ("local", self.call.cpu)
        if self.comes(Pop):
            part = self.turn(Pop, own)
            need(part.hash == hash, "the hash of an element taken")
            return part.element
        turn = self.chased(Turn, ("global",)).part
        found, entry = self.entry(Refill)
        refill = entry.part
        need(found == own and refill.hash == hash, "the refill of another call")
        need(entry.flushed == turn.flushed, "what is flushed, with its hashes and bits")
        shrink = turn.shrink.looks + turn.shrink.forced if turn.shrink else []
        need(refill.gained == turn.free + [look.element for look in shrink if look.is_removed], "what a refill gained")
        if refill.got is None:
            self.check_nothing_free(turn)
            need(turn.shrink.target == GLOBAL_TARGET, "something was free")
            return self.steal(hash)
        return refill.got

    def steal(self, hash):
        for cpu in self.made.ring(self.caller.steal):
            part = self.chased(Steal, ("local", cpu)).part
            if part.element is None:
                need(all(look.is_held and look.holder != self.call.cpu for look in part.second), "something could be stolen")
                continue
            added = self.turn(Add, ("local", self.call.cpu))
            need((added.hash, added.element) == (hash, part.element), "the element added")
            self.caller.steal = (cpu + 1) % self.made.cpus
            need(added.cursor == self.caller.steal, "the steal cursor")
            return part.element
        return None

    def free(self, element):
        """The turns in which an element is pushed free."""
        if not self.made.shares_lists:
            set_of = ("lru", element // (self.made.elements // self.made.cpus))
            need(self.turn(Push, set_of).element == element, "the element that is pushed free")
            return
        if self.comes(Push, "local"):
            _, entry = self.entry(Push)
            need(entry.part.element == element, "the element that is pushed free")
            if entry.part.how == "done":
                return
            need(entry.was_flushed, "an element that moved, and was not flushed")
        need(self.turn(Push, ("global",)).element == element, "the element that is pushed free")
