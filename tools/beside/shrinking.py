"""The smallest script on which two sides still differ, that is found by leaving out and replacing."""
import dataclasses


def first_difference(one, other):
    """The index at which the answers of two sides differ, or none."""
    return next((at for at, pair in enumerate(zip(one, other, strict=True)) if pair[0] != pair[1]), None)


class Shrinking:
    """A map and calls on which two sides differ, made smaller step by step, with at most so many tries."""

    def __init__(self, made, calls, answers, tries):
        self.made, self.calls, self.answers, self.most, self.tried = made, calls, answers, tries, 0

    def take(self, made, calls):
        """Whether the sides differ on this one too, which then is the one at hand. Calls behind the difference go."""
        if self.tried >= self.most:
            return False
        self.tried += 1
        at = first_difference(*self.answers(made, calls))
        if at is None:
            return False
        self.made, self.calls = made, calls[:at]
        return True

    def size(self):
        pairs = sum(len(call.pairs) for call in self.calls)
        keys = {key for call in self.calls for key in keys_of(call)}
        cpus = sum(call.cpu for call in self.calls)
        sizes = self.made.key_size, self.made.value_size
        return len(self.calls), len(keys), pairs, self.made.entries, cpus, sizes, sorted(keys), self.calls

    def shrink(self):
        """Again and again, till nothing helps."""
        self.take(self.made, self.calls)
        before = None
        while before != self.size() and self.tried < self.most:
            before = self.size()
            self.fewer_calls()
            self.two_calls()
            self.fewer_pairs()
            self.fewer_entries()
            self.shorter()
            self.fewer_keys()
            self.lower_cpus()
            self.plainer_calls()
        return self.made, self.calls

    def fewer_calls(self):
        """Delta debugging: leaves out pieces of the script, first large ones, at last single calls."""
        piece = max(len(self.calls) // 2, 1)
        while True:
            at = 0
            while at < len(self.calls):
                if not self.take(self.made, self.calls[:at] + self.calls[at + piece :]):
                    at += piece
            if piece == 1:
                return
            piece //= 2

    def two_calls(self):
        """Leaves out two calls at once, where there are few."""
        places = [(one, other) for other in range(min(len(self.calls), 20)) for one in range(other)]
        for one, other in places:
            kept = [call for at, call in enumerate(self.calls) if at not in (one, other)]
            if other < len(self.calls) and self.take(self.made, kept):
                return

    def shorter(self):
        """Keys and values of one byte."""
        keys = {key for call in self.calls for key in keys_of(call)}
        made = dataclasses.replace(self.made, key_size=1)
        if len({key[:2] for key in keys}) == len(keys) and made != self.made:
            self.take(made, [with_keys(call, {key: key[:2] for key in keys}) for call in self.calls])
        made = dataclasses.replace(self.made, value_size=1)
        if made != self.made:
            self.take(made, [with_values(call, self.made) for call in self.calls])

    def plainer_calls(self):
        """A batch of one pair as an update of its own, an update by a program, with flags 0; and values by number."""
        self.take(self.made, [numbered(call, at + 1) for at, call in enumerate(self.calls)])
        at = 0
        while at < len(self.calls):
            call = self.calls[at]
            if call.verb == "batch_update" and len(call.pairs) == 1:
                (key, value), = call.pairs
                self.replace(at, verb="update", side="sys", key=key, value=value, pairs=())
            elif call.verb == "update" and call.flags:
                self.replace(at, flags=0)
            elif call.verb == "update" and call.side == "sys":
                self.replace(at, side="prog", value=call.value[: 2 * self.made.value_size])
            at += 1

    def fewer_pairs(self):
        at = 0
        while at < len(self.calls):
            kept = 0
            while at < len(self.calls) and kept < len(pairs := self.calls[at].pairs):
                if not self.replace(at, pairs=pairs[:kept] + pairs[kept + 1 :]):
                    kept += 1
            at += 1

    def fewer_entries(self):
        entries = 1
        while entries < self.made.entries:
            if self.take(dataclasses.replace(self.made, entries=entries), self.calls):
                return
            entries += max(entries // 4, 1)

    def fewer_keys(self):
        """One key in the place of another, else the lowest key that isn't used."""
        keys = sorted({key for call in self.calls for key in keys_of(call)}, key=by_number)
        for key in reversed(keys):
            lower = next(free for free in numbers(len(key)) if free not in keys)
            others = [other for other in keys if by_number(other) < by_number(key)][:40]
            for other in others + [lower] * (by_number(lower) < by_number(key)):
                if self.take(self.made, [with_keys(call, {key: other}) for call in self.calls]):
                    keys = [*(kept for kept in keys if kept != key), other]
                    break

    def lower_cpus(self):
        at = 0
        while at < len(self.calls):
            any(self.replace(at, cpu=cpu) for cpu in range(self.calls[at].cpu))
            at += 1

    def replace(self, at, **parts):
        call = dataclasses.replace(self.calls[at], **parts)
        return self.take(self.made, [*self.calls[:at], call, *self.calls[at + 1 :]])


def keys_of(call):
    return [key for key, _ in call.pairs] + ([call.key] if call.key is not None else [])


def by_number(key):
    return int.from_bytes(bytes.fromhex(key), "little")


def numbers(digits):
    """The keys of so many digits, upwards from 1, and 0 at last."""
    yield from (number.to_bytes(digits // 2, "little").hex() for number in range(1, 256 ** (digits // 2)))
    yield "00" * (digits // 2)


def with_keys(call, others):
    """The call with other keys in the place of those that have one."""
    pairs = tuple((others.get(key, key), value) for key, value in call.pairs)
    return dataclasses.replace(call, key=others.get(call.key, call.key), pairs=pairs)


def numbered(call, number):
    """The call with a value that says its number, where it is of one byte."""
    one = f"{number % 256:02x}"
    pairs = tuple((key, one if len(value) == 2 else value) for key, value in call.pairs)
    return dataclasses.replace(call, value=one if len(call.value) == 2 else call.value, pairs=pairs)


def with_values(call, made):
    """The call with values of one byte, each the first one of what they were."""
    field = 16 * -(-made.value_size // 8)

    def short(value, side):
        if not made.is_per_cpu or side == "prog":
            return value[:2]
        behind = value[-2:] if made.value_size % 8 else "00"
        return "".join(value[at : at + 2] + 7 * behind for at in range(0, len(value), field))

    pairs = tuple((key, short(value, "sys")) for key, value in call.pairs)
    return dataclasses.replace(call, value=short(call.value, call.side), pairs=pairs)
