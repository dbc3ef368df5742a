"""Reports that are edited, so that mistakes can be made in them on purpose."""
import collections

from reports import LOCKS


class Draft:
    """The lines of a report in its parts. An entry is its ticket and the rest of its line."""

    def __init__(self, text):
        self.head, self.histories, self.phases, self.strands, self.dump = [], {}, [], [], []
        for line in text.splitlines():
            name, *words = line.split(" ")
            if name == "lock":
                part = self.histories[" ".join(words[:-1])] = []
            elif name == "phase":
                self.phases.append((int(words[1]), " ".join(words[2:])))
            elif name == "strand":
                part = []
                self.strands.append((" ".join(words[:-1]), part))
            elif name == "at":
                part.append((" ".join(words[:-1]), int(words[-1])))
            elif self.strands:
                self.dump.append(line)
            elif self.histories:
                part.append((int(name), " ".join(words)))
            else:
                self.head.append(line)

    def text(self):
        lines = list(self.head)
        for lock, entries in sorted(self.histories.items(), key=lambda history: in_order(history[0])):
            if entries:
                lines += [f"lock {lock} {len(entries)}", *(f"{ticket} {line}" for ticket, line in entries)]
        lines += [f"phase {phase} {ticket} {marked}" for phase, (ticket, marked) in enumerate(self.phases)]
        for name, steps in self.strands:
            lines += [f"strand {name} {len(steps)}", *(f"at {lock} {index}" for lock, index in steps)]
        return "\n".join(lines + self.dump) + "\n"

    def renumber(self, lock, number):
        """Gives each step of a lock the number that this function says, or drops it where that is none."""
        for _, steps in self.strands:
            numbered = [(name, number(index) if name == lock else index) for name, index in steps]
            steps[:] = [step for step in numbered if step[1] is not None]

    def phase(self, strand):
        """The phase of a strand with this name."""
        return int(strand.split(" ")[0]) if self.phases else 0

    def draw(self):
        """Gives the entries tickets anew, in an order that fits all histories and strands, phase after phase: of the turns
        that may come next the one whose ticket was the least. Where no order fits they stay."""
        waiting = [(self.phase(name), steps[::-1]) for name, steps in self.strands]
        heads, order, starts = collections.Counter(), [], []
        for phase in range(max(1, len(self.phases))):
            starts.append(len(order))
            own = [steps for of, steps in waiting if of == phase]
            while ready := [steps for steps in own if steps and heads[steps[-1][0]] == steps[-1][1]]:
                lock, index = min(ready, key=lambda steps: self.entry(*steps[-1])[0]).pop()
                heads[lock] += 1
                order.append((lock, index))
        if len(order) == sum(map(len, self.histories.values())):
            for number, (lock, index) in enumerate(order):
                self.histories[lock][index] = number, self.entry(lock, index)[1]
            self.phases = [(start, marked) for start, (_, marked) in zip(starts, self.phases)]

    def entry(self, lock, index):
        return self.histories[lock][index]


def in_order(lock):
    name, *number = lock.split(" ")
    return LOCKS.index(name), list(map(int, number))


# Edits, each of which is a function on drafts. Where turns come or go or stand in another order, tickets are drawn anew, so
# that the mistake stands alone.


def entry(lock, index, old, new):
    """In an entry one text becomes another."""

    def edit(draft):
        ticket, line = draft.entry(lock, index)
        assert line.count(old) == 1, line
        draft.histories[lock][index] = ticket, line.replace(old, new)

    return edit


def drop(lock, index):
    """An entry goes, with its step."""

    def edit(draft):
        del draft.histories[lock][index]
        draft.renumber(lock, lambda other: None if other == index else other - (other > index))
        draft.draw()

    return edit


def double(lock, index):
    """An entry stands twice, with a step each."""

    def edit(draft):
        draft.renumber(lock, lambda number: number + (number > index))
        draft.histories[lock].insert(index + 1, draft.entry(lock, index))
        for _, named in draft.strands:
            if (lock, index) in named:
                named.insert(named.index((lock, index)) + 1, (lock, index + 1))
        draft.draw()

    return edit


def move(lock, index, other, to):
    """An entry goes to another lock, with its step."""

    def edit(draft):
        draft.renumber(other, lambda number: number + (number >= to))
        draft.histories.setdefault(other, []).insert(to, draft.histories[lock].pop(index))
        for _, named in draft.strands:
            at = named.index((lock, index)) if (lock, index) in named else None
            if at is not None:
                named[at] = (other, to)
        draft.renumber(lock, lambda number: number - (number > index))
        draft.draw()

    return edit


def swap(lock, index):
    """An entry and the next one change places; the strands stay as they are but for the numbers of these."""

    def edit(draft):
        entries = draft.histories[lock]
        entries[index : index + 2] = entries[index : index + 2][::-1]
        draft.renumber(lock, lambda other: {index: index + 1, index + 1: index}.get(other, other))
        draft.draw()

    return edit


def steps(strand, at):
    """Two neighbors in a strand change places."""

    def edit(draft):
        named = draft.strands[strand][1]
        named[at : at + 2] = named[at : at + 2][::-1]
        draft.draw()

    return edit


def ticket(lock, index, number):
    """An entry has another ticket."""

    def edit(draft):
        draft.histories[lock][index] = number, draft.entry(lock, index)[1]

    return edit


def exchange(lock, index, other, at):
    """Two entries have the ticket of each other."""

    def edit(draft):
        (one, line), (two, beside) = draft.entry(lock, index), draft.entry(other, at)
        draft.histories[lock][index] = two, line
        draft.histories[other][at] = one, beside

    return edit


def start(phase, ticket, marked):
    """The line of a phase's start has this ticket, and these elements marked."""

    def edit(draft):
        draft.phases[phase] = ticket, " ".join(["marked", *map(str, marked)])

    return edit


def split(strand):
    """A strand of all CPUs becomes one for each of two, in which the first has all steps."""

    def edit(draft):
        name, named = draft.strands[strand]
        phase = name.removesuffix("0,1")
        draft.strands[strand : strand + 1] = [(f"{phase}0", named), (f"{phase}1", [])]

    return edit


def apart():
    """A strand of several CPUs becomes one for each, with its steps."""

    def edit(draft):
        cut = []
        for name, named in draft.strands:
            phase, blank, cpus = name.rpartition(" ")
            for cpu in cpus.split(","):
                own = [step for step in named if draft.entry(*step)[1].split(" ")[0] == cpu]
                cut.append((phase + blank + cpu, own))
        draft.strands = cut

    return edit


def in_serial_form():
    """The strands of each phase become one of both CPUs, by the tickets."""

    def edit(draft):
        phases = {}
        for name, named in draft.strands:
            phases.setdefault(draft.phase(name), []).extend(named)
        draft.strands = [
            (f"{phase} 0,1", sorted(named, key=lambda step: draft.entry(*step)[0])) for phase, named in phases.items()
        ]

    return edit


def strand_goes(name):
    """A strand goes, with its steps."""

    def edit(draft):
        assert [other for other, _ in draft.strands].count(name) == 1, name
        draft.strands = [(other, steps) for other, steps in draft.strands if other != name]

    return edit


def line(old, *new):
    """A line before the histories or behind the strands becomes another, or goes."""

    def edit(draft):
        (part,) = [part for part in (draft.head, draft.dump) if old in part]
        assert part.count(old) == 1, old
        at = part.index(old)
        part[at : at + 1] = new

    return edit


def word_changes(text):
    """The text with each letter and digit of each word changed alone, each with its line's index."""
    line = 0
    for at, char in enumerate(text):
        line += char == "\n"
        if char.isalnum():
            other = {"9": "8", "f": "e", "z": "y"}.get(char, chr(ord(char) + 1))
            yield line, text[:at] + other + text[at + 1 :]


def line_changes(text):
    """The text with each line gone, doubled, or in the next one's place, each with the line's index."""
    lines = text.split("\n")[:-1]
    for at, line in enumerate(lines):
        before, after = lines[:at], lines[at + 1 :]
        changes = [before + after, [*before, line, line, *after]]
        if after and after[0] != line:
            changes.append([*before, after[0], line, *after[1:]])
        for changed in changes:
            yield at, "\n".join(changed) + "\n"
