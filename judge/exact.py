"""What calls that run one after another leave open to no choice: the bits of elements, and what probes and pushes find."""
from reports import Add, Evict, Lookup, Pop, Push, Refill, Steal, Turn, Unlawful, Update, need


def marks(part):
    """The element whose bit a turn sets, on a map that evicts; none where it sets none."""
    if isinstance(part, Lookup):
        return part.element if part.side == "prog" else None
    return part.element if isinstance(part, Update) and part.put in ("replaced", "written") else None


class Bits:
    """The bits of the elements at a turn: of the elements in `marked` they are set."""

    def __init__(self, marked):
        self.marked = set(marked)

    def read(self, element, bit):
        need((element in self.marked) == bit, f"the bit of element {element}")

    def visit(self, element, bit):
        """The bit is read, and cleared."""
        self.read(element, bit)
        self.marked.discard(element)

    def turn(self, part):
        if isinstance(part, Turn):
            self.lists(part)
        elif isinstance(part, Steal):
            # (bits are only read)
            for look in part.first:
                self.read(look.element, look.bit)
            need(not any(look.is_held for look in part.first + part.second), "an element in another CPU's hand")
        elif isinstance(part, Push):
            need(part.how == "done", "a push that found its element moved")
            self.marked.discard(part.element)
        elif isinstance(part, (Pop, Add)):
            self.marked.discard(part.element)
        elif isinstance(part, Refill):
            # (the bits of what was flushed are those of the global turn)
            self.marked.discard(part.got)
        elif isinstance(part, Evict):
            need(part.holder is None, "an element in another CPU's hand")
        elif marks(part) is not None:
            self.marked.add(marks(part))

    def lists(self, part):
        for element, _, bit in part.flushed:
            self.visit(element, bit)
        for element, bit in part.active + part.inactive:
            self.visit(element, bit)
        if part.shrink:
            for look in part.shrink.looks:
                self.visit(look.element, look.bit)
            need(not any(look.is_held for look in part.shrink.looks + part.shrink.forced), "an element in another CPU's hand")
        self.marked.discard(part.got)


def check_bits(made, phases, turns, ends, exact):
    """Of the starts of phases, with the turns by ticket and the elements that are marked at the end of each phase (none
    where that isn't told): a bit is set only by a turn, and in the phases of `exact` each is as the turns leave it."""
    bounds = [start.ticket for start in phases] + [len(turns)]
    for phase, (start, end) in enumerate(zip(phases, ends)):
        own = turns[bounds[phase] : bounds[phase + 1]]
        if phase in exact:
            bits = Bits(start.marked)
            for entry in own:
                try:
                    if made.evicts:
                        bits.turn(entry.part)
                except Unlawful as why:
                    raise Unlawful(f"ticket {entry.ticket}, in a phase that runs in serial order: {why}") from None
            need(end is None or bits.marked == set(end), f"the elements that are marked at the end of phase {phase}")
        elif end is not None:
            were = {marks(entry.part) for entry in own} | set(start.marked)
            need(not made.evicts or set(end) <= were, f"a bit that no turn set, at the end of phase {phase}")
