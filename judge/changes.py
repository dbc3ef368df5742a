"""Random changes of reports and of scripts, most of which leave a report that no run of the script has.

Each change is a function of a source of random numbers, the map, the script's lines and a draft of the report. Where there
is nothing to change it raises IndexError, as a choice among nothing does.
"""
import re

import drafts

REPLIES = ("ok", "einval", "enoent", "eexist", "e2big", "enomem", "enospc")
# Where an element stands in a part of a bucket's or a freelist's lock, or in a push, an addition or a pop of lists.
ELEMENTS = {"lookup": (4,), "update": (6, 8, 9), "delete": (3,), "take": (3,), "evict": (1,), "push": (1,), "add": (2,)}


def nothing():
    raise IndexError("nothing to change")


def two_of(draw, items):
    return draw.sample(items, 2) if len(items) > 1 else nothing()


# What stands in a draft.


def entries(draft, pattern=""):
    """The lock and index of each entry whose part has this pattern."""
    found = re.compile(pattern)
    return [(lock, at) for lock, own in draft.histories.items() for at, (_, line) in enumerate(own) if found.search(line)]


def words_of(draft, lock, at):
    return draft.entry(lock, at)[1].split(" ")


def put_words(draft, lock, at, words):
    draft.histories[lock][at] = draft.entry(lock, at)[0], " ".join(words)


def by_ticket(draft):
    return sorted((ticket, lock, at) for lock, own in draft.histories.items() for at, (ticket, _) in enumerate(own))


def elements_in(lock, words):
    """The places of elements in an entry's words, of which the first two are its CPU and its call."""
    part = words[2:]
    places = [at for at, word in enumerate(part) if ":" in word]
    if part[0] == "pop":
        places.append(len(part) - 1)
    elif part[0] == "steal" and part[1] != "none":
        places.append(2)
    else:
        places += ELEMENTS.get(part[0], ())
    for name in ("gain", "free"):
        if part[0] in ("refill", "turn") and name in part:
            at = part.index(name) + 1
            places += range(at + 1, at + 1 + int(part[at]))
    if "got" in part and part[0] in ("refill", "turn"):
        places.append(len(part) - 1)
    return [at + 2 for at in places if at < len(part) and re.match("[0-9]+(:|$)", part[at])]


def other_number(draw, number, most=None):
    """Another number: the next one, the one before, or one up to `most`."""
    others = {number + 1, max(0, number - 1), draw.randrange((most or 3) + 1), number + draw.choice((7, 128))} - {number}
    return draw.choice(sorted(others))


def other_digit(draw, text):
    """The hexadecimal text with another digit."""
    at = draw.randrange(len(text))
    return text[:at] + draw.choice("0123456789abcdef".replace(text[at], "")) + text[at + 1 :]


def other_word(draw, word):
    """A word of an entry with another number, digit, bit or answer."""
    fields = re.split("([:=])", word)
    at = draw.randrange(0, len(fields), 2)
    field = fields[at]
    if field == "r":
        fields[at] = f"h{draw.randrange(3)}"
    elif re.fullmatch("h[0-9]+", field):
        fields[at] = draw.choice(("r", f"h{other_number(draw, int(field[1:]))}"))
    elif re.fullmatch("0|[1-9][0-9]{0,4}", field):
        fields[at] = str(other_number(draw, int(field)))
    elif re.fullmatch("([0-9a-f]{2})+", field):
        fields[at] = other_digit(draw, field)
    elif field == "-":
        fields[at] = "0"
    else:
        nothing()
    return "".join(fields)


# Replies and values.


def reply(draw, made, lines, draft):
    """A call answers something else."""
    at = draw.choice(range(1, 1 + call_count(draft)))
    number, answer, *rest = draft.head[at].split(" ")
    if rest and draw.randrange(2):
        place = draw.randrange(len(rest))
        rest[place] = other_word(draw, rest[place])
    else:
        answer = draw.choice([other for other in REPLIES if other != answer])
        rest = draw.choice((rest, rest, []))
    draft.head[at] = " ".join([number, answer, *rest])


def call_count(draft):
    return len(draft.head) - 2


def value(draw, made, lines, draft):
    """A value is another one in one place of the history."""
    lock, at = draw.choice(entries(draft, " (lookup .* got|take .* gone|update|.* taken [1-9])"))
    words = words_of(draft, lock, at)
    places = [place for place in range(3, len(words)) if re.search("(^|=)([0-9a-f]{2})+$", words[place])]
    place = draw.choice(places)
    name, equals, text = words[place].rpartition("=")
    words[place] = name + equals + other_digit(draw, text)
    put_words(draft, lock, at, words)


def value_throughout(draw, made, lines, draft):
    """A value is another one wherever it stands, but in the script."""
    lock, at = draw.choice(entries(draft, " (lookup .* got|take .* gone)"))
    old = words_of(draft, lock, at)[-1]
    new = other_digit(draw, old)

    def changed(line):
        return re.sub(rf"(?<=[ =]){old}(?= |$)", new, line)

    draft.head[1:] = map(changed, draft.head[1:])
    draft.dump[:] = map(changed, draft.dump)
    for own in draft.histories.values():
        own[:] = [(ticket, changed(line)) for ticket, line in own]


# Entries.


def word(draw, made, lines, draft):
    """A word of an entry's part is another one."""
    lock, at = draw.choice(entries(draft))
    words = words_of(draft, lock, at)
    place = draw.choice(range(3, len(words)))
    words[place] = other_word(draw, words[place])
    put_words(draft, lock, at, words)


def element(draw, made, lines, draft):
    """An element of an entry is another one of the map."""
    lock, at = draw.choice(entries(draft))
    words = words_of(draft, lock, at)
    place = draw.choice(elements_in(lock, words))
    old = re.match("[0-9]+", words[place])[0]
    new = draw.choice([other for other in range(made.elements) if other != int(old)])
    words[place] = str(new) + words[place][len(old) :]
    put_words(draft, lock, at, words)


def elements_exchanged(draw, made, lines, draft):
    """Two elements change places in the history of a lock, or in all of the report."""
    one, two = two_of(draw, range(made.elements))
    names = {str(one): str(two), str(two): str(one)}
    for lock in draw.choice((list(draft.histories), [draw.choice(list(draft.histories))])):
        for at in range(len(draft.histories[lock])):
            words = words_of(draft, lock, at)
            for place in elements_in(lock, words):
                words[place] = re.sub("^[0-9]+", lambda found: names.get(found[0], found[0]), words[place])
            put_words(draft, lock, at, words)


def bit(draw, made, lines, draft):
    """A bit that was read is another one."""
    lock, at = draw.choice(entries(draft, ":[01]( |$)"))
    words = words_of(draft, lock, at)
    place = draw.choice([place for place, word in enumerate(words) if re.search(":[01]$", word)])
    words[place] = words[place][:-1] + "10"[int(words[place][-1])]
    put_words(draft, lock, at, words)


def bit_flushed(draw, made, lines, draft):
    """The bit of a flushed element is another one where the global lists tell it, and in the refill."""
    lock, at = draw.choice(entries(draft, "turn flush [1-9]"))
    ticket, line = draft.entry(lock, at)
    flushed, hash, old = draw.choice(re.findall("([0-9]+):([0-9a-f]{8}):([01])(?= )", line))
    new = "10"[int(old)]
    call = " ".join(line.split(" ")[:2])
    draft.histories[lock][at] = ticket, line.replace(f" {flushed}:{hash}:{old}", f" {flushed}:{hash}:{new}")
    for other, place in entries(draft, rf"^{call} refill .* {flushed}:{old} .*gain"):
        ticket, line = draft.entry(other, place)
        draft.histories[other][place] = ticket, line.replace(f" {flushed}:{old} ", f" {flushed}:{new} ", 1)


def probe(draw, made, lines, draft):
    """A probe found its element in a hand, or in its bucket, in the turn of the lists or in the bucket's alone."""
    lock, at = draw.choice(entries(draft, ":r|:h|held|removed"))
    words, hand = words_of(draft, lock, at), draw.randrange(made.cpus)
    if words[2] == "evict":
        words[4:] = ["held", str(hand)] if words[4] == "removed" else ["removed"]
    else:
        place = draw.choice([place for place, word in enumerate(words) if re.search(":(r|h[0-9]+)$", word)])
        found, _, answer = words[place].rpartition(":")
        words[place] = f"{found}:{'r' if answer != 'r' else f'h{hand}'}"
    put_words(draft, lock, at, words)


def holder(draw, made, lines, draft):
    """The probes of a call found an element in another hand, wherever that is told."""
    lock, at = draw.choice(entries(draft, "evict [0-9]+ held"))
    cpu, call, _, found, _, hand = words_of(draft, lock, at)
    others = [other for other in range(made.cpus) if str(other) not in (cpu, hand)]
    other = draw.choice(others)
    for lock, at in entries(draft, rf"^{cpu} {call} "):
        ticket, line = draft.entry(lock, at)
        line = re.sub(rf" evict {found} held {hand}$", f" evict {found} held {other}", line)
        draft.histories[lock][at] = ticket, re.sub(rf"(?<= ){found}(:0|):h{hand}(?= |$)", rf"{found}\1:h{other}", line)


def call(draw, made, lines, draft):
    """An entry is of another call."""
    lock, at = draw.choice(entries(draft))
    words, count = words_of(draft, lock, at), call_count(draft)
    words[1] = str(draw.choice([other for other in range(1, count + 1) if str(other) != words[1]]))
    put_words(draft, lock, at, words)


def cpu(draw, made, lines, draft):
    """An entry, or each of its call, is of another CPU."""
    lock, at = draw.choice(entries(draft))
    old, number = words_of(draft, lock, at)[:2]
    new = str(draw.choice([other for other in range(made.cpus) if str(other) != old]))
    for lock, at in draw.choice(([(lock, at)], entries(draft, rf"^{old} {number} "))):
        put_words(draft, lock, at, [new, *words_of(draft, lock, at)[1:]])


def neighbors(draw, made, lines, draft):
    """An entry and the next one of its lock change places, with their steps or without."""
    lock, at = draw.choice([(lock, at) for lock, own in draft.histories.items() for at in range(len(own) - 1)])
    if draw.randrange(3):
        drafts.swap(lock, at)(draft)
    else:
        own = draft.histories[lock]
        own[at], own[at + 1] = own[at + 1], own[at]


def contents(draw, made, lines, draft):
    """What two entries of a lock did changes places, but for their tickets."""
    lock = draw.choice([lock for lock, own in draft.histories.items() if len(own) > 1])
    own = draft.histories[lock]
    one, two = two_of(draw, range(len(own)))
    own[one], own[two] = (own[one][0], own[two][1]), (own[two][0], own[one][1])


def dropped(draw, made, lines, draft):
    """An entry goes, with its step; the other tickets are drawn anew, or stay."""
    lock, at = draw.choice(entries(draft))
    last = len(by_ticket(draft)) - 1
    ticket = draft.entry(lock, at)[0]
    if draw.randrange(2):
        drafts.drop(lock, at)(draft)
        return
    del draft.histories[lock][at]
    draft.renumber(lock, lambda other: None if other == at else other - (other > at))
    if ticket != last and draw.randrange(2):
        for own in draft.histories.values():
            own[:] = [(other - (other > ticket), line) for other, line in own]


def doubled(draw, made, lines, draft):
    """An entry stands twice, with a step each; the tickets are drawn anew."""
    lock, at = draw.choice(entries(draft))
    draft.renumber(lock, lambda other: other + (other > at))
    draft.histories[lock].insert(at + 1, draft.entry(lock, at))
    for _, steps in draft.strands:
        if (lock, at) in steps:
            steps.insert(steps.index((lock, at)) + 1, (lock, at + 1))
    draft.draw()


def other_lock(draw, made, lines, draft):
    """An entry stands in the history of another lock of the sort."""
    lock, at = draw.choice(entries(draft))
    sort, _, number = lock.partition(" ")
    count = {"bucket": made.buckets, "global": 1}.get(sort, made.cpus)
    other = f"{sort} {draw.choice([other for other in range(count) if str(other) != number])}"
    drafts.move(lock, at, other, draw.randrange(len(draft.histories.get(other, [])) + 1))(draft)
    draft.histories = {name: own for name, own in draft.histories.items() if own}


# Tickets.


def ticket(draw, made, lines, draft):
    """An entry has another ticket."""
    lock, at = draw.choice(entries(draft))
    number = draft.entry(lock, at)[0]
    drafts.ticket(lock, at, other_number(draw, number, len(by_ticket(draft))))(draft)


def tickets_exchanged(draw, made, lines, draft):
    """Two entries have the ticket of each other."""
    (_, *one), (_, *two) = two_of(draw, by_ticket(draft))
    drafts.exchange(*one, *two)(draft)


def next_exchanged(draw, made, lines, draft):
    """Two turns of two CPUs, one right behind the other, have the ticket of each other."""
    turns = by_ticket(draft)
    pairs = [
        (one, two)
        for (_, *one), (_, *two) in zip(turns, turns[1:])
        if one[0] != two[0] and words_of(draft, *one)[0] != words_of(draft, *two)[0]
    ]
    one, two = draw.choice(pairs)
    drafts.exchange(*one, *two)(draft)


def drawn_anew(draw, made, lines, draft):
    """All tickets are drawn anew at random, in an order that fits histories, strands and phases; strands of all CPUs are cut
    before, sometimes."""
    if draw.randrange(2):
        drafts.apart()(draft)
    for lock, own in draft.histories.items():
        own[:] = [(draw.random(), line) for _, line in own]
    if draw.randrange(2):
        weigh_calls(draw, draft)
    old = [[ticket for ticket, _ in own] for own in draft.histories.values()]
    draft.draw()
    if old == [[ticket for ticket, _ in own] for own in draft.histories.values()]:
        nothing()


def weigh_calls(draw, draft):
    """Of the entries of a call those that stand near each other in its strand are drawn near each other, mostly."""
    weights = {}
    for lock, own in draft.histories.items():
        for at, (_, line) in enumerate(own):
            own_call = tuple(line.split(" ")[:2])
            weight = weights.setdefault(own_call, draw.random())
            own[at] = weight + (draw.random() if draw.randrange(20) == 0 else 0), line


# Strands.


def step_moved(draw, made, lines, draft):
    """A step stands elsewhere in its strand, or in another one."""
    strands = [at for at, (_, steps) in enumerate(draft.strands) if steps]
    one = draw.choice(strands)
    two = draw.choice((one, draw.choice(range(len(draft.strands)))))
    steps = draft.strands[one][1]
    at = draw.randrange(len(steps))
    step = steps.pop(at)
    other = draft.strands[two][1]
    near = [place for place in (at - 1, at + 1) if 0 <= place <= len(other)] if one == two else []
    other.insert(draw.choice(near or [len(other)]) if draw.randrange(2) else draw.randrange(len(other) + 1), step)
    if draw.randrange(2):
        draft.draw()


def step_changed(draw, made, lines, draft):
    """A step goes, stands twice, or names another entry."""
    steps = draw.choice([steps for _, steps in draft.strands if steps])
    at = draw.randrange(len(steps))
    lock, index = steps[at]
    new = draw.choice(([], [(lock, index)] * 2, [(lock, other_number(draw, index))], [(draw.choice(list(draft.histories)), index)]))
    if new == [steps[at]]:
        nothing()
    steps[at : at + 1] = new


def strand_changed(draw, made, lines, draft):
    """A strand goes, stands twice, or changes places with the next one; or one without CPUs and steps is there."""
    at = draw.choice(range(len(draft.strands)))
    how = draw.randrange(4)
    if how == 0:
        del draft.strands[at]
        if not draft.strands:
            nothing()
    elif how == 1:
        name, steps = draft.strands[at]
        draft.strands.insert(at + draw.randrange(2), (name, list(steps)))
    elif how == 2:
        at = draw.choice(range(len(draft.strands) - 1))
        draft.strands[at : at + 2] = draft.strands[at : at + 2][::-1]
    else:
        name = draft.strands[at][0]
        phase = name.rpartition(" ")[0]
        draft.strands.insert(at, (f"{phase} " if phase else "", []))


def strand_named(draw, made, lines, draft):
    """A strand has other CPUs, or is of another phase."""
    at = draw.choice(range(len(draft.strands)))
    name, steps = draft.strands[at]
    phase, _, cpus = name.rpartition(" ")
    if phase and draw.randrange(2):
        phase = other_number(draw, int(phase), len(draft.phases))
    else:
        own = set(cpus.split(",")) - {""} ^ {str(draw.randrange(made.cpus))}
        cpus = ",".join(sorted(own, key=int))
    draft.strands[at] = f"{phase} {cpus}" if phase != "" else cpus, steps


def strands_joined(draw, made, lines, draft):
    """Two strands of a phase are one, in which the steps stand in the order of their tickets."""
    pairs = [
        (one, two)
        for one in range(len(draft.strands))
        for two in range(one + 1, len(draft.strands))
        if draft.phase(draft.strands[one][0]) == draft.phase(draft.strands[two][0])
    ]
    one, two = draw.choice(pairs)
    phase, blank, cpus = draft.strands[one][0].rpartition(" ")
    both = sorted(set(cpus.split(",") + draft.strands[two][0].rpartition(" ")[2].split(",")) - {""}, key=int)
    steps = sorted(draft.strands[one][1] + draft.strands[two][1], key=lambda step: draft.entry(*step)[0])
    draft.strands[one] = phase + blank + ",".join(both), steps
    del draft.strands[two]


def strands_cut(draw, made, lines, draft):
    """Strands of several CPUs are cut: there is one for each CPU, with its steps."""
    count = len(draft.strands)
    drafts.apart()(draft)
    if len(draft.strands) == count:
        nothing()


# Phases.


def start(draw, made, lines, draft):
    """A phase starts with another ticket: it falls, or is too high, or near."""
    phase = draw.choice(range(len(draft.phases)))
    ticket, marked = draft.phases[phase]
    most = len(by_ticket(draft)) + 2
    draft.phases[phase] = draw.choice((other_number(draw, ticket, most), draw.randrange(most))), marked


def marked_at_start(draw, made, lines, draft):
    """Other elements are marked at the start of a phase."""
    phase = draw.choice(range(len(draft.phases)))
    ticket, marked = draft.phases[phase]
    draft.phases[phase] = ticket, other_marks(draw, made, marked)


def other_marks(draw, made, line):
    """Other elements are marked: one more or one less, and sometimes not in order."""
    found = set(map(int, line.split(" ")[1:])) ^ {draw.randrange(made.elements + (draw.randrange(9) == 0))}
    return " ".join(["marked", *map(str, sorted(found, reverse=draw.randrange(20) == 0))])


# The lists at the end.


def lists_of(draft):
    """Of each line that tells a list at the end: its place, how many words its name has, and its elements."""
    lines = []
    for at, line in enumerate(draft.dump):
        if found := re.match(r"(freelist \d+|(global|local \d+|lru \d+) (free|pending|active|inactive))( |$)", line):
            named = len(found[1].split(" "))
            lines.append((at, named, line.split(" ")[named:]))
    return lines


def put_list(draft, place, elements):
    at, named, _ = place
    draft.dump[at] = " ".join(draft.dump[at].split(" ")[:named] + elements)


def final_moved(draw, made, lines, draft):
    """An element stands on another list, or elsewhere on its own."""
    lists = lists_of(draft)
    one = draw.choice([place for place in lists if place[2]])
    two = draw.choice((one, draw.choice(lists)))
    element = one[2].pop(draw.randrange(len(one[2])))
    two[2].insert(draw.randrange(len(two[2]) + 1), element)
    put_list(draft, one, one[2])
    put_list(draft, two, two[2])


def final_changed(draw, made, lines, draft):
    """An element of a list at the end goes, stands twice, or is another one."""
    place = draw.choice([place for place in lists_of(draft) if place[2]])
    at = draw.randrange(len(place[2]))
    place[2][at : at + 1] = draw.choice(([], 2 * [place[2][at]], [str(draw.randrange(made.elements))]))
    put_list(draft, place, place[2])


def final_elements(draw, made, lines, draft):
    """Two elements change places in all that is told of the end, or in the lines of two."""
    one, two = map(str, two_of(draw, range(made.elements)))
    names = {one: two, two: one}
    some = draw.randrange(2)
    for place in lists_of(draft):
        if some or draw.randrange(2):
            put_list(draft, place, [names.get(element, element) for element in place[2]])
    for at, line in enumerate(draft.dump):
        words = line.split(" ")
        if words[0] in ("bucket", "spare") and (some or draw.randrange(2)):
            words[2] = names.get(words[2], words[2])
            draft.dump[at] = " ".join(words)


def spares(draw, made, lines, draft):
    """Two CPUs have each other's spare, or one has another element, or that of another CPU."""
    places = [at for at, line in enumerate(draft.dump) if line.startswith("spare ")]
    at = draw.choice(places)
    name, one = draft.dump[at].rsplit(" ", 1)
    other = draw.choice(places)
    beside, two = draft.dump[other].rsplit(" ", 1)
    if at != other:
        draft.dump[at], draft.dump[other] = f"{name} {two}", f"{beside} {draw.choice((one, one, two))}"
    else:
        draft.dump[at] = f"{name} {draw.randrange(made.elements)}"


def cursor(draw, made, lines, draft):
    """A cursor of a list, or the one from which a CPU steals next, stands elsewhere at the end."""
    at = draw.choice([at for at, line in enumerate(draft.dump) if re.search(" (cursor|steal) ", line)])
    name, old = draft.dump[at].rsplit(" ", 1)
    among = ["-", *map(str, range(made.elements))] if name.endswith("cursor") else list(map(str, range(made.cpus + 1)))
    draft.dump[at] = f"{name} {draw.choice([new for new in among if new != old])}"


def bucket_line(draw, made, lines, draft):
    """Of what the buckets hold at the end a line goes, stands twice, changes places with the next one, or has another word."""
    at = draw.choice([at for at, line in enumerate(draft.dump) if line.startswith("bucket ")])
    line, how = draft.dump[at], draw.randrange(4)
    if how < 2:
        draft.dump[at : at + 1] = how * [line, line]
    elif how == 2:
        draft.dump[at : at + 2] = draft.dump[at : at + 2][::-1]
    else:
        words = line.split(" ")
        place = draw.randrange(1, len(words))
        words[place] = other_word(draw, words[place])
        draft.dump[at] = " ".join(words)


def marked_at_end(draw, made, lines, draft):
    """Other elements are marked at the end."""
    at = draw.choice([at for at, line in enumerate(draft.dump) if line.split(" ")[0] == "marked"])
    draft.dump[at] = other_marks(draw, made, draft.dump[at])


# Scripts.


def script_call(draw, made, lines, draft):
    """A call of the script is another one: its CPU, its key, its value, its count or its flags."""
    at = draw.choice([at for at, line in enumerate(lines) if at > 1 and line != "phase"])
    words = lines[at].split(" ")
    place = draw.choice([place for place in range(len(words)) if place != 1])
    if place == 0:
        words[0] = str(draw.choice([other for other in range(made.cpus) if str(other) != words[0]]))
    elif words[1] in ("update", "sysupdate") and place == 2:
        words[2] = draw.choice([flag for flag in ("any", "noexist", "exist", "4") if flag != words[2]])
    elif words[1] in ("batch_lookup", "batch_take") or words[1] in ("batch_update", "batch_delete", "each") and place == 2:
        words[place] = str(draw.randrange(4))
    elif words[place] != "-":
        words[place] = other_digit(draw, words[place])
    if " ".join(words) == lines[at]:
        nothing()
    lines[at] = " ".join(words)


def script_verb(draw, made, lines, draft):
    """A call has the other side, or is of another verb of the same words."""
    at = draw.choice([at for at, line in enumerate(lines) if at > 1 and line != "phase"])
    words = lines[at].split(" ")
    like = (
        ("lookup", "syslookup", "delete", "take"),
        ("batch_lookup", "batch_take"),
        ("update", "sysupdate") if not made.is_per_cpu else (),
    )
    words[1] = draw.choice([verb for verbs in like if words[1] in verbs for verb in verbs if verb != words[1]])
    lines[at] = " ".join(words)


def script_lines(draw, made, lines, draft):
    """Two lines of the script change places: calls, or a call and the start of a phase."""
    at = draw.choice([at for at in range(2, len(lines) - 1) if lines[at] != lines[at + 1]])
    lines[at : at + 2] = lines[at : at + 2][::-1]


# Each change with how often it is made.
CHANGES = {
    "reply": (reply, 3),
    "value": (value, 2),
    "value throughout": (value_throughout, 2),
    "word of an entry": (word, 4),
    "element": (element, 4),
    "elements exchanged": (elements_exchanged, 2),
    "bit": (bit, 4),
    "bit of a flush": (bit_flushed, 2),
    "probe": (probe, 3),
    "holder": (holder, 2),
    "call": (call, 2),
    "CPU": (cpu, 2),
    "entries exchanged": (neighbors, 4),
    "contents exchanged": (contents, 2),
    "entry dropped": (dropped, 4),
    "entry doubled": (doubled, 2),
    "entry in another lock": (other_lock, 3),
    "ticket": (ticket, 2),
    "tickets exchanged": (tickets_exchanged, 3),
    "next tickets exchanged": (next_exchanged, 5),
    "tickets drawn anew": (drawn_anew, 8),
    "step moved": (step_moved, 4),
    "step changed": (step_changed, 2),
    "strand": (strand_changed, 3),
    "strand's name": (strand_named, 2),
    "strands joined": (strands_joined, 3),
    "strands cut": (strands_cut, 2),
    "start of a phase": (start, 3),
    "marked at a start": (marked_at_start, 2),
    "element moved at the end": (final_moved, 3),
    "element changed at the end": (final_changed, 2),
    "elements exchanged at the end": (final_elements, 2),
    "spares": (spares, 2),
    "cursor at the end": (cursor, 2),
    "bucket at the end": (bucket_line, 3),
    "marked at the end": (marked_at_end, 2),
    "call of the script": (script_call, 3),
    "verb of the script": (script_verb, 2),
    "lines of the script": (script_lines, 3),
}


def changed(draw, made, script, report):
    """A script and a report, of which one was changed: the change's name, and both. Now and then a second change follows."""
    names, weights = list(CHANGES), [weight for _, weight in CHANGES.values()]
    while True:
        (name,) = draw.choices(names, weights)
        lines, draft = script.rstrip("\n").split("\n"), drafts.Draft(report)
        try:
            CHANGES[name][0](draw, made, lines, draft)
            if draw.randrange(8) == 0:
                CHANGES[draw.choices(names, weights)[0]][0](draw, made, lines, draft)
                name = "two changes"
        except IndexError:
            continue
        both = "\n".join(lines) + "\n", draft.text()
        if both != (script, report):
            return name, *both
