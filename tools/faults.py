"""The first fault of a script, by the grammar of docs/FORMATS.md: where it stands, what was expected, and what would be right."""
import dataclasses
import difflib
import re

KINDS = ("hash", "percpu_hash", "lru_hash", "lru_percpu_hash")
MODES = ("serial", "race", "gen", "compare", "check", "copy")
# What else these are called elsewhere.
OTHER_NAMES = {
    "hash": ("hashmap", "htab", "table", "bpf_map_type_hash"),
    "percpu_hash": ("percpu", "percpuhash", "hash_percpu", "bpf_map_type_percpu_hash"),
    "lru_hash": ("lru", "lruhash", "hash_lru", "bpf_map_type_lru_hash"),
    "lru_percpu_hash": ("lru_percpu", "percpu_lru_hash", "percpu_lru", "lrupercpuhash", "bpf_map_type_lru_percpu_hash"),
    "key": ("key_size", "keys", "bytes_key", "keysize"),
    "value": ("value_size", "values", "val", "bytes_value", "valuesize"),
    "max": ("max_entries", "entries", "size", "capacity"),
    "cpus": ("cpu", "ncpus", "nr_cpus"),
    "flags": ("flag", "map_flags"),
}
DEFAULTS = {"key": "4", "value": "8", "max": "1024", "cpus": "1", "count": "128", "seed": "1", "calls": "1000", "keys": "100",
            "mix": "0", "flags": "0"}
MOST = 4294967295
CPUS, ENTRIES, KEY, VALUE, POOL, BYTES = 16, 65536, 512, 4096, 268435456, 16777216
# Where faults are described.
PLACE = 'docs/FORMATS.md, "Causes"'


@dataclasses.dataclass(eq=False)
class Fault(Exception):
    """What is wrong. Where a token is missing, the place behind the last one."""

    # What the program says, behind `bpfmap: `.
    said: str
    told: str
    expected: str
    # The tokens with this mended, or none.
    mended: list | None = None
    at: int | None = None
    line: object = None
    # A line that would be right in the place of this one.
    nearest: str | None = None
    # Whether `nearest` is no line for the place of this one, but says where something else goes.
    is_advice: bool = False


class Line:
    """A line that says something: its number, and its tokens, each with its column from 1."""

    def __init__(self, number, raw):
        self.number, self.raw = number, raw.decode("latin-1")
        said = self.raw.split("#", 1)[0]
        found = list(re.finditer(r"[^ \t\r]+", said))
        self.tokens, self.columns = [one.group() for one in found], [one.start() + 1 for one in found]
        bad = re.search(r"[^ \t\r!-~]", said)
        self.bad = None if bad is None else bad.start()
        self.end = len(said.rstrip(" \t\r")) + 1

    def column(self, at):
        """The column of a token, or that behind the last one."""
        return self.columns[at] if at < len(self.columns) else self.end + (self.end > 1)

    def token(self, at):
        return self.tokens[at] if at < len(self.tokens) else None


def lines_of(text):
    for number, raw in enumerate(text.split(b"\n"), 1):
        if raw.split(b"#", 1)[0].strip(b" \t\r"):
            yield Line(number, raw)


def nearest(word, names):
    """The name that a word most likely stands for, or none."""
    low = word.lower().replace("-", "_")
    for name in names:
        if low == name or low in OTHER_NAMES.get(name, ()):
            return name
    found = difflib.get_close_matches(low, names, 1, 0.6)
    return found[0] if found else None


def listed(names):
    names = [f"`{name}`" for name in names]
    return names[0] if len(names) == 1 else f"{', '.join(names[:-1])} or {names[-1]}"


def is_number(token):
    return token.isascii() and token.isdigit() and len(token) <= 10 and int(token) <= MOST


NUMBER = f"a decimal number from 0 to {MOST}"


def why_no_number(token):
    """What is wrong with a token that is no number, and the number that it may stand for."""
    if re.fullmatch(r"0[xX][0-9a-fA-F]{1,8}", token):
        return f"`{token}` is hexadecimal, and numbers are decimal", str(int(token, 16))
    if re.fullmatch(r"[-+][0-9]{1,10}", token):
        return f"`{token}` has a sign, and numbers have none", token[1:]
    if re.fullmatch(r"[0-9]{1,7}[kKmM]i?[bB]?", token):
        scale = 1024 if "k" in token.lower() else 1024 * 1024
        return f"`{token}` has a unit, and numbers have none", str(int(re.match("[0-9]+", token).group()) * scale)
    if re.fullmatch(r"[0-9]+([_,'][0-9]{3})+", token):
        return f"`{token}` has separators, and numbers have none", re.sub("[^0-9]", "", token)
    if re.fullmatch(r"[0-9]+", token):
        return f"`{token}` is above {MOST}, or has more than 10 digits", str(min(int(token), MOST))
    if re.fullmatch(r"[0-9]+[:,;.]?0*", token):
        return f"`{token}` is no number", re.match("[0-9]+", token).group()
    return f"`{token}` is no number", None


def replaced(tokens, at, *words):
    return [*tokens[:at], *words, *tokens[at + 1 :]]


class Form:
    """A line with labels: its word, whether a kind follows, the labels that have to follow, and those that may."""

    def __init__(self, cause, word, has_kind, labels, more=()):
        self.cause, self.word, self.has_kind, self.labels, self.more = cause, word, has_kind, labels, more
        told = [word, *["KIND"] * has_kind, *(f"{label} N" for label in labels), *(f"[{label} N]" for label in more)]
        self.text = " ".join(told)

    def read(self, tokens):
        """The numbers by label, with the kind, and at which token each stands."""
        said, places, kind = {}, {}, None
        self.check_word(tokens)
        at = 1
        if self.has_kind:
            kind, at = self.read_kind(tokens), 2
            places["kind"] = 1
        for label in self.labels:
            if at >= len(tokens) or tokens[at] != label:
                self.wrong_label(tokens, at, label)
            self.check_number(tokens, at + 1)
            said[label], places[label] = int(tokens[at + 1]), at + 1
            at += 2
        for label in self.more:
            said[label] = 0
            if at < len(tokens) and tokens[at] == label:
                self.check_number(tokens, at + 1)
                said[label], places[label] = int(tokens[at + 1]), at + 1
                at += 2
        if at < len(tokens):
            self.extra(tokens, at)
        return kind, said, places

    def fault(self, at, told, expected, mended=None):
        raise Fault("", told, expected, mended, at)

    def check_word(self, tokens):
        if tokens[0] == self.word:
            return
        mended = replaced(tokens, 0, self.word) if nearest(tokens[0], [self.word]) else None
        if self.has_kind and tokens[0] in KINDS or not self.has_kind and tokens[0] in self.labels:
            mended = [self.word, *tokens]
        self.fault(0, f"`{tokens[0]}` stands where a {self.word} line begins", f"`{self.text}`", mended)

    def read_kind(self, tokens):
        told = f"a kind: {listed(KINDS)}"
        if len(tokens) < 2:
            self.fault(1, "the line ends where the kind stands", told, [*tokens, "hash"])
        if tokens[1] in KINDS:
            return tokens[1]
        if tokens[1] in self.labels:
            self.fault(1, f"the kind is missing before `{tokens[1]}`", told, [tokens[0], "hash", *tokens[1:]])
        name = nearest(tokens[1], KINDS)
        self.fault(1, f"`{tokens[1]}` is no kind", told, replaced(tokens, 1, name) if name else None)

    def wrong_label(self, tokens, at, label):
        expected = f"`{label} N`, as in `{self.text}`"
        if at >= len(tokens):
            self.fault(at, f"the line ends where `{label}` has to stand", expected, [*tokens, label, DEFAULTS[label]])
        token, ordered = tokens[at], self.ordered(tokens)
        if ordered:
            self.fault(at, f"`{token}` stands where `{label}` has to: the words have one order", expected, ordered)
        name, _, number = token.partition("=")
        if number and nearest(name, self.labels):
            self.fault(at, f"`{token}` has no blank between the word and its number", expected,
                       replaced(tokens, at, nearest(name, self.labels), number))
        if token in (*self.labels, *self.more):
            self.fault(at, f"`{token}` stands where `{label}` has to", expected,
                       [*tokens[:at], label, DEFAULTS[label], *tokens[at:]])
        if is_number(token):
            self.fault(at, f"`{token}` stands where `{label}` has to", expected, [*tokens[:at], label, *tokens[at:]])
        name = nearest(token, [label]) or nearest(token, (*self.labels, *self.more))
        self.fault(at, f"`{token}` stands where `{label}` has to", expected, replaced(tokens, at, name) if name else None)

    def ordered(self, tokens):
        """The same words in their order, where only that is wrong."""
        begin = 1 + self.has_kind
        pairs = list(zip(tokens[begin::2], tokens[begin + 1 :: 2]))
        own = (*self.labels, *self.more)
        names = [label for label, _ in pairs]
        if len(tokens) - begin != 2 * len(pairs) or len(set(names)) < len(names) or set(names) - set(own):
            return None
        mended = [*tokens[:begin], *(word for pair in sorted(pairs, key=lambda pair: own.index(pair[0])) for word in pair)]
        return mended if mended != tokens else None

    def check_number(self, tokens, at):
        label = tokens[at - 1]
        if at >= len(tokens):
            self.fault(at, f"the line ends where the number of `{label}` stands", NUMBER, [*tokens, DEFAULTS[label]])
        if is_number(tokens[at]):
            return
        if tokens[at] in (*self.labels, *self.more):
            self.fault(at, f"`{label}` has no number", NUMBER, [*tokens[:at], DEFAULTS[label], *tokens[at:]])
        told, number = why_no_number(tokens[at])
        self.fault(at, f"{told}, and `{label}` has one", NUMBER, replaced(tokens, at, number) if number else None)

    def extra(self, tokens, at):
        token, ordered = tokens[at], self.ordered(tokens)
        may = [label for label in self.more if label not in tokens]
        expected = f"the end of the line{', or ' + listed(may) + ' with a number' if may else ''}"
        if ordered:
            self.fault(at, f"`{token}` is out of its order", expected, ordered)
        name = nearest(token, may) if may else None
        if name and token != name and at + 1 < len(tokens):
            self.fault(at, f"`{token}` is no word of this line", expected, replaced(tokens, at, name))
        self.fault(at, f"`{token}` stands behind the end of what a {self.word} line says", expected, tokens[:at])


MAP = Form("map", "map", True, ("key", "value", "max", "cpus"), ("flags", "seed"))
TARGET = Form("target", "target", True, ("max", "count"), ("flags", "seed"))
GENERATOR = Form("gen", "gen", False, ("seed", "calls", "keys", "mix"))


class Made:
    """A map, as far as lines are judged by it."""

    def __init__(self, kind, said):
        self.kind, self.key, self.value, self.max = kind, said["key"], said["value"], said["max"]
        self.cpus, self.flags, self.seed = said["cpus"], said["flags"], said["seed"]

    @property
    def evicts(self):
        return self.kind.startswith("lru_")

    @property
    def per_cpu(self):
        return "percpu" in self.kind

    @property
    def side(self):
        """The bytes of a value as the system call has it."""
        return -(-self.value // 8) * 8 * self.cpus if self.per_cpu else self.value

    @property
    def elements(self):
        capacity = -(-self.max // self.cpus) * self.cpus if self.flags & 2 else self.max
        return capacity + (self.cpus if self.kind == "hash" else 0)


def refusal(made, tokens, places, what="map"):
    """Raises why a map can't be created, in the order in which the program judges it."""
    def refuse(why, label, told, expected, number=None):
        at = places.get(label)
        mended = None
        if at is not None and number is not None:
            mended = replaced(tokens, at, str(number)) if number or label not in MAP.more else [*tokens[: at - 1], *tokens[at + 1 :]]
        raise Fault(f"map refused: {why}", told, expected, mended, at if at is not None else 0)

    flags, own = made.flags, 2 * made.evicts
    may = f"0, 64 (ZERO_SEED){', 2 (NO_COMMON_LRU) or 66' if made.evicts else ''}"
    if flags & ~67:
        refuse("einval", "flags", f"`flags {flags}` has a bit that these maps don't know", may, flags & (64 | own))
    if flags & 2 and not made.evicts:
        refuse("einval", "flags", f"`flags {flags}` has 2 (NO_COMMON_LRU), and {made.kind} has no LRU lists", may, flags & 64)
    if flags & 1:
        refuse("enotsupp" if made.evicts else "einval", "flags",
               f"`flags {flags}` has 1 (NO_PREALLOC), and here all elements exist from creation", may, flags & (64 | own))
    for label, least in (("max", made.max), ("key", made.key), ("value", made.value)):
        if least == 0:
            refuse("einval", label, f"`{label} 0`: a {what} has {'room for one entry' if label == 'max' else 'a ' + label + ' of one byte'} at least",
                   f"1 to {({'max': ENTRIES, 'key': KEY, 'value': VALUE})[label]}", 1)
    if flags & 64 and made.seed:
        refuse("einval", "seed", f"`seed {made.seed}` stands beside flag 64 (ZERO_SEED)", "no seed, or flags without 64", 0)
    limits = (("cpus", made.cpus, CPUS), ("max", made.max, ENTRIES), ("key", made.key, KEY), ("value", made.value, VALUE))
    for label, number, most in limits:
        if not (number <= most and (number or label != "cpus")):
            refuse(f"limit {label}", label, f"`{label} {number}` is past what bpfmap takes", f"1 to {most}", min(max(number, 1), most))
    each = made.key + made.side
    if made.elements * each > POOL:
        refuse("limit pool", "max", f"the {made.elements} elements have {each} bytes each, {made.elements * each} in all",
               f"at most {POOL} bytes: a smaller `max`, or smaller values", max(1, POOL // each - made.cpus))
