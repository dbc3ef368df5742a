"""The first fault of a call line, and of a whole script."""
import re

from faults import (BYTES, GENERATOR, KINDS, MAP, MODES, NUMBER, TARGET, Fault, Line, Made, is_number, lines_of, listed, nearest,
                    refusal, replaced, why_no_number)

LOOKS = ("lookup", "syslookup", "delete", "take")
VERBS = (*LOOKS, "update", "sysupdate", "next", "batch_lookup", "batch_take", "batch_update", "batch_delete", "each")
FLAGS = ("any", "noexist", "exist")
# What else verbs and flags are called elsewhere.
ALIASES = {
    "get": "lookup", "read": "lookup", "find": "lookup", "put": "update", "set": "update", "insert": "update", "add": "update",
    "write": "update", "del": "delete", "remove": "delete", "rm": "delete", "erase": "delete", "pop": "take", "getnext": "next",
    "next_key": "next", "get_next_key": "next", "lookup_and_delete": "take", "lookup_batch": "batch_lookup",
    "update_batch": "batch_update", "delete_batch": "batch_delete", "for_each": "each", "foreach": "each", "sys_lookup": "syslookup",
    "sys_update": "sysupdate", "bpf_any": "any", "bpf_noexist": "noexist", "bpf_exist": "exist", "nx": "noexist", "xx": "exist",
}
CALLS, REPLIES, PHASES = 200000, 67108864, 64
COMPARED = ("lookup", "syslookup", "update", "sysupdate", "delete", "take")


def other(word, names):
    alias = ALIASES.get(word.lower().replace("-", "_"))
    return alias if alias in names else nearest(word, names)


def is_hex(token):
    return re.fullmatch("[0-9a-fA-F]*", token) is not None


class Calls:
    """Reads call lines of a map, in one version, and tells the bytes that the replies may have."""

    def __init__(self, made, version, is_trial=False):
        self.made, self.version, self.is_trial = made, version, is_trial
        key, value = f"[0-9a-fA-F]{{{2 * made.key}}}", f"[0-9a-fA-F]{{{2 * made.value}}}"
        # (the form in which most lines are written)
        self.common = re.compile(f"([0-9]{{1,2}}) (?:(lookup|delete) {key}|update any {key} {value})\r?".encode())

    def is_common(self, raw):
        """The bytes of the reply to a line in the common form, or none."""
        found = self.common.fullmatch(raw)
        if not found or int(found[1]) >= self.made.cpus:
            return None
        return self.made.value if found[2] == b"lookup" else 0

    def read(self, tokens):
        """The verb, and the bytes that its reply may have."""
        made = self.made
        self.tokens = tokens
        self.cpu()
        if len(tokens) < 2:
            self.fault("missing", 1, "the line ends where a verb has to stand", f"a verb: {listed(self.verbs())}")
        verb, pair = tokens[1], made.key + made.side
        if verb not in self.verbs():
            self.wrong_verb(verb)
        if verb in LOOKS:
            self.bytes(2, made.key, "key")
            self.end(3)
            return verb, {"lookup": made.value, "delete": 0}.get(verb, made.side)
        if verb in ("update", "sysupdate"):
            self.update(verb)
            return verb, 0
        if verb == "next":
            if len(tokens) > 2:
                self.bytes(2, made.key, "key")
                self.end(3)
            return verb, made.key
        if verb in ("batch_lookup", "batch_take"):
            self.number(2, "COUNT, how many pairs")
            self.start(3)
            if len(tokens) > 4:
                self.number(4, "FLAGS")
            self.end(5)
            return verb, min(int(tokens[2]), made.elements) * pair
        if verb == "each":
            self.number(2, "FLAGS")
            self.stop(3)
            self.end(4)
            return verb, made.elements * (made.key + made.value)
        self.batch(verb)
        return verb, 0

    def verbs(self):
        return VERBS if self.version > 1 else VERBS[:-1]

    def fault(self, cause, at, told, expected, mended=None, **more):
        raise Fault(cause, told, expected, mended, at, **more)

    def reads(self, tokens):
        """Whether this would be a call line."""
        try:
            Calls(self.made, self.version, True).read(tokens)
        except Fault:
            return False
        return True

    # The places of a line.

    def cpu(self):
        tokens, most = self.tokens, self.made.cpus - 1
        token, which = tokens[0], ("0, the only one", "0 or 1", f"0 to {most}")[min(most, 2)]
        expected = f"a CPU: {which}"
        if is_number(token):
            if int(token) > most:
                self.fault("cpu", 0, f"there is no CPU {int(token)}: the map has `cpus {self.made.cpus}`", expected, replaced(tokens, 0, str(most)))
            return
        if token == "phase":
            self.fault("number", 0, "a line `phase` is one of version 2, and this script is one of version 1", expected,
                       nearest="`bpfmap 2` as the first line", is_advice=True)
        if token in ("gen", "target"):
            mode = "gen" if token == "gen" else "copy"
            judged = " (the report of a copy is judged by judge/run --judge SCRIPT REPORT)" if mode == "copy" else ""
            self.fault("number", 0, f"a {'generator' if mode == 'gen' else 'target'} line is read by mode {mode}, and by no other", expected,
                       nearest=f"mode {mode}{judged}", is_advice=True)
        if token in ("map", "bpfmap"):
            self.fault("number", 0, f"a script has one `{token}` line, and this is another one", expected)
        if self.version > 1 and nearest(token, ["phase"]) and len(tokens) == 1:
            self.fault("number", 0, f"`{token}` is no CPU", f"{expected}; or `phase`", ["phase"])
        found = re.fullmatch(r"[cC][pP][uU]:?([0-9]*):?", token)
        if found and (found[1] or len(tokens) > 1 and is_number(tokens[1])):
            self.fault("number", 0, f"`{token}` is no number", expected, replaced(tokens, 0, *filter(None, [found[1]])))
        verb = other(token, self.verbs())
        if verb:
            self.fault("number", 0, f"the CPU is missing before `{token}`", expected, ["0", *tokens])
        told, number = why_no_number(token)
        self.fault("number", 0, told, expected, replaced(tokens, 0, number) if number else None)

    def wrong_verb(self, verb):
        expected = f"a verb: {listed(self.verbs())}"
        if verb == "each":
            self.fault("verb", 1, "`each` is a verb of version 2, and this script is one of version 1", expected,
                       nearest="`bpfmap 2` as the first line", is_advice=True)
        name = other(verb, self.verbs())
        self.fault("verb", 1, f"`{verb}` is no verb", expected, replaced(self.tokens, 1, name) if name else None)

    def end(self, at):
        if at < len(self.tokens):
            token = self.tokens[at]
            is_comment = token[:2] in ("//", "--", "/*") or token[:1] == ";"
            told = f"`{token}` stands behind the end of the call"
            expected = "the end of the line" + (": a comment begins with `#`" if is_comment else "")
            self.fault("extra", at, told, expected, self.tokens[:at])

    def number(self, at, what):
        if at >= len(self.tokens):
            self.fault("missing", at, f"the line ends where {what} stands", NUMBER, [*self.tokens, "0"])
        token = self.tokens[at]
        if not is_number(token):
            told, number = why_no_number(token)
            number = "012"[FLAGS.index(token)] if token in FLAGS else number
            mended = replaced(self.tokens, at, number) if number else None
            if mended is None and what == "FLAGS":
                mended = [*self.tokens[:at], "0", *self.tokens[at:]]
            self.fault("number", at, f"{told}, and {what} is one", NUMBER, mended)

    def start(self, at):
        expected = "START: the number of a bucket, or `-` for the first"
        if at >= len(self.tokens):
            self.fault("missing", at, "the line ends where START stands", expected, [*self.tokens, "-"])
        token = self.tokens[at]
        if token != "-" and not is_number(token):
            told, number = why_no_number(token)
            self.fault("number", at, told, expected, replaced(self.tokens, at, number or "-"))

    def stop(self, at):
        if at >= len(self.tokens):
            self.fault("missing", at, "the line ends where STOP stands", "a key, or `-` for none", [*self.tokens, "-"])
        if self.tokens[at] != "-":
            self.bytes(at, self.made.key, "key")

    def bytes(self, at, size, what, why=""):
        digits = 2 * size
        expected = f"a {what} of {size} byte{'' if size == 1 else 's'}: {digits} hexadecimal digits{why}"
        if at >= len(self.tokens):
            self.fault("missing", at, f"the line ends where a {what} has to stand", expected, [*self.tokens, "00" * size])
        token = self.tokens[at]
        if not is_hex(token):
            plain = re.sub("[:,_.-]", "", re.sub(r"^0[xX]|\\x", "", token))
            mended = replaced(self.tokens, at, fitted(plain, digits)) if plain and is_hex(plain) else None
            bad = next((place for place, sign in enumerate(token) if not is_hex(sign)), 0)
            told = f"`{token}` begins with 0x, and keys and values are written without" if re.match("0[xX]", token) else \
                f"`{shown(token)}` has `{token[bad]}` as its digit {bad + 1}, which is no hexadecimal one"
            self.fault("digits", at, told, expected, mended)
        if len(token) != digits:
            told = f"`{shown(token)}` has {len(token)} digit{'' if len(token) == 1 else 's'}, and a {what} has {digits} here"
            self.fault("length", at, told, expected, replaced(self.tokens, at, fitted(token, digits)))

    def side_bytes(self, at):
        made, why = self.made, ""
        if made.per_cpu:
            field = -(-made.value // 8) * 8
            why = f", {2 * field} for each of {made.cpus} CPUs, as the system call has them"
            token = self.tokens[at] if at < len(self.tokens) else ""
            if is_hex(token) and len(token) == 2 * made.value and made.value != made.side:
                each = token.ljust(2 * field, "0") * made.cpus
                self.fault("length", at, f"`{shown(token)}` is the value of one CPU", f"a value of {made.side} bytes: {2 * made.side} digits{why}",
                           replaced(self.tokens, at, each))
        self.bytes(at, made.side, "value", why)

    def update(self, verb):
        made, tokens = self.made, self.tokens
        expected = f"{listed(FLAGS)}, or a number"
        if len(tokens) < 3:
            self.fault("missing", 2, "the line ends where the flag of the update stands", expected,
                       [*tokens, "any", "00" * made.key, "00" * (made.value if verb == "update" else made.side)])
        token, with_flag = tokens[2], [*tokens[:2], "any", *tokens[2:]]
        try:
            if token not in FLAGS and not is_number(token):
                name = other(token, FLAGS)
                self.fault("flag", 2, f"`{shown(token)}` is no flag", expected, replaced(tokens, 2, name) if name else None)
            self.bytes(3, made.key, "key")
            if verb == "update":
                self.bytes(4, made.value, "value")
            else:
                self.side_bytes(4)
            self.end(5)
        except Fault as fault:
            # (a key of decimal digits is taken for the flag that is missing, and then the fault comes behind it)
            if token not in FLAGS and not self.is_trial and self.reads(with_flag):
                fault.told = f"the flag is missing: `{shown(token)}` stands in its place" + f", and {fault.told}" * (fault.at > 2)
                fault.expected, fault.mended = f"{expected}, before the key", with_flag
            raise

    def batch(self, verb):
        made, tokens, at = self.made, self.tokens, 3
        with_flags = [*tokens[:2], "0", *tokens[2:]]
        try:
            self.number(2, "FLAGS")
            while at < len(tokens):
                self.bytes(at, made.key, "key")
                if verb == "batch_update":
                    self.side_bytes(at + 1)
                at += 1 + (verb == "batch_update")
        except Fault as fault:
            if len(tokens) > 2 and not self.is_trial and self.reads(with_flags):
                fault.told = f"FLAGS is missing: `{shown(tokens[2])}` stands in its place"
                fault.expected, fault.mended = f"{NUMBER}, before the first key", with_flags
            raise


def shown(token):
    return token if len(token) <= 40 else f"{token[:32]}.."


def fitted(digits, count):
    """Digits made as many as these: with a zero before an odd one, filled with zeros behind, or cut."""
    digits = "0" * (len(digits) % 2) + digits
    return digits.ljust(count, "0")[:count]


# Whole scripts.


def byte_fault(line):
    sign = line.raw[line.bad]
    whole = line.raw.encode("latin-1").decode("utf-8", "replace")
    told = f"the byte 0x{ord(sign):02x} may not stand in a script" + (", beside comments" if "#" not in line.raw else "")
    mended = None
    if line.raw.startswith("\xef\xbb\xbf"):
        told, mended = "the file begins with the byte order mark of UTF-8 (0xef 0xbb 0xbf)", line.raw[3:].split()
    elif sign == "\0":
        told += ": is this text in UTF-16, or a compressed file?"
    elif "\ufffd" not in whole:
        plain = whole.split("#")[0].translate(str.maketrans("\u2013\u2014\u2212\u2018\u2019\u201c\u201d", "---''\"\""))
        mended = plain.split() if all(" " <= one <= "~" or one in "\t\r" or one.isspace() for one in plain) else None
    return Fault("byte", told, "blanks, and the signs from ! to ~; behind `#` any byte", mended)


class Reading:
    """Reads a script in a mode up to its first fault, or to its end."""

    def __init__(self, text, mode):
        self.mode, self.text, self.script = mode, text, text
        self.form = mode if mode in ("gen", "copy") else "calls"
        self.end = text.count(b"\n") + 1
        self.calls = self.room = 0
        self.made = None
        if mode == "check":
            divided = re.search(rb"^%%$", text, re.MULTILINE)
            self.is_divided = divided is not None
            self.script = text[: divided.start()] if divided else text
            self.end = self.script.count(b"\n") + 1

    def first_fault(self):
        """The first fault, or none."""
        if len(self.text) > BYTES:
            return Fault("too long", f"the input has more than {BYTES} bytes", f"at most {BYTES} bytes")
        if self.mode == "check" and not self.is_divided:
            return self.undivided()
        lines, line = lines_of(self.script), None
        try:
            for read in (self.version, self.map, *self.head()):
                line = next(lines, None)
                self.judge(line, read)
            if self.form == "gen":
                line = next(lines, None)
                if line:
                    self.judge(line, self.behind)
                return None
            # (which may begin a phase whatever else is wrong with it)
            self.last_phase = self.find_last_phase() if self.form == "copy" else 0
            self.reader, self.phases = Calls(self.made, self.number), 0
            for line in self.body_lines(line.number):
                self.judge(line, self.body)
        except Fault as fault:
            return self.placed(fault, line)
        return None

    def head(self):
        return {"gen": (self.generator,), "copy": (self.target,), "calls": ()}[self.form]

    def body_lines(self, number):
        """The lines behind this one that aren't calls in the common form; those are counted."""
        common = self.form == "calls" and self.mode != "compare"
        for at, raw in enumerate(self.script.split(b"\n")[number:], number + 1):
            room = self.reader.is_common(raw) if common else None
            if room is not None and self.calls < CALLS and self.room + room <= REPLIES:
                self.calls, self.room = self.calls + 1, self.room + room
            elif raw.split(b"#", 1)[0].strip(b" \t\r"):
                yield Line(at, raw)

    def judge(self, line, read):
        self.read, self.line_number = read, line.number if line else self.end
        if line and line.bad is not None:
            raise byte_fault(line)
        read(line.tokens if line else None)

    def placed(self, fault, line):
        """The fault with its line, what the program says of it, and the line that would be right."""
        if not fault.said.startswith(("map refused: ", "compare: ")):
            cause = fault.said or self.cause
            fault.said = f"line {line.number if line else self.end}: {cause}"
        fault.line = line
        fault.at = fault.at or 0
        if fault.nearest is None and fault.mended:
            fault.nearest = self.mended_line(fault.mended)
        return fault

    def mended_line(self, tokens):
        """The tokens, with what else is wrong with them mended too, where that leads to a line that is right."""
        saved = dict(vars(self))
        try:
            for _ in range(8):
                try:
                    self.read(tokens)
                    return " ".join(tokens)
                except Fault as fault:
                    if not fault.mended or fault.mended == tokens:
                        return None
                    tokens = fault.mended
            return None
        finally:
            vars(self).update(saved)

    # The lines of a script.

    def version(self, tokens):
        self.cause = "version"
        versions = {"gen": ["1"], "copy": ["2"], "calls": ["1", "2"]}[self.form]
        expected = " or ".join(f"`bpfmap {version}`" for version in versions)
        right = ["bpfmap", versions[0]]
        if tokens is None:
            what = "the script is empty" if self.script.strip() == b"" else "no line of the script says anything"
            raise Fault("", what, f"{expected} as the first line", right)
        if len(tokens) == 2 and tokens[0] == "bpfmap" and tokens[1] in versions:
            self.number = int(tokens[1])
            return
        if tokens[0] in ("map", "gen", "target") or len(tokens) > 1 and is_number(tokens[0]) and tokens[1] in VERBS:
            raise Fault("", "the version line is missing before this one", expected, nearest=f"bpfmap {'2' if self.form == 'copy' else '1'}, before it", at=0,
                        is_advice=True)
        if tokens[0] != "bpfmap":
            told = f"`{shown(tokens[0])}` stands where the version line begins"
            raise Fault("", told, expected, right if nearest(tokens[0], ["bpfmap"]) else None, 0)
        if len(tokens) < 2:
            raise Fault("", "the line ends where the version stands", expected, right, 1)
        if tokens[1] in ("1", "2") and len(tokens) == 2:
            told = f"mode {self.mode} reads scripts of version {versions[0]}, and this is one of version {tokens[1]}"
            raise Fault("", told, expected, right, 1)
        if tokens[1] not in versions:
            raise Fault("", f"there is no version `{shown(tokens[1])}`", expected, ["bpfmap", "1" if "1" in versions and tokens[1] < "2" else versions[-1]], 1)
        raise Fault("", f"`{shown(tokens[2])}` stands behind the version", expected, tokens[:2], 2)

    def map(self, tokens):
        self.cause = "map"
        if tokens is None:
            raise Fault("", "the script ends before its map line", f"`{MAP.text}`", "map hash key 4 value 8 max 1024 cpus 1".split())
        kind, said, places = MAP.read(tokens)
        self.made = Made(kind, said)
        refusal(self.made, tokens, places)

    def target(self, tokens):
        self.cause = "target"
        if tokens is None:
            raise Fault("", "the script ends before its target line", f"`{TARGET.text}`", f"target {self.made.kind} max {self.made.max} count 128".split())
        if tokens[0] not in ("target", "gen") and (is_number(tokens[0]) or tokens[0] == "phase"):
            raise Fault("", "the target line is missing before this one: mode copy copies into that map", f"`{TARGET.text}`",
                        nearest=f"target {self.made.kind} max {self.made.max} count 128, before it", at=0, is_advice=True)
        kind, said, places = TARGET.read(tokens)
        if ("percpu" in kind) != self.made.per_cpu:
            alike = [name for name in KINDS if ("percpu" in name) == self.made.per_cpu]
            raise Fault("", f"`{kind}` has {'a value for each CPU' if 'percpu' in kind else 'one value'}, and the map's kind `{self.made.kind}` "
                        f"{'has one value' if 'percpu' in kind else 'one for each CPU'}", f"a kind alike: {listed(alike)}", replaced(tokens, 1, alike[kind.startswith('lru_')]), 1)
        if not 1 <= said["count"] <= 65536:
            raise Fault("", f"`count {said['count']}` is no number of pairs that a read asks for", "1 to 65536",
                        replaced(tokens, places["count"], "1" if said["count"] < 1 else "65536"), places["count"])
        made = self.made
        refusal(Made(kind, said | {"key": made.key, "value": made.value, "cpus": made.cpus}), tokens, places, "target")

    def generator(self, tokens):
        self.cause = "gen"
        made = self.made
        if tokens is None:
            raise Fault("", "the script ends before its generator line", f"`{GENERATOR.text}`", "gen seed 1 calls 1000 keys 100 mix 0".split())
        if tokens[0] in ("phase", "target") or is_number(tokens[0]) and len(tokens) > 1 and tokens[1] in VERBS:
            mode = "copy" if tokens[0] == "target" else "serial or race"
            raise Fault("", f"mode gen reads a generator line here; {'this' if tokens[0] == 'target' else 'calls'} {'is' if tokens[0] == 'target' else 'are'} read by mode {mode}",
                        f"`{GENERATOR.text}`", nearest=f"mode {mode}", at=0, is_advice=True)
        _, said, places = GENERATOR.read(tokens)
        all_keys = 256 ** min(made.key, 4)
        limits = (("calls", 1, min(CALLS, REPLIES // made.value)), ("keys", 1, min(1000000, all_keys - 1)), ("mix", 0, 1))
        for label, least, most in limits:
            if not least <= said[label] <= most:
                why = f": the values of all calls have at most {REPLIES} bytes" if label == "calls" and most < CALLS else \
                    f": there are {all_keys} keys of {made.key} byte{'' if made.key == 1 else 's'}" if label == "keys" and most < 1000000 else ""
                raise Fault("", f"`{label} {said[label]}` is out of range", f"{least} to {most}{why}",
                            replaced(tokens, places[label], str(min(max(said[label], least), most))), places[label])

    def behind(self, tokens):
        raise Fault("gen", "no line may follow the generator line", "the end of the script", at=0)

    def body(self, tokens):
        if self.number > 1 and tokens[0] == "phase":
            if len(tokens) > 1:
                raise Fault("extra", f"`{shown(tokens[1])}` stands behind `phase`", "the end of the line", ["phase"], 1)
            if self.phases >= PHASES - 1:
                raise Fault("phases", f"this line would start the phase {PHASES + 1} of the script", f"at most {PHASES} phases, so {PHASES - 1} lines `phase`", at=0)
            self.phases += 1
            return
        verb, room = self.reader.read(tokens)
        if self.calls >= CALLS:
            raise Fault("calls", f"this is call {self.calls + 1}", f"at most {CALLS} calls", at=0)
        if self.room + room > REPLIES:
            raise Fault("room", f"with this call the replies may have {self.room + room} bytes", f"at most {REPLIES} bytes", at=0)
        if self.form == "copy" and int(tokens[0]) == 0 and self.line_number > self.last_phase:
            raise Fault("copier", "CPU 0 copies beside the calls of the last phase, and this is one of its own there",
                        "a call of another CPU, or a line `phase` behind it", replaced(tokens, 0, "1") if self.made.cpus > 1 else None, 0,
                        nearest=None if self.made.cpus > 1 else "`phase` as a line behind the last call", is_advice=self.made.cpus == 1)
        self.calls, self.room = self.calls + 1, self.room + room

    def find_last_phase(self):
        """The number of the last line behind the target line that begins with `phase`."""
        found = list(re.finditer(rb"^[ \t\r]*phase(?=[ \t\r#]|$)", self.script, re.MULTILINE))
        return self.script.count(b"\n", 0, found[-1].end()) + 1 if found else 0

    # What isn't compared, and what isn't divided.

    def not_compared(self):
        """Why mode compare doesn't compare a script that has no fault, or none."""
        if self.made.kind != "lru_hash":
            lines = lines_of(self.script)
            next(lines)
            line = next(lines)
            return self.placed(Fault("compare: kind", f"`{self.made.kind}` isn't compared with strict recency", "`lru_hash`",
                                     replaced(line.tokens, 1, "lru_hash"), 1), line)
        call = 0
        for line in list(lines_of(self.script))[2:]:
            if self.number > 1 and line.tokens[0] == "phase":
                continue
            call += 1
            if line.tokens[1] not in COMPARED:
                return self.placed(Fault(f"compare: call {call}", f"`{line.tokens[1]}` isn't compared with strict recency", listed(COMPARED), at=1), line)
        return None

    def undivided(self):
        near = next((line for line in lines_of(self.text) if line.tokens and set(line.tokens[0]) == {"%"}), None)
        told = "no line is `%%`, behind which the report would stand"
        fault = Fault("record line 1", told if near is None else "this line isn't just `%%`, behind which the report would stand",
                      "the script, a line `%%`, and its report with --history and --dump")
        fault.line, fault.at, fault.nearest = near, 0, "%%" if near else None
        return fault


def explain(text, mode):
    """The first fault of a script in a mode, or why it isn't compared; and how many calls were read."""
    reading = Reading(text, mode)
    fault = reading.first_fault()
    if fault is None and mode == "compare":
        fault = reading.not_compared()
    return fault, reading


def mode_of(text):
    """The mode that reads scripts of this form."""
    rows = [line.tokens[:1] for _, line in zip(range(3), lines_of(text))]
    return {"gen": "gen", "target": "copy"}.get((rows[2:] or [[""]])[0][0] if rows[2:] and rows[2] else "", "serial")
