"""A script with the report of its run. A history is split by its locks, and a line is read in full only when a question needs it."""
import bisect
import collections
import os
import pathlib
import subprocess
import sys

TOP = pathlib.Path(__file__).resolve().parents[1]
sys.path.append(str(TOP / "judge"))
from asked import Asked, generated
from reports import RECORDS, Unlawful, Words, need, number, read_entry, read_lock, read_phase
from scripts import PHASES, is_phase, read_call, read_script, read_version

# What the tool ends with, beside 0.
SCRIPT, WORDS, READ, REPORT, KEY, CALL, PROGRAM, WRITE = range(1, 9)
# How many lines stand in the place of the replies in mode gen, from `calls` to `present`.
SUMMARY = 10
BROKEN = (ValueError, IndexError, KeyError, TypeError, ZeroDivisionError, Unlawful)


class Problem(Exception):
    """Why a question has no answer: the tool's status, and a line that says what is wrong and where."""

    def __init__(self, status, text):
        super().__init__(text)
        self.status = status


def read_text(path, status, encoding):
    """What is in the file, or on standard input where there is no path."""
    name = path or "standard input"
    try:
        return (pathlib.Path(path).read_bytes() if path else sys.stdin.buffer.read()).decode(encoding)
    except OSError as why:
        raise Problem(READ, f"{name}: can't be read: {why.strerror}") from None
    except UnicodeDecodeError as why:
        raise Problem(status, f"{name}: byte {why.start + 1} is no text") from None


class Script:
    def __init__(self, path):
        self.name = path or "standard input"
        # (a comment may have any byte)
        self.text = read_text(path, SCRIPT, "latin-1")
        rows = [(at, words) for at, line in enumerate(self.text.split("\n"), 1) if (words := line.split("#")[0].split())]
        self.rows = rows
        self.is_generator = len(rows) > 2 and rows[2][1][0] == "gen"

    def read(self):
        """The map, each call with its words, or none where a line stands for them, and where phases begin."""
        try:
            self.version = read_version(self.rows[0][1])
            need(self.version == 1 or not self.is_generator, "a generator line of version 2")
            self.made = read_script("\n".join(" ".join(words) for _, words in self.rows[:2])).made
            made = self.made
            self.head = f"map {made.kind} capacity {made.capacity} elements {made.elements} buckets {made.buckets}"
        except BROKEN:
            form = "doesn't begin with a line `bpfmap 1` or `bpfmap 2` (which has no generator line) and a map line"
            raise Problem(SCRIPT, f"{self.name}: it {form}") from None
        self.calls, self.words = (None, None) if self.is_generator else ([], [])
        # How many calls stand before each line `phase`.
        self.cuts = []
        for at, words in self.rows[2:] if self.calls is not None else []:
            try:
                if is_phase(self.version, words):
                    self.cuts.append(len(self.calls))
                    need(len(self.cuts) < PHASES, "too many phases")
                    continue
                self.calls.append(read_call(words))
                need(self.calls[-1].cpu < self.made.cpus, "the CPU")
                need(self.version > 1 or self.calls[-1].verb != "each", "a verb of version 2")
            except BROKEN:
                is_start = self.version > 1 and words[0] == "phase"
                what = f"start of one of {PHASES} phases" if is_start else "call"
                raise Problem(SCRIPT, f"{self.name}: line {at}: it is no {what}") from None
            self.words.append(" ".join(words))

    def phase_of(self, call):
        """The phase of the call with this number."""
        return bisect.bisect_left(self.cuts, call)


def run(script, mode):
    """The report of a run of the program."""
    program = os.environ.get("BPFMAP") or str(TOP / "bpfmap")
    mode = mode or ("gen" if script.is_generator else "serial")
    words, text = [program, mode, "--history", "--dump"], script.text.encode("latin-1")
    try:
        done = subprocess.run(words, input=text, stdout=subprocess.PIPE)
    except OSError as why:
        raise Problem(PROGRAM, f"{program}: can't be run: {why.strerror}") from None
    said = done.stdout.decode("ascii", "replace")
    if done.returncode in (1, 6, 7) and said.startswith("bpfmap: "):
        why = said.strip().removeprefix("bpfmap: ")
        raise Problem(SCRIPT, f"{script.name}: the program refuses it in mode {mode}: {why}")
    if done.returncode or not said.startswith("map "):
        raise Problem(PROGRAM, f"{program}: it gave no report, and ended with status {done.returncode}")
    return said


class Kept:
    def __init__(self, script, text, name):
        script.read()
        self.script, self.made, self.name = script, script.made, name
        self.refuse_if(not text.endswith("\nend\n"), 'it is no whole report in lines, which ends with the line "end"')
        lines = text.split("\n")[:-2]
        self.refuse_if(lines[0] != script.head, f"line 1: it is a report of another map, and not of {script.name}")
        begin = self.read_replies(lines)
        line = "".join(lines[begin : begin + 1])
        self.refuse_if(not line.startswith("record"), "it has no history: keep it with --history --dump")
        record = RECORDS[script.version]
        self.refuse_if(line != record, f"line {begin + 1}: its history is of another version than `{record}`")
        try:
            self.read_history(lines, begin + 1)
        except BROKEN as why:
            raise Problem(REPORT, f"{name}: its history is broken: {why}") from None
        self.check_buckets()
        self.by_call = None

    def refuse_if(self, is_wrong, what):
        if is_wrong:
            raise Problem(REPORT, f"{self.name}: {what}")

    def read_replies(self, lines):
        """Where the replies end."""
        if self.script.is_generator:
            self.replies = None
            is_summary = len(lines) > SUMMARY and lines[1].startswith("calls ") and lines[SUMMARY].startswith("present ")
            self.refuse_if(not is_summary, "line 2: it is no report of a generator's script")
            self.count = int(lines[1].split(" ")[1])
            self.summary = {name: int(count) for name, count in (line.split(" ") for line in lines[2:SUMMARY - 1])}
            return 1 + SUMMARY
        self.count = len(self.script.calls)
        self.replies = [line.partition(" ")[2] for line in lines[1 : 1 + self.count]]
        begins = (line.partition(" ")[0] for line in lines[1 : 1 + self.count])
        wrong = next((at for at, begin in enumerate(begins, 1) if begin != str(at)), None)
        wrong = wrong or (len(lines) if len(lines) <= self.count else None)
        self.refuse_if(wrong, f"line {(wrong or 0) + 1}: it isn't the reply to call {wrong} of {self.script.name}")
        more = "".join(lines[1 + self.count : 2 + self.count])
        self.refuse_if(more[:1].isdigit(), f"line {2 + self.count}: it has a reply more than {self.script.name} has calls")
        return 1 + self.count

    def read_history(self, lines, at):
        """Of each lock the number of its first line in the report, and its lines."""
        self.histories = {}
        while at < len(lines) and lines[at].startswith("lock "):
            words = Words(lines[at].removeprefix("lock "))
            lock, count = read_lock(words), words.number()
            own = lines[at + 1 : at + 1 + count]
            is_well = lock not in self.histories and len(own) == count and all(line[:1].isdigit() for line in own)
            need(is_well, f"line {at + 1} names a lock twice, or not as many entries as it says")
            self.histories[lock] = (at + 2, own)
            at += 1 + count
        at = self.read_phases(lines, at)
        need(at < len(lines) and lines[at].startswith("strand "), f"line {at + 1} is neither a lock's nor a strand's")
        # Of each phase, how many strands have a step.
        strands = collections.Counter()
        while at < len(lines) and lines[at].startswith("strand "):
            words = lines[at].split(" ")
            count = number(words[-1])
            strands[int(words[1]) if self.script.version > 1 else 0] += count > 0
            at += 1 + count
        need(at == len(lines) or lines[at][:3] != "at ", f"line {at + 1} is a step too many")
        # The phases in which turns of several CPUs were made at once, and whether there are any.
        self.raced = {phase for phase, count in strands.items() if count > 1}
        self.is_race = bool(self.raced)
        self.dump = lines[at:]

    def read_phases(self, lines, at):
        """The ticket at which each phase starts. A script of version 1 is one phase, of which no line tells."""
        self.starts = [0] if self.script.version == 1 else []
        while self.script.version > 1 and at < len(lines) and lines[at].startswith("phase "):
            self.starts.append(read_phase(lines[at], len(self.starts)).ticket)
            at += 1
        phases = len(self.script.cuts) + 1
        need(len(self.starts) == phases, f"line {at + 1}: it has {len(self.starts)} phases, and the script {phases}")
        return at

    def start(self, call):
        """The ticket at which the phase of the call begins."""
        return self.starts[self.script.phase_of(call)]

    def is_raced(self, call):
        """Whether turns of several CPUs were made at once in the phase of the call."""
        return self.script.phase_of(call) in self.raced

    def check_buckets(self):
        """Refuses a report whose buckets' turns aren't of the script's calls, or name an element that the map lacks."""
        made, script = self.made, self.script
        asked = Asked(generated(made, *map(int, script.rows[2][1][2::2]))[0] if script.is_generator else script.calls)
        for lock, (first, lines) in self.histories.items():
            for at, line in enumerate(lines if lock[0] == "bucket" else (), first):
                words = line.split(" ")
                try:
                    wrong = asked.wrong(int(words[1]), int(words[2]), *call_words(words))
                    most = max(elements_of(words), default=0)
                except BROKEN:
                    raise Problem(REPORT, f"{self.name}: line {at}: it is no turn of a bucket") from None
                self.refuse_if(wrong, f"line {at}: {wrong}")
                self.refuse_if(most >= made.elements, f"line {at}: it names element {most}, and the map has {made.elements}")

    def lines(self, lock):
        return self.histories.get(lock, (0, []))[1]

    def entry(self, lock, index):
        first, lines = self.histories[lock]
        try:
            return read_entry(lock, lines[index])
        except Unlawful as why:
            raise Problem(REPORT, f"{self.name}: line {first + index}: {why}") from None

    def between(self, lock, low, high):
        """The indices of a lock's entries whose tickets are above low, and below high where there is one."""
        lines = self.lines(lock)
        first = bisect.bisect_right(lines, low, key=self.ticket)
        return range(first, len(lines) if high is None else bisect.bisect_left(lines, high, key=self.ticket))

    def before(self, lock, ticket):
        """The ticket of the lock's entry before the one with this ticket, or -1."""
        lines = self.lines(lock)
        at = bisect.bisect_left(lines, ticket, key=self.ticket)
        return self.ticket(lines[at - 1]) if at else -1

    def ticket(self, line):
        try:
            return int(line[: line.index(" ")])
        except ValueError:
            raise Problem(REPORT, f"{self.name}: a line of the history has no ticket: {line[:40]}") from None

    def of_call(self, call):
        """What a call did: each lock with its entry, by tickets."""
        if self.by_call is None:
            self.by_call = collections.defaultdict(list)
            for lock, (_, lines) in self.histories.items():
                for index, line in enumerate(lines):
                    self.by_call["".join(line.split(" ", 3)[2:3])].append((lock, index))
        found = [(lock, self.entry(lock, index)) for lock, index in self.by_call.get(str(call), ())]
        return sorted(found, key=lambda pair: pair[1].ticket)

    def raw(self, lock, entry):
        lines = self.lines(lock)
        return lines[bisect.bisect_left(lines, entry.ticket, key=self.ticket)]

    def told(self, call):
        """The call as the script has it; of a generator's call what its entries tell."""
        if self.script.words is not None:
            return self.script.words[call - 1]
        last = [pair for pair in self.of_call(call) if pair[0][0] == "bucket"][-1]
        words = self.raw(*last).split(" ")
        cpu, verb = words[1], words[3]
        if verb == "update":
            return f"{cpu} update any {words[6]} {words[7]}"
        return f"{cpu} {verb} {words[5 if verb == 'lookup' else 4]}"

    def errors(self):
        """How many calls answered each error. (A batch that stopped has that error.)"""
        if self.replies is None:
            return collections.Counter(dict(list(self.summary.items())[1:]))
        named = collections.Counter(reply.partition(" ")[0] for reply in self.replies)
        del named["ok"]
        return named

    def answer(self, call):
        return None if self.replies is None else self.replies[call - 1]


def call_words(words):
    """The verb, the key and the value of its call that the line of a bucket's turn names, where it does."""
    verb = words[3]
    if verb == "update":
        return verb, words[6], words[7]
    return (verb, words[5 if verb == "lookup" else 4]) if verb in ("lookup", "delete", "take", "next") else ()


def elements_of(words):
    """The elements that the line of a bucket's turn names."""
    verb = words[3]
    if verb == "walk":
        return [int(word.partition(":")[0]) for word in words[8:]]
    named = {"lookup": words[7:8], "update": words[9:], "delete": words[6:7], "take": words[6:7], "evict": words[4:5]}
    return [int(word) for word in named.get(verb, ()) if word.isdigit()]
