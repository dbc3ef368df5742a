"""A file for bpftool batch: which of its lines are calls on one map. Words may be cut short as bpftool has it."""
import re

import limits
from bpftool_json import called, is_of
from limits import Stop

# (in bpftool's order: of several words that begin alike the first one is meant)
OBJECTS = "help batch prog map link cgroup perf net feature btf gen struct_ops iter version".split()
COMMANDS = ("show list help dump update lookup getnext delete pin event_pipe peek push enqueue pop dequeue freeze "
            "create").split()
CALLS = {"update": "sysupdate", "lookup": "syslookup", "delete": "delete", "getnext": "next"}
SILENT = ("show", "list", "help", "dump", "pin", "event_pipe")
FLAGS = ("any", "noexist", "exist")
WORD = re.compile("""'([^']*)'|"([^"]*)"|(\\S+)""")
NUMBER = {0: re.compile("0[xX][0-9a-fA-F]+|0[0-7]*|[1-9][0-9]*"), 16: re.compile("(0[xX])?[0-9a-fA-F]+")}


def whole(word, words):
    """The whole word that is meant by its beginning."""
    return next((each for each in words if word and each.startswith(word)), None)


class Line:
    """The words of a line, taken one after another."""

    def __init__(self, path, number, words):
        self.path, self.number, self.words, self.at = path, number, words, 0

    def wrong(self, cause, status=limits.INPUT):
        raise Stop(status, f"{self.path}: line {self.number}: {cause}")

    def take(self, what):
        if self.at == len(self.words):
            self.wrong(f"the line ends where {what} must stand")
        self.at += 1
        return self.words[self.at - 1]

    def more(self):
        return self.at < len(self.words)

    def number_of(self, what, base, top):
        word = self.take(what)
        if not NUMBER[base].fullmatch(word):
            self.wrong(f"{what}: '{word[:60]}' is no {'hexadecimal ' if base else ''}number")
        octal = base == 0 and word.isdigit() and word.startswith("0")
        number = int(word, 8 if octal else base)
        if number > top:
            self.wrong(f"{what}: {word[:60]} is more than {top}")
        return number

    def bytes_of(self, field, size):
        """So many bytes behind the word key or value: of hex digits behind the word hex, else numbers."""
        base = 0
        if self.more() and "hex".startswith(self.words[self.at]):
            base, self.at = 16, self.at + 1
        places = (f"byte {place + 1} of {size} of the {field}" for place in range(size))
        return bytes(self.number_of(place, base, 255) for place in places).hex()

    def reference(self):
        word = self.take("id, name or pinned")
        if word not in ("id", "name", "pinned"):
            self.wrong(f"'{word[:60]}' stands where id, name or pinned must")
        return word, self.take(f"the {word} of a map")


def lines_of(path, text):
    """The lines that have words. One that ends with a backslash goes on in the next; from # on all is comment."""
    number = start = 0
    joined = ""
    for line in text.removesuffix("\n").split("\n"):
        number += 1
        start = start or number
        joined += line.split("#", 1)[0]
        if joined.endswith("\\"):
            joined = joined[:-1]
            continue
        words = ["".join(parts) for parts in WORD.findall(joined)]
        if words:
            yield Line(path, start, words)
        joined, start = "", 0
    if start:
        raise Stop(limits.INPUT, f"{path}: line {start}: it ends with a backslash, and no line follows")


class Batch:
    """The calls of a batch file on one map: the one that was shown, or one that the file creates."""

    def __init__(self, path, text, reference, entry, say):
        self.path, self.meant, self.entry, self.say = path, reference, entry, say
        self.where, self.calls, self.silent, self.others = path, [], [], 0
        for line in lines_of(path, text):
            self.read(line)

    def read(self, line):
        if whole(line.take("an object"), OBJECTS) != "map":
            self.silent.append(line.number)
            return
        word = line.take("a command")
        command = whole(word, COMMANDS)
        if command in SILENT:
            self.silent.append(line.number)
        elif command == "create":
            self.create(line)
        elif command not in CALLS:
            line.wrong(f"'map {word[:60]}' is no call on a hash map that the program has")
        elif self.is_meant(line, line.reference()):
            self.calls.append((line, command))

    def is_meant(self, line, reference):
        """Whether a line is of the map. Without --map all lines have to be."""
        told = " ".join(reference)
        if self.entry is None and (not self.meant or self.meant == reference):
            line.wrong(f"nothing tells the size of the map {told}: there is no --show, and no map create above")
        if self.entry is not None and is_of(self.entry, reference):
            return True
        if self.entry is not None and reference[0] == "pinned" and "pinned" not in self.entry:
            self.entry = {**self.entry, "pinned": [reference[1]]}
            self.say(f"{self.path}: line {line.number}: {told} is taken for the map that --show tells of")
            return True
        if not self.meant:
            line.wrong(f"the map {told} is another than {called(self.entry)}: choose one by --map")
        self.others += 1
        return False

    def create(self, line):
        """map create FILE type TYPE key N value N entries N name NAME [flags N]"""
        entry = {"pinned": [line.take("a path")]}
        sizes = {"key": "bytes_key", "value": "bytes_value", "entries": "max_entries", "flags": "flags"}
        while line.more():
            word = line.take("a field")
            field = whole(word, ("type", "name", *sizes))
            if field in sizes:
                entry[sizes[field]] = line.number_of(field, 0, 4294967295)
            elif field:
                entry[field] = line.take(f"the {field}")
            else:
                line.wrong(f"'{word[:60]}' is no field of map create that the program can have")
        if self.meant and not is_of(entry, self.meant):
            self.others += 1
        elif self.entry is not None:
            line.wrong(f"a map is created, and there is {called(self.entry)} already: choose one by --map")
        else:
            self.entry, self.where = entry, f"{self.path}: line {line.number}"

    def created(self):
        if self.entry is None:
            raise Stop(limits.WORDS, f"--show: {self.path} has no map create, so only --show can tell the map's sizes")
        return self.where, self.entry

    def write(self, script, cpu, scale=None):
        for line, command in self.calls:
            self.call(script, cpu, line, command, scale)
        if self.silent:
            self.say(f"{self.path}: lines that are no calls on keys are left out: {len(self.silent)}, the first is "
                     f"line {self.silent[0]}")
        if self.others:
            self.say(f"{self.path}: lines of other maps are left out: {self.others}")
        self.say(f"{self.path}: bpftool ends at the first line that fails; the script goes on")

    def call(self, script, cpu, line, command, scale):
        table, told = script.table, {}
        while line.more():
            word = line.take("a field")
            field = whole(word, ("key", "value")) or whole(word, FLAGS)
            if field in FLAGS and command == "update":
                field, told_now = "flag", field
            elif field == "key" or field == "value" and command == "update":
                told_now = line.bytes_of(field, table.key if field == "key" else table.value)
            else:
                line.wrong(f"'{word[:60]}' is left over, or is no field of map {command}")
            if field in told:
                line.wrong(f"the {field} stands twice")
            told[field] = told_now
        for field in ("key", "value")[:{"update": 2, "getnext": 0}.get(command, 1)]:
            if field not in told:
                line.wrong(f"the {field} is missing")
        if scale and "key" in told and not scale.has(told["key"]):
            scale.calls_left += 1
            return
        words = [told["key"]] if "key" in told else []
        if command == "update":
            padded = told["value"] + "00" * (-table.value % 8)
            words = [told.get("flag", "any"), *words, padded * table.cpus if table.per_cpu else told["value"]]
        script.call(cpu, CALLS[command], *words)
