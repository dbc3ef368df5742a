"""What bpftool -j map show and bpftool -j map dump write."""
import json
import re

import limits
from limits import Stop

BYTE = re.compile("0x[0-9a-fA-F]{1,2}")
# Flags that no reply of the program depends on, and why each can be left out.
DROPPED = {
    4: ("BPF_F_NUMA_NODE", "where the memory lies changes no reply"),
    8: ("BPF_F_RDONLY", "here the system call may write"),
    16: ("BPF_F_WRONLY", "here the system call may read"),
    128: ("BPF_F_RDONLY_PROG", "here programs may write"),
    256: ("BPF_F_WRONLY_PROG", "here programs may read"),
}
KEPT = limits.NO_COMMON_LRU | limits.ZERO_SEED


def wrong(path, place, cause):
    raise Stop(limits.INPUT, f"{path}: {place}: {cause}")


def parsed(path, text):
    try:
        told = json.loads(text)
    except json.JSONDecodeError as why:
        hint = ", as bpftool writes without -j" if re.match(r"key|\d+: ", text.lstrip()) else ""
        wrong(path, f"line {why.lineno}", f"this is no JSON{hint} ({why.msg})")
    except (RecursionError, ValueError):
        wrong(path, "line 1", "this JSON is nested too deep, or has a number that is too long")
    if isinstance(told, dict) and "error" in told:
        wrong(path, "error", f"bpftool told an error: {told['error']}")
    return told


def is_of(entry, reference):
    """Whether the map of this entry is the one that is meant."""
    word, name = reference
    if word == "pinned":
        return isinstance(entry.get("pinned"), list) and name in entry["pinned"]
    return str(entry.get(word)) == name


def called(entry):
    """What a map is called in a line of text: its id, else its name, else where it is pinned."""
    word = next((word for word in ("id", "name", "pinned") if entry.get(word)), None)
    if not word:
        return "without a name"
    name = entry[word][0] if isinstance(entry[word], list) else entry[word]
    return f"{word} {ascii(str(name))[1:-1]}"


def one_map(path, told, reference):
    """The entry of the map that is meant, of one or of a list."""
    entries = told if isinstance(told, list) else [told]
    for place, entry in enumerate(entries):
        if not isinstance(entry, dict):
            wrong(path, f"map {place + 1}", "this is no object, as bpftool -j map show writes for each map")
    found = [entry for entry in entries if not reference or is_of(entry, reference)]
    if len(found) == 1:
        return found[0]
    if not entries:
        wrong(path, "map 1", "there is no map")
    names = ", ".join(called(entry) for entry in (found or entries)[:8])
    cause = f"{len(found)} maps ({names}): choose one by --map" if found else f"it is not among {names}"
    wrong(path, " ".join(reference or ("map",)), cause)


def number(path, entry, field, low=0):
    value = entry.get(field)
    if type(value) is not int or not low <= value <= 4294967295:
        wrong(path, f"map {called(entry)}: {field}", "it is not there" if value is None else
              f"{json.dumps(value)[:60]} is no whole number from {low} to 4294967295")
    return value


def flags_of(path, entry, say):
    """The flags that the program knows. Some are left out, which is told; others are refused."""
    flags = number(path, entry, "flags") if "flags" in entry else 0
    place = f"{path}: map {called(entry)}: flags"
    if flags & limits.NO_PREALLOC:
        raise Stop(limits.REFUSED, f"{place}: BPF_F_NO_PREALLOC (1) is refused: the program has only maps whose "
                   "elements all exist from creation")
    for flag, (name, why) in DROPPED.items():
        if flags & flag:
            say(f"flags: {name} ({flag}) is left out: {why}")
    other = flags & ~sum(DROPPED) & ~KEPT
    if other:
        raise Stop(limits.REFUSED, f"{place}: {other} is refused: the program doesn't know this flag of a hash map")
    return flags & KEPT


def hash_map(path, entry, say):
    """The map, on CPUs that are not known yet."""
    kind = entry.get("type")
    if kind is None:
        wrong(path, f"map {called(entry)}: type", "it is not there")
    if kind not in limits.KINDS:
        raise Stop(limits.REFUSED, f"{path}: map {called(entry)}: type: {kind} is none of {', '.join(limits.KINDS)}")
    sizes = [number(path, entry, field) for field in ("bytes_key", "bytes_value", "max_entries")]
    if entry.get("frozen"):
        say("frozen is left out: here the system call may write")
    return limits.Map(kind, *sizes, 1, flags_of(path, entry, say))


class Dump:
    """The keys of a dump in its order, each with its value as the system call writes it; and for how many CPUs."""

    def __init__(self, path, told, entry, table, say):
        self.path, self.table, self.cpus, self.entries = path, table, None, {}
        gone = again = 0
        for place, element in enumerate(self.elements(told, entry)):
            self.place = f"element {place + 1}"
            if not isinstance(element, dict):
                self.wrong("", "this is no object with a key and a value")
            key = self.bytes_of(element.get("key"), "key", table.key)
            told_value = element.get("values" if table.per_cpu else "value", element.get("value"))
            if isinstance(told_value, dict) and "error" in told_value:
                gone += 1
                continue
            # (the later one of two is kept, at its place)
            again += self.entries.pop(key, None) is not None
            self.entries[key] = self.values(told_value) if table.per_cpu else self.value(told_value)
        if gone:
            say(f"keys with an error in the place of a value: {gone}. They went during the dump, and are left out")
        if again:
            say(f"keys that come again: {again}. The map was written during the dump. The later value is taken")

    def wrong(self, field, cause):
        wrong(self.path, f"{self.place}: {field}" if field else self.place, cause)

    def elements(self, told, entry):
        """The elements: a list of them, or in an object with the map's header, alone or in a list of such."""
        each_told = told if isinstance(told, list) else [told]
        maps = [each for each in each_told if isinstance(each, dict) and "elements" in each]
        if maps:
            told = one_map(self.path, maps, ("id", str(entry["id"])) if "id" in entry else None)["elements"]
        if not isinstance(told, list):
            wrong(self.path, "elements", "this is no list, as bpftool -j map dump writes")
        return told

    def bytes_of(self, told, field, size):
        if told is None:
            self.wrong(field, "it is not there")
        if not isinstance(told, list):
            self.wrong(field, 'this is no list of bytes as "0x1f". Was the dump made without -j?')
        for place, byte in enumerate(told):
            if not (isinstance(byte, str) and BYTE.fullmatch(byte)):
                self.wrong(field, f'byte {place + 1} is {json.dumps(byte)[:60]} and not as "0x1f"')
        if len(told) != size:
            self.wrong(field, f"{len(told)} bytes, and the map has {size}")
        return "".join(byte[2:].lower().zfill(2) for byte in told)

    def value(self, told):
        return self.bytes_of(told, "value", self.table.value)

    def values(self, told):
        """The values of all CPUs, each in a field of a multiple of 8 bytes."""
        if not isinstance(told, list) or not told:
            self.wrong("values", "this is no list with a value for each CPU" if told is not None else "it is not there")
        fields = []
        for cpu, each in enumerate(told):
            if not isinstance(each, dict) or each.get("cpu") != cpu:
                self.wrong("values", f"place {cpu + 1} has no object with \"cpu\" {cpu}")
            value = self.bytes_of(each.get("value"), f"value of CPU {cpu}", self.table.value)
            fields.append(value + "00" * (-self.table.value % 8))
        if self.cpus not in (None, len(told)):
            self.wrong("values", f"{len(told)} CPUs, and there were {self.cpus} before")
        self.cpus = len(told)
        return "".join(fields)
