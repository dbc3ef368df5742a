"""Keys by their fields, as `saddr:4:be,daddr:4:be,sport:2:be,dport:2:be,proto:1`, and the forms in which a key is given."""
import ipaddress
import re

NAME = re.compile("[A-Za-z_][A-Za-z0-9_]*")
ORDERS = ("be", "le", "hex", "ip")
# A comment of a script that says which fields its keys have.
COMMENT = re.compile(r"^[ \t\r]*#[ \t]*fields[ \t]+(\S+)[ \t\r]*$", re.MULTILINE)


class Wrong(Exception):
    """What is wrong with fields, or with a key, in one line."""


class Field:
    def __init__(self, text):
        name, *rest = text.split(":")
        if not NAME.fullmatch(name) or len(rest) not in (1, 2):
            raise Wrong(f"the field {text!r} isn't NAME:SIZE or NAME:SIZE:ORDER")
        if not (rest[0].isascii() and rest[0].isdigit() and 1 <= int(rest[0]) <= 512):
            raise Wrong(f"the field {text!r}: the size {rest[0]!r} isn't from 1 to 512")
        self.name, self.size = name, int(rest[0])
        order = rest[1] if rest[1:] else "le" if self.size in (1, 2, 4, 8) else "hex"
        if order not in ORDERS:
            raise Wrong(f"the field {text!r}: the order {order!r} is none of {', '.join(ORDERS)}")
        if order == "ip" and self.size not in (4, 16):
            raise Wrong(f"the field {text!r}: an address has 4 or 16 bytes")
        # (an address in network order reads as one)
        is_address = order == "be" and self.size in (4, 16) and name.lower().endswith(("addr", "ip"))
        self.order = "ip" if is_address else order

    def told(self, part):
        if self.order == "hex":
            return part.hex()
        if self.order == "ip":
            return str(ipaddress.ip_address(part))
        return str(int.from_bytes(part, "big" if self.order == "be" else "little"))

    def bytes_of(self, text):
        wrong = Wrong(f"the field {self.name}: {text!r} isn't one of {self.size} byte{'s' * (self.size > 1)}, {self.order}")
        try:
            if self.order == "hex":
                part = bytes.fromhex(text.removeprefix("0x"))
            elif self.order == "ip":
                part = ipaddress.ip_address(text).packed
            else:
                part = int(text, 0).to_bytes(self.size, "big" if self.order == "be" else "little")
        except (ValueError, OverflowError):
            raise wrong from None
        if len(part) != self.size:
            raise wrong
        return part


class Fields:
    def __init__(self, text):
        self.text = text
        self.fields = [Field(part) for part in text.split(",")]
        names = [field.name for field in self.fields]
        again = next((name for name in names if names.count(name) > 1), None)
        if again:
            raise Wrong(f"the field {again} stands twice")
        self.size = sum(field.size for field in self.fields)

    def check(self, size):
        if self.size != size:
            raise Wrong(f"the fields have {self.size} bytes, and the map's keys {size}")

    def told(self, key):
        """A key in hexadecimal digits by its fields; as it is where it has another size."""
        whole, parts, at = bytes.fromhex(key), [], 0
        if len(whole) != self.size:
            return key
        for field in self.fields:
            parts.append(f"{field.name}={field.told(whole[at : at + field.size])}")
            at += field.size
        return ",".join(parts)

    def key(self, text):
        """The digits of a key that is given by its fields, with their names or in their order."""
        given = [part.strip() for part in text.split(",")]
        if len(given) != len(self.fields):
            raise Wrong(f"the key {text!r} has {len(given)} fields, and there are {len(self.fields)}")
        named = [part.partition("=")[::2] if "=" in part else (field.name, part) for part, field in zip(given, self.fields)]
        other = next((name for (name, _), field in zip(named, self.fields) if name != field.name), None)
        if other:
            raise Wrong(f"the key {text!r}: {other} stands in the place of another field")
        return b"".join(field.bytes_of(value) for field, (_, value) in zip(self.fields, named)).hex()


def of_script(given, text):
    """The fields that were asked for, else those that a comment of the script names, else none."""
    found = None if given else COMMENT.search(text)
    return Fields(given or found[1]) if given or found else None


def digits_of(text, fields=None):
    """The digits of a key: two for each byte, with 0x before all or before each byte, or bytes with blanks or commas between
    them, as bpftool shows and takes them; or by its fields."""
    plain = text.strip()
    if fields and (("=" in plain) or ("," in plain and not plain.startswith(("[", "0x")))):
        return fields.key(plain)
    words = [word for word in re.split(r"[\s,\"'\[\]]+", re.sub(r"^(key:?|hex)\s+", "", plain, flags=re.IGNORECASE)) if word]
    if len(words) > 1:
        return "".join(byte_of(word, text) for word in words)
    word = words[0] if words else ""
    is_one = word.lower().startswith("0x") and len(word) == 3
    digits = byte_of(word, text) if is_one else re.sub("^0[xX]", "", word).lower()
    if len(digits) % 2 or not digits or set(digits) - set("0123456789abcdef"):
        raise Wrong(f"the key {text.lower()!r} isn't in hexadecimal digits, two for each byte")
    return digits


def byte_of(word, text):
    if not re.fullmatch("0[xX][0-9a-fA-F]{1,2}|[0-9a-fA-F]{2}", word):
        raise Wrong(f"the key {text!r}: {word!r} is no byte, as 1f or 0x1f")
    return re.sub("^0[xX]", "", word).lower().zfill(2)


def naming(fields, size):
    """A function that names the keys in a line of text: behind the word key, or in a list behind keys. A line of a history
    stays as it is."""
    digits = f"[0-9a-f]{{{2 * size}}}(?![0-9a-f])"
    listed = re.compile(rf"\bkeys? {digits}(?:(?:, | and | \.\. ){digits})*")
    one, raw = re.compile(rf"(?<![0-9a-f]){digits}"), re.compile(r"\d+ \d+ \d+ [a-z]")

    def name(line):
        if raw.match(line):
            return line
        return listed.sub(lambda found: one.sub(lambda key: fields.told(key[0]), found[0]), line)

    return name
