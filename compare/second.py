#!/usr/bin/env python3
"""A second program for the script language of docs/SCRIPT.md.

It is written from docs/FORMATS.md, docs/ANSWERS.md and docs/SCRIPT.md alone: it reads a script on standard input and
prints one line for each action. Everything is handled as bytes, since a script need not be text.

An element is a tuple that begins with its word:
("ray", surface, height, path), ("thickness", bits), ("tilt", bits, bits), ("index", bits), ("block", bytes).
"""
import sys

MOST_32 = 2**32 - 1
MOST_64 = 2**64 - 1
LEAST_SIGNED = -(2**63)
MOST_SIGNED = 2**63 - 1
HEADER = 48
BLOCK = 96
NAN = 0x7FF8000000000000
INFINITY = 0x7FF0000000000000
HEX = frozenset(b"0123456789abcdef")

PAYLOAD_LENGTH = 6
NO_VALUE = 14

# Each tweak: its tag, its word, how many floats it has.
TWEAKS = ((0x10, "thickness", 1), (0x11, "tilt", 2), (0x12, "index", 1))


class Unreadable(Exception):
    """The line has not the form of its verb."""


class Refused(Exception):
    """The call is refused by a number."""

    def __init__(self, number):
        super().__init__(number)
        self.number = number


# Words of a line.


def words(line):
    """The words of a line. Only the space separates; a tab is part of a word, a carriage return at the end of none."""
    line = line[:-1] if line.endswith(b"\r") else line
    return [word for word in line.split(b" ") if word]


def number(word, low, high):
    """A decimal number from low to high. A sign may stand only where the number can be negative."""
    digits = word[1:] if word.startswith(b"-") and low < 0 else word
    if not digits.isdigit():  # of bytes: the ten ASCII digits only, and at least one
        raise Unreadable
    # Twenty-one digits with no zero in front are over every bound, so the rest need not be read.
    value = int(digits.lstrip(b"0")[:21] or b"0")
    if word.startswith(b"-"):
        value = -value
    if not low <= value <= high:
        raise Unreadable
    return value


def unsigned(word):
    return number(word, 0, MOST_64)


def signed(word):
    return number(word, LEAST_SIGNED, MOST_SIGNED)


def octets(word):
    """Pairs of lowercase hexadecimal digits, `-` for none."""
    if word == b"-":
        return b""
    if len(word) % 2 or not HEX.issuperset(word):
        raise Unreadable
    return bytes.fromhex(word.decode("ascii"))


def is_nan(bits):
    return bits & MOST_SIGNED > INFINITY


def floating(word):
    """Sixteen hexadecimal digits; each not-a-number becomes the one pattern."""
    if len(word) != 16 or not HEX.issuperset(word):
        raise Unreadable
    bits = int(word, 16)
    return NAN if is_nan(bits) else bits


def element_of(parts):
    """The element that the words spell. A block may be too long here: that is refused, not unreadable."""
    forms = {
        b"ray": ("ray", (lambda word: number(word, 0, MOST_32), signed, signed)),
        b"thickness": ("thickness", (floating,)),
        b"tilt": ("tilt", (floating, floating)),
        b"index": ("index", (floating,)),
        b"block": ("block", (octets,)),
    }
    if not parts or parts[0] not in forms:
        raise Unreadable
    name, fields = forms[parts[0]]
    if len(parts) != 1 + len(fields):
        raise Unreadable
    return (name, *(field(word) for field, word in zip(fields, parts[1:])))


# The wire.


def field(tag, content):
    """A house field: tag, length, content."""
    return bytes([tag]) + len(content).to_bytes(2, "big") + content


def payload_of(element):
    """The octets of an element."""
    name = element[0]
    if name == "block":
        return element[1]
    if name == "ray":
        return (
            field(1, element[1].to_bytes(4, "big"))
            + field(2, element[2].to_bytes(8, "big", signed=True))
            + field(3, element[3].to_bytes(8, "big", signed=True))
        )
    tag = next(tag for tag, word, _ in TWEAKS if word == name)
    return field(tag, b"".join(bits.to_bytes(8, "big") for bits in element[1:]))


def read_ray(data):
    tags = data[:3], data[7:10], data[18:21]
    if len(data) != 29 or tags != (b"\x01\x00\x04", b"\x02\x00\x08", b"\x03\x00\x08"):
        raise Refused(NO_VALUE)
    surface = int.from_bytes(data[3:7], "big")
    height = int.from_bytes(data[10:18], "big", signed=True)
    path = int.from_bytes(data[21:29], "big", signed=True)
    return ("ray", surface, height, path)


def read_tweak(data):
    for tag, name, count in TWEAKS:
        if data[:3] == bytes([tag, 0, 8 * count]) and len(data) == 3 + 8 * count:
            floats = [int.from_bytes(data[at : at + 8], "big") for at in range(3, len(data), 8)]
            if any(is_nan(bits) and bits != NAN for bits in floats):
                raise Refused(NO_VALUE)
            return (name, *floats)
    raise Refused(NO_VALUE)


def read_block(data):
    if len(data) > BLOCK:
        raise Refused(NO_VALUE)
    return ("block", data)


def read_header(data):
    """The six numbers, or None where header and payload are not all there. The sum does not wrap."""
    if len(data) < HEADER:
        return None
    numbers = [int.from_bytes(data[at : at + 8], "big") for at in range(0, HEADER, 8)]
    return numbers if len(data) >= HEADER + numbers[4] else None


# What is printed.


def hexadecimal(data):
    return data.hex() or "-"


def spelled(element):
    name = element[0]
    if name == "ray":
        return " ".join(str(part) for part in element)
    if name == "block":
        return "block " + hexadecimal(element[1])
    return " ".join([name] + ["%016x" % bits for bits in element[1:]])


# The verbs. Each gets the words behind the verb and gives what is printed behind it.


def play_message(parts):
    if len(parts) < 6:
        raise Unreadable
    channel, source, lower, upper, seqno = (unsigned(word) for word in parts[:5])
    payload = payload_of(element_of(parts[5:]))
    if not payload:
        raise Refused(PAYLOAD_LENGTH)
    # Rays and tweaks are shorter than a block may be, so this judges blocks only.
    if len(payload) > BLOCK:
        raise Refused(NO_VALUE)
    header = (channel, source, lower, upper, len(payload), seqno)
    return hexadecimal(b"".join(value.to_bytes(8, "big") for value in header) + payload)


def play_read(parts):
    if len(parts) != 1:
        raise Unreadable
    numbers = read_header(octets(parts[0]))
    return "absent" if numbers is None else " ".join(str(value) for value in numbers)


def play_element(parts):
    readers = {b"ray": read_ray, b"tweak": read_tweak, b"block": read_block}
    if len(parts) != 2 or parts[0] not in readers:
        raise Unreadable
    return spelled(readers[parts[0]](octets(parts[1])))


VERBS = {b"message": play_message, b"read": play_read, b"element": play_element}


def answer(line):
    """What a line prints, or None where it is passed over."""
    parts = words(line)
    if not parts or parts[0].startswith(b"#"):
        return None
    if parts[0] not in VERBS:
        return "unreadable"
    verb = parts[0].decode("ascii")
    try:
        return verb + " " + VERBS[parts[0]](parts[1:])
    except Unreadable:
        return verb + " unreadable"
    except Refused as refusal:
        return "%s refused %d" % (verb, refusal.number)


def main():
    for line in sys.stdin.buffer:
        printed = answer(line[:-1] if line.endswith(b"\n") else line)
        if printed is not None:
            sys.stdout.write(printed + "\n")


if __name__ == "__main__":
    main()
