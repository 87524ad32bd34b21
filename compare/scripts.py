#!/usr/bin/env python3
"""Makes random scripts: `scripts.py SEED COUNT` prints COUNT lines. The same seed gives the same script.

Most lines have the form of their verb, with numbers, floats and lengths at their bounds; the others are bad in one
place, or end with a carriage return. The last line of an odd seed ends without a newline.
"""
import random
import sys

WRAP = 2**64 - 48  # the first length whose sum with the header's 48 bytes leaves 64 bits

EDGES = [0, 1, 2, 9, 10, 255, 256, 2**31 - 1, 2**31, 2**32 - 1, 2**32, 2**53, 2**63 - 1, 2**63, 2**63 + 1]
EDGES += [WRAP - 1, WRAP, 2**64 - 2, 2**64 - 1, 2**64, 2**64 + 1, 2**65, 10**20, 10**30]
EDGES += [-edge for edge in EDGES if edge]
EDGES += [-(2**63) - 1, -(2**31) - 1]

FLOATS = [
    0x0000000000000000, 0x8000000000000000,  # zeros
    0x0000000000000001, 0x8000000000000001, 0x000FFFFFFFFFFFFF, 0x800FFFFFFFFFFFFF,  # subnormal
    0x0010000000000000, 0x8010000000000000, 0x7FEFFFFFFFFFFFFF, 0xFFEFFFFFFFFFFFFF,  # least and most normal
    0x3FF0000000000000, 0xBFF0000000000000, 0x3F50624DD2F1A9FC,
    0x7FF0000000000000, 0xFFF0000000000000,  # infinities
    0x7FF8000000000000, 0xFFF8000000000000, 0x7FF8000000000001, 0xFFF8000000000001,  # quiet not-a-numbers
    0x7FF0000000000001, 0xFFF0000000000001, 0x7FF7FFFFFFFFFFFF, 0xFFF7FFFFFFFFFFFF,  # signalling ones
    0x7FF4000000000000, 0x7FF0000000000100, 0x7FFFFFFFFFFFFFFF, 0xFFFFFFFFFFFFFFFF,
]

LENGTHS = [0, 1, 2, 11, 19, 29, 47, 48, 49, 94, 95, 96, 97, 98]

# One byte of these is put into a line that was good, or a whole character where it is not ASCII.
SPOILERS = [bytes([code]) for code in range(256) if code != 10]
SPOILERS += [text.encode() for text in ("é", "ß", "０", "٣", "−", "\u00a0", "\u2003", "\u0085", "\u2028", "𝟙")]

STRANGE = """
message
read
element
message message
unreadable
Message 0 0 0 1 7 block 00
READ 00
read: 00
reads 00
rea 00
header 00
- 00
-
--
0
00
ray 0 0 0
read - -
read --
read -00
read 00-
read 0x00
read 00,00
read 0_0
read "00"
read #00
read 00 # no comment
element ray
element lens 00
element Ray 00
element thickness 1000083ff0000000000000
element tilt -
element ray ray 00
element block - -
element block 00 00
element tweak -
element ray -
element block -
message 0 0 0 1 7
message 0 0 0 1 7 lens 00
message 0 0 0 1 7 tweak 1000083ff0000000000000
message 0 0 0 1 7 block
message 0 0 0 1 7 block -
message 0 0 0 1 7 block - -
message 0 0 0 1 7 thickness -
message 0 0 0 1 7 thickness 1.0
message 0 0 0 1 7 thickness 3ff000000000000
message 0 0 0 1 7 thickness 3ff00000000000000
message 0 0 0 1 7 thickness -ff0000000000000
message 0 0 0 1 7 thickness 0x3ff00000000000
message 0 0 0 1 7 tilt 3ff0000000000000
message 0 0 0 1 7 index 3ff0000000000000 3ff0000000000000
message 0 0 0 1 7 ray 0 0
message 0 0 0 1 7 ray 0 0 0 0
message 0 0 0 1 7 ray 0 -0 -000
message 0 0 0 1 7 ray 0 - 0
message 0 0 0 1 7 ray 0 --1 0
message 0 0 0 1 7 ray 0 +1 0
message 0 0 0 1 7 ray 0 1- 0
message 0 0 0 1 7 ray 0 -+1 0
message +1 0 0 1 7 block 00
message 1_0 0 0 1 7 block 00
message 1e3 0 0 1 7 block 00
message 0x1 0 0 1 7 block 00
message 1.0 0 0 1 7 block 00
message 1,0 0 0 1 7 block 00
message a 0 0 1 7 block 00
message - 0 0 1 7 block 00
message 0 0 0 1 block 00
message 0 0 0 1 7 7 block 00
grüße an alle
読む 00
read ００
read é
message ٣ 0 0 1 7 block 00
message 0 0 0 1 7 ray 0 −5 0
message 0 0 0 1 7 block éé
#
# a comment
#read 00
   # a comment behind blanks
# Kommentar mit Umlaut: ä
""".strip("\n").encode().split(b"\n")
STRANGE += [b"\xff", b"# \xff\xfe", b"read \xff", b"read\xff00", b"\x80read 00", b"read 00 \xc3", b"read 00\r\r"]
STRANGE += [b"message -0 0 0 1 7 block 00", b"message 0 0 0 1 7 ray -0 -0 -0", b"message 0 0 0 1 7 ray 0 -0 -00"]


# Parts of lines. Each takes the source of chance first.


def value(rnd, low, high):
    """A number from low to high, often at a bound."""
    if rnd.random() < 0.6:
        return rnd.choice([edge for edge in EDGES if low <= edge <= high])
    size = 2 ** rnd.randint(0, 64)
    return min(max(rnd.randint(-size if low < 0 else 0, size), low), high)


def number(rnd, low, high):
    """The word of a number: mostly in its bounds, at times with zeros in front."""
    if rnd.random() < 0.025:
        figure = rnd.choice([low - 1, high + 1, rnd.choice([edge for edge in EDGES if not low <= edge <= high])])
    else:
        figure = value(rnd, low, high)
    zeros = rnd.choice([0] * 12 + [1, 2, 19, 20, 60])
    return (b"-" if figure < 0 else b"") + b"0" * zeros + b"%d" % abs(figure)


def pattern(rnd):
    """The bits of a float."""
    kind = rnd.randrange(6)
    if kind < 3:
        return rnd.choice(FLOATS)
    if kind == 3:
        return rnd.getrandbits(64)
    if kind == 4:  # infinite, or not a number
        return rnd.getrandbits(1) << 63 | 0x7FF << 52 | rnd.getrandbits(52) & rnd.getrandbits(52)
    return rnd.getrandbits(1) << 63 | rnd.getrandbits(52)  # subnormal or zero


def length(rnd):
    return rnd.choice(LENGTHS) if rnd.random() < 0.8 else rnd.randint(0, 300)


def octets(rnd, count):
    return rnd.getrandbits(8 * count).to_bytes(count, "big") if count else b""


def spelled(data):
    return data.hex().encode() or b"-"


def element_words(rnd):
    """The words of an element."""
    kind = rnd.choice([b"ray", b"ray", b"thickness", b"tilt", b"index", b"block", b"block"])
    if kind == b"block":
        return [kind, spelled(octets(rnd, length(rnd)))]
    if kind == b"ray":
        return [kind, number(rnd, 0, 2**32 - 1)] + [number(rnd, -(2**63), 2**63 - 1) for _ in range(2)]
    return [kind] + [b"%016x" % pattern(rnd) for _ in range(2 if kind == b"tilt" else 1)]


def element_bytes(rnd, kind):
    """Octets that are a value of the kind, a float that is not a number aside."""
    if kind == b"ray":
        return (
            b"\x01\x00\x04" + value(rnd, 0, 2**32 - 1).to_bytes(4, "big")
            + b"\x02\x00\x08" + value(rnd, -(2**63), 2**63 - 1).to_bytes(8, "big", signed=True)
            + b"\x03\x00\x08" + value(rnd, -(2**63), 2**63 - 1).to_bytes(8, "big", signed=True)
        )
    if kind == b"tweak":
        tag, count = rnd.choice([(0x10, 1), (0x11, 2), (0x12, 1)])
        floats = b"".join(pattern(rnd).to_bytes(8, "big") for _ in range(count))
        return bytes([tag, 0, 8 * count]) + floats
    return octets(rnd, length(rnd))


def damaged(rnd, data):
    """The bytes with one of them changed."""
    if not data:
        return b"\x00"
    place = rnd.randrange(len(data))
    # Often the tag or the length, which stand in front.
    if rnd.random() < 0.4:
        place = rnd.randrange(min(3, len(data)))
    return data[:place] + bytes([data[place] ^ rnd.randint(1, 255)]) + data[place + 1 :]


# Lines.


def message_line(rnd):
    numbers = [number(rnd, 0, 2**64 - 1) for _ in range(5)]
    return b" ".join([b"message"] + numbers + element_words(rnd))


def header(rnd, size):
    fields = [value(rnd, 0, 2**64 - 1) for _ in range(6)]
    fields[4] = size
    return b"".join(field.to_bytes(8, "big") for field in fields)


def read_bytes(rnd):
    """Bytes that a header is read from."""
    count = length(rnd)
    payload = octets(rnd, count)
    form = rnd.randrange(10)
    if form == 0:  # whole
        return header(rnd, count) + payload
    if form <= 2:  # cut anywhere
        data = header(rnd, count) + payload
        return data[: rnd.randint(0, len(data))]
    if form == 3:  # short by one
        return (header(rnd, count) + payload)[:-1]
    if form == 4:  # bytes behind
        return header(rnd, count) + payload + octets(rnd, rnd.randint(1, 60))
    if form == 5:  # a length that is one off
        return header(rnd, max(0, count + rnd.choice([-1, 1]))) + payload
    if form == 6:  # lengths where the sum leaves 64 bits, and next to them
        size = rnd.choice([WRAP - 1, WRAP, rnd.randint(WRAP - 8, 2**64 - 1)])
        return (header(rnd, size) + payload)[: rnd.choice([47, 48, 49, 48 + count, 48 + count])]
    if form == 7:  # other big lengths
        return header(rnd, value(rnd, 0, 2**64 - 1)) + payload
    if form == 8:  # anything of about a header's size
        return octets(rnd, rnd.randint(40, 56))
    if rnd.random() < 0.05:  # long ones
        size = rnd.randint(1000, 20000)
        return header(rnd, size + rnd.randint(-1, 1)) + octets(rnd, size)
    # small numbers in every field
    return b"".join(rnd.randint(0, 60).to_bytes(8, "big") for _ in range(6)) + payload


def read_line(rnd):
    return b"read " + spelled(read_bytes(rnd))


def element_line(rnd):
    kind = rnd.choice([b"ray", b"tweak", b"tweak", b"block"])
    form = rnd.randrange(8)
    data = element_bytes(rnd, rnd.choice([b"ray", b"tweak", b"block"]) if form == 0 else kind)
    if form <= 1:
        data = damaged(rnd, data)
    elif form == 2:
        data = data[:-1]
    elif form == 3:
        data = data + octets(rnd, 1)
    return b" ".join([b"element", kind, spelled(data)])


def good_line(rnd):
    return rnd.choice([message_line, read_line, element_line])(rnd)


def wrong_count(rnd):
    """A word dropped, doubled or moved."""
    parts = good_line(rnd).split(b" ")
    place = rnd.randrange(len(parts))
    form = rnd.randrange(4)
    if form == 0:
        del parts[place]
    elif form == 1:
        parts.insert(place, parts[place])
    elif form == 2:
        parts.append(rnd.choice([b"0", b"-", b"00", b"#"]))
    else:
        other = rnd.randrange(len(parts))
        parts[place], parts[other] = parts[other], parts[place]
    return b" ".join(parts)


def wrong_word(rnd):
    """A plus sign, uppercase or odd digits, or a word with something in front or behind."""
    parts = good_line(rnd).split(b" ")
    place = rnd.randrange(1, len(parts))
    word = parts[place]
    changes = [b"+" + word, word.upper(), word[:-1], word + b"0", b"0x" + word, b"-" + word, word + b"-", b"0" + word]
    changes += [b"\t" + word, word + b"\t", word + b",", b'"' + word + b'"', word.title()]
    parts[place] = rnd.choice(changes)
    return b" ".join(parts)


def wrong_blank(rnd):
    """A tab or another character where a blank should be, or no blank at all."""
    parts = good_line(rnd).split(b" ")
    place = rnd.randrange(1, len(parts))
    others = [b"\t", b" \t", b"\t ", b"\x0b", b"\x0c", b"\x00", b",", b"", "\u00a0".encode(), "\u3000".encode()]
    between = rnd.choice(others)
    return b" ".join(parts[:place]) + between + b" ".join(parts[place:])


def many_blanks(rnd):
    """Blanks in front, behind and between: the line stays good."""
    parts = good_line(rnd).split(b" ")
    spaced = b" " * rnd.randint(0, 3)
    for part in parts:
        spaced += part + b" " * rnd.randint(1, 4)
    return spaced if rnd.random() < 0.5 else spaced.rstrip(b" ")


def one_byte(rnd):
    """A good line with one byte changed, put in or taken out."""
    line = good_line(rnd)
    place = rnd.randrange(min(len(line), 120))
    form = rnd.randrange(3)
    if form == 0:
        return line[:place] + line[place + 1 :]
    return line[:place] + rnd.choice(SPOILERS) + line[place + (form == 1) :]


def quiet(rnd):
    """A line that prints nothing."""
    return rnd.choice([b"", b" ", b"     ", b"#", b"# " + good_line(rnd), b"  #" + good_line(rnd)])


def strange(rnd):
    return rnd.choice(STRANGE)


BAD = [wrong_count, wrong_word, wrong_blank, many_blanks, one_byte, quiet, strange]


def line_of(rnd):
    """One line; some end with a carriage return."""
    line = good_line(rnd) if rnd.random() < 0.7 else rnd.choice(BAD)(rnd)
    return line + b"\r" if rnd.random() < 0.02 else line


def script(seed, count):
    """The lines of the script."""
    rnd = random.Random(seed)
    return [line_of(rnd) for _ in range(count)]


def text(seed, lines):
    """The script as one run of bytes."""
    return b"\n".join(lines) + (b"\n" if lines and seed % 2 == 0 else b"")


if __name__ == "__main__":
    if len(sys.argv) != 3:
        sys.exit("usage: scripts.py SEED COUNT")
    sys.stdout.buffer.write(text(int(sys.argv[1]), script(int(sys.argv[1]), int(sys.argv[2]))))
