#!/usr/bin/env python3
"""The fixed list rust-answers.txt: what the Rust says to some headers.

    answers.py make HEADER      asks HEADER, the release build of compare/rust, and prints the list
    answers.py check BINARY     asks BINARY, the program `wapytoi`, and compares it with the list
"""
import pathlib
import subprocess
import sys

FILE = pathlib.Path(__file__).resolve().parent / "rust-answers.txt"
WRAP = 2**64 - 48
TOP = """\
# What MessageHeader::try_read of timely_communication 0.31.0 answers, in a release build on 64 bits.
# Made from the repository's root, behind the build that compare/README.md tells, by
#     python3 compare/answers.py make compare/rust/target/release/header > compare/rust-answers.txt
# A line is HEX -> absent, or HEX -> C S LO HI LENGTH SEQNO. HEX is `-` for no byte."""
DIFFERING = """\
# DIFFERING. Here 48 + LENGTH is 2^64 or more. The Rust's sum wraps, and it gives a header; the program does not wrap,
# and answers absent. Each line begins with the word `differs`."""


def header(c, s, lo, hi, length, seqno):
    return b"".join(number.to_bytes(8, "big") for number in (c, s, lo, hi, length, seqno))


def filler(count):
    """Bytes that differ from one another."""
    return bytes((17 * place + 161) % 256 for place in range(count))


def equal_cases():
    """Bytes to which the Rust and the program must say the same."""
    cases = []
    # The closing header, and others of no payload.
    closing = bytes(48)
    cases += [closing, closing[:47], closing + b"\x00", closing * 2]
    cases += [header(1, 2, 3, 4, 0, 6), header(2**64 - 1, 2**64 - 1, 2**64 - 1, 2**64 - 1, 0, 2**64 - 1)]
    # Whole, short by one, and with one byte behind.
    for size in (1, 2, 11, 19, 29, 80):
        whole = header(5, 0, 0, 1, size, 7) + filler(size)
        cases += [whole, whole[:-1], whole + b"\xff"]
    # Cut anywhere in the header, and behind it.
    whole = header(0x0102030405060708, 9, 10, 11, 3, 12) + filler(3)
    cases += [whole[:place] for place in (0, 1, 7, 8, 39, 40, 47, 48, 49)]
    # Bounds in each field that is no length.
    for place in (0, 1, 2, 3, 5):
        for number in (2**32, 2**63, 2**64 - 1):
            fields = [0, 0, 0, 0, 1, 0]
            fields[place] = number
            cases.append(header(*fields) + b"\x5a")
    # Big lengths whose sum stays below 2^64.
    for size in (256, 2**16, 2**31, 2**32 - 48, 2**32, 2**63 - 48, 2**63, WRAP - 2, WRAP - 1):
        cases.append(header(1, 2, 3, 4, size, 6) + filler(20))
    cases += [header(1, 2, 3, 4, 2**32, 6), header(0, 0, 0, 0, WRAP - 1, 0), header(1, 2, 3, 4, WRAP, 6)[:47]]
    cases.append(b"\xff" * 47)
    return cases


def differing_cases():
    """Bytes where the Rust's sum wraps."""
    cases = [header(1, 2, 3, 4, size, 6) for size in (WRAP, WRAP + 1, WRAP + 47)]
    cases += [header(1, 2, 3, 4, size, 6) + filler(20) for size in (WRAP, WRAP + 20, WRAP + 47)]
    cases += [header(0, 0, 0, 0, WRAP, 0), b"\xff" * 48, b"\xff" * 96]
    return cases


def ask(command, verb, words):
    """The answers, one for each word of bytes."""
    script = "".join("%s %s\n" % (verb, word) for word in words)
    done = subprocess.run([command], input=script, stdout=subprocess.PIPE, text=True, check=True)
    return done.stdout.splitlines()


def make(rust):
    for top, mark, cases in ((TOP, "", equal_cases()), (DIFFERING, "differs ", differing_cases())):
        words = [case.hex() or "-" for case in cases]
        print(top)
        for word, said in zip(words, ask(rust, "header.read", words), strict=True):
            print("%s%s -> %s" % (mark, word, said))


def check(binary):
    wanted = []
    for line in FILE.read_text().splitlines():
        if not line.startswith("#"):
            differs, line = line.startswith("differs "), line.removeprefix("differs ")
            word, said = line.split(" -> ")
            wanted.append((word, "read absent" if differs else "read " + said))
    found = ask(binary, "read", [word for word, _ in wanted])
    for (word, said), printed in zip(wanted, found, strict=True):
        if said != printed:
            sys.exit("DIFFERENCE\nread %s\n  wanted: %s\n  program: %s" % (word, said, printed))
    print("rust-answers.txt: %d lines, no difference" % len(wanted))


if __name__ == "__main__":
    if len(sys.argv) != 3 or sys.argv[1] not in ("make", "check"):
        sys.exit("usage: answers.py make HEADER | check BINARY")
    (make if sys.argv[1] == "make" else check)(sys.argv[2])
