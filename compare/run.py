#!/usr/bin/env python3
"""Plays random scripts in the program and in second.py, and compares what they print line by line.

    run.py BINARY [--first S] [--seeds N] [--lines M] [--rust HEADER]...

BINARY is the program `wapytoi`. Each HEADER is a build of compare/rust: it is asked for the headers that the program
reads and writes in the same scripts. Ends with status 1 at the first difference.
"""
import argparse
import pathlib
import subprocess
import sys

sys.dont_write_bytecode = True  # leaves no files beside the programs
import scripts
import second

SECOND = [sys.executable, str(pathlib.Path(__file__).resolve().parent / "second.py")]


class Difference(Exception):
    """Two programs say different things; the text tells which and where."""


def play(command, script):
    """What the command prints, as lines, and its status."""
    done = subprocess.run(command, input=script, stdout=subprocess.PIPE, stderr=subprocess.PIPE)
    lines = done.stdout.split(b"\n")
    # Each line ends with a newline, so the last piece is empty.
    if lines.pop():
        lines.append(b"(a line without its end)")
    return lines, done.returncode


def answers(command, script):
    lines, status = play(command, script)
    if status != 0:
        raise Difference("%s ended with status %d behind %d answers" % (command[-1], status, len(lines)))
    return lines


def speaks(line):
    """Whether a line of a script prints anything."""
    parts = second.words(line)
    return bool(parts) and not parts[0].startswith(b"#")


def at(lines, place):
    return lines[place] if place < len(lines) else b"(nothing)"


def show(seed, lines, place, ours, theirs):
    """The first difference, with its line."""
    spoken = [(count, line) for count, line in enumerate(lines, 1) if speaks(line)]
    count, line = spoken[place] if place < len(spoken) else (len(lines), b"(behind the last line)")
    printed = at(ours, place).decode("utf-8", "replace"), at(theirs, place).decode("utf-8", "replace")
    return "seed %d, line %d: %r\n  program: %s\n  second: %s" % (seed, count, line, *printed)


def compare_second(seed, lines, ours):
    theirs = answers(SECOND, scripts.text(seed, lines))
    for place in range(max(len(ours), len(theirs))):
        if at(ours, place) != at(theirs, place):
            raise Difference(show(seed, lines, place, ours, theirs))


def questions(lines, ours):
    """What to ask the Rust: the question, what the program says, and the script's line."""
    asked = []
    for line, printed in zip(filter(speaks, lines), ours):
        parts = second.words(line)
        said = printed.split(b" ", 1)[1] if b" " in printed else b""
        if said == b"unreadable" or said.startswith(b"refused"):
            continue
        if parts[0] == b"read":
            asked.append((b"header.read " + parts[1], said, line))
        if parts[0] == b"message":
            c, s, lo, hi, seqno = (second.unsigned(word) for word in parts[1:6])
            numbers = b"%d %d %d %d %d %d" % (c, s, lo, hi, len(said) // 2 - second.HEADER, seqno)
            asked.append((b"header.write " + numbers, said[: 2 * second.HEADER], line))
            asked.append((b"header.read " + said, numbers, line))
    return asked


def is_known(question, ours, theirs):
    """The known difference: the header's 48 bytes and its length sum up to 2^64 or more. Ours is absent; the Rust wraps
    and gives the header, or panics, by its build."""
    verb, data = question.split(b" ", 1)
    if verb != b"header.read" or len(data) < 2 * second.HEADER or ours != b"absent":
        return False
    fields = [int(data[place : place + 16], 16) for place in range(0, 2 * second.HEADER, 16)]
    return fields[4] >= scripts.WRAP and theirs in (b"panic", b"%d %d %d %d %d %d" % tuple(fields))


def compare_rust(rust, seed, lines, ours, counts):
    asked = questions(lines, ours)
    theirs = answers([rust], b"".join(question + b"\n" for question, _, _ in asked))
    if len(theirs) != len(asked):
        raise Difference("%s: %d answers to %d questions" % (rust, len(theirs), len(asked)))
    for (question, said, line), found in zip(asked, theirs):
        if said == found:
            counts[question.split(b" ")[0]] += 1
        elif is_known(question, said, found):
            counts[b"panic" if found == b"panic" else b"wrapped"] += 1
        else:
            form = "seed %d, line %r\n  asked: %s\n  program: %s\n  rust: %s"
            raise Difference(form % (seed, line, question.decode(), said.decode(), found.decode()))


def main():
    parser = argparse.ArgumentParser()
    parser.add_argument("binary")
    parser.add_argument("--first", type=int, default=1, help="the first seed")
    parser.add_argument("--seeds", type=int, default=20)
    parser.add_argument("--lines", type=int, default=2000)
    parser.add_argument("--rust", action="append", default=[], help="a build of compare/rust; may be given again")
    given = parser.parse_args()

    total = spoken = 0
    counts = {rust: dict.fromkeys((b"header.read", b"header.write", b"wrapped", b"panic"), 0) for rust in given.rust}
    try:
        for seed in range(given.first, given.first + given.seeds):
            lines = scripts.script(seed, given.lines)
            ours = answers([given.binary], scripts.text(seed, lines))
            compare_second(seed, lines, ours)
            total, spoken = total + len(lines), spoken + len(ours)
            for rust in given.rust:
                compare_rust(rust, seed, lines, ours, counts[rust])
            print("seed %d: %d lines, %d answers, no difference" % (seed, len(lines), len(ours)), flush=True)
    except Difference as difference:
        print("DIFFERENCE\n%s" % difference)
        sys.exit(1)
    print("second: %d seeds, %d lines, %d answers compared, no difference" % (given.seeds, total, spoken))
    for rust, count in counts.items():
        read, written, wrapped, panics = count.values()
        print("rust %s: %d headers read and %d written, no difference" % (rust, read, written))
        print("  known difference, counted apart: %d headers where the sum wrapped, %d panics" % (wrapped, panics))


if __name__ == "__main__":
    main()
