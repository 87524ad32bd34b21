#!/usr/bin/env python3
"""Brings the names of this repository's own definitions and lemmas to today's spelling.

usage: python3 tools/respell.py [FOLDER]      over FOLDER/crates (default: the repository of this script), once, after the kit's port.py

Definitions and fields are in snake case. In a lemma's name a dash joins two names, as in length-octets; a plain word is added by an
underscore. A lemma that would have the name of its definition ends in _lem. Only .antt and .rt files are turned, and no comment; none of
the names below is a function's, or stands in a string.
"""

import os
import re
import sys

# Definitions, fields and local names: only the spelling of the words.
PLAIN = """
blockOctets bytesAlone charOf digitOf digitsOf digitsValue elementOctets elementShown faultNumber floatShown headerOf headerShown inFront
kindOfElement messageOf octetsOf oneSpelled pairsOf patternOf patternSpelled rayOctets rayShown raySpelled readShown shownOf spelledAs
spelledOf tweakOctets tweakShown twoSpelled unsignedOf verbName verbOf
extended-by pieces-in resident-at resident-len valid-bytes not-a-number
bytes-behind front-buffer rest-buffer rest-bytes same-handles two-parts written-before
apart-index apart-thickness apart-tilt capped-if capped-unsigned char-ascii count-here count-later count-more count-one decides-as
decides-index decides-not-tilt decides-thickness decides-tilt digit-back field-parts field-read field-whole filled-some fills-ok
first-before first-behind first-here first-later first-none first-octet first-pair from-capped from-none front-and-rest front-none
head-there header-back height-of index-minus-zero index-spelled inf-is is-pattern joined-front last-map lays-as lays-ok mapped-more
message-refused message-unspelled message-written more-digits nan-of no-blank no-fit no-head no-number-is no-piece no-ray
no-single no-slab no-tilt none-counted none-moved none-of-run normal-is not-whole number-back
numeral-more numeral-none octets-4 octets-8 octets-above octets-back octets-fit octets-same one-here one-there other-buffer pair-at
pairs-back pairs-odd parsed-unsigned part-3 passes-by past-blank path-of pattern-back pattern-nan pattern-ways pieces-first pieces-last
plays-none plays-verb pos-256 pow-16 pow-16-pos ray-decides ray-message ray-parts ray-whole read-digit read-front
read-numeral read-stop reads-index reads-thickness reads-tilt removed-outside rest-stays same-content set-outside signed-plain size-most
sized-fit some-less some-other spelled-some split-3 surface-of tail-unparted take-both take-front thickness-one thickness-spelled
tilt-first tilt-second tilt-spelled torn-ray unreturned-none unreturned-plain value-4 value-8 value-back value-lt whole-ray
word-of-pairs zeros-are
""".split()

# Two names that a dash joins, a name that would fall together with another, and a name that follows one of the library's.
OTHERS = {
    "length-octetsOf": "length-octets_of",
    "length-rayOctets": "length-ray_octets",
    "length-tweakOctets": "length-tweak_octets",
    "length-message": "length-message_of",
    "fields-of": "fields_of_lem",
    "pattern-of": "pattern_of_lem",
    "nan-bits": "to_bits-nan",
    "nth-map": "slice_get-map",
    "nth-outside": "slice_get_outside",
    "nth-within": "slice_get_within",
    "ray-spelled": "ray_octets_spelled",
    "ofZ-lt": "of_z-lt",
}


def snake(name):
    words = re.sub(r"(?<=[a-z0-9])([A-Z])", lambda m: "_" + m.group(1).lower(), name) if "-" not in name else name
    return words.replace("-", "_")


NAMES = {name: snake(name) for name in PLAIN} | OTHERS
OLD = re.compile(r"(?<![\w'-])(" + "|".join(re.escape(n) for n in sorted(NAMES, key=len, reverse=True)) + r")(?![\w'-])")


def turned(line):
    """A line with its names respelled, up to where a comment begins."""
    comment = re.search(r"--( |$)|//", line)
    end = comment.start() if comment else len(line)
    return OLD.sub(lambda m: NAMES[m.group(1)], line[:end]) + line[end:]


def main():
    top = sys.argv[1] if len(sys.argv) > 1 else os.path.join(os.path.dirname(os.path.abspath(__file__)), "..")
    twice = sorted(n for n in set(NAMES.values()) if list(NAMES.values()).count(n) > 1)
    if twice:
        raise SystemExit("these fall together: " + ", ".join(twice))
    files_turned = 0
    for folder, dirs, files in os.walk(os.path.join(top, "crates")):
        dirs[:] = sorted(d for d in dirs if d not in ("out", "must-fail"))
        for name in sorted(files):
            if not name.endswith((".rt", ".antt")):
                continue
            path = os.path.join(folder, name)
            with open(path, encoding="utf-8") as f:
                text = f.read()
            new = "\n".join(turned(line) for line in text.split("\n"))
            if new != text:
                files_turned += 1
                with open(path, "w", encoding="utf-8") as f:
                    f.write(new)
    print(f"respell: {len(NAMES)} names, {files_turned} files turned")


if __name__ == "__main__":
    main()
