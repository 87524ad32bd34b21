#!/usr/bin/env python3
"""Lists the places in crates/*/src where an older form may stand, by kind: places.py [1-8]; none: all, counts alone.

A line is a candidate and no verdict: docs/DESIGN-PASS.md names those that are places, and says what became of each.
"""
import collections
import difflib
import glob
import re
import sys

SOURCES = sorted(glob.glob("crates/*/src/**/*.rt", recursive=True))
LINES = {
    1: r"^ *(pub(\(crate\))? )?enum |None => |Err\([a-z_]+\) =>|Ok\(\(\)\) =>|Option<Result|Result<Option|return (Ok\()?(None|Answer::)"
       r"|\) -> (bool|u8|\(usize, usize\))|^ *(Some\([a-z]+\)|None)$",
    3: r"^ *(for .* in |while |loop )",
    4: r"^impl.* (Clone|Copy|PartialEq|PartialOrd|Eq|Ord|Debug|Display|Default|From.*|TryFrom.*) for|fn (same|named|name|number|place|new|empty"
       r"|filled|[a-z_]*text|hex|as_bytes|closing_header|digit_[a-z]+|plain)\b| as (u|i|char)|char::from",
    6: r"\[[A-Za-z0-9]+; [A-Za-z0-9]+\],?$|\blen: usize|^    pub [a-z_]+: Fixed<",
    7: r"match (verb|kind|form|self|\*self|element|spelled|tweak)\b|dyn |impl Fn|fn\(",
}


def functions():
    """Each function of src/ that has a body: where it stands, its parameters, its clauses and its body."""
    for path in SOURCES:
        if "_checks/" in path:
            continue
        text = re.sub(r"//.*", "", open(path).read())
        for m in re.finditer(r"\bfn (\w+)[^(]*\((.*?)\)([^{;]*?(?:\{[^\n]*\}\n[^{;]*?)*)\{\n(.*?)\n( *)\}\n", text, re.S):
            line = text[: m.start()].count("\n") + 1
            yield f"{path}:{line}: {m[1]}", m[2], m[3], m[4]


def shape(body):
    """The words of a body, with names of types, functions and fields left and numbers made alike."""
    return re.findall(r"\w+|\S", re.sub(r"\b[0-9][\w]*\b", "0", body))


def twins():
    found = [(at, shape(body)) for at, _, _, body in functions()]
    for i, (one, a) in enumerate(found):
        for other, b in found[i + 1 :]:
            if min(len(a), len(b)) >= 8 and difflib.SequenceMatcher(None, a, b).ratio() >= 0.72:
                yield f"{one} ~ {other.split('/', 1)[1]}"


def repeated():
    words, together = collections.Counter(), collections.Counter()
    for at, params, clauses, _ in functions():
        crate = at.split("/")[1]
        for word in set(re.findall(r"\((\w+) (?:self|leases)\.(?:now|old|new)\)|\((\w+) self\)|(\w+) result\b", clauses)):
            words[crate, "".join(word)] += 1
        names = [p.split(":")[0].strip() for p in params.split(",") if ":" in p]
        for k, one in enumerate(names):
            for other in names[k + 1 :]:
                together[crate, one, other] += 1
    for (crate, word), n in sorted(words.items()):
        if n >= 3:
            yield f"{crate}: {word} in the clauses of {n} functions"
    for (crate, one, other), n in sorted(together.items()):
        if n >= 3:
            yield f"{crate}: {one}, {other} together in {n} functions"


def proofs():
    for path in sorted(glob.glob("crates/*/proofs/**/*.antt", recursive=True)):
        if not path.endswith("Lib.antt"):
            yield f"{path}: {len(open(path).read().splitlines())} lines"


def places(point):
    if point in LINES:
        for path in SOURCES:
            for n, line in enumerate(open(path).read().splitlines(), 1):
                if "_checks/" not in path and not line.lstrip().startswith("//") and re.search(LINES[point], line):
                    yield f"{path}:{n}: {line.strip()}"
    else:
        yield from {2: twins, 5: repeated, 8: proofs}[point]()


if __name__ == "__main__":
    for point in [int(a) for a in sys.argv[1:]] or range(1, 9):
        found = list(places(point))
        if sys.argv[1:]:
            print("\n".join(found))
        print(f"{point}: {len(found)}")
