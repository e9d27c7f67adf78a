#!/usr/bin/env python3
"""Makes crates/cases/stdin and crates/cases/stdout: texts for the three readers, and what a second program, which
shares no code with the library, says of each. The gate runs the library on the first and compares what it prints with the second.

Run at the repository's root:  python3 tests/reader_cases.py
A case is a line `KIND NODES ROOM LENGTH` (a letter g, c or s, then three numbers of five digits), LENGTH bytes of text, and LF.
A graph text is handed no N: there NODES is the length of the table of weights, so that columns of unequal length are tried.
The lent tables hold 7 everywhere before each case. A result is `x NUMBER PLACE` or `= NODES ROWS`, then a digest of each lent table.
"""
import pathlib
import random
import re

TEXT, NODES, ARCS, SITES, WEIGHT, COORDINATE = 65536, 1024, 4096, 128, 1000000, 200000000
ROOM = {"g": 4096, "c": 1024, "s": 128}
NUMBER = re.compile(rb"[0-9]{1,9}\Z")
SIGNED = re.compile(rb"-?[0-9]{1,9}\Z")


class Refused(Exception):
    pass


def split_lines(text):
    """LF ends a line; after the last LF there is a further line only if bytes follow; one CR before the end goes."""
    parts = text.split(b"\n")
    if parts[-1] == b"":
        parts.pop()
    return [p[:-1] if p.endswith(b"\r") else p for p in parts]


def form(kind, line):
    """None for a line that says nothing, ('p', numbers) or ('d', numbers); anything else is refusal 2."""
    fields = re.findall(rb"[^ \t]+", line)
    if not fields or fields[0] == b"c":
        return None
    heads = {"g": [b"p", b"sp"], "c": [b"p", b"aux", b"sp", b"co"], "s": [b"p", b"aux", b"sp", b"ss"]}[kind]
    counts = {"g": 2, "c": 1, "s": 1}[kind]
    if fields[: len(heads)] == heads and len(fields) == len(heads) + counts:
        numbers = fields[len(heads):]
        if all(NUMBER.match(n) for n in numbers):
            return "p", [int(n) for n in numbers]
    word, plain, signed = {"g": (b"a", 3, 0), "c": (b"v", 1, 2), "s": (b"s", 1, 0)}[kind]
    if fields[0] == word and len(fields) == 1 + plain + signed:
        a, b = fields[1: 1 + plain], fields[1 + plain:]
        if all(NUMBER.match(n) for n in a) and all(SIGNED.match(n) for n in b):
            return "d", [int(n) for n in a + b]
    raise Refused(2)


def counts_of(kind, handed, room, numbers):
    n = numbers[0] if kind in "gc" else handed
    rows = numbers[1] if kind == "g" else numbers[0]
    most = {"g": ARCS, "c": NODES, "s": SITES}[kind]
    if not 1 <= n <= NODES or rows > most or (kind == "c" and n != handed):
        raise Refused(4)
    if rows > room:
        raise Refused(9)
    return n, rows


def judge_entry(kind, n, entry, seen):
    ends = entry[:2] if kind == "g" else entry[:1]
    if any(not 1 <= v <= n for v in ends):
        raise Refused(5)
    if kind == "g" and not 1 <= entry[2] <= WEIGHT:
        raise Refused(6)
    if kind == "c" and any(abs(v) > COORDINATE for v in entry[1:]):
        raise Refused(6)
    if kind in "cs" and entry[0] in seen:
        raise Refused(8)
    seen.add(entry[0])


def read(kind, text, handed, room):
    """The answer, and the data where the text is accepted."""
    if kind == "g":
        room = min(room, handed)
    if len(text) > TEXT:
        return ("x", 1, 0), None
    if kind in "cs" and not 1 <= handed <= NODES:
        return ("x", 4, 0), None
    counts, data, seen = None, [], set()
    for place, line in enumerate(split_lines(text), 1):
        try:
            said = form(kind, line)
            if said is None:
                continue
            what, numbers = said
            if (what == "p") != (counts is None):
                raise Refused(3)
            if what == "p":
                counts = counts_of(kind, handed, room, numbers)
            else:
                if len(data) == counts[1]:
                    raise Refused(7)
                judge_entry(kind, counts[0], numbers, seen)
                data.append(numbers)
        except Refused as why:
            return ("x", why.args[0], place), None
    if counts is None:
        return ("x", 3, 0), None
    if len(data) != counts[1]:
        return ("x", 7, 0), None
    return ("=", *counts), data


def digest(table):
    sum_ = 0
    for value in table:
        sum_ = (sum_ * 31 + (value if value >= 0 else 500000000 - value) % 1000003) % 1000003
    return sum_


def tables_after(kind, n, room, data):
    rooms = {"g": [room, room, n], "c": [room, room], "s": [room]}[kind]
    tables = [[7] * size for size in rooms]
    for place, entry in enumerate(data or []):
        for column, value in enumerate(entry[1:] if kind == "c" else entry):
            tables[column][entry[0] - 1 if kind == "c" else place] = value
    return tables


# ---- the texts

def worked():
    """The paper's region, as the pack has it."""
    pack = pathlib.Path("packs/worked")
    return [(kind, (pack / name).read_bytes(), n, room) for kind, name, n, room in [("g", "map.gr", 4096, 4096), ("c", "map.co", 6, 1024), ("s", "sites.ss", 6, 128)]]


def borders():
    g = lambda t, room=4096, weights=4096: ("g", t, weights, room)
    c = lambda t, n=2, room=1024: ("c", t, n, room)
    s = lambda t, n=9, room=128: ("s", t, n, room)
    one = b"p sp 2 1\n"
    yield from (g(t) for t in [
        b"", b"\n", b"\r", b" \t", b"c", b"c only", b"cc\n", b"C\n", b"\xef\xbb\xbfc\n", b"p sp 1 0", b"p sp 1 0\r", b"p sp 1 0\r\n", b"p sp 1 0\r\r\n", b" p\tsp  1 \t0 ",
        b"p sp 0 0\n", b"p sp 1024 0\n", b"p sp 1025 0\n", b"p sp 1 4096\n", b"p sp 1 4097\n", b"p sp 1 999999999\n", b"p sp 1 1000000000\n", b"p sp 000000001 0\n", b"p sp 0000000001 0\n",
        b"p sp 1\n", b"p sp 1 0 0\n", b"p sp -1 0\n", b"p sp 1 -0\n", b"p sp +1 0\n", b"p sp 1 0x\n", b"p sp  \n", b"p\n", b"p co 1 0\n", b"p aux sp co 1\n", b"sp 1 0\n", b"v 1 0 0\n", b"s 1\n",
        b"a 1 1 1\np sp 1 1\n", b"a 1 1\np sp 1 1\n", b"a 9 9 9\n", one + b"a 1 2 1", one + b"a 1 2 1000000\n", one + b"a 1 2 1000001\n", one + b"a 1 2 0\n", one + b"a 0 2 0\n", one + b"a 3 2 1\n",
        one + b"a 1 3 0\n", one + b"a 1 2 -1\n", one + b"a 1 2 3 c x\n", one + b"a 1 2\n", one + b"A 1 2 3\n", one + b"\n\nc x\na 2 2 5\n\nc\n", one, one + b"a 1 1 1\na 1 1 1\n", one + b"a 1 1 1\na 9 9 9\n",
        one + b"a 1 1 1\na 1 1\n", one + b"p sp 2 1\n", one + b"p sp 9999 9999\n", one + b"p sp 2\n", one + b"a 1 1 1\nc end", one + b"a 1 1 1\n\r\n \n", b"p sp 2 0\na 1 1 1\n", b"p sp 5000 9\n", one + b"a 1 2 3\x00\n",
    ])
    yield from (g(b"p sp 2 2\na 1 2 3\na 2 1 4\n", room) for room in (0, 1, 2, 3))
    yield from (g(b"p sp 2 2\na 1 2 3\na 2 1 4\n", 4096, weights) for weights in (0, 1, 2, 3))
    yield g(b"p sp 2000 2\n", 0)
    two = b"p aux sp co 2\n"
    yield from (c(t) for t in [
        b"", two, two + b"v 1 0 0\nv 2 1 1\n", two + b"v 2 -5 -0\nv 1 -200000000 200000000\n", two + b"v 1 200000001 0\n", two + b"v 1 0 -200000001\n", two + b"v 1 -999999999 0\n",
        two + b"v 1 -1000000000 0\n", two + b"v 1 - 0\n", two + b"v 1 --1 0\n", two + b"v 1 +1 0\n", two + b"v 1 - 1 0\n", two + b"v 1 -000 000\nv 2 0 0\n", two + b"v 1 0 0\nv 1 0 0\n",
        two + b"v 1 0 0\nv 1 300000000 0\n", two + b"v 1 0 0\nv 3 300000000 0\n", two + b"v 1 0 0\nv 2 0 0\nv 1 0 0\n", two + b"v 1 0 0\n", two + b"v -1 0 0\n", b"p aux sp co 3\n", b"p aux sp co 0\n",
        b"p aux sp ss 2\n", b"p aux sp co\n", b"p sp aux co 2\n", b"p aux co 2\n", b"p aux sp co 2 2\n", two + two, b"v 1 0 0\n" + two, two + b"a 1 2 3\n", two + b"v 1 0\n", two + b"v 1 0 0 0\n",
    ])
    yield from (c(two + b"v 1 0 0\nv 2 1 1\n", n) for n in (0, 1, 1024, 1025))
    yield from (c(two + b"v 1 0 0\nv 2 1 1\n", 2, room) for room in (0, 1, 2, 3))
    yield from (s(t) for t in [
        b"", b"p aux sp ss 0\n", b"p aux sp ss 0\ns 1\n", b"p aux sp ss 128\n", b"p aux sp ss 129\n", b"p aux sp ss 2\ns 9\ns 1\n", b"p aux sp ss 2\ns 9\ns 9\n", b"p aux sp ss 2\ns 9\ns 10\n",
        b"p aux sp ss 2\ns 0\n", b"p aux sp ss 1\ns 1\ns 1\n", b"p aux sp ss 1\ns 1 1\n", b"p aux sp ss 1\ns -1\n", b"p aux sp ss 1\ns\n", b"p aux sp ss 1\ns 001\r\n", b"p aux sp co 1\n", b"p aux sp ss 1\nss 1\n",
        b"c hi\np aux sp ss 3\ns 5\r\n\ns 3\n s\t006 ",
    ])
    yield from (s(b"p aux sp ss 2\ns 1\ns 2\n", n) for n in (0, 1, 2, 1024, 1025))
    yield from (s(b"p aux sp ss 2\ns 1\ns 2\n", 9, room) for room in (0, 1, 2, 3))
    yield from (g(b"p sp 1 0\n" + b"c" * (size - 9)) for size in (TEXT, TEXT + 1))


def full():
    arcs = b"".join(b"a %d %d %d\n" % (1 + i % 999, 1 + i * 7 % 999, 1 + i % 9) for i in range(4096))
    yield "g", b"p sp 999 4096\n" + arcs, 4096, 4096
    order = list(range(1, 1025))
    random.Random(1).shuffle(order)
    points = b"".join(b"v %d %d -%d\n" % (v, v * 5, v) for v in order)
    yield "c", b"p aux sp co 1024\n" + points, 1024, 1024
    yield "c", b"p aux sp co 1024\n" + points.replace(b"v 1024 ", b"v 513 "), 1024, 1024
    yield "s", b"p aux sp ss 128\n" + b"".join(b"s %d\n" % v for v in order[:128]), 1024, 128


def damaged(count):
    """Good texts with a few bytes, words or lines changed."""
    rng = random.Random(2)
    words = [b"p", b"sp", b"aux", b"co", b"ss", b"a", b"v", b"s", b"c", b"0", b"1", b"2", b"7", b"-1", b"-0", b"1025", b"4097", b"129", b"1000001", b"200000001", b"999999999", b"1000000000", b" ", b"\t", b"\r", b""]
    bases = worked()
    for _ in range(count):
        kind, text, n, room = rng.choice(bases)
        for _ in range(rng.randint(1, 3)):
            how = rng.randrange(6)
            lines = text.split(b"\n")
            if how == 0 and text:
                at = rng.randrange(len(text))
                text = text[:at] + bytes([rng.choice(b" \t\r\n-0123456789pacvs\x00")]) + text[at + rng.randint(0, 1):]
            elif how == 1:
                at = rng.randrange(len(lines))
                fields = lines[at].split(b" ")
                fields[rng.randrange(len(fields))] = rng.choice(words)
                lines[at] = b" ".join(fields)
                text = b"\n".join(lines)
            elif how == 2:
                lines.insert(rng.randrange(len(lines) + 1), rng.choice(lines))
                text = b"\n".join(lines)
            elif how == 3 and len(lines) > 1:
                lines.pop(rng.randrange(len(lines)))
                text = b"\n".join(lines)
            elif how == 4:
                a, b = rng.randrange(len(lines)), rng.randrange(len(lines))
                lines[a], lines[b] = lines[b], lines[a]
                text = b"\n".join(lines)
            else:
                text = text[: rng.randrange(len(text) + 1)]
        yield kind, text, rng.choice([n, n, n, n, 6, 7, 5, 0, 1025]), rng.choice([room, room, room, 8, 7, 6, 3, 2])


def main():
    cases = [*worked(), *borders(), *full(), *damaged(700)]
    with open("crates/cases/stdin", "wb") as given, open("crates/cases/stdout", "w") as wanted:
        for kind, text, n, room in cases:
            given.write(b"%s %05d %05d %05d\n" % (kind.encode(), n, room, len(text)) + text + b"\n")
            answer, data = read(kind, text, n, room)
            digests = [digest(t) for t in tables_after(kind, n, room, data)]
            wanted.write(" ".join(map(str, [*answer, *digests])) + "\n")
    print(len(cases), "cases")


if __name__ == "__main__":
    main()
