#!/usr/bin/env python3
"""Makes crates/asked/stdin and crates/asked/stdout: cases for the search, the panel call and the route stretch, and what a second
program, which shares no code with the library, says of each. The gate runs the library on the first and compares what it prints
with the second.

Run at the repository's root:  python3 tests/search_cases.py
With a number it writes nothing and prints the name of the case that has that line of stdout.

A case is a line `KIND LENGTH` (a letter s or r, then six digits), LENGTH bytes of numbers, and LF.
s, the search:  1 (0 for the panel call), N, M, S, query, k; the lengths of the six columns lent; the lengths of the five buffers lent;
    then the columns: tails, heads, weights, xs, ys, sites.
r, the stretch:  rank; how many ends and how many route entries are lent; then both.
A * is the largest value of its kind, and the least for a coordinate. The buffers hold 7 everywhere before each case.
A result is `x NUMBER PLACE`, or `= SITES TAKEN` with each listed route; then each buffer: its length, a digest of all of it and its
first 64 entries. A stretch is shown as its length and its entries.
"""
import math
import random
import sys

NODES, ARCS, SITES, WEIGHT, COORDINATE, K, PANEL = 1024, 4096, 128, 1000000, 200000000, 32, 4
COLUMNS = ["tails", "heads", "weights", "xs", "ys", "sites"]
BUFFERS = {"work": 4200, "listed": 40, "lengths": 40, "ends": 40, "routes": 33000}
COUNT, NARROW, WIDE, SIGNED = 2**64 - 1, 2**16 - 1, 2**32 - 1, -(2**31)


class Case:
    """A call of the search: a region, a query, a k, and what is changed of what fits them."""

    def __init__(self, points, arcs, sites, query=1, k=1, /, **changed):
        self.panel, self.query, self.k = False, query, k
        self.tails, self.heads, self.weights = [list(column) for column in zip(*arcs)] or ([], [], [])
        self.xs, self.ys, self.sites = [x for x, _ in points], [y for _, y in points], list(sites)
        self.n, self.m, self.s = len(points), len(arcs), len(sites)
        self.__dict__.update((name, value) for name, value in changed.items() if name in self.__dict__)
        rows = min(self.rows(), K)
        fitting = {"work": 4 * self.n, "listed": rows, "lengths": rows, "ends": rows, "routes": rows * self.n}
        for name, most in BUFFERS.items():
            setattr(self, name, changed.get(name, min(fitting[name] + changed.get("spare", 3), most)))

    def rows(self):
        return PANEL if self.panel else self.k

    def written(self):
        counts = [0 if self.panel else 1, self.n, self.m, self.s, self.query, self.k]
        columns = [getattr(self, name) for name in COLUMNS]
        sizes = [len(column) for column in columns] + [getattr(self, name) for name in BUFFERS]
        tops = [NARROW, NARROW, WIDE, SIGNED, SIGNED, NARROW]
        fields = [field(v, COUNT) for v in counts + sizes] + [field(v, top) for column, top in zip(columns, tops) for v in column]
        return "s", " ".join(fields)

    def result(self):
        buffers = {name: [7] * getattr(self, name) for name in BUFFERS}
        try:
            check(self)
        except Refused as why:
            said = "x %d %d" % why.args
        else:
            lines, taken = search(self)
            said = " ".join(["= %d %d" % (len(lines), taken)] + [shown(walk) for _, _, walk in lines])
            buffers["work"][: 4 * self.n] = [0] * (4 * self.n)
            used = 0
            for rank, (site, length, walk) in enumerate(lines):
                buffers["listed"][rank], buffers["lengths"][rank] = site, length
                buffers["routes"][used: used + len(walk)] = walk
                used += len(walk)
                buffers["ends"][rank] = used
        held = ["%s %s" % (letter, " ".join(map(str, [len(t), digest(t), *t[:64]]))) for letter, t in zip("wsder", buffers.values())]
        return " ".join([said] + held)


class Stretch:
    """A call for the stretch of a rank."""

    def __init__(self, rank, ends, routes):
        self.rank, self.ends, self.routes = rank, ends, routes

    def written(self):
        counts = [self.rank, len(self.ends), len(self.routes)]
        return "r", " ".join([field(v, COUNT) for v in counts] + [field(v, NARROW) for v in self.ends + self.routes])

    def result(self):
        if not 1 <= self.rank <= len(self.ends):
            return " " + shown([])
        begin = self.ends[self.rank - 2] if self.rank > 1 else 0
        end = self.ends[self.rank - 1]
        if begin > end or end > len(self.routes):
            return " " + shown([])
        return " " + shown(self.routes[begin:end])


def field(value, top):
    if value == top:
        return "*"
    assert abs(value) < 10**9
    return str(value)


def shown(walk):
    return " ".join(map(str, [":", len(walk), *walk]))


def digest(table):
    total = 0
    for value in table:
        total = (total * 31 + value % 1000003) % 1000003
    return total


# ---- the paper

class Refused(Exception):
    pass


def check(c):
    """A search's tests, in the paper's order."""
    if not 1 <= c.n <= NODES or c.m > ARCS or c.s > SITES:
        raise Refused(4, 0)
    if min(len(c.tails), len(c.heads), len(c.weights)) < c.m or min(len(c.xs), len(c.ys)) < c.n or len(c.sites) < c.s:
        raise Refused(9, 0)
    if not 1 <= c.query <= c.n:
        raise Refused(11, 0)
    if not 1 <= c.rows() <= K:
        raise Refused(12, 0)
    if c.work < 4 * c.n or min(c.listed, c.lengths, c.ends) < c.rows() or c.routes < c.rows() * c.n:
        raise Refused(13, 0)
    for node in range(1, c.n + 1):
        if max(abs(c.xs[node - 1]), abs(c.ys[node - 1])) > COORDINATE:
            raise Refused(6, node)
    for entry in range(1, c.m + 1):
        u, v, w = c.tails[entry - 1], c.heads[entry - 1], c.weights[entry - 1]
        if not (1 <= u <= c.n and 1 <= v <= c.n):
            raise Refused(5, entry)
        if not 1 <= w <= WEIGHT:
            raise Refused(6, entry)
        if w * w < (c.xs[u - 1] - c.xs[v - 1]) ** 2 + (c.ys[u - 1] - c.ys[v - 1]) ** 2:
            raise Refused(10, entry)
    for entry in range(1, c.s + 1):
        if not 1 <= c.sites[entry - 1] <= c.n:
            raise Refused(5, entry)
        if c.sites[entry - 1] in c.sites[: entry - 1]:
            raise Refused(8, entry)


def shortest(arcs, query):
    """Shortest lengths of the nodes that a walk reaches, by Bellman and Ford's rounds over all arcs."""
    length = {query: 0}
    moved = True
    while moved:
        moved = False
        for u, v, w in arcs:
            if u in length and (v not in length or length[u] + w < length[v]):
                length[v] = length[u] + w
                moved = True
    return length


def route(into, length, query, site):
    """Backwards from the site to the lowest numbered predecessor each time; into has the arcs of each head."""
    walk = [site]
    while walk[0] != query:
        walk.insert(0, min(u for u, w in into[walk[0]] if u in length and length[u] + w == length[walk[0]]))
    return walk


def take(outof, line, sites, query, k):
    """The taking rule: the nodes taken, in order; outof has the arcs of each tail."""
    best, opened, taken, untaken, estimate = {query: 0}, {query}, [], set(sites), {}
    while len(sites) - len(untaken) < k and untaken and opened:
        for v in opened - estimate.keys():
            estimate[v] = min(line(v, t) for t in untaken)
        u = min(opened, key=lambda v: (best[v] + estimate[v], v in sites, v))
        opened.remove(u)
        taken.append(u)
        if u in untaken:
            untaken.remove(u)
            estimate = {}
        for v, w in outof.get(u, []):
            if v not in taken and best[u] + w < best.get(v, COUNT):
                best[v] = best[u] + w
                opened.add(v)
    return taken


def search(c):
    """The lines of the list (site, length, route), and the taken count."""
    arcs = list(zip(c.tails[: c.m], c.heads[: c.m], c.weights[: c.m]))
    sites = c.sites[: c.s]
    into, outof, roots = {}, {}, {}
    for u, v, w in arcs:
        into.setdefault(v, []).append((u, w))
        outof.setdefault(u, []).append((v, w))

    def line(a, b):
        if (a, b) not in roots:
            roots[a, b] = math.isqrt((c.xs[a - 1] - c.xs[b - 1]) ** 2 + (c.ys[a - 1] - c.ys[b - 1]) ** 2)
        return roots[a, b]

    length = shortest(arcs, c.query)
    nearest = sorted((length[t], t) for t in sites if t in length)[: c.rows()]
    taken = take(outof, line, sites, c.query, c.rows())
    # What must follow: sites are taken in the order of the list, and no node beyond the k-th listed length.
    assert [t for t in taken if t in sites] == [t for _, t in nearest]
    assert len(nearest) < c.rows() or all(length[v] + min(line(v, t) for t in sites) <= nearest[-1][0] for v in taken)
    return [(t, d, route(into, length, c.query, t)) for d, t in nearest], len(taken)


# ---- the cases, each with its name

WORKED = (
    [(0, 0), (3, 4), (6, 8), (0, 5), (10, 0), (3, -4)],
    [(1, 2, 5), (2, 3, 5), (1, 4, 6), (4, 3, 7), (1, 5, 10), (3, 5, 9), (2, 1, 5), (5, 6, 9)],
    [5, 3, 6],
)
SPOT = [(0, 0)] * 4
DIAMOND = [(1, 2, 2), (1, 3, 1), (2, 4, 1), (3, 4, 2)]


def swapped(table, place, value):
    """A table with another value at an entry, counted from 1."""
    return [value if i == place else old for i, old in enumerate(table, 1)]


def marked():
    """Cases A to K of the paper."""
    yield "A", Case(*WORKED, 1, 1)
    yield "B", Case(*WORKED, 1, 2)
    yield "C", Case(*WORKED, 1, 3)
    yield "D", Case(*WORKED, 1, 32)
    yield "E", Case(*WORKED, 6, 2)
    yield "F", Case(*WORKED, 4, 1)
    yield "G", Case(*WORKED, 3, 1)
    yield "H: k 0", Case(*WORKED, 1, 0)
    yield "H: k 33", Case(*WORKED, 1, 33)
    yield "I: query 0", Case(*WORKED, 0, 1)
    yield "I: query 7", Case(*WORKED, 7, 1)
    yield "J", Case(WORKED[0], swapped(WORKED[1], 4, (4, 3, 6)), WORKED[2])
    yield "K", Case(SPOT, DIAMOND, [4])
    for query in range(8):
        yield f"the panel call from {query}", Case(*WORKED, query, panel=True)
    yield "the panel call names no k", Case(*WORKED, 1, 0, panel=True)
    for count in (PANEL - 1, PANEL, PANEL + 1):
        star = [(1, v, v) for v in range(2, count + 2)]
        yield f"the panel call with {count} sites in reach", Case([(0, 0)] * (count + 1), star, range(2, count + 2), 1, panel=True)
    for query in range(1, 7):
        yield f"all sites from {query}", Case(*WORKED, query, 3)


def counts():
    """Refusals 4, 9, 11 and 12, and the counts that just pass."""
    yield "N 0", Case(*WORKED, n=0)
    yield "N 0, no tables at all", Case([], [], [], n=0)
    yield "N the largest", Case(*WORKED, n=COUNT, work=30, routes=10)
    yield "N 999999999", Case(*WORKED, n=999999999, work=30, routes=10)
    yield "M 4097 with tables that are too short", Case(*WORKED, m=4097)
    yield "M the largest", Case(*WORKED, m=COUNT)
    yield "S 129 with a table that is too short", Case(*WORKED, s=129)
    yield "S the largest", Case(*WORKED, s=COUNT)
    yield "N below the nodes of the arcs", Case(*WORKED, n=5)
    for name in COLUMNS:
        full = getattr(Case(*WORKED), name)
        yield f"{name} one short", Case(*WORKED, **{name: full[:-1]})
        yield f"{name} empty", Case(*WORKED, **{name: []})
    yield "each column exactly as long as its count", Case(*WORKED, 1, 3, spare=0)
    for query in (0, 7, 65536 + 1, COUNT):
        yield f"query {query}", Case(*WORKED, query, 1)
    for k in (0, 33, 34, COUNT):
        yield f"k {k}", Case(*WORKED, 1, k)
    for k in (1, 2, 3, 4, 5, 31, 32):
        yield f"k {k}", Case(*WORKED, 1, k)


def rooms():
    """Each buffer one short, and exactly long enough."""
    for k in (1, 3, 5):
        fit = Case(*WORKED, 1, k, spare=0)
        yield f"rooms exactly enough for k {k}", fit
        for name in BUFFERS:
            yield f"{name} one short for k {k}", Case(*WORKED, 1, k, **{name: getattr(fit, name) - 1})
            yield f"{name} exactly enough for k {k}, the others longer", Case(*WORKED, 1, k, **{name: getattr(fit, name)})
            yield f"{name} empty for k {k}", Case(*WORKED, 1, k, **{name: 0})
    for name in BUFFERS:
        fit = Case(*WORKED, 1, panel=True, spare=0)
        yield f"{name} exactly enough for the panel call", Case(*WORKED, 1, panel=True, **{name: getattr(fit, name)})
        yield f"{name} one short for the panel call", Case(*WORKED, 1, panel=True, **{name: getattr(fit, name) - 1})
    yield "routes long enough for the routes, but not for k times N", Case(*WORKED, 1, 2, routes=11)
    yield "rooms for k, though no site is there", Case(WORKED[0], WORKED[1], [], 1, 3, ends=2)


def entries():
    """Refusals 5, 6, 8 and 10 by entries: the first, one in the middle, the last."""
    points, arcs, sites = WORKED
    far = COORDINATE
    for node in (1, 3, 6):
        for x, y in [(far + 1, 0), (-far - 1, 0), (0, far + 1), (0, -far - 1), (far + 1, -far - 1), (999999999, 0), (SIGNED, 0), (0, SIGNED), (SIGNED, SIGNED)]:
            yield f"node {node} at {x} {y}", Case(swapped(points, node, (x, y)), arcs, sites)
    yield "two nodes outside: the lower is the place", Case(swapped(swapped(points, 5, (far + 1, 0)), 2, (0, far + 1)), arcs, sites)
    yield "a node that no arc or site uses, outside", Case(points + [(far + 1, 0)], arcs, sites)
    corners = [(-far, -far), (far, far), (-far, far), (far, -far)]
    yield "nodes at the corners, without arcs", Case(corners, [], [4, 2, 1], 1, 3)
    for place in (1, 4, 8):
        u, v, w = arcs[place - 1]
        for tail, head, weight in [(0, v, w), (7, v, w), (u, 0, w), (u, 7, w), (NARROW, v, w), (u, NARROW, w), (0, 0, w), (u, v, 0), (u, v, WEIGHT + 1), (u, v, WIDE), (u, v, WEIGHT), (u, v, w - 1), (u, v, 1)]:
            yield f"arc {place} is {tail} {head} {weight}", Case(points, swapped(arcs, place, (tail, head, weight)), sites)
    yield "two faulty arcs: the earlier is the place", Case(points, swapped(swapped(arcs, 7, (0, 1, 5)), 3, (1, 4, 0)), sites)
    yield "an arc that the search never follows is judged too", Case(points + [(0, 0), (9, 0)], arcs + [(7, 8, 8)], sites)
    for place in (1, 2, 3):
        for site in (0, 7, NARROW):
            yield f"site {place} is {site}", Case(points, arcs, swapped(sites, place, site))
        for other in (1, 2, 3):
            if other != place:
                yield f"site {place} repeats site {other}", Case(points, arcs, swapped(sites, place, sites[other - 1]))
    nine = [(0, 0)] * 9
    yield "sites 7 7 9 9: place 2", Case(nine, [], [7, 7, 9, 9])
    yield "sites 9 7 7 9: place 3", Case(nine, [], [9, 7, 7, 9])
    yield "sites 9 7 9 7: place 3", Case(nine, [], [9, 7, 9, 7])
    yield "sites 1 1 1: place 2", Case(nine, [], [1, 1, 1])
    yield "sites 1 2 3 4 1: place 5", Case(nine, [], [1, 2, 3, 4, 1])
    yield "128 sites, the last repeats the first", Case([(0, 0)] * 128, [], [*range(1, 128), 1])
    yield "128 sites, the last repeats the one before", Case([(0, 0)] * 128, [], [*range(1, 128), 127])


def lengths():
    """Test 10 at and about equality, and squares that need 64 bits."""
    for dx, dy, w in [
        (6, 3, 7), (6, 3, 6), (3, 6, 7), (3, 6, 6), (-6, 3, 7), (-6, 3, 6), (6, -3, 6), (-6, -3, 7), (3, 4, 5), (3, 4, 4), (-3, -4, 5), (4, -3, 4), (5, 12, 13), (5, 12, 12), (1, 0, 1), (0, 1, 1), (1, 1, 1), (1, 1, 2), (0, 0, 1),
        (1000000, 0, 1000000), (1000001, 0, 1000000), (0, -1000000, 1000000), (600000, 800000, 1000000), (600001, 800000, 1000000), (600000, 800001, 1000000), (600000, 800000, 999999),
        (65536, 0, 1), (65536, 0, 65535), (65536, 0, 65536), (65536, 65536, 1), (92681, 0, 1), (46341, 46341, 65536), (46341, 46341, 65535), (4194304, 4194304, 1000000), (400000000, 0, 1000000), (400000000, 400000000, 1000000),
    ]:
        start = (-COORDINATE, -COORDINATE) if dx > 1000001 else (17, -23)
        yield f"dx {dx} dy {dy} weight {w}", Case([start, (start[0] + dx, start[1] + dy)], [(1, 2, w)], [2])
    far = COORDINATE
    yield "a site 565685424 away, reached by a walk at other corners", Case([(-far, -far), (-far, -far), (far, far)], [(1, 2, 1)], [3, 2], 1, 2)
    yield "estimates of hundreds of millions decide the order", Case(
        [(0, 0), (0, 0), (0, 0), (far, far), (-far, -far), (0, 0)], [(1, 2, 1), (1, 3, 1000000), (2, 3, 999999), (3, 6, 1), (2, 6, 1000000)], [6, 5, 4], 1, 3)


def order():
    """Two faults: the paper's order decides, and of neighbouring tests the former."""
    points, arcs, sites = WORKED
    outside = swapped(points, 2, (0, COORDINATE + 1))
    yield "4 before 9", Case(*WORKED, m=4097, sites=[])
    yield "9 before 11", Case(*WORKED, 0, 1, xs=[0, 3, 6, 0, 10])
    yield "11 before 12", Case(*WORKED, 7, 33)
    yield "12 before 13", Case(*WORKED, 1, 33, work=0)
    yield "12 before 13, k 0", Case(*WORKED, 1, 0, work=23)
    yield "13 before 6 of a coordinate", Case(outside, arcs, sites, routes=5)
    yield "13 before 5 of an arc", Case(points, swapped(arcs, 1, (0, 0, 0)), sites, ends=0)
    yield "6 of a coordinate before 5 of an arc", Case(swapped(points, 6, (COORDINATE + 1, 0)), swapped(arcs, 1, (0, 2, 5)), sites)
    yield "5 before 6 of one arc", Case(points, swapped(arcs, 4, (0, 3, 0)), sites)
    yield "6 before 10 of one arc", Case(points, swapped(arcs, 4, (4, 3, 0)), sites)
    yield "10 of an arc before 5 of the next", Case(points, swapped(swapped(arcs, 4, (4, 3, 6)), 5, (1, 7, 10)), sites)
    yield "6 of an arc before 5 of the next", Case(points, swapped(swapped(arcs, 4, (4, 3, 0)), 5, (1, 7, 10)), sites)
    yield "5 of an arc before 10 of the next", Case(points, swapped(swapped(arcs, 4, (4, 0, 6)), 5, (1, 5, 9)), sites)
    yield "10 of the last arc before 5 of the first site", Case(points, swapped(arcs, 8, (5, 6, 8)), [0, 3, 6])
    yield "10 of the last arc before 8", Case(points, swapped(arcs, 8, (5, 6, 8)), [3, 3, 6])
    yield "5 of a site before 8 of a later one", Case(points, arcs, [5, 7, 5])
    yield "8 of a site before 5 of a later one", Case(points, arcs, [5, 5, 7])
    yield "0 0: 5 at the first, though the second repeats it", Case(points, arcs, [0, 0, 3])
    yield "everything at once", Case(outside, swapped(arcs, 1, (0, 0, 0)), [0, 0, 0], 0, 0, n=0, work=0)


def unread():
    """Entries past the counts, which nobody may look at."""
    points, arcs, sites = WORKED
    wild = {"tails": 0, "heads": NARROW, "weights": 0, "xs": SIGNED, "ys": COORDINATE + 1, "sites": 3}
    longer = {name: getattr(Case(*WORKED), name) + [wild[name]] * 2 for name in COLUMNS}
    yield "columns longer than their counts, with garbage behind", Case(*WORKED, 1, 3, **longer)
    for name in COLUMNS:
        yield f"{name} longer than its count", Case(*WORKED, 2, 3, **{name: longer[name]})
    yield "fewer arcs than lent: the last arc is not there", Case(*WORKED, 1, 3, m=7)
    yield "fewer sites than lent", Case(*WORKED, 1, 3, s=1)
    yield "no sites of those lent", Case(*WORKED, 1, 3, s=0)
    yield "no arcs of those lent", Case(*WORKED, 1, 3, m=0)
    yield "fewer nodes than lent", Case([*points, (SIGNED, 0)], arcs, sites, 1, 3, n=6)
    yield "buffers much longer than needed", Case(*WORKED, 1, 2, work=60, listed=40, lengths=40, ends=40, routes=64)


def small():
    """Little regions, each for one thing that can go wrong."""
    line = [(0, 0), (10, 0), (20, 0), (30, 0)]
    yield "S 0: nothing listed, nothing taken, work cleared", Case(WORKED[0], WORKED[1], [], 1, 3)
    yield "S 0: the tables are still judged", Case(WORKED[0], swapped(WORKED[1], 4, (4, 3, 6)), [], 1, 3)
    yield "S 0: the query is still judged", Case(WORKED[0], WORKED[1], [], 9, 3)
    yield "S 0 and M 0 and N 1", Case([(0, 0)], [], [])
    yield "M 0, the query is no site", Case(SPOT, [], [2, 3], 1, 2)
    yield "M 0, the query is a site", Case(SPOT, [], [2, 1], 1, 2)
    yield "N 1, a site", Case([(5, -5)], [], [1], 1, 32)
    yield "N 1, a site with a self-loop", Case([(5, -5)], [(1, 1, 1)], [1], 1, 1)
    yield "N 1, no site, a self-loop", Case([(5, -5)], [(1, 1, 1)] * 3, [], 1, 1)
    yield "self-loops on the way", Case(line, [(1, 1, 1), (1, 2, 10), (2, 2, 1), (2, 3, 10), (3, 3, 1)], [3], 1, 1)
    yield "a self-loop at the site", Case(line, [(1, 2, 10), (2, 2, 1)], [2], 1, 1)
    yield "parallel arcs, the lighter first", Case(line, [(1, 2, 11), (1, 2, 15), (2, 3, 10)], [3], 1, 1)
    yield "parallel arcs, the lighter last", Case(line, [(1, 2, 15), (1, 2, 11), (2, 3, 10)], [3], 1, 1)
    yield "parallel arcs, the lighter between", Case(line, [(1, 2, 15), (1, 2, 11), (1, 2, 12), (2, 3, 10), (2, 3, 10)], [3, 2], 1, 2)
    yield "arcs are one-way: the site can't be reached", Case(line, [(2, 1, 10), (3, 2, 10)], [3], 1, 1)
    yield "arcs are one-way: the walk back counts only one way", Case(line, [(1, 2, 10), (2, 1, 10), (3, 1, 25), (2, 3, 90), (1, 3, 99)], [3, 2], 1, 2)
    yield "unreachable sites: every reachable node is taken", Case(line, [(1, 2, 10), (2, 1, 10)], [3, 4], 1, 2)
    yield "one site unreachable, another not", Case(line, [(1, 2, 10), (2, 3, 10)], [4, 3], 1, 2)
    yield "one site unreachable, but k is met", Case(line, [(1, 2, 10), (2, 3, 10)], [4, 3], 1, 1)
    yield "the query is a site, and others follow", Case(line, [(1, 2, 10), (2, 3, 10), (3, 1, 20)], [3, 1, 2], 1, 3)
    yield "the query is a site, k 1: one node taken", Case(line, [(1, 2, 10), (2, 3, 10)], [3, 1, 2], 1, 1)
    yield "k above S", Case(line, [(1, 2, 10), (2, 3, 10)], [3, 2], 1, 7)
    yield "k above S, the walk goes on after the last site", Case(line, [(1, 2, 10), (2, 3, 10), (3, 4, 10)], [2], 1, 7)
    yield "a site opened early, and shortened later", Case([(0, 0)] * 4, [(1, 4, 9), (1, 2, 1), (2, 3, 1), (3, 4, 1)], [4], 1, 1)
    yield "a site opened early, another one nearer", Case([(0, 0)] * 4, [(1, 4, 9), (1, 2, 4), (2, 3, 4)], [4, 3], 1, 2)
    yield "shortened twice", Case([(0, 0)] * 5, [(1, 5, 9), (1, 2, 1), (2, 5, 7), (2, 3, 1), (3, 5, 5), (3, 4, 1)], [5], 1, 1)
    yield "the nearer by straight line is farther by road", Case([(0, 0), (1, 0), (50, 0)], [(1, 2, 90), (1, 3, 60)], [2, 3], 1, 2)
    yield "the nearer by straight line can't be reached", Case([(0, 0), (1, 0), (50, 0)], [(2, 1, 1), (1, 3, 60)], [2, 3], 1, 2)
    yield "equal lengths: by number, not by the list", Case([(0, 0)] * 4, [(1, 4, 5), (1, 3, 5), (1, 2, 5)], [4, 2, 3], 1, 3)
    yield "equal lengths: only the lower number has room", Case([(0, 0)] * 4, [(1, 4, 5), (1, 3, 5), (1, 2, 5)], [4, 2, 3], 1, 1)
    yield "equal totals: the node that is no site goes first, though its number is higher", Case([(0, 0)] * 3, [(1, 2, 5), (1, 3, 5)], [2], 1, 1)
    yield "equal totals with estimates: the same", Case([(0, 0), (10, 0), (4, 0)], [(1, 2, 10), (1, 3, 4)], [2], 1, 1)
    yield "a lower predecessor behind an equal total", Case([(0, 0)] * 4, [(1, 4, 2), (4, 3, 1), (1, 2, 2), (2, 3, 1)], [3], 1, 1)
    yield "a lower predecessor that is taken last of all", Case([(0, 0)] * 5, [(1, 3, 1), (3, 5, 5), (1, 4, 2), (4, 5, 4), (1, 2, 5), (2, 5, 1)], [5], 1, 1)
    yield "lower predecessors twice on one route", Case([(0, 0)] * 7, [(1, 3, 1), (1, 2, 2), (3, 4, 2), (2, 4, 1), (4, 6, 1), (4, 5, 2), (6, 7, 2), (5, 7, 1)], [7], 1, 1)
    yield "a lower predecessor that is itself a site", Case([(0, 0)] * 4, DIAMOND, [4, 2], 1, 2)
    yield "a lower predecessor that is a site taken before", Case([(0, 0)] * 4, DIAMOND, [4, 2, 3], 1, 3)
    yield "a lower neighbour whose walk is longer is no predecessor", Case([(0, 0)] * 4, [(1, 2, 3), (1, 3, 1), (2, 4, 1), (3, 4, 2)], [4], 1, 1)
    yield "a lower predecessor by the heavier of two parallel arcs only", Case([(0, 0)] * 4, [(1, 2, 2), (1, 3, 1), (2, 4, 9), (2, 4, 1), (3, 4, 2)], [4], 1, 1)
    yield "arcs back into the query", Case([(0, 0)] * 4, DIAMOND + [(4, 1, 1), (2, 1, 1), (3, 1, 1), (4, 2, 1), (4, 3, 1)], [4, 1], 1, 2)
    yield "the estimate changes when a site is taken: the other side is next", Case(
        [(0, 0), (10, 0), (20, 0), (-15, 0), (-30, 0), (30, 0)],
        [(1, 2, 10), (2, 3, 10), (3, 6, 10), (1, 4, 15), (4, 5, 15), (3, 2, 10), (2, 1, 10)], [3, 5, 6], 1, 3)
    yield "an open node aimed at a site that is then taken", Case(
        [(0, 0), (3, 0), (3, 3), (6, 0), (0, 9)], [(1, 2, 3), (1, 3, 5), (2, 4, 3), (3, 5, 7), (1, 5, 12), (4, 5, 11)], [4, 5], 1, 2)
    yield "several nodes at one spot, two of them sites", Case([(0, 0), (4, 3), (4, 3), (4, 3)], [(1, 2, 5), (2, 3, 1), (3, 4, 1), (1, 4, 7)], [4, 3], 1, 2)
    yield "all nodes at one spot, all sites", Case(SPOT, DIAMOND, [4, 3, 2, 1], 1, 4)
    yield "rounding down: 1 1 is at distance 1", Case([(0, 0), (1, 1), (2, 2)], [(1, 2, 2), (2, 3, 2), (1, 3, 3)], [3, 2], 1, 2)
    yield "a walk of arcs at equality", Case([(0, 0), (3, 4), (6, 8), (9, 12), (12, 16)], [(v, v + 1, 5) for v in range(1, 5)] + [(1, 5, 20)], [5], 1, 1)


def limits():
    """The counts at their limits and one beyond, with tables to match; rooms for the largest k and N."""
    many = [(0, 0)] * NODES
    yield "N 1024", Case(many, [(v, v % 1024 + 1, 1) for v in range(1, 1025)], [1024, 1], 1000, 2)
    yield "N 1025", Case([(0, 0)] * 1025, [], [1])
    yield "N 1025, k so that no room would do", Case([(0, 0)] * 1025, [], [1], 1, 32)
    yield "M 4096", Case(SPOT, [(1, 2, 9)] * 4095 + [(1, 2, 1)], [2])
    yield "M 4097", Case(SPOT, [(1, 2, 1)] * 4097, [2])
    yield "S 128", Case([(0, 0)] * 128, [(v, v + 1, 1) for v in range(1, 128)], range(128, 0, -1), 1, 32)
    yield "S 129", Case([(0, 0)] * 130, [], range(1, 130))
    yield "k 32 with N 1024, exactly", Case(many, [(1, 2, 1)], [2], 1, 32, spare=0)
    yield "k 32 with N 1024, one route entry short", Case(many, [(1, 2, 1)], [2], 1, 32, routes=32767)
    yield "k 32 with N 1024, one work entry short", Case(many, [(1, 2, 1)], [2], 1, 32, work=4095)


def large():
    """Regions at the limits."""
    chain = [(v, v + 1, WEIGHT) for v in range(1, NODES)]
    slope = [(-COORDINATE + 390000 * v, COORDINATE - 390000 * v) for v in range(NODES)]
    yield "a chain of 1024 nodes, each arc 1000000: the longest walk", Case([(0, 0)] * NODES, chain, [NODES], 1, 1)
    yield "the same on a slope of coordinates", Case(slope, chain, [NODES, 1], 1, 32)
    yield "32 routes of about 1000 nodes: ends of 16 bits", Case([(0, 0)] * NODES, chain, range(NODES, NODES - 32, -1), 1, 32, spare=0)
    yield "128 sites at the end of the chain", Case([(0, 0)] * NODES, chain, range(NODES, NODES - 128, -1), 1, 5)
    yield "a straight line across the coordinates: the last digit of a root decides", rail(random.Random(6), 500)
    yield "a star: all 128 sites at equal length", Case([(0, 0)] * 129, [(129, v, 3) for v in range(128, 0, -1)], range(128, 0, -1), 129, 32)
    side = 32
    at = lambda x, y: 1 + side * y + x
    grid = [(at(x, y), at(x + a, y + b), 10) for y in range(side) for x in range(side) for a, b in [(1, 0), (-1, 0), (0, 1), (0, -1)] if 0 <= x + a < side and 0 <= y + b < side]
    spots = [(10 * x, 10 * y) for y in range(side) for x in range(side)]
    rng = random.Random(7)
    yield "a grid of equal weights, 128 sites: ties everywhere", Case(spots, grid, rng.sample(range(1, 1025), 128), at(15, 16), 32)
    yield "the same grid from a corner, sites in the other", Case(spots, grid, [at(31, 31), at(30, 31), at(31, 30), at(30, 30)], 1, 3)
    yield "the same grid as one spot", Case([(0, 0)] * 1024, grid, rng.sample(range(1, 1025), 128), at(0, 31), 32)
    yield "geometric, 600 nodes, clustered sites", geometric(random.Random(8), 600, 6, 1000, 60, 20)
    yield "geometric, 1024 nodes, a coarse scale", geometric(random.Random(9), 1024, 4, 40, 128, 32)


def rail(rng, posts):
    """A straight line of exact arcs across the coordinates, and beside each post a dead end at a detour of a few metres. The site, at
    the far end, is three metres farther by road, so that a dead end is taken or not by the last digit of a root."""
    line = [(-150000000 + 600000 * i, -COORDINATE + 800000 * i) for i in range(posts)]
    dead = [(x + 300000 + rng.randint(-500, 500), y + 400000 + rng.randint(-500, 500)) for x, y in line]
    arcs = [(i, i + 1, WEIGHT) for i in range(1, posts)] + [(posts, 2 * posts + 1, 1003)]
    arcs += [(i, posts + i, tight(line[i - 1], dead[i - 1]) + rng.randint(0, 6)) for i in range(1, posts + 1)]
    return Case([*line, *dead, (line[-1][0] + 600, line[-1][1] + 800)], arcs, [2 * posts + 1])


def geometric(rng, n, out, scale, sites, k):
    """Arcs from each node to some of the nodes near it, with weights at the straight line rounded up or just above."""
    points = [(rng.randrange(-scale, scale), rng.randrange(-scale, scale)) for _ in range(n)]
    arcs = []
    for u in range(n):
        near = sorted((v for v in range(n) if v != u), key=lambda v: squares(points[u], points[v]))
        arcs += [(u + 1, v + 1, tight(points[u], points[v]) + rng.choice([0, 0, 1])) for v in rng.sample(near[: out + 3], out)]
    rng.shuffle(arcs)
    heart = sorted(range(n), key=lambda v: squares(points[v], points[0]))[: 2 * sites]
    return Case(points, arcs, [v + 1 for v in rng.sample(heart, sites)], rng.randint(1, n), k)


def squares(p, q):
    return (p[0] - q[0]) ** 2 + (p[1] - q[1]) ** 2


def tight(p, q):
    """The least weight that passes test 10."""
    root = math.isqrt(squares(p, q))
    return max(1, root if root * root == squares(p, q) else root + 1)


def chance(rng):
    """A region of 2 to 12 nodes with tight weights, so that ties abound."""
    n = rng.randint(2, 12)
    scale = rng.choice([0, 1, 2, 4, 9, 30, 350000])
    points = [(rng.randint(-scale, scale), rng.randint(-scale, scale)) for _ in range(n)]
    pairs = [(rng.randint(1, n), rng.randint(1, n)) for _ in range(rng.randint(0, 4 * n))]
    slack = rng.choice([[0], [0, 1], [0, 0, 0, 1, 2], [0, 5]])
    arcs = [(u, v, tight(points[u - 1], points[v - 1]) + rng.choice(slack)) for u, v in pairs]
    sites = rng.sample(range(1, n + 1), rng.randint(0, n))
    k = rng.choice([1, 1, 2, 2, 3, 4, 5, 32])
    return Case(points, arcs, sites, rng.randint(1, n), k, panel=rng.random() < 0.2, spare=rng.choice([0, 1, 5]))


def harmed(rng):
    """A chance region with one to three things wrong."""
    c = chance(rng)
    for _ in range(rng.randint(1, 3)):
        name = rng.choice(COLUMNS + COLUMNS + [*BUFFERS, "query", "k", "n", "m", "s"])
        if name in BUFFERS:
            setattr(c, name, rng.randint(0, getattr(c, name)))
        elif name in COLUMNS:
            column = list(getattr(c, name))
            if column and rng.random() < 0.8:
                column[rng.randrange(len(column))] = rng.choice({"weights": [0, 1, 1000001, WIDE], "xs": [COORDINATE + 1, 40, SIGNED], "ys": [COORDINATE + 1, -40, SIGNED]}.get(name, [0, 1, c.n, c.n + 1]))
            else:
                column = column[:-1]
            setattr(c, name, column)
        else:
            setattr(c, name, max(0, getattr(c, name) + rng.choice([-1, 1, 0])))
    return c


def stretches():
    ends, routes = [3, 5, 8], [1, 2, 3, 1, 5, 1, 5, 6, 7, 7]
    for rank in (0, 1, 2, 3, 4, 40, COUNT):
        yield f"rank {rank} of three", Stretch(rank, ends, routes)
    yield "no ends", Stretch(1, [], routes)
    yield "no ends, rank 0", Stretch(0, [], routes)
    yield "no routes", Stretch(1, ends, [])
    yield "no routes, an end of 0", Stretch(1, [0], [])
    yield "nothing at all", Stretch(0, [], [])
    yield "ends out of order", Stretch(2, [5, 3, 8], routes)
    yield "ends out of order before: this rank begins at 3", Stretch(3, [5, 3, 8], routes)
    yield "equal ends: nothing stands between", Stretch(2, [3, 3, 8], routes)
    yield "the end at the buffer's end", Stretch(3, [3, 5, 10], routes)
    yield "the end one outside the buffer", Stretch(3, [3, 5, 11], routes)
    yield "both ends outside the buffer", Stretch(3, [3, 11, 12], routes)
    yield "the end before is outside the buffer, and out of order", Stretch(3, [3, 11, 10], routes)
    yield "the largest end", Stretch(1, [NARROW], routes)
    yield "the largest end twice", Stretch(2, [NARROW, NARROW], routes)
    yield "rank 1 of one", Stretch(1, [10], routes)
    yield "rank 1 with an end of 0", Stretch(1, [0], routes)
    yield "a stale end behind the list is obeyed", Stretch(4, [3, 5, 8, 9], routes)
    yield "a stale end behind the list, out of order", Stretch(4, [3, 5, 8, 7], routes)
    yield "rank 32 of 32", Stretch(32, list(range(1, 33)), list(range(100, 132)))
    yield "rank 33 of 32", Stretch(33, list(range(1, 33)), list(range(100, 132)))
    rng = random.Random(3)
    for number in range(40):
        yield f"chance stretch {number}", Stretch(rng.randint(0, 5), [rng.randint(0, 9) for _ in range(rng.randint(0, 4))], [rng.randint(1, 50) for _ in range(rng.randint(0, 8))])


def cases():
    for group in (marked, small, stretches, counts, rooms, order, unread, lengths, entries):
        for name, case in group():
            yield f"{group.__name__}: {name}", case
    rng = random.Random(5)
    for number in range(400):
        yield f"chance {number}", chance(rng)
    for number in range(200):
        yield f"harmed {number}", harmed(rng)
    for group in (limits, large):
        for name, case in group():
            yield f"{group.__name__}: {name}", case


def main():
    every = list(cases())
    if len(sys.argv) > 1:
        print(every[int(sys.argv[1]) - 1][0])
        return
    with open("crates/asked/stdin", "w") as given, open("crates/asked/stdout", "w") as wanted:
        for name, case in every:
            kind, text = case.written()
            given.write("%s %06d\n%s\n" % (kind, len(text), text))
            wanted.write(case.result() + "\n")
    print(len(every), "cases")


if __name__ == "__main__":
    main()
