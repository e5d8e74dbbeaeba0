#!/usr/bin/env python3
"""Writes the input of the program `figures` and what it must print: the figures of RULES, Bench figures
that are not starred, with both sides of each limit; sheets with several faults, of which the lowest is the place; fits of the exact solver on trees of every kind, and of
each a damaged twin; a fit with the ties of RULES, The numbers of a fit, over several denominators; the worked example of Bryant and Waddell (1998) and the data of Felsenstein's (1997) Table 1;
for matrices with missing pairs fits of the exact solver, two of a matrix and a tree that have more than one, damaged
twins, and edges that part no measured pair;
for the second verdict the best lengths of zero or more by the exact solver, with every number behind 13 and its order;
and for the direct fit every resolved tree of up to six strains, random ones, caterpillars and balanced ones up
to 64, with the exact solver's lengths, and sheets without lengths that are refused.
What must be printed comes from the plain reading (reading.py) and the solver (solver.py) alone.

A figure stands here for what it shows, and the program reads 524,288 bytes at most. Every number, every place, both
sides of each limit and every shape of tree are here. Trees of many strains take most of the bytes, so they come at the
sizes where something can go wrong: 17 strains; 32 and 33, about the width of a word; 63 and 64, about that of a
cluster's mask and the most there may be. Draws of one class are as many as the counts below ask. The verdict at the
sizes between is left to tests/run, which compares it on more than 300,000 sheets of all sizes (tests/compare.c).

    tests/make_figures.py            writes crates/figures/stdin and crates/figures/stdout
    tests/make_figures.py --check    says whether they are what this script writes
    tests/make_figures.py --example  prints the small example of a matrix with missing pairs and two fits"""
import os
import random
import struct
import sys
from fractions import Fraction

import reading
import solver

HERE = os.path.dirname(os.path.abspath(__file__))
CRATE = os.path.join(HERE, "..", "crates", "figures")
A = (4, [3, 7, 8, 6, 9, 5], [4, 4, 5, 5, 5], 2, [3, 3, 3, 7, 7])
MISSING = reading.MISSING
# sheet A without the distances 01 and 23: its own lengths still fit, and so do others
TWO_FITS = [(4, [MISSING, 7, 8, 6, 9, MISSING], [4, 4, 5, 5, 5], *lengths)
            for lengths in ((2, [3, 3, 3, 7, 7]), (2, [10, 10, 3, 7, 0]), (4, [0, 0, 0, 8, 26]))]


# ---- trees: nested lists of strains, numbered from the leaves up
def table_of(shape, n):
    """The parent table of a nested list of strains; inner vertices are numbered as their brackets close."""
    parents, counter = {}, [n]

    def close(node):
        if isinstance(node, int):
            return node
        kids = [close(k) for k in node]
        own = counter[0]
        counter[0] += 1
        for k in kids:
            parents[k] = own
        return own

    root = close(shape)
    return [parents[v] for v in range(root)]


def star(n):
    return list(range(n))


def caterpillar(n):
    shape = [0, 1]
    for strain in range(2, n - 2):
        shape = [shape, strain]
    return [shape, n - 2, n - 1]


def balanced(n):
    def half(low, high):
        if high - low == 1:
            return low
        middle = (low + high) // 2
        return [half(low, middle), half(middle, high)]
    third = n // 3
    return [half(0, third), half(third, 2 * third), half(2 * third, n)]


def grown(n, rng, most):
    """A random tree: groups of two to `most` are joined until at most `most` + 1 are left at the root."""
    nodes = list(range(n))
    rng.shuffle(nodes)
    while len(nodes) > max(3, rng.randint(3, most + 1)):
        size = min(rng.randint(2, most), len(nodes) - 2)
        picked = [nodes.pop(rng.randrange(len(nodes))) for _ in range(size)]
        nodes.append(picked)
    return nodes


# ---- matrices
def whole_paths(n, parents, lengths):
    below = reading.clusters(n, parents)
    return [reading.path(below, lengths, i, j) for i, j in reading.pairs_of(n)]


def unsettled(n, parents, distances, rng, turns):
    """The distances with whole numbers added that every edge's sum leaves out: over strains a b | c d, one
    more on ac and bd and one less on ad and bc. The fit stays, and F grows."""
    below = reading.clusters(n, parents)
    place = {p: k for k, p in enumerate(reading.pairs_of(n))}
    at = lambda a, b: place[(min(a, b), max(a, b))]
    out = list(distances)
    if n < 4:
        return out
    for _ in range(turns):
        a, b, c, d = rng.sample(range(n), 4)
        if any((a in s) != (b in s) and (c in s) != (d in s) for s in below):
            continue
        size = rng.randint(1, 40)
        changed = {at(a, c): size, at(b, d): size, at(a, d): -size, at(b, c): -size}
        if all(0 <= out[k] + x <= 50000 for k, x in changed.items()):
            for k, x in changed.items():
                out[k] += x
    return out


def fits(rng):
    """Name and fields of each fit: the solver's lengths over a common denominator that passes."""
    found = []

    def take(name, n, shape, distances):
        parents = table_of(shape, n)
        denominator, numerators = solver.common(solver.solve(n, distances, parents))
        if denominator <= 1000000 and all(abs(x) <= 10 ** 11 for x in numerators):
            found.append((name, (n, distances, parents, denominator, numerators)))
            return True
        return False

    # any distances at all, where the denominators stay small
    for n in range(3, 9):
        take("star", n, star(n), [rng.randint(0, 60) for _ in reading.pairs_of(n)])
        take("any", n, grown(n, rng, 3), [rng.randint(0, 50000) for _ in reading.pairs_of(n)])
        if n >= 4:
            take("caterpillar", n, caterpillar(n), [rng.randint(0, 99) for _ in reading.pairs_of(n)])
    tries = 0
    while sum(1 for name, _ in found if name == "wild") < 14 and tries < 400:
        tries += 1
        n = rng.randint(4, 11)
        take("wild", n, grown(n, rng, 5), [rng.choice((0, 1, 7, 500, 49999, 50000)) for _ in reading.pairs_of(n)])
    # whole lengths, some negative, and distances that do not settle: any size
    every = (("star", star), ("tree", lambda n: grown(n, rng, 4)), ("caterpillar", caterpillar), ("balanced", balanced),
             ("resolved", lambda n: grown(n, rng, 2)))
    for n, kinds in ((3, every[:2]), (4, every[:2]), (5, every[:2]), (9, every), (17, every), (32, every[1:3]), (33, every[1:3]),
                     (63, every[2:3]), (64, every[:3])):
        for name, made in kinds:
            shape = made(n)
            parents = table_of(shape, n)
            distances = [-1]
            while min(distances) < 0 or max(distances) > 50000:
                lengths = [rng.randint(300, 700) for _ in parents]
                for v in range(n, len(parents)):
                    lengths[v] = rng.choice((-40, -3, 0, 5, 60))
                distances = whole_paths(n, parents, lengths)
            take(name, n, shape, unsettled(n, parents, distances, rng, 6 * n))
    return found


def damaged(fields, rng):
    """A twin with one thing wrong: a distance, a numerator, the denominator or a parent."""
    n, distances, parents, denominator, numerators = fields
    distances, parents, numerators = list(distances), list(parents), list(numerators)
    kind = rng.randrange(5)
    if kind == 0:
        k = rng.randrange(len(distances))
        distances[k] += 1 if distances[k] < 50000 else -1
    elif kind == 1:
        numerators[rng.randrange(len(numerators))] += rng.choice((-1, 1))
    elif kind == 2:
        denominator += 1
    elif kind == 3:
        parents[rng.randrange(len(parents))] = rng.randrange(n + 3)
    else:
        numerators.pop()
    return n, distances, parents, denominator, numerators


def worked_example():
    """Bryant and Waddell (1998), figure 3 and equation 31. The text does not print the matrix, and the fit
    depends on it through the split sums alone; so any whole distances with the printed split sums have this fit."""
    printed = [80, 70, 56, 57, 80, 84, 90, 91, 136, 201, 129, 158]
    lengths = [Fraction(*x) for x in ((13, 3), (8, 3), (23, 24), (1, 12), (47, 12), (7, 2), (9, 2), (163, 24),
                                      (15, 16), (97, 32), (25, 16), (51, 16))]
    # strains A .. H are 0 .. 7; edge 9 is above A and B, 10 above C, H and those, 11 above D and E, 12 above F and G
    parents = [8, 8, 9, 10, 10, 11, 11, 9, 9, 12, 12, 12]
    n, denominator = 8, 96
    numerators = [int(b * denominator) for b in lengths]
    distances = whole_distances(n, parents, [sum_over(n, parents, v, lengths) for v in range(12)], lengths)
    assert reading.split_sums(n, distances, parents) == printed
    return n, distances, parents, denominator, numerators


def sum_over(n, parents, v, lengths):
    below = reading.clusters(n, parents)
    return sum(reading.path(below, lengths, i, j) for i, j in reading.pairs_of(n) if reading.parts(below[v], i, j))


def whole_distances(n, parents, sums, lengths):
    """Whole distances with the given split sums: the paths rounded down, then single units put where they are
    wanted, found by trying."""
    below = reading.clusters(n, parents)
    pairs = reading.pairs_of(n)
    rng = random.Random(31)
    base = [int(reading.path(below, lengths, i, j)) for i, j in pairs]
    rows = [[reading.parts(below[v], i, j) for i, j in pairs] for v in range(len(parents))]

    def gap(d):
        return [int(s - sum(x for x, on in zip(d, row) if on)) for s, row in zip(sums, rows)]

    best = base
    score = sum(g * g for g in gap(best))
    while score:
        trial = list(best)
        for _ in range(rng.randint(1, 4)):
            k = rng.randrange(len(pairs))
            trial[k] = max(0, trial[k] + rng.choice((-1, 1)))
        found = sum(g * g for g in gap(trial))
        if found <= score or rng.random() < 0.001:
            best, score = trial, found
    return best


def table_one():
    """Felsenstein (1997), Table 1, on a tree of the animals; monkey hangs at the root."""
    rows = ["32 48 51 50 48 98 148", "26 34 29 33 84 136", "42 44 44 92 152", "44 38 86 142", "24 89 142", "90 142", "148"]
    distances = [int(x) for row in rows for x in row.split()]
    # dog 0, bear 1, raccoon 2, weasel 3, seal 4, sea lion 5, cat 6, monkey 7
    shape = [[0, [[1, 2], [3, [4, 5]]]], 6, 7]
    parents = table_of(shape, 8)
    denominator, numerators = solver.common(solver.solve(8, distances, parents))
    return 8, distances, parents, denominator, numerators


def sixteenths():
    """A star of 18 strains: a length is its strain's row sum less a seventeenth of the sum of all distances, over 16. So
    any numerators over 16 that add to 16 times a whole number are had by row sums, each that number and its numerator;
    the distances grow by single units between the two strains that lack most. 15/16, 13/16 and their negatives are
    among the lengths. The same fit over denominators up to the largest."""
    rng = random.Random(16)
    n, numerators = 18, [15, 13, -13, -15] + [rng.randint(-9, 60) for _ in range(14)]
    numerators[-1] += -sum(numerators) % 16
    lacking = [sum(numerators) // 16 + x for x in numerators]
    units = dict.fromkeys(reading.pairs_of(n), 0)
    while any(lacking):
        pair = tuple(sorted(sorted(range(n), key=lambda i: -lacking[i])[:2]))
        units[pair] += 1
        for i in pair:
            lacking[i] -= 1
    distances, parents = list(units.values()), table_of(star(n), n)
    assert solver.solve(n, distances, parents) == [Fraction(x, 16) for x in numerators]
    for denominator in (16, 1984, 2000, 1000000):
        yield n, distances, parents, denominator, [x * denominator // 16 for x in numerators]


def limits():
    """Both sides of each limit, and the figures of RULES, Bench figures that are not starred."""
    n, distances, parents, d, numerators = A
    yield b""
    whole = reading.sheet(*A)
    for size in (1, 5, 6, 7, len(whole) - 1):
        yield whole[:size]
    yield whole + b"\0"
    yield b"\0" * 5187
    yield b"\0" * 5188
    yield reading.sheet(2, [1], [2, 2], 1, [1, 0])
    yield reading.sheet(3, [1, 1, 1], [3, 3, 3], 2, [1, 1, 1])
    for strains in (64, 65):
        count = strains * (strains - 1) // 2
        yield reading.sheet(strains, [2] * count, [strains] * strains, 1, [1] * strains)
    for far in (50000, 50001):
        yield reading.sheet(3, [far, far, far], [3, 3, 3], 2, [far, far, far])
    for denominator in (0, 1, 1000000, 1000001):
        yield reading.sheet(3, [2, 2, 2], [3, 3, 3], denominator, [denominator] * 3)
    for size in (10 ** 11, 10 ** 11 + 1):
        for sign in (1, -1):
            yield reading.sheet(3, [0, 0, 0], [3, 3, 3], 1, [sign * size, 0, 0])
    yield reading.sheet(3, [0, 0, 0], [3, 3, 3], 1, [-2 ** 63, 0, 0])
    for changed in ([5, 5, 5, 5], [4, 4, 4, 4], [5, 5, 5, 5, 5], [4, 4, 5, 5, 6], [4, 4, 5, 5, 3], [5, 4, 5, 5, 5], [4, 4, 5, 5, 5, 5, 6]):
        yield reading.sheet(n, distances, changed, d, [1] * len(changed))
    yield reading.sheet(n, distances, parents, d, numerators[:4])
    yield reading.sheet(n, distances, parents, d, numerators + [0])
    for kinds in ((2, 1, 3), (1, 3, 2), (1, 2, 4), (257, 2, 3), (1, 3, 4)):
        records, at = [], 0
        for kind in kinds:
            size, = struct.unpack_from("<I", whole, at)
            records.append(struct.pack("<IH", size, kind) + whole[at + 6:at + 6 + size])
            at += 6 + size
        yield b"".join(records)


# trees of four to six strains with a parent or an inner vertex at fault, most of them at several vertices
FAULTY = [(4, table) for table in ([0, 6, 5, 5, 5], [6, 0, 5, 5, 5], [4, 4, 3, 255, 4], [4, 4, 255, 3, 4], [5, 5, 5, 5, 255],
                                   [4, 4, 5, 5, 4], [4, 4, 4, 5, 5], [5, 5, 5, 4, 5], [5, 5, 5, 5, 5])]
FAULTY += [(6, table) for table in ([8, 8, 8, 8, 6, 7, 8, 8], [6, 6, 8, 8, 8, 7, 8, 8], [6, 6, 6, 7, 7, 7, 8, 8], [6, 6, 7, 8, 8, 8, 8, 9])]


def off_at(fields, v, sign):
    """The fit moved so that every edge but v is in balance."""
    n, distances, parents, denominator, numerators = fields
    times, moved = solver.common(solver.solve_sums(n, parents, [int(u == v) for u in range(len(parents))]))
    out = n, distances, parents, denominator, [x + sign * y for x, y in zip(numerators, moved)]
    assert reading.edge_sums(*out) == [-sign * times if u == v else 0 for u in range(len(parents))]
    return out


def places():
    """Sheets of which the place is asked: each record cut or wrong, faults at one vertex or edge and at several."""
    n, distances, parents, d, numerators = A
    whole = reading.sheet(*A)
    starts = (0, 20, 35)
    for at in starts:
        for size in (at, at + 5, at + 6, at + 7):
            yield whole[:size]
        for changed, value in ((0, whole[at] - 1), (0, whole[at] + 1), (0, 0), (4, 0), (4, 9), (5, 1), (6, whole[at + 6] + 1)):
            yield whole[:at + changed] + bytes([value]) + whole[at + changed + 1:]
    yield whole + whole
    for strains, table in FAULTY:
        some = [7] * (strains * (strains - 1) // 2)
        yield reading.sheet(strains, some, table, 1, [10 ** 12] * len(table))
    far = 10 ** 11 + 1
    for changed in ({4: far}, {1: far, 3: far}, {0: -far, 4: far}, {2: -2 ** 63, 3: 2 ** 63 - 1}):
        yield reading.sheet(n, distances, parents, d, [changed.get(v, x) for v, x in enumerate(numerators)])
    for v in range(5):
        for change in (-1, 1):
            yield reading.sheet(n, distances, parents, d, [x + change * (u == v) for u, x in enumerate(numerators)])
    for fields in (A, table_one()):
        for v in range(len(fields[2])):
            for sign in (1, -1):
                yield reading.sheet(*off_at(fields, v, sign))
    # the largest sums
    for sign in (1, -1):
        parents = table_of(caterpillar(64), 64)
        yield reading.sheet(64, [50000 * (sign < 0)] * 2016, parents, 1000000, [sign * 10 ** 11] * len(parents))


# ---- matrices with missing pairs
def lost(n, distances, rng):
    """The distances with few to many missing."""
    kind = rng.randrange(4)
    if kind == 0:
        gone = set(rng.sample(range(len(distances)), min(len(distances) - 1, rng.randint(1, 3))))
    elif kind == 3:  # two groups of strains that were not crossed within themselves
        one = set(rng.sample(range(n), rng.randint(1, n - 1)))
        gone = {k for k, (i, j) in enumerate(reading.pairs_of(n)) if (i in one) == (j in one) and rng.random() < 0.95}
    else:
        share = rng.uniform(0.1, 0.7)
        gone = {k for k in range(len(distances)) if rng.random() < share}
    gone = gone or {rng.randrange(len(distances))}
    return [MISSING if k in gone else d for k, d in enumerate(distances)]


def unsettled_where_measured(n, parents, distances, rng, turns):
    """Like `unsettled`, with all four pairs measured."""
    whole = list(distances)
    below = reading.clusters(n, parents)
    place = {p: k for k, p in enumerate(reading.pairs_of(n))}
    at = lambda a, b: place[(min(a, b), max(a, b))]
    for _ in range(turns if n > 3 else 0):
        a, b, c, d = rng.sample(range(n), 4)
        four = (at(a, c), at(b, d), at(a, d), at(b, c))
        if any(distances[k] == MISSING for k in four) or any((a in s) != (b in s) and (c in s) != (d in s) for s in below):
            continue
        size = rng.randint(1, 40)
        if all(0 <= whole[k] + x <= 50000 for k, x in zip(four, (size, size, -size, -size))):
            for k, x in zip(four, (size, size, -size, -size)):
                whole[k] += x
    return whole


def within(denominator, numerators):
    return denominator <= 1000000 and all(abs(x) <= 10 ** 11 for x in numerators)


class Incomplete:
    """Matrices with missing pairs and their fits. `fitted` has each matrix and tree that every edge of parts a measured
    pair, with its one fit or two of its fits; `unseen` those with an edge that does not, with what the solver has; `far`
    counts those whose fit is beyond the limits of a proposal."""

    def __init__(self, rng):
        self.fitted, self.unseen, self.far = [], [], 0
        while len(self.fitted) < 96 or self.several() < 60 or sum(1 for x in self.fitted if x[0][0] > 12) < 6:
            more = len(self.fitted) >= 90 and rng.random() < 0.5
            n = rng.choice((13, 15, 16, 18, 20)) if more else rng.randint(3, 12)
            shape = rng.choice((star(n), grown(n, rng, 2), grown(n, rng, 2), grown(n, rng, 4), caterpillar(n) if n > 3 else star(n),
                                balanced(n) if n > 5 else grown(n, rng, 3)))
            parents = table_of(shape, n)
            if n <= 7 and rng.random() < 0.7:  # any distances at all
                most = rng.choice((9, 60, 50000))
                distances = lost(n, [rng.randint(0, most) for _ in reading.pairs_of(n)], rng)
            else:
                distances = [-1]
                while min(distances) < 0 or max(distances) > 50000:
                    lengths = [rng.randint(300, 700) if v < n else rng.choice((-40, -3, 0, 5, 60)) for v in range(len(parents))]
                    distances = whole_paths(n, parents, lengths)
                distances = unsettled_where_measured(n, parents, lost(n, distances, rng), rng, 8 * n)
                if n <= 12 and rng.random() < 0.6:  # and some that are not in balance
                    k = rng.choice([k for k, d in enumerate(distances) if d != MISSING] or [None])
                    if k is not None:
                        distances[k] = rng.randint(0, 5000)
            self.take((n, distances, parents), rng)

    def several(self):
        return sum(1 for _, fits, _ in self.fitted if len(fits) > 1)

    def take(self, posted, rng):
        solved = solver.Measured(*posted)
        tables = [solver.common(solved.fit(lambda v: 0))]
        if solved.free:
            tables.append(solver.common(solved.fit(lambda v: Fraction(rng.choice((-1, 1)) * rng.randint(1, 90), rng.choice((1, 1, 2, 3))))))
            assert len({tuple(Fraction(x, d) for x in xs) for d, xs in tables}) == 2
        if not all(within(*table) for table in tables):
            self.far += 1
            return
        if reading.seen_answer(*posted):
            # an edge that parts no measured pair can have any length; so it is free
            assert reading.seen_answer(*posted)[2] in solved.free
            if len(self.unseen) < 30:
                self.unseen.append((posted, tables))
            return
        # both readings of the model agree that these are fits, and every fit has the same sum of squares
        squares = {solved.squares([Fraction(x, d) for x in xs]) for d, xs in tables}
        assert squares == {Fraction(reading.Report(*posted, d, xs).f, d) for d, xs in tables} and len(squares) == 1
        assert not any(any(reading.edge_sums(*posted, d, xs)) for d, xs in tables)
        self.fitted.append((posted, tables, squares.pop()))


def damaged_incomplete(fields, rng):
    """A twin with one thing wrong, or with a pair more or a pair less measured."""
    n, distances, parents, denominator, numerators = fields
    distances, numerators = list(distances), list(numerators)
    measured = [k for k, d in enumerate(distances) if d != MISSING]
    missing = [k for k, d in enumerate(distances) if d == MISSING]
    kind = rng.randrange(8)
    if kind < 3:
        numerators[rng.randrange(len(numerators))] += rng.choice((-1, 1))
    elif kind == 3:
        k = rng.choice(measured)
        distances[k] += 1 if distances[k] < 50000 else -1
    elif kind == 4:
        distances[rng.choice(missing)] = rng.choice((0, 7, 50000))
    elif kind == 5:
        distances[rng.choice(measured)] = MISSING
    elif kind == 6:
        distances[rng.choice(missing)] = rng.choice((50001, 65534))
    else:
        denominator += 1
    return n, distances, parents, denominator, numerators


def incomplete_sheets():
    """The sheets, and what the summary says of them."""
    rng = random.Random(65535)
    out = [reading.sheet(*fields) for fields in TWO_FITS]
    n, distances, parents, d, numerators = A
    # one pair missing or several, in every way: all 64 choices of sheet A's pairs
    for gone in range(1, 64):
        out.append(reading.sheet(n, [MISSING if gone >> k & 1 else x for k, x in enumerate(distances)], parents, d, numerators))
    for far in (50000, 50001, 65534, 65535):
        for k in range(6):
            out.append(reading.sheet(n, [far if x == k else y for x, y in enumerate(TWO_FITS[0][1])], parents, d, numerators))
    # 26 before 11, 12, 13 and 14, and behind 6 to 10 and 16
    none = [MISSING] * 6
    for gone in (none, [3] + [MISSING] * 5, [3, MISSING, MISSING, MISSING, MISSING, 5], [MISSING] * 3 + [6, 9, 5]):
        out.append(reading.sheet(n, gone, parents, d, numerators))
        out.append(reading.sheet(n, gone, parents, d, numerators[:4]))
        out.append(reading.sheet(n, gone, parents, 0, numerators))
        out.append(reading.sheet(n, gone, parents, d, [10 ** 11 + 1] + numerators[1:]))
        out.append(reading.sheet(n, gone, [5, 4, 5, 5, 5], d, numerators))
        out.append(reading.sheet(n, gone, [0, 6, 5, 5, 5], d, numerators))
        out.append(reading.sheet(n, gone, [4, 4, 4], d, numerators))
        out.append(reading.sheet(n, gone[:5] + [65534], parents, d, numerators))
    # three strains: two pairs of three, one, none
    for gone in ([MISSING, 4, 6], [4, MISSING, 6], [4, 6, MISSING], [MISSING, MISSING, 4], [MISSING] * 3):
        out.append(reading.sheet(3, gone, [3, 3, 3], 1, [1, 3, 3]))
        out.append(reading.sheet(3, gone, [3, 3, 3], 1, [1, 3, 5]))
    # as many strains as may be: a caterpillar with all but a ring missing, and one with a single pair missing
    parents = table_of(caterpillar(64), 64)
    paths = whole_paths(64, parents, [300] * 125)
    ring = [d if (i + 1) % 64 == j or (j + 1) % 64 == i else MISSING for d, (i, j) in zip(paths, reading.pairs_of(64))]
    out += [reading.sheet(64, gone, parents, 1, [300] * 125) for gone in (ring, paths[:-1] + [MISSING])]
    out.append(reading.sheet(64, ring, parents, 1, [300] * 124 + [301]))
    drawn = Incomplete(rng)
    for posted, tables, _ in drawn.fitted:
        out += [reading.sheet(*posted, *table) for table in tables]
        out.append(reading.sheet(*damaged_incomplete((*posted, *tables[-1]), rng)))
    for posted, tables in drawn.unseen:
        out.append(reading.sheet(*posted, *tables[-1]))
    return out, drawn


# ---- the second verdict: lengths of zero or more
def bent(n, parents, distances, v, size):
    """The distances moved so that the sum of edge v over D = 1 grows by twice the size and no other moves: two strains
    below it, or the strain itself, and two that are not below, all behind different edges from an end of edge v.
    Nothing where a distance is missing or would leave its range."""
    below = reading.clusters(n, parents)
    place = {p: k for k, p in enumerate(reading.pairs_of(n))}
    at = lambda a, b: place[(min(a, b), max(a, b))]
    here = [min(below[w]) for w in range(len(parents)) if parents[w] == v][:2] or [v]
    up = parents[v]
    there = [min(below[w]) for w in range(len(parents)) if parents[w] == up and w != v]
    if up < len(parents):
        there.append(min(set(range(n)) - below[up]))
    c, d = there[:2]
    if len(here) == 1:
        changed = {at(v, c): size, at(v, d): size, at(c, d): -size}
    else:
        a, b = here
        changed = {at(a, c): size, at(b, d): size, at(a, b): -size, at(c, d): -size}
    out = list(distances)
    for k, x in changed.items():
        if out[k] == MISSING or not 0 <= out[k] + x <= 50000:
            return None
        out[k] += x
    return out


def bent_sheet(n, parents, numerators, bends, gone=()):
    """A sheet over D = 1 with these numerators whose sum at each edge is twice what `bends` has there; the pairs `gone`
    are missing."""
    distances = whole_paths(n, parents, numerators)
    distances = [MISSING if k in gone else d for k, d in enumerate(distances)]
    for v, size in bends.items():
        distances = distances and bent(n, parents, distances, v, size)
    if distances is None:
        return None
    fields = n, distances, parents, 1, list(numerators)
    assert reading.edge_sums(*fields) == [2 * bends.get(v, 0) for v in range(len(parents))]
    return fields


class Drawable:
    """Matrices and trees with the best lengths of zero or more: the fields of each, the plain lengths where the plain
    fit is the only one, and the edges' sums. `tried` counts those that every choice of zero edges was tried of, and
    `far` those beyond the limits of a proposal."""

    def __init__(self, rng):
        self.fitted, self.tried, self.far = [], 0, 0
        while len(self.fitted) < 205:  # any distances at all, some missing
            n = rng.choice((3, 4, 4, 4, 4, 5, 5, 5, 6) if len(self.fitted) < 198 else (7, 8, 9, 10))
            shape = rng.choice((star(n), grown(n, rng, 2), grown(n, rng, 2), grown(n, rng, 3)))
            most = rng.choice((1, 2, 3, 9, 60, 50000))
            distances = [rng.randint(0, most) for _ in reading.pairs_of(n)]
            self.take(n, lost(n, distances, rng) if rng.random() < 0.3 else distances, table_of(shape, n))
        for n in (6, 7, 8, 9, 12, 20):  # chosen lengths, some zero, with sums at the zero edges that are zero or below
            parents = table_of(grown(n, rng, 2), n)
            fields = None
            while fields is None:
                held = lambda v: rng.random() < (0.2 if v < n else 0.5)
                numerators = [0 if held(v) else rng.randint(20, 90) for v in range(len(parents))]
                zero = [v for v, x in enumerate(numerators) if x == 0]
                fields = bent_sheet(n, parents, numerators, {v: -rng.choice((0, rng.randint(1, 9))) for v in zero})
            self.take(*fields[:3])
            assert self.fitted[-1][0] == fields
        # RULES, Bench figures: two plain fits with negative lengths, and one whose lengths are all zero
        for distances in ([1, 1, 4], [1, 0, 0, 0, 0, 0], [0, 0, 0]):
            n = 3 if len(distances) == 3 else 4
            self.take(n, distances, [n] * n)

    def take(self, n, distances, parents):
        if reading.seen_answer(n, distances, parents):
            return
        solved = solver.Drawable(n, distances, parents)
        lengths = solved.fit()
        denominator, numerators = solver.common(lengths)
        if not within(denominator, numerators):
            self.far += 1
            return
        fields = n, distances, parents, denominator, numerators
        if len(parents) <= 7:
            self.tried += 1
            best = solved.by_trying()
            assert solved.squares(best) == solved.squares(lengths) and (MISSING in distances or best == lengths)
        # a plain fit that is the only one is this one, or has a negative length and a smaller sum of squares
        plain = solver.Measured(n, distances, parents)
        only = None if plain.free else plain.fit(None)
        if only is not None:
            assert plain.squares(only) < solved.squares(lengths) if min(only) < 0 else only == lengths
        # both readings of the model agree
        sums = reading.edge_sums(*fields)
        assert sums == [denominator * x for x in solved.sums(lengths)]
        assert Fraction(reading.Report(*fields).f, denominator) == solved.squares(lengths)
        assert reading.judge(*fields, reading.DRAWABLE) == reading.PASS
        self.fitted.append((fields, only, sums))

    def negative(self):
        """Those whose plain fit is the only one and has a negative length."""
        return [x for x in self.fitted if x[1] is not None and min(x[1]) < 0]

    def same(self):
        """Those whose plain fit is the only one and has no negative length."""
        return [x for x in self.fitted if x[1] is not None and min(x[1]) >= 0]


def zero_edges(fitted, test):
    """How many edges have length zero and such a sum, and how many of the sheets have one."""
    found = [sum(1 for x, at in zip(fields[4], sums) if x == 0 and test(at)) for fields, _, sums in fitted]
    return sum(found), sum(1 for x in found if x)


def drawable_twins(drawn, rng):
    """Sheets for the second verdict, each with the number that is due, or none where it is not foreseen."""
    n, distances, parents, d, numerators = A
    whole = reading.sheet(*A)
    # as the plain verdict up to 13
    yield b"", 2
    yield whole[:40], 2
    yield whole[:4] + b"\2" + whole[5:], 3
    yield whole[:45] + b"\4" + whole[46:], 4
    yield whole + b"\0", 5
    yield reading.sheet(2, [1], [2, 2], 1, [1, 0]), 6
    yield reading.sheet(n, [50001] + distances[1:], parents, d, numerators), 7
    for table, number in (([4] * 3, 8), ([4, 3, 5, 6, 5], 9), ([4, 6, 5, 3, 5], 16), ([5, 4, 5, 5, 5], 10)):
        yield reading.sheet(n, distances, table, d, numerators), number
    yield reading.sheet(n, distances, parents, d, numerators[:4]), 11
    yield reading.sheet(n, distances, parents, 0, numerators), 12
    # 26 before 11 and 22; 13 before 22 whatever edges they are at; 22 before 14 and 23
    for gone in ([MISSING] * 6, [3] + [MISSING] * 5, [MISSING] * 3 + [6, 9, 5]):
        yield reading.sheet(n, gone, parents, d, numerators[:4]), 26
        yield reading.sheet(n, gone, parents, d, numerators[:4] + [-1]), 26
    far = 10 ** 11
    for changed, number in (({0: -1, 4: -far - 1}, 13), ({0: -1, 4: far + 1}, 13), ({4: -far}, 22),
                            ({1: -2, 3: -1}, 22), ({4: -1}, 22), ({0: 0, 4: -7}, 22), ({0: -3, 1: 0}, 22), ({0: 0}, 14),
                            (dict.fromkeys(range(5), 0), 23)):
        yield reading.sheet(n, distances, parents, d, [changed.get(v, x) for v, x in enumerate(numerators)]), number
    # the largest sums of six strains
    parents = table_of(caterpillar(6), 6)
    yield reading.sheet(6, [50000] * 15, parents, 1000000, [0] * 9), 23
    yield reading.sheet(6, [0] * 15, parents, 1000000, [0] * 8 + [far]), 14
    # chosen sums at the edges of tables with zero edges
    tables = [(4, [4, 4, 5, 5, 5], [50, 0, 40, 30, 0]), (4, [4, 4, 5, 5, 5], [0, 20, 60, 30, 0]),
              (5, [5, 5, 6, 6, 7, 7, 7], [30, 40, 0, 35, 0, 0, 25]), (5, [5, 5, 5, 6, 6, 6], [0, 40, 40, 50, 20, 0])]
    for n, parents, numerators in tables:
        zero, positive = [[v for v, x in enumerate(numerators) if (x == 0) == at_zero] for at_zero in (True, False)]
        low, high = zero[0], positive[-1]
        for bends, number in (({}, 0), ({low: -3}, 0), (dict.fromkeys(zero, -1), 0), ({positive[0]: -2}, 14),
                              ({high: 2}, 14), ({low: 1}, 23), ({zero[-1]: 4}, 23), ({low: -2, zero[-1]: 1}, 23),
                              (dict.fromkeys(zero, 2), 23), ({low: 3, high: -1}, 14), ({low: 3, high: 1}, 14),
                              ({low: -3, high: 1}, 14)):
            yield reading.sheet(*bent_sheet(n, parents, numerators, bends)), number
    for bends, number in (({}, 0), ({2: -3}, 0), ({2: -1, 4: -1}, 0), ({0: 1}, 14), ({0: -1, 2: 1}, 14), ({2: 2}, 23),
                          ({2: -1, 4: 1}, 23)):
        yield reading.sheet(*bent_sheet(*tables[2], bends, gone=(6,))), number
    # a plain fit with negative lengths as it is, and with those lifted to zero: the other edges are then out of balance
    for fields, only, _ in rng.sample([x for x in drawn.negative() if MISSING not in x[0][1]], 16):
        denominator, numerators = solver.common(only)
        assert within(denominator, numerators) and max(numerators) > 0
        yield reading.sheet(*fields[:3], denominator, numerators), 22
        yield reading.sheet(*fields[:3], denominator, [max(0, x) for x in numerators]), 14
    # fits with one numerator off by one
    for fields, _, _ in rng.sample(drawn.fitted, 24):
        at, change = rng.randrange(len(fields[2])), rng.choice((-1, 1))
        yield reading.sheet(*fields[:4], [x + change * (v == at) for v, x in enumerate(fields[4])]), None


class Second:
    """The sheets that are judged by the second verdict and their prints; `again` has those that the plain one judges
    too, with its prints."""

    def __init__(self):
        rng = random.Random(707)
        self.drawn = drawn = Drawable(rng)
        same = [A, (*A[:3], 4, [6, 6, 6, 14, 14])] + [fields for fields, _, _ in drawn.same()[:18]]
        lower = [fields for fields, _, _ in drawn.negative()[:8]]
        self.again = [reading.sheet(*fields) for fields in same + lower]
        self.again_prints = [reading.print_of(s) for s in self.again]
        twins = list(drawable_twins(drawn, rng))
        self.sheets = [reading.sheet(*fields) for fields in same[:2] + [fields for fields, _, _ in drawn.fitted]]
        self.sheets += [s for s, _ in twins]
        self.prints = [reading.print_of(s, reading.DRAWABLE) for s in self.sheets]
        for (_, number), lines in zip(twins, self.prints[-len(twins):]):
            due = "refused %d " % number if number else "fit0 " if number == 0 else ""
            assert (lines[0] + " ").startswith(due), (due, lines)
        # any table is accepted exactly where no length is negative and its sum of squares is the solver's
        self.solved = 0
        for s, lines in zip(self.sheets, self.prints):
            if lines[0].startswith(("fit0 ", "refused 14 ", "refused 22 ", "refused 23 ")):
                n, distances, _, parents, denominator, numerators = reading.read_sheet(s)[1]
                solved = solver.Drawable(n, distances, parents)
                squares = solved.squares([Fraction(x, denominator) for x in numerators])
                best = min(numerators) >= 0 and squares == solved.squares(solved.fit())
                assert best == lines[0].startswith("fit0 ")
                self.solved += 1
        # both verdicts print the same of a table that both accept, but for the first word; the plain one refuses a
        # table that is the best only of those without a negative length
        by_sheet = dict(zip(self.sheets, self.prints))
        for s, lines in zip(self.again, self.again_prints):
            there = by_sheet[s]
            assert there[0].startswith("fit0 ")
            assert lines[0].startswith("refused 14 ") or [lines[0].replace("fit ", "fit0 ")] + lines[1:] == there
        assert [lines[0].startswith("fit ") for lines in self.again_prints] == [True] * len(same) + [False] * len(lower)

    def told(self):
        """What the summary says; each count has the least that it may be."""
        drawn = self.drawn
        answers = [reading.sheet_answer(s, reading.DRAWABLE) for s in self.sheets]
        off = [(s, answer) for s, answer in zip(self.sheets, answers) if reading.number_of(answer) == 14]
        before = 0  # 14 where a lower edge of length zero has a positive sum
        for s, (_, _, at, _) in off:
            n, distances, _, *rest = reading.read_sheet(s)[1]
            sums = reading.edge_sums(n, distances, *rest)
            before += any(x == 0 and found > 0 for x, found in zip(rest[2][:at], sums))
        is_zero = lambda found: found == 0
        level = zero_edges(drawn.fitted, is_zero)
        counts = [
            ("accepted", sum(1 for answer in answers if not answer), 200),
            ("22", sum(1 for answer in answers if reading.number_of(answer) == 22), 20),
            ("14 with a positive sum", sum(1 for _, answer in off if answer[3] > 0), 10),
            ("14 with a negative sum", sum(1 for _, answer in off if answer[3] < 0), 20),
            ("14 before 23 at a lower edge", before, 6),
            ("23", sum(1 for answer in answers if reading.number_of(answer) == 23), 15),
            ("26", sum(1 for answer in answers if reading.number_of(answer) == 26), 6),
            ("judged by the solver's sum of squares too", self.solved, 300),
            ("fits of the solver", len(drawn.fitted), 200),
            ("tried in every way", drawn.tried, 120),
            ("with a negative length in the plain fit", len(drawn.negative()), 60),
            ("with missing pairs", sum(1 for x in drawn.fitted if MISSING in x[0][1]), 30),
            ("edges of length zero with sum zero", level[0], 50),
            ("sheets with one", level[1], 30),
            ("of these with a negative length in the plain fit", zero_edges(drawn.negative(), is_zero)[1], 12),
            ("edges of length zero with a negative sum", zero_edges(drawn.fitted, lambda found: found < 0)[0], 100),
            ("by both verdicts", len(self.again), 25),
        ]
        for what, count, least in counts:
            assert count >= least, (what, count, least)
        return "%d by the second verdict; %s; %d more beyond the limits" % (
            len(self.sheets), ", ".join("%s: %d" % (what, count) for what, count, _ in counts), drawn.far)


def show_example():
    """The example with two fits and more, in words."""
    for fields in TWO_FITS:
        n, distances, parents, denominator, numerators = fields
        found = reading.Report(*fields)
        solved = solver.Measured(*fields[:3])
        assert reading.judge(*fields) == reading.PASS and solved.squares([Fraction(x, denominator) for x in numerators]) == 1
        print("N = %d; distances %s; parents %s; D = %d, numerators %s: F = %d, F/D = %s" % (
            n, " ".join("-" if d == MISSING else str(d) for d in distances), " ".join(map(str, parents)), denominator,
            " ".join(map(str, numerators)), found.f, Fraction(found.f, denominator)))
        print("\n".join("    " + line for line in found.lines()))
    print("free edges by the solver: %s" % solved.free)


def sheets():
    rng = random.Random(1998)
    out = [reading.sheet(*A)]
    out += list(limits())
    out += list(places())
    for fields in (worked_example(), table_one()):
        out.append(reading.sheet(*fields))
        out.append(reading.sheet(*damaged(fields, rng)))
    found = fits(rng)
    for _, fields in found:
        out.append(reading.sheet(*fields))
        out.append(reading.sheet(*damaged(fields, rng)))
    # the same fits over a denominator as large as it may be, where the numerators allow it
    for _, (n, distances, parents, d, numerators) in found[:12]:
        times = min(1000000 // d, 10 ** 11 // max(1, max(abs(x) for x in numerators)))
        out.append(reading.sheet(n, distances, parents, d * times, [x * times for x in numerators]))
    out += [reading.sheet(*fields) for fields in sixteenths()]
    return out


# ---- sheets without lengths
def resolved_shapes(n):
    """Every resolved tree of n strains: strain n - 1 is hung into each edge of every smaller one."""
    if n == 3:
        yield [0, 1, 2]
        return

    def hung(node, strain):
        yield [node, strain]
        if not isinstance(node, int):
            for k, part in enumerate(node):
                for new in hung(part, strain):
                    yield node[:k] + [new] + node[k + 1:]

    for shape in resolved_shapes(n - 1):
        for k, part in enumerate(shape):
            for new in hung(part, n - 1):
                yield shape[:k] + [new] + shape[k + 1:]


def unfitted():
    rng = random.Random(2511)
    out = [reading.bare_sheet(*A[:3])]
    anything = lambda n: [rng.randint(0, 50000) for _ in reading.pairs_of(n)]
    for n in (3, 4, 5, 6):
        for shape in resolved_shapes(n):
            out.append(reading.bare_sheet(n, anything(n), table_of(shape, n)))
    for n in (7, 8, 9, 10, 11, 12, 13, 17, 32, 33, 64):
        kinds = [caterpillar(n), balanced(n)] + [grown(n, rng, 2) for _ in range(6 if n < 17 else 1)]
        for shape in kinds:
            out.append(reading.bare_sheet(n, anything(n), table_of(shape, n)))
    # all alike, all zero, as far apart as may be
    for value in (0, 1, 50000):
        for n in (3, 5, 12):
            out.append(reading.bare_sheet(n, [value] * (n * (n - 1) // 2), table_of(caterpillar(n) if n > 3 else star(n), n)))
    # refused: each number, and 25 at the root and below it
    whole = reading.bare_sheet(*A[:3])
    out += [b"", whole[:5], whole[:-1], whole + b"\0", b"\0" * 5188, reading.sheet(*A)]
    out.append(reading.bare_sheet(2, [1], [2, 2]))
    out.append(reading.bare_sheet(65, [1] * (65 * 32), [65] * 65))
    out.append(reading.bare_sheet(4, [3, 7, 50001, 6, 9, 5], A[2]))
    out.append(reading.bare_sheet(4, A[1], [4, 4, 4]))
    out.append(whole[:26] + b"\5" + whole[27:])
    out.append(reading.bare_sheet(4, A[1], [4, 4, 5, 5, 4]))
    out.append(reading.bare_sheet(4, A[1], [5, 5, 5, 4, 5]))
    for strains, table in FAULTY:
        out.append(reading.bare_sheet(strains, [7] * (strains * (strains - 1) // 2), table))
    out += [whole[:20], whole[:25], whole[:24] + b"\3" + whole[25:], whole[:20] + b"\x08" + whole[21:], whole + whole]
    for shape, n in ((star(4), 4), ([[0, 1, 2], 3, 4], 5), ([[0, 1], 2, 3, 4], 5), ([[0, 1], [2, 3], 4, 5], 6), (star(64), 64),
                     ([[0, 1, 2], [3, 4, 5], 6], 7), ([[0, 1], [2, 3, 4], 5, 6, 7], 8)):
        out.append(reading.bare_sheet(n, anything(n), table_of(shape, n)))
    # a missing pair: 26 with no place, behind 7 to 10, 16 and 25; also where an edge parts nothing
    for k in range(6):
        gone = [MISSING if x == k else d for x, d in enumerate(A[1])]
        out.append(reading.bare_sheet(4, gone, A[2]))
        out.append(reading.bare_sheet(4, gone, [4, 4, 4, 4]))
        out.append(reading.bare_sheet(4, gone, [5, 4, 5, 5, 5]))
        out.append(reading.bare_sheet(4, gone, [0, 6, 5, 5, 5]))
        out.append(reading.bare_sheet(4, [65534 if x == (k + 1) % 6 else d for x, d in enumerate(gone)], A[2]))
    out.append(reading.bare_sheet(4, [MISSING] * 6, A[2]))
    out.append(reading.bare_sheet(4, [MISSING] * 3 + [6, 9, 5], A[2]))
    for n in (3, 5, 9, 12):
        for shape in (star(n), grown(n, rng, 2), grown(n, rng, 4)):
            out.append(reading.bare_sheet(n, lost(n, anything(n), rng), table_of(shape, n)))
    out.append(reading.bare_sheet(64, [50000] * 2015 + [MISSING], table_of(caterpillar(64), 64)))
    return out


def ties(prints):
    """How many lengths lie half way between two thousandths: positive with an even and an odd one below them, and
    negative likewise, the sign set aside."""
    kinds = []
    for lines in prints:
        head = lines[0].split()
        for row in [line.split() for line in lines if line.startswith("edge")]:
            twice = 2000 * Fraction(int(row[2]), int(head[3] if head[0] == "fit" else row[3]))
            if twice % 2 == 1:
                kinds.append((twice < 0, abs(twice) // 2 % 2))
    return [kinds.count((negative, odd)) for negative in (False, True) for odd in (0, 1)]


def numbers(prints):
    """The numbers of refusal among these prints."""
    return sorted({int(lines[0].split()[1]) for lines in prints if lines[0].startswith("refused")})


def main():
    if "--example" in sys.argv:
        show_example()
        return 0
    whole = sheets()
    gone, drawn = incomplete_sheets()
    made = whole + gone
    bare = unfitted()
    led = lambda kind, s: struct.pack("<I", len(s) | kind << 24) + s
    second = Second()
    given = (0, made), (1, bare), (2, second.sheets), (0, second.again)
    stdin = b"".join(led(kind, s) for kind, some in given for s in some)
    judged, resolved = [reading.print_of(s) for s in made], [reading.resolved_print(s, solver.solve) for s in bare]
    assert all(ties(judged)) and all(ties(resolved))
    assert numbers(judged) == [*range(1, 15), 16, 26] and numbers(resolved) == [*range(1, 11), 16, 25, 26]
    assert numbers(second.prints) == [*range(2, 15), 16, 22, 23, 26]
    due = judged + resolved + second.prints + second.again_prints
    stdout = "".join(" ".join(lines) + "\n" for lines in due).encode()
    files = {"stdin": stdin, "stdout": stdout}
    assert len(stdin) <= 524288  # what the program reads
    accepted = sum(1 for lines in judged if lines[0].startswith("fit "))
    of_gone = judged[len(whole):]
    told = ("%d with missing pairs: %d accepted, %d are 14, %d are 26, %d are 7; %d matrices drawn and fitted, %d of them with N above 12, "
            "%d with two different fits of one sum of squares; %d more beyond the limits") % (
        len(gone), *(sum(1 for lines in of_gone if lines[0].startswith(lead)) for lead in ("fit ", "refused 14 ", "refused 26 ", "refused 7")),
        len(drawn.fitted), sum(1 for x in drawn.fitted if x[0][0] > 12), drawn.several(), drawn.far)
    told += "\n" + second.told()
    assert all(lines[-1] == "mean none" for s, lines in zip(gone, of_gone) if lines[0].startswith("fit ") and MISSING in reading.read_sheet(s)[1][1])
    if "--check" in sys.argv:
        print(told)
        same = all(open(os.path.join(CRATE, name), "rb").read() == data for name, data in files.items())
        print("%d sheets, %d accepted; %d without lengths, %d resolved; %d bytes in all: %s" % (len(made), accepted, len(bare),
              stdout.count(b"resolved "), len(stdin), "as made" if same else "NOT as made"))
        return 0 if same else 1
    os.makedirs(CRATE, exist_ok=True)
    for name, data in files.items():
        with open(os.path.join(CRATE, name), "wb") as file:
            file.write(data)
    print(told)
    print("%d sheets, %d accepted, %d without lengths, %d resolved, ties %s and %s; %d bytes in all" % (len(made), accepted,
          len(bare), stdout.count(b"resolved "), ties(judged), ties(resolved), len(stdin)))
    return 0


if __name__ == "__main__":
    sys.exit(main())
