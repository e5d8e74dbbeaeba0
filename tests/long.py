#!/usr/bin/env python3
"""A plain reading of long sheets, for comparison. It shares nothing with the crates nor with bin/: a length is put together from its digits
as one of Python's whole numbers, and each edge's sum is worked with whole numbers.

A long sheet has the records of a matrix (kind 1) and a tree (kind 2) and one of long lengths (kind 4): L and K, two bytes each, D as L
digits, and L levels of K digits, one for each numerator. A digit is to the base 1,000,000 and has four bytes; those of D are unsigned, the others two's
complement. The highest digit and the highest level come first.

    1                above 30,393 bytes
    2, 3, 4          record by record; 4 for long lengths: a body below 4 bytes, or not of 4 + 4L(K+1)
    5                bytes behind the third record
    6 to 10, 16, 26  as of a sheet
    11, 12           K not V-1; L not 1 to 52, a digit of D above 999,999, or D zero
    13               a digit beyond 999,999 on either side, digits of both signs in one numerator, or a length beyond 100,000,000
    22, 14, 23       as of a sheet; the sum is cut off at 1,000,000,000,000 on either side

    tests/long.py --self         holds this reading to cases worked by hand, and its sums to those of reading.py
    tests/long.py --drive WORDS WORDS0
                                 starts the programs of bin/report --long and bin/report0 --long, each given by its words, on some of these sheets, and
                                 holds what they print to this reading
    tests/long.py --calls WORDS  makes long sheets, most of them damaged, and has both verdicts judge them by the program of tests/compare_long.c, given by
                                 its words; and pairs of a sheet and a long sheet with the same lengths, which must get the same numbers"""
import copy
import functools
import os
import random
import shlex
import struct
import subprocess
import sys
import time
from collections import Counter
from fractions import Fraction

import make_figures
import reading
import solver

BASE = 1_000_000
MAX_LONG = 30_393
MAX_LEVELS = 52
LONGEST = 100_000_000
CUT = 1_000_000_000_000
MISSING = reading.MISSING
PRIME = 2 ** 1279 - 1


# ---- the reading
def records_of(data):
    """1 to 5, or the three bodies."""
    if len(data) > MAX_LONG:
        return (1,), None
    at, bodies = 0, []
    for kind in (1, 2, 4):
        if len(data) - at < 6:
            return (2, "byte", at), None
        size, found = struct.unpack_from("<IH", data, at)
        if size > len(data) - at - 6:
            return (2, "byte", at), None
        if found != kind:
            return (3, "byte", at), None
        body = data[at + 6:at + 6 + size]
        if not of_its_length(kind, body):
            return (4, "byte", at), None
        bodies.append(body)
        at += 6 + size
    return ((5, "byte", at), None) if at < len(data) else (reading.PASS, bodies)


def of_its_length(kind, body):
    if kind == 1:
        return len(body) >= 2 and len(body) == 2 + (n := int.from_bytes(body[:2], "little")) * (n - 1)
    if len(body) < 4:
        return False
    one, other = struct.unpack_from("<HH", body)
    return (other > 0 and len(body) == 3 + other) if kind == 2 else len(body) == 4 + 4 * one * (other + 1)


class Equations:
    """The equations of a tree's edges beside a matrix: for each edge its split sum, and how many measured pairs it parts together with each
    other edge."""

    def __init__(self, n, distances, parents):
        measured = reading.measured_of(n, distances)
        with_strain = [0] * n
        for k, (_, i, j) in enumerate(measured):
            with_strain[i] |= 1 << k
            with_strain[j] |= 1 << k
        parted = []
        for cluster in reading.clusters(n, parents)[:-1]:
            # both ends of a pair below the edge take it out again
            parted.append(functools.reduce(lambda x, y: x ^ y, (with_strain[i] for i in cluster), 0))
        self.wanted = [sum(d for k, (d, _, _) in enumerate(measured) if pairs >> k & 1) for pairs in parted]
        self.shared = [[bin(one & other).count("1") for other in parted] for one in parted]

    def sums(self, denominator, numerators):
        return [denominator * wanted - sum(a * x for a, x in zip(row, numerators)) for wanted, row in zip(self.wanted, self.shared)]

    def unseen(self):
        """The lowest edge that parts no measured pair, or none."""
        return next((v for v, row in enumerate(self.shared) if row[v] == 0), None)


@functools.lru_cache(maxsize=64)
def front_of(first, second):
    """6 to 10, 16 and 26, or the equations; one front comes with many lengths, and is judged once."""
    n, distances, tree_n, parents = reading.read_front(first, second)
    answer = reading.matrix_answer(n, distances) or (() if tree_n == n else (8,)) or reading.tree_answer(n, parents)
    if answer:
        return answer, None
    equations = Equations(n, distances, parents)
    unseen = equations.unseen()
    return ((26, "edge", unseen), None) if unseen is not None else (reading.PASS, equations)


def value_of(digits):
    value = 0
    for digit in digits:
        value = value * BASE + digit
    return value


def lengths_of(third, edges):
    """11, 12 and 13, or the denominator and the numerators."""
    levels, k = struct.unpack_from("<HH", third)
    if k != edges:
        return (11,), None
    if not 1 <= levels <= MAX_LEVELS:
        return (12,), None
    top = struct.unpack_from("<%dI" % levels, third, 4)
    denominator = value_of(top)
    if max(top) >= BASE or denominator == 0:
        return (12,), None
    table = struct.unpack_from("<%di" % (levels * k), third, 4 + 4 * levels)
    numerators = []
    for v in range(k):
        digits = table[v::k]
        numerators.append(value_of(digits))
        if max(map(abs, digits)) >= BASE or min(digits) < 0 < max(digits) or abs(numerators[-1]) > LONGEST * denominator:
            return (13, "edge", v), None
    return reading.PASS, (denominator, numerators)


def answers(data):
    """What each of the two rules says."""
    answer, bodies = records_of(data)
    if answer:
        return answer, answer
    answer, equations = front_of(*bodies[:2])
    if answer:
        return answer, answer
    answer, lengths = lengths_of(bodies[2], len(equations.wanted))
    if answer:
        return answer, answer
    sums = equations.sums(*lengths)
    return tuple(by_rule(rule, lengths[1], sums) for rule in (reading.PLAIN, reading.DRAWABLE))


def by_rule(rule, numerators, sums):
    for number, with_sum, at_fault in rule.tests:
        for v, (x, found) in enumerate(zip(numerators, sums)):
            if at_fault(x, found):
                return (number, "edge", v) + ((max(-CUT, min(CUT, found)),) if with_sum else ())
    return reading.PASS


def prints(data):
    """What the two programs print."""
    _, bodies = records_of(data)
    due = answers(data)
    if reading.PASS in due:
        n, distances, _, parents = reading.read_front(*bodies[:2])
        report = reading.Report(n, distances, parents, *lengths_of(bodies[2], len(parents))[1])
    rules = (reading.PLAIN, reading.DRAWABLE)
    return tuple([reading.refused_line(answer)] if answer else report.lines(rule) for answer, rule in zip(due, rules))


def numbers_of(data):
    return tuple(reading.number_of(answer) for answer in answers(data))


# ---- fits
def solved(equations, loose):
    """Lengths whose sums are zero at these edges, the others being zero: solved modulo a prime, read back as fractions. A length that is not
    settled is zero."""
    work = [[equations.shared[u][v] for v in loose] + [equations.wanted[u]] for u in loose]
    taken, done = [], 0
    for column in range(len(loose)):
        pivot = next((r for r in range(done, len(loose)) if work[r][column]), None)
        if pivot is None:
            continue
        work[done], work[pivot] = work[pivot], work[done]
        inverse = pow(work[done][column], -1, PRIME)
        top = work[done][column:] = [x * inverse % PRIME for x in work[done][column:]]
        for r in range(done + 1, len(loose)):
            factor = work[r][column]
            if factor:
                work[r][column:] = [(x - factor * y) % PRIME for x, y in zip(work[r][column:], top)]
        taken.append(column)
        done += 1
    residues = [0] * len(loose)
    for row, column in reversed(list(zip(work, taken))):
        residues[column] = (row[-1] - sum(x * y for x, y in zip(row[column + 1:-1], residues[column + 1:]))) % PRIME
    lengths = [Fraction(0)] * len(equations.wanted)
    for v, residue in zip(loose, residues):
        lengths[v] = fraction_of(residue)
    found = equations.sums(*solver.common(lengths))
    assert not any(found[v] for v in loose), "the prime is too small for this fit"
    return lengths


def fraction_of(residue):
    r0, r1, s0, s1 = PRIME, residue, 0, 1
    while r1 >> 639:
        q = r0 // r1
        r0, r1, s0, s1 = r1, r0 - q * r1, s1, s0 - q * s1
    return Fraction(r1, s1)


def plain_fit(n, distances, parents, equations):
    return solved(equations, list(range(len(parents)))) if MISSING in distances else solver.solve(n, distances, parents)


def held(equations):
    """Lengths of zero or more, the ones that would be negative held at zero: often, not always, the best of these."""
    loose = list(range(len(equations.wanted)))
    while True:
        lengths = solved(equations, loose)
        if min(lengths) >= 0:
            return lengths
        loose = [v for v in loose if lengths[v] > 0]


# ---- long sheets
def digits_of(value, levels):
    """The digits of a number, highest first; all of its sign."""
    digits, left = [], abs(value)
    for _ in range(levels):
        left, digit = divmod(left, BASE)
        digits.append(-digit if value < 0 else digit)
    assert left == 0
    return digits[::-1]


def levels_for(denominator, numerators):
    most = max([denominator] + [abs(x) for x in numerators])
    return next(k for k in range(1, 200) if most < BASE ** k)


class Page:
    """A long sheet that is being made. Counts are written as they stand here, whatever the tables have; `size` is added to the length in
    the third record's head, and `kinds` are those of the heads."""

    def __init__(self, n, distances, parents, denominator, numerators, levels=None):
        self.n = self.tree_n = n
        self.distances, self.parents, self.v = list(distances), list(parents), len(parents) + 1
        self.kinds, self.size, self.behind = [1, 2, 4], 0, b""
        self.order = [0, 1, 2]
        self.set_lengths(denominator, numerators, levels)

    def set_lengths(self, denominator, numerators, levels=None):
        self.denominator, self.numerators = denominator, list(numerators)
        self.levels, self.k = levels or levels_for(denominator, numerators), len(numerators)
        self.top = digits_of(denominator, self.levels)
        self.table = [digits_of(x, self.levels) for x in numerators]

    def third(self):
        return (struct.pack("<HH", self.levels & 0xffff, self.k & 0xffff) + b"".join(struct.pack("<I", x & 0xffffffff) for x in self.top)
                + b"".join(struct.pack("<%di" % len(level), *level) for level in zip(*self.table)))

    def data(self):
        bodies = [struct.pack("<H%dH" % len(self.distances), self.n, *self.distances),
                  struct.pack("<HH", self.tree_n, self.v & 0xffff) + bytes(self.parents), self.third()]
        whole = [struct.pack("<IH", max(0, len(body) + (self.size if k == 2 else 0)), self.kinds[k]) + body for k, body in enumerate(bodies)]
        return b"".join(whole[k] for k in self.order) + self.behind


# ---- how long sheets are hurt; each way has the page and chance, and gives the bytes, or nothing where it has no place there
WAYS = []


def way(count=1):
    def added(hurt):
        WAYS.append((hurt, count))
        return hurt
    return added


def some_digit(page, rng, wanted=lambda x: True):
    """The numbers of an edge and a level whose digit is as wanted, where there is one."""
    places = [(v, k) for v, digits in enumerate(page.table) for k, x in enumerate(digits) if wanted(x)]
    return rng.choice(places) if places else None


@way(2)
def as_it_is(page, rng):
    return page.data()


@way(4)
def towards_zero(page, rng):
    if at := some_digit(page, rng, lambda x: x != 0):
        v, k = at
        page.table[v][k] -= 1 if page.table[v][k] > 0 else -1
        return page.data()


@way(4)
def away_from_zero(page, rng):
    v, k = some_digit(page, rng)
    page.table[v][k] += 1 if max(page.table[v]) > 0 else -1
    return page.data()


@way(8)
def set_digit(page, rng):
    v, k = some_digit(page, rng)
    page.table[v][k] = rng.choice((1, -1)) * rng.choice((999_999, 1_000_000, 1_000_001, 2 ** 31 - 1))
    if rng.random() < 0.2:
        page.table[v][k] = rng.choice((-2 ** 31, 1 - 2 ** 31))
    return page.data()


@way(2)
def last_digit_of_all(page, rng):
    """Every numerator one more in its lowest digit, where its sign stays."""
    for digits in page.table:
        digits[-1] += 1 if min(digits) >= 0 else -1
    return page.data()


@way(3)
def both_signs(page, rng):
    """The same value in digits of both signs."""
    if page.levels < 2:
        page.set_lengths(page.denominator, page.numerators, 2)
    v, k = some_digit(page, rng)
    k = min(k, page.levels - 2)
    sign = -1 if page.numerators[v] < 0 else 1
    page.table[v][k] += sign
    page.table[v][k + 1] -= sign * BASE
    return page.data()


@way(2)
def one_sign_turned(page, rng):
    if at := some_digit(page, rng, lambda x: x != 0):
        v, k = at
        page.table[v][k] *= -1
        return page.data()


@way(1)
def carried_wrongly(page, rng):
    """The same value with a digit of a numerator above 999,999."""
    if page.levels > 1 and (at := some_digit(page, rng, lambda x: x != 0)):
        v, k = at
        if k + 1 < page.levels:
            sign = 1 if page.table[v][k] > 0 else -1
            page.table[v][k] -= sign
            page.table[v][k + 1] += sign * BASE
            return page.data()


@way(1)
def denominator_carried_wrongly(page, rng):
    k = rng.randrange(page.levels)
    if page.top[k] and k + 1 < page.levels:
        page.top[k] -= 1
        page.top[k + 1] += BASE
        return page.data()


@way(5)
def hurt_denominator(page, rng):
    kind, k = rng.randrange(7), rng.randrange(page.levels)
    if kind == 0:
        page.top = [0] * page.levels
    elif kind == 1:
        page.top.reverse()
    elif kind == 2:
        page.top[k] = rng.choice((1_000_000, 1_000_001, 2 ** 31, 2 ** 32 - 1, 2 ** 32 - 1_000_000))
    elif kind == 3:
        page.top[k] = 999_999
    elif kind == 4:
        page.top[k] = max(0, page.top[k] - 1)
    elif kind == 5:
        page.top[k] += 1
    else:
        page.top[k] = 0
    return page.data()


@way(1)
def denominator_one(page, rng):
    page.top = [0] * (page.levels - 1) + [1]
    return page.data()


@way(3)
def levels_stated(page, rng):
    """Another L over the same body."""
    page.levels = rng.choice((0, 1, 52, 53, 65_535, page.levels + 1, page.levels - 1, 32_768))
    return page.data()


@way(4)
def levels_followed(page, rng):
    """Another L, and a body that follows it."""
    most = 40_000 // (4 * page.k + 4)
    levels = min(most, rng.choice((0, 53, 54, 60, 255, 256, page.levels + 1, page.levels - 1, rng.randrange(53, 2000))))
    page.levels, have = levels, page.levels
    at_front = rng.random() < 0.5
    for digits in [page.top] + page.table:
        digits[:] = digits[have - levels if at_front else 0:][:levels] if levels <= have else (
            [0] * (levels - have) + digits if at_front else digits + [0] * (levels - have))
    return page.data()


@way(2)
def edges_stated(page, rng):
    page.k = rng.choice((0, page.k - 1, page.k + 1, 65_535, page.k + 256))
    return page.data()


@way(3)
def edges_followed(page, rng):
    if rng.random() < 0.5:
        page.table.append([0] * page.levels)
    else:
        page.table.pop()
    page.k = len(page.table)
    return page.data()


@way(1)
def counts_that_wrap(page, rng):
    """4L(K+1) is a multiple of a power of two, and the body has no digit, or one."""
    page.levels, page.k = rng.choice(((32_768, 32_767), (16_384, 65_535), (256, 255), (65_535, 65_535), (32_768, 1)))
    page.top, page.table = [1] * rng.randrange(2), []
    return page.data()


@way(3)
def leading_zeros(page, rng):
    """The same value with more digits, 52 of them as often as not: it must get the same numbers."""
    page.set_lengths(page.denominator, page.numerators, rng.choice((MAX_LEVELS, rng.randint(page.levels, MAX_LEVELS))))
    return page.data()


@way(1)
def most_levels(page, rng):
    page.set_lengths(page.denominator, page.numerators, MAX_LEVELS)
    return page.data()


@way(3)
def times(page, rng):
    """A common factor: it must get the same numbers."""
    factor = rng.choice((2, 3, 7, 999_999, BASE, BASE ** 3, BASE ** (MAX_LEVELS - page.levels), rng.getrandbits(200) + 1))
    if levels_for(page.denominator * factor, [x * factor for x in page.numerators]) <= MAX_LEVELS:
        page.set_lengths(page.denominator * factor, [x * factor for x in page.numerators])
        return page.data()


@way(1)
def digits_doubled(page, rng):
    """Every digit twice as large: it gets the same numbers where none is too large then."""
    for digits in [page.top] + page.table:
        digits[:] = [2 * x for x in digits]
    return page.data()


@way(1)
def trailing_zeros(page, rng):
    """Every digit a place higher."""
    if page.levels < MAX_LEVELS:
        page.set_lengths(page.denominator * BASE, [x * BASE for x in page.numerators])
        return page.data()


@way(4)
def longest_length(page, rng):
    """A length of 100,000,000 on either side, one less or more in its numerator."""
    v, sign = rng.randrange(page.k), rng.choice((1, -1))
    page.numerators[v] = sign * (LONGEST * page.denominator + rng.choice((0, 0, 1, 1, -1, page.denominator)))
    if levels_for(page.denominator, page.numerators) <= MAX_LEVELS:
        page.set_lengths(page.denominator, page.numerators, max(page.levels, levels_for(page.denominator, page.numerators)))
        return page.data()


@way(3)
def body_cut(page, rng):
    """Cut, with its head as it was or following."""
    data, gone = page.data(), rng.choice((1, 2, 3, 4, 4 * page.levels, 4 * page.k, rng.randrange(1, len(page.third()) + 1)))
    gone = min(gone, len(page.third()))
    if rng.random() < 0.5:
        return data[:-gone]
    page.size = -gone
    return page.data()[:-gone]


@way(2)
def body_longer(page, rng):
    more = bytes(rng.choice((1, 2, 4, 4 * page.levels, 4 * (page.k + 1), rng.randrange(1, 200))))
    if rng.random() < 0.5:
        page.size = len(more)
    page.behind = more
    return page.data()


@way(1)
def head_says_more(page, rng):
    page.size = rng.choice((1, 4, 65_536, 2 ** 31, 2 ** 32 - 1 - len(page.third())))
    return page.data()


@way(1)
def up_to_the_most(page, rng):
    """As many bytes as a long sheet may have, and one more."""
    data = page.data()
    return data + bytes(max(0, MAX_LONG + rng.choice((0, 0, 1, 1, 5000)) - len(data)))


@way(2)
def order_of_records(page, rng):
    page.order = rng.choice(([1, 0, 2], [0, 2, 1], [2, 1, 0], [0, 1], [0, 2], [0], [2], [], [0, 0, 1, 2], [0, 1, 1, 2], [0, 1, 2, 2]))
    return page.data()


@way(2)
def kinds(page, rng):
    page.kinds[rng.choice((0, 1, 2, 2, 2))] = rng.choice((0, 1, 2, 3, 3, 3, 5, 260, 1024, 65_535))
    return page.data()


@way(1)
def short_lengths(page, rng):
    """A sheet of the other form, or one without lengths."""
    bare = page.data()[:12 + 2 + 2 * len(page.distances) + 4 + len(page.parents)]
    numerators = [max(-10 ** 11, min(10 ** 11, x)) for x in page.numerators]
    short = reading.sheet(page.n, page.distances, page.parents, min(page.denominator, 10 ** 6), numerators)
    return rng.choice((bare, short, short))


@way(6)
def flipped(page, rng):
    """Some bytes of any place, or of the heads and counts."""
    data = bytearray(page.data())
    heads = [0, 12 + len(page.distances) * 2 - 4, 12 + 2 + 2 * len(page.distances) + 4 + len(page.parents)]
    for _ in range(rng.choice((1, 1, 1, 2, 3))):
        at = rng.randrange(len(data)) if rng.random() < 0.5 else min(len(data) - 1, rng.choice(heads) + rng.randrange(12))
        data[at] = rng.choice((data[at] ^ 1 << rng.randrange(8), 0, 255, rng.randrange(256)))
    return bytes(data)


@way(2)
def cut_anywhere(page, rng):
    data = page.data()
    return data[:rng.randrange(len(data))]


@way(2)
def strains(page, rng):
    """N of the matrix from 0 to the most that there is room for, with as many distances; the tree's as it was or following."""
    page.n = rng.choice((0, 1, 2, 65, 65, 66, 72, 100, 120, page.n + 1, page.n - 1))
    page.distances = [rng.randint(0, 50_000) for _ in range(max(0, page.n * (page.n - 1) // 2))]
    if rng.random() < 0.5:
        page.tree_n = page.n
    return page.data()


@way(2)
def a_distance(page, rng):
    page.distances[rng.randrange(len(page.distances))] = rng.choice((50_000, 50_001, 65_534, 65_535, 0, rng.randrange(50_001)))
    return page.data()


@way(2)
def read_again(page, rng):
    """One distance a unit more or less, and the old lengths: stale."""
    at = rng.choice([k for k, d in enumerate(page.distances) if d != MISSING])
    page.distances[at] += 1 if page.distances[at] < 50_000 else -1
    return page.data()


@way(2)
def unseen_edge(page, rng):
    """The pairs that one edge parts are all missing."""
    cluster = reading.clusters(page.n, page.parents)[rng.randrange(len(page.parents))]
    for k, (i, j) in enumerate(reading.pairs_of(page.n)):
        if (i in cluster) != (j in cluster):
            page.distances[k] = MISSING
    return page.data()


@way(4)
def hurt_tree(page, rng):
    kind, v = rng.randrange(6), rng.randrange(len(page.parents))
    if kind == 0:
        page.tree_n = rng.choice((0, page.n - 1, page.n + 1, 65))
    elif kind == 1:
        page.parents[v] = rng.choice((0, v, page.n - 1, page.n, max(0, v - 1)))
    elif kind == 2:
        page.parents[v] = min(255, rng.choice((page.v, page.v + 1, 255)))
    elif kind == 3:
        page.parents[v] = rng.randrange(max(v + 1, page.n), page.v)
    elif kind == 4:
        page.v = rng.choice((0, 1, page.v - 1, page.v + 1, 65_535))
    else:
        if rng.random() < 0.5:
            page.parents.pop()
        else:
            page.parents.append(min(255, page.v))
        page.v = len(page.parents) + 1
    return page.data()


@way(3)
def negated(page, rng):
    """One numerator with the other sign, or all."""
    which = range(page.k) if rng.random() < 0.2 else [rng.randrange(page.k)]
    page.set_lengths(page.denominator, [-x if v in which else x for v, x in enumerate(page.numerators)], page.levels)
    return page.data()


@way(3)
def put_to_zero(page, rng):
    """One numerator, or all."""
    which = range(page.k) if rng.random() < 0.2 else [rng.randrange(page.k)]
    page.set_lengths(page.denominator, [0 if v in which else x for v, x in enumerate(page.numerators)], page.levels)
    return page.data()


@way(4)
def moved_by_a_power_of_two(page, rng):
    """A numerator or the denominator moved by a multiple of a power of two: every sum is then off by a multiple of it."""
    by = rng.choice((1, -1, 3)) << rng.choice((16, 31, 32, 63, 64, 64, 65, 128))
    v = rng.randrange(-1, page.k)
    denominator = abs(page.denominator + by) if v < 0 else page.denominator
    numerators = [x + (by if v == k else 0) for k, x in enumerate(page.numerators)]
    # a length may be no longer than before where it is to pass 13
    if max(map(abs, numerators)) > LONGEST * denominator:
        factor = abs(by)
        denominator, numerators = page.denominator * factor, [x * factor for x in page.numerators]
        numerators[v] += by
    if denominator and levels_for(denominator, numerators) <= MAX_LEVELS:
        page.set_lengths(denominator, numerators)
        return page.data()


@way(2)
def digits_of_any_kind(page, rng):
    """Digits drawn level by level, all small, all at their limit, or of one sign an edge."""
    kind = rng.randrange(3)
    for digits in page.table:
        sign = rng.choice((1, -1))
        digits[:] = [sign * rng.choice(((0, 1), (999_999,), (0, 1, 999_999, rng.randrange(BASE)))[kind]) for _ in digits]
    if rng.random() < 0.5:
        page.top = [999_999] * page.levels
    return page.data()


IN_TURN = (unseen_edge, a_distance, hurt_tree, strains, set_digit, hurt_denominator, edges_followed, levels_followed, kinds, body_longer)


@way(8)
def several_faults(page, rng):
    """Two or three at once, of which the first in the order of the tests counts."""
    chosen = rng.sample(range(len(IN_TURN)), rng.choice((2, 2, 3)))
    for k in sorted(chosen):
        IN_TURN[k](page, rng)
    return page.data()


SAME = (leading_zeros, most_levels, times, trailing_zeros)  # the lengths stay what they are


# ---- what is hurt
def some_shape(rng, n):
    return rng.choice((make_figures.grown(n, rng, 2), make_figures.grown(n, rng, 2), make_figures.grown(n, rng, 3), make_figures.grown(n, rng, 5),
                       make_figures.star(n), make_figures.caterpillar(n) if n > 3 else make_figures.star(n)))


def some_distances(rng, n, parents):
    """Whole numbers at random, or the paths of a tree with a little more or less."""
    if rng.random() < 0.4:
        most = rng.choice((1, 9, 999, 50_000))
        return [rng.randint(0, most) for _ in reading.pairs_of(n)]
    return near_tree(rng, n, parents, [rng.choice((0, 1, 40, rng.randint(20, 700))) for _ in parents], rng.choice((0, 1, 5, 50)))


def near_tree(rng, n, parents, lengths, noise):
    below = reading.clusters(n, parents)
    return [max(0, min(50_000, reading.path(below, lengths, i, j) + rng.randint(-noise, noise))) for i, j in reading.pairs_of(n)]


def thinned(rng, n, distances, parents):
    """With missing pairs, few or many, that leave no edge unseen."""
    for _ in range(9):
        share = rng.choice((0.02, 0.1, 0.3, 0.6))
        left = [MISSING if rng.random() < share else d for d in distances]
        if left != distances and Equations(n, left, parents).unseen() is None:
            return left
    return distances


def some_page(rng, n, kind):
    """A matrix and a tree, with the plain fit (0), with negative lengths held at zero (1), or, where a length can be chosen, a fit with a length
    at its limit (2)."""
    parents = make_figures.table_of(some_shape(rng, n), n)
    distances = some_distances(rng, n, parents)
    if kind == 2 or rng.random() < 0.5:
        distances = thinned(rng, n, distances, parents)
    equations = Equations(n, distances, parents)
    lengths = held(equations) if kind == 1 else plain_fit(n, distances, parents, equations)
    if kind == 2:
        measured = solver.Measured(n, distances, parents)
        if measured.free:
            at, far = rng.choice(measured.free), rng.choice((1, -1)) * LONGEST
            lengths = measured.fit(lambda v: far if v == at else 0)
    denominator, numerators = solver.common(lengths)
    return Page(n, distances, parents, denominator, numerators)


def pages(rng):
    """The tables that are hurt, each with how often."""
    for turn in range(330):
        yield some_page(rng, 3 + turn % 8, (0, 1, 2, 0)[turn // 8 % 4]), 50
    for turn in range(60):
        yield some_page(rng, rng.randint(11, 20), turn % 2), 60
    for turn in range(16):
        yield some_page(rng, rng.randint(21, 32), turn % 2), 60
    for n, share, kind, near in ((40, 0, 0, 0), (40, 0.2, 0, 0), (40, 0.1, 1, 1), (64, 0, 0, 0), (64, 0.02, 0, 0), (64, 0.05, 0, 1)):
        parents = make_figures.table_of(make_figures.grown(n, rng, 3 if n == 40 and share == 0.2 else 2), n)
        distances = near_tree(rng, n, parents, [rng.randint(40, 700) for _ in parents], 9) if near else [rng.randint(0, 50_000) for _ in reading.pairs_of(n)]
        distances = [MISSING if rng.random() < share else d for d in distances]
        equations = Equations(n, distances, parents)
        lengths = held(equations) if kind else plain_fit(n, distances, parents, equations)
        yield Page(n, distances, parents, *solver.common(lengths)), 120


def sheets(rng, tally):
    """Long sheets, the ones that are hurt in every way first."""
    weighted = [hurt for hurt, count in WAYS for _ in range(count)]
    for page, count in pages(rng):
        whole = page.data()
        due = numbers_of(whole)
        tally.fit(page, due)
        rng.shuffle(weighted)
        for hurt in [as_it_is, most_levels] + (weighted * 2)[:count]:
            copied = copy.deepcopy(page)
            if hurt not in SAME and rng.random() < 0.1:
                rng.choice((leading_zeros, longest_length, negated, read_again))(copied, rng)
            data = hurt(copied, rng)
            if data is not None:
                if hurt in SAME:
                    tally.same(numbers_of(data) == due, hurt.__name__)
                yield data


def every_small_change(rng):
    """A small long sheet cut at every length, and with each of its bytes changed."""
    whole = Page(*make_figures.A, levels=2).data()
    for k in range(len(whole) + 1):
        yield whole[:k]
        yield whole[:k] + bytes([rng.randrange(256)])
    for k in range(len(whole)):
        for x in (whole[k] ^ 1, whole[k] ^ 128, 255 - whole[k], rng.randrange(256)):
            yield whole[:k] + bytes([x]) + whole[k + 1:]


def examples():
    folder = os.path.join(os.path.dirname(os.path.abspath(__file__)), "..", "examples")
    names = sorted(name for name in os.listdir(folder) if name.endswith(".long"))
    return [open_bytes(os.path.join(folder, name)) for name in names]


def open_bytes(path):
    with open(path, "rb") as file:
        return file.read()


# ---- a sheet and a long sheet with the same lengths
def twins(rng, count):
    """Pairs that must get the same numbers: what is hurt is in both forms, and the ranges of both pass."""
    made = 0
    hurts = (a_distance, read_again, unseen_edge, hurt_tree, strains, negated, put_to_zero, edges_followed, None, None)
    while made < count:
        page = some_page(rng, rng.randint(3, 9), rng.randrange(2))
        if page.denominator > BASE:
            continue
        for hurt in hurts * 2:
            copied = copy.deepcopy(page)
            if rng.random() < 0.3:
                v = rng.randrange(copied.k)
                copied.numerators[v] += rng.choice((1, -1, copied.denominator, -copied.denominator, 10 ** 6))
                copied.set_lengths(copied.denominator, copied.numerators)
            if hurt is not None:
                hurt(copied, rng)
            # what stands in the digits now
            numerators = [value_of(digits) for digits in copied.table]
            long = copied.data()
            third = reading.record(3, struct.pack("<IH", copied.denominator, len(numerators)) + b"".join(struct.pack("<q", x) for x in numerators))
            short = long[:-6 - len(copied.third())] + third
            if len(short) <= reading.MAX_SHEET and all(abs(x) <= min(10 ** 11, LONGEST * copied.denominator) for x in numerators):
                yield short, long
                made += 1


# ---- the verdicts from C
class Tally:
    def __init__(self):
        self.passed = self.failed = self.pages = 0
        self.due = (Counter(), Counter())
        self.decimals, self.levels, self.strains = Counter(), Counter(), Counter()
        self.classes = Counter()

    def say(self, words):
        self.failed += 1
        if self.failed <= 20:
            print(words)

    def fit(self, page, due):
        self.pages += 1
        self.decimals[len(str(page.denominator)) // 10 * 10] += 1
        self.strains[page.n] += 1
        zero = 0 in page.numerators
        self.classes["tables accepted by both"] += due == (0, 0)
        self.classes["tables accepted by the plain rule, negative lengths"] += due == (0, 22)
        self.classes["tables accepted by the other alone, with lengths of zero"] += due == (14, 0) and zero
        self.classes["tables accepted by both, with lengths of zero"] += due == (0, 0) and zero
        self.classes["tables with 23"] += due[1] == 23
        self.classes["tables accepted, with a length of 100,000,000"] += due[0] == 0 and LONGEST * page.denominator in map(abs, page.numerators)
        self.classes["tables accepted, with missing pairs"] += due[0] == 0 and MISSING in page.distances
        self.classes["tables accepted, of unresolved trees"] += due[0] == 0 and len(page.parents) < 2 * page.n - 3

    def sheet(self, data, due):
        for k in (0, 1):
            self.due[k][due[k]] += 1
        if due[0] == 0:
            self.levels[struct.unpack_from("<H", records_of(data)[1][2])[0]] += 1
            self.classes["sheets of 30,393 bytes, accepted"] += len(data) == MAX_LONG

    def same(self, fine, what):
        if not fine:
            self.say("the reading: %s changed the numbers" % what)

    def see(self, what, data, seen, due):
        if seen == due:
            self.passed += 1
        else:
            self.say("%s of %d bytes: seen %s, due %s: %s" % (what, len(data), seen, due, data[:150].hex()))


def seen_by(words, cases):
    """The numbers that the program prints for these sheets, each with its kind before it."""
    given = b"".join(struct.pack("<II", kind, len(data)) + data for kind, data in cases)
    done = subprocess.run(words, input=given, stdout=subprocess.PIPE, stderr=subprocess.PIPE)
    lines = [tuple(map(int, line.split())) for line in done.stdout.split(b"\n")[:-1]]
    if done.returncode or done.stderr or len(lines) != len(cases):
        print("the verdicts ended with %d after %d of %d sheets: %s" % (done.returncode, len(lines), len(cases), done.stderr[:600].decode("latin-1")))
        return None
    return lines


PLAIN_NUMBERS = (0, 1, 2, 3, 4, 5, 6, 7, 8, 9, 10, 11, 12, 13, 14, 16, 26)
DUE = (PLAIN_NUMBERS, PLAIN_NUMBERS + (22, 23))
LEAST = 40


def drive(words):
    rng, tally, began = random.Random(30_393), Tally(), time.monotonic()
    made = list(sheets(rng, tally)) + list(every_small_change(rng)) + examples()
    lines = seen_by(words, [(4, data) for data in made])
    pairs = list(twins(random.Random(5_187), 4_000))
    both = seen_by(words, [(kind, data) for pair in pairs for kind, data in zip((3, 4), pair)])
    if lines is None or both is None:
        print("0 passed, 1 failed")
        return 1
    for data, seen in zip(made, lines):
        due = numbers_of(data)
        tally.sheet(data, due)
        tally.see("a long sheet", data, seen, due)
    compared = Counter()
    for k, (short, long) in enumerate(pairs):
        one, other = both[2 * k], both[2 * k + 1]
        compared[other[1]] += 1
        tally.see("a long sheet with a short twin", long, other, one)
        tally.see("a short twin", short, one, tuple(reading.number_of(reading.sheet_answer(short, rule)) for rule in (reading.PLAIN, reading.DRAWABLE)))
    listed = lambda counts: ", ".join("%s %d" % item for item in sorted(counts.items()))
    print("%d long sheets made of %d tables; both verdicts on each" % (len(made), tally.pages))
    print("tables by strains: %s" % listed(tally.strains))
    print("tables by the decimals of D, in tens: %s" % listed(tally.decimals))
    print("accepted sheets by L: %s" % listed(tally.levels))
    for what, count in sorted(tally.classes.items()):
        print("%s: %d" % (what, count))
        if count < 5:
            tally.say("too few: %s" % what)
    for name, counts, numbers in zip(("the plain rule", "the other rule"), tally.due, DUE):
        print("%s: %s" % (name, listed(counts)))
        for number in numbers:
            if counts[number] < LEAST:
                tally.say("%s: only %d times %d" % (name, counts[number], number))
        if set(counts) - set(numbers):
            tally.say("%s: a number that is no long sheet's, %s" % (name, sorted(set(counts) - set(numbers))))
    if set(tally.levels) != set(range(1, MAX_LEVELS + 1)):
        tally.say("no accepted sheet has L = %s" % sorted(set(range(1, MAX_LEVELS + 1)) - set(tally.levels)))
    if len(made) < 20_000:
        tally.say("only %d long sheets" % len(made))
    print("%d pairs of a sheet and a long sheet, by the other rule: %s" % (len(pairs), listed(compared)))
    print("%.0f s" % (time.monotonic() - began))
    print("%d passed, %d failed" % (tally.passed, tally.failed))
    return 1 if tally.failed else 0


# ---- cases worked by hand
# sheet A in the long form, byte by byte: L = 1, K = 5, D = 2, numerators 3 3 3 7 7
FRONT_A = "0e000000 0100 0400 0300 0700 0800 0600 0900 0500  09000000 0200 0400 0600 04 04 05 05 05"
LONG_A = bytes.fromhex(FRONT_A + "1c000000 0400 0100 0500 02000000 03000000 03000000 03000000 07000000 07000000")
# over 2,000,000: the highest digits 2, 3 3 3 7 7 and below them zeros
MILLIONS_A = bytes.fromhex(FRONT_A + "34000000 0400 0200 0500 02000000 00000000" + "03000000" * 3 + "07000000" * 2 + "00000000" * 5)
# three strains at 1 1 4: the plain fit -1 2 2, and 0 5 5 over 3
THREE = "08000000 0100 0300 0100 0100 0400  07000000 0200 0300 0400 03 03 03"
NEGATIVE = bytes.fromhex(THREE + "14000000 0400 0100 0300 01000000 ffffffff 02000000 02000000")
DRAWN = bytes.fromhex(THREE + "14000000 0400 0100 0300 03000000 00000000 05000000 05000000")
# the same distances with 4 1 1: edge 0 at zero, where a longer one fits better
PULLED = bytes.fromhex("08000000 0100 0300 0400 0400 0100  07000000 0200 0300 0400 03 03 03  14000000 0400 0100 0300 02000000 00000000 01000000 01000000")


def put_in(data, at, text):
    new = bytes.fromhex(text)
    return data[:at] + new + data[at + len(new):]


BY_HAND = [
    (LONG_A, (), ()),
    (MILLIONS_A, (), ()),
    (NEGATIVE, (), (22, "edge", 0)),
    (DRAWN, (14, "edge", 0, -4), ()),
    # remainders over 2: 4·2 - 1, 4·2 - 1, 1·2 - 2; the sums are 14, 7, 7
    (PULLED, (14, "edge", 0, 14), (14, "edge", 1, 7)),
    (b"", (2, "byte", 0), (2, "byte", 0)),
    (LONG_A[:-1], (2, "byte", 35), (2, "byte", 35)),
    (LONG_A + b"\0", (5, "byte", 69), (5, "byte", 69)),
    (bytes(MAX_LONG), (3, "byte", 0), (3, "byte", 0)),
    (bytes(MAX_LONG + 1), (1,), (1,)),
    (put_in(LONG_A, 39, "0300"), (3, "byte", 35), (3, "byte", 35)),
    (put_in(LONG_A, 39, "0401"), (3, "byte", 35), (3, "byte", 35)),
    (put_in(LONG_A, 41, "0200"), (4, "byte", 35), (4, "byte", 35)),
    (put_in(LONG_A, 43, "0400"), (4, "byte", 35), (4, "byte", 35)),
    (bytes.fromhex(FRONT_A + "03000000 0400 010005"), (4, "byte", 35), (4, "byte", 35)),
    (bytes.fromhex(FRONT_A + "04000000 0400 0000 0500"), (12,), (12,)),
    (bytes.fromhex(FRONT_A + "04000000 0400 0000 0400"), (11,), (11,)),
    (bytes.fromhex(FRONT_A + "04000000 0400 0080 ff7f"), (4, "byte", 35), (4, "byte", 35)),
    (put_in(LONG_A, 45, "00000000"), (12,), (12,)),
    (put_in(LONG_A, 45, "40420f00"), (12,), (12,)),
    # the last numerator 6, and a millionth of the unit less
    (put_in(LONG_A, 65, "06000000"), (14, "edge", 0, 2), (14, "edge", 0, 2)),
    (put_in(put_in(MILLIONS_A, 69, "06000000"), 89, "3f420f00"), (14, "edge", 0, 2), (14, "edge", 0, 2)),
    # 7 and 0 written as 8 and -1,000,000, and as 7 and 1,000,000
    (put_in(put_in(MILLIONS_A, 69, "08000000"), 89, "c0bdf0ff"), (13, "edge", 4), (13, "edge", 4)),
    (put_in(MILLIONS_A, 89, "40420f00"), (13, "edge", 4), (13, "edge", 4)),
    # 100,000,000 over 2 passes 13, where 200,000,000 is the most: digits 100 and 0, and the denominator 0 and 2. Edge 0 has 2·18 - (103 + 110 + 114)·1,000,000
    (put_in(put_in(MILLIONS_A, 45, "00000000 02000000"), 53, "64000000"), (14, "edge", 0, -326999964), (14, "edge", 0, -326999964)),
]


def check_by_hand():
    for data, plain, drawable in BY_HAND:
        seen = answers(data)
        assert seen == (plain, drawable), (data.hex(), seen, plain, drawable)
    # a length of 100,000,000 exactly, and one more in its lowest digit
    page = Page(*make_figures.A)
    for more, number in ((0, 14), (1, 13)):
        page.set_lengths(2, [3, 3, 3, 7, 200_000_000 + more])
        assert numbers_of(page.data()) == (number, number)
    # 23 where all is zero: edge 0 has 4 + 4
    page = Page(3, [4, 4, 1], [3, 3, 3], 1, [0, 0, 0])
    assert answers(page.data()) == ((14, "edge", 0, 8), (23, "edge", 0, 8))
    # the sum is cut off where it is above 10^12 on either side
    page.set_lengths(10 ** 30, [0, 0, 0])
    assert answers(page.data()) == ((14, "edge", 0, CUT), (23, "edge", 0, CUT))


def check_sums():
    """The sums of the reading, the numbers of short sheets written long, and the fits, against reading.py and solver.py."""
    rng, fits = random.Random(4), Counter()
    for turn in range(150):
        n = 3 + turn % 8
        page = some_page(rng, n, turn % 3)
        equations = Equations(n, page.distances, page.parents)
        some = [rng.choice((1, -1)) * rng.getrandbits(rng.choice((1, 30, 300))) for _ in page.parents]
        denominator = rng.getrandbits(250)
        assert equations.sums(denominator, some) == reading.edge_sums(n, page.distances, page.parents, denominator, some)
        if turn % 3 == 0:
            measured = solver.Measured(n, page.distances, page.parents)
            assert not any(equations.sums(page.denominator, page.numerators))
            if not measured.free:
                assert solver.common(measured.fit(None)) == (page.denominator, page.numerators)
                fits["only one"] += 1
        assert page.data() == Page(n, page.distances, page.parents, page.denominator, page.numerators).data()
        assert turn % 3 == 2 or lengths_of(page.third(), page.k)[1] == (page.denominator, page.numerators)
    assert fits["only one"] > 20, fits


PRINTED = 400


def drive_programs(programs):
    """Both programs, started once for each sheet: as many accepted ones as others, and each number of refusal among these."""
    rng, tally = random.Random(65_536), Tally()
    made = sorted(set(sheets(rng, Tally())), key=lambda data: (numbers_of(data), data))
    taken = [data for data in made if 0 in numbers_of(data)]
    other = [data for data in made if 0 not in numbers_of(data)]
    for data in rng.sample(taken, PRINTED) + rng.sample(other, PRINTED) + examples():
        tally.sheet(data, numbers_of(data))
        for words, lines in zip(programs, prints(data)):
            done = subprocess.run(words, input=data, stdout=subprocess.PIPE, stderr=subprocess.PIPE)
            tally.see("print", data, (done.stdout, done.stderr), ("".join(line + "\n" for line in lines).encode(), b""))
    for rule, counted, numbers in zip(("the plain rule", "the other rule"), tally.due, DUE):
        missing = [number for number in numbers if not counted[number]]
        if missing:
            tally.say("%s: no sheet with %s" % (rule, missing))
    print("%d passed, %d failed" % (tally.passed, tally.failed))
    return 1 if tally.failed else 0


def main():
    if sys.argv[1:2] == ["--drive"] and len(sys.argv) == 4:
        return drive_programs([shlex.split(words) for words in sys.argv[2:]])
    if sys.argv[1:2] == ["--calls"] and len(sys.argv) > 2:
        return drive(sys.argv[2:])
    if sys.argv[1:] != ["--self"]:
        print(__doc__, file=sys.stderr)
        return 2
    check_by_hand()
    check_sums()
    print("%d passed, 0 failed" % (len(BY_HAND) + 155))
    return 0


if __name__ == "__main__":
    sys.exit(main())
