#!/usr/bin/env python3
"""A run of sheets (RULES, Which of two trees is shorter) by a plain reading, and the program `shortest` held to it. Behind each sheet the
winner is looked for among all sheets that have come, from nothing: the accepted ones, of these the ones with the matrix of the first, of these the
first whose tree length is least, as an exact fraction.

    tests/shortest.py                 writes crates/shortest/stdin and crates/shortest/stdout
    tests/shortest.py --check         says whether they are what this script writes
    tests/shortest.py --drive WORDS   runs the program, given by its words, on 20,000 random pairs of sheets and on 600 longer runs, and compares
                                      every line"""
import os
import random
import struct
import subprocess
import sys
from collections import Counter
from fractions import Fraction

import reading
import solver
from make_figures import A, balanced, caterpillar, grown, lost, star, table_of

HERE = os.path.dirname(os.path.abspath(__file__))
CRATE = os.path.join(HERE, "..", "crates", "shortest")
MISSING = reading.MISSING


# ---- the reading
class Sheets:
    """What the plain reading says of a sheet's bytes, each worked once."""

    def __init__(self):
        self.known = {}

    def of(self, data):
        """The answer, and of an accepted sheet its matrix and its tree length."""
        if data not in self.known:
            answer, matrix, length = reading.sheet_answer(data), None, None
            if not answer:
                n, distances, _, _, denominator, numerators = reading.read_sheet(data)[1]
                matrix, length = (n, distances), Fraction(sum(numerators), denominator)
            self.known[data] = answer, matrix, length
        return self.known[data]


SHEETS = Sheets()


def winner_among(sheets):
    """The number of the first of the shortest among the accepted sheets whose matrix equals the first accepted one's."""
    accepted = [(k, *SHEETS.of(s)[1:]) for k, s in enumerate(sheets) if not SHEETS.of(s)[0]]
    if not accepted:
        return None
    same = [(length, k) for k, matrix, length in accepted if matrix == accepted[0][1]]
    least = min(length for length, _ in same)
    return min(k for length, k in same if length == least)


def line_of(sheets):
    """The line of the last of these sheets."""
    answer, matrix, _ = SHEETS.of(sheets[-1])
    if answer:
        return reading.refused_line(answer)
    first = next(s for s in sheets if not SHEETS.of(s)[0])
    if matrix != SHEETS.of(first)[1]:
        return "refused 27"
    return "best %d" % winner_among(sheets)


def lines_of(data):
    """What a run of these bytes prints."""
    lines, sheets, at = [], [], 0
    while at < len(data):
        lead = data[at:at + 4]
        size = int.from_bytes(lead, "little")
        if len(lead) < 4 or len(data) - at - 4 < size:
            return lines + ["refused 2"]
        sheets.append(data[at + 4:at + 4 + size])
        lines.append(line_of(sheets))
        at += 4 + size
    return lines


def led(sheet):
    return struct.pack("<I", len(sheet)) + sheet


# ---- sheets of one matrix
def within(denominator, numerators):
    return 1 <= denominator <= 1000000 and all(abs(x) <= 10 ** 11 for x in numerators)


def over(rng, lengths):
    """These lengths over a denominator that passes, mostly not the lowest one; nothing where none does."""
    denominator, numerators = solver.common(lengths)
    most = 1000000 // denominator
    if not most:
        return None
    times = rng.choice([1, 1, 2, 3, rng.randint(1, most), most])
    denominator, numerators = denominator * min(times, most), [x * min(times, most) for x in numerators]
    return (denominator, numerators) if within(denominator, numerators) else None


def some_tree(rng, n):
    shapes = [star] + ([caterpillar, lambda k: grown(k, rng, 2), lambda k: grown(k, rng, 3)] if n > 3 else [])
    shape = rng.choice(shapes)(n)
    if n > 3:
        names = list(range(n))
        rng.shuffle(names)
        renamed = lambda node: names[node] if isinstance(node, int) else [renamed(k) for k in node]
        shape = renamed(shape)
    return table_of(shape, n)


def some_matrix(rng, n):
    pairs = reading.pairs_of(n)
    kind = rng.randrange(4)
    if kind == 0:  # all the same: every tree is as long as the star
        distances = [rng.choice([0, 1, 7, 50000])] * len(pairs)
    elif kind == 1:
        distances = [rng.randint(0, 3) for _ in pairs]
    else:
        distances = [rng.randint(0, 50000) for _ in pairs]
    return lost(n, distances, rng) if rng.random() < 0.4 else distances


def some_fit(rng, n, distances, parents):
    """Lengths that fit, or nothing; where several fit, some of them."""
    if MISSING not in distances:
        return solver.solve(n, distances, parents)
    if reading.seen_answer(n, distances, parents):
        return None
    measured = solver.Measured(n, distances, parents)
    scale = rng.choice([1, 2, 999, 1000])
    return measured.fit(lambda v: Fraction(rng.randint(-10, 10) if scale == 1 else rng.randint(-10 ** 6, 10 ** 6), scale))


def pool(rng, n, count):
    """Sheets of one matrix, on several trees and over several denominators."""
    distances, found = some_matrix(rng, n), []
    for _ in range(count):
        parents = some_tree(rng, n)
        lengths = some_fit(rng, n, distances, parents)
        for _ in range(rng.randint(1, 2) if lengths else 0):
            table = over(rng, lengths)
            if table:
                found.append(reading.sheet(n, distances, parents, *table))
    return found


def far_apart():
    """64 strains in three groups that were not crossed within themselves: each strain's edge may be as long as is allowed, the group's edge less by
    as much. The products of two such tree lengths with the denominators are 6,300,000,000,000,000,000 and more."""
    n = 64
    groups = [list(range(0, 21)), list(range(21, 42)), list(range(42, 64))]
    group = {s: g for g, members in enumerate(groups) for s in members}
    distances = [MISSING if group[i] == group[j] else 0 for i, j in reading.pairs_of(n)]
    parents = table_of(groups, n)
    for sign in (1, -1):
        for denominator in (999999, 1000000):
            for x in (10 ** 11, 10 ** 11 - 1):
                yield reading.sheet(n, distances, parents, denominator, [sign * x] * n + [-sign * x] * 3)


def damaged(rng, sheet):
    """A sheet with a byte or more changed, cut, or with bytes behind it."""
    data, kind = bytearray(sheet), rng.randrange(6)
    if kind == 0:
        return bytes(data[:rng.randrange(len(data))])
    if kind == 1:
        return bytes(data) + bytes(rng.randrange(256) for _ in range(rng.randint(1, 9)))
    if kind == 2:
        return bytes(rng.randrange(256) for _ in range(rng.randrange(120)))
    for _ in range(1 if kind < 5 else rng.randint(2, 5)):
        at = rng.randrange(len(data))
        data[at] = rng.choice([0, 1, 255, data[at] ^ 1 << rng.randrange(8), rng.randrange(256)])
    return bytes(data)


def too_long(rng, sheet):
    return sheet + bytes(reading.MAX_SHEET + 1 - len(sheet) + rng.choice([0, 0, 1, 5188, 20000, 70000]))


# ---- a run worked by hand
# Sheet A's matrix is 3 7 8 6 9 5. Its tree 01|23 has the length 3 + 3 + 3 + 7 + 7 over 2, which is 23/2, and over 4 the same. The star's edges: the
# row sums are 18 18 18 22 and add to 76, twice the sum of the distances; an edge of the star is (row sum - 38/3)/2, so that the four together are
# 38/3, over 6 the numerators 16 16 16 28. 38/3 is more than 23/2. The tree 03|12 has the direct fit 0: half of 8 + (3 + 7)/2 - (9 + 5)/2, 3; 3: 5;
# 1: half of 6 + (3 + 9)/2 - (7 + 5)/2, 3; 2: 3; the inner edge half of (3 + 5)/2 + (7 + 9)/2 - 8 - 6, -1: together 13. 02|13 has 0: half of
# 7 + (3 + 8)/2 - (6 + 5)/2, 7/2; 2: 7/2; 1: half of 9 + (3 + 6)/2 - (8 + 5)/2, 7/2; 3: 11/2; the inner edge half of (3 + 5)/2 + (8 + 6)/2 - 7 - 9,
# -5/2: together 27/2. So 01|23 is the shortest, then the star, 03|12 and 02|13.
OF_A = A[0], A[1]
STAR = reading.sheet(*OF_A, [4, 4, 4, 4], 6, [16, 16, 16, 28])
WITH_03 = reading.sheet(*OF_A, [5, 4, 4, 5, 5], 1, [3, 3, 3, 5, -1])
WITH_02 = reading.sheet(*OF_A, [4, 5, 4, 5, 5], 2, [7, 7, 7, 11, -5])
SHEET_A = reading.sheet(*A)
A_OVER_4 = reading.sheet(*OF_A, A[2], 4, [6, 6, 6, 14, 14])
LAST_OFF = reading.sheet(*OF_A, A[2], 2, [3, 3, 3, 7, 6])
OTHER = reading.sheet(3, [1, 1, 4], [3, 3, 3], 1, [-1, 2, 2])
MISSING_01 = reading.sheet(4, [MISSING] + A[1][1:], A[2], 2, [3, 3, 3, 7, 7])
BY_HAND = [
    (b"", "refused 2 byte 0"),
    (SHEET_A[:35], "refused 2 byte 35"),
    (WITH_02, "best 2"),
    (WITH_03, "best 3"),
    (OTHER, "refused 27"),
    (STAR, "best 5"),
    (WITH_02, "best 5"),
    (bytes(reading.MAX_SHEET + 1), "refused 1"),
    (LAST_OFF, "refused 14 edge 0 2"),
    (A_OVER_4, "best 9"),
    (SHEET_A, "best 9"),
    (MISSING_01, "refused 27"),
    (bytes(20000), "refused 1"),
    (OTHER, "refused 27"),
    (bytes(reading.MAX_SHEET), "refused 3 byte 0"),
    (STAR, "best 9"),
]
# the last sheet is above the limit, and cut
BY_HAND_BYTES = b"".join(led(s) for s, _ in BY_HAND) + struct.pack("<I", 6000) + bytes(5999)
BY_HAND_LINES = [line for _, line in BY_HAND] + ["refused 2"]


def the_files():
    assert lines_of(BY_HAND_BYTES) == BY_HAND_LINES, lines_of(BY_HAND_BYTES)
    return BY_HAND_BYTES, "".join(x + "\n" for x in BY_HAND_LINES).encode()


# ---- random runs
def pools(rng):
    """Pools by the number of strains, and all sheets of them."""
    found = []
    while len(found) < 260:
        n = rng.choice([3, 4, 4, 5, 5, 6, 7, 8, 9]) if len(found) < 250 else rng.choice([12, 17, 33])
        sheets = pool(rng, n, rng.randint(3, 8))
        if sheets:
            found.append(sheets)
    found.append(list(far_apart()))
    return found


def some_sheet(rng, found, own):
    """A sheet of this pool, mostly; of another; damaged; above the limit; none at all."""
    kind = rng.random()
    sheet = rng.choice(own if kind < 0.9 else rng.choice(found))
    if kind < 0.13:
        return damaged(rng, sheet)
    if kind < 0.15:
        return too_long(rng, sheet)
    return b"" if kind < 0.16 else sheet


def pairs(rng, found, count):
    """Runs of two sheets; now and then the input is cut."""
    for _ in range(count):
        own = rng.choice(found)
        data = b"".join(led(some_sheet(rng, found, own)) for _ in range(2))
        yield data[:rng.randrange(len(data) + 1)] if rng.random() < 0.03 else data


def long_runs(rng, found, count):
    """Runs of up to fifty sheets: as they come, or most of them from the longest tree to the shortest."""
    for _ in range(count):
        own = rng.choice(found)
        sheets = [some_sheet(rng, found, own) for _ in range(rng.randint(3, 50))]
        if rng.random() < 0.6:
            sheets.sort(key=lambda s: -(SHEETS.of(s)[2] or rng.randint(-10 ** 6, 10 ** 6)))
        data = b"".join(led(s) for s in sheets)
        kind = rng.random()
        if kind < 0.2:
            data = data[:rng.randrange(len(data) + 1)]
        elif kind < 0.3:
            data += struct.pack("<I", rng.choice([1, 5187, 5188, 2 ** 31, 2 ** 32 - 1])) + bytes(rng.choice([0, 0, 7]))
        elif kind < 0.35:
            data += bytes(rng.randrange(1, 4))
        yield data


def seen(words, data):
    done = subprocess.run(words, input=data, stdout=subprocess.PIPE, stderr=subprocess.PIPE)
    return done.stdout.decode().splitlines() + ["said: " + x for x in done.stderr.decode().splitlines()]


def tally(counts, data, due):
    """How often each thing came to pass that a run should show."""
    sheets, at = [], 0
    for k, line in enumerate(due):
        size = int.from_bytes(data[at:at + 4], "little")
        if len(data) - at - 4 < size or len(data) - at < 4:
            counts["the input is cut"] += 1
            return
        sheets.append(data[at + 4:at + 4 + size])
        at += 4 + size
        words = line.split()
        if words[0] == "refused":
            counts["refused " + words[1]] += 1
            continue
        before, own = winner_among(sheets[:-1]), SHEETS.of(sheets[-1])[2]
        if before is None:
            counts["the first accepted"] += 1
        elif SHEETS.of(sheets[before])[2] == own:
            as_written = [reading.read_sheet(s)[1][4] for s in (sheets[before], sheets[-1])]
            counts["a tie over one denominator" if as_written[0] == as_written[1] else "a tie over two denominators"] += 1
        else:
            counts["shorter" if int(words[1]) == k else "longer"] += 1


def drive(words):
    rng = random.Random(13)
    found = pools(rng)
    passed = failed = comparisons = 0
    counts = Counter()
    for kind, runs in (("pairs", pairs(rng, found, 20000)), ("runs", long_runs(rng, found, 600))):
        made = 0
        for data in [BY_HAND_BYTES] * (kind == "runs") + list(runs):
            due = lines_of(data)
            tally(counts, data, due)
            made += 1
            got = seen(words, data)
            if got == due:
                passed += 1
            else:
                failed += 1
                at = next((k for k, (a, b) in enumerate(zip(got, due)) if a != b), min(len(got), len(due)))
                print("%s %d, line %d: %s in place of %s" % (kind, made, at, got[at:at + 1], due[at:at + 1]))
        print("%d %s" % (made, kind))
    print("by what came to pass: " + ", ".join("%s %d" % (k, counts[k]) for k in sorted(counts)))
    for due in ("shorter", "longer", "a tie over two denominators", "a tie over one denominator", "refused 27", "refused 1", "the input is cut"):
        if counts[due] < 100:
            print("only %d: %s" % (counts[due], due))
            failed += 1
    print("%d passed, %d failed" % (passed, failed))
    return 1 if failed else 0


def main():
    if sys.argv[1:2] == ["--drive"]:
        return drive(sys.argv[2:])
    files = dict(zip(("stdin", "stdout"), the_files()))
    wrong = 0
    for name, data in files.items():
        path = os.path.join(CRATE, name)
        if sys.argv[1:] == ["--check"]:
            with open(path, "rb") as f:
                same = f.read() == data
            wrong += not same
            print("%s is %s" % (os.path.relpath(path), "as it is made" if same else "not what this script writes"))
        else:
            with open(path, "wb") as f:
                f.write(data)
    return 1 if wrong else 0


if __name__ == "__main__":
    sys.exit(main())
