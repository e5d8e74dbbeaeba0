#!/usr/bin/env python3
"""Corrections of one distance (RULES, One distance corrected) by the plain reading, and the program `corrections` held to it. The
matrix is a table of pairs; every answer, sum and count is worked from nothing out of the matrix as it stands.

    tests/corrections.py                 writes crates/corrections/stdin and crates/corrections/stdout
    tests/corrections.py --check         says whether they are what this script writes
    tests/corrections.py --drive WORDS   runs the program, given by its words, on random corrections, 100,000 and more, and compares
                                         every line"""
import os
import random
import struct
import subprocess
import sys

import reading
from make_figures import A, balanced, caterpillar, grown, star, table_of

HERE = os.path.dirname(os.path.abspath(__file__))
CRATE = os.path.join(HERE, "..", "crates", "corrections")
MISSING = reading.MISSING


def in_rows(n, matrix):
    return [matrix[p] for p in reading.pairs_of(n)]


def correction_answer(n, matrix, parents, correction):
    """24, 7, then 26 of the corrected matrix."""
    i, j, far = correction
    if i == j or i >= n or j >= n:
        return (24,)
    if far > 50000 and far != MISSING:
        return (7,)
    after = dict(matrix)
    after[min(i, j), max(i, j)] = far
    return reading.seen_answer(n, in_rows(n, after), parents)


def printed(n, distances, parents, corrections):
    """What the program must print, and the number that each correction gets."""
    answer = (reading.matrix_answer(n, distances) or reading.tree_answer(n, parents)
              or reading.seen_answer(n, distances, parents))
    if answer:
        return [reading.refused_line(answer)], []
    matrix = dict(zip(reading.pairs_of(n), distances))
    lines, given = ["posted"], []
    for correction in corrections:
        answer = correction_answer(n, matrix, parents, correction)
        given.append(reading.number_of(answer))
        if answer:
            lines.append(reading.refused_line(answer))
        else:
            i, j, far = correction
            matrix[min(i, j), max(i, j)] = far
            lines.append("ok")
    sums = reading.split_sums(n, in_rows(n, matrix), parents)
    ones = [d if d == MISSING else 1 for d in in_rows(n, matrix)]
    counts = reading.split_sums(n, ones, parents)
    lines += ["edge %d %d %d" % (v, s, c) for v, (s, c) in enumerate(zip(sums, counts))]
    lines += ["pair %d %d %d" % (i, j, d) for (i, j), d in matrix.items()]
    return lines, given


def encoded(n, distances, parents, corrections):
    sheet = reading.bare_sheet(n, distances, parents)
    return struct.pack("<I", len(sheet)) + sheet + b"".join(struct.pack("<HHH", *c) for c in corrections)


# ---- a case worked by hand, then random ones
# Sheet A's split sums are 18 18 18 22 30 and its counts 3 3 3 3 4. Strains 2 and 0 come to 10: 3 more at edges 0, 2 and 4. The same again
# changes nothing. 02 is marked: 10 less and one pair fewer there. 01 is marked: 3 less and one fewer at edges 0 and 1. 03 alone is left to edge 0,
# and its mark is refused. Lifted, 02 is 0: a distance, which counts.
BY_HAND = (A[0], A[1], A[2],
           [(2, 0, 10), (0, 2, 10), (0, 2, MISSING), (1, 0, MISSING), (3, 0, MISSING), (3, 3, 60000), (0, 4, 60000),
            (4, 0, 1), (0, 3, 50001), (0, 3, 65534), (2, 0, 0)])
BY_HAND_PRINTED = """posted
ok
ok
ok
ok
refused 26 edge 0
refused 24
refused 24
refused 24
refused 7
refused 7
ok
edge 0 8 2
edge 1 15 2
edge 2 11 3
edge 3 22 3
edge 4 23 4
pair 0 1 65535
pair 0 2 0
pair 0 3 8
pair 1 2 6
pair 1 3 9
pair 2 3 5
""".splitlines()


def random_corrections(rng, n, held, count, marks):
    """Corrections of every kind; `marks` is how many of them set the mark."""
    corrections = []
    for _ in range(count):
        i, j = rng.sample(range(n), 2)
        kind = rng.random()
        if kind < marks:
            far = MISSING
        elif kind < marks + 0.05:
            far = held[min(i, j), max(i, j)]
        elif kind < marks + 0.1:
            far = rng.choice([50000, 50001, 65534, rng.randint(50001, 65534)])
        else:
            far = rng.randint(0, 50000)
        if rng.random() < 0.08:
            i = rng.choice([j, n, n + 1, 65535, rng.randint(n, 65535)])
        if rng.random() < 0.04:
            j = rng.choice([i, n, 65535])
        corrections.append((i, j, far))
    return corrections


def random_case(rng, n, count, marks):
    """A matrix with some pairs missing and a tree, which mostly pass, and corrections."""
    shape = rng.choice([star, caterpillar, balanced, lambda k: grown(k, rng, 2), lambda k: grown(k, rng, 4)]) if n > 5 else star
    pairs = reading.pairs_of(n)
    distances = [MISSING if rng.random() < marks / 3 else rng.choice([0, 1, 50000, rng.randint(0, 50000)]) for _ in pairs]
    return n, distances, table_of(shape(n), n), random_corrections(rng, n, dict(zip(pairs, distances)), count, marks)


def the_files():
    """The case worked by hand, with some hundred corrections more behind it; a last one that is cut short is none."""
    n, distances, parents, corrections = BY_HAND
    held = dict(zip(reading.pairs_of(n), distances))
    case = n, distances, parents, corrections + random_corrections(random.Random(9), n, held, 400, 0.4)
    lines, given = printed(*case)
    assert {0, 7, 24, 26} <= set(given[len(corrections):])
    return encoded(*case) + b"\x00\x00\x01", "".join(x + "\n" for x in lines).encode()


def seen(words, data):
    done = subprocess.run(words, input=data, stdout=subprocess.PIPE, stderr=subprocess.PIPE)
    return done.stdout.decode().splitlines() + ["said: " + x for x in done.stderr.decode().splitlines()]


def cases():
    rng = random.Random(2024)
    yield BY_HAND
    for n in [3] * 8 + list(range(4, 65)) * 2 + [5, 6, 7, 8, 9, 12] * 45:
        yield random_case(rng, n, 400 if n < 20 else 160, rng.choice([0.05, 0.3, 0.6]))
    # a posting that is refused is all that is printed
    yield 3, [1, 1, 50001], [3, 3, 3], [(0, 1, 1)]
    yield 3, [1, MISSING, MISSING], [3, 3, 3], [(0, 1, 1)]
    yield 3, [1, 1, 1], [3, 3, 4], [(0, 1, 1)]


def drive(words):
    passed = failed = 0
    numbers = {}
    for case in cases():
        due, given = printed(*case)
        for k in given:
            numbers[k] = numbers.get(k, 0) + 1
        found = seen(words, encoded(*case))
        if case is BY_HAND and due != BY_HAND_PRINTED:
            found = ["the reading does not give what was worked by hand"]
        if found == due:
            passed += len(due)
        else:
            failed += 1
            at = next((k for k, (a, b) in enumerate(zip(found, due)) if a != b), min(len(found), len(due)))
            print("N = %d, line %d: %s in place of %s" % (case[0], at, found[at:at + 1], due[at:at + 1]))
    print("corrections by answer: " + ", ".join("%s %d" % (k or "ok", numbers[k]) for k in sorted(numbers)))
    total = sum(numbers.values())
    if total < 100000:
        print("only %d corrections" % total)
        failed += 1
    print("%d passed, %d failed" % (passed, failed))
    return 1 if failed else 0


def main():
    if sys.argv[1:2] == ["--drive"]:
        return drive(sys.argv[2:])
    files = dict(zip(("stdin", "stdout"), the_files()))
    wrong = 0
    for name, data in files.items():
        path = os.path.join(CRATE, name)
        if sys.argv[1:] == ["--check"]:
            with open(path, "rb") as f:
                same = f.read() == data
            wrong += not same
            print("%s is %s" % (os.path.relpath(path), "as it is made" if same else "not what this script writes"))
        else:
            with open(path, "wb") as f:
                f.write(data)
    return 1 if wrong else 0


if __name__ == "__main__":
    sys.exit(main())
