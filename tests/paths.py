#!/usr/bin/env python3
"""A plain reading of the print of paths, for comparison. It shares nothing with the crates: a path is added edge by edge, every edge being asked
whether it parts the pair, and lengths are rounded as exact fractions.

A sheet has names where the form of its four records passes, 1 to 5; any other is judged as a sheet of three records. With names it is 28 for a
name that is not of the form or stands twice; then 6 to 14, 16 and 26 as of any sheet. What is accepted prints `fit N K D` and a line for each
pair in rows, `pair I J d p q r`: the strains, by name where there are names, the distance, the path's numerator over D, the path over the
rounded lengths in thousandths, and the remainder D·d - p; `-` for d and r of a pair that was not measured.

    tests/paths.py --self               holds this reading to cases worked by hand, and on 400 sheets to F and R of their reports
    tests/paths.py --plain WORDS        compares the plain print in C, by the program of tests/compare_paths.c compiled with -DOF_PLAIN, with this
                                        reading on more than 1,000 sheets, most of them damaged
    tests/paths.py --drive WORDS        runs the program, given by its words in one argument, on more than 500 sheets"""
import itertools
import random
import shlex
import sys

import newick
import reading
from make_figures import A, MISSING, sixteenths
from newick import ABCD, A_NAMED, Tally, named, names_record, seen


def lines_of(data):
    """What the program prints of a sheet, with names or without."""
    answer, bodies = reading.read_records(data, (1, 2, 3, 5), reading.MAX_NAMED)
    if answer:
        answer, bodies = reading.read_records(data, (1, 2, 3))
    names = reading.names_in(bodies[3]) if not answer and len(bodies) == 4 else None
    answer = answer or (newick.names_answer(names) if names is not None else reading.PASS) or newick.fit_answer(*bodies[:3])
    if answer:
        return [reading.refused_line(answer)]
    n, distances, _, parents, denominator, numerators = reading.fields_of(*bodies[:3])
    below = reading.clusters(n, parents)
    rounded = [reading.nearest(x, denominator) for x in numerators]
    shown = [name.decode() for name in names] if names else list(range(n))
    out = ["fit %d %d %d" % (n, len(parents), denominator)]
    for d, (i, j) in zip(distances, reading.pairs_of(n)):
        p, q = reading.path(below, numerators, i, j), reading.path(below, rounded, i, j)
        observed, remainder = ("-", "-") if d == MISSING else (d, denominator * d - p)
        out.append("pair %s %s %s %d %d %s" % (shown[i], shown[j], observed, p, q, remainder))
    return out


def print_of(data):
    return "".join(line + "\n" for line in lines_of(data)).encode()


# ---- cases worked by hand. Sheet A has the table of RULES, Path and remainder; m is 1500 1500 1500 3500 3500, so that the path of 02 over the rounded
# lengths is 1500 + 1500 + 3500
FIT_A = "fit 4 5 2"
PAIRS_A = ["0 1 3 6 3000 0", "0 2 7 13 6500 1", "0 3 8 17 8500 -1", "1 2 6 13 6500 -1", "1 3 9 17 8500 1", "2 3 5 10 5000 0"]


def pairs(*lines):
    return ["pair " + line for line in lines]


def by_hand():
    n, distances, parents, d, numerators = A
    whole = reading.sheet(*A)
    yield whole, [FIT_A] + pairs(*PAIRS_A)
    yield A_NAMED, [FIT_A] + pairs("a b 3 6 3000 0", "a c 7 13 6500 1", "a d 8 17 8500 -1", "b c 6 13 6500 -1", "b d 9 17 8500 1", "c d 5 10 5000 0")
    # names that are numbers, and not those of the strains
    yield named(whole, [b"3", b"2", b"1", b"0"]), [FIT_A] + pairs("3 2 3 6 3000 0", "3 1 7 13 6500 1", "3 0 8 17 8500 -1", "2 1 6 13 6500 -1",
                                                                 "2 0 9 17 8500 1", "1 0 5 10 5000 0")
    # 01 was not measured: edges 0, 1 and 4 may share a length as they like (RULES, Trees in text)
    gone = [MISSING] + distances[1:]
    yield reading.sheet(n, gone, parents, d, numerators), [FIT_A] + pairs("0 1 - 6 3000 -", *PAIRS_A[1:])
    far = [10 ** 11, 10 ** 11, 3, 7, -99999999990]
    yield reading.sheet(n, gone, parents, d, far), [FIT_A] + pairs("0 1 - 200000000000 100000000000000 -", *PAIRS_A[1:])
    # a third and a sixth of a unit: 333 and -167 thousandths, and the path of 01 is 666 where 4/6 would be 667
    yield (reading.sheet(4, [1, 0, 0, 0, 0, 0], [4, 4, 4, 4], 6, [2, 2, -1, -1]),
           ["fit 4 4 6"] + pairs("0 1 1 4 666 2", "0 2 0 1 166 -1", "0 3 0 1 166 -1", "1 2 0 1 166 -1", "1 3 0 1 166 -1", "2 3 0 -2 -334 2"))
    yield (named(reading.sheet(3, [1, 1, 4], [3, 3, 3], 1, [-1, 2, 2]), [b"x", b"Y_1", b"0123456789"]),
           ["fit 3 3 1"] + pairs("x Y_1 1 1 1000 0", "x 0123456789 1 1 1000 0", "Y_1 0123456789 4 4 4000 0"))
    yield reading.sheet(3, [0, 0, 0], [3, 3, 3], 1, [0, 0, 0]), ["fit 3 3 1"] + pairs("0 1 0 0 0 0", "0 2 0 0 0 0", "1 2 0 0 0 0")
    # four records that are not of the form are judged as three: whatever is wrong with the fourth, bytes follow the third, which ends at 87
    for data in (A_NAMED[:-1], A_NAMED + b"x", whole + b"x", whole + names_record(ABCD, 4), named(whole, ABCD[:3]), named(whole, ABCD + [b"e"]), named(whole, []),
                 whole + reading.record(5, b"\1a\1b\1c\2d"), A_NAMED + bytes(5187 - 101), whole + bytes(5187 - 87)):
        yield data, ["refused 5 byte 87"]
    for data in (A_NAMED + bytes(5188 - 101), A_NAMED + bytes(5897 - 101), A_NAMED + bytes(5898 - 101), bytes(5898), bytes(70000)):
        yield data, ["refused 1"]
    for data, at in ((b"", 0), (whole[:5], 0), (whole[:34], 20), (whole[:35], 35), (whole[:-1], 35)):
        yield data, ["refused 2 byte %d" % at]
    yield whole[:24] + b"\3" + whole[25:], ["refused 3 byte 20"]
    yield A_NAMED[:24] + b"\3" + A_NAMED[25:], ["refused 3 byte 20"]
    yield A_NAMED[:45] + b"\4" + A_NAMED[46:], ["refused 4 byte 35"]
    # of a sheet with names 28 comes before 6 and all that follows; N = 2 with two names has the form, with three it has not
    for name in (b"", b"elevenbytes", b"c", b"a b", b"d."):
        yield named(whole, [b"a", b"b", b"c", name]), ["refused 28"]
    two = reading.sheet(2, [1], [2, 2], 1, [1, 0])
    yield two, ["refused 6"]
    yield named(two, ABCD[:2]), ["refused 6"]
    yield named(two, [b"a", b"a"]), ["refused 28"]
    yield named(two, ABCD[:3]), ["refused 5 byte %d" % len(two)]
    made = lambda distances=distances, parents=parents, d=d, numerators=numerators: reading.sheet(n, distances, parents, d, numerators)
    for sheet, due in ((made(distances=[4] + distances[1:]), "refused 14 edge 0 2"),
                       (made(distances=[50001] + distances[1:]), "refused 7"),
                       (made(parents=[4, 4, 4], numerators=[1] * 3), "refused 8"),
                       (made(parents=[4, 4, 5, 5, 4]), "refused 9 vertex 4"),
                       (made(parents=[4, 4, 5, 5, 6]), "refused 16 vertex 4"),
                       (made(parents=[4, 5, 5, 5, 5]), "refused 10 vertex 4"),
                       (made(distances=[MISSING] * 3 + distances[3:]), "refused 26 edge 0"),
                       (made(numerators=numerators[:4]), "refused 11"),
                       (made(d=0), "refused 12"),
                       (made(numerators=numerators[:4] + [10 ** 11 + 1]), "refused 13 edge 4")):
        yield sheet, [due]
        yield named(sheet, ABCD), [due]
        yield named(sheet, ABCD[:3] + [b"a"]), ["refused 28"]


def check_by_hand():
    for data, due in by_hand():
        found = lines_of(data)
        assert found == due, (data, found, due)
    # 15/16 and 13/16 round to 938 and 812 and their negatives to the same below zero, so paths of these four lengths are known, over 16 and over more
    for fields in sixteenths():
        times = fields[3] // 16
        found = [line.split() for line in lines_of(reading.sheet(*fields))]
        four = {(line[1], line[2]): (int(line[4]) // times, line[5]) for line in found[1:]}
        assert [four[pair] for pair in (("0", "1"), ("0", "2"), ("0", "3"), ("1", "2"), ("1", "3"), ("2", "3"))] == [
            (28, "1750"), (2, "126"), (0, "0"), (0, "0"), (-2, "-126"), (-28, "-1750")], found[:3]


# ---- drawn sheets
def sheets(rng, count):
    """Sheets with names as tests/newick.py draws them, most of them damaged, and of every third the same without its names."""
    yield from (data for data, _ in by_hand())
    yield from (reading.sheet(*fields) for fields in sixteenths())
    for k, data in enumerate(newick.sheets(rng, count)):
        yield data
        if k % 3 == 0:
            yield front_of(data)


def front_of(data):
    """What the first three records say that they are, or all there is."""
    at = 0
    for _ in range(3):
        at += 6 + int.from_bytes(data[at:at + 4], "little")
    return data[:at]


def check_sums(count):
    """F and R from the lines of the pairs are those of the report."""
    held = 0
    for data in sheets(random.Random(33), count):
        lines = lines_of(data)
        if lines[0].startswith("fit "):
            # the names are not counted on: the first three records are a sheet
            n, distances, _, parents, denominator, numerators = reading.read_sheet(front_of(data))[1]
            report = reading.Report(n, distances, parents, denominator, numerators)
            measured = [[int(x) for x in line.split()[3:]] for line in lines[1:] if not line.endswith(" -")]
            assert len(measured) == len(distances) - distances.count(MISSING) and len(lines) == len(distances) + 1
            assert sum(d * r for d, _, _, r in measured) == report.f and sum((1000 * d - q) ** 2 for d, _, q, _ in measured) == report.r
            held += 1
    assert held > count // 4, held
    return held


def asked(tally, what, least):
    tally.asked(what, ["1", "2", "3", "4", "5", "6", "7", "8", "9", "10", "11", "12", "13", "14", "16", "26", "28", "taken"], least)


def drive(words):
    """The program, started once for each sheet."""
    tally = Tally()
    for data in sheets(random.Random(44), 400):
        tally.see("sheet", data, seen(words, data), print_of(data))
    asked(tally, "sheet", 2)
    return tally.end()


def plain(words):
    """The plain print in C: sheets led by their lengths, and behind each print a line `end`."""
    tally, made = Tally(), list(sheets(random.Random(55), 900))
    code, out, said = seen(words, b"".join(len(data).to_bytes(4, "little") + data for data in made))
    prints = out.split(b"end\n")[:-1]
    if code or said or len(prints) != len(made):
        print("the prints ended with %d after %d of %d: %s" % (code, len(prints), len(made), said[:600].decode("latin-1")))
        tally.failed += 1
    for data, found in itertools.zip_longest(made, prints[:len(made)], fillvalue=b"nothing at all"):
        tally.see("plain", data, (0, found, b""), print_of(data))
    asked(tally, "plain", 3)
    return tally.end()


def main():
    if sys.argv[1:2] == ["--drive"] and len(sys.argv) == 3:
        return drive(shlex.split(sys.argv[2]))
    if sys.argv[1:2] == ["--plain"]:
        return plain(sys.argv[2:])
    if sys.argv[1:] != ["--self"]:
        print(__doc__, file=sys.stderr)
        return 2
    check_by_hand()
    held = check_sums(400)
    print("%d passed, 0 failed" % (len(list(by_hand())) + 4 + held))
    return 0


if __name__ == "__main__":
    sys.exit(main())
