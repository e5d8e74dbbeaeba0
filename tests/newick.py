#!/usr/bin/env python3
"""A plain reading of trees in text, both ways, for comparison. It shares nothing with the crates. A text is read by its innermost
brackets: each is looked at, child by child, and replaced by a mark, until one mark and the semicolon are left. A text is
written vertex by vertex in rising number, children before parents.

A names record has kind 5 and a body of names, each a length byte and its bytes. Names have 1 to 10 ASCII letters, digits or underscores,
all different. In a text of at most 65,536 bytes without blanks a vertex is a name, or vertices parted by commas in round brackets. A colon and
a length follow every vertex but the root; the root is bracketed, and a semicolon ends the text. A length is an optional
minus, digits without a needless leading zero, a point and three digits; zero has no minus. At most 62 brackets are open at once.

    a sheet with names       1 (above 5,897 bytes), 2 to 4 by record, the names being as many as the matrix has strains, 5, 28 a name not of
                             the form or repeated, then 6 to 14 as of a sheet without names
    a text beside names      2 to 5 and 28 for the names, 6, 28 text too long, not of the form or nested deeper, 29 a name unknown, used
                             twice or missing, 8, 10, 13, 15 buffers not of K entries
    names, tree, thousandths 2 to 5 and 28 for the names, 6, 8, 9 or 16, 10, 11, 13, 15 a buffer not of 65,536 bytes

    tests/newick.py --self              holds this reading to cases worked by hand, to 5,000 drawn trees and to 8,000 texts damaged on purpose
    tests/newick.py --calls WORDS       makes 32,000 calls on the entries from C, by the program of tests/compare_newick.c, given by its words
    tests/newick.py --drive NEWICK TREE
                                        runs the program that writes and the one that reads, each given by its words in one argument, on 1,500
                                        sheets and 3,200 texts, most of them damaged, and compares every answer with its place
    tests/newick.py --large DIRECTORY   writes texts that would ask much of a stack there, N.stdin each, and what the program prints, N.stdout"""
import functools
import itertools
import os
import random
import re
import shlex
import struct
import subprocess
import sys
from collections import Counter

import reading
import shortest
from make_figures import A, balanced, caterpillar, grown, star, table_of

MAX_TEXT = 65536
MAX_OPEN = 62
MAX_INPUT = MAX_TEXT + 6 + 11 * 64 + 1  # a whole record, a whole text, and a byte too many
NAME = rb"[A-Za-z0-9_]{1,10}"
LENGTH = rb"(-?)(0|[1-9][0-9]*)\.([0-9]{3})"
CHILD = re.compile(rb"(" + NAME + rb"|\{[0-9]+\}):" + LENGTH)


# ---- names
def names_record(names, kind=5):
    return reading.record(kind, b"".join(bytes([len(name)]) + name for name in names))


def names_answer(names):
    """28 where a name is not of the form, or stands twice."""
    fine = all(re.fullmatch(NAME, name) for name in names) and len(set(names)) == len(names)
    return reading.PASS if fine else (28,)


def read_names(record):
    """A refusal, or the names of a record that is lent alone."""
    answer, bodies = reading.read_records(record, (5,), len(record))
    if answer:
        return answer, None
    names = reading.names_in(bodies[0])
    return names_answer(names) or (() if 3 <= len(names) <= 64 else (6,)), names


# ---- reading
class NotOfTheForm(Exception):
    pass


def child_of(part):
    found = CHILD.fullmatch(part)
    if not found:
        raise NotOfTheForm
    name, minus, whole, places = found.groups()
    # ten digits before the point are beyond 13 whatever they are
    thousandths = int(whole[:10] + places)
    if minus and thousandths == 0:
        raise NotOfTheForm
    return name, -thousandths if minus else thousandths


def brackets_of(text):
    """The children of each bracket, in the order in which the brackets close: a name or a mark with the number of a bracket, and the
    thousandths of its length."""
    steps = [1 if x == 40 else -1 for x in text if x in b"()"]
    if len(text) > MAX_TEXT or not re.fullmatch(rb"[A-Za-z0-9_(),:;.-]*", text) or max(itertools.accumulate(steps), default=0) > MAX_OPEN:
        raise NotOfTheForm
    closing = itertools.count()
    left = re.sub(rb"\)", lambda _: b")#%d#" % next(closing), text)
    brackets = {}

    def taken(found):
        brackets[int(found[2])] = [child_of(part) for part in found[1].split(b",")]
        return b"{%s}" % found[2]

    replaced = 1
    while replaced:
        left, replaced = re.subn(rb"\(([^()]*)\)#([0-9]+)#", taken, left)
    if not brackets or left != b"{%d};" % (len(brackets) - 1):
        raise NotOfTheForm
    return [brackets[k] for k in range(len(brackets))]


def read_text(names, text):
    """A refusal, or the parents and the thousandths; the names have passed."""
    try:
        brackets = brackets_of(text)
    except NotOfTheForm:
        return (28,), None
    n = len(names)
    used = Counter(name for bracket in brackets for name, _ in bracket if not name.startswith(b"{"))
    if used != Counter(names):
        return (29,), None
    number = {name: k for k, name in enumerate(names)}
    number.update((b"{%d}" % k, n + k) for k in range(len(brackets)))
    table = {number[name]: (n + k, m) for k, bracket in enumerate(brackets) for name, m in bracket}
    parents, thousandths = ([table[v][x] for v in range(n + len(brackets) - 1)] for x in (0, 1))
    return reading.tree_answer(n, parents) or reading.lengths_answer(len(parents), 1000, thousandths), (parents, thousandths)


def read(record, text, parent_room=None, numerator_room=None):
    """A refusal, or the parents and the thousandths of a text beside a names record. Rooms are as many as are needed where none is given."""
    answer, names = read_names(record)
    if answer:
        return answer, None
    answer, tables = read_text(names, text)
    if answer:
        return answer, None
    edges = len(tables[0])
    if any(room not in (None, edges) for room in (parent_room, numerator_room)):
        return (15,), None
    return reading.PASS, tables


def parted(data):
    """A names record and the text behind it; a record that is cut takes all there is."""
    data = data[:MAX_INPUT]
    size = 6 + int.from_bytes(data[:4], "little")
    return data[:size], data[size:]


def tree_lines(data):
    """What the program prints that reads a record and a text."""
    record, text = parted(data)
    answer, tables = read(record, text)
    if answer:
        return [reading.refused_line(answer)]
    n = len(read_names(record)[1])
    return ["tree %d %d" % (n, len(tables[0]))] + ["edge %d %d %d" % (v, p, m) for v, (p, m) in enumerate(zip(*tables))]


# ---- writing
def length_text(m):
    return b"%s%d.%03d" % (b"-" if m < 0 else b"", abs(m) // 1000, abs(m) % 1000)


def text_of(names, parents, thousandths):
    below = [[] for _ in range(len(parents) + 1)]
    for v, p in enumerate(parents):
        whole = names[v] if v < len(names) else b"(" + b",".join(below[v]) + b")"
        below[p].append(whole + b":" + length_text(thousandths[v]))
    return b"(" + b",".join(below[-1]) + b");"


def write(record, parents, thousandths, room=MAX_TEXT):
    """A refusal, or the text; no fit is asked for."""
    answer, names = read_names(record)
    if not answer:
        answer = (reading.tree_answer(len(names), parents) or reading.lengths_answer(len(parents), 1000, thousandths)
                  or ((15,) if room != MAX_TEXT else reading.PASS))
    return (answer, None) if answer else (reading.PASS, text_of(names, parents, thousandths))


def named(sheet, names):
    return sheet + names_record(names)


def newick_line(data):
    """What the program prints of a sheet with names."""
    answer, bodies = reading.read_records(data, (1, 2, 3, 5), reading.MAX_NAMED)
    if answer:
        return reading.refused_line(answer)
    names = reading.names_in(bodies[3])
    answer = names_answer(names) or fit_answer(*bodies[:3])
    if answer:
        return reading.refused_line(answer)
    _, _, _, parents, denominator, numerators = reading.fields_of(*bodies[:3])
    return text_of(names, parents, [reading.nearest(x, denominator) for x in numerators]).decode()


@functools.lru_cache(maxsize=None)
def fit_answer(*bodies):
    """The tests from 6 on; one sheet comes with many names, and is judged once."""
    return reading.fields_answer(reading.fields_of(*bodies))


# ---- cases worked by hand
ABCD = [b"a", b"b", b"c", b"d"]
ABCDE = ABCD + [b"e"]
A_NAMED = named(reading.sheet(*A), ABCD)
# sheet A: the root is 5 with the children 2, 3 and 4, and 4 has 0 and 1; m is 1500 1500 1500 3500 3500
TEXT_A = "(c:1.500,d:3.500,(a:1.500,b:1.500):3.500);"
LINES_A = ["tree 4 5", "edge 0 4 1500", "edge 1 4 1500", "edge 2 5 1500", "edge 3 5 3500", "edge 4 5 3500"]

# texts beside the names a b c d; every length is written L for 1.000 where nothing is asked of it
READ_BY_HAND = [
    ("(a:L,b:L,c:L,d:L);", "0 4 4 4 4 / 1000 1000 1000 1000"),
    ("(d:4.000,c:3.000,b:2.000,a:1.000);", "0 4 4 4 4 / 1000 2000 3000 4000"),
    ("(c:1.500,d:3.500,(a:1.500,b:1.500):3.500);", "0 4 4 5 5 5 / 1500 1500 1500 3500 3500"),
    ("((b:0.001,d:-0.001):0.000,a:10.010,c:-99.999);", "0 5 4 5 4 5 / 10010 1 -99999 -1 0"),
    # of the form, or not: what stands in place of a vertex
    ("();", "28"), ("(a:L,b:L,c:L,d:L,():L);", "28"), ("(a:L,b:L,c:L,d:L,);", "28"), ("(,a:L,b:L,c:L,d:L);", "28"), ("(a:L,,b:L,c:L,d:L);", "28"),
    ("a;", "28"), ("a:L;", "28"), (";", "28"), ("", "28"), ("(a:L,b:L,c:L,d:L)", "28"), ("(a:L,b:L,c:L,d:L;", "28"), ("a:L,b:L,c:L,d:L);", "28"),
    ("(a:L,b:L,c:L,d:L));", "28"), ("((a:L,b:L,c:L,d:L);", "28"), ("(a:L,b:L,c:L,d:L):L;", "28"), ("(a:L,b:L,c:L,d:L)root;", "28"),
    ("(a:L,b:L)(c:L,d:L);", "28"),
    ("(a:L,b:L,(c:L,d:L)x:L);", "28"), ("(a:L,b:L,(c:L,d:L)0:L);", "28"), ("(a:L,b:L,(c:L,d:L));", "28"), ("(a:L,b:L,c:L,d);", "28"),
    ("(a:L,b:L,c:L,dL);", "28"), ("(a:L,b:L,c:L,d:);", "28"), ("(a:L,b:L,c:L,:L);", "28"),
    ("(a:L,b:L,c:L,d::L);", "28"), ("(a:L,b:L,c:L,d:L:L);", "28"), ("(a:L b:L,c:L,d:L);", "28"), ("[x](a:L,b:L,c:L,d:L);", "28"),
    ("('a':L,b:L,c:L,d:L);", "28"),
    # nothing follows the semicolon, and there are no blanks
    ("(a:L,b:L,c:L,d:L);\n", "28"), ("(a:L,b:L,c:L,d:L); ", "28"), ("(a:L,b:L,c:L,d:L);;", "28"), ("(a:L,b:L,c:L,d:L);x", "28"),
    (" (a:L,b:L,c:L,d:L);", "28"), ("(a:L, b:L,c:L,d:L);", "28"),
    ("(a:L,\nb:L,c:L,d:L);", "28"), ("(a: 1.000,b:L,c:L,d:L);", "28"), ("(a:L,b:L,c:L,d:L)\t;", "28"), ("(a:L,b:L,c:L,d:L);(a:L,b:L,c:L,d:L);", "28"),
    ("\0(a:L,b:L,c:L,d:L);", "28"),
    # lengths
    ("(a:0.000,b:L,c:L,d:L);", "0 4 4 4 4 / 0 1000 1000 1000"), ("(a:-0.001,b:L,c:L,d:L);", "0 4 4 4 4 / -1 1000 1000 1000"),
    ("(a:-12.340,b:L,c:L,d:L);", "0 4 4 4 4 / -12340 1000 1000 1000"),
    ("(a:-0.000,b:L,c:L,d:L);", "28"), ("(a:1.00,b:L,c:L,d:L);", "28"), ("(a:1.0000,b:L,c:L,d:L);", "28"), ("(a:1.,b:L,c:L,d:L);", "28"),
    ("(a:1,b:L,c:L,d:L);", "28"), ("(a:.000,b:L,c:L,d:L);", "28"),
    ("(a:01.000,b:L,c:L,d:L);", "28"), ("(a:00.000,b:L,c:L,d:L);", "28"), ("(a:-01.000,b:L,c:L,d:L);", "28"), ("(a:--1.000,b:L,c:L,d:L);", "28"),
    ("(a:+1.000,b:L,c:L,d:L);", "28"), ("(a:-.001,b:L,c:L,d:L);", "28"),
    ("(a:1,000,b:L,c:L,d:L);", "28"), ("(a:1e0,b:L,c:L,d:L);", "28"), ("(a:1.0e0,b:L,c:L,d:L);", "28"), ("(a:1.00-,b:L,c:L,d:L);", "28"),
    ("(a:1.000.000,b:L,c:L,d:L);", "28"), ("(a:1-.000,b:L,c:L,d:L);", "28"),
    # 13: 100,000,000,000 over 1000 passes on either side; digits have no end in the form
    ("(a:100000000.000,b:-100000000.000,c:L,d:L);", "0 4 4 4 4 / 100000000000 -100000000000 1000 1000"),
    ("(a:L,b:100000000.001,c:L,d:L);", "13 edge 1"), ("(a:L,b:L,c:-100000000.001,d:L);", "13 edge 2"),
    ("(a:L,b:L,c:L,d:1000000000.000);", "13 edge 3"),
    ("(d:999999999.999,c:999999999.999,b:L,a:L);", "13 edge 2"), ("((d:L,c:L):200000000.000,b:L,a:L);", "13 edge 4"),
    ("(a:" + "9" * 60000 + ".000,b:L,c:L,d:L);", "13 edge 0"), ("(a:-1" + "0" * 60000 + ".000,b:L,c:L,d:L);", "13 edge 0"),
    ("(a:18446744073709551617.000,b:L,c:L,d:L);", "13 edge 0"),
    ("(a:18446744073709552.616,b:L,c:L,d:L);", "13 edge 0"), ("(a:0" + "9" * 60000 + ".000,b:L,c:L,d:L);", "28"),
    ("(a:" + "9" * 60000 + ".00,b:L,c:L,d:L);", "28"),
    # 29, behind 28 over the whole text
    ("(a:L,b:L,c:L,e:L);", "29"), ("(a:L,b:L,c:L,d:L,e:L);", "29"), ("(a:L,b:L,c:L);", "29"), ("(a:L,b:L,c:L,d:L,a:L);", "29"),
    ("(a:L,b:L,c:L,c:L);", "29"), ("(a:L,b:L,c:L,D:L);", "29"),
    ("(a:L,b:L,c:L,dd:L);", "29"), ("(e:L,b:L,c:L,d:L)", "28"), ("(a:L,b:L,c:L,0:L);", "29"), ("(a:L,b:L,c:L,abcdefghij:L);", "29"),
    ("(a:L,b:L,c:L,abcdefghijk:L);", "28"),
    ("(a:L,b:L,c:L,d.:L);", "28"), ("(a:L,b:L,c:L,d-:L);", "28"), ("(a:L,b:L,c:L,\xe9:L);", "28"), ("((a:L):L,(a:L):L);", "29"),
    ("((((a:L):L):L,b:L):L,c:L,e:L);", "29"),
    # 29 before 8, 10 and 13
    ("(e:200000000.000,b:L,c:L,d:L);", "29"), ("((e:L):L,b:L,c:L,d:L);", "29"),
    # 8: V is at most 6 with four strains
    ("((a:L,b:L):L,(c:L,d:L):L);", "8"), ("(((a:L,b:L):L,c:L):L,d:L);", "8"), ("((a:L,b:L,c:L,d:L):L);", "10 vertex 5"),
    ("(((a:L,b:L,c:L,d:L):L):L);", "8"), ("((a:L):L,(b:L):L,(c:L):L,(d:L):L);", "8"),
    ("((a:L,b:L):200000000.000,(c:L,d:L):L);", "8"),
    # 10: the root has three children or more, another bracket two; the lowest at fault is said
    ("((a:L):L,b:L,c:L,d:L);", "10 vertex 4"), ("(b:L,c:L,(a:L):L,d:L);", "10 vertex 4"), ("((a:L,b:L,c:L):L,d:L);", "10 vertex 5"),
    ("((a:L):200000000.000,b:L,c:L,d:L);", "10 vertex 4"),
    ("((a:L,b:L):L,c:L,d:L);", "0 4 4 5 5 5 / 1000 1000 1000 1000 1000"),
]
# the same beside a b c d e, where brackets close in another order than they open: b and c close first, then a with those
READ_FIVE = [
    ("((a:L,(b:2.000,c:L):3.000):4.000,d:L,e:L);", "0 6 5 5 7 7 6 7 / 1000 2000 1000 1000 1000 3000 4000"),
    ("((d:L,e:L):9.000,(b:L,c:L):8.000,a:L);", "0 7 6 6 5 5 7 7 / 1000 1000 1000 1000 1000 9000 8000"),
    ("((a:L):L,(b:L):L,c:L,d:L,e:L);", "10 vertex 5"), ("((a:L,b:L):L,((c:L,d:L):L):L,e:L);", "8"), ("((a:L,b:L,c:L):L,(d:L):L,e:L);", "10 vertex 6"),
]
# records and texts as one input; a record of the names a b c d has 14 bytes
ONE_A = names_record(ABCD)
GOOD = b"(a:1.000,b:1.000,c:1.000,d:1.000);"
IN_FULL = [
    (b"", "refused 2 byte 0"), (ONE_A[:5], "refused 2 byte 0"), (ONE_A[:6], "refused 2 byte 0"), (ONE_A[:13], "refused 2 byte 0"),
    (ONE_A, "refused 28"),
    (ONE_A + GOOD, "tree 4 4"), (names_record(ABCD, 4) + GOOD, "refused 3 byte 0"), (names_record(ABCD, 261) + GOOD, "refused 3 byte 0"),
    (b"\xff\xff\xff\xff\x05\x00" + ONE_A[6:] + GOOD, "refused 2 byte 0"),
    # a body of seven bytes: the fourth name is cut; of nine: its last byte, (, is a length of 40
    (b"\x07" + ONE_A[1:] + GOOD, "refused 4 byte 0"), (b"\x09" + ONE_A[1:] + GOOD, "refused 4 byte 0"),
    # 4 before 28: the second name is not of the form, and the last is cut
    (reading.record(5, b"\1a\1-\1c\2d") + GOOD, "refused 4 byte 0"),
    (reading.record(5, b"") + GOOD, "refused 6"), (reading.record(5, b"\0") + GOOD, "refused 28"),
    (reading.record(5, b"\0" * 704) + GOOD, "refused 28"),
    (names_record([b"a", b"b", b"c", b"abcdefghijk"]) + GOOD, "refused 28"), (names_record([b"a", b"b", b"c", b"x" * 255]) + GOOD, "refused 28"),
    (names_record([b"a", b"b", b"c", b"b"]) + GOOD, "refused 28"), (names_record([b"a", b"b", b"c", b"d "]) + GOOD, "refused 28"),
    (names_record([b"a", b"b", b"c", b"B"]) + b"", "refused 28"),
    (names_record([b"a", b"b"]) + GOOD, "refused 6"), (names_record([b"a", b"a"]) + GOOD, "refused 28"),
    (names_record([b"s%d" % k for k in range(65)]) + GOOD, "refused 6"),
    (names_record([b"a", b"b"]) + b"(", "refused 6"), (names_record([b"s%d" % k for k in range(64)]) + b"(", "refused 28"),
    (names_record([b"a", b"b", b"c", b"d", b"e"]) + GOOD, "refused 29"),
    # of more than 66,247 bytes the first 66,247 count: a text that is too long, or a record that is cut
    (ONE_A + b"(" * 70000, "refused 28"), (reading.record(5, b"\1a" * 35000), "refused 2 byte 0"),
    (reading.record(4, b"\1a" * 33120), "refused 3 byte 0"), (reading.record(4, b"\1a" * 33121), "refused 2 byte 0"),
    (names_record([b"a", b"b"]) + b"(" * 70000, "refused 6"),
]


def one_of(text):
    return text.replace("L", "1.000").encode("latin-1")


def shown(answer, tables):
    """0, the parents and the thousandths, or the number and its place."""
    return " ".join(map(str, answer)) if answer else "0 " + " / ".join(" ".join(map(str, table)) for table in tables)


def check_by_hand():
    assert len(ONE_A) == 14 and len(A_NAMED) == 101 and ONE_A == bytes.fromhex("08000000 0500 0161 0162 0163 0164")
    assert names_record([b"a", b"B_2"]) == bytes.fromhex("06000000 0500 0161 03425f32")
    assert newick_line(A_NAMED) == TEXT_A and tree_lines(ONE_A + TEXT_A.encode()) == LINES_A
    for names, cases in ((ABCD, READ_BY_HAND), (ABCDE, READ_FIVE)):
        for text, due in cases:
            found = shown(*read(names_record(names), one_of(text)))
            assert found == due, (text[:80], found, due)
    for data, due in IN_FULL:
        found = tree_lines(data)[0]
        assert found == due, (data[:80], found, due)
    # bytes behind a record that is lent alone
    assert read(ONE_A + b"x", GOOD)[0] == (5, "byte", 14) and write(ONE_A + b"x", [4] * 4, [0] * 4)[0] == (5, "byte", 14)
    assert [read(ONE_A, GOOD, *rooms)[0] for rooms in ((4, 4), (3, 4), (4, 5), (0, 0))] == [(), (15,), (15,), (15,)]
    # no more than 65,536 bytes: one digit more in a length is the last byte that there is room for
    room = MAX_TEXT - len(GOOD)
    assert read(ONE_A, GOOD.replace(b"b:1", b"b:1" + b"0" * room))[0] == (13, "edge", 1)
    assert read(ONE_A, GOOD.replace(b"b:1", b"b:1" + b"0" * (room + 1)))[0] == (28,)
    # 62 brackets open at once and no more; one child in each, so that what is nested less deep is 8
    for depth, due in ((62, (8,)), (63, (28,)), (5000, (28,))):
        text = b"(" * depth + b"a:1.000" + b"):1.000" * (depth - 1) + b",b:1.000,c:1.000,d:1.000);"
        assert read(ONE_A, text)[0] == due
    names = [b"s%d" % k for k in range(64)]
    parents = table_of(caterpillar(64), 64)
    deepest = text_of(names, parents, list(range(125)))
    assert max(itertools.accumulate([(x == 40) - (x == 41) for x in deepest])) == 62
    assert read(names_record(names), deepest) == ((), (parents, list(range(125))))
    assert read(ONE_A, b"(" + b",".join([b"a:1.000"] * 7000) + b");")[0] == (29,) and read(ONE_A, b"(" + b"," * 30000 + b");")[0] == (28,)


# sheets with names and what is due; the four records of sheet A start at 0, 20, 35 and 87
def sheets_by_hand():
    n, distances, parents, d, numerators = A
    yield A_NAMED, TEXT_A
    yield reading.sheet(*A), "refused 2 byte 87"
    yield A_NAMED[:-1], "refused 2 byte 87"
    yield A_NAMED + b"x", "refused 5 byte 101"
    yield A_NAMED + bytes(5897 - 101), "refused 5 byte 101"
    yield A_NAMED + bytes(5898 - 101), "refused 1"
    yield reading.sheet(*A) + names_record(ABCD, 4), "refused 3 byte 87"
    for names in (ABCD[:3], ABCDE, []):
        yield named(reading.sheet(*A), names), "refused 4 byte 87"
    yield reading.sheet(*A) + reading.record(5, b"\1a\1b\1c\2d"), "refused 4 byte 87"
    yield reading.sheet(*A) + reading.record(5, b"\1a\1b\1c\0d"), "refused 4 byte 87"  # behind the fourth name stands a d
    for name in (b"", b"elevenbytes", b"c", b"a b", b"d."):
        yield named(reading.sheet(*A), [b"a", b"b", b"c", name]), "refused 28"
    yield named(reading.sheet(*A), [b"A", b"a", b"__________", b"0123456789"]), "(__________:1.500,0123456789:3.500,(A:1.500,a:1.500):3.500);"
    # 4 for the names comes before 6, and 28 before it too: N = 2 with two names, with three, and with one name twice
    for names, due in ((ABCD[:2], "refused 6"), (ABCD[:3], "refused 4 byte %d" % (6 + 4 + 6 + 6 + 6 + 22)), ([b"a", b"a"], "refused 28")):
        yield named(reading.sheet(2, [1], [2, 2], 1, [1, 0]), names), due
    yield named(reading.sheet(0, [], [], 1, []), []), "refused 6"
    # 28 before 7, 8, 9, 14, and those with the places that they have without names
    off = reading.sheet(n, distances, parents, d, numerators[:-1] + [6])
    made = lambda distances=distances, parents=parents, d=d, numerators=numerators: reading.sheet(n, distances, parents, d, numerators)
    for sheet, due in ((off, "refused 14 edge 0 2"),
                       (made(distances=[50001] + distances[1:]), "refused 7"),
                       (made(parents=[4, 4, 4], numerators=[1] * 3), "refused 8"),
                       (made(parents=[4, 4, 5, 5, 4]), "refused 9 vertex 4"),
                       (made(parents=[4, 4, 5, 5, 6]), "refused 16 vertex 4"),
                       (made(parents=[4, 5, 5, 5, 5]), "refused 10 vertex 4"),
                       (made(distances=[reading.MISSING] * 3 + distances[3:]), "refused 26 edge 0"),
                       (made(numerators=numerators[:4]), "refused 11"),
                       (made(d=0), "refused 12"),
                       (made(numerators=numerators[:4] + [10 ** 11 + 1]), "refused 13 edge 4")):
        yield named(sheet, ABCD), due
        yield named(sheet, ABCD[:3] + [b"a"]), "refused 28"
    # lengths that are negative, and that round to zero: three strains at 1 1 4 have -1 2 2; a third and a sixth of a unit
    yield named(reading.sheet(3, [1, 1, 4], [3, 3, 3], 1, [-1, 2, 2]), ABCD[:3]), "(a:-1.000,b:2.000,c:2.000);"
    yield named(reading.sheet(4, [1, 0, 0, 0, 0, 0], [4, 4, 4, 4], 6, [2, 2, -1, -1]), ABCD), "(a:0.333,b:0.333,c:-0.167,d:-0.167);"
    yield named(reading.sheet(3, [0, 0, 0], [3, 3, 3], 1, [0, 0, 0]), ABCD[:3]), "(a:0.000,b:0.000,c:0.000);"
    # children stand in rising number, so an inner vertex behind the strains; 6 has a and b, 7 has c and d, 8 has e and 6, the root f, 7 and 8
    crossed = [6, 6, 7, 7, 8, 9, 8, 9, 9]
    below = reading.clusters(6, crossed)
    paths = [reading.path(below, list(range(1, 10)), i, j) for i, j in reading.pairs_of(6)]
    yield (named(reading.sheet(6, paths, crossed, 1, list(range(1, 10))), ABCDE + [b"f"]),
           "(f:6.000,(c:3.000,d:4.000):8.000,(e:5.000,(a:1.000,b:2.000):7.000):9.000);")


def check_sheets_by_hand():
    for data, due in sheets_by_hand():
        found = newick_line(data)
        assert found == due, (data, found, due)
    # what was read of the last one: its inner vertices got their numbers in the order of the text
    data, text = list(sheets_by_hand())[-1]
    tables = read(data[-18:], text.encode())[1]
    assert tables == ([7, 7, 6, 6, 8, 9, 9, 8, 9], [1000, 2000, 3000, 4000, 5000, 6000, 8000, 7000, 9000])
    assert write(data[-18:], *tables) == ((), text.encode())
    # the call without a fit, in the order of its tests
    far = [10 ** 11 + 1, 0, 0, 0]
    for record, parents, thousandths, room, due in (
            (ONE_A[:13], [], far, 0, (2, "byte", 0)),
            (names_record(ABCD, 1), [], far, 0, (3, "byte", 0)),
            (reading.record(5, b"\2a"), [], far, 0, (4, "byte", 0)),
            (ONE_A + b"\0", [], far, 0, (5, "byte", 14)),
            (names_record([b"a", b"a"]), [], far, 0, (28,)),
            (names_record([b"a", b"b"]), [], far, 0, (6,)),
            (ONE_A, [], far, 0, (8,)), (ONE_A, [4, 4, 4], far, 0, (8,)), (ONE_A, [4, 4, 5, 5, 5, 6], far, 0, (8,)),
            (ONE_A, [4, 4, 4, 3], far, 0, (9, "vertex", 3)),
            (ONE_A, [4, 5, 4, 3], far, 0, (16, "vertex", 1)),
            (ONE_A, [4, 5, 5, 5, 5], far, 0, (10, "vertex", 4)),
            (ONE_A, [4] * 4, far[1:], 0, (11,)), (ONE_A, [4] * 4, far + [0], 0, (11,)),
            (ONE_A, [4] * 4, far, 0, (13, "edge", 0)), (ONE_A, [4] * 4, far[1:] + [-far[0]], 0, (13, "edge", 3)),
            (ONE_A, [4] * 4, [10 ** 11] * 4, 65535, (15,)), (ONE_A, [4] * 4, far[1:] + [-1], 65537, (15,))):
        assert write(record, parents, thousandths, room) == (due, None), (record, parents, due)
    assert write(ONE_A, [4] * 4, [10 ** 11, -10 ** 11, 1, -1]) == ((), b"(a:100000000.000,b:-100000000.000,c:0.001,d:-0.001);")


# ---- drawn trees
LETTERS = b"ABCDEFGHIJKLMNOPQRSTUVWXYZabcdefghijklmnopqrstuvwxyz0123456789_"
SIZES = (3, 3, 4, 4, 4, 5, 5, 6, 7, 8)
FAR = 10 ** 11


def some_names(rng, n):
    names = {b"__________", b"0", b"0123456789"} if rng.random() < 0.1 else set()
    while len(names) < n:
        names.add(bytes(rng.choice(LETTERS) for _ in range(rng.choice((1, 2, 2, 5, 9, 10)))))
    return rng.sample(sorted(names), n)


def renumbered(rng, n, parents):
    """The same tree with its inner vertices numbered in some other order, children still before parents."""
    waiting = {v: parents.count(v) for v in range(n, len(parents) + 1)}
    number, free = {v: v for v in range(n)}, []
    for v in range(n):
        waiting[parents[v]] -= 1
    free = [v for v, left in waiting.items() if left == 0]
    while free:
        v = free.pop(rng.randrange(len(free)))
        number[v] = len(number)
        if v < len(parents):
            waiting[parents[v]] -= 1
            if waiting[parents[v]] == 0:
                free.append(parents[v])
    table = {number[v]: number[p] for v, p in enumerate(parents)}
    return [table[v] for v in range(len(parents))]


def some_parents(rng, n):
    kinds = [star] + ([caterpillar, balanced, lambda k: grown(k, rng, 2), lambda k: grown(k, rng, 4)] if n > 3 else [])
    return renumbered(rng, n, table_of(rng.choice(kinds)(n), n))


def some_thousandths(rng):
    return rng.choice((0, 1, -1, 999, 1000, -1000, FAR, -FAR, rng.randint(-9999, 9999), rng.randint(-FAR, FAR)))


def splits_of(n, parents, thousandths):
    return {frozenset(below): m for below, m in zip(reading.clusters(n, parents), thousandths)}


def check_drawn(count):
    """What was written is read as the same splits with the same thousandths, and written again as the same text."""
    rng = random.Random(14)
    renamed = 0
    for _ in range(count):
        n = rng.choice((16, 33, 64)) if rng.random() < 0.05 else rng.choice(SIZES)
        record, parents = names_record(some_names(rng, n)), some_parents(rng, n)
        thousandths = [some_thousandths(rng) for _ in parents]
        answer, text = write(record, parents, thousandths)
        assert answer == () and reading.tree_answer(n, parents) == ()
        answer, tables = read(record, text)
        assert answer == () and splits_of(n, *tables) == splits_of(n, parents, thousandths) and write(record, *tables) == ((), text)
        renamed += tables[0] != parents
    assert renamed > count // 20, renamed


# ---- damaged texts
class Page:
    """A names record and a text, as parts that can be damaged: a vertex is a list of what stands before its length, which is a name or its
    children, and the length."""

    def __init__(self, rng):
        self.rng = rng
        n = rng.choice((20, 33, 63, 64)) if rng.random() < 0.01 else rng.choice(SIZES)
        self.n, self.names = n, some_names(rng, n)
        parents = some_parents(rng, n)
        self.vertices = [[name, b""] for name in self.names] + [[[], b""] for _ in range(len(parents) + 1 - n)]
        for v, p in enumerate(parents):
            self.vertices[v][1] = b":" + length_text(some_thousandths(rng))
            self.vertices[p][0].append(self.vertices[v])
        self.root = self.vertices[-1]
        for vertex in self.vertices[n:]:
            if rng.random() < 0.7:
                rng.shuffle(vertex[0])
        self.end = b";"
        self.record = names_record(self.names)
        self.rooms = [len(parents)] * 2

    def text(self):
        """By a list of what is still to be written; brackets may nest deeper than calls."""
        out, waiting = [], [self.root]
        while waiting:
            top = waiting.pop()
            if isinstance(top, bytes):
                out.append(top)
            elif isinstance(top[0], bytes):
                out += top
            else:
                out.append(b"(")
                waiting += [top[1], b")"]
                for k, child in reversed(list(enumerate(top[0]))):
                    waiting += [child, b","] if k else [child]
        return b"".join(out) + self.end

    def wrap(self, vertex, times):
        """So many brackets of one vertex around this one."""
        for _ in range(times):
            vertex[0], vertex[1] = [[vertex[0], vertex[1]]], b":1.000"

    def damage(self):
        """One thing wrong; gives the number that is due, or none where it is not foreseen."""
        rng, n = self.rng, self.n
        strain, edge = self.vertices[rng.randrange(n)], self.vertices[rng.randrange(len(self.vertices) - 1)]
        inner = rng.choice(self.vertices[n:])
        kind = rng.randrange(19)
        if kind == 0:
            edge[1] = b":" + rng.choice(NO_LENGTHS)
            return 28
        if kind == 1:
            edge[1] = b":" + rng.choice((b"", b"-")) + rng.choice(TOO_FAR + [b"9" * rng.choice((12, 16, 19, 20, 40, 3000)) + b".999"])
            return 13
        if kind == 2:
            edge[1] = rng.choice((b"", edge[1][1:], b":" + edge[1], edge[1] + edge[1], edge[1] + b"x", b";" + edge[1][1:], b" " + edge[1],
                                  edge[1] + b" ", b"::", b":"))
            return 28
        if kind == 3:
            own = strain[0]
            strain[0] = rng.choice((b"abcdefghijk", b"x" * 200, b"", own + b".", b"-" + own, b"'" + own + b"'", b" " + own, own + b"\n",
                                    own + b"\xc3\xa9", own + b"@", b"[" + own + b"]", b"`", b"/", b"{0}"))
            return 28
        if kind == 4:
            own = strain[0]
            near = (b"abcdefghij", b"x", b"unknown", (own.swapcase() + b"_")[:10], own[:-1], own[:9] + b"7")
            strain[0] = rng.choice([name for name in near if name and name not in self.names])
            return 29
        if kind == 5:
            strain[0] = self.vertices[(self.vertices.index(strain) + rng.randrange(1, n)) % n][0]
            return 29
        if kind == 6:
            inner[0].append([rng.choice(self.names), b":1.000"])
            return 29
        if kind == 7:
            inner[0].insert(rng.randrange(len(inner[0]) + 1), [[], b":1.000"])
            return 28
        if kind == 8:
            full = len(self.vertices) == 2 * n - 2
            self.wrap(edge, 1)
            return 8 if full else 10
        if kind == 9:
            self.wrap(edge, rng.choice((2, 3, 10, 61, 62, 63, 64, 100)))
        elif kind == 10:
            at = rng.randrange(len(inner[0]))
            del inner[0][at]
        elif kind == 11:
            self.root[1] = rng.choice((b":0.000", b":1.000", b"root", b"1", b",", b")", b"(", b"()", b" "))
            return 28
        elif kind == 12:
            self.end = rng.choice((b"", b";;", b"; ", b";\n", b";x", b" ;", b"\n", b",", b".", b":", b";\0", b";" + self.text()))
            return 28
        elif kind == 13:
            # two children of the root put together: 8 where that is a vertex too many, 10 where the root has two left
            full, few = len(self.vertices) == 2 * n - 2, len(self.root[0]) == 3
            self.root[0][:2] = [[self.root[0][:2], b":2.000"]]
            self.rooms = [room + 1 for room in self.rooms]
            return 8 if full else 10 if few else 0
        elif kind == 14:
            which = rng.randrange(2)
            self.rooms[which] = max(0, self.rooms[which] + rng.choice((-1, 1, 10, -self.rooms[which], 2 ** 16)))
            return 15
        elif kind == 15:
            some = rng.randrange(n)
            self.names[some] = rng.choice((b"", self.names[some] * 11, b"a-b", b"a b", b"\xff", self.names[some - 1], b"x" * 11, b"\n", b"[", b"`a"))
            self.record = names_record(self.names)
            return 28
        elif kind == 16:
            self.record = self.hurt_record()
        elif kind == 17:
            # as many siblings as there is room for, or brackets
            count = rng.choice((100, 3000))
            self.root[0] += [[rng.choice(self.names), b":1.000"] for _ in range(count)]
            return 29
        else:
            self.root = [rng.choice((strain[0], b"", b"()")), b""]
            return 28
        return None

    def hurt_record(self):
        rng, data = self.rng, self.record
        kind = rng.randrange(6)
        if kind == 0:
            return data[:rng.randrange(len(data))]
        if kind == 1:
            return data + rng.choice((b"\0", b"(", data, b"x" * 700))
        if kind == 2:
            return names_record(self.names, rng.choice((0, 1, 4, 6, 0x0105, 0x0500)))
        if kind == 3:
            size = max(0, len(data) - 6 + rng.choice((-3, -2, -1, 1, 2, 3, 256, 2 ** 31, -len(data) + 6)))
            return struct.pack("<I", size % 2 ** 32) + data[4:]
        if kind == 4:
            return names_record([b"s%d" % k for k in range(rng.choice((0, 1, 2, 65, 66, 100, 6000)))])
        at = rng.randrange(6, len(data))
        return data[:at] + bytes([rng.choice((0, 1, 10, 11, 255, data[at] ^ 1, rng.randrange(256)))]) + data[at + 1:]


TOO_FAR = [b"100000000.001", b"100000001.000", b"999999999.999", b"1000000000.000", b"1" + b"0" * 30 + b".000", b"4294967296000.000",
           b"18446744073709551.616", b"18446744073709552616.001"]
NO_LENGTHS = [b"-0.000", b"1.00", b"1.0000", b"1.", b"1", b".000", b".5", b"00.000", b"01.000", b"-01.000", b"-00.001", b"--1.000", b"+1.000",
              b"-.001", b"1e3", b"1.0e0", b"1.00e", b"1,000", b"1.000.000", b"-", b".", b"0x1.000", b"nan", b"inf", b"1 .000", b"1. 000",
              b"1.0 0", b"\xb21.000", b"1.00\xb2", b"1..000", b"1.-00", b"1.00-", b"000.000", b"0", b"-0", b"0.00", b"0.0000", b"1:000",
              b"1;000", b"1.000\0"]


def spoilt(rng, text):
    """A byte flipped, changed, dropped, doubled or put in, two exchanged, a part doubled, or the text cut."""
    at = rng.randrange(len(text))
    byte = bytes([rng.choice(b"(),:;.-0123456789aZ_ \n\0\xff")])
    to = at + rng.randint(1, 30)
    flipped = bytes([text[at] ^ 1 << rng.randrange(8)])
    return rng.choice((text[:at] + flipped + text[at + 1:], text[:at] + byte + text[at + 1:], text[:at] + text[at + 1:], text[:at + 1] + text[at:],
                       text[:at] + byte + text[at:], text[:at] + text[at:at + 2][::-1] + text[at + 2:], text[:to] + text[at:], text[:at]))


def long_text(rng, page, size):
    """The text with digits in one length, so that it has this many bytes."""
    edge = page.vertices[rng.randrange(len(page.vertices) - 1)]
    edge[1] = b":" + rng.choice((b"", b"-")) + b"1.000"
    room = size - len(page.text())
    edge[1] = edge[1].replace(b"1.", b"1" + b"0" * room + b".")
    return page.text()


def texts(rng, count):
    """Records with texts and the two rooms, and the number that is due, 0 for a whole text, none where it is not foreseen."""
    for names, cases in ((ABCD, READ_BY_HAND), (ABCDE, READ_FIVE)):
        for text, due in cases:
            tables = due.partition(" / ")[0].split()[1:]
            yield names_record(names), one_of(text), [len(tables)] * 2, int(due.split()[0])
    for made in range(count):
        page, draw = Page(rng), rng.random()
        if draw < 0.12:
            yield page.record, page.text(), page.rooms, 0
        elif draw < 0.5:
            due = page.damage()
            yield page.record, page.text(), page.rooms, due
        elif draw < 0.6:
            page.damage()
            yield page.record, spoilt(rng, page.text()), page.rooms, None
        elif draw < 0.996:
            text = spoilt(rng, page.text())
            yield page.record, spoilt(rng, text) if text and rng.random() < 0.3 else text, page.rooms, None
        else:
            size = MAX_TEXT + rng.choice((-1, 0, 1, 5))
            yield page.record, long_text(rng, page, size), page.rooms, 28 if size > MAX_TEXT else 13
    yield from large_texts()


def large_texts():
    """Texts whose reading must end whatever the machine's stack: siblings and brackets as many as there is room for."""
    one, names = b"a:1.000", [b"s%d" % k for k in range(64)]
    rest = b",b:1.000,c:1.000,d:1.000);"
    for count in (7000, 8190):
        yield ONE_A, b"(" + b",".join([one] * count) + b");", [4, 4], 29
    for mark in (b",", b"(", b")", b"():1.000,", b"(,", b"a", b"0", b"a:1.000,", b"(a:1.000):1.000,", b";", b":"):
        yield ONE_A, (b"(" + mark * 65536)[:MAX_TEXT], [4, 4], 28
        yield ONE_A, (b"(" + mark * 65536)[:MAX_TEXT - 2] + b");", [4, 4], 29 if mark == b"a:1.000," and (MAX_TEXT - 3) % 8 == 7 else None
    yield ONE_A, b"(" + b"," * 30000 + b");", [4, 4], 28
    yield ONE_A, b"(" + b"a," * 30000 + b"a);", [4, 4], 28
    yield ONE_A, b"(" * 32000 + b")" * 32000 + b";", [4, 4], 28
    yield ONE_A, b"(" * 32000, [4, 4], 28
    yield ONE_A, b"(" * 7000 + one + b"):1.000" * 6999 + rest, [4, 4], 28
    for depth in (61, 62, 63, 64, 65):
        yield ONE_A, b"(" * depth + one + b"):1.000" * (depth - 1) + rest, [4, 4], 8 if depth <= 62 else 28
        # the same behind 500 brackets that have closed
        yield ONE_A, b"(" + b"(d:1.000):1.000," * 500 + b"(" * (depth - 1) + one + b"):1.000" * (depth - 1) + rest, [4, 4], 29 if depth <= 62 else 28
    # every strain under 61 brackets, 3,905 vertices: 8, and no table that is smaller than that may be written
    yield names_record(names), b"(" + b",".join(b"(" * 61 + name + b":0.000" + b"):0.000" * 61 for name in names) + b");", [125, 125], 8
    yield names_record(names), b"(" + b",".join(b"(" * 3 + name + b":0.000" + b"):0.000" * 3 for name in names) + b");", [255, 255], 8
    yield names_record([b"s%d" % k for k in range(6000)]), GOOD, [4, 4], 6
    for body, due in ((b"\0" * 66000, 28), (b"\1a" * 33119, 28), (b"\377" * 65536, 28)):
        yield reading.record(5, body), GOOD, [4, 4], due


def large_files(directory):
    """The large texts as inputs, and the deepest tree that is taken, of 64 strains; with what is due of each."""
    names = [b"s%d" % k for k in range(64)]
    deepest = text_of(names, table_of(caterpillar(64), 64), [k - 60 for k in range(125)])
    # 6,000 names ask for no stack, and comparing them takes more steps than the interpreter is given (10,000,000)
    inputs = [record + text for record, text, _, due in large_texts() if due != 6] + [names_record(names) + deepest]
    for k, data in enumerate(inputs):
        with open(os.path.join(directory, "%d.stdin" % k), "wb") as file:
            file.write(data)
        with open(os.path.join(directory, "%d.stdout" % k), "w") as file:
            file.write("".join(line + "\n" for line in tree_lines(data)))
    return 0


# ---- sheets with names
def sheets(rng, count):
    """Sheets with names, most of them damaged; few are large, since this reading takes a while for those."""
    for data, _ in sheets_by_hand():
        yield data
    small, large = [], [(64, sheet) for sheet in shortest.far_apart()]
    while len(small) < 300:
        n = rng.choice((3, 4, 4, 5, 5, 6, 7, 8, 9))
        small += [(n, sheet) for sheet in shortest.pool(rng, n, rng.randint(2, 5))]
    large += [(n, reading.sheet(n, distances, parents, 1, lengths)) for n, distances, parents, lengths in whole_fits(rng)]
    for _ in range(count):
        n, sheet = rng.choice(large if rng.random() < 0.03 else small)
        names, kind = some_names(rng, n), rng.random()
        data = named(sheet, names)
        if kind < 0.35:
            yield data
        elif kind < 0.45:
            yield shortest.damaged(rng, data)
        elif kind < 0.6:
            yield named(shortest.damaged(rng, sheet), names)
        elif kind < 0.7:
            yield sheet + shortest.damaged(rng, names_record(names))
        elif kind < 0.8:
            some = rng.randrange(n)
            own = names[some]
            names[some] = rng.choice((b"", own + b"-", own * 11, names[some - 1], b"a b", b"x" * 11, b"x" * 255, own[:1] + b"\0", b"\x80"))
            yield named(sheet if rng.random() < 0.5 else shortest.damaged(rng, sheet), names)
        elif kind < 0.85:
            yield named(sheet, rng.choice((names[1:], names + [b"more_names"], names[:0], names * 2)))
        elif kind < 0.88:
            size = rng.choice((reading.MAX_SHEET, reading.MAX_SHEET + 1, reading.MAX_NAMED, reading.MAX_NAMED + 1, 20000))
            yield data + bytes(max(0, size - len(data)))
        elif kind < 0.9:
            # where the lengths of the records say so, one is longer than there is room for
            yield named(sheet, [b"x" * 255] * n)
        elif kind < 0.92:
            yield sheet
        elif kind < 0.96:
            yield named(hurt_fields(rng, sheet), names)
        elif kind < 0.965:
            n = rng.choice((0, 1, 2, 65, 66))
            yield named(reading.sheet(n, [1] * (n * (n - 1) // 2), [n] * n, 1, [1] * n), some_names(rng, n))
        else:
            distances = reading.read_sheet(sheet)[1][1]
            parents = some_parents(rng, n)
            denominator, numerators = rng.choice((0, 1, 2, 1000, 10 ** 6 + 1)), [rng.choice((0, 1, FAR, FAR + 1, -1)) for _ in parents]
            yield named(reading.sheet(n, distances, parents, denominator, numerators), names)


def hurt_fields(rng, sheet):
    """The sheet with one thing wrong in what its records hold, each record whole."""
    n, distances, _, parents, denominator, numerators = reading.read_sheet(sheet)[1]
    kind, some = rng.randrange(6), rng.randrange(n)
    if kind == 0:
        distances = [reading.MISSING if some in pair else d for d, pair in zip(distances, reading.pairs_of(n))]
    elif kind == 1:
        # all that hangs at some vertex but one child, or all of it, goes to the root
        parents = [len(parents) if p == parents[some] and v != some else p for v, p in enumerate(parents)]
    elif kind == 2:
        numerators = numerators + [0] if rng.random() < 0.5 else numerators[:-1]
    elif kind == 3:
        distances[rng.randrange(len(distances))] = rng.choice((50001, 65534))
    elif kind == 4:
        numerators[rng.randrange(len(numerators))] += rng.choice((1, -1))
    else:
        parents[rng.randrange(len(parents))] = rng.randrange(256)
    return reading.sheet(n, distances, parents, denominator, numerators)


def whole_fits(rng):
    """Trees of whole lengths, some of them negative, with their paths as distances: up to 64 strains."""
    for n in (10, 16, 32, 33, 63, 64):
        for shape in (star(n), caterpillar(n), balanced(n), grown(n, rng, 2), grown(n, rng, 4)):
            parents = renumbered(rng, n, table_of(shape, n))
            lengths = [rng.randint(300, 500) if v < n else rng.choice((-4, 0, 1, 30, 300)) for v in range(len(parents))]
            below = reading.clusters(n, parents)
            yield n, [reading.path(below, lengths, i, j) for i, j in reading.pairs_of(n)], parents, lengths


# ---- the programs
def seen(words, data):
    done = subprocess.run(words, input=data, stdout=subprocess.PIPE, stderr=subprocess.PIPE)
    return done.returncode, done.stdout, done.stderr


class Tally:
    """Counts what passed, what failed, and how often each answer was due."""

    def __init__(self):
        self.passed, self.failed, self.due = 0, 0, Counter()

    def see(self, what, data, got, due):
        words = due.split()
        self.due[(what, words[1].decode() if words[0] == b"refused" else "no page" if words[0] == b"nothing" else "taken")] += 1
        if got == (0, due, b""):
            self.passed += 1
        else:
            self.failed += 1
            if self.failed < 20:
                print("%s of %d bytes, %r..: %r in place of %r" % (what, len(data), data[:60], got[1][:100] + got[2][:100] or got[0], due[:100]))

    def asked(self, what, numbers, least):
        """Says where an answer was due fewer times than it should be."""
        for number in numbers:
            if self.due[(what, number)] < least:
                print("%s: only %d times %s" % (what, self.due[(what, number)], number))
                self.failed += 1

    def end(self):
        for what in sorted({what for what, _ in self.due}):
            numbers = sorted((x for w, x in self.due if w == what), key=lambda x: (len(x), x))
            print("%s: %s" % (what, ", ".join("%s %d" % (number, self.due[(what, number)]) for number in numbers)))
        print("%d passed, %d failed" % (self.passed, self.failed))
        return 1 if self.failed else 0


def foreseen(rng, count):
    """The texts, each with its answer, which is held to what was foreseen."""
    for record, text, rooms, due in texts(rng, count):
        answer, tables = read(record, text, *rooms)
        assert due is None or due == reading.number_of(answer), (record[:60], text[:100], rooms, due, answer)
        yield record, text, rooms, answer, tables


def drive(newick, tree):
    """Both programs, started once for each input under the stack that a shell gives."""
    rng, tally = random.Random(1414), Tally()
    plain = ["sh", "-c", "ulimit -S -s 8192 && exec \"$@\"", "sh"]
    for data in sheets(rng, 1500):
        tally.see("sheet", data, seen(newick, data), newick_line(data).encode() + b"\n")
    for data in itertools.chain((data for data, _ in IN_FULL), (record + text for record, text, _, _ in texts(rng, 3000))):
        tally.see("text", data, seen(plain + tree if len(data) > 8000 else tree, data), "".join(line + "\n" for line in tree_lines(data)).encode())
    tally.asked("sheet", ["1", "2", "3", "4", "5", "6", "7", "8", "9", "10", "11", "12", "13", "14", "16", "26", "28", "taken"], 2)
    tally.asked("text", ["2", "3", "4", "6", "8", "10", "13", "28", "29", "taken"], 10)
    return tally.end()


# ---- the entries from C
def led(*parts):
    return b"".join(struct.pack("<I", x) if isinstance(x, int) else x for x in parts)


def calls(rng):
    """Calls for tests/compare_newick.c, each with its kind and the line that is due."""
    number = lambda answer: b"refused %d" % answer[0]
    listed = lambda table: b"".join(b" %d" % x for x in table)
    for record, text, rooms, answer, tables in foreseen(rng, 21000):
        due = number(answer) if answer else b"read" + listed(tables[0]) + b" /" + listed(tables[1]) + b" " + write(record, *tables)[1]
        yield "read", led(1, len(record), len(text), *rooms, record, text), due
    for _ in range(6000):
        record, parents, thousandths, room = some_call(rng)
        answer, text = write(record, parents, thousandths, room)
        packed = b"".join(struct.pack("<q", x) for x in thousandths)
        data = led(2, len(record), len(parents), len(thousandths), room, record, bytes(parents), packed)
        yield "write", data, number(answer) if answer else b"text " + text
    for data in sheets(rng, 5000):
        page = MAX_TEXT + 1 if rng.random() < 0.8 else rng.choice((MAX_TEXT + 2, 70000, MAX_TEXT, 16384, 0))
        yield "print", led(3, len(data), page, 0, 0, data), newick_line(data).encode() if page > MAX_TEXT else b"nothing"


def some_call(rng):
    """Names, a tree and thousandths, some of them hurt."""
    n = rng.choice((16, 33, 64)) if rng.random() < 0.03 else rng.choice(SIZES)
    names, parents = some_names(rng, n), some_parents(rng, n)
    record, thousandths, room = names_record(names), [some_thousandths(rng) for _ in parents], MAX_TEXT
    for _ in range(rng.choice((0, 1, 1, 1, 2))):
        kind, some = rng.randrange(8), rng.randrange(len(parents)) if parents else 0
        if kind == 0 and parents:
            parents[some] = rng.choice((0, some, n - 1, n, len(parents), len(parents) + 1, 255, rng.randrange(256)))
        elif kind == 1:
            parents = parents[:some] if rng.random() < 0.5 else parents + [n] * rng.choice((1, 3, 130))
        elif kind == 2:
            thousandths = thousandths[:some] if rng.random() < 0.5 else thousandths + [0] * rng.choice((1, 3, 130))
        elif kind == 3 and thousandths:
            thousandths[some % len(thousandths)] = rng.choice((1, -1)) * rng.choice((FAR + 1, 2 ** 63 - 1, 2 ** 62, FAR, 10 ** 12))
        elif kind == 4:
            room = rng.choice((0, 1, MAX_TEXT - 1, MAX_TEXT + 1, 100))
        elif kind == 5:
            page = Page(rng)
            record = page.hurt_record()
        elif kind == 6:
            names[rng.randrange(n)] = rng.choice((b"", b"a.b", b"x" * 11, names[0], names[-1]))
            record = names_record(names)
        else:
            record = names_record(some_names(rng, max(0, n + rng.choice((-1, 1)))))
    return record, parents, thousandths, room


def drive_calls(words):
    tally, rng = Tally(), random.Random(41414)
    made = list(calls(rng))
    code, out, said = seen(words, b"".join(data for _, data, _ in made))
    lines = out.split(b"\n")[:-1]
    if code or said or len(lines) != len(made):
        print("the calls ended with %d after %d of %d: %s" % (code, len(lines), len(made), said[:600].decode("latin-1")))
        tally.failed += 1
    for (what, data, due), line in itertools.zip_longest(made, lines[:len(made)], fillvalue=b"nothing at all"):
        tally.see(what, data, (0, line, b""), due)
    tally.asked("read", ["2", "3", "4", "5", "6", "8", "10", "13", "15", "28", "29", "taken"], 30)
    tally.asked("write", ["2", "3", "4", "5", "6", "8", "9", "10", "11", "13", "15", "16", "28", "taken"], 20)
    tally.asked("print", ["1", "2", "3", "4", "5", "6", "14", "28", "no page", "taken"], 5)
    return tally.end()


def main():
    if sys.argv[1:2] == ["--drive"]:
        return drive(*(shlex.split(words) for words in sys.argv[2:4]))
    if sys.argv[1:2] == ["--calls"]:
        return drive_calls(sys.argv[2:])
    if sys.argv[1:2] == ["--large"]:
        return large_files(sys.argv[2])
    if sys.argv[1:] != ["--self"]:
        print(__doc__, file=sys.stderr)
        return 2
    check_by_hand()
    check_sheets_by_hand()
    check_drawn(5000)
    # what was damaged on purpose gets the number that it was damaged for
    numbers = Counter(reading.number_of(answer) for *_, answer, _ in foreseen(random.Random(28), 8000))
    print("by number: " + ", ".join("%d: %d" % item for item in sorted(numbers.items())))
    print("%d passed, 0 failed" % (len(READ_BY_HAND) + len(READ_FIVE) + len(IN_FULL) + len(list(sheets_by_hand())) + 5000 + sum(numbers.values())))
    return 0


if __name__ == "__main__":
    sys.exit(main())
