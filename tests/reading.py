"""A plain reading of docs/RULES.md, for comparison. It shares nothing with the crates: every sum is taken
over all pairs, every edge is asked for every pair, and numbers are Python's whole numbers."""
import math
import struct
from collections import namedtuple
from fractions import Fraction

MAX_SHEET = 5187
MAX_NAMED = MAX_SHEET + 6 + 11 * 64  # with names: a record more
MISSING = 65535  # in a matrix: nobody measured this pair


def pairs_of(n):
    """The pairs in the order 01, 02, .., 0(N-1), 12, 13, .."""
    return [(i, j) for i in range(n) for j in range(i + 1, n)]


def clusters(n, parents):
    """The set of strains below each vertex."""
    below = [set() for _ in range(len(parents) + 1)]
    for strain in range(n):
        v = strain
        below[v].add(strain)
        while v < len(parents):
            v = parents[v]
            below[v].add(strain)
    return below


def parts(cluster, i, j):
    return (i in cluster) != (j in cluster)


def measured_of(n, distances):
    """The pairs that were measured, each with its distance."""
    return [(d, i, j) for d, (i, j) in zip(distances, pairs_of(n)) if d != MISSING]


# ---- answers: nothing where a test passes, otherwise the number of refusal, and behind it the place in words and
# numbers where the number has one
PASS = ()


def number_of(answer):
    return answer[0] if answer else 0


def refused_line(answer):
    return "refused " + " ".join(str(x) for x in answer)


def matrix_answer(n, distances):
    if len(distances) * 2 != n * (n - 1):
        return (4,)
    if not 3 <= n <= 64:
        return (6,)
    if any(d > 50000 for d in distances if d != MISSING):
        return (7,)
    return PASS


def tree_answer(n, parents):
    if not 3 <= n <= 64:
        return (6,)
    v = len(parents) + 1
    if not n + 1 <= v <= 2 * n - 2:
        return (8,)
    for child, p in enumerate(parents):
        if p > v - 1:
            return 16, "vertex", child
        if p <= child or p < n:
            return 9, "vertex", child
    for w in range(n, v):
        if parents.count(w) < (3 if w == v - 1 else 2):
            return 10, "vertex", w
    return PASS


def seen_answer(n, distances, parents):
    """26 at the lowest edge that parts no measured pair."""
    below = clusters(n, parents)
    measured = measured_of(n, distances)
    for v in range(len(parents)):
        if not any(parts(below[v], i, j) for _, i, j in measured):
            return 26, "edge", v
    return PASS


def lengths_answer(edges, denominator, numerators):
    if len(numerators) != edges:
        return (11,)
    if not 1 <= denominator <= 1000000:
        return (12,)
    for v, x in enumerate(numerators):
        if abs(x) > 100000000000:
            return 13, "edge", v
    return PASS


def path(below, table, i, j):
    return sum(x for v, x in enumerate(table) if parts(below[v], i, j))


def edge_sums(n, distances, parents, denominator, numerators):
    """For each edge the remainders added over the measured pairs that it parts."""
    below = clusters(n, parents)
    return parted(below, [(denominator * d - path(below, numerators, i, j), i, j) for d, i, j in measured_of(n, distances)])


def split_sums(n, distances, parents):
    return parted(clusters(n, parents), measured_of(n, distances))


def parted(below, values):
    """For each edge the values added over the pairs that it parts; a value stands before its pair."""
    return [sum(x for x, i, j in values if (i in cluster) != (j in cluster)) for cluster in below[:-1]]


# ---- the two verdicts: the first word of an accepted sheet's report, and the tests behind 13. Each test is made over
# all edges before the next; it has its number, whether its place has the sum, and what numerators and sums it refuses.
Rule = namedtuple("Rule", "word tests")
PLAIN = Rule("fit", ((14, True, lambda x, found: found != 0),))
DRAWABLE = Rule("fit0", ((22, False, lambda x, found: x < 0),
                         (14, True, lambda x, found: x > 0 and found != 0),
                         (23, True, lambda x, found: x == 0 and found > 0)))


def judge(n, distances, parents, denominator, numerators, rule=PLAIN):
    answer = (matrix_answer(n, distances) or tree_answer(n, parents) or seen_answer(n, distances, parents)
              or lengths_answer(len(parents), denominator, numerators))
    if answer:
        return answer
    sums = edge_sums(n, distances, parents, denominator, numerators)
    for number, with_sum, at_fault in rule.tests:
        for v, (x, found) in enumerate(zip(numerators, sums)):
            if at_fault(x, found):
                return (number, "edge", v, found) if with_sum else (number, "edge", v)
    return PASS


def nearest(numerator, denominator):
    """Of the two whole numbers about 1000·numerator/denominator the nearer, at a tie the even one; of a negative
    length the mirror of the positive one's."""
    exact = Fraction(1000 * abs(numerator), denominator)
    low = math.floor(exact)
    m = min((low, low + 1), key=lambda whole: (abs(exact - whole), whole % 2))
    return m if numerator >= 0 else -m


class Report:
    """The numbers of an accepted fit."""

    def __init__(self, n, distances, parents, denominator, numerators):
        below = clusters(n, parents)
        measured = measured_of(n, distances)
        self.n, self.edges, self.denominator = n, len(parents), denominator
        self.numerators = list(numerators)
        self.rounded = [nearest(x, denominator) for x in numerators]
        self.length = sum(numerators)
        self.f = self.r = self.h = 0
        for d, i, j in measured:
            self.f += d * (denominator * d - path(below, numerators, i, j))
            self.r += (1000 * d - path(below, self.rounded, i, j)) ** 2
            self.h += path(below, [1] * len(parents), i, j) ** 2
        # pairs less edges; with none left there is nothing to divide by, and with a pair missing none is given
        spare = len(distances) - len(parents)
        self.mean = "%d %d" % (self.f, denominator * spare) if spare > 0 and len(measured) == len(distances) else "none"

    def lines(self, rule=PLAIN):
        out = ["%s %d %d %d" % (rule.word, self.n, self.edges, self.denominator)]
        out += ["edge %d %d %d" % (v, x, m) for v, (x, m) in enumerate(zip(self.numerators, self.rounded))]
        out += ["length %d" % self.length, "square %d %d %d" % (self.f, self.r, self.h), "mean " + self.mean]
        return out


# ---- sheets
def record(kind, body):
    return struct.pack("<IH", len(body), kind) + body


def bare_sheet(n, distances, parents):
    """A sheet without lengths."""
    return (record(1, struct.pack("<H", n) + b"".join(struct.pack("<H", d) for d in distances))
            + record(2, struct.pack("<HH", n, len(parents) + 1) + bytes(parents)))


def sheet(n, distances, parents, denominator, numerators):
    return (bare_sheet(n, distances, parents)
            + record(3, struct.pack("<IH", denominator, len(numerators)) + b"".join(struct.pack("<q", x) for x in numerators)))


def names_in(body):
    """The names of a names record, of any length each; nothing where they do not end with the body."""
    names, at = [], 0
    while at < len(body):
        names.append(body[at + 1:at + 1 + body[at]])
        at += 1 + body[at]
    return names if at == len(body) else None


def read_records(data, kinds, most=MAX_SHEET):
    """1 to 5, or the bodies of the records of these kinds. The place of 2, 3 and 4 is the record's first byte; that of
    5 is the first byte that no record has. Names must be as many as the matrix has strains, where there is one."""
    if len(data) > most:
        return (1,), None
    at, bodies = 0, []
    for kind in kinds:
        if len(data) - at < 6:
            return (2, "byte", at), None
        size, found = struct.unpack_from("<IH", data, at)
        if len(data) - at - 6 < size:
            return (2, "byte", at), None
        if found != kind:
            return (3, "byte", at), None
        body = data[at + 6:at + 6 + size]
        if size < {1: 2, 2: 4, 3: 6, 5: 0}[kind]:
            return (4, "byte", at), None
        if kind == 1:
            n, = struct.unpack_from("<H", body)
            if size != 2 + n * (n - 1):
                return (4, "byte", at), None
        elif kind == 2:
            _, v = struct.unpack_from("<HH", body)
            if v == 0 or size != 4 + v - 1:
                return (4, "byte", at), None
        elif kind == 3:
            _, k = struct.unpack_from("<IH", body)
            if size != 6 + 8 * k:
                return (4, "byte", at), None
        else:
            names = names_in(body)
            if names is None or bodies and len(names) != struct.unpack_from("<H", bodies[0])[0]:
                return (4, "byte", at), None
        bodies.append(body)
        at += 6 + size
    if at != len(data):
        return (5, "byte", at), None
    return PASS, bodies


def read_front(first, second):
    """What the matrix and the tree hold."""
    n, = struct.unpack_from("<H", first)
    distances = list(struct.unpack_from("<%dH" % (len(first) // 2 - 1), first, 2))
    tree_n, _ = struct.unpack_from("<HH", second)
    return n, distances, tree_n, list(second[4:])


def fields_of(first, second, third):
    """What the matrix, the tree and the lengths hold."""
    denominator, k = struct.unpack_from("<IH", third)
    numerators = list(struct.unpack_from("<%dq" % k, third, 6))
    return (*read_front(first, second), denominator, numerators)


def read_sheet(data):
    """A refusal, or the fields of the three records."""
    answer, bodies = read_records(data, (1, 2, 3))
    return (answer, None) if answer else (PASS, fields_of(*bodies))


def sheet_answer(data, rule=PLAIN):
    answer, fields = read_sheet(data)
    return answer or fields_answer(fields, rule)


def fields_answer(fields, rule=PLAIN):
    """The tests of a sheet from 6 on."""
    n, distances, tree_n, parents, denominator, numerators = fields
    answer = matrix_answer(n, distances)
    if answer:
        return answer
    if tree_n != n:
        return (8,)
    return judge(n, distances, parents, denominator, numerators, rule)


def sheet_number(data):
    return number_of(sheet_answer(data))


def print_of(data, rule=PLAIN):
    """The lines that the program prints which judges by this rule."""
    answer = sheet_answer(data, rule)
    if answer:
        return [refused_line(answer)]
    n, distances, _, parents, denominator, numerators = read_sheet(data)[1]
    return Report(n, distances, parents, denominator, numerators).lines(rule)


# ---- sheets without lengths
def resolved_answer(n, distances, parents):
    """25 at the lowest inner vertex that is not of degree three, then 26 for any missing pair."""
    edges = len(parents)
    for w in range(n, edges + 1):
        if parents.count(w) + (w < edges) != 3:
            return 25, "vertex", w
    return (26,) if MISSING in distances else PASS


def resolved_print(data, solve):
    """The lines that the program for resolved trees prints; `solve` gives each edge's length as a fraction."""
    answer, bodies = read_records(data, (1, 2))
    if not answer:
        n, distances, tree_n, parents = read_front(*bodies)
        answer = (matrix_answer(n, distances) or ((8,) if tree_n != n else PASS) or tree_answer(n, parents)
                  or resolved_answer(n, distances, parents))
    if answer:
        return [refused_line(answer)]
    lengths = solve(n, distances, parents)
    below = clusters(n, parents)
    rounded = [nearest(b.numerator, b.denominator) for b in lengths]
    r = sum((1000 * d - path(below, rounded, i, j)) ** 2 for d, (i, j) in zip(distances, pairs_of(n)))
    h = sum(path(below, [1] * len(parents), i, j) ** 2 for i, j in pairs_of(n))
    return (["resolved %d %d" % (n, len(parents))]
            + ["edge %d %d %d %d" % (v, b.numerator, b.denominator, m) for v, (b, m) in enumerate(zip(lengths, rounded))]
            + ["square %d %d" % (r, h)])
