"""An exact least-squares solver: the lengths of a tree's edges that fit a matrix best, as fractions. The
normal equations are solved modulo a large prime, the fractions read back, and the equations then checked
exactly. For matrices with missing pairs, where a fit need not be the only one, the normal equations over the measured
pairs are eliminated in fractions. The best lengths of zero or more are found by active sets, in fractions too. It knows
the model (Bryant and Waddell 1998, equation 22) and nothing of the crates."""
import math
from fractions import Fraction

import reading

PRIME = 2 ** 521 - 1


def read_back(residue):
    """The fraction with small numerator and denominator that the residue stands for."""
    bound = 1 << 260
    r0, r1, s0, s1 = PRIME, residue, 0, 1
    while r1 > bound:
        q = r0 // r1
        r0, r1, s0, s1 = r1, r0 - q * r1, s1, s0 - q * s1
    return Fraction(r1, s1)


def solve(n, distances, parents):
    """The length of each edge."""
    return solve_sums(n, parents, reading.split_sums(n, distances, parents))


def solve_sums(n, parents, wanted):
    """The length of each edge whose paths have these split sums."""
    below = reading.clusters(n, parents)
    edges = len(parents)
    sides = [frozenset(below[v]) for v in range(edges)]
    # the pairs that two edges both part: by the sizes of the four cells that the two clusters make
    rows = []
    for u in range(edges):
        row = []
        for v in range(edges):
            both = len(sides[u] & sides[v])
            only_u, only_v = len(sides[u]) - both, len(sides[v]) - both
            neither = n - both - only_u - only_v
            row.append(both * neither + only_u * only_v)
        rows.append(row)
    # what stands left of a pivot is done with, so each row is worked from there on only, and the lengths come from below
    work = [[x % PRIME for x in row] + [w % PRIME] for row, w in zip(rows, wanted)]
    for column in range(edges):
        pivot = next(r for r in range(column, edges) if work[r][column])
        work[column], work[pivot] = work[pivot], work[column]
        inverse = pow(work[column][column], -1, PRIME)
        top = work[column] = [x * inverse % PRIME for x in work[column][column:]]
        for r in range(column + 1, edges):
            factor = work[r][column]
            if factor:
                work[r][column:] = [(x - factor * y) % PRIME for x, y in zip(work[r][column:], top)]
    residues = [0] * edges
    for column in reversed(range(edges)):
        _, *known, right = work[column]
        residues[column] = (right - sum(x * y for x, y in zip(known, residues[column + 1:]))) % PRIME
    lengths = [read_back(residue) for residue in residues]
    for row, w in zip(rows, wanted):
        if sum(a * b for a, b in zip(row, lengths)) != w:
            raise ValueError("the prime is too small for this fit")
    return lengths


def ways_of(n, distances, parents):
    """For each measured pair its distance and the edges on its way, up from both ends."""
    ways = []
    for (i, j), d in zip(reading.pairs_of(n), distances):
        if d == reading.MISSING:
            continue
        way = set()
        while i != j:
            low = min(i, j)
            way.add(low)
            i, j = parents[low], max(i, j)
        ways.append((d, way))
    return ways


def squares_of(ways, lengths):
    """The sum of squares over the measured pairs."""
    return sum((d - sum(lengths[v] for v in way)) ** 2 for d, way in ways)


class Measured:
    """The least-squares fits to the measured pairs of a matrix, whole or not: `free` has the edges whose lengths can be
    chosen, none where the fit is the only one, and `fit` gives the one with chosen lengths there."""

    def __init__(self, n, distances, parents):
        self.edges = len(parents)
        self.ways = ways_of(n, distances, parents)
        work = [[Fraction(sum(u in way and v in way for _, way in self.ways)) for v in range(self.edges)]
                + [Fraction(sum(d for d, way in self.ways if u in way))] for u in range(self.edges)]
        taken, done = [], 0
        for column in range(self.edges):
            pivot = next((r for r in range(done, self.edges) if work[r][column]), None)
            if pivot is None:
                continue
            work[done], work[pivot] = work[pivot], work[done]
            first = work[done][column]
            work[done] = [x / first for x in work[done]]
            for r in range(self.edges):
                if r != done and work[r][column]:
                    factor = work[r][column]
                    work[r] = [x - factor * y for x, y in zip(work[r], work[done])]
            taken.append(column)
            done += 1
        self.rows = dict(zip(taken, work))  # the row that is left for each edge that is not free
        # the normal equations of any distances have a solution
        assert not any(row[self.edges] for row in work[done:])
        self.free = [v for v in range(self.edges) if v not in self.rows]

    def fit(self, chosen):
        lengths = [Fraction(0)] * self.edges
        for v in self.free:
            lengths[v] = Fraction(chosen(v))
        for v, row in self.rows.items():
            lengths[v] = row[self.edges] - sum(row[u] * lengths[u] for u in self.free)
        return lengths

    def squares(self, lengths):
        return squares_of(self.ways, lengths)


class Drawable:
    """The least-squares fit to the measured pairs among the tables without a negative length."""

    def __init__(self, n, distances, parents):
        self.edges = len(parents)
        self.ways = ways_of(n, distances, parents)
        self.shared = [[sum(u in way and v in way for _, way in self.ways) for v in range(self.edges)]
                       for u in range(self.edges)]
        self.wanted = self.sums([0] * self.edges)

    def squares(self, lengths):
        return squares_of(self.ways, lengths)

    def sums(self, lengths):
        """For each edge what is observed less what the tree has, added over the measured pairs whose way it is on."""
        left = [(d - sum(lengths[v] for v in way), way) for d, way in self.ways]
        return [sum(r for r, way in left if v in way) for v in range(self.edges)]

    def balanced(self, loose):
        """The table whose edges are zero but for these, and whose sums are zero at these; nothing where it is not the
        only one."""
        work = [[Fraction(self.shared[u][v]) for v in loose] + [Fraction(self.wanted[u])] for u in loose]
        for column in range(len(loose)):
            pivot = next((r for r in range(column, len(loose)) if work[r][column]), None)
            if pivot is None:
                return None
            work[column], work[pivot] = work[pivot], work[column]
            top = work[column]
            for r in range(column + 1, len(loose)):
                if work[r][column]:
                    factor = work[r][column] / top[column]
                    work[r] = [x - factor * y for x, y in zip(work[r], top)]
        lengths = [Fraction(0)] * self.edges
        for column in reversed(range(len(loose))):
            row = work[column]
            known = sum(row[k] * lengths[loose[k]] for k in range(column + 1, len(loose)))
            lengths[loose[column]] = (row[-1] - known) / row[column]
        return lengths

    def fit(self):
        """By active sets: of the edges at zero whose sum is positive, the one with the largest is let loose, and loose
        edges that would turn negative are held at zero again. The sum of squares falls with each edge let loose."""
        lengths, loose = [Fraction(0)] * self.edges, []
        while True:
            sums = self.sums(lengths)
            pulled = [v for v in range(self.edges) if v not in loose and sums[v] > 0]
            if not pulled:
                break
            loose.append(max(pulled, key=lambda v: sums[v]))
            aim = self.balanced(loose)
            while any(aim[v] <= 0 for v in loose):
                step = min(lengths[v] / (lengths[v] - aim[v]) for v in loose if aim[v] <= 0)
                lengths = [x + step * (y - x) for x, y in zip(lengths, aim)]
                loose = [v for v in loose if lengths[v] > 0]
                aim = self.balanced(loose)
            lengths = aim
        if any(x < 0 or found > 0 or x > 0 > found for x, found in zip(lengths, self.sums(lengths))):
            raise ValueError("these lengths are not the best of those without a negative one")
        return lengths

    def by_trying(self):
        """The best table, over every choice of the edges that are not held at zero: some best one has edges whose
        lengths the choice settles."""
        tables = (self.balanced([v for v in range(self.edges) if choice >> v & 1]) for choice in range(1 << self.edges))
        return min((table for table in tables if table and min(table) >= 0), key=self.squares)


def common(lengths):
    """A denominator and numerators."""
    denominator = 1
    for b in lengths:
        denominator = math.lcm(denominator, b.denominator)
    return denominator, [int(b * denominator) for b in lengths]
