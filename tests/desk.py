#!/usr/bin/env python3
"""A plain reading of the desk with its two benches and of the lines that the program `two_benches` takes, for comparison. It
shares nothing with the crates: the tests and the report are those of reading.py, and numbers are Python's whole numbers,
so that none is ever cut.

The desk. It holds a matrix and a tree, or nothing, and for each of the benches 1 and 2 a table that stands, or none.

    post       4, 6, 7, 8, 9 or 16, 10, 26; takes both tables down, the same matrix and tree included
    correct    21 nothing posted, 24 strains equal or not below N, 7, 26 on the corrected matrix; takes both tables down, to
               the same value included
    propose    20 bench not 1 or 2, 21 nothing posted, 11 to 14 by the plain verdict; takes the place of the bench's table
    withdraw   20, 21 nothing posted or nothing standing
    report     20, 21 as there, 15
    pairs      20, 21 as there

A call that is refused changes nothing.

The lines. A line ends in LF or CR LF, which the last may lack; a CR anywhere else is a byte like any other. Words are parted
by blanks, which are spaces and tabs, and blanks may stand before the first and behind the last.

    post N distances / parents          distances in the sheet's order, 65535 for a missing pair; `/` exactly once
    propose BENCH D numerators
    correct I J DISTANCE
    withdraw BENCH
    report BENCH
    pairs BENCH

A number is decimal digits, and leading zeros pass; a numerator may have a minus before them. A line of blanks alone, and one
whose first byte is #, gets no answer; any other that is not of the form, and any of more than 16,384 bytes without its end,
gets `refused line`.

    tests/desk.py                       checks this reading on the rules' own examples and on random sequences
    tests/desk.py --make SEED COUNT     writes a random sequence of that many lines
    tests/desk.py --answer              writes what the program must print for standard input"""
import random
import re
import sys
from collections import Counter

import make_figures
import reading
import solver

MAX_LINE = 16384
MISSING = reading.MISSING
OK = ["ok"]
# what only shows something of a table
SHOWN = "report", "pairs"


class Desk:
    """Each call gives the lines of its answer."""

    def __init__(self):
        self.posted, self.tables = None, {1: None, 2: None}

    def state(self):
        return self.posted, self.tables[1], self.tables[2]

    def take(self, n, distances, parents):
        self.posted, self.tables = (n, tuple(distances), tuple(parents)), {1: None, 2: None}
        return OK

    def post(self, n, distances, parents):
        answer = (reading.matrix_answer(n, distances) or reading.tree_answer(n, parents)
                  or reading.seen_answer(n, distances, parents))
        return refused(answer) if answer else self.take(n, distances, parents)

    def correct(self, i, j, distance):
        if self.posted is None:
            return refused((21,))
        n, distances, parents = self.posted
        if i == j or i >= n or j >= n:
            return refused((24,))
        if distance > 50000 and distance != MISSING:
            return refused((7,))
        pair = min(i, j), max(i, j)
        corrected = [distance if p == pair else d for p, d in zip(reading.pairs_of(n), distances)]
        answer = reading.seen_answer(n, corrected, parents)
        return refused(answer) if answer else self.take(n, corrected, parents)

    def propose(self, bench, denominator, numerators):
        if bench not in self.tables:
            return refused((20,))
        if self.posted is None:
            return refused((21,))
        answer = reading.judge(*self.posted, denominator, numerators)
        if answer:
            return refused(answer)
        self.tables[bench] = denominator, tuple(numerators)
        return OK

    def withdraw(self, bench):
        if bench not in self.tables:
            return refused((20,))
        if self.tables[bench] is None:
            return refused((21,))
        self.tables[bench] = None
        return OK

    def report(self, bench, room=None):
        """The report; `room` is how many rounded lengths the lent buffer has, where one is lent."""
        if bench not in self.tables:
            return refused((20,))
        if self.tables[bench] is None:
            return refused((21,))
        if room is not None and room != len(self.posted[2]):
            return refused((15,))
        return reading.Report(*self.posted, *self.tables[bench]).lines()

    def pairs(self, bench):
        """A line for each pair, in rows; a pair that nobody measured has a dash for its distance and one for its remainder."""
        if bench not in self.tables:
            return refused((20,))
        if self.tables[bench] is None:
            return refused((21,))
        (n, distances, parents), (denominator, numerators) = self.posted, self.tables[bench]
        below, rounded = reading.clusters(n, parents), [reading.nearest(x, denominator) for x in numerators]
        out = ["fit %d %d %d" % (n, len(parents), denominator)]
        for (i, j), distance in zip(reading.pairs_of(n), distances):
            path, near = reading.path(below, numerators, i, j), reading.path(below, rounded, i, j)
            known = distance != MISSING
            out.append("pair %d %d %s %d %d %s" % (i, j, distance if known else "-", path, near, denominator * distance - path if known else "-"))
        return out


def refused(answer):
    return [reading.refused_line(answer)]


# ---- lines
class NotOfTheForm(Exception):
    pass


def number(word, signed=False):
    """The whole number that a word is, however long."""
    minus = signed and word.startswith(b"-")
    digits = word[1:] if minus else word
    if not digits or digits.strip(b"0123456789"):
        raise NotOfTheForm
    value = 0
    for at in range(0, len(digits), 1000):
        part = digits[at:at + 1000]
        value = value * 10 ** len(part) + int(part)
    return -value if minus else value


def call_of(line):
    """The name of the call and what it is given; nothing where the line asks for no answer."""
    if len(line) > MAX_LINE:
        raise NotOfTheForm
    words = [word for word in re.split(b"[ \t]", line) if word]
    if not words or line.startswith(b"#"):
        return None
    name, rest = words[0], words[1:]
    if name == b"post":
        if rest.count(b"/") != 1 or rest[0] == b"/":
            raise NotOfTheForm
        cut = rest.index(b"/")
        numbers = [number(word) for word in rest[:cut]]
        return "post", (numbers[0], numbers[1:], [number(word) for word in rest[cut + 1:]])
    if name == b"propose" and len(rest) >= 2:
        return "propose", (number(rest[0]), number(rest[1]), [number(word, True) for word in rest[2:]])
    if (name, len(rest)) in ((b"correct", 3), (b"withdraw", 1), (b"report", 1), (b"pairs", 1)):
        return name.decode(), tuple(number(word) for word in rest)
    raise NotOfTheForm


def said(desk, line):
    """The lines of the answer to a line without its end; none where it gets no answer."""
    try:
        call = call_of(line)
    except NotOfTheForm:
        return ["refused line"]
    return getattr(desk, call[0])(*call[1]) if call else []


def split(text):
    """The lines of a text, without their ends."""
    *ended, last = text.split(b"\n")
    return [line[:-1] if line.endswith(b"\r") else line for line in ended] + ([last] if last else [])


def lines(text):
    """What the program prints for this input."""
    desk = Desk()
    return "".join(line + "\n" for given in split(text) for line in said(desk, given)).encode()


# ---- random sequences
MALFORMED = [
    b"post", b"post /", b"post / 4", b"post 4", b"post 4 3 7 8 6 9 5 4 4 5 5 5", b"post 4 3 7 8 / 6 9 5 / 4 4 5 5 5",
    b"post 4 3 7 8 6 9 5 / / 4 4 5 5 5", b"post 4 3 7 8 6 9 5 // 4 4 5 5 5", b"post 4 3 7 8 6 9 5/ 4 4 5 5 5",
    b"post 4 3 7 8 6 9 5 /4 4 5 5 5", b"post x 3 7 8 / 3 3 3", b"post -3 1 1 4 / 3 3 3", b"post +3 1 1 4 / 3 3 3",
    b"post 3 1 -1 4 / 3 3 3", b"post 3 1 1 -0 / 3 3 3", b"post 3 1 1 4 / 3 -3 3", b"post 3 1 1 4 / 3 +3 3", b"post3 1 1 4 / 3 3 3",
    b"post 3 1 1 4.0 / 3 3 3", b"post 3 1,1,4 / 3 3 3", b"propose", b"propose 1", b"propose 3", b"propose 3 x", b"propose x 2 3",
    b"propose -1 2 3", b"propose -0 2 3", b"propose 1 -2 3", b"propose 1 -0", b"propose +1 2 3", b"propose 1 2 +3",
    b"propose 1 2 -", b"propose 1 2 --3", b"propose 1 2 3-", b"propose 1 2 - 3", b"propose 1 2 3.0", b"propose 1 2 1e3", b"propose 1 2 0x3",
    b"propose 1 2 /", b"propose 1 / 2 3", b"correct", b"correct 0", b"correct 0 1", b"correct 0 1 2 3", b"correct 0 1 -1",
    b"correct -0 1 2", b"correct 0 1 / 2", b"correct 0 1 +2", b"withdraw", b"withdraw 1 2", b"withdraw 1 /", b"withdraw -1",
    b"withdraw x", b"report", b"report 1 1", b"report one", b"report -1", b"report +1", b"report 1.", b"report /", b"Report 1",
    b"REPORT 1", b"reports 1", b"repor 1", b"report1", b"/", b"1", b"fit 4 5 2", b"ok", b"quit", b" # 1", b"\t#", b"report 1 # mine",
    b"report 1#", b"report\x001", b"report 1\0", b"\0", b"report\x0b1", b"report 1\x0c", b"\r", b"\r\r", b"report\r1", b"report 1\r",
    b"report 1\r ", b"\rreport 1", b"report \xc2\xa01", b"report \xd9\xa1", b"\xff", b"\xef\xbb\xbfreport 1", b"withdraw 1;",
    b"report 1\\", b"'report' 1", b"pairs", b"pairs 1 1", b"pairs 0 1 2", b"pairs -1", b"pairs +1", b"pairs -0", b"pairs /", b"pairs x", b"pairs1", b"Pairs 1", b"PAIRS 1",
    b"pair 1", b"pairss 1", b"pair 0 1", b"pair 0 1 3 6 3000 0", b"pairs 1\r", b"pairs\x001", b"pairs 1#", b"p 1", b"pa 1"]
# a number with one of these added is the same number again where it is cut to so many bits
CUTS = [2 ** 8, 2 ** 16, 2 ** 31, 2 ** 32, 2 ** 40, 2 ** 63, 2 ** 64, 2 ** 128, 10 ** 30]


class Maker:
    """Draws lines one by one, and keeps a desk beside them to know what is posted."""

    def __init__(self, seed):
        self.rng, self.desk = random.Random(seed), Desk()
        self.known, self.old = {}, [(2, [3, 3, 3, 7, 7])]

    def coin(self, share):
        return self.rng.random() < share

    def blanks(self):
        return b" " if self.coin(0.9) else bytes(self.rng.choice(b" \t") for _ in range(self.rng.randint(1, 3)))

    def line(self, words):
        """The words with blanks between them and at times around them; numbers at times with leading zeros."""
        plain = self.coin(0.5)
        out = b"" if plain or self.coin(0.8) else self.blanks()
        for k, word in enumerate(words):
            text = str(word)
            if not plain and isinstance(word, int) and self.coin(0.05):
                text = ("-" if word < 0 else "") + "0" * self.rng.randint(1, 25) + str(abs(word))
            out += (b"" if k == 0 else b" " if plain else self.blanks()) + text.encode()
        return out if plain or self.coin(0.8) else out + self.blanks()

    # postings
    def drawn(self):
        """A matrix and a tree that may be posted; of large ones the fit is known."""
        rng = self.rng
        large = self.coin(0.01)
        n = rng.choice((17, 32, 33, 63, 64)) if large else rng.choice((3, 4, 4, 4, 5, 5, 6, 7))
        shape = rng.choice((make_figures.star(n), make_figures.grown(n, rng, 2), make_figures.grown(n, rng, 4)))
        parents = make_figures.table_of(shape, n)
        if large:
            lengths = [rng.randint(0, 700) for _ in parents]
            posted = n, tuple(make_figures.whole_paths(n, parents, lengths)), tuple(parents)
            self.known[posted] = 1, lengths
            return n, list(posted[1]), parents
        most = rng.choice((1, 3, 9, 60, 50000))
        distances = [rng.randint(0, most) for _ in reading.pairs_of(n)]
        return n, make_figures.lost(n, distances, rng) if self.coin(0.25) else distances, parents

    def post(self):
        rng = self.rng
        if self.desk.posted and self.coin(0.12):
            n, distances, parents = self.desk.posted
            distances, parents = list(distances), list(parents)
        else:
            n, distances, parents = self.drawn()
        if self.coin(0.4):
            n = self.break_posting(n, distances, parents)
        return ["post", n] + distances + ["/"] + parents

    def break_posting(self, n, distances, parents):
        """One thing wrong, in place; gives N."""
        rng = self.rng
        at, v = rng.randrange(len(distances)), rng.randrange(len(parents))
        kind = rng.randrange(14)
        if kind == 0:
            distances[at:] = [] if self.coin(0.5) else distances[at:] + [0]
        elif kind == 1:
            return rng.choice((0, 1, 2, n + 1, n - 1, n + rng.choice(CUTS)))
        elif kind == 2:  # too few strains or too many, with the distances that they ask for
            n = rng.choice((0, 1, 2, 2, 65, 66) if self.coin(0.1) else (0, 1, 2))
            n = 128 if self.coin(0.005) else n
            distances[:] = [rng.randint(0, 9) for _ in range(n * (n - 1) // 2)]
        elif kind in (3, 4):
            distances[at] = rng.choice((50001, 65534, 65536, 70000, 131071, distances[at] + rng.choice(CUTS[1:])))
        elif kind == 5:
            parents[v:] = [] if self.coin(0.5) else parents[v:] + [parents[-1]]
        elif kind == 6:
            parents[:] = [] if self.coin(0.5) else [n] * (n - 1)
        elif kind in (7, 8):
            parents[v] = rng.choice((300, 255, 256, len(parents) + 1, parents[v] + rng.choice(CUTS)))
        elif kind == 9:
            parents[v] = rng.choice((0, v, n - 1))
        elif kind == 10:  # what hangs at one inner vertex hangs at another, all or all but one
            one, other = rng.randrange(n, len(parents) + 1), rng.randrange(n, len(parents) + 1)
            children = [w for w, parent in enumerate(parents) if parent == one and w < other]
            for w in children[rng.randrange(2):]:
                parents[w] = other
        elif kind == 11:  # all that a strain has, and what else is drawn
            for k, pair in enumerate(reading.pairs_of(n)):
                if v in pair or v >= n and self.coin(0.8):
                    distances[k] = MISSING
        else:  # two faults: the earlier test decides
            distances[at] = 50001
            parents[v] = 300
        return n

    # proposals
    def fit(self):
        """A table that fits what is posted, where one is within the limits."""
        posted = self.desk.posted
        if posted not in self.known and posted[0] <= 8:
            solved = solver.Measured(*posted)
            denominator, numerators = solver.common(solved.fit(lambda v: self.rng.randint(-9, 9)))
            if len(self.known) > 500:
                self.known.clear()
            self.known[posted] = (denominator, numerators) if make_figures.within(denominator, numerators) else None
        return self.known.get(posted)

    def table(self):
        """A denominator and numerators: a fit, as it is or changed, or one from earlier."""
        rng = self.rng
        fit = self.desk.posted and self.fit()
        if not fit or self.coin(0.12):
            return rng.choice(self.old)
        denominator, numerators = fit
        self.old = self.old[-20:] + [fit]
        times = rng.randint(1, 9) if self.coin(0.3) else 1
        if make_figures.within(denominator * times, [x * times for x in numerators]):
            denominator, numerators = denominator * times, [x * times for x in numerators]
        return denominator, numerators

    def propose(self):
        rng = self.rng
        denominator, numerators = self.table()
        numerators, v = list(numerators), rng.randrange(len(numerators))
        kind = rng.randrange(20)
        if kind == 0:
            numerators[v:] = [] if self.coin(0.5) else numerators[v:] + [0]
        elif kind == 1:
            denominator = rng.choice((0, 1000001, 2 ** 31, 2 ** 32, denominator + rng.choice(CUTS[3:])))
        elif kind == 2:
            for at in (v, rng.randrange(len(numerators))):
                numerators[at] = rng.choice((-1, 1)) * rng.choice((10 ** 11, 10 ** 11 + 1, 10 ** 30, 2 ** 63, 2 ** 64))
        elif kind == 3:
            numerators[v] += rng.choice((-1, 1)) * rng.choice(CUTS[5:])
        elif kind in (4, 5):
            numerators[v] += rng.choice((-1, 1))
        elif kind == 6:
            denominator += 1
        words = [x if x or self.coin(0.7) else rng.choice(("-0", "-000", "00")) for x in numerators]
        return ["propose", self.bench(), denominator] + words

    def bench(self):
        if self.coin(0.93):
            return self.rng.choice((1, 2))
        return self.rng.choice((0, 3, 12, self.rng.choice((1, 2)) + self.rng.choice(CUTS)))

    def correct(self):
        rng = self.rng
        n, distances, _ = self.desk.posted or (4, (3, 7, 8, 6, 9, 5), None)
        i, j = rng.sample(range(n), 2)
        distance = distances[reading.pairs_of(n).index((min(i, j), max(i, j)))]
        if self.coin(0.8):
            distance = rng.choice((rng.randint(0, 60), rng.randint(0, 50000), 50000, MISSING, MISSING))
        kind = rng.randrange(10)
        if kind == 0:
            i = rng.choice((j, n, n + 1, i + rng.choice(CUTS)))
        elif kind == 1:
            j = rng.choice((i, n, 255, j + rng.choice(CUTS)))
        elif kind == 2:
            distance = rng.choice((50001, 65534, 65536, 131071, distance + rng.choice(CUTS[1:])))
        elif kind == 3:
            i, distance = rng.choice((i, n)), rng.choice((50001, MISSING))
        elif kind == 4 and self.desk.posted and n <= 8:
            i, j = rng.choice(self.holding() or [(i, j)])
            distance = MISSING
        return ["correct", i, j, distance]

    def holding(self):
        """The pairs without which some edge parts no measured pair."""
        n, distances, parents = self.desk.posted
        without = lambda pair: [MISSING if p == pair else d for p, d in zip(reading.pairs_of(n), distances)]
        return [pair for pair in reading.pairs_of(n) if reading.seen_answer(n, without(pair), parents)]

    def withdraw(self):
        return ["withdraw", self.bench()]

    def report(self):
        return ["report", self.bench()]

    def pairs(self):
        return ["pairs", self.bench()]

    # lines
    def call(self):
        kinds, often = zip(("post", 10), ("correct", 10), ("propose", 40), ("withdraw", 10), ("report", 18), ("pairs", 8))
        return self.line(getattr(self, self.rng.choices(kinds, often)[0])())

    def spoilt(self):
        """A call with a byte changed, put in or taken out."""
        line, rng = self.call(), self.rng
        at = rng.randrange(len(line))
        byte = bytes([rng.choice(b"0123456789 \t/-+#.xpr\r\0\xff")])
        return rng.choice((line[:at] + byte + line[at + 1:], line[:at] + byte + line[at:], line[:at] + line[at + 1:]))

    def long(self):
        """A line about the limit: a call or a comment with blanks behind or before it, a long number, or blanks alone."""
        rng = self.rng
        size = MAX_LINE + rng.choice((0, 0, 1, 2, 4000))
        line = rng.choice((self.call(), b"#", b"", b"report 1"))[:size]
        room = size - len(line)
        return rng.choice((line + b" " * room, b"\t" * room + line, b"report " + b"0" * (size - 8) + b"1",
                           b"report " + b"9" * (size - 7), b"propose 1 1 " + b"-" + b"0" * (size - 13), b"x" * size))

    def next(self):
        """The next line with its end."""
        rng, draw = self.rng, self.rng.random()
        if draw < 0.88:
            line = self.call()
        elif draw < 0.93:
            line = rng.choice(MALFORMED)
        elif draw < 0.96:
            line = self.spoilt()
        elif draw < 0.962:
            line = self.long()
        else:
            line = rng.choice((b"", b" ", b"\t \t", b"#", b"# post 4 /", b"#report 1", b"#\xff\0\r!"))
        out = line + (b"\n" if self.coin(0.85) else b"\r\n")
        for given in split(out):
            said(self.desk, given)
        return out


def made(seed, count):
    """A sequence of so many lines; the last may lack its end."""
    maker = Maker(seed)
    text = b"".join(maker.next() for _ in range(count))
    return text[:-1] if maker.coin(0.5) else text


# ---- checks of this reading
A = b"post 4 3 7 8 6 9 5 / 4 4 5 5 5\n"
FIT = b"propose 1 2 3 3 3 7 7\n"
PAIRS = b"fit 4 5 2\npair 0 1 3 6 3000 0\npair 0 2 7 13 6500 1\npair 0 3 8 17 8500 -1\npair 1 2 6 13 6500 -1\npair 1 3 9 17 8500 1\npair 2 3 5 10 5000 0\n"
REPORT = b"fit 4 5 2\nedge 0 3 1500\nedge 1 3 1500\nedge 2 3 1500\nedge 3 7 3500\nedge 4 7 3500\nlength 23\nsquare 2 1000000 44\nmean 2 2\n"


def check_story():
    told = A + FIT + b"report 1\ncorrect 0 3 9\nreport 1\nwithdraw 2\n"
    assert lines(told) == b"ok\nok\n" + REPORT + b"ok\nrefused 21\nrefused 21\n"


def check_examples():
    """What is said of lines, sentence by sentence: what is given behind sheet A with its fit standing at bench 1, and
    what is printed for it."""
    last = lambda given: lines(A + FIT + given)[len(b"ok\nok\n"):]
    alone = lambda given: lines(given)
    off = lambda number: b"refused %d\n" % number
    bad = b"refused line\n"
    # the form
    for given in (b"report 1", b"report 1\n", b"report 1\r\n", b"  report\t 1 \t\n", b"report 0001\n", b"\treport 1"):
        assert last(given) == REPORT, given
    for given in (b"pairs 1", b"pairs 1\r\n", b"  pairs\t 1 \t\n", b"pairs 0001\n", b"pairs 1".ljust(16384)):
        assert last(given) == PAIRS, given
    for given in (b"report 1\r", b"report 1\r\r\n", b"report\r1\n", b"\rreport 1\n"):
        assert last(given) == bad, given
    assert alone(b"post 4 3 7 8 6 9 5 / 4 4 5 5 5\npropose 1 2 03 3 3 0007 7") == b"ok\nok\n"
    assert alone(b"post 3 0 0 0 / 3 3 3\npropose 1 1 -0 0 -000\n") == b"ok\nok\n"
    assert alone(b"post 3 1 1 4 / 3 3 3\npropose 1 1 -1 2 2\n") == b"ok\nok\n"
    assert alone(b"post 4 65535 7 8 6 9 5 / 4 4 5 5 5\npropose 2 2 2 2 3 7 8\n") == b"ok\nok\n"
    # the sheet's order: by strains these distances would be another matrix, and the lengths would not fit
    assert alone(b"post 4 3 7 6 8 9 5 / 4 4 5 5 5\n" + FIT) == b"ok\nrefused 14 edge 0 -4\n"
    for given in (b"post 4 -3 7 8 6 9 5 / 4 4 5 5 5", b"post 4 +3 7 8 6 9 5 / 4 4 5 5 5", b"propose 1 2 +3 3 3 7 7",
                  b"propose 1 -2 3 3 3 7 7", b"propose -1 2 3 3 3 7 7", b"correct 0 3 -9", b"correct -0 3 9", b"withdraw -1"):
        assert last(given) == bad, given
    # no answer, and `refused line`, which changes nothing; the run goes on
    for given in (b"", b"\n", b" \t \n", b"\r\n", b"#", b"# report 1\n", b"#\xff\r\n"):
        assert last(given) == b"", given
    for given in (b"post", b"propose 1", b"post 4 3 7 8 6 9 5", b"report 1 1", b"propose 3 x", b" #", b"post 4 / /"):
        assert last(given) == bad and last(given + b"\r\nreport 1\n") == bad + REPORT, given
    assert all(last(given) == bad for given in MALFORMED)
    # 16,384 bytes without the end
    for end in (b"", b"\n", b"\r\n"):
        assert last(b"report 1".ljust(16384) + end) == REPORT and last(b"#" * 16384 + end) == b""
        for given in (b"report 1".ljust(16385), b"#" * 16385, b" " * 16385, b"#" * 40000):
            assert last(given + end + (end and b"report 1\n")) == bad + (end and REPORT), given
    assert last(b"report 1".ljust(16383) + b"\r") == bad and last(b"#" * 16384 + b"\r") == bad
    # a call on the tables that the line holds, however long
    assert last(b"post 4 /") == off(4) and last(b"post 4 3 7 8 6 9 5 /") == off(8)
    assert last(b"propose 1 2") == off(11) and last(b"propose 3 2") == off(20) and alone(b"propose 1 2") == off(21)
    assert alone(b"propose 3 2") == off(20)
    many = b"post 128" + b" 1" * 8128 + b" /"
    assert len(many) <= 16384 and last(many) == off(6)
    # a number too large for its field
    for far in (b"65536", b"70000", b"50001", b"65534", b"131071", b"4294967299", b"18446744073709551619", b"9" * 5000):
        assert last(b"post 4 " + far + b" 7 8 6 9 5 / 4 4 5 5 5") == off(7) and last(b"correct 0 1 " + far) == off(7)
    for far in (b"300", b"260", b"6", b"4294967300", b"1" + b"0" * 5000):
        assert last(b"post 4 3 7 8 6 9 5 / 4 " + far + b" 5 5 5") == b"refused 16 vertex 1\n"
    for far in (2 ** 40, 2 ** 40 + 1, 2 ** 64 + 1, 257, 0, 3):
        assert all(last(call % far) == off(20) for call in (b"report %d", b"pairs %d", b"withdraw %d", b"propose %d 2 3 3 3 7 7"))
    for far in (2 ** 40, 2 ** 32, 2 ** 64, 4, 3):
        assert last(b"correct %d 3 9" % far) == last(b"correct 3 %d 9" % far) == off(24)
    for far in (2 ** 40, 2 ** 32 + 2, 2 ** 64 + 2, 1000001, 0):
        assert last(b"propose 1 %d 3 3 3 7 7" % far) == off(12)
    for far in (10 ** 30, -10 ** 30, 2 ** 64 + 3, 10 ** 11 + 1):
        assert last(b"propose 1 2 3 3 %d 7 7" % far) == b"refused 13 edge 2\n"
    for far in (2 ** 40, 2 ** 16 + 4, 2 ** 32 + 4, 2 ** 64 + 4):
        assert last(b"post %d 3 7 8 6 9 5 / 4 4 5 5 5" % far) == off(4)


def check_calls():
    """The order of the tests, and what each call leaves standing."""
    at = lambda *given: lines(A + FIT + b"\n".join(given)).decode().split("\n")[2:-1]
    assert lines(b"correct 9 9 70000\nreport 1\nreport 3\npairs 1\npairs 3\nwithdraw 2\nwithdraw 0") == b"refused 21\nrefused 21\nrefused 20\nrefused 21\nrefused 20\nrefused 21\nrefused 20\n"
    assert at(b"correct 9 9 70000", b"correct 0 1 70000", b"correct 3 0 8", b"report 1") == ["refused 24", "refused 7", "ok", "refused 21"]
    gone = [b"correct 0 1 65535", b"correct 2 0 65535", b"correct 0 3 65535"]
    assert at(*gone) == ["ok", "ok", "refused 26 edge 0"]
    assert at(b"propose 1 2 3 3 3 7 6", b"report 1")[:2] == ["refused 14 edge 0 2", "fit 4 5 2"]
    assert at(b"propose 1 4 6 6 6 14 14", b"report 1")[:2] == ["ok", "fit 4 5 4"]
    assert at(b"withdraw 2", b"withdraw 1", b"withdraw 1", b"report 1") == ["refused 21", "ok", "refused 21", "refused 21"]
    assert at(b"pairs 2", b"pairs 1", b"pairs 3", b"withdraw 1", b"pairs 1") == ["refused 21"] + PAIRS.decode().split("\n")[:-1] + ["refused 20", "ok", "refused 21"]
    assert at(b"propose 2 4 6 6 6 14 14", b"pairs 1", b"pairs 2")[1::7] == ["fit 4 5 2", "fit 4 5 4"]
    assert at(b"correct 0 1 65535", b"propose 1 2 2 2 3 7 8", b"pairs 1")[2:5] == ["fit 4 5 2", "pair 0 1 - 4 2000 -", "pair 0 2 7 13 6500 1"]
    assert at(b"propose 2 4 6 6 6 14 14", b"report 1", b"report 2")[1::9] == ["fit 4 5 2", "fit 4 5 4"]
    assert at(b"propose 2 2 3 3 3 7 7", b"withdraw 1", b"report 2")[:3] == ["ok", "ok", "fit 4 5 2"]
    assert at(A.strip(), b"report 1", b"report 2") == ["ok", "refused 21", "refused 21"]
    assert at(b"post 2 1 / 2 2", b"post 4 3 7 8 6 9 5 / 4 4 5 5 4", b"report 1")[:3] == ["refused 6", "refused 9 vertex 4", "fit 4 5 2"]
    assert at(b"post 4 3 65535 65535 65535 65535 5 / 4 4 5 5 5") == ["refused 26 edge 4"]
    desk = Desk()
    desk.post(*make_figures.A[:3])
    desk.propose(1, *make_figures.A[3:])
    assert [desk.report(1, room)[0] for room in (4, 5, 6)] == ["refused 15", "fit 4 5 2", "refused 15"]
    assert desk.report(3, 4) == ["refused 20"] and desk.report(2, 4) == ["refused 21"]


def heard(given):
    """The answers to these lines, and the desk's last state."""
    desk = Desk()
    return [said(desk, line) for line in given], desk.state()


def check_sequence(seed, count, seen):
    """What holds after any calls, tried on a random sequence; counts what it shows."""
    given, desk, calls = split(made(seed, count)), Desk(), []
    for line in given:
        before, answer = desk.state(), said(desk, line)
        name = answer[0].split()[0] if answer else "none"
        try:
            call = call_of(line) or ("none", ())
        except NotOfTheForm:
            call = "line", ()
        seen[call[0], " ".join(answer[0].split()[:2]) if name == "refused" else name] += 1
        assert name == "ok" or desk.state() == before
        for bench in (1, 2):
            table, now = before[bench], desk.tables[bench]
            assert now is None or not any(reading.edge_sums(*desk.posted, *now))
            if table and not now:
                seen["taken down by", call[0]] += 1
            if table and now and table != now:
                seen["replaced by", call[0]] += 1
        calls.append((line, call, name == "ok" and desk.state() != before))
    answers, end = heard(given)
    # accepted calls that change something, alone, lead to the same state; so do those from the last posting on
    assert heard([line for line, _, changes in calls if changes])[1] == end
    posts = [k for k, (_, call, _) in enumerate(calls) if call[0] == "post" and answers[k] == OK]
    assert not posts or heard(given[posts[-1]:])[1] == end
    # any of a bench's proposals and withdrawals taken out: every answer but its own is the same
    rng = random.Random(seed)
    for bench in (1, 2):
        own = [k for k, (_, call, _) in enumerate(calls) if call[0] in ("propose", "withdraw", *SHOWN) and call[1][0] == bench]
        out = {k for k in own if calls[k][1][0] not in SHOWN and rng.random() < 0.5}
        left = [k for k in range(len(given)) if k not in out]
        rest = dict(zip(left, heard([given[k] for k in left])[0]))
        assert all(rest[k] == answers[k] for k in left if k not in own)


def check_sequences():
    seen = Counter()
    for seed in range(60):
        check_sequence(seed, 80, seen)
    for seed in range(60, 64):
        check_sequence(seed, 1500, seen)
    refusals = {"post": (4, 6, 7, 8, 9, 10, 16, 26), "correct": (21, 24, 7, 26), "propose": (20, 21, 11, 12, 13, 14),
                "withdraw": (20, 21), "report": (20, 21), "pairs": (20, 21)}
    due = {(name, "refused %d" % number) for name, numbers in refusals.items() for number in numbers}
    due |= {(name, "fit" if name in SHOWN else "ok") for name in refusals} | {("line", "refused line"), ("none", "none")}
    assert due == {key for key in seen if key[0] not in ("taken down by", "replaced by")}
    due |= {("taken down by", name) for name in ("post", "correct", "withdraw")} | {("replaced by", "propose")}
    assert due == set(seen) and min(seen.values()) >= 5
    return seen


def main():
    if sys.argv[1:2] == ["--make"]:
        sys.stdout.buffer.write(made(int(sys.argv[2]), int(sys.argv[3])))
        return 0
    if sys.argv[1:] == ["--answer"]:
        sys.stdout.buffer.write(lines(sys.stdin.buffer.read()))
        return 0
    check_story()
    check_examples()
    check_calls()
    seen = check_sequences()
    print("; ".join("%s %s: %d" % (*key, seen[key]) for key in sorted(seen)))
    return 0


if __name__ == "__main__":
    sys.exit(main())
