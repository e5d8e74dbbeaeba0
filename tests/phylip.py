#!/usr/bin/env python3
"""A plain reading of the square matrices of PHYLIP, both ways, for comparison. It shares nothing with the crates: a row is one
regular expression.

A text has at most 65,536 bytes. A blank is a space or tab, a line end LF or CR LF. A text is free blanks, the count N in
digits, free blanks, a line end; then N rows. A row is a name of ten bytes from 32 to 126, N cells, free blanks and a line
end, which the last row may lack; nothing follows. A cell is a decimal, which is digits, alone or with a point and more
digits, or the two bytes -1 for a missing pair. One or more blanks or line ends stand between two cells, any number or none
before a row's first. One unit is 0.0001.

    reading    17 text too long or with no count; 6 the count not 3 to 64; 17 text not of the form; 18 a decimal above 5.0000
               or with more than four places; 19 the halves differ or the diagonal is not zero; 15 buffers
    writing    4 not N(N-1)/2 distances or not 10N name bytes; 6; 7; 17 a name byte; 15

    tests/phylip.py                       checks this reading on the rules' sentences and on 20,000 drawn texts
    tests/phylip.py --make SEED COUNT     writes that many drawn texts, most of them damaged: each led by its length, the
                                          distances that there is room for and the name bytes, in four bytes, little-endian
    tests/phylip.py --answer              for such texts on standard input: what the matrix is when written again, or
                                          `refused` and the number"""
import random
import re
import struct
import sys
from collections import Counter

import reading

MAX_TEXT = 65536
MISSING = reading.MISSING
GAP = rb"(?:[ \t]|\r?\n)"
CELL = rb"(?:[0-9]+(?:\.[0-9]+)?|-1)"


def rows_of(text, at, n):
    """The name and the cells of each row, from the byte behind the count on; nothing where the text is not of the form."""
    head = re.compile(rb"[ \t]*\r?\n").match(text, at)
    row = re.compile(rb"([ -~]{10})" + GAP + rb"*(" + CELL + rb"(?:" + GAP + rb"+" + CELL + rb"){%d})[ \t]*(?:\r?\n|\Z)" % (n - 1))
    rows = []
    for _ in range(n):
        head = head and row.match(text, head.end())
        if not head:
            return None
        rows.append((head[1], head[2].split()))
    return rows if head.end() == len(text) else None


def units(cell):
    """The units of a cell of the form; nothing for a decimal that is too large or has too many places."""
    if cell == b"-1":
        return MISSING
    whole, _, places = cell.partition(b".")
    whole = whole.lstrip(b"0")
    if len(whole) > 1 or len(places) > 4:
        return None
    value = int(whole + places.ljust(4, b"0"))
    return value if value <= 50000 else None


def read(text, distance_room, name_room):
    """A number of refusal, or the distances by strains and the names."""
    if len(text) > MAX_TEXT:
        return 17
    count = re.match(rb"[ \t]*([0-9]+)", text)
    if not count:
        return 17
    n = int(count[1].lstrip(b"0")[:4] or b"0")  # of four digits or more it is too large whatever follows
    if not 3 <= n <= 64:
        return 6
    rows = rows_of(text, count.end(), n)
    if rows is None:
        return 17
    cells = [[units(cell) for cell in row] for _, row in rows]
    if any(x is None for row in cells for x in row):
        return 18
    if any(cells[i][j] != (0 if i == j else cells[j][i]) for i in range(n) for j in range(n)):
        return 19
    if distance_room != n * (n - 1) // 2 or name_room != 10 * n:
        return 15
    return [cells[i][j] for j in range(n) for i in range(j)], b"".join(name for name, _ in rows)


def value_at(distances, i, j):
    """What stands in row i and column j; the distances are by strains."""
    low, high = min(i, j), max(i, j)
    return 0 if i == j else distances[high * (high - 1) // 2 + low]


def write(distances, n, names, room):
    """A number of refusal, or the text; the distances are by strains."""
    answer = (4,) if len(names) != 10 * n else reading.matrix_answer(n, distances)
    if answer:
        return answer[0]
    if any(not 32 <= byte <= 126 for byte in names):
        return 17
    if room != MAX_TEXT:
        return 15
    shown = lambda d: b" -1" if d == MISSING else b" %d.%04d" % (d // 10000, d % 10000)
    rows = [names[10 * i:10 * i + 10] + b"".join(shown(value_at(distances, i, j)) for j in range(n)) for i in range(n)]
    return b"".join(line + b"\n" for line in [b"%d" % n] + rows)


def written_again(text, distance_room, name_room):
    found = read(text, distance_room, name_room)
    if isinstance(found, int):
        return b"refused %d\n" % found
    return write(found[0], name_room // 10, found[1], MAX_TEXT)


# ---- drawn texts
NAMES = [b"Human", b"Chimp", b"Gorilla", b"S.cer_S288", b"B. subtili", b"NCYC 2592", b"W34/70", b"1234567890", b"0.1 0.2", b"-1",
         b"", b"  x", b"~!@#$%^&*(", b"K-12", b"strain\\7", b"a_b.c,d;e:", b"No.7 [T]"]
NOT_CELLS = [b"5.", b".5", b"+5", b"5e0", b"-2", b"-1.0", b"-01", b"-10", b"--1", b"- 1", b"-", b".", b"1,5", b"nan", b"0x1", b"0..1", b"0.1.2", b"1/2",
             b"0.1-1", b"-1-1", b"0.1\r\r", b"0.1\x0b0.2", b"\xa0", b"0.\xb2", b"0. 1", b"", b"0.1 0.2"]
NO_COUNTS = [b"", b"x", b"+5", b"-5", b".5", b"\r", b"#5", b"\x0b5", b"\n5", b"N=5"]


class Page:
    """A matrix as somebody's program may lay it out."""

    def __init__(self, rng):
        self.rng = rng
        self.n = n = rng.choice((20, 33, 63, 64)) if rng.random() < 0.01 else rng.choice((3, 3, 4, 4, 5, 5, 6, 7, 8))
        self.names = [rng.choice(NAMES)[:10].ljust(10) for _ in range(n)]
        share = rng.choice((0, 0, 0.2, 1))
        draw = lambda: MISSING if rng.random() < share else rng.choice((0, 1, 50000, 49999, 10000, 1200, rng.randint(0, 50000)))
        self.values = [draw() for _ in range(n * (n - 1) // 2)]
        self.free = rng.random() < 0.5  # any way to write a decimal
        self.cells = [[self.shown(value_at(self.values, i, j)) for j in range(n)] for i in range(n)]
        self.count = rng.choice((b"%d", b"%d", b"   %d", b"\t%d  ", b"00%d", b"%d\t")) % n
        self.end = rng.choice((b"\n", b"\n", b"\r\n"))
        self.gap = rng.choice((b" ", b" ", b"  ", b"\t", b" \t  "))
        self.wrap = rng.choice((n, n, 1, 2, 3, 5))
        self.first = rng.choice((b"", b" ", b"  ", self.gap, self.end, self.end + b"  "))
        self.tail = rng.choice((b"", b"", b" ", b"\t "))
        self.foot = rng.choice((self.end, self.end, b"", b"  ", b" " + self.end))
        self.rooms = [n * (n - 1) // 2, 10 * n]

    def shown(self, value):
        if value == MISSING:
            return b"-1"
        text = b"%d.%04d" % (value // 10000, value % 10000)
        if not self.free:
            return text
        short = text.rstrip(b"0")
        return self.rng.choice((text, b"00" + text, short + b"0" if short.endswith(b".") else short, short[:-1] if short.endswith(b".") else text))

    def row(self, k):
        out = self.names[k] + self.first
        for j, cell in enumerate(self.cells[k]):
            out += (b"" if j == 0 else self.end + b"  " if j % self.wrap == 0 else self.gap) + cell
        return out

    def text(self):
        rows = [self.row(k) for k in range(len(self.names))]
        return self.count + self.end + (self.tail + self.end).join(rows) + self.foot

    def damage(self):
        """One thing wrong; gives the number that is due, or none where it is not foreseen."""
        rng, n = self.rng, self.n
        i, j = rng.randrange(n), rng.randrange(n)
        other = (i + rng.randrange(1, n)) % n
        kind = rng.randrange(15)
        if kind == 0:
            self.count = rng.choice(NO_COUNTS)
            return 17
        if kind == 1:
            self.count = b"%d" % rng.choice((0, 1, 2, 65, 66, 100, 2 ** 16 + n, 2 ** 32 + n, 2 ** 64 + n, 10 ** 40)) + rng.choice((b"", b" ", b"x", b".5"))
            return 6
        if kind == 2:
            self.count += rng.choice((b"x", b".5", b".0", b"-", b" 1", b"\r ", b"\0", b" I"))
            return 17
        if kind == 3:
            self.count = b"%d" % (n + rng.choice((-1, 1)))
        elif kind in (4, 5):
            self.cells[i][j] = rng.choice(NOT_CELLS)
            return None if self.cells[i][j] in (b"", b"0.1 0.2") else 17
        elif kind == 6:
            self.cells[i][j] = rng.choice((b"5.0001", b"5.00000", b"0.00000", b"0.12345", b"6", b"10", b"50000", b"9" * 30, b"5.1", b"00005.0001",
                                           b"0." + b"0" * 200, b"4294967296", b"18446744073709551616.0", b"65535", b"6.5535"))
            return 18
        elif kind == 7:
            self.cells[i][i] = rng.choice((b"0.0001", b"-1", b"5", b"1.0", b"0.5"))
            return 19
        elif kind in (8, 9):
            old = value_at(self.values, i, other)
            value = rng.choice([x for x in (MISSING, 0, 50000, (old + 1) % 50000, (old + 9999) % 50000) if x != old])
            self.cells[i][other] = self.shown(value)
            return 19
        elif kind == 10:
            byte = bytes([rng.choice((0, 9, 10, 13, 31, 127, 128, 160, 255))])
            at = rng.randrange(10)
            self.names[i] = self.names[i][:at] + byte + self.names[i][at + 1:]
            return 17
        elif kind == 11:
            self.names[i] = rng.choice((self.names[i][:9], self.names[i] + b"x", self.names[i].strip(), b""))
        elif kind == 12:
            self.foot = rng.choice((b"\n\n", b"\r\n\r\n", b"\n ", b"\r", b" \r", b"\nx", b" 0.1", b"\n\r", b"\0", b"\n\x1a"))
            return 17
        elif kind == 13:
            self.tail = rng.choice((b"\n", b"\r", b"\r\n", b" 0.1 ", b"x", b"\x0c"))
        else:
            which = rng.randrange(2)
            self.rooms[which] = max(0, self.rooms[which] + rng.choice((-1, 1, 10, -self.rooms[which], 2 ** 16)))
            return 15
        return None


def spoilt(text, rng):
    """A byte changed, put in or taken out, two bytes exchanged, or the text cut."""
    at = rng.randrange(len(text))
    byte = bytes([rng.choice(b"0123456789.- \t\r\nxA\0\x7f\xff")])
    return rng.choice((text[:at] + byte + text[at + 1:], text[:at] + byte + text[at:], text[:at] + text[at + 1:], text[:at],
                       text[:at] + text[at:at + 2][::-1] + text[at + 2:]))


def filled(page, size):
    """The text with blanks or digits put in, so that it has this many bytes."""
    room = size - len(page.text())
    kind = page.rng.randrange(4)
    if kind == 0:
        page.count = b" " * room + page.count
    elif kind == 1:
        page.cells[0][1] = b"0" * room + page.cells[0][1] if page.cells[0][1] != b"-1" else b" " * room + b"-1"
    elif kind == 2:
        page.cells[-1][-1] = b"\n" * room + page.cells[-1][-1]
    else:
        page.foot = b" " * room + page.foot
    return page.text()


def texts(seed, count):
    """Texts with the two rooms, and the number that is due, 0 for a whole text, none where it is not foreseen."""
    rng = random.Random(seed)
    for _ in range(count):
        page, draw = Page(rng), rng.random()
        if draw < 0.2:
            yield page.text(), page.rooms, 0
        elif draw < 0.6:
            due = page.damage()
            yield page.text(), page.rooms, due
        elif draw < 0.75:
            page.damage(), page.damage()
            yield page.text(), page.rooms, None
        elif draw < 0.998:
            yield spoilt(page.text(), rng), page.rooms, None
        else:
            size = MAX_TEXT + rng.choice((-1, 0, 1, 5))
            yield filled(page, size), page.rooms, 17 if size > MAX_TEXT else 0


# ---- checks of this reading
def three(count=b"3", cell=b"0.3", end=b"\n", last=b"\n", name=b"strain one"):
    """A text of three strains with one cell, alike in both halves."""
    rows = [b"0.0 " + cell + b" 0.7", cell + b" 0.0 0.8", b"0.7 0.8 0.0"]
    return count + end + end.join([name + b" " + rows[0], b"strain two " + rows[1], b"strain 3   " + rows[2]]) + last


def number(text, rooms=(3, 30)):
    found = read(text, *rooms)
    return found if isinstance(found, int) else 0


def check_reading():
    """The rules' sentences, each on a text of three strains."""
    assert read(three(), 3, 30) == ([3000, 7000, 8000], b"strain onestrain twostrain 3  ")
    # blanks are space and tab; leading zeros in the count pass; a count beyond the machine word is 6
    assert all(number(three(count)) == 0 for count in (b" 3", b"\t3 \t", b"0003", b"0" * 60000 + b"3"))
    assert all(number(three(count)) == 17 for count in (b"\x0b3", b"3\x0c", b"", b" ", b"+3", b"-3", b"x3"))
    assert all(number(three(count)) == 6 for count in (b"2", b"0", b"65", b"4294967299", b"18446744073709551619", b"9" * 60000))
    assert number(b"") == 17 and number(b"3") == 17 and number(b"64") == 17 and number(b"65") == 6
    assert number(b"2x") == 6 and number(b"3x") == 17 and number(b"3.5") == 17 and number(b"2.5") == 6
    # a name is exactly the ten bytes behind the line end, each from 32 to 126
    for name in (b"0123456789", b"          ", b" !~\"#$%&'(", b"-1 -1 0.3 "):
        assert read(three(name=name), 3, 30)[1] == name + b"strain twostrain 3  "
    # of a shorter one the bytes that follow are the name's, whatever they are
    assert read(three(name=b"strain  1"), 3, 30)[1][:10] == b"strain  1 " and read(three(name=b"strain1"), 3, 30)[1][:10] == b"strain1 0."
    assert number(three(name=b"strain 1")) == 17 and number(three(name=b"strain one1")) == 17
    assert all(number(three(name=b"strain%cone" % byte)) == 17 for byte in (0, 9, 10, 13, 31, 127, 128, 255))
    # decimals
    assert all(number(three(cell=cell)) == 0 for cell in (b"5", b"05.0", b"0005.0000", b"0", b"0.0001", b"5.0", b"0" * 9000 + b"1"))
    assert all(number(three(cell=cell)) == 17 for cell in (b"5.", b".5", b"+5", b"5e0", b"5,0", b"-5", b"-0", b"-1.0", b"-01", b"-10", b"-", b"-1-1"))
    assert all(number(three(cell=cell)) == 18 for cell in (b"5.0001", b"0.00000", b"5.00000", b"0.12345", b"6", b"10", b"65535", b"6.5535", b"9" * 9000))
    assert read(three(cell=b"0.05"), 3, 30)[0][0] == 500 and read(three(cell=b"1"), 3, 30)[0][0] == 10000
    # one or more blanks or line ends between two decimals, any number or none before a row's first; rows may be wrapped
    text = three()
    for gap in (b"  ", b"\t", b"\n", b"\r\n", b" \n", b"\n\n\r\n \t"):
        assert read(text.replace(b" 0.7", gap + b"0.7", 1), 3, 30) == read(text, 3, 30)
        assert read(text.replace(b"one 0.0", b"one" + gap + b"0.0"), 3, 30) == read(text, 3, 30)
    assert read(text.replace(b"one 0.0", b"one0.0"), 3, 30) == read(text, 3, 30)
    assert all(number(text.replace(b" 0.7", gap + b"0.7", 1)) == 17 for gap in (b"", b"\r", b"\x0b", b"\r\r\n", b" , "))
    # a row's end: free blanks and one line end, which the last may lack
    assert all(number(three(last=last)) == 0 for last in (b"", b" ", b" \t", b"\n", b"\r\n", b" \r\n"))
    assert all(number(three(last=last)) == 17 for last in (b"\n\n", b"\r\n\r\n", b"\r", b"\n ", b"x", b" 0.1", b"\n\r", b"\0"))
    assert number(three(end=b"\r\n")) == 0 and number(three(end=b" \n")) == 0 and number(three(end=b"\r")) == 17 and number(three(end=b"\n\n")) == 17
    # the length
    assert number(three(last=b" " * (65536 - len(three(last=b""))))) == 0 and number(three(last=b" " * (65537 - len(three(last=b""))))) == 17
    assert number(b"2" * 65536) == 6 and number(b"2" * 65537) == 17
    # 17 over the whole text, then 18 over all decimals, then 19 over all cells, then 15
    assert number(text.replace(b"0.3", b"9", 1)) == 18 and number(text.replace(b"0.3", b"0.4", 1)) == 19
    assert number(text.replace(b"0.3", b"9", 1) + b"x") == 17 and number(text.replace(b"0.3", b"0.4", 1).replace(b"0.8 0.0", b"0.8 0.00000")) == 18
    assert number(text.replace(b"0.8 0.0", b"0.8 0.1")) == 19 and number(text.replace(b"0.3", b"0.4", 1), (0, 0)) == 19
    assert all(number(text, rooms) == 15 for rooms in ((2, 30), (4, 30), (3, 29), (3, 31), (0, 0), (3, 0)))
    assert number(three(count=b"2"), (0, 0)) == 6
    # -1 in both halves is a missing pair; in one half only or on the diagonal 19
    assert read(three(cell=b"-1"), 3, 30)[0] == [MISSING, 7000, 8000]
    assert number(text.replace(b"0.3", b"-1", 1)) == 19 and number(text.replace(b"0.8 0.0", b"0.8 -1")) == 19
    assert number(text.replace(b"0.3", b"-1", 1).replace(b"0.7", b"5.1")) == 18


def check_writing():
    names = b"strain onestrain twostrain 3  "
    text = b"3\nstrain one 0.0000 0.3000 0.7000\nstrain two 0.3000 0.0000 -1\nstrain 3   0.7000 -1 0.0000\n"
    assert write([3000, 7000, MISSING], 3, names, 65536) == text
    assert read(text, 3, 30) == ([3000, 7000, MISSING], names)
    # 4, 6, 7, 17, 15, in this order; 10N and N(N-1)/2 never wrap
    assert write([50001, 1], 3, names, 0) == write([50001] * 3, 3, names[1:], 0) == write([0], 2, names, 65536) == 4
    for n in (2 ** 31, 2 ** 32, 2 ** 63, 2 ** 64):
        assert write([], n, b"", 65536) == 4
    assert write([], 0, b"", 0) == write([], 1, b"x" * 10, 0) == write([50001], 2, b"\0" * 20, 0) == 6
    assert write([50001] * 2080, 65, b"\0" * 650, 0) == 6 and write([0] * 2016, 64, b"x" * 640, 65535) == 15
    assert all(write([0, far, 0], 3, b"\0" * 30, 0) == 7 for far in (50001, 65534, 65536))
    assert all(write([0, 50000, MISSING], 3, names[:29] + bytes([byte]), 0) == 17 for byte in (0, 10, 31, 127, 255))
    assert all(write([0, 50000, MISSING], 3, names[:29] + bytes([byte]), room) == 15 for byte in (32, 126) for room in (0, 65535, 65537))
    assert len(write([50000] * 2016, 64, b"~" * 640, 65536)) == 3 + 64 * (10 + 64 * 7 + 1)
    # what is written is read as it was
    rng = random.Random(3)
    for _ in range(300):
        page = Page(rng)
        names = bytes(rng.randint(32, 126) for _ in range(10 * page.n))
        text = write(page.values, page.n, names, MAX_TEXT)
        assert read(text, *page.rooms) == (page.values, names) and written_again(text, *page.rooms) == text


def check_texts(count):
    """Drawn texts against what is due, where that is foreseen."""
    seen = Counter()
    for text, rooms, due in texts(1, count):
        found = number(text, rooms)
        assert due is None or found == due, (due, found, text)
        seen[found] += 1
        if not found:
            again = written_again(text, *rooms)
            assert read(again, *rooms) == read(text, *rooms)
    assert sorted(seen) == [0, 6, 15, 17, 18, 19] and min(seen.values()) * 100 >= count
    return seen


def main():
    if sys.argv[1:2] == ["--make"]:
        for text, rooms, _ in texts(int(sys.argv[2]), int(sys.argv[3])):
            sys.stdout.buffer.write(struct.pack("<III", len(text), *rooms) + text)
        return 0
    if sys.argv[1:] == ["--answer"]:
        given, at = sys.stdin.buffer.read(), 0
        while at < len(given):
            size, *rooms = struct.unpack_from("<III", given, at)
            sys.stdout.buffer.write(written_again(given[at + 12:at + 12 + size], *rooms))
            at += 12 + size
        return 0
    check_reading()
    check_writing()
    seen = check_texts(20000)
    print("20000 texts: %d read, %s" % (seen[0], ", ".join("%d are %d" % (seen[k], k) for k in sorted(seen) if k)))
    return 0


if __name__ == "__main__":
    sys.exit(main())
