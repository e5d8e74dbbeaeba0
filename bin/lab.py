"""What labs and solvers have, a matrix and trees in text, and what a sheet takes of it: reading the texts, tying them by
their names, lengths worked out exactly, and the records of a sheet. bin/propose and bin/match are made of it. Nothing here is
trusted: the proved programs judge the sheets."""
import math
import os
import re
import signal
import struct
import subprocess
import sys
from fractions import Fraction

LEAST_STRAINS, MOST_STRAINS = 3, 64
FARTHEST = 50_000
MISSING = 65_535
MOST_DENOMINATOR = 1_000_000
MOST_NUMERATOR = 100_000_000_000
# of a long sheet: what its digits count to, how many a number may have, and how many units a length
BASE = 1_000_000
MOST_DIGITS = 52
LONGEST_LENGTH = 100_000_000
NAME_BYTES = 10
USUAL_UNIT = "0.0001"
# what stands in a matrix for a pair that nobody measured
MISSING_WORDS = ("-1", "NA", "NaN", "?", "-")
# far more than 64 strains need; a file given by mistake ends here and not when memory does
LONGEST_TEXT = 1 << 20

BLANKS = " \t"
BYTE_ORDER_MARK = b"\xef\xbb\xbf"
LINE_END = re.compile(r"\r\n|\n|\r")
# three digits of exponent and no long numbers, so that no number of a file takes long to work out
NUMBER = re.compile(r"[+-]?(?:[0-9]+\.?[0-9]*|\.[0-9]+)(?:[eE][+-]?[0-9]{1,3})?")
LONGEST_NUMBER = 1000


class Fault(Exception):
    """Something that keeps the answer from being given: in words, and the text and the line where it is, if it is in one."""

    status = 2

    def __init__(self, words, source=None, line=0):
        super().__init__(words)
        self.words, self.source, self.line = words, source, line

    def __str__(self):
        where = f"{self.source.file}:" if self.source else ""
        return f"{where}{self.line}: {self.words}" if self.line else f"{where} {self.words}".lstrip()


class BeyondASheet(Fault):
    """The lengths are right and a sheet cannot hold them."""

    status = 1


class Text:
    """A file's text. Bytes are read as Latin-1, so that ten bytes are ten characters and names come out as
    the bytes that went in."""

    def __init__(self, file, longest=LONGEST_TEXT):
        self.file = os.fsencode(file).decode("latin-1")
        try:
            data = self.read(file, longest)
        except OSError as error:
            raise Fault(f"cannot be read: {error.strerror}", self)
        if len(data) > longest:
            raise Fault(f"longer than {longest:,} bytes", self)
        if data.startswith(BYTE_ORDER_MARK):
            data = data[len(BYTE_ORDER_MARK):]
        self.text = data.decode("latin-1")

    def read(self, file, longest):
        if file != "-":
            with open(file, "rb") as opened:
                return read_all(opened.fileno(), longest)
        if sys.stdin is None:
            raise Fault("standard input is closed", self)
        data = read_all(sys.stdin.fileno(), longest)
        if not data:
            raise Fault("standard input was empty", self)
        return data

    def fault(self, line, message):
        return Fault(message, self, line)


def read_all(descriptor, longest):
    """The bytes to the end, or more than a text may have. No buffer stands between: there a pipe that is not
    ready would look like one that has ended, and here it is an error."""
    data = bytearray()
    while len(data) <= longest:
        part = os.read(descriptor, LONGEST_TEXT)
        if not part:
            break
        data += part
    return data


def shown(word):
    """A word of a file for a message: in quotes, not long, and without marks that a terminal would obey."""
    word = word if len(word) <= 40 else word[:40] + "..."
    return "'" + re.sub("[\\x00-\\x1f\\x7f]", "?", word) + "'"


def is_number(word):
    return len(word) <= LONGEST_NUMBER and NUMBER.fullmatch(word) is not None


def number(word):
    """The number that a word stands for, exactly, or None."""
    return Fraction(word) if is_number(word) else None


def last_place(word):
    """What one is worth in the last digit of a number: 0.01 in 0.25, 0.00001 in 1.5e-4."""
    digits, _, exponent = word.lower().partition("e")
    return Fraction(10) ** (int(exponent or 0) - len(digits.partition(".")[2]))


def placed(digits, places):
    """A whole number of units of the last place, with its point."""
    text = str(abs(digits)).rjust(places + 1, "0")
    return ("-" if digits < 0 else "") + (f"{text[:-places]}.{text[-places:]}" if places else text)


def at_most(value):
    """The number in as few places as it takes; where that would be more than six digits, the next above it."""
    places = 0
    while (value * 10 ** places).denominator != 1 and value * 10 ** places < 100_000:
        places += 1
    return placed(math.ceil(value * 10 ** places), places)


# ---- the matrix
class Row:
    """A strain's name, the line it stands on, and its distances as words, each with its line."""

    def __init__(self, name, line):
        self.name, self.line, self.cells = name, line, []

    def __str__(self):
        return f"row {shown(self.name)} of line {self.line}"


# where a row's name ends; `due` is how many distances the row has
def ten_bytes(line, _):
    return line[:NAME_BYTES].strip(BLANKS), line[NAME_BYTES:]


def first_word(line, _):
    name, _, rest = line.strip(BLANKS).replace("\t", " ").partition(" ")
    return name, rest


def before_distances(line, due):
    end = len(line)
    for word in list(re.finditer(r"[^ \t]+", line))[::-1][:due]:
        if not is_cell(word.group()):
            break
        end = word.start()
    return line[:end].strip(BLANKS), line[end:]


# how many distances row i of n has
def in_square(n, _):
    return n


def in_triangle(_, i):
    return i


def both_forms(n):
    return f"a row has {n} distances in a square matrix, and one for each row before it in a lower triangle"


def read_rows(source, part, form):
    """The rows of a matrix of this form; `part` parts a row's name from what follows on its line."""
    lines = [(k, line) for k, line in enumerate(LINE_END.split(source.text), 1) if line.strip(BLANKS)]
    n = read_count(source, *(lines[0] if lines else (1, "")))
    rows = []
    for k, line in lines[1:]:
        if not rows or len(rows[-1].cells) == form(n, len(rows) - 1):
            if len(rows) == n:
                raise source.fault(k, f"expected nothing after the rows of {n} strains")
            name, line = part(line, form(n, len(rows)))
            if not name:
                raise source.fault(k, "expected a name")
            rows.append(Row(name, k))
        read_cells(source, form(n, len(rows) - 1), n, rows[-1], k, line)
    if len(rows) < n or len(rows[-1].cells) < form(n, n - 1):
        raise source.fault(lines[-1][0], f"the text ends here; expected {n} rows of a name and distances; {both_forms(n)}")
    return rows


def read_count(source, k, line):
    word = line.strip(BLANKS)
    if not re.fullmatch("[0-9]{1,9}", word):
        raise source.fault(k, "expected the number of strains, alone on the first line")
    n = int(word)
    if not LEAST_STRAINS <= n <= MOST_STRAINS:
        raise source.fault(k, f"{n} strains; expected {LEAST_STRAINS} to {MOST_STRAINS}")
    return n


def is_cell(word):
    return word in MISSING_WORDS or is_number(word)


def read_cells(source, due, n, row, k, line):
    for at, word in enumerate(re.findall(r"[^ \t]+", line)):
        if len(row.cells) == due:
            raise source.fault(k, f"{row}: expected {due} distances, found {shown(word)} after them")
        if not is_cell(word):
            # at the start of a later line it is the next row's name
            forms = f"; {both_forms(n)}" if at == 0 and k > row.line else ""
            raise source.fault(k, f"{row}: expected distance {len(row.cells) + 1} of {due}, found {shown(word)}{forms}")
        row.cells.append((word, k))


class Matrix:
    """A matrix's text, read in every way in which it can be: a name is ten bytes, or ends at the first blank, or is all that
    comes before the distances; and the rows are those of a square or of a lower triangle."""

    def __init__(self, source):
        self.source = source
        self.readings, faults = readings_of(source, (ten_bytes, first_word))
        # where none is right, the right reading is the one that got further
        self.fault = max(faults, key=lambda fault: fault.line, default=None)
        self.whole_names = None

    def with_whole_names(self, leaves):
        """The readings with all that comes before the distances for a name. So much may be taken for one there that such a
        reading is good only where every name is a leaf's."""
        if self.whole_names is None:
            self.whole_names, _ = readings_of(self.source, (before_distances,))
        return [rows for rows in self.whole_names if shared_names(rows, leaves) == len(rows)]

    def serves(self, leaves):
        return bool(self.readings or self.with_whole_names(leaves))

    def rows_for(self, leaves):
        """The rows in the reading in which more of the names are those of the leaves."""
        rows = max(self.readings, key=lambda rows: shared_names(rows, leaves), default=None)
        if rows is None or shared_names(rows, leaves) < len(rows):
            rows = next(iter(self.with_whole_names(leaves)), rows)
        if rows is None:
            raise self.fault
        return rows


def readings_of(source, parts):
    """The rows in each of these ways that gives any, and the faults of the others."""
    readings, faults = [], []
    for part in parts:
        for form in (in_square, in_triangle):
            try:
                readings.append(read_rows(source, part, form))
            except Fault as fault:
                faults.append(fault)
    return readings, faults


class Distances:
    """The distances of a matrix in whole units: `square` has them, MISSING where nobody measured; `unit` is what one is in the
    files, `moved` by how much a distance was rounded at most, and `notes` are what whoever asked should be told of it."""

    def __init__(self, source, rows, unit_word, rounding):
        self.notes, self.rounding = [], rounding
        self.values = [[None if word in MISSING_WORDS else number(word) for word, _ in row.cells] for row in rows]
        self.unit = self.fitting_unit() if unit_word == "auto" else number(unit_word)
        self.unit_word = at_most(self.unit) if unit_word == "auto" else unit_word
        for i, row in enumerate(rows):
            for j, (word, k) in enumerate(row.cells):
                due = self.cell_due(rows, i, j)
                if due:
                    raise source.fault(k, f"{row}, column {shown(rows[j].name)}: expected {due}, found {shown(word)}")
        self.square = self.whole_units()
        self.complete = not any(MISSING in row for row in self.square)

    def fitting_unit(self):
        """The smallest power of ten that brings the largest distance to 50,000 units or fewer."""
        largest = max((value for row in self.values for value in row if value is not None), default=0)
        if largest <= 0:
            return number(USUAL_UNIT)
        power = Fraction(1)
        while largest > FARTHEST * power:
            power *= 10
        while largest <= FARTHEST * power / 10:
            power /= 10
        self.notes.append(f"the unit is {at_most(power)}; the largest distance has {at_most(largest / power)} of it")
        return power

    def cell_due(self, rows, i, j):
        """What a cell of the matrix should be and is not, or None."""
        value = self.values[i][j]
        if i == j:
            return None if value == 0 else "0 on the diagonal"
        if j < i < len(rows[j].cells) and value != self.values[j][i]:
            (word, _), (other, line) = rows[i].cells[j], rows[j].cells[i]
            near = near_halves(word, other)
            if not near or not self.rounding:
                as_one = "; --round takes the two as one" if near else ""
                return f"{shown(other)}, as in the other half (line {line}{as_one})"
        if value is None:
            return None
        units = value / self.unit
        if units.denominator != 1 and not self.rounding:
            return f"a whole number of units of {self.unit_word} (--unit sets the unit, --round rounds)"
        if not 0 <= round(units) <= FARTHEST:
            return f"0 to {FARTHEST:,} units of {self.unit_word} (--unit sets the unit)"
        return None

    def whole_units(self):
        """The square, of rounded distances where that is asked for; a pair with two halves has what lies midway."""
        n = len(self.values)
        square = [[0] * n for _ in range(n)]
        measured = rounded = most = 0
        for i in range(n):
            for j in range(i):
                halves = [row[k] for row, k in ((self.values[i], j), (self.values[j], i)) if k < len(row)]
                if halves[0] is None:
                    square[i][j] = square[j][i] = MISSING
                    continue
                square[i][j] = square[j][i] = units = round(sum(halves) / len(halves) / self.unit)
                moved = max(abs(units * self.unit - half) for half in halves)
                measured, rounded, most = measured + 1, rounded + (moved > 0), max(most, moved)
        self.moved = most
        if self.rounding:
            self.notes.append(f"{rounded} of {measured} distances rounded to units of {self.unit_word}, "
                              f"by at most {at_most(most)}")
        return square


def near_halves(word, other):
    """Whether two numbers differ by no more than one in the last place, of the two the finer one."""
    if word in MISSING_WORDS or other in MISSING_WORDS:
        return False
    return abs(number(word) - number(other)) <= min(last_place(word), last_place(other))


# ---- the tree
class Vertex:
    """A vertex of the tree as written. `length` is that of the edge above it, None where none is given, and `words` the
    numbers that it was written in; `number` is its number in the sheet."""

    __slots__ = "line", "name", "quoted", "length", "number", "children", "words"

    def __init__(self, line):
        self.line, self.name, self.quoted, self.length, self.number = line, None, False, None, None
        self.children, self.words = [], []


MARKS = "(),:;"
TOKEN = re.compile(r"[ \t\r\n]+|[(),:;]|'(?:[^']|'')*'|[^ \t\r\n()\[\]',:;]+")


def tokens(source):
    """The words and marks of a Newick text, each with its line, without blanks and comments."""
    text, at, line = source.text, 0, 1
    while at < len(text):
        end = comment_end(text, at) if text[at] == "[" else end_of(TOKEN.match(text, at))
        if end is None:
            what = {"[": "a ']' that ends this comment", "'": "a quote that ends this name"}
            raise source.fault(line, f"expected {what.get(text[at], 'no ' + text[at] + ' here')}")
        found = text[at:end]
        if found[0] not in "[ \t\r\n":
            yield found, line
        line += len(LINE_END.findall(found))
        at = end


def end_of(match):
    return match and match.end()


def comment_end(text, at):
    """Where the comment that starts here ends; comments may hold comments."""
    depth = 0
    for mark in re.compile(r"[\[\]]").finditer(text, at):
        depth += 1 if mark.group() == "[" else -1
        if depth == 0:
            return mark.end()
    return None


# what is due next as the text is read, in the words of a message; {} is what may end a vertex there
VERTEX = "a name or '('"
AFTER_BRACKET = "a label, ':' or {}"
AFTER_NAME = "':' or {}"
LENGTH = "a length"
AFTER_LENGTH = "{}"
NOTHING = "nothing after the ';'"


def trees_in(source):
    """The top vertex of each tree of a Newick text, or the fault that is in it. A tree ends with its semicolon, also a faulty
    one."""
    found, words = [], []
    try:
        for word, line in tokens(source):
            words.append((word, line))
            if word == ";":
                found.append(tree_or_fault(source, words))
                words = []
    except Fault as fault:
        return found + [fault]
    return found + [tree_or_fault(source, words)] if words or not found else found


def tree_or_fault(source, words):
    try:
        return read_tree(source, words)
    except Fault as fault:
        return fault


def read_tree(source, words=None):
    """The top vertex of a Newick text, or of these words of it. It keeps its own stack, as brackets may nest deeper than
    calls."""
    here, opened, due, line = Vertex(1), [], VERTEX, 1
    for word, line in tokens(source) if words is None else words:
        whole = due in (AFTER_BRACKET, AFTER_NAME, AFTER_LENGTH)
        if word == "(" and due == VERTEX:
            opened.append(here)
            here = child_of(here, line)
        elif word == "," and whole and opened:
            here, due = child_of(opened[-1], line), VERTEX
        elif word == ")" and whole and opened:
            here, due = opened.pop(), AFTER_BRACKET
            here.line = line
        elif word == ";" and whole and not opened:
            due = NOTHING
        elif word == ":" and due in (AFTER_BRACKET, AFTER_NAME):
            due = LENGTH
        elif due == LENGTH and number(word) is not None:
            here.length, here.words, due = number(word), [word], AFTER_LENGTH
        elif due in (VERTEX, AFTER_BRACKET) and word not in MARKS:
            here.quoted = word[0] == "'"
            here.name = word[1:-1].replace("''", "'") if here.quoted else word
            here.line, due = line, AFTER_NAME
        else:
            raise source.fault(line, f"expected {due.format(ends(opened))}, found {shown(word)}")
    if due != NOTHING:
        raise source.fault(line, f"the text ends here; expected {due.format(ends(opened))}")
    return here


def ends(opened):
    return "',' or ')'" if opened else "';'"


def child_of(vertex, line):
    child = Vertex(line)
    vertex.children.append(child)
    return child


def children_first(top):
    """Every vertex after its children, in the order in which the text closes them."""
    order, waiting = [], [top]
    while waiting:
        vertex = waiting.pop()
        order.append(vertex)
        waiting.extend(vertex.children)
    return order[::-1]


def make_one(vertex, other):
    """The edge above a vertex takes in the edge above another one, which is in line with it."""
    lengths = vertex.length, other.length
    vertex.length = None if None in lengths else sum(lengths)
    vertex.words = vertex.words + other.words


def unrooted(top):
    """The top of the tree without its vertices of degree two, the edges on their two sides made one."""
    for vertex in children_first(top):
        vertex.children = [or_only_child(child) for child in vertex.children]
    if len(top.children) == 1:
        top = top.children[0]
    if len(top.children) != 2:
        return top
    # one of the two becomes the top, and it must be inner
    first, last = top.children
    if last.children:
        make_one(first, last)
        last.children = [first] + last.children
        return last
    make_one(last, first)
    first.children = first.children + [last]
    return first


def or_only_child(vertex):
    """The vertex, or its child where it has one only, with the length of both edges."""
    if len(vertex.children) != 1:
        return vertex
    child = vertex.children[0]
    make_one(child, vertex)
    return child


# ---- the two together
def tie(matrix, tree, top):
    """The rows of the matrix, read in the way in which its names are the tree's. The leaves get their numbers."""
    leaves = leaves_of(top)
    rows = matrix.rows_for(leaves)
    number_leaves(matrix.source, rows, tree, leaves)
    return rows


def leaves_of(top):
    return [vertex for vertex in children_first(top) if not vertex.children]


def name_among(leaf, names):
    """A leaf's name as written, or with blanks for underscores where only that is among the names."""
    if leaf.name in names or leaf.quoted:
        return leaf.name
    return leaf.name.replace("_", " ")


def shared_names(rows, leaves):
    names = {row.name for row in rows}
    return len(names & {name_among(leaf, names) for leaf in leaves})


def number_leaves(matrix, rows, tree, leaves):
    numbers, lines = {}, {}
    for k, row in enumerate(rows):
        if row.name in numbers:
            raise matrix.fault(row.line, f"expected another name; {shown(row.name)} stands on line {lines[row.name]} too")
        numbers[row.name], lines[row.name] = k, row.line
    met = {}
    for leaf in leaves:
        name = name_among(leaf, numbers)
        if name not in numbers:
            raise tree.fault(leaf.line, f"expected a name of {matrix.file}, found {shown(leaf.name)}")
        if name in met:
            raise tree.fault(leaf.line, f"expected each name once; {shown(leaf.name)} stands on line {met[name]} too")
        met[name], leaf.number = leaf.line, numbers[name]
    for name, line in lines.items():
        if name not in met:
            raise matrix.fault(line, f"expected a name of {tree.file}, found {shown(name)}")


def edges_of(top, n):
    """The vertices below the root in the order of their numbers, and each one's parent. Inner vertices are
    numbered children first, and so the root comes last."""
    order = children_first(top)
    for k, vertex in enumerate((vertex for vertex in order if vertex.children), n):
        vertex.number = k
    parents = {child.number: vertex.number for vertex in order for child in vertex.children}
    return sorted(order[:-1], key=lambda vertex: vertex.number), [parents[v] for v in sorted(parents)]


# ---- lengths
def lengths_given(tree, edges, unit):
    for edge in edges:
        if edge.length is None:
            raise tree.fault(edge.line, f"expected a length behind {edge_words(edge)}")
    return [edge.length / unit for edge in edges]


def is_resolved(n, parents):
    """A tree of n leaves is resolved when it has 2n - 3 edges."""
    return len(parents) == 2 * n - 3


def edge_words(edge):
    if not edge.children:
        return shown(edge.name)
    names = [leaf.name for leaf in leaves_of(edge)]
    return f"the bracket of {shown(names[0])} to {shown(names[-1])}"


class Fitting:
    """Fits the lengths of a tree's edges, exactly.

    A vertex has two or more children and, below the root, a direction up. In the fit the paths between the s
    strains of one direction and all others add to the distances between them, the split sum of the edge
    there. With x the paths from the vertex to the strains of a direction, added, and T the x of all its
    directions added, those paths are (n - s)x + s(T - x). So each vertex has its x from split sums alone:

        (n - 2s)x + sT = split sum, for each direction.

    At its upper end an edge's x are the paths to the s strains below it; at its lower end the x of the children
    add to the same paths without the edge, and the difference is s times its length.

    Edges may be held at zero. The ends of such an edge are then one vertex, with the other directions of both; a
    strain there has no x, and nothing is asked of the edge."""

    def __init__(self, n, square, parents):
        self.n, self.parents = n, parents
        self.below = strains_below(n, parents)
        self.sums = [split_sum(square, strains) for strains in self.below]

    def lengths(self, held=frozenset()):
        """The best lengths with these edges held at zero; and what the distances over each held edge have more than
        the tree, added: above zero where a longer edge would fit better."""
        n, root = self.n, len(self.parents)
        ends = list(range(root + 1))  # the vertex that each vertex is one with
        for w in reversed(range(root)):
            if w in held:
                ends[w] = ends[self.parents[w]]
        directions = {w: [] for w in ends}
        for v, parent in enumerate(self.parents):
            if v not in held:
                directions[ends[parent]].append((v, len(self.below[v])))
                directions[v].append((v, n - len(self.below[v])))
        seen_from_parent, totals = [0] * root, {}
        for w, ways in directions.items():
            if w >= n:
                paths = paths_by_direction(n, [(s, self.sums[v]) for v, s in ways])
                totals[w] = sum(paths)
                for (v, _), path in zip(ways, paths):
                    if v != w:
                        seen_from_parent[v] = path
        seen_from_self = [0] * (root + 1)
        for v, parent in enumerate(self.parents):
            seen_from_self[parent] += seen_from_self[v] if v in held else seen_from_parent[v]
        lengths = [0 if v in held else (seen_from_parent[v] - seen_from_self[v]) / len(self.below[v]) for v in range(root)]
        pulls = {}
        for v in held:
            s, here = len(self.below[v]), seen_from_self[v]
            pulls[v] = self.sums[v] - (n - s) * here - s * (totals[ends[v]] - here)
        return lengths, pulls

    def open_edges(self):
        """The edges whose lengths the distances do not settle: other lengths there fit as well."""
        return set()

    def not_negative(self):
        """The best lengths that are zero or more (Lawson and Hanson 1974, algorithm NNLS): of the edges held at zero
        the one that pulls most is let go, and edges that would turn negative are held again. It starts from edges
        that are positive together, found by holding those that are not."""
        held = set()
        lengths, pulls = self.lengths(held)
        while any(lengths[v] <= 0 for v in range(len(lengths)) if v not in held):
            held.update(v for v, x in enumerate(lengths) if x <= 0)
            lengths, pulls = self.lengths(held)
        while any(pull > 0 for pull in pulls.values()):
            held.remove(max(pulls, key=pulls.get))
            aim, pulls = self.lengths(held)
            while any(aim[v] <= 0 for v in range(len(aim)) if v not in held):
                step = min(x / (x - y) for v, (x, y) in enumerate(zip(lengths, aim)) if v not in held and y <= 0)
                lengths = [x + step * (y - x) for x, y in zip(lengths, aim)]
                held.update(v for v, x in enumerate(lengths) if x == 0)
                aim, pulls = self.lengths(held)
            lengths = aim
        return lengths


class MeasuredFitting(Fitting):
    """The same where pairs are missing. There split sums do not give the paths, and the equations of the edges, over the measured
    pairs, are solved by elimination in whole numbers (Bareiss 1968). In the equation of an edge each edge counts the pairs that
    both part. This table is symmetric, and what elimination leaves of it has no negative number on its diagonal; where it
    has zero there, the row and the column are zero, and the length can be chosen: it is put at zero."""

    def __init__(self, n, square, parents):
        super().__init__(n, square, parents)
        pairs = [(i, j) for i in range(n) for j in range(i) if square[i][j] != MISSING]
        with_strain = [sum(1 << k for k, pair in enumerate(pairs) if i in pair) for i in range(n)]
        parted = []
        for strains in self.below:
            # a pair of two strains below the edge is taken out again
            parted.append(0)
            for i in strains:
                parted[-1] ^= with_strain[i]
        self.shared = [[bin(one & other).count("1") for other in parted] for one in parted]
        self.whole = self.eliminated(range(len(parents)))

    def eliminated(self, loose):
        """The equations of these edges, eliminated: rows from the diagonal on with the sum at the end, and of each column
        whether it has a pivot."""
        rows = [[self.shared[u][v] for v in loose] + [self.sums[u]] for u in loose]
        pivots, last = [], 1
        for k, top in enumerate(rows):
            pivot = top[k]
            pivots.append(pivot != 0)
            if not pivot:
                continue
            for i in range(k + 1, len(rows)):
                factor = top[i]
                rows[i][i:] = [(pivot * x - factor * y) // last for x, y in zip(rows[i][i:], top[i:])]
            last = pivot
        return rows, pivots

    def lengths(self, held=frozenset()):
        loose = [v for v in range(len(self.parents)) if v not in held]
        rows, pivots = self.eliminated(loose) if held else self.whole
        scale, found = solved_upwards(rows, pivots, [row[-1] for row in rows])
        lengths = [0] * len(self.parents)
        for v, x in zip(loose, found):
            lengths[v] = Fraction(x, scale)
        pulls = {}
        for v in held:
            taken = sum(self.shared[v][u] * x for u, x in zip(loose, found))
            pulls[v] = self.sums[v] - Fraction(taken, scale)
        return lengths, pulls

    def open_edges(self):
        rows, pivots = self.whole
        found = set()
        for u, has_pivot in enumerate(pivots):
            if not has_pivot:
                # lengths that change no measured path: one at u, and what this asks of the edges before it
                _, moved = solved_upwards(rows[:u], pivots[:u], [-row[u] for row in rows[:u]])
                found.update([u] + [v for v, x in enumerate(moved) if x])
        return found


def solved_upwards(rows, pivots, sums):
    """What eliminated equations give, in whole numbers over one scale; zero where there is no pivot."""
    found = [0] * len(rows)
    scale = next((row[k] for k, row in reversed(list(enumerate(rows))) if pivots[k]), 1)
    for k in reversed(range(len(rows))):
        if pivots[k]:
            left = scale * sums[k] - sum(x * y for x, y in zip(rows[k][k + 1:len(rows)], found[k + 1:]))
            found[k] = left // rows[k][k]
    return scale, found


def fitting(n, square, parents):
    missing = any(MISSING in row for row in square)
    return (MeasuredFitting if missing else Fitting)(n, square, parents)


def strains_below(n, parents):
    """The strains below each edge."""
    below = [[v] for v in range(n)] + [[] for _ in range(n, len(parents))]
    for v, parent in enumerate(parents):
        if parent < len(parents):
            below[parent] += below[v]
    return below


def split_sum(square, strains):
    others = set(range(len(square))).difference(strains)
    return sum(square[i][j] for i in strains for j in others if square[i][j] != MISSING)


def paths_by_direction(n, directions):
    """Solves (n - 2s)x + sT = split sum over the directions of a vertex, T being the sum of the x. The
    equations are those of a star of groups of strains, three or more with the strains at its middle, so there is one
    solution."""
    half = [k for k, (s, _) in enumerate(directions) if 2 * s == n]
    if half:
        # this equation has no x in it; two such directions would leave no room for a third
        s, split = directions[half[0]]
        total = Fraction(split, s)
    else:
        total = (sum(Fraction(split, n - 2 * s) for s, split in directions)
                 / (1 + sum(Fraction(s, n - 2 * s) for s, _ in directions)))
    paths = [0 if 2 * s == n else (split - s * total) / (n - 2 * s) for s, split in directions]
    for k in half:
        paths[k] = total - sum(paths)
    return paths


def lowest_terms(lengths):
    """The lowest common denominator and the numerators."""
    denominator = math.lcm(*(length.denominator for length in lengths))
    return denominator, [int(length * denominator) for length in lengths]


def over_one_denominator(lengths):
    """The lowest common denominator and the numerators, where a sheet can hold them."""
    denominator, numerators = lowest_terms(lengths)
    if denominator > MOST_DENOMINATOR:
        raise BeyondASheet(f"the lengths have the lowest common denominator {denominator:,}, "
                           f"and a sheet takes up to {MOST_DENOMINATOR:,}")
    for numerator in numerators:
        if abs(numerator) > MOST_NUMERATOR:
            raise BeyondASheet(f"over {denominator:,} a length has the numerator {numerator:,}, "
                               f"and a sheet takes up to {MOST_NUMERATOR:,} on either side")
    return denominator, numerators


def over_a_long_denominator(lengths):
    """The same where a long sheet can hold them."""
    denominator, numerators = lowest_terms(lengths)
    for length in lengths:
        if abs(length) > LONGEST_LENGTH:
            raise BeyondASheet(f"a length has more than {LONGEST_LENGTH:,} units, and a long sheet takes no more on either side")
    most = BASE ** MOST_DIGITS
    for number in [denominator] + numerators:
        if abs(number) >= most:
            raise BeyondASheet(f"over their lowest common denominator the lengths need a number of {len(str(abs(number)))} decimals, "
                               f"and a long sheet takes {len(str(most - 1))}")
    return denominator, numerators


# ---- the sheet
def record(kind, body):
    return struct.pack("<IH", len(body), kind) + body


def in_rows(square):
    """The distances 01, 02, .., 12, 13, .., with 65535 for a pair that nobody measured."""
    n = len(square)
    return [square[i][j] for i in range(n) for j in range(i + 1, n)]


def matrix_record(square):
    distances = in_rows(square)
    return record(1, struct.pack(f"<H{len(distances)}H", len(square), *distances))


def tree_record(n, parents):
    return record(2, struct.pack("<HH", n, len(parents) + 1) + bytes(parents))


def lengths_record(denominator, numerators):
    return record(3, struct.pack(f"<IH{len(numerators)}q", denominator, len(numerators), *numerators))


def long_lengths_record(denominator, numerators):
    """With as few digits as hold every number; the highest come first, and each digit of a numerator has its sign."""
    digits, most = 1, max(denominator, *map(abs, numerators))
    while most >= BASE ** digits:
        digits += 1
    levels = [BASE ** k for k in reversed(range(digits))]
    body = struct.pack("<HH", digits, len(numerators))
    body += struct.pack(f"<{digits}I", *(denominator // level % BASE for level in levels))
    for level in levels:
        places = (abs(numerator) // level % BASE for numerator in numerators)
        body += struct.pack(f"<{len(numerators)}i", *(-x if numerator < 0 else x for x, numerator in zip(places, numerators)))
    return record(4, body)


# ---- standard output and standard error
class Stopped(BaseException):
    """A signal that asks for the end. What was started in between is ended first, and then this program by the same signal."""

    def __init__(self, number):
        super().__init__()
        self.number = number


def hear_signals():
    """Has signals that ask for the end raise Stopped. One that is ignored, as in the background, stays so."""
    for number in (signal.SIGHUP, signal.SIGINT, signal.SIGTERM):
        if signal.getsignal(number) != signal.SIG_IGN:
            signal.signal(number, stopped)


def stopped(number, _):
    raise Stopped(number)


def end_by(number):
    signal.signal(number, signal.SIG_DFL)
    os.kill(os.getpid(), number)


def version():
    """Which version this is, as all programs say it."""
    try:
        return subprocess.run([os.path.join(os.path.dirname(os.path.realpath(__file__)), "version")], stdin=subprocess.DEVNULL,
                              stdout=subprocess.PIPE, check=True).stdout
    except (OSError, subprocess.CalledProcessError):
        raise Fault("cannot say which version this is")


def tell(program, words):
    if sys.stderr is not None:
        sys.stderr.buffer.write(f"{program}: {words}\n".encode("latin-1", "replace"))
        sys.stderr.flush()


def put(data):
    """Writes to standard output, or says that it cannot. No buffer stands between, so nothing is lost later."""
    if sys.stdout is None:
        raise Fault("standard output is closed")
    try:
        while data:
            data = data[os.write(sys.stdout.fileno(), data):]
    except OSError as error:
        raise Fault(f"standard output cannot be written: {error.strerror}")
