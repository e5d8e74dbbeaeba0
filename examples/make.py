#!/usr/bin/env python3
"""Writes the example sheets and trees beside this script. README.md in this folder says what each shows."""
import json
import os
import re
import struct
import sys

HERE = os.path.dirname(os.path.abspath(__file__))
sys.path.insert(0, os.path.join(HERE, "..", "tests"))
import long  # noqa: E402
import make_figures  # noqa: E402
import newick  # noqa: E402
import reading  # noqa: E402
import shortest  # noqa: E402
import solver  # noqa: E402


def mammals():
    """The strains, distances and parents of mammals.phy and mammals.nwk."""
    with open(os.path.join(HERE, "mammals.phy")) as file:
        rows = [line.split() for line in file.read().splitlines()[1:]]
    with open(os.path.join(HERE, "mammals.nwk")) as file:
        text = "".join(file.read().split()).rstrip(";")
    number = {row[0]: k for k, row in enumerate(rows)}
    shape = json.loads(re.sub("[A-Za-z]+", lambda name: str(number[name[0]]), text).replace("(", "[").replace(")", "]"))
    distances = [int(rows[i][1 + j].replace(".", "")) for i, j in reading.pairs_of(len(rows))]
    return len(rows), distances, make_figures.table_of(shape, len(rows))


n, distances, parents, denominator, numerators = make_figures.A
names = [b"one", b"two", b"three", b"four"]
animals = [b"dog", b"bear", b"raccoon", b"weasel", b"seal", b"sea_lion", b"cat", b"monkey"]
tree = newick.names_record(names)
beasts, measured, above = mammals()
fit = solver.common(solver.solve(beasts, measured, above))
drawn = solver.common(long.held(long.Equations(beasts, measured, above)))
read_again = [d + (pair == (38, 39)) for d, pair in zip(measured, reading.pairs_of(beasts))]  # the baboon and the human
SHEETS = {
    "a.sheet": reading.sheet(*make_figures.A),
    "old-distances.sheet": reading.sheet(n, [4] + distances[1:], parents, denominator, numerators),
    "last-length-off.sheet": reading.sheet(n, distances, parents, denominator, numerators[:-1] + [6]),
    "negative-length.sheet": reading.sheet(3, [1, 1, 4], [3, 3, 3], 1, [-1, 2, 2]),
    "drawn.sheet": reading.sheet(3, [1, 1, 4], [3, 3, 3], 3, [0, 5, 5]),
    "carnivores.sheet": reading.sheet(*make_figures.table_one()),
    "worked-example.sheet": reading.sheet(*make_figures.worked_example()),
    "a-star.sheet": shortest.STAR,
    "a-02.sheet": shortest.WITH_02,
    "a-03.sheet": shortest.WITH_03,
    "a.unfitted": reading.bare_sheet(n, distances, parents),
    "a.long": reading.bare_sheet(n, distances, parents)
    + reading.record(4, struct.pack("<HHI", 1, len(numerators), denominator) + b"".join(struct.pack("<i", x) for x in numerators)),
    "cut.sheet": reading.sheet(*make_figures.A)[:-1],
    "a.named": newick.named(reading.sheet(*make_figures.A), names),
    "carnivores.named": newick.named(reading.sheet(*make_figures.table_one()), animals),
    "blank-in-name.named": newick.named(reading.sheet(*make_figures.table_one()), [name.replace(b"_", b" ") for name in animals]),
    "a.tree": tree + newick.text_of(names, parents, [1500, 1500, 1500, 3500, 3500]),
    "nested.tree": newick.names_record(names + [b"five"]) + b"((one:1.000,(two:0.250,three:-0.125):2.500):3.000,four:10.000,five:0.000);",
    "rooted.tree": tree + b"((one:1.500,two:1.500):1.750,(three:1.500,four:3.500):1.750);",
    "two-places.tree": tree + b"(three:1.50,four:3.50,(one:1.50,two:1.50):3.50);",
    "mammals.long": long.Page(beasts, measured, above, *fit).data(),
    "mammals-drawn.long": long.Page(beasts, measured, above, *drawn).data(),
    "mammals-old.long": long.Page(beasts, read_again, above, *fit).data(),
    "unknown.tree": tree + b"(three:1.500,for:3.500,(one:1.500,two:1.500):3.500);",
}
for name, data in SHEETS.items():
    with open(os.path.join(HERE, name), "wb") as file:
        file.write(data)
