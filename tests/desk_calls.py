#!/usr/bin/env python3
"""Calls on a desk as bytes (RULES, Two benches), by the plain reading of desk.py, and the program `desk_calls` held to it. The calls are those
of random sequences of desk.py, each from an empty desk, as far as their numbers fit the bytes of a call; the desk's pairs have no bytes.

    tests/desk_calls.py                 writes crates/desk_calls/stdin and crates/desk_calls/stdout
    tests/desk_calls.py --check         says whether they are what this script writes
    tests/desk_calls.py --drive WORDS   runs the program, given by its words, on random sequences of 20,000 calls and more, and compares what it
                                        prints"""
import os
import random
import struct
import subprocess
import sys
from collections import Counter

import desk
import reading

HERE = os.path.dirname(os.path.abspath(__file__))
CRATE = os.path.join(HERE, "..", "crates", "desk_calls")
MOST_PAIRS, MOST_EDGES, MOST_BYTES = 2016, 125, 524288
EMPTY, POST, CORRECT, PROPOSE, WITHDRAW, REPORT = range(6)


def head(kind, a=0, b=0, c=0):
    return struct.pack("<4I", kind, a, b, c)


def by_strains(n, distances):
    """A sheet's distances in the matrix's order; a table that is not as long as N asks stays as it is."""
    if n > 64 or len(distances) != n * (n - 1) // 2:
        return distances
    by_pair = dict(zip(reading.pairs_of(n), distances))
    return [by_pair[i, j] for j in range(n) for i in range(j)]


def fits(limit, *numbers):
    return all(0 <= x < limit for x in numbers)


def bytes_of(name, given, room):
    """A call's bytes; nothing where a number of it does not fit, nor for `pairs`, which has no bytes. `room` is the size of a report's buffer."""
    if name == "post":
        n, distances, parents = given
        if fits(2 ** 32, n) and fits(2 ** 16, *distances) and fits(2 ** 8, *parents) and len(distances) <= MOST_PAIRS:
            return (head(POST, n, len(distances), len(parents)) + struct.pack("<%dH" % len(distances), *by_strains(n, distances))
                    + bytes(parents))
    elif name == "propose":
        bench, denominator, numerators = given
        if fits(2 ** 32, bench, denominator) and fits(2 ** 64, *(x + 2 ** 63 for x in numerators)) and len(numerators) <= MOST_EDGES:
            return head(PROPOSE, bench, denominator, len(numerators)) + struct.pack("<%dq" % len(numerators), *numerators)
    elif name == "correct":
        i, j, distance = given
        if fits(2 ** 32, i, j) and fits(2 ** 16, distance):
            return head(CORRECT, i, j, distance)
    elif name == "withdraw" and fits(2 ** 32, given[0]):
        return head(WITHDRAW, given[0])
    elif name == "report" and fits(2 ** 32, given[0]):
        return head(REPORT, given[0], room)
    return None


class Sequences:
    """Sequences of calls, one behind the other: their bytes, what the program prints, and how often each answer was given to each kind of call."""

    def __init__(self):
        self.calls, self.printed, self.seen, self.count = bytearray(), [], Counter(), 0

    def start(self):
        self.desk = desk.Desk()
        self.calls += head(EMPTY)

    def call(self, name, given, room=0):
        data = bytes_of(name, given, room)
        if data is None:
            return
        lines = getattr(self.desk, name)(*given, *([room] if name == "report" else []))
        self.calls += data
        self.printed += lines
        self.count += 1
        self.seen[name, " ".join(lines[0].split()[:2]) if lines[0].startswith("refused") else lines[0].split()[0]] += 1

    def story(self):
        """New distances posted, the old table asked for; and each bench's table told from the other's."""
        posting = 4, [3, 7, 8, 6, 9, 5], [4, 4, 5, 5, 5]
        self.start()
        self.call("report", (1,), 5)
        self.call("post", posting)
        self.call("propose", (1, 2, [3, 3, 3, 7, 7]))
        self.call("report", (1,), 5)
        self.call("report", (1,), 4)
        self.call("report", (2,), 5)
        self.call("propose", (2, 4, [6, 6, 6, 14, 14]))
        self.call("report", (2,), 5)
        self.call("withdraw", (2,))
        self.call("report", (1,), 5)
        self.call("correct", (0, 3, 9))
        self.call("report", (1,), 5)
        self.call("propose", (1, 2, [3, 3, 3, 7, 7]))
        self.call("correct", (3, 0, 8))
        self.call("propose", (1, 2, [3, 3, 3, 7, 7]))
        self.call("post", posting)
        self.call("report", (1,), 5)
        assert self.printed[0] == "refused 21" and self.printed[-1] == "refused 21" and "refused 15" in self.printed

    def sequence(self, seed, count):
        rng = random.Random(seed)
        self.start()
        for line in desk.split(desk.made(seed, count)):
            try:
                call = desk.call_of(line)
            except desk.NotOfTheForm:
                continue
            if call:
                edges = len(self.desk.posted[2]) if self.desk.posted else 5
                self.call(*call, room=edges if rng.random() < 0.8 else rng.randrange(MOST_EDGES + 1))

    def out(self):
        return "".join(line + "\n" for line in self.printed).encode()


def stored():
    """The story, and some hundred sequences, as far as there is room."""
    made, seed = Sequences(), 0
    made.story()
    while seed < 240 and len(made.calls) < MOST_BYTES - 60000:
        made.sequence(seed, 24)
        seed += 1
    assert seed >= 100 and len(made.calls) <= MOST_BYTES, (seed, len(made.calls))
    due = {"post": (4, 6, 7, 8, 9, 10, 16, 26), "correct": (7, 21, 24, 26), "propose": (11, 12, 13, 14, 20, 21), "withdraw": (20, 21), "report": (15, 20, 21)}
    for name, numbers in due.items():
        found = {int(answer.split()[1]) for kind, answer in made.seen if kind == name and answer.startswith("refused")}
        assert found == set(numbers), (name, found)
        assert made.seen[name, "fit" if name == "report" else "ok"] > 40, (name, made.seen)
    return made, seed


def check(path, data):
    with open(path, "rb") as file:
        if file.read() != data:
            sys.exit("%s is not what this script writes" % os.path.relpath(path))


def drive(words):
    seed, count = 10000, 0
    while count < 20000:
        made = Sequences()
        while len(made.calls) < MOST_BYTES // 2:
            made.sequence(seed, 400)
            seed += 1
        done = subprocess.run(words, input=bytes(made.calls), stdout=subprocess.PIPE, check=True)
        if len(made.calls) > MOST_BYTES or done.stdout != made.out():
            sys.exit("sequences up to %d: the program prints something else" % seed)
        count += made.count
    print("%d calls on desks answered as they must be" % count)


def main():
    if sys.argv[1:2] == ["--drive"]:
        return drive(sys.argv[2:])
    made, seed = stored()
    for name, data in (("stdin", bytes(made.calls)), ("stdout", made.out())):
        path = os.path.join(CRATE, name)
        if sys.argv[1:] == ["--check"]:
            check(path, data)
        else:
            with open(path, "wb") as file:
                file.write(data)
    print("%d sequences, %d calls, %d bytes" % (seed, made.count, len(made.calls)))


if __name__ == "__main__":
    main()
