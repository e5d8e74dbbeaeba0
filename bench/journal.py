#!/usr/bin/env python3
"""Times a start of bin/desk --journal from nothing to its end, by the clock and in the processor's time of all its processes: one report is
asked of a journal of so many calls at N = 64, and beside it one report of a desk without a journal; and how long a call takes behind the start, asked alone and in a burst, each
written and flushed.

    bench/journal.py

The mixed journal is a posting, and behind it by turns proposals of both benches, corrections there and back, and withdrawals; the others
are one posting and proposals, and postings alone. Of each the least of some rounds, short starts taking turns. The answers are
compared with the first round's."""
import os
import random
import resource
import subprocess
import sys
import tempfile
import time

HERE = os.path.dirname(os.path.abspath(__file__))
sys.dont_write_bytecode = True
sys.path.insert(0, os.path.join(HERE, "..", "tests"))
import make_figures
import reading

DESK, N, ROUNDS = os.path.join(HERE, "..", "bin", "desk"), 64, 5
SHORT_ROUNDS, LONG_ROUNDS = 25, 3
RNG = random.Random(64)


def line(*words):
    return " ".join(str(word) for word in words).encode() + b"\n"


class House:
    """A matrix with the fit to it, most distances with five digits."""

    def __init__(self):
        self.parents = make_figures.table_of(make_figures.grown(N, RNG, 2), N)
        longest = max(make_figures.whole_paths(N, self.parents, [1] * len(self.parents)))
        self.lengths = [RNG.randint(25000 // longest, 50000 // longest) for _ in self.parents]
        self.distances = make_figures.whole_paths(N, self.parents, self.lengths)
        self.post = line("post", N, *self.distances, "/", *self.parents)

    def propose(self, bench):
        times = RNG.randint(1, 999)
        return line("propose", bench, times, *(times * length for length in self.lengths))

    def mixed(self, count):
        calls = [self.post]
        pairs = list(reading.pairs_of(N))
        while len(calls) < count:
            k = RNG.randrange(len(pairs))
            calls += [self.propose(1), self.propose(2), line("withdraw", 1), line("correct", *pairs[k], RNG.randint(0, 50000)),
                      line("correct", *pairs[k], self.distances[k]), self.propose(2)]
        return calls[:count]

    def proposals(self, count):
        return [self.post] + [self.propose(1 + k % 2) for k in range(count - 1)]

    def postings(self, count):
        return [self.post] * count


class Timed:
    """A start with the least of its times, by the clock and the processor's; it must print the same every time."""

    def __init__(self, words, asked):
        self.words, self.asked, self.printed = words, asked, None
        self.clock = self.processor = 999.0

    def start(self):
        began, used = time.monotonic(), processor_time()
        printed = run(self.words, self.asked)
        self.clock, self.processor = min(self.clock, time.monotonic() - began), min(self.processor, processor_time() - used)
        if self.printed not in (None, printed):
            sys.exit("two starts printed different things")
        self.printed = printed


def processor_time():
    used = resource.getrusage(resource.RUSAGE_CHILDREN)
    return used.ru_utime + used.ru_stime


def run(words, asked):
    done = subprocess.run(words, input=asked, stdout=subprocess.PIPE, stderr=subprocess.PIPE)
    if done.returncode or done.stderr:
        sys.exit("ended with %d, said %r" % (done.returncode, done.stderr))
    return done.stdout


def behind_the_start(journal, house):
    """Seconds a call, asked alone and in a burst of 500."""
    desk = subprocess.Popen([DESK, "--journal", journal], stdin=subprocess.PIPE, stdout=subprocess.PIPE, bufsize=0)
    alone = burst = None
    calls = [house.propose(1) for _ in range(500)]
    for call in calls[:100]:
        began = time.monotonic()
        desk.stdin.write(call)
        assert desk.stdout.read(3) == b"ok\n"
        took = time.monotonic() - began
        alone = took if alone is None else min(alone, took)
    for _ in range(ROUNDS):
        began, out = time.monotonic(), b""
        desk.stdin.write(b"".join(calls))
        while len(out) < 3 * len(calls):
            out += desk.stdout.read(65536)
        took = (time.monotonic() - began) / len(calls)
        burst = took if burst is None else min(burst, took)
    desk.stdin.close()
    desk.wait()
    return alone, burst


def main():
    house = House()
    run([DESK], b"")
    with tempfile.TemporaryDirectory() as folder:
        rows = {("none", 0, 0): Timed([DESK], b"report 1\n")}
        for name, count in ("mixed", 1), ("mixed", 100), ("mixed", 10000), ("proposals", 10000), ("postings", 10000):
            journal = os.path.join(folder, "%s %d" % (name, count))
            with open(journal, "wb") as file:
                file.writelines(getattr(house, name)(count))
            rows[name, count, os.path.getsize(journal)] = Timed([DESK, "--journal", journal], b"report 2\n")
        for long, rounds in (False, SHORT_ROUNDS), (True, LONG_ROUNDS):
            for _ in range(rounds):
                for (_, count, _), timed in rows.items():
                    if (count > 100) == long:
                        timed.start()
        print("| journal | calls | bytes | a start by the clock, ms | of the processor, ms |")
        print("|---|---|---|---|---|")
        for words, timed in rows.items():
            print("| %s | %d | %d | %.0f | %.0f |" % (*words, 1000 * timed.clock, 1000 * timed.processor))
        alone, burst = behind_the_start(os.path.join(folder, "mixed 1"), house)
        print("\nA proposal asked alone: %.2f ms; in a burst of 500: %.2f ms each." % (1000 * alone, 1000 * burst))


if __name__ == "__main__":
    main()
