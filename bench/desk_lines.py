#!/usr/bin/env python3
"""Times the program two_benches on calls at N = 64, line by line of one input, beside lines of the same length that ask for less:

    comment     the bytes of the line, the first a #: its end is found, and that is all
    digits      its numbers behind `propose 3 1`: every digit is read, and 20 is all that is answered

    bench/desk_lines.py VERDICT WORDS   VERDICT: the program of bench/desk_lines.c as one word of the shell; WORDS: two_benches

Each input is so many lines of one kind from a file, with its answers written to one; of each the processor's time in user and system mode, less that of an
input without them, over the lines; the least of some rounds, the kinds taking turns. The answers are counted."""
import os
import random
import shlex
import subprocess
import sys
import tempfile

HERE = os.path.dirname(os.path.abspath(__file__))
sys.path.insert(0, os.path.join(HERE, "..", "tests"))
import make_figures
import reading

LINES, ROUNDS, N = 2000, 15, 64


def seconds(words, given, made):
    """The processor's time for an input, and what was printed."""
    with open(given, "rb") as source, open(made, "wb") as target:
        program = subprocess.Popen(words, stdin=source, stdout=target)
        _, status, used = os.wait4(program.pid, 0)
        program.returncode = os.waitstatus_to_exitcode(status)
    if program.returncode:
        sys.exit("the program ended with %d" % program.returncode)
    with open(made, "rb") as target:
        return used.ru_utime + used.ru_stime, target.read()


def posting(shape, rng):
    """Parents, lengths and distances that fit, the longest near 50,000 so that most distances have five digits."""
    parents = make_figures.table_of(shape, N)
    longest = max(make_figures.whole_paths(N, parents, [1] * len(parents)))
    lengths = [rng.randint(25000 // longest, 50000 // longest) for _ in parents]
    return parents, lengths, make_figures.whole_paths(N, parents, lengths)


def written(*words):
    return " ".join(str(word) for word in words).encode()


def main():
    verdict, words = shlex.split(sys.argv[1]), sys.argv[2:]
    rng = random.Random(64)
    print("| tree | call | bytes | comment, ns | digits, ns | call, ns | verdict, ns | (call - digits) / verdict |")
    print("|---|---|---|---|---|---|---|---|")
    with tempfile.TemporaryDirectory() as folder:
        place = lambda name: os.path.join(folder, name)
        for name, shape in (("balanced", make_figures.balanced(N)), ("caterpillar", make_figures.caterpillar(N)), ("random", make_figures.grown(N, rng, 2))):
            parents, lengths, distances = posting(shape, rng)
            with open(place("sheet"), "wb") as file:
                file.write(reading.sheet(N, distances, parents, 1, lengths))
            own = float(subprocess.run(verdict + [place("sheet")], stdout=subprocess.PIPE, check=True).stdout)
            post, propose = written("post", N, *distances, "/", *parents), written("propose", 1, 1, *lengths)
            same = lambda line, numbers: written("propose 3 1", *numbers).ljust(len(line))[:len(line)]
            kinds = {  # what comes before the lines, the line, and its answer
                "start": (b"", b"#", b""), "posted": (post + b"\n", b"#", b""),
                "post, comment": (b"", b"#" + post[1:], b""), "post, digits": (b"", same(post, distances + parents), b"refused 20\n"), "post": (b"", post, b"ok\n"),
                "propose, comment": (post + b"\n", b"#" + propose[1:], b""), "propose, digits": (post + b"\n", same(propose, lengths), b"refused 20\n"),
                "propose": (post + b"\n", propose, b"ok\n")}
            least = {}
            for kind, (before, line, _) in kinds.items():
                with open(place(kind), "wb") as file:
                    file.write(before + (b"" if kind in ("start", "posted") else (line + b"\n") * LINES))
            for _ in range(ROUNDS):
                for kind, (before, _, answer) in kinds.items():
                    took, out = seconds(words, place(kind), place("out"))
                    if out != (b"ok\n" if before else b"") + answer * LINES:
                        sys.exit("%s: not the answers that are due" % kind)
                    least[kind] = min(took, least.get(kind, took))
            for call, start in (("post", "start"), ("propose", "posted")):
                comment, digits, whole = (1e9 * (least[kind] - least[start]) / LINES for kind in (call + ", comment", call + ", digits", call))
                print("| %s | %s | %d | %.0f | %.0f | %.0f | %.0f | %.2f |" % (name, call, len(kinds[call][1]), comment, digits, whole, own, (whole - digits) / own))


if __name__ == "__main__":
    main()
