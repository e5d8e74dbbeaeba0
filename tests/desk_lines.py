#!/usr/bin/env python3
"""The lines that two benches speak to a desk in (RULES, The desk's lines): a reading of their form by patterns over a whole line, which shares
nothing with the crates, and the program `two_benches` held to it. The calls, the report and the refusals are those of desk.py and reading.py; desk.py
reads the form of a line too, word by word, and the two readings must agree on every line.

    tests/desk_lines.py                   writes crates/two_benches/stdin and stdout, and examples/stale.desk.expected
    tests/desk_lines.py --check           says whether they are what this script writes
    tests/desk_lines.py --make SEED COUNT writes a random input of that many lines
    tests/desk_lines.py --answer          writes what the program must print for standard input
    tests/desk_lines.py --drive WORDS     runs the program, given by its words, on random inputs of 100,000 calls and more, and compares what it
                                          prints byte by byte; some inputs go in byte by byte, some in random pieces, and some line by line, each
                                          line only once the answer to the line before it has come. The last line is 'N passed, M failed'"""
import os
import random
import re
import select
import subprocess
import sys
import threading
from collections import Counter

import desk
import make_figures
import reading

HERE = os.path.dirname(os.path.abspath(__file__))
CRATE = os.path.join(HERE, "..", "crates", "two_benches")
STALE = os.path.join(HERE, "..", "examples", "stale.desk")
LONGEST = 16384
CALLS = 100000


# ---- the form, by patterns
NUMBERS, SIGNED = rb"((?:[ \t]+[0-9]+)*)", rb"((?:[ \t]+-?[0-9]+)*)"
FORMS = {name: re.compile(rb"[ \t]*" + name.encode() + rb"[ \t]+([0-9]+)" + rest + rb"[ \t]*") for name, rest in (
    ("post", NUMBERS + rb"[ \t]+/" + NUMBERS), ("propose", rb"[ \t]+([0-9]+)" + SIGNED),
    ("correct", rb"[ \t]+([0-9]+)[ \t]+([0-9]+)"), ("withdraw", b""), ("report", b""), ("pairs", b""))}


def whole(digits):
    """The number that decimal digits are, with a minus or without, however many: Python itself stops at some thousand."""
    value = 0
    for at in range(digits.startswith(b"-"), len(digits), 500):
        part = digits[at:at + 500]
        value = value * 10 ** len(part) + int(part)
    return -value if digits.startswith(b"-") else value


def call_of(line):
    """A call and what it is given, "nothing" where no answer is due, and "wrong" for what is no call."""
    if len(line) > LONGEST:
        return "wrong", ()
    if line[:1] == b"#" or not line.strip(b" \t"):
        return "nothing", ()
    for name, form in FORMS.items():
        found = form.fullmatch(line)
        if found:
            given = [[whole(word) for word in part.split()] for part in found.groups()]
            if name == "post":
                return name, (given[0][0], given[1], given[2])
            if name == "propose":
                return name, (given[0][0], given[1][0], given[2])
            return name, tuple(one for one, in given)
    return "wrong", ()


def lines_of(data):
    """The lines of an input without their ends: LF, or CR LF, which the last may lack."""
    at = 0
    while at < len(data):
        end = data.find(b"\n", at)
        if end < 0:
            yield data[at:]
            return
        yield data[at:end - 1] if end > at and data[end - 1] == 13 else data[at:end]
        at = end + 1


class Reading:
    """The answers to lines, one by one, and how often each answer was given to each kind of line."""

    def __init__(self):
        self.desk, self.seen, self.calls = desk.Desk(), Counter(), 0

    def line(self, line):
        name, given = call_of(line)
        try:
            other = desk.call_of(line) or ("nothing", ())
        except desk.NotOfTheForm:
            other = "wrong", ()
        if (name, given) != other:
            raise AssertionError("two readings of %r: %r, %r" % (line[:200], name, other[0]))
        if name == "nothing":
            answer = []
        elif name == "wrong":
            answer = ["refused line"]
        else:
            answer = getattr(self.desk, name)(*given)
        self.calls += bool(answer)
        first = answer[0].split()[:2] if answer else ["none"]
        self.seen[name, " ".join(first) if first[0] == "refused" else first[0]] += 1
        return "".join(text + "\n" for text in answer).encode()


def answers_of(data):
    """Each line of an input with what is printed for it."""
    reader = Reading()
    return [(line, reader.line(line)) for line in lines_of(data)], reader


def printed(data):
    return b"".join(answer for _, answer in answers_of(data)[0])


# ---- random inputs
FAR = [0, 1, 2, 3, 63, 64, 65, 127, 128, 255, 256, 257, 300, 32767, 32768, 50000, 50001, 65533, 65534, 65535, 65536, 65537, 70000, 131071, 999999, 1000000,
       1000001, 2 ** 31, 2 ** 32 - 1, 2 ** 32, 2 ** 32 + 1, 2 ** 32 + 2, 2 ** 40, 2 ** 40 + 1, 10 ** 11, 10 ** 11 + 1, 10 ** 15 - 1, 10 ** 15, 10 ** 15 + 1,
       2 ** 63 - 1, 2 ** 63, 2 ** 64 - 1, 2 ** 64, 2 ** 64 + 1, 2 ** 64 + 2, 10 ** 30]
ODD = [b"+%s", b"-%s", b"--%s", b"%s-", b"-0", b"+0", b"-", b"+", b"-00", b"000%s", b"%s.0", b"%s,", b"0x%s", b"%s\r", b"\r%s", b"%s\0", b"\0%s", b"%s\xff",
       b"\xc2\xa0%s", b"%s\x0b", b"%s\x0c", b"/", b"/%s", b"%s/", b"//", b"x", b"#", b"%s#", b"", b"%s %s", b"%s\t%s", b"%s \t ", b"%s / %s"]
SIZES = (0, 0, 1, 1, 2, 3, 100, 4000, 16384, 30000)


class Maker(desk.Maker):
    """Draws lines of every kind, most of them calls that mean something to the desk as it then stands."""

    def post_limit(self):
        """A posting of 64 strains or of about so many, with the fit known; and 128 strains, which no matrix has."""
        rng = self.rng
        if self.coin(0.15):
            return b"post 128" + b" %d" % rng.randint(0, 9) * (8128 + rng.choice((0, 0, 0, -1, 1))) + b" /" + rng.choice((b"", b" 128"))
        n = rng.choice((64, 64, 64, 63, 65))
        if n == 65:
            return b" ".join([b"post 65"] + [b"%d" % rng.randint(0, 99)] * 2080 + [b"/"] + [b"65"] * 65)
        parents = make_figures.table_of(rng.choice((make_figures.star(n), make_figures.grown(n, rng, 2), make_figures.grown(n, rng, 4))), n)
        lengths = [rng.randint(0, 700) for _ in parents]
        distances = make_figures.whole_paths(n, parents, lengths)
        self.known[n, tuple(distances), tuple(parents)] = 1, lengths
        return b" ".join([b"post %d" % n] + [b"%d" % d for d in distances] + [b"/"] + [b"%d" % p for p in parents])

    def word_changed(self):
        """A call with one of its words changed to something that is near it."""
        rng = self.rng
        words = self.call().split()
        at = rng.randrange(len(words))
        word = words[at]
        if self.coin(0.5):
            changed = b"%d" % rng.choice(FAR)
            if self.coin(0.1):
                changed = b"0" * rng.randint(1, 40) + changed
            if words[0] == b"propose" and self.coin(0.3):
                changed = b"-" + changed
            if at == 0:
                at = rng.randrange(1, len(words))
        else:
            changed = rng.choice(ODD).replace(b"%s", word)
        words[at] = changed
        return b" ".join(words)

    def words_moved(self):
        """A call with a word too few, a word twice, or two words in each other's places."""
        rng = self.rng
        words = self.call().split()
        at, other = rng.randrange(len(words)), rng.randrange(len(words))
        kind = rng.randrange(3)
        if kind == 0:
            del words[at]
        elif kind == 1:
            words.insert(at, words[at])
        else:
            words[at], words[other] = words[other], words[at]
        return b" ".join(words)

    def long_line(self):
        """A line about as long as it may be, or longer, of any kind."""
        rng = self.rng
        size = LONGEST + rng.choice((-1, *SIZES))
        kind = rng.randrange(9)
        if kind == 0:
            return (b"#" + rng.choice((b" old", b"#", b"\xff", b"\0", b"post 4 ")) * size)[:size]
        if kind == 1:
            return bytes(rng.choice(b" \t") for _ in range(100)) * (size // 100) + b" " * (size % 100)
        if kind == 2:
            return rng.choice((b"x", b"report 1\r", b"\0", b"/ ", b"1 ", b"post 4 / ", b"-")) * (size // 2)
        if kind == 3:
            head = rng.choice((b"report ", b"pairs ", b"withdraw ", b"correct 0 1 ", b"propose 1 ", b"propose 1 1 -", b"post "))
            end = b"" if head != b"post " else b" /"
            room = size - len(head) - len(end)
            return head + rng.choice((b"0" * (room - 1) + b"1", b"9" * room, b"1" + b"0" * (room - 1))) + end
        line = self.call()[:size]
        room = size - len(line)
        if kind < 6:
            return line + bytes([rng.choice(b" \t")]) * room
        if kind < 8:
            front = rng.randint(0, room)
            return b" " * front + line + b"\t" * (room - front)
        first, _, rest = line.partition(b" ")
        return first + b" " * (room + 1) + rest

    def next(self):
        """The next line with its end."""
        rng, draw = self.rng, self.rng.random()
        if draw < 0.78:
            line = self.call()
        elif draw < 0.83:
            line = rng.choice(desk.MALFORMED)
        elif draw < 0.87:
            line = self.spoilt()
        elif draw < 0.93:
            line = self.word_changed()
        elif draw < 0.95:
            line = self.words_moved()
        elif draw < 0.953:
            line = self.long_line()
        elif draw < 0.9545:
            line = self.post_limit()
        else:
            line = rng.choice((b"", b" ", b"\t \t", b"  " * 50, b"#", b"# post 4 /", b"#report 1", b"#\xff\0\r!", b"#" + b"-" * 300))
        out = line + (b"\n" if self.coin(0.85) else b"\r\n")
        for given in desk.split(out):
            desk.said(self.desk, given)
        return out


def made(seed, count):
    """An input of so many lines; the last may lack its end, or all but a CR of it."""
    maker = Maker(seed)
    text = b"".join(maker.next() for _ in range(count))
    if maker.coin(0.2):
        return text.rstrip(b"\n") + b"\r"
    return text[:-1] if maker.coin(0.5) else text


# ---- the program
def whole_run(words, data, rng):
    return subprocess.run(words, input=data, stdout=subprocess.PIPE, stderr=subprocess.PIPE)


def fed(words, data, sizes):
    """The program with its input in pieces of these sizes."""
    program = subprocess.Popen(words, stdin=subprocess.PIPE, stdout=subprocess.PIPE, stderr=subprocess.PIPE)
    def feed():
        at = 0
        try:
            while at < len(data):
                size = sizes()
                os.write(program.stdin.fileno(), data[at:at + size])
                at += size
        except BrokenPipeError:
            pass
        program.stdin.close()
    feeding = threading.Thread(target=feed)
    feeding.start()
    said = []
    listening = threading.Thread(target=lambda: said.append(program.stderr.read()))
    listening.start()
    out = program.stdout.read()
    feeding.join()
    listening.join()
    return subprocess.CompletedProcess(words, program.wait(), out, said[0])


def byte_by_byte(words, data, rng):
    return fed(words, data, lambda: 1)


def in_pieces(words, data, rng):
    # 64 KB is what a pipe takes at once: what is written is written whole
    return fed(words, data, lambda: rng.choice((1, 2, 3, 10, 100, 1000, 4096, 16383, 16384, 16385, 16386, 16387, 40000)))


def line_by_line(words, data, rng):
    """The program with each line written only once the answer to the one before it has come. It stops where an answer does not come."""
    program = subprocess.Popen(words, stdin=subprocess.PIPE, stdout=subprocess.PIPE, stderr=subprocess.PIPE)
    out, at = b"", 0
    for line, answer in answers_of(data)[0]:
        end = data.find(b"\n", at) + 1 or len(data)
        os.write(program.stdin.fileno(), data[at:end])
        if end == len(data) and not data.endswith(b"\n"):
            program.stdin.close()
        at, wanted = end, len(out) + len(answer)
        while len(out) < wanted:
            if not select.select([program.stdout], [], [], 20)[0]:
                program.kill()
                program.wait()
                return subprocess.CompletedProcess(words, "no answer to %r in 20 s" % line[:100], out, b"")
            got = os.read(program.stdout.fileno(), 65536)
            if not got:
                break
            out += got
    program.stdin.close()
    out += program.stdout.read()
    return subprocess.CompletedProcess(words, program.wait(), out, program.stderr.read())


def drive(words):
    passed = failed = calls = seed = 0
    seen = Counter()
    while calls < CALLS:
        seed += 1
        rng = random.Random(seed)
        way, count = whole_run, 1500
        if seed % 10 == 1:
            way, count = byte_by_byte, 200
        elif seed % 10 == 2:
            way, count = line_by_line, 500
        elif seed % 10 in (3, 4):
            way = in_pieces
        data = made(seed, count)
        answers, reader = answers_of(data)
        due = b"".join(answer for _, answer in answers)
        done = way(words, data, rng)
        calls += reader.calls
        seen += reader.seen
        if done.stdout == due and done.returncode == 0 and not done.stderr:
            passed += 1
            continue
        failed += 1
        print("input %d (%s), ended with %s, said %r" % (seed, way.__name__, done.returncode, done.stderr[:200]))
        got = done.stdout
        for number, (line, answer) in enumerate(answers, 1):
            if got[:len(answer)] != answer:
                print("  line %d, %d bytes, %r: due %r, printed %r" % (number, len(line), line[:200], answer[:200], got[:200]))
                break
            got = got[len(answer):]
    numbers = {"post": (4, 6, 7, 8, 9, 10, 16, 26), "correct": (7, 21, 24, 26), "propose": (11, 12, 13, 14, 20, 21), "withdraw": (20, 21), "report": (20, 21), "pairs": (20, 21)}
    due = {(name, "refused %d" % number) for name, all_of in numbers.items() for number in all_of}
    due |= {(name, "fit" if name in desk.SHOWN else "ok") for name in numbers} | {("wrong", "refused line"), ("nothing", "none")}
    if set(seen) != due or min(seen.values()) < 10:
        failed += 1
        print("not every answer was drawn: %r" % sorted(seen.items()))
    print("%d inputs, %d answers: %s" % (seed, calls, "; ".join("%s %s: %d" % (*key, seen[key]) for key in sorted(seen))))
    print("%d passed, %d failed" % (passed, failed))
    return failed > 0


# ---- the gate's input
def stored():
    """Each form, each refusal with its place, lines that are no calls, and the story. Comments say what a line is for."""
    post, propose = b"post 4 3 7 8 6 9 5 / 4 4 5 5 5", b"propose 1 2 3 3 3 7 7"
    big = 2 ** 40
    told = [
        b"# nothing is posted yet", propose, b"report 1", b"withdraw 2", b"correct 0 3 9", b"correct 9 9 70000", b"propose 3 2 3 3 3 7 7", b"report 3", b"pairs 1", b"pairs 3",
        b"# the story", post, propose, b"report 1", b"pairs 1", b"report 2", b"pairs 2", b"withdraw 2", b"correct 0 3 9", b"report 1", b"pairs 1", propose, b"correct 3 0 8", propose, b"report 1",
        b"# lines that are no calls, and change nothing", b"post", b"propose 1", b"post 4 3 7 8 6 9 5 4 4 5 5 5", b"report 1 1", b"propose 3 x",
        b"post 4 3 7 8 / 6 9 5 / 4 4 5 5 5", b"post / 4", b"post 4 3 7 8 6 9 5/ 4 4 5 5 5", b"report +1", b"report -1", b"withdraw -0", b"correct 0 3 -9", b"propose 1 -2 3 3 3 7 7",
        b"propose 1 2 +3 3 3 7 7", b"propose 1 2 3 3 3 7 --7", b"Report 1", b"reports 1", b"report", b"correct 0 3", b"correct 0 3 9 9", b"withdraw", b"pairs", b"pairs 1 1", b"pair 1", b"Pairs 1", b"pairs -1", b" # not at the front",
        b"report 1\r\r", b"\rreport 1", b"report\x001", b"\xff", b"#" * 16385, b"report 1",
        b"# blank lines, and a comment with CR LF", b"", b" \t ", b"\r", b"# old\r", b"  report\t1 \r", b"report 0001", b"report 1".ljust(16384),
        b"# the other bench, with the same lengths over 4", b"propose 2 4 6 6 6 14 14", b"report 2", b"pairs 2", b"withdraw 1", b"report 1", b"withdraw 1", b"report 2", b"\tpairs  02 ", b"pairs %d" % big,
        b"# postings that are refused", b"post 4 /", b"post 4 3 7 8 6 9 5 /", b"post 4 65536 7 8 6 9 5 / 4 4 5 5 5", b"post 4 3 70000 8 6 9 5 / 4 4 5 5 5",
        b"post 4 3 7 8 6 9 50001 / 4 4 5 5 5", b"post 4 3 7 8 6 9 5 / 4 300 5 5 5", b"post 4 3 7 8 6 9 5 / 4 4 260 5 5", b"post 4 3 7 8 6 9 5 / 4 4 5 5 4",
        b"post 4 3 7 8 6 9 5 / 5 5 5 4 5", b"post 4 3 65535 65535 65535 65535 5 / 4 4 5 5 5", b"post %d 3 7 8 6 9 5 / 4 4 5 5 5" % big,
        b"post 2 1 / 2 2", b"post 128" + b" 1" * 8128 + b" /",
        b"# proposals, corrections and benches that are refused", b"propose 1 2", b"propose 3 2", b"propose 1 %d 3 3 3 7 7" % big, b"propose 1 0 3 3 3 7 7",
        b"propose 1 2 3 3 %d 7 7" % 10 ** 30, b"propose 1 2 3 -%d 3 7 7" % 10 ** 30, b"propose 1 2 3 3 3 7 6", b"propose %d 2 3 3 3 7 7" % big, b"report %d" % big,
        b"withdraw %d" % (2 ** 32 + 2), b"correct %d 3 9" % big, b"correct 0 0 9", b"correct 0 3 65536", b"correct 0 3 70000", b"report 2",
        b"# pairs that nobody measured", b"correct 0 1 65535", b"correct 2 0 65535", b"correct 0 3 65535", b"post 4 65535 7 8 6 9 5 / 4 4 5 5 5", b"propose 1 2 2 2 3 7 8", b"report 1", b"pairs 1",
        b"# the sheet's order, a minus, and -0", b"post 4 3 7 6 8 9 5 / 4 4 5 5 5", propose, b"post 3 1 1 4 / 3 3 3", b"propose 2 1 -1 2 2", b"report 2", b"pairs 2", b"post 3 0 0 0 / 3 3 3", b"propose 2 1 -0 00 -000",
        b"# 64 strains", b"post 64" + b" 2" * 2016 + b" /" + b" 64" * 64, b"propose 2 1" + b" 1" * 64, b"report 2", b"pairs 2",
    ]
    return b"\n".join(told)


def check_reading():
    """The request's own example, and every line of desk.py's that is no call."""
    told = b"post 4 3 7 8 6 9 5 / 4 4 5 5 5\npropose 1 2 3 3 3 7 7\nreport 1\ncorrect 0 3 9\nreport 1\nwithdraw 2\n"
    due = b"ok\nok\n" + desk.REPORT + b"ok\nrefused 21\nrefused 21\n"
    assert printed(told) == printed(told[:-1]) == printed(told.replace(b"\n", b"\r\n")) == due
    assert all(call_of(line) == ("wrong", ()) for line in desk.MALFORMED)


def files():
    """What stands in the repository and comes from here."""
    check_reading()
    told = stored()
    due = printed(told)
    assert len(told) < 60000 and due == desk.lines(told)
    with open(STALE, "rb") as file:
        story = file.read()
    assert printed(story) == desk.lines(story)
    return [(os.path.join(CRATE, "stdin"), told), (os.path.join(CRATE, "stdout"), due), (STALE + ".expected", printed(story))]


def main():
    if sys.argv[1:2] == ["--make"]:
        sys.stdout.buffer.write(made(int(sys.argv[2]), int(sys.argv[3])))
        return 0
    if sys.argv[1:] == ["--answer"]:
        sys.stdout.buffer.write(printed(sys.stdin.buffer.read()))
        return 0
    if sys.argv[1:2] == ["--drive"]:
        return drive(sys.argv[2:])
    for path, data in files():
        if sys.argv[1:] == ["--check"]:
            with open(path, "rb") as file:
                if file.read() != data:
                    print("%s is not what this script writes" % os.path.relpath(path))
                    return 1
        else:
            with open(path, "wb") as file:
                file.write(data)
    reader = answers_of(stored())[1]
    print("%d answers in the gate's input" % reader.calls)
    return 0


if __name__ == "__main__":
    sys.exit(main())
