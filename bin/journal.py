"""The desk that a journal holds (docs/RULES.md, The desk's journal). bin/desk --journal starts it:

    journal.py JOURNAL CALLS WORDS    CALLS: what standard input is called; WORDS: the program two_benches

two_benches answers every call, also those that are replayed at the start, and what it answered alone decides what goes into the
journal: a line that got `ok`. Nothing here reads a number or a verdict, and nothing here is trusted with one.

An answer is held back until the lines of all calls before it that were accepted are in the journal and flushed; so many answers as
have come go out behind one flush. The lock is on the journal itself and this process has it: two_benches, which writes nothing but
answers, does not have the descriptor."""
import collections
import errno
import fcntl
import os
import re
import select
import signal
import stat
import subprocess
import sys
import time

LONGEST_LINE = 16_384
BLOCK = 65_536
# how many bytes wait for two_benches before no more is read
MOST_UNSENT = 4 * BLOCK
# how many answers, of how many bytes, and how long, wait for those behind them, to be flushed together
MOST_HELD, MOST_HELD_BYTES, LONGEST_HELD = 1000, 1 << 20, 0.05
BLANKS = b" \t"
FIT = re.compile(rb"fit ([0-9]+) ([0-9]+) [0-9]+\n")
# behind a report's first line and its edges: length, square, mean. The pairs have the same first line, and behind it a line for each pair
LINES_BEHIND_EDGES = 3


class Fault(Exception):
    """Why this ends with status 2."""


def say(words):
    try:
        os.write(2, b"desk: " + os.fsencode(words) + b"\n")
    except OSError:
        pass


# ---- the journal
class Journal:
    """An open journal with its lock. `end` is where its last line ends and the next call goes, `size` is how long the file is:
    what lies between is a call that was never answered."""

    def __init__(self, path):
        self.path = path
        self.descriptor, self.may_write = self.locked()
        try:
            self.size = os.fstat(self.descriptor).st_size
            self.end = self.last_line_end()
            if self.may_write:
                # what an earlier start wrote and did not come to flush is on the disk before anything is answered by it
                os.fdatasync(self.descriptor)
                if not self.size:
                    self.flush_folder()
        except OSError as error:
            raise self.fault(f"cannot be read and flushed: {error.strerror}")

    def fault(self, words):
        return Fault(f"{self.path}: {words}")

    def locked(self):
        """The descriptor of the file that stands at the path once its lock is taken, and whether it may be written."""
        told = False
        while True:
            descriptor, may_write = self.opened()
            if not stat.S_ISREG(os.fstat(descriptor).st_mode):
                raise self.fault("is no file that can hold calls: a regular file is needed")
            try:
                try:
                    fcntl.flock(descriptor, fcntl.LOCK_EX | fcntl.LOCK_NB)
                except BlockingIOError:
                    if not told:
                        say(f"{self.path}: another start has this journal, and this one waits for it")
                    told = True
                    fcntl.flock(descriptor, fcntl.LOCK_EX)
            except OSError as error:
                raise self.fault(f"its lock cannot be taken: {error.strerror}")
            if self.is_at_path(os.fstat(descriptor)):
                return descriptor, may_write
            # another file was put in its place meanwhile, or none
            os.close(descriptor)

    def opened(self):
        # a FIFO or a terminal is not waited for
        how = os.O_CLOEXEC | os.O_NOCTTY | os.O_NONBLOCK
        try:
            try:
                return os.open(self.path, os.O_RDWR | how), True
            except FileNotFoundError:
                return os.open(self.path, os.O_RDWR | os.O_CREAT | how, 0o666), True
        except OSError as error:
            if error.errno in (errno.EACCES, errno.EPERM, errno.EROFS):
                try:
                    return os.open(self.path, os.O_RDONLY | how), False
                except OSError:
                    pass
            raise self.fault("is a directory" if error.errno == errno.EISDIR else f"cannot be opened: {error.strerror}")

    def is_at_path(self, held):
        try:
            return os.path.samestat(os.stat(self.path), held)
        except OSError:
            return False

    def last_line_end(self):
        at = self.size
        while at:
            start = max(0, at - BLOCK)
            found = os.pread(self.descriptor, at - start, start).rfind(b"\n")
            if found >= 0:
                return start + found + 1
            at = start
        return 0

    def flush_folder(self):
        """Has the file's name on the disk, which a file that has lines has had since before its first."""
        folder = os.open(os.path.dirname(os.path.realpath(self.path)), os.O_RDONLY | os.O_DIRECTORY | os.O_CLOEXEC)
        try:
            os.fsync(folder)
        except OSError as error:
            # a file system that has no such thing
            if error.errno != errno.EINVAL:
                raise
        finally:
            os.close(folder)

    def refuse_as_stream(self, descriptor, what):
        """The journal is not read as calls or written over by answers."""
        if os.path.samestat(os.fstat(descriptor), os.fstat(self.descriptor)):
            raise self.fault(f"is the journal, and {what} too")

    def blocks(self):
        """The bytes of the lines."""
        at = 0
        while at < self.end:
            block = os.pread(self.descriptor, min(BLOCK, self.end - at), at)
            if not block:
                raise self.fault("became shorter while it was read")
            at += len(block)
            yield block

    def keep(self, lines):
        """Has the lines written and flushed, or none of them answered."""
        if not self.may_write:
            raise self.fault("may not be written, so the call is not kept and not answered")
        now = os.fstat(self.descriptor)
        if now.st_size != self.size or not self.is_at_path(now):
            raise self.fault("something else moved or changed it meanwhile; the call is not kept and not answered")
        data = b"".join(line + b"\n" for line in lines)
        try:
            if self.size != self.end:
                os.ftruncate(self.descriptor, self.end)
            at = self.end
            while data:
                count = os.pwrite(self.descriptor, data, at)
                data, at = data[count:], at + count
            os.fdatasync(self.descriptor)
        except OSError as error:
            self.cut_back()
            raise self.fault(f"cannot be written: {error.strerror}; the call is not kept and not answered")
        self.size = self.end = at

    def cut_back(self):
        """Takes back what was written and not answered. Where that cannot be done, part of a line is a torn end to the next start."""
        try:
            os.ftruncate(self.descriptor, self.end)
        except OSError:
            pass


# ---- lines
def gets_no_answer(line):
    return len(line) <= LONGEST_LINE and (line[:1] == b"#" or not line.strip(BLANKS))


class Lines:
    """Cuts bytes into lines as two_benches does. Each comes as the bytes that are to be sent, and the line without its end: None
    where it is too long to be a call, and its first bytes came before, by themselves."""

    def __init__(self):
        self.rest, self.too_long = b"", False

    def cut(self, data):
        *whole, self.rest = (self.rest + data).split(b"\n")
        for line in whole:
            yield line + b"\n", None if self.too_long else line[:-1] if line.endswith(b"\r") else line
            self.too_long = False

    def beginning(self):
        """The bytes of a line that is too long already, which are not kept until it ends."""
        if not self.too_long and len(self.rest) <= LONGEST_LINE + 1:
            return b""
        self.too_long, rest, self.rest = True, self.rest, b""
        return rest

    def last(self):
        """The last line, where it has no end: all that is left."""
        if self.rest or self.too_long:
            yield self.rest, None if self.too_long else self.rest


# ---- two_benches
class Program:
    """The program with its pipes. `asked` are the lines that it has not answered."""

    def __init__(self, words):
        try:
            self.process = subprocess.Popen(words, stdin=subprocess.PIPE, stdout=subprocess.PIPE, bufsize=0)
        except OSError as error:
            raise Fault(f"{words[0]} cannot be started: {error.strerror}")
        self.input, self.output = self.process.stdin.fileno(), self.process.stdout.fileno()
        os.set_blocking(self.input, False)
        self.unsent, self.asked = bytearray(), collections.deque()
        self.torn, self.lines, self.due = b"", [], 0
        self.takes_more, self.ended = True, False

    def ask(self, data, line):
        self.unsent += data
        self.asked.append(line)

    def finish(self):
        """Has it see the end of its input."""
        self.takes_more = False
        self.process.stdin.close()

    def turn(self, input_too=False, seconds=None):
        """Waits until something can be done and sends what can be sent. Gives the lines that are answered now, each with its
        answer, and whether standard input has something, where that is asked."""
        poll = select.poll()
        # also where no answer is due, so that its end is heard
        poll.register(self.output, select.POLLIN)
        if self.unsent:
            poll.register(self.input, select.POLLOUT)
        if input_too:
            poll.register(0, select.POLLIN)
        ready = {descriptor for descriptor, _ in poll.poll(None if seconds is None else max(0, seconds) * 1000)}
        if self.unsent and self.input in ready:
            self.send()
        return list(self.hear()) if self.output in ready else [], input_too and 0 in ready

    def send(self):
        try:
            del self.unsent[:os.write(self.input, self.unsent[:BLOCK])]
        except BlockingIOError:
            pass
        except BrokenPipeError:
            # it has ended, and its output says so too
            self.unsent.clear()

    def hear(self):
        data = os.read(self.output, BLOCK)
        self.ended = not data
        *lines, self.torn = (self.torn + data).split(b"\n")
        for line in lines:
            self.lines.append(line + b"\n")
            if len(self.lines) <= 2:
                self.due = lines_due(*self.lines)
            if len(self.lines) == self.due:
                if not self.asked:
                    raise Fault("the program answered what it was not asked")
                yield self.asked.popleft(), b"".join(self.lines)
                self.lines = []

    def end(self):
        """Ends it where it has not ended."""
        if not self.ended:
            self.process.kill()
        return self.process.wait()


def shows_pairs(line):
    return line.startswith(b"pair ")


def lines_due(first, second=None):
    """How many lines an answer has, by its first one and, where that is the line of a fit, the one behind it."""
    fit = FIT.fullmatch(first)
    if fit and second is None:
        return 2
    if fit:
        strains, edges = int(fit[1]), int(fit[2])
        return 1 + (strains * (strains - 1) // 2 if shows_pairs(second) else edges + LINES_BEHIND_EDGES)
    if first == b"ok\n" or first.startswith(b"refused "):
        return 1
    raise Fault("the program printed what is no answer")


# ---- replaying
def replay(program, journal):
    """Has every line of the journal accepted again. The first that is not is damage, and then no call is answered."""
    lines, number, damage = Lines(), 0, b""
    blocks = journal.blocks()
    more = True
    while more or program.asked:
        while more and len(program.unsent) < MOST_UNSENT:
            block = next(blocks, b"")
            for data, line in lines.cut(block):
                if line is not None and gets_no_answer(line):
                    # what comes before it is still asked, since that may be damage too
                    damage = b"is no call"
                    break
                program.ask(data, line)
            program.unsent += lines.beginning()
            more = block and not damage
        if not program.asked and not program.unsent:
            continue
        for _, answer in program.turn()[0]:
            number += 1
            if answer != b"ok\n":
                raise damaged(journal, number, answer)
        if program.ended:
            raise journal.fault("the program ended before all was replayed")
    if damage:
        raise damaged(journal, number + 1, damage)
    if journal.end < journal.size:
        say(f"{journal.path}: the {journal.size - journal.end} bytes behind its last line end are dropped, a call that was never answered")


def damaged(journal, number, answer):
    first, *more = answer.split(b"\n")
    words = first.decode("latin-1")
    if words.startswith("fit "):
        words = ("shows pairs" if shows_pairs(more[0]) else "is a report") + ", which changes nothing"
    return journal.fault(f"line {number}: {words}; the journal is damaged, and no call is answered")


# ---- answering
class Held:
    """Answers that are not let out yet, each with its line."""

    def __init__(self, journal):
        self.journal = journal
        self.clear()

    def clear(self):
        self.answers, self.bytes, self.since = [], 0, 0.0

    def add(self, answers):
        if answers and not self.answers:
            self.since = time.monotonic()
        self.answers += answers
        self.bytes += sum(len(answer) for _, answer in answers)

    def seconds_left(self):
        return self.since + LONGEST_HELD - time.monotonic() if self.answers else None

    def is_enough(self):
        return len(self.answers) >= MOST_HELD or self.bytes >= MOST_HELD_BYTES or (self.answers and self.seconds_left() <= 0)

    def let_out(self):
        """Keeps what was accepted, and then lets all answers out."""
        accepted = [line for line, answer in self.answers if answer == b"ok\n"]
        if None in accepted:
            raise Fault("the program accepted a line that is too long")
        if accepted:
            self.journal.keep(accepted)
        put(b"".join(answer for _, answer in self.answers))
        self.clear()


def put(data):
    data = memoryview(data)
    try:
        while data:
            try:
                data = data[os.write(1, data):]
            except BlockingIOError:
                select.select([], [1], [])
    except OSError:
        raise Fault("standard output could not be written")


def answer(program, journal, calls):
    """Answers standard input to its end."""
    lines, held = Lines(), Held(journal)
    reading, unread = True, None

    def ask(cut):
        for data, line in cut:
            if line is None or not gets_no_answer(line):
                program.ask(data, line)

    while not program.ended and not (unread and not program.asked):
        if not reading and not unread and program.takes_more and not program.unsent:
            program.finish()
        answers, has_input = program.turn(reading and len(program.unsent) < MOST_UNSENT, held.seconds_left())
        held.add(answers)
        # what is held waits for answers that are coming, never for more input
        if not program.asked or held.is_enough():
            held.let_out()
        if has_input:
            try:
                data = os.read(0, BLOCK)
            except BlockingIOError:
                continue
            except OSError as error:
                reading, unread = False, Fault(f"{calls} could not be read: {error.strerror}")
                continue
            reading = bool(data)
            ask(lines.cut(data) if data else lines.last())
            program.unsent += lines.beginning()
    held.let_out()
    if unread:
        raise unread
    if program.asked or program.takes_more or program.end():
        raise Fault(f"{calls}: the program ended before all of it was answered")


def main(path, calls, *words):
    for descriptor in 0, 1, 2:
        # the journal must not get the number of a stream that is closed
        try:
            os.fstat(descriptor)
        except OSError:
            os.open(os.devnull, os.O_RDWR)
    if signal.getsignal(signal.SIGINT) is signal.default_int_handler:
        # there is nothing to be done first: what was answered is in the journal, and the lock goes with the process
        signal.signal(signal.SIGINT, signal.SIG_DFL)
    program = None
    try:
        journal = Journal(path)
        journal.refuse_as_stream(0, calls)
        journal.refuse_as_stream(1, "standard output")
        program = Program(words)
        replay(program, journal)
        answer(program, journal, calls)
    except Fault as fault:
        say(str(fault))
        return 2
    except OSError as error:
        say(f"{path}: {error.strerror}")
        return 2
    except (ArithmeticError, LookupError, TypeError, ValueError) as error:
        # ours, not the journal's
        say(f"a fault in this program: {error!r}")
        return 2
    finally:
        if program:
            program.end()
    return 0


if __name__ == "__main__":
    sys.exit(main(*sys.argv[1:]))
