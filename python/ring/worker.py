"""The worker program, worker/worker.c, driven by pipes. It holds the proved calls, and keeps sheets, books and depots between requests. docs/GUIDE.md has the
frames word by word.

Words in the environment's RING_WORKER are run in place of the built worker: the tests run a plain reading of the rules that way.
"""
import enum
import os
import shlex
import struct
import subprocess
import sys

from . import refusals
from .faults import Refused, WorkerFault

LETTERS = 0x474E4952
MOST = 1 << 26
HEAD = struct.Struct("<4I")


class Call(enum.IntEnum):
    HELLO = 1
    SHEET = 2
    DROP = 3
    PACK = 4
    POINT = 5
    WALK = 6
    PAGE = 7
    OWN = 8
    PARTNERS = 9
    SHORTEST = 10
    NEAREST = 11
    MARKER = 12
    BOOK = 13
    NEXT = 14
    TAKE = 15
    SLOTS = 16
    STORED_BOOK = 17
    FORMS = 18
    DEPOT = 19
    GIVE = 20
    SHELF = 21
    STORED_DEPOT = 22
    HELD = 23
    POSITION = 24
    RUN = 25
    MANY = 26
    OWN_MANY = 27
    COUNT = 28
    OWN_COUNT = 29
    BUSIEST = 30
    BUSIEST_PUMPS = 31
    URGENT = 32


# statuses that are no number of refusal: faults of a frame
FAULTS = {1001: "no such call", 1002: "not as many words as the call takes", 1003: "no such handle", 1004: "no memory, or no handle left", 1005: "no frame"}


def frame(number, call, words):
    """The bytes of a request, or of an answer with its status for the call; words may be negative."""
    return HEAD.pack(LETTERS, number & 0xFFFFFFFF, call, len(words)) + struct.pack("<%dI" % len(words), *[word & 0xFFFFFFFF for word in words])


def command():
    """The words that run the worker on this machine; it is built first where that is not done yet."""
    given = os.environ.get("RING_WORKER")
    if given:
        return shlex.split(given)
    sys.path.insert(0, os.path.join(refusals.TOP, "tools"))
    try:
        import kit
    finally:
        sys.path.pop(0)
    return kit.command(kit.linked("worker", [kit.compiled("worker/worker.c")]))


def signed(word):
    return word - (1 << 32) if word >> 31 else word


def long_at(words, at):
    return words[at] | words[at + 1] << 32


class Handle:
    """What a worker keeps under a number: a sheet, a book or a depot. The number is that worker program's alone: under another it may be another sheet, so that it
    is never handed to one. What nobody holds any more the worker forgets with its next call."""

    def __init__(self, worker, number):
        self.worker, self.number, self.born = worker, number, worker.born

    def of(self, worker):
        """The number, for a call of this worker."""
        if worker is not self.worker:
            raise WorkerFault("it is kept by another worker: open it there")
        if not self.number:
            raise WorkerFault("it is closed")
        if worker.process is None or worker.born != self.born:
            raise WorkerFault("the worker that kept it is gone: open it again")
        return self.number

    def close(self):
        """The worker forgets it."""
        if self.number and self.worker.process is not None and self.worker.born == self.born:
            self.worker.call(Call.DROP, [self.number], 0)
        self.number = 0

    def __del__(self):
        if self.number:
            self.worker.unused.append((self.born, self.number))


class Worker:
    """One worker program. It is started with the first call, and ends with `close`."""

    def __init__(self, words=None):
        self.words, self.process, self.number = words, None, 0
        # how many programs were started, and what is kept of which nobody has a handle any more
        self.born, self.unused = 0, []

    def start(self):
        self.born += 1
        try:
            self.process = subprocess.Popen(self.words or command(), stdin=subprocess.PIPE, stdout=subprocess.PIPE)
        except OSError as fault:
            raise WorkerFault("the worker cannot be started: %s" % fault)

    def close(self):
        """Ends the worker, and all that it keeps."""
        process, self.process = self.process, None
        if process is None:
            return
        try:
            process.stdin.close()
        except OSError:
            pass
        process.stdout.close()
        try:
            process.wait(5)
        except subprocess.TimeoutExpired:
            process.kill()
            process.wait()

    def killed(self):
        """Ends a worker that is of no use any more; its status."""
        process, self.process = self.process, None
        process.kill()
        status = process.wait()
        for pipe in (process.stdin, process.stdout):
            try:
                pipe.close()
            except OSError:
                pass
        return status

    def broken(self, ground):
        status = self.killed()
        raise WorkerFault("the worker %s%s" % (ground, "" if status == -9 else " (it ended with %d)" % status))

    def got(self, count):
        data = self.process.stdout.read(count)
        if len(data) != count:
            self.broken("broke off within an answer" if data else "broke off before an answer")
        return data

    def status(self, call, words=()):
        """The status of a call, and the words of its answer."""
        if len(words) > MOST:
            raise WorkerFault("a request of %d words; the most is %d" % (len(words), MOST))
        if self.process is None:
            self.start()
        self.number = (self.number + 1) & 0xFFFFFFFF
        try:
            try:
                self.process.stdin.write(frame(self.number, call, words))
                self.process.stdin.flush()
            except BrokenPipeError:
                self.broken("broke off before it had the request")
            letters, number, status, count = HEAD.unpack(self.got(HEAD.size))
            if letters != LETTERS or count > MOST:
                self.broken("answered what is no frame")
            if number != self.number:
                self.broken("answered another request")
            if status and count:
                self.broken("answered words beside the status %d" % status)
            return status, struct.unpack("<%dI" % count, self.got(4 * count))
        except WorkerFault:
            raise
        except BaseException:
            # broken off halfway, by an interrupt: what the pipes hold cannot be told apart any more
            if self.process is not None:
                self.killed()
            raise

    def call(self, call, words=(), count=None, what=None, of=()):
        """The words of a call's answer, which are so many, on what `of` names by its handles; a refusal is raised with its number."""
        while self.unused:
            born, number = self.unused.pop()
            if self.process is not None and born == self.born:
                self.status(Call.DROP, [number])
        status, said = self.status(call, [thing.handle.of(self) for thing in of] + list(words))
        if status in FAULTS:
            raise WorkerFault("the worker says of a call %s: %s" % (Call(call).name, FAULTS[status]))
        if status:
            if status not in refusals.table():
                self.broken("answered the status %d, which is no number" % status)
            raise Refused(status, what)
        if count is not None and len(said) != count:
            self.broken("answered %d words of a call %s, and not %d" % (len(said), Call(call).name, count))
        return said
