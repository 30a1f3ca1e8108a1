"""An example receiver of orders: it holds each order once, whatever comes twice, and confirms an order only once it is on its disk.

    python3 python/ring/receiver.py FILE

reads an order a line, as JSON with its number, from standard input, and answers its number on a line of its own: what `./ring book send` waits for. A repeat is told
by its key, which is all of a form but the size, and not by its number.
"""
import contextlib
import json
import os
import select
import subprocess
import sys
import time

if __name__ == "__main__":
    sys.dont_write_bytecode = True
    sys.path[0] = os.path.dirname(os.path.dirname(os.path.realpath(__file__)))

from ring import door
from ring.faults import BadFile
from ring.records import Form
from ring.store import KEY, File, form_of

MARK, VERSION = 0x52494E52, 1
TABLES = """
CREATE TABLE received (p_edition INTEGER NOT NULL, q_edition INTEGER NOT NULL, own INTEGER NOT NULL, contractor INTEGER NOT NULL, grid INTEGER NOT NULL,
    q INTEGER NOT NULL, p INTEGER NOT NULL, size INTEGER NOT NULL, PRIMARY KEY (%s)) WITHOUT ROWID;
""" % KEY
# the most bytes of an order, and of an answer
ORDER, ANSWER = 1 << 12, 1 << 10


def form_in(record):
    """The form of an order's record; one that is no form is refused."""
    try:
        form = Form(*(record[part] for part in Form._fields))
    except (KeyError, TypeError) as fault:
        raise BadFile("no order: %s" % (fault if isinstance(fault, TypeError) else "it has no %s" % fault))
    for part, value in form._asdict().items():
        most = 1 if part in ("own", "grid") else 2 if part == "contractor" else (1 << 63) - 1 if part == "size" else (1 << 32) - 1
        if isinstance(value, bool) != (part in ("own", "grid")) or not isinstance(value, int) or not 0 <= value <= most:
            raise BadFile("no order: its %s is %s" % (part, json.dumps(value)))
    return form


class Receiver(File):
    def __init__(self, path):
        super().__init__(path, MARK, VERSION, TABLES, "receiver's file")

    def take(self, form):
        """Keeps an order: True where its key is new, False where it is a repeat. After either it may be confirmed."""
        with self.changing():
            held = self._one("SELECT size FROM received WHERE (%s) = (?, ?, ?, ?, ?, ?, ?)" % KEY, form[:-1])
            if held is not None and held[0] != form.size:
                raise BadFile("chamber %d with pump house %d is held with the size %d, and comes with %d: two lists under one edition" % (form.q, form.p, *held, form.size))
            if held is None:
                self._db.execute("INSERT INTO received VALUES (?, ?, ?, ?, ?, ?, ?, ?)", form)
        return held is None

    def orders(self):
        """The orders that it holds, by their keys."""
        with self.told():
            return [form_of(row) for row in self._db.execute("SELECT %s, size FROM received ORDER BY %s" % (KEY, KEY))]


def line_of(number, form):
    """An order as it is sent."""
    return json.dumps(dict(number=number, **form._asdict())) + "\n"


class Program:
    """A receiver program, at the other end of two pipes: it is handed an order a line, and confirms it by its number on a line, or answers an empty line where it
    does not. One that neither reads nor answers for so many seconds is ended, and so is one that answers what nobody asked for: `fault` says why."""

    def __init__(self, words, wait):
        self.wait, self.gone, self.fault, self.said = wait, False, None, b""
        self.work = subprocess.Popen(words, stdin=subprocess.PIPE, stdout=subprocess.PIPE, bufsize=0)
        for pipe in (self.work.stdin, self.work.stdout):
            os.set_blocking(pipe.fileno(), False)

    def give(self, number, form):
        """Whether it confirms an order that it is handed."""
        said = self.asked(line_of(number, form).encode())
        if said not in (None, "", str(number)):
            self.give_up("the receiver answered '%s', where %d or an empty line was due" % (said[:60], number))
        return said == str(number)

    def give_up(self, why):
        self.gone, self.fault = True, why

    def asked(self, line):
        """Hands it a line: the one that it answers, or None where it answers no more."""
        until = time.monotonic() + self.wait
        self.read()
        if self.said and not self.gone:
            self.give_up("the receiver answered before it was asked")
        while not self.gone:
            left = until - time.monotonic()
            if left <= 0:
                self.give_up("the receiver was silent for %g seconds, and was ended" % self.wait)
                break
            able = select.select([self.work.stdout], [self.work.stdin] if line else [], [], left)
            if able[1]:
                line = self.write(line)
            if able[0]:
                self.read()
            if b"\n" in self.said:
                said, self.said = self.said.split(b"\n", 1)
                if line or self.said:
                    self.give_up("the receiver answered before it was asked")
                    break
                return said.decode("ascii", "replace").strip()
            if len(self.said) > ANSWER:
                self.give_up("the receiver answered a line of over %d bytes" % ANSWER)
        return None

    def write(self, line):
        """What is left to be written of a line."""
        try:
            return line[os.write(self.work.stdin.fileno(), line[:select.PIPE_BUF]):]
        except BlockingIOError:
            return line
        except BrokenPipeError:
            self.gone = True
            return line

    def read(self):
        """Takes over what was answered."""
        try:
            data = os.read(self.work.stdout.fileno(), ANSWER)
        except BlockingIOError:
            return
        self.said += data
        if not data:
            self.gone = True

    def __enter__(self):
        return self

    def __exit__(self, *_):
        with contextlib.suppress(BrokenPipeError):
            self.work.stdin.close()
        try:
            self.work.wait(0 if self.fault else self.wait)
        except subprocess.TimeoutExpired:
            self.work.kill()
            self.work.wait()
        self.work.stdout.close()


def lines(stream):
    """The lines of a stream, each within a limit."""
    while True:
        line = stream.readline(ORDER)
        if not line:
            return
        if not line.endswith(b"\n"):
            raise BadFile("a line of over %d bytes, or one that was cut, is no order" % ORDER)
        yield line


def main(words):
    if len(words) != 1:
        raise door.Wrong(__doc__.split("\n")[2].strip())
    try:
        with Receiver(words[0]) as receiver:
            for line in lines(sys.stdin.buffer):
                try:
                    order = json.loads(line)
                except ValueError:
                    raise BadFile("no order: %s" % line[:60].decode("ascii", "replace").strip())
                form = form_in(order)
                if not isinstance(order.get("number"), int):
                    raise BadFile("no order: it has no number")
                receiver.take(form)
                print(order["number"], flush=True)
    except BadFile as fault:
        print("receiver: %s" % fault, file=sys.stderr)
        return door.REFUSED
    return door.SERVED


if __name__ == "__main__":
    door.ended("receiver", main)
