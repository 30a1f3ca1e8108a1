"""The worker's frames, whole, damaged and cut; and the package on a worker that answers wrongly or breaks off."""
import random
import struct
import subprocess
import sys
import unittest

from base import READING, Folder, built, within

import reading
import ring
from reading_worker import Reading
from ring import worker
from ring.worker import HEAD, LETTERS, MOST, Call, Worker, frame

# of these answers the first of so many words are nodes opened, which the reading says as 0
OPENED = {Call.PAGE: (0, 1), Call.OWN: (0, 1), Call.WALK: (4, 5), Call.RUN: (0, 1)}
ROOMS = {Call.BOOK: 6, Call.STORED_BOOK: 6, Call.DEPOT: 0, Call.STORED_DEPOT: 0, Call.RUN: 3, Call.MANY: 6, Call.OWN_MANY: 5}
WILD = (0, 1, 2, 3, 15, 16, 17, 60_000, 60_001, 2_000_000_000, 2_000_000_001, 2 ** 31 - 1, 2 ** 31, 2 ** 32 - 1)


def command():
    return worker.command() if built() else READING


class Requests:
    """Requests by chance: right ones, and damaged ones. What is kept is followed by the reading."""

    def __init__(self, seed):
        self.rng, self.reading = random.Random(seed), Reading()
        self.said = []

    def some(self, kind):
        """A handle of this kind, where there is one; now and then any number."""
        handles = [handle for handle, thing in self.reading.things.items() if thing.kind == kind]
        return self.rng.choice(handles) if handles and self.rng.random() < 0.95 else self.rng.choice((0, 1, 2, 3, 4097, 2 ** 32 - 1))

    def points(self):
        rng = self.rng
        n, far = rng.randrange(0, 40), rng.choice((3, 30, 1_000_000, 1_000_000_000))
        return [(k, rng.randint(-far, far), rng.randint(-far, far)) for k in sorted(rng.sample(range(1, 100), n))], 1 if far <= 1_000_000 else 2

    def packed(self):
        points, form = self.points()
        order = list(range(len(points)))
        self.rng.shuffle(order)
        return points, form, order

    def source(self):
        rng = self.rng
        own = rng.random() < 0.2
        edition = rng.randrange(1, 4)
        return [edition, edition if own else rng.randrange(1, 4), 0 if own else rng.choice((0, 0, 2)), 2 if own else rng.choice((0, 1, 2, 2)), int(own), int(rng.random() < 0.3)]

    def right(self):
        """A call and its words."""
        rng, some = self.rng, self.some
        call = Call(rng.choice([int(call) for call in Call] + [int(Call.SHEET)] * 3 + [int(Call.PAGE)] * 6 + [int(Call.TAKE)] * 4 + [int(Call.GIVE)] * 3))
        if call == Call.SHEET:
            points, form, order = self.packed()
            words = reading.pack(points, order, rng.randrange(1, 4), form)
        elif call == Call.PACK:
            points, form, order = self.packed()
            words = [form, len(points), rng.randrange(0, 3), 3 * len(points)] + [value for point in points for value in point] + order
        elif call == Call.DROP:
            words = [rng.choice((0, 99, self.some("sheet"), self.some("book"))) if rng.random() < 0.5 else 0]
        elif call in (Call.HELLO,):
            words = []
        elif call == Call.POSITION:
            words = [some("sheet"), rng.randrange(1, 100)]
        elif call == Call.POINT:
            words = [some("sheet"), rng.randrange(45)]
        elif call == Call.WALK:
            words = [some("sheet"), some("sheet"), rng.randrange(20), rng.randrange(20), rng.randrange(2)]
        elif call == Call.PAGE:
            p, q, contractor = some("sheet"), some("sheet"), rng.choice((0, 1, 2, 2))
            n = self.reading.things[q].read.n if q in self.reading.things and self.reading.things[q].kind == "sheet" else 0
            words = [p, q, rng.choice((0, 0, 50)), rng.choice((0, 50)), rng.choice((1, 3, 16, 16)), rng.choice((0, 0, 2)), contractor, int(rng.random() < 0.3)]
            words += [rng.randrange(2) for _ in range(n if contractor < 2 else 0)]
        elif call == Call.OWN:
            words = [some("sheet"), rng.choice((0, 20)), rng.choice((0, 50)), rng.choice((1, 16)), rng.randrange(2)]
        elif call in (Call.MANY, Call.COUNT):
            p, q, contractor = some("sheet"), some("sheet"), rng.choice((0, 1, 2, 2))
            n = self.reading.things[q].read.n if q in self.reading.things and self.reading.things[q].kind == "sheet" else 0
            words = [p, q] + ([rng.choice((0, 0, 50)), rng.choice((0, 50))] if call == Call.MANY else []) + self.largest()
            words += ([rng.choice((0, 1, 3, 16, 400, 5000))] if call == Call.MANY else []) + [rng.choice((0, 0, 2)), contractor, int(rng.random() < 0.3)]
            words += [rng.randrange(2) for _ in range(n if contractor < 2 else 0)]
        elif call in (Call.BUSIEST, Call.URGENT):
            p, q, contractor = some("sheet"), some("sheet"), rng.choice((0, 1, 2, 2))
            of_p, of_q = (self.reading.things[one].read.n if one in self.reading.things and self.reading.things[one].kind == "sheet" else 0 for one in (p, q))
            owners = [rng.randrange(2) for _ in range(of_q if contractor < 2 else 0)]
            words = [p, q, rng.choice((1, 3, 16, 16))] + self.largest() + [contractor, int(rng.random() < 0.3)]
            words += owners if call == Call.BUSIEST else [len(owners), of_p] + owners + self.scores(of_p) + self.scores(of_q)
        elif call == Call.BUSIEST_PUMPS:
            words = [some("sheet"), some("sheet"), rng.choice((1, 3, 16, 16))] + self.largest() + [int(rng.random() < 0.3)]
        elif call == Call.OWN_MANY:
            words = [some("sheet"), rng.choice((0, 20)), rng.choice((0, 50))] + self.largest() + [rng.choice((0, 1, 16, 400)), rng.randrange(2)]
        elif call == Call.OWN_COUNT:
            words = [some("sheet")] + self.largest() + [rng.randrange(2)]
        elif call in (Call.PARTNERS, Call.NEAREST):
            words = [some("sheet"), some("sheet"), rng.randrange(1, 100), rng.randrange(1, 17)]
        elif call == Call.RUN:
            words = [some("sheet"), some("sheet"), rng.randrange(4), rng.choice((0, 3, 16, 400, 400))]
        elif call == Call.SHORTEST:
            words = [some("sheet"), some("sheet"), rng.randrange(1, 17)]
        elif call == Call.MARKER:
            words = [rng.randint(-5, 5) & 0xFFFFFFFF for _ in range(4)]
        elif call == Call.BOOK:
            words = self.source() + [rng.choice((0, 3, 40, 400))]
        elif call in (Call.NEXT, Call.FORMS):
            words = [some("book")]
        elif call == Call.TAKE:
            words = [some("book")] + self.taken()
        elif call == Call.SLOTS:
            words = [some("book"), rng.randrange(3), rng.randrange(3)]
        elif call == Call.STORED_BOOK:
            held = rng.randrange(4)
            words = self.source() + [rng.choice((held, 40, held // 2)), held, rng.randrange(2)] + [word for k in range(held) for word in (k + 1, 5, rng.randrange(9), 0)]
        elif call == Call.DEPOT:
            words = [rng.choice((0, 2, 30))]
        elif call == Call.GIVE:
            words = [some("depot"), rng.randrange(1, 3), 1, 0, 2, 0, rng.randrange(1, 5), rng.randrange(1, 3), rng.randrange(9), 0]
        elif call == Call.SHELF:
            words = [some("depot"), rng.randrange(3), rng.randrange(3)]
        elif call == Call.STORED_DEPOT:
            held = rng.randrange(4)
            words = [rng.choice((held, 30, held // 2)), held] + [word for k in range(held) for word in (1, 1, 0, 2, 0, k + 1, 5, rng.randrange(9), 0)]
        else:
            words = [some("depot")]
        return int(call), words

    def largest(self):
        """Two words of a largest size: any, a small one, at the limit and above it."""
        size = self.rng.choice((reading.ANY_SIZE, reading.ANY_SIZE, self.rng.randrange(60), reading.ANY_SIZE - self.rng.randrange(2), reading.ANY_SIZE + 1, 10 ** self.rng.randrange(19)))
        return [size & 0xFFFFFFFF, size >> 32]

    def scores(self, n):
        """A score for each record; now and then one too high, one too few or one too many."""
        most = self.rng.choice((0, 3, reading.SCORE, reading.SCORE, reading.SCORE + 1))
        return [self.rng.choice((most, self.rng.randrange(most + 1))) for _ in range(max(0, n + self.rng.choice((0, 0, 0, 0, 0, 0, 0, -1, 1))))]

    def taken(self):
        """A page that was answered before, or one made up."""
        if self.said and self.rng.random() < 0.7:
            return self.rng.choice(self.said)
        return self.source() + [0, 0, 1, 1, 1, 1, 4, 0] + [0] * 60

    def next(self):
        """A request, damaged in one of three, and what the reading answers to it."""
        rng = self.rng
        call, words = self.right()
        words = [word & 0xFFFFFFFF for word in words]
        damage = rng.randrange(9)
        if damage == 0 and words:
            words[rng.randrange(len(words))] = rng.choice(WILD) if rng.random() < 0.7 else rng.getrandbits(32)
        elif damage == 1:
            words = words[:rng.randrange(len(words) + 1)] if rng.random() < 0.5 else words + [rng.choice(WILD)] * rng.randrange(1, 4)
        elif damage == 2:
            call = rng.choice((0, len(Call) + 1, len(Call) + 2, 2 ** 31, 2 ** 32 - 1, rng.randrange(1, len(Call) + 1)))
        # more room than a machine has is answered by what the machine has
        if call in ROOMS and len(words) > ROOMS[call]:
            words[ROOMS[call]] = min(words[ROOMS[call]], 100_000)
        status, said = self.reading.answer(call, words)
        if call in (Call.PAGE, Call.OWN) and status == 0:
            self.said = (self.said + [list(said[2:])])[-40:]
        return call, words, status, [word & 0xFFFFFFFF for word in said]


def answers(data):
    """The answers in a worker's bytes: number, status, words."""
    at = 0
    while at < len(data):
        letters, number, status, count = HEAD.unpack_from(data, at)
        if letters != LETTERS:
            raise AssertionError("no frame at byte %d" % at)
        yield number, status, list(struct.unpack_from("<%dI" % count, data, at + HEAD.size))
        at += HEAD.size + 4 * count


def run(given):
    return subprocess.run(command(), input=given, stdout=subprocess.PIPE, stderr=subprocess.PIPE, timeout=300)


class Frames(unittest.TestCase):
    def test_right_and_damaged_frames_are_answered_as_the_reading_does(self):
        seen = {}
        for seed in range(16 if built() else 1):
            requests, sent, expected = Requests(seed), [], []
            for number in range(700):
                call, words, status, said = requests.next()
                sent.append(frame(number, call, words))
                expected.append((number, call, words, status, said))
            done = run(b"".join(sent))
            self.assertEqual(done.returncode, 0, done.stderr)
            given = list(answers(done.stdout))
            self.assertEqual(len(given), len(expected))
            for (number, call, words, status, said), (back, got, more) in zip(expected, given):
                for at in OPENED.get(call, ()) if status == 0 and got == 0 else ():
                    more[at] = 0
                self.assertEqual((number, status, said), (back, got, more), "seed %d, request %d: call %d of %s" % (seed, number, call, words[:20]))
                seen.setdefault(call, set()).add(status)
        # the chances reach every call, each fault of a frame, and the numbers of the calls
        if not built():
            return
        self.assertTrue(all(0 in seen[call] for call in Call), [call for call in Call if 0 not in seen[call]])
        reached = set().union(*seen.values())
        self.assertLessEqual({1001, 1002, 1003} | {3, 4, 5, 6, 8, 9, 10, 11, 12, 13, 14, 15, 16, 18, 19, 20, 21, 22, 26, 27, 28, 29, 30, 31, 40, 41, 42}, reached)

    def test_cut_input(self):
        whole = [frame(1, Call.HELLO, []), frame(2, Call.SHEET, reading.pack([(1, 0, 0)], [0], 7)), frame(3, Call.POINT, [1, 0])]
        data = b"".join(whole)
        ends = [sum(map(len, whole[:k])) for k in range(4)]
        for cut in list(range(0, len(data) + 1, 1 if built() else 13)) + ends:
            done = run(data[:cut])
            there = len([end for end in ends[1:] if end <= cut])
            self.assertEqual(([number for number, _, _ in answers(done.stdout)], done.returncode), (list(range(1, there + 1)), 0 if cut in ends else 3), "cut at %d" % cut)

    def test_what_is_no_frame(self):
        good = frame(1, Call.HELLO, [])
        for bad in (b"\0" * 16, b"RINg" + good[4:], HEAD.pack(LETTERS, 9, 1, MOST + 1), HEAD.pack(LETTERS, 9, 1, 2 ** 32 - 1), b"GET / HTTP/1.1\r\n"):
            done = run(good + bad + good)
            said = list(answers(done.stdout))
            self.assertEqual((len(said), said[1][1:], done.returncode), (2, (1005, []), 3), bad)
        # a number of words that never come is no reason to ask for memory
        done = run(HEAD.pack(LETTERS, 9, 2, MOST) + b"\0" * 1000)
        self.assertEqual((done.stdout, done.returncode), (b"", 3))


WRONG = """
import struct, sys
def head():
    data = sys.stdin.buffer.read(16)
    if len(data) < 16: sys.exit(0)
    letters, number, call, count = struct.unpack("<4I", data)
    return number, call, struct.unpack("<%dI" % count, sys.stdin.buffer.read(4 * count))
def say(letters, number, status, words, count=None):
    sys.stdout.buffer.write(struct.pack("<4I", letters, number, status, len(words) if count is None else count) + struct.pack("<%dI" % len(words), *words))
    sys.stdout.buffer.flush()
RING = 0x474E4952
number, call, words = head()
"""


class Package(Folder):
    def fault(self, answer, told):
        """What the package says of a worker that answers so."""
        one = Worker([sys.executable, self.file("wrong.py", WRONG + answer)])
        with within(20), self.assertRaises(ring.WorkerFault) as raised:
            ring.Ring(one).version()
        self.assertIn(told, str(raised.exception))
        self.assertIsNone(one.process)

    def test_wrong_answers(self):
        for answer, told in [
            ("sys.exit(5)", "broke off before an answer"),
            ("sys.stdout.buffer.write(b'RING')", "broke off within an answer"),
            ("say(RING, number, 0, [9, 0, 0], 6)", "broke off within an answer"),
            ("say(RING + 1, number, 0, [9, 0, 0, 16, 40, 304]); head()", "what is no frame"),
            ("say(RING, number, 0, [], 2 ** 26 + 1); head()", "what is no frame"),
            ("say(RING, number + 1, 0, [9, 0, 0, 16, 40, 304]); head()", "another request"),
            ("say(RING, number, 3, [1]); head()", "words beside the status 3"),
            ("say(RING, number, 23, []); head()", "the status 23, which is no number"),
            ("say(RING, number, 700, []); head()", "the status 700, which is no number"),
            ("say(RING, number, 1002, []); head()", "not as many words as the call takes"),
            ("say(RING, number, 0, [9, 0, 0, 16, 40]); head()", "5 words of a call HELLO, and not 6"),
            ("say(RING, number, 0, [9] * 7); head()", "7 words of a call HELLO, and not 6"),
        ]:
            with self.subTest(answer):
                if "1002" in answer:
                    one = Worker([sys.executable, self.file("wrong.py", WRONG + answer)])
                    with within(20), self.assertRaises(ring.WorkerFault) as raised:
                        ring.Ring(one).version()
                    self.assertIn(told, str(raised.exception))
                    one.close()
                else:
                    self.fault(answer, told)

    def test_a_worker_that_is_not_there(self):
        with self.assertRaises(ring.WorkerFault):
            ring.Ring(Worker([self.path("none")])).version()

    def test_after_a_fault_a_new_worker_answers(self):
        one = Worker([sys.executable, self.file("wrong.py", WRONG + "sys.exit(5)")])
        with self.assertRaises(ring.WorkerFault):
            one.call(Call.HELLO, (), 6)
        one.words = READING
        self.assertEqual(len(one.call(Call.HELLO, (), 6)), 6)
        one.close()

    def test_an_interrupt_ends_the_worker(self):
        one = Worker([sys.executable, self.file("slow.py", "import time\ntime.sleep(60)\n")])
        one.start()
        process = one.process
        with self.assertRaises(AssertionError), within(1):
            one.call(Call.HELLO, (), 6)
        self.assertIsNone(one.process)
        self.assertIsNotNone(process.poll())


if __name__ == "__main__":
    unittest.main()
