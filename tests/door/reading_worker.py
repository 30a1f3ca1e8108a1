#!/usr/bin/env python3
"""The worker's frames answered by the plain reading of the rules (tests/reading.py), in the place of the proved calls: nothing is built. The nodes opened are said
as 0. Run as a program it is a worker; RING_WORKER names it to the package.

A contractor's list is the undivided one, of which the other's chambers are left out: every record still blocks.
"""
import os
import re
import struct
import sys

HERE = os.path.dirname(os.path.abspath(__file__))
TOP = os.path.dirname(os.path.dirname(HERE))
sys.dont_write_bytecode = True
sys.path[:0] = [os.path.join(TOP, "tests"), os.path.join(TOP, "python")]

import reading
from ring import refusals
from ring.worker import HEAD, LETTERS, MOST, Call, frame, long_at, signed

NO_CALL, NO_SHAPE, NO_HANDLE, NO_MEMORY, NO_FRAME = range(1001, 1006)
HANDLES = 4096
PAIR, SOURCE, FORM = 4, 6, 9
PAGED = SOURCE + 4 + 16 * PAIR
UNDIVIDED = 2
with open(refusals.HEADER, encoding="utf-8") as header:
    VERSION = [int(number) for number in re.findall(r"^#define RING_VERSION_\w+ (\d+)$", header.read(), re.M)]
SHEET, BOOK, DEPOT = "sheet", "book", "depot"
# handles and of what kind, words, whether more may follow
SHAPES = {
    Call.HELLO: (0, None, 0, False), Call.SHEET: (0, None, 0, True), Call.DROP: (0, None, 1, False), Call.PACK: (0, None, 4, True), Call.POINT: (1, SHEET, 1, False),
    Call.WALK: (2, SHEET, 3, False), Call.PAGE: (2, SHEET, 6, True), Call.OWN: (1, SHEET, 4, False), Call.PARTNERS: (2, SHEET, 2, False), Call.SHORTEST: (2, SHEET, 1, False),
    Call.NEAREST: (2, SHEET, 2, False), Call.MARKER: (0, None, 4, False), Call.BOOK: (0, None, SOURCE + 1, False), Call.NEXT: (1, BOOK, 0, False),
    Call.TAKE: (1, BOOK, PAGED, False), Call.SLOTS: (1, BOOK, 2, False), Call.STORED_BOOK: (0, None, SOURCE + 3, True), Call.FORMS: (1, BOOK, 0, False),
    Call.DEPOT: (0, None, 1, False), Call.GIVE: (1, DEPOT, FORM, False), Call.SHELF: (1, DEPOT, 2, False), Call.STORED_DEPOT: (0, None, 2, True), Call.HELD: (1, DEPOT, 0, False), Call.POSITION: (1, SHEET, 1, False),
    Call.RUN: (2, SHEET, 2, False), Call.MANY: (2, SHEET, 8, True), Call.OWN_MANY: (1, SHEET, 6, False), Call.COUNT: (2, SHEET, 5, True), Call.OWN_COUNT: (1, SHEET, 3, False),
    Call.BUSIEST: (2, SHEET, 5, True), Call.BUSIEST_PUMPS: (2, SHEET, 4, False), Call.URGENT: (2, SHEET, 7, True),
}


class No(Exception):
    """A call that is not served, by its status."""

    def __init__(self, status):
        self.status = status


class Thing:
    def __init__(self, kind, **parts):
        self.kind = kind
        self.__dict__.update(parts)


def long_words(number):
    return [number & 0xFFFFFFFF, number >> 32]


def pair_words(pair):
    return [pair[0], pair[1]] + long_words(pair[2])


def pair_at(words, at):
    return (words[at], words[at + 1], long_at(words, at + 2))


def source_at(words):
    """p edition, q edition, threshold, contractor, own, grid"""
    return (words[0], words[1], words[2], words[3], bool(words[4]), bool(words[5]))


def begin_number(source):
    p_edition, q_edition, t, contractor, own, _ = source
    if not (1 <= p_edition <= reading.EDITION and 1 <= q_edition <= reading.EDITION) or own and p_edition != q_edition:
        return 3
    if t > reading.THRESHOLD or own and t > 0:
        return 21
    if contractor > UNDIVIDED or own and contractor != UNDIVIDED:
        return 27
    return 0


class Reading:
    def __init__(self):
        self.things, self.lists = {}, {}

    def kept(self, **parts):
        for handle in range(1, HANDLES + 1):
            if handle not in self.things:
                self.things[handle] = Thing(**parts)
                return [handle]
        raise No(NO_MEMORY)

    def pairs(self, p, q, grid):
        """The list of two sheets, or the self join of one where q is None."""
        key = (tuple(p.words), q and tuple(q.words), grid)
        if key not in self.lists:
            self.lists[key] = reading.self_list(p.read.points, grid) if q is None else reading.ring_list(p.read.points, q.read.points, grid)
        return self.lists[key]

    def answer(self, call, words):
        """The status, and the words of the answer."""
        try:
            if call not in SHAPES:
                raise No(NO_CALL)
            handles, kind, least, more = SHAPES[call]
            if len(words) < handles + least or len(words) > handles + least and not more:
                raise No(NO_SHAPE)
            given = []
            for handle in words[:handles]:
                if handle not in self.things or self.things[handle].kind != kind:
                    raise No(NO_HANDLE)
                given.append(self.things[handle])
            return 0, getattr(self, Call(call).name.lower())(*given, list(words[handles:]))
        except No as no:
            return no.status, []

    def hello(self, words):
        return VERSION + [16, 40, 304]

    def sheet(self, words):
        words = [signed(word) for word in words]
        number = reading.open_number(words)
        if number:
            raise No(number)
        read = reading.Sheet(words)
        return self.kept(kind=SHEET, words=words, read=read) + [read.n, read.m, read.edition, read.form]

    def drop(self, words):
        if words[0] not in self.things:
            raise No(NO_HANDLE)
        del self.things[words[0]]
        return []

    def pack(self, words):
        form, n, edition, count = words[:4]
        if count > len(words) - 4:
            raise No(NO_SHAPE)
        points, order = [signed(word) for word in words[4:4 + count]], [signed(word) for word in words[4 + count:]]
        number = reading.pack_number(n, points, order, edition, reading.packed_length(n) if n <= 60_000 else 0, form)
        if number:
            raise No(number)
        return reading.pack([tuple(points[3 * i:3 * i + 3]) for i in range(n)], order, edition, form)

    def point(self, s, words):
        if words[0] >= s.read.n:
            raise No(9)
        return list(s.read.points[words[0]])

    def position(self, s, words):
        ids = [point[0] for point in s.read.points]
        if words[0] not in ids:
            raise No(20)
        return [ids.index(words[0])]

    def walk(self, p, q, words):
        j, i, grid = words[0], words[1], bool(words[2])
        if grid and 2 in (p.read.form, q.read.form):
            raise No(29)
        if j >= q.read.n or i >= p.read.n:
            raise No(9)
        answer, _ = reading.pair_walk(p.read, q.read, j, i, grid)
        return said_walk(answer) + [0, 0]

    def paged(self, source, key, size, pairs):
        following = [pair for pair in pairs if pair[:2] > key]
        shown = following[:size]
        words = [word for pair in shown for word in pair_words(pair)]
        return [0, 0] + [int(part) for part in source] + [key[0], key[1], len(shown), int(len(following) <= size)] + words + [0] * (16 * PAIR - len(words))

    def asked(self, key, size):
        self.key_right(key)
        if not 1 <= size <= 16:
            raise No(10)

    def key_right(self, key):
        if key[0] > reading.ID or key[1] > reading.ID:
            raise No(9)

    def whose(self, p, q, contractor, grid, owners):
        """A contractor and the owner bytes, and the profile, where they are right."""
        if contractor > UNDIVIDED:
            raise No(27)
        if owners if contractor == UNDIVIDED else len(owners) != q.read.n or any(owner > 1 for owner in owners):
            raise No(26)
        if grid and 2 in (p.read.form, q.read.form):
            raise No(29)

    def mine(self, p, q, contractor, grid, owners):
        """The list of a contractor, or the undivided one."""
        owner = {point[0]: mine for point, mine in zip(q.read.points, owners)}
        return [pair for pair in self.pairs(p, q, grid) if contractor == UNDIVIDED or owner[pair[0]] == contractor]

    def page(self, p, q, words):
        key, size, t, contractor, grid, owners = (words[0], words[1]), words[2], words[3], words[4], bool(words[5]), words[6:]
        self.whose(p, q, contractor, grid, owners)
        self.asked(key, size)
        if t > reading.THRESHOLD:
            raise No(21)
        return self.paged((p.read.edition, q.read.edition, t, contractor, False, grid), key, size, reading.list_of(self.mine(p, q, contractor, grid, owners), t))

    def up_to(self, largest, t):
        """A threshold and a largest size, where they are right."""
        if t > reading.THRESHOLD:
            raise No(21)
        if largest > reading.ANY_SIZE:
            raise No(40)

    def stored(self, pairs, key, slots):
        """Whether more follow, and the pairs after a key for which there are slots."""
        following = [pair for pair in pairs if pair[:2] > key]
        return [int(len(following) > slots)] + [word for pair in following[:slots] for word in pair_words(pair)]

    def many(self, p, q, words):
        key, largest, slots, t, contractor, grid, owners = (words[0], words[1]), long_at(words, 2), words[4], words[5], words[6], bool(words[7]), words[8:]
        if slots > (MOST - 1) // PAIR:
            raise No(NO_MEMORY)
        self.whose(p, q, contractor, grid, owners)
        self.key_right(key)
        self.up_to(largest, t)
        return self.stored(reading.list_up_to(self.mine(p, q, contractor, grid, owners), largest, t), key, slots)

    def own_many(self, s, words):
        key, largest, slots, grid = (words[0], words[1]), long_at(words, 2), words[4], bool(words[5])
        if slots > (MOST - 1) // PAIR:
            raise No(NO_MEMORY)
        if grid and s.read.form == 2:
            raise No(29)
        self.key_right(key)
        self.up_to(largest, 0)
        return self.stored(reading.list_up_to(self.pairs(s, None, grid), largest, 0), key, slots)

    def count(self, p, q, words):
        largest, t, contractor, grid, owners = long_at(words, 0), words[2], words[3], bool(words[4]), words[5:]
        self.whose(p, q, contractor, grid, owners)
        self.up_to(largest, t)
        return long_words(len(reading.list_up_to(self.mine(p, q, contractor, grid, owners), largest, t)))

    def own_count(self, s, words):
        largest, grid = long_at(words, 0), bool(words[2])
        if grid and s.read.form == 2:
            raise No(29)
        self.up_to(largest, 0)
        return long_words(len(reading.list_up_to(self.pairs(s, None, grid), largest, 0)))

    def told(self, found, width):
        """How many rows, and the rows; the unused ones are zeros."""
        number, rows, _ = found
        if number:
            raise No(number)
        said = [word for row in rows for word in (list(row) if width == 2 else pair_words(row[0]) + long_words(row[1]))]
        return [len(rows)] + said + [0] * (16 * width - len(said))

    def listed(self, p, q, grid):
        """The undivided list, or no list where its profile is refused."""
        return [] if grid and 2 in (p.read.form, q.read.form) else self.pairs(p, q, grid)

    def busiest(self, p, q, words):
        k, largest, contractor, grid, owners = words[0], long_at(words, 1), words[3], bool(words[4]), words[5:]
        return self.told(reading.busiest_call(p.words, q.words, k, largest, self.listed(p, q, grid), grid=grid, contractor=contractor, owners=owners), 2)

    def busiest_pumps(self, p, q, words):
        k, largest, grid = words[0], long_at(words, 1), bool(words[3])
        return self.told(reading.busiest_pumps_call(p.words, q.words, k, largest, self.listed(p, q, grid), grid=grid), 2)

    def urgent(self, p, q, words):
        k, largest, contractor, grid, bytes_, scores, rest = words[0], long_at(words, 1), words[3], bool(words[4]), words[5], words[6], words[7:]
        if bytes_ + scores > len(rest):
            raise No(NO_SHAPE)
        owners, of_p, of_q = rest[:bytes_], rest[bytes_:bytes_ + scores], rest[bytes_ + scores:]
        return self.told(reading.urgent_call(p.words, q.words, of_p, of_q, k, largest, self.listed(p, q, grid), grid=grid, contractor=contractor, owners=owners), 6)

    def own(self, s, words):
        key, size, grid = (words[0], words[1]), words[2], bool(words[3])
        if grid and s.read.form == 2:
            raise No(29)
        self.asked(key, size)
        return self.paged((s.read.edition, s.read.edition, 0, UNDIVIDED, True, grid), key, size, self.pairs(s, None, grid))

    def partners(self, p, q, words):
        id, t = words
        if id not in [point[0] for point in q.read.points]:
            raise No(20)
        if not 1 <= t <= reading.THRESHOLD:
            raise No(21)
        count = min(t, len([pair for pair in self.pairs(p, q, False) if pair[0] == id]))
        return [count, int(count == t)]

    def shortest(self, p, q, words):
        if not 1 <= words[0] <= 16:
            raise No(10)
        found = sorted(self.pairs(p, q, False), key=lambda pair: (pair[2], pair[0], pair[1]))[:words[0]]
        said = [word for pair in found for word in pair_words(pair)]
        return [len(found)] + said + [0] * (16 * PAIR - len(said))

    def nearest(self, p, q, words):
        id, size = words
        place = next((point[1:] for point in q.read.points if point[0] == id), None)
        if place is None:
            raise No(20)
        if not 1 <= size <= 16:
            raise No(10)
        found = sorted(((place[0] - x) ** 2 + (place[1] - y) ** 2, name) for name, x, y in p.read.points)[:size]
        said = [word for far, name in found for word in [name] + long_words(far)]
        return [len(found)] + said + [0] * (16 * 3 - len(said))

    def marker(self, words):
        ax, ay, bx, by = map(signed, words)
        if max(map(abs, (ax, ay, bx, by))) > reading.WIDE_COORDINATE:
            raise No(5)
        return list(struct.unpack("<4I", struct.pack("<2d", (ax + bx) / 2, (ay + by) / 2)))

    def book(self, words):
        number = begin_number(source_at(words))
        if number:
            raise No(number)
        return self.kept(kind=BOOK, source=source_at(words), room=words[SOURCE], pairs=[], closed=False)

    def stored_book(self, words):
        room, held = words[SOURCE:SOURCE + 2]
        if len(words) != SOURCE + 3 + PAIR * held:
            raise No(NO_SHAPE)
        if held > room:
            raise No(11)
        handle = self.book(words)
        book = self.things[handle[0]]
        book.pairs, book.closed = [pair_at(words, SOURCE + 3 + PAIR * k) for k in range(held)], bool(words[SOURCE + 2])
        return handle

    def key(self, b):
        return b.pairs[-1][:2] if b.pairs else (0, 0)

    def next(self, b, words):
        return list(self.key(b)) + [len(b.pairs), int(b.closed)]

    def take(self, b, words):
        source, key, count, end = source_at(words), tuple(words[6:8]), words[8], bool(words[9])
        pairs = [pair_at(words, 10 + PAIR * k) for k in range(min(count, 16))]
        wrong = [(12, b.closed), (22, source[4] != b.source[4]), (28, source[3] != b.source[3]), (30, source[5] != b.source[5]), (13, source[:2] != b.source[:2]),
                 (31, source[2] != b.source[2]), (14, key != self.key(b))]
        last, bad = key, count > 16 or count == 0 and not end
        for pair in pairs:
            most = reading.STREETS if source[5] else reading.DIAMETER
            bad = bad or not (1 <= pair[0] <= reading.ID and 1 <= pair[1] <= reading.ID) or pair[:2] <= last or pair[2] > most
            last = pair[:2]
        wrong += [(15, bad), (16, count > b.room - len(b.pairs))]
        for number, holds in wrong:
            if holds:
                raise No(number)
        b.pairs += pairs
        b.closed = b.closed or end
        return [len(b.pairs), int(b.closed)]

    def slots(self, b, words):
        if sum(words) > len(b.pairs):
            raise No(NO_SHAPE)
        return [word for pair in b.pairs[words[0]:sum(words)] for word in pair_words(pair)]

    def forms(self, b, words):
        p_edition, q_edition, _, contractor, own, grid = b.source
        return [word for q, p, size in b.pairs for word in [p_edition, q_edition, int(own), contractor, int(grid), q, p] + long_words(size)]

    def depot(self, words):
        return self.kept(kind=DEPOT, room=words[0], forms=[])

    def stored_depot(self, words):
        room, held = words[:2]
        if len(words) != 2 + FORM * held:
            raise No(NO_SHAPE)
        if held > room:
            raise No(11)
        handle = self.depot(words)
        self.things[handle[0]].forms = [self.form(words[2 + FORM * k:2 + FORM * k + FORM]) for k in range(held)]
        return handle

    def form(self, words):
        return [words[0], words[1], int(bool(words[2])), words[3], int(bool(words[4]))] + words[5:]

    def give(self, d, words):
        form = self.form(words)
        if not (1 <= form[0] <= reading.EDITION and 1 <= form[1] <= reading.EDITION and form[3] <= UNDIVIDED and 1 <= form[5] <= reading.ID and 1 <= form[6] <= reading.ID):
            raise No(15)
        known = form[:7] in [other[:7] for other in d.forms]
        if not known and len(d.forms) == d.room:
            raise No(16)
        d.forms += [] if known else [form]
        return [int(not known), len(d.forms)]

    def shelf(self, d, words):
        if sum(words) > len(d.forms):
            raise No(NO_SHAPE)
        return [word for form in d.forms[words[0]:sum(words)] for word in form]

    def held(self, d, words):
        return [len(d.forms)]

    def run(self, p, q, words):
        leaf, slots = words
        if slots > (MOST - 2) // PAIR:
            raise No(NO_MEMORY)
        if leaf >= q.read.m or q.read.nodes[leaf][0] != 0:
            raise No(19)
        found = reading.leaf_list(p.read, q.read, leaf)
        if len(found) > slots:
            raise No(16)
        return [0, 0] + [word for pair in found for word in pair_words(pair)]


def said_walk(answer):
    """kind, set, side, at"""
    if answer == reading.CLEAR:
        return [0, 0, 0, 0]
    kind, which, at, *side = answer
    return [1, which, 0, at] if kind == "point" else [2, which, side[0], at]


def main():
    worker, source, out = Reading(), sys.stdin.buffer, sys.stdout.buffer
    while True:
        head = source.read(HEAD.size)
        if not head:
            return 0
        if len(head) < HEAD.size:
            return 3
        letters, number, call, count = HEAD.unpack(head)
        if letters != LETTERS or count > MOST:
            out.write(frame(number, NO_FRAME, []))
            out.flush()
            return 3
        body = source.read(4 * count)
        if len(body) < 4 * count:
            return 3
        status, said = worker.answer(call, struct.unpack("<%dI" % count, body))
        out.write(frame(number, status, said))
        out.flush()


if __name__ == "__main__":
    sys.exit(main())
