"""The calls, on one worker program."""
import struct

from . import sheets, stored
from .faults import NoSuchId, Refused, WorkerFault
from .records import Form, Key, Many, Marker, Near, Page, Paged, Pair, Partners, Rank, Source, Visit, Why
from .worker import Call, Handle, Worker, long_at, signed

UNDIVIDED = 2
START = Key(0, 0)
SETS = ("P", "Q")
SIDES = ("left", "bottom", "right", "top")
KINDS = ("clear", "point", "side")
PAIR, SOURCE, FORM, RANK, VISIT, SLOTS = 4, 6, 9, 2, 6, 16
# the slots that a leaf run is lent at first
LEAF = 1 << 10
# the slots that many pairs are lent at first, each time so many times as many, and at most
FEW, TIMES, MOST = 1 << 8, 4, 1 << 14
# no pair has a greater size
ANY_SIZE = 8_000_000_000_000_000_000
# how many pairs or forms are fetched at once
FETCHED = 1 << 16


def pairs_at(words, at, count):
    return tuple(Pair(words[k], words[k + 1], long_at(words, k + 2)) for k in range(at, at + PAIR * count, PAIR))


def form_at(words, at):
    p_edition, q_edition, own, contractor, grid, q, p = words[at:at + 7]
    return Form(p_edition, q_edition, bool(own), contractor, bool(grid), q, p, long_at(words, at + 7))


def long_words(number):
    return [number & 0xFFFFFFFF, number >> 32]


def pair_words(pair):
    return [pair[0], pair[1]] + long_words(pair[2])


def form_words(form):
    return [int(part) for part in form[:7]] + long_words(form.size)


def source_words(source):
    return [int(part) for part in source]


def page_words(page):
    empty = [Pair(0, 0, 0)] * (SLOTS - len(page.pairs))
    return source_words(page.source) + [page.key[0], page.key[1], len(page.pairs), int(page.end)] + [word for pair in list(page.pairs[:SLOTS]) + empty for word in pair_words(pair)]


def number(value, what, most=0xFFFFFFFF):
    """A number that a word can carry; what a call would refuse is left to the call."""
    if not isinstance(value, int) or isinstance(value, bool):
        raise TypeError("%s is no whole number: %r" % (what, value))
    if not 0 <= value <= most:
        raise ValueError("%s is not from 0 to %d: %d" % (what, most, value))
    return value


class Ring:
    """The calls. Use it in a `with`, or `close` it."""

    def __init__(self, worker=None):
        self._worker = worker or Worker()

    def __enter__(self):
        return self

    def __exit__(self, *_):
        self.close()

    def close(self):
        self._worker.close()

    def alive(self):
        """Whether the worker runs, with all that it keeps."""
        return self._worker.process is not None

    def version(self):
        """The version of the calls, three numbers."""
        return tuple(self._worker.call(Call.HELLO, (), 6)[:3])

    # ------------------------------------------------------------ sheets

    def pack(self, points, edition, form=None, order=None, name="the sheet"):
        """A sheet of points (id, x, y), in any order. Form 1 where the points allow it, and form 2 else."""
        rows = sorted(tuple(point) for point in points)
        form = sheets.form_of(rows) if form is None else form
        order = sheets.along_curve(rows) if order is None else list(order)
        flat = [value for row in rows for value in row]
        for value in flat:
            if not -1 << 31 <= value < 1 << 31:
                raise Refused(5, name)
        head = [number(form, "the form"), len(rows), number(edition, "the edition"), len(flat)]
        words = self._worker.call(Call.PACK, head + flat + order, what=name)
        return self._opened([signed(word) for word in words], name)

    def tidy(self, sheet):
        """The same points, edition and form, packed in a good order: the lists are the same, and sooner made."""
        made = self.pack(sheet.points, sheet.edition, sheet.form, name=sheet.name)
        if made.points != sheet.points or (made.edition, made.form) != (sheet.edition, sheet.form):
            raise WorkerFault("the sheet that was packed is another one")
        return made

    def tidied(self, sheet):
        """The sheet as it is, or tidied where that is sooner done than a whole list in its own order."""
        return self.tidy(sheet) if sheet.n >= sheets.LEAST and sheets.scattered(sheet) >= sheets.SCATTERED else sheet

    def sheet(self, data, name="the sheet"):
        """A sheet of a file's bytes; refused by 1 to 8 where they are none."""
        return self._opened(sheets.words_of(data, name), name)

    def read(self, path):
        """A sheet of a file."""
        with open(path, "rb") as f:
            return self.sheet(f.read(sheets.BYTES + 4), str(path))

    def _opened(self, words, name):
        handle, n, m, edition, form = self._worker.call(Call.SHEET, words, 5, name)
        return sheets.Sheet(self, Handle(self._worker, handle), words, n, m, edition, form, name)

    def _position(self, sheet, id):
        try:
            return self._worker.call(Call.POSITION, [number(id, "the id")], 1, of=(sheet,))[0]
        except Refused as fault:
            if fault.number != 20:
                raise
            raise NoSuchId(id, sheet.name)

    # ------------------------------------------------------------ pages and lists

    def _paged(self, call, words, of):
        said = self._worker.call(call, words, 2 + SOURCE + 4 + SLOTS * PAIR, of=of)
        p_edition, q_edition, threshold, contractor, own, grid, q, p, count, end = said[2:12]
        if count > SLOTS:
            raise WorkerFault("the worker says a page of %d pairs" % count)
        return Paged(Page(Source(p_edition, q_edition, threshold, contractor, bool(own), bool(grid)), Key(q, p), pairs_at(said, 12, count), bool(end)), long_at(said, 0))

    def page(self, p, q, key=START, size=16, **terms):
        """The first `size` pairs strictly after a key. Terms: threshold, contractor with owners, grid."""
        return self.paged(p, q, key, size, **terms).page

    def paged(self, p, q, key=START, size=16, threshold=0, contractor=UNDIVIDED, owners=(), grid=False):
        """A page, and how many nodes were opened for it. For contractor 0 or 1 `owners` has a 0 or 1 for each chamber, by position."""
        request = [number(key[0], "the key's q"), number(key[1], "the key's p"), number(size, "the size"), number(threshold, "the threshold"),
                   number(contractor, "the contractor"), int(grid)]
        return self._paged(Call.PAGE, request + [number(one, "an owner") for one in owners], (p, q))

    def own_page(self, s, key=START, size=16, grid=False):
        """A page of the self join of one sheet: q is the lower id, p the higher."""
        return self.own_paged(s, key, size, grid).page

    def own_paged(self, s, key=START, size=16, grid=False):
        """The same, and how many nodes were opened for it."""
        return self._paged(Call.OWN, [number(key[0], "the key's q"), number(key[1], "the key's p"), number(size, "the size"), int(grid)], (s,))

    def pages(self, p, q, key=START, **terms):
        """The pages of sixteen that follow a key, up to the end mark."""
        return self._followed(lambda key: self.page(p, q, key, **terms), key)

    def own_pages(self, s, key=START, **terms):
        return self._followed(lambda key: self.own_page(s, key, **terms), key)

    @staticmethod
    def _followed(page_after, key):
        while True:
            page = page_after(key)
            yield page
            if page.end:
                return
            key = Key(*page.pairs[-1][:2])

    def many(self, p, q, key=START, slots=MOST, largest=None, threshold=0, contractor=UNDIVIDED, owners=(), grid=False):
        """The first so many pairs strictly after a key, of those that are no larger than `largest`, the squared distance; and whether more follow. With a threshold
        the list is of the chambers that have at least so many pairs no larger than that."""
        request = self._after(key, largest, slots) + [number(threshold, "the threshold"), number(contractor, "the contractor"), int(grid)]
        return self._many(Call.MANY, request + [number(one, "an owner") for one in owners], (p, q))

    def own_many(self, s, key=START, slots=MOST, largest=None, grid=False):
        """The same of the self join of one sheet."""
        return self._many(Call.OWN_MANY, self._after(key, largest, slots) + [int(grid)], (s,))

    @staticmethod
    def _largest(largest):
        return long_words(ANY_SIZE if largest is None else number(largest, "the largest size", (1 << 64) - 1))

    def _after(self, key, largest, slots):
        return [number(key[0], "the key's q"), number(key[1], "the key's p")] + self._largest(largest) + [number(slots, "the slots")]

    def _many(self, call, words, of):
        said = self._worker.call(call, words, of=of)
        if len(said) % PAIR != 1:
            raise WorkerFault("the worker says %d words of many pairs" % len(said))
        return Many(pairs_at(said, 1, len(said) // PAIR), bool(said[0]))

    @staticmethod
    def _whole(many_after, key):
        """All pairs of a list that follow a key, as they come: the first few soon, then many at once. The one place where a whole list is made."""
        slots = FEW
        while True:
            found = many_after(key, slots)
            yield from found.pairs
            if not found.more:
                return
            if not found.pairs:
                raise WorkerFault("the worker says no pairs, and that more follow")
            key, slots = Key(*found.pairs[-1][:2]), min(TIMES * slots, MOST)

    def pairs(self, p, q, key=START, **terms):
        """The list: every ring pair once, by q id, then p id; or those that follow a key. Terms: largest (those of at most this squared distance), threshold,
        contractor with owners, grid."""
        return self._whole(lambda key, slots: self.many(p, q, key, slots, **terms), key)

    def own_pairs(self, s, key=START, **terms):
        """The list of the self join of one sheet. Terms: largest, grid."""
        return self._whole(lambda key, slots: self.own_many(s, key, slots, **terms), key)

    def count(self, p, q, largest=None, threshold=0, contractor=UNDIVIDED, owners=(), grid=False):
        """How many pairs the list has, and so how many slots a book of it takes."""
        request = self._largest(largest) + [number(threshold, "the threshold"), number(contractor, "the contractor"), int(grid)]
        return long_at(self._worker.call(Call.COUNT, request + [number(one, "an owner") for one in owners], 2, of=(p, q)), 0)

    def own_count(self, s, largest=None, grid=False):
        return long_at(self._worker.call(Call.OWN_COUNT, self._largest(largest) + [int(grid)], 2, of=(s,)), 0)

    def run(self, p, q, leaf):
        """The pairs of the chambers of one leaf of Q, a node by its number: by place, then p id. Over all leaves they are the list, in another order."""
        slots = LEAF
        while True:
            try:
                said = self._worker.call(Call.RUN, [number(leaf, "the leaf"), slots], of=(p, q))
            except Refused as fault:
                # more pairs than slots: a longer slice is lent
                if fault.number != 16:
                    raise
                slots *= 4
                continue
            if len(said) < 2 or (len(said) - 2) % PAIR:
                raise WorkerFault("the worker says %d words of a leaf run" % len(said))
            return list(pairs_at(said, 2, (len(said) - 2) // PAIR))

    # ------------------------------------------------------------ single questions

    def why(self, p, q, q_id, p_id, grid=False):
        """Why a chamber and a pump house, by their ids, are a pair or none."""
        said = self._worker.call(Call.WALK, [q.position(q_id), p.position(p_id), int(grid)], 6, of=(p, q))
        kind, which, side, at = KINDS[said[0]], SETS[said[1]], SIDES[said[2]], said[3]
        opened, sheet = long_at(said, 4), (p, q)[said[1]]
        if kind == "clear":
            return Why(kind, opened=opened)
        if kind == "point":
            return Why(kind, which, sheet.points[at], opened=opened)
        return Why(kind, which, node=at, side=side, box=tuple(sheet.box(at)), opened=opened)

    def nearest(self, p, q, q_id, size=16):
        """The pump houses nearest to a chamber, the nearest first."""
        said = self._worker.call(Call.NEAREST, [number(q_id, "the id"), number(size, "the size")], 1 + SLOTS * 3, of=(p, q))
        return [Near(said[1 + 3 * k], long_at(said, 2 + 3 * k)) for k in range(said[0])]

    def shortest(self, p, q, k=16):
        """The k ring pairs with the smallest circles, in order."""
        said = self._worker.call(Call.SHORTEST, [number(k, "k")], 1 + SLOTS * PAIR, of=(p, q))
        return list(pairs_at(said, 1, said[0]))

    def busiest(self, p, q, k=16, largest=None, contractor=UNDIVIDED, owners=(), grid=False):
        """The k chambers that are in the most pairs of the list, in order, those with none too; of a contractor the contractor's. With `largest` the pairs of at most
        this squared distance count."""
        return self._busy(Call.BUSIEST, self._asked(k, largest) + [number(contractor, "the contractor"), int(grid)] + [number(one, "an owner") for one in owners], (p, q))

    def busiest_pumps(self, p, q, k=16, largest=None, grid=False):
        """The k pump houses that are in the most pairs of the undivided list, in order, those with none too."""
        return self._busy(Call.BUSIEST_PUMPS, self._asked(k, largest) + [int(grid)], (p, q))

    def urgent(self, p, q, p_scores, q_scores, k=16, largest=None, contractor=UNDIVIDED, owners=(), grid=False):
        """The k pairs of the list with the highest sum of the scores of their two ends, in order. A score is 0 to 1,000,000,000; `p_scores` and `q_scores` have one
        for each record, by position."""
        owners, of_p, of_q = ([number(one, what) for one in some] for some, what in ((owners, "an owner"), (p_scores, "a score of P"), (q_scores, "a score of Q")))
        words = self._asked(k, largest) + [number(contractor, "the contractor"), int(grid), len(owners), len(of_p)] + owners + of_p + of_q
        said = self._worker.call(Call.URGENT, words, 1 + SLOTS * VISIT, of=(p, q))
        return [Visit(*pairs_at(said, at, 1), long_at(said, at + PAIR)) for at in range(1, 1 + VISIT * self._rows(said), VISIT)]

    def _asked(self, k, largest):
        return [number(k, "k")] + self._largest(largest)

    @staticmethod
    def _rows(said):
        if said[0] > SLOTS:
            raise WorkerFault("the worker says %d rows" % said[0])
        return said[0]

    def _busy(self, call, words, of):
        said = self._worker.call(call, words, 1 + SLOTS * RANK, of=of)
        return [Rank(*said[at:at + RANK]) for at in range(1, 1 + RANK * self._rows(said), RANK)]

    def partners(self, p, q, q_id, t):
        """Whether a chamber has at least t ring partners."""
        count, enough = self._worker.call(Call.PARTNERS, [number(q_id, "the id"), number(t, "t")], 2, of=(p, q))
        return Partners(count, bool(enough))

    def marker(self, a, b):
        """The middle of two places (x, y), exactly."""
        said = self._worker.call(Call.MARKER, [a[0], a[1], b[0], b[1]], 4)
        return Marker(*struct.unpack("<2d", struct.pack("<4I", *said)))

    # ------------------------------------------------------------ books and depots

    def book(self, source, room):
        """A book begun for a list, with so many slots: `count` says how many the list needs."""
        return Book(self, self._worker.call(Call.BOOK, source_words(source) + [number(room, "the room")], 1)[0], source, room)

    def read_book(self, path):
        """A book of a file that `Book.write` wrote."""
        return self._put_back(*stored.read_book(path), what=str(path))

    def _put_back(self, source, room, held, closed, what=None):
        words = source_words(source) + [number(room, "the room"), len(held), int(closed)] + [word for pair in held for word in pair_words(pair)]
        return Book(self, self._worker.call(Call.STORED_BOOK, words, 1, what)[0], source, room)

    def depot(self, room):
        """A depot that holds nothing, with so many slots."""
        return Depot(self, self._worker.call(Call.DEPOT, [number(room, "the room")], 1)[0], room)

    def read_depot(self, path, room=None):
        """A depot of a file that `Depot.write` wrote; with more room where that is given."""
        kept, held = stored.read_depot(path)
        return self._put_back_depot(kept if room is None else room, held, str(path))

    def _put_back_depot(self, room, held, what=None):
        words = [number(room, "the room"), len(held)] + [word for form in held for word in form_words(form)]
        return Depot(self, self._worker.call(Call.STORED_DEPOT, words, 1, what)[0], room)


class Kept:
    """What the worker keeps for its caller, until it is closed or nobody has it any more."""

    def __init__(self, ring, handle):
        self._ring, self.handle = ring, Handle(ring._worker, handle)

    def _call(self, call, words=(), count=None):
        return self._ring._worker.call(call, words, count, of=(self,))

    def close(self):
        self.handle.close()


class Book(Kept):
    """An order book: it holds the first so many pairs of its list, and says when these are all."""

    def __init__(self, ring, handle, source, room):
        super().__init__(ring, handle)
        self.source, self.room = source, room

    def _state(self):
        return self._call(Call.NEXT, (), 4)

    def next_key(self):
        """The key to ask for next."""
        return Key(*self._state()[:2])

    @property
    def held(self):
        return self._state()[2]

    @property
    def closed(self):
        return bool(self._state()[3])

    def take(self, page):
        """Takes a page. One that is not the next is refused and changes nothing: by 14 where it was taken already or one before it is missing."""
        self._call(Call.TAKE, page_words(page), 2)

    def pairs(self, start=0):
        """The pairs that it holds, from a place on."""
        said, held = [], self.held
        for at in range(start, held, FETCHED):
            count = min(FETCHED, held - at)
            said += pairs_at(self._call(Call.SLOTS, [at, count], PAIR * count), 0, count)
        return said

    def follow(self, page_after):
        """Asks for the next page and takes it, until the book is closed. `page_after(key)` gives the page; what it raises is the caller's to meet: the book is as
        it was, and following it again goes on from there. Yields each page that was taken."""
        while not self.closed:
            page = page_after(self.next_key())
            self.take(page)
            yield page

    def forms(self):
        """An order form for each pair that it holds."""
        said = self._call(Call.FORMS)
        if len(said) % FORM:
            raise WorkerFault("the worker says %d words of forms" % len(said))
        return [form_at(said, at) for at in range(0, len(said), FORM)]

    def with_room(self, room):
        """The same book with other room; this one is given up."""
        other = self._ring._put_back(self.source, room, self.pairs(), self.closed)
        self.close()
        return other

    def write(self, path):
        """Stores it: the file is written whole or not at all."""
        stored.write_book(path, self.source, self.room, self.pairs(), self.closed)


class Depot(Kept):
    """A depot: it holds each order once."""

    def __init__(self, ring, handle, room):
        super().__init__(ring, handle)
        self.room = room

    def take(self, form):
        """Hands in a form: True where its key is new and an order is issued, False where it is known."""
        return bool(self._call(Call.GIVE, form_words(form), 2)[0])

    def forms(self):
        """The forms that it holds, in the order in which each key was first taken."""
        said, held = [], self.held
        for at in range(0, held, FETCHED):
            count = min(FETCHED, held - at)
            words = self._call(Call.SHELF, [at, count], FORM * count)
            said += [form_at(words, FORM * k) for k in range(count)]
        return said

    @property
    def held(self):
        return self._call(Call.HELD, (), 1)[0]

    def write(self, path):
        """Stores it: the file is written whole or not at all."""
        stored.write_depot(path, self.room, self.forms())
