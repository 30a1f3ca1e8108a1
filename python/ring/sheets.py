"""Sheets as bytes and points: what can be said of one without a call, and the order in which points are packed."""
import math
import struct
from fractions import Fraction

from .faults import BadFile, NoSuchId
from .records import Point

# of each form: the most points, and the greatest coordinate
FORMS = {1: (1000, 1_000_000), 2: (60_000, 1_000_000_000)}
(POINTS, COORDINATE), ID, EDITION, NODE = FORMS[2], 2_000_000_000, 1_000_000_000, 16
# the most bytes of a sheet: 60,000 points and 24,000 nodes
BYTES = 4 * (5 * POINTS + 7 * 24_000 + 6)


# a sheet of so many points and more whose records are scattered so far is packed anew before a whole list is made of it: bench/tidy measures what either costs
LEAST, SCATTERED = 500, 2.0
# how many bits of each coordinate the order goes by, and how many of them at a step
DEEP, STEP = 16, 4


def _steps():
    """A Hilbert curve by its steps: for a state and so many bits of x and y, the bits of the place on the curve, and the state after them. A state says whether
    both coordinates are turned over, and whether they are exchanged."""
    table = {}
    for state in range(4):
        for x in range(1 << STEP):
            for y in range(1 << STEP):
                turned, exchanged, at = state & 1, state >> 1, 0
                for bit in reversed(range(STEP)):
                    over, up = (x >> bit & 1) ^ turned, (y >> bit & 1) ^ turned
                    if exchanged:
                        over, up = up, over
                    at = at << 2 | (3 * over) ^ up
                    if not up:
                        turned, exchanged = turned ^ over, exchanged ^ 1
                table[state << 2 * STEP | x << STEP | y] = at, (exchanged << 1 | turned) << 2 * STEP
    return [table[k] for k in range(len(table))]


def along_curve(rows):
    """The positions along a Hilbert curve over the rows' square: near points come to stand beside each other, whatever the spread."""
    if not rows:
        return []
    steps, mask = _steps(), (1 << STEP) - 1
    left, low = min(row[1] for row in rows), min(row[2] for row in rows)
    span = max(max(row[1] for row in rows) - left, max(row[2] for row in rows) - low)
    cut = max(0, span.bit_length() - DEEP)
    places = []
    for row in rows:
        x, y, state, place = row[1] - left >> cut, row[2] - low >> cut, 0, 0
        for bit in range(DEEP - STEP, -1, -STEP):
            at, state = steps[state | (x >> bit & mask) << STEP | y >> bit & mask]
            place = place << 2 * STEP | at
        places.append(place)
    return sorted(range(len(rows)), key=places.__getitem__)


def scattered(sheet):
    """How far apart the records of a leaf stand: the half perimeters of all leaves, as a part of what they are where points stand anywhere and the order is good.
    Near 1 or below in a good order; in an order by chance it grows as the root of the number of leaves."""
    boxes = [sheet.box(node) for node in range(sheet.m) if sheet.words[5 * sheet.n + 7 * node] == 0]
    if not boxes:
        return 0
    wide, high = (max(box[k + 2] for box in boxes) - min(box[k] for box in boxes) for k in (0, 1))
    good = 2 * math.sqrt(wide * high * len(boxes)) + wide + high
    return sum(box[2] - box[0] + box[3] - box[1] for box in boxes) / good if good else 0


def form_of(rows):
    """The first form that has room for the rows; the second where none has, so that the call refuses it."""
    far = max((abs(v) for row in rows for v in row[1:]), default=0)
    return min((form for form, (most, limit) in FORMS.items() if len(rows) <= most and far <= limit), default=2)


def words_of(data, name):
    """The words of a file's bytes."""
    if len(data) % 4:
        raise BadFile("%s is no sheet: %d bytes, not a number of 4-byte words" % (name, len(data)))
    if len(data) > BYTES:
        raise BadFile("%s is no sheet: %s bytes, where one has at most %s" % (name, format(len(data), ","), format(BYTES, ",")))
    return struct.unpack("<%di" % (len(data) // 4), data)


class Sheet:
    """A sheet that the worker holds. Its words are those of its file."""

    def __init__(self, ring, handle, words, n, m, edition, form, name):
        self._ring, self.handle, self.words, self.name = ring, handle, words, name
        self.n, self.m, self.edition, self.form = n, m, edition, form
        self._points = self._by_id = None

    def __len__(self):
        return self.n

    @property
    def data(self):
        """The bytes of its file."""
        return struct.pack("<%di" % len(self.words), *self.words)

    @property
    def points(self):
        """Its points, by id."""
        if self._points is None:
            self._points = [Point(*self.words[3 * i:3 * i + 3]) for i in range(self.n)]
        return self._points

    def position(self, id):
        """The position of the record with an id."""
        return self._ring._position(self, id)

    def point(self, id):
        """The record with an id."""
        if self._by_id is None:
            self._by_id = {point.id: point for point in self.points}
        if id not in self._by_id:
            raise NoSuchId(id, self.name)
        return self._by_id[id]

    def box(self, node):
        """The box of a node: xmin, ymin, xmax, ymax."""
        at = 5 * self.n + 7 * node
        return self.words[at + 3:at + 7]

    def close(self):
        """The worker forgets it."""
        self.handle.close()


def arranged(q, mine):
    """The chambers as a contractor may be shown them: its own, by id, then the others, by place and without an id; and how many are its own. All of them, by id,
    where nothing is said of whose they are."""
    if mine is None:
        return list(q.points), len(q.points)
    own = [one for one in q.points if one.id in mine]
    return own + sorted(one._replace(id=0) for one in q.points if one.id not in mine), len(own)


class Units:
    """How a utility's decimals stand in a sheet: whole numbers, (value - offset) * scale. Exact: what is no whole number is a fault, unless rounding is asked for."""

    def __init__(self, scale=1, offset=(0, 0), rounded=False):
        self.scale, self.offset, self.rounded = Fraction(scale), (Fraction(offset[0]), Fraction(offset[1])), rounded

    def stored(self, value, axis):
        """The whole number of a value, or None where there is none."""
        exact = (Fraction(value) - self.offset[axis]) * self.scale
        if exact.denominator != 1:
            return math.floor(exact + Fraction(1, 2)) if self.rounded else None
        return exact.numerator

    def given(self, number, axis):
        """The value of a stored number, as a number to print."""
        exact = Fraction(number) / self.scale + self.offset[axis]
        return exact.numerator if exact.denominator == 1 else float(exact)
