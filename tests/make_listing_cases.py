#!/usr/bin/env python3
"""The cases of crates/listing_cases: inputs of the listing program, and what it must print.

    make_listing_cases.py        writes crates/listing_cases/data and stdout, crates/listing/stdin and stdout, examples/p.sheet and examples/q.sheet

Each case is one file of data/, c00, c01 and so on; stdout has each file's name and then what is printed of it. The two sheets of the rules' listing
example are the first case, the input of crates/listing and the files of examples/.
"""
import os
import struct

import reading
import trees
from chance import Chance
from stored import TOP, Cases

LEAST, MOST = 24, 62448


def packed(words):
    return b"".join(struct.pack("<i", word) for word in words)


# ---------------------------------------------------------------- what the program must print

def ring_pairs(p_points, q_points):
    """The positions (j, i) of the ring pairs, by q id, then p id. The records near q are asked first: they block most pairs, and any order will do."""
    pairs = []
    places = [point[1:] for point in p_points + q_points]
    for j, q in enumerate(q_points):
        near = sorted(places, key=lambda place: (place[0] - q[1]) ** 2 + (place[1] - q[2]) ** 2)
        for i, p in enumerate(p_points):
            if not any(reading.blocks(q[1:], p[1:], place) for place in near):
                pairs.append((j, i))
    return pairs


# "prints q id, p id, twice the centre's x, twice its y, squared diameter; last `end` and the number of pairs"
def lines_of(p_words, q_words):
    p, q = reading.Sheet(p_words).points, reading.Sheet(q_words).points
    lines = []
    for j, i in ring_pairs(p, q):
        (q_id, qx, qy), (p_id, px, py) = q[j], p[i]
        lines.append("%d %d %d %d %d" % (q_id, p_id, qx + px, qy + py, (qx - px) ** 2 + (qy - py) ** 2))
    return lines + ["end %d" % len(lines)]


# "2 for a form other than 1 or 2 [..] and from the listing program for form 2"
def number_of(words):
    """The number of `open`, of form 1 alone."""
    if len(words) >= 6 and words[-1] == 2:
        return 2
    return reading.open_number(words)


# "The program splits at Q's span, found from the last six words; if span+6 is negative, under 6 or over the whole, Q is everything. It opens Q first. It
# prints `refused q N` or `refused p N` alone, or `refused input` for under 24 bytes, over 62,448, or not a multiple of 4."
def listing(given):
    if len(given) < LEAST or len(given) > MOST or len(given) % 4 != 0:
        return ["refused input"]
    words = list(struct.unpack("<%di" % (len(given) // 4), given))
    length = words[-6] + 6
    if length < 6 or length > len(words):
        length = len(words)
    p_words, q_words = words[:len(words) - length], words[len(words) - length:]
    number = number_of(q_words)
    if number:
        return ["refused q %d" % number]
    number = number_of(p_words)
    if number:
        return ["refused p %d" % number]
    return lines_of(p_words, q_words)


# ---------------------------------------------------------------- the cases

P = [1, 0, 0, 2, 10, 0, 0, 1, 0, 1, 0, 0, 2, 0, 0, 10, 0, 17, 7, 2, 1, 7, 1]
Q = [5, 4, 0, 6, 16, 1, 0, 1, 0, 1, 0, 0, 2, 4, 0, 16, 1, 17, 7, 2, 1, 9, 1]
EMPTY = [0, 0, 0, 0, 9, 1]


def changed(words, at, word):
    words = list(words)
    words[at] = word
    return words


def numbered(rng, places):
    return [(number,) + place for number, place in zip(trees.ids(rng, len(places)), places)]


def sheet(points, rng=None, edition=1):
    order = trees.shuffled(rng, len(points)) if rng else list(range(len(points)))
    return reading.pack(points, order, edition)


def largest(rng):
    """1,000 points in 400 nodes: 373 leaves, then 24 nodes, 2, and the root."""
    points = numbered(rng, [(rng.randint(-reading.COORDINATE, reading.COORDINATE), rng.randint(-reading.COORDINATE, reading.COORDINATE)) for _ in range(1000)])
    shape = trees.runs([trees.parts(rng, 1000, 373), trees.parts(rng, 373, 24), trees.parts(rng, 24, 2), [2]])
    return trees.sheet(points, trees.near(rng, points), shape, rng.randint(1, reading.EDITION))


def in_turn(count):
    """Places on a line, chambers and pump houses in turn: each neighbours are a ring pair, so there are `count` pairs."""
    places = [(3 * k - 40, 2 * k) for k in range(count + 1)]
    chambers = [(k + 1,) + place for k, place in enumerate(places[0::2])]
    pumps = [(k + 1,) + place for k, place in enumerate(places[1::2])]
    return sheet(pumps) + sheet(chambers)


def broken(number):
    """The example's P, refused by the number 2 to 8: by 2 it is a right sheet of form 2."""
    at, word = {2: (-1, 2), 3: (-2, 0), 4: (-5, 0), 5: (1, 1000001), 6: (6, 2), 7: (12, 1), 8: (15, 11)}[number]
    return changed(P, at, word)


def small(rng, n, reach):
    places = [(rng.randint(-reach, reach), rng.randint(-reach, reach)) for _ in range(n)]
    return sheet(numbered(rng, places), rng, rng.randint(1, reading.EDITION))


def inputs():
    """The label and the bytes of each case."""
    rng = Chance("listing")
    out = [("the document's example", packed(P + Q)), ("P and Q exchanged", packed(Q + P))]
    out += [("%d bytes" % n, packed(P + Q)[:n]) for n in (0, 20, 23, 25)]
    out += [("24 bytes, an empty sheet", packed(EMPTY)), ("24 bytes, no sheet", packed([0] * 6))]
    full = packed(largest(rng) + largest(rng))
    assert len(full) == MOST
    out += [("62,446 bytes", full[:-2]), ("62,448 bytes", full), ("62,452 bytes", packed(EMPTY[:1]) + full)]
    out += [("Q everything", packed(Q))]
    for span in (-7, -6, -1, 2147483647, -2147483648, 40, 41, 0, 1, 12):
        out.append(("span %d" % span, packed(P + changed(Q, -6, span))))
    out += [("both sheets broken", packed(broken(5) + changed(Q, 15, 15))), ("both sheets broken, P by the lower number", packed(broken(2) + changed(Q, 6, 1)))]
    out += [("P refused by %d" % number, packed(broken(number) + Q)) for number in range(2, 9)]
    out += [("Q refused by %d" % number, packed(P + broken(number))) for number in range(2, 9)]
    out += [("P of five words", packed(P[:5] + Q)), ("words before P", packed([0] + P + Q)), ("P twice", packed(P + P))]
    out += [("both empty", packed(EMPTY + EMPTY)), ("P empty", packed(EMPTY + Q)), ("Q empty", packed(P + EMPTY))]
    out += [("%d pairs" % count, packed(in_turn(count))) for count in (1, 15, 16, 17, 32, 33)]
    far = reading.COORDINATE
    out.append(("the longest line", packed(sheet([(reading.ID, far, far)]) + sheet([(reading.ID, -far, -far)]))))
    out.append(("the least sums", packed(sheet([(1, -far, -far)]) + sheet([(1, -far, 1 - far)]))))
    out.append(("sums of zero and one below", packed(sheet([(7, 5, -5)]) + sheet([(7, -5, 4)]))))
    out.append(("all on one spot", packed(sheet([(1, 3, 3), (2, 3, 3)]) + sheet([(1, 3, 3)]))))
    out += [("%d and %d points within %d" % (n, m, reach), packed(small(rng, n, reach) + small(rng, m, reach))) for n, m, reach in ((1, 1, 0), (9, 12, 3), (20, 20, 9), (60, 60, 20), (60, 33, 1000), (17, 60, far))]
    wide = reading.pack([(7, -reading.WIDE_COORDINATE, 5), (8, reading.WIDE_COORDINATE, 6)], [1, 0], 3, 2)
    assert all(reading.open_number(words) == 0 for words in (wide, broken(2)))
    out += [("form 2 in both", packed(broken(2) + broken(2))), ("form 2 in P, past form 1's coordinates", packed(wide + Q)), ("form 2 in Q, past form 1's coordinates", packed(P + wide))]
    out += [("form 2 in P, and an order that is none", packed(changed(broken(2), 6, 2) + Q)), ("form 3 in P", packed(changed(P, -1, 3) + Q)), ("form 3 in Q", packed(P + changed(Q, -1, 3)))]
    return out


# ---------------------------------------------------------------- how they are stored

class Listings(Cases):
    def __init__(self):
        super().__init__("listing_cases")
        self.files = []
        for k, (label, given) in enumerate(inputs()):
            name, lines = "c%02d" % k, listing(given)
            self.files.append((self.path(os.path.join("data", name)), given))
            self.lines += [name] + lines
            self.labels += [label] * (1 + len(lines))
        example = os.path.join(TOP, "crates", "listing")
        self.files += [(os.path.join(example, "stdin"), packed(P + Q)), (os.path.join(example, "stdout"), "".join(line + "\n" for line in listing(packed(P + Q))).encode())]
        self.files += [(os.path.join(TOP, "examples", "p.sheet"), packed(P)), (os.path.join(TOP, "examples", "q.sheet"), packed(Q))]

    def input(self):
        """The files one after the other, each after its length."""
        return b"".join(packed([len(given)]) + given for _, given in self.files)

    def read(self):
        data = self.path("data")
        paths = [os.path.join(data, name) for name in sorted(os.listdir(data))] + [path for path, _ in self.files if not path.startswith(data)]
        stored = b""
        for path in paths:
            with open(path, "rb") as file:
                given = file.read()
            stored += packed([len(given)]) + given
        with open(self.path("stdout"), "rb") as file:
            return [stored, file.read()]

    def store(self):
        os.makedirs(self.path("data"), exist_ok=True)
        for path, given in self.files:
            with open(path, "wb") as file:
                file.write(given)
        with open(self.path("stdout"), "wb") as file:
            file.write(self.output())
        print("%s: %d files, %d lines" % (self.name, len(self.files), len(self.lines)))


def cases():
    return Listings()


if __name__ == "__main__":
    cases().store()
