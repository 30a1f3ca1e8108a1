"""The part `shortest` of the tape: pairs of sheets with requests for their shortest circles: number of refusal, number of pairs, pairs.

A case, in words: its kind, the lengths of P's and Q's sheet, the number of requests, P's words, Q's words, and for each request the number of words lent and k.
A negative word stands for the largest number that a call can be given. A line has k, the number of refusal, the number of pairs, sixteen pairs with their
sizes, and what the words hold that were marked before.
"""
import reading
import towns
import trees
from chance import Chance
from stored import SHORTEST, WORDS, Asked, by_turns, lent_told, marks, needed

LARGEST = 2 ** 64 - 1
ALL = list(range(1, 17))
OUTSIDE = [0, 17, 18, 2 ** 31 - 1, -1]


def shortest_line(rules, p, q, k, lent):
    number, pairs, after = rules.shortest_call(p, q, k, marks(lent))
    shown = pairs + [rules.UNUSED] * (16 - len(pairs))
    fields = [number, len(pairs)] + [word for pair in shown for word in pair]
    return "shortest %d: %s%s" % (k, " ".join(map(str, fields)), lent_told(lent, after))


class Shortest(Asked):
    name = "shortest"
    kind = SHORTEST

    def add(self, label, p, q, requests, listed=None, lent=None):
        lent = lent or by_turns(p, len(requests))
        lines = self.put(label, p, q, list(zip(lent, requests)), [(shortest_line, p, q, LARGEST if k < 0 else k, n) for n, k in zip(lent, requests)])
        for k, line in zip(requests, lines):
            number, count = map(int, line.split(": ")[1].split()[:2])
            self.seen[number] += 1
            if number == 0 and listed is not None:
                order = reading.shortest_of(listed, len(listed))
                self.seen["shorter list"] += 0 < len(listed) < k
                self.seen["exactly k"] += len(listed) == k
                self.seen["none"] += not listed
                self.seen["many pages"] += len(listed) > 32
                if count < len(listed):
                    self.seen["tie at the end"] += order[count - 1][2] == order[count][2]
                    self.seen["tie of one chamber at the end"] += order[count - 1][::2] == order[count][::2]
                    self.seen["other by p id"] += sorted(listed, key=lambda v: (v[2], v[1], v[0]))[:count] != order[:count]
                    self.seen["found late"] += any(pair not in listed[:16] for pair in order[:count])


def listing(p, q):
    return reading.ring_list(reading.Sheet(p).points, reading.Sheet(q).points)


def documents_listing(out):
    p = [1, 0, 0, 2, 10, 0, 0, 1, 0, 1, 0, 0, 2, 0, 0, 10, 0, 17, 7, 2, 1, 7, 1]
    q = [5, 4, 0, 6, 16, 1, 0, 1, 0, 1, 0, 0, 2, 4, 0, 16, 1, 17, 7, 2, 1, 9, 1]
    assert reading.shortest_call(p, q, 2)[:2] == (0, [(5, 1, 16), (5, 2, 36)])
    out.add("the listing", p, q, ALL + OUTSIDE, listing(p, q))


def farthest(out):
    """Two places as far apart as a sheet has them, and on one spot: the sizes at both ends of their range, in both forms."""
    for form, far in ((1, reading.COORDINATE), (2, reading.WIDE_COORDINATE)):
        most = 8 * far * far
        for one, other, size in (((-far, -far), (far, far), most), ((far, -far), (-far, far), most), ((far, far), (far, far), 0)):
            p, q = reading.pack([(8,) + one], [0], 3, form), reading.pack([(9,) + other], [0], 4, form)
            assert reading.shortest_call(p, q, 16)[:2] == (0, [(9, 8, size)])
            out.add("one pair, size %d" % size, p, q, [1, 2, 16], listing(p, q))


def small_pairs(out, rng):
    for k in range(70):
        places = towns.PLACES[k % len(towns.PLACES)]
        _, p = towns.sheet(rng, places, rng.randint(1, 12))
        _, q = (None, p) if k % 9 == 0 else towns.sheet(rng, places, rng.randint(1, 12))
        listed = listing(p, q)
        exact = [len(listed)] if 1 <= len(listed) <= 16 else []
        out.add("%s, %s" % (places.__name__, "one sheet as both" if p is q else "two sheets"), p, q, exact + rng.sample(ALL, 3), listed)


def more_pairs(out, rng):
    """Lists of many pages: 20 to 60 points each."""
    for k in range(14):
        places = [towns.town, towns.land, towns.circle, towns.grid, towns.spots][k % 5]
        _, p = towns.sheet(rng, places, rng.randint(20, 60))
        _, q = towns.sheet(rng, places, rng.randint(20, 60))
        out.add("%s, more points" % places.__name__, p, q, [1, 16] + rng.sample(ALL[1:-1], 2), listing(p, q))


def lattice(rng, n, step):
    """Points `step` apart on a lattice, ids by chance: nearly all sizes are the same."""
    side = 1
    while side * side < n:
        side += 1
    spots = rng.sample([(step * x, step * y) for x in range(side) for y in range(side)], n)
    return [(number,) + place for number, place in zip(trees.ids(rng, n), spots)]


def one_size(out, rng):
    """Chambers and pump houses on two lattices, each chamber in the middle of four pump houses: many pairs of one size, so that ids decide."""
    for n in (4, 9, 16, 25, 36):
        houses = lattice(rng, n, 2)
        chambers = [(number, x + 1, y + 1) for number, x, y in lattice(rng, n, 2)]
        p = trees.sheet(houses, trees.near(rng, houses), towns.tree(rng, n)[1], 21)
        q = trees.sheet(chambers, trees.shuffled(rng, n), towns.tree(rng, n)[1], 22)
        out.add("one size, %d points" % n, p, q, ALL, listing(p, q))


def large_pairs(out, rng):
    """150 points each, the short pairs anywhere in the list."""
    for places in (towns.land, towns.town):
        points = [[(n,) + place for n, place in zip(trees.ids(rng, 150, reading.ID), places(rng, 150))] for _ in range(2)]
        p, q = [trees.sheet(these, trees.near(rng, these), reading.runs_of_sixteen(150), 30 + k) for k, these in enumerate(points)]
        out.add("150 points", p, q, [1, 7, 16], listing(p, q))


def of_forms(out, rng):
    """Sheets of form 2 to the ends of its range, with each other and with those of form 1; and one that needs more than sixteen words."""
    for label, p, q in towns.of_forms(rng, 30, 12):
        out.add(label, p, q, [1, 16] + rng.sample(ALL[1:-1], 2), listing(p, q))
    p, q = towns.many(rng), towns.sheet(rng, towns.province, 6, form=2)[1]
    out.add("1,300 points of form 2", p, q, [1, 16, 16, 16], listing(p, q), [21, 22, WORDS, 20])


def words_lent(out, rng):
    """One word too few, no word, exactly enough and more: 24 comes after 10."""
    for p, q in towns.few_words(rng):
        need = needed(p)
        several = [(n, k) for n in (need - 1, 0, need, need + 1, WORDS) for k in (1, 16, 0, 17, -1)]
        out.add("words lent", p, q, [k for _, k in several], listing(p, q), [n for n, _ in several])
    for number in range(1, 9):
        _, right = towns.sheet(rng, towns.grid, rng.randint(1, 5))
        wrong = towns.faulty(rng, number)
        for p, q in ((wrong, right), (right, wrong)):
            out.add("bad sheet, no word lent", p, q, [1, 17], None, [0, 0])
    empty = reading.pack([], [], 3, rng.randint(1, 2))
    _, some = towns.sheet(rng, towns.grid, 4)
    out.add("no point in P, no word lent", empty, some, [1, 16, 16], [], [0, 0, 2])
    out.add("no point in Q, words lent", some, empty, [1, 16, 16], [], [0, 1, 2])


def refused(out, rng):
    """P's sheet, then Q's, then k: two faults together get the earlier number. Empty sheets."""
    for p, q, number in towns.both_faulty(rng):
        assert reading.shortest_call(p, q, 0)[0] == number
        out.add("bad P and bad Q", p, q, [1])
    for number in range(1, 9):
        _, right = towns.sheet(rng, towns.grid, rng.randint(1, 5))
        wrong = towns.faulty(rng, number)
        for p, q in ((wrong, right), (right, wrong)):
            assert reading.shortest_call(p, q, 0)[0] == number
            out.add("bad sheet and bad k", p, q, [1, 16, 0, 17, -1])
    for _ in range(4):
        _, p = towns.sheet(rng, towns.grid, rng.randint(1, 5))
        _, q = towns.sheet(rng, towns.grid, rng.randint(1, 5))
        assert reading.shortest_call(p, q, 17)[0] == 10
        out.add("bad k", p, q, OUTSIDE + [1, 16])
    empty = reading.pack([], [], 3)
    _, some = towns.sheet(rng, towns.grid, 4)
    for p, q in ((empty, some), (some, empty), (empty, empty)):
        out.add("an empty sheet", p, q, [1, 2, 16, 0, 17], [])
    out.add("no word at all", [], [], [1, 0])


def cases():
    rng = Chance("shortest")
    out = Shortest()
    documents_listing(out)
    farthest(out)
    small_pairs(out, rng)
    more_pairs(out, rng)
    one_size(out, rng)
    large_pairs(out, rng)
    refused(out, rng)
    of_forms(out, Chance("shortest of both forms"))
    words_lent(out, Chance("words for the shortest"))
    assert out.pairs >= 100
    assert all(out.seen[number] >= 8 for number in (0, 1, 2, 3, 4, 5, 6, 7, 8, 10, 24)), out.seen
    assert all(out.seen[what] >= 8 for what in ("shorter list", "exactly k", "none", "many pages", "tie at the end", "tie of one chamber at the end", "other by p id", "found late")), out.seen
    return out.cases
