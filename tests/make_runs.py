"""The part `runs` of the tape: pairs of sheets with runs of leaves of Q over them: pairs, their number, nodes opened, slots and words not touched.

A case, in words: its kind, the lengths of P's and Q's sheet, the number of runs, P's words, Q's words, and for each run the number of words lent, the node and
how many of 256 slots are lent. A negative word stands for the largest number that a call can be given. Each slot holds a mark before the call. A line has the
node and the slots lent, the number of refusal, the number of pairs, the nodes opened, how many of the 256 slots still hold their mark, the pairs with their
sizes, and what the words hold that were marked before.
"""
import math

import reading
import towns
import trees
from chance import Chance
from check_reading import runs_are_the_list
from stored import RUNS, WORDS, Asked, by_turns, lent_told, marks, needed

LARGEST = 2 ** 64 - 1
SLOTS = 256
MARKS = [(4_000_000_000, k, 9_000_000_000_000_000_000) for k in range(SLOTS)]


def number(word):
    return LARGEST if word < 0 else word


def run_line(rules, p, q, leaf, lent, words):
    refused, count, opened, slots, after = rules.run_call(p, q, leaf, MARKS[:lent], marks(words))
    marked = sum(slot == mark for slot, mark in zip(slots + MARKS[lent:], MARKS))
    fields = [refused, count, opened, marked] + [word for pair in slots[:count] for word in pair]
    return "run %d %d: %s%s" % (leaf, lent, " ".join(map(str, fields)), lent_told(words, after))


class Runs(Asked):
    name = "runs"
    kind = RUNS

    def add(self, label, p, q, requests, words=None):
        requests = [(n,) + request for n, request in zip(words or by_turns(p, len(requests), 16), requests)]
        lines = self.put(label, p, q, requests, [(run_line, p, q, number(leaf), number(lent), n) for n, leaf, lent in requests])
        for (_, leaf, lent), line in zip(requests, lines):
            refused, count, _, marked = map(int, line.split(": ")[1].split()[:4])
            assert marked == SLOTS - count
            self.seen[refused] += 1
            if refused == 0:
                chambers = reading.Sheet(q).nodes[leaf][2]
                self.seen["exactly enough"] += 0 < count == lent
                self.seen["no pair and no slot"] += count == lent == 0
                self.seen["one chamber"] += chambers == 1 and count > 0
                self.seen["sixteen chambers"] += chambers == 16 and count > 0
                self.seen["slots left"] += 0 < count < lent


def requests_of(rng, p, q, leaves=None):
    """For each leaf all slots or exactly enough, and one too few; some nodes that are no leaf; numbers past the table."""
    m = q[-3]
    runs = runs_are_the_list(p, q)
    requests = []
    for leaf in sorted(runs) if leaves is None else rng.sample(sorted(runs), min(len(runs), leaves)):
        enough = len(runs[leaf])
        requests.append((leaf, rng.choice([enough, enough, enough + 1, SLOTS, -1])))
        if enough:
            requests.append((leaf, enough - 1))
    higher = range(len(runs), m)
    requests += [(leaf, rng.choice([0, SLOTS])) for leaf in rng.sample(higher, min(len(higher), 2))]
    return requests + [(rng.choice([m, m, m + 1, 2 ** 31 - 1, -1]), rng.choice([0, 1, SLOTS, -1]))]


def documents_listing(out):
    p = [1, 0, 0, 2, 10, 0, 0, 1, 0, 1, 0, 0, 2, 0, 0, 10, 0, 17, 7, 2, 1, 7, 1]
    q = [5, 4, 0, 6, 16, 1, 0, 1, 0, 1, 0, 0, 2, 4, 0, 16, 1, 17, 7, 2, 1, 9, 1]
    assert reading.run_call(p, q, 0, MARKS[:3])[3] == [(5, 1, 16), (5, 2, 36), (6, 2, 37)]
    out.add("the listing", p, q, [(0, k) for k in range(6)] + [(0, 255), (0, 256), (0, 257), (0, -1), (1, 3), (2, 3), (-1, 3), (1, 0), (-1, -1), (2 ** 31 - 1, 0)])
    # the chambers in the other order: by place, and not by id
    turned = trees.sheet([(5, 4, 0), (6, 16, 1)], [1, 0], [(0, 0, 2)], 9)
    assert reading.run_call(p, turned, 0, MARKS[:3])[3] == [(6, 2, 37), (5, 1, 16), (5, 2, 36)]
    out.add("the listing, the chambers in the other order", p, turned, [(0, 2), (0, 3), (0, 4), (1, 4)])


def farthest(out):
    """Two places as far apart as a sheet has them, and on one spot: the sizes at both ends of their range, in both forms."""
    for form, far in ((1, reading.COORDINATE), (2, reading.WIDE_COORDINATE)):
        most = 8 * far * far
        for one, other, size in (((-far, -far), (far, far), most), ((far, -far), (-far, far), most), ((far, far), (far, far), 0)):
            p, q = reading.pack([(8,) + one], [0], 3, form), reading.pack([(9,) + other], [0], 4, form)
            assert reading.run_call(p, q, 0, MARKS[:1])[3] == [(9, 8, size)]
            out.add("one pair, size %d" % size, p, q, [(0, 1), (0, 2), (0, 0)])


def small_pairs(out, rng):
    for k in range(110):
        places = towns.PLACES[k % len(towns.PLACES)]
        _, p = towns.sheet(rng, places, rng.randint(1, 12))
        _, q = (None, p) if k % 9 == 0 else towns.sheet(rng, places, rng.randint(1, 12))
        out.add("%s, %s" % (places.__name__, "one sheet as both" if p is q else "two sheets"), p, q, requests_of(rng, p, q, 4))


def shaped_pairs(out, rng):
    """Leaves of one chamber and of sixteen, over trees of single-child nodes and of six levels."""
    for k in range(24):
        places = towns.PLACES[k % len(towns.PLACES)]
        np, nq = rng.randint(2, 12), rng.randint(2, 12) if k % 2 else 16 * rng.randint(1, 3)
        ps = [(n,) + place for n, place in zip(trees.ids(rng, np), places(rng, np))]
        qs = [(n,) + place for n, place in zip(trees.ids(rng, nq), places(rng, nq))]
        p = trees.sheet(ps, trees.near(rng, ps), trees.singles(np, 1 + k % 7) if k % 3 else trees.uneven(rng, np, 5), 4)
        order = trees.near(rng, qs) if k % 4 < 2 else trees.shuffled(rng, nq)
        q = trees.sheet(qs, order, trees.singles(nq, 7) if k % 2 else reading.runs_of_sixteen(nq), 5)
        out.add("%s, leaves of %s" % (places.__name__, "one" if k % 2 else "sixteen"), p, q, requests_of(rng, p, q, 3))


def more_pairs(out, rng):
    """20 to 70 points each."""
    for k in range(14):
        places = [towns.town, towns.land, towns.circle, towns.grid][k % 4]
        _, p = towns.sheet(rng, places, rng.randint(20, 70))
        _, q = towns.sheet(rng, places, rng.randint(20, 70))
        out.add("%s, more points" % places.__name__, p, q, requests_of(rng, p, q, 4))


def round_one(n):
    """n places around (0, 0), so far out that each is a partner of a chamber there."""
    far, out = reading.COORDINATE, []
    for k in range(n):
        turn = 8 * k * far // n
        side, along = turn // (2 * far), turn % (2 * far) - far
        out.append([(along, -far), (far, along), (-along, far), (-far, -along)][side])
    # from the square to the circle, to a step
    return [tuple(word * far // math.isqrt(x * x + y * y) for word in (x, y)) for x, y in out]


def many_partners(out, rng):
    """One chamber with as many pairs as there are slots, and with one more."""
    for n in (SLOTS, SLOTS + 1):
        points = [(number,) + place for number, place in zip(trees.ids(rng, n, 999), round_one(n))]
        p = trees.sheet(points, trees.shuffled(rng, n), reading.runs_of_sixteen(n), 8)
        q = reading.pack([(7, 0, 0)], [0], 9)
        assert len(reading.leaf_list(reading.Sheet(p), reading.Sheet(q), 0)) == n
        out.add("%d pairs of one chamber" % n, p, q, [(0, -1), (0, SLOTS), (0, SLOTS - 1)])


def large_pairs(out, rng):
    """1,000 points each: packed by 16, and over 400 nodes."""
    full = trees.runs([trees.parts(rng, 1000, 370), trees.parts(rng, 370, 27), trees.parts(rng, 27, 2), [2]])
    sheets = []
    for places, shape, edition in ((towns.land, reading.runs_of_sixteen(1000), 11), (towns.land, full, 12)):
        points = [(n,) + place for n, place in zip(trees.ids(rng, 1000, reading.ID), places(rng, 1000))]
        sheets.append(trees.sheet(points, trees.near(rng, points), shape, edition))
    for p, q in (sheets, sheets[::-1]):
        m = q[-3]
        out.add("1,000 points", p, q, [(rng.randint(0, 61), SLOTS), (rng.randint(0, 61), 200), (rng.randint(0, 61), 1), (m - 1, SLOTS), (m, SLOTS)])


def of_forms(out, rng):
    """Sheets of form 2 to the ends of its range, with each other and with those of form 1; and one that needs more than sixteen words for a chamber."""
    for label, p, q in towns.of_forms(rng, 30, 12):
        out.add(label, p, q, requests_of(rng, p, q, 3))
    p, q = towns.many(rng), towns.sheet(rng, towns.province, 9, form=2)[1]
    runs = runs_are_the_list(p, q)
    leaf = rng.choice([leaf for leaf in runs if runs[leaf]])
    enough = len(runs[leaf])
    out.add("1,300 points of form 2", p, q, [(leaf, enough), (leaf, enough), (leaf, enough - 1), (leaf, enough), (leaf, 0)], [336, 337, 336, 335, 21])


def words_lent(out, rng):
    """One word too few, no word, exactly enough and more: 24 comes after 19 and before 16, and a run that is refused by 16 leaves the words as they were."""
    for p, q in towns.few_words(rng):
        need, runs, m = needed(p, 16), runs_are_the_list(p, q), q[-3]
        leaf = max(runs, key=lambda leaf: len(runs[leaf]))
        enough = len(runs[leaf])
        assert 0 < enough <= SLOTS
        several = [(n, request) for n in (need - 1, need // 16, 0, need, need + 1, WORDS) for request in ((leaf, enough), (leaf, enough - 1), (leaf, -1), (m, 0), (-1, SLOTS))]
        out.add("words lent", p, q, [request for _, request in several], [n for n, _ in several])
    for fault in range(1, 9):
        _, right = towns.sheet(rng, towns.grid, rng.randint(1, 5))
        wrong = towns.faulty(rng, fault)
        for p, q in ((wrong, right), (right, wrong)):
            out.add("bad sheet, no word lent", p, q, [(0, SLOTS), (0, 0)], [0, 0])
    empty = reading.pack([], [], 3, rng.randint(1, 2))
    _, some = towns.sheet(rng, towns.grid, 4)
    out.add("no point in P, no word lent", empty, some, [(0, 0), (0, SLOTS), (some[-3], 0)], [0, 5, 0])


def refused(out, rng):
    """P's sheet, then Q's, then the leaf, then the slots: two faults together get the earlier number. Empty sheets."""
    for p, q, first in towns.both_faulty(rng):
        assert reading.run_call(p, q, 0, MARKS)[0] == first
        out.add("bad P and bad Q", p, q, [(0, SLOTS)])
    for fault in range(1, 9):
        _, right = towns.sheet(rng, towns.grid, rng.randint(1, 5))
        wrong = towns.faulty(rng, fault)
        for p, q in ((wrong, right), (right, wrong)):
            assert reading.run_call(p, q, LARGEST, [])[0] == fault
            out.add("bad sheet and no such leaf", p, q, [(0, SLOTS), (0, 0), (-1, SLOTS), (-1, 0)])
    for _ in range(6):
        _, p = towns.sheet(rng, towns.grid, rng.randint(1, 5))
        _, q = towns.sheet(rng, towns.grid, rng.randint(2, 5))
        m = q[-3]
        assert reading.run_call(p, q, m, [])[0] == 19
        out.add("no such leaf and no slot", p, q, [(m, 0), (m + 1, 0), (-1, 0), (m - 1, 0), (m, SLOTS)])
    empty = reading.pack([], [], 3)
    _, some = towns.sheet(rng, towns.grid, 4)
    out.add("no point in P", empty, some, [(0, 0), (0, SLOTS), (some[-3], 0), (-1, -1)])
    out.add("no point in Q", some, empty, [(0, 0), (0, SLOTS), (-1, 0)])
    out.add("no point at all", empty, empty, [(0, 0), (0, SLOTS)])
    out.add("no word at all", [], [], [(0, SLOTS)])


def cases():
    rng = Chance("runs")
    out = Runs()
    documents_listing(out)
    farthest(out)
    small_pairs(out, rng)
    shaped_pairs(out, rng)
    more_pairs(out, rng)
    many_partners(out, rng)
    large_pairs(out, rng)
    refused(out, rng)
    of_forms(out, Chance("runs of both forms"))
    words_lent(out, Chance("words for runs"))
    assert out.pairs >= 100
    assert all(out.seen[given] >= 8 for given in (0, 1, 2, 3, 4, 5, 6, 7, 8, 16, 19, 24)), out.seen
    assert all(out.seen[what] >= 8 for what in ("exactly enough", "no pair and no slot", "one chamber", "sixteen chambers", "slots left")), out.seen
    return out.cases
