"""The part `near` of the tape: pairs of sheets, and for chambers of Q the pump houses nearest first and the filter that goes nearest first.

A case, in words: its kind, the lengths of P's and Q's sheet, the number of requests, P's words, Q's words, and for each request the number of words lent, 1 or 2
(the pump houses, or the filter), the q id, the size and how many of 2,048 numbers are lent. A negative word stands for the largest number that a call can be
given. Each number and each word holds a mark before the call. A line has what was asked, the number of refusal, then the pump houses with their squared
distances, or the number of bits set and the nodes opened; then what the 2,048 numbers hold after the call, and what the words hold.
"""
import reading
import towns
import trees
from chance import Chance
from stored import NEAR, WORDS, Asked, by_turns, lent_told, marks, needed, told

LARGEST = 2 ** 64 - 1
LARGEST_ID = 2 ** 32 - 1
NUMBERS = 2048
MARKS = marks(NUMBERS)
POINTS, FILTER = 1, 2


def numbers_told(lent, after):
    return " numbers " + told(after + MARKS[lent:])


def nearest_line(rules, p, q, q_id, size, lent, words):
    number, found, after = rules.nearest_call(p, q, q_id, size, MARKS[:lent])
    fields = [number, len(found)] + [word for near in found for word in near]
    return "nearest %d %d %d: %s" % (q_id, size, lent, " ".join(map(str, fields))) + numbers_told(lent, after) + lent_told(words, marks(words))


def filter_line(rules, p, q, q_id, lent, words):
    number, kept, opened, after, left = rules.near_filter_call(p, q, q_id, MARKS[:lent], marks(words))
    return "filter %d %d: %d %d %d" % (q_id, lent, number, len(kept), opened) + numbers_told(lent, after) + lent_told(words, left)


def asked(p, q, request):
    words, kind, q_id, size, lent = request
    q_id = LARGEST_ID if q_id < 0 else q_id
    size = LARGEST if size < 0 else size
    lent = NUMBERS if lent < 0 else min(lent, NUMBERS)
    return (nearest_line, p, q, q_id, size, lent, words) if kind == POINTS else (filter_line, p, q, q_id, lent, words)


class Near(Asked):
    name = "near"
    kind = NEAR

    def add(self, label, p, q, requests, words=None):
        requests = [(n,) + request for n, request in zip(words or by_turns(p, len(requests)), requests)]
        lines = self.put(label, p, q, requests, [asked(p, q, request) for request in requests])
        for (_, kind, _, size, lent), line in zip(requests, lines):
            fields = list(map(int, line.split(": ")[1].split(" numbers")[0].split()))
            self.seen[kind, fields[0]] += 1
            if fields[0] == 0:
                n, m = p[-4], p[-3]
                self.seen["exactly enough lent"] += min(lent, NUMBERS) == n + m
                self.seen["some left over"] += lent > n + m
                if kind == POINTS:
                    distances = fields[3::2]
                    self.seen["a tie"] += len(set(distances)) < len(distances)
                    self.seen["fewer than asked"] += fields[1] < size
                    self.seen["sixteen"] += fields[1] == 16
                else:
                    place = reading.place_of(reading.Sheet(q), int(line.split()[1]))
                    self.seen["kept otherwise than in table order"] += reading.filter_walk(reading.Sheet(p), place)[0] != reading.near_filter(reading.Sheet(p), place)[0]
                    self.seen["a node skipped"] += fields[2] < m


def ids_of(sheet):
    return [point[0] for point in reading.Sheet(sheet).points]


def no_id(rng, sheet):
    known = ids_of(sheet)
    near = [word for number in known for word in (number - 1, number + 1)] + [0, reading.ID + 1]
    return rng.choice([word for word in near if word not in known] + [-1])


def requests_of(rng, p, q, chambers=3):
    """For some chambers the pump houses and the filter, exactly enough lent or more; one number too few; a size out of range; an id that no chamber has."""
    need = p[-4] + p[-3]
    requests = []
    for q_id in rng.sample(ids_of(q), min(q[-4], chambers)):
        lent = rng.choice([need, need, need + 1, 2000, -1])
        requests += [(POINTS, q_id, rng.choice([1, 2, 5, 16, 16]), lent), (FILTER, q_id, 0, lent)]
    q_id = rng.choice(ids_of(q))
    if need:
        requests += [(POINTS, q_id, 16, need - 1), (FILTER, q_id, 0, rng.choice([0, need - 1]))]
    requests += [(POINTS, q_id, rng.choice([0, 17, -1]), rng.choice([0, need, -1]))]
    requests += [(POINTS, no_id(rng, q), rng.choice([0, 16]), rng.choice([0, need])), (FILTER, no_id(rng, q), 0, rng.choice([0, need]))]
    return requests


def documents_listing(out):
    p = [1, 0, 0, 2, 10, 0, 0, 1, 0, 1, 0, 0, 2, 0, 0, 10, 0, 17, 7, 2, 1, 7, 1]
    q = [5, 4, 0, 6, 16, 1, 0, 1, 0, 1, 0, 0, 2, 4, 0, 16, 1, 17, 7, 2, 1, 9, 1]
    assert reading.nearest_call(p, q, 5, 16, [9] * 4) == (0, [(1, 16), (2, 36)], [0, 0, 0, 9])
    assert reading.nearest_call(p, q, 6, 1, [9] * 3) == (0, [(2, 37)], [0, 0, 0])
    assert reading.near_filter_call(p, q, 6, [9] * 3)[1:3] == ([1], 1)
    out.add("the listing", p, q, [(POINTS, q_id, size, lent) for q_id in (5, 6) for size in (1, 2, 3, 16) for lent in (3, 4, -1)] + [(FILTER, q_id, 0, lent) for q_id in (5, 6) for lent in (2, 3, 4)])


def small_pairs(out, rng):
    for k in range(90):
        places = towns.PLACES[k % len(towns.PLACES)]
        _, p = towns.sheet(rng, places, rng.randint(1, 14))
        _, q = (None, p) if k % 9 == 0 else towns.sheet(rng, places, rng.randint(1, 8))
        out.add("%s, %s" % (places.__name__, "one sheet as both" if p is q else "two sheets"), p, q, requests_of(rng, p, q))


def shaped_pairs(out, rng):
    """Trees of single-child nodes and of six levels: boxes that tie with each other and with their points."""
    for k in range(24):
        places = towns.PLACES[k % len(towns.PLACES)]
        np, nq = rng.randint(2, 24), rng.randint(2, 8)
        ps = [(n,) + place for n, place in zip(trees.ids(rng, np), places(rng, np))]
        qs = [(n,) + place for n, place in zip(trees.ids(rng, nq), places(rng, nq))]
        order = trees.near(rng, ps) if k % 4 < 2 else trees.shuffled(rng, np)
        p = trees.sheet(ps, order, trees.singles(np, 1 + k % 7) if k % 3 else trees.uneven(rng, np, 5), 4)
        q = trees.sheet(qs, trees.shuffled(rng, nq), trees.singles(nq, 7) if k % 2 else reading.runs_of_sixteen(nq), 5)
        out.add("%s, %s" % (places.__name__, "single nodes" if k % 3 else "uneven"), p, q, requests_of(rng, p, q))


def more_pairs(out, rng):
    """20 to 70 points each."""
    for k in range(16):
        places = [towns.town, towns.land, towns.circle, towns.grid][k % 4]
        _, p = towns.sheet(rng, places, rng.randint(20, 70))
        _, q = towns.sheet(rng, places, rng.randint(20, 70))
        out.add("%s, more points" % places.__name__, p, q, requests_of(rng, p, q, 5))


def large_pairs(out, rng):
    """1,000 points each: packed by 16, and over 400 nodes; as far apart as places can be."""
    full = trees.runs([trees.parts(rng, 1000, 370), trees.parts(rng, 370, 27), trees.parts(rng, 27, 2), [2]])
    sheets = []
    for places, shape, edition in ((towns.land, reading.runs_of_sixteen(1000), 11), (towns.land, full, 12)):
        points = [(n,) + place for n, place in zip(trees.ids(rng, 1000, reading.ID), places(rng, 1000))]
        sheets.append(trees.sheet(points, trees.near(rng, points), shape, edition))
    for p, q in (sheets, sheets[::-1]):
        out.add("1,000 points", p, q, requests_of(rng, p, q, 3))
    far = reading.COORDINATE
    corners = [(-far, -far), (-far, far), (far, -far), (far, far)]
    p = reading.pack([(k + 1,) + place for k, place in enumerate(corners)], [3, 1, 0, 2], 3)
    q = reading.pack([(k + 1,) + place for k, place in enumerate(corners + [(0, 0)])], list(range(5)), 4)
    out.add("the corners", p, q, [request for q_id in range(1, 6) for request in ((POINTS, q_id, 16, 5), (FILTER, q_id, 0, 5))])


def of_forms(out, rng):
    """Sheets of form 2 to the ends of its range, with each other and with those of form 1; its corners; and one that needs more than sixteen words."""
    for label, p, q in towns.of_forms(rng, 30, 14):
        out.add(label, p, q, requests_of(rng, p, q))
    far = reading.WIDE_COORDINATE
    corners = [(-far, -far), (-far, far), (far, -far), (far, far)]
    p = reading.pack([(k + 1,) + place for k, place in enumerate(corners)], [3, 1, 0, 2], 3, 2)
    q = reading.pack([(k + 1,) + place for k, place in enumerate(corners + [(0, 0)])], list(range(5)), 4, 2)
    out.add("the corners of form 2", p, q, [request for q_id in range(1, 6) for request in ((POINTS, q_id, 16, 5), (FILTER, q_id, 0, 5))])
    p, q = towns.many(rng), towns.sheet(rng, towns.province, 6, form=2)[1]
    need, ids = p[-4] + p[-3], ids_of(q)
    requests = [(FILTER, q_id, 0, need) for q_id in ids] + [(POINTS, ids[0], 16, need), (FILTER, ids[1], 0, need), (FILTER, ids[1], 0, need - 1)]
    out.add("1,300 points of form 2", p, q, requests, [21, 22, WORDS, 21, 21, 21, 0, 20, 21])


def words_lent(out, rng):
    """Too few words, and too few numbers too: 24 comes after 20 and before 25, and nothing that is lent is touched then. The pump houses ask for no words."""
    for p, q in towns.few_words(rng):
        need, numbers, q_id = needed(p), p[-4] + p[-3], ids_of(q)[-1]
        requests = [(FILTER, q_id, 0, numbers), (FILTER, q_id, 0, numbers - 1), (FILTER, q_id, 0, 0), (FILTER, q_id + 1, 0, numbers), (POINTS, q_id, 2, numbers), (POINTS, q_id, 2, numbers - 1)]
        several = [(n, request) for n in (need - 1, 0, need, need + 1, WORDS) for request in requests]
        out.add("words lent", p, q, [request for _, request in several], [n for n, _ in several])
    for fault in range(1, 9):
        _, right = towns.sheet(rng, towns.grid, rng.randint(1, 5))
        wrong = towns.faulty(rng, fault)
        for p, q in ((wrong, right), (right, wrong)):
            out.add("bad sheet, no word lent", p, q, [(FILTER, 1, 0, -1), (FILTER, 1, 0, 0)], [0, 0])
    empty = reading.pack([], [], 3, rng.randint(1, 2))
    _, some = towns.sheet(rng, towns.grid, 4)
    out.add("no point in P, no word lent", empty, some, [(FILTER, ids_of(some)[0], 0, 0), (FILTER, ids_of(some)[0], 0, 2)], [0, 3])


def refused(out, rng):
    """P's sheet, then Q's, then the id, then the size, then the lent numbers: two faults together get the earlier number. Empty sheets."""
    for p, q, first in towns.both_faulty(rng):
        assert reading.nearest_call(p, q, 1, 1, MARKS)[0] == first
        out.add("bad P and bad Q", p, q, [(POINTS, 1, 1, -1), (FILTER, 1, 0, -1)])
    for fault in range(1, 9):
        _, right = towns.sheet(rng, towns.grid, rng.randint(1, 5))
        wrong = towns.faulty(rng, fault)
        for p, q in ((wrong, right), (right, wrong)):
            assert reading.nearest_call(p, q, 0, 0, [])[0] == fault
            out.add("bad sheet", p, q, [(POINTS, 0, 0, 0), (POINTS, -1, 16, -1), (FILTER, 0, 0, 0), (FILTER, -1, 0, -1)])
    for _ in range(8):
        _, p = towns.sheet(rng, towns.grid, rng.randint(1, 5))
        _, q = towns.sheet(rng, towns.grid, rng.randint(2, 5))
        known = rng.choice(ids_of(q))
        assert reading.nearest_call(p, q, 0, 0, [])[0] == 20 and reading.nearest_call(p, q, known, 17, [])[0] == 10
        out.add("two faults", p, q, [(POINTS, no_id(rng, q), 0, 0), (POINTS, no_id(rng, q), 17, -1), (POINTS, known, 0, 0), (POINTS, known, 17, 0), (POINTS, known, 1, 0), (FILTER, no_id(rng, q), 0, 0)])
    empty = reading.pack([], [], 3)
    _, some = towns.sheet(rng, towns.grid, 4)
    known = ids_of(some)[0]
    out.add("no point in P", empty, some, [(POINTS, known, 16, 0), (POINTS, known, 1, 3), (FILTER, known, 0, 0), (FILTER, known, 0, 2), (POINTS, known, 0, 0)])
    out.add("no point in Q", some, empty, [(POINTS, 1, 16, -1), (FILTER, 1, 0, -1), (POINTS, 0, 16, -1)])
    out.add("no word at all", [], [], [(POINTS, 1, 1, -1), (FILTER, 1, 0, -1)])


def cases():
    rng = Chance("near")
    out = Near()
    documents_listing(out)
    small_pairs(out, rng)
    shaped_pairs(out, rng)
    more_pairs(out, rng)
    large_pairs(out, rng)
    refused(out, rng)
    of_forms(out, Chance("near of both forms"))
    words_lent(out, Chance("words for near"))
    assert out.pairs >= 100
    numbers = (0, 1, 2, 3, 4, 5, 6, 7, 8, 20, 25)
    assert all(out.seen[kind, number] >= 4 for kind in (POINTS, FILTER) for number in numbers) and out.seen[POINTS, 10] >= 8 and out.seen[FILTER, 24] >= 8, out.seen
    assert all(out.seen[what] >= 8 for what in ("exactly enough lent", "some left over", "a tie", "fewer than asked", "sixteen", "kept otherwise than in table order", "a node skipped")), out.seen
    return out.cases
