"""The part `walks` of the tape: pairs of sheets with both walks over them: kept words, numbers of bits, hits, nodes opened.

A case, in words: its kind, the lengths of P's and Q's sheet, the numbers of filter walks and of ring walks asked, P's words, Q's words, the number of words
lent and a position j of Q for each filter walk, and for each ring walk positions j of Q and i of P, and the profile: 0 for the circle, 1 for the street grid. A
position of -1 stands for the largest that a call can be given. Each word that can be lent holds a mark before the call, and the line of a filter walk ends with
what they hold after it.
"""
import reading
import towns
import trees
from chance import Chance
from check_reading import walks_mean_the_rule
from stored import WALKS, WORDS, Asked, by_turns, lent_told, marks, needed

LARGEST = 2 ** 64 - 1


def position(word):
    return LARGEST if word < 0 else word


def filter_line(rules, p, q, j, lent):
    number, kept, opened, after = rules.filter_call(p, q, j, marks(lent))
    return "filter %d: %d %d %d%s" % (j, number, len(kept), opened, lent_told(lent, after))


def ring_line(rules, p, q, j, i, grid):
    number, answer, opened = rules.ring_call(p, q, j, i, bool(grid))
    said = "refused %d" % number if number else "%s %d" % (" ".join(map(str, answer)), opened)
    return "ring %d %d %d: %s" % (j, i, grid, said)


class Walks(Asked):
    name = "walks"
    kind = WALKS

    def add(self, label, p, q, filters, rings, lent=None):
        lent = lent or by_turns(p, len(filters))
        rings = [ring + (0,) * (3 - len(ring)) for ring in rings]
        words = [self.kind, len(p), len(q), len(filters), len(rings)] + p + q
        words += [word for request in list(zip(lent, filters)) + list(rings) for word in request]
        asked = [(filter_line, p, q, position(j), n) for n, j in zip(lent, filters)] + [(ring_line, p, q, position(j), position(i), grid) for j, i, grid in rings]
        for line in self.cases.add(label, words, asked):
            kind, said = line.split()[0], line.split(": ")[1].split()
            kind = "street" if kind == "ring" and line.split(":")[0].endswith(" 1") else kind
            self.seen[" ".join([kind] + said[:1 if said[0] in ("0", "9", "24", "clear") else 2])] += 1
            if said[0] == "side":
                self.seen["%s named %s" % (kind, said[3])] += 1
        self.pairs += 1


def small_pairs(out, rng):
    """Every q and every pair of sheets small enough; a part of the others."""
    for k in range(280):
        places = towns.PLACES[k % len(towns.PLACES)]
        np, nq = rng.randint(1, 7), rng.randint(1, 6)
        if k % 9 == 0:
            np, nq = rng.randint(17, 50), rng.randint(17, 50)
        _, p = towns.sheet(rng, places, np)
        _, q = (None, p) if k % 8 == 0 else towns.sheet(rng, places, nq)
        nq = q[-4]
        walks_mean_the_rule(p, q)
        pairs = [(j, i) for j in range(nq) for i in range(np)]
        filters = list(range(nq))
        if len(pairs) > 45:
            pairs, filters = sorted(rng.sample(pairs, 24)), sorted(rng.sample(filters, 8 if nq >= 8 else nq))
        out.add("%s, %s" % (places.__name__, "one sheet as both" if p is q else "two sheets"), p, q, filters, pairs)


def shaped_pairs(out, rng):
    """Trees of each kind by name: single-child nodes and six levels on both sides, up to level 7."""
    for k in range(24):
        np, nq = rng.randint(2, 12), rng.randint(2, 12)
        ps = [(n,) + place for n, place in zip(trees.ids(rng, np), rng.choice(towns.PLACES)(rng, np))]
        qs = [(n,) + place for n, place in zip(trees.ids(rng, nq), rng.choice(towns.PLACES)(rng, nq))]
        if k % 2:
            p = trees.sheet(ps, trees.near(rng, ps), trees.singles(np, 1 + k % 7), 4)
            q = trees.sheet(qs, trees.near(rng, qs), trees.singles(nq, 7), 5)
        else:
            p = trees.sheet(ps, trees.near(rng, ps), trees.uneven(rng, np, 5), 4)
            q = trees.sheet(qs, trees.near(rng, qs), trees.uneven(rng, nq, 6), 5)
        walks_mean_the_rule(p, q)
        pairs = [(j, i) for j in range(nq) for i in range(np)]
        out.add("single-child nodes" if k % 2 else "six levels and more", p, q, range(nq), sorted(rng.sample(pairs, min(len(pairs), 16))))


def large_pairs(out, rng):
    """1,000 points each: a town packed by 16, the whole range over uneven trees, and one sheet used as both."""
    def large(places, shape, edition):
        points = [(n,) + place for n, place in zip(trees.ids(rng, 1000, reading.ID), places(rng, 1000))]
        return trees.sheet(points, trees.near(rng, points), shape, edition)

    sixteen = reading.runs_of_sixteen(1000)
    full = trees.runs([trees.parts(rng, 1000, 370), trees.parts(rng, 370, 27), trees.parts(rng, 27, 2), [2]])
    p, q = large(towns.land, sixteen, 11), large(towns.land, full, 12)
    both = large(towns.town, trees.uneven(rng, 1000, 4), 13)
    for label, p, q in (("1,000 points, packed and 400 nodes", p, q), ("1,000 points, one sheet as both", both, both)):
        sheet_p, sheet_q = reading.Sheet(p), reading.Sheet(q)
        filters = sorted(rng.sample(range(1000), 12)) + [999]
        pairs = []
        for j in filters:
            kept, _ = reading.filter_walk(sheet_p, sheet_q.place(j))
            for i in kept[:6] + rng.sample(range(1000), 2):
                pairs.append((j, i))
                answer, _ = reading.pair_walk(sheet_p, sheet_q, j, i)
                assert reading.is_ring_pair(sheet_p.points, sheet_q.points, j, i) == (answer == reading.CLEAR)
        out.add(label, p, q, filters, pairs)


def on_a_circle(radius, quarter):
    """Four times so many places near a circle around (0, 0), so near that none drops another for a q in the middle."""
    first = [(radius * (quarter ** 2 - t ** 2) // (quarter ** 2 + t ** 2), radius * 2 * t * quarter // (quarter ** 2 + t ** 2)) for t in range(quarter)]
    turned = [first]
    for _ in range(3):
        turned.append([(-y, x) for x, y in turned[-1]])
    return sum(turned, [])


def many_kept(out, rng):
    """More points kept than the filter walk lists, so that the kept set itself is asked: 360 on a circle, then some inside it, which are kept too, then others outside it,
    which are dropped one by one or by their boxes."""
    inside = [(rng.randint(-9000, 9000), rng.randint(-9000, 9000)) for _ in range(10)]
    outside = [(x + rng.randint(-800, 800), y + rng.randint(-800, 800)) for x, y in on_a_circle(900000, 32)]
    places = on_a_circle(600000, 90) + inside + outside
    order = trees.shuffled(rng, len(places))
    at = dict(zip(order, places))
    p = trees.sheet([(number,) + at[i] for i, number in enumerate(trees.ids(rng, len(places)))], order, reading.runs_of_sixteen(len(places)), 21)
    middle = [(0, 0), (1, -1), (-40, 9), (3000, 200), (-600000, 0), (900000, 900000)]
    q = trees.sheet([(j + 1,) + place for j, place in enumerate(middle)], trees.shuffled(rng, len(middle)), reading.runs_of_sixteen(len(middle)), 22)
    walks_mean_the_rule(p, q)
    kept = [len(reading.filter_walk(reading.Sheet(p), place)[0]) for place in middle]
    assert max(kept) > 360 and min(kept) < 256
    out.add("more than 256 kept", p, q, range(len(middle)), [(j, i) for j in range(len(middle)) for i in rng.sample(range(len(places)), 3)])


def of_forms(out, rng):
    """Sheets of form 2 to the ends of its range, with each other and with those of form 1; and one that needs more than sixteen words."""
    for label, p, q in towns.of_forms(rng, 36, 9):
        np, nq = p[-4], q[-4]
        walks_mean_the_rule(p, q)
        out.add(label, p, q, range(nq), rng.sample([(j, i) for j in range(nq) for i in range(np)], min(np * nq, 20)))
    p, q = towns.many(rng), towns.sheet(rng, towns.province, 6, form=2)[1]
    kept = [reading.filter_walk(reading.Sheet(p), reading.Sheet(q).place(j))[0] for j in range(6)]
    assert any(i >= 1024 for some in kept for i in some)
    filters = [(n, j) for j in range(6) for n in (21, 22)]
    out.add("1,300 points of form 2", p, q, [j for _, j in filters] + [0, 0], [(j, i) for j in range(6) for i in kept[j][-4:]], [n for n, _ in filters] + [20, 16])
    out.add("1,300 points of form 2 in Q", q, p, [0, 650, 1299, 1300], [(1299, 0), (1299, 5), (1300, 0)])


def words_lent(out, rng):
    """One word too few, no word, exactly enough and more, with positions in range and not: the sheets' numbers and 9 come before 24, and the words past those
    needed stay."""
    for p, q in towns.few_words(rng):
        need, nq = needed(p), q[-4]
        requests = [(n, j) for n in (need - 1, 0, need, need + 1, WORDS) for j in (0, nq - 1, nq, -1)]
        out.add("words lent", p, q, [j for _, j in requests], [], [n for n, _ in requests])
    for number in range(1, 9):
        _, right = towns.sheet(rng, towns.grid, rng.randint(1, 5))
        wrong = towns.faulty(rng, number)
        out.add("P refused, no word lent", wrong, right, [0, -1], [], [0, 0])
        out.add("Q refused, no word lent", right, wrong, [0, -1], [], [0, 0])
    empty = reading.pack([], [], 3, rng.randint(1, 2))
    _, some = towns.sheet(rng, towns.grid, 4)
    out.add("no point in P, no word lent", empty, some, [0, 3, 4, 0], [], [0, 0, 0, 3])


def along_streets(out, rng):
    """The ring walks of the street grid: every pair of sheets small enough and some of others, over trees of every shape, the circle's beside some of them."""
    for k in range(150):
        places = towns.STREET_PLACES[k % len(towns.STREET_PLACES)]
        np, nq = (rng.randint(17, 50), rng.randint(17, 50)) if k % 10 == 0 else (rng.randint(1, 8), rng.randint(1, 7))
        _, p = towns.sheet(rng, places, np)
        _, q = (None, p) if k % 8 == 0 else towns.sheet(rng, places, nq)
        walks_mean_the_rule(p, q)
        pairs = [(j, i) for j in range(q[-4]) for i in range(np)]
        pairs = sorted(rng.sample(pairs, 30)) if len(pairs) > 45 else pairs
        out.add("%s, along the streets" % places.__name__, p, q, [], [pair + (1,) for pair in pairs] + [pair + (0,) for pair in pairs[:2]])
    for k in range(16):
        np, nq = rng.randint(2, 12), rng.randint(2, 12)
        ps, qs = [[(number,) + place for number, place in zip(trees.ids(rng, n), rng.choice(towns.STREET_PLACES)(rng, n))] for n in (np, nq)]
        p = trees.sheet(ps, trees.near(rng, ps), trees.singles(np, 1 + k % 7) if k % 2 else trees.uneven(rng, np, 5), 4)
        q = trees.sheet(qs, trees.near(rng, qs), trees.singles(nq, 7) if k % 2 else trees.uneven(rng, nq, 6), 5)
        walks_mean_the_rule(p, q)
        pairs = [(j, i, 1) for j in range(nq) for i in range(np)]
        out.add("deep trees, along the streets", p, q, [], sorted(rng.sample(pairs, min(len(pairs), 24))))
    points = [[(number,) + place for number, place in zip(trees.ids(rng, 1000, reading.ID), towns.land(rng, 1000))] for _ in range(2)]
    p, q = [trees.sheet(some, trees.near(rng, some), reading.runs_of_sixteen(1000), 15 + k) for k, some in enumerate(points)]
    clear = [(j, i, 1) for j in rng.sample(range(1000), 4) for i in range(1000) if reading.is_ring_pair(points[0], points[1], j, i, True)]
    assert len(clear) >= 4
    out.add("1,000 points, along the streets", p, q, [], clear + [(rng.randrange(1000), rng.randrange(1000), 1) for _ in range(20)])


def too_wide(out, rng):
    """A sheet of form 2, P's or Q's or both: 29 along the streets, whatever the positions, and after the sheets' own numbers; with the circle nothing of it."""
    for p, q in towns.too_wide(rng):
        np, nq = p[-4], q[-4]
        assert reading.ring_call(p, q, nq, np, True)[0] == 29 and reading.ring_call(p, q, 0, 0)[0] == 0
        out.add("form 2, along the streets", p, q, [], [pair + (grid,) for pair in ((0, 0), (nq - 1, np - 1), (nq, 0), (0, np), (-1, -1)) for grid in (1, 0)])
    for number in range(1, 9):
        _, wide = towns.sheet(rng, towns.grid, rng.randint(1, 5), form=2)
        _, right = towns.sheet(rng, towns.grid, rng.randint(1, 5))
        wrong = towns.faulty(rng, number)
        for p, q in ((wrong, wide), (wide, wrong), (wrong, right), (right, wrong)):
            assert reading.ring_call(p, q, 9, 9, True)[0] == number
            out.add("a bad sheet, along the streets", p, q, [], [(0, 0, 1), (9, 9, 1)])
    empty, some = reading.pack([], [], 3), towns.sheet(rng, towns.grid, 4)[1]
    for p, q in ((empty, some), (some, empty), (reading.pack([], [], 3, 2), some), (some, some)):
        out.add("positions, along the streets", p, q, [], [(0, 0, 1), (3, 3, 1), (4, 0, 1), (0, 4, 1), (-1, 0, 1), (0, -1, 1)])


def refused(out, rng):
    """A bad sheet, P's before Q's, and a position not below n: the earlier number each time. Empty sheets."""
    for p, q, number in towns.both_faulty(rng):
        assert reading.ring_call(p, q, 0, 0)[0] == number
        out.add("P and Q refused", p, q, [0, -1], [(0, 0), (-1, -1)])
    for number in range(1, 9):
        _, right = towns.sheet(rng, towns.grid, rng.randint(1, 5))
        n = right[-4]
        wrong = towns.faulty(rng, number)
        out.add("P refused", wrong, right, [0, n, -1], [(0, 0), (n, 0), (0, -1)])
        out.add("Q refused", right, wrong, [0, 9, -1], [(0, 0), (9, 0), (0, n), (-1, -1)])
    for _ in range(8):
        _, p = towns.sheet(rng, towns.grid, rng.randint(1, 5))
        _, q = towns.sheet(rng, towns.grid, rng.randint(1, 5))
        np, nq = p[-4], q[-4]
        out.add("a position not below n", p, q, [nq - 1, nq, -1], [(nq - 1, np - 1), (nq, 0), (0, np), (nq, np), (-1, 0), (0, -1), (-1, -1)])
    empty = reading.pack([], [], 3)
    _, some = towns.sheet(rng, towns.grid, 4)
    out.add("no point in P", empty, some, [0, 3, 4], [(0, 0), (3, 0), (4, 0)])
    out.add("no point in Q", some, empty, [0, -1], [(0, 0), (0, 3)])
    out.add("no point at all", empty, empty, [0], [(0, 0)])
    out.add("no word at all", [], [], [0], [(0, 0)])


def cases():
    rng = Chance("walks")
    out = Walks()
    small_pairs(out, rng)
    shaped_pairs(out, rng)
    large_pairs(out, rng)
    refused(out, rng)
    many_kept(out, rng)
    of_forms(out, Chance("walks of both forms"))
    words_lent(out, Chance("words for walks"))
    along_streets(out, Chance("walks along the streets"))
    too_wide(out, Chance("walks of form 2 along the streets"))
    assert out.pairs >= 300
    for kind in ("ring", "street"):
        for answer in ("clear", "point 0", "point 1", "side 0", "side 1"):
            assert out.seen["%s %s" % (kind, answer)] >= 50, (kind, answer, out.seen)
        for side in range(4):
            assert out.seen["%s named %d" % (kind, side)] >= 40, (kind, side, out.seen)
        assert all(out.seen["%s refused %d" % (kind, number)] >= 4 for number in range(1, 10)), (kind, out.seen)
    assert out.seen["street refused 29"] >= 10 and not out.seen["ring refused 29"]
    assert out.seen["ring refused 9"] >= 10 and out.seen["filter 9"] >= 10 and out.seen["filter 24"] >= 10
    return out.cases
