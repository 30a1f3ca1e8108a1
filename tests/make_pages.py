"""The part `pages` of the tape: pairs of sheets with page requests over them: pairs, number, end mark, nodes opened; the question whether a chamber has
at least t partners; and page requests of self joins, of one sheet each.

A case, in words: its kind, the lengths of P's and Q's sheet, the number of requests, P's words, Q's words, and for each request the number of words lent, the
key's q id and p id, the size, the threshold, the profile, 0 for the circle and 1 for the street grid, the contractor, the number of owner bytes, and these, a
word each; for each question the words lent, a q id and a t; of a self join the length of one sheet, 0, the number of requests, its words, and for each request
the words lent, the key, the size and the profile. A negative word stands for the largest number that a call can be given. A line has the request, of the owner
bytes their number, its number of refusal, the nodes opened, and the page whole: both editions, the threshold, the contractor, the kind, the profile, the key, the
number of pairs, the end mark, sixteen pairs with their sizes; or the question, its number of refusal, the count and the yes; then what the words hold that were
marked before.
"""
import collections

import reading
import towns
import trees
from chance import Chance
from stored import OWN, PAGES, PARTNERS, WORDS, Asked, by_turns, lent_told, marks, needed, whose

LARGEST_ID = 2 ** 32 - 1
LARGEST = 2 ** 64 - 1
PAST = reading.ID + 1


def fields(rules, lent, number, page, opened, after):
    if number:
        page = rules.Page((0, 0), (0, 0), [], False, contractor=0)
    shown = page.pairs + [rules.UNUSED] * (16 - len(page.pairs))
    said = [page.t, page.contractor, int(page.own), int(page.grid)]
    words = [number, opened, *page.editions, *said, *page.key, len(page.pairs), int(page.end)] + [word for pair in shown for word in pair]
    return " ".join(map(str, words)) + lent_told(lent, after)


def page_line(rules, p, q, key, size, t, grid, contractor, owners, listed, lent):
    answer = rules.page_call(p, q, key, size, t, listed, marks(lent), bool(grid), contractor, owners)
    return "page %d %d %d %d %d %d %d: %s" % (key + (size, t, grid, contractor, len(owners), fields(rules, lent, *answer)))


def own_line(rules, words, key, size, grid, listed, lent):
    return "own %d %d %d %d: %s" % (key + (size, grid, fields(rules, lent, *rules.own_call(words, key, size, listed, marks(lent), bool(grid)))))


def partners_line(rules, p, q, q_id, t, listed, lent):
    number, count, enough, after = rules.partners_call(p, q, q_id, t, listed, marks(lent))
    return "partners %d %d: %d %d %d%s" % (q_id, t, number, count, enough, lent_told(lent, after))


def answered(line):
    """Of a line that has a page: its number, the number of pairs, and the end mark."""
    words = line.split(": ")[1].split()
    return int(words[0]), int(words[10]), int(words[11])


class Pages(Asked):
    name = "pages"
    kind = PAGES

    def add(self, label, p, q, requests, listed=None, lent=None):
        """A request: a key's q id and p id and a size; then a threshold, a profile, a contractor and its owner bytes, or the first so many of these."""
        requests = [request + (0, 0, reading.UNDIVIDED, ())[len(request) - 3:] for request in requests]
        asked, stored = [], []
        for n, (key_q, key_p, size, t, grid, contractor, owners) in zip(lent or by_turns(p, len(requests)), requests):
            stored.append([n, key_q, key_p, size, t, grid] + whose(contractor, owners))
            key_q, key_p, t, contractor = (LARGEST_ID if word < 0 else word for word in (key_q, key_p, t, contractor))
            asked.append((page_line, p, q, (key_q, key_p), LARGEST if size < 0 else size, t, grid, contractor, owners, listed, n))
        for line in self.put(label, p, q, stored, asked):
            self.saw(*map(int, line.split(":")[0].split()[3:7]), *answered(line))

    def saw(self, size, t, grid, contractor, number, count, end):
        self.seen[("grid", number) if grid else number] += 1
        if not number and grid:
            self.seen["grid end mark" if end else "grid no end mark"] += 1
            self.seen["grid empty page"] += end and count == 0
            self.seen["grid page of a t"] += t > 0 and count > 0
        elif not number:
            self.seen["end mark" if end else "no end mark"] += 1
            self.seen["full last page"] += end and count == size
            self.seen["empty page"] += end and count == 0
            self.seen["page of a t"] += t > 0 and count > 0

    def own(self, label, sheet, requests, listed=None, lent=None):
        requests = [(n,) + request + (0,) * (4 - len(request)) for n, request in zip(lent or by_turns(sheet, len(requests)), requests)]
        asked = []
        for n, key_q, key_p, size, grid in requests:
            key = tuple(LARGEST_ID if word < 0 else word for word in (key_q, key_p))
            asked.append((own_line, sheet, key, LARGEST if size < 0 else size, grid, listed, n))
        for line in self.put(label, sheet, [], requests, asked, kind=OWN):
            size, grid = map(int, line.split(":")[0].split()[3:5])
            number, count, end = answered(line)
            own = "grid own" if grid else "own"
            self.seen[own, number] += 1
            if not number:
                self.seen[own + " full last page"] += end and count == size
                self.seen[own + " page amid"] += not end

    def ask(self, label, p, q, questions, listed=None, lent=None):
        questions = [(n,) + question for n, question in zip(lent or by_turns(p, len(questions)), questions)]
        asked = [(partners_line, p, q) + tuple(LARGEST_ID if word < 0 else word for word in question) + (listed, n) for n, *question in questions]
        for line in self.put(label, p, q, questions, asked, kind=PARTNERS):
            number, count, enough = map(int, line.split(": ")[1].split()[:3])
            self.seen["question", number] += 1
            if not number:
                self.seen["yes" if enough else "no"] += 1


def followed(rng, listed, sizes, t=0):
    """The requests of a reader who begins at (0, 0) and goes on from the last pair until the end mark, and once more after it."""
    requests, key, seen = [], (0, 0), []
    while True:
        size = rng.choice(sizes)
        requests.append(key + (size, t))
        page = reading.page_of(listed, (0, 0), key, size, t)
        seen += page.pairs
        key = reading.key_of(page.pairs[-1]) if page.pairs else key
        if page.end:
            assert seen == reading.list_of(listed, t)
            return requests + [key + (rng.choice(sizes), t)]


def some_keys(rng, p, q, listed, count):
    """Keys of the list, near it, and anywhere: of ids that are in the sheets and of others."""
    q_ids, p_ids = [point[0] for point in q.points], [point[0] for point in p.points]
    out = []
    for _ in range(count):
        if listed and rng.random() < 0.4:
            one, other = reading.key_of(rng.choice(listed))
            one, other = max(0, one + rng.choice([0, 0, 0, -1, 1])), max(0, other + rng.randint(-1, 1))
        else:
            one = rng.choice(q_ids + [rng.randint(0, reading.ID)])
            other = rng.choice(p_ids + [rng.randint(0, reading.ID), 0, reading.ID])
        out.append((min(one, reading.ID), min(other, reading.ID), rng.randint(1, 16)))
    return out


ENDS = [(0, 0, 16), (0, reading.ID, 16), (reading.ID, 0, 1), (reading.ID, reading.ID, 1)]
OUTSIDE = [(PAST, 0, 1), (0, PAST, 1), (PAST, PAST, 1), (-1, 0, 1), (0, -1, 1), (0, 0, 0), (0, 0, 17), (0, 0, -1), (PAST, 0, 0), (0, PAST, 17), (-1, -1, -1)]


def requests_of(rng, p_words, q_words, sizes, asked):
    p, q = reading.Sheet(p_words), reading.Sheet(q_words)
    listed = reading.ring_list(p.points, q.points)
    return listed, followed(rng, listed, sizes) + some_keys(rng, p, q, listed, asked)


def documents_listing(out):
    p = [1, 0, 0, 2, 10, 0, 0, 1, 0, 1, 0, 0, 2, 0, 0, 10, 0, 17, 7, 2, 1, 7, 1]
    q = [5, 4, 0, 6, 16, 1, 0, 1, 0, 1, 0, 0, 2, 4, 0, 16, 1, 17, 7, 2, 1, 9, 1]
    listed = reading.ring_list(reading.Sheet(p).points, reading.Sheet(q).points)
    assert listed == [(5, 1, 16), (5, 2, 36), (6, 2, 37)]
    page = reading.page_call(p, q, (0, 0), 2)[1]
    assert (page.pairs, page.end) == ([(5, 1, 16), (5, 2, 36)], False)
    page = reading.page_call(p, q, (5, 2), 2)[1]
    assert (page.pairs, page.end) == ([(6, 2, 37)], True)
    page = reading.page_call(p, q, (6, 2), 2)[1]
    assert (page.pairs, page.end) == ([], True)
    assert reading.page_call(p, q, (5, 3), 2)[1].pairs == [(6, 2, 37)]
    out.add("the listing", p, q, [(0, 0, 2), (5, 2, 2), (6, 2, 2), (5, 3, 2), (0, 0, 3), (0, 0, 16), (5, 1, 1), (5, 1, 2)] + ENDS + OUTSIDE)


def farthest(out):
    """Two places as far apart as a sheet has them, on one spot, and a step from each: the sizes at both ends of their range, in both forms."""
    for form, far in ((1, reading.COORDINATE), (2, reading.WIDE_COORDINATE)):
        most = 8 * far * far
        for one, other, size in (((-far, -far), (far, far), most), ((far, -far), (-far, far), most), ((far, far), (far, far), 0),
                                 ((-far, far), (far, 1 - far), most - 4 * far + 1), ((-far, 0), (far, 0), 4 * far * far), ((3, 4), (4, 4), 1)):
            p, q = reading.pack([(8,) + one], [0], 3, form), reading.pack([(9,) + other], [0], 4, form)
            assert reading.ring_list(reading.Sheet(p).points, reading.Sheet(q).points) == [(9, 8, size)]
            out.add("one pair, size %d" % size, p, q, [(0, 0, 1), (0, 0, 16), (9, 7, 1), (9, 8, 1)])
    assert most == reading.DIAMETER


def small_pairs(out, rng):
    for k in range(90):
        places = towns.PLACES[k % len(towns.PLACES)]
        _, p = towns.sheet(rng, places, rng.randint(1, 12))
        _, q = towns.sheet(rng, places, rng.randint(1, 12))
        listed, requests = requests_of(rng, p, q, [1, 2, 3, 16] if k % 3 else [1], 3)
        out.add("%s, followed" % places.__name__, p, q, requests + rng.sample(ENDS, 1), listed)


def more_pairs(out, rng):
    """Lists of many pages: 20 to 70 points each."""
    for k in range(14):
        places = [towns.town, towns.land, towns.circle, towns.grid][k % 4]
        _, p = towns.sheet(rng, places, rng.randint(20, 70))
        _, q = towns.sheet(rng, places, rng.randint(20, 70))
        listed, requests = requests_of(rng, p, q, range(7, 17), 6)
        out.add("%s, followed far" % places.__name__, p, q, requests + ENDS, listed)


def one_sheet(out, rng):
    """One sheet as both P and Q, with n different spots: each record is listed with itself, and two different ones both ways or not at all, exactly if no third one blocks."""
    for n in (1, 2, 5, 16, 17, 33, 48):
        spots = rng.sample([(x, y) for x in range(-9, 10) for y in range(-9, 10)], n)
        points = [(number,) + place for number, place in zip(trees.ids(rng, n), spots)]
        words = trees.sheet(points, trees.near(rng, points), towns.tree(rng, n)[1], 21)
        listed, requests = requests_of(rng, words, words, [5, 15, 16], 2)
        free = [(a, b) for a in points for b in points if not any(reading.blocks(a[1:], b[1:], c[1:]) for c in points if c not in (a, b))]
        assert [pair[:2] for pair in listed] == sorted((a[0], b[0]) for a, b in free) and all((point, point) in free for point in points)
        out.add("one sheet as both, %d spots" % n, words, words, requests, listed)
    _, words = towns.sheet(rng, towns.spots, 12)
    listed, requests = requests_of(rng, words, words, [2, 16], 2)
    out.add("one sheet as both, several records on one spot", words, words, requests, listed)


def refused(out, rng):
    """P's sheet, then Q's, then the key, then the size: two faults together get the earlier number."""
    for p, q, number in towns.both_faulty(rng):
        assert reading.page_call(p, q, (0, 0), 1)[0] == number
        out.add("bad P and bad Q", p, q, [(0, 0, 1)])
    for number in range(1, 9):
        _, right = towns.sheet(rng, towns.grid, rng.randint(1, 5))
        wrong = towns.faulty(rng, number)
        for p, q in ((wrong, right), (right, wrong)):
            assert reading.page_call(p, q, (PAST, 0), 0)[0] == number
            out.add("bad sheet and bad key", p, q, [(0, 0, 1), (PAST, 0, 1), (0, -1, 1), (0, 0, 0), (PAST, 0, 0)])
    for _ in range(6):
        _, p = towns.sheet(rng, towns.grid, rng.randint(1, 5))
        _, q = towns.sheet(rng, towns.grid, rng.randint(1, 5))
        assert reading.page_call(p, q, (PAST, 0), 0)[0] == 9
        out.add("bad key and bad size", p, q, ENDS + OUTSIDE)
    empty = reading.pack([], [], 3)
    _, some = towns.sheet(rng, towns.grid, 4)
    for p, q in ((empty, some), (some, empty), (empty, empty)):
        out.add("an empty sheet", p, q, ENDS + OUTSIDE[:1])


T_OUTSIDE = [(0, 0, 1, 60001), (0, 0, 16, -1), (0, 0, 0, 60001), (0, 0, 17, -1), (PAST, 0, 1, 60001), (PAST, 0, 0, -1), (0, 0, 1, 60000), (0, 0, 16, 59999), (0, 0, 16, 1001)]


def thresholds(out, rng):
    """Pages of the least t and of the greatest with a pair, followed and from keys amid a chamber's pairs; each chamber asked for its number of partners and one more."""
    for k in range(28):
        places = [towns.town, towns.land, towns.circle, towns.grid][k % 4]
        _, p = towns.sheet(rng, places, rng.randint(2, 18))
        _, q = towns.sheet(rng, places, rng.randint(1, 18))
        houses, chambers = reading.Sheet(p), reading.Sheet(q)
        listed = reading.ring_list(houses.points, chambers.points)
        many = collections.Counter(pair[0] for pair in listed)
        most = max(many.values(), default=0)
        requests = []
        for t in sorted({1, 2, most, most + 1}):
            requests += followed(rng, listed, [2, 3, 16], t)
            requests += [key + (t,) for key in some_keys(rng, houses, chambers, listed, 2)]
        out.add("%s, each t" % places.__name__, p, q, requests + rng.sample(T_OUTSIDE, 3), listed)
        ids = [point[0] for point in chambers.points]
        questions = [(q_id, t) for q_id in ids for t in sorted({max(1, many[q_id]), many[q_id] + 1})]
        questions += [(q_id, t) for q_id in (rng.choice(ids), 0, rng.choice(ids) + 1, max(ids) + 1, reading.ID, -1, houses.points[0][0]) for t in (0, 1, 1001, 60000, 60001, -1)]
        out.ask("%s, partners" % places.__name__, p, q, questions, listed)


def refused_questions(out, rng):
    """P's sheet, then Q's, then the id, then t."""
    for p, q, number in towns.both_faulty(rng):
        assert reading.partners_call(p, q, 0, 0)[0] == number
        out.ask("bad P and bad Q, partners", p, q, [(0, 0), (5, 1)])
    for number in range(1, 9):
        _, right = towns.sheet(rng, towns.grid, rng.randint(1, 5))
        wrong = towns.faulty(rng, number)
        for p, q in ((wrong, right), (right, wrong)):
            assert reading.partners_call(p, q, 0, 0)[0] == number
            out.ask("bad sheet and bad question", p, q, [(0, 1), (1, 0), (-1, -1)])
    empty = reading.pack([], [], 3)
    _, some = towns.sheet(rng, towns.grid, 4)
    for p, q in ((empty, some), (some, empty), (empty, empty)):
        out.ask("an empty sheet, partners", p, q, [(q_id, t) for q_id in [point[0] for point in reading.Sheet(q).points] + [0, 1] for t in (0, 1, 60001)])


def self_joins(out, rng):
    """One sheet with itself: its list followed, keys of it and near it; several records on one spot; one record, none; and what is refused."""
    for k in range(40):
        places = towns.PLACES[k % len(towns.PLACES)]
        _, words = towns.sheet(rng, places, rng.randint(1, 14) if k % 4 else rng.randint(20, 50))
        sheet = reading.Sheet(words)
        listed = reading.self_list(sheet.points)
        requests = [request[:3] for request in followed(rng, listed, [1, 2, 3, 16] if k % 4 else [7, 15, 16])]
        out.own("%s, one sheet with itself" % places.__name__, words, requests + some_keys(rng, sheet, sheet, listed, 4) + rng.sample(ENDS, 1), listed if k % 4 in (0, 3) else None)
    for number in range(1, 9):
        wrong = towns.faulty(rng, number)
        assert reading.own_call(wrong, (PAST, 0), 0)[0] == number
        out.own("bad sheet, self join", wrong, [(0, 0, 1), (PAST, 0, 1), (0, 0, 0), (-1, 0, 1), (PAST, PAST, 16)])
    _, some = towns.sheet(rng, towns.grid, 5)
    together = reading.pack([(4, 2, 2), (6, 2, 2), (9, 5, 5)], [2, 0, 1], 3)
    for words in (some, together, reading.pack([(4, 2, 2)], [0], 3), reading.pack([], [], 3)):
        out.own("keys and sizes of a self join", words, ENDS + OUTSIDE)
    points = [(number,) + place for number, place in zip(trees.ids(rng, 300, reading.ID), towns.land(rng, 300))]
    words = trees.sheet(points, trees.near(rng, points), reading.runs_of_sixteen(300), 33)
    listed = reading.self_list(points)
    out.own("300 points, self join", words, [(0, 0, 16), reading.key_of(listed[len(listed) // 2]) + (16,), reading.key_of(listed[-17]) + (16,), reading.key_of(listed[-1]) + (1,)], listed)


def large_pairs(out, rng):
    """1,000 points each. The list is too long to make by brute force here: from a key among the last few q, what follows is short."""
    points = [[(n,) + place for n, place in zip(trees.ids(rng, 1000, reading.ID), towns.land(rng, 1000))] for _ in range(2)]
    p, q = [trees.sheet(these, trees.near(rng, these), reading.runs_of_sixteen(1000), 30 + k) for k, these in enumerate(points)]
    last = range(995, 1000)
    listed = sorted(reading.pair_of(points[0], points[1], j, i) for j in last for i in range(1000) if reading.is_ring_pair(points[0], points[1], j, i))
    key = points[1][994][0]
    requests = [(key, reading.ID, 5), (key, reading.ID, 16), reading.key_of(listed[len(listed) // 2]) + (2,), reading.key_of(listed[-1]) + (1,), reading.key_of(listed[-2]) + (1,)]
    out.add("1,000 points", p, q, requests + [(key, reading.ID, 16, t) for t in (1, 4, 1000)], listed)
    out.ask("1,000 points, partners", p, q, [(points[1][j][0], t) for j in last for t in (1, 5, 1000)], listed)


def of_forms(out, rng):
    """Sheets of form 2 to the ends of its range, with each other and with those of form 1, and alone; and one that needs more than sixteen words."""
    for label, p, q in towns.of_forms(rng, 30, 11):
        listed, requests = requests_of(rng, p, q, [1, 3, 16], 3)
        many = collections.Counter(pair[0] for pair in listed)
        most = max(many.values(), default=0)
        out.add(label, p, q, requests + followed(rng, listed, [2, 16], most), listed)
        out.ask(label + ", partners", p, q, [(point[0], t) for point in reading.Sheet(q).points[:3] for t in (1, max(1, many[point[0]]), many[point[0]] + 1)], listed)
        listed = reading.self_list(reading.Sheet(p).points)
        out.own(label + ", one sheet with itself", p, [request[:3] for request in followed(rng, listed, [2, 16])], listed)
    p, q = towns.many(rng), towns.sheet(rng, towns.province, 5, form=2)[1]
    listed, requests = requests_of(rng, p, q, [16], 2)
    out.add("1,300 points of form 2", p, q, requests + [(0, 0, 16)], listed, [21] * len(requests) + [20])
    ids = [point[0] for point in reading.Sheet(q).points]
    out.ask("1,300 points of form 2, partners", p, q, [(q_id, 60000) for q_id in ids] + [(ids[0], 1)], listed, [21, 22, WORDS, 21, 21, 16])
    last = reading.Sheet(p).points[-1][0]
    out.own("1,300 points of form 2, self join", p, [(last, 0, 16), (last, 0, 16), (last, 0, 16)], [], [21, 22, 20])


def words_lent(out, rng):
    """One word too few, no word, exactly enough and more: every other number comes before 24, and the words past those needed stay. A page that filters nobody
    leaves zeros too."""
    for p, q in towns.few_words(rng):
        need, q_id = needed(p), reading.Sheet(q).points[-1][0]
        listed = reading.ring_list(reading.Sheet(p).points, reading.Sheet(q).points)
        requests = [(0, 0, 16, 0), (0, 0, 16, 1), (reading.ID, 0, 1, 0), (PAST, 0, 1, 0), (0, 0, 0, 0), (0, 0, 1, 60001)]
        several = [(n, request) for n in (need - 1, 0, need, need + 1, WORDS) for request in requests]
        out.add("words lent", p, q, [request for _, request in several], listed, [n for n, _ in several])
        several = [(n, question) for n in (need - 1, 0, need, WORDS) for question in ((q_id, 1), (q_id, 60001), (q_id + 1, 1))]
        out.ask("words lent, partners", p, q, [question for _, question in several], listed, [n for n, _ in several])
        several = [(n, request) for n in (need - 1, 0, need, need + 1) for request in ((0, 0, 16), (PAST, 0, 1), (0, 0, 17), (reading.ID, 0, 1))]
        out.own("words lent, self join", p, [request for _, request in several], reading.self_list(reading.Sheet(p).points), [n for n, _ in several])
    for number in range(1, 9):
        _, right = towns.sheet(rng, towns.grid, rng.randint(1, 5))
        wrong = towns.faulty(rng, number)
        for p, q in ((wrong, right), (right, wrong)):
            out.add("bad sheet, no word lent", p, q, [(0, 0, 1)], None, [0])
            out.ask("bad sheet, no word lent", p, q, [(1, 1)], None, [0])
        out.own("bad sheet, no word lent", wrong, [(0, 0, 1)], None, [0])
    empty = reading.pack([], [], 3, rng.randint(1, 2))
    _, some = towns.sheet(rng, towns.grid, 4)
    q_id = reading.Sheet(some).points[0][0]
    out.add("no point in P, no word lent", empty, some, [(0, 0, 16), (0, 0, 16)], [], [0, 2])
    out.ask("no point in P, no word lent", empty, some, [(q_id, 1), (q_id, 1)], [], [0, 2])
    out.own("no point, no word lent", empty, [(0, 0, 16), (0, 0, 16)], [], [0, 2])
    out.add("no point in Q, words lent", some, empty, [(0, 0, 16)] * 3, [], [0, 1, 2])


def on_streets(requests):
    """The same requests, with their thresholds, of the street grid."""
    return [request[:4] + (1,) for request in requests]


def street_listing(out):
    """The listing's sheets, and an empty list of two sheets that are not: two pump houses, each of which blocks the other's pair with the one chamber."""
    p = [1, 0, 0, 2, 10, 0, 0, 1, 0, 1, 0, 0, 2, 0, 0, 10, 0, 17, 7, 2, 1, 7, 1]
    q = [5, 4, 0, 6, 16, 1, 0, 1, 0, 1, 0, 0, 2, 4, 0, 16, 1, 17, 7, 2, 1, 9, 1]
    listed = reading.ring_list(reading.Sheet(p).points, reading.Sheet(q).points, True)
    assert listed == [(5, 1, 16), (5, 2, 36), (6, 2, 49)]
    requests = [(0, 0, 2, 0), (5, 2, 2, 0), (6, 2, 2, 0), (5, 3, 2, 0), (0, 0, 16, 1), (0, 0, 16, 2), (0, 0, 16, 3)]
    out.add("the listing along the streets", p, q, on_streets(requests + [ask + (0,) for ask in ENDS + OUTSIDE] + T_OUTSIDE), listed)
    p, q = reading.pack([(1, 4, 4), (2, 5, 3)], [0, 1], 7), reading.pack([(5, 0, 0)], [0], 9)
    for one, other in ((p, q), (q, p)):
        assert reading.page_call(one, other, (0, 0), 16, grid=True)[1].pairs == []
        assert len(reading.page_call(one, other, (0, 0), 16)[1].pairs) == 1
        out.add("no visit along the streets", one, other, on_streets([(0, 0, 16, 0), (5, 1, 1, 0), (0, 0, 16, 1)]) + [(0, 0, 16)])
    far = reading.COORDINATE
    for one, other, size in (((-far, -far), (far, far), 16 * far * far), ((far, -far), (-far, far), 16 * far * far), ((far, far), (far, far), 0),
                             ((-far, far), (far, 1 - far), (4 * far - 1) ** 2), ((-far, 0), (far, 0), 4 * far * far), ((3, 4), (4, 4), 1), ((0, 0), (3, 4), 49)):
        p, q = reading.pack([(8,) + one], [0], 3), reading.pack([(9,) + other], [0], 4)
        assert reading.ring_list(reading.Sheet(p).points, reading.Sheet(q).points, True) == [(9, 8, size)] and size <= reading.STREETS
        out.add("one pair along the streets, size %d" % size, p, q, on_streets([(0, 0, 1, 0), (9, 7, 1, 0), (9, 8, 1, 0), (0, 0, 16, 1)]))


def street_pages(out, rng):
    """Lists of the street grid followed, from any key, and of each t; self joins likewise. Some with the list handed in, and some with it made anew."""
    for k in range(72):
        places = towns.STREET_PLACES[k % len(towns.STREET_PLACES)]
        most = 30 if k % 12 == 0 else 10
        p, q = towns.sheet(rng, places, rng.randint(1, most))[1], towns.sheet(rng, places, rng.randint(1, most))[1]
        houses, chambers = reading.Sheet(p), reading.Sheet(q)
        listed = reading.ring_list(houses.points, chambers.points, True)
        many = collections.Counter(pair[0] for pair in listed)
        requests = followed(rng, listed, [1, 2, 3, 16] if k % 3 else [1, 15])
        requests += [key + (0,) for key in some_keys(rng, houses, chambers, listed, 3)] + [ask + (0,) for ask in rng.sample(ENDS, 1)]
        for t in rng.sample(sorted({1, 2, max(many.values(), default=3), max(many.values(), default=3) + 1}), 2):
            requests += followed(rng, listed, [2, 3, 16], t) + [key + (t,) for key in some_keys(rng, houses, chambers, listed, 2)]
        out.add("%s, along the streets" % places.__name__, p, q, on_streets(requests) + [(0, 0, 16, 0, 0)], None)
        listed = reading.self_list(houses.points, True)
        asked = [request[:3] for request in followed(rng, listed, [1, 2, 3, 16])] + some_keys(rng, houses, houses, listed, 3)
        out.own("%s, one sheet along the streets" % places.__name__, p, [ask + (1,) for ask in asked], None)


def street_refused(out, rng):
    """29 after the sheets' numbers and before the key, the size, the threshold and the words, for P, for Q and for both; and every other number as of the circle."""
    asked = [(0, 0, 1, 0), (PAST, 0, 1, 0), (0, -1, 1, 0), (0, 0, 0, 0), (PAST, 0, 0, 60001), (0, 0, 1, 60001), (0, 0, 16, 2)]
    for p, q in towns.too_wide(rng):
        assert reading.page_call(p, q, (PAST, 0), 0, grid=True)[0] == 29 and reading.page_call(p, q, (0, 0), 1)[0] == 0
        out.add("form 2 along the streets", p, q, on_streets(asked) + asked[:2])
        out.add("form 2 along the streets, no word lent", p, q, on_streets(asked), None, [0] * len(asked))
        for one in (p, q):
            out.own("a sheet of its form along the streets", one, [ask[:3] + (grid,) for ask in asked[:5] for grid in (1, 0)])
            out.own("a sheet of its form along the streets, no word lent", one, [ask[:3] + (1,) for ask in asked[:5]], None, [0] * 5)
    for number in range(1, 9):
        _, wide = towns.sheet(rng, towns.grid, rng.randint(1, 5), form=2)
        _, right = towns.sheet(rng, towns.grid, rng.randint(1, 5))
        wrong = towns.faulty(rng, number)
        for p, q in ((wrong, wide), (wide, wrong), (wrong, right), (right, wrong)):
            assert reading.page_call(p, q, (PAST, 0), 0, grid=True)[0] == number
            out.add("a bad sheet along the streets", p, q, on_streets(asked[:3]))
        out.own("a bad sheet along the streets", wrong, [(0, 0, 1, 1), (PAST, 0, 0, 1)])
    _, p = towns.sheet(rng, towns.grid, 5)
    _, q = towns.sheet(rng, towns.grid, 4)
    out.add("bad keys along the streets", p, q, on_streets([ask + (0,) for ask in ENDS + OUTSIDE] + T_OUTSIDE))
    for words in (p, reading.pack([(4, 2, 2), (6, 2, 2), (9, 5, 5)], [2, 0, 1], 3), reading.pack([(4, 2, 2)], [0], 3), reading.pack([], [], 3)):
        out.own("bad keys along the streets, self join", words, [ask + (1,) for ask in ENDS + OUTSIDE])
    empty = reading.pack([], [], 3)
    for one, other in ((empty, p), (p, empty), (empty, empty), (reading.pack([], [], 3, 2), p), (p, reading.pack([], [], 3, 2))):
        out.add("an empty sheet along the streets", one, other, on_streets([(0, 0, 16, 0), (PAST, 0, 1, 0), (0, 0, 16, 1)]))


def street_words(out, rng):
    """Of the street grid all of P is kept, so as many words are lent: one too few, none, exactly enough and more."""
    for n in (1, 2, 63, 64, 65, 128, 129):
        p, q = towns.sheet(rng, rng.choice([towns.town, towns.land]), n)[1], towns.sheet(rng, towns.town, rng.randint(2, 4))[1]
        need = needed(p)
        listed = reading.ring_list(reading.Sheet(p).points, reading.Sheet(q).points, True)
        requests = on_streets([(0, 0, 16, 0), (0, 0, 16, 1), (reading.ID, 0, 1, 0), (PAST, 0, 1, 0), (0, 0, 0, 0), (0, 0, 1, 60001)])
        several = [(lent, request) for lent in (need - 1, 0, need, need + 1, WORDS) for request in requests]
        out.add("words lent along the streets", p, q, [request for _, request in several], listed, [lent for lent, _ in several])
        several = [(lent, ask + (1,)) for lent in (need - 1, 0, need, need + 1) for ask in ((0, 0, 16), (PAST, 0, 1), (0, 0, 17), (reading.ID, 0, 1))]
        listed = reading.self_list(reading.Sheet(p).points, True)
        out.own("words lent along the streets, self join", p, [ask for _, ask in several], listed, [lent for lent, _ in several])


def street_large(out, rng):
    """1,000 points each, from a key among the last few q: every pump house of each is ring-walked. And the self join of 200."""
    points = [[(n,) + place for n, place in zip(trees.ids(rng, 1000, reading.ID), towns.land(rng, 1000))] for _ in range(2)]
    p, q = [trees.sheet(these, trees.near(rng, these), reading.runs_of_sixteen(1000), 40 + k) for k, these in enumerate(points)]
    last = range(997, 1000)
    couples = [(j, i) for j in last for i in range(1000) if reading.is_ring_pair(points[0], points[1], j, i, True)]
    listed = sorted(reading.pair_of(points[0], points[1], j, i, True) for j, i in couples)
    key = points[1][996][0]
    requests = [(key, reading.ID, 2, 0), (key, reading.ID, 16, 0), reading.key_of(listed[-1]) + (1, 0), (key, reading.ID, 16, 1), (key, reading.ID, 16, 4)]
    out.add("1,000 points along the streets", p, q, on_streets(requests), listed)
    points = [(number,) + place for number, place in zip(trees.ids(rng, 200, reading.ID), towns.land(rng, 200))]
    words = trees.sheet(points, trees.near(rng, points), reading.runs_of_sixteen(200), 43)
    listed = reading.self_list(points, True)
    asked = [(0, 0, 16), reading.key_of(listed[len(listed) // 2]) + (16,), reading.key_of(listed[-17]) + (16,), reading.key_of(listed[-1]) + (1,)]
    out.own("200 points along the streets, self join", words, [ask + (1,) for ask in asked], listed)


def cases():
    rng = Chance("pages")
    out = Pages()
    documents_listing(out)
    farthest(out)
    small_pairs(out, rng)
    more_pairs(out, rng)
    one_sheet(out, rng)
    refused(out, rng)
    thresholds(out, rng)
    refused_questions(out, rng)
    self_joins(out, rng)
    large_pairs(out, rng)
    of_forms(out, Chance("pages of both forms"))
    words_lent(out, Chance("words for pages"))
    street_listing(out)
    street_pages(out, Chance("pages along the streets"))
    street_refused(out, Chance("refused along the streets"))
    street_words(out, Chance("words along the streets"))
    street_large(out, Chance("large along the streets"))
    assert out.pairs >= 100
    assert all(out.seen[number] >= 10 for number in range(11)), out.seen
    assert all(out.seen[what] >= 10 for what in ("end mark", "no end mark", "full last page", "empty page", "page of a t", "yes", "no", 21, 24)), out.seen
    assert all(out.seen["own", number] >= 2 for number in range(11)), out.seen
    assert all(out.seen[what] >= 10 for what in ("own full last page", "own page amid")), out.seen
    assert out.seen["own", 24] >= 2
    assert all(out.seen["question", number] >= 2 for number in list(range(9)) + [20, 21, 24]), out.seen
    assert all(out.seen["grid", number] >= 4 and out.seen["grid own", number] >= 2 for number in list(range(11)) + [24, 29]) and out.seen["grid", 21] >= 4, out.seen
    several = ("grid end mark", "grid no end mark", "grid empty page", "grid page of a t", "grid own full last page", "grid own page amid")
    assert all(out.seen[what] >= 10 for what in several), out.seen
    assert not out.seen[29] and not out.seen["own", 29]
    return out.cases
