"""The part `many` of the tape: many pairs of a list at once, of two sheets and of self joins, to a size, on slots that are marked before; and how many pairs such a
list has.

A case, in words: its kind, the lengths of P's and Q's sheet, the number of requests, P's words, Q's words, and for each request the number of words lent; of a
request for pairs then the key's q id and p id and how many of 256 slots are lent; then the largest size, in three words, the threshold, the profile, 0 for the
circle and 1 for the street grid, the contractor, the number of owner bytes, and these, a word each. Of a self join the length of one sheet, 0, the number of
requests, its words, and for each request the same without threshold, contractor and bytes. The three words of a size are its digits to the base 2^31, the highest
first. A negative word stands for the largest number that a call can be given. Each slot holds a mark before the call. A line has the request, of the owner bytes
their number; of a request for pairs then its number of refusal, the number of pairs, whether more follow, how many of the 256 slots still hold their mark, and
the pairs with their sizes; of a count its number of refusal and the count; then what the words hold that were marked before.
"""
import collections
import itertools

import reading
import towns
import trees
from chance import Chance
from make_listing_cases import P, Q
from make_pages import LARGEST_ID, PAST, some_keys
from make_runs import MARKS, SLOTS
from stored import COUNT, MANY, OWN_COUNT, OWN_MANY, WORDS, Asked, by_turns, lent_told, marks, needed, whose

LARGEST = 2 ** 64 - 1
ANY, OVER = reading.ANY_SIZE, reading.ANY_SIZE + 1
DIGIT = 2 ** 31
# what a request for pairs may leave out, the last first: a threshold, a profile, a contractor and its owner bytes
LEFT_OUT = (0, 0, reading.UNDIVIDED, ())


def digits(number):
    return [number // DIGIT ** 2, number // DIGIT % DIGIT, number % DIGIT]


def id_of(word):
    return LARGEST_ID if word < 0 else word


def many_told(answer, lent, words):
    number, count, more, slots, after = answer
    marked = sum(slot == mark for slot, mark in zip(slots + MARKS[lent:], MARKS))
    fields = [number, count, int(more), marked] + [word for pair in slots[:count] for word in pair]
    return " ".join(map(str, fields)) + lent_told(words, after)


def pairs_line(rules, p, q, key, largest, lent, t, grid, contractor, owners, listed, words):
    answer = rules.pairs_call(p, q, key, largest, MARKS[:lent], t, listed, marks(words), bool(grid), contractor, owners)
    return "pairs %d %d %d %d %d %d %d %d: %s" % (key + (largest, t, grid, contractor, len(owners), lent, many_told(answer, lent, words)))


def own_pairs_line(rules, s, key, largest, lent, grid, listed, words):
    answer = rules.own_pairs_call(s, key, largest, MARKS[:lent], listed, marks(words), bool(grid))
    return "own pairs %d %d %d %d %d: %s" % (key + (largest, grid, lent, many_told(answer, lent, words)))


def count_line(rules, p, q, largest, t, grid, contractor, owners, listed, words):
    number, count, after = rules.count_call(p, q, largest, t, listed, marks(words), bool(grid), contractor, owners)
    return "count %d %d %d %d %d: %d %d%s" % (largest, t, grid, contractor, len(owners), number, count, lent_told(words, after))


def own_count_line(rules, s, largest, grid, listed, words):
    number, count, after = rules.own_count_call(s, largest, listed, marks(words), bool(grid))
    return "own count %d %d: %d %d%s" % (largest, grid, number, count, lent_told(words, after))


class Many(Asked):
    name = "many"
    kind = MANY

    def add(self, label, p, q, requests, listed=None, lent=None):
        """A request: a key's q id and p id, the largest size and the number of slots; then what may be left out."""
        requests = [request + LEFT_OUT[len(request) - 4:] for request in requests]
        asked, stored = [], []
        for n, (key_q, key_p, largest, slots, t, grid, contractor, owners) in zip(lent or by_turns(p, len(requests)), requests):
            stored.append([n, key_q, key_p, slots] + digits(largest) + [t, grid] + whose(contractor, owners))
            asked.append((pairs_line, p, q, (id_of(key_q), id_of(key_p)), largest, slots, id_of(t), grid, id_of(contractor), owners, listed, n))
        for line, (*_, largest, slots, t, grid, contractor, owners) in zip(self.put(label, p, q, stored, asked), requests):
            self.saw("grid" if grid else "circle", line, largest, slots)
            number, count = map(int, line.split(": ")[1].split()[:2])
            self.seen["of a t"] += t > 0 and count > 0
            self.seen["of a contractor"] += contractor < 2 and count > 0
            self.seen["of a form 2 sheet"] += not number and 2 in (p[-1], q[-1]) and count > 0

    def own(self, label, s, requests, listed=None, lent=None):
        """A request: a key, the largest size and the number of slots; then a profile."""
        requests = [request + (0,) * (5 - len(request)) for request in requests]
        asked, stored = [], []
        for n, (key_q, key_p, largest, slots, grid) in zip(lent or by_turns(s, len(requests)), requests):
            stored.append([n, key_q, key_p, slots] + digits(largest) + [grid])
            asked.append((own_pairs_line, s, (id_of(key_q), id_of(key_p)), largest, slots, grid, listed, n))
        for line, (*_, largest, slots, grid) in zip(self.put(label, s, [], stored, asked, kind=OWN_MANY), requests):
            self.saw("own grid" if grid else "own", line, largest, slots)

    def saw(self, what, line, largest, lent):
        words = line.split(": ")[1].split(" lent")[0].split()
        number, count, more, marked = map(int, words[:4])
        assert marked == SLOTS - count
        self.seen[what, number] += 1
        if number == 0:
            self.seen[what, "more follow"] += more
            self.seen[what, "exactly enough"] += 0 < count == lent and not more
            self.seen[what, "no slot and more"] += lent == 0 and more
            self.seen[what, "no slot and none"] += lent == 0 and not more
            self.seen[what, "slots left"] += 0 < count < lent
            self.seen[what, "no pair"] += count == 0 < lent
            self.seen[what, "a size that is the largest"] += str(largest) in words[6::3]

    def count(self, label, p, q, requests, listed=None, lent=None):
        """A request: the largest size; then what may be left out."""
        requests = [request + LEFT_OUT[len(request) - 1:] for request in requests]
        asked, stored = [], []
        for n, (largest, t, grid, contractor, owners) in zip(lent or by_turns(p, len(requests)), requests):
            stored.append([n] + digits(largest) + [t, grid] + whose(contractor, owners))
            asked.append((count_line, p, q, largest, id_of(t), grid, id_of(contractor), owners, listed, n))
        self.counted("counted", self.put(label, p, q, stored, asked, kind=COUNT))

    def own_count(self, label, s, requests, listed=None, lent=None):
        """A request: the largest size; then a profile."""
        requests = [request + (0,) * (2 - len(request)) for request in requests]
        asked, stored = [], []
        for n, (largest, grid) in zip(lent or by_turns(s, len(requests)), requests):
            stored.append([n] + digits(largest) + [grid])
            asked.append((own_count_line, s, largest, grid, listed, n))
        self.counted("own counted", self.put(label, s, [], stored, asked, kind=OWN_COUNT))

    def counted(self, what, lines):
        for line in lines:
            number, count = map(int, line.split(": ")[1].split()[:2])
            self.seen[what, number] += 1
            self.seen[what, "more than none"] += count > 0


def edges(listed):
    """Each size of a list, one less and one more; none at all; and at the limit."""
    sizes = {pair[2] for pair in listed}
    return sorted({size + more for size in sizes for more in (-1, 0, 1) if size + more >= 0 and size + more <= ANY} | {0, 1, ANY - 1, ANY})


def slots_for(rng, listed, key, largest, t=0):
    """How many slots: none, one fewer than there are pairs, exactly as many, one more, all."""
    many = len(reading.pairs_after(reading.list_up_to(listed, largest, t), key))
    return rng.choice([slots for slots in (0, 1, many - 1, many, many, many + 1, SLOTS) if 0 <= slots <= SLOTS])


def some(rng, p, q, listed, count, ts=(0,)):
    """So many requests: keys of the list, near it and anywhere; sizes at the edges of the list's; slots that are too few, exactly enough and more."""
    out = []
    ends = [(0, 0), (0, reading.ID), (reading.ID, 0), (reading.ID, reading.ID)]
    for key_q, key_p, _ in some_keys(rng, p, q, listed, count):
        key = rng.choice([(key_q, key_p), (key_q, key_p), (0, 0), rng.choice(ends)])
        largest, t = rng.choice(edges(listed) + [ANY] * 4), rng.choice(ts)
        out.append(key + (largest, slots_for(rng, listed, key, largest, t), t))
    return out


def followed(rng, listed, slots, largest=ANY, t=0):
    """The requests of a reader who begins at (0, 0) and goes on from the last pair until no more follow, and once more after it."""
    requests, key, seen = [], (0, 0), []
    while True:
        lent = rng.choice(slots)
        requests.append(key + (largest, lent, t))
        count, more, stored = reading.stored_in(MARKS[:lent], reading.pairs_after(reading.list_up_to(listed, largest, t), key))
        seen += stored[:count]
        key = reading.key_of(seen[-1]) if seen else key
        if not more:
            assert seen == reading.list_up_to(listed, largest, t)
            return requests + [key + (largest, rng.choice(slots), t)]


def with_terms(requests, grid, contractor=reading.UNDIVIDED, owners=()):
    """The same requests, of a profile and a contractor; of an undivided list with no bytes."""
    return [request + (grid, contractor, () if contractor == reading.UNDIVIDED else owners) for request in requests]


def counts_of(requests):
    """The counts of the lists that these requests are of."""
    return sorted({request[2:3] + request[4:] for request in requests})


def documents_listing(out):
    """The listing of document 01, with every number of slots, from every key, to each size; and what is refused of it."""
    listed = [(5, 1, 16), (5, 2, 36), (6, 2, 37)]
    assert reading.pairs_call(P, Q, (0, 0), ANY, MARKS[:2])[:4] == (0, 2, True, listed[:2])
    assert reading.pairs_call(P, Q, (5, 2), ANY, MARKS[:2])[:4] == (0, 1, False, listed[2:] + MARKS[1:2])
    assert reading.pairs_call(P, Q, (0, 0), 36, MARKS[:2])[:4] == (0, 2, False, listed[:2])
    # to 16 chamber 5 has one pair, to 36 both
    assert [reading.pairs_call(P, Q, (5, 1), largest, MARKS[:4], 2)[1] for largest in (35, 36, ANY)] == [0, 1, 1]
    requests = [(0, 0, ANY, slots) for slots in range(6)] + [(0, 0, largest, slots) for largest in (0, 15, 16, 17, 35, 36, 37, 38) for slots in (0, 1, 2, 3, 4)]
    requests += [(key_q, key_p, ANY, slots) for key_q in (4, 5, 6, 7) for key_p in (0, 1, 2, 3) for slots in (0, 1, 4)]
    requests += [(0, 0, largest, 4, t) for largest in (16, 35, 36, 37, ANY) for t in (1, 2, 3)] + [(5, 1, largest, 4, 2) for largest in (35, 36, ANY)]
    outside = [(PAST, 0, ANY, 1), (0, PAST, ANY, 1), (-1, 0, ANY, 1), (0, -1, ANY, 1), (0, 0, OVER, 1), (0, 0, LARGEST, 1), (0, 0, OVER, 0), (0, 0, ANY, 1, 60001), (0, 0, ANY, 1, -1)]
    outside += [(PAST, 0, OVER, 1, 60001), (0, 0, OVER, 1, 60001), (0, 0, ANY - 1, 4, 60000), (0, 0, 2 ** 63 - 1, 4), (0, 0, 2 ** 63, 4), (0, 0, 2 ** 62, 4), (0, 0, 2 ** 31, 4), (0, 0, 2 ** 32, 4)]
    for grid in (0, 1):
        out.add("the listing", P, Q, with_terms([request + (0,) * (5 - len(request)) for request in requests + outside], grid))
        out.count("the listing", P, Q, [request[2:3] + ((request + (0,))[4], grid) for request in requests[:30] + outside + [(0, 0, largest, 0, t) for largest in (16, 36, ANY) for t in (1, 2, 3)]])
        out.own("the listing, one sheet with itself", P, [request[:4] + (grid,) for request in requests[:20] + outside[:7]])
        out.own_count("the listing, one sheet with itself", P, [(largest, grid) for largest in (0, 99, 100, 101, ANY, OVER, LARGEST)])


def farthest(out):
    """Two places as far apart as a sheet has them, on one spot, and one step away: the largest size at each edge, in both forms."""
    for form, far in ((1, reading.COORDINATE), (2, reading.WIDE_COORDINATE)):
        most = 8 * far * far
        for one, other, size in (((-far, -far), (far, far), most), ((far, -far), (-far, far), most), ((far, far), (far, far), 0), ((-far, far), (far, 1 - far), most - 4 * far + 1)):
            p, q = reading.pack([(8,) + one], [0], 3, form), reading.pack([(9,) + other], [0], 4, form)
            both = reading.pack([(8,) + one, (9,) + other], [1, 0], 3, form)
            sizes = sorted({0, max(size - 1, 0), size, size + 1, ANY - 1, ANY, OVER, LARGEST})
            assert reading.pairs_call(p, q, (0, 0), size, MARKS[:1])[1:3] == (1, False) and (not size or reading.pairs_call(p, q, (0, 0), size - 1, MARKS[:1])[1:3] == (0, False))
            out.add("one pair, size %d" % size, p, q, [(0, 0, largest, slots) for largest in sizes for slots in (0, 1, 2)] + [(0, 0, size, 1, 1), (9, 7, size, 1), (9, 8, size, 1), (9, 7, size, 0)])
            out.count("one pair, size %d" % size, p, q, [(largest, t) for largest in sizes for t in (0, 1, 2)])
            out.own("one pair of one sheet, size %d" % size, both, [(0, 0, largest, slots) for largest in sizes for slots in (0, 1, 2)] + [(8, 8, size, 1), (8, 9, size, 1)])
            out.own_count("one pair of one sheet, size %d" % size, both, [(largest,) for largest in sizes])
    assert most == ANY
    far = reading.COORDINATE
    p, q = reading.pack([(8, -far, -far)], [0], 3), reading.pack([(9, far, far)], [0], 4)
    most = reading.STREETS
    out.add("one pair along the streets", p, q, with_terms([(0, 0, largest, 1, 0) for largest in (0, most // 2, most - 1, most, most + 1, ANY, OVER)], 1))
    out.count("one pair along the streets", p, q, [(largest, 0, 1) for largest in (0, most // 2, most - 1, most, most + 1, ANY, OVER)])


def small_pairs(out, rng):
    """Lists of two sheets of either profile, followed and from any key, to sizes at the edges of the list's, of a t and of contractors; the counts of all these."""
    for k in range(64):
        places, grid = towns.STREET_PLACES[k // 2 % len(towns.STREET_PLACES)], k % 2
        p = towns.sheet(rng, places, rng.randint(1, 12))[1]
        q = p if k % 17 == 3 else towns.sheet(rng, places, rng.randint(1, 12))[1]
        houses, chambers = reading.Sheet(p), reading.Sheet(q)
        whole = reading.ring_list(houses.points, chambers.points, bool(grid))
        most = max(collections.Counter(pair[0] for pair in whole).values(), default=1)
        requests = with_terms(followed(rng, whole, [1, 2, 5]) + some(rng, houses, chambers, whole, 10), grid)
        requests += with_terms(some(rng, houses, chambers, whole, 6, sorted({1, 2, most, most + 1})), grid)
        owners = tuple(rng.randint(0, 1) for _ in range(chambers.n))
        for contractor in (0, 1):
            listed = reading.contractors_list(whole, chambers, reading.chambers_of(chambers, owners, contractor))
            requests += with_terms(followed(rng, listed, [2, 3], rng.choice(edges(listed))) + some(rng, houses, chambers, listed, 3, (0, 0, 1, 2)), grid, contractor, owners)
            # from keys of the whole list, the other's chambers among them
            requests += with_terms(some(rng, houses, chambers, whole, 3), grid, contractor, owners)
        label = "%s, %s" % (places.__name__, "one sheet as both" if p is q else "two sheets")
        # by brute force from the sheets in some, so that the rule of pairs is asked too
        handed = None if k % 4 == 1 else whole
        out.add(label, p, q, requests, handed)
        out.count(label + ", counted", p, q, counts_of(requests), handed)


def self_joins(out, rng):
    for k in range(36):
        places, grid = towns.STREET_PLACES[k // 2 % len(towns.STREET_PLACES)], k % 2
        words = towns.sheet(rng, places, rng.randint(1, 14))[1]
        sheet = reading.Sheet(words)
        listed = reading.self_list(sheet.points, bool(grid))
        requests = followed(rng, listed, [1, 2, 5]) + followed(rng, listed, [0, 3, 3], rng.choice(edges(listed))) + some(rng, sheet, sheet, listed, 10)
        requests = [request[:4] + (grid,) for request in requests]
        handed = None if k % 4 == 1 else listed
        out.own("%s, one sheet with itself" % places.__name__, words, requests, handed)
        out.own_count("%s, one sheet with itself, counted" % places.__name__, words, sorted({request[2:3] + (grid,) for request in requests}), handed)


def more_pairs(out, rng):
    """20 to 60 points each, in a good packing order and in none; the whole list in one call, in a few, and by sizes."""
    for k in range(8):
        places = [towns.town, towns.land, towns.circle, towns.grid][k % 4]
        p, q = [towns.sheet(rng, places, rng.randint(20, 60))[1] for _ in range(2)]
        houses, chambers = reading.Sheet(p), reading.Sheet(q)
        listed = reading.ring_list(houses.points, chambers.points)
        requests = followed(rng, listed, [SLOTS]) + followed(rng, listed, range(15, 60), rng.choice(edges(listed))) + some(rng, houses, chambers, listed, 4, (0, 3))
        out.add("%s, more points" % places.__name__, p, q, requests, listed)
        out.count("%s, more points, counted" % places.__name__, p, q, [(largest,) for largest in rng.sample(edges(listed), 4)] + [(ANY, t) for t in (1, 3, 4, 9)], listed)
        alone = reading.self_list(houses.points)
        out.own("%s, more points, one sheet with itself" % places.__name__, p, [request[:4] for request in followed(rng, alone, [SLOTS]) + some(rng, houses, houses, alone, 3)], alone)
        out.own_count("%s, more points, counted" % places.__name__, p, [(ANY,)], alone)


def full_slots(out, rng):
    """As many pairs as there are slots, one fewer and more: all records on one spot, on two, on one line."""
    for np, nq in ((16, 16), (15, 17), (17, 16)):
        ps, qs = [[(number, 7, 7) for number in trees.ids(rng, n)] for n in (np, nq)]
        p, q = [trees.sheet(points, trees.shuffled(rng, len(points)), towns.tree(rng, len(points))[1], 9) for points in (ps, qs)]
        listed = reading.ring_list(ps, qs)
        assert len(listed) == np * nq
        last = reading.key_of(listed[-1])
        out.add("one spot, %d pairs" % len(listed), p, q, [(0, 0, 0, slots) for slots in (SLOTS, SLOTS - 1, 0)] + [last + (0, SLOTS), reading.key_of(listed[-2]) + (0, 1), (0, 0, ANY, 3, np), (0, 0, ANY, 3, np + 1)], listed)
        out.count("one spot, %d pairs" % len(listed), p, q, [(0,), (ANY, np), (ANY, np + 1)], listed)
        alone = reading.self_list(ps)
        out.own("one spot, one sheet with itself", p, [(0, 0, 0, SLOTS), (0, 0, ANY, len(alone))], alone)
        out.own_count("one spot, one sheet with itself", p, [(0,)], alone)


def large_pairs(out, rng):
    """250 points each, more pairs than slots, by a tree of nodes of 16 and an uneven one."""
    points = [[(n,) + place for n, place in zip(trees.ids(rng, 250, reading.ID), towns.land(rng, 250))] for _ in range(2)]
    p = trees.sheet(points[0], trees.near(rng, points[0]), reading.runs_of_sixteen(250), 30)
    q = trees.sheet(points[1], trees.shuffled(rng, 250), trees.uneven(rng, 250, 3), 31)
    listed = reading.ring_list(*points)
    middle = sorted(pair[2] for pair in listed)[len(listed) // 2]
    assert len(listed) > SLOTS
    out.add("250 points", p, q, followed(rng, listed, [SLOTS]) + [(0, 0, middle, SLOTS), (0, 0, middle, 0), (0, 0, ANY, 20, 5), (0, 0, middle, 20, 3)], listed)
    out.count("250 points", p, q, [(ANY,), (middle,), (middle - 1,), (ANY, 5), (middle, 3)], listed)


def of_forms(out, rng):
    """Sheets of form 2 to the ends of its range, with each other and with those of form 1, and alone; and one that needs more than sixteen words."""
    for label, p, q in towns.of_forms(rng, 18, 10):
        houses, chambers = reading.Sheet(p), reading.Sheet(q)
        listed = reading.ring_list(houses.points, chambers.points)
        owners = tuple(rng.randint(0, 1) for _ in range(chambers.n))
        requests = with_terms(followed(rng, listed, [3, 9]) + some(rng, houses, chambers, listed, 5, (0, 0, 1, 2)), 0)
        requests += with_terms(some(rng, houses, chambers, listed, 2), 0, rng.randint(0, 1), owners)
        out.add(label, p, q, requests, listed)
        out.count(label + ", counted", p, q, counts_of(requests), listed)
        alone = reading.self_list(houses.points)
        out.own(label + ", one sheet with itself", p, [request[:4] for request in followed(rng, alone, [4, SLOTS]) + some(rng, houses, houses, alone, 3)], alone)
        out.own_count(label + ", one sheet with itself, counted", p, [(largest,) for largest in rng.sample(edges(alone), 3)], alone)
    p, q = towns.many(rng), towns.sheet(rng, towns.province, 5, form=2)[1]
    listed = reading.ring_list(reading.Sheet(p).points, reading.Sheet(q).points)
    out.add("1,300 points of form 2", p, q, [(0, 0, ANY, SLOTS)] * 4 + [(0, 0, OVER, SLOTS)], listed, [21, 22, WORDS, 20, 20])
    out.count("1,300 points of form 2", p, q, [(ANY,)] * 4, listed, [21, 22, WORDS, 20])
    last = reading.Sheet(p).points[-1][0]
    out.own("1,300 points of form 2, self join", p, [(last, 0, ANY, SLOTS)] * 3, [], [21, 22, 20])


def words_lent(out, rng):
    """One word too few, no word, exactly enough and more: every other number comes before 24, and the words past those needed stay. From a key after all pairs, and
    with no slot, zeros are left too."""
    for p, q in towns.few_words(rng):
        need = needed(p)
        houses, chambers = reading.Sheet(p), reading.Sheet(q)
        listed = reading.ring_list(houses.points, chambers.points)
        requests = [(0, 0, ANY, SLOTS), (0, 0, ANY, 0), (reading.ID, 0, ANY, 1), (0, 0, ANY, 2, 1), (PAST, 0, ANY, 1), (0, 0, OVER, 1), (0, 0, ANY, 1, 60001)]
        lent = (max(0, need - 1), 0, need, need + 1, WORDS)
        asked = [(n, request) for n in lent for request in requests]
        out.add("words lent", p, q, [request for _, request in asked], listed, [n for n, _ in asked])
        asked = [(n, request) for n in lent for request in ((ANY,), (0,), (ANY, 1), (OVER,), (ANY, 60001))]
        out.count("words lent, counted", p, q, [request for _, request in asked], listed, [n for n, _ in asked])
        alone = reading.self_list(houses.points)
        asked = [(n, request) for n in lent for request in ((0, 0, ANY, 3), (reading.ID, 0, ANY, 1), (0, 0, ANY, 0), (PAST, 0, ANY, 1), (0, 0, OVER, 1))]
        out.own("words lent, one sheet with itself", p, [request for _, request in asked], alone, [n for n, _ in asked])
        asked = [(n, (largest,)) for n in lent for largest in (ANY, 0, OVER)]
        out.own_count("words lent, one sheet with itself, counted", p, [request for _, request in asked], alone, [n for n, _ in asked])


def empty_sheets(out, rng):
    some_words = towns.sheet(rng, towns.grid, 4)[1]
    for form in (1, 2):
        empty = reading.pack([], [], 3, form)
        for p, q in ((empty, some_words), (some_words, empty), (empty, empty)):
            asked = [(0, 0, largest, slots, t) for largest in (0, ANY, OVER) for slots in (0, 2) for t in (0, 1)]
            chambers = reading.Sheet(q).n
            whom = [(2, ()), (0, (0,) * chambers), (1, (0,) * chambers), (0, (0,) * (chambers + 1))]
            for grid in (0, 1):
                out.add("an empty sheet", p, q, [request + (grid,) + whose_it_is for request in asked for whose_it_is in whom[:2 if grid else 4]])
                out.count("an empty sheet, counted", p, q, [(largest, t, grid) + whose_it_is for largest in (0, ANY, OVER) for t in (0, 1) for whose_it_is in whom])
            out.add("an empty sheet, no word lent", p, q, [(0, 0, ANY, 2), (0, 0, ANY, 0)], None, [0, 0])
            out.count("an empty sheet, no word lent", p, q, [(ANY,)], None, [0])
        out.own("an empty sheet with itself", empty, [(0, 0, largest, slots, grid) for largest in (0, ANY, OVER) for slots in (0, 2) for grid in (0, 1)], None, [0, 1] * 6)
        out.own_count("an empty sheet with itself, counted", empty, [(largest, grid) for largest in (0, ANY, OVER) for grid in (0, 1)], None, [0, 1] * 3)
    out.add("no word at all", [], [], [(0, 0, ANY, 2)])
    out.count("no word at all", [], [], [(ANY,)])
    out.own("no word at all", [], [(0, 0, ANY, 2)])
    out.own_count("no word at all", [], [(ANY,)])


NUMBERS = (27, 26, 29, 9, 21, 40, 24)


def refused(out, rng):
    """1 to 8 of P, then of Q, then 27, 26, 29, 9, 21, 40 and 24: every two of them together, and each alone; the same of a count without 9, and of a self join."""
    bad = {9: [(PAST, 0), (0, PAST), (-1, 0), (0, -1)], 21: [60001, -1], 40: [OVER, LARGEST, 2 ** 63]}
    together, own_together = set(), set()
    for k in range(4):
        n = rng.randint(2, 5)
        p, q = towns.sheet(rng, towns.grid, rng.randint(1, 6), form=1 + k % 2)[1], towns.sheet(rng, towns.grid, n, form=1 + k // 2 % 2)[1]
        right = tuple(rng.randint(0, 1) for _ in range(n))
        spoilt = [right[:-1], right + (0,), (), right[:1]] + [right[:j] + (byte,) + right[j + 1:] for j in range(n) for byte in (2, 255)]
        out.add("bad bytes", p, q, [(0, 0, ANY, 9, 0, 0, contractor, owners) for owners in spoilt for contractor in (0, 1)])
        out.count("bad bytes", p, q, [(ANY, 0, 0, contractor, owners) for owners in spoilt for contractor in (0, 1)])
        whole = [(2, ()), (2, (0,)), (2, right), (3, ()), (3, right), (4, ()), (256, ()), (-1, ())]
        out.add("no contractor, bytes of an undivided list", p, q, [(0, 0, ANY, 9, 0, grid) + one for one in whole for grid in (0, 1)])
        out.count("no contractor, bytes of an undivided list", p, q, [(ANY, 0, grid) + one for one in whole for grid in (0, 1)])
        requests, lent, counts, counts_lent = [], [], [], []
        for contractor in (0, 2, 3):
            for owners in ((), right) if contractor == 2 else (right, rng.choice(spoilt)):
                for t, largest, grid, words in itertools.product((0, rng.choice(bad[21])), (ANY, rng.choice(bad[40])), (0, 1), (0, 1)):
                    counts.append((largest, t, grid, contractor, owners))
                    counts_lent.append(words * needed(p))
                    for key in ((0, 0), rng.choice(bad[9])):
                        requests.append(key + (largest, rng.choice([0, 3]), t, grid, contractor, owners))
                        lent.append(words * needed(p))
                        wrong = (contractor > 2, not reading.owners_right(contractor, owners, n), grid and k % 4 > 0, key != (0, 0), t != 0, largest > ANY, not words)
                        together.add(tuple(number for number, is_wrong in zip(NUMBERS, wrong) if is_wrong))
        out.add("two faults together", p, q, requests, None, lent)
        out.count("two faults together", p, q, counts, None, counts_lent)
        requests, lent = [], []
        for key, largest, grid, words in itertools.product([(0, 0)] + bad[9], [ANY] + bad[40], (0, 1), (0, 1)):
            requests.append(key + (largest, rng.choice([0, 3]), grid))
            lent.append(words * needed(p))
            wrong = grid and k % 2 > 0, key != (0, 0), largest > ANY, not words
            own_together.add(tuple(number for number, is_wrong in zip((29, 9, 40, 24), wrong) if is_wrong))
        out.own("two faults together, one sheet with itself", p, requests, None, lent)
        asked = list(itertools.product([ANY, 0] + bad[40], (0, 1), (0, 1)))
        out.own_count("two faults together, one sheet with itself", p, [(largest, grid) for largest, grid, _ in asked], None, [words * needed(p) for *_, words in asked])
    assert all(two in together for two in itertools.combinations(NUMBERS, 2)), together
    assert all(two in own_together for two in itertools.combinations((29, 9, 40, 24), 2)), own_together
    for p, q, number in towns.both_faulty(rng):
        assert reading.pairs_call(p, q, (PAST, 0), OVER, [], 60001)[0] == reading.count_call(p, q, OVER, 60001)[0] == number
        out.add("bad P and bad Q", p, q, [(0, 0, ANY, 2)])
        out.count("bad P and bad Q", p, q, [(ANY,)])
    for number in range(1, 9):
        right, wrong = towns.sheet(rng, towns.grid, rng.randint(1, 5))[1], towns.faulty(rng, number)
        for p, q in ((wrong, right), (right, wrong)):
            asked = [(0, 0, ANY, 2), (0, 0, ANY, 0), (PAST, 0, ANY, 2), (0, 0, OVER, 2), (0, 0, ANY, 2, 60001), (0, 0, ANY, 2, 0, 0, 3, ()), (0, 0, ANY, 2, 0, 0, 0, (2,)), (0, 0, ANY, 2, 0, 1), (0, 0, ANY, 2)]
            out.add("a bad sheet", p, q, asked, None, [WORDS] * 8 + [0])
            out.count("a bad sheet", p, q, [request[2:3] + request[4:] for request in asked if request[0] == 0], None, [WORDS] * 7 + [0])
        out.own("a bad sheet with itself", wrong, [(0, 0, ANY, 2), (PAST, 0, ANY, 2), (0, 0, OVER, 2), (0, 0, ANY, 2, 1), (PAST, 0, OVER, 2, 1), (0, 0, ANY, 2)], None, [WORDS] * 5 + [0])
        out.own_count("a bad sheet with itself", wrong, [(ANY,), (OVER,), (ANY, 1), (ANY,)], None, [WORDS] * 3 + [0])


def cases():
    out = Many()
    documents_listing(out)
    farthest(out)
    small_pairs(out, Chance("many pairs"))
    self_joins(out, Chance("many pairs of one sheet"))
    more_pairs(out, Chance("many pairs of more points"))
    full_slots(out, Chance("as many pairs as slots"))
    large_pairs(out, Chance("more pairs than slots"))
    of_forms(out, Chance("many pairs of both forms"))
    words_lent(out, Chance("words for many pairs"))
    empty_sheets(out, Chance("many pairs of none"))
    refused(out, Chance("many pairs refused"))
    sheets = list(range(1, 9))
    for profile, more in (("circle", []), ("grid", [29])):
        assert all(out.seen[profile, number] >= 2 for number in [0] + sheets + [27, 26, 9, 21, 40, 24] + more), (profile, out.seen)
        assert all(out.seen["own" if profile == "circle" else "own grid", number] >= 2 for number in [0] + sheets + [9, 40, 24] + more), (profile, out.seen)
        for what in ("more follow", "exactly enough", "no slot and more", "no slot and none", "slots left", "no pair", "a size that is the largest"):
            assert all(out.seen[kind, what] >= 8 for kind in (profile, "own" if profile == "circle" else "own grid")), (profile, what, out.seen)
    assert all(out.seen["counted", number] >= 4 for number in [0] + sheets + list(NUMBERS) if number != 9) and not out.seen["counted", 9], out.seen
    assert all(out.seen["own counted", number] >= 2 for number in [0] + sheets + [29, 40, 24]), out.seen
    assert all(out.seen[what] >= 8 for what in ("of a t", "of a contractor", "of a form 2 sheet", ("counted", "more than none"), ("own counted", "more than none"))), out.seen
    return out.cases
