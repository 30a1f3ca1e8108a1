"""The part `contractors` of the tape: page requests of two contractors and of undivided lists, with owner bytes right and wrong; stored and printed as those of
the part `pages`."""
import collections
import itertools

import reading
import towns
import trees
from chance import Chance
from make_listing_cases import P, Q
from make_pages import ENDS, PAST, Pages, followed, some_keys
from stored import WORDS, needed


class Contractors(Pages):
    name = "contractors"

    def saw(self, size, t, grid, contractor, number, count, end):
        self.seen["grid" if grid else "circle", contractor, number] += 1
        if not number and contractor != reading.UNDIVIDED:
            self.seen["end mark" if end else "no end mark"] += 1
            self.seen["empty page"] += end and count == 0
            self.seen["full last page"] += end and count == size
            self.seen["page of a t"] += t > 0 and count > 0
            self.seen["grid"] += grid and count > 0


def owned(requests, contractor, owners, grid=0):
    """The same requests, of a contractor and a profile; of an undivided list with no bytes."""
    owners = () if contractor == reading.UNDIVIDED else tuple(owners)
    return [request[:3] + (request[3] if len(request) > 3 else 0, grid, contractor, owners) for request in requests]


def some_owners(rng, n, byte=2):
    """The owner bytes of n chambers: all 0, all 1, or, for 2, mixed."""
    return tuple(rng.randint(0, 1) if byte == 2 else byte for _ in range(n))


def of_contractor(q, listed, owners, contractor):
    """The list of a contractor, of the undivided one."""
    return reading.contractors_list(listed, q, reading.chambers_of(q, owners, contractor))


def divided_listing(out):
    """The listing's sheets for two contractors: chamber 5 is of one, 6 of the other, or both of one. Keys of the other's chamber, and of nobody's."""
    listed = [(5, 1, 16), (5, 2, 36), (6, 2, 37)]
    for owners, lists in (((0, 1), (listed[:2], listed[2:])), ((1, 0), (listed[2:], listed[:2])), ((0, 0), (listed, [])), ((1, 1), ([], listed))):
        for contractor in (0, 1):
            page = reading.page_call(P, Q, (0, 0), 16, contractor=contractor, owners=owners)[1]
            assert (page.pairs, page.end, page.contractor) == (lists[contractor], True, contractor)
            requests = [(key_q, key_p, size) for key_q in (0, 4, 5, 6, 7) for key_p in (0, 1, 2) for size in (1, 2)]
            requests += [(0, 0, 16), (0, 0, 1, 1), (0, 0, 16, 2), (5, 1, 1, 2), (0, 0, 16, 3)] + ENDS
            for grid in (0, 1):
                out.add("the listing, contractors", P, Q, owned(requests, contractor, owners, grid))
    # chamber 5 alone blocks the pair of chamber 6 and the one pump house: contractor 1, who has chamber 6, has no pair
    one = reading.pack([(1, 0, 0)], [0], 7)
    assert reading.ring_list([(1, 0, 0)], [(6, 16, 1)]) == [(6, 1, 257)]
    assert reading.page_call(one, Q, (0, 0), 16, contractor=1, owners=(0, 1))[1].pairs == []
    out.add("the other's chamber blocks", one, Q, [(0, 0, 16, t, grid, contractor, (0, 1)) for t in (0, 1) for grid in (0, 1) for contractor in (0, 1)])
    several = ((), (0,), (0, 1), (1, 0), (0, 0, 0), (0, 1, 1), (0, 2), (2, 1), (255, 0), (2, 2), (0, 1, 2))
    out.add("the listing, bytes and contractors", P, Q, [(0, 0, 16, 0, grid, contractor, owners) for grid in (0, 1) for contractor in (0, 1, 2, 3, -1) for owners in several])


def contractors(out, rng):
    """The lists of both contractors and the undivided one, followed and from any key, among these the other's chambers; of a t too; both profiles in turn."""
    for k in range(36):
        places, grid = towns.STREET_PLACES[k // 2 % len(towns.STREET_PLACES)], k % 2
        most = 24 if k % 12 < 2 else 9
        p, q = towns.sheet(rng, places, rng.randint(1, most))[1], towns.sheet(rng, places, rng.randint(2, most))[1]
        houses, chambers = reading.Sheet(p), reading.Sheet(q)
        owners = some_owners(rng, chambers.n, k // 8 % 2 if k % 8 < 2 else 2)
        whole = reading.ring_list(houses.points, chambers.points, bool(grid))
        many = collections.Counter(pair[0] for pair in whole)
        requests = []
        for contractor in (0, 1, 2):
            listed = of_contractor(chambers, whole, owners, contractor)
            asked = followed(rng, listed, [1, 2, 3, 16] if k % 3 else [1, 15])
            # keys of the whole list: of this contractor's chambers and of the other's; of nobody
            asked += some_keys(rng, houses, chambers, whole, 4) + rng.sample(ENDS, 1)
            for t in rng.sample(sorted({1, 2, max(many.values(), default=3), max(many.values(), default=3) + 1}), 2):
                asked += followed(rng, listed, [2, 3, 16], t) + [key + (t,) for key in some_keys(rng, houses, chambers, whole, 2)]
            requests += owned(asked, contractor, owners, grid)
        others = [owned([(point[0], key_p, 2)], 1 - owners[j], owners, grid)[0] for j, point in enumerate(chambers.points[:6]) for key_p in (0, reading.ID)]
        out.add("%s, contractors" % places.__name__, p, q, requests + others, None if k % 4 < 3 else whole)


def contractors_of_forms(out, rng):
    """Sheets of form 2, with each other and with those of form 1; one with many chambers, from a key among the last of them; no chambers, and no pump houses."""
    for label, p, q in towns.of_forms(rng, 12, 9):
        chambers = reading.Sheet(q)
        owners, whole = some_owners(rng, chambers.n), reading.ring_list(reading.Sheet(p).points, chambers.points)
        for contractor in (0, 1):
            listed = of_contractor(chambers, whole, owners, contractor)
            out.add(label + ", contractors", p, q, owned(followed(rng, listed, [1, 3, 16]) + [(0, 0, 16, 1), (0, 0, 16, 2)], contractor, owners))
    points = [[(n,) + place for n, place in zip(trees.ids(rng, n, reading.ID), towns.land(rng, n))] for n in (300, 1000)]
    p, q = [trees.sheet(these, trees.near(rng, these), reading.runs_of_sixteen(len(these)), 50 + k) for k, these in enumerate(points)]
    last, owners = range(990, 1000), some_owners(rng, 1000)
    couples = [(j, i) for j in last for i in range(300) if reading.is_ring_pair(points[0], points[1], j, i)]
    listed, key = sorted(reading.pair_of(points[0], points[1], j, i) for j, i in couples), points[1][989][0]
    for contractor in (0, 1):
        out.add("1,000 chambers, contractors", p, q, owned([(key, reading.ID, 16), (key, reading.ID, 2), (key, reading.ID, 16, 3)], contractor, owners), listed)
    _, some = towns.sheet(rng, towns.grid, 4)
    for form in (1, 2):
        empty = reading.pack([], [], 3, form)
        assert reading.page_call(some, empty, (0, 0), 16, contractor=0)[1].end
        for p, q in ((some, empty), (empty, empty)):
            out.add("no chambers, contractors", p, q, [(0, 0, 16, t, grid, contractor, owners) for t in (0, 1) for grid in (0, 1) for contractor in (0, 1, 2, 3) for owners in ((), (0,))])
        out.add("no pump houses, contractors", empty, some, owned([(0, 0, 16), (0, 0, 16, 1)], 0, (0, 1, 1, 0)) + owned([(0, 0, 16)], 1, (0, 1, 1, 0), 1))


def contractors_refused(out, rng):
    """The sheets' numbers, then 27, 26, 29, 9, 10, 21 and 24: every two of them together. And the bytes: one short, one more, none, one that is no 0 and no 1 at each
    place, some for an undivided list."""
    bad, together = {9: [(PAST, 0), (0, -1)], 10: [0, 17], 21: [60001, -1]}, set()
    for k in range(5):
        n = rng.randint(2, 6)
        _, p = towns.sheet(rng, towns.grid, rng.randint(1, 6), form=1 + k % 2)
        _, q = towns.sheet(rng, towns.grid, n, form=1 + k // 2 % 2)
        right = some_owners(rng, n)
        spoilt = [right[:-1], right + (0,), right + (1,), (), right[:1]]
        spoilt += [right[:j] + (byte,) + right[j + 1:] for j in range(n) for byte in (2, rng.randint(3, 255))]
        out.add("bad bytes", p, q, [(0, 0, 16, t, grid, contractor, owners) for owners in spoilt for contractor in (0, 1) for t in (0, 1) for grid in (0, 1)])
        out.add("bytes of an undivided list", p, q, [(0, 0, 16, 0, grid, 2, owners) for owners in ((), (0,), right, (2,) * n, (0,) * n) for grid in (0, 1)])
        out.add("no contractor", p, q, [(0, 0, 16, 0, grid, contractor, owners) for owners in ((), right) for contractor in (3, 4, 255, 256, 258, -1) for grid in (0, 1)])
        # the parts of a request, each right or wrong
        requests, lent = [], []
        for contractor in (0, 1, 2, 3):
            for owners in ((), right) if contractor == 2 else (right, rng.choice(spoilt)):
                for key in ((0, 0), rng.choice(bad[9])):
                    for size in (16, rng.choice(bad[10])):
                        for t in (0, rng.choice(bad[21])):
                            for grid in (0, 1):
                                requests.append(key + (size, t, grid, contractor, owners))
                                lent.append(rng.randint(0, 1) * needed(p))
                                wrong = (contractor > 2, not reading.owners_right(contractor, owners, n), grid and k % 4 > 0, key != (0, 0), size != 16, t != 0, not lent[-1])
                                together.add(tuple(number for number, is_wrong in zip((27, 26, 29, 9, 10, 21, 24), wrong) if is_wrong))
        out.add("two faults together, contractors", p, q, requests, None, lent)
    assert all(two in together for two in itertools.combinations((27, 26, 29, 9, 10, 21, 24), 2)), together
    for number in range(1, 9):
        _, right = towns.sheet(rng, towns.grid, rng.randint(1, 5))
        wrong = towns.faulty(rng, number)
        asked = [(0, 0, 1, 0, grid, contractor, owners) for contractor, owners in ((3, ()), (0, ()), (1, (2,)), (2, (0,)), (0, (0,) * 9), (0, (1,) * 5)) for grid in (0, 1)]
        for p, q in ((wrong, right), (right, wrong)):
            assert reading.page_call(p, q, (PAST, 0), 0, contractor=3, owners=(2,))[0] == number
            out.add("a bad sheet, contractors", p, q, asked)


def contractors_words(out, rng):
    """Of a contractor as many words are needed: for all of P, and where none of the chambers is its own zeros are left too."""
    for n in (1, 64, 65, 129):
        p, q = towns.sheet(rng, towns.town, n)[1], towns.sheet(rng, towns.town, rng.randint(2, 4))[1]
        need, chambers = needed(p), reading.Sheet(q).n
        whole = [reading.ring_list(reading.Sheet(p).points, reading.Sheet(q).points, grid) for grid in (False, True)]
        for grid in (0, 1):
            for owners in ((0,) * chambers, (1,) * (chambers - 1) + (0,)):
                asked = [(lent, request) for lent in (need - 1, 0, need, need + 1, WORDS) for contractor in (0, 1)
                         for request in owned([(0, 0, 16), (0, 0, 16, 1), (reading.ID, 0, 1), (PAST, 0, 1)], contractor, owners, grid)]
                out.add("words lent, contractors", p, q, [request for _, request in asked], whole[grid], [lent for lent, _ in asked])


def cases():
    out = Contractors()
    divided_listing(out)
    contractors(out, Chance("contractors"))
    contractors_of_forms(out, Chance("contractors of both forms"))
    contractors_refused(out, Chance("contractors refused"))
    contractors_words(out, Chance("words of contractors"))
    for contractor in (0, 1):
        assert all(out.seen["circle", contractor, number] >= 2 for number in list(range(11)) + [21, 24, 26]), out.seen
        assert all(out.seen["grid", contractor, number] >= 2 for number in list(range(11)) + [21, 24, 26, 29]), out.seen
    assert all(out.seen[profile, 2, 26] >= 4 and out.seen[profile, 3, 27] >= 4 for profile in ("circle", "grid")), out.seen
    assert all(out.seen[what] >= 10 for what in ("end mark", "no end mark", "empty page", "full last page", "page of a t", "grid")), out.seen
    return out.cases
