"""The part `ranked` of the tape: the busiest chambers, the busiest pump houses and the most urgent visits.

A case, in words: its kind, the lengths of P's and Q's sheet, the number of requests, P's words, Q's words, and for each request the number of words lent, how many
rows, the largest size, in three words as in the part `many`, and the profile, 0 for the circle and 1 for the street grid; but of pump houses the contractor, the
number of owner bytes, and these, a word each; of visits then the number of P's scores, and these, and the number of Q's, and these. A negative word stands for the
largest number that a call can be given. A line has the request, of bytes and scores their numbers; its number of refusal, the number of rows, all sixteen rows, the
unused ones zeros; then what the words hold that were marked before.
"""
import itertools

import reading
import towns
import trees
from chance import Chance
from make_listing_cases import P, Q
from make_many import ANY, LARGEST, OVER, digits, edges, id_of
from stored import BUSIEST, PUMPS, URGENT, WORDS, Asked, by_turns, lent_told, marks, needed, whose

ROWS = reading.SIZE
SCORE, HIGH = reading.SCORE, reading.SCORE + 1
UNDIVIDED = reading.UNDIVIDED, ()
NO_RANK, NO_VISIT = (0, 0), (0, 0, 0, 0)


def rows_of(word):
    return LARGEST if word < 0 else word


def rows_told(number, rows, unused, words, after):
    """The number, how many rows, sixteen rows or as many as there are, and the lent words."""
    fields = [number, len(rows)] + [field for row in rows + [unused] * (ROWS - len(rows)) for field in row]
    return " ".join(map(str, fields)) + lent_told(words, after)


def busiest_line(rules, p, q, k, largest, grid, contractor, owners, listed, words):
    number, rows, after = rules.busiest_call(p, q, k, largest, listed, marks(words), bool(grid), contractor, owners)
    return "busiest %d %d %d %d %d: %s" % (k, largest, grid, contractor, len(owners), rows_told(number, rows, NO_RANK, words, after))


def pumps_line(rules, p, q, k, largest, grid, listed, words):
    number, rows, after = rules.busiest_pumps_call(p, q, k, largest, listed, marks(words), bool(grid))
    return "busiest pumps %d %d %d: %s" % (k, largest, grid, rows_told(number, rows, NO_RANK, words, after))


def urgent_line(rules, p, q, k, largest, grid, contractor, owners, p_scores, q_scores, listed, words):
    number, visits, after = rules.urgent_call(p, q, p_scores, q_scores, k, largest, listed, marks(words), bool(grid), contractor, owners)
    told = rows_told(number, [pair + (score,) for pair, score in visits], NO_VISIT, words, after)
    return "urgent %d %d %d %d %d %d %d: %s" % (k, largest, grid, contractor, len(owners), len(p_scores), len(q_scores), told)


class Ranked(Asked):
    name = "ranked"
    kind = BUSIEST

    def busiest(self, label, p, q, requests, listed=None, lent=None):
        """A request: how many rows, the largest size, a profile, a contractor and its owner bytes."""
        asked, stored = [], []
        for n, (k, largest, grid, contractor, owners) in zip(lent or by_turns(p, len(requests)), requests):
            stored.append([n, k] + digits(largest) + [grid] + whose(contractor, owners))
            asked.append((busiest_line, p, q, rows_of(k), largest, grid, id_of(contractor), owners, listed, n))
        self.saw("busiest", self.put(label, p, q, stored, asked), requests)

    def pumps(self, label, p, q, requests, listed=None, lent=None):
        """A request: how many rows, the largest size and a profile."""
        asked, stored = [], []
        for n, (k, largest, grid) in zip(lent or by_turns(q, len(requests)), requests):
            stored.append([n, k] + digits(largest) + [grid])
            asked.append((pumps_line, p, q, rows_of(k), largest, grid, listed, n))
        self.saw("pumps", self.put(label, p, q, stored, asked, kind=PUMPS), requests)

    def urgent(self, label, p, q, requests, listed=None, lent=None):
        """A request: the same as of the busiest, and the scores of P and of Q."""
        asked, stored = [], []
        for n, (k, largest, grid, contractor, owners, of_p, of_q) in zip(lent or by_turns(p, len(requests)), requests):
            stored.append([n, k] + digits(largest) + [grid] + whose(contractor, owners) + [len(of_p), *of_p, len(of_q), *of_q])
            of_p, of_q = [[id_of(score) for score in scores] for scores in (of_p, of_q)]
            asked.append((urgent_line, p, q, rows_of(k), largest, grid, id_of(contractor), owners, of_p, of_q, listed, n))
        self.saw("urgent", self.put(label, p, q, stored, asked, kind=URGENT), requests)

    def saw(self, what, lines, requests):
        for line, (k, _, grid, *of) in zip(lines, requests):
            number, count, *fields = [int(word) for word in line.split(": ")[1].split(" lent")[0].split()]
            width = 4 if what == "urgent" else 2
            rows = [tuple(fields[width * at:width * at + width]) for at in range(count)]
            self.seen[what, number] += 1
            if not number:
                self.seen[what, "as many as asked for"] += 0 < count == k
                self.seen[what, "fewer"] += 0 < count < k
                self.seen[what, "none"] += count == 0
                self.seen[what, "a tie"] += any(one[-1] == other[-1] for one, other in zip(rows, rows[1:]))
                self.seen[what, "a row of 0"] += any(row[-1] == 0 for row in rows)
                self.seen[what, "sixteen"] += count == ROWS
                self.seen[what, "streets"] += grid and count > 0
                self.seen[what, "of a contractor"] += bool(of) and of[0] < 2 and count > 0


def asked_of(requests):
    """What is asked of pump houses, of these requests for the busiest."""
    return sorted({request[:3] for request in requests})


def scores(rng, n, kinds):
    """Scores of n records: few different ones, so that sums are one; the ends of the range among them."""
    return tuple(rng.choice(kinds) for _ in range(n))


KINDS = [(0, 1, 2), (0, 1, 2, SCORE), (SCORE, SCORE - 1), (0,), (SCORE,), tuple(range(100))]


def all_three(out, rng, label, p, q, requests, listed=None, lent=None):
    """These requests for the busiest; the same of pump houses; and with scores."""
    houses, chambers = reading.Sheet(p), reading.Sheet(q)
    out.busiest(label, p, q, requests, listed, lent)
    out.pumps(label + ", pump houses", p, q, asked_of(requests), listed)
    out.urgent(label + ", urgent", p, q, [request + (scores(rng, houses.n, rng.choice(KINDS)), scores(rng, chambers.n, rng.choice(KINDS))) for request in requests], listed, lent)


def documents_listing(out):
    """The listing of document 01: k and sizes at their ends, each contractor, and the scores of its four records."""
    listed = [(5, 1, 16), (5, 2, 36), (6, 2, 37)]
    assert reading.busiest_call(P, Q, 2, ANY)[1] == [(5, 2), (6, 1)] and reading.busiest_pumps_call(P, Q, 2, ANY)[1] == [(2, 2), (1, 1)]
    assert reading.urgent_call(P, Q, (0, 3), (2, 0), 1, ANY)[1] == [(listed[1], 5)]
    whom = [UNDIVIDED, (0, (0, 1)), (1, (0, 1)), (0, (1, 1)), (1, (1, 1))]
    requests = [(k, largest, grid) + one for k in (1, 2, 3, 16) for largest in (0, 15, 16, 35, 36, 37, 48, 49, ANY) for grid in (0, 1) for one in whom[:1 if k == 3 else 5]]
    outside = [(k, largest, grid) + UNDIVIDED for k, largest in ((0, ANY), (17, ANY), (-1, ANY), (1, OVER), (1, LARGEST), (0, OVER), (16, 2 ** 63), (16, 2 ** 62), (16, 2 ** 31)) for grid in (0, 1)]
    out.busiest("the listing", P, Q, requests + outside)
    out.pumps("the listing", P, Q, asked_of(requests + outside))
    some = list(itertools.product((0, 1, SCORE), repeat=4))
    out.urgent("the listing", P, Q, [(k, ANY, grid) + UNDIVIDED + (of[:2], of[2:]) for of in some for k, grid in ((16, 0), (1, 0), (2, 1))])
    out.urgent("the listing", P, Q, [request + ((0, 3), (2, 0)) for request in requests + outside])


def small_ranks(out, rng):
    """Lists of two sheets of either profile: k, sizes at the edges of the list's, contractors."""
    for k in range(48):
        places, grid = towns.STREET_PLACES[k // 2 % len(towns.STREET_PLACES)], k % 2
        p = towns.sheet(rng, places, rng.randint(1, 20))[1]
        q = p if k % 17 == 3 else towns.sheet(rng, places, rng.randint(1, 20))[1]
        houses, chambers = reading.Sheet(p), reading.Sheet(q)
        whole = reading.ring_list(houses.points, chambers.points, bool(grid))
        owners = tuple(rng.randint(0, 1) for _ in range(chambers.n))
        requests = [(rng.choice([1, 2, 3, 5, 16]), rng.choice([ANY, ANY] + edges(whole)), grid) + one for one in [UNDIVIDED] * 4 + [(0, owners), (1, owners)] * 2]
        # by brute force from the sheets in some, so that the rule of pairs is asked too
        all_three(out, rng, places.__name__, p, q, requests, None if k % 4 == 1 else whole)


def more_ranks(out, rng):
    """20 to 60 points each, and 200: more chambers than rows, so that most are passed over; by a tree of nodes of 16 and in no order."""
    for k in range(12):
        places = [towns.town, towns.land, towns.circle, towns.grid][k % 4]
        p, q = [towns.sheet(rng, places, rng.randint(20, 60))[1] for _ in range(2)]
        whole = reading.ring_list(reading.Sheet(p).points, reading.Sheet(q).points)
        owners = tuple(rng.randint(0, 1) for _ in range(reading.Sheet(q).n))
        all_three(out, rng, "%s, more points" % places.__name__, p, q, [(n, largest, 0) + one for n, one in ((1, UNDIVIDED), (16, UNDIVIDED), (rng.randint(2, 15), (k % 2, owners))) for largest in (ANY, rng.choice(edges(whole)))], whole)
    points = [[(n,) + place for n, place in zip(trees.ids(rng, 200, reading.ID), towns.land(rng, 200))] for _ in range(2)]
    p = trees.sheet(points[0], trees.near(rng, points[0]), reading.runs_of_sixteen(200), 30)
    q = trees.sheet(points[1], trees.shuffled(rng, 200), trees.uneven(rng, 200, 3), 31)
    whole = reading.ring_list(*points)
    middle = sorted(pair[2] for pair in whole)[len(whole) // 2]
    all_three(out, rng, "200 points", p, q, [(k, largest, 0) + UNDIVIDED for k in (1, 7, 16) for largest in (ANY, middle)], whole)


def one_spot(out, rng):
    """All records on one spot: each chamber is in as many pairs, each visit has one size, so that ids decide; more rows than there are, as many and fewer."""
    for np, nq in ((3, 17), (17, 3), (16, 16), (1, 1)):
        ps, qs = [[(number, 7, 7) for number in trees.ids(rng, n)] for n in (np, nq)]
        p, q = [trees.sheet(points, trees.shuffled(rng, len(points)), towns.tree(rng, len(points))[1], 9) for points in (ps, qs)]
        listed = reading.ring_list(ps, qs)
        assert len(listed) == np * nq
        all_three(out, rng, "one spot, %d and %d" % (np, nq), p, q, [(k, 0, 0) + UNDIVIDED for k in (1, 2, 15, 16)], listed)


def of_forms(out, rng):
    """Sheets of form 2 to the ends of its range, with each other and with those of form 1; and one that needs more than sixteen words."""
    for label, p, q in towns.of_forms(rng, 12, 12):
        houses, chambers = reading.Sheet(p), reading.Sheet(q)
        whole = reading.ring_list(houses.points, chambers.points)
        owners = tuple(rng.randint(0, 1) for _ in range(chambers.n))
        all_three(out, rng, label, p, q, [(k, largest, 0) + one for k in (2, 16) for largest in (ANY, rng.choice(edges(whole))) for one in (UNDIVIDED, (rng.randint(0, 1), owners))], whole)
    p, q = towns.many(rng), towns.sheet(rng, towns.province, 5, form=2)[1]
    listed = reading.ring_list(reading.Sheet(p).points, reading.Sheet(q).points)
    of = scores(rng, 1300, (0, 1, SCORE)), scores(rng, 5, (0, 1))
    out.busiest("1,300 points of form 2", p, q, [(16, ANY, 0) + UNDIVIDED] * 4, listed, [21, 22, WORDS, 20])
    out.pumps("1,300 points of form 2", p, q, [(16, ANY, 0)] * 3, listed, [1, WORDS, 0])
    out.urgent("1,300 points of form 2", p, q, [(16, ANY, 0) + UNDIVIDED + of] * 3, listed, [21, WORDS, 20])


def words_lent(out, rng):
    """One word too few, no word, exactly enough and more, of sheets of which one needs more words than the other: of pump houses they are those that Q needs."""
    for one, other in towns.few_words(rng):
        for p, q in ((one, other), (other, one)):
            whole = reading.ring_list(reading.Sheet(p).points, reading.Sheet(q).points)
            of = [scores(rng, reading.Sheet(sheet).n, (0, 1)) for sheet in (p, q)]
            for sheet, ask in ((p, out.busiest), (q, out.pumps), (p, out.urgent)):
                need = needed(sheet)
                lent = (max(0, need - 1), 0, need, need + 1, WORDS)
                rest = () if ask == out.pumps else UNDIVIDED if ask == out.busiest else UNDIVIDED + tuple(of)
                asked = [(n, (k, largest, 0) + rest) for n in lent for k, largest in ((16, ANY), (1, ANY), (0, ANY), (16, OVER))]
                ask("words lent", p, q, [request for _, request in asked], whole, [n for n, _ in asked])


def empty_sheets(out, rng):
    some = towns.sheet(rng, towns.grid, 4)[1]
    for form in (1, 2):
        empty = reading.pack([], [], 3, form)
        for p, q in ((empty, some), (some, empty), (empty, empty)):
            chambers = reading.Sheet(q).n
            whom = [UNDIVIDED, (0, (0,) * chambers), (1, (0,) * chambers), (0, (0,) * (chambers + 1))]
            all_three(out, rng, "an empty sheet", p, q, [(k, largest, grid) + one for k, largest in ((0, ANY), (1, ANY), (16, 0), (16, OVER)) for grid in (0, 1) for one in whom])
            all_three(out, rng, "an empty sheet, no word lent", p, q, [(16, ANY, 0) + UNDIVIDED], None, [0])
    out.busiest("no word at all", [], [], [(1, ANY, 0) + UNDIVIDED])
    out.pumps("no word at all", [], [], [(1, ANY, 0)])
    out.urgent("no word at all", [], [], [(1, ANY, 0) + UNDIVIDED + ((), ())])


NUMBERS = (27, 26, 29, 10, 40, 41, 42, 24)


def refused(out, rng):
    """1 to 8 of P, then of Q, then 27, 26, 29, 10, 40, 41, 42 and 24: every two of them together, and each alone; of the busiest without 41 and 42, of pump houses without
    27 and 26 too."""
    together = set()
    for k in range(4):
        np, nq = rng.randint(2, 6), rng.randint(2, 5)
        p, q = towns.sheet(rng, towns.grid, np, form=1 + k % 2)[1], towns.sheet(rng, towns.grid, nq, form=1 + k // 2 % 2)[1]
        right = tuple(rng.randint(0, 1) for _ in range(nq))
        spoilt = [right[:-1], right + (0,), (), right[:1]] + [right[:j] + (byte,) + right[j + 1:] for j in range(nq) for byte in (2, 255)]
        out.busiest("bad bytes", p, q, [(9, ANY, 0, contractor, owners) for owners in spoilt for contractor in (0, 1)])
        whole = [UNDIVIDED, (2, (0,)), (2, right), (3, ()), (3, right), (4, ()), (256, ()), (-1, ())]
        out.busiest("no contractor, bytes of an undivided list", p, q, [(9, ANY, grid) + one for one in whole for grid in (0, 1)])
        of_p, of_q = [scores(rng, n, (0, 1, SCORE)) for n in (np, nq)]
        bad = [[of[:-1], of + (0,), (), of[:-1] + (HIGH,), (HIGH,) + of[1:], of[:1] + (-1,) + of[2:]] for of in (of_p, of_q)]
        out.urgent("bad scores", p, q, [(16, ANY, 0) + UNDIVIDED + both for both in [(one, of_q) for one in bad[0]] + [(of_p, one) for one in bad[1]] + list(zip(*bad)) + [(of_q, of_p)]])
        requests, lent, few = [], [], []
        for (contractor, owners), rows, largest, grid, p_bad, q_bad, words in itertools.product(
                (UNDIVIDED, (0, right), (2, right), (0, rng.choice(spoilt)), (3, right), (3, ())), (1, rng.choice([0, 17, -1])), (ANY, rng.choice([OVER, LARGEST])), (0, 1), (0, 1), (0, 1), (0, 1)):
            of = rng.choice(bad[0]) if p_bad else of_p, rng.choice(bad[1]) if q_bad else of_q
            requests.append((rows, largest, grid, contractor, owners) + of)
            lent.append(words)
            wrong = (contractor > 2, not reading.owners_right(contractor, owners, nq), grid and k % 4 > 0, rows != 1, largest > ANY, p_bad, q_bad, not words)
            # of visits those with few faults, and some of the others
            if sum(map(bool, wrong)) <= 2 or rng.random() < 0.1:
                few.append(len(requests) - 1)
                together.add(tuple(number for number, is_wrong in zip(NUMBERS, wrong) if is_wrong))
        out.urgent("faults together", p, q, [requests[at] for at in few], None, [lent[at] for at in few])
        plain = sorted({request[:5] + (n,) for request, n in zip(requests, lent)})
        out.busiest("faults together", p, q, [request[:5] for request in plain], None, [request[5] for request in plain])
        plain = sorted({request[:3] + (n,) for request, n in zip(requests, lent)})
        out.pumps("faults together", p, q, [request[:3] for request in plain], None, [request[3] for request in plain])
    assert all(two in together for two in itertools.combinations(NUMBERS, 2)), together
    for p, q, number in towns.both_faulty(rng):
        assert reading.busiest_call(p, q, 0, OVER)[0] == reading.busiest_pumps_call(p, q, 0, OVER)[0] == reading.urgent_call(p, q, (), (), 0, OVER)[0] == number
        out.busiest("bad P and bad Q", p, q, [(1, ANY, 0) + UNDIVIDED])
        out.pumps("bad P and bad Q", p, q, [(1, ANY, 0)])
        out.urgent("bad P and bad Q", p, q, [(1, ANY, 0) + UNDIVIDED + ((), ())])
    for number in range(1, 9):
        right, wrong = towns.sheet(rng, towns.grid, rng.randint(1, 5))[1], towns.faulty(rng, number)
        for p, q in ((wrong, right), (right, wrong)):
            asked = [(1, ANY, 0) + UNDIVIDED, (0, ANY, 0) + UNDIVIDED, (1, OVER, 0) + UNDIVIDED, (1, ANY, 0, 3, ()), (1, ANY, 0, 0, (2,)), (1, ANY, 1) + UNDIVIDED, (1, ANY, 0) + UNDIVIDED]
            out.busiest("a bad sheet", p, q, asked, None, [WORDS] * 6 + [0])
            out.pumps("a bad sheet", p, q, [request[:3] for request in asked], None, [WORDS] * 6 + [0])
            out.urgent("a bad sheet", p, q, [request + ((HIGH,), ()) for request in asked], None, [WORDS] * 6 + [0])


def cases():
    out = Ranked()
    documents_listing(out)
    small_ranks(out, Chance("the busiest"))
    more_ranks(out, Chance("the busiest of more points"))
    one_spot(out, Chance("the busiest of one spot"))
    of_forms(out, Chance("the busiest of both forms"))
    words_lent(out, Chance("words for the busiest"))
    empty_sheets(out, Chance("the busiest of none"))
    refused(out, Chance("the busiest refused"))
    sheets = list(range(1, 9))
    for what, numbers in (("busiest", [27, 26, 29, 10, 40, 24]), ("pumps", [29, 10, 40, 24]), ("urgent", list(NUMBERS))):
        assert all(out.seen[what, number] >= 4 for number in [0] + sheets + numbers), (what, out.seen)
        assert not [number for number in NUMBERS if number not in numbers and out.seen[what, number]], (what, out.seen)
        for seen in ("as many as asked for", "fewer", "none", "a tie", "a row of 0", "sixteen", "streets") + (() if what == "pumps" else ("of a contractor",)):
            assert out.seen[what, seen] >= 8, (what, seen, out.seen)
    return out.cases
