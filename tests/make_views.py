"""The part `views` of the tape: calls through views of the listing's two sheets, of sheets with one word changed, of parts of a sheet and of no words at all; the
views claim counts that need not be their sheet's, and the answer is that of the words alone.

A case, in words: its kind, the lengths of P's and Q's sheet, the number of requests, P's words, Q's words, and for each request the number of words lent, the
call, the numbers of points and of nodes that the view of P claims, those that the view of Q claims, two positions or ids, a size, the profile, 0 for the circle
and 1 for the street grid, and of a page the contractor, the number of owner bytes, and these, a word each. A count of -1 stands for the largest that there is. A
line has the call and its answer: of a page its contractor, of the pairs and points the first, the second and the last; of the call for the nearest the four lent
numbers after it, of which all are lent, or two; and what the words hold that were marked before.
"""
import reading
from make_listing_cases import P, Q, changed
from stored import VIEW_PAGE, VIEWS, WORDS, Asked, lent_told, marks, whose

OPEN, OPENED_POINT, POINT, FILTER, RING, PAGE, NEAREST, NEAREST_SHORT = range(1, 9)
assert PAGE == VIEW_PAGE
LARGEST = 2 ** 64 - 1
LENT = [7, 8, 9, 10]
# what views claim: what is so, less and more, and the most
SO, NONE, MANY, MOST = (2, 1), (0, 0), (1000, 400), (LARGEST, LARGEST)
LEAST_AND_MOST = (0, LARGEST)


def shown(listed, unused):
    """The first, the second and the sixteenth of what is listed."""
    whole = (list(listed) + [unused] * 16)[:16]
    return " ".join(str(word) for k in (0, 1, 15) for word in whole[k])


def no_words(line):
    """Of a call that takes no words, with no word lent."""
    return line + lent_told(0, [])


def open_line(rules, p):
    number = rules.open_number(p)
    return no_words("open %d %d %d %d" % ((number, 0, 0, 0) if number else (0, len(p), p[-4], p[-3])))


def point_line(rules, p, position):
    number, point = rules.point_call(p, position)
    return no_words("point refused %d" % number if number else "point %d %d %d" % tuple(point))


def opened_point_line(rules, p, position):
    return point_line(rules, [] if rules.open_number(p) else p, position)


def filter_line(rules, p, q, j, words):
    number, kept, opened, after = rules.filter_call(p, q, j, marks(words))
    return "filter %d %d %d%s" % (number, len(kept), opened, lent_told(words, after))


def ring_line(rules, p, q, j, i, grid):
    number, answer, opened = rules.ring_call(p, q, j, i, bool(grid))
    return no_words("ring refused %d" % number if number else "ring %s, opened %d" % (" ".join(map(str, answer)), opened))


def page_line(rules, p, q, key, size, words, grid=0, contractor=reading.UNDIVIDED, owners=()):
    number, page, opened, after = rules.page_call(p, q, key, size, words=marks(words), grid=bool(grid), contractor=contractor, owners=owners)
    pairs, of, end, streets = ([], 0, False, False) if number else (page.pairs, page.contractor, page.end, page.grid)
    marked = " of %d" % of + " grid" * streets + " end" * end
    return "page %d %d %d%s %s%s" % (number, opened, len(pairs), marked, shown(pairs, rules.UNUSED), lent_told(words, after))


def nearest_line(rules, p, q, q_id, size, lent):
    number, found, after = rules.nearest_call(p, q, q_id, size, LENT[:lent])
    return no_words("nearest %d %d %s numbers %s" % (number, len(found), shown(found, (0, 0)), " ".join(map(str, after + LENT[lent:]))))


class Views(Asked):
    name = "views"
    kind = VIEWS

    def add(self, label, call, asked, p, q=(), claims=(SO, SO), a=0, b=0, size=0, words=0, grid=0, contractor=reading.UNDIVIDED, owners=()):
        counts = [-1 if count == LARGEST else count for claim in claims for count in claim]
        request = [words, call, *counts, a, b, size, grid] + (whose(contractor, owners) if call == PAGE else [])
        self.put(label, list(p), list(q), [request], [asked])


def opened(out):
    for at, word in ((None, 0), (22, 2), (22, 3), (19, 1001), (17, 18), (0, 0), (6, 1), (10, 1), (15, 11)):
        p = P if at is None else changed(P, at, word)
        out.add("opened", OPEN, (open_line, p), p)
        out.add("opened", OPENED_POINT, (opened_point_line, p, 1), p, a=1)
    for p in (P[23:], P[18:], P[1:]):
        out.add("a part of a sheet", OPEN, (open_line, p), p)


def points(out, claim):
    for p, position in ((P, 0), (P, 1), (P, 2), (P[23:], 0), (P[1:], 0)):
        out.add("point", POINT, (point_line, p, position), p, claims=(claim, SO), a=position)


def filtered(out, p, q, claims, j, words=1):
    out.add("filter walk", FILTER, (filter_line, p, q, j, words), p, q, claims, j, words=words)


def walked(out, p, q, claims, j, i):
    for grid in (0, 1):
        out.add("ring walk", RING, (ring_line, p, q, j, i, grid), p, q, claims, j, i, grid=grid)


def walks(out, claims):
    for j in range(3):
        for words in (0, 1, 2, WORDS):
            filtered(out, P, Q, claims, j, words)
        for i in range(3):
            walked(out, P, Q, claims, j, i)


def pages(out, claims):
    for p, key, size in ((P, (0, 0), 2), (P, (5, 2), 2), (P, (6, 2), 2), (P, (5, 3), 2), (P, (0, 2000000001), 0), (P, (0, 0), 0), (P, (0, 0), 17), ([], (0, 2000000001), 0)):
        for words in (0, 1, 2):
            for grid in (0, 1):
                out.add("page", PAGE, (page_line, p, Q, key, size, words, grid), p, Q, claims, *key, size, words, grid)


def paged(out, p, q, claims, key, size, words, grid, contractor, owners):
    asked = (page_line, p, q, key, size, words, grid, contractor, owners)
    out.add("page of a contractor", PAGE, asked, p, q, claims, *key, size, words, grid, contractor, owners)


def contractors(out, claims):
    """Of both contractors and of none, whatever the views claim; then each number in its turn."""
    for owners in ((0, 0), (0, 1), (1, 0), (1, 1)):
        for contractor in (0, 1):
            for key in ((0, 0), (5, 1), (5, 2), (6, 0)):
                for grid in (0, 1):
                    paged(out, P, Q, claims, key, 2, 1, grid, contractor, owners)
    past = (0, 2000000001)
    for contractor, owners in ((3, ()), (3, (0, 1)), (2, (0, 1)), (0, ()), (0, (0,)), (1, (0, 1, 1)), (1, (0, 2)), (0, (0, 1))):
        for p, q in ((P, Q), ([], Q), (P, []), (changed(P, 22, 2), Q), (P, changed(Q, 22, 2))):
            for words in (0, 1):
                paged(out, p, q, claims, past, 0, words, 1, contractor, owners)
    for words in (0, 1, 2):
        paged(out, P, Q, claims, (0, 0), 16, words, 0, 1, (0, 1))


def nearest(out, claims):
    for p, q_id, size in ((P, 5, 16), (P, 6, 1), (P, 7, 0), (P, 5, 0), (P, 5, 17), ([], 7, 0)):
        out.add("nearest", NEAREST, (nearest_line, p, Q, q_id, size, 4), p, Q, claims, q_id, size=size)
    out.add("too few lent", NEAREST_SHORT, (nearest_line, P, Q, 5, 16, 2), P, Q, claims, 5, size=16)


def refused(out, p, q):
    """Positions that no sheet has, and no words: P is checked first."""
    filtered(out, p, q, (SO, SO), 1000)
    walked(out, p, q, (SO, SO), 1000, 1000)
    walked(out, [], q, (SO, SO), 0, 0)
    walked(out, p, [], (SO, SO), 0, 0)


def cases():
    out = Views()
    opened(out)
    for claim in (SO, NONE, MANY, MOST):
        points(out, claim)
    both = [(claim, claim[::-1]) for claim in (SO, LEAST_AND_MOST)]
    for ask in (walks, pages, nearest, contractors):
        for claims in both:
            ask(out, claims)
    for p, q in ((changed(P, 22, 3), changed(Q, 19, 1001)), (P, changed(Q, 19, 1001)), (changed(P, 15, 11), changed(Q, 22, 3)), (P, Q)):
        refused(out, p, q)
    # of form 2, one of them or both: along the streets 29
    for p, q in ((changed(P, 22, 2), Q), (P, changed(Q, 22, 2)), (changed(P, 22, 2), changed(Q, 22, 2))):
        filtered(out, p, q, (SO, SO), 0)
        walked(out, p, q, (SO, SO), 0, 1)
        for grid in (0, 1):
            out.add("page", PAGE, (page_line, p, q, (0, 0), 16, 1, grid), p, q, (SO, SO), 0, 0, 16, 1, grid)
    return out.cases
