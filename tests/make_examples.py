"""The part `examples` of the tape: the checked examples of document 01. Its rules on places and boxes stand in the program, and are a case of no arguments, with
some examples of the street grid after them; its walks of small sheets and the pages of its two sheets are cases as those of the parts `walks` and `pages`."""
from make_listing_cases import P, Q
from make_pages import Pages
from make_walks import Walks
from stored import RULES, Cases

# the answers that the document gives
SAID = [
    "ring rule (0,0) (4,0) (2,2) 0 blocks",
    "ring rule (0,0) (4,0) (2,3) 5 does not block",
    "ring rule (0,0) (4,0) (2,1) -3 blocks",
    "ring rule (0,0) (4,0) (0,0) 0 does not block",
    "ring rule (7,7) (7,7) (7,8) 1 does not block",
    "ring rule (7,7) (7,7) (7,7) 0 does not block",
    "filter rule (0,0) (3,0) (3,5) 0 skipped",
    "filter rule (0,0) (3,0) (2,5) 3 kept",
    "filter rule (0,0) (3,0) box (3,-1) (9,4) opened",
    "box rules (0,0) (4,0) box (1,0) (9,1) 0 0 against 16 blocks by side 0",
    "box rules (0,0) (4,0) box (0,0) (0,0) 16 0 against 16 opened",
    "box rules (0,0) (4,0) box (2,2) (5,5) 0 16 against 16 opened",
    "box rules (0,0) (4,0) box (4,1) (6,6) 16 4 against 16 skipped",
    # request 12, as the table of crates/plane says
    "street rule (0,0) (4,0) (2,2) blocks",
    "street rule (0,0) (4,0) (3,1) blocks",
    "street rule (0,0) (4,0) (2,3) does not block",
    "street rule (0,0) (4,0) (0,0) does not block",
    "street rule (0,0) (4,0) (4,0) does not block",
    "street rule (0,0) (1,0) (1,1) does not block",
    "street rule (0,0) (4,4) (5,3) blocks",
    "street rule (0,0) (5,3) (4,4) blocks",
    "street boxes (0,0) (4,0) box (2,2) (5,5) opened",
    "street boxes (0,0) (4,0) box (4,1) (6,6) skipped",
    "street boxes (0,0) (4,0) box (0,0) (0,0) opened",
    "street boxes (0,0) (4,0) box (1,0) (9,1) opened",
    "street boxes (0,0) (4,0) box (2,0) (9,1) blocks by side 0",
    "street size (0,0) (3,4) 49",
]

# one record; one beside it; two on its spot
ONE = [1, 7, 7, 0, 0, 0, 0, 1, 7, 7, 7, 7, 12, 7, 1, 1, 1, 1]
BESIDE = [1, 7, 7, 2, 7, 8, 0, 1, 0, 1, 0, 0, 2, 7, 7, 7, 8, 17, 7, 2, 1, 2, 1]
TWICE = [1, 7, 7, 2, 7, 7, 0, 1, 0, 1, 0, 0, 2, 7, 7, 7, 7, 17, 7, 2, 1, 3, 1]

# a chamber, and pump houses of which one is skipped, or of which a box has a side in the circle
CHAMBER = [1, 0, 0, 0, 0, 0, 0, 1, 0, 0, 0, 0, 12, 7, 1, 1, 1, 1]
KEPT = [1, 3, 0, 2, 3, 5, 3, 2, 5, 0, 1, 2, 0, 1, 2, 0, 0, 3, 2, 0, 3, 5, 22, 7, 3, 1, 2, 1]
SIDE = [1, 1, 0, 2, 4, 0, 3, 9, 1, 0, 1, 2, 0, 1, 2, 0, 0, 3, 1, 0, 9, 1, 22, 7, 3, 1, 3, 1]


def rules():
    out = Cases("rules")
    out.words, out.lines, out.labels = [RULES], list(SAID), ["places and boxes"] * len(SAID)
    return out


def pages(label, *asked):
    out = Pages()
    for p, q, requests in asked:
        out.add(label, p, q, requests)
    return out.cases


def walks(label, *asked):
    out = Walks()
    for p, q, filters, rings in asked:
        out.add(label, p, q, filters, rings)
    return out.cases


def cases():
    out = Cases("examples")
    out.join(rules())
    out.join(pages("records on one spot", *[(p, q, [(0, 0, 16)]) for p, q in ((ONE, ONE), (ONE, BESIDE), (TWICE, ONE), (ONE, TWICE))]))
    out.join(walks("small sheets", (KEPT, CHAMBER, [0], []), (SIDE, CHAMBER, [], [(0, 1)]), (KEPT, CHAMBER, [], [(0, 0), (0, 1), (0, 3)])))
    out.join(pages("the listing", (P, Q, [(0, 0, 16), (0, 0, 2), (5, 2, 2), (6, 2, 2), (5, 3, 2), (5, 3, 17)])))
    out.join(walks("the listing", (P, Q, [], [(0, 0), (0, 1), (1, 0), (1, 1)])))
    out.join(pages("the listing along the streets", (P, Q, [(0, 0, 16, 0, 1), (0, 0, 2, 0, 1), (5, 2, 2, 0, 1)])))
    out.join(walks("the listing along the streets", (P, Q, [], [(0, 0, 1), (0, 1, 1), (1, 0, 1), (1, 1, 1)])))
    return out
