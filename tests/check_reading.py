"""The reading held to the rules' own examples, and to itself: walks against brute force, pages against the list, a book that loses pages, two contractors of
whom none sees the other's ids."""
import types

import reading
import towns
import trees
import wrong_readings
from chance import Chance

P = [1, 0, 0, 2, 10, 0, 0, 1, 0, 1, 0, 0, 2, 0, 0, 10, 0, 17, 7, 2, 1, 7, 1]
Q = [5, 4, 0, 6, 16, 1, 0, 1, 0, 1, 0, 0, 2, 4, 0, 16, 1, 17, 7, 2, 1, 9, 1]


def examples():
    a, b = (0, 0), (4, 0)
    assert reading.product(a, b, (2, 2)) == 0 and reading.blocks(a, b, (2, 2))
    assert reading.product(a, b, (2, 3)) == 5 and not reading.blocks(a, b, (2, 3))
    assert reading.product(a, b, (2, 1)) == -3 and reading.blocks(a, b, (2, 1))
    assert not reading.blocks(a, b, (0, 0)) and not reading.blocks(a, b, (4, 0))
    assert reading.product((7, 7), (7, 7), (7, 8)) == 1 and not reading.blocks((7, 7), (7, 7), (7, 8))
    assert not reading.blocks((7, 7), (7, 7), (7, 7))
    assert reading.drops_point((0, 0), (3, 0), (3, 5)) and not reading.drops_point((0, 0), (3, 0), (2, 5))
    assert not reading.drops_point((0, 0), (3, 0), (3, 0)) and not reading.drops_point((3, 0), (3, 0), (3, 5))
    assert not reading.drops_box((0, 0), (3, 0), (3, -1, 9, 4)) and reading.drops_box((0, 0), (3, 0), (4, -1, 9, 4))
    assert not reading.drops_box((3, 0), (3, 0), (4, -1, 9, 4)) and reading.drops_box((0, 0), (3, 0), (3, 1, 9, 4))
    assert reading.side_inside(a, b, (1, 0, 9, 1)) == 0 and not reading.far(a, b, (1, 0, 9, 1))
    assert reading.side_inside(a, b, (0, 0, 0, 0)) is None and not reading.far(a, b, (0, 0, 0, 0))
    assert reading.side_inside(a, b, (2, 2, 5, 5)) is None and not reading.far(a, b, (2, 2, 5, 5))
    assert reading.far(a, b, (4, 1, 6, 6))
    assert reading.open_number(P) == 0 and reading.open_number(Q) == 0
    assert reading.ring_list(reading.Sheet(P).points, reading.Sheet(Q).points) == [(5, 1, 16), (5, 2, 36), (6, 2, 37)]
    for key, size, pairs, end in (((0, 0), 2, [(5, 1, 16), (5, 2, 36)], False), ((5, 2), 2, [(6, 2, 37)], True), ((6, 2), 2, [], True), ((5, 3), 2, [(6, 2, 37)], True)):
        number, page, _, _ = reading.page_call(P, Q, key, size)
        assert (number, page.pairs, page.end) == (0, pairs, end)
    for k in range(1, 17):
        assert reading.shortest_call(P, Q, k)[:2] == (0, [(5, 1, 16), (5, 2, 36), (6, 2, 37)][:k])
    ties = [(5, 4, 9), (5, 7, 4), (6, 2, 9), (6, 3, 9), (7, 1, 4)]
    assert reading.shortest_of(ties, 3) == [(5, 7, 4), (7, 1, 4), (5, 4, 9)]
    listed = reading.ring_list(reading.Sheet(P).points, reading.Sheet(Q).points)
    assert [reading.list_of(listed, t) for t in range(4)] == [listed, listed, listed[:2], []]
    assert [reading.partners_call(P, Q, q_id, t)[:3] for q_id, t in ((5, 1), (5, 2), (5, 3), (6, 1), (6, 2), (7, 1), (5, 0), (7, 0))] == [
        (0, 1, True), (0, 2, True), (0, 2, False), (0, 1, True), (0, 1, False), (20, 0, False), (21, 0, False), (20, 0, False)]
    houses = reading.Sheet(reading.pack([(1, 5, 0), (2, 6, 0)], [0, 1], 7))
    assert reading.leaf_walk(houses, [(0, 0)]) == ([[0]], 1)
    assert reading.leaf_walk(houses, [(0, 0), (3, 0)]) == ([[], [0]], 1)
    assert reading.leaf_walk(houses, [(0, 0), (0, 0)]) == ([[0], [0]], 1)
    assert reading.leaf_walk(houses, [(0, 0), (5, 1), (5, -1), (9, 0)]) == ([[0], [0], [0], [0, 1]], 1)
    for n, m in ((0, 0), (16, 1), (17, 3), (1000, 68), (60000, 4001)):
        assert len(reading.runs_of_sixteen(n)) == m
    # request 9: the listing's sheets of either form; one word is lent for two points, sixteen for a run; what a call leaves there
    for p, q in ((P[:-1] + [2], Q), (P, Q[:-1] + [2]), (P[:-1] + [2], Q[:-1] + [2])):
        assert reading.ring_list(reading.Sheet(p).points, reading.Sheet(q).points) == listed and reading.open_number(p) == reading.open_number(q) == 0
    assert reading.open_number(P[:-1] + [3]) == 2
    assert reading.filter_call(P, Q, 1, []) == (24, [], 0, []) and reading.filter_call(P, Q, 2, []) == (9, [], 0, [])
    assert reading.filter_call(P, Q, 1, [7, 8, 9]) == (0, [0, 1], 1, [3, 8, 9])
    assert reading.page_call(P, Q, (0, 0), 2, words=[7, 8, 9])[::3] == (0, [0, 8, 9])
    assert reading.page_call(P, Q, (0, 0), 17, words=[])[0] == 10 and reading.page_call(P, Q, (0, 0), 2, words=[])[::3] == (24, [])
    assert reading.run_call(P, Q, 0, [], [7] * 15)[::4] == (24, [7] * 15) and reading.run_call(P, Q, 0, [], [7] * 16)[::4] == (16, [7] * 16)
    assert reading.run_call(P, Q, 0, [(0, 0, 0)] * 3, [7] * 17)[::4] == (0, [0] * 16 + [7])
    assert reading.near_filter_call(P, Q, 6, [7, 7], [])[0] == 24 and reading.near_filter_call(P, Q, 6, [7, 7], [7])[0] == 25
    assert reading.near_filter_call(P, Q, 6, [7, 7, 7], [7, 7]) == (0, [1], 1, [0, 0, 0], [2, 7])


# request 12: the pair a, b and another point x, how far 2x is from a + b, how far a is from b, and whether x blocks
STREET_BLOCKING = [
    # on the border two block; one beyond it doesn't; nor does another record at an end's place
    ((0, 0), (4, 0), (2, 2), 4, 4, True),
    ((0, 0), (4, 0), (3, 1), 4, 4, True),
    ((0, 0), (4, 0), (2, 3), 6, 4, False),
    ((0, 0), (4, 0), (0, 0), 4, 4, False),
    ((0, 0), (4, 0), (4, 0), 4, 4, False),
    # halves count
    ((0, 0), (1, 0), (1, 1), 3, 1, False),
    # each of two pump houses blocks the other's pair
    ((0, 0), (4, 4), (5, 3), 8, 8, True),
    ((0, 0), (5, 3), (4, 4), 8, 8, True),
]
# a box for the pair (0, 0), (4, 0): whether it is skipped, and the side that blocks
STREET_ENTERING = [
    ((2, 2, 5, 5), False, None),
    ((4, 1, 6, 6), True, None),
    ((0, 0, 0, 0), False, None),
    ((1, 0, 9, 1), False, None),
    ((2, 0, 9, 1), False, 0),
]


def street_examples():
    for a, b, x, doubled, apart, blocked in STREET_BLOCKING:
        assert reading.from_middle(a, b, x) == doubled and reading.along_streets(a, b) == apart and reading.street_blocks(a, b, x) == blocked
    a, b = (0, 0), (4, 0)
    for box, skipped, side in STREET_ENTERING:
        assert reading.street_far(a, b, box) == skipped and reading.side_inside(a, b, box, True) == side
    assert (reading.street_size((0, 0), (3, 4)), reading.squared((0, 0), (3, 4))) == (49, 25)
    # two sheets that hold assets, and no visit along the streets; the circle gives one
    p, q = reading.pack([(1, 4, 4), (2, 5, 3)], [0, 1], 7), reading.pack([(5, 0, 0)], [0], 9)
    both = reading.Sheet(p).points, reading.Sheet(q).points
    assert reading.ring_list(*both, True) == [] and reading.ring_list(*both) == [(5, 1, 32)]
    number, page, opened, _ = reading.page_call(p, q, (0, 0), 16, grid=True)
    assert (number, page.pairs, page.end, page.grid, opened) == (0, [], True, True, 4)
    # the listing along the streets, and with a form 2 sheet: 29 comes after 8 and before 9
    listed = reading.ring_list(reading.Sheet(P).points, reading.Sheet(Q).points, True)
    assert listed == [(5, 1, 16), (5, 2, 36), (6, 2, 49)]
    for p, q in ((P[:-1] + [2], Q), (P, Q[:-1] + [2]), (P[:-1] + [2], Q[:-1] + [2])):
        assert reading.page_call(p, q, (reading.ID + 1, 0), 0, reading.THRESHOLD + 1, None, [], True)[0] == 29 and reading.page_call(p, q, (0, 0), 16)[0] == 0
        assert reading.ring_call(p, q, 9, 9, True)[0] == 29 and reading.ring_call(p, q, 9, 9)[0] == 9
    assert reading.own_call(P[:-1] + [2], (reading.ID + 1, 0), 0, None, [], True)[0] == 29 and reading.own_call(P[:-1] + [3], (0, 0), 1, grid=True)[0] == 2


def contractors_examples():
    """Request 11: the listing's chambers, 5 of contractor 0 and 6 of contractor 1."""
    whole = [(5, 1, 16), (5, 2, 36), (6, 2, 37)]
    for contractor, owners, pairs, opened in ((0, (0, 1), whole[:2], 5), (1, (0, 1), whole[2:], 3), (0, (1, 1), [], 0), (2, (), whole, 8)):
        number, page, count, words = reading.page_call(P, Q, (0, 0), 16, words=[7, 7], contractor=contractor, owners=owners)
        assert (number, page.pairs, page.end, page.contractor, count, words) == (0, pairs, True, contractor, opened, [0, 7])
    # full at the last of its own: the other's chamber follows, and the end mark is set; from a key of the other's chamber
    assert reading.page_call(P, Q, (0, 0), 2, contractor=0, owners=(0, 1))[1].end and not reading.page_call(P, Q, (0, 0), 2)[1].end
    assert reading.page_call(P, Q, (5, 1), 2, contractor=1, owners=(0, 1))[1].pairs == whole[2:]
    # 27, 26, 29, 9: each with all that come after it
    worst = (reading.ID + 1, 0), 0, reading.THRESHOLD + 1, None, [], True
    wide = P[:-1] + [2]
    for p, contractor, owners, number in ((wide[:-1] + [3], 3, (2,), 2), (wide, 3, (2,), 27), (wide, 0, (0,), 26), (wide, 0, (0, 1, 1), 26), (wide, 1, (0, 2), 26),
                                          (wide, 2, (0, 1), 26), (wide, 0, (0, 1), 29), (P, 0, (0, 1), 9)):
        assert reading.page_call(p, Q, *worst, contractor, owners)[0] == number
    empty = reading.pack([], [], 3)
    assert reading.page_call(P, empty, (0, 0), 16, contractor=0)[1].end and reading.page_call(P, empty, (0, 0), 16, contractor=0, owners=(0,))[0] == 26
    assert [reading.begin((3, 3), t, own, False, contractor)[0] for t, own, contractor in ((0, False, 0), (0, False, 3), (60001, False, 3), (0, True, 2), (0, True, 1), (1, True, 1))] == [
        0, 27, 21, 0, 27, 21]


def many_examples():
    """The listing's pairs at once: the first so many as there are slots, strictly after the key, to a size; what is refused, and in which order."""
    whole, any_size, marks = [(5, 1, 16), (5, 2, 36), (6, 2, 37)], reading.ANY_SIZE, [(9, 9, 9)] * 4
    assert any_size == reading.DIAMETER
    for slots in range(5):
        assert reading.pairs_call(P, Q, (0, 0), any_size, marks[:slots], words=[7, 8]) == (0, min(slots, 3), slots < 3, whole[:slots] + marks[:slots - 3 if slots > 3 else 0], [0, 8])
    for key, largest, t, pairs in (((5, 1), any_size, 0, whole[1:]), ((5, 2), any_size, 0, whole[2:]), ((6, 2), any_size, 0, []), ((5, 0), 36, 0, whole[:2]), ((0, 0), 35, 0, whole[:1]), ((0, 0), 15, 0, []),
                                   ((0, 0), any_size, 2, whole[:2]), ((5, 1), any_size, 2, whole[1:2]), ((5, 1), 36, 2, whole[1:2]), ((0, 0), 35, 2, []), ((0, 0), 36, 1, whole[:2])):
        number, count, more, slots, _ = reading.pairs_call(P, Q, key, largest, list(marks), t)
        assert (number, count, more, slots) == (0, len(pairs), False, pairs + marks[len(pairs):])
        assert key != (0, 0) or reading.count_call(P, Q, largest, t)[:2] == (0, len(pairs))
    # no slot: 0, and whether any follow
    assert [reading.pairs_call(P, Q, key, any_size, [])[:3] for key in ((0, 0), (6, 1), (6, 2))] == [(0, 0, True), (0, 0, True), (0, 0, False)]
    # contractors, and the street grid, along which the last pair is of size 49
    assert [reading.pairs_call(P, Q, (0, 0), any_size, list(marks), contractor=contractor, owners=(0, 1))[3][:2] for contractor in (0, 1)] == [whole[:2], whole[2:] + marks[:1]]
    assert [reading.count_call(P, Q, largest, grid=True)[1] for largest in (37, 48, 49)] == [2, 2, 3]
    # a self join: one pair, of size 100
    assert reading.own_pairs_call(P, (0, 0), 100, list(marks), words=[7, 8]) == (0, 1, False, [(1, 2, 100)] + marks[1:], [0, 8])
    assert [reading.own_count_call(P, largest)[:2] for largest in (99, 100, any_size, any_size + 1)] == [(0, 0), (0, 1), (0, 1), (40, 0)]
    # 27, 26, 29, 9, 21, 40, 24: each with all that come after it; a count has no 9, a self join no 27, 26 and 21
    wide, past = P[:-1] + [2], (reading.ID + 1, 0)
    for p, contractor, owners, key, t, largest, number in ((wide[:-1] + [3], 3, (2,), past, 60001, any_size + 1, 2), (wide, 3, (2,), past, 60001, any_size + 1, 27), (wide, 0, (0,), past, 60001, any_size + 1, 26),
                                                           (wide, 0, (0, 1), past, 60001, any_size + 1, 29), (P, 0, (0, 1), past, 60001, any_size + 1, 9), (P, 0, (0, 1), (0, 0), 60001, any_size + 1, 21),
                                                           (P, 0, (0, 1), (0, 0), 60000, any_size + 1, 40), (P, 0, (0, 1), (0, 0), 60000, any_size, 24)):
        assert reading.pairs_call(p, Q, key, largest, list(marks), t, None, [], True, contractor, owners) == (number, 0, False, marks, [])
        assert reading.count_call(p, Q, largest, t, None, [], True, contractor, owners) == (21 if number == 9 else number, 0, [])
    for words, key, largest, number in ((wide[:-1] + [3], past, any_size + 1, 2), (wide, past, any_size + 1, 29), (P, past, any_size + 1, 9), (P, (0, 0), any_size + 1, 40), (P, (0, 0), any_size, 24)):
        assert reading.own_pairs_call(words, key, largest, list(marks), None, [], True) == (number, 0, False, marks, [])
        assert reading.own_count_call(words, largest, None, [], True) == (40 if number == 9 else number, 0, [])


def many_are_the_pages(rng, p_words, q_words, grid):
    """Many pairs at once, followed by their last keys, are those of the pages; to a size, those of them that are no larger; as many as their count says. So for each
    contractor and t; and of a self join."""
    p, q = reading.Sheet(p_words), reading.Sheet(q_words)
    whole, owners = reading.ring_list(p.points, q.points, grid), tuple(rng.randint(0, 1) for _ in range(q.n))
    sizes = [0, reading.ANY_SIZE] + [pair[2] for pair in whole[:2]]
    for contractor in (0, 1, 2):
        whose = owners if contractor < 2 else ()
        for t in (0, 1, 2):
            paged = followed_pages(rng, lambda key: reading.page_call(p_words, q_words, key, 16, t, whole, grid=grid, contractor=contractor, owners=whose)[1])
            for largest in sizes:
                found = followed_many(rng, lambda key, slots: reading.pairs_call(p_words, q_words, key, largest, slots, t, whole, grid=grid, contractor=contractor, owners=whose))
                assert reading.count_call(p_words, q_words, largest, t, whole, grid=grid, contractor=contractor, owners=whose)[1] == len(found)
                assert found == paged if largest == reading.ANY_SIZE else all(pair in whole and pair[2] <= largest for pair in found)
                assert t or found == [pair for pair in paged if pair[2] <= largest]
    paged = followed_pages(rng, lambda key: reading.own_call(p_words, key, 16, grid=grid)[1])
    for largest in [0, reading.ANY_SIZE] + [pair[2] for pair in paged[:2]]:
        found = followed_many(rng, lambda key, slots: reading.own_pairs_call(p_words, key, largest, slots, grid=grid))
        assert found == [pair for pair in paged if pair[2] <= largest] and reading.own_count_call(p_words, largest, grid=grid)[1] == len(found)


def ranked_examples():
    """The listing's chambers and pump houses by their pairs, and its pairs by scores: in order, to a size, of a contractor; what is refused, and in which order."""
    any_size, words = reading.ANY_SIZE, [7, 8]
    whole = [(5, 1, 16), (5, 2, 36), (6, 2, 37)]
    for k, largest, rows in ((1, any_size, [(5, 2)]), (2, any_size, [(5, 2), (6, 1)]), (16, any_size, [(5, 2), (6, 1)]), (16, 36, [(5, 2), (6, 0)]), (16, 35, [(5, 1), (6, 0)]), (16, 15, [(5, 0), (6, 0)])):
        assert reading.busiest_call(P, Q, k, largest, words=words) == (0, rows, [0, 8])
    for k, largest, rows in ((1, any_size, [(2, 2)]), (16, any_size, [(2, 2), (1, 1)]), (16, 36, [(1, 1), (2, 1)]), (16, 35, [(1, 1), (2, 0)]), (1, 0, [(1, 0)])):
        assert reading.busiest_pumps_call(P, Q, k, largest, words=words) == (0, rows, [0, 8])
    # of a contractor: the contractor's chambers alone
    assert [reading.busiest_call(P, Q, 16, any_size, contractor=contractor, owners=(0, 1))[1] for contractor in (0, 1)] == [[(5, 2)], [(6, 1)]]
    assert reading.busiest_call(P, Q, 16, any_size, contractor=0, owners=(1, 1))[1] == []
    # along the streets the last pair is of size 49
    assert [reading.busiest_call(P, Q, 16, largest, grid=True)[1][1] for largest in (48, 49)] == [(6, 0), (6, 1)]
    # scores of pump houses 1, 2 and of chambers 5, 6: sums in order, then q id, then p id; to a size; of a contractor
    for p_scores, q_scores, k, largest, rows in (((0, 0), (0, 0), 16, any_size, [(pair, 0) for pair in whole]), ((1, 0), (0, 1), 16, any_size, [(whole[0], 1), (whole[2], 1), (whole[1], 0)]),
                                                 ((0, 3), (2, 0), 16, any_size, [(whole[1], 5), (whole[2], 3), (whole[0], 2)]), ((0, 3), (2, 0), 1, any_size, [(whole[1], 5)]),
                                                 ((0, 3), (2, 0), 1, 35, [(whole[0], 2)]), ((0, 3), (2, 9), 2, 36, [(whole[1], 5), (whole[0], 2)]), ((9, 9), (9, 9), 16, 15, []),
                                                 ((10 ** 9, 0), (10 ** 9, 0), 1, any_size, [(whole[0], 2 * 10 ** 9)])):
        assert reading.urgent_call(P, Q, p_scores, q_scores, k, largest, words=words) == (0, rows, [0, 8])
    assert [reading.urgent_call(P, Q, (0, 3), (2, 0), 16, any_size, contractor=contractor, owners=(0, 1))[1] for contractor in (0, 1)] == [[(whole[1], 5), (whole[0], 2)], [(whole[2], 3)]]
    # 27, 26, 29, 10, 40, 41, 42, 24: each with all that come after it; the busiest have no 41 and 42, of pump houses no 27 and 26 either
    wide, most, over = P[:-1] + [2], reading.SCORE, reading.SCORE + 1
    for p, contractor, owners, k, largest, p_scores, q_scores, number in (
            (wide[:-1] + [3], 3, (2,), 0, any_size + 1, (over, 0), (over, 0), 2), (wide, 3, (2,), 0, any_size + 1, (over, 0), (over, 0), 27), (wide, 0, (0,), 17, any_size + 1, (over, 0), (over, 0), 26),
            (wide, 0, (0, 1), 0, any_size + 1, (over, 0), (over, 0), 29), (P, 0, (0, 1), 0, any_size + 1, (over, 0), (over, 0), 10), (P, 0, (0, 1), 17, any_size + 1, (over, 0), (over, 0), 10),
            (P, 0, (0, 1), 16, any_size + 1, (over, 0), (over, 0), 40), (P, 0, (0, 1), 1, any_size, (over, 0), (over, 0), 41), (P, 0, (0, 1), 1, any_size, (0, over), (0, 0), 41),
            (P, 0, (0, 1), 1, any_size, (0,), (0, 0), 41), (P, 0, (0, 1), 1, any_size, (0, 0, 0), (0, 0), 41), (P, 0, (0, 1), 1, any_size, (most, 0), (over, 0), 42),
            (P, 0, (0, 1), 1, any_size, (most, 0), (0,), 42), (P, 0, (0, 1), 1, any_size, (most, 0), (0, 0, 0), 42), (P, 0, (0, 1), 1, any_size, (most, 0), (0, most), 24)):
        assert reading.urgent_call(p, Q, p_scores, q_scores, k, largest, None, [], True, contractor, owners) == (number, [], [])
        number = 24 if number in (41, 42) else number
        assert reading.busiest_call(p, Q, k, largest, None, [], True, contractor, owners) == (number, [], [])
        assert reading.busiest_pumps_call(p, Q, k, largest, None, [], True) == (29 if number in (27, 26) else number, [], [])
    # the words are as many as P's points need, of pump houses as Q's
    empty = reading.pack([], [], 3)
    assert (reading.busiest_call(empty, Q, 2, 0, words=[])[:2], reading.busiest_pumps_call(P, empty, 2, 0, words=[])[:2]) == ((0, [(5, 0), (6, 0)]), (0, [(1, 0), (2, 0)]))
    assert (reading.busiest_call(P, empty, 2, 0, words=[])[0], reading.busiest_pumps_call(empty, Q, 2, 0, words=[])[0], reading.urgent_call(empty, Q, (), (0, 0), 2, 0, words=[])[0]) == (24, 24, 0)


def ranked_are_the_pages(rng, p_words, q_words, grid):
    """Each chamber's number is that of its pairs in the pages; the numbers fall, and none that is left out stands before one that is given; so of pump houses, of
    pairs by their scores, and for each contractor."""
    p, q = reading.Sheet(p_words), reading.Sheet(q_words)
    whole, owners = reading.ring_list(p.points, q.points, grid), tuple(rng.randint(0, 1) for _ in range(q.n))
    scores = [[rng.choice([0, 1, 2, reading.SCORE]) for _ in range(sheet.n)] for sheet in (p, q)]
    for contractor in (0, 1, 2):
        whose = owners if contractor < 2 else ()
        paged = followed_pages(rng, lambda key: reading.page_call(p_words, q_words, key, 16, 0, whole, grid=grid, contractor=contractor, owners=whose)[1])
        for largest in [0, reading.ANY_SIZE] + [pair[2] for pair in whole[:2]]:
            listed = [pair for pair in paged if pair[2] <= largest]
            terms = {"pairs": whole, "grid": grid, "contractor": contractor, "owners": whose}
            k = rng.randint(1, 16)
            many = {point[0]: 0 for point, owner in zip(q.points, owners) if contractor in (2, owner)}
            for pair in listed:
                many[pair[0]] += 1
            first_of(reading.busiest_call(p_words, q_words, k, largest, **terms)[1], k, many, lambda id, pairs: (-pairs, id))
            if contractor == 2:
                many = {point[0]: len([pair for pair in listed if pair[1] == point[0]]) for point in p.points}
                first_of(reading.busiest_pumps_call(p_words, q_words, k, largest, whole, grid=grid)[1], k, many, lambda id, pairs: (-pairs, id))
            sums = {pair: scores[1][[point[0] for point in q.points].index(pair[0])] + scores[0][[point[0] for point in p.points].index(pair[1])] for pair in listed}
            first_of(reading.urgent_call(p_words, q_words, *scores, k, largest, **terms)[1], k, sums, lambda pair, score: (-score, pair[0], pair[1]))


def first_of(rows, k, values, place):
    """The rows are the first k of these, in the order of their places."""
    assert len(rows) == min(k, len(values)) == len({one for one, _ in rows}) and all(values[one] == value for one, value in rows)
    places = [place(one, value) for one, value in rows]
    left = [place(one, value) for one, value in values.items() if one not in dict(rows)]
    assert all(one < other for one, other in zip(places, places[1:])) and (not places or all(places[-1] < other for other in left))


def followed_pages(rng, page_from):
    found, end = [], False
    while not end:
        page = page_from(reading.key_of(found[-1]) if found else (0, 0))
        found, end = found + page.pairs, page.end
    return found


def followed_many(rng, many_from):
    """The slots past the pairs keep their mark; with no slot nothing is stored, and more follow exactly if some do."""
    found, more = [], True
    while more:
        key, marked = reading.key_of(found[-1]) if found else (0, 0), [(9, 9, 9)] * rng.randint(1, 20)
        _, count, more, slots, _ = many_from(key, list(marked))
        assert slots[count:] == marked[count:] and (count == len(marked) or not more)
        assert many_from(key, [])[:4] == (0, 0, count > 0, [])
        found += slots[:count]
    return found


def contractors_divide(rng, p_words, q_words, grid):
    """Both contractors' lists together are the undivided one, and no pair is in both; what their pages show when they are followed; so for each t."""
    p, q = reading.Sheet(p_words), reading.Sheet(q_words)
    owners = tuple(rng.randint(0, 1) for _ in range(q.n))
    whole = reading.ring_list(p.points, q.points, grid)
    for t in (0, 1, 2):
        lists = []
        for contractor in (0, 1):
            key, found, end = (0, 0), [], False
            while not end:
                _, page, _, _ = reading.page_call(p_words, q_words, key, rng.randint(1, 16), t, whole, grid=grid, contractor=contractor, owners=owners)
                assert page.contractor == contractor and (page.pairs or page.end)
                found, end = found + page.pairs, page.end
                key = reading.key_of(found[-1]) if found else key
            lists.append(found)
        assert sorted(lists[0] + lists[1]) == reading.list_of(whole, t) and not set(lists[0]) & set(lists[1])
        bytes_by_id = {point[0]: byte for point, byte in zip(q.points, owners)}
        assert all(bytes_by_id[pair[0]] == contractor for contractor in (0, 1) for pair in lists[contractor])


def renamed(rng, q, owners, contractor):
    """New ids for the chambers that are not the contractor's, each record keeping its place and its byte, packed anew in any order: the sheet and its bytes."""
    own = {point[0] for point, byte in zip(q.points, owners) if byte == contractor}
    most = rng.choice([2 * q.n + 2, 60, reading.ID])
    free = [number for number in trees.ids(rng, min(most, 3 * q.n), most) if number not in own]
    rng.shuffle(free)
    rows = sorted((point if byte == contractor else (free.pop(),) + point[1:], byte) for point, byte in zip(q.points, owners))
    points = [point for point, _ in rows]
    return trees.sheet(points, trees.shuffled(rng, q.n), towns.tree(rng, q.n)[1], q.edition, q.form), tuple(byte for _, byte in rows)


def handed(rules, p, q, pairs, contractor, owners, key, size, t, grid):
    """What a contractor is handed for a request: all but the nodes opened."""
    number, page, _, words = rules.page_call(p, q, key, size, t, pairs, [7, 7], grid, contractor, owners)
    return number, words, page and (page.editions, page.t, page.own, page.grid, page.contractor, page.key, page.pairs, page.end)


def handed_many(rules, p, q, pairs, contractor, owners, key, size, t, grid):
    """What a contractor is handed for a request for many pairs, on marked slots, and for a count: to a size that some pair has, or to any."""
    largest = reading.ANY_SIZE if size == 16 else 5 * size
    return (rules.pairs_call(p, q, key, largest, [(9, 9, 9)] * (size - 1), t, pairs, [7, 7], grid, contractor, owners),
            rules.count_call(p, q, largest, t, pairs, [7, 7], grid, contractor, owners))


def handed_ranked(rules, p, q, pairs, contractor, owners, key, size, t, grid):
    """What a contractor is handed for a request for the busiest chambers, and for the most urgent visits, where scores go by places, those of the other's chambers by
    ids."""
    largest = reading.ANY_SIZE if size == 16 else 5 * size
    scores = [[abs(7 * point[1] + point[2]) % 4 for point in reading.Sheet(words).points] for words in (p, q)]
    scores[1] = [score if owner == contractor else point[0] % 4 for score, owner, point in zip(scores[1], owners, reading.Sheet(q).points)]
    return (rules.busiest_call(p, q, size, largest, pairs, [7, 7], grid, contractor, owners),
            rules.urgent_call(p, q, *scores, size, largest, pairs, [7, 7], grid, contractor, owners))


def unlike(rules, handed=handed):
    """The first request to which a contractor is handed one thing in one run and another in a second, of which only the ids of the other's chambers differ, and with
    them positions, trees and bytes: for every key that is an id of either run, one more, or at an end of the range. None where there is no such request."""
    rng = Chance("blind")
    for k in range(24):
        places, grid, contractor = towns.STREET_PLACES[k % len(towns.STREET_PLACES)], k % 2 > 0, rng.randint(0, 1)
        p, again = [towns.sheet(rng, places, rng.randint(1, 4), 5)[1]] * 2
        q = towns.sheet(rng, places, rng.randint(2, 5), 6)[1]
        houses, chambers = reading.Sheet(p), reading.Sheet(q)
        owners = tuple(rng.choice([0, 1, 1 - contractor]) for _ in range(chambers.n))
        # bytes that are refused are refused in both runs
        owners = owners[:-1] + (2,) if k % 12 == 11 else owners
        other, others = renamed(rng, chambers, owners, contractor)
        if k % 3 == 0:
            again = trees.sheet(houses.points, trees.shuffled(rng, houses.n), towns.tree(rng, houses.n)[1], 5)
        lists = [rules.ring_list(houses.points, reading.Sheet(words).points, grid) for words in (q, other)]
        ids = {point[0] + more for words in (q, other) for point in reading.Sheet(words).points for more in (0, 1)}
        for key_q in sorted(ids | {0, reading.ID, reading.ID + 1}):
            for key_p in [0, reading.ID] + [point[0] for point in houses.points]:
                request = (key_q, key_p), rng.choice([1, 2, 16]), rng.choice([0, 0, 1, 2]), grid
                if handed(rules, p, q, lists[0], contractor, owners, *request) != handed(rules, again, other, lists[1], contractor, others, *request):
                    return k, request
    return None


def contractors_are_blind():
    """"What one contractor is handed may not depend on the ids of the other's chambers": it does not, and it does in each reading of which that is said."""
    assert unlike(reading) is None, unlike(reading)
    for old, new in wrong_readings.UNBLIND:
        assert unlike(wrong_readings.misread(old, new)), "the blind check lets through the reading `%s`" % new
    assert unlike(reading, handed_many) is None, unlike(reading, handed_many)
    assert unlike(reading, handed_ranked) is None, unlike(reading, handed_ranked)
    for old, new in wrong_readings.UNBLIND_MANY:
        assert unlike(wrong_readings.misread(old, new), handed_many), "the blind check of many pairs lets through the reading `%s`" % new
    for old, new in wrong_readings.UNBLIND_RANKED:
        assert unlike(wrong_readings.misread(old, new), handed_ranked), "the blind check of the busiest and the most urgent lets through the reading `%s`" % new


def streets_turned(rng):
    """Along the streets x blocks where neither of its turned coordinates, x + y and x - y, is farther from the middle than half the distance of the two."""
    for _ in range(4000):
        a, b, x = [(rng.randint(-5, 5), rng.randint(-5, 5)) for _ in range(3)]
        turned = [abs(2 * (x[0] + sign * x[1]) - (a[0] + sign * a[1]) - (b[0] + sign * b[1])) for sign in (1, -1)]
        apart = max(abs((a[0] + sign * a[1]) - (b[0] + sign * b[1])) for sign in (1, -1))
        assert reading.street_blocks(a, b, x) == (max(turned) <= apart and x != a and x != b)


def one_corner_is_enough(rng):
    """Of a box the corner farthest along the way from the kept point to q decides for all four."""
    for _ in range(2000):
        q, p, a, b = [(rng.randint(-4, 4), rng.randint(-4, 4)) for _ in range(4)]
        box = (min(a[0], b[0]), min(a[1], b[1]), max(a[0], b[0]), max(a[1], b[1]))
        far = (box[2] if p[0] < q[0] else box[0], box[3] if p[1] < q[1] else box[1])
        assert reading.behind(q, p, far) == all(reading.behind(q, p, corner) for corner in reading.corners(box))


def walks_mean_the_rule(p_words, q_words):
    """A pair is clear exactly if it is a ring pair, in either profile, and of the circle is kept then; no walk of one sheet opens more than m nodes."""
    p, q = reading.Sheet(p_words), reading.Sheet(q_words)
    for j in range(q.n):
        kept, _ = reading.filter_walk(p, q.place(j))
        for i in range(p.n):
            answer, _ = reading.pair_walk(p, q, j, i)
            ring = reading.is_ring_pair(p.points, q.points, j, i)
            assert ring == (answer == reading.CLEAR)
            assert i in kept or not ring
            answer, _ = reading.pair_walk(p, q, j, i, True)
            assert reading.is_ring_pair(p.points, q.points, j, i, True) == (answer == reading.CLEAR)


def nearest_are_listed(p_words, q_words):
    """Every couple at the least distance is a ring pair, so the list of two sheets that are not empty is not empty."""
    p, q = reading.Sheet(p_words), reading.Sheet(q_words)
    couples = {(j, i): (q.place(j)[0] - p.place(i)[0]) ** 2 + (q.place(j)[1] - p.place(i)[1]) ** 2 for j in range(q.n) for i in range(p.n)}
    assert all(reading.is_ring_pair(p.points, q.points, j, i) for (j, i), apart in couples.items() if apart == min(couples.values()))
    assert bool(couples) == bool(reading.ring_list(p.points, q.points))


def self_join_is_its_list(words):
    """The self join is one way of the pairs that one sheet used as both gives, without those of a record with itself: passing over q changes the bit of q alone,
    and every pair of it is kept."""
    sheet = reading.Sheet(words)
    listed = reading.self_list(sheet.points)
    assert listed == [pair for pair in reading.ring_list(sheet.points, sheet.points) if pair[0] < pair[1]]
    for j in range(sheet.n):
        kept, opened = reading.filter_walk(sheet, sheet.place(j))
        assert reading.self_filter(sheet, j) == ([i for i in kept if i != j], opened) and j in kept
    assert reading.self_opened(sheet, (0, 0), len(listed))[1] == listed
    listed = reading.self_list(sheet.points, True)
    assert listed == [pair for pair in reading.ring_list(sheet.points, sheet.points, True) if pair[0] < pair[1]]
    assert reading.self_opened(sheet, (0, 0), len(listed), True)[1] == listed


def runs_are_the_list(p_words, q_words):
    """The runs of all leaves together are the list, each pair once; a pair that a run's walks find is of its list, and the other way round. Answers the run
    of each node that is a leaf."""
    p, q = reading.Sheet(p_words), reading.Sheet(q_words)
    runs = {leaf: reading.leaf_list(p, q, leaf) for leaf in range(q.m) if q.nodes[leaf][0] == 0}
    assert all(reading.leaf_opened(p, q, leaf)[1] == run for leaf, run in runs.items())
    assert sorted(pair for run in runs.values() for pair in run) == reading.ring_list(p.points, q.points)
    return runs


def book_of_lost_pages(rng, pairs, t, grid):
    """Pages lost, repeated and late, of the other profile and of another contractor, who has another list: the book holds the first so many pairs, and all of them
    once it is closed."""
    editions, contractor = (3, 4), rng.randint(0, 2)
    _, book = reading.begin(editions, t, False, grid, contractor)
    full, pairs = pairs, reading.list_of(pairs, t)
    slots, made = [(9, 9, 9)] * len(pairs), []
    for _ in range(400):
        key = reading.next_key(book, slots)[1] if rng.random() < 0.7 else reading.key_of(rng.choice(full + [reading.UNUSED]))
        whose = contractor if rng.random() < 0.9 else (contractor + 1) % 3
        listed = full if whose == contractor else full[1::2]
        made.append(reading.page_of(listed, editions, key, rng.randint(1, 16), rng.choice([t, t, t, t, t + 1]), False, grid != (rng.random() < 0.1), whose))
        page = rng.choice(made[-3:])
        before = (book.held, book.closed, list(slots))
        number = reading.take(book, slots, page)
        assert number in (0, 12, 28, 30, 31, 14) and (number == 0 or before == (book.held, book.closed, slots))
        assert slots[:book.held] == pairs[:book.held] and slots[book.held:] == [(9, 9, 9)] * (len(pairs) - book.held)
        assert not book.closed or book.held == len(pairs)
    assert book.closed


def taken(rules, pairs, count, unused, grid=False):
    """The number by which an empty book takes a page of these pairs, with others behind those that it counts."""
    _, book = rules.begin((3, 4), 0, False, grid)
    slots = [(9, 9, 9)] * 20
    number = rules.take(book, slots, rules.Page((3, 4), (0, 0), pairs + unused, True, 0, False, grid), count)
    return number, book.held, slots[:2]


def begun(rules, editions, t, own=False, grid=False, contractor=2):
    """The number of begin, and the profile and the contractor of the book."""
    number, book = rules.begin(editions, t, own, grid, contractor)
    return number, (book.grid, book.contractor) if book else None


def taken_of(rules, editions, t, key, own=False, grid=False, of_grid=False, contractor=2, of_contractor=2, closed=False):
    """The number by which an empty book of editions (3, 4) and t 2, of either profile and of a contractor, open or closed, takes a page of others."""
    _, book = rules.begin((3, 4), 2, False, of_grid, of_contractor)
    book.closed = closed
    return rules.take(book, [(9, 9, 9)] * 3, rules.Page(editions, key, [(5, 1, 4)], True, t, own, grid, contractor))


def taken_alone(rules, editions, own, closed, grid=False, of_grid=False, contractor=2):
    """The number by which a book of a self join, open or closed, takes a page."""
    _, book = rules.begin((3, 3), 0, True, of_grid)
    book.closed = closed
    return rules.take(book, [(9, 9, 9)] * 3, rules.Page(editions, (0, 0), [(1, 5, 4)], True, 0, own, grid, contractor))


PROFILES = [(grid, of_grid) for grid in (False, True) for of_grid in (False, True)]


def book():
    """Pages at the bounds of number 15, and what a book must answer: cases for the wrong readings of it."""
    most, streets = reading.DIAMETER, reading.STREETS
    asked = [(taken, [(5, 1, size)], 1, []) for size in (0, 1, most - 1, most, most + 1, 2 * most, 2 ** 64 - 1)]
    asked += [(taken, [(5, 1, 0), (5, 2, size)], 2, []) for size in (most, most + 1)]
    asked += [(taken, [(5, 1, 4)], 1, [(5, 2, most + 1)])]
    asked += [(taken, [(one, other, 4)], 1, []) for one in (0, 1, reading.ID, reading.ID + 1) for other in (0, 1, reading.ID, reading.ID + 1)]
    asked += [(taken, [(5, 2, 4), (5, other, 4)], 2, []) for other in (1, 2, 3)]
    asked += [(begun, editions, t) for editions in ((3, 4), (0, 4), (3, reading.EDITION + 1)) for t in (0, 1, reading.THRESHOLD, reading.THRESHOLD + 1, 2 ** 32 - 1)]
    asked += [(taken_of, editions, t, key) for editions in ((3, 4), (3, 5), (4, 3)) for t in (0, 1, 2, 3) for key in ((0, 0), (5, 0))]
    asked += [(begun, editions, t, True) for editions in ((3, 3), (3, 4), (4, 3), (0, 0), (0, 3), (reading.EDITION + 1,) * 2) for t in (0, 1, reading.THRESHOLD, reading.THRESHOLD + 1)]
    asked += [(taken_of, editions, t, key, True) for editions in ((3, 4), (3, 5)) for t in (2, 3) for key in ((0, 0), (5, 0))]
    asked += [(taken_alone, editions, own, closed) for editions in ((3, 3), (3, 4)) for own in (False, True) for closed in (False, True)]
    # of the street grid: its own limit, and that of the circle no longer; the profile of a page against that of the book, beside every other number
    of_streets = [(taken, [(5, 1, size)], 1, [], True) for size in (0, 1, streets - 1, streets, streets + 1, most, most + 1)]
    of_streets += [(taken, [(5, 1, 0), (5, 2, size)], 2, [], True) for size in (streets, streets + 1)] + [(taken, [(5, 1, 4)], 1, [(5, 2, streets + 1)], True)]
    asked += [(taken, [(5, 1, size)], 1, []) for size in (streets - 1, streets, streets + 1)]
    for own in (False, True):
        for both in PROFILES:
            asked += [(taken_of, editions, t, key, own) + both for editions in ((3, 4), (3, 5)) for t in (2, 3) for key in ((0, 0), (5, 0))]
            asked += [(taken_alone, editions, own, closed) + both for editions in ((3, 3), (3, 4)) for closed in (False, True)]
        asked += [(begun, editions, t, own, True) for editions in ((3, 3), (3, 4), (0, 3)) for t in (0, 1, reading.THRESHOLD, reading.THRESHOLD + 1)]
    # of contractors: begin, with every other number of it; a page's contractor against the book's, beside every other number
    for own in (False, True):
        asked += [(begun, editions, t, own, False, contractor) for editions in ((3, 3), (3, 4), (0, 3)) for t in (0, 1, reading.THRESHOLD + 1) for contractor in (0, 1, 2, 3, 2 ** 32 - 1)]
        for of in (0, 1, 2):
            for contractor in (0, 1, 2, 3):
                asked += [(taken_of, editions, t, key, own) + both + (contractor, of) for both in PROFILES for editions in ((3, 4), (3, 5)) for t in (2, 3) for key in ((0, 0), (5, 0))]
                asked += [(taken_of, (3, 4), 2, (0, 0), own, False, False, contractor, of, True)]
        asked += [(taken_alone, (3, 3), own, closed, grid, False, contractor) for closed in (False, True) for grid in (False, True) for contractor in (0, 1)]
    asked = of_streets + asked
    lines = [ask(reading, *given) for ask, *given in asked]
    assert [line[0] for line in lines[:20]] == [0, 0, 0, 0, 15, 15, 15, 0, 15, 0, 0, 0, 0, 0, 15, 15, 15, 0, 15, 0]
    return types.SimpleNamespace(name="the book", asked=asked, lines=lines)


def main():
    examples()
    street_examples()
    contractors_examples()
    many_examples()
    ranked_examples()
    contractors_are_blind()
    book()
    one_corner_is_enough(Chance("corners"))
    streets_turned(Chance("streets"))
    rng = Chance("reading")
    for k in range(60):
        places = towns.PLACES[k % len(towns.PLACES)]
        p, q = towns.sheet(rng, places, rng.randint(1, 24))[1], towns.sheet(rng, places, rng.randint(1, 24))[1]
        walks_mean_the_rule(p, q)
        nearest_are_listed(p, q)
        self_join_is_its_list(p)
        runs_are_the_list(p, q)
        if k % 3 == 0:
            contractors_divide(rng, p, q, k % 2 > 0)
            many_are_the_pages(Chance("many pages %d" % k), p, q, k % 2 > 0)
            ranked_are_the_pages(Chance("ranked %d" % k), p, q, k % 2 > 0)
    for count in (0, 1, 16, 40):
        keys = sorted({(rng.randint(1, 9), rng.randint(1, 40)) for _ in range(count)})
        for t in (0, 1, 2, 5, 40):
            for grid, most in ((False, reading.DIAMETER), (True, reading.STREETS)):
                book_of_lost_pages(rng, [key + (rng.randint(0, most),) for key in keys], t, grid)
