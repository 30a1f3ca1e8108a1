"""A plain reading of the rules in Python, standard library only.

It is written from the sentences of the rules, which stand above each function, and shares nothing with the Rattle code: the generators beside it take
from here what every call must answer. It is slow and says each thing the long way.

A point is (id, x, y), a place is (x, y), a pair is (q id, p id, size), a key is (q id, p id). 0 is P, 1 is Q. Positions go q's first, then p's.

There are two profiles: the circle, and the street grid of request 12. `grid` says which; where it is not handed in it is the circle.

A list is of contractor 0 or 1, or undivided: of contractor 2, and so where no contractor is handed in.
"""

COORDINATE = 1_000_000
ID = 2_000_000_000
EDITION = 1_000_000_000
POINTS = 1_000
NODES = 400
LEVEL = 7
COVERED = 16
SIZE = 16
# "Request 5's threshold goes to 60,000", "Refusal 15's size limit becomes 8,000,000,000,000,000,000 for every page"; of the street grid "the size limit is
# 16,000,000,000,000"
THRESHOLD = 60_000
DIAMETER = 8_000_000_000_000_000_000
STREETS = 16_000_000_000_000

# "Form number 2: the same words, with up to 60,000 points, 24,000 nodes and coordinates from -1,000,000,000 to 1,000,000,000. Form 1 sheets open as before
# under their own limits."
WIDE_POINTS = 60_000
WIDE_NODES = 24_000
WIDE_COORDINATE = 1_000_000_000
LIMITS = {1: (POINTS, NODES, COORDINATE), 2: (WIDE_POINTS, WIDE_NODES, WIDE_COORDINATE)}


# ---------------------------------------------------------------- the sheet

class Sheet:
    """The parts of a sheet's words. "With n points and m nodes, in this order: points, order, rank, nodes, trailer." """

    def __init__(self, words):
        span, root, n, m, edition, form = words[-6:]
        self.n, self.m, self.edition, self.form = n, m, edition, form
        self.points = [tuple(words[3 * i:3 * i + 3]) for i in range(n)]
        self.order = words[3 * n:4 * n]
        self.rank = words[4 * n:5 * n]
        self.nodes = [tuple(words[5 * n + 7 * j:5 * n + 7 * j + 7]) for j in range(m)]

    def place(self, i):
        return self.points[i][1:]


# "Ids strictly ascending, 1 to 2,000,000,000; x and y from -1,000,000 to 1,000,000." Those of form 2 have limits of their own.
def points_right(points, most):
    for k, (number, x, y) in enumerate(points):
        if number < 1 or number > ID:
            return False
        if k > 0 and points[k - 1][0] >= number:
            return False
        if x < -most or x > most or y < -most or y > most:
            return False
    return True


# "order, n words: the position standing at each place; rank, n words: the place of each position. All are 0 to n-1, and order at rank of i is i for
# every i."
def order_right(n, order, rank):
    for word in list(order) + list(rank):
        if word < 0 or word > n - 1:
            return False
    for i in range(n):
        if order[rank[i]] != i:
            return False
    return True


# "n = 0 goes with m = 0 and no other way."
# "Nodes stand level by level from 0, no level skipped, at most 7. Counts are 1 to 16. A leaf (level 0) covers `count` places from `first`; a higher node
# covers nodes one level down, numbered from 0 over the whole table. Within a level the covered runs join without gap, start at the first place (or first
# node of the level below) and end at its last. The highest level has one node, the root, which is the last node; every lower level has at least two."
def nodes_right(n, nodes):
    if (n == 0) != (len(nodes) == 0):
        return False
    if n == 0:
        return True
    levels = [node[0] for node in nodes]
    if levels[0] != 0:
        return False
    for one, other in zip(levels, levels[1:]):
        if other != one and other != one + 1:
            return False
    highest = levels[-1]
    if highest > LEVEL:
        return False
    for node in nodes:
        if node[2] < 1 or node[2] > COVERED:
            return False
    below = list(range(n))
    for level in range(highest + 1):
        here = [j for j in range(len(nodes)) if levels[j] == level]
        if (len(here) == 1) != (level == highest):
            return False
        covered = []
        for j in here:
            first, count = nodes[j][1], nodes[j][2]
            covered += range(first, first + count)
        if covered != below:
            return False
        below = here
    return True


def places_below(nodes, j):
    """The places below node j."""
    level, first, count = nodes[j][:3]
    if level == 0:
        return list(range(first, first + count))
    return [k for child in range(first, first + count) for k in places_below(nodes, child)]


# "A box is the tightest one: least and greatest x and y of the points below it."
def tightest(points, order, nodes, j):
    below = [points[order[k]] for k in places_below(nodes, j)]
    xs, ys = [p[1] for p in below], [p[2] for p in below]
    return (min(xs), min(ys), max(xs), max(ys))


def boxes_right(points, order, nodes):
    return all(node[3:] == tightest(points, order, nodes, j) for j, node in enumerate(nodes))


def open_number(words):
    """The number of the first refusal of `open` that applies, in the order listed, or 0."""
    # 1: under 6 words
    if len(words) < 6:
        return 1
    span, root, n, m, edition, form = words[-6:]
    # 2: "for a form other than 1 or 2"
    if form not in LIMITS:
        return 2
    most_points, most_nodes, most = LIMITS[form]
    # 3: n, m or edition out of range. "n is 0 to 1,000, m 0 to 400, edition 1 to 1,000,000,000."
    if n < 0 or n > most_points or m < 0 or m > most_nodes or edition < 1 or edition > EDITION:
        return 3
    # 4: span, root word or length wrong. "span 5n+7m (words back to the start), root (7 words back, or 0 when m is 0)"; "exactly span+6 words"
    if span != 5 * n + 7 * m or root != (0 if m == 0 else 7) or len(words) != span + 6:
        return 4
    sheet = Sheet(words)
    # 5: an id or coordinate breaks its rule
    if not points_right(sheet.points, most):
        return 5
    # 6: order and rank not as stated
    if not order_right(n, sheet.order, sheet.rank):
        return 6
    # 7: level, first or count wrong, or n and m disagree on zero
    if not nodes_right(n, sheet.nodes):
        return 7
    # 8: a box is not tightest
    if not boxes_right(sheet.points, sheet.order, sheet.nodes):
        return 8
    return 0


# ---------------------------------------------------------------- the packer

def ranks(order):
    rank = [0] * len(order)
    for place, position in enumerate(order):
        rank[position] = place
    return rank


def with_boxes(points, order, runs):
    """The node words of runs (level, first, count), each with its tightest box."""
    nodes = []
    for run in runs:
        nodes.append(run)
        nodes[-1] = run + tightest(points, order, nodes, len(nodes) - 1)
    return nodes


def sheet_words(points, order, nodes, edition, form=1):
    """The words of a sheet, its nodes given whole."""
    n, m = len(points), len(nodes)
    words = [word for point in points for word in point]
    words += list(order) + ranks(order)
    words += [word for node in nodes for word in node]
    return words + [5 * n + 7 * m, 7 if m else 0, n, m, edition, form]


# "It makes nodes of 16, the last of a level taking the rest, until one node is left."
def runs_of_sixteen(n):
    runs = []
    level, first, count = 0, 0, n
    while count > 0:
        here = len(runs)
        for k in range(0, count, COVERED):
            runs.append((level, first + k, min(COVERED, count - k)))
        if len(runs) - here == 1:
            break
        level, first, count = level + 1, here, len(runs) - here
    return runs


def packed_length(n):
    return 5 * n + 7 * len(runs_of_sixteen(n)) + 6


def pack_number(n, point_words, order, edition, out_length, form=1):
    """The number of the first refusal of `pack`: "Pack checks 18, 3, 5, 6, 17." "pack is told the form" """
    # 18: point words not 3n, or order list not n long
    if len(point_words) != 3 * n or len(order) != n:
        return 18
    # 2: "for a form other than 1 or 2, in pack after 18"
    if form not in LIMITS:
        return 2
    most_points, most_nodes, most = LIMITS[form]
    # 3: n, m or edition out of range; m is what the packer makes of n
    if n > most_points or len(runs_of_sixteen(n)) > most_nodes or edition < 1 or edition > EDITION:
        return 3
    # 5: an id or coordinate breaks its rule
    if not points_right([tuple(point_words[3 * i:3 * i + 3]) for i in range(n)], most):
        return 5
    # 6: order not as stated: each position stands at one place
    if sorted(order) != list(range(n)):
        return 6
    # 17: lent output not exactly the sheet's length
    if out_length != packed_length(n):
        return 17
    return 0


def pack(points, order, edition, form=1):
    """The words that `pack` writes, of points (id, x, y)."""
    nodes = with_boxes(points, order, runs_of_sixteen(len(points)))
    return sheet_words(points, order, nodes, edition, form)


# ---------------------------------------------------------------- the ring rule

# "(a-x)·(b-x), the sum of the products of the x and y differences"
def product(a, b, x):
    return (a[0] - x[0]) * (b[0] - x[0]) + (a[1] - x[1]) * (b[1] - x[1])


# "x blocks the pair a, b when (a-x)·(b-x) <= 0." Since request 3 "a record at exactly the place of either end doesn't count as another point".
def blocks(a, b, x):
    return product(a, b, x) <= 0 and x != a and x != b


# "the squared diameter"
def squared(q, p):
    return (q[0] - p[0]) ** 2 + (q[1] - p[1]) ** 2


# ---------------------------------------------------------------- the street grid

# "the sum of the absolute differences [..], over both coordinates"
def along_streets(one, other):
    return abs(one[0] - other[0]) + abs(one[1] - other[1])


# "the absolute differences of 2x and a+b"
def from_middle(a, b, x):
    return along_streets((2 * x[0], 2 * x[1]), (a[0] + b[0], a[1] + b[1]))


# "x blocks a, b when the sum of the absolute differences of 2x and a+b, over both coordinates, is at most the sum of the absolute differences of a and b; a
# record at an end's place doesn't block."
def street_blocks(a, b, x):
    if x in (a, b):
        return False
    return from_middle(a, b, x) <= along_streets(a, b)


# "The box rules carry over with this distance": rule (1) with that of a+b to the doubled box
def street_far(a, b, box):
    low, high = (2 * box[0], 2 * box[1]), (2 * box[2], 2 * box[3])
    middle = (a[0] + b[0], a[1] + b[1])
    nearest = tuple(min(max(low[k], middle[k]), high[k]) for k in (0, 1))
    return along_streets(middle, nearest) > along_streets(a, b)


# "strictly inside for sides"
def street_inside(a, b, corner):
    return from_middle(a, b, corner) < along_streets(a, b)


# "the size is the squared sum of absolute differences"
def street_size(q, p):
    return along_streets(q, p) ** 2


# ---------------------------------------------------------------- the list

# "(q, p) is a ring pair when no other record of P or Q blocks it."
def is_ring_pair(p_points, q_points, j, i, grid=False):
    q, p = q_points[j][1:], p_points[i][1:]
    blocking = street_blocks if grid else blocks
    for k, point in enumerate(p_points):
        if k != i and blocking(q, p, point[1:]):
            return False
    for k, point in enumerate(q_points):
        if k != j and blocking(q, p, point[1:]):
            return False
    return True


# "Each pair in pages, books and leaf runs now has its squared diameter beside the ids."
def pair_of(p_points, q_points, j, i, grid=False):
    q, p = q_points[j], p_points[i]
    return q[0], p[0], street_size(q[1:], p[1:]) if grid else squared(q[1:], p[1:])


# "Unused pairs are three zeros."
UNUSED = (0, 0, 0)


def key_of(pair):
    return pair[:2]


# "The list runs by q id, then p id."
def ring_list(p_points, q_points, grid=False):
    pairs = []
    for j in range(len(q_points)):
        for i in range(len(p_points)):
            if is_ring_pair(p_points, q_points, j, i, grid):
                pairs.append(pair_of(p_points, q_points, j, i, grid))
    return sorted(pairs)


# "Which chambers have at least t partners?" "list all such chambers by id with all their pairs"; "0 for the full list"
def list_of(pairs, t):
    """The list of t, of the full list."""
    partners = {}
    for pair in pairs:
        partners[pair[0]] = partners.get(pair[0], 0) + 1
    return [pair for pair in pairs if partners[pair[0]] >= t]


# ---------------------------------------------------------------- the filter walk

# "(q-p)·(p'-p) <= 0"
def behind(q, p, x):
    return (q[0] - p[0]) * (x[0] - p[0]) + (q[1] - p[1]) * (x[1] - p[1]) <= 0


def corners(box):
    xmin, ymin, xmax, ymax = box
    return [(xmin, ymin), (xmin, ymax), (xmax, ymin), (xmax, ymax)]


def contains(box, x):
    xmin, ymin, xmax, ymax = box
    return xmin <= x[0] <= xmax and ymin <= x[1] <= ymax


# "A point p' is skipped when some kept p has (q-p)·(p'-p) <= 0, else kept." Since request 3 "a kept point at q's place skips nothing, a point at a kept
# point's place is not skipped by it".
def drops_point(q, p, x):
    return behind(q, p, x) and p != q and x != p


# "A box is skipped when some kept p has this for all four corners, else its node is opened." Since request 3 "a box containing the kept point's place is
# opened as far as that point goes".
def drops_box(q, p, box):
    return all(behind(q, p, corner) for corner in corners(box)) and p != q and not contains(box, p)


# "from the root, depth first, in table order"
def walk_down(sheet, skipped, take):
    """Opens each node whose box is not skipped, and takes each position that stands in an opened leaf. The nodes opened."""
    opened = 0

    def visit(j):
        nonlocal opened
        level, first, count = sheet.nodes[j][:3]
        if skipped(j, sheet.nodes[j][3:]):
            return
        opened += 1
        for below in range(first, first + count):
            if level > 0:
                visit(below)
            else:
                take(sheet.order[below])

    if sheet.m > 0:
        visit(sheet.m - 1)
    assert opened <= sheet.m
    return opened


# "Filter walk for q over P: from the root, depth first, in table order, kept set empty at the start."
def filter_walk(sheet, q):
    """The kept positions, ascending, and the nodes opened."""
    kept = []

    def skipped(j, box):
        return any(drops_box(q, sheet.place(i), box) for i in kept)

    def take(position):
        if not any(drops_point(q, sheet.place(i), sheet.place(position)) for i in kept):
            kept.append(position)

    opened = walk_down(sheet, skipped, take)
    return sorted(kept), opened


# Of the street grid: "The half-plane filter doesn't [carry over], so all of P is kept and no filter nodes are counted."
def kept_of(sheet, q, grid):
    """The positions that are ring-walked for q, ascending, and the nodes counted for finding them."""
    if grid:
        return list(range(sheet.n)), 0
    return filter_walk(sheet, q)


# "The kept set is one bit a position [..] (position i is bit i mod 64, counted from the lowest, of word i div 64)"
def kept_words(kept, count):
    """The kept set on so many words."""
    words = [0] * count
    for i in kept:
        words[i // 64] |= 1 << (i % 64)
    return words


# ---------------------------------------------------------------- lent words

# words enough for any call
ENOUGH = [7] * 15_008


# "Kept bits move to a lent slice of at least as many 64-bit words as the points need, sixteen times as many for a leaf run"
def words_for(sheet, chambers=1):
    """How many words the points of a sheet need."""
    return chambers * -(-sheet.n // 64)


# 24: "bit slice too short, after all others but 16 and 25"
def too_short(words, sheet, chambers=1):
    return len(words) < words_for(sheet, chambers)


# "a filter walk leaves its kept set there"; "none touches words past them"
def with_kept(words, sheet, kept):
    """The lent words after the answer of a filter walk."""
    count = words_for(sheet)
    return kept_words(kept, count) + words[count:]


# "any other call zeros"
def with_zeros(words, sheet, chambers=1):
    """The lent words after the answer of any other call."""
    count = words_for(sheet, chambers)
    return [0] * count + words[count:]


# ---------------------------------------------------------------- the ring walk

# "Twice the centre is a+b; if its squared distance to the box with doubled coordinates is over |a-b| squared, skip."
def far(a, b, box):
    xmin, ymin, xmax, ymax = box
    x, y = a[0] + b[0], a[1] + b[1]
    dx = 2 * xmin - x if x < 2 * xmin else x - 2 * xmax if x > 2 * xmax else 0
    dy = 2 * ymin - y if y < 2 * ymin else y - 2 * ymax if y > 2 * ymax else 0
    return dx * dx + dy * dy > (a[0] - b[0]) ** 2 + (a[1] - b[1]) ** 2


# "strictly inside ((a-c)·(b-c) < 0)"
def inside(a, b, corner):
    return product(a, b, corner) < 0


# "If both corners of some side lie strictly inside, the pair is blocked, by that node's side." "The answer shall also name the side, the first that
# qualifies of left, bottom, right, top."
def side_inside(a, b, box, grid=False):
    """The number of that side: 0 left, 1 bottom, 2 right, 3 top. None where no side qualifies."""
    xmin, ymin, xmax, ymax = box
    left, right = [(xmin, ymin), (xmin, ymax)], [(xmax, ymin), (xmax, ymax)]
    bottom, top = [(xmin, ymin), (xmax, ymin)], [(xmin, ymax), (xmax, ymax)]
    for number, side in enumerate((left, bottom, right, top)):
        if all(street_inside(a, b, corner) if grid else inside(a, b, corner) for corner in side):
            return number
    return None


CLEAR = ("clear",)


# "at each box, the root's included, in this order. (1) .. skip. (2) .. blocked, by that node's side. (3) Otherwise open the node. In a leaf, the first
# record that is not an end of the pair and blocks it stops the walk. The answer is clear, or blocked by a point (its set and position) or by a box side
# (its set and node number), together with the nodes opened." A box side is named too, after its node. "A point answer stays as it is."
def ring_walk(sheet, which, a, b, end, grid=False):
    """The walk for the pair a, b over one sheet, which is set `which`; `end` is the position in it that is an end of the pair."""
    opened = 0
    is_far, blocking = (street_far, street_blocks) if grid else (far, blocks)

    def visit(j):
        nonlocal opened
        level, first, count = sheet.nodes[j][:3]
        box = sheet.nodes[j][3:]
        if is_far(a, b, box):
            return CLEAR
        side = side_inside(a, b, box, grid)
        if side is not None:
            return ("side", which, j, side)
        opened += 1
        for k in range(first, first + count):
            if level > 0:
                answer = visit(k)
                if answer != CLEAR:
                    return answer
            else:
                position = sheet.order[k]
                if position != end and blocking(a, b, sheet.place(position)):
                    return ("point", which, position)
        return CLEAR

    answer = visit(sheet.m - 1) if sheet.m > 0 else CLEAR
    assert opened <= sheet.m
    return answer, opened


# "Q is walked first, then P if Q is clear; the counts add up."
def pair_walk(p, q, j, i, grid=False):
    a, b = q.place(j), p.place(i)
    answer, opened = ring_walk(q, 1, a, b, j, grid)
    if answer != CLEAR:
        return answer, opened
    answer, more = ring_walk(p, 0, a, b, i, grid)
    return answer, opened + more


# ---------------------------------------------------------------- the calls open to callers

# "A walk, page request or point reader open to callers checks its sheets first .. 1 to 8 for P, then for Q." "Walks name their points by position."
# 9: "a position not below its sheet's n". A refusal "leaves lent memory [..] as they stood"
def filter_call(p_words, q_words, j, words=ENOUGH):
    """(number, kept positions, opened, the lent words from now on) of a filter walk of position j of Q over P."""
    number = open_number(p_words) or open_number(q_words)
    if number:
        return number, [], 0, words
    p, q = Sheet(p_words), Sheet(q_words)
    if j >= q.n:
        return 9, [], 0, words
    if too_short(words, p):
        return 24, [], 0, words
    kept, opened = filter_walk(p, q.place(j))
    return 0, kept, opened, with_kept(words, p, kept)


# 29: "form 1 sheets only", "29 a form 2 sheet, after 26 and before 9"
def too_wide(grid, *sheets):
    return grid and any(sheet.form == 2 for sheet in sheets)


def ring_call(p_words, q_words, j, i, grid=False):
    """(number, answer, opened) of the ring walk of position j of Q and position i of P."""
    number = open_number(p_words) or open_number(q_words)
    if number:
        return number, None, 0
    p, q = Sheet(p_words), Sheet(q_words)
    if too_wide(grid, p, q):
        return 29, None, 0
    if j >= q.n or i >= p.n:
        return 9, None, 0
    answer, opened = pair_walk(p, q, j, i, grid)
    return 0, answer, opened


def point_call(words, i):
    """(number, point) of the point reader."""
    number = open_number(words)
    if number:
        return number, (0, 0, 0)
    sheet = Sheet(words)
    if i >= sheet.n:
        return 9, (0, 0, 0)
    return 0, sheet.points[i]


# ---------------------------------------------------------------- two contractors

# "Pages and books carry the contractor, or 2 for an undivided list"
UNDIVIDED = 2


# 27: "contractor outside 0 to 2, or not 2 for a self join"
def contractor_right(contractor, own=False):
    return 0 <= contractor <= UNDIVIDED and (contractor == UNDIVIDED or not own)


# 26: "owner bytes not one 0 or 1 a chamber, or any for 2"
def owners_right(contractor, owners, chambers):
    """Of so many chambers."""
    if contractor == UNDIVIDED:
        return len(owners) == 0
    return len(owners) == chambers and all(byte in (0, 1) for byte in owners)


# "A lent byte per chamber, by position, says 0 or 1: whose it is."
def chambers_of(q, owners, contractor):
    """The positions of a contractor's own chambers, of an undivided list all."""
    if contractor == UNDIVIDED:
        return list(range(q.n))
    return [j for j in range(q.n) if owners[j] == contractor]


# "A contractor's list is the ring pairs of its own chambers; all points still block for both."
def contractors_list(pairs, q, chambers):
    """Of the undivided list: the pairs of the chambers at these positions."""
    ids = [q.points[j][0] for j in chambers]
    return [pair for pair in pairs if pair[0] in ids]


# ---------------------------------------------------------------- pages

class Page:
    """"The page holds both editions, the key, the first `size` ring pairs strictly after the key (fewer if fewer follow), their number and an end mark".
    "Pages and books now carry t, 0 for the full list"; "Pages and books now say their kind"; "Pages and books carry the profile" and "the contractor" """

    def __init__(self, editions, key, pairs, end, t=0, own=False, grid=False, contractor=UNDIVIDED):
        self.editions, self.key, self.pairs, self.end = editions, key, pairs, end
        self.t, self.own, self.grid, self.contractor = t, own, grid, contractor


# "an end mark, set exactly when no ring pair follows the last one shown, or follows the key if none is shown"
def page_of(pairs, editions, key, size, t=0, own=False, grid=False, contractor=UNDIVIDED):
    """The page of the list of t. No tree is in it."""
    following = [pair for pair in list_of(pairs, t) if key_of(pair) > key]
    return Page(editions, key, following[:size], len(following) <= size, t, own, grid, contractor)


# "each q in id order from the lowest id not below the key's is filtered once, its kept partners after the key are ring-walked in id order, and the work
# stops at the first pair beyond the size, or after the last q". "Only its own chambers are filtered and counted"
def page_opened(p, q, chambers, key, size, grid=False):
    """The nodes opened for the chambers at these positions, and the pairs found on the way, the one beyond the size left out."""
    opened, found = 0, []
    for j in chambers:
        q_id = q.points[j][0]
        if q_id < key[0]:
            continue
        kept, more = kept_of(p, q.place(j), grid)
        opened += more
        for i in kept:
            pair = pair_of(p.points, q.points, j, i, grid)
            if key_of(pair) <= key:
                continue
            answer, more = pair_walk(p, q, j, i, grid)
            opened += more
            if answer == CLEAR:
                if len(found) == size:
                    return opened, found
                found.append(pair)
    return opened, found


# "With t above 0 a page's count takes in all kept partners of each chamber reached, the last one too."
def page_opened_of(p, q, chambers, key, size, t, grid=False):
    """The same, of the list of a t above 0."""
    opened, found = 0, []
    for j in chambers:
        if q.points[j][0] < key[0]:
            continue
        kept, more = kept_of(p, q.place(j), grid)
        opened += more
        partners = []
        for i in kept:
            answer, more = pair_walk(p, q, j, i, grid)
            opened += more
            if answer == CLEAR:
                partners.append(pair_of(p.points, q.points, j, i, grid))
        for pair in partners:
            if len(partners) >= t and key_of(pair) > key:
                if len(found) == size:
                    return opened, found
                found.append(pair)
    return opened, found


# 27, "then 26 [..]; both before 9", and 29 "after 26 and before 9"; 9: "key out of range", each 0 to 2,000,000,000; 10: size out of range, 1 to 16; "21 t
# outside 0 to 1,000 [..] after 10 for a page"
def page_call(p_words, q_words, key, size, t=0, pairs=None, words=ENOUGH, grid=False, contractor=UNDIVIDED, owners=()):
    """(number, page, opened, the lent words from now on) of a page request. `pairs` is the undivided list, made anew where it is not handed in."""
    number = open_number(p_words) or open_number(q_words)
    if number:
        return number, None, 0, words
    if not contractor_right(contractor):
        return 27, None, 0, words
    if not owners_right(contractor, owners, Sheet(q_words).n):
        return 26, None, 0, words
    if too_wide(grid, Sheet(p_words), Sheet(q_words)):
        return 29, None, 0, words
    if key[0] < 0 or key[0] > ID or key[1] < 0 or key[1] > ID:
        return 9, None, 0, words
    if size < 1 or size > SIZE:
        return 10, None, 0, words
    if t < 0 or t > THRESHOLD:
        return 21, None, 0, words
    p, q = Sheet(p_words), Sheet(q_words)
    if too_short(words, p):
        return 24, None, 0, words
    if pairs is None:
        pairs = ring_list(p.points, q.points, grid)
    chambers = chambers_of(q, owners, contractor)
    listed = contractors_list(pairs, q, chambers)
    page = page_of(listed, (p.edition, q.edition), key, size, t, grid=grid, contractor=contractor)
    opened, found = page_opened_of(p, q, chambers, key, size, t, grid) if t > 0 else page_opened(p, q, chambers, key, size, grid)
    assert found == page.pairs
    return 0, page, opened, with_zeros(words, p)


# ---------------------------------------------------------------- one kind of asset only

# "the self join [..]: pairs of two different records of one sheet, lower id first, in order of lower then higher id, blocked by the other records of that
# sheet under request 3's rule"
def self_list(points, grid=False):
    blocking = street_blocks if grid else blocks
    pairs = []
    for j, one in enumerate(points):
        for i, other in enumerate(points):
            others = [point for k, point in enumerate(points) if k != j and k != i]
            if one[0] < other[0] and not any(blocking(one[1:], other[1:], point[1:]) for point in others):
                pairs.append(pair_of(points, points, j, i, grid))
    return sorted(pairs)


# "the filter passes over q"
def self_filter(sheet, j):
    """The kept positions, ascending, and the nodes opened, of the filter walk for position j of a sheet over the sheet itself."""
    q, kept = sheet.place(j), []

    def take(position):
        if position != j and not any(drops_point(q, sheet.place(k), sheet.place(position)) for k in kept):
            kept.append(position)

    more = walk_down(sheet, lambda node, box: any(drops_box(q, sheet.place(k), box) for k in kept), take)
    return sorted(kept), more


# "Pages, counts [..] work as before"; "kept partners of higher id get one ring walk". Of the street grid all are kept, but q, and nothing is counted for that.
def self_opened(sheet, key, size, grid=False):
    """The nodes opened, and the pairs found on the way, the one beyond the size left out."""
    opened, found = 0, []
    for j in range(sheet.n):
        if sheet.points[j][0] < key[0]:
            continue
        kept, more = ([i for i in range(sheet.n) if i != j], 0) if grid else self_filter(sheet, j)
        opened += more
        for i in kept:
            pair = pair_of(sheet.points, sheet.points, j, i, grid)
            if pair[1] > pair[0] and key_of(pair) > key:
                answer, more = ring_walk(sheet, 0, sheet.place(j), sheet.place(i), i, grid)
                opened += more
                if answer == CLEAR and len(found) == size:
                    return opened, found
                found += [pair] * (answer == CLEAR)
    return opened, found


# "with one edition in both fields and t 0"; "self joins stay undivided"; 1 to 8 of the sheet, 29 of it, then 9, then 10
def own_call(s_words, key, size, pairs=None, words=ENOUGH, grid=False):
    """(number, page, opened, the lent words from now on) of a page request of a self join. `pairs` is its list, made anew where it is not handed in."""
    number = open_number(s_words)
    if number:
        return number, None, 0, words
    if too_wide(grid, Sheet(s_words)):
        return 29, None, 0, words
    if not (0 <= key[0] <= ID and 0 <= key[1] <= ID):
        return 9, None, 0, words
    if not 1 <= size <= SIZE:
        return 10, None, 0, words
    sheet = Sheet(s_words)
    if too_short(words, sheet):
        return 24, None, 0, words
    if pairs is None:
        pairs = self_list(sheet.points, grid)
    page = page_of(pairs, (sheet.edition, sheet.edition), key, size, 0, True, grid)
    opened, found = self_opened(sheet, key, size, grid)
    assert found == page.pairs
    return 0, page, opened, with_zeros(words, sheet)


# ---------------------------------------------------------------- many pairs at once

# "To the largest size that is taken, 8,000,000,000,000,000,000, they are the pairs of the list, for none is larger."
ANY_SIZE = 8_000_000_000_000_000_000


# "whose size is at most a largest one"
def up_to(pairs, largest):
    return [pair for pair in pairs if pair[2] <= largest]


# "With t above 0 they are those of the chambers that have at least t pairs no larger than that, whatever the key."
def list_up_to(pairs, largest, t):
    """Of the full list: those to a size, of the chambers that have at least t of these."""
    return list_of(up_to(pairs, largest), t)


# "the pairs strictly after a key"
def pairs_after(pairs, key):
    return [pair for pair in pairs if key_of(pair) > key]


# "the first so many as there are slots lent"; "The pairs stand from the first slot on"; "The slots past them are as they were." "The answer says how many pairs
# were stored, and whether more follow; with no slots 0, and whether any follow the key."
def stored_in(slots, pairs):
    """How many are stored, whether more follow, the slots from now on."""
    count = min(len(slots), len(pairs))
    return count, len(pairs) > count, pairs[:count] + slots[count:]


# "They give 1 to 8 for P, then for Q, then 27, 26, 29, 9, 21, 40 or 24, looked for in this order; for the number of pairs the same without 9"; "40 is for a
# largest size over 8,000,000,000,000,000,000."
def many_number(p_words, q_words, key, largest, t, words, grid, contractor, owners):
    """The number of the first refusal that applies, or 0; `key` is None for a count."""
    number = open_number(p_words) or open_number(q_words)
    if number:
        return number
    p, q = Sheet(p_words), Sheet(q_words)
    if not contractor_right(contractor):
        return 27
    if not owners_right(contractor, owners, q.n):
        return 26
    if too_wide(grid, p, q):
        return 29
    if key is not None and max(key) > ID:
        return 9
    if t > THRESHOLD:
        return 21
    if largest > ANY_SIZE:
        return 40
    if too_short(words, p):
        return 24
    return 0


# "of a self join 1 to 8, 29, 9, 40 or 24, and for its number the same without 9"
def own_many_number(s_words, key, largest, words, grid):
    """The same of a self join."""
    number = open_number(s_words)
    if number:
        return number
    sheet = Sheet(s_words)
    if too_wide(grid, sheet):
        return 29
    if key is not None and max(key) > ID:
        return 9
    if largest > ANY_SIZE:
        return 40
    if too_short(words, sheet):
        return 24
    return 0


def lists_pairs(p_words, q_words, pairs, largest, t, grid, contractor, owners):
    """The list of a contractor, of an undivided list all, of a t and to a size. `pairs` is the undivided list, made anew where it is not handed in."""
    p, q = Sheet(p_words), Sheet(q_words)
    whole = ring_list(p.points, q.points, grid) if pairs is None else pairs
    return list_up_to(contractors_list(whole, q, chambers_of(q, owners, contractor)), largest, t)


def own_lists_pairs(s_words, pairs, largest, grid):
    """The list of a self join, to a size. `pairs` as above."""
    return list_up_to(self_list(Sheet(s_words).points, grid) if pairs is None else pairs, largest, 0)


# "One call gives, of the list of any terms of two sheets, the pairs [..]" "These calls are lent words as those that filter are": zeros after an answer. "A refusal
# leaves the slots and the words as they were."
def pairs_call(p_words, q_words, key, largest, slots, t=0, pairs=None, words=ENOUGH, grid=False, contractor=UNDIVIDED, owners=()):
    """(number, how many pairs, whether more follow, the slots and the lent words from now on) of a request for many pairs. `pairs` as above."""
    number = many_number(p_words, q_words, key, largest, t, words, grid, contractor, owners)
    if number:
        return number, 0, False, slots, words
    listed = lists_pairs(p_words, q_words, pairs, largest, t, grid, contractor, owners)
    return (0,) + stored_in(slots, pairs_after(listed, key)) + (with_zeros(words, Sheet(p_words)),)


# "A self join has both calls too, of its one sheet, with no t and undivided."
def own_pairs_call(s_words, key, largest, slots, pairs=None, words=ENOUGH, grid=False):
    """The same of a self join."""
    number = own_many_number(s_words, key, largest, words, grid)
    if number:
        return number, 0, False, slots, words
    listed = own_lists_pairs(s_words, pairs, largest, grid)
    return (0,) + stored_in(slots, pairs_after(listed, key)) + (with_zeros(words, Sheet(s_words)),)


# "One call says how many pairs such a list has"
def count_call(p_words, q_words, largest, t=0, pairs=None, words=ENOUGH, grid=False, contractor=UNDIVIDED, owners=()):
    """(number, how many pairs the list has, the lent words from now on). `pairs` as above."""
    number = many_number(p_words, q_words, None, largest, t, words, grid, contractor, owners)
    if number:
        return number, 0, words
    return 0, len(lists_pairs(p_words, q_words, pairs, largest, t, grid, contractor, owners)), with_zeros(words, Sheet(p_words))


def own_count_call(s_words, largest, pairs=None, words=ENOUGH, grid=False):
    """The same of a self join."""
    number = own_many_number(s_words, None, largest, words, grid)
    if number:
        return number, 0, words
    return 0, len(own_lists_pairs(s_words, pairs, largest, grid)), with_zeros(words, Sheet(s_words))


# ---------------------------------------------------------------- whether a chamber has at least t partners

# "For one q id and a t, give the smaller of t and the number of its pairs in the list, and a yes exactly when that is t." "20 unknown q id (single question
# only); 21 t outside 0 to 1,000, or 0 in the single question", after "1 to 8 for P, then for Q"
def partners_call(p_words, q_words, q_id, t, pairs=None, words=ENOUGH):
    """(number, count, yes, the lent words from now on) of the single question. `pairs` as above."""
    number = open_number(p_words) or open_number(q_words)
    if number:
        return number, 0, False, words
    p, q = Sheet(p_words), Sheet(q_words)
    if not any(point[0] == q_id for point in q.points):
        return 20, 0, False, words
    if t < 1 or t > THRESHOLD:
        return 21, 0, False, words
    if too_short(words, p):
        return 24, 0, False, words
    if pairs is None:
        pairs = ring_list(p.points, q.points)
    many = len([pair for pair in pairs if pair[0] == q_id])
    count = min(t, many)
    return 0, count, count == t, with_zeros(words, p)


# ---------------------------------------------------------------- one run per leaf

# "For one leaf of Q, named by node number", "of its points by place"
def leaf_chambers(q, leaf):
    """The positions of a leaf's chambers, by place."""
    first, count = q.nodes[leaf][1:3]
    return [q.order[place] for place in range(first, first + count)]


# "give the ring pairs of its points by place, then p id"
def leaf_list(p, q, leaf):
    """The list of a run. No walk is in it."""
    pairs = []
    for j in leaf_chambers(q, leaf):
        for partner in range(p.n):
            if is_ring_pair(p.points, q.points, j, partner):
                pairs.append(pair_of(p.points, q.points, j, partner))
    return pairs


# "Follow the bulk filter and symmetric rule of source document 004 (4.1, 4.2): one walk of P serves all points of the leaf, in table order as in 01, and
# another chamber of the leaf rules out a partner just as a kept pump house does. A box is skipped exactly when each chamber of the leaf skips it." Request
# 3: "The same holds for leaf runs and their second rule."
def leaf_walk(sheet, chambers):
    """Of chambers that stand at these places: the kept positions of each, ascending, and the nodes opened."""
    kept = [[] for _ in chambers]

    def ruling(c):
        """The places of what rules out a partner of chamber c."""
        pumps = [sheet.place(i) for i in kept[c]]
        others = [place for k, place in enumerate(chambers) if k != c]
        return pumps + others

    def skips_box(c, box):
        return any(drops_box(chambers[c], place, box) for place in ruling(c))

    def skips_point(c, x):
        return any(drops_point(chambers[c], place, x) for place in ruling(c))

    def skipped(j, box):
        return all(skips_box(c, box) for c in range(len(chambers)))

    def take(position):
        for c in range(len(chambers)):
            if not skips_point(c, sheet.place(position)):
                kept[c].append(position)

    opened = walk_down(sheet, skipped, take)
    return [sorted(positions) for positions in kept], opened


# "Its count is that walk's opened nodes plus those of each kept partner's ring walk."
def leaf_opened(p, q, leaf):
    """The nodes opened, and the pairs found on the way."""
    chambers = leaf_chambers(q, leaf)
    partners, opened = leaf_walk(p, [q.place(j) for j in chambers])
    found = []
    for j, kept in zip(chambers, partners):
        for partner in kept:
            answer, more = pair_walk(p, q, j, partner)
            opened += more
            if answer == CLEAR:
                found.append(pair_of(p.points, q.points, j, partner))
    return opened, found


# "in a lent slice of pairs; the rest of the slice isn't touched." "Refusals: 19 no such leaf, then 16 exactly when the pairs outnumber the slots", after
# "1 to 8 for P, then for Q". A refusal "leaves lent memory [..] as they stood"
def run_call(p_words, q_words, leaf, slots, words=ENOUGH):
    """(number, how many pairs, opened, the slots and the lent words from now on) of a run."""
    number = open_number(p_words) or open_number(q_words)
    if number:
        return number, 0, 0, slots, words
    p, q = Sheet(p_words), Sheet(q_words)
    if leaf >= q.m or q.nodes[leaf][0] != 0:
        return 19, 0, 0, slots, words
    if too_short(words, p, 16):
        return 24, 0, 0, slots, words
    run = leaf_list(p, q, leaf)
    if len(run) > len(slots):
        return 16, 0, 0, slots, words
    opened, found = leaf_opened(p, q, leaf)
    assert found == run
    return 0, len(run), opened, run + slots[len(run):], with_zeros(words, p, 16)


# ---------------------------------------------------------------- the shortest circles

# "give in order the k pairs with the smallest squared size, ties by q id and then p id [..], fewer if the list is shorter"
def shortest_of(pairs, k):
    """The k shortest pairs of a list."""
    return sorted(pairs, key=lambda pair: (pair[2], pair[0], pair[1]))[:k]


# "k from 1 to 16", "Refusals: 10 for k", after "1 to 8 for P, then for Q"
def shortest_call(p_words, q_words, k, words=ENOUGH):
    """(number, pairs, the lent words from now on) of a request for the shortest circles."""
    number = open_number(p_words) or open_number(q_words)
    if number:
        return number, [], words
    if k < 1 or k > SIZE:
        return 10, [], words
    p, q = Sheet(p_words), Sheet(q_words)
    if too_short(words, p):
        return 24, [], words
    pairs = ring_list(p.points, q.points)
    return 0, shortest_of(pairs, k), with_zeros(words, p)


# ---------------------------------------------------------------- the busiest, and the most urgent

# "0 to 1,000,000,000"
SCORE = 1_000_000_000


# "the k chambers that are in the most pairs of the list, in order"; "Chambers in as many pairs go by id, the lower first."
def busiest_of(ids, k):
    """Of ids, each with its number of pairs, the k with the most, in order."""
    return sorted(ids, key=lambda rank: (-rank[1], rank[0]))[:k]


# "each with its number of pairs"; "Chambers in no pair count too"
def ranks_of(points, ends):
    """Each point's id and how often it is among the ends of pairs."""
    return [(point[0], ends.count(point[0])) for point in points]


# "A score is lent for each record, by position, for P and for Q"
def scores_right(scores, sheet):
    return len(scores) == sheet.n and all(0 <= score <= SCORE for score in scores)


# "the k pairs of such a list with the highest sum of the scores of their two ends, in order, each with that sum"; "Pairs of one sum go by q id, then by p id."
def urgent_of(pairs, p, q, p_scores, q_scores, k):
    """Of a list the k pairs with the highest sum of the scores of their two ends, in order, each with that sum."""
    of_p, of_q = ({point[0]: score for point, score in zip(sheet.points, scores)} for sheet, scores in ((p, p_scores), (q, q_scores)))
    visits = [(pair, of_q[pair[0]] + of_p[pair[1]]) for pair in pairs]
    return sorted(visits, key=lambda visit: (-visit[1], key_of(visit[0])))[:k]


# "k out of range is refused by 10, a largest size over 8,000,000,000,000,000,000 by 40. Refused by 41 is a call whose scores of P are not one of 0 to 1,000,000,000 for
# each of its points, by 42 one whose scores of Q are not. The order: 1 to 8 of P, 1 to 8 of Q, 27, 26, 29, 10, 40, 41, 42, 24; of pump houses without 27 and 26."
# "The words lent are as many as the points of P need, of pump houses as those of Q."
def asked_number(p_words, q_words, k, largest, words, grid, contractor=UNDIVIDED, owners=(), scores=None, pumps=False):
    """The number of the first refusal that applies, or 0; `scores` are those of P and of Q, or None."""
    number = open_number(p_words) or open_number(q_words)
    if number:
        return number
    p, q = Sheet(p_words), Sheet(q_words)
    p_scores, q_scores = ([0] * p.n, [0] * q.n) if scores is None else scores
    wrong = [(27, not contractor_right(contractor)), (26, not owners_right(contractor, owners, q.n)), (29, too_wide(grid, p, q)), (10, not 1 <= k <= SIZE), (40, largest > ANY_SIZE),
             (41, not scores_right(p_scores, p)), (42, not scores_right(q_scores, q)), (24, too_short(words, q if pumps else p))]
    return next((number for number, holds in wrong if holds), 0)


# "where there are fewer than k chambers, all are given"; "a pair counts if its size is at most the largest that is asked for. Of a contractor it is the contractor's
# list, and the chambers are the contractor's."
def busiest_call(p_words, q_words, k, largest, pairs=None, words=ENOUGH, grid=False, contractor=UNDIVIDED, owners=()):
    """(number, the chambers' ids with their numbers of pairs, the lent words from now on). `pairs` is the undivided list, made anew where it is not handed in."""
    number = asked_number(p_words, q_words, k, largest, words, grid, contractor, owners)
    if number:
        return number, [], words
    q = Sheet(q_words)
    mine = [q.points[j] for j in chambers_of(q, owners, contractor)]
    listed = lists_pairs(p_words, q_words, pairs, largest, 0, grid, contractor, owners)
    return 0, busiest_of(ranks_of(mine, [pair[0] for pair in listed]), k), with_zeros(words, Sheet(p_words))


# "A second call gives the same of pump houses, of the undivided list: how many chambers each is listed with."
def busiest_pumps_call(p_words, q_words, k, largest, pairs=None, words=ENOUGH, grid=False):
    """(number, the pump houses' ids with their numbers of pairs, the lent words from now on). `pairs` as above."""
    number = asked_number(p_words, q_words, k, largest, words, grid, pumps=True)
    if number:
        return number, [], words
    listed = lists_pairs(p_words, q_words, pairs, largest, 0, grid, UNDIVIDED, ())
    return 0, busiest_of(ranks_of(Sheet(p_words).points, [pair[1] for pair in listed]), k), with_zeros(words, Sheet(q_words))


# "A third call": "all where they are fewer"
def urgent_call(p_words, q_words, p_scores, q_scores, k, largest, pairs=None, words=ENOUGH, grid=False, contractor=UNDIVIDED, owners=()):
    """(number, the pairs with their sums of scores, the lent words from now on). `pairs` as above."""
    number = asked_number(p_words, q_words, k, largest, words, grid, contractor, owners, (p_scores, q_scores))
    if number:
        return number, [], words
    listed = lists_pairs(p_words, q_words, pairs, largest, 0, grid, contractor, owners)
    return 0, urgent_of(listed, Sheet(p_words), Sheet(q_words), p_scores, q_scores, k), with_zeros(words, Sheet(p_words))


# ---------------------------------------------------------------- nearest first

# "the box or point with the least squared distance to q first"
def squared_to_point(q, x):
    return (q[0] - x[0]) ** 2 + (q[1] - x[1]) ** 2


def squared_to_box(q, box):
    """To its nearest place; 0 where q stands in it."""
    nearest = (min(max(q[0], box[0]), box[2]), min(max(q[1], box[1]), box[3]))
    return squared_to_point(q, nearest)


BOX, POINT = 0, 1


# "walk P by source document 004's order: the box or point with the least squared distance to q first; on a tie, boxes before points, then lower position
# or node." In 004 (Algorithm 2) what is nearest of all that waits is taken out; a box that is not discarded has all it covers put in; until nothing waits.
def near_walk(sheet, q, skipped, take):
    """Opens each node that is taken out and not skipped, and takes each position that is taken out, until `take` says that it is enough. The nodes opened."""
    opened = 0
    waiting = []

    def wait_box(j):
        waiting.append((squared_to_box(q, sheet.nodes[j][3:]), BOX, j))

    def wait_point(i):
        waiting.append((squared_to_point(q, sheet.place(i)), POINT, i))

    if sheet.m > 0:
        wait_box(sheet.m - 1)
    while waiting:
        assert len(waiting) <= sheet.n + sheet.m
        nearest = min(waiting)
        waiting.remove(nearest)
        _, kind, number = nearest
        if kind == POINT:
            if take(number):
                break
        elif not skipped(sheet.nodes[number][3:]):
            opened += 1
            level, first, count = sheet.nodes[number][:3]
            for below in range(first, first + count):
                if level > 0:
                    wait_box(below)
                else:
                    wait_point(sheet.order[below])
    assert opened <= sheet.m
    return opened


# "Give the pump houses one after another in that order, up to a size of 16."
def nearest_points(sheet, q, size):
    """The positions."""
    given = []

    def take(position):
        given.append(position)
        return len(given) == size

    near_walk(sheet, q, lambda box: False, take)
    return given


# "Then use the same walk as a second filter, kept sets and skips as in 01 with request 3."
def near_filter(sheet, q):
    """The kept positions, ascending, and the nodes opened."""
    kept = []

    def skipped(box):
        return any(drops_box(q, sheet.place(i), box) for i in kept)

    def take(position):
        if not any(drops_point(q, sheet.place(i), sheet.place(position)) for i in kept):
            kept.append(position)
        return False

    opened = near_walk(sheet, q, skipped, take)
    return sorted(kept), opened


# "Waiting boxes and points stand in a lent slice of at least n + m entries, the first n + m zero after an answer, the rest untouched." "Refusals: 20, 10
# (the filter has no size), then 25 slice shorter than that", after "1 to 8 for P, then for Q"
def near_number(p_words, q_words, q_id, size, lent, words):
    """The number of the first refusal that applies, or 0; `size` is None for the filter, and `words` for the other."""
    number = open_number(p_words) or open_number(q_words)
    if number:
        return number
    p, q = Sheet(p_words), Sheet(q_words)
    # 20: unknown q id
    if q_id not in [point[0] for point in q.points]:
        return 20
    # 10: size out of range, 1 to 16
    if size is not None and (size < 1 or size > SIZE):
        return 10
    # 24: bit slice too short, before 25
    if words is not None and too_short(words, p):
        return 24
    # 25: slice shorter than n + m
    if len(lent) < p.n + p.m:
        return 25
    return 0


def wiped(p, lent):
    return [0] * (p.n + p.m) + lent[p.n + p.m:]


def place_of(q, q_id):
    return next(point[1:] for point in q.points if point[0] == q_id)


def nearest_call(p_words, q_words, q_id, size, lent):
    """(number, [(id, squared distance)], the lent numbers from now on)."""
    number = near_number(p_words, q_words, q_id, size, lent, None)
    if number:
        return number, [], lent
    p, place = Sheet(p_words), place_of(Sheet(q_words), q_id)
    return 0, [(p.points[i][0], squared_to_point(place, p.place(i))) for i in nearest_points(p, place, size)], wiped(p, lent)


def near_filter_call(p_words, q_words, q_id, lent, words=ENOUGH):
    """(number, kept positions, opened, the lent numbers and the lent words from now on)."""
    number = near_number(p_words, q_words, q_id, None, lent, words)
    if number:
        return number, [], 0, lent, words
    p, place = Sheet(p_words), place_of(Sheet(q_words), q_id)
    kept, opened = near_filter(p, place)
    return 0, kept, opened, wiped(p, lent), with_kept(words, p, kept)


# ---------------------------------------------------------------- the map marker

# "The map marker of two places [..]: doubled, each is exactly the sum of the two coordinates." 5: a coordinate breaks its rule; "the marker takes the wider
# coordinates"
def mark_call(a, b):
    """(number, both numbers of the marker, doubled)."""
    if any(abs(word) > WIDE_COORDINATE for word in a + b):
        return 5, (0, 0)
    return 0, (a[0] + b[0], a[1] + b[1])


# ---------------------------------------------------------------- the book

class Book:
    """"A book is begun for two editions with nothing held, open, key (0, 0)." "Pages and books now carry t", "say their kind", "carry the profile" and "the
    contractor" """

    def __init__(self, editions, t, own, grid, contractor):
        self.editions, self.t, self.own, self.grid, self.contractor, self.held, self.closed = editions, t, own, grid, contractor, 0, False


# 3: edition out of range; "21 t outside 0 to 1,000 [..] after [..] 3 for begin", to 60,000 since request 9; "begin gives 3 for a self join of two editions,
# 21 with a t"; "27 contractor outside 0 to 2, or not 2 for a self join, for begin after 21"
def begin(editions, t=0, own=False, grid=False, contractor=UNDIVIDED):
    if any(edition < 1 or edition > EDITION for edition in editions):
        return 3, None
    if own and editions[0] != editions[1]:
        return 3, None
    if own and t > 0:
        return 21, None
    if t < 0 or t > THRESHOLD:
        return 21, None
    if not contractor_right(contractor, own):
        return 27, None
    return 0, Book(editions, t, own, grid, contractor)


# "Its next key is its last pair." 11: held exceeds the slice's length. "Asking the next key refuses only by 11."
def next_key(book, slots):
    if book.held > len(slots):
        return 11, None
    if book.held == 0:
        return 0, (0, 0)
    return 0, key_of(slots[book.held - 1])


# "Taking a page appends its pairs and closes the book if the end mark is set." `page_count` is the number that the page gives of its pairs.
def take(book, slots, page, page_count=None):
    """The number. Where it is 0, the book and its slots are changed."""
    count = len(page.pairs) if page_count is None else page_count
    # 11: held exceeds the slice's length
    if book.held > len(slots):
        return 11
    # 12: book closed
    if book.closed:
        return 12
    # 22: "wrong kind, after 12 and before 13"
    if page.own != book.own:
        return 22
    # 28: "page of another contractor, after 22"
    if page.contractor != book.contractor:
        return 28
    # 30: "page of the other profile, after 28"
    if page.grid != book.grid:
        return 30
    # 13: page of other editions
    if page.editions != book.editions:
        return 13
    # 31: "page of another t, after 13 and before 14"
    if page.t != book.t:
        return 31
    # 14: page key is not the book's next key
    if page.key != next_key(book, slots)[1]:
        return 14
    # 15: over 16 pairs; an id outside 1 to 2,000,000,000; pairs not ascending strictly after the key; no pair and no end mark; "15 is also given when a size
    # lies outside" its limit, which is that of the profile
    if count > SIZE:
        return 15
    most = STREETS if page.grid else DIAMETER
    last = page.key
    for pair in page.pairs[:count]:
        if pair[0] < 1 or pair[0] > ID or pair[1] < 1 or pair[1] > ID or key_of(pair) <= last:
            return 15
        if pair[2] < 0 or pair[2] > most:
            return 15
        last = key_of(pair)
    if count == 0 and not page.end:
        return 15
    # 16: more pairs than slots left
    if count > len(slots) - book.held:
        return 16
    for pair in page.pairs[:count]:
        slots[book.held] = pair
        book.held += 1
    if page.end:
        book.closed = True
    return 0
