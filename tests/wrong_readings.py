"""Wrong readings of the rules. Each is an edit of reading.py, and the stored cases must tell it from the right one: that is what they are worth."""
import os
import types

HERE = os.path.dirname(os.path.abspath(__file__))

FIVE_THEN_SIX = '''    # 5: an id or coordinate breaks its rule
    if not points_right(sheet.points, most):
        return 5
    # 6: order and rank not as stated
    if not order_right(n, sheet.order, sheet.rank):
        return 6
'''
SIX_THEN_FIVE = '''    if not order_right(n, sheet.order, sheet.rank):
        return 6
    if not points_right(sheet.points, most):
        return 5
'''
SIX_THEN_SEVENTEEN = '''    if sorted(order) != list(range(n)):
        return 6
    # 17: lent output not exactly the sheet's length
    if out_length != packed_length(n):
        return 17
'''
SEVENTEEN_THEN_SIX = '''    if out_length != packed_length(n):
        return 17
    if sorted(order) != list(range(n)):
        return 6
'''
FIRST_OF_TWO = '''    answer, opened = ring_walk(q, 1, a, b, j, grid)
    if answer != CLEAR:
        return answer, opened
    answer, more = ring_walk(p, 0, a, b, i, grid)
'''
OTHER_FIRST = '''    answer, opened = ring_walk(p, 0, a, b, i, grid)
    if answer != CLEAR:
        return answer, opened
    answer, more = ring_walk(q, 1, a, b, j, grid)
'''
SHEETS_OF_PAGE = '''handed in."""
    number = open_number(p_words) or open_number(q_words)'''
KEY_THEN_SIZE = '''        return 9, None, 0, words
    if size < 1 or size > SIZE:
        return 10, None, 0, words
    if t < 0 or t > THRESHOLD:
        return 21, None, 0, words
    p, q'''
AFTER_KEY = "            if len(partners) >= t and key_of(pair) > key:\n"
WALKED_WHOLE = '''            answer, more = pair_walk(p, q, j, i, grid)
            opened += more
            if answer == CLEAR:
                partners.append('''
KNOWN_THEN_T = '''    if not any(point[0] == q_id for point in q.points):
        return 20, 0, False, words
    if t < 1 or t > THRESHOLD:
        return 21, 0, False, words
'''
T_THEN_KNOWN = '''    if t < 1 or t > THRESHOLD:
        return 21, 0, False, words
    if not any(point[0] == q_id for point in q.points):
        return 20, 0, False, words
'''

FORM_OF_OPEN = '''    # 2: "for a form other than 1 or 2"
    if form not in LIMITS:
        return 2
'''
FORM_OF_PACK = '''    # 2: "for a form other than 1 or 2, in pack after 18"
    if form not in LIMITS:
        return 2
'''
NOT_18 = "    if len(point_words) != 3 * n or len(order) != n:\n        return 18\n"
LIMITS_OF_PACK = "    most_points, most_nodes, most = LIMITS[form]\n    # 3: n, m or edition out of range; m is"

SHEETS = [
    ("POINTS = 1_000", "POINTS = 999"),
    ("POINTS = 1_000", "POINTS = 1_001"),
    ("NODES = 400", "NODES = 399"),
    ("NODES = 400", "NODES = 401"),
    ("LEVEL = 7", "LEVEL = 6"),
    ("LEVEL = 7", "LEVEL = 8"),
    ("COVERED = 16", "COVERED = 15"),
    ("COVERED = 16", "COVERED = 17"),
    ("ID = 2_000_000_000", "ID = 1_999_999_999"),
    ("ID = 2_000_000_000", "ID = 2_000_000_001"),
    ("EDITION = 1_000_000_000", "EDITION = 999_999_999"),
    ("EDITION = 1_000_000_000", "EDITION = 1_000_000_001"),
    ("\nCOORDINATE = 1_000_000\n", "\nCOORDINATE = 999_999\n"),
    ("\nCOORDINATE = 1_000_000\n", "\nCOORDINATE = 1_000_001\n"),
    # the limits of form 2; form 1 under those of form 2, and form 2 under those of form 1; a third form, as form 2 or as form 1
    ("WIDE_POINTS = 60_000", "WIDE_POINTS = 59_999"),
    ("WIDE_POINTS = 60_000", "WIDE_POINTS = 60_001"),
    ("WIDE_NODES = 24_000", "WIDE_NODES = 23_999"),
    ("WIDE_NODES = 24_000", "WIDE_NODES = 24_001"),
    ("WIDE_COORDINATE = 1_000_000_000", "WIDE_COORDINATE = 999_999_999"),
    ("WIDE_COORDINATE = 1_000_000_000", "WIDE_COORDINATE = 1_000_000_001"),
    ("{1: (POINTS, NODES, COORDINATE)", "{1: (WIDE_POINTS, WIDE_NODES, WIDE_COORDINATE)"),
    ("2: (WIDE_POINTS, WIDE_NODES, WIDE_COORDINATE)}", "2: (POINTS, NODES, COORDINATE)}"),
    ("2: (WIDE_POINTS, WIDE_NODES, WIDE_COORDINATE)}", "2: (POINTS, WIDE_NODES, WIDE_COORDINATE)}"),
    ("2: (WIDE_POINTS, WIDE_NODES, WIDE_COORDINATE)}", "2: (WIDE_POINTS, NODES, WIDE_COORDINATE)}"),
    ("2: (WIDE_POINTS, WIDE_NODES, WIDE_COORDINATE)}", "2: (WIDE_POINTS, WIDE_NODES, COORDINATE)}"),
    (FORM_OF_OPEN, "    if form < 1:\n        return 2\n    form = min(form, 2)\n"),
    (FORM_OF_OPEN, FORM_OF_OPEN.replace("form not in LIMITS", "form != 1")),
    # 2 of pack: before 18; after 3; not at all; pack knows form 1 alone; its limits, whatever the form; every sheet is packed as form 1
    (NOT_18, "    if form not in LIMITS:\n        return 2\n" + NOT_18),
    (FORM_OF_PACK, FORM_OF_PACK.replace("return 2", "return 3 if edition < 1 or edition > EDITION else 2")),
    (FORM_OF_PACK, "    form = form if form in LIMITS else 1\n"),
    (FORM_OF_PACK, FORM_OF_PACK.replace("form not in LIMITS", "form != 1")),
    (LIMITS_OF_PACK, LIMITS_OF_PACK.replace("LIMITS[form]", "LIMITS[1]")),
    (LIMITS_OF_PACK, LIMITS_OF_PACK.replace("LIMITS[form]", "LIMITS[2]")),
    ("    return sheet_words(points, order, nodes, edition, form)\n", "    return sheet_words(points, order, nodes, edition)\n"),
    # the marker: of form 1's range; of a range without its ends; one place alone is looked at; halves in whole numbers
    ("abs(word) > WIDE_COORDINATE", "abs(word) > COORDINATE"),
    ("abs(word) > WIDE_COORDINATE", "abs(word) >= WIDE_COORDINATE"),
    ("abs(word) > WIDE_COORDINATE for word in a + b", "abs(word) > WIDE_COORDINATE for word in a"),
    ("    return 0, (a[0] + b[0], a[1] + b[1])\n", "    return 0, ((a[0] + b[0]) // 2 * 2, (a[1] + b[1]) // 2 * 2)\n"),
    ("if number < 1 or number > ID:", "if number < 0 or number > ID:"),
    ("points[k - 1][0] >= number", "points[k - 1][0] > number"),
    ("if word < 0 or word > n - 1:", "if word < 0 or word > n:"),
    ("if order[rank[i]] != i:", "if rank[order[i]] > n:"),
    ("if (n == 0) != (len(nodes) == 0):", "if n == 0 and len(nodes) > 0:"),
    ("if (len(here) == 1) != (level == highest):", "if len(here) != 1 and level == highest:"),
    ("if node[2] < 1 or node[2] > COVERED:", "if node[2] < 0 or node[2] > COVERED:"),
    ("node[3:] == tightest(points, order, nodes, j)", "all(a <= b for a, b in zip(node[3:5], tightest(points, order, nodes, j)))"),
    ("all(node[3:] == tightest", "all(node[0] > 0 or node[3:] == tightest"),
    (" or root != (0 if m == 0 else 7)", ""),
    (" or len(words) != span + 6:", ":"),
    ("if span != 5 * n + 7 * m or", "if"),
    ("m < 0 or m > most_nodes or edition < 1", "m < 0 or m > most_nodes or edition < 0"),
    (FIVE_THEN_SIX, SIX_THEN_FIVE),
    (SIX_THEN_SEVENTEEN, SEVENTEEN_THEN_SIX),
    ("        if len(runs) - here == 1:\n            break\n", "        if len(runs) - here <= 2:\n            break\n"),
    ("runs.append((level, first + k, min(COVERED, count - k)))", "runs.append((level, first + k, COVERED))"),
    ("if len(point_words) != 3 * n or len(order) != n:", "if len(point_words) != 3 * n:"),
    ("    if i >= sheet.n:", "    if i > sheet.n:"),
]

CORNERS_BEHIND = "return all(behind(q, p, corner) for corner in corners(box)) and"
NO_END_BLOCKS = " and x != a and x != b"
POINT_PLACES = " and p != q and x != p"
BOX_PLACES = " and p != q and not contains(box, p)"
BOX_HOLDS = "    return xmin <= x[0] <= xmax and ymin <= x[1] <= ymax"

# of the filter walk and of a run's: the rule of points of before request 3; a kept point at q's place skips points; one skips what stands at its place; the rule
# of boxes of before; a kept point at q's place skips boxes; one skips a box that contains its place; a box does not contain the places on its sides: on none, on
# its left or right side, on its bottom or top; a box is shut only where none of its corners is the kept point's place [O2, O3, O4]
SKIPS = [
    (POINT_PLACES, ""),
    (POINT_PLACES, " and x != p"),
    (POINT_PLACES, " and p != q"),
    (BOX_PLACES, ""),
    (BOX_PLACES, " and not contains(box, p)"),
    (BOX_PLACES, " and p != q"),
    (BOX_HOLDS, "    return xmin < x[0] < xmax and ymin < x[1] < ymax"),
    (BOX_HOLDS, "    return xmin < x[0] < xmax and ymin <= x[1] <= ymax"),
    (BOX_HOLDS, "    return xmin <= x[0] <= xmax and ymin < x[1] < ymax"),
    (BOX_PLACES, " and p != q and p not in corners(box)"),
    # of the corners, the one nearest along the way from p to q decides [W9]
    (CORNERS_BEHIND, "return behind(q, p, (box[0] if p[0] < q[0] else box[2], box[1] if p[1] < q[1] else box[3])) and"),
]

ENOUGH_LENT = "    return len(words) < words_for(sheet, chambers)\n"
WORDS_NEEDED = "    return chambers * -(-sheet.n // 64)\n"
KEPT_LEFT = "    return kept_words(kept, count) + words[count:]\n"
ZEROS_LEFT = "    return [0] * count + words[count:]\n"

# of every call that filters: exactly enough words are too few; one too few is enough; no number of them is; as many as whole words are filled; one more than
# that; sixteen always, as before
LENT = [
    (ENOUGH_LENT, ENOUGH_LENT.replace("<", "<=")),
    (ENOUGH_LENT, ENOUGH_LENT.replace("len(words)", "len(words) + 1")),
    (ENOUGH_LENT, "    return False\n"),
    (WORDS_NEEDED, "    return chambers * (sheet.n // 64)\n"),
    (WORDS_NEEDED, "    return chambers * (sheet.n // 64 + 1)\n"),
    (WORDS_NEEDED, "    return chambers * 16\n"),
]

# of a filter walk: zeros are left; what stood there is kept too; words past those needed are touched; nothing is left
LEFT = LENT + [
    (KEPT_LEFT, "    return [0] * count + words[count:]\n"),
    (KEPT_LEFT, "    return [one | other for one, other in zip(kept_words(kept, count), words)] + words[count:]\n"),
    (KEPT_LEFT, "    return kept_words(kept, len(words))\n"),
    (KEPT_LEFT, "    return words\n"),
]

# of any other call: the words are as they were; words past those needed are touched; the last of those needed is as it was
ZEROS = LENT + [
    (ZEROS_LEFT, "    return words\n"),
    (ZEROS_LEFT, "    return [0] * len(words)\n"),
    (ZEROS_LEFT, "    return [0] * (count - 1) + words[max(0, count - 1):]\n"),
]

BOX_RULES = '''        if is_far(a, b, box):
            return CLEAR
        side = side_inside(a, b, box, grid)
        if side is not None:
            return ("side", which, j, side)
'''

NINE_THEN_SHORT = '''    if j >= q.n:
        return 9, [], 0, words
    if too_short(words, p):
        return 24, [], 0, words
'''

WALKS = LEFT + [
    # 24: before 9; before the sheets' numbers; a refused walk clears the words
    (NINE_THEN_SHORT, NINE_THEN_SHORT.replace("return 9", "return 24 if too_short(words, p) else 9")),
    ("        return number, [], 0, words\n", "        return number if words else 24, [], 0, words\n"),
    (NINE_THEN_SHORT, NINE_THEN_SHORT.replace("24, [], 0, words", "24, [], 0, [0] * len(words)")),
    (NINE_THEN_SHORT, NINE_THEN_SHORT.replace("9, [], 0, words", "9, [], 0, [0] * len(words)")),
    # "Letting a side that touches the circle block" [V7]
    ("    return product(a, b, corner) < 0\n", "    return product(a, b, corner) <= 0\n"),
    # "Halving the centre in whole numbers" [V8]
    ("    x, y = a[0] + b[0], a[1] + b[1]\n", "    x, y = (a[0] + b[0]) // 2 * 2, (a[1] + b[1]) // 2 * 2\n"),
    # "Skipping a box when its centre, or three corners, lie behind the line" [V9, V10]
    (CORNERS_BEHIND, "return behind(q, p, ((box[0] + box[2]) / 2, (box[1] + box[3]) / 2)) and"),
    (CORNERS_BEHIND, "return sum(behind(q, p, corner) for corner in corners(box)) >= 3 and"),
    ("dx * dx + dy * dy > (a[0]", "dx * dx + dy * dy >= (a[0]"),
    ("enumerate((left, bottom, right, top))", "enumerate((left, bottom, right))"),
    # "the first that qualifies of left, bottom, right, top": the last; another order; other numbers [E1]
    ("enumerate((left, bottom, right, top))", "reversed(list(enumerate((left, bottom, right, top))))"),
    ("enumerate((left, bottom, right, top))", "((0, left), (2, right), (1, bottom), (3, top))"),
    ("enumerate((left, bottom, right, top))", "((1, bottom), (0, left), (2, right), (3, top))"),
    ("enumerate((left, bottom, right, top))", "((0, left), (1, bottom), (3, top), (2, right))"),
    ("enumerate((left, bottom, right, top))", "enumerate((left, right, bottom, top))"),
    # "A point answer stays as it is" [E2]
    ("return (\"point\", which, position)", "return (\"point\", which, position, 0)"),
    ("    return product(a, b, x) <= 0", "    return product(a, b, x) < 0"),
    ("(x[1] - p[1]) <= 0", "(x[1] - p[1]) < 0"),
    # the ring rule of before request 3; the place of one end alone doesn't count [O1]
    (NO_END_BLOCKS, ""),
    (NO_END_BLOCKS, " and x != a"),
    (NO_END_BLOCKS, " and x != b"),
    ("        if side is not None:", "        if j < sheet.m - 1 and side is not None:"),
    ("        if side is not None:", "        if level == 0 and side is not None:"),
    (BOX_RULES + "        opened += 1\n", "        opened += 1\n" + BOX_RULES),
    (FIRST_OF_TWO, OTHER_FIRST),
    ("    return answer, opened + more", "    return answer, more"),
    ("words[i // 64] |= 1 << (i % 64)", "words[i // 64] |= 1 << (63 - i % 64)"),
] + SKIPS + [
    ("    if j >= q.n or i >= p.n:", "    if j > q.n or i >= p.n:"),
    ("    if j >= q.n or i >= p.n:", "    if j >= q.n:"),
    ("over P.\"\"\"\n    number = open_number(p_words) or open_number(q_words)", "over P.\"\"\"\n    number = open_number(q_words) or open_number(p_words)"),
    ("over P.\"\"\"\n    number = open_number(p_words) or open_number(q_words)", "over P.\"\"\"\n    number = open_number(p_words)"),
]

SQUARED = "(q[0] - p[0]) ** 2 + (q[1] - p[1]) ** 2"

# the size: not squared; of one axis; along the axes; of the radius; of the two places turned; of q's place alone [Z1]
SIZES = [
    (SQUARED, "int((%s) ** 0.5)" % SQUARED),
    (SQUARED, "(q[0] - p[0]) ** 2"),
    (SQUARED, "(abs(q[0] - p[0]) + abs(q[1] - p[1])) ** 2"),
    (SQUARED, "(%s) // 4" % SQUARED),
    (SQUARED, "(q[0] - p[1]) ** 2 + (q[1] - p[0]) ** 2"),
    (SQUARED, "q[0] ** 2 + q[1] ** 2"),
]

PAGE_SHORT = "    if too_short(words, p):\n        return 24, None, 0, words\n"
OWN_SHORT = "    if too_short(words, sheet):\n        return 24, None, 0, words\n"
PARTNERS_SHORT = "    if too_short(words, p):\n        return 24, 0, False, words\n"

WALKED = "            answer, more = pair_walk(p, q, j, i, grid)\n            opened += more\n"

PAGES = SIZES + ZEROS + [
    # 24: before 21, 10, 9 and 20; before the sheets' numbers; not for a self join, not for the question; a refused request clears the words
    (KEY_THEN_SIZE, KEY_THEN_SIZE.replace("return 21", "return 24 if too_short(words, Sheet(p_words)) else 21")),
    (KEY_THEN_SIZE, KEY_THEN_SIZE.replace("return 10", "return 24 if too_short(words, Sheet(p_words)) else 10")),
    (KEY_THEN_SIZE, KEY_THEN_SIZE.replace("return 9", "return 24 if too_short(words, Sheet(p_words)) else 9")),
    (KNOWN_THEN_T, KNOWN_THEN_T.replace("return 21", "return 24 if too_short(words, p) else 21")),
    (KNOWN_THEN_T, KNOWN_THEN_T.replace("return 20", "return 24 if too_short(words, p) else 20")),
    (SHEETS_OF_PAGE, SHEETS_OF_PAGE + " if words else 24"),
    (PAGE_SHORT, ""),
    (OWN_SHORT, ""),
    (PARTNERS_SHORT, ""),
    (PAGE_SHORT, PAGE_SHORT.replace("0, words", "0, [0] * len(words)")),
    # a page that filters nobody leaves the words as they were; those of Q are asked for, and not those of P
    ("    return 0, page, opened, with_zeros(words, p)\n", "    return 0, page, opened, with_zeros(words, p) if opened else words\n"),
    (PAGE_SHORT, PAGE_SHORT.replace("(words, p)", "(words, q)")),
    (PARTNERS_SHORT, PARTNERS_SHORT.replace("(words, p)", "(words, q)")),
    # unused pairs that are not zeros [P6]
    ("UNUSED = (0, 0, 0)", "UNUSED = (0, 0, 1)"),
    # "Setting the end mark only when the page is not full" [V11]
    ("following[:size], len(following) <= size, t,", "following[:size], len(following) < size, t,"),
    # "a page maker honest on the first page and then closing with an empty one" [V5]
    ("in list_of(pairs, t) if key_of(pair) > key]", "in list_of(pairs, t) if key_of(pair) > key and key == (0, 0)]"),
    ("in list_of(pairs, t) if key_of(pair) > key]", "in list_of(pairs, t) if key_of(pair) >= key]"),
    ("in list_of(pairs, t) if key_of(pair) > key]", "in list_of(pairs, t) if pair[0] > key[0] or pair in pairs and pair[1] > key[1]]"),
    ("        if q_id < key[0]:\n", "        if q_id <= key[0]:\n"),
    ("            if key_of(pair) <= key:\n                continue\n" + WALKED, WALKED + "            if key_of(pair) <= key:\n                continue\n"),
    ("                continue\n" + WALKED, "                continue\n            if len(found) == size:\n                return opened, found\n" + WALKED),
    ("                    return opened, found\n                found.append(pair)\n    return opened, found\n\n\n# \"With t", "                    return opened, found\n                found.append(pair)\n        if len(found) == size:\n            return opened, found\n    return opened, found\n\n\n# \"With t"),
    ("SIZE = 16", "SIZE = 15"),
    ("if size < 1 or size > SIZE:", "if size < 0 or size > SIZE:"),
    (KEY_THEN_SIZE, KEY_THEN_SIZE.replace("return 9", "return 9 if 1 <= size <= SIZE else 10")),
    (SHEETS_OF_PAGE, SHEETS_OF_PAGE.replace("(p_words)", "(words)").replace("(q_words)", "(p_words)").replace("(words)", "(q_words)")),
    ("    if key[0] < 0 or key[0] > ID or key[1] < 0 or key[1] > ID:", "    if key[0] < 0 or key[0] > ID:"),
    ("ID = 2_000_000_000", "ID = 2_000_000_001"),
    ("page = page_of(listed, (p.edition, q.edition), key,", "page = page_of(listed, (q.edition, p.edition), key,"),
    # the list of t: strictly more than t partners; of each pump house and not of each chamber; the chambers with at most t; of the pairs after the key alone;
    # only the first t pairs of a chamber [T3]
    ("if partners[pair[0]] >= t]", "if partners[pair[0]] > t]"),
    ("        partners[pair[0]] = partners.get(pair[0], 0) + 1\n    return [pair for pair in pairs if partners[pair[0]] >= t]", "        partners[pair[1]] = partners.get(pair[1], 0) + 1\n    return [pair for pair in pairs if partners[pair[1]] >= t]"),
    ("if partners[pair[0]] >= t]", "if t == 0 or partners[pair[0]] <= t]"),
    ("in list_of(pairs, t) if key_of(pair) > key]", "in list_of([pair for pair in pairs if key_of(pair) > key], t)]"),
    ("if partners[pair[0]] >= t]", "if t == 0 or partners[pair[0]] >= t > sum(other[0] == pair[0] and other < pair for other in pairs)]"),
    # the count of t: of the kept partners after the key alone; up to the first pair beyond the size; of the ring pairs alone; of chambers that are listed alone
    # [T7]
    (WALKED_WHOLE, '''            if key_of(pair_of(p.points, q.points, j, i)) <= key:
                partners += [pair_of(p.points, q.points, j, i, grid)] * (pair_walk(p, q, j, i, grid)[0] == CLEAR)
                continue
''' + WALKED_WHOLE),
    (AFTER_KEY + "                if len(found) == size:\n                    return opened, found\n", AFTER_KEY + "                if len(found) == size:\n                    return opened - sum(pair_walk(p, q, j, i, grid)[1] for i in kept if p.points[i][0] > pair[1]), found\n"),
    (WALKED_WHOLE, WALKED_WHOLE.replace("            opened += more\n            if answer == CLEAR:\n", "            if answer == CLEAR:\n                opened += more\n")),
    ("        for pair in partners:\n", "        if len(partners) < t:\n            opened -= sum(pair_walk(p, q, j, i, grid)[1] for i in kept)\n        for pair in partners:\n"),
    # the work goes on for t after the page is full; stops at its last pair
    ("                    return opened, found\n                found.append(pair)\n    return opened, found\n\n\n# 27,", "                    continue\n                found.append(pair)\n    return opened, found\n\n\n# 27,"),
    ("                found.append(pair)\n    return opened, found\n\n\n# 27,", "                found.append(pair)\n        if len(found) == size:\n            return opened, found\n    return opened, found\n\n\n# 27,"),
    # 21: its bounds; before 10; not for a page; 0 is a t of the question too; 20 after 21; not at all [T8, T9, T10]
    ("THRESHOLD = 60_000", "THRESHOLD = 59_999"),
    ("THRESHOLD = 60_000", "THRESHOLD = 60_001"),
    ("THRESHOLD = 60_000", "THRESHOLD = 1_000"),
    (KEY_THEN_SIZE, KEY_THEN_SIZE.replace("return 10", "return 10 if 0 <= t <= THRESHOLD else 21")),
    (KEY_THEN_SIZE, KEY_THEN_SIZE.replace("return 21", "t = 0 if t < 0 else THRESHOLD #")),
    ("    if t < 1 or t > THRESHOLD:", "    if t < 0 or t > THRESHOLD:"),
    (KNOWN_THEN_T, T_THEN_KNOWN),
    (KNOWN_THEN_T, KNOWN_THEN_T.replace("any(point[0] == q_id", "any(point[0] >= q_id")),
    (KNOWN_THEN_T, T_THEN_KNOWN.replace("return 20, 0, False, words", "pass")),
    # the question: the number of all pairs; the kept partners; a yes only beyond t; a count of the pump house's pairs [T1, T2]
    ("    count = min(t, many)\n", "    count = many\n"),
    ("    return 0, count, count == t, ", "    return 0, count, many > t, "),
    ("in pairs if pair[0] == q_id])", "in pairs if pair[1] == q_id])"),
    ("of the single question. `pairs` as above.\"\"\"\n    number = open_number(p_words) or open_number(q_words)", "of the single question. `pairs` as above.\"\"\"\n    number = open_number(q_words) or open_number(p_words)"),
]

NONE_BLOCKS = "not any(blocking(one[1:], other[1:], point[1:]) for point in others)"
SELF_KEPT = "if grid else self_filter(sheet, j)\n        opened += more\n"
ONE_WALK = "ring_walk(sheet, 0, sheet.place(j), sheet.place(%s), %s, grid)[1]"
OWN_KEY = "    if not (0 <= key[0] <= ID and 0 <= key[1] <= ID):\n        return 9, None, 0, words\n"
OWN_SIZE = "    if not 1 <= size <= SIZE:\n        return 10, None, 0, words\n"
OWN_SHEET = "    number = open_number(s_words)\n    if number:\n        return number, None, 0, words\n"

# of a self join: pairs both ways; higher id first; a record with itself; blocked by an end's copy, as before request 3; not blocked by records of lower id than both
# [J1, J3]
PAGES += [
    ("            if one[0] < other[0] and not", "            if one[0] != other[0] and not"),
    ("                pairs.append(pair_of(points, points, j, i, grid))\n", "                pairs.append(pair_of(points, points, i, j, grid))\n"),
    ("            if one[0] < other[0] and not", "            if one[0] <= other[0] and not"),
    (NONE_BLOCKS, NONE_BLOCKS.replace("blocking", "point[1:] in (one[1:], other[1:]) or blocking")),
    (NONE_BLOCKS, NONE_BLOCKS.replace("in others", "in others if point > one")),
    # its count: q is walked with itself; partners of lower id are walked too; two ring walks, as of two sheets; of the kept partners before the key too; no filter for q's
    # whose partners all have lower ids [J8, J9]
    (SELF_KEPT, SELF_KEPT.replace("+= more", "+= more + " + ONE_WALK % ("j", "j"))),
    ("            if pair[1] > pair[0] and key_of(pair) > key:\n", "            if key_of(pair) > key:\n"),
    ("                opened += more\n                if answer == CLEAR and", "                opened += 2 * more if answer == CLEAR else more\n                if answer == CLEAR and"),
    ("            if pair[1] > pair[0] and key_of(pair) > key:\n", 
     "            opened += 0 if key_of(pair) > key or pair[1] < pair[0] else " + ONE_WALK % ("i", "i") + "\n            if pair[1] > pair[0] and key_of(pair) > key:\n"),
    (SELF_KEPT, SELF_KEPT.replace("+= more", "+= more if any(i > j for i in kept) else 0")),
    ("                if answer == CLEAR and len(found) == size:\n", "                if len(found) == size:\n"),
    # its page: another kind; a t; 9 after 10; the sheet after the key [J5]
    ("key, size, 0, True, grid)", "key, size, 0, False, grid)"),
    ("key, size, 0, True, grid)", "key, size, 1, True, grid)"),
    (OWN_KEY, OWN_KEY.replace("return 9", "return 9 if 1 <= size <= SIZE else 10")),
    (OWN_SHEET, OWN_SHEET.replace("return number", "return number if 0 <= key[0] <= ID else 9")),
    ("    if not 1 <= size <= SIZE:", "    if not 1 <= size < SIZE:"),
    # 24 of a self join: before 9 and 10; before the sheet's number
    (OWN_KEY, OWN_KEY.replace("return 9", "return 24 if too_short(words, Sheet(s_words)) else 9")),
    (OWN_SIZE, OWN_SIZE.replace("return 10", "return 24 if too_short(words, Sheet(s_words)) else 10")),
    (OWN_SHEET, OWN_SHEET.replace("return number", "return number if words else 24")),
]

SHEETS_OF_RUN = '''of a run."""
    number = open_number(p_words) or open_number(q_words)'''
NO_LEAF = "    if leaf >= q.m or q.nodes[leaf][0] != 0:\n        return 19, 0, 0, slots, words\n"
RUN_SHORT = "    if too_short(words, p, 16):\n        return 24, 0, 0, slots, words\n"
RUN_MADE = "    run = leaf_list(p, q, leaf)\n"
OUTNUMBERED = "    if len(run) > len(slots):\n        return 16, 0, 0, slots, words\n"
BOX_SKIPPED = "        return all(skips_box(c, box) for c in range(len(chambers)))\n"
POINT_KEPT = "            if not skips_point(c, sheet.place(position)):\n"
RING_WALKED = "            opened += more\n            if answer == CLEAR:\n                found.append(pair_of(p.points, q.points, j, partner))\n    return opened, found\n"

RUNS = SIZES + ZEROS + [
    # 24: after 16; before 19; before the sheets' numbers; as many words as for one chamber; as many as the leaf has chambers; those of Q
    (RUN_SHORT + RUN_MADE + OUTNUMBERED, RUN_MADE + OUTNUMBERED + RUN_SHORT),
    (NO_LEAF, NO_LEAF.replace("return 19", "return 24 if too_short(words, p, 16) else 19")),
    (SHEETS_OF_RUN, SHEETS_OF_RUN + " if words else 24"),
    (RUN_SHORT, RUN_SHORT.replace(", p, 16", ", p")),
    (RUN_SHORT, RUN_SHORT.replace(", p, 16", ", p, q.nodes[leaf][2]")),
    (RUN_SHORT, RUN_SHORT.replace(", p, 16", ", q, 16")),
    # the words after a run: zeros for one chamber alone; zeros after 16, after 24
    ("with_zeros(words, p, 16)", "with_zeros(words, p)"),
    (OUTNUMBERED, OUTNUMBERED.replace("slots, words", "slots, with_zeros(words, p, 16)")),
    (RUN_SHORT, RUN_SHORT.replace("slots, words", "slots, [0] * len(words)")),
    # the symmetric rule: the other chambers do not rule out; not for boxes; not for points [L4]
    ("        return pumps + others\n", "        return pumps\n"),
    ("any(drops_box(chambers[c], place, box) for place in ruling(c))", "any(drops_box(chambers[c], place, box) for place in [sheet.place(i) for i in kept[c]])"),
    ("any(drops_point(chambers[c], place, x) for place in ruling(c))", "any(drops_point(chambers[c], place, x) for place in [sheet.place(i) for i in kept[c]])"),
    # another chamber on the chamber's own place rules out all of its partners, as before request 3 [O5]
    ("any(drops_point(chambers[c], place, x) for place in ruling(c))", "chambers.count(chambers[c]) > 1 or any(drops_point(chambers[c], place, x) for place in ruling(c))"),
    # what is kept for one chamber rules out for all; is kept for all; rules out nothing [L3]
    ("    kept = [[] for _ in chambers]\n", "    kept = [[]] * len(chambers)\n"),
    (POINT_KEPT, "            if not all(skips_point(k, sheet.place(position)) for k in range(len(chambers))):\n"),
    ("        return pumps + others\n", "        return others\n"),
    # a box is skipped when one chamber skips it; when the first does; never (the root's never is: a chamber and a pump house nearest to each other keep it open); when three corners are behind; only when strictly behind
    # [L5]
    (BOX_SKIPPED, BOX_SKIPPED.replace("all(", "any(")),
    (BOX_SKIPPED, BOX_SKIPPED.replace("range(len(chambers))", "range(1)")),
    (BOX_SKIPPED, "        return False\n"),
    (CORNERS_BEHIND, "return sum(behind(q, p, corner) for corner in corners(box)) >= 3 and"),
    ("(x[1] - p[1]) <= 0", "(x[1] - p[1]) < 0"),
    # not in table order; by id and not by place; by the partner's place and not its id [L1]
    ("        opened += 1\n        for below in range(first, first + count):\n", "        opened += 1\n        for below in reversed(range(first, first + count)):\n"),
    ("    return [q.order[place] for place in range(first, first + count)]\n", "    return sorted(q.order[place] for place in range(first, first + count))\n"),
    ("        for partner in range(p.n):\n", "        for partner in p.order:\n"),
    # the count: without the filter's nodes; without the ring walks'; of the ring pairs alone; with one filter walk a chamber [L7]
    (RING_WALKED, RING_WALKED.replace("return opened,", "return opened - leaf_walk(p, [q.place(j) for j in chambers])[1],")),
    (RING_WALKED, RING_WALKED.replace("            opened += more\n", "")),
    (RING_WALKED, RING_WALKED.replace("            opened += more\n            if answer == CLEAR:\n", "            if answer == CLEAR:\n                opened += more\n")),
    (RING_WALKED, RING_WALKED.replace("return opened, found", "return opened + sum(filter_walk(p, q.place(j))[1] for j in chambers[1:]), found")),
    # the numbers: Q's before P's; Q's not at all; the leaf's before the sheets'
    (SHEETS_OF_RUN, SHEETS_OF_RUN.replace("(p_words)", "(words)").replace("(q_words)", "(p_words)").replace("(words)", "(q_words)")),
    (SHEETS_OF_RUN, SHEETS_OF_RUN.replace(" or open_number(q_words)", "")),
    (SHEETS_OF_RUN, SHEETS_OF_RUN + "\n    if leaf >= 400:\n        return 19, 0, 0, slots, words"),
    # 19 only past the table; not for its length; 16 before it [L8]
    (NO_LEAF, NO_LEAF.replace(" or q.nodes[leaf][0] != 0", "")),
    (NO_LEAF, NO_LEAF.replace("leaf >= q.m or", "leaf > q.m or")),
    (NO_LEAF, NO_LEAF.replace("return 19,", "return 19 if slots else 16,")),
    # 16 also when exactly enough; only when two are too many; where there is no slot at all [L9]
    (OUTNUMBERED, OUTNUMBERED.replace(">", ">=")),
    (OUTNUMBERED, OUTNUMBERED.replace("len(slots):", "len(slots) + 1:")),
    (OUTNUMBERED, OUTNUMBERED.replace("len(slots):", "len(slots) or not slots:")),
    # the slots: those past the pairs cleared; what fits stored although refused; the pairs at the end [L2, L10]
    ("opened, run + slots[len(run):]", "opened, run + [UNUSED] * (len(slots) - len(run))"),
    (OUTNUMBERED, OUTNUMBERED.replace("0, 0, slots", "0, 0, run[:len(slots)]")),
    ("opened, run + slots[len(run):]", "opened, slots[:len(slots) - len(run)] + run"),
] + SKIPS

BY_SIZE = "    return sorted(pairs, key=lambda pair: (pair[2], pair[0], pair[1]))[:k]\n"
SHEETS_OF_SHORTEST = '''shortest circles."""
    number = open_number(p_words) or open_number(q_words)'''
SIXTEEN_MOST = "    if k < 1 or k > SIZE:\n        return 10, [], words\n"
SHORTEST_SHORT = "    if too_short(words, p):\n        return 24, [], words\n"

SHORTEST = SIZES + ZEROS + [
    # 24: before 10; before the sheets' numbers; of the words that Q needs; the words cleared
    (SIXTEEN_MOST, SIXTEEN_MOST.replace("return 10", "return 24 if too_short(words, Sheet(p_words)) else 10")),
    (SHEETS_OF_SHORTEST, SHEETS_OF_SHORTEST + " if words else 24"),
    (SHORTEST_SHORT, SHORTEST_SHORT.replace("(words, p)", "(words, q)")),
    (SHORTEST_SHORT, SHORTEST_SHORT.replace("[], words", "[], [0] * len(words)")),
    # ties by p id and then q id; by q id alone, the last p id first; the last ids first; as they come in a list the other way round [H2]
    (BY_SIZE, BY_SIZE.replace("pair[0], pair[1])", "pair[1], pair[0])")),
    (BY_SIZE, BY_SIZE.replace("pair[0], pair[1])", "pair[0], -pair[1])")),
    (BY_SIZE, BY_SIZE.replace("pair[0], pair[1])", "-pair[0], -pair[1])")),
    (BY_SIZE, BY_SIZE.replace("sorted(pairs, key=lambda pair: (pair[2], pair[0], pair[1]))", "sorted(pairs[::-1], key=lambda pair: pair[2])")),
    # by ids alone; the longest first; by the diameter in whole numbers; the k shortest, but by ids [H1]
    (BY_SIZE, BY_SIZE.replace("(pair[2], pair[0], pair[1])", "(pair[0], pair[1])")),
    (BY_SIZE, BY_SIZE.replace("(pair[2], pair", "(-pair[2], pair")),
    (BY_SIZE, BY_SIZE.replace("(pair[2], pair", "(int(pair[2] ** 0.5), pair")),
    (BY_SIZE, BY_SIZE.replace("return sorted(pairs", "return sorted(sorted(pairs").replace("[:k]", "[:k])")),
    # of the first sixteen pairs of the list; of all but its last; the shortest of each chamber alone; each size once
    (BY_SIZE, BY_SIZE.replace("sorted(pairs,", "sorted(pairs[:16],")),
    (BY_SIZE, BY_SIZE.replace("sorted(pairs,", "sorted(pairs[:-1],")),
    (BY_SIZE, BY_SIZE.replace("sorted(pairs,", "sorted([pair for pair in pairs if pair[2] == min(other[2] for other in pairs if other[0] == pair[0])],")),
    (BY_SIZE, BY_SIZE.replace("sorted(pairs,", "sorted({pair[2]: pair for pair in pairs[::-1]}.values(),")),
    # one more; one fewer; refused where the list is shorter [H4]
    (BY_SIZE, BY_SIZE.replace("[:k]", "[:k + 1]")),
    (BY_SIZE, BY_SIZE.replace("[:k]", "[:max(1, k - 1)]")),
    ("    return 0, shortest_of(pairs, k), with_zeros(words, p)\n", "    return (0, shortest_of(pairs, k), with_zeros(words, p)) if len(pairs) >= k else (10, [], words)\n"),
    # the numbers: 0 is taken; 17 is; 16 is not; Q's before P's; Q's not at all; that of k before the sheets' [H3, H5]
    (SIXTEEN_MOST, SIXTEEN_MOST.replace("k < 1", "k < 0")),
    (SIXTEEN_MOST, SIXTEEN_MOST.replace("> SIZE", "> SIZE + 1")),
    (SIXTEEN_MOST, SIXTEEN_MOST.replace("> SIZE", "> SIZE - 1")),
    (SHEETS_OF_SHORTEST, SHEETS_OF_SHORTEST.replace("(p_words)", "(words)").replace("(q_words)", "(p_words)").replace("(words)", "(q_words)")),
    (SHEETS_OF_SHORTEST, SHEETS_OF_SHORTEST.replace(" or open_number(q_words)", "")),
    (SHEETS_OF_SHORTEST, SHEETS_OF_SHORTEST.replace("    number =", "    if k < 1 or k > SIZE + 0:\n        return 10, [], words\n    number =")),
    # unused pairs that are not zeros
    ("UNUSED = (0, 0, 0)", "UNUSED = (0, 0, 1)"),
]

TAKEN_OUT = "        nearest = min(waiting)\n"
NO_CHAMBER = "    if q_id not in [point[0] for point in q.points]:\n        return 20\n"
NO_SIZE = "    if size is not None and (size < 1 or size > SIZE):\n        return 10\n"
WORDS_SHORT = "    # 24: bit slice too short, before 25\n    if words is not None and too_short(words, p):\n        return 24\n"
SHORT_TOLD = "    # 25: slice shorter than n + m\n"
TOO_SHORT = "    if len(lent) < p.n + p.m:\n        return 25\n"

NEAR = LEFT + [
    # 24: after 25; before 20; before the sheets' numbers; asked for the pump houses too; a refused filter clears the words, the numbers
    (WORDS_SHORT + SHORT_TOLD + TOO_SHORT, TOO_SHORT + WORDS_SHORT),
    (NO_CHAMBER, NO_CHAMBER.replace("return 20", "return 24 if words is not None and too_short(words, p) else 20")),
    ("for the other.\"\"\"\n    number = open_number(p_words) or open_number(q_words)\n    if number:\n        return number\n", "for the other.\"\"\"\n    number = open_number(p_words) or open_number(q_words)\n    if number:\n        return 24 if words == [] else number\n"),
    (WORDS_SHORT, WORDS_SHORT.replace("words is not None and too_short(words, p)", "too_short(words or [], p)")),
    ("        return number, [], 0, lent, words\n", "        return number, [], 0, lent, [0] * len(words)\n"),
    ("        return number, [], 0, lent, words\n", "        return number, [], 0, [0] * len(lent), words\n"),
    # points before boxes on a tie; the higher node or position first; those that wait longest, or shortest, first [G2]
    ("BOX, POINT = 0, 1", "BOX, POINT = 1, 0"),
    (TAKEN_OUT, "        nearest = min(waiting, key=lambda one: (one[0], one[1], -one[2]))\n"),
    (TAKEN_OUT, "        nearest = min(waiting, key=lambda one: one[:2])\n"),
    (TAKEN_OUT, "        nearest = waiting[0]\n"),
    (TAKEN_OUT, "        nearest = waiting[-1]\n"),
    # the distance along the axes; to a box's centre; to its farthest corner; 0 to a box beside q [G1]
    ("    return (q[0] - x[0]) ** 2 + (q[1] - x[1]) ** 2", "    return (abs(q[0] - x[0]) + abs(q[1] - x[1])) ** 2"),
    ("    return squared_to_point(q, nearest)", "    return squared_to_point(q, ((box[0] + box[2]) // 2, (box[1] + box[3]) // 2))"),
    ("    return squared_to_point(q, nearest)", "    return max(squared_to_point(q, corner) for corner in corners(box))"),
    ("    return squared_to_point(q, nearest)", "    return min(squared_to_point(q, corner) for corner in corners(box))"),
    ("    return squared_to_point(q, nearest)", "    return 0 if box[0] <= q[0] <= box[2] else squared_to_point(q, nearest)"),
    # a position by its place in the table; the root's own box left out of the count
    ("wait_point(sheet.order[below])", "wait_point(below)"),
    ("        elif not skipped(sheet.nodes[number][3:]):\n            opened += 1\n", "        elif not skipped(sheet.nodes[number][3:]):\n            opened += number < sheet.m - 1\n"),
    ("        return len(given) == size\n", "        return len(given) == size + 1\n"),
    # the numbers: 20 last, 10 before it, 25 before 10; exactly enough is too short; n alone, m alone; sizes 0 and 17 [G9, G10]
    (NO_CHAMBER, "    if q_id < q.points[0][0] or q_id > q.points[-1][0]:\n        return 20\n"),
    (NO_CHAMBER + "    # 10: size out of range, 1 to 16\n" + NO_SIZE, NO_SIZE + NO_CHAMBER),
    (NO_SIZE + WORDS_SHORT + SHORT_TOLD + TOO_SHORT, TOO_SHORT + NO_SIZE + WORDS_SHORT),
    (NO_SIZE, NO_SIZE.replace("size < 1", "size < 0")),
    (NO_SIZE, NO_SIZE.replace("size > SIZE", "size > SIZE + 1")),
    (TOO_SHORT, TOO_SHORT.replace("<", "<=")),
    (TOO_SHORT, TOO_SHORT.replace("p.n + p.m", "p.n")),
    (TOO_SHORT, TOO_SHORT.replace("p.n + p.m", "p.m")),
    # the lent numbers: all of them 0; the first n; none [G7, G8]
    ("    return [0] * (p.n + p.m) + lent[p.n + p.m:]", "    return [0] * len(lent)"),
    ("    return [0] * (p.n + p.m) + lent[p.n + p.m:]", "    return [0] * p.n + lent[p.n:]"),
    ("    return [0] * (p.n + p.m) + lent[p.n + p.m:]", "    return lent"),
    ("for the other.\"\"\"\n    number = open_number(p_words) or open_number(q_words)", "for the other.\"\"\"\n    number = open_number(q_words) or open_number(p_words)"),
    # whether a box contains a kept point's place is never asked here: such a box is no farther than the point, so it was taken out before
] + SKIPS[:5]

BOOK = [
    ("DIAMETER = 8_000_000_000_000_000_000", "DIAMETER = 7_999_999_999_999_999_999"),
    ("DIAMETER = 8_000_000_000_000_000_000", "DIAMETER = 8_000_000_000_000_000_001"),
    ("DIAMETER = 8_000_000_000_000_000_000", "DIAMETER = 8_000_000_000_000"),
    # 0 is no size; no size is looked at; only the first; those past the count too [Z3]
    ("        if pair[2] < 0 or", "        if pair[2] <= 0 or"),
    ("        if pair[2] < 0 or pair[2] > most:", "        if False:"),
    ("        if pair[2] < 0 or pair[2] > most:", "        if page.pairs[0][2] > most:"),
    ("        if pair[2] < 0 or pair[2] > most:", "        if any(other[2] > most for other in page.pairs):"),
    ("ID = 2_000_000_000", "ID = 2_000_000_001"),
    ("        if pair[0] < 1 or pair[0] > ID or pair[1] < 1", "        if pair[0] < 1 or pair[0] > ID or pair[1] < 0"),
    ("or key_of(pair) <= last:", "or key_of(pair) < last:"),
    # 31: before 13; after 14; not at all; only for a page of the full list [T11]
    ("    if page.editions != book.editions:\n        return 13\n", "    if page.t != book.t:\n        return 31\n    if page.editions != book.editions:\n        return 13\n"),
    ("    if page.t != book.t:\n        return 31\n", "    if page.t != book.t:\n        return 31 if page.key == next_key(book, slots)[1] else 14\n"),
    ("    if page.t != book.t:\n        return 31\n", ""),
    ("    if page.t != book.t:\n", "    if page.t != book.t and not page.t:\n"),
    # 22: before 12; after 13; not at all; for a self join's book alone [J11]
    ("    if book.closed:\n        return 12\n", "    if page.own != book.own:\n        return 22\n    if book.closed:\n        return 12\n"),
    ("    if page.own != book.own:\n        return 22\n", "    if page.own != book.own:\n        return 22 if page.editions == book.editions else 13\n"),
    ("    if page.own != book.own:\n        return 22\n", ""),
    ("    if page.own != book.own:\n        return 22\n", "    if book.own and not page.own:\n        return 22\n"),
    # begin of a self join: of two editions; 21 before 3; with a t [J12, J13]
    ("    if own and editions[0] != editions[1]:\n        return 3, None\n", ""),
    ("    if own and editions[0] != editions[1]:\n        return 3, None\n", "    if own and editions[0] != editions[1]:\n        return 21 if t > 0 else 3, None\n"),
    ("    if own and t > 0:\n        return 21, None\n", ""),
    ("    if own and t > 0:\n        return 21, None\n", "    if own and t > 1:\n        return 21, None\n"),
    # 21 of begin: before 3; its bound [T10]
    ("    if any(edition < 1 or edition > EDITION for edition in editions):\n        return 3, None\n", "    if t > THRESHOLD:\n        return 21, None\n    if any(edition < 1 or edition > EDITION for edition in editions):\n        return 3, None\n"),
    ("THRESHOLD = 60_000", "THRESHOLD = 59_999"),
    ("THRESHOLD = 60_000", "THRESHOLD = 60_001"),
    ("THRESHOLD = 60_000", "THRESHOLD = 1_000"),
]

AT_MOST = "    return from_middle(a, b, x) <= along_streets(a, b)\n"
NO_END = "    if x in (a, b):\n        return False\n"
FROM_MIDDLE = "    return along_streets((2 * x[0], 2 * x[1]), (a[0] + b[0], a[1] + b[1]))\n"
MIDDLE = "    middle = (a[0] + b[0], a[1] + b[1])\n"
NEAREST = "    nearest = tuple(min(max(low[k], middle[k]), high[k]) for k in (0, 1))\n"
STREET_FAR = "    return along_streets(middle, nearest) > along_streets(a, b)\n"
STREET_INSIDE = "    return from_middle(a, b, corner) < along_streets(a, b)\n"
TOO_WIDE = "    return grid and any(sheet.form == 2 for sheet in sheets)\n"

# of the street grid, what blocks: the border is open; an end's place blocks, that of one end alone; the middle in whole numbers; the place is not doubled but the
# bound is; the circle's size for the bound; the circle's rule; the greater difference for the sum, one axis alone, or the difference of the sums. Halving both sums
# would be right: they are both even or both odd [A1, A2]
STREET_RULE = [
    (AT_MOST, AT_MOST.replace("<=", "<")),
    (NO_END, ""),
    (NO_END, NO_END.replace("x in (a, b)", "x == a")),
    (NO_END, NO_END.replace("x in (a, b)", "x == b")),
    (FROM_MIDDLE, FROM_MIDDLE.replace("(a[0] + b[0], a[1] + b[1])", "((a[0] + b[0]) // 2 * 2, (a[1] + b[1]) // 2 * 2)")),
    (AT_MOST, AT_MOST.replace("along_streets(a, b)", "2 * along_streets(a, b)")),
    (AT_MOST, AT_MOST.replace("from_middle(a, b, x) <= along_streets(a, b)", "from_middle(a, b, x) ** 2 <= squared(a, b)")),
    (AT_MOST, "    return product(a, b, x) <= 0\n"),
    ("    return abs(one[0] - other[0]) + abs(one[1] - other[1])\n", "    return max(abs(one[0] - other[0]), abs(one[1] - other[1]))\n"),
    ("    return abs(one[0] - other[0]) + abs(one[1] - other[1])\n", "    return abs(one[0] - other[0])\n"),
    ("    return abs(one[0] - other[0]) + abs(one[1] - other[1])\n", "    return abs(one[0] - other[0] + one[1] - other[1])\n"),
]

# 29: not at all; for the circle too; for P alone, for Q alone, only where both are; by the points and not by the form [A13]
WIDE = [
    (TOO_WIDE, "    return False\n"),
    (TOO_WIDE, TOO_WIDE.replace("grid and ", "")),
    (TOO_WIDE, TOO_WIDE.replace("sheet in sheets", "sheet in sheets[:1]")),
    (TOO_WIDE, TOO_WIDE.replace("sheet in sheets", "sheet in sheets[-1:]")),
    (TOO_WIDE, TOO_WIDE.replace("any(", "all(")),
    (TOO_WIDE, TOO_WIDE.replace("sheet.form == 2 for sheet in sheets", "abs(word) > COORDINATE for sheet in sheets for point in sheet.points for word in point[1:]")),
]

RING_29 = "    if too_wide(grid, p, q):\n        return 29, None, 0\n"
RING_9 = "    if j >= q.n or i >= p.n:\n        return 9, None, 0\n"
RING_SHEETS = "    if number:\n        return number, None, 0\n    p, q = Sheet(p_words), Sheet(q_words)\n    if too_wide"

WALKS += STREET_RULE + WIDE + [
    # 29 after 9; before the sheets' numbers [A13]
    (RING_29 + RING_9, RING_9 + RING_29),
    (RING_SHEETS, RING_SHEETS.replace("return number,", "return 29 if grid and 2 in p_words[-1:] + q_words[-1:] else number,")),
    # rule (1): at the border; the middle in whole numbers; of the box's own coordinates; to its middle; to its nearest corner; the circle's [A3]
    (STREET_FAR, STREET_FAR.replace(">", ">=")),
    (MIDDLE, "    middle = ((a[0] + b[0]) // 2 * 2, (a[1] + b[1]) // 2 * 2)\n"),
    ("    low, high = (2 * box[0], 2 * box[1]), (2 * box[2], 2 * box[3])\n", "    low, high = box[:2], box[2:]\n"),
    (NEAREST, "    nearest = tuple((low[k] + high[k]) // 2 for k in (0, 1))\n"),
    (NEAREST, "    nearest = tuple(min(low[k], high[k], key=lambda end: abs(end - middle[k])) for k in (0, 1))\n"),
    ("(street_far, street_blocks) if grid", "(far, street_blocks) if grid"),
    # rule (2): a side that touches; one whose one corner lies inside; the circle's [A4]
    (STREET_INSIDE, STREET_INSIDE.replace("<", "<=")),
    ("        if all(street_inside(a, b, corner) if grid", "        if (any if grid else all)(street_inside(a, b, corner) if grid"),
    ("street_inside(a, b, corner) if grid else inside", "inside(a, b, corner) if grid else inside"),
    # the walk of the street grid with the circle's rule for points; the profile is not looked at
    ("(street_far, street_blocks) if grid", "(street_far, blocks) if grid"),
    ("    answer, opened = pair_walk(p, q, j, i, grid)\n    return 0, answer, opened\n", "    answer, opened = pair_walk(p, q, j, i)\n    return 0, answer, opened\n"),
]

KEPT_ALL = "        return list(range(sheet.n)), 0\n    return filter_walk(sheet, q)\n"
SELF_ALL = "        kept, more = ([i for i in range(sheet.n) if i != j], 0) if grid else self_filter(sheet, j)\n"
STREET_SIZE = "    return along_streets(q, p) ** 2\n"
PAGE_29 = "    if too_wide(grid, Sheet(p_words), Sheet(q_words)):\n        return 29, None, 0, words\n"
OWN_29 = "    if too_wide(grid, Sheet(s_words)):\n        return 29, None, 0, words\n"

# 29 of a page and of a self join: after 9, after 10, after 21, after 24; before the sheets' numbers; not at all for a self join [A13]
PAGES += STREET_RULE + WIDE + [
    (PAGE_29, PAGE_29.replace("return 29", "return 9 if key[0] > ID or key[1] > ID else 29")),
    (PAGE_29, PAGE_29.replace("return 29", "return 10 if key[0] <= ID and key[1] <= ID and not 1 <= size <= SIZE else 29")),
    (PAGE_29, PAGE_29.replace("return 29", "return 21 if key[0] <= ID and key[1] <= ID and 1 <= size <= SIZE and t > THRESHOLD else 29")),
    (PAGE_29, PAGE_29.replace("return 29", "return 24 if too_short(words, Sheet(p_words)) else 29")),
    (SHEETS_OF_PAGE, SHEETS_OF_PAGE + " if not (grid and 2 in p_words[-1:] + q_words[-1:]) else 29"),
    (OWN_29, ""),
    (OWN_29, OWN_29.replace("return 29", "return 9 if key[0] > ID or key[1] > ID else 29")),
    (OWN_29, OWN_29.replace("return 29", "return 10 if key[0] <= ID and key[1] <= ID and not 1 <= size <= SIZE else 29")),
    (OWN_29, OWN_29.replace("return 29", "return 24 if too_short(words, Sheet(s_words)) else 29")),
    # the size: not squared; the squared diameter; the sum of the squares of doubled differences; of the greater difference [A9]
    (STREET_SIZE, "    return along_streets(q, p)\n"),
    (STREET_SIZE, "    return squared(q, p)\n"),
    (STREET_SIZE, "    return 2 * squared(q, p)\n"),
    (STREET_SIZE, "    return max(abs(q[0] - p[0]), abs(q[1] - p[1])) ** 2\n"),
    # what is kept: by the half-plane filter; all, but its nodes are counted; all, and all nodes are counted, or one for each chamber; of a self join likewise
    # [A6, A7]
    (KEPT_ALL, "        pass\n    return filter_walk(sheet, q)\n"),
    (KEPT_ALL, KEPT_ALL.replace(", 0\n", ", filter_walk(sheet, q)[1]\n")),
    (KEPT_ALL, KEPT_ALL.replace(", 0\n", ", sheet.m\n")),
    (KEPT_ALL, KEPT_ALL.replace(", 0\n", ", 1\n")),
    (SELF_ALL, "        kept, more = self_filter(sheet, j)\n"),
    (SELF_ALL, SELF_ALL.replace(", 0) if", ", self_filter(sheet, j)[1]) if")),
    (SELF_ALL, SELF_ALL.replace(", 0) if", ", sheet.m) if")),
    # the list of the circle; its walks; a self join's likewise
    ("        pairs = ring_list(p.points, q.points, grid)\n", "        pairs = ring_list(p.points, q.points)\n"),
    ("        pairs = self_list(sheet.points, grid)\n", "        pairs = self_list(sheet.points)\n"),
    ("    opened, found = self_opened(sheet, key, size, grid)\n", "    opened, found = self_opened(sheet, key, size)\n"),
    # a page that does not say its profile, of two sheets and of one [A8]
    ("key, size, t, grid=grid, contractor", "key, size, t, contractor"),
    ("key, size, 0, True, grid)", "key, size, 0, True)"),
]

NOT_30 = "    if page.grid != book.grid:\n        return 30\n"
MOST = "    most = STREETS if page.grid else DIAMETER\n"

BOOK += [
    # the size limit of the street grid; the circle's for both; that of the street grid for both; each for the other [A12]
    ("STREETS = 16_000_000_000_000", "STREETS = 15_999_999_999_999"),
    ("STREETS = 16_000_000_000_000", "STREETS = 16_000_000_000_001"),
    ("STREETS = 16_000_000_000_000", "STREETS = 8_000_000_000_000"),
    (MOST, "    most = DIAMETER\n"),
    (MOST, "    most = STREETS\n"),
    (MOST, "    most = DIAMETER if page.grid else STREETS\n"),
    # 30: before 22; before 12; after 13; after 31; after 14; not at all; for a book of one profile alone [A14]
    ("    if page.own != book.own:\n        return 22\n", NOT_30 + "    if page.own != book.own:\n        return 22\n"),
    ("    if book.closed:\n        return 12\n", NOT_30 + "    if book.closed:\n        return 12\n"),
    (NOT_30, NOT_30.replace("return 30", "return 30 if page.editions == book.editions else 13")),
    (NOT_30, NOT_30.replace("return 30", "return 30 if page.editions != book.editions or page.t == book.t else 31")),
    (NOT_30, NOT_30.replace("return 30", "return 30 if page.editions != book.editions or page.t != book.t or page.key == next_key(book, slots)[1] else 14")),
    (NOT_30, ""),
    (NOT_30, NOT_30.replace("page.grid != book.grid", "book.grid and not page.grid")),
    (NOT_30, NOT_30.replace("page.grid != book.grid", "page.grid and not book.grid")),
    (NOT_30, NOT_30.replace("return 30", "return 22")),
    # begin: the profile is forgotten; a self join of the street grid is refused; a t with it [A8]
    ("    return 0, Book(editions, t, own, grid, contractor)\n", "    return 0, Book(editions, t, own, False, contractor)\n"),
    ("    if own and t > 0:\n        return 21, None\n", "    if own and grid:\n        return 3, None\n    if own and t > 0:\n        return 21, None\n"),
    ("    if own and t > 0:\n        return 21, None\n", "    if (own or grid) and t > 0:\n        return 21, None\n"),
]

PAGE_27 = "    if not contractor_right(contractor):\n        return 27, None, 0, words\n"
PAGE_26 = "    if not owners_right(contractor, owners, Sheet(q_words).n):\n        return 26, None, 0, words\n"
IN_RANGE = "0 <= contractor <= UNDIVIDED and (contractor == UNDIVIDED or not own)"
ONE_EACH = "    return len(owners) == chambers and all(byte in (0, 1) for byte in owners)\n"
NO_BYTES = "        return len(owners) == 0\n"
OWN_CHAMBERS = "    return [j for j in range(q.n) if owners[j] == contractor]\n"
ALL_CHAMBERS = "        return list(range(q.n))\n    return [j"
CHAMBERS = "    chambers = chambers_of(q, owners, contractor)\n"
LISTED = "    listed = contractors_list(pairs, q, chambers)\n"
PAGE_MADE = "    page = page_of(listed, (p.edition, q.edition), key, size, t, grid=grid, contractor=contractor)\n"
PAGE_DONE = "    return 0, page, opened, with_zeros(words, p)\n"
FILTERED = "    for j in chambers:\n        q_id = q.points[j][0]\n        if q_id < key[0]:\n            continue\n        kept, more = kept_of(p, q.place(j), grid)\n        opened += more\n"
FILTERED_OF = "    for j in chambers:\n        if q.points[j][0] < key[0]:\n            continue\n        kept, more = kept_of(p, q.place(j), grid)\n        opened += more\n"
OTHERS = "        if j not in chambers:\n            continue\n"
OTHERS_WALKED = "        if j not in chambers:\n            opened += sum(pair_walk(p, q, j, i, grid)[1] for i in kept)\n            continue\n"
# the key's chamber is the other's; is no chamber of the contractor's own
KEY_OTHERS = "contractor < UNDIVIDED and any(point[0] == key[0] and byte != contractor for point, byte in zip(Sheet(q_words).points, owners))"
KEY_NOT_OWN = "contractor < UNDIVIDED and key[0] > 0 and all(point[0] != key[0] or byte != contractor for point, byte in zip(Sheet(q_words).points, owners))"
# the numbers of a page that come after 27 and 26
LATER = [
    (29, "too_wide(grid, Sheet(p_words), Sheet(q_words))"),
    (9, "key[0] > ID or key[1] > ID"),
    (10, "not 1 <= size <= SIZE"),
    (21, "t > THRESHOLD"),
    (24, "too_short(words, Sheet(p_words))"),
]


def after_later(text, number):
    """The test with this number put after each of the later ones."""
    return [(text, text.replace("return %d" % number, "return %d if %s else %d" % (later, test, number))) for later, test in LATER]


# What one contractor is handed depends here on the ids of the other's chambers: the end mark goes by the whole list; the number of pairs does, or the unused pairs
# say that there are others; a key of the other's chamber is refused, begins from the start, or gives an empty last page. check_reading.py has two runs that tell
# each. [U5]
UNBLIND = [
    (PAGE_MADE, PAGE_MADE + "    page.end = not [pair for pair in list_of(pairs, t) if key_of(pair) > max([key] + list(map(key_of, page.pairs)))]\n"),
    (PAGE_DONE, "    page.pairs = page.pairs + [UNUSED] * (len(page_of(pairs, (0, 0), key, size, t).pairs) - len(page.pairs))\n" + PAGE_DONE),
    (PAGE_DONE, "    page.pairs = page.pairs + [(0, 0, 1)] * (len(page_of(pairs, (0, 0), key, size, t).pairs) - len(page.pairs))\n" + PAGE_DONE),
    (PAGE_26, PAGE_26 + "    if %s:\n        return 9, None, 0, words\n" % KEY_OTHERS),
    (PAGE_MADE, "    asked, key = key, (0, 0) if %s else key\n%s    page.key = asked\n" % (KEY_OTHERS, PAGE_MADE)),
    (CHAMBERS, CHAMBERS + "    chambers = [] if %s else chambers\n" % KEY_OTHERS),
    # bytes by place: each record keeps its byte, but not its place in the table
    (OWN_CHAMBERS, OWN_CHAMBERS.replace("owners[j]", "owners[q.rank[j]]")),
]

CONTRACTORS = UNBLIND + after_later(PAGE_27, 27) + after_later(PAGE_26, 26) + [
    # 27: after 26; before the sheets' numbers, before Q's; not at all; of 3 too; by its lowest byte; 3 and more are an undivided list [U13]
    (PAGE_27 + PAGE_26, PAGE_26 + PAGE_27),
    (SHEETS_OF_PAGE, SHEETS_OF_PAGE + " if contractor <= UNDIVIDED else 27"),
    (SHEETS_OF_PAGE, SHEETS_OF_PAGE.replace(" or ", " or (0 if contractor <= UNDIVIDED else 27) or ")),
    (PAGE_27, ""),
    (IN_RANGE, IN_RANGE.replace("<= UNDIVIDED and", "<= 3 and")),
    (IN_RANGE, IN_RANGE.replace("0 <= contractor <=", "0 <= contractor % 256 <=")),
    (PAGE_27, "    contractor = min(contractor, UNDIVIDED)\n"),
    # 26: before the sheets' numbers, before Q's; not at all; bytes for 2 are let through, as many as chambers are, are asked for [U14]
    (SHEETS_OF_PAGE, SHEETS_OF_PAGE + " if contractor != UNDIVIDED or not owners else 26"),
    (SHEETS_OF_PAGE, SHEETS_OF_PAGE.replace(" or ", " or (0 if contractor != UNDIVIDED or not owners else 26) or ")),
    (PAGE_26, ""),
    (NO_BYTES, "        return True\n"),
    (NO_BYTES, "        return len(owners) in (0, chambers)\n"),
    (NO_BYTES, "        return len(owners) == chambers\n"),
    # one byte short, one more, any number, none for a contractor, those that lack being 0; a byte of 2, any byte; the first alone is looked at, the last is not; 0 and
    # the contractor's own alone; no chambers are refused; the bytes are those of the pump houses, by their number, and whose the pairs are goes by them [U14]
    (PAGE_26, "    if contractor < UNDIVIDED and len(owners) == Sheet(q_words).n - 1:\n        owners = tuple(owners) + (0,)\n" + PAGE_26),
    (ONE_EACH, ONE_EACH.replace("len(owners) == chambers", "chambers <= len(owners) <= chambers + 1")),
    (ONE_EACH, ONE_EACH.replace("len(owners) == chambers and ", "")),
    (PAGE_26, "    if contractor < UNDIVIDED:\n        owners = owners or (0,) * Sheet(q_words).n\n" + PAGE_26),
    (ONE_EACH, ONE_EACH.replace("(0, 1)", "(0, 1, 2)")),
    (ONE_EACH, ONE_EACH.replace(" and all(byte in (0, 1) for byte in owners)", "")),
    (ONE_EACH, ONE_EACH.replace("in owners)", "in owners[:1])")),
    (ONE_EACH, ONE_EACH.replace("in owners)", "in owners[:-1])")),
    (ONE_EACH, ONE_EACH.replace("(0, 1)", "(0, contractor)")),
    (ONE_EACH, ONE_EACH.replace("== chambers and", "== chambers > 0 and")),
    (PAGE_26, PAGE_26.replace("Sheet(q_words)", "Sheet(p_words)")),
    (LISTED, "    listed = pairs if contractor == UNDIVIDED else [pair for pair in pairs if owners[[point[0] for point in p.points].index(pair[1]) % q.n] == contractor]\n"),
    # whose a chamber is: by the position that stands at a place, from the last byte on; contractor 0's for both, the other's; a byte of 0 is both's, one of 1 is;
    # contractor 0 has all, or 1 has; an undivided list has none [U1, U4]
    (OWN_CHAMBERS, OWN_CHAMBERS.replace("owners[j]", "owners[q.order[j]]")),
    (OWN_CHAMBERS, OWN_CHAMBERS.replace("owners[j]", "owners[-1 - j]")),
    (OWN_CHAMBERS, OWN_CHAMBERS.replace("== contractor", "== 0")),
    (OWN_CHAMBERS, OWN_CHAMBERS.replace("== contractor", "!= contractor")),
    (OWN_CHAMBERS, OWN_CHAMBERS.replace("== contractor", "<= contractor")),
    (OWN_CHAMBERS, OWN_CHAMBERS.replace("== contractor", ">= contractor")),
    (CHAMBERS, "    chambers = chambers_of(q, owners, contractor or UNDIVIDED)\n"),
    (CHAMBERS, "    chambers = chambers_of(q, owners, contractor and UNDIVIDED)\n"),
    (ALL_CHAMBERS, ALL_CHAMBERS.replace("list(range(q.n))", "[]")),
    # only own chambers block, in the list and in the walks [U2]
    (CHAMBERS, """    if contractor < UNDIVIDED and q.n < 100:
        own = [q.points[j] for j in chambers_of(q, owners, contractor)]
        q, owners = Sheet(pack(own, list(range(len(own))), q.edition)), [contractor] * len(own)
        pairs = ring_list(p.points, q.points, grid)
""" + CHAMBERS),
    # a key that is none of its own chambers' is refused, gives an empty last page
    (PAGE_26, PAGE_26 + "    if %s:\n        return 9, None, 0, words\n" % KEY_NOT_OWN),
    (CHAMBERS, CHAMBERS + "    chambers = [] if %s else chambers\n" % KEY_NOT_OWN),
    # the other's chambers are filtered, and counted; are walked besides; with a t above 0 likewise [U7]
    (FILTERED, FILTERED.replace("in chambers", "in range(q.n)") + OTHERS),
    (FILTERED, FILTERED.replace("in chambers", "in range(q.n)") + OTHERS_WALKED),
    (FILTERED_OF, FILTERED_OF.replace("in chambers", "in range(q.n)") + OTHERS),
    (FILTERED_OF, FILTERED_OF.replace("in chambers", "in range(q.n)") + OTHERS_WALKED),
    # t goes by the number of all pairs, the other's too
    (PAGE_MADE, PAGE_MADE.replace("(listed,", "(listed if len(pairs) >= t else [],").replace("size, t,", "size, 0 if contractor < UNDIVIDED else t,") + "    page.t = t\n"),
    # the whole list, with its count; a contractor's list of every t is the full one; the page's contractor: always 2, always 0, the other [U9]
    (CHAMBERS, "    chambers = list(range(q.n))\n"),
    (LISTED, LISTED + "    t = t if contractor == UNDIVIDED else 0\n"),
    (PAGE_MADE, PAGE_MADE.replace(", contractor=contractor", "")),
    (PAGE_MADE, PAGE_MADE.replace("contractor=contractor", "contractor=0")),
    (PAGE_MADE, PAGE_MADE.replace("contractor=contractor", "contractor=contractor if contractor == UNDIVIDED else 1 - contractor")),
]

# "self joins stay undivided": the page of one is of contractor 0
PAGES += [("key, size, 0, True, grid)", "key, size, 0, True, grid, 0)")]

BEGIN_27 = "    if not contractor_right(contractor, own):\n        return 27, None\n"
BEGIN_21 = "    if t < 0 or t > THRESHOLD:\n        return 21, None\n" + BEGIN_27
NOT_28 = "    if page.contractor != book.contractor:\n        return 28\n"

BOOK += [
    # 27 of begin: before 21, of a self join and of any; before 3; not at all; not of a self join, of which 0 is let through; of 3; of 2 [U13]
    ("    if own and t > 0:\n        return 21, None\n", BEGIN_27 + "    if own and t > 0:\n        return 21, None\n"),
    (BEGIN_21, BEGIN_21.replace("return 21", "return 21 if contractor_right(contractor, own) else 27")),
    ("    if own and editions[0] != editions[1]:\n        return 3, None\n", BEGIN_27 + "    if own and editions[0] != editions[1]:\n        return 3, None\n"),
    (BEGIN_27, ""),
    (BEGIN_27, BEGIN_27.replace("(contractor, own)", "(contractor)")),
    (BEGIN_27, BEGIN_27.replace("(contractor, own)", "(contractor, own and contractor)")),
    (BEGIN_27, BEGIN_27.replace("(contractor, own)", "(contractor, own and contractor != 1)")),
    (IN_RANGE, IN_RANGE.replace("<= UNDIVIDED and", "<= 3 and")),
    (IN_RANGE, IN_RANGE.replace("0 <= contractor <= UNDIVIDED", "contractor in (0, 1)")),
    # begin forgets the contractor; takes 1 for 0 [U9]
    ("    return 0, Book(editions, t, own, grid, contractor)\n", "    return 0, Book(editions, t, own, grid, UNDIVIDED)\n"),
    ("    return 0, Book(editions, t, own, grid, contractor)\n", "    return 0, Book(editions, t, own, grid, contractor // 2 * 2)\n"),
    # 28: before 22; before 12; after 30; after 13; after 31; after 14; not at all; an undivided page enters any book, any page an undivided book; a page of 0 enters
    # the book of 1; with the number of the kind [U15]
    ("    if page.own != book.own:\n        return 22\n", NOT_28 + "    if page.own != book.own:\n        return 22\n"),
    ("    if book.closed:\n        return 12\n", NOT_28 + "    if book.closed:\n        return 12\n"),
    (NOT_28, NOT_28.replace("return 28", "return 28 if page.grid == book.grid else 30")),
    (NOT_28, NOT_28.replace("return 28", "return 28 if page.grid != book.grid or page.editions == book.editions else 13")),
    (NOT_28, NOT_28.replace("return 28", "return 28 if page.grid != book.grid or page.editions != book.editions or page.t == book.t else 31")),
    (NOT_28, NOT_28.replace("return 28", "return 28 if page.t != book.t or page.key == next_key(book, slots)[1] else 14")),
    (NOT_28, ""),
    (NOT_28, NOT_28.replace("page.contractor != book.contractor", "page.contractor not in (book.contractor, UNDIVIDED)")),
    (NOT_28, NOT_28.replace("page.contractor != book.contractor", "book.contractor not in (page.contractor, UNDIVIDED)")),
    (NOT_28, NOT_28.replace("page.contractor != book.contractor", "page.contractor // 2 != book.contractor // 2")),
    (NOT_28, NOT_28.replace("return 28", "return 22")),
]

UP_TO = "    return [pair for pair in pairs if pair[2] <= largest]\n"
OF_T_UP_TO = "    return list_of(up_to(pairs, largest), t)\n"
AFTER = "    return [pair for pair in pairs if key_of(pair) > key]\n"
STORED_COUNT = "    count = min(len(slots), len(pairs))\n"
STORED = "    return count, len(pairs) > count, pairs[:count] + slots[count:]\n"
SHEETS_OF_MANY = '''None for a count."""
    number = open_number(p_words) or open_number(q_words)'''
MANY_27 = "    if not contractor_right(contractor):\n        return 27\n"
MANY_26 = "    if not owners_right(contractor, owners, q.n):\n        return 26\n"
MANY_29 = "    if too_wide(grid, p, q):\n        return 29\n"
MANY_9 = MANY_29 + "    if key is not None and max(key) > ID:\n        return 9\n"
MANY_21 = "    if t > THRESHOLD:\n        return 21\n"
MANY_40 = MANY_21 + "    if largest > ANY_SIZE:\n        return 40\n"
MANY_24 = "    if too_short(words, p):\n        return 24\n    return 0\n\n\n# \"of a self join"
SHEET_OF_OWN_MANY = '''The same of a self join."""
    number = open_number(s_words)'''
OWN_MANY_29 = "    if too_wide(grid, sheet):\n        return 29\n"
OWN_MANY_9 = OWN_MANY_29 + "    if key is not None and max(key) > ID:\n        return 9\n"
OWN_MANY_40 = OWN_MANY_9 + "    if largest > ANY_SIZE:\n        return 40\n"
OWN_MANY_24 = "    if too_short(words, sheet):\n        return 24\n"
REFUSED_PAIRS = "largest, t, words, grid, contractor, owners)\n    if number:\n        return number, 0, False, slots, words\n"
REFUSED_OWN = "    number = own_many_number(s_words, key, largest, words, grid)\n    if number:\n        return number, 0, False, slots, words\n"
REFUSED_COUNT = "    number = many_number(p_words, q_words, None, largest, t, words, grid, contractor, owners)\n    if number:\n        return number, 0, words\n"
REFUSED_OWN_COUNT = "    number = own_many_number(s_words, None, largest, words, grid)\n    if number:\n        return number, 0, words\n"
MANY_LISTED = "    return list_up_to(contractors_list(whole, q, chambers_of(q, owners, contractor)), largest, t)\n"
OWN_MANY_LISTED = "    return list_up_to(self_list(Sheet(s_words).points, grid) if pairs is None else pairs, largest, 0)\n"
PAIRS_GIVEN = "    return (0,) + stored_in(slots, pairs_after(listed, key)) + (with_zeros(words, Sheet(p_words)),)\n"
OWN_PAIRS_GIVEN = "    return (0,) + stored_in(slots, pairs_after(listed, key)) + (with_zeros(words, Sheet(s_words)),)\n"
COUNT_GIVEN = "    return 0, len(lists_pairs(p_words, q_words, pairs, largest, t, grid, contractor, owners)), with_zeros(words, Sheet(p_words))\n"
OWN_COUNT_GIVEN = "    return 0, len(own_lists_pairs(s_words, pairs, largest, grid)), with_zeros(words, Sheet(s_words))\n"
# the key's chamber is the other's
MANY_OTHERS = "contractor < UNDIVIDED and any(point[0] == key[0] and byte != contractor for point, byte in zip(Sheet(q_words).points, owners))"
# what is refused by a number after 27, and what by one after 26
AFTER_27 = [(26, "not owners_right(contractor, owners, q.n)"), (29, "too_wide(grid, p, q)"), (9, "key is not None and max(key) > ID"), (21, "t > THRESHOLD"), (40, "largest > ANY_SIZE"),
            (24, "too_short(words, p)")]


def put_after(text, number, later):
    """The test with this number, which is the last of the text, put after each of the later ones."""
    head, tail = text.rsplit("return %d\n" % number, 1)
    return [(text, "%sreturn %d if %s else %d\n%s" % (head, other, test, number, tail)) for other, test in later]


# Here the pairs that a contractor is handed, their number or what is said to follow depend on the ids of the other's chambers: more follow where the other's do; a key
# of the other's chamber is refused, begins from the start, or has nothing after it; the slots left say how many the other has. check_reading.py has two runs that
# tell each.
UNBLIND_MANY = [
    (PAIRS_GIVEN, """    count, more, after = stored_in(slots, pairs_after(listed, key))
    others = pairs_after(lists_pairs(p_words, q_words, pairs, largest, t, grid, UNDIVIDED, ()), key_of(after[count - 1]) if count else key)
    return 0, count, more or bool(others), after, with_zeros(words, Sheet(p_words))
"""),
    (PAIRS_GIVEN, "    if %s:\n        return 9, 0, False, slots, words\n" % MANY_OTHERS + PAIRS_GIVEN),
    (PAIRS_GIVEN, "    key = (0, 0) if %s else key\n" % MANY_OTHERS + PAIRS_GIVEN),
    (PAIRS_GIVEN, "    listed = [] if %s else listed\n" % MANY_OTHERS + PAIRS_GIVEN),
    (PAIRS_GIVEN, """    count, more, after = stored_in(slots, pairs_after(listed, key))
    others = len(pairs_after(lists_pairs(p_words, q_words, pairs, largest, t, grid, UNDIVIDED, ()), key))
    return 0, count, more, after[:count] + [UNUSED] * (min(others, len(slots)) - count) + after[max(count, min(others, len(slots))):], with_zeros(words, Sheet(p_words))
"""),
    (COUNT_GIVEN, COUNT_GIVEN.replace("contractor, owners)), with", "contractor, owners)) + (owners[:1] == (1 - contractor,)), with")),
]

MANY = UNBLIND_MANY + SIZES + ZEROS + put_after(MANY_27, 27, AFTER_27) + put_after(MANY_26, 26, AFTER_27[1:]) + put_after(MANY_29, 29, AFTER_27[2:]) + put_after(MANY_9, 9, AFTER_27[3:]) \
    + put_after(MANY_21, 21, AFTER_27[4:]) + put_after(MANY_40, 40, AFTER_27[5:]) + [
    # strictly after the key: at or after it; after its q id alone; of its chamber alone; its p id goes by itself; no key at all; before it
    (AFTER, AFTER.replace("> key", ">= key")),
    (AFTER, AFTER.replace("key_of(pair) > key", "pair[0] > key[0]")),
    (AFTER, AFTER.replace("key_of(pair) > key", "key_of(pair) > key and pair[0] == (key[0] or pair[0])")),
    (AFTER, AFTER.replace("key_of(pair) > key", "pair[0] >= key[0] and pair[1] > key[1]")),
    (AFTER, "    return pairs\n"),
    (AFTER, AFTER.replace("> key", "< key or key == (0, 0)")),
    # at most the largest: below it; one more; by the diameter in whole numbers; at least it; 0 means all; the limit is not all; the largest is not looked at
    (UP_TO, UP_TO.replace("<= largest", "< largest")),
    (UP_TO, UP_TO.replace("<= largest", "<= largest + 1")),
    (UP_TO, UP_TO.replace("pair[2] <= largest", "int(pair[2] ** 0.5) <= int(largest ** 0.5)")),
    (UP_TO, UP_TO.replace("<= largest", ">= largest or largest == ANY_SIZE")),
    (UP_TO, UP_TO.replace("pair[2] <= largest", "pair[2] <= (largest or ANY_SIZE)")),
    (UP_TO, UP_TO.replace("pair[2] <= largest", "pair[2] <= min(largest, ANY_SIZE - 1)")),
    (UP_TO, "    return pairs\n"),
    # the largest size in 32 bits, and in 63
    (UP_TO, UP_TO.replace("<= largest", "<= largest % 2 ** 32")),
    (UP_TO, UP_TO.replace("<= largest", "<= largest % 2 ** 62")),
    # a t: of pairs of any size; after the size, of the whole list; more than t; t goes by the pump houses; the first t of each chamber; not at all
    (OF_T_UP_TO, "    return up_to(list_of(pairs, t), largest)\n"),
    (OF_T_UP_TO, "    return list_of(pairs, t)\n"),
    (OF_T_UP_TO, OF_T_UP_TO.replace(", t)", ", t + 1)")),
    (OF_T_UP_TO, "    return up_to(pairs, largest)\n"),
    (OF_T_UP_TO, "    few = up_to(pairs, largest)\n    return [pair for pair in few if sum(other[1] == pair[1] for other in few) >= t]\n"),
    (OF_T_UP_TO, "    few = list_of(up_to(pairs, largest), t)\n    return [pair for pair in few if not t or sum(other[0] == pair[0] and other < pair for other in few) < t]\n"),
    # "whatever the key": t goes by the pairs after it alone
    (PAIRS_GIVEN, PAIRS_GIVEN.replace("pairs_after(listed, key)", "list_of(pairs_after(listed, key), t)")),
    # so many as there are slots: one fewer; one slot is left; none but where all fit; the last ones; sixteen at most
    (STORED_COUNT, STORED_COUNT.replace("len(slots)", "max(len(slots) - 1, 0)")),
    (STORED_COUNT, STORED_COUNT.replace("len(slots), len(pairs)", "len(slots), max(len(pairs) - 1, 0)")),
    (STORED_COUNT, "    count = len(pairs) if len(pairs) <= len(slots) else 0\n"),
    (STORED, STORED.replace("pairs[:count] +", "pairs[len(pairs) - count:] +")),
    (STORED_COUNT, STORED_COUNT.replace("len(slots)", "len(slots), 16")),
    # whether more follow: not with no slot; always with no slot; where the slots are full; never; where fewer follow than slots; only where two follow
    (STORED, STORED.replace("len(pairs) > count", "len(pairs) > count > 0")),
    (STORED, STORED.replace("len(pairs) > count", "len(pairs) > count or not slots")),
    (STORED, STORED.replace("len(pairs) > count", "len(pairs) >= len(slots)")),
    (STORED, STORED.replace("len(pairs) > count", "False")),
    (STORED, STORED.replace("len(pairs) > count", "len(pairs) < len(slots)")),
    (STORED, STORED.replace("len(pairs) > count", "len(pairs) > count + 1")),
    # the rest of the slots: zeros; the first of the rest is zeros; the pairs stand at the end; the last pair fills them
    (STORED, STORED.replace("+ slots[count:]", "+ [UNUSED] * (len(slots) - count)")),
    (STORED, STORED.replace("+ slots[count:]", "+ [UNUSED] * (len(slots) > count) + slots[count + 1:]")),
    (STORED, STORED.replace("pairs[:count] + slots[count:]", "slots[:len(slots) - count] + pairs[:count]")),
    (STORED, STORED.replace("+ slots[count:]", "+ (pairs[-1:] * len(slots) + slots)[:len(slots) - count]")),
    # its pairs by size, and by p id
    (STORED_COUNT, "    pairs = sorted(pairs, key=lambda pair: pair[2])\n" + STORED_COUNT),
    (STORED_COUNT, "    pairs = sorted(pairs, key=lambda pair: (pair[1], pair[0]))\n" + STORED_COUNT),
    # the sheets' numbers: Q's before P's; Q's not at all; after 9, 21, 40 and 24; of a self join after 9, 40 and 24
    (SHEETS_OF_MANY, SHEETS_OF_MANY.replace("(p_words)", "(words)").replace("(q_words)", "(p_words)").replace("(words)", "(q_words)")),
    (SHEETS_OF_MANY, SHEETS_OF_MANY.replace(" or open_number(q_words)", "")),
    (SHEETS_OF_MANY, SHEETS_OF_MANY + " if key is None or max(key) <= ID else 9"),
    (SHEETS_OF_MANY, SHEETS_OF_MANY + " if t <= THRESHOLD else 21"),
    (SHEETS_OF_MANY, SHEETS_OF_MANY + " if largest <= ANY_SIZE else 40"),
    (SHEETS_OF_MANY, SHEETS_OF_MANY.replace(" or ", " or (40 if largest > ANY_SIZE else 0) or ")),
    (SHEETS_OF_MANY, SHEETS_OF_MANY + " if words else 24"),
    (SHEETS_OF_MANY, SHEETS_OF_MANY + " if contractor <= UNDIVIDED else 27"),
    (SHEET_OF_OWN_MANY, SHEET_OF_OWN_MANY + " if key is None or max(key) <= ID else 9"),
    (SHEET_OF_OWN_MANY, SHEET_OF_OWN_MANY + " if largest <= ANY_SIZE else 40"),
    (SHEET_OF_OWN_MANY, SHEET_OF_OWN_MANY + " if words else 24"),
    # each number not at all; 9 by the q id alone; 29 by P alone, by Q alone; 21 of a t of 1,001
    (MANY_27, "    contractor = min(contractor, UNDIVIDED)\n"),
    (MANY_26, ""),
    (MANY_29, ""),
    (MANY_9, MANY_29),
    (MANY_9, MANY_9.replace("max(key)", "key[0]")),
    (MANY_9, MANY_9.replace("max(key)", "key[1]")),
    (MANY_29, MANY_29.replace("(grid, p, q)", "(grid, p)")),
    (MANY_29, MANY_29.replace("(grid, p, q)", "(grid, q)")),
    (MANY_21, ""),
    (MANY_21, MANY_21.replace("> THRESHOLD", "> 1_000")),
    (MANY_40, MANY_21 + "    largest = min(largest, ANY_SIZE)\n"),
    # 40: of the limit itself; of one more than the limit not; of the limit of the street grid; of 63 bits; with another number
    ("ANY_SIZE = 8_000_000_000_000_000_000", "ANY_SIZE = 7_999_999_999_999_999_999"),
    ("ANY_SIZE = 8_000_000_000_000_000_000", "ANY_SIZE = 8_000_000_000_000_000_001"),
    (MANY_40, MANY_40.replace("> ANY_SIZE", "> (STREETS if grid else ANY_SIZE)")),
    (MANY_40, MANY_40.replace("> ANY_SIZE", ">= 2 ** 63")),
    (MANY_40, MANY_40.replace("return 40", "return 10")),
    # 24: not at all; of the words that Q needs; where no word is lent alone; for a count not
    (MANY_24, MANY_24.replace("too_short(words, p)", "False")),
    (MANY_24, MANY_24.replace("(words, p)", "(words, q)")),
    (MANY_24, MANY_24.replace("too_short(words, p)", "p.n and not words")),
    (MANY_24, MANY_24.replace("too_short(words, p)", "key is not None and too_short(words, p)")),
    # of a self join: 9 before 29; 40 before 29, before 9; 24 before each of them; each not at all; 9 by one id alone
    (OWN_MANY_29, OWN_MANY_29.replace("return 29", "return 9 if key is not None and max(key) > ID else 29")),
    (OWN_MANY_29, OWN_MANY_29.replace("return 29", "return 40 if largest > ANY_SIZE else 29")),
    (OWN_MANY_29, OWN_MANY_29.replace("return 29", "return 24 if too_short(words, sheet) else 29")),
    (OWN_MANY_9, OWN_MANY_9.replace("return 9\n", "return 40 if largest > ANY_SIZE else 9\n")),
    (OWN_MANY_9, OWN_MANY_9.replace("return 9\n", "return 24 if too_short(words, sheet) else 9\n")),
    (OWN_MANY_40, OWN_MANY_40.replace("return 40", "return 24 if too_short(words, sheet) else 40")),
    (OWN_MANY_29, ""),
    (OWN_MANY_9, OWN_MANY_29),
    (OWN_MANY_9, OWN_MANY_9.replace("max(key)", "key[0]")),
    (OWN_MANY_9, OWN_MANY_9.replace("max(key)", "key[1]")),
    (OWN_MANY_40, OWN_MANY_9),
    (OWN_MANY_24, ""),
    # a count refuses a key, as the call for pairs does: whatever it is taken for
    (REFUSED_COUNT, REFUSED_COUNT.replace("None, largest", "(ID + 1, 0), largest")),
    (REFUSED_COUNT, REFUSED_COUNT.replace("None, largest", "(largest, 0), largest")),
    (REFUSED_OWN_COUNT, REFUSED_OWN_COUNT.replace("None, largest", "(largest, 0), largest")),
    # what is refused clears the words; takes away what the slots held; counts
    (REFUSED_PAIRS, REFUSED_PAIRS.replace("slots, words\n", "slots, [0] * len(words)\n")),
    (REFUSED_PAIRS, REFUSED_PAIRS.replace("slots, words\n", "[UNUSED] * len(slots), words\n")),
    (REFUSED_PAIRS, REFUSED_PAIRS.replace("0, False", "0, True")),
    (REFUSED_PAIRS, REFUSED_PAIRS.replace("0, False", "len(slots), False")),
    (REFUSED_OWN, REFUSED_OWN.replace("slots, words\n", "slots, [0] * len(words)\n")),
    (REFUSED_OWN, REFUSED_OWN.replace("slots, words\n", "[UNUSED] * len(slots), words\n")),
    (REFUSED_COUNT, REFUSED_COUNT.replace("0, words\n", "0, [0] * len(words)\n")),
    (REFUSED_COUNT, REFUSED_COUNT.replace("return number, 0,", "return number, 1,")),
    (REFUSED_OWN_COUNT, REFUSED_OWN_COUNT.replace("0, words\n", "0, [0] * len(words)\n")),
    # the words after an answer of each call: as they were; zeros but where no pair follows
    (PAIRS_GIVEN, PAIRS_GIVEN.replace("with_zeros(words, Sheet(p_words))", "words")),
    (PAIRS_GIVEN, PAIRS_GIVEN.replace("with_zeros(words, Sheet(p_words))", "with_zeros(words, Sheet(p_words)) if pairs_after(listed, key) else words")),
    (PAIRS_GIVEN, PAIRS_GIVEN.replace("Sheet(p_words)", "Sheet(q_words)")),
    (OWN_PAIRS_GIVEN, OWN_PAIRS_GIVEN.replace("with_zeros(words, Sheet(s_words))", "words")),
    (COUNT_GIVEN, COUNT_GIVEN.replace("with_zeros(words, Sheet(p_words))", "words")),
    (COUNT_GIVEN, COUNT_GIVEN.replace("Sheet(p_words)", "Sheet(q_words)")),
    (OWN_COUNT_GIVEN, OWN_COUNT_GIVEN.replace("with_zeros(words, Sheet(s_words))", "words")),
    # the count: of pairs of any size; of the chambers; of no t; of the undivided list; in 8 bits; one more
    (COUNT_GIVEN, COUNT_GIVEN.replace("pairs, largest, t", "pairs, ANY_SIZE, t")),
    (COUNT_GIVEN, COUNT_GIVEN.replace("len(lists_pairs(p_words, q_words, pairs, largest, t, grid, contractor, owners))", "len({pair[0] for pair in lists_pairs(p_words, q_words, pairs, largest, t, grid, contractor, owners)})")),
    (COUNT_GIVEN, COUNT_GIVEN.replace("largest, t,", "largest, 0,")),
    (COUNT_GIVEN, COUNT_GIVEN.replace("contractor, owners))", "UNDIVIDED, ()))")),
    (COUNT_GIVEN, COUNT_GIVEN.replace("owners)), with", "owners)) % 256, with")),
    (COUNT_GIVEN, COUNT_GIVEN.replace("owners)), with", "owners)) + 1, with")),
    (OWN_COUNT_GIVEN, OWN_COUNT_GIVEN.replace("pairs, largest", "pairs, ANY_SIZE")),
    (OWN_COUNT_GIVEN, OWN_COUNT_GIVEN.replace("grid)), with", "grid)) * 2, with")),
    # whose: the undivided list for each; the other's; contractor 0 has all; a contractor's list has no t, goes by the whole list's t
    (MANY_LISTED, MANY_LISTED.replace("contractor))", "UNDIVIDED))")),
    (OWN_CHAMBERS, OWN_CHAMBERS.replace("== contractor", "!= contractor")),
    (OWN_CHAMBERS, OWN_CHAMBERS.replace("== contractor", "== 0")),
    (OWN_CHAMBERS, OWN_CHAMBERS.replace("owners[j]", "owners[q.order[j]]")),
    (OWN_CHAMBERS, OWN_CHAMBERS.replace("owners[j]", "owners[q.rank[j]]")),
    (MANY_LISTED, MANY_LISTED.replace("largest, t)", "largest, t if contractor == UNDIVIDED else 0)")),
    (ONE_EACH, ONE_EACH.replace("(0, 1)", "(0, 1, 2)")),
    (ONE_EACH, ONE_EACH.replace("len(owners) == chambers and ", "")),
    (NO_BYTES, "        return True\n"),
    (IN_RANGE, IN_RANGE.replace("<= UNDIVIDED and", "<= 3 and")),
    (IN_RANGE, IN_RANGE.replace("0 <= contractor <=", "0 <= contractor % 256 <=")),
    # the rule of pairs: what touches the circle does not block; a record at an end's place does; records of P alone block, of Q alone; the other profile
    ("    return product(a, b, x) <= 0", "    return product(a, b, x) < 0"),
    (NO_END_BLOCKS, ""),
    ("        if k != i and blocking(q, p, point[1:]):\n", "        if False:\n"),
    ("        if k != j and blocking(q, p, point[1:]):\n", "        if False:\n"),
    ("    q, p = q_points[j][1:], p_points[i][1:]\n", "    q, p, grid = q_points[j][1:], p_points[i][1:], not grid\n"),
    ("    if x in (a, b):\n        return False\n    return from_middle(a, b, x) <= along_streets(a, b)\n", "    if x in (a, b):\n        return False\n    return from_middle(a, b, x) < along_streets(a, b)\n"),
    # of a self join: pairs both ways; a record with itself; blocked by an end's copy; the other profile
    ("            if one[0] < other[0] and not", "            if one[0] != other[0] and not"),
    ("            if one[0] < other[0] and not", "            if one[0] <= other[0] and not"),
    (NONE_BLOCKS, NONE_BLOCKS.replace("blocking", "point[1:] in (one[1:], other[1:]) or blocking")),
    (OWN_MANY_LISTED, OWN_MANY_LISTED.replace("points, grid)", "points, not grid)")),
    (OWN_MANY_LISTED, OWN_MANY_LISTED.replace("largest, 0)", "ANY_SIZE, 0)")),
    (OWN_MANY_LISTED, OWN_MANY_LISTED.replace("largest, 0)", "largest, 2)")),
]

BUSY_ORDER = "    return sorted(ids, key=lambda rank: (-rank[1], rank[0]))[:k]\n"
BUSY_RANKS = "    return [(point[0], ends.count(point[0])) for point in points]\n"
SCORES_RIGHT = "    return len(scores) == sheet.n and all(0 <= score <= SCORE for score in scores)\n"
SCORES_BY = "    of_p, of_q = ({point[0]: score for point, score in zip(sheet.points, scores)} for sheet, scores in ((p, p_scores), (q, q_scores)))\n"
SCORES_SUM = "    visits = [(pair, of_q[pair[0]] + of_p[pair[1]]) for pair in pairs]\n"
URGENT_ORDER = "    return sorted(visits, key=lambda visit: (-visit[1], key_of(visit[0])))[:k]\n"
ASKED_27, ASKED_26, ASKED_29 = "(27, not contractor_right(contractor))", "(26, not owners_right(contractor, owners, q.n))", "(29, too_wide(grid, p, q))"
ASKED_10, ASKED_40 = "(10, not 1 <= k <= SIZE)", "(40, largest > ANY_SIZE)"
ASKED_41, ASKED_42, ASKED_24 = "(41, not scores_right(p_scores, p))", "(42, not scores_right(q_scores, q))", "(24, too_short(words, q if pumps else p))"
ASKED = [ASKED_27, ASKED_26, ASKED_29, ASKED_10, ASKED_40, ASKED_41, ASKED_42, ASKED_24]
ASKED_ALL = """    wrong = [%s, %s, %s, %s, %s,
             %s, %s, %s]
""" % tuple(ASKED)
BUSY_MINE = "    mine = [q.points[j] for j in chambers_of(q, owners, contractor)]\n"
BUSY_GIVEN = "    return 0, busiest_of(ranks_of(mine, [pair[0] for pair in listed]), k), with_zeros(words, Sheet(p_words))\n"
PUMPS_LISTED = "    listed = lists_pairs(p_words, q_words, pairs, largest, 0, grid, UNDIVIDED, ())\n"
PUMPS_GIVEN = "    return 0, busiest_of(ranks_of(Sheet(p_words).points, [pair[1] for pair in listed]), k), with_zeros(words, Sheet(q_words))\n"
URGENT_GIVEN = "    return 0, urgent_of(listed, Sheet(p_words), Sheet(q_words), p_scores, q_scores, k), with_zeros(words, Sheet(p_words))\n"


def asked_with(numbers):
    """The numbers of the busiest and the most urgent in another order, or some of them."""
    return ASKED_ALL, "    wrong = [%s]\n" % ", ".join(numbers)


# of the busiest and the most urgent what tells a contractor of the other's chambers: they are ranked too, or where it has none; the visits are those of both; a score
# is the one lent for the next position. check_reading.py has two runs that differ in these chambers' ids and scores.
UNBLIND_RANKED = [
    (BUSY_MINE, "    mine = q.points\n"),
    (BUSY_GIVEN, BUSY_GIVEN.replace("ranks_of(mine,", "ranks_of(mine or q.points,")),
    (URGENT_GIVEN, URGENT_GIVEN.replace("urgent_of(listed,", "urgent_of(lists_pairs(p_words, q_words, pairs, largest, 0, grid, UNDIVIDED, ()),")),
    (SCORES_BY, SCORES_BY.replace("zip(sheet.points, scores)", "zip(sheet.points, list(scores[1:]) + list(scores[:1]))")),
]

RANKED = UNBLIND_RANKED + [asked_with(ASKED[:at] + ASKED[at + 1:]) for at in range(len(ASKED))] \
    + [asked_with(ASKED[:at] + [ASKED[to]] + ASKED[at:to] + ASKED[to + 1:]) for at in range(len(ASKED)) for to in range(at + 1, len(ASKED))] + [
    # the busiest: of as many the higher id first; the fewest first; by id; one row more, one fewer, always sixteen; those with none left out
    (BUSY_ORDER, BUSY_ORDER.replace("rank[0]))", "-rank[0]))")),
    (BUSY_ORDER, BUSY_ORDER.replace("-rank[1]", "rank[1]")),
    (BUSY_ORDER, BUSY_ORDER.replace("(-rank[1], rank[0])", "rank[0]")),
    (BUSY_ORDER, BUSY_ORDER.replace("[:k]", "[:k + 1]")),
    (BUSY_ORDER, BUSY_ORDER.replace("[:k]", "[:max(1, k - 1)]")),
    (BUSY_ORDER, BUSY_ORDER.replace("[:k]", "[:SIZE]")),
    (BUSY_ORDER, BUSY_ORDER.replace("sorted(ids,", "sorted(ids[:k],")),
    (BUSY_RANKS, BUSY_RANKS.replace("in points]", "in points if point[0] in ends]")),
    (BUSY_RANKS, BUSY_RANKS.replace("ends.count(point[0])", "int(point[0] in ends)")),
    # the pairs of any size; the pairs of the other end
    (BUSY_GIVEN, BUSY_GIVEN.replace("for pair in listed", "for pair in lists_pairs(p_words, q_words, pairs, ANY_SIZE, 0, grid, contractor, owners)")),
    (BUSY_GIVEN, BUSY_GIVEN.replace("pair[0]", "pair[1]")),
    (BUSY_GIVEN, BUSY_GIVEN.replace("Sheet(p_words)", "Sheet(q_words)")),
    (BUSY_GIVEN, BUSY_GIVEN.replace("with_zeros(words, Sheet(p_words))", "words")),
    # of pump houses: the chambers' pairs; of any size; of the sheets exchanged; the words that P needs
    (PUMPS_GIVEN, PUMPS_GIVEN.replace("pair[1]", "pair[0]")),
    (PUMPS_GIVEN, PUMPS_GIVEN.replace("Sheet(p_words).points", "Sheet(q_words).points")),
    (PUMPS_LISTED, PUMPS_LISTED.replace("largest", "ANY_SIZE")),
    (PUMPS_LISTED, PUMPS_LISTED.replace("grid, UNDIVIDED", "False, UNDIVIDED")),
    (PUMPS_GIVEN, PUMPS_GIVEN.replace("Sheet(q_words))", "Sheet(p_words))")),
    (PUMPS_GIVEN, PUMPS_GIVEN.replace("with_zeros(words, Sheet(q_words))", "words")),
    (ASKED_24, ASKED_24.replace("q if pumps else p", "p")),
    (ASKED_24, ASKED_24.replace("q if pumps else p", "q")),
    # scores: not as many as the points, where they are fewer, where they are more; below the highest; higher ones; Q's for P's and the other way round
    (SCORES_RIGHT, SCORES_RIGHT.replace("len(scores) == sheet.n and ", "")),
    (SCORES_RIGHT, SCORES_RIGHT.replace("== sheet.n", "<= sheet.n")),
    (SCORES_RIGHT, SCORES_RIGHT.replace("== sheet.n", ">= sheet.n")),
    (SCORES_RIGHT, SCORES_RIGHT.replace("<= SCORE", "< SCORE")),
    (SCORES_RIGHT, SCORES_RIGHT.replace("<= SCORE", "<= SCORE + 1")),
    (SCORES_RIGHT, SCORES_RIGHT.replace("for score in scores", "for score in scores[:1]")),
    (SCORES_RIGHT, SCORES_RIGHT.replace("for score in scores", "for score in scores[1:]")),
    (ASKED_41, ASKED_42.replace("42", "41")),
    (ASKED_42, ASKED_41.replace("41", "42")),
    (SCORES_BY, SCORES_BY.replace("((p, p_scores), (q, q_scores))", "((p, q_scores), (q, p_scores))")),
    (SCORES_BY, SCORES_BY.replace("zip(sheet.points, scores)", "zip([sheet.points[i] for i in sheet.order], scores)")),
    # the sum: the higher, the lower, one end's alone
    (SCORES_SUM, SCORES_SUM.replace("of_q[pair[0]] + of_p[pair[1]]", "max(of_q[pair[0]], of_p[pair[1]])")),
    (SCORES_SUM, SCORES_SUM.replace("of_q[pair[0]] + of_p[pair[1]]", "min(of_q[pair[0]], of_p[pair[1]])")),
    (SCORES_SUM, SCORES_SUM.replace(" + of_p[pair[1]]", "")),
    (SCORES_SUM, SCORES_SUM.replace("of_q[pair[0]] + ", "")),
    # the most urgent: the lowest first; of one sum by size, by p id, the last of the list first; one row more, always sixteen; to a size once the k are taken
    (URGENT_ORDER, URGENT_ORDER.replace("-visit[1]", "visit[1]")),
    (URGENT_ORDER, URGENT_ORDER.replace("key_of(visit[0])", "visit[0][2]")),
    (URGENT_ORDER, URGENT_ORDER.replace("key_of(visit[0])", "visit[0][1]")),
    (URGENT_ORDER, URGENT_ORDER.replace("key_of(visit[0])", "-visit[0][0], -visit[0][1]")),
    (URGENT_ORDER, URGENT_ORDER.replace("[:k]", "[:k + 1]")),
    (URGENT_ORDER, URGENT_ORDER.replace("[:k]", "[:SIZE]")),
    (URGENT_GIVEN, URGENT_GIVEN.replace("urgent_of(listed,", "urgent_of(lists_pairs(p_words, q_words, pairs, ANY_SIZE, 0, grid, contractor, owners),")),
    (URGENT_GIVEN, "    first = urgent_of(lists_pairs(p_words, q_words, pairs, ANY_SIZE, 0, grid, contractor, owners), Sheet(p_words), Sheet(q_words), p_scores, q_scores, k)\n"
                   "    return 0, [visit for visit in first if visit[0][2] <= largest], with_zeros(words, Sheet(p_words))\n"),
    (URGENT_GIVEN, URGENT_GIVEN.replace("with_zeros(words, Sheet(p_words))", "with_zeros(words, Sheet(q_words))")),
    (URGENT_GIVEN, URGENT_GIVEN.replace("with_zeros(words, Sheet(p_words))", "words")),
]

STEP = 100
WRONG = {"sheets": SHEETS, "walks": WALKS, "pages": PAGES, "contractors": CONTRACTORS, "runs": RUNS, "shortest": SHORTEST, "near": NEAR, "many": MANY, "ranked": RANKED, "the book": BOOK}


def misread(old, new):
    """The reading with one edit."""
    with open(os.path.join(HERE, "reading.py"), encoding="utf-8") as file:
        text = file.read()
    assert text.count(old) == 1, "%r stands %d times in reading.py" % (old, text.count(old))
    module = types.ModuleType("misread")
    exec(compile(text.replace(old, new), "misread", "exec"), module.__dict__)
    return module


def told(cases, rules):
    """Whether some stored case tells a reading from the right one: by another line, or by a rule of its own that it breaks. Every hundredth case is tried
    first, from each start in turn, so that every kind of case is met soon."""
    for start in range(STEP):
        for (ask, *given), line in zip(cases.asked[start::STEP], cases.lines[start::STEP]):
            try:
                if ask(rules, *given) != line:
                    return True
            except Exception:
                return True
    return False


def untold(cases):
    """The wrong readings that no stored case of a part of the tape tells."""
    return [new for old, new in WRONG.get(cases.name, []) if not told(cases, misread(old, new))]
