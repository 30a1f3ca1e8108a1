"""The part `sheets` of the tape: sheets to open and point lists to pack, with the number that each must get; and markers.

A case, in words:
    OPEN, a length and that many words: a sheet to open
    PACK, a form, n (24, 24 and 16 bits, the lowest first), the numbers of point words and of order words, an edition, the length of the lent output, the point
       words and the order words: to pack. A packed sheet is printed whole and opened; of a refused one it is said whether each lent word is as it was
    POINT, a length, that many words and a position, where -1 stands for the largest that a call can be given: a point to read
    MARK, x and y of one place and x and y of another: their marker, which is printed doubled
"""
import collections
import itertools

import reading
import trees
from chance import Chance
from faults import BIG, SMALL, faults, node_word, put
from stored import MARK, OPEN, PACK, POINT, Cases


# ---------------------------------------------------------------- sheets

def points(rng, n, reach=20):
    return [(number, rng.randint(-reach, reach), rng.randint(-reach, reach)) for number in trees.ids(rng, n)]


def packed(rng, n, reach=20, edition=None, form=1):
    made = points(rng, n, reach)
    return reading.pack(made, trees.shuffled(rng, n), edition or rng.randint(1, 1000), form)


def uneven(rng, n, highest, reach=20, form=1):
    made = points(rng, n, reach)
    return trees.sheet(made, trees.shuffled(rng, n), trees.uneven(rng, n, highest), rng.randint(1, 1000), form)


def shaped(rng, counts, reach=20, form=1):
    """A sheet over a tree given by the counts of each level, right or wrong."""
    n = sum(counts[0])
    made = points(rng, n, reach)
    return trees.sheet(made, trees.shuffled(rng, n), trees.runs(counts), 5, form)


def open_line(rules, words):
    return "open %d" % rules.open_number(words)


def point_line(rules, words, position):
    number, point = rules.point_call(words, position)
    return "point %d: %s" % (position, "refused %d" % number if number else "%d %d %d" % point)


def pack_line(rules, n, point_words, order, edition, lent, form):
    number = rules.pack_number(n, point_words, order, edition, lent, form)
    if number:
        return "pack %d as it was" % number
    words = rules.pack([tuple(point_words[3 * i:3 * i + 3]) for i in range(n)], order, edition, form)
    return "pack 0 open %d:%s" % (rules.open_number(words), "".join(" %d" % word for word in words))


def mark_line(rules, a, b):
    number, doubled = rules.mark_call(a, b)
    return "mark %d %d %d %d: %s" % (*a, *b, "refused %d" % number if number else "%d %d" % doubled)


class Sheets:
    def __init__(self):
        self.cases = Cases("sheets")
        self.seen = collections.Counter()
        self.opened = self.packs = 0
        self.pack_seen = collections.Counter()

    def open(self, label, words, expect=None):
        number = reading.open_number(words)
        assert expect is None or number == expect, (label, number, expect)
        self.cases.add("open: " + label, [OPEN, len(words)] + list(words), [(open_line, words)])
        self.seen[number] += 1
        self.opened += 1

    def point(self, label, words, at, expect=None):
        position = 2 ** 64 - 1 if at < 0 else at
        number, _ = reading.point_call(words, position)
        assert expect is None or number == expect, (label, number, expect)
        self.cases.add("point: " + label, [POINT, len(words)] + list(words) + [at], [(point_line, words, position)])

    def pack(self, label, given, expect=None):
        """What is given ends with the form; form 1 where it does not."""
        n, point_words, order, edition, lent, form = given if len(given) == 6 else given + (1,)
        form = 2 ** 32 - 1 if form < 0 else form
        number = reading.pack_number(n, point_words, order, edition, lent, form)
        assert expect is None or number == expect, (label, number, expect)
        head = [PACK, form, n % 2 ** 24, n // 2 ** 24 % 2 ** 24, n // 2 ** 48, len(point_words), len(order), edition, lent]
        self.cases.add("pack: " + label, head + list(point_words) + list(order), [(pack_line, n, point_words, order, edition, lent, form)])
        self.pack_seen[number] += 1
        self.packs += 1

    def mark(self, label, a, b, expect):
        assert reading.mark_call(a, b)[0] == expect, (label, a, b)
        self.cases.add("mark: " + label, [MARK, *a, *b], [(mark_line, a, b)])


def covering_nothing(rng, counts):
    """A sheet whose runs join, and whose tree is right but for nodes that cover nothing; those have the root's box."""
    made = points(rng, sum(counts[0]))
    order = trees.shuffled(rng, len(made))
    whole = (min(p[1] for p in made), min(p[2] for p in made), max(p[1] for p in made), max(p[2] for p in made))
    nodes = []
    for run in trees.runs(counts):
        nodes.append(run + whole)
        if run[2] > 0 and all(nodes[k][2] > 0 for k in range(run[1], run[1] + run[2]) if run[0] > 0):
            nodes[-1] = run + reading.tightest(made, order, nodes, len(nodes) - 1)
    return reading.sheet_words(made, order, nodes, 5)


def right_sheets(out, rng):
    """Sheets that open: every size and shape that the rules name, and every range at its bound."""
    out.open("n 0", packed(rng, 0), 0)
    out.open("n 1", packed(rng, 1), 0)
    out.open("n 16", packed(rng, 16), 0)
    out.open("n 17", packed(rng, 17), 0)
    out.open("n 1000, packed by 16", packed(rng, 1000, 1_000_000), 0)
    many = trees.uneven(Chance(0), 1000, 3)
    out.open("n 1000, uneven", trees.sheet(points(rng, 1000), trees.shuffled(rng, 1000), many, 3), 0)
    full = [trees.parts(rng, 1000, 370), trees.parts(rng, 370, 27), trees.parts(rng, 27, 2), [2]]
    assert sum(map(len, full)) == 400
    out.open("n 1000, m 400", shaped(rng, full), 0)
    tall = [[1] * 64] * 6 + [trees.parts(rng, 64, 15), [15]]
    assert sum(map(len, tall)) == 400 and len(tall) == 8
    out.open("m 400, level 7", shaped(rng, tall), 0)
    for n in (2, 3, 16):
        for highest in range(1, 8):
            if highest in (1, 2, 7) or n == 2:
                out.open("%d singles to level %d" % (n, highest), shaped(rng, [[1] * n] * highest + [[n]]), 0)
    for n in range(2, 17):
        out.open("one leaf of %d" % n, packed(rng, n), 0)
    for _ in range(60):
        n = rng.randint(2, 14)
        out.open("uneven", uneven(rng, n, rng.randint(1, 7)), 0)
    for n in (31, 32, 33, 48, 49, 256, 257):
        out.open("packed, n %d" % n, packed(rng, n), 0)
    out.open("uneven, n 300", uneven(rng, 300, 4), 0)
    for edition in (1, reading.EDITION):
        out.open("edition %d" % edition, packed(rng, 3, edition=edition), 0)
    far = reading.COORDINATE
    bounds = [(1, -far, far), (2, far, -far), (reading.ID - 1, far, far), (reading.ID, -far, -far)]
    out.open("ids and coordinates at their bounds", reading.pack(bounds, [2, 0, 3, 1], 1), 0)
    out.open("one point at the lowest id", reading.pack([(1, far, far)], [0], 1), 0)
    out.open("one point at the highest id", reading.pack([(reading.ID, -far, far)], [0], 1), 0)
    out.open("several records on one spot", reading.pack([(k, 7, 7) for k in range(1, 20)], list(range(19)), 1), 0)


def wrong_sheets(out, rng):
    """What the rules refuse, beyond one word changed."""
    for length in range(6):
        out.open("%d words of zero" % length, [0] * length, 1)
        words = packed(rng, 5)
        out.open("the last %d words" % length, words[len(words) - length:], 1)
    out.open("six words of zero", [0] * 6, 2)
    empty = packed(rng, 0)
    out.open("an empty sheet, root 7", put(empty, 1, 7), 4)
    out.open("an empty sheet with a word more", [0] + empty, 4)
    for n in (1001, 1002):
        made = [(k + 1, 0, 0) for k in range(n)]
        out.open("n %d, all else right" % n, reading.pack(made, list(range(n)), 1), 3)
    over = [[1] * 64] * 6 + [trees.parts(rng, 64, 16), [16]]
    assert sum(map(len, over)) == 401
    out.open("m 401, all else right", shaped(rng, over), 3)
    for _ in range(6):
        words = packed(rng, rng.randint(0, 8))
        out.open("a word more in front", [rng.randint(-3, 3)] + words, 4)
        out.open("a word less in front", words[1:], 4 if len(words) > 6 else 1)
        out.open("a word more at the end", words + [1], None)
    for n in (2, 3, 5):
        out.open("%d singles to level 8" % n, shaped(rng, [[1] * n] * 8 + [[n]]), 7)
    for counts in ([[2, 0, 3], [3]], [[2, 3, 0], [3]], [[0, 2, 3], [3]]):
        out.open("a leaf that covers nothing", covering_nothing(rng, counts), 7)
    out.open("a higher node that covers nothing", covering_nothing(rng, [[2, 3], [2, 0], [2]]), 7)
    out.open("a leaf of 17", shaped(rng, [[17]]), 7)
    out.open("a node over 17", shaped(rng, [[1] * 17, [17]]), 7)
    out.open("two nodes at the top", shaped(rng, [[2, 3]]), 7)
    out.open("two roots", shaped(rng, [[2, 3], [1, 1]]), 7)
    out.open("a lower level with one node", shaped(rng, [[3], [1]]), 7)
    out.open("a lower level with one node above two", shaped(rng, [[2, 3], [2], [1]]), 7)
    out.open("points and no node", [1, 0, 0, 0, 0, 5, 0, 1, 0, 1, 1], 7)
    out.open("a node and no point", [0, 0, 1, 0, 0, 0, 0, 7, 7, 0, 1, 1, 1], 7)
    out.open("a node and no point, of no count", [0, 0, 0, 0, 0, 0, 0, 7, 7, 0, 1, 1, 1], 7)
    for _ in range(8):
        n = rng.randint(4, 12)
        words = shaped(rng, [[n - 2, 2], [2]])
        first = node_word(words, 1, 1)
        out.open("a run that leaves a gap", put(put(words, first, words[first] + 1), first + 1, 1), 7)
        out.open("a run that covers a place again", put(put(words, first, words[first] - 1), first + 1, 3), 7)


def of_form_2(out, rng):
    """Sheets past the limits of form 1: refused under form 1, and right under form 2. The limits of form 2, at their ends and one past them: 3 comes before 4,
    so that a short sheet will do for its counts. Forms that are neither 1 nor 2."""
    far, wide = reading.COORDINATE, reading.WIDE_COORDINATE
    for n in (0, 1, 16, 17, 33):
        out.open("form 2, n %d" % n, packed(rng, n, wide, form=2), 0)
    for n in (1001, 1300):
        out.open("form 2, n %d" % n, packed(rng, n, wide, form=2), 0)
        out.open("form 1, n %d" % n, put(packed(rng, n), -1, 1), 3)
    over = [[1] * 64] * 6 + [trees.parts(rng, 64, 16), [16]]
    out.open("form 2, m 401", shaped(rng, over, form=2), 0)
    out.open("form 2, uneven", uneven(rng, 300, 4, wide, form=2), 0)
    for x, y in ((wide, 0), (0, -wide), (-wide, wide), (far + 1, -far - 1)):
        out.open("form 2, a point at %d %d" % (x, y), reading.pack([(1, 0, 0), (2, x, y)], [1, 0], 1, 2), 0)
        out.open("form 1, a point at %d %d" % (x, y), reading.pack([(1, 0, 0), (2, x, y)], [1, 0], 1, 1), 5)
    for x, y in ((wide + 1, 0), (0, wide + 1), (-wide - 1, 0), (0, -wide - 1), (BIG, 0), (0, SMALL)):
        out.open("form 2, a point at %d %d" % (x, y), reading.pack([(1, 0, 0), (2, x, y)], [1, 0], 1, 2), 5)
    base = shaped(rng, [[3, 2, 4], [2, 1], [2]], wide, 2)
    assert reading.open_number(base) == 0
    for n, m, number in ((60000, 24000, 4), (60001, 24000, 3), (60000, 24001, 3), (60001, 3, 3), (9, 24001, 3), (9, 24000, 4), (60000, 6, 4)):
        out.open("form 2, n %d and m %d, a short sheet" % (n, m), put(put(base, -4, n), -3, m), number)
        out.open("form 2, n %d and m %d, the trailer alone" % (n, m), [5 * n + 7 * m, 7, n, m, 1, 2], number)
        out.open("form 1, n %d and m %d, the trailer alone" % (n, m), [5 * n + 7 * m, 7, n, m, 1, 1], 3)
    for edition, number in ((1, 0), (reading.EDITION, 0), (0, 3), (reading.EDITION + 1, 3)):
        out.open("form 2, edition %d" % edition, put(base, -2, edition), number)
    for form in (0, 3, -1, -2, BIG, SMALL):
        out.open("form %d" % form, put(base, -1, form), 2)
        out.open("form %d, n past its range" % form, put(put(base, -1, form), -4, 60001), 2)
    out.open("form 1 of what is form 2's", put(base, -1, 1), 5)
    small = shaped(rng, [[3, 2, 4], [2, 1], [2]])
    out.open("form 2 of what is form 1's too", put(small, -1, 2), 0)
    out.open("five words, the last 2", base[-5:], 1)
    for number, label, change in faults(base):
        out.open("form 2, " + label, change(base), number)
    for at in (0, 1, -1):
        out.point("form 2, position %d" % at, reading.pack([(7, -wide, wide), (8, wide, -wide)], [0, 1], 1, 2), at, 9 if at < 0 else 0)


def single_faults(out, rng):
    base = shaped(rng, [[3, 2, 4], [2, 1], [2]])
    assert reading.open_number(base) == 0
    for number, label, change in faults(base):
        out.open(label, change(base), number)


def double_faults(out, rng):
    """For every two numbers of `open` that can apply together, sheets with both faults. 1 leaves no whole trailer, so no points, order or nodes are told:
    it goes together with 2, 3 and 4 only."""
    base = shaped(rng, [[3, 2, 4], [2, 1], [2]])
    known = collections.defaultdict(list)
    for number, label, change in faults(base):
        known[number].append((label, change))
    for earlier, later in itertools.combinations(range(2, 9), 2):
        done = 0
        for (label, change), (other, more) in itertools.product(rng.sample(known[earlier], 4), rng.sample(known[later], 4)):
            both = change(more(base))
            if both != more(change(base)) or done == 3:
                continue
            assert reading.open_number(change(base)) == earlier and reading.open_number(more(base)) == later
            out.open("%s and %s" % (label, other), both, earlier)
            done += 1
        assert done == 3, (earlier, later)
    for later in (2, 3, 4):
        for label, change in known[later][:3]:
            out.open("under 6 words and " + label, change(base)[-5:], 1)


def changed_words(out, rng):
    """One word of a right sheet changed by chance, or two exchanged: whatever that gives."""
    for _ in range(150):
        n = rng.randint(1, 9)
        words = packed(rng, n) if rng.random() < 0.3 else uneven(rng, max(2, n), rng.randint(1, 4))
        at, other = rng.randrange(len(words)), rng.randrange(len(words))
        if rng.random() < 0.3:
            changed = put(put(words, at, words[other]), other, words[at])
        else:
            changed = put(words, at, rng.choice([words[at] + 1, words[at] - 1, 0, -1, 1, BIG, SMALL, rng.randint(-20, 20)]))
        out.open("a word changed at %d" % at, changed)


# ---------------------------------------------------------------- points

def points_read(out, rng):
    """Every point of small sheets, points of large ones, positions not below n, and bad sheets: 1 to 8 before 9."""
    for words in (packed(rng, 1), packed(rng, 5), uneven(rng, 9, 4), packed(rng, 33, reading.COORDINATE), packed(rng, 0)):
        n = words[-4]
        for at in list(range(min(n, 9))) + [n - 1] * (n > 0):
            out.point("position %d of %d" % (at, n), words, at, 0)
        for at in (n, n + 1, -1):
            out.point("position %d of %d" % (at, n), words, at, 9)
    base = shaped(rng, [[3, 2, 4], [2, 1], [2]])
    for number in range(2, 9):
        wrong = rng.choice([change for given, _, change in faults(base) if given == number])(base)
        for at in (0, 9, -1):
            out.point("a sheet refused by %d" % number, wrong, at, number)
    out.point("no words", [], 0, 1)
    out.point("no words", [], -1, 1)


# ---------------------------------------------------------------- packs

def given(rng, n, reach=20, order=None, edition=None):
    flat = [word for point in points(rng, n, reach) for word in point]
    return (n, flat, order or trees.shuffled(rng, n), edition or rng.randint(1, 1000), reading.packed_length(n))


def pack_faults(base):
    """Faults of what is handed to the packer: number, label, and the change."""
    n, flat, order, edition, lent = base

    def with_part(k, value):
        return lambda g: g[:k] + (value(g),) + g[k + 1:]

    out = [
        (18, "point words one short", with_part(1, lambda g: g[1][:-1])),
        (18, "point words three more", with_part(1, lambda g: g[1] + [reading.ID, 0, 0])),
        (18, "order one short", with_part(2, lambda g: g[2][:-1])),
        (18, "order one more", with_part(2, lambda g: g[2] + [n])),
    ]
    for wrong in (0, reading.EDITION + 1, -1, SMALL):
        out.append((3, "edition %d" % wrong, with_part(3, lambda g, wrong=wrong: wrong)))
    for label, at, word in (
        ("id 0", 0, 0), ("id past the last", 3 * (n - 1), reading.ID + 1), ("an id twice", 3, flat[0]), ("ids fall", 3 * (n - 1), flat[3 * (n - 2)] - 1),
        ("x too small", 4, -reading.COORDINATE - 1), ("y too large", 5, reading.COORDINATE + 1),
    ):
        out.append((5, label, with_part(1, lambda g, at=at, word=word: put(g[1], at, word))))
    for label, at, word in (("order n", 0, n), ("order -1", 1, -1), ("order twice", 0, order[1]), ("order far off", 1, BIG)):
        out.append((6, label, with_part(2, lambda g, at=at, word=word: put(g[2], at, word))))
    for label, length in (("output one short", lent - 1), ("output one long", lent + 1), ("no output", 0), ("output six words", 6), ("output a node short", lent - 7), ("output a node long", lent + 7)):
        out.append((17, label, with_part(4, lambda g, length=length: length)))
    return out


def right_packs(out, rng):
    for n in (0, 1, 2, 15, 16, 17, 31, 32, 33, 255, 256, 257, 272):
        out.pack("n %d" % n, given(rng, n), 0)
    out.pack("n 1000", given(rng, 1000, 1_000_000), 0)
    for _ in range(30):
        n = rng.randint(0, 40)
        out.pack("n %d" % n, given(rng, n, rng.choice([1, 20, 1_000_000])), 0)
    for edition in (1, reading.EDITION):
        out.pack("edition %d" % edition, given(rng, 4, edition=edition), 0)
    far = reading.COORDINATE
    out.pack("ids and coordinates at their bounds", (3, [1, -far, far, 2, far, -far, reading.ID, far, far], [2, 0, 1], 1, 28), 0)
    for n, nodes in ((0, 0), (16, 1), (17, 3), (1000, 68)):
        assert len(reading.runs_of_sixteen(n)) == nodes


def wrong_packs(out, rng):
    for n in (4, 18):
        base = given(rng, n)
        out.pack("no order", base[:2] + ([],) + base[3:], 18)
        out.pack("no points", base[:1] + ([],) + base[2:], 18)
        known = collections.defaultdict(list)
        for number, label, change in pack_faults(base):
            known[number].append((label, change))
            out.pack(label, change(base), number)
        for earlier, later in itertools.combinations((18, 3, 5, 6, 17), 2):
            done = 0
            for (label, change), (other, more) in itertools.product(known[earlier], rng.sample(known[later], 4)):
                both = change(more(base))
                if both != more(change(base)) or done == 2:
                    continue
                assert reading.pack_number(*change(base)) == earlier and reading.pack_number(*more(base)) == later
                out.pack("%s and %s" % (label, other), both, earlier)
                done += 1
            assert done == 2, (earlier, later)
    for n in (1001, 1100):
        flat = [word for k in range(n) for word in (k + 1, 0, 0)]
        out.pack("n %d" % n, (n, flat, list(range(n)), 1, 6), 3)
    for n, words in ((12297829382473034411, 1), (6148914691236517206, 2)):
        assert 3 * n % 2 ** 64 == words
        out.pack("n %d, whose 3n is %d in 64 bits" % (n, words), (n, [1] * words, [], 1, 6), 18)
    third = 2 ** 64 // 3
    for n in (2 ** 63, 2 ** 64 - 1, third, third + 1, 2 ** 32, 2 ** 32 + 1, 6148914691236517206):
        out.pack("n %d, nothing handed in" % n, (n, [], [], 1, 6), 18)
        out.pack("n %d, one point handed in" % n, (n, [1, 0, 0], [0], 1, 18), 18)


def packs_of_forms(out, rng):
    """Each form: 1 and 2 under its own limits, others refused by 2, after 18 and before 3."""
    far, wide = reading.COORDINATE, reading.WIDE_COORDINATE
    for n in (0, 1, 16, 17, 33, 1001, 1100):
        out.pack("form 2, n %d" % n, given(rng, n, wide) + (2,), 0)
    for _ in range(10):
        n = rng.randint(0, 40)
        out.pack("form 2, n %d" % n, given(rng, n, rng.choice([1, 20, wide])) + (2,), 0)
    for x, y in ((wide, -wide), (-wide, wide), (far + 1, 0), (0, -far - 1)):
        one = (2, [1, 0, 0, 9, x, y], [1, 0], 1, reading.packed_length(2))
        out.pack("form 2, a point at %d %d" % (x, y), one + (2,), 0)
        out.pack("form 1, a point at %d %d" % (x, y), one + (1,), 5)
    for x, y in ((wide + 1, 0), (0, wide + 1), (-wide - 1, 0), (0, -wide - 1), (BIG, 0), (0, SMALL)):
        out.pack("form 2, a point at %d %d" % (x, y), (2, [1, 0, 0, 9, x, y], [1, 0], 1, reading.packed_length(2), 2), 5)
    base = given(rng, 5)
    n, flat, order, edition, lent = base
    for form in (0, 3, 4, 2 ** 31 - 1, -1):
        out.pack("form %d" % form, base + (form,), 2)
        out.pack("form %d, point words one short" % form, (n, flat[:-1], order, edition, lent, form), 18)
        out.pack("form %d, edition 0" % form, (n, flat, order, 0, lent, form), 2)
        out.pack("form %d, an id twice" % form, (n, put(flat, 3, flat[0]), order, edition, lent, form), 2)
        out.pack("form %d, order twice" % form, (n, flat, put(order, 0, order[1]), edition, lent, form), 2)
        out.pack("form %d, output one long" % form, (n, flat, order, edition, lent + 1, form), 2)
    for number, label, change in pack_faults(base):
        if "coordinate" not in label and label[:2] not in ("x ", "y "):
            out.pack("form 2, " + label, change(base) + (2,), number)
    for n in (2000, 2700):
        out.pack("form 1, n %d" % n, (n, [word for k in range(n) for word in (k + 1, 0, 0)], list(range(n)), 1, 6, 1), 3)
        out.pack("form 2, n %d, output six words" % n, (n, [word for k in range(n) for word in (k + 1, 0, 0)], list(range(n)), 1, 6, 2), 17)


def markers(out, rng):
    """Sums of every sign, whole halves and others, at the ends of the range and one past them, on each coordinate."""
    far, wide = reading.COORDINATE, reading.WIDE_COORDINATE
    for a, b in (((0, 0), (0, 0)), ((1, 2), (3, 4)), ((1, 2), (2, 4)), ((-1, 5), (1, -5)), ((-1, -2), (-3, -5)), ((far, -far), (far, -far)), ((far + 1, -far - 1), (0, 0)),
                 ((wide, wide), (wide, wide)), ((-wide, -wide), (-wide, -wide)), ((wide, -wide), (-wide, wide)), ((wide, wide), (wide - 1, 1 - wide)), ((-wide, 0), (1 - wide, -1))):
        out.mark("in range", a, b, 0)
    for k in range(4):
        for word in (wide + 1, -wide - 1, BIG, SMALL):
            words = put([wide, -wide, 0, 7], k, word)
            out.mark("out of range", tuple(words[:2]), tuple(words[2:]), 5)
    for _ in range(20):
        a, b = [(rng.randint(-wide, wide), rng.randint(-wide, wide)) for _ in range(2)]
        out.mark("in range", a, b, 0)


def cases():
    rng = Chance("sheets")
    out = Sheets()
    right_sheets(out, rng)
    wrong_sheets(out, rng)
    single_faults(out, rng)
    double_faults(out, rng)
    changed_words(out, rng)
    points_read(out, Chance("points"))
    right_packs(out, Chance("packs"))
    wrong_packs(out, Chance("wrong packs"))
    of_form_2(out, Chance("form 2"))
    packs_of_forms(out, Chance("packs of both forms"))
    markers(out, Chance("markers"))
    assert out.packs >= 100
    assert all(out.pack_seen[number] >= 10 for number in (0, 18, 2, 3, 5, 6, 17)), out.pack_seen
    assert out.opened >= 400
    assert all(out.seen[number] >= 10 for number in range(9)), out.seen
    return out.cases
