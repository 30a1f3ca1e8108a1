"""Pairs of sheets for the walks and the pages: points where the rules are tight, over trees of every shape."""
import math

import reading
import trees
from faults import faults


def grid(rng, n):
    """On a small grid: many on one line, one circle and one spot."""
    return [(rng.randint(0, 3), rng.randint(0, 3)) for _ in range(n)]


def line(rng, n):
    dx, dy = rng.choice([(1, 0), (0, 1), (1, 1), (2, -1), (3, 4)])
    return [(dx * k, dy * k) for k in (rng.randint(-6, 6) for _ in range(n))]


def circle(rng, n):
    """On one circle around (0, 0), its centre among them now and then."""
    radius = rng.choice([5, 25, 65])
    round_it = [(x, y) for x in range(-radius, radius + 1) for y in range(-radius, radius + 1) if x * x + y * y == radius * radius]
    return [(0, 0) if rng.random() < 0.1 else rng.choice(round_it) for _ in range(n)]


def corner(rng, n, far=reading.COORDINATE):
    """At the corners of the range, and one step inside."""
    return [(rng.choice([-1, 1]) * (far - rng.randint(0, 1)), rng.choice([-1, 1]) * (far - rng.randint(0, 1))) for _ in range(n)]


def spots(rng, n):
    """Several records on each of a few spots."""
    few = [(rng.randint(-9, 9), rng.randint(-9, 9)) for _ in range(max(1, n // 3))]
    return [rng.choice(few) for _ in range(n)]


def town(rng, n):
    return [(rng.randint(-40, 40), rng.randint(-40, 40)) for _ in range(n)]


def land(rng, n, far=reading.COORDINATE):
    return [(rng.randint(-far, far), rng.randint(-far, far)) for _ in range(n)]


PLACES = [grid, line, circle, corner, spots, town, land]


def diamond(rng, n):
    """As far from (0, 0) along the streets, one step more or less now and then, and (0, 0) among them."""
    out = []
    for _ in range(n):
        radius = rng.choice([0, 5, 5, 6, 6, 6, 6, 7])
        x = rng.randint(-radius, radius)
        out.append((x, rng.choice([-1, 1]) * (radius - abs(x))))
    return out


STREET_PLACES = PLACES + [diamond, diamond]


def ends(rng, n):
    """At the corners of form 2's range, and one step inside."""
    return corner(rng, n, reading.WIDE_COORDINATE)


def province(rng, n):
    return land(rng, n, reading.WIDE_COORDINATE)


def wheel(rng, n):
    """On one circle as large as form 2's range, its centre among them now and then."""
    places = circle(rng, n)
    radius = max(1, max(math.isqrt(x * x + y * y) for x, y in places))
    return [(x * (reading.WIDE_COORDINATE // radius), y * (reading.WIDE_COORDINATE // radius)) for x, y in places]


WIDE_PLACES = [ends, province, wheel]


def tree(rng, n):
    """A name and the runs of a tree over n places."""
    kind = rng.choice(["sixteen", "uneven", "uneven", "six", "singles"])
    if kind == "singles" and 2 <= n <= 16:
        return "single-child nodes", trees.singles(n, rng.randint(1, 7))
    if kind == "six" and n >= 2:
        return "six levels", trees.uneven(rng, n, 5)
    if kind == "uneven" and n >= 2:
        least = 1 if n <= 16 else 2 if n <= 256 else 3
        return "an uneven tree", trees.uneven(rng, n, rng.randint(least, 7 if n <= 20 else 4))
    return "packed by 16", reading.runs_of_sixteen(n)


def sheet(rng, places, n, edition=None, form=1):
    """The name of the tree, and the words of a sheet of n points."""
    points = [(number,) + place for number, place in zip(trees.ids(rng, n), places(rng, n))]
    order = trees.near(rng, points) if rng.random() < 0.6 else trees.shuffled(rng, n)
    name, shape = tree(rng, n)
    return name, trees.sheet(points, order, shape, edition or rng.randint(1, 1000), form)


def of_forms(rng, count, most):
    """So many pairs of sheets, of at most so many points each, of which one is of form 2 at least and fills its range: a label, P and Q."""
    for k in range(count):
        forms = ((2, 2), (2, 1), (1, 2))[k % 3]
        places = WIDE_PLACES[k // 3 % len(WIDE_PLACES)]
        p, q = [sheet(rng, places if form == 2 else rng.choice(PLACES), rng.randint(1, most), form=form)[1] for form in forms]
        yield "%s, forms %d and %d" % (places.__name__, *forms), p, q


def many(rng, n=1300):
    """A sheet of form 2 of more points than form 1 has, packed by 16: they need more than sixteen words."""
    points = [(number,) + place for number, place in zip(trees.ids(rng, n, reading.ID), province(rng, n))]
    return trees.sheet(points, trees.near(rng, points), reading.runs_of_sixteen(n), 44, 2)


def too_wide(rng):
    """Two sheets of at most 5 points, of which P, Q or both are of form 2, all three in turn: for each P and Q. Their points may be in form 1's range."""
    for forms in ((2, 1), (1, 2), (2, 2)):
        for places in (grid, ends):
            yield [sheet(rng, places if form == 2 else grid, rng.randint(1, 5), form=form)[1] for form in forms]


def few_words(rng):
    """Sheets whose points fill the last word that they need, or have it alone: for each P and Q."""
    for n in (1, 2, 63, 64, 65, 128, 129):
        form = rng.randint(1, 2)
        yield sheet(rng, rng.choice([town, land]), n, form=form)[1], sheet(rng, town, rng.randint(2, 4))[1]


def faulty(rng, number):
    """A sheet that gets the given number, 1 to 8."""
    points = [(k + 1,) + place for k, place in enumerate(town(rng, 9))]
    words = trees.sheet(points, trees.shuffled(rng, 9), trees.runs([[3, 2, 4], [2, 1], [2]]), 6)
    if number == 1:
        return words[-5:]
    return rng.choice([change for given, _, change in faults(words) if given == number])(words)


def both_faulty(rng):
    """Two sheets with two faults, P's and Q's, in every order of the two numbers."""
    for one in range(1, 9):
        for other in range(1, 9):
            if one != other and (one + other) % 3 == 0 or abs(one - other) == 7:
                yield faulty(rng, one), faulty(rng, other), one
