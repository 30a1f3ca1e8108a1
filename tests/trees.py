"""Trees of every shape that the rules allow, and points to put into them, from a seeded source."""
import reading


def parts(rng, total, count):
    """`total` as a sum of `count` numbers, each 1 to 16."""
    assert count <= total <= 16 * count
    out = [1] * count
    for _ in range(total - count):
        k = rng.randrange(count)
        while out[k] == 16:
            k = (k + 1) % count
        out[k] += 1
    return out


def runs(counts):
    """The nodes' (level, first, count) from the counts of each level."""
    out, first = [], 0
    for level, here in enumerate(counts):
        start = len(out)
        for count in here:
            out.append((level, first, count))
            first += count
        first = start
    return out


def uneven(rng, n, highest):
    """The runs of a random tree over n places whose root stands on level `highest`."""
    counts, below = [], n
    for level in range(highest):
        least = max(2, -(-below // 16))
        most = min(below, 16 ** (highest - level), 60 if below <= 960 else 120)
        here = rng.randint(least, max(least, most))
        if rng.random() < 0.4:
            here = max(least, min(most, here // 2))
        counts.append(parts(rng, below, here))
        below = here
    counts.append([below])
    return runs(counts)


def singles(n, highest):
    """Nodes that cover one each, on every level below the root: n is 2 to 16."""
    return runs([[1] * n] * highest + [[n]])


def sheet(points, order, shape, edition, form=1):
    """The words of a sheet over a tree of the given (level, first, count)."""
    return reading.sheet_words(points, order, reading.with_boxes(points, order, shape), edition, form)


def ids(rng, n, most=None):
    """n ids, ascending: close together, or anywhere in the range."""
    if most is None:
        most = rng.choice([n, 2 * n + 3, 1000 + n, reading.ID])
    return sorted(rng.sample(range(1, most + 1), n))


def shuffled(rng, n):
    order = list(range(n))
    rng.shuffle(order)
    return order


def near(rng, points):
    """An order that puts near points together."""
    step = max(1, (max(p[1] for p in points) - min(p[1] for p in points)) // 4) if points else 1
    return sorted(range(len(points)), key=lambda i: (points[i][1] // step, points[i][2], i))
