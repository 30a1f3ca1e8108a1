"""The planner's page: two sheets and their pairs as one HTML file that needs nothing else, with what blocks the pump houses near each chamber.

The page is planner.html with the data put in. Of a contractor's page the other's chambers stand behind its own, by their places and with 0 for their ids: nothing of
their ids is in it, not even their order.
"""
import base64
import bisect
import json
import math
import os
import struct

from .sheets import arranged

HERE = os.path.dirname(os.path.abspath(__file__))
# how many of the shortest are stored, of which the page lists and marks as many as its reader says
SHORTEST = 100


def packed(numbers, kind):
    return base64.b64encode(struct.pack("<%d%s" % (len(numbers), kind), *numbers)).decode()


def columns(points, name, edition):
    return {"name": name, "edition": edition, "n": len(points), "id": packed([one.id for one in points], "I"), "x": packed([one.x for one in points], "i"),
            "y": packed([one.y for one in points], "i")}


class Blocking:
    """What blocks a pair, by the ring rule and from the points alone. The walk's own answer depends on how the sheets are packed, and so on the positions of the
    other's chambers, which go by their ids. Here it is the first record that blocks, by place: x, then y; on one place a pump house first, then the
    contractor's own chambers, then the others."""

    def __init__(self, p, chambers, grid):
        self.grid = grid
        self.all = sorted([(one.x, one.y, 0, k) for k, one in enumerate(p.points)] + [(one.x, one.y, 1, k) for k, one in enumerate(chambers)])

    def first(self, a, b):
        """The set (0 P, 1 Q) and the place in the page of what blocks two points, or None."""
        middle, far = (a.x + b.x, a.y + b.y), abs(a.x - b.x) + abs(a.y - b.y)
        reach = far if self.grid else math.isqrt((a.x - b.x) ** 2 + (a.y - b.y) ** 2) + 1
        for at in range(bisect.bisect_left(self.all, ((middle[0] - reach) // 2,)), len(self.all)):
            x, y, which, k = self.all[at]
            if 2 * x > middle[0] + reach:
                return None
            if self.grid:
                inside = abs(2 * x - middle[0]) + abs(2 * y - middle[1]) <= far
            else:
                inside = (a.x - x) * (b.x - x) + (a.y - y) * (b.y - y) <= 0
            if inside and (x, y) not in (a[1:], b[1:]):
                return which, k
        return None


def walked(ring, p, q, at_q, at_p, grid):
    """What blocks two records, by the proved walk: the set (0 P, 1 Q), and the place in the page of the record that blocks, or the side and the box."""
    def asked(chamber, pump):
        found = ring.why(p, q, chamber.id, pump.id, grid)
        if found.clear:
            return None
        which = int(found.set == "Q")
        return [which, (at_p, at_q)[which][found.record.id]] if found.kind == "point" else [which, found.side, *found.box]
    return asked


def blocked(ring, p, q, pairs, own, at_p, near, blocks, said):
    """What blocks each of the nearest pump houses of each own chamber that are no partners of it: the pump house, and the answer of `blocks`."""
    partners, answers = set(pairs), {}
    for count, one in enumerate(own):
        said("%d of %d chambers asked what blocks near them" % (count, len(own)))
        for pump in ring.nearest(p, q, one.id, near):
            if (one.id, pump.id) not in partners:
                by = blocks(one, p.point(pump.id))
                # none: a pair that is not of this list, its chamber has fewer than the threshold
                if by is not None:
                    answers.setdefault(count, []).append([at_p[pump.id], *by])
    return answers


def page(ring, p, q, pairs, terms, near=0, mine=None, names=("P", "Q"), units=None, said=lambda what: None):
    """The page of two sheets and their pairs (q id, p id, size)."""
    chambers, own = arranged(q, mine)
    at_q, at_p = ({one.id: k for k, one in enumerate(points) if one.id} for points in (chambers, p.points))
    grid = terms.get("grid", False)
    blocks = walked(ring, p, q, at_q, at_p, grid) if mine is None else Blocking(p, chambers, grid).first
    answers = blocked(ring, p, q, [pair[:2] for pair in pairs], chambers[:own], at_p, near, blocks, said) if near else {}
    shortest = sorted(range(len(pairs)), key=lambda k: (pairs[k][2], *pairs[k][:2]))[:SHORTEST]
    data = {"p": columns(p.points, names[0], p.edition), "q": columns(chambers, names[1], q.edition), "mine": own, "grid": grid, "threshold": terms.get("threshold", 0),
            "contractor": terms.get("contractor"), "pairs": {"q": packed([at_q[pair[0]] for pair in pairs], "I"), "p": packed([at_p[pair[1]] for pair in pairs], "I")},
            "shortest": shortest, "why": answers, "scale": float(units.scale) if units else 1.0, "offset": [float(one) for one in units.offset] if units else [0.0, 0.0]}
    with open(os.path.join(HERE, "planner.html"), encoding="utf-8") as f:
        before, after = f.read().split("/*DATA*/")
    # no text within a script may end it
    return before + json.dumps(data, separators=(",", ":")).replace("<", "\\u003c") + after
