"""Two sheets and their pairs as a picture in SVG.

Pump houses are squares, chambers are dots, a chamber without a visit is a ring; each pair is a line within its circle, or its diamond for the street grid. Records
on one spot stand around it, each by itself. Ids stand where they fit: none over another or over a record. Every record has a title that a pointer shows. In a
contractor's picture the other's chambers are grey, and have neither id nor title.
"""
import math
from xml.sax.saxutils import escape

from .sheets import arranged

SIZE, MARGIN, FOOT = 1000, 70, 96
INK = {"p": "#b3401e", "q": "#1f5f8b", "bare": "#8a2be2", "other": "#9a9a9a", "pair": "#333333", "round": "#7a9e3a", "text": "#222222", "ground": "#fbfaf6"}
# ids are looked for a place up to so many records
NAMED = 5000


class Scale:
    """From the map to the picture: y goes up on the map."""

    def __init__(self, spots, reach):
        xs = [x for x, _ in spots] + [v for x, _, r in reach for v in (x - r, x + r)] or [0]
        ys = [y for _, y in spots] + [v for _, y, r in reach for v in (y - r, y + r)] or [0]
        self.wide = max(max(xs) - min(xs), max(ys) - min(ys), 1)
        self.k = (SIZE - 2 * MARGIN) / self.wide
        self.left, self.top = (min(xs) + max(xs)) / 2, (min(ys) + max(ys)) / 2

    def at(self, x, y):
        return SIZE / 2 + (x - self.left) * self.k, SIZE / 2 - (y - self.top) * self.k

    def bar(self):
        """A round length of the map that is a fifth of the picture or less: 1, 2 or 5 and zeros."""
        most = max(self.wide / 5, 1)
        power = 10 ** int(math.floor(math.log10(most)))
        return max(step * power for step in (1, 2, 5) if step * power <= most)


class Places:
    """Rectangles that are taken, by cells, so that few are looked at."""

    CELL = 40

    def __init__(self):
        self.cells = {}

    def cells_of(self, box):
        x0, y0, x1, y1 = (int(v // self.CELL) for v in box)
        return [(x, y) for x in range(x0, x1 + 1) for y in range(y0, y1 + 1)]

    def free(self, box):
        x0, y0, x1, y1 = box
        if x0 < 0 or y0 < 0 or x1 > SIZE or y1 > SIZE:
            return False
        return not any(x0 < b[2] and b[0] < x1 and y0 < b[3] and b[1] < y1 for cell in self.cells_of(box) for b in self.cells.get(cell, ()))

    def take(self, box):
        for cell in self.cells_of(box):
            self.cells.setdefault(cell, []).append(box)


def placed(records, scale, r):
    """Where each record (set, id) is drawn: on its spot, or around it where several stand on one."""
    on, at = {}, {}
    for record, spot in records.items():
        on.setdefault(spot, []).append(record)
    for spot, here in on.items():
        cx, cy = scale.at(*spot)
        for turn, record in enumerate(here):
            away = 0 if len(here) == 1 else max(1.5 * r, 0.6 * r * len(here))
            angle = 2 * math.pi * turn / len(here)
            at[record] = (cx - away * math.cos(angle), cy - away * math.sin(angle))
    return at, {record: len(on[spot]) for record, spot in records.items()}


def named(at, records, r, size):
    """The ids that have a place, each where it begins."""
    places, found = Places(), {}
    for record in records:
        x, y = at[record]
        places.take((x - 1.4 * r, y - 1.4 * r, x + 1.4 * r, y + 1.4 * r))
    for record in records:
        (x, y), wide = at[record], 0.6 * size * len(str(record[1]))
        for dx, dy in ((1.7 * r, -r), (1.7 * r, size), (-1.7 * r - wide, -r), (-1.7 * r - wide, size), (-wide / 2, -1.9 * r), (-wide / 2, 1.9 * r + 0.8 * size)):
            box = (x + dx, y + dy - 0.8 * size, x + dx + wide, y + dy + 0.1 * size)
            if places.free(box):
                places.take(box)
                found[record] = (x + dx, y + dy)
                break
    return found


def across(a, b, grid):
    """How far apart the ends of a pair are: straight, or along the streets."""
    dx, dy = abs(a[0] - b[0]), abs(a[1] - b[1])
    return dx + dy if grid else math.hypot(dx, dy)


def svg(p, q, pairs, grid=False, mine=None, titles=("P", "Q")):
    """The picture of two sheets and their pairs (q id, p id). `mine` are the ids of the chambers that may be named, where not all may."""
    shown, own = arranged(q, mine)
    spots = {("p", one.id): (one.x, one.y) for one in p.points}
    spots.update({("q", one.id): (one.x, one.y) for one in shown[:own]})
    # the other's go by their places: neither their ids nor the order of these tell anything
    others = {("other", k): (one.x, one.y) for k, one in enumerate(shown[own:])}
    spots.update(others)
    ends = [(spots["q", a], spots["p", b]) for a, b in pairs]
    reach = [((a[0] + b[0]) / 2, (a[1] + b[1]) / 2, across(a, b, grid) / 2) for a, b in ends]
    scale = Scale(list(spots.values()), reach)
    r = max(2.0, min(6.0, 70 / math.sqrt(len(spots) + 1)))
    at, many = placed(spots, scale, r)
    visits = {}
    for a, b in pairs:
        visits["q", a] = visits.get(("q", a), 0) + 1
        visits["p", b] = visits.get(("p", b), 0) + 1
    bare = [record for record in spots if record[0] == "q" and record not in visits]
    out = ['<svg xmlns="http://www.w3.org/2000/svg" viewBox="0 0 %d %d" font-family="sans-serif">' % (SIZE, SIZE + FOOT)]
    out.append("<title>%d pump houses, %d chambers, %d ring pairs, %d chambers without a visit</title>" % (len(p.points), own, len(pairs), len(bare)))
    out.append('<rect width="%d" height="%d" fill="%s"/>' % (SIZE, SIZE + FOOT, INK["ground"]))
    out.append('<g fill="%s" fill-opacity="0.06" stroke="%s" stroke-opacity="0.5" stroke-width="0.8">' % (INK["round"], INK["round"]))
    for x, y, far in reach:
        (cx, cy), radius = scale.at(x, y), far * scale.k
        if grid:
            out.append('<polygon points="%.1f,%.1f %.1f,%.1f %.1f,%.1f %.1f,%.1f"/>' % (cx - radius, cy, cx, cy - radius, cx + radius, cy, cx, cy + radius))
        else:
            out.append('<circle cx="%.1f" cy="%.1f" r="%.1f"/>' % (cx, cy, radius))
    out.append('</g><g stroke="%s" stroke-width="1.2">' % INK["pair"])
    for a, b in pairs:
        (ax, ay), (bx, by) = at["q", a], at["p", b]
        out.append('<line x1="%.1f" y1="%.1f" x2="%.1f" y2="%.1f"><title>chamber %d with pump house %d</title></line>' % (ax, ay, bx, by, a, b))
    out.append("</g>")

    def said(record):
        x, y = spots[record]
        count, beside = visits.get(record, 0), many[record] - 1
        what = "%s %d at (%d, %d), %s" % ("pump house" if record[0] == "p" else "chamber", record[1], x, y, "1 visit" if count == 1 else "%d visits" % count)
        return what + ("" if not beside else ", another record on the same spot" if beside == 1 else ", %d more records on the same spot" % beside)

    for kind, records in (("other", others), ("q", [one for one in spots if one[0] == "q" and one in visits]), ("bare", bare), ("p", [one for one in spots if one[0] == "p"])):
        out.append('<g fill="%s" stroke="%s" stroke-width="%.1f">' % ("none" if kind == "bare" else INK[kind], INK[kind], max(1.0, r / 3) if kind == "bare" else 0))
        for record in records:
            cx, cy = at[record]
            title = "" if kind == "other" else "<title>%s</title>" % said(record)
            if kind == "p":
                out.append('<rect x="%.1f" y="%.1f" width="%.1f" height="%.1f">%s</rect>' % (cx - 1.3 * r, cy - 1.3 * r, 2.6 * r, 2.6 * r, title))
            else:
                out.append('<circle cx="%.1f" cy="%.1f" r="%.1f">%s</circle>' % (cx, cy, r, title))
        out.append("</g>")
    size = max(7.0, 1.7 * r)
    ids = named(at, [record for record in spots if record not in others], r, size) if len(spots) <= NAMED else {}
    for kind in ("q", "p"):
        out.append('<g fill="%s" font-size="%.1f">' % (INK[kind], size))
        out += ['<text x="%.1f" y="%.1f">%d</text>' % (x, y, record[1]) for record, (x, y) in ids.items() if record[0] == kind]
        out.append("</g>")
    out += legend(p, q, len(pairs), len(bare), own, len(others), grid, scale, titles)
    return "\n".join(out + ["</svg>"]) + "\n"


def legend(p, q, pairs, bare, chambers, others, grid, scale, titles):
    y, bar = SIZE + 15, scale.bar()
    out = ['<g font-size="16" fill="%s">' % INK["text"]]
    out.append('<rect x="%d" y="%d" width="14" height="14" fill="%s"/><text x="%d" y="%d">%d pump houses</text>' % (MARGIN, y - 7, INK["p"], MARGIN + 22, y + 6, len(p.points)))
    out.append('<circle cx="%d" cy="%d" r="7" fill="%s"/><text x="%d" y="%d">%d chambers</text>' % (MARGIN + 197, y, INK["q"], MARGIN + 212, y + 6, chambers))
    out.append('<circle cx="%d" cy="%d" r="6" fill="none" stroke="%s" stroke-width="2"/><text x="%d" y="%d">%d without a visit</text>' % (MARGIN + 347, y, INK["bare"], MARGIN + 362, y + 6, bare))
    what = "ring pairs, each in its %s" % ("diamond" if grid else "circle")
    out.append('<line x1="%d" y1="%d" x2="%d" y2="%d" stroke="%s" stroke-width="1.5"/><text x="%d" y="%d">%d %s</text>' % (MARGIN + 545, y, MARGIN + 575, y, INK["pair"], MARGIN + 583, y + 6, pairs, what))
    left, under = MARGIN, y + 34
    out.append('<path d="M %d %d v 6 h %.1f v -6" fill="none" stroke="%s" stroke-width="1.5"/><text x="%.1f" y="%d">%s</text>' % (
        left, under - 6, bar * scale.k, INK["text"], left + bar * scale.k + 10, under + 4, format(bar, ",")))
    if others:
        out.append('<circle cx="%d" cy="%d" r="7" fill="%s"/><text x="%d" y="%d">%d of the other contractor</text>' % (MARGIN + 545, under - 4, INK["other"], MARGIN + 583, under + 4, others))
    out.append('<text x="%d" y="%d" font-size="14">P: %s, edition %d; Q: %s, edition %d</text></g>' % (left, under + 32, escape(titles[0]), p.edition, escape(titles[1]), q.edition))
    return out
