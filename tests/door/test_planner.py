"""The planner's page: what is stored in it, of every kind of list; and the page as a person uses it, in a headless Chromium where the machine has one."""
import base64
import json
import os
import re
import struct
import types
import unittest

import browser
from base import Folder, read
from test_command import TOWN_SHEETS, Commands, stored

import chance
import reading
from ring import planner, records

LISTING = os.path.join(os.path.dirname(TOWN_SHEETS[0]), "listing.txt")


def numbers(text, kind):
    data = base64.b64decode(text)
    return list(struct.unpack("<%d%s" % (len(data) // 4, kind), data))


def data_of(page):
    return json.loads(re.search(r'<script type="application/json" id="data">(.*?)</script>', page, re.S).group(1))


def points(part):
    return list(zip(numbers(part["id"], "I"), numbers(part["x"], "i"), numbers(part["y"], "i")))


def listed():
    """The town's list, as it is stored."""
    return [tuple(map(int, (line.split()[0], line.split()[1], line.split()[4]))) for line in stored("listing.txt").decode().split("\n")[:-2]]


class Pages(Commands):
    def setUp(self):
        super().setUp()
        self.listed = listed()
        self.out = self.path("town.html")

    def page(self, *words):
        self.served("map", *TOWN_SHEETS, *words, "--out", self.out)
        return data_of(read(self.out).decode())

    def pairs(self, data):
        p, q = points(data["p"]), points(data["q"])
        return [(q[a][0], p[b][0]) for a, b in zip(numbers(data["pairs"]["q"], "I"), numbers(data["pairs"]["p"], "I"))]

    def test_what_is_stored(self):
        data = self.page(LISTING)
        self.assertEqual((points(data["p"]), points(data["q"])), ([tuple(one) for one in self.pumps.points], [tuple(one) for one in self.chambers.points]))
        self.assertEqual((data["p"]["name"], data["q"]["edition"], data["mine"], data["contractor"], data["grid"]), ("pumps.sheet", 9, 120, None, False))
        self.assertEqual(self.pairs(data), [pair[:2] for pair in self.listed])
        self.assertEqual([self.listed[k] for k in data["shortest"]], reading.shortest_of(self.listed, 100))
        # the first of them are the call's own answer
        self.assertEqual([self.listed[k] for k in data["shortest"][:16]], self.ring.shortest(self.pumps, self.chambers, 16))
        self.assertEqual(self.page(), data)

    def test_what_blocks_is_the_walks_answer(self):
        seen = set()
        small = self.made("1,50,1\n2,50,-1\n3,100,0\n", name="p"), self.made("5,0,0\n", name="q")
        for sheets, sets, near in ((TOWN_SHEETS, (self.pumps, self.chambers), 6), (small, [self.ring.read(one) for one in small], 16)):
            self.served("map", *sheets, "--out", self.out, *(() if near == 6 else ("--near", near)))
            data, partners = data_of(read(self.out).decode()), {pair[:2] for pair in self.ring.pairs(*sets)}
            both = points(data["p"]), points(data["q"])
            for j, one in enumerate(sets[1].points):
                rows = data["why"].get(str(j), [])
                self.assertEqual([both[0][row[0]][0] for row in rows], [two.id for two in self.ring.nearest(*sets, one.id, near) if (one.id, two.id) not in partners])
                for row in rows:
                    found = self.ring.why(*sets, one.id, both[0][row[0]][0])
                    seen.add((found.kind, found.set))
                    self.assertEqual("PQ"[row[1]], found.set)
                    if found.kind == "point":
                        self.assertEqual(both[row[1]][row[2]], tuple(found.record))
                    else:
                        self.assertEqual(row[2:], [found.side, *found.box])
        self.assertEqual(seen, {("point", "P"), ("point", "Q"), ("side", "P"), ("side", "Q")})
        self.assertEqual(self.page("--near", 0)["why"], {})

    def test_it_needs_nothing_else(self):
        self.page()
        text = read(self.out).decode()
        self.assertEqual(re.findall(r"https?://|\bsrc=|\bhref=|@import|\burl\(|\bfetch\(|XMLHttpRequest", text), [])

    def test_of_other_lists(self):
        both = [reading.Sheet(list(sheet.words)).points for sheet in (self.pumps, self.chambers)]
        grid = reading.ring_list(*both, True)
        data = self.page("--grid")
        self.assertEqual((self.pairs(data), data["grid"]), ([pair[:2] for pair in grid], True))
        self.assertEqual([grid[k] for k in data["shortest"]], reading.shortest_of(grid, 100))
        few = reading.list_of(self.listed, 3)
        data = self.page("--threshold", 3)
        self.assertEqual((self.pairs(data), data["threshold"]), ([pair[:2] for pair in few], 3))
        # a pair that is not of the list of three is no pair that something blocks
        rest = {pair[:2] for pair in self.listed} - {pair[:2] for pair in few}
        p, q = points(data["p"]), points(data["q"])
        self.assertFalse(rest & {(q[int(j)][0], p[row[0]][0]) for j, rows in data["why"].items() for row in rows})
        data = self.page("--scale", "100", "--offset", "432000,5412000.5")
        self.assertEqual((data["scale"], data["offset"]), (100, [432000, 5412000.5]))

    def test_a_contractors_page_has_nothing_of_the_others_ids(self):
        """Two towns that differ in the ids of the other's chambers alone have one page, to the byte."""
        lots, made = chance.Chance(7), []
        spots = [(k, lots.randint(-300, 300), lots.randint(-300, 300)) for k in range(60)]
        pumps = self.made("".join("%d,%d,%d\n" % (k + 1, lots.randint(-300, 300), lots.randint(-300, 300)) for k in range(20)), name="p")
        for turn in range(2):
            # the contractor's are the even ones; the other's ids are before, between and after these
            ids = {k: 1000 + 10 * k if k % 2 == 0 else (5000 + k if turn else (7 * k if k % 3 else 1000 + 10 * k + 3)) for k, _, _ in spots}
            chambers = self.made("".join("%d,%d,%d\n" % (ids[k], x, y) for k, x, y in spots), name="q")
            owners = self.file("o.csv", "id,owner\n" + "".join("%d,%d\n" % (ids[k], k % 2) for k, _, _ in spots))
            self.served("map", pumps, chambers, "--contractor", 0, "--owners", owners, "--out", self.out, "--near", 16)
            made.append(read(self.out))
            os.unlink(chambers)
            data = data_of(made[-1].decode())
            q = points(data["q"])
            self.assertEqual((data["mine"], [one[0] for one in q]), (30, [1000 + 20 * k for k in range(30)] + [0] * 30))
            self.assertEqual(q[30:], sorted(q[30:]))
            self.assertTrue(any(row[1] and len(row) == 3 and row[2] >= 30 for rows in data["why"].values() for row in rows))
        self.assertEqual(*made)

    def test_names_cannot_break_out(self):
        text = planner.page(self.ring, self.pumps, self.chambers, self.listed, {}, names=("</script><b>", "Q"))
        self.assertEqual((text.count("</script>"), data_of(text)["p"]["name"]), (2, "</script><b>"))

    def test_what_it_refuses_and_says(self):
        wrong = self.file("l.txt", "1 1 1 1 1\nend 1\n")
        self.refused("the sheets do not have both", "map", *TOWN_SHEETS, wrong)
        self.refused("refused by 10", "map", *TOWN_SHEETS, "--near", 17)
        many = self.made("".join("%d,%d,0\n" % (k + 1, 3 * k) for k in range(1001)), name="q")
        one = self.made("1,0,5\n", name="p")
        listing = self.file("l.txt", "1 1 0 5 25\nend 1\n")
        status, printed, said = self.call("map", one, many, listing, "--out", self.out)
        self.assertEqual((status, said), (0, "ring: 1001 chambers: what blocks near them is not asked for; --near K asks\n"))
        self.assertEqual(data_of(read(self.out).decode())["why"], {})


@unittest.skipUnless(browser.program(), "no Chromium on this machine: the planner's page")
class Used(Folder):
    """The page as a person uses it."""

    @classmethod
    def setUpClass(cls):
        cls.page = browser.Browser()

    @classmethod
    def tearDownClass(cls):
        cls.page.__exit__()

    def tearDown(self):
        self.assertEqual(self.page.faults(), [])

    def show(self, text):
        self.page.load(self.file("town.html", text))

    def at(self, which, id):
        """Where a record stands in the window."""
        return self.page.run("(() => { const i = %s.id.indexOf(%d); return [sx(%s.x[i]), sy(%s.y[i])]; })()" % (which, id, which, which))

    def inks(self, ink):
        """How many dots of the map have about this colour."""
        return self.page.run("(() => { const d = pen.getImageData(0, 0, canvas.width, canvas.height).data, c = [1, 3, 5].map(k => parseInt('%s'.substr(k, 2), 16)); let n = 0; "
                             "for (let k = 0; k < d.length; k += 4) if (Math.abs(d[k] - c[0]) + Math.abs(d[k+1] - c[1]) + Math.abs(d[k+2] - c[2]) < 12) n++; return n; })()" % ink)


class Town(Used, Commands):
    def setUp(self):
        super().setUp()
        self.listed = listed()

    @classmethod
    def setUpClass(cls):
        Commands.setUpClass.__func__(cls)
        Used.setUpClass.__func__(cls)

    @classmethod
    def tearDownClass(cls):
        Used.tearDownClass.__func__(cls)
        Commands.tearDownClass.__func__(cls)

    def town(self, *words):
        self.served("map", *TOWN_SHEETS, *words, "--out", self.path("town.html"))
        self.page.load(self.path("town.html"))

    def test_load(self):
        self.town(LISTING)
        self.assertEqual(self.page.text("title"), "104 ring pairs")
        self.assertIn("40 pump houses, 120 chambers, 61 without a visit. P: pumps.sheet, edition 7; Q: chambers.sheet, edition 9", self.page.text("about"))
        panel = self.page.text("panel")
        self.assertIn("chamber 1121 with pump house 129, distance 88.29", panel)
        self.assertIn("61 chambers without a visit", panel)
        for ink in ("#b3401e", "#1f5f8b", "#8a2be2"):
            self.assertGreater(self.inks(ink), 300)
        self.page.picture(self.path("a.png"))
        self.assertGreater(os.path.getsize(self.path("a.png")), 20000)

    def test_search_hover_and_click(self):
        self.town(LISTING)
        x, y = self.page.run("(r => [r.left + 40, r.top + r.height / 2])(byId('search').getBoundingClientRect())")
        self.page.click(x, y)
        self.page.type("1004")
        self.assertEqual(self.page.text("found"), "chamber 1004")
        self.page.press("Enter")
        panel = self.page.text("panel")
        self.assertRegex(panel, r"^chamber 1004\s+at \(736, -1756\)\s+2 visits:\s+pump house 106, distance 229.62\s+pump house 107, distance 771.52\s+Near, and no partner\s")
        self.assertIn("pump house 105, distance 742.04: blocked by pump house 106 at (554, -1616)", panel)
        self.assertLess(abs(self.at("Q", 1004)[0] - self.page.run("W / 2")), 1)
        # over a pump house: its id, its place, its distance
        self.page.move(*self.at("P", 107))
        self.assertIn("pump house 107 at (1493, -1607), 5 visits\n", self.page.text("hint"))
        self.assertIn("distance to chamber 1004: 771.52", self.page.text("hint"))
        # over the line of a pair: its distance
        (ax, ay), (bx, by) = self.at("Q", 1004), self.at("P", 107)
        self.page.move((ax + bx) / 2, (ay + by) / 2)
        self.assertEqual(self.page.text("hint"), "chamber 1004 with pump house 107\ndistance 771.52")
        # what blocks: shown in red
        before = self.inks("#c00000")
        self.page.button("pump house 105, distance 742.04: blocked by")
        self.assertGreater(self.inks("#c00000"), before + 50)
        # and brought into view
        self.page.wheel(535, 378, 8)
        self.page.button("pump house 132, distance 1,320.85: blocked by chamber 1253")
        for which, id in (("P", 132), ("Q", 1004), ("Q", 1253)):
            x, y = self.at(which, id)
            self.assertTrue(0 < x < self.page.run("W") and 0 < y < self.page.run("H"), (which, id))
        # the pump house itself, clicked on the map
        self.page.button("pump house 105, distance 742.04: blocked by")
        self.page.click(*self.at("P", 105))
        self.assertIn("With chamber 1004\n\nno pair: pump house 106 at (554, -1616) stands in their circle", self.page.text("panel"))
        self.page.button("chamber 1322")
        self.assertTrue(self.page.text("panel").startswith("chamber 1322"))
        self.page.click(5, 300)
        self.assertIn("61 chambers without a visit", self.page.text("panel"))

    def test_the_k_shortest(self):
        """As many as are asked for are listed, in order, and marked on the map."""
        self.town(LISTING)
        rows = [("chamber %d with pump house %d" % pair[:2]) for pair in reading.shortest_of(self.listed, 100)]
        for k, listed in ((16, 16), (3, 3), (40, 40), (1000, 100), (0, 100)):
            if k != 16:
                self.page.run("byId('short').select()")
                x, y = self.page.run("(r => [r.left + 8, r.top + r.height / 2])(byId('short').getBoundingClientRect())")
                self.page.click(x, y)
                self.page.run("byId('short').select()")
                self.page.type(str(k))
            said = self.page.run("[...document.querySelectorAll('#panel button')].map(one => one.innerText)")
            self.assertEqual([one.split(", distance")[0] for one in said if " with " in one], rows[:listed])
            marked = self.inks("#e0a800")
            self.assertGreater(marked, 30 * min(listed, 16))
        self.page.button("chamber 1121 with")
        self.assertLess(self.inks("#e0a800"), marked / 4)

    def test_an_id_that_is_not_there(self):
        self.town(LISTING)
        self.page.run("byId('search').focus()")
        self.page.type("77777")
        self.assertEqual(self.page.text("found"), "no record has this id")

    def test_the_very_id_comes_first(self):
        self.town(LISTING)
        self.page.run("byId('search').focus()")
        self.page.type("101")
        found = self.page.text("found").split()
        self.assertEqual(" ".join(found[:6]), "pump house 101 chamber 1010 chamber")

    def test_zoom_and_move(self):
        self.town(LISTING)
        def under(x, y):
            """The place on the map under a dot of the window."""
            return self.page.run("[view.x + (%d - W / 2) / view.k, view.y - (%d - H / 2) / view.k]" % (x, y))
        place, whole, k = under(640, 500), under(0, 0), self.page.run("view.k")
        self.page.wheel(640, 500, 3)
        self.assertAlmostEqual(self.page.run("view.k") / k, 1.25 ** 3, 6)
        self.assertLess(max(abs(a - b) for a, b in zip(under(640, 500), place)), 0.001)
        self.page.wheel(640, 500, -2)
        self.assertAlmostEqual(self.page.run("view.k") / k, 1.25, 6)
        self.page.button("chamber 1121 with")
        place, k_now = under(500, 400), self.page.run("view.k")
        self.page.drag((500, 400), (620, 340))
        self.assertLess(max(abs(a - b) for a, b in zip(under(620, 340), place)), 0.001)
        # a drag is no click, and no zoom
        self.assertEqual(self.page.run("view.k"), k_now)
        self.assertTrue(self.page.text("panel").startswith("chamber 1121"))
        x, y = self.page.run("(r => [r.left + 16, r.top + 16])(byId('all').getBoundingClientRect())")
        self.page.click(x, y)
        self.assertLess(max(abs(a - b) for a, b in zip(under(0, 0), whole)), 0.001)
        self.page.click(500, 5)
        self.page.press("+")
        self.assertAlmostEqual(self.page.run("view.k") / k, 1.25, 6)

    def test_two_fingers(self):
        self.town(LISTING)
        k = self.page.run("view.k")
        self.page.pinch((450, 380), (550, 380), (400, 380), (600, 380))
        self.assertAlmostEqual(self.page.run("view.k") / k, 2, 1)
        # none is left on the map: a pointer that moves says what is under it
        self.page.move(*self.at("Q", 1235))
        self.assertTrue(self.page.text("hint").startswith("chamber 1235 at "))

    def test_a_chamber_without_a_visit(self):
        self.town(LISTING)
        k = self.page.run("view.k")
        self.page.button("chamber 1001 at ")
        self.assertGreater(self.page.run("view.k"), k)
        self.assertRegex(self.page.text("panel"), r"^chamber 1001\s+at \(-3474, 2694\)\s+no visit\s")

    def test_towns_of_nothing_and_of_one_spot(self):
        empty = self.made("id,x,y\n", "--empty", name="none")
        two, one = self.made("1,5,5\n2,5,5\n", name="two"), self.made("7,5,5\n", name="one")
        for sheets, title, told in (((empty, empty), "0 ring pairs", "No visit"), ((two, one), "2 ring pairs", "chamber 7 with pump house 1, distance 0"), ((empty, one), "0 ring pairs", "chamber 7 at (5, 5)")):
            self.served("map", *sheets, "--out", self.path("town.html"))
            self.page.load(self.path("town.html"))
            self.assertEqual((self.page.text("title"), self.page.run("Number.isFinite(view.x + view.y + view.k)")), (title, True))
            self.assertIn(told, self.page.text("panel"))
        self.served("map", two, one, "--out", self.path("town.html"))
        self.page.load(self.path("town.html"))
        # all records of a spot are under the pointer, and each can be had
        self.page.click(*self.at("Q", 7))
        self.assertIn("On the same spot", self.page.text("panel"))
        self.page.move(*self.at("Q", 7))
        self.assertRegex(self.page.text("hint"), r"(?s)^chamber 7 at \(5, 5\), 2 visits.*pump house 1 at .*pump house 2 at ")

    def test_circles_and_diamonds(self):
        for words, shape in (((LISTING,), "circles"), (("--grid",), "diamonds")):
            self.town(*words)
            self.assertEqual(self.page.text("shape"), shape)
            self.page.button("chamber ")
            with_them = self.inks("#7a9e3a")
            self.page.button("back to")
            x, y = self.page.run("(r => [r.left + 5, r.top + 5])(byId('rounds').getBoundingClientRect())")
            self.page.click(x, y)
            self.assertGreater(with_them, 100)
            self.assertEqual(self.inks("#7a9e3a"), 0)

    def test_a_contractors_town(self):
        owners = self.file("o.csv", "id,owner\n" + "".join("%d,%d\n" % (one.id, k % 2) for k, one in enumerate(self.chambers.points)))
        self.town("--contractor", 1, "--owners", owners)
        other = self.chambers.points[0]
        self.assertIn("60 of the other contractor", self.page.text("about"))
        self.assertGreater(self.inks("#9a9a9a"), 300)
        spot = self.page.run("[sx(%d), sy(%d)]" % (other.x, other.y))
        self.page.click(*spot)
        self.assertRegex(self.page.text("panel"), r"^a chamber of the other contractor\s+at \(.*\)\s+its visits are the other contractor's")
        self.page.run("byId('search').focus()")
        self.page.type(str(other.id))
        self.assertEqual(self.page.text("found"), "no record has this id")


class Province(Used):
    def test_a_zoom_step_of_two_sheets_of_60000(self):
        """A lattice of 60,000 and 60,000 records that are shaken a little, and 125,000 lines between neighbours: a step of the wheel until it is drawn."""
        lots, side = chance.Chance(5), 245
        sets = [[records.Point(k + 1, 8_000_000 * (k % side) + lots.randint(-3_000_000, 3_000_000), 8_000_000 * (k // side) + lots.randint(-3_000_000, 3_000_000)) for k in range(60_000)]
                for _ in range(2)]
        sheets = [types.SimpleNamespace(points=one, edition=7) for one in sets]
        pairs = [(k + 1, k + 1 + step, 1) for k in range(60_000) for step in ((0, 1) if k % 12 else (0, 1, side)) if k + step < 60_000]
        self.show(planner.page(None, *sheets, pairs, {}))
        self.assertIn("60,000 pump houses, 60,000 chambers", self.page.text("about"))
        self.assertGreater(self.inks("#b3401e"), 5000)
        ways = set()
        for _ in range(26):
            # of the processor, and the better of two: other work may be under way here
            first, _, second = (self.page.step(500, 380, turn)[1] for turn in (1, -1, 1))
            ways.add(self.page.run("stats.way"))
            self.assertLess(min(first, second), 100)
        self.assertEqual(ways, {"dots", "lines"})
        self.page.run("byId('search').focus()")
        self.page.type("30000")
        self.page.press("Enter")
        self.assertTrue(self.page.text("panel").startswith("chamber 30000"))


if __name__ == "__main__":
    unittest.main()
