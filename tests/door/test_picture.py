"""`./ring draw`: the stored picture of the town, and each thing that a picture has to show."""
import os
import re
import unittest
import xml.etree.ElementTree as xml

from base import TOWN, read
from test_command import TOWN_SHEETS, Commands, stored

from ring import picture

SVG = "{http://www.w3.org/2000/svg}"


def titles(root):
    return [one.text for one in root.iter(SVG + "title")]


class Picture(Commands):
    def draw(self, *words, given=b""):
        return self.served("draw", *words, given=given)

    def drawn(self, *words):
        return xml.fromstring(self.draw(*words))

    def test_the_town(self):
        listing = os.path.join(TOWN, "listing.txt")
        self.assertEqual(self.draw(*TOWN_SHEETS, listing), stored("town.svg").decode())
        self.assertEqual(self.draw(*TOWN_SHEETS, "-", given=read(listing)), stored("town.svg").decode())
        self.assertEqual(self.draw(*TOWN_SHEETS), stored("town.svg").decode())
        out = self.path("t.svg")
        self.assertEqual(self.draw(*TOWN_SHEETS, listing, "--out", out), "")
        self.assertEqual(read(out), stored("town.svg"))

    def test_what_is_no_listing(self):
        for text, told in [
            ("refused q 4\n", "the listing says 'refused q 4'"), ("", "the listing has no last line 'end N'"), ("end 1\n", "line 1: the listing ends with 1 pairs and shows 0"),
            ("1 2 3 4\nend 0\n", "line 1 is no line of a listing: 1 2 3 4"), ("1 2 3 4 x\nend 1\n", "line 1 is no line of a listing: 1 2 3 4 x"),
            ("end 0\nend 0\n", "line 2 is no line of a listing: end 0"), ("1 2 3 4 5\nend 1\n", "line 1: the listing pairs 1 with 2, and the sheets do not have both"),
        ]:
            path = self.file("listing.txt", text)
            self.refused("%s: %s\n" % (path, told), "draw", *TOWN_SHEETS, path)
        self.refused("is no sheet: 3 bytes", "draw", self.file("p.sheet", b"abc"), TOWN_SHEETS[1], os.path.join(TOWN, "listing.txt"))

    def test_a_listing_that_is_not_of_these_sheets(self):
        line = stored("listing.txt").decode().split("\n")[0]
        fields = line.split()
        for at in (2, 3, 4):
            other = [str(int(field) + (k == at)) for k, field in enumerate(fields)]
            path = self.file("l.txt", " ".join(other) + "\nend 1\n")
            self.refused("line 1 is not of these sheets: %s, where %s and %s are %s\n" % (" ".join(other), *fields[:2], " ".join(fields[2:])), "draw", *TOWN_SHEETS, path)
        # an edition later one chamber was moved
        moved = self.made(stored("chambers.csv").decode().replace("1004,736,-1756", "1004,737,-1756"), edition=10)
        self.refused("line 1 is not of these sheets", "draw", TOWN_SHEETS[0], moved, os.path.join(TOWN, "listing.txt"))
        streets = self.file("g.txt", self.served("list", *TOWN_SHEETS, "--grid"))
        self.refused("it is of the street grid, say --grid", "draw", *TOWN_SHEETS, streets)
        self.refused("it is of the circle", "draw", *TOWN_SHEETS, os.path.join(TOWN, "listing.txt"), "--grid")
        self.draw(*TOWN_SHEETS, streets, "--grid")

    def test_a_listing_that_is_not_the_list(self):
        """Pairs that are none, that stand twice, that are missing: told, by `draw` and by `map`."""
        lines = stored("listing.txt").decode().split("\n")[:-2]
        pairs = {tuple(map(int, line.split()[:2])) for line in lines}
        q, p = next((q, p) for q in self.chambers.points for p in self.pumps.points if (q.id, p.id) not in pairs)
        invented = "%d %d %d %d %d" % (q.id, p.id, q.x + p.x, q.y + p.y, (q.x - p.x) ** 2 + (q.y - p.y) ** 2)
        missing = "chamber %s with pump house %s" % tuple(lines[7].split()[:2])
        for rows, told in ((lines + [invented], ["1 are no pairs of this list, the first chamber %d with pump house %d" % (q.id, p.id)]), (lines + lines[:3], ["3 stand twice"]),
                           (lines[:7] + lines[8:], ["1 are missing, the first " + missing]), ([invented] + lines[9:] + lines[-1:], ["1 are no pairs", "1 stand twice", "9 are missing"])):
            path = self.file("l.txt", "".join(row + "\n" for row in rows) + "end %d\n" % len(rows))
            for one in told:
                for name in ("draw", "map"):
                    self.refused(one, name, *TOWN_SHEETS, path)
        # a list of other terms is the one of these terms alone; a part is one where that is said
        near = self.file("n.txt", self.served("list", *TOWN_SHEETS, "--largest", 200_000))
        self.refused("are missing", "draw", *TOWN_SHEETS, near)
        self.draw(*TOWN_SHEETS, near, "--largest", 200_000)
        self.refused("are no pairs of this list", "draw", *TOWN_SHEETS, near, "--largest", 10_000)
        short = self.file("s.txt", self.served("shortest", *TOWN_SHEETS))
        self.refused("88 are missing", "draw", *TOWN_SHEETS, short)
        self.draw(*TOWN_SHEETS, short, "--part")
        self.refused("are no pairs", "draw", *TOWN_SHEETS, self.file("i.txt", invented + "\nend 1\n"), "--part")

    def test_chambers_without_a_visit_are_marked_and_counted(self):
        visited = {line.split()[0] for line in stored("listing.txt").decode().split("\n")[:-2]}
        bare = [one.id for one in self.chambers.points if str(one.id) not in visited]
        self.assertTrue(bare)
        text, root = self.draw(*TOWN_SHEETS), self.drawn(*TOWN_SHEETS)
        self.assertIn(">%d without a visit<" % len(bare), text)
        self.assertIn("%d chambers without a visit" % len(bare), titles(root)[0])
        marked = [group for group in root.iter(SVG + "g") if group.get("stroke") == picture.INK["bare"]]
        self.assertEqual((len(marked), marked[0].get("fill")), (1, "none"))
        self.assertEqual(sorted(int(one.text.split()[1]) for one in marked[0].iter(SVG + "title")), bare)

    def test_hover_titles(self):
        said = titles(self.drawn(*TOWN_SHEETS))
        for one in self.pumps.points:
            self.assertEqual(len([text for text in said if text.startswith("pump house %d at (%d, %d), " % one)]), 1)
        for one in self.chambers.points:
            self.assertEqual(len([text for text in said if text.startswith("chamber %d at (%d, %d), " % one)]), 1)
        self.assertTrue([text for text in said if text.startswith("chamber 1004 at") and ", 2 visits" in text])
        self.assertIn("chamber 1004 with pump house 106", said)

    def test_ids_do_not_collide(self):
        crowd = "".join("%d,%d,%d\n" % (1_999_999_000 + k, k * 7 % 40, k * 11 % 37) for k in range(150))
        q = self.made(crowd)
        for sheets in (TOWN_SHEETS, (TOWN_SHEETS[0], q)):
            root = self.drawn(*sheets)
            boxes = []
            for group in root.iter(SVG + "g"):
                if group.get("fill") in (picture.INK["p"], picture.INK["q"]) and group.get("font-size"):
                    size = float(group.get("font-size"))
                    for one in group.iter(SVG + "text"):
                        x, y, wide = float(one.get("x")), float(one.get("y")), 0.6 * size * len(one.text)
                        boxes.append((x, y - 0.8 * size, x + wide, y + 0.1 * size))
            self.assertTrue(boxes)
            for k, a in enumerate(boxes):
                self.assertTrue(0 <= a[0] + 0.1 and a[2] <= picture.SIZE + 0.1)
                for b in boxes[k + 1:]:
                    self.assertFalse(a[0] + 0.2 < b[2] and b[0] + 0.2 < a[2] and a[1] + 0.2 < b[3] and b[1] + 0.2 < a[3], (a, b))
        self.assertGreater(len(boxes), 20)

    def test_scale_bar_editions_and_file_names(self):
        text = self.draw(*TOWN_SHEETS)
        self.assertIn("P: pumps.sheet, edition 7; Q: chambers.sheet, edition 9<", text)
        bar = float(re.search(r'<path d="M \d+ \d+ v 6 h ([0-9.]+) v -6"', text).group(1))
        said = int(re.search(r'v -6"[^>]*/><text [^>]*>([0-9,]+)<', text).group(1).replace(",", ""))
        # two records a known way apart tell the picture's scale
        spots = {int(one.find(SVG + "title").text.split()[2]): float(one.get("x")) for one in xml.fromstring(text).iter(SVG + "rect") if one.find(SVG + "title") is not None}
        a, b = self.pumps.points[0], self.pumps.points[7]
        self.assertAlmostEqual(bar / said, abs(spots[a.id] - spots[b.id]) / abs(a.x - b.x), delta=0.002)
        self.assertRegex(str(said), "^[125]0*$")
        odd = self.file("a<b&c.sheet", read(TOWN_SHEETS[0]))
        self.assertIn("P: a&lt;b&amp;c.sheet, edition 7", self.draw(odd, TOWN_SHEETS[1]))

    def test_two_records_on_one_spot_are_two(self):
        p, q = self.made("1,0,0\n2,100,0\n", name="p"), self.made("5,50,40\n6,50,40\n7,0,0\n", name="q")
        root = self.drawn(p, q)
        at = {}
        for one in list(root.iter(SVG + "circle")) + list(root.iter(SVG + "rect")):
            title = one.find(SVG + "title")
            if title is not None:
                words = title.text.split(" at ")[0]
                at[words] = (one.get("cx") or str(float(one.get("x")) + float(one.get("width")) / 2), one.get("cy") or one.get("y"))
        self.assertEqual(len(at), 5)
        self.assertNotEqual(at["chamber 5"], at["chamber 6"])
        self.assertGreater(abs(float(at["chamber 7"][0]) - float(at["pump house 1"][0])), 5)
        said = [text for text in titles(root) if text.startswith("chamber 5 at")]
        self.assertIn("another record on the same spot", said[0])

    def test_circles_or_diamonds(self):
        circle, streets = self.draw(*TOWN_SHEETS), self.draw(*TOWN_SHEETS, "--grid")
        self.assertNotIn("<polygon", circle)
        pairs = int(self.served("list", *TOWN_SHEETS, "--grid").split()[-1])
        self.assertEqual(streets.count("<polygon"), pairs)
        self.assertIn("each in its circle", circle)
        self.assertIn("each in its diamond", streets)
        # the diamond of a pair touches both of its ends
        p, q = self.made("1,0,0\n", name="p"), self.made("5,30,10\n", name="q")
        one = self.drawn(p, q, "--grid")
        corners = [tuple(map(float, corner.split(","))) for corner in next(one.iter(SVG + "polygon")).get("points").split()]
        middle = sum(x for x, _ in corners) / 4, sum(y for _, y in corners) / 4
        line = next(one.iter(SVG + "line"))
        for x, y in ((line.get("x1"), line.get("y1")), (line.get("x2"), line.get("y2"))):
            self.assertAlmostEqual(abs(float(x) - middle[0]) + abs(float(y) - middle[1]), corners[2][0] - middle[0], delta=0.3)

    def test_a_contractors_picture_has_no_id_of_the_others(self):
        # ids that are no coordinates of a picture
        points = [(1_900_000_000 + one.id, one.x, one.y) for one in self.chambers.points]
        sheets = TOWN_SHEETS[0], self.made("".join("%d,%d,%d\n" % point for point in points), edition=9)
        owners = {point[0]: k % 2 for k, point in enumerate(points)}
        path = self.file("o.csv", "id,owner\n" + "".join("%d,%d\n" % one for one in owners.items()))
        words = ("--contractor", "1", "--owners", path)
        text = self.draw(*sheets, *words)
        for id, owner in owners.items():
            self.assertEqual(str(id) in text, owner == 1, id)
        grey = [group for group in xml.fromstring(text).iter(SVG + "g") if group.get("fill") == picture.INK["other"]]
        self.assertEqual(len(list(grey[0].iter(SVG + "circle"))), 60)
        listing = self.file("l.txt", self.served("list", *sheets, *words))
        self.assertEqual(self.draw(*sheets, listing, *words), text)
        whole = self.file("w.txt", self.served("list", *sheets))
        self.refused("it has chambers of the other contractor", "draw", *sheets, whole, *words)


if __name__ == "__main__":
    unittest.main()
