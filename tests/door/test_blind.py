"""What a contractor is handed: two towns that differ in the ids of the other's chambers alone give the same bytes, in every output of every command that takes
`--contractor`."""
import os
import sqlite3
import sys
import unittest

from base import read
from test_command import Commands, commands, packed

import chance
import reading
from ring import command

# its pairs are those of `list`, which tests/door/test_cluster.py holds it to
ELSEWHERE = {("cluster", "list")}


class Blind(Commands):
    """The contractor is 0. Spots are shared: by its own and the other's chambers, by two of the other's, by a pump house and one of the other's. Sheets are packed in
    the order of positions, so that the packing goes by all ids."""

    def setUp(self):
        super().setUp()
        lots = chance.Chance(11)
        self.pumps_at = [(k + 1, lots.randint(-40, 40), lots.randint(-40, 40)) for k in range(24)]
        self.spots = [(lots.randint(-40, 40), lots.randint(-40, 40)) for _ in range(80)]
        for k in range(1, 40, 4):
            self.spots[k] = self.spots[k - 1]
            self.spots[k + 2] = self.spots[k]
            self.spots[k + 40] = self.pumps_at[k % 24][1:]
        self.towns = [self.town(turn) for turn in range(3)]

    def town(self, turn):
        """The files of a town, in a folder of its own. Own chambers are the even ones."""
        ids = {k: 1000 + 10 * k if k % 2 == 0 else (1000 + 10 * k + 3, 90000 - 7 * k, 1 + (37 * k) % 83)[turn] for k in range(80)}
        folder = self.path("town%d" % turn)
        os.mkdir(folder)
        chambers = sorted((ids[k], *spot) for k, spot in enumerate(self.spots))

        def put(name, data):
            with open(os.path.join(folder, name), "wb") as f:
                f.write(data if isinstance(data, bytes) else data.encode())
        for name, points, edition in (("p.sheet", self.pumps_at, 7), ("q.sheet", chambers, 9)):
            put(name, packed(reading.pack(points, list(range(len(points))), edition, 1)))
        put("p.csv", "id,x,y\n" + "".join("%d,%d,%d\n" % one for one in self.pumps_at))
        put("q.csv", "id,x,y\n" + "".join("%d,%d,%d\n" % one for one in chambers))
        put("owners.csv", "id,owner\n" + "".join("%d,%d\n" % (ids[k], k % 2) for k in range(80)))
        put("p-scores.csv", "id,score\n" + "".join("%d,%d\n" % (one[0], one[0] * 31 % 17) for one in self.pumps_at))
        # the other's scores are not its own either
        put("q-scores.csv", "id,score\n" + "".join("%d,%d\n" % (ids[k], k * 29 % 13 if k % 2 == 0 else 5 + turn * k) for k in range(80)))
        return folder

    def handed(self, *words, out=None, tail=()):
        """What a command gives of each town, printed and in a file."""
        said, before = [], os.getcwd()
        for folder in self.towns:
            os.chdir(folder)
            try:
                printed = self.served(*words, "--contractor", 0, "--owners", "owners.csv", *tail)
                said.append((printed, read(out) if out else b""))
            finally:
                os.chdir(before)
        self.assertTrue(said[0][0] or said[0][1], words)
        for one in said[1:]:
            self.assertEqual(one, said[0], words)
        return said[0]

    def test_the_towns_are_others(self):
        self.assertEqual(len({read(os.path.join(folder, "q.sheet")) for folder in self.towns}), 3)
        lists = {self.served("list", os.path.join(folder, "p.sheet"), os.path.join(folder, "q.sheet")) for folder in self.towns}
        self.assertEqual(len(lists), 3)

    def test_every_command_that_takes_a_contractor_is_tried(self):
        taking = {path for path, one in commands(command.parser()) if any("--contractor" in action.option_strings for action in one._actions)}
        tried = {("list",), ("busiest",), ("urgent",), ("draw",), ("map",), ("book",), ("book", "follow"), ("book", "send")}
        self.assertEqual(taking, tried | ELSEWHERE)

    def test_lists(self):
        for sheets in (("p.sheet", "q.sheet"), ("p.csv", "q.csv")):
            for more in ((), ("--grid",), ("--threshold", 2), ("--largest", 200)):
                for form in ((), ("--json",), ("--geojson",)):
                    self.handed("list", *sheets, *more, *form)
        self.handed("list", "p.sheet", "q.sheet", "--out", "l.txt", out="l.txt")

    def test_first_of_a_list(self):
        for more in ((), ("--grid",), ("--largest", 200)):
            for form in ((), ("--json",)):
                self.handed("busiest", "p.sheet", "q.sheet", *more, *form)
            for form in ((), ("--json",), ("--geojson",)):
                self.handed("urgent", "p.sheet", "q.sheet", "--p-scores", "p-scores.csv", "--q-scores", "q-scores.csv", *more, *form)

    def test_pictures_and_pages(self):
        for name in ("draw", "map"):
            for more in ((), ("--grid",), ("--threshold", 2)):
                self.handed(name, "p.sheet", "q.sheet", *more)
            self.handed("list", "p.sheet", "q.sheet", "--out", "l.txt", out="l.txt")
            self.handed(name, "p.sheet", "q.sheet", "l.txt", "--out", "drawn", out="drawn")
        for more in ((), ("--grid",)):
            self.handed("map", "p.sheet", "q.sheet", "--near", 16, *more)

    def test_books(self):
        for more in ((), ("--grid",), ("--threshold", 2)):
            name = "town%d.book" % len(more)
            self.handed("book", name, "p.sheet", "q.sheet", *more, out=name)
            self.handed("book", "json" + name, "p.sheet", "q.sheet", *more, "--json", out="json" + name)

    def test_stores(self):
        self.handed("book", "follow", "p.sheet", "q.sheet", "--store", "town.store")
        self.handed("book", "follow", "p.sheet", "q.sheet", "--store", "town.store", "--json")
        keeps = self.file("keeps.py", "import json, sys\nwith open('received', 'a') as f:\n    for line in sys.stdin:\n        f.write(line)\n        print(json.loads(line)['number'], flush=True)\n")
        held, before = [], os.getcwd()
        for folder in self.towns:
            os.chdir(folder)
            try:
                self.served("book", "send", "--store", "town.store", "--contractor", 0, "--", sys.executable, keeps)
                with sqlite3.connect("town.store") as db:
                    held.append((list(db.iterdump()), read("received")))
            finally:
                os.chdir(before)
        for one in held[1:]:
            self.assertEqual(one, held[0])


if __name__ == "__main__":
    unittest.main()
