"""The command `./ring`: sheets from CSV and back, lists, single questions, books, the depot; its guards, its exit status, its help."""
import contextlib
import io
import json
import os
import re
import resource
import shlex
import struct
import subprocess
import sys
import time
import unittest
from unittest import mock

from base import TOP, TOWN, WithRing, ran, read, surroundings, within

import make_listing_cases
import reading
import ring
from ring import command, door, progress, refusals

MADE = {"pumps": 7, "chambers": 9}


def unpacked(data):
    return list(struct.unpack("<%di" % (len(data) // 4), data))


def packed(words):
    return struct.pack("<%di" % len(words), *words)


def stored(name):
    return read(os.path.join(TOWN, name))


class Given(io.TextIOWrapper):
    def __init__(self, data):
        super().__init__(io.BytesIO(data))


class Commands(WithRing):
    def call(self, *words, given=b""):
        """The exit status, what is printed, and what is said."""
        out, said, before = io.StringIO(), io.StringIO(), sys.stdin
        sys.stdin = Given(given)
        try:
            with contextlib.redirect_stdout(out), contextlib.redirect_stderr(said):
                status = door.status_of("ring", lambda words: command.main(words, self.ring), [str(word) for word in words])
        finally:
            sys.stdin = before
        # how far it is, is said where a machine is slow, and is no part of what is tried, but where it is said at once
        words_said = said.getvalue().splitlines(True)
        return status, out.getvalue(), "".join(line for line in words_said if not progress.FIRST or not line.endswith("seconds so far\n"))

    def served(self, *words, given=b""):
        status, printed, said = self.call(*words, given=given)
        self.assertEqual((status, said), (0, ""), words)
        return printed

    def json(self, *words):
        return json.loads(self.served(*words, "--json"))

    def refused(self, told, *words, given=b""):
        status, printed, said = self.call(*words, given=given)
        self.assertEqual((status, printed), (1, ""), words)
        self.assertIn(told, said)

    def make(self, text, *words, name="a", edition=5):
        source, out = self.file(name + ".csv", text), self.path(name + ".sheet")
        return self.call("sheet", "make", source, "--edition", edition, "--out", out, *words) + (out,)

    def made(self, text, *words, name="a", edition=5):
        status, printed, said, out = self.make(text, *words, name=name, edition=edition)
        self.assertEqual((status, said), (0, ""))
        return out

    def points(self, text, *words):
        return [tuple(point) for point in self.ring.read(self.made(text, *words)).points]


TOWN_SHEETS = [os.path.join(TOWN, name) for name in ("pumps.sheet", "chambers.sheet")]


# ---------------------------------------------------------------- sheets

class FromCsv(Commands):
    def there_and_back(self, text, *words, edition=5, form=1):
        status, told, said, out = self.make(text, *words, edition=edition)
        self.assertEqual((status, said), (0, ""))
        self.assertIn("edition %d, form %d" % (edition, form), told)
        self.assertEqual(unpacked(read(out))[-1], form)
        self.assertIn("edition %d, form %d" % (edition, form), self.served("sheet", "why", out))
        os.rename(out, out + ".old")
        return self.served("sheet", "csv", out + ".old")

    def test_same_rows_come_back(self):
        for name in MADE:
            text = stored(name + ".csv").decode()
            self.assertEqual(self.there_and_back(text), text)

    def test_unsorted_rows_come_back_by_id(self):
        text = stored("chambers.csv").decode()
        head, *rows = text.split("\n")[:-1]
        mixed = [rows[47 * k % len(rows)] for k in range(len(rows))]
        self.assertNotEqual(mixed, rows)
        self.assertEqual(self.there_and_back("\n".join([head] + mixed) + "\n"), text)

    def test_header_and_line_ends_are_free(self):
        want = "id,x,y\n1,-1000000,1000000\n2000000000,0,-7\n"
        for text in ("1,-1000000,1000000\n2000000000,0,-7", "id,x,y\r\n2000000000,0,-7\r\n1,-1000000,1000000\r\n", "ID, X, Y\n\n 1 , -1000000,+1000000\n2000000000,0,-7\n",
                     "\ufeffid,x,y\n1,-1000000,1000000\n2000000000,0,-7\n"):
            self.assertEqual(self.there_and_back(text), want)

    def test_no_rows_and_a_thousand(self):
        self.assertEqual(self.there_and_back("id,x,y\n", "--empty"), "id,x,y\n")
        text = "id,x,y\n" + "".join("%d,%d,%d\n" % (3 * k + 1, k % 31 - 15, k * k % 1999) for k in range(1000))
        self.assertEqual(self.there_and_back(text, edition=1_000_000_000), text)

    def test_form_2_where_the_points_need_it_and_said(self):
        text = "id,x,y\n" + "".join("%d,%d,%d\n" % (3 * k + 1, k % 31 - 15, k * k % 1999) for k in range(1001))
        self.assertEqual(self.there_and_back(text, form=2), text)
        for row in ("1,1000001,0", "1,0,-1000001", "1,-1000000000,1000000000"):
            self.assertEqual(self.there_and_back("id,x,y\n%s\n2,5,5\n" % row, form=2), "id,x,y\n%s\n2,5,5\n" % row)
        self.assertIn("form 2 (over 1,000 points)", self.make(text, name="b")[1])
        self.assertIn("form 2 (a coordinate past 1,000,000)", self.make("1,1000001,0\n", name="c")[1])

    def test_order_has_each_position_once_along_the_curve(self):
        rows = ring.read_points(stored("chambers.csv"))
        self.assertEqual(sorted(ring.sheets.along_curve(rows)), list(range(len(rows))))
        self.assertEqual(ring.sheets.along_curve([]), [])
        # on a full square each stands beside the one before it, wherever the square is and however far apart its points are
        for side, step, left, low in ((1, 1, 5, 5), (16, 1, 0, 0), (64, 1, -7, 1_000_000), (16, 1 << 26, -1_000_000_000, 3)):
            square = [(k + 1, left + step * (k // side), low + step * (k % side)) for k in range(side * side)]
            order = ring.sheets.along_curve(square)
            self.assertEqual(sorted(order), list(range(side * side)))
            self.assertTrue(all(abs(square[a][1] - square[b][1]) + abs(square[a][2] - square[b][2]) == step for a, b in zip(order, order[1:])), (side, step))

    def test_town_made_anew(self):
        for name, edition in MADE.items():
            self.assertEqual(read(self.made(stored(name + ".csv"), name=name, edition=edition)), stored(name + ".sheet"))


UTILITY = ('"ASSET_ID";"NAME";"EASTING";"NORTHING"\n101;"Upper works; the ""old"" one";432156.78;5412300.5\n102;"two\nlines";432200;5412311.25\n')


class Csv(Commands):
    def test_quotes_semicolons_columns_by_name_decimals_and_far_origins(self):
        words = ("--id", "ASSET_ID", "--x", "EASTING", "--y", "northing", "--scale", "100", "--offset", "432000,5412000")
        want = [(101, 15678, 30050), (102, 20000, 31125)]
        self.assertEqual(self.points(UTILITY, *words), want)
        self.assertEqual(self.points(UTILITY.replace(";", "\t").replace("works\t", "works;"), *words), want)
        self.assertEqual(self.points(UTILITY.replace(";", ",").replace("works,", "works;"), *words), want)
        self.assertEqual(self.points(UTILITY, *words, "--delimiter", "semicolon"), want)
        back = self.served("sheet", "csv", self.path("a.sheet"), "--scale", "100", "--offset", "432000,5412000")
        self.assertEqual(back, "id,x,y\n101,432156.78,5412300.5\n102,432200,5412311.25\n")

    def test_columns_id_x_y_are_found_among_others(self):
        self.assertEqual(self.points("note,Y,ID,X\na,3,1,2\n"), [(1, 2, 3)])

    def test_exact_and_no_rounding_unless_asked(self):
        # 0.1 + 0.2 of floats would be no whole number of tenths, and 4.35 * 100 is 434 in them
        self.assertEqual(self.points("1,0.3,4.35\n", "--scale", "100"), [(1, 30, 435)])
        self.assertEqual(self.points("1,1e3,.5\n", "--scale", "2", "--replace"), [(1, 2000, 1)])
        self.assertEqual(self.points("1,1.005,-1.005\n", "--scale", "100", "--round", "--replace"), [(1, 101, -100)])
        self.assertEqual(self.points("1,1.004,0\n", "--scale", "100", "--round", "--replace"), [(1, 100, 0)])
        self.assertEqual(self.points("1,-999999.5,0\n", "--scale", "2", "--offset=-1000000,0", "--replace"), [(1, 1, 0)])

    def test_decimal_comma(self):
        self.assertEqual(self.points("id;x;y\n1;1,5;-2,25\n", "--decimal-comma", "--scale", "100"), [(1, 150, -225)])

    def test_encodings(self):
        text = "id,name,x,y\n1,Förderwerk,2,3\n"
        for data, words in ((text.encode(), ()), (text.encode("latin-1"), ("--encoding", "latin-1")), (text.encode("utf-16"), ()), (text.encode("utf-8-sig"), ()),
                            (text.encode("cp1252"), ("--encoding", "cp1252"))):
            self.assertEqual(self.points(data, *words), [(1, 2, 3)])

    def test_standard_input(self):
        self.served("sheet", "make", "-", "--edition", 5, "--out", self.path("i.sheet"), given=b"1,2,3\n")
        self.assertEqual(self.served("sheet", "csv", self.path("i.sheet")), "id,x,y\n1,2,3\n")

    def test_faults_are_told_with_their_line(self):
        long = "".join("%d,0,0\n" % k for k in range(1, 60_002))
        for text, words, told in [
            ("id,x,y\n1,2,3\n4,5,6\n1,7,8\n", (), "line 4: the id 1 stands in line 2 already"),
            ("1,2,3\n0,5,6\n", (), "line 2: the id 0 is not from 1 to 2000000000"),
            ("1,2,3\n2000000001,5,6\n", (), "line 2: the id 2000000001 is not from 1 to 2000000000"),
            ("1,1000000001,3\n", (), "line 1: the x 1000000001 is not from -1000000000 to 1000000000"),
            ("id,x,y\n\n1,3,-1000000001\n", (), "line 3: the y -1000000001 is not from -1000000000 to 1000000000"),
            ("id,x,y\n1,two,3\n", (), "line 2: the x 'two' is no number"),
            ("1,2.5,3\n", (), "line 1: the x '2.5' is no whole number: say a --scale, or --round"),
            ("1,2.55,3\n", ("--scale", "10"), "line 1: the x '2.55' is no whole number times 10: say a --scale, or --round"),
            ("1,20000000,3\n", ("--scale", "100"), "line 1: the x '20000000', which is 2000000000, is not from -1000000000 to 1000000000"),
            ("1,1_000,3\n", (), "line 1: the x '1_000' is no number"),
            ("id;x;y\n1;1,5;3\n", (), "line 2: the x '1,5' is no number: is the comma the decimal sign? (--decimal-comma)"),
            ("id;x;y\n1;1,5;2\n2;1.250;3\n", ("--decimal-comma", "--scale", "1000"), "line 3: the x '1.250' has a point where the comma is the decimal sign"),
            ("id;x;y\n1;2;1.250,5\n", ("--decimal-comma", "--scale", "1000"), "line 2: the y '1.250,5' has a point where the comma is the decimal sign"),
            ("1,2,\n", (), "line 1: the y '' is no number"),
            ("1,nan,2\n", (), "line 1: the x 'nan' is no number"),
            ("1,1e99,2\n", (), "line 1: the x 1" + 99 * "0" + " is not from"),
            ("1.0,2,2\n", (), "line 1: the id '1.0' is no whole number"),
            ("1,2,3\nid,x,y\n", (), "line 2: the id 'id' is no whole number"),
            ("1,2,3\n4,5\n", (), "line 2: 2 fields where id,x,y are 3"),
            ("1,2,3,4\n", (), "line 1: 4 fields where id,x,y are 3"),
            ("ID,EAST,NORTH,NOTE\n1,2,3,a\n", (), "line 1: 4 fields where id,x,y are 3, and no header that names them"),
            ("id,x,y,note\n1,2,3\n", (), "line 2: 3 fields where the header has 4"),
            ("ID,E,N\n1,2,3\n", ("--x", "EAST"), "line 1: no column is called 'EAST'; the columns are 'ID', 'E', 'N'"),
            ("id,x,X,y\n1,2,3,4\n", ("--x", "xx"), "line 1: no column is called 'xx'"),
            ("id,a,A,y\n1,2,3,4\n", ("--x", "á"), "line 1: no column is called 'á'"),
            ("id,Xa,xA,y\n1,2,3,4\n", ("--x", "xa"), "line 1: more than one column is called 'xa'"),
            ('id,x,y,note\n1,2,3,"a\nb"\n2,2,q,"c"\n', (), "line 4: the y 'q' is no number"),
            ('id,x,y,note\n1,2,3,"a\nb\n', (), "line 2: unexpected end of data"),
            ("id,x,y\n1,2,3\n2,\u00e4,3\n".encode("latin-1"), (), "line 3: a byte that is no utf-8: say the encoding"),
            ("1,2,3\n", ("--encoding", "klingon"), "no encoding is called 'klingon'"),
            ("1,2,3\n", ("--encoding", "undefined"), "it cannot be read by the encoding 'undefined'"),
            ("1,2,3\n", ("--encoding", "rot13"), "no encoding is called 'rot13'"),
            (long, (), "line 60001: over 60000 rows"),
            ("id,x,y\n" + long, (), "line 60002: over 60000 rows"),
        ]:
            status, printed, said, out = self.make(text, *words)
            self.assertEqual((status, printed), (1, ""), told)
            self.assertTrue(said.startswith("ring: %s: %s" % (self.path("a.csv"), told)), said)
            self.assertFalse(os.path.exists(out))

    def test_editions_are_told(self):
        for edition in ("0", "-4", "1000000001"):
            status, _, said, out = self.make("1,2,3\n", edition=edition)
            self.assertEqual((status, said), (1, "ring: the edition %s is not from 1 to 1000000000\n" % edition))
            self.assertFalse(os.path.exists(out))


class Guards(Commands):
    def test_other_points_under_one_edition_are_refused(self):
        out = self.made("1,2,3\n")
        before = read(out)
        status, printed, said, _ = self.make("1,2,4\n")
        self.assertEqual((status, printed), (1, ""))
        self.assertIn("has other points under the same edition, 5: nothing in a page tells two lists under one number apart", said)
        self.assertEqual(read(out), before)
        self.made("1,2,3\n")
        self.made("1,2,4\n", edition=6)
        self.made("1,2,5\n", "--replace", edition=6)
        self.assertEqual(self.served("sheet", "csv", out), "id,x,y\n1,2,5\n")

    def test_what_is_no_sheet_is_not_written_over(self):
        path = self.file("a.sheet", "the year's accounts")
        status, _, said, _ = self.make("1,2,3\n")
        self.assertEqual(status, 1)
        self.assertIn("a.sheet is there, and is no sheet", said)
        self.assertEqual(read(path), b"the year's accounts")
        self.made("1,2,3\n", "--replace")

    def test_an_empty_csv_is_refused(self):
        for text in ("", "\n\n", "id,x,y\n", "ASSET,x,y\n"):
            status, _, said, out = self.make(text, *(("--id", "ASSET") if "ASSET" in text else ()))
            self.assertEqual(status, 1)
            self.assertIn("no rows: a sheet of no assets is made only where --empty is said", said)
            self.assertFalse(os.path.exists(out))
        self.made("id,x,y\n", "--empty")

    def test_output_that_fails_leaves_nothing(self):
        source = self.file("a.csv", "1,2,3\n")
        for out in (self.path("none/a.sheet"), "/dev/full", self.folder):
            status, printed, said = self.call("sheet", "make", source, "--edition", 5, "--out", out)
            self.assertEqual((status, printed), (3, ""), out)
            self.assertIn(out, said)
        # a disk that fills up: what stood there stays, and nothing is left beside it
        rows = "".join("%d,%d,%d\n" % (k, k, k) for k in range(1, 900))
        out, big = self.made("1,2,3\n"), self.file("big.csv", rows)
        before = read(out)
        there = sorted(os.listdir(self.folder))
        limit = lambda: resource.setrlimit(resource.RLIMIT_FSIZE, (4096, 4096))
        done = subprocess.run([os.path.join(TOP, "ring"), "sheet", "make", big, "--edition", "6", "--out", out], stdin=subprocess.DEVNULL, stdout=subprocess.PIPE, stderr=subprocess.PIPE,
                              env=surroundings(), preexec_fn=limit)
        self.assertEqual((done.returncode, done.stdout), (3, b""))
        self.assertIn(b"a.sheet: File too large", done.stderr)
        self.assertEqual((read(out), sorted(os.listdir(self.folder))), (before, there))


def damaged():
    """Sheets that do not open, by the number that they are refused by."""
    words = unpacked(stored("pumps.sheet"))
    n, m = words[-4], words[-3]

    def with_word(at, word):
        other = list(words)
        other[at] = word
        return other

    return [
        (1, words[-5:]), (1, []), (2, with_word(-1, 3)), (2, with_word(-1, 0)), (3, with_word(-2, 0)), (3, with_word(-4, 1001)), (4, with_word(-6, words[-6] + 1)), (4, [0] + words),
        (4, with_word(-5, 0)), (5, with_word(1, 1_000_001)), (5, with_word(3, words[0])), (6, with_word(3 * n, words[3 * n + 1])), (6, with_word(4 * n, n)),
        (7, with_word(5 * n, 1)), (7, with_word(5 * n + 2, 17)), (8, with_word(5 * n + 3, words[5 * n + 3] - 1)), (8, with_word(5 * n + 7 * m - 1, 1_000_000)),
    ]


class Why(Commands):
    def test_it_opens(self):
        for name, edition in MADE.items():
            path = os.path.join(TOWN, name + ".sheet")
            self.assertTrue(self.served("sheet", "why", path).endswith("points, %d nodes, edition %d, form 1\n" % (unpacked(stored(name + ".sheet"))[-3], edition)))
            self.assertEqual(self.json("sheet", "why", path)["opens"], True)

    def test_each_number_in_words(self):
        self.assertEqual({number for number, _ in damaged()}, set(range(1, 9)))
        for number, words in damaged():
            path = self.file("bad.sheet", packed(words))
            told = "%s is refused by %d: %s\n" % (path, number, refusals.reason(number))
            self.assertEqual(self.call("sheet", "why", path), (1, told, ""))
            status, printed, _ = self.call("sheet", "why", path, "--json")
            self.assertEqual((status, json.loads(printed)["number"]), (1, number))
            self.refused("%s: refused by %d: %s" % (path, number, refusals.reason(number)), "sheet", "csv", path)
            self.refused("refused by %d" % number, "list", path, TOWN_SHEETS[1])
            self.refused("refused by %d" % number, "list", TOWN_SHEETS[0], path)

    def test_no_words(self):
        for data, told in ((b"abc", "3 bytes, not a number of 4-byte words"), (bytes(1_872_028), "1,872,028 bytes, where one has at most 1,872,024")):
            path = self.file("bad.sheet", data)
            self.assertEqual(self.call("sheet", "why", path), (1, "%s is no sheet: %s\n" % (path, told), ""))


class Tidy(Commands):
    def test_the_same_points_and_fewer_nodes(self):
        points = [(k + 1, k * 37 % 101, k * 53 % 97) for k in range(40)]
        order = list(range(40))
        runs = [(0, k, 1) for k in range(40)] + [(1, k, min(16, 40 - k)) for k in range(0, 40, 16)] + [(2, 40, 3)]
        words = reading.sheet_words(points, order, reading.with_boxes(points, order, runs), 9)
        path, out = self.file("loose.sheet", packed(words)), self.path("tidy.sheet")
        self.assertIn(", 4 nodes where there were 44; the same lists", self.served("sheet", "tidy", path, "--out", out))
        self.assertEqual(read(path), packed(words))
        self.assertEqual(self.served("sheet", "csv", out), self.served("sheet", "csv", path))
        self.assertEqual(self.served("list", TOWN_SHEETS[0], out), self.served("list", TOWN_SHEETS[0], path))
        self.served("sheet", "tidy", path)
        self.assertEqual(read(path), read(out))


# ---------------------------------------------------------------- lists and questions

def lines_of(pairs, p, q):
    return "".join("%d %d %d %d %d\n" % (a, b, q.point(a).x + p.point(b).x, q.point(a).y + p.point(b).y, size) for a, b, size in pairs) + "end %d\n" % len(pairs)


class Lists(Commands):
    @classmethod
    def setUpClass(cls):
        super().setUpClass()
        p, q = (reading.Sheet(list(sheet.words)) for sheet in (cls.pumps, cls.chambers))
        cls.pairs = {grid: reading.ring_list(p.points, q.points, grid) for grid in (False, True)}
        cls.owners = [k * k % 3 % 2 for k in range(q.n)]
        cls.csv = "ASSET;WHO\n" + "".join("%d;%d\n" % (point[0], owner) for point, owner in zip(q.points, cls.owners))

    def text(self, pairs):
        return lines_of(pairs, self.pumps, self.chambers)

    def test_the_list(self):
        self.assertEqual(self.served("list", *TOWN_SHEETS), stored("listing.txt").decode())
        self.assertEqual(self.text(self.pairs[False]), stored("listing.txt").decode())
        self.assertEqual("\n".join(make_listing_cases.lines_of(unpacked(stored("pumps.sheet")), unpacked(stored("chambers.sheet")))) + "\n", stored("listing.txt").decode())

    def test_form_2(self):
        p = self.made("1,0,0\n2,1000000000,0\n", name="p")
        q = self.made("5,400,0\n", name="q")
        self.assertEqual(self.served("list", p, q), "5 1 400 0 160000\n5 2 1000000400 0 999999200000160000\nend 2\n")

    def test_points_with_no_sheet(self):
        tables = [os.path.join(TOWN, name + ".csv") for name in MADE]
        want = stored("listing.txt").decode()
        for p, q in (tables, (tables[0], TOWN_SHEETS[1]), (TOWN_SHEETS[0], tables[1])):
            self.assertEqual(self.served("list", p, q), want)
        loud = [self.file(name.upper() + ".CSV", stored(name + ".csv")) for name in MADE]
        self.assertEqual(self.served("list", *loud, "--grid"), self.text(self.pairs[True]))
        owners = self.file("owners.csv", self.csv.replace("ASSET", "id"))
        said = self.served("list", *tables, "--contractor", 1, "--owners", owners, "--owner", "WHO")
        self.assertEqual(said, self.served("list", *TOWN_SHEETS, "--contractor", 1, "--owners", owners, "--owner", "WHO"))
        p, q = (self.file(name + ".csv", "ASSET;E;N\n" + rows) for name, rows in (("p", "1;0,5;1\n2;9;9,25\n"), ("q", "5;2;1\n")))
        words = ("--id", "ASSET", "--x", "E", "--y", "N", "--decimal-comma", "--scale", "100")
        self.assertEqual(self.served("list", p, q, *words), "5 1 250 200 22500\n5 2 1100 1025 1170625\nend 2\n")
        drawn = json.loads(self.served("list", p, q, *words, "--geojson"))["features"]
        self.assertEqual(drawn[0]["geometry"]["coordinates"], [[2, 1], [0.5, 1]])
        self.refused("p.csv: line 2: the x '0,5' is no number", "list", p, q, "--id", "ASSET", "--x", "E", "--y", "N")
        self.refused("no rows: of no assets there is no list", "list", self.file("none.csv", "id,x,y\n"), q, "--id", "id")

    def test_a_sheet_in_a_bad_order_is_packed_anew_for_a_list(self):
        made, pack = [], self.ring.pack
        chance = sorted(range(120), key=lambda k: k * k * 7919 % 121)
        bad = self.file("bad.sheet", pack(self.chambers.points, 9, order=chance).data)
        self.assertTrue(ring.sheets.scattered(self.ring.read(bad)) > 1.5 > 1 > ring.sheets.scattered(self.chambers))
        with mock.patch.object(self.ring, "pack", lambda *words, **more: made.append(more["name"]) or pack(*words, **more)):
            for least, limit, want in ((121, 1.5, []), (120, 1.5, [bad]), (120, 3, []), (0, 1.5, [bad])):
                with mock.patch.multiple(ring.sheets, LEAST=least, SCATTERED=limit):
                    self.assertEqual(self.served("list", TOWN_SHEETS[0], bad), stored("listing.txt").decode())
                self.assertEqual(made, want)
                made.clear()

    def test_the_street_grid(self):
        self.assertNotEqual(self.pairs[True], self.pairs[False])
        self.assertEqual(self.served("list", *TOWN_SHEETS, "--grid"), self.text(self.pairs[True]))
        wide = self.made("1,2000000,0\n")
        self.refused("refused by 29: the street grid is asked for, and a sheet is of form 2", "list", TOWN_SHEETS[0], wide, "--grid")

    def test_a_threshold(self):
        want = reading.list_of(self.pairs[False], 3)
        self.assertTrue(0 < len(want) < len(self.pairs[False]))
        self.assertEqual(self.served("list", *TOWN_SHEETS, "--threshold", 3), self.text(want))
        self.refused("refused by 21", "list", *TOWN_SHEETS, "--threshold", 60_001)

    def test_nothing_farther(self):
        """--largest: the pairs of at most this squared distance, one whose size it is among them; with a threshold of the chambers that have so many of these."""
        sizes = sorted(pair[2] for pair in self.pairs[False])
        for largest in (0, sizes[0] - 1, sizes[0], sizes[len(sizes) // 2], sizes[-1] - 1, sizes[-1], 8 * 10 ** 18):
            want = reading.up_to(self.pairs[False], largest)
            self.assertEqual(self.served("list", *TOWN_SHEETS, "--largest", largest), self.text(want))
        half = sizes[len(sizes) // 2]
        found = self.json("list", *TOWN_SHEETS, "--largest", half, "--threshold", 2, "--grid")
        self.assertEqual([(one["q"], one["p"], one["size"]) for one in found["pairs"]], reading.list_up_to(self.pairs[True], half, 2))
        self.assertEqual(found["terms"], {"grid": True, "threshold": 2, "largest": half})
        points = reading.Sheet(list(self.pumps.words)).points
        for grid in (False, True):
            whole = reading.self_list(points, grid)
            want = reading.up_to(whole, whole[0][2])
            self.assertEqual([(one["q"], one["p"], one["size"]) for one in self.json("self", TOWN_SHEETS[0], "--largest", whole[0][2], *["--grid"] * grid)["pairs"]], want)
        self.refused("refused by 40", "list", *TOWN_SHEETS, "--largest", 8 * 10 ** 18 + 1)
        self.refused("refused by 40", "self", TOWN_SHEETS[0], "--largest", 2 ** 64 - 1)
        for wrong in (-1, 2 ** 64, "x", "1.5"):
            self.assertEqual(self.call("list", *TOWN_SHEETS, "--largest=%s" % wrong)[:2], (2, ""))

    def test_a_contractor_with_an_owner_column(self):
        owners = self.file("owners.csv", self.csv)
        words = ("--owners", owners, "--id", "ASSET", "--owner", "WHO")
        owner = dict(zip([point.id for point in self.chambers.points], self.owners))
        for contractor in (0, 1):
            want = [pair for pair in self.pairs[False] if owner[pair[0]] == contractor]
            self.assertTrue(0 < len(want) < len(self.pairs[False]))
            self.assertEqual(self.served("list", *TOWN_SHEETS, "--contractor", contractor, *words), self.text(want))
        for contractor, told in ((2, "refused by 26"), (3, "refused by 27")):
            self.refused(told, "list", *TOWN_SHEETS, "--contractor", contractor, *words)
        for text, told in [
            (self.csv.replace(";0\n", ";2\n", 1), "the owner '2' is not 0 or 1"), (self.csv.replace("1001;", "7;"), "line 2: no chamber of %s has the id 7" % TOWN_SHEETS[1]),
            (self.csv.replace("1001;0\n", "").replace("1001;1\n", ""), "the chamber 1001 of %s has no owner" % TOWN_SHEETS[1]), (self.csv + "1001;1\n", "stands in line 2 already"),
            ("id;x\n", "no column is called 'ASSET'"),
        ]:
            self.refused(told, "list", *TOWN_SHEETS, "--contractor", "1", "--owners", self.file("bad.csv", text), "--id", "ASSET", "--owner", "WHO")
        for half in (("--contractor", "1"), ("--owners", owners)):
            self.assertEqual(self.call("list", *TOWN_SHEETS, *half)[0], 2)

    def test_json_and_geojson(self):
        said = self.json("list", *TOWN_SHEETS, "--threshold", 3)
        want = reading.list_of(self.pairs[False], 3)
        self.assertEqual([(one["q"], one["p"], one["size"]) for one in said["pairs"]], want)
        self.assertEqual((said["count"], said["p"]["edition"], said["q"]["points"], said["terms"]["threshold"]), (len(want), 7, 120, 3))
        one = said["pairs"][0]
        q, p = self.chambers.point(one["q"]), self.pumps.point(one["p"])
        self.assertEqual((one["x2"], one["y2"]), (q.x + p.x, q.y + p.y))
        said = json.loads(self.served("list", *TOWN_SHEETS, "--geojson", "--scale", "100", "--offset", "432000,5412000.5"))
        self.assertEqual((said["type"], len(said["features"])), ("FeatureCollection", len(self.pairs[False])))
        first, pair = said["features"][0], self.pairs[False][0]
        q, p = self.chambers.point(pair[0]), self.pumps.point(pair[1])
        self.assertEqual(first["properties"], {"q": pair[0], "p": pair[1], "size": pair[2]})
        self.assertEqual(first["geometry"], {"type": "LineString", "coordinates": [[round(432000 + one.x / 100, 2), round(5412000.5 + one.y / 100, 2)] for one in (q, p)]})

    def test_to_a_file(self):
        out = self.path("l.txt")
        self.assertEqual(self.served("list", *TOWN_SHEETS, "--out", out), "")
        self.assertEqual(read(out), stored("listing.txt"))

    def test_self(self):
        want = reading.self_list(reading.Sheet(list(self.pumps.words)).points)
        self.assertEqual(self.served("self", TOWN_SHEETS[0]), lines_of(want, self.pumps, self.pumps))
        want = reading.self_list(reading.Sheet(list(self.pumps.words)).points, True)
        self.assertEqual([(one["q"], one["p"], one["size"]) for one in self.json("self", TOWN_SHEETS[0], "--grid")["pairs"]], want)

    def test_shortest(self):
        want = reading.shortest_of(self.pairs[False], 5)
        self.assertEqual(self.served("shortest", *TOWN_SHEETS, "--count", 5), self.text(want))
        self.assertEqual(len(json.loads(self.served("shortest", *TOWN_SHEETS, "--geojson"))["features"]), 16)
        self.refused("refused by 10", "shortest", *TOWN_SHEETS, "--count", 17)

    def busy(self, pairs, end, k, whose=None):
        """The rows of the k that are at this end of the most pairs: of the chambers, of those of some ids, or of the pump houses."""
        ids = [point.id for point in (self.chambers, self.pumps)[end].points if whose is None or point.id in whose]
        rows = sorted(((id, len([pair for pair in pairs if pair[end] == id])) for id in ids), key=lambda row: (-row[1], row[0]))[:k]
        return "".join("%d %d\n" % row for row in rows) + "end %d\n" % len(rows)

    def test_busiest(self):
        sizes = sorted(pair[2] for pair in self.pairs[False])
        half = sizes[len(sizes) // 2]
        for end, words in ((0, ()), (1, ("--pumps",))):
            for k in (1, 5, 16):
                self.assertEqual(self.served("busiest", *TOWN_SHEETS, *words, "--count", k), self.busy(self.pairs[False], end, k))
            self.assertEqual(self.served("busiest", *TOWN_SHEETS, *words, "--grid"), self.busy(self.pairs[True], end, 16))
            for largest in (sizes[0] - 1, sizes[0], half, sizes[-1]):
                self.assertEqual(self.served("busiest", *TOWN_SHEETS, *words, "--largest", largest), self.busy(reading.up_to(self.pairs[False], largest), end, 16))
            for count in (0, 17):
                self.refused("refused by 10", "busiest", *TOWN_SHEETS, *words, "--count", count)
            self.refused("refused by 40", "busiest", *TOWN_SHEETS, *words, "--largest", 8 * 10 ** 18 + 1)
            self.refused("refused by 29", "busiest", TOWN_SHEETS[0], self.made("1,2000000,0\n"), *words, "--grid")
            said = self.json("busiest", *TOWN_SHEETS, *words, "--count", 3, "--largest", half)
            self.assertEqual("".join("%(id)d %(pairs)d\n" % row for row in said["ranks"]) + "end 3\n", self.busy(reading.up_to(self.pairs[False], half), end, 3))
            self.assertEqual((said["count"], said["of"], said["terms"], said["p"]["edition"]), (3, "QP"[end], {"grid": False, "largest": half}, 7))
        # chambers with no pair are given too, fewer than k where there are fewer, and of a contractor the contractor's
        p, q = self.made("1,0,0\n", name="p"), self.made("5,4,0\n6,9,0\n7,-9,0\n", name="q")
        self.assertEqual(self.served("busiest", p, q), "5 1\n7 1\n6 0\nend 3\n")
        self.assertEqual(self.served("busiest", p, q, "--pumps", "--out", self.path("b.txt")), "")
        self.assertEqual(read(self.path("b.txt")), b"1 2\nend 1\n")
        words = ("--owners", self.file("owners.csv", self.csv), "--id", "ASSET", "--owner", "WHO")
        for contractor in (0, 1):
            whose = {point.id for point, owner in zip(self.chambers.points, self.owners) if owner == contractor}
            self.assertEqual(self.served("busiest", *TOWN_SHEETS, "--contractor", contractor, *words, "--count", 9), self.busy(self.pairs[False], 0, 9, whose))
        for wrong in (("--pumps", "--contractor", 1, *words), ("--pumps", *words), ("--contractor", 1), ("--threshold", 2)):
            self.assertEqual(self.call("busiest", *TOWN_SHEETS, *wrong)[:2], (2, ""))

    def test_urgent(self):
        of = [{point.id: point.id * point.id % 7 * scale for point in sheet.points} for sheet, scale in ((self.chambers, 1), (self.pumps, 10 ** 8))]
        names = [self.file(name, "id,score\n" + "".join("%d,%d\n" % row for row in sorted(scores.items(), reverse=True))) for name, scores in zip(("q.csv", "p.csv"), of)]
        given = ("--p-scores", names[1], "--q-scores", names[0])

        def rows(pairs, k):
            return sorted(((*pair, of[0][pair[0]] + of[1][pair[1]]) for pair in pairs), key=lambda row: (-row[3], row[0], row[1]))[:k]

        def text(pairs, k):
            lines = [self.text([row[:3]]).split("\n")[0] + " %d\n" % row[3] for row in rows(pairs, k)]
            return "".join(lines) + "end %d\n" % len(lines)
        sizes = sorted(pair[2] for pair in self.pairs[False])
        for k in (1, 5, 16):
            self.assertEqual(self.served("urgent", *TOWN_SHEETS, *given, "--count", k), text(self.pairs[False], k))
        self.assertEqual(self.served("urgent", *TOWN_SHEETS, *given, "--grid"), text(self.pairs[True], 16))
        for largest in (sizes[0] - 1, sizes[0], sizes[len(sizes) // 2]):
            self.assertEqual(self.served("urgent", *TOWN_SHEETS, *given, "--largest", largest), text(reading.up_to(self.pairs[False], largest), 16))
        said = self.json("urgent", *TOWN_SHEETS, *given, "--count", 4)
        self.assertEqual([(row["q"], row["p"], row["size"], row["score"]) for row in said["pairs"]], rows(self.pairs[False], 4))
        self.assertEqual((said["count"], said["terms"]), (4, {"grid": False}))
        drawn = json.loads(self.served("urgent", *TOWN_SHEETS, *given, "--count", 4, "--geojson"))["features"]
        self.assertEqual([tuple(one["properties"].values()) for one in drawn], rows(self.pairs[False], 4))
        # of a contractor; a column by its name, and one name for the ids of all three
        tables = [self.file(name, "AGE;ASSET\n" + "".join("%d;%d\n" % (score, id) for id, score in scores.items())) for name, scores in zip(("q2.csv", "p2.csv"), of)]
        named = ("--p-scores", tables[1], "--q-scores", tables[0], "--id", "ASSET", "--score", "AGE")
        self.assertEqual(self.served("urgent", *TOWN_SHEETS, *named), text(self.pairs[False], 16))
        owner = dict(zip([point.id for point in self.chambers.points], self.owners))
        found = self.served("urgent", *TOWN_SHEETS, *named, "--contractor", 1, "--owners", self.file("owners.csv", self.csv), "--owner", "WHO", "--count", 7)
        self.assertEqual(found, text([pair for pair in self.pairs[False] if owner[pair[0]] == 1], 7))
        # each record has to have a score of 0 to 1,000,000,000
        whole = read(names[0]).decode()
        for bad, told in ((whole.replace("1001,0\n", ""), "the chamber 1001 of %s has no score" % TOWN_SHEETS[1]), (whole + "7,1\n", "line 122: no chamber of %s has the id 7" % TOWN_SHEETS[1]),
                          (whole + "1001,1\n", "line 122: the id 1001 stands in line 121 already"), (whole.replace("1001,0\n", "1001,-1\n"), "line 121: the score -1 is not from 0 to 1000000000"),
                          (whole.replace("1001,0\n", "1001,1000000001\n"), "line 121: the score 1000000001 is not from 0 to 1000000000"),
                          (whole.replace("1001,0\n", "1001,1.5\n"), "line 121: the score '1.5' is no whole number"), ("id,owner,x\n", "line 1: 3 fields where id,score are 2")):
            self.refused("bad.csv: " + told, "urgent", *TOWN_SHEETS, "--p-scores", names[1], "--q-scores", self.file("bad.csv", bad))
        self.refused("the pump house 101 of %s has no score" % TOWN_SHEETS[0], "urgent", *TOWN_SHEETS, "--p-scores", self.file("none.csv", "id,score\n"), "--q-scores", names[0])
        most = self.file("most.csv", "".join("%d,1000000000\n" % point.id for point in self.chambers.points))
        self.assertEqual(self.json("urgent", *TOWN_SHEETS, "--p-scores", names[1], "--q-scores", most, "--count", 1)["pairs"][0]["score"], 10 ** 9 + max(of[1][pair[1]] for pair in self.pairs[False]))
        self.refused("refused by 10", "urgent", *TOWN_SHEETS, *given, "--count", 17)
        for wrong in (given[:2], given[2:], (*given, "--threshold", 2)):
            self.assertEqual(self.call("urgent", *TOWN_SHEETS, *wrong)[:2], (2, ""))

    def test_nearest(self):
        q = self.chambers.point(1004)
        want = sorted(((q.x - p.x) ** 2 + (q.y - p.y) ** 2, p.id) for p in self.pumps.points)
        self.assertEqual(self.served("nearest", *TOWN_SHEETS, 1004, "--count", 3), "".join("%d %d\n" % (id, far) for far, id in want[:3]) + "end 3\n")
        self.assertEqual([one["id"] for one in self.json("nearest", *TOWN_SHEETS, 1004)["nearest"]], [id for _, id in want[:16]])
        self.refused("refused by 20: no chamber, or no record of the sheet, has this id", "nearest", *TOWN_SHEETS, 7)

    def test_partners(self):
        self.assertEqual(self.served("partners", *TOWN_SHEETS, 1004, 2), "chamber 1004 has at least 2 ring partners\n")
        self.assertEqual(self.served("partners", *TOWN_SHEETS, 1004, 3), "chamber 1004 has 2 ring partners, fewer than 3\n")
        self.assertEqual(self.json("partners", *TOWN_SHEETS, 1004, 3), {"q": 1004, "t": 3, "count": 2, "enough": False})
        self.refused("refused by 21", "partners", *TOWN_SHEETS, 1004, 0)

    def test_why(self):
        p, q = self.made("1,0,0\n2,10,0\n3,5,1\n", name="p"), self.made("5,4,0\n6,16,1\n", name="q")
        self.assertEqual(self.served("why", p, q, 5, 3), "chamber 5 and pump house 3 are a ring pair: no other record stands in their circle\n")
        self.assertEqual(self.served("why", p, q, 5, 1), "chamber 5 and pump house 1 are a ring pair: no other record stands in their circle\n")
        self.assertEqual(self.served("why", p, q, 5, 2), "chamber 5 and pump house 2 are no ring pair: the pump house 3 at (5, 1) stands in their circle\n")
        self.assertEqual(self.served("why", p, q, 6, 1), "chamber 6 and pump house 1 are no ring pair: a chamber on the left side of the box (4, 0) to (16, 1), node 0 of Q, stands in "
                                                         "their circle\n")
        said = self.json("why", p, q, 5, 2)
        self.assertEqual((said["pair"], said["kind"], said["set"], said["record"]), (False, "point", "P", {"id": 3, "x": 5, "y": 1}))
        circle, streets = ({pair[:2] for pair in self.pairs[grid]} for grid in (False, True))
        for ids in sorted(circle ^ streets)[:30]:
            self.assertEqual((self.json("why", *TOWN_SHEETS, *ids)["pair"], self.json("why", *TOWN_SHEETS, *ids, "--grid")["pair"]), (ids in circle, ids in streets))
        self.refused("no record of %s has the id 7" % TOWN_SHEETS[1], "why", *TOWN_SHEETS, 7, 101)
        self.refused("no record of %s has the id 1" % TOWN_SHEETS[0], "why", *TOWN_SHEETS, 1001, 1)


# ---------------------------------------------------------------- books and the depot

class Books(Commands):
    def setUp(self):
        super().setUp()
        self.book, self.depot = self.path("town.book"), self.path("town.depot")
        self.listed = [tuple(map(int, (line.split()[0], line.split()[1], line.split()[4]))) for line in stored("listing.txt").decode().split("\n")[:-2]]

    def held(self):
        return [(one["q"], one["p"], one["size"]) for one in self.json("book", self.book, "--show")["pairs"]]

    def test_followed_in_parts(self):
        self.assertEqual(self.served("book", self.book, *TOWN_SHEETS, "--pages", 2), "%s: editions 7 and 9; 32 pairs held, not all yet\n" % self.book)
        self.assertEqual(self.held(), self.listed[:32])
        self.assertEqual(self.served("book", self.book, *TOWN_SHEETS), "%s: editions 7 and 9; 104 pairs held, and these are all\n" % self.book)
        self.assertEqual(self.held(), self.listed)
        before = read(self.book)
        self.served("book", self.book, *TOWN_SHEETS)
        self.assertEqual(read(self.book), before)
        self.assertTrue(self.served("book", self.book, "--show").startswith("%d %d %d\n" % self.listed[0]))

    def test_an_interrupt_keeps_what_is_held(self):
        asked, page = [], self.ring.page

        def once(*words, **terms):
            asked.append(1)
            if len(asked) == 4:
                raise KeyboardInterrupt
            return page(*words, **terms)
        self.ring.page = once
        try:
            self.assertEqual(self.call("book", self.book, *TOWN_SHEETS)[0], 130)
        finally:
            del self.ring.page
        self.assertEqual(self.held(), self.listed[:48])

    def test_a_book_of_another_list(self):
        self.served("book", self.book, *TOWN_SHEETS, "--pages", 1)
        before = read(self.book)
        for words in (("--grid",), ("--threshold", 2)):
            self.refused("is a book of another list: editions 7 and 9, and not editions 7 and 9, ", "book", self.book, *TOWN_SHEETS, *words)
        self.refused("and not the self join of edition 7", "book", self.book, TOWN_SHEETS[0], "--self")
        self.assertEqual(read(self.book), before)
        for words in ((self.book,), (self.book, TOWN_SHEETS[0]), (self.book, *TOWN_SHEETS, "--show"), (self.book, TOWN_SHEETS[0], "--self", "--threshold", 2)):
            self.assertEqual(self.call("book", *words)[0], 2)

    def test_room(self):
        self.refused("refused by 16: there are fewer slots", "book", self.book, *TOWN_SHEETS, "--room", 100)
        self.assertEqual(self.held(), self.listed[:96])
        self.served("book", self.book, *TOWN_SHEETS, "--room", 104)
        self.assertEqual(self.held(), self.listed)
        # where no room is asked for there is always more
        before, command.ROOM = command.ROOM, 5
        try:
            self.served("book", self.path("b.book"), *TOWN_SHEETS)
        finally:
            command.ROOM = before
        self.assertIn("104 pairs held, and these are all", self.served("book", self.path("b.book"), "--show"))

    def test_a_self_join(self):
        self.assertIn("the self join of edition 7; ", self.served("book", self.book, TOWN_SHEETS[0], "--self"))
        self.assertEqual(self.held(), reading.self_list(reading.Sheet(list(self.pumps.words)).points))

    def test_a_damaged_book_or_depot_is_told(self):
        self.served("book", self.book, *TOWN_SHEETS, "--pages", 1)
        whole = read(self.book)
        self.served("book", self.book, *TOWN_SHEETS)
        self.served("depot", self.depot, self.book)
        shelf = read(self.depot)
        for path, data, words in ((self.book, whole, ("book", self.book, "--show")), (self.depot, shelf, ("depot", self.depot))):
            tries = [data[:cut] for cut in range(0, len(data), 41)] + [data[:-1], data + b"x", data[:50] + b"9" + data[51:], b"\xff" + data[1:], data.replace(b" ", b"\t", 1)]
            for other in tries:
                if other != data:
                    self.file(os.path.basename(path), other)
                    status, printed, said = self.call(*words)
                    self.assertEqual((status, printed), (1, ""))
                    self.assertRegex(said, "is no ring-|was altered or cut")

    def test_the_depot_holds_each_order_once(self):
        self.refused("is not there, and no book is given", "depot", self.depot)
        self.served("book", self.book, *TOWN_SHEETS, "--pages", 2)
        self.refused("is not closed", "depot", self.depot, self.book)
        self.assertIn("32 issued, 0 known, 32 orders held", self.served("depot", self.depot, self.book, "--open"))
        self.served("book", self.book, *TOWN_SHEETS)
        said = self.json("depot", self.depot, self.book)
        self.assertEqual((len(said["issued"]), said["known"], said["held"]), (72, 32, 104))
        self.assertTrue(self.served("depot", self.depot, self.book).endswith("0 issued, 104 known, 104 orders held\n"))
        self.assertEqual([(one["q"], one["p"], one["size"]) for one in self.json("depot", self.depot)["forms"]], self.listed)

    def test_one_command_at_a_time(self):
        self.served("book", self.book, *TOWN_SHEETS)
        for words in (["depot", self.depot, self.book], ["book", self.book] + TOWN_SHEETS):
            with door.alone(self.depot, self.fail):
                work = subprocess.Popen([os.path.join(TOP, "ring")] + words, stdin=subprocess.DEVNULL, stdout=subprocess.PIPE, stderr=subprocess.PIPE, env=surroundings())
                said = work.stderr.readline()
                self.assertIn(b"is at work beside ", said)
                self.assertIsNone(work.poll())
            printed = work.communicate(timeout=300)[0]
            self.assertEqual(work.returncode, 0)
            self.assertIn(b"104 ", printed)

    def test_a_new_edition_is_not_mixed_in_unasked(self):
        self.served("book", self.book, *TOWN_SHEETS)
        self.served("depot", self.depot, self.book)
        before = read(self.depot)
        newer, second = self.made(stored("pumps.csv"), name="newer", edition=8), self.path("second.book")
        self.served("book", second, newer, TOWN_SHEETS[1])
        self.refused("a new edition has new keys, so that each visit would be ordered again", "depot", self.depot, second)
        self.assertEqual(read(self.depot), before)
        self.assertIn("104 issued, 0 known, 208 orders held", self.served("depot", self.depot, second, "--new-edition"))


# ---------------------------------------------------------------- the papers

def lines_under(paper, title):
    """The commands of the first block of a part of a paper."""
    text = read(os.path.join(TOP, paper)).decode()
    block = re.search(r"^#+ %s\n\n((?:    .*\n)+)" % re.escape(title), text, re.M).group(1)
    return [line.strip() for line in block.strip().split("\n")]


class Papers(Commands):
    def follow(self, lines, examples):
        for line in lines:
            words = shlex.split(line)
            self.assertEqual(words[0], "./ring")
            words = [os.path.join(examples, word[len("examples/"):]) if word.startswith("examples/") else word for word in words[1:]]
            before = os.getcwd()
            os.chdir(self.folder)
            try:
                self.served(*words)
            finally:
                os.chdir(before)

    def test_from_a_utilitys_csv_by_the_readme_alone(self):
        self.follow(lines_under("README.md", "From a utility's CSV to list, picture and map"), os.path.join(TOP, "examples"))
        sets = []
        for name in ("pumps.csv", "chambers.csv"):
            import csv
            with open(os.path.join(TOP, "examples", "utility", name), newline="", encoding="utf-8") as f:
                sets.append(sorted((int(row["ASSET_ID"]), round((float(row["EASTING"]) - 432000) * 100), round((float(row["NORTHING"]) - 5412000) * 100))
                                   for row in csv.DictReader(f, delimiter=";")))
        want = reading.ring_list(*sets)
        listing = read(self.path("listing.txt")).decode().split("\n")
        self.assertEqual([tuple(int(line.split()[k]) for k in (0, 1, 4)) for line in listing[:-2]], want)
        features = json.loads(read(self.path("visits.geojson")))["features"]
        self.assertEqual([(one["properties"]["q"], one["properties"]["p"]) for one in features], [pair[:2] for pair in want])
        self.assertIn([432407.14, 5412503.8], [one["geometry"]["coordinates"][1] for one in features])
        self.assertIn("%d ring pairs" % len(want), read(self.path("town.svg")).decode())
        self.assertIn("%d orders held" % len(want), self.served("depot", self.path("town.depot")))

    def test_the_guides_lines(self):
        for name in ("pumps.csv", "chambers.csv"):
            self.file(name, read(os.path.join(TOP, "examples", "utility", name)))
        self.follow(lines_under("docs/GUIDE.md", "From CSV to a list"), self.folder)
        self.assertTrue(os.path.exists(self.path("visits.geojson")))

    def test_the_guides_store_and_page(self):
        for name in ("pumps.sheet", "chambers.sheet"):
            self.file(name, stored(name))
        os.makedirs(self.path("python/ring"))
        os.symlink(os.path.join(TOP, "python", "ring", "receiver.py"), self.path("python/ring/receiver.py"))
        before = progress.FIRST
        progress.FIRST = 1e9
        try:
            for title in ("A book that survives a crash", "The planner's page"):
                self.follow(lines_under("docs/GUIDE.md", title), self.folder)
        finally:
            progress.FIRST = before
        self.assertIn("104 orders, 0 not confirmed", self.served("book", "show", "--store", self.path("town.store")))
        self.assertTrue(os.path.exists(self.path("town.html")))
        guide = read(os.path.join(TOP, "docs", "GUIDE.md")).decode()
        # the example receiver's own lines, in its order
        quoted, source = re.search(r"^((?:    .*\n)+)\nFrom Python:\n", guide, re.M).group(1), read(os.path.join(TOP, "python", "ring", "receiver.py")).decode()
        places = [source.index(line[4:] + "\n") for line in quoted.splitlines()]
        self.assertEqual((places, len(places)), (sorted(places), 9))
        code = re.search(r"^From Python:\n\n((?:    .*\n)+)", guide, re.M).group(1)
        os.unlink(self.path("town.store"))
        status, printed, said = ran([sys.executable, "-c", "\n".join(line[4:] for line in code.split("\n"))], cwd=self.folder, PYTHONPATH=os.path.join(TOP, "python"))
        self.assertEqual((status, said, printed.split()[-2:]), (0, "", [b"104", b"104"]))

    def test_the_drawing_of_the_rooms(self):
        self.assertEqual(ran([sys.executable, os.path.join(TOP, "tools", "rooms"), "--check"])[0], 0)

    def test_the_guides_frames_are_the_workers(self):
        from ring.worker import Call
        text = read(os.path.join(TOP, "docs", "GUIDE.md")).decode()
        rows = re.findall(r"^\| (\d+) ([a-z ]+) \|", text[text.index("## The worker's frames"):], re.M)
        self.assertEqual([(int(number), name.replace(" ", "_").upper()) for number, name in rows], [(int(call), call.name) for call in Call])
        source = read(os.path.join(TOP, "worker", "worker.c")).decode()
        names = re.search(r"enum \{\s+(HELLO = 1,[^}]*)\}", source).group(1).replace(" = 1", "")
        self.assertEqual([name.strip() for name in names.split(",")], [call.name for call in Call])

    def test_the_guides_c_client_is_the_kept_one(self):
        text = read(os.path.join(TOP, "docs", "GUIDE.md")).decode()
        client = read(os.path.join(TOP, "clients", "client.c")).decode()
        shown = "".join(("    " + line if line else "") + "\n" for line in client[client.index("#include"):].rstrip("\n").split("\n"))
        self.assertIn("what a caller does, in order.\n\n" + shown + "\n", text)

    def test_the_guides_version_is_the_headers(self):
        from base import VERSION
        text = read(os.path.join(TOP, "docs", "GUIDE.md")).decode()
        rows = re.findall(r"^\| (\d+\.\d+) \|", text, re.M)
        self.assertEqual(rows[-1] + ".0", VERSION)


# ---------------------------------------------------------------- the command itself

def commands(parser, path=()):
    """Every command with its parser."""
    for action in parser._actions:
        if hasattr(action, "choices") and isinstance(action.choices, dict):
            for name, one in action.choices.items():
                yield from commands(one, path + tuple(name.split(" ")))
            return
    yield path, parser


class Itself(Commands):
    def test_each_has_help_with_an_example_that_is_right(self):
        found = dict(commands(command.parser()))
        self.assertEqual(set(found), {("sheet", "make"), ("sheet", "csv"), ("sheet", "why"), ("sheet", "tidy"), ("list",), ("why",), ("nearest",), ("shortest",), ("partners",), ("self",), ("busiest",), ("urgent",),
                                      ("book",), ("book", "follow"), ("book", "show"), ("book", "send"), ("depot",), ("draw",), ("map",), ("cluster", "list")})
        for path in found:
            status, printed, said = self.call(*path, "--help")
            self.assertEqual((status, said), (0, ""))
            self.assertIn("Exit status: 0 answered, 1 refused, 2 wrong use, 3", " ".join(printed.split()))
            self.assertIn("--json", printed)
            example = re.search(r"Example:\n    \./ring (.*)\n", printed).group(1)
            words = shlex.split(example)
            self.assertEqual(tuple(words[:len(path)]), path)
            command.parsed(words)

    def test_exit_status(self):
        bad = self.file("bad.sheet", "abcd")
        self.assertEqual(self.call("list", *TOWN_SHEETS)[0], 0)
        self.assertEqual(self.call("list", bad, TOWN_SHEETS[1])[0], 1)
        listed = ("list", *TOWN_SHEETS)
        for words in ((), ("nothing",), ("list",), listed[:2], (*listed, "--scale", "1/0"), (*listed, "--scale", "0"), (*listed, "--offset", "x,1"), (*listed, "--offset", "1"),
                      (*listed, "--threshold", "-1"), ("nearest", *TOWN_SHEETS, "x"), ("sheet", "make", "a.csv")):
            self.assertEqual(self.call(*words)[:2], (2, ""), words)
        self.assertEqual(self.call("list", self.path("none"), TOWN_SHEETS[1]), (3, "", "ring: %s: No such file or directory\n" % self.path("none")))
        self.assertEqual(self.call("list", self.folder, TOWN_SHEETS[1])[0], 3)

    def test_numbers_that_do_not_end(self):
        with within(20):
            for number in ("1e400", "1e99999999", "1" * 30, "nan", "inf", "1_0", "0x1", "1/0"):
                for words in (("list", *TOWN_SHEETS, "--scale", number), ("list", *TOWN_SHEETS, "--offset", "1," + number), ("map", *TOWN_SHEETS, "--scale", number),
                              ("sheet", "csv", TOWN_SHEETS[0], "--scale", number)):
                    self.assertEqual(self.call(*words)[:2], (2, ""), words)
        self.assertEqual(self.served("sheet", "csv", self.made("1,3,4\n", "--scale", "1/2", "--round"), "--scale", "1/2"), "id,x,y\n1,4,4\n")

    def test_a_name_that_is_no_text(self):
        """Its bytes are shown as they can be: no command breaks off."""
        name = os.fsencode(self.folder) + b"/town\xff.sheet"
        with open(name, "wb") as f:
            f.write(stored("pumps.sheet"))
        words = [os.fsencode(os.path.join(TOP, "ring"))]
        chambers = os.fsencode(TOWN_SHEETS[1])
        for more, told in (([b"sheet", b"why", name], b"town\\udcff.sheet opens: 40 points"), ([b"list", name, chambers, b"--json"], b"town\\udcff.sheet"), ([b"draw", name, chambers], b"P: town\\udcff.sheet"),
                           ([b"draw", name, chambers, b"--out", name + b".svg"], b""), ([b"map", name, chambers, b"--out", name + b".html"], b""),
                           ([b"book", name + b".book", name, chambers], b"town\\udcff.sheet.book: editions 7 and 9; 104 pairs held"),
                           ([b"book", b"follow", name, chambers, b"--store", name + b".store"], b"104 orders, 104 issued now"), ([b"self", name + b"x"], None)):
            status, printed, said = ran(words + more)
            self.assertEqual(status, 3 if told is None else 0, said)
            self.assertIn(told or b"", printed)
            self.assertNotIn("Traceback", said)

    def test_a_fault_of_the_program_is_no_refusal(self):
        ask = self.ring.shortest
        self.ring.shortest = lambda *words: {}[0]
        try:
            status, printed, said = self.call("shortest", *TOWN_SHEETS)
        finally:
            self.ring.shortest = ask
            del self.ring.shortest
        self.assertEqual((status, printed), (3, ""))
        self.assertIn("KeyError", said)

    def test_output_that_is_closed(self):
        for words in (["list"] + TOWN_SHEETS, ["--help"]):
            done = subprocess.run(["sh", "-c", '"$0" "$@" >&-', os.path.join(TOP, "ring")] + words, stdin=subprocess.DEVNULL, stderr=subprocess.PIPE, env=surroundings())
            self.assertEqual((done.returncode, done.stderr), (3, b"ring: standard output is closed\n"))
        done = subprocess.run(["sh", "-c", '"$0" "$@" 2>&-', os.path.join(TOP, "ring"), "list", TOWN_SHEETS[0], self.path("none")], stdin=subprocess.DEVNULL, stdout=subprocess.PIPE,
                              env=surroundings())
        self.assertEqual((done.returncode, done.stdout), (3, b""))

    def test_through_a_link_the_file_is_written(self):
        os.mkdir(self.path("kept"))
        kept, link = self.path("kept/a.sheet"), self.path("a.sheet")
        os.symlink(kept, link)
        self.made("1,2,3\n")
        self.assertTrue(os.path.islink(link))
        self.assertEqual(self.served("sheet", "csv", kept), "id,x,y\n1,2,3\n")
        self.assertEqual(os.listdir(self.path("kept")), ["a.sheet"])

    def test_a_refusal_as_json(self):
        status, printed, _ = self.call("nearest", *TOWN_SHEETS, "7", "--json")
        self.assertEqual((status, json.loads(printed)["refused"]), (1, 20))

    def test_as_a_program(self):
        words = [os.path.join(TOP, "ring"), "list"] + TOWN_SHEETS
        self.assertEqual(ran(words), (0, stored("listing.txt"), ""))
        link = self.path("rung")
        os.symlink(words[0], link)
        self.assertEqual(ran([link] + words[1:], cwd=self.folder), (0, stored("listing.txt"), ""))
        with open("/dev/full", "wb") as full:
            done = subprocess.run(words, stdin=subprocess.DEVNULL, stdout=full, stderr=subprocess.PIPE, env=surroundings())
        self.assertEqual((done.returncode, done.stderr), (3, b"ring: standard output: No space left on device\n"))
        self.assertEqual(ran([words[0]], RING_WORKER="/none")[0], 2)
        status, printed, said = ran(words, RING_WORKER="/none")
        self.assertEqual((status, printed), (3, b""))
        self.assertIn("the worker cannot be started", said)
        done = subprocess.run([words[0], "sheet", "make", "-", "--edition", "1", "--out", link], stdin=os.open(self.folder, os.O_RDONLY), stdout=subprocess.PIPE, stderr=subprocess.PIPE)
        self.assertEqual((done.returncode, done.stderr), (3, b"ring: standard input: Is a directory\n"))

    def test_progress_after_a_second(self):
        now, out, what = [0.0], io.StringIO(), [""]
        one = progress.Progress(lambda: what[0], out, lambda: now[0])
        for now[0], what[0] in ((0.5, "a"), (0.99, "b"), (1.1, "c"), (1.5, "d"), (3.2, "e")):
            one.say()
        self.assertEqual(out.getvalue(), "ring: c, 1 seconds so far\nring: e, 3 seconds so far\n")

    def hurried(self, name, *words):
        """A command with words said at once, while a call of the package takes long."""
        before, ask = (progress.FIRST, progress.BETWEEN, progress.LOOK), getattr(self.ring, name)
        progress.FIRST, progress.BETWEEN, progress.LOOK = 0.0, 0.0, 0.02
        setattr(self.ring, name, lambda *given, **terms: time.sleep(0.1) or ask(*given, **terms))
        try:
            status, printed, said = self.call(*words)
        finally:
            progress.FIRST, progress.BETWEEN, progress.LOOK = before
            delattr(self.ring, name)
        self.assertEqual(status, 0)
        return printed, said

    def test_what_takes_long_is_said(self):
        with mock.patch.multiple("ring.api", FEW=16, MOST=16):
            printed, said = self.hurried("many", "list", *TOWN_SHEETS)
        self.assertEqual(printed, stored("listing.txt").decode())
        self.assertIn("ring: 0 of 120 chambers, 0 pairs, 0 seconds so far\n", said)
        self.assertRegex(said, "ring: [1-9][0-9]* of 120 chambers, 16 pairs, ")
        self.assertIn("ring: still working, 0 seconds so far\n", self.hurried("shortest", "shortest", *TOWN_SHEETS)[1])
        self.assertIn("ring: still working, 0 seconds so far\n", self.hurried("busiest", "busiest", *TOWN_SHEETS)[1])
        self.assertIn("ring: 16 pairs held, ", self.hurried("page", "book", self.path("b.book"), *TOWN_SHEETS)[1])
        self.assertIn("ring: still working, ", self.hurried("pack", "sheet", "make", self.file("a.csv", "1,2,3\n"), "--edition", 1, "--out", self.path("a.sheet"))[1])


if __name__ == "__main__":
    unittest.main()
