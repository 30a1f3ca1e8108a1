#!/usr/bin/env python3
"""Tests of what is stored of the town, and of the proved programs `packing` and `opening`.

    tests/test_tools.py            what is stored of the town, against the plain reading of the rules: nothing is built
    tests/test_tools.py --whole    besides, the two programs, which are built first, held to the reading on odd inputs

What `./list`, `./ring`, the package and the library do is tried in tests/door.
"""
import importlib.machinery
import importlib.util
import os
import struct
import sys
import tempfile
import unittest

HERE = os.path.dirname(os.path.abspath(__file__))
TOP = os.path.dirname(HERE)
TOWN = os.path.join(TOP, "examples", "town")
sys.dont_write_bytecode = True
sys.path[:0] = [HERE, os.path.join(TOP, "tools")]

import kit
import make_listing_cases
import reading


def program(name):
    """A program in Python as a module."""
    loader = importlib.machinery.SourceFileLoader(os.path.basename(name), os.path.join(TOP, name))
    module = importlib.util.module_from_spec(importlib.util.spec_from_loader(loader.name, loader))
    loader.exec_module(module)
    return module


town = program("examples/town/make")
MADE = {"pumps": 7, "chambers": 9}


def packed(words):
    return struct.pack("<%di" % len(words), *words)


def unpacked(data):
    return list(struct.unpack("<%di" % (len(data) // 4), data))


def stored(name):
    with open(os.path.join(TOWN, name), "rb") as f:
        return f.read()


# ---------------------------------------------------------------- the two programs, read from the rules

def packing(given):
    if len(given) < 12 or len(given) % 4 or len(given) > 4 * 240_003:
        return b"refused input\n"
    form, n, edition, *rest = unpacked(given)
    form, n, edition = (v if v >= 0 else 2 ** 32 for v in (form, n, edition))
    points, order = rest[:3 * n], rest[3 * n:]
    number = reading.pack_number(n, points, order, edition, reading.packed_length(n) if n <= 60_000 else 0, form)
    if number:
        return b"refused %d\n" % number
    return packed(reading.pack([tuple(points[3 * i:3 * i + 3]) for i in range(n)], order, edition, form))


def opening(given):
    if len(given) % 4 or len(given) > 4 * 468_006:
        return b"refused input\n"
    words = unpacked(given)
    number = reading.open_number(words)
    return b"refused %d\n" % number if number else b"opens %d %d %d %d\n" % tuple(words[-4:])


def read_programs(name, given):
    return {"packing": packing, "opening": opening}[name](given)


def damaged():
    """Sheets that do not open, by the number that they are refused by."""
    words = unpacked(stored("pumps.sheet"))
    n, m = words[-4], words[-3]

    def with_word(at, word):
        other = list(words)
        other[at] = word
        return other

    return [
        (1, words[-5:]), (1, []), (2, with_word(-1, 3)), (2, with_word(-1, 0)), (3, with_word(-2, 0)), (3, with_word(-4, 1001)), (4, with_word(-6, words[-6] + 1)), (4, [0] + words),
        (4, with_word(-5, 0)), (5, with_word(1, 1_000_001)), (5, with_word(3, words[0])), (6, with_word(3 * n, words[3 * n + 1])), (6, with_word(4 * n, n)),
        (7, with_word(5 * n, 1)), (7, with_word(5 * n + 2, 17)), (8, with_word(5 * n + 3, words[5 * n + 3] - 1)), (8, with_word(5 * n + 7 * m - 1, 1_000_000)),
    ]


class Town(unittest.TestCase):
    def test_made_anew(self):
        with tempfile.TemporaryDirectory() as folder:
            pumps, chambers = (os.path.join(folder, name + ".csv") for name in MADE)
            town.write(pumps, town.town()[0], 101, 1)
            town.write(chambers, town.town()[1], 1001, 3)
            for path in (pumps, chambers):
                with open(path, "rb") as f:
                    self.assertEqual(f.read(), stored(os.path.basename(path)))

    def test_listing(self):
        lines = make_listing_cases.lines_of(unpacked(stored("pumps.sheet")), unpacked(stored("chambers.sheet")))
        self.assertEqual(stored("listing.txt").decode(), "\n".join(lines) + "\n")


# ---------------------------------------------------------------- the proved programs

def odd_inputs():
    """Inputs of both programs at their edges."""
    rows = [(1, 0, 0), (2, 10, 0)]
    flat = [v for row in rows for v in row]
    for form in (1, 2):
        for words in ([0, 1], [1, 0], [0, 0], [0, 2], [0], [0, 1, 1]):
            yield packed([form, 2, 7] + flat + words)
        for words in ([3, 7], [2, 0], [2, -1], [2, 1_000_000_001], [-2, 7]):
            yield packed([form] + words + flat + [0, 1])
        for words in ([0, 7], [-1, 7], [-2 ** 31, 7], [2 ** 31 - 1, 7], [1, 7, 0, 0, 0, 0], [1, 7, 2_000_000_000, -1_000_000, 1_000_000, 0], [2, 7, 2, 0, 0, 2, 0, 0, 0, 1]):
            yield packed([form] + words)
        for x in (1_000_000, 1_000_001, 1_000_000_000, 1_000_000_001):
            yield packed([form, 1, 7, 5, 0, x, 0])
            yield packed([form, 1, 7, 5, -x, 0, 0])
        for n, left in ((1000, 4000), (1001, 3998), (1001, 4004), (60_000, 240_000), (60_001, 239_999), (80_000, 240_000), (80_001, 240_000)):
            yield packed([form, n, 7] + [0] * left)
        for n in (15, 16, 17, 256, 257, 1000, 1001, 4096, 4097):
            yield packed([form, n, 9] + [v for k in range(n) for v in (k + 1, k * 7 % 100, -k)] + list(range(n))[::-1])
    for form in (0, 3, -1, -2 ** 31, 2 ** 31 - 1):
        for words in ([2, 7] + flat + [0, 1], [2, 7] + flat + [0], [2, 0] + flat + [0, 0], [0, 7]):
            yield packed([form] + words)
    yield packed([2, 7] + flat + [0, 1])
    for length in (0, 3, 4, 7, 8, 11, 12, 13, 23, 24, 25, 31_224, 70_000, 960_008, 960_011, 960_012, 960_013, 960_016):
        yield bytes(length)
    for length in (1_872_020, 1_872_023, 1_872_024, 1_872_025, 1_872_028, 2_000_000):
        yield bytes(length)
    for _, words in damaged():
        yield packed(words)
        yield packed(words[:-1] + [2])
    for name in MADE:
        yield stored(name + ".sheet")


def province(leaves):
    """The words of a sheet of form 2 with as many points as it may have, over so many leaves."""
    n, runs, first = 60_000, [], 0
    points = [(30_000 * k + 7, 1_000 * (k * 7_919 % 2_000_001 - 1_000_000), 1_000 * (k * 104_729 % 2_000_001 - 1_000_000)) for k in range(n)]
    order = [k * 7 % n for k in range(1, n)] + [0]
    for k in range(leaves):
        runs.append((0, first, n // leaves + (k < n % leaves)))
        first += runs[-1][2]
    level, first, count = 1, 0, leaves
    while count > 1:
        here = len(runs)
        runs += [(level, first + k, min(16, count - k)) for k in range(0, count, 16)]
        level, first, count = level + 1, here, len(runs) - here
    return reading.sheet_words(points, order, reading.with_boxes(points, order, runs), 9, 2)


class Whole(unittest.TestCase):
    def test_programs_and_the_reading_agree(self):
        for given in odd_inputs():
            for name in ("packing", "opening"):
                self.assertEqual(kit.run(name, given), read_programs(name, given), "%s on %d bytes" % (name, len(given)))

    def test_largest_sheets(self):
        words = province(3_750)
        n = words[-4]
        given = packed([2, n, 9] + words[:4 * n])
        made = kit.run("packing", given)
        self.assertEqual(made, packed(words))
        self.assertEqual(kit.run("opening", made), b"opens 60000 4001 9 2\n")
        self.assertEqual(kit.run("opening", packed(words[:-1] + [1])), b"refused 3\n")
        words = province(22_498)
        self.assertEqual(len(words), 468_006)
        self.assertEqual(kit.run("opening", packed(words)), b"opens 60000 24000 9 2\n")
        words[5 * n + 3] += 1
        self.assertEqual(kit.run("opening", packed(words)), b"refused 8\n")
        self.assertEqual(kit.run("opening", packed(province(22_499))), b"refused input\n")


def main():
    whole = "--whole" in sys.argv[1:]
    if whole:
        for name in ("packing", "opening"):
            kit.built(name)
    cases = [Town] + ([Whole] if whole else [])
    suite = unittest.TestSuite(unittest.defaultTestLoader.loadTestsFromTestCase(case) for case in cases)
    result = unittest.TextTestRunner(stream=sys.stderr, verbosity=0).run(suite)
    if result.wasSuccessful():
        print("town%s: %d tests, nothing differs" % (" and programs" if whole else "", result.testsRun))
    return 0 if result.wasSuccessful() else 1


if __name__ == "__main__":
    sys.exit(main())
