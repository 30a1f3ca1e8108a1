"""The Python package: typed records, refusals with number and reason, lists against the plain reading, books through lost and repeated pages."""
import gc
import os
import random
import subprocess
import sys
import unittest
from unittest import mock

from base import TOP, VERSION, WithRing, surroundings, worker

import reading
import ring
from ring import refusals, stored


class Answers(WithRing):
    def test_typed_records(self):
        r, p, q = self.ring, self.pumps, self.chambers
        self.assertEqual(".".join(map(str, r.version())), VERSION)
        page = r.page(p, q, size=2)
        self.assertEqual((type(page), type(page.source), type(page.key), type(page.pairs[0])), (ring.Page, ring.Source, ring.Key, ring.Pair))
        self.assertEqual(page.source, ring.Source(7, 9, 0, 2, False, False))
        self.assertEqual((page.key, len(page.pairs), page.end), ((0, 0), 2, False))
        self.assertEqual(r.page(p, q, key=page.pairs[0][:2], size=1).pairs, page.pairs[1:])
        # the count of nodes stands beside a page, and not in it: what is handed on has none
        for paged, alone in ((r.paged(p, q, size=2), page), (r.own_paged(p), r.own_page(p))):
            self.assertEqual((type(paged), paged.page, type(paged.opened)), (ring.Paged, alone, int))
            self.assertNotIn("opened", alone._fields)
        self.assertIsInstance(r.nearest(p, q, 1004, 3)[0], ring.Near)
        self.assertIsInstance(r.partners(p, q, 1004, 3), ring.Partners)
        self.assertIsInstance(r.why(p, q, 1004, 106), ring.Why)
        self.assertEqual(r.why(p, q, 1004, 106).clear, True)
        self.assertEqual(r.marker((1, -2), (4, 2)), ring.Marker(2.5, 0.0))
        self.assertEqual((p.n, p.edition, p.form, len(p), type(p.points[0])), (40, 7, 1, 40, ring.Point))

    def test_sheets_from_points(self):
        for points in ([], [(5, 1, 2)], [(9, 0, 0), (3, -7, 8), (4, 1_000_001, 0)], [(k, k * 7 % 50, -k) for k in range(1, 40)]):
            sheet = self.ring.pack(points, edition=12)
            self.assertEqual(([tuple(point) for point in sheet.points], sheet.edition), (sorted(points), 12))
            again = self.ring.sheet(sheet.data)
            self.assertEqual(again.points, sheet.points)
            for position, point in enumerate(sheet.points):
                self.assertEqual((sheet.position(point.id), sheet.point(point.id)), (position, point))
            for id in (0, 50, 10 ** 9):
                for asked in (sheet.position, sheet.point):
                    with self.assertRaises(ring.NoSuchId):
                        asked(id)
            sheet.close()
            with self.assertRaises(ring.WorkerFault):
                self.ring.own_page(sheet)
        self.assertEqual(self.ring.own_page(self.pumps).source, ring.Source(7, 7, 0, 2, True, False))

    def test_what_a_worker_kept_goes_with_it(self):
        with ring.Ring(worker()) as one, ring.Ring(worker()) as other:
            first, theirs = one.pack([(1, 0, 0)], 3), other.pack([(9, 5, 5)], 4)
            book, depot = one.book(ring.Source(3, 4), 5), one.depot(5)
            self.assertEqual(first.handle.number, theirs.handle.number)
            with self.assertRaisesRegex(ring.WorkerFault, "kept by another worker"):
                one.page(first, theirs)
            one._worker.killed()
            second = one.pack([(7, 1, 1)], 5)
            # under the number of the old sheet the new worker keeps another
            self.assertEqual(first.handle.number, second.handle.number)
            for asked in (lambda: one.own_page(first), lambda: first.position(1), book.next_key, book.forms, lambda: depot.held):
                with self.assertRaisesRegex(ring.WorkerFault, "the worker that kept it is gone"):
                    asked()
            # what is given up of the old worker is not taken from the new one
            third, number = one.pack([(8, 1, 1)], 6), book.handle.number
            self.assertEqual(third.handle.number, number)
            first.close()
            del book, asked
            gc.collect()
            self.assertEqual((one.own_page(second).source.p_edition, one.own_page(third).source.p_edition), (5, 6))
            second.close()
            with self.assertRaisesRegex(ring.WorkerFault, "it is closed"):
                one.own_page(second)

    def test_what_nobody_holds_is_forgotten(self):
        with ring.Ring(worker()) as r:
            data, kept = self.pumps.data, r.pack([(1, 0, 0)], 3)
            small = kept.data
            for turn in range(4200):
                r.sheet(small)
            self.assertLess(r.sheet(data).handle.number, 10)
            self.assertEqual(r.own_page(kept).source.p_edition, 3)

    def refusal(self, number, call, *words, **more):
        with self.assertRaises(ring.Refused) as raised:
            call(*words, **more)
        self.assertEqual((raised.exception.number, raised.exception.reason), (number, refusals.reason(number)))
        self.assertIn("refused by %d: %s" % (number, refusals.reason(number)), str(raised.exception))

    def test_refusals(self):
        r, p, q = self.ring, self.pumps, self.chambers
        wide = r.pack([(1, 2_000_000, 0)], 3)
        self.refusal(1, r.sheet, b"")
        self.refusal(5, r.pack, [(0, 0, 0)], 1)
        self.refusal(5, r.pack, [(1, 2 ** 40, 0)], 1)
        self.refusal(5, r.pack, [(1, 0, 0), (1, 1, 1)], 1)
        self.refusal(3, r.pack, [(1, 0, 0)], 0)
        self.refusal(2, r.pack, [(1, 0, 0)], 1, form=3)
        self.refusal(6, r.pack, [(1, 0, 0), (2, 0, 0)], 1, order=[0, 0])
        self.refusal(18, r.pack, [(1, 0, 0), (2, 0, 0)], 1, order=[0])
        self.refusal(9, r.page, p, q, key=(2_000_000_001, 0))
        self.refusal(10, r.page, p, q, size=0)
        self.refusal(21, r.page, p, q, threshold=60_001)
        self.refusal(27, r.page, p, q, contractor=3)
        self.refusal(26, r.page, p, q, contractor=1)
        self.refusal(26, r.page, p, q, contractor=1, owners=[2] * 120)
        self.refusal(26, r.page, p, q, owners=[0] * 120)
        self.refusal(29, r.page, p, wide, grid=True)
        self.refusal(29, r.own_page, wide, grid=True)
        self.refusal(20, r.nearest, p, q, 4)
        self.refusal(10, r.shortest, p, q, 17)
        self.refusal(21, r.partners, p, q, 1004, 0)
        self.refusal(5, r.marker, (2_000_000_000, 0), (0, 0))
        self.refusal(3, r.book, ring.Source(0, 1), 5)
        for call, words in ((r.page, (p, q, (-1, 0))), (r.page, (p, q, (2 ** 32, 0))), (r.book, (ring.Source(1, 1), -1))):
            with self.assertRaises(ValueError):
                call(*words)
        with self.assertRaises(TypeError):
            r.page(p, q, size=True)
        with self.assertRaises(ring.BadFile):
            r.sheet(b"abc")

    def test_lists_are_those_of_the_reading(self):
        rng = random.Random(4)
        for turn in range(12):
            sets = [[(k, rng.randint(-9, 9), rng.randint(-9, 9)) for k in sorted(rng.sample(range(1, 99), rng.randrange(1, 30)))] for _ in range(2)]
            p, q = (self.ring.pack(points, edition) for points, edition in zip(sets, (3, 4)))
            owners = [rng.randrange(2) for _ in sets[1]]
            owner = {point[0]: one for point, one in zip(sets[1], owners)}
            for grid in (False, True):
                want = reading.ring_list(*sets, grid)
                self.assertEqual(list(self.ring.pairs(p, q, grid=grid)), want)
                self.assertEqual(self.ring.count(p, q, grid=grid), len(want))
                self.assertEqual(len(list(self.ring.pages(p, q, grid=grid))), max(1, -(-len(want) // 16)))
                self.assertEqual(list(self.ring.pairs(p, q, grid=grid, threshold=2)), reading.list_of(want, 2))
                for contractor in (0, 1):
                    mine = [pair for pair in want if owner[pair[0]] == contractor]
                    self.assertEqual(list(self.ring.pairs(p, q, grid=grid, contractor=contractor, owners=owners)), mine)
                own = reading.self_list(sets[0], grid)
                self.assertEqual((list(self.ring.own_pairs(p, grid=grid)), self.ring.own_count(p, grid=grid)), (own, len(own)))
                for largest in [0, 8 * 10 ** 18] + [rng.choice(want + own)[2] + more for more in (-1, 0) if want + own]:
                    largest = max(0, largest)
                    for t in (0, 2):
                        near = reading.list_up_to(want, largest, t)
                        self.assertEqual((list(self.ring.pairs(p, q, grid=grid, largest=largest, threshold=t)), self.ring.count(p, q, grid=grid, largest=largest, threshold=t)), (near, len(near)))
                    near = reading.up_to(own, largest)
                    self.assertEqual((list(self.ring.own_pairs(p, grid=grid, largest=largest)), self.ring.own_count(p, grid=grid, largest=largest)), (near, len(near)))
            self.assertEqual(self.ring.shortest(p, q, 7), reading.shortest_of(reading.ring_list(*sets), 7))

    def test_many_pairs_at_once(self):
        """As many as there are slots, strictly after a key, and whether more follow; in batches, whatever their length; refusals by number."""
        r, p, q = self.ring, self.pumps, self.chambers
        want, own = [reading.ring_list(p.points, q.points), reading.self_list(p.points)]
        for slots in (0, 1, len(want) - 1, len(want), len(want) + 1):
            self.assertEqual(r.many(p, q, slots=slots), (tuple(want[:slots]), slots < len(want)))
            self.assertEqual(r.own_many(p, slots=slots), (tuple(own[:slots]), slots < len(own)))
        self.assertEqual(r.many(p, q, want[3][:2], 2), (tuple(want[4:6]), True))
        self.assertEqual(list(r.pairs(p, q, key=want[3][:2])), want[4:])
        for few, most in ((1, 1), (1, 16), (7, 7), (1000, 1000)):
            with mock.patch.multiple("ring.api", FEW=few, MOST=most):
                self.assertEqual((list(r.pairs(p, q)), list(r.own_pairs(p))), (want, own))
        wide = r.pack([(1, 2_000_000, 0)], 1)
        for call in (r.many, r.count):
            self.refusal(27, call, p, q, contractor=3)
            self.refusal(26, call, p, q, contractor=1, owners=[2] * 120)
            self.refusal(29, call, p, wide, grid=True)
            self.refusal(21, call, p, q, threshold=60_001)
            self.refusal(40, call, p, q, largest=8 * 10 ** 18 + 1)
        self.refusal(9, r.many, p, q, key=(2_000_000_001, 0))
        self.refusal(29, r.own_count, wide, grid=True)
        self.refusal(9, r.own_many, p, key=(0, 2_000_000_001))
        for call in (r.own_many, r.own_count):
            self.refusal(40, call, p, largest=2 ** 64 - 1)
        with self.assertRaises(ValueError):
            r.count(p, q, largest=2 ** 64)

    def test_the_busiest_and_the_most_urgent(self):
        """Against the reading, for sheets by chance, k at its ends, contractors, both profiles, to a size; refusals by number, in their order."""
        rng, r = random.Random(5), self.ring
        for turn in range(10):
            sets = [[(k, rng.randint(-9, 9), rng.randint(-9, 9)) for k in sorted(rng.sample(range(1, 99), rng.randrange(30)))] for _ in range(2)]
            p, q = (r.pack(points, edition) for points, edition in zip(sets, (3, 4)))
            words = [list(sheet.words) for sheet in (p, q)]
            owners = [rng.randrange(2) for _ in sets[1]]
            p_scores, q_scores = ([rng.choice((0, 1, 2, 10 ** 9)) for _ in points] for points in sets)
            for grid in (False, True):
                whole = reading.ring_list(*sets, grid)
                for largest in [None, 0] + [pair[2] for pair in whole[:2]]:
                    to, k = reading.ANY_SIZE if largest is None else largest, rng.choice((1, 3, 16))
                    for contractor in (0, 1, 2):
                        whose = owners if contractor < 2 else []
                        terms = {"grid": grid, "contractor": contractor, "owners": whose}
                        self.assertEqual(r.busiest(p, q, k, largest, **terms), reading.busiest_call(*words, k, to, whole, **terms)[1])
                        self.assertEqual(r.urgent(p, q, p_scores, q_scores, k, largest, **terms), reading.urgent_call(*words, p_scores, q_scores, k, to, whole, **terms)[1])
                    self.assertEqual(r.busiest_pumps(p, q, k, largest, grid=grid), reading.busiest_pumps_call(*words, k, to, whole, grid=grid)[1])
        p, q = self.pumps, self.chambers
        wide, over, none = r.pack([(1, 2_000_000, 0)], 1), 10 ** 9 + 1, [0] * 120
        ranks, visits = r.busiest(p, q), r.urgent(p, q, [0] * p.n, none, 2)
        self.assertEqual((len(ranks), sorted(ranks, key=lambda rank: (-rank.pairs, rank.id))), (16, ranks))
        self.assertEqual([(visit.pair, visit.score) for visit in visits], [(pair, 0) for pair in list(r.pairs(p, q))[:2]])
        for call in (r.busiest, lambda p, q, *more, **terms: r.urgent(p, q, [over], [over], *more, **terms)):
            self.refusal(27, call, p, wide, 0, 8 * 10 ** 18 + 1, contractor=3, grid=True)
            self.refusal(26, call, p, wide, 0, 8 * 10 ** 18 + 1, contractor=1, owners=[2], grid=True)
            self.refusal(29, call, p, wide, 0, 8 * 10 ** 18 + 1, contractor=1, owners=[1], grid=True)
            self.refusal(10, call, p, q, 0, 8 * 10 ** 18 + 1)
            self.refusal(10, call, p, q, 17)
            self.refusal(40, call, p, q, 16, 8 * 10 ** 18 + 1)
        self.refusal(29, r.busiest_pumps, p, wide, 0, 8 * 10 ** 18 + 1, grid=True)
        self.refusal(10, r.busiest_pumps, p, q, 17, 8 * 10 ** 18 + 1)
        self.refusal(40, r.busiest_pumps, p, q, 1, 8 * 10 ** 18 + 1)
        for few in ([], [0] * (p.n - 1), [0] * (p.n + 1), [over] + [0] * (p.n - 1), [0] * (p.n - 1) + [2 ** 32 - 1]):
            self.refusal(41, r.urgent, p, q, few, [])
        for few in ([], none[1:], none + [0], [over] + none[1:], none[1:] + [2 ** 32 - 1]):
            self.refusal(42, r.urgent, p, q, [10 ** 9] * p.n, few)
        for call in (lambda: r.busiest(p, q, -1), lambda: r.busiest_pumps(p, q, largest=2 ** 64), lambda: r.urgent(p, q, [2 ** 32], none)):
            with self.assertRaises(ValueError):
                call()

    def test_a_book_through_lost_late_and_repeated_pages(self):
        r, p, q = self.ring, self.pumps, self.chambers
        want = list(r.pairs(p, q))
        rng = random.Random(9)
        book, old = r.book(ring.Source(7, 9), room=len(want)), []
        refused = set()
        while not book.closed:
            page = r.page(p, q, book.next_key(), size=rng.randrange(1, 17))
            old.append(page)
            for one in rng.sample(old, min(len(old), 3)) + ([page] if rng.random() < 0.7 else []):
                before = book.pairs()
                try:
                    book.take(one)
                except ring.Refused as fault:
                    refused.add(fault.number)
                    self.assertEqual(book.pairs(), before)
            self.assertEqual(book.pairs(), want[:book.held])
        self.assertEqual(book.pairs(), want)
        self.assertIn(14, refused)
        with self.assertRaises(ring.Refused) as raised:
            book.take(old[-1])
        self.assertEqual(raised.exception.number, 12)
        forms = book.forms()
        self.assertEqual([(form.q, form.p, form.size, form.p_edition, form.q_edition, form.contractor) for form in forms], [(*pair, 7, 9, 2) for pair in want])
        depot = r.depot(len(forms))
        sent = forms + rng.sample(forms, 50)
        rng.shuffle(sent)
        self.assertEqual(sum(depot.take(form) for form in sent), len(forms))
        self.assertEqual(sorted(depot.forms()), sorted(forms))
        with self.assertRaises(ring.Refused) as raised:
            depot.take(forms[0]._replace(q=forms[0].q + 1))
        self.assertEqual(raised.exception.number, 16)

    def test_stored_and_read_again(self):
        r, path = self.ring, self.path("x")
        book = r.book(ring.Source(7, 9, 2, 1, False, True), room=3)
        page = ring.Page(ring.Source(7, 9, 2, 1, False, True), ring.Key(0, 0), (ring.Pair(1, 2, 16_000_000_000_000), ring.Pair(3, 4, 0)), True)
        book.take(page)
        book.write(path)
        again = r.read_book(path)
        self.assertEqual((again.source, again.room, again.pairs(), again.closed), (book.source, 3, [(1, 2, 16_000_000_000_000), (3, 4, 0)], True))
        depot = r.depot(5)
        form = ring.Form(7, 9, False, 1, True, 1, 2, 8_000_000_000_000_000_000)
        depot.take(form)
        depot.write(path)
        self.assertEqual(r.read_depot(path).forms(), [form])
        # a file that fits its digest and is still no book
        for head, rows in ((dict({"ring-book": 2, "room": 1, "closed": True}, **book.source._asdict()), []), ({"ring-book": 1}, []), (dict({"ring-book": 1, "room": 1, "closed": 1}, **book.source._asdict()), []),
                           (dict({"ring-book": 1, "room": 1, "closed": True}, **book.source._asdict()), [(1, 2)]),
                           (dict({"ring-book": 1, "room": 1, "closed": True}, **dict(book.source._asdict(), grid=1)), []), ([], []), ({"ring-depot": 1, "room": -1}, [])):
            with open(path, "wb") as f:
                f.write(stored.text_of(head, rows))
            with self.assertRaises(ring.BadFile):
                (r.read_depot if "ring-depot" in head else r.read_book)(path)
        with open(path, "wb") as f:
            f.write(stored.text_of(dict({"ring-book": 1, "room": 0, "closed": True}, **book.source._asdict()), [(1, 2, 3)]))
        with self.assertRaises(ring.Refused) as raised:
            r.read_book(path)
        self.assertEqual(raised.exception.number, 11)


class Header(unittest.TestCase):
    def test_each_number_of_the_header_has_a_reason(self):
        with open(refusals.HEADER, encoding="utf-8") as f:
            text = f.read()
        end = text[text.rindex("The numbers of refusal"):]
        import re
        listed = {int(number) for number in re.findall(r"^ \* +(\d+)  ", end, re.M)}
        self.assertEqual(set(refusals.table()), listed)
        names = [name for name, _ in refusals.table().values()]
        self.assertEqual(len(set(names)), len(names))
        self.assertEqual(re.search(r"RING_LAST_REFUSAL = (\d+)", text).group(1), str(max(listed)))
        version = re.findall(r"^#define RING_VERSION_\w+ (\d+)$", text, re.M)
        self.assertIn('#define RING_VERSION "%s"\n' % ".".join(version), text)
        # a number that is lost is told
        self.assertNotEqual(set(refusals.read(text.replace("    X(25,", "    Y(25,"))), listed)


class Examples(unittest.TestCase):
    def test_the_kept_client(self):
        done = subprocess.run([sys.executable, os.path.join(TOP, "clients", "client.py")], env=surroundings(PYTHONPATH=os.path.join(TOP, "python")), stdout=subprocess.PIPE, timeout=600)
        with open(os.path.join(TOP, "clients", "expected.txt"), "rb") as f:
            self.assertEqual((done.returncode, done.stdout), (0, f.read()))

    def test_the_package_needs_the_standard_library_alone(self):
        allowed = set(sys.stdlib_module_names) | {"ring", "kit"}
        import ast
        for name in os.listdir(os.path.join(TOP, "python", "ring")):
            if name.endswith(".py"):
                with open(os.path.join(TOP, "python", "ring", name), encoding="utf-8") as f:
                    for node in ast.walk(ast.parse(f.read())):
                        modules = [one.name for one in node.names] if isinstance(node, ast.Import) else [node.module] if isinstance(node, ast.ImportFrom) and not node.level else []
                        # a cluster's list alone needs `distributed`
                        self.assertLessEqual({one.split(".")[0] for one in modules}, allowed | ({"distributed"} if name == "cluster.py" else set()), name)


if __name__ == "__main__":
    unittest.main()
