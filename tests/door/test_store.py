"""The store: a book and a depot in one SQLite file, what changes together, what a refused or failed step leaves, two processes, sending and the example receiver."""
import json
import os
import re
import sqlite3
import subprocess
import sys
import unittest

from base import TOP, built, ran, read, surroundings, within, worker
from test_command import TOWN_SHEETS, Commands, stored

import reading
import ring
from ring import door, follow, progress, receiver, records, store
from ring.receiver import Receiver
from ring.store import Store

RECEIVER = [sys.executable, os.path.join(TOP, "python", "ring", "receiver.py")]
SOURCE = records.Source(7, 9)


class Stores(Commands):
    def setUp(self):
        super().setUp()
        self.at = self.path("town.store")
        self.listed = [tuple(map(int, (line.split()[0], line.split()[1], line.split()[4]))) for line in stored("listing.txt").decode().split("\n")[:-2]]
        self.forms = [records.Form(7, 9, False, 2, False, *pair) for pair in self.listed]

    def opened(self, **words):
        one = Store(self.at, self.ring, **words)
        self.addCleanup(one.close)
        return one

    def page(self, key, size=16):
        return self.ring.page(self.pumps, self.chambers, key, size)

    def rows(self):
        """All that the file holds."""
        with sqlite3.connect(self.at) as db:
            return list(db.iterdump())

    def taken(self, book, count, size=16):
        for _ in range(count):
            book.take(self.page(book.next_key(), size))


class Books(Stores):
    def test_followed_in_parts_and_shown(self):
        self.assertIn("32 pairs held, not all yet\n%s: 32 orders, 32 issued now, 32 not confirmed" % self.at, self.served("book", "follow", *TOWN_SHEETS, "--store", self.at, "--pages", 2))
        shown = self.json("book", "show", "--store", self.at)
        self.assertEqual([tuple(one.values()) for one in shown["books"][0]["pairs"]], self.listed[:32])
        self.assertEqual([tuple(one.values()) for one in shown["forms"]], self.forms[:32])
        for issued in (72, 0):
            self.assertEqual(self.served("book", "follow", *TOWN_SHEETS, "--store", self.at), "%s: editions 7 and 9; 104 pairs held, and these are all\n%s: 104 orders, %d issued now, "
                             "104 not confirmed by a receiver\n" % (self.at, self.at, issued))
        shown = self.json("book", "show", "--store", self.at)
        self.assertEqual([tuple(one.values()) for one in shown["books"][0]["pairs"]], self.listed)
        self.assertEqual([tuple(one.values()) for one in shown["forms"]], self.forms)
        self.assertEqual((shown["books"][0]["pages"], shown["books"][0]["closed"], shown["unconfirmed"]), (7, True, 104))

    def test_an_interrupt_and_on(self):
        asked, page = [], self.ring.page

        def once(*words, **terms):
            asked.append(1)
            if len(asked) == 4:
                raise KeyboardInterrupt
            return page(*words, **terms)
        self.ring.page = once
        try:
            self.assertEqual(self.call("book", "follow", *TOWN_SHEETS, "--store", self.at)[0], 130)
        finally:
            del self.ring.page
        self.assertEqual(self.json("book", "show", "--store", self.at)["books"][0]["held"], 48)
        self.assertIn("104 issued now", self.served("book", "follow", *TOWN_SHEETS, "--store", self.at))

    def test_how_far_it_is_is_said(self):
        before = progress.FIRST, progress.BETWEEN
        progress.FIRST = progress.BETWEEN = 0.0
        try:
            status, _, said = self.call("book", "follow", *TOWN_SHEETS, "--store", self.at, "--forms", 0)
        finally:
            progress.FIRST, progress.BETWEEN = before
        self.assertEqual(status, 0)
        self.assertRegex(said, r"ring: 48 pairs held, 48 forms handed in, \d+ seconds so far\n")

    def test_what_was_taken_is_kept_with_what_it_brought(self):
        with self.opened() as one:
            book = one.book(SOURCE)
            self.taken(book, 2, 5)
            self.assertEqual(book.taken(), [(records.Key(0, 0), 5, False), (records.Key(*self.listed[4][:2]), 5, False)])
            self.assertEqual((book.state(), book.pairs()), (store.State(10, False, 0), self.listed[:10]))
            self.assertEqual(book.issue(), self.forms[:10])
            self.assertEqual((book.issue(), book.state()), ([], store.State(10, False, 10)))
        # and the file itself has each key once, whoever writes it
        with sqlite3.connect(self.at) as db, self.assertRaises(sqlite3.IntegrityError):
            db.execute("INSERT INTO orders (%s, size) VALUES (?, ?, ?, ?, ?, ?, ?, ?)" % store.KEY, self.forms[3])

    def test_many_forms_go_in_parts(self):
        """Each part is there whole or not at all, and the next call goes on after the last that is."""
        before, store.HANDED = store.HANDED, 9
        try:
            with self.opened() as one:
                book, handed = one.book(SOURCE), []
                self.taken(book, 7)
                take = ring.Depot.take

                def broken(depot, form):
                    handed.append(form)
                    if len(handed) == 25:
                        raise KeyboardInterrupt
                    return take(depot, form)
                ring.Depot.take = broken
                try:
                    with self.assertRaises(KeyboardInterrupt):
                        book.issue()
                finally:
                    ring.Depot.take = take
                self.assertEqual((one.orders(), book.state().formed), (self.forms[:18], 18))
                self.assertEqual((book.issue(), one.orders()), (self.forms[18:], self.forms))
        finally:
            store.HANDED = before

    def test_a_refused_page_changes_nothing(self):
        with self.opened() as one:
            book = one.book(SOURCE)
            first, later = self.page((0, 0)), self.page(self.listed[31][:2])
            book.take(first)
            before = self.rows()
            other = first._replace(source=first.source._replace(q_edition=8))
            for page, number in ((first, 14), (later, 14), (other, 13), (first._replace(source=first.source._replace(grid=True)), 30)):
                with self.assertRaises(ring.Refused) as fault:
                    book.take(page)
                self.assertEqual(fault.exception.number, number)
                self.assertEqual(self.rows(), before)
            self.taken(book, 6)
            self.assertEqual((book.pairs(), book.state().closed, book.next_key()), (self.listed, True, None))
            with self.assertRaises(ring.Refused) as fault:
                book.take(first)
            self.assertEqual(fault.exception.number, 12)

    def test_pages_lost_twice_late_and_out_of_order(self):
        with self.opened() as one:
            book, came, turn = one.book(SOURCE), [], [0]

            def page_after(key):
                turn[0] += 1
                if turn[0] % 5 == 1:
                    return None
                page = self.page(key, 7)
                came.append(page)
                return {2: came[0], 3: self.page(self.listed[60][:2], 7)}.get(turn[0] % 5, page)
            said = list(follow.follow(book, page_after, 0))
            self.assertEqual((book.pairs(), one.orders()), (self.listed, self.forms))
            self.assertEqual([form for _, issued in said for form in issued], self.forms)
            self.assertGreater(len(said), 104 // 7 * 2)

    def test_the_state_comes_from_the_file(self):
        """Two stores on one file take turns: neither hands an older state to the calls."""
        with Store(self.at, self.ring) as one, ring.Ring(worker()) as other_ring, Store(self.at, other_ring) as two:
            books = [one.book(SOURCE), two.book(SOURCE)]
            for turn in range(7):
                late = self.page(books[1 - turn % 2].next_key())
                books[turn % 2].take(late)
                with self.assertRaises(ring.Refused):
                    books[1 - turn % 2].take(late)
                books[(turn + 1) % 2 if turn % 3 else turn % 2].issue()
            for book in books:
                self.assertEqual(book.pairs(), self.listed)
                book.issue()
            self.assertEqual(one.orders(), self.forms)

    def test_a_step_that_fails_leaves_what_was(self):
        """A full disk, as SQLite has it: pages and orders that find no place are not there, and later are."""
        with sqlite3.connect(self.at) as db:
            db.executescript("PRAGMA page_size = 512; CREATE TABLE other (x); DROP TABLE other;")
        with self.opened() as one:
            book, failed = one.book(SOURCE), 0
            most = one._one("PRAGMA page_count")[0]
            while not (book.state().closed and book.state().formed == 104):
                one._db.execute("PRAGMA max_page_count = %d" % most)
                before = self.rows()
                try:
                    key = book.next_key()
                    if key is not None:
                        book.take(self.page(key, 3))
                    before = self.rows()
                    book.issue()
                except door.Failed as fault:
                    self.assertIn("full", str(fault))
                    self.assertEqual(self.rows(), before)
                    failed, most = failed + 1, most + 1
                self.assertEqual(book.pairs(), self.listed[:book.state().held])
                self.assertEqual(one.orders(), self.forms[:book.state().formed])
            self.assertGreater(failed, 2)

    def test_a_worker_that_is_killed(self):
        """The step that it was asked for fails, the file is as it was, and the next step begins a new one from the file."""
        with ring.Ring(worker()) as own, Store(self.at, own) as one:
            book = one.book(SOURCE)
            for _ in range(2):
                page = self.page(book.next_key())
                for step in (lambda: book.take(page), book.issue):
                    before = self.rows()
                    own._worker.process.kill()
                    own._worker.process.wait()
                    with self.assertRaises(ring.WorkerFault):
                        step()
                    self.assertEqual(self.rows(), before)
                    step()
            self.taken(book, 5)
            self.assertEqual(book.issue(), self.forms[32:])
            self.assertEqual((book.pairs(), one.orders(), book.state()), (self.listed, self.forms, store.State(104, True, 104)))

    def test_longer_slices_are_lent(self):
        before, store.ROOM = store.ROOM, 5
        try:
            self.served("book", "follow", *TOWN_SHEETS, "--store", self.at, "--forms", 0)
        finally:
            store.ROOM = before
        with self.opened() as one:
            self.assertEqual((one.book(SOURCE).pairs(), one.orders()), (self.listed, self.forms))

    def test_books_of_every_kind(self):
        self.served("book", "follow", TOWN_SHEETS[0], "--self", "--store", self.at)
        self.refused("holds books of editions 7 and 7, and the book is of others", "book", "follow", *TOWN_SHEETS, "--store", self.at)
        for words in (("--threshold", 2), ("--grid",)):
            self.served("book", "follow", *TOWN_SHEETS, "--store", self.at, "--new-edition", *words)
        with self.opened() as one:
            self_join, several, grid = [book.pairs() for book in one.books()]
            self.assertEqual([book.source for book in one.books()], [records.Source(7, 7, own=True), records.Source(7, 9, 2), records.Source(7, 9, grid=True)])
        points = [reading.Sheet(list(sheet.words)).points for sheet in (self.pumps, self.chambers)]
        self.assertEqual(self_join, reading.self_list(points[0]))
        self.assertEqual(several, reading.list_of(self.listed, 2))
        self.assertEqual(grid, reading.ring_list(*points, True))
        # the whole list and that of a threshold share their orders
        said = self.json("book", "follow", *TOWN_SHEETS, "--store", self.at, "--new-edition")
        self.assertEqual(said["issued"], 104 - len(several))

    def test_what_may_be_begun_is_settled_as_it_is_begun(self):
        """Two processes begin a book at once: what the second is allowed is by what the first has begun."""
        with self.opened() as one, Store(self.at, self.ring, wait=0.05) as two:
            def allowed():
                with self.assertRaises(door.Failed):
                    two.book(SOURCE._replace(contractor=1))
            one.book(SOURCE, allowed)
            self.assertEqual((two.editions(), [book.source for book in two.books()]), ({(7, 9)}, [SOURCE]))

            def refused():
                raise KeyboardInterrupt
            with self.assertRaises(KeyboardInterrupt):
                two.book(SOURCE._replace(contractor=1), refused)
            self.assertEqual(len(one.books()), 1)
        # a book of other editions counts before its first order
        self.refused("holds books of editions 7 and 9, and the book is of others", "book", "follow", TOWN_SHEETS[0], "--self", "--store", self.at)

    def test_contractors_share_a_store_and_no_visit_has_two_keys(self):
        owners = self.file("o.csv", "id,owner\n" + "".join("%d,%d\n" % (one.id, k % 2) for k, one in enumerate(self.chambers.points)))
        for contractor in (0, 1):
            self.served("book", "follow", *TOWN_SHEETS, "--store", self.at, "--contractor", contractor, "--owners", owners)
        with self.opened() as one:
            self.assertEqual(sorted(one.books()[0].pairs() + one.books()[1].pairs()), self.listed)
            self.assertEqual(sorted(form[5:] for form in one.orders()), self.listed)
            before = self.rows()
        for words in ((), ("--threshold", 2)):
            self.refused("would order visits twice, under two keys", "book", "follow", *TOWN_SHEETS, "--store", self.at, *words)
        self.assertEqual(self.rows(), before)
        self.served("book", "follow", *TOWN_SHEETS, "--store", self.path("other"), "--threshold", 2)
        self.refused("has a book of editions 7 and 9, at least 2 partners: beside it one of editions 7 and 9, contractor 1 would", "book", "follow", *TOWN_SHEETS, "--store", self.path("other"),
                     "--contractor", 1, "--owners", owners)

    def test_a_python_without_sqlite(self):
        """All but stores goes on."""
        self.file("sqlite3.py", "raise ImportError('none here')\n")
        words = [os.path.join(TOP, "ring")]
        self.assertEqual(ran(words + ["list"] + TOWN_SHEETS, PYTHONPATH=self.folder), (0, stored("listing.txt"), ""))
        self.assertEqual(ran(words + ["book", "show", "--store", self.at], PYTHONPATH=self.folder), (3, b"", "ring: a store needs Python's sqlite3, and this Python has none: none here\n"))

    def test_what_is_no_store_is_told(self):
        self.assertEqual(self.call("book", "show", "--store", self.at), (3, "", "ring: %s: No such file or directory\n" % self.at))
        self.assertFalse(os.path.exists(self.at))
        self.file("town.store", b"no database at all, and longer than its first page's head" * 30)
        self.refused("is no store of books, or was altered: file is not a database", "book", "show", "--store", self.at)
        os.unlink(self.at)
        with sqlite3.connect(self.at) as db:
            db.execute("CREATE TABLE other (x)")
        before = read(self.at)
        for words in (("show",), ("follow", *TOWN_SHEETS)):
            self.refused("is no store of books", "book", words[0], *words[1:], "--store", self.at)
        self.assertEqual(read(self.at), before)
        os.unlink(self.at)
        self.served("book", "follow", *TOWN_SHEETS, "--store", self.at, "--pages", 2)
        with sqlite3.connect(self.at) as db:
            db.execute("DELETE FROM slots WHERE at = 3")
        self.refused("was altered: 31 slots beside a state of 32 held", "book", "follow", *TOWN_SHEETS, "--store", self.at)
        with sqlite3.connect(self.at) as db:
            db.execute("UPDATE books SET formed = held + 1")
        with within(20):
            self.refused("was altered: forms of 33 pairs beside a state of 32 held", "book", "follow", *TOWN_SHEETS, "--store", self.at)
        with sqlite3.connect(self.at) as db:
            db.execute("PRAGMA user_version = 3")
        self.refused("of another version", "book", "show", "--store", self.at)
        Receiver(self.path("r")).close()
        self.refused("is no store of books", "book", "show", "--store", self.path("r"))

    def test_a_second_process_waits(self):
        with self.opened() as one, Store(self.at, self.ring, wait=0.05) as two:
            book, other = one.book(SOURCE), two.book(SOURCE)
            with one.changing():
                with self.assertRaises(door.Failed) as fault:
                    other.take(self.page((0, 0)))
                self.assertIn("another process holds it", str(fault.exception))
            other.take(self.page((0, 0)))
            self.assertEqual(book.state().held, 16)

    def test_wrong_use(self):
        for words in ((TOWN_SHEETS[0],), (*TOWN_SHEETS, "--self"), (TOWN_SHEETS[0], "--self", "--threshold", 2)):
            self.assertEqual(self.call("book", "follow", *words, "--store", self.at)[0], 2)
        self.assertEqual(self.call("book", "follow", *TOWN_SHEETS)[0], 2)
        self.refused("refused by 21", "book", "follow", *TOWN_SHEETS, "--store", self.at, "--threshold", 60001)
        # a book in a file of its own may have these names
        os.chdir(self.folder)
        try:
            self.served("book", "./follow", *TOWN_SHEETS)
        finally:
            os.chdir(TOP)
        self.assertTrue(os.path.exists(self.path("follow")))


class Sending(Stores):
    def setUp(self):
        super().setUp()
        self.served("book", "follow", *TOWN_SHEETS, "--store", self.at)
        self.received = self.path("orders.received")

    def test_until_each_is_confirmed(self):
        """Orders and confirmations are lost, orders come twice: the receiver holds each once."""
        came = []
        with self.opened() as one, Receiver(self.received) as receiver:
            def give(number, form):
                came.append(form)
                if len(came) % 4 == 1:
                    return False
                receiver.take(form)
                return len(came) % 4 != 2
            confirmed = sum(follow.send(one.outbox(), give))
            self.assertEqual((confirmed, one.counts(), receiver.orders()), (104, (104, 0), sorted(self.forms)))
            self.assertEqual(set(came), set(self.forms))
            self.assertGreater(len(came), 150)
            self.assertEqual(list(follow.send(one.outbox(), give)), [])

    def test_a_receiver_that_confirms_nothing(self):
        with self.opened() as one:
            self.assertEqual(sum(follow.send(one.outbox(), lambda number, form: False)), 0)
            self.assertEqual(one.counts(), (104, 104))

    def test_a_mark_that_was_not_kept(self):
        """The sender ends between the confirmation and its mark: the order is sent again, and dropped."""
        with Receiver(self.received) as receiver:
            with self.opened() as one:
                def give(number, form):
                    if number == 10:
                        raise KeyboardInterrupt
                    return receiver.take(form) or True
                with self.assertRaises(KeyboardInterrupt):
                    list(follow.send(one.outbox(), give))
                self.assertEqual((one.counts(), len(receiver.orders())), ((104, 104), 9))
            with self.opened() as one:
                new = []
                list(follow.send(one.outbox(), lambda number, form: new.append(receiver.take(form)) or True))
                self.assertEqual((new, one.counts()), ([False] * 9 + [True] * 95, (104, 0)))

    def test_to_a_program(self):
        short = self.file("short.py", "import sys\nfor k in range(40):\n    print(__import__('json').loads(sys.stdin.readline())['number'], flush=True)\n")
        status, printed, said = self.call("book", "send", "--store", self.at, "--", sys.executable, short)
        self.assertEqual((status, printed), (3, "%s: to undivided: 40 orders confirmed now, 64 of 104 not confirmed\n" % self.at))
        self.assertIn("ring: 64 orders are not confirmed: the same command sends them again\n", said)
        wrong = self.file("wrong.py", "import sys\nfor line in sys.stdin:\n    print(0, flush=True)\n")
        self.assertEqual(self.call("book", "send", "--store", self.at, "--", sys.executable, wrong)[:2], (3, "%s: to undivided: 0 orders confirmed now, 64 of 104 not confirmed\n" % self.at))
        self.assertEqual(self.call("book", "send", "--store", self.at, "--", *RECEIVER, self.received)[:2], (0, "%s: to undivided: 64 orders confirmed now, 0 of 104 not confirmed\n" % self.at))
        self.assertEqual(json.loads(self.served("book", "send", "--json", "--store", self.at, "--", *RECEIVER, self.received)), {"file": self.at, "receiver": "undivided", "contractor": 2, "orders": 104, "confirmed": 0, "unconfirmed": 0})
        with Receiver(self.received) as receiver:
            self.assertEqual(receiver.orders(), sorted(self.forms[40:]))
        self.assertEqual(self.call("book", "send", "--store", self.at, "--", self.path("none"))[::2], (3, "ring: %s: No such file or directory\n" % self.path("none")))

    def test_to_a_program_that_falls_silent(self):
        """It is ended after a while, what it confirmed before is kept, and another is sent the rest."""
        silent = self.file("silent.py", "import sys, time\nfor k in range(70):\n    print(__import__('json').loads(sys.stdin.readline())['number'], flush=True)\ntime.sleep(600)\n")
        status, printed, said = self.call("book", "send", "--store", self.at, "--wait", 0.5, "--", sys.executable, silent)
        self.assertEqual((status, printed), (3, "%s: to undivided: 70 orders confirmed now, 34 of 104 not confirmed\n" % self.at))
        self.assertIn("ring: the receiver was silent for 0.5 seconds, and was ended; 34 orders are not confirmed: the same command sends them again\n", said)
        self.assertEqual(self.call("book", "send", "--store", self.at, "--", *RECEIVER, self.received)[:2], (0, "%s: to undivided: 34 orders confirmed now, 0 of 104 not confirmed\n" % self.at))

    def answering(self, name, code):
        """A receiver that is ended, and says why; it confirms so many orders."""
        with within(20):
            status, printed, said = self.call("book", "send", "--store", self.at, "--wait", 1, "--", sys.executable, self.file(name, "import sys, time\n" + code))
        self.assertEqual(status, 3)
        return int(re.search(r"undivided: (\d+) orders confirmed now", printed).group(1)), said

    def test_answers_that_nobody_asked_for(self):
        """All numbers at once, some before an order was read, another number, with nothing read at all: none of these is a confirmation."""
        for name, code, most in (("all.py", "print('\\n'.join(map(str, range(1, 105))), flush=True)\ntime.sleep(60)\n", 0),
                                 ("ahead.py", "for k in range(1, 105):\n    sys.stdin.readline()\n    print('%d\\n%d' % (k, k + 1), flush=True)\n", 0),
                                 ("other.py", "for line in sys.stdin:\n    print(77, flush=True)\n", 0)):
            confirmed, said = self.answering(name, code)
            self.assertEqual(confirmed, most, name)
            self.assertRegex(said, "the receiver answered (before it was asked|'77', where 1 or an empty line was due); 104 orders are not confirmed")
        # an empty line is no confirmation, and no fault
        some = self.file("some.py", "import json, sys\nfor line in sys.stdin:\n    number = json.loads(line)['number']\n    print(number if number % 2 else '', flush=True)\n")
        self.assertIn("52 orders confirmed now, 52 of 104 not confirmed", self.call("book", "send", "--store", self.at, "--", sys.executable, some)[1])

    def test_a_line_without_end(self):
        confirmed, said = self.answering("long.py", "sys.stdin.readline()\nwhile True:\n    sys.stdout.write('1' * 65536)\n")
        self.assertEqual(confirmed, 0)
        self.assertIn("the receiver answered a line of over 1024 bytes; 104 orders are not confirmed", said)

    def test_a_receiver_that_does_not_read(self):
        """Its pipe is full, and it answers now and then what is no line: the wait is the wait."""
        before, receiver.line_of = receiver.line_of, lambda number, form: " " * 200_000 + before(number, form)
        try:
            confirmed, said = self.answering("deaf.py", "while True:\n    time.sleep(0.2)\n    sys.stdout.write('1')\n    sys.stdout.flush()\n")
        finally:
            receiver.line_of = before
        self.assertEqual(confirmed, 0)
        self.assertIn("the receiver was silent for 1 seconds, and was ended; 104 orders", said)

    def test_each_receiver_is_handed_the_orders_of_its_contractor(self):
        owners = self.file("o.csv", "id,owner\n" + "".join("%d,%d\n" % (one.id, k % 2) for k, one in enumerate(self.chambers.points)))
        other = self.path("shared.store")
        for contractor in (0, 1):
            self.served("book", "follow", *TOWN_SHEETS, "--store", other, "--contractor", contractor, "--owners", owners)
        whose = {one.id: k % 2 for k, one in enumerate(self.chambers.points)}
        files = [self.path("r%d" % contractor) for contractor in (0, 1)]
        self.refused("has orders of contractor 0 and of contractor 1: say whose are sent, by --contractor", "book", "send", "--store", other, "--", *RECEIVER, files[0])
        self.refused("has no book of undivided", "book", "send", "--store", other, "--contractor", 2, "--", *RECEIVER, files[0])
        self.assertFalse(os.path.exists(files[0]))
        counts = [len([one for one in self.listed if whose[one[0]] == contractor]) for contractor in (0, 1)]
        for contractor in (0, 1):
            self.assertIn("to contractor %d: %d orders confirmed now, 0 of %d not" % (contractor, counts[contractor], counts[contractor]),
                          self.served("book", "send", "--store", other, "--contractor", contractor, "--", *RECEIVER, files[contractor]))
            with Receiver(files[contractor]) as receiver:
                self.assertEqual([form[5:] for form in receiver.orders()], [one for one in self.listed if whose[one[0]] == contractor])
            shown = self.json("book", "show", "--store", other)
            self.assertEqual(shown["unconfirmed"], 104 - sum(counts[:contractor + 1]))
        # a second receiver of one contractor's orders has marks of its own
        again = self.path("again")
        said = json.loads(self.served("book", "send", "--json", "--store", other, "--contractor", 0, "--to", "archive", "--", *RECEIVER, again))
        self.assertEqual((said["confirmed"], said["receiver"], self.json("book", "show", "--store", other)["receivers"]),
                         (counts[0], "archive", {"archive": counts[0], "contractor 0": counts[0], "contractor 1": counts[1]}))
        # nor does a mark stand for an order of another's
        with Store(other, self.ring) as one:
            one.outbox(0, "third").confirm(range(1, 105))
            self.assertEqual(one.receivers()["third"], counts[0])

    def test_what_is_no_order_is_not_confirmed(self):
        right = dict(self.forms[0]._asdict(), number=1)
        for line in ([dict(right, **{part: None}) for part in right] + [dict(right, q="7"), dict(right, size=-1), dict(right, own=1), dict(right, p=True), dict(right, contractor=3), {}, [], 5, None]
                     + [{part: value for part, value in right.items() if part != left} for left in right]):
            done = subprocess.run(RECEIVER + [self.received], input=(json.dumps(line) + "\n").encode(), stdout=subprocess.PIPE, stderr=subprocess.PIPE, env=surroundings())
            self.assertEqual((done.returncode, done.stdout), (1, b""), line)
            self.assertRegex(done.stderr.decode(), "^receiver: no order: .*\n$")
        for data in (b"{\n", b"\xff\n", b"1" * 5000, json.dumps(right).encode()):
            done = subprocess.run(RECEIVER + [self.received], input=data, stdout=subprocess.PIPE, stderr=subprocess.PIPE, env=surroundings())
            self.assertEqual((done.returncode, done.stdout), (1, b""))
        with Receiver(self.received) as receiver:
            self.assertEqual(receiver.orders(), [])
        # a repeat with another size is of another list
        other = dict(right, size=right["size"] + 1)
        done = subprocess.run(RECEIVER + [self.received], input="".join(json.dumps(one) + "\n" for one in (right, other)).encode(), stdout=subprocess.PIPE, stderr=subprocess.PIPE, env=surroundings())
        self.assertEqual((done.returncode, done.stdout), (1, b"1\n"))
        self.assertIn(b"two lists under one edition", done.stderr)

    def test_seconds_are_a_number(self):
        for words in (("send", "--store", self.at, "--wait", "nan", "--", "true"), ("send", "--store", self.at, "--wait", "-1", "--", "true"), ("send", "--store", self.at, "--wait", "inf", "--", "true"),
                      ("follow", *TOWN_SHEETS, "--store", self.at, "--forms", "nan")):
            self.assertEqual(self.call("book", *words)[:2], (2, ""), words)

    def test_the_receiver_drops_repeats_by_key(self):
        one, two = self.forms[0], self.forms[0]._replace(p_edition=8)
        lines = "".join(json.dumps(dict(form._asdict(), number=number)) + "\n" for number, form in ((5, one), (6, two), (9, one)))
        done = subprocess.run(RECEIVER + [self.received], input=lines.encode(), stdout=subprocess.PIPE, env=surroundings())
        self.assertEqual((done.returncode, done.stdout), (0, b"5\n6\n9\n"))
        with Receiver(self.received) as receiver:
            self.assertEqual(receiver.orders(), [one, two])
        self.assertEqual(subprocess.run(RECEIVER, stdin=subprocess.DEVNULL, stderr=subprocess.DEVNULL).returncode, 2)


class Faults(unittest.TestCase):
    """tests/store_faults, as short as it is of use: real kills, full disks, a second process."""

    def ran(self, *words):
        return ran([sys.executable, os.path.join(TOP, "tests", "store_faults"), *words] + (["--built"] if built() else []))

    def test_nothing_is_lost_or_doubled(self):
        status, printed, said = self.ran("--kills", "8")
        self.assertEqual((status, said), (0, ""), printed)
        self.assertRegex(printed.decode(), r"^store: [89] kills .* orders: lost 0, doubled 0\. Seed 25, ")

    @unittest.skipIf(built(), "wrong stores, which are seen over the reading")
    def test_wrong_stores_are_seen(self):
        """A transaction split in two, and a worker that keeps an older state: the others are kept commands."""
        for wrong, told in (("split", r".*\d+ slots beside a state of \d+ held"), ("older", r".* was altered: UNIQUE constraint failed: slots.book, slots.at")):
            status, printed, said = self.ran("--wrong", wrong)
            self.assertEqual((status, said), (0, ""), printed)
            self.assertRegex(printed.decode(), r"^store: wrong \(%s\), it fails after \d+ kills, \d+ times a second process: %s\n$" % (wrong, told))

    @unittest.skipUnless(built(), "the archive is not built")
    def test_a_million_deliveries_over_c(self):
        status, printed, said = ran([sys.executable, os.path.join(TOP, "tests", "deliveries")])
        self.assertEqual((status, said), (0, ""), printed)
        self.assertRegex(printed.decode(), r"^deliveries: 1000\d\d\d .* lost 0, doubled 0\ndeliveries: an older state of a book is told\n$")


if __name__ == "__main__":
    unittest.main()
