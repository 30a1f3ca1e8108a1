"""A book and a depot that survive a crash, in one SQLite file.

What belongs together changes together: the pairs of a page that was taken, the book's state and the note that it was taken are one transaction; the orders of new
forms and how many forms were handed in are another. So the file always holds a state that the book had: the one before a page, or the one after it.

The proved calls decide, the file remembers. A page is taken by the worker's book, a form by the worker's depot, each put back from the file first; they are kept
in the worker only as long as nobody else wrote the file, and forgotten where a transaction fails, so that no call is ever handed a state that the file does not
have. Each order has a mark for each receiver that confirmed it. docs/RELIABILITY.md says what is promised, what is believed and what was tried.
"""
import contextlib
import sqlite3
from typing import NamedTuple

from . import door
from .api import UNDIVIDED
from .faults import BadFile, Refused, Unsaid
from .records import Form, Key, Pair, Source

MARK, VERSION = 0x52494E47, 2
# seconds that one process waits for another's transaction
WAIT = 60.0
# the least room that a book or a depot is lent; how many forms are handed in at once
ROOM, HANDED = 1 << 12, 1 << 10
SOURCE, KEY = "p_edition, q_edition, threshold, contractor, own, grid", "p_edition, q_edition, own, contractor, grid, q, p"
TABLES = """
CREATE TABLE books (book INTEGER PRIMARY KEY, p_edition INTEGER NOT NULL, q_edition INTEGER NOT NULL, threshold INTEGER NOT NULL, contractor INTEGER NOT NULL,
    own INTEGER NOT NULL, grid INTEGER NOT NULL, held INTEGER NOT NULL, closed INTEGER NOT NULL, formed INTEGER NOT NULL,
    UNIQUE (%s));
CREATE TABLE slots (book INTEGER NOT NULL, at INTEGER NOT NULL, q INTEGER NOT NULL, p INTEGER NOT NULL, size INTEGER NOT NULL, PRIMARY KEY (book, at)) WITHOUT ROWID;
CREATE TABLE pages (book INTEGER NOT NULL, at INTEGER NOT NULL, end INTEGER NOT NULL, q INTEGER NOT NULL, p INTEGER NOT NULL, count INTEGER NOT NULL,
    PRIMARY KEY (book, at, end)) WITHOUT ROWID;
CREATE TABLE orders (number INTEGER PRIMARY KEY, p_edition INTEGER NOT NULL, q_edition INTEGER NOT NULL, own INTEGER NOT NULL, contractor INTEGER NOT NULL,
    grid INTEGER NOT NULL, q INTEGER NOT NULL, p INTEGER NOT NULL, size INTEGER NOT NULL, UNIQUE (%s));
CREATE TABLE sent (receiver TEXT NOT NULL, number INTEGER NOT NULL, PRIMARY KEY (receiver, number)) WITHOUT ROWID;
""" % (SOURCE, KEY)


class State(NamedTuple):
    """How many pairs a book holds, whether these are all, and of how many of them the forms were handed in."""
    held: int
    closed: bool
    formed: int


class File:
    """An SQLite file of one kind, with transactions that happen whole or not at all."""

    # what is done to a file of an older version, by its number
    older = {}

    def __init__(self, path, mark, version, tables, kind, begun=True, wait=WAIT):
        self.path, self._kind = str(path), kind
        if not begun:
            door.whole(self.path, None, 0)
        with self.told():
            self._db = sqlite3.connect(self.path, timeout=wait, isolation_level=None)
        try:
            with self.told():
                # a commit is on the disk, the journal's end too, before it is said to be done
                self._db.execute("PRAGMA synchronous = EXTRA")
                self._begin(mark, version, tables, begun)
        except BaseException:
            self._db.close()
            raise

    def _begin(self, mark, version, tables, begun):
        """A file of nothing gets its tables; any other has to have the mark."""
        if self._one("PRAGMA application_id")[0] == 0 and begun:
            with self.changing():
                if self._one("PRAGMA application_id")[0] == 0 and not self._one("SELECT count(*) FROM sqlite_master")[0]:
                    for line in tables.strip().split(";\n"):
                        self._db.execute(line)
                    self._db.execute("PRAGMA application_id = %d" % mark)
                    self._db.execute("PRAGMA user_version = %d" % version)
        if self._one("PRAGMA application_id")[0] != mark:
            raise BadFile("%s is no %s" % (self.path, self._kind))
        if self._one("PRAGMA user_version")[0] in self.older:
            with self.changing():
                change = self.older.get(self._one("PRAGMA user_version")[0])
                if change:
                    change(self)
                    self._db.execute("PRAGMA user_version = %d" % version)
        if self._one("PRAGMA user_version")[0] != version:
            raise BadFile("%s is a %s of another version" % (self.path, self._kind))

    def __enter__(self):
        return self

    def __exit__(self, *_):
        self.close()

    def close(self):
        self._db.close()

    def _one(self, line, words=()):
        return self._db.execute(line, words).fetchone()

    @contextlib.contextmanager
    def told(self):
        """What goes wrong in SQLite, as this package says it."""
        try:
            yield
        except sqlite3.OperationalError as fault:
            raise door.Failed("%s: %s" % (self.path, "another process holds it" if "locked" in str(fault) else fault))
        except sqlite3.DatabaseError as fault:
            raise BadFile("%s is no %s, or was altered: %s" % (self.path, self._kind, fault))

    @contextlib.contextmanager
    def changing(self, how="IMMEDIATE"):
        """A transaction: others that would change the file wait, and all of it is kept or nothing."""
        with self.told():
            try:
                self._db.execute("BEGIN %s" % how)
                yield
                self._db.execute("COMMIT")
            except BaseException:
                self.failed()
                with contextlib.suppress(sqlite3.Error):
                    self._db.execute("ROLLBACK")
                raise

    def reading(self):
        """A transaction that only reads: all that it reads is of one moment."""
        return self.changing("DEFERRED")

    def failed(self):
        """What is done where a transaction is given up."""


class Store(File):
    """Books and a depot in one file. With no ring it can be read, and orders be confirmed; pages and forms are taken by the proved calls alone."""

    def __init__(self, path, ring=None, begun=True, wait=WAIT):
        self.ring, self._live, self._depot, self._version = ring, {}, None, None
        super().__init__(path, MARK, VERSION, TABLES, "store of books", begun, wait)

    def _from_1(self):
        """A store of version 1 had one mark for each order, whoever confirmed it: the receiver of its contractor."""
        rows = self._db.execute("SELECT number, %s, size, sent FROM orders" % KEY).fetchall()
        self._db.execute("DROP TABLE orders")
        for line in TABLES.strip().split(";\n"):
            if line.startswith(("CREATE TABLE orders ", "CREATE TABLE sent ")):
                self._db.execute(line)
        self._db.executemany("INSERT INTO orders (number, %s, size) VALUES (?, ?, ?, ?, ?, ?, ?, ?, ?)" % KEY, [row[:-1] for row in rows])
        self._db.executemany("INSERT INTO sent VALUES (?, ?)", [(named(row[4]), row[0]) for row in rows if row[-1]])

    older = {1: _from_1}

    def failed(self):
        """What the worker holds may be ahead of the file: it is put back from the file when it is needed again."""
        self._version = None

    # ------------------------------------------------------------ what it holds

    def book(self, source, allowed=lambda: None):
        """The book of a list: the one that it has, or one begun now. `allowed` is called first, and may refuse it by what the store holds: until the book is begun no
        other process changes that."""
        with self.changing():
            allowed()
            line = "SELECT book FROM books WHERE (%s) = (?, ?, ?, ?, ?, ?)" % SOURCE
            found = self._one(line, source)
            if found is None:
                # what cannot be begun is refused by the call
                self.ring.book(source, 1).close()
                self._db.execute("INSERT INTO books (%s, held, closed, formed) VALUES (?, ?, ?, ?, ?, ?, 0, 0, 0)" % SOURCE, source)
                found = self._one(line, source)
        return KeptBook(self, found[0], source)

    def books(self):
        with self.told():
            return [KeptBook(self, row[0], source_of(row[1:])) for row in self._db.execute("SELECT book, %s FROM books ORDER BY book" % SOURCE)]

    def orders(self):
        """The forms that the depot holds, in the order in which they were issued."""
        with self.told():
            return [form_of(row) for row in self._db.execute("SELECT %s, size FROM orders ORDER BY number" % KEY)]

    def counts(self):
        """How many orders there are, and how many of them no receiver has confirmed."""
        with self.told():
            return self._one("SELECT count(*) FROM orders")[0], self._one("SELECT count(*) FROM orders WHERE number NOT IN (SELECT number FROM sent)")[0]

    def receivers(self):
        """The receivers that confirmed orders, by their names, each with how many."""
        with self.told():
            return dict(self._db.execute("SELECT receiver, count(*) FROM sent GROUP BY receiver ORDER BY receiver"))

    def editions(self):
        """The editions of the books that it has, and so of its orders."""
        with self.told():
            return set(self._db.execute("SELECT DISTINCT p_edition, q_edition FROM books"))

    # ------------------------------------------------------------ sending

    def outbox(self, contractor=None, receiver=None):
        """The orders of one contractor, 2 for those of undivided lists, on their way to one receiver. Where the store has books of one alone, it need not be said
        whose. The receiver's name is by contractor where nothing else is said."""
        whose = sorted({book.source.contractor for book in self.books()})
        if contractor is None:
            if len(whose) > 1:
                raise Unsaid("%s has orders of %s: say whose are sent" % (self.path, " and of ".join(named(one) for one in whose)))
            contractor = whose[0] if whose else UNDIVIDED
        elif contractor not in whose:
            raise Unsaid("%s has no book of %s" % (self.path, named(contractor)))
        return Outbox(self, contractor, receiver or named(contractor))

    # ------------------------------------------------------------ what the worker holds, within a transaction

    def _fresh(self):
        """Forgets what the worker holds where it may not be what the file has."""
        version = self._one("PRAGMA data_version")[0]
        if version != self._version or not self.ring.alive():
            things = list(self._live.values()) + ([self._depot] if self._depot else [])
            self._live, self._depot = {}, None
            if self.ring.alive():
                for thing in things:
                    thing.close()
            self._version = version

    def _lent(self, kept):
        """The worker's book, with the state and the slots of the file."""
        self._fresh()
        if kept.number not in self._live:
            state = kept._state()
            rows = self._db.execute("SELECT at, q, p, size FROM slots WHERE book = ? ORDER BY at", (kept.number,)).fetchall()
            if [row[0] for row in rows] != list(range(state.held)):
                raise BadFile("%s was altered: %d slots beside a state of %d held" % (self.path, len(rows), state.held))
            self._live[kept.number] = self.ring._put_back(kept.source, max(ROOM, 2 * state.held), [Pair(*row[1:]) for row in rows], state.closed, self.path)
        return self._live[kept.number]

    def _shelf(self, more):
        """The worker's depot, with the orders of the file and room for so many more."""
        self._fresh()
        held = self._one("SELECT count(*) FROM orders")[0]
        if self._depot is None or self._depot.room < held + more:
            if self._depot is not None:
                self._depot.close()
            self._depot = self.ring._put_back_depot(max(ROOM, 2 * (held + more)), self.orders(), self.path)
        return self._depot


class Outbox:
    """The orders of one contractor on their way to one receiver, which has marks of its own: an order may be sent to several."""

    def __init__(self, store, contractor, receiver):
        self._store, self.contractor, self.receiver = store, contractor, receiver

    WAITING = "FROM orders WHERE contractor = ? AND NOT EXISTS (SELECT 1 FROM sent WHERE receiver = ? AND sent.number = orders.number)"

    def unsent(self, most=1 << 10, after=0):
        """Orders that the receiver has not confirmed, with their numbers, the first issued first."""
        with self._store.told():
            line = "SELECT number, %s, size %s AND number > ? ORDER BY number LIMIT ?" % (KEY, self.WAITING)
            rows = self._store._db.execute(line, (self.contractor, self.receiver, after, most)).fetchall()
        return [(row[0], form_of(row[1:])) for row in rows]

    def confirm(self, numbers):
        """Marks orders as sent: the receiver has said that it holds them."""
        with self._store.changing():
            self._store._db.executemany("INSERT OR IGNORE INTO sent SELECT ?, number FROM orders WHERE contractor = ? AND number = ?",
                                        [(self.receiver, self.contractor, number) for number in numbers])

    def counts(self):
        """How many orders the contractor has, and how many of them the receiver has not confirmed."""
        with self._store.told():
            return (self._store._one("SELECT count(*) FROM orders WHERE contractor = ?", (self.contractor,))[0],
                    self._store._one("SELECT count(*) " + self.WAITING, (self.contractor, self.receiver))[0])


class KeptBook:
    """A book of a store."""

    def __init__(self, store, number, source):
        self._store, self.number, self.source = store, number, source

    def _state(self):
        held, closed, formed = self._store._one("SELECT held, closed, formed FROM books WHERE book = ?", (self.number,))
        if not 0 <= formed <= held:
            raise BadFile("%s was altered: forms of %d pairs beside a state of %d held" % (self._store.path, formed, held))
        return State(held, bool(closed), formed)

    def state(self):
        with self._store.told():
            return self._state()

    def pairs(self):
        """The pairs that it holds."""
        with self._store.told():
            return [Pair(*row) for row in self._store._db.execute("SELECT q, p, size FROM slots WHERE book = ? ORDER BY at", (self.number,))]

    def taken(self):
        """The pages that it took: of each the key, how many pairs it had, and whether it was the last."""
        with self._store.told():
            rows = self._store._db.execute("SELECT q, p, count, end FROM pages WHERE book = ? ORDER BY at, end", (self.number,))
            return [(Key(*row[:2]), row[2], bool(row[3])) for row in rows]

    def next_key(self):
        """The key to ask for next, or None where it is closed."""
        with self._store.reading():
            if self._state().closed:
                return None
            return self._store._lent(self).next_key()

    def take(self, page):
        """Takes a page, and keeps what it brought: all of it, or nothing. One that is not the next is refused, as `Book.take` does."""
        with self._store.changing():
            live = self._store._lent(self)
            before, no = live.held, self._tried(live, page)
            while no is not None and no.number == 16:
                # no slots left: a longer slice is lent
                live = self._store._live[self.number] = live.with_room(2 * live.room)
                no = self._tried(live, page)
            if no is None:
                self._keep(before, page, live)
        if no is not None:
            raise no

    @staticmethod
    def _tried(live, page):
        """The refusal of a page, which changes nothing, or None where it is taken."""
        try:
            live.take(page)
        except Refused as no:
            return no

    def _keep(self, before, page, live):
        """What changes with a page, within its transaction."""
        self._keep_slots(before, live.pairs(before))
        self._keep_state(before, page, live.held, live.closed)

    def _keep_slots(self, before, pairs):
        self._store._db.executemany("INSERT INTO slots (book, at, q, p, size) VALUES (?, ?, ?, ?, ?)", [(self.number, before + k, *pair) for k, pair in enumerate(pairs)])

    def _keep_state(self, before, page, held, closed):
        self._store._db.execute("INSERT INTO pages (book, at, q, p, count, end) VALUES (?, ?, ?, ?, ?, ?)", (self.number, before, *page.key, held - before, page.end))
        self._store._db.execute("UPDATE books SET held = ?, closed = ? WHERE book = ?", (held, closed, self.number))

    def issue(self):
        """Makes the forms of the pairs that are new since it was called last, and hands them to the depot: the orders that are issued, those whose key is new. Many
        are handed in by parts, each a transaction of its own, so that other processes need not wait long."""
        issued, forms = [], []
        while True:
            with self._store.changing():
                state = self._state()
                if state.formed == state.held:
                    return issued
                if len(forms) != state.held:
                    forms = self._store._lent(self).forms()
                issued += self._hand_in(forms[state.formed:state.formed + HANDED], state.formed)

    def _hand_in(self, forms, before):
        """What changes with forms that are handed in, within their transaction."""
        shelf = self._store._shelf(len(forms))
        issued = [form for form in forms if shelf.take(form)]
        self._store._db.executemany("INSERT INTO orders (%s, size) VALUES (?, ?, ?, ?, ?, ?, ?, ?)" % KEY, issued)
        self._store._db.execute("UPDATE books SET formed = ? WHERE book = ?", (before + len(forms), self.number))
        return issued


def named(contractor):
    """Whose a list is, in words: the name of its receiver where no other is said."""
    return "undivided" if contractor == UNDIVIDED else "contractor %d" % contractor


def source_of(row):
    return Source(*row[:4], bool(row[4]), bool(row[5]))


def form_of(row):
    return Form(row[0], row[1], bool(row[2]), row[3], bool(row[4]), *row[5:8])
