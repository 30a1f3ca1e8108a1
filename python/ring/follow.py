"""What goes on around a store: a book followed until it is closed, orders sent until each is confirmed. Both may be stopped at any moment and started again, and a
second process may do the same on the same store."""
import time

from .faults import Refused

# seconds between two turns of making forms
FORMED = 5.0
# a page that is not the next, or for a book that is closed: it came twice, late or out of order, or another process was faster
NOT_NEXT = (12, 14)
# how many confirmations are kept at once, and how many seconds a receiver program may be silent
CONFIRMED, SILENT = 64, 60.0


def follow(book, page_after, seconds=FORMED, pages=None, clock=time.monotonic):
    """Asks for the next page, takes it, makes forms and issues their orders, until the book is closed and each of its forms was handed in. `page_after(key)` gives
    a page, or None where none came in time; one that is not the next is thrown away, and the next is asked for again. Forms are made every so many seconds, and at
    the end. Yields the state and the orders issued after each page; at most so many pages are asked for."""
    formed, asked = clock(), 0
    while pages is None or asked < pages:
        key = book.next_key()
        if key is None:
            break
        asked += 1
        page = page_after(key)
        try:
            if page is not None:
                book.take(page)
        except Refused as fault:
            if fault.number not in NOT_NEXT:
                raise
        issued = []
        if clock() - formed >= seconds:
            issued, formed = book.issue(), clock()
        yield book.state(), issued
    yield book.state(), book.issue()


def send(outbox, give):
    """Sends each order of an outbox until its receiver has confirmed it: `give(number, form)` says whether it has. An order is given again where it has not, and also where it
    has and this program ended before the mark was kept, so that the receiver has to drop repeats, by key. Ends where all are confirmed, or where none was of
    all that are left. Yields how many were confirmed."""
    while True:
        confirmed, after = 0, 0
        while True:
            waiting = outbox.unsent(CONFIRMED, after)
            if not waiting:
                break
            after = waiting[-1][0]
            said = [number for number, form in waiting if give(number, form)]
            outbox.confirm(said)
            confirmed += len(said)
            yield len(said)
        if not confirmed:
            return
