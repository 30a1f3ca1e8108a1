"""Ring pairs from Python, by the proved calls: sheets, pages, lists, why a pair is none, nearest, shortest, partners, the busiest, the most urgent,
self joins, books and the depot.

    import ring

    with ring.Ring() as r:
        pumps = r.pack([(1, 0, 0), (2, 10, 0)], edition=7)
        chambers = r.pack([(5, 4, 0), (6, 16, 1)], edition=9)
        for pair in r.pairs(pumps, chambers):
            print(pair.q, pair.p, pair.size)

Standard library only. One worker program, built from the repository, does the work (ring.worker). Answers are typed records (ring.records); a refusal is an
exception, `ring.Refused`, with its number and its reason. docs/GUIDE.md says more.
"""
from .api import Book, Depot, Ring
from .faults import BadFile, BadTable, NoSuchId, Refused, RingError, WorkerFault
from .records import Form, Key, Many, Marker, Near, Page, Paged, Pair, Partners, Point, Rank, Source, Visit, Why
from .refusals import reason
from .sheets import Sheet, Units
from .table import read_owners, read_points, read_scores

__all__ = [
    "BadFile", "BadTable", "Book", "Depot", "Form", "Key", "Many", "Marker", "Near", "NoSuchId", "Page", "Paged", "Pair", "Partners", "Point", "Rank", "Refused",
    "Ring", "RingError", "Sheet", "Source", "Units", "Visit", "Why", "WorkerFault", "read_owners", "read_points", "read_scores", "reason",
]
