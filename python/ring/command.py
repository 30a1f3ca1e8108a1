"""The command `./ring`."""
import argparse
import bisect
import json
import os
import re
import sys
import time
from fractions import Fraction

from . import door, follow, picture, planner, sheets
from .api import UNDIVIDED, Ring
from .faults import BadFile, BadTable, Refused, RingError, Unsaid, WorkerFault
from .progress import Progress
from .records import Source
from .table import DECIMAL, DELIMITERS, read_owners, read_points, read_scores

# a book's first room, and how long it is followed before it is stored again
ROOM, KEPT = 1 << 16, 5.0
# of how many pump houses near each chamber a page says what blocks them, and up to how many chambers that is asked unasked
NEAR, ASKED = 6, 1000
STATUS = "Exit status: 0 answered, 1 refused, 2 wrong use, 3 input or output that fails, 130 an interrupt."


class No(RingError):
    """What a command refuses by itself."""


# ---------------------------------------------------------------- what is read

def read(name, most=-1):
    return door.whole("standard input", sys.stdin.buffer, most) if name == "-" else door.whole(name, None, most)


def opened(ring, name):
    return ring.sheet(read(name, sheets.BYTES + 4), name)


def both(ring, args):
    return opened(ring, args.p), opened(ring, args.q)


def units(args):
    return sheets.Units(args.scale, args.offset, getattr(args, "round", False))


def csv_terms(args):
    return {"delimiter": DELIMITERS.get(args.delimiter), "encoding": args.encoding}


def terms_of(args, q):
    """What is asked of a list beside its sheets."""
    if (args.contractor is None) != (args.owners is None):
        raise door.Wrong("--contractor and --owners go together: whose list, and the CSV that says whose each chamber is")
    terms = {"grid": args.grid, **({"threshold": args.threshold} if hasattr(args, "threshold") else {})}
    if args.contractor is not None:
        try:
            terms.update(contractor=args.contractor, owners=read_owners(read(args.owners), q, args.id, args.owner, **csv_terms(args)))
        except BadTable as fault:
            raise BadTable("%s: %s" % (args.owners, fault))
    return terms


def scores_of(args, name, sheet, what):
    """The score of each record of a sheet, of a CSV."""
    try:
        return read_scores(read(name), sheet, args.id, args.score, what=what, **csv_terms(args))
    except BadTable as fault:
        raise BadTable("%s: %s" % (name, fault))


def largest_of(args):
    """The largest size that is asked for, where one is."""
    return {} if args.largest is None else {"largest": args.largest}


# ---------------------------------------------------------------- what is written

def say(text):
    print("ring: %s" % text, file=sys.stderr, flush=True)



def put(args, text):
    """What a command gives: to a file, whole or not at all, or to standard output."""
    if getattr(args, "out", None):
        # a file's name may have bytes that are no text
        door.put(args.out, text.encode("utf-8", "backslashreplace"))
    else:
        sys.stdout.write(text)


def answer(args, record, text):
    """An answer as JSON or as text."""
    put(args, json.dumps(record) + "\n" if args.json else text)


def head_of(sheet):
    return {"file": sheet.name, "edition": sheet.edition, "points": sheet.n, "form": sheet.form}


def middle(a, b):
    """Twice the middle of two points."""
    return a.x + b.x, a.y + b.y


def lines_of(p, q, pairs):
    """The lines of a list as the document has them: both ids, twice the centre, the size; then `end` and their number."""
    rows = ["%d %d %d %d %d\n" % (pair[0], pair[1], *middle(q.point(pair[0]), p.point(pair[1])), pair[2]) for pair in pairs]
    return "".join(rows) + "end %d\n" % len(pairs)


def geojson(p, q, pairs, given):
    """The pairs as lines from the chamber to the pump house."""
    def place(point):
        return [given.given(point.x, 0), given.given(point.y, 1)]
    return {"type": "FeatureCollection", "features": [
        {"type": "Feature", "properties": {"q": pair.q, "p": pair.p, "size": pair.size},
         "geometry": {"type": "LineString", "coordinates": [place(q.point(pair.q)), place(p.point(pair.p))]}} for pair in pairs]}


def shown_terms(terms):
    """What is said of a list's terms: all but the owners, which are as many as the chambers."""
    return {name: value for name, value in terms.items() if name != "owners"}


def row_of(p, q, pair):
    """A pair, with twice the centre."""
    x2, y2 = middle(q.point(pair.q), p.point(pair.p))
    return dict(pair._asdict(), x2=x2, y2=y2)


def give_list(args, p, q, pairs, terms):
    if args.geojson:
        put(args, json.dumps(geojson(p, q, pairs, units(args))) + "\n")
        return
    rows = [row_of(p, q, pair) for pair in pairs] if args.json else []
    answer(args, {"p": head_of(p), "q": head_of(q), "terms": shown_terms(terms), "pairs": rows, "count": len(pairs)}, "" if args.json else lines_of(p, q, pairs))


def own_ids(q, terms):
    """The ids of the chambers that a list is of, ascending: of a contractor its own."""
    owners = terms.get("owners")
    return [one.id for k, one in enumerate(q.points) if not owners or owners[k] == terms["contractor"]]


def gathered(listed, q, terms):
    """The pairs of a list; how far it is, said where it takes long."""
    pairs, ids = [], own_ids(q, terms)

    def told():
        return "%d of %d chambers, %d pairs" % (bisect.bisect(ids, pairs[-1].q) if pairs else 0, len(ids), len(pairs))
    with Progress(told):
        for pair in listed:
            pairs.append(pair)
    return pairs


# ---------------------------------------------------------------- sheets

def points_of(args, name):
    """The points of a CSV."""
    try:
        return read_points(read(name), args.id, args.x, args.y, units(args), decimal_comma=args.decimal_comma, **csv_terms(args))
    except BadTable as fault:
        raise BadTable("%s: %s" % (name, fault))


def for_list(ring, args, name):
    """A sheet to list: of a file, packed anew where its order is bad; or of the points of a CSV, packed for this list alone, so that its edition tells nothing."""
    if name.lower().endswith(".csv"):
        points = points_of(args, name)
        if not points:
            raise No("%s: no rows: of no assets there is no list" % name)
        return ring.pack(points, 1, name=name)
    return ring.tidied(opened(ring, name))


def sheet_make(ring, args):
    points = points_of(args, args.file)
    if not 1 <= args.edition <= sheets.EDITION:
        raise No("the edition %d is not from 1 to %d" % (args.edition, sheets.EDITION))
    if not points and not args.empty:
        raise No("%s: no rows: a sheet of no assets is made only where --empty is said" % args.file)
    with Progress():
        made = ring.pack(points, args.edition, name=args.out)
    if not args.replace:
        guard(ring, args.out, made)
    door.put(args.out, made.data)
    why = "" if made.form == 1 else " (%s)" % ("over 1,000 points" if made.n > 1000 else "a coordinate past 1,000,000")
    record = dict(head_of(made), bytes=len(made.data))
    args.out, name = None, args.out
    answer(args, record, "%s: %d points, edition %d, form %d%s, %d bytes\n" % (name, made.n, made.edition, made.form, why, len(made.data)))


def guard(ring, path, made):
    """Refuses to write over a sheet of the same edition with other points, or over what is no sheet."""
    if not os.path.isfile(path):
        return
    try:
        there = opened(ring, path)
    except RingError:
        raise No("%s is there, and is no sheet: it is written over only where --replace is said" % path)
    if there.edition == made.edition and there.points != made.points:
        raise No("%s has other points under the same edition, %d: nothing in a page tells two lists under one number apart, and a book would mix them. Give the "
                 "changed sheet a new edition number, or say --replace where no page of the old one was ever made" % (path, made.edition))


def sheet_csv(ring, args):
    sheet, given = opened(ring, args.file), units(args)
    rows = [(one.id, given.given(one.x, 0), given.given(one.y, 1)) for one in sheet.points]
    answer(args, dict(head_of(sheet), rows=rows), "id,x,y\n" + "".join("%d,%s,%s\n" % row for row in rows))


def sheet_why(ring, args):
    try:
        sheet = opened(ring, args.file)
    except (Refused, BadFile) as fault:
        number = getattr(fault, "number", None)
        text = "%s is refused by %d: %s\n" % (args.file, number, fault.reason) if number else "%s\n" % fault
        answer(args, {"file": args.file, "opens": False, "number": number, "reason": getattr(fault, "reason", str(fault))}, text)
        return door.REFUSED
    answer(args, dict(head_of(sheet), opens=True, nodes=sheet.m), "%s opens: %d points, %d nodes, edition %d, form %d\n" % (args.file, sheet.n, sheet.m, sheet.edition, sheet.form))


def sheet_tidy(ring, args):
    """Packs a sheet anew in a good order. The list depends on its points alone, so that its edition stays."""
    sheet = opened(ring, args.file)
    made = ring.tidy(sheet)
    path = args.out or args.file
    door.put(path, made.data)
    args.out = None
    answer(args, dict(head_of(made), file=path, nodes_before=sheet.m, nodes=made.m),
           "%s: %d points, edition %d, form %d, %d nodes where there were %d; the same lists and pages\n" % (path, made.n, made.edition, made.form, made.m, sheet.m))


# ---------------------------------------------------------------- lists and questions

def list_(ring, args):
    p, q = for_list(ring, args, args.p), for_list(ring, args, args.q)
    terms = {**terms_of(args, q), **largest_of(args)}
    give_list(args, p, q, gathered(ring.pairs(p, q, **terms), q, terms), terms)


def cluster_list(ring, args):
    if args.by == "leaves" and (args.grid or args.threshold or args.contractor is not None or args.largest is not None):
        raise door.Wrong("leaf runs are of the whole list: no --grid, --threshold, --contractor or --largest with --by leaves")
    # it alone needs `distributed`; where this Python has none, the command runs again here under another
    from . import cluster
    cluster.here(args.words)
    p, q = for_list(ring, args, args.p), for_list(ring, args, args.q)
    terms = {**terms_of(args, q), **largest_of(args)}
    pairs = cluster.listed(ring, p, q, terms, args.by, args.scheduler, args.workers, args.batch, not args.uncounted, say)
    give_list(args, p, q, pairs, terms)


def self_(ring, args):
    sheet, terms = opened(ring, args.sheet), {"grid": args.grid, **largest_of(args)}
    give_list(args, sheet, sheet, gathered(ring.own_pairs(sheet, **terms), sheet, terms), {"own": True, **terms})


def shortest(ring, args):
    p, q = both(ring, args)
    with Progress():
        pairs = ring.shortest(p, q, args.count)
    give_list(args, p, q, pairs, {"shortest": args.count})


def busiest(ring, args):
    if args.pumps and (args.contractor is not None or args.owners is not None):
        raise door.Wrong("pump houses are of the undivided list: no --contractor and no --owners with --pumps")
    p, q = both(ring, args)
    terms = {**terms_of(args, q), **largest_of(args)}
    with Progress():
        ranks = (ring.busiest_pumps if args.pumps else ring.busiest)(p, q, args.count, **terms)
    record = {"p": head_of(p), "q": head_of(q), "of": "P" if args.pumps else "Q", "terms": shown_terms(terms), "ranks": [rank._asdict() for rank in ranks], "count": len(ranks)}
    answer(args, record, "".join("%d %d\n" % rank for rank in ranks) + "end %d\n" % len(ranks))


def urgent(ring, args):
    p, q = both(ring, args)
    terms = {**terms_of(args, q), **largest_of(args)}
    scores = scores_of(args, args.p_scores, p, "pump house"), scores_of(args, args.q_scores, q, "chamber")
    with Progress():
        visits = ring.urgent(p, q, *scores, args.count, **terms)
    if args.geojson:
        drawn = geojson(p, q, [visit.pair for visit in visits], units(args))
        for feature, visit in zip(drawn["features"], visits):
            feature["properties"]["score"] = visit.score
        put(args, json.dumps(drawn) + "\n")
        return
    rows = [dict(row_of(p, q, visit.pair), score=visit.score) for visit in visits]
    answer(args, {"p": head_of(p), "q": head_of(q), "terms": shown_terms(terms), "pairs": rows, "count": len(rows)},
           "".join("%(q)d %(p)d %(x2)d %(y2)d %(size)d %(score)d\n" % row for row in rows) + "end %d\n" % len(rows))


def why(ring, args):
    p, q = both(ring, args)
    found = ring.why(p, q, args.q_id, args.p_id, args.grid)
    shape = "diamond" if args.grid else "circle"
    if found.clear:
        text = "chamber %d and pump house %d are a ring pair: no other record stands in their %s\n" % (args.q_id, args.p_id, shape)
    else:
        set_ = "pump house" if found.set == "P" else "chamber"
        if found.kind == "point":
            what = "the %s %d at (%d, %d) stands in their %s" % (set_, found.record.id, found.record.x, found.record.y, shape)
        else:
            what = "a %s on the %s side of the box (%d, %d) to (%d, %d), node %d of %s, stands in their %s" % (set_, found.side, *found.box, found.node, found.set, shape)
        text = "chamber %d and pump house %d are no ring pair: %s\n" % (args.q_id, args.p_id, what)
    record = dict(found._asdict(), q=args.q_id, p=args.p_id, pair=found.clear, record=found.record and found.record._asdict())
    answer(args, record, text)


def nearest(ring, args):
    p, q = both(ring, args)
    found = ring.nearest(p, q, args.q_id, args.count)
    answer(args, {"q": args.q_id, "nearest": [near._asdict() for near in found]}, "".join("%d %d\n" % near for near in found) + "end %d\n" % len(found))


def partners(ring, args):
    p, q = both(ring, args)
    found = ring.partners(p, q, args.q_id, args.t)
    text = "chamber %d has at least %d ring partners\n" % (args.q_id, args.t) if found.enough else "chamber %d has %d ring partners, fewer than %d\n" % (args.q_id, found.count, args.t)
    answer(args, {"q": args.q_id, "t": args.t, "count": found.count, "enough": found.enough}, text)


# ---------------------------------------------------------------- books and the depot

def source_of(args, p, q, terms):
    return Source(p.edition, q.edition, terms.get("threshold", 0), terms.get("contractor", UNDIVIDED), args.self, args.grid)


def book(ring, args):
    if len(args.sheets) not in ((0,) if args.show else (1,) if args.self else (2,)):
        raise door.Wrong("book FILE.book P.sheet Q.sheet, or FILE.book S.sheet --self, or FILE.book --show")
    if args.show:
        return show_book(args, ring.read_book(args.file))
    with door.alone(args.file, say):
        followed(ring, args)


def asked_of(ring, args):
    """What list a book is of, and its page after a key."""
    if args.self and (args.threshold or args.contractor is not None):
        raise door.Wrong("a self join has no threshold and no contractor")
    opened_ = [opened(ring, name) for name in args.sheets]
    p, q = opened_[0], opened_[-1]
    terms = {"grid": args.grid} if args.self else terms_of(args, q)
    return source_of(args, p, q, terms), lambda key: ring.own_page(p, key, **terms) if args.self else ring.page(p, q, key, **terms)


def followed(ring, args):
    """Follows a book, and stores it."""
    source, page_after = asked_of(ring, args)
    if os.path.exists(args.file):
        kept = ring.read_book(args.file)
        if kept.source != source:
            raise No("%s is a book of another list: %s, and not %s" % (args.file, shown_source(kept.source), shown_source(source)))
    else:
        kept = ring.book(source, args.room or ROOM)
        kept.write(args.file)
    if args.room and args.room > kept.room:
        kept = kept.with_room(args.room)

    taken, held, stored_at = 0, kept.held, time.monotonic()
    try:
        with Progress(lambda: "%d pairs held" % held):
            while not kept.closed and (args.pages is None or taken < args.pages):
                page = page_after(kept.next_key())
                try:
                    kept.take(page)
                except Refused as fault:
                    # no slots left: a longer slice is lent, unless the room was asked for
                    if fault.number != 16 or args.room:
                        raise
                    kept = kept.with_room(2 * kept.room)
                    continue
                taken += 1
                held += len(page.pairs)
                if time.monotonic() - stored_at > KEPT:
                    kept.write(args.file)
                    stored_at = time.monotonic()
    finally:
        # what is held is a part of the list, whatever ended this: the next call goes on from there
        if ring.alive() and taken:
            kept.write(args.file)
    show_book(args, kept)


def shown_source(source):
    parts = ["the self join of edition %d" % source.p_edition if source.own else "editions %d and %d" % source[:2]]
    parts += ["at least %d partners" % source.threshold] if source.threshold else []
    parts += ["contractor %d" % source.contractor] if source.contractor != UNDIVIDED else []
    return ", ".join(parts + (["street grid"] if source.grid else []))


def shown_held(state):
    return "%d pairs held, %s" % (state.held, "and these are all" if state.closed else "not all yet")


def show_book(args, kept):
    record = dict(kept.source._asdict(), file=args.file, held=kept.held, closed=kept.closed, room=kept.room)
    if args.json:
        record["pairs"] = [pair._asdict() for pair in kept.pairs()]
    rows = "".join("%d %d %d\n" % pair for pair in kept.pairs()) if args.show else ""
    answer(args, record, "%s%s: %s; %s\n" % (rows, args.file, shown_source(kept.source), shown_held(kept)))


def unmixed(args, file, editions, what="orders"):
    """Refuses to order the visits of a new edition beside orders of others unasked."""
    if editions and not args.new_edition:
        raise No("%s holds %s of editions %s, and the book is of others: a new edition has new keys, so that each visit would be ordered again. Close the old "
                 "edition's orders first, and begin a %s anew, or say --new-edition" % (
                     file, what, ", ".join("%d and %d" % pair for pair in sorted(editions)), "depot" if what == "orders" else "store"))


def depot(ring, args):
    with door.alone(args.file, say):
        handed(ring, args)


def handed(ring, args):
    """Hands the forms of books to a depot, and stores it before it is said what was issued."""
    books = [ring.read_book(name) for name in args.books]
    for name, kept in zip(args.books, books):
        if not kept.closed and not args.open:
            raise No("%s is not closed: it does not hold every visit yet. Follow it to its end, or say --open" % name)
    forms = [form for kept in books for form in kept.forms()]
    if os.path.exists(args.file):
        there = ring.read_depot(args.file)
        there = ring.read_depot(args.file, max(there.room, args.room or there.held + len(forms)))
    elif not books:
        raise No("%s is not there, and no book is given to begin it from" % args.file)
    else:
        there = ring.depot(args.room or len(forms))
    if books:
        unmixed(args, args.file, {form[:2] for form in there.forms()} - {form[:2] for form in forms})
    issued, count = [], 0
    with Progress(lambda: "%d of %d forms handed in" % (count, len(forms))):
        for count, form in enumerate(forms, 1):
            if there.take(form):
                issued.append(form)
    if books:
        there.write(args.file)
    record = {"file": args.file, "held": there.held, "issued": [form._asdict() for form in issued], "known": len(forms) - len(issued)}
    if not books:
        record["forms"] = [form._asdict() for form in there.forms()]
    rows = issued if books else there.forms()
    text = "".join("%s %d %d %d\n" % (shown_source(Source(form.p_edition, form.q_edition, 0, form.contractor, form.own, form.grid)), form.q, form.p, form.size) for form in rows)
    answer(args, record, text + "%s: %d issued, %d known, %d orders held\n" % (args.file, len(issued), len(forms) - len(issued), there.held))


# ---------------------------------------------------------------- the store

def opened_store(args, ring=None, begun=True):
    # here, and not above: SQLite is needed by a store alone, and a few builds of Python come without it
    try:
        from .store import Store
    except ImportError as fault:
        raise door.Failed("a store needs Python's sqlite3, and this Python has none: %s" % fault)
    return Store(args.store, ring, begun)


def undoubled(file, sources, source):
    """Refuses an undivided book beside a contractor's of the same list: each visit would have two keys, and so two orders."""
    for other in sources:
        if other._replace(threshold=0, contractor=0) == source._replace(threshold=0, contractor=0) and (other.contractor == UNDIVIDED) != (source.contractor == UNDIVIDED):
            raise No("%s has a book of %s: beside it one of %s would order visits twice, under two keys. Keep one way of dividing a town" % (
                file, shown_source(other), shown_source(source)))


def book_follow(ring, args):
    """Follows a book of a store until it is closed and all its orders are issued."""
    if len(args.sheets) != (1 if args.self else 2):
        raise door.Wrong("book follow P.sheet Q.sheet --store FILE, or book follow S.sheet --self --store FILE")
    source, page_after = asked_of(ring, args)
    with opened_store(args, ring) as store:
        def allowed():
            unmixed(args, args.store, store.editions() - {source[:2]}, "books")
            undoubled(args.store, [other.source for other in store.books()], source)
        kept, count = store.book(source, allowed), 0
        with Progress() as progress:
            for state, issued in follow.follow(kept, page_after, args.forms, args.pages):
                count += len(issued)
                progress.tell("%d pairs held, %d forms handed in" % (state.held, state.formed))
        show_store(args, store, count)


def book_show(ring, args):
    with opened_store(args, begun=False) as store:
        show_store(args, store)


def show_store(args, store, issued=None):
    """What a store holds, as of one moment."""
    with store.reading():
        rows = [(kept, kept.state()) for kept in store.books()]
        held, waiting = store.counts()
        record = {"file": args.store, "orders": held, "unconfirmed": waiting, "receivers": store.receivers(), "books": [dict(kept.source._asdict(), **state._asdict()) for kept, state in rows]}
        if args.json and args.command == "book show":
            for one, (kept, _) in zip(record["books"], rows):
                one.update(pairs=[pair._asdict() for pair in kept.pairs()], pages=len(kept.taken()))
            record["forms"] = [form._asdict() for form in store.orders()]
    if issued is not None:
        record["issued"] = issued
    text = "".join("%s: %s; %s\n" % (args.store, shown_source(kept.source), shown_held(state)) for kept, state in rows)
    new = "" if issued is None else "%d issued now, " % issued
    answer(args, record, text + "%s: %d orders, %s%d not confirmed by a receiver\n" % (args.store, held, new, waiting))


def book_send(ring, args):
    """Sends the orders of a store to a receiver program, each until it is confirmed."""
    with opened_store(args, begun=False) as store:
        from .receiver import Program
        try:
            outbox, count = store.outbox(args.contractor, args.to), 0
        except Unsaid as fault:
            raise No("%s%s" % (fault, "" if args.contractor is not None else ", by --contractor 0, 1, or 2 for undivided lists: each contractor's receiver is handed its own orders alone"))
        try:
            with Program(args.receiver, args.wait) as receiver, Progress() as progress:
                for confirmed in follow.send(outbox, receiver.give):
                    count += confirmed
                    progress.tell("%d orders confirmed" % count)
        except OSError as fault:
            raise door.Failed("%s: %s" % (args.receiver[0], fault.strerror or fault))
        held, waiting = outbox.counts()
        answer(args, {"file": args.store, "receiver": outbox.receiver, "contractor": outbox.contractor, "orders": held, "confirmed": count, "unconfirmed": waiting},
               "%s: to %s: %d orders confirmed now, %d of %d not confirmed\n" % (args.store, outbox.receiver, count, waiting, held))
        if waiting:
            why = receiver.fault + "; " if receiver.fault else ""
            raise door.Failed("%s%d orders are not confirmed: the same command sends them again" % (why, waiting))


# ---------------------------------------------------------------- the picture

def listed(lines, p, q, grid):
    """The pairs of a listing; each line is held to the two sheets."""
    pairs, ended = [], False
    ps, qs = ({one.id: one for one in sheet.points} for sheet in (p, q))
    for number, line in enumerate(lines, 1):
        fields = line.split()
        if not fields:
            continue
        if fields[0] == "refused":
            raise No("the listing says '%s'" % line.strip())
        if fields[0] == "end" and len(fields) == 2 and not ended:
            if fields[1] != str(len(pairs)):
                raise No("line %d: the listing ends with %s pairs and shows %d" % (number, fields[1], len(pairs)))
            ended = True
            continue
        try:
            row = tuple(int(field) for field in fields)
        except ValueError:
            row = ()
        if len(row) != 5 or ended:
            raise No("line %d is no line of a listing: %s" % (number, line.strip()))
        if row[0] not in qs or row[1] not in ps:
            raise No("line %d: the listing pairs %d with %d, and the sheets do not have both" % (number, row[0], row[1]))
        a, b = qs[row[0]], ps[row[1]]
        far = abs(a.x - b.x), abs(a.y - b.y)
        sizes = {False: far[0] ** 2 + far[1] ** 2, True: (far[0] + far[1]) ** 2}
        if row[2:4] != middle(a, b) or row[4] != sizes[grid]:
            hint = "" if row[4] != sizes[not grid] or row[2:4] != middle(a, b) else ": it is of the %s" % ("circle" if grid else "street grid, say --grid")
            raise No("line %d is not of these sheets: %s, where %d and %d are %s%s" % (
                number, line.strip(), row[0], row[1], " ".join(map(str, middle(a, b) + (sizes[grid],))), hint))
        pairs.append((row[0], row[1], row[4]))
    if not ended:
        raise No("the listing has no last line 'end N'")
    return pairs


def unlike(found, whole, part):
    """What is wrong with the pairs of a listing, beside the list of the same sheets and terms."""
    def some(what, pairs):
        return ["%d %s, the first chamber %d with pump house %d" % (len(pairs), what, *min(pairs)[:2])] if pairs else []
    known, seen, twice = set(whole), set(), []
    for pair in found:
        if pair in seen:
            twice.append(pair)
        seen.add(pair)
    return some("are no pairs of this list", seen - known) + some("stand twice", twice) + ([] if part else some("are missing", known - seen))


def shown(ring, args):
    """What a picture or a page is of: both sheets, the terms, the ids of the chambers that may be named where not all may, and the pairs."""
    p, q = both(ring, args)
    terms = {**terms_of(args, q), **largest_of(args)}
    mine = None
    if "owners" in terms:
        mine = set(own_ids(q, terms))
    if args.listing is None:
        return p, q, terms, mine, gathered(ring.pairs(p, q, **terms), q, terms)
    try:
        pairs = listed(read(args.listing).decode("ascii", "replace").split("\n"), p, q, args.grid)
        if mine is not None and not mine.issuperset(pair[0] for pair in pairs):
            raise No("it has chambers of the other contractor")
        wrong = unlike(pairs, [tuple(pair) for pair in gathered(ring.pairs(p, q, **terms), q, terms)], args.part)
        if wrong:
            raise No("it is not the list of these sheets: of its %d pairs and those of the list %s. Make it anew, or say what it is of (--threshold, --largest, --part)" % (len(pairs), "; ".join(wrong)))
    except No as fault:
        raise No("%s: %s" % (args.listing, fault))
    return p, q, terms, mine, pairs


def names_of(p, q):
    return os.path.basename(p.name), os.path.basename(q.name)


def draw(ring, args):
    p, q, _, mine, pairs = shown(ring, args)
    put(args, picture.svg(p, q, [pair[:2] for pair in pairs], args.grid, mine, names_of(p, q)))


def map_(ring, args):
    p, q, terms, mine, pairs = shown(ring, args)
    near = args.near
    if near is None:
        near = NEAR if q.n <= ASKED else 0
        if not near:
            say("%d chambers: what blocks near them is not asked for; --near K asks" % q.n)
    with Progress() as progress:
        put(args, planner.page(ring, p, q, pairs, terms, near, mine, names_of(p, q), units(args), progress.tell))


# ---------------------------------------------------------------- the words of each command

def exact(text):
    """A number as it is written, of at most 20 digits before and after its point and an exponent of two."""
    if not DECIMAL.fullmatch(text) and not re.fullmatch(r"[+-]?[0-9]{1,20}/[0-9]{1,20}", text):
        raise argparse.ArgumentTypeError("'%s' is no number, or too long a one" % text[:60])
    try:
        return Fraction(text)
    except ZeroDivisionError:
        raise argparse.ArgumentTypeError("'%s' is no number" % text)


def offset(text):
    parts = text.split(",")
    if len(parts) != 2:
        raise argparse.ArgumentTypeError("two numbers, X,Y")
    return exact(parts[0]), exact(parts[1])


def scale(text):
    value = exact(text)
    if value <= 0:
        raise argparse.ArgumentTypeError("a number above 0")
    return value


def whole_number(text):
    value = int(text)
    if not 0 <= value < 1 << 32:
        raise argparse.ArgumentTypeError("a whole number from 0 to %d" % ((1 << 32) - 1))
    return value


def size(text):
    value = int(text)
    if not 0 <= value < 1 << 64:
        raise argparse.ArgumentTypeError("a whole number from 0 to %d" % ((1 << 64) - 1))
    return value


def some(text):
    value = whole_number(text)
    if not value:
        raise argparse.ArgumentTypeError("a whole number above 0")
    return value


def seconds(text):
    value = float(text)
    if not 0 <= value <= 1e9:
        raise argparse.ArgumentTypeError("seconds, from 0 to 1,000,000,000")
    return value


def with_units(one, what):
    one.add_argument("--scale", type=scale, default=Fraction(1), help="%s are multiplied by this to be whole numbers: 100 for centimetres from metres" % what)
    one.add_argument("--offset", type=offset, default=(Fraction(0), Fraction(0)), metavar="X,Y", help="a far origin: taken off first, so that what is left is small; --offset=-5,8 where it begins with a minus")


def with_csv(one):
    one.add_argument("--id", metavar="NAME", help="the column of the ids (id)")
    one.add_argument("--delimiter", choices=sorted(DELIMITERS), help="where the first line does not tell")
    one.add_argument("--encoding", help="of the CSV (UTF-8, or what a mark at its start says)")


def with_terms(one, threshold=True):
    one.add_argument("--grid", action="store_true", help="along a street grid (sheets of form 1)")
    if threshold:
        one.add_argument("--threshold", type=whole_number, default=0, metavar="T", help="of the chambers with at least T pairs")
    one.add_argument("--contractor", type=whole_number, metavar="0|1", help="of this contractor's chambers; every record still blocks")
    one.add_argument("--owners", metavar="FILE.csv", help="whose each chamber is: a CSV with the ids and a column of 0 or 1")
    one.add_argument("--owner", metavar="NAME", help="the column of the owners (owner)")
    with_csv(one)


def with_columns(one):
    one.add_argument("--x", metavar="NAME", help="the column of x (x)")
    one.add_argument("--y", metavar="NAME", help="the column of y (y)")
    one.add_argument("--decimal-comma", action="store_true", help="decimals are written with a comma")
    one.add_argument("--round", action="store_true", help="to the nearest whole number, half up, where it is none")


def with_largest(one, what=""):
    one.add_argument("--largest", type=size, metavar="N", help="nothing farther than this: the pairs whose size, the squared distance, is at most N%s" % what)


def with_sheets(one):
    one.add_argument("p", metavar="P.sheet", help="the pump houses")
    one.add_argument("q", metavar="Q.sheet", help="the chambers")


def with_list(one):
    one.add_argument("--geojson", action="store_true", help="the pairs as GeoJSON lines, in the units of the CSV (--scale, --offset)")
    with_units(one, "coordinates")
    with_out(one)


def with_listing(one):
    with_sheets(one)
    one.add_argument("listing", nargs="?", metavar="LISTING")
    one.add_argument("--part", action="store_true", help="LISTING is a part of the list, as `shortest` gives")
    with_largest(one)
    with_terms(one)
    with_out(one)


def with_store(one, what=""):
    one.add_argument("--store", required=True, metavar="FILE", help="an SQLite file" + (", " + what if what else ""))


def with_out(one):
    one.add_argument("--out", metavar="FILE", help="to this file, whole or not at all, and not to standard output")


def parser():
    top = argparse.ArgumentParser(prog="ring", allow_abbrev=False, description="Ring pairs of pump houses and chambers, by the proved calls.", epilog=STATUS)
    commands = top.add_subparsers(required=True, metavar="COMMAND", dest="command")

    def added(to, name, call, help_, example, more=""):
        one = to.add_parser(name, help=help_, allow_abbrev=False, description=help_[0].upper() + help_[1:] + "." + more, formatter_class=argparse.RawDescriptionHelpFormatter,
                            epilog="Example:\n    %s\n\n%s" % (example, STATUS))
        one.add_argument("--json", action="store_true", help="the answer as JSON")
        one.set_defaults(call=call)
        return one

    sheet = commands.add_parser("sheet", allow_abbrev=False, help="make, print, explain and tidy packed sheets", description="Makes, prints, explains and tidies packed sheets.", epilog=STATUS)
    parts = sheet.add_subparsers(required=True, metavar="make|csv|why|tidy", dest="part")
    one = added(parts, "make", sheet_make, "a sheet from a CSV", './ring sheet make pumps.csv --id ASSET_ID --x EASTING --y NORTHING --scale 100 --offset 430000,5400000 --edition 7 --out pumps.sheet')
    one.add_argument("file", metavar="FILE.csv", help="rows of id, x, y, or with a header that names them; - for standard input")
    one.add_argument("--edition", type=int, required=True, metavar="N", help="1 to 1,000,000,000: a new one whenever the points change")
    one.add_argument("--out", required=True, metavar="FILE.sheet")
    with_columns(one)
    with_csv(one)
    with_units(one, "coordinates")
    one.add_argument("--empty", action="store_true", help="a CSV of no rows is meant so")
    one.add_argument("--replace", action="store_true", help="write over a sheet of the same edition with other points, or over another file")
    one = added(parts, "csv", sheet_csv, "a sheet's points as CSV, by id", "./ring sheet csv pumps.sheet --scale 100 --offset 430000,5400000")
    one.add_argument("file", metavar="FILE.sheet")
    with_units(one, "the points")
    with_out(one)
    one = added(parts, "why", sheet_why, "whether a sheet opens, and if not, why", "./ring sheet why pumps.sheet")
    one.add_argument("file", metavar="FILE.sheet")
    one = added(parts, "tidy", sheet_tidy, "a sheet packed anew in a good order", "./ring sheet tidy pumps.sheet",
                " The same points under the same edition: lists and pages\nstay, fewer boxes are opened.")
    one.add_argument("file", metavar="FILE.sheet")
    one.add_argument("--out", metavar="FILE.sheet", help="to this file, and not to the same")

    one = added(commands, "list", list_, "the ring pairs of two sheets", "./ring list pumps.sheet chambers.sheet --geojson --scale 100 --offset 430000,5400000 --out visits.geojson",
                " Either may be a CSV of points (FILE.csv), which\nis packed for this list alone; a sheet in a bad order is packed anew for it too. With --largest nothing\nfarther: in centimetres "
                "--largest 900000000 is to 300 m, the square of 30,000.")
    with_sheets(one)
    with_largest(one, "; with --threshold T of the chambers with at least T such pairs")
    with_columns(one)
    with_terms(one)
    with_list(one)
    cluster = commands.add_parser("cluster", allow_abbrev=False, help="a list made by many workers", description="Lists made by many workers.", epilog=STATUS)
    parts = cluster.add_subparsers(required=True, metavar="list", dest="part")
    one = added(parts, "list", cluster_list, "the ring pairs of two sheets, made by tasks of Dask's distributed scheduler",
                "./ring cluster list pumps.sheet chambers.sheet --scheduler tcp://10.0.0.5:8786 --out listing.txt",
                " Without an address the\ncluster is on this machine, over loopback. It needs Debian's python3-distributed, which it finds under any python3 on the path.")
    with_sheets(one)
    one.add_argument("--scheduler", metavar="ADDRESS", help="of a scheduler that runs: its workers are started in a clone of this repository, with PYTHONPATH=python")
    one.add_argument("--workers", type=some, metavar="N", help="of the cluster on this machine: so many workers (one for each processor)")
    one.add_argument("--by", choices=("chambers", "leaves"), default="chambers", help="tasks are ranges of chambers, or runs of leaves, which take longer")
    one.add_argument("--batch", type=some, metavar="N", help="so many chambers or leaves a task")
    one.add_argument("--uncounted", action="store_true", help="do not hold the number of the pairs to `count`, which takes about as long as the list")
    with_largest(one)
    with_columns(one)
    with_terms(one)
    with_list(one)
    one = added(commands, "self", self_, "the ring pairs of one sheet with itself", "./ring self chambers.sheet --largest 900000000")
    one.add_argument("sheet", metavar="S.sheet")
    with_largest(one)
    one.add_argument("--grid", action="store_true", help="along a street grid (sheets of form 1)")
    with_list(one)
    one = added(commands, "shortest", shortest, "the ring pairs with the smallest circles", "./ring shortest pumps.sheet chambers.sheet --count 5")
    with_sheets(one)
    one.add_argument("--count", type=whole_number, default=16, metavar="K", help="1 to 16")
    with_list(one)
    one = added(commands, "busiest", busiest, "the chambers, or the pump houses, that are in the most ring pairs", "./ring busiest pumps.sheet chambers.sheet --count 5 --largest 900000000",
                " A line for each: its\nid and its number of pairs, more first, of as many the lower id first; those with none too. Then `end` and\nthe number of lines.")
    with_sheets(one)
    one.add_argument("--pumps", action="store_true", help="of the pump houses, and not of the chambers")
    one.add_argument("--count", type=whole_number, default=16, metavar="K", help="1 to 16")
    with_largest(one)
    with_terms(one, threshold=False)
    with_out(one)
    one = added(commands, "urgent", urgent, "the ring pairs with the highest sum of the scores of their two ends",
                "./ring urgent pumps.sheet chambers.sheet --p-scores pumps.csv --q-scores chambers.csv --score AGE --count 5",
                " Lines as\nof `list`, each with that sum at its end, the highest first; of one sum by q id, then p id.")
    with_sheets(one)
    one.add_argument("--p-scores", required=True, metavar="FILE.csv", help="a CSV with the ids of the pump houses and a column of scores, 0 to 1,000,000,000: one for each")
    one.add_argument("--q-scores", required=True, metavar="FILE.csv", help="the same of the chambers")
    one.add_argument("--score", metavar="NAME", help="the column of the scores (score)")
    one.add_argument("--count", type=whole_number, default=16, metavar="K", help="1 to 16")
    with_largest(one)
    with_terms(one, threshold=False)
    with_list(one)
    one = added(commands, "why", why, "why a chamber and a pump house are a pair, or none", "./ring why pumps.sheet chambers.sheet 1004 106")
    with_sheets(one)
    one.add_argument("q_id", type=whole_number, metavar="Q_ID", help="the chamber's id")
    one.add_argument("p_id", type=whole_number, metavar="P_ID", help="the pump house's id")
    one.add_argument("--grid", action="store_true", help="along a street grid (sheets of form 1)")
    one = added(commands, "nearest", nearest, "the pump houses nearest to a chamber, each with its squared distance", "./ring nearest pumps.sheet chambers.sheet 1004 --count 3")
    with_sheets(one)
    one.add_argument("q_id", type=whole_number, metavar="Q_ID", help="the chamber's id")
    one.add_argument("--count", type=whole_number, default=16, metavar="K", help="1 to 16")
    one = added(commands, "partners", partners, "whether a chamber has at least T ring partners", "./ring partners pumps.sheet chambers.sheet 1004 3")
    with_sheets(one)
    one.add_argument("q_id", type=whole_number, metavar="Q_ID", help="the chamber's id")
    one.add_argument("t", type=whole_number, metavar="T")
    one = added(commands, "book", book, "an order book, followed until it holds every visit", "./ring book town.book pumps.sheet chambers.sheet",
                " Where the file is there it goes on from what it\nholds. What is held is stored as it goes: after an interrupt or a crash the same command goes on.")
    one.add_argument("file", metavar="FILE.book")
    one.add_argument("sheets", nargs="*", metavar="SHEET", help="P.sheet Q.sheet, or one sheet with --self")
    one.add_argument("--self", action="store_true", help="of a self join")
    one.add_argument("--show", action="store_true", help="only show what it holds")
    one.add_argument("--pages", type=whole_number, metavar="N", help="take at most N pages now")
    one.add_argument("--room", type=whole_number, metavar="N", help="so many slots and no more")
    with_terms(one)
    one = added(commands, "book follow", book_follow, "a book in a store, followed until it is closed and all its orders are issued",
                "./ring book follow pumps.sheet chambers.sheet --store town.store",
                "\nIt may be stopped at any moment, by a crash too: the same command goes on. A second process on the same\nstore does no harm.")
    one.add_argument("sheets", nargs="+", metavar="SHEET", help="P.sheet Q.sheet, or one sheet with --self")
    with_store(one, "made where it is not there")
    one.add_argument("--self", action="store_true", help="of a self join")
    one.add_argument("--pages", type=whole_number, metavar="N", help="ask for at most N pages now")
    one.add_argument("--forms", type=seconds, default=follow.FORMED, metavar="SECONDS", help="make forms and issue orders every so many seconds (5); at the end in any case")
    one.add_argument("--new-edition", action="store_true", help="beside orders of other editions")
    with_terms(one)
    one = added(commands, "book show", book_show, "what a store holds: its books, its orders, which are not confirmed", "./ring book show --store town.store")
    with_store(one)
    one = added(commands, "book send", book_send, "the orders of a store sent to a receiver program, each until it is confirmed",
                "./ring book send --store town.store -- python3 python/ring/receiver.py orders.received",
                "\nThe receiver is handed an order a line, as JSON, and answers its number once it holds it.")
    with_store(one)
    one.add_argument("--contractor", type=whole_number, metavar="0|1|2", help="whose orders, 2 for those of undivided lists: asked for where the store has more than one's")
    one.add_argument("--to", metavar="NAME", help="the receiver's name, by which its confirmations are kept (contractor 0, contractor 1, or undivided)")
    one.add_argument("--wait", type=seconds, default=follow.SILENT, metavar="SECONDS", help="so long is an answer waited for (60)")
    one.add_argument("receiver", nargs="+", metavar="RECEIVER", help="the words that run it, after --")
    one = added(commands, "depot", depot, "the forms of closed books handed to a depot", "./ring depot town.depot town.book",
                " Each order is held once: what is handed in again\nis known, and issues nothing. With no book it shows what the depot holds.")
    one.add_argument("file", metavar="FILE.depot")
    one.add_argument("books", nargs="*", metavar="FILE.book")
    one.add_argument("--room", type=whole_number, metavar="N", help="so many slots and no more")
    one.add_argument("--open", action="store_true", help="books that are not closed too")
    one.add_argument("--new-edition", action="store_true", help="beside orders of other editions")
    one = added(commands, "draw", draw, "a picture of two sheets and their pairs", "./ring draw pumps.sheet chambers.sheet listing.txt --out town.svg",
                " LISTING is what `./list` or `./ring list` prints of\nthe two sheets, - for standard input; without it the list is made.")
    with_listing(one)
    one = added(commands, "map", map_, "a page of two sheets and their pairs, to look at in a browser", "./ring map pumps.sheet chambers.sheet --out town.html",
                " It is one file that needs nothing else: move,\nzoom, search an id, click a chamber for its visits and for what blocks the pump houses near it. LISTING as of `draw`.")
    with_listing(one)
    one.add_argument("--near", type=whole_number, metavar="K", help="of the K pump houses nearest to each chamber, what blocks those that are no partners (%d, or 0 for over %s chambers); at most 16"
                     % (NEAR, format(ASKED, ",")))
    with_units(one, "coordinates")
    return top


def parsed(words):
    """The words of a command. `book follow` and its like are commands of two words, beside `book` with a file."""
    if len(words) > 1 and words[0] == "book" and words[1] in ("follow", "show", "send"):
        words = [" ".join(words[:2])] + words[2:]
    return parser().parse_args(words)


def main(words, ring=None):
    args = parsed(words)
    args.words = words
    mine = Ring() if ring is None else ring
    try:
        return args.call(mine, args) or door.SERVED
    except WorkerFault as fault:
        raise door.Failed(str(fault))
    except RingError as fault:
        if args.json:
            print(json.dumps({"refused": getattr(fault, "number", None), "reason": str(fault)}))
        print("ring: %s" % fault, file=sys.stderr)
        return door.REFUSED
    finally:
        if ring is None:
            mine.close()
