"""Books and depots in files. A file is text: a first line of JSON, a line of numbers for each pair or form, and a last line with how many there are and a digest
of all before it, so that a cut or altered file is told. It is written whole or not at all: docs/GUIDE.md says what a crash may do."""
import hashlib
import json

from . import door
from .faults import BadFile
from .records import Form, Pair, Source

BOOK, DEPOT = "ring-book", "ring-depot"


def text_of(head, rows):
    body = json.dumps(head) + "\n" + "".join(" ".join(str(int(part)) for part in row) + "\n" for row in rows)
    return ("%send %d %s\n" % (body, len(rows), hashlib.sha256(body.encode()).hexdigest())).encode()


def read(path, kind, width):
    """The first line and the rows of a file."""
    try:
        with open(path, "rb") as f:
            data = f.read()
        text = data.decode("ascii")
    except UnicodeDecodeError:
        raise BadFile("%s is no %s: it is no text" % (path, kind))
    lines = text.split("\n")
    if len(lines) < 3 or lines[-1] or not lines[-2].startswith("end "):
        raise BadFile("%s is no %s, or was cut off: it has no last line `end`" % (path, kind))
    body = "".join(line + "\n" for line in lines[:-2])
    if lines[-2] != "end %d %s" % (len(lines) - 3, hashlib.sha256(body.encode()).hexdigest()):
        raise BadFile("%s was altered or cut: its last line does not fit what stands before it" % path)
    try:
        head = json.loads(lines[0])
        if head[kind] != 1:
            raise ValueError("another version")
        rows = [tuple(int(part) for part in line.split(" ")) for line in lines[1:-2]]
        if any(len(row) != width or min(row) < 0 or max(row[:-1]) >> 32 or row[-1] >> 64 for row in rows):
            raise ValueError("a row")
        return head, rows
    except (ValueError, KeyError, TypeError) as fault:
        raise BadFile("%s is no %s of this version (%s)" % (path, kind, fault))


def write_book(path, source, room, pairs, closed):
    head = dict({BOOK: 1}, **source._asdict())
    head.update(room=room, closed=closed)
    door.put(path, text_of(head, pairs))


def read_book(path):
    """The source, the room, the held pairs and whether these are all."""
    head, rows = read(path, BOOK, 3)
    try:
        source = Source(**{part: head[part] for part in Source._fields})
        if any(type(part) is not kind for part, kind in zip(source, (int, int, int, int, bool, bool))) or type(head["closed"]) is not bool:
            raise ValueError("its first line")
        if any(not 0 <= part < 1 << 32 for part in (*source[:4], head["room"])):
            raise ValueError("its first line")
        return source, head["room"], [Pair(*row) for row in rows], head["closed"]
    except (ValueError, KeyError, TypeError) as fault:
        raise BadFile("%s is no %s of this version (%s)" % (path, BOOK, fault))


def write_depot(path, room, forms):
    door.put(path, text_of({DEPOT: 1, "room": room}, forms))


def read_depot(path):
    """The room and the held forms."""
    head, rows = read(path, DEPOT, 8)
    room = head.get("room")
    if type(room) is not int or not 0 <= room < 1 << 32:
        raise BadFile("%s is no %s of this version (its first line)" % (path, DEPOT))
    return room, [Form(a, b, bool(own), c, bool(grid), q, p, size) for a, b, own, c, grid, q, p, size in rows]
