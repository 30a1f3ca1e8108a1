"""A utility's CSV, read exactly: quotes, commas, semicolons or tabs, columns by name, decimals, far origins, encodings. Each fault is told with its line."""
import codecs
import csv
import io
import re
from decimal import Decimal

from .faults import BadTable
from .records import Point
from .sheets import COORDINATE, ID, POINTS, Units

# the highest score
SCORE = 1_000_000_000
DELIMITERS = {"comma": ",", "semicolon": ";", "tab": "\t"}
MARKS = ((codecs.BOM_UTF8, "utf-8-sig"), (codecs.BOM_UTF16_LE, "utf-16"), (codecs.BOM_UTF16_BE, "utf-16"))
WHOLE = re.compile(r"[+-]?[0-9]{1,20}")
DECIMAL = re.compile(r"[+-]?(?:[0-9]{1,20}(?:\.[0-9]{0,20})?|\.[0-9]{1,20})(?:[eE][+-]?[0-9]{1,2})?")


def decoded(data, encoding=None):
    """The text of a file's bytes: UTF-8 where nothing else is said and no mark at its start says otherwise."""
    encoding = encoding or next((name for mark, name in MARKS if data.startswith(mark)), "utf-8")
    try:
        return data.decode("utf-8-sig" if encoding.lower().replace("_", "-") in ("utf-8", "utf8") else encoding)
    except UnicodeDecodeError as fault:
        raise BadTable("line %d: a byte that is no %s: say the encoding (--encoding latin-1, cp1252, ..)" % (data.count(b"\n", 0, fault.start) + 1, encoding))
    except LookupError:
        raise BadTable("no encoding is called '%s'" % encoding)
    except (UnicodeError, ValueError) as fault:
        raise BadTable("it cannot be read by the encoding '%s': %s" % (encoding, fault))


def delimiter_of(text):
    """The delimiter that stands most often in the first line that is not empty, outside quotes; a comma where there is none."""
    first = next((line for line in text.split("\n") if line.strip()), "")
    bare = re.sub(r'"[^"]*"', "", first)
    return max(DELIMITERS.values(), key=bare.count)


def rows_of(text, delimiter=None):
    """The rows that are not empty, each with the line that it begins in."""
    reader = csv.reader(io.StringIO(text, newline=""), delimiter=delimiter or delimiter_of(text), strict=True)
    line = 1
    while True:
        try:
            row = next(reader)
        except StopIteration:
            return
        except csv.Error as fault:
            raise BadTable("line %d: %s" % (line, fault))
        if any(field.strip() for field in row):
            yield line, [field.strip() for field in row]
        line = reader.line_num + 1


def column(names, wanted, line):
    """The place of a column by its name: as it is written, or else whatever its case."""
    if names.count(wanted) == 1:
        return names.index(wanted)
    folded = [name.lower() for name in names]
    if folded.count(wanted.lower()) == 1:
        return folded.index(wanted.lower())
    ground = "no column" if wanted.lower() not in folded else "more than one column"
    raise BadTable("line %d: %s is called '%s'; the columns are %s" % (line, ground, wanted, ", ".join("'%s'" % name for name in names)))


def table(text, wanted, plain, delimiter=None):
    """The fields of the wanted columns of each row, with its line. Names that are None stand for the plain ones. Without a header the plain columns stand in
    their order, and alone."""
    rows = rows_of(text, delimiter)
    line, first = next(rows, (1, None))
    if first is None:
        return
    names = [one or other for one, other in zip(wanted, plain)]
    folded = [name.lower() for name in first]
    if any(wanted) or all(name in folded for name in plain):
        places, width = [column(first, name, line) for name in names], len(first)
    else:
        places, width = list(range(len(plain))), len(plain)
        if len(first) != width:
            raise BadTable("line %d: %d fields where %s are %s, and no header that names them" % (line, len(first), ",".join(plain), width)
                           if not all(WHOLE.fullmatch(field) for field in first) else
                           "line %d: %d fields where %s are %s" % (line, len(first), ",".join(plain), width))
        yield line, first
    for line, row in rows:
        if len(row) != width:
            raise BadTable("line %d: %d fields where %s" % (line, len(row), "%s are %d" % (",".join(plain), width) if width == len(plain) else "the header has %d" % width))
        yield line, [row[place] for place in places]


def id_of(text, line):
    if not WHOLE.fullmatch(text):
        raise BadTable("line %d: the id '%s' is no whole number" % (line, text))
    if not 1 <= int(text) <= ID:
        raise BadTable("line %d: the id %d is not from 1 to %d" % (line, int(text), ID))
    return int(text)


def coordinate_of(text, axis, line, units, decimal_comma):
    what = "xy"[axis]
    if decimal_comma and "." in text:
        raise BadTable("line %d: the %s '%s' has a point where the comma is the decimal sign: it may part thousands or decimals. Write it without the point" % (line, what, text))
    value = text.replace(",", ".", 1) if decimal_comma else text
    if not DECIMAL.fullmatch(value):
        hint = ": is the comma the decimal sign? (--decimal-comma)" if not decimal_comma and DECIMAL.fullmatch(text.replace(",", ".", 1)) else ""
        raise BadTable("line %d: the %s '%s' is no number%s" % (line, what, text, hint))
    number = units.stored(Decimal(value), axis)
    if number is None:
        raise BadTable("line %d: the %s '%s' is no whole number%s: say a --scale, or --round" % (line, what, text, "" if units.scale == 1 else " times %s" % units.scale))
    if not -COORDINATE <= number <= COORDINATE:
        shown = "%d" % number if units.scale == 1 and not any(units.offset) else "'%s', which is %d," % (text, number)
        raise BadTable("line %d: the %s %s is not from %d to %d" % (line, what, shown, -COORDINATE, COORDINATE))
    return number


def read_points(data, id=None, x=None, y=None, units=Units(), delimiter=None, encoding=None, decimal_comma=False):
    """The points of a CSV's bytes, by id."""
    points, seen = [], {}
    for line, (name, across, up) in table(decoded(data, encoding), (id, x, y), ("id", "x", "y"), delimiter):
        number = id_of(name, line)
        if number in seen:
            raise BadTable("line %d: the id %d stands in line %d already" % (line, number, seen[number]))
        seen[number] = line
        points.append(Point(number, coordinate_of(across, 0, line, units, decimal_comma), coordinate_of(up, 1, line, units, decimal_comma)))
        if len(points) > POINTS:
            raise BadTable("line %d: over %d rows" % (line, POINTS))
    return sorted(points)


def by_record(data, sheet, columns, plain, what, value_of, delimiter, encoding):
    """A value for each record of a sheet, by position, from a CSV's bytes with a column of ids and one of values. Each record, `what`, has to have one."""
    values, lines = {}, {}
    for line, (name, value) in table(decoded(data, encoding), columns, plain, delimiter):
        number = id_of(name, line)
        kept = value_of(value, line)
        if number in lines:
            raise BadTable("line %d: the id %d stands in line %d already" % (line, number, lines[number]))
        values[number], lines[number] = kept, line
    known = {point.id for point in sheet.points}
    for number in values:
        if number not in known:
            raise BadTable("line %d: no %s of %s has the id %d" % (lines[number], what, sheet.name, number))
    for point in sheet.points:
        if point.id not in values:
            raise BadTable("the %s %d of %s has no %s" % (what, point.id, sheet.name, plain[1]))
    return [values[point.id] for point in sheet.points]


def owner_of(text, line):
    if text not in ("0", "1"):
        raise BadTable("line %d: the owner '%s' is not 0 or 1" % (line, text))
    return int(text)


def score_of(text, line):
    if not WHOLE.fullmatch(text):
        raise BadTable("line %d: the score '%s' is no whole number" % (line, text))
    if not 0 <= int(text) <= SCORE:
        raise BadTable("line %d: the score %d is not from 0 to %d" % (line, int(text), SCORE))
    return int(text)


def read_owners(data, sheet, id=None, owner=None, delimiter=None, encoding=None):
    """The owner of each chamber of a sheet, 0 or 1, by position, from a CSV's bytes with a column of ids and one of owners. Each chamber has to have one."""
    return by_record(data, sheet, (id, owner), ("id", "owner"), "chamber", owner_of, delimiter, encoding)


def read_scores(data, sheet, id=None, score=None, delimiter=None, encoding=None, what="record"):
    """The score of each record of a sheet, 0 to 1,000,000,000, by position, from a CSV's bytes with a column of ids and one of scores. Each record has to have one."""
    return by_record(data, sheet, (id, score), ("id", "score"), what, score_of, delimiter, encoding)
