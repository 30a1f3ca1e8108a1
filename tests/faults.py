"""Faults of a sheet, each with the number that it gives by itself."""
import reading

BIG = 2 ** 31 - 1
SMALL = -2 ** 31


def put(words, at, word):
    changed = list(words)
    changed[at] = word
    return changed


def node_word(words, j, field):
    """Where a word of node j stands: field 0 to 6 is level, first, count, xmin, ymin, xmax, ymax."""
    return 5 * words[-4] + 7 * j + field


def faults(words):
    """Faults of a sheet that opens, with at least four points and three nodes: number, label, and the sheet with the fault."""
    n, m = words[-4], words[-3]
    most_points, most_nodes, most = reading.LIMITS[words[-1]]
    last = m - 1
    out = []

    def fault(number, label, at, word):
        out.append((number, label, lambda w, at=at, word=word: put(w, at, word)))

    for form in (0, 3, -1, BIG, SMALL):
        fault(2, "form %d" % form, -1, form)
    for count in (most_points + 1, -1, BIG, SMALL):
        fault(3, "n %d" % count, -4, count)
    for count in (most_nodes + 1, -1, BIG, SMALL):
        fault(3, "m %d" % count, -3, count)
    for edition in (0, reading.EDITION + 1, -1, BIG, SMALL):
        fault(3, "edition %d" % edition, -2, edition)
    span = words[-6]
    for wrong in (span - 1, span + 1, 0, -span, BIG):
        fault(4, "span %d" % wrong, -6, wrong)
    for root in (0, 6, 8, 14, -7):
        fault(4, "root %d" % root, -5, root)
    fault(5, "id 0", 0, 0)
    fault(5, "id past the last", 3 * (n - 1), reading.ID + 1)
    fault(5, "id below 0", 0, -1)
    fault(5, "an id twice", 3, words[0])
    fault(5, "ids fall", 3 * (n - 1), words[3 * (n - 2)] - 1)
    for field in (1, 2):
        for wrong in (most + 1, -most - 1):
            fault(5, "coordinate %d" % wrong, 3 * (n - 2) + field, wrong)
    for at, name in ((3 * n, "order"), (4 * n, "rank")):
        for wrong in (n, -1, BIG):
            fault(6, "%s %d" % (name, wrong), at + 1, wrong)
        fault(6, "%s twice" % name, at, words[at + 1])
        out.append((6, "two of the %s exchanged" % name, lambda w, at=at: put(put(w, at, w[at + 2]), at + 2, w[at])))
    fault(7, "first node on level 1", node_word(words, 0, 0), 1)
    fault(7, "root one level down", node_word(words, last, 0), words[node_word(words, last, 0)] - 1)
    fault(7, "root one level up", node_word(words, last, 0), words[node_word(words, last, 0)] + 1)
    fault(7, "level below 0", node_word(words, 1, 0), -1)
    for count in (0, 17, -1, words[node_word(words, 1, 2)] + 1, words[node_word(words, 1, 2)] - 1):
        fault(7, "count %d" % count, node_word(words, 1, 2), count)
    for first in (words[node_word(words, 1, 1)] - 1, words[node_word(words, 1, 1)] + 1, -1, 0):
        fault(7, "first %d" % first, node_word(words, 1, 1), first)
    fault(7, "root's first", node_word(words, last, 1), words[node_word(words, last, 1)] + 1)
    for j in (0, last):
        for field in (3, 4, 5, 6):
            for step in (-1, 1):
                fault(8, "node %d side %d by %d" % (j, field - 3, step), node_word(words, j, field), words[node_word(words, j, field)] + step)
    fault(8, "a box far too large", node_word(words, last, 3), -most)
    return out
