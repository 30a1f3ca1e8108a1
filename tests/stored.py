"""How the cases of a program are stored: its input as little-endian words, and the lines that it must print. The program `trial` reads one tape of cases, in
parts, and each part is itself a tape."""
import collections
import os
import struct

import reading

TOP = os.path.join(os.path.dirname(os.path.abspath(__file__)), "..")

# The kinds of cases on the tape, as crates/trial knows them: a 0 ends it, and 6 is the program's own, for the ring walks of a case of walks.
RULES, OPEN, POINT, PACK, WALKS = range(1, 6)
PAGES, PARTNERS, OWN, RUNS, SHORTEST, NEAR, VIEWS, MARK = range(7, 15)
MANY, OWN_MANY, COUNT, OWN_COUNT = range(15, 19)
BUSIEST, PUMPS, URGENT = range(19, 22)

# of the kinds that are asked of two sheets: the words of a request, of which the first says how many words for kept bits are lent
WIDTH = {PAGES: 6, PARTNERS: 3, OWN: 5, RUNS: 3, SHORTEST: 2, NEAR: 5, VIEWS: 10, MANY: 9, OWN_MANY: 8, COUNT: 6, OWN_COUNT: 5,
         BUSIEST: 6, PUMPS: 6, URGENT: 6}
# those that end with a contractor and its owner bytes
OWNED = (PAGES, MANY, COUNT, BUSIEST, URGENT)
# of the views: the call that is a page request
VIEW_PAGE = 6


def whose(contractor, owners):
    """What such a request ends with: its contractor, how many owner bytes there are, and these, a word each."""
    return [contractor, len(owners), *owners]


def request_end(kind, words, at):
    """Where the request ends that begins there."""
    end = at + WIDTH[kind]
    if kind in OWNED or kind == VIEWS and words[at + 1] == VIEW_PAGE:
        end += 2 + words[end + 1]
    # the scores of P, and those of Q
    for _ in range(2 if kind == URGENT else 0):
        end += 1 + words[end]
    return end

# How many words for kept bits the program has, of which some are lent; what number k of those that can be lent holds before a call.
WORDS = 512
FIRST_MARK = 0xA5A5A5A500000000


def marks(count):
    return [FIRST_MARK + k for k in range(count)]


def told(numbers):
    """What is printed of numbers after a call: how many are 0 from the first on, how many hold their mark up to the last, and those between."""
    zeros = next((k for k, number in enumerate(numbers) if number), len(numbers))
    end = len(numbers)
    while end > zeros and numbers[end - 1] == FIRST_MARK + end - 1:
        end -= 1
    return " ".join(["%d %d" % (zeros, len(numbers) - end)] + ["%x" % number for number in numbers[zeros:end]])


def lent_told(lent, after):
    """The end of a line: how many words are lent, and what all hold after the call."""
    return " lent %d %s" % (lent, told(after + marks(WORDS)[lent:]))


def needed(p, chambers=1):
    """How many words P needs, as its trailer says; none where it has no right one."""
    n = p[-4] if len(p) >= 6 else 0
    return chambers * -(-n // 64) if 0 <= n <= reading.WIDE_POINTS else 0


def by_turns(p, count, chambers=1):
    """How many words are lent with each of so many requests: exactly enough, one more, and all, in turn."""
    need = needed(p, chambers)
    return [min((need, need + 1, WORDS)[k % 3], WORDS) for k in range(count)]


def split(tape):
    """The cases of a tape one after the other: the words of each."""
    words = struct.unpack("<%di" % (len(tape) // 4), tape)
    at = 0
    while words[at]:
        kind = words[at]
        if kind == RULES:
            end = at + 1
        elif kind == MARK:
            end = at + 5
        elif kind == PACK:
            end = at + 9 + sum(words[at + 5:at + 7])
        elif kind in (OPEN, POINT):
            end = at + 2 + words[at + 1] + (kind == POINT)
        elif kind == WALKS:
            p, q, filters, rings = words[at + 1:at + 5]
            end = at + 5 + p + q + 2 * filters + 3 * rings
        else:
            p, q, count = words[at + 1:at + 4]
            end = at + 4 + p + q
            for _ in range(count):
                end = request_end(kind, words, end)
        yield words[at:end]
        at = end
    assert len(tape) == 4 * at + 4, "the tape goes on after its end"


class Cases:
    """What a generator makes: for each case the words that the program reads, the lines that it must print, and a label for people.

    A line is asked by a function of a reading of the rules and of what is handed to the call."""

    def __init__(self, name):
        self.name = name
        self.words = []
        self.lines = []
        self.labels = []
        self.asked = []

    def add(self, label, words, asked):
        """A case of `words`, which asks each (function, argument, ..) of `asked`. Answers the lines that must be printed."""
        lines = [ask(reading, *given) for ask, *given in asked]
        self.words += words
        self.lines += lines
        self.labels += [label] * len(lines)
        self.asked += asked
        return lines

    def join(self, part):
        """The cases of a part, after those that stand here."""
        self.words += part.words
        self.lines += part.lines
        self.labels += ["%s: %s" % (part.name, label) for label in part.labels]
        self.asked += part.asked

    def input(self):
        """The bytes that the program reads: the cases, and a 0 that ends them. A word of 32 bits is stored by its bits, whatever its sign."""
        return b"".join(struct.pack("<I", word & 0xFFFFFFFF) for word in self.words + [0])

    def output(self):
        return "".join(line + "\n" for line in self.lines).encode()

    def path(self, name):
        return os.path.join(TOP, "crates", self.name, name)

    def store(self):
        for name, content in (("stdin", self.input()), ("stdout", self.output())):
            with open(self.path(name), "wb") as file:
                file.write(content)
        print("%s: %d lines, %d bytes of input, %d of output" % (self.name, len(self.lines), len(self.input()), len(self.output())))

    def differs(self, stored_input, stored_output):
        """Where what is stored differs from what is made, in words, or an empty text."""
        if stored_input != self.input():
            made = self.input()
            at = next((k for k in range(min(len(made), len(stored_input))) if made[k] != stored_input[k]), min(len(made), len(stored_input)))
            return "crates/%s/stdin differs at byte %d" % (self.name, at)
        if stored_output != self.output():
            stored = stored_output.decode(errors="replace").split("\n")
            made = self.output().decode().split("\n")
            at = next((k for k in range(min(len(made), len(stored))) if made[k] != stored[k]), min(len(made), len(stored)))
            label = self.labels[at] if at < len(self.labels) else "past the last case"
            return "crates/%s/stdout differs at line %d (%s): stored `%s`, expected `%s`" % (
                self.name, at + 1, label, stored[at] if at < len(stored) else "", made[at] if at < len(made) else "")
        return ""

    def read(self):
        """The stored input and output."""
        contents = []
        for name in ("stdin", "stdout"):
            with open(self.path(name), "rb") as file:
                contents.append(file.read())
        return contents


class Asked:
    """The cases of one part that are asked of two sheets each; what was seen in them is counted."""

    name = ""
    kind = 0

    def __init__(self):
        self.cases = Cases(self.name)
        self.pairs = 0
        self.seen = collections.Counter()

    def put(self, label, p, q, requests, asked, kind=None):
        """A case of two sheets and the words of each request, of a kind that the program knows. Answers the lines that must be printed."""
        self.pairs += kind is None
        kind = kind or self.kind
        return self.cases.add(label, [kind, len(p), len(q), len(requests)] + p + q + [word for request in requests for word in request], asked)
