"""The numbers of refusal with their reasons, as include/ring.h has them: they stand there alone."""
import os
import re

TOP = os.path.dirname(os.path.dirname(os.path.dirname(os.path.abspath(__file__))))
HEADER = os.path.join(TOP, "include", "ring.h")
ENTRY = re.compile(r'^    X\((\d+), (RING_\w+), ((?:"[^"\n]*"(?: \\\n +)?)+)\)', re.M)


def read(text):
    """The name and the reason of each number, of the header's text."""
    return {int(number): (name, "".join(re.findall(r'"([^"]*)"', said))) for number, name, said in ENTRY.findall(text)}


def table():
    if not _kept:
        with open(HEADER, encoding="utf-8") as f:
            _kept.update(read(f.read()))
    return _kept


def reason(number):
    """The reason of a number, in words."""
    return table()[number][1] if number in table() else "served" if number == 0 else "no number of refusal"


_kept = {}
