#!/usr/bin/env python3
"""Each program that reads standard input, on a pipe that does not block and is held open: after the bytes that stand in it a read fails. The program must
say `refused input`, and must not take the failure for the end of its input.

    tests/failed_reads.py    builds what is not built; says what differs, and exits with 1 then
"""
import fcntl
import itertools
import os
import struct
import subprocess
import sys

TOP = os.path.dirname(os.path.dirname(os.path.abspath(__file__)))
sys.dont_write_bytecode = True
sys.path[:0] = [os.path.join(TOP, "tools"), os.path.join(TOP, "tests")]

import kit
import make_examples
from stored import MARK, OPEN, PACK, POINT, RULES, WALKS, split

REFUSED = b"refused input\n"
SHEETS = ["listing", "packing", "opening"]
# room in a pipe for the longest of the inputs; the tape is longer, and so many cases of its front are given
ROOM = 1 << 20
CASES = 400


def stored(program, name):
    with open(os.path.join(TOP, "crates", program, name), "rb") as f:
        return f.read()


def printed(program, given, fails):
    """What the program prints on a pipe with the given bytes, after which a read fails, or the input ends."""
    read, write = os.pipe()
    try:
        fcntl.fcntl(write, fcntl.F_SETPIPE_SZ, ROOM)
        os.set_blocking(read, False)
        os.set_blocking(write, False)
        if os.write(write, given) != len(given):
            raise OSError("the pipe does not hold %d bytes" % len(given))
        if not fails:
            os.close(write)
            write = -1
        return subprocess.run(kit.command(kit.built(program)), stdin=read, stdout=subprocess.PIPE, check=True).stdout
    finally:
        os.close(read)
        if write >= 0:
            os.close(write)


def lines_of(case):
    """How many lines a case prints."""
    if case[0] == RULES:
        return len(make_examples.SAID)
    return 1 if case[0] in (OPEN, POINT, PACK, MARK) else sum(case[3:5]) if case[0] == WALKS else case[3]


def front_of_tape():
    """The first cases of the tape of `trial`, and what they print."""
    cases = list(itertools.islice(split(stored("trial", "stdin")), CASES))
    lines = stored("trial", "stdout").splitlines(True)[:sum(map(lines_of, cases))]
    return b"".join(struct.pack("<%di" % len(case), *case) for case in cases), b"".join(lines)


def tries():
    """Each: a program, the bytes that it is given, whether a read then fails, and what it must print."""
    for program in SHEETS:
        given = stored(program, "stdin")
        yield program, given, False, stored(program, "stdout")
        yield program, given, True, REFUSED
        yield program, b"", True, REFUSED
    half = stored("listing", "stdin")[:92]
    yield "listing", half, False, b"refused p 1\n"
    yield "listing", half, True, REFUSED
    given, expected = front_of_tape()
    # with the 0 that ends the cases nothing more is read; without it a read fails, or the input breaks off
    yield "trial", given + bytes(4), True, expected
    yield "trial", given, True, expected + REFUSED
    yield "trial", given, False, expected + REFUSED


def main():
    wrong = 0
    for program, given, fails, expected in tries():
        said = printed(program, given, fails)
        if said != expected:
            wrong += 1
            after = "a read fails" if fails else "the input ends"
            print("%s: after %d bytes %s: it prints `%s`, expected `%s`" % (program, len(given), after, said[-60:].decode(), expected[-60:].decode()))
    print("failed reads: %s" % ("%d wrong" % wrong if wrong else "each is told from the end of the input"))
    return 1 if wrong else 0


if __name__ == "__main__":
    sys.exit(main())
