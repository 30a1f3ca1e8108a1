"""Lists the ring pairs of two sheets.

    ./list P.sheet Q.sheet      pump houses, then chambers; as in ./list examples/p.sheet examples/q.sheet
    ./list < BYTES              the bytes of both, P's and then Q's, on standard input

Prints a line for each pair: q id, p id, twice the centre's x, twice its y, squared diameter; then `end` and their number. Where an input is refused it prints
`refused q N`, `refused p N` or `refused input` alone, and says the reason in words on standard error. Sheets of form 1; for form 2 use ./ring list.

The listing program is proved and built first, where that is not done yet: what goes on meanwhile is said on standard error.

Exit status: 0 for a listing, 1 for a refusal, 2 for wrong use, 3 where input or output fails or the program cannot be built, 130 for an interrupt.
"""
import os
import subprocess
import sys

TOP = os.path.dirname(os.path.dirname(os.path.realpath(__file__)))
sys.dont_write_bytecode = True
sys.path[:0] = [os.path.join(TOP, "tools"), os.path.join(TOP, "python")]
import kit
from ring import refusals
from ring.door import REFUSED, SERVED, Failed, Wrong, ended, whole

# more bytes than this are no two sheets of form 1
MOST = 62_448


def given(files):
    """The bytes of both sheets; one more than there may be is enough to see that they are too many."""
    if not files:
        if sys.stdin is None or sys.stdin.isatty():
            raise Wrong("two sheets, or their bytes on standard input: ./list P.sheet Q.sheet, or ./list --help")
        return whole("standard input", sys.stdin.buffer, MOST + 1)
    if len(files) != 2:
        raise Wrong("%d file%s where P's and Q's are two: ./list P.sheet Q.sheet, or ./list --help" % (len(files), "" if len(files) == 1 else "s"))
    return b"".join(whole(name, None, MOST + 1) for name in files)


def form(set_, data):
    """The form number of a sheet: the last word of Q's is the last of all; that of P's stands before Q, whose span says where it begins."""
    end = len(data) if set_ == "q" else len(data) - 4 * (int.from_bytes(data[-24:-20], "little", signed=True) + 6)
    return int.from_bytes(data[end - 4:end], "little", signed=True)


def reason(line, files, data):
    """The reason of a refusal, in words."""
    fields = line.split()
    if fields[1] == "input":
        if len(data) > MOST:
            return "the input is refused: over %s bytes, the most that two sheets of form 1 have; for form 2 use ./ring list" % format(MOST, ",")
        return "the input is refused: %d bytes, %s" % (len(data), "not a number of 4-byte words" if len(data) % 4 else "under 24")
    set_, number = fields[1], int(fields[2])
    which = "the pump houses (P%s)" if set_ == "p" else "the chambers (Q%s)"
    name = which % (", " + files[set_ == "q"] if files else "")
    if number == 2 and form(set_, data) == 2:
        return "%s are refused by 2: the sheet is of form 2, and ./list takes form 1 only: use ./ring list" % name
    return "%s are refused by %d: %s" % (name, number, refusals.reason(number))


def main(words):
    if words in (["--help"], ["-h"]):
        sys.stdout.write(__doc__)
        return SERVED
    files = words[1:] if words[:1] == ["--"] else words
    if files is words and any(word.startswith("-") and word != "-" for word in words):
        raise Wrong("no option but --help: ./list P.sheet Q.sheet")
    data = given(files)
    done = subprocess.run(kit.command(kit.built("listing")), input=data, stdout=subprocess.PIPE)
    lines = done.stdout.decode("ascii", "replace").split("\n")
    if done.returncode or lines[-1] or not lines[-2:-1] or not lines[-2].startswith(("end ", "refused ")):
        raise Failed("the listing program ended with status %d and without its last line" % done.returncode)
    sys.stdout.buffer.write(done.stdout)
    if lines[0].startswith("refused "):
        sys.stdout.buffer.flush()
        print("list: %s" % reason(lines[0], files, data), file=sys.stderr)
        return REFUSED
    return SERVED


if __name__ == "__main__":
    ended("list", main)
