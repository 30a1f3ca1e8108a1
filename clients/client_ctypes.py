"""A caller in Python by ctypes, on x86-64: packs two sheets, asks for pages until its book is closed, and prints the pairs.

    python3 client_ctypes.py DIR/libring.so
"""
import ctypes
import sys
from ctypes import Structure, c_bool, c_int32, c_size_t, c_uint32, c_uint64


class RingKey(Structure):
    _fields_ = [("q", c_uint32), ("p", c_uint32)]


class RingPair(Structure):
    _fields_ = [("q", c_uint32), ("p", c_uint32), ("size", c_uint64)]


class RingTerms(Structure):
    _fields_ = [("threshold", c_uint32), ("contractor", c_uint32), ("own", c_bool), ("grid", c_bool)]


class RingSource(Structure):
    _fields_ = [("p_edition", c_uint32), ("q_edition", c_uint32), ("terms", RingTerms)]


class RingRequest(Structure):
    _fields_ = [("key", RingKey), ("size", c_size_t), ("threshold", c_uint32), ("contractor", c_uint32), ("grid", c_bool)]


class RingPage(Structure):
    _fields_ = [("source", RingSource), ("key", RingKey), ("count", c_size_t), ("end", c_bool), ("pairs", RingPair * 16)]


class RingBook(Structure):
    _fields_ = [("held", c_size_t), ("closed", c_bool), ("source", RingSource)]


class RingPaged(Structure):
    _fields_ = [("number", c_uint32), ("opened", c_uint64), ("page", RingPage)]


class RingBegun(Structure):
    _fields_ = [("number", c_uint32), ("book", RingBook)]


class RingNext(Structure):
    _fields_ = [("number", c_uint32), ("key", RingKey), ("book", RingBook)]


class RingTaken(Structure):
    _fields_ = [("number", c_uint32), ("book", RingBook)]


# an answer is a struct by value: each call says which; a call that is not told so answers an int, which is wrong
ANSWERS = {"ring_sheet_len": c_size_t, "ring_pack": c_uint32, "ring_book_begin": RingBegun, "ring_book_next_key": RingNext, "ring_page": RingPaged, "ring_book_take": RingTaken}


def loaded(path):
    library = ctypes.CDLL(path)
    for name, answer in ANSWERS.items():
        getattr(library, name).restype = answer
    return library


def served(what, number):
    if number:
        sys.exit("%s: refused by %d" % (what, number))


def packed(library, points, edition):
    n = len(points) // 3
    words, order = (c_int32 * len(points))(*points), (c_int32 * n)(*range(n))
    sheet = (c_int32 * library.ring_sheet_len(c_size_t(n)))()
    served("pack", library.ring_pack(c_uint32(1), c_size_t(n), words, c_size_t(3 * n), order, c_size_t(n), c_uint32(edition), sheet, c_size_t(len(sheet))))
    return sheet


def main():
    library = loaded(sys.argv[1])
    p, q = packed(library, [1, 0, 0, 2, 10, 0], 7), packed(library, [5, 4, 0, 6, 16, 1], 9)
    bits, slots = (c_uint64 * 1)(), (RingPair * 8)()
    begun = library.ring_book_begin(RingSource(7, 9, RingTerms(0, 2, False, False)))
    served("begin", begun.number)
    book = begun.book
    while not book.closed:
        asked = library.ring_book_next_key(book, slots, c_size_t(8))
        served("next key", asked.number)
        request = RingRequest(asked.key, 2, 0, 2, False)
        paged = library.ring_page(p, c_size_t(len(p)), q, c_size_t(len(q)), None, c_size_t(0), request, bits, c_size_t(1))
        served("page", paged.number)
        taken = library.ring_book_take(book, slots, c_size_t(8), paged.page)
        served("take", taken.number)
        book = taken.book
    for pair in slots[:book.held]:
        print(pair.q, pair.p, pair.size)
    print("end", book.held)


if __name__ == "__main__":
    main()
