// A caller in C++: packs two sheets, asks for pages until its book is closed, and prints the pairs. docs/GUIDE.md has the line that compiles it.
#include <stdio.h>

#include "ring.h"

namespace {

bool refused(const char *what, uint32_t number) {
    if (number != RING_SERVED) printf("%s: refused by %u: %s\n", what, number, ring_reason(number));
    return number != RING_SERVED;
}

template <size_t n>
struct Sheet {
    int32_t words[64];
    const size_t len = ring_sheet_len(n);

    uint32_t pack(const int32_t (&points)[3 * n], const int32_t (&order)[n], uint32_t edition) { return ring_pack(1, n, points, 3 * n, order, n, edition, words, len); }
};

}

int main() {
    const int32_t pumps[] = {1, 0, 0, 2, 10, 0}, chambers[] = {5, 4, 0, 6, 16, 1}, order[] = {0, 1};
    Sheet<2> p, q;
    if (refused("pump houses", p.pack(pumps, order, 7)) || refused("chambers", q.pack(chambers, order, 9))) return 1;

    uint64_t bits[RING_WORDS(2)];
    RingPair slots[8];
    RingBegun begun = ring_book_begin(RingSource{7, 9, {0, 2, false, false}});
    if (refused("begin", begun.number)) return 1;
    RingBook book = begun.book;
    while (!book.closed) {
        RingNext next = ring_book_next_key(book, slots, 8);
        if (refused("next key", next.number)) return 1;
        RingPaged paged = ring_page(p.words, p.len, q.words, q.len, nullptr, 0, RingRequest{next.key, 2, 0, 2, false}, bits, RING_WORDS(2));
        if (refused("page", paged.number)) return 1;
        RingTaken taken = ring_book_take(book, slots, 8, paged.page);
        if (refused("take", taken.number)) return 1;
        book = taken.book;
    }
    for (size_t k = 0; k < book.held; k++) printf("%u %u %llu\n", slots[k].q, slots[k].p, static_cast<unsigned long long>(slots[k].size));
    printf("end %zu\n", book.held);
    return 0;
}
