/*
 * A caller in C: packs two sheets, asks for pages until its book is closed, and prints the pairs. docs/GUIDE.md has the line that compiles it.
 */
#include <stdio.h>

#include "ring.h"

static int refused(const char *what, uint32_t number) {
    if (number != RING_SERVED) printf("%s: refused by %u: %s\n", what, number, ring_reason(number));
    return number != RING_SERVED;
}

int main(void) {
    const int32_t pumps[] = {1, 0, 0, 2, 10, 0}, chambers[] = {5, 4, 0, 6, 16, 1}, order[] = {0, 1};
    int32_t p[64], q[64];
    const size_t p_len = ring_sheet_len(2), q_len = ring_sheet_len(2);
    if (refused("pump houses", ring_pack(1, 2, pumps, 6, order, 2, 7, p, p_len))) return 1;
    if (refused("chambers", ring_pack(1, 2, chambers, 6, order, 2, 9, q, q_len))) return 1;

    RingHead head = ring_open(p, p_len);
    if (refused("open", head.number)) return 1;
    uint64_t bits[RING_WORDS(1000)];

    RingSource source = {7, 9, {0, 2, false, false}};
    RingBegun begun = ring_book_begin(source);
    if (refused("begin", begun.number)) return 1;
    RingBook book = begun.book;
    RingPair slots[8];
    while (!book.closed) {
        RingNext next = ring_book_next_key(book, slots, 8);
        if (refused("next key", next.number)) return 1;
        RingRequest request = {next.key, 2, 0, 2, false};
        RingPaged paged = ring_page(p, p_len, q, q_len, NULL, 0, request, bits, RING_WORDS(head.n));
        if (refused("page", paged.number)) return 1;
        RingTaken taken = ring_book_take(book, slots, 8, paged.page);
        if (refused("take", taken.number)) return 1;
        book = taken.book;
    }
    for (size_t k = 0; k < book.held; k++) printf("%u %u %llu\n", slots[k].q, slots[k].p, (unsigned long long)slots[k].size);
    printf("end %zu\n", book.held);
    return 0;
}
