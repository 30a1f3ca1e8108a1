/*
 * ring.h: every call of the pairing service, for C (C99 and later) and C++.
 *
 * `tools/library DIR` writes what to link with, for x86-64 Linux: libring.a, libring.so, this header and ring.pc. docs/GUIDE.md has the lines that compile, and the
 * life of a book.
 *
 * What holds of every call
 *   - Every input is answered. Where an input breaks the rules, `number` says which rule: the first that applies, in the order given at each call.
 *     0 means that the call was served. RING_REFUSALS names the numbers; which call gives which stands at the end of this file.
 *   - Read `number` first. Where it is not 0 every other field of the answer is 0 (a book or a depot that was handed in comes back as it was), and all memory that
 *     was lent is as it was.
 *   - The same input always gives the same answer. Nothing is kept between calls, nothing is allocated, no pointer is kept after a call returns.
 *   - An array goes as a pointer and a number of elements. Where the number is 0 the pointer may be null. An array behind a pointer to const is only read.
 *
 * What the caller sees to, since no call can test it
 *   - a pointer and its number describe memory that is there, aligned for its elements, and that nobody else writes during the call;
 *   - memory that a call may write (`out` of ring_pack and of ring_forms, `slots` of ring_book_take, of ring_depot_take, of ring_leaf_run, of ring_pairs and of
 *     ring_own_pairs, `waiting` of ring_nearest and of ring_near_filter, `bits` wherever it stands) overlaps no other array of the same call;
 *   - there is room on the stack: some 120 KB for ring_leaf_run where P has over 1,024 points, some 60 KB for ring_pack of form 2, some 12 KB for a page or a
 *     filter walk, a few KB for any other call;
 *   - a bool is 0 or 1, as C's own bool always is.
 * A negative number handed in for an unsigned one arrives as a large one, and is answered as such.
 *
 * P is the pump houses, Q the chambers. A sheet is an array of 32-bit words. A position is the number of a point in its sheet, from 0, in the order of the
 * ids. Where a call takes both, q's position goes first, then p's.
 *
 * Forms of sheets
 *   form   points      nodes       coordinates
 *   1      to 1,000    to 400      -1,000,000 to 1,000,000
 *   2      to 60,000   to 24,000   -1,000,000,000 to 1,000,000,000
 * The words are the same in both. P and Q may be of different forms in every call. The street grid takes form 1 only.
 *
 * Profiles of lists: `grid`
 *   - false, the circle: a record blocks a pair when it stands in or on the smallest circle around the two; a pair's size is the squared distance of the two.
 *   - true, the street grid: distances are along the streets, |dx| + |dy|. A record x blocks a, b when the distance of 2x and a+b is at most that of a and b; a
 *     pair's size is the square of the latter, at most 16,000,000,000,000. Sheets of form 1 only: 29 else.
 *   In both a record at exactly the place of either end doesn't block. Pages, books, ring_pair_walk, ring_pairs, ring_count and those of self joins, ring_busiest,
 *   ring_busiest_pumps and ring_urgent are of either profile, every other call of the circle. Along the streets two sheets that hold assets may give no pair at all.
 *
 * Words lent for kept sets: `bits`
 *   - A call that filters, or looks for many pairs, works on 64-bit words that the caller lends: at least RING_WORDS(n), where n is P's number of points
 *     (ring_open says it), of a self join its sheet's, of ring_busiest_pumps Q's; ring_leaf_run 16 times as many. Where n is 0 none is needed.
 *   - What they hold before does not matter.
 *   - After an answer of ring_filter_walk and ring_near_filter the first RING_WORDS(n) words are the kept set; after one of any other call so many as it
 *     needs are 0. Words past these are never written.
 *   - After a refusal all words are as they were. Fewer words than needed are refused by 24.
 */
#ifndef RING_H
#define RING_H

#include <stdbool.h>
#include <stddef.h>
#include <stdint.h>

#ifdef __cplusplus
extern "C" {
#endif

/* The version of this header and of the archive. The first number goes up where a struct, a call's arguments or the lists themselves change, so that callers are
 * compiled anew; the second where something is added. docs/GUIDE.md says what each changed for a caller. */
#define RING_VERSION_MAJOR 10
#define RING_VERSION_MINOR 2
#define RING_VERSION_PATCH 0
#define RING_VERSION "10.2.0"

/* The numbers of refusal: X(number, name, reason in words). The reason says what may be wrong whichever call gave the number; the list at the end of this file
 * says it call by call. 23 and 32 to 39 are given by no call. */
#define RING_REFUSALS(X) \
    X(1, RING_FEW_WORDS, "it has fewer than 6 words, so no trailer") \
    X(2, RING_BAD_FORM, "its form number is not 1 or 2") \
    X(3, RING_BAD_COUNTS, "its number of points, of nodes or its edition is out of range, or a self join is of two editions") \
    X(4, RING_BAD_LENGTH, "its span, its root word or its length does not fit its numbers of points and nodes") \
    X(5, RING_BAD_POINT, "an id or a coordinate breaks its rule: ids ascend strictly from 1 to 2,000,000,000, coordinates are -1,000,000 to 1,000,000, " \
                         "of form 2 -1,000,000,000 to 1,000,000,000") \
    X(6, RING_BAD_ORDER, "its order and rank are not each other's inverse on 0 to n-1") \
    X(7, RING_BAD_NODE, "a node's level, first or count is wrong, or it has points and no nodes, or nodes and no points") \
    X(8, RING_BAD_BOX, "a box is not the tightest one around the points below it") \
    X(9, RING_BAD_PLACE, "a position is not below its sheet's number of points, or an id of the key is over 2,000,000,000") \
    X(10, RING_BAD_SIZE, "the size, or k, is not 1 to 16") \
    X(11, RING_BAD_HELD, "more is held than there are slots") \
    X(12, RING_BOOK_CLOSED, "the book is closed") \
    X(13, RING_OTHER_EDITION, "the page is of other editions than the book") \
    X(14, RING_OTHER_KEY, "the page's key is not the book's next key: the page was taken already, or one before it is missing") \
    X(15, RING_BAD_PART, "a number of the page or the form is out of range, or the page's pairs do not ascend after its key, or it has no pair and no end mark") \
    X(16, RING_NO_ROOM, "there are fewer slots or places than are needed") \
    X(17, RING_BAD_OUTPUT, "the words lent for the sheet are not exactly as many as it has") \
    X(18, RING_BAD_INPUT, "the point words are not three for each point, or the order is not one word for each") \
    X(19, RING_NO_LEAF, "the chambers' sheet has no such leaf") \
    X(20, RING_NO_ID, "no chamber, or no record of the sheet, has this id") \
    X(21, RING_BAD_THRESHOLD, "the threshold is over 60,000, or 0 where one is asked for, or above 0 for a self join") \
    X(22, RING_OTHER_KIND, "the page is of the other kind: of two sheets, or of a self join") \
    X(24, RING_FEW_BITS, "fewer 64-bit words are lent than the points need") \
    X(25, RING_FEW_NUMBERS, "fewer numbers are lent than P has points and nodes") \
    X(26, RING_BAD_OWNERS, "the owner bytes are not one 0 or 1 for each chamber, or there are some for an undivided list") \
    X(27, RING_BAD_CONTRACTOR, "the contractor is not 0, 1 or 2, or not 2 for a self join") \
    X(28, RING_OTHER_CONTRACTOR, "the page is of another contractor") \
    X(29, RING_WIDE_GRID, "the street grid is asked for, and a sheet is of form 2") \
    X(30, RING_OTHER_PROFILE, "the page is of the other profile: the circle, or the street grid") \
    X(31, RING_OTHER_THRESHOLD, "the page is of another threshold") \
    X(40, RING_BAD_LARGEST, "the largest size is over 8,000,000,000,000,000,000") \
    X(41, RING_BAD_P_SCORES, "the scores of P are not one of 0 to 1,000,000,000 for each of its points") \
    X(42, RING_BAD_Q_SCORES, "the scores of Q are not one of 0 to 1,000,000,000 for each of its points")

#define RING_NAMED(number, name, reason) name = number,
enum { RING_SERVED = 0, RING_REFUSALS(RING_NAMED) RING_LAST_REFUSAL = 42 };
#undef RING_NAMED

/* The reason of a number of refusal, in words; of 0 "served", of a number that no call gives "no number of refusal". */
#define RING_REASONED(number, name, reason) case number: return reason;
static inline const char *ring_reason(uint32_t number) {
    switch (number) {
    case RING_SERVED: return "served";
    RING_REFUSALS(RING_REASONED)
    default: return "no number of refusal";
    }
}
#undef RING_REASONED

/* How many 64-bit words hold a bit for each of n positions. */
#define RING_WORDS(n) (((size_t)(n) + 63) / 64)

/* A place in the list of pairs: a chamber's id, then a pump house's, each 0 to 2,000,000,000. (0, 0) is before every pair. */
typedef struct RingKey {
    uint32_t q;
    uint32_t p;
} RingKey;

/* A ring pair: a chamber's id and a pump house's, and its size, the squared distance of the two, which is the squared diameter of the circle on them: at most
 * 8,000,000,000,000,000,000. Of the street grid the squared distance along the streets: at most 16,000,000,000,000. */
typedef struct RingPair {
    uint32_t q;
    uint32_t p;
    uint64_t size;
} RingPair;

/* What is asked of a list beside its points: the threshold, the list of all pairs where it is 0, and otherwise of the pairs of the chambers that have at least
 * so many; the contractor whose chambers it is of, 0 or 1, or 2 for an undivided list; the kind: `own` is set for the self join of one sheet, whose threshold is
 * 0 and whose contractor is 2; and the profile: `grid` is set for the street grid. */
typedef struct RingTerms {
    uint32_t threshold;
    uint32_t contractor;
    bool own;
    bool grid;
} RingTerms;

/* What list a page or a book is of: the editions of both sheets, and the terms. The edition of a self join's sheet stands twice. */
typedef struct RingSource {
    uint32_t p_edition;
    uint32_t q_edition;
    RingTerms terms;
} RingSource;

/* What a page request asks for: the pairs strictly after a key, how many of them, 1 to 16, and of which list: its threshold, its contractor, or 2 for an undivided
 * list, and its profile. */
typedef struct RingRequest {
    RingKey key;
    size_t size;
    uint32_t threshold;
    uint32_t contractor;
    bool grid;
} RingRequest;

/* One page of a list. Of `pairs` the first `count` are used, the others are three zeros. `end` is set exactly when no pair follows the last one shown, or
 * follows the key if none is shown. */
typedef struct RingPage {
    RingSource source;
    RingKey key;
    size_t count;
    bool end;
    RingPair pairs[16];
} RingPage;

/* The state of an order book: how many pairs its slots hold, whether they are all, and of what list. Hand in what the last call handed back. */
typedef struct RingBook {
    size_t held;
    bool closed;
    RingSource source;
} RingBook;

/* An order form. Its key is all but the size: both editions, the kind (`own`), the contractor (0 or 1, or 2 for an undivided list), the profile (`grid`) and
 * the two ids. The threshold is no part of it: a pair of the full list and the same pair of a list with a threshold are one order. The contractor is: an
 * undivided book beside a contractor's book of the same town has two keys for one pair, and so two orders. So are the editions: see ring_depot_take. */
typedef struct RingForm {
    uint32_t p_edition;
    uint32_t q_edition;
    bool own;
    uint32_t contractor;
    bool grid;
    uint32_t q;
    uint32_t p;
    uint64_t size;
} RingForm;

/* The state of a depot: how many forms its slots hold. Hand in what the last call handed back. */
typedef struct RingDepot {
    size_t held;
} RingDepot;

/* The answer of ring_open: how many words the sheet has, its points and its nodes, its edition and its form. */
typedef struct RingHead {
    uint32_t number;
    size_t len;
    size_t n;
    size_t m;
    uint32_t edition;
    uint32_t form;
} RingHead;

/* The answer of ring_point. */
typedef struct RingPoint {
    uint32_t number;
    uint32_t id;
    int32_t x;
    int32_t y;
} RingPoint;

/* The answer of ring_position. */
typedef struct RingPlaced {
    uint32_t number;
    size_t position;
} RingPlaced;

/* The answer of ring_filter_walk and ring_near_filter, beside the kept set in the lent words, where position i of P is kept if bit i % 64, counted from the
 * lowest, of bits[i / 64] is set: `count` is how many bits are set, `opened` how many nodes were opened. */
typedef struct RingFiltered {
    uint32_t number;
    size_t count;
    uint64_t opened;
} RingFiltered;

/* What a ring walk found: `kind` of RingWalked. It means something only where `number` is 0: a refused walk has 0 here too, and is not clear. */
enum { RING_CLEAR = 0, RING_BY_POINT = 1, RING_BY_SIDE = 2 };

/* The sets: `set` of RingWalked. */
enum { RING_SET_P = 0, RING_SET_Q = 1 };

/* The sides of a box: `side` of RingWalked. It means something only where `kind` is RING_BY_SIDE, and is 0 else. */
enum { RING_LEFT = 0, RING_BOTTOM = 1, RING_RIGHT = 2, RING_TOP = 3 };

/* The answer of ring_pair_walk. RING_CLEAR: no other record blocks the pair; set, side and at are 0. RING_BY_POINT: the record at position `at` of the set
 * blocks it; side is 0. RING_BY_SIDE: `side` of the box of node `at` of the set does, the first of left, bottom, right, top both of whose corners lie strictly
 * inside: inside the circle, or of the street grid nearer to the middle than the ends are, along the streets. `opened` is how many nodes were opened, in both
 * sheets. */
typedef struct RingWalked {
    uint32_t number;
    uint32_t kind;
    uint32_t set;
    uint32_t side;
    size_t at;
    uint64_t opened;
} RingWalked;

/* The answer of ring_page: the page, and how many nodes were opened to make it. */
typedef struct RingPaged {
    uint32_t number;
    uint64_t opened;
    RingPage page;
} RingPaged;

/* The answer of ring_partners: how many ring pairs the chamber has, or t where it has more, and whether that is t. */
typedef struct RingPartners {
    uint32_t number;
    size_t count;
    bool enough;
} RingPartners;

/* The answer of ring_shortest: of `pairs` the first `count` are used, the others are three zeros. */
typedef struct RingShortlist {
    uint32_t number;
    size_t count;
    RingPair pairs[16];
} RingShortlist;

/* A pump house: its id and its squared distance to the chamber. */
typedef struct RingNear {
    uint32_t id;
    uint64_t distance;
} RingNear;

/* The answer of ring_nearest: of `points` the first `count` are used, the others are two zeros. */
typedef struct RingFound {
    uint32_t number;
    size_t count;
    RingNear points[16];
} RingFound;

/* The answer of ring_book_begin. */
typedef struct RingBegun {
    uint32_t number;
    RingBook book;
} RingBegun;

/* The answer of ring_book_next_key: the key to ask for, and the book as it was handed in, also where refused. */
typedef struct RingNext {
    uint32_t number;
    RingKey key;
    RingBook book;
} RingNext;

/* The answer of ring_book_take: the book from now on; where refused, as it was handed in. */
typedef struct RingTaken {
    uint32_t number;
    RingBook book;
} RingTaken;

/* The answer of ring_forms: how many forms were made. */
typedef struct RingMade {
    uint32_t number;
    size_t count;
} RingMade;

/* The answer of ring_depot_take: 0 with `issued` where the key is new, 0 without where the depot holds it (known); and the depot from now on, where it is
 * known or refused as it was handed in. */
typedef struct RingStored {
    uint32_t number;
    bool issued;
    RingDepot depot;
} RingStored;

/* The answer of ring_leaf_run: how many pairs it stored, and how many nodes were opened. */
typedef struct RingRun {
    uint32_t number;
    size_t count;
    uint64_t opened;
} RingRun;

/* Which list is counted: `largest` is the greatest size of its pairs, to 8,000,000,000,000,000,000, which means all; the threshold: with one above 0 it is of
 * the chambers that have at least so many pairs no larger than that; the contractor, 0 or 1, or 2 for an undivided list; the profile. */
typedef struct RingWhich {
    uint64_t largest;
    uint32_t threshold;
    uint32_t contractor;
    bool grid;
} RingWhich;

/* What is asked for of such a list: the pairs strictly after a key. The key has no part in what the threshold counts. */
typedef struct RingWanted {
    RingKey key;
    uint64_t largest;
    uint32_t threshold;
    uint32_t contractor;
    bool grid;
} RingWanted;

/* The answer of ring_count and ring_own_count: how many pairs the list has. */
typedef struct RingCounted {
    uint32_t number;
    uint64_t count;
} RingCounted;

/* The answer of ring_pairs and ring_own_pairs: how many pairs were stored, and whether more follow. */
typedef struct RingMany {
    uint32_t number;
    size_t count;
    bool more;
} RingMany;

/* What is asked of ring_busiest and ring_urgent: how many rows, 1 to 16; `largest`, the greatest size of the pairs, to 8,000,000,000,000,000,000, which means all;
 * the contractor, 0 or 1, or 2 for an undivided list; the profile. */
typedef struct RingAsked {
    size_t k;
    uint64_t largest;
    uint32_t contractor;
    bool grid;
} RingAsked;

/* A chamber or a pump house by its id, and how many pairs of the list it is in. */
typedef struct RingRank {
    uint32_t id;
    uint32_t pairs;
} RingRank;

/* The answer of ring_busiest and ring_busiest_pumps: how many rows, and the rows; the unused ones are zeros. */
typedef struct RingBusy {
    uint32_t number;
    size_t count;
    RingRank rows[16];
} RingBusy;

/* A pair of the list, and the sum of the scores of its two ends. */
typedef struct RingVisit {
    RingPair pair;
    uint64_t score;
} RingVisit;

/* The answer of ring_urgent: how many rows, and the rows; the unused ones are zeros. */
typedef struct RingUrgent {
    uint32_t number;
    size_t count;
    RingVisit rows[16];
} RingUrgent;

/* The answer of ring_marker. */
typedef struct RingMarker {
    uint32_t number;
    double x;
    double y;
} RingMarker;

/* Opens a sheet.
 * Input    len words. They are only read.
 * Answer   the sheet's length in words, which is len, its number of points and its number of nodes, its edition and its form.
 * Refused  1, 2, 3, 4, 5, 6, 7, 8, in this order: 3 and 5 by the limits of the sheet's own form. */
RingHead ring_open(const int32_t *words, size_t len);

/* How many words a packed sheet of n points has, to be lent to ring_pack: 5n + 7m + 6, where m is how many nodes of 16 it takes. 0 where n is over 60,000, which
 * no form has: no sheet has 0 words. */
size_t ring_sheet_len(size_t n);

/* Packs a sheet of n points.
 * Input    the form, 1 or 2; n; 3n words of points (id, x, y; ids ascending), the position that stands at each of n places, and an edition. points and order
 *          are only read.
 * Lent     out: exactly as many words as the sheet has, ring_sheet_len(n): 5n + 7m + 6, where m is how many nodes of 16 it takes (n = 16: 1, n = 17: 3,
 *          n = 1,000: 68, n = 60,000: 4,001).
 * Answer   0, and out is the sheet: ring_open takes it, and it has these points and this form.
 * Refused  18, 2, 3, 5, 6, 17, in this order: 3 and 5 by the limits of the form. out is as it was then. */
uint32_t ring_pack(uint32_t form, size_t n, const int32_t *points, size_t points_len, const int32_t *order, size_t order_len, uint32_t edition, int32_t *out,
                   size_t out_len);

/* Reads the point at a position of a sheet.
 * Input    a sheet's words, and a position below its number of points. The words are only read.
 * Answer   its id, x and y.
 * Refused  1 to 8 as ring_open does, then 9 where the position is not below n. */
RingPoint ring_point(const int32_t *words, size_t len, size_t position);

/* The position of the record with an id, in a sheet of pump houses or of chambers: what the point reader and both walks are asked for.
 * Input    a sheet's words, and an id. The words are only read.
 * Answer   its position.
 * Refused  1 to 8 as ring_open does, then 20 where no record of the sheet has the id. */
RingPlaced ring_position(const int32_t *words, size_t len, uint32_t id);

/* The filter walk: which points of P may be ring partners of the chamber at position j of Q. Every ring partner is among them.
 * Input    both sheets, and a position of Q. The sheets' words are only read.
 * Lent     bits: RING_WORDS(P's n) words or more. After an answer the first so many are the kept positions of P; those past them are not written.
 * Answer   how many positions are kept, and the nodes of P opened.
 * Refused  1 to 8 for P, then 1 to 8 for Q, then 9 where j is not below Q's n, then 24 where fewer words are lent; no lent word is written. */
RingFiltered ring_filter_walk(const int32_t *p, size_t p_len, const int32_t *q, size_t q_len, size_t j, uint64_t *bits, size_t bits_len);

/* The ring walk: whether the chamber at position j of Q and the pump house at position i of P are a ring pair of a profile, or what blocks them. Q is walked
 * first, then P if Q is clear.
 * Input    both sheets, a position of Q and a position of P, and the profile: `grid` is set for the street grid. The words are only read.
 * Answer   clear, or the first that blocks, and the nodes opened.
 * Refused  1 to 8 for P, then 1 to 8 for Q, then 29 where `grid` is set and a sheet is of form 2, then 9 where j is not below Q's n or i is not below P's. */
RingWalked ring_pair_walk(const int32_t *p, size_t p_len, const int32_t *q, size_t q_len, size_t j, size_t i, bool grid);

/* The first `size` ring pairs strictly after a key, of the list of the threshold: all pairs where it is 0, and otherwise those of the chambers that have at
 * least so many; of a contractor's chambers, or of all. The key need not be a listed pair.
 * Input    both sheets, the owner bytes, and a request: a key, a size 1 to 16, a threshold 0 to 60,000, the contractor, and the profile. For contractor 0 or 1
 *          there is one owner byte for each chamber, by position, 0 or 1; for 2 there is none. The sheets' words and the bytes are only read.
 * Lent     bits: RING_WORDS(P's n) words or more. After an answer the first so many are 0; those past them are not written.
 * Answer   the page: both editions, the threshold, the contractor and the profile, the key, the pairs in the list's order, their number, the end mark. With a
 *          threshold above 0 the nodes opened are those of all kept partners of each chamber reached. Of a contractor's list only its own chambers are filtered
 *          and counted, while every record still blocks; the page does not depend on the ids of the other's chambers, but the nodes opened may: hand the page on
 *          without them.
 * Cost     of the circle a filter walk for each chamber reached, and a ring walk for each partner that it keeps. Of the street grid nothing is filtered: every
 *          pump house of each chamber reached is ring-walked, and the nodes opened are those of the ring walks alone.
 * Refused  1 to 8 for P, then 1 to 8 for Q, then 27 where the contractor is over 2, then 26 where the owner bytes are not one 0 or 1 a chamber, or for 2 there is
 *          any, then 29 where `grid` is set and a sheet is of form 2, then 9 where an id of the key is over 2,000,000,000, then 10 where the size is not 1 to 16,
 *          then 21, then 24 where fewer words are lent; no lent word is written. */
RingPaged ring_page(const int32_t *p, size_t p_len, const int32_t *q, size_t q_len, const uint8_t *owners, size_t owners_len, RingRequest request, uint64_t *bits,
                    size_t bits_len);

/* The self join of one sheet: the first `size` pairs strictly after a key. Its list has two different records of the sheet exactly if no other record of it
 * blocks them, each pair once, by the lower id, then the higher: in a pair q is the lower id, p the higher.
 * Input    the sheet, a key, a size 1 to 16, and the profile: `grid` is set for the street grid. The sheet's words are only read.
 * Lent     bits: RING_WORDS(the sheet's n) words or more. After an answer the first so many are 0; those past them are not written.
 * Answer   the page: the edition twice, the threshold 0, the contractor 2, the kind, the profile, the key, the pairs in the list's order, their number, the end mark; and the
 *          nodes opened.
 * Cost     as of ring_page: along the streets every record of higher id is ring-walked for each one reached.
 * Refused  1 to 8, then 29 where `grid` is set and the sheet is of form 2, then 9 where an id of the key is over 2,000,000,000, then 10 where the size is not
 *          1 to 16, then 24 where fewer words are lent; no lent word is written. */
RingPaged ring_own_page(const int32_t *words, size_t words_len, RingKey key, size_t size, bool grid, uint64_t *bits, size_t bits_len);

/* Whether the chamber with this id has at least t ring partners.
 * Input    both sheets, the id of a chamber, and a t from 1 to 60,000. The sheets' words are only read.
 * Lent     bits: RING_WORDS(P's n) words or more. After an answer the first so many are 0; those past them are not written.
 * Answer   the smaller of t and the number of its pairs in the list, and whether that is t.
 * Refused  1 to 8 for P, then 1 to 8 for Q, then 20 where no chamber has the id, then 21, then 24 where fewer words are lent; no lent word is written. */
RingPartners ring_partners(const int32_t *p, size_t p_len, const int32_t *q, size_t q_len, uint32_t id, uint32_t t, uint64_t *bits, size_t bits_len);

/* The shortest circles first: the k ring pairs with the smallest squared diameter, in order, ties by q id and then p id.
 * Input    both sheets, and a k 1 to 16. The sheets' words are only read.
 * Lent     bits: RING_WORDS(P's n) words or more. After an answer the first so many are 0; those past them are not written.
 * Answer   the number of pairs, which is k, or that of all ring pairs where they are fewer, and the pairs.
 * Refused  1 to 8 for P, then 1 to 8 for Q, then 10 where k is not 1 to 16, then 24 where fewer words are lent; no lent word is written. */
RingShortlist ring_shortest(const int32_t *p, size_t p_len, const int32_t *q, size_t q_len, size_t k, uint64_t *bits, size_t bits_len);

/* Nearest first, for a single chamber: the pump houses by squared distance to the chamber with this id, on a tie by id.
 * Input    both sheets, the id of a chamber, and a size. The sheets' words are only read.
 * Lent     waiting: the numbers for what waits in the walk, at least as many as P has points and nodes, n + m. What they hold does not matter. After an answer
 *          the first n + m are 0; those past them are not written. No words are lent.
 * Answer   the first `size` pump houses, fewer if P has fewer.
 * Refused  1 to 8 for P, then 1 to 8 for Q, then 20 where no chamber has the id, then 10 where the size is not 1 to 16, then 25 where fewer than n + m numbers
 *          are lent; no lent number is written. */
RingFound ring_nearest(const int32_t *p, size_t p_len, const int32_t *q, size_t q_len, uint32_t id, size_t size, uint64_t *waiting, size_t waiting_len);

/* The filter walk for a single chamber that goes nearest first: the positions of P that may be ring partners of the chamber with this id. Each ring partner is
 * among them.
 * Input    both sheets, and the id of a chamber. The sheets' words are only read.
 * Lent     waiting: numbers as for ring_nearest. bits: words as for ring_filter_walk, which are the kept set after an answer.
 * Answer   as of ring_filter_walk.
 * Refused  1 to 8 for P, then 1 to 8 for Q, then 20 where no chamber has the id, then 24 where fewer words are lent, then 25 where fewer numbers are; neither a
 *          word nor a number is written. */
RingFiltered ring_near_filter(const int32_t *p, size_t p_len, const int32_t *q, size_t q_len, uint32_t id, uint64_t *waiting, size_t waiting_len,
                              uint64_t *bits, size_t bits_len);

/* Begins a book of the list of two editions, a threshold and a contractor, or of a self join, of either profile: nothing held, open.
 * Input    two editions, each 1 to 1,000,000,000, a threshold 0 to 60,000, and a contractor 0 to 2; for a self join one edition in both fields, the threshold 0
 *          and the contractor 2; the profile.
 * Answer   the book. A book begun again starts from nothing.
 * Refused  3, then 21, then 27. */
RingBegun ring_book_begin(RingSource source);

/* The key to ask for next: that of the last held pair, and (0, 0) where nothing is held.
 * Input    the book and its slots. The slots are only read.
 * Answer   the key, and the book as it was handed in.
 * Refused  11 where the book holds more than there are slots. */
RingNext ring_book_next_key(RingBook book, const RingPair *slots, size_t slots_len);

/* Takes a page into a book: appends its pairs after the held ones, and closes the book if the end mark is set. Pages may be lost, repeated, late or out of
 * order: one that is not the next is refused and changes nothing.
 * Input    the book, and a page.
 * Lent     slots: those of the book. Slots that were held before, and slots past those held after, are not written.
 * Answer   0 and the book from now on.
 * Refused  11 the book holds more than there are slots; 12 it is closed; 22 the page is of the other kind; 28 it is of another contractor; 30 it is of the
 *          other profile; 13 it is of other editions; 31 it is of another threshold; 14 its key is not the book's next key;
 *          15 it has over 16 pairs, an id outside 1 to 2,000,000,000, a size over 8,000,000,000,000,000,000, of the street grid over 16,000,000,000,000,
 *          pairs not ascending strictly after the key, or no pair and no end mark;
 *          16 it has more pairs than slots are left. In this order, and no slot is written. */
RingTaken ring_book_take(RingBook book, RingPair *slots, size_t slots_len, RingPage page);

/* Makes the order forms of a book: one for each pair that it holds, in their order, whether it is closed or still open.
 * Input    the book and its slots. The slots are only read.
 * Lent     out: room for as many forms as the book holds. They stand from the first place on; places past them are not written.
 * Answer   how many forms were made: as many as the book holds.
 * Refused  11 where the book holds more than there are slots, then 16 where there are fewer places than it holds; no place is written. */
RingMade ring_forms(RingBook book, const RingPair *slots, size_t slots_len, RingForm *out, size_t out_len);

/* Begins a depot: nothing held. */
RingDepot ring_depot_begin(void);

/* Hands a form to a depot. Forms may be lost, repeated or reordered: a form sent twice is one order. The slots hold the forms in the order in which each key was
 * first taken. A new edition has new keys, so that every visit of the town is a new order under it: close the old edition's orders first.
 * Input    the depot, and a form.
 * Lent     slots: those of the depot. A form with a new key is put behind the held ones; no other slot is written.
 * Answer   issued where the key is new, and the depot from now on; not issued where the depot holds the key: it is known, and nothing has changed.
 * Refused  11 the depot holds more than there are slots; 15 an edition outside 1 to 1,000,000,000, a contractor over 2, or an id outside 1 to 2,000,000,000;
 *          16 a new key, and no slot is left. In this order, and no slot is written. */
RingStored ring_depot_take(RingDepot depot, RingForm *slots, size_t slots_len, RingForm form);

/* The map marker of two places (ax, ay) and (bx, by): doubled, each of its numbers is exactly the sum of the two coordinates. A zero sum gives positive zero.
 * Refused  5 where a coordinate is not -1,000,000,000 to 1,000,000,000. */
RingMarker ring_marker(int32_t ax, int32_t ay, int32_t bx, int32_t by);

/* One run per leaf: the ring pairs of the chambers of a leaf of Q, by the chambers' places in Q's order, then by p id. Over all leaves they are the list, each
 * pair once.
 * Input    both sheets, and the number of a leaf of Q. The sheets' words are only read.
 * Lent     slots: room for the pairs. They stand from the first slot on; slots past them are not written.
 *          bits: 16 * RING_WORDS(P's n) words or more, however many chambers the leaf has. After an answer the first so many are 0; those past them are not
 *          written.
 * Answer   the number of pairs, and the nodes opened: by one walk of P for all chambers of the leaf, and by the ring walk of each partner that it keeps.
 * Refused  1 to 8 for P, then 1 to 8 for Q, then 19 where Q has no such node or it is no leaf, then 24 where fewer words are lent, then 16 where the pairs
 *          outnumber the slots; the slots and the words are as they were, after 16 too, which comes up only once the work on the words is done. */
RingRun ring_leaf_run(const int32_t *p, size_t p_len, const int32_t *q, size_t q_len, size_t leaf, RingPair *slots, size_t slots_len, uint64_t *bits,
                      size_t bits_len);

/* Many pairs at once: of the list of the terms, those whose size is at most `largest`, of these the first after the key. With a threshold above 0 the list is of
 * the chambers that have at least so many pairs no larger than that, whatever the key. To go on ask again with the key of the last pair stored.
 * Input    both sheets, the owner bytes as for ring_page, and what is wanted: a key, which need not be a listed pair, the largest size, a threshold 0 to 60,000,
 *          the contractor, and the profile. The sheets' words and the bytes are only read.
 * Lent     slots: any number. The pairs stand from the first slot on; slots past them are not written. ring_count says how many there are in all.
 *          bits: RING_WORDS(P's n) words or more. After an answer the first so many are 0; those past them are not written.
 * Answer   how many pairs were stored: as many as there are slots, or all that follow where they are fewer; and whether more follow the last one stored. With no
 *          slots 0, and whether any follow the key.
 * Refused  1 to 8 for P, then 1 to 8 for Q, then 27 where the contractor is over 2, then 26 where the owner bytes are not one 0 or 1 a chamber, or for 2 there is
 *          any, then 29 where `grid` is set and a sheet is of form 2, then 9 where an id of the key is over 2,000,000,000, then 21, then 40 where the largest size
 *          is over 8,000,000,000,000,000,000, then 24 where fewer words are lent; neither a slot nor a word is written. */
RingMany ring_pairs(const int32_t *p, size_t p_len, const int32_t *q, size_t q_len, const uint8_t *owners, size_t owners_len, RingWanted wanted, RingPair *slots,
                    size_t slots_len, uint64_t *bits, size_t bits_len);

/* The same of the self join of one sheet, which is undivided and has no threshold: in a pair q is the lower id, p the higher.
 * Input    the sheet, a key, the largest size, and the profile. The sheet's words are only read.
 * Lent     slots and bits as for ring_pairs, by the sheet's n.
 * Answer   as of ring_pairs.
 * Refused  1 to 8, then 29 where `grid` is set and the sheet is of form 2, then 9 where an id of the key is over 2,000,000,000, then 40, then 24; neither a slot
 *          nor a word is written. */
RingMany ring_own_pairs(const int32_t *words, size_t words_len, RingKey key, uint64_t largest, bool grid, RingPair *slots, size_t slots_len, uint64_t *bits,
                        size_t bits_len);

/* How many pairs such a list has, so that a caller can lend as many slots.
 * Input    both sheets, the owner bytes as for ring_page, and which list. The sheets' words and the bytes are only read.
 * Lent     bits: RING_WORDS(P's n) words or more. After an answer the first so many are 0; those past them are not written.
 * Answer   the number of its pairs.
 * Refused  1 to 8 for P, then 1 to 8 for Q, then 27, then 26, then 29, then 21, then 40, then 24, each as by ring_pairs; no lent word is written. */
RingCounted ring_count(const int32_t *p, size_t p_len, const int32_t *q, size_t q_len, const uint8_t *owners, size_t owners_len, RingWhich which, uint64_t *bits,
                       size_t bits_len);

/* The same of the self join of one sheet.
 * Input    the sheet, the largest size, and the profile. The sheet's words are only read.
 * Lent     bits: RING_WORDS(the sheet's n) words or more. After an answer the first so many are 0; those past them are not written.
 * Answer   the number of its pairs.
 * Refused  1 to 8, then 29, then 40, then 24, each as by ring_own_pairs; no lent word is written. */
RingCounted ring_own_count(const int32_t *words, size_t words_len, uint64_t largest, bool grid, uint64_t *bits, size_t bits_len);

/* The busiest chambers: of the contractor's chambers the k that are in the most pairs of the list to the largest size, in order, more pairs first, ties by the lower
 * id; each with its number of pairs, those with none too.
 * Input    both sheets, the owner bytes as for ring_page, and what is asked. The sheets' words and the bytes are only read.
 * Lent     bits: RING_WORDS(P's n) words or more. After an answer the first so many are 0; those past them are not written.
 * Answer   k rows, or one for each of the contractor's chambers where they are fewer.
 * Refused  1 to 8 for P, then 1 to 8 for Q, then 27, then 26, then 29, each as by ring_pairs, then 10 where k is not 1 to 16, then 40, then 24; no lent word is
 *          written. */
RingBusy ring_busiest(const int32_t *p, size_t p_len, const int32_t *q, size_t q_len, const uint8_t *owners, size_t owners_len, RingAsked asked, uint64_t *bits,
                      size_t bits_len);

/* The busiest pump houses: the same of the records of P, of the undivided list: how many chambers each is listed with.
 * Input    both sheets, k, the largest size, and the profile. The sheets' words are only read.
 * Lent     bits: RING_WORDS(Q's n) words or more, since here the kept sets are of chambers. After an answer the first so many are 0; those past them are not written.
 * Answer   k rows, or one for each point of P where they are fewer.
 * Refused  1 to 8 for P, then 1 to 8 for Q, then 29, then 10, then 40, then 24, each as by ring_busiest; no lent word is written. */
RingBusy ring_busiest_pumps(const int32_t *p, size_t p_len, const int32_t *q, size_t q_len, size_t k, uint64_t largest, bool grid, uint64_t *bits, size_t bits_len);

/* The most urgent visits: of the contractor's list to the largest size the k pairs with the highest sum of the scores of their two ends, in order, ties by q id and
 * then p id.
 * Input    both sheets, the owner bytes as for ring_page, a score of 0 to 1,000,000,000 for each record of P, by position, the same of Q, and what is asked. All is
 *          only read.
 * Lent     bits: RING_WORDS(P's n) words or more. After an answer the first so many are 0; those past them are not written.
 * Answer   k rows, or all pairs of the list where they are fewer, each with its score.
 * Refused  1 to 8 for P, then 1 to 8 for Q, then 27, then 26, then 29, then 10, then 40, each as by ring_busiest, then 41 where the scores of P are not one of 0 to
 *          1,000,000,000 for each of its points, then 42 for those of Q, then 24; no lent word is written. */
RingUrgent ring_urgent(const int32_t *p, size_t p_len, const int32_t *q, size_t q_len, const uint8_t *owners, size_t owners_len, const uint32_t *p_scores,
                       size_t p_scores_len, const uint32_t *q_scores, size_t q_scores_len, RingAsked asked, uint64_t *bits, size_t bits_len);

/*
 * The numbers of refusal, and the calls that give them; `a sheet`: every call that is given one
 *    1  under 6 words (a sheet)
 *    2  form neither 1 nor 2 (a sheet, ring_pack)
 *    3  n, m or edition out of range (a sheet, ring_pack, ring_book_begin); a self join of two editions (ring_book_begin)
 *    4  span, root word or length wrong (a sheet)
 *    5  an id or coordinate breaks its rule (a sheet, ring_pack, ring_marker)
 *    6  order (and rank) not as stated (a sheet, ring_pack)
 *    7  level, first or count wrong, or n and m disagree on zero (a sheet)
 *    8  a box is not tightest (a sheet)
 *    9  key out of range (ring_page, ring_own_page, ring_pairs, ring_own_pairs); a position not below its sheet's n (ring_point, ring_filter_walk, ring_pair_walk)
 *   10  size out of range (ring_page, ring_own_page, ring_nearest); k out of range (ring_shortest, ring_busiest, ring_busiest_pumps, ring_urgent)
 *   11  held exceeds the slots (ring_book_next_key, ring_book_take, ring_forms, ring_depot_take)
 *   12  book closed (ring_book_take)
 *   13  page of other editions (ring_book_take)
 *   14  page key is not the book's next key (ring_book_take)
 *   15  over 16 pairs; an id outside 1 to 2,000,000,000; a size over 8,000,000,000,000,000,000, of the street grid over 16,000,000,000,000; pairs not
 *       ascending strictly after the key; no pair and no end mark (ring_book_take); a part of a form's key out of range (ring_depot_take)
 *   16  more pairs than slots left (ring_book_take); more pairs than slots (ring_leaf_run); more held than places (ring_forms); a new key with no slot left
 *       (ring_depot_take)
 *   17  lent output not exactly the sheet's length (ring_pack)
 *   18  point words not 3n, or order list not n long (ring_pack)
 *   19  no such leaf (ring_leaf_run)
 *   20  unknown q id (ring_partners, ring_nearest, ring_near_filter); unknown id (ring_position)
 *   21  threshold outside 0 to 60,000 (ring_page, ring_pairs, ring_count, ring_partners, ring_book_begin), or 0 (ring_partners), or above 0 for a self join
 *       (ring_book_begin)
 *   22  page of the other kind (ring_book_take)
 *   24  fewer words lent than the points need (ring_filter_walk, ring_page, ring_own_page, ring_partners, ring_shortest, ring_near_filter, ring_pairs,
 *       ring_own_pairs, ring_count, ring_own_count, ring_busiest, ring_busiest_pumps, ring_urgent), or than 16 times so many (ring_leaf_run)
 *   25  fewer numbers lent than P has points and nodes (ring_nearest, ring_near_filter)
 *   26  owner bytes not one 0 or 1 a chamber, or any for contractor 2 (ring_page, ring_pairs, ring_count, ring_busiest, ring_urgent)
 *   27  contractor outside 0 to 2 (ring_page, ring_pairs, ring_count, ring_busiest, ring_urgent, ring_book_begin), or not 2 for a self join (ring_book_begin)
 *   28  page of another contractor (ring_book_take)
 *   29  form 2 with `grid` set (ring_pair_walk, ring_page, ring_own_page, ring_pairs, ring_own_pairs, ring_count, ring_own_count, ring_busiest, ring_busiest_pumps,
 *       ring_urgent)
 *   30  page of the other profile (ring_book_take)
 *   31  page of another threshold (ring_book_take)
 *   40  largest size over 8,000,000,000,000,000,000 (ring_pairs, ring_own_pairs, ring_count, ring_own_count, ring_busiest, ring_busiest_pumps, ring_urgent)
 *   41  scores of P not one of 0 to 1,000,000,000 for each of its points (ring_urgent)
 *   42  scores of Q not one of 0 to 1,000,000,000 for each of its points (ring_urgent)
 */

#ifdef __cplusplus
}
#endif

#endif
