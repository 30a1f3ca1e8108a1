/*
 * Every call of ring.h with random and damaged inputs: null with length 0, wrong lengths, extreme numbers, words changed at random, sheets of both forms.
 * Answers are held to a plain second reading of the rules: the numbers of open, pack, next key and take; the list, by trying every pair against every
 * record; the shortest pairs, the nearest pump houses, a leaf's run, many pairs at once and their number, the busiest and the most urgent likewise; what walks keep,
 * what stops them, and the nodes opened, of pages and runs too, by plain walks; the marker, doubled. Pages, books and ring walks of the street grid are held to it by turned coordinates.
 * A contractor's pages, books and forms are held to the same reading, and the blind test is made of pages, of many pairs and of their number, of the busiest and of the most
 * urgent: two runs that differ in the ids of the other's chambers alone. Many pairs at once, followed by the last one's key, are those of the pages.
 * Lent memory is held to a copy made before the call, with marks on both sides: what an answer is to leave there is put into the copy, and nothing for a refusal.
 * Last two sheets of 60,000 points, held to the same reading.
 * Prints one line, and ends with 1 where an answer differs or a number of refusal never came up.
 */
#include <stdio.h>
#include <string.h>

#include "province.h"
#include "ring.h"

#define TIMES 10000
/* the points and the words of a random sheet, at most */
#define MANY 1300
#define MOST 8192
/* the points and the nodes of any sheet that is packed here */
#define LARGEST PROVINCE_POINTS
#define NODES 4001
/* how much is watched on both sides of what is lent */
#define PAST 64

/* the numbers of refusal: 0 to 22, 24 to 31, and 40 to 42 */
#define LAST 42
#define A_NUMBER(k) ((k) <= 22 || ((k) >= 24 && (k) <= 31) || ((k) >= 40 && (k) <= 42))

/* counts have 64 bits: a field, or a whole struct, has so many bytes */
#define FIELD(type, field, bytes) typedef char type##_##field[sizeof ((type *)0)->field == (bytes) ? 1 : -1]
#define STRUCT(type, bytes) typedef char type##_bytes[sizeof(type) == (bytes) ? 1 : -1]
FIELD(RingPair, size, 8);
FIELD(RingRequest, size, 8);
FIELD(RingPage, count, 8);
FIELD(RingBook, held, 8);
FIELD(RingHead, len, 8);
FIELD(RingHead, n, 8);
FIELD(RingHead, m, 8);
FIELD(RingFiltered, count, 8);
FIELD(RingFiltered, opened, 8);
FIELD(RingWalked, at, 8);
FIELD(RingWalked, opened, 8);
FIELD(RingPaged, opened, 8);
FIELD(RingPartners, count, 8);
FIELD(RingShortlist, count, 8);
FIELD(RingNear, distance, 8);
FIELD(RingFound, count, 8);
FIELD(RingRun, count, 8);
FIELD(RingForm, size, 8);
FIELD(RingForm, contractor, 4);
FIELD(RingDepot, held, 8);
FIELD(RingMade, count, 8);
FIELD(RingRun, opened, 8);
FIELD(RingPlaced, position, 8);
FIELD(RingPoint, x, 4);
FIELD(RingPoint, y, 4);
FIELD(RingTerms, threshold, 4);
FIELD(RingTerms, contractor, 4);
FIELD(RingTerms, own, 1);
FIELD(RingTerms, grid, 1);
FIELD(RingRequest, contractor, 4);
FIELD(RingRequest, grid, 1);
FIELD(RingWhich, largest, 8);
FIELD(RingWhich, threshold, 4);
FIELD(RingWhich, contractor, 4);
FIELD(RingWhich, grid, 1);
FIELD(RingWanted, largest, 8);
FIELD(RingWanted, threshold, 4);
FIELD(RingWanted, contractor, 4);
FIELD(RingWanted, grid, 1);
FIELD(RingCounted, count, 8);
FIELD(RingMany, count, 8);
FIELD(RingMany, more, 1);
FIELD(RingAsked, k, 8);
FIELD(RingAsked, largest, 8);
FIELD(RingAsked, contractor, 4);
FIELD(RingAsked, grid, 1);
FIELD(RingRank, id, 4);
FIELD(RingRank, pairs, 4);
FIELD(RingBusy, count, 8);
FIELD(RingVisit, score, 8);
FIELD(RingUrgent, count, 8);
STRUCT(RingTerms, 12);
STRUCT(RingSource, 20);
STRUCT(RingRequest, 32);
STRUCT(RingPage, 304);
STRUCT(RingBook, 32);
STRUCT(RingPair, 16);
STRUCT(RingForm, 40);
STRUCT(RingStored, 16);
STRUCT(RingHead, 40);
STRUCT(RingFiltered, 24);
STRUCT(RingWalked, 32);
STRUCT(RingPaged, 320);
STRUCT(RingRun, 24);
STRUCT(RingWhich, 24);
STRUCT(RingWanted, 32);
STRUCT(RingCounted, 16);
STRUCT(RingMany, 24);
STRUCT(RingAsked, 24);
STRUCT(RingRank, 8);
STRUCT(RingBusy, 144);
STRUCT(RingVisit, 24);
STRUCT(RingUrgent, 400);

static uint64_t seed = 88172645463325252ull;
static unsigned long calls, wrong, first_wrong, seen[LAST + 1], named[2][4];

#define HOLD(test) ((test) ? (void)0 : (void)(wrong++ ? 0 : (first_wrong = __LINE__)))

static uint64_t chance(void) {
    seed ^= seed << 13;
    seed ^= seed >> 7;
    seed ^= seed << 17;
    return seed;
}

static size_t below(size_t n) { return (size_t)((chance() >> 11) % n); }

static int32_t between(int32_t low, int32_t high) { return (int32_t)(low + (int64_t)below((size_t)((int64_t)high - low + 1))); }

/* a number that some rule may stumble on */
static uint32_t wild(void) {
    static const uint32_t edges[] = {
        0, 1, 2, 3, 7, 15, 16, 17, 400, 401, 1000, 1001, 24000, 24001, 60000, 60001, 1000000, 1000001, 1000000000, 1000000001, 2000000000, 2000000001,
        0xfff0bdc0, 0xfff0bdbf, 0xc4653600, 0xc46535ff, 0x7fffffff, 0x80000000, 0xffffffff};
    return below(3) ? edges[below(sizeof edges / sizeof edges[0])] : (uint32_t)chance();
}

static size_t wild_size(void) { return below(4) ? wild() : below(2) ? (size_t)chance() : SIZE_MAX / 3 + below(3); }

static void saw(uint32_t number) {
    calls++;
    HOLD(A_NUMBER(number));
    if (number <= LAST) seen[number]++;
}

/* ---- sheets: words with others on both sides, and a copy of all */

typedef struct {
    int32_t *words, *was;
    size_t len;
} Sheet;

static int32_t rooms[4][MOST + 2 * PAST];
static Sheet P = {rooms[0] + PAST, rooms[1] + PAST, 0}, Q = {rooms[2] + PAST, rooms[3] + PAST, 0};

static const int32_t *at(const Sheet *s) { return s->len ? s->words : NULL; }

static size_t watched(const Sheet *s) { return (s->len + 2 * PAST) * sizeof s->words[0]; }

static void save(void) {
    memcpy(P.was - PAST, P.words - PAST, watched(&P));
    memcpy(Q.was - PAST, Q.words - PAST, watched(&Q));
}

static void hold_saved(void) {
    HOLD(memcmp(P.words - PAST, P.was - PAST, watched(&P)) == 0);
    HOLD(memcmp(Q.words - PAST, Q.was - PAST, watched(&Q)) == 0);
}

static size_t nodes_for(size_t n) {
    size_t m = 0, level = n;
    while (level > 1 || (m == 0 && level == 1)) m += level = (level + 15) / 16;
    return m;
}

static size_t length_for(size_t n) { return 5 * n + 7 * nodes_for(n) + 6; }

/* points for a sheet of a form: close together, all over its map, or at few coordinates, the edges of the map among them */
static void make_points(int32_t *w, size_t n, uint32_t form) {
    int32_t id = (int32_t)below(9), reach = form == 2 && below(2) ? 1000000000 : 1000000, span = below(2) ? 6 : reach;
    int32_t steps = below(4) ? 0 : 1 + (int32_t)below(4);
    for (size_t i = 0; i < n; i++) {
        id += 1 + (int32_t)below(below(2) ? 3 : 1000000);
        w[3 * i] = id;
        for (size_t k = 1; k < 3; k++) w[3 * i + k] = steps ? (int32_t)((int64_t)reach * between(-steps, steps) / steps) : between(-span, span);
    }
}

/* any order, or one that gives small boxes */
static void make_order(const int32_t *points, int32_t *o, size_t n) {
    if (below(6) == 0) {
        province_tile(points, o, n);
        return;
    }
    for (size_t i = 0; i < n; i++) {
        size_t k = below(i + 1);
        o[i] = o[k], o[k] = (int32_t)i;
    }
}

static int32_t some_points[3 * MANY], some_order[MANY];

static void pack_some(Sheet *s, size_t n, uint32_t form) {
    s->len = length_for(n);
    HOLD(ring_pack(form, n, some_points, 3 * n, some_order, n, 1 + (uint32_t)below(1000000000), s->words, s->len) == 0);
}

/* a sheet of a form that opens */
static void make_form(Sheet *s, size_t n, uint32_t form) {
    make_points(some_points, n, form), make_order(some_points, some_order, n);
    pack_some(s, n, form);
}

/* one with a leaf in a corner of the map, and all others at the edge opposite: there the squared distance of doubled coordinates may be over 2^64 */
static void make_far(Sheet *s) {
    size_t n = 48 + below(16);
    for (size_t i = 0; i < n; i++) {
        int32_t *a = some_points + 3 * i;
        a[0] = 1 + (int32_t)i, a[1] = i % 2 ? 1000000000 : -1000000000, a[2] = i % 2 ? 250000000 * between(-4, 4) : -1000000000;
    }
    province_tile(some_points, some_order, n);
    pack_some(s, n, 2);
}

/* of either form */
static void make_sheet(Sheet *s, size_t n) { make_form(s, n, n > 1000 || below(2) ? 2 : 1); }

/* a word, the length or all is changed, or nothing */
static void damage(Sheet *s) {
    size_t way = below(18);
    if (s->len < 6) return;
    if (way == 0) s->len = 0;
    if (way == 1) s->len = below(7);
    if (way == 2) s->len = s->len + below(20) - (s->len > 9 ? 9 : 0);
    if (way == 3 || way == 4) s->words[s->len - 1 - below(6)] = (int32_t)wild();
    if (way >= 5 && way < 9) s->words[below(s->len)] = (int32_t)wild();
    if (way >= 9 && way < 12) {
        int32_t *word = s->words + below(s->len);
        *word = (int32_t)((uint32_t)*word + (uint32_t)between(-1, 1));
    }
    if (way == 12)
        for (size_t i = 0; i < s->len; i++) s->words[i] = (int32_t)wild();
}

static size_t some_n(size_t most) { return below(40) ? below(most) : below(8) ? below(200) : below(2) ? 999 + below(3) : MANY - below(2); }

/* ---- the rules, read again */

static bool in(int64_t low, int64_t x, int64_t high) { return low <= x && x <= high; }

/* the most points and nodes, and the farthest coordinate, of form 1 and of form 2 */
typedef struct {
    int64_t points, nodes, reach;
} Limits;

static Limits limits_of(int64_t form) { return form == 2 ? (Limits){60000, 24000, 1000000000} : (Limits){1000, 400, 1000000}; }

static bool points_ok(const int32_t *w, size_t n, int64_t reach) {
    for (size_t i = 0; i < n; i++) {
        if (!in(i ? (int64_t)w[3 * i - 3] + 1 : 1, w[3 * i], 2000000000)) return false;
        if (!in(-reach, w[3 * i + 1], reach) || !in(-reach, w[3 * i + 2], reach)) return false;
    }
    return true;
}

static bool ranks_ok(const int32_t *o, const int32_t *r, size_t n) {
    for (size_t i = 0; i < n; i++)
        if (!in(0, o[i], (int64_t)n - 1) || !in(0, r[i], (int64_t)n - 1) || o[r[i]] != (int32_t)i) return false;
    return true;
}

static bool order_ok(const int32_t *o, size_t n) {
    static bool there[LARGEST];
    memset(there, 0, n);
    for (size_t i = 0; i < n; i++) {
        if (!in(0, o[i], (int64_t)n - 1) || there[o[i]]) return false;
        there[o[i]] = true;
    }
    return true;
}

/* level after level from 0, none above 7: each covers all of the one below with no gap, by runs of 1 to 16, until one has a single node, which is the last */
static bool nodes_ok(const int32_t *nodes, size_t n, size_t m) {
    size_t v = 0, first = 0, last = n;
    for (int32_t level = 0; n && level <= 7; level++) {
        size_t head = v, next = first;
        for (; v < m && nodes[7 * v] == level; v++) {
            if (nodes[7 * v + 1] != (int32_t)next || !in(1, nodes[7 * v + 2], 16)) return false;
            next += (size_t)nodes[7 * v + 2];
        }
        if (next != last) return false;
        if (v - head == 1) return v == m;
        first = head, last = v;
    }
    return n == 0 && m == 0;
}

/* each box is the tightest around what its node covers */
static bool boxes_ok(const int32_t *w, size_t n, size_t m) {
    const int32_t *order = w + 3 * n, *nodes = w + 5 * n;
    for (size_t v = 0; v < m; v++) {
        const int32_t *node = nodes + 7 * v;
        int32_t box[4] = {INT32_MAX, INT32_MAX, INT32_MIN, INT32_MIN};
        for (int32_t c = node[1]; c < node[1] + node[2]; c++) {
            const int32_t *low = node[0] ? nodes + 7 * c + 3 : w + 3 * order[c] + 1, *high = node[0] ? low + 2 : low;
            for (size_t k = 0; k < 2; k++) {
                if (low[k] < box[k]) box[k] = low[k];
                if (high[k] > box[2 + k]) box[2 + k] = high[k];
            }
        }
        if (memcmp(box, node + 3, sizeof box) != 0) return false;
    }
    return true;
}

static uint32_t open_no(const int32_t *w, size_t len) {
    if (len < 6) return 1;
    const int32_t *t = w + len - 6;
    int64_t n = t[2], m = t[3];
    Limits most = limits_of(t[5]);
    if (!in(1, t[5], 2)) return 2;
    if (!in(0, n, most.points) || !in(0, m, most.nodes) || !in(1, t[4], 1000000000)) return 3;
    if (t[0] != 5 * n + 7 * m || t[1] != (m ? 7 : 0) || (int64_t)len != 5 * n + 7 * m + 6) return 4;
    if (!points_ok(w, (size_t)n, most.reach)) return 5;
    if (!ranks_ok(w + 3 * n, w + 4 * n, (size_t)n)) return 6;
    if (!nodes_ok(w + 5 * n, (size_t)n, (size_t)m)) return 7;
    return boxes_ok(w, (size_t)n, (size_t)m) ? 0 : 8;
}

static uint32_t pack_no(uint32_t form, size_t n, const int32_t *points, size_t points_len, const int32_t *order, size_t order_len, uint32_t edition, size_t out_len) {
    Limits most = limits_of(form);
    if (n > SIZE_MAX / 3 || points_len != 3 * n || order_len != n) return 18;
    if (!in(1, form, 2)) return 2;
    if (n > (size_t)most.points || !in(1, edition, 1000000000)) return 3;
    if (!points_ok(points, n, most.reach)) return 5;
    if (!order_ok(order, n)) return 6;
    return out_len == length_for(n) ? 0 : 17;
}

static int64_t product(const int32_t *a, const int32_t *b, const int32_t *x) {
    return ((int64_t)a[1] - x[1]) * ((int64_t)b[1] - x[1]) + ((int64_t)a[2] - x[2]) * ((int64_t)b[2] - x[2]);
}

static bool behind(const int32_t *a, const int32_t *b, const int32_t *x) { return product(a, b, x) <= 0; }

/* along the streets, |x| + |y| is the greater of |x + y| and |x - y| */
static int64_t turned(int64_t x, int64_t y) {
    int64_t sum = x + y < 0 ? -(x + y) : x + y, difference = x < y ? y - x : x - y;
    return sum < difference ? difference : sum;
}

/* along the streets: how far a is from b, and how much farther twice x is from a + b */
static int64_t apart(const int32_t *a, const int32_t *b) { return turned((int64_t)a[1] - b[1], (int64_t)a[2] - b[2]); }

static int64_t outside(const int32_t *a, const int32_t *b, const int32_t *x) {
    return turned(2 * (int64_t)x[1] - a[1] - b[1], 2 * (int64_t)x[2] - a[2] - b[2]) - apart(a, b);
}

/* whether both corners of a side of the box (xmin, ymin, xmax, ymax) lie strictly inside, of either profile */
static bool side_in(bool grid, const int32_t *a, const int32_t *b, const int32_t *box, uint32_t side) {
    int32_t lower[3] = {0, box[side == RING_RIGHT ? 2 : 0], box[side == RING_TOP ? 3 : 1]};
    int32_t upper[3] = {0, box[side == RING_LEFT ? 0 : 2], box[side == RING_BOTTOM ? 1 : 3]};
    if (grid) return outside(a, b, lower) < 0 && outside(a, b, upper) < 0;
    return product(a, b, lower) < 0 && product(a, b, upper) < 0;
}

static bool one_spot(const int32_t *a, const int32_t *b) { return a[1] == b[1] && a[2] == b[2]; }

static bool blocks(const int32_t *a, const int32_t *b, const int32_t *x) { return behind(a, b, x) && !one_spot(x, a) && !one_spot(x, b); }

static bool blocks_by(bool grid, const int32_t *a, const int32_t *b, const int32_t *x) {
    return grid ? outside(a, b, x) <= 0 && !one_spot(x, a) && !one_spot(x, b) : blocks(a, b, x);
}

static size_t count_of(const Sheet *s) { return (size_t)s->words[s->len - 4]; }

static size_t nodes_of(const Sheet *s) { return (size_t)s->words[s->len - 3]; }

/* the street grid takes sheets of form 1 alone */
static bool too_wide(const Sheet *s) { return s->words[s->len - 1] == 2; }

static bool is_pair_by(bool grid, size_t j, size_t i) {
    const int32_t *q = Q.words + 3 * j, *p = P.words + 3 * i;
    for (size_t k = 0; k < count_of(&Q); k++)
        if (k != j && blocks_by(grid, q, p, Q.words + 3 * k)) return false;
    for (size_t k = 0; k < count_of(&P); k++)
        if (k != i && blocks_by(grid, q, p, P.words + 3 * k)) return false;
    return true;
}

static bool is_pair(size_t j, size_t i) { return is_pair_by(false, j, i); }

/* the pair of two records, with the squared distance of the two, or with that along the streets */
static RingPair size_by(bool grid, const int32_t *q, const int32_t *p) {
    int64_t x = (int64_t)q[1] - p[1], y = (int64_t)q[2] - p[2];
    RingPair v = {(uint32_t)q[0], (uint32_t)p[0], (uint64_t)(grid ? apart(q, p) * apart(q, p) : x * x + y * y)};
    return v;
}

static RingPair size_of(const int32_t *q, const int32_t *p) { return size_by(false, q, p); }

/* that of two positions */
static RingPair pair_of(size_t j, size_t i) { return size_of(Q.words + 3 * j, P.words + 3 * i); }

static uint64_t most_size(bool grid) { return grid ? 16000000000000 : 8000000000000000000; }

static bool after(RingKey k, RingPair v) { return k.q < v.q || (k.q == v.q && k.p < v.p); }

static bool id_ok(uint32_t id) { return in(1, id, 2000000000); }

static RingKey key_of(const RingPair *slots, size_t held) {
    RingKey key = {held ? slots[held - 1].q : 0, held ? slots[held - 1].p : 0};
    return key;
}

static bool page_bad(const RingPage *g) {
    if (g->count > 16) return true;
    RingKey last = g->key;
    for (size_t k = 0; k < g->count; k++) {
        RingPair v = g->pairs[k];
        if (!id_ok(v.q) || !id_ok(v.p) || v.size > most_size(g->source.terms.grid) || !after(last, v)) return true;
        last.q = v.q, last.p = v.p;
    }
    return g->count == 0 && !g->end;
}

static uint32_t take_no(const RingBook *b, const RingPair *slots, size_t len, const RingPage *g) {
    if (b->held > len) return 11;
    if (b->closed) return 12;
    if (g->source.terms.own != b->source.terms.own) return 22;
    if (g->source.terms.contractor != b->source.terms.contractor) return 28;
    if (g->source.terms.grid != b->source.terms.grid) return 30;
    if (g->source.p_edition != b->source.p_edition || g->source.q_edition != b->source.q_edition) return 13;
    if (g->source.terms.threshold != b->source.terms.threshold) return 31;
    RingKey next = key_of(slots, b->held);
    if (g->key.q != next.q || g->key.p != next.p) return 14;
    if (page_bad(g)) return 15;
    return g->count > len - b->held ? 16 : 0;
}

static bool same_book(RingBook a, RingBook b) {
    return a.held == b.held && a.closed == b.closed && a.source.p_edition == b.source.p_edition && a.source.q_edition == b.source.q_edition
        && a.source.terms.threshold == b.source.terms.threshold && a.source.terms.contractor == b.source.terms.contractor
        && a.source.terms.own == b.source.terms.own && a.source.terms.grid == b.source.terms.grid;
}

/* ---- the walks, read again */

static const int32_t *node_of(const Sheet *s, size_t v) { return s->words + 5 * count_of(s) + 7 * v; }

static size_t stands(const Sheet *s, int32_t place) { return (size_t)s->words[3 * count_of(s) + (size_t)place]; }

/* x skips the box for q: all corners lie behind the line, and x stands neither at the place of q nor in the box */
static bool skips(const int32_t *q, const int32_t *box, const int32_t *x) {
    const int32_t corners[12] = {0, box[0], box[1], 0, box[0], box[3], 0, box[2], box[1], 0, box[2], box[3]};
    for (size_t c = 0; c < 4; c++)
        if (!behind(q, corners + 3 * c, x)) return false;
    return !one_spot(q, x) && !(in(box[0], x[1], box[2]) && in(box[1], x[2], box[3]));
}

/* of a difference of doubled coordinates: 16 * 10^18 at most, which is too much for a signed number */
static uint64_t square(int64_t x) {
    uint64_t u = (uint64_t)(x < 0 ? -x : x);
    return u * u;
}

/* how far x is outside of low to high */
static int64_t beside(int64_t low, int64_t x, int64_t high) { return x < low ? low - x : x > high ? x - high : 0; }

/* a kept set of P: its positions in the order in which they came, and whether each position is one; and the one that skipped last, which is tried first */
typedef struct {
    size_t count, last;
    uint32_t at[LARGEST];
    bool is[LARGEST];
} Kept;

static void keep_none(Kept *kept) {
    kept->count = kept->last = 0;
    memset(kept->is, 0, count_of(&P));
}

static void keep(Kept *kept, size_t i) { kept->at[kept->count++] = (uint32_t)i, kept->is[i] = true; }

/* for q, a kept one skips the box, or where there is none, the spot */
static bool skipped(Kept *kept, const int32_t *q, const int32_t *box, const int32_t *spot) {
    for (size_t k = 0; k <= kept->count && kept->count; k++) {
        size_t c = k ? kept->count - k : kept->last;
        const int32_t *p = P.words + 3 * (size_t)kept->at[c];
        if (box ? skips(q, box, p) : blocks(q, spot, p)) {
            kept->last = c;
            return true;
        }
    }
    return false;
}

/* the filter walk for q over P from node v on, which passes over one position, or none; the nodes opened */
static uint64_t filter_from(const int32_t *q, size_t over, size_t v, Kept *kept) {
    const int32_t *node = node_of(&P, v);
    uint64_t opened = 1;
    if (skipped(kept, q, node + 3, NULL)) return 0;
    for (int32_t c = node[1]; c < node[1] + node[2]; c++)
        if (node[0]) opened += filter_from(q, over, (size_t)c, kept);
        else {
            size_t x = stands(&P, c);
            if (x != over && !skipped(kept, q, NULL, P.words + 3 * x)) keep(kept, x);
        }
    return opened;
}

static uint64_t filtered(const int32_t *q, size_t over, Kept *kept) {
    keep_none(kept);
    return nodes_of(&P) ? filter_from(q, over, nodes_of(&P) - 1, kept) : 0;
}

/* twice the centre is farther from the doubled box than the ends are from each other: of the circle each axis by itself, as the sum of the squares may be over
   2^64 */
static bool far_off(bool grid, const int32_t *a, const int32_t *b, const int32_t *box) {
    int64_t x = beside(2 * (int64_t)box[0], (int64_t)a[1] + b[1], 2 * (int64_t)box[2]);
    int64_t y = beside(2 * (int64_t)box[1], (int64_t)a[2] + b[2], 2 * (int64_t)box[3]);
    uint64_t size = size_of(a, b).size;
    if (grid) return turned(x, y) > apart(a, b);
    return square(x) > size || square(y) > size - square(x);
}

/* the ring walk for a, b from node v of a sheet on, of which one position is an end: whether it is stopped, and in w by what, and the nodes opened */
static bool stopped(bool grid, const Sheet *s, const int32_t *a, const int32_t *b, size_t end, size_t v, RingWalked *w) {
    const int32_t *node = node_of(s, v);
    if (far_off(grid, a, b, node + 3)) return false;
    w->at = v, w->kind = RING_BY_SIDE;
    for (w->side = RING_LEFT; w->side <= RING_TOP; w->side++)
        if (side_in(grid, a, b, node + 3, w->side)) return true;
    w->opened++, w->side = 0, w->kind = RING_CLEAR;
    for (int32_t c = node[1]; c < node[1] + node[2]; c++)
        if (node[0]) {
            if (stopped(grid, s, a, b, end, (size_t)c, w)) return true;
        } else if (w->at = stands(s, c), w->at != end && blocks_by(grid, a, b, s->words + 3 * w->at)) {
            w->kind = RING_BY_POINT;
            return true;
        }
    w->at = 0;
    return false;
}

/* the ring walks of q, at position j, and p, at position i of P: over Q, but not where P is joined with itself, then over P */
static RingWalked walked(bool grid, const int32_t *q, const int32_t *p, size_t j, size_t i, bool own) {
    RingWalked w;
    memset(&w, 0, sizeof w);
    w.set = 1;
    if (!own && stopped(grid, &Q, q, p, j, nodes_of(&Q) - 1, &w)) return w;
    w.set = 0;
    stopped(grid, &P, q, p, i, nodes_of(&P) - 1, &w);
    return w;
}

/* the owner bytes, one a chamber, and the contractor of a page: its chambers are those whose byte says so, for 2 all */
static uint8_t owners[LARGEST + 1];
static size_t owners_len;
static uint32_t contractor = 2;

static bool is_mine(size_t j) { return contractor == 2 || owners[j] == contractor; }

/* the nodes opened for a page: of each q from the key's on the filter's, and those of its kept partners after the key, up to the first pair beyond the size; of the
   list of a t, those of all its kept partners. Of the street grid nobody is filtered, and all of P is kept */
static uint64_t page_opened(bool grid, RingKey key, size_t size, uint32_t t, bool own) {
    static Kept kept;
    const Sheet *s = own ? &P : &Q;
    uint64_t opened = 0;
    size_t found = 0;
    for (size_t j = 0; j < count_of(s) && found <= size; j++) {
        const int32_t *q = s->words + 3 * j;
        size_t many = 0, later = 0;
        if ((uint32_t)q[0] < key.q || !(own || is_mine(j))) continue;
        if (!grid) opened += filtered(q, own ? j : SIZE_MAX, &kept);
        for (size_t i = own ? j + 1 : 0; i < count_of(&P) && (t || found + later <= size); i++) {
            const int32_t *p = P.words + 3 * i;
            bool follows = after(key, size_of(q, p));
            if (!(grid || kept.is[i]) || !(t || follows)) continue;
            RingWalked w = walked(grid, q, p, j, i, own);
            opened += w.opened;
            if (w.kind == RING_CLEAR) many++, later += follows;
        }
        if (many >= t) found += later;
    }
    return opened;
}

/* ---- words lent for kept sets, with others on both sides; and what they are to hold after the call */

static uint64_t words[16 * 938 + 40 + 2 * PAST], words_due[16 * 938 + 40 + 2 * PAST];
static size_t words_len;

static uint64_t *bits(void) { return words_len ? words + PAST : NULL; }

static size_t words_for(size_t n) { return n / 64 + (n % 64 != 0); }

/* so many words are lent, whatever they hold */
static void lend_words(size_t len) {
    words_len = len;
    for (size_t k = 0; k < len + 2 * PAST; k++) words[k] = words_due[k] = chance();
}

/* as many as the points of a sheet need, or so many times as many; fewer, one fewer, or more. The number of refusal, where it was 0 */
static uint32_t lend_for(const Sheet *s, uint32_t number, size_t times) {
    size_t need = number ? below(25) : times * words_for(count_of(s)), way = below(8);
    lend_words(way == 0 && need ? need - 1 : way == 1 ? below(need + 1) : way == 2 ? need + 1 + below(40) : need);
    return number ? number : words_len < need ? 24 : 0;
}

static uint32_t lend(uint32_t number, size_t times) { return lend_for(&P, number, times); }

/* what an answer leaves: a kept set, or zeros where there is none */
static void leave(size_t times, const Kept *kept) {
    memset(words_due + PAST, 0, times * words_for(count_of(&P)) * sizeof words[0]);
    for (size_t k = 0; kept && k < kept->count; k++) words_due[PAST + kept->at[k] / 64] |= (uint64_t)1 << kept->at[k] % 64;
}

static void hold_lent(void) { HOLD(memcmp(words, words_due, (words_len + 2 * PAST) * sizeof words[0]) == 0); }

/* ---- the calls */

static void try_open(void) {
    make_sheet(&P, some_n(40)), damage(&P);
    if (below(2)) damage(&P);
    save();
    RingHead r = ring_open(at(&P), P.len);
    saw(r.number), hold_saved();
    HOLD(r.number == open_no(P.words, P.len));
    if (r.number) HOLD(r.len == 0 && r.n == 0 && r.m == 0 && r.edition == 0 && r.form == 0);
    else HOLD(r.len == P.len && r.n == count_of(&P) && r.m == nodes_of(&P) && r.edition == (uint32_t)P.words[P.len - 2] && r.form == (uint32_t)P.words[P.len - 1]);
}

/* what is handed to the packer */
static struct {
    size_t n, points_len, order_len;
    uint32_t form, edition;
    int32_t points[3 * 1400], order[1400];
} in_hand, was_in_hand;

/* one thing wrong with it, or nothing; own is how many points there are */
static void spoil(size_t own) {
    size_t way = below(18);
    if (way == 0) in_hand.points_len = below(3 * own + 3);
    if (way == 1) in_hand.order_len = below(own + 3);
    if (way == 2) in_hand.edition = wild();
    if (way == 3 && own) in_hand.points[below(3 * own)] = (int32_t)wild();
    if (way == 4 && own) in_hand.order[below(own)] = (int32_t)wild();
    if (way == 5 && own) in_hand.order[below(own)] += between(-1, 1);
    if (way == 6) P.len = below(P.len + 9);
    if (way == 7) in_hand.n = wild_size();
    if (way == 8) in_hand.n = in_hand.points_len = in_hand.order_len = P.len = 0;
    if (way == 9) in_hand.n = in_hand.order_len = 1001 + below(400), in_hand.points_len = 3 * in_hand.n;
    if (way == 10) in_hand.form = below(2) ? 3 - in_hand.form : wild();
}

/* P is what was packed: it opens, and has these points, this order, nodes of 16, this edition and form */
static void hold_packed(uint32_t form, size_t n, const int32_t *points, const int32_t *order, uint32_t edition) {
    HOLD(open_no(P.words, P.len) == 0 && count_of(&P) == n && nodes_of(&P) == nodes_for(n));
    HOLD(memcmp(P.words, points, 3 * n * 4) == 0 && memcmp(P.words + 3 * n, order, n * 4) == 0);
    HOLD(P.words[P.len - 2] == (int32_t)edition && P.words[P.len - 1] == (int32_t)form);
    for (size_t v = 0; v + 1 < nodes_of(&P); v++) {
        const int32_t *node = P.words + 5 * n + 7 * v;
        HOLD(node[2] == 16 || node[7] != node[0]);
    }
}

static void try_pack(void) {
    size_t n = some_n(40);
    in_hand.n = in_hand.order_len = n, in_hand.points_len = 3 * n, in_hand.edition = 1 + (uint32_t)below(1000000000), in_hand.form = 1 + (uint32_t)below(2);
    make_points(in_hand.points, n, in_hand.form), make_order(in_hand.points, in_hand.order, n);
    P.len = length_for(n);
    for (size_t i = 0; i < P.len; i++) P.words[i] = (int32_t)chance();
    spoil(n), spoil(n);
    was_in_hand = in_hand, save();
    const int32_t *points = in_hand.points_len ? in_hand.points : NULL, *order = in_hand.order_len ? in_hand.order : NULL;
    uint32_t r = ring_pack(in_hand.form, in_hand.n, points, in_hand.points_len, order, in_hand.order_len, in_hand.edition, P.len ? P.words : NULL, P.len);
    saw(r);
    HOLD(r == pack_no(in_hand.form, in_hand.n, points, in_hand.points_len, order, in_hand.order_len, in_hand.edition, P.len));
    HOLD(memcmp(&in_hand, &was_in_hand, sizeof in_hand) == 0);
    if (r == 0) {
        hold_packed(in_hand.form, in_hand.n, in_hand.points, in_hand.order, in_hand.edition);
        memcpy(P.words, P.was, P.len * 4);
    }
    hold_saved();
}

static void try_point(void) {
    make_sheet(&P, some_n(20));
    if (below(3) == 0) damage(&P);
    save();
    uint32_t number = open_no(P.words, P.len);
    size_t n = number ? 0 : count_of(&P), i = below(3) ? below(n + 2) : wild_size();
    RingPoint r = ring_point(at(&P), P.len, i);
    saw(r.number), hold_saved();
    HOLD(r.number == (number ? number : i < n ? 0 : 9));
    if (r.number) HOLD(r.id == 0 && r.x == 0 && r.y == 0);
    else HOLD(r.id == (uint32_t)P.words[3 * i] && r.x == P.words[3 * i + 1] && r.y == P.words[3 * i + 2]);
}

/* the length of a packed sheet, of any number of points */
static void try_length(void) {
    size_t n = below(2) ? below(LARGEST + 2) : below(3) ? LARGEST - 1 + below(3) : wild_size();
    calls++;
    HOLD(ring_sheet_len(n) == (n > LARGEST ? 0 : length_for(n)));
}

/* the position of an id: one that is there, one beside it, or any */
static void try_position(void) {
    make_sheet(&P, some_n(20));
    if (below(3) == 0) damage(&P);
    save();
    uint32_t number = open_no(P.words, P.len);
    size_t n = number ? 0 : count_of(&P), i = 0;
    uint32_t id = n && below(4) ? (uint32_t)P.words[3 * below(n)] + (below(3) ? 0 : (uint32_t)between(-1, 1)) : wild();
    RingPlaced r = ring_position(at(&P), P.len, id);
    saw(r.number), hold_saved();
    while (i < n && (uint32_t)P.words[3 * i] != id) i++;
    HOLD(r.number == (number ? number : i < n ? 0 : 20) && r.position == (r.number ? 0 : i));
}

/* of form 1 */
static void make_narrow(Sheet *s, size_t n) { make_form(s, n > 1000 ? 1000 : n, 1); }

/* two sheets, sometimes damaged; the number that both give, and a position of each, which may be over. For the street grid they are of form 1 most of the
   time, and its number comes after theirs */
static uint32_t two_sheets_of(bool grid, size_t most, size_t *j, size_t *i) {
    void (*const make)(Sheet *, size_t) = grid && below(4) ? make_narrow : make_sheet;
    make(&P, some_n(most)), make(&Q, some_n(most));
    if (below(4) == 0) damage(&P);
    if (below(4) == 0) damage(&Q);
    save();
    uint32_t p = open_no(P.words, P.len), q = open_no(Q.words, Q.len);
    *j = below(8) ? below(q ? 9 : count_of(&Q) + 1) : wild_size();
    *i = below(8) ? below(p ? 9 : count_of(&P) + 1) : wild_size();
    return p ? p : q ? q : grid && (too_wide(&P) || too_wide(&Q)) ? 29 : 0;
}

static uint32_t two_sheets(size_t most, size_t *j, size_t *i) { return two_sheets_of(false, most, j, i); }

static void try_filter(void) {
    static Kept expected;
    size_t j, i;
    uint64_t opened = 0;
    uint32_t number = two_sheets(14, &j, &i);
    if (!number && j >= count_of(&Q)) number = 9;
    number = lend(number, 1);
    if (!number) opened = filtered(Q.words + 3 * j, SIZE_MAX, &expected), leave(1, &expected);
    RingFiltered r = ring_filter_walk(at(&P), P.len, at(&Q), Q.len, j, bits(), words_len);
    saw(r.number), hold_saved(), hold_lent();
    HOLD(r.number == number && r.count == (number ? 0 : expected.count) && r.opened == opened);
    for (i = 0; !number && i < count_of(&P); i++) HOLD(expected.is[i] || !is_pair(j, i));
}

static void try_pair(void) {
    size_t j, i;
    bool grid = below(2);
    uint32_t number = two_sheets_of(grid, 80, &j, &i);
    if (below(8) == 0) make_far(&P), make_far(&Q), save(), number = grid ? 29 : 0, j = below(count_of(&Q)), i = below(count_of(&P));
    RingWalked r = ring_pair_walk(at(&P), P.len, at(&Q), Q.len, j, i, grid);
    saw(r.number), hold_saved();
    HOLD(r.number == (number ? number : j < count_of(&Q) && i < count_of(&P) ? 0 : 9));
    if (r.number || r.kind == RING_CLEAR) HOLD(r.kind == 0 && r.set == 0 && r.side == 0 && r.at == 0);
    if (r.number) {
        HOLD(r.opened == 0);
        return;
    }
    const Sheet *s = r.set ? &Q : &P;
    RingWalked expected = walked(grid, Q.words + 3 * j, P.words + 3 * i, j, i, false);
    HOLD(r.kind == expected.kind && r.set == expected.set && r.side == expected.side && r.at == expected.at && r.opened == expected.opened);
    HOLD((r.kind == RING_CLEAR) == is_pair_by(grid, j, i));
    if (r.kind == RING_BY_POINT)
        HOLD(r.side == 0 && r.at < count_of(s) && r.at != (r.set ? j : i) && blocks_by(grid, Q.words + 3 * j, P.words + 3 * i, s->words + 3 * r.at));
    if (r.kind == RING_BY_SIDE) {
        HOLD(r.at < nodes_of(s) && r.side <= RING_TOP);
        named[grid][r.side % 4]++;
        const int32_t *box = s->words + 5 * count_of(s) + 7 * r.at + 3;
        for (uint32_t side = 0; side <= r.side; side++) HOLD(side_in(grid, Q.words + 3 * j, P.words + 3 * i, box, side) == (side == r.side));
    }
}

/* how many ring pairs the chamber at a position has */
static size_t partners_by(bool grid, size_t j) {
    size_t many = 0;
    for (size_t i = 0; i < count_of(&P); i++) many += is_pair_by(grid, j, i);
    return many;
}

static size_t partners_of(size_t j) { return partners_by(false, j); }

/* the page that the list of t of a profile gives, by trying every pair */
static RingPage page_of(bool grid, RingKey key, size_t size, uint32_t t) {
    RingPage g;
    memset(&g, 0, sizeof g);
    g.source.p_edition = (uint32_t)P.words[P.len - 2], g.source.q_edition = (uint32_t)Q.words[Q.len - 2];
    g.source.terms.threshold = t, g.source.terms.contractor = contractor, g.source.terms.grid = grid;
    g.key = key, g.end = true;
    for (size_t j = 0; j < count_of(&Q) && g.end; j++) {
        if ((uint32_t)Q.words[3 * j] < key.q || !is_mine(j)) continue;
        for (size_t i = 0; i < count_of(&P) && g.end; i++) {
            RingPair v = size_by(grid, Q.words + 3 * j, P.words + 3 * i);
            if (!after(key, v) || !is_pair_by(grid, j, i) || (t && partners_by(grid, j) < t)) continue;
            if (g.count < size) g.pairs[g.count++] = v;
            else g.end = false;
        }
    }
    return g;
}

static bool same_page(const RingPage *a, const RingPage *b) {
    return a->source.p_edition == b->source.p_edition && a->source.q_edition == b->source.q_edition && a->source.terms.threshold == b->source.terms.threshold
        && a->source.terms.contractor == b->source.terms.contractor && a->source.terms.own == b->source.terms.own && a->source.terms.grid == b->source.terms.grid && a->key.q == b->key.q && a->key.p == b->key.p
        && a->count == b->count && a->end == b->end && memcmp(a->pairs, b->pairs, sizeof a->pairs) == 0;
}

/* a threshold: few, or anything */
static uint32_t some_threshold(void) { return below(3) == 0 ? 0 : below(6) ? (uint32_t)below(6) : below(2) ? 59999 + (uint32_t)below(3) : wild(); }

static uint32_t some_contractor(void) { return below(8) ? (uint32_t)below(3) : wild(); }

/* an owner for each of so many chambers: either, or all of one */
static void divide(size_t n) {
    size_t way = below(8);
    for (size_t k = 0; k < n; k++) owners[k] = (uint8_t)(way < 2 ? way : below(2));
}

/* a contractor and owner bytes, one 0 or 1 a chamber or, for 2, none; or they are spoilt */
static uint32_t some_owners(uint32_t number) {
    contractor = some_contractor();
    size_t n = number && number != 29 ? below(4) : count_of(&Q);
    divide(n + 1);
    owners_len = contractor == 2 ? 0 : n;
    bool bad = below(12) == 0;
    if (bad && contractor != 2 && n && below(2)) owners[below(n)] = (uint8_t)(2 + below(254));
    else if (bad) owners_len = owners_len && below(2) ? owners_len - 1 : owners_len + 1;
    if (number && number != 29) return number;
    return contractor > 2 ? 27 : bad ? 26 : number;
}

static void try_page(void) {
    uint32_t t = some_threshold();
    size_t j, i, size = below(6) ? 1 + below(16) : wild_size();
    bool grid = below(2);
    RingKey key = {0, 0};
    RingPage expected;
    uint32_t number = two_sheets_of(grid, 14, &j, &i);
    number = some_owners(number);
    if (!number && j < count_of(&Q) && i < count_of(&P)) key.q = (uint32_t)Q.words[3 * j] + (uint32_t)below(2), key.p = (uint32_t)P.words[3 * i];
    if (below(6) == 0) key.q = wild();
    if (below(6) == 0) key.p = wild();
    if (!number) number = key.q > 2000000000 || key.p > 2000000000 ? 9 : size < 1 || size > 16 ? 10 : t > 60000 ? 21 : 0;
    number = lend(number, 1);
    if (!number) leave(1, NULL);
    RingPaged r = ring_page(at(&P), P.len, at(&Q), Q.len, owners_len ? owners : NULL, owners_len, (RingRequest){key, size, t, contractor, grid}, bits(), words_len);
    saw(r.number), hold_saved(), hold_lent();
    HOLD(r.number == number && r.opened == (number ? 0 : page_opened(grid, key, size, t, false)));
    if (r.number) memset(&expected, 0, sizeof expected);
    else expected = page_of(grid, key, size, t);
    HOLD(same_page(&r.page, &expected));
    contractor = 2;
}

/* the page of P's self join, by trying every two records: no other stands in their circle, or between them along the streets */
static RingPage own_of(bool grid, RingKey key, size_t size) {
    RingPage g;
    memset(&g, 0, sizeof g);
    g.source.p_edition = g.source.q_edition = (uint32_t)P.words[P.len - 2], g.source.terms.contractor = 2, g.source.terms.own = true, g.source.terms.grid = grid;
    g.key = key, g.end = true;
    for (size_t j = 0; j < count_of(&P) && g.end; j++) {
        if ((uint32_t)P.words[3 * j] < key.q) continue;
        for (size_t i = j + 1; i < count_of(&P) && g.end; i++) {
            const int32_t *a = P.words + 3 * j, *b = P.words + 3 * i;
            RingPair v = size_by(grid, a, b);
            bool free = after(key, v);
            for (size_t k = 0; k < count_of(&P) && free; k++) free = k == j || k == i || !blocks_by(grid, a, b, P.words + 3 * k);
            if (!free) continue;
            if (g.count < size) g.pairs[g.count++] = v;
            else g.end = false;
        }
    }
    return g;
}

static void try_own(void) {
    size_t j, i, size = below(6) ? 1 + below(16) : wild_size();
    bool grid = below(2);
    RingKey key = {0, 0};
    RingPage expected;
    two_sheets_of(grid, 40, &j, &i);
    uint32_t number = open_no(P.words, P.len);
    if (!number && grid && too_wide(&P)) number = 29;
    if (!number && i < count_of(&P) && below(2)) key.q = (uint32_t)P.words[3 * i], key.p = key.q + (uint32_t)below(3);
    if (below(6) == 0) key.q = wild();
    if (below(6) == 0) key.p = wild();
    if (!number) number = key.q > 2000000000 || key.p > 2000000000 ? 9 : size < 1 || size > 16 ? 10 : 0;
    number = lend(number, 1);
    if (!number) leave(1, NULL);
    RingPaged r = ring_own_page(at(&P), P.len, key, size, grid, bits(), words_len);
    saw(r.number), hold_saved(), hold_lent();
    HOLD(r.number == number && r.opened == (number ? 0 : page_opened(grid, key, size, 0, true)));
    if (r.number) memset(&expected, 0, sizeof expected);
    else expected = own_of(grid, key, size);
    HOLD(same_page(&r.page, &expected));
}

/* ---- many pairs at once, and their number */

/* the most pairs that are listed by trying every two records */
#define LISTED 40000
#define ANY_SIZE 8000000000000000000u

static RingPair listed[LISTED], many_room[LISTED + 16], many_due[LISTED + 16];
static RingPair *const many_slots = many_room + 8;

/* whether the two records are a pair of P and Q, or of P's self join */
static bool is_listed(bool grid, bool own, size_t j, size_t i) {
    if (!own) return is_pair_by(grid, j, i);
    for (size_t k = 0; k < count_of(&P); k++)
        if (k != j && k != i && blocks_by(grid, P.words + 3 * j, P.words + 3 * i, P.words + 3 * k)) return false;
    return i > j;
}

/* the list of the contractor, to a size, of the chambers that have at least t such pairs, or of P's self join to a size; how many pairs */
static size_t listed_to(bool grid, bool own, uint64_t largest, uint32_t t, RingPair *out) {
    const Sheet *s = own ? &P : &Q;
    size_t count = 0;
    for (size_t j = 0; j < count_of(s); j++) {
        size_t many = 0;
        for (size_t i = 0; i < count_of(&P) && (own || is_mine(j)); i++) {
            RingPair v = size_by(grid, s->words + 3 * j, P.words + 3 * i);
            if (v.size <= largest && is_listed(grid, own, j, i)) out[count + many++] = v;
        }
        if (many >= t) count += many;
    }
    return count;
}

/* of a list, how many pairs come before the key or are it */
static size_t up_to_key(const RingPair *pairs, size_t count, RingKey key) {
    size_t k = 0;
    while (k < count && !after(key, pairs[k])) k++;
    return k;
}

/* a largest size: any, one at the edge of a size of the list, at the limit, or any number */
static uint64_t some_largest(const RingPair *pairs, size_t count) {
    size_t way = below(8);
    if (way < 3) return ANY_SIZE;
    if (way < 6 && count) return pairs[below(count)].size + below(3) - 1;
    return way == 6 ? ANY_SIZE + below(3) - 1 : below(2) ? below(40) : chance() >> below(64);
}

/* slots with others on both sides: none, fewer than there are pairs, one fewer, as many, more */
static size_t lend_slots(size_t count) {
    size_t way = below(6), len = way == 0 || count == 0 ? below(2) * below(4) : way == 1 ? below(count) : way == 2 ? count - 1 : way == 3 ? count + 1 + below(4) : count;
    if (len > LISTED) len = LISTED;
    for (size_t k = 0; k < len + 16; k++) many_room[k].q = wild(), many_room[k].p = wild(), many_room[k].size = chance();
    memcpy(many_due, many_room, (len + 16) * sizeof many_room[0]);
    return len;
}

static void hold_slots(size_t len) { HOLD(memcmp(many_room, many_due, (len + 16) * sizeof many_room[0]) == 0); }

/* whether there are so few that trying every two is soon done */
static bool is_small(bool own) { return count_of(&P) * (own ? count_of(&P) : count_of(&Q)) <= LISTED; }

/* a key of the sheets' ids, beside one, or any */
static RingKey some_key(const Sheet *s, bool opens) {
    RingKey key = {0, 0};
    if (opens && count_of(s) && count_of(&P) && below(4)) {
        key.q = (uint32_t)s->words[3 * below(count_of(s))] + (uint32_t)below(2), key.p = (uint32_t)P.words[3 * below(count_of(&P))];
        if (below(4) == 0) key.p--;
    }
    if (below(8) == 0) key.q = wild();
    if (below(8) == 0) key.p = wild();
    return key;
}

static uint32_t key_no(RingKey key) { return key.q > 2000000000 || key.p > 2000000000 ? 9 : 0; }

static unsigned long many_exact, many_cut, many_none, many_left, many_edge;

static void try_pairs(void) {
    bool grid = below(2);
    uint32_t t = some_threshold();
    size_t j, i, count = 0, before = 0, stored = 0;
    uint32_t number = some_owners(two_sheets_of(grid, 14, &j, &i));
    if (!number && !is_small(false)) return;
    RingKey key = some_key(&Q, !number);
    if (!number) count = listed_to(grid, false, ANY_SIZE, 0, listed);
    uint64_t largest = some_largest(listed, count);
    if (!number) number = key_no(key) ? 9 : t > 60000 ? 21 : largest > ANY_SIZE ? 40 : 0;
    number = lend(number, 1);
    if (!number) count = listed_to(grid, false, largest, t, listed), before = up_to_key(listed, count, key), leave(1, NULL);
    size_t len = lend_slots(number ? 5 : count - before);
    if (!number) stored = len < count - before ? len : count - before, memcpy(many_due + 8, listed + before, stored * sizeof listed[0]);
    RingMany r = ring_pairs(at(&P), P.len, at(&Q), Q.len, owners_len ? owners : NULL, owners_len, (RingWanted){key, largest, t, contractor, grid}, len ? many_slots : NULL, len, bits(), words_len);
    saw(r.number), hold_saved(), hold_lent(), hold_slots(len);
    HOLD(r.number == number && r.count == stored && r.more == (!number && before + stored < count));
    if (!number) {
        many_exact += stored && stored == len && !r.more, many_cut += stored && r.more, many_none += !len && r.more, many_left += stored && stored < len;
        for (size_t k = 0; k < count; k++) many_edge += listed[k].size == largest;
    }
    contractor = 2;
}

static void try_own_pairs(void) {
    bool grid = below(2);
    size_t j, i, count = 0, before = 0, stored = 0;
    two_sheets_of(grid, 40, &j, &i);
    uint32_t number = open_no(P.words, P.len);
    if (!number && grid && too_wide(&P)) number = 29;
    if (!number && !is_small(true)) return;
    RingKey key = some_key(&P, !number);
    if (!number) count = listed_to(grid, true, ANY_SIZE, 0, listed);
    uint64_t largest = some_largest(listed, count);
    if (!number) number = key_no(key) ? 9 : largest > ANY_SIZE ? 40 : 0;
    number = lend(number, 1);
    if (!number) count = listed_to(grid, true, largest, 0, listed), before = up_to_key(listed, count, key), leave(1, NULL);
    size_t len = lend_slots(number ? 5 : count - before);
    if (!number) stored = len < count - before ? len : count - before, memcpy(many_due + 8, listed + before, stored * sizeof listed[0]);
    RingMany r = ring_own_pairs(at(&P), P.len, key, largest, grid, len ? many_slots : NULL, len, bits(), words_len);
    saw(r.number), hold_saved(), hold_lent(), hold_slots(len);
    HOLD(r.number == number && r.count == stored && r.more == (!number && before + stored < count));
}

static void try_count(void) {
    bool grid = below(2);
    uint32_t t = some_threshold();
    size_t j, i, count = 0;
    uint32_t number = some_owners(two_sheets_of(grid, 14, &j, &i));
    if (!number && !is_small(false)) return;
    if (!number) count = listed_to(grid, false, ANY_SIZE, 0, listed);
    uint64_t largest = some_largest(listed, count);
    if (!number) number = t > 60000 ? 21 : largest > ANY_SIZE ? 40 : 0;
    number = lend(number, 1);
    if (!number) leave(1, NULL);
    RingCounted r = ring_count(at(&P), P.len, at(&Q), Q.len, owners_len ? owners : NULL, owners_len, (RingWhich){largest, t, contractor, grid}, bits(), words_len);
    saw(r.number), hold_saved(), hold_lent();
    HOLD(r.number == number && r.count == (number ? 0 : listed_to(grid, false, largest, t, listed)));
    contractor = 2;
}

static void try_own_count(void) {
    bool grid = below(2);
    size_t j, i, count = 0;
    two_sheets_of(grid, 40, &j, &i);
    uint32_t number = open_no(P.words, P.len);
    if (!number && grid && too_wide(&P)) number = 29;
    if (!number && !is_small(true)) return;
    if (!number) count = listed_to(grid, true, ANY_SIZE, 0, listed);
    uint64_t largest = some_largest(listed, count);
    if (!number) number = largest > ANY_SIZE ? 40 : 0;
    number = lend(number, 1);
    if (!number) leave(1, NULL);
    RingCounted r = ring_own_count(at(&P), P.len, largest, grid, bits(), words_len);
    saw(r.number), hold_saved(), hold_lent();
    HOLD(r.number == number && r.count == (number ? 0 : listed_to(grid, true, largest, 0, listed)));
}

/* ---- the busiest, and the most urgent */

static size_t some_k(void) { return below(6) ? 1 + below(16) : below(2) ? 17 * below(2) : wild_size(); }

static unsigned long busy_tied, busy_none, busy_left, busy_few, urgent_tied, urgent_cut, urgent_few;

/* how many of the pairs have the id at an end, of a chamber or of a pump house */
static uint32_t pairs_with(const RingPair *pairs, size_t count, bool pumps, uint32_t id) {
    uint32_t many = 0;
    for (size_t k = 0; k < count; k++) many += (pumps ? pairs[k].p : pairs[k].q) == id;
    return many;
}

/* of the contractor's chambers, or of the pump houses, the k with the most pairs: each the first of all that are not given yet */
static size_t busiest_of(size_t k, bool pumps, const RingPair *pairs, size_t count, RingRank *rows) {
    static bool given[MANY];
    const Sheet *s = pumps ? &P : &Q;
    size_t n = count_of(s), left = 0, had = 0;
    for (size_t j = 0; j < n; j++) given[j] = !pumps && !is_mine(j), left += !given[j];
    for (; had < k && left; had++, left--) {
        size_t best = n;
        for (size_t j = 0; j < n; j++) {
            RingRank one = {(uint32_t)s->words[3 * j], pairs_with(pairs, count, pumps, (uint32_t)s->words[3 * j])};
            if (!given[j] && (best == n || one.pairs > rows[had].pairs)) best = j, rows[had] = one;
        }
        given[best] = true;
        busy_none += rows[had].pairs == 0, busy_tied += had && rows[had].pairs == rows[had - 1].pairs;
    }
    busy_left += left > 0, busy_few += had < k;
    return had;
}

static bool same_ranks(const RingRank *a, const RingRank *b) {
    for (size_t k = 0; k < 16; k++)
        if (a[k].id != b[k].id || a[k].pairs != b[k].pairs) return false;
    return true;
}

static void try_busiest(void) {
    bool grid = below(2);
    size_t j, i, count = 0, k = some_k(), had = 0;
    RingRank rows[16];
    uint32_t number = some_owners(two_sheets_of(grid, 24, &j, &i));
    if (!number && !is_small(false)) return;
    if (!number) count = listed_to(grid, false, ANY_SIZE, 0, listed);
    uint64_t largest = some_largest(listed, count);
    if (!number) number = k < 1 || k > 16 ? 10 : largest > ANY_SIZE ? 40 : 0;
    number = lend(number, 1);
    memset(rows, 0, sizeof rows);
    if (!number) count = listed_to(grid, false, largest, 0, listed), had = busiest_of(k, false, listed, count, rows), leave(1, NULL);
    RingBusy r = ring_busiest(at(&P), P.len, at(&Q), Q.len, owners_len ? owners : NULL, owners_len, (RingAsked){k, largest, contractor, grid}, bits(), words_len);
    saw(r.number), hold_saved(), hold_lent();
    HOLD(r.number == number && r.count == had && same_ranks(r.rows, rows));
    contractor = 2;
}

static void try_busiest_pumps(void) {
    bool grid = below(2);
    size_t j, i, count = 0, k = some_k(), had = 0;
    RingRank rows[16];
    uint32_t number = two_sheets_of(grid, 24, &j, &i);
    contractor = 2;
    if (!number && !is_small(false)) return;
    if (!number) count = listed_to(grid, false, ANY_SIZE, 0, listed);
    uint64_t largest = some_largest(listed, count);
    if (!number) number = k < 1 || k > 16 ? 10 : largest > ANY_SIZE ? 40 : 0;
    /* the kept sets are of chambers */
    number = lend_for(&Q, number, 1);
    memset(rows, 0, sizeof rows);
    if (!number) {
        count = listed_to(grid, false, largest, 0, listed), had = busiest_of(k, true, listed, count, rows);
        memset(words_due + PAST, 0, words_for(count_of(&Q)) * sizeof words[0]);
    }
    RingBusy r = ring_busiest_pumps(at(&P), P.len, at(&Q), Q.len, k, largest, grid, bits(), words_len);
    saw(r.number), hold_saved(), hold_lent();
    HOLD(r.number == number && r.count == had && same_ranks(r.rows, rows));
}

/* scores, with others on both sides, and a copy of all */
typedef struct {
    uint32_t room[MANY + 2 + 2 * PAST], was[MANY + 2 + 2 * PAST];
    size_t len;
} Scores;

static Scores of_p, of_q;

static uint32_t *scores_at(Scores *s) { return s->len ? s->room + PAST : NULL; }

/* one for each of n records: few different ones, any, or the highest; or they are spoilt: one too high, one too few, one too many. Whether they are right */
static bool some_scores(Scores *s, size_t n) {
    size_t way = below(6);
    bool bad = below(12) == 0;
    for (size_t k = 0; k < n + 2 + 2 * PAST; k++)
        s->room[k] = way == 0 ? 0 : way == 1 ? 1000000000 : way == 2 ? (below(2) ? 0 : 1000000000) : way < 5 ? (uint32_t)below(4) : (uint32_t)below(1000000001);
    s->len = n;
    if (bad && n && below(2)) s->room[PAST + below(n)] = below(2) ? 1000000001 : 1000000001 + (uint32_t)below(3294967295u);
    else if (bad) s->len = n && below(2) ? n - 1 : n + 1;
    memcpy(s->was, s->room, sizeof s->was);
    return !bad;
}

static void hold_scores(void) { HOLD(memcmp(of_p.room, of_p.was, sizeof of_p.was) == 0 && memcmp(of_q.room, of_q.was, sizeof of_q.was) == 0); }

static size_t with_name(const Sheet *s, uint32_t id) {
    size_t k = 0;
    while ((uint32_t)s->words[3 * k] != id) k++;
    return k;
}

/* the pairs stand by q id, then p id: each row is the first of those with the highest score that are not given yet */
static size_t urgent_of(size_t k, const RingPair *pairs, size_t count, RingVisit *rows) {
    static bool given[LISTED];
    static uint64_t sums[LISTED];
    size_t had = 0;
    for (size_t v = 0; v < count; v++)
        given[v] = false, sums[v] = (uint64_t)of_q.room[PAST + with_name(&Q, pairs[v].q)] + of_p.room[PAST + with_name(&P, pairs[v].p)];
    for (; had < k && had < count; had++) {
        size_t best = count;
        for (size_t v = 0; v < count; v++)
            if (!given[v] && (best == count || sums[v] > sums[best])) best = v;
        given[best] = true, rows[had].pair = pairs[best], rows[had].score = sums[best];
        urgent_tied += had && rows[had].score == rows[had - 1].score;
    }
    urgent_cut += had < count, urgent_few += had < k;
    return had;
}

static bool same_visits(const RingVisit *a, const RingVisit *b) {
    for (size_t k = 0; k < 16; k++)
        if (a[k].pair.q != b[k].pair.q || a[k].pair.p != b[k].pair.p || a[k].pair.size != b[k].pair.size || a[k].score != b[k].score) return false;
    return true;
}

static void try_urgent(void) {
    bool grid = below(2);
    size_t j, i, count = 0, k = some_k(), had = 0;
    RingVisit rows[16];
    uint32_t sheets = two_sheets_of(grid, 24, &j, &i), number = some_owners(sheets);
    bool opens = !sheets || sheets == 29;
    if (opens && !is_small(false)) return;
    bool p_right = some_scores(&of_p, opens ? count_of(&P) : below(9)), q_right = some_scores(&of_q, opens ? count_of(&Q) : below(9));
    if (!number) count = listed_to(grid, false, ANY_SIZE, 0, listed);
    uint64_t largest = some_largest(listed, count);
    if (!number) number = k < 1 || k > 16 ? 10 : largest > ANY_SIZE ? 40 : !p_right ? 41 : !q_right ? 42 : 0;
    number = lend(number, 1);
    memset(rows, 0, sizeof rows);
    if (!number) count = listed_to(grid, false, largest, 0, listed), had = urgent_of(k, listed, count, rows), leave(1, NULL);
    RingUrgent r = ring_urgent(at(&P), P.len, at(&Q), Q.len, owners_len ? owners : NULL, owners_len, scores_at(&of_p), of_p.len, scores_at(&of_q), of_q.len,
                               (RingAsked){k, largest, contractor, grid}, bits(), words_len);
    saw(r.number), hold_saved(), hold_lent(), hold_scores();
    HOLD(r.number == number && r.count == had && same_visits(r.rows, rows));
    contractor = 2;
}

/* by size, then q id, then p id */
static bool sooner(RingPair v, RingPair w) { return v.size != w.size ? v.size < w.size : v.q != w.q ? v.q < w.q : v.p < w.p; }

/* the k shortest pairs: each the first of all that come after the last one */
static size_t shortest_of(size_t k, RingPair *pairs) {
    size_t count = 0;
    for (bool more = true; more && count < k; count += more) {
        more = false;
        for (size_t j = 0; j < count_of(&Q); j++)
            for (size_t i = 0; i < count_of(&P); i++) {
                RingPair v = pair_of(j, i);
                if ((count && !sooner(pairs[count - 1], v)) || (more && !sooner(v, pairs[count])) || !is_pair(j, i)) continue;
                pairs[count] = v, more = true;
            }
    }
    return count;
}

static void try_shortest(void) {
    size_t j, i, k = below(6) ? 1 + below(16) : wild_size(), count = 0;
    RingPair expected[16];
    uint32_t number = two_sheets(14, &j, &i);
    if (!number) number = k < 1 || k > 16 ? 10 : 0;
    number = lend(number, 1);
    memset(expected, 0, sizeof expected);
    if (!number) count = shortest_of(k, expected), leave(1, NULL);
    RingShortlist r = ring_shortest(at(&P), P.len, at(&Q), Q.len, k, bits(), words_len);
    saw(r.number), hold_saved(), hold_lent();
    HOLD(r.number == number && r.count == count && memcmp(r.pairs, expected, sizeof expected) == 0);
}

static void try_partners(void) {
    size_t j, i, many = 0;
    uint32_t number = two_sheets(14, &j, &i), id = wild(), t = some_threshold();
    bool known = !number && j < count_of(&Q);
    if (known) id = (uint32_t)Q.words[3 * j] + (below(4) == 0);
    if (!number) {
        known = false;
        for (size_t k = 0; k < count_of(&Q); k++)
            if ((uint32_t)Q.words[3 * k] == id) known = true, many = partners_of(k);
        number = !known ? 20 : t < 1 || t > 60000 ? 21 : 0;
    }
    number = lend(number, 1);
    if (!number) leave(1, NULL);
    RingPartners r = ring_partners(at(&P), P.len, at(&Q), Q.len, id, t, bits(), words_len);
    saw(r.number), hold_saved(), hold_lent();
    HOLD(r.number == number);
    HOLD(r.count == (number ? 0 : many < t ? many : t) && r.enough == (!number && many >= t));
}

static uint32_t some_edition(void) { return below(2) ? 1 + (uint32_t)below(1000000000) : wild(); }

static void try_begin(void) {
    RingSource s = {some_edition(), some_edition(), {some_threshold(), some_contractor(), below(2), below(2)}}, none = {0, 0, {0, 0, false, false}};
    if (below(2)) s.q_edition = s.p_edition;
    bool ok = in(1, s.p_edition, 1000000000) && in(1, s.q_edition, 1000000000) && !(s.terms.own && s.p_edition != s.q_edition);
    uint32_t number = !ok ? 3 : s.terms.threshold > (s.terms.own ? 0 : 60000) ? 21 : s.terms.contractor > 2 || (s.terms.own && s.terms.contractor != 2) ? 27 : 0;
    RingBook begun = {0, false, number ? none : s};
    RingBegun r = ring_book_begin(s);
    saw(r.number);
    HOLD(r.number == number && same_book(r.book, begun));
}

/* ---- a book's slots, between guards, and a copy */

static RingPair room[24], room_was[24];
static RingPair *const slots = room + 2;

static size_t make_slots(RingBook *b) {
    size_t len = below(20);
    for (size_t k = 0; k < 24; k++) room[k].q = 7 + (uint32_t)(k / 3), room[k].p = 1 + (uint32_t)(k % 3) + (uint32_t)below(9) * 3, room[k].size = wild_size();
    for (size_t k = 1; k < 24; k++)
        if (room[k].q == room[k - 1].q && room[k].p <= room[k - 1].p) room[k].p = room[k - 1].p + 1;
    b->held = below(8) ? below(len + 1) : below(2) ? len + 1 + below(3) : wild_size();
    b->closed = below(9) == 0;
    b->source.p_edition = some_edition(), b->source.q_edition = some_edition(), b->source.terms.threshold = some_threshold(), b->source.terms.contractor = some_contractor();
    b->source.terms.own = below(2), b->source.terms.grid = below(2);
    return len;
}

static void try_next(void) {
    RingBook b;
    size_t len = make_slots(&b);
    memcpy(room_was, room, sizeof room);
    RingNext r = ring_book_next_key(b, len ? slots : NULL, len);
    saw(r.number);
    RingKey key = key_of(slots, b.held > len ? 0 : b.held);
    HOLD(r.number == (b.held > len ? 11u : 0u) && r.key.q == key.q && r.key.p == key.p && same_book(r.book, b));
    HOLD(memcmp(room, room_was, sizeof room) == 0);
}

static RingPage make_page(const RingBook *b, size_t len) {
    RingPage g;
    memset(&g, 0, sizeof g);
    g.source = b->source, g.key = key_of(slots, b->held > len ? 0 : b->held), g.count = below(3) ? below(5) : below(17), g.end = below(2);
    RingPair v = {g.key.q, g.key.p, 0};
    for (size_t k = 0; k < 16; k++) {
        if (below(2)) v.p++;
        else v.q += 1 + (uint32_t)below(3), v.p = 1 + (uint32_t)below(9);
        if (v.q == 0) v.q = 1;
        v.size = below(4) ? below(1000) : most_size(g.source.terms.grid) - below(2);
        g.pairs[k] = v;
    }
    return g;
}

/* one thing wrong with a page, or nothing */
static void spoil_page(RingPage *g) {
    switch (below(26)) {
    case 0: g->source.p_edition = wild(); break;
    case 1: g->source.q_edition++; break;
    case 2: g->key.q = wild(); break;
    case 3: g->key.p++; break;
    case 4: g->count = wild_size(); break;
    case 5: g->pairs[below(16)].q = wild(); break;
    case 6: g->pairs[below(16)].p = wild(); break;
    case 7: g->pairs[1] = g->pairs[0]; break;
    case 8: g->count = 0; break;
    case 9: g->key.p = wild(); break;
    case 10: g->pairs[below(3)].size = most_size(below(4) == 0) + 1; break;
    case 11: g->pairs[below(16)].size = wild_size(); break;
    case 12: g->source.terms.threshold++; break;
    case 13: g->source.terms.threshold = wild(); break;
    case 14: g->source.terms.own = !g->source.terms.own; break;
    case 15: g->source.terms.grid = !g->source.terms.grid; break;
    case 16: g->pairs[below(3)].size = most_size(!g->source.terms.grid); break;
    case 17: g->source.terms.contractor = some_contractor(); break;
    }
}

static void try_take(void) {
    RingBook b;
    size_t len = make_slots(&b);
    RingPage g = make_page(&b, len);
    spoil_page(&g), spoil_page(&g);
    uint32_t number = take_no(&b, slots, len, &g);
    memcpy(room_was, room, sizeof room);
    RingTaken r = ring_book_take(b, len ? slots : NULL, len, g);
    saw(r.number);
    if (!number) {
        memcpy(room_was + 2 + b.held, g.pairs, g.count * sizeof g.pairs[0]);
        b.held += g.count, b.closed = g.end;
    }
    HOLD(r.number == number && same_book(r.book, b));
    HOLD(memcmp(room, room_was, sizeof room) == 0);
}

/* ---- order forms, between guards, and a copy */

static RingForm forms[24], forms_was[24];
static RingForm *const places = forms + 2;

static RingForm some_form(void) {
    RingForm f;
    memset(&f, 0, sizeof f);
    f.p_edition = 7 + (uint32_t)below(2), f.q_edition = 9, f.own = below(4) == 0, f.contractor = (uint32_t)below(3), f.grid = below(4) == 0;
    f.q = 5 + (uint32_t)below(3), f.p = 1 + (uint32_t)below(3), f.size = below(2) ? below(100) : wild_size();
    return f;
}

static bool same_form(const RingForm *a, const RingForm *b) {
    return a->p_edition == b->p_edition && a->q_edition == b->q_edition && a->own == b->own && a->contractor == b->contractor && a->grid == b->grid && a->q == b->q && a->p == b->p;
}

static bool forms_kept(const RingForm *a, const RingForm *b) {
    for (size_t k = 0; k < 24; k++)
        if (!same_form(a + k, b + k) || a[k].size != b[k].size) return false;
    return true;
}

static void make_forms(void) {
    for (size_t k = 0; k < 24; k++) forms[k] = some_form();
}

/* the form of a pair of a list: it says the list's contractor and profile */
static RingForm form_of(const RingSource *s, const RingPair *v) {
    RingForm f;
    memset(&f, 0, sizeof f);
    f.p_edition = s->p_edition, f.q_edition = s->q_edition, f.own = s->terms.own, f.contractor = s->terms.contractor, f.grid = s->terms.grid, f.q = v->q, f.p = v->p, f.size = v->size;
    return f;
}

static void try_forms(void) {
    RingBook b;
    size_t len = make_slots(&b), out = below(3) ? below(20) : b.held < 20 ? b.held : 19;
    make_forms();
    memcpy(room_was, room, sizeof room), memcpy(forms_was, forms, sizeof forms);
    uint32_t number = b.held > len ? 11 : b.held > out ? 16 : 0;
    size_t count = number ? 0 : b.held;
    for (size_t k = 0; k < count; k++) forms_was[2 + k] = form_of(&b.source, slots + k);
    RingMade r = ring_forms(b, len ? slots : NULL, len, out ? places : NULL, out);
    saw(r.number);
    HOLD(r.number == number && r.count == count && memcmp(room, room_was, sizeof room) == 0 && forms_kept(forms, forms_was));
}

static void try_depot_begin(void) {
    RingDepot d = ring_depot_begin();
    saw(0);
    HOLD(d.held == 0);
}

static bool form_ok(const RingForm *f) { return in(1, f->p_edition, 1000000000) && in(1, f->q_edition, 1000000000) && f->contractor <= 2 && id_ok(f->q) && id_ok(f->p); }

/* one thing wrong with a form, or nothing */
static void spoil_form(RingForm *f) {
    switch (below(14)) {
    case 0: f->p_edition = wild(); break;
    case 1: f->q_edition = below(2) ? 0 : 1000000001; break;
    case 2: f->contractor = wild(); break;
    case 3: f->q = wild(); break;
    case 4: f->p = below(2) ? 0 : 2000000001; break;
    case 5: f->size = wild_size(); break;
    case 6: f->own = !f->own; break;
    case 7: f->grid = !f->grid; break;
    }
}

static void try_depot_take(void) {
    size_t len = below(20);
    RingDepot d = {below(8) ? below(len + 1) : below(2) ? len + 1 + below(3) : wild_size()};
    make_forms();
    RingForm f = d.held && below(2) ? places[below(d.held <= len ? d.held : 20)] : some_form();
    if (below(3) == 0) spoil_form(&f), spoil_form(&f);
    bool known = false;
    for (size_t k = 0; k < len && k < d.held; k++) known |= same_form(places + k, &f);
    uint32_t number = d.held > len ? 11 : !form_ok(&f) ? 15 : !known && d.held == len ? 16 : 0;
    bool issued = !number && !known;
    memcpy(forms_was, forms, sizeof forms);
    if (issued) forms_was[2 + d.held] = f;
    RingStored r = ring_depot_take(d, len ? places : NULL, len, f);
    saw(r.number);
    HOLD(r.number == number && r.issued == issued && r.depot.held == d.held + (issued ? 1 : 0) && forms_kept(forms, forms_was));
}

/* ---- a depot's whole history, held to a plain list: the forms of a few pairs, lost, repeated and reordered, with slices that grow */

static void try_deliveries(void) {
    static RingForm list[64], held[64];
    size_t many = 0, len = below(24);
    RingDepot d = ring_depot_begin();
    memset(held, 0, sizeof held);
    for (int turn = 0; turn < 60; turn++) {
        RingForm f = some_form();
        bool known = false;
        for (size_t k = 0; k < many; k++) known |= same_form(list + k, &f);
        uint32_t number = !known && many == len ? 16 : 0;
        RingStored r = ring_depot_take(d, len ? held : NULL, len, f);
        saw(r.number);
        HOLD(r.number == number && r.issued == (!known && !number));
        if (!known && !number) list[many++] = f;
        d = r.depot;
        HOLD(d.held == many);
        for (size_t k = 0; k < many; k++) HOLD(same_form(held + k, list + k) && held[k].size == list[k].size);
        if (below(9) == 0 && len < 60) len += below(4);
    }
}

/* ---- two contractors: a book for each and an undivided one, each fed by its own pages and refused the others', and the forms of all three to one depot */

/* the pairs of the contractor's list of t, by trying every pair; how many */
static size_t list_of(bool grid, uint32_t t, RingPair *pairs) {
    size_t count = 0;
    for (size_t j = 0; j < count_of(&Q); j++)
        for (size_t i = 0; i < count_of(&P); i++)
            if (is_mine(j) && is_pair_by(grid, j, i) && partners_by(grid, j) >= t) pairs[count++] = size_by(grid, Q.words + 3 * j, P.words + 3 * i);
    return count;
}

static RingPaged page_for(uint32_t whose, RingKey key, size_t size, uint32_t t, bool grid) {
    lend_words(words_for(count_of(&P))), leave(1, NULL);
    RingPaged r = ring_page(P.words, P.len, Q.words, Q.len, whose == 2 ? NULL : owners, whose == 2 ? 0 : count_of(&Q), (RingRequest){key, size, t, whose, grid}, bits(), words_len);
    saw(r.number), hold_saved(), hold_lent();
    HOLD(r.number == 0 && r.page.source.terms.contractor == whose);
    return r;
}

/* the contractor's book, followed to its end: a page of another's is refused by 28, and changes nothing */
static RingBook book_for(RingPair *pairs, size_t len, uint32_t t, bool grid) {
    RingBegun b = ring_book_begin((RingSource){(uint32_t)P.words[P.len - 2], (uint32_t)Q.words[Q.len - 2], {t, contractor, false, grid}});
    saw(b.number);
    HOLD(b.number == 0);
    for (int turn = 0; turn < 400 && !b.book.closed; turn++) {
        RingNext next = ring_book_next_key(b.book, pairs, len);
        uint32_t whose = below(3) ? contractor : (contractor + 1 + (uint32_t)below(2)) % 3;
        RingTaken r = ring_book_take(b.book, pairs, len, page_for(whose, next.key, 1 + below(16), t, grid).page);
        saw(next.number), saw(r.number);
        HOLD(next.number == 0 && r.number == (whose == contractor ? 0 : 28));
        if (r.number) HOLD(same_book(r.book, b.book));
        b.book = r.book;
    }
    return b.book;
}

/* the list that the pages of the contractor show when they are followed, or those of P's self join; how many pairs */
static size_t by_pages(bool grid, bool own, uint32_t t, RingPair *out) {
    RingKey key = {0, 0};
    size_t count = 0;
    for (bool end = false; !end;) {
        RingPaged r;
        if (own) {
            lend_words(words_for(count_of(&P))), leave(1, NULL);
            r = ring_own_page(P.words, P.len, key, 16, grid, bits(), words_len);
            saw(r.number), hold_lent();
        } else r = page_for(contractor, key, 16, t, grid);
        HOLD(r.number == 0);
        memcpy(out + count, r.page.pairs, r.page.count * sizeof out[0]), count += r.page.count;
        key = key_of(out, count), end = r.page.end || r.number;
    }
    return count;
}

/* the pairs of a list, so many at a time, each time from the last one's key on until no more follow: those of its pages; as many as are counted; and so to a size */
static void try_followed(void) {
    static RingPair paged[64 * 64];
    bool grid = below(2), own = below(3) == 0;
    uint32_t t = own || below(2) ? 0 : 1 + (uint32_t)below(3);
    make_narrow(&P, below(12)), make_narrow(&Q, below(12)), save();
    divide(count_of(&Q));
    contractor = own ? 2 : (uint32_t)below(3), owners_len = contractor == 2 ? 0 : count_of(&Q);
    size_t count = by_pages(grid, own, t, paged);
    for (int turn = 0; turn < 2; turn++) {
        uint64_t largest = turn && count ? paged[below(count)].size : ANY_SIZE;
        size_t due = turn ? listed_to(grid, own, largest, t, paged) : count, found = 0;
        RingKey key = {0, 0};
        for (bool more = true; more;) {
            size_t len = 1 + below(7), left = due - found < len ? due - found : len;
            for (size_t k = 0; k < len + 16; k++) many_room[k].q = wild(), many_room[k].p = wild(), many_room[k].size = chance();
            memcpy(many_due, many_room, (len + 16) * sizeof many_room[0]), memcpy(many_due + 8, paged + found, left * sizeof paged[0]);
            lend_words(words_for(count_of(&P))), leave(1, NULL);
            RingMany r = own ? ring_own_pairs(P.words, P.len, key, largest, grid, many_slots, len, bits(), words_len)
                             : ring_pairs(P.words, P.len, Q.words, Q.len, owners_len ? owners : NULL, owners_len, (RingWanted){key, largest, t, contractor, grid}, many_slots, len, bits(), words_len);
            saw(r.number), hold_saved(), hold_lent(), hold_slots(len);
            found += r.count, more = r.more && r.count;
            HOLD(r.number == 0 && r.count == left && r.more == (found < due));
            if (r.count) key.q = many_slots[r.count - 1].q, key.p = many_slots[r.count - 1].p;
        }
        lend_words(words_for(count_of(&P))), leave(1, NULL);
        RingCounted r = own ? ring_own_count(P.words, P.len, largest, grid, bits(), words_len)
                            : ring_count(P.words, P.len, Q.words, Q.len, owners_len ? owners : NULL, owners_len, (RingWhich){largest, t, contractor, grid}, bits(), words_len);
        saw(r.number), hold_saved(), hold_lent();
        HOLD(r.number == 0 && r.count == found && found == due);
    }
    contractor = 2;
}

static void try_contractors(void) {
    static RingPair pairs[64], due[64];
    static RingForm made[64], held[3 * 64];
    bool grid = below(2);
    uint32_t t = below(2) ? 0 : 1 + (uint32_t)below(3);
    size_t total[3], many = 0;
    RingDepot d = ring_depot_begin();
    make_narrow(&P, below(9)), make_narrow(&Q, below(9)), save();
    divide(count_of(&Q));
    for (contractor = 0; contractor < 3; contractor++) {
        RingBook b = book_for(pairs, 64, t, grid);
        size_t count = total[contractor] = list_of(grid, t, due);
        HOLD(b.closed && b.held == count && memcmp(pairs, due, count * sizeof due[0]) == 0);
        RingMade m = ring_forms(b, pairs, 64, made, 64);
        saw(m.number);
        HOLD(m.number == 0 && m.count == count);
        for (size_t k = 0; k < 2 * count; k++) {
            RingForm f = form_of(&b.source, due + k % count);
            HOLD(same_form(made + k % count, &f) && made[k % count].size == f.size && f.contractor == contractor);
            RingStored r = ring_depot_take(d, held, 3 * 64, made[k % count]);
            saw(r.number);
            HOLD(r.number == 0 && r.issued == (k < count));
            d = r.depot, many += k < count;
        }
        HOLD(d.held == many);
    }
    HOLD(total[0] + total[1] == total[2]);
    contractor = 2;
}

/* ---- the blind test: two runs that differ in the ids of the other's chambers alone, both sheets packed anew. What a contractor is handed, the page or the number, is the same, and so
   are the lent words. The nodes opened are not handed on */

static int32_t second_rooms[2][MOST], renamed[3 * MANY];
static Sheet second_p = {second_rooms[0], NULL, 0}, second_q = {second_rooms[1], NULL, 0};
static uint8_t moved[MANY];
static unsigned long blind_named, blind_moved;

static int32_t some_id(void) { return below(3) == 0 ? 1 + (int32_t)below(60) : below(2) ? 2000000000 - (int32_t)below(60) : 1 + (int32_t)below(2000000000); }

static size_t with_id(const int32_t *points, size_t n, uint32_t id) {
    size_t k = 0;
    while (k < n && (uint32_t)points[3 * k] != id) k++;
    return k;
}

/* the chambers with new ids for those that are not the contractor's, by their ids, each with its place and its owner */
static void rename_others(void) {
    size_t n = count_of(&Q);
    memcpy(renamed, Q.words, 3 * n * sizeof renamed[0]), memcpy(moved, owners, n);
    for (size_t k = 0; k < n; k++) {
        int32_t id = some_id();
        while (with_id(renamed, n, (uint32_t)id) < n) id = some_id();
        if (owners[k] != contractor) renamed[3 * k] = id;
    }
    for (size_t k = 1; k < n; k++)
        for (size_t h = k; h && renamed[3 * h] < renamed[3 * h - 3]; h--) {
            int32_t record[3];
            uint8_t owner = moved[h];
            memcpy(record, renamed + 3 * h, sizeof record), memcpy(renamed + 3 * h, renamed + 3 * h - 3, sizeof record), memcpy(renamed + 3 * h - 3, record, sizeof record);
            moved[h] = moved[h - 1], moved[h - 1] = owner;
        }
}

/* a sheet of the form and edition of another, of these points, in an order of its own */
static void pack_anew(Sheet *s, const Sheet *old, const int32_t *points) {
    size_t n = count_of(old);
    s->len = length_for(n);
    make_order(points, some_order, n);
    HOLD(ring_pack((uint32_t)old->words[old->len - 1], n, points, 3 * n, some_order, n, (uint32_t)old->words[old->len - 2], s->words, s->len) == 0);
}

/* the same for many pairs on so many slots, and for their number */
static void blind_many(RingKey key, uint32_t t, bool grid, size_t n, const uint64_t *words_before) {
    uint64_t largest = below(3) ? ANY_SIZE : below(2) ? below(40) : chance() >> below(64);
    RingWanted wanted = {key, largest, t, contractor, grid};
    RingWhich which = {largest, t, contractor, grid};
    size_t len = below(2) ? below(4) : below(40), bytes = (len + 16) * sizeof many_room[0];
    for (size_t k = 0; k < len + 16; k++) many_room[k].q = wild(), many_room[k].p = wild(), many_room[k].size = chance();
    memcpy(listed, many_room, bytes), memcpy(words, words_before, sizeof words);
    RingMany one = ring_pairs(at(&P), P.len, at(&Q), Q.len, n ? owners : NULL, n, wanted, len ? many_slots : NULL, len, bits(), words_len);
    memcpy(many_due, many_room, bytes), memcpy(many_room, listed, bytes), memcpy(words_due, words, sizeof words), memcpy(words, words_before, sizeof words);
    RingMany two = ring_pairs(at(&second_p), second_p.len, at(&second_q), second_q.len, n ? moved : NULL, n, wanted, len ? many_slots : NULL, len, bits(), words_len);
    saw(one.number), saw(two.number), hold_saved(), hold_lent(), hold_slots(len);
    HOLD(one.number == two.number && one.count == two.count && one.more == two.more);
    memcpy(words, words_before, sizeof words);
    RingCounted first = ring_count(at(&P), P.len, at(&Q), Q.len, n ? owners : NULL, n, which, bits(), words_len);
    memcpy(words_due, words, sizeof words), memcpy(words, words_before, sizeof words);
    RingCounted second = ring_count(at(&second_p), second_p.len, at(&second_q), second_q.len, n ? moved : NULL, n, which, bits(), words_len);
    saw(first.number), saw(second.number), hold_saved(), hold_lent();
    HOLD(first.number == second.number && first.count == second.count && (first.number || one.number || one.count <= first.count));
}

/* the same for the busiest and the most urgent, where scores go by places */
static void blind_ranked(bool grid, size_t n, const uint64_t *words_before) {
    RingAsked asked = {below(8) ? 1 + below(16) : below(18), below(3) ? ANY_SIZE : below(2) ? below(40) : chance() >> below(64), contractor, grid};
    memcpy(words, words_before, sizeof words);
    RingBusy one = ring_busiest(at(&P), P.len, at(&Q), Q.len, n ? owners : NULL, n, asked, bits(), words_len);
    memcpy(words_due, words, sizeof words), memcpy(words, words_before, sizeof words);
    RingBusy two = ring_busiest(at(&second_p), second_p.len, at(&second_q), second_q.len, n ? moved : NULL, n, asked, bits(), words_len);
    saw(one.number), saw(two.number), hold_saved(), hold_lent();
    HOLD(one.number == two.number && one.count == two.count && same_ranks(one.rows, two.rows));
    static uint32_t score[3][MANY + 1];
    const int32_t *points[3] = {P.words, Q.words, second_q.words};
    for (size_t s = 0; s < 3; s++)
        for (size_t k = 0; k < (s ? n : count_of(&P)); k++) score[s][k] = (7 * (uint32_t)points[s][3 * k + 1] + (uint32_t)points[s][3 * k + 2]) % 5;
    memcpy(words, words_before, sizeof words);
    RingUrgent first = ring_urgent(at(&P), P.len, at(&Q), Q.len, n ? owners : NULL, n, score[0], count_of(&P), score[1], n, asked, bits(), words_len);
    memcpy(words_due, words, sizeof words), memcpy(words, words_before, sizeof words);
    RingUrgent second = ring_urgent(at(&second_p), second_p.len, at(&second_q), second_q.len, n ? moved : NULL, n, score[0], count_of(&P), score[2], n, asked, bits(), words_len);
    saw(first.number), saw(second.number), hold_saved(), hold_lent();
    HOLD(first.number == second.number && first.number == one.number && first.count == second.count && same_visits(first.rows, second.rows));
}

static void try_blind(void) {
    static uint64_t words_before[16 * 938 + 40 + 2 * PAST];
    size_t j, i, size = below(12) ? 1 + below(16) : below(2) ? 0 : 17;
    bool grid = below(2);
    uint32_t number = two_sheets_of(grid, 14, &j, &i), t = some_threshold();
    RingKey key = {below(4) ? 0 : wild(), below(4) ? 0 : wild()};
    if (number && number != 29) return;
    size_t n = count_of(&Q);
    contractor = (uint32_t)below(2);
    divide(n), owners_len = n;
    if (n && below(20) == 0) owners[below(n)] = 2;
    rename_others(), pack_anew(&second_q, &Q, renamed), pack_anew(&second_p, &P, P.words);
    if (n && below(2)) key.q = (uint32_t)(below(3) ? Q.words : renamed)[3 * below(n)] + (uint32_t)(below(4) == 0);
    if (count_of(&P) && below(2)) key.p = (uint32_t)P.words[3 * below(count_of(&P))];
    RingRequest request = {key, size, t, contractor, grid};
    lend(0, 1);
    memcpy(words_before, words, sizeof words);
    RingPaged one = ring_page(at(&P), P.len, at(&Q), Q.len, n ? owners : NULL, n, request, bits(), words_len);
    memcpy(words_due, words, sizeof words), memcpy(words, words_before, sizeof words);
    RingPaged two = ring_page(at(&second_p), second_p.len, at(&second_q), second_q.len, n ? moved : NULL, n, request, bits(), words_len);
    saw(one.number), saw(two.number), hold_saved(), hold_lent();
    HOLD(one.number == two.number && same_page(&one.page, &two.page));
    blind_many(key, t, grid, n, words_before);
    blind_ranked(grid, n, words_before);
    size_t k = with_id(Q.words, n, key.q);
    blind_named += !one.number && k < n && !is_mine(k), blind_moved += memcmp(owners, moved, n) != 0;
    contractor = 2;
}

static int32_t some_coordinate(void) { return below(4) ? between(-1000000000, 1000000000) : below(2) ? 1000000000 * between(-1, 1) : (int32_t)wild(); }

static void try_marker(void) {
    int32_t ax = some_coordinate(), ay = some_coordinate(), bx = below(4) || ax == INT32_MIN ? some_coordinate() : -ax, by = some_coordinate();
    bool ok = in(-1000000000, ax, 1000000000) && in(-1000000000, ay, 1000000000) && in(-1000000000, bx, 1000000000) && in(-1000000000, by, 1000000000);
    double zero = 0.0;
    RingMarker r = ring_marker(ax, ay, bx, by);
    saw(r.number);
    HOLD(r.number == (ok ? 0u : 5u));
    HOLD(r.x + r.x == (ok ? (double)(ax + bx) : 0) && r.y + r.y == (ok ? (double)(ay + by) : 0));
    if (!ok || ax + bx == 0) HOLD(memcmp(&r.x, &zero, sizeof zero) == 0);
    if (!ok || ay + by == 0) HOLD(memcmp(&r.y, &zero, sizeof zero) == 0);
}

/* ---- a leaf's run */

/* the chambers of a leaf, and what one walk of P keeps for each */
static struct {
    size_t chambers, at[16];
    Kept kept[16];
    uint64_t opened;
} leaf;

static const int32_t *chamber(size_t k) { return Q.words + 3 * leaf.at[k]; }

/* for chamber k, a pump house kept so far or another chamber of the leaf skips the box, or where there is none, the spot */
static bool ruled_out(size_t k, const int32_t *box, const int32_t *spot) {
    for (size_t h = 0; h < leaf.chambers; h++)
        if (h != k && (box ? skips(chamber(k), box, chamber(h)) : blocks(chamber(k), spot, chamber(h)))) return true;
    return skipped(&leaf.kept[k], chamber(k), box, spot);
}

static void walk_node(size_t v) {
    const int32_t *node = node_of(&P, v);
    size_t out = 0;
    for (size_t k = 0; k < leaf.chambers; k++) out += ruled_out(k, node + 3, NULL);
    if (out == leaf.chambers) return;
    leaf.opened++;
    for (int32_t c = node[1]; c < node[1] + node[2]; c++)
        if (node[0]) walk_node((size_t)c);
        else
            for (size_t k = 0, i = stands(&P, c); k < leaf.chambers; k++)
                if (!ruled_out(k, NULL, P.words + 3 * i)) keep(&leaf.kept[k], i);
}

/* leaf v of Q: its pairs by place, then p id, and the nodes opened; how many pairs */
static size_t run_of(size_t v, RingPair *pairs) {
    const int32_t *node = node_of(&Q, v);
    size_t count = 0;
    leaf.chambers = 0, leaf.opened = 0;
    for (int32_t c = node[1]; c < node[1] + node[2]; c++) keep_none(&leaf.kept[leaf.chambers]), leaf.at[leaf.chambers++] = stands(&Q, c);
    if (nodes_of(&P)) walk_node(nodes_of(&P) - 1);
    for (size_t k = 0; k < leaf.chambers; k++)
        for (size_t i = 0; i < count_of(&P); i++) {
            if (leaf.kept[k].is[i]) leaf.opened += walked(false, chamber(k), P.words + 3 * i, leaf.at[k], i, false).opened;
            if (is_pair(leaf.at[k], i)) pairs[count++] = pair_of(leaf.at[k], i);
        }
    return count;
}

static void try_leaf(void) {
    static RingPair pairs[16 * MANY], lent[304], lent_was[304];
    size_t v, i, count = 0;
    uint32_t number = two_sheets(60, &v, &i);
    if (!number && below(8)) v = below((count_of(&Q) + 15) / 16 + 1);
    if (!number && (v >= nodes_of(&Q) || node_of(&Q, v)[0])) number = 19;
    number = lend(number, 16);
    if (!number) count = run_of(v, pairs);
    size_t len = below(2) || count > 300 ? below(301) : below(2) ? count : below(count + 1);
    if (!number && count > len) number = 16;
    for (size_t k = 0; k < 304; k++) lent[k].q = wild(), lent[k].p = wild(), lent[k].size = wild_size();
    memcpy(lent_was, lent, sizeof lent);
    if (!number) leave(16, NULL), memcpy(lent_was + 2, pairs, count * sizeof pairs[0]);
    RingRun r = ring_leaf_run(at(&P), P.len, at(&Q), Q.len, v, len ? lent + 2 : NULL, len, bits(), words_len);
    saw(r.number), hold_saved(), hold_lent();
    HOLD(r.number == number && r.count == (number ? 0 : count) && r.opened == (number ? 0 : leaf.opened));
    HOLD(memcmp(lent, lent_was, sizeof lent) == 0);
}

/* ---- nearest first */

static uint64_t to_spot(const int32_t *q, const int32_t *x) { return square((int64_t)q[1] - x[1]) + square((int64_t)q[2] - x[2]); }

static uint64_t to_box(const int32_t *q, const int32_t *box) { return square(beside(box[0], q[1], box[2])) + square(beside(box[1], q[2], box[3])); }

/* what waits: node v by its number, the point at position i by m + i; how far it is from q */
static uint64_t how_far(const int32_t *q, size_t e) {
    size_t m = nodes_of(&P);
    return e < m ? to_box(q, node_of(&P, e) + 3) : to_spot(q, P.words + 3 * (e - m));
}

/* what the walk that goes nearest first keeps for q; the nodes opened */
static uint64_t near_walk(const int32_t *q, Kept *kept) {
    static size_t waits[LARGEST + NODES];
    size_t count = 0, m = nodes_of(&P);
    uint64_t opened = 0;
    keep_none(kept);
    if (m) waits[count++] = m - 1;
    while (count) {
        size_t best = 0;
        for (size_t k = 1; k < count; k++) {
            uint64_t one = how_far(q, waits[k]), other = how_far(q, waits[best]);
            if (one < other || (one == other && waits[k] < waits[best])) best = k;
        }
        size_t e = waits[best];
        waits[best] = waits[--count];
        if (e >= m) {
            if (!skipped(kept, q, NULL, P.words + 3 * (e - m))) keep(kept, e - m);
            continue;
        }
        const int32_t *node = node_of(&P, e);
        if (skipped(kept, q, node + 3, NULL)) continue;
        opened++;
        for (int32_t c = node[1]; c < node[1] + node[2]; c++) waits[count++] = node[0] ? (size_t)c : m + stands(&P, c);
    }
    return opened;
}

/* the pump houses by distance, then position: each the first of all that come after the last one */
static size_t nearest_of(const int32_t *q, size_t size, RingNear *near) {
    size_t count = 0, last = 0;
    for (bool more = true; more && count < size; count += more) {
        size_t next = 0;
        more = false;
        for (size_t i = 0; i < count_of(&P); i++) {
            uint64_t d = to_spot(q, P.words + 3 * i), to_last = to_spot(q, P.words + 3 * last), to_next = to_spot(q, P.words + 3 * next);
            if (count && (d < to_last || (d == to_last && i <= last))) continue;
            if (more && (d > to_next || (d == to_next && i > next))) continue;
            next = i, more = true;
        }
        if (more) near[count].id = (uint32_t)P.words[3 * next], near[count].distance = to_spot(q, P.words + 3 * next), last = next;
    }
    return count;
}

static uint64_t lent[1604], lent_was[1604];

/* lent numbers between guards: how many; the number of refusal from the sheets' on, and the position of the chamber. A filter has no size, and is lent words */
static uint32_t near_asked(uint32_t *id, size_t *j, bool filter, size_t size, size_t *len) {
    size_t i, need;
    uint32_t number = two_sheets(60, j, &i);
    *id = wild();
    if (!number && count_of(&Q) && below(8)) *id = (uint32_t)Q.words[3 * below(count_of(&Q))];
    for (*j = 0; !number && *j < count_of(&Q) && (uint32_t)Q.words[3 * *j] != *id;) ++*j;
    need = number ? 10 : count_of(&P) + nodes_of(&P);
    *len = below(3) ? need : below(2) && need ? need - 1 : need + below(3);
    if (!number && *j >= count_of(&Q)) number = 20;
    if (filter) number = lend(number, 1);
    else if (!number && (size < 1 || size > 16)) number = 10;
    if (!number && *len < need) number = 25;
    for (size_t k = 0; k < 1604; k++) lent[k] = chance();
    memcpy(lent_was, lent, sizeof lent);
    if (!number) memset(lent_was + 2, 0, need * sizeof lent[0]);
    return number;
}

static void try_nearest(void) {
    size_t j, len, count = 0, size = below(6) ? 1 + below(16) : wild_size();
    uint32_t id, number = near_asked(&id, &j, false, size, &len);
    RingNear expected[16];
    memset(expected, 0, sizeof expected);
    if (!number) count = nearest_of(Q.words + 3 * j, size, expected);
    RingFound r = ring_nearest(at(&P), P.len, at(&Q), Q.len, id, size, len ? lent + 2 : NULL, len);
    saw(r.number), hold_saved();
    HOLD(r.number == number && r.count == count);
    for (size_t k = 0; k < 16; k++) HOLD(r.points[k].id == expected[k].id && r.points[k].distance == expected[k].distance);
    HOLD(memcmp(lent, lent_was, sizeof lent) == 0);
}

static void try_near_filter(void) {
    static Kept kept;
    size_t j, len;
    uint64_t opened = 0;
    uint32_t id, number = near_asked(&id, &j, true, 0, &len);
    if (!number) opened = near_walk(Q.words + 3 * j, &kept), leave(1, &kept);
    RingFiltered r = ring_near_filter(at(&P), P.len, at(&Q), Q.len, id, len ? lent + 2 : NULL, len, bits(), words_len);
    saw(r.number), hold_saved(), hold_lent();
    HOLD(r.number == number && r.count == (number ? 0 : kept.count) && r.opened == opened);
    for (size_t i = 0; !number && i < count_of(&P); i++) HOLD(kept.is[i] || !is_pair(j, i));
    HOLD(memcmp(lent, lent_was, sizeof lent) == 0);
}

/* ---- two sheets of 60,000 points */

#define PROVINCE (5 * LARGEST + 7 * NODES + 6)

static int32_t wide[4][PROVINCE + 2 * PAST], wide_points[3 * LARGEST + 3], wide_order[LARGEST + 1];

/* the whole sheet in P: packed, opened, and refused with one point more and under the limits of form 1 */
static void province(uint64_t which, uint32_t edition) {
    province_points(wide_points, LARGEST + 1, which), province_tile(wide_points, wide_order, LARGEST);
    P.len = PROVINCE;
    for (size_t k = 0; k < PROVINCE + 2 * PAST; k++) (P.words - PAST)[k] = (int32_t)chance();
    save();
    static const struct {
        uint32_t form, number;
        size_t n, order_len, out_len;
    } refused[] = {
        {2, 3, LARGEST + 1, LARGEST + 1, PROVINCE}, {1, 3, LARGEST, LARGEST, PROVINCE},      {3, 2, LARGEST, LARGEST, PROVINCE},
        {0, 2, LARGEST, LARGEST, PROVINCE},         {3, 18, LARGEST, LARGEST - 1, PROVINCE}, {2, 17, LARGEST, LARGEST, PROVINCE - 1},
    };
    for (size_t k = 0; k < sizeof refused / sizeof refused[0]; k++) {
        uint32_t r = ring_pack(refused[k].form, refused[k].n, wide_points, 3 * refused[k].n, wide_order, refused[k].order_len, edition, P.words, refused[k].out_len);
        saw(r), hold_saved();
        HOLD(r == refused[k].number);
    }
    uint32_t r = ring_pack(2, LARGEST, wide_points, 3 * LARGEST, wide_order, LARGEST, edition, P.words, P.len);
    saw(r);
    HOLD(r == 0 && memcmp(P.words - PAST, P.was - PAST, PAST * 4) == 0 && memcmp(P.words + PROVINCE, P.was + PROVINCE, PAST * 4) == 0);
    hold_packed(2, LARGEST, wide_points, wide_order, edition);
    save();
    RingHead h = ring_open(P.words, P.len);
    saw(h.number), hold_saved();
    HOLD(h.number == 0 && h.len == PROVINCE && h.n == LARGEST && h.m == NODES && h.edition == edition && h.form == 2);
}

/* a page of P and Q, or of P's self join, with so many words lent; along the streets it is refused */
static void province_page(RingKey key, size_t size, bool own, size_t len) {
    for (int grid = 0; grid < 2; grid++) {
        uint32_t number = grid ? 29 : len < words_for(count_of(&P)) ? 24 : 0;
        RingPage expected;
        memset(&expected, 0, sizeof expected);
        lend_words(len);
        if (!number) leave(1, NULL), expected = own ? own_of(false, key, size) : page_of(false, key, size, 0);
        RingPaged r = own ? ring_own_page(P.words, P.len, key, size, grid, bits(), len)
                          : ring_page(P.words, P.len, Q.words, Q.len, NULL, 0, (RingRequest){key, size, 0, 2, grid}, bits(), len);
        saw(r.number), hold_saved(), hold_lent();
        HOLD(r.number == number && r.opened == (number ? 0 : page_opened(false, key, size, 0, own)));
        HOLD(same_page(&r.page, &expected));
        HOLD(number || r.page.count);
    }
}

/* the run of a leaf, with too few words, too few slots, and enough of both */
static void province_run(size_t v) {
    static RingPair pairs[16 * LARGEST], slots[1024 + 2], slots_was[1024 + 2];
    size_t need = 16 * words_for(count_of(&P)), count = run_of(v, pairs);
    HOLD(1 <= count && count <= 1024);
    for (int way = 0; way < 3 && in(1, (int64_t)count, 1024); way++) {
        uint32_t number = way == 0 ? 24 : way == 1 ? 16 : 0;
        size_t len = way == 2 ? count : count - 1;
        for (size_t k = 0; k < 1024 + 2; k++) slots[k].q = wild(), slots[k].p = wild(), slots[k].size = chance();
        memcpy(slots_was, slots, sizeof slots);
        lend_words(way == 0 ? need - 1 : need + 40);
        if (!number) leave(16, NULL), memcpy(slots_was + 1, pairs, count * sizeof pairs[0]);
        RingRun r = ring_leaf_run(P.words, P.len, Q.words, Q.len, v, slots + 1, len, bits(), words_len);
        saw(r.number), hold_saved(), hold_lent();
        HOLD(r.number == number && r.count == (number ? 0 : count) && r.opened == (number ? 0 : leaf.opened));
        HOLD(memcmp(slots, slots_was, sizeof slots) == 0);
    }
}

/* the position of an id */
static size_t place_of(const Sheet *s, uint32_t id) {
    size_t low = 0, high = count_of(s);
    while (low + 1 < high)
        if ((uint32_t)s->words[3 * ((low + high) / 2)] <= id) low = (low + high) / 2;
        else high = (low + high) / 2;
    return low;
}

/* of the whole list of the two: the sixteen busiest of either sheet, and the sixteen most urgent, each the first of all that come after the last one */
static void province_ranked(const RingPair *all, size_t len) {
    static uint32_t many[2][LARGEST], score[2][LARGEST];
    static uint64_t sums[16 * LARGEST];
    const Sheet *const both[2] = {&Q, &P};
    const size_t need = words_for(LARGEST);
    memset(many, 0, sizeof many), memset(sums, 0, sizeof sums);
    for (size_t e = 0; e < 2; e++) {
        for (size_t j = 0; j < LARGEST; j++) score[e][j] = below(4) ? (uint32_t)below(1000) : 1000000000 - (uint32_t)below(3);
        for (size_t k = 0; k < len; k++) {
            size_t j = place_of(both[e], e ? all[k].p : all[k].q);
            many[e][j]++, sums[k] += score[e][j];
        }
    }
    for (size_t e = 0; e < 2; e++) {
        RingRank rows[16];
        for (size_t h = 0, last = 0; h < 16; h++) {
            size_t best = LARGEST;
            for (size_t j = 0; j < LARGEST; j++) {
                bool follows = h == 0 || many[e][j] < many[e][last] || (many[e][j] == many[e][last] && j > last);
                if (follows && (best == LARGEST || many[e][j] > many[e][best])) best = j;
            }
            rows[h].id = (uint32_t)both[e]->words[3 * best], rows[h].pairs = many[e][best], last = best;
        }
        for (size_t fewer = 0; fewer < 2; fewer++) {
            lend_words(need - fewer);
            if (!fewer) leave(1, NULL);
            RingBusy r = e ? ring_busiest_pumps(P.words, P.len, Q.words, Q.len, 16, ANY_SIZE, false, bits(), words_len)
                           : ring_busiest(P.words, P.len, Q.words, Q.len, NULL, 0, (RingAsked){16, ANY_SIZE, 2, false}, bits(), words_len);
            saw(r.number), hold_saved(), hold_lent();
            HOLD(fewer ? r.number == 24 && r.count == 0 : r.number == 0 && r.count == 16 && same_ranks(r.rows, rows));
        }
    }
    RingVisit rows[16];
    for (size_t h = 0, last = 0; h < 16; h++) {
        size_t best = len;
        for (size_t k = 0; k < len; k++) {
            bool follows = h == 0 || sums[k] < sums[last] || (sums[k] == sums[last] && k > last);
            if (follows && (best == len || sums[k] > sums[best])) best = k;
        }
        rows[h].pair = all[best], rows[h].score = sums[best], last = best;
    }
    for (uint32_t no = 40; no <= 42; no++) {
        /* right, and with the last score of either too high */
        lend_words(need);
        if (no == 40) leave(1, NULL);
        else score[no == 41][LARGEST - 1] = 1000000001, score[no != 41][LARGEST - 1] = 1000000000;
        RingUrgent r = ring_urgent(P.words, P.len, Q.words, Q.len, NULL, 0, score[1], LARGEST, score[0], LARGEST, (RingAsked){16, ANY_SIZE, 2, false}, bits(), need);
        saw(r.number), hold_saved(), hold_lent();
        HOLD(no == 40 ? r.number == 0 && r.count == 16 && same_visits(r.rows, rows) : r.number == no && r.count == 0);
    }
}

/* the whole list, or that of P's self join, on exactly as many slots as are counted: it ascends, each pair of it is clear by a plain ring walk, and some chambers have all
   theirs; the first of it again on fewer slots, and from a key amid it */
static void province_pairs(bool own) {
    static RingPair all[16 * LARGEST + 2];
    const size_t need = words_for(count_of(&P));
    const Sheet *s = own ? &P : &Q;
    const RingKey start = {0, 0};
    lend_words(need + 1), leave(1, NULL);
    RingCounted c = own ? ring_own_count(P.words, P.len, ANY_SIZE, false, bits(), words_len)
                        : ring_count(P.words, P.len, Q.words, Q.len, NULL, 0, (RingWhich){ANY_SIZE, 0, 2, false}, bits(), words_len);
    saw(c.number), hold_saved(), hold_lent();
    HOLD(c.number == 0 && in(LARGEST, (int64_t)c.count, 16 * LARGEST));
    if (!in(LARGEST, (int64_t)c.count, 16 * LARGEST)) return;
    size_t len = (size_t)c.count, mid = len / 2, at_chamber = 0;
    memset(all, 0xA5, sizeof all);
    lend_words(need), leave(1, NULL);
    RingMany r = own ? ring_own_pairs(P.words, P.len, start, ANY_SIZE, false, all + 1, len, bits(), need)
                     : ring_pairs(P.words, P.len, Q.words, Q.len, NULL, 0, (RingWanted){start, ANY_SIZE, 0, 2, false}, all + 1, len, bits(), need);
    saw(r.number), hold_saved(), hold_lent();
    HOLD(r.number == 0 && r.count == len && !r.more && all[0].q == 0xA5A5A5A5 && all[len + 1].q == 0xA5A5A5A5);
    for (size_t k = 1, j = 0; k <= len; k++) {
        while (j < count_of(s) && (uint32_t)s->words[3 * j] != all[k].q) j++;
        size_t low = 0, high = count_of(&P);
        while (low + 1 < high)
            if ((uint32_t)P.words[3 * ((low + high) / 2)] <= all[k].p) low = (low + high) / 2;
            else high = (low + high) / 2;
        HOLD(k == 1 || after((RingKey){all[k - 1].q, all[k - 1].p}, all[k]));
        HOLD(j < count_of(s) && (uint32_t)P.words[3 * low] == all[k].p);
        if (j == count_of(s)) return;
        RingPair v = size_of(s->words + 3 * j, P.words + 3 * low);
        HOLD(v.size == all[k].size && walked(false, s->words + 3 * j, P.words + 3 * low, j, low, own).kind == RING_CLEAR);
        at_chamber = k == mid ? j : at_chamber;
    }
    for (size_t j = at_chamber; j < at_chamber + 3 && j < count_of(s); j++) {
        size_t many = 0, stored = 0;
        for (size_t i = own ? j + 1 : 0; i < count_of(&P); i++) many += is_listed(false, own, j, i);
        for (size_t k = 1; k <= len; k++) stored += all[k].q == (uint32_t)s->words[3 * j];
        HOLD(many == stored);
    }
    if (!own) province_ranked(all + 1, len);
    RingKey key = {all[mid].q, all[mid].p};
    memset(many_room, 0xA5, sizeof many_room), memcpy(many_due, many_room, sizeof many_room), memcpy(many_due + 8, all + mid + 1, 1000 * sizeof all[0]);
    lend_words(need), leave(1, NULL);
    r = own ? ring_own_pairs(P.words, P.len, key, ANY_SIZE, false, many_slots, 1000, bits(), need)
            : ring_pairs(P.words, P.len, Q.words, Q.len, NULL, 0, (RingWanted){key, ANY_SIZE, 0, 2, false}, many_slots, 1000, bits(), need);
    saw(r.number), hold_saved(), hold_lent(), hold_slots(1000);
    HOLD(r.number == 0 && r.count == 1000 && r.more);
    /* to a size: exactly those of the list that are no larger */
    uint64_t largest = all[mid].size, few = 0;
    for (size_t k = 1; k <= len; k++) few += all[k].size <= largest;
    lend_words(need), leave(1, NULL);
    c = own ? ring_own_count(P.words, P.len, largest, false, bits(), need) : ring_count(P.words, P.len, Q.words, Q.len, NULL, 0, (RingWhich){largest, 0, 2, false}, bits(), need);
    saw(c.number), hold_saved(), hold_lent();
    HOLD(c.number == 0 && c.count == few);
    /* along the streets both are refused, and with one word fewer */
    lend_words(need - 1);
    c = own ? ring_own_count(P.words, P.len, ANY_SIZE, true, bits(), need - 1) : ring_count(P.words, P.len, Q.words, Q.len, NULL, 0, (RingWhich){ANY_SIZE, 0, 2, true}, bits(), need - 1);
    r = own ? ring_own_pairs(P.words, P.len, start, ANY_SIZE, false, many_slots, 1000, bits(), need - 1)
            : ring_pairs(P.words, P.len, Q.words, Q.len, NULL, 0, (RingWanted){start, ANY_SIZE, 0, 2, false}, many_slots, 1000, bits(), need - 1);
    saw(c.number), saw(r.number), hold_saved(), hold_lent(), hold_slots(1000);
    HOLD(c.number == 29 && c.count == 0 && r.number == 24 && r.count == 0 && !r.more);
}

/* numbers lent for what waits, with one on either side; and what they are to hold after the call */
static uint64_t numbers[LARGEST + NODES + 2], numbers_due[LARGEST + NODES + 2];

static void lend_numbers(void) {
    for (size_t k = 0; k < LARGEST + NODES + 2; k++) numbers[k] = chance(), numbers_due[k] = k && k <= LARGEST + NODES ? 0 : numbers[k];
}

/* both filters for the chamber at position j, the pump houses nearest to it, and its partners */
static void province_chamber(size_t j) {
    static Kept kept;
    const int32_t *q = Q.words + 3 * j;
    uint32_t id = (uint32_t)q[0];
    size_t need = words_for(LARGEST), many = partners_of(j);
    uint64_t opened = filtered(q, SIZE_MAX, &kept);
    lend_words(need), leave(1, &kept);
    RingFiltered r = ring_filter_walk(P.words, P.len, Q.words, Q.len, j, bits(), need);
    saw(r.number), hold_saved(), hold_lent();
    HOLD(r.number == 0 && r.count == kept.count && r.opened == opened);

    opened = near_walk(q, &kept);
    lend_words(need), leave(1, &kept), lend_numbers();
    r = ring_near_filter(P.words, P.len, Q.words, Q.len, id, numbers + 1, LARGEST + NODES, bits(), need);
    saw(r.number), hold_saved(), hold_lent();
    HOLD(r.number == 0 && r.count == kept.count && r.opened == opened && memcmp(numbers, numbers_due, sizeof numbers) == 0);

    RingNear expected[16];
    size_t count = nearest_of(q, 16, expected);
    lend_numbers();
    RingFound f = ring_nearest(P.words, P.len, Q.words, Q.len, id, 16, numbers + 1, LARGEST + NODES);
    saw(f.number), hold_saved();
    HOLD(f.number == 0 && f.count == count && memcmp(numbers, numbers_due, sizeof numbers) == 0);
    for (size_t k = 0; k < count; k++) HOLD(f.points[k].id == expected[k].id && f.points[k].distance == expected[k].distance);

    for (uint32_t t = 60000; t <= 60001; t++) {
        bool ok = t <= 60000;
        lend_words(need);
        if (ok) leave(1, NULL);
        RingPartners n = ring_partners(P.words, P.len, Q.words, Q.len, id, t, bits(), need);
        saw(n.number), hold_saved(), hold_lent();
        HOLD(n.number == (ok ? 0 : 21) && n.count == (ok ? many : 0) && !n.enough);
    }
}

/* the leaf of the chamber that is nearest to a pump house: the two are a pair */
static size_t nearest_leaf(void) {
    size_t nearest = 0;
    uint64_t least = ~(uint64_t)0;
    for (size_t j = 0; j < count_of(&Q); j++)
        for (size_t i = 0; i < count_of(&P); i++) {
            uint64_t d = to_spot(Q.words + 3 * j, P.words + 3 * i);
            if (d < least) least = d, nearest = j;
        }
    return (size_t)Q.words[4 * count_of(&Q) + nearest] / 16;
}

static RingKey key_at(const Sheet *s, size_t j, uint32_t p) {
    RingKey key = {(uint32_t)s->words[3 * j], p};
    return key;
}

static void try_provinces(void) {
    Sheet wide_p = {wide[0] + PAST, wide[1] + PAST, 0}, wide_q = {wide[2] + PAST, wide[3] + PAST, 0};
    const RingKey start = {0, 0};
    const size_t need = words_for(LARGEST);
    seed = 88172645463325252ull;
    Q.len = 0;
    P = wide_q, province(2, 9), wide_q = P;
    P = wide_p, province(1, 7), wide_p = P;
    Q = wide_q, save();
    province_page(start, 16, false, need);
    province_page(key_at(&Q, LARGEST / 2, 1000000000), 16, false, need + 7);
    province_page(start, 16, false, need - 1);
    province_page(key_at(&P, LARGEST / 3, 0), 16, true, need);
    province_run(LARGEST / 16 / 2);
    province_chamber(LARGEST / 5);
    province_pairs(false);
    province_pairs(true);

    /* a sheet of form 2 and one of form 1, either way */
    Q = (Sheet){rooms[2] + PAST, rooms[3] + PAST, 0};
    make_form(&Q, 12, 1), save();
    province_page(start, 16, false, need);
    P = (Sheet){rooms[0] + PAST, rooms[1] + PAST, 0}, Q = wide_q;
    make_form(&P, 70, 1), save();
    province_run(nearest_leaf());
}

/* one chamber and two pump houses, each of which blocks the other's pair along the streets: a list of no pair, and a book of it that closes at once */
static void try_barren(void) {
    static const int32_t houses[6] = {1, 4, 4, 2, 5, 3}, place[2] = {0, 1}, chamber_at[3] = {5, 0, 0};
    const RingKey start = {0, 0};
    P.len = length_for(2), Q.len = length_for(1);
    HOLD(ring_pack(1, 2, houses, 6, place, 2, 7, P.words, P.len) == 0 && ring_pack(1, 1, chamber_at, 3, place, 1, 9, Q.words, Q.len) == 0);
    save();
    for (int grid = 0; grid < 2; grid++) {
        lend_words(3), leave(1, NULL);
        RingPaged r = ring_page(P.words, P.len, Q.words, Q.len, NULL, 0, (RingRequest){start, 16, 0, 2, grid}, bits(), 3);
        RingBegun b = ring_book_begin((RingSource){7, 9, {0, 2, false, grid}});
        RingTaken other = ring_book_take((RingBook){0, false, {7, 9, {0, 2, false, !grid}}}, room, 1, r.page), t = ring_book_take(b.book, room, 1, r.page);
        saw(r.number), saw(b.number), saw(other.number), saw(t.number), hold_saved(), hold_lent();
        HOLD(r.number == 0 && r.page.end && r.page.count == (grid ? 0 : 1) && r.page.source.terms.grid == grid);
        HOLD(b.number == 0 && other.number == 30 && t.number == 0 && t.book.closed && t.book.held == r.page.count && t.book.source.terms.grid == grid);
    }
}

int main(void) {
    static void (*const tries[])(void) = {try_open, try_pack, try_point, try_filter, try_pair, try_page, try_own, try_partners, try_shortest, try_begin, try_next, try_take, try_forms, try_depot_begin, try_depot_take, try_marker, try_leaf, try_nearest, try_near_filter, try_length, try_position, try_pairs, try_own_pairs, try_count, try_own_count, try_busiest, try_busiest_pumps, try_urgent};
    size_t exports = sizeof tries / sizeof tries[0];
    for (size_t n = 0; n <= LARGEST; n++) HOLD(RING_WORDS(n) == words_for(n));
    for (size_t k = 0; k < 4; k++)
        for (size_t i = 0; i < MOST + 2 * PAST; i++) rooms[k][i] = (int32_t)chance();
    for (size_t k = 0; k < exports; k++)
        for (int i = 0; i < TIMES; i++) tries[k]();
    try_barren();
    for (int i = 0; i < TIMES / 10; i++) try_deliveries(), try_contractors(), try_followed();
    for (int i = 0; i < TIMES; i++) try_blind();
    HOLD(blind_named && blind_moved);
    HOLD(many_exact && many_cut && many_none && many_left && many_edge);
    HOLD(busy_tied && busy_none && busy_left && busy_few && urgent_tied && urgent_cut && urgent_few);
    try_provinces();
    unsigned long unseen = 0, unnamed = 0;
    for (int k = 0; k <= LAST; k++) unseen += A_NUMBER(k) && seen[k] == 0;
    for (int k = 0; k < 8; k++) unnamed += named[k / 4][k % 4] == 0;
    printf("c calls: %zu exports, %lu calls with %lu served, %lu of the numbers never seen, %lu sides never named, %lu answers wrong", exports, calls, seen[0], unseen, unnamed, wrong);
    if (wrong) printf(" (the first at line %lu)", first_wrong);
    printf("\n");
    return wrong || unseen || unnamed;
}
