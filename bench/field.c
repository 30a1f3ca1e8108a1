/* The whole list by the proved call for many pairs, against the list by seeds in plain C, brute force, pages and, where it is linked in, CGAL; on the same sheets in one
   process. A line for each measure: points, packing order, n, how many pairs, then a word `side=nanoseconds` for each side (the best of several runs), the bytes that
   the proved call was lent, and whether all answers agree. Exits with 1 where some differ.

     field [SIZE [KIND [ORDER]]]        what is left out, or 0 or -, is each of them
     field worst                        the worst cases alone
     field once SIDE SIZE KIND ORDER    that side alone, once, or none: for a count of instructions */
#include "../include/ring.h"
#include "seeded.h"
#include "twins.h"

typedef struct { long sec, nsec; } moment;
int clock_gettime(int clock, moment *at);
int printf(const char *format, ...);
void *malloc(unsigned long size);
int atoi(const char *text);
int strcmp(const char *a, const char *b);
int fflush(void *file);

#define MOST 60000
#define ROOM (5 * MOST + 7 * 4100 + 6)
#define SLOTS 1100000
#define SMALL 1000
#define ALL 8000000000000000000ull

#ifdef WITH_CGAL
/* The list of the points, by q, then p, each given by its number; how long the triangulation and the tests of its edges took. */
long cgal_list(const int32_t *p, size_t np, const int32_t *q, size_t nq, uint32_t *pairs, size_t room, size_t *count);
#endif

static uint64_t state;
static int64_t draw(int64_t below)
{
    state ^= state << 13; state ^= state >> 7; state ^= state << 17;
    return (int64_t)((state >> 11) % (uint64_t)below);
}

/* the processor's time for this process: what else the machine does is not counted */
static long now(void) { moment m; clock_gettime(2, &m); return m.sec * 1000000000l + m.nsec; }

/* ---- points */

static int64_t root(int64_t v) { int64_t r = 0; while ((r + 1) * (r + 1) <= v) r++; return r; }

static void put(int32_t *a, int64_t x, int64_t y) { a[1] = (int32_t)x, a[2] = (int32_t)y; }

static void uniform(int32_t *a, size_t n, int64_t edge, int side)
{
    (void)side;
    for (size_t i = 0; i < n; i++) { int64_t x = draw(2 * edge + 1) - edge; put(a + 3 * i, x, draw(2 * edge + 1) - edge); }
}

/* towns of 25 */
static void clustered(int32_t *a, size_t n, int64_t edge, int side)
{
    (void)side;
    int64_t x = 0, y = 0, w = edge * 1000 / 50 / root(1000 * (int64_t)n);
    for (size_t i = 0; i < n; i++) {
        if (i % 25 == 0) x = draw(9 * edge / 5) - 9 * edge / 10, y = draw(9 * edge / 5) - 9 * edge / 10;
        int64_t dx = draw(w) + draw(w) - w;
        put(a + 3 * i, x + dx, y + draw(w) + draw(w) - w);
    }
}

static void grid(int32_t *a, size_t n, int64_t edge, int side)
{
    (void)edge, (void)side;
    int64_t cells = root(36 * (int64_t)n / 10);
    for (size_t i = 0; i < n; i++) { int64_t x = 1000 * draw(cells); put(a + 3 * i, x, 1000 * draw(cells)); }
}

static void straight(int32_t *a, size_t n, int64_t edge, int side)
{
    (void)side;
    for (size_t i = 0; i < n; i++) { int64_t k = draw(edge) - edge / 2; put(a + 3 * i, k, 2 * k); }
}

static void columns(int32_t *a, size_t n, int64_t edge, int side)
{
    for (size_t i = 0; i < n; i++) put(a + 3 * i, side ? edge : -edge, draw(2 * edge + 1) - edge);
}

/* all at nearly one distance from the middle: the point of the circle at t, then its quarter */
static void circle(int32_t *a, size_t n, int64_t edge, int side)
{
    (void)side;
    for (size_t i = 0; i < n; i++) {
        double t = (double)draw(1000000007) / 1000000007.0;
        int64_t x = (int64_t)((double)edge * (1 - t * t) / (1 + t * t)), y = (int64_t)((double)edge * 2 * t / (1 + t * t));
        int64_t quarter = draw(4);
        put(a + 3 * i, quarter == 0 ? x : quarter == 1 ? -y : quarter == 2 ? -x : y, quarter == 0 ? y : quarter == 1 ? x : quarter == 2 ? -y : -x);
    }
}

/* ---- packing orders */

static uint64_t keys[MOST];
static int32_t other[MOST];

/* how far along a Hilbert curve over 2^16 by 2^16 cells */
static uint64_t along(uint64_t x, uint64_t y)
{
    uint64_t d = 0;
    for (uint64_t s = 1u << 15; s; s /= 2) {
        uint64_t right = (x & s) != 0, up = (y & s) != 0;
        d += s * s * ((3 * right) ^ up);
        if (!up) {
            if (right) x = 65535 - x, y = 65535 - y;
            uint64_t z = x; x = y, y = z;
        }
    }
    return d;
}

static void curve(const int32_t *a, size_t n, int32_t *order)
{
    int64_t low[2] = {1ll << 40, 1ll << 40}, high[2] = {-(1ll << 40), -(1ll << 40)}, wide = 0;
    for (size_t i = 0; i < n; i++)
        for (int axis = 0; axis < 2; axis++) {
            int64_t v = a[3 * i + 1 + (size_t)axis];
            if (v < low[axis]) low[axis] = v;
            if (v > high[axis]) high[axis] = v;
        }
    for (int axis = 0; axis < 2; axis++) if (n && high[axis] - low[axis] > wide) wide = high[axis] - low[axis];
    int shift = 0;
    while (wide >> shift >> 16) shift++;
    for (size_t i = 0; i < n; i++) keys[i] = along((uint64_t)(a[3 * i + 1] - low[0]) >> shift, (uint64_t)(a[3 * i + 2] - low[1]) >> shift), order[i] = (int32_t)i;
    for (int digit = 0; digit < 32; digit += 8) {
        size_t from[257] = {0};
        for (size_t i = 0; i < n; i++) from[1 + (keys[order[i]] >> digit & 255)]++;
        for (int k = 0; k < 256; k++) from[k + 1] += from[k];
        for (size_t i = 0; i < n; i++) other[from[keys[order[i]] >> digit & 255]++] = order[i];
        for (size_t i = 0; i < n; i++) order[i] = other[i];
    }
}

static void shuffled(const int32_t *a, size_t n, int32_t *order)
{
    (void)a;
    for (size_t i = 0; i < n; i++) {
        size_t k = (size_t)draw((int64_t)i + 1);
        order[i] = order[k], order[k] = (int32_t)i;
    }
}

/* ---- sheets */

typedef struct { int32_t points[3 * MOST], order[MOST], words[ROOM], laid[3 * MOST]; size_t n, len; seeded_tree tree; } sheet;
static sheet *P, *Q;

static void pack(sheet *s, unsigned form, unsigned edition)
{
    size_t m = 0;
    for (size_t k = s->n; k;) { k = (k + 15) / 16; m += k; if (k == 1) break; }
    s->len = 5 * s->n + 7 * m + 6;
    if (ring_pack(form, s->n, s->points, 3 * s->n, s->order, s->n, edition, s->words, s->len)) s->len = 0;
    else s->tree = seeded_read(s->words, s->len, s->laid);
}

/* ---- the sides: each leaves its pairs in `had`, and their number */

static RingPair *had, *want;
static uint64_t bits[RING_WORDS(MOST)];
static int32_t lent[MOST];

static size_t by_pairs(void)
{
    RingMany r = ring_pairs(P->words, P->len, Q->words, Q->len, NULL, 0, (RingWanted){{0, 0}, ALL, 0, 2, 0}, had, SLOTS, bits, RING_WORDS(P->n));
    return r.number || r.more ? ~(size_t)0 : r.count;
}

static size_t by_count(void)
{
    RingCounted r = ring_count(P->words, P->len, Q->words, Q->len, NULL, 0, (RingWhich){ALL, 0, 2, 0}, bits, RING_WORDS(P->n));
    return r.number ? ~(size_t)0 : (size_t)r.count;
}

static size_t by_seeds(void) { return seeded_list(&P->tree, &Q->tree, (seeded_pair *)had, SLOTS, lent); }

static size_t by_brute(void) { return twin_brute(P->words, P->len, Q->words, Q->len, 0, (twin_pair *)had, SLOTS); }

static size_t by_pages(void)
{
    RingKey key = {0, 0};
    size_t count = 0;
    for (;;) {
        RingPaged r = ring_page(P->words, P->len, Q->words, Q->len, NULL, 0, (RingRequest){key, 16, 0, 2, 0}, bits, RING_WORDS(P->n));
        if (r.number) return ~(size_t)0;
        for (size_t k = 0; k < r.page.count; k++) had[count++] = r.page.pairs[k];
        if (r.page.end) return count;
        key.q = had[count - 1].q, key.p = had[count - 1].p;
    }
}

static int same(size_t n)
{
    for (size_t i = 0; i < n; i++) if (had[i].q != want[i].q || had[i].p != want[i].p || had[i].size != want[i].size) return 0;
    return 1;
}

static int differ;

/* the best of so many runs */
static long best(size_t (*side)(void), int runs, size_t *count)
{
    long least = 1l << 62;
    for (int run = 0; run < runs; run++) {
        long begun = now();
        *count = side();
        long took = now() - begun;
        if (took < least) least = took;
    }
    return least;
}

static void measure(const char *name, const char *order, size_t n)
{
    int runs = n <= 1000 ? 9 : !strcmp(order, "random") ? 1 : 3, agree = 1;
    size_t pairs, count, seeded;
    long took = best(by_pairs, runs, &pairs);
    RingPair *made = had; had = want, want = made;
    printf("%s %s %zu %zu pairs=%ld", name, order, n, pairs, took);
    took = best(by_seeds, runs, &seeded);
    agree &= seeded == pairs && pairs <= SLOTS && same(pairs);
    printf(" seeded=%ld", took);
    took = best(by_count, runs, &count);
    agree &= count == pairs;
    printf(" count=%ld", took);
    if (n <= SMALL) {
        took = best(by_brute, 3, &count);
        agree &= count == pairs && same(pairs);
        printf(" brute=%ld", took);
        took = best(by_pages, 3, &count);
        agree &= count == pairs && same(pairs);
        printf(" pages=%ld", took);
    }
#ifdef WITH_CGAL
    took = 1l << 62;
    for (int run = 0; run < (n > 1000 && !strcmp(name, "line") ? 1 : runs); run++) {
        long once = cgal_list(P->points, P->n, Q->points, Q->n, (uint32_t *)had, SLOTS, &count);
        if (once < took) took = once;
    }
    agree &= count == pairs;
    for (size_t i = 0; i < pairs && agree; i++) agree = ((uint32_t *)had)[2 * i] == want[i].q && ((uint32_t *)had)[2 * i + 1] == want[i].p;
    printf(" cgal=%ld", took);
#endif
    printf(" lent=%zu %s\n", 8 * RING_WORDS(n), agree ? "agree" : "DIFFER");
    fflush(0);
    differ |= !agree;
}

/* ---- worst cases: many records on one spot or two, or on a line */

static void one_spot(int32_t *a, size_t n, int64_t edge, int side)
{
    (void)edge, (void)side;
    for (size_t i = 0; i < n; i++) put(a + 3 * i, 5, 5);
}

/* ids of both spots in turn */
static void two_spots(int32_t *a, size_t n, int64_t edge, int side)
{
    (void)edge, (void)side;
    for (size_t i = 0; i < n; i++) put(a + 3 * i, i & 1 ? 5 : 105, 5);
}

static size_t by_shortest(void)
{
    RingShortlist r = ring_shortest(P->words, P->len, Q->words, Q->len, 16, bits, RING_WORDS(P->n));
    return r.number ? ~(size_t)0 : r.count;
}

static size_t by_partners(void)
{
    size_t all = 0;
    for (size_t j = 0; j < Q->n; j++) {
        RingPartners r = ring_partners(P->words, P->len, Q->words, Q->len, (uint32_t)Q->points[3 * j], 100, bits, RING_WORDS(P->n));
        if (r.number) return ~(size_t)0;
        all += r.count;
    }
    return all;
}

typedef void (*maker)(int32_t *, size_t, int64_t, int);

static void worst(const char *name, maker points, size_t np, size_t nq)
{
    state = 88172645463325252ull;
    for (int side = 0; side < 2; side++) {
        sheet *s = side ? Q : P;
        s->n = side ? nq : np;
        points(s->points, s->n, 1000000, side);
        for (size_t i = 0; i < s->n; i++) s->points[3 * i] = (int32_t)(2 * i + 1) + side;
        curve(s->points, s->n, s->order);
        pack(s, 1, 7 + (unsigned)side);
    }
    size_t listed, count, known;
    long took = best(by_count, 3, &listed);
    printf("worst %s %zu+%zu call=count units=%zu took=%ld %s\n", name, np, nq, listed, took, listed <= SLOTS ? "agree" : "DIFFER");
    took = best(by_pairs, 3, &count);
    printf("worst %s %zu+%zu call=pairs units=%zu took=%ld %s\n", name, np, nq, count, took, count == listed ? "agree" : "DIFFER");
    differ |= count != listed;
    fflush(0);
    took = best(by_shortest, 1, &known);
    printf("worst %s %zu+%zu call=shortest units=%zu took=%ld %s\n", name, np, nq, listed, took, known == (listed < 16 ? listed : 16) ? "agree" : "DIFFER");
    fflush(0);
    took = best(by_partners, 1, &known);
    printf("worst %s %zu+%zu call=partners units=%zu took=%ld %s\n", name, np, nq, known, took, known <= listed ? "agree" : "DIFFER");
}
static const char *kinds[] = {"uniform", "clustered", "grid", "line", "columns", "circle"};
static const maker makers[] = {uniform, clustered, grid, straight, columns, circle};
static const char *orders[] = {"curve", "random"};
static const size_t sizes[] = {100, 1000, 16000, 60000};

/* the points of both sheets and their sheets, in an order */
static void make(size_t n, int kind, int order)
{
    state = 88172645463325252ull + n;
    for (int side = 0; side < 2; side++) {
        sheet *s = side ? Q : P;
        s->n = n;
        makers[kind](s->points, n, n <= 1000 ? 1000000 : 1000000000, side);
        for (size_t i = 0; i < n; i++) s->points[3 * i] = (int32_t)(2 * i + 1) + side;
        (order ? shuffled : curve)(s->points, n, s->order);
        pack(s, n <= 1000 ? 1 : 2, 7 + (unsigned)side);
    }
}

static int asked(const char *word, const char *name) { return !strcmp(word, "-") || !strcmp(word, name); }

int main(int count, char **words)
{
    P = malloc(sizeof *P), Q = malloc(sizeof *Q), had = malloc(SLOTS * sizeof *had), want = malloc(SLOTS * sizeof *want);
    int once = count > 2 && !strcmp(words[1], "once"), bad = count > 1 && !strcmp(words[1], "worst"), from = once ? 3 : 1;
    size_t size = count > from ? (size_t)atoi(words[from]) : 0;
    const char *kind = count > from + 1 ? words[from + 1] : "-", *order = count > from + 2 ? words[from + 2] : "-";
    for (int s = 0; s < 4 && !bad; s++)
        for (int k = 0; k < 6; k++)
            for (int o = 0; o < 2; o++) {
                size_t n = sizes[s];
                if ((size && size != n) || !asked(kind, kinds[k]) || !asked(order, orders[o])) continue;
                /* in random order the largest lists take minutes, and say nothing more: only where they are asked for */
                if (n > 16000 && o && !strcmp(order, "-")) continue;
                make(n, k, o);
                if (!once) measure(kinds[k], orders[o], n);
                else if (!strcmp(words[2], "pairs")) by_pairs();
                else if (!strcmp(words[2], "seeded")) by_seeds();
            }
    if (!once && !size) {
        worst("one-spot", one_spot, 1000, 16), worst("one-spot", one_spot, 16, 1000), worst("one-spot", one_spot, 1000, 1000);
        worst("two-spots", two_spots, 1000, 16), worst("two-spots", two_spots, 1000, 1000);
        worst("one-line", straight, 1000, 1000);
    }
    return differ;
}
