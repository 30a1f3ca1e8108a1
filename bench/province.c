/* The whole list of two provinces (tests/c/province.h), each a sheet of form 2: how many pairs it has, a digest of them, and where the time goes.

       province runs N     leaf after leaf of Q, by the proved calls and then by their twins
       province pages N PART PARTS    by pages of 16, of the chambers of one of so many parts of Q
       province check N    by a reading of its own, on a grid: no tree, no walk

   N is the number of points of each. The digest does not depend on the order of the pairs. Prints lines of a name and numbers; times are nanoseconds of the
   processor. */
#include "../include/ring.h"
#include "../tests/c/province.h"
#include "twins.h"

typedef struct { long sec, nsec; } moment;
int clock_gettime(int clock, moment *at);
int printf(const char *format, ...);
int strcmp(const char *a, const char *b);
long strtol(const char *text, char **end, int base);

#define MOST PROVINCE_POINTS
#define ROOM (5 * MOST + 7 * 4001 + 6)
#define SLOTS 100000

extern unsigned long twin_spent[4];

static long now(void) { moment m; clock_gettime(2, &m); return m.sec * 1000000000l + m.nsec; }

typedef struct { int32_t words[ROOM]; size_t n, len; } packed;
static packed p, q;
static uint64_t bits[16 * RING_WORDS(MOST)];
static RingPair slots[SLOTS];

/* ---- what is counted of a list */

typedef struct { unsigned long pairs, opened; uint64_t digest; } list;

static uint64_t mixed(uint64_t x)
{
    x = (x ^ x >> 30) * 0xbf58476d1ce4e5b9ull;
    x = (x ^ x >> 27) * 0x94d049bb133111ebull;
    return x ^ x >> 31;
}

static void add(list *l, uint32_t qid, uint32_t pid, uint64_t size)
{
    l->pairs++;
    l->digest += mixed(mixed((uint64_t)qid << 32 | pid) + size);
}

static void tell(const char *what, const list *l, long took)
{
    printf("%s %lu %lu %016lx %ld\n", what, l->pairs, l->opened, (unsigned long)l->digest, took);
}

/* ---- two sheets */

static int made(packed *s, size_t n, uint64_t seed, uint32_t edition, const char *what)
{
    static int32_t points[3 * MOST], order[MOST];
    size_t m = 0;
    for (size_t k = n; k;) { k = (k + 15) / 16; m += k; if (k == 1) break; }
    s->n = n; s->len = 5 * n + 7 * m + 6;
    province_points(points, n, seed);
    province_tile(points, order, n);
    long begun = now();
    uint32_t number = ring_pack(2, n, points, 3 * n, order, n, edition, s->words, s->len);
    long took = now() - begun;
    if (number) { printf("refused %u\n", number); return 0; }
    printf("packing-%s %ld\n", what, took);
    begun = now();
    for (int k = 0; k < 10; k++) number |= ring_open(s->words, s->len).number;
    printf("opening-%s %ld\n", what, (now() - begun) / 10);
    return number == 0;
}

/* ---- the list */

static int by_runs(void)
{
    list l = {0, 0, 0}, t = {0, 0, 0};
    long slowest = 0, begun = now();
    size_t v = 0, most = 0;
    for (;; v++) {
        long at = now();
        RingRun r = ring_leaf_run(p.words, p.len, q.words, q.len, v, slots, SLOTS, bits, 16 * RING_WORDS(p.n));
        at = now() - at;
        if (r.number == 19) break;
        if (r.number) { printf("refused %u\n", r.number); return 1; }
        if (at > slowest) slowest = at;
        if (r.count > most) most = r.count;
        l.opened += r.opened;
        for (size_t k = 0; k < r.count; k++) add(&l, slots[k].q, slots[k].p, slots[k].size);
    }
    tell("runs", &l, now() - begun);
    printf("calls %zu\nslowest %ld\nmost %zu\n", v, slowest, most);
    begun = now();
    for (v = 0;; v++) {
        twin_run_answer r = twin_run(p.words, p.len, q.words, q.len, v, (twin_pair *)slots, SLOTS, bits, 16 * RING_WORDS(p.n));
        if (r.number == 19) break;
        if (r.number) { printf("refused %u\n", r.number); return 1; }
        t.opened += r.opened;
        for (size_t k = 0; k < r.count; k++) add(&t, slots[k].q, slots[k].p, slots[k].size);
    }
    tell("twin-runs", &t, now() - begun);
    printf("twin-parts %lu %lu %lu %lu\n", twin_spent[0], twin_spent[1], twin_spent[2], twin_spent[3]);
    return 0;
}

static int by_pages(size_t part, size_t parts)
{
    list l = {0, 0, 0};
    long slowest = 0, begun = now();
    size_t from = part * q.n / parts, to = (part + 1) * q.n / parts, pages = 0;
    uint32_t past = to < q.n ? (uint32_t)q.words[3 * to] : 2000000001u;
    RingKey key = {(uint32_t)q.words[3 * from] - 1, 2000000000};
    for (bool end = from == to; !end; pages++) {
        long at = now();
        RingPaged r = ring_page(p.words, p.len, q.words, q.len, NULL, 0, (RingRequest){key, 16, 0, 2, 0}, bits, RING_WORDS(p.n));
        at = now() - at;
        if (r.number) { printf("refused %u\n", r.number); return 1; }
        if (at > slowest) slowest = at;
        l.opened += r.opened;
        end = r.page.end;
        for (size_t k = 0; k < r.page.count; k++)
            if (r.page.pairs[k].q < past) add(&l, r.page.pairs[k].q, r.page.pairs[k].p, r.page.pairs[k].size);
            else end = true;
        if (r.page.count) key = (RingKey){r.page.pairs[r.page.count - 1].q, r.page.pairs[r.page.count - 1].p};
    }
    tell("pages", &l, now() - begun);
    printf("calls %zu\nslowest %ld\n", pages, slowest);
    return 0;
}

/* ---- a reading of its own: records in the cells of a grid, P's first, then Q's */

#define CELLS 512
#define NEAR 64

static uint32_t cells[CELLS * CELLS + 1], records[2 * MOST];

static const int32_t *record(uint32_t k) { return k < p.n ? p.words + 3 * k : q.words + 3 * (k - p.n); }

static int64_t cell(int64_t v) { return v <= -PROVINCE_EDGE ? 0 : v >= PROVINCE_EDGE ? CELLS - 1 : (v + PROVINCE_EDGE) * CELLS / (2ll * PROVINCE_EDGE + 1); }

static void make_cells(void)
{
    for (int pass = 0; pass < 2; pass++) {
        for (uint32_t k = 0; k < p.n + q.n; k++) {
            const int32_t *a = record(k);
            uint32_t c = (uint32_t)(cell(a[1]) * CELLS + cell(a[2]));
            if (pass) records[--cells[c]] = k;
            else cells[c]++;
        }
        for (int c = 0; !pass && c < CELLS * CELLS; c++) cells[c + 1] += cells[c];
    }
}

static bool blocks(const int32_t *a, const int32_t *b, const int32_t *x)
{
    int64_t ax = (int64_t)a[1] - x[1], ay = (int64_t)a[2] - x[2], bx = (int64_t)b[1] - x[1], by = (int64_t)b[2] - x[2];
    return ax * bx + ay * by <= 0 && (ax || ay) && (bx || by);
}

/* the records of the cells around a, ring after ring, until there are enough */
static size_t near_to(const int32_t *a, uint32_t *near)
{
    int64_t cx = cell(a[1]), cy = cell(a[2]);
    size_t count = 0;
    for (int64_t ring = 0; ring < CELLS && count < NEAR; ring++)
        for (int64_t x = cx - ring; x <= cx + ring; x++)
            for (int64_t y = cy - ring; y <= cy + ring; y += x == cx - ring || x == cx + ring || !ring ? 1 : 2 * ring) {
                if (x < 0 || x >= CELLS || y < 0 || y >= CELLS) continue;
                for (uint32_t k = cells[x * CELLS + y]; k < cells[x * CELLS + y + 1] && count < 4 * NEAR; k++) near[count++] = records[k];
            }
    return count;
}

static int64_t root(uint64_t v)
{
    uint64_t r = 0;
    for (uint64_t b = 1ull << 31; b; b >>= 1) if ((r + b) * (r + b) <= v) r += b;
    return (int64_t)r;
}

/* whether a record of the cells that the circle may reach blocks the two */
static bool blocked(const int32_t *a, const int32_t *b, uint64_t size)
{
    int64_t sx = (int64_t)a[1] + b[1], sy = (int64_t)a[2] + b[2], reach = root(size) + 1;
    for (int64_t x = cell((sx - reach) / 2 - 1); x <= cell((sx + reach) / 2 + 1); x++)
        for (int64_t y = cell((sy - reach) / 2 - 1); y <= cell((sy + reach) / 2 + 1); y++)
            for (uint32_t k = cells[x * CELLS + y]; k < cells[x * CELLS + y + 1]; k++)
                if (blocks(a, b, record(records[k]))) return true;
    return false;
}

static int by_grid(void)
{
    static uint32_t near[4 * NEAR];
    list l = {0, 0, 0};
    long begun = now();
    make_cells();
    for (size_t j = 0; j < q.n; j++) {
        const int32_t *a = q.words + 3 * j;
        size_t count = near_to(a, near);
        for (size_t i = 0; i < p.n; i++) {
            const int32_t *b = p.words + 3 * i;
            bool out = false;
            for (size_t k = 0; k < count && !out; k++) out = blocks(a, b, record(near[k]));
            if (out) continue;
            int64_t x = (int64_t)a[1] - b[1], y = (int64_t)a[2] - b[2];
            uint64_t size = (uint64_t)(x * x + y * y);
            if (!blocked(a, b, size)) add(&l, (uint32_t)a[0], (uint32_t)b[0], size);
        }
    }
    tell("check", &l, now() - begun);
    return 0;
}

int main(int count, char **words)
{
    size_t n = count > 2 ? (size_t)strtol(words[2], 0, 10) : MOST;
    size_t part = count > 4 ? (size_t)strtol(words[3], 0, 10) : 0, parts = count > 4 ? (size_t)strtol(words[4], 0, 10) : 1;
    if (count < 2 || n < 1 || n > MOST || part >= parts) return 2;
    if (!made(&p, n, 1, 7, "p") || !made(&q, n, 2, 9, "q")) return 1;
    return !strcmp(words[1], "runs") ? by_runs() : !strcmp(words[1], "pages") ? by_pages(part, parts) : !strcmp(words[1], "check") ? by_grid() : 2;
}
