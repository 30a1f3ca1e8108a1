/* The proved calls and their plain C twins, on the same sheets in one process. Prints a line for each measure: its name, what was measured on, how long each
   took in nanoseconds (the best of several runs), and whether their answers agree. With `streets` only the list of the street grid is measured, against the
   circle's on the same sheets; with `answers` each call is done once: the answers are compared, and the times say nothing. For a count of instructions, `count
   WORK KIND N` packs two sheets and does a work once: `open` or `list` by the proved calls, `twin-open` or `twin-list` by the twins, or nothing. */
#include "../include/ring.h"
#include "../tests/c/province.h"
#include "twins.h"

typedef struct { long sec, nsec; } moment;
int clock_gettime(int clock, moment *at);
int printf(const char *format, ...);
void *malloc(unsigned long size);
int atoi(const char *text);
int strcmp(const char *a, const char *b);

#define MOST 1000
#define ROOM (5 * MOST + 7 * 400 + 6)
#define PAIRS 100000

static unsigned long long state = 88172645463325252ull;
static unsigned draw(unsigned below)
{
    state ^= state << 13; state ^= state >> 7; state ^= state << 17;
    return (unsigned)(state % below);
}

/* the processor's time for this process: what else the machine does is not counted */
static long now(void) { moment m; clock_gettime(2, &m); return m.sec * 1000000000l + m.nsec; }

/* ---- points and their order */

static int points[3 * MOST];
static int order[MOST];

static int clamp(int v) { return v < -1000000 ? -1000000 : v > 1000000 ? 1000000 : v; }

static void uniform(int n) { for (int i = 0; i < n; i++) { points[3 * i + 1] = (int)draw(2000001) - 1000000; points[3 * i + 2] = (int)draw(2000001) - 1000000; } }

/* the same on the map of form 2 */
static void wide(int n) { for (int i = 0; i < n; i++) { points[3 * i + 1] = (int)draw(2000000001) - 1000000000; points[3 * i + 2] = (int)draw(2000000001) - 1000000000; } }

static void clustered(int n)
{
    int x = 0, y = 0;
    for (int i = 0; i < n; i++) {
        if (i % 25 == 0) { x = (int)draw(1800001) - 900000; y = (int)draw(1800001) - 900000; }
        points[3 * i + 1] = clamp(x + (int)draw(20001) + (int)draw(20001) - 20000);
        points[3 * i + 2] = clamp(y + (int)draw(20001) + (int)draw(20001) - 20000);
    }
}

static void grid(int n)
{
    for (int i = 0; i < n; i++) { points[3 * i + 1] = (int)draw(60) * 1000; points[3 * i + 2] = (int)draw(60) * 1000; }
}

static unsigned long size_of(unsigned long n)
{
    unsigned long m = 0;
    for (unsigned long k = n; k;) { k = (k + 15) / 16; m += k; if (k == 1) break; }
    return 5 * n + 7 * m + 6;
}

typedef struct { int words[ROOM]; unsigned long len; } packed;

/* ---- measures */

static void tell(const char *what, const char *kind, int n, long proved, long twin, int agree)
{
    printf("%s %s %d %ld %ld %s\n", what, kind, n, proved, twin, agree ? "agree" : "DIFFER");
}

static int once;

/* the best of so many runs, each of so many times the work: what is short is done often, so that the clock's step does not count */
#define BEST(runs, times, best, work) do { best = 1l << 62; for (int run = 0; run < (once ? 1 : (runs)); run++) { long begun = now(); for (int time = 0; time < (once ? 1 : (times)); time++) { work; } long took = now() - begun; if (took < best) best = took; } } while (0)

static void packing(const char *what, const char *kind, int n, packed *s, unsigned form, unsigned edition)
{
    static packed other;
    long proved, twin;
    unsigned a = 1, b = 1;
    s->len = other.len = size_of((unsigned long)n);
    BEST(20, 4000 / n, proved, a = ring_pack(form, (size_t)n, points, 3 * (size_t)n, order, (size_t)n, edition, s->words, s->len));
    BEST(20, 4000 / n, twin, b = twin_pack(form, (unsigned long)n, points, order, edition, other.words, other.len));
    int agree = a == 0 && b == 0;
    for (unsigned long i = 0; i < s->len; i++) agree &= s->words[i] == other.words[i];
    tell(what, kind, n, proved, twin, agree);
}

static void opening(const char *kind, int n, const packed *s)
{
    long proved, twin;
    unsigned a = 1, b = 1;
    BEST(20, 4000 / n, proved, a = ring_open(s->words, s->len).number);
    BEST(20, 4000 / n, twin, b = twin_open(s->words, s->len));
    tell("opening", kind, n, proved, twin, a == 0 && b == 0);
}

static twin_pair mine[PAIRS], theirs[PAIRS], brutes[PAIRS];
static unsigned long mine_opened, theirs_opened;

/* lent to both sides: for pages the first RING_WORDS(MOST), for runs all */
static uint64_t bits[16 * RING_WORDS(MOST)];

static unsigned long list_proved(const packed *p, const packed *q, unsigned long size, int grid)
{
    RingKey key = {0, 0};
    unsigned long count = 0;
    mine_opened = 0;
    for (;;) {
        RingPaged r = ring_page(p->words, p->len, q->words, q->len, NULL, 0, (RingRequest){key, size, 0, 2, grid}, bits, RING_WORDS(MOST));
        if (r.number) return ~0ul;
        mine_opened += r.opened;
        for (unsigned long k = 0; k < r.page.count; k++) { mine[count].q = r.page.pairs[k].q; mine[count].p = r.page.pairs[k].p; mine[count].size = r.page.pairs[k].size; count++; }
        if (r.page.end) return count;
        key.q = mine[count - 1].q; key.p = mine[count - 1].p;
    }
}

static unsigned long list_twin(const packed *p, const packed *q, unsigned long size)
{
    twin_key key = {0, 0};
    unsigned long count = 0;
    theirs_opened = 0;
    for (;;) {
        twin_page_answer r = twin_page(p->words, p->len, q->words, q->len, key, size, bits, RING_WORDS(MOST));
        if (r.number) return ~0ul;
        theirs_opened += r.opened;
        for (unsigned long k = 0; k < r.count; k++) theirs[count++] = r.pairs[k];
        if (r.end) return count;
        key.q = theirs[count - 1].q; key.p = theirs[count - 1].p;
    }
}

static int same(const twin_pair *a, const twin_pair *b, unsigned long n)
{
    for (unsigned long i = 0; i < n; i++) if (a[i].q != b[i].q || a[i].p != b[i].p || a[i].size != b[i].size) return 0;
    return 1;
}

static unsigned long listing(const char *kind, int n, const packed *p, const packed *q)
{
    long proved, twin, brute;
    unsigned long a = 0, b = 0, c = 0;
    int runs = n >= 1000 ? 5 : 20;
    BEST(runs, 1, proved, a = list_proved(p, q, 16, 0));
    BEST(runs, 1, twin, b = list_twin(p, q, 16));
    tell("list", kind, n, proved, twin, a == b && mine_opened == theirs_opened && same(mine, theirs, a));
    BEST(n >= 1000 ? 3 : runs, 1, brute, c = twin_brute(p->words, p->len, q->words, q->len, 0, brutes, PAIRS));
    tell("list-brute", kind, n, proved, brute, a == c && same(mine, brutes, a));
    RingKey key = {a ? mine[a / 2].q : 0, a ? mine[a / 2].p : 0};
    twin_key asked = {key.q, key.p};
    static RingPaged r; static twin_page_answer t;
    BEST(10, 5, proved, r = ring_page(p->words, p->len, q->words, q->len, NULL, 0, (RingRequest){key, 16, 0, 2, 0}, bits, RING_WORDS(MOST)));
    BEST(10, 5, twin, t = twin_page(p->words, p->len, q->words, q->len, asked, 16, bits, RING_WORDS(MOST)));
    int agree = r.number == 0 && t.number == 0 && r.opened == t.opened && r.page.count == t.count && !r.page.end == !t.end;
    for (unsigned long k = 0; k < t.count && agree; k++) agree = r.page.pairs[k].q == t.pairs[k].q && r.page.pairs[k].p == t.pairs[k].p && r.page.pairs[k].size == t.pairs[k].size;
    tell("page", kind, n, proved, twin, agree);
    return a;
}

/* The list of the street grid against the circle's on the same sheets: the time of each, then the nodes opened by each. */
static void streets(const char *kind, int n, const packed *p, const packed *q)
{
    long grid, circle;
    unsigned long a = 0, b;
    int runs = n >= 1000 ? 3 : 10;
    BEST(runs, 1, circle, a = list_proved(p, q, 16, 0));
    unsigned long opened = mine_opened;
    int agree = a != ~0ul;
    BEST(runs, 1, grid, a = list_proved(p, q, 16, 1));
    b = twin_brute(p->words, p->len, q->words, q->len, 1, brutes, PAIRS);
    agree &= a == b && same(mine, brutes, a);
    tell("streets", kind, n, grid, circle, agree);
    tell("streets-nodes", kind, n, (long)mine_opened, (long)opened, agree);
}

/* The runs of all leaves: Q's nodes from 0 on, as long as they are leaves. */
static unsigned long runs_proved(const packed *p, const packed *q)
{
    unsigned long count = 0;
    mine_opened = 0;
    for (size_t v = 0;; v++) {
        RingRun r = ring_leaf_run(p->words, p->len, q->words, q->len, v, (RingPair *)mine + count, PAIRS - count, bits, 16 * RING_WORDS(MOST));
        if (r.number) return r.number == 19 ? count : ~0ul;
        count += r.count; mine_opened += r.opened;
    }
}

static unsigned long runs_twin(const packed *p, const packed *q)
{
    unsigned long count = 0;
    theirs_opened = 0;
    for (twin_size v = 0;; v++) {
        twin_run_answer r = twin_run(p->words, p->len, q->words, q->len, v, theirs + count, PAIRS - count, bits, 16 * RING_WORDS(MOST));
        if (r.number) return r.number == 19 ? count : ~0ul;
        count += r.count; theirs_opened += r.opened;
    }
}

static void running(const char *kind, int n, const packed *p, const packed *q, unsigned long listed)
{
    long proved, twin;
    unsigned long a = 0, b = 0;
    int times = n >= 1000 ? 5 : 20;
    BEST(times, 1, proved, a = runs_proved(p, q));
    BEST(times, 1, twin, b = runs_twin(p, q));
    tell("runs", kind, n, proved, twin, a == b && a == listed && mine_opened == theirs_opened && same(mine, theirs, a));
}

typedef void (*maker)(int);

/* one side's work, alone */
static void work(const char *name, const packed *p, const packed *q)
{
    if (!strcmp(name, "open")) ring_open(p->words, p->len);
    if (!strcmp(name, "list")) list_proved(p, q, 16, 0);
    if (!strcmp(name, "twin-open")) twin_open(p->words, p->len);
    if (!strcmp(name, "twin-list")) list_twin(p, q, 16);
}

int main(int count, char **arguments)
{
    int only = count > 1 && !strcmp(arguments[1], "streets"), counts = count > 4 && !strcmp(arguments[1], "count");
    once = count > 1 && !only;
    static const char *kinds[] = {"uniform", "clustered", "grid", "wide"};
    static const maker makers[] = {uniform, clustered, grid, wide};
    static const unsigned forms[] = {1, 1, 1, 2};
    static const int sizes[] = {100, 300, 1000};
    static packed p, q;
    for (int k = 0; k < 4; k++)
        for (int s = 0; s < 3; s++) {
            int n = sizes[s];
            if (counts && (strcmp(arguments[3], kinds[k]) || atoi(arguments[4]) != n)) continue;
            for (int side = 0; side < 2; side++) {
                makers[k](n);
                for (int i = 0; i < n; i++) points[3 * i] = 10 * i + 1 + side;
                province_tile(points, order, (size_t)n);
                packing(side ? "packing-q" : "packing-p", kinds[k], n, side ? &q : &p, forms[k], 7 + 2 * (unsigned)side);
            }
            if (counts) work(arguments[2], &p, &q);
            if (counts) continue;
            if ((only || once) && forms[k] == 1) streets(kinds[k], n, &p, &q);
            if (only) continue;
            opening(kinds[k], n, &p);
            unsigned long listed = listing(kinds[k], n, &p, &q);
            running(kinds[k], n, &p, &q, listed);
        }
    return 0;
}
