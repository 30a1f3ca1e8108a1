/* The busiest chambers and pump houses and the most urgent visits against the whole list by ring_pairs, on the same sheets in one process. A line for each measure:
   what, of which points, n, how many pairs, nanoseconds of the call and of the list (the best of several runs), and whether the answer is what the list says. */
#include "../include/ring.h"
#include "../tests/c/province.h"

typedef struct { long sec, nsec; } moment;
int clock_gettime(int clock, moment *at);
int printf(const char *format, ...);
void *malloc(unsigned long size);

#define MOST PROVINCE_POINTS
#define ROOM (5 * MOST + 7 * 4100 + 6)
#define SLOTS 400000
#define ALL 8000000000000000000ull

static int32_t points[2][3 * MOST], order[MOST], sheets[2][ROOM];
static size_t length[2];
static uint64_t bits[RING_WORDS(MOST)];
static const uint8_t nobody[1];
static uint32_t scores[2][MOST], seen[2][MOST];

/* the processor's time for this process: what else the machine does is not counted */
static long now(void) { moment m; clock_gettime(2, &m); return m.sec * 1000000000l + m.nsec; }

static size_t position(int side, size_t n, uint32_t id)
{
    size_t a = 0, b = n;
    while (b - a > 1) { size_t c = (a + b) / 2; if ((uint32_t)points[side][3 * c] <= id) a = c; else b = c; }
    return a;
}

/* towns of 25 and nothing else, the towns of one sheet apart from those of the other */
static void towns(int32_t *a, size_t n, uint64_t seed)
{
    uint64_t state = 88172645463325252ull ^ seed * 0x9e3779b97f4a7c15ull, across = 1;
    while (across * across < n) across++;
    int32_t x = 0, y = 0, reach = (int32_t)(PROVINCE_EDGE / 50 / across * 32);
    for (size_t i = 0; i < n; i++, a += 3) {
        if (i % 25 == 0) x = province_near(&state, 0, PROVINCE_EDGE / 10 * 9), y = province_near(&state, 0, PROVINCE_EDGE / 10 * 9);
        a[0] = (int32_t)(2 * i + seed % 2 + 1), a[1] = province_near(&state, x, reach), a[2] = province_near(&state, y, reach);
    }
}

static const char *kinds[] = {"province", "clustered"};

static void made(int kind, size_t n)
{
    uint64_t state = 977;
    for (int side = 0; side < 2; side++) {
        (kind ? towns : province_points)(points[side], n, 11 + (uint64_t)side);
        province_tile(points[side], order, n);
        length[side] = ring_sheet_len(n);
        ring_pack(2, n, points[side], 3 * n, order, n, 5, sheets[side], length[side]);
        for (size_t i = 0; i < n; i++) scores[side][i] = (uint32_t)province_draw(&state, 1000000001);
    }
}

/* ---- what the list says */

static bool rows_are(const RingBusy *r, int side, size_t n)
{
    if (r->number || r->count != 16) return false;
    for (size_t k = 0; k < 16; k++) {
        size_t at = position(side, n, r->rows[k].id);
        if ((uint32_t)points[side][3 * at] != r->rows[k].id || seen[side][at] != r->rows[k].pairs) return false;
        if (k && !(r->rows[k - 1].pairs > r->rows[k].pairs || (r->rows[k - 1].pairs == r->rows[k].pairs && r->rows[k - 1].id < r->rows[k].id))) return false;
    }
    size_t ahead = 0;
    for (size_t i = 0; i < n; i++)
        ahead += seen[side][i] > r->rows[15].pairs || (seen[side][i] == r->rows[15].pairs && (uint32_t)points[side][3 * i] <= r->rows[15].id);
    return ahead == 16;
}

static uint64_t sum(RingPair v, size_t n) { return (uint64_t)scores[0][position(0, n, v.p)] + scores[1][position(1, n, v.q)]; }

static bool before(uint64_t s, RingPair v, uint64_t t, RingPair w) { return s > t || (s == t && (v.q < w.q || (v.q == w.q && v.p < w.p))); }

static bool visits_are(const RingUrgent *r, const RingPair *list, size_t count, size_t n)
{
    if (r->number || r->count != 16) return false;
    for (size_t k = 0; k < 16; k++) {
        if (r->rows[k].score != sum(r->rows[k].pair, n)) return false;
        if (k && !before(r->rows[k - 1].score, r->rows[k - 1].pair, r->rows[k].score, r->rows[k].pair)) return false;
    }
    size_t ahead = 0;
    for (size_t i = 0; i < count; i++) ahead += !before(r->rows[15].score, r->rows[15].pair, sum(list[i], n), list[i]);
    return ahead == 16;
}

int main(void)
{
    RingPair *list = malloc(SLOTS * sizeof(RingPair));
    size_t sizes[] = {1000, MOST};
    bool fine = true;
    for (int z = 0; z < 4; z++) {
        size_t n = sizes[z % 2], words = RING_WORDS(n), runs = n > 1000 ? 3 : 9;
        made(z / 2, n);
        RingWanted wanted = {{0, 0}, ALL, 0, 2, false};
        RingAsked asked = {16, ALL, 2, false};
        long best[4] = {1l << 60, 1l << 60, 1l << 60, 1l << 60};
        RingMany all = {0};
        RingBusy busy = {0}, pumps = {0};
        RingUrgent urgent = {0};
        for (size_t k = 0; k < runs; k++) {
            long t0 = now();
            all = ring_pairs(sheets[0], length[0], sheets[1], length[1], nobody, 0, wanted, list, SLOTS, bits, words);
            long t1 = now();
            busy = ring_busiest(sheets[0], length[0], sheets[1], length[1], nobody, 0, asked, bits, words);
            long t2 = now();
            pumps = ring_busiest_pumps(sheets[0], length[0], sheets[1], length[1], 16, ALL, false, bits, words);
            long t3 = now();
            urgent = ring_urgent(sheets[0], length[0], sheets[1], length[1], nobody, 0, scores[0], n, scores[1], n, asked, bits, words);
            long t4 = now(), took[4] = {t1 - t0, t2 - t1, t3 - t2, t4 - t3};
            for (int i = 0; i < 4; i++) if (took[i] < best[i]) best[i] = took[i];
        }
        for (int side = 0; side < 2; side++) for (size_t i = 0; i < n; i++) seen[side][i] = 0;
        for (size_t i = 0; i < all.count; i++) seen[0][position(0, n, list[i].p)]++, seen[1][position(1, n, list[i].q)]++;
        bool right[3] = {rows_are(&busy, 1, n), rows_are(&pumps, 0, n), visits_are(&urgent, list, all.count, n)};
        const char *names[] = {"busiest", "busiest-pumps", "urgent"};
        for (int i = 0; i < 3; i++) {
            bool agree = right[i] && !all.number && !all.more;
            printf("%s %s %lu %lu %ld %ld %s\n", names[i], kinds[z / 2], (unsigned long)n, (unsigned long)all.count, best[i + 1], best[0], agree ? "agree" : "differ");
            fine = fine && agree;
        }
    }
    return !fine;
}
