#include "twins.h"

typedef long long i64;
typedef twin_bits u64;
typedef struct { i64 x, y; } spot;
typedef struct { const twin_word *w; twin_size n, m; } sheet;

/* ---- opening */

static int within(i64 v, i64 lo, i64 hi) { return lo <= v && v <= hi; }

/* the most points and nodes, and the farthest coordinate, of each form */
static const struct { i64 points, nodes, reach; } limits[3] = {{0, 0, 0}, {1000, 400, 1000000}, {60000, 24000, 1000000000}};

static int points_ok(const twin_word *w, twin_size n, i64 reach)
{
    for (twin_size i = 0; i < n; i++) {
        const twin_word *p = w + 3 * i;
        if (!within(p[0], 1, 2000000000) || !within(p[1], -reach, reach) || !within(p[2], -reach, reach)) return 0;
        if (i && p[-3] >= p[0]) return 0;
    }
    return 1;
}

static int order_ok(const twin_word *w, twin_size n)
{
    const twin_word *order = w + 3 * n, *rank = w + 4 * n;
    for (twin_size i = 0; i < n; i++)
        if (order[i] < 0 || (twin_size)order[i] >= n || rank[i] < 0 || (twin_size)rank[i] >= n || order[rank[i]] != (twin_word)i) return 0;
    return 1;
}

static int nodes_ok(const twin_word *w, twin_size n, twin_size m)
{
    const twin_word *t = w + 5 * n;
    twin_size level = 0, head = 0, next = 0, top = n;
    if ((n == 0) != (m == 0)) return 0;
    for (twin_size j = 0; j < m; j++) {
        const twin_word *a = t + 7 * j;
        if (level > 7 || a[0] != (twin_word)level || a[1] != (twin_word)next || a[2] < 1 || a[2] > 16) return 0;
        next += (twin_size)a[2];
        int last = j + 1 == m || a[7] != a[0];
        if (last) {
            if (next != top || (head == j) != (j + 1 == m)) return 0;
            level++; next = head; head = j + 1; top = j + 1;
        }
    }
    return 1;
}

typedef struct { twin_word xmin, ymin, xmax, ymax; } sides;

static twin_word least(twin_word a, twin_word b) { return b < a ? b : a; }
static twin_word greatest(twin_word a, twin_word b) { return b > a ? b : a; }

/* the box around the points whose positions stand in so many words of an order */
static sides around_points(const twin_word *points, const twin_word *order, twin_size count)
{
    const twin_word *p = points + 3 * order[0];
    sides o = {p[1], p[2], p[1], p[2]};
    for (twin_size k = 1; k < count; k++) {
        p = points + 3 * order[k];
        o.xmin = least(o.xmin, p[1]), o.ymin = least(o.ymin, p[2]), o.xmax = greatest(o.xmax, p[1]), o.ymax = greatest(o.ymax, p[2]);
    }
    return o;
}

/* the box around so many nodes' boxes */
static sides around_nodes(const twin_word *a, twin_size count)
{
    sides o = {a[3], a[4], a[5], a[6]};
    for (twin_size k = 1; k < count; k++) {
        a += 7;
        o.xmin = least(o.xmin, a[3]), o.ymin = least(o.ymin, a[4]), o.xmax = greatest(o.xmax, a[5]), o.ymax = greatest(o.ymax, a[6]);
    }
    return o;
}

static int boxes_ok(const twin_word *w, twin_size n, twin_size m)
{
    const twin_word *order = w + 3 * n, *t = w + 5 * n;
    for (twin_size j = 0; j < m; j++) {
        const twin_word *a = t + 7 * j;
        sides o = a[0] ? around_nodes(t + 7 * a[1], (twin_size)a[2]) : around_points(w, order + a[1], (twin_size)a[2]);
        if ((o.xmin != a[3]) | (o.ymin != a[4]) | (o.xmax != a[5]) | (o.ymax != a[6])) return 0;
    }
    return 1;
}

unsigned twin_open(const twin_word *w, twin_size len)
{
    if (len < 6) return 1;
    const twin_word *t = w + len - 6;
    twin_word form = t[5];
    if (form != 1 && form != 2) return 2;
    if (!within(t[2], 0, limits[form].points) || !within(t[3], 0, limits[form].nodes) || !within(t[4], 1, 1000000000)) return 3;
    twin_size n = (twin_size)t[2], m = (twin_size)t[3], span = 5 * n + 7 * m;
    if (t[0] != (twin_word)span || t[1] != (m ? 7 : 0) || len != span + 6) return 4;
    if (!points_ok(w, n, limits[form].reach)) return 5;
    if (!order_ok(w, n)) return 6;
    if (!nodes_ok(w, n, m)) return 7;
    if (!boxes_ok(w, n, m)) return 8;
    return 0;
}

/* ---- packing */

/* `seen` has a mark for each position */
static unsigned pack_by(unsigned form, twin_size n, const twin_word *points, const twin_word *order, unsigned edition, twin_word *out, twin_size len, unsigned char *seen)
{
    if (n > (twin_size)limits[form].points || edition < 1 || edition > 1000000000) return 3;
    if (!points_ok(points, n, limits[form].reach)) return 5;
    for (twin_size k = 0; k < n; k++) {
        if (order[k] < 0 || (twin_size)order[k] >= n || seen[order[k]]) return 6;
        seen[order[k]] = 1;
    }
    twin_size m = 0;
    for (twin_size k = n; k;) { k = (k + 15) / 16; m += k; if (k == 1) break; }
    if (len != 5 * n + 7 * m + 6) return 17;
    for (twin_size i = 0; i < 3 * n; i++) out[i] = points[i];
    for (twin_size k = 0; k < n; k++) { out[3 * n + k] = order[k]; out[4 * n + order[k]] = (twin_word)k; }
    twin_word *t = out + 5 * n;
    twin_size level = 0, head = 0, next = 0, top = n;
    for (twin_size j = 0; j < m; j++) {
        twin_size count = next + 16 < top ? 16 : top - next;
        twin_word *a = t + 7 * j;
        a[0] = (twin_word)level; a[1] = (twin_word)next; a[2] = (twin_word)count;
        sides o = level ? around_nodes(t + 7 * next, count) : around_points(points, order + next, count);
        a[3] = o.xmin; a[4] = o.ymin; a[5] = o.xmax; a[6] = o.ymax;
        next += count;
        if (next == top) { level++; next = head; head = j + 1; top = j + 1; }
    }
    twin_word *e = t + 7 * m;
    e[0] = (twin_word)(5 * n + 7 * m); e[1] = m ? 7 : 0; e[2] = (twin_word)n; e[3] = (twin_word)m; e[4] = (twin_word)edition; e[5] = (twin_word)form;
    return 0;
}

static unsigned pack_first(twin_size n, const twin_word *points, const twin_word *order, unsigned edition, twin_word *out, twin_size len)
{
    unsigned char seen[1000] = {0};
    return pack_by(1, n, points, order, edition, out, len, seen);
}

static unsigned pack_second(twin_size n, const twin_word *points, const twin_word *order, unsigned edition, twin_word *out, twin_size len)
{
    unsigned char seen[60000] = {0};
    return pack_by(2, n, points, order, edition, out, len, seen);
}

unsigned twin_pack(unsigned form, twin_size n, const twin_word *points, const twin_word *order, unsigned edition, twin_word *out, twin_size len)
{
    return form == 1 ? pack_first(n, points, order, edition, out, len) : form == 2 ? pack_second(n, points, order, edition, out, len) : 2;
}

/* ---- the walks */

static spot spot_at(const sheet *s, twin_size i) { const twin_word *p = s->w + 3 * i; spot z = {p[1], p[2]}; return z; }
static i64 dot(spot a, spot b, spot z) { return (a.x - z.x) * (b.x - z.x) + (a.y - z.y) * (b.y - z.y); }
static int same(spot a, spot b) { return (a.x == b.x) & (a.y == b.y); }
static int blocks(spot a, spot b, spot z) { i64 d = dot(a, b, z); return d < 0 || (d == 0 && !same(z, a) && !same(z, b)); }

static twin_size words_for(twin_size n) { return (n + 63) / 64; }
static void wipe(u64 *bits, twin_size words) { for (twin_size w = 0; w < words; w++) bits[w] = 0; }

typedef struct { i64 xmin, ymin, xmax, ymax; } boxed;

static boxed box_of(const twin_word *a) { boxed o = {a[3], a[4], a[5], a[6]}; return o; }

/* Whether a record at p drops the box o, or the place z, for q. These two tests stand in the innermost loops, each in its own. */
static int drops_box(spot q, spot p, boxed o)
{
    spot c = {p.x < q.x ? o.xmax : o.xmin, p.y < q.y ? o.ymax : o.ymin};
    i64 d = dot(q, c, p);
    if (d) return d < 0;
    return !same(p, q) && !(o.xmin <= p.x && p.x <= o.xmax && o.ymin <= p.y && p.y <= o.ymax);
}

static int drops_place(spot q, spot p, spot z) { return blocks(q, z, p); }

/* The kept set on lent words, and beside it the positions in the order in which they were kept; where count is more than 256 the list does not have them all.
   Nothing of the list is set beforehand. */
typedef struct { u64 *bits; twin_size words; u64 opened; twin_size last, count, latest[256]; } kept;

/* Whether a kept point drops what is tried: the one that dropped last is tried first, then the others from the latest kept to the first. A function for boxes, and
   one for places. */
#define DROPPED(name, tried, drops) \
    static inline __attribute__((always_inline)) int name(const sheet *s, spot q, kept *k, tried z) \
    { \
        if (k->last < s->n && drops(q, spot_at(s, k->last), z)) return 1; \
        if (k->count <= 256) { \
            for (twin_size c = k->count; c > 0;) { \
                twin_size i = k->latest[--c]; \
                if (drops(q, spot_at(s, i), z)) { k->last = i; return 1; } \
            } \
            return 0; \
        } \
        for (twin_size w = 0; w < k->words; w++) { \
            for (u64 b = k->bits[w]; b; b &= b - 1) { \
                twin_size i = 64 * w + (twin_size)__builtin_ctzll(b); \
                if (drops(q, spot_at(s, i), z)) { k->last = i; return 1; } \
            } \
        } \
        return 0; \
    }
DROPPED(dropped_box, boxed, drops_box)
DROPPED(dropped_place, spot, drops_place)

static void keep(kept *k, twin_size i)
{
    k->bits[i / 64] |= 1ull << (i % 64);
    if (k->count < 256) k->latest[k->count] = i;
    if (k->count <= 256) k->count++;
}

static void filter_node(const sheet *s, spot q, twin_size j, kept *k)
{
    const twin_word *a = s->w + 5 * s->n + 7 * j;
    if (dropped_box(s, q, k, box_of(a))) return;
    k->opened++;
    twin_size first = (twin_size)a[1], end = first + (twin_size)a[2];
    if (a[0]) {
        for (twin_size c = first; c < end; c++) filter_node(s, q, c, k);
        return;
    }
    for (twin_size c = first; c < end; c++) {
        twin_size i = (twin_size)s->w[3 * s->n + c];
        if (!dropped_place(s, q, k, spot_at(s, i))) keep(k, i);
    }
}

static u64 out_of(i64 lo, i64 hi, i64 c) { i64 d = c < lo ? lo - c : c > hi ? c - hi : 0; return (u64)d * (u64)d; }

/* a pair's circle: its ends, its squared diameter */
typedef struct { spot a, b; u64 d; } circle;

/* 1 where something blocks */
static int ring_node(const sheet *s, const circle *r, twin_size j, u64 *opened)
{
    const twin_word *t = s->w + 5 * s->n + 7 * j;
    spot a = r->a, b = r->b;
    boxed o = box_of(t);
    u64 dx = out_of(2 * o.xmin, 2 * o.xmax, a.x + b.x);
    if (dx > r->d || out_of(2 * o.ymin, 2 * o.ymax, a.y + b.y) > r->d - dx) return 0;
    spot ll = {o.xmin, o.ymin}, lh = {o.xmin, o.ymax}, hl = {o.xmax, o.ymin}, hh = {o.xmax, o.ymax};
    int i0 = dot(a, b, ll) < 0, i1 = dot(a, b, lh) < 0, i2 = dot(a, b, hl) < 0, i3 = dot(a, b, hh) < 0;
    if ((i0 & i1) | (i0 & i2) | (i2 & i3) | (i1 & i3)) return 1;
    (*opened)++;
    twin_size first = (twin_size)t[1], end = first + (twin_size)t[2];
    if (t[0]) {
        for (twin_size c = first; c < end; c++) if (ring_node(s, r, c, opened)) return 1;
        return 0;
    }
    for (twin_size c = first; c < end; c++)
        if (blocks(a, b, spot_at(s, (twin_size)s->w[3 * s->n + c]))) return 1;
    return 0;
}

/* whether something of Q, then of P, blocks the pair of a and z */
static int blocked(const sheet *p, const sheet *q, spot a, spot z, u64 *opened)
{
    circle r = {a, z, (u64)dot(a, a, z)};
    return ring_node(q, &r, q->m - 1, opened) || ring_node(p, &r, p->m - 1, opened);
}

static sheet sheet_of(const twin_word *w, twin_size len)
{
    sheet s = {w, (twin_size)w[len - 4], (twin_size)w[len - 3]};
    return s;
}

/* the page of two sheets that open; the words are as many as the points of P need */
static void page_on(const sheet *p, const sheet *q, twin_key key, twin_size size, u64 *bits, twin_size words, twin_page_answer *r)
{
    for (twin_size j = 0; j < q->n; j++) {
        unsigned qid = (unsigned)q->w[3 * j];
        if (qid < key.q) continue;
        spot a = spot_at(q, j);
        kept k;
        k.bits = bits, k.words = words, k.opened = 0, k.last = ~0ul, k.count = 0;
        wipe(bits, words);
        if (p->m) filter_node(p, a, p->m - 1, &k);
        r->opened += k.opened;
        for (twin_size w = 0; w < words; w++) {
            for (u64 b = bits[w]; b; b &= b - 1) {
                twin_size i = 64 * w + (twin_size)__builtin_ctzll(b);
                unsigned pid = (unsigned)p->w[3 * i];
                if (qid == key.q && pid <= key.p) continue;
                spot z = spot_at(p, i);
                u64 opened = 0;
                int hit = blocked(p, q, a, z, &opened);
                r->opened += opened;
                if (hit) continue;
                if (r->count == size) return;
                twin_pair v = {qid, pid, (u64)dot(a, a, z)};
                r->pairs[r->count++] = v;
            }
        }
    }
    r->end = 1;
}

twin_page_answer twin_page(const twin_word *pw, twin_size plen, const twin_word *qw, twin_size qlen, twin_key key, twin_size size, twin_bits *bits, twin_size len)
{
    twin_page_answer r = {0};
    if ((r.number = twin_open(pw, plen)) || (r.number = twin_open(qw, qlen))) return r;
    sheet p = sheet_of(pw, plen), q = sheet_of(qw, qlen);
    twin_size words = words_for(p.n);
    if (len < words) { r.number = 24; return r; }
    page_on(&p, &q, key, size, bits, words, &r);
    wipe(bits, words);
    return r;
}

/* ---- one run per leaf: one walk of P for all chambers of a leaf of Q, a kept set for each */

typedef struct { spot q[16]; twin_size c; u64 *bits; twin_size words; u64 opened; } crowd;

/* Whether another chamber of the leaf, or a point kept for chamber k, drops what is tried: again a function for boxes, and one for places. */
#define RULED_OUT(name, tried, drops) \
    static inline __attribute__((always_inline)) int name(const sheet *s, const crowd *g, twin_size k, tried z) \
    { \
        for (twin_size h = 0; h < g->c; h++) \
            if (h != k && drops(g->q[k], g->q[h], z)) return 1; \
        for (twin_size w = 0; w < g->words; w++) \
            for (u64 b = g->bits[k * g->words + w]; b; b &= b - 1) \
                if (drops(g->q[k], spot_at(s, 64 * w + (twin_size)__builtin_ctzll(b)), z)) return 1; \
        return 0; \
    }
RULED_OUT(rules_box, boxed, drops_box)
RULED_OUT(rules_place, spot, drops_place)

static void crowd_node(const sheet *s, twin_size j, crowd *g)
{
    const twin_word *a = s->w + 5 * s->n + 7 * j;
    boxed o = box_of(a);
    twin_size k = 0;
    while (k < g->c && rules_box(s, g, k, o)) k++;
    if (k == g->c) return;
    g->opened++;
    twin_size first = (twin_size)a[1], end = first + (twin_size)a[2];
    if (a[0]) {
        for (twin_size c = first; c < end; c++) crowd_node(s, c, g);
        return;
    }
    for (twin_size c = first; c < end; c++) {
        twin_size i = (twin_size)s->w[3 * s->n + c];
        spot z = spot_at(s, i);
        for (k = 0; k < g->c; k++) if (!rules_place(s, g, k, z)) g->bits[k * g->words + i / 64] |= 1ul << (i % 64);
    }
}

/* With TWIN_CLOCK the nanoseconds of the parts of all runs so far: the checks of both sheets, the walks of P, the ring walks, the pairs written. */
#ifdef TWIN_CLOCK
typedef struct { long sec, nsec; } moment;
int clock_gettime(int clock, moment *at);
unsigned long twin_spent[4];
static unsigned long part(unsigned long from, int which)
{
    moment m;
    clock_gettime(2, &m);
    unsigned long at = (unsigned long)m.sec * 1000000000ul + (unsigned long)m.nsec;
    if (which >= 0) twin_spent[which] += at - from;
    return at;
}
#else
static unsigned long part(unsigned long from, int which) { (void)which; return from; }
#endif

/* the run of a leaf of two sheets that open, on 16 times as many words as the points of P need; 16 where the pairs outnumber the slots */
static twin_run_answer run_on(const sheet *p, const sheet *q, twin_size v, twin_pair *slots, twin_size room, u64 *bits, twin_size words, unsigned long from)
{
    twin_run_answer r = {0, 0, 0}, bad = {16, 0, 0};
    const twin_word *a = q->w + 5 * q->n + 7 * v, *at = q->w + 3 * q->n + a[1];
    crowd g = {.c = (twin_size)a[2], .bits = bits, .words = words, .opened = 0};
    for (twin_size k = 0; k < g.c; k++) g.q[k] = spot_at(q, (twin_size)at[k]);
    wipe(bits, 16 * words);
    if (p->m) crowd_node(p, p->m - 1, &g);
    from = part(from, 1);
    r.opened = g.opened;
    for (twin_size k = 0; k < g.c; k++)
        for (twin_size w = 0; w < words; w++)
            for (u64 b = bits[k * words + w]; b; b &= b - 1) {
                twin_size i = 64 * w + (twin_size)__builtin_ctzll(b);
                spot z = spot_at(p, i);
                u64 opened = 0;
                if (blocked(p, q, g.q[k], z, &opened)) bits[k * words + w] &= ~(1ul << (i % 64));
                else r.count++;
                r.opened += opened;
            }
    from = part(from, 2);
    if (r.count > room) return bad;
    twin_size n = 0;
    for (twin_size k = 0; k < g.c; k++)
        for (twin_size w = 0; w < words; w++)
            for (u64 b = bits[k * words + w]; b; b &= b - 1) {
                twin_size i = 64 * w + (twin_size)__builtin_ctzll(b);
                twin_pair x = {(unsigned)q->w[3 * at[k]], (unsigned)p->w[3 * i], (u64)dot(g.q[k], g.q[k], spot_at(p, i))};
                slots[n++] = x;
            }
    wipe(bits, 16 * words);
    part(from, 3);
    return r;
}

/* A copy of the lent words is kept for the refusal by 16, which is known only when they have been worked on. */
static twin_run_answer run_kept(const sheet *p, const sheet *q, twin_size v, twin_pair *slots, twin_size room, u64 *bits, twin_size words, unsigned long from, u64 *was)
{
    for (twin_size w = 0; w < 16 * words; w++) was[w] = bits[w];
    twin_run_answer r = run_on(p, q, v, slots, room, bits, words, from);
    for (twin_size w = 0; r.number && w < 16 * words; w++) bits[w] = was[w];
    return r;
}

static twin_run_answer run_first(const sheet *p, const sheet *q, twin_size v, twin_pair *slots, twin_size room, u64 *bits, twin_size words, unsigned long from)
{
    u64 was[16 * 16];
    return run_kept(p, q, v, slots, room, bits, words, from, was);
}

static twin_run_answer run_second(const sheet *p, const sheet *q, twin_size v, twin_pair *slots, twin_size room, u64 *bits, twin_size words, unsigned long from)
{
    u64 was[16 * 938];
    return run_kept(p, q, v, slots, room, bits, words, from, was);
}

twin_run_answer twin_run(const twin_word *pw, twin_size plen, const twin_word *qw, twin_size qlen, twin_size v, twin_pair *slots, twin_size room, twin_bits *bits, twin_size len)
{
    twin_run_answer bad = {0, 0, 0};
    unsigned long from = part(0, -1);
    if ((bad.number = twin_open(pw, plen)) || (bad.number = twin_open(qw, qlen))) return bad;
    sheet p = sheet_of(pw, plen), q = sheet_of(qw, qlen);
    bad.number = 19;
    if (v >= q.m || q.w[5 * q.n + 7 * v]) return bad;
    twin_size words = words_for(p.n);
    bad.number = 24;
    if (len < 16 * words) return bad;
    from = part(from, 0);
    return (words <= 16 ? run_first : run_second)(&p, &q, v, slots, room, bits, words, from);
}

/* the same along the streets: their distances, and no record at an end's place blocks */
static i64 streets(spot a, spot b) { i64 x = a.x - b.x, y = a.y - b.y; return (x < 0 ? -x : x) + (y < 0 ? -y : y); }

static int blocks_streets(spot a, spot b, spot z)
{
    spot twice = {2 * z.x, 2 * z.y}, both = {a.x + b.x, a.y + b.y};
    return streets(twice, both) <= streets(a, b) && !same(z, a) && !same(z, b);
}

static u64 size_circle(spot a, spot b) { return (u64)dot(a, a, b); }
static u64 size_streets(spot a, spot b) { return (u64)(streets(a, b) * streets(a, b)); }

static inline __attribute__((always_inline)) twin_size brute(const sheet *p, const sheet *q, twin_pair *out, twin_size room,
                                                             int (*blocked)(spot, spot, spot), u64 (*size)(spot, spot))
{
    twin_size count = 0;
    for (twin_size j = 0; j < q->n; j++) {
        spot a = spot_at(q, j);
        for (twin_size i = 0; i < p->n; i++) {
            spot b = spot_at(p, i);
            int hit = 0;
            for (twin_size k = 0; k < q->n && !hit; k++) hit = blocked(a, b, spot_at(q, k));
            for (twin_size k = 0; k < p->n && !hit; k++) hit = blocked(a, b, spot_at(p, k));
            if (hit) continue;
            if (count < room) { out[count].q = (unsigned)q->w[3 * j]; out[count].p = (unsigned)p->w[3 * i]; out[count].size = size(a, b); }
            count++;
        }
    }
    return count;
}

twin_size twin_brute(const twin_word *pw, twin_size plen, const twin_word *qw, twin_size qlen, int grid, twin_pair *out, twin_size room)
{
    sheet p = sheet_of(pw, plen), q = sheet_of(qw, qlen);
    return grid ? brute(&p, &q, out, room, blocks_streets, size_streets) : brute(&p, &q, out, room, blocks, size_circle);
}
