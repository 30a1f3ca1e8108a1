/* The list by seeds. For each chamber q:
   1. droppers: places of records of both sheets, from the leaf of q and the two beside it, and from a leaf of P near q and the two beside that;
   2. the walk of P from the root: a box or a place that a dropper drops is passed over, any other place is a candidate, and a dropper from then on;
   3. each candidate is tried once more, then walked for over Q and P.
   A record at u drops a place z, for q, where u blocks the pair of q and z. Which droppers there are is free: whatever is dropped is no pair. */
#include "seeded.h"

typedef int64_t i64;

enum { DROPPERS = 24, LEVEL = 0, FIRST = 1, COUNT = 2, XMIN = 3, YMIN = 4, XMAX = 5, YMAX = 6 };

/* a dropper, from q: where it is, and the square of how far */
typedef struct { i64 x, y, d; } dropper;
typedef struct { i64 qx, qy; int count, last; dropper at[DROPPERS]; } line;
typedef struct { const seeded_tree *p; line near; int32_t *found; size_t many; } course;

seeded_tree seeded_read(const int32_t *sheet, size_t len, int32_t *room)
{
    size_t n = (size_t)sheet[len - 4], m = (size_t)sheet[len - 3];
    seeded_tree t = {n, m, 0, sheet + 5 * n, sheet + 4 * n, room, room + n, room + 2 * n};
    for (size_t k = 0; k < n; k++) {
        const int32_t *a = sheet + 3 * sheet[3 * n + k];
        t.id[k] = a[0], t.x[k] = a[1], t.y[k] = a[2];
    }
    while (t.leaves < m && t.nodes[7 * t.leaves + LEVEL] == 0) t.leaves++;
    return t;
}

static inline int drops(const dropper *u, i64 x, i64 y)
{
    i64 s = u->x * x + u->y * y;
    return s > u->d || (s == u->d && (x != u->x || y != u->y));
}

static inline int drops_box(const dropper *u, i64 x0, i64 y0, i64 x1, i64 y1)
{
    i64 s = u->x * (u->x > 0 ? x0 : x1) + u->y * (u->y > 0 ? y0 : y1);
    return s > u->d || (s == u->d && !(x0 <= u->x && u->x <= x1 && y0 <= u->y && u->y <= y1));
}

static inline int any_drops(line *l, i64 x, i64 y)
{
    if (l->last < l->count && drops(&l->at[l->last], x, y)) return 1;
    for (int k = 0; k < l->count; k++)
        if (drops(&l->at[k], x, y)) { l->last = k; return 1; }
    return 0;
}

static inline int any_drops_box(line *l, const int32_t *o)
{
    i64 x0 = o[XMIN] - l->qx, y0 = o[YMIN] - l->qy, x1 = o[XMAX] - l->qx, y1 = o[YMAX] - l->qy;
    if (l->last < l->count && drops_box(&l->at[l->last], x0, y0, x1, y1)) return 1;
    for (int k = 0; k < l->count; k++)
        if (drops_box(&l->at[k], x0, y0, x1, y1)) { l->last = k; return 1; }
    return 0;
}

/* one more dropper: those that it drops go, and where there is no room the farthest */
static inline void join(line *l, i64 x, i64 y)
{
    dropper v = {x, y, x * x + y * y};
    int stay = 0;
    for (int k = 0; k < l->count; k++)
        if (!drops(&v, l->at[k].x, l->at[k].y)) l->at[stay++] = l->at[k];
    l->count = stay;
    if (stay < DROPPERS) { l->at[l->count++] = v; return; }
    int far = 0;
    for (int k = 1; k < DROPPERS; k++)
        if (l->at[k].d > l->at[far].d) far = k;
    if (v.d < l->at[far].d) l->at[far] = v;
}

static void seed(line *l, const seeded_tree *t, size_t leaf)
{
    if (leaf >= t->leaves) return;
    const int32_t *o = t->nodes + 7 * leaf;
    for (int32_t k = o[FIRST]; k < o[FIRST] + o[COUNT]; k++) {
        i64 x = t->x[k] - l->qx, y = t->y[k] - l->qy;
        if ((x | y) && !any_drops(l, x, y)) join(l, x, y);
    }
}

static void seed_about(line *l, const seeded_tree *t, size_t leaf)
{
    seed(l, t, leaf);
    if (leaf) seed(l, t, leaf - 1);
    seed(l, t, leaf + 1);
}

static size_t leaf_of(const seeded_tree *t, int32_t place)
{
    size_t low = 0, high = t->leaves;
    while (high - low > 1) {
        size_t mid = (low + high) / 2;
        if (t->nodes[7 * mid + FIRST] <= place) low = mid; else high = mid;
    }
    return low;
}

static inline i64 outside(i64 low, i64 high, i64 v) { return v > high ? v - high : v < low ? low - v : 0; }

static size_t leaf_near(const seeded_tree *t, i64 x, i64 y)
{
    const int32_t *o = t->nodes + 7 * (t->m - 1);
    while (o[LEVEL]) {
        const int32_t *from = t->nodes + 7 * o[FIRST], *near = from;
        i64 least = 1ll << 62;
        for (const int32_t *b = from; b < from + 7 * o[COUNT]; b += 7) {
            i64 dx = outside(b[XMIN], b[XMAX], x), dy = outside(b[YMIN], b[YMAX], y), d = dx > dy ? dx : dy;
            if (d < least) least = d, near = b;
        }
        o = near;
    }
    return (size_t)(o - t->nodes) / 7;
}

/* below a node whose box no dropper drops */
static void filter(course *c, const int32_t *o)
{
    const seeded_tree *t = c->p;
    line *l = &c->near;
    if (o[LEVEL]) {
        for (int32_t k = o[FIRST]; k < o[FIRST] + o[COUNT]; k++)
            if (!any_drops_box(l, t->nodes + 7 * k)) filter(c, t->nodes + 7 * k);
        return;
    }
    for (int32_t k = o[FIRST]; k < o[FIRST] + o[COUNT]; k++) {
        i64 x = t->x[k] - l->qx, y = t->y[k] - l->qy;
        if ((x | y) && any_drops(l, x, y)) continue;
        c->found[c->many++] = k;
        if (x | y) join(l, x, y);
    }
}

/* a pair from q: the other end, and half of it, rounded down, where the measure z (z - c) is least over whole z */
typedef struct { i64 qx, qy, cx, cy, hx, hy; } circle;

static inline i64 between(i64 low, i64 high, i64 v) { return v < low ? low : v > high ? high : v; }

static inline int meets(const circle *c, const int32_t *o)
{
    i64 x = between(o[XMIN] - c->qx, o[XMAX] - c->qx, c->hx), y = between(o[YMIN] - c->qy, o[YMAX] - c->qy, c->hy);
    return x * (x - c->cx) + y * (y - c->cy) <= 0;
}

static int blocked_below(const circle *c, const seeded_tree *t, const int32_t *o)
{
    if (o[LEVEL]) {
        for (int32_t k = o[FIRST]; k < o[FIRST] + o[COUNT]; k++)
            if (meets(c, t->nodes + 7 * k) && blocked_below(c, t, t->nodes + 7 * k)) return 1;
        return 0;
    }
    for (int32_t k = o[FIRST]; k < o[FIRST] + o[COUNT]; k++) {
        i64 x = t->x[k] - c->qx, y = t->y[k] - c->qy, s = x * (x - c->cx) + y * (y - c->cy);
        if (s < 0 || (s == 0 && (x | y) && (x != c->cx || y != c->cy))) return 1;
    }
    return 0;
}

static int blocked(const circle *c, const seeded_tree *t)
{
    const int32_t *root = t->nodes + 7 * (t->m - 1);
    return meets(c, root) && blocked_below(c, t, root);
}

static void by_p(seeded_pair *a, size_t n)
{
    for (size_t gap = n > 32 ? n / 2 : 1; gap && n; gap /= 2)
        for (size_t i = gap; i < n; i++) {
            seeded_pair v = a[i];
            size_t k = i;
            for (; k >= gap && v.p < a[k - gap].p; k -= gap) a[k] = a[k - gap];
            a[k] = v;
        }
}

size_t seeded_list(const seeded_tree *p, const seeded_tree *q, seeded_pair *out, size_t room, int32_t *lent)
{
    size_t count = 0;
    course c = {p, {0, 0, 0, 0, {{0, 0, 0}}}, lent, 0};
    if (!p->m) return 0;
    for (size_t j = 0; j < q->n; j++) {
        int32_t place = q->rank[j];
        i64 qx = q->x[place], qy = q->y[place];
        c.near.qx = qx, c.near.qy = qy, c.near.count = c.near.last = 0, c.many = 0;
        seed_about(&c.near, q, leaf_of(q, place));
        seed_about(&c.near, p, leaf_near(p, qx, qy));
        if (!any_drops_box(&c.near, p->nodes + 7 * (p->m - 1))) filter(&c, p->nodes + 7 * (p->m - 1));
        size_t from = count;
        for (size_t i = 0; i < c.many; i++) {
            int32_t k = c.found[i];
            i64 x = p->x[k] - qx, y = p->y[k] - qy;
            circle pair = {qx, qy, x, y, x >> 1, y >> 1};
            if ((x | y) && (any_drops(&c.near, x, y) || blocked(&pair, q) || blocked(&pair, p))) continue;
            if (count < room) out[count] = (seeded_pair){(uint32_t)q->id[place], (uint32_t)p->id[k], (uint64_t)(x * x + y * y)};
            count++;
        }
        if (count <= room) by_p(out + from, count - from);
    }
    return count;
}
