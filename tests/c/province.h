/*
 * The points of a province, for sheets of form 2, always the same for one seed; and the order that packs them well. For tests/c/calls.c and bench/province.c.
 * Half of the points stand anywhere on the map, a third in towns, which all provinces share, some on a grid of streets, some at the place of the point before;
 * the first four take the corners of the map.
 */
#ifndef PROVINCE_H
#define PROVINCE_H

#include <stdbool.h>
#include <stddef.h>
#include <stdint.h>

#define PROVINCE_POINTS 60000
#define PROVINCE_EDGE 1000000000
#define PROVINCE_TOWNS 64

static inline uint64_t province_draw(uint64_t *state, uint64_t below) {
    *state ^= *state << 13;
    *state ^= *state >> 7;
    *state ^= *state << 17;
    return (*state >> 11) % below;
}

/* a number at most so far from the middle, on the map */
static inline int32_t province_near(uint64_t *state, int32_t middle, int32_t reach) {
    int64_t v = (int64_t)middle - reach + (int64_t)province_draw(state, 2 * (uint64_t)reach + 1);
    return (int32_t)(v < -PROVINCE_EDGE ? -PROVINCE_EDGE : v > PROVINCE_EDGE ? PROVINCE_EDGE : v);
}

/* n points of three words, ids ascending; the seed is not 0 */
static inline void province_points(int32_t *points, size_t n, uint64_t seed) {
    static int32_t towns[PROVINCE_TOWNS][2];
    uint64_t state = 88172645463325252ull;
    for (size_t k = 0; k < PROVINCE_TOWNS; k++)
        for (int axis = 0; axis < 2; axis++) towns[k][axis] = province_near(&state, 0, PROVINCE_EDGE - 10000000);
    state ^= seed * 0x9e3779b97f4a7c15ull;
    int32_t id = 0;
    for (size_t i = 0; i < n; i++) {
        int32_t *a = points + 3 * i;
        const int32_t *town = towns[province_draw(&state, PROVINCE_TOWNS)];
        uint64_t way = i ? province_draw(&state, 24) : 0;
        id += 1 + (int32_t)province_draw(&state, 33000), a[0] = id;
        for (int axis = 0; axis < 2; axis++)
            if (i < 4) a[1 + axis] = (i >> axis & 1) ? PROVINCE_EDGE : -PROVINCE_EDGE;
            else if (way < 13) a[1 + axis] = province_near(&state, 0, PROVINCE_EDGE);
            else if (way < 21) a[1 + axis] = province_near(&state, town[axis], 5000000);
            else if (way < 23) a[1 + axis] = 10000000 * province_near(&state, 0, 100);
            else a[1 + axis] = a[axis - 2];
    }
}

static inline bool province_before(const int32_t *points, size_t axis, int32_t a, int32_t b) {
    int32_t u = points[3 * (size_t)a + axis], v = points[3 * (size_t)b + axis];
    return u < v || (u == v && a < b);
}

static inline void province_sort(const int32_t *points, size_t axis, int32_t *order, size_t n) {
    for (size_t gap = n / 2; gap; gap /= 2)
        for (size_t i = gap; i < n; i++) {
            int32_t v = order[i];
            size_t k = i;
            for (; k >= gap && province_before(points, axis, v, order[k - gap]); k -= gap) order[k] = order[k - gap];
            order[k] = v;
        }
}

/* sort-tile-recursive: slices by x, each by y */
static inline void province_tile(const int32_t *points, int32_t *order, size_t n) {
    size_t leaves = (n + 15) / 16, slices = 1;
    while (slices * slices < leaves) slices++;
    size_t deep = 16 * ((leaves + slices - 1) / slices);
    for (size_t i = 0; i < n; i++) order[i] = (int32_t)i;
    province_sort(points, 1, order, n);
    for (size_t at = 0; at < n; at += deep) province_sort(points, 2, order + at, n - at < deep ? n - at : deep);
}

#endif
