// The list by CGAL's Delaunay triangulation of the different places, and a circle test an edge. Only these two are timed: which records share a place, and the pairs of
// records, are made beside it.
#include <CGAL/Delaunay_triangulation_2.h>
#include <CGAL/Exact_predicates_inexact_constructions_kernel.h>
#include <CGAL/Triangulation_vertex_base_with_info_2.h>
#include <algorithm>
#include <cstdint>
#include <ctime>
#include <map>
#include <utility>
#include <vector>

namespace {
using Kernel = CGAL::Exact_predicates_inexact_constructions_kernel;
using Base = CGAL::Triangulation_vertex_base_with_info_2<int, Kernel>;
using Delaunay = CGAL::Delaunay_triangulation_2<Kernel, CGAL::Triangulation_data_structure_2<Base>>;

struct Place {
    int64_t x, y;
    std::vector<uint32_t> p, q;
};

long now() {
    timespec t;
    clock_gettime(CLOCK_PROCESS_CPUTIME_ID, &t);
    return t.tv_sec * 1000000000l + t.tv_nsec;
}

std::vector<Place> places_of(const int32_t *p, size_t np, const int32_t *q, size_t nq) {
    std::map<std::pair<int32_t, int32_t>, size_t> seen;
    std::vector<Place> places;
    for (int side = 0; side < 2; side++)
        for (size_t i = 0; i < (side ? nq : np); i++) {
            const int32_t *a = (side ? q : p) + 3 * i;
            auto found = seen.insert({{a[1], a[2]}, places.size()});
            if (found.second) places.push_back({a[1], a[2], {}, {}});
            Place &at = places[found.first->second];
            (side ? at.q : at.p).push_back((uint32_t)a[0]);
        }
    return places;
}

// whether the place z is outside the circle on a and b
bool is_out(const Place &a, const Place &b, const Place &z) { return (a.x - z.x) * (b.x - z.x) + (a.y - z.y) * (b.y - z.y) > 0; }

bool can_pair(const Place &a, const Place &b) { return (!a.p.empty() && !b.q.empty()) || (!a.q.empty() && !b.p.empty()); }
}  // namespace

extern "C" long cgal_list(const int32_t *p, size_t np, const int32_t *q, size_t nq, uint32_t *pairs, size_t room, size_t *count) {
    std::vector<Place> places = places_of(p, np, q, nq);
    std::vector<std::pair<int, int>> edges;
    long begun = now();
    std::vector<std::pair<Kernel::Point_2, int>> points;
    points.reserve(places.size());
    for (size_t i = 0; i < places.size(); i++) points.push_back({Kernel::Point_2((double)places[i].x, (double)places[i].y), (int)i});
    Delaunay t(points.begin(), points.end());
    for (auto e = t.finite_edges_begin(); e != t.finite_edges_end(); ++e) {
        auto face = e->first;
        int i = e->second;
        if (t.dimension() < 2) {
            edges.push_back({face->vertex(0)->info(), face->vertex(1)->info()});
            continue;
        }
        int u = face->vertex((i + 1) % 3)->info(), v = face->vertex((i + 2) % 3)->info();
        const Place &a = places[(size_t)u], &b = places[(size_t)v];
        if (!can_pair(a, b)) continue;
        auto beyond = face->neighbor(i);
        bool clear = t.is_infinite(face) || is_out(a, b, places[(size_t)face->vertex(i)->info()]);
        clear = clear && (t.is_infinite(beyond) || is_out(a, b, places[(size_t)beyond->vertex(beyond->index(face))->info()]));
        if (clear) edges.push_back({u, v});
    }
    long took = now() - begun;
    std::vector<std::pair<uint32_t, uint32_t>> found;
    auto both = [&](const Place &a, const Place &b) {
        for (uint32_t j : a.q)
            for (uint32_t i : b.p) found.push_back({j, i});
    };
    for (auto e : edges) both(places[(size_t)e.first], places[(size_t)e.second]), both(places[(size_t)e.second], places[(size_t)e.first]);
    for (const Place &a : places) both(a, a);
    std::sort(found.begin(), found.end());
    for (size_t i = 0; i < found.size() && i < room; i++) pairs[2 * i] = found[i].first, pairs[2 * i + 1] = found[i].second;
    *count = found.size();
    return took;
}
