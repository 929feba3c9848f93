// cgal KIND ORDER N [REMOVALS [HINTS]]: what checks/bench/benchmark does, with CGAL's triangulations, over the
// same points. KIND is plain (each search begins at the face where the last one ended), hierarchy
// (of triangulations), range: a plain one into which all points are inserted by one call, or only: a
// plain one into which they are inserted one after another. With range and only, vertices are removed
// then, and no other call is made.
#include <CGAL/Delaunay_triangulation_2.h>
#include <CGAL/Exact_predicates_inexact_constructions_kernel.h>
#include <CGAL/Triangulation_hierarchy_2.h>

#include "points.h"

typedef CGAL::Exact_predicates_inexact_constructions_kernel Kernel;
typedef CGAL::Delaunay_triangulation_2<Kernel> Plain;
typedef CGAL::Triangulation_hierarchy_vertex_base_2<CGAL::Triangulation_vertex_base_2<Kernel>> LevelVertex;
typedef CGAL::Triangulation_data_structure_2<LevelVertex, CGAL::Triangulation_face_base_2<Kernel>> Levels;
typedef CGAL::Triangulation_hierarchy_2<CGAL::Delaunay_triangulation_2<Kernel, Levels>> Hierarchy;

// Points are made into CGAL's when they are used, as little as that costs.
static Kernel::Point_2 to_cgal(const Point& p) { return Kernel::Point_2((double)p.x, (double)p.y); }

template <class T> static void tell_counts(const char* word, const T& t) {
    size_t vertices = t.number_of_vertices(), faces = t.dimension() == 2 ? t.number_of_faces() : 0;
    size_t edges = vertices < 2 ? 0 : t.dimension() == 2 ? vertices + faces - 1 : vertices - 1;
    printf("%s: %zu vertices, %zu edges, %zu faces\n", word, vertices, edges, faces);
}

template <class T> static void run(Order order, uint32_t count, uint32_t removals) {
    constexpr bool hierarchy = std::is_same_v<T, Hierarchy>;
    Random random;
    std::vector<Point> list = points(order, count, random), asked = queries(order, count, random);
    // The list of vertices, for the removals, is resident before the measurement.
    std::vector<typename T::Vertex_handle> handles(count);
    double calls = std::max<size_t>(count, 1);


    uint64_t before = status("VmRSS:");
    double start = nanoseconds();
    T t;
    typename T::Face_handle face;
    for (uint32_t i = 0; i < count; i++) {
        if constexpr (hierarchy) handles[i] = t.insert(to_cgal(list[i]));
        else { handles[i] = t.insert(to_cgal(list[i]), face); face = handles[i]->face(); }
    }
    tell_insertion(start, before, count);
    tell_counts("inserted", t);

    uint32_t on_vertices = 0, inside = 0, outside = 0;
    start = nanoseconds();
    for (auto& p : asked) {
        typename T::Locate_type kind;
        int index;
        typename T::Face_handle found;
        if constexpr (hierarchy) found = t.locate(to_cgal(p), kind, index);
        else { found = t.locate(to_cgal(p), kind, index, face); face = found; }
        if (kind == T::VERTEX) on_vertices++;
        else if (kind == T::EDGE || kind == T::FACE) inside++;
        else outside++;
    }
    fprintf(stderr, "locate %.0f ns\n", (nanoseconds() - start) / calls);
    printf("located: %u on vertices, %u inside, %u outside\n", on_vertices, inside, outside);

    uint64_t sum = 0;
    start = nanoseconds();
    for (auto& p : asked) {
        typename T::Vertex_handle nearest;
        if constexpr (hierarchy) nearest = t.nearest_vertex(to_cgal(p));
        else { nearest = t.nearest_vertex(to_cgal(p), face); face = nearest->face(); }
        uint64_t x = (uint64_t)((int64_t)nearest->point().x() - p.x);
        uint64_t y = (uint64_t)((int64_t)nearest->point().y() - p.y);
        sum += x * x + y * y;
    }
    fprintf(stderr, "nearest %.0f ns\n", (nanoseconds() - start) / calls);
    printf("nearest: squared distances %lld\n", (long long)sum);

    uint64_t digest = 0, removed = 0;
    start = nanoseconds();
    for (; removed < removals && !handles.empty(); removed++) {
        size_t index = random.below(handles.size());
        typename T::Vertex_handle vertex = handles[index];
        uint64_t x = (int64_t)vertex->point().x(), y = (int64_t)vertex->point().y();
        t.remove(vertex);
        handles[index] = handles.back();
        handles.pop_back();
        digest = (digest * 31 + x) * 31 + y;
    }
    fprintf(stderr, "remove %.0f ns\n", (nanoseconds() - start) / std::max<uint64_t>(removed, 1));
    printf("removed: %llu vertices, digest %lld\n", (unsigned long long)removed, (long long)digest);
    tell_counts("left", t);
}

// Removes random vertices of a list, as the benchmark does after `bulk` and `only`.
static void remove_random(Plain& t, std::vector<Plain::Vertex_handle> handles, Random& random, uint32_t removals) {
    uint64_t removed = 0;
    double start = nanoseconds();
    for (; removed < removals && !handles.empty(); removed++) {
        size_t index = random.below(handles.size());
        t.remove(handles[index]);
        handles[index] = handles.back();
        handles.pop_back();
    }
    fprintf(stderr, "remove %.0f ns\n", (nanoseconds() - start) / std::max<uint64_t>(removed, 1));
    printf("removed: %llu vertices\n", (unsigned long long)removed);
    if (t.number_of_vertices() == 0) tell_counts("left", t);
}

static void run_insertion(bool at_once, Order order, uint32_t count, uint32_t removals) {
    Random random;
    std::vector<Kernel::Point_2> list;
    for (auto& p : points(order, count, random)) list.push_back(to_cgal(p));
    std::vector<Plain::Vertex_handle> handles;
    uint64_t before = status("VmRSS:");
    double start = nanoseconds();
    Plain t;
    Plain::Face_handle face;
    if (at_once) t.insert(list.begin(), list.end());
    else for (auto& p : list) face = t.insert(p, face)->face();
    tell_insertion(start, before, count);
    tell_counts("inserted", t);
    for (auto it = t.finite_vertices_begin(); it != t.finite_vertices_end(); ++it) handles.push_back(it);
    remove_random(t, handles, random, removals);
}

int main(int count, char** words) {
    if (count < 4) return fprintf(stderr, "cgal KIND ORDER N [REMOVALS]\n"), 2;
    if (order_named(words[2]) < 0) return fprintf(stderr, "no such order\n"), 2;
    Order order = (Order)order_named(words[2]);
    uint32_t points = strtoul(words[3], nullptr, 10);
    uint32_t removals = count > 4 ? strtoul(words[4], nullptr, 10) : points;
    bool at_once = !strcmp(words[1], "range");
    if (at_once || !strcmp(words[1], "only")) run_insertion(at_once, order, points, removals);
    else if (!strcmp(words[1], "hierarchy")) run<Hierarchy>(order, points, removals);
    else run<Plain>(order, points, removals);
}
