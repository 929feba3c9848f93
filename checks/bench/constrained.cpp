// constrained ORDER N WHAT ..: what checks/bench/benchmark does by its `questions`, with CGAL's constrained Delaunay
// triangulation beside a hierarchy, over the same points; shapes with its point set, which has no edges in shapes.
#include <CGAL/Constrained_Delaunay_triangulation_2.h>
#include <CGAL/Exact_predicates_inexact_constructions_kernel.h>
#include <CGAL/Point_set_2.h>
#include <CGAL/Triangulation_hierarchy_2.h>

#include "questions.h"

typedef CGAL::Exact_predicates_inexact_constructions_kernel Kernel;
typedef CGAL::Triangulation_hierarchy_vertex_base_2<CGAL::Triangulation_vertex_base_2<Kernel>> LevelVertex;
typedef CGAL::Triangulation_data_structure_2<LevelVertex, CGAL::Constrained_triangulation_face_base_2<Kernel>> Levels;
typedef CGAL::Constrained_Delaunay_triangulation_2<Kernel, Levels, CGAL::No_constraint_intersection_tag> Constrained;
typedef CGAL::Triangulation_hierarchy_2<Constrained> Hierarchy;
typedef CGAL::Point_set_2<Kernel> PointSet;
typedef Hierarchy::Vertex_handle Vertex;

static Kernel::Point_2 to_cgal(const Point& p) { return Kernel::Point_2((double)p.x, (double)p.y); }

static size_t count_edges(const Hierarchy& t) { return t.number_of_vertices() + t.number_of_faces() - 1; }

static size_t count_constraints(const Hierarchy& t) {
    size_t count = 0;
    for (auto edge : t.finite_edges()) count += t.is_constrained(edge);
    return count;
}

// The walk is along the whole line: it is over at the face where the segment ends, or outside of the hull.
static uint64_t edges_crossed(const Hierarchy& t, const Line& line) {
    Kernel::Point_2 from = to_cgal(line.first), to = to_cgal(line.second);
    Hierarchy::Face_handle first = t.locate(from);
    auto faces = t.line_walk(from, to, first);
    if (faces == nullptr) return 0;
    Hierarchy::Face_handle last = t.locate(to, faces);
    uint64_t count = 0;
    for (; !t.is_infinite(faces); ++faces) {
        count++;
        if (Hierarchy::Face_handle(faces) == last) break;
    }
    return count + t.is_infinite(first) + t.is_infinite(last) - (count > 0);
}

static void ask_lines(Order order, uint32_t count) {
    Random random;
    Hierarchy t;
    for (auto& p : points(order, count, random)) t.insert(to_cgal(p));
    for (auto& kind : LINE_KINDS) {
        std::vector<Line> asked = lines(kind, random);
        uint64_t crossed = 0;
        double start = nanoseconds();
        for (auto& line : asked) crossed += edges_crossed(t, line);
        fprintf(stderr, "%s %.0f ns\n", kind.name, (nanoseconds() - start) / asked.size());
        printf("%s: %llu edges crossed\n", kind.name, (unsigned long long)crossed);
    }
}

static void ask_shapes(Order order, uint32_t count, uint32_t elements) {
    Random random;
    PointSet t;
    PointSet::Face_handle face;
    for (auto& p : points(order, count, random)) face = t.insert(to_cgal(p), face)->face();
    Shapes shapes(count, elements, random);
    uint64_t in_circles = 0, in_squares = 0;
    std::vector<PointSet::Vertex_handle> found;
    double start = nanoseconds();
    for (auto& c : shapes.centers) {
        found.clear();
        t.range_search(Kernel::Circle_2(to_cgal(c), (double)(shapes.radius * shapes.radius)), std::back_inserter(found));
        in_circles += found.size();
    }
    fprintf(stderr, "vertices_in_circle %.0f ns\n", (nanoseconds() - start) / shapes.centers.size());
    start = nanoseconds();
    for (auto& c : shapes.centers) {
        double low_x = c.x - shapes.reach, low_y = c.y - shapes.reach, high_x = c.x + shapes.reach, high_y = c.y + shapes.reach;
        found.clear();
        t.range_search({low_x, low_y}, {high_x, low_y}, {high_x, high_y}, {low_x, high_y}, std::back_inserter(found));
        in_squares += found.size();
    }
    fprintf(stderr, "vertices_in_square %.0f ns\n", (nanoseconds() - start) / shapes.centers.size());
    printf("%zu circles: %llu vertices; squares: %llu vertices\n", shapes.centers.size(), (unsigned long long)in_circles,
           (unsigned long long)in_squares);
}

static void constrain(Order order, uint32_t count, const std::string& kind) {
    Random random;
    Plan plan(order, count, kind, random);
    Hierarchy t;
    std::vector<Vertex> handles;
    for (auto& p : plan.points) handles.push_back(t.insert(to_cgal(p)));
    double start = nanoseconds();
    for (auto& pair : plan.joined)
        if (handles[pair.first] != handles[pair.second]) t.insert_constraint(handles[pair.first], handles[pair.second]);
    fprintf(stderr, "add %.0f ns\n", (nanoseconds() - start) / plan.joined.size());
    size_t all = count_constraints(t);
    printf("%zu pairs joined: %zu constraints of %zu edges\n", plan.joined.size(), all, count_edges(t));
    start = nanoseconds();
    // Edges are flipped as constraints go, so these are kept by their ends.
    std::vector<std::pair<Vertex, Vertex>> kept;
    for (auto edge : t.finite_edges())
        if (t.is_constrained(edge))
            kept.push_back({edge.first->vertex(t.ccw(edge.second)), edge.first->vertex(t.cw(edge.second))});
    size_t released = 0;
    for (auto& ends : kept) {
        Hierarchy::Face_handle face;
        int index;
        if (t.is_edge(ends.first, ends.second, face, index)) t.remove_constrained_edge(face, index), released++;
    }
    fprintf(stderr, "release %.0f ns\n", (nanoseconds() - start) / std::max<size_t>(released, 1));
    printf("%zu released, %zu are left\n", released, count_constraints(t));
}

int main(int count, char** words) {
    if (count < 4 || order_named(words[1]) < 0) return fprintf(stderr, "constrained ORDER N WHAT ..\n"), 2;
    Order order = (Order)order_named(words[1]);
    uint32_t points = strtoul(words[2], nullptr, 10);
    std::string what = words[3];
    if (what == "lines") ask_lines(order, points);
    else if (count > 4 && what == "shapes") ask_shapes(order, points, strtoul(words[4], nullptr, 10));
    else if (count > 4 && what == "constraints") constrain(order, points, words[4]);
    else return fprintf(stderr, "no such question\n"), 2;
}
