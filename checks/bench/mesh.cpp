// mesh IN.csv OUT.obj: what the program `mesh IN.csv -o OUT.obj` does with a table of points, over CGAL, whose numbers
// are rounded to floats. `/usr/bin/time -f %M` in front of each tells their peaks of memory.
#include <CGAL/Constrained_Delaunay_triangulation_2.h>
#include <CGAL/Exact_predicates_inexact_constructions_kernel.h>
#include <CGAL/Triangulation_vertex_base_with_info_2.h>
#include <cstdint>
#include <cstdio>
#include <cstdlib>
#include <utility>
#include <vector>

typedef CGAL::Exact_predicates_inexact_constructions_kernel Kernel;
typedef CGAL::Triangulation_vertex_base_with_info_2<uint32_t, Kernel> VertexBase;
typedef CGAL::Triangulation_data_structure_2<VertexBase, CGAL::Constrained_triangulation_face_base_2<Kernel>> Links;
typedef CGAL::Constrained_Delaunay_triangulation_2<Kernel, Links, CGAL::No_constraint_intersection_tag> Mesh;

int main(int count, char** words) {
    FILE* in = count == 3 ? fopen(words[1], "r") : nullptr;
    char line[512];
    if (!in || !fgets(line, sizeof line, in)) return fprintf(stderr, "mesh IN.csv OUT.obj\n"), 2;
    std::vector<std::pair<Kernel::Point_2, uint32_t>> points;
    while (fgets(line, sizeof line, in)) {
        char* end;
        double x = strtod(line, &end), y = strtod(end + 1, &end);
        points.push_back({Kernel::Point_2(x, y), (uint32_t)points.size()});
    }
    fclose(in);
    Mesh mesh;
    mesh.insert(points.begin(), points.end());
    FILE* out = fopen(words[2], "w");
    if (!out) return fprintf(stderr, "mesh: %s cannot be written\n", words[2]), 1;
    for (auto& point : points) fprintf(out, "v %.17g %.17g 0\n", point.first.x(), point.first.y());
    for (auto face : mesh.finite_face_handles())
        fprintf(out, "f %u %u %u\n", face->vertex(0)->info() + 1, face->vertex(1)->info() + 1, face->vertex(2)->info() + 1);
    return fclose(out) ? 1 : 0;
}
