// The same as hill.c in C++, and the faces of the hill.
#include "tevasulim.hpp"

#include <algorithm>
#include <iostream>
#include <set>

int main() {
    try {
        tevasulim::Triangulation hill;
        const auto vertices = hill.insert_all({{0, 0}, {120, 35}, {-80, 140}, {-150, -60}});
        const auto point_at = [&](std::uint32_t vertex) {
            return std::find(vertices.begin(), vertices.end(), vertex) - vertices.begin();
        };
        const auto nearest = hill.nearest({{70, 110}})[0];
        std::cout << "nearest to the camp: point " << point_at(nearest) << "\n";
        hill.allow_constraints();
        hill.constrain(vertices[0], vertices[2]);
        for (const auto &met : hill.line({-100, 20}, {70, 110})) {
            if (met.kind == TEVASULIM_ACROSS_EDGE) {
                std::cout << "the path crosses edge " << point_at(met.from) << "-"
                          << point_at(met.to) << ", fence: " << (met.constrained ? "yes" : "no")
                          << "\n";
            }
        }
        std::set<std::set<std::ptrdiff_t>> faces;
        for (const auto &face : hill.faces()) {
            faces.insert({point_at(face.corners[0]), point_at(face.corners[1]),
                          point_at(face.corners[2])});
        }
        for (const auto &corners : faces) {
            std::cout << "face";
            for (const auto corner : corners) {
                std::cout << " " << corner;
            }
            std::cout << "\n";
        }
    } catch (const std::exception &error) {
        std::cerr << error.what() << "\n";
        return 1;
    }
}
