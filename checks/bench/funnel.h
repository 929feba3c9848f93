// Ways as Recast's library finds them, in floats: A* over triangles, whose places are the middles
// of the edges by which they are entered, then a funnel through the edges between the triangles.
#pragma once
#include "../../include/tevasulim.h"
#include <cmath>
#include <cstdint>
#include <queue>
#include <vector>

namespace funnel {

struct Place { double x, y; };

static double distance(Place a, Place b) { return std::hypot(a.x - b.x, a.y - b.y); }

static double area(Place a, Place b, Place c) {
    return (b.x - a.x) * (c.y - a.y) - (b.y - a.y) * (c.x - a.x);
}

struct Edge { Place left, right; };

// A triangle in the search: where it is entered, what that cost, and from which triangle. What is
// of another round is not looked at.
struct Node {
    Place at;
    double cost;
    uint32_t before, round;
    bool done;
};

struct Lead {
    double sum;
    uint32_t face;
    bool operator<(const Lead& other) const { return sum > other.sum; }
};

class Ways {
    const std::vector<tevasulim_face>& faces;
    const std::vector<tevasulim_point>& points;
    const std::vector<uint8_t>& is_free;
    std::vector<Node> nodes;
    uint32_t round = 0;

    Place place(uint32_t vertex) const {
        return {(double)points[vertex].x, (double)points[vertex].y};
    }

    // The edge from one triangle to the next, seen from the first.
    Edge between(const tevasulim_face& face, uint32_t next) const {
        int k = face.neighbors[0] == next ? 0 : face.neighbors[1] == next ? 1 : 2;
        return {place(face.corners[(k + 2) % 3]), place(face.corners[(k + 1) % 3])};
    }

    // The triangles from the first to the last one, or none.
    std::vector<uint32_t> search(Place from, uint32_t first, Place to, uint32_t last) {
        std::vector<uint32_t> path;
        std::priority_queue<Lead> leads;
        round++;
        nodes[first] = {from, 0, TEVASULIM_NONE, round, false};
        leads.push({distance(from, to), first});
        while (!leads.empty()) {
            uint32_t here = leads.top().face;
            leads.pop();
            if (nodes[here].done) continue;
            nodes[here].done = true;
            if (here == last) break;
            for (uint32_t next : faces[here].neighbors) {
                if (next == TEVASULIM_NONE || !is_free[next]) continue;
                Edge edge = between(faces[here], next);
                Place middle{(edge.left.x + edge.right.x) / 2, (edge.left.y + edge.right.y) / 2};
                double cost = nodes[here].cost + distance(nodes[here].at, middle);
                double ahead = distance(middle, to);
                if (next == last) cost += ahead, ahead = 0;
                Node& node = nodes[next];
                if (node.round == round && (node.done || node.cost <= cost)) continue;
                node = {middle, cost, here, round, false};
                leads.push({cost + ahead, next});
            }
        }
        if (nodes[last].round != round || !nodes[last].done) return path;
        for (uint32_t it = last; it != TEVASULIM_NONE; it = nodes[it].before) path.push_back(it);
        return {path.rbegin(), path.rend()};
    }

    // The way that is pulled taut within the triangles.
    std::vector<Place> pull(Place from, Place to, const std::vector<uint32_t>& path) const {
        std::vector<Edge> edges;
        for (size_t k = 1; k < path.size(); k++)
            edges.push_back(between(faces[path[k - 1]], path[k]));
        edges.push_back({to, to});
        std::vector<Place> way{from};
        Place apex = from, left = from, right = from;
        size_t at_left = 0, at_right = 0;
        auto same = [](Place a, Place b) { return a.x == b.x && a.y == b.y; };
        for (size_t k = 0; k < edges.size(); k++) {
            if (area(apex, right, edges[k].right) >= 0) {
                if (same(apex, right) || area(apex, left, edges[k].right) < 0) {
                    right = edges[k].right, at_right = k;
                } else {
                    way.push_back(left);
                    apex = right = left, k = at_right = at_left;
                    continue;
                }
            }
            if (area(apex, left, edges[k].left) <= 0) {
                if (same(apex, left) || area(apex, right, edges[k].left) > 0) {
                    left = edges[k].left, at_left = k;
                } else {
                    way.push_back(right);
                    apex = left = right, k = at_left = at_right;
                    continue;
                }
            }
        }
        way.push_back(to);
        return way;
    }

public:
    Ways(const std::vector<tevasulim_face>& faces, const std::vector<tevasulim_point>& points,
         const std::vector<uint8_t>& is_free)
        : faces(faces), points(points), is_free(is_free), nodes(faces.size()) {}

    // A way from a place in one triangle to a place in another: no place where there is none.
    std::vector<Place> find(Place from, uint32_t first, Place to, uint32_t last) {
        std::vector<uint32_t> path = search(from, first, to, last);
        return path.empty() ? std::vector<Place>() : pull(from, to, path);
    }
};

}  // namespace funnel
