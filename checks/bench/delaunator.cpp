// delaunator ORDER N: the algorithm of the library `delaunator`, version 5, written anew from its description, over the
// points of checks/bench/benchmark. A seed triangle near the middle; points by their distance from its circle's centre; a hull
// whose edges are hashed by direction; and flips over a stack. Sides are decided exactly, and circles in plain floating
// point, as there: so its faces need not be Delaunay. Coordinates stand one after another as doubles.
#include "points.h"

static const uint32_t NONE = 0xffffffff;

class Triangulator {
public:
    // Three corners a face, and what half edge is across each half edge.
    std::vector<uint32_t> corners, across;
    size_t size = 0;

    explicit Triangulator(const std::vector<double>& coordinates) : at(coordinates), count(coordinates.size() / 2) {
        size_t most = count < 3 ? 0 : 3 * (2 * count - 5);
        corners.resize(most);
        across.resize(most);
        buckets = std::ceil(std::sqrt((double)count));
        before.resize(count);
        after.resize(count);
        outer.resize(count);
        hashed.assign(std::max<size_t>(buckets, 1), NONE);
        ids.resize(count);
        distances.resize(count);
        if (count >= 3) run();
    }

private:
    const std::vector<double>& at;
    size_t count, buckets;
    // The hull: the points before and after each, its half edge, and a hash by direction.
    std::vector<uint32_t> before, after, outer, hashed, ids, stack;
    std::vector<double> distances;
    double middle_x = 0, middle_y = 0;
    uint32_t start = 0;

    double x(uint32_t i) const { return at[2 * i]; }
    double y(uint32_t i) const { return at[2 * i + 1]; }

    // Positive where the three turn left, exactly.
    double side(uint32_t a, uint32_t b, uint32_t p) const {
        double left = (y(a) - y(p)) * (x(b) - x(p)), right = (x(a) - x(p)) * (y(b) - y(p)), sum = left - right;
        if (std::abs(sum) >= 3.3306690738754716e-16 * std::abs(left + right)) return sum;
        auto whole = [](double number) { return (__int128)(int64_t)number; };
        __int128 first = whole(y(a) - y(p)) * whole(x(b) - x(p)), second = whole(x(a) - x(p)) * whole(y(b) - y(p));
        return first > second ? 1 : first < second ? -1 : 0;
    }

    bool in_circle(uint32_t a, uint32_t b, uint32_t c, uint32_t p) const {
        double dx = x(a) - x(p), dy = y(a) - y(p), ex = x(b) - x(p), ey = y(b) - y(p), fx = x(c) - x(p), fy = y(c) - y(p);
        double ap = dx * dx + dy * dy, bp = ex * ex + ey * ey, cp = fx * fx + fy * fy;
        return dx * (ey * cp - bp * fy) - dy * (ex * cp - bp * fx) + ap * (ex * fy - ey * fx) < 0;
    }

    // The centre of the circle through three points, from the first of them.
    std::pair<double, double> centre(uint32_t a, uint32_t b, uint32_t c) const {
        double dx = x(b) - x(a), dy = y(b) - y(a), ex = x(c) - x(a), ey = y(c) - y(a);
        double bl = dx * dx + dy * dy, cl = ex * ex + ey * ey, d = 0.5 / (dx * ey - dy * ex);
        return {(ey * bl - dy * cl) * d, (dx * cl - ex * bl) * d};
    }

    double distance(double px, double py, uint32_t i) const {
        double dx = x(i) - px, dy = y(i) - py;
        return dx * dx + dy * dy;
    }

    size_t bucket(uint32_t i) const {
        double dx = x(i) - middle_x, dy = y(i) - middle_y, p = dx / (std::abs(dx) + std::abs(dy));
        return (size_t)std::floor((dy > 0 ? 3 - p : 1 + p) / 4 * buckets) % buckets;
    }

    void link(uint32_t a, uint32_t b) {
        across[a] = b;
        if (b != NONE) across[b] = a;
    }

    uint32_t add(uint32_t i, uint32_t j, uint32_t k, uint32_t a, uint32_t b, uint32_t c) {
        uint32_t face = size;
        corners[face] = i; corners[face + 1] = j; corners[face + 2] = k;
        link(face, a); link(face + 1, b); link(face + 2, c);
        size += 3;
        return face;
    }

    // Flips what fails from a half edge on, and gives the half edge before it.
    uint32_t legalize(uint32_t a) {
        uint32_t last = 0;
        stack.clear();
        for (;;) {
            uint32_t b = across[a], a0 = a - a % 3;
            last = a0 + (a + 2) % 3;
            bool flips = false;
            if (b != NONE) {
                uint32_t b0 = b - b % 3, al = a0 + (a + 1) % 3, bl = b0 + (b + 2) % 3;
                uint32_t p0 = corners[last], p1 = corners[bl];
                if (in_circle(p0, corners[a], corners[al], p1)) {
                    flips = true;
                    corners[a] = p1;
                    corners[b] = p0;
                    uint32_t beyond = across[bl];
                    if (beyond == NONE) {
                        uint32_t e = start;
                        do {
                            if (outer[e] == bl) { outer[e] = a; break; }
                            e = before[e];
                        } while (e != start);
                    }
                    link(a, beyond);
                    link(b, across[last]);
                    link(last, bl);
                    stack.push_back(b0 + (b + 1) % 3);
                }
            }
            if (flips) continue;
            if (stack.empty()) return last;
            a = stack.back();
            stack.pop_back();
        }
    }

    // The point that is nearest by a measure, among those that have one.
    template <class Measure> uint32_t least(Measure measure) const {
        uint32_t found = 0;
        double best = 1e300;
        for (uint32_t i = 0; i < count; i++) {
            double it = measure(i);
            if (it < best) { found = i; best = it; }
        }
        return found;
    }

    // The seed triangle, and all points by their distance from its centre.
    void seed(uint32_t& i, uint32_t& j, uint32_t& k) {
        double x0 = 1e300, y0 = 1e300, x1 = -1e300, y1 = -1e300;
        for (uint32_t p = 0; p < count; p++) {
            x0 = std::min(x0, x(p)); y0 = std::min(y0, y(p)); x1 = std::max(x1, x(p)); y1 = std::max(y1, y(p));
            ids[p] = p;
        }
        i = least([&](uint32_t p) { return distance((x0 + x1) / 2, (y0 + y1) / 2, p); });
        j = least([&](uint32_t p) { double d = distance(x(i), y(i), p); return d > 0 ? d : 1e301; });
        k = least([&](uint32_t p) {
            if (p == i || p == j) return 1e301;
            auto [cx, cy] = centre(i, j, p);
            double radius = cx * cx + cy * cy;
            return radius == radius ? radius : 1e301;
        });
        if (side(i, j, k) < 0) std::swap(j, k);
        auto [cx, cy] = centre(i, j, k);
        middle_x = x(i) + cx;
        middle_y = y(i) + cy;
        for (uint32_t p = 0; p < count; p++) distances[p] = distance(middle_x, middle_y, p);
        std::sort(ids.begin(), ids.end(), [&](uint32_t a, uint32_t b) { return distances[a] < distances[b]; });
    }

    void begin_hull(uint32_t i, uint32_t j, uint32_t k) {
        start = i;
        after[i] = before[k] = j;
        after[j] = before[i] = k;
        after[k] = before[j] = i;
        outer[i] = 0; outer[j] = 1; outer[k] = 2;
        for (uint32_t p : {i, j, k}) hashed[bucket(p)] = p;
        add(i, j, k, NONE, NONE, NONE);
    }

    // A hull edge that a point sees, or none; whether it is the first that was looked at.
    uint32_t seen_edge(uint32_t i, bool& is_first) const {
        uint32_t from = 0;
        size_t key = bucket(i);
        for (size_t j = 0; j < buckets; j++) {
            from = hashed[(key + j) % buckets];
            if (from != NONE && from != after[from]) break;
        }
        from = before[from];
        uint32_t e = from;
        while (side(i, e, after[e]) >= 0) {
            e = after[e];
            if (e == from) return NONE;
        }
        is_first = e == from;
        return e;
    }

    void insert(uint32_t i) {
        bool is_first = false;
        uint32_t e = seen_edge(i, is_first);
        if (e == NONE) return;
        uint32_t face = add(e, i, after[e], NONE, NONE, outer[e]);
        outer[i] = legalize(face + 2);
        outer[e] = face;
        uint32_t next = after[e];
        for (uint32_t q; q = after[next], side(i, next, q) < 0; next = q) {
            face = add(next, i, q, outer[i], NONE, outer[next]);
            outer[i] = legalize(face + 2);
            after[next] = next;
        }
        if (is_first) {
            for (uint32_t q; q = before[e], side(i, q, e) < 0; e = q) {
                face = add(q, i, e, NONE, outer[e], outer[q]);
                legalize(face + 2);
                outer[q] = face;
                after[e] = e;
            }
        }
        start = before[i] = e;
        after[e] = before[next] = i;
        after[i] = next;
        hashed[bucket(i)] = i;
        hashed[bucket(e)] = e;
    }

    void run() {
        uint32_t i, j, k;
        seed(i, j, k);
        begin_hull(i, j, k);
        for (size_t n = 0; n < count; n++) {
            uint32_t p = ids[n];
            bool is_known = n > 0 && x(p) == x(ids[n - 1]) && y(p) == y(ids[n - 1]);
            if (!is_known && p != i && p != j && p != k) insert(p);
        }
    }
};

int main(int words, char** word) {
    if (words < 3 || order_named(word[1]) < 0) return fprintf(stderr, "delaunator ORDER N\n"), 2;
    uint32_t count = strtoul(word[2], nullptr, 10);
    Random random;
    std::vector<Point> list = points((Order)order_named(word[1]), count, random);
    uint64_t before = status("VmRSS:");
    double start = nanoseconds();
    std::vector<double> coordinates;
    coordinates.reserve(2 * list.size());
    for (auto& p : list) {
        coordinates.push_back((double)p.x);
        coordinates.push_back((double)p.y);
    }
    Triangulator triangulator(coordinates);
    tell_insertion(start, before, count);
    printf("inserted: %zu faces\n", triangulator.size / 3);
}
