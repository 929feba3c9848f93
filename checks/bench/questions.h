// The lines, shapes and constraints of checks/bench/benchmark, for the programs that measure other libraries.
#pragma once
#include "points.h"

static const int64_t WIDTH = 1073741824, LEAST = -536870912;

// ---- lines, as in checks/bench/benchmark/lines
typedef std::pair<Point, Point> Line;

struct LineKind { const char* name; int64_t from, to; };

static const LineKind LINE_KINDS[] = {
    {"inside", -268435456, 268435456}, {"from_outside", 536870912, -268435456}, {"over", 536870912, -536870912}};

static std::vector<Line> lines(const LineKind& kind, Random& random) {
    auto ordinate = [&] { return (int64_t)random.below(536870912) - 268435456; };
    std::vector<Line> lines;
    for (int i = 0; i < 100; i++) {
        Point from{kind.from, ordinate()};
        lines.push_back({from, {kind.to, ordinate()}});
    }
    return lines;
}

// ---- shapes, as in checks/bench/benchmark/shapes
static uint64_t root(uint64_t square) {
    uint64_t root = std::sqrt((double)square);
    while (root * root > square) root--;
    while ((root + 1) * (root + 1) <= square) root++;
    return root;
}

struct Shapes {
    std::vector<Point> centers;
    int64_t radius, reach;
    Shapes(uint32_t count, uint32_t elements, Random& random) {
        uint64_t area = (uint64_t)WIDTH * WIDTH / std::max(count, 1u) * elements;
        radius = root(area / 22 * 7), reach = root(area) / 2;
        uint64_t free = std::max<int64_t>(WIDTH - 2 * radius, 1);
        uint32_t shapes = std::min(std::max(2000000 / std::max(elements, 1u), 3u), 1000u);
        for (uint32_t i = 0; i < shapes; i++) {
            int64_t x = random.below(free) + radius + LEAST;
            centers.push_back({x, (int64_t)random.below(free) + radius + LEAST});
        }
    }
};

// ---- constraints, as in checks/bench/benchmark/constraints
typedef std::pair<uint32_t, uint32_t> Pair;

static void push_side(std::vector<Point>& points, int side, int64_t half, int64_t places, int64_t apart, Random& random) {
    for (int64_t place = 0; place < places; place++) {
        int64_t along = 2 * half * place / places - half;
        int64_t off = place == 0 ? 0 : (int64_t)random.below(std::max<int64_t>(apart / 4, 1)) - apart / 8;
        int64_t across = off - half;
        if (side == 0) points.push_back({along, across});
        else if (side == 1) points.push_back({-across, along});
        else if (side == 2) points.push_back({-along, -across});
        else points.push_back({across, -along});
    }
}

static std::vector<Pair> rings(std::vector<Point>& points, Random& random) {
    std::vector<Pair> joined;
    uint64_t all = points.size(), rings = std::max<uint64_t>(root(all / 20), 1);
    int64_t apart = WIDTH / 2 / (rings + 1);
    for (uint64_t ring = 1; ring <= rings; ring++) {
        uint64_t places = all * ring / (rings * (rings + 1));
        uint32_t first = points.size();
        for (int side = 0; side < 4; side++)
            push_side(points, side, apart * ring, std::max<uint64_t>(places / 2, 1), apart, random);
        uint32_t end = points.size();
        for (uint32_t place = first; place < end; place++) joined.push_back({place, place + 1 < end ? place + 1 : first});
    }
    return joined;
}

static std::vector<Pair> chains(const std::vector<Point>& points) {
    struct Key {
        int64_t strip, y, x;
        uint32_t index;
        bool operator<(const Key& it) const {
            return std::tie(strip, y, x, index) < std::tie(it.strip, it.y, it.x, it.index);
        }
    };
    int64_t width = WIDTH / std::max<uint64_t>(root(points.size() / 3), 1);
    std::vector<Key> keyed;
    for (uint32_t i = 0; i < points.size(); i++) keyed.push_back({(points[i].x - LEAST) / width, points[i].y, points[i].x, i});
    std::sort(keyed.begin(), keyed.end());
    std::vector<Pair> joined;
    for (size_t i = 1; i < keyed.size(); i++)
        if (keyed[i - 1].strip == keyed[i].strip) joined.push_back({keyed[i - 1].index, keyed[i].index});
    return joined;
}

static std::vector<Pair> long_ones(std::vector<Point>& points, Random& random) {
    std::vector<Pair> joined;
    int64_t left = LEAST + 16777216, band = WIDTH / 11;
    for (int64_t number = 0; number < 10; number++) {
        auto height = [&] { return (int64_t)random.below(band / 2) - band / 4 + band * (number + 1) + LEAST; };
        uint32_t first = points.size();
        points.push_back({left, height()});
        points.push_back({-left, height()});
        joined.push_back({first, first + 1});
    }
    return joined;
}

struct Plan {
    std::vector<Point> points;
    std::vector<Pair> joined;
    Plan(Order order, uint32_t count, const std::string& kind, Random& random) {
        points = ::points(order, kind == "rings" ? count / 2 : count, random);
        std::vector<Pair> pairs =
            kind == "rings" ? rings(points, random) : kind == "tree" ? chains(points) : long_ones(points, random);
        std::vector<std::pair<uint64_t, Pair>> keyed;
        for (auto& pair : pairs) keyed.push_back({random.number(), pair});
        std::sort(keyed.begin(), keyed.end());
        for (auto& entry : keyed) joined.push_back(entry.second);
    }
};
