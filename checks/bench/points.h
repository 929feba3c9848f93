// The points of checks/bench/benchmark in its orders, and how times and bytes are taken: for the programs that measure other
// libraries over the same points.
#pragma once
#include <algorithm>
#include <cmath>
#include <cstdint>
#include <cstdio>
#include <cstdlib>
#include <cstring>
#include <ctime>
#include <string>
#include <tuple>
#include <utility>
#include <vector>

struct Point {
    int64_t x, y;
    bool operator<(const Point& other) const { return x != other.x ? x < other.x : y < other.y; }
};

// SplitMix64, from the same state as checks/bench/benchmark/random.
struct Random {
    uint64_t state = 88172645463325252;
    uint64_t number() {
        state += 0x9e3779b97f4a7c15;
        uint64_t mixed = (state ^ (state >> 30)) * 0xbf58476d1ce4e5b9;
        mixed = (mixed ^ (mixed >> 27)) * 0x94d049bb133111eb;
        return mixed ^ (mixed >> 31);
    }
    uint64_t below(uint64_t bound) { return number() % std::max<uint64_t>(bound, 1); }
};

// The orders of checks/bench/benchmark/orders.
enum Order { RANDOM, HILBERT, ROWS, SCATTERED, CLUSTERED, CIRCLE, LINE };

static uint64_t hilbert_key(uint64_t x, uint64_t y) {
    uint64_t key = 0;
    for (int level = 29; level >= 0; level--) {
        bool right = (x >> level) & 1, upper = (y >> level) & 1;
        key = key * 4 + (right ? (upper ? 2 : 3) : (upper ? 1 : 0));
        if (!upper) {
            if (right) { x = ~x; y = ~y; }
            std::swap(x, y);
        }
    }
    return key;
}

static std::pair<Point, uint64_t> anywhere(Random& random) {
    uint64_t x = random.below(1073741824), y = random.below(1073741824);
    return {{(int64_t)x - 536870912, (int64_t)y - 536870912}, hilbert_key(x, y)};
}

static Point in_cluster(Random& random) {
    int64_t cluster = random.below(100);
    int64_t x = random.below(1048576) + cluster % 10 * 107374182 - 536870912;
    return {x, (int64_t)random.below(1048576) + cluster / 10 * 107374182 - 536870912};
}

static Point on_circle(Random& random) {
    int64_t along = (int64_t)random.below(1073741824) - 536870912;
    uint64_t rest = (1ull << 58) - along * along;
    int64_t across = std::sqrt((double)rest);
    while ((uint64_t)(across * across) > rest) across--;
    while ((uint64_t)((across + 1) * (across + 1)) <= rest) across++;
    uint64_t where = random.below(4);
    if (where == 0) return {along, across};
    if (where == 1) return {along, -across};
    if (where == 2) return {across, along};
    return {-across, along};
}

static uint32_t side_of(uint32_t count) {
    uint32_t side = 1;
    while ((uint64_t)side * side < count) side++;
    return side;
}

static std::vector<Point> in_order(std::vector<std::pair<uint64_t, Point>> keyed) {
    std::sort(keyed.begin(), keyed.end());
    std::vector<Point> points;
    for (auto& entry : keyed) points.push_back(entry.second);
    return points;
}

static std::vector<Point> points(Order order, uint32_t count, Random& random) {
    uint32_t side = side_of(count);
    std::vector<std::pair<uint64_t, Point>> keyed;
    for (uint32_t i = 0; i < count; i++) {
        Point cell{(int64_t)(i % side) * 1024, (int64_t)(i / side) * 1024};
        if (order == RANDOM) keyed.push_back({i, anywhere(random).first});
        else if (order == CLUSTERED) keyed.push_back({i, in_cluster(random)});
        else if (order == CIRCLE) keyed.push_back({i, on_circle(random)});
        else if (order == LINE) keyed.push_back({i, {(int64_t)i * 16, (int64_t)i * 32}});
        else if (order == ROWS) keyed.push_back({i, cell});
        else if (order == SCATTERED) { uint64_t key = random.number(); keyed.push_back({key, cell}); }
        else { auto drawn = anywhere(random); keyed.push_back({drawn.second, drawn.first}); }
    }
    return in_order(keyed);
}

static std::vector<Point> queries(Order order, uint32_t count, Random& random) {
    uint64_t bound = (uint64_t)(side_of(count) - 1) * 1024 + 1;
    std::vector<std::pair<uint64_t, Point>> keyed;
    for (uint32_t i = 0; i < count; i++) {
        if (order == RANDOM || order == CLUSTERED || order == CIRCLE) keyed.push_back({i, anywhere(random).first});
        else if (order == HILBERT) { auto drawn = anywhere(random); keyed.push_back({drawn.second, drawn.first}); }
        else if (order == LINE) keyed.push_back({i, {(int64_t)i * 16, (int64_t)i * 32 + (int64_t)random.below(2)}});
        else { int64_t x = random.below(bound), y = random.below(bound); keyed.push_back({i, {x, y}}); }
    }
    return in_order(keyed);
}

static double nanoseconds() {
    timespec now;
    clock_gettime(CLOCK_THREAD_CPUTIME_ID, &now);
    return now.tv_sec * 1e9 + now.tv_nsec;
}

// Bytes that are resident (VmRSS) or were at most (VmHWM).
static uint64_t status(const char* name) {
    uint64_t kilobytes = 0;
    char line[256];
    FILE* file = fopen("/proc/self/status", "r");
    while (file && fgets(line, sizeof line, file))
        if (!strncmp(line, name, strlen(name))) kilobytes = strtoull(line + strlen(name), nullptr, 10);
    if (file) fclose(file);
    return kilobytes * 1024;
}

// Which order a word names, or -1.
static int order_named(const std::string& name) {
    const std::vector<std::string> names{"random", "hilbert", "rows", "scattered", "clustered", "circle", "line"};
    auto found = std::find(names.begin(), names.end(), name);
    return found == names.end() ? -1 : (int)(found - names.begin());
}

// What an insertion took a point, and the most bytes a point that were resident beyond those before it.
static void tell_insertion(double start, uint64_t before, size_t count) {
    double calls = std::max<size_t>(count, 1);
    fprintf(stderr, "insert %.0f ns\n", (nanoseconds() - start) / calls);
    uint64_t peak = status("VmHWM:");
    fprintf(stderr, "peak %.0f bytes a vertex\n", peak > before ? (peak - before) / calls : 0.0);
}
