// Makes each call of tevasulim.hpp once, and some that are refused. With exceptions it makes those of
// both classes.
#include "tevasulim.hpp"

#include <algorithm>
#include <cstdio>
#include <cstdlib>
#include <cstring>

using namespace tevasulim;

static void expect(bool holds, int line) {
    if (!holds) {
        std::printf("line %d\n", line);
        std::exit(1);
    }
}

#define EXPECT(...) expect(__VA_ARGS__, __LINE__)

// A square with a smaller one inside, which constraints go round.
static const std::vector<Point> points = {{0, 0}, {9, 0}, {9, 9}, {0, 9},
                                          {3, 3}, {6, 3}, {6, 6}, {3, 6}};

static void edit_with_statuses(Handle &site, std::vector<std::uint32_t> &vertices) {
    std::uint32_t vertex = none;
    std::size_t made = 0;
    EXPECT(site.clear() == TEVASULIM_CLOSED);
    EXPECT(site.open(Kind::plain) == TEVASULIM_OK);
    EXPECT(site.open(Kind::plain) == TEVASULIM_ALREADY_OPEN);
    EXPECT(site.insert({5, 5}, vertex) == TEVASULIM_OK && vertex == 0);
    EXPECT(site.insert({TEVASULIM_MOST + 1, 0}, vertex) == TEVASULIM_TOO_LARGE);
    EXPECT(site.remove(0) == TEVASULIM_OK);
    EXPECT(site.remove(0) == TEVASULIM_NO_SUCH_VERTEX);
    EXPECT(site.insert_all(points, vertices) == TEVASULIM_OK && vertices.size() == 8);
    EXPECT(site.constrain(0, 1) == TEVASULIM_IS_PLAIN);
    EXPECT(site.allow_constraints() == TEVASULIM_OK);
    const std::uint32_t ring[] = {vertices[4], vertices[5], vertices[6], vertices[7]};
    EXPECT(site.constrain_chain(ring, true, made) == TEVASULIM_OK && made == 4);
    EXPECT(site.constrain(vertices[0], vertices[2]) == TEVASULIM_OK);
    EXPECT(site.constrain(vertices[1], vertices[3]) == TEVASULIM_CROSSING);
    EXPECT(site.release(vertices[0], vertices[4]) == TEVASULIM_OK);
    EXPECT(site.release(vertices[0], vertices[4]) == TEVASULIM_NO_CONSTRAINT);
    EXPECT(site.set_numbers({vertices[0]}, {7}) == TEVASULIM_OK);
    EXPECT(site.set_numbers({vertices[0]}, {}) == TEVASULIM_UNEQUAL_LENGTHS);
}

static void list_with_statuses(const Handle &site, const std::vector<std::uint32_t> &vertices) {
    Counts counts{};
    std::vector<Point> positions;
    std::vector<std::uint64_t> numbers;
    std::vector<Edge> edges;
    std::vector<Face> faces;
    std::vector<std::uint32_t> layers;
    EXPECT(site.count(counts) == TEVASULIM_OK);
    EXPECT(counts.vertices == 8 && counts.edges == 17 && counts.faces == 10);
    EXPECT(counts.constraints == 6);
    EXPECT(site.positions(positions) == TEVASULIM_OK && positions.size() == 8);
    EXPECT(positions[vertices[5]].x == 6 && positions[vertices[5]].y == 3);
    EXPECT(site.numbers(numbers) == TEVASULIM_OK && numbers[vertices[0]] == 7);
    EXPECT(site.edges(edges) == TEVASULIM_OK && edges.size() == 17);
    EXPECT(site.faces(faces) == TEVASULIM_OK && faces.size() == 10);
    EXPECT(site.face_layers(layers) == TEVASULIM_OK && layers.size() == 10);
    EXPECT(std::count(layers.begin(), layers.end(), 1u) == 2);
    std::vector<std::uint8_t> flags;
    EXPECT(site.faces_beyond({-99, -99, 99, 99}, flags) == TEVASULIM_OK && flags.size() == 10);
    EXPECT(std::count(flags.begin(), flags.end(), 0) == 10);
    EXPECT(site.faces_beyond({9, INT32_MIN, 8, INT32_MAX}, flags) == TEVASULIM_OK);
    EXPECT(std::count(flags.begin(), flags.end(), 1) == 10);
}

static void ask_with_statuses(Handle &site) {
    std::vector<Place> places;
    std::vector<std::uint32_t> found;
    std::vector<Meeting> met;
    std::vector<Segment> crossed;
    bool seen = false;
    EXPECT(site.locate({{1, 5}, {20, 5}}, places) == TEVASULIM_OK && places.size() == 2);
    EXPECT(places[0].kind == TEVASULIM_IN_FACE && places[1].kind == TEVASULIM_OUTSIDE);
    EXPECT(site.nearest({{4, 5}}, found) == TEVASULIM_IS_CONSTRAINED && found.empty());
    EXPECT(site.line({0, 5}, {9, 5}, met) == TEVASULIM_OK && met.size() >= 4);
    EXPECT(site.conflicts({0, 5}, {9, 5}, crossed) == TEVASULIM_OK && crossed.size() == 3);
    EXPECT(site.vertices_in(circle({3, 3}, 9), found) == TEVASULIM_OK && found.size() == 3);
    EXPECT(site.vertices_in(circle({3, 3}, -1), found) == TEVASULIM_NEGATIVE && found.empty());
    EXPECT(site.edges_in(rectangle({8, 1}, {9, 8}), found) == TEVASULIM_OK && !found.empty());
    const std::vector<std::uint8_t> all(10, 1), none_free(10, 0);
    EXPECT(site.in_sight({0, 5}, {9, 5}, all, seen) == TEVASULIM_OK && seen);
    EXPECT(site.in_sight({0, 5}, {9, 5}, none_free, seen) == TEVASULIM_OK && !seen);
    EXPECT(site.in_sight({0, 5}, {9, 5}, {}, seen) == TEVASULIM_UNEQUAL_LENGTHS && !seen);
    std::vector<Point> way;
    EXPECT(site.way({0, 5}, {9, 5}, all, way) == TEVASULIM_OK && way.size() == 2);
    EXPECT(way[0].x == 0 && way[0].y == 5 && way[1].x == 9 && way[1].y == 5);
    EXPECT(site.way({0, 5}, {9, 5}, none_free, way) == TEVASULIM_OK && way.empty());
    EXPECT(site.way({0, 5}, {9, 5}, {}, way) == TEVASULIM_UNEQUAL_LENGTHS && way.empty());
    EXPECT(site.reachable(all, found) == TEVASULIM_OK && found.size() == 10);
    EXPECT(std::count(found.begin(), found.end(), 0u) == 10);
    EXPECT(site.reachable(none_free, found) == TEVASULIM_OK && found.size() == 10);
    EXPECT(std::count(found.begin(), found.end(), none) == 10);
    EXPECT(site.reachable({}, found) == TEVASULIM_UNEQUAL_LENGTHS && found.empty());
    std::vector<std::uint8_t> flags;
    EXPECT(site.wide_faces(all, 1, flags) == TEVASULIM_OK && flags == all);
    EXPECT(site.wide_faces(all, 100, flags) == TEVASULIM_OK && flags == none_free);
    EXPECT(site.wide_faces(all, -1, flags) == TEVASULIM_NEGATIVE && flags.empty());
    EXPECT(site.wide_faces({}, 1, flags) == TEVASULIM_UNEQUAL_LENGTHS && flags.empty());
    Handle copy;
    EXPECT(site.copy_to(site) == TEVASULIM_ALREADY_OPEN);
    EXPECT(site.copy_to(copy) == TEVASULIM_OK && copy.clear() == TEVASULIM_OK);
    Counts counts{};
    EXPECT(site.count(counts) == TEVASULIM_OK && counts.vertices == 8);
    Handle moved(std::move(copy));
    EXPECT(moved.count(counts) == TEVASULIM_OK && counts.vertices == 0);
    moved.close();
    EXPECT(moved.count(counts) == TEVASULIM_CLOSED);
}

static void call_with_statuses() {
    Handle site;
    std::vector<std::uint32_t> vertices;
    edit_with_statuses(site, vertices);
    list_with_statuses(site, vertices);
    ask_with_statuses(site);
    std::vector<Face> faces;
    std::size_t at = 0;
    EXPECT(triangulate(points, {}, faces, at) == TEVASULIM_OK && faces.size() == 10);
    EXPECT(triangulate(points, {{0, 8}}, faces, at) == TEVASULIM_NO_SUCH_POINT && at == 0);
    const char *negative = "a squared radius or width is negative: it has to be 0 or more";
    EXPECT(!std::strcmp(text_of(TEVASULIM_NEGATIVE), negative));
    EXPECT(tevasulim_version() == TEVASULIM_VERSION);
    std::printf("proved: %s\n", is_proved() ? "yes" : "no");
}

#ifdef __cpp_exceptions

template <class Call> static Status refusal(const Call &call) {
    try {
        call();
    } catch (const Error &error) {
        return error.status;
    }
    return TEVASULIM_OK;
}

static void call_with_exceptions() {
    Triangulation site;
    const auto vertices = site.insert_all(points);
    EXPECT(site.insert({4, 4}) == 8);
    site.remove(8);
    EXPECT(site.nearest({{1, 1}})[0] == vertices[0]);
    EXPECT(refusal([&] { site.constrain(0, 1); }) == TEVASULIM_IS_PLAIN);
    site.allow_constraints();
    site.constrain_chain({vertices[4], vertices[5], vertices[6], vertices[7]}, true);
    site.constrain(vertices[0], vertices[4]);
    site.release(vertices[0], vertices[4]);
    site.set_numbers({vertices[0]}, {7});
    Triangulation copy = site.copy();
    copy.clear();
    EXPECT(copy.counts().vertices == 0 && site.counts().constraints == 4);
    EXPECT(site.positions().size() == 8 && site.numbers()[vertices[0]] == 7);
    EXPECT(site.edges().size() == 17 && site.faces().size() == 10);
    const auto layers = site.face_layers();
    EXPECT(std::count(layers.begin(), layers.end(), 1u) == 2);
    const auto flags = site.faces_beyond({INT32_MIN, INT32_MIN, INT32_MAX, INT32_MAX});
    EXPECT(flags == std::vector<std::uint8_t>(10, 0));
    EXPECT(site.locate({{1, 5}})[0].kind == TEVASULIM_IN_FACE);
    EXPECT(site.line({0, 5}, {9, 5}).size() >= 4);
    EXPECT(site.conflicts({0, 5}, {9, 5}).size() == 2);
    EXPECT(site.in_sight({0, 5}, {9, 5}, std::vector<std::uint8_t>(10, 1)));
    std::vector<std::uint8_t> outside(10);
    std::transform(layers.begin(), layers.end(), outside.begin(), [](auto it) { return it == 0; });
    const auto way = site.way({0, 4}, {9, 4}, outside);
    EXPECT(way.size() >= 3 && way[0].x == 0 && way[0].y == 4);
    EXPECT(site.way({4, 4}, {9, 4}, outside).empty());
    EXPECT(site.reachable(outside) != site.reachable(site.wide_faces(outside, 100)));
    EXPECT(site.vertices_in(circle({3, 3}, 9)).size() == 3);
    EXPECT(!site.edges_in(rectangle({8, 1}, {9, 8})).empty());
    EXPECT(refusal([&] { site.in_sight({0, 0}, {1, 1}, {}); }) == TEVASULIM_UNEQUAL_LENGTHS);
    EXPECT(triangulate(points).size() == 10);
    EXPECT(refusal([] { triangulate(points, {{0, 2}, {1, 3}}); }) == TEVASULIM_CROSSING);
    Triangulation moved(std::move(copy));
    EXPECT(refusal([&] { copy.clear(); }) == TEVASULIM_CLOSED);
    std::printf("with exceptions\n");
}

#endif

int main() {
    call_with_statuses();
#ifdef __cpp_exceptions
    call_with_exceptions();
#endif
    return 0;
}
