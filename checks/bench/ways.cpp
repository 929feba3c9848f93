// ways ours|funnel|faces rooms|maze SIDE PAIRS: ways between random free places of a floor with
// SIDE by SIDE rooms or cells, by the library for C or by checks/bench/funnel.h. It prints how many
// faces there are, and of each way the nanoseconds and the length, or -1 where there is none. The
// funnel knows beforehand in which faces the ends are. `faces` writes the faces and the pairs as
// 64-bit numbers, for checks/bench/ways.py.
#include "floors.h"
#include "funnel.h"

// Ends the program where a call was refused.
static void check(tevasulim_status status) {
    if (status) fprintf(stderr, "ways: %s\n", tevasulim_status_string(status)), exit(1);
}

struct Mesh {
    tevasulim_triangulation links{};
    std::vector<tevasulim_point> points;
    std::vector<tevasulim_face> faces;
    std::vector<uint8_t> is_free;

    tevasulim_point point(Point it) const { return {(int32_t)it.x, (int32_t)it.y}; }

    explicit Mesh(const Floor& floor) {
        std::vector<tevasulim_point> inner;
        for (auto& it : floor.closed) {
            for (auto& corner : it) points.push_back(point(corner));
            // It is on neither diagonal: of a parallelogram, in one of its four triangles.
            inner.push_back(point({(2 * it[0].x + it[1].x + it[2].x) / 4,
                                   (2 * it[0].y + it[1].y + it[2].y) / 4}));
        }
        size_t many = points.size(), count;
        std::vector<uint32_t> vertices(many);
        check(tevasulim_open(&links, TEVASULIM_CONSTRAINED));
        check(tevasulim_insert_all(&links, points.data(), many, vertices.data(), many));
        for (size_t k = 0; k < many; k += 4)
            check(tevasulim_constrain_chain(&links, &vertices[k], 4, true, &count));
        check(tevasulim_positions(&links, points.data(), many, &count));
        points.resize(count), faces.resize(2 * count);
        check(tevasulim_faces(&links, faces.data(), faces.size(), &count));
        faces.resize(count), is_free.assign(count, 1);
        for (auto& at : inner) close(located(at).index);
    }

    Mesh(const Mesh&) = delete;
    ~Mesh() { tevasulim_close(&links); }

    tevasulim_place located(tevasulim_point at) {
        tevasulim_place place;
        check(tevasulim_locate(&links, &at, 1, &place, 1));
        return place;
    }

    // Closes a face and all behind edges that are no constraints.
    void close(uint32_t face) {
        if (!is_free[face]) return;
        is_free[face] = 0;
        for (int k = 0; k < 3; k++)
            if (faces[face].neighbors[k] != TEVASULIM_NONE && !faces[face].constrained[k])
                close(faces[face].neighbors[k]);
    }

    // A place in a free face, and the face.
    std::pair<tevasulim_point, uint32_t> anywhere(const Floor& floor, Random& random) {
        uint64_t width = floor.side * Floor::PITCH;
        while (true) {
            tevasulim_point at{(int32_t)random.below(width), (int32_t)random.below(width)};
            tevasulim_place place = located(at);
            if (place.kind == TEVASULIM_IN_FACE && is_free[place.index]) return {at, place.index};
        }
    }
};

typedef std::pair<tevasulim_point, uint32_t> End;

static funnel::Place place(const End& end) { return {(double)end.first.x, (double)end.first.y}; }

template <class At> static double length(const std::vector<At>& way) {
    double sum = way.empty() ? -1 : 0;
    for (size_t k = 1; k < way.size(); k++)
        sum += std::hypot((double)way[k].x - way[k - 1].x, (double)way[k].y - way[k - 1].y);
    return sum;
}

// What is counted: nothing else is done in these two.
__attribute__((noinline)) void counted_ours(Mesh& mesh, End from, End to,
                                            std::vector<tevasulim_point>& way) {
    size_t length = 0;
    check(tevasulim_way(&mesh.links, &from.first, &to.first, mesh.is_free.data(),
                        mesh.is_free.size(), way.data(), way.size(), &length));
    way.resize(length);
}

__attribute__((noinline)) std::vector<funnel::Place> counted_funnel(funnel::Ways& ways, End from,
                                                                    End to) {
    return ways.find(place(from), from.second, place(to), to.second);
}

static void write(std::initializer_list<int64_t> numbers) {
    for (int64_t it : numbers) fwrite(&it, sizeof it, 1, stdout);
}

static void write_faces(const Mesh& mesh, const std::vector<std::pair<End, End>>& pairs) {
    write({(int64_t)mesh.faces.size(), (int64_t)pairs.size()});
    for (size_t f = 0; f < mesh.faces.size(); f++) {
        auto& it = mesh.faces[f];
        for (uint32_t corner : it.corners) write({mesh.points[corner].x, mesh.points[corner].y});
        for (uint32_t next : it.neighbors) write({next == TEVASULIM_NONE ? -1 : (int64_t)next});
        write({mesh.is_free[f]});
    }
    for (auto& [from, to] : pairs)
        for (auto& it : {from, to}) write({it.first.x, it.first.y, it.second});
}

int main(int count, char** words) {
    if (count != 5) return fprintf(stderr, "ways ours|funnel|faces rooms|maze SIDE PAIRS\n"), 2;
    std::string what = words[1], kind = words[2];
    Floor floor = kind == "maze" ? maze(atoi(words[3])) : rooms(atoi(words[3]));
    Mesh mesh(floor);
    Random random{7};
    std::vector<std::pair<End, End>> pairs;
    for (int k = 0; k < atoi(words[4]); k++) {
        End from = mesh.anywhere(floor, random);
        pairs.push_back({from, mesh.anywhere(floor, random)});
    }
    if (what == "faces") return write_faces(mesh, pairs), 0;
    funnel::Ways ways(mesh.faces, mesh.points, mesh.is_free);
    printf("%zu\n", mesh.faces.size());
    for (auto& [from, to] : pairs) {
        std::vector<tevasulim_point> ours(mesh.points.size() + 2);
        std::vector<funnel::Place> other;
        double begin = nanoseconds();
        if (what == "ours") counted_ours(mesh, from, to, ours);
        else other = counted_funnel(ways, from, to);
        double took = nanoseconds() - begin;
        printf("%.0f %.3f\n", took, what == "ours" ? length(ours) : length(other));
    }
}
