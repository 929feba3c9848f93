// Delaunay triangulations of whole-number points for C++17, over tevasulim.h, which says what each
// call does and which statuses it gives.
//
// `Triangulation` throws a `tevasulim::Error` where a call is refused, and std::bad_alloc where
// there is not enough memory; the triangulation is then as it was, unless tevasulim.h says what
// has changed. `Handle` has the same calls, but each gives its status and writes its answer to an
// argument: it is for programs without exceptions (-fno-exceptions), for which `Triangulation`,
// `Error` and `triangulate` are not there. The answers are std::vectors in both; where there is no
// memory for one of these, it throws, and without exceptions the program ends.
//
// No two calls of one object may run at the same time, those that are const among them, since each
// keeps where the next search begins. Different objects may be used in different threads at once.
#ifndef TEVASULIM_HPP
#define TEVASULIM_HPP

#if __cplusplus < 201703L
#error "tevasulim.hpp needs C++17: compile with -std=c++17 or later"
#endif

#include "tevasulim.h"

#include <array>
#include <cstddef>
#include <cstdint>
#include <initializer_list>
#include <utility>
#include <vector>

#ifdef __cpp_exceptions
#include <new>
#include <stdexcept>
#endif

namespace tevasulim {

using Point = tevasulim_point;
using Segment = tevasulim_segment;
using Face = tevasulim_face;
using Edge = tevasulim_edge;
using Place = tevasulim_place;
using Meeting = tevasulim_meeting;
using Box = tevasulim_box;
using Counts = tevasulim_counts;
using Shape = tevasulim_shape;
using Status = tevasulim_status;

inline constexpr std::uint32_t none = TEVASULIM_NONE;

enum class Kind : std::uint32_t {
    plain = TEVASULIM_PLAIN,
    constrained = TEVASULIM_CONSTRAINED
};

// A status in words, which stay where they are.
inline const char *text_of(Status status) { return tevasulim_status_string(status); }

// Whether the library that is linked was proved as it was built.
inline bool is_proved() { return tevasulim_is_proved() != 0; }

inline Shape circle(Point center, std::int64_t radius_2) {
    return tevasulim_circle(center, radius_2);
}

inline Shape rectangle(Point lower, Point upper) { return tevasulim_rectangle(lower, upper); }

// Elements in a row that someone else owns: of a vector, an array, a list in braces, or a pointer
// and a length.
template <class T> class Span {
public:
    constexpr Span() = default;
    constexpr Span(const T *first, std::size_t count) : data_(first), size_(count) {}
    template <std::size_t N> constexpr Span(const T (&all)[N]) : data_(all), size_(N) {}
    template <std::size_t N>
    constexpr Span(const std::array<T, N> &all) : data_(all.data()), size_(N) {}
    Span(const std::vector<T> &all) : data_(all.data()), size_(all.size()) {}
    Span(std::initializer_list<T> all) {
        data_ = all.begin();
        size_ = all.size();
    }

    constexpr std::size_t size() const { return size_; }
    constexpr const T *begin() const { return data_; }
    constexpr const T *end() const { return data_ + size_; }

    // Never NULL, as the calls ask.
    const T *data() const {
        static const T no_element{};
        return size_ ? data_ : &no_element;
    }

private:
    const T *data_ = nullptr;
    std::size_t size_ = 0;
};

namespace detail {

// Fills a vector by a call that says how much it gives: asked once more where the room was too
// short.
template <class T, class Call>
Status fill(std::vector<T> &found, std::size_t guess, const Call &call) {
    found.resize(guess ? guess : 1);
    for (;;) {
        std::size_t length = 0;
        const Status status = call(found.data(), found.size(), &length);
        if (status == TEVASULIM_TOO_SHORT) {
            found.resize(length);
            continue;
        }
        found.resize(status == TEVASULIM_OK ? length : 0);
        return status;
    }
}

// Fills a vector by a call that gives one answer a query.
template <class T, class Call>
Status answer(std::vector<T> &answers, std::size_t count, const Call &call) {
    answers.resize(count + 1);
    const Status status = call(answers.data(), answers.size());
    answers.resize(status == TEVASULIM_OK ? count : 0);
    return status;
}

} // namespace detail

// A triangulation whose calls give their status. It is closed at first, and closes itself at its
// end. It can be moved, and `copy_to` copies it. An answer that is a vector is empty after any
// status but TEVASULIM_OK.
class Handle {
public:
    Handle() = default;
    ~Handle() { tevasulim_close(&handle_); }

    Handle(const Handle &) = delete;
    Handle &operator=(const Handle &) = delete;

    Handle(Handle &&other) noexcept
        : handle_(std::exchange(other.handle_, tevasulim_triangulation{})) {}

    Handle &operator=(Handle &&other) noexcept {
        if (this != &other) {
            tevasulim_close(&handle_);
            handle_ = std::exchange(other.handle_, tevasulim_triangulation{});
        }
        return *this;
    }

    // Its life.

    Status open(Kind kind) { return tevasulim_open(&handle_, static_cast<std::uint32_t>(kind)); }

    void close() { tevasulim_close(&handle_); }

    // Opens another, closed one as a copy.
    Status copy_to(Handle &copy) const {
        return this == &copy ? TEVASULIM_ALREADY_OPEN : tevasulim_copy(&handle_, &copy.handle_);
    }

    Status allow_constraints() { return tevasulim_allow_constraints(&handle_); }

    Status clear() { return tevasulim_clear(&handle_); }

    // Edits.

    Status insert(Point point, std::uint32_t &vertex) {
        return tevasulim_insert(&handle_, point.x, point.y, &vertex);
    }

    Status insert_all(Span<Point> points, std::vector<std::uint32_t> &vertices) {
        return detail::answer(vertices, points.size(), [&](auto... room) {
            return tevasulim_insert_all(&handle_, points.data(), points.size(), room...);
        });
    }

    Status remove(std::uint32_t vertex) { return tevasulim_remove(&handle_, vertex); }

    Status constrain(std::uint32_t from, std::uint32_t to) {
        return tevasulim_constrain(&handle_, from, to);
    }

    // `made` is how many segments are joined.
    Status constrain_chain(Span<std::uint32_t> vertices, bool closed, std::size_t &made) {
        return tevasulim_constrain_chain(&handle_, vertices.data(), vertices.size(), closed, &made);
    }

    Status release(std::uint32_t from, std::uint32_t to) {
        return tevasulim_release(&handle_, from, to);
    }

    Status set_numbers(Span<std::uint32_t> vertices, Span<std::uint64_t> numbers) {
        return tevasulim_set_numbers(&handle_, vertices.data(), vertices.size(), numbers.data(),
                                     numbers.size());
    }

    // All of it.

    Status count(Counts &counts) const { return tevasulim_count(&handle_, &counts); }

    Status positions(std::vector<Point> &points) const {
        return detail::fill(points, counted().vertices, [this](auto... room) {
            return tevasulim_positions(&handle_, room...);
        });
    }

    Status numbers(std::vector<std::uint64_t> &numbers) const {
        return detail::fill(numbers, counted().vertices, [this](auto... room) {
            return tevasulim_numbers(&handle_, room...);
        });
    }

    Status edges(std::vector<Edge> &edges) const {
        return detail::fill(edges, counted().edges, [this](auto... room) {
            return tevasulim_edges(&handle_, room...);
        });
    }

    Status faces(std::vector<Face> &faces) const {
        return detail::fill(faces, counted().faces, [this](auto... room) {
            return tevasulim_faces(&handle_, room...);
        });
    }

    Status face_layers(std::vector<std::uint32_t> &layers) const {
        return detail::fill(layers, counted().faces, [this](auto... room) {
            return tevasulim_face_layers(&handle_, room...);
        });
    }

    Status faces_beyond(Box within, std::vector<std::uint8_t> &flags) const {
        return detail::fill(flags, counted().faces, [&](auto... room) {
            return tevasulim_faces_beyond(&handle_, &within, room...);
        });
    }

    // Queries.

    Status locate(Span<Point> points, std::vector<Place> &places) const {
        return detail::answer(places, points.size(), [&](auto... room) {
            return tevasulim_locate(&handle_, points.data(), points.size(), room...);
        });
    }

    Status nearest(Span<Point> points, std::vector<std::uint32_t> &vertices) const {
        return detail::answer(vertices, points.size(), [&](auto... room) {
            return tevasulim_nearest(&handle_, points.data(), points.size(), room...);
        });
    }

    Status line(Point from, Point to, std::vector<Meeting> &meetings) const {
        return detail::fill(meetings, 64, [&](auto... room) {
            return tevasulim_line(&handle_, &from, &to, room...);
        });
    }

    Status conflicts(Point from, Point to, std::vector<Segment> &constraints) const {
        return detail::fill(constraints, 64, [&](auto... room) {
            return tevasulim_conflicts(&handle_, &from, &to, room...);
        });
    }

    // `is_free` has an element for each face, which is not 0 where the face is free.
    Status in_sight(Point from, Point to, Span<std::uint8_t> is_free, bool &seen) const {
        std::uint32_t told = 0;
        const Status status =
            tevasulim_in_sight(&handle_, &from, &to, is_free.data(), is_free.size(), &told);
        seen = status == TEVASULIM_OK && told != 0;
        return status;
    }

    // `way` is empty where there is none.
    Status way(Point from, Point to, Span<std::uint8_t> is_free, std::vector<Point> &way) const {
        return detail::fill(way, 64, [&](auto... room) {
            return tevasulim_way(&handle_, &from, &to, is_free.data(), is_free.size(), room...);
        });
    }

    // Two free faces have the same label exactly where ways join them; other faces have `none`.
    Status reachable(Span<std::uint8_t> is_free, std::vector<std::uint32_t> &labels) const {
        return detail::fill(labels, is_free.size(), [&](auto... room) {
            return tevasulim_reachable(&handle_, is_free.data(), is_free.size(), room...);
        });
    }

    // The flags are for the `is_free` of other calls.
    Status wide_faces(Span<std::uint8_t> is_free, std::int64_t width_2,
                      std::vector<std::uint8_t> &flags) const {
        return detail::fill(flags, is_free.size(), [&](auto... room) {
            return tevasulim_wide_faces(&handle_, is_free.data(), is_free.size(), width_2, room...);
        });
    }

    Status vertices_in(Shape shape, std::vector<std::uint32_t> &vertices) const {
        return detail::fill(vertices, 64, [&](auto... room) {
            return tevasulim_vertices_in(&handle_, &shape, room...);
        });
    }

    Status edges_in(Shape shape, std::vector<std::uint32_t> &edges) const {
        return detail::fill(edges, 64, [&](auto... room) {
            return tevasulim_edges_in(&handle_, &shape, room...);
        });
    }

private:
    // How many elements there are, and none where it is closed.
    Counts counted() const {
        Counts counts{};
        tevasulim_count(&handle_, &counts);
        return counts;
    }

    mutable tevasulim_triangulation handle_{};
};

// Writes the faces of the constrained triangulation of points and segments between them. `at` is
// the point or the segment that is refused, where the call names one.
inline Status triangulate(Span<Point> points, Span<Segment> segments, std::vector<Face> &faces,
                          std::size_t &at) {
    return detail::fill(faces, 2 * points.size(), [&](auto... room) {
        return tevasulim_triangulate(points.data(), points.size(), segments.data(),
                                     segments.size(), room..., &at);
    });
}

#ifdef __cpp_exceptions

// Why a call was refused. `at` is the point or the segment, where the call names one.
class Error : public std::runtime_error {
public:
    explicit Error(Status why, std::size_t place = 0)
        : std::runtime_error(text_of(why)), status(why), at(place) {}

    Status status;
    std::size_t at;
};

namespace detail {

inline void check(Status status, std::size_t at = 0) {
    if (status == TEVASULIM_OUT_OF_MEMORY) {
        throw std::bad_alloc();
    }
    if (status != TEVASULIM_OK) {
        throw Error(status, at);
    }
}

} // namespace detail

// An open triangulation. It closes itself. It can be moved, and `copy` copies it. One that was
// moved from is closed.
class Triangulation {
public:
    explicit Triangulation(Kind kind = Kind::plain) { detail::check(handle_.open(kind)); }

    Triangulation copy() const {
        Triangulation made{Closed{}};
        detail::check(handle_.copy_to(made.handle_));
        return made;
    }

    // Edits.

    std::uint32_t insert(Point point) {
        std::uint32_t vertex = none;
        detail::check(handle_.insert(point, vertex));
        return vertex;
    }

    std::vector<std::uint32_t> insert_all(Span<Point> points) {
        return found<std::uint32_t>(
            [&](auto &vertices) { return handle_.insert_all(points, vertices); });
    }

    void remove(std::uint32_t vertex) { detail::check(handle_.remove(vertex)); }

    void constrain(std::uint32_t from, std::uint32_t to) {
        detail::check(handle_.constrain(from, to));
    }

    // An error's `at` is how many segments are joined: they stay.
    void constrain_chain(Span<std::uint32_t> vertices, bool closed = false) {
        std::size_t made = 0;
        const Status status = handle_.constrain_chain(vertices, closed, made);
        detail::check(status, made);
    }

    void release(std::uint32_t from, std::uint32_t to) {
        detail::check(handle_.release(from, to));
    }

    void set_numbers(Span<std::uint32_t> vertices, Span<std::uint64_t> numbers) {
        detail::check(handle_.set_numbers(vertices, numbers));
    }

    void allow_constraints() { detail::check(handle_.allow_constraints()); }

    void clear() { detail::check(handle_.clear()); }

    // All of it.

    Counts counts() const {
        Counts counts{};
        detail::check(handle_.count(counts));
        return counts;
    }

    std::vector<Point> positions() const {
        return found<Point>([this](auto &points) { return handle_.positions(points); });
    }

    std::vector<std::uint64_t> numbers() const {
        return found<std::uint64_t>([this](auto &numbers) { return handle_.numbers(numbers); });
    }

    std::vector<Edge> edges() const {
        return found<Edge>([this](auto &edges) { return handle_.edges(edges); });
    }

    std::vector<Face> faces() const {
        return found<Face>([this](auto &faces) { return handle_.faces(faces); });
    }

    std::vector<std::uint32_t> face_layers() const {
        return found<std::uint32_t>([this](auto &layers) { return handle_.face_layers(layers); });
    }

    std::vector<std::uint8_t> faces_beyond(Box within) const {
        return found<std::uint8_t>(
            [&](auto &flags) { return handle_.faces_beyond(within, flags); });
    }

    // Queries.

    std::vector<Place> locate(Span<Point> points) const {
        return found<Place>([&](auto &places) { return handle_.locate(points, places); });
    }

    std::vector<std::uint32_t> nearest(Span<Point> points) const {
        return found<std::uint32_t>(
            [&](auto &vertices) { return handle_.nearest(points, vertices); });
    }

    std::vector<Meeting> line(Point from, Point to) const {
        return found<Meeting>([&](auto &meetings) { return handle_.line(from, to, meetings); });
    }

    std::vector<Segment> conflicts(Point from, Point to) const {
        return found<Segment>(
            [&](auto &constraints) { return handle_.conflicts(from, to, constraints); });
    }

    bool in_sight(Point from, Point to, Span<std::uint8_t> is_free) const {
        bool seen = false;
        detail::check(handle_.in_sight(from, to, is_free, seen));
        return seen;
    }

    // Empty where there is none.
    std::vector<Point> way(Point from, Point to, Span<std::uint8_t> is_free) const {
        return found<Point>([&](auto &way) { return handle_.way(from, to, is_free, way); });
    }

    std::vector<std::uint32_t> reachable(Span<std::uint8_t> is_free) const {
        return found<std::uint32_t>(
            [&](auto &labels) { return handle_.reachable(is_free, labels); });
    }

    std::vector<std::uint8_t> wide_faces(Span<std::uint8_t> is_free, std::int64_t width_2) const {
        return found<std::uint8_t>(
            [&](auto &flags) { return handle_.wide_faces(is_free, width_2, flags); });
    }

    std::vector<std::uint32_t> vertices_in(Shape shape) const {
        return found<std::uint32_t>(
            [&](auto &vertices) { return handle_.vertices_in(shape, vertices); });
    }

    std::vector<std::uint32_t> edges_in(Shape shape) const {
        return found<std::uint32_t>([&](auto &edges) { return handle_.edges_in(shape, edges); });
    }

private:
    struct Closed {};

    explicit Triangulation(Closed) {}

    template <class T, class Call> static std::vector<T> found(const Call &call) {
        std::vector<T> all;
        detail::check(call(all));
        return all;
    }

    Handle handle_;
};

// The faces of the constrained triangulation of points and segments between them.
inline std::vector<Face> triangulate(Span<Point> points, Span<Segment> segments = {}) {
    std::vector<Face> faces;
    std::size_t at = 0;
    const Status status = triangulate(points, segments, faces, at);
    detail::check(status, at);
    return faces;
}

#endif // __cpp_exceptions

} // namespace tevasulim

#endif
