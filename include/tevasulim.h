/* Delaunay triangulations of whole-number points.
 *
 * What is proved. Whatever handle, length, index or number a call is given, it returns, and it
 * reads and writes nothing but what it is given. What a handle has is the constrained Delaunay
 * triangulation of its points. docs/PROVED.md says call by call what is proved beyond that.
 *
 * Coordinates are whole numbers from -TEVASULIM_MOST to TEVASULIM_MOST. A triangulation is plain,
 * or it is constrained: then some of its edges may be constraints. Vertices, edges and faces have
 * indexes from 0 on. An edit may change the indexes of edges and faces. Only `tevasulim_remove`
 * changes the indexes of vertices.
 *
 * Statuses. Most calls give a `tevasulim_status`, which is TEVASULIM_OK where all went well.
 * `tevasulim_status_string` says any status in words. After any status but TEVASULIM_OK the
 * triangulation is as it was before the call, unless the call says what has changed. The out lists
 * and out numbers of the call may then have anything, with two exceptions: `*length` is right if
 * the status is TEVASULIM_TOO_SHORT, and the lists of all elements, `tevasulim_locate` and
 * `tevasulim_nearest` leave theirs as they were. Where several statuses apply, the call gives one
 * of them. Each call that takes a triangulation, except `tevasulim_open` and `tevasulim_close`,
 * gives TEVASULIM_CLOSED where that is not open; the comments below do not repeat this.
 *
 * Lists. A list is a pointer and a number of elements: how many there are, or, where the call
 * writes the list, how many it has room for (`room`). A call that finds as many elements as there
 * happen to be writes their number to `*length`. Where this is more than `room`, the status is
 * TEVASULIM_TOO_SHORT, and `*length` is the room that is needed.
 *
 * What is trusted. Nothing checks a C program, so it has to keep these rules itself:
 *   - Each pointer is to as many elements as the call says. It is not NULL unless the call allows
 *     that, also where there are no elements: then the call does not follow it.
 *   - No list, number or triangulation that a call writes overlaps another argument.
 *   - A `tevasulim_triangulation` is {0} at first, and from then on only calls write it. It is not
 *     copied as a struct, since a call that closes one of two such copies frees what the other one
 *     has: `tevasulim_copy` makes a copy.
 *   - No two calls with the same `tevasulim_triangulation` run at the same time. Calls with
 *     different ones may run in different threads at once.
 *   - malloc, realloc and free are those of one C library, and no call is made by a signal handler.
 *
 * What stays. The calls, structs and numbers of this header stay as they are as long as the first
 * number of the version does. New ones may come, and with them new statuses. */
#ifndef TEVASULIM_H
#define TEVASULIM_H

#include <stdbool.h>
#include <stddef.h>
#include <stdint.h>

#ifdef __cplusplus
extern "C" {
#endif

#define TEVASULIM_VERSION 100 /* 10000 * major + 100 * minor + patch */
#define TEVASULIM_MOST 536870912
#define TEVASULIM_NONE UINT32_MAX /* in place of an index: there is none */

/* Kinds of triangulations. */
typedef enum tevasulim_kind { TEVASULIM_PLAIN = 0, TEVASULIM_CONSTRAINED = 1 } tevasulim_kind;

/* Kinds of shapes. */
typedef enum tevasulim_shape_kind {
    TEVASULIM_CIRCLE = 0,
    TEVASULIM_RECTANGLE = 1
} tevasulim_shape_kind;

/* How a call ended. */
typedef enum tevasulim_status {
    TEVASULIM_OK = 0,              /* all went well */
    TEVASULIM_CLOSED = 1,          /* the triangulation is not open */
    TEVASULIM_ALREADY_OPEN = 2,    /* the triangulation that was to be opened is open */
    TEVASULIM_NO_SUCH_KIND = 3,    /* no triangulation or no shape is of this kind */
    TEVASULIM_IS_PLAIN = 4,        /* the call is for constrained triangulations alone */
    TEVASULIM_IS_CONSTRAINED = 5,  /* the call is for plain triangulations alone */
    TEVASULIM_UNEQUAL_LENGTHS = 6, /* two lists that go together have different lengths */
    TEVASULIM_TOO_LARGE = 7,       /* a coordinate is out of range */
    TEVASULIM_NEGATIVE = 8,        /* a squared radius or width is negative */
    TEVASULIM_NO_SUCH_VERTEX = 9,  /* there is no vertex with this index */
    TEVASULIM_NO_SUCH_POINT = 10,  /* a segment names a point that is not in the list */
    TEVASULIM_CROSSING = 11,       /* a constraint crosses the segment */
    TEVASULIM_NO_CONSTRAINT = 12,  /* no constraint joins the two vertices */
    TEVASULIM_TOO_SHORT = 13,      /* a list has too little room */
    TEVASULIM_OUT_OF_INDEXES = 14, /* six times the number of vertices could pass 2^32 - 1 */
    TEVASULIM_OUT_OF_MEMORY = 15,  /* there is not enough memory */
    TEVASULIM_NO_SUCH_STATUS = 16  /* there is no such status to put in words */
} tevasulim_status;

/* Where a point is. */
typedef enum tevasulim_place_kind {
    TEVASULIM_ON_VERTEX = 0,
    TEVASULIM_ON_EDGE = 1,
    TEVASULIM_IN_FACE = 2,
    TEVASULIM_OUTSIDE = 3, /* the edge is one of the hull that is seen from the point */
    TEVASULIM_NOWHERE = 4  /* there are fewer than two vertices, and none is at the point */
} tevasulim_place_kind;

/* What a line meets. */
typedef enum tevasulim_meeting_kind {
    TEVASULIM_AT_VERTEX = 0,
    TEVASULIM_ACROSS_EDGE = 1,
    TEVASULIM_ALONG_EDGE = 2
} tevasulim_meeting_kind;

typedef struct {
    int32_t x, y;
} tevasulim_point;

/* Two points or vertices, by their indexes. */
typedef struct {
    uint32_t from, to;
} tevasulim_segment;

/* A face: its corners, counterclockwise; the face beyond the edge opposite each corner, or
 * TEVASULIM_NONE; and whether the edge opposite each corner is a constraint, 1 or 0. */
typedef struct {
    uint32_t corners[3], neighbors[3], constrained[3];
} tevasulim_face;

/* An edge: its ends, and whether it is a constraint, 1 or 0. */
typedef struct {
    uint32_t from, to, constrained;
} tevasulim_edge;

/* Where a point is: a `tevasulim_place_kind`, and the index of the vertex, edge or face there,
 * which is TEVASULIM_NONE at TEVASULIM_NOWHERE. */
typedef struct {
    uint32_t kind, index;
} tevasulim_place;

/* What a line meets: a `tevasulim_meeting_kind`, and a vertex, which is then both `from` and `to`,
 * or an edge. An edge that the line crosses goes from `from` to `to` with the line's end on its
 * left. An edge that the line runs along has the line's direction. `constrained` is 1 where that
 * edge is a constraint, and else 0. */
typedef struct {
    uint32_t kind, from, to, constrained;
} tevasulim_meeting;

/* A closed shape. Of a circle `first` is the center and `radius_2` the squared radius; `second` is
 * not looked at. Of a rectangle `first` is the lower left corner and `second` the upper right one;
 * `radius_2` is not looked at. A rectangle whose `second` is left of `first` or below it has no
 * point. `tevasulim_circle` and `tevasulim_rectangle` make shapes. */
typedef struct {
    uint32_t kind; /* a tevasulim_shape_kind */
    tevasulim_point first, second;
    int64_t radius_2;
} tevasulim_shape;

/* The sides of a box: the x of two and the y of two. INT32_MIN as the left or the bottom one, and
 * INT32_MAX as the right or the top one, says that there is no such side. */
typedef struct {
    int32_t left, bottom, right, top;
} tevasulim_box;

/* How many elements a triangulation has. */
typedef struct {
    uint64_t vertices, edges, faces, constraints;
} tevasulim_counts;

/* A triangulation that the program holds. {0} is a closed one. */
typedef struct {
    void *at;
    bool is_open;
} tevasulim_triangulation;

/* ---- Shapes ---- */

static inline tevasulim_shape tevasulim_circle(tevasulim_point center, int64_t radius_2)
{
    tevasulim_shape shape = {TEVASULIM_CIRCLE, {0, 0}, {0, 0}, 0};
    shape.first = center;
    shape.radius_2 = radius_2;
    return shape;
}

static inline tevasulim_shape tevasulim_rectangle(tevasulim_point lower, tevasulim_point upper)
{
    tevasulim_shape shape = {TEVASULIM_RECTANGLE, {0, 0}, {0, 0}, 0};
    shape.first = lower;
    shape.second = upper;
    return shape;
}

/* ---- The library ---- */

/* The version of the library that is linked: TEVASULIM_VERSION where it is that of this header. */
uint32_t tevasulim_version(void);

/* 1 where the library that is linked was proved as it was built, and 0 in a trial build, of which
 * nothing is proved. */
uint32_t tevasulim_is_proved(void);

/* A status in words, which stay where they are and are not to be freed. Of a number that is no
 * status the words say so. */
const char *tevasulim_status_string(uint32_t status);

/* Copies the words of a status to `text`, with a final 0 byte. `*length` is the length of the words
 * without that byte, so there is room for them where room > *length. 100 bytes serve for each.
 * TEVASULIM_TOO_SHORT: there is no room, and nothing is written. TEVASULIM_NO_SUCH_STATUS: the
 * number is no status, and the words say so. */
tevasulim_status tevasulim_status_text(uint32_t status, uint8_t *text, size_t room,
                                       size_t *length);

/* ---- Its life ---- */

/* Opens a closed triangulation: it is of this `tevasulim_kind`, and has no vertex.
 * TEVASULIM_ALREADY_OPEN: it is open, and stays as it is. TEVASULIM_NO_SUCH_KIND: `kind` is no
 * kind. TEVASULIM_OUT_OF_MEMORY. */
tevasulim_status tevasulim_open(tevasulim_triangulation *self, uint32_t kind);

/* Closes a triangulation, and gives its memory back. Of a closed one, and of NULL, it changes
 * nothing. */
void tevasulim_close(tevasulim_triangulation *self);

/* Opens the closed triangulation `copy` as a copy of `self`: it is of the same kind, and has the
 * same vertices, edges, faces and constraints with the same indexes, and the same numbers. From
 * then on each of the two is edited by itself. TEVASULIM_ALREADY_OPEN: `copy` is open, and stays
 * as it is. TEVASULIM_OUT_OF_MEMORY: `copy` stays closed. */
tevasulim_status tevasulim_copy(tevasulim_triangulation *self, tevasulim_triangulation *copy);

/* Turns a plain triangulation into a constrained one, which has no constraint yet. The indexes of
 * vertices, edges and faces and the numbers stay. TEVASULIM_IS_CONSTRAINED: it is constrained
 * already. TEVASULIM_OUT_OF_MEMORY. */
tevasulim_status tevasulim_allow_constraints(tevasulim_triangulation *self);

/* Forgets each vertex, edge and face. The kind stays. */
tevasulim_status tevasulim_clear(tevasulim_triangulation *self);

/* ---- Edits ---- */

/* Inserts a vertex with the number 0, and writes its index to `*vertex`. Where a vertex is at the
 * point already, that one gets the number 0, and keeps its index and its constraints. Else the new
 * vertex has the index after the last one. TEVASULIM_TOO_LARGE: a coordinate is out of range.
 * TEVASULIM_OUT_OF_INDEXES. TEVASULIM_OUT_OF_MEMORY. */
tevasulim_status tevasulim_insert(tevasulim_triangulation *self, int32_t x, int32_t y,
                                  uint32_t *vertex);

/* Inserts `count` vertices, each with the number 0, and writes the index of the vertex of points[k]
 * to vertices[k]. Whatever the order of the list, the vertices are inserted twice along a curve
 * through the plane, first about every eighth of them and then the others, and new ones get their
 * indexes in that order. `vertices` is written where the status is TEVASULIM_OK, and else stays as
 * it was. The first of these that applies decides. TEVASULIM_TOO_SHORT: room < count.
 * TEVASULIM_TOO_LARGE: a coordinate is out of range. TEVASULIM_OUT_OF_INDEXES: six times the number
 * of vertices that are there and `count` more passes 2^32 - 1. TEVASULIM_OUT_OF_MEMORY: some of the
 * vertices may be inserted. */
tevasulim_status tevasulim_insert_all(tevasulim_triangulation *self, const tevasulim_point *points,
                                      size_t count, uint32_t *vertices, size_t room);

/* Removes a vertex and the constraints that end at it. The last vertex takes its index. Where
 * exactly two constraints end at the vertex and it is strictly between their other ends, a
 * constraint joins these ends afterwards. TEVASULIM_NO_SUCH_VERTEX. TEVASULIM_OUT_OF_MEMORY. */
tevasulim_status tevasulim_remove(tevasulim_triangulation *self, uint32_t vertex);

/* Joins two vertices by constraints along the segment between them. A vertex that is strictly
 * within the segment stays, between two constraints. From a vertex to itself there is nothing to
 * join. TEVASULIM_IS_PLAIN. TEVASULIM_NO_SUCH_VERTEX. TEVASULIM_CROSSING: a constraint crosses the
 * segment (`tevasulim_conflicts` lists all that do). TEVASULIM_OUT_OF_MEMORY. */
tevasulim_status tevasulim_constrain(tevasulim_triangulation *self, uint32_t from, uint32_t to);

/* Joins each vertex of a list to the next one in the same way, and the last one to the first one
 * where the chain is closed. `*made` is how many segments are joined. TEVASULIM_IS_PLAIN.
 * TEVASULIM_NO_SUCH_VERTEX: nothing is joined. TEVASULIM_CROSSING and TEVASULIM_OUT_OF_MEMORY: the
 * segments before the refused one stay joined. */
tevasulim_status tevasulim_constrain_chain(tevasulim_triangulation *self, const uint32_t *vertices,
                                           size_t count, bool closed, size_t *made);

/* Turns the constraint between two vertices into a free edge. TEVASULIM_IS_PLAIN.
 * TEVASULIM_NO_SUCH_VERTEX. TEVASULIM_NO_CONSTRAINT: no constraint joins the two.
 * TEVASULIM_OUT_OF_MEMORY. */
tevasulim_status tevasulim_release(tevasulim_triangulation *self, uint32_t from, uint32_t to);

/* Gives numbers of the caller's own to vertices: numbers[k] to vertices[k]. A vertex that is named
 * more than once gets the last of its numbers. An insertion gives its vertex the number 0.
 * TEVASULIM_UNEQUAL_LENGTHS: count and number_count differ. TEVASULIM_NO_SUCH_VERTEX: no vertex
 * gets a number. */
tevasulim_status tevasulim_set_numbers(tevasulim_triangulation *self, const uint32_t *vertices,
                                       size_t count, const uint64_t *numbers, size_t number_count);

/* ---- All of it ---- */

/* Writes how many elements there are. A plain triangulation has no constraints. */
tevasulim_status tevasulim_count(tevasulim_triangulation *self, tevasulim_counts *counts);

/* Writes the position of each vertex, by index. TEVASULIM_TOO_SHORT. */
tevasulim_status tevasulim_positions(tevasulim_triangulation *self, tevasulim_point *points,
                                     size_t room, size_t *length);

/* Writes the number of each vertex, by index. TEVASULIM_TOO_SHORT. */
tevasulim_status tevasulim_numbers(tevasulim_triangulation *self, uint64_t *numbers, size_t room,
                                   size_t *length);

/* Writes the edges, by index. TEVASULIM_TOO_SHORT. */
tevasulim_status tevasulim_edges(tevasulim_triangulation *self, tevasulim_edge *edges, size_t room,
                                 size_t *length);

/* Writes the faces, by index. TEVASULIM_TOO_SHORT. */
tevasulim_status tevasulim_faces(tevasulim_triangulation *self, tevasulim_face *faces, size_t room,
                                 size_t *length);

/* Writes the layer of each face, by index: the least number of constraints to cross on the way from
 * outside the hull to the face, which goes from face to face across edges. A face that can be
 * reached across no constraint has layer 0, a face inside one closed chain of constraints has layer
 * 1, and so on. TEVASULIM_TOO_SHORT. TEVASULIM_OUT_OF_MEMORY. */
tevasulim_status tevasulim_face_layers(tevasulim_triangulation *self, uint32_t *layers, size_t room,
                                       size_t *length);

/* Writes a flag for each face, by index: 0 where the closed disk of its circumcircle lies in a
 * closed box, and 1 where the disk passes a side of the box. This is found exactly, in whole
 * numbers. Where left > right or bottom > top, no disk lies in the box.
 * TEVASULIM_TOO_SHORT. */
tevasulim_status tevasulim_faces_beyond(tevasulim_triangulation *self, const tevasulim_box *within,
                                        uint8_t *flags, size_t room, size_t *length);

/* ---- Queries ---- */

/* Writes where each of `count` points is. TEVASULIM_TOO_SHORT: room < count. TEVASULIM_TOO_LARGE: a
 * coordinate is out of range. */
tevasulim_status tevasulim_locate(tevasulim_triangulation *self, const tevasulim_point *points,
                                  size_t count, tevasulim_place *places, size_t room);

/* Writes for each of `count` points the nearest vertex, one of them where several are equally near,
 * or TEVASULIM_NONE where there is no vertex. TEVASULIM_TOO_SHORT: room < count.
 * TEVASULIM_TOO_LARGE: a coordinate is out of range. TEVASULIM_IS_CONSTRAINED. */
tevasulim_status tevasulim_nearest(tevasulim_triangulation *self, const tevasulim_point *points,
                                   size_t count, uint32_t *vertices, size_t room);

/* Writes what the segment from one point to another meets, in the order along it.
 * TEVASULIM_TOO_LARGE: a coordinate is out of range. TEVASULIM_TOO_SHORT: as much as there is room
 * for is written. */
tevasulim_status tevasulim_line(tevasulim_triangulation *self, const tevasulim_point *from,
                                const tevasulim_point *to, tevasulim_meeting *meetings, size_t room,
                                size_t *length);

/* Writes the constraints that the segment from one point to another crosses, in the order along the
 * segment. It crosses those that it meets in one point strictly within them, also where it ends
 * there; from a point to itself it crosses none. Each goes from `from` to `to` with the segment's
 * end on its left. Between the positions of two vertices these are the constraints for which
 * `tevasulim_constrain` gives TEVASULIM_CROSSING. A plain triangulation has none.
 * TEVASULIM_TOO_LARGE: a coordinate is out of range. TEVASULIM_TOO_SHORT: as many as there is room
 * for are written. */
tevasulim_status tevasulim_conflicts(tevasulim_triangulation *self, const tevasulim_point *from,
                                     const tevasulim_point *to, tevasulim_segment *constraints,
                                     size_t room, size_t *length);

/* Writes to `*seen` whether each point of the segment from one point to another is in a closed face
 * that is free, 1 or 0. Face f is free where is_free[f] is not 0. So the segment does not leave the
 * hull and enters no face that is not free, but it may pass through the corners of such faces, and
 * along an edge with a free face on one side. TEVASULIM_UNEQUAL_LENGTHS: `free_count` is not the
 * number of faces. TEVASULIM_TOO_LARGE: a coordinate is out of range. */
tevasulim_status tevasulim_in_sight(tevasulim_triangulation *self, const tevasulim_point *from,
                                    const tevasulim_point *to, const uint8_t *is_free,
                                    size_t free_count, uint32_t *seen);

/* Writes a way from one point to another through free faces: its points, the first at `from` and
 * the last at `to`. Each point is in sight of the next, those between are at vertices, and none of
 * them can be left out, since its two neighbours do not see each other. The way is the shortest
 * among those close to it, but not always the shortest of all. It may run along sides of free faces,
 * and pass a corner at which two of them meet.
 *
 * `*length` is 0 where there is no way, and else 2 or more. There is none exactly where no chain of
 * points of any kind, each in sight of the next, joins the two. From a point in a closed free face
 * to itself the way has this point twice.
 *
 * Face f is free where is_free[f] is not 0. TEVASULIM_UNEQUAL_LENGTHS: `free_count` is not the
 * number of faces. TEVASULIM_TOO_LARGE: a coordinate is out of range. TEVASULIM_OUT_OF_MEMORY.
 * TEVASULIM_TOO_SHORT: as many points as there is room for are written. */
tevasulim_status tevasulim_way(tevasulim_triangulation *self, const tevasulim_point *from,
                               const tevasulim_point *to, const uint8_t *is_free,
                               size_t free_count, tevasulim_point *points, size_t room,
                               size_t *length);

/* Writes a label for each face, by index: TEVASULIM_NONE for a face that is not free; and two free
 * faces have the same label exactly where `tevasulim_way` joins each point of the one with each
 * point of the other. So one call answers for any two points whether there is a way. The labels are
 * 0, 1 and so on, in the order of the first faces that have them. Face f is free where is_free[f]
 * is not 0. TEVASULIM_UNEQUAL_LENGTHS: `free_count` is not the number of faces.
 * TEVASULIM_TOO_SHORT. TEVASULIM_OUT_OF_MEMORY. */
tevasulim_status tevasulim_reachable(tevasulim_triangulation *self, const uint8_t *is_free,
                                     size_t free_count, uint32_t *labels, size_t room,
                                     size_t *length);

/* Writes a flag for each face, by index: 1 where the face is free and the square of each of its
 * three heights is `width_2` or more, which is found exactly; and else 0. Such a face is wide
 * enough for a disc with the squared diameter `width_2`. `tevasulim_way`, `tevasulim_reachable` and
 * `tevasulim_in_sight` take these flags as their `is_free`.
 *
 * A disc whose centre goes straight from the middle of one side of such a face to the middle of
 * another covers no corner of the face. That is all: a way through wide faces still goes along
 * sides and past corners, also where two wide faces have only a corner in common, and there the
 * disc has to keep away from the corner by itself. A face that is not wide may let the disc pass
 * where no wall is near. Face f is free where is_free[f] is not 0.
 *
 * TEVASULIM_UNEQUAL_LENGTHS: `free_count` is not the number of faces. TEVASULIM_NEGATIVE: `width_2`
 * is negative. TEVASULIM_TOO_SHORT. TEVASULIM_OUT_OF_MEMORY. */
tevasulim_status tevasulim_wide_faces(tevasulim_triangulation *self, const uint8_t *is_free,
                                      size_t free_count, int64_t width_2, uint8_t *flags,
                                      size_t room, size_t *length);

/* Writes the vertices in a closed shape, each once, in no promised order. TEVASULIM_NO_SUCH_KIND:
 * the shape is of no kind. TEVASULIM_TOO_LARGE: a coordinate of the shape is out of range.
 * TEVASULIM_NEGATIVE: a circle's squared radius is negative. TEVASULIM_OUT_OF_MEMORY.
 * TEVASULIM_TOO_SHORT: as many as there is room for are written. */
tevasulim_status tevasulim_vertices_in(tevasulim_triangulation *self, const tevasulim_shape *shape,
                                       uint32_t *vertices, size_t room, size_t *length);

/* Writes the edges with at least one point in a closed shape, each once, in no promised order. The
 * statuses are those of `tevasulim_vertices_in`. */
tevasulim_status tevasulim_edges_in(tevasulim_triangulation *self, const tevasulim_shape *shape,
                                    uint32_t *edges, size_t room, size_t *length);

/* ---- Without an open triangulation ---- */

/* Writes the faces of the constrained triangulation of points and of segments between them. Their
 * corners are indexes of points: of equal points the first one. `*length` is how many faces there
 * are, and room for 2 * count always serves. TEVASULIM_TOO_LARGE: a coordinate is out of range, and
 * `*at` is the first such point. TEVASULIM_NO_SUCH_POINT: a segment names no point, and `*at` is
 * the first such segment. TEVASULIM_CROSSING: a segment crosses one before it, and `*at` is the
 * first such segment. TEVASULIM_TOO_SHORT. TEVASULIM_OUT_OF_INDEXES: six times `count` passes
 * 2^32 - 1. TEVASULIM_OUT_OF_MEMORY. */
tevasulim_status tevasulim_triangulate(const tevasulim_point *points, size_t count,
                                       const tevasulim_segment *segments, size_t segment_count,
                                       tevasulim_face *faces, size_t room, size_t *length,
                                       size_t *at);

#ifdef __cplusplus
}
#endif

#endif
