"""Where points are among points and edges, worked out by trying all."""
from model.geometry import are_on_line, carries, is_inside, side


def outer_sides(points, edges, p):
    """The edges, with a direction, beside which a point that is outside may be said to be."""
    is_line = are_on_line(points)
    for i, j in [*edges, *((j, i) for i, j in edges)]:
        a, b = points[i], points[j]
        turn = side(a, b, p)
        is_outer = all(side(a, b, q) <= 0 for q in points)
        is_end = not any(side(a, b, q) == 0 and carries(q, b, a) for q in points)
        is_past = turn == 0 and carries(p, b, a)
        if turn > 0 and is_outer or is_line and is_end and is_past:
            yield i, j


def place_of(points, edges, faces, p):
    """The vertex, the edge or the face that a point is on, in a list: of faces and edges by the
    indexes of their vertices. An empty list where it is outside, or nowhere."""
    if p in points:
        return [points.index(p)]
    for i, j in edges:
        if carries(points[i], points[j], p):
            return [i, j]
    for face in faces:
        if is_inside(*(points[k] for k in face), p):
            return list(face)
    return []
