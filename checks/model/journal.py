"""What lists of edits give that are replayed on a triangulation, worked out from points and
constraints."""
from model.session import vertex_text


def insert(session, x, y):
    index = session.state().put((x, y), 0)
    if index is None:
        return "Refused(Insertion(TooLarge))"
    return f"Inserted(FixedVertexHandle {{ index: {index} }})"


def remove(session, i):
    state = session.state()
    return f"Removed({state.take(i)})" if i < len(state.points) else "Refused(NoVertex)"


def replace(session, i, x, y):
    state = session.state()
    if i >= len(state.points):
        return "Refused(NoVertex)"
    if state.points[i] != (x, y):
        return "Refused(OtherPosition)"
    former, state.tags[i] = state.tags[i], 0
    return f"Replaced({vertex_text((x, y), former)})"


def clear(session):
    session.call_clear()
    return "Cleared"


def add(session, i, j):
    state = session.state()
    if not session.is_constrained:
        return "Refused(NoConstraints)"
    if max(i, j) >= len(state.points):
        return "Refused(NoVertex)"
    if not state.is_free(i, j):
        return "Refused(Conflict)"
    return f"Added({str(state.join(i, j)[1]).lower()})"


def release(session, i, j):
    pair, walls = tuple(sorted((i, j))), session.state().walls
    if not session.is_constrained:
        return "Refused(NoConstraints)"
    if pair not in walls:
        return "Refused(NotConstrained)"
    walls.discard(pair)
    return "Released"


CALLS = {
    "list_insert": insert,
    "list_remove": remove,
    "list_replace": replace,
    "list_clear": clear,
    "list_add": add,
    "list_release": release,
}


def replayed(session):
    """What each edit of the session's list gives. A new list begins."""
    edits, session.listed_edits = session.listed_edits, []
    return [CALLS[name](session, *numbers) for name, *numbers in edits]
