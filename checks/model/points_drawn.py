"""Points that random edits are made of."""
from itertools import product

from model.plain_state import LIMIT


def points_to_draw(draw):
    """Few points that are near each other, those of one line, those at the limits, or any."""
    kind = draw.choice(("near", "near", "line", "line and more", "limits", "any"))
    reach = draw.choice((1, 2, 3, 4))
    near = list(product(range(-reach, reach + 1), repeat=2))
    x, y, dx, dy = (draw.randint(-3, 3) for _ in range(4))
    line = [(x + k * (dx or 1), y + k * dy) for k in range(-6, 7)]
    ends = [sign * (LIMIT - step) for sign in (-1, 1) for step in (0, 1, 2)]
    if kind == "limits":
        return list(product([*ends, -1, 0, 1], repeat=2))
    if kind == "any":
        return [tuple(draw.randint(-LIMIT, LIMIT) for _ in "xy") for _ in range(40)]
    return {"near": near, "line": line, "line and more": line + draw.sample(near, 4)}[kind]
