"""Pictures: by matplotlib, and a small one for notebooks."""
from __future__ import annotations

from typing import Any, Optional

import numpy as np

from ._needs import needed
from ._values import Values

# A picture for a notebook has at most so many edges, and is so wide.
EDGES, WIDE = 20_000, 480


class Pictures(Values):
    """What a triangulation looks like."""

    def plot(
        self,
        ax: Any = None,
        values: Any = None,
        *,
        points: bool = False,
        color: Any = "0.4",
        linewidth: float = 0.6,
        constraint_color: Any = "C3",
        cmap: Any = None,
    ) -> Any:
        """Draws edges thin and constraints thick.

        Parameters
        ----------
        ax : matplotlib.axes.Axes, optional
            The axes to draw on; without it, the current ones of `matplotlib.pyplot`.
        values : array_like of shape (f,) or (n,), optional
            A value for each face, or for each point, that colours the faces.
        points : bool
            Whether to mark the vertices.
        color, linewidth, constraint_color, cmap
            As in matplotlib.

        Returns
        -------
        matplotlib.axes.Axes

        Raises
        ------
        ImportError
            Where matplotlib is not installed.
        """
        needed("matplotlib")
        from matplotlib.collections import LineCollection

        if ax is None:
            import matplotlib.pyplot as pyplot

            ax = pyplot.gca()
        with self._lock:
            places, edges, constraints = self.points, self.edges, self.constraints
            if values is not None and len(self.simplices):
                self._color(ax, np.asarray(values, np.float64), cmap)
            ax.add_collection(LineCollection(places[edges], colors=color, linewidths=linewidth))
            if len(constraints):
                thick = LineCollection(
                    places[constraints], colors=constraint_color, linewidths=3 * linewidth
                )
                ax.add_collection(thick)
            if points:
                numbers = self._numbers[: self._count]
                ax.plot(*places[numbers].T, ".", color=color)
        ax.set_aspect("equal")
        ax.autoscale_view()
        return ax

    def _color(self, ax: Any, values: Any, cmap: Any) -> None:
        faces = len(self.simplices)
        if values.shape == (faces,) and faces != self._size:
            shades = values
        elif values.shape == (self._size,):
            shades = values[self.simplices].mean(1)
        else:
            raise ValueError(
                f"values have the shape {values.shape}, but need one number for each of the "
                f"{faces} faces or the {self._size} points"
            )
        ax.tripcolor(self.to_matplotlib(), facecolors=shades, cmap=cmap)

    def _repr_svg_(self) -> Optional[str]:
        """What notebooks show."""
        if not self._mesh.is_open:
            return None
        with self._lock:
            self._ready()
            count = self._counts()
            if count.vertices < 2 or count.edges > EDGES:
                return None
            low, high = self.min_bound.astype(float), self.max_bound.astype(float)
            wide = float((high - low).max())
            ends = (self.points - low) / wide * (WIDE - 20) + 10
            size = (high - low) / wide * (WIDE - 20) + 20
            ends[:, 1] = size[1] - ends[:, 1]
            lines = path(ends[self.edges])
            thick = path(ends[self.constraints])
        return (
            f'<svg xmlns="http://www.w3.org/2000/svg" width="{size[0]:.0f}" height="{size[1]:.0f}">'
            f'<path d="{lines}" stroke="#666" stroke-width="0.7" fill="none"/>'
            f'<path d="{thick}" stroke="#c33" stroke-width="2" fill="none"/></svg>'
        )


def path(segments: Any) -> str:
    """Segments of shape (m, 2, 2) as SVG writes them."""
    return "".join("M%.1f %.1fL%.1f %.1f" % tuple(it) for it in segments.reshape(-1, 4).tolist())
