"""Types of arrays, without the import of `numpy.typing`, which takes as long as the package."""
from __future__ import annotations

from typing import TYPE_CHECKING, Any

if TYPE_CHECKING:
    from numpy.typing import NDArray as NDArray
else:

    class NDArray:
        """Stands for numpy's in annotations, which are not looked at while the package runs."""

        def __class_getitem__(cls, _: Any) -> Any:
            return cls
