"""Packages that only some features need."""
from __future__ import annotations

import importlib
from typing import Any



def needed(name: str) -> Any:
    """A module, or an ImportError that says how to install it."""
    try:
        return importlib.import_module(name)
    except ImportError as error:
        package = name.split(".")[0]
        raise ImportError(
            f"{package} is needed here and cannot be imported ({error}): install it with `pip "
            f"install {package}` or `apt-get install python3-{package}`",
            name=package,
        ) from error
