"""The page for the Python package: each public class and function with its docstring."""
import ast
import glob
import inspect
import os

from pages.sources import text_of
from project import ROOT

PACKAGE = "python/tevasulim"
# The modules that users import, with what each is for.
MODULES = {
    "tevasulim": "Triangulations",
    "tevasulim.errors": "Exceptions",
    "tevasulim.tiles": "Tiles: more points than one machine holds",
    "tevasulim.geo": "Maps: geopandas, rasterio and meshio",
    "tevasulim.compat": "In place of `scipy.spatial.Delaunay` and matplotlib's triangulation",
}


def parsed():
    """The classes and functions of all modules by their names, and the names that each module
    exports."""
    known, exported = {}, {}
    for path in sorted(glob.glob(f"{ROOT}/{PACKAGE}/*.py")):
        name = os.path.basename(path)[:-3]
        tree = ast.parse(text_of(f"{PACKAGE}/{name}.py"))
        exported[name] = []
        for node in tree.body:
            if isinstance(node, (ast.ClassDef, ast.FunctionDef)):
                known.setdefault(node.name, node)
            targets = getattr(node, "targets", [])
            if targets and getattr(targets[0], "id", "") == "__all__":
                words = ast.walk(node.value)
                exported[name] = [it.value for it in words if isinstance(it, ast.Constant)]
    return known, exported


def signature(node, owner=""):
    """How a function is called: its parameters without their types."""
    args = node.args
    names = [*args.posonlyargs, *args.args]
    defaults = [None] * (len(names) - len(args.defaults)) + args.defaults
    written = [shown(name, it) for name, it in zip(names, defaults)]
    written = written[1:] if owner and names and names[0].arg in ("self", "cls") else written
    if args.vararg:
        written.append(f"*{args.vararg.arg}")
    elif args.kwonlyargs:
        written.append("*")
    written += [shown(name, it) for name, it in zip(args.kwonlyargs, args.kw_defaults)]
    return f"{owner}{node.name}({', '.join(written)})"


def shown(name, default):
    return name.arg + (f"={ast.unparse(default)}" if default is not None else "")


def methods(node, known):
    """The public methods and properties of a class and of its bases, by their names."""
    found = {}
    for base in node.bases:
        if getattr(base, "id", "") in known:
            found.update(methods(known[base.id], known))
    for it in node.body:
        if isinstance(it, ast.FunctionDef) and not it.name.startswith("_"):
            if ast.get_docstring(it):
                found[it.name] = it
    return found


def is_property(node):
    return any("property" in ast.unparse(it) for it in node.decorator_list)


def written(node):
    """A docstring as lines, which stay as they are where they have sections or examples."""
    doc = inspect.cleandoc(ast.get_docstring(node) or "")
    is_plain = not any(it in doc for it in ("\n    ", ">>>", "---"))
    return [doc, ""] if is_plain else ["```text", doc, "```", ""]


def page():
    """The lines of the page, and how many classes and functions it has."""
    known, exported = parsed()
    lines = ["# The Python package", "", "Made of the docstrings. docs/PYTHON.md is the guide.", ""]
    count = 0
    for module, heading in MODULES.items():
        name = module.partition(".")[2] or "__init__"
        lines += [f"## {heading}", "", f"Module `{module}`.", ""]
        for item in exported[name]:
            node = known.get(item)
            if node is None:
                continue
            count += 1
            is_class = isinstance(node, ast.ClassDef)
            lines += [f"### `{item}`" if is_class else f"### `{signature(node)}`", ""]
            lines += written(node)
            if not is_class:
                continue
            for method in methods(node, known).values():
                head = method.name if is_property(method) else signature(method, ".")[1:]
                lines += [f"#### `{item}.{head}`", "", *written(method)]
    return lines, count
