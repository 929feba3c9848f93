"""`use` lines of .rt files: each name of this repository by one path, for tools/imports.py.

Another crate's name is named by that crate's root, if the root passes it on, and else by its module; a
crate's own by `crate::` in the same way. So no name goes through a crate that only passes it on.
"""
import collections
import os
import re

ITEM = re.compile(
    r"^(?:pub(?:\([a-z]+\))? )?(?:(?:const|unsafe|final|extern \"C\") )*"
    r"(?:fn|struct|enum|trait|type|union|const|static) (\w+)|^macro_rules! (\w+)",
    re.M,
)
MOD = re.compile(r"^(pub(?:\([a-z]+\))? )?mod (\w+);", re.M)
USE = re.compile(r"^(pub(?:\([a-z]+\))? )?use ([^;]+);\n", re.M)


def leaves(text):
    """The paths that a `use` brings, each with the name that it is given."""
    text = re.sub(r"\s+", " ", text).strip()
    before, brace, inside = text.partition("{")
    words = inside.rstrip("} ").split(",") if brace else [""]
    for word in (x.strip() for x in words if x.strip() or not brace):
        path, _, alias = (before + word).partition(" as ")
        path = path.strip().removesuffix("::self")
        yield path.split("::"), alias.strip() or path.split("::")[-1]


class Crates:
    """The modules of all crates: what each declares, passes on, and has below it."""

    def __init__(self, root, names):
        self.names, self.items, self.passed, self.children = set(names), {}, {}, {}
        self.files = {}
        for name in names:
            for file in ("lib.rt", "main.rt"):
                if os.path.exists(f"{root}/crates/{name}/src/{file}"):
                    self.read(f"{root}/crates/{name}/src", f"{root}/crates/{name}/src/{file}", (name,))

    def read(self, source, file, module):
        with open(file, encoding="utf-8") as text:
            text = text.read()
        self.files[file] = module
        self.items[module] = {x or y for x, y in ITEM.findall(text)}
        self.children[module] = {name: mark for mark, name in MOD.findall(text)}
        self.passed[module] = {}
        for mark, paths in USE.findall(text):
            for path, name in leaves(paths):
                self.passed[module][name] = (path, mark)
        for name in self.children[module]:
            for below in (f"{source}/{name}.rt", f"{source}/{name}/mod.rt"):
                if os.path.exists(below):
                    self.read(f"{source}/{name}", below, (*module, name))

    def walk(self, module, path, depth=0):
        """What a path in a module leads to: a module, or a module and the name of an item, or None."""
        if depth > 20:
            return None
        first, *rest = path
        if first == "crate":
            here = module[:1]
        elif first == "self":
            here = module
        elif first == "super":
            here = module[:-1]
        elif first in self.children.get(module, {}):
            here = (*module, first)
        elif first in self.names:
            here = (first,)
        else:
            return None
        while rest:
            word, *rest = rest
            if word in self.children.get(here, {}):
                here = (*here, word)
            elif word in self.items.get(here, ()):
                return None if rest else (here, word)
            elif word in self.passed.get(here, {}):
                to = self.walk(here, self.passed[here][word][0], depth + 1)
                if to is None or isinstance(to[-1], str) and isinstance(to[0], tuple) and rest:
                    return None
                if isinstance(to[0], tuple):
                    return to
                here = to
            else:
                return None
        return here

    def path(self, reader, origin):
        """By which path a module names an item."""
        module, name = origin
        root = "crate" if module[0] == reader[0] else module[0]
        given = self.passed[module[:1]].get(name)
        if given and (given[1] == "pub " or root == "crate" and given[1]):
            if self.walk(module[:1], given[0]) == origin:
                return root
        modules = [module, *(x for x in self.items if x[0] == module[0] and name in self.passed[x])]
        for one in modules:
            is_there = one == module or self.walk(one, self.passed[one][name][0]) == origin
            if is_there and (root == "crate" or self.is_open(one)):
                return "::".join([root, *one[1:]])
        return None

    def is_open(self, module):
        """Whether other crates may name a module."""
        above = [module[:n] for n in range(1, len(module))]
        return all(self.children[x][module[len(x)]] == "pub " for x in above)


def rewritten(crates, file, text):
    """The text of a .rt file with its `use` lines, not those that pass on, written anew."""
    module = crates.files.get(file)
    lists, others = collections.defaultdict(set), []

    def each(found):
        if found[1]:
            return found[0]
        brought = [(path, name, crates.walk(module, path)) for path, name in leaves(found[2])]
        if not all(to and isinstance(to[0], tuple) and crates.path(module, to) for _, _, to in brought):
            return found[0]
        for path, name, to in brought:
            new = crates.path(module, to)
            lists[new].add(to[1] if to[1] == name else f"{to[1]} as {name}")
            if [*new.split("::"), to[1]] != path:
                others.append(path)
        return "\0"

    if module is None:
        return text
    found = USE.sub(each, text)
    # Where each path is what it is to be, the layout is that of `rt fmt`.
    if not others:
        return text
    text = found
    lines = "".join(f"use {path}::{{{', '.join(sorted(lists[path]))}}};\n" for path in sorted(lists))
    return text.replace("\0", lines, 1).replace("\0", "")
