#!/usr/bin/env python3
"""tools/imports.py [--check] [--move OLD=NEW].. [CRATE..]: writes how files name what they use.

A name of this repository has one path. In .antt files and `ghost use` lines, other crates name it
by the facade of its crate, if that passes it on: specs/Lib.antt for definitions, proofs/Lib.antt for
lemmas. So do a crate's own proofs with its definitions. Otherwise it is named by the module that
declares it, and never through another crate. A facade passes on what three files or more name
through it, but for a name that is spelled like one of its modules. A file has one list for each
facade, in lines of at most 100 columns; names that fill no line of their own stand together in lists
of their crate or of `Rattle.{..}`. In `use` lines the crate's root is the facade (rust_uses.py).
crates.txt names each crate that files name.

--check writes nothing, and says which files would change. --move gives a module of specs/ or proofs/
another name, as plane.specs.Side=plane.specs.Sides: it renames the file and all that name it. The
tool proves nothing: run `rt fmt` and `rt check` after it.
"""
import collections
import functools
import os
import re
import sys

sys.dont_write_bytecode = True
sys.path.insert(0, os.path.dirname(os.path.realpath(__file__)))
import rust_uses  # noqa: E402

ROOT = os.path.dirname(os.path.dirname(os.path.realpath(__file__)))
COLUMNS = 100
# How many files name what a facade passes on.
LEAST = 3
# So few names in a last line go with those of other modules.
FEW = 4
USE = re.compile(
    r"(?P<marks>(?:unfoldable |pub )*)use (?P<path>[^\s{]+?)"
    r"(?:\.(?P<glob>\*)|\.\{(?P<names>[^}]*)\})?(?: as (?P<alias>\S+))?$"
)
MOD = re.compile(r"(?:pub )?mod (\S+)$")
DECLARED = re.compile(
    r"((?:pattern |unfoldable |abbrev |pub )*)(record |data |axiom |ruleset )?(\S+)"
)
# The crate, or the list of several, of an import of either language.
FIRST = re.compile(
    r"^\s*(?:unfoldable |pub |ghost )*use (?:Rattle\.\{([^}]*)\}|(?:Rattle\.)?(\w+))", re.M
)
GHOST = re.compile(r"^( *)ghost use (Rattle\.[^;]*);$")
# These name the public facade, as users do.
USERS = ("examples",)


class Use:
    """One import: a module, all names of one, or a list of names."""

    def __init__(self, text):
        found = USE.match(re.sub(r"\s+", " ", re.sub(r"\{\s+", "{", re.sub(r",?\s*\}", "}", text))))
        if not found:
            raise ValueError(text)
        self.text, self.marks, self.path = found[0], found["marks"], found["path"]
        self.alias, self.is_glob = found["alias"], bool(found["glob"])
        self.names = None
        if found["names"] is not None:
            self.names = [name.strip() for name in found["names"].split(",") if name.strip()]

    def passes_on(self):
        return "pub " in self.marks

    def brings(self):
        """Each name that a list brings, with the module and the name that it stands for."""
        for name in self.names or ():
            whole, _, alias = name.partition(" as ")
            *below, first = whole.strip().split(".")
            yield alias.strip() or first, ".".join([self.path, *below]), first


class Module:
    """A file of specs/ or proofs/: its header, line by line, and what it declares for others."""

    def __init__(self, path):
        with open(path, encoding="utf-8") as file:
            lines = file.read().split("\n")
        self.path, self.header, at, end = path, [], 0, 0
        while at < len(lines):
            line = lines[at]
            if re.match(r"(unfoldable |pub )*use ", line):
                while "{" in line and "}" not in line:
                    at += 1
                    line += " " + lines[at].strip()
                self.header.append(Use(line))
            elif MOD.match(line) or line.startswith("--") or not line.strip():
                self.header.append(line)
            else:
                break
            at += 1
            if isinstance(self.header[-1], Use) or MOD.match(line):
                end, rest = len(self.header), at
        del self.header[end:]
        self.rest = lines[rest:] if end else lines
        self.uses = [item for item in self.header if isinstance(item, Use)]
        self.children = [MOD.match(x)[1] for x in self.header if isinstance(x, str) and MOD.match(x)]
        self.declares = dict(declared(self.rest))


def declared(lines):
    """The names that lines declare with `pub`, and the constructors of such types, each with whether
    others may unfold it."""
    inside, depth_of = None, 0
    for line in lines:
        text, depth = line.strip(), len(line) - len(line.lstrip())
        if inside and text and depth <= depth_of and not text.startswith("--"):
            inside = None
        if inside:
            found = re.match(r"\|?\s*([^:|]+?) :", text) if inside == "data" else None
            yield from ((name, False) for name in found[1].split()) if found else ()
            continue
        found = DECLARED.match(text)
        if found and found[2] in ("record ", "data "):
            inside, depth_of = found[2].strip() if "pub " in found[1] else "record", depth
        if found and "pub " in found[1] and found[3] not in ("use", "mod", "open"):
            yield found[3], "unfoldable " in found[1]


def listed_crates():
    """The crates of crates.txt, each after those that it names."""
    with open(f"{ROOT}/crates.txt", encoding="utf-8") as file:
        lines = [line.split("#")[0].partition(":") for line in file]
    below = {before.split()[0]: after.split() for before, colon, after in lines if colon}
    order = []
    while len(order) < len(below):
        left = [name for name in below if name not in order]
        order += [x for x in left if all(y in order or y not in below for y in below[x])]
    return order


class Repository:
    """All modules of all crates, by their paths without `Rattle.`, and what each name stands for."""

    def __init__(self, moved):
        self.crates, self.moved, self.modules = listed_crates(), moved, {}
        self.facades = collections.defaultdict(dict)
        for name in self.crates:
            for folder in ("specs", "proofs"):
                for at, _, files in os.walk(f"{ROOT}/crates/{name}/{folder}"):
                    for file in files:
                        if file.endswith(".antt"):
                            path = os.path.relpath(f"{at}/{file}", f"{ROOT}/crates")[:-5]
                            key = path.removesuffix("/Lib").replace("/", ".")
                            self.modules[key] = Module(f"{at}/{file}")

    def is_own(self, use):
        """Whether an import is of this repository, not of the kit."""
        paths = [path for _, path, _ in use.brings()] if use.path == "Rattle" else [use.path]
        return all(x.startswith("Rattle.") and x.split(".")[1] in self.crates for x in paths)

    @functools.lru_cache(maxsize=None)
    def module(self, path):
        """The module that a path means, through whatever crates and other names it goes."""
        here, *rest = path.removeprefix("Rattle.").split(".")
        for word in rest:
            below = f"{here}.{word}"
            if below not in self.modules:
                below = self.passed_module(here, word) or below
            here = self.moved.get(below, below)
        return here

    def passed_module(self, here, word):
        """The module that another passes on under a name, if it does."""
        for use in self.modules[here].uses if here in self.modules else ():
            if use.names is None and not use.is_glob:
                if (use.alias or use.path.split(".")[-1]) == word:
                    return self.module(use.path)
        # So facades named the crates below, before each name had one path.
        if word.removesuffix("_lemmas") in self.crates and here.count(".") == 1:
            kind = "proofs" if word.endswith("_lemmas") else here.split(".")[1]
            return f"{word.removesuffix('_lemmas')}.{kind}"
        return None

    @functools.lru_cache(maxsize=None)
    def origin(self, module, name):
        """The module that declares what a module offers under a name, and its name there, or None."""
        here = self.modules.get(module)
        if here is None:
            return (module, name)
        if name in here.declares:
            return (module, name)
        for use in here.uses:
            if not use.passes_on():
                continue
            for brought, path, first in use.brings():
                if brought == name:
                    return self.origin(self.from_here(module, path), first)
            if use.is_glob and name not in here.children:
                found = self.origin(self.from_here(module, use.path), name)
                if found:
                    return found
        return None

    def from_here(self, module, path):
        return self.module(path) if path.startswith("Rattle.") else self.module(f"{module}.{path}")

    def named(self, reader, use):
        """Each name that an import of a file brings, with what it is."""
        for name, path, first in use.brings():
            origin = self.origin(self.module(path), first)
            if origin is None:
                sys.exit(f"tools/imports.py: {reader}: what is {path}.{first}?")
            yield name, origin

    def open_facades(self, readers, crates):
        """Fills `self.facades`: what each of these crates is to pass on, of lemmas what other crates
        name, and of definitions also what its own proofs name; and what others do pass on."""
        counts = collections.Counter()
        for reader, uses in readers:
            crate, kind = reader.split(".")[:2]
            for use in uses:
                for _, origin in self.named(reader, use) if use.names and self.is_own(use) else ():
                    of, of_kind = origin[0].split(".")[:2]
                    if of != crate or (kind, of_kind) == ("proofs", "specs"):
                        counts[origin] += 1
        for (module, name), count in sorted(counts.items(), key=lambda x: (-x[1], x[0])):
            facade = ".".join(module.split(".")[:2])
            is_made = module not in self.modules and ".declared." not in module
            if facade not in self.modules or module == facade or is_made or count < LEAST:
                continue
            if name not in self.taken(facade):
                self.facades[facade].setdefault(name, module)
        for facade in [x for x in self.modules if x.count(".") == 1]:
            if facade.split(".")[0] not in crates:
                self.facades[facade] = self.open_facade(facade)
            elif facade.endswith(".proofs") and len(self.facades[facade]) < 10:
                self.facades[facade] = {}

    def open_facade(self, facade):
        """What a facade passes on as it stands."""
        passed = {}
        for use in self.modules[facade].uses:
            for name, path, first in use.brings() if use.passes_on() else ():
                module, known = self.origin(self.from_here(facade, path), first)
                if known == name:
                    passed[name] = module
        return passed

    @functools.lru_cache(maxsize=None)
    def taken(self, facade):
        """Names that a facade cannot pass on: its children have them, and what the kit makes there."""
        names = {*self.modules[facade].children, "declared", "contracts"}
        if facade.endswith(".proofs"):
            folder = f"{ROOT}/crates/{facade.split('.')[0]}"
            names.update(os.listdir(f"{folder}/proofs"))
            with open(f"{folder}/src/lib.rt", encoding="utf-8") as file:
                text = file.read()
            names.update(re.findall(r"\b(?:fn|mod|struct|enum|trait|const|type) (\w+)", text))
            for passed in re.findall(r"\bpub use ([^;]*);", text):
                names.update(re.findall(r"\w+", passed))
        return names

    def facade_lines(self, facade):
        lists = collections.defaultdict(list)
        for name, module in self.facades.get(facade, {}).items():
            may_unfold = module in self.modules and self.modules[module].declares.get(name)
            lists[module[len(facade) + 1 :], "unfoldable " if may_unfold else ""].append(name)
        for (module, mark), names in sorted(lists.items()):
            yield from packed(in_order(names), f"{mark}pub use {module}.{{")

    def path(self, reader, origin):
        """By which module a file of `reader` names what `origin` is."""
        module, name = origin
        facade = ".".join(module.split(".")[:2])
        is_passed = self.facades.get(facade, {}).get(name) == module
        is_of_proof = ".proofs" in reader and ".specs" in facade
        is_outside = facade.split(".")[0] != reader.split(".")[0]
        return facade if is_passed and (is_outside or is_of_proof) else module


def packed(items, before, after="}"):
    """Items of a list in as few lines as they fill, in their order."""
    lines = []
    for item in items:
        if lines and len(lines[-1]) + len(item) + 2 + len(after) <= COLUMNS:
            lines[-1] += f", {item}"
        else:
            lines.append(before + item)
    return [line + after for line in lines]


def in_order(names):
    return sorted(names, key=lambda name: (not name.startswith("◌"), name.lower(), name))


def together(rests, path, room):
    """Puts the rests of lists, each a module and its names, into as few lists of `path` as they need,
    the longest first."""
    cut = len(path) + 1 if path else 0

    def size(rest):
        module, names = rest
        return sum(len(module) + 1 - cut + len(name) + 2 for name in names)

    lists = []
    for rest in sorted(rests, key=lambda rest: (-size(rest), rest)):
        for one in lists:
            if sum(map(size, one)) + size(rest) - 2 <= room:
                one.append(rest)
                break
        else:
            lists.append([rest])
    return lists


def lists_of(names, crates, before="use ", after="}"):
    """The lines that import names, given as pairs of a module and a name."""
    groups, lines, rests = collections.defaultdict(set), collections.defaultdict(list), []
    for module, name in names:
        groups[module].add(name)
    for module in sorted(groups):
        head = f"{before}Rattle.{module}.{{"
        *lines[module], last = packed(in_order(groups[module]), head, after)
        items = last[len(head) : -len(after)].split(", ")
        if len(items) < FEW:
            rests.append((module, items))
        else:
            lines[module].append(last)
    # Rests stand together with others of their crate and folder, and else with any.
    alone = []
    for facade in sorted({".".join(module.split(".")[:2]) for module, _ in rests}):
        head = f"{before}Rattle.{facade}.{{"
        mine = [rest for rest in rests if f"{rest[0]}.".startswith(f"{facade}.")]
        for one in together(mine, facade, COLUMNS - len(head) - len(after)):
            text = list_of(one, len(facade) + 1)
            if len(one) == 1 or len(text) < COLUMNS // 3:
                alone += one
            else:
                lines[min(one)[0]].append(head + text + after)
    head = f"{before}Rattle.{{"
    for one in together(alone, "", COLUMNS - len(head) - len(after)):
        module, items = min(one)
        line = f"{before}Rattle.{module}.{{{', '.join(items)}{after}"
        lines[module].append(line if len(one) == 1 else head + list_of(one, 0) + after)
    rank = {name: at for at, name in enumerate(crates)}
    order = sorted(lines, key=lambda path: (rank[path.split(".")[0]], ".proofs" in path, path))
    return [line for path in order for line in lines[path]]


def list_of(rests, cut):
    return ", ".join(in_order(f"{module}.{x}"[cut:] for module, items in rests for x in items))


def said(origin, name):
    return name if origin[1] == name else f"{origin[1]} as {name}"


class Header:
    """The header of a file of specs/ or proofs/, written anew."""

    def __init__(self, repository, key, module):
        self.repository, self.key, self.module = repository, key, module
        # What is kept as it stands, of the kit and else; what is brought; and names of a function's
        # goals, which are brought through the short name of that module.
        self.foreign, self.kept, self.names = [], [], []
        self.short = collections.defaultdict(set)
        self.aliases = {
            repository.module(use.path): use.alias
            for use in module.uses
            if use.names is None and use.alias and use.path.endswith((".Goals", ".Given"))
        }
        self.paths = {
            use.alias: use.path
            for use in module.uses
            if use.alias in self.aliases.values()
        }
        for item in module.header:
            if isinstance(item, Use):
                self.add(item)
            else:
                self.kept.append(item)

    def goals_path(self, alias):
        """What a function's goals are brought through: `goal.at` knows only those that are brought
        by the path of their module."""
        uses_places = any(f"{alias}.at." in line for line in self.module.rest)
        return self.paths[alias] if uses_places else alias

    def add(self, use):
        """Takes an import."""
        if use.path in self.aliases.values():
            self.short[use.path].update(use.names)
        elif not use.path.startswith("Rattle") and use.passes_on():
            # A line of a facade, which is written anew.
            return
        elif not self.repository.is_own(use):
            self.foreign.append(use.text)
        elif use.names is None:
            path, name = self.repository.module(use.path), use.alias or use.path.split(".")[-1]
            is_other = use.alias or use.passes_on() and path.split(".")[-1] != name
            self.kept.append(f"{use.marks}use Rattle.{path}{f' as {name}' if is_other else ''}")
        elif use.passes_on():
            passed = collections.defaultdict(list)
            for name, origin in self.repository.named(self.key, use):
                passed[self.repository.path(self.key, origin)].append(said(origin, name))
            for path, names in passed.items():
                self.kept += packed(names, f"{use.marks}use Rattle.{path}.{{")
        else:
            for name, origin in self.repository.named(self.key, use):
                if origin[0] in self.aliases:
                    self.short[self.aliases[origin[0]]].add(said(origin, name))
                else:
                    self.names.append((self.repository.path(self.key, origin), said(origin, name)))

    def text(self):
        kept, head = list(self.kept), []
        while kept and (kept[0].startswith("--") or not kept[0].strip()):
            head.append(kept.pop(0))
        lines = lists_of(self.names, self.repository.crates)
        for alias in sorted(self.short):
            kept += packed(in_order(self.short[alias]), f"use {self.goals_path(alias)}.{{")
        kept += self.repository.facade_lines(self.key)
        return "\n".join([*head, *self.foreign, *lines, *kept, *self.module.rest])


def indent_of(line):
    return GHOST.match(line)[1]


def blocks(text):
    """The lines of a .rt file, with each run of `ghost use` lines as a list of its own."""
    found = []
    for line in text.split("\n"):
        if not GHOST.match(line):
            found.append(line)
        elif found and isinstance(found[-1], list) and indent_of(found[-1][0]) == indent_of(line):
            found[-1].append(line)
        else:
            found.append([line])
    return found


def rewritten_rt(repository, crate, text):
    """The text of a .rt file with its `ghost use` lines written anew."""
    out = []
    for block in blocks(text):
        if isinstance(block, str):
            out.append(block)
            continue
        indent, names = indent_of(block[0]), []
        for line in block:
            use = Use(f"use {GHOST.match(line)[2]}")
            if use.names is None or not repository.is_own(use):
                out.append(line)
                continue
            for name, origin in repository.named(crate, use):
                names.append((repository.path(f"{crate}.specs", origin), said(origin, name)))
        out += lists_of(names, repository.crates, f"{indent}ghost use ", "};")
    return "\n".join(out)


def sources(crate):
    """The .rt files of a crate, each with its text."""
    for at, _, files in os.walk(f"{ROOT}/crates/{crate}/src"):
        for file in sorted(files):
            if file.endswith(".rt"):
                with open(f"{at}/{file}", encoding="utf-8") as text:
                    yield f"{at}/{file}", text.read()


def texts(repository, crates):
    """Each file of these crates with the text that it is to have."""
    for key, module in repository.modules.items():
        if key.split(".")[0] in crates:
            yield module.path, Header(repository, key, module).text()
    named = rust_uses.Crates(ROOT, repository.crates)
    for crate in crates:
        for path, text in sources(crate):
            yield path, rust_uses.rewritten(named, path, rewritten_rt(repository, crate, text))


def readers(repository):
    """Each file that names something, as the module that it stands in, with its imports."""
    for key, module in repository.modules.items():
        if key.split(".")[0] not in USERS:
            named = [x for x in module.uses if not x.passes_on() or x.path.startswith("Rattle")]
            yield key, named
    for crate in repository.crates:
        for _, text in sources(crate) if crate not in USERS else ():
            found = (GHOST.match(line) for line in text.split("\n"))
            yield f"{crate}.specs", [Use(f"use {it[2]}") for it in found if it]


def move(old, new):
    """Gives a module another name: its file and folder, the line of its parent, and documents."""
    parent, name = old.rpartition(".")[::2]
    was, to = (f"{ROOT}/crates/{x.replace('.', '/')}" for x in (old, new))
    is_there = os.path.exists(f"{was}.antt") and not os.path.exists(f"{to}.antt")
    if parent != new.rpartition(".")[0] or not is_there:
        sys.exit(f"tools/imports.py: {old} cannot become {new}")
    for ending in (".antt", ""):
        if os.path.exists(was + ending):
            os.rename(was + ending, to + ending)
    above = f"{ROOT}/crates/{parent.replace('.', '/')}"
    lines = (f"^((?:pub )?mod ){name}$", rf"\g<1>{new.rpartition('.')[2]}")
    change(f"{above}/Lib.antt" if os.path.exists(f"{above}/Lib.antt") else f"{above}.antt", *lines)
    for file in os.listdir(f"{ROOT}/docs"):
        if file.endswith(".md"):
            change(f"{ROOT}/docs/{file}", rf"\b{old.replace('.', '/')}\b", new.replace(".", "/"))


def change(path, pattern, by):
    with open(path, encoding="utf-8") as file:
        text = file.read()
    new = re.sub(pattern, by, text, flags=re.M)
    if new != text:
        with open(path, "w", encoding="utf-8") as file:
            file.write(new)


def dependencies(crates, new):
    """The text of crates.txt, where these crates list each that their files name, lowest first."""
    named = collections.defaultdict(set)
    for path, text in new:
        crate = os.path.relpath(path, f"{ROOT}/crates").split("/")[0]
        for items, first in FIRST.findall(text):
            items = [item.strip().split(".")[0] for item in items.split(",")]
            named[crate].update([first] if first else items)
    with open(f"{ROOT}/crates.txt", encoding="utf-8") as file:
        lines = file.read().split("\n")
    order = [found[0] for found in re.findall(r"^(\w+)( staticlib)?:", "\n".join(lines), re.M)]
    for at, line in enumerate(lines):
        found = re.match(r"(\w+)( staticlib)?:(.*)$", line)
        if found and found[1] in crates:
            listed = found[3].split()
            own = [x for x in order if x in listed or x in named[found[1]] and x != found[1]]
            kit = [x for x in listed if x not in order]
            lines[at] = f"{found[1]}{found[2] or ''}: {' '.join(own + kit)}".rstrip()
    return "\n".join(lines)


def main(words):
    is_check, moved, chosen = False, {}, []
    while words:
        word = words.pop(0)
        if word == "--check":
            is_check = True
        elif word == "--move" and words and not is_check:
            old, _, new = words.pop(0).partition("=")
            move(old, new)
            moved[old] = new
        elif word.startswith("-"):
            sys.exit(__doc__)
        else:
            chosen.append(word)
    repository = Repository(moved)
    unknown = [name for name in chosen if name not in repository.crates]
    if unknown:
        sys.exit(f"tools/imports.py: crates.txt has no {' '.join(unknown)}")
    ours = [x for x in repository.crates if x not in USERS and x in (chosen or repository.crates)]
    repository.open_facades(readers(repository), ours)
    new = list(texts(repository, ours))
    new.append((f"{ROOT}/crates.txt", dependencies(ours, new)))
    changed = []
    for path, text in new:
        with open(path, encoding="utf-8") as file:
            if file.read() != text:
                changed.append((path, text))
    for path, text in changed:
        if is_check:
            print(os.path.relpath(path, ROOT))
            continue
        with open(path, "w", encoding="utf-8") as file:
            file.write(text)
    return 1 if is_check and changed else 0


if __name__ == "__main__":
    sys.exit(main(sys.argv[1:]))
