#!/usr/bin/env python3
"""checks/review.py [--brief] [CRATE..]: what a second reader would ask about, counted over crates/. Places to look, not verdicts.

  statements  the same lemma type (up to names of variables) in several places of .antt files
  blocks      six or more equal lines in two places, per kind of file
  unused      names that are defined once and used nowhere, and `pub` names used in their own file alone
  facts       calls made for what they ensure: `let _ = x.num_..()`, and `recall_invariant()` in functions that change a
              mesh (those in functions that only read are the kit's way)
  meanings    `pub` predicates (`IsAt`) and free functions (`edge_after`) that several places define in different ways
  forwards    functions whose whole body is one call with their own parameters
  depends     names of crates.txt's lines that other names of the same line bring along, and crates that one other names
  imports     lines that import the project's own names, the share of .rt files before the first item, and names that files of
              other crates import by several paths (tools/imports.py writes one)
  large       contracts of more than eight clauses, functions over 40 lines, files over 500, lines over 100 columns
              (imports apart)
  laws        functions with an empty body, whose contract is what they are for
  size        lines by kind of file
With CRATE.. only places with at least one end in these crates are printed. --brief prints the counts alone.
"""
import collections
import os
import re
import sys

sys.dont_write_bytecode = True
os.chdir(os.path.join(os.path.dirname(os.path.realpath(__file__)), ".."))
sys.path.insert(0, "tools")
import imports as names_and_paths  # noqa: E402

root = os.path.join(os.getcwd(), "crates")
words = [w for w in sys.argv[1:] if not w.startswith("-")]
brief = "--brief" in sys.argv
TOP = 12 if not words else 60
TOKEN = re.compile(r"[\w'ᵖ](?:[\w'ᵖ]|-(?=[\w'ᵖ≡≤<∷+*]))*|\S")
NAME = re.compile(r"[\w'ᵖ](?:[\w'ᵖ]|-(?=[\w'ᵖ≡≤<∷+*]))*")


def wanted(path):
    return not words or path.split("/")[0] in words


def files(kind):
    out = {}
    for folder, _, names in os.walk(root):
        if "/out/" in f"{folder}/":
            continue
        for name in names:
            if name.endswith(kind):
                path = os.path.join(folder, name)
                with open(path, encoding="utf-8") as f:
                    out[os.path.relpath(path, root)] = f.read().split("\n")
    return out


antt, rt = files(".antt"), files(".rt")
by_hand = {k: v for k, v in antt.items() if os.path.basename(k) not in ("Answers.antt", "Invariants.antt", "Lib.antt")}


def heading(text):
    print(f"\n{text}" if not brief else text)


def statements():
    seen = collections.defaultdict(list)
    for path, lines in by_hand.items():
        for i, line in enumerate(lines):
            m = re.match(r"^(\s*)(?:pub )?([\w'][\w'\-≡≤<∷+*ℤ]*) : (.*)$", line)
            if not m or "→" not in " ".join(lines[i : i + 2]):
                continue
            kind, j, indent = m.group(3), i + 1, len(m.group(1))
            while j < len(lines) and len(lines[j]) - len(lines[j].lstrip()) >= indent + 4:
                kind += " " + lines[j].strip()
                j += 1
            bound = {v for b in re.findall(r"[({]([^():{}]+) : ", kind) + re.findall(r"λ ([^.]+)\.", kind) for v in b.split()}
            ids = {}
            key = " ".join(ids.setdefault(w, f"x{len(ids)}") if w in bound else w for w in TOKEN.findall(kind))
            if len(key) > 34:
                seen[key].append((path, i + 1, m.group(2)))
    twice = {k: v for k, v in seen.items() if len({p for p, _, _ in v}) > 1 and any(wanted(p) for p, _, _ in v)}
    heading(f"statements: {len(twice)} stand in more than one file, {sum(len(v) - 1 for v in twice.values())} copies too many")
    if not brief:
        for key, v in sorted(twice.items(), key=lambda kv: (-len(kv[1]), kv[0]))[:TOP]:
            print(f"  {len(v)} x  {key[:150]}")
            print("        " + ", ".join(f"{p}:{n} {name}" for p, n, name in v[:6]))


def blocks():
    for kind, group in ((".rt", rt), (".antt", antt)):
        kept = {}
        for path, lines in group.items():
            ls = [(i + 1, re.sub(r"\s+", " ", x.strip())) for i, x in enumerate(lines)]
            kept[path] = [(i, x) for i, x in ls if x and not x.startswith(("--", "//", "use ", "ghost use", "mod ", "pub mod", "pub use")) and x not in ("{", "}", "})", ")", "_ =>")]
        seen = collections.defaultdict(list)
        for path, ls in kept.items():
            for a in range(len(ls) - 5):
                key = "\n".join(x for _, x in ls[a : a + 6])
                if len(key) >= 120:
                    seen[key].append((path, a))
        pairs, first, lines_in = collections.Counter(), {}, collections.defaultdict(set)
        for v in seen.values():
            if len(v) < 2:
                continue
            for p, a in v:
                lines_in[p].update(i for i, _ in kept[p][a : a + 6])
            v = sorted(v)
            for x in range(len(v)):
                for y in range(x + 1, len(v)):
                    k = (v[x][0], v[y][0], v[y][1] - v[x][1])
                    pairs[k] += 1
                    first[k] = min(first.get(k, v[x][1]), v[x][1])
        total = sum(len(ls) for ls in kept.values())
        heading(f"blocks {kind}: {sum(map(len, lines_in.values()))} of {total} lines stand in a block of six that stands elsewhere too")
        if not brief:
            shown = [(k, n) for k, n in pairs.most_common() if wanted(k[0]) or wanted(k[1])][:TOP]
            for (p, q, d), n in shown:
                a = first[(p, q, d)]
                print(f"  {n + 5} lines  {p}:{kept[p][a][0]}  {q}:{kept[q][a + d][0]}")


def unused():
    def plain(lines, mark):
        return [re.sub(r"(^|\s)--(\s.*)?$" if mark == "--" else r"//.*$", "", x) for x in lines]

    def words_of(line):
        # Infix names are defined with circles for their operands, and used without.
        return NAME.findall(line) + re.findall(r"[^\s(){};,]*[?*+≤<>=≡∷][^\s(){};,]*", line)

    texts, tokens, where = {}, {}, collections.defaultdict(set)
    for group, mark in ((antt, "--"), (rt, "//")):
        for path, lines in group.items():
            texts[path] = plain(lines, mark)
            tokens[path] = collections.Counter(w for x in texts[path] for w in words_of(x))
            for w in tokens[path]:
                where[w].add(path)
    none, own = [], []
    for path in by_hand:
        # How often a name begins a line, there to be defined.
        heads = collections.Counter()
        for line in texts[path]:
            m = re.match(r"(?:abbrev |unfoldable |pub |record |data )*(\S+)", line)
            if m:
                heads[m.group(1).strip("◌")] += 1
        for m in re.finditer(r"^((?:abbrev |unfoldable |pub |record |data )*)([^\s:(]+)((?: \([^)]*\)| \{[^}]*\})*) :(?=\s)", "\n".join(texts[path]), re.M):
            mods, name = m.group(1), m.group(2).strip("◌")
            # A whole proof is read by its name.
            if name in ("where", "let", "in") or path.endswith("/Proof.antt") and name == path.split("/")[-2] + "_spec":
                continue
            others = [f for f in where.get(name, ()) if f != path]
            if tokens[path][name] <= heads[name] and not others:
                none.append((path, name))
            elif "pub" in mods and not others:
                own.append((path, name))
    none, own = [x for x in none if wanted(x[0])], [x for x in own if wanted(x[0])]
    heading(f"unused: {len(none)} names are used nowhere, {len(own)} pub names in their own file alone")
    if not brief:
        for path, name in none[: 3 * TOP]:
            print(f"  nowhere  {path} {name}")
        for path, name in own[:TOP]:
            print(f"  own file  {path} {name}")


def functions():
    """Of each function with a body: path, line, name, parameters, head and body, as text."""
    for path, lines in rt.items():
        i = 0
        while i < len(lines):
            m = re.match(r"^(\s*)(pub(\([a-z]+\))? )?(final )?(const )?fn (\w+)", lines[i])
            if not m:
                i += 1
                continue
            indent, j, body = " " * len(m.group(1)), i, None
            while j < len(lines):
                x = lines[j].rstrip()
                if body is None and (x == indent + "{" or x.endswith(" {")):
                    body = j
                if x in (indent + "}", indent + "{}") or (body is None and x.endswith(";")):
                    break
                j += 1
            if body is not None and j > body:
                yield path, i + 1, m.group(6), "\n".join(lines[i : body + 1]), "\n".join(lines[body + 1 : j])
            i = j + 1


def is_test(path):
    return path.startswith(("test_", "examples/"))


def facts():
    rows = []
    for path, line, name, head, body in functions():
        if is_test(path) or not wanted(path):
            continue
        for found in re.findall(r"let _\w* = [\w.]*(?:num_\w+|len|\w+_count)\(\);|let _ = \w+;", body):
            rows.append((path, line, name, found))
        if re.search(r"&mut (self|Dcel|Links)", head):
            rows += [(path, line, name, "recall_invariant()")] * body.count("recall_invariant()")
    heading(f"facts: {len(rows)} calls are made for what they ensure alone")
    if not brief:
        for p, n, name, found in rows[:TOP]:
            print(f"  {p}:{n} {name}  {found}")


def meanings():
    kinds = collections.defaultdict(dict)
    for path, lines in by_hand.items():
        text = "\n".join(lines)
        for m in re.finditer(r"^(?:abbrev |unfoldable |pub |record |data )*((?:Is|Are|Has|Sees|Keeps|Makes|Gives|Finds|Can)\w*)((?: \([^)]*\)| \{[^}]*\})*) :((?:.|\n(?=\s))*)", text, re.M):
            kinds[m.group(1)].setdefault(re.sub(r"\s+", " ", m.group(0))[:400], f"{path}:{text[: m.start()].count(chr(10)) + 1}")
    for path, line, name, head, body in functions():
        if head.startswith(("fn", "pub")) and not is_test(path) and "self" not in head.split(")")[0]:
            kinds[name + "()"].setdefault(re.sub(r"\s+", " ", body), f"{path}:{line}")
    rows = sorted(((len(v), k, list(v.values())) for k, v in kinds.items() if len(v) > 1), reverse=True)
    rows = [r for r in rows if any(wanted(p) for p in r[2])]
    heading(f"meanings: {len(rows)} names have several, {sum(n - 1 for n, _, _ in rows)} too many")
    if not brief:
        for n, k, places in rows[: 2 * TOP]:
            print(f"  {n} x  {k}  " + ", ".join(places[:6]))


def forwards():
    rows = []
    for path, line, name, head, body in functions():
        text = re.sub(r"[\w.]*recall_invariant\(\);", "", " ".join(body.split())).strip()
        m = re.match(r"^(?:[&\w.]|::(?:<[^>]*>)?)+\(([^()]*)\)\??;?$", text)
        if m and not is_test(path) and wanted(path) and not re.match(r"^(Ok|Some|Err)\(", text):
            given = [re.sub(r"^(&mut |&|\*)", "", x.strip()) for x in m.group(1).split(",") if x.strip()]
            if all(re.fullmatch(r"[\w.]+", x) for x in given):
                rows.append((path, line, name, text))
    heading(f"forwards: {len(rows)} functions are one call with their own parameters")
    if not brief:
        for p, n, name, text in rows[:TOP]:
            print(f"  {p}:{n} {name}  {text[:90]}")


def depends():
    below = {}
    with open("crates.txt", encoding="utf-8") as f:
        for x in f:
            if ":" in x and not x.startswith("#"):
                name, _, rest = x.partition(":")
                below[name.strip()] = [w for w in rest.split() if w]

    def all_of(name):
        got = set()
        for w in below.get(name, ()):
            got |= {w} | all_of(w)
        return got

    rows = [(n, [w for w in ws if any(w in all_of(o) for o in ws if o != w)]) for n, ws in below.items()]
    total = sum(len([w for w in ws if w in below]) for ws in below.values())
    more = sum(len(ws) for _, ws in rows)
    one = [name for name in below if sum(name in ws for ws in below.values()) == 1]
    heading(f"depends: {total} dependencies, of which {more} come along with another of the same line; "
            f"of {len(below)} crates {len(one)} are named by one other: {' '.join(sorted(one))}")


def own_imports(repository):
    """The imports of .antt files that bring names of the project's own, also of a function's goals."""
    for key, module in repository.modules.items():
        for use in module.uses:
            of_others = use.path.startswith("Rattle") and not repository.is_own(use)
            is_short = use.path in {x.alias for x in module.uses} or use.path.split(".")[0] in ("declared", *module.children)
            if use.names is not None and (repository.is_own(use) or is_short) and not of_others:
                yield key, use


def paths_of_names(repository):
    """What each name is that files of other crates import, with the paths that they do it by."""
    paths = collections.defaultdict(set)
    for reader, uses in names_and_paths.readers(repository):
        for use in uses:
            for name, path, first in use.brings() if use.names and repository.is_own(use) else ():
                origin = repository.origin(repository.module(path), first)
                if origin[0].split(".")[0] != reader.split(".")[0]:
                    paths[".".join(origin)].add(f"{path}.{first}")
    crates = names_and_paths.rust_uses.Crates(names_and_paths.ROOT, repository.crates)
    for file, module in crates.files.items():
        for mark, text in names_and_paths.rust_uses.USE.findall("\n".join(rt[os.path.relpath(file, root)])):
            for path, _ in names_and_paths.rust_uses.leaves(text) if not mark else ():
                to = crates.walk(module, path)
                if to and isinstance(to[0], tuple) and to[0][0] != module[0] and module[0] not in names_and_paths.USERS:
                    paths["::".join([*to[0], to[1]])].add("::".join(path))
    return paths


def imports():
    repository = names_and_paths.Repository({})
    own = list(own_imports(repository))
    heads = 0
    for lines in rt.values():
        code = [i for i, line in enumerate(lines) if re.match(r"(pub(\(crate\))? )?(const |unsafe |final )*(fn|struct|enum|trait|impl|type|const|static|mod)\b", line)]
        heads += code[0] if code else 0
    paths = paths_of_names(repository)
    several = {name: where for name, where in paths.items() if len(where) > 1}
    heading(f"imports: {len(own)} lines in .antt with {sum(len(use.names) for _, use in own)} names; "
            f"{100 * heads / sum(map(len, rt.values())):.1f} % of .rt before the first item; "
            f"{len(several)} of {len(paths)} names that other crates import come by several paths")
    if not brief:
        for name, where in sorted(several.items(), key=lambda kv: -len(kv[1]))[:TOP]:
            print(f"  {len(where)} x  {name}: {', '.join(sorted(where)[:4])}, ..")


def large():
    rows, wide, files_over = [], 0, []
    for path, lines in {**rt, **antt}.items():
        if not wanted(path):
            continue
        wide += sum(len(x) > 100 and not re.match(r"\s*(ghost )?use ", x) for x in lines)
        if len(lines) > 500:
            files_over.append((path, len(lines)))
    for path, lines in rt.items():
        if not wanted(path):
            continue
        i = 0
        while i < len(lines):
            m = re.match(r"^(\s*)(pub(\([a-z]+\))? )?(final )?(const )?fn (\w+)", lines[i])
            if not m:
                i += 1
                continue
            indent, j, clauses, body = " " * len(m.group(1)), i, 0, None
            while j < len(lines):
                x = lines[j].rstrip()
                clauses += bool(re.match(r"\s*(requires|ensures)", x))
                if x == indent + "{" or (j == i and x.endswith("{")):
                    body = j
                if x in (indent + "}", indent + "{}") or (body is None and x.endswith(";")):
                    break
                j += 1
            size = j - body - 1 if body is not None and j > body else 0
            if clauses > 8 or size > 40:
                rows.append((clauses, size, f"{path}:{i + 1} {m.group(6)}"))
            i = j + 1
    heading(f"large: {sum(r[0] > 8 for r in rows)} contracts over 8 clauses, {sum(r[1] > 40 for r in rows)} bodies over 40 lines, {len(files_over)} files over 500 lines, {wide} lines over 100 columns")
    if not brief:
        for c, s, n in sorted(rows, reverse=True)[:TOP]:
            print(f"  {c} clauses, {s} lines  {n}")
        for p, n in files_over:
            print(f"  {n} lines  {p}")


def laws():
    rows = []
    for path, lines in rt.items():
        text = "\n".join(lines)
        for found in re.finditer(r"^pub fn (\w+)(?:<[^(]*>)?\(\)\n    ensures .*\n(?: .*\n)*(\{.*)", text, re.M):
            if wanted(path) and found[2] == "{}":
                rows.append((path, text.count("\n", 0, found.start()) + 1, found[1]))
    heading(f"laws: {len(rows)} functions with an empty body, of {len({p.split('/')[0] for p, _, _ in rows})} crates")
    if not brief:
        for p, n, name in rows:
            print(f"  {p}:{n} {name}")


def size():
    def count(group, test):
        return sum(len(v) for k, v in group.items() if test(k))

    library = count(rt, lambda k: not is_test(k))
    specs = count(antt, lambda k: "/specs/" in k)
    answers = count(antt, lambda k: k.endswith(("Answers.antt", "Invariants.antt")))
    heading(f"size: .rt {library} lines and {count(rt, is_test)} of tests; .antt {specs} of definitions, {count(antt, lambda k: True) - specs - answers} of lemmas, {answers} of answers")


for part in (statements, blocks, unused, facts, meanings, forwards, depends, imports, large, laws, size):
    part()
