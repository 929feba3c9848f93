"""Pages for the Rattle library: one for each public type and trait, and one for the functions of
each crate."""
import re

from pages.sources import definitions, items, text_of

# The headings of the index, and under each the names of its types and traits; a crate behind `*`
# stands for its functions.
SURFACE = {
    "Triangulations": "Triangulation DelaunayTriangulation ConstrainedDelaunayTriangulation "
    "TriangulationCore FloatTriangulation CdtEdge InsertionError ConstraintError "
    "*delaunay_extensions",
    "Many vertices, and lists of edits": "InsertAll BulkInsertion BulkInsertionError Edit Outcome "
    "Replayable *delaunay_journal",
    "Location, lines and sight": "PositionInTriangulation LineIntersectionIterator Intersection "
    "ConflictingEdgesIterator HasMesh FreeFaces WideFaces *delaunay_shapes *delaunay_ways",
    "Shapes": "DistanceMetric CircleMetric RectangleMetric EdgesInShapeIterator "
    "VerticesInShapeIterator",
    "Points and tests": "Point2 HasPosition SpadeNum LineSideInfo PointProjection PlaneTests "
    "*delaunay_core ExactTests *exact_predicates",
    "Hints": "HintGenerator LastUsedVertexHintGenerator HierarchyHintGenerator "
    "HierarchyHintGeneratorWithBranchFactor",
    "Handles": "FixedVertexHandle FixedDirectedEdgeHandle FixedUndirectedEdgeHandle "
    "FixedFaceHandle VertexHandle DirectedEdgeHandle UndirectedEdgeHandle FaceHandle",
    "The Voronoi diagram": "AsVoronoiVertex AsVoronoiEdge AsVoronoiFace VoronoiVertex "
    "DirectedVoronoiEdge UndirectedVoronoiEdge VoronoiFace",
    "The mesh by itself": "Dcel MeshViews VoronoiViews",
    "Drawings and decimal numbers": "*drawing_faces Decimal Scale",
    "The program `triangulate`": "Sheet Watched *triangulate_run",
}
# What users name and do not call: how the library asks edges for their marks, and iterators that
# calls give, which have the methods of `Iterator`.
INNER = {"EdgeData", "ConstraintMarker", "EdgeConstraints", "NoConstraints"}


class Pages:
    """The pages, by their names, and the rows of the index under each heading."""

    def __init__(self):
        self.defined, self.pages, self.index, self.passed = definitions(), {}, [], passed()
        self.known = {crate: items(crate) for crate in library_crates()}
        for heading, names in SURFACE.items():
            rows = [
                self.functions(it[1:]) if it.startswith("*") else self.type(it)
                for it in names.split()
            ]
            self.index.append((heading, rows))

    def link(self, path):
        return f"[`{path}`](../../{path})"

    def functions(self, crate):
        """The page of a crate's functions."""
        found = [it for it in self.known[crate].values() if it.kind in ("fn", "const")]
        if self.passed & {it.name for it in found}:
            found = [it for it in found if it.name in self.passed]
        lines = [f"# Functions of `{crate}`", ""]
        for item in found:
            lines += [f"## `{item.name}`", ""]
            if item.kind == "const":
                lines += ["```rust", item.head, "```", "", *written(item.doc), ""]
            for call in item.calls:
                lines += self.call(call)
            lines += [f"In {self.link(item.path)}.", ""]
        self.pages[f"{crate}.md"] = lines
        names = ", ".join(f"`{it.name}`" for it in found)
        return f"functions of `{crate}`", f"{crate}.md", names

    def type(self, name):
        """The page of a type or trait, which one crate has."""
        crate, item = next(
            (crate, found[name]) for crate, found in self.known.items() if name in found
        )
        lines = [f"# `{name}`", "", "```rust", item.head, "```", "", *written(item.doc), ""]
        lines += [f"In {self.link(item.path)}, crate `{crate}`.", ""]
        for call in item.calls:
            lines += [f"## `{call.name}`", "", *self.call(call)]
        self.pages[f"{name}.md"] = lines
        return f"`{name}`", f"{name}.md", first_sentence(item.doc)

    def call(self, call):
        """A call's signature, docstring, and the records of its contract."""
        lines = ["```rust", call.head, "```", "", *written(call.doc), ""]
        kinds = {"requires": "It asks for", "ensures": "It promises"}
        clauses = re.split(r"(?m)^\s*(?=requires|ensures)", call.contract)
        for kind, said in kinds.items():
            names = []
            for clause in (it for it in clauses if it.startswith(kind)):
                names += re.findall(r"(?<![.\w])[A-Z]\w+", clause.partition("{")[2])
            links = [f"[`{it}`](../../{self.defined[it]})" for it in dict.fromkeys(names)
                     if it in self.defined]
            if links:
                lines += [f"{said}: {', '.join(links)}.", ""]
        return lines


def library_crates():
    """The crates whose items users may name: all but tests, examples and those for C."""
    lines = text_of("crates.txt").split("\n")
    names = [it.split(":")[0].split()[0] for it in lines if it.strip() and it[0] != "#"]
    return [it for it in names if not re.match(r"test_|examples|c_|tevasulim", it)]


def written(doc):
    """A docstring as it is written in a page: code is marked as Rust."""
    lines, is_code = [], False
    for line in doc:
        if line.startswith("```"):
            is_code = not is_code
            line = "```rust" if is_code and line == "```" else line
        lines.append(line)
    return lines


def first_sentence(doc):
    text = " ".join(it for it in " ".join(doc).split("```")[0].split() if it)
    return re.split(r"(?<=[.!?]) ", text)[0]


def passed():
    """The names that the facade passes on."""
    texts = [text_of(f"crates/spade_delaunay/src/{it}.rt") for it in ("lib", "handles")]
    groups = [it for text in texts for it in re.findall(r"pub use ([^;]*);", text)]
    return {name for group in groups for name in re.findall(r"\w+(?=[,;}\s]|$)", group)}


def lacking():
    """The types and traits that the facade passes on and that no heading has."""
    named = {name for names in SURFACE.values() for name in names.split()}
    types = {it for it in passed() if re.match(r"[A-Z][a-z]", it)}
    return sorted(types - named - INNER)
