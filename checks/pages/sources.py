"""The public items of the Rattle sources: docstrings, signatures and contracts."""
import glob
import os
import re
from collections import namedtuple

from project import ROOT

# A type, trait or function; `path` from the root, `calls` its methods.
Item = namedtuple("Item", "kind name doc head path calls")
# A function: its name, docstring, signature, and the text of its contract.
Call = namedtuple("Call", "name doc head contract")
DECLARED = re.compile(r"pub (?:const |unsafe )*(struct|enum|trait|fn|const|type|static) (\w+)")
CLAUSE = re.compile(r"\s*(requires|ensures|where)\b")


def text_of(path):
    with open(f"{ROOT}/{path}", encoding="utf-8") as file:
        return file.read()


def sources(crate):
    """The paths of the crate's .rt files, from the root; what is only a theorem is left out."""
    found = sorted(glob.glob(f"{ROOT}/crates/{crate}/src/**/*.rt", recursive=True))
    return [os.path.relpath(it, ROOT) for it in found if os.path.basename(it) != "law.rt"]


def blocks(lines):
    """The blocks of a file at its outermost level: docstring, lines."""
    doc, at = [], 0
    while at < len(lines):
        line = lines[at]
        if line.startswith("///"):
            doc.append(line[3:].removeprefix(" "))
        elif line.startswith("#[") or line.startswith("//"):
            pass
        elif line.strip():
            end = end_of(lines, at)
            yield doc, lines[at : end + 1]
            at, doc = end, []
        at += 1


def end_of(lines, at):
    """The last line of the block that begins here: a closing bracket at the margin, or a line that
    ends a declaration."""
    is_short = re.match(r"pub (type|const|static|use)|(ghost )?use|mod|pub mod", lines[at])
    for end in range(at, len(lines)):
        line = lines[end].rstrip()
        if is_short and line.endswith(";"):
            return end
        if end == at and (line.endswith(("{}", ";")) and line.count("{") == line.count("}")):
            return end
        if end > at and (line.startswith(("}", ")")) and line.endswith(("}", ";"))):
            return end
        if end > at and not line.startswith((" ", ")", "{", "}", "#")) and line:
            if line.endswith(";"):
                return end
    return len(lines) - 1


def head_and_contract(lines):
    """The signature of a function, and the clauses behind it."""
    head, contract, seen = [], [], False
    for line in lines:
        seen = seen or bool(CLAUSE.match(line))
        bare = line.rstrip()
        if bare.strip() == "{":
            break
        (contract if seen else head).append(bare)
        if not seen and re.search(r"\{$|;$", bare) or seen and bare.endswith(";"):
            break
        if not seen and bare.endswith("{}"):
            break
    head[-1] = re.sub(r"\s*[{;]+\}?$", "", head[-1])
    margin = min((len(it) - len(it.lstrip()) for it in head if it.strip()), default=0)
    return "\n".join(it[margin:] for it in head).rstrip(), "\n".join(contract)


def calls_of(lines, in_trait):
    """The functions of a block of a trait, or the public ones of an impl."""
    doc, found = [], []
    begins = r"\s+(pub |final )*(const )?fn (\w+)" if in_trait else r"\s+pub (const )?fn (\w+)"
    for at, line in enumerate(lines):
        bare = line.strip()
        if bare.startswith("///"):
            doc.append(bare[3:].removeprefix(" "))
        elif re.match(begins, line):
            name = re.search(r"fn (\w+)", line)[1]
            if doc:
                found.append(Call(name, doc, *head_and_contract(lines[at:])))
            doc = []
        elif bare and not bare.startswith("#["):
            doc = []
    return found


def past_brackets(text):
    """The text behind the angle brackets that it begins with, if it does."""
    if not text.startswith("<"):
        return text
    depth = 0
    for i, c in enumerate(text):
        depth += (c == "<") - (c == ">" and text[i - 1] != "-")
        if depth == 0:
            return text[i + 1 :]
    return ""


def implemented(lines):
    """The type whose own functions an `impl` has; nothing where it implements a trait."""
    head = ""
    for line in lines:
        head += " " + line.strip()
        if "{" in line:
            break
    rest = past_brackets(head.strip()[len("impl") :])
    name = re.match(r"\s*(\w+)", rest)
    rest = past_brackets(rest[name.end() :])
    return None if re.match(r"\s+for\b", rest) else name[1]


def shown(kind, lines):
    """What is shown of a declaration: an enum with its variants, public fields of a struct, the
    first lines of a trait with its types."""
    if kind == "enum" or kind in ("const", "type", "static"):
        return "\n".join(it for it in lines if not it.strip().startswith("#["))
    opens = next((at for at, it in enumerate(lines) if it.rstrip().endswith(("{", "{}"))), 0)
    head, inner = "\n".join(lines[: opens + 1]).rstrip(), lines[opens + 1 : -1]
    if kind == "struct":
        if head.endswith((";", "{}")):
            return head
        is_public = lambda it: it.strip().startswith(("pub ", "///")) and "pub(" not in it
        public = [it for it in inner if is_public(it)]
        if not any(it.strip().startswith("pub ") for it in public):
            return head + " .. }"
        return "\n".join([head, *public, "}"])
    types = [it for it in inner if re.match(r"    type \w+", it)]
    return "\n".join([head, *types, "}"]) if types else head + " .. }"


def items(crate):
    """The public items of a crate by their names."""
    found, impls = {}, {}
    for path in sources(crate):
        for doc, lines in blocks(text_of(path).split("\n")):
            if re.match(r"impl\b", lines[0]):
                name = implemented(lines)
                impls.setdefault(name, []).extend(calls_of(lines, False))
                continue
            declared = DECLARED.match(lines[0])
            if not declared or not doc or doc[0].startswith("A law"):
                continue
            kind, name = declared.groups()
            if kind == "fn":
                head, contract = head_and_contract(lines)
                calls = [Call(name, doc, head, contract)]
                found[name] = Item(kind, name, doc, head, path, calls)
            else:
                calls = calls_of(lines[1:], True) if kind == "trait" else []
                found[name] = Item(kind, name, doc, shown(kind, lines), path, calls)
    for name, calls in impls.items():
        if name in found:
            found[name] = found[name]._replace(calls=[*found[name].calls, *calls])
    return found


def definitions():
    """Where each definition that contracts cite is: its path by its name."""
    found = {}
    declared = re.compile(r"(?m)^\s*(?:[a-z]+ )*pub (?:[a-z]+ )*([A-Z]\w+)\b")
    for path in sorted(glob.glob(f"{ROOT}/crates/*/specs/**/*.antt", recursive=True)):
        with open(path, encoding="utf-8") as file:
            for line in file:
                name = declared.match(line)
                if name and not line.lstrip().startswith(("pub use", "unfoldable pub use")):
                    found.setdefault(name[1], os.path.relpath(path, ROOT))
    return found
