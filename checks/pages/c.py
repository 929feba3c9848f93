"""The page for the library for C: each type, number and call of the header with its comment."""
import re

from pages.sources import text_of

HEADER = "include/tevasulim.h"
HEADING = re.compile(r"/\* ---- (.*?) ---- \*/\n")
COMMENTED = re.compile(r"/\*((?:(?!\*/).)*)\*/\n(?=\w)", re.S)
# A function that the header itself has.
INLINE = re.compile(r"static inline (\w+ (tevasulim_\w+)\([^)]*\))\n\{")


def plain(comment):
    """A comment without its stars."""
    lines = [re.sub(r"^\s*\*? ?", "", it).rstrip() for it in comment.strip().split("\n")]
    return "\n".join(lines).strip()


def declaration(text):
    """What is declared at the beginning of a text: up to the semicolon outside brackets."""
    depth = 0
    for at, c in enumerate(text):
        depth += (c in "{(") - (c in "})")
        if c == ";" and not depth:
            return text[: at + 1]
    raise SystemExit(f"{HEADER}: a declaration without an end: {text[:60]}")


def page():
    """The lines of the page, and how many calls it has."""
    text = text_of(HEADER).partition('extern "C" {\n#endif\n')[2]
    lines = ["# The calls for C", ""]
    lines += [f"From [`{HEADER}`](../../{HEADER}), whose head says what holds of every call and "
              "what the caller has to see to. docs/C.md says how to compile and link.", ""]
    count, parts = 0, HEADING.split(text)
    for heading, body in zip(["Numbers and types", *parts[1::2]], parts[::2]):
        lines += [f"## {heading}", ""]
        for found in COMMENTED.finditer(body):
            declared = declaration(body[found.end() :])
            call = re.match(r"[\w ]+[ *](tevasulim_\w+)\(", declared)
            if call:
                count += 1
                lines += [f"### `{call[1]}`", ""]
            lines += ["```c", declared, "```", "", plain(found[1]), ""]
        for declared, name in INLINE.findall(body):
            count += 1
            lines += [f"### `{name}`", "", "```c", declared, "```", "", "Makes such a shape.", ""]
    return lines, count
