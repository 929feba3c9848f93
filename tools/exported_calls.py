"""The calls of the library for C, read from the sources of crates/tevasulim_c.

A trial is built of a program, of which the kit leaves out what `main` does not reach. So a trial
of the library is a program whose `main` names each call. It is written here from the calls' own
signatures, and so has every call that there is.
"""
import glob
import os
import re

CALL = re.compile(r'pub extern "C" fn (\w+)\(([^)]*)\)')
MODULES = re.compile(r"^mod (\w+);$", re.M)
# Types that need no import.
PLAIN = {"Global", "Option", "bool"}

HEAD = """//! Names each call of the library for C, so that a trial build has them all.
#![tactic(auto)]

{modules}

use c_calls::{{{types}}};
use std::alloc::Global;

fn main(_: HostRuntime) {{
{names}}}
"""
# Nothing is given, so no call is made; but each is named.
NAMED = """    let given: Option<({types},)> = None;
    if let Some(({names},)) = given {{
        {module}::{call}({names});
    }}
"""
UNNAMED = "    {module}::{call}();\n"


def calls_of(text):
    """The calls that a source has, each with the types of its parameters."""
    for name, parameters in CALL.findall(text):
        split = [it.split(":", 1) for it in parameters.split(",") if it.strip()]
        yield name, [kind.strip() for _, kind in split]


def naming(module, call, types):
    """The lines of `main` that name a call."""
    if not types:
        return UNNAMED.format(module=module, call=call)
    names = ", ".join(f"a{k}" for k in range(len(types)))
    return NAMED.format(module=module, call=call, types=", ".join(types), names=names)


def write_program(crate, folder):
    """Writes that program to the folder, with the crate's own modules; gives the calls' names."""
    os.makedirs(folder)
    with open(f"{crate}/src/lib.rt") as lib:
        modules = MODULES.findall(lib.read())
    lines, types, calls = [], set(), []
    for path in sorted(glob.glob(f"{crate}/src/*.rt")):
        module = os.path.basename(path)[: -len(".rt")]
        with open(path) as source:
            text = source.read()
        if module == "lib":
            continue
        with open(f"{folder}/{module}.rt", "w") as copy:
            copy.write(text)
        for call, parameters in calls_of(text):
            calls.append(call)
            types.update(re.findall(r"\b[A-Z]\w+", " ".join(parameters)))
            lines.append(naming(module, call, parameters))
    mods = "\n".join(f"mod {it};" for it in modules)
    head = {"modules": mods, "types": ", ".join(sorted(types - PLAIN)), "names": "".join(lines)}
    with open(f"{folder}/main.rt", "w") as main:
        main.write(HEAD.format(**head))
    return calls
