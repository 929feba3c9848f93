"""The proved libraries of a checkout, crates/NAME/out/rlib, as the Rattle kit names and stamps
them.

`rt ci` proves every library and leaves it in out/ with no stamp, so `rt check` in a crate above
would prove each of them once more. `lay` writes beside each library the stamp that `rt check` looks
for: a sum of the library's files and of those below it. It is laid only where the files are those
that were there before the proof began, and only where the kit itself then takes the library for
built. `rtlib`, which is read here, is the kit's module behind `rt`; where a later kit has other
names there, each function says so and ends.
"""
import copy
import functools
import os
import re
import shutil
import sys
import tempfile
import time
from concurrent.futures import FIRST_COMPLETED, ThreadPoolExecutor, wait

ROOT = os.path.dirname(os.path.dirname(os.path.realpath(__file__)))
# What is used of the kit's module, by the names that it has there.
USED = ("Crate", "RATTLE", "KIT", "PARTS", "crates_below", "guarded", "lock")
# The memory that the proof of one crate is given, in bytes.
MEMORY = 2_500_000_000
USED_OF_CRATE = ("below", "words", "stamp", "is_built", "build_rlib", "makes_rlib")


@functools.lru_cache(maxsize=None)
def rtlib():
    """The kit's module that reads crates.txt, proves and stamps."""
    rt = shutil.which("rt")
    if not rt:
        sys.exit("the Rattle kit is needed: no rt is on the path")
    sys.dont_write_bytecode = True
    sys.path.insert(0, os.path.dirname(os.path.realpath(rt)))
    try:
        import rtlib as module
    except ImportError:
        sys.exit("the kit has changed: there is no rtlib beside rt (tools/libraries.py)")
    lost = [name for name in USED if not hasattr(module, name)]
    lost += [f"Crate.{name}" for name in USED_OF_CRATE if not hasattr(module.Crate, name)]
    if lost:
        sys.exit(f"the kit has changed: rtlib has no {', '.join(lost)} (tools/libraries.py)")
    return module


def crates(root=ROOT):
    """Each crate that crates.txt names, lowest first, as its files are now."""
    kit = rtlib()
    # A stamp holds those of all below. Without this each is worked out once for every way down.
    stamp = kit.Crate.stamp
    kit.Crate.stamp = functools.lru_cache(maxsize=None)(getattr(stamp, "__wrapped__", stamp))
    was, found = os.getcwd(), None
    os.chdir(root)
    try:
        found = kit.crates_below(root)
    finally:
        os.chdir(was)
    return sorted(found, key=lambda it: len(it.below()))


def stamps(root=ROOT):
    """The stamp of each library as its files are now."""
    return {it.name: it.stamp() for it in crates(root) if it.makes_rlib()}


def stamp_of(crate):
    """The file in which the kit looks for the stamp of a library."""
    return f"{os.path.dirname(crate.rlib)}/stamp"


def lay(before, root=ROOT):
    """Lays stamps beside the libraries in out/, which have just been proved, and tells how many.

    `before` is what `stamps` gave before the proof began. A library whose files, or those of one
    below it, have changed since gets no stamp.
    """
    laid, lost = 0, []
    for crate in crates(root):
        if not crate.makes_rlib() or not os.path.isdir(crate.rlib):
            continue
        if crate.stamp() != before.get(crate.name):
            lost.append(crate.name)
            continue
        with open(stamp_of(crate), "w", encoding="utf-8") as file:
            file.write(crate.stamp())
        if not crate.is_built():
            os.remove(stamp_of(crate))
            sys.exit("the kit has changed: rt check would not take a stamp (tools/libraries.py)")
        laid += 1
    return laid, lost


def forget(root=ROOT):
    """Removes the libraries that earlier checks left, so that those there afterwards are of one
    proof: `rt ci` would put them back in place of its own."""
    for crate in crates(root):
        if crate.makes_rlib():
            shutil.rmtree(os.path.dirname(crate.rlib), ignore_errors=True)


def lanes(most=8):
    """How many checks run side by side: one a processor, as many as memory holds."""
    with open("/proc/meminfo") as file:
        free = 1024 * int(re.search(r"MemAvailable:\s+(\d+)", file.read())[1])
    return max(min(most, len(os.sched_getaffinity(0)), free // MEMORY), 1)


def build(crate, jobs=1):
    """Proves one library as the gate does, by as many processes as may be, and stamps it. Gives
    whether it is proved, what was said, and the seconds."""
    begin, crate = time.monotonic(), copy.copy(crate)
    before = crate.stamp()
    with tempfile.TemporaryFile("w+", errors="replace") as crate.out:
        try:
            status = crate.build_rlib(["--jobs", str(jobs)], anew=True)
        except SystemExit as error:
            status = error.code
        crate.out.seek(0)
        said = crate.out.read()
    # Not where a file has changed meanwhile: nobody knows which text was proved.
    if not status and rtlib().Crate.stamp.__wrapped__(crate) == before:
        with open(stamp_of(crate), "w", encoding="utf-8") as file:
            file.write(before)
    return not status, said, time.monotonic() - begin


def prove(named, tell=print):
    """Proves these crates' libraries side by side, each once those below it are proved, those with
    the longest chain above them first. Gives the names of those that are not proved."""
    kit, left, running, failed = rtlib(), dict(named), {}, []
    kit.guarded()
    # As under `rt ci`: a library holds its statements, and not its proofs.
    kit.Crate.cuts_libraries = True
    above = lambda crate: sum(crate in other.below() for other in named.values())
    done = {name for name, crate in named.items() if crate.is_built()}
    left = {name: crate for name, crate in named.items() if name not in done}
    held, most = kit.lock([*named.values()]), lanes()
    with ThreadPoolExecutor(most) as pool:
        while left or running:
            ready = [it for it in left.values() if all(b.name in done for b in it.below())]
            # A crate that waits for nobody gets the processors that no other crate could take.
            jobs = max(1, min(4, most // max(1, len(running) + len(ready))))
            for crate in sorted(ready, key=above, reverse=True):
                running[pool.submit(build, left.pop(crate.name), jobs)] = crate.name
            if not running:
                failed += [*left]
                break
            for task in wait(running, return_when=FIRST_COMPLETED).done:
                name, (is_proved, said, seconds) = running.pop(task), task.result()
                tell(f"{name} {'proved' if is_proved else 'NOT PROVED'}, {seconds:.0f} s")
                done |= {name} if is_proved else set()
                if not is_proved:
                    tell(said)
                    failed.append(name)
    for file in held:
        os.close(file)
    return failed
