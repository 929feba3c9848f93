#!/usr/bin/env python3
"""checks/bench/gate_bytes.py [--write] COMMAND..: runs a gate, as `rt ci` or `./test`, and tells what
each crate's proof took; checks/bench/gate_bytes.py [--write] --pid PID: the same of one that runs.

The prover writes each module of a proof as a file under /tmp, in a folder that its process's number
names. Their bytes are the same from run to run of one tree, while processor seconds differ by two
and a half with what else the host does. So two trees are compared by bytes, or by seconds side by
side. Of a crate that an earlier run on this machine has proved nothing is written: with a kit that
keeps such proofs, `rt ci --anew` proves all.

It prints, crate by crate, the modules, their megabytes, processor seconds and the most memory; then
the sums, the share of the time that the host took away (steal), and the longest chain of crates, in
seconds and in megabytes. With --write, these lines go into the table of docs/GATE.md.
"""
import argparse
import os
import re
import subprocess
import sys
import time
from collections import defaultdict

sys.path.append(f"{os.path.dirname(os.path.realpath(__file__))}/../../tools")
from libraries import ROOT, crates  # noqa: E402

# Seconds between two looks.
EVERY = 4
FOLDER = re.compile(r"rattle-logic-built-locked-(\d+)-\d+")
TABLE = re.compile(r"(<!-- table: begin -->\n).*?(<!-- table: end -->)", re.S)
TICKS, PAGE = os.sysconf("SC_CLK_TCK"), os.sysconf("SC_PAGE_SIZE")


def read(path):
    """A file of /proc, or nothing where its process has ended."""
    try:
        with open(path, "rb") as file:
            return file.read()
    except OSError:
        return b""


def processor():
    """Of all the machine's time, in ticks: how much there was, and how much the host took."""
    fields = [int(it) for it in read("/proc/stat").splitlines()[0].split()[1:]]
    return sum(fields[:8]), fields[7]


class Process:
    """A process of the prover."""

    def __init__(self, words):
        name = re.search(r"--crate-name\0(\w+)", words)
        self.crate = name[1] if name else None
        # A body that is tried alone is no part of the crate's own proof.
        self.is_proof = "--only" not in words and "--incremental" not in words
        self.seconds, self.memory = 0.0, 0


class Watch:
    """What has been seen of a gate."""

    def __init__(self, gate):
        self.gate, self.processes, self.sizes = gate, {}, defaultdict(dict)
        self.begin, self.begun = processor(), time.time()

    def below(self):
        """The numbers of the gate's processes, with the fields of their state."""
        found = {}
        for name in os.listdir("/proc"):
            state = read(f"/proc/{name}/stat") if name.isdigit() else b""
            if state:
                found[int(name)] = state[state.rfind(b")") + 2 :].split()
        children = defaultdict(list)
        for number, fields in found.items():
            children[int(fields[1])].append(number)
        inside, left = {}, [self.gate]
        while left:
            number = left.pop()
            if number in found:
                inside[number] = found[number]
                left += children[number]
        return inside

    def look(self):
        """Looks once, and tells whether the gate still runs."""
        inside = self.below()
        for number, fields in inside.items():
            process = self.processes.get(number)
            if process is None or process.crate is None:
                # (a process that has just been forked has its parent's words still)
                words = read(f"/proc/{number}/cmdline").decode(errors="replace")
                process = self.processes[number] = Process(words)
            process.seconds = (int(fields[11]) + int(fields[12])) / TICKS
            process.memory = max(process.memory, int(fields[21]) * PAGE)
        for name in os.listdir("/tmp"):
            found = FOLDER.fullmatch(name)
            process = self.processes.get(int(found[1])) if found else None
            if process and process.crate and process.is_proof:
                self.measure(f"/tmp/{name}", self.sizes[process.crate])
        return self.gate in inside and inside[self.gate][0] != b"Z"

    @staticmethod
    def measure(folder, sizes):
        try:
            for it in os.scandir(folder):
                if it.name.endswith(".oantt"):
                    sizes[it.name] = max(it.stat().st_size, sizes.get(it.name, 0))
        except OSError:
            # Its process has just ended.
            pass

    def rows(self):
        """Of each crate: modules, megabytes, processor seconds, megabytes of memory."""
        seconds, memory = defaultdict(float), defaultdict(int)
        for process in self.processes.values():
            if process.crate and process.is_proof:
                seconds[process.crate] += process.seconds
                memory[process.crate] = max(memory[process.crate], process.memory)
        return {
            name: (len(sizes), sum(sizes.values()) / 1e6, seconds[name], memory[name] / 1e6)
            for name, sizes in self.sizes.items()
        }

    def lines(self):
        """The table, and what is said of it."""
        rows = self.rows()
        order = [it.name for it in crates()]
        lines = ["Crate|Modules|MB|Seconds|Memory, MB", "---|---|---|---|---"]
        for name in sorted(rows, key=lambda it: order.index(it) if it in order else len(order)):
            count, size, seconds, memory = rows[name]
            lines.append(f"`{name}`|{count}|{size:.0f}|{seconds:.0f}|{memory:.0f}")
        whole, stolen = (now - then for now, then in zip(processor(), self.begin))
        spent = sum(it.seconds for it in self.processes.values())
        proofs = sum(row[2] for row in rows.values())
        total = sum(row[1] for row in rows.values())
        lines += ["", f"Sum: {total:.0f} MB of modules, {proofs / 60:.0f} processor minutes"]
        lines[-1] += f" of proof, {spent / 60:.0f} with all else, in {(time.time() - self.begun) / 60:.0f}"
        lines[-1] += f" minutes of clock; the host took {100 * stolen / max(whole, 1):.0f} %."
        for place, unit, share in ((1, "MB", 1), (2, "minutes", 60)):
            length, top = chain({name: row[place] for name, row in rows.items()})
            lines[-1] += f" The longest chain, up to `{top}`, is {length / share:.0f} {unit}."
        return lines


def chain(weights):
    """The longest chain of crates, each above the one before, by these weights, and its last."""
    longest = {}
    for crate in crates():
        below = max((longest[it.name] for it in crate.below()), default=0)
        longest[crate.name] = below + weights.get(crate.name, 0)
    top = max(longest, key=longest.get)
    return longest[top], top


def write(lines):
    """Puts the lines into the table of docs/GATE.md."""
    file = f"{ROOT}/docs/GATE.md"
    with open(file, encoding="utf-8") as it:
        text = it.read()
    table = "\n".join(lines)
    with open(file, "w", encoding="utf-8") as it:
        it.write(TABLE.sub(lambda found: f"{found[1]}{table}\n{found[2]}", text))


def main():
    words = argparse.ArgumentParser(description=__doc__)
    words.add_argument("--write", action="store_true", help="writes the table of docs/GATE.md")
    words.add_argument("--pid", type=int, help="the process of a gate that runs")
    words.add_argument("command", nargs=argparse.REMAINDER)
    given = words.parse_args()
    if bool(given.pid) == bool(given.command):
        sys.exit(__doc__)
    running = None if given.pid else subprocess.Popen(given.command)
    watch = Watch(given.pid or running.pid)
    while watch.look() and (running is None or running.poll() is None):
        time.sleep(EVERY)
    lines = watch.lines()
    print("\n".join(lines))
    if given.write:
        write(lines)
    sys.exit(running.wait() if running else 0)


if __name__ == "__main__":
    main()
