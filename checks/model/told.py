"""A run of crates/test_calls, and what lists of points and constraints say of its calls."""
import os
import subprocess

from model.journal import replayed
from model.mesh_state import MeshState
from model.questions import Questions, handle
from model.session import Session
from project import built

PROGRAM = built("test_calls")
# The kinds of hints, each with the branch factor of a hierarchy or nothing.
HINTS = {0: None, 1: None, 2: None, 3: 0, 4: 1, 5: 2, 6: 3, 7: 16, 8: None, 9: None}


class Difference(Exception):
    """The program said something else than is worked out."""


class Told:
    """A run of the program with hints of one kind. It is asked for its whole state after each line
    that changes something."""

    def __init__(self, program, hints):
        how = {"stdin": subprocess.PIPE, "stdout": subprocess.PIPE, "text": True, "bufsize": 1}
        self.running = subprocess.Popen([program, str(hints)], **how)
        self.session, self.hints, self.lines = Session(), hints, []
        self.mesh, self.asked, self.passed = MeshState([]), 0, 0

    def fail(self, line, *why):
        lines = [f"hints {self.hints}, after", *self.lines, f"{line}:", *why]
        raise Difference("\n".join(map(str, lines)))

    def say(self, line):
        """What the program says to a line."""
        self.running.stdin.write(line + "\n")
        self.running.stdin.flush()
        said = []
        while not said or said[-1] != "end":
            read = self.running.stdout.readline()
            if not read:
                self.fail(line, "the program ended after", *said)
            said.append(read.rstrip("\n"))
        return [it for it in said if it not in ("begin", "end")]

    def look(self, line):
        """Compares all that is there with lists."""
        self.mesh, state = MeshState(self.say("state")), self.session.state()
        wrong = self.mesh.wrong(state, state.tags)
        if wrong:
            self.fail(line, wrong, *vars(self.mesh).items())

    def ask(self, line):
        """Makes a line's call, and compares what it gives where that is worked out."""
        said = self.say(line)
        name, *words = line.split()
        wanted = self.edited(line, name, [int(word) for word in words], said)
        if wanted is None:
            questions = Questions(self.mesh, self.session.state(), HINTS[self.hints])
            wanted = questions.ask(line, said)
        if wanted is None:
            self.passed += 1
        elif said != wanted:
            self.fail(line, "worked out:", *wanted, "said:", *said)
        else:
            self.asked += 1
        return said

    def edited(self, line, name, numbers, said):
        """The lines that an edit has to print, or nothing where it is none."""
        if name == "replay":
            outcomes = replayed(self.session)
            wanted = [f"{line} > {len(outcomes)}", *outcomes]
        elif name == "insert_in_steps":
            wanted = self.session.steps_told(numbers)
        else:
            reply = self.session.edit(name, numbers, self.mesh.pairs())
            if reply is None:
                return None
            wanted = [f"{line} > {reply}"]
        self.lines.append(line)
        if name == "begin":
            self.hints = numbers[0]
        if not name.startswith("list_"):
            self.look(line)
        if name == "insert_counting":
            begin = f"{line} > Some(({reply}, "
            return said if said[0].startswith(begin) else [begin]
        if name == "try_add_constraint" and reply != "None":
            return [f"{line} > Some(Ok([{self.names(reply)}]))"]
        return wanted

    def names(self, path):
        """The directed edges between pairs of vertices, as they are printed."""
        names = {edge.ends: index for index, edge in enumerate(self.mesh.edges)}
        return ", ".join(handle("DirectedEdge", names[tuple(ends)]) for ends in path)

    def end(self):
        self.running.stdin.close()
        status = self.running.wait()
        self.running.stdout.close()
        if status:
            self.fail("end", f"the program ended with status {status}")
