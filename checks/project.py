"""Where the project's files are, and the programs that the gate has built. Whoever imports this may
import the modules of tools/ too."""
import os
import sys

sys.dont_write_bytecode = True
CHECKS = os.path.dirname(os.path.realpath(__file__))
ROOT = os.path.dirname(CHECKS)
sys.path.append(f"{ROOT}/tools")


def built(crate):
    """The program of a crate, as the gate leaves it."""
    return f"{ROOT}/crates/{crate}/out/{crate}"


def named_or_built(crate):
    """The program that the first word of the command line names, or that of a crate."""
    return os.path.realpath(sys.argv[1] if sys.argv[1:] else built(crate))
