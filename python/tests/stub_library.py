"""Libraries in place of the true one, compiled by the C compiler: each call gives 0, and what they
say of themselves is chosen."""
import os
import shutil
import subprocess

from tevasulim import _library as library

COMPILER = shutil.which("cc") or shutil.which("gcc")
SOURCES = 'const char tevasulim_sources[] = "{}";\n'


def make(folder, version=library.VERSION, lacks=(), sources=None):
    """Compiles a library of a version, less some calls, with the sum of its sources."""
    calls = [it for it in library.CALLS if it not in (*lacks, "version")]
    text = "".join(f"unsigned tevasulim_{it}(void) {{ return 0; }}\n" for it in calls)
    if "version" not in lacks:
        text += f"unsigned tevasulim_version(void) {{ return {version}; }}\n"
    if sources is not None:
        text += SOURCES.format(sources)
    place = os.path.join(folder, "libother.so")
    words = [COMPILER, "-shared", "-fPIC", "-x", "c", "-", "-o", place]
    subprocess.run(words, input=text, text=True, check=True)
    return place
