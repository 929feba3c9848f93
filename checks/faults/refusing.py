"""A program some of whose growths are refused.

A growth is a call of `malloc` or `realloc`. A small library stands before these two: it counts
growths, and refuses those whose numbers are asked for. It and the checker share a page of memory.
Any program that asks the C library for memory is taken as it is. The library is compiled by the
clang of the Rattle kit, which links the programs too, or else by gcc; it asks for no headers.
"""
import mmap
import os
import shutil
import struct
import subprocess

SOURCE = r"""
typedef unsigned long size_t;
typedef long ssize_t;
enum { BOTH_WAYS = 3, SHARED = 1, TO_READ_AND_WRITE = 2 };
char *getenv(const char *);
int open(const char *, int, ...);
int close(int);
void *mmap(void *, size_t, int, int, int, long);
void *dlsym(void *, const char *);
int memcmp(const void *, const void *, size_t);
/* The first and the last growth that is refused, how many growths there were, how many of them were
   refused, and whether they count always: else only from a line `begin` to the next one written. */
static struct { long first, last, growths, refused, always; } *page;
static int begun;
__attribute__((constructor)) static void share(void) {
    int file = open(getenv("REFUSING"), TO_READ_AND_WRITE);
    page = mmap(0, 4096, BOTH_WAYS, SHARED, file, 0);
    close(file);
}
/* What the C library has under a name. */
static void *real(const char *name) { return dlsym((void *)-1, name); }
static int is_refused(void) {
    if (!page || !(begun || page->always)) return 0;
    page->growths++;
    if (page->growths < page->first || page->last < page->growths) return 0;
    page->refused++;
    return 1;
}
void *malloc(size_t size) {
    static void *(*grow)(size_t);
    if (!grow) grow = real("malloc");
    return is_refused() ? 0 : grow(size);
}
void *realloc(void *place, size_t size) {
    static void *(*grow)(void *, size_t);
    if (!grow) grow = real("realloc");
    return is_refused() ? 0 : grow(place, size);
}
ssize_t write(int file, const void *bytes, size_t size) {
    static ssize_t (*pass)(int, const void *, size_t);
    if (!pass) pass = real("write");
    begun = size == 6 && !memcmp(bytes, "begin\n", 6);
    if (begun) page->growths = page->refused = 0;
    return pass(file, bytes, size);
}
ssize_t __write(int file, const void *bytes, size_t size) { return write(file, bytes, size); }
"""
# Which growths are refused: a first and a last number.
NONE, ALL = (0, 0), (1, 2**62)


def compiler():
    """The words that begin a call of a compiler for C, of the kit's or of gcc: none without one."""
    if shutil.which("rt"):
        page = subprocess.run(["rt", "doc"], stdout=subprocess.PIPE, text=True).stdout.strip()
        clang = f"{os.path.dirname(page)}/toolchain/bin/clang"
        if os.path.exists(clang):
            return [clang, "--no-default-config", "-fuse-ld=lld"]
    return ["gcc"] if shutil.which("gcc") else []


def library(folder):
    """The library before `malloc` and `realloc`, made in a folder."""
    source, made = f"{folder}/refusing.c", f"{folder}/refusing.so"
    with open(source, "w") as file:
        file.write(SOURCE)
    words = [*compiler(), "-O1", "-fPIC", "-shared", "-nostdlib", "-o", made, source]
    subprocess.run(words, check=True)
    return made


class Page:
    """The page that a library shares with a checker."""

    def __init__(self, made, always):
        self.always = always
        name = f"{os.path.dirname(made)}/page"
        with open(name, "wb+") as file:
            file.write(bytes(4096))
            file.flush()
            self.bytes = mmap.mmap(file.fileno(), 4096)
        self.environment = {**os.environ, "LD_PRELOAD": made, "REFUSING": name}

    def refuse(self, numbers):
        """Counts anew, and refuses the growths from the first of these numbers to the last."""
        self.bytes[:40] = struct.pack("5q", *numbers, 0, 0, self.always)

    def found(self):
        """How many growths there were, and how many were refused."""
        return struct.unpack("5q", self.bytes[:40])[2:4]


class Program:
    """A program that answers line by line. Growths count always, or from each line `begin` of its
    own on."""

    def __init__(self, made, command, always=False):
        self.page = Page(made, always)
        how = {"stdin": subprocess.PIPE, "stdout": subprocess.PIPE, "text": True, "bufsize": 1}
        self.page.refuse(NONE)
        self.running = subprocess.Popen(command, env=self.page.environment, **how)

    def ask(self, line, numbers=NONE, is_last=lambda reply: reply == "end"):
        """The lines of its answer, how many growths there were, and how many were refused."""
        self.page.refuse(numbers)
        self.running.stdin.write(line + "\n")
        self.running.stdin.flush()
        lines = []
        while not lines or not is_last(lines[-1]):
            reply = self.running.stdout.readline()
            if not reply:
                status = self.running.wait()
                raise SystemExit(f"{line}: the program ended with status {status} after {lines}")
            lines.append(reply.rstrip("\n"))
        return lines, *self.page.found()

    def end(self):
        self.running.stdin.close()
        status = self.running.wait()
        self.running.stdout.close()
        if status:
            raise SystemExit(f"the program ended with status {status}")
