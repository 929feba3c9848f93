"""A program whose reads and writes fail.

A small library stands before `read` of standard input, which gives a byte a call and fails once it
has given some, and before `write` to standard output, which takes so many bytes a call at most, and
fails at one call or takes no byte then. It counts the calls of `write`.
"""
import mmap
import struct
import subprocess

from faults.refusing import compiler

SOURCE = r"""
typedef unsigned long size_t;
typedef long ssize_t;
enum { BOTH_WAYS = 3, SHARED = 1, TO_READ_AND_WRITE = 2, FAULT = 5 };
char *getenv(const char *);
int open(const char *, int, ...);
void *mmap(void *, size_t, int, int, int, long);
void *dlsym(void *, const char *);
int *__errno_location(void);
/* After how many bytes reads fail, at which call writes do, whether that call takes no byte in
   place of failing, how many bytes one takes at most, and how many there were. */
static struct { long read_fails_after, write_fails_at, takes_none, width, writes; } *page;
static long given;
__attribute__((constructor)) static void share(void) {
    page = mmap(0, 4096, BOTH_WAYS, SHARED, open(getenv("FAILING"), TO_READ_AND_WRITE), 0);
}
static ssize_t fail(void) {
    *__errno_location() = FAULT;
    return -1;
}
ssize_t read(int file, void *bytes, size_t size) {
    ssize_t (*pass)(int, void *, size_t) = dlsym((void *)-1, "read");
    ssize_t count;
    if (file || !page || !size) return pass(file, bytes, size);
    if (given == page->read_fails_after) return fail();
    count = pass(file, bytes, 1);
    given += count > 0;
    return count;
}
ssize_t __read(int file, void *bytes, size_t size) { return read(file, bytes, size); }
ssize_t write(int file, const void *bytes, size_t size) {
    ssize_t (*pass)(int, const void *, size_t) = dlsym((void *)-1, "write");
    if (file != 1 || !page) return pass(file, bytes, size);
    if (page->writes++ == page->write_fails_at) return page->takes_none ? 0 : fail();
    return pass(file, bytes, size < page->width ? size : page->width);
}
ssize_t __write(int file, const void *bytes, size_t size) { return write(file, bytes, size); }
"""
MOST = 2**40


class Failing:
    """A program behind this library, which is made in a folder."""

    def __init__(self, folder, command):
        self.command, source, made = command, f"{folder}/failing.c", f"{folder}/failing.so"
        with open(source, "w") as file:
            file.write(SOURCE)
        words = [*compiler(), "-O1", "-fPIC", "-shared", "-nostdlib", "-o", made, source]
        subprocess.run(words, check=True)
        self.environment = {"LD_PRELOAD": made, "FAILING": f"{folder}/page"}
        with open(f"{folder}/page", "wb+") as file:
            file.write(bytes(4096))
            file.flush()
            self.page = mmap.mmap(file.fileno(), 4096)

    def run(self, given, read_fails_after=MOST, write_fails_at=MOST, takes_none=False, width=MOST):
        """The status, standard output, standard error and calls of `write` of a run."""
        self.page[:40] = struct.pack("5q", read_fails_after, write_fails_at, takes_none, width, 0)
        how = {"input": given, "env": self.environment, "capture_output": True, "timeout": 60}
        ran = subprocess.run(self.command, **how)
        return ran.returncode, ran.stdout, ran.stderr, struct.unpack("5q", self.page[:40])[4]
