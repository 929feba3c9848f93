"""Places where a release is installed, with no kit and no clone: folders, or a fresh Debian."""
import glob
import os
import shutil
import subprocess
import tarfile
import urllib.request

PYTHON = "/usr/bin/python3"
NAMES = ("libtevasulim-dev", "python3-tevasulim", "tevasulim-tools", "libtevasulim0")
# What a user of all packages has, too.
OTHERS = "gcc g++ cmake make pkg-config man-db bsdextrautils python3-matplotlib".split()
MIRROR, SUITE = "http://deb.debian.org/debian", "stable"
# Bytes that a fresh Debian with all of these takes, about twice; and seconds to make it.
ROOM, LIMIT = 4 * 2**30, 1200


class Failed(Exception):
    """What was not as it should be."""


class NotThere(Exception):
    """Why there is no fresh Debian."""


def expect(found, wanted, what):
    if found != wanted:
        raise Failed(f"{what}: {found!r} and not {wanted!r}")


def call(words, **how):
    """What a command prints; it has to end with 0."""
    how = {"stdout": subprocess.PIPE, "stderr": subprocess.PIPE, "text": True, **how}
    ran = subprocess.run(words, stdin=subprocess.DEVNULL, **how)
    if ran.returncode:
        raise Failed(f"{words} ended with {ran.returncode}:\n{ran.stdout}{ran.stderr}")
    return ran.stdout


def files_below(folder):
    """Each file, link and folder below a folder."""
    found = set()
    for at, folders, files in os.walk(folder):
        found |= {os.path.relpath(f"{at}/{it}", folder) for it in [*folders, *files]}
    return found


def refuse_lacking(folder):
    """Raises `NotThere` where a fresh Debian cannot be made in a folder."""
    if os.geteuid():
        raise NotThere("it needs root")
    if not shutil.which("debootstrap"):
        raise NotThere("there is no debootstrap (Debian: debootstrap)")
    if shutil.disk_usage(folder).free < ROOM:
        raise NotThere(f"{folder} has not {ROOM} bytes of room")
    try:
        urllib.request.urlopen(f"{MIRROR}/dists/{SUITE}/InRelease", timeout=30).close()
    except OSError as error:
        raise NotThere(f"{MIRROR} is not reached: {error}") from None


class Place:
    """Where commands are run."""

    def write(self, name, text):
        with open(f"{self.work}/{name}", "w") as file:
            file.write(text)

    def is_well(self, script):
        try:
            self.run(script)
        except Failed:
            return False
        return True

    def has(self, command):
        return self.is_well(f"command -v {command}")

    def has_module(self, name):
        return self.is_well(f"python3 -c 'import {name}'")


class Folders(Place):
    """The archive, unpacked into an empty folder, and the wheel in a virtual environment."""

    def __init__(self, room, made):
        self.room, self.work = room, f"{room}/work"
        os.mkdir(self.work)
        (archive,) = glob.glob(f"{made}/*-linux-x86_64.tar.gz")
        with tarfile.open(archive) as tar:
            tar.extractall(f"{room}/unpacked")
        (self.prefix,) = glob.glob(f"{room}/unpacked/*")
        self.install_wheel(made)
        expect(self.has("rt"), False, "whether there is a kit")

    def install_wheel(self, made):
        (wheel,) = glob.glob(f"{made}/*.whl")
        own = f"{self.room}/venv"
        call([PYTHON, "-m", "venv", "--without-pip", "--system-site-packages", own])
        words = ["-m", "pip", "--python", f"{own}/bin/python3", "install", "-q", "--no-index"]
        if subprocess.run([PYTHON, "-m", "pip", "--version"], capture_output=True).returncode:
            (modules,) = glob.glob(f"{own}/lib/python3*/site-packages")
            shutil.unpack_archive(wheel, modules, "zip")
        else:
            call([PYTHON, *words, "--no-deps", wheel])

    def run(self, script):
        own = {"PATH": f"{self.room}/venv/bin:{self.prefix}/bin:/usr/bin:/bin", "LC_ALL": "C.UTF-8"}
        own["LD_LIBRARY_PATH"] = f"{self.prefix}/lib"
        own["PKG_CONFIG_PATH"] = f"{self.prefix}/lib/pkgconfig"
        own["CMAKE_PREFIX_PATH"] = self.prefix
        own["MANPATH"] = f"{self.prefix}/share/man:{self.room}/venv/share/man"
        own["HOME"] = self.work
        return call(["sh", "-ec", script], cwd=self.work, env=own)

    def try_packages(self, made):
        """Debian's packages, installed into an empty folder, and removed again: nothing is left."""
        root = f"{self.room}/root"
        os.makedirs(f"{root}/var/lib/dpkg/info")
        os.makedirs(f"{root}/var/lib/dpkg/updates")
        open(f"{root}/var/lib/dpkg/status", "w").close()
        before = files_below(root)
        words = ["dpkg", f"--root={root}", "--force-not-root", "--force-script-chrootless"]
        words += ["--force-depends", f"--log={self.room}/dpkg.log"]
        call([*words, "-i", *sorted(glob.glob(f"{made}/*.deb"))])
        there = {"usr/bin/mesh", "usr/include/tevasulim.hpp", "usr/share/man/man1/mesh.1.gz"}
        there |= {"usr/bin/tevasulim", "usr/share/man/man1/tevasulim.1.gz"}
        expect(there - files_below(root), set(), "files that are not installed")
        call([*words, "-P", *NAMES])
        left = {it for it in files_below(root) - before if not it.startswith("var/lib/dpkg")}
        expect(left, set(), "files that stay when packages are removed")
        print("Debian's packages are installed, and leave nothing when they are removed")


class Debian(Place):
    """A fresh Debian with the packages, in a folder that is removed at the end."""

    def __init__(self, room, made):
        self.root = f"{room}/debian"
        self.work = f"{self.root}/root"
        self.made = made

    def __enter__(self):
        return self

    def __exit__(self, *_):
        # What was broken off may leave it mounted.
        for part in "proc", "sys":
            subprocess.run(["umount", "-l", f"{self.root}/{part}"], stderr=subprocess.DEVNULL)
        # It does this much faster than Python.
        subprocess.run(["rm", "-rf", "--one-file-system", self.root])

    def make(self):
        """Makes it with debootstrap, and what a user of all packages has, too. Raises `NotThere`
        where that cannot be done."""
        refuse_lacking(os.path.dirname(self.root))
        try:
            words = ["debootstrap", "--variant=minbase", SUITE, self.root, MIRROR]
            call(words, timeout=LIMIT)
            # Nothing of it has to outlast a power cut, and nobody reads it in other languages.
            with open(f"{self.root}/etc/dpkg/dpkg.cfg.d/fast", "w") as options:
                options.write("force-unsafe-io\npath-exclude=/usr/share/locale/*\n")
            words = f"apt-get install -y --no-install-recommends {' '.join(OTHERS)}"
            self.run(f"apt-get update; {words}", timeout=LIMIT)
        except (Failed, OSError, subprocess.TimeoutExpired) as error:
            raise NotThere(str(error)[-500:]) from None

    def install(self):
        self.before = self.files()
        for deb in glob.glob(f"{self.made}/*.deb"):
            shutil.copy(deb, self.work)
        self.run("apt-get install -y --no-install-recommends ./*.deb; rm *.deb")
        expect(self.has("rt"), False, "whether there is a kit")

    def files(self):
        """What lies where packages put files."""
        found = set()
        for part in ("usr", "etc", "opt"):
            found |= {f"{part}/{it}" for it in files_below(f"{self.root}/{part}")}
        return found

    def run(self, script, **how):
        own = {"PATH": "/usr/sbin:/usr/bin:/sbin:/bin", "LC_ALL": "C.UTF-8", "HOME": "/root"}
        own.update({"DEBIAN_FRONTEND": "noninteractive"})
        words = ["chroot", self.root, "sh", "-ec", f"cd /root; {script}"]
        return call(words, env=own, **how)

    def remove(self):
        """Removes the packages, which leave nothing."""
        self.run(f"dpkg -r {' '.join(NAMES)}")
        expect(self.files() - self.before, set(), "files that stay when packages are removed")
        print("in a fresh Debian all is installed, works, and leaves nothing when it is removed")
