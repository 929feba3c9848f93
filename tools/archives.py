"""Archives whose bytes depend on the files in them alone: equal files make equal archives."""
import gzip
import io
import os
import tarfile
import zipfile


def files_below(folder):
    """Each file, link and folder below a folder, by its path from there, in order."""
    found = []
    for at, folders, files in os.walk(folder):
        found += [os.path.relpath(f"{at}/{it}", folder) for it in [*folders, *files]]
    return sorted(found)


def write_tar(out, folder, top, epoch):
    """Writes a folder as `top` to the file OUT.tar.gz, with one time for all."""
    with open(out, "wb") as file:
        with gzip.GzipFile("", "wb", 9, file, mtime=epoch) as packed:
            with tarfile.open(fileobj=packed, mode="w", format=tarfile.PAX_FORMAT) as tar:
                for path in ["", *files_below(folder)]:
                    name = os.path.join(folder, path) if path else folder
                    info = tar.gettarinfo(name, f"{top}/{path}".rstrip("/"))
                    info.uid = info.gid = 0
                    info.uname = info.gname = "root"
                    info.mtime = epoch
                    is_run = info.isdir() or info.mode & 0o100
                    info.mode = 0o777 if info.issym() else 0o755 if is_run else 0o644
                    with open(name, "rb") if info.isfile() else io.BytesIO() as content:
                        tar.addfile(info, content if info.isfile() else None)


def write_tar_again(path, room, epoch):
    """Writes a .tar.gz with one folder in it again, so."""
    with tarfile.open(path) as tar:
        tar.extractall(room)
    (top,) = os.listdir(room)
    write_tar(path, f"{room}/{top}", top, epoch)


def unzip(path, folder):
    """Unpacks a wheel, which is a zip."""
    with zipfile.ZipFile(path) as packed:
        packed.extractall(folder)


def set_times(folder, epoch):
    """Gives all below a folder one time, and the usual modes."""
    for path in [*files_below(folder), ""]:
        at = os.path.join(folder, path)
        if not os.path.islink(at):
            is_run = os.path.isdir(at) or os.stat(at).st_mode & 0o100
            os.chmod(at, 0o755 if is_run else 0o644)
        os.utime(at, (epoch, epoch), follow_symlinks=False)
