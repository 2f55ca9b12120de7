"""Files to write that are whole after a with-block, or as they were before it. A write that fails raises OSError with the
name of the file; the word `-` is standard output, as are its names in /dev. What is open already is written behind what it has.
"""
import contextlib
import errno
import io
import os
import pathlib
import re
import shutil
import stat
import sys
import tempfile
from collections.abc import Iterator
from typing import IO, Any

from .program import StrPath

STANDARD_OUTPUT = ("-", "/dev/stdout", "/dev/fd/1")
# The names of files that are open here.
OPEN_FILE = re.compile("(?:/dev|/proc/self)/fd/([0-9]+)")


@contextlib.contextmanager
def atomic_write(path: StrPath, mode: str = "w") -> Iterator[IO[Any]]:
    """A file to write: whole after the block, or as it was where the block ends by an exception. Pipes, devices and
    standard output are written straight. Mode "w" is UTF-8 text, "wb" bytes."""
    if str(path) in STANDARD_OUTPUT:
        if isinstance(sys.stdout, io.TextIOWrapper):
            sys.stdout.reconfigure(encoding="utf-8", newline="\n")
        yield sys.stdout if mode == "w" else sys.stdout.buffer  # type: ignore[misc]
        sys.stdout.flush()
    elif number := OPEN_FILE.fullmatch(str(path).replace("/dev/stderr", "/dev/fd/2")):
        with add_paths_to_errors(path), open_to_write(os.dup(int(number[1])), mode) as file:
            yield file
    elif os.path.exists(path) and not os.path.isfile(path):
        with add_paths_to_errors(path), open_to_write(path, mode) as file:
            yield file
    else:
        with atomic_write_all(path, mode=mode) as (file,):
            yield file


@contextlib.contextmanager
def add_paths_to_errors(*paths: StrPath) -> Iterator[None]:
    """A failed write in the block, as on a full disk, is reported with the names of its files."""
    try:
        yield
    except OSError as error:
        if error.filename is None and error.errno in (errno.ENOSPC, errno.EDQUOT, errno.EFBIG, errno.EIO):
            raise OSError(error.errno, error.strerror, ", ".join(os.fspath(path) for path in paths)) from error
        raise


def open_to_write(path: StrPath | int, mode: str) -> IO[Any]:
    return open(path, mode) if "b" in mode else open(path, mode, encoding="utf-8", newline="\n")


@contextlib.contextmanager
def atomic_write_all(*paths: StrPath, mode: str = "w") -> Iterator[list[IO[Any]]]:
    """Files to write: all whole and synced after the block, or all as they were where it ends by an exception."""
    targets = [os.path.realpath(path) for path in paths]
    temp_paths: list[str] = []
    with add_paths_to_errors(*paths), contextlib.ExitStack() as leftovers:
        with contextlib.ExitStack() as opened_files:
            files: list[IO[Any]] = []
            for path, target in zip(paths, targets):
                temp_paths.append(make_temp_file(path, target))
                leftovers.callback(unlink_missing_ok, temp_paths[-1])
                files.append(opened_files.enter_context(open_to_write(temp_paths[-1], mode)))
            yield files
            for file in files:
                file.flush()
                os.fsync(file.fileno())
        replace_all(temp_paths, targets)


def make_temp_file(path: StrPath, target: str) -> str:
    """The path of a new empty file in the folder of the target, with the permissions that the target has or would get."""
    if os.path.isdir(target):
        raise IsADirectoryError(errno.EISDIR, "is a folder", os.fspath(path))
    folder, name = os.path.split(target)
    try:
        if os.path.exists(target) and not os.access(target, os.W_OK):
            raise PermissionError(errno.EACCES, "may not be written")
        handle, temp_path = tempfile.mkstemp(prefix=f"{name}.", suffix=".new", dir=folder)
    except OSError as error:
        raise OSError(error.errno, error.strerror, os.fspath(path)) from error
    if os.path.exists(target):
        permissions = stat.S_IMODE(os.stat(target).st_mode)
    else:
        permissions = 0o666 & ~umask()
    os.fchmod(handle, permissions)
    os.close(handle)
    return temp_path


def umask() -> int:
    """The permissions that new files of this process don't get. (os.umask would take it away from other threads for a moment.)"""
    lines = pathlib.Path("/proc/self/status").read_text(encoding="ascii", errors="replace").splitlines()
    return next(int(line.split()[1], 8) for line in lines if line.startswith("Umask:"))


def replace_all(temp_paths: list[str], targets: list[str]) -> None:
    """Gives each file its target's name; where one can't have it, those before get their old files back."""
    *before, last = zip(temp_paths, targets)
    with contextlib.ExitStack() as backups, contextlib.ExitStack() as undone:
        for temp_path, target in before:
            old, is_there = f"{temp_path}.old", os.path.exists(target)
            if is_there:
                backups.callback(unlink_missing_ok, old)
                try:
                    os.link(target, old)
                except OSError:
                    shutil.copy2(target, old)
            os.replace(temp_path, target)
            if is_there:
                undone.callback(os.replace, old, target)
            else:
                undone.callback(unlink_missing_ok, target)
        os.replace(*last)
        undone.pop_all()


def unlink_missing_ok(path: StrPath) -> None:
    with contextlib.suppress(FileNotFoundError):
        os.unlink(path)
