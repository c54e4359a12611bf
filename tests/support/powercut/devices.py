"""Loop devices, mounts and holes in files, by calls of the system that Python lacks."""
import ctypes
import subprocess
import time
from collections.abc import Iterator, Sequence
from contextlib import contextmanager

from tests.support.mounts import LIBRARY, call, mount

PUNCH_HOLE_KEEP_SIZE = 3
# how often an unmounting is tried, and with which pause, since a disk may be in use for a moment longer
TURNS, PAUSE = 50, 0.1


def run(words: Sequence[str]) -> str:
    """What a command prints. Raises OSError unless it ends well."""
    ran = subprocess.run(words, stdout=subprocess.PIPE, stderr=subprocess.STDOUT, universal_newlines=True, check=False)
    if ran.returncode:
        raise OSError(f"{' '.join(words)}: status {ran.returncode}: {ran.stdout.strip()[-300:]}")
    return ran.stdout


@contextmanager
def loop_device(path: str) -> Iterator[str]:
    """A loop device over a file."""
    device = run(["losetup", "-f", "--show", path]).strip()
    try:
        yield device
    finally:
        run(["losetup", "-d", device])


@contextmanager
def mounted(device: str, at: str, kind: str, options: str) -> Iterator[None]:
    """Mounts a file system of a device at a place."""
    mount(device, at, kind, options=options)
    try:
        yield
    finally:
        unmount(at)


def unmount(at: str) -> None:
    """Unmounts what is at a place, as soon as nobody uses it."""
    for _ in range(TURNS):
        if LIBRARY.umount2(at.encode(), 0) == 0:
            return
        time.sleep(PAUSE)
    call("umount2", at.encode(), 0)


def make_hole(file: int, offset: int, length: int) -> None:
    """Makes a hole in an open file, whose size stays."""
    call("fallocate", file, PUNCH_HOLE_KEEP_SIZE, ctypes.c_int64(offset), ctypes.c_int64(length))
