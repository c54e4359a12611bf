"""Mounts that are seen by one process and its children alone, by calls of the system that Python lacks."""
import ctypes
import os
import subprocess
from collections.abc import Iterator
from contextlib import contextmanager
from pathlib import Path
from typing import Optional, Union

LIBRARY = ctypes.CDLL(None, use_errno=True)
NEW_MOUNTS, PRIVATE_BELOW, MOVE = 0x20000, 0x44000, 0x2000

Argument = Union[bytes, int, ctypes.c_int64, ctypes.c_ulong, None]


def call(function: str, *arguments: Argument) -> None:
    """Calls a function of the C library. Raises OSError unless it answers 0."""
    if getattr(LIBRARY, function)(*arguments):
        error = ctypes.get_errno()
        raise OSError(error, f"{function}: {os.strerror(error)}")


def mount(what: str, at: str, kind: Optional[str] = None, flags: int = 0, options: Optional[str] = None) -> None:
    """Mounts something at a place."""
    texts = [None if text is None else text.encode() for text in (what, at, kind, options)]
    call("mount", *texts[:3], ctypes.c_ulong(flags), texts[3])


def take_own_mounts() -> None:
    """Makes the mounts of this process visible only to it and its children. They go away with these."""
    call("unshare", NEW_MOUNTS)
    mount("none", "/", flags=PRIVATE_BELOW)


@contextmanager
def small_disk(at: Path, size: str = "6m") -> Iterator[Path]:
    """A disk in memory of this size, perhaps with further options, at a place that is made for it."""
    at.mkdir(exist_ok=True)
    mount("none", str(at), "tmpfs", options=f"size={size}")
    try:
        yield at
    finally:
        subprocess.run(["umount", "-l", str(at)], check=True)
