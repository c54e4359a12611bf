"""Images of disks: copies with their holes, and the images of one state after the other."""
import errno
import os
from collections.abc import Iterator
from contextlib import contextmanager
from typing import Optional

from tests.support.powercut.devices import loop_device
from tests.support.powercut.log import Log, State
from tests.support.powercut.systems import System

CHUNK = 1 << 20


def copy(source: str, target: str) -> None:
    """Copies an image, with its holes."""
    with open(source, "rb", buffering=0) as old, open(target, "wb", buffering=0) as new:
        size, end = os.fstat(old.fileno()).st_size, 0
        new.truncate(size)
        while end < size:
            try:
                at = os.lseek(old.fileno(), end, os.SEEK_DATA)
            except OSError as fault:
                if fault.errno == errno.ENXIO:
                    return
                raise
            end = os.lseek(old.fileno(), at, os.SEEK_HOLE)
            while at < end:
                at += os.pwrite(new.fileno(), os.pread(old.fileno(), min(CHUNK, end - at), at), at)


class Images:
    """Makes the image of one state after the other, and mounts it. The states must come in the order of their
    flushes."""

    def __init__(self, log: Log, system: System, work: str, device: str) -> None:
        self.log, self.system, self.device, self.done = log, system, device, 0
        self.base, self.path, self.at = (os.path.join(work, name) for name in ("base", "state", "at"))

    @classmethod
    @contextmanager
    def open(cls, log: Log, system: System, work: str, first: Optional[str] = None) -> Iterator["Images"]:
        """The images of a log, in a folder. They begin with an image, or with an empty disk."""
        paths = [os.path.join(work, name) for name in ("base", "state")]
        for path in paths:
            with open(path, "wb") as file:
                file.truncate(system.megabytes << 20)
        if first:
            copy(first, paths[0])
        with loop_device(paths[1]) as device:
            yield cls(log, system, work, device)
        for path in paths:
            os.unlink(path)

    def make(self, state: State) -> None:
        """Makes the image of a state."""
        file = os.open(self.base, os.O_RDWR)
        for place in range(self.done, state.flush):
            self.log.apply(file, place)
        self.done = max(self.done, state.flush)
        os.close(file)
        copy(self.base, self.path)
        file = os.open(self.path, os.O_RDWR)
        for place in state.kept:
            self.log.apply(file, place, state.torn if place == state.kept[-1] else None)
        os.close(file)

    @contextmanager
    def mounted(self, is_repaired: bool = False) -> Iterator[str]:
        """Mounts the image at a path, as after a cut or after a repair."""
        mend = self.system.repair if is_repaired else self.system.mend
        with self.system.mounted(self.device, self.at, mend):
            yield self.at
