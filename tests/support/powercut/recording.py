"""Records what is done on a disk: a FUSE file that keeps a log, behind a loop device."""
import os
import subprocess
import time
from collections.abc import Callable, Iterator
from contextlib import contextmanager

from tests.support.powercut.devices import loop_device, unmount
from tests.support.powercut.images import copy
from tests.support.powercut.log import START
from tests.support.powercut.systems import System

PAUSE = 0.02


class Recorder:
    """Records what is done on a disk in a folder. Its file system is mounted at the path `at`."""

    def __init__(self, cutdisk: str, system: System, work: str) -> None:
        self.cutdisk, self.system, self.work = cutdisk, system, work
        self.image, self.log, self.fuse, self.at = (os.path.join(work, name) for name in ("image", "log", "fuse", "at"))
        # what is written to this file goes into the log, between the writes
        self.marks = os.path.join(self.fuse, "mark")

    def mark(self, line: str) -> None:
        """Puts a line into the log."""
        with open(self.marks, "wb", buffering=0) as file:
            file.write(line.encode() + b"\n" * (line != START))

    def record(self, prepare: Callable[["Recorder"], None], act: Callable[["Recorder"], None]) -> None:
        """Makes the file system, prepares it, and records what is done then, up to the unmounting."""
        with open(self.image, "wb") as file:
            file.truncate(self.system.megabytes << 20)
        with self.disk() as device:
            subprocess.run([*self.system.make.split(), device], stdout=subprocess.DEVNULL, check=True)
            with self.system.mounted(device, self.at):
                prepare(self)
                os.sync()
                self.mark(START)
                act(self)
                self.mark("end")
        os.unlink(self.image)

    def record_again(self, image: str, act: Callable[["Recorder"], None]) -> None:
        """Records how a disk that a cut left is mounted, and what is done then."""
        copy(image, self.image)
        with self.disk() as device:
            self.mark(START)
            with self.system.mounted(device, self.at, self.system.mend):
                act(self)
                self.mark("end")
        os.unlink(self.image)

    @contextmanager
    def disk(self) -> Iterator[str]:
        """The disk that keeps a log, as a loop device."""
        for path in (self.fuse, self.at):
            os.makedirs(path, exist_ok=True)
        with subprocess.Popen([self.cutdisk, self.image, self.log, self.fuse]) as daemon:
            try:
                while not os.path.exists(self.marks):
                    if daemon.poll() is not None:
                        raise OSError("cutdisk has ended")
                    time.sleep(PAUSE)
                with loop_device(os.path.join(self.fuse, "disk")) as device:
                    yield device
            finally:
                if daemon.poll() is None:
                    unmount(self.fuse)
