"""Runs of the companion that end, with all that they have started, at a call that changes files or syncs them, by
tests/support/kills.c."""
import ctypes
import mmap
import os
import shutil
import struct
import sys
import tempfile
from collections.abc import Callable, Iterator, Mapping, Sequence
from contextlib import contextmanager
from pathlib import Path
from typing import NamedTuple, TypeVar

from tests.support.cases import run_cases
from tests.support.preload import library

NUMBERS, SIZE = struct.Struct("4q"), 1 << 16
# which calls are tried where that takes long: each one (1), or each third one (3)
STEP = int(os.environ.get("EVERY_CALL") or 17)
# the number at which nothing is counted
OFF = -1
# Linux, prctl.h: orphans of a run become children of this process
PR_SET_CHILD_SUBREAPER = 36
NAMES = {
    "o": "open", "w": "write", "r": "rename", "l": "link", "u": "unlink", "m": "mkdir", "t": "ftruncate", "d": "utimes",
    "c": "chmod", "s": "sync",
}  # fmt: skip


# how something ended
End = TypeVar("End")


class Moment(NamedTuple):
    """When a run ends: before the call with this number, or when half of what it writes is written."""

    number: int
    is_half: bool = False


def settings_in(folder: Path) -> dict[str, str]:
    """The settings with which a program and all that it starts counts its calls. A folder, which others may enter, gets
    the library and the file that they share."""
    shared = folder / "shared"
    shared.write_bytes(NUMBERS.pack(OFF, 0, 0, 0).ljust(SIZE, b"\0"))
    shared.chmod(0o666)
    return {"KILLS": str(shared), "LD_PRELOAD": str(library("kills", folder))}


def moments(calls: Sequence[str], name: str) -> Iterator[Moment]:
    """The moments that are tried of something that made these calls: each STEPth one."""
    for number in range(1 + sum(name.encode()) % STEP, len(calls) + 1, STEP):
        for is_half in (False, True) if calls[number - 1] == "write" else (False,):
            yield Moment(number, is_half)


def run_with_kills(module: str, cases: Mapping[str, Callable[[], None]]) -> None:
    """Runs the cases of the module that is this program, with the library. A list of the cases wants no library, and
    may be told within another program."""
    if sys.argv[1:] != ["--list"] and "KILLS" not in os.environ:
        start_anew(module)
    try:
        run_cases(cases)
    finally:
        if "KILLS" in os.environ:
            shutil.rmtree(Path(os.environ["KILLS"]).parent, ignore_errors=True)


def start_anew(module: str) -> None:
    """Starts the module that is this program once more, with the library."""
    folder = Path(tempfile.mkdtemp())
    folder.chmod(0o755)
    settings = {**os.environ, **settings_in(folder)}
    os.execve(sys.executable, [sys.executable, "-B", "-m", module, *sys.argv[1:]], settings)


class Killer:
    """The memory that runs share with this process, by the settings with which they are started."""

    def __init__(self, settings: Mapping[str, str]) -> None:
        with open(settings["KILLS"], "r+b") as file:
            self.memory = mmap.mmap(file.fileno(), SIZE)

    @contextmanager
    def at(self, moment: Moment = Moment(0)) -> Iterator[list[str]]:
        """Counts the calls of what is run meanwhile, in a group of processes of its own, and ends it at the moment if
        that has a number. Gives the calls in the end."""
        NUMBERS.pack_into(self.memory, 0, moment.number, 0, int(moment.is_half), 0)
        calls: list[str] = []
        try:
            yield calls
        finally:
            count = NUMBERS.unpack_from(self.memory)[1]
            NUMBERS.pack_into(self.memory, 0, OFF, 0, 0, 0)
            calls += [NAMES[letter] for letter in self.memory[NUMBERS.size : NUMBERS.size + count].decode()]

    def run(self, run: Callable[[], End], moment: Moment = Moment(0)) -> tuple[End, list[str]]:
        """Runs something, until the moment if it has a number. Returns how it ended, and the calls. This process must
        have been started with the library."""
        ctypes.CDLL(None).prctl(PR_SET_CHILD_SUBREAPER, 1)
        with self.at(moment) as calls:
            ended = run()
            self.wait_for_orphans()
        return ended, calls

    @staticmethod
    def wait_for_orphans() -> None:
        """Waits until all that a run has started has ended: each ends at its next call that counts."""
        try:
            while True:
                os.waitpid(-1, 0)
        except ChildProcessError:
            pass
