"""Processes of the machine, and their end."""
import os
import signal
import subprocess
import time
from collections.abc import Callable, Iterator
from contextlib import suppress
from pathlib import Path
from typing import NamedTuple, Optional

from tests.support.checks import PATIENCE

# how long what is told to end may take to clean up, and what is killed to go
CLEAN_UP, GO = 5.0, 60.0


def wait_for(is_so: Callable[[], bool], child: "Optional[subprocess.Popen[bytes]]" = None) -> bool:
    """Waits until something is so, or until a child has ended. Returns whether it is so."""
    end = time.monotonic() + PATIENCE
    while not is_so():
        if child and child.poll() is not None:
            return is_so()
        assert time.monotonic() < end, "it neither gets there nor ends"
        time.sleep(0.002)
    return True


class Process(NamedTuple):
    """A process, by its number and the time at which it began."""

    number: int
    began: str

    def read(self, name: str) -> str:
        """What the system says of it."""
        try:
            return Path(f"/proc/{self.number}/{name}").read_bytes().decode(errors="replace")
        except OSError:
            return ""


def processes() -> Iterator[tuple[Process, set[int]]]:
    """Those that are at work, each with the numbers of its parent and of its session."""
    for path in Path("/proc").glob("[0-9]*"):
        # the name of the program, which comes before, may have anything in it
        words = Process(int(path.name), "").read("stat").rpartition(")")[2].split()
        if words and words[0] not in "ZX":
            yield Process(int(path.name), words[19]), {int(words[1]), int(words[3])}


def family(child: int, known: set[Process]) -> set[Process]:
    """A child, what it has started, and the rest of their sessions, as far as they are at work, and those of them that
    were known before."""
    there = dict(processes())
    found = {one for one in there if one.number == child or one in known}
    while True:
        numbers = {child, *(one.number for one in found)}
        more = {one for one, above in there.items() if above & numbers} - found
        if not more:
            return found
        found |= more


def end_family(child: int) -> list[str]:
    """Ends a child, what it has started, and the rest of their sessions. Returns what they ran."""
    known = family(child, set())
    commands = [" ".join(one.read("cmdline").split("\0")).strip() for one in sorted(known)]
    for number, patience in ((signal.SIGTERM, CLEAN_UP), (signal.SIGKILL, GO)):
        told, begun = set(), time.monotonic()  # type: set[Process], float
        while known and time.monotonic() < begun + patience:
            for one in known - told:
                with suppress(ProcessLookupError):
                    os.kill(one.number, number)
            told |= known
            time.sleep(0.05)
            known = family(child, known)
    return commands
