"""Runs `mbox2maildir` on an open text: its `convert`, and its `list`."""
import binascii
import contextlib
import io
import os
import re
import select
import subprocess
import sys
from collections.abc import Callable, Iterator
from typing import IO, Any, NamedTuple, Optional

from . import PROGRAM
from .faults import Fault, Left, Reason
from .looks import is_file, is_folder, real_path
from .nexts import Runs, Todo, run_next, task
from .signals import INTERRUPTS, Process, failure_of, running
from .terminal import named
from .units import Offset

# how often the progress of a conversion is said, in milliseconds
BEAT = 300
# how many bytes are kept of what the program says
MOST_SAID = 1 << 12
PLACED = re.compile(rb"placed (\d+)")
BUFFER = 1 << 20


class Converted(NamedTuple):
    """How far `mbox2maildir convert` read, and how many messages it placed, by the line that it printed."""

    end: Offset
    placed: int


class Failed(Left):
    """What `mbox2maildir convert` said when it failed."""


def find_program() -> bytes:
    """The path of mbox2maildir: beside the program that was started, or else the first in PATH, or else, in a
    clone, the one that `make` has built."""
    here = os.path.dirname(os.fsdecode(real_path(os.fsencode(sys.argv[0]))))
    clone = os.path.dirname(here) if is_folder(os.path.join(here, str(__package__))) else ""
    in_path = (os.path.join(folder, PROGRAM) for folder in os.get_exec_path())
    built = [os.path.join(clone, "build", PROGRAM)] if clone else []
    for program in (os.path.join(here, PROGRAM), *(one for one in in_path if os.access(one, os.X_OK)), *built):
        if is_file(program):
            return os.fsencode(program)
    then = run_next(Runs.BUILD, clone) if clone else task(Todo.INSTALL)
    raise Fault("could not find %s in %s or in PATH" % (PROGRAM, named(here)), Reason.CONVERT_FAILED, then)


class Program:
    """The program by its path, and the pipe that ends a run of it when it is closed, if there is one."""

    def __init__(self, path: bytes, alive: Optional[int] = None) -> None:
        self.path, self.alive = path, alive

    def convert(
        self, number: int, start: Offset, folder: bytes, locked: int, say_offset: Callable[[Offset], None]
    ) -> Converted:
        """Converts an open text from an offset on. Nobody else may move the offset meanwhile. `say_offset` takes the
        offset when it has changed. The program inherits the lock of the text, and that of the file `locked`."""
        os.lseek(number, start, os.SEEK_SET)
        # the program runs in the folder, since a Maildir's name there is UTF-8 whatever its path is
        with running(
            [self.path, b"convert", b"."],
            cwd=folder,
            pass_fds=[locked],
            stdin=number,
            stdout=subprocess.PIPE,
            stderr=subprocess.PIPE,
        ) as child, INTERRUPTS.let_through():
            failure = self.wait_for(child, number, say_offset)
            assert child.stdout is not None, "it is a pipe"
            line = os.read(child.stdout.fileno(), MOST_SAID)
        if failure:
            raise Failed(failure)
        placed = PLACED.search(line)
        return Converted(Offset(os.lseek(number, 0, os.SEEK_CUR)), int(placed[1]) if placed else 0)

    @contextlib.contextmanager
    def listing(self, number: int, start: Offset) -> Iterator["Listing"]:
        """Gives what the program lists of an open text from an offset on. This moves its offset."""
        os.lseek(number, start, os.SEEK_SET)
        with running(
            [self.path, b"list"], stdin=number, stdout=subprocess.PIPE, stderr=subprocess.PIPE, bufsize=BUFFER
        ) as child:
            listing = Listing(child, self.alive)
            with INTERRUPTS.let_through():
                yield listing

    def wait_for(self, child: Process, number: int, say_offset: Callable[[Offset], None]) -> str:
        """Waits for the end of the program, and returns what it said if it failed. A program that was stopped says
        nothing meanwhile."""
        assert child.stderr is not None, "it is a pipe"
        said, last, poll = b"", None, select.poll()
        poll.register(child.stderr, select.POLLIN)
        if self.alive is not None:
            poll.register(self.alive, select.POLLIN)
        while True:
            ready = [one for one, _ in poll.poll(BEAT)]
            if self.alive in ready:
                raise KeyboardInterrupt
            if ready:
                piece = os.read(child.stderr.fileno(), MOST_SAID)
                if not piece:
                    failure = failure_of(child)
                    return failure and (said.decode("utf-8", "replace").strip() or "convert " + failure)
                said = (said + piece)[:MOST_SAID]
            place = Offset(os.lseek(number, 0, os.SEEK_CUR))
            if place != last:
                say_offset(place)
            last = place


class Printed(io.RawIOBase):
    """What a program prints, as long as a pipe is open by which nothing comes. Its end ends who reads this."""

    def __init__(self, stream: IO[bytes], alive: int) -> None:
        super().__init__()
        self.number, self.alive, self.poll = stream.fileno(), alive, select.poll()
        for number in (self.number, alive):
            self.poll.register(number, select.POLLIN)

    def readable(self) -> bool:
        """Whether it is read."""
        return True

    def readinto(self, buffer: Any) -> int:
        """Reads as much as is there, once something is."""
        if self.alive in dict(self.poll.poll()):
            raise KeyboardInterrupt
        return os.readv(self.number, [buffer])


class Listing:
    """What mbox2maildir itself lists of a text, for comparing it message by message."""

    def __init__(self, child: Process, alive: Optional[int]) -> None:
        assert child.stdout is not None, "it is a pipe"
        self.child = child
        self.rows = child.stdout if alive is None else io.BufferedReader(Printed(child.stdout, alive), BUFFER)

    def has(self, number: int, base: bytes, size: int) -> bool:
        """Whether the next line is that of a message: its number, its base and its size. Raises Fault if there is
        none."""
        row = self.rows.readline().split(b" ")
        if row == [b""]:
            self.want_success()
            raise Fault("`%s list` gave fewer messages than were read here" % PROGRAM, Reason.MISREAD)
        return row[:2] + row[4:5] == [b"%d" % number, binascii.hexlify(base[:32]) + base[32:], b"%d" % size]

    def end(self) -> None:
        """Checks that no line follows, and that the program did not fail. Raises Fault otherwise."""
        if self.rows.read(1):
            raise Fault("`%s list` gave more messages than were read here" % PROGRAM, Reason.MISREAD)
        self.want_success()

    def want_success(self) -> None:
        """Checks that the program, which prints no more lines, did not fail. Raises Fault with what it said, such as
        that the system lacks a library that it needs."""
        assert self.child.stderr is not None, "it is a pipe"
        failure = failure_of(self.child)
        if failure:
            said = os.read(self.child.stderr.fileno(), MOST_SAID).decode("utf-8", "replace").strip()
            why = said.split("\n")[0] or "it " + failure
            raise Fault("`%s list` failed: %s" % (PROGRAM, why), Reason.CONVERT_FAILED)
