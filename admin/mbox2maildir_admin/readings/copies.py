"""Copies of mailboxes: those that appear complete or not at all, and texts without a name, which are on the Maildir's
disk and are gone once they are closed."""
import contextlib
import os
import stat
from collections.abc import Iterable, Iterator, Sequence
from typing import IO, Optional

from ..faults import Fault, Left, Reason, naming
from ..kinds.starts import ends_in_cr
from ..looks import is_there
from ..maildir.disk import PREFIX
from ..mbox.files import BLOCK, LineEnds, Reader
from ..mbox.inventory import Inventory
from ..mbox.mailbox import Mailbox
from ..mbox.pieces import from_lines_of
from ..nexts import Todo, task
from ..terminal import named
from ..units import Offset, Place

CUT = "it was cut while it was read"


class Copy:
    """A file that is made beside the place of its name, and gets the name once it is complete and on the disk. Until
    then it has no name, or one that is never taken for a mailbox."""

    def __init__(self, path: bytes) -> None:
        """Opens a copy to be written. Unless it was placed, nothing is left of it in the end."""
        import tempfile

        self.path, self.folder = path, os.path.dirname(path) or b"."
        self.part: Optional[bytes] = None
        with naming(path):
            is_taken = is_there(path)
        if is_taken:
            raise Fault("%s already exists" % named(path), then=task(Todo.OTHER_NAME))
        with naming(self.folder):
            try:
                # where this is not there, a file without a name can get none later
                os.stat("/proc/self/fd")
                number = os.open(self.folder, os.O_RDWR | os.O_TMPFILE | os.O_CLOEXEC, 0o600)
            except OSError:
                number, self.part = tempfile.mkstemp(prefix=PREFIX, dir=self.folder)
            self.file = open(number, "w+b", BLOCK)

    def __enter__(self) -> "Copy":
        return self

    def write(self, piece: bytes) -> None:
        """Adds bytes to it."""
        with naming(self.path):
            self.file.write(piece)

    def written(self) -> tuple[int, int]:
        """How many bytes and how many messages the file has now."""
        with naming(self.path):
            self.file.flush()
            return os.fstat(self.file.fileno()).st_size, from_lines_of(Reader(self.file.fileno()).read)

    def place(self, state: os.stat_result) -> None:
        """Gives the copy its name, which must be free, and the owner and the mode of the mailbox; if that is not
        possible, only its maker may read it."""
        with naming(self.path):
            with contextlib.suppress(OSError):
                os.fchown(self.file.fileno(), state.st_uid, state.st_gid)
                os.fchmod(self.file.fileno(), stat.S_IMODE(state.st_mode) & 0o666)
            os.fsync(self.file.fileno())
            folder = os.open(self.folder, os.O_RDONLY | os.O_DIRECTORY)
            try:
                if self.part:
                    os.link(self.part, self.path)
                else:
                    # since a folder is given, os.link follows the link in /proc
                    os.link("/proc/self/fd/%d" % self.file.fileno(), self.path, src_dir_fd=folder)
                os.fsync(folder)
            except FileExistsError as error:
                raise Fault("%s already exists" % named(self.path), then=task(Todo.OTHER_NAME)) from error
            finally:
                os.close(folder)

    def __exit__(self, *_: object) -> None:
        if self.part:
            with contextlib.suppress(FileNotFoundError):
                os.unlink(self.part)
        with contextlib.suppress(OSError):
            self.file.close()


def unnamed(folder: bytes) -> IO[bytes]:
    """Opens a file without a name on the disk of a folder."""
    import tempfile

    return tempfile.TemporaryFile(buffering=BLOCK, prefix=PREFIX, dir=folder)


def copy_of(mailbox: Mailbox, given: Iterable[bytes], folder: bytes) -> Mailbox:
    """What is given of a mailbox, as a text that is open. Raises Fault if the disk has not all of it."""
    size = 0
    with unnamed(folder) as file:
        for data in given:
            file.write(data)
            size += len(data)
        file.flush()
        text = Mailbox(mailbox.path, os.dup(file.fileno()), None, mailbox.say)
    if text.size != size:
        raise Fault("the copy has %d of %d bytes" % (int(text.size), size), Reason.MISREAD)
    return text


def with_lf(mailbox: Mailbox, folder: bytes) -> contextlib.AbstractContextManager[Mailbox]:
    """The text that a mailbox is. If its lines end in CR alone, that is a copy in which they end in LF."""
    if not ends_in_cr(mailbox):
        return contextlib.nullcontext(mailbox)
    mailbox.file.offset = Offset(0)
    ends = LineEnds(mailbox.file)
    text = copy_of(mailbox, iter(lambda: ends.read(BLOCK), b""), folder)
    mailbox.check()
    text.was_cr, text.copied = True, mailbox.state
    return text


def copy_of_some(mailbox: Mailbox, inventory: Inventory, places: Sequence[Place], folder: bytes) -> Mailbox:
    """A text of some messages of another, as they are in it."""

    def given() -> Iterator[bytes]:
        for place in places:
            end = inventory.offsets[place + 1]
            reader = Reader(mailbox.number, inventory.offset(place), end)
            for block in reader.blocks():
                yield block
                mailbox.say("copying", reader.offset, mailbox.size)
            if reader.offset < end:
                raise Left(CUT, Reason.CHANGED)

    return copy_of(mailbox, given(), folder)
