"""Opens files, and reads and writes them."""
import errno
import io
import os
import stat
from collections.abc import Iterator
from typing import Optional

from ..faults import Fault, Reason
from ..nexts import Todo, task
from ..units import Offset

BLOCK = 1 << 20
# how a regular file is opened for reading: a pipe would block
REGULAR = os.O_RDONLY | os.O_NONBLOCK | os.O_NOCTTY | os.O_CLOEXEC
# the longest From_ line that is looked at: by RFC 5322 no line of mail is longer
LONG = 998
# the most bytes of a file that is read as a whole
WHOLE = 1 << 20
# how many bytes of a mailbox may be holes, which were never written
MOST_HOLES = 16 << 20


def write_all(number: int, piece: bytes) -> None:
    """Writes all of the bytes. Raises OSError if not all of them could be written."""
    while piece:
        # a disk that is full may take a part, and says so at the next write
        piece = piece[os.write(number, piece) :]


def is_empty(path: bytes) -> bool:
    """Whether a file has no byte. If that cannot be seen, it may have some."""
    try:
        return not os.stat(path).st_size
    except OSError:
        return False


def has_holes(number: int, size: int) -> bool:
    """Whether much of an open file was never written. On a disk that can't tell, a file has no holes."""
    place = holes = 0
    try:
        while place < size and holes <= MOST_HOLES:
            data = os.lseek(number, place, os.SEEK_DATA)
            holes += data - place
            place = os.lseek(number, data, os.SEEK_HOLE)
    except OSError as fault:
        if fault.errno == errno.ENXIO:
            # no data follows
            holes += size - place
        elif fault.errno not in (errno.EINVAL, errno.EOPNOTSUPP):
            raise
    finally:
        os.lseek(number, 0, os.SEEK_SET)
    return holes > MOST_HOLES


def open_regular(path: bytes, flags: int) -> int:
    """Opens a regular file, for reading unless the flags say more. Returns its descriptor. Raises Fault otherwise."""
    try:
        number = os.open(path, REGULAR | flags)
    except OSError as fault:
        if fault.errno == errno.ELOOP and flags & os.O_NOFOLLOW:
            raise Fault("it is a symbolic link: name the file that it points to", Reason.LINK) from fault
        raise
    if not stat.S_ISREG(os.fstat(number).st_mode):
        os.close(number)
        raise Fault("it is not a regular file", Reason.NO_FILE, task(Todo.NOT_MAIL))
    return number


def open_file(path: bytes, flags: int = 0) -> io.FileIO:
    """Opens a regular file for reading. Raises Fault for anything else."""
    return io.FileIO(open_regular(path, flags))


def read_up_to(file: io.FileIO, most: int) -> bytes:
    """The bytes of an open file, up to this many."""
    text = bytearray()
    while len(text) < most:
        piece = file.read(min(BLOCK, most - len(text)))
        if not piece:
            break
        text += piece
    return bytes(text)


class Reader:
    """Reads an open file from an offset on, and up to an end if it has one. The offset of its descriptor stays as it
    is, since others may have that descriptor too."""

    def __init__(self, number: int, offset: Offset = Offset(0), end: Optional[int] = None) -> None:
        self.number, self.offset, self.end = number, offset, end

    def read(self, count: int) -> bytes:
        """Reads the next bytes; fewer at the end."""
        if self.end is not None:
            count = max(0, min(count, self.end - self.offset))
        block = os.pread(self.number, count, self.offset)
        self.offset = Offset(self.offset + len(block))
        return block

    def blocks(self) -> Iterator[bytes]:
        """All that follows."""
        return iter(lambda: self.read(BLOCK), b"")


class LineEnds:
    """A file in which each CR, and each CR LF, is read as LF."""

    def __init__(self, file: Reader) -> None:
        self.file, self.after_cr = file, False

    def read(self, count: int) -> bytes:
        """Reads the next bytes; none only at the end."""
        block = text = self.file.read(count)
        if self.after_cr and block.startswith(b"\n"):
            text = block[1:]
        self.after_cr = block.endswith(b"\r")
        return text.replace(b"\r\n", b"\n").replace(b"\r", b"\n") or (self.read(count) if block else b"")
