"""An open text, which is a mailbox, a copy of one, or what one holds; its digest, and whether it stays as it is. It is
read by `pread`, since the offset of its descriptor belongs to mbox2maildir alone."""
import hashlib
import os
from collections.abc import Collection, Iterable, Iterator
from typing import Optional, Union

from ..faults import Fault, Reason
from ..remarks import Remark
from ..units import LineNumber, Offset, Say, Size, silent
from .files import BLOCK, LONG, Reader, open_file, open_regular
from .pieces import Piece, pieces_of

# the facts that show that a file is no other one, and that it has changed
FACTS = "st_dev", "st_ino", "st_size", "st_mtime_ns", "st_ctime_ns"
CHANGED = "it changed while it was read"
CHANGED_MEANWHILE = "it changed in the meantime"


def is_still(path: bytes, state: os.stat_result) -> bool:
    """Whether the file at a path is the one that had this state, and has not changed since."""
    try:
        with open_file(path) as file:
            now = os.fstat(file.fileno())
    except (FileNotFoundError, Fault):
        return False
    return is_unchanged(state, now)


def is_unchanged(before: os.stat_result, now: os.stat_result) -> bool:
    """Whether two states are of one file, which has not changed between them."""
    return all(getattr(now, fact) == getattr(before, fact) for fact in FACTS)


def lines_at(reader: Reader, offsets: Iterable[int]) -> Iterator[LineNumber]:
    """The numbers of the lines of a text that have these offsets, which must rise. The text is read from its start."""
    block, here, number = b"", 0, 1
    for offset in offsets:
        while offset > reader.offset:
            number += block.count(b"\n", here)
            here, block = 0, reader.read(BLOCK)
            if not block:
                raise Fault(CHANGED, Reason.CHANGED)
        place = offset - (reader.offset - len(block))
        number += block.count(b"\n", here, place)
        here = place
        yield LineNumber(number)


class Digest:
    """The SHA-256 of a text that is read once from its start, and those of its beginnings of some sizes."""

    def __init__(self, sizes: Iterable[int] = ()) -> None:
        self.place, self.hash = 0, hashlib.sha256()
        self.sizes = sorted(sizes, reverse=True)
        # the digests of beginnings, by their sizes
        self.beginnings: dict[int, str] = {}

    def update(self, block: Union[bytes, memoryview]) -> None:
        """Takes the next bytes."""
        while self.sizes and self.sizes[-1] <= self.place + len(block):
            size = self.sizes.pop()
            block = memoryview(block)
            self.hash.update(block[: size - self.place])
            block, self.place = block[size - self.place :], size
            self.beginnings[size] = self.hash.hexdigest()
        self.hash.update(block)
        self.place += len(block)

    def hexdigest(self) -> str:
        """The digest of all bytes that were taken, in hexadecimal digits."""
        return self.hash.hexdigest()


class Watched(Reader):
    """Reads a text up to its end. A digest takes each block that is the next one for it. It also says how far the
    reading is."""

    def __init__(self, number: int, end: Size, digest: Optional[Digest], say: Say) -> None:
        super().__init__(number, end=end)
        self.digest, self.say = digest, say
        # the last bytes that were read, and where they begin
        self.block, self.begins = b"", 0

    def read(self, count: int) -> bytes:
        """Reads the next bytes; none at the end."""
        begins, block = self.offset, super().read(count)
        if block:
            self.block, self.begins = block, begins
        if self.digest and begins == self.digest.place:
            self.digest.update(block)
        self.say("reading", self.offset, self.end)
        return block


class Mailbox:
    """An open text, which must stay as it was when it was opened."""

    def __init__(self, path: bytes, number: int, digest: Optional[Digest] = None, say: Say = silent) -> None:
        """Takes an open descriptor as the text of a path. The descriptor is closed in the end."""
        # where its file was opened, and its locks are; `path` is the one by which it is known, and may lead there by
        # symbolic links
        self.path = self.place = path
        self.number, self.digest, self.say = number, digest, say
        # what is to be said of the mailbox; and for a copy, the state of its file when it was copied, and for how many
        # seconds it was
        self.remarks: list[Remark] = []
        self.copied: Optional[os.stat_result] = None
        self.took = 0.0
        # whether it is a copy that has LF in place of line ends of CR alone
        self.was_cr = False
        self.take_state()

    @classmethod
    def open(cls, path: bytes, say: Say = silent, follow: bool = True) -> "Mailbox":
        """Opens a text without a lock."""
        return cls(path, open_regular(path, 0 if follow else os.O_NOFOLLOW), say=say)

    def take_state(self) -> None:
        """Takes the state of the file as it is now."""
        self.state = os.fstat(self.number)
        self.size, self.end = Size(self.state.st_size), Offset(self.state.st_size)
        self.file = Watched(self.number, self.size, self.digest, self.say)

    def __enter__(self) -> "Mailbox":
        return self

    def __exit__(self, *_: object) -> None:
        os.close(self.number)

    def at(self, offset: int, count: int) -> bytes:
        """The bytes at an offset; fewer at the end."""
        count, offset = max(0, min(count, self.size - offset)), max(0, offset)
        place = offset - self.file.begins
        # most of what is looked at again, as headers are, was read just now
        if place >= 0 and place + count <= len(self.file.block):
            return self.file.block[place : place + count]
        return os.pread(self.number, count, offset)

    def has(self, offset: int, number: int, size: int) -> bool:
        """Whether the text has at an offset all that an open file has, which is this many bytes."""
        for here in range(0, size + 1, BLOCK):
            text = os.pread(self.number, min(BLOCK, size - here), offset + here)
            # the file is asked for a byte more than it has
            if os.pread(number, min(BLOCK, size - here + 1), here) != text:
                return False
        return True

    def from_line_at(self, offset: int) -> bytes:
        """The From_ line that begins at an offset, as far as anything reads it, without its end."""
        return self.at(offset, LONG + 1).split(b"\n")[0]

    def pieces(self, start: Offset) -> Iterator[Piece]:
        """The pieces of the text from an offset on. Digest and progress take note of them."""
        self.file.offset = start
        return pieces_of(self.file.read, start)

    def line_at(self, offset: int) -> LineNumber:
        """The number of the line that has an offset."""
        return next(self.lines_at([offset]))

    def lines_at(self, offsets: Iterable[int]) -> Iterator[LineNumber]:
        """The numbers of the lines that have these offsets, which must rise."""
        return lines_at(self.again(), offsets)

    def lines_with(self, numbers: Iterable[int]) -> Iterator[tuple[LineNumber, Offset]]:
        """The lines of these numbers that the text has, each with the offset at which it begins, in their order."""
        # a block, and the numbers of the line in which it begins, and of the last one that begins in it
        reader, block, first, last = self.again(), b"", 1, 1
        for line in sorted({one for one in numbers if one > 0}):
            while line > last:
                block = reader.read(BLOCK)
                if not block:
                    return
                first, last = last, last + block.count(b"\n")
            yield LineNumber(line), Offset(reader.offset - len(block.split(b"\n", line - first)[-1]))

    def again(self, start: Offset = Offset(0)) -> Reader:
        """Reads the text again from an offset on. Neither digest nor progress takes note of that."""
        return Reader(self.number, start, self.size)

    def key(self) -> tuple[Size, str]:
        """The size of the text and its SHA-256. Reads what was not read yet."""
        if self.digest is None:
            self.digest = self.file.digest = Digest()
        self.file.offset = Offset(self.digest.place)
        while self.file.read(BLOCK):
            pass
        return self.size, self.digest.hexdigest()

    def beginnings(self, sizes: Collection[int]) -> dict[int, str]:
        """The SHA-256 of the beginnings of the text that have these sizes, by these."""
        digest = Digest(sizes)
        for block in Reader(self.number, end=max(sizes, default=0)).blocks():
            digest.update(block)
        return digest.beginnings

    def has_changed(self) -> bool:
        """Whether the text has changed since it was opened."""
        return not is_unchanged(self.state, os.fstat(self.number))

    def check(self) -> None:
        """Raises Fault if the text has changed."""
        if self.has_changed():
            raise Fault(CHANGED, Reason.CHANGED)
