"""What is going to be appended to a mailbox, in a file of the Maildir, with how the mailbox was before; and how all of
it is appended, or nothing.

The file gets its name once it is whole and on the disk. So whatever ends a run, the next one knows which bytes at the
end of the mailbox are of it, and takes them back, unless anything else has changed there.
"""
import contextlib
import hashlib
import importlib
import os
import re
from collections.abc import Iterator, Sequence
from typing import NamedTuple, Optional

from ..faults import FULL, Fault, Left, Reason
from ..maildir.making import GOES_BACK, sync_folder
from ..mbox.files import Reader, open_regular, write_all
from ..mbox.mailbox import Mailbox
from ..terminal import named, spelled
from ..units import LineNumber, Offset

NO_FILE = "%s is not a regular file: remove it, and run this again"
BY_ANOTHER = "%s: this version did not write it: run back again with the version that did"
CHANGED = "another program writes to it"
NOT_CUT = "no room is left on its disk, not even to cut off what was appended in part: make room, and run this again"
# its last line, before which is where each message begins
FOOT = b"\nmbox2maildir-back 1\t%d\t%d\t%s\t%s\t%d\t%s\t%d\n"
FOOT_HERE = re.compile(
    rb"\nmbox2maildir-back 1\t(?P<inode>\d{1,20})\t(?P<before>\d{1,18})\t(?P<digest_before>[0-9a-f]{64})"
    rb"\t(?P<mailbox>[^\t\n]+)\t(?P<size>\d{1,18})\t(?P<digest>[0-9a-f]{64})\t(?P<listed>\d{1,18})\n\Z"
)
FOOT_OF_ANOTHER = re.compile(rb"\nmbox2maildir-back (?!1\t)[^\n]*\n\Z")
LONGEST_FOOT = 1 << 15
# what another program writes after a message that was torn, and how many bytes are looked at for that
OTHER_MAIL, MOST_LOOKED_AT = re.compile(rb"(?:\r?\n)?From "), 1 << 16
HOLE = re.compile(rb"\0+")
# the flag of the call fallocate by which the size of a file stays
KEEP_SIZE = 1


class Journal(NamedTuple):
    """The file with what is to be appended, which is open: the inode, the size and the SHA-256 that the mailbox had,
    and its path, as lines of a record spell it; and of what is to be appended the size, the SHA-256, and where each
    message begins in it."""

    path: bytes
    number: int
    inode: int
    before: int
    digest_before: str
    mailbox: str
    size: int
    digest: str
    starts: Sequence[int]

    @classmethod
    def made(cls, addition: "NewFile", folder: bytes, mailbox: Mailbox, starts: Sequence[int]) -> "Journal":
        """Makes that of a folder of the addition to a mailbox, whose messages begin at these places."""
        path, size = os.path.join(folder, GOES_BACK), addition.size
        digest = digest_up_to(addition.number, size)
        of_mailbox = mailbox.state.st_ino, *mailbox.key(), spelled(mailbox.path)
        self = cls(path, addition.number, *of_mailbox, size, digest, starts)
        listed = b",".join(b"%d" % start for start in starts)
        words = (one.encode() if isinstance(one, str) else one for one in self[2:-1])
        addition.add(listed + FOOT % (*words, len(listed)))
        addition.put(path)
        return self

    @classmethod
    def left_in(cls, folder: bytes) -> Optional["Journal"]:
        """The one that a killed run left in a folder; None if there is none. One without all of its bytes says nothing,
        and goes. Raises Left if something else has its name, or if another version wrote it."""
        path = os.path.join(folder, GOES_BACK)
        try:
            number = open_regular(path, os.O_NOFOLLOW)
        except FileNotFoundError:
            return None
        except Fault as fault:
            raise Left(NO_FILE % named(path), Reason.NO_FILE) from fault
        total = os.fstat(number).st_size
        end = os.pread(number, LONGEST_FOOT, max(0, total - LONGEST_FOOT))
        if FOOT_OF_ANOTHER.search(end):
            os.close(number)
            raise Left(BY_ANOTHER % named(path), Reason.OTHER)
        found = FOOT_HERE.search(end)
        if found:
            size, digest, listed = int(found["size"]), found["digest"].decode(), int(found["listed"])
            of_mailbox = int(found["before"]), found["digest_before"].decode(), found["mailbox"].decode()
            starts = [int(start) for start in os.pread(number, listed, size).split(b",") if start]
            if total == size + listed + len(found[0]) and digest_up_to(number, size) == digest:
                return cls(path, number, int(found["inode"]), *of_mailbox, size, digest, starts)
        os.close(number)
        os.unlink(path)
        return None

    def is_whole_in(self, mailbox: Mailbox) -> bool:
        """Whether a mailbox is as it was before, with all that was to be appended, and nothing else."""
        return self.is_begun_by(mailbox) and mailbox.size - self.before == self.same(mailbox) == self.size

    def is_begun_by(self, mailbox: Mailbox) -> bool:
        """Whether a mailbox begins with what it was before."""
        return digest_up_to(mailbox.number, self.before) == self.digest_before

    def same(self, mailbox: Mailbox, with_holes: bool = False) -> int:
        """How many of the bytes that follow in a mailbox are the first ones that were to be appended. In a hole, a disk
        has NUL in the place of some."""
        its, count = Reader(mailbox.number, Offset(self.before), mailbox.size), 0
        for block in Reader(self.number, end=self.size).blocks():
            other = its.read(len(block))
            other = filled(other, block) if with_holes else other
            count += len(os.path.commonprefix([block, other]))
            if block != other:
                break
        return count

    def torn_in(self, mailbox: Mailbox) -> Optional[LineNumber]:
        """The line of the message that was appended in part; None if none was, or if the mailbox does not begin as
        before, which shows nothing."""
        if not self.is_begun_by(mailbox):
            return None
        count = self.same(mailbox)
        has_hole = count < self.same(mailbox, True)
        start = max((start for start in self.starts if start < count + has_hole), default=None)
        if start is None or count == self.size:
            return None
        begins, has = Offset(self.before + start), count - start
        text = mailbox.at(begins, MOST_LOOKED_AT)
        # the From_ line of any mail may begin like that of this message: it has more, or nothing else, or another
        # message follows
        has_more = has > text.find(b"\n") + 1 > 0 or has >= len(text)
        other = OTHER_MAIL.search(text[: has + len(b"\r\nFrom ")], 1)
        is_cut = has_hole or has_more or other is not None and other.start() <= has
        return mailbox.line_at(begins) if is_cut else None

    def append_to(self, mailbox: Mailbox) -> None:
        """Appends all of it, and syncs. If that fails, or is interrupted, the mailbox is as it was before."""
        try:
            reserve(mailbox, self.size)
            for block in Reader(self.number, end=self.size).blocks():
                write_all(mailbox.number, block)
            os.fsync(mailbox.number)
            mailbox.take_state()
            if not self.is_whole_in(mailbox):
                raise Left(CHANGED, Reason.CHANGED)
        except BaseException as fault:
            try:
                self.take_back(mailbox)
            except OSError as other:
                if other.errno in FULL:
                    raise Left(NOT_CUT, Reason.NO_ROOM) from other
                raise
            if getattr(fault, "errno", None) in FULL:
                raise Left("no room is left on its disk", Reason.NO_ROOM) from fault
            raise

    def take_back(self, mailbox: Mailbox) -> bool:
        """Cuts a mailbox back to how it was, if nothing follows in the same file but the beginning of what was to be
        appended, perhaps with holes. Returns whether it is as it was. This is gone then."""
        mailbox.take_state()
        has_more = mailbox.size != self.before
        is_ours = self.same(mailbox, True) == min(mailbox.size - self.before, self.size)
        # a repair of a disk may give a file all of its blocks, with NULs
        rest = Reader(mailbox.number, Offset(self.before + self.size), mailbox.size)
        is_alone = is_ours and not any(block.strip(b"\0") for block in rest.blocks()) and self.is_begun_by(mailbox)
        if not is_alone or has_more and mailbox.state.st_ino != self.inode:
            return False
        if has_more:
            os.ftruncate(mailbox.number, self.before)
            os.fsync(mailbox.number)
            mailbox.take_state()
        self.remove()
        return True

    def recover(self, mailbox: Mailbox) -> Optional[LineNumber]:
        """Takes back what a killed run has appended in part. What it appended as a whole stays, to be found by its
        messages. Returns the line of a message that is not complete, and stays, since something else has changed
        since; None if there is none. This is gone then."""
        torn = None
        if self.is_whole_in(mailbox):
            # what it has may not be on the disk yet
            os.fsync(mailbox.number)
        elif self.take_back(mailbox):
            return None
        else:
            torn = self.torn_in(mailbox)
        self.remove()
        return torn

    def remove(self) -> None:
        """Removes it, whose work is done."""
        os.unlink(self.path)
        sync_folder(os.path.dirname(self.path))


def filled(text: bytes, other: bytes) -> bytes:
    """A text that has the bytes of another one in the place of each NUL."""
    return HOLE.sub(lambda hole: other[hole.start() : hole.end()], text)


class NewFile:
    """A file while it is written, which then gets the name of another one, or of none. It is gone in the end, unless it
    got its name."""

    def __init__(self, number: int, path: bytes = b"") -> None:
        self.number, self.path, self.size = number, path, 0

    @classmethod
    @contextlib.contextmanager
    def at(cls, path: bytes) -> Iterator["NewFile"]:
        """The one at a path. What is there is worth nothing."""
        with contextlib.suppress(FileNotFoundError):
            os.unlink(path)
        number = os.open(path, os.O_RDWR | os.O_CREAT | os.O_EXCL | os.O_NOFOLLOW | os.O_CLOEXEC, 0o600)
        try:
            yield cls(number, path)
        finally:
            os.close(number)
            with contextlib.suppress(FileNotFoundError):
                os.unlink(path)

    def clear(self) -> None:
        """Begins anew."""
        os.ftruncate(self.number, 0)
        os.lseek(self.number, 0, os.SEEK_SET)
        self.size = 0

    def add(self, piece: bytes) -> None:
        """Adds bytes."""
        write_all(self.number, piece)
        self.size += len(piece)

    def put(self, path: bytes) -> None:
        """Puts it on the disk, and gives it its name there."""
        os.fsync(self.number)
        os.rename(self.path, path)
        sync_folder(os.path.dirname(path))


def digest_up_to(number: int, size: int) -> str:
    """The SHA-256 of the first bytes of an open file."""
    hashed = hashlib.sha256()
    for block in Reader(number, end=size).blocks():
        hashed.update(block)
    return hashed.hexdigest()


def reserve(mailbox: Mailbox, size: int) -> None:
    """Has the disk keep room for so many bytes more, if it can, and Python can ask it. Raises OSError if there is none:
    nothing else shows a quota before it is met, and then some disks cut no file either."""
    try:
        # the module is loaded only here, so that the other commands do not wait for it
        ctypes = importlib.import_module("ctypes")
        fallocate = ctypes.CDLL(None, use_errno=True).fallocate64
    except (ImportError, OSError, AttributeError):
        return
    failed = fallocate(mailbox.number, KEEP_SIZE, ctypes.c_int64(mailbox.size), ctypes.c_int64(size))
    error = ctypes.get_errno() if failed else 0
    if error in FULL:
        # ext4 keeps what it found
        with contextlib.suppress(OSError):
            os.ftruncate(mailbox.number, mailbox.size)
        raise OSError(error, os.strerror(error))
