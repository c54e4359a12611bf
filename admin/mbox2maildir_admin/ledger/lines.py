"""The lines of a ledger: what they say, and how its file is read and written."""
import binascii
import collections
import enum
import fcntl
import itertools
import os
import re
import stat
from collections.abc import Container, Iterable, Iterator, Sequence
from typing import NamedTuple, Optional, Union

from ..faults import Fault, Reason, naming
from ..maildir.making import LEDGER
from ..mbox.core import SHORT
from ..mbox.files import write_all
from ..mbox.locks import WITHOUT_LOCKS
from ..nexts import Phrase
from ..patterns import pattern
from ..terminal import named

# the word of a message: its file was placed by this mailbox; brought by another one; nobody's; nobody's, and `back` has
# appended the message to the mailbox. And what a mailbox no longer has
PLACED, SHARED, FOREIGN, RETURNED, LOST = b"p", b"s", b"f", b"b", b"l"
# the words of files that no mailbox brought
NOBODYS = FOREIGN, RETURNED
# stands for a name that a line cannot have
NAMELESS = b"-"
NAME = pattern(rb"[!-~]+\Z")
# what the first line of a ledger begins with: the number stands for the form of its lines
BEGINS = b"mbox2maildir\t3\t"
FIRST_LINE = pattern(BEGINS + rb"([0-9a-f]{32})\Z")
# what a list of what is prepared begins with
FIRST_OF_LIST = b"mbox2maildir-prepared\t1"
# the beginning of a ledger or a list of another version, perhaps behind lines that were cut
OF_ANOTHER = pattern(rb"(?:.*\t\n)*(?!%s|%s\n)mbox2maildir(?:-prepared)?\t.*[^\t\n]\n" % (BEGINS, FIRST_OF_LIST))
BY_ANOTHER = (
    "this version did not write it: finish with the version that did, or move this file away and run migrate with "
    "--again"
)
# `=` stands for the first digits of the name
MESSAGE = pattern(
    rb"^([psfbl])\t((?=[0-9a-f]{32})[!-~]+(?=\t=)|[!-~]+(?=\t[0-9a-f]))\t(=|[0-9a-f]{32})(?:\t([0-9a-f]{32}))?\n", re.M
)
# a line of something else
OTHER_LINE = pattern(rb"^((?![psfbl]\t).*\n)", re.M)
BATCH = pattern(
    rb"@\t(\d{1,18})\t(\d{1,18})\t(\d{1,18})\t(\d{1,18})\t(\d{1,18})\t((?:-?\d{1,19}(?:,-?\d{1,19})*)?)"
    rb"\t(\d{1,18})-([0-9a-f]{64})(?:-(\d{1,20}))?\t([!-~][ -~]*)\t([^\t]+)\Z"
)
ALL_PLACED = pattern(rb"\+\t(\d{1,18})\Z")
END = pattern(rb"=\t(\d{1,18})\Z")
MOVED = pattern(rb">\t([^\t]+)\t([^\t]+)\Z")
UNDOING = pattern(rb"<\t([^\t]+)\Z")
UNDONE = pattern(rb"-\t(\d{1,18})\t([^\t]+)\Z")
FAILED = pattern(rb"!\t(\d{1,18})\Z")
# lines about a batch with a number: all of its messages have their files; it was verified, and is on the disk; a sync
# of it failed, and nothing of it is to be believed
PLACED_LINE, END_LINE, FAILED_LINE = b"+\t%d\n", b"=\t%d\n", b"!\t%d\n"
# what ends a line that was cut: no line ends with a tab, so it becomes no other one
CUT = b"\t"
# what the name of a damaged file ends in once it is out of the way
DAMAGED = b".damaged"
# how many bytes of lines are written at once, in whole lines: others append too
PIECE = 1 << 16
NOT_TRUSTED = "it does not belong to you, or others may write to it: look at it, and move it away"
LINKED = "it has several names (`cp -al` gives it one more): put a copy in its place, by `cp -p` and `mv`"
AT_WORK = "another migrate is at work in %s"


class Brought(NamedTuple):
    """A message of a mailbox: the word for its file, the name of that without its info, its core, and its bare form."""

    word: bytes
    name: bytes
    core: bytes
    bare: bytes

    def line(self) -> bytes:
        """The message as a line. Most cores are the first digits of the name."""
        name, core = self.name if NAME.match(self.name) else NAMELESS, self.core.hex().encode()
        bare = b"" if self.bare == self.core else b"\t" + self.bare.hex().encode()
        return b"%s\t%s\t%s%s\n" % (self.word, name, b"=" if name.startswith(core) else core, bare)


class Messages(NamedTuple):
    """Messages whose lines follow each other: their words, the names of their files, and the digests of their cores and
    of their bare forms, one after the other."""

    words: bytes
    names: Sequence[bytes]
    cores: bytes
    bares: bytes

    @classmethod
    def parse(cls, text: bytes) -> Optional["Messages"]:
        """The messages of whole lines; None if another line is among them."""
        found = MESSAGE.findall(text)
        if not found or len(found) != text.count(b"\n"):
            return None
        words, names, written, others = zip(*found)
        cores = [name[: 2 * SHORT] if core == b"=" else core for name, core in zip(names, written)]
        bares = [bare or core for core, bare in zip(cores, others)]
        return cls(b"".join(words), names, *(binascii.unhexlify(b"".join(several)) for several in (cores, bares)))

    def counted(self, wanted: Optional[Container[bytes]] = None) -> Iterator[tuple[int, Brought]]:
        """Each of them, or each that has one of these cores, with how many are before it."""
        for at, name in enumerate(self.names):
            core = digest_at(self.cores, at)
            if wanted is None or core in wanted:
                yield at, Brought(self.words[at : at + 1], name, core, digest_at(self.bares, at))


class State(enum.Enum):
    """What a line counts for: the mailbox has the message, had it once, or its batch has not ended, and perhaps a later
    one of the mailbox has; or all of the mailbox was undone."""

    HELD = enum.auto()
    FORMER = enum.auto()
    OPEN = enum.auto()
    OVERTAKEN = enum.auto()
    UNDONE = enum.auto()


class Line(NamedTuple):
    """A message of the mailbox at a path, as the ledger has it in the batch with a number, and whether that batch was
    to place its file."""

    path: str
    state: State
    message: Brought
    number: int = 0
    was_nowhere: bool = False


# lines of messages that follow each other, with these; any other line by itself, with none
Piece = tuple[bytes, Optional[Messages]]


class BatchHead(NamedTuple):
    """What the first line of a batch says: how many lines follow, how many of these are of messages that are placed,
    how many may come back, when names had changed, the mailbox's size and SHA-256, its reading and its path, the inode
    of its file, by which it is known after it was renamed, and when a migration began it, in seconds since 1970."""

    lines: int
    nowhere: int
    back: int
    times: tuple[int, ...]
    key: tuple[int, str]
    words: str
    path: str
    inode: int
    begun: int

    @classmethod
    def without_files(cls, count: int, key: tuple[int, str], words: str, path: str, inode: int) -> "BatchHead":
        """That of a batch of so many lines which places nothing."""
        return cls(count, 0, 0, (), key, words, path, inode, 0)

    @classmethod
    def of(cls, found: re.Match[bytes]) -> "BatchHead":
        """What a line says."""
        lines, nowhere, back, begun, times, size, digest, inode, words, path = (
            one.decode() for one in found.groups(default=b"0")[1:]
        )
        changed, key = tuple(map(int, filter(None, times.split(",")))), (int(size), digest)
        return cls(int(lines), int(nowhere), int(back), changed, key, words, path, int(inode), int(begun))

    def line(self, number: int) -> bytes:
        """The same as a line."""
        times, key = ",".join(map(str, self.times)), "%d-%s" % self.key + ("-%d" % self.inode if self.inode else "")
        words = ["@", number, self.lines, self.nowhere, self.back, self.begun, times, key, self.words, self.path]
        return "\t".join(map(str, words)).encode()


def append(
    folder: bytes, lines: Iterable[bytes], sync: bool = True, since: Optional[int] = None, name: bytes = LEDGER
) -> int:
    """Appends lines to the ledger of a folder, or to another file there, which are on the disk when this returns,
    unless they need no sync. Returns its size then. A line that was cut before is ended first. Raises Fault if that
    fails, or if another process has begun a batch since the ledger had a size."""
    path = os.path.join(folder, name)
    flags = os.O_RDWR | os.O_APPEND | os.O_CREAT | os.O_NOFOLLOW | os.O_NONBLOCK | os.O_CLOEXEC
    with naming(path, Reason.LEDGER):
        number = os.open(path, flags, 0o600)
        try:
            if since is not None:
                want_alone(number, folder, since)
            state = os.fstat(number)
            want_trusted(path, state)
            if state.st_size and os.pread(number, 1, state.st_size - 1) != b"\n":
                write_all(number, CUT + b"\n")
            piece = bytearray()
            for line in lines:
                piece += line
                if len(piece) >= PIECE:
                    write_all(number, bytes(piece))
                    piece.clear()
            write_all(number, bytes(piece))
            # others may append meanwhile: what is of this size is on the disk then
            size = os.fstat(number).st_size
            if sync:
                os.fsync(number)
            return size
        finally:
            os.close(number)


def want_alone(number: int, folder: bytes, since: int) -> None:
    """Locks the open file of a ledger, until it is closed. Raises Fault if a batch was begun since it had a size: two
    Maildirs may share a folder by a symbolic link, and its batches would have the same numbers."""
    try:
        fcntl.flock(number, fcntl.LOCK_EX)
    except OSError as fault:
        if fault.errno not in WITHOUT_LOCKS:
            raise
    *lines, _ = os.pread(number, max(0, os.fstat(number).st_size - since), since).split(b"\n")
    if any(map(BATCH.match, lines)):
        raise Fault(AT_WORK % named(folder), Reason.LOCKED)


def digest_at(digests: Union[bytes, bytearray], at: int) -> bytes:
    """The digest at a place, of digests one after the other."""
    return bytes(digests[at * SHORT : (at + 1) * SHORT])


def counted_in(digests: bytearray, wanted: Optional[Container[bytes]] = None) -> collections.Counter[bytes]:
    """How often each digest, or each of those that are wanted, is among digests one after the other."""
    several = (digest_at(digests, at) for at in range(len(digests) // SHORT))
    return collections.Counter(several if wanted is None else (one for one in several if one in wanted))


def was_cut(line: bytes) -> bool:
    """Whether a line, without its end, was cut, or a power cut has taken bytes of it: then it counts for nothing."""
    return line.endswith(CUT) or b"\0" in line


def lines_in(folder: bytes, name: bytes = LEDGER) -> Iterator[bytes]:
    """The lines of the ledger of a folder, or of another file there; none if there is no such file. A last one that was
    cut does not count. Raises Fault if others may have written to it."""
    for text in texts_in(folder, name):
        yield from text.split(b"\n")[:-1]


def texts_in(folder: bytes, name: bytes = LEDGER) -> Iterator[bytes]:
    """The same, many lines at a time, with their ends."""
    path = os.path.join(folder, name)
    with naming(path, Reason.LEDGER):
        try:
            file = open(path, "rb", opener=lambda name, flags: os.open(name, flags | os.O_NOFOLLOW | os.O_NONBLOCK))
        except (FileNotFoundError, NotADirectoryError):
            return
    with file:
        want_trusted(path, os.fstat(file.fileno()))
        if OF_ANOTHER.match(file.peek(PIECE)):
            raise Fault(BY_ANOTHER, Reason.LEDGER, place=path)
        for lines in iter(lambda: file.readlines(PIECE), []):
            yield b"".join(lines[:-1] if not lines[-1].endswith(b"\n") else lines)


def pieces_in(folder: bytes) -> Iterator[Piece]:
    """The lines of the ledger of a folder, with their ends."""
    return itertools.chain.from_iterable(map(pieces_of, texts_in(folder)))


def pieces_of(text: bytes) -> Iterator[Piece]:
    """The same of some whole lines."""
    for part in filter(None, OTHER_LINE.split(text)):
        several = Messages.parse(part)
        if several or part.count(b"\n") == 1:
            yield part, several
            continue
        # one of them only looks like that of a message
        for line in part.split(b"\n")[:-1]:
            yield line + b"\n", Messages.parse(line + b"\n")


def want_trusted(path: bytes, state: os.stat_result, reason: Phrase = Reason.LEDGER, is_own: bool = False) -> None:
    """Raises Fault unless the file of a path that has this state is a regular file without another name that others
    cannot write, of the owner of its folder or of the user who runs this; or of that one alone."""
    owners = {os.geteuid()} if is_own else {os.geteuid(), os.stat(os.path.dirname(path)).st_uid}
    is_ours = state.st_uid in owners and state.st_nlink > 0
    if not stat.S_ISREG(state.st_mode) or not is_ours or state.st_mode & 0o022:
        raise Fault(NOT_TRUSTED, reason, place=path)
    if state.st_nlink > 1:
        raise Fault(LINKED, reason, place=path)
