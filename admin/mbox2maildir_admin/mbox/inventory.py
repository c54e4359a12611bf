"""The messages of a text, in their order. Of most, which are plain, all is found out at once."""
import array
import functools
import hashlib
import os
import re
from collections.abc import Callable, Iterable, Iterator
from typing import NamedTuple, Optional

from .. import PROGRAM
from ..faults import Fault, Reason
from ..nexts import Does, Runs, run_next
from ..program import Listing
from ..terminal import operand
from ..units import Offset, Place
from .bases import Table
from .core import SHORT, Digests
from .dates import seconds_of, seconds_of_plain
from .fields import NAME, NOTED_FIELD, stripped_pieces
from .files import LONG, Reader
from .mailbox import Mailbox, lines_at
from .pieces import FROM, Piece, pieces_of

# stands for no date, since no text has a date so long ago
NO_DATE = -1 << 62
# a larger text may not be in memory any more: the order of files is not that of the messages on the disk, which takes
# longer to find them than a processor takes to hash the files
IN_MEMORY = 1 << 30
FIRST_QUOTE = re.compile(rb"\n>(?=>*From )")
# a From_ line that may hold no mail and is dated like most, and what begins the header after it
BEGINS = re.compile(
    rb"From [^:\0\r\n]{0,900}[ \t](\w{3} \w{3} [ \d]\d) ([01]\d|2[0-3]):([0-5]\d):([0-5]\d) (\d{4})\n"
    + rb"(?=%s)" % NAME
)
# the time that git writes into each From_ line, and the subject of a message that an IMAP server wrote for itself
GIT, NOTE = (b"Mon Sep 17", b"00", b"00", b"00", b"2001"), b"DON'T DELETE THIS MESSAGE -- FOLDER INTERNAL DATA"
# what a header has that is looked at, in lower case
MARKS = b"content-length", b"x-mozilla-status", b"x-gm-thrid", NOTE.lower()
DIFFERS = "line %%d: message %%d differs from what `%s list` gave" % PROGRAM


class Plain(NamedTuple):
    """What is known of a plain message, a whole one in whose From_ line and header nothing is odd: where its header
    begins, where that and the message end, its date, its header without what programs note, if they noted anything, and
    whether that is to be looked at."""

    mail_start: int
    end: int
    last: int
    date: int
    bare: Optional[bytes]
    is_marked: bool


# a piece of a text, and what is known of it if it is a plain message
WithPlain = tuple[Piece, Optional[Plain]]


def plain_of(piece: Piece) -> Optional[Plain]:
    """What is known of a piece that is a plain message; None if it is none."""
    data = piece.data
    found = BEGINS.match(data) if piece.begins and piece.ends else None
    if not found or b"\r" in data or not data.endswith(b"\n"):
        return None
    parts, mail_start = found.groups(), found.end()
    end = data.find(b"\n\n", mail_start) + 1
    date, header = seconds_of_plain(*parts), data[mail_start - 1 : end]
    is_odd = parts == GIT or NOTE in header or piece.has_from and FROM in header
    if date is None or not end or is_odd:
        return None
    bare, count = NOTED_FIELD.subn(b"", header)
    if count and len(bare) < 2:
        return None
    last, is_marked = len(data) - data.endswith(b"\n\n"), count > 0 and has_marks(header)
    return Plain(mail_start, end, last, date, bare[1:] if count else None, is_marked)


def has_marks(header: bytes) -> bool:
    """Whether a header may have a mark of a program, or its length."""
    lower = header.lower()
    return any(mark in lower for mark in MARKS)


class Message(NamedTuple):
    """A message of a text, by the rules of mbox2maildir."""

    offset: Offset
    size: int
    # the digest of the message, and the first bytes of those of its core and of its bare form
    digest: bytes
    core: bytes
    bare: bytes
    # in seconds since 1970
    date: int
    holds_mail: bool
    # how many of its lines lose a `>`, and how many bytes of the text it is, with its From_ line and the blank line
    # after it
    unquoted: int
    read: int


def may_hold_mail(from_line: bytes) -> bool:
    """Whether a From_ line may hold mail: after a CR, after NUL bytes that a crash left, or since it is too long."""
    return b"\r" in from_line[:-1] or b"\0" in from_line or len(from_line) > LONG


def of_plain(piece: Piece, plain: Plain, with_cores: bool) -> Message:
    """The message that a piece is, of which this is known. What several forms of it begin with is hashed once, and
    nothing is copied."""
    data, (begin, end, last, date, bare, _) = memoryview(piece.data), plain
    of_core = of_bare = b""
    if with_cores:
        form = hashlib.sha256(data[begin:end] if bare is None else bare)
        core_end = len(piece.data[:last].rstrip(b"\n")) + 1 if piece.data.endswith(b"\n\n", 0, last) else last
        form.update(data[end:core_end])
        of_core = of_bare = form.digest()
        if core_end < last:
            form.update(data[core_end:last])
            of_bare = form.digest()
    digest = of_bare if with_cores and bare is None else hashlib.sha256(data[begin:last]).digest()
    return Message(piece.offset, last - begin, digest, of_core[:SHORT], of_bare[:SHORT], date, False, 0, len(data))


class Begun:
    """A message of which not all pieces were read."""

    def __init__(self, piece: Piece, with_cores: bool) -> None:
        self.offset, self.from_line, self.digests = piece.offset, piece.from_line, Digests(with_cores)
        self.unquoted = self.read = 0

    def take(self, piece: Piece) -> None:
        """Takes a piece. Of a quoted line the first `>` is left out, and of the message the blank line at its end."""
        begin, count = piece.mail_start, 0
        mail = piece.data[begin:]
        is_blank = piece.ends and (mail == b"\n" or mail.endswith(b"\n\n"))
        mail = mail[:-1] if is_blank else mail
        if piece.has_quote:
            mail, count = FIRST_QUOTE.subn(b"\n", b"\n" + mail)
            mail = mail[1:]
        self.digests.take(mail, piece.field)
        self.unquoted, self.read = self.unquoted + count, self.read + begin + len(mail) + count + is_blank

    def message(self) -> Message:
        """The whole message."""
        digests, date = self.digests, seconds_of(self.from_line)
        of_mail = digests.whole.digest(), *digests.end(), NO_DATE if date is None else date
        return Message(self.offset, digests.size, *of_mail, may_hold_mail(self.from_line), self.unquoted, self.read)


def messages_in(path: bytes, pieces: Iterable[WithPlain], with_cores: bool = False) -> Iterator[Message]:
    """The messages that consist of these pieces of a file at a path."""
    begun = None
    for piece, plain in pieces:
        if plain and not piece.has_quote:
            yield of_plain(piece, plain, with_cores)
            continue
        if piece.begins:
            begun = Begun(piece, with_cores)
        elif not begun:
            then = run_next(Runs.KIND, operand(path), does=Does.FIND_OUT)
            raise Fault("no From line at the start", Reason.NOT_KNOWN, then)
        begun.take(piece)
        if piece.ends:
            yield begun.message()


def messages_of(mailbox: Mailbox, start: Offset, is_stripped: bool = False) -> Iterator[Message]:
    """The messages of a text that begins at an offset, or those of its stripped text."""
    pieces = pieces_of(mailbox.again(start).read, start)
    return messages_in(mailbox.path, ((piece, None) for piece in (stripped_pieces(pieces) if is_stripped else pieces)))


class Inventory:
    """What is known of each message of a text, by its place: base, core, bare form, size, date and offset, and how many
    of its lines lose a `>`."""

    def __init__(self) -> None:
        self.table = Table()
        self.sizes, self.offsets, self.unquoted = array.array("Q"), array.array("Q"), array.array("Q")
        # the places of the messages whose From_ lines may hold mail
        self.may_hold_mail = array.array("Q")
        # the first bytes of the digests of their cores, and of their bare forms
        self.cores, self.bares = bytearray(), bytearray()
        # in seconds since 1970
        self.dates = array.array("q")
        # gives the lines in which they begin
        self.count_lines: Callable[[], Iterable[int]] = tuple

    @classmethod
    def read(
        cls,
        mailbox: Mailbox,
        start: Offset,
        listing: Optional[Listing],
        with_cores: bool = True,
        pieces: Optional[Iterable[WithPlain]] = None,
    ) -> "Inventory":
        """Reads a text from an offset on, or its pieces from there on as they are given. `listing` is what
        `mbox2maildir list` says of it, for comparison. Cores and bare forms, which a ledger needs, take a second digest
        of each message that has a noted field."""
        self, held = cls(), int(start)
        try:
            pieces = pieces or ((piece, plain_of(piece)) for piece in mailbox.pieces(start))
            for number, message in enumerate(messages_in(mailbox.path, pieces, with_cores), 1):
                base = self.table.add(message.digest)
                if listing and not listing.has(number, base, message.size):
                    raise Fault(DIFFERS % (mailbox.line_at(message.offset), number), Reason.MISREAD)
                self.add(message, with_cores)
                held += message.read
            if listing:
                listing.end()
        finally:
            # a difference may come from a change of the text
            mailbox.check()
        # what the mailbox has read last is not kept for that
        offsets, descriptor, size = self.offsets, mailbox.number, mailbox.size
        self.count_lines = lambda: lines_at(Reader(descriptor, end=size), offsets[:-1])
        offsets.append(mailbox.size)
        if held != mailbox.size:
            raise Fault("%d of its %d bytes belong to messages" % (held, mailbox.size), Reason.MISREAD)
        return self

    def add(self, message: Message, with_cores: bool) -> None:
        """Keeps what is known of the next message."""
        self.sizes.append(message.size)
        self.offsets.append(message.offset)
        self.unquoted.append(message.unquoted)
        if with_cores:
            self.cores += message.core
            self.bares += message.bare
        self.dates.append(message.date)
        if message.holds_mail:
            self.may_hold_mail.append(len(self.sizes) - 1)

    def __len__(self) -> int:
        return len(self.sizes)

    @functools.cached_property
    def lines(self) -> "array.array[int]":
        """The line in which each message begins. Only what is said of a message needs it, and to count lines takes
        long."""
        return array.array("Q", self.count_lines())

    def offset(self, place: Place) -> Offset:
        """The offset of the message at a place; at the place after the last message, the end of the text."""
        return Offset(self.offsets[place])

    def core(self, place: int) -> bytes:
        """The first bytes of the digest of the core of the message at a place."""
        return bytes(self.cores[place * SHORT : (place + 1) * SHORT])

    def bare(self, place: int) -> bytes:
        """The first bytes of the digest of its bare form."""
        return bytes(self.bares[place * SHORT : (place + 1) * SHORT])

    def digest_by(self, mailbox: Mailbox, place: int, number: int, state: os.stat_result) -> Optional[bytes]:
        """The digest of the message at a place of a text if an open file of this state has the bytes that the text has
        there, which did not change; None if that is not known: a line of the message may have lost a `>`."""
        if mailbox.size > IN_MEMORY or state.st_size != self.sizes[place] or self.unquoted[place]:
            return None
        begin = self.offsets[place] + len(mailbox.from_line_at(self.offsets[place])) + 1
        is_so = mailbox.has(begin, number, state.st_size) and not mailbox.has_changed()
        return self.table.digest(place) if is_so else None
