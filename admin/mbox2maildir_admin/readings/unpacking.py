"""What a compressed mailbox, or one in UTF-16, holds, as a text without a name. It is counted before it is written, and
so looked at to its end: nothing that is cut or wrong becomes a text. Nor does what a stranger may have packed to fill a
disk and the memory."""
import bz2
import codecs
import lzma
import os
import shutil
import subprocess
import zlib
from collections.abc import Callable, Iterator
from typing import Any, NamedTuple

from ..faults import Left, Reason
from ..kinds.making import Makes
from ..kinds.others import Form
from ..maildir.disk import disk_of, not_enough, room_on
from ..mbox.files import BLOCK, Reader
from ..mbox.lines import Said
from ..mbox.mailbox import Mailbox
from ..progress import length
from ..signals import INTERRUPTS, failure_of, running
from ..units import LineNumber, Offset
from .copies import copy_of
from .plans import OtherKind

# a text of more bytes than this, and of more than this many times the bytes of its file, is unpacked by hand. Mail
# shrinks to a tenth or so
LARGE, TIMES = 1 << 28, 100
# how much memory a stream may need, in bytes; xz's own levels need 65 MiB at most
MOST_MEMORY = 1 << 28
# zlib's number for the format of gzip, with checks, and for its largest window
OF_GZIP = 16 + zlib.MAX_WBITS


class Member:
    """A member of gzip, with what the library's other streams have."""

    def __init__(self) -> None:
        self.stream, self.needs_input = zlib.decompressobj(OF_GZIP), True
        # whether it has ended, and what follows it in the data that it got
        self.eof, self.unused_data = False, b""

    def decompress(self, data: bytes, most: int) -> bytes:
        """Returns the next bytes, up to this many."""
        piece = self.stream.decompress(self.stream.unconsumed_tail + data, most)
        self.needs_input = not self.stream.unconsumed_tail and len(piece) < most
        self.eof, self.unused_data = self.stream.eof, self.stream.unused_data
        return piece


class Format(NamedTuple):
    """How streams of a form are read: what begins one, and its errors, with that of one that is incomplete; of how many
    NUL bytes a file may have any multiple after one, as padding; and whether another stream may follow these."""

    begin: Callable[[], Any]
    errors: tuple[type[Exception], ...]
    padding: int = 0
    goes_on: bool = True


FORMATS: dict[Form, Format] = {
    # gzip itself ignores NUL bytes only at the end
    Form.GZIP: Format(Member, (EOFError, zlib.error), padding=1, goes_on=False),
    Form.BZIP2: Format(bz2.BZ2Decompressor, (EOFError, OSError, ValueError)),
    Form.XZ: Format(lambda: lzma.LZMADecompressor(lzma.FORMAT_XZ, MOST_MEMORY), (EOFError, lzma.LZMAError), padding=4),
}


def streams_in(file: Reader, form: Format) -> Iterator[bytes]:
    """Everything that the streams of a file hold, piece by piece. Each stream must be complete, and right by its own
    checks, and only another stream may follow it: if something else follows, the library's own files and `bzip2 -t` end
    without an error."""
    number, rest = 0, b""
    while not number or rest:
        number, start, stream = number + 1, file.offset - len(rest), form.begin()
        try:
            while not stream.eof:
                data, rest = rest or (file.read(BLOCK) if stream.needs_input else b""), b""
                if not data and stream.needs_input:
                    raise EOFError("it is incomplete")
                yield stream.decompress(data, BLOCK)
        except form.errors as error:
            where = "could not read stream %d, which begins at byte %d" % (number, start + 1)
            raise Left("%s: %s" % (where, error), Reason.PACKED) from error
        rest = after_stream(file, form, stream.unused_data, number)


def after_stream(file: Reader, form: Format, rest: bytes, number: int) -> bytes:
    """The beginning of the stream that follows the one that was read; nothing at the end. `rest` was read already.
    Raises Left if anything else follows."""
    end = file.offset - len(rest)
    rest = rest or file.read(BLOCK)
    while rest and not rest.strip(b"\0"):
        rest = file.read(BLOCK)
    rest = rest.lstrip(b"\0")
    filled = file.offset - len(rest) - end
    is_right = filled % form.padding == 0 if form.padding else not filled
    if not is_right or rest and filled and not form.goes_on:
        why = "what follows stream %d, from byte %d on, is not a stream" % (number, end + 1)
        raise Left(why, Reason.PACKED)
    return rest


def unpack(mailbox: Mailbox, file: Reader, form: Form) -> Iterator[bytes]:
    """What a mailbox holds, piece by piece. It is read from this file, unless a program reads it. Raises Left if it is
    not complete, or not right."""
    if form in FORMATS:
        pieces = streams_in(file, FORMATS[form])
    else:
        pieces = decoded(file, form.encoding) if form.encoding else given_by(form.program, mailbox)
    for piece in pieces:
        mailbox.say("unpacking")
        yield piece
    mailbox.check()


def decoded(file: Reader, encoding: str) -> Iterator[bytes]:
    """A text in UTF-8."""
    decoder, block = codecs.getincrementaldecoder(encoding)(), b" "
    begins = 0
    try:
        while block:
            waiting = len(decoder.getstate()[0])
            block = file.read(BLOCK)
            begins = file.offset - len(block) - waiting
            yield decoder.decode(block, not block).encode()
    except UnicodeDecodeError as error:
        raise Left("could not decode byte %d: %s" % (begins + error.start + 1, error.reason), Reason.PACKED) from error


def given_by(name: str, mailbox: Mailbox) -> Iterator[bytes]:
    """What a program unpacks, since the library does not know the form. Raises Left if the program is not here, or
    finds anything wrong: its status is not 0 if a part of a file is wrong."""
    path = shutil.which(name)
    if not path:
        raise Left("could not find %s: install it, and run this again" % name, Reason.PACKED)
    os.lseek(mailbox.number, 0, os.SEEK_SET)
    with running(
        [os.fsencode(path), b"-dc"], stdin=mailbox.number, stdout=subprocess.PIPE, stderr=subprocess.DEVNULL
    ) as child, INTERRUPTS.let_through():
        assert child.stdout is not None, "it is a pipe"
        pipe = child.stdout.fileno()
        yield from iter(lambda: os.read(pipe, BLOCK), b"")
        failure = failure_of(child)
    if failure:
        raise Left("it is damaged or incomplete: `%s -dc` %s" % (name, failure), Reason.PACKED)


def unpacked(mailbox: Mailbox, form: Form, folder: bytes) -> Mailbox:
    """What a mailbox holds, as a text on the disk of a folder. Raises Left if that has no room for all of it."""
    room, most, size = room_on(disk_of(folder)), max(LARGE, TIMES * mailbox.size), 0
    mailbox.file.offset = Offset(0)
    for piece in unpack(mailbox, mailbox.file, form):
        size += len(piece)
        if size > most:
            says = "unpacked it has more than %s, and more than %d times its size" % (length(LARGE), TIMES)
            raise OtherKind(mailbox.path, Said(LineNumber(0), says), (Makes(form.unpacks),), Reason.PACKED, form.kind)
        if size > room:
            says = "unpacked it has more than the %s that are free" % length(room)
            raise Left(not_enough(folder, says), Reason.NO_ROOM)
    text = copy_of(mailbox, unpack(mailbox, mailbox.again(), form), folder)
    if text.size != size:
        raise Left("%s of its %s bytes were unpacked" % (text.size, size), Reason.PACKED)
    return text
