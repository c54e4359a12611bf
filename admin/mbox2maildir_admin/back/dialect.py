"""A message as `back` appends it: `written` does all that makes it of a file, for a mailbox in a dialect.

`migrate` reads the flags of a mail program only if each message has its fields. Those that a message has already are
taken out only there: elsewhere they may be its sender's.
"""
import contextlib
import io
import itertools
import os
import re
import time
from collections.abc import Sequence
from typing import NamedTuple, Optional

from ..flags.clients import CLIENTS, EVOLUTION, THUNDERBIRD, kept_in
from ..kinds.starts import OPENING
from ..maildir.files import letters_of, mail_in
from ..mbox.bases import before_info
from ..mbox.core import forms_of
from ..mbox.dates import TOO_LATE
from ..mbox.fields import OF_EVOLUTION, OF_GMAIL, OF_THUNDERBIRD, OUT_OF_APPENDED, WRITTEN, headers_at, pattern_of
from ..mbox.files import open_file
from ..mbox.inventory import Inventory
from ..mbox.mailbox import Mailbox
from ..mbox.pieces import header_of
from ..readings.reading import BY_LENGTHS, CR, CRLF, MBOXCL2, MBOXO, UNQUOTED, Reading
from .mails import Mail

FROM, FROM_OR_QUOTED = re.compile(rb"^(?=From )", re.M), re.compile(rb"^(?=>*From )", re.M)
RETURN_PATH = re.compile(rb"^Return-Path:[ \t]*<?([!-;=?-~]{1,256})>?[ \t]*\r?$", re.I | re.M)
NOBODY = b"MAILER-DAEMON"
# the first day and the last one of which each program knows what a date means; midnight of January 1, 1970 means none
FIRST_TIME, LAST_TIME = 1, TOO_LATE - 86400
# the names of the fields of mail programs, in lower case
BY_THUNDERBIRD, BY_EVOLUTION, BY_GMAIL = CLIENTS
KEPT: dict[str, tuple[bytes, ...]] = {BY_THUNDERBIRD: OF_THUNDERBIRD, BY_EVOLUTION: OF_EVOLUTION, BY_GMAIL: OF_GMAIL}
# the number that Evolution gave a message, which no other one of the mailbox has
EVOLUTION_NUMBER = re.compile(rb"^X-Evolution:[ \t]*([0-9a-f]{8})-", re.I | re.M)
# what Gmail's numbers have fewer bits than
THREAD_BITS = 63


class Letter(NamedTuple):
    """A message for a mailbox: its bytes, its flags, whether a reader has met it, and the time of its file, which
    its From_ line has, in seconds since 1970."""

    text: bytes
    flags: str = ""
    is_old: bool = False
    time: int = FIRST_TIME

    @classmethod
    def of(cls, folder: bytes, mail: Mail) -> Optional["Letter"]:
        """The message of a file, which programs may have renamed; None if it was removed meanwhile."""
        # the folder is listed only if the name has changed
        for name, path in itertools.chain([(mail.name, mail.path)], mail_in(folder)):
            if before_info(name) != mail.before:
                continue
            with contextlib.suppress(FileNotFoundError), open_file(path, os.O_NOFOLLOW) as file:
                is_old = os.path.basename(os.path.dirname(path)) == b"cur"
                return cls(file.readall(), letters_of(name), is_old, mail.time)
        return None

    def fields_to_write(self, length: Optional[int]) -> list[bytes]:
        """Its fields in any mailbox, also that of the length of its body, if it has one there."""
        said = {name: says(self.flags, self.is_old, length) for name, says in WRITTEN.items()}
        return [b"%s: %s" % (name, value) for name, value in said.items() if value]


class Dialect(NamedTuple):
    """How a mailbox is written: by the word of its reading, and whether its lines end in CR LF."""

    word: str
    crlf: bool

    @classmethod
    def of_words(cls, words: str) -> Optional["Dialect"]:
        """The dialect of a mailbox that is read by these words. None if nothing can be written so that it is read back:
        lines or labels decide, or nothing that looks like the beginning of a mail is quoted."""
        reading = Reading.of_words(words)
        if reading.word in ("", UNQUOTED) or reading.ends == CR or any((reading.text, reading.begin, reading.part)):
            return None
        return cls(reading.word, reading.ends == CRLF)

    def quoted(self, text: bytes) -> bytes:
        """A text whose last line has ended, with a `>` before each line that needs one."""
        text += b"\n" * (text != b"" and not text.endswith(b"\n"))
        if self.word == MBOXCL2:
            return text
        return (FROM if self.word == MBOXO else FROM_OR_QUOTED).sub(b">", text)

    def length_of(self, body: bytes) -> Optional[int]:
        """The length of a body that is quoted; None if lengths do not count."""
        return len(body) + body.count(b"\n") * self.crlf if self.word in BY_LENGTHS else None

    def gaps_after(self, end: bytes) -> tuple[bytes, ...]:
        """What may be missing before a From_ line after a text that ends so. By its length, the last message may lack
        the end of its last line, and the text has that in place of an empty line."""
        line_end = b"\r\n" if self.crlf else b"\n"
        if not end or end.endswith((b"\n\n", b"\n\r\n")):
            return (b"",)
        if not end.endswith(b"\n"):
            return (line_end * 2,)
        return (line_end, b"") if self.word in BY_LENGTHS else (line_end,)


def parted(text: bytes) -> tuple[bytes, bytes, bytes]:
    """The header of a message, the empty line after it, and the body."""
    end, body = header_of(text, 0)
    return text[:end], text[end:body], text[body:]


def date_of(seconds: int) -> bytes:
    """A time as From_ lines have it, in the zone of this machine."""
    return time.asctime(time.localtime(min(max(seconds, FIRST_TIME), LAST_TIME))).encode()


class Client(NamedTuple):
    """The program that keeps flags in a mailbox, if one does, and the highest number that it has given."""

    program: str = ""
    last: int = 0

    @classmethod
    def of(cls, mailbox: Mailbox, inventory: Inventory) -> "Client":
        """That of a text with these messages."""
        kept = kept_in(mailbox, inventory) if len(inventory) else None
        if not kept:
            return cls()
        found = filter(None, map(EVOLUTION_NUMBER.search, headers_at(mailbox, inventory.offsets[:-1])))
        return cls(kept.program, max((int(one[1], 16) for one in found), default=0))

    def cleared(self, header: bytes) -> tuple[bytes, Sequence[bytes]]:
        """A header without the fields of this program, and without those that no message brings into any mailbox;
        and the names of these."""
        fields = pattern_of((*OUT_OF_APPENDED, *KEPT.get(self.program, ())))
        taken = [found[0].split(b":")[0].strip() for found in fields.finditer(b"\n" + header)]
        return fields.sub(b"", b"\n" + header)[1:], taken

    def fields_to_write(self, flags: str, core: bytes, number: int) -> list[bytes]:
        """The fields for a message with these flags and this core, which is the one of this number that goes back."""
        if self.program == BY_THUNDERBIRD:
            return [b"X-Mozilla-Status: %04x" % bits_of(flags, THUNDERBIRD), b"X-Mozilla-Status2: 00000000"]
        if self.program == BY_EVOLUTION:
            return [b"X-Evolution: %08x-%04x" % (self.last + number, bits_of(flags, EVOLUTION))]
        if self.program == BY_GMAIL:
            # the thread is of this message alone
            thread = int.from_bytes(core, "big") >> 1 & (1 << THREAD_BITS) - 1
            labels = [b"Opened" if "S" in flags else b"Unread", *[b"Starred"] * ("F" in flags)]
            return [b"X-GM-THRID: %d" % thread, b"X-Gmail-Labels: " + b",".join(labels)]
        return []


def bits_of(flags: str, table: dict[int, str]) -> int:
    """The number whose bits give these flags."""
    return sum(bit for bit, flag in table.items() if flag in flags)


def forms_of_letter(text: bytes) -> tuple[bytes, Sequence[bytes]]:
    """The core of a message whose last line has ended, as it has in a mailbox; and the bare forms in which one may give
    it back."""
    pairs = [forms_of(io.BytesIO(one).read) for one in ([text] if text.endswith(b"\n") else [text, text + b"\n"])]
    return pairs[-1][0], [bare for _, bare in pairs]


class Written(NamedTuple):
    """A message as a mailbox is to have it: its bytes there, its core, the bare forms in which the mailbox may give it
    back, and the names of the fields that it lacks then."""

    text: bytes
    core: bytes
    bares: Sequence[bytes]
    taken: Sequence[bytes]


def written(
    letter: Letter, dialect: Dialect, client: Client = Client(), number: int = 1, noted: Sequence[bytes] = ()
) -> Written:
    """A message in a dialect: the From_ line, the header, the body, and the line that ends it. Fields that programs
    wrote are taken out, new ones come first: those in which something is noted for Dovecot, those of the client, to
    which it is the message of this number, and those that any mailbox has."""
    header, gap, body = parted(letter.text)
    header, taken = client.cleared(header)
    core, bares = forms_of_letter(header + gap + body)
    sender = RETURN_PATH.search(header)
    from_line = b"From %s %s\n" % (sender[1] if sender else NOBODY, date_of(letter.time))
    header, body = dialect.quoted(header), dialect.quoted(body)
    # a Takeout's messages begin with Gmail's. Each of these fields is one that no core has (`mbox/fields.py`)
    fields = [*noted, *client.fields_to_write(letter.flags, core, number)]
    fields += letter.fields_to_write(dialect.length_of(body))
    text = b"".join([from_line, with_fields(header, fields), gap, body, b"\n"])
    return Written(text.replace(b"\n", b"\r\n") if dialect.crlf else text, core, bares, taken)


def with_fields(header: bytes, fields: Sequence[bytes]) -> bytes:
    """A header with these fields, so that a From_ line before it is certainly one."""
    end = b"\r\n" if header.endswith(b"\r\n") else b"\n"
    text = b"".join(field + end for field in fields)
    # a line that begins with a blank would go on with a field
    if header.startswith((b" ", b"\t")):
        return header + text
    return (text if text or OPENING.match(header) else b"Status:" + end) + header
