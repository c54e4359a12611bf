"""Header fields: those that mail programs write for themselves, a field's value, and the length of a message.

Dovecot's mbox driver keeps what it knows of a message in the message's header, and shows the mail without these fields.
A field begins at the beginning of a line, with its name, any blanks and tabs, and a colon that is near enough. The
lines after it that begin with a blank or a tab belong to it. The stripped text is a text without these fields, and the
bare form of a message is the message without all that programs note. A header ends at the first empty line, which
Dovecot writes without its CR, or at the next line `From `.
"""
import functools
import re
from collections.abc import Callable, Iterable, Iterator
from typing import Optional

from ..patterns import pattern
from ..units import Offset
from .mailbox import Mailbox
from .pieces import FROM, LONGEST_HEADER, LONGEST_NAME, Piece, header_of

# the letters of the flags of a Maildir in X-Status
X_STATUS = {"R": b"A", "F": b"F", "D": b"T", "T": b"D"}
# what `back` writes in any mailbox, in this order: by the name of a field, what it says by the flags of a message, by
# whether a reader has met it, and by the length of its body where lengths count. One that says nothing is not written
WRITTEN: dict[bytes, Callable[[str, bool, Optional[int]], bytes]] = {
    b"Status": lambda flags, is_old, length: b"R" * ("S" in flags) + b"O" * is_old,
    b"X-Status": lambda flags, is_old, length: b"".join(letter for flag, letter in X_STATUS.items() if flag in flags),
    b"Content-Length": lambda flags, is_old, length: b"" if length is None else b"%d" % length,
}
# names in lower case; letters may have either case. What Dovecot hides in a mailbox a Maildir would show, so --dovecot
# takes it out of files. In a mailbox it would count again, so `back` takes it out of what it appends, with all that it
# writes itself
HIDDEN = (b"content-length", b"status", b"x-imap", b"x-imapbase", b"x-keywords", b"x-status", b"x-uid")
OUT_OF_APPENDED = tuple(sorted({*HIDDEN, *map(bytes.lower, WRITTEN)}))
# what else mail programs note of a message: flags, tags and labels, and mutt the number of its lines
OF_THUNDERBIRD = b"x-mozilla-keys", b"x-mozilla-status", b"x-mozilla-status2"
OF_EVOLUTION = (b"x-evolution",)
OF_GMAIL = b"x-gm-thrid", b"x-gmail-labels"
NOTED = (*OUT_OF_APPENDED, b"lines", *OF_EVOLUTION, *OF_GMAIL, *OF_THUNDERBIRD)
# the name of a field in any text, with its colon
NAME = rb"[!-9;-~]+[ \t]*:"
# the value of a field after its colon, with the lines that continue it: a repeated group would keep a mark for each
VALUE = rb":([^\n]*(?:(?=\n[ \t])(?s:.*?)(?=\n(?![ \t])|\Z))?)"
ITS_VALUE = pattern(VALUE)
AFTER_MESSAGE = pattern(rb"(?:\r?\n)?(?P<begins>From )?")
LENGTH = pattern(rb"\d{1,18}\Z")


def pattern_of(names: tuple[bytes, ...]) -> re.Pattern[bytes]:
    """Finds a field of one of these names, with the end of the line before it. The pattern has the letters of both
    cases, since a search that ignores the case is slower, and looks at the first letter before it tries names."""
    firsts = b"".join(sorted({name[:1] + name[:1].upper() for name in names}))
    either = [re.sub(rb"[a-z]", lambda letter: b"[%s%s]" % (letter[0], letter[0].upper()), name) for name in names]
    begun = b"|".join(b"%s[ \t]{0,%d}" % (one, LONGEST_NAME - len(name) - 1) for one, name in zip(either, names))
    return pattern(b"\n(?=[%s])(?:%s)%s" % (firsts, begun, VALUE))


HIDDEN_FIELD, NOTED_FIELD = pattern_of(HIDDEN), pattern_of(NOTED)


def without(fields: re.Pattern[bytes], data: bytes, begin: int, end: int, begun: bytes) -> bytes:
    """A text without the fields of a header, which is between two places in it. It may go on with what has begun."""
    header, place = b"\n" + begun + data[begin:end], 0
    kept: list[bytes] = []
    for found in fields.finditer(header):
        kept.append(header[place : found.start()])
        place = found.end()
    if not kept:
        return data
    # a last line may have no end, and the line before keeps its own
    rest = b"".join([*kept, header[place:], b"\n" * (place == len(header))])
    return data[:begin] + rest[1 + len(begun) * bool(kept[0]) :] + data[end:]


def stripped(piece: Piece) -> bytes:
    """The stripped text of a piece."""
    if piece.field is None:
        return piece.data
    end, body = header_of(piece.data, piece.mail_start)
    text = without(HIDDEN_FIELD, piece.data, piece.mail_start, end, piece.field)
    if body - end < 2:
        return text
    # the empty line loses its CR
    place = len(text) - len(piece.data) + end
    return text[:place] + text[place + 1 :]


def stripped_pieces(pieces: Iterable[Piece]) -> Iterator[Piece]:
    """The pieces of a text, each with its stripped text."""
    return (piece._replace(data=stripped(piece)) for piece in pieces)


class Header:
    """The header of a message: its text, and where that and the body begin in the mailbox."""

    def __init__(self, text: bytes, offset: Offset, end: Offset) -> None:
        self.text, self.offset, self.end = text, offset, end

    @classmethod
    def of(cls, piece: Piece) -> "Header":
        """The header of a message that a piece begins."""
        begin, (end, body) = piece.mail_start, header_of(piece.data, piece.mail_start)
        return cls(piece.data[begin:end], Offset(piece.offset + begin), Offset(piece.offset + body))

    @classmethod
    def at(cls, mailbox: Mailbox, offset: Offset) -> "Header":
        """The header of the message whose From_ line is at an offset."""
        for count in (1 << 13, 1 << 16, LONGEST_HEADER):
            data = mailbox.at(offset, count)
            following = data.find(b"\n" + FROM) + 1
            header = cls.of(Piece(offset, data[: following or count], True, True))
            if following or len(data) < count or header.end < offset + count:
                break
        return header

    @functools.cached_property
    def lines(self) -> bytes:
        """Its lines in lower case: each name of a field is between a line end and a colon."""
        return b"\n" + self.text.lower()

    def place(self, name: bytes) -> int:
        """The offset in the text at which a field begins; -1 if there is none. If there are several, the last counts.
        The name is in lower case."""
        return self.lines.rfind(b"\n%s:" % name)

    def __getitem__(self, name: bytes) -> bytes:
        start, end = self.span(name)
        return self.text[start + len(name) + 1 : end].strip()

    def span(self, name: bytes) -> tuple[int, int]:
        """The offsets in the text at which a field begins, and at which it ends with its line end; 0 and 0 if there is
        none."""
        place = self.place(name)
        found = ITS_VALUE.match(self.text, place + len(name)) if place >= 0 else None
        return (place, min(found.end() + 1, len(self.text))) if found else (0, 0)

    def message_end(self, mailbox: Mailbox) -> Optional[Offset]:
        """The offset at which the message ends by its length. None if it has no length, 0 if its length leads to no
        From_ line."""
        if self.place(b"content-length") < 0:
            return None
        length = self[b"content-length"]
        end = self.end + int(length) if LENGTH.match(length) else mailbox.size + 1
        if end >= mailbox.size:
            return Offset(end if end == mailbox.size else 0)
        # at most one line end may follow, and then a From_ line or the end of the text; the line before has ended, or
        # ends here. If a program quoted a line of mail, the sender's length is short by a `>`, and then a blank line
        # follows too
        after = AFTER_MESSAGE.match(mailbox.at(end, 1 << 12))
        assert after is not None, "it matches nothing too"
        at_end = end + after.end() == mailbox.size
        ended = mailbox.at(end - 1, 1) == b"\n" or after.end() > len(after["begins"] or b"")
        return Offset(end if at_end or after["begins"] and ended else 0)


def headers_at(mailbox: Mailbox, offsets: Iterable[int]) -> Iterator[bytes]:
    """The headers of the messages whose From_ lines are at these offsets."""
    return (Header.at(mailbox, Offset(offset)).text for offset in offsets)
