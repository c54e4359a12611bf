"""The copy of a mailbox in which each line `From ` begins a message, since all other ones are quoted.

`mbox2maildir convert` removes a `>` from each line of `>` and `From `. So in the copy such a line has one more `>`
unless the word of the reading removes one.
"""
import array
import itertools
import re
from collections.abc import Callable, Iterator
from typing import NamedTuple

from ..faults import Fault, Reason
from ..flags.clients import is_deleted
from ..kinds.starts import end_of_row
from ..mbox.dates import is_dated
from ..mbox.fields import Header, stripped_pieces
from ..mbox.mailbox import Mailbox, Watched
from ..mbox.pieces import FROM, Piece, header_of, pieces_of
from ..units import LineNumber, Offset, Size
from .copies import Copy
from .reading import BY_LENGTHS, CRLF, MBOXCL2, MBOXO, UNQUOTED, Reading

NOT_FIRST = "line %d: the text begins here, but no message begins with this line"
NO_FROM_LINE = "line %d: it neither begins with `From ` nor contains a From_ line"
# the lines of `>` and `From `, and those that mboxo does not write; what a line begins with that is in its place
ANY_QUOTE, ABOVE_MBOXO, IS_FROM = re.compile(rb"\n(?=>+From )"), re.compile(rb"\n(?=>>+From )"), re.compile(rb">*From ")
# how many bytes at the beginning and at the end of a line are looked at
MOST = 1 << 16


class Break(NamedTuple):
    """Where a text is parted within a line, since a message begins there: where the line before ends, where the From_
    line begins, its number, and what is added to the line before."""

    end: Offset
    start: Offset
    line: LineNumber = LineNumber(0)
    added: bytes = b""


def breaks_of(mailbox: Mailbox, lines: frozenset[LineNumber]) -> Iterator[Break]:
    """Where a text is parted, given the numbers of lines that begin messages by decision, of which some do not begin
    with `From `: a crash left NUL bytes before it, or a text without a last line end."""
    offsets = dict(mailbox.lines_with({*lines, *(line + 1 for line in lines)}))
    for line in sorted(lines & offsets.keys()):
        offset, end = offsets[line], offsets.get(LineNumber(line + 1), mailbox.size + 1) - 1
        nulls = end_of_row(mailbox, offset, b"\0")
        if nulls == offset and IS_FROM.match(mailbox.at(nulls, MOST)):
            continue
        begin = max(nulls, end - MOST)
        before, word, date = mailbox.at(begin, end - begin).rpartition(FROM)
        is_after_nulls = before.endswith(b"\0") or not before and nulls > offset
        if not word or not (is_after_nulls or is_dated(word + date)):
            raise Fault(NO_FROM_LINE % line, Reason.WRONG_LINES)
        rest = before.rstrip(b"\0")
        is_after_text = begin > nulls or bool(rest)
        end = begin + len(rest) if is_after_text else offset
        yield Break(Offset(end), Offset(begin + len(before)), line, b"\n" * is_after_text)


class Quoter:
    """Gives a text as it is read, and counts what it gave. For a copy that is kept, the fields are left out by which
    messages ended, as their lengths are wrong once lines are quoted."""

    def __init__(self, reading: Reading, mailbox: Mailbox, start: Offset, keeps_lengths: bool = True) -> None:
        self.reading, self.mailbox, self.start, self.keeps_lengths = reading, mailbox, start, keeps_lengths
        # lines that are quoted, and messages by Thunderbird's mark
        self.quoted = self.marked = self.deleted = 0
        # of the messages that are given: the lines in which they begin, and how many lines were quoted before each
        self.lines, self.quoted_before = array.array("Q"), array.array("Q")
        # bytes
        self.read = self.given = self.left_out = self.added = 0
        self.unmet = set(reading.text | reading.begin)
        # the offset at which the last message ends by its length, so that nothing before it begins one
        self.claimed = Offset(0)
        # whether the message is left out, whether a program has added a CR to each of its lines, and to how many
        self.is_dropped, self.is_crlf, self.crlf = False, False, 0

    def run(self) -> Iterator[bytes]:
        """The whole text. It is parted before each From_ line that begins within a line."""
        mailbox, start, line = self.mailbox, self.start, self.mailbox.line_at(self.start)
        for one in [*breaks_of(mailbox, self.reading.begin), Break(mailbox.end, mailbox.end)]:
            file = Watched(mailbox.number, Size(one.end), mailbox.digest, mailbox.say)
            file.offset = start
            blocks = itertools.chain(file.blocks(), filter(None, [one.added]))
            pieces = pieces_of(lambda _, blocks=blocks: next(blocks, b""), start)  # type: ignore[misc]
            for piece in pieces:
                data = self.piece(line, piece)
                line = LineNumber(line + piece.data.count(b"\n"))
                self.read, self.given = self.read + len(piece.data), self.given + len(data)
                yield data
            skipped, added, start, line = one.start - one.end, len(one.added), one.start, one.line
            self.read += skipped - added
            self.left_out += skipped
            self.added += added
        self.quoted_before.append(self.quoted)
        if self.unmet:
            raise Fault("line %d: it does not begin with `From `" % min(self.unmet), Reason.WRONG_LINES)
        self.mailbox.check()

    def piece(self, line: LineNumber, piece: Piece) -> bytes:
        """What is given of a piece, whose first line has this number. Its line `From ` begins a message or is quoted,
        and its other lines stay as they are read."""
        data, is_quoted = piece.data, False
        if piece.begins:
            self.unmet.discard(line)
            if self.begins(line, piece):
                data = self.begin(line, piece)
            elif piece.offset == self.start:
                raise Fault(NOT_FIRST % line, Reason.WRONG_LINES)
            else:
                is_quoted = True
        if self.is_dropped:
            self.left_out += len(data)
            return b""
        if self.is_crlf:
            # no piece ends between CR and LF
            self.left_out += data.count(b"\r\n")
            data = data.replace(b"\r\n", b"\n")
        word = self.reading.word
        if piece.has_quote and word in (MBOXO, MBOXCL2, UNQUOTED):
            # each line of `>` and `From ` that keeps all of its `>` gets one more
            every = word == UNQUOTED or word == MBOXCL2 and piece.offset < self.claimed
            data, count = (ANY_QUOTE if every else ABOVE_MBOXO).subn(b"\n>", b"\n" + data)
            data = data[1:]
            self.quoted += count
        self.quoted += is_quoted
        return b">" + data if is_quoted else data

    def begins(self, line: LineNumber, piece: Piece) -> bool:
        """Whether a line `From ` begins a message."""
        if line in self.reading.begin or line in self.reading.text:
            return line in self.reading.begin
        if self.reading.word == UNQUOTED:
            return is_dated(piece.from_line)
        return piece.offset >= self.claimed

    def begin(self, line: LineNumber, piece: Piece) -> bytes:
        """Begins a message, and returns what is given of its piece."""
        data, header = piece.data, Header.of(piece) if self.reading.word in BY_LENGTHS else None
        self.is_crlf = self.reading.ends == CRLF and piece.from_line.endswith(b"\r")
        self.crlf += self.is_crlf
        end = header.message_end(self.mailbox) if header else None
        self.claimed = end or Offset(0)
        header_end, _ = header_of(data, piece.mail_start)
        deleted = is_deleted(data[piece.mail_start : header_end])
        self.marked, self.deleted = self.marked + (deleted is not None), self.deleted + bool(deleted)
        self.is_dropped = self.reading.drop and bool(deleted)
        if not self.is_dropped:
            self.lines.append(line)
            self.quoted_before.append(self.quoted)
        if header and end and not self.keeps_lengths:
            left, right = (header.offset - piece.offset + place for place in header.span(b"content-length"))
            self.left_out += right - left
            data = data[:left] + data[right:]
        return data

    @property
    def messages(self) -> int:
        """How many messages were given so far."""
        return len(self.lines)

    def check(self, size: int, messages: int, *wanted: int) -> None:
        """Checks that what was written is what was read: the copy has this size, and as many messages as wanted. Raises
        Fault if not."""
        more, text = self.quoted + self.added, self.mailbox.size - self.start
        if size != self.given or size != self.read + more - self.left_out:
            says = "the copy has %d bytes, but %d were read, %d added and %d left out"
            raise Fault(says % (size, self.read, more, self.left_out), Reason.MISREAD)
        if self.read != text:
            raise Fault("%d of its %d bytes were read" % (self.read, text), Reason.MISREAD)
        if any(one != self.messages for one in (messages, *wanted)):
            says = "the copy has %d messages, but %d were counted" % (messages, self.messages)
            raise Fault(says + "".join(", and %d expected" % one for one in wanted), Reason.MISREAD)


def give_all(quoter: Quoter, take: Callable[[bytes], object], is_stripped: bool) -> int:
    """Gives a text as it is read, stripped or not, to a function that takes bytes. Returns how many it was given."""
    read, given = quoter.run(), 0
    if is_stripped:
        several = filter(None, read)
        read = (piece.data for piece in stripped_pieces(pieces_of(lambda _: next(several, b""))))
    for data in read:
        take(data)
        given += len(data)
    return given


def write_copy(reading: Reading, mailbox: Mailbox, start: Offset, wanted: int, copy: Copy, is_stripped: bool) -> Quoter:
    """Writes a copy without correct lengths that has as many messages as wanted, stripped or not, and gives it its
    name. Returns its Quoter."""
    quoter = Quoter(reading, mailbox, start, keeps_lengths=False)
    given = give_all(quoter, copy.write, is_stripped)
    size, messages = copy.written()
    quoter.check(quoter.given - given + size, messages, wanted)
    copy.place(mailbox.copied or mailbox.state)
    return quoter
