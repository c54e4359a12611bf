"""What a look at an mbox text shows: how many messages it has, and which of its lines are odd."""
import collections
import functools
import re
from collections.abc import Callable, Iterator, Mapping, Sequence
from typing import Optional

from ..flags.clients import are_few, is_deleted
from ..flags.dovecot_headers import internal_head
from ..mbox.dates import is_dated
from ..mbox.fields import LENGTH, Header
from ..mbox.files import LONG
from ..mbox.inventory import NOTE, WithPlain, has_marks, may_hold_mail, plain_of
from ..mbox.lines import AskedAbout, Lines, Said
from ..mbox.mailbox import Mailbox
from ..mbox.pieces import FROM, Piece, header_of
from ..terminal import NAMED
from ..units import LineNumber, Offset
from .doubts import AGAINST, CUT, DELETED, DOUBTFUL, KEEPING, MAY_BE_MAIL, SAID, Doubts
from .starts import ADDRESS, OPENING, Ending, end_of_row, ending_of, is_after_blank, joins_in, may_be_mail, shape_of

GIT = re.compile(rb"From [0-9a-f]{40,64} Mon Sep 17 00:00:00 2001\r?\Z")
# the words by which a line `From ` is quoted
QUOTED_LINE = re.compile(rb"\n(>+)From [^\n]*")
# what a line has before its end
IN_LINE = bytes(byte for byte in range(256) if byte != ord("\n"))


def signs_of(mailbox: Mailbox, piece: Piece) -> tuple[bool, bool]:
    """Whether the line `From ` of a piece has a date, and whether a header follows it."""
    data, begin = piece.data, piece.mail_start
    if begin == len(data) and not piece.ends:
        data, begin = mailbox.at(end_of_row(mailbox, piece.offset, IN_LINE) + 1, LONG), 0
    return is_dated(piece.from_line), OPENING.match(data, begin) is not None


class Look:
    """What a look at an mbox text shows: how many messages it has, and its lines by what is odd about them."""

    def __init__(self, mailbox: Mailbox, start: Offset) -> None:
        self.mailbox, self.start, self.messages = mailbox, start, 0
        # whether NUL bytes come before the text
        self.after_nulls = start > 0 and mailbox.at(0, 1) == b"\0"
        # the lines, by their sorts
        self.seen: collections.defaultdict[str, Lines] = collections.defaultdict(Lines)
        # the offset of the message that ends by its length, and that at which it ends; the offset at which the body of
        # the last message begins, and whether a program has added CRs to it; and whether a message has no length
        self.claimed_by, self.claimed, self.body, self.is_crlf, self.without = Offset(0), 0, 0, False, False
        # whether the first message is the one by which Dovecot keeps an empty mailbox
        self.internal = bool(internal_head(mailbox, start)[0])
        self.doubts = Doubts(mailbox)
        # the messages with correct lengths, by their offsets, that have a line `>From `, and those that have a line
        # `From ` after a blank one, so that no program has escaped it
        self.with_quotes, self.unescaped = set[int](), set[int]()
        self.first_line = mailbox.from_line_at(start)
        # whether the length of the last message says that something is missing, and whether all was looked at
        self.is_cut = self.is_whole = False
        # the last message that has a mark of a program
        self.last_marked: Optional[Offset] = None

    def read(self) -> "Look":
        """Looks at the whole text."""
        for _ in self.passed():
            pass
        return self

    def read_begun(self) -> "Look":
        """Looks at as much of the text as shows its format."""
        for _ in self.passed():
            if self.may_need_no_copy:
                break
        return self

    @property
    def may_need_no_copy(self) -> bool:
        """Whether most likely no copy is made of the text, by what was seen of it so far: a message has no correct
        length, and no From_ line ends in CR LF. One is made all the same if a later one does, or if lines `From ` turn
        out to be text by the lengths of other messages."""
        lacks_length = self.without or self.count("wrong")
        return bool(not self.start and lacks_length and not self.count("CR LF"))

    def passed(self) -> Iterator[WithPlain]:
        """Looks at each piece of the text, and passes it on."""
        piece = None
        for piece in self.mailbox.pieces(self.start):
            plain = plain_of(piece)
            if plain and piece.offset >= self.claimed and piece.offset > self.start:
                # a plain message, but the first one
                self.seen["dated"].count += 1
                self.begin_message(piece, plain.end + 1, plain.is_marked)
            elif piece.begins:
                self.take_line(piece)
            if piece.has_from or not plain:
                self.text(piece)
            yield piece, plain
        # a message that ends there by its length is complete
        if piece and not piece.data.endswith(b"\n") and self.claimed != self.mailbox.end:
            self.seen["cut" if self.is_cut else "no end"].add(self.mailbox.end)
            if self.is_cut:
                self.doubts.add(self.mailbox.end, CUT)
        have_dates = self.count("dated") > 0
        self.seen["doubtful" if have_dates else "undated"].take(self.seen.pop("like the first", Lines()))
        unmarked = self.unmarked()
        for offset in unmarked:
            self.seen["unmarked"].add(offset, self.mailbox.from_line_at(offset))
        self.doubts.end(have_dates, self.are_deleted(), set(unmarked))
        self.mailbox.check()
        self.is_whole = True

    def text(self, piece: Piece) -> None:
        """Looks at lines of mail."""
        data = piece.data
        # the search for a single byte is the faster one by far
        if b"\r" in data and not self.is_crlf and not self.count("CR in text"):
            place = data.find(b"\r\n", piece.mail_start)
            if place >= 0:
                self.seen["CR in text"].add(piece.offset + place)
        if not piece.has_from:
            return
        for quote in QUOTED_LINE.finditer(b"\n" + data) if piece.has_quote else ():
            inside = piece.offset + quote.start() < self.claimed
            sort = "quoted twice" if len(quote[1]) > 1 else "quoted, by length" if inside else "quoted"
            self.seen[sort].add(piece.offset + quote.start(), quote[0][1:])
            if inside:
                self.with_quotes.add(self.claimed_by)
        for offset, from_line in joins_in(self.mailbox, piece, self.body):
            if offset >= self.claimed:
                self.seen["joined"].add(offset, from_line)
                self.doubts.add(offset)

    def take_line(self, piece: Piece) -> None:
        """Looks at a line `From `, and at the header after it."""
        from_line, inside = piece.from_line, piece.offset < self.claimed
        dated, has_header = signs_of(self.mailbox, piece)
        if inside:
            is_doubtful = not dated and may_be_mail(self.mailbox, piece, self.claimed)
            sort = "inside, dated" if dated else "inside, like mail" if is_doubtful else "inside"
            if is_after_blank(self.mailbox, piece):
                self.unescaped.add(self.claimed_by)
        else:
            sort = self.sort_of(piece, dated, has_header)
        by, is_lone = self.claimed_by if inside else None, not dated and not has_header
        self.seen[sort].add(piece.offset, from_line, by)
        self.doubts.take(sort, piece, may_hold_mail(from_line))
        # which words a line after the first contradicts, among those that say how a text was written
        for against, is_so in (
            ("against each line", inside or is_lone),
            ("against lengths", (has_header if dated else sort in MAY_BE_MAIL) if inside else is_lone),
            ("against dates", dated and not has_header),
        ):
            if is_so and piece.offset > self.start:
                self.seen[against].add(piece.offset, from_line, by)
        if not inside and sort != "text":
            self.message(piece, from_line)

    def sort_of(self, piece: Piece, dated: bool, has_header: bool) -> str:
        """What a line `From ` outside of correct lengths looks like: a From_ line that is "dated" or "undated"; an
        "odd" one without a header; a "doubtful" one without a date; one "like the first" that has no date either, which
        is "doubtful" if others have dates, or "undated"; or "text"."""
        is_first = piece.offset == self.start
        if dated:
            return "dated" if is_first or has_header or self.is_alone(piece) else "odd"
        if is_first:
            return "undated" if has_header else "text"
        blank = is_after_blank(self.mailbox, piece)
        if blank and (has_header or ADDRESS.match(piece.from_line)):
            is_like_first = has_header and self.count("undated") and shape_of(piece.from_line) == self.shape
            return "like the first" if is_like_first else "doubtful"
        self.seen["text after a blank line"].count += blank
        return "text"

    def is_alone(self, piece: Piece) -> bool:
        """Whether neither a header nor text follows a From_ line, but an empty line or the end."""
        end, body = header_of(piece.data, piece.mail_start)
        body, is_empty = piece.offset + body, not piece.data[piece.mail_start : end].strip(b"\r\n")
        is_there = body > piece.offset + piece.mail_start or body == self.mailbox.size
        rest = end_of_row(self.mailbox, Offset(body), b"\r\n")
        return is_there and is_empty and self.mailbox.at(rest, len(FROM)) in (b"", FROM)

    def message(self, piece: Piece, from_line: bytes) -> None:
        """Looks at the From_ line and at the header of a message."""
        if may_hold_mail(from_line):
            self.seen["holds mail"].add(piece.offset, from_line)
        elif from_line.endswith(b"\r"):
            self.seen["CR LF"].add(piece.offset, from_line[:-1])
        if GIT.match(from_line):
            self.seen["git"].add(piece.offset)
        begin = piece.mail_start
        end, body = header_of(piece.data, begin)
        self.begin_message(piece, body, has_marks(piece.data[begin:end]))
        self.is_crlf = from_line.endswith(b"\r")

    def begin_message(self, piece: Piece, body: int, is_marked: bool) -> None:
        """Begins a message, whose body begins at a place of its piece. Looks at what programs wrote into its header, if
        that has anything of it, and at its length."""
        # what a correct length has ended is whole
        header, is_after_whole = Header.of(piece) if is_marked else None, self.claimed > 0
        self.messages += 1
        self.claimed, self.claimed_by, self.body = 0, piece.offset, piece.offset + body
        self.is_cut = self.is_crlf = False
        if header and self.has_mark(header):
            self.last_marked = piece.offset
        elif self.last_marked is not None and not is_after_whole:
            self.doubts.add_unmarked(piece.offset)
        # most mail has nothing of it
        if not header:
            self.without = True
            return
        if NOTE in header.text and header[b"subject"] == NOTE:
            self.seen["internal"].add(piece.offset)
        end = header.message_end(self.mailbox)
        self.claimed = end or 0
        if end:
            self.seen["lengths"].add(piece.offset)
        elif end == 0:
            length = header[b"content-length"]
            self.is_cut = LENGTH.match(length) is not None and header.end + int(length) > self.mailbox.size
            self.seen["wrong"].add(header.offset + header.place(b"content-length"), b"Content-Length: " + length)
        elif not (self.internal and piece.offset == self.start):
            self.without = True

    def has_mark(self, header: Header) -> bool:
        """Whether a header has what Thunderbird or Gmail writes into each message."""
        is_of_gmail, deleted = bool(header[b"x-gm-thrid"]), is_deleted(header.text)
        if is_of_gmail:
            self.seen["Gmail"].add(self.claimed_by)
        if deleted is not None:
            self.seen["Thunderbird"].add(self.claimed_by)
        if deleted:
            self.seen["deleted"].add(header.offset + header.place(b"x-mozilla-status"))
            self.doubts.add(self.claimed_by, DELETED)
        return is_of_gmail or deleted is not None

    def unmarked(self) -> Sequence[int]:
        """Where messages without a mark begin that may be text of those before them: they lie between messages that
        have marks, and are few beside these."""
        found = self.doubts.unmarked(self.last_marked or Offset(0))
        return found if are_few(len(found), max(self.count("Thunderbird"), self.count("Gmail"))) else ()

    @functools.cached_property
    def shape(self) -> tuple[bytes, ...]:
        """What the first From_ line looks like without a date."""
        return shape_of(self.first_line)

    @property
    def ending(self) -> Optional[Ending]:
        """In what the From_ lines end, if none has a date as most have it."""
        return None if self.count("dated") else ending_of(self.first_line)

    def have_lengths(self) -> bool:
        """Whether each message has a correct length, except the one by which Dovecot keeps an empty mailbox."""
        return not self.without and not self.count("wrong") and self.count("lengths") > 0

    def shows_lengths(self) -> bool:
        """Whether lines `From ` within correct lengths are text although other messages have no length: neither they
        nor other lines may begin messages, all From_ lines have dates, and no `>` in a message with a length may be one
        that its delivery added."""
        is_plain = self.is_whole and not self.count(*DOUBTFUL, "wrong", "undated", "joined", "holds mail", "cut")
        return is_plain and self.count("inside") > 0 and self.with_quotes <= self.unescaped and not self.are_deleted()

    def ends_by_lengths(self) -> bool:
        """Whether messages end by their lengths: all of them are right, or a rule takes them for that."""
        return self.have_lengths() or self.shows_lengths()

    def count(self, *sorts: str) -> int:
        """How many lines are of these sorts."""
        return sum(self.seen[sort].count for sort in sorts)

    def numbers(self, *sorts: str) -> Optional[set[LineNumber]]:
        """The numbers of the lines of these sorts; None if there are too many of them."""
        numbers = {self.lines[offset] for sort in sorts for offset in self.seen[sort].offsets}
        return numbers if len(numbers) == self.count(*sorts) else None

    def first(self, sort: str) -> list[tuple[LineNumber, str, LineNumber]]:
        """The first lines of a sort, and what is said of each."""
        return [(self.lines[offset], text, self.lines[other]) for offset, text, other in self.seen[sort].first]

    @functools.cached_property
    def lines(self) -> Mapping[Optional[int], LineNumber]:
        """The numbers of the lines that were seen, by their offsets. Most mail has none of which anything is said."""
        several = self.seen.values()
        others = {other for lines in several for *_, other in lines.first if other is not None}
        offsets = sorted(others.union(*(lines.offsets for lines in several)))
        at: dict[Optional[int], LineNumber] = {None: LineNumber(0)}
        at.update(zip(offsets, self.mailbox.lines_at(offsets)))
        self.mailbox.check()
        return at

    def said(self, sort: str) -> list[Said]:
        """What is said of the first lines of a sort."""
        return [Said(line, SAID[sort].format(other), text) for line, text, other in self.first(sort)]

    def said_lines(self) -> Iterator[Said]:
        """What is said of lines."""
        if self.after_nulls:
            _, first, _ = self.first("dated")[0]
            says = "the mbox text begins here, at byte %d, after NUL bytes" % (self.start + 1)
            yield Said(LineNumber(1), says, first)
        elif self.start:
            yield Said(LineNumber(1), "a byte order mark or blank lines stand before the text")
        unsaid = [*["undated"] * bool(self.ending), *["quoted twice", "quoted, by length"] * self.ends_by_lengths()]
        for sort in (one for one in SAID if one not in unsaid):
            yield from self.said(sort)
            if self.count(sort) > NAMED:
                yield Said(LineNumber(0), "and %d more lines like the last one" % (self.count(sort) - NAMED))

    def are_deleted(self) -> bool:
        """Whether Thunderbird marked messages as deleted. Its marks count only if each message has one, but for those
        that are doubtful since they have none."""
        return self.count("deleted") > 0 and self.count("Thunderbird", "unmarked") == self.messages

    def keeping(self) -> AskedAbout:
        """The lines because of which the text cannot be read without a decision, and what is said of the first ones."""
        for sorts in KEEPING:
            found = [one for sort in sorts for one in self.said(sort)]
            if found and (sorts != ("deleted",) or self.are_deleted()):
                return AskedAbout(sorted(found), self.count(*sorts))
        return AskedAbout()

    def against(self, word: str) -> AskedAbout:
        """The lines that contradict a word that says how a text was written, and what is said of the first ones."""
        sort, found = AGAINST[word], []
        outside = ("a date at its end, but" if word == "unquoted" else "no date at its end and") + " no header after it"
        for line, text, by in self.first(sort):
            found.append(Said(line, SAID["inside"].format(by) if by else outside, text))
        return AskedAbout(found, self.count(sort))


# looks at as much of a text as is wanted
HowFar = Callable[[Look], Look]
