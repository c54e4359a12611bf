"""The sorts of odd lines in an mbox text: what is said of each, which of them nobody but a human decides, and to which
lines an answer about these is tied.

A tie is a digest over what the text is and, for each doubtful line in order, its number among them, why it is doubtful,
and the line with a few around it, as far as the lines `From ` before and after it. Header fields that mail programs
write for themselves do not count among these. So a tie stays the same while nothing else is doubtful, whatever is
delivered, or noted in headers. The tie of an answer that names lines is over the numbers of all these lines too.
"""
import array
import functools
import hashlib
from collections.abc import Container, Mapping
from typing import NamedTuple, Optional

from ..mbox.fields import NOTED_FIELD
from ..mbox.files import LONG
from ..mbox.lines import AROUND
from ..mbox.mailbox import Mailbox
from ..mbox.pieces import FROM, Piece
from ..units import LineNumber, Offset

# the lines within messages with correct lengths that look like From_ lines, by a date or by what follows; all lines
# `From ` within such messages; those that count as the beginnings of messages, but may be text; and all about which it
# is doubtful what they are
MAY_BE_MAIL = ("inside, dated", "inside, like mail")
INSIDE = ("inside", *MAY_BE_MAIL)
MAY_BE_TEXT = ("odd", "doubtful", "unmarked")
DOUBTFUL = (*MAY_BE_MAIL, "text", *MAY_BE_TEXT)
# what is said of the lines of a sort, in this order; {} stands for the number of another line
SAID = {
    "holds mail": "a From_ line with a CR, a NUL byte or more than %d bytes may contain mail" % LONG,
    "inside, dated": "a From_ line with a date, but within the message of line {}, by its length",
    "inside, like mail": "like a From_ line without a date, but within the message of line {}, by its length",
    "inside": "within the message of line {}, by its length",
    "wrong": "a Content-Length that does not lead to a From_ line",
    "text": "a line `From ` without a date at its end",
    "odd": "a line `From ` with a date, but no header after it",
    "doubtful": "a line `From ` without a date at its end, which may begin a message",
    "unmarked": "a line `From ` with a date, but without the X-Mozilla-Status or X-GM-THRID of the others",
    "joined": "a message may begin in the middle of this line",
    "undated": "a From_ line without a date",
    "deleted": "this message is marked as deleted",
    "CR LF": "a From_ line that ends in CR LF",
    "CR in text": "the first message line that ends in CR LF; these line ends are kept",
    "quoted twice": "it loses a `>`, which is wrong if this is mboxo (`--as mboxo`)",
    "quoted, by length": "it loses its `>`, which is wrong if nothing is escaped (`--as mboxcl2`)",
    "internal": "a note that an IMAP server wrote for itself; it is delivered as mail",
    "no end": "the last line has no line end: check that the file is complete",
    "cut": "the last line has no line end, and the length of its message says that more is missing",
}
# the sorts because of which a text is not converted as it is, in the order in which they are to be looked at
KEEPING = (
    (*MAY_BE_MAIL, "odd", "doubtful", "unmarked", "joined"),
    ("inside", "text"),
    ("holds mail",),
    ("cut",),
    ("deleted",),
)
# the sorts that contradict a word
AGAINST = {
    "mboxrd": "against each line",
    "mboxo": "against each line",
    "mboxcl": "against lengths",
    "mboxcl2": "against lengths",
    "unquoted": "against dates",
}
# why a line is doubtful: it may begin a message, it does if no From_ line has a date, its message is marked as deleted,
# it is cut, or it has no mark of a program, although nearly all others have one
MAY_BEGIN, LIKE_FIRST, DELETED, CUT, UNMARKED = range(5)
# the sorts of lines `From ` that begin messages, and of those about which that is doubtful
CERTAIN = "dated", "undated"
ASKED_ABOUT = "inside", *DOUBTFUL, "like the first"
# how many digits of a SHA-256 a tie has
DIGITS = 16
# how many bytes before and after a line are looked at
NEAR = 8 * LONG


class Ties(NamedTuple):
    """The tie of an answer that names no lines, and that of one which does; and how many of the first lines have a tie
    of the first sort, as all lines have before a mailbox grows."""

    messages: str
    numbers: str
    first: Mapping[str, int]


class Doubts:
    """The doubtful lines of a text, while it is looked at."""

    def __init__(self, mailbox: Mailbox) -> None:
        self.mailbox = mailbox
        # of each line: why it is doubtful, and its offset
        self.whys, self.offsets = array.array("B"), array.array("Q")
        self.known: Optional[Ties] = None

    def take(self, sort: str, piece: Piece, holds_mail: bool) -> None:
        """Takes a line `From ` of this sort, which may hold mail."""
        if sort in ASKED_ABOUT or sort in CERTAIN and holds_mail:
            is_like_first = sort == "like the first" and not holds_mail
            self.add(piece.offset, LIKE_FIRST if is_like_first else MAY_BEGIN)

    def add(self, offset: Offset, why: int = MAY_BEGIN) -> None:
        """Adds the line that has an offset."""
        self.offsets.append(offset)
        self.whys.append(why)

    def add_unmarked(self, offset: Offset) -> None:
        """Adds a message without a mark, unless something else is doubtful about its line."""
        if not self.offsets or self.offsets[-1] != offset:
            self.add(offset, UNMARKED)

    def unmarked(self, last: Offset) -> "array.array[int]":
        """Where the messages without a mark begin before the last one that has a mark."""
        rows = zip(self.whys, self.offsets)
        return array.array("Q", (offset for why, offset in rows if why == UNMARKED and offset < last))

    def end(self, have_dates: bool, are_deleted: bool, unmarked: Container[int]) -> None:
        """Ends the text. If no From_ line has a date, those like the first one are certain; marks of deleted mail count
        only if each message has one; and of those without a mark, only some are doubtful."""
        dropped = {*([] if have_dates else [LIKE_FIRST]), *([] if are_deleted else [DELETED])}
        rows = zip(self.whys, self.offsets)
        self.whys, self.offsets = array.array("B"), array.array("Q")
        for why, offset in rows:
            if why not in dropped and (why != UNMARKED or offset in unmarked):
                self.whys.append(why)
                self.offsets.append(offset)

    @functools.cached_property
    def lines(self) -> "array.array[int]":
        """Their numbers. The text is read again for them, which only a question needs."""
        lines = array.array("Q", self.mailbox.lines_at(self.offsets))
        self.mailbox.check()
        return lines

    def after(self, count: int) -> list[tuple[LineNumber, Offset]]:
        """The lines after the first ones that may begin messages, and where each begins."""
        rows = zip(self.lines[count:], self.whys[count:], self.offsets[count:])
        begin = MAY_BEGIN, LIKE_FIRST, UNMARKED
        return [(LineNumber(line), Offset(offset)) for line, why, offset in rows if why in begin]

    def ties(self, what: str) -> Ties:
        """The ties of the text, which is this."""
        if self.known is None:
            messages, numbers = hashlib.sha256(what.encode()), hashlib.sha256(b"lines of " + what.encode())
            first = {}
            for number, (line, why, offset) in enumerate(zip(self.lines, self.whys, self.offsets)):
                shown = hashlib.sha256(around(self.mailbox, offset)).hexdigest()
                entry = b"\n%d %d %s " % (number, why, shown.encode())
                messages.update(entry)
                numbers.update(entry + b"%d" % line)
                first[messages.hexdigest()[:DIGITS]] = number + 1
            self.known = Ties(messages.hexdigest()[:DIGITS], numbers.hexdigest()[:DIGITS], first)
        return self.known


def around(mailbox: Mailbox, offset: int) -> bytes:
    """The line that has an offset, parted there, with those around it: back to a line `From `, and on up to the next
    one, without empty ones at the end."""
    begin = max(0, offset - NEAR)
    text = b"\n" * (begin == 0) + mailbox.at(begin, offset - begin)
    text = text[max(0, text.find(b"\n", text.rfind(b"\n" + FROM) + 1)) :]
    before = NOTED_FIELD.sub(b"", text).split(b"\n")[1:][-AROUND - 1 :]
    own, end, rest = mailbox.at(offset, NEAR).partition(b"\n")
    after = NOTED_FIELD.sub(b"", (end + rest).split(b"\n" + FROM, 1)[0]).split(b"\n")[1:][:AROUND]
    return b"\n".join([*before, b"", own, *b"\n".join(after).rstrip(b"\n").split(b"\n")])
