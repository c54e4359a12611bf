"""A text in pieces of whole lines, parted before each line `From `. All else is read from these pieces."""
import re
from collections.abc import Callable, Iterator
from typing import NamedTuple, Optional

from ..patterns import pattern
from ..units import Offset
from .files import BLOCK, LONG

FROM = b"From "
# each From_ line has the word, and no search is faster; what follows it in its line is passed over
ANY_FROM, NEVER, LINE_END, QUOTE = re.compile(rb"From [^\n]*"), re.compile(rb"(?!)"), ord(b"\n"), ord(b">")
# how many bytes are read at a time, and up to how many a line `From ` with its header is kept in one piece, and a line
AT_ONCE, LONGEST_HEADER, LONGEST_LINE = BLOCK >> 3, 3 << 19, 1 << 18
# the end of a part of a longer line, before bytes that begin nothing, and not within a quoted word `From `
WITHIN_LINE = pattern(rb".*(?:[^>From\r\n](?=[^>F\r\n])|F(?=FF)|[^>]From(?= ))", re.DOTALL)
# what comes before the last field of a header
LAST_FIELD = pattern(rb".*\n(?=[^\t ])|\n", re.DOTALL)
# a colon must be within this many bytes of the line's beginning to end a name
LONGEST_NAME = 8191

# reads so many bytes of a text; none only at its end
Read = Callable[[int], bytes]


class Piece(NamedTuple):
    """Lines of a text. A line `From ` is only at the beginning of a piece, and the piece in which it ends has the
    header that follows."""

    offset: Offset
    data: bytes
    # whether it begins with a line `From `, and whether the next one does, or the text ends
    begins: bool
    ends: bool
    # whether `From ` is in it elsewhere, and whether that is so after a `>`
    has_from: bool = False
    has_quote: bool = False
    # of a piece that begins in a header or before one, what begins the last line `From ` or field before it
    begun: Optional[bytes] = None

    @property
    def mail_start(self) -> int:
        """Where the line `From ` ends, and the mail begins."""
        begun = self.begun or b""
        is_there = self.begins or begun.startswith(FROM) and b"\n" not in begun
        return (self.data.find(b"\n") + 1 or len(self.data)) if is_there else 0

    @property
    def field(self) -> Optional[bytes]:
        """What begins the field before the header of which it has something; None if it has nothing of one."""
        return b"" if self.mail_start else self.begun

    @property
    def from_line(self) -> bytes:
        """The line `From `, as far as anything reads it, without its end."""
        return self.data[: min(self.mail_start, LONG + 2)].split(b"\n")[0][: LONG + 1]


def pieces_of(read: Read, offset: int = 0, parted_at: re.Pattern[bytes] = ANY_FROM) -> Iterator[Piece]:
    """The pieces of a text, whose first byte has this offset. Most pieces are whole messages; a message of more than a
    block has several, the first with all of its header."""
    begun: Optional[bytes] = b""
    data, begins, has_from, has_quote, searched = b"", False, False, False, 0
    while True:
        block = read(max(AT_ONCE, len(data)))
        data, at = data + block if data else block, 0
        begins = begins or begun is not None and data.startswith(FROM)
        for found in parted_at.finditer(data, searched):
            place = found.start()
            if place and data[place - 1] != LINE_END:
                has_from, has_quote = True, has_quote or data[place - 1] == QUOTE
            elif place:
                yield Piece(Offset(offset + at), data[at:place], begins, True, has_from, has_quote, begun)
                at, begun, begins, has_from, has_quote = place, b"", True, False, False
        offset, data = offset + at, data[at:] if at else data
        if not block:
            if data:
                yield Piece(Offset(offset), data, begins, True, has_from, has_quote, begun)
            return
        cut = place_to_cut(data, begun is not None) if len(data) >= AT_ONCE else 0
        if cut:
            piece = Piece(Offset(offset), data[:cut], begins, False, has_from, has_quote, begun)
            yield piece
            if begun is not None:
                begun = None if header_of(data, piece.mail_start)[1] <= cut else last_begun(b"\n" + begun + piece.data)
            offset, data, begins = offset + cut, data[cut:], False
            has_from, has_quote = has_from and FROM in data, has_quote and FROM in data
        # a word that has begun at the end
        searched = max(0, len(data) - len(FROM) + 1)


def place_to_cut(data: bytes, has_header: bool) -> int:
    """Where a message is cut that goes on: at the end of a line, after its header, so that something follows that is no
    line `From `. A line is cut only if it is longer than any program writes, where nothing can begin."""
    cut, header = data.rfind(b"\n", 0, -1) + 1, data.find(b"\n") + 1
    if FROM.startswith(data[cut:]):
        cut = data.rfind(b"\n", 0, max(0, cut - 1)) + 1
    if has_header and len(data) < LONGEST_HEADER and header_of(data, header)[1] > cut:
        return 0
    found = WITHIN_LINE.match(data, cut + LONGEST_NAME) if len(data) - cut >= LONGEST_LINE else None
    return found.end() if found else cut


def last_begun(text: bytes) -> bytes:
    """What begins the last line `From ` or field of a text: as much as says which it is, and where in it the text
    ends."""
    found = LAST_FIELD.match(text)
    assert found is not None, "the text begins with a line end"
    line, end, _ = text[found.end() :].partition(b"\n")
    return line[:LONGEST_NAME] + end + b" " * (end != b"" and not text.endswith(b"\n"))


def header_of(data: bytes, begin: int) -> tuple[int, int]:
    """Where the header ends that begins at a place, after the end of a line; and where the body begins."""
    if data.startswith((b"\n", b"\r\n"), begin):
        return begin, data.index(b"\n", begin) + 1
    end = data.find(b"\n\n", begin) + 1 or len(data)
    with_cr = data.find(b"\n\r\n", begin, end + 1) + 1
    return (with_cr, with_cr + 2) if with_cr else (end, min(end + 1, len(data)))


def from_lines_of(read: Read) -> int:
    """How many From_ lines a text has."""
    return sum(piece.begins for piece in pieces_of(read))
