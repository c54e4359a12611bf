"""Lines of a text about which something is said, and how they are shown."""
from collections.abc import Collection, Iterable, Sequence
from typing import NamedTuple, Optional

from ..nexts import Quote
from ..terminal import NAMED, shown
from ..units import LineNumber
from .mailbox import Mailbox

# how many letters of a line are shown, and the most bytes that these may have
MOST_LETTERS, MOST_BYTES = 72, 4 * 72
# how many lines are shown before and after one that is asked about, and how many of these are shown at most
AROUND, MOST_ASKED = 3, 6


def cut(text: bytes) -> str:
    """A line of mail as it is printed. The end of a long one is not."""
    says = shown(text[:MOST_BYTES])
    return says if len(says) <= MOST_LETTERS and len(text) <= MOST_BYTES else says[:MOST_LETTERS] + "..."


def texts_of(mailbox: Mailbox, lines: Collection[int]) -> dict[int, bytes]:
    """The first bytes of some lines of a text, by their numbers. A line that the text does not have is not there."""
    found = ((line, mailbox.at(offset, MOST_BYTES + 1)) for line, offset in mailbox.lines_with(lines))
    return {line: text.split(b"\n")[0] for line, text in found if text}


class Said(NamedTuple):
    """What is said of a line, or of several if it has no number; and the line as it is printed, if it is shown."""

    line: LineNumber
    says: str
    text: str = ""

    def sentence(self) -> str:
        """What is said, with the number of the line."""
        return "line %d: %s" % (self.line, self.says) if self.line and self.says else self.says


class AskedAbout(NamedTuple):
    """What is said of the first lines because of which something is asked, and how many of them there are."""

    said: Sequence[Said] = ()
    total: int = 0

    def sentence(self) -> str:
        """What is said of the first one, and how many more there are."""
        if not self.said:
            return ""
        return self.said[0].sentence() + (" (and %d more)" % (self.total - 1) if self.total > 1 else "")


def with_around(lines: Iterable[int], around: int = AROUND) -> list[int]:
    """The numbers of lines, with so many before and after each."""
    return sorted({near for line in lines for near in range(line - around, line + around + 1)})


def lines_around(mailbox: Mailbox, asked_about: AskedAbout) -> list[Quote]:
    """The first lines because of which something is asked, and the lines around them. If what one is about stands
    behind its beginning, that is shown."""
    first = sorted({one.line for one in asked_about.said if one.line})[:MOST_ASKED]
    asked = {one.line: one.text for one in asked_about.said if one.line in first}
    wanted = with_around(asked)
    shown_by = {line: cut(text) for line, text in texts_of(mailbox, wanted).items()}
    for line, text in asked.items():
        if line in shown_by and text not in shown_by[line]:
            shown_by[line] = "..." + text
    return [Quote(line, shown_by[line], line not in asked) for line in wanted if line in shown_by]


class Lines:
    """Lines of one sort: how many there are, the offsets of many of them, and what is said of the first ones."""

    MANY = 200

    def __init__(self) -> None:
        self.count = 0
        self.offsets: list[int] = []
        # of each of the first ones: its offset, the line as it is printed, and the offset of a line that it is about
        self.first: list[tuple[int, str, Optional[int]]] = []

    def add(self, offset: int, text: bytes = b"", other: Optional[int] = None) -> None:
        """Adds the line that has an offset, with its text, and the offset of another line that it is about."""
        self.count += 1
        if self.count <= self.MANY:
            self.offsets.append(offset)
        if self.count <= NAMED:
            self.first.append((offset, cut(text), other))

    def take(self, others: "Lines") -> None:
        """Adds the lines of another sort."""
        self.count += others.count
        self.offsets = sorted(self.offsets + others.offsets)[: self.MANY]
        self.first = sorted(self.first + others.first)[:NAMED]
