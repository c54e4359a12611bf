"""The lines of ledgers, of records and of lists of what is prepared: what is written is read again, and what is torn or
wrong says nothing."""
import unittest
from collections.abc import Callable
from typing import Any, Optional

from mbox2maildir_admin.ledger.history import About, Event, Note, RecordLine
from mbox2maildir_admin.ledger.lines import ALL_PLACED, BATCH, CUT, END, FAILED, FIRST_LINE, FOREIGN, LOST, MOVED
from mbox2maildir_admin.ledger.lines import NAMELESS, PLACED, SHARED, UNDOING, UNDONE, BatchHead, Brought, Messages
from mbox2maildir_admin.ledger.lines import pieces_of
from mbox2maildir_admin.ledger.prepared import AS_READ, BEGUN, AsRead, Origin, Prepared
from mbox2maildir_admin.ledger.record import unspelled
from mbox2maildir_admin.remarks import Remark
from mbox2maildir_admin.terminal import spelled
from mbox2maildir_admin.units import Size

A, B = b"\xaa" * 16, b"\xbb" * 16
HEXA, HEXB, SHA = b"aa" * 16, b"bb" * 16, "c" * 64
NAME = b"aa" * 32 + b".1"
TEXT = BatchHead(3, 2, 1, (7, 8, -9), (10, SHA), "mboxo text=7,9 crlf", "/a b/\u00e4\\x0a", 5, 70)
BEGINS = b"@\t12\t3\t2\t1\t70\t7,8,-9\t10-" + b"c" * 64 + b"-5\tmboxo text=7,9 crlf\t" + "/a b/\u00e4\\x0a".encode()
WHEN = "2025-03-03T10:00:00Z"
EVENT = RecordLine(Event.DONE, About(b".a\\b", Size(10), SHA), 3, WHEN, "/b\\x0a", "mboxo text=7,9", "0" * 32, 1234, 5)
NOTED = b".a\\b\t10\t" + b"c" * 64 + b"\t3\t2025-03-03T10:00:00Z\t/b\\x0a"
DONE = b"done\t" + NOTED + b"\tmboxo text=7,9\t" + b"0" * 32 + b"-1234-5"
PLAIN = EVENT._replace(ledger="", size=0, number=0)
ORIGIN = Origin((7, SHA), (1, 7, 2), 2, "mboxrd", "/home/mail", "/home/mail/box")
BEGAN = b"@\t7-" + b"c" * 64 + b"\t1,7,2\t2\tmboxrd\t/home/mail\t/home/mail/box"
REMARKS = Remark("loses-quote", "`>>From ` loses a `>` in 2 lines"), Remark("no-line-end", "\u00e9", 3)
FILE = b"p\t" + NAME + b"\t18446744073709551615\t9\t1\tcur:2,S\t=\t" + HEXB + b"\t0\t1\t0"


def message_of(line: bytes) -> Optional[Brought]:
    """The message of a line of a ledger; None if it has none."""
    several = Messages.parse(line + b"\n")
    return next(one for _, one in several.counted()) if several else None


def by(pattern: Any, read: Callable[[Any], object]) -> Callable[[bytes], object]:
    """What reads the lines that a pattern matches."""

    def reader(line: bytes) -> object:
        found = pattern.match(line)
        return read(found) if found else None

    return reader


head_of, origin_of, as_read_of = by(BATCH, BatchHead.of), by(BEGUN, Origin.of), by(AS_READ, AsRead.of)
# what reads a line, what it says, and the line
ROWS: tuple[tuple[Callable[[bytes], object], Any, bytes], ...] = (
    (message_of, Brought(PLACED, NAME, A, A), b"p\t" + NAME + b"\t="),
    (message_of, Brought(SHARED, NAME, A, B), b"s\t" + NAME + b"\t=\t" + HEXB),
    (message_of, Brought(SHARED, NAME, B, B), b"s\t" + NAME + b"\t" + HEXB),
    (message_of, Brought(FOREIGN, b"17.host", A, B), b"f\t17.host\t" + HEXA + b"\t" + HEXB),
    (message_of, Brought(LOST, NAMELESS, A, A), b"l\t-\t" + HEXA),
    (head_of, TEXT, BEGINS),
    (head_of, TEXT._replace(times=(), inode=0), BEGINS.replace(b"7,8,-9", b"").replace(b"c-5", b"c")),
    (RecordLine.parse, EVENT, DONE),
    (RecordLine.parse, PLAIN._replace(what=Note.ANSWERED), b"answered\t" + NOTED + b"\tmboxo text=7,9"),
    (RecordLine.parse, PLAIN._replace(what=Note.NO_MAIL, words=None), b"no-mail\t" + NOTED),
    (origin_of, ORIGIN, BEGAN),
    (as_read_of, AsRead(3, 2, "mboxrd or mboxo", ()), b"&\t3\t2\tmboxrd or mboxo"),
    (
        as_read_of,
        AsRead(0, 2, "mboxrd", REMARKS),
        b"&\t0\t2\tmboxrd\tloses-quote\t0\t`>>From ` loses a `>` in 2 lines\tno-line-end\t3\t\xc3\xa9",
    ),
)
# lines of ledgers and of lists that say something else
OTHERS = (b"mbox2maildir\t3\t" + b"0" * 32, b"=\t12", b"!\t3", b"+\t7", b">\t/a\t/b", b"<\t/box", b"-\t4\t/box")
LISTED = (b"mbox2maildir-prepared\t1", b">\t7", b"t\t70", b"=", b"!", b"/", b"p\t" + NAME, FILE)
# lines that say nothing
WRONG = (
    (message_of, b"x\t" + NAME + b"\t="),
    (message_of, b"p\t" + NAME + b"\t" + HEXA[:-1]),
    (message_of, b"p\t" + NAME + b"\t" + HEXA + b"0"),
    (message_of, b"p\t" + NAME + b"\t=\t" + HEXA[:-1]),
    (message_of, b"p\ta b\t" + HEXA),
    # the name has no digest that could be meant
    (message_of, b"p\t17.host\t="),
    (message_of, b"p\taa\t="),
    (head_of, BEGINS.replace(b"\t12\t", b"\t\t")),
    (head_of, BEGINS.replace(b"\t12\t", b"\t" + b"1" * 19 + b"\t")),
    (head_of, BEGINS.replace(b"c" * 64, b"c" * 63)),
    (head_of, BEGINS.replace(b"\tmboxo", b"\t")),
    (head_of, BEGINS.replace(b"7,8,", b"7,,")),
    (head_of, BEGINS.replace(b"7,8,", b"7" * 5000)),
    (RecordLine.parse, b""),
    (RecordLine.parse, b"done\t."),
    (RecordLine.parse, b"done\t" + NOTED + b"\tx\ty"),
    (RecordLine.parse, b"done\t" + NOTED + b"\t"),
    (RecordLine.parse, DONE.replace(b"0" * 32, b"0" * 31)),
    (RecordLine.parse, DONE.replace(b"-1234", b"-")),
    (RecordLine.parse, DONE.replace(b"-1234-5", b"-1234")),
    (RecordLine.parse, DONE.replace(b"mboxo text=7,9", b"")),
    (RecordLine.parse, DONE.replace(b"/b\\x0a", b"")),
    (RecordLine.parse, DONE.replace(b"done", b"froot")),
    (RecordLine.parse, DONE.replace(b"-03-", b"-13-", 1)),
    (RecordLine.parse, DONE.replace(b"c" * 64, b"c" * 63)),
    (as_read_of, b"&\t0\t2\ta\nb"),
)


def says(line: bytes) -> bool:
    """Whether a line of a ledger, or of a record, says something."""
    found = [pattern.match(line) for pattern in (FIRST_LINE, BATCH, END, FAILED, ALL_PLACED, MOVED, UNDOING, UNDONE)]
    return any(found) or any(read(line) is not None for read in (message_of, RecordLine.parse, origin_of, as_read_of))


def is_listed(line: bytes) -> bool:
    """Whether a line of a list says something."""
    return Prepared(b"").take(line)


class LineTest(unittest.TestCase):
    def test_what_is_written_is_read(self) -> None:
        for read, one, line in ROWS:
            written = BatchHead.line(one, 12) + b"\n" if isinstance(one, BatchHead) else one.line()
            self.assertEqual((written, read(line)), (line + b"\n", one))

    def test_what_says_nothing(self) -> None:
        for read, line in WRONG:
            self.assertIsNone(read(line), line)
        self.assertFalse(is_listed(FILE.replace(b"5\t9", b"6\t9")), "no inode has more than 64 bits")

    def test_a_torn_line_says_nothing(self) -> None:
        """Torn at each byte, also if only its end is missing, and ended by the next run."""
        ledgers = [(says, line) for line in (*(line for _, _, line in ROWS), *OTHERS)]
        for is_one, line in [*ledgers, *((is_listed, line) for line in LISTED)]:
            self.assertTrue(is_one(line), line)
            for end in range(len(line) + 1):
                self.assertFalse(is_one(line[:end] + CUT), line[:end])

    def test_names_that_a_line_cannot_have(self) -> None:
        """They have no name there: nothing in a name may end a line or a field."""
        for name in (b"a b", b"a\tb", b"a\nb", "\u00e4".encode(), b"\x7f", b""):
            one = Brought(FOREIGN, name, A, A)
            self.assertEqual(message_of(one.line()[:-1]), one._replace(name=NAMELESS), name)

    def test_paths_that_a_line_spells(self) -> None:
        for path in (b"/a b", b"/a\\b", b"/a\nb\xff", "/\u00e4".encode(), b"/a\\x41", b"/a\\\\x0ab", b"/\\xff"):
            self.assertEqual((unspelled(spelled(path)), "\n" in spelled(path)), (path, False))

    def test_lines_together(self) -> None:
        """Those of messages that follow each other come at once; any other one by itself, and so do all around one that
        looks like that of a message and is none."""
        one, other = b"p\t" + NAME + b"\t=\n", b"s\t" + NAME + b"\t" + HEXB + b"\t" + HEXA + b"\n"
        damaged, head = b"p\t" + NAME + b"\n", BEGINS + b"\n"
        rows: list[list[bytes]] = [
            [one + other + one],
            [head, one + other, b"=\t1\n", head, other],
            [b"\n", b"\r\r\n", one + one, b"\0\n"],
            [head, one, damaged, other, head, one + other],
            [],
        ]
        for wanted in rows:
            pieces = list(pieces_of(b"".join(wanted)))
            self.assertEqual([text for text, _ in pieces], wanted)
            have_messages = [text[:1] in (b"p", b"s") and text != damaged for text in wanted]
            self.assertEqual([several is not None for _, several in pieces], have_messages)
        together = Messages.parse(one + other)
        assert together
        several = [(0, Brought(PLACED, NAME, A, A)), (1, Brought(SHARED, NAME, B, A))]
        self.assertEqual([list(together.counted(wanted)) for wanted in (None, {B})], [several, several[1:]])
