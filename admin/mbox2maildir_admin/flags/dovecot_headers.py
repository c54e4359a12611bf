"""What Dovecot's mbox driver keeps in the headers of a mailbox: UIDVALIDITY, UIDs, keywords and flags.

Messages come from strangers, and so may these headers. They count as they do for Dovecot 2.3, so that a client sees
after a conversion what it saw before.
"""
import array
import itertools
import re
from collections.abc import Iterable, Iterator
from typing import NamedTuple, Optional

from ..mbox.fields import VALUE, X_STATUS, Header
from ..mbox.inventory import NOTE
from ..mbox.mailbox import Mailbox
from ..mbox.pieces import LONGEST_NAME
from ..patterns import pattern
from ..remarks import Remark, Says
from ..terminal import first_of
from ..units import Offset, Place

# the highest UIDVALIDITY, how many keywords the name of a file has letters for, and the highest UID. Dovecot's next UID
# is at most 4294967294; with a higher one its Maildir driver fails at each look, for good. So this leaves more numbers
# for new mail than any folder gets
MOST_VALIDITY, LETTERS, MOST_UID = (1 << 32) - 1, 26, 4294967293 - (1 << 24)
LONGEST_KEYWORD, LONGEST_INTERNAL = 50, 1 << 13
FIELD = pattern(rb"^(x-imapbase|x-imap|x-uid|x-keywords|x-status|status)([ \t]*)" + VALUE, re.I | re.M)
HEAD = pattern(rb"[ \t]?([0-9]+) [ \t\r\n]*([0-9]+)(?=[ \t\r\n]|\Z)")
UID = pattern(rb"[ \t]?([0-9]+)[ \t\r\n]*\Z")
# the characters that no IMAP atom has
NO_KEYWORD = pattern(rb"[^!-~]|[(){%*\"\\\]]")
INTERNAL_BODY = pattern(
    rb"This text is part of the internal format of your mail folder, and is not\s+a real message\.\s+"
    rb"It is created automatically by the mail system software\.\s+If deleted, important folder data will be lost, "
    rb"and it will be re-created\s+with the data reset to initial values\.\s*\Z"
)
SUBJECT = pattern(rb"^subject:([^\n]*)", re.I | re.M)
# the flags of Dovecot by their letters in Status and X-Status, and the letters of a Maildir
BY_STATUS, BY_X_STATUS = {b"R": "S"}, {letter: flag for flag, letter in X_STATUS.items()}
FLAGS = "DFRST"
# the bit that says that a mail program has listed a message
LISTED = 45
# the flags that mbox2maildir reads; it looks for each letter in the first line of either field
CONVERTED = {b"A": "R", b"D": "T", b"F": "F", b"R": "S"}

# UIDVALIDITY, the next UID, and the places of messages by their UIDs
Numbers = tuple[int, int, Iterable[tuple[int, Place]]]


class MailboxHead(NamedTuple):
    """What an `X-IMAPbase` or `X-IMAP` of the first message says, and whether Dovecot hides that message."""

    validity: int
    last: int
    keywords: list[bytes]
    is_hidden: bool = False


class Field(NamedTuple):
    """A field that Dovecot writes: its name in lower case, its value, whether blanks stand before the colon, and where
    the value begins in the header."""

    name: bytes
    value: bytes
    is_spaced: bool
    begin: int


def fields_of(header: bytes) -> list[Field]:
    """The fields of a header that count, in their order: hidden ones whose colon is near enough."""
    found = (field for field in FIELD.finditer(header) if field.start(3) - field.start() <= LONGEST_NAME)
    return [Field(field[1].lower(), field[3], bool(field[2]), field.start(3)) for field in found]


def head_of(field: Field) -> Optional[MailboxHead]:
    """The head that a field holds, if it is well formed."""
    found = HEAD.match(field.value) if field.name in (b"x-imapbase", b"x-imap") else None
    if not found or not number_of(found.group(1)):
        return None
    names: dict[bytes, bytes] = {}
    for name in field.value[found.end() :].split():
        if len(name) <= LONGEST_KEYWORD and not NO_KEYWORD.search(name):
            # each counts once, whatever its case
            names.setdefault(name.lower(), name)
    keywords, is_hidden = list(names.values()), field.name == b"x-imap"
    return MailboxHead(number_of(found.group(1)), number_of(found.group(2)), keywords, is_hidden)


def number_of(digits: bytes) -> int:
    """A number as Dovecot reads it. Dovecot holds 32 bits: digits before the last 32 add nothing to these."""
    return int(digits[-32:]) & MOST_VALIDITY


def internal_head(mailbox: Mailbox, start: Offset) -> tuple[Optional[MailboxHead], Offset]:
    """The head of the message by which Dovecot and UW-IMAP keep an empty mailbox, and the offset at which that message
    ends. There is no head unless the text that begins at `start` begins with exactly this message."""
    text = mailbox.at(start, LONGEST_INTERNAL)
    message, follows, _ = text.partition(b"\nFrom ")
    message += b"\n" * bool(follows)
    if len(message) == LONGEST_INTERNAL:
        return None, start
    header = Header.at(mailbox, start).text
    subject = SUBJECT.search(header)
    body = message[message.find(b"\n") + 1 + len(header) :].lstrip(b"\r\n")
    head = next(filter(None, map(head_of, fields_of(header))), None)
    is_named = subject and subject.group(1).strip() == NOTE
    is_it = is_named and head and head.is_hidden and INTERNAL_BODY.match(body)
    return (head if is_it else None), Offset(start + len(message))


class FromHeaders:
    """What is read of a mailbox, message by message in their order. A message that `X-IMAP` hides comes last."""

    def __init__(self, head: Optional[MailboxHead] = None) -> None:
        """Begins with `head`, that of a message before the first, which is left out."""
        self.head, self.hides_first = head, False
        # the places of keywords, by their names in lower case
        self.names: dict[bytes, int] = {}
        self.last = self.previous = 0
        # whether messages get other UIDs than they have
        self.is_renumbered = False
        # the UID of each message, 0 for a hidden one; and its flags and keywords in bits
        self.uids, self.marks = array.array("Q"), array.array("Q")
        if head:
            self.begin(head)

    def begin(self, head: MailboxHead) -> None:
        """Takes the head of the mailbox."""
        self.head, self.last = head, max(self.last, head.last)
        self.names = {name.lower(): place for place, name in enumerate(head.keywords)}

    @property
    def keywords(self) -> list[bytes]:
        """The keywords that are named; only the first ones have letters."""
        return self.head.keywords if self.head else []

    def remarks(self) -> Iterator[Remark]:
        """What is to be said of numbers and keywords that changed."""
        if self.hides_first:
            yield Says.FIRST_APPEARS.of()
        if not self.head:
            yield Says.NO_UIDS.of()
        elif self.is_used_up():
            yield Says.UIDS_ANEW.of("too few are left above the last one")
        elif self.is_renumbered:
            yield Says.NEW_UIDS.of()
        left = self.keywords[LETTERS:]
        if left:
            yield Says.KEYWORDS_LOST.of(LETTERS, first_of(left, " "))

    def is_used_up(self) -> bool:
        """Whether too few numbers are left for new mail."""
        return self.last + self.hides_first > MOST_UID

    def add(self, header: bytes) -> None:
        """Takes the header of the next message."""
        fields, first = fields_of(header), not self.uids and not self.head
        numbers: list[int] = []
        for field in fields:
            head = head_of(field) if first and not self.head else None
            if head:
                self.begin(head)
                # a UID before the head counts for nothing
                self.hides_first, numbers = head.is_hidden, []
            elif field.name == b"x-uid":
                found = UID.match(field.value)
                numbers += [number_of(found[1])] if found else []
        # UIDs rise, and none is higher than the next one
        uid = next((one for one in numbers if self.previous < one <= self.last + 1), 0)
        if self.head and not uid and self.previous > self.head.last:
            # it has a UID of the mailbox, and gets another one since a message before it has none
            self.is_renumbered |= any(0 < one <= self.head.last for one in numbers)
        if self.hides_first and not self.uids:
            self.uids.append(0)
        else:
            self.previous = uid or self.last + 1
            self.last = max(self.previous, self.last)
            self.uids.append(self.previous)
        self.marks.append(marks_of(fields, self.names))

    def numbers(self, moment: int) -> Numbers:
        """UIDVALIDITY, the next UID, and the places of the messages by their UIDs. If no numbers were kept, UIDVALIDITY
        is `moment`, in seconds since 1970, and the UIDs begin at 1."""
        order = map(Place, itertools.chain(range(self.hides_first, len(self.uids)), [0] * self.hides_first))
        if not self.head or self.is_used_up():
            return moment, len(self.uids) + 1, enumerate(order, 1)
        last = self.last + self.hides_first
        return self.head.validity, last + 1, ((self.uids[place] or last, place) for place in order)


def first_head(mailbox: Mailbox, start: Offset) -> Optional[MailboxHead]:
    """The head of a mailbox whose text begins at an offset; None if Dovecot has given it no UIDs."""
    found = FromHeaders(internal_head(mailbox, start)[0])
    found.add(Header.at(mailbox, start).text)
    return found.head


def marks_of(fields: Iterable[Field], names: dict[bytes, int]) -> int:
    """The flags and keywords of a message in bits. Bits from 0 on are its keywords by their places; from 32 on, the
    flags that Dovecot reads; from 40 on, those that mbox2maildir gives a file with all header fields; the last one says
    whether the message was listed."""
    marks = 0
    keywords: list[int] = []
    first: dict[bytes, bytes] = {}
    for field in fields:
        if field.name in (b"status", b"x-status"):
            marks |= bits_of(field.value, BY_STATUS if field.name == b"status" else BY_X_STATUS, 32)
            marks |= (field.name == b"status" and b"O" in field.value) << LISTED
            if not field.is_spaced:
                first.setdefault(field.name, field.value.split(b"\n")[0])
        elif field.name == b"x-keywords" and not keywords:
            known = [name.lower() in names for name in field.value.split()]
            keywords = [names[name.lower()] for name in field.value.split()] if all(known) else []
    for value in first.values():
        marks |= bits_of(value, CONVERTED, 40)
    for place in keywords:
        marks |= 1 << place if place < LETTERS else 0
    return marks


def bits_of(value: bytes, letters: dict[bytes, str], start: int) -> int:
    """The flags whose letters are in a value, in bits from `start` on."""
    return sum(1 << start + FLAGS.index(flag) for letter, flag in letters.items() if letter in value)


def is_listed(marks: int) -> bool:
    """Whether a message with these marks has been listed, and so is not new."""
    return bool(marks >> LISTED & 1)


def flags_of(marks: int, is_stripped: bool) -> str:
    """The letters of the flags of a message with these marks: those that Dovecot reads if it is converted stripped,
    otherwise those that mbox2maildir gives."""
    return "".join(flag for place, flag in enumerate(FLAGS) if marks >> place + (32 if is_stripped else 40) & 1)


def flags_in(header: bytes, is_stripped: bool) -> str:
    """The letters of the flags in a header."""
    # much mail has none, and it takes long to look for fields
    return flags_of(marks_of(fields_of(header), {}), is_stripped) if b"status" in header.lower() else ""


def info_of(marks: int, current: str) -> str:
    """The letters after `:2,` for a message with these marks that was converted stripped, given those that its name has
    now."""
    keywords = (chr(ord("a") + place) for place in range(LETTERS) if marks >> place & 1)
    return "".join(sorted({*current, *flags_of(marks, True), *keywords}))
