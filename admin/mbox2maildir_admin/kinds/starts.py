"""Where mbox text and messages begin: the From_ line of a text; lines `From ` that may begin messages although
something speaks against it, within messages with correct lengths or within lines; and the shapes of From_ lines
without a date."""
import enum
import re
from collections.abc import Iterator
from typing import Optional

from ..mbox.dates import ends_in_iso, is_dated
from ..mbox.fields import NAME
from ..mbox.files import BLOCK, LONG
from ..mbox.mailbox import Mailbox
from ..mbox.pieces import FROM, Piece, header_of
from ..patterns import pattern
from ..units import Offset

# how many bytes of a file are looked at to know it
HEAD = 1 << 16
BEFORE_TEXT = re.compile(rb"(?:\xef\xbb\xbf)?(?:[ \t]*\r?\n)*")
# how a header begins
OPENING = re.compile(NAME + rb"|>From ")
# a block of tar, the place of its checksum, and the digits of that
TAR_BLOCK, SUM = 512, slice(148, 156)
OCTAL = pattern(rb" *[0-7]{1,7}[ \0]")
# what rmail puts between a From_ line and the header
BY_RMAIL = re.compile(rb"(?:>+From [^\n]*\n)*")
ADDRESS = re.compile(rb"From \S+@\S+\s*\Z")
ONE_WORD = re.compile(rb"From \S+\s*\Z")
# the end of a line that has a word `From `, which a piece may have without its end
FROM_IN_LINE = pattern(rb"From [^\n]*\n?")
# the beginning of a line that is quoted or escaped, by replies, by format=flowed or by OpenPGP
REPLY = pattern(rb"(?:- )?[> \t]*\Z")
# what the header has that follows what may be the end of a sentence, wherever
MAIL_FIELD = pattern(
    rb"(?im)^(?:Return-Path|Received|Delivered-To|X-Original-To|Envelope-To|From|Sender|To|Date|Subject|Message-ID)"
    rb"[ \t]*:"
)
# a sender in one word: an address, or the sender of what the mail system itself sends
SENDER = re.compile(rb"[^\s@]+@[^\s@]+|MAILER[-_]DAEMON")
# an address as archives of lists hide it
HIDDEN_ADDRESS = re.compile(rb"(?<!\S)(\S+) at (\S+\.\S+)")
# a date in numbers, a time, or another number
IN_DIGITS = re.compile(rb"[-+]?\d[-+\d.,:/TZ]*")
SIGNED = re.compile(rb"[-+]?\d+")
LETTERS = rb"[\w\x80-\xff]+"
# the parts of a date in the words of some language: a time, a date in numbers, or a year and a day
CLOCK = re.compile(rb"(?:[01]?\d|2[0-3])[:.][0-5]\d(?:[:.][0-5]\d)?")
NUMBERS = re.compile(rb"\d\d?([-./])\d\d?\1(?:19|20)\d\d|(?:19|20)\d\d([-./])\d\d?\2\d\d?")
BEGINS_WITH_DIGIT = re.compile(rb"\d")
YEAR, DAY = re.compile(rb"(?:19|20)\d\d"), re.compile(rb"(?:[12]\d|3[01]|0?[1-9])[.,]?")
# how many words without a digit are before or in such a date at most
MOST_WORDS = 6
# the numbers of 64 bits that Google Groups gives to messages
OF_GOOGLE_GROUPS = re.compile(rb"-?\d{9,19}\s*\Z")
IN_LETTERS = re.compile(rb"%s(?:[.+=-]%s)*" % (LETTERS, LETTERS))


class Ending(enum.Enum):
    """What From_ lines without a date as most have it end in, by the name of their kind."""

    ISO = "mboxrd or mboxo, with ISO dates"
    LOCAL = "mboxrd or mboxo, with local dates"
    GROUPS = "Google Groups' archive"


def is_tar(mailbox: Mailbox) -> bool:
    """Whether the first block has the checksum that it names: the sum of its bytes, with blanks in place of the
    checksum."""
    block = mailbox.at(0, TAR_BLOCK)
    found = OCTAL.match(block[SUM])
    wanted = sum(block) - sum(block[SUM]) + 8 * ord(" ")
    return len(block) == TAR_BLOCK and found is not None and int(found.group().strip(b" \0"), 8) == wanted


def text_start(mailbox: Mailbox) -> Optional[Offset]:
    """The offset at which the mbox text begins: after a mark and blank lines, or after NUL bytes. None if no text
    begins, as in a tar archive, which begins with a name."""
    head = mailbox.at(0, HEAD)
    if is_tar(mailbox):
        return None
    before = BEFORE_TEXT.match(head)
    assert before is not None, "it matches nothing too"
    if not head or is_from_line(mailbox.at(before.end(), HEAD)):
        return Offset(before.end())
    nulls = end_of_row(mailbox, Offset(0), b"\0")
    return nulls if nulls and all(signs_in(mailbox.at(nulls, HEAD))) else None


def is_from_line(text: bytes) -> bool:
    """Whether a text begins with a From_ line that ends in a date, or that a header follows."""
    return any(signs_in(text)) or any(signs_in(with_lf(text)))


def with_lf(text: bytes) -> bytes:
    """A text in which each CR LF, and each CR, is LF."""
    return text.replace(b"\r\n", b"\n").replace(b"\r", b"\n")


def ends_in_cr(mailbox: Mailbox) -> bool:
    """Whether the lines of a text end in CR alone, by the first one: it has a CR, and is a From_ line up to that."""
    start = text_start(mailbox)
    head = mailbox.at(start, HEAD) if start is not None else b""
    return b"\r" in head.split(b"\n")[0][:-1] and any(signs_in(with_lf(head)))


def signs_in(text: bytes) -> tuple[bool, bool]:
    """Whether a text begins with a line `From ` that ends in a date, and whether with one that a header follows."""
    line, _, header = text.partition(b"\n")
    is_from = line.startswith(FROM)
    return is_from and is_dated(line), is_from and OPENING.match(header) is not None


def end_of_row(mailbox: Mailbox, offset: Offset, row: bytes) -> Offset:
    """The offset of the first byte from an offset on that is none of these; the end of the file if there is none."""
    # most rows are short, and their bytes were read just now
    count = LONG
    while True:
        block = mailbox.at(offset, count)
        rest = block.lstrip(row)
        offset, count = Offset(offset + len(block) - len(rest)), BLOCK
        if rest or not block:
            return offset


def is_after_blank(mailbox: Mailbox, piece: Piece) -> bool:
    """Whether a blank line stands before a piece."""
    return mailbox.at(piece.offset - 3, 3).endswith((b"\n\n", b"\n\r\n"))


def may_be_mail(mailbox: Mailbox, piece: Piece, end: int) -> bool:
    """Whether a line `From ` without a date, in a message that ends at an offset, may begin another one: a header
    follows, perhaps after what rmail puts before that, or it has an address alone, or a word alone between blank
    lines."""
    from_line, offset = piece.from_line, piece.offset + piece.mail_start
    begins = mailbox.at(offset, LONG)
    by_rmail = BY_RMAIL.match(begins)
    if ADDRESS.match(from_line) or OPENING.match(begins, by_rmail.end() if by_rmail else 0):
        return True
    is_between = offset < end and begins.startswith((b"\n", b"\r\n")) and is_after_blank(mailbox, piece)
    return is_between and ONE_WORD.match(from_line) is not None


def joins_in(mailbox: Mailbox, piece: Piece, body: int) -> Iterator[tuple[Offset, bytes]]:
    """Where messages may begin within lines of a piece, and their From_ lines: after NUL bytes that a crash left before
    a From_ line, or after a text whose last line has no end, as `cat a b` joins it with the next text. `body` is the
    offset at which the body of the message begins."""
    data = piece.data
    for found in FROM_IN_LINE.finditer(data, piece.mail_start):
        if not found[0].endswith(b"\n"):
            return
        end = found.end() - 1
        start = max(data.rfind(b"\n", 0, found.start()) + 1, end - LONG - 1)
        before, _, rest = data[start:end].rpartition(FROM)
        offset = piece.offset + end - len(rest) - len(FROM)
        if before and may_begin(mailbox, before, FROM + rest, piece.offset + end, offset >= body):
            yield Offset(offset), FROM + rest


def may_begin(mailbox: Mailbox, before: bytes, from_line: bytes, end: int, in_body: bool) -> bool:
    """Whether a From_ line may follow what is before it in its line, which ends at an offset."""
    is_after_nulls = before.endswith(b"\0")
    if not is_dated(from_line):
        return is_after_nulls and OPENING.match(mailbox.at(end + 1, HEAD)) is not None
    if is_after_nulls:
        return True
    if REPLY.match(before):
        return False
    text = mailbox.at(end + 1, HEAD)
    header = text[: header_of(text, 0)[0]]
    is_close = not before[-1:].isspace()
    return OPENING.match(header) is not None and (is_close or in_body and MAIL_FIELD.search(header) is not None)


def ending_of(line: bytes) -> Optional[Ending]:
    """What a line `From ` ends in, if that is known."""
    if ends_in_iso(line):
        return Ending.ISO
    if OF_GOOGLE_GROUPS.match(line[len(FROM) :]):
        return Ending.GROUPS
    return Ending.LOCAL if is_local(line[len(FROM) :].split()) else None


def is_local(words: list[bytes]) -> bool:
    """Whether words end in a date of some language: it has a time and a day with its year, which may have its own word,
    and few others."""
    numbers = list(filter(BEGINS_WITH_DIGIT.match, words))
    dates = [word for word in numbers if NUMBERS.fullmatch(word)]
    years, days = (sum(part.fullmatch(word) is not None for word in numbers) for part in (YEAR, DAY))
    clocks = sum(CLOCK.fullmatch(word) is not None for word in numbers)
    is_whole = len(numbers) == (2 if dates else 3) and (len(dates), years, days) in ((1, 0, 0), (0, 1, 1))
    return is_whole and clocks == 1 and len(words) - len(numbers) <= MOST_WORDS


def shape_of(line: bytes) -> tuple[bytes, ...]:
    """The shape of a line `From `: what each of its words is, apart from the letters and the digits in it. A program
    writes all of its From_ lines in one shape, so that another line `From ` may be text. Of a date in another form than
    most have it only the numbers are of the shape."""
    ending, words = ending_of(line), HIDDEN_ADDRESS.sub(rb"\1@\2", line[len(FROM) :]).split()
    if ending is Ending.ISO or ending is Ending.GROUPS:
        return (ending.value.encode(),)
    return tuple(map(shape_of_word, filter(BEGINS_WITH_DIGIT.match, words) if ending else words))


def shape_of_word(word: bytes) -> bytes:
    """What a word is: a sender, a number, a name that begins with a small or a capital letter, or something else."""
    if SENDER.fullmatch(word):
        return b"@"
    if IN_DIGITS.fullmatch(word):
        return SIGNED.sub(b"0", word)
    if IN_LETTERS.fullmatch(word):
        return b"A" if word[:1].isupper() else b"a"
    return re.sub(LETTERS, b"a", word)
