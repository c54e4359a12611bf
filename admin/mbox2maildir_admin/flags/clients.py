"""The flags that mail programs keep in headers of their own: Thunderbird, Evolution, and Gmail's Takeout.

A sender may write such headers too. They count only if each message of a mailbox has its own; of Thunderbird's, a few
may be missing between others. Of two with the same name the first one counts, since a program puts its own before what
was sent.
"""
import re
import sys
from collections.abc import Callable, Iterable, Sequence
from typing import NamedTuple, Optional

from ..mbox.fields import VALUE, headers_at
from ..mbox.inventory import Inventory
from ..mbox.mailbox import Mailbox
from ..patterns import pattern
from ..remarks import Remark, Says
from ..terminal import bytes_of, text_of

# the letters of flags in a Maildir: draft, flagged, passed on, replied, seen, trashed.
# Thunderbird, nsMsgMessageFlags.idl: Read, Replied, Marked, Forwarded
THUNDERBIRD = {0x0001: "S", 0x0002: "R", 0x0004: "F", 0x1000: "P"}
# Expunged
EXPUNGED = 0x0008
# Evolution, camel-message-info.h: ANSWERED, DELETED, DRAFT, FLAGGED, SEEN, FORWARDED
EVOLUTION = {1 << 0: "R", 1 << 1: "T", 1 << 2: "D", 1 << 3: "F", 1 << 4: "S", 1 << 10: "P"}
# RFC 2047, 2: encoded words, of which a letter may have parts in two, and what separates two of them
ENCODED = pattern(r"(?:=\?[^?\s]+\?[bqBQ]\?[^?\s]*\?=)+")
BETWEEN_ENCODED = pattern(r"(?<=\?=)[ \t]+(?==\?)")
FOLD = pattern(r"\r?\n[ \t]+")


def field(name: bytes, value: bytes = rb"(?P<value>(?s:.*))") -> Callable[[bytes], Optional[str]]:
    """Returns a function that reads the value of the first field of this name in a header, or None if the value is not
    of this form."""
    first = pattern(rb"^%s%s" % (name, VALUE), re.I | re.M)
    wanted = pattern(rb"[ \t]*%s\s*\Z" % value, re.I)

    def read(header: bytes) -> Optional[str]:
        found = first.search(header)
        matched = wanted.match(found.group(1)) if found else None
        return matched["value"].decode("latin-1") if matched else None

    return read


mozilla_status = field(b"X-Mozilla-Status", rb"(?P<value>[0-9a-f]{4})")
# camel-local-summary.c: the number of the message, its flags, and what else is kept
evolution_flags = field(b"X-Evolution", rb"[0-9a-f]{8}-(?P<value>[0-9a-f]{4})(?:;.*)?")
gmail_thread = field(b"X-GM-THRID", rb"(?P<value>\d+)")
gmail_labels = field(b"X-Gmail-Labels")


def is_deleted(header: bytes) -> Optional[bool]:
    """Whether Thunderbird has marked a message as deleted, which stays in the file until the folder is compacted; None
    if its header has no mark."""
    status = mozilla_status(header) if b"x-mozilla-status" in header.lower() else None
    return None if status is None else bool(int(status, 16) & EXPUNGED)


def letters_by_bits(bits: Optional[str], table: dict[int, str]) -> Optional[str]:
    """The flags of a number in hexadecimal digits; None without a number."""
    return None if bits is None else "".join(letter for bit, letter in table.items() if int(bits, 16) & bit)


def letters_of_evolution(header: bytes) -> Optional[str]:
    """The flags that Evolution keeps in a header; None if it keeps none there."""
    return letters_by_bits(evolution_flags(header), EVOLUTION)


def labels_in(value: bytes) -> Optional[tuple[str, ...]]:
    """The labels that the value of a field has, each once. Its words may be encoded. None if it can't be read."""
    import csv

    try:
        unfolded = BETWEEN_ENCODED.sub("", FOLD.sub(" ", value.decode("utf-8", "surrogateescape")))
        decoded = ENCODED.sub(decoded_words, unfolded)
        # a letter that stands for no byte could be neither printed nor typed
        labels = (text_of(bytes_of(label.strip())) for label in next(csv.reader([decoded], skipinitialspace=True), []))
        return tuple(dict.fromkeys(filter(None, labels)))
    except Exception:  # pylint: disable=broad-except
        # the libraries raise anything for strangers' headers
        return None


def decoded_words(words: re.Match[str]) -> str:
    """What encoded words stand for."""
    from email.header import decode_header

    pieces = decode_header(words[0].replace("?==?", "?= =?"))
    return "".join(piece.decode(charset or "ascii") if isinstance(piece, bytes) else piece for piece, charset in pieces)


MOZILLA, GMAIL = "Thunderbird", "Gmail"
# what a program has in the header of each message: its flags or, since only the labels of all messages show these,
# Gmail's labels; None if a message is not from it
CLIENTS: dict[str, Callable[[bytes], Optional[str]]] = {
    MOZILLA: lambda header: letters_by_bits(mozilla_status(header), THUNDERBIRD),
    "Evolution": letters_of_evolution,
    GMAIL: lambda header: None if gmail_thread(header) is None else gmail_labels(header) or "",
}


def are_few(unmarked: int, marked: int) -> bool:
    """Whether so many messages without a mark are few beside those with one: a program has marked all mail then, rather
    than a sender some."""
    return 3 * unmarked <= marked


class KeptFlags(NamedTuple):
    """The flags of a mailbox's messages by their places, and the program that kept them; and of each message, unless
    that is known of all, whether nothing says that it was read or not."""

    program: str
    letters: list[str]
    unsaid: bytes = b""

    def at(self, places: Iterable[int]) -> "KeptFlags":
        """Those of the messages at some places."""
        found = list(places)
        unsaid = bytes(self.unsaid[place] for place in found) if self.unsaid else b""
        return KeptFlags(self.program, [self.letters[place] for place in found], unsaid)

    def remarks(self, places: Sequence[int]) -> list[Remark]:
        """What is to be said of the messages at some places."""
        says = Says.FLAGS.of_any(sum(bool(self.letters[place]) for place in places), self.program)
        return says + Says.UNREAD.of_any(sum(self.unsaid[place] for place in places) if self.unsaid else 0)


def kept_in(mailbox: Mailbox, inventory: Inventory) -> Optional[KeptFlags]:
    """The flags that a program has kept in a mailbox, if one has them in the header of each message. A few may lack
    those of Thunderbird between others: a human has decided that they begin there."""
    for program, read in CLIENTS.items():
        several = list[Optional[str]]()
        for found in map(read, headers_at(mailbox, inventory.offsets[:-1])):
            # many messages have the same
            several.append(None if found is None else sys.intern(found))
            if found is None and (program != MOZILLA or several[0] is None):
                break
        lacking = several.count(None)
        if several and several[-1] is not None and are_few(lacking, len(several) - lacking):
            letters = [one or "" for one in several]
            if program != GMAIL:
                return KeptFlags(program, letters)
            from .gmail import language_of, letters_by, own_names

            known = {one: labels_in(one.encode("latin-1")) or () for one in set(letters)}
            own = own_names([language_of(known.values())])
            return KeptFlags(program, *letters_by([known[one] for one in letters], own))
    return None
