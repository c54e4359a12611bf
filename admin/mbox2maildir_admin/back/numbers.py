"""The UIDs and keywords of a mailbox that Dovecot keeps, after its mail was in a Maildir: no UID may mean two messages.

Dovecot 2.3 takes over a higher last UID in `X-IMAPbase`, with its index and without, and keeps an `X-UID` that is not
higher. If a Maildir goes on with the UIDs of its mailbox, the messages that go back keep theirs. If it was to, and no
longer does, if both have given a UID to different messages, or if the mailbox has no room for the last UID, UIDVALIDITY
is new. Dovecot takes a keyword of a message only if the first message names it. Those that have no room there, Dovecot
adds by commands, once it serves the mailbox.
"""
import collections
import fcntl
import io
import itertools
import os
import pwd
import re
import time
from collections.abc import Iterable, Iterator, Sequence
from typing import NamedTuple, Optional

from ..faults import Fault, Left, Reason
from ..flags.dovecot_headers import (
    HEAD,
    LETTERS,
    LONGEST_KEYWORD,
    MOST_VALIDITY,
    NO_KEYWORD,
    FromHeaders,
    MailboxHead,
    fields_of,
    head_of,
    internal_head,
)
from ..kinds.starts import text_start
from ..ledger.ledger import Ledger
from ..maildir.files import letters_of
from ..mbox.bases import before_info
from ..mbox.fields import Header, headers_at
from ..mbox.files import BLOCK, open_file
from ..mbox.inventory import Inventory
from ..mbox.mailbox import Mailbox
from ..migration.dovecot import FIRST, KEYWORDS, LIST
from ..nexts import NOTHING, Does, Next, Runs, run_next
from ..remarks import Remark, Says
from ..terminal import first_of, text_of
from .mails import Mail, Target

# so many bytes each disk writes at once, or not at all
SECTOR = 512
NOT_KEPT = "another program has changed its first message meanwhile"
NO_UIDS, NO_ROOM = "it had given the mailbox no UIDs", "the first message has no room for their names"
# in the place of a UID
NONE = 1 << 32
# a line of a list about a file, and one about a keyword
FILE = re.compile(rb"([0-9]{1,10}) (?:[^\n]* )?:([^\n]+)\n")
KEYWORD = re.compile(rb"([0-9]{1,2}) ([^\n]+)\n?")


class Listed(NamedTuple):
    """What Dovecot keeps beside the mail of a folder: UIDVALIDITY, the next UID, UIDs by the names of files without
    their infos, and keywords by their letters."""

    validity: int
    following: int
    uids: dict[bytes, int]
    keywords: dict[str, bytes]

    @classmethod
    def of(cls, folder: bytes) -> Optional["Listed"]:
        """What Dovecot keeps in a folder; None if there is no list of a form that is known. Lines that were added later
        raise the next UID."""
        lines = iter(lines_of(folder, LIST))
        first = FIRST.match(next(lines, b""))
        if not first:
            return None
        validity, following = map(int, first.groups())
        uids = {before_info(one[2]): int(one[1]) for one in map(FILE.fullmatch, lines) if one}
        highest = max([following - 1, *uids.values()])
        if not 0 < validity <= MOST_VALIDITY or highest >= MOST_VALIDITY:
            return None
        keywords = {}
        for one in filter(None, map(KEYWORD.fullmatch, lines_of(folder, KEYWORDS))):
            if int(one[1]) < LETTERS and len(one[2]) <= LONGEST_KEYWORD and not NO_KEYWORD.search(one[2]):
                keywords[chr(ord("a") + int(one[1]))] = one[2]
        return cls(validity, highest + 1, uids, keywords)


def lines_of(folder: bytes, name: bytes) -> Iterable[bytes]:
    """The lines of a file of a folder; none if it is no plain file."""
    try:
        with open_file(os.path.join(folder, name), os.O_NOFOLLOW) as file:
            yield from io.BufferedReader(file)
    except (Fault, OSError):
        return


class UidLine(NamedTuple):
    """The line `X-IMAPbase` or `X-IMAP` in the header of a mailbox's first message, in which Dovecot keeps UIDVALIDITY,
    the last UID that was given, and the names of keywords: what it says, the header that it is in, where that begins in
    the mailbox, and where the value of the line begins and ends in the header. In a mailbox that Dovecot keeps empty by
    a message of its own, the rest of that, which may move."""

    head: MailboxHead
    offset: int
    header: bytes
    begin: int
    end: int
    rest: bytes = b""

    @classmethod
    def of(cls, mailbox: Mailbox) -> Optional["UidLine"]:
        """That of a mailbox; None if it has none."""
        start = text_start(mailbox)
        if start is None:
            return None
        header = Header.at(mailbox, start)
        for field in fields_of(header.text):
            head = head_of(field)
            if head:
                own, end = internal_head(mailbox, start)
                rest = mailbox.at(header.offset + len(header.text), BLOCK) if own and end == mailbox.end else b""
                return cls(head, header.offset, header.text, field.begin, field.begin + len(field.value), rest)
        return None

    def header_with(self, wanted: MailboxHead, keywords: Sequence[bytes]) -> Optional[bytes]:
        """The header with this UIDVALIDITY and last UID, and with these keywords after those that are named. Unless the
        rest may move, it grows into the blanks that Dovecot leaves in a header; None if there are too few, or if a
        power cut could take bytes away, since the disk does not write all that changes at once."""
        value = self.header[self.begin : self.end]
        found = HEAD.match(value)
        assert found, "it is a head"
        names = value[found.end() :].rstrip()
        numbers = [
            *(value[: found.start(1)], b"%0*d" % (len(found[1]), wanted.validity)),
            *(value[found.end(1) : found.start(2)], b"%0*d" % (len(found[2]), wanted.last)),
        ]
        text = b" ".join([b"".join(numbers) + names, *keywords]) + value[found.end() + len(names) :]
        header = self.header[: self.begin] + text + self.header[self.end :]
        if self.rest:
            return header
        header = without_blanks(header, len(header) - len(self.header)) or b""
        if not header or len(text) == len(value):
            return header or None
        # all that differs is in one sector of the disk
        first = len(os.path.commonprefix([header, self.header]))
        last = len(header) - 1 - len(os.path.commonprefix([header[::-1], self.header[::-1]]))
        return header if (self.offset + first) // SECTOR == (self.offset + last) // SECTOR else None

    def write(self, mailbox: Mailbox, header: bytes) -> None:
        """Writes what is new of the header, by one call, and syncs it. Raises Left if that is not what is read then."""
        same, text = len(os.path.commonprefix([header, self.header])), header + self.rest
        if not self.rest:
            text = text[: len(text) - len(os.path.commonprefix([text[::-1], self.header[::-1]]))]
        flags = fcntl.fcntl(mailbox.number, fcntl.F_GETFL)
        # the file is not opened anew, since its locks would be gone once that is closed
        fcntl.fcntl(mailbox.number, fcntl.F_SETFL, flags & ~os.O_APPEND)
        try:
            os.pwrite(mailbox.number, text[same:], self.offset + same)
        finally:
            fcntl.fcntl(mailbox.number, fcntl.F_SETFL, flags)
        os.fsync(mailbox.number)
        mailbox.digest = None
        mailbox.take_state()
        if mailbox.at(self.offset, len(header)) != header:
            raise Left(NOT_KEPT, Reason.CHANGED)


def without_blanks(header: bytes, count: int) -> Optional[bytes]:
    """A header with so many blanks fewer at the ends of the fields in which Dovecot keeps something; None if it has too
    few."""
    for field in reversed(fields_of(header)):
        value = field.value.rstrip(b"\r")
        blanks = min(count, len(value) - len(value.rstrip(b" ")))
        end = field.begin + len(value)
        header, count = header[: end - blanks] + header[end:], count - blanks
    return None if count else header


class Numbering:
    """What one mailbox says of UIDs and keywords, and the mail that goes back into it."""

    def __init__(self, name: str = "", listed: Optional[Listed] = None, is_numbered: bool = False) -> None:
        """`name` is that by which Dovecot knows the mailbox, if it does. `is_numbered` says whether the folder got the
        UIDs of the mailbox when it was migrated."""
        self.name, self.listed, self.is_numbered = name, listed, is_numbered
        self.remarks: list[Remark] = []
        self.next: Next = NOTHING
        # the keywords that the mailbox names, in lower case, and why it names no others
        self.named: set[bytes] = set()
        self.why = NO_ROOM
        # the field of the first message of an empty mailbox that says all this
        self.first = b""
        # whether the UIDs of the Maildir count, and the last one that was given
        self.is_same, self.given = False, 0
        # whether mail that went back may have keywords that the mailbox does not name; and the messages that were
        # looked at last, with their UIDs
        self.is_incomplete = False
        self.inventory = Inventory()
        self.uids: Sequence[int] = ()

    def goes_on(self, mailbox: Mailbox) -> bool:
        """Whether the Maildir goes on with the UIDs of an open mailbox."""
        line = UidLine.of(mailbox) if mailbox.size and self.is_numbered else None
        if line and self.listed and self.listed.validity == line.head.validity:
            self.is_same, self.given = True, max(line.head.last, self.listed.following - 1)
        return self.is_same

    def compare(self, ledger: Ledger, target: Target, are_known: Sequence[int]) -> None:
        """Has the Maildir go on no longer if a message of the text that was looked at has a UID that the Maildir has
        given to another one, or may have: the message did not come from the mailbox."""
        assert self.listed, "the Maildir goes on"
        names = [(line.message.name, line.message.core) for line in ledger.message_lines(None)]
        names += [(mail.before, mail.core) for mail in (*target.returned, *target.mails)]
        same, given = {(core, self.listed.uids.get(name)) for name, core in names}, {*self.listed.uids.values()}
        for place, uid in enumerate(self.uids):
            is_other = (self.inventory.core(place), uid) not in same and (uid in given or not are_known[place])
            if 0 < uid < self.listed.following and is_other:
                self.is_numbered = False

    def say(self, mailbox: Mailbox, target: Target, is_dry: bool) -> None:
        """Has the mailbox say what it is to say of its UIDs and keywords, before mail is appended: if that is
        interrupted, some UIDs are never given."""
        line, new = UidLine.of(mailbox) if mailbox.size else None, list[bytes]()
        if self.listed and len(self.listed.keywords) == LETTERS and (target.returned or target.mails):
            # further ones would be in Dovecot's index alone
            self.remarks.append(Says.KEYWORDS_FULL.of(LETTERS))
        if line:
            self.named = set(map(bytes.lower, line.head.keywords))
            new = self.raise_uids(mailbox, line, self.unnamed(target.mails), is_dry)
        elif mailbox.size:
            self.why = NO_UIDS
        elif self.listed:
            numbers, new = (self.listed.validity, self.listed.following - 1), self.unnamed(target.mails)
            self.first, self.is_same = b" ".join([b"X-IMAPbase: %d %010d" % numbers, *new]), True
        self.named.update(map(bytes.lower, new))
        self.is_incomplete = bool(self.unnamed([*target.returned, *target.mails]))

    def raise_uids(self, mailbox: Mailbox, line: UidLine, names: Sequence[bytes], is_dry: bool) -> list[bytes]:
        """Has the first message say all that it has room for; of the rest, says what has Dovecot write it. Returns the
        keywords among these for which there is room."""
        head, new = line.head, list[bytes]()
        several = ((one, line.header_with(one, [])) for one in self.heads_wanted(head))
        wanted, header = next(pair for pair in several if pair[1])
        for name in names:
            longer = line.header_with(wanted, [*new, name])
            if longer:
                header, new = longer, [*new, name]
        self.is_same, self.given = self.listed is not None and self.listed.validity == wanted.validity, wanted.last
        if wanted.last > head.last:
            self.remarks.append(Says.UIDS_RAISED.of(wanted.last + 1))
        if wanted.validity != head.validity:
            self.remarks.append(Says.UIDS_ANEW.of("its UIDVALIDITY is %d now" % wanted.validity))
        if header and header != line.header and not is_dry:
            line.write(mailbox, header)
        return new

    def heads_wanted(self, head: MailboxHead) -> Iterator[MailboxHead]:
        """What a mailbox with this head is to say: the first of these for which it has room. There always is some for
        another UIDVALIDITY of as many digits."""
        listed = self.listed.validity if self.listed else 0
        if self.listed and listed == head.validity and self.is_numbered:
            yield head._replace(last=max(head.last, self.listed.following - 1))
        elif listed != head.validity and not self.is_numbered:
            yield head
        moment, above = int(time.time()), max(head.validity, listed) + 1
        below = range(10 ** len(str(head.validity)) - 1, 0, -1)
        for one in itertools.chain([max(moment, above), moment, above], below):
            if one not in (head.validity, listed) and one <= MOST_VALIDITY:
                yield head._replace(validity=one)

    def keywords(self, mail: Mail) -> list[bytes]:
        """The keywords of a file."""
        of_letters = self.listed.keywords if self.listed else {}
        return [of_letters[letter] for letter in letters_of(mail.name) if letter in of_letters]

    def unnamed(self, mails: Iterable[Mail]) -> list[bytes]:
        """The keywords of files that the mailbox does not name, in their order."""
        return sorted({one for mail in mails for one in self.keywords(mail) if one.lower() not in self.named})

    def take(self, mailbox: Mailbox, inventory: Inventory) -> None:
        """Takes the UIDs of the messages that are in a text."""
        if self.is_same or self.is_incomplete:
            found = FromHeaders()
            found.last = self.given
            for header in headers_at(mailbox, inventory.offsets[:-1]):
                found.add(header)
            self.inventory, self.uids = inventory, found.uids

    def uid(self, mail: Mail) -> int:
        """The UID of a file that its message keeps; a higher number than any if it gets a new one."""
        return self.listed.uids.get(mail.before, NONE) if self.listed and self.is_same else NONE

    def fields_to_write(self, mails: Iterable[Mail]) -> Iterator[list[bytes]]:
        """The fields of each of these messages, which go back in this order. Dovecot gives a UID to what gets none."""
        first, last = self.first, max(self.uids, default=0)
        for mail in mails:
            fields, uid = [first] * bool(first), self.uid(mail)
            first = b""
            if last < uid < NONE:
                fields.append(b"X-UID: %d" % uid)
                last = uid
            names = [one for one in self.keywords(mail) if one.lower() in self.named]
            yield fields + [b"X-Keywords: " + b" ".join(names)] * bool(names)

    def add_keywords(self, mails: Sequence[Mail], is_dry: bool) -> None:
        """Has Dovecot add the keywords that the mailbox does not name to the messages of files, the last of which went
        back last, in the text that was looked at last. Of equal messages, the last ones went back."""
        wanted: dict[bytes, list[int]] = {name: [] for name in self.unnamed(mails)}
        if not wanted:
            return
        uids: collections.defaultdict[bytes, list[int]] = collections.defaultdict(list)
        for place, uid in enumerate(self.uids):
            uids[self.inventory.core(place)].append(uid)
        for mail in reversed(mails):
            uid = uids[mail.core].pop() if uids[mail.core] else 0
            for name in self.unnamed([mail]) if uid else ():
                wanted[name].append(uid)
        names = [name for name, its in wanted.items() if its or is_dry]
        if names:
            self.remarks.append(Says.KEYWORDS_ADDED.of(self.why, first_of(names, " ")))
        several: collections.defaultdict[str, list[str]] = collections.defaultdict(list)
        for name in names if not is_dry else ():
            several[ranges_of(wanted[name])].append(text_of(name))
        for ranges, its in several.items():
            words = *["--"] * its[0].startswith("-"), " ".join(its), "mailbox", self.name, "uid", ranges
            self.next += run_next(Runs.ADD_FLAGS, *of_this_user(), *words, does=Does.ADD_KEYWORDS)


def of_this_user() -> list[str]:
    """The option by which a command of doveadm concerns whoever runs this: 2.4 looks up no user without it."""
    try:
        return ["-u", pwd.getpwuid(os.geteuid()).pw_name]
    except KeyError:
        return []


def ranges_of(uids: Iterable[int]) -> str:
    """Numbers as IMAP has a set of them."""
    ranges: list[list[int]] = []
    for uid in sorted(uids):
        if ranges and uid == ranges[-1][1] + 1:
            ranges[-1][1] = uid
        else:
            ranges.append([uid, uid])
    return ",".join("%d" % low if low == high else "%d:%d" % (low, high) for low, high in ranges)
