"""Programs that keep what they know of messages in headers of a mailbox, and programs that deliver into a Maildir."""
import re
import shutil
from collections.abc import Callable, Sequence
from functools import partial
from pathlib import Path
from typing import NamedTuple, Optional

from tests.support.cases import Failed
from tests.support.copies import Copies
from tests.support.dovecot.settings import settings_here
from tests.support.homes import own_dovecot
from tests.worlds.letters import field_of, with_fields

# by their pages: the bits of X-Mozilla-Status, of X-Evolution, and the labels of Gmail
MOZILLA = {"S": 0x1, "R": 0x2, "F": 0x4, "P": 0x1000}
CAMEL = {"R": 0x1, "T": 0x2, "D": 0x4, "F": 0x8, "S": 0x10, "P": 0x400}
LABELS = {"S": b"Opened", "F": b"Starred"}
VALIDITY = 1700000000
LINE = re.compile(rb"(\d+) .*?:(.*)")
# delivers a message into a folder
Deliver = Callable[[str, bytes], None]


class Keeper(NamedTuple):
    """A program that keeps flags in each message: the fields of message N with these flags, the flags of a message, if
    it has these fields, and the names of all its fields, in lower case."""

    fields: Callable[[int, str], bytes]
    flags: Callable[[bytes], Optional[str]]
    names: Sequence[bytes]


def bits(flags: str, table: dict[str, int]) -> int:
    """The number of flags."""
    return sum(bit for flag, bit in table.items() if flag in flags)


def flags_in(digits: bytes, table: dict[str, int]) -> Optional[str]:
    """The flags of four hexadecimal digits; None for anything else."""
    if not re.fullmatch(rb"[0-9a-f]{4}", digits):
        return None
    return "".join(flag for flag, bit in table.items() if int(digits, 16) & bit)


def flags_of_labels(message: bytes) -> Optional[str]:
    """The flags of Gmail's labels."""
    if not field_of(message, b"X-GM-THRID").isdigit():
        return None
    labels = field_of(message, b"X-Gmail-Labels").split(b",")
    return "".join(flag for flag, label in LABELS.items() if label in labels)


def gmail(number: int, flags: str) -> bytes:
    """Gmail's fields."""
    labels = b",".join([b"Inbox", *(label for flag, label in LABELS.items() if flag in flags)])
    return b"X-GM-THRID: %d\nX-Gmail-Labels: %s\n" % (number + 10**17, labels)


def evolution_digits(message: bytes) -> bytes:
    """The digits of flags in Evolution's field, whose number must be there."""
    found = re.fullmatch(rb"[0-9a-f]{8}-([0-9a-f]{4})", field_of(message, b"X-Evolution"))
    return found[1] if found else b""


KEEPERS = {
    "Thunderbird": Keeper(
        lambda _, flags: b"X-Mozilla-Status: %04x\nX-Mozilla-Status2: 00000000\n" % bits(flags, MOZILLA),
        lambda message: flags_in(field_of(message, b"X-Mozilla-Status"), MOZILLA),
        [b"x-mozilla-status", b"x-mozilla-status2", b"x-mozilla-keys"],
    ),
    "Evolution": Keeper(
        lambda number, flags: b"X-Evolution: %08x-%04x\n" % (number, bits(flags, CAMEL)),
        lambda message: flags_in(evolution_digits(message), CAMEL),
        [b"x-evolution"],
    ),
    "Gmail": Keeper(gmail, flags_of_labels, [b"x-gm-thrid", b"x-gmail-labels"]),
}


def with_numbers(messages: list[bytes]) -> list[bytes]:
    """Messages with the numbers that Dovecot gave them, and the blanks that it leaves; there are gaps between them."""
    last = 2 * len(messages) + 1
    heads = [b"X-IMAPbase: %d %010d\n" % (VALIDITY, last), *[b""] * len(messages)]
    return [
        with_fields(one, head + b"X-UID: %d          \n" % (2 * place + 1))
        for place, (one, head) in enumerate(zip(messages, heads))
    ]


class Numbered(NamedTuple):
    """UIDVALIDITY, the next UID, and the numbers of messages by their UIDs."""

    validity: int
    following: int
    uids: dict[int, int]


def numbers_of(messages: list[bytes], number_of: Callable[[bytes], int]) -> Optional[Numbered]:
    """The numbers of a mailbox as Dovecot reads them: a UID counts if UIDs rise and it was given; None if Dovecot has
    given it none."""
    base = re.match(rb"(\d+) (\d+)", field_of(messages[0], b"X-IMAPbase")) if messages else None
    if not base:
        return None
    last, following, found = 0, int(base[2]) + 1, {}
    for one in messages:
        given = field_of(one, b"X-UID").strip()
        uid = int(given) if given.isdigit() and last < int(given) < following else following
        found[uid] = number_of(one)
        last, following = uid, max(following, uid + 1)
    return Numbered(int(base[1]), following, found)


def listed_in(folder: Path, number_of: Callable[[bytes], int]) -> Optional[Numbered]:
    """The numbers of a folder of a Maildir, by the list of Dovecot; None if there is none."""
    path = folder / "dovecot-uidlist"
    if not path.exists():
        return None
    first, *lines = path.read_bytes().splitlines()
    head = {word[:1]: int(word[1:]) for word in first.split() if word[:1] in (b"V", b"N")}
    files = {path.name.partition(":")[0]: path for sub in ("new", "cur") for path in (folder / sub).iterdir()}
    uids = {}
    for found in filter(None, map(LINE.fullmatch, lines)):
        name = found[2].decode().partition(":")[0]
        uids[int(found[1])] = number_of(files[name].read_bytes()) if name in files else 0
    return Numbered(head[b"V"], max([head[b"N"], *(uid + 1 for uid in uids)]), uids)


class Deliveries:
    """What delivers into a Maildir as its owner."""

    def __init__(self, place: Copies, maildir: Path) -> None:
        self.place, self.maildir = place, maildir

    def programs(self) -> list[Deliver]:
        """Procmail, and Dovecot's LDA, if they are installed."""
        own_dovecot(self.place.programs)
        has_lda = (self.place.programs / "dovecot-lda").exists()
        several = [(self.by_procmail, bool(shutil.which("procmail"))), (self.by_lda, has_lda)]
        return [partial(self.run, program) for program, is_there in several if is_there]

    def run(self, program: Callable[[str], list[str]], folder: str, message: bytes) -> None:
        """Has a program deliver a message into a folder."""
        path = self.place.home / "message"
        path.write_bytes(message)
        self.place.own(path)
        words = " ".join(program(folder))
        ran = self.place.in_shell(f"HOME={self.place.home} exec {words} <{path}")
        if ran.status:
            raise Failed(f"{words}: {ran.status}: {ran.output}")
        path.unlink()

    def by_procmail(self, folder: str) -> list[str]:
        """The command of procmail."""
        return ["procmail", "-f", "alva@example.org", f"DEFAULT={self.maildir}/{folder}/", "/dev/null"]

    def by_lda(self, folder: str) -> list[str]:
        """The command of Dovecot's LDA."""
        into = settings_here().options(self.maildir)
        made = "-olda_mailbox_autocreate=yes"
        return ["dovecot-lda", "-e", "-f", "alva@example.org", "-m", folder[1:] or "INBOX", made, *into]
