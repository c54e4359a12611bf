"""What a mailbox needs on a disk that has too little, and of which disk that is said."""
import gzip
from pathlib import Path
from typing import NamedTuple

from tests.support.checks import equal, matches
from tests.support.homes import by_json, check_all, fake, hand_over, mailbox, want_users
from tests.support.mail import A, ONE, THREE, TWO, numbered
from tests.support.mounts import small_disk
from tests.support.running import OWNER, Desk

COPIES = " (--dry-run and kind make copies there or where TMPDIR says, other runs on the Maildir's disk)"
# a text of which a copy is made
CRLF = (A + b"\n" + b"x" * 74 + b"\n").replace(b"\n", b"\r\n") + b"y\r\n" * 500_000
LABELLED = CRLF.replace(b"\r\n", b"\r\nX-GM-THRID: 1\r\nX-Gmail-Labels: Inbox\r\n", 1)
PACKED = gzip.compress(A + b"\n" + bytes(5 << 20) + b"\n")


class Short(NamedTuple):
    """A mailbox, the words of a command, the size of the disk, and what is said of that, as messages are 4096 bytes
    there, and lines of the ledger 140."""

    text: bytes
    words: str
    disk: str
    says: str


ROWS = [
    Short(numbered("one", 300), "migrate --now disk/M box", "1m", "space in disk/M: it needs 1.3 MB, and ..."),
    Short(CRLF, "migrate --now disk/M box", "1m", "space in disk: it needs 1.5 MB, and 1.0 MB are free"),
    Short(LABELLED, "migrate --now --labels disk/M box", "1m", "space in disk: it needs 1.5 MB, and 1.0 MB are free"),
    Short(CRLF, "migrate --now --dovecot disk/M box", "2m", "space in disk: it needs 3.0 MB, and 2.1 MB are free"),
    Short(CRLF, "migrate --now --dry-run M box", "1m", f"space in disk: it needs 1.5 MB, and 1.0 MB are free{COPIES}"),
    # what is packed is counted first
    Short(PACKED, "migrate --now disk/M box", "4m", "space in disk: unpacked it has more than the 4.2 MB that ..."),
    # a file for each message, the ledger, three folders, a mark and the record
    Short(ONE + TWO + THREE, "migrate --now disk/M box", "1m,nr_inodes=8", "inodes: it needs 9, and 7 are free"),
]


def needs(home: Path) -> None:
    """Each mailbox is left before anything is placed, and done where there is room."""
    want_users()
    for row in ROWS:
        mailbox(home / "box", row.text)
        words, settings = row.words.split(), {"TMPDIR": str(home / "disk")} if "--dry-run" in row.words else {}
        with small_disk(home / "disk", row.disk):
            found = by_json(words, home, **settings).row
            says = found["says"].replace(f"{home}/", "").split("; ")[0]
            matches(row.words, says, f"not enough {row.says}")
            equal("what was made", [*(home / "disk").iterdir()], [])
        with small_disk(home / "disk", "20m"):
            equal(row.words, by_json(words, home, **settings).status, 0)


def in_a_closed_folder(home: Path) -> None:
    """Where TMPDIR lets its user make no file, copies are made as without it."""
    (home / "closed").mkdir(0o555)
    hand_over(mailbox(home / "box", CRLF), home / "closed")
    ran = Desk(home, user=OWNER, TMPDIR=str(home / "closed")).run("migrate --dry-run --now M box".split())
    equal(ran.output, ran.status, 0)


def of_two_at_once(home: Path) -> None:
    """Of two mailboxes that fit alone, one is done, though there was room for the other when it was looked at. Nothing
    of that is placed."""
    want_users()
    fake(home, 'sleep 1; "$real" "$@"')
    for name in "ab":
        mailbox(home / "old" / name, numbered(name, 300))
    with small_disk(home / "disk", "2m"):
        rows = by_json("migrate --now --jobs 2 disk/M old", home).rows
        equal("one after the other", sorted(row["reason"] or row["verdict"] for row in rows), ["done", "no-room"])
        equal("how many messages are there", len([*(home / "disk").rglob("new/*")]), 300)


def filled_meanwhile(home: Path) -> None:
    """Others fill the disk once there was room for a mailbox: the same command goes on later."""
    want_users()
    mailbox(home / "box", numbered("one", 100))
    fake(home, f'test -e {home}/filled || cat /dev/zero 2>{home}/filled >{home}/disk/filler; exec "$real" "$@"')
    with small_disk(home / "disk", "2m"):
        row = by_json("migrate --now disk/M box", home).row
        equal(row["says"], row["reason"], "no-room")
        (home / "disk/filler").unlink()
        equal("with room", by_json("migrate --now disk/M box", home).status, 0)


if __name__ == "__main__":
    check_all(needs, in_a_closed_folder, of_two_at_once, filled_meanwhile)
