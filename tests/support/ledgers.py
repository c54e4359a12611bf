"""The ledgers of a Maildir, as tests see and change them."""
import fcntl
import os
import re
from contextlib import suppress
from pathlib import Path

RECORD, LEDGER, PREPARED = "mbox2maildir-record", "mbox2maildir-messages", "mbox2maildir-prepared"
# what may be in the folders of a Maildir, besides mail
FILES = re.compile(rf"{RECORD}|{LEDGER}|{PREPARED}|maildirfolder|subscriptions|dovecot[-.].*")
# a line which says that what a batch brought was verified
END = re.compile(rb"=\t\d+\n")
# what is another one in each run: the number of a ledger, with its size, when a step was taken, when a batch was begun,
# and when names in `tmp`, `new` and `cur` had changed
CHANCE = re.compile(
    rb"(?m)(?<=^mbox2maildir\t3\t)[0-9a-f]{32}|\b[0-9a-f]{32}-\d+(?=-\d+$)|\t\d+-\d+-\d+T[\d:]+Z|\b\d+\t\d+,\d+,\d+\b"
)


def without_chance(path: Path) -> bytes:
    """What is in a record, a ledger or another file, without what is another one in each run."""
    text = path.read_bytes()
    return CHANCE.sub(b"", text) if path.name in (RECORD, LEDGER) else text


def besides(maildir: Path) -> list[str]:
    """What is in a Maildir or beside it that nobody needs there: files in `tmp`, and what a run has made for itself."""
    folders = [maildir, *(path for path in maildir.glob(".*") if (path / "cur").is_dir())]
    several = [path for folder in folders for path in folder.glob("*") if path.name not in ("new", "cur", "tmp")]
    several += [path for folder in folders for path in folder.glob("tmp/*")]
    strange = [path for path in several if path not in folders and not FILES.fullmatch(path.name)]
    strange += [path for form in ("**/*.lock", "**/.mbox2maildir-*") for path in maildir.parent.glob(form)]
    return sorted(f"{os.path.relpath(path, maildir)}?" for path in strange)


def ends_in(maildir: Path) -> int:
    """How many batches in the folders of a Maildir were verified."""
    several = (path.read_bytes().splitlines(True) for path in maildir.rglob(LEDGER))
    return sum(END.fullmatch(line) is not None for lines in several for line in lines)


def wait_for_lock(maildir: Path) -> None:
    """Waits until what a killed run has started has ended too, and nobody has the record of a Maildir locked."""
    with suppress(FileNotFoundError), open(maildir / RECORD, "rb") as record:
        fcntl.flock(record, fcntl.LOCK_EX)


def as_if_killed(maildir: Path) -> None:
    """Takes back that any mailbox of a Maildir is done, as if its run had been killed once all mail was there."""
    record = maildir / RECORD
    first, *lines = record.read_bytes().splitlines(True)
    record.write_bytes(first + b"".join(line for line in lines if not line.startswith(b"done\t")))
    take_back_ends(maildir)


def take_back_ends(maildir: Path) -> None:
    """Takes back that anything in the folders of a Maildir was verified, as if each run had been killed before that."""
    for path in maildir.rglob(LEDGER):
        lines = path.read_bytes().splitlines(True)
        path.write_bytes(b"".join(line for line in lines if not END.fullmatch(line)))
