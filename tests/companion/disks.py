"""Disks that fail, are full, or lack a call: what `migrate` says of a mailbox then, and what the next run does. strace
has calls of the system fail, in a run and in what it starts."""
import shutil
from functools import partial
from pathlib import Path
from typing import NamedTuple

from tests.support.cases import run_cases
from tests.support.checks import equal, matches
from tests.support.homes import at_home, expect, fake, hand_over, mailbox, make_maildir, subjects, want_strace
from tests.support.ledgers import LEDGER, RECORD
from tests.support.mail import A, ONE, TWO
from tests.support.running import OWNER, Desk

FAILS = "mbox2maildir: folder call ... failed, which %s; "
LISTS, WRITES = FAILS % "lists new", FAILS % "removes a leftover, or writes or places a message"
SYNC_FAILED = "left (sync-failed): its sync failed: read the system's log and mount the disk again ..."


# what is said of both mailboxes
EACH = "".join(f"{name} -> INBOX: mboxrd or mboxo, messages 1: {{0}}\n" for name in ("box", "two")) + "...\n"


class Failing(NamedTuple):
    """A call that fails, and with what path; what is said of each mailbox then, and by the next run, or what is all."""

    call: str
    path: str
    says: str
    then: str = "done..."


CALLS = {
    "a_sync": Failing("syncfs:error=EIO", "", SYNC_FAILED, SYNC_FAILED),
    "a_sync_of_new": Failing("fsync:error=EIO", "M/new", SYNC_FAILED, SYNC_FAILED),
    # nothing is wrong with the ledger
    "no_room_for_a_line": Failing(
        "write:error=ENOSPC", f"M/{LEDGER}", f"left (no-room): M/{LEDGER}: No space left on device"
    ),
    "no_such_sync": Failing("syncfs:error=ENOSYS", "", "done...", "2 mailboxes: 2 done before\n"),
    "no_sync_of_folders": Failing(
        "fsync:error=EINVAL",
        "M/new",
        f"left (convert-failed): {LISTS}its disk cannot sync folders: Invalid argument; ...",
    ),
    "no_locks": Failing(
        "flock:error=ENOLCK", "", f"mbox2maildir-admin: M/{RECORD}: it cannot be locked: No locks available\n"
    ),
    "a_rename": Failing(
        "rename:error=EIO",
        "",
        f"left (convert-failed): {WRITES}could not rename a file in tmp: Input/output error; ...",
    ),
}


def attempt(home: Path, one: Failing) -> None:
    """Migrates two mailboxes while a call fails, and again. What failed once stays so until --again."""
    want_strace()
    make_maildir(home / "M")
    for name, text in (("box", ONE), ("two", TWO)):
        mailbox(home / name, text)
    place = ["-P", str(home / one.path)] if one.path else ["-e", f"trace={one.call.split(':')[0]}"]
    strace = ["/usr/bin/env", "strace", "-f", "-qq", "-o", "/dev/null", *place, "-e", f"inject={one.call}"]
    words = ["migrate", "--all", "--now", "M", "box", "two"]
    ran = Desk(home).run([*strace, home / "bin/mbox2maildir-admin", *words])
    for ran, says in ((ran, one.says), (Desk(home).run(words), one.then)):
        matches(one.call, ran.output, says if says.endswith("\n") else EACH.format(says))
    expect([*words, "--again"], home, 0, None)
    equal("what is there", subjects(home / "M"), ["one", "two"])
    equal("what is left in tmp", list((home / "M/tmp").iterdir()), [])


NEW = "done\n1 mailbox: 1 done\n"
# what is done to a Maildir while the program lists it, or before, and what is said of a mailbox whose mail is read
SPOILT = {
    "mkdir M/new/$(printf '\\377')": f"{LISTS}a name is not UTF-8: M/new/\\xff; 0 of 1 messages are there",
    "chmod 500 M/cur": f"{WRITES}could not write in cur: Permission denied; 0 of 1 messages are there",
    "chmod 500 M/tmp": f"{WRITES}could not make a file in tmp: Permission denied; ...",
    "(for n in $(seq 99); do touch M/new/$n; sleep 0.1; done) >&- 2>&- &": f"{LISTS}names in it keep changing; ...",
}


def spoilt(home: Path) -> None:
    """The program fails, and the row says what is wrong with the Maildir."""
    for deed, says in SPOILT.items():
        hand_over(make_maildir(home / "M"), mailbox(home / "box", A + b"Status: RO\n\nhello\n\n"), home)
        says_so = "echo 'mbox2maildir: folder call 2 failed' >&2; exit 1"
        fails = says_so if "sleep" in deed else 'exec "$real" "$@"'
        fake(home, f"(cd '{home}'; {deed}\n)\n{fails}")
        ran = Desk(home, user=OWNER).run("migrate --all --now M box".split())
        matches(deed, ran.output, f"box -> INBOX: mboxrd or mboxo, messages 1: left (convert-failed): {says}\n...\n")
        shutil.rmtree(home / "M")


def closed(home: Path) -> None:
    """Nobody can list what is in a folder that cannot be entered: the folder shows why."""
    hand_over(mailbox(home / "closed/box", ONE), home / "closed")
    (home / "closed").chmod(0)
    ran = Desk(home, user=OWNER).run("kind closed/box".split())
    matches("kind", ran.output, "closed/box: left (error): Permission denied\n    run this next:\n ... ls -ld closed\n")


if __name__ == "__main__":
    cases = {name: partial(at_home, partial(attempt, one=one)) for name, one in CALLS.items()}
    run_cases({**cases, **{one.__name__: partial(at_home, one) for one in (spoilt, closed)}})
