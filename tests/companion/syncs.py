"""Each sync that a power cut makes necessary, and what comes before and after it, as strace shows what the companion
calls. What the program itself syncs is not shown. tests/world/powercut.py, which is run by hand, shows what a cut
leaves."""
import os
import re
import shutil
import sys
from collections.abc import Sequence
from pathlib import Path

from tests.support.checks import equal
from tests.support.homes import ADMIN, check_all, expect, mailbox, want_strace
from tests.support.mail import ONE, TWO
from tests.support.running import Desk

CALLS = "fsync,fdatasync,syncfs,write,pwrite64,link,linkat,rename,renameat,renameat2,unlink,unlinkat"
# a call, and the last path in its words that is named or open
CALL = re.compile(r"^(?:\d+ +)?(\w+?)(?:at2?|64)?\((.*)\) += (?!-1 )", re.MULTILINE)
NAMES = {"fsync": "sync", "fdatasync": "sync", "syncfs": "sync all of", "pwrite": "write", "unlink": "remove"}
BATCH = ["write M/mbox2maildir-messages", "sync M/mbox2maildir-messages"]
NOTE = ["write M/mbox2maildir-record", "sync M/mbox2maildir-record"]
# nothing is lost with the index, which is written in the end
INDEX = "write M/mbox2maildir-record"
MADE, PLACED = ["sync M", "sync ."], ["write M/mbox2maildir-messages", "sync all of M"]
LATER = ONE.replace(b"one", b"later").replace(b"\nSubject", b"\nX-UID: 4\nSubject")
NUMBERED, RAISED = (ONE.replace(b"\nSubject", b"\nX-IMAPbase: 222 %d\nX-UID: 3\nSubject" % last) for last in (3, 4))
LOCK, UNNAMED = "M/dovecot-uidlist.lock", "M/.mbox2maildir.dovecot-uidlist.lock"
PART = "M/tmp/mbox2maildir-admin-dovecot-uidlist"
LISTED = [f"write {PART}", f"sync {PART}", "link M/dovecot-uidlist", f"remove {PART}", "sync M"]
REPLACED = [
    *(f"write {UNNAMED}", f"sync {UNNAMED}", f"link {LOCK}", f"remove {UNNAMED}"),
    *("rename M/dovecot-uidlist", "sync M"),
]
UIDS = "--dovecot M"
# mail that goes back: the copy beside the mailbox, the ledger, the mailbox, each on the disk before the next one
BESIDE, LIST = "M/.a/mbox2maildir-back", "mail/.subscriptions"
RETURNED = [
    *[f"write {BESIDE}.new"] * 2,
    *(f"sync {BESIDE}.new", f"rename {BESIDE}", "sync M/.a"),
    *("write M/.a/mbox2maildir-messages", "sync M/.a/mbox2maildir-messages"),
    *("write mail/a", "sync mail/a", f"remove {BESIDE}", "sync M/.a"),
    *("write M/.a/mbox2maildir-messages", "sync M/.a/mbox2maildir-messages"),
]
SUBSCRIBED = [f"write {LIST}.mbox2maildir-back", f"sync {LIST}.mbox2maildir-back", f"rename {LIST}", "sync mail"]
FLAGS = ["sync M/cur", "sync M/new"]
FLAGGED = ONE.replace(b"\nSubject", b"\nX-Mozilla-Status: 0001\nSubject")
# the mailbox before, and the words of a first run of `migrate`; the mailbox, the words, and what the run calls then
RUNS = (
    # all names are on the disk, each folder synced once, before the first line of a file is written
    (b"", "", ONE, "M", [*MADE, *BATCH, *PLACED, *BATCH, INDEX]),
    (ONE, "M", ONE, "M", []),
    (ONE, "M", ONE + TWO, "M", [*BATCH, *PLACED, *BATCH, INDEX]),
    (ONE, "M", ONE, "--undo M", [*BATCH, "remove NEW", "sync M", *FLAGS, *BATCH, INDEX]),
    (b"", "", FLAGGED, "M", [*MADE, *BATCH, PLACED[0], "rename CUR", *FLAGS, PLACED[1], *BATCH, INDEX]),
    # what the record says of a list comes before it
    (b"", "", NUMBERED, UIDS, [*MADE, *BATCH, PLACED[0], *NOTE, *FLAGS, *NOTE, *LISTED, PLACED[1], *BATCH, INDEX]),
    (NUMBERED, UIDS, RAISED + LATER, UIDS, [*BATCH, PLACED[0], *FLAGS, *NOTE, *REPLACED, PLACED[1], *BATCH, INDEX]),
)  # type: Sequence[tuple[bytes, str, bytes, str, list[str]]]


def called(home: Path, words: Sequence[str]) -> list[str]:
    """What the companion calls of files below a folder in a run that ends well."""
    path = home.parent / "trace"
    strace = ["/usr/bin/env", "strace", "-qq", "-y", "-e", "signal=none", "-e", f"trace={CALLS}", "-o", str(path)]
    ran = Desk(home).run([*strace, sys.executable, "-I", "-S", "-B", str(home / "bin" / ADMIN.name), *words])
    equal(f"{words}: {ran.output}", ran.status, 0)
    return [one for one in (named(home, *call) for call in CALL.findall(path.read_text())) if one]


def named(home: Path, name: str, words: str) -> str:
    """A call by its name and path; empty if it is of a file that is elsewhere or has no name. All files of messages
    have one name here."""
    found = re.findall(r'<([^<>]*)>|"((?:/|M|mail)[^"]*)"', words if name != "write" else words.split(",")[0])
    path = os.path.relpath(os.path.join(home, "".join(found[-1])), home) if found else ".."
    path = re.sub(r"M/(new|cur)/[0-9a-f]{64}\S*", lambda its: its[1].upper(), path)
    return "" if path.startswith("..") or "#" in path else f"{NAMES.get(name, name)} {path}"


def runs(home: Path) -> None:
    """Nothing is done to a Maildir before what it needs is on the disk."""
    want_strace()
    for before, first, text, words, wanted in RUNS:
        shutil.rmtree(home / "M", ignore_errors=True)
        if before:
            mailbox(home / "box", before)
            expect(["migrate", "--now", *first.split(), "box"], home, 0, None)
        mailbox(home / "box", text)
        equal(f"{before!r}, {words}", called(home, ["migrate", "--now", *words.split(), "box"]), wanted)


def returns(home: Path) -> None:
    """A mailbox and the list of a tree are whole, whatever ends `back`."""
    want_strace()
    mailbox(home / "mail/a", ONE)
    (home / LIST).write_bytes(b"")
    expect(["migrate", "--dovecot", "--now", "M", "mail"], home, 0, None)
    (home / "M/.a/new/1.a.b").write_bytes(TWO.split(b"\n", 1)[1])
    with open(home / "M/subscriptions", "a", encoding="ascii") as file:
        file.write("a\n")
    calls = [one for one in called(home, ["back", "--dovecot", "M", "mail"]) if ".lock" not in one]
    equal("calls", calls, [*RETURNED, *SUBSCRIBED, INDEX])


if __name__ == "__main__":
    check_all(runs, returns)
