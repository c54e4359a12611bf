"""mbox2maildir-admin migrate --dovecot: the list of UIDs and the subscriptions that it writes, which Dovecot may have
changed by the next run, or a kill have left. What the fields of headers give is in tests/tables/hidden_fields.py."""
import fcntl
import itertools
import os
import shutil
import signal
from pathlib import Path

from tests.support.checks import LATER, equal
from tests.support.copies import Copies, Meanwhile
from tests.support.homes import (
    by_json,
    check_all,
    checks_in,
    expect,
    fake,
    mail_in,
    mailbox,
    make_maildir,
    restore,
    subjects,
)
from tests.support.ledgers import RECORD, take_back_ends
from tests.support.mail import ONE
from tests.support.running import BY_OTHERS, Kill, Run

HEAD = "From a@b Mon Mar  3 09:12:44 2025\n"
MIGRATE = ["migrate", "--dovecot", "--now", "M"]
NEW = "Dovecot gives what is new its UIDs"
LOOKED = "dovecot.index.log is there: Dovecot has looked at this folder and keeps the UIDs that it gave"


def text_of(*fields: str, base: str = "222 9") -> bytes:
    """A mailbox of messages that have these fields, of which Dovecot has numbered some."""
    several = [f"X-IMAPbase: {base} Foo\n{fields[0]}", *fields[1:]]
    return "".join(f"{HEAD}{its}Subject: {place}\n\nhello\n\n" for place, its in enumerate(several)).encode()


FIELDS = "X-UID: 5\nX-Keywords: Foo\n", "X-UID: 7\nStatus: R\n"
THIRD, FOURTH = "X-UID: 9\nX-Keywords: Bar\n", "X-UID: 12\n"
# the first line of a list as Dovecot may have changed it, and what it is once the mailbox has given UID 12
RAISED = {
    "3 V222 N10": "3 V222 N13",
    "3 V222 N10 Gab": "3 V222 N13 Gab",
    "3 Gab V222 N10": "3 Gab V222 N13",
    "3 V222 N12": "3 V222 N13",
    "3 V222 N13": "3 V222 N13",
    "3 V223 N10": "3 V223 N10",
    "1 222 10": "1 222 10",
}


def migrated(home: Path, text: bytes, name: str = "box") -> Run:
    """Migrates a mailbox with its UIDs."""
    mailbox(home / name, text)
    return by_json([*MIGRATE, name], home)


def listed(home: Path) -> tuple[str, list[str]]:
    """The first line of the list, and the UIDs with the flags of their files, which must be there."""
    first, *lines = (home / "M/dovecot-uidlist").read_text().splitlines()
    equal("the files", {line.split(" :")[1] for line in lines} <= {path.name for path in mail_in(home / "M")}, True)
    return first, [line.split(" :")[0] + line.partition(":2,")[2] for line in lines]


def forget(maildir: Path, count: int) -> None:
    """Takes back the last lines of the record, as if a run had been killed before these."""
    record = maildir / RECORD
    record.write_bytes(b"".join(record.read_bytes().splitlines(True)[:-count]))
    take_back_ends(maildir)


def uids_given_meanwhile(home: Path) -> None:
    """Dovecot served the mailbox after it was done, so what is new gets higher UIDs. Of a list that Dovecot has changed
    nothing else changes, and no undo removes it."""
    for was, then in RAISED.items():
        equal("done", migrated(home, text_of(*FIELDS)).status, 0)
        path = home / "M/dovecot-uidlist"
        rest = path.read_text().split("\n", 1)[1]
        path.write_text(f"{was}\n{rest}")
        row = migrated(home, text_of(*FIELDS, FOURTH, base="222 12")).row
        found = ([one["says"] for one in row["remarks"]], path.read_text())
        equal(was, found, (["it grew by 1 message", NEW], f"{then}\n{rest}"))
        expect("migrate --undo --now M box", home, 0, None)
        equal(f"{was}: whether it stays", path.exists(), was != "3 V222 N10")
        shutil.rmtree(home / "M")


def who_changes_the_list(home: Path) -> None:
    """Dovecot has locked the list, or changes it meanwhile. A lock of more than two minutes counts for nothing."""
    path, says = home / "M/dovecot-uidlist", "Dovecot is changing M/dovecot-uidlist"
    migrated(home, text_of(*FIELDS))
    before = path.read_text()
    lock = mailbox(path.with_name("dovecot-uidlist.lock"), b"", 0)
    ran = migrated(home, text_of(*FIELDS, FOURTH, base="222 12"))
    equal("locked", (ran.status, ran.row["reason"], ran.row["says"]), (LATER, "locked", says))
    equal("what is next", ran.row["next"], [{"task": "stop Dovecot, and run the same command again"}])
    mailbox(lock, b"")
    changes = Meanwhile(home, "open", "uidlist.lock$", lambda _: None if path.write_text(f"{before}12 :a\n") else None)
    row = changes.run([*MIGRATE[:1], "--json", *MIGRATE[1:], "box"]).row
    equal("changed", (row["reason"], row["says"], lock.exists()), ("changed", says, False))
    lock.symlink_to("nothing")
    os.utime(lock, (0, 0), follow_symlinks=False)
    equal("an old lock", migrated(home, text_of(*FIELDS, FOURTH, base="222 12")).status, 0)
    equal("the list", (path.read_text(), lock.exists()), (f"{before}12 :a\n".replace("N10", "N13"), False))


def moved_by_a_killed_run(home: Path) -> None:
    """A run is killed while it notes that a mailbox was moved: the folder keeps the UIDs that it has from it."""
    for event in itertools.count(1, 2):
        migrated(home, text_of(*FIELDS))
        (home / "box").rename(home / "moved")
        killed = Copies(home, home / "bin").run([*MIGRATE, "moved"], Kill(event=event))
        row = by_json([*MIGRATE, "moved"], home).row
        equal(f"{event}: what is said", (row["verdict"], row["remarks"]), ("done before", []))
        shutil.rmtree(home / "M")
        if not killed.is_killed:
            break


def undone_once_moved(home: Path) -> None:
    """The undo of a mailbox that was moved takes its list of UIDs away, so that the next one keeps its own."""
    migrated(home, text_of(*FIELDS))
    (home / "box").rename(home / "moved")
    equal("undone", by_json(["migrate", "--undo", "--now", "M", "moved"], home).row["verdict"], "undone")
    row = migrated(home, text_of("X-UID: 4\n", base="333 4"), "other").row
    equal("the list of the next one", (row["remarks"], listed(home)), ([], ("3 V333 N5", ["4"])))


def left_by_a_killed_run(home: Path) -> None:
    """A lock that has a list in it is a run's. If that is no longer at work, the next run goes on at once."""
    migrated(home, text_of(*FIELDS))
    lock = mailbox(home / "M/dovecot-uidlist.lock", b"3 V222 N13\n5 :a", 0)
    with lock.open("rb") as held:
        fcntl.flock(held, fcntl.LOCK_SH)
        ran = migrated(home, text_of(*FIELDS, FOURTH, base="222 12"))
        equal("at work", (ran.status, ran.row["reason"], lock.exists()), (LATER, "locked", True))
    equal("killed", by_json([*MIGRATE, "box"], home).status, 0)
    equal("the list, and what is left", (listed(home)[0], lock.exists()), ("3 V222 N13", False))


def begun(home: Path) -> None:
    """A run was killed before it was done. The next one writes the files as it finds the mailbox then, unless Dovecot
    has looked at the folder meanwhile."""
    for fields in FIELDS[:1], (*FIELDS, THIRD), FIELDS:
        shutil.rmtree(home / "M", ignore_errors=True)
        migrated(home, text_of(*FIELDS))
        forget(home / "M", 1)
        part = home / "M/tmp/mbox2maildir-admin-dovecot-uidlist"
        os.link(home / "M/dovecot-uidlist", part)
        base = "222 9 Foo Bar" if THIRD in fields else "222 9"
        equal("goes on", migrated(home, text_of(*fields, base=base)).status, 0)
        equal("the list", listed(home), ("3 V222 N10", ["5a", "7S", "9b"][: len(fields)]))
        equal("a part of the list", part.exists(), False)
    forget(home / "M", 4)
    for path in (home / "M").glob("dovecot-*"):
        path.unlink()
    (home / "M/dovecot.index.log").touch()
    row = migrated(home, text_of(*FIELDS)).row
    equal("without", [one["says"] for one in row["remarks"]][-1], f"without its UIDs, because {LOOKED}")


def brought_by_another_program(home: Path) -> None:
    """The first message is there under a name that another program gave it: the second one keeps its UID."""
    mailbox(make_maildir(home / "M") / "cur/1.host:2,S", b"Subject: 0\n\nhello\n")
    mailbox(home / "box", text_of("X-UID: 5\n", "X-UID: 7\n"))
    equal("its status", by_json([*MIGRATE[:1], "--again", *MIGRATE[1:], "box"], home).status, 0)
    equal("the list", listed(home), ("3 V222 N10", ["7"]))


def another_list(home: Path) -> None:
    """A list that comes meanwhile stays, and so do the UIDs of another mailbox."""
    path = home / "M/dovecot-uidlist"
    for thing, pattern, says in (
        ("os.remove", "tmp/mbox2maildir-admin-dovecot-uidlist", "an earlier run left another dovecot-uidlist"),
        (
            "os.link",
            "tmp/mbox2maildir-admin-dovecot-uidlist",
            "dovecot-uidlist is there by now: Dovecot has looked at this folder and keeps the UIDs that it gave: "
            "run this again, which goes on without its UIDs",
        ),
    ):
        comes = Meanwhile(home, thing, pattern, lambda _: None if path.write_text("3 V1 N1\n") else None)
        mailbox(home / "box", text_of(*FIELDS))
        row = comes.run([*MIGRATE[:1], "--json", *MIGRATE[1:], "box"]).row
        equal(thing, (row["reason"], row["says"], path.read_text()), ("numbered", says, "3 V1 N1\n"))
        path.unlink()
    equal("done", migrated(home, text_of(*FIELDS)).status, 0)
    before = (home / "M/mbox2maildir-messages").read_bytes()
    row = migrated(home, text_of(FIELDS[0], FOURTH, base="333 12").replace(b"hello", b"other"), "other").row
    equal("another", (row["reason"], (home / "M/mbox2maildir-messages").read_bytes()), ("numbered", before))
    expect(row.command, home, 0, None)
    equal("its mail", subjects(home / "M"), ["0", "0", "1", "1"])


def looked_at_meanwhile(home: Path) -> None:
    """Dovecot looks at the folder while the run converts: the row says what to run, which goes on."""
    fake(home, f"'{home}/real' \"$@\"; : >dovecot.index.log")
    row = migrated(home, text_of(*FIELDS)).row
    restore(home)
    says = f"{LOOKED}: run this again, which goes on without its UIDs"
    equal("looked", (row["reason"], row["says"]), ("numbered", says))
    equal("again", migrated(home, text_of(*FIELDS)).status, 0)


def subscriptions(home: Path) -> None:
    """In either form, with the names of the new folders, once, also after a kill. A list that is there stays, and the
    row has the command that adds what it lacks."""
    old = b"Sent\ncaf\xe9\nlists/garden\n2005.archive\nGr&APwA3w-e\nINBOX\n"
    wanted = b"V\t2\n\nSent\nlists\tgarden\n2005-archive\nGr&APwA3w-e\nINBOX\n"
    mailbox(home / "old/Sent", ONE)
    for text in (old, b"V\t2\n\n" + old.replace(b"/", b"\t")):
        (home / "old/.subscriptions").write_bytes(text)
        killed = Meanwhile(home, "os.link", "subscriptions", lambda _: os.kill(os.getpid(), signal.SIGKILL))
        equal("killed", killed.run([*MIGRATE, "old"], BY_OTHERS).is_killed, True)
        expect([*MIGRATE, "old"], home, 0, None)
        equal("the list", (home / "M/subscriptions").read_bytes(), wanted)
        shutil.rmtree(home / "M")
    for place, (there, lacks) in enumerate(
        (
            (b"V\t2\n\nSent\nDrafts\n", 4),
            (b"Sent\n", 4),
            (b"lists.garden\nSent\n2005-archive\nGr&APwA3w-e\nINBOX\n", 0),
            (b"", 5),
        )
    ):
        make_maildir(home / f"M{place}")
        mailbox(home / f"M{place}/subscriptions", there)
        ran = by_json(["migrate", "--dovecot", "--now", f"M{place}", "old"], home)
        rows = [row for row in ran.rows if row["reason"] == "subscriptions"]
        found = (len(rows), (home / f"M{place}/subscriptions").read_bytes())
        equal(f"{there!r}: {ran.output}", found, (bool(lacks), there))


if __name__ == "__main__":
    check_all(*checks_in(globals()))
