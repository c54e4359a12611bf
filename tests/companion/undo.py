"""mbox2maildir-admin migrate --undo and --again, run as commands: what they say and leave, and a mailbox that another
program had converted in part. Undos that are killed are in every_call.py, and random worlds."""
import fcntl
import os
import shutil
import subprocess
from collections.abc import Callable, Sequence
from pathlib import Path

from tests.support.cases import LeftOut
from tests.support.checks import LATER, PATIENCE, equal, match_in
from tests.support.copies import Meanwhile
from tests.support.homes import check_all, expect, hand_over, is_root, mail_in, mailbox, run, subjects
from tests.support.mail import ONE, THREE, TWO
from tests.support.running import Desk

UNDO = ["migrate", "--all", "--undo", "M", "box"]


def rows(fate: str, says: str = "", messages: int = 3) -> str:
    """What is printed of a mailbox that is undone, or would be undone."""
    says = says or f"removed {messages} messages"
    if fate.startswith("would"):
        says = says.replace("removed", "would remove").replace("kept", "would keep")
    return f"box -> INBOX: messages {messages}: {fate}, {says}\n1 mailbox: 1 {fate}\n"


def there_and_back(home: Path) -> None:
    """What a mailbox placed is removed, whatever its flags, and it can be migrated as if nothing had happened."""
    mailbox(home / "box", ONE + TWO + THREE)
    expect("migrate M box", home, 0, None)
    for number, path in enumerate(list(mail_in(home / "M"))):
        path.rename(home / "M/cur" / (path.name + ":2," + "FS"[:number]))
    (home / "M/new/17.host").write_bytes(b"Subject: new\n\n")
    expect("migrate --all --undo --dry-run M box", home, 0, rows("would be undone"))
    equal("after --dry-run", subjects(home / "M"), ["new", "one", "three", "two"])
    expect(UNDO, home, 0, rows("undone"))
    equal("after --undo", subjects(home / "M"), ["new"])
    nothing = "no ledger has it, so nothing shows which files are its own"
    expect(UNDO, home, 1, f"box -> INBOX: left (undo): {nothing}\n1 mailbox: 1 left\n")
    says = "1 message of other programs in the folder"
    expect("migrate --all M box", home, 0, f"box -> INBOX: ...: done, {says}\n1 mailbox: 1 done\n")
    equal("migrated again", subjects(home / "M"), ["new", "one", "three", "two"])


def folders_and_users_words(home: Path) -> None:
    """The folder is that of the record, or the one that is named. A tree's mailbox is undone by its path."""
    mailbox(home / "tree/sent", ONE)
    expect("migrate M tree", home, 0, None)
    expect("migrate --folder Old M tree/sent", home, 0, None)
    several = "the record has it in several folders: Old, sent\n    run this again with --folder NAME"
    undo = ["migrate", "--all", "--undo", "M", "tree/sent"]
    expect(undo, home, 1, f"tree/sent: left (undo): {several}\n1 mailbox: 1 left\n")
    out = "tree/sent -> Old: messages 1: undone, removed 1 message\n1 mailbox: 1 undone\n"
    expect("migrate --all --undo --folder Old M tree/sent", home, 0, out)
    expect(undo, home, 0, out.replace("Old", "sent"))
    expect("migrate --undo N tree/sent", home, 1, "", "mbox2maildir-admin: N: it has no record, so ...\n")
    # people renamed its folder, and it grew
    expect("migrate --folder Old M tree/sent", home, 0, None)
    (home / "M/.Old").rename(home / "M/.New")
    mailbox(home / "tree/sent", ONE + TWO)
    out = "tree/sent -> New: mboxrd or mboxo, messages 2: done, it grew by 1 message\n1 mailbox: 1 done\n"
    expect("migrate --all --folder Old M tree/sent", home, 0, out)
    out = "tree/sent -> New: messages 2: undone, removed 2 messages\n1 mailbox: 1 undone\n"
    expect(undo, home, 0, out)
    expect(undo, home, 1, "...no ledger has it...\n1 mailbox: 1 left\n")
    # also if the old name is given
    expect("migrate --folder Old M tree/sent", home, 0, None)
    (home / "M/.Old").rename(home / "M/.Newer")
    expect([*undo[:3], "--folder", "Old", *undo[3:]], home, 0, out.replace("New", "Newer"))
    # of programs
    mailbox(home / "tree/sent", ONE)
    expect("migrate M tree/sent", home, 0, None)
    out = run("migrate --undo --json M tree/sent", home)[1]
    assert '"verdict": "undone", "reason": null, "says": "removed 1 message"' in out, out
    if is_root():
        hand_over(home / "tree/sent")
        err = run("migrate --undo M tree/sent", home).err
        match_in(rf"mbox2maildir-admin migrate --undo {home}/M {home}/tree/sent", err)


def who_is_at_work(home: Path) -> None:
    """A mailbox that was written to is waited for. A record and a folder that others have locked are left alone."""
    mailbox(home / "box", ONE)
    expect("migrate M box", home, 0, None)
    record = os.open(home / "M/mbox2maildir-record", os.O_RDWR)
    fcntl.flock(record, fcntl.LOCK_EX)
    expect(UNDO, home, LATER, "", "mbox2maildir-admin: another migrate is at work in M, ...\n    wait until ...\n")
    os.close(record)
    folder = os.open(home / "M", os.O_RDONLY)
    fcntl.flock(folder, fcntl.LOCK_SH)
    out = "box -> INBOX: left (locked): another converter is at work in M\n    wait until ...\n1 mailbox: 1 left\n"
    expect(UNDO, home, LATER, out)
    os.close(folder)
    os.utime(str(home / "box"))
    ran = Desk(home).start(UNDO)
    assert ran.stderr
    match_in(rb"box: waiting \d+ seconds", ran.stderr.readline())
    os.utime(str(home / "box"), (1e9, 1e9))
    ran.communicate(timeout=PATIENCE)
    equal("its status", ran.returncode, 0)


def flag(path: Path) -> None:
    """A mail program gives a file another flag."""
    base, _, flags = path.name.partition(":2,")
    path.rename(path.parents[1] / "cur" / f"{base}:2,{'F' if flags == 'S' else 'S'}")


def rewrite(path: Path) -> None:
    """A mail program writes a file anew, which has other bytes until the next time."""
    text = path.read_bytes()
    path.write_bytes(text[:-1] if text.endswith(b"+") else text + b"+")


def put_away(box: Path) -> None:
    """The mailbox gets another name."""
    box.rename(box.with_name("away"))


NAMES, CHANGED = "names in its folder keep changing", "it changed in the meantime"
FILE = "/(new|cur)/[0-9a-f]{64}"
# what happens just before a file is opened or removed, and how often; why the mailbox is left, or nothing; and how many
# messages are there then
MEANWHILE: Sequence[tuple[str, Callable[[Path], object], int, str, int]] = (
    ("open", flag, 2, "", 0),
    ("open", flag, 1000, NAMES, 3),
    ("open", rewrite, 6, "", 0),
    ("os.remove", flag, 1, "", 0),
    ("os.remove", Path.unlink, 1, "", 0),
    ("os.remove", lambda path: mailbox(path.parents[2] / "box", ONE), 1, CHANGED, 2),
    ("os.remove", lambda path: put_away(path.parents[2] / "box"), 1, CHANGED, 2),
    ("os.remove", lambda path: (path.parents[2] / "same").replace(path.parents[2] / "box"), 1, CHANGED, 2),
)


def meanwhile(home: Path) -> None:
    """Mail programs are at work in the folder, or in the mailbox, while it is undone. No further file is removed once
    the mailbox is not as it was."""
    for thing, deed, often, why, left in MEANWHILE:
        shutil.rmtree(str(home / "M"), ignore_errors=True)
        for name in ("real", "same"):
            mailbox(home / name, ONE + TWO + THREE)
        (home / "box").unlink(missing_ok=True)
        (home / "box").symlink_to("real")
        expect("migrate M box", home, 0, None)
        ran = Meanwhile(home, thing, FILE, deed, often).run([*UNDO[:3], "--json", *UNDO[3:]])
        row = ran.row
        equal(f"{thing} {deed}: {row}", (row["verdict"], row["says"] * bool(why)), ("left" if why else "undone", why))
        equal(f"{thing} {deed}: what is there", len(subjects(home / "M")), left)


def half_done_by_mb2md(home: Path) -> None:
    """mb2md had converted four of eight messages. --again places the other four."""
    if not shutil.which("mb2md"):
        raise LeftOut("mb2md is not here")
    texts = [ONE.replace(b"one", b"%d" % number).replace(b"\n\n", b"\nStatus: RO\n\n", 1) for number in range(8)]
    mailbox(home / "box", b"".join(texts))
    mailbox(home / "half", b"".join(texts[:4]))
    words = ["mb2md", "-s", str(home / "half"), "-d", str(home / "M")]
    subprocess.run(words, check=True, stdout=subprocess.DEVNULL, env={**os.environ, "HOME": str(home)})
    equal("what mb2md did", len(list(mail_in(home / "M"))), 4)
    others = "4 messages of other programs in the folder"
    says = f"would place 4 messages; 4 messages there already, by no mailbox; {others}"
    line = "box -> INBOX: mboxrd or mboxo, messages 8: {}\n1 mailbox: 1 {}\n"
    again = ["migrate", "--all", "--again", "M", "box"]
    expect([*again[:2], "--dry-run", *again[2:]], home, 0, line.format(f"would be done, {says}", "would be done"))
    expect(again, home, 0, line.format(f"done, {says.replace('would place', 'placed')}", "done"))
    equal("each once", subjects(home / "M"), [str(number) for number in range(8)])
    expect(again, home, 0, line.format(f"done, {others}", "done"))
    expect(UNDO, home, 0, rows("undone", "removed 4 messages; kept 4 messages that were nobody's", 8))
    equal("what mb2md did stays", subjects(home / "M"), [str(number) for number in range(4)])


if __name__ == "__main__":
    check_all(there_and_back, folders_and_users_words, who_is_at_work, meanwhile, half_done_by_mb2md)
