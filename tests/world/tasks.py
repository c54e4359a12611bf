"""Twelve tasks of people who migrate mail, each begun from nothing: the commands, what each prints, and what is there
in the end. Those of a person with files take at most three commands. No appliance that serves NFS is at hand: a
mailbox that nobody may write, on a file system that is mounted read-only, takes the place of what it serves."""
import gzip
import os
import shlex
import signal
import subprocess
from collections.abc import Sequence
from pathlib import Path
from typing import Optional

from tests.companion.spool import theirs
from tests.support import accounts
from tests.support.cases import LeftOut
from tests.support.checks import equal, matches
from tests.support.homes import by_json, check_all, checks_in, expect, is_root, mailbox, run, run_whole, subjects
from tests.support.homes import want_users
from tests.support.ledgers import RECORD
from tests.support.mail import A, B, MAY, ONE, THREE, TWO
from tests.support.printed import row_in
from tests.support.processes import wait_for
from tests.support.running import Run

# how many commands a person with files needs at most, and how many users a small server has
MOST, USERS = 3, 40
THUNDERBIRD = b"From - Mon Mar 03 09:12:%02d 2025\r\nX-Mozilla-Status: %04x\r\nX-Mozilla-Status2: 00000000\r\n"
# what `verify` says of this many messages, each of which is there once
THERE = "messages {}: whole\n"
ONE_WHOLE = "1 mailbox: 1 whole\n"


def play(home: Path, *steps: tuple[str, int, Optional[str]]) -> None:
    """Runs commands, each of which must end with a status and print these lines; `...` stands for anything in one."""
    assert len(steps) <= MOST, f"{len(steps)} commands"
    for command, status, lines in steps:
        expect(shlex.split(command), home, status, lines)


def a_file_of_thunderbird(home: Path) -> None:
    """Archives of a person: the flags come along, and the mail is where it was asked for."""
    parts = ((11, 1, ONE), (12, 5, TWO), (13, 0, THREE))
    text = b"".join(THUNDERBIRD % (second, flags) + one.split(b"\n", 1)[1] for second, flags, one in parts)
    mailbox(home / "Archives-2019", text)
    row = (
        "Archives-2019 -> Archive/2019: Thunderbird's, quoted, messages 3: {0}, 2 messages with flags of Thunderbird\n"
    )
    row += "1 mailbox: 1 {0}\n"
    play(
        home,
        ("migrate --all --dry-run --folder Archive/2019 Maildir Archives-2019", 0, row.format("would be done")),
        ("migrate --all --folder Archive/2019 Maildir Archives-2019", 0, row.format("done")),
        (
            "verify --all Maildir/.Archive.2019 Archives-2019",
            0,
            f"Archives-2019 -> Archive/2019: {THERE.format(3)}{ONE_WHOLE}",
        ),
    )
    equal("the mail", subjects(home / "Maildir/.Archive.2019"), ["one", "three", "two"])
    flags = sorted(path.name.partition(":2,")[2] for path in (home / "Maildir/.Archive.2019/cur").iterdir())
    equal("the flags", flags, ["FS", "S"])


def a_takeout_with_labels(home: Path) -> None:
    """Gmail's mail in the folders of its labels."""
    labels = ((ONE, "Inbox,Opened"), (TWO, "Sent,Garden"), (THREE, "Spam"))
    fields = "X-GM-THRID: 17\nX-Gmail-Labels: %s\n"
    pieces = (line.split(b"\n", 1) for line, _ in labels)
    text = b"".join(b"%b\n%b%b" % (one, (fields % its[1]).encode(), rest) for (one, rest), its in zip(pieces, labels))
    mailbox(home / "all.mbox", text)
    rows = (
        "all.mbox -> INBOX: Gmail's Takeout, messages 1: {0}, 1 message with flags of Gmail\n"
        "all.mbox -> Garden: Gmail's Takeout, messages 1: {0}\nall.mbox -> Junk: Gmail's Takeout, messages 1: {0}\n"
        "all.mbox -> Sent: Gmail's Takeout, messages 1: {0}\n4 mailboxes: 4 {0}\n"
    )
    play(
        home,
        ("migrate --all --dry-run --labels Maildir all.mbox", 0, rows.format("would be done")),
        ("migrate --all --labels Maildir all.mbox", 0, rows.format("done")),
        (
            "verify --all Maildir all.mbox",
            0,
            "".join(f"all.mbox -> {name}: {THERE.format(1)}" for name in ("INBOX", "Garden", "Junk", "Sent"))
            + "4 mailboxes: 4 whole\n",
        ),
    )
    found = {path.name: subjects(path) for path in (home / "Maildir").glob(".*") if path.is_dir()}
    equal("the folders", found, {".Garden": ["two"], ".Junk": ["three"], ".Sent": ["two"]})


def mutt_without_a_server(home: Path) -> None:
    """The inbox, and what mutt keeps in the home: each file becomes its folder, and none joins the inbox unsaid."""
    for name, text in (("mail/mia", ONE), ("mbox", TWO), ("sent", THREE)):
        mailbox(home / name, text)
    left = (
        "{0}: left (no-folder): INBOX has or gets other mail, and mail programs keep a folder in a file named {0}\n"
        "    it becomes this folder:\n        mbox2maildir-admin migrate --folder {0} Maildir {0}\n"
        "    its mail joins that of INBOX:\n        mbox2maildir-admin migrate --folder INBOX Maildir {0}\n"
    )
    end = "3 mailboxes: 1 done, 2 left\n"
    row = "mail/mia -> INBOX: mboxrd or mboxo, messages 1: done\n"
    play(
        home,
        ("migrate --all Maildir mail/mia mbox sent", 1, row + left.format("mbox") + left.format("sent") + end),
        ("migrate --all --folder mbox Maildir mbox", 0, "mbox -> mbox: ...: done\n1 mailbox: 1 done\n"),
        ("migrate --all --folder sent Maildir sent", 0, "sent -> sent: ...: done\n1 mailbox: 1 done\n"),
    )
    maildir = home / "Maildir"
    equal("the mail", [subjects(maildir / name) for name in ("", ".mbox", ".sent")], [["one"], ["two"], ["three"]])


def forty_users_with_dovecot(home: Path) -> None:
    """A small server: a spool, and folders in the homes. Dovecot's numbers come along."""
    want_users()
    homes = {f"m61u{number:02}": home / f"homes/m61u{number:02}" for number in range(USERS)}
    with accounts.users_at_home(homes):
        numbered = ONE.replace(b"\n\n", b"\nX-IMAPbase: 1700000000 0000000007\nX-UID: 7\nStatus: RO\n\n", 1)
        for name in homes:
            theirs(mailbox(home / "spool" / name, numbered), name)
            theirs(mailbox(home / "homes" / name / "mail/lists", TWO), name)
        (home / "spool").chmod(0o711)
        words = ["migrate", "--all", "--users", "--tree", "mail", "--dovecot", "spool"]
        status, out, err = run(words, home)
        sums = f"{2 * USERS} mailboxes: {2 * USERS} done; {USERS} users: {USERS} from the spool"
        equal("--users", (status, err, out.splitlines()[-1]), (0, "", sums))
        for name in homes:
            maildir = home / "homes" / name / "Maildir"
            equal(name, (subjects(maildir), subjects(maildir / ".lists")), (["one"], ["two"]))
            assert "\n7 " in (maildir / "dovecot-uidlist").read_text(), name
        equal("verify", run("verify --users --tree mail spool", home)[0], 0)


def a_doubtful_line(home: Path) -> None:
    """A line of mail looks like the beginning of one: the row shows it, and the command below it decides."""
    mailbox(home / "old", A + b"\nhello\n\n" + MAY + b"\n" + B + b"\nbye\n\n")
    out = run("migrate --all --folder Old Maildir old", home)[1]
    row = row_in(out, "old")
    assert "| From the first of May we are here." in "\n".join(row.below), out
    equal("what is there", (home / "Maildir").exists(), False)
    command = next(one for one in row.commands if "--as unquoted" in one)
    play(home, (command, 0, "old -> Old: ..., messages 2: done...\n1 mailbox: 1 done\n"))
    equal("the mail", len(list((home / "Maildir/.Old/new").iterdir())), 2)


def an_interruption(home: Path) -> None:
    """A run is killed; the same command goes on, and nothing is lost or doubled."""
    count = 3000
    mailbox(home / "big", b"".join(ONE.replace(b"one", b"%d" % number) for number in range(count)))
    command = [str(home / "bin/mbox2maildir-admin"), "migrate", "Maildir", "big"]
    child = subprocess.Popen(command, cwd=home, stdout=subprocess.DEVNULL, start_new_session=True)
    new = home / "Maildir/new"
    assert wait_for(lambda: new.is_dir() and any(new.iterdir()), child), "nothing was placed"
    os.killpg(child.pid, signal.SIGKILL)
    child.wait()
    play(
        home,
        ("migrate Maildir big", 0, None),
        ("verify --all Maildir big", 0, f"big -> INBOX: {THERE.format(count)}{ONE_WHOLE}"),
    )
    equal("how many there are", len(subjects(home / "Maildir")), count)


def is_all_there(home: Path) -> None:
    """Somebody deleted a message: `verify` says so, and `--again` brings it back."""
    mailbox(home / "box", ONE + TWO + THREE)
    expect("migrate Maildir box", home, 0, None)
    next(path for path in (home / "Maildir/new").iterdir() if b"Subject: two" in path.read_bytes()).unlink()
    status, out, _ = run("verify Maildir box", home)
    equal("verify", (status, "nowhere" in out, out.count("message 2 (line ")), (1, True, 1))
    play(
        home,
        (
            "migrate --all --again Maildir box",
            0,
            "box -> INBOX: ..., messages 3: done, placed 1 message...\n1 mailbox: 1 done\n",
        ),
        ("verify --all Maildir box", 0, f"box -> INBOX: {THERE.format(3)}{ONE_WHOLE}"),
    )


def one_is_undone(home: Path) -> None:
    """What one mailbox brought goes again, and what another one has too stays."""
    mailbox(home / "good", ONE + TWO)
    mailbox(home / "wrong", TWO + THREE)
    expect("migrate --folder Old Maildir good wrong", home, 0, None)
    says = "{}, {} 1 message; {} 1 message that .../good has too\n1 mailbox: 1 {}\n"
    row = "wrong -> Old: messages 2: "
    would = says.format("would be undone", "would remove", "would keep", "would be undone")
    play(
        home,
        ("migrate --all --undo --dry-run Maildir wrong", 0, row + would),
        ("migrate --all --undo Maildir wrong", 0, row + says.format("undone", "removed", "kept", "undone")),
    )
    equal("the mail", subjects(home / "Maildir/.Old"), ["one", "two"])


def three_archives_that_overlap(home: Path) -> None:
    """One folder gets each message once, and the last line says how many were there already."""
    for name, text in (("a", ONE + TWO), ("b", TWO + THREE), ("c", ONE + THREE)):
        mailbox(home / name, text)
    out = run_whole("migrate --all --folder Archive Maildir a b c", home)[1]
    rows = (
        "a -> Archive: mboxrd or mboxo, messages 2: done\n"
        "b -> Archive: mboxrd or mboxo, messages 2: done, 1 message there already, from .../a\n"
        "c -> Archive: mboxrd or mboxo, messages 2: done, 2 messages there already, from .../a and 1 more\n"
        "3 mailboxes: 3 done; 6 messages, 3 of them there already, ...\n"
    )
    matches("rows", out, rows)
    equal("the mail", subjects(home / "Maildir/.Archive"), ["one", "three", "two"])


def an_archive_of_a_list(home: Path) -> None:
    """The months of a list's archive, as pipermail has them, become one folder."""
    months = {"2005-March": ONE, "2005-April": TWO, "2005-May": THREE}
    for name, text in months.items():
        line, rest = text.split(b"\n", 1)
        sender, date = line.split(b" ", 2)[1:]
        mailbox(
            home / f"j/{name}.txt.gz", gzip.compress(b"From %b  %b\n%b" % (sender.replace(b"@", b" at "), date, rest))
        )
    files = " ".join(f"j/{name}.txt.gz" for name in months)
    rows = "".join(f"j/{name}.txt.gz -> lists/sheds: ..., messages 1: done\n" for name in months)
    play(home, (f"migrate --all --folder lists/sheds Maildir {files}", 0, f"{rows}3 mailboxes: 3 done\n"))
    equal("the mail", subjects(home / "Maildir/.lists.sheds"), ["one", "three", "two"])


def an_appliance_that_serves_files(home: Path) -> None:
    """Mailboxes that can only be read. They go onto a disk of this machine, and the Maildir is copied from there."""
    if not is_root():
        raise LeftOut("it wants root")
    mailbox(home / "export/inbox", ONE)
    mailbox(home / "export/lists", TWO)
    for words in (
        ["--bind", str(home / "export"), str(home / "export")],
        ["-o", "remount,ro,bind", str(home / "export")],
    ):
        subprocess.run(["mount", *words], check=True)
    try:
        rows = "export/inbox -> INBOX: ...: done\nexport/lists -> lists: ...: done\n2 mailboxes: 2 done\n"
        play(home, ("migrate --all Maildir export", 0, rows))
        subprocess.run(["cp", "-a", str(home / "Maildir"), str(home / "copied")], check=True)
        for maildir in ("Maildir", "copied"):
            equal(maildir, run(["verify", maildir, "export"], home)[0], 0)
    finally:
        subprocess.run(["umount", str(home / "export")], check=True)


def objects_for_a_program(home: Path) -> None:
    """What runs `migrate` on many machines reads objects: whether anything changed, what is left, and why."""
    mailbox(home / "old/box", ONE)
    mailbox(home / "old/notes", b"a\nb\n" * 9)

    def ran(words: Sequence[str], status: int) -> Run:
        found = by_json(["migrate", *words, "Maildir", "old"], home)
        equal(f"{words}", found.status, status)
        return found

    def verdicts(words: Sequence[str], status: int) -> dict[str, str]:
        return {row["path"]: row["reason"] or row["verdict"] for row in ran(words, status).rows}

    equal("at first", verdicts([], 1), {"old/box": "done", "old/notes": "not-known"})
    equal("passed over", verdicts(["--no-mail", "notes"], 0), {"old/box": "done before", "old/notes": "no mail"})
    last = ran(["--no-mail", "notes"], 0).sums
    equal("what is left by the sums", (last["type"], last["left"]), ("sum", []))
    assert (home / "Maildir" / RECORD).exists()


if __name__ == "__main__":
    check_all(*checks_in(globals()))
