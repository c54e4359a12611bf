"""mbox2maildir-admin migrate --prepare, as a command: what it prints, the users of a spool, and where it prepares
nothing."""
import json
import os
import pwd
import re
import shutil
import subprocess
import sys
import time
from collections.abc import Sequence
from pathlib import Path

from tests.companion.spool import theirs
from tests.support import accounts
from tests.support.checks import LATER, equal, match_in, matches
from tests.support.homes import ADMIN, by_json, check_all, checks_in, expect, fake, mail_in, mailbox, run, run_printed
from tests.support.homes import script, subjects, want_strace, want_users
from tests.support.ledgers import PREPARED
from tests.support.mail import A, B, ONE, THREE, TWO
from tests.support.printed import row_in, rows_in
from tests.support.running import Desk
from tests.support.schema import wrong

USERS = ["m91one", "m91two"]
ESTIMATE = "a last pass would now take some ..."
ONLY_PREPARED = "what is prepared is done once migrate runs without --prepare"
MBOX = "mail_location = mbox:~/mail:INBOX=/var/mail/%u"
NEW_MBOX = "mail_driver = mbox\nmail_path = %{home}/mail\nmail_inbox_path = /var/mail/%{user}"


def doveconf(home: Path, settings: str, others: str = "") -> None:
    """Puts a program in place of doveconf, which has these settings, and all of these that were set."""
    script(
        home / "bin/doveconf", f"if [ $1 = -n ]; then printf '%s\\n' '{others}'; else printf '%s\\n' '{settings}'; fi"
    )


def printed(home: Path) -> None:
    """What is printed of passes, of the last one, and of an undo."""
    began = time.monotonic()
    doveconf(home, MBOX)
    mailbox(home / "old/a", ONE + TWO)
    mailbox(home / "old/b", TWO)
    row = "old/%s -> %s: mboxrd or mboxo, messages %d: "
    prepare = ["migrate", "--all", "--prepare", "--jobs", "2", "M", "old"]
    first = row % ("a", "a", 2) + "prepared\n" + row % ("b", "b", 1) + "prepared\n"
    expect(prepare, home, 0, f"{first}2 mailboxes: 2 prepared; {ESTIMATE}; {ONLY_PREPARED}\n")
    mailbox(home / "old/a", TWO + THREE)
    second = row % ("a", "a", 2) + "prepared, 1 prepared before, 1 message removed\n"
    second += "old/b -> b: messages 1: prepared, 1 prepared before\n"
    expect(prepare, home, 0, f"{second}2 mailboxes: 2 prepared; {ESTIMATE}; {ONLY_PREPARED}\n")
    status, out, _ = run([*prepare[:2], "--json", *prepare[2:]], home)
    objects = [json.loads(line) for line in out.splitlines()]
    equal("what is wrong with the objects", [wrong(one) for one in objects], [[], [], []])
    equal("the verdicts", [one.get("verdict") for one in objects[:2]], ["prepared"] * 2)
    equal("their sum", (status, objects[2]["verdicts"]["prepared"]), (0, 2))
    # one pass takes no longer than all of these, however busy the machine is
    equal("an estimate is in it", 0 < objects[2]["last_pass_seconds"] < 10 + 10 * (time.monotonic() - began), True)
    # it took ten minutes to read each
    for path in (home / "M").rglob(PREPARED):
        path.write_text(re.sub("(?m)^t\t.*", "t\t600000", path.read_text()))
    assert 600 < by_json("migrate --prepare M old", home).objects[-1]["last_pass_seconds"] < 2000
    expect("migrate --all --undo M old/b", home, 0, "old/b -> b: messages 1: undone, removed 1 message\n...\n")
    (home / "old").rename(home / "older")
    last = row.replace("old/", "older/") % ("a", "a", 2) + "done, 2 prepared before\n"
    last += row.replace("old/", "older/") % ("b", "b", 1) + "done\n"
    expect("migrate --all --now M older", home, 0, f"{last}2 mailboxes: 2 done\n")
    equal("the mail", (subjects(home / "M/.a"), subjects(home / "M/.b")), (["three", "two"], ["two"]))
    equal("lists", list((home / "M").rglob("mbox2maildir-prepared")), [])


def refused(home: Path) -> None:
    """Where Dovecot would find the Maildir by itself, where mail is delivered, and where nobody knows."""
    mailbox(home / "box", ONE)
    words = ["migrate", "--all", "--prepare", "Maildir", "box"]
    own = {"HOME": str(home)}
    for settings, says in (
        ("mail_location = ", "Dovecot looks for mail by itself"),
        ("mail_location = maildir:~/Maildir", "Dovecot has its mail in maildir:~/Maildir"),
        ("mail_driver = \nmail_path = ", "Dovecot looks for mail by itself"),
        ("mail_driver = maildir\nmail_path = ~/Maildir", "Dovecot has its mail in maildir:~/Maildir"),
    ):
        doveconf(home, settings)
        status, out, err = run(words, home, **own)
        assert status == 1 and says in err and not out, (status, out, err)
    doveconf(home, MBOX)
    (home / ".forward").write_bytes(b"%s/Maildir/\n" % os.fsencode(home))
    status, _, err = run(words, home, **own)
    assert status == 1 and ".forward delivers into it already" in err, err
    (home / ".forward").unlink()
    (home / "bin/doveconf").write_bytes(b"#!/bin/sh\nexit 1\n")
    status, _, err = run(words, home, **own)
    assert status == 1 and "say by --unread" in err, err
    equal("what was made", (home / "Maildir").exists(), False)
    expect([*words[:2], "--unread", *words[2:]], home, 0, "box -> INBOX: ...: prepared\n...\n", **own)
    for wrong_words in (["--unread"], ["--prepare", "--again"], ["--prepare", "--undo"]):
        expect(["migrate", *wrong_words, "Maildir", "box"], home, 2, "", None)


def of_2_4(path: str, inbox: str = "", driver: str = "mbox") -> str:
    """The general settings of Dovecot 2.4."""
    return f"mail_driver = {driver}\nmail_path = {path}\nmail_inbox_path = {inbox}"


# general settings, what else is set, and whether Dovecot would find `Maildir` in the home by these
SETTINGS = [
    ("mail_location = ", "", True),
    ("mail_location = auto:~/Maildir", "", True),
    ("mail_location = ~/Maildir", "", True),
    ("mail_location = maildir:%h/Maildir/:LAYOUT=fs", "", True),
    ("mail_location = maildir:HOME/Maildir", "", True),
    ("mail_location = maildir:/home/%u/Maildir/", "", True),
    ("mail_location = maildir:/var/vmail/%d/%n", "", True),
    ("mail_location = maildir:~/Mail", "", False),
    ("mail_location = maildir:/var/vmail/%d/mail", "", False),
    ("mail_location = mdbox:~/Maildir", "", False),
    (MBOX, "namespace inbox {\n  location = maildir:~/Maildir\n}", True),
    (MBOX, "namespace inbox {\n  location = \n}", False),
    (of_2_4("", driver=""), "", True),
    (of_2_4("~/Maildir", driver="maildir"), "", True),
    (of_2_4("~/mail", "~/Maildir", "maildir"), "", True),
    (of_2_4("~/mail", "~/in", "maildir"), "", False),
    (of_2_4("~/Maildir"), "", False),
    (of_2_4("~/mail"), "namespace a {\n  mail_driver = maildir\n  mail_path = ~/Maildir\n}", True),
    (of_2_4("~/mail"), "namespace a {\n  mail_driver = maildir\n  mail_path = /srv/lists\n}", False),
    (of_2_4("~/mail"), "namespace a {\n  mail_driver = maildir\n}\nnamespace b {\n  mail_path = ~/Maildir\n}", False),
    (of_2_4("~/mail"), "namespace a {\n  mailbox b {\n    auto = no\n  }\n  mail_driver = \n}", True),
    (of_2_4("~/Maildir"), "userdb a {\n  fields {\n    mail_driver = maildir\n  }\n}", True),
    (
        of_2_4("~/mail"),
        "passdb a {\n  fields {\n    userdb_mail_driver = maildir\n    userdb_mail_inbox_path = ~/Maildir\n  }\n}",
        True,
    ),
]
# files of the home, and whether mail is delivered into `Maildir` by these
DELIVERIES = [
    (".forward", b"/home/mia/Maildir/\n", True),
    (".forward", b"mia@example.org\n", False),
    (".procmailrc", b"DEFAULT=$HOME/Maildir/\n", True),
    (".procmailrc", b"MAILDIR=$HOME/mail\n", False),
]


def found_by_settings(home: Path) -> None:
    """Which settings of Dovecot, and which deliveries, lead to the Maildir. Elsewhere Dovecot does not look by
    itself."""
    mailbox(home / "box", ONE)
    words, own = ["migrate", "--dry-run", "--prepare", "Maildir", "box"], {"HOME": str(home)}
    for general, others, is_found in SETTINGS:
        doveconf(home, general.replace("HOME", str(home)), others)
        equal(f"{general}, {others}", run(words, home, **own)[0], int(is_found))
    doveconf(home, "mail_location = ")
    expect([*words[:3], "New", "box"], home, 0, None, **own)
    for general in ("mail_location = auto:~/New", "mail_location = ~/New", of_2_4("~/New", driver="")):
        doveconf(home, general)
        equal(general, run([*words[:3], "New", "box"], home, **own)[0], 1)
    doveconf(home, MBOX)
    for name, text, is_found in DELIVERIES:
        path = mailbox(home / name, text)
        equal(f"{text!r}", run(words, home, **own)[0], int(is_found))
        path.unlink()
    (home / ".forward").mkdir()
    equal("a folder of that name", run(words, home, **own)[0], 0)
    # without a server a human says so
    (home / "bin/doveconf").unlink()
    for option, status in (("--unread", 0), ("--now", 1)):
        equal(option, run([*words[:3], option, *words[3:]], home, PATH=str(home / "bin"), **own)[0], status)


def one_at_work(home: Path) -> None:
    """While a first pass is at work, the last one says so, and does nothing."""
    mailbox(home / "box", ONE)
    (home / "bin/mbox2maildir").rename(home / "bin/converter")
    waits = f"""[ "$1" != convert ] || {{ : >{home}/begun; until [ -e {home}/go ]; do sleep 0.1; done; }}"""
    script(home / "bin/mbox2maildir", f"""{waits}\nexec {home}/bin/converter "$@"\n""")
    words = ["migrate", "--prepare", "--unread", "M", "box"]
    with Desk(home).start(words, subprocess.DEVNULL) as first:
        try:
            while not (home / "begun").exists():
                equal("the first pass", first.poll(), None)
                time.sleep(0.1)
            status, out, err = run("migrate --all --now M box", home)
            equal("the last pass", (status, out), (LATER, ""))
            says = "mbox2maildir-admin: another migrate is at work in M, ...\n    wait until ...\n"
            matches("what it says", err, says)
        finally:
            (home / "go").touch()
    equal("the status of the first pass", first.returncode, 0)
    expect("migrate --all --now M box", home, 0, "box -> INBOX: ...: done, 1 prepared before\n...\n")


def left_over(home: Path) -> None:
    """What stays only prepared on the day is left: of a tree that is not mounted, and of a mailbox that no command
    names. Each has what ends that: its mailbox again, its command, or its undo."""
    doveconf(home, MBOX)
    for name in "abc":
        mailbox(home / "old" / name, ONE + TWO)
    expect("migrate --prepare M old", home, 0, None)
    (home / "old").rename(home / "disk")
    (home / "old").mkdir()
    out = "".join(
        f"{home}/old/{name} -> {name}: left (prepared): its mailbox is gone, as are 3 of the 3 of its tree ...\n"
        f"    mount or bring back {home}/old/{name}, and run this again\n"
        "    if it is not wanted any more, this removes what is prepared:\n"
        f"        mbox2maildir-admin migrate --undo --now --folder {name} M {home}/old/{name}\n"
        for name in "abc"
    )
    expect("migrate --all --now M old", home, 1, f"{out}3 mailboxes: 3 left\n")
    (home / "old").rmdir()
    (home / "disk").rename(home / "old")
    status, out, _ = run("migrate --all --now --folder a M old/a", home)
    said = [row.line.replace("mboxrd or mboxo, messages 2: ", "") for row in rows_in(out)[:-1]]
    says = "left (prepared): it is only prepared, and no mailbox of this command goes there"
    wanted = ["old/a -> a: done, 2 prepared before", *(f"{home}/old/{name} -> {name}: {says}" for name in "bc")]
    equal(f"another command: {out}", (status, said), (1, wanted))
    rest, undo = (row_in(out, f"{home}/old/{name}").commands[at] for name, at in (("b", 0), ("c", 1)))
    words = ["migrate", "--all", *undo.split()[2:]]
    expect(words, home, 0, f"{home}/old/c -> c: messages 2: undone, removed 2 messages\n...\n")
    expect(["migrate", "--all", *rest.split()[2:]], home, 0, f"{home}/old/b -> b: ...: done, 2 prepared before\n...\n")
    equal("lists", list((home / "M").rglob("mbox2maildir-prepared")), [])


def started_again(home: Path) -> None:
    """The old server is started again once mail has come into a folder that was done. This goes back into the old
    mailbox, and first passes begin anew."""
    doveconf(home, MBOX)
    box = mailbox(home / "old/a", ONE)
    for options in (["--prepare"], ["--now"]):
        expect(["migrate", *options, "M", "old"], home, 0, None)
    (home / "M/.a/new/1700000000.M1.host").write_bytes(b"Subject: new\n\nhello\n")
    ran = by_json("back --now M old", home)
    equal(f"what came is in the mailbox: {ran.out}", (ran.status, b"\nSubject: new\n" in box.read_bytes()), (0, True))
    (move,) = (command for one in ran.objects for command in one.commands)
    equal(move, run_printed(move, home).status, 0)
    expect("migrate --all --prepare M old", home, 0, "old/a -> a: ...messages 2: prepared\n...\n")
    expect("migrate --all --now M old", home, 0, "old/a -> a: ...messages 2: done, 2 prepared before\n...\n")
    equal("the mail", subjects(home / "M/.a"), ["new", "one"])


def read_once(home: Path) -> None:
    """A pass verifies what it stores, and neither the next pass nor that of the day reads this again. On the day the
    list stands for a mailbox that has not changed, which the program does not list again."""
    want_strace()
    doveconf(home, MBOX)
    box, calls = mailbox(home / "box", ONE + TWO), home / "calls"
    strace = ["/usr/bin/env", "strace", "-qq", "-y", "-e", "signal=none", "-e", "trace=read,pread64", "-o", str(calls)]
    for option, more, count in (("--prepare", b"", 2), ("--prepare", b"", 0), ("--now", THREE, 1)):
        with open(box, "ab") as file:
            file.write(more)
        words = [sys.executable, "-I", "-S", "-B", str(home / "bin" / ADMIN.name), "migrate", option, "M", "box"]
        ran = Desk(home).run([*strace, *words])
        equal(f"{option}: its status: {ran.output}", ran.status, 0)
        read = set(re.findall(r"read(?:64)?\(\d+<[^<>]*/M/new/([^<>]*)>", calls.read_text()))
        equal(f"{option}: how many files of mail are read", len(read), count)
    expect("migrate --prepare N box", home, 0, None)
    fake(home, "exit 1", "list")
    expect("migrate --all --now N box", home, 0, "...: done, 3 prepared before\n1 mailbox: 1 done\n")


# what a pass says of a list that is open to others
LIST = "mbox2maildir-prepared"
OPEN = "it does not belong to you, or others may write to it: look at it, and move it away"


def spoilt(home: Path) -> None:
    """A list that others may have written shows nothing: each pass says so, and changes no mail."""
    doveconf(home, MBOX)
    mailbox(home / "box", ONE)
    for mode in (0o620, 0o602):
        expect("migrate --prepare M box", home, 0, None)
        (home / "M" / LIST).chmod(mode)
        before = sorted(mail_in(home / "M"))
        for option in ("--prepare", "--now"):
            status, out, err = run(["migrate", "--all", option, "M", "box"], home)
            got = status, OPEN in out + err, sorted(mail_in(home / "M"))
            equal(f"{option}: its status, what is said, and the mail: {out}{err}", got, (1, True, before))
        shutil.rmtree(home / "M")


# a mailbox that words read differently, and new mail of that kind
QUOTED, NEW = A + b"\n>>From twice\n>From once\n\n", B + b"\n>>From twice\n>From once\n\n"
BY_MBOXO = [part.replace(b"\n>From", b"\nFrom").split(b"\n", 1)[1][:-1] for part in (QUOTED, NEW)]


def words_hold(home: Path) -> None:
    """A word that is given with --prepare, for one mailbox or for several, holds in later passes and on the day, though
    nothing was asked: also once mail came, and where the mailbox is by then. What is undone is read without it."""
    doveconf(home, MBOX)
    prepare = ["migrate", "--all", "--prepare", "M"]
    for number, (named, text) in enumerate((("old/box", QUOTED), ("old", QUOTED), ("old", QUOTED + NEW))):
        mailbox(home / "old/box", QUOTED)
        folder = ["--folder", "box"] * (named != "old")
        expect([*prepare[:3], "--as", "mboxo", *folder, "M", named], home, 0, None)
        prepared = {path.name for path in mail_in(home / "M/.box")}
        expect([*prepare[:3], *folder, "M", named], home, 0, None)
        equal("after another first pass", {path.name for path in mail_in(home / "M/.box")}, prepared)
        mailbox(home / "old/box", text)
        (home / "old").rename(home / f"old{number}")
        out = run(["migrate", "--all", "--now", *folder, "M", named.replace("old", f"old{number}")], home)[1]
        match_in(r" -> box: mboxo by --as, messages \d: done, .*1 prepared before", out)
        got = sorted(path.read_bytes() for path in mail_in(home / "M/.box"))
        equal(f"the mail: {out}", got, sorted(BY_MBOXO[: 1 + text.endswith(NEW)]))
        shutil.rmtree(home / "M")
    mailbox(home / "box", QUOTED)
    expect([*prepare[:3], "--as", "mboxo", "M", "box"], home, 0, None)
    # what is asked later has answers by the same word
    mailbox(home / "box", QUOTED + B + b"\nyes\n\nFrom now on\n\n")
    words = [re.findall(r"--as (\w+)", one)[0] for one in by_json("migrate --now M box", home).row.answers]
    equal("a new question", words, ["unquoted", "mboxo"])
    mailbox(home / "box", QUOTED)
    expect("migrate --undo M box", home, 0, None)
    out = "box -> INBOX: mboxrd or mboxo, messages 1: done, `>>From ` loses a `>` in 1 line ...\n1 mailbox: 1 done\n"
    expect("migrate --all --now M box", home, 0, out)


def without_deleted_mail(home: Path) -> None:
    """What --drop-deleted left out of a first pass is said by each pass, and left out on the day, also if that is all.
    If more is deleted by then, it is asked."""
    doveconf(home, MBOX)
    left_out, gone = (A + b"X-Mozilla-Status: 000%d\n\nhello\n\n" % mark for mark in (1, 9))
    for text, count in ((left_out + gone, 1), (gone, 0)):
        box = mailbox(home / "box", text)
        says = "without 1 message marked as deleted"
        for words in (["--prepare", "--drop-deleted"], ["--prepare"]):
            command = ["migrate", "--all", *words, "M", "box"]
            expect(command, home, 0, f"box -> INBOX: ...messages {count}: prepared, {says}...\n...\n")
        mailbox(box, text + gone.replace(b"one", b"two"))
        equal("more is deleted", len(by_json("migrate --now M box", home).row.answers), 2)
        mailbox(box, text)
        out = f"box -> INBOX: ...messages {count}: done, {says}; as it was answered before...\n...\n"
        expect("migrate --all --now M box", home, 0, out)
        equal("the mail", len(list(mail_in(home / "M"))), count)
        shutil.rmtree(home / "M")


def lines(home: Path, words: Sequence[str]) -> list[str]:
    """The lines of the rows that a command prints, in their order by name."""
    return sorted(row.line for row in rows_in(run(words, home)[1]))


def of_users(home: Path) -> None:
    """Users whose mail is prepared while it is delivered, and is migrated once it stands elsewhere."""
    want_users()
    doveconf(home, NEW_MBOX)
    with accounts.users_at_home({name: home / "homes" / name for name in USERS}):
        for name in USERS:
            theirs(mailbox(home / "homes" / name / "mail/sent", TWO), name)
            theirs(mailbox(home / "spool" / name, ONE), name)
        (home / "spool").chmod(0o711)
        words = ["migrate", "--all", "--users", "--tree", "mail", "--jobs", "2", "--prepare", "spool"]
        kind = "mboxrd or mboxo, messages"
        wanted = [f"{name} -> INBOX: {kind} 1: prepared" for name in USERS]
        wanted += [f"{name} mail/sent -> sent: {kind} 1: prepared" for name in USERS]
        equal("the first pass", lines(home, words)[-4:], sorted(wanted))
        with open(home / "spool" / USERS[0], "ab") as file:
            file.write(THREE)
        (home / "homes" / USERS[1] / "mail/sent").rename(home / "homes" / USERS[1] / "mail/kept")
        (home / "spool").rename(home / "spool.old")
        out = run([*words[:7], "--now", "spool.old"], home)[1]
        last = [row.line for row in rows_in(out)]
        gone = f"{USERS[1]} mail/sent"
        for line in (
            f"{USERS[0]} -> INBOX: {kind} 2: done, 1 prepared before",
            f"{USERS[1]} -> INBOX: {kind} 1: done, 1 prepared before",
            f"{USERS[0]} mail/sent -> sent: {kind} 1: done, 1 prepared before",
            f"{USERS[1]} mail/kept -> kept: {kind} 1: done",
            f"{gone} -> sent: left (prepared): its mailbox is gone, as are 1 of the 1 of its tree that were prepared",
        ):
            assert line in last, (line, last)
        status, out, _ = run_printed(row_in(out, gone).command, home)
        equal(f"what is prepared from it is undone: {out}", (status, "undone, removed 1 message" in out), (0, True))
        for name in USERS:
            for path in (home / "homes" / name / "Maildir").rglob("*"):
                equal(f"whose {path} is", path.stat().st_uid, pwd.getpwnam(name).pw_uid)


if __name__ == "__main__":
    check_all(*checks_in(globals()))
