"""What `verify` says of a Maildir: what other programs and people do to it, files of another owner, and faults."""
import os
import random
import re
import threading
from functools import partial
from pathlib import Path

from tests.support.checks import equal, matches
from tests.support.homes import check_all, checks_in, expect, hand_over, mail_in, mailbox, run, want_root
from tests.support.mail import A, ONE
from tests.support.running import OWNER, Desk


def closed_files(home: Path) -> None:
    """What can't be read is reported, and the rest goes on."""
    want_root()
    for path in ("old/a/box", "old/closed/x", "old/open"):
        mailbox(home / path, ONE)
    (home / "old/closed").chmod(0)
    (home / "old/a/box").chmod(0)
    ran = Desk(home, user=OWNER).run(["kind", "old"])
    equal("closed files: status and errors", (ran.status, ran.err), (1, ""))
    wanted = {"old/a/box: left (error): Permission denied", "old/closed: left (error): Permission denied"}
    wanted |= {"old/open: mboxrd or mboxo, messages 1"}
    equal("closed files: what is not printed", wanted - {*ran.out.splitlines()}, set())


def ten_messages(home: Path) -> tuple[list[str], list[str]]:
    """A mailbox of ten messages, some of them equal, and its Maildir. Returns texts and bases."""
    texts = [f"Subject: {number}\n\n{number}\n" for number in range(7)] + ["Subject: 0\n\n0\n", "same\n", "same\n"]
    (home / "box").write_text("".join(f"From a@b Mon Mar  3 09:12:44 2025\n{text}\n" for text in texts))
    run("mbox2maildir convert M box", home)
    bases = [line.split()[1] for line in run("mbox2maildir list box", home)[1].splitlines()]
    equal("the base of a second message", bases[7], f"{bases[0][:64]}.2")
    return texts, bases


def checked(verdict: str, sum_of: str, below: str = "") -> str:
    """What `verify` prints of the ten messages: what is said of them, below that, and in the sum."""
    return f"box -> INBOX: messages 10: {verdict}\n{below}1 mailbox: 1 {sum_of}\n"


WHOLE = checked("whole", "whole")


def verified(home: Path) -> None:
    """What other programs and people do to a Maildir is reported message by message."""
    _, bases = ten_messages(home)

    def move(number: int, name: str) -> None:
        os.rename(home / "M/new" / bases[number], home / "M" / name)

    expect("verify --all M box", home, 0, WHOLE)
    move(0, f"cur/{bases[0]}:2,S")
    (home / "M/tmp" / bases[0]).write_text("half")
    (home / "M/new/17.M1.host").write_text("another's mail\n")
    expect("verify --all M box box", home, 0, WHOLE.splitlines(True)[0] * 2 + "2 mailboxes: 2 whole\n")

    # the names that mbsync, mailutils and offlineimap give to mail that they saw
    move(1, f"cur/{bases[1]},U=1:2,S")
    move(2, f"cur/{bases[2]},a=FO,u=2:2,FS")
    move(3, "cur/1700000000_0.1.host,U=3,FMD5=7e33429f656f1e6e9d79b29c3f82c57e:2,")
    said = "".join(
        f"    message {number + 1} (line {5 * number + 1}): under another name, M/cur/{name}\n"
        for number, name in (
            (1, f"{bases[1]},U=1:2,S"),
            (2, f"{bases[2]},a=FO,u=2:2,FS"),
            (3, "1700000000_0.1.host,U=3,FMD5=...:2,"),
        )
    )
    expect("verify --all M box", home, 0, checked("whole, under another name 3", "whole", said))

    # moved away; cut, grown and changed; and no regular file
    move(4, "tmp/gone")
    for number, text in ((5, ""), (6, "Subject: 7\n\n6\n")):
        (home / "M/new" / bases[number]).write_text(text)
    (home / "M/new" / bases[8]).write_text("same\n\n")
    (home / "M/new" / bases[9]).unlink()
    os.mkfifo(home / "M/new" / bases[9])
    lines = [
        f"    message {number + 1} (line {line}): other bytes in M/new/{bases[number]}\n"
        for number, line in ((5, 26), (6, 31), (8, 41), (9, 44))
    ]
    expect(
        "verify --all M box",
        home,
        1,
        checked(
            "not whole, other bytes 4; under another name 3; nowhere 1",
            "not whole (1 nowhere, 1 other-bytes)",
            "".join(lines) + said + "    message 5 (line 21): nowhere\n",
        ),
    )


def by_a_decision(home: Path) -> None:
    """A mailbox is read as it was migrated, whether its folder or the Maildir is named. Lines are those of the mailbox,
    and not of the copy that is converted."""
    first = A + b"\n>>From x\n\n"
    mailbox(home / "box", first + ONE)
    equal("migrate", run("migrate --now --as mboxo --folder Sent M box", home)[0], 0)
    for folder in ("M", "M/.Sent", "M/.Sent/"):
        expect(["verify", folder, "box"], home, 0, "1 mailbox: 1 whole\n")
    for path in mail_in(home / "M/.Sent"):
        path.unlink()
    lines = "".join(
        f"    message {number} (line {line}): nowhere\n" for number, line in ((1, 1), (2, len(first.split(b"\n"))))
    )
    expect("verify --all M box", home, 1, f"...: not whole, nowhere 2\n{lines}1 mailbox: 1 not whole (1 nowhere)\n")


def there_twice(home: Path) -> None:
    """What is there twice: by a conversion after a program gave new names, and by a copy."""
    texts, bases = ten_messages(home)
    (home / f"M/cur/{bases[1]},U=1:2,S").write_text(texts[1])
    (home / f"M/cur/{bases[2]}:2,S").write_text(texts[2])
    (home / f"M/cur/{bases[3]}:2,S").write_text("cut")
    # a base of another text's, which has three of a message
    (home / f"M/cur/{bases[0][:64]}.3:2,").write_text(texts[0])
    # offlineimap's
    (home / "M/cur/1700000000_0.1.host,U=3,FMD5=7e33429f656f1e6e9d79b29c3f82c57e:2,").write_text(texts[4])
    status, out, err = run("verify --all M box", home)
    equal("verify: status and standard error", (status, err), (1, ""))
    more = [
        f"    a second copy of a message: M/cur/{name}\n"
        for name in (
            f"{bases[1]},U=1:2,S",
            f"{bases[2]}:2,S",
            f"{bases[3]}:2,S",
            "1700000000_0.1.host,U=3,FMD5=7e33429f656f1e6e9d79b29c3f82c57e:2,",
        )
    ]
    equal(
        "verify: files more",
        sorted(out.splitlines(True)),
        sorted(checked("not whole, doubles 4", "not whole (1 double)", "".join(more)).splitlines(True)),
    )
    os.unlink(home / "M/new" / bases[7])
    matches("a copy", run("verify --all M box", home)[1].splitlines()[0], "...: not whole, under another name 1; ...")
    print("admin: verify: messages with new names, other bytes, and none")


def large_files(home: Path) -> None:
    """Files of much mail, which several threads read: what is wrong is said in the order of the messages, and what
    cannot be read ends it."""
    want_root()
    texts = [f"Subject: {number}\n\n" + "%d\n" % number * 9000 for number in range(100, 180)]
    (home / "box").write_text("".join(f"From a@b Mon Mar  3 09:12:44 2025\n{text}\n" for text in texts))
    hand_over(home)
    verify = partial(Desk(home, user=OWNER).run, "verify --all M box".split())
    equal("a conversion", Desk(home, user=OWNER).run("mbox2maildir convert M box".split()).status, 0)
    # another one, which is not read, since it has the size of no message
    other = mailbox(home / "M/cur/17000.M1.host:2,S", b"")
    os.truncate(other, 1 << 40)
    matches("the last line", verify().out.splitlines()[-1], "1 mailbox: 1 whole; ...")
    other.unlink()
    paths = sorted((home / "M/new").iterdir(), key=lambda path: path.read_text())
    for path in paths[3], paths[70]:
        path.write_text(path.read_text().upper())
    paths[79].unlink()
    said = re.findall(r"\n    message (\d+) \(line \d+\): (other bytes|nowhere)", verify().out)
    equal("what is said", said, [("4", "other bytes"), ("71", "other bytes"), ("80", "nowhere")])
    paths[40].chmod(0)
    equal(
        "what cannot be read", (verify().status, f"{paths[40].name}: Permission denied" in verify().output), (1, True)
    )


def of_another_owner(home: Path) -> None:
    """Files of another owner than the Maildir's are reported, since their user may not be able to read them."""
    want_root()
    _, bases = ten_messages(home)
    for path in (home / "M", *(home / "M").rglob("*")):
        os.chown(path, 65534, 65534)
    expect("verify --all M box", home, 0, WHOLE)
    os.chown(home / "M/new" / bases[4], 0, 0)
    expect(
        "verify --all M box",
        home,
        1,
        checked(
            "not whole, of another owner 1",
            "not whole (1 other-owner)",
            f"    not owned by the owner of the Maildir: M/new/{bases[4]}\n",
        ),
    )


def verified_by_others(home: Path) -> None:
    """A mailbox that has mail in its From_ line; faults; and a program that lists something else."""
    (home / "box").write_text("From a\n\nhello\n\n")
    run("mbox2maildir convert M box", home)
    (home / "mac").write_bytes(A.replace(b"\n", b"\r"))
    run("mbox2maildir convert M mac", home)
    expect(
        "verify --all M mac",
        home,
        1,
        "mac -> INBOX: messages 1: not whole, doubtful lines 1\n    line 1: this From_ line may contain mail\n"
        "1 mailbox: 1 not whole (1 doubtful-line)\n",
    )
    (home / "no-mbox").write_text("hello\n")
    expect(
        "verify --all M no-mbox none M",
        home,
        1,
        "no-mbox: left (not-known): no From line at the start\n    find out what it is:\n"
        "        mbox2maildir-admin kind no-mbox\nnone: left (missing): No such file or directory\n...\n...\n"
        "M: left (maildir): it is a Maildir, not a mailbox\n    leave it as it is\n3 mailboxes: 3 left\n",
    )
    (home / "empty").mkdir()
    expect("dates M empty", home, 1, "", "mbox2maildir-admin: empty: it contains no mailbox\n    there is ...\n")
    for words, sums in ((["verify", "--all", "M"], "1 mailbox: 1 left\n"), (["kind"], "")):
        says = "empty: left (no-mailbox): it contains no mailbox\n    there is nothing to be done\n"
        expect([*words, "empty"], home, 1, says + sums)
    says = "mac: left (no-maildir): it was not migrated: None is no Maildir\n...\n...migrate None mac\n...\n"
    expect("verify --all None mac", home, 1, says)
    for script, says in (
        ("exit 0", "`mbox2maildir list` gave fewer messages than were read here"),
        ("echo 1 abc.1", "line 1: message 1 differs from what `mbox2maildir list` gave"),
        (f"{home}/real list; echo more", "`mbox2maildir list` gave more messages than were read here"),
        ("echo no library >&2; exit 1", "`mbox2maildir list` failed: no library"),
        (f"{home}/real list; exit 1", "`mbox2maildir list` failed: it ended with status 1"),
    ):
        if not (home / "real").exists():
            os.rename(home / "bin/mbox2maildir", home / "real")
        (home / "bin/mbox2maildir").write_text(f"#!/bin/sh\n{script}\n")
        (home / "bin/mbox2maildir").chmod(0o755)
        expect("verify --all M box", home, 1, f"box: left (...): {says}\n1 mailbox: 1 left\n")


def read_meanwhile(home: Path) -> None:
    """A mail program that moves and flags mail without a pause hides none of it, and doubles none."""
    (home / "box").write_text("".join(f"From a@b Mon Mar  3 09:12:44 2025\n{number}\n\n" for number in range(500)))
    run("mbox2maildir convert M box", home)
    ended, dice = threading.Event(), random.Random(1)
    moved = []  # type: list[Path]

    def move() -> None:
        while not ended.is_set():
            path = dice.choice([*(home / "M/new").iterdir(), *(home / "M/cur").iterdir()])
            path.rename(home / "M/cur" / f"{path.name.split(':')[0]}:2,{dice.choice(['', 'F', 'S', 'T'])}")
            moved.append(path)

    mover = threading.Thread(target=move)
    mover.start()
    try:
        for _ in range(3):
            expect("verify --all M box", home, 0, "box -> INBOX: messages 500: whole\n1 mailbox: 1 whole\n")
            expect("dates M box", home, 0, "box: messages 500, dated 500\n", None)
    finally:
        ended.set()
        mover.join()
    print(f"admin: verify and dates beside a mail program: {'many' if len(moved) > 100 else len(moved)} moves")


if __name__ == "__main__":
    check_all(*checks_in(globals()))
