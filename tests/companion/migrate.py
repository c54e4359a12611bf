"""mbox2maildir-admin migrate: a mailbox that is done is never converted again; what is said at the end; copies beside
mailboxes; locks; records of others and of other versions; and what root leaves alone. Cases that need root are left out
without it."""
import contextlib
import gzip
import os
import shlex
import shutil
import subprocess
from collections.abc import Callable, Iterator, Sequence
from functools import partial
from pathlib import Path

from tests.support.checks import LATER, equal, matches
from tests.support.homes import by_json, check_all, checks_in, doing_first, expect, fake, files_of, mail_in, mailbox
from tests.support.homes import make_maildir, run, run_whole, subjects, want_root
from tests.support.ledgers import LEDGER, RECORD
from tests.support.mail import A, ONE, THREE, TWO, digest_of
from tests.support.running import Desk

AGAIN = ("--again", "M", "box")
# the first line of a record
VERSION_LINE = b"mbox2maildir-record\t2\n"
# of the process, the disk has no room for an answer about this folder, and has room later
CUTS = """
import os
write = os.write
def writes(number, piece):
    return write(number, piece[:20] if piece.startswith(b"answered\\t.a\\t") else piece)
os.write = writes
"""


def grow(path: Path, text: bytes) -> None:
    """Appends to a mailbox, and makes it look as if it had been left alone since."""
    mailbox(path, path.read_bytes() + text)


def steps(folder: Path) -> str:
    """The first letters of the lines that the ledger of a folder has, but those of messages."""
    lines = (folder / LEDGER).read_text().splitlines()[1:] if (folder / LEDGER).exists() else []
    return "".join(line[0] for line in lines if line[0] not in "psfbl")


def file_of(maildir: Path, subject: str) -> Path:
    """The file of the message with this subject."""
    return next(path for path in files_of(maildir).values() if f"Subject: {subject}\n" in path.read_text())


def done(home: Path, said: str, before: int = 0, words: Sequence[str] = ("M", "box")) -> None:
    """Migrates a mailbox, which must end well and say this, or nothing if it was done before."""
    line = f"box -> INBOX: mboxrd or mboxo, {said}\n" if said else ""
    expect(["migrate", "--all", *words], home, 0, f"{line}1 mailbox: 1 done{' before' if before else ''}\n")


def done_before(home: Path, gone: int, placed: int) -> None:
    """Migrates a mailbox that was done before, and whose folder has lost this much mail."""
    says = f"{gone} of the {placed} messages that were placed in its folder are gone, or another program renamed them"
    expect("migrate --all M box", home, 0, f"box -> INBOX: done before, {says}\n1 mailbox: 1 done before\n")


def once_and_never_again(home: Path) -> None:
    """A mailbox that is done is never converted again, whatever was moved, renamed or deleted."""
    mailbox(home / "box", ONE + TWO + THREE)
    before = (home / "box").stat()
    words = "migrate --all --dry-run M box"
    expect(words, home, 0, "box -> INBOX: mboxrd or mboxo, messages 3: would be done\n1 mailbox: 1 would be done\n")
    assert not (home / "M").exists(), "--dry-run made M"
    done(home, "messages 3: done")
    equal("the ledger", steps(home / "M"), "@+=")
    for name in (RECORD, LEDGER):
        equal(f"the mode of {name}", (home / "M" / name).stat().st_mode & 0o777, 0o600)
    equal("the mode of the Maildir", (home / "M").stat().st_mode & 0o777, 0o700)
    equal("the first date", file_of(home / "M", "one").stat().st_mtime % 60, 44)
    after = (home / "box").stat()
    equal("the mailbox", (after.st_mtime, after.st_ino), (before.st_mtime, before.st_ino))
    expect("verify --all M box", home, 0, None)

    file_of(home / "M", "one").unlink()
    moved = file_of(home / "M", "two")
    moved.rename(home / "M/cur/17.host,U=1:2,S")
    done_before(home, 2, 3)
    equal("what is there", subjects(home / "M"), ["three", "two"])
    # a copy of it brings nothing either, and under another name, and in another folder, it is the same mailbox
    mailbox(home / "copy", ONE + TWO + THREE)
    says = "2 messages there already, from .../box; 1 that .../box brought are gone; 1 message of other programs ..."
    back = "this stores the messages that are nowhere, and brings back deleted mail"
    out = f"copy -> INBOX: ...: done, {says}\n    {back}:\n        mbox2maildir-admin migrate --again M copy\n...\n"
    expect("migrate --all M copy", home, 0, out)
    (home / "moved").mkdir()
    (home / "box").rename(home / "moved/box")
    expect("migrate --all M moved/box", home, 0, "moved/box -> INBOX: done before, ...\n1 mailbox: 1 done before\n")
    equal("what is there", subjects(home / "M"), ["three", "two"])
    # what is new in it is brought, and --again brings what is gone
    (home / "moved/box").rename(home / "box")
    done_before(home, 2, 3)
    mailbox(home / "box", ONE + TWO + THREE.replace(b"three", b"THREE"))
    other = "1 message of other programs in the folder"
    done(home, f"messages 3: done, it grew by 1 message; 1 message gone from it that it had brought; {other}")
    # nobody knows any more who brought what was renamed
    done(home, f"messages 3: done, placed 1 message; 1 message there already, by no mailbox; {other}", words=AGAIN)
    equal("after --again", subjects(home / "M"), ["THREE", "one", "three", "two"])


def last_line(home: Path) -> None:
    """The last line says how much was done or would be done, and in which time, if there was a mailbox. Times are not
    compared here."""
    texts = {"one": ONE + TWO, "two": THREE, "nothing": b"", "note": b"hello\n"}
    for name, text in texts.items():
        mailbox(home / "old" / name, text)
    size = f"3 messages, {len(ONE + TWO + THREE)} bytes"
    for options, sums, work in (("--dry-run --now", "3 would be done", size), ("--now", "3 done", size)):
        _, out, _ = run_whole(["migrate", "--all", *options.split(), "M", "old"], home)
        matches(f"{options}: the last line", out.splitlines()[-1], f"4 mailboxes: {sums}, 1 left; {work} in ... s")
    _, out, _ = run_whole("migrate --all M old", home)
    equal("where nothing was done", out.splitlines()[-1], "4 mailboxes: 3 done before, 1 left")
    _, out, _ = run_whole("migrate --all M old/one", home)
    equal("where one was done before", out, "1 mailbox: 1 done before\n")
    _, out, _ = run_whole("migrate --all N old/nothing", home)
    matches("where nothing was to be done", out.splitlines()[-1], "1 mailbox: 1 done; 0 messages, 0 bytes in ... s")


def copies_beside(home: Path) -> None:
    """A copy beside a mailbox is taken for nothing: both are left until a human decides. The printed command is for the
    mailbox alone, and what may be its copy stays left, until it is moved away or gets a folder by name."""
    text = A + b"\nFrom here on.\n\nFrom there on.\n\n"
    mailbox(home / "box", text)
    equal("its copy", run("quote --as unquoted -o box.mboxrd box", home)[0], 0)
    mailbox(home / "box.mboxrd", (home / "box.mboxrd").read_bytes())
    mailbox(home / "box.gz", gzip.compress(text))
    words, move = [
        "migrate",
        "--all",
        "M",
        "box",
        "box.gz",
        "box.mboxrd",
    ], "    if one is a copy, move it out of here\n"
    copies = [f"{name}: left (copy): box stands beside it\n{move}" for name in ("box.gz", "box.mboxrd")]
    command = "mbox2maildir-admin migrate --folder INBOX M box"
    row = f"box: left (copy): box.mboxrd and box.gz stand beside it\n{move}"
    row += f"    if none is a copy, run this next:\n        {command}\n"
    expect(words, home, 1, "".join([row, *copies, "3 mailboxes: 3 left\n"]))
    expect([*command.split()[1:2], "--as", "unquoted", *command.split()[2:]], home, 0, None)
    expect(words, home, 1, "".join([*copies, "3 mailboxes: 1 done before, 2 left\n"]))
    equal("what is there", len(list(mail_in(home / "M"))), 1)
    expect("migrate --all --folder Other M box.mboxrd", home, 0, "box.mboxrd -> Other: ...: done\n1 mailbox: ...\n")
    (home / "box.gz").unlink()
    expect(words, home, 1, None)
    expect([*words[:4], words[5]], home, 0, "2 mailboxes: 2 done before\n")


@contextlib.contextmanager
def holding(path: Path, lock: str) -> Iterator[None]:
    """Another process has locked a file."""
    code = (
        "import fcntl, sys\nfile = open(sys.argv[1], 'r+')\nfcntl.%s(file, fcntl.LOCK_EX)\nprint('held', flush=True)\n"
        "sys.stdin.read()" % lock
    )
    with subprocess.Popen(["python3", "-c", code, path], stdin=subprocess.PIPE, stdout=subprocess.PIPE) as child:
        assert child.stdin and child.stdout
        equal("another program has the lock", child.stdout.readline(), b"held\n")
        yield
        child.stdin.close()


def locks(home: Path) -> None:
    """A locked mailbox is left, and so is a Maildir in which another migrate is at work."""
    box = mailbox(home / "box", ONE)
    says = "box -> INBOX: left (locked): another program has locked it{}\n    wait until ...\n...\n".format
    for lock in ("flock", "lockf"):
        with holding(box, lock):
            expect("migrate --all M box", home, LATER, says(""))
    mailbox(home / "box.lock", b"", 60)
    expect("migrate --all M box", home, LATER, says(" with box.lock"))
    mailbox(home / "box.lock", b"", 1300)
    mailbox(home / "empty", b"")
    expect("migrate --all M empty", home, 0, "empty -> INBOX: empty, messages 0: done\n1 mailbox: 1 done\n")
    with holding(home / "M" / RECORD, "flock"):
        says_of_it = "another migrate is at work in M, or a convert that an interrupted one left behind"
        expect("migrate M box", home, LATER, "", f"mbox2maildir-admin: {says_of_it}\n    wait until ...\n")
    done(home, "messages 1: done, box.lock is older than 20 minutes and was ignored")
    # nobody may write to it while it is converted
    (home / "box.lock").unlink()
    grow(box, TWO)
    locks_it = f'import fcntl; fcntl.lockf(open("{box}", "r+"), fcntl.LOCK_EX | fcntl.LOCK_NB)'
    fake(home, f"python3 -c '{locks_it}' 2>>'{home}/refused'\nexec \"$real\" \"$@\"")
    done(home, "messages 2: done, it grew by 1 message")
    assert "BlockingIOError" in (home / "refused").read_text(), "another program got the lock while convert was at work"


def records_of_others(home: Path) -> None:
    """A record that is not a regular file of one's own is left alone. Lines that are not lines of a record do not
    count."""
    mailbox(home / "box", ONE)
    (home / "M/new").mkdir(parents=True)
    (home / "M/cur").mkdir()
    record = home / "M" / RECORD

    def open_to(mode: int) -> None:
        record.touch()
        record.chmod(mode)

    makes = [
        (lambda: os.symlink(home / "box", record), "it is a symbolic link"),
        (lambda: os.mkfifo(record), "it does not belong to you, ..."),
        (lambda: os.link(home / "box", record), "it has several names (`cp -al` ..."),
        (record.mkdir, "Is a directory"),
        *(
            (partial(open_to, mode), "it does not belong to you, or others may write to it: ...")
            for mode in (0o620, 0o602)
        ),
        (lambda: subprocess.run(["truncate", "-s", "1T", record], check=True), "it is too large for a record: ..."),
    ]  # type: list[tuple[Callable[[], object], str]]
    for make, why in makes:
        make()
        expect("migrate M box", home, 1, "", f"mbox2maildir-admin: M/{RECORD}: {why}\n")
        equal(f"{why}: what is there", len(files_of(home / "M")), 0)
        if record.is_dir():
            record.rmdir()
        else:
            record.unlink()
    equal("the mailbox", (home / "box").read_bytes(), ONE)
    two = mailbox(home / "two", TWO)
    line = f"done\t.\t{len(TWO)}\t{digest_of(TWO)}\t1\t2025-03-03T10:00:00Z\t{two}\tmboxrd".encode()
    record.write_bytes(VERSION_LINE + b"\xff\n\ndone\t.\nfroot\tloops\n" + line)
    record.chmod(0o600)
    done(home, "messages 1: done")
    equal("the torn line is ended", record.read_text(errors="replace").split("\n")[6].split("\t")[0], "done")
    expect("migrate --all M two", home, 0, "two -> INBOX: ...messages 1: done, INBOX has the mail of ...\n...\n")


def a_line_that_is_cut(home: Path) -> None:
    """A full disk cuts a line of the record. The next line, of the same run, stands by itself."""
    for name, text in (("a", TWO), ("b", THREE), ("c", ONE)):
        mailbox(home / "old" / name, text + b"From the garden\nyes\n\n" * (name != "c"))
    asked = (row["next"] for row in by_json("migrate --now M old", home).rows if row["reason"] == "unclear")
    ties = ",".join(argv[argv.index("--of") + 1] for argv in (answers[0]["argv"] for answers in asked))
    words = ["migrate", "--json", "--now", "--as", "unquoted", "--of", ties, "--jobs", "1", "M", "old"]
    ran = run([doing_first(CUTS, home / "bin"), *words], home)
    equal("why each is left", [row["reason"] for row in ran.rows], ["no-room", None, None])
    noted = [line[:12] for line in (home / "M" / RECORD).read_bytes().splitlines() if line.startswith(b"answered")]
    equal("what is noted", noted, [b"answered\t.a\t", b"answered\t.b\t"])


def of_another_version(home: Path) -> None:
    """A record or a ledger whose first line says that another version wrote it is refused with one sentence. Nothing is
    written into it, and nothing else is done. Once it is moved away, what is there is not stored again."""
    mailbox(home / "box", ONE + TWO)
    says = (
        "this version did not write it: finish with the version that did, or move this file away and run migrate with "
    )
    commands = (
        "migrate",
        "migrate --again",
        "migrate --prepare --unread",
        "migrate --dry-run",
        "migrate --undo",
        "back",
    )
    ledgers = (b"mbox2maildir\t%d\t%s\n" % (number, b"0" * 32) for number in (1, 2, 4))
    records = [(RECORD, b"mbox2maildir-record\t%d\n" % number) for number in (1, 3)]
    lines = [*records, (RECORD, b""), *((LEDGER, line) for line in ledgers)]
    for name, first in lines:
        mailbox(home / "box", ONE + TWO)
        expect("migrate M box", home, 0, None)
        path = home / "M" / name
        path.write_bytes(first + path.read_bytes().partition(b"\n")[2])
        grow(home / "box", THREE)
        before = {one: one.read_bytes() for one in (home / "M").rglob("*") if one.is_file()}
        for words in commands:
            status, out, err = run([*words.split(), "--now", "M", "box"], home)
            equal(f"{words}: {out}{err}", (status, (out + err).count(f"M/{name}: {says}--again\n")), (1, 1))
            equal(words, {one: one.read_bytes() for one in (home / "M").rglob("*") if one.is_file()}, before)
        path.unlink()
        expect("migrate --again M box", home, 0, None)
        equal("what is there", subjects(home / "M"), ["one", "three", "two"])
        shutil.rmtree(home / "M")


def links(home: Path) -> None:
    """A symbolic link in a Maildir is no mail: what it leads to is not read, also if it has the name of a message."""
    mailbox(home / "box", ONE + TWO)
    make_maildir(home / "M")
    (home / "outside").write_bytes(ONE.partition(b"\n")[2][:-1])
    os.symlink("../../outside", home / "M/cur/17.host:2,S")
    done(home, "messages 2: done")
    expect("verify --all M box", home, 0, "box -> INBOX: messages 2: whole\n1 mailbox: 1 whole\n")
    (home / "N/new").mkdir(parents=True)
    os.symlink("../../outside", home / f"N/new/{digest_of((home / 'outside').read_bytes())}.1")
    done(home, "messages 2: done, placed 2 messages", words=["--again", "N", "box"])


def refused(home: Path) -> None:
    """root makes nothing of a mailbox that belongs to another user, nor in a folder of one."""
    want_root()
    mailbox(home / "box", ONE)
    for options in ("", "--dry-run --again --folder 'x y' "):
        os.chown(home / "box", 65534, 65534)
        says = "mbox2maildir-admin: box: it belongs to nobody\n    run this next:\n        runuser -u nobody -- "
        says += f"mbox2maildir-admin migrate {options}{home}/N {home}/box\n"
        expect(["migrate", *shlex.split(options), "N", "box"], home, 1, "", says)
    for group in (65534, 0):
        os.chown(home / "box", 54321, group)
        expect("migrate N box", home, 1, "", "...: box: it belongs to user 54321\n    run this as that user\n")
    equal("what was made", sorted(path.name for path in home.iterdir()), ["bin", "box"])
    # a Maildir that root made in the folder of another user
    (home / "theirs/M").mkdir(parents=True)
    os.chown(home / "theirs", 65534, 65534)
    os.chown(home / "box", 0, 0)
    says = f"mbox2maildir-admin: {home}/theirs: it belongs to nobody\n...\n...\n"
    expect("migrate theirs/M box", home, 1, "", says)
    equal("what is in it", list((home / "theirs/M").iterdir()), [])


def begun_meanwhile(home: Path) -> None:
    """While a mailbox is read, another run makes the Maildir, or brings mail into the folder by the name that it has in
    another Maildir: nothing is done, and the next run goes on. Nor does root write into what another user has made. An
    older ledger may take the place of the one that was read."""
    for name, text in (("box", ONE), ("two", TWO), ("three", THREE)):
        mailbox(home / name, text)
    made = "box -> X: ...: left (locked): another migrate has made M meanwhile\n    wait until ...\n...\n"
    says = "box -> X: ...: left (locked): another migrate is at work in .../.X\n    wait until ...\n...\n"
    theirs = f"...{home}/M: its owner, who is not root, could replace the Maildir by a symbolic link\n...\n...\n"
    started = f"'{home}/bin/mbox2maildir-admin' migrate --now --folder X"
    for deed, status, wanted in (
        *([("install -d -o nobody M", 1, theirs)] * (os.getuid() == 0)),
        (f"{started} M two", LATER, made),
        (f"mkdir -p N/new; ln -s ../M/.X N/.X; {started} N three", LATER, says),
        ("cp older M/.X/mbox2maildir-messages", 0, "box -> X: ...: done...\n...\n"),
    ):
        fake(home, f"if mkdir '{home}/once'; then (cd '{home}' && {deed}); fi >&2\nexec \"$real\" \"$@\"", "list")
        ran = Desk(home).run("migrate --all --now --folder X M box".split())
        matches(deed, ran.output, wanted)
        equal(f"{deed}: its status: {ran.output}", ran.status, status)
        (home / "once").rmdir()
        if "install" in deed:
            (home / "M").rmdir()
        if (home / "M/.X").exists() and not (home / "older").exists():
            shutil.copy(home / "M/.X" / LEDGER, home / "older")


def roots_alone(home: Path) -> None:
    """root writes only where nobody else could put a link in place of a folder, at any height, and by the real path."""
    want_root()
    mailbox(home / "box", ONE)
    (home / "theirs/a/b").mkdir(parents=True)
    os.chown(home / "theirs", 65534, 65534)
    (home / "open/a/b").mkdir(parents=True)
    (home / "open").chmod(0o777)
    os.symlink("theirs/a/b", home / "link")
    for maildir, says in (
        ("theirs/a/b/M", "theirs: its owner, who is not root, could replace the Maildir by a symbolic link\n..."),
        ("link/M", "theirs: its owner, who is not root, could replace the Maildir by a symbolic link\n..."),
        ("open/a/b/M", "open: others, who may write there, could replace the Maildir by a symbolic link\n..."),
        ("open/M", "open: others, who may write there, could replace the Maildir by a symbolic link\n..."),
    ):
        expect(["migrate", maildir, "box"], home, 1, "", f"mbox2maildir-admin: {home}/{says}\n")
    equal("what is there", [*(home / "theirs/a/b").iterdir(), *(home / "open/a/b").iterdir()], [])
    (home / "theirs").chmod(0o1777)
    err = f"mbox2maildir-admin: {home}/theirs: its owner, who is not root, ...\n...\n"
    expect("migrate theirs/a/b/M box", home, 1, "", err)
    # in a sticky folder nobody can replace what belongs to root
    (home / "open").chmod(0o1777)
    expect("migrate open/a/b/M box", home, 0, None)
    (home / "open/a/b/M/new").chmod(0o777)
    expect(
        "migrate open/a/b/M box",
        home,
        1,
        "",
        f"mbox2maildir-admin: {home}/open/a/b/M/new: others, who may write there, could replace ...\n...\n",
    )


if __name__ == "__main__":
    check_all(*checks_in(globals()))
