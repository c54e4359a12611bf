"""mbox2maildir-admin migrate --users: a spool of users, each migrated with only that user's rights. It needs root, and
is left out without it."""
import contextlib
import gzip
import os
import pwd
import re
import shutil
import subprocess
import sys
from collections.abc import Iterator
from pathlib import Path

from tests.support import accounts
from tests.support.checks import TOP, equal, match_in, matches, text_of, without_progress
from tests.support.homes import (
    ADMIN,
    by_json,
    check_all,
    doing_first,
    expect,
    fake,
    mailbox,
    restore,
    run,
    subjects,
    want_users,
)
from tests.support.ledgers import RECORD
from tests.support.mail import ONE, THREE, TWO, numbered
from tests.support.printed import Printed, row_in, rows_in
from tests.support.running import Word

USERS = ["m61one", "m61two", "m61three"]


@contextlib.contextmanager
def users(home: Path) -> Iterator[None]:
    """Makes users for a while, with their homes."""
    with accounts.users_at_home({name: home / "homes" / name for name in USERS}):
        yield


def theirs(path: Path, name: str) -> None:
    """Gives a file, and the folders above it up to the home or the spool, to a user."""
    account = pwd.getpwnam(name)
    # if it is in neither, nothing changes its owner
    top = next(above for above in path.parents if above == Path(account.pw_dir) or above.name == "spool")
    for one in [path, *path.parents]:
        if one == top:
            break
        os.chown(one, account.pw_uid, account.pw_gid, follow_symlinks=False)


def spool(home: Path) -> None:
    """Each mailbox of a spool goes into its user's home, with only that user's rights. Names that belong to nobody are
    left."""
    want_users()
    with users(home):
        for number, name in enumerate(USERS):
            theirs(mailbox(home / "spool" / name, (ONE, TWO, THREE)[number]), name)
        for name in ("Inbox", "lists/sheds", "x.mbox"):
            theirs(mailbox(home / "homes/m61two/mail" / name, ONE), "m61two")
        for name, text in (("nobody-at-all", ONE), ("root", ONE), ("other.lock", b"")):
            mailbox(home / "spool" / name, text)
        nobody = "nobody-at-all: left (no-user): no such user\n"
        for path, mode in ((home / "spool", 0o700), (home / "spool", 0o710), (home, 0o710)):
            path.chmod(mode)
            says = f"users may not enter {path}\n    run this next:\n        chmod 711 {path}\n"
            expect("migrate --users spool", home, 1, "", f"mbox2maildir-admin: {says}")
            path.chmod(0o711)
        expect(
            "migrate --all --users --dry-run spool m61one m61gone",
            home,
            1,
            "m61gone: left (no-user): no such user\n"
            "m61one -> INBOX: mboxrd or mboxo, messages 1: would be done\n2 mailboxes: 1 would be done, 1 left; "
            "1 user: 1 from the command line; 5 names of the spool were not asked for\n",
        )
        equal("what --dry-run made", list((home / "homes/m61one").iterdir()), [])
        expect(
            "migrate --all --users --dry-run spool",
            home,
            1,
            "...\n" * 7 + "... mailboxes: 3 would be done, ...2 left; ...3 users: 3 from the spool\n",
        )
        status, out, err = run("migrate --all --users --tree mail --jobs 2 spool", home)
        equal("--users", (status, err), (1, ""))
        equal(
            "the lines of --users",
            sorted(row.line + "\n" for row in rows_in(out)),
            sorted(
                (
                    nobody
                    + "root: left (system-account): a system account\n"
                    + "".join(f"{name} -> INBOX: mboxrd or mboxo, messages 1: done\n" for name in USERS)
                    + "m61two mail/Inbox: left (no-folder): another mailbox goes into INBOX too\n"
                    "m61two mail/lists/sheds -> lists/sheds: mboxrd or mboxo, messages 1: done\n"
                    "m61two mail/x.mbox -> x: mboxrd or mboxo, messages 1: done, its name was x.mbox\n"
                    "8 mailboxes: 5 done, 3 left; 1 other file: no mail; 3 users: 3 from the spool\n"
                ).splitlines(True)
            ),
        )
        commands = {row.name: row.command for row in rows_in(out) if row.below}
        equal("what is next, and for whom", sorted(commands), ["m61two mail/Inbox", "root"])
        assert commands["m61two mail/Inbox"].startswith("runuser -u m61two -- mbox2maildir-admin migrate "), commands
        for name in USERS:
            account, paths = pwd.getpwnam(name), list((home / "homes" / name / "Maildir").rglob("*"))
            found = {(path.stat().st_uid, path.stat().st_gid) for path in paths}
            equal(f"whose the files of {name} are", found, {(account.pw_uid, account.pw_gid)})
        equal(
            "--users again",
            run(["migrate", "--all", "--users", "--tree", "mail", "spool", *USERS], home)[1].splitlines()[-1],
            "6 mailboxes: 5 done before, 1 left; 3 users: 3 from the command line; "
            "3 names of the spool were not asked for",
        )
        again(home)
        listing(home)
        names_of_a_list(home)
        inbox_in_a_home(home)
        second_mailbox(home)
        as_objects(home)
        without_proc(home)
        hostile_spool(home)
        hostile_homes(home)


def again(home: Path) -> None:
    """What is new at the same paths is brought. If nothing of the first batch is there any more, the mailbox is left:
    --again converts what is nowhere of it, with each user's rights, and so does the command that is printed."""
    words = ["migrate", "--all", "--users", "--tree", "mail", "spool", *USERS]
    tree = home / "homes/m61two/mail"
    batch = {"m61one": home / "spool/m61one", "m61two mail/x.mbox": tree / "x.mbox", "m61two": home / "spool/m61two"}
    for name, path in batch.items():
        theirs(mailbox(path, numbered("first", 4) + path.read_bytes()), name.split()[0])
    status, out, _ = run(words, home)
    grew = [row.name for row in rows_in(out) if "messages 5: done, it grew by 4 messages" in row.line]
    equal("what is new: status, and what grew", (status, sorted(grew)), (1, sorted(batch)))
    for name, path in batch.items():
        theirs(mailbox(path, numbered("second", 5)), name.split()[0])
    status, out, _ = run(words, home)
    left = {row.name: row.command for row in rows_in(out) if "left (rewritten): 5 messages that it" in row.line}
    equal("a second batch: status, and what is left", (status, sorted(left)), (1, sorted(batch)))
    equal("its command", run(["/usr/bin/env", "sh", "-c", left["m61two"]], home)[0], 0)
    ways = [
        (["--dry-run"], "would be done", "would place"),
        ([], "done", "placed"),
    ]  # type: list[tuple[list[str], str, str]]
    for more, fate, says in ways:
        status, out, _ = run([*words[:2], "--again", *more, *words[2:]], home)
        rows = [line for line in out.splitlines() if says in line]
        equal(
            f"--users --again {more}",
            (status, sorted(rows)),
            (
                1,
                [
                    f"m61one -> INBOX: mboxrd or mboxo, messages 5: {fate}, {says} 5 messages",
                    f"m61two mail/x.mbox -> x: mboxrd or mboxo, messages 5: {fate}, {says} 5 messages; "
                    "its name was x.mbox",
                ],
            ),
        )
    went_there(home)
    equal("--users after --again", run(words, home)[1].splitlines()[-1][:38], "6 mailboxes: 5 done before, 1 left; 3 ")


def went_there(home: Path) -> None:
    """The mail of the second batch that was nowhere is there, beside the first batch, and belongs to its user."""
    others = [f"first{number}" for number in range(4)] + [f"second{number}" for number in range(5)]
    for name, folder, wanted in (("m61one", "", "one"), ("m61two", ".x", "one"), ("m61two", "", "two")):
        maildir = home / "homes" / name / "Maildir" / folder
        equal(f"what is in {maildir}", subjects(maildir), sorted([wanted, *others]))
        account = pwd.getpwnam(name)
        equal(f"whose {maildir} is", {path.stat().st_uid for path in maildir.rglob("*")}, {account.pw_uid})


def inbox_in_a_home(home: Path) -> None:
    """A user without a mailbox in the spool has the inbox at home: Dovecot puts mail there. It goes into INBOX, unless
    another mailbox went there."""
    theirs(mailbox(home / "homes/m61three/mail/inbox", ONE), "m61three")
    (home / "no-spool").mkdir()
    words = ["migrate", "--all", "--users", "--tree", "mail", "--dovecot"]
    own = f"{home}/homes/m61three"
    left = (
        "m61three mail/inbox: left (no-folder): another mailbox goes into INBOX too\n    run this next:\n"
        "        runuser -u m61three -- mbox2maildir-admin migrate --dovecot --folder NAME "
        f"{own}/Maildir {own}/mail/inbox\n...\n"
    )
    expect([*words, "no-spool", "m61three"], home, 1, left)
    says = "m61three mail/inbox -> INBOX: mboxrd or mboxo, messages 1: done, Dovecot had given it no UIDs\n...\n"
    expect([*words, "--maildir", "Own", "no-spool", "m61three"], home, 0, says)
    expect([*words, "--maildir", "Own", "no-spool", "m61three"], home, 0, "1 mailbox: 1 done before; ...\n")
    # an empty one is in nobody's way
    (home / "homes/m61three/mail/inbox").write_bytes(b"")
    says = "no mailboxes; 1 other file: no mail; 1 user: 1 from the command line\n"
    expect([*words, "no-spool", "m61three"], home, 1, says)
    shutil.rmtree(home / "homes/m61three/mail")


def listing(home: Path) -> None:
    """The users whom a run takes, of whom one has nothing in the spool, are printed as a list of names, by the range of
    login.defs, and nothing is migrated. A run for the printed list takes the same users."""
    old, words = home / "listing/spool", ["migrate", "--all", "--users", "--maildir", "Listing", "--tree", "mail"]
    for name in ("m61one", "m61three", "nobody-at-all", "root", "daemon", "m61one.lock"):
        mailbox(old / name, b"" if name.endswith("lock") else ONE)
        if name in USERS:
            theirs(old / name, name)
    wanted = "".join(
        f"{name}\t{source}\t{size}\n"
        for name, source, size in (
            ("m61one", "from the spool", len(ONE)),
            ("m61three", "from the spool", len(ONE + TWO)),
            ("m61two", "from the accounts", 0),
        )
    )
    theirs(mailbox(old / "m61three", ONE + TWO), "m61three")
    expect([*words, "--list", old], home, 0, wanted)
    given = f"{ADMIN} {' '.join(words)} --names - {old}"
    (home / "list").write_text(wanted, encoding="utf-8")
    status, out, err = run(["/bin/sh", "-c", f"{given} --list <list"], home)
    equal("the list of a list", (status, out, err), (0, re.sub("from the [a-z]+", "from standard input", wanted), ""))
    equal("what --list made", list((home / "homes").glob("*/Listing")), [])
    status, out, _ = run(["/bin/sh", "-c", f"{given} --dry-run <list"], home)
    matches("a run for the list", out.splitlines()[-1], "...; 3 users: 3 from standard input; 4 names ...")
    with own_settings("UID_MIN 60602"):
        expect([*words, "--list", old], home, 0, wanted.partition("\n")[2])
    lists_of_names(home, words, old)


def lists_of_names(home: Path, words: list[str], old: Path) -> None:
    """A list may be long, and have names of nobody. A name of an account may be one that no list can hold."""
    (home / "many").write_bytes(b"".join(b"nobody-%d\n" % number for number in range(1001)) + b"a\0b\nm61one\n")
    says = (
        "mbox2maildir-admin: no user has these names: nobody-0, nobody-1, nobody-2, nobody-3, nobody-4 and 997 more\n"
    )
    expect([*words, "--list", "--names", "many", old], home, 0, f"m61one\tfrom many\t{len(ONE)}\n", says)
    os.truncate(mailbox(home / "long", b"m61one\n"), (1 << 24) + 1)
    says = "long: it is longer than 16 MB, so it is not a list of names"
    expect([*words, "--list", "--names", "long", old], home, 1, "", f"mbox2maildir-admin: {says}\n")
    with accounts.users({"m61\ta": home / "homes/a"}):
        mailbox(old / "m61\ta", ONE)
        says = "mbox2maildir-admin: m61\\x09a: a list cannot hold this name\n"
        expect(["migrate", "--users", "--list", old], home, 1, None, says)
        (old / "m61\ta").unlink()


@contextlib.contextmanager
def own_settings(line: str) -> Iterator[None]:
    """Gives login.defs this line alone for a while."""
    path = Path("/etc/login.defs")
    before = path.read_bytes()
    path.write_text(f"{line}\n", encoding="utf-8")
    try:
        yield
    finally:
        path.write_bytes(before)


def names_of_a_list(home: Path) -> None:
    """A list names users too. An account of the system counts as one then, and a list without names is refused."""
    (home / "list").write_bytes(b"m61two\n\nm61gone\ndaemon\n")
    expect(
        "migrate --all --users --names list spool m61one",
        home,
        1,
        "m61gone: left (no-user): no such user\ndaemon: left (no-mailbox): no mailbox of that name in ...\n"
        "4 mailboxes: 2 done before, 2 left; 3 users: 1 from the command line, 2 from list; "
        "4 names of the spool were not asked for\n",
    )
    (home / "list").write_bytes(b"daemon\n")
    words = "migrate --all --users --tree mail --names list spool"
    expect(words, home, 1, "daemon: left (home): the home of its user belongs to root: ...\n1 mailbox: 1 left; ...\n")
    expect("migrate --users --names - spool", home, 1, "", "mbox2maildir-admin: standard input: it contains no name\n")
    # a variable that is not set stands neither for all users nor for no folder
    for option in ("--names", "--tree", "--maildir"):
        says = f"mbox2maildir-admin: {option}: it takes a name, which is empty here\n...\n"
        expect(["migrate", "--users", option, "", "spool"], home, 2, "", says)
    # a home on another disk, to which a symbolic link of root's leads
    (home / "disk").mkdir()
    (home / "homes/m61two").rename(home / "disk/m61two")
    os.symlink(home / "disk/m61two", home / "homes/m61two")
    status, out, err = run("migrate --all --users --tree mail spool m61two", home)
    equal(
        "a home over a link", (status, err, out.splitlines()[-1][:36]), (1, "", "4 mailboxes: 3 done before, 1 left; ")
    )
    (home / "homes/m61two").unlink()
    (home / "disk/m61two").rename(home / "homes/m61two")


# notes when processes begin and end
NOTES = """
import os
fork, waits = os.fork, os.waitpid
def note(word):
    with open('order', 'a') as file:
        file.write(word)
def forks():
    number = fork()
    if number:
        note('(')
    return number
def ends(*words):
    note(')')
    return waits(*words)
os.fork, os.waitpid = forks, ends
"""


def second_mailbox(home: Path) -> None:
    """Further mailboxes of an account are left, each with the command that migrates it. After that it is done before.
    One process at a time is at work for an account."""
    with accounts.users({name: home / "homes/m61one" for name in ("m61info", "m61sales")}, like="m61one"):
        for name in ("m61info", "m61sales"):
            theirs(mailbox(home / "spool" / name, TWO), name)
        words = ["migrate", "--all", "--users", "--jobs", "3", "spool", "m61one", "m61info", "m61sales"]
        status, out, _ = run([doing_first(NOTES, home / "bin"), *words], home)
        equal("further mailboxes: status, and processes", (status, text_of(home / "order")), (1, "()()()"))
        says = "left (same-user): m61one is the same user, and its mailbox goes into INBOX"
        given = row_in(out, f"m61info: {says}").command.replace("--folder NAME", "--folder Info").split()
        equal("who runs its command", given[:4], ["runuser", "-u", "m61info", "--"])
        equal("its command", run(["/usr/bin/env", *given], home)[0], 0)
        out = run(words, home)[1]
        matches("the last line", out.splitlines()[-1], "3 mailboxes: 2 done before, 1 left; ...")
        equal("what is there", subjects(home / "homes/m61one/Maildir/.Info"), ["two"])
        command = row_in(run(["verify", "--all", *words[2:]], home)[1], f"m61sales: {says}").command
        verify = f"verify {home}/homes/m61one/Maildir/.NAME {home}/spool/m61sales"
        equal("what checks the other", command, f"runuser -u m61sales -- mbox2maildir-admin {verify}")
        (home / "spool/m61one").rename(home / "away")
        rows = {row.name: row.line for row in rows_in(run([*words[:5], "spool", "m61info", "m61sales"], home)[1])}
        matches("without its own", rows["m61sales"], "m61sales: left (same-user): m61info is the same user, ...")
        (home / "away").rename(home / "spool/m61one")
        by_a_link(home, words[:3])
    for name in ("m61info", "m61sales"):
        (home / "spool" / name).unlink()


def by_a_link(home: Path, words: list[str]) -> None:
    """A further mailbox is prepared and done by the commands that a link to the spool gives, and is not left after that
    by the spool's own path, nor where the spool was moved to, also if it has grown meanwhile."""

    def want_known(*each: str) -> None:
        status, out, _ = run([*each, "m61one", "m61sales"], home)
        equal(f"{each}: {out}", (status, "same-user" in out, "2 mailboxes: " in out), (0, False, True))
        equal(f"{each}: where it goes", {*re.findall("m61sales -> ([^ :]+)", out)} - {"Sales"}, set())

    mailbox(home / "spool/m61sales", THREE)
    (home / "link").symlink_to("spool")
    for more in (["--prepare", "--unread"], list[str]()):
        left = row_in(run([*words, *more, "link", "m61one", "m61sales"], home)[1], "m61sales")
        if more:
            given = left.command.replace("--folder NAME", "--folder Sales").split()
            equal("its command", run(["/usr/bin/env", *given], home)[0], 0)
        for place in ("spool", "link"):
            want_known(*words, *more, place)
        if more:
            (home / "spool").rename(home / "aside")
            want_known(*words, *more, "aside")
            (home / "aside").rename(home / "spool")
    equal("what is there", subjects(home / "homes/m61one/Maildir/.Sales"), ["three"])
    (home / "link").unlink()
    (home / "spool").rename(home / "aside")
    for each in (words, ["verify", "--users"], ["back", "--users", "--dry-run"]):
        want_known(*each, "aside")
    (home / "aside").rename(home / "older")
    mailbox(home / "older/m61sales", THREE + TWO)
    want_known(*words, "older")
    equal("what has come", subjects(home / "homes/m61one/Maildir/.Sales"), ["three", "two"])
    (home / "older").rename(home / "spool")


def as_objects(home: Path) -> None:
    """What --json prints for users follows the schema. Each row has its user, its path with the bytes of that, and the
    word for what is left."""
    old, tree = home / "objects/spool", home / "homes/m61three/mail"
    for name, text in (
        ("m61three", ONE + TWO),
        ("m61two", ONE),
        ("m61one", ONE),
        ("root", ONE),
        ("nobody-at-all", ONE),
    ):
        mailbox(old / name, text)
    theirs(old / "m61three", "m61three")
    theirs(old / "m61one", "m61one")
    shutil.rmtree(home / "homes/m61two/mail")
    for file in (mailbox(tree / "Info", THREE), mailbox(tree / "note", b"hello\n"), mailbox(tree / "b\udce4", ONE)):
        theirs(file, "m61three")
    os.symlink("Info", tree / "Sent")
    (home / "homes/m61one").rename(home / "homes/gone")
    words = ["--users", "--report", "report", "--tree", "mail", "--now", "objects/spool", *os.listdir(old)]
    ran = by_json(["migrate", *words], home)
    (home / "homes/gone").rename(home / "homes/m61one")
    equal("--json: standard error", without_progress(ran.err), "")
    report = (home / "report").read_text(encoding="utf-8")
    equal("--report: the rows", report.splitlines()[:-1], ran.out.splitlines()[:-1])
    equal(
        "--json: the rows",
        sorted((one["user"], one.get("path_hex", one["path"]), one["verdict"], one["reason"]) for one in ran.rows),
        [
            ("m61one", "", "left", "home"),
            ("m61three", "", "done", None),
            ("m61three", b"mail/b\xe4".hex(), "left", "no-folder"),
            ("m61three", "mail/Info", "done", None),
            ("m61three", "mail/Sent", "left", "link"),
            ("m61three", "mail/note", "left", "not-known"),
            ("m61two", "", "left", "other-owner"),
            ("nobody-at-all", "", "left", "no-user"),
            ("root", "", "left", "system-account"),
        ],
    )
    says = f"9 mailboxes: 2 done, 7 left; 3 messages, {len(ONE + TWO + THREE)} bytes in ... s; 3 users: ..."
    matches("--json: the sentence", ran.sums["says"], says)


def without_proc(home: Path) -> None:
    """Where /proc is not mounted, as in a system that is repaired from another one, nothing changes."""
    old = home / "procless/spool"
    theirs(mailbox(old / "m61three", TWO + THREE), "m61three")
    hidden = ["/usr/bin/env", "unshare", "-m", "sh", "-c", 'mount -t tmpfs none /proc && exec "$@"', "sh"]
    words = ["migrate", "--all", "--users", "--maildir", "Procless", str(old), "m61three"]
    status, out, err = run([*hidden, str(ADMIN), *words], home)
    if err.startswith(("unshare", "mount")):
        return
    equal("without /proc: status and errors", (status, err), (0, ""))
    matches("without /proc: the last line", out.splitlines()[-1], "1 mailbox: 1 done; ...")
    equal("without /proc: what is there", subjects(home / "homes/m61three/Procless"), ["three", "two"])


def hostile_spool(home: Path) -> None:
    """In a spool in which each user may make files, those of others beside a mailbox stop nobody. A link in place of a
    folder of the user's Maildir is not followed."""
    old = home / "sticky/spool"
    theirs(mailbox(old / "m61one", ONE), "m61one")
    old.chmod(0o1777)
    for ending in ("gz", "mboxrd"):
        theirs(mailbox(old / f"m61one.{ending}", TWO), "m61two")
    expect(
        "migrate --all --users --maildir Sticky sticky/spool m61one",
        home,
        1,
        "m61one.gz: left (other-owner): it belongs to m61two\nm61one.mboxrd: left (other-owner): it belongs to m61two\n"
        "m61one -> INBOX: mboxrd or mboxo, messages 1: done\n"
        "3 mailboxes: 1 done, 2 left; 1 user: ...\n",
    )
    theirs(mailbox(home / "homes/m61one/post/Sent", TWO), "m61one")
    os.symlink("/etc", home / "homes/m61one/Sticky/.Sent")
    out = run("migrate --all --users --maildir Sticky --tree post sticky/spool m61one", home)[1]
    match_in(r"m61one post/Sent -> Sent: .*left \(.*: it is a symbolic link, which is not followed", out)


def hostile_homes(home: Path) -> None:
    """What users put in the way harms only themselves."""
    secret = mailbox(home / "secret", b"secret\n")
    secret.chmod(0o644)
    before = secret.read_bytes(), secret.stat().st_mtime_ns
    one = home / "homes/m61one"
    (home / "open").mkdir()
    (home / "open").chmod(0o777)

    def attempt(what: str, wanted: str) -> None:
        status, out, err = run("migrate --all --users --tree mail spool m61one", home)
        equal(f"{what}: status and standard error", (status, err), (1, ""))
        assert re.search(wanted, out), f"{what}: {out}"
        found = (secret.read_bytes(), secret.stat().st_mtime_ns, list((home / "open").iterdir()))
        equal(f"{what}: what is outside", found, (*before, []))
        assert not {"secret", "open"} & {
            path.name for path in (home / "open").iterdir()
        }, f"{what}: something was written outside"

    def plant(path: Path, target: Path) -> None:
        shutil.rmtree(one / "Maildir", ignore_errors=True)
        if (one / "Maildir").is_symlink():
            (one / "Maildir").unlink()
        path.parent.mkdir(parents=True, exist_ok=True)
        os.symlink(target, path)
        theirs(path, "m61one")

    plant(one / "Maildir", home / "open")
    attempt("a link in place of the Maildir", r"left \(not-own\): .*Maildir: it is a symbolic link")
    # nor are the names in it read
    plant(one / "Maildir", home / "spool")
    attempt("a link to a folder that has something", r"left \(not-own\): .*Maildir: it is a symbolic link")
    for sub in ("new", "cur", "tmp"):
        plant(one / "Maildir" / sub, home / "open")
        attempt(f"a link in place of {sub}", rf"left \(not-own\): .*{sub}: it is a symbolic link")
    plant(one / "Maildir" / RECORD, secret)
    attempt("a link in place of the record", r"left \(record\): .*record: it is a symbolic link")
    (one / "Maildir" / RECORD).unlink()
    os.mkfifo(one / "Maildir" / RECORD)
    theirs(one / "Maildir" / RECORD, "m61one")
    attempt("a FIFO in place of the record", r"left \(record\): .*record: it does not belong to you")
    shutil.rmtree(one / "Maildir")
    plant(one / "mail", secret)
    attempt("a link in place of the tree", r"m61one mail.*: left \(link\): it is a symbolic link")
    (one / "mail").unlink()
    theirs(mailbox(one / "mail/evil\x1b[2J\nx", b"no mail\r"), "m61one")
    plant(one / "mail/Sent", secret)
    attempt("links and odd names in the tree", r"mail/Sent: left \(link\): it is a symbolic link")
    shutil.rmtree(one / "mail")
    (one).rename(home / "homes/gone")
    status, out, _ = run("migrate --all --users spool m61one", home)
    assert status == 1 and "left (home): the home of its user is missing" in out, f"no home: {out}"
    (home / "homes/gone").rename(one)
    os.unlink(home / "spool/m61one")
    os.symlink(secret, home / "spool/m61one")
    attempt("a link in the spool", r"m61one: left \(link\): it is a symbolic link")
    os.unlink(home / "spool/m61one")
    mailbox(home / "spool/m61one", ONE)
    attempt("a mailbox of root's", r"m61one: left \(other-owner\): it belongs to root")


# what is said of a name of a spool, by the number of the first user
SYSTEM = "left (system-account): a system account"
WHOSE = {
    "m61one": "left (copy): {spool}/m61one.gz stands beside it",
    "m61one {spool}/m61one.gz": "left (copy): {spool}/m61one stands beside it",
    "m61two": "left (link): it is a symbolic link",
    "m61two.gz": "left (copy): it may be a copy of m61two, which is left",
    "m61three": "left (other-owner): it belongs to user 4000000000",
    "nobody": f"{SYSTEM} without a home of its own",
    "m61none": "left (no-user): no such user",
    "m61none.xz": "left (copy): it may be a copy of m61none, which is left",
}
OF_SYSTEM = {
    "m61one": f"{SYSTEM}, which must be named",
    "m61one.gz": "left (copy): it may be a copy of m61one, which is left",
    "m61three": f"{SYSTEM} without a home of its own",
}
# what migrates their mail
NAMED = {
    "m61one": "mbox2maildir-admin migrate --users --dry-run --as mboxcl2 {spool} m61one",
    "m61three": "runuser -u m61three -- mbox2maildir-admin migrate --dry-run --as mboxcl2 MAILDIR {spool}/m61three",
}


def whose(home: Path) -> None:
    """Names whose mailboxes are left, and what stands beside them, each with its reason. An account of the system has
    to be named, and to have a home of its own."""
    want_users()
    here, words = home / "spool", ["migrate", "--all", "--users", "--dry-run", "--as", "mboxcl2", "spool"]

    def rows(settings: str, *names: str) -> dict[str, Printed]:
        with own_settings(settings):
            return {row.name: row for row in rows_in(run([*words, *names], home)[1])}

    def lines(of: dict[str, str]) -> dict[str, str]:
        """Those of a table, without the names."""
        return {name.format(spool=here): f"{name}: {says}".format(spool=here) for name, says in of.items()}

    with users(home):
        for name in ("m61one", "m61three", "nobody", "m61none", "m61two.gz", "m61none.xz"):
            mailbox(here / name, ONE)
        mailbox(here / "m61one.gz", gzip.compress(ONE))
        for name in ("m61one", "m61one.gz"):
            theirs(here / name, "m61one")
        os.symlink("m61one", here / "m61two")
        os.chown(here / "m61three", 4000000000, -1)
        for settings in ("UID_MIN 1000", "# caf\xe9 UID_MIN 7"):
            found = {name: row.line for name, row in rows(settings).items() if "mailboxes" not in name}
            equal(f"{settings}: the rows", found, lines(WHOSE))
        theirs(here / "m61three", "m61three")
        shutil.rmtree(home / "homes/m61three")
        system = rows("UID_MIN 99999")
        equal("of the system", {name: system[name].line for name in OF_SYSTEM}, lines(OF_SYSTEM))
        commands = {name: command.format(spool=here) for name, command in NAMED.items()}
        equal("what migrates them", {name: system[name].command for name in NAMED}, commands)
        of_a_trial(home, words, commands["m61one"])
        for name in ("m61one.gz", "m61three", "root"):
            (here / name).unlink()
        several_names(home, words)
        says = [row.line for row in rows("UID_MIN 99999", "m61one", "nobody").values()][:2]
        equal("if they are named", sorted(says), [
            "m61one -> INBOX: mboxcl2 by --as, messages 1: would be done", lines(WHOSE)["nobody"]
        ])  # fmt: skip
        with no_settings():
            equal("without settings", run([*words, "m61one"], home).status, 0)
        long = "m61" + "x" * 256
        with accounts.users({long: home / "homes/m61two"}):
            equal("a name that no file has", rows("", long)[long].line, f"{long}: left (error): File name too long")
        os.symlink("/etc", home / "homes/m61one/link")
        link = f"left (link): {home}/homes/m61one/link is a symbolic link, which is not followed"
        out = run([*words[:3], "--tree", "link/mail", "spool", "m61one"], home).out
        equal(f"a link on the way to a tree: {out}", f"m61one link/mail: {link}" in out.splitlines(), True)


def spelled_otherwise(home: Path) -> None:
    """Links, `..` and the current folder change nothing of which spool it is, who is the same user, and which options
    a user's name takes."""
    want_users()
    with users(home):
        theirs(mailbox(home / "closed/spool/m61one", ONE), "m61one")
        (home / "closed").chmod(0o700)
        (home / "link").symlink_to("closed/spool")
        says = f"users may not enter {home}/closed\n    run this next:\n        chmod 711 {home}/closed\n"
        expect("migrate --users link", home, 1, "", f"mbox2maildir-admin: {says}")
        for place, text in (("deep/spool", ONE), ("spool", TWO)):
            theirs(mailbox(home / place / "m61one", text), "m61one")
        (home / "way").symlink_to("deep/spool")
        for word in ("migrate", "verify", "back"):
            expect([word, "--users", "way/../spool"], home, 0, None)
        maildir = home / "homes/m61one/Maildir"
        equal("what is there", subjects(maildir), ["one"])
        expect(["migrate", "--users", "--list", "way/../spool"], home, 0, f"m61one\tfrom the spool\t{len(ONE)}\n")
        # a folder of the user's name is no mailbox
        next(path for path in maildir.rglob("*.1")).unlink()
        words = ["migrate", "--users", "--again", str(home / "deep/spool"), "m61one"]
        equal("from the homes", run(["/usr/bin/env", "-C", home / "homes", str(ADMIN), *words], home)[0], 0)
        equal("what is there again", subjects(maildir), ["one"])
        (home / "homes/other").symlink_to("m61one")
        for own in ("other", "other/../m61one"):
            with accounts.users({"m61info": home / "homes" / own}, like="m61one"):
                theirs(mailbox(home / "deep/spool/m61info", TWO), "m61one")
                out = run(["migrate", "--all", "--users", "deep/spool"], home)[1]
                equal(f"{own}: {out}", "m61info: left (same-user): m61one is the same user, and" in out, True)


def odd_names(home: Path) -> None:
    """An account may have a name that is not UTF-8, or one that a copy of another user's mailbox would have."""
    want_users()
    names = ["m61\udce4", "m61one.gz"]
    with users(home), accounts.users_at_home({name: home / "homes" / name for name in names}):
        for number, name in enumerate((*USERS, *names)):
            theirs(mailbox(home / "spool" / name, numbered(f"of-{number}-", 1)), name)
        with Path("/etc/group").open("ab") as file:
            file.write(b"m61more:x:60999:m61\xe4,m61one.gz\n")
        fake(home, 'id -G >"$HOME/groups"\nexec "$real" "$@"', "")
        for words in ("migrate --users --now spool", "verify --users spool", "back --users --now spool"):
            status, out, err = run(words, home)
            equal(f"{words}: {out}", (status, err, "5 mailboxes: 5 " in out), (0, "", True))
        for number, name in enumerate((*USERS, *names)):
            equal(name, subjects(home / "homes" / name / "Maildir"), [f"of-{number}-0"])
            groups = {int(one) for one in text_of(home / "homes" / name / "groups").split()}
            equal(f"{name}: groups", groups, {pwd.getpwnam(name).pw_gid, *([60999] if name in names else [])})


def linked_tree(home: Path) -> None:
    """A link in place of a home's folder of mailboxes is left until its user has migrated what it leads to. Then it is
    followed, for what is new there too. One that leads to the home is not."""
    want_users()
    with users(home):
        maildir, disk = home / "homes/m61one/Maildir", home / "disk/homes/m61one/mail"
        for path, text in ((home / "spool/m61one", ONE), (disk / "sent", TWO)):
            mailbox(path, text)
        for path in (home / "spool/m61one", disk, disk / "sent"):
            shutil.chown(path, "m61one")
        (home / "homes/m61one/mail").symlink_to(disk)
        words = ["migrate", "--users", "--now", "--tree", "mail", "spool", "m61one"]
        several = [words, ["verify", *words[1:2], *words[3:]]]
        for each in several:
            status, out, _ = run(each, home)
            equal(f"{each}: {out}", (status, "link: 1 mailbox: " in out), (1, True))
        own = [
            "/usr/bin/env",
            "runuser",
            "-u",
            "m61one",
            "--",
            str(home / "bin/mbox2maildir-admin"),
            "migrate",
            "--now",
        ]
        equal("its user", run([*own, maildir, disk], home)[0], 0)
        mailbox(disk / "new", THREE)
        shutil.chown(disk / "new", "m61one")
        for each, sums in zip(several, ("1 done, 2 done before", "3 whole")):
            status, out, _ = run(each, home)
            equal(f"{each}: {out}", (status, f"3 mailboxes: {sums}" in out), (0, True))
        equal("what is new", subjects(maildir / ".new"), ["three"])
        (home / "homes/m61one/mail").unlink()
        mailbox(home / "homes/m61one/box", THREE)
        shutil.chown(home / "homes/m61one/box", "m61one")
        equal("its user", run([*own, "--folder", "box", maildir, home / "homes/m61one/box"], home)[0], 0)
        (home / "homes/m61one/mail").symlink_to(".")
        status, out, _ = run(words, home)
        equal(f"a link to the home: {out}", (status, "\n2 mailboxes: 1 done before, 1 left" in out), (1, True))


def gone_meanwhile(home: Path) -> None:
    """A home that goes away during a run, or the Maildir in it, is said to be gone: no ledger is lost."""
    want_users()
    with users(home):
        (home / "homes").chmod(0o777)
        own = home / "homes/m61one"
        for gone, wanted in ((own, "the home of its user"), (own / "Maildir", "the Maildir of its user")):
            theirs(mailbox(home / "spool/m61one", TWO), "m61one")
            fake(home, f'"$real" "$@"\nmv {gone} {gone}.away')
            status, out, _ = run("migrate --all --users --now spool m61one", home)
            row = row_in(out, "m61one")
            equal(f"{gone}: {out}", status, 1)
            matches("what is said", row.line, f"m61one...: left (home): {wanted} is missing: {gone}")
            restore(home)
            Path(f"{gone}.away").rename(gone)
            expect("migrate --users --now spool m61one", home, 0, None)
            shutil.rmtree(own / "Maildir")


def of_a_trial(home: Path, words: list[str], command: str) -> None:
    """What a trial takes stays a trial in the commands for accounts of the system."""
    trial = "--maildir Trial --tree mail"
    theirs(mailbox(home / "spool/root", ONE), "root")
    with own_settings("UID_MIN 99999"):
        rows = {row.name: row for row in rows_in(run([*words[:-1], *trial.split(), "spool"], home)[1])}
    own = command.replace(" --dry-run --as mboxcl2 ", f" --dry-run --as mboxcl2 {trial} ")
    equal("a command", rows["m61one"].command, own)
    roots = f"{pwd.getpwnam('root').pw_dir}/Trial {home}/spool/root"
    equal("root's", rows["root"].command, f"mbox2maildir-admin migrate --dry-run --as mboxcl2 {roots}")


def several_names(home: Path, words: list[str]) -> None:
    """A file that is a mailbox under another user's name too is not to be given away."""
    os.link(home / "spool/m61one", home / "spool/m61three")
    row = row_in(run([*words, "m61three"], home)[1], "m61three")
    equal("the row", row.line, "m61three: left (other-owner): it belongs to m61one, and has other names")
    equal("what is to be done with it", "let the file have one name" in " ".join(row.below), True)
    (home / "spool/m61three").unlink()


@contextlib.contextmanager
def no_settings() -> Iterator[None]:
    """Has no login.defs for a while."""
    Path("/etc/login.defs").rename("/etc/login.away")
    try:
        yield
    finally:
        Path("/etc/login.away").rename("/etc/login.defs")


# once a process has its user's rights, it can load nothing more of Python
CLOSED = """
import os, sys
rights = os.setuid
def with_rights(number):
    rights(number)
    sys.meta_path.clear()
os.setuid = with_rights
"""
GMAIL = b"X-GM-THRID: 1785134556187161\nX-Gmail-Labels: =?UTF-8?Q?Gr=C3=BC=C3=9Fe?=,Unread\n"
MANY = {
    "Gr\u00fc\u00dfe": ONE,
    "packed.gz": gzip.compress(TWO),
    "wide": THREE.decode().encode("utf-16"),
    "gmail": ONE.replace(b"\n", b"\n" + GMAIL, 1),
    "no-date": b"From a@b\nDate: Mon, 3 Mar 2025 09:12:44 +0000\nSubject: x\n\nx\n\n",
}


def where_users_read_no_module(home: Path) -> None:
    """Python's modules may be where only root can read: whatever mail needs is loaded before a process is a user's."""
    want_users()
    with users(home):
        for name, text in MANY.items():
            theirs(mailbox(home / "homes/m61one/mail" / name, text), "m61one")
        (home / "spool").mkdir(exist_ok=True)
        command: list[Word] = [doing_first(CLOSED, home / "bin"), "migrate", "--users", "--tree", "mail", "--jobs", "3"]
        for more, what in (("--dovecot", "done"), ("", "done before")):
            status, out, err = run([*command, *more.split(), "spool", "m61one"], home)
            equal(f"{what}: {out}", (status, err, f"{len(MANY)} mailboxes: {len(MANY)} {what}" in out), (0, "", True))
        status, out, _ = run([command[0], "verify", *command[2:], "spool", "m61one"], home)
        equal(f"verify: {out}", (status, f"{len(MANY)} whole" in out), (0, True))


def nobodys(home: Path) -> None:
    """A mailbox of nobody, a missing home, and a link that leads nowhere are left by each run. By the page's commands
    nothing is left any more, nor on the way back."""
    want_users()
    page = match_in(r'<a id="nobodys"></a>.*', text_of(TOP / "docs/SERVER.md"))[0]
    lines = "\n".join(re.findall(r"`((?:mkdir|mv|install) [^`]*)`", page)).replace("boris", "m61two")
    for path, here in (("/var/mail.nobody", "nobody"), ("/var/mail.old", "spool"), ("/home", "homes")):
        lines = lines.replace(path, here)
    with users(home):
        for name, text in (("m61one", ONE), ("m61two", THREE), ("tom", TWO)):
            mailbox(home / "spool" / name, text)
        theirs(mailbox(home / "homes/m61one/mail/sent", TWO), "m61one")
        for name in USERS[:2]:
            shutil.chown(home / "spool" / name, name)
        dead = home / "homes/m61one/mail/dead"
        dead.symlink_to("nowhere")
        (home / "homes/m61two").rmdir()
        several = [[word, "--users", "--now", "--tree", "mail", "spool"] for word in ("migrate", "verify", "back")]
        several[1].remove("--now")
        for words in several:
            status, out, _ = run(words, home)
            reasons = set(re.findall(r"(?m)^(?:.*left \()?([a-z-]+)(?:\)|: 1 mailbox): ", out)) - {"link"}
            equal(f"{words}: what is left", (status, reasons), (1, {"home", "no-user"}))
        equal("the commands", run(["/bin/sh", "-ec", lines], home), (0, "", ""))
        equal("where the link leads", run(["/usr/bin/readlink", "-e", dead], home)[1], "")
        dead.unlink()
        for words in several:
            equal(f"{words}: status", run(words, home)[0], 0)
        equal("what was moved away", os.listdir(home / "nobody"), ["tom"])


# a test that migrates the mail of all people, as one might by mistake
OF_ALL = """
from pathlib import Path
from tests.support.homes import check_all, run
def of_all(home):
    (home / "spool").mkdir()
    for spool in (home / "spool", Path("/var/mail")):
        print(tuple(run(["migrate", "--now", "--users", "--tree", "mail", spool], home)))
check_all(of_all)
"""


def people_of_the_machine(home: Path) -> None:
    """A test that migrates the mail of all people finds nobody who has an account on the machine, and no mailbox in
    its spool."""
    want_users()
    person, own, box = "m61person", home / "homes/m61person", Path("/var/mail/m61person")
    with accounts.users({person: own}):
        theirs(mailbox(own / "mail/box", ONE), person)
        shutil.chown(own, person, person)
        if box.parent.is_dir():
            shutil.chown(mailbox(box, TWO), person, person)
        before = sorted(own.rglob("*"))
        ran = subprocess.run([sys.executable, "-B", "-c", OF_ALL], cwd=TOP, check=False, stdout=subprocess.PIPE)
        matches("what is migrated", ran.stdout.decode(), "(1, 'no mailboxes; 0 users: ...\n" * 2 + "passed ...\n")
        equal("what the person has", sorted(own.rglob("*")), before)


if __name__ == "__main__":
    check_all(
        spool,
        whose,
        spelled_otherwise,
        odd_names,
        linked_tree,
        gone_meanwhile,
        where_users_read_no_module,
        nobodys,
        people_of_the_machine,
    )
