"""mbox2maildir-admin back --users: the mail of many users goes back, with the rights of each, into a spool in which
only its group may make files. It needs root, and is left out without it."""
import contextlib
import json
import os
import pwd
import shutil
import signal
import subprocess
from collections.abc import Iterator
from pathlib import Path

from tests.companion.spool import theirs, users
from tests.support import accounts
from tests.support.checks import TOP, equal, match_in, matches, text_of
from tests.support.homes import check_all, expect, fake, mailbox, make_maildir, run, want_users
from tests.support.mail import ONE, THREE, TWO
from tests.support.processes import wait_for
from tests.support.running import Desk
from tests.support.schema import wrong

NAMES = ["m61one", "m61two", "m61three"]
NEW = b"Return-Path: <boris@example.com>\nSubject: since\n\nFrom here\n"
# how a mailbox in mboxrd has it after its From_ line
BACK = b"Return-Path: <boris@example.com>\nSubject: since\n\n>From here\n\n"
WORDS = ["back", "--all", "--users", "--now", "--tree", "mail", "spool"]
# the group of a spool, to which no user belongs
GROUP = "mail"


def deliver(home: Path, user: str, folder: str = "", text: bytes = NEW, name: str = "1700000000.M1.host") -> Path:
    """A program delivers mail into the Maildir of a user."""
    place = home / "homes" / user / "Maildir" / folder
    make_maildir(place)
    path = place / "new" / name
    path.write_bytes(text)
    os.utime(path, (1_700_000_000, 1_700_000_000))
    for one in [path, *path.parents, place / "tmp", place / "cur"]:
        if one == home / "homes" / user:
            break
        shutil.chown(one, user, user)
    for sub in ("tmp", "cur"):
        shutil.chown(place / sub, user, user)
    return path


@contextlib.contextmanager
def migrated(home: Path, old: str = "spool") -> Iterator[None]:
    """Users whose mail was migrated from a spool of its own group, which may have been moved aside before, one of whom
    has a folder of mailboxes."""
    want_users()
    with users(home):
        for name, text in zip(NAMES, (ONE, TWO, THREE)):
            theirs(mailbox(home / "spool" / name, text), name)
        for name in ("sent", "lists/sheds"):
            theirs(mailbox(home / "homes/m61two/mail" / name, ONE), "m61two")
        as_spool(home / "spool")
        (home / "spool").rename(home / old)
        equal("migrate", run(["migrate", "--users", "--now", "--tree", "mail", old], home)[0], 0)
        yield


def as_spool(folder: Path) -> None:
    """Gives a folder the rights of a spool."""
    group = pwd.getpwnam(GROUP).pw_gid
    os.chown(folder, 0, group)
    folder.chmod(0o2775)
    for path in folder.iterdir():
        os.chown(path, -1, group)
        path.chmod(0o660)


def rest_of(before: bytes, path: Path) -> bytes:
    """What was appended to a mailbox, after its From_ line."""
    text = path.read_bytes()
    assert text.startswith(before), text
    from_line, _, rest = text[len(before) :].partition(b"\n")
    assert not rest or from_line.startswith(b"From boris@example.com "), from_line
    return rest


def moves(home: Path, *names: str) -> str:
    """What moves the Maildirs of these users aside."""
    lines = [
        f"        runuser -u {name} -- mv -nT {home}/homes/{name}/Maildir {home}/homes/{name}/Maildir.back\n"
        for name in sorted(names)
    ]
    return "    run this next:\n" + "".join(lines)


def state_of(home: Path) -> dict[Path, object]:
    """All files, with what is in them, and the owner and the mode of each."""
    found: dict[Path, object] = {}
    for path in [*(home / "homes").rglob("*"), *(home / "spool").rglob("*")]:
        state = path.lstat()
        text = path.read_bytes() if path.is_file() and not path.is_symlink() else b""
        found[path] = (state.st_uid, state.st_gid, state.st_mode, text)
    return found


def went_back(home: Path) -> None:
    """What is new goes into the inboxes, the mailboxes of the home, and new ones there. Then nothing is new."""
    with migrated(home):
        deliver(home, "m61one")
        deliver(home, "m61two", ".sent")
        deliver(home, "m61two", ".new")
        deliver(home, "m61three", ".garden.2026")
        before = state_of(home)
        lines = [
            "INBOX -> m61one: mboxrd, messages 1: %s\n",
            "garden/2026 -> m61three mail/garden/2026: mboxrd, messages 1: %s\n",
            "new -> m61two mail/new: mboxrd, messages 1: %s\n",
            "sent -> m61two mail/sent: mboxrd, messages 1: %s\n",
        ]
        ways: list[tuple[list[str], str]] = [(["--dry-run"], "would go back"), ([], "back")]
        for more, fate in ways:
            status, out, err = run([*WORDS[:2], *more, "--report", f"report-{fate}", *WORDS[2:]], home)
            equal("status and standard error", (status, err), (0, ""))
            found = out.splitlines(True)
            equal("the rows", sorted(found[:4]), [line % fate for line in lines])
            says = f"7 mailboxes: 4 {fate}, 3 nothing new; 3 users: 3 from the spool\n"
            matches("the rest", "".join(found[4:]), says + ("" if more else moves(home, *NAMES)))
            if more:
                equal("what a dry run wrote", state_of(home), before)
        boxes = ["spool/m61one", "homes/m61two/mail/sent", "homes/m61two/mail/new", "homes/m61three/mail/garden/2026"]
        for box, text in zip(boxes, (ONE, ONE, b"", b"")):
            equal(box, rest_of(text, home / box), BACK)
        garden = home / "homes/m61three/mail/garden/2026"
        equal("a new mailbox", (garden.owner(), garden.stat().st_mode & 0o777), ("m61three", 0o600))
        equal("what is beside the inboxes", sorted(os.listdir(home / "spool")), sorted(NAMES))
        before = state_of(home)
        expect(WORDS, home, 0, "7 mailboxes: 7 nothing new; 3 users: ...\n" + moves(home, *NAMES))
        equal("what a second run wrote", state_of(home), before)
        as_objects(home)
        moved_at_once(home)


def moved_at_once(home: Path) -> None:
    """By the page's command all Maildirs are moved aside, each with its user's rights, and none replaces another."""
    line = match_in(r"(?m)^    (mbox2maildir-admin back --users .* python3 .*)$", text_of(TOP / "docs/BACK.md"))[1]
    theirs(mailbox(home / "homes/m61two/Maildir.back/before", b""), "m61two")
    run(["/bin/sh", "-c", line.replace("--dovecot", "--now").replace("/var/mail.old", "spool")], home)
    found = {name: sorted(one for one in os.listdir(home / "homes" / name) if "Maildir" in one) for name in NAMES}
    wanted = {name: ["Maildir.back"] for name in NAMES}
    equal("the Maildirs", found, {**wanted, "m61two": ["Maildir.back", "Maildir.back-2"]})


def as_objects(home: Path) -> None:
    """What --json prints, and what --report wrote, follows the schema."""
    out = run([*WORDS[:2], "--json", *WORDS[2:], "m61one", "m61two"], home)[1]
    printed = [json.loads(line) for line in out.splitlines()]
    rows = printed + [json.loads(line) for line in (home / "report-back").read_text(encoding="utf-8").splitlines()]
    equal("what is wrong by the schema", [wrong(row) for row in rows], [[]] * len(rows))
    sums = [row for row in rows if row["type"] == "sum"]
    equal("what is next, and for whom", [one["user"] for one in sums[0]["next"]], ["m61one", "m61two"])
    equal("what the report has", (sums[1]["verdicts"]["back"], len(sums[1]["next"])), (4, 3))
    # the rows of two users who are at work at the same time come in any order
    given = [(row["user"], row["path"], row["folder"]) for row in printed if row["type"] == "row"]
    equal("a row", ("m61one", "", "INBOX") in given, True)


def new_inboxes(home: Path) -> None:
    """An inbox that is not there is made: the user's, of the group of the spool. The group may write to it only if it
    may write to all others but root's. In a spool of root's group it gets that of the others or, if they have several,
    its user's own."""
    with migrated(home):
        spool, group = home / "spool", pwd.getpwnam(GROUP).pw_gid
        mailbox(spool / "root", ONE).chmod(0o600)
        # the groups of the folder and of another inbox, the mode of that, and the group of the new one, or its user's
        for name, above, other, mode, its in (
            ("m61four", group, group, 0o660, group),
            ("m61five", group, group, 0o600, group),
            ("m61six", 0, group, 0o600, group),
            ("m61seven", 0, 0, 0o600, None),
        ):
            with another_user(home, name):
                os.chown(spool, 0, above)
                os.chown(spool / "m61two", -1, other)
                (spool / "m61two").chmod(mode)
                says = f"INBOX -> {name}: mboxrd, messages 1: back\n2 mailboxes: 1 back, 1 nothing new; ...\n"
                expect([*WORDS, name], home, 0, says + moves(home, name))
                state = (spool / name).stat()
                equal("the text", rest_of(b"", spool / name), BACK)
                found = state.st_uid, state.st_gid, state.st_mode & 0o7777
                account = pwd.getpwnam(name)
                equal("a new inbox", found, (account.pw_uid, account.pw_gid if its is None else its, mode))
                equal("what is beside it", sorted(os.listdir(spool)), sorted([*NAMES, name, "root"]))
                expect([*WORDS, name], home, 0, "2 mailboxes: 2 nothing new; ...\n" + moves(home, name))
            (spool / name).unlink()


@contextlib.contextmanager
def another_user(home: Path, name: str) -> Iterator[None]:
    """A user whose folder of mailboxes alone was migrated, since the spool had nothing, and who got mail since."""
    own = home / "homes" / name
    with accounts.users_at_home({name: own}):
        theirs(mailbox(own / "mail/sent", ONE), name)
        equal("migrate", run(["migrate", "--users", "--now", "--tree", "mail", "spool", name], home)[0], 0)
        deliver(home, name)
        yield


def without_mailboxes(home: Path) -> None:
    """Of a user who had no mailbox, all mail is new. Whoever has one that was never migrated is left."""
    with migrated(home), accounts.users_at_home({name: home / "homes" / name for name in ("m61new", "m61wait")}):
        expect([*WORDS, "m61new"], home, 1, "no mailboxes; 1 user: ...\n")
        deliver(home, "m61new")
        theirs(mailbox(home / "spool/m61wait", ONE), "m61wait")
        status, out, err = run([*WORDS, "m61new", "m61wait"], home)
        equal("status and standard error", (status, err), (1, ""))
        says = f"m61wait: left (no-maildir): {home}/homes/m61wait/Maildir: it has no record, so nothing shows ..."
        rows = sorted(out.splitlines())
        equal("the mail of a new user", "INBOX -> m61new: mboxrd, messages 1: back" in rows, True)
        matches("who waits", next(row for row in rows if row.startswith("m61wait")), says)
        equal("the text", rest_of(b"", home / "spool/m61new"), BACK)
        equal("an old mailbox", (home / "spool/m61wait").read_bytes(), ONE)
        # without a record, the name of a file shows that something was migrated
        (home / "homes/m61three/Maildir/mbox2maildir-record").unlink()
        (home / "spool/m61three").unlink()
        out = run([*WORDS, "m61three"], home)[1]
        equal("a record that is lost", ("left (no-maildir)" in out, (home / "spool/m61three").exists()), (True, False))


def in_nobodys_way(home: Path) -> None:
    """An account without a mailbox and a Maildir, such as that of virtual users, is on no list, and left by no
    run, even if Dovecot has made its folder of mailboxes."""
    own, words = home / "homes/m61vmail", ["migrate", "--all", "--users", "--tree", "mail", "spool"]
    several = [[*words, "--now"], ["verify", *words[1:]], WORDS]

    def is_listed() -> bool:
        return "m61vmail\tfrom the accounts\t0\n" in run([*words, "--list"], home)[1]

    with migrated(home), accounts.users({"m61vmail": own}):
        # the home may be on a disk that is not mounted
        equal("whether it is listed without a home", is_listed(), True)
        for there in ("", "mail/.imap/INBOX"):
            (own / there).mkdir(parents=True)
            subprocess.run(["chown", "-R", "m61vmail", own], check=True)
            equal(f"whether it is listed with {there}", is_listed(), bool(there))
            for each in several:
                equal(f"{each} with {there}", run(each, home)[::2], (0, ""))
        theirs(mailbox(own / "mail/sent", ONE), "m61vmail")
        status, out, _ = run([*WORDS, "m61vmail"], home)
        equal("with a mailbox", (status, "m61vmail mail: left (no-maildir): " in out), (1, True))


def tree_elsewhere(home: Path) -> None:
    """If the mailboxes of a user's folders are not in the home's folder of mailboxes any more, no second one is made,
    which would be in their way."""
    with migrated(home):
        own = home / "homes/m61two"
        (own / "mail").rename(own / "mail.old")
        deliver(home, "m61two", ".garden")
        status, out, _ = run([*WORDS, "m61two"], home)
        says = f"garden has no mailbox, and the folder of the others is not there: {own}/mail"
        row = next(row for row in out.splitlines() if "garden" in row)
        matches("the row", row, f"garden -> m61two Maildir/.garden: messages 1: left (missing): {says}")
        equal("the status, and whether the folder is there", (status, (own / "mail").exists()), (1, False))
        (own / "mail.old").rename(own / "mail")
        expect([*WORDS, "m61two"], home, 0, None)
        equal("the text", rest_of(b"", own / "mail/garden"), BACK)
        deliver(home, "m61two", ".shed")
        theirs(mailbox(own / "mail/prefs.js", b""), "m61two")
        (own / "mail/Mail").mkdir()
        out = run([*WORDS, "m61two"], home)[1]
        equal(
            f"in a profile of Thunderbird: {out}", "left (no-mailbox): shed has no mailbox: name a folder" in out, True
        )


def another_spool(home: Path) -> None:
    """The inboxes were moved aside, and the emptied spool is named, or another folder of the homes: nothing goes back
    until each old mailbox is named."""
    with migrated(home, "old"):
        (home / "spool").mkdir()
        theirs(mailbox(home / "homes/m61two/docs/note", b""), "m61two")
        for name, folder in (("m61one", ""), ("m61two", ""), ("m61two", ".sent")):
            deliver(home, name, folder, name=f"1700000000.M{len(folder)}.host")
        boxes = {f"{name} INBOX": home / "old" / name for name in NAMES[:2]}
        boxes["m61two sent"] = home / "homes/m61two/mail/sent"
        before = state_of(home)
        words = ["back", "--json", "--users", "--now", "--tree"]
        rows = [json.loads(line) for line in run([*words, "docs", "spool"], home)[1].splitlines()[:-1]]
        left = {f"{row['user']} {row['folder']}": (row["reason"], row["says"]) for row in rows if row["reason"]}
        for name, box in boxes.items():
            equal("its reason", left[name][0], "no-mailbox")
            match_in(f"its mailbox is {box}, which was not named", left[name][1])
        equal("how many there are", len(left), len(boxes))
        changed = {path for path, state in state_of(home).items() if state != before.get(path)}
        outside = {path for path in changed if "Maildir" not in path.parts}
        equal("the mailboxes that are new, or others than before", outside, set())
        out = run([*words, "mail", "spool", "m61two"], home)[1]
        equal("with the tree", [json.loads(line)["verdict"] for line in out.splitlines()[:-1]].count("back"), 1)
        expect([*words, "mail", "old"], home, 0, None)
        for box, text in zip(boxes.values(), (ONE, TWO, ONE)):
            equal(str(box), rest_of(text, box), BACK)


def second_mailbox(home: Path) -> None:
    """Each mailbox of an account gets the mail of its folder."""
    others = {"m61info": "Info", "m61sales": "Sales"}
    with migrated(home), accounts.users(dict.fromkeys(others, home / "homes/m61one"), like="m61one"):
        for number, (name, folder) in enumerate(others.items(), 2):
            theirs(mailbox(home / "spool" / name, TWO), "m61one")
            words = ["migrate", "--now", "--folder", folder, f"{home}/homes/m61one/Maildir", f"{home}/spool/{name}"]
            given = ["/usr/bin/env", "runuser", "-u", "m61one", "--", str(home / "bin/mbox2maildir-admin"), *words]
            equal("migrate", run(given, home)[0], 0)
            deliver(home, "m61one", f".{folder}", name=f"1700000000.M{number}.host")
        deliver(home, "m61one")
        status, out, err = run([*WORDS, "m61one", *others], home)
        equal("status and standard error", (status, err), (0, ""))
        equal("the rows", len([line for line in out.splitlines() if line.endswith(": back")]), 3)
        for name, text in (("m61one", ONE), ("m61info", TWO), ("m61sales", TWO)):
            equal(name, rest_of(text, home / "spool" / name), BACK)


def own_mailbox_gone(home: Path) -> None:
    """A further name of an account does not take the place of its own one, whose mailbox is not there any more."""
    with migrated(home), accounts.users({"m61info": home / "homes/m61one"}, like="m61one"):
        theirs(mailbox(home / "spool/m61info", TWO), "m61one")
        (home / "spool/m61one").rename(home / "away")
        deliver(home, "m61one")
        for names in (["m61one", "m61info"], ["m61info", "m61one"], list[str]()):
            status, out, _ = run([*WORDS, *names], home)
            row = out.splitlines()[0]
            wanted = "INBOX -> m61one Maildir: messages 1: left (missing): its mailbox is gone: ..."
            matches(f"{names}: the row", row, wanted)
            equal(f"{names}: status, and the other text", (status, text_of(home / "spool/m61info")), (1, TWO.decode()))
        (home / "away").rename(home / "spool/m61one")
        expect([*WORDS, "m61one", "m61info"], home, 0, None)
        equal("the text", rest_of(ONE, home / "spool/m61one"), BACK)


def at_list(home: Path, text: str) -> None:
    """Has a text run by a shell each time that a child runs the program, as it does while it holds all locks."""
    fake(home, f'{text}\nexec "$real" "$@"', "")


def rights(home: Path) -> None:
    """While mail is appended, root holds FILE.lock for the child, which has no group but the user's own."""
    with migrated(home):
        deliver(home, "m61one")
        at_list(home, f"id -G >$HOME/groups; ls -ln {home}/spool >$HOME/spool")
        equal("status", run([*WORDS, "m61one"], home)[0], 0)
        own = home / "homes/m61one"
        equal("the groups of a child", (own / "groups").read_text().split(), [str(pwd.getpwnam("m61one").pw_gid)])
        locks = [line.split() for line in (own / "spool").read_text().splitlines() if line.endswith(".lock")]
        equal("the lock", [(line[0][:10], line[2], line[-1]) for line in locks], [("-r--r--r--", "0", "m61one.lock")])
        equal("what is beside the inboxes", sorted(os.listdir(home / "spool")), sorted(NAMES))


def locked(home: Path) -> None:
    """Another program's FILE.lock is respected, unless it is old."""
    with migrated(home):
        deliver(home, "m61one")
        lock = home / "spool/m61one.lock"
        lock.write_bytes(b"17\n")
        (home / "spool/m\udce4.lock").write_bytes(b"17\n")
        says = f"INBOX -> m61one: messages 1: left (locked): another program has locked it with {lock}\n    wait ...\n"
        expect([*WORDS, "m61one"], home, 75, says + "1 mailbox: 1 left; 1 user: ...\n")
        equal("the inbox", (home / "spool/m61one").read_bytes(), ONE)
        os.utime(lock, (1e9, 1e9))
        words = [*WORDS, "m61one"]
        expect(words, home, 0, f"...: back, {lock} is older than ...\n1 mailbox: 1 back; ...\n" + moves(home, "m61one"))
        equal("the lock", lock.read_bytes(), b"17\n")


def killed(home: Path) -> None:
    """Root is killed while it holds a lock. The next run removes that, also if it takes another user alone, and says
    meanwhile what it is."""
    with migrated(home):
        deliver(home, "m61one")
        wait, at_work = home / "wait", home / "homes/m61one/at-work"
        at_list(home, f"echo $PPID >{at_work}; mv {at_work} {at_work}.now; while [ -e {wait} ]; do sleep 0.05; done")
        wait.touch()
        with Desk(home).start([*WORDS, "m61one"], subprocess.DEVNULL) as root:
            wait_for(Path(f"{at_work}.now").exists)
            child = int(text_of(Path(f"{at_work}.now")))
            # a process that goes on ends as soon as root is gone
            for number, sign in ((root.pid, signal.SIGSTOP), (child, signal.SIGSTOP), (root.pid, signal.SIGKILL)):
                os.kill(number, sign)
        lock, other = home / "spool/m61one.lock", [*WORDS[:2], "--dry-run", *WORDS[2:], "m61two"]
        expect([*WORDS, "m61two"], home, 0, None)
        equal("the lock while the child is there", lock.exists(), True)
        os.kill(child, signal.SIGKILL)
        wait.unlink()
        words = ["migrate", "--all", "--users", "--now", "--dry-run", "--maildir", "M", "spool", "m61one"]
        wait_for(lambda: "lock was left by a `back` that was killed" in run(words, home)[1])
        expect(other, home, 0, None)
        equal("the lock after a dry run", lock.exists(), True)
        expect([*WORDS, "m61two"], home, 0, None)
        equal("the lock after the next run", lock.exists(), False)
        expect([*WORDS, "m61one"], home, 0, None)
        equal("the inbox", rest_of(ONE, home / "spool/m61one"), BACK)


def hostile_spool(home: Path) -> None:
    """What stands in the spool under a user's name, and is another's or a link, is neither read nor written."""
    with migrated(home):
        deliver(home, "m61one")
        spool, secret = home / "spool", mailbox(home / "secret", ONE)
        secret.chmod(0o666)
        box, aside = spool / "m61one", home / "aside"
        box.rename(aside)

        def attempt(what: str, wanted: str) -> None:
            before = {path: path.lstat() for path in (spool, *spool.iterdir(), secret) if path.name != "spool"}
            texts = secret.read_bytes(), aside.read_bytes()
            status, out, err = run([*WORDS, "m61one"], home)
            equal(f"{what}: status and standard error", (status, err), (1, ""))
            matches(f"{what}: its row", out.splitlines()[0], f"m61one: {wanted}")
            equal(f"{what}: the mail", "messages 1: left (no-mailbox): the mailbox of the spool is left" in out, True)
            equal(f"{what}: other mail", (secret.read_bytes(), aside.read_bytes()), texts)
            for path, state in before.items():
                now = path.lstat()
                expected = (state.st_ino, state.st_size, state.st_mode)
                equal(f"{what}: {path}", (now.st_ino, now.st_size, now.st_mode), expected)

        theirs(mailbox(box, TWO), "m61two")
        attempt("another user's mailbox", "left (other-owner): it belongs to m61two")
        box.unlink()
        os.symlink(secret, box)
        attempt("a link", "left (link): it is a symbolic link")
        box.unlink()
        box.mkdir()
        attempt("a folder", "left (no-file): it is not a regular file")
        box.rmdir()
        # a lock that leads elsewhere is nobody's
        aside.rename(box)
        for make in ("ln -s ../secret", "mkfifo", "mkdir"):
            subprocess.run([*make.split(), spool / "m61one.lock"], check=True)
            status, out, err = run([*WORDS, "m61one"], home)
            equal("a lock that is none", (status, err, "left (locked)" in out), (75, "", True))
            equal("the inbox", (box.read_bytes(), secret.read_bytes()), (ONE, ONE))
            subprocess.run(["rm", "-r", spool / "m61one.lock"], check=True)
        # what stands under the names that root gives
        for name in (".mbox2maildir.m61one.lock", ".mbox2maildir.m61one"):
            os.symlink(secret, spool / name)
        box.unlink()
        equal("with links beside it", run([*WORDS, "m61one"], home)[0], 1)
        equal("the secret", secret.read_bytes(), ONE)


def hostile_homes(home: Path) -> None:
    """Links in a home lead nobody to what its user may not read or write."""
    with migrated(home):
        one, two, secret = home / "homes/m61one", home / "homes/m61two", mailbox(home / "secret", ONE)
        secret.chmod(0o600)
        two.chmod(0o700)
        mailbox(two / "mail/sent", ONE)
        shutil.chown(two / "mail/sent", "m61two", "m61two")
        deliver(home, "m61one")
        deliver(home, "m61one", ".sent", name="1700000000.M2.host")
        kept = home / "kept"
        subprocess.run(["cp", "-a", one, kept], check=True)

        def attempt(what: str, path: str, target: Path, wanted: str = "") -> None:
            subprocess.run(["rm", "-r", one], check=True)
            subprocess.run(["cp", "-a", kept, one], check=True)
            place = one / path
            subprocess.run(["rm", "-rf", place], check=True)
            place.parent.mkdir(parents=True, exist_ok=True)
            os.symlink(target, place)
            shutil.chown(place.parent, "m61one", "m61one")
            os.lchown(place, *pwd.getpwnam("m61one")[2:4])
            before = outside()
            out = run([*WORDS, "m61one"], home)[1]
            assert wanted in out, f"{what}: {out}"
            equal(f"{what}: what is outside", outside(), before)
            mailbox(home / "spool/m61one", ONE)

        def outside() -> dict[Path, object]:
            paths = [secret, *two.rglob("*"), home / "spool/m61two"]
            return {path: (path.lstat().st_mtime_ns, path.lstat().st_size, path.lstat().st_uid) for path in paths}

        attempt("the Maildir", "Maildir", two / "Maildir", "left (not-own)")
        attempt("new", "Maildir/new", two / "Maildir/new", "left (not-own)")
        attempt("the record", "Maildir/mbox2maildir-record", secret, "left (record)")
        attempt("the ledger", "Maildir/mbox2maildir-messages", secret, "left")
        attempt("what was beside", "Maildir/mbox2maildir-back", secret, "left")
        attempt("what is not whole", "Maildir/mbox2maildir-back.new", secret, "back")
        attempt("a folder", "Maildir/.other", two / "Maildir", "Maildir/.other: Permission denied")
        attempt("mail", "Maildir/cur/1.M9.host:2,S", secret)
        attempt("the tree", "mail", two / "mail", "mail: left")
        attempt("a mailbox", "mail/sent", two / "mail/sent")
        attempt("its lock", "mail/sent.lock", secret)


def pipe(home: Path) -> None:
    """A pipe that has the name of what a run may leave holds up nobody, and its user's row says what to do."""
    with migrated(home):
        for name in NAMES[:2]:
            deliver(home, name)
        path = home / "homes/m61one/Maildir/mbox2maildir-back"
        os.mkfifo(path)
        shutil.chown(path, "m61one", "m61one")
        status, out, err = run(WORDS, home)
        equal("status and standard error", (status, err), (1, ""))
        row = "INBOX -> m61one Maildir: messages 1: left (no-file): .../mbox2maildir-back is not a regular file: ..."
        matches("rows", "\n".join(sorted(out.splitlines()[:2])), f"{row}\nINBOX -> m61two: mboxrd, messages 1: back")


if __name__ == "__main__":
    check_all(
        went_back,
        new_inboxes,
        without_mailboxes,
        in_nobodys_way,
        tree_elsewhere,
        another_spool,
        second_mailbox,
        own_mailbox_gone,
        rights,
        locked,
        killed,
        hostile_spool,
        hostile_homes,
        pipe,
    )
