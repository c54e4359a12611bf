"""mbox2maildir-admin verify --users: a spool of users, the mail of each compared with the Maildir in the home, with
only that user's rights. The environment's VERIFY_USERS says how many users that spool has. It needs root, and is left
out without it."""
import json
import os
import shutil
from pathlib import Path
from typing import Any

from tests.companion.spool import theirs, users
from tests.support import accounts
from tests.support.checks import equal, matches
from tests.support.homes import check_all, expect, mail_in, mailbox, run, run_printed, want_users
from tests.support.printed import groups_in
from tests.support.mail import ONE, THREE, TWO, bodies_of, numbered
from tests.support.schema import wrong

# how many users there are of whom three lack a message
COUNT = int(os.environ.get("VERIFY_USERS", "24"))
TREE = ["verify", "--users", "--tree", "mail"]


def of_many(home: Path) -> None:
    """Of many users with 20 messages each, more than a process may have files open, three lack one: they have a line
    each, and there is one sum."""
    want_users()
    names = [f"m62u{number:04}" for number in range(COUNT)]
    with accounts.users({name: home / "homes" / name for name in names}):
        for name in names:
            (home / "homes" / name).mkdir(parents=True)
            shutil.chown(home / "homes" / name, name, name)
            theirs(mailbox(home / "spool" / name, numbered("mail", 20)), name)
        ran = run_printed("ulimit -n 20 && mbox2maildir-admin migrate --users --jobs 1 spool", home)
        equal(f"migrate: {ran.output}", ran.status, 0)
        sum_of = f"{COUNT} mailboxes: %s; {COUNT} users: {COUNT} from the spool\n"
        expect("verify --users spool", home, 0, sum_of % f"{COUNT} whole")
        lacking = {names[3], names[COUNT // 2], names[-1]}
        for name in lacking:
            next(mail_in(home / "homes" / name / "Maildir")).unlink()
        status, out, err = run("verify --users spool", home)
        equal("status and standard error", (status, err), (1, ""))
        (group,) = groups_in(out)
        equal("the group", group.title, "not whole: 3 mailboxes")
        equal("its rows", group.rows, {f"{name} INBOX": "nowhere 1" for name in sorted(lacking)})
        last = out.splitlines(True)[-1]
        equal("the sum", last, sum_of % f"{COUNT - 3} whole, 3 not whole (3 nowhere), of 3 users")
        (home / "list").write_text("\n".join(sorted(lacking)[:2]), encoding="utf-8")
        status, out, err = run(["verify", "--users", "--names", "list", "--jobs", "1", "spool", names[0]], home)
        equal("those of a list", [*groups_in(out)[0].rows], [f"{name} INBOX" for name in sorted(lacking)[:2]])
        wanted = "3 mailboxes: 1 whole, 2 not whole (2 nowhere), of 2 users; 3 users: 1 from the command line, ..."
        matches("users of a list", out.splitlines()[-1], wanted)


def spool_of_three(home: Path) -> None:
    """Three users with mail in the spool, one of whom has a folder of mailboxes too, all of it migrated."""
    for number, name in enumerate(("m61one", "m61two", "m61three")):
        theirs(mailbox(home / "spool" / name, (ONE, TWO, THREE)[number]), name)
    for name, text in (("lists/sheds", ONE + TWO), ("sent", ONE), (".subscriptions", b"sent\n"), ("empty", b"")):
        theirs(mailbox(home / "homes/m61two/mail" / name, text), "m61two")
    equal("migrate", run("migrate --users --now --dovecot --tree mail spool", home)[0], 0)


def each_reason(home: Path) -> None:
    """The last block names each mailbox that is not whole, and why. The command for one that was not migrated has
    --dovecot, as the others had. What has no mail has a line only with --all. Objects and reports follow the
    schema."""
    want_users()
    with users(home):
        spool_of_three(home)
        sums = "%s; 2 other files: no mail; 3 users: 3 from the spool\n"
        expect([*TREE, "spool"], home, 0, sums % "5 mailboxes: 5 whole")
        two = home / "homes/m61two"
        damage(home, two / "Maildir")
        theirs(mailbox(two / "mail/new", ONE), "m61two")
        mailbox(home / "spool/nobody-at-all", ONE)
        before = snapshot(home)
        status, out, err = run([*TREE, "--report", "report", "spool"], home)
        equal("status and standard error", (status, err), (1, ""))
        wanted = {
            "no-maildir": {"m61two mail/new": f"it was not migrated: {two}/Maildir/.new is no Maildir"},
            "no-user": {"nobody-at-all": "no such user"},
            "not whole": {
                "m61three INBOX": "of another owner 1",
                "m61two INBOX": "nowhere 1",
                "m61two mail/lists/sheds -> lists/sheds": "other bytes 1; doubles 1",
            },
        }
        groups = {one.word: one for one in groups_in(out)}
        equal("the groups", {word: one.rows for word, one in groups.items()}, wanted)
        command = f"runuser -u m61two -- mbox2maildir-admin migrate --dovecot {two}/Maildir {two}/mail"
        equal("what migrates the new one", groups["no-maildir"].commands, [command])
        counts = "1 double, 1 nowhere, 1 other-bytes, 1 other-owner"
        says = f"7 mailboxes: 2 whole, 3 not whole ({counts}), 2 left, of 3 users"
        equal("the sum", out.splitlines(True)[-1], sums % says)
        as_objects(home, ["m61three", "m61two", "nobody-at-all"])
        changed = {path for path, state in snapshot(home).items() if before.get(path) != state}
        equal("what was written", changed, {home / "report", home})
        with_all(home, ["m61two mail/.subscriptions: no mail\n", "m61one -> INBOX: messages 1: whole\n"])


def damage(home: Path, maildir: Path) -> None:
    """Removes a message, changes one, adds a copy of one, and gives one to another user."""
    one, other = mail_in(maildir / ".lists.sheds")
    one.write_bytes(b"changed\n")
    shutil.copy(other, other.parent / "1.host")
    shutil.chown(other.parent / "1.host", "m61two", "m61two")
    next(mail_in(maildir)).unlink()
    (strange,) = mail_in(home / "homes/m61three/Maildir")
    shutil.chown(strange, "m61two", "m61two")
    strange.chmod(0o644)


def with_all(home: Path, lines: list[str]) -> None:
    """With --all there are these lines, and what is said of single files of a mailbox, as `verify` says it to its
    user."""
    out, two = run([*TREE, "--all", "spool"], home)[1], home / "homes/m61two"
    equal("--all: what is missing", {*lines} - {*out.splitlines(True)}, set())
    words = ["verify", "--all", f"{two}/Maildir/.lists.sheds", f"{two}/mail/lists/sheds"]
    own = run(["/usr/bin/env", "runuser", "-u", "m61two", "--", "mbox2maildir-admin", *words], home)[1].splitlines()[
        1:-1
    ]
    equal("what is said of files", (len(own), {*own} - {*out.splitlines()}), (2, set()))


def as_objects(home: Path, names: list[str]) -> None:
    """What --json prints, and what --report wrote, is the same, by the schema: a row for each name, and the sums."""
    status, out, err = run([*TREE, "--json", "spool"], home)
    equal("--json: status and standard error", (status, err), (1, ""))
    rows = [json.loads(line) for line in out.splitlines()]
    equal("what is wrong by the schema", [wrong(row) for row in rows], [[]] * len(rows))
    reported = list(map(json.loads, (home / "report").read_text(encoding="utf-8").splitlines()))
    equal("the report", sorted(map(told, reported[:-1])), sorted(map(told, rows[:-1])))
    equal("its sums", [one["verdicts"] for one in (rows[-1], reported[-1])], [reported[-1]["verdicts"]] * 2)
    found = sorted({row["user"] for row in rows[:-1] if row["verdict"] in ("left", "not whole")})
    equal("whose is not whole", found, names)
    (sheds,) = (row for row in rows[:-1] if row["path"] == "mail/lists/sheds")
    wanted = (
        "m61two",
        "lists/sheds",
        2,
        sum(map(len, bodies_of(ONE + TWO))),
        "not whole",
        None,
        ["other-bytes", "double"],
    )
    named = ("user", "folder", "messages", "bytes", "verdict", "reason")
    equal("a row", (*(sheds[name] for name in named), [one["remark"] for one in sheds["remarks"]]), wanted)
    (inbox,) = (row for row in rows[:-1] if (row["user"], row["path"]) == ("m61three", ""))
    equal("of another owner", [one["remark"] for one in inbox["remarks"]], ["other-owner"])


def told(row: dict[str, Any]) -> str:
    """A row as a text."""
    return json.dumps(row, sort_keys=True)


def snapshot(home: Path) -> dict[Path, tuple[int, int]]:
    """The files and folders that are there, with their inodes and when they changed last."""
    found = [home, *(path for path in home.rglob("*") if "bin" not in path.relative_to(home).parts)]
    return {path: (path.lstat().st_ino, path.lstat().st_ctime_ns) for path in found}


def rights(home: Path) -> None:
    """What a user may not read, root does not read for that user, over no link."""
    want_users()
    with users(home):
        spool_of_three(home)
        one, secret = home / "homes/m61one", mailbox(home / "secret", ONE)
        secret.chmod(0o600)
        (file,) = mail_in(one / "Maildir")
        os.chown(file, 0, 0)
        file.chmod(0o600)

        def expect_line(wanted: str) -> None:
            status, out, err = run([*TREE, "spool", "m61one"], home)
            equal("status and standard error", (status, err), (1, ""))
            found = [f"{one.word}: {name}: {says}" for one in groups_in(out) for name, says in one.rows.items()]
            matches("the lines", "; ".join(found), wanted)

        expect_line(f"error: m61one: {file}: Permission denied")
        shutil.chown(file, "m61one", "m61one")
        expect([*TREE, "spool", "m61one"], home, 0, "1 mailbox: 1 whole; 1 user: ...\n")
        (one / "mail").mkdir()
        os.symlink(secret, one / "mail/Sent")
        expect_line(f"link: m61one mail/Sent: it is a symbolic link to {secret}")
        shutil.rmtree(one / "mail")
        os.symlink(secret, one / "mail")
        expect_line(f"link: m61one mail: it is a symbolic link to {secret}")
        (one / "mail").unlink()
        (one / "Maildir").rename(one / "away")
        os.symlink(home / "homes/m61two/Maildir", one / "Maildir")
        expect_line("not-own: m61one...: ...Maildir: it is a symbolic link...")
        (one / "Maildir").unlink()
        (one / "away").rename(one / "Maildir")
        shutil.chown(home / "spool/m61one", "m61two", "m61two")
        expect_line("other-owner: m61one: it belongs to m61two")
        (home / "spool/m61one").unlink()
        os.symlink(secret, home / "spool/m61one")
        expect_line("link: m61one: it is a symbolic link...")
        one.rename(home / "homes/gone")
        theirs(mailbox(home / "spool/m61three", THREE), "m61three")
        expect_line("link: m61one: it is a symbolic link...; home: m61one mail: ...")


def wrong_words(home: Path) -> None:
    """Options of users need --users, and a spool."""
    for words, says in (
        (["--tree", "mail", "M", "box"], "--tree needs --users"),
        (["--report", "r", "M", "box"], "--report needs --users"),
        (["--users"], "OLD is missing"),
        (["M"], "FILE is missing"),
    ):
        expect(["verify", *words], home, 2, "", f"mbox2maildir-admin: {says}\n...\n")
    if os.geteuid() == 0:
        for words, says in (
            (["--jobs", "0"], "--jobs 0: it takes a number from 1 on"),
            (["--tree", ""], "--tree: ..."),
        ):
            expect(["verify", "--users", *words, "S"], home, 2, "", f"mbox2maildir-admin: {says}\n...\n")


if __name__ == "__main__":
    check_all(of_many, each_reason, rights, wrong_words)
