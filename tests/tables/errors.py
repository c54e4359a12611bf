"""mbox2maildir-admin on what a new user gets wrong: words, names, and files that are not there."""
import gzip
import json
import os
import shlex
import signal
import sys
from pathlib import Path

from tests.support.checks import equal, matches
from tests.support.homes import ADMIN, check_all, checks_in, expect, fake, hand_over, is_root, mailbox, run, want_root
from tests.support.mail import ONE
from tests.support.printed import row_in, rows_in
from tests.support.running import OWNER, Desk

# a line that may begin a message, which only a human can decide
UNCLEAR = ONE + b"From Tuesday on we are here\n\nbye\n\n"

# what stands before a command
RUN = "    run this next:\n        "
HELP = "mbox2maildir-admin: run this next: mbox2maildir-admin {}--help\n".format
COMMANDS = "kind", "quote", "dates", "migrate", "verify", "back", "explain"
ONE_FILE = "--text needs exactly one MAILBOX, which is a file"
# words that are wrong, or do not go together, and what is said of them; the help of the command is next
REFUSED = [
    ("", "the command is missing: kind, quote, dates, migrate, verify, back, explain"),
    ("help", "help: no such command"),
    ("frobnicate", "frobnicate: no such command"),
    ("migrat M box", "migrat: no such command: did you mean migrate?"),
    ("-V", "-V: no such option"),
    ("kind", "FILE is missing"),
    ("kind ''", "'': FILE is empty"),
    ("verify M", "FILE is missing"),
    ("verify '' box", "'': MAILDIR is empty"),
    ("dates M", "FILE is missing"),
    ("dates '' box", "'': MAILDIR is empty"),
    ("quote box", "-o COPY is missing: the name of the copy, or - for standard output"),
    ("quote -o copy ''", "'': FILE is empty"),
    ("quote -o copy box two", "two: it takes only one FILE"),
    ("quote --as mbox -o copy box", "--as mbox: no such word: it takes mboxrd, ..."),
    ("quote --as mboxo --text x --of 9-a -o copy box", "--text and --begin take line numbers, separated by commas"),
    ("quote --as mboxo --text 0 --of 9-a -o copy box", "--text and --begin take line numbers, separated by commas"),
    ("quote --text 7 --of 9-a -o copy box", "--text needs --as"),
    ("quote --of 9-a -o copy box", "--of needs --as or --drop-deleted"),
    ("quote --as mboxo --text 7 --begin 7 --of 9-a -o copy box", "line 7 is named by --text and by --begin"),
    ("migrate", "MAILDIR and MAILBOX are missing"),
    ("migrate M", "MAILBOX is missing"),
    ("migrate '' box", "'': MAILDIR is empty"),
    ("migrate M box ''", "'': MAILBOX is empty"),
    ("migrate --users", "OLD is missing"),
    ("migrate --users ''", "'': OLD is empty"),
    ("migrate --dry M box", "--dry: no such option: did you mean --dry-run?"),
    ("migrate M box --json=x", "--json=x: --json takes no value"),
    ("migrate M box --folder", "--folder: its NAME is missing; if that begins ..., write --folder=NAME"),
    ("migrate M box --jobs x", "--jobs x: it takes a number from 1 on"),
    ("migrate M box --as mbox", "--as mbox: no such word: it takes mboxrd, ..."),
    ("migrate M box --folder a//b", "--folder a//b: a part of the name is empty: put `/` only between ..."),
    (
        "migrate M box --folder a.b/c",
        "--folder a.b/c: the name has a dot: give a/b/c for folders in one another, or a-b/c",
    ),
    ("migrate M box --tree mail", "--tree needs --users"),
    ("migrate M box --jobs 0", "--jobs 0: it takes a number from 1 on"),
    ("migrate M box -1", "-1: no such option"),
    ("migrate --folder x M box old", "--folder needs a MAILBOX that is a file: old is a folder"),
    ("migrate --names - M box", "--names needs --users"),
    ("migrate --undo M old", "--undo needs exactly one MAILBOX, which is a file: old is a folder"),
    ("migrate --undo M box two", "--undo needs exactly one MAILBOX, which is a file"),
    *(
        (f"migrate --undo {word} M box", f"--undo does not go with {word.partition('=')[0]}")
        for word in ("--again", "--dovecot", "--no-mail=*", "--as=mboxo")
    ),
    ("migrate --list M box", "--list needs --users"),
    ("migrate --unread M box", "--unread needs --prepare"),
    ("migrate --prepare --again M box", "--prepare does not go with --again"),
    ("migrate --label x=none M box", "--label needs --labels"),
    *(
        (
            f"migrate --labels --label {label} M box",
            f"--label {label}: it takes NAME=WHAT, and WHAT is one of none, folder, read, unread, starred",
        )
        for label in ("x", "=folder", "x=y")
    ),
    ("migrate --labels --folder x M box", "--labels does not go with --folder"),
    ("migrate --labels M old", "--labels needs a MAILBOX that is a file: old is a folder"),
    ("migrate --labels=two M box", "..."),
    ("migrate --as mboxo --text 6 M box", "--text needs --of"),
    ("migrate --as mboxo --text 6 --of 1-a M box two", ONE_FILE),
    ("migrate --as mboxo --text 6 --of 1-a M old", ONE_FILE + ": old is a folder"),
]
# the same, if root gives them
BY_ROOT = [
    ("migrate --undo --users old", "--undo does not go with --users"),
    ("migrate --list --users --json old", "--list does not go with --json"),
    ("migrate --list --users --report none old", "--list does not go with --report"),
    ("migrate --users --maildir /etc old", "/etc: --maildir and --tree take a name below each home"),
    ("migrate --users --tree a/../.. old", "a/../..: --maildir and --tree take a name below each home"),
    ("migrate --users --folder a old", "--users does not go with --folder"),
    ("migrate --users --labels old", "--users does not go with --labels"),
    ("migrate --users --as mboxo --text 6 --of 1-a old", "--users does not go with --text"),
    ("migrate --users --drop-deleted old", "--drop-deleted needs --of to go with --users"),
]
# what a command says of what is there, and what is to be done next: a command, a task, or nothing. Each says what
# happened, to what, and why
ERRORS = [
    ("quote -o box two", "two: box already exists", "    name a file that is not there\n"),
    ("quote -o copy one", "one: one mail without a From_ line", RUN + "d=$(mktemp -d {home}/one.XXXXXX) && ...\n"),
    ("quote -o none/x box", "none: No such file or directory", RUN + "ls {home}\n"),
    (
        "migrate box M",
        "box: it is a file, not a Maildir: the Maildir comes first",
        RUN + "mbox2maildir-admin migrate M box\n",
    ),
    (
        "migrate box two",
        "box: it is a file, not a Maildir: the Maildir comes first",
        "    name a Maildir, or ..., such as Maildir\n",
    ),
    ("migrate box/x two", "box/x: Not a directory", RUN + "ls -ld box\n"),
    (
        "migrate --dry-run N There box",
        "There: it is a Maildir, not a mailbox: the Maildir comes first",
        RUN + "mbox2maildir-admin migrate --dry-run There N box\n",
    ),
    # nothing is there that could go into it
    ("migrate N There", "There: it is a Maildir, not a mailbox", RUN + "mv -nT There N\n"),
    ("migrate old box", "old: it is neither a Maildir nor empty", "    name a Maildir, or ..., such as old/Maildir\n"),
    ("migrate none/M box", "none/M: the folder that it is to be made in is not there", RUN + "mkdir -p {home}/none\n"),
    ("dates M mistyped", "mistyped: No such file or directory", RUN + "ls .\n"),
    ("migrate --undo There box", "There: it has no record, so nothing was migrated into it", ""),
    ("migrate --dry-run Linked box", "Linked/mbox2maildir-record: it is a symbolic link", ""),
]


NOT_MIGRATED = "{}: left (no-maildir): it was not migrated: {} is no Maildir\n"


def words_and_files(home: Path) -> None:
    """Each error is a line that names what it is about, and what is to be done: most often a command, which is printed
    whole. The row of a mailbox has its command below it."""
    for name in ("box", "two", "old/a"):
        mailbox(home / name, ONE)
    mailbox(home / "one", ONE.split(b"\n", 1)[1])
    for name in ("empty", "There/cur", "There/new", "There/tmp", "Linked/cur", "Linked/new", "Linked/tmp"):
        (home / name).mkdir(parents=True)
    (home / "Linked/mbox2maildir-record").symlink_to("box")
    os.mkfifo(home / "pipe")
    there = sorted(home.iterdir())
    for line, says in [*REFUSED, *(BY_ROOT if is_root() else ())]:
        command = line.split(" ", 1)[0]
        words = shlex.split(line) or [str(ADMIN)]
        expect(words, home, 2, "", f"mbox2maildir-admin: {says}\n{HELP(f'{command} ' * (command in COMMANDS))}")
    for line, says, then in ERRORS:
        expect(line.split(), home, 1, "", f"mbox2maildir-admin: {says}\n{then.format(home=home)}")
    equal("what is there", sorted(home.iterdir()), there)
    for line, says in (
        ("migrate --now M mistyped", "mistyped -> INBOX: left (missing): No such file or directory\n" + RUN + "ls .\n"),
        ("migrate --now M old/x", "old/x -> INBOX: left (missing): No such file or directory\n" + RUN + "ls old\n"),
        ("verify M box", NOT_MIGRATED.format("box", "M") + RUN + "mbox2maildir-admin migrate M box\n"),
        (
            "verify --all There old",
            NOT_MIGRATED.format("old/a", "There/.a") + RUN + "mbox2maildir-admin migrate There old\n",
        ),
        ("verify There There", "There: left (maildir): it is a Maildir, not a mailbox\n    leave it as it is\n"),
        ("kind mistyped", "mistyped: left (missing): No such file or directory\n" + RUN + "ls .\n"),
        ("kind old/mistyped", "old/mistyped: left (missing): No such file or directory\n" + RUN + "ls old\n"),
        ("kind box/x", "box/x: left (missing): Not a directory\n" + RUN + "ls -ld box\n"),
        ("kind pipe", "pipe: left (no-file): it is not a regular file\n    leave it: only a regular file, or ...\n"),
        ("kind empty", "empty: left (no-mailbox): it contains no mailbox\n    there is nothing to be done\n"),
    ):
        sums = "" if line.startswith("kind") else "1 mailbox: 1 left\n"
        expect(line.split(), home, 1, says + sums)


def not_by_root(home: Path) -> None:
    """Users' mail is root's to migrate."""
    want_root()
    (home / "old").mkdir()
    ran = Desk(home, user=OWNER).run(["migrate", "--users", "old"])
    equal(
        "status and errors", (ran.status, ran.err.splitlines()[0]), (2, "mbox2maildir-admin: only root may use --users")
    )


def interrupted_while_it_waits(home: Path) -> None:
    """The sum counts the mailbox that was not begun."""
    mailbox(home / "box", ONE, 0)
    with Desk(home).start(["migrate", "M", "box"]) as child:
        assert child.stdout and child.stderr
        matches("what is said of the wait", child.stderr.readline().decode(), "mbox2maildir-admin: box: waiting...\n")
        child.send_signal(signal.SIGINT)
        says = "0 of 1 done; interrupted: run the same command again\n"
        equal("the sum", (child.stdout.read().decode(), child.wait()), (says, 130))
    equal("what is there", sorted(path.name for path in home.iterdir()), ["bin", "box"])


def no_maildir_without_a_mailbox(home: Path) -> None:
    """A Maildir is made once a mailbox was opened and read. If none was, whatever is named, nothing is made: a mail
    server might find the new Maildir before all other mail."""
    for name, text in (("photo", b"%PDF-1.4\n" * 30), ("unclear", UNCLEAR), ("notes", b"hello\n"), (".hidden", b"")):
        mailbox(home / name, text)
    for name in ("photos/a", "photos/b/c"):
        mailbox(home / name, b"%PDF-1.4\n" * 30)
    (home / "folder").mkdir()
    (home / "There").mkdir()
    there = sorted(path.name for path in home.iterdir())
    for words in (
        "M mistyped",
        "There mistyped",
        "M mistyped --dry-run",
        "M mistyped folder/none",
        "M photo",
        "M unclear",
        "M notes --no-mail *",
        "M .hidden",
        "M folder",
        "M photos",
        "M photos --jobs 2",
        "M photos --dovecot",
        "M unclear notes --jobs 2",
    ):
        status, out, _ = run(["migrate", "--all", "--now", *words.split()], home)
        wanted = 0 if "--no-mail" in words else 1, there
        equal(f"{words}: status, and what is there", (status, sorted(path.name for path in home.iterdir())), wanted)
        equal(f"{words}: what is in the folder", list((home / "There").iterdir()), [])
        assert out, f"{words}: nothing was said"


def a_maildir_with_a_mailbox(home: Path) -> None:
    """The first mailbox that was read makes the Maildir, even if it is empty or packed, or comes after others."""
    mailbox(home / "empty", b"")
    mailbox(home / "box", ONE)
    mailbox(home / "box.gz.packed", gzip.compress(ONE))
    mailbox(home / "unclear", UNCLEAR)
    mailbox(home / "photo", b"%PDF-1.4\n" * 30)
    mailbox(home / "notes", b"hello\n")
    for name in ("a", "b/c", "photo"):
        mailbox(home / "tree" / name, b"%PDF-1.4\n" * 30 if name == "photo" else ONE)
    for number, (words, status, count) in enumerate(
        (
            ("empty", 0, 0),
            ("box.gz.packed", 0, 1),
            ("box --as mboxo", 0, 1),
            ("none photo unclear box", 1, 1),
            ("tree --jobs 1", 0, 2),
            ("tree --jobs 2", 0, 2),
            ("unclear box --folder x", 1, 1),
            ("notes box --no-mail notes", 0, 1),
        )
    ):
        got, _, err = run(["migrate", "--all", "--now", f"M{number}", *words.split()], home)
        equal(f"{words}: status and errors", (got, err), (status, ""))
        equal(f"{words}: messages", len(list((home / f"M{number}").rglob("new/*"))), count)
    # what was noted before the Maildir was made is in the record
    rows = "notes: no mail, by migrate --no-mail\nbox -> INBOX: messages 1: whole\n"
    expect("verify --all M7 notes box", home, 0, rows + "1 mailbox: 1 whole; 1 other file: no mail\n")


def what_is_missing(home: Path) -> None:
    """A path that is not there has a reason of its own, and a command that found no mailbox has status 1."""
    mailbox(home / "box", ONE)
    (home / "folder").mkdir()
    status, out, _ = run("migrate --json --now M none box/x box", home)
    rows = [json.loads(line) for line in out.splitlines()]
    found = [(row["path"], row["verdict"], row["reason"]) for row in rows[:-1]]
    wanted = [("none", "left", "missing"), ("box/x", "left", "missing"), ("box", "done", None)]
    equal("rows", (status, found), (1, wanted))
    expect("migrate --all M folder", home, 1, "no mailboxes\n")
    # whoever passes over all that is there has nothing left to do; another path to a mailbox is no other file
    mailbox(home / "folder/notes", b"hello\n")
    passed = "no mailboxes; 1 other file: no mail\n"
    for words in ("--no-mail notes M folder", "M folder"):
        expect(f"migrate {words}", home, 0, passed)
    (home / "folder/notes").unlink()
    mailbox(home / "folder/box", ONE)
    os.symlink("folder", home / "linked")
    says = "folder/box -> box: mboxrd or mboxo, messages 1: done\n1 mailbox: 1 done\n"
    expect("migrate --now N folder linked", home, 0, says)
    left = "none -> INBOX: left (missing): ...\n...\n...\n1 mailbox: 1 left\n"
    expect("migrate --all --undo M none", home, 1, left)


def not_in_quotes(home: Path) -> None:
    """If a path was given as several words, nothing is migrated, whatever else is there, and the whole command is
    printed."""
    for name in ("My Old Mail/in box", "Mail/in", "a", "b", "a b"):
        mailbox(home / name, ONE)
    for given, paths, command in (
        ("M My Old Mail/in box", {"My Old Mail/in box": 4}, "M 'My Old Mail/in box'"),
        ("--now M My Old Mail a", {"My Old Mail": 3}, "--now M 'My Old Mail' a"),
        ("My Old Mail/Maildir a b", {"a b": 2}, "My Old Mail/Maildir 'a b'"),
        ("M a b My Old Mail", {"a b": 2, "My Old Mail": 3}, "M 'a b' 'My Old Mail'"),
        ("--as unquoted --of 9-a M a b Mail/in", {"a b": 2}, "--as unquoted --of 9-a M 'a b' Mail/in"),
    ):
        out = "".join(
            f"{path}: left (words): its path was given as {count} words, so nothing was migrated\n"
            f"{RUN}mbox2maildir-admin migrate {command}\n"
            for path, count in paths.items()
        )
        got, said, _ = run(["migrate", "--all", *given.split()], home)
        found = (got, said.startswith(out), len(rows_in(said)))
        equal(f"{given}: status, and what is said", found, (1, True, len(paths) + 1))
        equal(f"{given}: what was made", [path.name for path in home.iterdir() if path.name in ("M", "My")], [])
    both = run("migrate --all --now --folder Both M ./a ./b", home)
    equal("two files beside it", (both[0], both[1].splitlines()[-1]), (0, "2 mailboxes: 2 done"))


def its_folder_is_closed_meanwhile(home: Path) -> None:
    """The row and the sums are printed, though nobody can look at the path any more, which was given with a tie."""
    want_root()
    mailbox(home / "d/box", UNCLEAR)
    command = row_in(run("migrate --all --now M d/box", home).out, "d/box").commands[0]
    fake(home, '"$real" "$@"; chmod 0 ../d')
    hand_over(home)
    ran = Desk(home, user=OWNER).run(command.split())
    equal("status and errors", (ran.status, ran.err), (1, ""))
    matches(
        "output", ran.out, "d/box -> INBOX: ...: left (error): ...: Permission denied\n...\n...\n1 mailbox: 1 left\n"
    )


def on_an_older_python(home: Path) -> None:
    """The companion ends with one line, whatever its words are. No part of it is loaded before."""
    code = "import runpy, sys; sys.version_info = (3, 8, 18); sys.argv = sys.argv[1:]; runpy.run_path(sys.argv[0])"
    for words in ("kind box", "--help", ""):
        status, out, err = run([sys.executable, "-c", code, ADMIN, *words.split()], home)
        says = f"mbox2maildir-admin: this is Python 3.8; next: run it by Python 3.9 or newer, such as: ... {ADMIN} ..."
        equal(f"{words}: status and output", (status, out), (1, ""))
        matches(f"{words}: errors", err, says + "\n")


if __name__ == "__main__":
    check_all(*checks_in(globals()))
