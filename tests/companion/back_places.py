"""mbox2maildir-admin back: which files of a Maildir go back, and to which mailbox, where links, folders and names are
not as the migration left them."""
import os
import re
import shutil
from collections.abc import Callable, Iterable
from pathlib import Path

from tests.support.archives import Home, letters, run_rules
from tests.support.checks import equal
from tests.support.homes import mail_in, make_maildir
from tests.support.running import Run

BACK = ["back", "--json", "--now"]
SUBJECT = re.compile(rb"(?m)^Subject: (\w+)\n")
# the lists that Dovecot keeps in a folder
LIST, KEYWORDS = "dovecot-uidlist", "dovecot-keywords"


def new(name: str) -> bytes:
    """A message with this subject."""
    return b"Subject: %s\n\nhello\n" % name.encode()


def subjects_in(path: Path) -> list[str]:
    """The subjects of a mailbox, in its order."""
    return [one.decode() for one in SUBJECT.findall(path.read_bytes())]


def begun(home: Home, mailboxes: dict[str, bytes], words: Iterable[str] = ()) -> None:
    """Begins anew with a Maildir to which these mailboxes of the tree were migrated."""
    home.begin("--jobs", "1", *words)
    for name, text in mailboxes.items():
        home.write(f"mail/{name}", text)
    home.place.own(*home.path.rglob("*"))
    home.done("mail")


def deliver(home: Home, place: str, mail: bytes) -> None:
    """A message comes to a place of the Maildir."""
    path = home.maildir / place
    make_maildir(path.parents[1])
    path.write_bytes(mail)
    home.place.own(path.parents[1], *path.parents[1].rglob("*"))


def back(home: Home, *names: str, status: int = 0) -> Run:
    """Goes back, as a rehearsal says before."""
    dry = home.place.run([*BACK, "--dry-run", *home.words[2:], "M", *names])
    ran = home.place.run([*BACK, *home.words[2:], "M", *names])
    for one in (dry, ran):
        equal(f"the status: {one.output}", one.status, status)
    rows = [[(row["path"], row["messages"], row["reason"]) for row in one.rows] for one in (dry, ran)]
    equal("what a rehearsal says", rows[0], rows[1])
    return ran


def through_a_link(home: Home) -> None:
    """The path of the mailboxes has a link, by which they were migrated. They are the same by that path and by the one
    without it: Dovecot's UIDs stay, one more copy of an old message goes back, and a later migration knows all."""
    text = letters(1).replace(b"Subject", b"X-IMAPbase: 1700000000 0000000001\nX-UID: 1\nSubject", 1)
    for is_whole in (False, True):
        home.begin("--jobs", "1", "--dovecot")
        home.write("real/mail/a", text)
        (home.path / "link").symlink_to("real")
        (home.path / "whole").symlink_to("real/mail/a")
        home.place.own(*home.path.rglob("*"))
        name, folder = ("whole", ".whole") if is_whole else ("link/mail", ".a")
        home.done(name, words=["--folder", "whole"] if is_whole else [])
        (old,) = (home.maildir / folder).glob("[nc]*/*.1*")
        deliver(home, f"{folder}/new/17000.M1.host", old.read_bytes())
        deliver(home, f"{folder}/new/17001.M1.host", new("new"))
        (row,) = (row for row in back(home, name).rows if row["messages"])
        equal("its path and its remarks", (row["path"], row.remarks), (f"{name}/a".replace("whole/a", name), []))
        box = home.path / "real/mail/a"
        equal("the mail", subjects_in(box), ["1", "1", "new"])
        equal("UIDVALIDITY", b"X-IMAPbase: 1700000000 " in box.read_bytes(), True)
        equal("another run", [row["messages"] for row in back(home, name).rows], [0])
        rows = home.done(name, words=["--folder", "whole"] if is_whole else []).rows.values()
        equal("a migration", [(row["verdict"], row["says"]) for row in rows], [("done before", "")])


def past_a_link(home: Home) -> None:
    """A mailbox was migrated by a path that has a link, and is named by the one without it. It is the same for
    `migrate`, `back` and an undo, as is one with the link's name in its place."""
    for link, name in (("link", "link/a"), ("real/link", "real/link/b/a")):
        home.begin("--jobs", "1")
        place = "real/mail/a" if link == "link" else "real/mail/b/a"
        home.write(place, letters(1))
        (home.path / link).symlink_to((home.path / "real/mail"))
        home.place.own(*home.path.rglob("*"))
        home.done(name, words=["--folder", "two"])
        (row,) = home.done(place).rows.values()
        equal("its folder", (row["folder"], row["verdict"]), ("two", "done before"))
        (row,) = home.done("real/mail").rows.values()
        equal("its folder, in a tree", (row["folder"], row["verdict"]), ("two", "done before"))
        deliver(home, ".two/new/17000.M1.host", new("new"))
        back(home, place)
        equal("the mail", subjects_in(home.path / place), ["1", "new"])
        (row,) = home.undo(place).rows.values()
        equal("an undo", (row["folder"], row["verdict"]), ("two", "undone"))
        # without a line of its own, one of this name elsewhere is another one
        home.write("other/a", letters(2))
        home.place.own(home.path / "other/a")
        (row,) = home.done("other/a").rows.values()
        equal("another one of its name", row["folder"], "INBOX")


def not_named(home: Home) -> None:
    """A mailbox is where the ledger has it, and another path is named, where nothing is, or a folder that has none of
    the mailboxes. Nothing goes back then until it is named."""
    home.begin("--jobs", "1")
    home.write("old/inbox", letters(1))
    home.write("mail/a", letters(2))
    (home.path / "docs").mkdir()
    home.place.own(*home.path.rglob("*"))
    home.done("old/inbox", "mail")
    for place in ("new", ".a/new"):
        deliver(home, f"{place}/17000.M1.host", new("new"))
    boxes = {home.path / "old/inbox": ["1"], home.path / "mail/a": ["2"]}
    for names, count in ((["inbox", "docs"], 2), (["inbox", "mail"], 1), (["old/inbox", "docs"], 1)):
        dry = home.place.run([*BACK, "--dry-run", "M", *names])
        left = [row for row in dry.rows if row["verdict"] == "left"]
        equal(f"{names}: {dry.output}", [row["reason"] for row in left], ["no-mailbox"] * count)
    ran = back(home, "inbox", "docs", status=1)
    for box, row in zip(boxes, ran.rows):
        equal("what is said", row["says"], f"its mailbox is {box}, which was not named")
    equal("what is new", [(home.path / "inbox").exists(), [*(home.path / "docs").iterdir()]], [False, []])
    back(home, "old/inbox", "mail")
    equal("the mail", {box: subjects_in(box) for box in boxes}, {box: [*its, "new"] for box, its in boxes.items()})


def gone_since(home: Home) -> None:
    """The only mailbox that has mail which went back is gone, as if its disk was not mounted then. That is said until
    it is there again."""
    begun(home, {"a": letters(1)})
    deliver(home, ".n/new/17000.M1.host", new("new"))
    back(home, "mail")
    (home.path / "mail/n").rename(home.path / "n")
    ran = back(home, "mail", status=1)
    (left,) = (row for row in ran.rows if row["verdict"] == "left")
    equal("what is said", (left["reason"], left["says"]), ("missing", f"its mailbox is gone: {home.path}/mail/n"))
    equal("what is to be run", ran.sums.commands, [])
    (home.path / "n").rename(home.path / "mail/n")
    back(home, "mail")
    equal("the mail", subjects_in(home.path / "mail/n"), ["new"])


def gone_since_it_was_done(home: Home) -> None:
    """The only mailbox that has some mail is gone. That is said, though nothing is new in its folder, until it is there
    again, all of that mail was deleted, or another mailbox has it."""
    begun(home, {"a": letters(1), "b": letters(2), "c": letters(2), "d": letters(3)})
    for name in "abc":
        (home.path / "mail" / name).rename(home.path / name)
    ran = back(home, "mail", status=1)
    left = {row["folder"]: row["says"] for row in ran.rows if row["verdict"] == "left"}
    equal("what is said", left, {name: f"its mailbox is gone: {home.path}/mail/{name}" for name in "abc"})
    equal("what is to be run", ran.sums.commands, [])
    (home.path / "c").rename(home.path / "mail/c")
    (message,) = mail_in(home.path / "M/.a")
    message.unlink()
    back(home, "mail")


def without_new_or_cur(home: Home) -> None:
    """A copy of the Maildir left out what is empty. What is there goes back, and nothing else was deleted."""
    for gone, there in ("new", "cur/17000.M1.host:2,"), ("cur", "new/17000.M1.host"):
        begun(home, {"box": letters(1, 2)})
        for path in home.files("box"):
            path.rename(home.folder("box") / Path(there).parent / path.name.partition(":")[0])
        deliver(home, f".box/{there}", new("new"))
        (home.folder("box") / gone).rmdir()
        (row,) = back(home, "mail").rows
        equal(f"without {gone}", (row["messages"], row.remarks), (1, []))
        equal("the mail", subjects_in(home.path / "mail/box"), ["1", "2", "new"])
        (row,) = home.done("mail").rows.values()
        equal("a migration", row.remarks, [])
        equal("its mail", [path.read_bytes() for path in home.files("box")].count(new("new")), 1)


def a_link_between_folders(home: Home) -> None:
    """A folder has two names, and mailboxes by either or both. What is new in it goes back once."""
    for boxes, wanted in (["y"], "y"), (["x", "y"], "y"):
        begun(home, {name: letters(1) for name in boxes})
        shutil.rmtree(home.folder("x"), ignore_errors=True)
        home.folder("x").symlink_to(".y")
        deliver(home, ".y/new/17000.M1.host", new("new"))
        back(home, "mail")
        there = {path.name: subjects_in(path) for path in (home.path / "mail").iterdir()}
        equal("the mail", there, {name: ["1"] + ["new"] * (name == wanted) for name in boxes})
    # the mailbox is one by the name of the link
    begun(home, {"x": letters(1)})
    home.folder("x").rename(home.folder("y"))
    home.folder("x").symlink_to(".y")
    deliver(home, ".y/new/17000.M1.host", new("new"))
    back(home, "mail")
    equal("the mail", [(one.name, subjects_in(one)) for one in (home.path / "mail").iterdir()], [("x", ["1", "new"])])


def two_files_of_a_name(home: Home) -> None:
    """Two files of a folder have one name before their infos, and hold different mail: each goes back. A link to the
    same file, as a program leaves it for a moment, does not."""
    begun(home, {"a": letters(1)})
    deliver(home, ".a/new/17000.M1.host", new("one"))
    deliver(home, ".a/cur/17000.M1.host:2,S", new("two"))
    deliver(home, ".a/new/17001.M1.host", new("three"))
    os.link(home.folder("a") / "new/17001.M1.host", home.folder("a") / "cur/17001.M1.host:2,S")
    (old,) = home.folder("a").glob("[nc]*/*.1*")
    name = old.name.partition(":")[0]
    deliver(home, f".a/new/{name}" if old.parent.name == "cur" else f".a/cur/{name}:2,", new("four"))
    back(home, "mail")
    equal("the mail", sorted(subjects_in(home.path / "mail/a")), ["1", "four", "one", "three", "two"])
    (row,) = back(home, "mail").rows
    equal("another run", (row["messages"], row.remarks), (0, []))


def names_that_are_not_utf8(home: Home) -> None:
    """A folder has a name that no mailbox becomes. Its mail has a mailbox of this name then, and all other mail goes
    back."""
    name = b"Gr\xfc\xdfe".decode(errors="surrogateescape")
    for folder, box in (f".{name}", name), (f".a.{name}", f"a-{name}"):
        begun(home, {"a": letters(1)})
        deliver(home, ".a/new/17000.M1.host", new("one"))
        deliver(home, f"{folder}/new/17001.M1.host", new("two"))
        back(home, "mail")
        there = {path.name: subjects_in(path) for path in (home.path / "mail").iterdir()}
        equal("the mail", there, {"a": ["1", "one"], box: ["two"]})
        equal("another run", [row["messages"] for row in back(home, "mail").rows if row["messages"]], [])


def another_file_of_an_inode(home: Home) -> None:
    """Mailboxes that are gone from the tree were named by themselves. Each gets the mail of its folder if it has its
    bytes, or is the same file and has all of its mail; another file in the same inode does not."""
    tells: dict[str, Callable[[Path], object]] = {
        "the same file": lambda box: box,
        "the same file, with flags": lambda box: box.write_bytes(letters(1, fields=b"Status: RO\n")),
        "a copy": copied,
        "another file": lambda box: box.write_bytes(letters(2)),
    }
    for what, change in tells.items():
        begun(home, {"a": letters(1), "b": letters(3)})
        deliver(home, ".a/new/17000.M1.host", new("new"))
        (home.path / "mail/a").rename(home.path / "moved")
        change(home.path / "moved")
        home.place.own(home.path / "moved")
        is_other = what == "another file"
        ran = back(home, "mail/b", "moved", status=int(is_other))
        row = next(row for row in ran.rows if row["folder"] == "a")
        equal(what, (row["messages"], row["reason"]), (1, "missing" if is_other else None))
        equal(f"{what}: the mail", subjects_in(home.path / "moved")[1:], [] if is_other else ["new"])


def copied(box: Path) -> None:
    """A copy is in the place of a file, which is gone."""
    copy = box.with_name("copy")
    shutil.copyfile(box, copy)
    copy.replace(box)


def new_mailboxes_of_a_rehearsal(home: Home) -> None:
    """New mailboxes of two folders would have one name, or one would stand where the other needs a folder: a rehearsal
    names them as they are made then."""
    for folders, wanted in (
        ((".a.b", ".a-b"), {"a-b", "a-b-2"}),
        ((".n", ".n.b"), {"n", "n-b"}),
    ):
        begun(home, {"a": letters(1)})
        for number, folder in enumerate(folders):
            deliver(home, f"{folder}/new/1700{number}.M1.host", new(f"new{number}"))
        back(home, "mail")
        there = {path.name: len(subjects_in(path)) for path in (home.path / "mail").iterdir()}
        equal("the mail", there, {"a": 1, **dict.fromkeys(wanted, 1)})


def many_keywords(home: Home) -> None:
    """More keywords than letters by which answers are chosen have no room in a mailbox, each of another message: people
    get each command."""
    base = letters(1).replace(b"Subject", b"X-IMAPbase: 1700000000 0000000001\nX-UID: 1\nSubject", 1)
    begun(home, {"a": base, "b": letters(2)}, ["--dovecot"])
    marks = "abcdefghijklmno"
    for number, mark in enumerate(marks, 2):
        deliver(home, f".a/cur/17000.M{number}.host:2,{mark}", new(f"new{number}"))
    folder = home.folder("a")
    (folder / KEYWORDS).write_text("".join(f"{number} Word{number}\n" for number in range(len(marks))))
    several = "".join(f"{uid} :17000.M{uid}.host\n" for uid in range(2, 17))
    (folder / LIST).write_text((folder / LIST).read_text().replace("N2", "N17") + several)
    home.place.own(*folder.iterdir())
    ran = home.place.run(["back", "--now", "--dovecot", "M", "mail"])
    words = re.findall(r"doveadm flags add \S+ \S+ (Word\d+) mailbox a uid (\d+)\n", ran.out)
    wanted = [(f"Word{number}", f"{number + 2}") for number in range(len(marks))]
    equal(f"the commands: {ran.output}", sorted(words), sorted(wanted))


RULES = (
    *(
        through_a_link,
        past_a_link,
        not_named,
        gone_since,
        gone_since_it_was_done,
        without_new_or_cur,
        a_link_between_folders,
        two_files_of_a_name,
        names_that_are_not_utf8,
    ),
    *(another_file_of_an_inode, new_mailboxes_of_a_rehearsal, many_keywords),
)

if __name__ == "__main__":
    run_rules({rule.__name__: rule for rule in RULES})
