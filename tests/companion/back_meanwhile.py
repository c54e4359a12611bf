"""mbox2maildir-admin back: a call of the system fails, or another program does something meanwhile; and what a run that
was killed has left in a mailbox, in which others have written since. No byte of others is ever cut, and what is not
back goes back by the next run."""
import gzip
import itertools
import shutil
import signal
import threading
from collections.abc import Callable
from pathlib import Path
from typing import NamedTuple, Optional

from tests.support.archives import Home, letter, letters, run_rules
from tests.support.checks import LATER, equal
from tests.support.homes import doing_first, fake, make_maildir
from tests.support.running import BY_OTHERS, Run

OLD, NEW, MORE = letters(1), b"Subject: new\n\nnew\n", b"Subject: more\n\nmore\n"
BACK = ["back", "--json", "--now", "M"]
OTHER = b"From d@e Tue Mar  4 09:12:44 2025\nSubject: yes\n\nyes\n\n"
# of a process: whether a descriptor is that of the mailbox, and how often something was done
FIRST = """
import errno, os, signal
BOX, NEW, counts = '%(box)s', '%(new)s', {}
def is_box(number):
    return os.path.samestat(os.fstat(number), os.stat(BOX))
def is_first(what):
    counts[what] = counts.get(what, 0) + 1
    return counts[what] == 1
calls = {name: getattr(os, name) for name in ('fsync', 'write', 'open', 'ftruncate')}
def fails(error):
    raise OSError(error, os.strerror(error))
def fsync(number):
    calls['fsync'](number)
    if is_box(number) and is_first('fsync'):
        %(fsync)s
def write(number, piece):
    if is_box(number):
        %(write)s
    return calls['write'](number, piece)
def ftruncate(number, size):
    if size and %(keeps)s:
        fails(errno.EDQUOT)
    calls['ftruncate'](number, size)
def opens(path, *words, **named):
    number = calls['open'](path, *words, **named)
    if path == BOX.encode() and is_first('opened'):
        %(opened)s
    if os.fsencode(path).endswith(b'mbox2maildir-back.new'):
        %(begun)s
    return number
link = os.link
def links(name, other, **where):
    %(locked)s
    link(name, other, **where)
os.fsync, os.write, os.ftruncate, os.open, os.link = fsync, write, ftruncate, opens, links
"""
NOTHING = {"fsync": "pass", "write": "pass", "keeps": "False", "opened": "pass", "begun": "pass", "locked": "pass"}
PART = "calls['write'](number, piece[:20])"


class Case(NamedTuple):
    """What happens, by the places where it does; the status; the reason of the row; what the mailbox has then after its
    old text; and whether the new message is back by the next run."""

    does: dict[str, str]
    status: int
    reason: Optional[str]
    then: bytes = b""
    is_back: bool = True


MEANWHILE = {
    "a full disk": Case({"write": f"{PART}; fails(errno.ENOSPC)"}, 1, "no-room"),
    "a quota that is used up": Case({"write": f"{PART}; fails(errno.EDQUOT)"}, 1, "no-room"),
    "a disk that fails": Case({"write": f"{PART}; fails(errno.EIO)"}, 1, "error"),
    "a full disk that cuts nothing": Case({"write": f"{PART}; fails(errno.EDQUOT)", "keeps": "True"}, 1, "no-room"),
    "a sync that fails": Case({"fsync": "fails(errno.EIO)"}, 1, "error"),
    "a signal": Case({"fsync": "os.kill(os.getpid(), signal.SIGINT)"}, 130, None),
    "a few bytes at a time": Case({"write": "return calls['write'](number, piece[:3])"}, 0, None),
    "a delivery": Case({"fsync": "open(BOX, 'ab').write(%r)" % OTHER}, LATER, "changed", OTHER),
    "a delivery before FILE.lock is there": Case({"locked": "open(BOX, 'ab').write(%r)" % OTHER}, 0, None, OTHER),
    "another file in its place": Case(
        {"opened": "os.rename(BOX, BOX + '.old'); open(BOX, 'wb').write(%r)" % OLD}, LATER, "changed"
    ),
    "a file that is edited": Case({"begun": "open(NEW, 'ab').write(b'edited')"}, LATER, "changed"),
    "a file that gets a flag": Case({"begun": "os.rename(NEW, NEW.replace('/new/', '/cur/') + ':2,S')"}, 0, None),
    "a file that is deleted": Case({"begun": "os.unlink(NEW)"}, 0, None, is_back=False),
}  # fmt: skip


def begun(home: Home, *mails: bytes, old: bytes = OLD) -> Path:
    """Migrates a mailbox, and lets mail come."""
    home.begin("--jobs", "1")
    home.write("mail/a", old)
    home.done("mail")
    for number, mail in enumerate(mails):
        (home.folder("a") / f"new/{number}.M1.host").write_bytes(mail)
    home.place.own(*home.maildir.rglob("*"), home.path / "mail")
    return home.path / "mail/a"


def ran_first(home: Home, code: str, *words: str) -> Run:
    """Goes back, after a process has done this."""
    command = [str(doing_first(code, home.path.parent / "bin")), *BACK, "mail", *words]
    return home.place.run(command, BY_OTHERS)


def meanwhile(home: Home) -> None:
    """Each message is in the mailbox or in the Maildir, and the row says why it does not go back."""
    for what, case in MEANWHILE.items():
        box = begun(home, NEW)
        places = {"box": str(box), "new": f"{home.folder('a')}/new/0.M1.host"}
        ran = ran_first(home, FIRST % {**NOTHING, **case.does, **places})
        reasons = [row["reason"] for row in ran.rows if row["reason"]]
        equal(
            f"{what}: status and reason: {ran.err}",
            (ran.status, reasons),
            (case.status, [case.reason] * bool(case.reason)),
        )
        text, has_part = box.read_bytes(), "keeps" in case.does
        if case.status and not has_part and "fsync" not in case.does or what in ("a signal", "a sync that fails"):
            equal(f"{what}: the mailbox", text, OLD)
        equal(f"{what}: its beginning", text.startswith(OLD), True)
        again = home.place.run([*BACK, "mail"])
        counts = [box.read_bytes().count(one) for one in (b"\nSubject: new\n", case.then or OLD)]
        equal(f"{what}: the next run, and the mail then: {again.output}", (again.status, *counts), (0, case.is_back, 1))
        equal(f"{what}: what is left behind", [*home.maildir.rglob("mbox2maildir-back*")], [])
        if case.then:
            home.place.run(["migrate", "--now", "--jobs", "1", "M", "mail"])
        theirs = [path for path in home.files("a") if path.read_bytes() == b"Subject: yes\n\nyes\n"]
        equal(f"{what}: what others delivered, after a migration", len(theirs), int(case.then == OTHER))


# a run is killed when it has appended all, and is to remove what it has noted beside
KILLED = """
import os, signal
unlink = os.unlink
def unlinks(path, **where):
    if os.fsencode(path).endswith(b'mbox2maildir-back'):
        os.kill(os.getpid(), signal.SIGKILL)
    unlink(path, **where)
os.unlink = unlinks
"""
Edit = Callable[[bytes, bytes], bytes]
BLOCK = 1 << 20
FIRST_MAIL = b"From MAILER-DAEMON "
# what a mailbox has then, by its old text and by what was appended, two messages; the line of a message that stays cut,
# if one does; and whether all that follows the old text is taken back
LEFT: dict[str, tuple[Edit, Optional[int], bool]] = {
    "all of it": (lambda old, new: old + new, None, False),
    "nothing": (lambda old, new: old, None, True),
    "one of two messages, of which another program deleted the other": (
        lambda old, new: old + new[: new.index(FIRST_MAIL, 1)],
        None,
        True,
    ),
    "a part": (lambda old, new: old + new[:9], None, True),
    "all but a byte": (lambda old, new: old + new[:-1], None, True),
    "a hole": (lambda old, new: old + b"\0" * 5 + new[5:-9], None, True),
    "nothing but a hole": (lambda old, new: old + b"\0" * len(new), None, True),
    "all the blocks of the file": (lambda old, new: old + new + b"\0" * 9, None, True),
    "mail after a whole message": (lambda old, new: old + new[: new.index(FIRST_MAIL, 1)] + OTHER, None, False),
    "mail after a part": (lambda old, new: old + new[: new.index(b"\n") + 9] + b"\n" + OTHER, 7, False),
    "mail after a part of a From_ line": (lambda old, new: old + b"From \n" + OTHER, 7, False),
    "mail after a hole": (lambda old, new: old + b"\0" * 5 + new[5:70] + b"\n" + OTHER, 7, False),
    "mail alone": (lambda old, new: old + OTHER, None, False),
    "mail after all of it": (lambda old, new: old + new + OTHER, None, False),
    "another end of a message": (lambda old, new: old + new.replace(b"\nmore\n", b"\nmire\n"), 12, False),
    "a block of NULs, and bytes": (lambda old, new: old + new + bytes(BLOCK) + b"x\n", None, False),
    "bytes, and a block of NULs": (lambda old, new: old + new + b"x\n" + bytes(BLOCK), None, False),
    "another beginning": (lambda old, new: old.replace(b"hello", b"hallo") + new[:-9], None, False),
    "less than before": (lambda old, new: old[:-3], None, False),
}
# the same of long mail, whose hole is in the first of several blocks
LINES = b"%0511d\n" % 0 * (BLOCK >> 9)
LEFT_LONG: dict[str, tuple[Edit, Optional[int], bool]] = {
    "a hole in long mail": (lambda old, new: old + bytes(5) + new[5:], None, True),
    "mail after a hole in long mail": (lambda old, new: old + bytes(5) + new[5:] + OTHER, 6 + (BLOCK >> 9), False),
}


def left(home: Home) -> None:
    """What it appended as a whole stays, and a part of it is taken back, unless others have written since."""
    for what, (edit, line, is_ours) in {**LEFT, **LEFT_LONG}.items():
        lines = LINES * (what in LEFT_LONG)
        old = letter(1, body=lines)
        box = begun(home, NEW, MORE + lines, old=old)
        equal(f"{what}: it is killed", ran_first(home, KILLED).status, -signal.SIGKILL)
        text = box.read_bytes()
        edited = edit(old, text[len(old) :])
        box.write_bytes(edited)
        if what == "a part":
            home.place.run([*BACK, "--dry-run", "mail"])
            equal("what a rehearsal writes", box.read_bytes(), edited)
        ran = home.place.run([*BACK, "mail"])
        torn = [row["says"] for row in ran.rows if row["reason"] == "torn"]
        wanted = [f"the message that begins in line {line} is cut: "] * (line is not None)
        equal(f"{what}: what is cut", [one[: len(wanted[0])] for one in torn] if wanted else torn, wanted)
        now = box.read_bytes()
        equal(
            f"{what}: the status, and what stays: {ran.output}",
            (ran.status, now.startswith(old if is_ours else edited)),
            (bool(wanted), True),
        )
        if not is_ours:
            home.place.run([*BACK, "mail"])
        counts = [box.read_bytes().count(b"\nSubject: %s\n" % one) for one in (b"new", b"more")]
        equal(f"{what}: the mail", [count >= 1 for count in counts], [True, True])
        if is_ours:
            equal(f"{what}: each once", counts, [1, 1])
        equal(f"{what}: what is left behind", [*home.maildir.rglob("mbox2maildir-back*")], [])


def left_elsewhere(home: Home) -> None:
    """A part is taken back where the mailbox is by now, and if its folder is named no more. In a copy of it the part
    stays, and the row says so. What nobody has made counts for nothing."""

    def killed() -> tuple[Path, bytes]:
        box = begun(home, NEW)
        equal("it is killed", ran_first(home, KILLED).status, -signal.SIGKILL)
        part = box.read_bytes()[:-5]
        box.write_bytes(part)
        return box, part

    box, part = killed()
    shutil.move(box.parent, home.path / "other")
    home.write("mail/a", part)
    equal("a tree that was moved", home.place.run([*BACK, "other"]).status, 0)
    text = (home.path / "other/a").read_bytes()
    equal("the mail there", (text[: len(OLD)], text.count(b"\nSubject: new\n"), text[-6:]), (OLD, 1, b"\nnew\n\n"))
    equal("a copy at the old place", box.read_bytes(), part)
    box, _ = killed()
    (home.folder("a") / "new/0.M1.host").unlink()
    home.place.run([*BACK, "spool"])
    equal("a mailbox that is not named", box.read_bytes(), OLD)
    box, part = killed()
    home.write("copy", part)
    (home.path / "copy").replace(box)
    equal("a copy", [row["reason"] for row in home.place.run([*BACK, "mail"]).rows], ["torn", None])
    equal("its text", box.read_bytes()[: len(part)], part)
    for junk in (b"", b"junk\n", b"\nmbox2maildir-back 1\t1\t1\t" + b"0" * 64 + b"\tx\t0\t" + b"0" * 64 + b"\t0\n"):
        box = begun(home, NEW)
        home.place_file("../mbox2maildir-back", junk, "a")
        home.place.run([*BACK, "mail"])
        equal(f"{junk!r}: the mail", box.read_bytes().count(b"\nSubject: new\n"), 1)
        equal(f"{junk!r}: it goes", [*home.maildir.rglob("mbox2maildir-back*")], [])


# a run is killed once it has noted in the ledger that all is back
NOTED = """
import os, signal
write = os.write
def writes(number, piece):
    written = write(number, piece)
    if piece.startswith(b'='):
        os.kill(os.getpid(), signal.SIGKILL)
    return written
os.write = writes
"""


def locks(home: Home) -> None:
    """The lock of a run that was killed goes, also if its mailbox is named no more. A rehearsal removes none."""
    box = begun(home, NEW)
    lock, code = Path(f"{box}.lock"), KILLED.replace("b'mbox2maildir-back'", "b'/a.lock'")
    ran_first(home, code)
    is_there = lock.exists()
    home.place.run([*BACK, "--dry-run", "mail"])
    equal("after it was killed, and a rehearsal", (is_there, lock.exists()), (True, True))
    home.place.run([*BACK, "spool"])
    equal("after another run", lock.exists(), False)
    begun(home)
    (home.path / "mail/a").unlink()
    home.write("mail/p.gz", gzip.compress(OLD))
    home.done("mail")
    home.place_file("1.M1.host", NEW, "p")
    ran_first(home, NOTED)
    equal("once the ledger says that it is back", (home.path / "mail/p-back.lock").exists(), True)
    home.place.run([*BACK, "spool"])
    equal("after another run", (home.path / "mail/p-back.lock").exists(), False)


def want_left(home: Home, what: str, reason: str, *names: str, status: int = 1) -> None:
    """The way back ends with a fault for this reason, and no mailbox changes."""
    before = {path: path.read_bytes() for path in (home.path / "mail").rglob("*") if path.is_file()}
    ran = home.place.run([*BACK, *(names or ["mail"])])
    after = {path: path.read_bytes() for path in (home.path / "mail").rglob("*") if path.is_file()}
    equal(f"{what}: the mailboxes", after, before)
    equal(f"{what}: {ran.output}", (ran.status, reason in ran.output), (status, True))


def nothing_shows_what_is_new(home: Home) -> None:
    """A ledger that is damaged, a migration or an undo that was interrupted, what is only prepared, and a folder whose
    names change all the time."""
    begun(home, NEW)
    with open(home.ledger("a"), "ab") as file:
        file.write(b"nonsense\n")
    want_left(home, "a damaged ledger", "is damaged in line")
    home.begin("--jobs", "1")
    home.write("mail/a", OLD)
    home.place.run(["migrate", "--json", "--now", "--prepare", "--unread", "M", "mail"])
    want_left(home, "what is only prepared", "mail is only prepared in a: finish or remove that first")
    box = begun(home, NEW)
    with open(home.ledger("a"), "ab") as file:
        file.write(b"<\t%s\n" % bytes(box))
    want_left(home, "an undo that was interrupted", f"the undo of {box} was interrupted: run it again first")
    begun(home, NEW)
    ended, names = threading.Event(), itertools.cycle(["0.M1.host:2,", "0.M1.host:2,S", "0.M1.host:2,F"])

    def flag() -> None:
        path = home.folder("a") / "new/0.M1.host"
        while not ended.wait(0.001):
            path = path.rename(home.folder("a") / "cur" / next(names))

    reader = threading.Thread(target=flag)
    reader.start()
    try:
        want_left(home, "flags that change all the time", "names in it keep changing", status=75)
    finally:
        ended.set()
        reader.join()
    box = begun(home, NEW)
    box.write_bytes(OLD + letters(2))
    fake(home.path.parent, "exit 1")
    home.place.run(["migrate", "--json", "--now", "--jobs", "1", "M", "mail"])
    want_left(home, "a migration that was interrupted", "was interrupted: run it again first")
    shutil.rmtree(home.maildir)
    want_left(home, "no Maildir", "it has no record")


def where_it_goes(home: Home) -> None:
    """Mail of a folder whose mailbox is gone, or that has none and none can be made, stays in the Maildir. A mailbox
    that was moved, and is named by itself, gets the mail of its folder, also if a run has seen it empty."""
    for text, count in (OLD, 1), (b"", 2):
        box = begun(home, NEW)
        box.write_bytes(text)
        home.place.run(["migrate", "--json", "--now", "M", "mail"])
        box.rename(home.path / "moved")
        row = home.place.run([*BACK, "moved"]).rows[0]
        equal(f"{text!r} was moved", (row["folder"], row["messages"]), ("a", count))
    box = begun(home, NEW)
    box.unlink()
    want_left(home, "a mailbox that is gone", "missing")
    for what, reason, names in (
        ("no folder of mailboxes", "has no mailbox: name a folder for new mailboxes too", ["mail/a"]),
        ("no inbox", "INBOX has no mailbox: name the one of the inbox too", ["mail"]),
        ("no name", "no name is free for a new mailbox", ["mail", "spool"]),
    ):
        begun(home)
        folder = {"no folder of mailboxes": ".new", "no inbox": "", "no name": ".a.below"}[what]
        make_maildir(home.maildir / folder)
        (home.maildir / folder / "new/0.M1.host").write_bytes(NEW)
        home.place.own(*home.maildir.rglob("*"))
        for number in range(1, 101) if what == "no name" else ():
            home.write(f"mail/a-below{f'-{number}' * (number > 1)}", OLD)
        want_left(home, what, reason, *names)


# notes which folder of the home each sync is of, and is killed at the first one of `mail`
SYNCED = """
import os, signal
sync = os.fsync
def syncs(number):
    path = os.path.relpath(os.readlink('/proc/self/fd/%d' % number), os.path.realpath('.'))
    with open('synced', 'a') as file:
        file.write(path + '\\n')
    if path == 'mail' and IS_KILLED:
        os.kill(os.getpid(), signal.SIGKILL)
    sync(number)
os.fsync = syncs
"""


def synced_in(home: Home) -> list[str]:
    """What was synced, in this order."""
    return (home.path / "synced").read_text(encoding="utf-8").splitlines()


def a_power_cut(home: Home) -> None:
    """The name of a new mailbox is on the disk before its mail, also if a run that was killed has made it; and mail
    that is there already, before the ledger says that it is back. All that a killed run has appended is on the disk
    before what that run has noted beside it goes."""
    begun(home)
    make_maildir(home.folder("b"))
    (home.folder("b") / "new/1.M1.host").write_bytes(NEW)
    home.place.own(*home.maildir.rglob("*"))
    killed = ran_first(home, f"IS_KILLED = True{SYNCED}")
    equal("it is killed", (killed.status, (home.path / "mail/b").read_bytes()), (-signal.SIGKILL, b""))
    (home.path / "synced").unlink()
    equal("the next run", ran_first(home, f"IS_KILLED = False{SYNCED}").status, 0)
    synced = synced_in(home)
    equal(f"the order of syncs: {synced}", synced.index("mail") < synced.index("mail/b"), True)
    box = begun(home, NEW)
    box.write_bytes(OLD + b"From a@b Mon Mar  3 09:12:44 2025\nSubject: new\nStatus: O\n\nnew\n\n")
    ran = ran_first(home, f"IS_KILLED = False{SYNCED}")
    synced = synced_in(home)
    equal(f"the order of syncs: {synced}", synced.index("mail/a") < synced.index("M/.a/mbox2maildir-messages"), True)
    equal("what is there already", [one["remark"] for one in ran.rows[0]["remarks"]], ["there-already"])
    equal("a message of it", box.read_bytes().count(b"\nSubject: new\n"), 1)
    next(path for path in home.files("a") if b"\nhello 1\n" in path.read_bytes()).unlink()
    (remark,) = home.place.run([*BACK, "mail"]).rows[0]["remarks"]
    equal("it is known what the mailbox has", remark["says"].endswith("is still there"), True)
    begun(home, NEW)
    equal("it is killed with all of it there", ran_first(home, KILLED).status, -signal.SIGKILL)
    equal("the run after that", ran_first(home, f"IS_KILLED = False{SYNCED}").status, 0)
    synced = synced_in(home)
    equal(f"the order of syncs: {synced}", synced.index("mail/a") < synced.index("M/.a"), True)


def standing(home: Home) -> None:
    """A row says which messages of its mailbox were deleted or changed in the Maildir, and the sums say how many. If
    the mailbox has changed since, they may not be there any more. A further mailbox of the folder has a row for it."""
    home.begin("--jobs", "1", "--folder", "a")
    for name, numbers in (("x", (1, 2, 3)), ("y", (4,))):
        home.write(name, letters(*numbers))
    home.done("x", "y")
    home.take(1, 4, name="a")
    (edited,) = home.those(2, name="a")
    edited.write_bytes(b"X-Scan: yes\n" + edited.read_bytes())
    ran = home.place.run([*BACK, "x", "y"])
    says = {row["path"]: [one["says"] for one in row["remarks"]] for row in ran.rows}
    deleted = "1 message that was deleted in the Maildir is still there"
    changed = "1 message that was changed in the Maildir is there as before"
    equal("what is said", says, {"x": [deleted, changed], "y": [deleted]})
    equal("the sums", ran.sums["still_there"], {"deleted": 2, "changed": 1})
    # of what only the other mailbox has, nothing is said of one that is named alone
    equal("y alone", home.place.run([*BACK, "y"]).sums["still_there"], {"deleted": 1, "changed": 0})
    make_maildir(home.folder("b"))
    home.place.own(home.folder("b"), *home.folder("b").iterdir())
    (moved,) = home.those(3, name="a")
    moved.rename(home.folder("b") / "new" / moved.name)
    remarks = [one["says"] for row in home.place.run([*BACK, "x", "y"]).rows for one in row["remarks"]]
    wanted = "1 message that people moved here stays in the mailbox of a"
    equal(f"what was moved: {remarks}", remarks.count(wanted), 1)
    home.write("x", letters(1, 2))
    ran = home.place.run([*BACK, "x", "y"])
    (row,) = (row for row in ran.rows if row["path"] == "x")
    ends = [one["says"].endswith("unless somebody has removed it from the mailbox") for one in row["remarks"]]
    equal(
        f"a mailbox that has changed: {row}",
        (ends, ran.sums["still_there"]),
        ([True] * 2, {"deleted": 1, "changed": 0}),
    )


def deleted_folders(home: Home) -> None:
    """People deleted a folder, and made one anew. The rows of their mailboxes say what these still have; one whose
    folder has only lost its ledger says nothing, nor does one that was not migrated. `migrate` brings none of it."""
    home.begin("--jobs", "1")
    for name, numbers in (("a", (1, 2)), ("b", (3, 4, 5)), ("c", (6,)), ("d", (7,))):
        home.write(f"mail/{name}", letters(*numbers))
    home.done("mail")
    home.write("mail/e", letters(8))
    shutil.rmtree(home.folder("a"))
    shutil.rmtree(home.folder("b"))
    make_maildir(home.folder("b"))
    home.place.own(home.folder("b"), *home.folder("b").iterdir())
    home.place_file("17000.M1.host:2,", NEW, "b")
    home.ledger("c").unlink()
    for words in [*BACK, "--dry-run"], BACK:
        ran = home.place.run([*words, "mail"])
        says = {row["path"]: [one["says"] for one in row["remarks"]] for row in ran.rows}
        deleted = [f"{count} messages that were deleted in the Maildir are still there" for count in (2, 3)]
        wanted = {"mail/a": deleted[:1], "mail/b": deleted[1:], "mail/c": ["1 message there already"], "mail/d": []}
        equal(f"{words}: what is said", says, wanted)
        equal(f"{words}: the sums", ran.sums["still_there"], {"deleted": 5, "changed": 0})
    reasons = {path: row["reason"] for path, row in home.run("mail").rows.items() if row["reason"]}
    equal("what is left", reasons, {"mail/b": "ledger"})
    equal("no deleted mail has come back", len([*home.folder("b").glob("*/*")]), 1)


RULES = (
    *(meanwhile, left, left_elsewhere, locks, nothing_shows_what_is_new, where_it_goes, a_power_cut),
    *(standing, deleted_folders),
)


if __name__ == "__main__":
    run_rules({rule.__name__: rule for rule in RULES})
