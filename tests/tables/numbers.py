"""mbox2maildir-admin back --dovecot: what a mailbox says of UIDs and keywords then, by the lists that Dovecot wrote
beside its folder, and the list of subscriptions. The texts were worked out by hand, by what Dovecot 2.3 was seen to do
with them."""
import itertools
import os
import pwd
import re
import time
from collections.abc import Sequence
from typing import NamedTuple

from tests.support.archives import Home, run_rules
from tests.support.checks import equal
from tests.support.homes import doing_first, make_maildir
from tests.support.mail import INTERNAL
from tests.support.running import BY_OTHERS, OWNER, Row, Run

FROM = b"From a@b Mon Mar  3 09:12:44 2025\n"
SECOND = FROM + b"Subject: b\nX-UID: 3   \n\nb\n\n"


def first(head: bytes, more: bytes = b"X-UID: 1          \nX-Keywords: Garden\n") -> bytes:
    """A first message that says this, and more."""
    return FROM + b"Subject: a\n" + head + b"\n" + more + b"\na\n\n"


BASE, UID = b"X-IMAPbase: 1700000000 0000000003 Garden", b"X-UID: 1          \n"
KEPT, NARROW = first(BASE) + SECOND, first(BASE, b"X-UID: 1\n") + SECOND
# what it becomes: its last UID is raised, and some blanks have gone for a keyword
RAISED = KEPT.replace(b"0000000003", b"0000000008")
WITH_OTHER = first(BASE.replace(b"3 Garden", b"8 Garden Other"), UID.replace(b" " * 10, b" " * 4)) + SECOND
WITH_OTHER = WITH_OTHER.replace(b"X-UID: 1    \n", b"X-UID: 1    \nX-Keywords: Garden\n")
BARE = FROM + b"Subject: a\n\na\n\n"
# the line of a mailbox whose UIDs go up to a number, and that of another program
UP_TO_9, UP_TO_12, OF_ANOTHER = b"X-IMAPbase: 1700000000 9", b"X-IMAPbase: 1700000000 12", b"X-IMAP: 1700000000 %010d"
SHORT_9 = b"X-IMAPbase: 999 9"
EMPTY = INTERNAL.replace(b"1795694136 0000000002", b"1700000000 0000000003")
# stands for a UIDVALIDITY that is the time of the run
NOW = b"1800000000"
DOVECOT = ["--dovecot"]


class Case(NamedTuple):
    """A mailbox, the list of its folder, the keywords there, and the files that are new; the mailbox before what was
    appended, the fields of each message that was, and the words of the remarks; the commands that are next, and how it
    was migrated."""

    text: bytes
    listed: bytes
    keywords: bytes
    files: Sequence[str]
    then: bytes
    fields: Sequence[bytes]
    words: Sequence[str] = ()
    commands: Sequence[str] = ()
    options: Sequence[str] = DOVECOT


def listed(following: int, files: bytes = b"", validity: int = 1700000000) -> bytes:
    """A list of a folder."""
    return b"3 V%d N%d Gabc\n" % (validity, following) + files


USER = f"-u {pwd.getpwuid(os.geteuid()).pw_name if os.geteuid() else OWNER}"
FLAGS = f"doveadm flags add {USER} "
# the system has no name for a user, as within a container
NO_NAME = "import pwd; pwd.getpwuid = lambda number: {}[number]"
CASES = {
    "UIDs and keywords of the folder, which goes on with those of its mailbox": Case(
        KEPT,
        listed(9, b"7 :1.a:2,\n4 W2600 :1.b\n2 :1.old\n"),
        b"0 garden\n1 Other\n26 late\n2 a(b\n",
        ["1.new:2,", "1.a:2,Sb", "1.b:2,ac", "1.old:2,"],
        WITH_OTHER,
        [b"", b"X-UID: 4\nX-Keywords: garden\n", b"X-UID: 7\nX-Keywords: Other\n", b""],
        ["uids-raised"],
    ),
    "no mail, but UIDs were given": Case(KEPT, listed(9), b"", [], RAISED, [], ["uids-raised"]),
    "lines that came later raise the next UID": Case(
        KEPT, listed(1, b"8 :1.a\n"), b"", ["1.a:2,"], RAISED, [b"X-UID: 8\n"], ["uids-raised"]
    ),
    "the mailbox has given more UIDs": Case(KEPT, listed(3, b"2 :1.a\n"), b"", ["1.a:2,"], KEPT, [b""]),
    "an empty mailbox": Case(
        b"",
        listed(9, b"7 :1.a\n"),
        b"0 Garden\n",
        ["1.b:2,", "1.a:2,a"],
        b"",
        [b"X-IMAPbase: 1700000000 0000000008 Garden\nX-UID: 7\nX-Keywords: Garden\n", b""],
    ),
    "an empty mailbox, and no list": Case(b"", b"", b"0 Garden\n", ["1.b:2,a"], b"", [b""]),
    "UIDs that the folder never gave": Case(
        KEPT,
        listed(9, b"7 :1.a\n", 1700000009),
        b"0 Garden\n",
        ["1.a:2,a"],
        KEPT,
        [b"X-Keywords: Garden\n"],
        options=[],
    ),
    **{
        f"UIDVALIDITY is new: {why}": Case(
            KEPT,
            its,
            b"",
            ["1.a:2,"],
            KEPT.replace(b"1700000000", new),
            [b""],
            ["uids-anew"],
            options=DOVECOT * is_numbered,
        )
        for why, its, new, is_numbered in (
            ("the folder never got the numbers", listed(9, b"7 :1.a\n"), NOW, False),
            ("the folder has a higher one", listed(9, b"7 :1.a\n", 1900000000), b"1900000001", True),
            ("the folder has the highest", listed(9, b"7 :1.a\n", 4294967295), NOW, True),
            ("no list", b"", NOW, True),
            ("a list of an old form", b"1 1700000000 9\n4 1.a\n", NOW, True),
            ("a list without one", b"3 N1\n", NOW, True),
            ("a list with none", b"3 V0 N1\n", NOW, True),
            ("a list of too many", b"3 V1 N4294967296\n", NOW, True),
        )
    },
    "no room for one of two keywords": Case(
        KEPT,
        listed(4),
        b"0 a-long-name\n1 Other\n2 %s\n" % (b"x" * 51),
        ["1.a:2,abc"],
        KEPT.replace(b"Garden\nX-UID: 1          \n", b"Garden Other\nX-UID: 1    \n"),
        [b"X-Keywords: Other\n"],
        ["keywords-added"],
        [f"{FLAGS}a-long-name mailbox a uid 4"],
    ),
    "no room for a keyword that looks like an option, of two messages, and one of another": Case(
        NARROW,
        listed(9, b"5 :1.a\n6 :1.b\n8 :1.c\n"),
        b"0 later\n1 -x\n",
        ["1.a:2,a", "1.b:2,a", "1.c:2,ab"],
        NARROW.replace(b"0000000003", b"0000000008"),
        [b"X-UID: 5\n", b"X-UID: 6\n", b"X-UID: 8\n"],
        ["uids-raised", "keywords-added"],
        [f"{FLAGS}-- -x mailbox a uid 8", f"{FLAGS}later mailbox a uid 5:6,8"],
    ),
    "no room for two keywords of a message": Case(
        NARROW,
        listed(9, b"8 :1.a\n"),
        b"0 later\n1 -x\n",
        ["1.a:2,ab"],
        NARROW.replace(b"0000000003", b"0000000008"),
        [b"X-UID: 8\n"],
        ["uids-raised", "keywords-added"],
        [f"{FLAGS}-- -x later mailbox a uid 8"],
    ),
    "a keyword of the first of two equal messages": Case(
        NARROW,
        listed(9, b"5 :1.a\n8 :2.a\n"),
        b"0 later\n",
        ["1.a:2,a", "2.a:2,"],
        NARROW.replace(b"0000000003", b"0000000008"),
        [b"X-UID: 5\n", b"X-UID: 8\n"],
        ["uids-raised", "keywords-added"],
        [f"{FLAGS}later mailbox a uid 5"],
    ),
    "as many keywords as there are letters": Case(
        KEPT,
        listed(4),
        b"".join(b"%d k%d\n" % (number, number) for number in range(26)),
        ["1.a:2,z"],
        KEPT.replace(b"Garden\nX-UID: 1          \n", b"Garden k25\nX-UID: 1      \n"),
        [b"X-Keywords: k25\n"],
        ["keywords-lost"],
    ),
    "a mailbox that has no UIDs": Case(
        BARE, listed(4), b"0 Garden\n", ["1.a:2,a"], BARE, [b""], ["keywords-added"], [f"{FLAGS}Garden mailbox a uid 2"]
    ),
    "no room for the next UID": Case(
        first(UP_TO_9, b"X-UID: 9\n"),
        listed(12, b"11 :1.a\n"),
        b"0 later\n",
        ["1.a:2,a"],
        first(UP_TO_9, b"X-UID: 9\n").replace(b"1700000000", NOW),
        [b""],
        ["uids-anew", "keywords-added"],
        [f"{FLAGS}later mailbox a uid 10"],
    ),
    "no room for the next UID, nor for the time": Case(
        first(SHORT_9, b"X-UID: 9\n"),
        listed(12, b"11 :1.a\n", 999),
        b"",
        ["1.a:2,"],
        first(SHORT_9.replace(b"999", b"998"), b"X-UID: 9\n"),
        [b""],
        ["uids-anew"],
    ),
    **{
        f"the next UID is raised: {where}": Case(before, listed(13), b"", [], then, [], ["uids-raised"])
        for where, before, then in (
            ("room at the end of another line", first(UP_TO_9, b"X-UID: 9 \n"), first(UP_TO_12, b"X-UID: 9\n")),
            ("room in the line itself", first(UP_TO_9 + b"  ", b"A: b\n"), first(UP_TO_12 + b" ", b"A: b\n")),
            ("the line of another program", first(OF_ANOTHER % 3, b""), first(OF_ANOTHER % 12, b"")),
        )
    },
    "no room in a line that is the sender's": Case(
        first(UP_TO_9, b"A: b  \n"),
        listed(13),
        b"",
        [],
        first(UP_TO_9, b"A: b  \n").replace(b"1700000000", NOW),
        [],
        ["uids-anew"],
    ),
    "a mailbox that Dovecot keeps empty by a message of its own": Case(
        EMPTY,
        listed(13),
        b"0 Garden\n",
        ["1.a:2,a"],
        EMPTY.replace(b"0000000003", b"0000000012 Garden"),
        [b"X-Keywords: Garden\n"],
        ["uids-raised"],
    ),
    "mail follows such a message, and nothing may move": Case(
        EMPTY + SECOND,
        listed(9, b"7 :1.a\n"),
        b"0 Garden\n",
        ["1.a:2,a"],
        EMPTY.replace(b"0000000003", b"0000000008") + SECOND,
        [b"X-UID: 7\n"],
        ["uids-raised", "keywords-added"],
        [f"{FLAGS}Garden mailbox a uid 7"],
    ),
}


def numbered(home: Home, case: Case) -> Run:
    """Migrates a mailbox, has Dovecot and mail come, and goes back: a rehearsal says the same, and writes nothing."""
    home.begin("--jobs", "1", *case.options)
    home.write("mail/a", case.text)
    home.done("mail")
    folder = home.folder("a")
    make_maildir(folder)
    for number, name in enumerate(case.files):
        path = folder / "cur" / name
        path.write_bytes(b"Subject: new\n\n%s\n" % re.split("[.:]", name)[1].encode())
        os.utime(path, (number + 1,) * 2)
    for name, text in (("dovecot-uidlist", case.listed), ("dovecot-keywords", case.keywords)):
        (folder / name).unlink(missing_ok=True)
        if text:
            (folder / name).write_bytes(text)
    home.place.own(home.maildir, *home.maildir.rglob("*"))
    words = ["back", "--json", "--now", *DOVECOT, "M", "mail"]
    dry = home.place.run([*words, "--dry-run"])
    equal("what a rehearsal writes", (home.path / "mail/a").read_bytes(), case.text)
    ran = home.place.run(words)
    equal("what a rehearsal says", words_of(dry.rows[0]), words_of(ran.rows[0]))
    return ran


def words_of(row: Row) -> list[str]:
    """The words of the remarks of a row."""
    return [one["remark"] for one in row["remarks"] if one["remark"] != "fields-left-out"]


def numbers(home: Home) -> None:
    """What each mailbox is then."""
    for what, case in CASES.items():
        ran = numbered(home, case)
        text, (row, *_) = (home.path / "mail/a").read_bytes(), ran.rows
        moment = re.search(rb"X-IMAPbase: (\d+)", text)
        if NOW in case.then and moment and abs(int(moment[1]) - time.time()) < 3600:
            text = text.replace(moment[1], NOW)
        equal(f"{what}: the status, and the mailbox before it", (ran.status, text[: len(case.then)]), (0, case.then))
        heads = [one.split(b"\n\n")[0] + b"\n" for one in re.split(rb"(?m)^From ", text[len(case.then) :])[1:]]
        fields = [b"".join(re.findall(rb"(?m)^X-.*\n", head)) for head in heads]
        equal(f"{what}: the fields of what went back", fields, [*case.fields])
        equal(f"{what}: the remarks", words_of(row), [*case.words])
        commands = [" ".join(one["argv"]) for one in row["next"]]
        equal(f"{what}: the commands", commands, [*case.commands])


# what came into a mailbox whose UIDs went up to 3, the list of its folder then, and what is said if the new mail there
# goes back, and if it is gone
NEW, TAIL = b"Subject: new\n%s\na\n\n", b"Subject: tail\n%s\ntail\n\n"
ANEW, RAISE = ["uids-anew"], ["uids-raised"]
GREW = {
    "the UID of the new mail": (TAIL % b"X-UID: 4\n", listed(5, b"4 :1.a\n"), ANEW, ANEW),
    "a UID below it": (TAIL % b"X-UID: 4\n", listed(6, b"5 :1.a\n"), ANEW, ANEW),
    "none of the folder": (TAIL % b"X-UID: 5\n", listed(5, b"4 :1.a\n"), [], []),
    "none yet": (TAIL % b"", listed(5, b"4 :1.a\n"), RAISE, RAISE),
    "it is the new mail": (NEW % b"X-UID: 4\n", listed(5, b"4 :1.a\n"), ["there-already"], ANEW),
    "it is that by another UID": (NEW % b"X-UID: 4\n", listed(6, b"5 :1.a\n"), ["there-already", *ANEW], ANEW),
}


def uids_of_two_servers(home: Home) -> None:
    """A server has given UIDs to what came into the mailbox, and another one to what came into the Maildir: no UID
    means two messages."""
    for (what, (text, its, *says)), is_gone in itertools.product(GREW.items(), (0, 1)):
        home.begin("--jobs", "1", *DOVECOT)
        home.write("mail/a", KEPT)
        home.done("mail")
        last = re.search(rb"X-UID: (\d)\n", text)
        home.write("mail/a", KEPT.replace(b"0000000003", b"%010d" % int(last[1] if last else 3)) + FROM + text)
        if not is_gone:
            home.place_file("1.a:2,", NEW[:-1] % b"", "a")
        home.place_file("../dovecot-uidlist", its, "a")
        row = home.place.run(["back", "--json", "--now", *DOVECOT, "M", "mail"]).rows[0]
        equal(f"{what}, {is_gone}: the remarks", words_of(row), says[is_gone])
        uids = re.findall(rb"X-UID: (\d)\n", (home.path / "mail/a").read_bytes())
        equal(f"{what}, {is_gone}: no UID twice", sorted(set(uids)), sorted(uids))


def a_uid_of_two_servers_once_migrated(home: Home) -> None:
    """The same if that came to the Maildir too, under another UID, before the way back. If the Maildir had given no UID
    before, all UIDs stay."""
    for files, says in ((b"4 :1.a\n", ANEW), (b"", RAISE)):
        home.begin("--jobs", "1", *DOVECOT)
        home.write("mail/a", KEPT)
        home.done("mail")
        home.place_file("1.a:2,", NEW[:-1] % b"", "a")
        home.write("mail/a", KEPT.replace(b"0000000003", b"0000000004") + FROM + TAIL % b"X-UID: 4\n")
        home.done("mail")
        tail = next(path.name for path in home.files("a") if b"tail" in path.read_bytes())
        home.place_file("../dovecot-uidlist", listed(6, files + b"5 :%s\n" % tail.partition(":")[0].encode()), "a")
        row = home.place.run(["back", "--json", "--now", *DOVECOT, "M", "mail"]).rows[0]
        equal(f"{says}: the remarks", words_of(row), says)


def keywords_until_they_are_there(home: Home) -> None:
    """Each run prints the commands, by the name that the mailbox has for Dovecot, until the mailbox names a keyword."""
    home.begin("--jobs", "1", *DOVECOT)
    box = home.path / "mail" / "Gr\u00fc\u00dfe"
    home.write("mail/Gr\u00fc\u00dfe", NARROW)
    home.done("mail")
    folder = home.folder("Gr&APwA3w-e")
    (folder / "cur/1.a:2,a").write_bytes(b"Subject: new\n\nnew\n")
    (folder / "dovecot-uidlist").write_bytes(listed(6, b"5 :1.a\n"))
    (folder / "dovecot-keywords").write_bytes(b"0 later\n")
    home.place.own(*folder.rglob("*"))
    words = ["back", "--json", "--now", *DOVECOT, "M", "mail"]
    without = [one for one in words if one not in DOVECOT]
    says = home.place.run([*without, "--dry-run"]).rows[0]["remarks"][0]["says"]
    equal("without --dovecot", says, "without --dovecot, Dovecot may give a UID twice")
    for name in ("mail", "mail/Gr\u00fc\u00dfe"):
        commands = [one["argv"] for one in home.place.run([*words[:-1], name]).rows[0]["next"]]
        equal(name, commands, [[*FLAGS.split(), "later", "mailbox", "Gr\u00fc\u00dfe", "uid", "5"]])
    command = [str(doing_first(NO_NAME, home.path.parent / "bin")), *words]
    (step,) = home.place.run(command, BY_OTHERS).rows[0]["next"]
    equal("by a user without a name", step["argv"][:4], ["doveadm", "flags", "add", "later"])
    box.write_bytes(box.read_bytes().replace(b" Garden\n", b" Garden later\n", 1))
    equal("once it is named", home.place.run(words).rows[0]["next"], [])


def keywords_of_another_folder(home: Home) -> None:
    """Mail that went back, and was moved to another folder then, has no keyword of that in its mailbox."""
    home.begin("--jobs", "1", *DOVECOT)
    for name in ("a", "b"):
        home.write(f"mail/{name}", NARROW)
    home.done("mail")
    path = home.place_file("1.a:2,", b"Subject: new\n\nnew\n", "a")
    # nor does what came from the mailbox get one that people gave it since
    old = home.files("a")[-1]
    old.rename(home.folder("a") / "cur" / f"{old.name.partition(':')[0]}:2,b")
    home.place_file("../dovecot-keywords", b"1 other\n", "a")
    for folder in ("a", "b"):
        home.place_file("../dovecot-uidlist", listed(9), folder)
    words = ["back", "--json", "--now", *DOVECOT, "M", "mail"]
    equal("it goes back", home.place.run(words).of("mail/a")["messages"], 1)
    path.rename(home.folder("b") / "cur/1.a:2,a")
    home.place_file("../dovecot-keywords", b"0 later\n", "b")
    dry = home.place.run([*words, "--dry-run"]).rows
    equal("a rehearsal", [one for row in dry for one in words_of(row) if one == "keywords-added"], [])
    rows = home.place.run(words).rows
    equal("what is next", [(row["path"], row["next"]) for row in rows], [("mail/a", []), ("mail/b", [])])


# the list of the tree, and that of the Maildir then: what the first one is after the way back, and how many it has
LISTS = [
    (
        b"V\t2\n\na\nelsewhere\n",
        b"V\t2\n\nINBOX\nmoved\nlists\tsheds\nnone\n",
        b"V\t2\n\nelsewhere\nINBOX\nlists\tb\nlists\tsheds\n",
    ),
    (b"a\nlists/b\n", b"a\nlists.sheds\nmoved\n", b"a\nlists/b\nlists/sheds\n"),
    # nothing is new
    (b"a\n", b"a\n", b"a\n"),
]


def subscriptions(home: Home) -> None:
    """Folders have the names of their mailboxes, in the form of the list that is there. Its mode stays, and what a
    killed run left of a new one goes."""
    for old, new, wanted in LISTS:
        home.begin("--jobs", "1", *DOVECOT)
        for name, text in ((".subscriptions", old), ("a", KEPT), ("lists/b", KEPT)):
            home.write(f"mail/{name}", text)
        home.place.own(*(home.path / "mail").rglob("*"))
        home.done("mail")
        home.folder("lists.b").rename(home.folder("moved"))
        make_maildir(home.folder("lists.sheds"))
        (home.folder("lists.sheds") / "new/1").write_bytes(b"Subject: new\n\nnew\n")
        (home.maildir / "subscriptions").write_bytes(new)
        path = home.path / "mail/.subscriptions"
        path.chmod(0o640)
        part = home.path / "mail/.subscriptions.mbox2maildir-back"
        part.write_bytes(b"x")
        home.place.own(home.maildir, *home.maildir.rglob("*"), *(home.path / "mail").rglob("*"))
        ran = home.place.run(["back", "--json", "--now", *DOVECOT, "M", "mail"])
        equal(f"{old!r}: status and list", (ran.status, path.read_bytes()), (0, wanted))
        equal("its mode, and what was left", (path.stat().st_mode & 0o777, part.exists()), (0o640, wanted == old))


def no_list_that_can_be_written(home: Home) -> None:
    """Its row says so, and all else goes back. A list that `migrate` has not taken says nothing of who went."""
    home.begin("--jobs", "1", *DOVECOT)
    home.write("mail/a", KEPT)
    home.done("mail")
    (home.maildir / "subscriptions").write_bytes(b"INBOX\n")
    path = home.path / "mail/.subscriptions"
    path.mkdir()
    words = ["back", "--json", "--now", *DOVECOT, "M", "mail"]
    found = [(row["path"], row["verdict"], row["reason"]) for row in home.place.run(words).rows]
    equal("a folder", found[-1], ("mail/.subscriptions", "left", "subscriptions"))
    path.rmdir()
    home.write("mail/.subscriptions", b"a\n")
    equal("the status", home.place.run(words).status, 0)
    equal("the list", path.read_bytes(), b"a\nINBOX\n")


if __name__ == "__main__":
    cases = (
        numbers,
        uids_of_two_servers,
        a_uid_of_two_servers_once_migrated,
        keywords_until_they_are_there,
        keywords_of_another_folder,
        subscriptions,
        no_list_that_can_be_written,
    )
    run_rules({case.__name__: case for case in cases})
