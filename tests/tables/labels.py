"""mbox2maildir-admin migrate --labels: the folders of a Takeout's labels, what a human is asked, what comes of a later
Takeout, and verify, --again and --undo, which know the folders from the record. The Takeouts are written by the form
that Google gives its own."""
import contextlib
import fcntl
import os
import re
import shlex
import shutil
from collections.abc import Sequence
from pathlib import Path

from tests.support.cases import LeftOut
from tests.support.checks import equal, matches
from tests.support.homes import by_json, check_all, checks_in, expect, hand_over, latin_locale, mailbox, make_maildir
from tests.support.homes import run, run_printed, subjects, want_users
from tests.support.ledgers import RECORD
from tests.support.mail import ONE
from tests.support.mounts import small_disk
from tests.support.printed import groups_in, row_in
from tests.support.running import OWNER, Desk
from tests.support.terminals import Terminal

LABELS = ["migrate", "--all", "--labels", "M", "t.mbox"]
KIND = "Gmail's Takeout"
# what is said of messages, if no label shows what was read
UNREAD = (
    "{} message... came unread, since no known label says that mail was read (with --labels, --label NAME=read ...)"
)
GIVES = "none", "folder", "read"
UNDO = "    run this next:\n        mbox2maildir-admin migrate --undo M t.mbox\n1 mailbox: 1 left\n"
RESERVED = (
    ("one", "Inbox,Opened"),
    ("two", "Sent,Work/A"),
    ("three", "Spam"),
    ("four", "Starred,Trash"),
    ("five", "Archived,Important,Category Updates"),
    ("six", "=?UTF-8?Q?Drafts,Gr=C3=BC=C3=9Fe,?=\r\n =?UTF-8?Q?Work/A?="),
    ("seven", '"bills, old",Unread'),
    ("eight", "a.b"),
    ("nine", "Inbox,a-b"),
)
FOLDERS = {
    "": ["nine", "one"],
    ".Archive": ["five"],
    ".Drafts": ["six"],
    ".Gr&APwA3w-e": ["six"],
    ".Junk": ["three"],
    ".Sent": ["two"],
    ".Trash": ["four"],
    ".Work.A": ["six", "two"],
    ".a-b": ["eight", "nine"],
    ".bills, old": ["seven"],
}
# fields of a Takeout, as nobody else writes them, and the folders that they give
FORMS = (
    (" , ", [".Archive"]),
    ("A,A,B", [".A", ".B"]),
    ('"bills, old","say ""x"""', [".bills, old", '.say "x"']),
    ("Gr\u00fc\u00dfe,A", [".A", ".Gr&APwA3w-e"]),
    ("=?UTF-8?Q?Gr=C3=BC=C3=9Fe,=22a,_b=22?=", [".Gr&APwA3w-e", ".a, b"]),
    ("=?utf-8?B?R3LDvMOfZSxJbmJveA==?=", ["", ".Gr&APwA3w-e"]),
    # a letter in two words
    ("=?UTF-8?Q?Gr=C3?=\n =?UTF-8?Q?=BC=C3=9Fe,I?=\r\n\t=?UTF-8?Q?nbox?=", ["", ".Gr&APwA3w-e"]),
    ("Inbox,\r\n B\r\nX-Gmail-Labels: C", ["", ".B"]),
    ("Inbox,inbox", [""]),
    ("Junk,Spam,Work.a,Work-a", [".Junk", ".Work-a"]),
)
# Gmail's folders in INBOX, Sent, Drafts, Junk, Trash, as it has them over IMAP in some languages
LANGUAGES = (
    "Posteingang,Gesendet,Entw\u00fcrfe,Spam,Papierkorb",
    "Bo\u00eete de r\u00e9ception,Messages envoy\u00e9s,Brouillons,Spam,Corbeille",
    "Recibidos,Enviados,Borradores,Spam,Papelera",
    "Posta in arrivo,Posta inviata,Bozze,Spam,Cestino",
    "Postvak IN,Verzonden,Concepten,Spam,Prullenbak",
    "Caixa de entrada,Enviados,Rascunhos,Spam,Lixeira",
)
GMAILS = ["", ".Sent", ".Drafts", ".Junk", ".Trash"]
# the labels of a Takeout, those of messages that come later, and the folders then
GROWN = (
    (
        ["Posteingang", "Wichtig", "Garten"],
        ["Inbox", "Gesendet"],
        {"": ["Inbox", "Posteingang"], ".Archive": ["Wichtig"], ".Garten": ["Garten"], ".Sent": ["Gesendet"]},
    ),
    (
        ["Concepten", "Spam"],
        ["Posteingang", "Inbox", "Papierkorb"],
        {"": ["Inbox", "Posteingang"], ".Drafts": ["Concepten"], ".Junk": ["Spam"], ".Trash": ["Papierkorb"]},
    ),
)
# what was said about labels, what messages have, and the flags that they get
SAID = (
    ("", ["Inbox,Opened,Unread", "Inbox,Opened", "Inbox,Starred"], ["", "S", "F"]),
    ("a=read b=unread c=starred Opened=none", ["a,b", "b,c", "c,a", "Opened"], ["", "F", "FS", ""]),
    ("Opened=folder x=none", ["Opened", "x"], ["", ""]),
)


def message(subject: str, labels: str, more: str = "", body: str = "hello\n") -> str:
    """A message of a Takeout. Its sender wrote labels too."""
    number = 1_800_000_000_000_000_000 + sum(map(ord, subject))
    return (
        f"From {number}@xxx Mon Mar 03 09:12:44 +0000 2025\nX-GM-THRID: {number}\nX-Gmail-Labels: {labels}\n"
        f"From: a@example.com\nSubject: {subject}\nX-Gmail-Labels: Trash,Evil\n{more}\n{body}\n"
    )


def takeout(home: Path, messages: Sequence[tuple[str, str]] = RESERVED, name: str = "t.mbox") -> None:
    """A Takeout of messages, each by its subject and its labels."""
    mailbox(home / name, "".join(message(*one) for one in messages).encode())


def flags_in(maildir: Path) -> dict[str, str]:
    """The flags of each message that has some, by its subject."""
    found = {path: path.name.partition(":2,")[2] for path in maildir.rglob("cur/*")}
    return {re.findall("(?m)^Subject: (.*)", path.read_text())[0]: flags for path, flags in found.items() if flags}


def folders_in(maildir: Path) -> dict[str, list[str]]:
    """The subjects in each folder that has mail."""
    places = [path for path in [maildir, *sorted(maildir.glob(".*"))] if (path / "cur").is_dir()]
    found = {"" if path == maildir else path.name: subjects(path) for path in places}
    return {name: its for name, its in found.items() if its}


def each_label_is_a_folder(home: Path) -> None:
    """Gmail's folders, those of people, and Archive for what has no other. A mark makes a flag or nothing. The record
    names all folders before the first message, and each folder is done by itself."""
    takeout(home)
    rows = (
        f"t.mbox -> INBOX: {KIND}, messages 2: would be done, 1 message with flags of Gmail\n"
        f"t.mbox -> Archive: {KIND}, messages 1: would be done\n"
        f"t.mbox -> Drafts: {KIND}, messages 1: would be done\n"
        f"t.mbox -> Grüße: {KIND}, messages 1: would be done\n"
        f"t.mbox -> Junk: {KIND}, messages 1: would be done\n"
        f"t.mbox -> Sent: {KIND}, messages 1: would be done\n"
        f"t.mbox -> Trash: {KIND}, messages 1: would be done, 1 message with flags of Gmail\n"
        f"t.mbox -> Work/A: {KIND}, messages 2: would be done\n"
        f"t.mbox -> a-b: {KIND}, messages 2: would be done, its labels are a.b and a-b\n"
        f"t.mbox -> 'bills, old': {KIND}, messages 1: would be done\n"
    )
    expect("migrate --all --labels --dry-run M t.mbox", home, 0, f"{rows}10 mailboxes: 10 would be done\n")
    equal("whether --dry-run made anything", (home / "M").exists(), False)
    expect(LABELS, home, 0, rows.replace("would be ", "") + "10 mailboxes: 10 done\n")
    equal("the folders", folders_in(home / "M"), FOLDERS)
    equal("the flags", sorted(path.name[-4:] for path in (home / "M").rglob("cur/*")), [":2,F", ":2,S"])
    lines = [line.split("\t") for line in (home / "M" / RECORD).read_text().splitlines()[1:]]
    equal("what the record begins with", (lines[0][0], lines[0][7].count(" in=")), ("labels", len(FOLDERS)))
    equal("what is done", sorted(line[1] for line in lines if line[0] == "done"), sorted(one or "." for one in FOLDERS))
    expect(LABELS, home, 0, "10 mailboxes: 10 done before\n")
    status, out, _ = run("verify --all M t.mbox", home)
    # each line begins as that of the migration does
    heads = [line.split(": ")[0] for line in rows.splitlines()]
    equal("verify", (status, [line.split(": ")[0] for line in out.splitlines()[:-1]]), (0, heads))
    next((home / "M/.Junk/new").iterdir()).unlink()
    equal("verify of what is gone", run("verify --all M t.mbox", home)[0], 1)


def forms_of_fields(home: Path) -> None:
    """The folders of labels, whatever the form of their field. The rows say which labels have one folder."""
    rows = [(str(number), labels) for number, (labels, _) in enumerate(FORMS)]
    # so that no label is one of more than half of the messages
    takeout(home, [*rows, *[("other", "Important")] * len(FORMS)])
    text = (home / "t.mbox").read_bytes()
    mailbox(home / "t.mbox", re.sub(rb"(?m)^(X-GM-THRID.*\n)(X-Gmail-Labels: Inbox,inbox\n)", rb"\2\1", text))
    several = by_json("migrate --labels M t.mbox", home).rows
    said = {row["folder"]: row["remarks"][0]["says"] for row in several if "its labels" in str(row["remarks"])}
    wanted = {"INBOX": "Inbox and inbox", "Junk": "Junk and Spam", "Work-a": "Work.a and Work-a"}
    equal("labels of one folder", said, {folder: f"its labels are {labels}" for folder, labels in wanted.items()})
    there = folders_in(home / "M")
    for number, (labels, folders) in enumerate(FORMS):
        equal(labels, [folder for folder in sorted(there) if str(number) in there[folder]], folders)


def names_of_languages(home: Path) -> None:
    """Gmail's own names count as soon as INBOX has that of their language, and no English one."""
    for number, names in enumerate(LANGUAGES):
        takeout(home, [*zip(GMAILS, names.split(","))])
        expect(f"migrate --labels M{number} t.mbox", home, 0, None)
        equal(names, folders_in(home / f"M{number}"), {folder: [folder] for folder in GMAILS})
    takeout(home, [("one", "Papierkorb"), ("two", "Inbox"), ("three", "Posteingang")])
    expect("migrate --labels N t.mbox", home, 0, None)
    equal("of two languages", [*folders_in(home / "N")], ["", ".Papierkorb", ".Posteingang"])


def names_without_inbox(home: Path) -> None:
    """Without a word for INBOX they count if each message has one of one language, and none has one that only others
    have."""
    for number, names in enumerate(LANGUAGES):
        takeout(home, [*zip(GMAILS, names.split(","))][1:])
        expect(f"migrate --labels M{number} t.mbox", home, 0, None)
        equal(names, folders_in(home / f"M{number}"), {folder: [folder] for folder in GMAILS[1:]})
    for number, (label, other) in enumerate((("Gesendet", "Sent"), ("Gesendet", "Work"), ("Gesendet", "Corbeille"))):
        takeout(home, [("one", label), ("two", other)])
        expect(f"migrate --labels N{number} t.mbox", home, 0, None)
        equal(f"{label} beside {other}", folders_in(home / f"N{number}"), {f".{label}": ["one"], f".{other}": ["two"]})


def a_mailbox_for_each_label(home: Path) -> None:
    """A German Takeout may have one, each in a command that names all, or with its own folder: most have no word for
    INBOX. Gmail's folders and flags are those of a single mailbox, and nothing is asked."""
    mails = {
        "one": "Posteingang,Ge\u00f6ffnet,Garten",
        "two": "Gesendet,Ge\u00f6ffnet",
        "three": "Gesendet,Ungelesen,Wichtig",
        "four": "Archiviert,Ungelesen",
        "five": "Archiviert,Ge\u00f6ffnet,Garten",
        "six": "Entw\u00fcrfe",
        "seven": "Papierkorb,Ge\u00f6ffnet,Markiert",
        "eight": "Posteingang",
    }
    labels = ["Posteingang", "Gesendet", "Archiviert", "Entw\u00fcrfe", "Papierkorb"]
    for label in labels:
        takeout(home, [(name, its) for name, its in mails.items() if label in its.split(",")], f"{label}.mbox")
    expect(["migrate", "--labels", "M", *(f"{label}.mbox" for label in labels)], home, 0, None)
    wanted = {"": ["eight", "one"], ".Archive": ["four"], ".Drafts": ["six"], ".Garten": ["five", "one"]}
    equal("the folders", folders_in(home / "M"), {**wanted, ".Sent": ["three", "two"], ".Trash": ["seven"]})
    flags = {"one": "S", "two": "S", "five": "S", "seven": "FS"}
    equal("the flags", flags_in(home / "M"), flags)
    equal("verify", run(["verify", "M", *(f"{label}.mbox" for label in labels)], home).status, 0)
    says = "1 message with flags of Gmail; labelled Sent 2: with --labels, labels become folders"
    row = f"Gesendet.mbox -> Sent: {KIND}, messages 2: done, {says}\n"
    expect("migrate --all --folder Sent N Gesendet.mbox", home, 0, f"{row}1 mailbox: 1 done\n")
    equal("the flags of one", flags_in(home / "N"), {"two": "S"})


def a_label_keeps_its_folder(home: Path) -> None:
    """A label that gave a folder of its name does so although it counts as Gmail's by a later Takeout, and what is done
    stays so, until an undo. `verify` knows that too."""
    first = [("one", "Gesendet"), ("two", "Work")]
    takeout(home, first)
    expect(LABELS, home, 0, None)
    takeout(home, [*first, ("three", "Posteingang,Papierkorb,Gesendet"), ("four", "Posteingang")])
    rows = (
        f"t.mbox -> INBOX: {KIND}, messages 2: done, {UNREAD.format(2)}\n"
        f"t.mbox -> Gesendet: {KIND}, messages 2: done, it grew by 1 message; {UNREAD.format(1)}\n"
        f"t.mbox -> Trash: {KIND}, messages 1: done, {UNREAD.format(1)}\n"
    )
    expect(LABELS, home, 0, f"{rows}4 mailboxes: 3 done, 1 done before\n")
    there = {"": ["four", "three"], ".Gesendet": ["one", "three"], ".Trash": ["three"], ".Work": ["two"]}
    equal("the folders", folders_in(home / "M"), there)
    equal("verify", run("verify M t.mbox", home).status, 0)
    expect(LABELS, home, 0, "4 mailboxes: 4 done before\n")
    expect("migrate --undo M t.mbox", home, 0, None)
    expect(LABELS, home, 0, None)
    equal("after an undo", folders_in(home / "M").get(".Sent"), ["one", "three"])


def a_language_that_was_found(home: Path) -> None:
    """Its names stay Gmail's in later Takeouts, whatever language these show: what is in INBOX does not come a second
    time. A language that is found later counts too."""
    for number, (first, more, wanted) in enumerate(GROWN):
        takeout(home, [(label, label) for label in first])
        expect(f"migrate --labels M{number} t.mbox", home, 0, None)
        for count in range(1, len(more) + 1):
            takeout(home, [(label, label) for label in [*first, *more[:count]]])
            expect(f"migrate --labels M{number} t.mbox", home, 0, None)
        equal(f"{first}, and {more}", folders_in(home / f"M{number}"), wanted)
        equal("verify", run(f"verify M{number} t.mbox", home).status, 0)


def a_language_of_an_earlier_takeout(home: Path) -> None:
    """One in another file is in that language too if it has the word for Inbox, although it has a label `Inbox`. One
    that lacks the word is another account's."""
    takeout(home, [("one", "Posteingang,Ge\u00f6ffnet"), ("two", "Gesendet"), ("three", "Wichtig")])
    expect("migrate --labels M t.mbox", home, 0, None)
    takeout(home, [("one", "Posteingang,Ge\u00f6ffnet"), ("two", "Gesendet"), ("four", "Inbox,Wichtig")], "newer")
    takeout(home, [("five", "Inbox,Wichtig"), ("six", "Sent"), ("seven", "Gesendet")], "other")
    expect("migrate --labels M newer other", home, 0, None)
    wanted = {"": ["five", "four", "one"], ".Archive": ["three"], ".Sent": ["six", "two"]}
    equal("the folders", folders_in(home / "M"), {**wanted, ".Gesendet": ["seven"], ".Wichtig": ["five"]})
    equal("verify", run("verify M t.mbox newer other", home).status, 0)


def flags_by_what_was_said(home: Path) -> None:
    """Flags by Gmail's own labels, and by those of which it was said what they give."""
    for number, (words, labels, flags) in enumerate(SAID):
        takeout(home, [(str(place), one) for place, one in enumerate(labels)])
        given = [word for pair in words.split() for word in ("--label", pair)]
        expect(["migrate", "--labels", *given, f"M{number}", "t.mbox"], home, 0, None)
        wanted = {str(place): letters for place, letters in enumerate(flags) if letters}
        equal(words, flags_in(home / f"M{number}"), wanted)


def one_folder_for_each(home: Path) -> None:
    """The first label of the user's own; without one Inbox, Sent, Drafts, Spam, Trash; else Archive."""
    takeout(home, [*RESERVED, ("ten", "Trash,Spam,Inbox,Sent"), ("eleven", "Important,Trash,Spam")])
    expect("migrate --labels one M t.mbox", home, 0, None)
    wanted = {
        **{name: FOLDERS[name] for name in (".Archive", ".Gr&APwA3w-e", ".Trash", ".bills, old", ".a-b")},
        **{"": ["one", "ten"], ".Junk": ["eleven", "three"], ".Work.A": ["two"]},
    }
    equal("the folders", folders_in(home / "M"), wanted)
    # a Maildir of this name is named with a slash
    expect("migrate --labels ./one t.mbox", home, 0, None)
    equal("the folders of all labels", folders_in(home / "one")[".Sent"], ["ten", "two"])
    out = f"t.mbox: left (another-reading): it was migrated with other words about its labels: --labels one\n{UNDO}"
    expect(LABELS, home, 1, out)


def what_was_said_is_printed_as_it_is_typed(home: Path) -> None:
    """The words of the earlier run stand as a shell reads them, and the command below them undoes that. They hold in a
    later pass that does not say them."""
    takeout(home, [("one", "Inbox,Kategorie: Werbung")])
    said = ["--labels", "one", "--label", "Kategorie: Werbung=none"]
    expect(["migrate", *said, "M", "t.mbox"], home, 0, None)
    row = by_json("migrate --labels M t.mbox", home).row
    equal("the words", shlex.split(row["says"].partition("labels: ")[2]), said)
    equal("its undo", run_printed(row.command, home).status, 0)
    expect(["migrate", *said, "M", "t.mbox"], home, 0, None)
    for count, word in (2, "all "), (3, ""):
        takeout(home, RESERVED[:count])
        expect(f"migrate --labels {word}N t.mbox", home, 0, None)
    says = by_json("migrate --labels one N t.mbox", home).row["says"]
    equal("the words after a pass without them", says.partition("labels: ")[2], "--labels all")


def folders_are_named_where_a_path_has_several(home: Path) -> None:
    """In the last block too, each as a mail program shows it: by `verify`, also of a single one that is not whole; and
    by a run without the ledgers."""
    takeout(home)
    expect(LABELS, home, 0, None)
    missing = {".Gr&APwA3w-e": "Gr\u00fc\u00dfe", ".Work.A": "Work/A"}
    for folder in missing:
        next((home / "M" / folder / "new").iterdir()).unlink()
        status, out, _ = run("verify M t.mbox", home)
        gone = [name for path, name in missing.items() if not any((home / "M" / path / "new").iterdir())]
        rows = {f"t.mbox -> {name}": "nowhere 1" for name in [*missing.values()][: 1 + (folder == ".Work.A")]}
        equal(f"{gone}: status", status, 1)
        equal("verify", groups_in(out)[0].rows, rows)
    for path in (home / "M").rglob("mbox2maildir-*"):
        path.unlink()
    next((home / "M/new").iterdir()).unlink()
    (group,) = groups_in(run("migrate --labels M t.mbox", home).out)
    equal("partly-there", (group.word, [*group.rows]), ("partly-there", ["t.mbox -> INBOX", "t.mbox -> Work/A"]))


def what_is_gone_is_missing(home: Path) -> None:
    """An undo of a Takeout that was removed asks for no folder. One that is there is asked about by the names that mail
    programs show, if its folders are not known as those of labels."""
    takeout(home)
    expect(LABELS, home, 0, None)
    (home / "t.mbox").rename(home / "gone")
    for words in ("migrate --undo --dry-run M t.mbox", "migrate --undo M t.mbox"):
        out = "t.mbox: left (missing): No such file or directory\n    run this next:\n        ls .\n1 mailbox: 1 left\n"
        expect(words, home, 1, out)
    mailbox(home / "box", ONE)
    for folder in ("Gr\u00fc\u00dfe", "Old"):
        expect(["migrate", "--folder", folder, "M", "box"], home, 0, None)
    says = "the record has it in several folders: Gr\u00fc\u00dfe, Old"
    equal("of another one", by_json("migrate --undo M box", home).row["says"], says)


def a_folder_of_a_label_is_gone(home: Path) -> None:
    """`verify` and `dates` leave the folder of a label that is gone, and look into all others. Then they know all
    folders again."""
    takeout(home)
    expect(LABELS, home, 0, None)
    shutil.rmtree(home / "M/.Junk")
    for path in home.glob("M/**/new/*"):
        os.utime(path, (0, 0))
    places = {name: name[1:].replace("Work.", "Work/") or "INBOX" for name in FOLDERS}
    found = {row["folder"] or "": row["verdict"] for row in by_json("verify M t.mbox", home).rows}
    wanted = {place: "whole" for name, place in places.items() if name != ".Junk"}
    equal("verify", found, {**wanted, "": "left"})
    counts = [f"messages {len(its)}, dated {len(its)}\n" for its in FOLDERS.values()]
    shown = {**places, ".Gr&APwA3w-e": "Gr\u00fc\u00dfe", ".bills, old": "'bills, old'"}
    dated = [f"t.mbox -> {shown[name]}: {count}" for name, count in zip(FOLDERS, counts)]
    command = "mbox2maildir-admin migrate --again M t.mbox"
    ran = run("dates M t.mbox", home)
    equal("dates", ran[:2], (1, "".join(line for line in dated if not line.startswith("t.mbox -> Junk"))))
    (gone,) = (line for line in ran[2].splitlines() if "all From_ lines" not in line and not line.startswith("    "))
    equal("what is gone", gone, "mbox2maildir-admin: t.mbox: its folder is gone: M/.Junk is no Maildir")
    assert f":\n        {command}\n" in ran[2], ran[2]
    dates = {path.stat().st_mtime for path in home.glob("M/**/new/*")}
    equal("dates", (0 in dates, len(dates)), (False, 1))
    equal("what brings it back", run(command.split(), home)[0], 0)
    expect("dates M t.mbox", home, 0, "".join(dated), None)
    expect("verify M t.mbox", home, 0, f"{len(FOLDERS)} mailboxes: {len(FOLDERS)} whole\n")


def a_label_is_asked_about(home: Path) -> None:
    """More than half of the messages have a label that nobody knows: a mark in another language, or a folder. What is
    answered holds for later Takeouts at this path, and nothing is placed before."""
    opened = "=?UTF-8?Q?Ge=C3=B6ffnete?="
    takeout(home, [("one", f"{opened},Posteingang"), ("two", f"Papierkorb,{opened}"), ("three", "Posteingang")])
    none, folder, read = (
        ["mbox2maildir-admin", "migrate", "--labels", "--label", f"Ge\u00f6ffnete={gives}"] for gives in GIVES
    )
    says = "more than half of the messages have the label Ge\u00f6ffnete, so it may be a mark of Gmail's and no folder"
    out = (
        f"t.mbox: left (labels): {says}: 2 of 3\n    it gives no folder:\n        {shlex.join(none)} M t.mbox\n"
        f"    it gives a folder:\n        {shlex.join(folder)} M t.mbox\n"
        "    it says that mail was read, and gives no folder:\n"
        f"        {shlex.join(read)} M t.mbox\n1 mailbox: 1 left\n"
    )
    expect(LABELS, home, 1, out)
    equal("whether anything was made", (home / "M").exists(), False)
    words = [str(home / "bin/mbox2maildir-admin"), "migrate", *LABELS[2:]]
    with Terminal(words, home, PATH=f"{home}/bin:{os.environ['PATH']}") as terminal:
        terminal.until("(a, b, c, l): ")
        terminal.type("a\n")
        status, rest = terminal.end()
    equal("status", status, 0)
    matches("the sums", rest.split("\n")[-2], "2 mailboxes: 2 done; ...")
    equal("the folders", folders_in(home / "M"), {"": ["one", "three"], ".Trash": ["two"]})
    takeout(home, [("one", f"{opened},Posteingang"), ("two", f"Papierkorb,{opened}"), ("four", opened)])
    out = (
        "t.mbox -> INBOX: done before, 1 message gone from it that it had brought\n"
        f"t.mbox -> Archive: {KIND}, messages 1: done, {UNREAD.format(1)}\n3 mailboxes: 1 done, 2 done before\n"
    )
    expect(LABELS, home, 0, out)
    equal("the folders then", folders_in(home / "M")[".Archive"], ["four"])
    expect([*folder[1:], "M", "t.mbox"], home, 1, f"t.mbox: left (another-reading): ...\n{UNDO}")
    expect([*folder[1:], "N", "t.mbox"], home, 0, None)
    equal("a folder", folders_in(home / "N")[".Ge&APY-ffnete"], ["four", "one", "two"])
    expect([*read[1:], "O", "t.mbox"], home, 0, None)
    equal("what was read", flags_in(home / "O"), dict.fromkeys(["four", "one", "two"], "S"))
    expect([*none[1:], "O", "t.mbox"], home, 1, f"t.mbox: left (another-reading): ...\n{UNDO.replace(' M ', ' O ')}")


def several_labels_are_asked_about(home: Path) -> None:
    """Of several such labels each may be the mark of what was read. Half of the messages are not more than half. Many
    folders are asked about too."""
    takeout(home, [("one", "x,y"), ("two", "y,x"), ("three", "y")])
    asks = ["migrate", "--labels", "M", "t.mbox"]
    row = by_json(asks, home).row
    says = "more than half of the messages have the labels x and y, so it may be a mark of Gmail's and no folder: {}"
    equal("what is said", row["says"], says.format("2 and 3 of 3"))
    answers = [re.findall(r"--label \S=(\w+)", command) for command in row.commands]
    equal("the answers", answers, [["none"] * 2, ["folder"] * 2, ["read", "none"], ["none", "read"]])
    row = by_json([*asks[:2], "--label", "x=none", *asks[2:]], home).row
    equal("of the other one", "the label y, " in row["says"], True)
    takeout(home, [(str(number), f"l{number},{'xy'[number % 2]}") for number in range(2)])
    expect(asks, home, 0, None)
    takeout(home, [(str(number), f"l{number}") for number in range(2001)], "many")
    row = by_json("migrate --labels N many", home).row
    options = [re.findall("--labels .* N", command) for command in row.commands]
    wanted = ("its labels give 2001 folders", [["--labels all N"], ["--labels one N"]])
    equal("of many folders", (row["says"], options), wanted)


def other_words_later(home: Path) -> None:
    """What is said of a label that had its folder, or Gmail's, or none, holds until an undo, also if nothing was said:
    otherwise its mail would come a second time, even if people deleted it. Of a label that is new anything may be
    said."""
    first = [("one", "Inbox,Opened"), ("two", "Garden"), ("three", "Spam"), ("four", "Opened")]
    takeout(home, first)
    expect(LABELS, home, 0, None)
    next((home / "M/.Garden/new").iterdir()).unlink()
    there = folders_in(home / "M")
    out = f"t.mbox: left (another-reading): it was migrated with other words about its labels: --labels\n{UNDO}"
    for said in ("Garden=none", "Garden=read", "Spam=starred", "Spam=folder", "Inbox=none", "Opened=folder"):
        expect(["migrate", "--labels", "--label", said, "M", "t.mbox"], home, 1, out)
        equal(said, folders_in(home / "M"), there)
    for said in ("Garden=folder", "Opened=none"):
        expect(["migrate", "--labels", "--label", said, "M", "t.mbox"], home, 0, None)
    takeout(home, [*first, ("five", "Garden,Shed"), ("six", "Garden"), ("seven", "Garden"), ("eight", "Garden,Tools")])
    expect(["migrate", "--labels", "--label", "Shed=none", "M", "t.mbox"], home, 0, None)
    wanted = {**there, ".Garden": ["eight", "five", "seven", "six"], ".Tools": ["eight"]}
    equal("the folders then", folders_in(home / "M"), wanted)


def mail_that_was_only_prepared(home: Path) -> None:
    """Its folder would have it beside those of the labels, so it is undone first, by the command that is printed. A
    list of nothing is in nobody's way."""
    takeout(home)
    expect("migrate --prepare N t.mbox", home, 0, None)
    for path in (home / "N/new").iterdir():
        path.unlink()
    prepared = home / "N/mbox2maildir-prepared"
    prepared.write_bytes(prepared.read_bytes().splitlines(True)[0])
    expect("migrate --labels N t.mbox", home, 0, None)
    expect("migrate --prepare M t.mbox", home, 0, None)
    row = by_json("migrate --labels M t.mbox", home).row
    equal("the row", (row["reason"], len(folders_in(home / "M")[""])), ("prepared", 9))
    equal("its undo", run_printed(row.command, home).status, 0)
    expect("migrate --labels M t.mbox", home, 0, None)
    equal("the folders", folders_in(home / "M"), FOLDERS)


def many_lose_a_label(home: Path) -> None:
    """They are in the Takeout all the same, so it is no other mailbox. One that has none of them is."""
    old, new = ([(f"{word}{number}", "Inbox,Opened") for number in range(8)] for word in ("old", "new"))
    takeout(home, old)
    expect(LABELS, home, 0, None)
    takeout(home, [*((subject, "Trash,Opened") for subject, _ in old), *new])
    said = [one["says"] for one in by_json("migrate --labels M t.mbox", home).of("t.mbox")["remarks"][:2]]
    wanted = ["it grew by 8 messages", "the label was taken from 8 messages; the mail stays here"]
    equal("what is said", said, wanted)
    takeout(home, [(f"other{number}", "Inbox") for number in range(8)])
    equal("another one", by_json("migrate --labels M t.mbox", home).row["reason"], "rewritten")


def a_label_says_what_was_read(home: Path) -> None:
    """In German as in English, also where the folders of labels are not wanted. What no label shows, a human says, and
    otherwise the rows count it."""
    german = [
        ("one", "Posteingang,=?UTF-8?Q?Ge=C3=B6ffnet?="),
        ("two", "Papierkorb,=?UTF-8?Q?Ge=C3=B6ffnet?=,Markiert"),
        ("three", "Posteingang,Ungelesen,Wichtig"),
    ]
    takeout(home, german)
    for maildir, labels in ("M", ["--labels"]), ("N", ["--now"]):
        expect(["migrate", *labels, maildir, "t.mbox"], home, 0, None)
        equal(f"{labels}: flags", flags_in(home / maildir), {"one": "S", "two": "FS"})
    equal("the folders of labels", folders_in(home / "M"), {"": ["one", "three"], ".Trash": ["two"]})
    equal("no folders of labels", folders_in(home / "N"), {"": ["one", "three", "two"]})
    # none of these has a label that is known to say that it was read
    takeout(home, [("one", "Inbox,x"), ("two", "Inbox,y"), ("three", "Unread"), ("four", "Sent,z")])
    row = f"t.mbox -> INBOX: {KIND}, messages 2: done, {UNREAD.format(2)}\n"
    row += f"t.mbox -> Archive: {KIND}, messages 1: done\n"
    row += f"t.mbox -> Sent: {KIND}, messages 1: done, {UNREAD.format(1)}\n"
    row += "".join(f"t.mbox -> {label}: {KIND}, messages 1: done, {UNREAD.format(1)}\n" for label in "xyz")
    expect("migrate --all --labels P t.mbox", home, 0, row + "6 mailboxes: 6 done\n")
    said = [word for pair in ("x=read", "y=unread", "z=starred") for word in ("--label", pair)]
    expect([*LABELS[:3], *said, "Q", "t.mbox"], home, 0, None)
    equal("what was said", flags_in(home / "Q"), {"one": "S", "four": "F"})
    equal("folders", folders_in(home / "Q"), {"": ["one", "two"], ".Archive": ["three"], ".Sent": ["four"]})
    out = f"t.mbox -> INBOX: {KIND}, messages 4: done, {UNREAD.format(3)}; labelled Sent 1: ...\n1 mailbox: 1 done\n"
    expect("migrate --all O t.mbox", home, 0, out)


def a_label_gives_no_folder(home: Path) -> None:
    """The message's number is said, nothing is placed, and the command that stands below leaves the label out."""
    long = "x" * 255
    for label in ("a//b", "/a", "..", "a/../b", "=?UTF-8?Q?a=01b?=", long):
        takeout(home, [("one", "Inbox"), ("two", f"Inbox,{label}"), ("three", "Sent"), ("four", "Sent")])
        row = by_json("migrate --labels M t.mbox", home).row
        equal(f"{label}: {row}", (row["reason"], row["says"].startswith("message 2 has the label ")), ("labels", True))
        equal("whether anything was made", (home / "M").exists(), False)
    equal("without the label", run_printed(row.commands[0], home).status, 0)
    equal("the folders", folders_in(home / "M"), {"": ["one", "two"], ".Sent": ["four", "three"]})


def only_a_takeout_has_labels(home: Path) -> None:
    """Each message begins with both fields. Labels that a sender wrote are none, and a field that cannot be read is
    not passed over."""
    first, second = message("one", "Inbox"), message("two", "Sent")
    for text, says in (
        (first + second.replace("X-GM-THRID", "X-Other"), "message 2 does not begin with X-GM-THRID and ..."),
        (first.replace("X-GM-THRID", "Subject: x\nX-GM-THRID"), "message 1 does not begin with X-GM-THRID and ..."),
        (first + message("two", "=?none?Q?x?="), "the labels of message 2 cannot be read"),
        # half of a pair of UTF-16 is no letter
        (first + message("two", "Inbox,=?utf-7?Q?a+2AA-b?="), "the labels of message 2 cannot be read"),
    ):
        mailbox(home / "t.mbox", text.encode())
        expect(LABELS, home, 1, f"t.mbox: left (labels): {says}\n1 mailbox: 1 left\n")
    equal("whether anything was made", (home / "M").exists(), False)


def a_line_is_asked_about(home: Path) -> None:
    """What is answered about a line of mail holds for later Takeouts at this path too. That a mail begins there is no
    answer unless it would have labels."""
    doubtful = "".join([message("one", "Inbox"), message("two", "Sent", body="hello\nFrom the shed\n")])
    mailbox(home / "t.mbox", doubtful.encode())
    (row,) = by_json(["migrate", "--labels", "M", "t.mbox"], home).rows
    equal("the question", (row["verdict"], row["reason"], sorted(row.answers.values())), ("left", "unclear", [2]))
    run_printed(min(row.answers, key=row.answers.__getitem__), home)
    equal("the folders", folders_in(home / "M"), {"": ["one"], ".Sent": ["two"]})
    mailbox(home / "t.mbox", (doubtful + message("three", "Sent")).encode())
    expect("migrate --all --labels M t.mbox", home, 0, None)
    equal("the folders then", folders_in(home / "M"), {"": ["one"], ".Sent": ["three", "two"]})
    body = "hello\n\n" + message("five", "Sent").rstrip("\n") + "\n"
    four = message("four", "Inbox", f"Content-Length: {len(body)}\n", body)
    mailbox(home / "u.mbox", (four + message("six", "Sent", "Content-Length: 6\n")).encode())
    (row,) = by_json(["migrate", "--labels", "N", "u.mbox"], home).rows
    equal("of lengths", sorted(row.answers.values()), [2, 3])
    run_printed(max(row.answers, key=row.answers.__getitem__), home)
    equal("the folders of these", folders_in(home / "N"), {"": ["four"], ".Sent": ["five", "six"]})


def a_line_of_two_is_asked_about(home: Path) -> None:
    """The command of both answers all that is asked: no tie of it is unknown, also if one of both is left then."""
    for name in ("t.mbox", "u.mbox"):
        text = message("one", "Inbox") + message(name, "Sent", body="hello\nFrom the shed\n")
        mailbox(home / name, text.encode())
    (group,) = groups_in(run("migrate --now --labels M t.mbox u.mbox", home).out)
    command = group.answers()[0].command
    mailbox(home / "my box", ONE)
    equal("a path without quotes", run_printed(f"{command} my box", home).err, "")
    equal("whether anything was made", (home / "M").exists(), False)
    make_maildir(home / "M")
    (home / "M/.Sent").write_text("no folder\n")
    equal("without a folder", run_printed(command, home)[::2], (1, ""))
    (home / "M/.Sent").unlink()
    equal("with both", run_printed(command, home)[::2], (0, ""))
    equal("the folders", folders_in(home / "M"), {"": ["one"], ".Sent": ["t.mbox", "u.mbox"]})


def a_later_takeout(home: Path) -> None:
    """One in which only marks changed places nothing, whether it takes the place of the first or stands beside it, and
    then its rows count these marks. Into a folder that is new for a message that message is placed, and the row counts
    both."""
    takeout(home, [("one", "Inbox,Unread"), ("two", "Sent"), ("three", "Inbox,Unread")])
    expect(LABELS, home, 0, None)
    there = folders_in(home / "M")
    takeout(home, [("one", "Inbox,Opened"), ("two", "Sent,Starred"), ("three", "Opened,Inbox")])
    takeout(home, [("one", "Inbox,Opened"), ("two", "Sent,Starred"), ("three", "Opened,Inbox")], "beside")
    expect(LABELS, home, 0, "2 mailboxes: 2 done before\n")
    row = (
        "beside -> INBOX: ...: done, 2 messages there already, from .../t.mbox; 2 messages of these marked in it, ...\n"
    )
    out = f"{row}beside -> Sent: ...; 1 message of these marked in it, ...\n2 mailboxes: 2 done\n"
    expect("migrate --all --labels M beside", home, 0, out)
    equal("the folders", folders_in(home / "M"), there)
    takeout(home, [("one", "Work,Opened"), ("two", "Sent,Work"), ("three", "Inbox"), ("four", "Sent")], "beside")
    out = (
        "beside -> INBOX: done before, the label was taken from 1 message; the mail stays here\n"
        "beside -> Sent: ...: done, it grew by 1 message\n"
        f"beside -> Work: {KIND}, messages 2: done, 1 message with flags of Gmail\n3 mailboxes: 2 done, 1 done before\n"
    )
    expect("migrate --all --labels M beside", home, 0, out)
    wanted = {"": ["one", "three"], ".Sent": ["four", "two"], ".Work": ["one", "two"]}
    equal("the folders then", folders_in(home / "M"), wanted)


def with_labels_and_without(home: Path) -> None:
    """A mailbox goes one way or the other, and changes by its undo. Without the option, its row says what it has."""
    takeout(home)
    says = "labelled Spam 1, Trash 1, Sent 1, Drafts 1: with --labels, labels become folders"
    row = f"t.mbox -> INBOX: {KIND}, messages 9: done, 2 messages with flags of Gmail; {says}\n"
    out = f"{row}1 mailbox: 1 done\n"
    expect("migrate --all M t.mbox", home, 0, out)
    out = (
        f"t.mbox: left (another-reading): it was migrated without --labels, so all of its mail is in one folder\n{UNDO}"
    )
    expect(LABELS, home, 1, out)
    expect("migrate --undo M t.mbox", home, 0, None)
    expect(LABELS, home, 0, None)
    says = "it was migrated with --labels, so its mail is in the folders of its labels"
    out = f"t.mbox: left (another-reading): {says}\n{UNDO}"
    for words in (["M", "t.mbox"], ["--dry-run", "M", "t.mbox"], ["--folder", "x", "M", "t.mbox"]):
        command = ["migrate", "--all", *words]
        expect(command, home, 1, out.replace("--undo", "--undo --dry-run") if "--dry-run" in words else out)
    # another file of the tree goes its way
    (home / "old").mkdir()
    (home / "t.mbox").rename(home / "old/t.mbox")
    mailbox(home / "old/other", ONE)
    expect("migrate M old", home, 1, None)
    equal("the folders", folders_in(home / "M"), {**FOLDERS, ".other": ["one"]})


def the_record_knows_the_folders(home: Path) -> None:
    """--again and --undo need no --labels, also once the Takeout was moved. An undo takes each folder."""
    takeout(home)
    expect(LABELS, home, 0, None)
    for folder in (".Junk", ".Work.A"):
        next((home / "M" / folder / "new").iterdir()).unlink()
    expect("migrate --again M t.mbox", home, 0, None)
    equal("the folders", folders_in(home / "M"), FOLDERS)
    (home / "t.mbox").rename(home / "moved")
    expect("migrate --all --labels M moved", home, 0, "10 mailboxes: 10 done before\n")
    equal("verify", run("verify --all M moved", home)[0], 0)
    (home / "moved").rename(home / "again")
    record = (home / "M/mbox2maildir-record").read_bytes()
    rows = run("migrate --undo --dry-run M again", home).out.splitlines()
    equal("each row has what goes", [", would remove " in row for row in rows], [True] * 10 + [False])
    equal("the record after a rehearsal", (home / "M/mbox2maildir-record").read_bytes(), record)
    equal("the folders", folders_in(home / "M"), FOLDERS)
    status, out, _ = run("migrate --all --undo M again", home)
    equal("the undo", (status, out.splitlines()[-1]), (0, "10 mailboxes: 10 undone"))
    equal("what is there", folders_in(home / "M"), {})
    expect("migrate M again", home, 0, None)
    equal("without labels", len(folders_in(home / "M")[""]), 9)


def a_folder_that_people_removed(home: Path) -> None:
    """Nothing is left in it to undo. Then the Takeout may go another way."""
    takeout(home, RESERVED[:2])
    expect(LABELS, home, 0, None)
    shutil.rmtree(home / "M/.Work.A")
    for words, verdict, removed in ("--dry-run ", "would be undone", "would remove 1 message"), (
        "",
        "undone",
        "removed 1 message",
    ):
        rows = by_json(f"migrate --undo {words}M t.mbox", home).rows
        said = {row["folder"]: (row["verdict"], row["remarks"][0]["says"]) for row in rows}
        wanted = {"INBOX": (verdict, removed), "Sent": (verdict, removed), "Work/A": (verdict, "its folder is gone")}
        equal(f"an undo {words}", said, wanted)
    equal("what is there", folders_in(home / "M"), {})
    expect("migrate --labels one M t.mbox", home, 0, None)
    equal("the folders then", folders_in(home / "M"), {"": ["one"], ".Work.A": ["two"]})


def a_folder_that_people_renamed(home: Path) -> None:
    """It stays the folder of its label, also for a Takeout in another file: nothing comes a second time, or comes back.
    An undo takes it once."""
    messages = [*RESERVED[:2], ("ten", "Sent,Work/A"), *((word, "Inbox") for word in "abc")]
    takeout(home, messages)
    expect(LABELS, home, 0, None)
    (home / "M/.Work.A").rename(home / "M/.Play")
    for path in [*home.glob("M/.Play/cur/*"), *home.glob("M/.Play/new/*")]:
        if b"Subject: ten" in path.read_bytes():
            path.unlink()
    for more in (), [("eleven", "Work/A")]:
        takeout(home, [*messages, *more])
        expect(LABELS, home, 0, None)
        its = sorted(["two", *(subject for subject, _ in more)])
        wanted = {"": ["a", "b", "c", "one"], ".Play": its, ".Sent": ["ten", "two"]}
        equal("the folders", folders_in(home / "M"), wanted)
    takeout(home, [*messages, ("eleven", "Work/A"), ("twelve", "Work/A")], "beside")
    expect("migrate --labels M beside", home, 0, None)
    equal("with one beside", folders_in(home / "M"), {**wanted, ".Play": ["eleven", "twelve", "two"]})
    for name in ("t.mbox", "beside"):
        verdicts = {row["folder"]: row["verdict"] for row in by_json("verify M beside", home).rows}
        equal("verify", verdicts, {"INBOX": "whole", "Play": "not whole", "Sent": "whole"})
        expect(f"migrate --undo M {name}", home, 0, None)
    equal("what an undo leaves", folders_in(home / "M"), {})


def folders_that_people_renamed_to_each_other(home: Path) -> None:
    """Each stays the folder of its label, whichever folder has its name now, also once that is no label's any more."""
    messages = [*((word, "Inbox") for word in "abcde"), ("one", "Garden"), ("two", "Shed")]
    renamed = [(".Garden", ".Old"), (".Shed", ".Garden"), (".Old", ".Shed")]
    for count in 2, 3:
        maildir = home / f"M{count}"
        takeout(home, messages)
        expect(f"migrate --labels M{count} t.mbox", home, 0, None)
        for old, new in renamed[:count]:
            (maildir / old).rename(maildir / new)
        there = folders_in(maildir)
        expect(f"migrate --labels M{count} t.mbox", home, 0, "3 mailboxes: 3 done before\n")
        takeout(home, [*messages, ("three", "Garden")], "beside")
        for name in ("beside", "t.mbox", "beside"):
            expect(f"migrate --labels M{count} {name}", home, 0, None)
        wanted = {name: sorted([*its, *["three"] * ("one" in its)]) for name, its in there.items()}
        equal(f"{count}: the folders", folders_in(maildir), wanted)
        # and once they have their first names again
        for old, new in renamed[:count][::-1]:
            (maildir / new).rename(maildir / old)
        wanted = folders_in(maildir)
        for name in ("t.mbox", "beside"):
            expect(f"migrate --labels M{count} {name}", home, 0, "3 mailboxes: 3 done before\n")
        equal(f"{count}: the folders once more", folders_in(maildir), wanted)
        takeout(home, messages[:-1])
        expect(f"migrate --labels M{count} t.mbox", home, 0, None)
        takeout(home, messages)
        for name in ("t.mbox", "beside"):
            expect(f"migrate --undo M{count} {name}", home, 0, None)
        equal(f"{count}: what an undo leaves", folders_in(maildir), {})


def a_folder_that_was_renamed_to_another_label(home: Path) -> None:
    """It gets the mail of that label, which stays there once it has its first name again."""
    takeout(home, [*((word, "Inbox") for word in "abcde"), ("one", "Garden")])
    expect(LABELS, home, 0, None)
    (home / "M/.Garden").rename(home / "M/.Shed")
    takeout(home, [*((word, "Inbox") for word in "abcde"), ("two", "Shed")], "beside")
    expect("migrate --labels M beside", home, 0, None)
    (home / "M/.Shed").rename(home / "M/.Garden")
    expect("migrate --labels M beside", home, 0, "2 mailboxes: 2 done before\n")
    equal("the folders", folders_in(home / "M"), {"": [*"abcde"], ".Garden": ["one", "two"]})


def two_labels_of_one_folder(home: Path) -> None:
    """None of them takes mail of the other for its own: both are left while a link leads from one to the other, which
    may lead there only once that one is made. The other folders are done."""
    takeout(home, [("one", "Inbox"), ("two", "Garden"), ("three", "Shed")])
    make_maildir(home / "M")
    (home / "M/.Shed").symlink_to(".Garden")
    for left in ["Shed"], ["Garden", "Shed"]:
        rows = by_json("migrate --labels M t.mbox", home).rows
        equal("what is left", [row["folder"] for row in rows if row["reason"] == "no-folder"], left)
        equal("whether others are done", [row["reason"] for row in rows].count(None), 3 - len(left))
        equal("what is there", [len(subjects(home / f"M/{name}")) for name in (".", ".Garden")], [1, 1])
    equal("what is printed", run_printed(rows[1].command, home).out.count("M/.Shed -> .Garden"), 1)
    (home / "M/.Shed").unlink()
    expect("migrate --labels M t.mbox", home, 0, None)
    equal("without the link", folders_in(home / "M"), {"": ["one"], ".Garden": ["two"], ".Shed": ["three"]})
    equal("verify", run("verify M t.mbox", home).status, 0)


def a_folder_that_its_owner_may_not_change(home: Path) -> None:
    """An undo leaves this folder, and takes what went into the others."""
    takeout(home, RESERVED[:2])
    expect(LABELS, home, 0, None)
    hand_over(home)
    (home / "M/.Sent/new").chmod(0o500)
    ran = Desk(home, user=OWNER).run("migrate --json --undo M t.mbox".split())
    wanted = {"INBOX": "undone", "Sent": "left", "Work/A": "undone"}
    equal("what is undone", {row["folder"]: row["verdict"] for row in ran.rows}, wanted)
    equal("what is there", folders_in(home / "M"), {".Sent": ["two"]})


def a_line_of_the_record_is_gone(home: Path) -> None:
    """An undo takes what went into a folder of which only its ledger says so."""
    takeout(home, RESERVED[:2])
    takeout(home, [("ten", "Sent"), ("eleven", "Inbox")], "u.mbox")
    expect([*LABELS, "u.mbox"], home, 0, None)
    record = home / "M" / RECORD
    lines = record.read_text().splitlines(True)
    record.write_text("".join(one for one in lines if not re.match(r"done\t\.Sent\t.*/t\.mbox\t", one)))
    expect("migrate --undo M t.mbox", home, 0, None)
    equal("what is there", folders_in(home / "M"), {"": ["eleven"], ".Sent": ["ten"]})


def some_folders_alone(home: Path) -> None:
    """A folder that cannot be is left, and the others are done. A Takeout that is locked is left as a whole, and is
    undone once each folder is."""
    takeout(home)
    make_maildir(home / "M")
    (home / "M/.Junk").write_text("no folder\n")
    ran = by_json("migrate --labels --now M t.mbox", home)
    equal("what is left", [row["folder"] for row in ran.rows if row["verdict"] != "done"], ["Junk"])
    (home / "M/.Junk").unlink()
    out = "t.mbox -> Junk: messages 1: done\n10 mailboxes: 1 done, 9 done before\n"
    expect("migrate --labels --now M t.mbox", home, 0, out)
    undo = ["migrate", "--undo", "--now", "M", "t.mbox"]
    with open(home / "t.mbox", "rb+") as box:
        fcntl.lockf(box, fcntl.LOCK_EX)
        equal("locked", [row["reason"] for row in by_json(undo, home).rows], ["locked"])
    with contextlib.ExitStack() as locked:
        for name in (".Junk", ".Sent"):
            folder = os.open(home / "M" / name, os.O_RDONLY)
            locked.callback(os.close, folder)
            fcntl.flock(folder, fcntl.LOCK_SH)
        folders = {row["folder"] for row in by_json(undo, home).rows if row["reason"] == "locked"}
        equal("what is locked", folders, {"Junk", "Sent"})
    folders = {row["folder"] for row in by_json(undo, home).rows if row["verdict"] == "undone"}
    equal("what is undone then", folders, {"Junk", "Sent"})


def noted_by_a_killed_run(home: Path) -> None:
    """A run that was killed before it placed anything has noted the folders: there is nothing to undo."""
    takeout(home)
    expect("migrate --labels --now M t.mbox", home, 0, None)
    record = home / "M" / RECORD
    first, noted, *_ = record.read_bytes().splitlines(True)
    shutil.rmtree(home / "M")
    make_maildir(home / "M")
    record.write_bytes(first + noted)
    record.chmod(0o600)
    for words, verdict in ("--dry-run ", "would be undone"), ("", "undone"):
        row = by_json(f"migrate --undo --now {words}M t.mbox", home).row
        found = row["verdict"], row["messages"], [one["says"] for one in row["remarks"]]
        equal("of nothing", found, (verdict, 0, ["nothing of it was placed"]))


def room_for_each_folder(home: Path) -> None:
    """Nothing is made if the largest text of a folder does not fit. Then each folder wants room for itself, and the
    next run goes on with those that were left."""
    want_users()
    text = "".join(message(name, "Inbox,Sent,Work", body="x" * 70 + "\n" + "y" * 200_000 + "\n") for name in "abc")
    mailbox(home / "t.mbox", text.encode())
    words = ["migrate", "--labels", "--label", "Work=folder", "disk/M", "t.mbox"]
    with small_disk(home / "disk", "8m") as disk:
        ballast = mailbox(disk / "ballast", bytes(7_900_000))
        ran = by_json(words, home)
        equal("nothing fits", [(row["directory"], row["reason"]) for row in ran.rows], [(None, "no-room")])
        equal("whether anything was made", (disk / "M").exists(), False)
        os.truncate(ballast, 6_000_000)
        for fates in ["done", "done", "no-room"], ["done before", "done before", "done"]:
            rows = by_json(words, home).rows
            equal("what became of each", [row["reason"] or row["verdict"] for row in rows], fates)
            ballast.unlink(missing_ok=True)
        copies = [len([*(disk / "M" / folder).glob("new/*")]) for folder in ("", ".Sent", ".Work")]
        equal("how often each is there", copies, [3, 3, 3])


def a_label_that_no_message_has(home: Path) -> None:
    """It is named, with those that are spelled alike, also by a rehearsal; with several Takeouts if none has it. Of one
    that cannot be read nothing is said. What was said of it does not bind a later run."""
    takeout(home, [("one", "Inbox,Garden,Opened"), ("two", "Sent,Gardens"), ("three", "Sent")])
    takeout(home, [("four", "Inbox,Werbung"), ("five", "Sent"), ("six", "Inbox")], "u.mbox")
    said = "mbox2maildir-admin: --label {}: no message that was read has this label{}\n"
    for label, alike in (
        ("gardn=none", "; spelled alike: Garden, Gardens"),
        ("Kategorie: x=read", ""),
        ("Nope=none", ""),
        ("Werbung=folder", ""),
    ):
        err = run(["migrate", "--dry-run", "--labels", "--label", label, "M", "t.mbox"], home).err
        shown = f"'{label[:-5]}'{label[-5:]}" if " " in label else label
        equal(label, err, said.format(shown, alike))
    given = ["--labels", "--label", "Werbung=none", "--label", "Gardens=none"]
    ran = run(["migrate", *given, "M", "t.mbox", "u.mbox"], home)
    equal("of two Takeouts", (ran.status, ran.err), (0, ""))
    equal("the folders", [*folders_in(home / "M")], ["", ".Garden", ".Sent"])
    mailbox(home / "t.mbox", ONE)
    equal("of none", run(["migrate", "--labels", "--label", "x=none", "N", "t.mbox"], home).err, "")
    equal("what a later run may say", run([*LABELS[:3], "--label", "gardn=none", "M", "u.mbox"], home).status, 0)
    takeout(home, [("four", "gardn"), ("five", "Sent"), ("six", "Inbox")], "u.mbox")
    equal("of a new label", run([*LABELS[:3], "--label", "gardn=folder", "M", "u.mbox"], home).status, 0)
    equal("its folder", folders_in(home / "M")[".gardn"], ["four"])


def mail_that_goes_back(home: Path) -> None:
    """It has no labels, so the Takeout takes none of it, and is checked and migrated again as before."""
    takeout(home)
    expect(LABELS, home, 0, None)
    text, new = (home / "t.mbox").read_bytes(), ONE.split(b"\n", 1)[1]
    for folder in ("", ".Sent"):
        mailbox(home / "M" / folder / "new/1.other", new)
    (home / "old").mkdir()
    says = "t.mbox takes nothing"
    rows = f"INBOX -> old/inbox-back: mboxrd, messages 1: back, {says}\nSent -> old/Sent: mboxrd, messages 1: back\n"
    status, out, _ = run("back --all --now M t.mbox old", home)
    equal("back", (status, "".join(re.findall(r"(?m)^\S* -> old/.*\n", out))), (0, rows))
    equal("the Takeout", (home / "t.mbox").read_bytes(), text)
    expect(LABELS, home, 0, "10 mailboxes: 10 done before\n")
    equal("verify", run("verify M t.mbox", home)[0], 0)
    equal("a second time", run("back --now M t.mbox old", home)[0], 0)
    equal("what went back", [messages_in(home / "old" / name) for name in ("inbox-back", "Sent")], [1, 1])


def mail_that_goes_back_without_them(home: Path) -> None:
    """A Takeout that was migrated without labels takes it, with labels, and is migrated with them into a new
    Maildir."""
    takeout(home)
    expect("migrate --now M t.mbox", home, 0, None)
    for place, subject in (("new/1.other", "ten"), ("cur/2.other:2,FS", "eleven")):
        mailbox(home / "M" / place, f"Subject: {subject}\n\nhello\n".encode())
    expect("back --now M t.mbox", home, 0, None)
    expect("migrate --now --labels --label Unread=none N t.mbox", home, 0, None)
    equal("the folders", folders_in(home / "N"), {**FOLDERS, ".Archive": ["eleven", "five", "ten"]})
    equal("the flags", flags_in(home / "N")["eleven"], "FS")


def messages_in(path: Path) -> int:
    """How many messages a mailbox has."""
    return path.read_bytes().count(b"\nSubject: ")


def files_without_mail(home: Path) -> None:
    """Those that are named beside a Takeout are passed over by the command that is printed."""
    takeout(home, RESERVED[:2])
    for name in ("notes", "to do"):
        mailbox(home / name, b"milk\n")
    (group,) = groups_in(run(["migrate", "--labels", "--now", "M", "notes", "to do", "t.mbox"], home).out)
    equal("what is left", (group.word, [*group.rows]), ("not-known", ["notes", "to do"]))
    (command,) = group.commands
    equal("by the command", run_printed(command, home).status, 0)
    words = ["migrate", "--labels", "--no-mail", "to*", "N", "to do", "t.mbox"]
    equal("by a pattern", by_json(words, home).of("to do")["verdict"], "no mail")


def whatever_the_locale(home: Path) -> None:
    """Labels and the names of folders are UTF-8 in words, in headers and in the record, as they are in mail."""
    latin = latin_locale(home)
    garden, sheds = "\u0441\u0430\u0434", "=?UTF-8?Q?f=C3=BCr?="
    takeout(home, [("one", garden), ("two", f"{garden},\u00e9t\u00e9"), ("three", sheds), ("four", "Inbox")])
    words = ["migrate", "--labels", "--label", f"{garden}=none", "M", "t.mbox"]
    expect(words, home, 0, None, **latin)
    there = {"": ["four"], ".Archive": ["one"], ".&AOk-t&AOk-": ["two"], ".f&APw-r": ["three"]}
    equal("the folders", folders_in(home / "M"), there)
    takeout(home, [(name, garden) for name in ("one", "two", "three")], "u.mbox")
    row = by_json("migrate --labels M u.mbox", home, **latin).row
    equal("the answers", [f"{garden}={gives}" in command for gives, command in zip(GIVES, row.commands)], [True] * 3)
    expect("migrate --labels M t.mbox", home, 0, "4 mailboxes: 4 done before\n", **latin)
    expect("migrate --labels M t.mbox", home, 0, "4 mailboxes: 4 done before\n")
    mailbox(home / "box", ONE)
    expect(["migrate", "--folder", "M\u00e4rz", "N", "box"], home, 0, None, **latin)
    equal("a name that was typed", [*folders_in(home / "N")], [".M&AOQ-rz"])


def a_look_has_its_folder(home: Path) -> None:
    """Of several folders of a Takeout, those that ask for a look are named, as they are in the rows."""
    takeout(home, [("one", "Inbox,x"), ("two", "Sent,y"), ("three", "Unread")])
    groups = groups_in(run("migrate --labels M t.mbox", home).out)
    wanted = ["t.mbox -> INBOX", "t.mbox -> Sent", "t.mbox -> x", "t.mbox -> y"]
    equal("unread", [(one.word, [*one.rows]) for one in groups], [("look at", wanted)])
    next((home / "M/.Sent/new").iterdir()).unlink()
    (group,) = groups_in(run("verify M t.mbox", home).out)
    equal("not whole", (group.word, [*group.rows]), ("not whole", ["t.mbox -> Sent"]))


def the_command_for_an_archive_leads_to_its_mailbox(home: Path) -> None:
    """An archive stays as it is: a folder in its place would be refused. The mailboxes in it are printed, and the same
    words migrate these."""
    if not all(map(shutil.which, ("unzip", "tar", "gzip"))):
        raise LeftOut("unzip, tar or gzip is missing")
    takeout(home)
    name = "Takeout/Mail/All mail Including Spam and Trash.mbox"
    for path, text in (
        (home / name, (home / "t.mbox").read_bytes()),
        (home / "Takeout/archive_browser.html", b"<p>\n"),
    ):
        mailbox(path, text)
    for archive, form in (("take it.zip", "zip"), ("take.tgz", "gztar")):
        os.rename(shutil.make_archive(str(home / "packed"), form, home, "Takeout"), home / archive)
        words = ["migrate", "--all", "--now", "--labels", "--label", "Unread=none", "M", archive]
        status, out, _ = run(words, home)
        row = row_in(out, archive)
        ran = run_printed(row.command, home)
        equal(f"{archive}: its status", ran.status, 0)
        says = f"    then run this again, with the mailboxes that it printed last in place of {archive}"
        equal(f"{archive}: what to do with what it prints", (status, row.below[-1]), (1, says))
        assert (home / archive).is_file(), f"{archive} is gone"
        printed = ran.out.splitlines()[-1]
        matches(f"{archive}: what is printed", printed, f"{home}/{archive}.../copy/{name}")
        expect([*words[:-1], printed], home, 0, None)
        equal(f"{archive}: the folders", folders_in(home / "M"), FOLDERS)
        shutil.rmtree(home / "M")


if __name__ == "__main__":
    check_all(*checks_in(globals()))
