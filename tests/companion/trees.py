"""mbox2maildir-admin migrate of folders of mailboxes: which folder each mailbox becomes, what of a tree is left, what
stays in the folder that the record has, and what is passed over, then and later."""
import gzip
import os
import re
import shutil
from pathlib import Path

from tests.support.checks import equal, matches
from tests.support.copies import Copies
from tests.support.homes import by_json, checks_in, expect, files_of, hand_over, mailbox, make_maildir
from tests.support.homes import run, run_printed, subjects, want_root
from tests.support.ledgers import LEDGER
from tests.support.mail import A, B, MAY, ONE, THREE, TWO, with_length
from tests.support.printed import rows_in
from tests.support.running import BY_OTHERS, OWNER
from tests.support.stories import Step, run_stories

# the line before a command that is to be run, and what comes before the command itself
RUN = "    run this next:\n        "


def trees(home: Path) -> None:
    """A folder of mailboxes becomes folders. What is left there is named, and the rest is done."""
    for name, text in (
        ("Inbox", ONE),
        ("2005.archive.mbox", TWO),
        ("Inbox.sbd/Garden", THREE),
        ("Empty", b""),
        ("Inbox.msf", b"// <!-- <mdb:mork"),
        ("Entw\u00fcrfe", ONE),
        ("twice", ONE),
        ("twice.mbox", TWO),
        (".imap/x/dovecot.index", bytes.fromhex("07037800c80000001800000001000000")),
        (".subscriptions", b"lists\n"),
        (".mbox2maildir-admin-abc", ONE),
    ):
        mailbox(home / "tree" / name, text)
    mailbox(home / "other", ONE)
    os.symlink("../other", home / "tree/link")
    os.mkfifo(home / "tree/pipe")
    (home / "tree/A/cur").mkdir(parents=True)
    out = (
        "tree/.mbox2maildir-admin-abc: left (left-behind): an interrupted `quote` left it behind: remove it\n"
        "tree/2005.archive.mbox -> 2005-archive: mboxrd or mboxo, messages 1: done, its name was 2005.archive.mbox\n"
        "tree/Empty -> Empty: empty, messages 0: done\n"
        "tree/Entw\u00fcrfe -> Entw\u00fcrfe: mboxrd or mboxo, messages 1: done\n"
        "tree/Inbox -> INBOX: mboxrd or mboxo, messages 1: done\n"
        "tree/Inbox.sbd/Garden -> INBOX/Garden: mboxrd or mboxo, messages 1: done\n"
        "tree/link: left (link): it is a symbolic link to ../other\n"
        "    migrate what it points to, with --folder NAME, unless that is migrated anyway\n"
        "tree/pipe: left (no-file): it is not a regular file\n"
        f"tree/twice.mbox: left (no-folder): another mailbox goes into twice too\n{RUN}"
        "mbox2maildir-admin migrate --folder NAME M tree/twice.mbox\n"
        f"tree/twice: left (no-folder): another mailbox goes into twice too\n{RUN}"
        "mbox2maildir-admin migrate --folder NAME M tree/twice\n"
    )
    end = ["10 mailboxes: 5 done, 5 left; 3 other files: no mail"]
    status, got, err = run("migrate --all M tree", home)
    lines = got.splitlines()
    equal("the lines of a tree", sorted(lines[: -len(end)]), sorted(out.splitlines()))
    equal("the end of a tree", (status, err, lines[-len(end) :]), (1, "", end))
    wanted = [".2005-archive", ".Empty", ".Entw&APw-rfe", ".INBOX.Garden"]
    equal("folders", sorted(path.name for path in (home / "M").glob(".*")), wanted)
    equal("the marks of folders", len(list((home / "M").glob(".*/maildirfolder"))), 4)
    found = sorted(path.name for path in (home / "M/.Empty").iterdir())
    equal("an empty folder", found, ["cur", "maildirfolder", "new", "tmp"])
    expected = "10 mailboxes: 5 done before, 5 left; 3 other files: no mail"
    equal("a tree again", run("migrate --all M tree", home)[1].splitlines()[-1], expected)
    says = "tree/twice -> Second: mboxrd or mboxo, messages 1: done\n...\n"
    expect("migrate --all --folder Second M tree/twice", home, 0, says)


def few_open_files(home: Path) -> None:
    """What is done with a mailbox leaves no file open, so there may be more mailboxes than files that may be open."""
    head = "From a@b Mon Mar  3 09:12:44 2025\n{}X-UID: {}\nX-Keywords: Foo\nSubject: {}\n\nhello\n\n".format

    def want_each(words: str, verdict: str, count: int = 0) -> None:
        for name in map(str, range(20 * bool(count))):
            base = f"X-IMAPbase: 222 {4 + count} Foo\n"
            text = "".join(head(base * (uid == 5), uid, f"{name}-{uid}") for uid in range(5, 5 + count))
            mailbox(home / "old" / name, text.encode())
        ran = run_printed(f"ulimit -n 20 && mbox2maildir-admin {words} old", home)
        equal(f"{words}: {ran.output}", (ran.status, f"20 mailboxes: 20 {verdict}" in ran.out), (0, True))

    want_each("migrate --jobs 1 --now --prepare --unread --dovecot M", "prepared", 1)
    for count in (2, 3):
        want_each("migrate --jobs 1 --now --dovecot M", "done", count)
    want_each("verify M", "whole")
    for place in (home / "M").glob(".*/new"):
        (place / "17000.M1.host").write_text("Subject: new\n\nhello\n")
    want_each("back --now --dovecot M", "back")


def folders_of_messages(home: Path) -> None:
    """A Maildir or a folder of MH among mailboxes has one line, whose next command brings its mail over."""
    for name in ("cur/1:2,S", "new/2", "tmp/3", "maildirfolder", "dovecot-uidlist"):
        mailbox(home / "tree/lists" / name, b"Subject: a\n\n")
    for number in range(1, 13):
        mailbox(home / f"tree/mh/{number}", f"Subject: {number}\n\nFrom here on.\n".encode())
    mailbox(home / "tree/mh/.mh_sequences", b"cur: 1\n")
    mailbox(home / "tree/mh/sheds", ONE)
    (home / "tree/p/cur").mkdir(parents=True)
    mailbox(home / "tree/p/garden", TWO)
    out = run("migrate --all M tree", home)[1]
    next_of = {row.name[5:]: row.command for row in rows_in(out) if row.commands}
    wanted = (
        "tree/lists: left (maildir): it is a Maildir\n"
        f"{RUN}mkdir -pm 700 M M/tmp M/new M/cur && mv -nT tree/lists M/.lists\n"
        f"tree/mh/sheds -> mh/sheds: mboxrd or mboxo, messages 1: done\n"
        f"tree/mh: an MH folder, messages 12: left (mh)\n{RUN}{next_of['mh']}\n    then move tree/mh out of here\n"
        "tree/p/garden -> p/garden: mboxrd or mboxo, messages 1: done\n"
        "4 mailboxes: 2 done, 2 left\n"
    )
    equal("folders of messages", sorted(out.splitlines()), sorted(wanted.splitlines()))
    equal("their commands", run_printed(f"{next_of['lists']} && {next_of['mh']}", home).status, 0)
    os.rename(home / "tree/mh/sheds", home / "tree/sheds")
    shutil.rmtree(home / "tree/mh")
    os.utime(home / "tree/mh.mbox", (1e9, 1e9))
    expect(
        "migrate --all M tree",
        home,
        0,
        "tree/mh.mbox -> mh: mboxrd or mboxo, messages 12: done, 12 messages without a date; its name was mh.mbox\n"
        # it was moved within the tree, and so has another folder
        "tree/sheds -> sheds: mboxrd or mboxo, messages 1: done, "
        "1 message of it went into mh/sheds too, from .../tree/mh/sheds\n"
        "    this removes what it placed there:\n"
        "        mbox2maildir-admin migrate --undo --folder mh/sheds M tree/sheds\n"
        "3 mailboxes: 2 done, 1 done before\n",
    )
    equal("the Maildir's mail", (home / "M/.lists/cur/1:2,S").read_bytes(), b"Subject: a\n\n")
    expected = sorted(f"Subject: {number}\n\nFrom here on.\n".encode() for number in range(1, 13))
    equal("the mail of MH", sorted(path.read_bytes() for path in files_of(home / "M/.mh").values()), expected)
    # what is in the folder besides the Maildir, or would take the place of another one, is moved by hand
    for name in ("lists", "more", "caf\udce9", "Inbox"):
        make_maildir(home / "tree" / name / ".Sub")
        make_maildir(home / "tree" / name)
    mailbox(home / "tree/more/notes", b"!BDN")
    # files of this program are parts of a Maildir, and what goes back from it is no mailbox
    for name in (LEDGER, f"{LEDGER}.damaged", "mbox2maildir-prepared", "mbox2maildir-back", "mbox2maildir-back.new"):
        mailbox(home / "tree/caf\udce9" / name, ONE if "back" in name else b"")
    out = run("migrate --all M tree", home)[1]
    assert "mbox2maildir-" not in out.replace("mbox2maildir-admin", ""), out
    for name, then in (
        ("Inbox", "    move the files in its new and cur into those of M"),
        ("Inbox/.Sub", f"{RUN}mv -nT tree/Inbox/.Sub M/.Sub"),
        ("caf\\xe9", "    move it to M/.NAME"),
        ("caf\\xe9/.Sub", "    move it to M/.NAME"),
        ("lists", "    move the files in its new and cur into those of M/.lists"),
        ("lists/.Sub", f"{RUN}mv -nT tree/lists/.Sub M/.lists.Sub"),
        ("more", "    move out of it what is not part of a Maildir, and run this again"),
        ("more/.Sub", f"{RUN}mv -nT tree/more/.Sub M/.more.Sub"),
    ):
        assert f"tree/{name}: left (maildir): it is a Maildir\n{then}\n" in out, f"{name}: {out}"
    # the Maildir into which everything goes is not part of the tree
    mailbox(home / "whole/box", ONE)
    expect("migrate --all whole/M whole", home, 0, "whole/box -> box: ...: done\n1 mailbox: 1 done\n")
    expect("migrate --all whole/M whole", home, 0, "1 mailbox: 1 done before\n")


def maildirs_alone(home: Path) -> None:
    """The printed commands bring Maildirs over, also if nothing else makes the one that they go into, and if they lack
    empty folders, which copies may leave out. Two never get one place. Mailboxes beside each other are no Maildir."""
    names = {"Old/cur/1741.M1.h:2,FS", "Old/cur/1742.M1.h:2,RS", "late/new/1743.M1.h", "late/new/1744.M1.h"}
    for name in names:
        mailbox(home / "tree" / name, b"Subject: a\n\nFrom here on.\n")
    (home / "tree/Old/new").mkdir()
    expect("kind tree/Old", home, 1, "tree/Old: a Maildir\n    leave it as it is\n")
    for name in ("y.d", "y-d"):
        make_maildir(home / "twice" / name)
    for maildir, tree, count in (("M", "tree", 2), ("N", "twice", 1)):
        ran = by_json(["migrate", maildir, tree], home)
        equal(f"{tree}: what is left", [row["reason"] for row in ran.rows], ["maildir"] * 2)
        commands = [command for row in ran.rows for command in row.commands]
        equal(f"{tree}: commands", len(commands), count)
        for command in commands:
            equal(command, run_printed(command, home).status, 0)
    equal("their mail", {str(one.relative_to(home / "M"))[1:] for one in (home / "M").rglob("17*")}, names)
    made = [home / "M" / name for name in (".", "cur", "new", "tmp", ".Old/tmp", ".late/cur", ".late/tmp")]
    equal("what was made", {oct(one.stat().st_mode & 0o777) for one in made}, {"0o700"})
    for name in ("new/2005.archive.mbox", "cur/2006.archive.mbox"):
        mailbox(home / "kmail" / name, ONE)
    expect("migrate --all N kmail", home, 0, "...\n...\n2 mailboxes: 2 done\n")
    expect(
        "migrate P M/.Old",
        home,
        1,
        "",
        f"mbox2maildir-admin: M/.Old: it is a Maildir, not a mailbox\n{RUN}mv -nT M/.Old P\n",
    )


# a pattern, what is migrated, a file below that, and whether it is passed over
PATTERNS = [
    ("*.junk", "tree", "tree/a/x.junk", True),
    ("a/x.junk", "tree/", "tree/a/x.junk", True),
    ("x.junk", "tree", "tree/a/x.junk", False),
    ("a/x", "tree tree2", "tree2/a/x", True),
    ("x.JUNK", "x.junk", "x.junk", False),
    ("caf?", "caf\u00e9", "caf\u00e9", True),
    ("caf\udce9", "caf\udce9", "caf\udce9", True),
]


def patterns(home: Path) -> None:
    """A pattern is of a name, or if it has a slash of the path below what is migrated."""
    (home / "tree").mkdir()
    for pattern, names, path, is_spared in PATTERNS:
        mailbox(home / path, b"hello\n")
        ran = by_json(["migrate", "--now", "--dry-run", "--no-mail", pattern, "M", *names.split()], home)
        verdicts = [row["verdict"] for row in ran.rows]
        equal(f"{pattern!r}, {path!r}", verdicts, ["no mail" if is_spared else "left"])
        (home / path).unlink()


def commands_of_rehearsals(home: Path) -> None:
    """Each command that a rehearsal prints is one of a rehearsal, and no other: about what is asked, beside each other,
    of one folder, without a folder, without its ledger, partly there, and undone in part."""
    part, long = with_length(A, MAY + b">From a\n") + b"\n" + B + b"\n", "y" * 200 + "/" + "x" * 200
    for name in ("pair", "pair.mboxrd", "same", "same.mbox", "caf\udce9", long, "gone", "there", "undone"):
        mailbox(home / "tree" / name, ONE)
    for name, text in (("part", part), ("there", TWO)):
        mailbox(home / "tree" / name, text)
    expect("migrate --folder gone M tree/gone", home, 0, None)
    expect("migrate --folder undone M tree/undone", home, 0, None)
    (home / "M/.gone" / LEDGER).unlink()
    with open(home / "M/.undone" / LEDGER, "a", encoding="utf-8") as ledger:
        ledger.write(f"<\t{home}/tree/undone\n")
    make_maildir(home / "M/.there")
    expect("mbox2maildir convert M/.there tree/there", home, 0, None, None)
    for name, text in (("gone", THREE), ("there", ONE + TWO)):
        mailbox(home / "tree" / name, text)
    for options in ("--dry-run --now", "--now"):
        rows = by_json(["migrate", *options.split(), "M", "tree"], home).rows
        equal("what is not left", [row["path"] for row in rows if row["verdict"] != "left"], [])
        found = [one for row in rows for one in row.commands if "migrate" in one]
        equal(f"{options}: {found}", {"--dry-run" in one for one in found}, {options != "--now"})
        equal(f"{options}: rows with a command", sum(any("migrate" in one for one in row.commands) for row in rows), 9)


def nothing_outside(home: Path) -> None:
    """A command that makes a mailbox of one mail leaves what a symbolic link leads to, which was not named, in its
    place."""
    mail = ONE.split(b"\n", 1)[1]
    mailbox(home / "tree/box", TWO)
    there = mailbox(home / "else/letter", ONE)
    os.symlink("../else/letter", home / "tree/link")
    expect("migrate --folder Letters M else/letter", home, 0, None)
    mailbox(there, mail)
    row = by_json("migrate --now M tree", home).of("tree/link")
    equal("the row", (row["folder"], row["kind"]), ("Letters", "one mail without a From_ line"))
    equal("whoever runs it", [one["user"] for one in row["next"]], [None])
    equal("its command", run_printed(row.command, home).status, 0)
    equal("what the link leads to", there.read_bytes(), mail)
    equal("the folders", subjects(home / "M/.Letters"), ["one", "one"])


def make_profile(path: Path) -> None:
    """Makes a profile as Thunderbird does, with two accounts that have an Inbox, and its local folders without mail."""
    for account in ("imap.example.org", "imap.example.net"):
        for name in ("INBOX", "Trash"):
            mailbox(path / "ImapMail" / account / name, ONE)
            mailbox(path / "ImapMail" / account / f"{name}.msf", b"")
    mailbox(path / "ImapMail/imap.example.org/Archives.sbd/a.b", TWO)
    for name, text in (
        ("Mail/Local Folders/Trash", b""),
        ("Mail/Local Folders/Unsent Messages", b""),
        ("Mail/Local Folders/msgFilterRules.dat", b'version="9"\nlogging="no"\n'),
        ("Mail/Feeds/feeds.json", b"[]"),
        ("prefs.js", b"// preferences\n"),
        ("times.json", b"{}"),
        ("storage/default/x", ONE),
    ):
        mailbox(path / name, text)
    os.symlink("127.0.1.1:+4711", path / "lock")


def marked(how: bytes, message: bytes) -> bytes:
    """A message with Thunderbird's mark: 1 is read, 8 deleted."""
    return message.replace(b"\n", b"\nX-Mozilla-Status: 000%s\n" % how, 1)


def profile(home: Path) -> None:
    """Of a Thunderbird profile, what is below Mail and ImapMail is looked at. Only folders of two accounts have the
    account in their names, whichever folder is named; the Inbox of one goes into INBOX by a command that is printed."""
    top = "thunderbird/abcd1234.default-release"
    make_profile(home / top)
    mailbox(home / "thunderbird/profiles.ini", b"[General]\n")
    mailbox(home / "thunderbird/Crash Reports/x", b"hello\n")
    wanted = ["Archives/a-b", *(f"imap-example-{one}/{name}" for one in ("net", "org") for name in ("INBOX", "Trash"))]
    parts = top, "thunderbird"
    for maildir, (name, others) in zip("MN", zip(parts, (12, 14))):
        ran = by_json(["migrate", maildir, name], home)
        done = [row for row in ran.rows if row["verdict"] == "done"]
        equal(f"{name}: folders", sorted(row["folder"] for row in done), wanted)
        sums = f"5 mailboxes: 5 done; {others} other files: no mail; ..."
        matches(f"{name}: sums", f"{ran.status}: {ran.sums['says']}", f"0: {sums}")
    expect(["migrate", "O", f"{top}/ImapMail/imap.example.org"], home, 0, None)
    expected = [".Archives.a-b", ".imap-example-org.INBOX", ".imap-example-org.Trash"]
    equal("of one account", sorted(path.name for path in (home / "O").glob(".*")), expected)
    (archives,) = (row for row in done if row["folder"] == "Archives/a-b")
    equal("its name", (archives["kind"], archives["says"]), ("mboxrd or mboxo", "its name was Archives/a.b"))
    inbox = f"{top}/ImapMail/imap.example.org/INBOX"
    equal("a command", run_printed(ran.of(inbox).command, home).status, 0)
    found = [subjects(home / "N"), subjects(home / "N/.imap-example-org.INBOX")]
    equal("what is in INBOX, and no longer in its folder", found, [["one"], []])
    expect("migrate --all N thunderbird", home, 0, "5 mailboxes: 5 done before; 14 other files: no mail\n")
    # the Inbox of one account is INBOX if no other one has mail in its Inbox
    mailbox(home / top / "ImapMail/imap.example.net/INBOX", b"")
    equal("the only Inbox", by_json(["migrate", "--dry-run", "P", top], home).of(inbox)["folder"], "INBOX")


def a_file_for_each_message(home: Path) -> None:
    """A folder in which Thunderbird has one is left as a whole, whatever its messages begin with. Those beside it and
    below it are migrated."""
    top = "thunderbird/abcd1234.default-release"
    local = f"{top}/Mail/Local Folders"
    make_profile(home / top)
    for name, text in (
        ("Drafts/cur/1700000000000001.eml", ONE),
        ("Drafts/cur/1700000000000002.eml", marked(b"1", ONE).split(b"\n", 1)[1]),
        ("Drafts.sbd/Old/cur/1700000000000003-1.eml", marked(b"1", ONE)),
        ("Drafts.sbd/New", ONE),
        ("Sent/cur/1400000000000000", ONE),
    ):
        mailbox(home / local / name, text)
    for path in (home / local).rglob("cur"):
        path.with_name("tmp").mkdir()
    for old in top, local, f"{local}/Drafts":
        ran = by_json(["migrate", f"M{len(old)}", old], home)
        left = {row["path"]: row["reason"] for row in ran.rows if row["verdict"] == "left"}
        several = [f"{local}/{name}" for name in ("Drafts", "Drafts.sbd/Old", "Sent")]
        wanted = {one: "maildir" for one in several if f"{one}/".startswith(f"{old}/")}
        equal(f"{old}: what is left", left, wanted)
    found = {path.parent.parent.name for path in (home / f"M{len(top)}").glob(".*/new/*")}
    equal("the folders", {one for one in found if "Drafts" in one}, {".Drafts.New"})
    equal("all folders", len(found), 6)


def several_inboxes(home: Path) -> None:
    """The command that puts one of several Inboxes into INBOX has what was answered about deleted mail, of all or of
    one, dry or not. It is printed until INBOX has a mailbox, also for one that is named with the folder of its
    account."""
    top, accounts = "thunderbird/abcd1234.default-release", ("imap.example.org", "imap.example.net")
    make_profile(home / top)
    inbox, other = (f"{top}/ImapMail/{account}/INBOX" for account in accounts)
    for path in (inbox, other):
        mailbox(home / path, marked(b"1", ONE) + b"\n" + marked(b"9", TWO))
    answer = by_json(["migrate", "N", top], home).of(inbox).commands[0]
    tie = re.findall(" --of ([0-9a-f]+) ", answer)[0]
    for words in ("--dry-run --drop-deleted M", "--drop-deleted M", f"--drop-deleted --of {tie} O", "O"):
        command = by_json(["migrate", *words.split(), top], home).of(inbox).command
        equal(f"{words}: {command}", command.count("--drop-deleted --folder INBOX"), 1)
    equal("its command", run_printed(command, home).status, 0)
    equal("without deleted mail", [subjects(home / "O"), subjects(home / "O/.imap-example-org.INBOX")], [["one"], []])
    equal("the other one", by_json(["migrate", "O", top], home).of(other)["next"], [])
    command = run_printed(answer, home, "--json").row.command
    equal(f"{answer}: {command}", command.count("--drop-deleted --folder INBOX"), 1)
    named = by_json(["migrate", "--drop-deleted", "--folder", "Work", "N", other], home).row
    equal("a folder of another name", (named["verdict"], named["next"]), ("done", []))
    # it leaves this folder alone
    row = by_json(["migrate", "--drop-deleted", "--folder", "imap-example-net/INBOX", "N", other], home).row
    equal("of two folders", run_printed(row.commands[-1], home).status, 0)
    equal("where it is", [subjects(home / "N"), subjects(home / "N/.Work")], [["one"], ["one"]])
    # of one that was answered about alone, and that has no deleted mail any more, it asks nothing
    expect(["migrate", "--drop-deleted", "--of", tie, "P", top], home, 0, None)
    mailbox(home / inbox, marked(b"1", ONE) + b"\n" + marked(b"1", TWO))
    command = by_json(["migrate", "P", top], home).of(inbox).command
    equal(command, run_printed(command, home).status, 0)
    equal("all of it", subjects(home / "P"), ["one", "two"])


def what_cannot_be_read(home: Path) -> None:
    """Beside the list of profiles a folder that cannot be looked into may be one: it is left, as is what is named in
    it. A file that cannot be read is no message of MH, and in a Maildir it is known by its name alone."""
    want_root()
    make_profile(home / "old/thunderbird/y")
    mailbox(home / "old/thunderbird/x/Mail/a/Inbox", ONE)
    mailbox(home / "old/thunderbird/profiles.ini", b"[General]\n")
    for name in ("mh/1", "mh/2", "lists/new/1.h", "lists/maildirsize"):
        mailbox(home / "old" / name, b"Subject: one\n\nhello\n")
    for name in ("cur", "tmp"):
        (home / "old/lists" / name).mkdir()
    hand_over(home)
    for name in ("thunderbird/x", "mh/1", "lists/maildirsize"):
        (home / "old" / name).chmod(0)
    words = ["migrate", "--json", "--now", "M", "old", "old/thunderbird/x/box"]
    ran = Copies(home, home / "bin", OWNER).run(words, BY_OTHERS)
    left = {row["path"][4:]: row["says"] or row["messages"] for row in ran.rows if row["verdict"] == "left"}
    wanted = {path: "Permission denied" for path in ("thunderbird/x", "thunderbird/x/box", "mh/1")}
    equal(f"what is left: {ran.output}", left, {**wanted, "mh": 1, "lists": "it is a Maildir"})


def profile_of_one_account(home: Path) -> None:
    """Where one account alone has mail in mailboxes, no folder is named after it. Messages that have files of their own
    do not count, nor does what is no profile, beside which all is migrated."""
    top = home / "old/Profiles/x.default"
    mailbox(home / "old/profiles.ini", b"[General]\n")
    mailbox(top / "prefs.js", b"// preferences\n")
    for name, text in (
        ("ImapMail/a.b/INBOX", ONE),
        ("ImapMail/a.b/Trash", b""),
        ("ImapMail/a.b/Feeds.json", b"{}"),
        ("Mail/c/Inbox", b""),
        ("Mail/c/z", b"hello\n"),
        ("Mail/z", TWO),
        ("Mail/e/Inbox/cur/1", ONE),
        ("Mail/e/Inbox/new/1", ONE),
        ("Mail/e/Inbox/tmp/1", ONE),
    ):
        mailbox(top / name, text)
    ran = by_json("migrate --dry-run --now M old", home)
    found = {row["path"][23:]: row["folder"] for row in ran.rows if row["verdict"] == "would be done"}
    wanted = {"ImapMail/a.b/INBOX": "INBOX", "ImapMail/a.b/Trash": "Trash", "Mail/z": "Mail/z"}
    equal(f"folders: {ran.output}", found, wanted)
    equal("not known", ran.of("old/Profiles/x.default/Mail/c/z")["reason"], "not-known")
    mailbox(home / "other/Mail/c/Inbox", ONE)
    mailbox(home / "other/notes", TWO)
    rows = by_json("migrate --dry-run --now M other", home).rows
    equal("no profile", sorted(row["folder"] for row in rows), ["Mail/c/Inbox", "notes"])


# what is passed over by a pattern, what is said then, and the same by paths
JUNK = "--no-mail *.junk --no-mail none M tree"
OF_JUNK = (
    "tree/a.junk: {0}\ntree/c.junk: left (other-kind): its name was c.junk\ntree/d.junk: {1}...\n"
    "tree/e: left (not-known)...\ntree/x/b.junk: {0}\ntree/x/c.junk: {0}"
)
ZIPPED, LETTER = b"PK\3\4" + bytes(40), ONE.split(b"\n", 1)[1]
PATHS = "tree/photos.zip", "tree/letter", "tree/box", "more.zip", "tree/none"
BY_PATHS = " ".join([*(f"--no-mail {path}" for path in PATHS), "M tree"])
OF_PATHS = "tree/box: {1}\ntree/letter: {0}\ntree/more.zip: left (other-kind): its name was more.zip"
HAUS, MBOX = "tree/.inbox.directory/Haus", "tree/Sent/mbox"
BOTH = f"{HAUS}: done before\n{MBOX}: done before"
# what --no-mail passes over
BY_WORD, BY_RECORD = "no mail: by --no-mail", "no mail: by migrate --no-mail"
WORK, SENT = "export/Work.mbox/mbox", "export/Sent.Messages.mbox/mbox"
OF_TWO = "left (no-folder): another mailbox goes into twice too"
DELETED = TWO.replace(b"\n\n", b"\nX-Mozilla-Status: 0009\n\n", 1)
CAME_BACK = "box: done: when its mail was placed, up to 2 messages that had been deleted or moved came back"
UNDO_IN_A = "migrate --undo --folder A M box"
STORIES: dict[str, list[Step]] = {
    # where the folders are that a tree would name otherwise, and what somebody else has put in the place of one
    "what_was_done_by_hand_stays": [
        *((HAUS, ONE), f"migrate --folder Haus M {HAUS}", (MBOX, ONE), f"migrate --folder Sent/mbox M {MBOX}"),
        *(("migrate M tree", BOTH), (MBOX, ONE + TWO)),
        ("migrate M tree", f"{HAUS}: done before\n{MBOX}: done: it grew by 1 message"),
        *("= Haus/one Sent.mbox/one Sent.mbox/two", ("verify M tree", f"{HAUS}: whole\n{MBOX}: whole")),
        f"!mbox2maildir-admin dates M tree | grep '^{MBOX}: messages 2, dated 2$'",
        *((MBOX, THREE), ("verify M tree", f"{HAUS}: whole\n{MBOX}: not whole: nowhere 1")),
        ("migrate M tree", f"{HAUS}: done before\n{MBOX}: done: it grew by 1 message; 2 messages gone from it ..."),
        *(
            ("migrate M tree", BOTH),
            "!rm M/mbox2maildir-record",
            "migrate N tree",
            "!test -d N/.INBOX.Haus -a -d N/.Sent",
        ),
    ],
    # beside mail that came by itself too
    "named_as_a_folder": [
        *(("Sent", ONE), "!mkdir -p M/cur M/new M/tmp; cp Sent M/new/1.host"),
        *(("migrate M Sent", "Sent: left (no-folder): INBOX has or gets other mail, ..."), "= one"),
    ],
    # also if a symbolic link leads to it
    "what_was_left_is_done_by_hand": [
        *(("hand/twice", ONE), ("hand/twice.mbox", TWO), ("else/box", THREE), "!ln -s ../else/box hand/link"),
        ("migrate M hand", "hand/link: left (link)...\nhand/twice.mbox: left (...\nhand/twice: left (no-folder)..."),
        *("migrate --folder One M hand/twice", "migrate --folder INBOX M hand/twice.mbox"),
        *("migrate --folder Linked M else/box", ("else/box", THREE + ONE)),
        (
            "migrate M hand",
            "hand/link: done: it grew by 1 message\nhand/twice.mbox: done before\nhand/twice: done before",
        ),
        "= Linked/one Linked/three One/one two",
    ],
    # its flags come first
    "named_twice": [
        *(("plain", ONE), ("status", ONE.replace(b"\n", b"\nStatus: RO\n", 1))),
        *(("migrate M status plain ./status", "plain: done: ...\nstatus: done"), "= one:S"),
    ],
    # it is one mailbox, in one folder
    "a_link_has_the_name_of_a_mailbox_that_was_renamed": [
        *(("tree/box", ONE), "migrate M tree", ("tree/work", TWO), "migrate --prepare --unread M tree"),
        "!cd tree; for a in box work; do mv $a new$a; ln -s new$a $a; done",
        *("migrate M tree", "= box/one work/two", "migrate M tree", "= box/one work/two"),
    ],
    "links_that_are_named": [
        *(
            ("else/box", ONE),
            ("tree/work", TWO),
            "!ln -s else/box box; ln -s ../else/box tree/below; ln -s tree folder",
        ),
        *(("migrate M box", "box: done"), "= one", "!rm -r M"),
        ("migrate M folder", "folder/below: left (link): it is a symbolic link to ../else/box...\nfolder/work: done"),
        "= work/two",
    ],
    # it is not left by passes over its tree, nor on the day
    **{
        f"a_link_was_prepared_by_hand_{number}": [
            *(("tree/box", ONE), ("else/old", TWO), "!ln -s ../else/old tree/link"),
            ("migrate --prepare --unread M tree", "tree/box: prepared\ntree/link: left (link): ..."),
            f"migrate --prepare --unread --folder linked M {path}",
            ("migrate --prepare --unread M tree", "tree/box: prepared: ...\ntree/link: prepared: ..."),
            ("migrate --dry-run M tree", "tree/box: would be done: ...\ntree/link: would be done: ..."),
            ("migrate M tree", "tree/box: done: ...\ntree/link: done: ..."),
            *(("migrate M tree", "tree/box: done before\ntree/link: done before"), "= box/one linked/two"),
        ]
        for number, path in enumerate(("else/old", "tree/link"))
    },
    # only unknown kinds are, and later without the word, until their bytes change
    "passed_over_by_a_pattern": [
        *(("tree/a.junk", b"hello\n"), ("tree/x/b.junk", b"\0\1"), ("tree/c.junk", b"!BDN"), ("tree/d.junk", ONE)),
        *(("tree/e", b"hello\n"), ("tree/x/c.junk", gzip.compress(b"hello\n"))),
        (f"migrate --dry-run {JUNK}", OF_JUNK.format(BY_WORD, "would be done")),
        *("!test ! -e M", (f"migrate {JUNK}", OF_JUNK.format(BY_WORD, "done"))),
        *(("migrate M tree", OF_JUNK.format(BY_RECORD, "done before")), "!test $(grep -c ^no-mail M/*-record) = 3"),
        ("tree/a.junk", b"hello once more\n"),
        ("migrate M tree", OF_JUNK.format(BY_RECORD, "done before").replace(BY_RECORD, "left (not-known)...", 1)),
    ],
    # whatever is no mbox text is, until it stands for mail; `verify` and `dates` leave it out
    "passed_over_by_path": [
        *(("tree/photos.zip", ZIPPED), ("tree/more.zip", ZIPPED), ("tree/box", ONE), ("tree/letter", LETTER)),
        (f"migrate {BY_PATHS}", f"{OF_PATHS.format(BY_WORD, 'done')}\ntree/photos.zip: {BY_WORD}"),
        "!rm tree/more.zip",
        ("verify M tree", f"tree/box: whole\ntree/letter: {BY_RECORD}\ntree/photos.zip: {BY_RECORD}"),
        "!mbox2maildir-admin dates M tree 2>said; grep 'tree/letter: left out: no mail, by migrate --no-mail$' said",
        ("tree/photos.zip", TWO),
        (f"migrate {BY_PATHS}", f"tree/box: done before\ntree/letter: {BY_WORD}\ntree/photos.zip: done: its name ..."),
        ("tree/letter", ONE[1:]),
        ("verify M tree", "tree/box: whole\ntree/letter: left (not-known): ...\ntree/photos.zip: whole"),
    ],
    # nothing is asked about it, though a copy may be beside it
    "passed_over_beside_a_copy": [
        *(("tree/notes", b"hello\n"), ("tree/notes.gz", ONE)),
        ("migrate --no-mail tree/notes M tree", f"tree/notes.gz: left (copy): ...\ntree/notes: {BY_WORD}"),
    ],
    # `verify` and `dates` leave it out too, by which they fail
    "a_maildir_in_a_tree": [
        *(("tree/box", ONE), "migrate M tree", "!mkdir -p tree/new/cur tree/new/new tree/new/tmp"),
        ("verify M tree", "tree/box: whole\ntree/new: left (maildir): it is a Maildir"),
        "!mbox2maildir-admin dates M tree; test $? = 1",
    ],
    # as two names were to its people; what is named by itself is one of them, and a symbolic link is none
    "two_names": [
        *(("tree/Sent", ONE), "!mkdir tree/old; ln tree/Sent tree/old/Trash; ln tree/Sent other; ln -s tree link"),
        ("migrate M tree", "tree/Sent: done: also named tree/old/Trash\ntree/old/Trash: done: also named tree/Sent"),
        *(
            "= Sent/one old.Trash/one",
            ("migrate M tree", SAME := "tree/Sent: done before\ntree/old/Trash: done before"),
        ),
        *(("verify M tree", SAME.replace("done before", "whole")), ("tree/Sent", ONE + TWO), "migrate M tree"),
        *("= Sent/one Sent/two old.Trash/one old.Trash/two", "!rm -r M"),
        (
            "migrate M other tree link",
            "link/Sent: no mail: the same file as tree/Sent\nlink/old/Trash: no mail: the same file as tree/old/Trash\n"
            "other: done: also named tree/Sent and tree/old/Trash\ntree/Sent: done: also named other and ...\n"
            "tree/old/Trash: done: also named other and tree/Sent",
        ),
    ],
    "an_empty_file_of_the_same_name": [
        *(("tree/a", ONE), ("tree/a.mbox", b""), ("migrate M tree", "tree/a.mbox: no mail\ntree/a: done"), "= a/one"),
    ],
    # one command leaves the second one; after two, one folder has both, which the second one's row says, once
    "two_trees_with_the_same_name": [
        *(("old/Sent", ONE), ("older/Sent", TWO)),
        ("migrate M old older", "old/Sent: done\nolder/Sent: left (no-folder): another mailbox goes into Sent too"),
        *(("migrate M older", "older/Sent: done: its folder has mail of old/Sent too"), ("older/Sent", TWO + THREE)),
        *(("migrate M older", "older/Sent: done: it grew by 1 message"), ("Sent", TWO)),
        # whoever names the folder knows it, and so does whoever has moved the first mailbox away
        *(("migrate --folder Sent M Sent", "Sent: done: 1 message there already, from older/Sent"), "!rm -r M"),
        *("migrate M old", "!rm -r old", ("migrate M older", "older/Sent: done"), "!rm -r M"),
        *(("tree/Inbox", TWO), ("first", ONE), "migrate M first"),
        ("migrate M tree", "tree/Inbox: done: INBOX has the mail of first too"),
    ],
    # it has its name also if it is named itself, and goes into INBOX if nothing else is named, nor other mail there
    "exported_by_apple": [
        *((WORK, ONE), (SENT, TWO)),
        (
            "migrate M export/Work.mbox export/Sent.Messages.mbox",
            f"{SENT}: done: its name was Sent.Messages\n{WORK}: done",
        ),
        *(
            "= Sent-Messages/two Work/one",
            ("migrate M export", f"{SENT}: done before\n{WORK}: done before"),
            "!rm -r M",
        ),
        *(("migrate M export/Work.mbox", f"{WORK}: done"), ("verify M export/Work.mbox", f"{WORK}: whole"), "= one"),
        *("migrate M export", "= Sent-Messages/two one", ("Other.mbox/mbox", THREE)),
        ("migrate M Other.mbox", "Other.mbox/mbox: left (no-folder): ..."),
        "!mbox2maildir-admin migrate --now M Other.mbox | grep -e '--folder Other '",
    ],
    # it lacks its folder first, whatever is to be asked about it; its command gives it one, and asks
    "in_question": [
        *(
            ("tree/twice", ONE),
            ("tree/twice.mbox", DELETED),
            ("migrate M tree", f"tree/twice.mbox: {OF_TWO}\ntree/twice: {OF_TWO}"),
        ),
        "!mbox2maildir-admin migrate --all M tree | grep 'admin migrate --folder NAME M tree/twice.mbox$'",
        """!mbox2maildir-admin migrate --json M tree | grep '"reason": "no-folder", "count": 2'""",
        ("migrate --folder Once M tree/twice.mbox", "tree/twice.mbox: left (unclear): ..."),
    ],
    # its mail is in both, which is said once; nothing is said of a folder that no longer has it
    "into_another_folder": [
        *(("box", ONE + TWO), "migrate --folder A M box"),
        ("migrate --folder B M box", "box: done: 2 messages of it went into A too"),
        *(("migrate --folder B M box", "box: done before"), f"!mbox2maildir-admin {UNDO_IN_A}", "= B/one B/two"),
        *("!rm -r M/.B", ("box", ONE + TWO + THREE), ("migrate --folder C M box", CAME_BACK)),
    ],
    # what is printed undoes it where it was, also in INBOX
    "out_of_inbox": [
        *(("tree/inbox", ONE), "migrate M tree", "!mv tree/inbox tree/box", "!mbox2maildir-admin migrate M tree >says"),
        *("= box/one one", "!$(grep -o 'mbox2maildir-admin migrate --undo.*' says)", "= box/one"),
    ],
    # a printed answer goes into INBOX if that was named
    "answered_in_inbox": [
        *(("box", ONE), "migrate --folder A M box", ("box", ONE + MAY)),
        "!mbox2maildir-admin migrate --folder INBOX M box >says; true",
        *("!$(grep -o -m 1 'mbox2maildir-admin migrate --as.*' says)", "= A/one one"),
    ],
}


if __name__ == "__main__":
    run_stories(STORIES, *checks_in(globals()))
