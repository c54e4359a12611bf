"""What `migrate` makes of folders and ledgers that are not as it left them: killed runs, folders that were renamed or
deleted, mail that readers filed in other folders, ledgers that were lost, cut, damaged, or come from a backup, and the
records of versions before 0.5.0. Nothing is doubled or lost unsaid. The environment's LEDGER_SEEDS says how many random
worlds are tried.
"""
import gzip
import itertools
import os
import re
import shutil
import time
from collections.abc import Callable
from pathlib import Path
from random import Random

from tests.support.archives import RO, Home, Outcome, letter, letters, mail_of, rules_in, run_rules, says, texts_of
from tests.support.archives import want_offered, want_said
from tests.support.cases import Failed
from tests.support.checks import equal
from tests.support.homes import hand_over
from tests.support.ledgers import as_if_killed
from tests.support.mail import INTERNAL, digest_of
from tests.support.running import Kill, Row

SEEDS = int(os.environ.get("LEDGER_SEEDS", "8"))
# at which things a run may be killed while it places messages
EVENTS = range(20, 261)
FIVE = range(5)
JOBS = ["--jobs", "1"]


def rule_1_killed_and_deleted(home: Home) -> None:
    """A run is killed at any moment, and a reader deletes a message that it has placed. If the message comes back, that
    is counted, and if it does not, it counts as gone. All else is there once."""
    for event in home.each(Random(1).choices(EVENTS, k=SEEDS)):
        home.killed(Kill(event=event), OLD=letters(*FIVE))
        there = list(home.numbers())
        if not there:
            continue
        home.take(there[0])
        row = home.done("OLD")["OLD"]
        is_back = bool(home.those(there[0]))
        home.has(*(number for number in FIVE if is_back or number != there[0]))
        want_said(row, 1)


def rule_1_killed_and_gone_from_it(home: Home) -> None:
    """A run is killed at any moment, and its mailbox loses a message then. If the run has placed it, its file stays,
    and the row says so."""
    for event in home.each(Random(2).choices(EVENTS, k=SEEDS)):
        home.killed(Kill(event=event), OLD=letters(*FIVE))
        there = home.numbers()
        row = home.bring(OLD=letters(0, 2, 3, 4, 5))["OLD"]
        home.has(0, *[1] * there[1], 2, 3, 4, 5)
        found = says(row, "1 message gone from it that it had brought")
        equal(f"{event}: whether it is said: {row}", found, bool(there[1]))
        equal(f"{event}: what is said later", says(home.done("OLD")["OLD"], "gone from it"), False)


def rule_1_killed_and_emptied(home: Home) -> None:
    """The same of a mailbox that loses all."""
    home.bring(OLD=letters(*FIVE))
    as_if_killed(home.maildir)
    home.write("OLD", b"")
    want_said(home.done("OLD")["OLD"], "5 messages gone from it that it had brought")
    home.has(*FIVE)


def rule_1_deleted_and_brought_by_another(home: Home) -> None:
    """A run placed all, and was killed while it verified. A reader deletes a message, which another mailbox brings
    before the first goes on. It comes back, and that is said."""
    home.bring(OLD=letters(*FIVE))
    as_if_killed(home.maildir)
    home.take(2)
    home.write("OTHER", letters(2, 7))
    ran = home.done("OTHER", "OLD")
    home.has(*FIVE, 7)
    want_said(ran["OTHER"], "up", "to", 1, "came", "back")


def rule_1_deleted_at_once(home: Home) -> None:
    """A run placed all, and was killed while it verified. A reader deletes the last message within a tick of the
    kernel's clock after it was placed. It comes back, and that is said."""
    home.bring(OLD=letters(*FIVE))
    as_if_killed(home.maildir)
    new = home.folder() / "new"
    changed = new.stat().st_mtime_ns
    home.take(FIVE[-1])
    os.utime(str(new), ns=(changed, changed))
    row = home.done("OLD")["OLD"]
    home.has(*FIVE)
    want_said(row, 1)
    equal("its words", row.remarks, ["came-back"])


def rule_1_said_by_later_runs(home: Home) -> None:
    """A run that brought mail back was killed before it said so. Then the mailbox grows. Each later run says it."""
    home.bring(OLD=letters(*FIVE))
    as_if_killed(home.maildir)
    home.take(0, 1)
    home.done("OLD")
    home.write("OLD", letters(*range(6)))
    for _ in range(2):
        row = home.done("OLD")["OLD"]
        home.has(*range(6))
        want_said(row, 2)


def rule_1_killed_and_moved(home: Home) -> None:
    """A run over a tree is killed in `mail/x`, which is `mail/y` then. No message is in two folders unsaid."""
    for event in home.each(Random(2).choices(range(60, 301), k=SEEDS), words=JOBS):
        home.write("mail/x", letters(*range(6)))
        home.run("mail", kill=Kill(event=event))
        there = sum(home.numbers().values())
        os.rename(home.path / "mail/x", home.path / "mail/y")
        ran = home.run("mail")
        numbers = home.numbers()
        twice = sum(count > 1 for count in numbers.values())
        if set(numbers) != set(range(6)) and ran.status == 0:
            raise Failed(f"{event}: {there} were there: {dict(numbers)}: {ran.text}")
        if twice and not says(ran["mail/y"], twice) and not says(ran["mail/y"], "x"):
            raise Failed(f"{event}: {twice} are there twice, unsaid: {ran.text}")


def rule_1_a_file_counts_once(home: Home) -> None:
    """A run was killed, and the next one ended. Then the mailbox has one more of an equal message, in the form that the
    first had before a mail program wrote into it: its file is that of the first, so one more is placed."""
    for event in home.each(range(40, 280, 12)):
        home.killed(Kill(event=event), OLD=letters(1, 2, fields=RO))
        home.done("OLD")
        home.bring(OLD=letters(1, 2) + letter(1, RO))
        home.has(1, 1, 2)


def kill_while_placing(home: Home, count: int, is_in_tmp: bool) -> None:
    """A run is killed once it has placed some messages: before the next one has a file, or while that is in `tmp`."""
    # each message takes four calls
    for call in home.each(range(6 + 4 * count, 12 + 4 * count)):
        home.killed(Kill(call=call), OLD=letters(*FIVE))
        if len(home.files()) == count and any(home.folder().glob("tmp/*")) == is_in_tmp:
            return
    raise Failed(f"no run was killed with {count} messages there")


def rights_change(home: Home) -> None:
    """Somebody changes the rights of the folders."""
    for sub in ("tmp", "new", "cur"):
        (home.folder() / sub).chmod(0o750)


def one_is_read(home: Home) -> None:
    """A reader has read the first message."""
    (path,) = home.those(0)
    path.rename(home.folder() / f"cur/{path.name}:2,S")


def one_is_read_in_secret(home: Home) -> None:
    """The same, and the folders have the times that they had: only the file has another one."""
    times = {sub: sub.stat().st_mtime_ns for sub in home.folder().iterdir() if sub.is_dir()}
    one_is_read(home)
    for sub, changed in times.items():
        os.utime(sub, ns=(changed, changed))


def mail_comes_and_goes(home: Home) -> None:
    """Another program delivers a message, which a reader deletes."""
    path = home.folder() / "new/17000.1.host"
    path.write_bytes(mail_of(letters(20))[0])
    path.unlink()


# what happens after a run was killed that had placed some of five messages, and how many may have come back then: if
# the next one has no file, and if it has one in `tmp`, which shows that all before it were placed
SINCE = (
    (3, lambda home: None, 0, 0),
    (3, rights_change, 0, 0),
    (3, one_is_read, 2, 0),
    (3, one_is_read_in_secret, 2, 0),
    (3, lambda home: home.take(0), 3, 1),
    (3, lambda home: home.take(2), 3, 1),
    (0, lambda home: None, 0, 0),
    (3, lambda home: (home.folder() / "cur").rmdir(), 2, 0),
    (0, mail_comes_and_goes, 0, 0),
    (1, lambda home: home.take(0), 5, 1),
)  # type: tuple[tuple[int, Callable[[Home], object], int, int], ...]


def rule_1_how_far_a_killed_run_came(home: Home) -> None:
    """What may have come back is counted by what the run left, and by when names were changed."""
    for (count, happens, *wanted), is_in_tmp in itertools.product(SINCE, (False, True)):
        kill_while_placing(home, count, is_in_tmp)
        time.sleep(0.05)
        happens(home)
        row = home.done("OLD")["OLD"]
        home.has(*FIVE)
        found = re.search(r"up to (\d) messages? that had been deleted", texts_of(row))
        equal(f"{count}, {is_in_tmp}: {row}", int(found[1]) if found else 0, wanted[is_in_tmp])


def rule_1_killed_beside_mail_of_others(home: Home) -> None:
    """A run is killed that had found mail of another program, which has read it, in place of a message. The next one
    finds it too."""
    for call in home.each(range(6, 10)):
        home.bring(FIRST=letters(20))
        home.place_file("17000.1.host:2,S", mail_of(letters(0, fields=RO))[0])
        home.killed(Kill(call=call), OLD=letters(0, 1))
        home.done("OLD")
        home.has(0, 1, 20)


def rule_1_killed_and_mail_of_others_deleted(home: Home) -> None:
    """A run is killed that had found a file with a name of another program's in place of a message: mail of that
    program, or what a run had placed and that program has renamed. A reader deletes it. It comes back, and that is
    said. Nobody knows how far the run came before a name was changed."""
    for is_renamed, call in home.each((False, True), range(8, 12)):
        home.bring(FIRST=letters(20))
        if is_renamed:
            home.killed(Kill(call=11), OLD=letters(0, 1))
            home.rename(0)
        else:
            home.place_file("17000.1.host:2,S", mail_of(letters(0))[0])
        home.killed(Kill(call=call), OLD=letters(0, 1))
        home.take(0)
        row = home.done("OLD")["OLD"]
        home.has(0, 1, 20)
        want_said(row, "up", "to", 1 + is_renamed, "came", "back")


def rule_1_two_were_killed(home: Home) -> None:
    """Two mailboxes were done, but for the last step. What another one brings back of both is counted together."""
    home.bring(OLD=letters(0, 1), TWIN=letters(2, 3))
    as_if_killed(home.maildir)
    home.take(1, 3)
    row = home.bring(OTHER=letters(1, 3, 7))["OTHER"]
    home.has(0, 1, 2, 3, 7)
    want_said(row, "up", "to", 2, "came", "back")


def rule_1_killed_grown_and_moved(home: Home) -> None:
    """A run was killed once it had placed what was new, and the mailbox has another name then: all is known of it."""
    home.bring(OLD=letters(*FIVE))
    home.bring(OLD=letters(*range(7)))
    home.forget_end()
    (home.path / "OLD").rename(home.path / "MOVED")
    row = home.done("MOVED")["MOVED"]
    home.has(*range(7), why=row)
    home.undo("MOVED")
    home.has(why=row)


def rule_3_filed_into_another_folder(home: Home) -> None:
    """A reader deletes a message of one folder, and files one of another folder there. Both rows say what is gone."""
    home.begin(*JOBS)
    home.bring_tree(x=letters(0, 1, 2), y=letters(3, 4, 5))
    home.take(1, name="x")
    path = home.those(4, "y")[0]
    path.rename(home.folder("x") / "cur" / f"{path.name.split(':')[0]}:2,S")
    ran = home.done("mail")
    home.has(0, 2, 3, 4, 5)
    for name in ("mail/x", "mail/y"):
        want_said(ran[name], 1, "gone")
        want_said(ran[name], 3)


def a_tree(home: Home) -> None:
    """A tree of two mailboxes is done. One message of the first was deleted."""
    home.begin(*JOBS)
    home.bring_tree(x=letters(*FIVE), y=letters(10, 11))
    home.take(2, name="x")


def rule_8_moved_and_more(home: Home) -> None:
    """Mailboxes of a tree were moved, and their folders were renamed, or they were compressed or rewritten too. The
    mail of each goes into the folder of its new name, and the row says which folder has it as well. The undo there is
    offered for what is surely the same mailbox."""
    home.begin(*JOBS)
    for name, numbers in (("mail/a", [0, 1]), ("mail/b", [2, 3, 4]), ("mail/c", [5, 6])):
        home.write(name, letters(*numbers))
    home.done("mail")
    home.folder("a").rename(home.folder("put-aside"))
    (home.path / "mail/a").rename(home.path / "mail/x")
    (home.path / "mail/b").unlink()
    home.write("mail/y.gz", gzip.compress(letters(2, 3, 4)))
    (home.path / "mail/c").unlink()
    ran = home.bring_tree(z=letters(5, 6, 7, fields=RO))
    for name, *wanted in (("mail/x", 2, "put-aside"), ("mail/y.gz", 3, "b"), ("mail/z", 2, "c")):
        want_said(ran[name], *wanted)
    home.has(0, 0, 1, 1, 2, 2, 3, 3, 4, 4, 5, 5, 6, 6, 7)
    if ran["mail/y.gz"]["next"] or ran["mail/z"]["next"]:
        raise Failed(ran.text)
    home.place.run(answers_of(ran["mail/x"])[0][1:])
    home.has(name="put-aside")
    home.has(0, 1, 2, 2, 3, 3, 4, 4, 5, 5, 6, 6, 7)


def rule_8_equal_ones_moved_together(home: Home) -> None:
    """Two equal mailboxes, each of which was given a folder, are moved together: each is known by its name."""
    home.begin(*JOBS)
    for name in ("a", "b"):
        home.done(home.write(f"old/{name}", letters(0, 1)), words=["--folder", f"of-{name}"])
    (home.path / "old").rename(home.path / "new")
    for name in ("a", "b"):
        equal(f"where {name} is", home.done(f"new/{name}")[f"new/{name}"]["folder"], f"of-{name}")
    home.has(0, 0, 1, 1)


def rule_8_moved_without_mail(home: Home) -> None:
    """A mailbox that has no message but the one in which a server keeps its UIDs was moved. What is delivered to it
    then is placed: the folder has its UIDs. Another mailbox at its new path has others."""
    for is_other in home.each((False, True), words=["--dovecot", "--folder", "Archive"]):
        home.bring(OLD=INTERNAL)
        (home.path / "OLD").rename(home.path / "MOVED")
        own = INTERNAL.replace(b"X-IMAP: 17", b"X-IMAP: 16") if is_other else INTERNAL
        row = home.bring(MOVED=own)["MOVED"]
        equal(f"{home.values}: has others", says(row, "Archive has the UIDs of another mailbox"), is_other)
        home.write("MOVED", own + letter(1))
        ran = home.run("MOVED")
        equal(f"{home.values}: why it is left", ran["MOVED"]["reason"], "numbered" if is_other else None)
        home.has(*[1] * (not is_other))


def rule_8_moved_and_killed(home: Home) -> None:
    """A mailbox of a tree was moved, and the run that brings it to the folder of its new name is killed. The next one
    says that the old folder has its mail too."""
    for event in home.each(range(60, 260, 20), words=JOBS):
        home.bring_tree(x=letters(0, 1, 2))
        (home.path / "mail/x").rename(home.path / "mail/y")
        home.run("mail", kill=Kill(event=event))
        row = home.done("mail")["mail/y"]
        home.has(0, 0, 1, 1, 2, 2)
        if row["verdict"] == "done":
            want_said(row, 3, "x")


def rule_8_moved_before_anything_was_placed(home: Home) -> None:
    """A run over a tree is killed before it has placed mail of `mail/x`, which is `mail/y` then. The folder x stays if
    it was made, since nothing shows who made it, and holds nothing."""
    made = 0
    for event in home.each(range(38, 74, 3), words=JOBS):
        home.write("mail/x", letters(*FIVE))
        home.run("mail", kill=Kill(event=event))
        if not home.numbers("x"):
            made += home.folder("x").exists()
            (home.path / "mail/x").rename(home.path / "mail/y")
            home.done("mail")
            home.has(*FIVE, name="y")
            home.has(name="x")
    equal("whether x was made before a kill", made > 0, True)


def rule_8_a_named_folder_was_renamed(home: Home) -> None:
    """People gave another name to a folder that was named by --folder. The mailbox's mail goes on there, also if a disk
    was full when the first line of its ledger was written."""
    for is_cut in home.each((False, True)):
        home.bring(OLD=letters(*FIVE))
        home.take(2)
        text = home.ledger().read_bytes()
        home.ledger().write_bytes(text[:20] + b"\t\n" + text if is_cut else text)
        home.folder().rename(home.folder("Put-aside"))
        home.bring(OLD=letters(*FIVE, 6))
        home.has(0, 1, 3, 4, 6, name="Put-aside")
        home.has(0, 1, 3, 4, 6)


def rule_8_a_mailbox_was_away(home: Home) -> None:
    """A mailbox is away, as on a disk that is not mounted, while another one brings all that it had. It is there again,
    and has grown: what is new in it is placed."""
    home.bring(OLD=letters(*FIVE))
    (home.path / "OLD").unlink()
    home.bring(ALL=letters(*FIVE, 5, 6))
    home.bring(OLD=letters(*FIVE, 7))
    home.has(*range(8))
    home.undo("ALL")
    home.has(*FIVE, 7)


def rule_8_another_mailbox_has_its_path(home: Home) -> None:
    """A mailbox of a tree is moved, and another one has its path. No message is in two folders unsaid, whichever of the
    two comes first."""
    for name in home.each(("mail/a", "mail/z"), words=JOBS):
        home.bring_tree(x=letters(*range(6)))
        os.rename(home.path / "mail/x", home.path / name)
        ran = home.bring_tree(x=letters(9))
        home.has(*FIVE, 5, name=name[-1])
        want_said(ran[name], 6, "x")
        if ran[name]["next"]:
            raise Failed(f"nothing can undo what is in x: {ran.text}")


def rule_8_a_link_leads_elsewhere(home: Home) -> None:
    """A symbolic link leads to a mailbox that was done by its own path, and then to another one."""
    home.bring(OLD=letters(*FIVE))
    home.write("OLD", letters(*FIVE, 5))
    home.write("NEXT", letters(6))
    link = home.path / "CURRENT"
    for target in "OLD", "NEXT":
        link.symlink_to(target)
        home.done("CURRENT")
        link.unlink()
    home.has(*range(7))


def rule_8_a_folder_has_two_names(home: Home) -> None:
    """A symbolic link gives a folder another name. Mailboxes that go to either name are not at work at the same time,
    since the ledger is one: both are done, and stay so."""
    home.begin("--jobs", "2")
    home.write("mail/x", letters(*range(200)))
    home.write("mail/y", letters(*range(100, 300)))
    home.done(home.write("other", letters(300)), words=["--folder", "y"])
    (home.maildir / ".x").symlink_to(".y")
    for _ in range(2):
        ran = home.done("mail")
        home.has(*range(301), name="y")
        if "ledger" in ran.text:
            raise Failed(f"the ledger is not whole: {ran.text}")


def rule_8_the_mail_of_a_folder_was_deleted(home: Home) -> None:
    """People deleted all mail of a folder. What is new is placed, and the rest counts as gone."""
    home.bring(OLD=letters(*FIVE))
    home.take(*FIVE)
    want_said(home.done("OLD")["OLD"], 5, "gone")
    home.has()
    home.bring(OLD=letters(*FIVE, 6, fields=RO))
    home.has(6)


def rule_4_a_renamed_file(home: Home) -> None:
    """Another program gave the file of a message another name, and the mailbox that brought it may have lost it since.
    A mailbox that has the message twice gets one more, and nothing of it is gone: its undo takes that one away again.
    If the file was deleted, the row says so, and the undo leaves a mailbox that still has the message the new file."""
    for is_lost, is_deleted in home.each((False, True), (False, True)):
        home.bring(OLD=letters(5, 6))
        path = home.those(5)[0]
        if is_deleted:
            path.unlink()
        else:
            path.rename(path.parent.parent / "cur/17000.1.host:2,S")
        if is_lost:
            home.bring(OLD=letters(6))
        row = home.bring(TWICE=letters(5, 5))["TWICE"]
        home.has(*[5] * (2 - is_deleted), 6)
        if ("gone" in texts_of(row)) != is_deleted or "by no mailbox" in texts_of(row):
            raise Failed(f"deleted: {is_deleted}: {row}")
        home.undo("TWICE")
        home.has(*[5] * (not (is_lost and is_deleted)), 6)


def rule_9_a_ledger_was_lost_of_a_folder_with_uids_of_another(home: Home) -> None:
    """The folder has the UIDs of a mailbox, its ledger is lost, and it has mail of another mailbox. The first command
    that is printed stores the rest."""
    home.begin("--dovecot", "--folder", "Archive")
    uids = b"X-IMAPbase: 170000000%d 0000000003\nX-UID: 3\n"
    home.write("OLD", letter(0, uids % 1) + letter(1))
    home.write("OTHER", letter(1, uids % 2) + letter(2))
    home.done("OLD")
    home.ledger().unlink()
    row = home.left("OTHER")
    words = row["next"][0]["argv"][1:]
    ran = Outcome(words, home.place.run(words))
    if row["reason"] != "partly-there" or ran.status != 0:
        raise Failed(f"what is printed first is left: {row} {ran.text}")
    home.has(0, 1, 2)
    want_said(row, "Archive has the UIDs of another mailbox")


def rule_9_another_mailbox_after_a_ledger_was_lost(home: Home) -> None:
    """A ledger was lost, or comes from a backup, and lacks a mailbox of which mail was deleted. What comes back by
    another mailbox is counted, in each run. A ledger that is whole brings nothing back."""
    home.bring(FIRST=letters(50))
    older = home.ledger().read_bytes()
    home.bring(OLD=letters(*FIVE))
    kept = home.keep(home.maildir)
    for ledger in (b"", older, None):
        home.put(kept, home.maildir)
        if ledger is not None:
            home.ledger().write_bytes(ledger)
        home.take(1, 2)
        home.write("OTHER", letters(1, 2, 30))
        for _ in range(2):
            row = home.done("OTHER")["OTHER"]
            if ledger is None:
                home.has(0, 3, 4, 30, 50)
            else:
                home.has(*FIVE, 30, 50)
                want_said(row, "up", "to", 3, "came", "back")


def rule_9_a_ledger_from_before_an_undo(home: Home) -> None:
    """A ledger comes from a backup that was made before an undo, and another mailbox may make it longer than it was
    then. The mailbox that was undone is left until --again, and what is gone of it is said of another one."""
    for grows, names in home.each((False, True), (["OLD"], ["NEW", "OLD"], ["NEW"])):
        home.bring(OLD=letters(*FIVE), OTHER=letters(20))
        with home.from_a_backup(home.ledger()):
            home.write("OLD", letters(0, 1, 2))
            home.undo("OLD")
            home.has(3, 4, 20)
        if grows:
            home.bring(OTHER=letters(*range(20, 40)))
        more = range(21, 40) if grows else ()
        home.write("NEW", letters(1, 3))
        home.write("OLD", letters(*FIVE))
        for name in names:
            ran = home.run(name)
            equal(f"status of {name}: {ran.text}", ran.status, int(name == "OLD"))
            want_said(ran[name], "1 that" if name == "NEW" else "older than its record")
            home.done(name, words=["--again"])
        home.has(*(FIVE if "OLD" in names else (1, 3, 4)), 20, *more)
        home.undo(*names)
        # by the ledger, what stays may be all that there is of the other mailbox
        home.has(*[] if "OLD" in names else [1, 3, 4], 20, *more)


def rule_9_an_older_ledger_and_others(home: Home) -> None:
    """A ledger comes from a backup, and what had come since was deleted. Other mailboxes make it longer than it was:
    each row says what may have come back, and the mailbox is left all the same, until --again."""
    home.bring(OLD=letters(0, 1))
    with home.from_a_backup(home.ledger()):
        home.bring(OLD=letters(*FIVE))
        home.take(2, 3, 4)
    for name, numbers in (("A", [2, *range(20, 40)]), ("B", [3, *range(40, 60)])):
        home.write(name, letters(*numbers))
        want_said(home.done(name)[name], "up", "to", "came", "back")
    want_said(home.done("OLD")["OLD"], "older than its record")
    home.write("OLD", letters(*FIVE, 5))
    want_offered(home.left("OLD"), "--again")
    home.has(0, 1, 2, 3, *range(20, 60))
    home.done("OLD", words=["--again"])
    home.has(*range(6), *range(20, 60))
    home.bring(OLD=letters(*range(7)))
    home.has(*range(7), *range(20, 60))


def rule_9_an_undo_by_an_older_ledger(home: Home) -> None:
    """A ledger comes from a backup, and lacks what a mailbox has brought since. An undo could take what others have:
    the mailbox is left, until --again has written the lines anew. tests/tables/restored.py has one that lacks a whole
    mailbox."""
    home.bring(OTHER=letters(1, 2))
    with home.from_a_backup(home.ledger()):
        home.bring(OTHER=letters(1, 2, 3))
    want_said(home.left("OTHER", words=["--undo"]), "OTHER", "--again")


def rule_9_an_undo_beside_files_of_another_folder(home: Home) -> None:
    """Files that people moved from another folder are explained there, and keep no undo from its work."""
    home.bring(OLD=letters(0, 1))
    home.bring(["--folder", "Other"], OTHER=letters(2))
    path = home.those(2)[0]
    path.rename(home.folder() / "cur" / path.name)
    home.undo("OLD")
    home.has(2)


def rule_9_times_before_1970(home: Home) -> None:
    """Names in a folder changed before 1970, by a wrong clock. The ledger is not damaged."""
    home.bring(OLD=letters(*FIVE))
    for count in (6, 7):
        for sub in ("tmp", "new", "cur"):
            os.utime(home.folder() / sub, ns=(0, -(10**9)))
        home.bring(OLD=letters(*range(count)))
        home.has(*range(count))


def rule_9_cut_anywhere(home: Home) -> None:
    """A ledger ends anywhere. All is done, or the mailbox is left and --again does it; nothing is there twice."""
    home.bring(OTHER=letters(3, 4, 20, fields=RO), OLD=letters(*FIVE))
    home.bring(OLD=letters(*FIVE, 5))
    kept, text = home.keep(home.maildir), home.ledger().read_bytes()
    home.write("OLD", letters(*FIVE, 5, 6))
    for end in [*range(0, len(text), max(1, len(text) // 40)), *range(len(text) - 12, len(text))]:
        home.put(kept, home.maildir)
        home.ledger().write_bytes(text[:end])
        ran = home.run("OLD")
        if ran.status:
            home.has(*FIVE, 5, 20, why=end)
            home.done("OLD", words=["--again"])
        home.has(*FIVE, 5, 6, 20, why=end)
        home.done("OLD")
        home.has(*FIVE, 5, 6, 20, why=end)


def rule_9_what_a_power_cut_leaves(home: Home) -> None:
    """After the last line stands the beginning of one, or bytes of NUL. The ledger is gone on with."""
    home.bring(OLD=letters(*FIVE))
    lines = home.ledger().read_bytes().splitlines(True)
    tails = [line[: len(line) // 2] for line in lines] + [line[:-1] for line in lines] + [b"\0" * 4, b"\0" * 700]
    for tail in home.each(tails):
        home.bring(OLD=letters(*FIVE))
        home.take(2)
        with open(home.ledger(), "ab") as file:
            file.write(tail)
        for new in (6, 7):
            home.bring(OLD=letters(*FIVE, *range(6, new + 1)))
            home.has(0, 1, 3, 4, *range(6, new + 1))


def rule_9_other_damage(home: Home) -> None:
    """A line in the midst of a ledger is none. A mailbox that has changed is left with that line."""
    home.bring(OLD=letters(*FIVE))
    lines = home.ledger().read_bytes().splitlines(True)
    for place in home.each(range(1, len(lines) - 1)):
        home.bring(OLD=letters(*FIVE))
        lines = home.ledger().read_bytes().splitlines(True)
        home.ledger().write_bytes(b"".join([*lines[:place], b"this is no line\n", *lines[place + 1 :]]))
        row = home.left("OLD", letters(*FIVE, 6))
        want_said(row, place + 1)
        damaged = home.ledger().read_bytes()
        home.done("OLD", words=["--again"])
        kept = Path(f"{home.ledger()}.damaged")
        equal("what is kept of it", kept.read_bytes(), damaged)
        kept.unlink()
        home.has(*FIVE, 6)


def rule_9_a_line_too_many(home: Home) -> None:
    """A batch has a line more than it says: it says nothing. The mailbox is left, and its mail stays as it is."""
    home.bring(OLD=letters(*FIVE))
    lines = home.ledger().read_bytes().splitlines(True)
    home.ledger().write_bytes(b"".join([*lines[:3], *lines[2:]]))
    want_offered(home.left("OLD", letters(*FIVE, 6)), "--again")


def rule_9_a_ledger_of_others(home: Home) -> None:
    """Others may have written a ledger, or it is no file of its own: it is neither read nor written. It explains no
    mail in another folder either."""
    spoils: list[Callable[[Path], object]] = [
        lambda path: path.chmod(0o620),
        lambda path: path.chmod(0o602),
        lambda path: os.link(path, f"{path}.other"),
        lambda path: os.symlink(path.rename(f"{path}.other"), path),
    ]
    for spoil in home.each(spoils):
        home.bring(OLD=letters(*FIVE))
        spoil(home.ledger())
        equal("why it is left", home.left("OLD", letters(*FIVE, 6))["reason"], "ledger")
        home.folder().joinpath("new").rename(home.maildir / "new")
        home.words = ["--folder", "INBOX"]
        want_offered(home.left("OTHER", letters(0, 8)), "--again")


def rule_9_a_newer_ledger(home: Home) -> None:
    """The mail of a Maildir comes from a backup, and the ledger does not. What is gone is said."""
    home.bring(OLD=letters(*FIVE))
    with home.from_a_backup(home.maildir):
        home.bring(OLD=letters(*range(8)))
        ledger = home.ledger().read_bytes()
        record = home.record.read_bytes()
    home.ledger().write_bytes(ledger)
    home.record.write_bytes(record)
    want_said(home.done("OLD")["OLD"], 3, "gone")
    home.has(*FIVE)
    home.bring(OLD=letters(*range(9)))
    home.has(*FIVE, 8)
    home.done("OLD", words=["--again"])
    home.has(*range(9))


def rule_9_a_record_was_lost_and_a_folder_renamed(home: Home) -> None:
    """Nothing shows into which folder a mailbox went but the ledger of that folder: it goes on there. If --folder names
    another one, it is left, each time, with the name of the folder that has its mail."""
    home.begin("--folder", "Archive")
    home.bring(OLD=letters(*FIVE))
    home.folder().rename(home.folder("Put-aside"))
    home.record.unlink()
    for _ in range(2):
        row = home.left("OLD")
        equal("why it is left", row["reason"], "no-folder")
        want_said(row, "Put-aside")
    home.has(*FIVE)
    home.write("OLD", letters(*FIVE, 6))
    home.words = row["next"][0]["argv"][2:-2]
    home.done("OLD")
    home.has(*FIVE, 6, name="Put-aside")
    # a copy of a folder has its ledger too
    hand_over(Path(shutil.copytree(str(home.folder("Put-aside")), str(home.folder("Zebra")))))
    home.record.unlink()
    for words in (JOBS, home.words):
        home.words = [*words]
        equal("what becomes of it", home.done("OLD")["OLD"]["verdict"], "done before")
    home.has(*FIVE, 6, name="Put-aside")
    a_tree(home)
    home.folder("x").rename(home.folder("put-aside"))
    home.record.unlink()
    home.bring_tree(x=letters(*FIVE, 6))
    home.has(0, 1, 3, 4, 6, name="put-aside")
    home.has(0, 1, 3, 4, 6, 10, 11)


def rule_9_an_older_record_and_a_mailbox_that_is_gone(home: Home) -> None:
    """The record comes from a backup. A mailbox that it lacks gets the bytes of another one, which is deleted, and then
    its own mail again: nothing is there twice."""
    home.bring(OLD=letters(1, 2))
    with home.from_a_backup(home.record):
        home.bring(OTHER=letters(1, 2, 3, 4))
    (home.path / "OLD").unlink()
    for numbers in ([1, 2], [1, 2, 3, 4]):
        home.bring(OTHER=letters(*numbers))
        home.has(1, 2, 3, 4)
    home.undo("OTHER")
    home.has(1, 2)


def rule_9_mail_of_other_programs(home: Home) -> None:
    """Files that no ledger explains, and that have other names, are nobody's: they serve, and no undo takes them."""
    home.bring(FIRST=letters(20))
    for number, mail in enumerate(mail_of(letters(0, 1) + letter(2, RO))):
        home.place_file(f"17000.{number}.host:2,S", mail)
    row = home.bring(OLD=letters(*FIVE))["OLD"]
    home.has(*FIVE, 20)
    want_said(row, 3)
    home.place_file("17001.host:2,S", mail_of(letters(7))[0])
    home.bring(OLD=letters(*FIVE, 7))
    home.has(*FIVE, 7, 20)
    home.bring(OTHER=letters(0))
    home.has(*FIVE, 7, 20)
    home.undo("OLD")
    home.has(0, 1, 2, 7, 20)


def rule_9_files_of_this_program(home: Home) -> None:
    """Files with the names of messages that no ledger explains: the mailbox is left, and --again brings the rest. What
    was there is nobody's."""
    home.bring(OLD=letters(*FIVE))
    home.take(3, 4)
    for path in (home.ledger(), home.record):
        path.unlink()
    row = home.brings_again("OLD")
    want_said(row, 2)
    home.has(*FIVE)
    home.undo("OLD")
    home.has(0, 1, 2)


def rule_9_files_in_another_form(home: Home) -> None:
    """Record and ledger were lost, and a mail program has written into the mailbox since. What is there is not placed
    once more."""
    for more in home.each((range(0), range(6, 7))):
        home.bring(OLD=letters(*FIVE))
        for path in (home.ledger(), home.record):
            path.unlink()
        home.write("OLD", letters(*FIVE, *more, fields=RO))
        if more:
            want_offered(home.left("OLD"), "--again")
        home.done("OLD", words=["--again"] if more else [])
        home.has(*FIVE, *more)


DOUBTFUL = letter(0) + letter(1, body=b"hello\nFrom b@example.com Mon Jan  6 12:00:01 2020\n\nmore\n") + letter(2)


def answers_of(row: Row) -> list[list[str]]:
    """The commands of a row that answer its question."""
    return [one["argv"] for one in row["next"] if "argv" in one]


def rule_10_an_answer_stays(home: Home) -> None:
    """An answer is noted with the messages that it is about: it holds though mail programs write into the mailbox, it
    is sorted, moved and grows. A doubtful line of another message is asked about."""
    for place in home.each(range(2)):
        answers = answers_of(home.left("OLD", DOUBTFUL))
        ran = home.done(
            "OLD", words=[word for word in answers[place][2:-2] if word not in ("--now", "--folder", "Archive")]
        )
        count = len(home.files())
        text = DOUBTFUL.replace(b"@example.com>\n", b"@example.com>\nStatus: RO\n")
        for new in (text, text + letter(5), letter(6) + text + letter(5)):
            ran = home.bring(OLD=new)
        if len(home.files()) != count + 2:
            raise Failed(f"{len(home.files())} files after {count}: {ran.text}")
        os.rename(home.path / "OLD", home.path / "PUT-ASIDE")
        home.done("PUT-ASIDE")
        other = DOUBTFUL.replace(b"more", b"other").replace(b"<1@", b"<9@")
        home.write("PUT-ASIDE", new + other)
        home.left("PUT-ASIDE")


OLD_RECORD = "{word}\t.Archive\t{size}\t{digest}\t{messages}\t2026-11-27T10:00:00Z\t{path}{more}\n"


def rule_12_a_record_of_an_earlier_version(home: Home) -> None:
    """A Maildir with the record of an earlier version is left, with the way on. Once the record is moved away, --again
    brings the rest, and what is there is nobody's."""
    for more in home.each(("", "\tmboxrd")):
        home.bring(OLD=letters(*FIVE))
        home.take(3)
        home.ledger().unlink()
        record = home.record
        text = letters(*FIVE)
        fields = {"size": len(text), "digest": digest_of(text), "messages": 5, "path": home.path / "OLD", "more": more}
        lines = [OLD_RECORD.format(word=word, **fields) for word in ("begun", "converted", "done")]
        record.write_text("".join(lines), encoding="utf-8")
        home.write("NEW", letters(7))
        ran = home.run("OLD", "NEW")
        home.has(0, 1, 2, 4)
        if ran.status != 1:
            raise Failed(ran.text)
        record.rename(home.path / "old-record")
        home.done("OLD", words=["--again"])
        home.done("NEW")
        home.has(*FIVE, 7)
        home.undo("OLD")
        home.has(0, 1, 2, 4, 7)


if __name__ == "__main__":
    run_rules(rules_in(globals()))
