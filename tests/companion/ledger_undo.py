"""What `migrate` makes of mailboxes that share messages: overlapping archives, equal mailboxes, and their undo. Each
message is there as often as the mailbox has it that has it most often, and no undo takes what another mailbox brought.
"""
import os
import re
from collections.abc import Callable, Sequence
from pathlib import Path

from tests.support.archives import PROGRAMS, RO, TEN, Home, letter, letters, mail_of, rules_in, run_rules, want_said
from tests.support.archives import want_unsaid
from tests.support.cases import Failed
from tests.support.checks import equal
from tests.support.mail import INTERNAL, digest_of
from tests.support.running import Kill


def rule_6_equal_mailboxes(home: Home) -> None:
    """Two mailboxes have the same messages, in one command and in two, also if a server has written into one of them
    before or after. What one has brought stays until the other one is undone too, in any order, and is that one's: what
    was deleted of it does not come back."""
    ways: tuple[tuple[bool, list[str]], ...] = ((True, []), (False, ["--dovecot"]))
    forms = (b"", b""), (RO, RO), (b"", RO)
    for names, (is_one_command, words), (fields, then) in home.each((["OLD", "TWIN"], ["TWIN", "OLD"]), ways, forms):
        home.write("OLD", letters(*TEN))
        home.write("TWIN", letters(*TEN, fields=fields))
        for those in [["OLD", "TWIN"]] if is_one_command else [["OLD"], ["TWIN"]]:
            home.done(*those, words=words)
        home.has(*TEN)
        home.write(names[1], letters(*TEN, fields=then))
        want_said(home.undo(names[0])[names[0]], f"kept 10 messages that {names[1]} has too")
        home.has(*TEN)
        home.take(3)
        equal(f"{home.values}: then", home.done(names[1], words=words)[names[1]]["verdict"], "done before")
        home.has(0, 1, 2, *TEN[4:])
        home.undo(names[1])
        home.has()


def rule_6_equal_mailboxes_without_mail(home: Home) -> None:
    """All mail of the two was deleted. Nothing comes back once one of them is undone."""
    for fields in home.each((b"", RO)):
        home.bring(OLD=letters(*TEN), TWIN=letters(*TEN, fields=fields))
        home.take(*TEN)
        home.undo("TWIN")
        home.done("OLD")
        home.has()


def rule_6_after_a_killed_run(home: Home) -> None:
    """A run of the first was killed, a twin that has the message twice is done, and then the first in another form.
    Once the twin is undone, the message is there once."""
    for event in home.each(range(40, 280, 12)):
        home.killed(Kill(event=event), OLD=letter(2))
        home.bring(TWIN=letter(2, RO) + letter(2))
        home.bring(OLD=letter(2, b"X-UID: 3\n"))
        home.has(2, 2)
        home.undo("TWIN")
        home.has(2)
        home.undo("OLD")
        home.has()


def rule_6_a_name_that_another_has_placed_since(home: Home) -> None:
    """A run is killed before it has placed a message, and a mailbox that has it twice places it under the same name.
    That file is not the first one's, which shares that of a third: the undo of the other leaves no second file."""
    for call in home.each(range(6, 12)):
        home.killed(Kill(call=call), OLD=letter(2))
        home.bring(THIRD=letter(2, RO))
        home.bring(TWICE=letter(2, RO) + letter(2))
        home.bring(OLD=letter(2))
        home.undo("TWICE")
        home.has(2)


def rule_6_nothing_is_gone_after_a_killed_run(home: Home) -> None:
    """Whatever a killed run was to bring, the next one has brought it, and an undo says nothing of it. So it is if a
    program rewrote the mailbox between the two, so that its files have other names."""
    for call, fields in home.each(range(1, 24, 2), (b"", RO)):
        home.killed(Kill(call=call), OLD=letters(1, 2, 3))
        home.bring(OLD=letters(1, 2, 3, fields=fields))
        want_unsaid(home.undo("OLD")["OLD"], "gone")
        home.has()


def rule_6_three_words(home: Home) -> None:
    """Of what was placed, what another mailbox shares stays, and what was nobody's stays always."""
    home.bring(FIRST=letters(20))
    home.place_file("17000.1.host:2,S", mail_of(letters(4))[0])
    home.bring(OLD=letters(*range(6)), OTHER=letters(*range(3, 9), fields=RO))
    home.has(*range(9), 20)
    row = home.undo("OLD")["OLD"]
    home.has(*range(3, 9), 20)
    want_said(row, 3)
    home.undo("OTHER")
    home.has(4, 20)
    home.done("OLD", "OTHER")
    home.has(*range(9), 20)
    home.undo("OTHER")
    home.has(*range(6), 20)


# the other mailbox is not there any more, has another name, is empty, or has other mail
SPOILT: Sequence[Callable[[Path], object]] = (
    os.unlink,
    lambda path: path.rename(f"{path}.old"),
    lambda path: os.truncate(path, 0),
    lambda path: path.write_bytes(letters(77)),
)


def rule_6_without_the_other_mailbox(home: Home) -> None:
    """What the other mailbox is now makes no difference."""
    for spoil, names in home.each(SPOILT, (["OLD", "OTHER"], ["OTHER", "OLD"])):
        home.write("OLD", letters(*range(9)))
        home.write("OTHER", letters(*range(6, 12), fields=RO))
        home.done(*names)
        spoil(home.path / "OTHER")
        row = home.undo("OLD")["OLD"]
        home.has(*range(6, 12))
        want_said(row, 3)


def rule_6_after_growth_and_a_server(home: Home) -> None:
    """A mailbox that grew, and into which a server wrote, before or after a run saw that, is undone as a whole."""
    for fields, is_seen in home.each(PROGRAMS.values(), (False, True)):
        home.bring(OLD=letters(*TEN, fields=fields.before))
        home.write("OLD", letters(*TEN, 10, fields=fields.after))
        if is_seen:
            home.done("OLD")
        home.undo("OLD")
        home.has()


def gets(info: str) -> Callable[[Path], object]:
    """A program gives a file a name with this at its end."""
    return lambda path: path.rename(path.parents[1] / "cur" / f"{path.name}{info}")


def edited(path: Path) -> None:
    """Somebody edits a file."""
    path.write_bytes(path.read_bytes() + b"more\n")


def edited_and_renamed(path: Path) -> None:
    """Somebody edits a file, and mbsync gives it a name of its own."""
    edited(path)
    gets(",U=1:2,S")(path)


def linked(path: Path) -> None:
    """A symbolic link stands in the place of a file."""
    path.symlink_to(path.rename(path.parents[3] / "elsewhere"))


def twice(path: Path) -> None:
    """A file is there with flags too, and one that somebody edited has its name."""
    gets(":2,S")(path)
    path.write_bytes(mail_of(letter(1))[0] + b"more\n")


EDITED, RENAMED = "kept 1 file that somebody edited", "kept 1 message that another program renamed"
# what happens to a file of two, how often its message is there then, and what the row says of the undo
FILES = (
    (gets(":2,FS"), 0, ["removed 2 messages"]),
    (gets(",U=1:2,S"), 1, ["removed 1 message", RENAMED]),
    (lambda path: path.rename(path.parents[1] / "cur/17.host:2,S"), 1, ["removed 1 message", RENAMED]),
    (edited, 1, ["removed 1 message", EDITED]),
    (edited_and_renamed, 1, ["removed 1 message", RENAMED]),
    (linked, 1, ["removed 1 message", EDITED]),
    (twice, 1, ["removed 2 messages"]),
    (os.unlink, 0, ["removed 1 message", "1 message already gone"]),
)


def rule_6_whatever_became_of_a_file(home: Home) -> None:
    """A file goes whatever its flags, unless somebody has edited it, or another program has renamed it. A rehearsal
    says what will be done."""
    for deed, count, wanted in home.each(FILES):
        home.bring(OLD=letters(0, 1))
        deed(home.those(1)[0])
        rehearsed, row = (ran["OLD"] for ran in (home.run("OLD", words=["--undo", "--dry-run"]), home.undo("OLD")))
        home.has(*[1] * count)
        equal(f"{home.values}: what is said", [one["says"] for one in row["remarks"]], wanted)
        would = [one.replace("removed", "would remove").replace("kept", "would keep") for one in wanted]
        equal(f"{home.values}: rehearsed", [one["says"] for one in rehearsed["remarks"]], would)


def rule_6_edited_beside_a_killed_run(home: Home) -> None:
    """A run of the first was killed before it had placed a message, which its twin brings. Somebody edits that file,
    and an undo of the twin keeps it. It is no file of the first: the twin is left until the file is moved away."""
    home.bring(OLD=letters(1))
    home.forget_end()
    home.take(1)
    home.bring(TWIN=letters(1))
    edited(home.those(1)[0])
    want_said(home.undo("TWIN")["TWIN"], EDITED)
    equal("why it is left", home.left("TWIN")["reason"], "not-verified")
    home.those(1)[0].rename(home.path / "edited")
    home.done("TWIN")
    home.has(1)


def rule_6_what_is_kept(home: Home) -> None:
    """What the mailbox does not have any more stays, and so does what others have or had, which is counted each."""
    home.bring(OLD=letters(*TEN), OTHER=letters(0, 1, 3))
    home.bring(OTHER=letters(1, 3))
    home.bring(ANOTHER=letters(2))
    home.write("OLD", letters(*range(6)))
    home.take(9)
    rehearsed, row = (ran["OLD"] for ran in (home.run("OLD", words=["--undo", "--dry-run"]), home.undo("OLD")))
    home.has(0, 1, 2, 3, 6, 7, 8)
    others = "3 messages that OTHER and 1 more have too"
    for one, keeps in (rehearsed, "would keep"), (row, "kept"):
        for text in others, "3 messages that it no longer has", "1 message that another mailbox brought too":
            want_said(one, f"{keeps} {text}", "1 message already gone")


def rule_6_dovecots_own_message(home: Home) -> None:
    """A mailbox begins with Dovecot's own message, which is one of its own without --dovecot: it goes too."""
    for words, says in home.each([([], "removed 2 messages"), (["--dovecot"], "removed 1 message")]):
        home.bring(words, OLD=INTERNAL + letter(0))
        equal(f"{words}: what is said", home.undo("OLD")["OLD"]["says"], says)
        home.has()


def rule_6_by_the_ledger_alone(home: Home) -> None:
    """The record comes from a backup, and does not have the mailbox. The ledger suffices."""
    home.bring(OTHER=letters(20))
    with home.from_a_backup(home.record):
        home.bring(OLD=letters(1, 2))
    equal("how many messages it had", home.undo("OLD")["OLD"]["messages"], 2)
    home.has(20)


def rule_6_filed_elsewhere(home: Home) -> None:
    """Mail that a reader has filed in another folder stays there."""
    home.bring(OLD=letters(*TEN))
    home.write("OTHER", letters(20))
    home.run("OTHER", words=["--folder", "Other"])
    path = home.those(4)[0]
    path.rename(home.folder("Other") / "cur" / path.name)
    home.undo("OLD")
    home.has(4, 20)


def rule_6_a_killed_undo_of_equal_messages(home: Home) -> None:
    """A mailbox had a message three times, and lost one of them. An undo keeps one file, at whichever moment it was
    killed before."""
    for event in home.each(range(0, 120, 6)):
        home.bring(OLD=letters(1, 2, 1, 1))
        home.write("OLD", letters(1, 2, 1))
        if event:
            home.run("OLD", words=["--undo"], kill=Kill(event=event))
        # a run that was killed at its very end leaves nothing to undo
        home.run("OLD", words=["--undo"])
        home.has(1)


def rule_6_a_foreign_file_was_deleted(home: Home) -> None:
    """One mailbox has a message in a file that was nobody's, and another mailbox has it twice. A reader deletes the
    file that was nobody's. The undo of the second mailbox leaves the file that it placed to the first."""
    home.bring(FIRST=letters(20))
    file = home.place_file("1700.M1.host:2,S", mail_of(letter(1))[0])
    home.bring(ONCE=letters(1, 2))
    home.bring(TWICE=letters(1, 3, 1))
    home.has(1, 1, 2, 3, 20)
    file.unlink()
    home.undo("TWICE")
    home.has(1, 2, 20)
    home.undo("ONCE")
    home.has(20)


def rule_6_what_was_nobodys_is_shared_first(home: Home) -> None:
    """A mailbox has a message twice: in a file that was nobody's, and in one that it has placed, at once or before its
    run was killed. What another mailbox shares is nobody's, so an undo of the first leaves no second file."""
    for how in home.each(("at once", "killed", "killed, and done again")):
        home.bring(FIRST=letters(20))
        home.place_file("1700.M1.host:2,S", mail_of(letter(1))[0])
        home.bring(TWICE=letters(1, 1))
        if how != "at once":
            home.forget_end()
        if how == "killed, and done again":
            home.done("TWICE")
        home.bring(ONCE=letters(1))
        home.has(1, 1, 20)
        home.undo("TWICE")
        home.has(1, 20)
        home.undo("ONCE")
        home.has(1, 20)


def rule_6_what_was_nobodys(home: Home) -> None:
    """What was nobody's stays, also under a name that this program gives. What a reader has deleted of it is gone."""
    home.bring(FIRST=letters(20))
    several = [home.place_file(f"170{number}.M1.host:2,S", mail_of(letter(number))[0]) for number in (1, 2)]
    mail = mail_of(letter(3))[0]
    home.place_file(f"{digest_of(mail)}.1:2,S", mail)
    home.bring(OLD=letters(0, 1, 2, 3), words=["--again"])
    several[0].unlink()
    row = home.undo("OLD")["OLD"]
    home.has(2, 3, 20)
    want_said(row, "removed 1 message", "kept 2 messages that were nobody's", "1 message already gone")


def rule_6_both_files_are_gone(home: Home) -> None:
    """A reader deletes a message of two mailboxes, of which each has placed its own file. The undo of one has no file
    that it could leave to the other."""
    for name, quoted in ("OLD", b">"), ("OTHER", b">>"):
        home.done(home.write(name, letter(50, body=b"hello\n%sFrom the shed.\n" % quoted)))
    home.take(50)
    home.take(50)
    row = home.undo("OLD")["OLD"]
    want_said(row, "removed 0 messages", "1 message already gone")
    want_unsaid(row, "kept")


def rule_6_a_file_in_another_form(home: Home) -> None:
    """A reader deletes one of the two forms of a message. The undo of the mailbox of the other form leaves its file to
    the first mailbox; migrated again, the two share it. No file is there twice, and the last undo removes it."""
    texts = {name: letter(50, body=b"hello\n%sFrom the shed.\n" % by) for name, by in (("OLD", b">"), ("OTHER", b">>"))}
    home.bring(OLD=texts["OLD"])
    (first,) = home.those(50)
    home.bring(OTHER=texts["OTHER"])
    home.has(50, 50)
    first.unlink()
    want_said(home.undo("OTHER")["OTHER"], "removed 0 messages", 1, "has too")
    home.has(50)
    home.bring(OTHER=texts["OTHER"])
    home.has(50)
    home.undo("OLD")
    home.has(50)
    home.undo("OTHER")
    home.has()


def rule_6_the_form_that_stays(home: Home) -> None:
    """A reader deletes the file that two mailboxes share. The second one has the message twice more: in the form of
    that file, and in another one. Its undo leaves the first mailbox the file in its own form."""
    form, other = (b"hello\n%sFrom the shed.\n" % quoted for quoted in (b">", b">>"))
    home.bring(OLD=letter(50, RO, form))
    (first,) = home.those(50)
    texts = letter(50, RO, form), letter(50, b"X-Evolution: 00000001-0010\n", other), letter(50, b"X-UID: 3\n", form)
    home.bring(OTHER=b"".join(texts))
    first.unlink()
    home.undo("OTHER")
    there = [path.read_bytes().count(b">From") for path in home.files()]
    if there != [0]:
        raise Failed(f"{there} are in the folder: {home.printed}")


def rule_6_new_mail_beside_a_form_that_stays(home: Home) -> None:
    """A reader deletes a message, in place of which an undo leaves another form. A new message in a third form comes
    before it or behind it: it is placed, and what was deleted is not."""
    new, old, other = (letter(50, body=b"hello\n%sFrom the shed.\n" % (b">" * count)) for count in (1, 2, 3))
    for text in home.each((old + new, new + old)):
        home.bring(OLD=old)
        (first,) = home.those(50)
        home.bring(OTHER=other)
        first.unlink()
        home.undo("OTHER")
        home.bring(OLD=text)
        there = sorted(re.findall(rb"(>*)From the", path.read_bytes())[0].decode() for path in home.files())
        if there != ["", ">>"]:
            raise Failed(f"{there} are in the folder: {home.printed}")


def rule_6_the_file_that_stays_anyhow(home: Home) -> None:
    """A mailbox lacks its file, and another one has the message twice, of which a third one shares the second file.
    That one is left to the first too, and the other file goes."""
    old, other = (letter(50, body=b"hello\n%sFrom the shed.\n" % quoted) for quoted in (b">", b">>"))
    home.bring(OLD=old)
    home.take(50)
    home.bring(OTHER=other * 2)
    marked = next(path for path in home.those(50) if path.name.endswith(".1"))
    marked.rename(home.folder() / "cur" / f"{marked.name}:2,T")
    home.bring(THIRD=other)
    home.undo("OTHER")
    home.has(50)
    home.undo("THIRD")
    home.has(50)
    home.undo("OLD")
    home.has()


def rule_6_a_renamed_file_of_equal_messages(home: Home) -> None:
    """One mailbox has a message twice, and another program gave a file of it another name. Another mailbox has the
    message three times. Its undo removes what it placed, under that name anew: the first still has both of its files.
    If the file was deleted, the first keeps the new one in its place, which is counted."""
    for place, is_deleted in home.each(range(2), (False, True)):
        home.bring(OLD=letters(5, 5))
        path = home.those(5)[place]
        if is_deleted:
            path.unlink()
        else:
            path.rename(path.parent.parent / "cur/17000.1.host:2,S")
        home.bring(OTHER=letters(5, 5, 5))
        home.undo("OTHER")
        home.has(5, 5)
        home.done("OLD")
        home.has(5, 5)


def rule_6_moved_after_it_got_a_file(home: Home) -> None:
    """By the undo of another mailbox, a mailbox got a file in place of one that was deleted. Then it was moved, and has
    grown: it is still the same one, and its undo removes all that it brought."""
    home.bring(OLD=letters(5, 5))
    home.take(5)
    home.bring(OTHER=letters(5, 5, 5))
    home.undo("OTHER")
    home.has(5, 5)
    (home.path / "OLD").rename(home.path / "MOVED")
    home.bring(MOVED=letters(5, 5, 6))
    home.has(5, 5, 6)
    home.undo("MOVED")
    home.has()


def rule_6_the_only_file_was_renamed(home: Home) -> None:
    """Another program gave the file of a message a name of its own, which a mailbox has that another one had once. It
    stays, and the row says so."""
    home.bring(OTHER=letters(5, 6), OLD=letters(5))
    home.bring(OTHER=letters(6))
    home.rename(5)
    row = home.undo("OLD")["OLD"]
    home.has(5, 6)
    want_said(row, 1, "renamed")
    want_unsaid(row, "gone")


def rule_6_a_file_that_two_mailboxes_lack(home: Home) -> None:
    """Two mailboxes have a message, whose file was deleted, and a third one has it three times. Its undo leaves one
    file, which both have then."""
    for name, count in (("OLD", 1), ("TWIN", 1), ("OTHER", 3)):
        home.done(home.write(name, letters(*[5] * count)))
    next(path for path in home.those(5) if path.name.endswith(".1")).unlink()
    home.undo("OTHER")
    home.has(5)
    home.undo("OLD")
    home.has(5)
    home.undo("TWIN")
    home.has()


def rule_6_a_file_for_two_mailboxes(home: Home) -> None:
    """A reader deletes the message of a mailbox. Another one brings it twice, by --again, and a third one has one of
    these. Once the second is undone, the first and the third have the same file."""
    home.bring(OLD=letters(5))
    home.take(5)
    home.bring(OTHER=letters(5, 5), words=["--again"])
    home.bring(THIRD=letters(5))
    row = home.undo("OTHER")["OTHER"]
    home.has(5)
    want_said(row, 1, "has too")
    # the first has not brought it twice by that
    home.bring(MORE=letters(5, 5))
    home.has(5, 5)
    home.undo("MORE")
    home.has(5)
    home.undo("OLD")
    home.has(5)
    home.undo("THIRD")
    home.has()


def rule_6_placed_again_by_another_mailbox(home: Home) -> None:
    """A reader deletes a message of a mailbox, and another one brings it again, under the name that it had. The undo of
    the first leaves that file."""
    home.bring(OLD=letters(5, 6))
    home.take(5)
    home.bring(OTHER=letters(5), words=["--again"])
    row = home.undo("OLD")["OLD"]
    home.has(5)
    want_said(row, "removed 1 message", "1 message already gone")


def rule_6_a_renamed_file_and_a_third_mailbox(home: Home) -> None:
    """The same, and a third mailbox shares the file that was placed under the name anew: it stays, and the row counts
    the one that has another name."""
    home.bring(OLD=letters(5, 5))
    home.rename(5, 1)
    home.bring(OTHER=letters(5, 5, 5), THIRD=letters(5, 5))
    row = home.undo("OTHER")["OTHER"]
    home.has(5, 5, 5)
    want_said(row, 1, "renamed")


def rule_6_kept_and_brought_later(home: Home) -> None:
    """An undo keeps what its mailbox no longer has. Another one, which the folder knows or not, brings that later, in
    the same form or in another one: the file serves it, which is said, and nothing is asked."""
    for known, fields in home.each((range(9, 10), range(0)), (b"", RO)):
        home.bring(KNOWN=letters(*known), OLD=letters(0, 1))
        home.write("OLD", letters(1))
        home.undo("OLD")
        home.has(0, *known)
        row = home.bring(KNOWN=letters(*known, 0, fields=fields) + letters(7))["KNOWN"]
        home.has(0, 7, *known)
        want_said(row, 1, "already")
        home.undo("KNOWN")
        home.has(0)


def rule_6_again_after_an_undo(home: Home) -> None:
    """What was undone is migrated as if nothing had happened, also what a reader had deleted."""
    home.bring(OLD=letters(*TEN))
    home.take(3)
    home.undo("OLD")
    home.has()
    home.done("OLD")
    home.has(*TEN)


def rule_6_back_after_an_undo(home: Home) -> None:
    """A mailbox is undone by another name that it had meanwhile, and has its old name again; or one that has all of its
    mail took its place while it was away, and is undone. Its mail is brought again: nothing says that it is done. One
    that has but one of its messages is another mailbox."""
    for instead, more in home.each((range(5), range(8), range(4, 10)), (range(0), range(9, 10))):
        home.bring(OLD=letters(*range(5)))
        (home.path / "OLD").rename(home.path / "AWAY")
        home.write("OTHER", letters(*instead))
        if len(instead) > 5:
            home.done("OTHER")
        home.undo("OTHER")
        # one with more mail may be another mailbox: what was there stays
        home.has(*range(5 if len(instead) > 5 else 0))
        (home.path / "AWAY").unlink()
        home.bring(OLD=letters(*range(5), *more))
        home.has(*range(5), *more)


def rule_6_moved_into_another_mailbox(home: Home) -> None:
    """A message was moved from one mailbox into another, which is undone, and migrated again. The message is there."""
    home.bring(OLD=letters(*range(5)))
    home.bring(OLD=letters(*range(4)), ARCHIVE=letters(4, 5))
    home.undo("ARCHIVE")
    home.done("ARCHIVE")
    home.has(*range(6))
    # the last of them that brought it
    home.undo("OLD", "ARCHIVE")
    home.has()


def rule_6_done_again_after_a_killed_undo(home: Home) -> None:
    """An undo is killed once all is removed, and before the record says so. The mailbox grows, and is done again. What
    a reader deletes then does not come back by another mailbox."""
    home.bring(OLD=letters(*range(3)))
    home.undo("OLD")
    record = home.record
    record.write_bytes(b"".join(record.read_bytes().splitlines(True)[:-1]))
    home.bring(OLD=letters(*range(4)))
    home.take(1)
    row = home.bring(OTHER=letters(1, 2, 7))["OTHER"]
    home.has(0, 2, 3, 7)
    want_said(row, 1, "gone")


def rule_6_what_it_had_in_other_bytes(home: Home) -> None:
    """A mailbox had a message in two forms of its bytes, and has one of them. Its undo removes the file with these."""
    body = b"hello\n%sFrom the shed.\n"
    forms = [letter(0, body=body % b">"), letter(0, body=body % b">>")]
    for kept in home.each((0, 1)):
        home.bring(OLD=b"".join(forms))
        home.bring(OLD=forms[kept])
        row = home.undo("OLD")["OLD"]
        there = [path.read_bytes().count(b">From") for path in home.files()]
        if there != [1 - kept]:
            raise Failed(f"{kept} is in the mailbox, {there} are in the folder: {row}")


def rule_6_a_damaged_ledger(home: Home) -> None:
    """Nobody knows then what others have: nothing is removed."""
    home.bring(OLD=letters(1))
    with open(home.ledger(), "ab") as file:
        file.write(b"hello\n")
    want_said(home.left("OLD", words=["--undo"]), "the ledger of its folder is damaged in line 6")


def rule_6_by_a_copy(home: Home) -> None:
    """The copy of a mailbox that is still there is another one, and so is its file with other mail: neither undoes it.
    Under another name, and grown, it is the same."""
    home.bring(OLD=letters(1, 2))
    nothing = "no ledger has it, so nothing shows which files are its own"
    want_said(home.left("COPY", letters(1, 2), ["--undo"]), nothing)
    (home.path / "OLD").rename(home.path / "MOVED")
    want_said(home.left("MOVED", letters(1, 3), ["--undo"]), nothing)
    home.write("MOVED", letters(1, 2, 3))
    home.undo("MOVED")
    home.has()


def rule_6_by_a_link(home: Home) -> None:
    """A mailbox grows, and goes on by a symbolic link. It is undone by either path, and brought again by either."""
    for undone, then in home.each((("OLD", "LINK"), ("LINK", "OLD"), ("LINK", "LINK"))):
        home.bring(OLD=letters(*range(3)))
        home.write("OLD", letters(*range(4)))
        (home.path / "LINK").symlink_to("OLD")
        home.done("LINK")
        home.undo(undone)
        home.has()
        home.done(then)
        home.has(*range(4))


def rule_6_while_another_one_is_begun(home: Home) -> None:
    """A run is killed after it has placed what is new in a mailbox, and a reader deletes some of that. Another mailbox
    is undone, whose file the first one keeps in place of its own that is gone. What comes back then is counted."""
    quoted = b"hello\n%sFrom the shed.\n"
    home.bring(OLD=letter(50, body=quoted % b">") + letters(*range(3)))
    home.take(50)
    home.bring(OTHER=letter(50, body=quoted % b">>") + letters(20))
    home.bring(OLD=letter(50, body=quoted % b">") + letters(*range(9)))
    home.forget_end()
    home.take(5)
    home.undo("OTHER")
    home.has(50, *range(5), 6, 7, 8)
    row = home.done("OLD")["OLD"]
    home.has(50, *range(9))
    want_said(row, 1, "back")


def rule_6_files_of_odd_names(home: Home) -> None:
    """Files of other programs whose names no line can have are counted, each, also after a killed run."""
    for is_killed in home.each((False, True)):
        home.bring(OTHER=letters(9))
        for number, mail in enumerate(mail_of(letters(0, 1, 1))):
            home.place_file(f"{number} copied:2,S", mail)
        home.bring(OLD=letters(*range(5), 1))
        home.done("OLD", words=["--again"])
        if is_killed:
            home.forget_end()
        row = home.undo("OLD")["OLD"]
        want_said(row, 3, "nobody")
        home.has(0, 1, 1, 9)


def rule_7_archives_that_overlap(home: Home) -> None:
    """Three archives of 100 messages, one of which mail programs have read, give the 100. Rows say how many were there
    already, and from which mailbox."""
    ran = home.bring(OLD=letters(*range(50)), READ=letters(*range(30, 80), fields=RO), LATE=letters(*range(60, 100)))
    home.has(*range(100))
    want_said(ran["READ"], 20, "OLD")
    want_said(ran["LATE"], 20, "READ")
    ran = home.done("OLD", "READ", "LATE")
    home.has(*range(100))
    if [row["verdict"] for row in ran.rows.values()] != ["done before"] * 3:
        raise Failed(ran.text)


def rule_7_in_any_order(home: Home) -> None:
    """The same in any order, and one after the other."""
    archives = {"OLD": range(50), "READ": range(30, 80), "LATE": range(60, 100)}
    for names in home.each((["READ", "OLD", "LATE"], ["LATE", "READ", "OLD"], ["OLD", "LATE", "READ"])):
        for name in names:
            home.done(home.write(name, letters(*archives[name], fields=RO if name == "READ" else b"")))
        home.has(*range(100))
        home.undo("READ")
        home.has(*range(50), *range(60, 100))


if __name__ == "__main__":
    run_rules(rules_in(globals()))
