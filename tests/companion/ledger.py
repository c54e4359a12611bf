"""What `migrate` makes of mailboxes whose messages it has brought already, or another mailbox has: mailboxes that
mail programs and people have changed since, and equal messages. What a mailbox has brought is never brought again by
it, what is new is placed, and what was deleted does not come back unsaid.
"""
import gzip
import os
from collections.abc import Callable, Sequence
from functools import partial

from tests.support.archives import PROGRAMS, RO, TEN, Fields, Home, letter, letters, mail_of, rules_in, run_rules
from tests.support.archives import want_said, want_unsaid
from tests.support.cases import Failed
from tests.support.checks import equal
from tests.support.ledgers import as_if_killed
from tests.support.mail import INTERNAL

NONE, DOVECOT = [], ["--dovecot"]  # type: list[str], list[str]


def rule_1_killed_under_a_name_that_it_had(home: Home) -> None:
    """A reader deletes a message, of which the mailbox has one more then. A run is killed once it has placed that under
    the name of the first: it is there once, and the first is not brought again."""
    home.bring(OLD=letters(0))
    home.take(0)
    home.bring(OLD=letters(0, 0))
    home.has(0)
    home.forget_end()
    home.done("OLD")
    home.has(0)


def rule_1_killed_and_renamed(home: Home) -> None:
    """A run is killed once it has placed what is new. Another program renames that file, and mail programs write into
    the mailbox: the message is there once, and no row says that it came back."""
    for then in home.each(([0, 1], [0, 0], [0, 1, 2])):
        home.bring(OLD=letters(0))
        home.bring(OLD=letters(*then))
        home.forget_end()
        for number, path in enumerate(home.files()):
            path.rename(path.parent.parent / f"cur/1700{number}.host:2,S")
        row = home.bring(OLD=letters(*then, fields=RO))["OLD"]
        home.has(*then)
        want_unsaid(row, "came back")


def rule_1_killed_again(home: Home) -> None:
    """A run with --again is killed that has nothing to place. The mailbox gets one more of a message that it has twice,
    whose last two have the names of the files that are there: it is there three times, also if another program has
    renamed a file."""
    for is_renamed in home.each((False, True)):
        home.bring(OLD=letters(0, 0))
        path = home.those(0)[0]
        path.rename(path.parent.parent / "cur" / ("17000.1.host:2,S" if is_renamed else path.name))
        home.done("OLD", words=["--again"])
        home.forget_end()
        home.bring(OLD=letter(0) + letter(0, RO) + letter(0))
        home.has(0, 0, 0)


def rule_1_killed_and_taken_by_another(home: Home) -> None:
    """A run was killed once all was placed. Another mailbox takes a file of it, and its row says so, whatever became of
    the message in the first one."""
    for later in home.each((range(5), range(3))):
        home.bring(OLD=letters(*range(5)))
        as_if_killed(home.maildir)
        if len(later) < 5:
            home.bring(OLD=letters(*later))
        row = home.bring(OTHER=letters(4, 7))["OTHER"]
        home.has(*range(5), 7)
        want_said(row, 1, "already", "OLD")


def rule_1_killed_and_finished_by_another(home: Home) -> None:
    """A run was killed once all was placed, before files got their dates. Another mailbox takes a file of it, which is
    dated and verified then. If somebody has edited that, the mailbox is left until the file is moved away."""
    for words, is_edited in home.each(([], ["--again"]), (False, True)):
        home.bring(OLD=letters(4, 5))
        home.forget_end()
        for path in home.files():
            os.utime(path)
        home.write("OTHER", letters(4, 7))
        (path,) = home.those(4)
        if is_edited:
            path.write_bytes(path.read_bytes() + b"more\n")
            ran = home.run("OTHER", words=words)
            equal(f"{home.values}: why it is left", ran["OTHER"]["reason"], "not-verified")
            want_said(ran["OTHER"], "other bytes 1")
            path.rename(home.path / "edited")
        home.done("OTHER", words=words)
        home.has(4, 5, 7)
        equal(f"{home.values}: the date", home.those(4)[0].stat().st_mtime % 60, 4)


def fields_change(fields: Fields, home: Home) -> None:
    """A mail program changes its fields in each message. Nothing is placed, what is new then is placed once, and the
    mailbox can be undone; the same without and with --dovecot."""
    for words in home.each((NONE, DOVECOT)):
        home.bring(OLD=letters(*range(8), fields=fields.before), words=words)
        home.take(3)
        bases = {name.split(":")[0] for name in home.names()}
        home.bring(OLD=letters(*range(8), fields=fields.after), words=words)
        equal(f"{fields} {words}: files", {name.split(":")[0] for name in home.names()}, bases)
        home.bring(OLD=letters(*range(9), fields=fields.after), words=words)
        home.has(*range(3), *range(4, 9))
        home.undo("OLD")
        home.has()


def rule_2_the_fields_of_another_mailbox(home: Home) -> None:
    """Mailboxes that have the same messages with other fields share them."""
    for fields in home.each(PROGRAMS.values()):
        home.bring(OLD=letters(*range(6), fields=fields.before), NEWER=letters(*range(2, 8), fields=fields.after))
        home.has(*range(8))
        home.undo("OLD")
        home.has(*range(2, 8))
        home.undo("NEWER")
        home.has()


SERVED = letter(0, b"X-IMAPbase: 1700000000 0000000010\nX-UID: 1\n")


def in_crlf(text: bytes) -> bytes:
    """A text whose lines end in CR LF."""
    return text.replace(b"\n", b"\r\n")


def in_thunderbird(text: bytes) -> bytes:
    """A message whose first and last line end in CR LF."""
    first, rest = text.split(b"\n", 1)
    return first + b"\r\n" + rest[:-1] + b"\r\n"


FROM = b"hello\n%sFrom the shed.\n"
# a message with more `>`, and one with a CR in a text whose lines end without
OTHER_BYTES = {
    ">": (letter(0, body=FROM % b">"), letter(0, body=FROM % b">>")),
    "CR": (letter(0, body=b"hello\nmore\n"), letter(0, body=b"hello\r\nmore\n")),
}


def rule_2_only_the_cores_are_equal(home: Home) -> None:
    """Between mailboxes a message with other bytes is placed, and counted."""
    for first, then in home.each(OTHER_BYTES.values()):
        home.bring(OLD=first + letter(1))
        row = home.bring(OTHER=then + letter(2, RO) + letter(1, RO))["OTHER"]
        home.has(0, 0, 1, 2)
        want_said(row, 1)


def rule_2_another_mailbox_in_crlf(home: Home) -> None:
    """A mailbox whose lines end in CR LF has the same messages: its files have none of these."""
    home.bring(OLD=letters(0, 1), OTHER=in_crlf(letters(0, 1, 2)))
    home.has(0, 1, 2)


# mailboxes in which only some From_ lines end in CR LF, and how many messages each has: Dovecot keeps an empty mailbox
# by its own message; a server stores one more; a program ends only its own lines so, and others wrote before it; what
# arrived with CR is delivered by a program that writes none
PARTLY_CRLF = {
    "Dovecot's own message": (INTERNAL + in_crlf(letters(0, 1)), 2, b""),
    "a server's new message": (in_crlf(letters(0, 1)) + letter(2, b"X-UID: 3\n"), 3, b""),
    "Thunderbird's lines": (letter(0) + in_thunderbird(letter(1)) + in_thunderbird(letter(2)), 3, b""),
    "CR that arrived": (in_crlf(letter(0)) + letter(1, body=b"hello\r\nyes\n"), 2, b"\r"),
}


def rule_2_some_messages_in_crlf(home: Home) -> None:
    """Nothing is asked. Each message loses the CR that the program has added which wrote its From_ line, and no
    other."""
    for what, (text, count, cr) in home.each(PARTLY_CRLF.items(), words=["--dovecot", "--folder", "Archive"]):
        home.bring(OLD=text)
        home.has(*range(count))
        if b"".join(path.read_bytes() for path in home.files()).count(b"\r") != len(cr):
            raise Failed(f"{what}: {home.names()}")


def rule_2_the_same_mailbox_with_other_line_ends(home: Home) -> None:
    """A mailbox that was converted to CR LF, and back, has brought its mail already."""
    text, more = letters(0, 1, 2) + letter(3, body=FROM % b">"), letter(4)
    for first, then in home.each(((text, in_crlf(text + more)), (in_crlf(text), text + more))):
        home.bring(OLD=first)
        home.take(1)
        home.bring(OLD=then)
        home.has(0, 2, 3, 4)


def rule_2_verified(home: Home) -> None:
    """What is there already with other fields of mail programs is whole for `verify`, as often as it is there."""
    home.bring(OLD=letters(0, 1, 1, fields=RO), OTHER=letters(1, 2))
    home.has(0, 1, 1, 2)
    home.write("MORE", letters(1, 1, 1, 2))
    for name, deleted, wanted in (("OTHER", (), (2, 1, 0)), ("MORE", (), (3, 2, 1)), ("OTHER", (1, 1), (1, 0, 1))):
        home.take(*deleted)
        counts = home.place.run(["verify", "--json", "M/.Archive", name]).objects[0]["counts"]
        if tuple(counts[one] for one in ("there", "without-fields", "nowhere")) != wanted:
            raise Failed(f"{name} {deleted}: {counts}")


def want_undeleted(home: Home, *numbers: int) -> None:
    """A file of each of these messages must not be marked as deleted."""
    for number in numbers:
        flags = [path.name.partition(":2,")[2] for path in home.those(number)]
        equal(f"{home.values}: flags of {number}: {flags}", all("T" in one for one in flags), False)


# what programs write into the header of a message that is marked as deleted
DELETED = b"Status: ROD\n", b"Status: RO\nX-Status: D\n", b"X-Evolution: 00000001-0012\n"


def rule_2_deleted(home: Home) -> None:
    """A file that is marked as deleted serves no message that is not. Nor does one that a reader has marked, and that
    has a keyword of Dovecot's."""
    for mark in home.each((*DELETED, b"")):
        home.bring(OLD=letters(0, 1, 1, 2, fields=mark))
        for path in home.files() if not mark else ():
            path.rename(path.parents[1] / "cur" / f"{path.name.split(':')[0]}:2,STa")
        row = home.bring(OTHER=letters(1, 2, 3, fields=RO))["OTHER"]
        want_undeleted(home, 1, 2, 3)
        want_said(row, "2 messages placed beside files that are marked as deleted")


def rule_2_deleted_under_a_name_of_another_program(home: Home) -> None:
    """The same if another program gave the file its name, whether a line can have that name or not."""
    for name in home.each(("17000.1.host", "a name")):
        home.bring(FIRST=letters(20))
        path = home.place_file(f"{name}:2,S", mail_of(letters(0))[0])
        home.bring(OLD=letters(0))
        path.rename(path.with_name(f"{name}:2,ST"))
        row = home.bring(OTHER=letters(0))["OTHER"]
        want_undeleted(home, 0)
        want_said(row, "1 message placed beside files that are marked as deleted")


def rule_2_deleted_after_a_killed_run(home: Home) -> None:
    """A run was killed once all was placed. A file of it that is marked as deleted serves no message that is not: the
    message was marked, and is no longer; or a reader has marked the file. An undo removes what counted."""
    for is_marked, words in home.each((True, False), ([], ["--dovecot"])):
        home.done(home.write("OLD", letters(0, 1, 1, 2, fields=DELETED[1] if is_marked else RO)), words=words)
        home.forget_end()
        for path in home.files() if not is_marked else ():
            path.rename(path.parents[1] / "cur" / f"{path.name.split(':')[0]}:2,ST")
        row = home.bring(words, OLD=letters(0, 1, 1, 2, 3, fields=RO))["OLD"]
        home.has(0, 0, 1, 1, 1, 1, 2, 2, 3)
        want_undeleted(home, 0, 1, 2, 3)
        want_said(row, "4 messages placed beside files that are marked as deleted")
        home.undo("OLD")
        home.has(0, 1, 1, 2)
        found = all("T" in path.name.partition(":2,")[2] for path in home.files())
        equal("what is left is marked as deleted", found, True)


def rule_2_deleted_in_both(home: Home) -> None:
    """A file that is marked as deleted serves messages with that mark: those of another mailbox, and those of the same
    one after its run was killed once all was placed."""
    for name, mark, words in home.each(("OLD", "OTHER"), DELETED, ([], ["--dovecot"])):
        home.done(home.write("OLD", letters(0, 1, 1, 2, fields=mark)), words=words)
        if name == "OLD":
            home.forget_end()
        home.done(home.write(name, letters(0, 1, 1, 2, 3, fields=mark)), words=words)
        home.has(0, 1, 1, 2, 3)


def rule_2_flags(home: Home) -> None:
    """Of flags the union is given, or the row counts those whose flags differ."""
    row = home.bring(OLD=letters(0, 1, 2, fields=b"Status: O\n"), READ=letters(1, 2, 3, fields=b"Status: RO\n"))["READ"]
    home.has(0, 1, 2, 3)
    unread = [number for number in (1, 2) if "S" not in home.those(number)[0].name.partition(":2,")[2]]
    if unread:
        want_said(row, len(unread), "marked in it")
    want_unsaid(home.bring(SAME=letters(3, fields=b"Status: RO\n"))["SAME"], "marked in it")


# what a mailbox of ten messages is then, with new ones
MADE = {
    "is as it was": lambda new: letters(*TEN, *new),
    "is read": lambda new: letters(*TEN, *new, fields=RO),
    "is looked at by a server": lambda new: SERVED + letters(*TEN[1:], *new, fields=b"X-UID: 7\nStatus: O\n"),
    "is compacted": lambda new: letters(1, 2, 3, 5, 6, 7, 8, 9, *new),
    "is emptied": lambda new: letters(*new),
    "is sorted": lambda new: letters(*new, *TEN[::-1]),
    "has CR LF": lambda new: in_crlf(letters(*TEN, *new)),
    "lost all but one": lambda new: letters(2, *new),
}  # type: dict[str, Callable[[Sequence[int]], bytes]]


# where it is then: a copy stands beside the mailbox
WHERE = {"stays": "OLD", "renamed": "PUT-ASIDE", "zipped": "OLD.gz", "copied": "COPY"}


def never_again(name: str, home: Home) -> None:
    """A mailbox whose third message a reader has deleted is changed, and may have grown. Only what is new is placed."""
    for what, new in home.each(MADE, (range(0), range(10, 11))):
        if what == "has CR LF" and name != "OLD":
            continue
        home.bring(OLD=letters(*TEN))
        home.take(2)
        text = MADE[what](new)
        if name != "COPY":
            (home.path / "OLD").unlink()
        home.write(name, gzip.compress(text) if name.endswith(".gz") else text)
        for _ in range(2):
            home.done(name)
            home.has(0, 1, *TEN[3:], *new)


def rule_3_then_it_grows_again(home: Home) -> None:
    """A mailbox is changed and looked at, and grows after that."""
    for made in home.each(MADE.values()):
        home.bring(OLD=letters(*TEN))
        home.take(2)
        home.bring(OLD=made([]))
        home.bring(OLD=made([11, 12]))
        home.has(0, 1, *TEN[3:], 11, 12)


def rule_3_with_and_without_dovecot(home: Home) -> None:
    """A mailbox that was done without --dovecot grows, and is done with it, or the other way round."""
    for first, then in home.each(((NONE, DOVECOT), (DOVECOT, NONE))):
        home.bring(OLD=letters(*TEN, fields=RO), words=first)
        home.take(2)
        home.bring(OLD=letters(*TEN, 10, fields=RO), words=then)
        home.has(0, 1, *TEN[3:], 10)


def rule_3_stands_in_it_again(home: Home) -> None:
    """Mail was deleted in the Maildir and in the mailbox, and `migrate` has seen that. Then the mailbox comes from a
    backup: what was deleted comes back, and that is said."""
    home.bring(OLD=letters(*TEN))
    home.take(2, 5)
    home.bring(OLD=letters(0, 1, 3, 4, 6, 7, 8, 9))
    home.has(0, 1, 3, 4, 6, 7, 8, 9)
    row = home.bring(OLD=letters(*TEN))["OLD"]
    home.has(*TEN)
    want_said(row, 2)


def rule_3_stands_in_it_again_and_is_there(home: Home) -> None:
    """The same of mail that was not deleted in the Maildir: nothing is placed."""
    home.bring(OLD=letters(*TEN))
    home.bring(OLD=letters(0, 1, 2))
    home.bring(OLD=letters(*TEN))
    home.has(*TEN)
    home.undo("OLD")
    home.has()


def rule_3_restored_before_a_run(home: Home) -> None:
    """The same, and no run has seen that the mailbox lost mail: what was deleted stays so."""
    home.bring(OLD=letters(*TEN))
    home.take(2, 5)
    row = home.bring(OLD=letters(*TEN))["OLD"]
    home.has(0, 1, 3, 4, 6, 7, 8, 9)
    want_said(row, 2, "gone")


def rule_3_only_the_cores_are_equal(home: Home) -> None:
    """A message has another `>` or CR in its mailbox than when it was brought. A reader has deleted it since: it does
    not come back."""
    for first, then in home.each(OTHER_BYTES.values()):
        home.bring(OLD=first + letter(1))
        home.take(0)
        home.bring(OLD=then + letter(1))
        home.has(1)


def with_edited(count: int, edited: int) -> bytes:
    """A mailbox of which the first messages were edited."""
    changed = b"".join(letter(number, body=b"edited %d\n" % number) for number in range(edited))
    return changed + letters(*range(edited, count))


def rule_3_one_more_of_the_core(home: Home) -> None:
    """The mailbox has a message in another form, and once more: one is known, and the other one is new."""
    old, other = (letter(50, body=b"hello\n%sFrom the shed.\n" % quoted) for quoted in (b">", b">>"))
    home.bring(OLD=old)
    home.bring(OLD=other * 2)
    home.has(50, 50)


def rule_3_back_in_another_form(home: Home) -> None:
    """The second of two equal messages in two forms went, and stands in the mailbox again in a third form. One more is
    placed then, in its own form, wherever it stands."""
    forms = [letter(50, body=b"hello\n%sFrom the shed.\n" % (b">" * count)) for count in range(1, 5)]
    for those in ([0, 1], [0], [0, 2], [3, 0, 2]):
        home.bring(OLD=b"".join(forms[one] for one in those))
    bodies = sorted(path.read_bytes().split(b"hello\n")[1] for path in home.files())
    equal("what is there", bodies, [b">>>From the shed.\n", b">From the shed.\n", b"From the shed.\n"])


def rule_3_edited(home: Home) -> None:
    """A message whose text was edited counts as new, and the row says so. The one of before stays."""
    for count, edited in home.each(((2, 1), (10, 3), (5, 3), (60, 6))):
        home.bring(OLD=letters(*range(count)))
        row = home.bring(OLD=with_edited(count, edited))["OLD"]
        home.has(*range(count), *range(edited))
        want_said(row, edited)
        home.undo("OLD")
        # the mailbox has no longer what was there before
        home.has(*range(edited))


def rule_3_edited_as_a_whole(home: Home) -> None:
    """If more than a tenth and more than three were edited, the mailbox is left, with --again, which places what is
    nowhere."""
    for count, edited in home.each(((10, 4), (4, 4), (60, 7), (30, 30))):
        home.bring(OLD=letters(*range(count)))
        home.brings_again("OLD", with_edited(count, edited))
        home.has(*range(count), *range(edited))
        home.done("OLD")
        home.has(*range(count), *range(edited))


def rule_3_lost_and_grown(home: Home) -> None:
    """A mailbox that lost more than is new was not edited."""
    home.bring(OLD=letters(*range(20)))
    home.bring(OLD=letters(*range(6, 20), *range(20, 25)))
    home.has(*range(25))


def rule_4_what_another_brought(home: Home) -> None:
    """What a mailbox brought and a reader deleted is not placed for another one. --again places it."""
    for fields in home.each((b"", RO)):
        home.bring(OLD=letters(*TEN))
        home.take(3, 4, 7)
        row = home.bring(OTHER=letters(*range(3, 13), fields=fields))["OTHER"]
        home.has(0, 1, 2, 5, 6, *range(8, 13))
        want_said(row, 3, "OLD", "gone")
        home.done("OTHER")
        home.has(0, 1, 2, 5, 6, *range(8, 13))
        home.done("OTHER", words=["--again"])
        home.has(*range(13))
        home.done("OLD", "OTHER")
        home.has(*range(13))


def rule_4_the_last_brought_it(home: Home) -> None:
    """The same where all of a mailbox was deleted."""
    home.bring(OLD=letters(*TEN))
    home.take(*TEN)
    row = home.bring(OTHER=letters(*TEN))["OTHER"]
    home.has()
    want_said(row, 10)
    home.done("OTHER", words=["--again"])
    home.has(*TEN)


def rule_5_equal_messages(home: Home) -> None:
    """Each of equal messages counts, and of those that mailboxes share the most that one has."""
    home.bring(OLD=letters(0, 1, 1))
    home.has(0, 1, 1)
    home.bring(OTHER=letters(1, 1, 1, fields=RO))
    home.has(0, 1, 1, 1)
    home.take(1)
    home.done("OLD", "OTHER")
    home.has(0, 1, 1)
    home.bring(OLD=letters(0, 1, 1, 1, 1))
    home.has(0, 1, 1, 1)
    home.done("OLD", words=["--again"])
    home.has(0, 1, 1, 1, 1)


def rule_5_one_more(home: Home) -> None:
    """One of three equal messages was deleted, whichever, and the mailbox has one more then: that one is placed."""
    for place, is_read in home.each(range(3), (False, True)):
        home.bring(OLD=letters(5, 5, 5))
        home.those(5)[place].unlink()
        if is_read:
            path = home.those(5)[0]
            path.rename(path.parent.parent / "cur" / (path.name + ":2,S"))
        home.bring(OLD=letters(5, 5, 5, 5, 6))
        home.has(5, 5, 5, 6)
        home.done("OLD")
        home.has(5, 5, 5, 6)


def rule_5_two_mailboxes_have_one_each(home: Home) -> None:
    """Two mailboxes have a message once each, in files of their own, of which a reader has deleted one. What one of
    them has once more is placed, and what a third one has once more than either."""
    home.bring(OLD=letters(5))
    home.take(5)
    home.bring(["--again"], OTHER=letters(5))
    home.bring(OLD=letters(5, 5))
    home.has(5, 5)
    home.bring(THIRD=letters(5, 5, 5))
    home.has(5, 5, 5)


def rule_5_two_again(home: Home) -> None:
    """Readers have deleted all of a message that a mailbox had twice, and another one has once. The first lost one, and
    has one more later than either: that is placed, whatever it had before."""
    home.bring(OLD=letters(5, 5))
    home.take(5, 5)
    home.bring(["--again"], OTHER=letters(5))
    home.take(5)
    home.bring(OLD=letters(5))
    home.has()
    home.bring(OLD=letters(5, 5))
    home.has(5)


def rule_5_renamed(home: Home) -> None:
    """Another program gave files of equal messages names of its own. They are still those that the mailbox brought, and
    none came back."""
    for count in home.each(range(1, 4)):
        home.bring(OLD=letters(5, 5, 5))
        for number, path in enumerate(home.those(5)[:count]):
            path.rename(path.parent.parent / f"cur/17000.{number}.host:2,S")
        row = home.bring(OLD=letters(5, 5, 5, 5))["OLD"]
        home.has(5, 5, 5, 5)
        want_unsaid(row, "came back")


def rule_5_renamed_and_grown(home: Home) -> None:
    """Each time that a mailbox of equal messages has grown, another program renames a file, whose name is taken anew
    then. Lines are counted, not names: each new message is placed."""
    for place in home.each(range(4)):
        for count in range(2, 9):
            home.bring(OLD=letters(*[5] * count))
            home.has(*[5] * count)
            own = [path for path in home.those(5) if not path.name.startswith("17")]
            if own:
                path = own[place % len(own)]
                path.rename(path.parent.parent / f"cur/1700{count}.host:2,S")


def rule_5_shared_and_renamed(home: Home) -> None:
    """Another program gave the file of a message a name of its own that two mailboxes share, and the old name is taken
    anew. As the two grow, each equal message is there as often as one of them has it, in any form."""
    uid = b"X-UID: 3\n"
    for first, then in home.each(
        (([uid, b"", RO], [RO, RO, b""]), ([uid, uid, b""], [RO, RO, b""]), ([RO, RO], [uid, uid]))
    ):
        home.bring(OLD=letter(3, uid), TWIN=letter(3, RO))
        home.rename(3)
        for name, forms in (("OLD", [*first, uid]), ("TWIN", [*then, RO])):
            home.done(home.write(name, b"".join(letter(3, form) for form in forms)))
            home.has(*[3] * len(forms))


def rule_5_a_copy(home: Home) -> None:
    """A reader made a copy of a message. It was nobody's: it serves one more of a mailbox, and no undo removes it."""
    home.bring(OLD=letters(0, 1))
    home.place_file("17000.1.host:2,S", mail_of(letters(1))[0])
    home.done("OLD")
    home.has(0, 1, 1)
    home.bring(OTHER=letters(1, 1, 2))
    home.has(0, 1, 1, 2)
    home.undo("OTHER", "OLD")
    home.has(1)


def rule_5_a_name_that_no_line_can_have(home: Home) -> None:
    """A file of such a name is that of one message: its mailbox, or another one, has the message twice. If a mailbox
    lost one of two, and its file is deleted, another mailbox does not bring that."""
    for then in home.each(("OLD", "OTHER")):
        home.bring(FIRST=letters(20))
        home.place_file("a name", mail_of(letters(0))[0])
        home.bring(OLD=letters(0))
        home.done(home.write(then, letters(0, 0)))
        home.has(0, 0, 20)
    files = [home.place_file(f"{number} name", mail_of(letters(1))[0]) for number in range(2)]
    home.bring(OLD=letters(0, 1, 1))
    home.bring(OLD=letters(0, 1))
    files[0].unlink()
    home.bring(THIRD=letters(1, 1))
    home.has(0, 0, 1, 20)


FORMS = [b"", RO, b"X-UID: 3\n", b"Status: O\nX-UID: 4\n"]


def rule_5_in_several_forms(home: Home) -> None:
    """A mailbox has a message in several forms, and others have it in some of these."""
    home.bring(OLD=b"".join(letter(1, one) for one in FORMS[:3]))
    home.has(1, 1, 1)
    home.bring(OTHER=b"".join(letter(1, one) for one in [FORMS[3], *FORMS[1:3], FORMS[3], FORMS[3]]))
    home.has(1, 1, 1, 1, 1)
    home.undo("OLD")
    home.has(1, 1, 1, 1, 1)
    home.undo("OTHER")
    home.has()


def rule_5_in_two_bare_forms(home: Home) -> None:
    """A file stands for a message in its form first, whoever placed it: with --again, and after a killed run. So each
    form is there as often as one mailbox has it."""
    one, other = (b"hello\n%sFrom the shed.\n" % quotes for quotes in (b">", b">>"))
    home.bring(OLD=letter(0, body=one))
    home.bring(OTHER=letter(0, body=other) + letter(0, body=one), words=["--again"])
    home.bring(OLD=(letter(0, body=one) + letter(0, body=other)) * 2)
    home.has(0, 0, 0, 0)
    home.begin()
    home.bring(OLD=letter(0, body=one) * 2)
    as_if_killed(home.maildir)
    home.bring(OTHER=letter(0, body=other))
    home.bring(OLD=letter(0, RO, other) + letter(0, RO, one) * 2)
    home.has(0, 0, 0)
    home.begin()
    home.bring(OTHER=letter(0, body=one), OLD=letter(0, body=one))
    as_if_killed(home.maildir)
    home.write("OLD", letter(0, body=other) + letter(0, body=one))
    home.done("OTHER", "OLD")
    home.bring(OTHER=letter(0, body=one) + letter(0, body=other))
    home.has(0, 0)


def rule_5_renamed_in_two_bare_forms(home: Home) -> None:
    """Other programs rename the files of such messages before --again, and one of them after it. One more message of
    its form is placed."""
    one, other = (letter(0, body=b"hello\n%sFrom the shed.\n" % quotes) for quotes in (b">", b">>"))
    for text in home.each((one + other, other + one)):
        home.bring(OLD=text)
        for number, path in enumerate(home.those(0)):
            path.rename(path.parent.parent / f"cur/1700{number}.host:2,S")
        home.done("OLD", words=["--again"])
        path = next(path for path in home.those(0) if b">From" not in path.read_bytes())
        path.rename(path.with_name("18000.host:2,S"))
        home.bring(OLD=text + one)
        home.has(0, 0, 0)


if __name__ == "__main__":
    run_rules(
        {
            **{f"rule_2_{name}": partial(fields_change, fields) for name, fields in PROGRAMS.items()},
            **{f"rule_3_{word}": partial(never_again, name) for word, name in WHERE.items()},
            **rules_in(globals()),
        }
    )
