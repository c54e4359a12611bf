"""What others do with mailboxes and with what is noted of them, between two runs and while one is at work."""
import shutil
from pathlib import Path

from tests.support.checks import equal
from tests.support.homes import by_json, expect, mailbox
from tests.support.mail import A, B, C, MAY, ONE, THREE, TWO, numbered
from tests.support.running import Desk, Kill, Run
from tests.support.stories import RESTORED, SYNC_FAILS, Step, killed, run_stories, steps

FIRST, RECORD, LEDGER = "migrate --prepare --unread M a", "M/mbox2maildir-record", "M/mbox2maildir-messages"
NUMBERED = ONE.replace(b"\n\n", b"\nX-IMAPbase: 1700000000 0000000009\nX-UID: 3\n\n", 1)
# a message that is complete later, and how it goes on then
TORN = B + b"\nlast line without its en"
WHOLE, RUN_BOTH = TORN + b"d\n\n", (">", "migrate M a")
FOUR = C.replace(b"three", b"four") + b"\n"
BEGIN_ANEW = (
    "a: left (sync-failed): its sync failed: read the system's log and mount the disk again before you believe "
    "anything there, then remove what is prepared, and begin anew"
)


# leaves room in the record for one more line like the last, and not for two
FILL = f"""!set -- $(tail -n 1 {RECORD} | wc -c) $(stat -c %s {RECORD})
head -c $(((1 << 23) - $2 - $1 * 3 / 2)) /dev/zero | tr '\\0' '#' >>{RECORD}; echo >>{RECORD}"""
# the ledger of INBOX is not to be trusted any more, once the program is done in another folder, or at once
NO_LEDGER = "left (ledger): M/mbox2maildir-messages: it does not belong to you, or others may write to it: ..."
NO_MORE = "\nold/%d: left (record): M/mbox2maildir-record: it is full: ..."
SPOILT = '@case $PWD in */.c) chmod 620 ../mbox*messages;; esac; "$real" "$@"'
UNNOTED = '@"$real" "$@"; chmod 620 mbox*messages; echo "mbox2maildir: folder call 9 failed" >&2; exit 1'
UNDO_KILLED = "a: left (undo): its undo was interrupted"
MOVED = UNDO_KILLED.replace("a", "b", 1)
NOT_SYNCED = "left (sync-failed): its sync failed: ..."
# the date that a message has, by its From_ line, and a program that ends with the first message
DATED = "!test $(($(stat -c %Y $(grep -l two M/new/*)) % 60)) = 2"
FIRST_ALONE = '@"$real" convert . ../placed && kill -9 $PPID'
CAME_BACK = "a: done: ...up to ... deleted or moved came back..."
GREW_AND_CAME_BACK = (
    "a: done: it grew by 1 message; when its mail was placed, up to 1 message that had been deleted or moved came back"
)
# a reader deletes a message when the program begins
DELETES_ONE = '@test -e ../gone || rm $(grep -l one new/*); : >../gone; "$real" "$@"'
CUT = "From d Mon Mar  3 12:00:00 2025\\nSubject: four\\n\\nhe"
OF_NOBODY, BEFORE = "a: done: 2 messages there already, by no mailbox", "a: done before"
# what is done to a mailbox once it was converted, whose row waits for the sync of the disk
CHANGES = {"grows": "echo more >>$a", "goes": "rm $a", "is_replaced": "cp -p $a $a.x; mv $a.x $a"}
# mail that is another one by each way to read it, and mail that Thunderbird has marked as deleted
QUOTED = THREE.replace(b"hello", b">>From here")
MARKS = (A, 1), (B, 1), (C, 9)
KEPT, KEPT_TWO, DELETED = (head + b"X-Mozilla-Status: 000%d\n\nhello\n\n" % mark for head, mark in MARKS)
WITH_CR = ONE.replace(b"alva", b"al\rva", 1)
NO_RECORD = f"left (record): {RECORD}: it does not belong to you, or others may write to it..."
IN_CRLF = (ONE + TWO).replace(b"\n", b"\r\n")
STORIES: dict[str, list[Step]] = {
    "the_sync_of_a_first_pass_fails": [
        *(("a", ONE), SYNC_FAILS, (FIRST, BEGIN_ANEW), RESTORED, (FIRST, BEGIN_ANEW), ("migrate M a", BEGIN_ANEW)),
    ],
    # the program numbers equal messages, so it gets those that are there too; of the others none comes back
    "what_is_deleted_once_it_was_looked_at": [
        *(("a", ONE + THREE), "!mbox2maildir convert M a", ("a", ONE + TWO + ONE + THREE + FOUR)),
        DELETES_ONE,
        (
            "migrate --again M a",
            "a: done: placed 3 messages; ...; ...up to 1 message that had been deleted or moved ...",
        ),
        "= four one one three two",
    ],
    "what_is_deleted_and_nothing_equals": [
        *(("a", TWO), "!mbox2maildir convert M a", ("a", ONE + TWO + THREE)),
        '@test -e ../gone || rm new/*; : >../gone; "$real" "$@"',
        *(("migrate --again M a", "a: done: placed 2 messages; 1 message there already, by no mailbox"), "= one three"),
    ],
    # the run is killed before it says so: while the program is at work, or at the end
    "what_is_deleted_once_a_run_has_looked_that_is_killed": [
        *steps(("a", ONE + TWO), "migrate M a", ("a", ONE + TWO + ONE), f"{DELETES_ONE}; kill -9 $PPID"),
        *("migrate M a", RESTORED, "= one one two", ("migrate M a", GREW_AND_CAME_BACK)),
    ],
    "what_is_deleted_once_a_run_has_looked_that_is_not_noted": [
        *steps(("a", ONE + TWO), "migrate M a", ("a", ONE + TWO + ONE), DELETES_ONE),
        *(("migrate M a", GREW_AND_CAME_BACK), RESTORED, f"!sed -i '$d' {LEDGER} {RECORD}"),
        *(("migrate M a", GREW_AND_CAME_BACK), "= one one two"),
    ],
    # the program removes it, though nothing is to be placed
    "a_power_cut_kept_a_file_in_tmp_too": [
        *(("a", ONE), *killed("migrate M a"), "!cp M/new/* M/tmp", ("migrate M a", "a: done"), "!rmdir M/tmp"),
        *("!rm -r M", FIRST, "!cp M/new/* M/tmp", "migrate M a", "!rmdir M/tmp"),
    ],
    "what_is_edited_once_a_first_pass_has_looked_at_it": [
        *(("a", ONE), FIRST, ("a", ONE + TWO)),
        '@test -e ../gone || echo more >>$(grep -l one new/*); : >../gone; "$real" "$@"',
        (FIRST, "a: left (not-verified): there 1, under another name 0, other bytes 1, nowhere 0; with other ..."),
    ],
    # its mail is as good as removed
    "the_undo_of_another_mailbox_was_killed": [
        *(("a", ONE + TWO), "migrate M a", f"!printf '<\\t%s\\n' $PWD/a >>{LEDGER}"),
        *("!rm $(grep -l two M/new/*)", ("b", TWO), ("migrate M b", "b: done: INBOX has the mail of a too")),
        *("= one two", "migrate --undo M a", "= two"),
    ],
    # of one that grew since, nothing but its inode shows it; a first pass looks at bytes alone
    "the_undo_of_a_mailbox_was_killed_that_is_moved_then": [
        *(("a", ONE + TWO), "migrate M a", f"!printf '<\\t%s\\n' $PWD/a >>{LEDGER}; rm $(grep -l one M/new/*)"),
        *(("c", THREE), "!mv a b", (f"{FIRST[:-1]}b", MOVED), "!cat c >>b"),
        *((f"{words} M b", MOVED) for words in ("migrate --dry-run", "migrate --again", "migrate", FIRST[:-4])),
        *("= two", (">", "b: undone: removed 1 message; 1 message already gone"), "="),
        *(("migrate M b", "b: done"), "= one three two", ("back M b", "b: nothing new")),
    ],
    # the next command for it names that
    "the_undo_of_an_equal_mailbox_was_killed": [
        *(("a", ONE + TWO), "migrate M a", ("b", ONE + TWO), "migrate M b", f"!printf '<\\t%s\\n' $PWD/a >>{LEDGER}"),
        *(("migrate M b", "b: done before"), ("migrate M a", "a: left (undo): its undo was interrupted")),
        *((">", "a: undone: removed 0 messages; kept 2 messages that b has too"), ("migrate M b", "b: done before")),
        "= one two",
    ],
    "its_folder_was_removed": [
        *(("a", ONE), "migrate --folder x M a", "!rm -r M/.x"),
        "!mbox2maildir-admin dates M a 2>&1 | grep 'a: its folder is gone: M/.x is no Maildir$'",
        *(("verify M a", "a: left (no-maildir): its folder is gone: M/.x is no Maildir"), (">", "a: done...")),
        *("= x/one", ("verify M a", "a: whole")),
    ],
    "the_folder_of_one_of_a_tree_was_removed": [
        *(("old/a", ONE), ("old/b", TWO), "migrate M old", "!rm -r M/.a"),
        ("verify M old", "old/a: left (no-maildir): its folder is gone: M/.a is no Maildir\nold/b: whole"),
        *((">", "old/a: done..."), "= a/one b/two"),
    ],
    # the program that was killed had begun with it, so nothing of it is known to have been done
    "the_folder_of_what_was_begun_was_removed": [
        *steps(("a", ONE), ("b", TWO), *killed("migrate --folder x M a"), "migrate M b", "!rm -r M/.x"),
        ("verify M a", "a: left (no-maildir): it was not migrated: M/.x is no Maildir"),
    ],
    "equal_mailboxes_were_read_in_two_ways": [
        *(("a", QUOTED), "migrate --as mboxrd --folder A M a", "!cp -p a b", "migrate --as mboxo --folder B M b"),
        *(("verify M a", "a: whole"), ("verify M b", "b: whole"), "!mbox2maildir-admin dates M a b"),
        *(("verify M/.A b", "b: whole"), ("verify M/.B a", "a: whole"), "!mv a c", ("verify M/.A c", "c: whole")),
    ],
    # what it brought is read as it was; only what is new is nowhere
    "it_grew_after_an_answer": [
        *(("a", QUOTED + MAY), "migrate --as unquoted M a", ("a", QUOTED + MAY + b"\n" + ONE)),
        *(("verify M a", "a: not whole: nowhere 1"), "migrate M a", ("verify M a", "a: whole")),
    ],
    "it_grew_after_deleted_mail_was_left_out": [
        *(("a", KEPT + DELETED), "migrate --drop-deleted M a", ("a", KEPT + DELETED + KEPT_TWO)),
        *(("verify M a", "a: not whole: nowhere 1"), "migrate M a", ("verify M a", "a: whole")),
    ],
    # nobody has decided about a line that came later
    "it_grew_by_a_doubtful_line": [
        *(("a", QUOTED + MAY), "migrate --as unquoted M a", ("a", QUOTED + MAY + b"\n" + WITH_CR)),
        ("verify M a", "a: not whole: nowhere 1; doubtful lines 1"),
    ],
    "the_record_may_be_written_by_others": [
        *(("a", QUOTED + MAY), ("old/b", ONE), "migrate --as unquoted M a", f"!chmod 666 {RECORD}"),
        *(("verify M a", f"a: {NO_RECORD}"), ("verify M old", f"old: {NO_RECORD}")),
        f"!mbox2maildir-admin dates M a 2>&1 | grep '^mbox2maildir-admin: {RECORD}: it does not belong to you, or oth'",
        *(f"!chmod 600 {RECORD}", ("verify M a", "a: whole")),
    ],
    # of a tree, --again converts those mailboxes that were edited as a whole, and no others
    "another_mailbox_was_edited_as_a_whole": [
        *(
            ("old/a", numbered("first", 5)),
            ("old/b", numbered("other", 5)),
            "migrate M old",
            "!rm $(grep -l 1$ M/.b/new/*)",
        ),
        *(
            ("old/a", numbered("second", 5)),
            ("migrate M old", "old/a: left (rewritten): 5 messages ...\nold/b: done ..."),
        ),
        (
            "migrate --again M old",
            "old/a: done: placed 5 messages\nold/b: done before: 1 of the 5 messages that were ...",
        ),
        "!test $(ls M/.a/new | wc -l) = 10 -a $(ls M/.b/new | wc -l) = 4",
    ],
    # it had a message twice, and somebody deleted one of them
    "one_of_two_is_gone": [
        *(("a", ONE + ONE), "migrate M a", "!rm $(ls M/new/* | head -n 1)", ("a", ONE)),
        *(("migrate --undo M a", "a: undone: removed 1 message; 1 message already gone"), "="),
    ],
    # what may be written holds each message, but not the ledger of all
    "the_ledger_cannot_grow": [
        ("a", numbered("first", 20)),
        f"!(ulimit -f 1; mbox2maildir-admin migrate --now M a) | grep 'left (ledger): {LEDGER}: File too large$'",
        *(("migrate M a", "a: done"), "!test $(ls M/new | wc -l) = 20"),
    ],
    # a rehearsal takes no lock
    "another_run_is_at_work": [
        *(("a", ONE), "migrate M a", f"!flock {RECORD} mbox2maildir-admin migrate --now --dry-run M a"),
    ],
    # it may have what it shares, though no run says so yet
    "another_mailbox_was_begun": [
        *steps(("a", ONE + TWO), "migrate M a", ("b", TWO + THREE), *killed("migrate M b")),
        *(("migrate --undo M a", "a: undone: removed 1 message; kept 1 message that b has too"), "= three two"),
    ],
    "the_ledger_is_older_than_two_others": [
        *(("a", ONE), "migrate M a", f"!cp {LEDGER} kept", ("b", TWO), "migrate M b", ("c", THREE), "migrate M c"),
        *(f"!cp kept {LEDGER}; rm M/new/*", ("d", TWO + THREE)),
        ("migrate M d", "d: done: ...up to 2 messages that had been deleted or moved came back"),
    ],
    "the_record_takes_no_more_of_several": [
        *(("old/0", NUMBERED), "!for n in 1 2 3 4 5; do cp -p old/0 old/$n; done", "migrate --dovecot M old/0", FILL),
        ("migrate --dovecot --jobs 3 M old", "old/0: done before" + "".join(map(NO_MORE.__mod__, range(1, 6)))),
        f"!test $(stat -c %s {RECORD}) -le $((1 << 23))",
    ],
    # what one sync has served is noted at once: of a folder of which it cannot be, each mailbox is left, and no other
    "the_ledger_takes_no_end": [
        *(("a", ONE), ("b", TWO), ("old/c", THREE), SPOILT),
        ("migrate --jobs 1 M a b old", f"a: {NO_LEDGER}\nb: {NO_LEDGER}\nold/c: done"),
        *(RESTORED, f"!chmod 600 {LEDGER}", "migrate M a b old", "= c/three one two"),
    ],
    # its index is found in the ledgers
    "the_record_takes_no_more": [
        *(("a", ONE), "migrate M a", FILL, ("a", ONE + TWO), "migrate M a", ("a", ONE + TWO + THREE), "migrate M a"),
        "!mbox2maildir-admin migrate M a 2>&1 | grep 'it is full: move it away; the ledgers in the folders say'",
        *(f"!rm {RECORD}", ("migrate M a", "a: done before"), "= one three two"),
    ],
    "the_ledger_cannot_note_that_a_sync_failed": [
        *(("a", ONE), UNNOTED),
        (
            "migrate M a",
            "a: left (sync-failed): its sync failed: ...; note this yourself, because the ledger could not be ...",
        ),
    ],
    "a_damaged_ledger": [
        *(("a", ONE), "migrate M a", f"!echo hello >>{LEDGER}; cp {LEDGER} kept", ("a", ONE + TWO)),
        ("migrate M a", "a: left (ledger): the ledger of its folder is damaged in line 6, so nothing shows which ..."),
        *(("migrate --dry-run --again M a", "a: would be done: would place 1 message..."), f"!cmp {LEDGER} kept"),
        *(("migrate --again M a", "a: done: placed 1 message..."), f"= one two {LEDGER[2:]}.damaged?"),
        ("migrate M a", "a: done before"),
    ],
    # what is put aside takes the place of nothing
    "a_ledger_is_damaged_twice": [
        *(("a", ONE), "migrate M a", f"!echo hello >>{LEDGER}; cp {LEDGER} first", ("a", ONE + TWO)),
        *("migrate --again M a", f"!echo hello >>{LEDGER}; cp {LEDGER} second", ("a", ONE + TWO + THREE)),
        *("migrate --again M a", f"!cmp {LEDGER}.damaged first; cmp {LEDGER}.damaged.2 second"),
    ],
    # a name that this program gives only to very many equal messages
    "a_file_with_a_large_number": [
        *(("a", NUMBERED), "!mbox2maildir convert M a; a=$(echo M/new/*); mv $a ${a%.1}.4294967296"),
        *(("migrate --dovecot --again M a", "a: done: ..."), "= one"),
    ],
    # the folder has another name by now, and only its ledger could say so
    "the_record_is_lost_and_a_ledger_cannot_be_read": [
        *(("a", ONE), "migrate --folder A M a", f"!rm {RECORD}; mv M/.A M/.B; cd M/.B; mv mbox*s ../../kept"),
        *("!mkdir M/.B/mbox2maildir-messages", ("b", TWO), "migrate --folder A M a b", "= B/one"),
        "!mbox2maildir-admin migrate --now M b 2>&1 | grep '/.B/.*: Is a directory: .*: correct this, or move it away'",
        "!rmdir M/.B/mbox2maildir-messages; mv kept M/.B/mbox2maildir-messages",
        ("migrate --folder A M a", "a: left (no-folder): its mail is in B: the ledger there says so, and ..."),
        *("!chmod 620 M/.B/mbox2maildir-messages", ("migrate M b", "b: done"), "= B/one two"),
    ],
    "the_record_is_lost_and_a_ledger_is_damaged": [
        *(("a", ONE), "migrate --folder A M a", f"!rm {RECORD}; mv M/.A M/.B; echo hello >>M/.B/mbox2maildir-messages"),
        ("migrate --folder A M a", "a: left (no-folder): its mail is in B: the ledger there says so, and ..."),
        *(("migrate --folder B M a", "a: done before"), "= B/one"),
    ],
    # a line that was torn, and two with NULs, of which the last one has an end
    "a_torn_ledger": [
        *(("a", ONE), "migrate M a", f"!cp {LEDGER} kept; printf '=\\t1' >>{LEDGER}", ("a", ONE + TWO)),
        *(("migrate --dry-run M a", "a: would be done: it grew by 1 message"), f"!cp kept {LEDGER}"),
        *(f"!head -c 99 /dev/zero >>{LEDGER}", ("migrate M a", "a: done: it grew by 1 message"), "= one two"),
        *(
            f"!printf '=\\t1\\0\\0\\n' >>{LEDGER}",
            ("a", ONE + TWO + THREE),
            ("migrate M a", "a: done: it grew by 1 ..."),
        ),
    ],
    # a dry run of it writes nothing
    "a_mailbox_was_moved": [
        *(("a", ONE), "migrate M a", f"!mv a b; cat {LEDGER} {RECORD} >kept"),
        *(("migrate --dry-run M b", "b: done before"), f"!cat {LEDGER} {RECORD} | cmp - kept"),
        *(("migrate M b", "b: done before"), ("a", TWO), ("migrate M a", "a: done: INBOX has the mail of b too")),
    ],
    # both folders have the message that had been gone from it; it goes back from one of them
    "a_mailbox_was_renamed_and_lost_a_message": [
        *(("m/b", ONE + TWO), "migrate M m", "!mv m/b m/c", "migrate M m", ("m/c", ONE), "migrate M m"),
        ("back M m", "m/c: back: 1 message in it again that had been gone from it"),
    ],
    # the clock was ahead when mail came
    "a_folder_changed_in_the_future_and_mail_goes_back": [
        *(("b", ONE), "migrate M b", "!printf 'Subject: new\\n\\n' >M/new/1.host; touch -d tomorrow M/new"),
        *(("back M b", "b: back"), ("back M b", "b: nothing new")),
    ],
    "a_mailbox_was_moved_and_mail_goes_back": [
        *(
            ("a", ONE),
            "migrate M a",
            f"!mv a b; printf 'Subject: new\\n\\n' >M/new/1.host; cat {LEDGER} {RECORD} >kept",
        ),
        *(("back --dry-run M b", "b: would go back"), f"!cat {LEDGER} {RECORD} | cmp - kept"),
    ],
    # each has the folder that it had, also if it is named itself; nobody knows which of two with the same bytes it is
    "a_tree_was_moved_and_some_of_it_is_named": [
        *(("old/a", ONE), ("old/b", ONE), ("old/c", TWO), "migrate M old", "!mv old new; mv new/c new/d; cp -a M kept"),
        *(
            ("verify M new/a new/b new/d", "new/a: whole\nnew/b: whole\nnew/d: whole"),
            "!mbox2maildir-admin dates M new/d",
        ),
        *(("migrate --dry-run --undo M new/d", "new/d: would be undone: would remove 1 message"), "!mv new/b new/x"),
        *(("migrate --dry-run --undo M new/x", "new/x: left (undo): ...in several folders: a, b"), "!mv new/x new/b"),
        ("migrate M new/a new/b new/d", "new/a: done before\nnew/b: done before\nnew/d: done before"),
        *("= a/one b/one c/two", "!rm -r M; mv kept M", ("migrate --undo M new/b", "new/b: undone: removed 1 message")),
        *("= a/one c/two", "!printf 'Subject: new\\n\\n' >M/.c/new/1.host", ("back M new/d", "new/d: back")),
    ],
    # of two mailboxes with which one begins, the larger one counts; mail of an empty one, and other mail, is new
    "a_tree_was_moved_and_some_of_it_has_grown": [
        *(("old/a", ONE + TWO), ("old/b", ONE), ("old/c", b""), "migrate M old", "!mv old new; mv new/a new/d"),
        *(("new/d", ONE + TWO + THREE), ("verify M new/d", "new/d: not whole: nowhere 1"), ("new/b", ONE + FOUR)),
        ("migrate M new/b new/d", "new/b: done: it grew by 1 message\nnew/d: done: it grew by 1 message"),
        *("= a/one a/three a/two b/four b/one", "migrate --undo M new/b", "= a/one a/three a/two"),
        *(("new/e", FOUR), ("migrate M new/e", "new/e: done"), "= a/one a/three a/two four"),
    ],
    # the index knows the bytes that the first one had, though it has others by now
    "a_mailbox_was_moved_and_another_one_has_its_path": [
        *(("old/a", ONE + TWO), "migrate M old", "!mv old/a old/b; touch old/b.lock", ("old/a", THREE)),
        ("migrate M old", "old/a: done: it grew by 1 ...\nold/b.lock: no mail\nold/b: left (locked): ..."),
        "!rm old/b.lock",
        ("migrate M old", "old/a: done before...\nold/b: done: 2 messages of it went into a too, from old/a"),
        "= a/one a/three a/two b/one b/two",
    ],
    # the folder that a human gave it holds for mail that comes later, even if it was removed, and for the way back
    "an_empty_mailbox_was_given_a_folder": [
        *(("old/a", b""), "migrate --folder X M old/a", ("migrate M old", "old/a: done before"), "!rm -r M/.X"),
        *(("verify M old/a", "old/a: whole"), ("old/a", ONE), ("migrate M old", "old/a: done"), "= X/one"),
        *("migrate --undo M old/a", "migrate M old/a", ("old/b", b""), "migrate --folder Y M old/b", "= one"),
        *(
            "!cp M/new/* M/.Y/new/1.host",
            ("back M old/a old/b", "old/a: nothing new\nold/b: back"),
            "!grep -q 'Subject: one' old/b",
        ),
    ],
    # it is no other mailbox that had the message as it was quoted before
    "a_mailbox_gets_its_message_in_another_form": [
        *(("a", QUOTED), "migrate --as mboxrd M a", ("a", QUOTED + QUOTED.replace(b">>From", b">From"))),
        *(("migrate --as mboxrd M a", "a: done: it grew by 1 message"), "= three three"),
    ],
    "a_human_chose_the_folder_of_another": [
        *(("old/a", ONE), ("old/a.mbox", TWO), "migrate --folder a M old/a.mbox"),
        ("migrate M old", "old/a.mbox: done before\nold/a: left (no-folder): another mailbox goes into a too"),
    ],
    "a_mailbox_was_begun_and_lost_mail": [
        *steps(("a", ONE + TWO), *killed("migrate M a"), ("a", TWO)),
        *(("migrate M a", "a: done: 1 message gone from it that it had brought"), "= one two"),
    ],
    # what another program had delivered, a killed run has not placed
    "a_mailbox_was_begun_and_lost_mail_that_was_there_before": [
        *(("one", ONE), "!mkdir -p M/new M/cur M/tmp; sed '1d;$d' one >M/new/17000.M1.host", ("a", ONE + TWO)),
        *(*killed("migrate M a"), ("a", TWO), ("migrate M a", "a: done: 1 message of other programs in the folder")),
        "= one two",
    ],
    # it has two messages, whatever it lost between the runs
    "a_mailbox_grew_and_lost_mail_before_a_run_that_was_killed": [
        *steps(("a", ONE + TWO), "migrate M a", ("a", TWO + THREE), *killed("migrate M a")),
        "!mbox2maildir-admin migrate --undo --dry-run M a | grep '^a -> INBOX: messages 2: would be undone'",
    ],
    # it came back twice, and is one
    "a_message_is_deleted_after_two_runs_that_were_killed": [
        *steps(("a", ONE), *killed("migrate M a"), "!rm M/new/*", *killed("migrate M a"), "!rm M/new/*"),
        ("migrate M a", "a: done: when its mail was placed, up to 1 message that had been deleted or moved came back"),
        ("migrate M a", "a: done before: when its mail was placed, up to 1 message that had been deleted or moved ..."),
    ],
    # it is left for the reasons for which any other one is, and says what any other one says
    "an_emptied_mailbox": [
        *(("a", ONE + TWO), "migrate M a", ("a", b"")),
        *(
            ("migrate M a", "a: done: 2 messages gone from it that it had brought"),
            ("migrate M a", BEFORE),
            "= one two",
        ),
        *(f"!printf '<\\t%s\\n' $PWD/a >>{LEDGER}", ("migrate M a", UNDO_KILLED)),
        *((">", "a: undone: removed 0 messages; kept 2 messages that it no longer has"), "= one two"),
    ],
    "an_emptied_mailbox_whose_undo_was_killed": [
        *(
            ("a", ONE),
            "migrate M a",
            f"!printf '<\\t%s\\n' $PWD/a >>{LEDGER}",
            ("a", b""),
            ("migrate M a", UNDO_KILLED),
        ),
        *((">", "a: undone: removed 0 messages; kept 1 message that it no longer has"), "= one"),
    ],
    "an_emptied_mailbox_whose_sync_failed": [
        *(("a", ONE), SYNC_FAILS, ("migrate M a", f"a: {NOT_SYNCED}"), RESTORED, ("a", b"")),
        *(("migrate M a", f"a: {NOT_SYNCED}"), ("migrate --again M a", "a: done"), ("migrate M a", BEFORE)),
    ],
    "the_sync_of_another_mailbox_failed": [
        *(("a", ONE), SYNC_FAILS, ("migrate M a", f"a: {NOT_SYNCED}"), RESTORED, ("b", TWO)),
        *(("migrate M b", "b: done"), ("migrate M a", f"a: {NOT_SYNCED}"), "= one two"),
    ],
    "an_emptied_mailbox_of_a_damaged_ledger": [
        *(("a", ONE), "migrate M a", f"!echo hello >>{LEDGER}", ("a", b"")),
        ("migrate M a", "a: left (ledger): the ledger of its folder is damaged in line 6, so nothing shows which ..."),
        *((">", "a: done"), ("migrate M a", BEFORE), f"= one {LEDGER[2:]}.damaged?"),
    ],
    # what the ledger lacks of it, it gets: no undo in the folder waits for that
    "an_emptied_mailbox_of_which_the_ledger_is_gone": [
        *(("a", ONE), "migrate M a", ("b", TWO), f"!rm {LEDGER} M/new/*", ("a", b""), "migrate --again M b"),
        *("migrate M a", ("migrate M a", BEFORE), ("migrate --undo M b", "b: undone: removed 1 message"), "="),
    ],
    "a_mailbox_was_begun_and_moved": [
        *steps(("a", ONE), *killed("migrate M a"), "!mv a b", ("migrate --dry-run M b", "b: would be done")),
        *(("migrate M b", "b: done"), "= one"),
    ],
    "a_mailbox_with_uids_was_moved_and_grew": [
        *(("a", NUMBERED), "migrate --dovecot M a", ("more", TWO), "!mv a b; cat more >>b"),
        ("migrate --dovecot M b", "b: done: it grew by 1 message; Dovecot gives what is new its UIDs"),
    ],
    "its_ledger_cannot_be_written_any_more": [
        *(("a", ONE), '@"$real" "$@"; rm mbox*messages; mkdir mbox2maildir-messages'),
        ("migrate M a", "a: left (ledger): M/mbox2maildir-messages: Is a directory"),
    ],
    # its UIDs stay too: a mail program may know them
    "a_mailbox_with_uids_lost_its_ledger_and_grew": [
        *(("a", NUMBERED), "migrate --dovecot M a", f"!rm {LEDGER}; cp M/dovecot-uidlist kept", ("a", NUMBERED + TWO)),
        ("migrate --dovecot --again M a", "a: done: ...Dovecot gives what is new its UIDs"),
        "!tail -n +2 kept >uids; tail -n +2 M/dovecot-uidlist | cmp - uids",
    ],
    "a_mailbox_was_edited_as_a_whole": [
        *(("a", numbered("first", 5)), "migrate M a", ("a", numbered("second", 5))),
        ("migrate M a", "a: left (rewritten): 5 messages that it brought are gone from it, and as many are new: ..."),
        "!mbox2maildir-admin migrate --now --dry-run M a | grep 'migrate --dry-run --now --again M a$'",
    ],
    "the_copy_of_a_mailbox_is_converted_while_it_grows": [
        *(("a", IN_CRLF), """@"$real" "$@"; printf 'more\\r\\n\\r\\n' >>../a"""),
        *(("migrate M a", "a: left (changed): it changed while it was converted"), f"!! grep ^= {LEDGER}"),
    ],
    # nobody is left to say so, and no line has the file that was cut
    "a_mailbox_is_written_to_while_a_run_is_killed": [
        *(("a", ONE + TWO), f'@printf \'{CUT}\' >>../a; kill -9 $PPID; exec "$real" "$@"', "migrate M a", RESTORED),
        *(f"!flock {RECORD} true", ("more", b"llo\n\n" + THREE), "!cat more >>a; touch -d '2 hours ago' a"),
        *(("migrate M a", "a: left (cut): ..."), ">", "migrate M a", "= four one three two"),
    ],
    # what a person said of its beginning holds for the message, but that it was deleted
    "a_message_was_cut_and_marked": [
        *(("a", ONE + TORN), "migrate M a", "!for a in M/new/*; do mv $a M/cur/${a##*/}:2,FS; done"),
        *(("a", ONE + WHOLE + THREE), ("migrate M a", "a: left (cut): ..."), *RUN_BOTH, "= one:FS three two:FS"),
        # it was asked to be removed, and what a person removes is said
        *(("migrate M a", "a: done before"), "!rm $(grep -l three M/*/*:2,* M/new/*)"),
        ("migrate M a", "a: done before: 1 of the 3 messages that were placed in its folder are gone, or another ..."),
    ],
    "a_message_was_cut_and_deleted": [
        *(("a", ONE + TORN), "migrate M a", "!a=$(grep -l two M/new/*); mv $a M/cur/${a##*/}:2,ST"),
        *(("a", ONE + WHOLE + THREE), ("migrate M a", "a: left (cut): ..."), *RUN_BOTH, "= one three two:S"),
    ],
    # the last one that has the beginning removes it
    **{
        f"a_message_was_cut_that_another_mailbox_has_{number}": [
            *(("a", ONE + TORN), ("b", ONE + TORN), "migrate M a b", (first, ONE + WHOLE + THREE)),
            (
                f"migrate M {first}",
                f"{first}: done: kept 1 message that {last} has too; it grew by 2 messages; 1 message gone from it ...",
            ),
            *((f"verify M {last}", f"{last}: whole..."), "= one three two two", (last, ONE + WHOLE + THREE)),
            *((f"migrate M {last}", f"{last}: left (cut): ..."), ">", f"migrate M {last}", "= one three two"),
        ]
        for number, (first, last) in enumerate((("a", "b"), ("b", "a")), 1)
    },
    "a_run_with_dovecot_was_killed_before_it_goes_back": [
        *(("a", NUMBERED), *killed("migrate --dovecot M a")),
        "!$(mbox2maildir-admin back --now M a 2>&1 | grep -- '-admin migrate') --now",
        ("back --dovecot M a", "a: nothing new"),
    ],
    # nobody knows why only some of it is there
    "it_was_converted_by_hand": [
        *(("a", ONE + TWO), "!mbox2maildir convert M a", ("migrate M a", OF_NOBODY), DATED, ("migrate M a", BEFORE)),
        *(
            "!rm -r M; mbox2maildir convert M a; rm $(grep -l one M/new/*)",
            ("migrate M a", "a: left (partly-there): ..."),
        ),
        "!mbox2maildir-admin migrate --now M a | grep 'it brings back mail that was deleted, and doubles mail that '",
        f"!! grep ^@ {LEDGER}",
    ],
    # a mail program has changed a header since
    "it_was_converted_by_hand_and_read": [
        *(("a", ONE), "!mbox2maildir convert M a", ("a", ONE.replace(b"\n\n", b"\nStatus: RO\n\n", 1))),
        *(("migrate M a", "a: done: 1 message there already, by no mailbox; ..."), "= one"),
    ],
    "it_was_converted_by_hand_and_a_run_was_killed": [
        *(("a", ONE + TWO), "!mbox2maildir convert M a", "@kill -9 $PPID", "migrate M a", RESTORED),
        *(("migrate M a", OF_NOBODY), DATED),
    ],
    "a_mailbox_was_moved_and_grew": [
        *(("a", ONE), "migrate M a", ("more", TWO), f"!mv a b; cat more >>b; cat {LEDGER} {RECORD} >kept"),
        *(("migrate --dry-run M b", "b: would be done: it grew by 1 message"), f"!cat {LEDGER} {RECORD} | cmp - kept"),
        *(("migrate M b", "b: done: it grew by 1 message"), "= one two"),
    ],
}

# with or without what Dovecot keeps
STORIES.update(
    {
        f"it_was_begun{first.replace(' --', '_by_')}": [
            *steps(("a", ONE + TWO + THREE), ("placed", ONE), FIRST_ALONE, f"migrate{first} M a", RESTORED),
            (f"migrate{then} M a", f"a: left (another-reading): its conversion was begun {how} --dovecot"),
            *("= one", "!rm M/new/*; cp -a M N", (">", CAME_BACK), "= one three two", "!rm -r M; mv N M"),
            *((f"migrate{then} M a", CAME_BACK), "= one three two"),
        ]
        for first, then, how in (("", " --dovecot", "without"), (" --dovecot", "", "with"))
    }
)
STORIES.update(
    {
        f"a_mailbox_{name}_before_its_disk_is_synced": [
            *(("old/a", ONE), ("old/b", TWO)),
            f'@a=../../old/a; case $PWD in */.b) {change};; esac; "$real" "$@"',
            ("migrate --jobs 1 M old", "old/a: left (changed): it changed in the meantime\nold/b: done"),
        ]
        for name, change in CHANGES.items()
    }
)


def killed_while_it_is_noted_that_a_mailbox_was_moved(home: Path) -> None:
    """It is done before all the same, even if the ledger is lost then: the record has it by one of its paths."""
    ran, number = Run(-1, ""), 0
    while ran.is_killed:
        number += 1
        expect(["migrate", "--now", "M", mailbox(home / "a", ONE)], home, 0, None)
        (home / "a").rename(home / "b")
        ran = Desk(home).run(["migrate", "--now", "M", "b"], Kill(call=number))
        (home / LEDGER).unlink()
        equal(f"killed at {number}: {ran}", by_json("migrate --now M b", home).row["verdict"], "done before")
        shutil.rmtree(home / "M")


if __name__ == "__main__":
    run_stories(STORIES, killed_while_it_is_noted_that_a_mailbox_was_moved)
