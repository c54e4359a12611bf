"""Mailboxes that are prepared step by step while people use them: what each pass says, where none prepares or finishes
anything, and what mail is there then."""
import re

from tests.support.mail import A, ONE, THREE, TWO
from tests.support.stories import RESTORED, SYNC_FAILS, Step, killed, run_stories, steps

FIRST, LAST, FIRST_OF_TREE, TREE = (
    "migrate --prepare --unread M a",
    "migrate M a",
    "migrate --prepare --unread M old",
    "migrate M old",
)
QUOTED = A + b"\n>>From twice\n\n"
SEEN = ONE.replace(b"\n\n", b"\nX-Mozilla-Status: 0001\n\n", 1)
# a reader gives each message a flag; a server looks at the folder; a program delivers what the mailbox has too
READ, LOOKS = "!cd M; for a in new/*; do mv $a cur/${a##*/}:2,S; done", "!echo >M/dovecot.index.log"
DELIVERS = "!cp $(grep -l 'Subject: one' M/new/*) M/new/17000.M1.host"
LIST, LEDGER, RECORD = (f"M/mbox2maildir-{name}" for name in ("prepared", "messages", "record"))
READS = "a: left (prepared): somebody reads in its folder already: M/"
OF_ANOTHER = "a: left (prepared): mail of a mailbox is in its folder already, and migrate brings the rest"
TWO_GONE = "left (prepared): its mailbox is gone, as are 2 of the 10 of its tree that were prepared"
NOT_MET = "left (prepared): it is only prepared, and no mailbox of this command goes there"
SYNC_FAILED = "a: left (sync-failed): its sync failed: read the system's log and mount the disk again before you ..."
# a last pass that is killed once all is placed
KILLED = killed(LAST)
# into which folders a command says that mailboxes may go
BRINGS = (
    "printed() { mbox2maildir-admin migrate --now \"$@\" | grep -v -e --undo | grep -o -e '--folder [a-z]'; }; printed"
)
# what the way back says
BACK = "!mbox2maildir-admin back --now 2>said M old"
TEN: list[Step] = [*((f"old/{number}", ONE) for number in range(10)), FIRST_OF_TREE]
ALL_TEN = " ".join(f"{number}/one" for number in range(10))
# of a mailbox that is not met, the path is given that it has without a link
BEHIND_A_LINK = "\n".join(
    [f"disk/old/3: {NOT_MET}"]
    + [
        f"link/old/{number}: " + ("no mail: by --no-mail" if number == 3 else "done: 1 prepared before")
        for number in range(10)
    ]
)
TEN_DONE = "\n".join(f"old/{number}: done: 1 prepared before" for number in range(10))


def removed(count: int) -> list[Step]:
    """An undo, which its rehearsal has foretold, removes so many messages, and nothing is left."""
    would = ("migrate --dry-run --undo M a", f"a: would be undone: would remove {count} messages")
    return [would, ("migrate --undo M a", f"a: undone: removed {count} messages"), "="]


STORIES: dict[str, list[Step]] = {
    "each_pass_follows_the_mailbox": [
        ("a", ONE + TWO),
        (FIRST, "a: prepared"),
        "= one two M+",
        ("a", TWO + THREE),
        (FIRST, "a: prepared: 1 prepared before, 1 message removed"),
        "= three two M+",
        *(
            (FIRST, "a: prepared: 2 prepared before"),
            "!touch -d '3 hours ago' a",
            (FIRST, "a: prepared: 2 prepared before"),
        ),
        ("a", THREE + ONE),
        (LAST, "a: done: 1 prepared before, 1 message removed"),
        "= one three",
        (LAST, "a: done before"),
        (FIRST, "a: done before"),
    ],
    "dry_runs": [
        ("a", ONE),
        ("migrate --dry-run --prepare --unread M a", "a: would be prepared"),
        "!test ! -e M",
        FIRST,
        ("a", TWO),
        ("migrate --dry-run M a", "a: would be done: 0 prepared before, 1 message to be removed"),
        "= one M+",
    ],
    "what_was_removed_by_hand": [
        *(("a", ONE + TWO), FIRST, "!rm $(grep -l 'Subject: one' M/new/*)"),
        *(FIRST, "= one two M+", "!rm $(grep -l 'Subject: two' M/new/*)"),
        *(LAST, "= one two"),
    ],
    "what_somebody_edited": [
        *(("a", ONE + TWO), FIRST, "!echo more >>$(grep -l 'Subject: one' M/new/*)", ("a", TWO)),
        (LAST, "a: done: 1 prepared before; kept 1 file that somebody edited"),
        "= one two",
    ],
    "what_somebody_edited_and_undone": [
        *(("a", ONE + TWO), FIRST, "!echo more >>$(grep -l 'Subject: one' M/new/*)", ("a", TWO), LAST),
        *(("migrate --undo M a", "a: undone: removed 1 message"), "= one"),
    ],
    "what_stays_by_again_and_is_undone": [
        *(("a", ONE + TWO), FIRST, ("a", TWO + THREE), "migrate --again M a", "= one three two"),
        *(("migrate --undo M a", "a: undone: removed 1 message..."), "= one two"),
        *("migrate M a", "= one three two", "migrate --undo M a", "= one two"),
    ],
    "what_stays_of_an_emptied_mailbox_and_another_is_undone": [
        *(("a", ONE), FIRST, ("a", b""), "migrate --again M a", ("b", TWO), "migrate --folder INBOX M b", "= one two"),
        *(("migrate --undo M b", "b: undone: removed 1 message"), "= one"),
    ],
    "what_others_delivered": [
        *(("a", ONE + TWO), FIRST, DELIVERS),
        (LAST, "a: done: 1 prepared before, 1 message removed; 1 message there already, by no mailbox; 1 message ..."),
        "= one two",
    ],
    "what_others_delivered_before": [
        *(("one", ONE), "!mkdir -p M/new M/cur M/tmp; sed '1d;$d' one >M/new/17000.M1.host", ("a", ONE + TWO)),
        *(FIRST, "= one two M+"),
    ],
    "flags_come_on_the_day": [
        *(("a", SEEN), FIRST, "= one M+"),
        (LAST, "a: done: 1 prepared before; 1 message with flags of Thunderbird"),
        "= one:S",
    ],
    "flags_of_two_programs": [
        ("a", SEEN.replace(b"\n\n", b"\nX-Status: F\n\n", 1)),
        *(FIRST, "= one:F M+", LAST, "= one:FS"),
    ],
    "flags_of_two_programs_after_a_reader": [
        ("a", SEEN.replace(b"\n\n", b"\nX-Status: F\n\n", 1)),
        *(FIRST, "migrate --again M a", "= one:F"),
    ],
    "an_emptied_mailbox": [
        *(("a", ONE), FIRST, ("a", b""), (FIRST, "a: prepared: 0 prepared before, 1 message removed"), "="),
        *(("a", ONE), FIRST, ("a", b""), (LAST, "a: done: 0 prepared before, 1 message removed"), "="),
    ],
    "an_emptied_mailbox_by_again": [
        *(("a", ONE + TWO), FIRST, ("a", b"")),
        ("migrate --again M a", "a: done: 2 prepared before stay, whatever the mailbox has now"),
        "= one two",
    ],
    "an_emptied_mailbox_and_what_somebody_edited": [
        *(("a", ONE + TWO), FIRST, "!echo more >>$(grep -l 'Subject: one' M/new/*)", ("a", b"")),
        (LAST, "a: done: 0 prepared before, 1 message removed; kept 1 file that somebody edited"),
        "= one",
    ],
    # where somebody reads
    "somebody_reads": [
        *(("a", ONE), FIRST, READ, ("a", ONE + TWO)),
        *((words, f"{READS}cur/...:2,S") for words in (FIRST, LAST)),
        ("a", TWO),
        ("migrate --again M a", "a: done: 1 prepared before stay, whatever the mailbox has now; placed 1 message"),
        "= one:S two",
    ],
    "a_server_has_looked": [
        ("a", ONE),
        "!mkdir -p M/new M/cur M/tmp",
        LOOKS,
        (FIRST, f"{READS}dovecot.index.log"),
        "=",
    ],
    # the command that is printed finishes that one: otherwise its mail would stay as nobody's, and come a second time
    "another_is_prepared_where_somebody_reads": [
        *(("a", ONE), FIRST, READ, ("b", TWO)),
        ("migrate --folder INBOX M b", "b: left (prepared): a is prepared in its folder, and only one mailbox can be"),
        '!eval "$(mbox2maildir-admin migrate --now --folder INBOX M b | grep -e --again)"',
        *("= one:S", ("migrate M a", "a: done before"), "migrate --folder INBOX M b", "= one:S two"),
    ],
    "a_server_has_renamed_a_file": [
        *steps(("a", ONE), FIRST, "!for a in M/new/*; do mv $a $a,U=7; done", (LAST, f"{READS}new/...,U=7")),
    ],
    "a_server_looks_and_nothing_changes": [("a", ONE), FIRST, LOOKS, (FIRST, f"{READS}dovecot.index.log"), "= one M+"],
    "a_server_looks_at_another_folder": [
        *(("x", ONE), "migrate --prepare --unread --folder x M x", "!mkdir -p M/new M/cur M/tmp", LOOKS, ("a", TWO)),
        ("migrate --folder INBOX M a", f"a: done\nx: {NOT_MET}"),
        "= two x/one .x+",
    ],
    # where other mail is
    "mail_of_a_mailbox": [
        *(("a", ONE), LAST, ("a", ONE + TWO)),
        *(f"!mv {RECORD} kept", (FIRST, OF_ANOTHER), f"!mv kept {RECORD}; mv {LEDGER} kept", (FIRST, OF_ANOTHER)),
        "= one",
    ],
    "another_mailbox": [
        *(("a", ONE), ("b", ONE + TWO), FIRST),
        (
            "migrate --prepare --unread M b",
            "b: left (prepared): a is prepared in its folder, and only one mailbox can be",
        ),
        *("!rm a", ("migrate --prepare --unread M b", "b: prepared: 1 prepared before"), "= one two M+"),
    ],
    "one_that_is_named_as_a_folder": [
        *(("mbox", ONE), "migrate --prepare --unread M mbox", ("mbox", ONE + TWO)),
        ("migrate --prepare --unread M mbox", "mbox: prepared: 1 prepared before"),
        ("sent", ONE),
        ("migrate --prepare --unread M sent", "sent: left (no-folder): INBOX has or gets other mail, ..."),
        "!mkdir old; mv mbox old",
        ("migrate M old/mbox", "old/mbox: done: 2 prepared before"),
        "= one two",
    ],
    "an_empty_file_in_place_of_what_is_done": [
        *(("b", ONE), "migrate M b", READ, LOOKS, ("a", b"")),
        *(
            (words, f"a: {verdict}")
            for words, verdict in (
                ("migrate --dry-run --prepare --unread M a", "would be prepared"),
                (FIRST, "prepared"),
            )
        ),
        "= one:S",
        ("a", TWO),
        (FIRST, OF_ANOTHER),
    ],
    # what was lost or damaged
    "the_list_is_lost": [
        *(("a", ONE), FIRST, f"!rm {LIST}", ("a", ONE + TWO)),
        (LAST, "a: left (ledger): the list of what was prepared in its folder is gone, so nothing shows which ..."),
        LOOKS,
        (LAST, "a: left (ledger): the list of what was prepared in its folder is gone, so nothing shows which ..."),
        *("= one", "migrate --again M a", "= one two"),
    ],
    "the_record_is_lost": [
        *(("a", ONE + TWO), FIRST, f"!rm {RECORD}", LOOKS, ("a", TWO)),
        *((LAST, f"{READS}dovecot.index.log"), "!rm M/dovecot.index.log", LAST, "= two"),
    ],
    "the_record_is_older_than_the_day": [
        *(("a", ONE), FIRST, f"!cp {RECORD} kept", LAST, f"!mv kept {RECORD}", LOOKS, ("a", ONE + TWO)),
        *((LAST, "a: done: it grew by 1 message"), "= one two"),
    ],
    "the_list_is_damaged": [
        *(("a", ONE), FIRST, f"!echo damage >>{LIST}", ("a", TWO)),
        *((words, "a: left (ledger): M/mbox2maildir-prepared: line ... is damaged: ...") for words in (FIRST, LAST)),
        *("= one M+", ">", (LAST, "a: left (ledger): the list of what was prepared in its folder is gone, ..."), ">"),
        f"= one two {LIST[2:]}.damaged?",
    ],
    "the_list_of_another_mailbox_is_damaged": [
        *(("old/a", ONE), ("old/b", TWO), FIRST_OF_TREE, "!echo damage >>M/.a/mbox2maildir-prepared"),
        ("migrate --undo M old/a", "old/a: left (ledger): M/.a/mbox2maildir-prepared: line ... is damaged: ..."),
        *(("migrate --undo M old/b", "old/b: undone: removed 1 message"), "= a/one .a+"),
    ],
    "the_list_is_of_another_version": [
        *(("a", ONE + TWO), FIRST, f"!sed -i 's/\tmboxrd\t/\tmboxy\t/' {LIST}", (LAST, "a: done: 2 prepared before")),
        "= one two",
    ],
    "the_list_comes_from_a_backup": [
        *(("a", ONE + TWO), FIRST, f"!cp {LIST} kept", LAST, f"!cp -p kept {LIST}"),
        *(("migrate --dry-run M a", "a: done before"), "= one two M+", (LAST, "a: done before"), "= one two"),
        *(f"!cp -p kept {LIST}", ("a", TWO + THREE), (FIRST, OF_ANOTHER), "= one two"),
        *(f"!cp -p kept {LIST}", LAST, "= one three two"),
    ],
    "the_list_of_a_mailbox_that_is_gone_comes_from_a_backup": [
        *(("old/a", ONE), FIRST_OF_TREE, "!cp M/.a/mbox2maildir-prepared kept", TREE, "!rm old/a", ("old/b", TWO)),
        *("!cp -p kept M/.a/mbox2maildir-prepared", (TREE, "old/b: done"), "= a/one b/two"),
    ],
    "the_list_comes_from_a_backup_and_the_ledger_is_lost": [
        *(("a", ONE + TWO), FIRST, f"!cp {LIST} kept", LAST, f"!cp -p kept {LIST}; rm {LEDGER}", ("a", TWO)),
        *(LAST, "= one two"),
        *(f"!cp -p kept {LIST}; rm {LEDGER}", (FIRST, "a: done before: the ledger of its folder is gone"), "= one two"),
        *(f"!cp -p kept {LIST}", (LAST, "a: done before: the ledger of its folder is gone"), "= one two"),
    ],
    "a_sync_failed": [
        *(("a", ONE), FIRST, f"!echo '!' >>{LIST}", ("a", TWO), (FIRST, SYNC_FAILED), (LAST, SYNC_FAILED), "= one M+"),
    ],
    "it_was_prepared_with_dovecot": [
        *(("a", ONE), "migrate --prepare --unread --dovecot M a"),
        (LAST, "a: left (prepared): it was prepared with --dovecot"),
        *("migrate --dovecot M a", "= one"),
    ],
    "it_is_decided_on_the_day": [
        *(("a", QUOTED), FIRST, "!grep -q '^>From' M/new/*", "migrate --as mboxo M a", "!grep -q '^>>From' M/new/*"),
    ],
    "equal_messages": [
        *(("a", ONE + TWO + ONE + ONE), FIRST, (LAST, "a: done: 4 prepared before"), "= one one one two"),
    ],
    "the_sync_of_a_last_pass_failed": [
        *steps(("a", ONE), FIRST, ("a", ONE + TWO), SYNC_FAILS, (LAST, SYNC_FAILED), RESTORED),
        *((LAST, SYNC_FAILED), (FIRST, SYNC_FAILED), "migrate --again M a", "= one two"),
    ],
    # a last pass was killed, and the mailbox may be another one by then
    "killed_and_prepared_again": [
        *steps(("a", ONE), FIRST, ("a", SEEN + TWO + THREE), *KILLED, "= one three two M+"),
        *(("a", ONE + THREE), FIRST, "= one three M+", ("a", ONE + TWO), LAST, "= one two"),
    ],
    "killed_before_it_was_prepared": [
        *steps(("x", ONE), "migrate --prepare --unread --folder x M x", ("a", TWO), *KILLED, ("a", TWO + THREE)),
        *((FIRST, "a: prepared"), "= three two x/one .x+ M+"),
    ],
    "killed_before_it_was_prepared_and_the_record_is_lost": [
        *(("y", ONE), "migrate --folder y M y", ("x", ONE), "migrate --prepare --unread --folder x M x"),
        *steps(f"!rm {RECORD}", ("a", TWO), *KILLED, ("a", TWO + THREE)),
        *((FIRST, "a: prepared"), "= three two x/one y/one .x+ M+"),
    ],
    "killed_and_its_ledger_is_gone": [
        *steps(("a", ONE + TWO), FIRST, ("a", ONE + TWO + THREE), *KILLED, f"!rm {LEDGER}", ("a", ONE)),
        *((LAST, "a: done: 1 prepared before, 1 message removed"), "= one"),
    ],
    "killed_and_its_ledger_is_damaged": [
        *steps(("a", ONE), FIRST, ("a", ONE + TWO), *KILLED, f"!echo damage >>{LEDGER}", ("a", THREE)),
        *((LAST, "a: left (ledger): ..."), "= one two M+"),
    ],
    "killed_and_dry": [
        *steps(("a", ONE), FIRST, ("a", SEEN + TWO), *KILLED, f"!cp {LIST} kept"),
        *("migrate --dry-run M a", "migrate --dry-run --prepare --unread M a", "= one two M+", f"!cmp {LIST} kept"),
    ],
    "killed_and_undone": [
        *steps(("a", SEEN), FIRST, ("a", SEEN + TWO + SEEN), *KILLED, *removed(3)),
    ],
    # what another one has placed there meanwhile, by a run that was killed too
    "killed_twice_and_undone": [
        *steps(("a", ONE), FIRST, ("a", ONE + THREE), *KILLED, ("b", TWO), *killed("migrate --again M b")),
        *("= one three two M+", *removed(3)),
    ],
    "killed_by_again_and_undone": [
        *steps(("a", ONE), FIRST, ("a", ONE + TWO), *killed("migrate --again M a")),
        *("= one two M+", *removed(2)),
    ],
    # what is converted by hand then is nobody's
    "killed_before_its_list_was_removed_and_undone": [
        *steps(
            ("a", ONE + TWO), FIRST, ("a", ONE + THREE), '@cp mbox2maildir-prepared ../kept; exec "$real" "$@"', LAST
        ),
        *(RESTORED, f"!cp kept {LIST}", ("migrate --undo M a", "a: undone: removed 2 messages"), "="),
        *("!mbox2maildir convert M a", ("b", TWO), ("migrate M b", "b: done"), "= one three two"),
    ],
    "undone_without_its_mailbox": [
        *(
            ("a", ONE + TWO),
            FIRST,
            "!rm a; echo edited >>$(grep -l one M/new/*); printf 'Subject: new\\n\\n' >M/new/17.host",
            # a second copy
            "!for a in $(grep -l two M/new/*); do cp $a M/cur/${a##*/}:2,S; done",
        ),
        (
            "migrate --dry-run --undo M a",
            "a: would be undone: would remove 1 message; would keep 2 files that somebody ...",
        ),
        *(("migrate --undo M a", "a: undone: removed 1 message; kept 2 files that somebody edited"), "= new one two:S"),
    ],
    # each name of a folder that a killed undo may have removed
    "undone_by_an_undo_that_was_killed": [
        step
        for names in ("new/* tmp", "new/* tmp new", "new/* tmp new cur", "new/* tmp new cur maildirfolder")
        for step in steps(
            *(("old/a", ONE), FIRST_OF_TREE, f"!cd M/.a; rm -r {names}"),
            *(("migrate --undo M old/a", "old/a: undone: removed 0 messages"), "!test ! -e M/.a", "="),
        )
    ],
    # the ledger has what is done, so the list says nothing, and goes
    "undone_by_a_list_from_a_backup": [
        *(("a", ONE), FIRST, f"!cp {LIST} kept", LAST, f"!cp -p kept {LIST}"),
        *(("migrate --undo M a", "a: undone: removed 1 message"), "="),
    ],
    # what is printed finishes it, removes it, or goes on with what was begun
    "it_goes_back": [
        *(("old/a", ONE), f"{FIRST_OF_TREE} --dovecot", f"{BACK}; grep -q 'only prepared in a: ' said"),
        *('!eval "$(grep -e --dovecot said)"', f"{BACK} && test ! -s said", "= a/one"),
    ],
    "it_goes_back_and_its_mailbox_was_moved": [
        *(("old/a", ONE), FIRST_OF_TREE, "!mv old older", f"{BACK}er; test $(grep -c 'admin migrate' said) = 1"),
        *('!eval "$(grep -e --undo said)"', f"{BACK}er; test ! -s said", "="),
    ],
    "it_goes_back_and_was_begun": [
        *steps((r"old/a\b", ONE), FIRST_OF_TREE, (r"old/a\b", ONE + TWO), *killed(TREE)),
        *(f"{BACK}; grep -q interrupted said", '!eval "$(grep -e migrate said | tail -1)"', r"= a\b/one a\b/two"),
    ],
    # the command that is printed undoes it: another one would double the mail
    "it_went_into_another_folder": [
        *steps(("a", ONE), "migrate --prepare --unread --folder x M a"),
        ("migrate --folder y M a", f"a: done\na: {NOT_MET}"),
        "!mbox2maildir-admin migrate --now --folder y M a >said; test $(grep -c -e '--folder x' said) = 1",
        *("!grep -q -e '--undo.* --folder x' said", "= x/one y/one .x+"),
        *(("migrate --undo --folder x M a", "a: undone: removed 1 message"), "= y/one"),
    ],
    # what is printed brings the mailbox into one folder at most, and asks for no tree that has another name now
    "its_folder_was_renamed": [
        *steps(("old/a", ONE), ("old/b", TWO), FIRST_OF_TREE, "!mv M/.a M/.x", FIRST_OF_TREE),
        f"!test \"$({BRINGS} M old/b)\" = '--folder a'",
        "!mv old older; mbox2maildir-admin migrate --now M older >said; grep -q -e '--undo.* --folder x' said",
        f'!test -z "$(grep bring said; {BRINGS} M older; {BRINGS} M older/b)"',
        "= a/one b/two x/one .x+",
    ],
    "undone_once_it_was_moved": [
        *(
            ("old/a", ONE),
            FIRST_OF_TREE,
            "!mv old older",
            ("migrate --undo M older/a", "older/a: undone: removed 1 ..."),
        ),
        *steps("=", ("older/a", ONE + TWO), FIRST_OF_TREE + "er", ("older/a", ONE + THREE), *killed(TREE + "er")),
        *("!mv older old", ("migrate --undo M old/a", "old/a: undone: removed 2 messages"), "="),
    ],
    "undone_beside_an_equal_one_that_is_gone": [
        *(("b", ONE), "migrate --folder b M b", ("a", ONE), "migrate --prepare --unread --folder a M a", "!rm a"),
        *(("migrate --undo M b", "b: undone: removed 1 message"), "= a/one .a+"),
    ],
    "undone_in_the_folder_that_is_named": [
        *(("a", ONE), FIRST, "!mv a b", ("migrate --undo --folder INBOX M b", "b: undone: removed 1 message"), "="),
    ],
    "undone_in_the_folder_of_another": [
        *(("old/a", ONE), ("b", TWO), FIRST_OF_TREE),
        ("migrate --undo --folder a M b", "b: left (undo): no ledger has it, so nothing shows which files are its own"),
        *("= a/one .a+", ("migrate --undo --folder a M old/a", "old/a: undone: removed 1 message"), "="),
    ],
    # it had begun to write the list of UIDs
    "killed_and_undone_with_dovecot": [
        *steps(("old/a", ONE), f"{FIRST_OF_TREE} --dovecot", ("old/a", ONE + TWO)),
        *killed("migrate --dovecot M old"),
        *("!echo 3 V1 >M/.a/tmp/mbox2maildir-admin-dovecot-uidlist", "migrate --undo M old/a", "!test ! -e M/.a"),
    ],
    "killed_and_somebody_reads": [
        *steps(("a", ONE), FIRST, ("a", ONE + TWO), *KILLED, LOOKS, ("a", ONE)),
        *((LAST, f"{READS}dovecot.index.log"), "= one two M+"),
    ],
    "killed_and_delivered": [
        *steps(("a", ONE), FIRST, "!printf 'Subject: new\\n\\n' >M/new/17000.M1.host", ("a", ONE + TWO), *KILLED),
        *(("a", ONE), (FIRST, "a: prepared: 1 prepared before..."), "= new one M+"),
    ],
    "killed_and_edited": [
        *steps(
            ("a", ONE), FIRST, ("a", ONE + TWO), *KILLED, "!for a in M/new/*; do echo edited >>$a; done", ("a", THREE)
        ),
        *(LAST, "= one three two"),
    ],
    # what no mailbox goes into on the day
    "one_of_ten_is_gone": [
        *(*TEN, "!mv old older; rm older/3"),
        *("migrate --dry-run M older", f"= {ALL_TEN} " + " ".join(f".{number}+" for number in range(10))),
        *("migrate M older", f"= {ALL_TEN.replace('3/one ', '')}", "!test ! -e M/.3"),
    ],
    "mail_of_others_stays": [
        *(*TEN, "!echo >M/.3/new/17000.M1.host; rm old/3", TREE, f"= {ALL_TEN.replace('3/one', '3/-')}"),
    ],
    "two_of_ten_are_gone": [
        *(*TEN, "!rm old/3 old/4", (TREE, re.sub("([34]): done: .*", rf"\1: {TWO_GONE}", TEN_DONE))),
        f"= {ALL_TEN} .3+ .4+",
    ],
    "a_renamed_mailbox": [
        *(*TEN, "!mv old/3 old/new", FIRST_OF_TREE, "!test -e M/.3", TREE, "!test ! -e M/.3"),
        f"= {ALL_TEN.replace('3/one ', '')} new/one",
    ],
    "one_that_was_given_a_folder_and_was_moved": [
        *(("a", ONE), "migrate --prepare --unread --folder X M a", "!mv a b", ("b", ONE + TWO)),
        *(("migrate M b", "b: done: 1 prepared before"), "= X/one X/two"),
    ],
    "in_inbox_although_a_copy_of_it_is_done_and_gone": [
        *(("a", ONE), FIRST, ("old/c", ONE), (TREE, f"a: {NOT_MET}\nold/c: done"), "!rm -r old"),
        *((LAST, "a: done: 1 prepared before; 1 message of it went into c too, from old/c"), "= c/one one"),
    ],
    # the name of one is the beginning of the other's
    "another_tree": [
        *(*TEN[:-1], ("older/c", TWO), f"{FIRST_OF_TREE} older", (TREE, f"{TEN_DONE}\nolder/c: {NOT_MET}")),
        f"= {ALL_TEN} c/two .c+",
        *(("migrate M older", "older/c: done: 1 prepared before"), f"= {ALL_TEN} c/two"),
    ],
    "another_mailbox_with_dovecot": [
        *(("a", ONE), "migrate --prepare --unread --dovecot --folder x M a", ("b", TWO)),
        ("migrate M b", f"a: {NOT_MET}\nb: done"),
        '!eval "$(mbox2maildir-admin migrate --now M b | grep -e migrate | grep -v -e --undo)"',
        "= two x/one",
    ],
    "a_tree_behind_a_link": [
        *((f"disk/old/{number}", ONE) for number in range(10)),
        *("!ln -s disk link", f"{FIRST_OF_TREE[:-3]}link/old", ("disk/old/3", b"milk\n")),
        ("migrate --no-mail 3 M link/old", BEHIND_A_LINK),
        f"= {ALL_TEN} .3+",
    ],
    "a_file_that_holds_no_mail_any_more": [
        *(("old/a", ONE), ("old/b", ONE), FIRST_OF_TREE, ("old/a", b"milk\n")),
        (
            "migrate --no-mail a M old",
            f"old/a: {NOT_MET}\nold/a: no mail: by --no-mail\nold/b: done: 1 prepared before",
        ),
        "= a/one b/one .a+",
    ],
    "a_list_of_a_mailbox_that_is_gone_is_damaged": [
        *(("old/a", ONE), ("old/b", ONE), FIRST_OF_TREE, "!echo '?' >>M/.b/mbox2maildir-prepared; rm old/b"),
        (TREE, "old/a: done: 1 prepared before\nold/b: left (ledger): ...: line 8 of it is damaged: nothing shows ..."),
        "= a/one b/one .b+",
    ],
    "passes_that_placed_nothing": [
        *(("old/a", ONE), FIRST_OF_TREE, "!mkdir M/.c M/.d M/.e; : >M/.c/mbox2maildir-prepared"),
        "!for a in d e; do printf 'mbox2maildir-prepared\t1\n/\n' >M/.$a/mbox2maildir-prepared; done",
        "!: >M/.e/dovecot-uidlist; mkdir M/mbox2maildir-aside.x",
        *(FIRST_OF_TREE, "migrate --dry-run M old", "!test -e M/.c -a -e M/.d -a -e M/mbox2maildir-aside.x"),
        *(TREE, "= a/one .c? .e?"),
    ],
}

if __name__ == "__main__":
    run_stories(STORIES)
