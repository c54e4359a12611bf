"""What `migrate` makes of mailboxes that servers, mail programs and people have rewritten since it saw them, worked out
by hand. Each was once doubled, lost or asked about. Random ones are worlds of tests/companion/worlds.py."""
from tests.support.mail import A, B, C, ONE, THREE, TWO, with_length
from tests.support.stories import RESTORED, Step, killed, run_stories, steps

FOUR = C.replace(b"three", b"four") + b"\nhello\n\n"


def looked(*messages: bytes, status: bytes = b"O") -> bytes:
    """A mailbox once a server has numbered its messages."""
    base = b"\nX-IMAPbase: 1700000000 %010d" % len(messages)
    fields = (
        b"%b\nX-UID: %d\nStatus: %b\n\n" % (base * (uid == 1), uid, status) for uid in range(1, 1 + len(messages))
    )
    return b"".join(message.replace(b"\n\n", next(fields), 1) for message in messages)


ALL, LOOKED = ONE + TWO + THREE, looked(ONE, TWO, THREE)
# a file that another program has placed, and files that another program has renamed
PLACED = ("M/cur/1700000000.1.mbox:2,S", ONE.split(b"\n", 1)[1][:-1])
RENAMES = "!cd M; n=0; for a in new/* cur/*; do test ! -e $a || mv $a cur/17000.$((n += 1)).host:2,S; done"
LOSES = "!rm $(grep -l 'Subject: three' M/new/*)"
BACK = "when its mail was placed, up to {} that had been deleted or moved came back".format
WENT = "2 messages of it went into b too, from m/b"
CAME_BACK = "a: done: ...up to {} that had been deleted or moved came back".format
# lines `From ` within messages that their lengths end, and one that nobody has quoted
SHED = [with_length(head, b"hello\nFrom the shed.\n") + b"\n" for head in (A, B, C)]
QUOTED = SHED[0].replace(b"\nFrom the", b"\n>From the")
OF_MUTT = with_length(A, b"hello\n>From the shed.\n") + b"\n" + with_length(B, b"hello\n") + b"\n"
AFAR = FOUR.replace(b"hello\n", b"hello\nFrom afar.\n")
FIELD = with_length(A, b"hello\nFrom the shed:\nStatus: RO\nmore\n") + b"\n"
FIRST_ALONE = '@"$real" convert . ../placed && kill -9 $PPID'
STORIES: dict[str, list[Step]] = {
    "a_server_looks_and_deletes": [
        *(("a", ALL), "migrate M a", ("a", looked(ONE, THREE)), "migrate M a", "migrate --again M a"),
        "= one three two",
    ],
    "flags_change": [
        *(
            ("a", LOOKED),
            "migrate --dovecot M a",
            "!ls M/new M/cur >kept",
            ("a", looked(ONE, TWO, THREE, status=b"RO")),
        ),
        *(("migrate --dovecot M a", "a: done before..."), "!ls M/new M/cur | cmp - kept"),
    ],
    "it_is_moved": [
        *(("a", ALL), "migrate M a", "!mv a b", ("b", LOOKED), ("migrate M b", "b: done before"), "= one three two"),
    ],
    "its_tree_is_put_aside": [
        *(("mail/Sent", ONE + TWO), ("mail/lists/garden", THREE + FOUR), "migrate M mail"),
        *(("mail/Sent", looked(ONE, TWO)), ("mail/lists/garden", looked(THREE, FOUR)), "!mv mail mail.old"),
        ("migrate M mail.old", "mail.old/Sent: done before\nmail.old/lists/garden: done before"),
        "= Sent/one Sent/two lists.garden/four lists.garden/three",
    ],
    "others_have_placed_one": [
        *(("a", ONE + TWO), "!mkdir -p M/new M/cur M/tmp", PLACED),
        (
            "migrate --dry-run --again M a",
            "a: would be done: would place 1 message; 1 message there already, by no ...",
        ),
        *("migrate --again M a", "= one:S two"),
    ],
    # of which another program has renamed all files
    **{
        f"it_is_brought_again{option.replace(' --', '_by_')}": [
            *(("a", LOOKED), f"migrate{option} M a", RENAMES, "migrate --again M a", "= one:S three:S two:S"),
        ]
        for option in ("", " --dovecot")
    },
    # mutt adds lengths, and the `>` of the delivery stays; another message is nowhere
    "it_has_another_form": [
        *(("a", A + b"\nhello\n>From the shed.\n\n" + TWO), "migrate M a", "= one two"),
        *(("a", OF_MUTT), ("migrate M a", "a: done before")),
        ("verify M a", "a: whole: in another form 1; without fields 1"),
        '!touch M/new/*; mbox2maildir-admin dates M a && test -z "$(find M/new -type f -newermt 2025-03-04)"',
        "!rm $(grep -l 'Subject: two' M/new/*)",
        ("verify M a", "a: not whole: in another form 1; nowhere 1"),
    ],
    # a program puts the mail of one mailbox into another, and removes the first; somebody has deleted some of it
    "two_are_joined": [
        *(("m/a", ONE), ("m/b", TWO + THREE), "migrate M m", "!rm $(grep -l 'Subject: two' M/.b/new/*)"),
        *("!cat m/b >>m/a; rm m/b", ("migrate M m", f"m/a: done: it grew by 2 messages; {WENT}; {BACK('1 message')}")),
        *("= a/one a/three a/two b/three", ("m/a", ONE + TWO + THREE + FOUR)),
        ("migrate M m", f"m/a: done: it grew by 1 message; {BACK('1 message')}"),
    ],
    # the same across folders of a tree, or from the spool
    "two_of_several_folders_are_joined": [
        *(("m/b", TWO + THREE), ("m/s/c", ONE), "migrate M m", "!rm $(grep -l 'Subject: two' M/.b/new/*)"),
        "!cat m/b >>m/s/c; rm m/b",
        ("migrate M m", f"m/s/c: done: it grew by 2 messages; {WENT}; {BACK('1 message')}"),
        "= b/three s.c/one s.c/three s.c/two",
    ],
    # it lost a message by then
    "it_has_lost_mail_and_is_renamed": [
        *(("m/b", ONE + TWO + THREE), "migrate M m", "!rm $(grep -l 'Subject: two' M/.b/new/*); rm m/b"),
        *(("m/c", TWO + THREE), ("migrate M m", f"m/c: done: {WENT}; {BACK('1 message')}")),
        "= b/one b/three c/three c/two",
    ],
    # what it gets is the same as what somebody has deleted
    "one_more_of_what_was_deleted": [
        *(("a", ALL), "migrate M a", LOSES, ("a", ALL + THREE)),
        *(("migrate M a", f"a: done: it grew by 1 message; {BACK('1 message')}"), "= one three two"),
    ],
    "it_is_renamed_in_its_tree": [
        *(("m/b", TWO + THREE), "migrate M m", "!rm $(grep -l 'Subject: two' M/.b/new/*)", "!mv m/b m/c"),
        *(("migrate M m", f"m/c: done: {WENT}; {BACK('1 message')}"), (">", "m/c: undone: ..."), "= c/three c/two"),
        *("!rm -r M/.c; mv m/c m/d", ("migrate M m", f"m/d: done: {BACK('2 messages')}"), "= d/three d/two"),
    ],
    "it_moves_in_its_tree_and_grows": [
        *(("m/b", TWO + THREE), "migrate M m", "!mkdir m/s; mv m/b m/s/b", ("m/s/b", TWO + THREE + FOUR)),
        *(("migrate M m", f"m/s/b: done: {WENT}"), (">", "m/s/b: undone: ..."), "= s.b/four s.b/three s.b/two"),
    ],
    "it_moves_in_its_tree_to_another_name_and_grows": [
        *(("m/b", TWO + THREE), "migrate M m", "!rm $(grep -l 'Subject: two' M/.b/new/*); mkdir m/s; mv m/b m/s/c"),
        *(("m/s/c", TWO + THREE + FOUR), ("migrate M m", f"m/s/c: done: {WENT}; {BACK('1 message')}")),
        *((">", "m/s/c: undone: ..."), "= s.c/four s.c/three s.c/two"),
    ],
    # it was gone from the mailbox for a while, and somebody deleted it meanwhile
    "deleted_and_in_it_again": [
        *(("a", ALL), "migrate M a", ("a", ONE + TWO), "migrate M a", LOSES, ("a", ALL)),
        *(("migrate M a", f"a: done: it grew by 1 message; {BACK('1 message')}"), "= one three two"),
    ],
    # what was deleted is there again if another mailbox has it in another form, and that is said
    "deleted_and_brought_in_another_form": [
        *(("a", A + b"\nhello\n>From the shed.\n\n"), "migrate M a", "!rm M/new/*", ("b", OF_MUTT)),
        *(("migrate M b", f"b: done: ...{BACK('1 message')}"), "= one two"),
    ],
    "what_looks_like_a_field_in_a_body": [
        *(("a", FIELD), "migrate --as mboxcl2 M a", ("a", FIELD.replace(b"RO", b"O ")), "migrate --as mboxcl2 M a"),
        "= one one",
    ],
    # it was begun, and is asked about
    "a_line_that_nobody_quoted": [
        *steps(("a", b"".join(SHED)), ("placed", QUOTED), FIRST_ALONE, "migrate M a", RESTORED),
        *(("a", b"".join([*SHED, AFAR])), ASKED := ("migrate M a", "a: left (unclear): ...")),
        ("migrate --as mboxrd M a", "a: left (another-reading): its conversion was begun with another reading: ..."),
        *(ASKED, (">", "a: done"), ("migrate M a", "a: done before"), "= four one three two"),
    ],
    # its owner deletes it, and the mailbox grows
    "the_last_message_has_no_blank_line": [
        *(("a", ALL[:-1]), "migrate M a", LOSES, ("a", ALL + FOUR)),
        *(("migrate M a", "a: done: it grew by 1 message"), "= four one two"),
    ],
    "all_is_taken_at_once": [
        *steps(("a", ALL), *killed("migrate M a"), "!rm M/new/*", ("migrate M a", CAME_BACK("3 messages"))),
        "= one three two",
    ],
    # and then the one before it is flagged
    "the_last_is_taken": [
        *steps(("a", ALL), *killed("migrate M a"), f"{LOSES}; cd M; a=$(grep -l two new/*); mv $a cur/${{a#new/}}:2,S"),
        *(("migrate M a", CAME_BACK("1 message")), "= one three two:S"),
    ],
    # and it is gone from the mailbox before a run says so
    "what_came_back_is_lost": [
        *steps(("a", ONE), "migrate M a", ("a", ONE + THREE), *killed("migrate M a"), LOSES, *killed("migrate M a")),
        *(
            ("a", ONE),
            ("migrate M a", f"a: done before: 1 message gone from it that it had brought; {BACK('1 message')}"),
        ),
        *(("migrate M a", f"a: done before: {BACK('1 message')}"), "= one three"),
    ],
    "shared_but_for_fields": [
        *(
            ("a", looked(ONE, TWO, THREE, status=b"RO")),
            "migrate --dovecot M a",
            ("b", looked(TWO, FOUR, status=b"RO")),
        ),
        *("migrate --again M b", "migrate --undo M a", "= four:S two:S"),
    ],
}

if __name__ == "__main__":
    run_stories(STORIES)
