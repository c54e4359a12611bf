"""What answers a question about a mailbox: what it has brought without one, and what a human has answered before. If
neither does, a human is asked."""
from tests.support.mail import A, B, C, MAY, ONE, TWO, with_length
from tests.support.stories import Step, killed, run_stories, steps

# a message by its length, in which a line may begin another one, since a program may have escaped the next line; and
# new mail, in which one may
MEASURED = with_length(A, b"hello\nFrom here on.\n>From me.\n") + b"\n"
NEW, CUT = B + b"\nyes\n\n", with_length(B, b"yes", 7)
DOUBTFUL = B + b"\nyes\nFrom there on.\n\n"
# messages without dates, of which nobody is sure once another one has a date
UNDATED = b"From a\nSubject: x\n\none\n\nFrom a\nSubject: y\n\ntwo\n\n"
# one that ends or begins at the line that is in question in both
BOTH = with_length(A, b"hello\nFrom x\n\nyes\n>From y\n") + b"\n"
ABOVE = with_length(A, b"hello\n") + b"\n"
BELOW = with_length(B.split(b"\n", 1)[0] + b"\n", b"yes\n>From y\n") + b"\n"
GONE, KEPT, KEPT_TOO = (
    head + b"X-Mozilla-Status: 000%d\n\nhello\n\n" % mark for head, mark in ((A, 8), (B, 0), (C, 0))
)
LINES = A + b"\n>From x\nFrom the first\nhello\n\n" + B + b"\n"
QUOTED = A + b"\n>>From x\n\n" + TWO
OTHER_WORDS = "!sed -i 's/\\tmbox\\(rd\\|cl2\\)\\t/\\tnone\\1\\t/' M/mbox2maildir-messages"
ASKED, AGAIN = "a: left (unclear): ...", "as it was answered before"
OTHERWISE = "b: left (another-reading): it was read as ... when it was migrated, and 1 message of that reading ..."
GREW = "a: done: as the messages show that it brought; it grew by 1 message"


def in_cr(text: bytes) -> bytes:
    """A text whose lines end in CR alone."""
    return text.replace(b"\n", b"\r")


# what a mailbox has brought without a question, what it has then, and what its row says
BROUGHT = {
    "a_line_within_what_was_brought": (MEASURED, MEASURED + NEW, GREW),
    "a_line_above_what_was_brought": (UNDATED, UNDATED + NEW, GREW),
    "a_line_in_new_mail": (MEASURED, MEASURED + DOUBTFUL, ASKED),
    "a_line_in_the_second_new_mail": (MEASURED, MEASURED + NEW + DOUBTFUL, ASKED),
    "a_line_in_new_mail_beside_undated": (UNDATED, UNDATED + NEW + DOUBTFUL, ASKED),
    "a_length_in_new_mail": (MEASURED, MEASURED + NEW + MEASURED.replace(b"hello", b"hallo"), ASKED),
    # nobody knows which of them was brought
    "the_message_once_more": (MEASURED, MEASURED + NEW + MEASURED, ASKED),
    "new_mail_that_is_cut": (MEASURED, MEASURED + CUT, ASKED),
    "more_new_mail_that_is_cut": (MEASURED, MEASURED + NEW + CUT, ASKED),
    # its sender wrote a length that leads over that
    "new_mail_above_what_was_brought": (TWO, with_length(A, b"hello\n\n" + TWO) + b"\n" + ONE, ASKED),
    # what ends or begins at the line was brought too, by itself
    "what_begins_there_is_there": (BOTH + BELOW, BOTH + BELOW + NEW, "a: done: ...it grew by 1 message..."),
    "what_begins_there_is_gone": (BOTH + BELOW, BOTH + NEW, ASKED),
    "what_ends_and_begins_there_is_there": (BOTH + ABOVE + BELOW, BOTH + ABOVE + BELOW + NEW, "a: done: ..."),
    "what_ends_and_begins_there_is_gone": (BOTH + ABOVE + BELOW, BOTH + NEW, ASKED),
}
FIRST_OF, NOTED = "migrate --prepare --unread", A + b"\nhello\n\nFrom here on.\n\n"
FIRST, MORE = f"{FIRST_OF} M a", NOTED + ONE + NOTED.replace(b"here on", b"there")
# the words of an answer in the record, of which `@` stands for the tie, and what the next pass says
NOTES = {
    "unquoted of=@": "a: prepared: as it was answered before; 1 prepared before",
    "mboxo text=1 of=@": "a: prepared: as it was answered before...",
    "unquoted of=@ drop-deleted": "a: prepared: ...as it was answered before...",
    "mboxo": ASKED,
    "of=@": ASKED,
    "mboxo of=0123456789abcdef": ASKED,
    "mboxq of=@": ASKED,
    "text=1 of=@": ASKED,
    "text=1 of=@ drop-deleted": ASKED,
    "mboxo text=2 of=@": ASKED,
    "mboxo of=@ more=1": ASKED,
    "mboxo of=@ crlf": ASKED,
}
STORIES: dict[str, list[Step]] = {
    # so it is as often as it grows: nobody has answered
    "it_grows_twice": [
        *(
            ("a", MEASURED),
            "migrate M a",
            ("a", MEASURED + NEW),
            ("migrate --dry-run M a", GREW.replace("done", "would be done")),
        ),
        *((LAST := "migrate M a", GREW), (LAST, "a: done before"), ("a", MEASURED + NEW + ONE), (LAST, GREW)),
    ],
    "it_was_read_by_another_word": [
        *(("a", UNDATED + b">>From x\n\n"), "migrate --as mboxo M a", "!rm M/mbox2maildir-record"),
        *(("a", UNDATED + b">>From x\n\n" + NEW), ("migrate M a", ASKED)),
    ],
    "a_human_says_otherwise": [
        *(("a", MEASURED), "migrate M a", ("a", MEASURED + NEW)),
        *(("migrate --as mboxrd M a", "a: left (another-reading): ..."), "= one"),
    ],
    # what a human says of a line of new mail holds by the reading of before too
    "a_human_names_a_line": [
        *(("a", QUOTED), "migrate --as mboxrd M a", ("a", QUOTED + LINES), ("migrate M a", ASKED)),
        (">", "a: left (another-reading): it was read as mboxrd when it was migrated, and 1 message of that ..."),
        *((">", "a: done: it grew by 2 messages"), "= one one two two"),
    ],
    "a_human_names_a_line_and_then_another_comes": [
        *(("a", QUOTED), "migrate --as mboxrd M a", ("a", QUOTED + LINES)),
        ("migrate M a", "a: left (unclear): line 18: a line `From ` without a date at its end"),
        (">", "a: left (another-reading): it was read as mboxrd when it was migrated, and 1 message ..."),
        *(("a", QUOTED + LINES + NOTED), (">", "a: left (unclear): what is asked about it has changed since ...")),
    ],
    "it_was_begun_by_another_word": [
        *(("a", NOTED), *killed("migrate --as unquoted M a")),
        (
            "migrate --as mboxrd M a",
            "a: left (another-reading): its conversion was begun with another reading: 1 of 1 ...",
        ),
        *("= one", "migrate --as unquoted M a", "= one"),
    ],
    "it_was_begun_by_another_word_once_it_was_done": [
        *steps(("a", TWO), "migrate M a", ("a", TWO + NOTED), *killed("migrate --as unquoted M a")),
        (
            "migrate --as mboxrd M a",
            "a: left (another-reading): its conversion was begun with another reading: 2 of 2 ...",
        ),
        "= one two",
    ],
    # they say nothing of what is new
    "it_was_read_by_words_of_another_version": [
        *(("a", ONE), "migrate M a", OTHER_WORDS, ("a", ONE + TWO), ("migrate M a", "a: done: it grew by 1 message")),
    ],
    "it_was_undone": [
        *(("a", MEASURED), "migrate M a", ("a", MEASURED + NEW), "migrate --undo M a", ("migrate M a", ASKED)),
    ],
    "all_that_is_nowhere": [
        *(("a", MEASURED), "migrate M a", ("a", MEASURED + NEW), "!rm M/new/*", "migrate --again M a", "= one two"),
    ],
    # an answer about a text with other line ends holds for what is added to it, and each question is about its lines
    "line_ends_of_cr_alone": [
        *(
            ("a", in_cr(GONE + KEPT)),
            ("migrate --drop-deleted M a", "a: left (unclear): line 4: this message is ma..."),
        ),
        *((">", "a: done: without 1 message marked as deleted"), "= two", ("a", in_cr(GONE + KEPT + KEPT_TOO))),
        *(
            ("migrate M a", f"a: done: without 1 message...; {AGAIN}; it grew by 1 message"),
            "= three two",
            ("migrate M a", "a: done before: ..."),
        ),
        *(("b", in_cr(A + b"\n" + MAY + b"\n")), ("migrate --folder B M b", "b: left (unclear): line 6: a line ...")),
        *((">", "b: done"), "= B/one three two", "migrate --undo M a", "= B/one"),
    ],
    "it_is_new": [("a", MEASURED + NEW), ("migrate M a", ASKED)],
    # on the day it has more mail, and stands elsewhere
    "an_answer_of_a_first_pass": [
        *(("a", NOTED), (FIRST, ASKED), "migrate --prepare --unread --as unquoted M a", "!mv a b", ("b", NOTED + ONE)),
        ("migrate M b", "b: done: as it was answered before; 1 prepared before"),
    ],
    # a pass over it where it is now, which had the answer, was killed
    "an_answer_of_a_pass_that_was_killed": [
        *steps(("a", ONE), FIRST, "!mv a b", ("b", ONE + NOTED)),
        *killed("migrate --prepare --unread --as unquoted M b"),
        ("migrate --prepare --unread M b", "b: prepared: as it was answered before; 2 prepared before"),
    ],
    # a word for several changes no answer about one of them until a line comes, and answers no later word
    "an_answer_about_one_and_words_for_several": [
        *(("old/a", NOTED), ("old/b", NOTED)),
        *((f"{FIRST_OF} M old", "old/a: left (unclear): ...\nold/b: left (unclear): ..."), (">", "old/a: prepared")),
        (f"{FIRST_OF} --as mboxo M old", f"old/a: prepared: {AGAIN}; 1 ...\nold/b: left (unclear): ..."),
        (f"{FIRST_OF} --as mboxrd --folder a M old/a", "old/a: prepared: 0 prepared before, 1 message removed..."),
        ("old/a", NOTED + ONE),
        (f"{FIRST_OF} --as unquoted M old", f"old/a: prepared: {AGAIN}; 2 ...\nold/b: prepared"),
        (f"{FIRST_OF} --as mboxo M old", f"old/a: prepared: {AGAIN}; 3 ...\nold/b: left (unclear): ..."),
        *(("old/a", MORE), ("migrate --as unquoted M old", "old/a: left (unclear): ...\nold/b: done: ...")),
        *(("old/a", NOTED + TWO), ("migrate --as unquoted M old", f"old/a: done: {AGAIN}; ...\nold/b: done before")),
        ("old/a", NOTED + TWO + ONE),
        ("migrate --as unquoted M old", f"old/a: done: {AGAIN}; it grew by 1 ...\nold/b: done before"),
        "= a/- a/one a/one a/two b/one",
    ],
    # they say the same, so the words count for the lines that came since
    "an_answer_about_one_and_the_same_word_for_several": [
        *(("old/a", NOTED), f"{FIRST_OF} --as unquoted --folder a M old/a", ("old/a", MORE)),
        (f"{FIRST_OF} --as unquoted M old", "old/a: prepared: 1 prepared before"),
    ],
    # nobody knows what its messages are
    "a_line_that_an_answer_named_is_gone": [
        *(("a", LINES), ("migrate M a", ASKED), (">", "a: done..."), ("a", LINES.replace(b"From the", b"of the"))),
        ("migrate --undo M a", "a: left (undo): it can no longer be read as ..."),
    ],
    # where no From_ line has a date, one that looks like the first needs no answer
    "an_answer_and_a_message_without_a_date": [
        *(
            ("a", HALF := b"From a\nSubject: x\n\none\n\nFrom here on.\nyes\n\n"),
            ("migrate M a", ASKED),
            (">", "a: done..."),
        ),
        *(("a", HALF + UNDATED), ("migrate M a", f"a: done: {AGAIN}; it grew by 2 messages; ...")),
    ],
    # no run has seen it between
    "an_answer_and_then_it_was_moved": [
        *(("a", NOTED), ("migrate M a", ASKED), (">", "a: done..."), "!mv a b", ("b", NOTED + ONE)),
        *(("migrate --as mboxrd M b", OTHERWISE), ("migrate M b", f"b: done: {AGAIN}; it grew by 1 message")),
        *("= one one", "!mv b c", "migrate M c", ("c", MORE)),
        ("migrate M c", "c: left (unclear): line 21: it came since the others were decided, and may begin a message"),
    ],
    "what_it_has_brought_and_then_it_was_moved": [
        *(("a", MEASURED), "migrate M a", "!mv a b", ("b", MEASURED + NEW), ("migrate --as mboxrd M b", OTHERWISE)),
        ("migrate M b", GREW.replace("a:", "b:")),
    ],
    # it has another inode, and other bytes
    "an_answer_and_then_it_was_copied": [
        *(("a", NOTED), ("migrate M a", ASKED), (">", "a: done..."), "!cp a b; rm a", ("b", NOTED + ONE)),
        ("migrate M b", "b: left (unclear): ..."),
    ],
    # the file is another mailbox, which has the message in question
    "an_answer_and_then_another_mailbox_in_its_file": [
        *(("a", TWO + NOTED), ("migrate M a", ASKED), (">", "a: done..."), "!mv a b", ("b", NOTED + ONE)),
        ("migrate --as mboxrd M b", "b: done: ..."),
    ],
    "an_answer_and_another_line": [*(("a", NOTED), "migrate --as unquoted M a", ("a", MORE)), ("migrate M a", ASKED)],
}

if __name__ == "__main__":
    run_stories(
        {
            **STORIES,
            **{
                name: [("a", before), "migrate M a", ("a", after), ("migrate M a", says)]
                for name, (before, after, says) in BROUGHT.items()
            },
            **{
                f"noted_{number}": [
                    *(("a", NOTED), f"{FIRST} --as unquoted"),
                    f"!sed -i 's/\\tunquoted of=\\([0-9a-f]*\\)/\\t{words}/' M/mbox2maildir-record".replace("@", "\\1"),
                    *(("a", NOTED + ONE), (FIRST, says)),
                ]
                for number, (words, says) in enumerate(NOTES.items())
            },
        }
    )
