"""Mailboxes that are done, and then migrated by a word that reads them otherwise: nothing is placed beside what is
there, the row says so, and the command that it prints leads to the other reading."""
from tests.companion.cut import crlf
from tests.support.mail import A, B, ONE, THREE, TWO, with_length
from tests.support.stories import Step, run_stories

# a line `From ` that begins a message by one word, and is mail by the other
BODY = b"hello\n\nFrom b@example.org Mon Mar  3 09:12:45 2025\nSubject: inner\n\nyes\n"
INSIDE, WITH_LENGTH = (
    head + BODY + b"\n" + B + b"\nyes\n\n" for head in (A + b"\n", with_length(A, BODY)[: -len(BODY)])
)
QUOTED = A + b"\n>>From here\n\n" + B + b"\nyes\n\n"
LEFT = "a: left (another-reading): it was read as {} when it was migrated, and ... message... of ..."
DECIDED = crlf(ONE) + TWO + b"From Tuesday on\n\nhi\n"
# texts with two words, and what shows by which of these it was read
WORDS = {
    "a_length": (WITH_LENGTH, "mboxcl2", "= one two", "mboxrd", "= inner one two"),
    "quotes": (QUOTED, "mboxrd", "!grep -q '^>From here' M/new/*", "mboxo", "!grep -q '^>>From here' M/new/*"),
}
STORIES: dict[str, list[Step]] = {
    # once that is undone, it is read as the word says; the undo that a dry run prints is dry
    **{
        f"brought_again_by_{name}": [
            *(("a", text), f"migrate --as {first} M a", there),
            *(
                (f"migrate --again --dry-run --as {then} M a", LEFT.format(first)),
                there,
                (">", "a: would be ..."),
                there,
            ),
            *((f"migrate --again --as {then} M a", LEFT.format(first)), there, (">", "a: undone: ..."), "="),
            *(f"migrate --as {then} M a", otherwise),
        ]
        for name, (text, first, there, then, otherwise) in WORDS.items()
    },
    # its row has the undo; a word that gives the same messages says nothing
    "done_before": [
        *(("a", WITH_LENGTH), "migrate --as mboxcl2 M a"),
        *((f"migrate --as {word} M a", "a: done before") for word in ("mboxcl2", "mboxcl")),
        *(
            (
                f"migrate --as {word} M a",
                f"a: done before: it was read as mboxcl2, and --as {word} gives other messages",
            )
            for word in ("mboxo", "unquoted", "mboxrd")
        ),
        *("= one two", (">", "a: undone: removed 2 messages"), "="),
    ],
    # a word for several is not said of those that it does not contradict
    "of_several": [
        *(("old/a", ONE), ("old/b", TWO), ("old/c", INSIDE), "migrate --as mboxo M old"),
        ("migrate --as mboxo M old", "old/a: done before\nold/b: done before\nold/c: done before"),
    ],
    "rewritten": [
        *(("a", WITH_LENGTH), "migrate --as mboxcl2 M a", ("a", B + b"\nmore\n\n" + WITH_LENGTH)),
        *(("migrate --again --as mboxrd M a", LEFT.format("mboxcl2")), "= one two"),
        *((">", "a: done: placed 1 message"), "= one two two"),
    ],
    # a program has put mail without CR before its messages, and nothing is asked
    "rewritten_and_read_alike": [
        *(("a", crlf(ONE + TWO)), "migrate M a", ("a", THREE + crlf(ONE + TWO))),
        *(("migrate M a", "a: done: ...it grew by 1 message..."), "= one three two"),
    ],
    # something is asked about it still, but it was answered
    "decided_and_cut": [
        *(("a", DECIDED + b"\n" + THREE), ("migrate M a", "a: left (unclear): ..."), (">", "a: done"), ("a", DECIDED)),
        ("migrate M a", "a: done before: 1 message gone from it that it had brought"),
        "= one three two",
    ],
}

if __name__ == "__main__":
    run_stories(STORIES)
