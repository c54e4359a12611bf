"""The words that say in which format mailboxes were written: the mail that each text has by each word, and which words
answer what is asked about a mailbox."""
from pathlib import Path

from tests.support.checks import equal
from tests.support.homes import by_json, check_all, expect, mail_in, mailbox
from tests.support.mail import A, B, with_length
from tests.support.tables import rows_of, text_in

WORDS = {"mboxrd", "mboxo", "mboxcl", "mboxcl2", "unquoted"}
BY_LENGTHS, BY_LINES = {"mboxcl", "mboxcl2"}, {"mboxrd", "mboxo"}
# a line `From ` within a length, without and with a date; a length that is wrong
INSIDE, DATED = with_length(A, b"From \n") + b"\n", with_length(A, B)
WRONG = b"Content-Length: 99\n\n"
# a line `From ` in mail: with a header, without one, and with a date
NAMED, BARE, ODD = b"From me to you\nNote: x\n\n", b"From me on\n", b"From x Mon Mar  3 09:12:44 2025\nsee\n"
# a mailbox, and the words that decide about it if they are given for several; the words by lengths say nothing of lines
# outside of these that may be mail, and a line that contradicts a word leaves the mailbox
OF_SEVERAL: list[tuple[bytes, set[str]]] = [
    (B + b"\n", WORDS),
    (INSIDE + B + b"\n", BY_LENGTHS),
    (DATED + b"\n" + B + b"\n", set()),
    (INSIDE + B + WRONG + b"hi\n", {*BY_LENGTHS, "unquoted"}),
    (INSIDE + B + b"\n" + BARE, {"unquoted"}),
    (INSIDE + B + b"\nhi\n\n" + NAMED, {"unquoted"}),
    (INSIDE + B + b"\n" + ODD, set()),
    (B + b"\n" + BARE, {"unquoted"}),
    # where the text begins, a message begins by each word, also without a header
    (B.partition(b"\n")[0] + b"\n\nhi\n\n" + B + b"\n" + BARE, {"unquoted"}),
    (B + b"\n>" + BARE + BARE, {"unquoted"}),
    (B + b"\nhi\n\n" + NAMED, {*BY_LINES, "unquoted"}),
    (B + b"\n" + ODD, BY_LINES),
    # what is certain needs no word, and lengths that are all right are none of its business
    (INSIDE + with_length(B, b"hi\n"), WORDS),
    # nobody reads deleted mail, or what stands in a From_ line, by a word for several
    (A + b"X-Mozilla-Status: 0009\n\nhi\n", set()),
    (A + b"\n\nFrom x\ry Mon Mar  3 09:12:44 2025\n\n", set()),
    (A + b"\nhi" + B + b"\nyes\n", set()),
    (with_length(A, b"hello", 7), set()),
]
# a mailbox, and the words that decide about it if it is the only one
ALONE: list[tuple[bytes, set[str]]] = [
    (B + b"\n" + BARE, {*BY_LINES, "unquoted"}),
    (B + b"\nhi\n\n" + NAMED, WORDS),
    (INSIDE + B + b"\n", WORDS),
    (DATED + b"\n" + B + b"\n" + BARE, {*BY_LINES, "unquoted"}),
    (DATED + b"\n" + B + b"\n" + BARE * 201, WORDS),
    ((A + b"\nhi\n").replace(b"\n", b"\r"), WORDS),
]


def by_each_word(home: Path) -> None:
    """The mail of each text by each word."""
    for number, row in enumerate(rows_of("words.txt")):
        mailbox(home / "box", row.text)
        for words, *bodies in (line.split(" | ") for line in row.lines):
            for word in words.split():
                expect(["migrate", "--now", "--folder", f"{number}-{word}", "--as", word, "M", "box"], home, 0, None)
                found = sorted(one.read_bytes() for one in mail_in(home / f"M/.{number}-{word}"))
                equal(f"{row.text!r} by {word}", found, sorted(map(text_in, bodies)))


def of_several(home: Path) -> None:
    """Which mailboxes are done by a word that is given for all of them."""
    for number, (text, _) in enumerate(OF_SEVERAL):
        mailbox(home / f"old/{number}", text)
    for word in sorted(WORDS):
        rows = by_json(["migrate", "--dry-run", "--now", "--as", word, "M", "old"], home).rows
        done = {int(row["path"][4:]) for row in rows if row["verdict"] == "would be done"}
        equal(word, done, {number for number, (_, words) in enumerate(OF_SEVERAL) if word in words})


def of_one(home: Path) -> None:
    """A word that is given for one mailbox decides about its lines; one by lengths only about lines in lengths."""
    for number, (text, words) in enumerate(ALONE):
        mailbox(home / f"box{number}", text)
        taken = set()
        for word in WORDS:
            row = by_json(["migrate", "--dry-run", "--now", "--as", word, "M", f"box{number}"], home).row
            taken |= {word} if row["kind"] == f"{word} by --as" else set()
        equal(f"{text!r}", taken, words)


if __name__ == "__main__":
    check_all(by_each_word, of_several, of_one)
