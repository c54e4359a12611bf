"""Mailboxes whose last message was not complete when they were migrated, and that are read otherwise once it is: no
message is there twice when a run says that all is done, whatever the words are, and each is there whole in the end."""
import re
import typing
from collections import Counter
from collections.abc import Callable
from functools import partial
from pathlib import Path
from typing import NamedTuple

from tests.support.cases import run_cases
from tests.support.checks import equal
from tests.support.homes import at_home, mail_in, mailbox, run, run_printed
from tests.support.ledgers import as_if_killed
from tests.support.mail import B, C, ONE, THREE

# how many runs a mailbox gets until all is done
RUNS = 8


def crlf(text: bytes) -> bytes:
    """A text with CR LF at the ends of its lines."""
    return text.replace(b"\n", b"\r\n")


class Cut(NamedTuple):
    """A mailbox, what follows it later, the options of the first migration and of the next one, and what is done to the
    home between both."""

    first: bytes
    more: bytes
    words: tuple[str, ...] = ()
    then: tuple[str, ...] = ()
    between: Callable[[Path], object] = bool


def was_killed(home: Path) -> None:
    """The run was killed once all of its messages were there."""
    as_if_killed(home / "M")


def is_read(home: Path) -> None:
    """A mail program notes in the header of the last message that it was read."""
    text = (home / "box").read_bytes()
    mailbox(home / "box", text.replace(b"Subject: two\nStatus: O\n", b"Subject: two\nStatus: RO\n"))


SUBJECTS = b"Subject: one", b"Subject: two", b"Subject: three"
# how whole messages end, in any reading
ENDS = b"hello\n", b"hello\r\n", b"last line without its end\n", b"last line\n", b"From there\n"
TORN = B + b"\nlast line without its en"
CASES = {
    "crlf_and_then_not": Cut(crlf(ONE + TORN), b"d\n\n" + THREE),
    "crlf_and_then_not_by_again": Cut(crlf(ONE + TORN), b"d\n\n" + THREE, then=("--again",)),
    "crlf_and_killed": Cut(crlf(ONE + TORN), b"d\n\n" + THREE, between=was_killed),
    "other_quotes": Cut(ONE + B + b"\n>>From here\nlast li", b"ne\n\n" + THREE, ("--as", "mboxo")),
    "other_quotes_by_again": Cut(
        ONE + B + b"\n>>From here\nlast li", b"ne\n\n" + THREE, ("--as", "mboxo"), ("--again",)
    ),
    "nothing_else_by_again": Cut(ONE + TORN, b"d\n\n" + THREE, then=("--again",)),
    "within_quotes": Cut(
        ONE + B + b"\n>>From here\n>>Fro", b"m there\n\n" + THREE, ("--as", "mboxo"), ("--as", "mboxo")
    ),
    "within_the_end_of_a_line": Cut(crlf(ONE + TORN) + b"d\r", b"\n\r\n" + crlf(THREE)),
    "within_a_field_of_a_program": Cut(ONE + B + b"X-U", b"ID: 7\n\nhello\n\n" + THREE),
    "behind_a_megabyte": Cut(ONE + B + b"\n" + b"text\n" * 300_000 + b"last li", b"ne\n\n" + THREE, then=("--again",)),
    "within_a_from_line": Cut(ONE + B + b"\nhello\n\n" + C[:3], C[3:] + b"\nhello\n\n"),
    "within_a_from_line_by_again": Cut(ONE + B + b"\nhello\n\n" + C[:3], C[3:] + b"\nhello\n\n", then=("--again",)),
    "read_since": Cut(ONE + B + b"Status: O\n\nlast line without its en", b"d\n\n" + THREE, between=is_read),
    "read_since_with_dovecots_numbers": Cut(
        ONE + B + b"Status: O\n\nlast line without its en", b"d\n\n" + THREE, ("--dovecot",), ("--dovecot",), is_read
    ),
}  # type: dict[str, Cut]


def subjects_in(home: Path) -> "typing.Counter[bytes]":
    """How often each message is there, by its subject."""
    found = (re.findall(rb"(?m)^Subject: \w+", path.read_bytes()) for path in mail_in(home / "M"))
    return Counter(subject for subjects in found for subject in subjects)


def run_to_the_end(home: Path, command: str) -> list[str]:
    """Runs a command, and what it prints, until a mailbox is done. After a file was removed the same command follows.
    Returns what was printed."""
    said = []  # type: list[str]
    for _ in range(RUNS):
        ran = run_printed(command, home, "--json")
        said.append(f"$ {command}: {ran.status}: {ran.output}")
        if not ran.status:
            return said
        found = ran.row.commands
        assert found, said
        if found[0].startswith("rm "):
            equal(f"{said}", run_printed(found[0], home), (0, "", ""))
        else:
            command = found[0]
    raise AssertionError(f"it does not end: {said}")


def is_whole(cut: Cut, home: Path) -> None:
    """It is migrated, grows, and is migrated until all is done, by what is printed."""
    mailbox(home / "box", cut.first)
    status, out, _ = run(["migrate", *cut.words, "M", "box"], home)
    equal(f"the first run: {out}", status, 0)
    cut.between(home)
    mailbox(home / "box", (home / "box").read_bytes() + cut.more)
    said = run_to_the_end(home, " ".join(["mbox2maildir-admin", "migrate", *cut.then, "M", "box"]))
    equal(f"what is there: {said}", subjects_in(home), Counter(SUBJECTS))
    for path in mail_in(home / "M"):
        assert path.read_bytes().endswith(ENDS), (said, path.read_bytes())


if __name__ == "__main__":
    run_cases({name: partial(at_home, partial(is_whole, cut)) for name, cut in CASES.items()})
