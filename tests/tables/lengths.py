"""Mailboxes in which some messages have lengths: which lines `From ` within these are text by a rule, and about which a
human is asked. Mail that Dovecot delivers has a length and no escapes, beside mail that has neither or both."""
from pathlib import Path

from tests.support.checks import equal
from tests.support.homes import by_json, check_all, expect, mail_in, mailbox, run_printed
from tests.support.mail import A, B, C, INTERNAL, ONE, THREE, with_length


def sized(body: bytes, more: int = 0, head: bytes = B) -> bytes:
    """A message with a length, as it stands in a mailbox."""
    return with_length(head, body, more) + b"\n"


def over(mail: bytes, after: bytes = b"spam\n\n") -> bytes:
    """A message whose sender gave it a length that leads over the mail after it."""
    return sized(after + mail[:-1]) + ONE


GARDEN = b"see:\n\nFrom the garden\nyes\n"
FORWARDED = b"Subject: real\nFrom: carla@example.net\n\nhi\n\n"
UNDATED = b"From carla\n" + FORWARDED
HELLO = b"hello\n"
# a mailbox, and the mail that it has by the rule
DECIDED = {
    "lmtp": (ONE + sized(b".\n..\nFrom me\n") + THREE, [HELLO, b".\n..\nFrom me\n", HELLO]),
    "at-its-end": (ONE + sized(b"yes\n\nFrom me\n"), [HELLO, b"yes\n\nFrom me\n"]),
    "without-blanks": (ONE + sized(b"yes\nFrom me\n"), [HELLO, b"yes\nFrom me\n"]),
    # its `>` are its own, since a line without one shows that no program has escaped it; those of others are escapes
    "own-quotes": (
        A + b"\n>From the shed\n\n" + sized(GARDEN + b">From me\n>>From you\n"),
        [b"From the shed\n", GARDEN + b">From me\n>>From you\n"],
    ),
    "two": (ONE + sized(GARDEN) + ONE + sized(GARDEN * 2), [HELLO, GARDEN, HELLO, GARDEN * 2]),
    "folded": (ONE + sized(b"a\n\nFrom me\n\tReceived: x\n"), [HELLO, b"a\n\nFrom me\n\tReceived: x\n"]),
    "first": (sized(GARDEN) + ONE, [GARDEN, HELLO]),
    # a header in another message, and lines of headers that no line `From ` stands before
    "header-elsewhere": (ONE + sized(b"Note: x\n") + sized(GARDEN), [HELLO, b"Note: x\n", GARDEN]),
    "crlf": ((ONE + with_length(B, GARDEN, GARDEN.count(b"\n")) + b"\n").replace(b"\n", b"\r\n"), [HELLO, GARDEN]),
}
# mailboxes about which a human is asked, and how many messages the answers give
ASKED = {
    "dated": (ONE + over(THREE), (3, 4)),
    "undated": (ONE + over(UNDATED), (3, 4)),
    "rmail": (ONE + over(b"From uucp\n>From carla Mon Mar  3 09:12:44 2025 remote from x\n" + FORWARDED), (3, 4)),
    "address": (ONE + over(b"From carla@example.net\n\nhi\n\n"), (3, 4)),
    "word": (ONE + over(b"From carla\n\nhi\n\n"), (3, 4)),
    "to": (ONE + sized(b"a\n\nFrom me\nTo: you\n") + THREE, (3, 4)),
    "blank-and-colon": (ONE + sized(b"a\n\nFrom me\nSubject : x\n"), (2, 3)),
    "two-lines": (ONE + sized(b"a\n\nFrom me\nFrom you\nSubject: x\n\nb\n"), (2, 3)),
    "undated-mailbox": (UNDATED + sized(GARDEN, head=b"From boris\nSubject: x\n"), (2, 3)),
    "wrong-length": (ONE + sized(GARDEN) + sized(b"z\n", 90), (3, 4)),
    "also-without": (A + b"\n" + GARDEN + b"\n" + sized(GARDEN), (2, 4)),
    "doubtful": (ONE + b"From carla\nNote: x\n\n" + sized(GARDEN), (2, 3)),
    "odd": (ONE + sized(GARDEN) + A.split(b"\n", maxsplit=1)[0] + b"\nsays\n\n", (2, 3)),
    "joined": (ONE + sized(GARDEN) + A + b"\nhello" + B + b"\nyes\n\n", (3, 4)),
    # procmail has escaped lines of mail, and mutt has given it a length
    "mutt": (ONE + sized(b">From the shed\n") + sized(GARDEN), (3, 4)),
    "after-blanks": (ONE + sized(b"yes\nFrom me\n\n>From the shed\n"), (2, 3)),
    # each message has a length
    "all-undated": (sized(GARDEN, head=A) + sized(b"spam\n\n" + UNDATED[:-1]), (2, 3)),
    "all-but-dovecots": (INTERNAL + sized(b"spam\n\n" + UNDATED[:-1]), (2, 3)),
    "all-address": (sized(b"spam\n\nFrom carla@example.net\n\nhi\n"), (1, 2)),
    "all-dated": (sized(GARDEN, head=A) + sized(b"spam\n\n" + THREE[:-1]), (2, 3)),
}
SAYS = "`From ` is text in {}, by lengths (--as mboxrd begins mail there)".format


def decided(home: Path) -> None:
    """Where nothing shows that mail begins within a length, no mail does, and the row says so."""
    for name, (text, _) in DECIDED.items():
        mailbox(home / "old" / name, text)
    ran = by_json("migrate --now M old", home)
    equal("the status", ran.status, 0)
    for name, (text, bodies) in DECIDED.items():
        found = [one.read_bytes().split(b"\n\n", 1)[1] for one in mail_in(home / f"M/.{name}")]
        equal(f"{name}: the mail", sorted(found), sorted(bodies))
        said = [one["says"] for one in ran.of(f"old/{name}")["remarks"] if one["remark"] == "by-lengths"]
        count = sum(body.count(b"\nFrom ") for body in bodies)
        equal(f"{name}: what is said", said, [SAYS(f"{count} line" + "s" * (count > 1))])
    expect("migrate --now M old", home, 0, f"{len(DECIDED)} mailboxes: {len(DECIDED)} done before\n")


def asked(home: Path) -> None:
    """A human is asked about all that may be mail, also where each message has a length."""
    for name, (text, _) in ASKED.items():
        mailbox(home / "old" / name, text)
    ran = by_json("migrate --dry-run --now M old", home)
    equal("the status", ran.status, 1)
    for name, (_, counts) in ASKED.items():
        row = ran.of(f"old/{name}")
        equal(f"{name}: what the answers give", (row["reason"], *row.answers.values()), ("unclear", *counts))


def otherwise(home: Path) -> None:
    """A human decides otherwise than the rule. The answer holds for the lines that it was about, whatever comes later,
    and a new line is asked about alone."""
    text, migrate = ONE + sized(GARDEN), ["migrate", "--all", "--now", "M", "box"]
    mailbox(home / "box", text)
    said = "box -> INBOX: mboxrd by --as, messages {}: done, {}\n...\n".format
    expect([*migrate[:2], "--as", "mboxrd", *migrate[2:]], home, 0, said(3, "..."))
    expect(migrate, home, 0, "1 mailbox: 1 done before\n")
    mailbox(home / "box", text + THREE)
    expect(migrate, home, 0, said(4, "as it was answered before; it grew by 1 message"))
    new = text + THREE + sized(b"Two.\n\nFrom the shed\n", head=C.replace(b"three", b"four"))
    mailbox(home / "box", new)
    row = by_json(migrate, home).row
    shed = new[: new.index(b"From the shed")].count(b"\n") + 1
    says = f"line {shed}: it came since the others were decided, and may begin a message"
    equal("the new line alone", (row["reason"], row["says"]), ("unclear", says))
    shown = [one["text"] for one in row["lines"] if not one["around"]]
    equal("what is shown, and what the answers give", (shown, [*row.answers.values()]), (["From the shed"], [5, 6]))
    equal("the first answer", run_printed([*row.answers][0], home).status, 0)
    bodies = sorted(one.read_bytes().split(b"\n\n", 1)[-1] for one in mail_in(home / "M"))
    equal("the mail", bodies, sorted([HELLO, b"see:\n", b"yes\n", HELLO, b"Two.\n\nFrom the shed\n"]))
    mailbox(home / "box", new + ONE.replace(b"one", b"five"))
    expect(migrate, home, 0, said(6, "as it was answered before; it grew by 1 message"))


def agreed(home: Path) -> None:
    """Where a human decided as the rule does, the rule decides about what comes later, with that word."""
    text = ONE + sized(b">From the shed\n") + sized(GARDEN, head=C)
    mailbox(home / "box", text)
    migrate = ["migrate", "--now", "M", "box"]
    equal("the first answer", run_printed([*by_json(migrate, home).row.answers][0], home).status, 0)
    # the rule decides nothing beside escapes that a program may have added
    for more, wanted in (
        (THREE.replace(b"three", b"four"), (None, 4, ["as-answered", "grew"])),
        (sized(GARDEN, head=C.replace(b"three", b"five")), ("unclear", 4, [])),
    ):
        mailbox(home / "box", text + more)
        row = by_json(migrate, home).row
        equal(f"after {more!r}", (row["reason"], row["messages"], row.remarks), wanted)
    mailbox(home / "sure", ONE + sized(GARDEN, head=C))
    sure = ["migrate", "--now", "--folder", "Sure", "M", "sure"]
    expect([*sure[:1], "--as", "mboxcl", *sure[1:]], home, 0, None)
    mailbox(home / "sure", ONE + sized(GARDEN, head=C) + sized(GARDEN + b">From me\n"))
    row = by_json(sure, home).row
    equal("more of the same", (row["reason"], row["messages"], row.remarks), (None, 3, ["by-lengths", "grew"]))
    bodies = [one.read_bytes().split(b"\n\n", 1)[1] for one in mail_in(home / "M/.Sure")]
    equal("as it was decided", sorted(bodies), sorted([HELLO, GARDEN, GARDEN + b"From me\n"]))


if __name__ == "__main__":
    check_all(decided, asked, otherwise, agreed)
