"""mbox2maildir-admin migrate: the flags that Thunderbird, Evolution and Gmail keep in headers of their own."""
import shutil
from collections.abc import Sequence
from pathlib import Path
from typing import Optional

from tests.support.checks import equal
from tests.support.homes import by_json, check_all, expect, mail_in, mailbox, run_printed
from tests.support.ledgers import as_if_killed

MOZILLA, EVOLUTION = "X-Mozilla-Status: %s\nX-Mozilla-Status2: 00000000\n", "X-Evolution: 0000000%d-%s\n"
GMAIL = "X-GM-THRID: 178513455618716%d\nX-Gmail-Labels: %s\n"
# what each message has, and which folder it is in afterwards: `new` without flags, or `cur` with these
PROGRAMS: dict[str, tuple[str, list[tuple[str, str]]]] = {
    "Thunderbird": (
        "Thunderbird's",
        [
            (MOZILLA % "0000", "new"),
            (MOZILLA % "0001", "cur:2,S"),
            (MOZILLA % "0003", "cur:2,RS"),
            (MOZILLA % "1005", "cur:2,FPS"),
            # that of another program stays
            (MOZILLA % "0002" + "Status: RO\n", "cur:2,RS"),
        ],
    ),
    "Evolution": (
        "mboxrd or mboxo",
        [
            (EVOLUTION % (1, "0000"), "new"),
            (EVOLUTION % (2, "0010"), "cur:2,S"),
            (EVOLUTION % (3, "0019"), "cur:2,FRS"),
        ],
    ),
    "Gmail": (
        "Gmail's Takeout",
        [
            (GMAIL % (1, "Inbox,Unread"), "new"),
            (GMAIL % (2, "Inbox,Opened,Travel"), "cur:2,S"),
            (GMAIL % (3, "=?UTF-8?Q?Starred,Opened,Caf=C3=A9?="), "cur:2,FS"),
        ],
    ),
}
THREAD = "X-GM-THRID: 1\n"
THUNDERBIRD, LABELS = "X-Mozilla-Status: %s\n", f"{THREAD}X-Gmail-Labels: %s\n"
# the fields of a message, and the letters that they give it; None if the program has kept nothing, so that what another
# one has kept counts. The numbers are those of Thunderbird's nsMsgMessageFlags and of Evolution's camel-message-info.h
FORMS: list[tuple[str, Optional[str]]] = [
    *zip(map(THUNDERBIRD.__mod__, ("0000", "0001", "0002", "0004", "1000", "1007")), ("", "S", "R", "F", "P", "FPRS")),
    ("x-mozilla-status:A001\r\n", "S"),
    # flags that a Maildir does not have: a thread that is watched, an attachment
    (THUNDERBIRD % "0100", ""),
    # the first counts
    (THUNDERBIRD % "0001" + "X-Other: x\n" + THUNDERBIRD % "0004", "S"),
    (THUNDERBIRD % "1" + THUNDERBIRD % "0004", None),
    (THUNDERBIRD % "00001", None),
    (THUNDERBIRD % "000g", None),
    ("X-Mozilla-Status2: 00000001\n", None),
    ("X-Other: x\n " + THUNDERBIRD % "0001", None),
    *((f"X-Evolution: 00000001-{bits}\n", letter) for bits, letter in zip(("0001", "0002", "0004"), "RTD")),
    *((f"X-Evolution: 0000a1b2-{bits}\n", letter) for bits, letter in zip(("0008", "0010", "0400"), "FSP")),
    # an attachment, and junk
    ("X-Evolution: 00000001-00b9; flags=receipt-handled\n", "FRS"),
    ("X-Evolution: 1-10\n", None),
    ("X-Evolution-Source: 00000001-0010\n", None),
    (LABELS % "Inbox,Opened", "S"),
    (LABELS % "Opened,Starred,Unread", "F"),
    (LABELS % "Starred, Opened,Category Updates", "FS"),
    (LABELS % '"Bills, Opened",Inbox', ""),
    (LABELS % "Inbox,\n Opened", "S"),
    (LABELS % "=?UTF-8?Q?Inbox,Opened,Caf=C3=A9?=", "S"),
    (LABELS % "=?UTF-8?Q?Inbox,Opened,?=\n =?UTF-8?Q?Caf=C3=A9,Starred?=", "FS"),
    (LABELS % "=?UTF-8?Q?Posteingang,Ge=C3=B6ffnet?=", "S"),
    (LABELS % "=?UTF-8?Q?Ge=C3=B6ffnet?=", "S"),
    (LABELS % "Inbox, =?UTF-8?B?T3BlbmVk?=, Travel", "S"),
    (LABELS % "=?UTF-8?Q?Inbox,Ope?= =?UTF-8?Q?ned,Caf=C3=A9?=", "S"),
    (LABELS % "=?no-such-set?Q?Opened?=", ""),
    (LABELS % "=?UTF-8?B?T3BlbmV?=", ""),
    (LABELS % "", ""),
    (LABELS % "Inbox" + "X-Gmail-Labels: Opened\n", ""),
    (THREAD, ""),
]
# what Thunderbird keeps of a message: whether it is marked as deleted, by nsMsgMessageFlags.Expunged
DELETED = [
    *((THUNDERBIRD % bits, True) for bits in ("0008", "0019", "fFfF")),
    *((THUNDERBIRD % bits, False) for bits in ("0001", "8000", "00088", "000g")),
    ("X-Other: x\nx-mozilla-status:0019\r\n", True),
    (THUNDERBIRD % "0001" + THUNDERBIRD % "0008", False),
    (THUNDERBIRD % "8" + THUNDERBIRD % "0008", False),
    ("X-Mozilla-Status2: 00080000\n", False),
    ("X-Other: " + THUNDERBIRD % "0008", False),
    ("\n" + THUNDERBIRD % "0008", False),
]


def message(number: int, header: str = "", date: str = "Mon Mar  3 09:12:44 2025") -> bytes:
    """A message as a mailbox has it."""
    return f"From boris@example.com {date}\n{header}From: boris@example.com\nSubject: {number}\n\nhello\n\n".encode()


def places(maildir: Path) -> list[str]:
    """In which folder the messages are, and with which flags, in the order of their subjects."""
    found = {}
    for path in mail_in(maildir):
        number = int(path.read_text().split("Subject: ")[1].split("\n")[0])
        found[number] = ":".join([path.parent.name, *path.name.split(":")[1:]])
    return [found[number] for number in sorted(found)]


def migrates(home: Path, text: bytes, row: str, words: Sequence[str] = ()) -> None:
    """Migrates a mailbox, and expects this row."""
    mailbox(home / "box", text)
    expect(["migrate", "--all", *words, "M", "box"], home, 0, f"box -> INBOX: {row}\n1 mailbox: ...\n")


def kept_flags(home: Path) -> None:
    """The flags of each program are set, and the row says for how many messages. A dry run says the same."""
    for program, (kind, rows) in PROGRAMS.items():
        text = b"".join(message(number, header) for number, (header, _) in enumerate(rows))
        says, count = f"{kind}, messages {len(rows)}", len(rows) - 1
        migrates(home, text, f"{says}: would be done, {count} messages with flags of {program}", ["--dry-run"])
        migrates(home, text, f"{says}: done, {count} messages with flags of {program}")
        equal(f"the flags of {program}", places(home / "M"), [place for _, place in rows])
        expect("migrate --all M box", home, 0, "1 mailbox: 1 done before\n")
        expect("verify M box", home, 0, None)
        (home / "M").rename(home / program)


def forms(home: Path) -> None:
    """The letters that fields give, of which the first program counts that has kept some."""
    for place, (fields, letters) in enumerate(FORMS):
        # of the program that is asked next
        other = LABELS % "Starred,Opened" if "Evolution" in fields else "X-Evolution: 00000001-0019\n"
        text = message(place, fields + (other if letters is None or "GM" not in fields else ""))
        mailbox(home / f"old/{place}", text)
    equal("the status", by_json("migrate --now M old", home).status, 0)
    for place, (fields, letters) in enumerate(FORMS):
        wanted = letters if letters is not None else "FS" if "Evolution" in fields else "FRS"
        equal(fields, places(home / f"M/.{place}"), [f"cur:2,{wanted}" if wanted else "new"])


def marked_as_deleted(home: Path) -> None:
    """A human is asked about mail that Thunderbird has marked as deleted."""
    for place, (fields, _) in enumerate(DELETED):
        mailbox(home / f"old/{place}", message(place, fields) + message(99, THUNDERBIRD % "0001"))
    ran = by_json("migrate --dry-run --now M old", home)
    for place, (fields, is_deleted) in enumerate(DELETED):
        row = ran.of(f"old/{place}")
        equal(f"{fields}: {row}", "this message is marked as deleted" in row["says"], is_deleted)


def of_strangers(home: Path) -> None:
    """If one message has no header of the program, a sender may have written the headers of the others."""
    for program, (_, rows) in PROGRAMS.items():
        headers = [header for header, _ in rows if "Status: RO" not in header]
        # a human is asked about one between those of the others
        for at in [len(headers), *[1] * (program == "Evolution")]:
            several = [*headers[:at], "", *headers[at:]]
            text = b"".join(message(number, header) for number, header in enumerate(several))
            migrates(home, text, f"mboxrd or mboxo, messages {len(several)}: done")
            equal(f"headers of {program} by strangers", set(places(home / "M")), {"new"})
            shutil.rmtree(home / "M")


def one_without(home: Path) -> None:
    """One message between others has no header of Thunderbird: a human is asked whether it begins there. What the rest
    has counts by either answer, but not if another program delivered the last one."""
    texts = [message(number, MOZILLA % "0001" if number != 1 else "") for number in range(4)]
    for folder, text, count in (
        ("between", b"".join(texts), (3, 4)),
        ("behind", b"".join([*texts, message(9)]), (4, 5)),
    ):
        mailbox(home / folder, text)
        answers = by_json(["migrate", "--now", "--folder", "Old", "M", folder], home).of(folder).answers
        equal(f"{folder}: the answers", (*answers.values(),), count)
        for command, given in answers.items():
            equal(command, run_printed(command, home).status, 0)
            wanted = [*["cur:2,S"] * 3, *["new"] * (given - 3)] if folder == "between" else ["new"] * given
            equal(f"{folder}: {command}", sorted(places(home / "M/.Old")), wanted)
            expect(["migrate", "--all", "--folder", "Old", "M", folder], home, 0, "1 mailbox: 1 done before\n")
            shutil.rmtree(home / "M")


def read_meanwhile(home: Path) -> None:
    """What somebody opened or flagged keeps its flags, and so does what was done before the mailbox grew."""
    text = b"".join(message(number, MOZILLA % "0005") for number in range(3))
    mailbox(home / "box", text)
    expect("mbox2maildir convert M box", home, 0, None)
    for number, flags in ((0, ""), (1, "R")):
        path = next(path for path in mail_in(home / "M") if f"Subject: {number}\n" in path.read_text())
        path.rename(home / "M/cur" / f"{path.name}:2,{flags}")
    there = "3 messages there already, by no mailbox"
    migrates(home, text, f"Thunderbird's, messages 3: done, {there}; 3 messages with flags of Thunderbird")
    equal("what was opened and flagged", places(home / "M"), ["cur:2,", "cur:2,R", "cur:2,FS"])
    (path,) = (home / "M/cur").glob("*:2,FS")
    path.rename(home / "M/new" / path.name.split(":")[0])
    text += message(3, MOZILLA % "0001")
    says = "Thunderbird's, messages 4: done, it grew by 1 message; 1 message with flags of Thunderbird"
    migrates(home, text, says)
    equal("what was done before it grew", places(home / "M"), ["cur:2,", "cur:2,R", "new", "cur:2,S"])


def broken_off(home: Path) -> None:
    """A run that was killed before the flags: the next one sets them."""
    text = b"".join(message(number, MOZILLA % "0001") for number in range(3))
    migrates(home, text, "Thunderbird's, messages 3: done, 3 messages with flags of Thunderbird")
    as_if_killed(home / "M")
    for path in sorted((home / "M/cur").iterdir())[:2]:
        path.rename(home / "M/new" / path.name.split(":")[0])
    migrates(home, text, "Thunderbird's, messages 3: done, 3 messages with flags of Thunderbird")
    equal("flags after a run that was killed", places(home / "M"), ["cur:2,S"] * 3)


if __name__ == "__main__":
    check_all(kept_flags, forms, marked_as_deleted, of_strangers, one_without, read_meanwhile, broken_off)
