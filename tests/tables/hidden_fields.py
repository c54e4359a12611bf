"""What `migrate --dovecot` makes of the fields of headers in which Dovecot's mbox driver keeps UIDs, keywords and
flags. Each row was seen with Dovecot 2.3.19, over IMAP, on a mailbox without an index. Messages come from strangers,
and so may these fields."""
from collections.abc import Iterable, Sequence
from pathlib import Path
from typing import NamedTuple

from tests.support.checks import equal, match_in
from tests.support.homes import by_json, check_all, mail_in, mailbox
from tests.support.mail import INTERNAL
from tests.support.running import Row

HEAD = "X-IMAPbase: 222 9 Foo\nX-UID: 5\n"
# the highest UIDVALIDITY and UID, and how many UIDs are left for new mail
MOST, ROOM = (1 << 32) - 1, 1 << 24
# fields of the messages of a mailbox; UIDVALIDITY, 0 if it starts anew; the next UID; and the UIDs
NUMBERS = [
    (["", ""], 0, 3, [1, 2]),
    (["X-UID: 1\n", "X-UID: 5\n"], 0, 3, [1, 2]),
    (["X-Keywords: 222 9\nX-UID: 222 9\n", ""], 0, 3, [1, 2]),
    (["", "X-IMAPbase: 222 9\n", ""], 0, 4, [1, 2, 3]),
    ([HEAD, "X-UID: 6\n", "X-UID: 9\n"], 222, 10, [5, 6, 9]),
    ([HEAD, "", "X-UID: 8\n", "X-UID: 9\n"], 222, 13, [5, 10, 11, 12]),
    ([HEAD, "X-UID: 4\n", "X-UID: 8\n"], 222, 12, [5, 10, 11]),
    ([HEAD, "X-UID: 5\n", "X-UID: 8\n"], 222, 12, [5, 10, 11]),
    ([HEAD, "X-UID: 10\nX-UID: 7\n", "X-UID: 8\n"], 222, 12, [5, 10, 11]),
    ([HEAD, "X-UID: 99\nX-UID: 7\n", "X-UID: 8\n"], 222, 10, [5, 7, 8]),
    ([HEAD, "X-UID: 4\nX-UID: 99\nX-UID: 7\n", "X-UID: 8\n"], 222, 10, [5, 7, 8]),
    ([HEAD, "X-UID: x\nX-UID: 0\nX-UID: 7\n", "X-UID: 8\n"], 222, 10, [5, 7, 8]),
    ([HEAD, "", "X-UID: x\n"], 222, 12, [5, 10, 11]),
    ([HEAD, f"X-UID: {'9' * 9000}\n"], 222, 11, [5, 10]),
    (["X-IMAPbase:222 9\nX-UID:5\n", "X-UID:\t7\n", "X-UID: 8  \t\n"], 222, 10, [5, 7, 8]),
    (["X-IMAPbase: 222 9\nX-UID: 5 x\nX-UID: 2\n", "X-UID:  6\n"], 222, 11, [2, 10]),
    (["X-IMAPbase:  222 9\nX-UID: 5\n", ""], 0, 3, [1, 2]),
    (["X-IMAPbase:\t222 9\nX-UID: 5\n", ""], 222, 11, [5, 10]),
    (["X-IMAPbase: 222\t9\nX-UID: 5\n", ""], 0, 3, [1, 2]),
    (["X-IMAPbase: 222\n 9\nX-UID: 5\n", ""], 0, 3, [1, 2]),
    (["X-IMAPbase: 222 \n 9\nX-UID: 5\n", "X-UID: 8\n"], 222, 10, [5, 8]),
    (["X-IMAPbase: 222 9x\nX-UID: 5\n", ""], 0, 3, [1, 2]),
    (["X-IMAPbase: 0 9\nX-UID: 5\n", ""], 0, 3, [1, 2]),
    (["X-IMAPbase: 4294967297 9\nX-UID: 4294967301\n", ""], 1, 11, [5, 10]),
    (["X-IMAPbase: x\nX-IMAPbase: 222 9\nX-UID: 3\n", "X-UID: 8\n"], 222, 10, [3, 8]),
    (["X-IMAPbase: 111 7\nX-IMAPbase: 222 9\nX-UID: 3\n", "X-UID: 8\n"], 111, 9, [3, 8]),
    (["X-UID: 1\nX-IMAPbase: 222 9\n", "X-UID: 2\n"], 222, 12, [10, 11]),
    ([HEAD, "X-UID:\n 7\n", "X-UID: 8\n"], 222, 12, [5, 10, 11]),
    ([HEAD, "X-UID: 7\n \n", "X-UID: 8\n"], 222, 10, [5, 7, 8]),
    ([HEAD, "X-UID: 7\n 8\n", "X-UID: 9\n"], 222, 12, [5, 10, 11]),
    (["X-IMAPbase:\n 222 9\nX-UID: 5\n", "X-UID: 8\n"], 0, 3, [1, 2]),
    ([f"X-IMAPbase: {MOST} 9\nX-UID: 5\n", "X-UID: 8\n"], MOST, 10, [5, 8]),
    ([f"X-IMAPbase: {MOST + 1} 9\nX-UID: 5\n", "X-UID: 8\n"], 0, 3, [1, 2]),
    (["X-IMAPbase: 222 0\nX-UID: 5\n", "X-UID: 8\n"], 222, 3, [1, 2]),
    (["X-IMAPbase: 222 9\nX-UID: 4294967294\n", "X-UID: 8\n"], 222, 12, [10, 11]),
    # few UIDs are left: new mail would get none
    ([f"X-IMAPbase: 222 {MOST - 3 - ROOM}\n"], 222, MOST - 1 - ROOM, [MOST - 2 - ROOM]),
    ([f"X-IMAPbase: 222 {MOST - 2 - ROOM}\n"], 0, 2, [1]),
    ([f"X-IMAPbase: 222 {MOST}\n"], 0, 2, [1]),
]  # type: list[tuple[list[str], int, int, list[int]]]
# fields of messages; the keywords of the folder; and the letters of each message
KEYWORDS = [
    (
        ["X-IMAPbase: 222 9 Foo $Junk\nX-Keywords: Foo\n", "X-Keywords: foo $JUNK\n", "X-Keywords: Foo bar\n"],
        "Foo $Junk",
        ["a", "ab", ""],
    ),
    (["X-IMAPbase: 222 9 Foo\n Bar\n\tBaz\nX-Keywords: Foo\n Bar\n", "X-Keywords: Baz\n"], "Foo Bar Baz", ["ab", "c"]),
    (
        ["X-IMAPbase: 222 9 Foo\n Bar\nX-Keywords:\n Foo\n Bar\n", "X-Keywords: Foo\n\tBar\n", "X-Keywords: Foo Foo\n"],
        "Foo Bar",
        ["ab", "ab", "a"],
    ),
    (
        [
            "X-IMAPbase: 222 9 A B\nX-Keywords: z\nX-Keywords: A\n",
            "X-Keywords: A\nX-Keywords: B\n",
            "X-Keywords: \nX-Keywords: B\n",
        ],
        "A B",
        ["a", "a", "b"],
    ),
    (
        [
            f"X-IMAPbase: 222 9 a(b {'a' * 51} {'b' * 50} Ok ok\nX-Keywords: ok\n",
            "X-Keywords: a(b\n",
            f"X-Keywords: {'b' * 50}\n",
            f"X-Keywords: {'a' * 51}\n",
        ],
        f"{'b' * 50} Ok",
        ["b", "", "a", ""],
    ),
]  # type: list[tuple[list[str], str, list[str]]]
LONG = "X-Long: %s\n"
# fields of a message, and the letters of its flags
FLAGS = [
    ("Status: D\n", ""),
    ("Status: RO\n", "S"),
    ("Status: O\nStatus: R\n", "S"),
    ("X-Status: R\n", ""),
    ("X-Status: ADFT\n", "DFRT"),
    ("Status: ADFT\n", ""),
    ("X-Status: A\nX-Status: F\n", "FR"),
    ("Status: ro\n", ""),
    ("Status:\n RO\n", "S"),
    ("Status: O\n R\n", "S"),
    ("X-Status:\n AF\n", "FR"),
    ("X-Status: A\n F\n", "FR"),
    ("STATUS : RO\n", "S"),
    *((f"{LONG % ('x' * size)}Status: RO\n", "S") for size in (1 << 12, 1 << 13, 1 << 16, 1 << 18)),
    # a colon that is far away
    (f"{'Status'.ljust(8190)}: RO\n", "S"),
    (f"{'Status'.ljust(8191)}: RO\n", ""),
]
APPEARS = "its first message, which Dovecot hid, appears"
ANEW = "its UIDs start anew, because too few are left above the last one"
NEW = "some messages get new UIDs, because a message before them has none"


def keyworded(count: int) -> str:
    """A field with so many keywords."""
    return f"X-IMAPbase: 222 9 {' '.join(f'k{one:02}' for one in range(count))}\n"


K26 = "only 26 keywords are kept; lost: k26 k27 k28 k29"
# fields of messages, and what the row says
SAID = [
    ([HEAD, "X-UID: 6\n", ""], []),
    (["", ""], ["Dovecot had given it no UIDs"]),
    ([HEAD, "", "X-UID: 6\n"], [NEW]),
    ([HEAD, "", "X-UID: 6\n", ""], [NEW]),
    ([f"X-IMAPbase: 222 {MOST - 2 - ROOM}\n"], [ANEW]),
    ([f"X-IMAP: 222 {MOST - 3 - ROOM}\n"], [APPEARS]),
    ([f"X-IMAP: 222 {MOST - 2 - ROOM}\n"], [APPEARS, ANEW]),
    ([keyworded(26)], []),
    ([keyworded(30)], [K26]),
    ([keyworded(99)], [f"{K26} k30 and 68 more"]),
]  # type: list[tuple[list[str], list[str]]]
# what is not the message by which Dovecot keeps an empty mailbox, but mail
NOT_INTERNAL = {
    "subject": INTERNAL.replace(b"DON'T", b"Do"),
    "body": INTERNAL.replace(b"values.", b"values. P.S."),
    "base": INTERNAL.replace(b"X-IMAP:", b"X-IMAPbase:"),
    "cut": INTERNAL[:-30] + b"\n\n",
    "long": INTERNAL + b"a" * 9000 + b"\n\n",
    "blanks": INTERNAL.replace(b"Subject: DON'T", b"Subject:" + b" " * 7000 + b"\rx DON'T"),
}


class Folder(NamedTuple):
    """A folder of a mailbox that was migrated: the first line of its list, what the list has of each message, as the
    number that is its subject, the UID, and the letters of its file; and its keywords."""

    first: str
    mail: list[tuple[int, int, str]]
    keywords: str

    @classmethod
    def of(cls, path: Path) -> "Folder":
        """Reads that of a path."""
        first, *lines = (path / "dovecot-uidlist").read_text().splitlines()
        subjects = {one.name: int(match_in(r"Subject: (\d+)", one.read_text())[1]) for one in mail_in(path)}
        names = [match_in(r"(\d+) :(.*)", line).groups() for line in lines]
        mail = [(subjects[name], int(uid), name.partition(":2,")[2]) for uid, name in names]
        keywords = path / "dovecot-keywords"
        lines = keywords.read_text().splitlines() if keywords.exists() else []
        equal("the places of keywords", [line.split()[0] for line in lines], [*map(str, range(len(lines)))])
        return cls(first, mail, " ".join(line.split()[1] for line in lines))


def text_of(headers: Iterable[str]) -> bytes:
    """A mailbox of messages with these fields. What a body has of such counts for nothing."""
    return "".join(
        f"From a@b Mon Mar  3 09:12:44 2025\nSubject: {number}\n{header}\nX-UID: 77\nStatus: R\n\n"
        for number, header in enumerate(headers)
    ).encode()


def migrated(home: Path, texts: Sequence[bytes]) -> list[tuple[Row, Path]]:
    """Migrates mailboxes as a tree with their numbers, and returns the row of each and its folder."""
    for number, text in enumerate(texts):
        mailbox(home / f"old/{number}", text)
    ran = by_json("migrate --dovecot --now M old", home)
    equal(ran.output, ran.status, 0)
    return [(ran.of(f"old/{number}"), home / f"M/.{number}") for number in range(len(texts))]


def numbers(home: Path) -> None:
    """The list has UIDs as Dovecot gave them, and is one that Dovecot accepts. Later mail gets higher ones."""
    for (_, path), (headers, validity, following, uids) in zip(
        migrated(home, [text_of(headers) for headers, *_ in NUMBERS]), NUMBERS
    ):
        found = Folder.of(path)
        first = [int(one) for one in match_in(r"^3 V(\d+) N(\d+)$", found.first).groups()]
        # without UIDs of Dovecot, UIDVALIDITY is the time
        equal(f"{headers}: what begins anew", 1_700_000_000 < first[0] < MOST or first[0] == validity, True)
        equal(f"{headers}: the first line", first, [validity or first[0], following])
        equal(f"{headers}: UIDs", [one[:2] for one in found.mail], [*enumerate(uids)])


def hidden(home: Path) -> None:
    """A message that Dovecot hid comes last. The one by which it keeps an empty mailbox is left out, and no other."""
    named = [f"X-IMAP: 222 9\nX-UID: 5\nSubject: {0}\n", "X-UID: 6\n", ""]
    texts = [text_of(named), INTERNAL + text_of([""]), INTERNAL[:-1], *NOT_INTERNAL.values()]
    (_, first), (row, second), (_, third), *others = migrated(home, texts)
    found = Folder.of(first)
    equal("hidden", (found.first, [one[:2] for one in found.mail]), ("3 V222 N12", [(1, 6), (2, 10), (0, 11)]))
    found = Folder.of(second)
    equal("kept for an empty one", (found.first, [one[1] for one in found.mail]), ("3 V1795694136 N4", [3]))
    says = "without the message in which Dovecot kept its UIDs"
    equal("what is said", [one["says"] for one in row["remarks"]], [says])
    equal("an empty one", (Folder.of(third).first, [*mail_in(third)]), ("3 V1795694136 N3", []))
    for name, (_, path) in zip(NOT_INTERNAL, others):
        equal(f"{name}: how many messages", len([*mail_in(path)]), 1)


def keywords_and_flags(home: Path) -> None:
    """Files have the keywords and flags that Dovecot showed. A message that was listed is not new."""
    texts = [text_of(row[0]) for row in KEYWORDS] + [text_of([header for header, _ in FLAGS])]
    *several, of_flags = [Folder.of(path) for _, path in migrated(home, texts)]
    for (headers, keywords, wanted), found in zip(KEYWORDS, several):
        equal(f"{headers}", (found.keywords, [one[2] for one in found.mail]), (keywords, wanted))
    for (header, letters), (_, _, got) in zip(FLAGS, of_flags.mail):
        equal(f"the flags of {header[:20]!r}", got, letters)
    text = text_of(["X-IMAPbase: 222 9 Foo\nX-Status: T\nX-Keywords: Foo\n", "", "Status: O\n", "X-Status: O\n"])
    mailbox(home / "box", text)
    equal("its status", by_json("migrate --dovecot --now --folder Box M box", home).status, 0)
    names = [f"{path.parent.name}/{path.name.partition(':')[2]}" for path in mail_in(home / "M/.Box")]
    equal("where they are", sorted(names), ["cur/2,", "cur/2,Da", "new/", "new/"])


def said(home: Path) -> None:
    """Rows say what a client will see changed, once."""
    for (row, path), (headers, wanted) in zip(migrated(home, [text_of(row[0]) for row in SAID]), SAID):
        equal(f"{headers}", [one["says"] for one in row["remarks"]], wanted)
        equal(f"{headers}: keywords", len(Folder.of(path).keywords.split()) <= 26, True)
    rows = by_json("migrate --all --dovecot --now M old", home).rows
    equal("done before", {(row["verdict"], *row.remarks) for row in rows}, {("done before",)})


if __name__ == "__main__":
    check_all(numbers, hidden, keywords_and_flags, said)
