"""What a ledger and the names of files say of messages: the digests of the mail, of its core and of its bare form, by
the rules of docs/LEDGER.md, wherever the blocks end in which a text is read."""
import random
import re
from collections import Counter
from pathlib import Path

from tests.support.checks import equal
from tests.support.homes import check_all, expect, files_of, fresh_folder, in_memory, mailbox
from tests.support.ledgers import LEDGER
from tests.support.mail import bodies_of, digest_of
from tests.worlds.letters import OF_PROGRAMS, content, is_one, parted, without

FROM_LINE = b"From a@b Mon Mar  3 09:12:44 2025\n"
# one message, as it was delivered, and as mail programs keep it
MAIL = b"Subject: hello\nTo: mia\n\nbody\n"
SAME = (
    MAIL,
    b"Subject: hello\nTo: mia\nStatus: RO\n\nbody\n",
    b"X-IMAPbase: 1 2\nSubject: hello\nX-UID: 7\nTo: mia\nX-Keywords:   \n\nbody\n",
    b"Subject: hello\nTo: mia\nContent-Length: 5\nLines: 1\n\nbody\n",
    b"Subject: hello\nstatus : O\nTo: mia\nX-Status: A\n folded\n\nbody\n",
    b"Subject: hello\nTo: mia\n\r\nbody\n",
    b"Subject: hello\nTo: mia\nlines: 1\n\t2\n\r\nbody\n",
    b"Subject: hello\nTo: mia\n\nbody\n\n",
    b"X-Mozilla-Status: 0001\nX-Mozilla-Status2: 00000000\nX-Mozilla-Keys: $label1\nSubject: hello\nTo: mia\n\nbody\n",
    b"Subject: hello\nTo: mia\nX-Evolution: 00000001-0010\n\nbody\n",
    b"X-GM-THRID: 1\nX-Gmail-Labels: =?UTF-8?Q?a?=,\r\n =?UTF-8?Q?b?=\nSubject: hello\nTo: mia\n\nbody\n",
    # the message after a program has added a CR to each line, or to some
    b"Subject: hello\nTo: mia\n\nbody\r\n",
    b"Subject: hello\r\nTo: mia\r\n\r\nbody\r\n",
)
# and others
OTHER = (
    b"Subject: hello\nTo: mia\n\nBody\n",
    b"Subject: hello\nTo: mia\nX-UIDL: 7\n\nbody\n",
    b"Subject: hello\nTo: mia\nX-Mozilla-Draft-Info: internal/draft\n\nbody\n",
    b"Subject: hello\nTo: mia\n\nX-Mozilla-Status: 0001\nbody\n",
    b"Subject: hello\n Status: RO\nTo: mia\n\nbody\n",
    b"Subject: hello\nTo: mia\n\nbo\rdy\n",
    b"Subject: hello\nTo: mia\n\nbody\r\r\n",
    b"Subject: hello\nTo: mia\n\n\nbody\n",
    b"Subject: hello\nTo: mia\n\nbody\n \n",
)
# a colon ends a name up to the 8191st byte of a line
FAR = tuple(b"Status".ljust(length - 1) + b":\n x\nA: b\n\nbody\n" for length in (8190, 8191, 8192, 20000))
# what random texts are made of
WORDS = (
    *(b"Status: RO\n", b"status\t :x\r\n", b"X-UID: 3\n", b"Lines: 4\n", b"X-Keywords: a\n b\n\tc\n", b"X-UIDL: 2\n"),
    *(b"Content-Length:\n\n", b"X-GM-THRID: 1\n", b"x-mozilla-status2: 0", b"X-Evolution:", b"x-imap", b"x-imapbase"),
    *(b"X-Statusx: 3\n", b"Subject: a\n", b"a: b\r\n", b"Received: a\n Status: x\n", b" c\n", b"\td", b"\n", b"\n"),
    *(
        b"\n\n",
        b"\r\n",
        b"\r",
        b"\r\r\n",
        b"\r\n\r\n",
        b">From me\n",
        b">>From me\r\n",
        b">>>From x",
        b">\n",
        b">",
        b">>",
    ),
    *(b">F", b"From", b" From \n", b"Fro", b"From e\n", b"text\n", b"text", b"x\r\n", b"hello hello hello hello\n"),
)
BEGUN = FROM_LINE, b"From a\n", FROM_LINE + b"A: b\n"
# how many bytes the companion reads at a time, and what fills a text up to such a place, where `@` stands for the rest:
# in a body, in a line, in a field that stays, and in one that goes
BLOCK = 1 << 20
FILLERS = (
    (b"\n@\n", b"y" * 79 + b"\n"),
    (b"\n@", b"z"),
    (b"X: @\n", b" " + b"m" * 998 + b"\n"),
    (b"X-Keywords: @\n", b" " + b"k" * 998 + b"\n"),
)


def bare_of(mail: bytes) -> bytes:
    """The bare form of a message."""
    fields, end, body = parted(mail)
    return b"".join(field for field in fields if not is_one(field, OF_PROGRAMS)) + end + body


def core_of(mail: bytes) -> bytes:
    """The core of a message."""
    return content(mail) + b"\n"


def hidden(text: bytes) -> bytes:
    """A text as Dovecot shows it."""
    pieces = (piece.partition(b"\n") for piece in re.split(rb"(?m)^(?=From )", text))
    return b"".join(line + end + without(mail) for line, end, mail in pieces)


def in_ledger(maildir: Path) -> list[tuple[str, str, str]]:
    """What a ledger says of each message that was placed: the digests of its file, its core and its bare form."""
    found = []
    for line in (maildir / LEDGER).read_text().splitlines():
        if line.startswith("p\t"):
            _, name, core, *bare = line.split("\t")
            core = name[:32] if core == "=" else core
            found.append((name[:64], core, bare[0] if bare else core))
    return found


def random_pieces(draw: random.Random) -> bytes:
    """A few messages, which may end anywhere."""
    bodies = (b"".join(draw.choices(WORDS, k=draw.randrange(10))) for _ in range(draw.randint(1, 4)))
    return b"".join(draw.choice(BEGUN) + body + draw.choice((b"\n\n", b"\n")) for body in bodies)


def random_text(blocks: int) -> bytes:
    """A text in which something stands at the end of each block."""
    draw, text = random.Random(3), bytearray()
    for _ in range(200):
        text += random_pieces(draw)
    for number in range(1, blocks):
        before, each = FILLERS[number % len(FILLERS)]
        text += FROM_LINE + b"A: b\n"
        count, rest = divmod(number * BLOCK - len(text) - len(before) - draw.randrange(60), len(each))
        text += before.replace(b"@", b"x" * rest) + each * count
        text += b"".join(draw.choices(WORDS, k=draw.randint(3, 12))) + b"\n" + random_pieces(draw)
    return bytes(text)


def said_of(mail: bytes) -> tuple[str, str, str]:
    """What a ledger must say of a message."""
    return digest_of(mail), digest_of(core_of(mail))[:32], digest_of(bare_of(mail))[:32]


def want_digests(home: Path, text: bytes) -> None:
    """Migrates a text, and compares what is said of each message with the rules: as it is, and as Dovecot shows it."""
    mailbox(home / "box", text)
    expect("migrate --now --as mboxrd M box", home, 0, None)
    mails, found = list(bodies_of(text)), in_ledger(home / "M")
    equal("how many messages", len(found), len(mails))
    wrong = [(number, mail[-200:], its) for number, (mail, its) in enumerate(zip(mails, found)) if its != said_of(mail)]
    equal("those with other digests", wrong[:3], [])
    expect("migrate --now --dovecot --as mboxrd N box", home, 0, None)
    there = Counter(name.split(".")[0] for name in files_of(home / "N"))
    wanted = Counter(map(digest_of, bodies_of(hidden(text))))
    equal("as Dovecot shows it", ([*(there - wanted)][:3], [*(wanted - there)][:3]), ([], []))


def forms(home: Path) -> None:
    """What programs note is left out of cores and bare forms, and all else counts."""
    equal("the rule itself", ({*map(core_of, SAME)}, len({*map(core_of, OTHER)} | {MAIL})), ({MAIL}, len(OTHER) + 1))
    fields = tuple(f"{name}: 1\n".encode() + MAIL for name in sorted(OF_PROGRAMS))
    equal("the rule of fields", {*map(bare_of, fields)}, {MAIL})
    quoted = tuple(b"Subject: a\n\nhi\n" + b">" * count + b"From x\n>Fro\n" for count in range(1, 4))
    mails = (*SAME, *OTHER, *FAR, *fields, *quoted, b"\n", b"\r\n", b"a: b", b"\nStatus: RO\n", b"X-UID: 1", b"")
    rows = b"".join(FROM_LINE + b">" * count + b"From x\n\n" + b">" * count + b" x\n\n" for count in (998, 1 << 19))
    rows += FROM_LINE + b"A: b\n\n" + b">" * (1 << 19) + b"From " + b">" * (1 << 19) + b"\n\n"
    # a From_ line, fields and headers that are longer than what is read at a time
    rows += b"".join(
        before + many + b"\nStatus: O\nC: d\n\nhi\n\n"
        for before, many in (
            (b"From ", b"k " * (3 << 19)),
            (FROM_LINE + b"A: b\nX-UID: ", b"k " * (3 << 19)),
            (FROM_LINE + b"A: b\nX-UID:", b">" * (5 << 19)),
            (FROM_LINE + b"A: b", (b"\n b" + b"c" * 33333 + b"\nX-Keywords: d\n e" + b"f" * 44444 + b"\nB: g") * 50),
            (FROM_LINE + b"A: b", (b"\nB: " + b"c" * 33333 + b"\nX-Keywords: " + b"d" * 44444) * 60),
        )
    )
    want_digests(home, b"".join(FROM_LINE + mail + b"\n" * (2 - mail.endswith(b"\n")) for mail in mails) + rows)


def wherever_blocks_end(home: Path) -> None:
    """The same of random messages, of which many stand at the end of a block."""
    with fresh_folder(in_memory()) as place:
        (place / "bin").symlink_to(home / "bin")
        want_digests(place, random_text(9))


def at_the_end(home: Path) -> None:
    """A text may end within anything."""
    for number, mail in enumerate(
        (b"", b"body", b"A: b\nStatus: RO", b"A: b\nStatus: RO\n x", b"A: b\n\n>From", b"A: b\n\n\n", b"A: b\n\nx\r")
    ):
        name = f"box{number}"
        mailbox(home / name, FROM_LINE + mail)
        expect(f"migrate --now --as mboxrd M{number} {name}", home, 0, None)
        equal(f"{mail!r}", in_ledger(home / f"M{number}"), [said_of(next(bodies_of(FROM_LINE + mail)))])


if __name__ == "__main__":
    check_all(forms, wherever_blocks_end, at_the_end)
