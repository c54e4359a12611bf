"""Mailboxes that Dovecot keeps, with mail by strangers that looks like what Dovecot writes, and mail whose header or
body is odd: what clients are shown of them before `migrate --dovecot`, and of the Maildir after it, is the same."""
from collections.abc import Iterator
from pathlib import Path
from random import Random

from tests.support.cases import LeftOut
from tests.support.dovecot.mailboxes import FORGED
from tests.support.dovecot.served import Case, mail
from tests.worlds import letters
from tests.worlds.rewriters import Mailbox, by_dovecot, deleted_by_dovecot, emptied_by_dovecot, flags_by_dovecot
from tests.worlds.stage import Stage

# fields that are left out, or read; the last two, Dovecot's own field hides in a first message
FIELDS = [
    "status: RO",
    "STATUS\t : O",
    "X-Status: AF",
    "x-keywords: Evil\n Garden",
    "X-UID:\n 4",
    "X-UID : 7",
    "Content-Length: 3",
    "Content-Length: 100000",
    "content-length: none",
    "X-Keywords:",
    "Status: RO\n\tmore\n more",
    "X-IMAP: 777 99",
    "X-IMAPbase: 777 99 Evil",
]
STAY = [
    "X-UIDL: mine",
    "Lines: 3",
    "X-Received: a\n Status: RO\n\tX-UID: 5",
    "Statuses: a",
    "X-UID-a: 3",
    "no field at all",
    ">From boris",
    "Received: from a\n\tby b",
    f"References: {'<a@example.org> ' * 600}",
]
BODIES = [
    *letters.BODIES,
    "hello {0}\n>>From the shed.\n\n>From afar\n",
    "hello {0}\n\nX-IMAPbase: 1 2\n",
    "--a\nContent-Type: text/plain\nStatus: RO\nContent-Length: 3\n\nhello {0}\n--a--\n",
    "hello {0}\r\nwith CR\r\n",
    "",
    "\n",
    "\n\nhello {0}\n",
    "{0} caf\u00e9 \u2603\n",
]
ENDS = ["\n"] * 12 + ["\r\n", "\r\n", ""]
# what a delivery brings that Dovecot has not seen
LATE = ["", "", "X-UID: 3\n", "X-Keywords: Evil\n", "X-IMAPbase: 777 99 Evil\n"]


def odd(draw: Random, number: int) -> bytes:
    """A message as it is delivered, with its blank line."""
    fields = [f"Subject: {number}"]
    for choice, most in ((FIELDS if number else FIELDS[:-2], 3), (STAY, 2)):
        fields += draw.sample(choice, draw.randint(0, most)) if draw.random() < 0.6 else []
    if draw.random() < 0.01:
        fields.append(f"X-UID{' ' * 8200}: 3")
    if draw.random() < 0.05:
        draw.shuffle(fields)
    header = "\n".join(fields) + "\n"
    if draw.random() < 0.02:
        header = draw.choice([" begins with a blank\n", "\tStatus: RO\n"]) + header
    if draw.random() < 0.06:
        header = header.replace("\n", "\r\n")
    line = f"From boris@example.com Mon Mar {number % 28 + 1:2} 09:12:{number % 60:02} 2025\n"
    body = draw.choice(BODIES).format(number)
    return (line + header + draw.choice(ENDS) + body + "\n").encode()


class Kept:
    """Mailboxes of a user, which are delivered to, and which clients of Dovecot use."""

    def __init__(self, stage: Stage, seed: int) -> None:
        self.draw, self.server = Random(f"served {seed}"), stage.server()
        self.case = Case(stage.top, self.server, f"user{seed}")
        self.case.may_be_left = True
        self.is_odd, self.count = self.draw.random() < 0.6, 0

    def box(self, path: Path, folder: str) -> Mailbox:
        """A mailbox as its users see it."""
        return Mailbox(path, "mboxrd", self.server, self.draw, [], folder, self.case.name)

    def deliver(self, path: Path, most: int) -> None:
        """Mail comes."""
        with open(path, "ab") as file:
            for _ in range(self.draw.randint(1, most)):
                some = [one for one in FORGED.items() if one[0][:6] != "X-IMAP" and self.draw.random() < 0.08]
                header = "".join(f"{field.strip()}: {value}\n" for field, value in some)
                file.write(odd(self.draw, self.count) if self.is_odd else mail(self.count, header))
                self.count += 1

    def use(self, box: Mailbox) -> None:
        """Clients look at a mailbox, give flags and keywords, and delete mail, or all of it."""
        by_dovecot(box)
        if self.draw.random() < 0.7:
            flags_by_dovecot(box)
        if self.draw.random() < 0.5:
            (emptied_by_dovecot if self.draw.random() < 0.2 else deleted_by_dovecot)(box)

    def live(self) -> None:
        """What is done until they are migrated."""
        for name in ("one", "two", "three", "four", "five") if self.is_odd else ():
            path, self.count = self.case.home / "mail" / name, 0
            self.deliver(path, 8)
            self.case.folders.append(name)
            self.case.own()
            self.use(self.box(path, name))
            if self.draw.random() < 0.5:
                self.deliver(path, 1)
        self.count = 0
        for _ in range(self.draw.randint(1, 4)):
            self.deliver(self.case.inbox, 4)
            self.use(self.box(self.case.inbox, "INBOX"))
        self.case.look()
        self.case.deliver(*(mail(90 + number, self.draw.choice(LATE)) for number in range(self.draw.randint(0, 2))))
        texts = [self.case.inbox, *(self.case.home / "mail" / name for name in self.case.folders[1:])]
        if any(b"\0" in path.read_bytes() for path in texts):
            raise LeftOut("Dovecot has put NUL bytes into mail, and moved its UID there")


def one_world(stage: Stage, seed: int) -> Iterator[str]:
    """Such mailboxes are migrated. What Dovecot itself cannot cope with is left out."""
    kept = Kept(stage, seed)
    try:
        kept.live()
        said = len(kept.server.complaints())
        yield from kept.case.wrong()
        yield from kept.server.complaints()[said:]
    except LeftOut as reason:
        stage.seen[f"left out: {str(reason)[:40]}"] += 1
    stage.seen.update(kept.case.seen)
