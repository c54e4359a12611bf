"""A mailbox of a user whom a Dovecot serves: what is done to it, what Dovecot shows of it, and how it is migrated."""
import contextlib
import copy
import imaplib
import os
import re
import shutil
import subprocess
import time
import typing
from collections import Counter
from collections.abc import Iterator, Sequence
from itertools import zip_longest
from pathlib import Path
from typing import Optional

from tests.support.cases import LeftOut
from tests.support.checks import differ, without_work
from tests.support.dovecot.server import Dovecot, Folder, OtherSizes, Row
from tests.support.homes import fresh_home, install
from tests.support.running import BY_OTHERS, Desk
from tests.support.splitter import split

# each folder over IMAP, the UIDLs and mails over POP3, and the folders that the user is subscribed to
Shown = tuple[dict[str, Folder], list[tuple[bytes, bytes]], list[bytes]]

FLAGS = [r"\Seen", r"\Answered", r"\Flagged", r"\Deleted", r"\Draft"]
# a `>` that a line has in an mbox and not in a Maildir
QUOTE = re.compile(rb"(?m)^>(?=>*From )")
# a folder that is left for a human to decide about
LEFT = re.compile(r"(?m)^.* -> (\S+): .*left \([a-z-]+\): .*\n(?:    (?:\.\.|(?:> |  )\d+ \|.*)\n)+    .* messages?:$")
SAID_QUOTES = re.compile(r"in (\d+) lines? \(Dovecot showed it")
STATUS, HEADER_END = re.compile(rb"(?im)^status[ \t]*:"), re.compile(rb"\n\r?\n")
# a line with CR LF that a From_ line follows at once
WITHOUT_BLANK_LINE = re.compile(rb"(?m)^(.+)\r\n(?=From )")
INTERNAL = re.compile(rb"(?s)From MAILER.DAEMON .*?initial values\.\n\n")


def mail(number: int, header: str = "") -> bytes:
    """A message as it is delivered."""
    return (
        f"From boris@example.com Mon Mar {number % 28 + 1:2} 09:12:{number % 60:02} 2025\nFrom: boris@example.com\n"
        f"Subject: {number}\n{header}\nhello {number}\n>From the shed.\n\n"
    ).encode()


class Case:
    """A mailbox of a user, or a tree of some: what is done to it before it is converted, and what Dovecot shows
    then."""

    def __init__(self, home: Path, server: Dovecot, name: str) -> None:
        self.top, self.server, self.name = home, server, name
        # UIDVALIDITY is the time if these are its first numbers; and a message that Dovecot hides comes last
        self.is_new = self.has_hidden = False
        # whether a human may have to decide how it is read, whether Dovecot may complain, and what was seen, for the
        # figures
        self.may_be_left = False
        self.seen = Counter()  # type: typing.Counter[str]
        self.folders = ["INBOX"]
        server.make_home(name)
        self.home = Path(server.home(name))
        self.inbox = self.home / "inbox"
        (self.home / "mail").mkdir()
        self.inbox.write_bytes(b"")
        self.own()

    def own(self) -> None:
        """Gives everything in its home to the user."""
        for path in [self.home, *self.home.rglob("*")]:
            os.chown(path, self.server.account.pw_uid, self.server.account.pw_gid)

    def deliver(self, *mails: bytes) -> None:
        """Appends mail as a delivery does."""
        with open(self.inbox, "ab") as file:
            file.write(b"".join(mails))

    def store(self, which: str, flags: str) -> None:
        """A client gives messages flags and keywords."""
        client = self.server.client(self.name, "INBOX")
        client.store(which, "+FLAGS", f"({flags})")
        client.logout()
        self.look()

    def expunge(self, which: str) -> None:
        """A client deletes messages."""
        client = self.server.client(self.name, "INBOX")
        client.store(which, "+FLAGS", r"(\Deleted)")
        client.expunge()
        client.logout()
        self.look()

    def look(self) -> None:
        """Dovecot looks until it shows the same again, and has written what it shows."""
        seen = None
        for _ in range(6):
            self.server.doveadm("fetch", "-u", self.name, "uid", "mailbox", "*", "all")
            try:
                now = self.server.by_imap(self.name)[:2], self.inbox.read_bytes()
            except imaplib.IMAP4.abort as reason:
                raise LeftOut(f"Dovecot dies of the mailbox: {reason}") from reason
            if now == seen:
                break
            seen = now

    def shown(self, user: str) -> Shown:
        """What a user is shown of each folder over IMAP, and of the inbox over POP3."""
        shown = {folder: self.server.by_imap(user, folder) for folder in self.folders}
        return shown, self.server.by_pop3(user), self.server.subscribed(user)

    def before(self) -> Shown:
        """What Dovecot shows of a copy of what is there, with its index."""
        other = self.copy(self.name + "-before")
        return self.shown(other.name)

    def shown_before(self) -> Shown:
        """The same if Dovecot shows it without a complaint. A stranger's numbers may change in its next session; then
        those of POP3 are left out."""
        said = len(self.server.complaints())
        try:
            folders, by_pop3, subscribed = self.before()
        except imaplib.IMAP4.abort as reason:
            raise LeftOut(f"Dovecot dies of the mailbox: {reason}") from reason
        except OtherSizes as reason:
            if not self.may_be_left:
                raise
            raise LeftOut(f"Dovecot contradicts itself: {reason}") from reason
        complaints = self.server.complaints()[said:]
        if complaints and self.may_be_left:
            raise LeftOut(f"Dovecot complains of the mailbox: {complaints[0]}")
        numbers = [int(uidl[:8], 16) for uidl, _ in by_pop3]
        if self.may_be_left and numbers != [row[0] for row in folders["INBOX"][2]]:
            by_pop3 = []
        return folders, by_pop3, subscribed

    def copy(self, name: str) -> "Case":
        """A case of another user, who has a copy of everything that is there."""
        other = copy.copy(self)
        other.name, other.home = name, Path(self.server.home(name))
        other.inbox = other.home / "inbox"
        shutil.rmtree(other.home, ignore_errors=True)
        subprocess.run(["cp", "-a", self.home, other.home], check=True)
        return other

    def run(self, *words: str, **settings: str) -> tuple[int, str]:
        """Runs a command as the user. Returns what it printed, without the time that it took."""
        desk = Desk(self.home, self.top / "bin", self.server.account.pw_name, TZ="UTC", **settings)
        ran = desk.run([self.top / "bin" / words[0], *words[1:]], BY_OTHERS)
        return ran.status, without_work(ran.output)

    def migrate(
        self, *words: str, names: Optional[Sequence[str]] = None, into: str = "Maildir", **settings: str
    ) -> tuple[int, str]:
        """Migrates the mailbox, or files of these names, as somebody does an hour later."""
        self.own()
        for path in self.home.rglob("*"):
            if path.is_file() and "Maildir" not in path.parts:
                os.utime(path, (time.time() - 3600,) * 2)
        names = names or ["inbox"] + ["mail"] * (len(self.folders) > 1)
        return self.run("mbox2maildir-admin", "migrate", "--all", *(words or ["--dovecot"]), into, *names, **settings)

    def after(self) -> Shown:
        """What Dovecot shows of the Maildir."""
        return self.shown(self.name + "@after")

    def wrong(self) -> Iterator[str]:
        """What differs after the migration."""
        before = self.shown_before()
        status, says = self.migrate()
        left = LEFT.findall(says) if self.may_be_left else []
        if status and (not left or len(left) != says.count(": left (")):
            yield f"migrate: status {status}: {says}"
            return
        self.folders = [name for name in self.folders if name not in left]
        is_by_pop3 = before[1] or not before[0]["INBOX"][2]
        before, after = (without(shown, left, bool(is_by_pop3)) for shown in (before, self.after()))
        if self.may_be_left:
            before = self.with_hidden_ends(before)
            if any(differences(before, after, self.is_new)):
                before = self.by_mailbox(before)
        self.seen.update(figures(before, after), left=len(left))
        if left:
            yield from differences(before, after, self.is_new)
            return
        if self.has_hidden:
            assert "Subject: 0" in str(after[0]["INBOX"][2].pop()) and after[1].pop(), after
        if self.has_hidden != ("its first message, which Dovecot hid, appears" in says):
            yield f"migrate: of a message that was hidden it says: {says}"
        yield from differences(before, after, self.is_new)
        if not self.has_hidden:
            yield from unsaid(before, after, says)
        yield from self.wrong_afterwards()

    def text_of(self, folder: str) -> bytes:
        """The text of the mailbox that Dovecot shows as a folder."""
        return (self.inbox if folder == "INBOX" else self.home / "mail" / folder).read_bytes()

    def with_hidden_ends(self, before: Shown) -> Shown:
        """What was shown, with the CR LF at the end of a message that Dovecot takes for the blank line before the next
        one, if there is none: when it removes a message after such an end, it removes the blank line, too."""
        folders = {}
        for name, (validity, following, rows) in before[0].items():
            lines = tuple(b"\n" + line for line in WITHOUT_BLANK_LINE.findall(self.text_of(name)))
            whole = [(*row[:4], row[4] + b"\r\n" * row[4].endswith(lines)) for row in rows]
            self.seen["messages whose CR LF Dovecot hides"] += sum(row != its for row, its in zip(rows, whole))
            folders[name] = validity, following, whole
        return (folders, *before[1:])

    def by_mailbox(self, before: Shown) -> Shown:
        """What was shown, except that messages have the dates that Dovecot shows without its index, and those with
        several fields Status the flags. Its index may contradict the mailbox, which is all that `migrate` reads: a
        message that takes the UID of another one, by a stranger's X-UID, has its date there, or hides what follows."""
        other = self.copy(self.name + "-anew")
        shutil.rmtree(str(other.home / "mail/.imap"))
        folders = {}
        for name, (validity, following, rows) in before[0].items():
            anew = {row[0]: row for row in self.server.by_imap(other.name, name)[2]}
            if anew.keys() != {row[0] for row in rows}:
                raise LeftOut("Dovecot shows other messages without its index")
            # a first message that Dovecot hides has no row
            texts = split(self.text_of(name), "unquoted")[-len(rows) :]
            changed = []
            for row, text in zip(rows, texts):
                its = anew[row[0]]
                changed.append((row[0], its[1] if has_several_status(text) else row[1], row[2], its[3], row[4]))
            self.seen["messages that the index contradicts"] += sum(row != its for row, its in zip(rows, changed))
            folders[name] = validity, following, changed
        return (folders, *before[1:])

    def wrong_afterwards(self) -> Iterator[str]:
        """What is wrong with what the commands say about a mailbox that was migrated."""
        for words, wanted in (
            (["mbox2maildir-admin", "quote", "--dovecot", "-o", "rest", "inbox"], ".*\n"),
            (["mbox2maildir", "convert", "Maildir", "rest"], ".* placed 0, swept 0\n"),
            (["mbox2maildir-admin", "verify", "Maildir", "inbox"], "(?s).*"),
        ):
            status, says = self.run(*words)
            if status or not re.fullmatch(wanted, says):
                yield f"{' '.join(words)}: status {status}: {says}"


def has_several_status(message: bytes) -> bool:
    """Whether the header of a message has several fields Status."""
    return len(STATUS.findall(HEADER_END.split(message)[0])) > 1


def is_same(row: Optional[Row], its: Optional[Row]) -> bool:
    """Whether a message has the same bytes, except for a `>` that a line has in an mbox."""
    if row is None or its is None:
        return False
    return its[:4] == row[:4] and its[4] in (row[4], QUOTE.sub(b"", row[4]))


def without(shown: Shown, left: Sequence[str], is_by_pop3: bool) -> Shown:
    """What is shown, without the folders that were left, and without POP3 if that is not compared."""
    folders = {name: folder for name, folder in shown[0].items() if name not in left}
    return folders, shown[1] if is_by_pop3 and "INBOX" not in left else [], shown[2]


def figures(before: Shown, after: Shown) -> dict[str, int]:
    """How many mailboxes and messages were compared, and how many have the same bytes."""
    pairs = [pair for name, folder in before[0].items() for pair in zip_longest(folder[2], after[0][name][2])]
    same = sum(row == its for row, its in pairs)
    quoted = sum(is_same(row, its) for row, its in pairs) - same
    return {"mailboxes": len(before[0]), "messages": len(pairs), "the same": same, "but for a `>`": quoted}


def unsaid(before: Shown, after: Shown, says: str) -> Iterator[str]:
    """What is wrong if a run gives another number of lines that lost a `>`."""
    count = 0
    for folder, (_, _, rows) in before[0].items():
        for row, its in zip(rows, after[0][folder][2]):
            count += len(QUOTE.findall(row[4])) if its[4] != row[4] else 0
    said = sum(map(int, SAID_QUOTES.findall(says)))
    if count != said:
        yield f"{count} lines have lost a `>`, and it says {said}: {says}"


def differences(before: Shown, after: Shown, is_new: bool) -> Iterator[str]:
    """What differs between what is shown before and after."""
    for folder, (validity, following, rows) in before[0].items():
        now_validity, now_following, now = after[0][folder]
        if not is_new and validity != now_validity:
            yield f"{folder}: UIDVALIDITY {now_validity}, and it was {validity}"
        if now_following < following:
            yield f"{folder}: the next UID {now_following}, and it was {following}"
        for place, (row, its) in enumerate(zip_longest(rows, now), 1):
            if not is_same(row, its):
                yield f"{folder}: message {place}:\n{differ(its, row)}"
    yield from differences_by_pop3(before, after, is_new)
    if before[2] and before[2] != after[2]:
        yield f"subscribed to {after[2]}, and it was {before[2]}"


def differences_by_pop3(before: Shown, after: Shown, is_new: bool) -> Iterator[str]:
    """What differs over POP3."""
    first, last = (18, 9) if is_new else (0, None)
    uidls = [[uidl[-first:][:last] for uidl, _ in shown[1]] for shown in (before, after)]
    if uidls[0] != uidls[1]:
        yield f"UIDLs {uidls[1]}, and they were {uidls[0]}"
    for place, ((_, text), (_, its)) in enumerate(zip(before[1], after[1]), 1):
        if its not in (text, QUOTE.sub(b"", text)):
            yield f"over POP3: message {place}:\n{differ(its, text)}"


@contextlib.contextmanager
def served() -> Iterator[tuple[Path, Dovecot]]:
    """A home, and a server for what is in it."""
    with fresh_home() as home:
        install(home / "bin")
        server = Dovecot(str(home / "dovecot"))
        server.write()
        server.start()
        try:
            yield home, server
        finally:
            server.stop()
