"""Twelve users, and numbered mail, which no migration may lose or double."""
import imaplib
import re
import subprocess
import time
from collections import Counter, defaultdict

from tests.support.checks import PATIENCE, match_in
from tests.support.dovecot.server import Dovecot
from tests.support.dovecot.served import Shown

DOMAIN = "host.example"
USERS = ["mia", "alva", "boris", "cleo", "dora", "emil", "fynn", "gwen", "hugo", "iris", "jona", "kira"]
# folders that clients make: one below another, one whose name changes, one in modified UTF-7, and an empty one
FOLDERS = ["lists/sheds", "2005.archive", "Entw&APw-rfe", "empty"]
RENAMED = {"2005.archive": "2005-archive"}
# a file beside the folders, which a server lists and cannot open
NO_MAIL = "notes.txt"
FLAGS = [r"\Seen", r"\Answered \Seen", r"\Flagged", r"\Draft Garden", r"\Seen $Forwarded", r"\Deleted later"]
SUBJECT = re.compile(rb"(?m)^Subject: number (\d+)\r?$")


class Letters:
    """The mail of a machine: which numbers each user is to have."""

    def __init__(self, server: Dovecot) -> None:
        self.server, self.count = server, 0
        self.sent = defaultdict(Counter)  # type: defaultdict[str, Counter[int]]

    def text(self, user: str) -> bytes:
        """The next message of a user."""
        self.count += 1
        self.sent[user][self.count] += 1
        return (
            f"From: sender@{DOMAIN}\nTo: {address(user)}\nSubject: number {self.count}\n"
            f"Date: Mon, 3 Mar 2025 09:12:44 +0000\nMessage-ID: <{self.count}@{DOMAIN}>\n\n"
            f"hello {self.count}\nFrom the shed.\n" + "a line\n" * (self.count % 7)
        ).encode()

    def send(self, *users: str, to: str = "") -> None:
        """Sends a message to each of these users, or to all, by the mail transfer agent; `to` is another spelling of
        one's address."""
        for user in users or USERS:
            words = ["/usr/sbin/sendmail", "-i", "-f", f"sender@{DOMAIN}", to or address(user)]
            subprocess.run(words, input=self.text(user), check=True, timeout=PATIENCE)

    def delivered(self) -> None:
        """Waits until nothing is in the queue."""
        end = time.monotonic() + PATIENCE
        while True:
            queue = subprocess.run(["mailq"], check=True, stdout=subprocess.PIPE).stdout.strip()
            if queue in (b"", b"Mail queue is empty"):
                return
            assert time.monotonic() < end, f"the queue is not empty: {queue.decode()}"
            time.sleep(0.5)

    def work(self, user: str) -> None:
        """A client makes folders with mail, gives flags and keywords, deletes a message and subscribes."""
        client = self.server.client(user, "INBOX")
        for folder in FOLDERS:
            client.create(f'"{folder}"')
            for place in range(0 if folder == "empty" else 4):
                date = imaplib.Time2Internaldate(1_700_000_000 + 86_400 * place)
                client.append(f'"{folder}"', FLAGS[place], date, self.text(user).replace(b"\n", b"\r\n"))
        for name in (*FOLDERS[:2], "INBOX"):
            client.subscribe(f'"{name}"')
        for place, flags in enumerate(FLAGS, 2):
            client.store(str(place), "+FLAGS", f"({flags})")
        self.delete_first(client, user)
        client.logout()

    def change(self, user: str) -> None:
        """A client deletes a message of the inbox, and gives another one a flag and a keyword."""
        client = self.server.client(user, "INBOX")
        self.delete_first(client, user)
        client.store("2", "+FLAGS", r"(\Flagged later)")
        client.logout()

    def delete_first(self, client: imaplib.IMAP4, user: str) -> None:
        """A client deletes the first message of the folder that it has open."""
        _, found = client.fetch("1", "(BODY.PEEK[])")
        assert isinstance(found[0], tuple)
        number = int(match_in(SUBJECT.pattern, found[0][1])[1])
        client.store("1", "+FLAGS", r"(\Deleted)")
        client.uid("EXPUNGE", str(self.uid_of(client, "1")))
        del self.sent[user][number]

    @staticmethod
    def uid_of(client: imaplib.IMAP4, place: str) -> int:
        """The UID of a message by its place."""
        _, found = client.fetch(place, "(UID)")
        assert isinstance(found[0], bytes), found
        return int(match_in(rb"UID (\d+)", found[0])[1])


def address(user: str) -> str:
    """The address of a user, whose name may have a domain already."""
    return user if "@" in user else f"{user}@{DOMAIN}"


def shown(server: Dovecot, user: str) -> Shown:
    """What a user is shown of each folder over IMAP, and of the inbox over POP3."""
    client = server.client(user)
    _, lines = client.list()
    client.logout()
    found = [re.search(rb'\(([^)]*)\) "/" "?([^"]*)"?$', line) for line in lines if isinstance(line, bytes)]
    names = [match[2].decode() for match in found if match and b"\\Noselect" not in match[1]]
    names = [name for name in names if name != NO_MAIL]
    folders = {name: server.by_imap(user, name) for name in names}
    return folders, server.by_pop3(user), server.subscribed(user)


def renamed(before: Shown) -> Shown:
    """What a user was shown, with the names of folders that the pages say change."""
    folders = {RENAMED.get(name, name): folder for name, folder in before[0].items()}
    names = sorted(RENAMED.get(name.decode(), name.decode()).encode() for name in before[2])
    return folders, before[1], names


def of_then(before: Shown, now: Shown) -> Shown:
    """What a user is shown now of the mail that was there before; what has come since is left out, and that a folder
    without mail has new numbers, as the page says."""
    folders = {}
    for name, (validity, following, rows) in now[0].items():
        then = before[0].get(name, (0, 0, []))
        uids = {row[0] for row in then[2]}
        folders[name] = validity if uids else then[0], following, [row for row in rows if row[0] in uids]
    uidls = {uidl for uidl, _ in before[1]}
    return folders, [one for one in now[1] if one[0] in uidls], now[2]


def numbers(now: Shown) -> "Counter[int]":
    """The numbers of the mail that a user is shown."""
    mails = [row[4] for folder in now[0].values() for row in folder[2]]
    return Counter(int(match[1]) for mail in mails for match in SUBJECT.finditer(mail))
