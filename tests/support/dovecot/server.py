"""A Dovecot of its own for a test: its configuration, its folder, its ports on the loopback, and what it shows of a
mailbox."""
import grp
import imaplib
import os
import poplib
import pwd
import re
import shutil
import socket
import subprocess
import time
from typing import Optional

from tests.support.checks import PATIENCE, match_in
from tests.support.dovecot.settings import settings_here

# of a message: its UID, flags, keywords, date and mail; of a folder: UIDVALIDITY, the next UID and its messages
Row = tuple[int, list[bytes], list[bytes], bytes, bytes]
Folder = tuple[int, int, list[Row]]

# lines of mail may be longer than poplib accepts
setattr(poplib, "_MAXLINE", 1 << 20)
# what each version understands
CONFIGURATION = """\
{first}base_dir = {folder}/run
state_dir = {folder}/state
log_path = {folder}/log
protocols = imap pop3
listen = 127.0.0.1
ssl = no
default_internal_user = {names[0]}
default_internal_group = {names[1]}
default_login_user = {names[2]}
mail_fsync = never
mbox_write_locks = fcntl
mmap_disable = no
namespace inbox {{
  inbox = yes
  separator = /
}}
service imap-login {{
  chroot =
  inet_listener imap {{
    port = {imap}
  }}
  inet_listener imaps {{
    port = 0
  }}
}}
service pop3-login {{
  chroot =
  inet_listener pop3 {{
    port = {pop3}
  }}
  inet_listener pop3s {{
    port = 0
  }}
}}
service anvil {{
  chroot =
}}
service stats {{
  chroot =
  unix_listener stats-reader {{
    mode = 0666
  }}
  unix_listener stats-writer {{
    mode = 0666
  }}
}}
"""


def is_there() -> bool:
    """Whether Dovecot is installed with its mbox and Maildir drivers, and a program that speaks for it."""
    os.environ["PATH"] += ":/usr/sbin:/usr/local/sbin"
    return all(map(shutil.which, ["dovecot", "doveadm"])) and os.path.exists("/usr/lib/dovecot/pop3")


def free_ports() -> tuple[int, int]:
    """Two ports of the loopback that nobody uses."""
    with socket.socket() as one, socket.socket() as other:
        one.bind(("127.0.0.1", 0))
        other.bind(("127.0.0.1", 0))
        return int(one.getsockname()[1]), int(other.getsockname()[1])


class OtherSizes(Exception):
    """A message is shown that has another size than the server says."""


class Dovecot:
    """A server below a folder. Each user has a home with `inbox` and the tree `mail`, and the Maildir in it as
    `USER@after`."""

    def __init__(self, folder: str, imap: Optional[int] = None, pop3: Optional[int] = None) -> None:
        free = free_ports()
        self.folder, self.imap, self.pop3 = folder, imap or free[0], pop3 or free[1]
        root = os.geteuid() == 0
        self.account = pwd.getpwnam("nobody") if root else pwd.getpwuid(os.geteuid())
        self.configuration = f"{folder}/dovecot.conf"
        self.child = None  # type: Optional[subprocess.Popen[bytes]]

    def write(self) -> None:
        """Writes its configuration."""
        settings = settings_here()
        os.makedirs(f"{self.folder}/home")
        os.chmod(self.folder, 0o755)
        user = pwd.getpwuid(os.geteuid())
        names = [user.pw_name, grp.getgrgid(user.pw_gid).gr_name, user.pw_name]
        if os.geteuid() == 0:
            names = ["dovecot", "dovecot", "dovenull"]
        with open(self.configuration, "w", encoding="utf-8") as file:
            file.write(
                (CONFIGURATION + settings.server).format(
                    first=settings.first,
                    folder=self.folder,
                    names=names,
                    imap=self.imap,
                    pop3=self.pop3,
                    uid=self.account.pw_uid,
                    gid=self.account.pw_gid,
                )
            )

    def change(self, before: str, after: str) -> None:
        """Changes its configuration from the next start on."""
        with open(self.configuration, encoding="utf-8") as file:
            text = file.read()
        assert before in text, before
        with open(self.configuration, "w", encoding="utf-8") as file:
            file.write(text.replace(before, after))

    def home(self, user: str) -> str:
        """The home of a user."""
        return f"{self.folder}/home/{user}"

    def become(self) -> None:
        """Goes on as the user whose mail it serves."""
        if os.geteuid() == 0:
            os.setgroups([])
            os.setgid(self.account.pw_gid)
            os.setuid(self.account.pw_uid)

    def make_home(self, user: str) -> None:
        """Makes the home of a user."""
        os.mkdir(self.home(user), 0o700)
        os.chown(self.home(user), self.account.pw_uid, self.account.pw_gid)

    def start(self) -> None:
        """Starts the server, and waits until it answers."""
        with open(f"{self.folder}/out", "ab") as out:
            child = self.child = subprocess.Popen(
                ["dovecot", "-F", "-c", self.configuration], stdout=out, stderr=out, stdin=subprocess.DEVNULL
            )
        end = time.monotonic() + PATIENCE
        while time.monotonic() < end:
            try:
                socket.create_connection(("127.0.0.1", self.imap)).close()
                socket.create_connection(("127.0.0.1", self.pop3)).close()
                return
            except OSError:
                assert child.poll() is None, f"dovecot ended: {self.said()}"
                time.sleep(0.05)
        raise AssertionError(f"dovecot does not answer: {self.said()}")

    def stop(self) -> None:
        """Stops it, and waits until its children are gone."""
        if self.child:
            self.child.terminate()
            self.child.wait()
            self.child = None

    def said(self) -> str:
        """What it printed and logged."""
        pieces = []
        for name in ("out", "log"):
            if os.path.exists(f"{self.folder}/{name}"):
                with open(f"{self.folder}/{name}", encoding="utf-8", errors="replace") as file:
                    pieces.append(file.read())
        return "".join(pieces)

    def complaints(self) -> list[str]:
        """The lines of its log that are complaints, but for those of its end, and of a machine that has much to do."""
        harmless = "Killed with signal 15|Time moved forward"
        lines = [line for line in self.said().splitlines() if not re.search(harmless, line)]
        return [line for line in lines if re.search("Error|Warning|Panic|Fatal", line)]

    def doveadm(self, *words: str) -> "subprocess.CompletedProcess[bytes]":
        """Runs doveadm with its configuration, and returns what it printed."""
        return subprocess.run(
            ["doveadm", "-c", self.configuration, *words], check=False, stdout=subprocess.PIPE, stderr=subprocess.PIPE
        )

    def client(self, user: str, folder: Optional[str] = None) -> imaplib.IMAP4:
        """A client over IMAP, with a folder open."""
        client = imaplib.IMAP4("127.0.0.1", self.imap)
        client.login(user, "x")
        if folder:
            status, says = client.select(f'"{folder}"')
            assert status == "OK", says
        return client

    def by_imap(self, user: str, folder: str = "INBOX") -> Folder:
        """What IMAP shows of a folder: its UIDVALIDITY, the next UID, and for each message UID, flags, keywords, date
        and mail."""
        client = self.client(user)
        status, says = client.select(f'"{folder}"', readonly=True)
        assert status == "OK", says
        validity, following = (int(client.response(name)[1][0]) for name in ("UIDVALIDITY", "UIDNEXT"))
        rows = []  # type: list[Row]
        if says != [b"0"]:
            status, found = client.fetch("1:*", "(UID FLAGS INTERNALDATE RFC822.SIZE BODY.PEEK[])")
            assert status == "OK", found
            # what comes in between is about flags that changed
            rows = [
                row_of(pair, rest)
                for pair, rest in zip(found, found[1:])
                if isinstance(pair, tuple) and isinstance(rest, bytes)
            ]
        client.logout()
        return validity, following, rows

    def subscribed(self, user: str) -> list[bytes]:
        """The folders that a user is subscribed to."""
        client = self.client(user)
        names = [line.split(b'"/" ')[1].strip(b'"') for line in client.lsub('""', "*")[1] if line]
        client.logout()
        return sorted(names)

    def by_pop3(self, user: str) -> list[tuple[bytes, bytes]]:
        """What POP3 shows of the inbox: the UIDLs in their order, each with its mail, which must have the size that it
        says."""
        client = poplib.POP3("127.0.0.1", self.pop3)
        client.user(user)
        client.pass_("x")
        uidls = [line.split(b" ", 1)[1] for line in client.uidl()[1]]
        sizes = [int(line.split()[1]) for line in client.list()[1]]
        mails = [
            b"".join(line + b"\r\n" for line in client.top(number, 1 << 20)[1]) for number in range(1, 1 + len(sizes))
        ]
        if sizes != list(map(len, mails)):
            raise OtherSizes(f"POP3 says the sizes {sizes} of {mails}")
        client.quit()
        return list(zip(uidls, mails))


def row_of(pair: tuple[bytes, bytes], rest: bytes) -> Row:
    """A message as IMAP shows it: UID, flags, keywords, date, and the mail, which must have the size that it says."""
    says, mail = pair[0] + rest, pair[1]
    uid = int(match_in(rb"UID (\d+)", says)[1])
    flags = set(match_in(rb"FLAGS \(([^)]*)\)", says)[1].split()) - {rb"\Recent"}
    date = match_in(rb'INTERNALDATE "([^"]*)"', says)[1]
    system = {flag for flag in flags if flag.startswith(b"\\")}
    assert int(match_in(rb"RFC822\.SIZE (\d+)", says)[1]) == len(mail), (says, mail)
    return uid, sorted(system), sorted(flags - system), date, mail
