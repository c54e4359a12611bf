"""A Postfix of its own for a test, which has no network: it takes mail by SMTP at a socket of the system, and delivers
into the folders of a Maildir, by `local` and by `virtual`."""
import contextlib
import os
import pwd
import shutil
import smtplib
import socket
import subprocess
import time
from collections.abc import Iterator, Sequence
from pathlib import Path
from random import Random

from tests.support.cases import Failed, LeftOut
from tests.support.checks import PATIENCE
from tests.support.accounts import NOBODY
from tests.support.homes import fresh_folder, in_memory
from tests.worlds.back.programs import Deliver

DAEMONS = "/usr/lib/postfix/sbin"
LOCAL, VIRTUAL = "local.example.org", "virtual.example.org"
MAIN = f"""\
compatibility_level = 3.6
queue_directory = {{folder}}/queue
data_directory = {{folder}}/data
command_directory = /usr/sbin
daemon_directory = {DAEMONS}
maillog_file = {{folder}}/log
maillog_file_prefixes = /
inet_interfaces = loopback-only
inet_protocols = ipv4
myhostname = host.example.org
mydestination = {LOCAL}
mynetworks_style = host
default_transport = error:there is no network
alias_maps = texthash:{{folder}}/aliases
local_recipient_maps =
default_privs = nobody
virtual_mailbox_domains = {VIRTUAL}
virtual_mailbox_base = /
virtual_mailbox_maps = texthash:{{folder}}/mailboxes
virtual_uid_maps = static:{NOBODY}
virtual_gid_maps = static:{NOBODY}
virtual_minimum_uid = 1
mailbox_size_limit = 0
virtual_mailbox_limit = 0
message_size_limit = 0
smtpd_client_connection_count_limit = 0
"""
# the processes that a mail meets; the first one listens at a socket that others may enter
MASTER = """\
entry unix n - n - - smtpd
cleanup unix n - n - 0 cleanup
qmgr unix n - n 300 1 qmgr
rewrite unix - - n - - trivial-rewrite
bounce unix - - n - 0 bounce
defer unix - - n - 0 bounce
trace unix - - n - 0 bounce
error unix - - n - - error
retry unix - - n - - error
local unix - n n - - local
virtual unix - n n - - virtual
anvil unix - - n - 1 anvil
postlog unix-dgram n - n - 1 postlogd
"""


class AtSocket(smtplib.SMTP):
    """A client at a socket of the system."""

    def _get_socket(self, host: str, _: int, timeout: float) -> socket.socket:
        found = socket.socket(socket.AF_UNIX)
        found.settimeout(timeout)
        found.connect(host)
        return found


class Postfix:
    """A server below a folder, for the folders of a Maildir. It delivers as nobody."""

    def __init__(self, folder: Path, maildir: Path, names: Sequence[str], draw: Random) -> None:
        self.folder, self.maildir, self.draw = folder, maildir, draw
        self.recipients = {name: f"f{number}" for number, name in enumerate(names)}
        self.count = 0
        self.programs: list[Deliver] = [self.by_data, self.by_chunks]

    def write(self) -> None:
        """Writes its configuration."""
        for name in ("queue", "data"):
            (self.folder / name).mkdir()
        os.chown(self.folder / "data", pwd.getpwnam("postfix").pw_uid, -1)
        places = {who: f"{self.maildir}/{name}/" for name, who in self.recipients.items()}
        aliases = "".join(f"{who} {place}\n" for who, place in places.items())
        mailboxes = "".join(f"{who}@{VIRTUAL} {place}\n" for who, place in places.items())
        texts = {"main.cf": MAIN.format(folder=self.folder), "master.cf": MASTER}
        for name, text in {**texts, "aliases": aliases, "mailboxes": mailboxes}.items():
            (self.folder / name).write_text(text)

    def control(self, word: str) -> None:
        """Starts it, or stops it."""
        ran = subprocess.run(
            ["postfix", "-c", self.folder, word], check=False, stdout=subprocess.PIPE, stderr=subprocess.STDOUT
        )
        if ran.returncode:
            raise Failed(f"postfix {word}: {ran.stdout.decode()}{self.said()}")

    def said(self) -> str:
        """The end of its log."""
        path = self.folder / "log"
        return path.read_text(errors="replace")[-3000:] if path.exists() else ""

    def client(self, folder: str) -> AtSocket:
        """A client that has said for which folder its mail is."""
        client = AtSocket(f"{self.folder}/queue/public/entry", 25, "client.example.org", PATIENCE)
        client.ehlo()
        for status, says in (
            client.mail("alva@example.org"),
            client.rcpt(f"{self.recipients[folder]}@{self.draw.choice([LOCAL, VIRTUAL])}"),
        ):
            if status != 250:
                raise Failed(f"postfix: {status} {says!r}: {self.said()}")
        return client

    def by_data(self, folder: str, message: bytes) -> None:
        """Sends a message by DATA."""
        with self.awaiting(folder), self.client(folder) as client:
            self.want(client.data(in_lines(message)))

    def by_chunks(self, folder: str, message: bytes) -> None:
        """Sends a message by BDAT, in two pieces, of which none may be empty."""
        text = in_lines(message)
        middle = self.draw.randrange(1, len(text))
        with self.awaiting(folder), self.client(folder) as client:
            for chunk, end in ((text[:middle], ""), (text[middle:], " LAST")):
                client.putcmd(f"BDAT {len(chunk)}{end}")
                client.send(chunk)
                self.want(client.getreply())

    def want(self, reply: tuple[int, bytes]) -> None:
        """Fails unless the server took what was sent."""
        if reply[0] != 250:
            raise Failed(f"postfix: {reply}: {self.said()}")

    @contextlib.contextmanager
    def awaiting(self, folder: str) -> Iterator[None]:
        """Waits until a file more is in a folder."""
        place = self.maildir / folder / "new"
        before, end = len(listed(place)), time.monotonic() + PATIENCE
        yield
        while len(listed(place)) == before:
            if time.monotonic() > end:
                raise Failed(f"postfix delivers nothing: {self.said()}")
            time.sleep(0.002)
        self.count += 1


def listed(place: Path) -> list[str]:
    """The names in a folder, which may be missing."""
    return os.listdir(place) if place.is_dir() else []


def in_lines(message: bytes) -> bytes:
    """A message as SMTP has it: each line ends in CR LF."""
    text = message if message.endswith(b"\n") else message + b"\n"
    return text.replace(b"\r\n", b"\n").replace(b"\n", b"\r\n")


@contextlib.contextmanager
def postfix_for(maildir: Path, names: Sequence[str], draw: Random) -> Iterator[Postfix]:
    """A server that is running."""
    if os.geteuid() != 0 or not shutil.which("postfix"):
        raise LeftOut("it wants root and Postfix")
    with fresh_folder(in_memory()) as folder:
        server = Postfix(folder, maildir, names, draw)
        server.write()
        server.control("start")
        try:
            yield server
        finally:
            server.control("stop")
