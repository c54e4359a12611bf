"""Clients of POP3 and IMAP that keep a state, so that they fetch nothing a second time."""
import os
import shutil
import subprocess
from pathlib import Path

from tests.support.checks import PATIENCE
from tests.support.dovecot.server import Dovecot

# the file of settings of each client, and its command line; it keeps mail below `mail` of its folder
FETCHMAIL = """\
poll 127.0.0.1 service {pop3} protocol pop3 uidl username "{user}" password "x" keep sslproto ''
mda "/bin/sh -c 'cat >{folder}/mail/$(date +%s%N)'"
"""
GETMAIL = """\
[retriever]
type = SimplePOP3Retriever
server = 127.0.0.1
port = {pop3}
username = {user}
password = x
[destination]
type = Maildir
path = {folder}/mail/
[options]
delete = false
read_all = false
"""
MPOP = """\
account all
host 127.0.0.1
port {pop3}
tls off
auth user
user {user}
password x
keep on
only_new on
delivery maildir {folder}/mail
uidls_file {folder}/uidls
"""
MBSYNC = """\
IMAPStore far
Host 127.0.0.1
Port {imap}
User {user}
Pass x
SSLType None
AuthMechs LOGIN

MaildirStore near
Path {folder}/mail/
Inbox {folder}/mail/INBOX
SubFolders Verbatim

Channel all
Far :far:
Near :near:
Patterns *
Create Near
SyncState {folder}/state/
"""
OFFLINEIMAP = """\
[general]
accounts = all
metadata = {folder}/state
[Account all]
localrepository = near
remoterepository = far
[Repository near]
type = Maildir
localfolders = {folder}/mail
[Repository far]
type = IMAP
remotehost = 127.0.0.1
remoteport = {imap}
remoteuser = {user}
remotepass = x
ssl = no
starttls = no
auth_mechanisms = LOGIN
"""
POP3 = {
    "fetchmail": (FETCHMAIL, ["-f", "{folder}/settings", "-i", "{folder}/ids", "--pidfile", "{folder}/pid", "-s"]),
    "getmail": (GETMAIL, ["--getmaildir", "{folder}", "--rcfile", "{folder}/settings", "-q"]),
    "mpop": (MPOP, ["-C", "{folder}/settings", "-q", "all"]),
}
IMAP = {
    "mbsync": (MBSYNC, ["-c", "{folder}/settings", "all"]),
    "offlineimap": (OFFLINEIMAP, ["-c", "{folder}/settings", "-o", "-u", "quiet"]),
}
# a client that fetched nothing ends with this status
NOTHING = {"fetchmail": 1}


class Client:
    """A client by its name, with a folder of its own."""

    def __init__(self, name: str, home: Path, server: Dovecot, user: str) -> None:
        self.name, self.folder, self.server = name, home / name, server
        text, self.words = {**POP3, **IMAP}[name]
        for sub in ("mail", "state", *(f"mail/{sub}" for sub in ("tmp", "new", "cur") if name in ("getmail", "mpop"))):
            (self.folder / sub).mkdir(parents=True, exist_ok=True)
        settings = self.folder / "settings"
        settings.write_text(text.format(imap=server.imap, pop3=server.pop3, user=user, folder=self.folder))
        settings.chmod(0o600)
        for path in (self.folder, *self.folder.rglob("*")):
            os.chown(path, server.account.pw_uid, server.account.pw_gid)

    def run(self) -> str:
        """Fetches what is new. Returns what it printed, if it failed."""
        words = [self.name, *(word.format(folder=self.folder) for word in self.words)]
        settings = {"PATH": "/usr/local/bin:/usr/bin:/bin", "HOME": str(self.folder), "LC_ALL": "C.UTF-8"}
        ran = subprocess.run(
            words,
            cwd=self.folder,
            env=settings,
            preexec_fn=self.server.become,
            timeout=PATIENCE,
            stdin=subprocess.DEVNULL,
            stdout=subprocess.PIPE,
            stderr=subprocess.STDOUT,
            check=False,
        )
        is_well = ran.returncode in (0, NOTHING.get(self.name, 0))
        return "" if is_well else f"status {ran.returncode}: {ran.stdout.decode()}"

    def mail(self) -> dict[str, bytes]:
        """The mail that it has: each file by its name, with its contents."""
        return {str(path): path.read_bytes() for path in (self.folder / "mail").rglob("*") if is_mail(path)}


def is_mail(path: Path) -> bool:
    """Whether a path is that of a mail, and not of something that a client keeps beside it."""
    return path.is_file() and not path.name.startswith(".")


def missing() -> list[str]:
    """The clients that are not installed."""
    return [name for name in (*POP3, *IMAP) if not shutil.which(name)]
