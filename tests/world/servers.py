"""What pages say of servers that are installed here: what Exim of Debian does once there is an /etc/procmailrc, and
what a reload of Dovecot does to connections. A case is left out if its server is missing."""
import imaplib
import os
import poplib
import shutil
import subprocess
import time
from pathlib import Path

from tests.support import accounts
from tests.support.cases import LeftOut
from tests.support.checks import PATIENCE, equal, match_in
from tests.support.dovecot.server import Dovecot, is_there
from tests.support.homes import check_all, want_users

PROCMAILRC = Path("/etc/procmailrc")


def procmail_for_all(home: Path) -> None:
    """Exim gives the mail of all users to procmail once there is an /etc/procmailrc. Without this file, it gives it the
    mail of those who have a .procmailrc."""
    want_users()
    os.environ["PATH"] += ":/usr/sbin"
    if not all(map(shutil.which, ("update-exim4.conf", "procmail"))):
        raise LeftOut("Exim of Debian, or procmail, is not here")
    configuration = home / "exim.conf"
    subprocess.run(["update-exim4.conf", "-o", configuration], check=True)

    def router(user: str) -> str:
        ran = subprocess.run(
            ["exim4", "-C", configuration, "-bt", f"{user}@localhost"], check=True, capture_output=True
        )
        return match_in(r"router = (\w+)", ran.stdout.decode())[1]

    PROCMAILRC.unlink(missing_ok=True)
    users = {name: home / name for name in ("m61one", "m61two")}
    with accounts.users_at_home(users):
        shutil.chown(str(shutil.copy(os.devnull, users["m61two"] / ".procmailrc")), "m61two")
        equal("without the file", [router(name) for name in users], ["local_user", "procmail"])
        PROCMAILRC.write_text("DEFAULT=$HOME/Maildir/\n", encoding="utf-8")
        equal("with the file", [router(name) for name in users], ["procmail", "procmail"])


def reload_ends_connections(home: Path) -> None:
    """A reload of Dovecot ends all connections over IMAP and POP3 after some seconds. New ones are taken."""
    if not is_there():
        raise LeftOut("Dovecot is not here")
    server = Dovecot(str(home / "dovecot"))
    server.write()
    server.make_home("mia")
    server.start()
    try:
        imap, pop3 = server.client("mia", "INBOX"), poplib.POP3("127.0.0.1", server.pop3)
        pop3.user("mia")
        pop3.pass_("x")
        equal("reload", server.doveadm("reload").returncode, 0)
        for ask, error in ((imap.noop, imaplib.IMAP4.abort), (pop3.stat, poplib.error_proto)):
            end = time.monotonic() + PATIENCE
            try:
                while time.monotonic() < end:
                    ask()
                    time.sleep(0.2)
                raise AssertionError("the connection lasts")
            except (error, OSError):
                pass
        server.client("mia", "INBOX").logout()
    finally:
        server.stop()


if __name__ == "__main__":
    check_all(procmail_for_all, reload_ends_connections)
