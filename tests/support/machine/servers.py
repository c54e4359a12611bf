"""The servers of a machine: the mail transfer agent and Dovecot, and their settings, which are those of the pages."""
import imaplib
import re
import subprocess
import time
from pathlib import Path

from tests.support.checks import PATIENCE, equal
from tests.support.dovecot.server import Dovecot
from tests.support.dovecot.settings import NEW, settings_here
from tests.support.machine.page import REFERENCE, SERVER, spans

DOVECOT, EXIM = Path("/etc/dovecot"), Path("/etc/exim4/update-exim4.conf.conf")
# where Debian has the databases of users
SYSTEM = DOVECOT / "conf.d/auth-system.conf.ext"
# how Postfix may call Dovecot's LDA
LDA = """postconf -e 'mailbox_command=/usr/lib/dovecot/dovecot-lda -f "$SENDER" -a "$RECIPIENT"'"""
# a command of systemd, which does not run here: it stops or starts both servers
SYSTEMCTL = """\
#!/bin/sh
action=$1
shift
for server; do
    case $server:$action in
        dovecot:start) dovecot ;;
        dovecot:stop) doveadm stop ;;
        *) "/etc/init.d/$server" "$action" ;;
    esac >/var/log/systemctl 2>&1 || exit
done
"""


def root(command: str, status: int = 0) -> str:
    """Runs a command as root, in root's own folder, and returns what it prints."""
    ran = subprocess.run(
        ["bash", "-c", command],
        cwd="/root",
        stdin=subprocess.DEVNULL,
        stdout=subprocess.PIPE,
        stderr=subprocess.STDOUT,
        text=True,
        check=False,
        timeout=10 * PATIENCE,
    )
    assert ran.returncode == status, f"{command}: status {ran.returncode}: {ran.stdout}"
    return ran.stdout


def owner(user: str, command: str, status: int = 0) -> str:
    """Runs a command as a user who has logged in."""
    return root(f"su - {user} -c {quoted(command)}", status)


def quoted(command: str) -> str:
    """A command as one word for a shell."""
    return "'" + command.replace("'", "'\\''") + "'"


def change(path: Path, pattern: str, after: str) -> None:
    """Changes the one place of a file of settings that has this pattern."""
    text, count = re.subn(pattern, lambda _: after, path.read_text(encoding="utf-8"), flags=re.MULTILINE)
    equal(f"{path}: places of {pattern}", count, 1)
    path.write_text(text, encoding="utf-8")


class Machine:
    """The servers by the name of what delivers: `postfix` and `exim` deliver by themselves, `lmtp` and `lda` are
    Dovecot's, behind Postfix."""

    def __init__(self, way: str) -> None:
        self.way, self.agent = way, "exim4" if way == "exim" else "postfix"
        self.server = Dovecot("/var/log/dovecot", 143, 110)
        self.is_new = settings_here() is NEW
        self.by_dovecot = way in ("lmtp", "lda")

    def of_version(self, old: str, new: str) -> str:
        """The text for the version of Dovecot that is here."""
        return new if self.is_new else old

    def begin(self) -> None:
        """Sets everything up as it was before anybody thought of Maildirs, and starts it."""
        Path("/var/log/dovecot").mkdir()
        tool = Path("/usr/local/bin/systemctl")
        tool.write_text(SYSTEMCTL, encoding="utf-8")
        tool.chmod(0o755)
        if self.way == "exim":
            change(EXIM, "^dc_other_hostnames=.*", "dc_other_hostnames='host.example'")
            root("update-exim4.conf")
        else:
            root("postconf -e mailbox_command= maillog_file=/var/log/postfix.log mydestination=host.example,localhost")
        with open(DOVECOT / "dovecot.conf", "a", encoding="utf-8") as file:
            file.write("log_path = /var/log/dovecot/log\n")
        if self.way == "lmtp":
            self.deliver_by_lmtp()
        if self.way == "lda":
            # it runs with the rights of each user
            root(f"{LDA} && chmod 1777 /var/mail /var/log/dovecot && install -m 666 /dev/null /var/log/dovecot/log")
        self.start()

    def deliver_by_lmtp(self) -> None:
        """Has Postfix give its mail to Dovecot."""
        root("postconf -e mailbox_transport=lmtp:unix:private/dovecot-lmtp")
        listener = "unix_listener /var/spool/postfix/private/dovecot-lmtp {\n  mode = 0666\n}\n"
        names = self.of_version(
            "%{if;%d;eq;host.example;%Ln;%Lu}", r"%{user | lower | regexp('^(.*)@host.example$', '\\1')}"
        )
        with open(DOVECOT / "dovecot.conf", "a", encoding="utf-8") as file:
            file.write(f"service lmtp {{\n{listener}}}\nprotocol lmtp {{\n  auth_username_format = {names}\n}}\n")

    def start(self) -> None:
        """Starts both servers."""
        root(f"systemctl start {self.agent} dovecot")
        self.answers()

    def stop(self) -> None:
        """Stops both servers, by the page's command."""
        root(SERVER.line("systemctl stop dovecot postfix").replace("postfix", self.agent))

    def answers(self) -> None:
        """Waits until Dovecot answers."""
        end = time.monotonic() + PATIENCE
        while True:
            try:
                return self.server.client("alva").logout() and None
            except (OSError, imaplib.IMAP4.error):
                assert time.monotonic() < end, f"dovecot does not answer: {self.server.said()}"
                time.sleep(0.2)

    def redirect(self, user: str) -> None:
        """Redirects the mail of a user, or holds it if Dovecot delivers."""
        if self.by_dovecot:
            root(SERVER.line("postconf -e defer_transports=local &&"))
        else:
            owner(user, SERVER.line(">~/.forward"))

    def redirect_all(self) -> None:
        """Redirects the mail of all users, or holds it if Dovecot delivers."""
        if self.by_dovecot:
            root(SERVER.line("postconf -e defer_transports=local &&"))
        elif self.way == "exim":
            setting, path, *commands = spans(REFERENCE.cells("Exim of Debian")[0])
            change(Path(path), "^dc_localdelivery=.*", setting)
            root(" && ".join(commands))
        else:
            root(" && ".join(spans(REFERENCE.cells("Postfix")[0])))

    def release(self) -> None:
        """Releases the mail that was held."""
        if self.by_dovecot:
            root(SERVER.line("&& postqueue -f"))

    def refuse(self, user: str) -> None:
        """Refuses the logins of a user, as the page says, and ends the sessions."""
        (DOVECOT / "deny-users").write_text(f"{user}\n", encoding="utf-8")
        change(DOVECOT / "conf.d/10-auth.conf", "^#!include auth-deny.conf.ext", "!include auth-deny.conf.ext")
        if self.is_new:
            path = DOVECOT / "conf.d/auth-deny.conf.ext"
            begun, lines = path.read_text(encoding="utf-8").split("#passdb deny {\n")
            path.write_text(f"{begun}passdb deny {{\n" + re.sub("(?m)^#", "", lines), encoding="utf-8")
        root("doveadm reload")
        # it ends with another status if nobody has a session
        root(REFERENCE.span("doveadm kick mia").replace("mia", user) + " || true")

    def databases(self) -> list[str]:
        """What stands before the settings of each database of users."""
        if self.is_new:
            return [r"userdb passwd \{", *[r"userdb virtual \{"] * (self.way == "lmtp")]
        return ["\n  driver = passwd", *["/etc/dovecot/virtual\n  driver = passwd-file"] * (self.way == "lmtp")]

    def set_separator(self) -> None:
        """Sets the separator of the namespace."""
        change(DOVECOT / "conf.d/10-mail.conf", r"^  #separator = *$", f"  {SERVER.span('separator = /')}")

    def set_maildirs(self) -> None:
        """Sets the place of the mail of all users."""
        cell = REFERENCE.cells("all users")[self.is_new]
        for setting in spans(cell):
            change(DOVECOT / "conf.d/10-mail.conf", rf"^{setting.split(' = ')[0]} = .*", setting)
