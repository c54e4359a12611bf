"""The list of users who have moved, from which Dovecot learns where their mail is, by the lines of the page; and what
happens where Dovecot cannot read the list."""
import imaplib
import time

from tests.support.checks import PATIENCE, equal
from tests.support.machine.page import REFERENCE
from tests.support.machine.servers import SYSTEM, Machine, change, root

MIGRATED = "/etc/dovecot/migrated"
# a file of the same second counts as unchanged
LATER = "sleep 2 && cd /etc/dovecot && "


class MovedList:
    """The list of a machine."""

    def __init__(self, machine: Machine) -> None:
        self.machine = machine
        self.block = REFERENCE.block(machine.of_version("  args = ", "  passwd_file_path = ") + MIGRATED)
        self.setting = f"\n  {REFERENCE.span('result_success')}"
        # the line of mia, and what it says of where mail is
        words = machine.of_version("userdb_mail=", "userdb_mail_driver=")
        self.line = REFERENCE.line(f"echo 'mia:::::::{words}")
        self.fields = self.line.split(":::::::")[1].split("'")[0]

    def make(self) -> None:
        """Has Dovecot look its users up in the list too."""
        root(REFERENCE.span(f"chmod 644 {MIGRATED}"))
        for databases in self.machine.databases():
            change(SYSTEM, f"(?<={databases})$", self.setting)
        with open(SYSTEM, "a", encoding="utf-8") as file:
            file.write("\n" + self.block)
        if self.machine.way == "lda":
            root(REFERENCE.span("mailbox_command=/"))
        root(REFERENCE.span("doveadm reload"))
        self.machine.answers()

    def forget(self) -> None:
        """Takes the list out again."""
        for databases in self.machine.databases():
            change(SYSTEM, f"(?<={databases}){self.setting}$", "")
        text = SYSTEM.read_text(encoding="utf-8")
        assert self.block in text, text
        SYSTEM.write_text(text.replace(self.block, ""), encoding="utf-8")

    def add(self, user: str = "mia") -> None:
        """Puts a user into the list, and sees that nobody else is served from elsewhere."""
        root(self.line.replace("mia:", f"{user}:"))
        # Dovecot looks at the list no second time within a second
        time.sleep(2)
        wanted = {user: True, user.capitalize(): True, "alva": False}
        places = {name: "Maildir" in root(f"doveadm user {name}") for name in wanted}
        equal("who is served from a Maildir", places, wanted)

    def close(self) -> None:
        """If Dovecot may not read the list, nobody is served, and so nobody from elsewhere."""
        root(f"{LATER}install -m 600 migrated closed && mv -f closed migrated")
        equal("whether alva's login is refused", is_refused(self.machine, "alva"), True)
        root(f"chmod 644 {MIGRATED}")
        self.machine.answers()

    def lose(self) -> None:
        """If the list is missing, Dovecot does not serve those from their Maildirs who are in it, as the page warns. In
        the end the list is back."""
        root(f"{LATER}mv migrated lost && doveadm reload")
        folders = [self.inbox_of("mia") for _ in range(10)]
        equal("how many messages of the Maildir are shown", [count for count in folders if count], [])
        root(f"{LATER}mv lost migrated && doveadm reload")
        # these logins have made old mailboxes without mail
        root("find /var/mail -name mia -empty -delete; rm -rf /home/mia/mail")
        self.machine.answers()

    def inbox_of(self, user: str) -> int:
        """How many messages a user is shown in the inbox; 0 if the login is refused."""
        try:
            client = self.machine.server.client(user)
            count = client.select("INBOX", readonly=True)[1][0]
            client.logout()
        except (imaplib.IMAP4.error, OSError):
            return 0
        return int(count or 0)


def is_refused(machine: Machine, user: str) -> bool:
    """Whether logins of a user are refused, once a reload has its effect."""
    end = time.monotonic() + PATIENCE
    while time.monotonic() < end:
        try:
            machine.server.client(user).logout()
        except imaplib.IMAP4.error:
            return True
        time.sleep(0.5)
    return False
