"""A user without an account on the machine, whose name has a domain: Dovecot has its users in a file, which also says
where their mail is, and gets their mail from Postfix by LMTP."""
from pathlib import Path

from tests.support.machine.page import REFERENCE
from tests.support.machine.servers import DOVECOT, SYSTEM, Machine, root

NAME = "vera@virtual.example"
HOME = Path("/srv/vmail/vera")
# where the mail is before it is migrated, in the words of both versions
OLD_MBOX = "userdb_mail=mbox:~/mail:INBOX=~/inbox"
MBOX = "userdb_mail_driver=mbox userdb_mail_path=~/mail userdb_mail_inbox_path=~/inbox"
OLD_USERS = """
passdb {
  driver = passwd-file
  args = /etc/dovecot/virtual
}
userdb {
  args = /etc/dovecot/virtual
  driver = passwd-file
}
"""
USERS = """
passdb virtual {
  driver = passwd-file
  passwd_file_path = /etc/dovecot/virtual
}
userdb virtual {
  driver = passwd-file
  passwd_file_path = /etc/dovecot/virtual
}
"""


def begin(machine: Machine) -> None:
    """Makes the user, before the servers are started."""
    root(f"useradd -r -d /srv/vmail vmail && install -d -o vmail /srv/vmail {HOME} {HOME}/mail")
    with open(SYSTEM, "a", encoding="utf-8") as file:
        file.write(machine.of_version(OLD_USERS, USERS))
    place(machine.of_version(OLD_MBOX, MBOX))
    root("postconf -e virtual_mailbox_domains=virtual.example virtual_transport=lmtp:unix:private/dovecot-lmtp")


def place(where: str) -> None:
    """Writes where the user's mail is."""
    ids = root("id -u vmail").strip() + ":" + root("id -g vmail").strip()
    (DOVECOT / "virtual").write_text(f"{NAME}:{{PLAIN}}x:{ids}::{HOME}::{where}\n", encoding="utf-8")


def migrate() -> str:
    """Migrates the user's mail, while it waits, and returns what is printed."""
    root(REFERENCE.span("defer_transports=local,lmtp") + " && postfix reload && systemctl stop dovecot")
    root(f"cd {HOME} && mv inbox inbox.old && mv mail mail.old")
    line = REFERENCE.span("runuser -u vmail -- mbox2maildir-admin migrate")
    return root(
        line.replace("/srv/mail/mia /srv/old/mia", f"--now --dovecot {HOME}/Maildir {HOME}/inbox.old {HOME}/mail.old")
    )
