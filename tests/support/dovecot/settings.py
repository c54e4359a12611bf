"""How Dovecot is told where mail is, in the settings of the version that is here."""
import re
import subprocess
from functools import lru_cache
from typing import NamedTuple

# the settings of the tests' server that each version names in its own way
OLD_SERVER = """\
disable_plaintext_auth = no
mail_location = mbox:~/mail:INBOX=~/inbox
protocol pop3 {{
  pop3_uidl_format = %08Xu%08Xv
}}
passdb {{
  driver = static
  username_filter = *@after
  args = nopassword=y userdb_mail=maildir:~/Maildir
}}
passdb {{
  driver = static
  args = nopassword=y
}}
userdb {{
  driver = static
  args = uid={uid} gid={gid} home={folder}/home/%n
}}
"""
SERVER = """\
auth_allow_cleartext = yes
mail_driver = mbox
mail_path = ~/mail
mail_inbox_path = ~/inbox
protocol pop3 {{
  pop3_uidl_format = %{{uid | hex(8)}}%{{uidvalidity | hex(8)}}
}}
passdb after {{
  driver = static
  username_filter = *@after
  fields {{
    nopassword = yes
    userdb_mail_driver = maildir
    userdb_mail_path = ~/Maildir
    userdb_mail_inbox_path = ~/Maildir
  }}
}}
passdb static {{
  fields {{
    nopassword = yes
  }}
}}
userdb static {{
  fields {{
    uid = {uid}
    gid = {gid}
    home = {folder}/home/%{{user | username}}
  }}
}}
"""


class Settings(NamedTuple):
    """The settings of a version of Dovecot: the first lines of a configuration, the tests' server, its line with the
    old mailboxes and what takes its place, the place of the Maildirs and what may follow it, the UIDLs, and the option
    by which doveadm looks up no user."""

    first: str
    server: str
    mailboxes: str
    maildirs: str
    maildir: str
    control: str
    layout: str
    uidls: str
    digests: str
    alone: tuple[str, ...]

    def mail_at(self, folder: object, driver: str = "maildir", inbox: object = None) -> dict[str, str]:
        """The settings by which mail is in a folder; the inbox of an mbox is beside the others or elsewhere."""
        if not self.first:
            return {"mail_location": f"{driver}:{folder}" + (f":INBOX={inbox}" if inbox else "")}
        beside = f"{folder}/inbox" if driver == "mbox" else folder
        return {"mail_driver": driver, "mail_path": str(folder), "mail_inbox_path": str(inbox or beside)}

    def options(self, folder: object, driver: str = "maildir", inbox: object = None) -> list[str]:
        """The same as options of a program of Dovecot."""
        return [f"-o{name}={value}" for name, value in self.mail_at(folder, driver, inbox).items()]


OLD = Settings(
    first="",
    server=OLD_SERVER,
    mailboxes="mail_location = mbox:~/mail:INBOX=~/inbox",
    maildirs="mail_location = maildir:~/Maildir",
    maildir="userdb_mail=maildir:~/Maildir",
    control=":CONTROL=~/control:INDEX=~/index",
    layout=":LAYOUT=fs",
    uidls="pop3_uidl_format = %08Xu%08Xv",
    digests="pop3_uidl_format = %m",
    alone=(),
)
NEW = Settings(
    first="dovecot_config_version = 2.4.0\ndovecot_storage_version = 2.4.0\n",
    server=SERVER,
    mailboxes="mail_driver = mbox\nmail_path = ~/mail\nmail_inbox_path = ~/inbox",
    maildirs="mail_driver = maildir\nmail_path = ~/Maildir\nmail_inbox_path = ~/Maildir",
    maildir="userdb_mail_path = ~/Maildir",
    control="\n    userdb_mail_control_path = ~/control\n    userdb_mail_index_path = ~/index",
    layout="\n    userdb_mailbox_list_layout = fs",
    uidls="pop3_uidl_format = %{uid | hex(8)}%{uidvalidity | hex(8)}",
    digests="pop3_uidl_format = %{md5}",
    alone=("--no-userdb-lookup",),
)


@lru_cache(maxsize=None)
def settings_here() -> Settings:
    """The settings of the Dovecot that is here, which must be there."""
    said = subprocess.run(["dovecot", "--version"], check=True, stdout=subprocess.PIPE).stdout.decode()
    return of_version(said)


def of_version(said: str) -> Settings:
    """The settings of the version that `dovecot --version` prints."""
    found = re.match(r"(\d+)\.(\d+)", said)
    assert found, f"dovecot --version: {said}"
    return NEW if (int(found[1]), int(found[2])) >= (2, 4) else OLD
