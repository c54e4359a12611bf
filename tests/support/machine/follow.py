"""Follows the pages in a machine, from the rehearsal until nothing is left, while mail arrives in each phase. What is
typed are the lines of the pages. The word says who delivers."""
import collections
import contextlib
import os
import re
import subprocess
import sys
import time
from collections.abc import Iterator
from pathlib import Path

from tests.support.checks import equal
from tests.support.dovecot.served import Shown, differences
from tests.support.machine import virtual
from tests.support.machine.letters import DOMAIN, NO_MAIL, USERS, Letters, numbers, of_then, renamed, shown
from tests.support.machine.moved import MovedList, is_refused
from tests.support.machine.page import REFERENCE, SERVER
from tests.support.machine.root import GLIBC
from tests.support.machine.servers import Machine, owner, root

# the file that holds no mail, whose user has no name of a mailbox
NOTES = "seeds: peas, beans\n"
# a mailbox of which a human decides: its second line `From ` begins no message
DOUBTED = 100_000
DOUBTFUL = f"""\
From a@host.example Mon Mar  3 09:12:44 2025
Subject: number {DOUBTED}

hello

From Tuesday on

we are here.

"""
PROCMAILRC = """\
MAILDIR=$HOME/mail
:0:
* ^Subject: number .*[05]$
lists/sheds
"""
# `x`, by a digest that is fast: there are many logins
PASSWORD = "$1$mail$HgxvIOKf2hbaCBNB2BqUs1"
# what Dovecot prints of a file that is no mailbox
HARMLESS = SERVER.span("isn't a valid mbox file")
# longer than what the page says to wait, in seconds
QUIET = 61
# the row of a mailbox that is left, or the first line of a group of them
LEFT = re.compile(r"^(?:[^ ].*: left \(([a-z-]+)\)|([a-z-]+): (\d+) mailbox(?:es)?(?: \(|: [A-Z]))", re.MULTILINE)
# a first pass over all users
PASS = SERVER.line("--prepare /var/mail")


class Follower:
    """Who follows the pages on a machine, and what users saw before."""

    def __init__(self, machine: Machine) -> None:
        self.machine = machine
        self.letters, self.list = Letters(machine.server), MovedList(machine)
        self.before = {}  # type: dict[str, Shown]
        # whose mail is in a Maildir
        self.moved = set()  # type: set[str]
        # what is left for a human to deal with: notes, and a line `From ` of a draft
        self.left = {"not-known": 1, "unclear": 1}

    def prepare(self) -> None:
        """Installs both programs, and makes users with mail, as they were for years."""
        install()
        for user in USERS:
            root(f"useradd -m -s /bin/bash -p '{PASSWORD}' {user}")
        if self.machine.way == "lmtp":
            virtual.begin(self.machine)
        self.machine.begin()
        users = [*USERS, *[virtual.NAME] * (self.machine.way == "lmtp")]
        for _ in range(8):
            self.letters.send(*users)
        self.letters.delivered()
        for user in users:
            self.letters.work(user)
        if self.machine.way == "postfix":
            Path("/home/emil/.procmailrc").write_text(PROCMAILRC, encoding="utf-8")
            owner("emil", """(umask 022 && echo '"|/usr/bin/procmail"' >~/.forward)""")
        # one of the numbers is filed by procmail
        self.arrive("cleo", *["emil"] * 5)
        for path, text in ((Path("/home/fynn/mail", NO_MAIL), NOTES), (Path("/home/gwen/mail/drafts"), DOUBTFUL)):
            path.write_text(text, encoding="utf-8")
            root(f"chown --reference {path.parent} {path}")
        self.letters.sent["gwen"][DOUBTED] += 1

    def arrive(self, *users: str) -> None:
        """Mail arrives for these users, or for all, and is delivered."""
        self.letters.send(*users)
        self.letters.delivered()

    def look(self, *users: str) -> None:
        """Notes what users see, as it is to be afterwards."""
        self.before.update((user, shown(self.machine.server, user)) for user in users)

    def as_before(self, *users: str) -> None:
        """Users see what they saw before, and each number that was sent to them once."""
        for user in users:
            now, before = shown(self.machine.server, user), self.before[user]
            before = renamed(before) if user in self.moved else before
            wrong = list(differences(before, of_then(before, now), False))
            equal(f"{user}: what differs", wrong, [])
            equal(f"{user}: the numbers of the mail", numbers(now), self.letters.sent[user])

    def rehearse(self) -> None:
        """Rehearses with all users, while mail arrives, and changes nothing."""
        self.look(*USERS)
        spool = {path: path.read_bytes() for path in Path("/var/mail").iterdir()}
        line = SERVER.line("--dry-run --now /var/mail")
        said = root(line, 1)
        equal("what a rehearsal leaves", reasons(said), self.left)
        equal("the spool after a rehearsal", {path: path.read_bytes() for path in spool}, spool)
        with self.in_the_background(line, 1):
            self.letters.send()
        self.letters.delivered()
        self.as_before(*USERS)

    @contextlib.contextmanager
    def in_the_background(self, command: str, status: int) -> Iterator[None]:
        """Runs a command of root beside what is done meanwhile."""
        with subprocess.Popen(["bash", "-c", command], cwd="/root", stdout=subprocess.PIPE, text=True) as child:
            yield
            said = child.communicate()[0]
        equal(f"{command}: {said}: status", child.returncode, status)

    def try_with_one(self) -> None:
        """Tries it with mia, into a Maildir that nobody reads. Dovecot shows it by the options of its version."""
        self.look("mia")
        root(SERVER.line("--maildir Trial"))
        old, new = SERVER.line("doveadm -o 'mail_location="), SERVER.line("doveadm -o mail_driver=")
        said = root(self.machine.of_version(old, new))
        folders = dict(re.findall(r"(?m)^(.*?) messages=(\d+)", said))
        seen = renamed(self.before["mia"])[0]
        wanted = {name.replace("/", "."): str(len(folder[2])) for name, folder in seen.items()}
        wanted["Entwürfe"] = wanted.pop("Entw&APw-rfe")
        equal("the folders of the trial", folders, wanted)
        if self.machine.is_new:
            # the line of 2.3 shows the old mailboxes
            equal("the folders by the other line", "2005.archive messages=4" in root(old), True)
        root("rm -r /home/mia/Trial")
        self.arrive()
        self.as_before("mia")

    def pass_first(self) -> None:
        """Makes first passes over all users, while mail arrives and clients work. Nobody sees that."""
        with self.in_the_background(PASS, 1):
            self.letters.send()
        self.letters.delivered()
        self.as_before(*USERS)
        for user in USERS:
            self.letters.change(user)
        self.look(*USERS)
        self.pass_once(self.left)
        self.as_before(*USERS)

    def pass_once(self, left: dict[str, int]) -> None:
        """Makes a pass, which finds the mailboxes at rest, and leaves what nobody can prepare."""
        said = root(PASS, 1)
        equal(f"what a pass leaves: {said}", reasons(said), left)
        self.arrive()

    def migrate_one(self) -> None:
        """Migrates mia alone, while all others go on."""
        self.moved.add("mia")
        self.list.make()
        self.list.close()
        self.look("mia")
        self.machine.refuse("mia")
        equal("mia's login", is_refused(self.machine, "mia"), True)
        self.machine.redirect("mia")
        self.letters.send("mia", "alva")
        root(REFERENCE.span("doveadm fetch -u mia uid mailbox"))
        time.sleep(QUIET)
        root(SERVER.line("mv /var/mail/mia /var/mail/mia.old"))
        owner("mia", SERVER.line("mv ~/mail ~/mail.old"))
        for line in (SERVER.line("migrate --dovecot --dry-run ~/Maildir"), SERVER.line("migrate --dovecot ~/Maildir")):
            said = owner("mia", line.replace("migrate ", "migrate --all ", 1))
            equal(f"what is left: {said}", reasons(said), {})
            equal("whose inbox was prepared", prepared(said), {"/var/mail/mia.old"})
            self.letters.send("mia")
        self.machine.set_separator()
        root(REFERENCE.span("doveadm reload"))
        self.list.add()
        Path("/etc/dovecot/deny-users").write_text("nobody\n", encoding="utf-8")
        self.machine.release()
        self.letters.delivered()
        self.letters.send("mia", to=f"Mia@{DOMAIN}")
        self.letters.delivered()
        self.as_before(*USERS)
        self.list.lose()
        self.as_before("mia", "alva")

    def migrate_virtual(self) -> None:
        """Migrates a user without an account, whom Dovecot knows from a file."""
        self.look(virtual.NAME)
        said = virtual.migrate()
        equal(f"what is left: {said}", reasons(said), {})
        self.letters.send(virtual.NAME)
        self.moved.add(virtual.NAME)
        root("systemctl start dovecot")
        self.machine.answers()
        self.list.add(virtual.NAME)
        self.machine.release()
        self.letters.delivered()
        self.as_before(virtual.NAME, "mia", "alva")

    def migrate_all(self) -> None:
        """Migrates all others together."""
        others = [user for user in USERS if user != "mia"]
        # mia's old mailbox is still in the spool
        self.pass_once({**self.left, "no-user": 1})
        self.as_before("mia")
        root(SERVER.line("--list /var/mail"))
        if self.machine.way != "lda":
            # which needs /var/mail open to all
            self.write_no_flags()
        self.look(*others)
        self.moved.update(others)
        self.machine.redirect_all()
        self.redirect_procmail()
        self.letters.send()
        printed = root(SERVER.line("doveadm fetch -F /root/names uid"), 65).splitlines()
        equal("what is printed but of files without mail", [line for line in printed if HARMLESS not in line], [])
        self.machine.stop()
        time.sleep(QUIET)
        self.letters.send(*others)
        root(SERVER.span("mkdir -m 711 /var/mail.alone"))
        root(SERVER.line("mkdir -m 711 /var/mail.old && mv"))
        line = SERVER.line("--dovecot /var/mail.old")
        said = root(line.replace("migrate ", "migrate --all ", 1), 1)
        equal("what is left", reasons(said), self.left)
        equal("whose inbox was prepared", prepared(said), set(others))
        self.deal_with(said, line)
        equal("folders that are only prepared", root(REFERENCE.line("find /home -name")), "")
        said = root(SERVER.line("verify --users"))
        equal(f"whether somebody is to be looked at: {said}", "not whole" in said, False)
        self.machine.set_maildirs()
        self.list.forget()
        if self.machine.way == "lmtp":
            virtual.place(self.list.fields)
        self.machine.start()
        self.machine.release()
        self.letters.delivered()
        self.as_before(*self.before)
        self.arrive(*self.before)
        self.as_before(*self.before)

    def write_no_flags(self) -> None:
        """In a folder that users may not enter, Dovecot writes no flags, which only what it prints says."""
        client = self.machine.server.client("alva", "INBOX")
        client.store("3", "+FLAGS", r"(\Flagged)")
        line = SERVER.line("doveadm fetch -F /root/names uid").replace("cd / && ", "")
        equal("whether it says so", SERVER.span("open(.) failed") in root(f"{line} || true"), True)
        client.logout()

    def redirect_procmail(self) -> None:
        """Redirects procmail where a user has it, by its rows."""
        path = Path("/home/emil/.procmailrc")
        if path.exists():
            before, recipe = REFERENCE.cells("procmail")[-1], REFERENCE.cells("procmail's recipes")[-1]
            equal("procmail's rows", ("~/.procmailrc" in before, "/.lists.sheds/" in recipe), (True, True))
            text = (
                path.read_text(encoding="utf-8")
                .replace(":0:", ":0")
                .replace("lists/sheds", "$HOME/Maildir/.lists.sheds/")
            )
            path.write_text("DEFAULT=$HOME/Maildir/\n" + text, encoding="utf-8")
            owner("emil", "(umask 077 && mkdir -p ~/Maildir/cur ~/Maildir/new ~/Maildir/tmp)")

    def deal_with(self, said: str, line: str) -> None:
        """Deals with what is left: notes hold no mail, and lines belong to the mail. Then nothing is left."""
        for command in re.findall(r"this belongs to the mail above: \d+ messages?:\n +(.*)", said):
            root(command)
        said = root(line.replace("--dovecot", f"--dovecot --no-mail mail/{NO_MAIL}"))
        equal("what is left", reasons(said), {})


def install() -> None:
    """Installs the package, or both programs as the page says of an older glibc."""
    folder = Path("/") / GLIBC
    if folder.exists():
        root(f"cd {folder}\ncp /srv/release/*-linux-* .\n{REFERENCE.block('dpkg-deb -x libc6_')}")
    else:
        root("apt-get -qy install /srv/release/mbox2maildir_*.deb")


def reasons(said: str) -> dict[str, int]:
    """How many mailboxes are left for each reason, by their rows and by the groups of the last block."""
    found = collections.Counter[str]()
    for row, group, number in LEFT.findall(said):
        found[row or group] += int(number or 1)
    return dict(found)


def prepared(said: str) -> set[str]:
    """The names of those of whose inboxes some messages were prepared before."""
    return set(re.findall(r"(?m)^(\S+) -> INBOX: .*, \d+ prepared before", said))


def main() -> None:
    """Follows the pages."""
    os.umask(0o022)
    follower = Follower(Machine(sys.argv[1]))
    for step in (
        follower.prepare,
        follower.rehearse,
        follower.try_with_one,
        follower.pass_first,
        follower.migrate_one,
        *[follower.migrate_virtual] * (follower.machine.way == "lmtp"),
        follower.migrate_all,
    ):
        begun = time.monotonic()
        step()
        print(f"{step.__name__}: {follower.letters.count} messages, {time.monotonic() - begun:.0f} s", flush=True)


if __name__ == "__main__":
    main()
