"""What the companion does on the disk whose power is cut. Ledgers on the disk, not marks, say what must be there."""
import os
import shutil
import subprocess
from collections import Counter
from collections.abc import Sequence
from contextlib import ExitStack
from pathlib import Path

from tests.support import accounts
from tests.support.ledgers import LEDGER
from tests.support.powercut.mailboxes import UNSEEN, Made, numbered, shared, tree, two
from tests.support.powercut.recording import Recorder
from tests.support.powercut.workloads import Owed, Workload

# what the lines begin with of a batch and of its end, and the place of what the first says of the mailbox
BATCH, END, KEY = "@", "=", 7
# what a line of an undone mailbox begins with, and what is said if none is done any more
UNDONE, NOTHING_OF_IT = "-", "no ledger has it"
USERS = ["mia", "nora"]


class Migrate(Workload):
    """`migrate` of one mailbox into a Maildir that it makes."""

    is_there, options = False, ()  # type: bool, tuple[str, ...]
    kills = (0.4, 0.6, 0.8, 1.0, 1.4)

    def make(self) -> Sequence[Made]:
        return two(self.mail, self.chance)[:1]

    def words(self, at: str, mailboxes: Sequence[Made]) -> list[str]:
        paths = [mailbox.path for mailbox in mailboxes]
        return [self.tools.admin, "migrate", *self.options, "--now", self.folder(at), *paths]

    def did_something(self, said: str) -> bool:
        return "done before" not in said.splitlines()[-1]

    def place(self, mailbox: Made, at: str) -> str:
        """The folder into which a mailbox goes."""
        del mailbox
        return self.folder(at)

    def ledger_of(self, mailbox: Made, at: str) -> str:
        """The path of the ledger that has a mailbox."""
        return os.path.join(self.place(mailbox, at), LEDGER)

    def all_owed(self, at: str) -> Owed:
        return [(self.place(mailbox, at), mailbox.messages) for mailbox in self.mailboxes]

    def owed(self, at: str, marks: Sequence[str]) -> Owed:
        return [
            (self.place(mailbox, at), mailbox.messages)
            for mailbox in self.mailboxes
            if os.path.getsize(mailbox.path) in sizes_of(self.ledger_of(mailbox, at))
        ]

    def dated(self, at: str, marks: Sequence[str]) -> Owed:
        return self.owed(at, marks)

    def listed(self, at: str, marks: Sequence[str]) -> list[str]:
        return [folder for folder, _ in self.owed(at, marks)] if "--dovecot" in self.options else []


def lines_of(ledger: str) -> list[list[str]]:
    """The words of the lines of a ledger."""
    try:
        with open(ledger, encoding="utf-8", errors="replace") as file:
            return [line.split("\t") for line in file.read().split("\n")[:-1]]
    except OSError:
        return []


def sizes_of(ledger: str) -> list[int]:
    """The sizes of the mailboxes whose batches have ended in a ledger."""
    lines = lines_of(ledger)
    ended = [line[1:] for line in lines if line[0] == END]
    return [int(line[KEY].split("-")[0]) for line in lines if line[0] == BATCH and line[1:2] in ended]


def words_of(ledger: str) -> list[str]:
    """The first words of the lines of a ledger."""
    return [line[0] for line in lines_of(ledger)]


def of_one(mailboxes: Sequence[Made], owed: Owed) -> Owed:
    """The same without the messages that several mailboxes have: they have the date of any."""
    counts = Counter(base for mailbox in mailboxes for base in {message.base for message in mailbox.messages})
    return [(folder, [message for message in messages if counts[message.base] == 1]) for folder, messages in owed]


class Dovecot(Migrate):
    """`migrate` of one mailbox with what Dovecot keeps."""

    options = ("--dovecot",)

    def make(self) -> Sequence[Made]:
        return [numbered(self.mail, self.chance)]


class DovecotUnseen(Dovecot):
    """The same without flags. A rename that sets them makes btrfs keep everything at the next sync of a file."""

    def make(self) -> Sequence[Made]:
        return [numbered(self.mail, self.chance, UNSEEN)]


class Broken(Migrate):
    """`migrate` that was killed some times, and goes on with what was done."""

    def record(self, recorder: Recorder) -> None:
        self.kill_some(recorder, 4)
        self.run(recorder, self.mailboxes)


class BrokenDovecot(Broken, Dovecot):
    """The same, with what Dovecot keeps."""


class Undone(Migrate):
    """`migrate --undo` of one of two mailboxes that share messages, which was killed some times."""

    kills = (0.3, 0.4, 0.5, 0.6, 0.8)

    def make(self) -> Sequence[Made]:
        return shared(self.mail, self.chance)

    def prepare(self, recorder: Recorder) -> None:
        super().prepare(recorder)
        for mailbox in self.mailboxes:
            words = [self.tools.admin, "migrate", "--again", "--now", self.folder(recorder.at), mailbox.path]
            subprocess.run(words, env=self.environment, stdout=subprocess.DEVNULL, check=True)

    def record(self, recorder: Recorder) -> None:
        self.kill_some(recorder, 3)
        recorder.mark(f"exit {self.start(recorder, self.mailboxes).wait()}")

    def words(self, at: str, mailboxes: Sequence[Made]) -> list[str]:
        return [self.tools.admin, "migrate", "--undo", "--now", self.folder(at), self.mailboxes[0].path]

    def again(self, at: str) -> tuple[int, str]:
        status, said = super().again(at)
        return 0 if NOTHING_OF_IT in said else status, said

    def did_something(self, said: str) -> bool:
        return NOTHING_OF_IT not in said

    def all_owed(self, at: str) -> Owed:
        return [(self.folder(at), self.mailboxes[1].messages)]

    def owed(self, at: str, marks: Sequence[str]) -> Owed:
        return self.all_owed(at)

    def dated(self, at: str, marks: Sequence[str]) -> Owed:
        return of_one(self.mailboxes, self.owed(at, marks))

    def all_undone(self, at: str) -> Owed:
        kept = {message.base for message in self.mailboxes[1].messages}
        return [(self.folder(at), [one for one in self.mailboxes[0].messages if one.base not in kept])]

    def undone(self, at: str) -> Owed:
        return self.all_undone(at) if UNDONE in words_of(self.ledger_of(self.mailboxes[0], at)) else []


class Tree(Migrate):
    """`migrate` of a folder of mailboxes, each into a folder of the Maildir."""

    def make(self) -> Sequence[Made]:
        return tree(self.mail, self.chance)

    def words(self, at: str, mailboxes: Sequence[Made]) -> list[str]:
        return [self.tools.admin, "migrate", *self.options, "--now", self.folder(at), self.mail]

    def place(self, mailbox: Made, at: str) -> str:
        return os.path.join(self.folder(at), f".{os.path.basename(mailbox.path)}")


class Users(Migrate):
    """`migrate --users` of a spool with the mailboxes of two users, whose homes are on the disk."""

    # those of an earlier case, until the next one has its own
    users = ExitStack()

    def make(self) -> Sequence[Made]:
        made = []
        for user, mailbox in zip(USERS, two(self.mail, self.chance)):
            path = os.path.join(self.mail, user)
            os.rename(mailbox.path, path)
            made.append(mailbox._replace(path=path))
        return made

    def prepare(self, recorder: Recorder) -> None:
        super().prepare(recorder)
        homes = {user: Path(recorder.at, "home", user) for user in USERS}
        Users.users.close()
        Users.users.enter_context(accounts.users(homes))
        for user, home in homes.items():
            home.mkdir()
            for path in (str(home), os.path.join(self.mail, user)):
                shutil.chown(path, user, user)
        os.chmod(recorder.at, 0o755)

    def words(self, at: str, mailboxes: Sequence[Made]) -> list[str]:
        return [self.tools.admin, "migrate", "--users", "--now", self.mail, *USERS]

    def place(self, mailbox: Made, at: str) -> str:
        return os.path.join(at, "home", os.path.basename(mailbox.path), "Maildir")


class Dates(Migrate):
    """`convert` of one mailbox, and then `dates`. The line of `dates` promises the dates."""

    is_there = True

    def words(self, at: str, mailboxes: Sequence[Made]) -> list[str]:
        return Workload.words(self, at, mailboxes)

    def words_of_dates(self, at: str) -> list[str]:
        """The command that sets the dates."""
        return [self.tools.admin, "dates", self.folder(at), self.mailboxes[0].path]

    def record(self, recorder: Recorder) -> None:
        self.run(recorder, self.mailboxes)
        with open(recorder.marks, "wb", buffering=0) as mark:
            subprocess.run(self.words_of_dates(recorder.at), stdout=mark, env=self.environment, check=True)

    def again(self, at: str) -> tuple[int, str]:
        status, said = super().again(at)
        ran = subprocess.run(
            self.words_of_dates(at), env={**os.environ, "TZ": "UTC"}, stdout=subprocess.PIPE, check=False
        )
        return status or ran.returncode, said

    def did_something(self, said: str) -> bool:
        return Workload.did_something(self, said)

    def owed(self, at: str, marks: Sequence[str]) -> Owed:
        return Workload.owed(self, at, marks)

    def dated(self, at: str, marks: Sequence[str]) -> Owed:
        return self.all_owed(at) if any(", dated " in mark for mark in marks) else []
