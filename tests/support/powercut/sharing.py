"""What the companion does with mailboxes that share messages, have grown, or of which readers have deleted mail, on the
disk whose power is cut. It notes messages in a file of each folder, and mailboxes in the record: after any cut the two
must say what the folders hold."""
import os
import re
import subprocess
from collections.abc import Sequence

from tests.support.powercut.mailboxes import SIZES, UNSEEN, Made, Message, body_of, shared, write
from tests.support.powercut.migrations import Broken, Migrate, of_one
from tests.support.powercut.recording import Recorder
from tests.support.powercut.workloads import Owed


class Overlapping(Broken):
    """`migrate` of two mailboxes that share messages, into one folder. It was killed some times."""

    def make(self) -> Sequence[Made]:
        return shared(self.mail, self.chance)

    def dated(self, at: str, marks: Sequence[str]) -> Owed:
        return of_one(self.mailboxes, self.owed(at, marks))


class Deleted(Migrate):
    """What is done before the recording, after which a mail reader has deleted some messages."""

    kills = (0.3, 0.4, 0.5, 0.6, 0.8)

    def __init__(self, *given: object) -> None:
        # what the reader deletes
        self.deleted = []  # type: list[Message]
        super().__init__(*given)  # type: ignore[arg-type]

    def prepare(self, recorder: Recorder) -> None:
        super().prepare(recorder)
        words = Migrate.words(self, recorder.at, self.mailboxes)
        subprocess.run(words, env=self.environment, stdout=subprocess.DEVNULL, check=True)
        bases = {message.base for message in self.deleted}
        for sub in ("new", "cur"):
            for name in os.listdir(os.path.join(self.folder(recorder.at), sub)):
                if name.split(":")[0] in bases:
                    os.unlink(os.path.join(self.folder(recorder.at), sub, name))
        self.change()

    def change(self) -> None:
        """Changes the mailboxes then."""

    def record(self, recorder: Recorder) -> None:
        self.kill_some(recorder, 2)
        self.run(recorder, self.mailboxes)

    def without_deleted(self, owed: Owed) -> Owed:
        """The same without what the reader has deleted."""
        bases = {message.base for message in self.deleted}
        return [(folder, [one for one in messages if one.base not in bases]) for folder, messages in owed]


class Grown(Deleted):
    """`migrate` of a mailbox that grew. What the reader deleted does not come back."""

    def make(self) -> Sequence[Made]:
        sizes = [max(size, SIZES[2]) for size in SIZES]
        first, more = ([body_of(size, self.chance, UNSEEN) for size in sizes] for _ in range(2))
        begun, self.later = (
            write(f"{self.mail}/{name}", texts, self.chance) for name, texts in (("a.mbox", first), ("later", more))
        )
        self.deleted = [*begun.messages[1:3]]
        return [begun]

    def change(self) -> None:
        (begun,) = self.mailboxes
        with open(begun.path, "ab") as file, open(self.later.path, "rb") as later:
            file.write(later.read())
        self.mailboxes = [Made(begun.path, [*begun.messages, *self.later.messages])]

    def all_owed(self, at: str) -> Owed:
        return self.without_deleted(super().all_owed(at))

    def owed(self, at: str, marks: Sequence[str]) -> Owed:
        kept = [one for one in self.mailboxes[0].messages if one not in self.later.messages]
        return self.without_deleted([*super().owed(at, marks), (self.folder(at), kept)])

    def dated(self, at: str, marks: Sequence[str]) -> Owed:
        return self.without_deleted(Migrate.owed(self, at, marks))

    def all_undone(self, at: str) -> Owed:
        return [(self.folder(at), self.deleted)]


class BroughtAgain(Deleted):
    """`migrate --again` of one of two mailboxes that share messages. What the reader deleted of it comes back."""

    def make(self) -> Sequence[Made]:
        made = shared(self.mail, self.chance)
        self.deleted = [*made[0].messages[1:4]]
        return made

    def words(self, at: str, mailboxes: Sequence[Made]) -> list[str]:
        return [self.tools.admin, "migrate", "--again", "--all", "--now", self.folder(at), self.mailboxes[0].path]

    def did_something(self, said: str) -> bool:
        return re.search(r"\bplaced \d", said) is not None

    def owed(self, at: str, marks: Sequence[str]) -> Owed:
        return self.without_deleted(self.all_owed(at))

    def dated(self, at: str, marks: Sequence[str]) -> Owed:
        return []
