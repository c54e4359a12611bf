"""First passes over a mailbox that changes between them, and the last one, on the disk whose power is cut. The next
pass must end as one `migrate` of the mailbox as it is then."""
import os
from collections.abc import Sequence
from pathlib import Path

from tests.support.ledgers import LEDGER
from tests.support.powercut.mailboxes import SEEN, SIZES, UNSEEN, Made, body_of, numbered, write
from tests.support.powercut.migrations import Migrate
from tests.support.powercut.recording import Recorder
from tests.support.powercut.workloads import FOREIGN, Owed

PREPARE = ("--prepare", "--unread")
# what is delivered into the Maildir before all of that
DELIVERED = "new/1700000000.M1P2.host"


class Passes(Migrate):
    """Two first passes and the last one, each of which was killed some times before."""

    # what the words of the commands are
    stages = (PREPARE, PREPARE, ())  # type: tuple[tuple[str, ...], ...]

    def __init__(self, *given: object) -> None:
        # the mailbox as it is before each command, and the words of the command that is given
        self.several, self.done = [], []  # type: list[Made], list[Made]
        self.words_now = ()  # type: tuple[str, ...]
        super().__init__(*given)  # type: ignore[arg-type]

    def make(self) -> Sequence[Made]:
        texts = self.texts()
        self.several = [write(f"{self.mail}/{number}", text, self.chance) for number, text in enumerate(texts)]
        return [self.several[-1]._replace(path=f"{self.mail}/box")]

    def texts(self) -> list[list[bytes]]:
        """The bodies that the mailbox has by and by: each loses some and gets some."""
        bodies = [body_of(max(size, SIZES[2]), self.chance, UNSEEN + SEEN) for size in 3 * SIZES]
        bodies.insert(8, bodies[3])
        return [bodies[6 * number : 6 * number + 12] for number in range(len(self.stages))]

    def change(self, made: Made) -> None:
        """Gives the mailbox what it has before a command."""
        with open(made.path, "rb") as text, open(self.mailboxes[0].path, "wb") as box:
            box.write(text.read())

    def prepare(self, recorder: Recorder) -> None:
        super().prepare(recorder)
        for sub in ("", "tmp", "new", "cur"):
            os.mkdir(os.path.join(self.folder(recorder.at), sub))
        with open(os.path.join(self.folder(recorder.at), DELIVERED), "wb") as file:
            file.write(b"x" * FOREIGN[DELIVERED])

    def words(self, at: str, mailboxes: Sequence[Made]) -> list[str]:
        path = self.mailboxes[0].path
        return [self.tools.admin, "migrate", *self.options, *self.words_now, "--now", self.folder(at), path]

    def record(self, recorder: Recorder) -> None:
        for made, self.words_now in zip(self.several, self.stages):
            self.change(made)
            self.kill_some(recorder, 2)
            self.run(recorder, self.mailboxes)

    def all_undone(self, at: str) -> Owed:
        kept = {message.base for message in self.mailboxes[0].messages}
        former = (one for made in self.several for one in made.messages if one.base not in kept)
        return [(self.folder(at), list({one.base: one for one in former}.values()))]

    def undone(self, at: str) -> Owed:
        return self.all_undone(at) if self.owed(at, []) else []


class AnotherFirst(Passes):
    """The same, but after a cut a first pass comes before the last one. It prepares nothing where the ledger has the
    end of all, whatever the record has."""

    comes_before = PREPARE  # type: tuple[str, ...]

    def again(self, at: str) -> tuple[int, str]:
        words, self.words_now, is_ended = self.words_now, self.comes_before, self.has_ended(at)
        status, said = super().again(at)
        self.words_now = words
        return (status, said) if status and not is_ended else super().again(at)

    def has_ended(self, at: str) -> bool:
        """Whether the last line of the ledger says that its last batch has ended."""
        path = Path(self.folder(at), LEDGER)
        lines = path.read_bytes().splitlines() if path.exists() else []
        return bool(lines) and lines[-1].startswith(b"=")


class PassesOfServer(Passes):
    """The same with what Dovecot keeps."""

    options = ("--dovecot",)

    def make(self) -> Sequence[Made]:
        made = numbered(self.mail, self.chance)
        self.several = [made] * len(self.stages)
        return [made._replace(path=f"{self.mail}/box")]
