"""Mailboxes of a tree that go into their folders at the same time, by runs that are killed, while their owner takes and
reads mail; perhaps on a disk that somebody fills meanwhile, again and again."""
from contextlib import ExitStack, suppress

from tests.support.accounts import are_own
from tests.support.mounts import small_disk
from tests.support.running import NEVER, Kill
from tests.worlds.deeds import read_some
from tests.worlds.history import kill_at
from tests.worlds.stage import Stage
from tests.worlds.trees import Trees

FOLDERS, JOBS = 6, "8"
FILLER = "filler"


class Crowded(Trees):
    """Such mailboxes."""

    def __init__(self, stage: Stage, seed: int) -> None:
        super().__init__(stage, seed)
        self.is_filled = are_own() and self.draw.random() < 0.5

    def begin(self) -> None:
        super(Trees, self).begin()
        for number in range(FOLDERS):
            self.make(f"mail/f{number}", 6, 16)
        self.words = ["--jobs", JOBS]
        self.own_all()

    def live(self) -> None:
        with ExitStack() as stack:
            if self.is_filled:
                stack.enter_context(small_disk(self.maildir))
                self.own_all()
            for _ in range(self.draw.randint(1, 4)):
                self.likely = self.draw.choice([0.05, 0.2])
                self.migrate(kill=self.moment() if self.draw.random() < 0.8 else NEVER)
                self.likely = 0.0
                if self.draw.random() < 0.5:
                    self.empty()
                    self.happens({read_some: 1})
            self.empty()
            self.end()

    def moment(self) -> Kill:
        """A moment of a run, at which all of it is killed, or its first process alone."""
        draw = self.draw
        if draw.random() < 0.6:
            return Kill(seconds=draw.uniform(0.1, 3), is_alone=draw.random() < 0.6)
        return kill_at(draw, 300, 300)

    def meanwhile(self) -> None:
        super().meanwhile()
        if self.is_filled and self.draw.random() < self.likely / 10:
            self.fill()

    def fill(self) -> None:
        """Somebody fills the disk up to its last block, or makes room again."""
        if (self.maildir / FILLER).exists():
            self.empty()
            return
        self.seen["a disk was filled"] += 1
        with suppress(OSError), (self.maildir / FILLER).open("wb", buffering=0) as file:
            while file.write(bytes(4096)):
                pass

    def empty(self) -> None:
        """Makes room again."""
        (self.maildir / FILLER).unlink(missing_ok=True)
