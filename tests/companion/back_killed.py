"""mbox2maildir-admin back that is killed, with all that it has started, at each call that changes files or syncs them,
or when half of it is written: the same command, given again, brings back what is missing. Meanwhile other programs may
have written into the mailboxes. In other cases a program delivers while it is at work.

EVERY_CALL says which calls are tried: each one (1), or each third one (3). Otherwise each 17th one is. BACK_SEEDS says
how many histories there are of each dialect, and BACK_FIRST the first one.
"""
import contextlib
import fcntl
import os
import time
from collections.abc import Callable, Iterator
from functools import partial
from pathlib import Path
from random import Random
from typing import IO

from tests.support.archives import Home, Kept, fresh, want
from tests.support.cases import Failed, try_all
from tests.support.kills import Killer, Moment, moments, run_with_kills
from tests.support.running import BY_OTHERS
from tests.worlds.back.histories import DIALECTS, History, text_at
from tests.worlds.back.trial import Trial, lived
from tests.worlds.letters import with_fields, written

FIRST, SEEDS = int(os.environ.get("BACK_FIRST") or 0), int(os.environ.get("BACK_SEEDS") or 1)
# how often a delivery comes while a history goes back, and the statuses of a run that met it
DELIVERIES, MET = 2, (0, 75)
MEANWHILE = "meanwhile"
# what a program delivers into a mailbox, after the end of its last line
LINE, DELIVERED = b"From d@e Tue Mar  4 09:12:44 2025", b"Message-ID: <999@example.org>\n\nmeanwhile\n"


class Killed(Kept):
    """A history, and its way back, which is killed again and again."""

    def __init__(self, history: History) -> None:
        super().__init__(history.home)
        self.history, self.killer = history, Killer(os.environ)
        self.trial, begun = Trial(history), time.monotonic()
        ran, self.calls = self.killer.run(partial(self.home.place.run, self.trial.words, BY_OTHERS))
        self.took = time.monotonic() - begun
        self.trial.check(ran)

    def killed(self, moment: Moment) -> str:
        """Kills it at a moment, and says when that was."""
        self.bring()
        killed, _ = self.killer.run(partial(self.home.place.run, self.trial.words, BY_OTHERS), moment)
        want(killed.is_killed, "it is not killed", killed)
        return f"killed before call {moment.number}, {self.calls[moment.number - 1]}, {moment}"

    def try_at(self, moment: Moment) -> None:
        """Kills it at a moment, and gives the command again."""
        with self.saying(self.killed(moment)):
            self.trial.check(self.home.place.run(self.trial.words))
            want(not self.litter(), f"left behind: {self.litter()}")
            self.trial.check(self.home.place.run(self.trial.words))

    def meet(self, moment: Moment, draw: Random) -> None:
        """Kills it at a moment. A program delivers mail then, before the command is given again."""
        with self.saying(f"{self.killed(moment)}, and mail came"):
            path, mail = self.delivery(draw)
            mail = self.ended(path) + mail
            with open(path, "ab") as file:
                file.write(mail)
            ran = self.home.place.run(self.trial.words)
            is_torn = '"torn"' in ran.output
            again = self.home.place.run(self.trial.words)
            now = text_at(path)
            want(ran.status == is_torn and again.status == 0, "status", ran, again)
            want(now.count(mail) == 1, "the mail is not there", ran)
            path.write_bytes(now.replace(mail, b""))
            if not is_torn:
                self.trial.check(ran)

    @contextlib.contextmanager
    def saying(self, when: str) -> Iterator[None]:
        """What fails meanwhile says when that was."""
        try:
            yield
        except Failed as failed:
            raise Failed(f"seed {self.history.seed}: {when}: {failed}") from failed

    def delivery(self, draw: Random) -> tuple[Path, bytes]:
        """A mailbox, and a mail as a program delivers it there. If the program that keeps flags there had not met that,
        no message would have flags by it."""
        boxes = [pair for pair in self.history.boxes.items() if (self.home.path / pair[1]).exists()]
        folder, path = draw.choice(boxes)
        dialect = self.history.dialect if path in self.history.filled else "mboxrd"
        keeper = self.history.keeper_of(folder)
        mail = with_fields(DELIVERED, keeper.fields(99, "")) if keeper else DELIVERED
        return self.home.path / path, written(LINE, mail, dialect)

    @staticmethod
    def ended(path: Path) -> bytes:
        """What ends the last line of a mailbox."""
        text = text_at(path)
        return b"\n" * (bool(text) and not text.endswith(b"\n"))

    def come(self, draw: Random) -> None:
        """A program delivers while the command is at work, under the locks that deliveries take."""
        self.bring()
        path, mail = self.delivery(draw)
        begins, wait = time.monotonic() + draw.random() * self.took, 0
        delivered: list[bytes] = []

        def meanwhile() -> None:
            if not delivered and time.monotonic() > begins:
                with contextlib.suppress(OSError), locked(path) as file:
                    delivered.append(self.ended(path) + mail)
                    file.write(delivered[0])

        ran = self.home.place.run(self.trial.words, meanwhile=meanwhile)
        want(ran.status in MET, "status, and mail came meanwhile", ran)
        while ran.status and wait < len(MET):
            ran, wait = self.home.place.run(self.trial.words), wait + 1
        text = text_at(path)
        if delivered:
            want(text.count(delivered[0]) == 1, "the mail that came meanwhile is not there once", ran)
            path.write_bytes(text.replace(delivered[0], b""))
        self.trial.check(ran)

    def litter(self) -> list[str]:
        """What a run leaves that is no mail: locks, and what was beside."""
        several = [*self.home.path.glob("**/*.lock"), *self.home.path.glob("**/.*.lock")]
        return [str(path) for path in [*several, *self.home.maildir.glob("**/mbox2maildir-back*")]]


@contextlib.contextmanager
def locked(path: Path) -> Iterator[IO[bytes]]:
    """A mailbox to which a program delivers, under its locks. Raises OSError if another program has one."""
    lock = path.with_name(path.name + ".lock")
    os.close(os.open(lock, os.O_WRONLY | os.O_CREAT | os.O_EXCL))
    try:
        with open(path, "ab") as file:
            fcntl.flock(file, fcntl.LOCK_EX | fcntl.LOCK_NB)
            fcntl.lockf(file, fcntl.LOCK_EX | fcntl.LOCK_NB)
            yield file
    finally:
        lock.unlink()


def tasks_of(home: Home, name: str) -> Iterator[Callable[[], None]]:
    """What is tried after histories of one dialect: each is killed at some calls, and mail comes then; or after those
    of any dialect mail comes meanwhile."""
    for seed in range(FIRST + 100, FIRST + 100 + SEEDS):
        draw, killed = Random(seed), Killed(lived(home, seed, "" if name == MEANWHILE else name, 12))
        if name == MEANWHILE:
            yield from [partial(killed.come, draw)] * DELIVERIES
            continue
        for moment in moments(killed.calls, f"{name}{seed}"):
            yield partial(killed.try_at, moment)
            yield partial(killed.meet, moment, draw)


def case(name: str) -> None:
    """A case: the way back after some histories."""
    with fresh() as home:
        try_all(f"{name}: {SEEDS} histories", tasks_of(home, name))


if __name__ == "__main__":
    run_with_kills("tests.companion.back_killed", {name: partial(case, name) for name in (*DIALECTS, MEANWHILE)})
