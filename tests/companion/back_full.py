"""mbox2maildir-admin back onto a real disk that is full: of the mailboxes, of the Maildir, or of both. Whatever a run
could not write it says, and nothing is cut. Once there is room, the same command brings back what is missing.

BACK_SEEDS says how many histories there are of each dialect, and BACK_FIRST the first one.
"""
import os
import shutil
import subprocess
from collections.abc import Callable, Iterator
from functools import partial
from pathlib import Path

from tests.support.archives import Home, Kept, fresh, want
from tests.support.cases import Failed, run_cases, try_all
from tests.support.homes import want_users
from tests.support.mounts import mount
from tests.support.running import Run
from tests.worlds.back.histories import DIALECTS, History
from tests.worlds.back.trial import Trial, lived

SEEDS, FIRST = int(os.environ.get("BACK_SEEDS") or 2), int(os.environ.get("BACK_FIRST") or 0)
# what is on the disk, and how many of its blocks are free at first and then
DISKS, ROOMS = ("M", "mail", "."), ((0, 1), (1, 3), (2, 5), (4, 8), (7, 12))
BLOCK, SPARE, FILLER = 4096, 64, "filler"
SAID = ("no-room", "No space left on device")


class Full(Kept):
    """A history, and its way back onto a disk that is full."""

    def __init__(self, history: History) -> None:
        super().__init__(history.home)
        self.history, self.trial = history, Trial(history)
        # how often a run found a disk too full
        self.count = 0

    def bring_onto(self, disk: str) -> Path:
        """Brings the home back as it was, with one of its folders on a small disk. Returns what is mounted."""
        place = self.home.path / disk
        shutil.rmtree(self.home.path)
        place.mkdir(parents=True)
        sizes = [path.stat().st_size for path in (self.kept / disk).rglob("*")]
        blocks = SPARE + sum(size // BLOCK + 1 for size in sizes)
        mount("none", str(place), "tmpfs", options=f"size={blocks * BLOCK}")
        shutil.copytree(self.kept, self.home.path, copy_function=shutil.copy2, dirs_exist_ok=True)
        self.home.place.own(self.home.path, *self.home.path.rglob("*"))
        return place

    @staticmethod
    def fill(place: Path, room: int) -> None:
        """Leaves so many blocks of a disk free."""
        (place / FILLER).write_bytes(b"")
        state = os.statvfs(place)
        (place / FILLER).write_bytes(b"\0" * state.f_frsize * max(0, state.f_bavail - room))

    def want_nothing_cut(self, ran: Run) -> None:
        """Whatever is in the mailboxes is whole, and what is missing is said."""
        for folder, several in self.trial.added().items():
            wanted = {*self.trial.sure.get(folder.rstrip("!"), {}), *map(self.history.appended, self.trial.any_of)}
            want(set(several) <= wanted, f"{folder}: {[one for one in several if one not in wanted]}", ran)
        if ran.status == 0:
            self.trial.check(ran)
        else:
            want(any(word in ran.output for word in SAID), "unsaid", ran)

    def try_on(self, disk: str, rooms: tuple[int, int]) -> None:
        """Goes back while the disk is full, while it has some more room, and then with room enough."""
        place = self.bring_onto(disk)
        try:
            for room in rooms:
                self.fill(place, room)
                ran = self.home.place.run(self.trial.words)
                self.want_nothing_cut(ran)
                self.count += ran.status != 0
            (place / FILLER).unlink()
            # a copy of a large mailbox needs as much as that
            subprocess.run(["mount", "-o", "remount,size=256m", place], check=True)
            for _ in range(2):
                self.trial.check(self.home.place.run(self.trial.words))
            left = [str(path) for path in self.home.path.rglob("*") if "lock" in path.name or "-back" in path.name]
            left = [path for path in left if not path.endswith(("inbox-back", "sent-back", "b-back", "empty-back"))]
            want(not left, f"left behind: {left}")
        except Failed as failed:
            raise Failed(f"seed {self.history.seed}, {disk}, rooms {rooms}: {failed}") from failed
        finally:
            subprocess.run(["umount", "-l", place], check=True)


def tasks_of(home: Home, dialect: str) -> Iterator[Callable[[], None]]:
    """What is tried after histories: each of the disks, with other rooms than after the one before."""
    count = 0
    for number in range(SEEDS):
        full = Full(lived(home, FIRST + 200 + number, dialect, 14))
        for place, disk in enumerate(DISKS):
            yield partial(full.try_on, disk, ROOMS[(number + place) % len(ROOMS)])
        count += full.count
    want(count > 0, "no disk was full")


def case(dialect: str) -> None:
    """A case: the way back after histories of one dialect."""
    want_users()
    with fresh() as home:
        try_all(f"{dialect}: {SEEDS} histories", tasks_of(home, dialect))


if __name__ == "__main__":
    run_cases({name: partial(case, name) for name in DIALECTS})
