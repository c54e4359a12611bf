"""What other programs and other file systems do before a sync: mail that is copied into the Maildir and not synced, and
file systems over the disk that say that a folder was synced, and do not pass that on."""
import copy
import os
import shutil
from collections.abc import Sequence

from tests.support.cases import LeftOut
from tests.support.powercut.devices import run, unmount
from tests.support.powercut.migrations import Migrate
from tests.support.powercut.recording import Recorder
from tests.support.powercut.workloads import Unseen, Workload


def restore(workload: Workload, at: str) -> None:
    """Copies the mail of all mailboxes into the Maildir, as from a backup."""
    backup = os.path.join(workload.mail, "backup")
    run([workload.tools.program, "convert", backup, *(mailbox.path for mailbox in workload.mailboxes)])
    for sub in ("new", "cur"):
        for name in os.listdir(os.path.join(backup, sub)):
            shutil.copy(os.path.join(backup, sub, name), os.path.join(workload.folder(at), sub))


class Restored(Unseen):
    """A run over a mailbox whose mail another program has just copied into the Maildir."""

    def record(self, recorder: Recorder) -> None:
        restore(self, recorder.at)
        self.run(recorder, self.mailboxes)


class RestoredSynced(Unseen):
    """The same, if what was copied is synced before the run."""

    def record(self, recorder: Recorder) -> None:
        restore(self, recorder.at)
        run(["sync", "-f", self.folder(recorder.at)])
        self.run(recorder, self.mailboxes)


class RestoredMigrated(Migrate):
    """The same by `migrate`, which syncs the disk before it records the mailbox as done."""

    is_there = True

    def record(self, recorder: Recorder) -> None:
        restore(self, recorder.at)
        self.run(recorder, self.mailboxes)


class OnBindfs(Workload):
    """A run on bindfs over the disk. Its server has no sync of folders."""

    def mount(self, below: str, over: str) -> Sequence[str]:
        """The command that mounts the file system over a folder of the disk."""
        return ["bindfs", below, over]

    def record(self, recorder: Recorder) -> None:
        above = copy.copy(recorder)
        above.at = os.path.join(self.mail, "above")
        over = os.path.join(above.at, "home")
        os.makedirs(over)
        words = self.mount(os.path.join(recorder.at, "home"), over)
        if not shutil.which(words[0]):
            raise LeftOut(f"{words[0]} is not here")
        run(words)
        try:
            self.run(above, self.mailboxes)
        finally:
            unmount(over)


class OnMergerfs(OnBindfs):
    """The same on mergerfs."""

    def mount(self, below: str, over: str) -> Sequence[str]:
        return ["mergerfs", "-o", "minfreespace=0", below, over]


class MigratedOnBindfs(OnBindfs, Migrate):
    """`migrate` there, if any disk will do."""

    options = ("--any-disk",)


class OnOverlay(OnBindfs):
    """The same on an overlayfs whose upper folder is on the disk."""

    given = ()  # type: tuple[str, ...]

    def mount(self, below: str, over: str) -> Sequence[str]:
        disk = os.path.dirname(below)
        for name in ("lower", "scratch"):
            os.mkdir(os.path.join(disk, name))
        layers = [f"lowerdir={disk}/lower", f"upperdir={below}", f"workdir={disk}/scratch"]
        return ["mount", "-t", "overlay", "overlay", "-o", ",".join([*self.given, *layers]), over]


class OnVolatile(OnOverlay):
    """The same if it is mounted volatile, so that it leaves out all syncs."""

    given = ("volatile",)
