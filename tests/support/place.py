"""The folder of a world, in which the companion is run as the owner of the mail, or as root for users."""
import os
import shutil
import subprocess
import time
from pathlib import Path

from tests.support.copies import Copies
from tests.support.running import OWNER

# the verdicts of mailboxes with which nothing is left to do
ENDED = ("done", "done before", "undone", "no mail")


class Place(Copies):
    """Such a folder, which is emptied for each world."""

    def __init__(self, home: Path, programs: Path) -> None:
        super().__init__(home, programs, OWNER, TZ="UTC")
        self.owner = self.account

    def clear(self, is_for_users: bool = False) -> None:
        """Begins with an empty folder, in which its owner is at work, or root for users."""
        if os.geteuid():
            # it may have folders that cannot be entered
            subprocess.run(["chmod", "-R", "u+rwx", self.home], check=False, stderr=subprocess.DEVNULL)
        shutil.rmtree(self.home, ignore_errors=True)
        self.home.mkdir()
        self.account = None if is_for_users else self.owner
        self.own(self.home)

    def write(self, name: str, text: bytes) -> Path:
        """Writes a mailbox that was left alone for a while."""
        path = self.home / name
        if not path.parent.exists():
            path.parent.mkdir(parents=True)
            self.own(path.parent)
        path.write_bytes(text)
        os.utime(path, (time.time() - 3600,) * 2)
        self.own(path)
        return path

    def mail(self, maildir: str = "M") -> tuple[bytes, ...]:
        """The files of a Maildir, by their bytes alone."""
        there = [path for sub in ("new", "cur") for path in (self.home / maildir / sub).glob("*")]
        return tuple(sorted(path.read_bytes() for path in there))
