"""What is done on the disk whose power is cut: runs of the program, with or without mail readers.

The marks in the log are: `file NAME` before a run for each of its mailboxes, in their order; the program's own lines,
which it prints into the log itself; `gone BASE` before a mail reader deletes a message; `exit N` after a run.
"""
import os
import random
import signal
import subprocess
import time
from collections.abc import Iterable, Sequence
from typing import NamedTuple, Optional

from tests.support.powercut.expected import owed
from tests.support.powercut.mailboxes import Made, Message, seen, two, unseen
from tests.support.powercut.recording import Recorder

# files of other programs, by their paths below the Maildir, with their sizes
FOREIGN = {
    "new/1700000000.M1P2.host": 900,
    "cur/1700000001.M1P2.host:2,S": 5000,
    "tmp/1700000002.M1P2.host": 70,
    "dovecot.index": 300,
    "new/" + "a" * 64 + ".1x": 10,
    ".Sent/cur/1.M1.host:2,RS": 2000,
    "../outside": 40000,
}
SUBFOLDERS = ("", "tmp", "new", "cur", ".Sent", ".Sent/cur")
# how long a mail reader pauses, and after how long runs are killed, in seconds
PAUSE = 0.03

# messages that must be in a folder by then, folder by folder
Owed = list[tuple[str, Sequence[Message]]]


class Tools(NamedTuple):
    """The paths of the program, of the companion, of the disk that keeps a log, and of the library of syncs.c."""

    program: str
    admin: str
    cutdisk: str
    library: str


class Workload:
    """What all workloads have in common. `environment` is what the library of syncs.c is told, if it is loaded."""

    # the Maildir below the mount point, and whether it is there at first
    maildir, is_there = "home/Maildir", True
    # after how many seconds a run is killed
    kills = (0.02, 0.05, 0.1, 0.2, 0.3)  # type: Sequence[float]

    def __init__(self, tools: Tools, work: str, chance: random.Random, environment: Optional[dict[str, str]]) -> None:
        self.tools, self.chance = tools, chance
        self.environment = {**os.environ, "TZ": "UTC"}
        if environment:
            self.environment.update(environment, LD_PRELOAD=tools.library)
        self.mail = os.path.join(work, "mail")
        os.makedirs(self.mail)
        self.mailboxes = self.make()

    def make(self) -> Sequence[Made]:
        """Makes the mailboxes."""
        return two(self.mail, self.chance)

    def folder(self, at: str) -> str:
        """The path of the Maildir on a disk that is mounted at a place."""
        return os.path.join(at, self.maildir)

    def prepare(self, recorder: Recorder) -> None:
        """Makes what is there before the recording. It is synced then."""
        folder = self.folder(recorder.at)
        os.mkdir(os.path.join(recorder.at, "home"))
        if self.is_there:
            for sub in SUBFOLDERS:
                os.mkdir(os.path.join(folder, sub))
        for name, size in FOREIGN.items():
            path = os.path.normpath(os.path.join(folder, name))
            if os.path.isdir(os.path.dirname(path)):
                with open(path, "wb") as file:
                    file.write(b"x" * size)

    def record(self, recorder: Recorder) -> None:
        """Does what is recorded."""
        self.run(recorder, self.mailboxes)

    def words(self, at: str, mailboxes: Sequence[Made]) -> list[str]:
        """The command of a run over some mailboxes."""
        return [self.tools.program, "convert", self.folder(at), *(mailbox.path for mailbox in mailboxes)]

    def start(self, recorder: Recorder, mailboxes: Sequence[Made]) -> "subprocess.Popen[bytes]":
        """Starts a run whose lines go into the log as they are printed."""
        for mailbox in mailboxes:
            recorder.mark("file " + os.path.basename(mailbox.path))
        with open(recorder.marks, "wb", buffering=0) as mark:
            words = self.words(recorder.at, mailboxes)
            return subprocess.Popen(words, stdout=mark, env=self.environment, start_new_session=True)

    def run(self, recorder: Recorder, mailboxes: Sequence[Made]) -> None:
        """Makes a run that must end well."""
        status = self.start(recorder, mailboxes).wait()
        recorder.mark(f"exit {status}")
        if status:
            raise OSError(f"a run ended with {status}")

    def kill_some(self, recorder: Recorder, count: int) -> None:
        """Makes this many runs that are killed at any moment, with what they started."""
        for _ in range(count):
            child = self.start(recorder, self.mailboxes)
            time.sleep(self.chance.choice(self.kills) * (0.5 + self.chance.random()))
            os.killpg(child.pid, signal.SIGKILL)
            recorder.mark(f"exit {child.wait()}")
        # what they had locked is free by then
        time.sleep(PAUSE)

    def again(self, at: str) -> tuple[int, str]:
        """Makes the run on a disk after a cut. Returns its status, and what it printed."""
        os.makedirs(os.path.dirname(self.folder(at)), exist_ok=True)
        ran = subprocess.run(
            self.words(at, self.mailboxes),
            env={**os.environ, "TZ": "UTC"},
            stdout=subprocess.PIPE,
            stderr=subprocess.STDOUT,
            universal_newlines=True,
            check=False,
        )
        return ran.returncode, ran.stdout

    def did_something(self, said: str) -> bool:
        """Whether a run that had nothing to do says that it did something."""
        return said.count("placed 0,") != len(self.mailboxes)

    def all_owed(self, at: str) -> Owed:
        """What must be there after a run that ended well."""
        return [(self.folder(at), [message for mailbox in self.mailboxes for message in mailbox.messages])]

    def owed(self, at: str, marks: Sequence[str]) -> Owed:
        """What must be on a disk after these marks."""
        return [(self.folder(at), owed(self.mailboxes, marks))]

    def all_undone(self, at: str) -> Owed:
        """What is gone after a run that removes mail ended well."""
        del at
        return []

    def undone(self, at: str) -> Owed:
        """What must be gone from a disk."""
        return self.all_undone(at)

    def besides(self, at: str) -> Iterable[str]:
        """What is wrong with a mailbox on a disk."""
        del at
        return []

    def dated(self, at: str, marks: Sequence[str]) -> Owed:
        """The folders whose dates must be there."""
        del at, marks
        return []

    def listed(self, at: str, marks: Sequence[str]) -> list[str]:
        """The folders that must have Dovecot's list."""
        del at, marks
        return []


class Unseen(Workload):
    """One mailbox whose mail all goes to `new`, so that no sync of `cur` has anything to do."""

    def make(self) -> Sequence[Made]:
        return [unseen(self.mail, self.chance)]


class Seen(Workload):
    """The same with `cur`."""

    def make(self) -> Sequence[Made]:
        return [seen(self.mail, self.chance)]


class Fresh(Workload):
    """Two mailboxes that go into a Maildir that the program makes."""

    is_there = False


class Home(Workload):
    """The same, if its parent was just made and not synced."""

    maildir, is_there = "home/user/Maildir", False

    def record(self, recorder: Recorder) -> None:
        os.mkdir(os.path.join(recorder.at, "home/user"))
        self.run(recorder, self.mailboxes)


class Killed(Workload):
    """Runs that are killed at any moment, and then one that is not."""

    def record(self, recorder: Recorder) -> None:
        self.kill_some(recorder, 8)
        self.run(recorder, self.mailboxes)
