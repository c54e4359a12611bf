"""What a converter is put through: a run, a run that is killed and started again, and a full disk."""
import contextlib
import os
import random
import shutil
import signal
import subprocess
import tempfile
import time
from pathlib import Path
from typing import Iterator, List, NamedTuple, Optional

from .corpus import Corpus
from .outcome import Outcome, outcome_of
from .tools import GROUP, USER, Place, Tool

# how long a run may take, in seconds
PATIENCE = 300
FOLDERS = "new", "cur", "tmp"


class Run(NamedTuple):
    """How a command ended: its status, or None if it was killed, and how many seconds it took."""

    status: Optional[int]
    seconds: float


class Trial:
    """One converter with the mailbox in a folder of its own."""

    def __init__(self, tool: Tool, corpus: Corpus, folder: Path) -> None:
        self.tool, self.corpus = tool, corpus
        home, old = folder / "home", folder / "mail"
        self.place = Place(home, old / "inbox", folder / "Maildir")
        for path in (home, old):
            path.mkdir()
        self.place.mailbox.write_bytes(corpus.mailbox())
        if tool.wants_maildir:
            for name in FOLDERS:
                (self.place.maildir / name).mkdir(parents=True)
        if tool.drops_rights:
            for path in [folder, *folder.rglob("*")]:
                shutil.chown(str(path), USER, GROUP)

    def run(self, kill_after: Optional[float] = None) -> Run:
        """Runs the command. After this many seconds it is killed, with everything that it started."""
        command = self.tool.command(self.place)
        environment = dict(os.environ, HOME=str(self.place.home), USER="root", TERM="xterm", LC_ALL="C.UTF-8")
        begun = time.monotonic()
        with open(self.place.mailbox if self.tool.reads_stdin else os.devnull, "rb") as stdin:
            process = subprocess.Popen(
                command,
                stdin=stdin,
                stdout=subprocess.DEVNULL,
                stderr=subprocess.DEVNULL,
                env=environment,
                cwd=str(self.place.home),
                start_new_session=True,
            )
            try:
                process.wait(PATIENCE if kill_after is None else kill_after)
            except subprocess.TimeoutExpired:
                kill_session(process.pid)
                process.wait()
        status = process.returncode if process.returncode >= 0 else None
        return Run(status, time.monotonic() - begun)

    def outcome(self) -> Outcome:
        """What is in the Maildir now."""
        return outcome_of(self.place.maildir, self.corpus)


def kill_session(leader: int) -> None:
    """Kills each process of a session at once, as a power cut or an administrator's `kill -9` would."""
    for path in Path("/proc").iterdir():
        if path.name.isdigit():
            with contextlib.suppress(OSError):
                if os.getsid(int(path.name)) == leader or path.name == str(leader):
                    os.kill(int(path.name), signal.SIGKILL)


@contextlib.contextmanager
def disk(kibibytes: int) -> Iterator[Path]:
    """A file system in memory of this size."""
    folder = Path(tempfile.mkdtemp(prefix="peers-"))
    subprocess.run(["mount", "-t", "tmpfs", "-o", "size=%dk,mode=755" % kibibytes, "tmpfs", str(folder)], check=True)
    try:
        yield folder
    finally:
        subprocess.run(["umount", "-l", str(folder)], check=True)
        folder.rmdir()


class Plain(NamedTuple):
    """A run that nothing disturbs."""

    run: Run
    outcome: Outcome


def plain(tool: Tool, corpus: Corpus, kibibytes: int) -> Plain:
    """Converts the mailbox once."""
    with disk(kibibytes) as folder:
        trial = Trial(tool, corpus, folder)
        run = trial.run()
        return Plain(run, trial.outcome())


def killed(tool: Tool, corpus: Corpus, kibibytes: int, seconds: float, kills: int, seed: int) -> List[Outcome]:
    """Kills this many runs, each at a moment of its own, and gives the same words again. A run that ended before its
    moment was not killed, so another one takes its place."""
    chance, outcomes = random.Random(seed), []
    while len(outcomes) < kills:
        with disk(kibibytes) as folder:
            trial = Trial(tool, corpus, folder)
            if trial.run(kill_after=chance.uniform(0.05, 0.95) * seconds).status is None:
                trial.run()
                outcomes.append(trial.outcome())
    return outcomes


class Full(NamedTuple):
    """A run on a disk that is full half way, and the same words again once there is space."""

    status: Optional[int]
    outcome: Outcome


def full(tool: Tool, corpus: Corpus, kibibytes: int) -> Full:
    """Fills the disk up to the space that half of the mail needs."""
    with disk(kibibytes) as folder:
        trial = Trial(tool, corpus, folder)
        free = os.statvfs(str(folder)).f_bavail * os.statvfs(str(folder)).f_frsize
        ballast = folder / "ballast"
        size = max(0, free - mail_size(corpus) // 2)
        with open(str(ballast), "wb") as file:
            os.posix_fallocate(file.fileno(), 0, size)
        run = trial.run()
        ballast.unlink()
        trial.run()
        return Full(run.status, trial.outcome())


def mail_size(corpus: Corpus) -> int:
    """How many bytes the messages take on a disk with pages of 4 KiB."""
    return sum((len(message.text) + 4095) // 4096 * 4096 for message in corpus.messages)
