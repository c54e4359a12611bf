"""How tests run the companion and other programs: at a desk, which is a folder with the programs, as one user, to the
end or until a kill. A run has its status, what it printed, and its rows: the objects of `--json`. What is printed for
people is read by `printed`."""
import atexit
import functools
import json
import os
import pwd
import shlex
import shutil
import signal
import subprocess
import tempfile
import time
from collections.abc import Callable, Mapping, Sequence
from contextlib import ExitStack, suppress
from pathlib import Path
from typing import IO, Any, NamedTuple, Optional, Union

from tests.support.checks import LATER, PATIENCE, TOP
from tests.support.kills import Killer, Moment, settings_in
from tests.support.sound import want_sound

COMPANION = "mbox2maildir-admin"
# the owner of the mail, as whom programs run if root tests: a user that each system has
OWNER = "nobody"
# how often a run is tried again
TRIES = 100

Word = Union[str, Path]


class Row(dict[str, Any]):
    """An object of `--json`: a row, or the sums."""

    @property
    def commands(self) -> list[str]:
        """The commands that are to be run next, each as it is typed."""
        return [typed(step) for step in self["next"] if "task" not in step]

    @property
    def command(self) -> str:
        """The command that is to be run, the only one."""
        (command,) = self.commands
        return command

    @property
    def answers(self) -> dict[str, int]:
        """The commands that answer a question, each with how many messages it is to give."""
        return {typed(step): step["messages"] for step in self["next"] if step.get("messages") is not None}

    @property
    def name(self) -> str:
        """Its mailbox, behind the user to whom that belongs."""
        return " ".join(filter(None, [self.get("user"), self["path"]]))

    @property
    def remarks(self) -> list[str]:
        """The words of its remarks."""
        return [one["remark"] for one in self["remarks"]]


def typed(step: Mapping[str, Any]) -> str:
    """A command of an object of JSON, as it is typed; by root if it is another user's."""
    words = ["sh", "-c", step["shell"]] if "shell" in step else step["argv"]
    if step["user"] not in (None, "root"):
        return " ".join(map(shlex.quote, ["runuser", "-u", step["user"], "--", *words]))
    return str(step["shell"]) if "shell" in step else " ".join(map(shlex.quote, words))


class Run(NamedTuple):
    """How a run ended: its status, which is the number of a signal with a minus if it was killed, and what it printed
    on both streams."""

    status: int
    out: str
    err: str = ""

    @property
    def is_killed(self) -> bool:
        """Whether it was killed."""
        return self.status < 0

    @property
    def output(self) -> str:
        """All that it printed."""
        return self.out + self.err

    @property
    def objects(self) -> list[Row]:
        """The objects of `--json`. The last line of what was killed may be cut."""
        return [Row(json.loads(line)) for line in self.out.splitlines(True) if line[:1] == "{" and line[-1] == "\n"]

    @property
    def rows(self) -> list[Row]:
        """The rows, without the sums."""
        return [one for one in self.objects if one["type"] != "sum"]

    @property
    def row(self) -> Row:
        """The only row."""
        assert len(self.rows) == 1, f"one row is wanted: status {self.status}: {self.output}"
        return self.rows[0]

    def of(self, path: str, user: Optional[str] = None) -> Row:
        """The row of a mailbox, which may be a user's."""
        found = next((one for one in self.rows if (one["path"], one.get("user")) == (path, user)), None)
        assert found is not None, f"no row of {path}: status {self.status}: {self.output}"
        return found

    @property
    def sums(self) -> Row:
        """The sums, which come last."""
        assert self.objects and self.objects[-1]["type"] == "sum", f"no sums: status {self.status}: {self.output}"
        return self.objects[-1]


class Kill(NamedTuple):
    """When a run is killed: at the thing with this number that Python reports; before the call with this number that
    changes files or syncs them, of those of the programs that it runs; or after this many seconds, perhaps its first
    process alone."""

    event: Optional[int] = None
    call: Optional[int] = None
    seconds: Optional[float] = None
    is_alone: bool = False

    @property
    def settings(self) -> dict[str, str]:
        """The settings with which programs count their calls, if they are to."""
        return counting_settings() if self.call else {}


NEVER = Kill()
# for a run that something else may kill
BY_OTHERS = Kill(seconds=PATIENCE)


class Desk:
    """A folder in which a user runs programs, with some that come before those of the system. If root tests, the user
    is this one, if one is named."""

    def __init__(self, home: Path, programs: Optional[Path] = None, user: str = "", **settings: str) -> None:
        self.home, self.programs = home, programs or home / "bin"
        self.account = pwd.getpwnam(user) if user and not os.geteuid() else None
        # a process that counts its calls has those of its runs counted too
        counting = {name: os.environ[name] for name in ("KILLS", "LD_PRELOAD") if name in os.environ}
        path = f"{self.programs}:{os.environ['PATH']}"
        self.settings = {"PATH": path, "LC_ALL": "C.UTF-8", **counting, **settings}

    def own(self, *paths: Path) -> None:
        """Gives files to the user."""
        if self.account:
            for path in paths:
                os.chown(path, self.account.pw_uid, self.account.pw_gid)

    def command(self, words: Sequence[Word]) -> list[str]:
        """A command. If it names no program, it is one of the companion's."""
        several = list(map(str, words))
        if several[0].startswith(("/", "mbox2maildir")):
            return several
        here = self.programs / COMPANION
        return [str(here if here.exists() else TOP / "admin" / COMPANION), *several]

    def start(
        self,
        words: Sequence[Word],
        out: Union[int, IO[bytes]] = subprocess.PIPE,
        err: Union[int, IO[bytes]] = subprocess.PIPE,
        given: Union[int, IO[bytes]] = subprocess.DEVNULL,
        kill: Kill = NEVER,
    ) -> "subprocess.Popen[bytes]":
        """Starts a command, in a group of processes of its own."""
        command = self.command(words)
        how = self.how(command, {**self.settings, **kill.settings}, kill.event)
        return subprocess.Popen(
            command, cwd=self.home, stdin=given, stdout=out, stderr=err, start_new_session=True, **how, **self.rights()
        )

    def how(self, command: list[str], settings: dict[str, str], event: Optional[int]) -> dict[str, Any]:
        """How a command is started, as `subprocess` is told."""
        assert event is None, f"{command}: nothing is known of what happens in another process"
        return {"env": settings}

    def rights(self) -> dict[str, Any]:
        """Whose rights it has."""
        if not self.account:
            return {}
        return {"user": self.account.pw_uid, "group": self.account.pw_gid, "extra_groups": [self.account.pw_gid]}

    def run(
        self, words: Sequence[Word], kill: Kill = NEVER, meanwhile: Callable[[], object] = bool, given: bytes = b""
    ) -> Run:
        """Runs a command to its end, or until it is killed with all that is in its group. Meanwhile a function is
        called again and again. The companion must never die of a fault of its own, and what it says must be sound."""
        with ExitStack() as stack:
            out, err, source = (stack.enter_context(tempfile.TemporaryFile()) for _ in range(3))
            source.write(given)
            source.seek(0)
            if kill.call:
                stack.enter_context(Killer(kill.settings).at(Moment(kill.call)))
            child = self.start(words, out, err, source, kill)
            wait_for(child, kill, meanwhile)
            texts = []
            for file in (out, err):
                file.seek(0)
                texts.append(decoded(file.read()))
        ran = Run(child.returncode, *texts)
        assert kill != NEVER or not ran.is_killed, f"{words}: died of {-ran.status}: {ran.output}"
        assert ran.is_killed or "Traceback" not in ran.err, f"{words}: status {ran.status}: {ran.err}"
        if "--json" in words and not ran.is_killed:
            want_sound(ran.status, ran.objects)
        return ran

    def run_later(self, words: Sequence[Word], kill: Kill = NEVER, meanwhile: Callable[[], object] = bool) -> Run:
        """Runs a command again as long as it meets what a killed run has left at work."""
        ran = self.run(words, kill, meanwhile)
        for _ in range(TRIES):
            if ran.status != LATER:
                break
            time.sleep(0.1)
            ran = self.run(words, kill, meanwhile)
        return ran

    def in_shell(self, command: str) -> Run:
        """Runs a command as it was printed."""
        return self.run(["/bin/sh", "-c", command])


def decoded(output: bytes) -> str:
    """What a program printed, as text from which the bytes can be had again."""
    return output.decode(errors="surrogateescape")


def wait_for(child: "subprocess.Popen[bytes]", kill: Kill, meanwhile: Callable[[], object]) -> None:
    """Waits until a child has ended, or kills it after the seconds, with what is in its group or alone."""
    end = time.monotonic() + (PATIENCE if kill.seconds is None else kill.seconds)
    while child.poll() is None and time.monotonic() < end:
        meanwhile()
        time.sleep(0.0005)
    is_late = child.returncode is None
    if is_late:
        (os.kill if kill.is_alone else os.killpg)(child.pid, signal.SIGKILL)
        child.wait()
    if kill.event or kill.call or is_late and not kill.is_alone:
        wait_for_group(child.pid)


def wait_for_group(group: int) -> None:
    """Waits until nothing of a killed group is left: a process may still end a call while its parent is gone."""
    end = time.monotonic() + PATIENCE
    with suppress(ProcessLookupError):
        while time.monotonic() < end:
            os.killpg(group, 0)
            time.sleep(0.0005)


@functools.lru_cache(maxsize=None)
def counting_settings() -> dict[str, str]:
    """The settings with which the programs that a run starts count their calls."""
    folder = Path(tempfile.mkdtemp())
    folder.chmod(0o755)
    atexit.register(shutil.rmtree, folder, ignore_errors=True)
    return settings_in(folder)
