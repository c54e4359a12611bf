"""Signals that end a run, whenever they come: what the run has started has ended then, nothing else is said, and the
same command goes on."""
import fcntl
import os
import signal
import subprocess
import sys
from pathlib import Path
from typing import Any

from tests.support.checks import PATIENCE, equal, without_progress, without_work
from tests.support.copies import Copies
from tests.support.homes import ADMIN, check_all, expect, fake, mailbox, run_printed, subjects
from tests.support.ledgers import RECORD
from tests.support.mail import ONE, TWO
from tests.support.processes import wait_for
from tests.support.running import BY_OTHERS, Desk

# what a run does after it has begun to handle signals, and before it has ended
FIRST, STEP = 12, 5
# a copy of the process that runs this is struck at each third module that is looked for, and at each property that gets
# its name, and tells how it ended
STRIKES = """
import _signal, functools, posix, sys
_signal.signal(_signal.SIGINT, _signal.default_int_handler)
process, own = posix.getpid(), functools.cached_property.__set_name__
def strike():
    if posix.getpid() == process:
        copy = posix.fork()
        if copy == 0:
            posix.kill(posix.getpid(), _signal.SIGINT)
        else:
            posix.write(2, b"%d " % posix.waitpid(copy, 0)[1])
class Finder:
    looks = 0
    @classmethod
    def find_spec(cls, *_):
        cls.looks += 1
        if cls.looks % 3 == 1:
            strike()
def get_name(*words):
    strike()
    own(*words)
sys.meta_path.insert(0, Finder)
functools.cached_property.__set_name__ = get_name
"""
STRUCK = "import atexit, posix, signal\natexit.register(lambda: posix.kill(posix.getpid(), signal.SIGINT))\n"
RUNS = """
sys.argv[1:] = ["kind", "box"]
exec(compile(open({0!r}).read(), {0!r}, "exec"), {{"__name__": "__main__", "__file__": {0!r}}})
"""


class Struck(Copies):
    """A desk at which the companion gets two signals at once, at the thing with this number that Python reports."""

    def __init__(self, home: Path, number: int) -> None:
        super().__init__(home)
        self.left = number

    def strike(self, *_: Any) -> None:
        """Counts things, and strikes at its time."""
        self.left -= 1
        if self.left == 0:
            mask = signal.pthread_sigmask(signal.SIG_BLOCK, [signal.SIGTERM, signal.SIGHUP])
            for number in (signal.SIGTERM, signal.SIGHUP):
                os.kill(os.getpid(), number)
            signal.pthread_sigmask(signal.SIG_SETMASK, mask)

    def main(self) -> int:
        signal.signal(signal.SIGHUP, signal.SIG_DFL)
        add: Any = getattr(sys, "addaudithook")
        add(self.strike)
        return super().main()


def at_anything(home: Path) -> None:
    """A run is struck at anything that it does. No program that it has started goes on with the lock of its record."""
    mailbox(home / "box", ONE + TWO)
    ended = []
    for number in range(FIRST, 1000, STEP):
        ran = Struck(home, number).run(["migrate", "--now", "M", "box"], BY_OTHERS)
        ended.append(ran.status)
        equal(f"{number}: {ran.output}", (ran.status in (0, 130), "Traceback" in ran.output), (True, False))
        if (home / "M" / RECORD).exists():
            with open(home / "M" / RECORD, "rb") as record:
                fcntl.flock(record, fcntl.LOCK_EX | fcntl.LOCK_NB)
        if ran.status == 0 and "interrupted" not in ran.out and ended[-3:] == [0] * 3:
            break
    equal(f"how they ended: {ended}", ended.count(130) > 5, True)
    expect("migrate --now M box", home, 0, "1 mailbox: 1 done before\n")
    equal("what is there", subjects(home / "M"), ["one", "two"])


def started_by(home: Path, code: str) -> "subprocess.CompletedProcess[bytes]":
    """How `kind` ends, run by this Python."""
    text = "import sys\n" + code + RUNS.format(str(home / "bin" / ADMIN.name))
    words = [sys.executable, "-I", "-S", "-B", "-c", text]
    return subprocess.run(words, cwd=home, check=False, stdin=subprocess.DEVNULL, capture_output=True, timeout=PATIENCE)


def as_it_starts(home: Path) -> None:
    """Ctrl-C while the starting script loads its modules ends it by the signal, and once it has begun, in order. One
    after its end changes nothing."""
    mailbox(home / "box", ONE)
    ran = started_by(home, STRIKES)
    ended = [os.waitstatus_to_exitcode(int(one)) for one in ran.stderr.split()]
    died = ended.count(-signal.SIGINT)
    equal(
        f"{ended}", (ran.returncode, died > 9, ended), (0, True, [-signal.SIGINT] * died + [130] * (len(ended) - died))
    )
    ran = started_by(home, STRUCK)
    equal("after its end", (ran.returncode, ran.stderr), (0, b""))


def at_work(home: Path, *command: str) -> "subprocess.Popen[bytes]":
    """A migration in a session of its own, whose program has made the file `at-work`."""
    child = Desk(home).start(command)
    assert wait_for((home / "at-work").exists, child), "it does not convert"
    return child


def session_ends(home: Path) -> None:
    """With `nohup` before it, a migration goes on when the session of its user ends, which tells all its processes."""
    for name, text in (("one", ONE), ("two", TWO)):
        mailbox(home / "old" / name, text)
    fake(home, f": >'{home}/at-work'; until test -e '{home}/ended'; do sleep 0.1; done; exec '{home}/real' \"$@\"")
    child = at_work(home, "/usr/bin/nohup", str(ADMIN), "migrate", "--jobs", "2", "M", "old")
    os.killpg(child.pid, signal.SIGHUP)
    (home / "ended").touch()
    out, _ = child.communicate(timeout=PATIENCE)
    equal("its end", (child.returncode, without_work(out.decode()).splitlines()[-1]), (0, "2 mailboxes: 2 done"))


def broken_off(home: Path) -> None:
    """A signal ends everything, with the sum so far, and the next run goes on. An output that fails is reported."""
    mailbox(home / "box", ONE)
    mailbox(home / "two", TWO)
    # the shell itself makes these files, since a program for that would also have the record's lock
    fake(
        home,
        f"test -e '{home}/begun' && {{ : >'{home}/at-work'; exec sleep 600; }}; "
        f": >'{home}/begun'; exec '{home}/real' \"$@\"",
    )
    for number in (signal.SIGTERM, signal.SIGINT, signal.SIGHUP):
        child = at_work(home, "migrate", "M", "box", "two")
        child.send_signal(number)
        out, err = child.communicate(timeout=PATIENCE)
        equal(
            f"{number!r}",
            (child.returncode, without_work(out.decode()).splitlines()[-1], without_progress(err.decode())),
            (130, "1 mailbox: 1 done" + " before" * (number != 15) + "; interrupted: run the same command again", ""),
        )
        (home / "at-work").unlink()
    fake(home, f"exec '{home}/real' \"$@\"")
    ran = run_printed("mbox2maildir-admin migrate M two >/dev/full", home)
    equal(
        "an output that is full",
        (ran.status, ran.err),
        (
            1,
            "mbox2maildir-admin: the output could not be written: No space "
            "left on device; what was done is in the record: run the same command again\n",
        ),
    )
    ran = run_printed("mbox2maildir-admin migrate --dry-run N two >/dev/full", home)
    equal("a rehearsal that notes nothing", (ran.status, "record" in ran.err), (1, False))
    expect("migrate --all M box two", home, 0, "2 mailboxes: 2 done before\n")
    equal("what is there", subjects(home / "M"), ["one", "two"])


if __name__ == "__main__":
    check_all(at_anything, as_it_starts, broken_off, session_ends)
