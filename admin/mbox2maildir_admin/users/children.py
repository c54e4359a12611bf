"""Processes that have only the rights of one user, keep nothing else of root's, and tell root what they do."""
import gc
import importlib
import math
import os
import resource
import signal
import sys
import time
from collections.abc import Callable, Iterable
from typing import Any, Optional

from ..faults import Left, Reason
from ..jobs.crew import BROKEN, Child, Crew, Parent
from ..maildir.folders import folder_of
from ..maildir.disk import call_of_system
from ..migration.outcomes import Observer, row_left
from ..migration.telling import LONGEST, next_of, number_of, row_of
from ..nexts import Todo, task
from ..patterns import compile_all
from ..signals import ENDING, INTERRUPTS
from ..terminal import is_text, named, shown, text_of
from .clerks import SYNC, Disks
from .homes import Relay, UserWork

# how long a child may say nothing, and how long it has after a signal, in seconds
SILENCE, GRACE = 900, 1
UNREADABLE = Left("could not read what its process reported", Reason.PROCESS, task(Todo.LOOK_AT_MAILDIR))
# the modules that a child may need; those of the package load what else it may need of both
NEEDED = (
    *("concurrent.futures.thread", "csv", "email.header", "email.utils", "encodings.utf_16", "encodings.utf_32"),
    *("tempfile", "urllib.parse", "..labels.sorting", "..migration.workers", "..readings.unpacking"),
)
# how many remarks, lines and commands a row may have
MOST = 64
# what reading a line of a child may raise
WRONG = ValueError, TypeError, AttributeError, LookupError, RecursionError, ArithmeticError
PATH = "/usr/local/sbin:/usr/local/bin:/usr/sbin:/usr/bin:/sbin:/bin"
# the folder that lists the descriptors of a process, and the highest number that one can have
DESCRIPTORS, LAST_DESCRIPTOR = "/proc/self/fd", (1 << 31) - 2
# the number of the call `keyctl`, by the machine, for programs of 64 and of 32 bits
OF_64_BITS = {"x86_64": 250, "aarch64": 219, "riscv64": 219, "loongarch64": 219, "ppc64": 271, "ppc64le": 271}
OF_64_BITS.update({"s390x": 280, "mips64": 5241})
OF_32_BITS = {"i386": 288, "i486": 288, "i586": 288, "i686": 288, "x86_64": 288, "armv7l": 311, "aarch64": 311}
JOIN_SESSION_KEYRING = 1


def load_for_children() -> None:
    """Loads what is loaded when it is needed, and what a child may need: Python may load it from where users can't
    read."""
    for name in NEEDED:
        importlib.import_module(name, __package__)
    compile_all()
    # what these load when they are called first
    folder_of("\u00e4")
    call_of_system()
    gc.freeze()


def close_all_but(kept: Iterable[int]) -> None:
    """Closes the descriptors of a process, except for its three streams and some others. If /proc is not mounted, which
    lists them, they end at the hard limit, so this must not have been lowered since they were opened."""
    try:
        last = max(map(int, os.listdir(DESCRIPTORS)))
    except OSError:
        most = resource.getrlimit(resource.RLIMIT_NOFILE)[1]
        last = LAST_DESCRIPTOR if most == resource.RLIM_INFINITY else most
    first = 3
    for number in [*sorted(kept), last + 1]:
        os.closerange(first, number)
        first = number + 1


def joining() -> Callable[[], object]:
    """Returns what a child calls while it is still root, since a user's quota of keys cannot prevent it then. A kernel
    that has no keyrings, or refuses the call, does not let the child read keys either, so that is no fault."""
    number = (OF_64_BITS if sys.maxsize > 1 << 32 else OF_32_BITS).get(os.uname().machine)
    try:
        # loaded only here, so that other commands do not wait for it, and before a child that may not read the module
        ctypes = importlib.import_module("ctypes")
        call, words = ctypes.CDLL(None).syscall, (ctypes.c_long(number or -1), JOIN_SESSION_KEYRING, None)
    except (ImportError, OSError, AttributeError):
        return lambda: None
    return lambda: call(*words)


class UsersChild(Child):
    """A child as root sees it: what it tells is only printed, and never trusted."""

    def __init__(self, user_work: UserWork) -> None:
        super().__init__()
        self.whose, self.account, self.clerk = user_work.whose(), user_work.account, user_work.clerk()
        # a system may read much to find them, and each child would do that anew. None for a name that is not UTF-8,
        # by which Python can only set them
        name = self.account.name
        self.groups = os.getgrouplist(text_of(name), self.account.gid) if is_text(name) else None
        # how many rows came, how often it told what is next, and how many rows it says it told: -1 before it ends
        self.rows, self.then, self.rows_told = 0, 0, -1
        # why it was killed, and when it must have ended, if it was told to
        self.why, self.deadline = "", math.inf

    def hear(self) -> list[bytes]:
        """Reads what it tells. Of a line that is too long, only as much is kept as shows that it is."""
        lines = super().hear()
        self.rest = self.rest[: LONGEST + 1]
        return lines

    def stop(self) -> None:
        """Has it end in order, and soon: its user may have stopped the process that it waits for."""
        self.deadline = time.monotonic() + GRACE
        super().stop()

    def kill(self, why: str = "") -> None:
        """Kills it and what it started, such as a `convert` that outlived it, and keeps the reason."""
        self.why = self.why or why
        try:
            os.killpg(self.pid, signal.SIGKILL)
        except ProcessLookupError:
            pass

    def watch(self) -> Optional[int]:
        """Kills it if its user stopped it, if it says nothing, or if it does not end in time. Its status, if it has
        ended."""
        state = os.waitid(os.P_PID, self.pid, os.WEXITED | os.WSTOPPED | os.WNOHANG | os.WNOWAIT)
        now = time.monotonic()
        if state and state.si_code == os.CLD_STOPPED:
            self.kill("its user stopped its process")
        elif state:
            # it is still in the table of processes, so that no other group can have its number
            self.kill()
            return os.waitpid(self.pid, 0)[1]
        elif now > self.deadline:
            self.kill(BROKEN)
        elif now - self.heard > SILENCE:
            self.kill("its process reported nothing for %d minutes" % (SILENCE // 60))
        return None


class Children(Crew):
    """The children of several users that are at work at the same time."""

    parent = Relay

    def __init__(self, jobs: int, observer: Observer) -> None:
        super().__init__(jobs)
        self.takes.update(at=self.take_progress, ask=self.take_question, row=self.take_row)
        self.takes.update(then=self.take_next, end=self.take_end)
        self.observer, self.join, self.disks = observer, joining(), Disks()

    def __exit__(self, kind: Optional[type[BaseException]], *rest: object) -> None:
        if kind not in (None, KeyboardInterrupt):
            # whoever took their rows takes no more
            self.observer = Observer()
        super().__exit__(kind, *rest)

    def add(self, user_work: UserWork) -> None:
        """Starts the child of a user, once fewer than as many as allowed are at work."""
        self.wait(self.jobs - 1)
        self.start(UsersChild(user_work), user_work.work)

    def wait(self, most: int = 0) -> None:
        """Waits until no more than this many are at work."""
        while len(self.children) > most:
            self.turn()

    def become(self, child: UsersChild, parent: Parent) -> None:
        """Makes this process the one of a user, with a session keyring of its own. It makes no core dump, which would
        hold mail."""
        os.setsid()
        self.join()
        nothing, account = os.open(os.devnull, os.O_RDWR), child.account
        # before descriptors are closed, since this may leave one open
        if child.groups is None:
            os.initgroups(account.name, account.gid)  # type: ignore[arg-type]
        else:
            os.setgroups(child.groups)
        for number in range(3):
            os.dup2(nothing, number)
        close_all_but({parent.told, parent.alive})
        resource.setrlimit(resource.RLIMIT_CORE, (0, 0))
        os.chdir("/")
        os.umask(0o077)
        os.setgid(account.gid)
        os.setuid(account.uid)
        name, zone = os.fsdecode(account.name), {"TZ": os.environ["TZ"]} if "TZ" in os.environ else {}
        os.environ.clear()
        os.environ.update(PATH=PATH, HOME=os.fsdecode(account.home), USER=name, LOGNAME=name, **zone)
        for number in ENDING:
            signal.signal(number, INTERRUPTS.take)

    def take(self, child: UsersChild, line: bytes) -> None:
        """Takes a line. If it can't be read, it counts as a row of something that is left."""
        try:
            if len(line) > LONGEST:
                raise ValueError("too long")
            super().take(child, line)
        except WRONG:
            child.rows += 1
            self.leave(child, UNREADABLE)

    def leave(self, child: UsersChild, why: Left) -> None:
        """Leaves something of a user."""
        self.observer.row(row_left(b"", b"", why)._replace(user=child.whose.name))

    def take_row(self, child: UsersChild, words: Any) -> None:
        """Takes what became of something of a user. Raises ValueError if it says more than a row needs."""
        if any(isinstance(one, list) and len(one) > MOST for one in words.values()):
            raise ValueError("too many")
        self.observer.row(row_of(words, child.whose))
        child.rows += 1

    def take_progress(self, child: UsersChild, who: str, doing: str, *numbers: Any) -> None:
        """Takes how far a mailbox is. Root counts users, not mailboxes."""
        del who
        self.observer.progress(named(child.whose.name), shown(doing[:80]), *map(number_of, numbers[:2]))

    def take_question(self, child: UsersChild, what: str, *words: Any) -> None:
        """Takes what a child asks root to do."""
        if what == SYNC:
            self.disks.add(child, number_of(words[0]))
            return
        if not child.clerk:
            raise ValueError("nothing to ask for")
        child.serve(child.clerk.serve, what, *words)

    def take_next(self, child: UsersChild, then: Any) -> None:
        """Takes what is to be done once all is done, of which one word counts."""
        child.then += 1
        self.observer.then += next_of(then[:MOST], b"", child.whose) if child.then == 1 else ()

    def take_end(self, child: UsersChild, rows: object) -> None:
        """Takes it that nothing follows."""
        child.rows_told = number_of(rows)

    def serve(self) -> None:
        """Syncs the disks that children wait for."""
        self.disks.sync()

    def end(self, child: UsersChild, status: int) -> None:
        """Takes out a child that has ended, and says what was wrong with its end."""
        super().end(child, status)
        if child.clerk:
            child.clerk.end()
        why = ""
        if child.why or status or child.rows_told < 0:
            why = child.why or child.why_ended(status)
        elif child.rows_told != child.rows:
            why = "its process reported %d rows, but %d arrived" % (child.rows_told, child.rows)
        if why and not (self.is_over and os.WIFEXITED(status)):
            self.leave(child, Left(why, Reason.PROCESS))
        self.observer.rest(named(child.whose.name))
        self.observer.ended(child.whose.name)
