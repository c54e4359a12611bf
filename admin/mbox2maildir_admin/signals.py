"""Signals that end this program, and programs that it runs: none of them keeps running, whenever a signal comes.

The first signal interrupts what is at work, as Ctrl-C does. Later ones are only noted, so that they do not interrupt
what is ending in order.
"""
import contextlib
import os
import signal
import subprocess
from collections.abc import Iterator, Sequence
from types import FrameType
from typing import Any, Optional, Union

Process = subprocess.Popen[bytes]

# the signals that end a program, except those that no program sees, and those of its own errors
NAMES = "HUP INT QUIT TERM ALRM VTALRM PROF USR1 USR2 XCPU PWR POLL STKFLT"
ENDING = [getattr(signal, "SIG" + name) for name in NAMES.split() if hasattr(signal, "SIG" + name)]
# the file of the code that loads modules, and when a signal that came meanwhile comes again, in seconds
LOADER, SOON = "<frozen importlib._bootstrap>", 0.0001


class Interrupts:
    """Whether a signal interrupts what is at work, or is held until that may be interrupted."""

    def __init__(self) -> None:
        self.is_held, self.has_come = True, False
        # the program that was started last: it is dropped once signals are held again, since a signal in its __del__
        # would be lost
        self.last: Optional[Process] = None

    def take(self, _: int, frame: Optional[FrameType]) -> None:
        """Takes a signal. While modules are loaded it waits: there Python drops what is raised in callbacks, and makes
        another error of it in classes."""
        self.has_come = True
        if not self.is_held and is_loading(frame):
            signal.setitimer(signal.ITIMER_REAL, SOON)
        elif not self.is_held:
            self.is_held = True
            raise KeyboardInterrupt

    def release(self) -> None:
        """Lets signals interrupt from here on. A signal that was held interrupts now."""
        self.is_held = False
        if self.has_come:
            self.is_held = True
            raise KeyboardInterrupt

    @contextlib.contextmanager
    def held(self) -> Iterator[None]:
        """Holds signals: what is in here is not interrupted."""
        before, self.is_held = self.is_held, True
        try:
            yield
        finally:
            if not before:
                self.release()

    @contextlib.contextmanager
    def let_through(self) -> Iterator[None]:
        """Lets signals through: what is in here may be interrupted, though what is around it may not."""
        self.release()
        try:
            yield
        finally:
            self.is_held = True


def is_loading(frame: Optional[FrameType]) -> bool:
    """Whether a module is loaded at a moment."""
    while frame and frame.f_code.co_filename != LOADER:
        frame = frame.f_back
    return frame is not None


INTERRUPTS = Interrupts()


def end_in_order() -> None:
    """Makes signals end this program in order, as Ctrl-C does, unless whoever started it ignores them."""
    for number in ENDING:
        if signal.getsignal(number) != signal.SIG_IGN:
            signal.signal(number, INTERRUPTS.take)
    # if this signal is ignored, nobody learns how a program ended
    signal.signal(signal.SIGCHLD, signal.SIG_DFL)


@contextlib.contextmanager
def blocked() -> "Iterator[set[Union[int, signal.Signals]]]":
    """Blocks signals, and gives the mask from before. A signal to a copy of this process waits in that copy."""
    before = signal.pthread_sigmask(signal.SIG_BLOCK, ())
    try:
        signal.pthread_sigmask(signal.SIG_BLOCK, ENDING)
        yield before
    finally:
        signal.pthread_sigmask(signal.SIG_SETMASK, before)


@contextlib.contextmanager
def running(words: Sequence[bytes], **settings: Any) -> Iterator[Process]:
    """Runs a program, which has ended when this ends. Signals are held until then; what takes long lets them through.
    The program is in this one's process group, so that both are ended or stopped together."""
    with INTERRUPTS.held():
        child = INTERRUPTS.last = subprocess.Popen(words, **settings)
        try:
            yield child
        finally:
            # a program that has ended keeps its status
            child.kill()
            child.wait()
            for stream in filter(None, (child.stdout, child.stderr)):
                stream.close()


def failure_of(child: Process) -> str:
    """Waits for the end of a program, and returns how it failed, or nothing. The process stays in the table of
    processes, so that a signal that comes meanwhile cannot lose its end."""
    end = os.waitid(os.P_PID, child.pid, os.WEXITED | os.WNOWAIT)
    how = "ended with status %d" if end.si_code == os.CLD_EXITED else "was killed by signal %d"
    return how % end.si_status if end.si_status else ""
