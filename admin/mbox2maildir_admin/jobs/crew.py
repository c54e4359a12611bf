"""Processes that are at work at the same time, and their parent. They tell it lines, of which it answers some; whoever
takes a line decides what it may say."""
import json
import os
import select
import signal
import time
from collections.abc import Callable
from typing import Any, NoReturn, Optional, TypeVar, Union

from ..faults import REASONS, Fault, Left
from ..mbox.files import write_all
from ..nexts import Phrase, Template
from ..signals import INTERRUPTS, blocked
from ..terminal import shown, text_of

# for how long processes are listened to at a time, and once one of them has closed its pipe, in milliseconds
TURN, SOON = 200, 5
# how often a process tells how far it is, in seconds, and how much is read at a time, in bytes
BEAT, PIECE = 0.2, 1 << 16
# how much of a fault of a process itself is printed
LONGEST_FAULT = 1 << 13
# the status of a process that was interrupted, and what is said of it
BROKEN_OFF, BROKEN = 130, "its process was interrupted"
# the signals that are blocked
Mask = set[Union[int, signal.Signals]]
Own = TypeVar("Own", bound="Crew")


def in_json(words: Any) -> bytes:
    """Words as a line has them, in JSON. A byte that is not UTF-8 is a letter that JSON escapes in the same way."""
    return json.dumps(words, ensure_ascii=False, default=plain).encode("utf-8", "backslashreplace")


def plain(value: Any) -> Any:
    """What JSON has no form for: a name, and the word of a table."""
    if isinstance(value, bytes):
        return text_of(value)
    return value.word if isinstance(value, (Phrase, Template)) else value.value


class Parent:
    """The parent as a process sees it. The process ends if its parent is gone."""

    def __init__(self, told: int, alive: int) -> None:
        """Takes the pipe by which it is told, and the one by which it answers, which lives as long as it does."""
        self.told, self.alive, self.next_time = told, alive, 0.0

    def tell(self, *words: Any) -> None:
        """Tells words, which would be lost if only a part of them were told."""
        try:
            with INTERRUPTS.held():
                write_all(self.told, in_json(words) + b"\n")
        except OSError:
            raise KeyboardInterrupt from None

    def ask(self, *words: Any) -> Any:
        """Asks for something, and waits for the answer."""
        self.tell("ask", *words)
        answer = b""
        while not answer.endswith(b"\n"):
            piece = os.read(self.alive, PIECE)
            if not piece:
                raise KeyboardInterrupt
            answer += piece
        return json.loads(answer)

    def refusal(self, *words: Any) -> Optional[Left]:
        """Has the parent do something. Why it did not; None if it did."""
        said = self.ask(*words)
        return Left(said[0], REASONS[said[1]]) if said else None

    def progress(self, who: str, doing: str, place: Optional[int] = None, size: Optional[int] = None) -> None:
        """Tells how far a mailbox is, now and then: also that it is at work, even if the words are the same as
        before."""
        now = time.monotonic()
        if now >= self.next_time:
            self.next_time = now + BEAT
            self.tell("at", who, doing, *(() if place is None else (place, size)))


class Child:
    """A process at work, as its parent sees it."""

    def __init__(self) -> None:
        # the process, and the parent's ends of two pipes, once it is started
        self.pid = self.tells = self.life = -1
        # the line that has no end yet; when it was heard last; and whether it may tell more
        self.rest, self.heard, self.is_open = b"", time.monotonic(), True
        # the fault of its own that it told
        self.fault = ""

    def hear(self) -> list[bytes]:
        """Reads what it tells, and returns the lines."""
        data = os.read(self.tells, PIECE)
        self.heard, self.is_open = time.monotonic(), bool(data)
        *lines, self.rest = (self.rest + data).split(b"\n")
        return lines

    def answer(self, *words: Any) -> None:
        """Answers it, unless it is closed. It had nothing to say while it waited, and its pipe has room for an answer.
        One that cannot be answered is stopped, since it would wait for ever."""
        self.heard = time.monotonic()
        if self.life >= 0:
            try:
                os.write(self.life, in_json(words) + b"\n")
            except OSError:
                self.stop()

    def refuse(self, fault: Fault) -> None:
        """Answers it why something was not done."""
        self.answer(str(fault), fault.reason)

    def serve(self, task: Callable[..., object], *words: Any) -> None:
        """Does what it asks for, and answers it that this is done, or why not."""
        try:
            task(*words)
        except Fault as why:
            self.refuse(why)
        else:
            self.answer()

    def watch(self) -> Optional[int]:
        """Its status, if it has ended."""
        pid, status = os.waitpid(self.pid, os.WNOHANG)
        return status if pid else None

    def why_ended(self, status: int) -> str:
        """Why it ended with this status before it had told all."""
        if os.WIFSIGNALED(status):
            return "its process was killed by signal %d" % os.WTERMSIG(status)
        if os.WEXITSTATUS(status) == BROKEN_OFF:
            return BROKEN
        return "internal error: %s" % self.fault if self.fault else "its process ended early"

    def stop(self) -> None:
        """Has it end in order."""
        os.kill(self.pid, signal.SIGTERM)

    def close(self) -> None:
        """Closes the pipes."""
        for number in (self.tells, self.life):
            os.close(number)
        # what it asked for last gets no answer
        self.life = -1


class Crew:
    """Several processes that are at work at the same time. All of them have ended in the end."""

    # as what a process sees its parent
    parent = Parent

    def __init__(self, jobs: int) -> None:
        """Takes how many are at work at most."""
        self.jobs = jobs
        # what takes the words of each line, by the first one of these
        self.takes: dict[str, Callable[..., object]] = {"failed": self.take_fault}
        # the processes, by the pipes that they tell by
        self.children: dict[int, Any] = {}
        self.poll = select.poll()
        # whether they are to end
        self.is_over = False

    def __enter__(self: Own) -> Own:
        return self

    def __exit__(self, kind: Optional[type[BaseException]], *_: object) -> None:
        with INTERRUPTS.held():
            self.is_over = True
            for child in self.children.values():
                child.stop()
            while self.children:
                self.turn()

    def start(self, child: Child, work: Callable[[Any], object]) -> None:
        """Starts a process. Until it has the mask of signals that its parent has, all of them are blocked. One that
        does not read answers keeps nobody."""
        child.tells, told = os.pipe()
        alive, child.life = os.pipe()
        os.set_blocking(child.life, False)
        with INTERRUPTS.held(), blocked() as mask:
            child.pid = os.fork()
            if not child.pid:
                self.run(child, work, self.parent(told, alive), mask)
            os.close(told)
            os.close(alive)
            self.children[child.tells] = child
            self.poll.register(child.tells, select.POLLIN)

    def run(self, child: Child, work: Callable[[Any], object], parent: Parent, mask: Mask) -> NoReturn:
        """Does the work of a process, and ends it. It sees only its own ends of its pipes."""
        status, INTERRUPTS.is_held = 1, True
        try:
            for one in (child, *self.children.values()):
                one.close()
            self.become(child, parent)
            signal.pthread_sigmask(signal.SIG_SETMASK, mask)
            with INTERRUPTS.let_through():
                work(parent)
            status = 0
        except KeyboardInterrupt:
            status = BROKEN_OFF
        except Exception as fault:  # pylint: disable=broad-except
            parent.tell("failed", repr(fault))
        finally:
            os._exit(status)

    def become(self, child: Any, parent: Parent) -> None:
        """Makes this process the child before it may be interrupted."""

    def turn(self) -> None:
        """Listens to the processes for a while, and looks after them. What they tell is taken whole."""
        self.listen(TURN if all(child.is_open for child in self.children.values()) else SOON)
        with INTERRUPTS.held():
            self.serve()
            for child in list(self.children.values()):
                status = child.watch()
                if status is not None:
                    while child.is_open and self.listen(0):
                        pass
                    self.end(child, status)

    def listen(self, wait: int) -> bool:
        """Takes what processes tell for this many milliseconds, and returns whether any did."""
        ready = self.poll.poll(wait)
        with INTERRUPTS.held():
            for number, _ in ready:
                child = self.children[number]
                for line in child.hear():
                    self.take(child, line)
                if not child.is_open:
                    self.poll.unregister(number)
        return bool(ready)

    def take(self, child: Any, line: bytes) -> None:
        """Takes a line of a process."""
        what, *words = json.loads(line)
        self.takes[what](child, *words)

    def take_fault(self, child: Any, fault: object) -> None:
        """Takes a fault of a process itself, with which it ends."""
        child.fault = shown(str(fault)[:LONGEST_FAULT])

    def serve(self) -> None:
        """Does what several processes wait for."""

    def end(self, child: Any, status: int) -> None:
        """Takes out a process that has ended."""
        del status
        if child.is_open:
            self.poll.unregister(child.tells)
        del self.children[child.tells]
        child.close()
