"""Programs on a terminal of their own, where keys are typed."""
import os
import pty
import pwd
import select
import signal
import time
from collections.abc import Sequence
from pathlib import Path
from typing import Optional

from tests.support.checks import PATIENCE

# what comes before each line that overwrites another one
REWRITTEN = "\r\x1b[K"


class Terminal:
    """A program in the foreground of a terminal. What it prints is read as a human sees it in the end."""

    def __init__(
        self, words: Sequence[str], home: Path, user: Optional[pwd.struct_passwd] = None, **settings: str
    ) -> None:
        self.child, self.number = pty.fork()
        if not self.child:
            os.chdir(home)
            if user:
                os.setgroups([user.pw_gid])
                os.setgid(user.pw_gid)
                os.setuid(user.pw_uid)
            os.execvpe(words[0], [*words], {**os.environ, "TERM": "dumb", "LC_ALL": "C.UTF-8", **settings})
        self.printed = b""
        self.is_waited_for = False

    def __enter__(self) -> "Terminal":
        return self

    def __exit__(self, *_: object) -> None:
        os.close(self.number)
        if not self.is_waited_for:
            os.kill(self.child, signal.SIGKILL)
            os.waitpid(self.child, 0)

    def type(self, keys: str) -> None:
        """Types keys."""
        os.write(self.number, keys.encode())

    def until(self, text: str) -> str:
        """What is printed up to a text, with that."""
        end = time.monotonic() + PATIENCE
        while text.encode() not in self.printed:
            assert self.reads_more(end), f"{text!r} does not come, but {self.printed.decode()!r}"
        size = self.printed.index(text.encode()) + len(text.encode())
        said, self.printed = self.printed[:size], self.printed[size:]
        return seen(said)

    def reads_more(self, end: float) -> bool:
        """Reads more of what is printed, and returns whether anything came until then."""
        if not select.select([self.number], [], [], max(0.0, end - time.monotonic()))[0]:
            return False
        try:
            piece = os.read(self.number, 1 << 16)
        except OSError:
            # nobody has the terminal open any more
            return False
        self.printed = (self.printed + piece).replace(b"\r\n", b"\n")
        return bool(piece)

    def end(self) -> tuple[int, str]:
        """Waits until the program ends. Returns its status, and what it printed since."""
        end = time.monotonic() + PATIENCE
        while self.reads_more(end):
            pass
        assert time.monotonic() < end, f"it does not end, but prints {self.printed.decode()!r}"
        self.is_waited_for = True
        status = os.waitstatus_to_exitcode(os.waitpid(self.child, 0)[1])
        return status, seen(self.printed)


def seen(printed: bytes) -> str:
    """What a human sees of what was printed: of a line that was overwritten, only the last one."""
    lines = printed.decode("utf-8", "surrogateescape").split("\n")
    return "\n".join(line.split(REWRITTEN)[-1] for line in lines)
