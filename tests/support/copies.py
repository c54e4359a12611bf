"""The companion in copies of this process, which has loaded it already: they take less time than processes of their
own, and can be killed at anything that Python reports."""
import importlib
import os
import re
import signal
import sys
import time
import traceback
from collections.abc import Callable
from functools import lru_cache, partial
from pathlib import Path
from typing import Any, Optional

import mbox2maildir_admin
from mbox2maildir_admin import cli
from mbox2maildir_admin.flags.clients import labels_in
from mbox2maildir_admin.maildir.folders import folder_of
from mbox2maildir_admin.users.children import load_for_children
from mbox2maildir_admin.version import version

from tests.support.running import COMPANION, Desk


class Copies(Desk):
    """A desk at which the companion runs so."""

    def __init__(self, home: Path, programs: Optional[Path] = None, user: str = "", **settings: str) -> None:
        super().__init__(home, programs, user, **settings)
        load_companion()

    def how(self, command: list[str], settings: dict[str, str], event: Optional[int]) -> dict[str, Any]:
        if Path(command[0]).name != COMPANION:
            return super().how(command, settings, event)
        # a Python that begins ignores SIGPIPE too
        return {"preexec_fn": partial(self.become, command, settings, event), "restore_signals": False}

    def become(self, command: list[str], settings: dict[str, str], event: Optional[int]) -> None:
        """Runs the companion in this process, which ends with it."""
        status = 1
        try:
            # the parent waits until none of its pipes is open here
            os.closerange(3, 1 + max(map(int, os.listdir("/proc/self/fd"))))
            os.environ.clear()
            os.environ.update(settings)
            time.tzset()
            signal.signal(signal.SIGTERM, signal.SIG_DFL)
            sys.argv = command
            sys.stdout, sys.stderr = (open(number, "w", encoding="utf-8") for number in (1, 2))
            if event is not None:
                die_at(event)
            status = self.main()
            sys.stdout.flush()
        except SystemExit as over:
            status = over.code if isinstance(over.code, int) else 1
        except Exception:  # pylint: disable=broad-exception-caught  # it is printed as Python prints it
            traceback.print_exc()
        finally:
            sys.stderr.flush()
            os._exit(status)

    def main(self) -> int:
        """What is run in the copy."""
        return cli.main()


class Meanwhile(Copies):
    """A desk at which something happens, as another program or a person does it, just before the companion does a thing
    that Python reports, by its name, such as `os.remove`, to a path that matches a pattern; each time, or so often."""

    def __init__(self, home: Path, thing: str, pattern: str, deed: Callable[[Path], object], often: int = 1) -> None:
        super().__init__(home)
        self.thing, self.pattern, self.deed, self.often = thing, pattern, deed, often

    def heed(self, name: str, words: tuple[Any, ...]) -> None:
        """Does it at its time."""
        if name == self.thing and self.often and not isinstance(words[0], int):
            path = os.path.join(self.home, os.fsdecode(words[0]))
            if re.search(self.pattern, path):
                number, self.often = self.often, 0
                self.deed(Path(path))
                self.often = number - 1

    def main(self) -> int:
        add: Any = getattr(sys, "addaudithook")
        add(self.heed)
        return super().main()


@lru_cache(maxsize=None)
def load_companion() -> None:
    """Loads all modules of the companion, and what these load of Python's only where they need it, before a copy
    becomes another user, who may not read what Python has here."""
    package = Path(mbox2maildir_admin.__path__[0])
    for module in package.glob("**/[!_]*.py"):
        importlib.import_module(".".join(module.relative_to(package.parent).with_suffix("").parts))
    load_for_children()
    version()
    folder_of((labels_in(b"=?UTF-8?Q?=C3=BC?=") or [""])[0])


def die_at(event: int) -> None:
    """Kills this process and what it runs at the thing with this number that Python reports: files that are opened,
    listed, renamed and removed, programs that are run; and what is written or synced, before and after that."""
    seen = [0]

    def count(name: str, _: Any) -> None:
        if name.startswith(("os.", "open", "subprocess.", "shutil.", "fcntl.")):
            seen[0] += 1
            if seen[0] == event:
                os.killpg(0, signal.SIGKILL)

    def counted(call: Callable[..., Any]) -> Callable[..., Any]:
        def run(*words: Any) -> Any:
            count("os.", None)
            result = call(*words)
            count("os.", None)
            return result

        return run

    os.write, os.fsync = counted(os.write), counted(os.fsync)
    add: Any = getattr(sys, "addaudithook")
    add(count)
