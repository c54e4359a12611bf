"""Copies of the repository in which tests run, each with another mistake, without seeing each other."""
import compileall
import functools
import os
import re
import shutil
import subprocess
import sys
import time
from pathlib import Path
from typing import NamedTuple, Optional

from tests.support.checks import TOP, program

PACKAGE = Path("admin/mbox2maildir_admin")
# what a test of the companion reads
COPIED = ("admin", "docs", "examples", "packaging", "tests", "CONTRIBUTING.md", "README.md", "VERSION")
# runs a process in a namespace of its own, with all that it starts, which sees no other process
ALONE = ["unshare", "--pid", "--fork", "--kill-child", "--mount-proc"]
# the folders of the tests that run the companion
FOLDERS = ("companion/units", "companion", "tables")
# the status of `timeout` for what has not ended
TIMED_OUT = 124
FAILED = re.compile(r"^(?:failed|FAIL:|ERROR:) (\S+)", re.MULTILINE)


class Ran(NamedTuple):
    """A test that was run: the case that failed, if one did, and the seconds that it took."""

    failed: Optional[str]
    seconds: float


def module_of(name: str) -> str:
    """The module of a test, empty if it is not there."""
    for folder in FOLDERS:
        if (TOP / "tests" / folder / f"{name}.py").exists():
            return ".".join(["tests", *folder.split("/"), name])
    return ""


@functools.lru_cache(maxsize=None)
def cases_of(name: str) -> list[str]:
    """The cases of a test."""
    command = [sys.executable, "-B", "-m", module_of(name), "--list"]
    return subprocess.run(command, cwd=str(TOP), check=True, stdout=subprocess.PIPE).stdout.decode().split()


class Copy:
    """A copy of what the tests of the companion read."""

    def __init__(self, folder: Path) -> None:
        self.folder, self.temporary = folder, folder / "tmp"
        self.temporary.mkdir(parents=True)
        self.temporary.chmod(0o1777)
        folder.chmod(0o755)
        for name in COPIED:
            path, ignored = TOP / name, shutil.ignore_patterns("__pycache__", ".mypy_cache")
            if path.is_dir():
                shutil.copytree(str(path), str(folder / name), ignore=ignored)
            else:
                shutil.copy(str(path), str(folder / name))
        for name in ("admin", "tests"):
            compileall.compile_dir(str(folder / name), quiet=2)

    def run(self, test: str, longest: float) -> Ran:
        """Runs a test, as `migrate`, a case of it, or a module of units, `test_dates`. One that hangs has failed."""
        name, _, case = test.partition(":")
        words = [*(["unittest", "--failfast"] if name.startswith("test_") else []), module_of(name)]
        alone = ALONE if os.getuid() == 0 and shutil.which(ALONE[0]) else []
        begun = time.monotonic()
        with subprocess.Popen(
            [
                *alone,
                "timeout",
                "--kill-after=5",
                str(longest),
                sys.executable,
                "-B",
                "-m",
                *words,
                *filter(None, [case]),
            ],
            cwd=str(self.folder),
            env={**os.environ, "MBOX2MAILDIR": os.path.abspath(program()), "TMPDIR": str(self.temporary)},
            stdin=subprocess.DEVNULL,
            stdout=subprocess.PIPE,
            stderr=subprocess.STDOUT,
            start_new_session=True,
        ) as running:
            said = running.communicate()[0].decode("utf-8", "replace")
        return Ran(wrong_of(test, running.returncode, said), time.monotonic() - begun)


def wrong_of(test: str, status: int, said: str) -> Optional[str]:
    """The case that failed, of a test that ended with a status and said this."""
    found = FAILED.search(said)
    if not status:
        return None
    if status == TIMED_OUT:
        return f"{test}: too slow"
    return f"{test.split(':')[0]}:{found[1].split(':')[-1]}" if found else f"{test}: status {status}"
