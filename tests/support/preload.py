"""Runs the program with tests/support/calls.c, which reports calls of the system, and has them fail."""
import shutil
import subprocess
from collections.abc import Sequence
from pathlib import Path
from typing import NamedTuple

from tests.support.checks import PATIENCE, TOP, program

# the year 2100 in milliseconds, long after any time of modification
LATE = 4102444800000
# what the program runs with: its calls are reported on the descriptor 3
COMMAND = 'exec env CLOCK="$0" "$@" 3>told'


class Ran(NamedTuple):
    """A run of the program: its status, what it printed, and its calls in order, as calls.c reports them."""

    status: int
    out: str
    err: str
    told: list[str]

    @property
    def calls(self) -> list[str]:
        """The calls that have a number."""
        return [call for call in self.told if not call.startswith(("close", "sleep"))]

    def begin(self, word: str) -> int:
        """How many calls are of this kind."""
        return sum(call.split()[0] == word for call in self.told)


def library(name: str, folder: Path) -> Path:
    """Makes a library for LD_PRELOAD of a C file of tests/support. The kit brings a C compiler, so none need be
    installed."""
    page = ""
    if shutil.which("rt"):
        page = subprocess.run(["rt", "doc"], stdout=subprocess.PIPE, check=False, text=True).stdout.strip()
    kits = Path(page).parent / "toolchain/bin/clang"
    compiler = str(kits) if page and kits.is_file() else shutil.which("cc") or "cc"
    made = folder / f"{name}.so"
    source = str(TOP / f"tests/support/{name}.c")
    subprocess.run([compiler, "-O1", "-fPIC", "-shared", "-nostdlib", "-o", str(made), source], check=True)
    return made


def run(words: Sequence[str], folder: Path, preloaded: Path, **settings: object) -> Ran:
    """Runs the program in a folder, with the file mbox there as its input and these settings of calls.c."""
    assigned = [f"{name}={value}" for name, value in [("LD_PRELOAD", preloaded), *settings.items()]]
    with open(folder / "mbox", "rb") as source:
        done = subprocess.run(
            ["sh", "-c", COMMAND, str(LATE), *assigned, program(), *words],
            cwd=str(folder),
            stdin=source,
            stdout=subprocess.PIPE,
            stderr=subprocess.PIPE,
            universal_newlines=True,
            # the program knows its mistake by what tests/program/mutants.py has opened for it
            close_fds=False,
            timeout=PATIENCE,
            check=False,
        )
    return Ran(done.returncode, done.stdout, done.stderr, (folder / "told").read_text(encoding="utf-8").splitlines())
