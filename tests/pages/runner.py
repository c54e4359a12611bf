"""tests/run itself, with tests that are planted: cases that do not end, signals that a shell has had ignored,
umasks and the words of make."""
import os
import re
import shutil
import signal
import subprocess
import sys
import time
from collections.abc import Callable, Iterator
from contextlib import contextmanager
from functools import partial
from pathlib import Path

from tests.support.cases import run_cases
from tests.support.checks import PATIENCE, TOP, equal, match_in, matches
from tests.support.homes import fresh_folder

# Tests of each kind. The second case begins what is in another session, and does not end; one does not heed SIGTERM.
ENDLESS = {
    "program/in_shell": """#!/bin/sh
. "$(dirname "$0")/../support/common.sh"
first() { :; }
endless() { setsid sleep 9999 & echo is at work; sleep 9999; }
last() { :; }
cases first endless last
""",
    "program/in_python.py": """
import signal, subprocess
from tests.support.cases import run_cases
def endless():
    signal.signal(signal.SIGTERM, signal.SIG_IGN)
    with subprocess.Popen(["sleep", "9999"], start_new_session=True):
        print("is at work", flush=True)
run_cases({"first": print, "endless": endless, "last": print})
""",
    "companion/units/test_unit.py": """
import time, unittest
class Test(unittest.TestCase):
    def test_1_first(self): pass
    def test_2_endless(self):
        print("is at work", flush=True)
        while True:
            time.sleep(1)
    def test_3_last(self): pass
""",
}
# Tests that fail if one of the first 31 signals is ignored or blocked. make leaves the next two, the C library's own,
# ignored, which nobody can reset. `nohup` keeps the run at work when its terminal is gone.
IGNORED = {
    "program/in_shell": r"""#!/bin/sh
. "$(dirname "$0")/../support/common.sh"
heeds() {
    is 'lists without a signal, of those that are ignored and those that are blocked' \
        "$(grep -c '^Sig\(Ign\|Blk\):.*[08]0000000$' /proc/self/status)" 2
}
loses_its_terminal() { kill -HUP $PPID; }
cases heeds loses_its_terminal heeds
""",
    "program/in_python.py": r"""
import re, subprocess
from tests.support.cases import run_cases
from tests.support.checks import equal
def heeds():
    # if SIGCHLD is ignored, each program seems to end well
    told = subprocess.run(["cat", "/proc/self/status"], check=True, stdout=subprocess.PIPE, text=True).stdout
    equal(told, re.findall(r"(?m)^Sig(Blk|Ign):.*[08]0000000$", told), ["Blk", "Ign"])
run_cases({"heeds": heeds})
""",
}
# a test that fails if what it makes has other modes than usual, or if a make hands words down to it
USUAL = {
    "program/in_shell": """#!/bin/sh
. "$(dirname "$0")/../support/common.sh"
modes() { is 'the umask' "$(umask)" 0022; }
words() { is 'the words of make' "$(env | grep '^MAKE\\|^MFLAGS')" ''; }
cases modes words
""",
}


@contextmanager
def planted(tests: dict[str, str]) -> Iterator[Path]:
    """A folder with tests/run, and these tests alone."""
    with fresh_folder() as top:
        for folder in ("pages", "companion/units", "program", "tables", "world"):
            (top / "tests" / folder).mkdir(parents=True)
        shutil.copy(str(TOP / "tests/run"), str(top / "tests"))
        (top / "tests/support").symlink_to(TOP / "tests/support")
        for name, text in tests.items():
            path = top / "tests" / name
            path.write_text(text, encoding="utf-8")
            path.chmod(0o755)
        yield top


def begun(top: Path, *words: str, prepare: Callable[[], object] = bool, **settings: str) -> "subprocess.Popen[str]":
    """Starts tests/run there. What it starts has the folder in its environment, and these settings."""
    return subprocess.Popen(  # pylint: disable=subprocess-popen-preexec-fn
        [sys.executable, "-B", str(top / "tests/run"), *words],
        env={**os.environ, **settings, "PLANTED": str(top)},
        stdin=subprocess.DEVNULL,
        stdout=subprocess.PIPE,
        stderr=subprocess.STDOUT,
        universal_newlines=True,
        preexec_fn=prepare,
    )


def at_work(top: Path) -> list[str]:
    """The commands that were started there and are at work, but for tests/run."""
    found = []
    for path in Path("/proc").glob("[0-9]*/environ"):
        try:
            is_of_it = f"PLANTED={top}\0".encode() in path.read_bytes()
            words = path.with_name("cmdline").read_bytes().decode().split("\0")
        except OSError:
            continue
        if is_of_it and str(top / "tests/run") not in words:
            found.append(" ".join(words))
    return found


def endless_cases() -> None:
    """A case that does not end in time is named, and its processes are ended. The other cases have run."""
    with planted(ENDLESS) as top:
        # on a machine that has much other work the other cases may not end in time either
        for longest in (2, 20, 200):
            with begun(top, "--jobs", "3", "--longest", str(longest)) as running:
                printed, status = running.communicate(timeout=PATIENCE)[0], running.returncode
            if "6 passed, 3 failed" in printed:
                break
        equal(f"status of\n{printed}", status, 1)
        matches("the last line", printed.splitlines()[-1], "6 passed, 3 failed")
        late = f"{longest}.00 s: it did not end, but was ended, with all that it had started"
        for name in ("in_shell:endless", "in_python:endless", "test_unit:Test.test_2_endless"):
            match_in(rf"(?m)^failed {re.escape(name)} {re.escape(late)}$", printed)
        equal("what it had printed", printed.count("is at work"), 3)
        equal("what is named of what was ended", printed.count("    sleep 9999\n"), 3)
        equal("what is at work", at_work(top), [])


def a_run_that_is_ended() -> None:
    """What ends a run ends what its tests have started."""
    for number in (signal.SIGTERM, signal.SIGINT, signal.SIGHUP):
        with planted(ENDLESS) as top, begun(top, "in_shell") as running:
            end = time.monotonic() + PATIENCE
            while at_work(top).count("sleep 9999 ") < 2:
                assert time.monotonic() < end, "nothing is at work"
                time.sleep(0.05)
            running.send_signal(number)
            printed = running.communicate(timeout=PATIENCE)[0]
            equal(f"status of\n{printed}", running.returncode, 128 + number)
            equal("what is at work", at_work(top), [])


def ignored_signals() -> None:
    """Tests have no signal ignored or blocked, whatever began the run. A run below `nohup` outlives its terminal."""
    numbers = (signal.SIGHUP, signal.SIGINT, signal.SIGQUIT, signal.SIGTERM, signal.SIGPIPE, signal.SIGCHLD)

    def ignore() -> None:
        for number in numbers:
            signal.signal(number, signal.SIG_IGN)
        signal.pthread_sigmask(signal.SIG_BLOCK, numbers)

    with planted(IGNORED) as top, begun(top, prepare=ignore) as running:
        printed = running.communicate(timeout=PATIENCE)[0]
        equal(f"status of\n{printed}", running.returncode, 0)
        matches("the last line", printed.splitlines()[-1], "4 passed, 0 failed")


def other_beginnings() -> None:
    """What tests make has the usual modes, and a make of theirs is one of its own, whatever began the run."""
    make = {"MAKEFLAGS": "k -j4 --jobserver-auth=3,4", "MFLAGS": "-k", "MAKELEVEL": "1"}
    for umask in (0o077, 0o002, 0):
        with planted(USUAL) as top, begun(top, prepare=partial(os.umask, umask), **make) as running:
            printed = running.communicate(timeout=PATIENCE)[0]
            equal(f"{umask:03o}: status of\n{printed}", running.returncode, 0)


def listed(*words: str) -> str:
    """What tests/run lists of these words, where no program is built."""
    command = [sys.executable, "-B", str(TOP / "tests/run"), "--list", *words]
    env = {**os.environ, "MBOX2MAILDIR": "/none"}
    # it does not end if a test becomes another program before it has told its cases
    return subprocess.run(command, env=env, check=True, stdout=subprocess.PIPE, text=True, timeout=PATIENCE).stdout


def the_list() -> None:
    """The list has each case of a test, and `make test` runs each test."""
    told = listed()
    names = [line for line in told.splitlines() if not line.startswith(" ")]
    for wanted in (
        "pages/runner\n    endless_cases\n",
        "\nprogram/lock\n    ",
        "\ncompanion/units/test_terminal\n    TerminalTest.",
    ):
        assert wanted in told, f"{wanted!r} is not in: {told}"
    equal("tests without a case", [name for name in names if f"{name}\n    " not in told], [])
    gate = subprocess.run(["make", "-n", "test"], cwd=TOP, check=True, stdout=subprocess.PIPE, text=True).stdout
    words = " ".join(re.findall(r"(?m)^tests/run (.+)$", gate)).split()
    equal("what make test runs", listed(*words), told)


if __name__ == "__main__":
    cases = (endless_cases, a_run_that_is_ended, ignored_signals, other_beginnings, the_list)
    run_cases({case.__name__: case for case in cases})
