"""File systems that say that a folder was synced, and do not pass that on: what reaches their servers, and what
`migrate` does there. Each is mounted for this, in mounts of this process alone. One that is not here is left out."""
import contextlib
import os
import re
import shutil
import subprocess
import sys
import time
from collections.abc import Iterator, Sequence
from pathlib import Path

from tests.support.cases import LeftOut
from tests.support.checks import PATIENCE, TOP, equal, program
from tests.support.homes import by_json, check_all, expect, mailbox, run, want_root
from tests.support.mail import ONE
from tests.support.powercut.devices import run as run_tool
from tests.support.powercut.devices import unmount

CUT = "a power cut could take its mail away: "
ROW = "box -> INBOX: mboxrd or mboxo, messages 1: "
BELOW = "name the Maildir by its path on the file system below, or add --any-disk"
# a call that reached the server of a FUSE file system, in the log of its library, and the answer to it
SYNC = re.compile(r"unique: (\d+), opcode: (FSYNC|FSYNCDIR) ")
ANSWER = r"unique: %s, (?:error: (-\d+)|success)"
NO_CALL = "-38"
ASSUMPTIONS = TOP / "tests/support/assumptions.py"


def want_mounts(tool: str) -> None:
    """Leaves a case out where nothing can be mounted by this tool."""
    want_root()
    if not os.path.exists("/dev/fuse"):
        raise LeftOut("/dev/fuse is not here")
    if not shutil.which(tool):
        raise LeftOut(f"{tool} is not here")


@contextlib.contextmanager
def mounted(at: Path, words: Sequence[str]) -> Iterator[None]:
    """Mounts a file system at a folder by a command."""
    want_mounts(words[0])
    at.mkdir()
    try:
        run_tool(words)
    except OSError as fault:
        raise LeftOut(str(fault)) from fault
    try:
        yield
    finally:
        unmount(str(at))


def below(home: Path) -> Path:
    """The folder that a file system shows."""
    folder = home / "below"
    folder.mkdir()
    return folder


def layers(home: Path) -> str:
    """The layers of an overlay whose upper folder is on a disk of its own, since /tmp may be an overlay itself."""
    want_mounts("mount")
    disk = below(home)
    run_tool(["mount", "-t", "tmpfs", "tmpfs", str(disk)])
    for name in ("low", "up", "scratch"):
        (disk / name).mkdir()
    return f"lowerdir={disk}/low,upperdir={disk}/up,workdir={disk}/scratch"


def is_left(home: Path, why: str, instead: str) -> None:
    """A mailbox is left on a disk, by a rehearsal too, and migrated if any disk will do. Its row says why."""
    mailbox(home / "box", ONE)
    for option in ("--dry-run", "--now"):
        row = f"{ROW}left (no-sync): {CUT}{why}\n    {instead}\n1 mailbox: 1 left\n"
        expect(["migrate", "--all", option, "disk/M", "box"], home, 1, row)
    equal("whether a Maildir was made", (home / "disk/M").exists(), False)
    its = by_json("migrate --dry-run --any-disk disk/M box", home).row
    equal("its words", its.remarks, ["power-cut"])
    expect("migrate --all --any-disk disk/M box", home, 0, f"{ROW}done, {CUT}{why}\n1 mailbox: 1 done\n")


def bindfs(home: Path) -> None:
    """What is assumed of it is not known either, though each call answers Ok."""
    with mounted(home / "disk", ["bindfs", str(below(home)), str(home / "disk")]):
        is_left(home, "bindfs does not pass on the sync of a folder", BELOW)
        status, out, _ = run([sys.executable, "-B", ASSUMPTIONS, "disk"], home)
    says = [line for line in out.splitlines() if "can be synced" in line]
    equal("what is assumed of syncs", [line.startswith("assumptions: NOT KNOWN: ") for line in says], [True])
    equal("assumptions: status", status, 1)


def part_of_bindfs(home: Path) -> None:
    """A folder of it that is mounted elsewhere once more."""
    shown = below(home)
    (shown / "part").mkdir()
    with mounted(home / "whole", ["bindfs", str(shown), str(home / "whole")]):
        with mounted(home / "disk", ["mount", "--bind", str(home / "whole/part"), str(home / "disk")]):
            is_left(home, "bindfs does not pass on the sync of a folder", BELOW)


def mergerfs(home: Path) -> None:
    """A common pool of disks."""
    with mounted(home / "disk", ["mergerfs", "-o", "minfreespace=0", str(below(home)), str(home / "disk")]):
        is_left(home, "mergerfs does not pass on the sync of a folder", BELOW)


def volatile(home: Path) -> None:
    """An overlayfs that leaves out all syncs."""
    words = ["mount", "-t", "overlay", "overlay", "-o", f"volatile,{layers(home)}", str(home / "disk")]
    with mounted(home / "disk", words):
        is_left(home, "overlayfs is mounted volatile", "mount it without this option, or add --any-disk")


def overlay(home: Path) -> None:
    """One that syncs."""
    mailbox(home / "box", ONE)
    with mounted(home / "disk", ["mount", "-t", "overlay", "overlay", "-o", layers(home), str(home / "disk")]):
        expect("migrate --all disk/M box", home, 0, f"{ROW}done\n1 mailbox: 1 done\n")


def not_tried(home: Path) -> None:
    """The row of a FUSE file system that nobody tried says so."""
    mailbox(home / "box", ONE)
    with mounted(home / "disk", ["fuse-overlayfs", "-o", layers(home), str(home / "disk")]):
        says = f"{CUT}fuse.fuse-overlayfs was not tried"
        row = f"{ROW}would be done, {says}\n1 mailbox: 1 would be done\n"
        expect("migrate --all --dry-run disk/M box", home, 0, row)
        expect("migrate --all disk/M box", home, 0, f"{ROW}done, {says}\n1 mailbox: 1 done\n")


@contextlib.contextmanager
def logged(shown: Path, at: Path, log: Path) -> Iterator[None]:
    """Mounts bindfs with a log of what reaches its server."""
    want_mounts("bindfs")
    at.mkdir()
    with open(str(log), "wb") as file:
        with subprocess.Popen(["bindfs", "-d", str(shown), str(at)], stdout=file, stderr=file) as server:
            try:
                until = time.monotonic() + PATIENCE
                while not os.path.ismount(str(at)):
                    if server.poll() is not None or time.monotonic() > until:
                        raise LeftOut("bindfs does not mount here")
                    time.sleep(0.02)
                yield
            finally:
                unmount(str(at))


def syncs_in(text: str) -> list[str]:
    """The syncs of a log, each with the error that was answered."""
    found = []
    for number, call in SYNC.findall(text):
        answer = re.search(ANSWER % number, text)
        found.append(f"{call} {answer.group(1) if answer else None}")
    return found


def what_reaches_the_server(home: Path) -> None:
    """All syncs of folders answer Ok. The first one alone reaches the server, which has no such call; then Linux
    answers by itself. Those of files reach it, since it has a call for them."""
    mailbox(home / "box", ONE)
    with logged(below(home), home / "disk", home / "log"):
        expect([program(), "convert", "disk/M", "box"], home, 0, "messages 1, there 0, placed 1, swept 0\n")
    syncs = syncs_in((home / "log").read_text(encoding="utf-8", errors="replace"))
    equal("syncs of folders", [one for one in syncs if one.startswith("FSYNCDIR")], [f"FSYNCDIR {NO_CALL}"])
    equal("syncs of files", [one for one in syncs if one.startswith("FSYNC ")], ["FSYNC None"])


if __name__ == "__main__":
    check_all(what_reaches_the_server, bindfs, part_of_bindfs, mergerfs, volatile, overlay, not_tried)
