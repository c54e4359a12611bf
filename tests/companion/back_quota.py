"""mbox2maildir-admin back --users for a user whose inbox, or whose home, is on a disk that is full, or has no more room
by a quota of the kernel: nothing is lost, doubled or cut. With room, the same command goes on. It needs root, and is
left out without it."""
import contextlib
import os
import shutil
import subprocess
from collections.abc import Callable, Iterator
from functools import partial
from pathlib import Path

from tests.companion.back_users import BACK, NAMES, NEW, WORDS, another_user, deliver, migrated, moves, rest_of
from tests.support.cases import LeftOut, run_cases
from tests.support.checks import equal, match_in, matches
from tests.support.homes import at_home, expect, fresh_folder, run
from tests.support.mail import ONE, TWO
from tests.support.mounts import mount
from tests.support.powercut.devices import loop_device, mounted
from tests.support.powercut.devices import run as run_tool

TOOLS = ["mkfs.btrfs", "btrfs"]
# the flag of a mount that shows a folder at another place, and how large the disk with a quota is
BIND, QUOTA_DISK = 0x1000, 160 << 20
MakeRoom = Callable[[], object]
Disk = Callable[[Path], "contextlib.AbstractContextManager[MakeRoom]"]


@contextlib.contextmanager
def with_disk(folder: Path) -> Iterator[MakeRoom]:
    """Puts what is in a folder onto the disk that is mounted there by what is yielded, until the end."""
    kept, state = folder.parent / f"{folder.name}.kept", folder.stat()
    folder.rename(kept)
    folder.mkdir()

    def copy() -> None:
        subprocess.run(["cp", "-a", f"{kept}/.", folder], check=True)
        os.chown(folder, state.st_uid, state.st_gid)
        folder.chmod(state.st_mode & 0o7777)

    try:
        yield copy
    finally:
        subprocess.run(["umount", "-l", folder], check=False)
        folder.rmdir()
        kept.rename(folder)


@contextlib.contextmanager
def on_full_disk(folder: Path) -> Iterator[MakeRoom]:
    """Has a folder on a disk of which 32 kB are free. Returns what makes room."""
    with with_disk(folder) as copy:
        mount("none", str(folder), "tmpfs", options="size=16m")
        copy()
        disk, filler = os.statvfs(folder), folder / "filler"
        filler.write_bytes(b"\0" * disk.f_frsize * max(0, disk.f_bavail - 8))
        yield filler.unlink


@contextlib.contextmanager
def on_full_quota(folder: Path) -> Iterator[MakeRoom]:
    """Has a folder on a large disk, where the kernel lets it have 1 MB more than it has. Returns what raises that."""
    if not all(map(shutil.which, TOOLS)):
        raise LeftOut(f"it wants {' and '.join(TOOLS)}")
    with fresh_folder() as top:
        image, disk = top / "image", top / "disk"
        disk.mkdir()
        image.touch()
        os.truncate(image, QUOTA_DISK)
        run_tool(["mkfs.btrfs", "-q", str(image)])
        with loop_device(str(image)) as device, mounted(device, str(disk), "btrfs", ""):
            run_tool(["btrfs", "quota", "enable", str(disk)])
            run_tool(["btrfs", "subvolume", "create", str(disk / "part")])
            with with_disk(folder) as copy:
                mount(str(disk / "part"), str(folder), flags=BIND)
                copy()
                run_tool(["sync", "-f", str(folder)])
                shown = run_tool(["btrfs", "qgroup", "show", "--raw", "-f", str(folder)])
                limit = int(match_in(r"(?m)^0/\d+ +(\d+)", shown)[1]) + (1 << 20)
                run_tool(["btrfs", "qgroup", "limit", str(limit), str(folder)])
                yield partial(run_tool, ["btrfs", "qgroup", "limit", "none", str(folder)])


def is_full(disk: Disk, folder: str, home: Path) -> None:
    """This folder is on a full disk, or its quota is used up: who needs more room there is left, and nobody else. With
    room the same command goes on."""
    text = b"x\n" * 1_000_000
    with migrated(home):
        deliver(home, "m61one", text=NEW + text)
        deliver(home, "m61two")
        with disk(home / folder) as make_room:
            before = (home / "spool/m61one").read_bytes()
            for _ in range(2):
                status, out, err = run(WORDS, home)
                equal("status and standard error", (status, err), (1, ""))
                rows = sorted(row for row in out.splitlines() if " -> " in row)
                matches("who needs more room", rows[0], "INBOX -> m61one: messages 1: left (no-room): ...")
                equal("the inbox", (home / "spool/m61one").read_bytes(), before)
                equal("what is beside the inboxes", {*os.listdir(home / "spool")} - {"filler"}, {*NAMES})
            equal("an inbox that took it", rest_of(TWO, home / "spool/m61two"), BACK)
            make_room()
            expect(WORDS, home, 0, "INBOX -> m61one: mboxrd, messages 1: back\n...\n" + moves(home, *NAMES))
            equal("the inbox", rest_of(ONE, home / "spool/m61one"), BACK[:-1] + text + b"\n")
            equal("an inbox that took it", rest_of(TWO, home / "spool/m61two"), BACK)


def without_inodes(home: Path) -> None:
    """No file can be made in the spool, neither a lock nor an inbox. Nothing goes back there, and each row says why."""
    with migrated(home), another_user(home, "m61new"):
        deliver(home, NAMES[0])
        spool = home / "spool"
        with with_disk(spool) as copy:
            mount("none", str(spool), "tmpfs", options=f"size=16m,nr_inodes={1 + len(NAMES)}")
            copy()
            status, out, err = run([*WORDS, NAMES[0], "m61new"], home)
            equal("status and standard error", (status, err), (1, ""))
            says = "INBOX -> {0}: messages 1: left (no-room): {1}/{0}: No space left on device"
            rows = sorted(row for row in out.splitlines() if "messages 1" in row)
            equal("the rows", rows, [says.format(name, spool) for name in ("m61new", NAMES[0])])
            equal("what is there", sorted(os.listdir(spool)), sorted(NAMES))
            equal("an inbox", (spool / NAMES[0]).read_bytes(), ONE)


CASES: dict[str, Callable[[Path], None]] = {
    "no_inode": without_inodes,
    **{
        f"{name}_of_{place}": partial(is_full, disk, folder)
        for name, disk in (("disk", on_full_disk), ("quota", on_full_quota))
        for place, folder in (("the_spool", "spool"), ("a_home", "homes/m61one"))
    },
}


if __name__ == "__main__":
    run_cases({name: partial(at_home, case) for name, case in CASES.items()})
