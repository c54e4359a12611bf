#!/usr/bin/env python3
"""What the proofs about a folder on a disk assume of a file system, tried on a real one: tests/support/assumptions.py
[FOLDER].

Makes the program's calls of the system in a folder of its own below FOLDER (by default the one for temporary files).
Prints a line for each assumption with what was seen, and ends with status 1 if one does not hold, or if nothing that a
program can see shows whether it holds. What it sees is no proof: a machine under load, or another one that changes the
same files over a network, may show more.
"""
import errno
import fcntl
import os
import shutil
import sys
import tempfile
import time
from collections.abc import Callable
from typing import Optional

MARGIN = 50_000_000
COARSE_MARGIN = 2_050_000_000
READINGS = 1_000
CHANGES = 100_000
MOVES = 2_000
SECOND = 1_000_000_000
# file systems that may say that something was synced, and not pass that on
UNKNOWN = ("fuse", "virtiofs", "9p")

# for each assumption that was tried, whether it holds
HOLD = []  # type: list[bool]


def tell(holds: bool, text: str) -> None:
    """Prints an assumption, and whether it holds."""
    HOLD.append(holds)
    print(f"assumptions: {'holds' if holds else 'DOES NOT HOLD'}: {text}", flush=True)


def now() -> int:
    """The time of the clock, in nanoseconds."""
    return int(time.time() * SECOND)


def stamp_of(folder: str) -> int:
    """The time when a folder was changed, in nanoseconds."""
    return os.stat(folder).st_ctime_ns


def touch(path: str) -> None:
    """Makes an empty file."""
    os.close(os.open(path, os.O_WRONLY | os.O_CREAT | os.O_TRUNC, 0o600))


def quiet_folder(folder: str) -> None:
    """Looks at a folder that nobody changes."""
    names = {f"{i:064x}.1:2,FRST" for i in range(500)}
    for name in names:
        touch(f"{folder}/{name}")
    wrong = 0
    for _ in range(READINGS):
        seen = os.listdir(folder)
        wrong += len(seen) != len(names) or set(seen) != names
    tell(wrong == 0, f"a folder that nothing changes gives each name once: {READINGS - wrong} of {READINGS} readings")


def stamps(folder: str) -> None:
    """How far the stamps of changes are behind the clock just before each, and ahead of the clock just after."""
    names = [f"{folder}/a", f"{folder}/b"]
    touch(names[0])
    behind = ahead = whole = 0
    for change in range(CHANGES):
        before = now()
        os.rename(names[change % 2], names[1 - change % 2])
        after = now()
        # a change after a look at the stamp may get a finer one, so only every other change is looked at
        if change % 2:
            stamp = stamp_of(folder)
            behind = max(behind, before - stamp)
            ahead = max(ahead, stamp - after)
            whole += stamp % SECOND == 0
    coarse = whole == CHANGES // 2
    margin = COARSE_MARGIN if coarse else MARGIN
    kind = "whole seconds" if coarse else "parts of a second"
    seen = f"in {CHANGES} changes at most {behind / 1e6:.3f} ms behind it and {ahead / 1e6:.3f} ms ahead of it"
    tell(
        behind < margin and ahead < margin,
        f"a change stamps its folder less than {margin // 1_000_000} ms from the clock ({kind}): {seen}",
    )
    others = 0
    for change in range(READINGS):
        first = stamp_of(folder)
        os.rename(names[change % 2], names[1 - change % 2])
        others += stamp_of(folder) != first
    print(
        f"assumptions: not needed: another stamp by a change at once after a look: {others} of {READINGS}", flush=True
    )


def kinds_of_change(folder: str, other: str) -> None:
    """Each kind of change in a folder stamps it."""
    touch(f"{folder}/old")
    touch(f"{folder}/out")
    touch(f"{folder}/gone")
    touch(f"{other}/in")
    changes = {
        "made": lambda: touch(f"{folder}/made"),
        "renamed": lambda: os.rename(f"{folder}/old", f"{folder}/renamed"),
        "moved out": lambda: os.rename(f"{folder}/out", f"{other}/out"),
        "moved in": lambda: os.rename(f"{other}/in", f"{folder}/in"),
        "replaced": lambda: os.rename(f"{folder}/made", f"{folder}/in"),
        "removed": lambda: os.unlink(f"{folder}/gone"),
    }  # type: dict[str, Callable[[], None]]
    missing = []
    for kind, change in changes.items():
        # until a change gives another stamp than the one before
        first = stamp_of(folder)
        time.sleep((COARSE_MARGIN if first % SECOND == 0 else MARGIN) / SECOND)
        change()
        if stamp_of(folder) == first:
            missing.append(kind)
    tell(
        not missing,
        f"each kind of change gives a stamp: {', '.join(missing) + ' not' if missing else ', '.join(changes)}",
    )


def stamps_that_are_set(folder: str) -> None:
    """A program sets the times of a folder back, as `touch` and `cp -a` do."""
    before = now()
    os.utime(folder, (1, 1))
    seen = os.stat(folder)
    margin = COARSE_MARGIN if seen.st_ctime_ns % SECOND == 0 else MARGIN
    tell(
        seen.st_ctime_ns > before - margin,
        "no program sets a stamp back: where the time of modification was, it is of now",
    )


def moves(new: str, cur: str) -> None:
    """A second process moves files from `new` to `cur`. Each must be seen in exactly one of them."""
    for number in range(MOVES):
        touch(f"{new}/{number}")
    child = os.fork()
    if child == 0:
        for number in range(MOVES):
            os.rename(f"{new}/{number}", f"{cur}/{number}:2,S")
        os._exit(0)
    nowhere = twice = 0
    for number in range(MOVES):
        before, after = f"{new}/{number}", f"{cur}/{number}:2,S"
        if number % 2:
            while os.path.exists(before):
                pass
            nowhere += not os.path.exists(after)
        else:
            while not os.path.exists(after):
                pass
            twice += os.path.exists(before)
    os.waitpid(child, 0)
    tell(
        nowhere + twice == 0, f"a rename comes at one moment: {MOVES} moves, {nowhere} seen nowhere, {twice} seen twice"
    )


def modes(folder: str) -> None:
    """Files and folders have the modes with which they are made."""
    os.mkdir(f"{folder}/m", 0o700)
    touch(f"{folder}/m/f")
    seen = [os.stat(path).st_mode & 0o777 for path in (f"{folder}/m", f"{folder}/m/f")]
    tell(seen == [0o700, 0o600], f"modes are kept: {seen[0]:04o} of a folder, {seen[1]:04o} of a file")


def may_not_sync(folder: str) -> str:
    """The kind of a folder's file system if it may answer a sync without making it, and else nothing."""
    number = os.stat(folder).st_dev
    with open("/proc/self/mountinfo", encoding="utf-8", errors="replace") as file:
        for line in file:
            before, _, after = line.partition(" - ")
            if before.split(" ")[2] == f"{os.major(number)}:{os.minor(number)}":
                kind, _, options = after.strip().split(" ")
                return kind if kind.startswith(UNKNOWN) or kind == "overlay" and "volatile" in options else ""
    return ""


def syncs(folder: str) -> None:
    """A file and a folder can be synced. Where the server of a FUSE has no sync of folders, Linux says Ok by itself."""
    wrong = []
    for path in (f"{folder}/m/f", f"{folder}/m"):
        file = os.open(path, os.O_RDONLY)
        try:
            os.fsync(file)
        except OSError as error:
            wrong.append(errno.errorcode[error.errno])
        os.close(file)
    kind = may_not_sync(folder)
    if kind and not wrong:
        HOLD.append(False)
        says = f"they say so, but an answer shows nothing on {kind}: look at what reaches the disk"
        print(f"assumptions: NOT KNOWN: a file and a folder can be synced: {says}", flush=True)
    else:
        tell(not wrong, f"a file and a folder can be synced{': ' + ', '.join(wrong) if wrong else ''}")


def locks(folder: str) -> None:
    """Only one at a time can lock a folder."""
    first, second = os.open(folder, os.O_RDONLY), os.open(folder, os.O_RDONLY)
    try:
        fcntl.flock(first, fcntl.LOCK_EX | fcntl.LOCK_NB)
        try:
            fcntl.flock(second, fcntl.LOCK_EX | fcntl.LOCK_NB)
            seen = "given twice"
        except BlockingIOError:
            seen = "given once"
    except OSError as error:
        seen = errno.errorcode[error.errno]
    print(f"assumptions: not needed: a lock on a folder is {seen}", flush=True)
    os.close(first)
    os.close(second)


def work_folder(parent: Optional[str]) -> str:
    """A new folder in this one. If none can be made, a line says so, and the status is 2."""
    try:
        return tempfile.mkdtemp(dir=parent)
    except OSError as error:
        print(f"assumptions: no folder can be made in {parent}: {error.strerror}", file=sys.stderr)
        sys.exit(2)


def main() -> None:
    work = work_folder(sys.argv[1] if len(sys.argv) > 1 else None)
    try:
        folders = [f"{work}/{name}" for name in ("quiet", "stamps", "kinds", "other", "new", "cur")]
        for folder in folders:
            os.mkdir(folder, 0o700)
        quiet, stamped, kinds, other, new, cur = folders
        quiet_folder(quiet)
        stamps(stamped)
        kinds_of_change(kinds, other)
        stamps_that_are_set(kinds)
        moves(new, cur)
        modes(work)
        syncs(work)
        locks(work)
    finally:
        shutil.rmtree(work)
    sys.exit(0 if all(HOLD) else 1)


if __name__ == "__main__":
    main()
