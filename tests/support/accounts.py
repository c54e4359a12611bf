"""A machine without people, in which root runs each test: its accounts are those of the system and, for a while, the
users that a test makes, and its folder of mailboxes is empty. All of that is seen by the test and its children alone,
so none of them meets a person who has an account here, and several tests make users at once."""
import os
import pwd
import re
import shutil
import subprocess
import tempfile
from collections.abc import Iterator, Mapping
from contextlib import contextmanager, suppress
from pathlib import Path

from tests.support.mounts import MOVE, mount, take_own_mounts

ETC = Path("/etc")
# says that the files of accounts are the tests' own
MARK = ETC / "accounts-of-tests"
# the number of nobody, and numbers that no system gives to anybody, from this one on
NOBODY, FIRST = 65534, 60601
UID_MIN = re.compile(rb"^\s*UID_MIN\s+(\d+)", re.MULTILINE)
# a line of an account
ACCOUNT = re.compile(rb"[^:]+:[^:]*:(\d+):")
# what else than files the system asks for accounts
SOURCES = re.compile(rb"^(passwd|group|shadow|gshadow|initgroups):.*", re.MULTILINE)
# folders of what a service knows of accounts, and of mailboxes
HIDDEN = ("/run/nscd", "/var/mail", "/var/spool/mail")


def take_own() -> None:
    """Puts this process and its children into such a machine. Nothing changes if another user tests, or if the system
    lets root have no mounts of its own."""
    if os.geteuid():
        return
    folder = tempfile.mkdtemp()
    try:
        take_own_mounts()
        # a file that is mounted by itself would be gone as soon as the machine's own is replaced
        mount("none", folder, "tmpfs", options="mode=755")
        subprocess.run(["cp", "-a", f"{ETC}/.", folder], check=True)
        mount(folder, str(ETC), flags=MOVE)
    except OSError:
        return
    finally:
        with suppress(OSError):
            os.rmdir(folder)
    leave_out_people()
    for hidden in {os.path.realpath(one) for one in HIDDEN if os.path.isdir(one)}:
        state = os.stat(hidden)
        mount("none", hidden, "tmpfs", options=f"mode={state.st_mode & 0o7777:o},uid={state.st_uid},gid={state.st_gid}")
    MARK.touch()


def leave_out_people() -> None:
    """Leaves the accounts of people out of this process's files, and has nothing else asked for accounts."""
    settings = {name: ETC / name for name in ("login.defs", "nsswitch.conf", "passwd")}
    texts = {name: path.read_bytes() for name, path in settings.items() if path.exists()}
    defined = UID_MIN.search(texts.get("login.defs", b""))
    first = int(defined[1]) if defined else 1000
    accounts = [(line, ACCOUNT.match(line)) for line in texts["passwd"].splitlines(True)]
    kept = [line for line, found in accounts if found and (int(found[1]) < first or int(found[1]) == NOBODY)]
    settings["passwd"].write_bytes(b"".join(kept))
    if "nsswitch.conf" in texts:
        settings["nsswitch.conf"].write_bytes(SOURCES.sub(rb"\1: files", texts["nsswitch.conf"]))


def are_own() -> bool:
    """Whether this process is in such a machine."""
    return MARK.exists()


@contextmanager
def users(homes: Mapping[str, Path], like: str = "") -> Iterator[None]:
    """Makes users with these homes for a while. They may be further names of the account of another user."""
    assert are_own(), "these are the accounts of the machine"
    files = [ETC / name for name in ("passwd", "group", "shadow")]
    before = [file.read_bytes() for file in files]
    try:
        for name, home in homes.items():
            taken = {account.pw_uid for account in pwd.getpwall()}
            free = min({*range(FIRST, FIRST + len(taken) + 1)} - taken)
            uid, gid = pwd.getpwnam(like)[2:4] if like else (free, free)
            lines = (
                f"{name}:x:{uid}:{gid}::{home}:/bin/sh\n",
                "" if like else f"{name}:x:{gid}:\n",
                f"{name}:!::::::\n",
            )
            for file, line in zip(files, lines):
                with file.open("a", errors="surrogateescape") as added:
                    added.write(line)
        yield
    finally:
        for file, text in zip(files, before):
            file.write_bytes(text)


@contextmanager
def users_at_home(homes: Mapping[str, Path]) -> Iterator[None]:
    """The same for users whose homes are made too, each with nothing in it."""
    with users(homes):
        for name, home in homes.items():
            home.mkdir(parents=True)
            shutil.chown(home, name, name)
        yield
