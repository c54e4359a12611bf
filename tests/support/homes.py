"""How tests run the programs: in a fresh folder, which has them in bin/."""
import os
import pwd
import shlex
import shutil
import subprocess
import tempfile
import time
from collections.abc import Callable, Iterator, Mapping, Sequence
from contextlib import contextmanager
from functools import partial
from pathlib import Path
from typing import Any, Optional, Union

from tests.support import accounts
from tests.support.cases import LeftOut, run_cases
from tests.support.checks import TOP, equal, match_in, matches, program, text_of, without_progress, without_work
from tests.support.copies import Copies
from tests.support.dovecot.settings import settings_here
from tests.support.running import BY_OTHERS, COMPANION, OWNER, Desk, Run, Word

ADMIN = TOP / "admin" / COMPANION
PACKAGE = TOP / "admin/mbox2maildir_admin"
# a command by its words, or as it is typed
Command = Union[str, Sequence[Word]]
# a disk in memory, and the room that tests want there
MEMORY, ROOM = "/dev/shm", 1 << 28


def is_root() -> bool:
    """Whether root tests."""
    return os.getuid() == 0


def want_root() -> None:
    """Leaves a case out that only root can try."""
    if not is_root():
        raise LeftOut("it wants root")


def want_users() -> None:
    """Leaves a case out in which root makes users or mounts a disk, if that can't be done."""
    want_root()
    if not accounts.are_own():
        raise LeftOut("it wants mounts of its own, which the system does not let root have")


def want_strace() -> None:
    """Leaves a case out in which strace looks at the calls of a run, if it is not here, or may not look."""
    if (
        not shutil.which("strace")
        or subprocess.run(["strace", "-qq", "-o", "/dev/null", "true"], check=False).returncode
    ):
        raise LeftOut("strace is not here, or may not look")


def meets_people(words: Sequence[Word]) -> bool:
    """Whether a command may be about all people who have accounts on the machine."""
    return is_root() and not accounts.are_own() and any("--users" in str(word) for word in words)


def want_no_people(words: Sequence[Word]) -> None:
    """Leaves a case out in which a command may be about all people who have accounts on the machine."""
    if meets_people(words):
        want_users()


def words_of(command: Command) -> Sequence[Word]:
    """The words of a command."""
    return shlex.split(command) if isinstance(command, str) else command


def run(words: Command, home: Path, **settings: str) -> Run:
    """Runs a command, or the companion with these words, which must never die of a fault of its own. Returns what it
    prints without the time that it took, and without how far it was each minute."""
    status, out, err = run_whole(words, home, **settings)
    return Run(status, without_work(out), without_progress(err))


def run_whole(words: Command, home: Path, **settings: str) -> Run:
    """The same, with everything that it prints. Python heeds the locale when it begins, and children of other users
    load what they need: such a run is no copy of this process, which would take less time."""
    words = words_of(words)
    want_no_people(words)
    is_copy = "LC_ALL" not in settings and "--users" not in words
    return (Copies if is_copy else Desk)(home, None, "", **settings).run(words, BY_OTHERS)


def by_json(words: Command, home: Path, **settings: str) -> Run:
    """Runs a command with `--json`, for its rows."""
    command, *others = words_of(words)
    return run_whole([command, "--json", *others], home, **settings)


def run_printed(command: str, home: Path, *more: str) -> Run:
    """Runs a command as it was printed, or one of `migrate` with these options too."""
    return Desk(home).in_shell(command.replace(" migrate ", " ".join([" migrate", *more, ""]), 1))


def expect(
    words: Command, home: Path, status: int, out: Optional[str], err: Optional[str] = "", **settings: str
) -> None:
    """The same, for a known status and output. An output may be None if anything may come."""
    got, *texts = run(words, home, **settings)
    for stream, text, wanted in zip(("output", "standard error"), texts, (out, err)):
        if wanted is not None:
            matches(f"{words}: {stream}", text, wanted)
    equal(f"{words}: status", got, status)


def latin_locale(folder: Path) -> dict[str, str]:
    """The settings of a locale in Latin-1, which is made in a folder."""
    place = folder / "locales"
    place.mkdir(exist_ok=True)
    place.chmod(0o755)
    words = ["localedef", "-i", "de_DE", "-f", "ISO-8859-1", str(place / "de_DE.ISO-8859-1")]
    if not shutil.which("localedef") or subprocess.run(words, check=False, capture_output=True).returncode:
        raise LeftOut("no locale in Latin-1 can be made")
    return {"LOCPATH": str(place), "LC_ALL": "de_DE.ISO-8859-1"}


def hand_over(*paths: Path) -> None:
    """Gives files, and what is below folders, to the owner of the mail, but not what a symbolic link leads to."""
    if is_root():
        number = pwd.getpwnam(OWNER).pw_uid
        for path in paths:
            for each in [path, *path.rglob("*")]:
                os.lchown(str(each), number, -1)


def mailbox(path: Path, text: bytes, age: float = 3600) -> Path:
    """Writes a mailbox that was left alone for a while."""
    path.parent.mkdir(parents=True, exist_ok=True)
    path.write_bytes(text)
    os.utime(str(path), (time.time() - age,) * 2)
    return path


def make_maildir(path: Path) -> Path:
    """Makes an empty Maildir, or what is missing of one."""
    for sub in ("tmp", "new", "cur"):
        (path / sub).mkdir(parents=True, exist_ok=True)
    return path


def mail_in(maildir: Path, subs: Sequence[str] = ("new", "cur")) -> Iterator[Path]:
    """The files of the mail of a Maildir."""
    for sub in subs:
        yield from (maildir / sub).iterdir()


def mail_below(maildir: Path) -> Iterator[tuple[Path, Path]]:
    """The files of the mail of a Maildir and of its folders, as far as they are there, each with its folder."""
    for folder in [maildir, *sorted(maildir.glob(".*"))]:
        for sub in ("new", "cur"):
            for path in sorted((folder / sub).glob("*")):
                yield folder, path


def subjects(maildir: Path) -> list[str]:
    """The subjects of what is there, in order."""
    return sorted(match_in(r"Subject: (.*)", path.read_text())[1] for path in mail_in(maildir))


def files_of(maildir: Path) -> dict[str, Path]:
    """The files of the mail of a Maildir, each by its name up to the flags."""
    return {path.name.split(":")[0]: path for path in mail_in(maildir)}


def install(folder: Path) -> None:
    """Copies the program and the companion into a folder, or links those of the folder that the environment's INSTALLED
    names."""
    folder.mkdir(parents=True, exist_ok=True)
    installed = os.environ.get("INSTALLED")
    if installed:
        for name in ("mbox2maildir", ADMIN.name):
            (folder / name).symlink_to(Path(installed, name))
        return
    shutil.copy(program(), str(folder / "mbox2maildir"))
    for path in (ADMIN, TOP / "VERSION"):
        shutil.copy(str(path), str(folder))
    shutil.copytree(str(PACKAGE), str(folder / PACKAGE.name))
    open_to_others(folder)


def open_to_others(folder: Path) -> None:
    """Lets others read what was copied into a folder, and run its programs, whatever umask its checkout was made by."""
    for path in [folder, *folder.rglob("*")]:
        if not path.is_symlink():
            path.chmod(0o755 if path.stat().st_mode & 0o100 else 0o644)


def script(path: Path, text: str) -> None:
    """Writes a script for the shell, which others may run too."""
    path.write_text(f"#!/bin/sh\n{text}\n", encoding="utf-8")
    path.chmod(0o755)


def fake(home: Path, does: str, word: str = "convert") -> None:
    """A script in place of the program, which may run that as `"$real"`: it does this for one of its words, or for all
    if that is empty."""
    if not (home / "real").exists():
        (home / "bin/mbox2maildir").rename(home / "real")
    others = f'test "$1" = {word} || exec "$real" "$@"\n' if word else ""
    script(home / "bin/mbox2maildir", f'real="{home}/real"\n{others}{does}')


def restore(home: Path) -> None:
    """Puts the program back in its place."""
    (home / "real").rename(home / "bin/mbox2maildir")


def doing_first(code: str, programs: Path) -> Path:
    """The companion among these programs, which does this before its modules are loaded: as where the system has a call
    fail, or another program does something meanwhile."""
    text, imports = text_of(ADMIN), "from mbox2maildir_admin.cli import main"
    path = programs / "does-first"
    path.write_text(text.replace(imports, f"{code}\n{imports}"), encoding="utf-8")
    path.chmod(0o755)
    return path


# the settings of a server on the machine may have another separator, or other folders
DOVECOT = """{first}base_dir = {folder}/dovecot
state_dir = {folder}/dovecot
protocols =
ssl = no
{mail}
"""
# nobody answers here who a user is: the option that names one goes, or becomes another
ALONE = """\
left=$#
while [ "$left" -gt 0 ]; do
    word=$1 left=$((left - 1))
    shift
    if [ "$word" = -u ]; then shift; left=$((left - 1)); set -- "$@" {alone}; else set -- "$@" "$word"; fi
done
"""


def own_dovecot(folder: Path) -> None:
    """Puts programs of Dovecot into a folder that use a configuration of their own: mail is in `Post` beside it, and
    belongs to whoever runs them."""
    path = f"{os.environ['PATH']}:/usr/sbin:/usr/lib/dovecot:/usr/libexec/dovecot"
    if not shutil.which("dovecot", path=path):
        return
    settings = settings_here()
    mail = "\n".join(f"{name} = {value}" for name, value in settings.mail_at(folder.parent / "Post").items())
    text = DOVECOT.format(first=settings.first, folder=folder, mail=mail)
    (folder / "dovecot.conf").write_text(text, encoding="utf-8")
    for name in ("doveadm", "dovecot-lda", "imap"):
        found = shutil.which(name, path=path)
        if found:
            before = ALONE.format(alone=" ".join(settings.alone)) if name == "doveadm" else ""
            script(folder / name, f'{before}exec {found} -c {folder}/dovecot.conf "$@"')


def in_memory() -> Optional[str]:
    """A disk in memory, since each message is synced: None if there is none on which programs run and that has room, as
    containers often have none."""
    try:
        state = os.statvfs(MEMORY)
    except OSError:
        return None
    has_room = state.f_bavail * state.f_frsize > ROOM and os.access(MEMORY, os.W_OK)
    return MEMORY if has_room and not state.f_flag & os.ST_NOEXEC else None


@contextmanager
def fresh_folder(place: Optional[str] = None) -> Iterator[Path]:
    """Makes a new folder, which other users may enter. Whatever is still running in it may leave something there."""
    path = tempfile.mkdtemp(dir=place)
    try:
        os.chmod(path, 0o755)
        yield Path(path)
    finally:
        shutil.rmtree(path, ignore_errors=True)


@contextmanager
def fresh_home() -> Iterator[Path]:
    """The folder `home` in a new folder."""
    with fresh_folder() as path:
        home = path / "home"
        home.mkdir()
        yield home


def at_home(check: Callable[[Path], object]) -> None:
    """Runs a check in a fresh folder, which has the programs in bin/."""
    with fresh_home() as home:
        install(home / "bin")
        check(home)


def checks_in(module: Mapping[str, Any]) -> list[Callable[[Path], None]]:
    """The functions of a module that take a home alone, and return nothing."""
    here = [one for one in module.values() if getattr(one, "__module__", "") == module["__name__"]]
    return [one for one in here if getattr(one, "__annotations__", {}) == {"home": Path, "return": None}]


def check_all(*checks: Callable[[Path], None]) -> None:
    """Runs each check in a folder of its own, as a case of its name."""
    run_cases({check.__name__: partial(at_home, check) for check in checks})
