"""In which order migrate, --prepare, --again and --undo write, sync and lock: what a power cut at any moment leaves is
explained by lines that are on the disk already, and no line says that anything has ended which is not on the disk.

strace tells the calls of a run, and of what it starts. A disk keeps what was synced: the bytes and times of a file by a
sync of the file, names by one of their folder, all by one of the disk."""
import os
import re
import shutil
from collections.abc import Iterator
from functools import partial

from tests.companion.every_call import DEEDS, FOLDER, PREPARE, Deed, prepared, two_archives
from tests.support.archives import Home, fresh
from tests.support.cases import Failed, run_cases
from tests.support.homes import make_maildir, want_strace

CALLS = (
    "execve,openat,mkdir,mkdirat,rename,renameat,renameat2,link,linkat,unlink,unlinkat,rmdir,write,pwrite64,pread64,"
    "utimensat,flock,fsync,fdatasync,syncfs"
)
RECORD, LEDGER, LIST = "mbox2maildir-record", "mbox2maildir-messages", "mbox2maildir-prepared"
JOURNALS = (RECORD, LEDGER, LIST, f"{LIST}.new")
CALL = re.compile(r"(\d+) +(\w+)\((.*)\) += \d")
# a descriptor with its path, or a name, which may be relative to a folder before it
FILE, NAME = re.compile(r"\d+<([^>]*)>"), re.compile(r'(?:(?:AT_FDCWD|\d+)<([^>]*)>, )?"([^"]*)"')
# the lines that say that something has ended; and those with which nothing is lost: the index is in the ledgers too
ENDS, NOTE = re.compile(r'(?:^|, "|\\n)(?:=|-)\\t'), re.compile(
    r', "(?:mbox2maildir-record\\t2\\n)?(?:\+|begun|done|undone|found)\\t'
)
# the first words of a batch
BATCH = re.compile(r', "(?:mbox2maildir\\t|@\\t)')


def there(home: Home) -> None:
    """The Maildir is there, without a record."""
    two_archives(home)
    make_maildir(home.maildir)
    home.place.own(home.maildir, *home.maildir.iterdir())


def prepared_there(home: Home) -> None:
    """What is prepared went into such a Maildir."""
    there(home)
    home.place.run(["migrate", "--json", *PREPARE, "M", "OLD"])


def last_pass_killed(home: Home) -> None:
    """A last pass was killed after it had noted that it finishes the list."""
    prepared(home)
    with open(home.folder() / LIST, "ab") as file:
        file.write(b">\t1\n")


ALL = {
    **DEEDS,
    "there": Deed(["M", "OLD", "READ"], there, []),
    "prepared_first": Deed([*PREPARE, *FOLDER, "M", "OLD"], two_archives, []),
    "prepared_there": Deed([*PREPARE, "M", "OLD"], there, []),
    "taken_back": Deed([*PREPARE, *FOLDER, "M", "OLD"], last_pass_killed, []),
    "undo_prepared_there": Deed(["--undo", "M", "OLD"], prepared_there, []),
    "undo_prepared": Deed([*FOLDER, "--undo", "M", "OLD"], prepared, []),
    "workers": Deed(["--jobs", "2", "M", "OLD", "READ"], two_archives, []),
}


class Disk:
    """What is not on the disk yet while a run is at work in a Maildir."""

    def __init__(self, home: Home) -> None:
        self.top, self.there = str(home.path), {str(path) for path in home.path.rglob("*")}
        # the files whose bytes or times were changed, and names that came or went
        self.files: set[str] = set()
        self.names: set[str] = set()
        # the files that were locked, and those that were read since
        self.locked: set[str] = set()
        self.read: set[str] = set()
        self.wrong: list[str] = []
        self.at: dict[str, str] = {}

    def take(self, line: str) -> None:
        """Takes a call, as strace tells it."""
        found = CALL.match(line)
        if not found:
            return
        process, call, words = found.groups()
        paths = [*self.paths(process, words)]
        if call == "execve":
            self.want("convert" not in words or not self.journals(), line)
        elif call in ("fsync", "fdatasync"):
            self.files.discard(paths[0])
            self.names -= {name for name in self.names if os.path.dirname(name) == paths[0]}
        elif call == "syncfs":
            self.files.clear()
            self.names.clear()
        elif call == "flock":
            self.locked.update(paths if "LOCK_EX" in words else [])
        elif call == "pread64":
            self.read.update(self.locked.intersection(paths))
        elif paths and paths[-1].startswith(f"{self.top}/M") and "/#" not in paths[-1]:
            self.change(call, words, paths, line)

    def change(self, call: str, words: str, paths: list[str], line: str) -> None:
        """Takes a call that changes files of the Maildir."""
        path, name = paths[-1], os.path.basename(paths[-1])
        if call == "openat":
            if "O_CREAT" in words and path not in self.there:
                self.names.add(path)
            self.there.add(path)
            return
        if call in ("write", "pwrite64"):
            self.want(name not in JOURNALS or not {one for one in self.journals() if one not in path}, line)
            self.want(name != LEDGER or not ENDS.search(words) or not self.dirty(path), line)
            self.want(name != LEDGER or not BATCH.search(words) or path in self.read, line)
            self.want(name != RECORD or path in self.read, line)
            self.files.update([] if NOTE.search(words) else [path])
            return
        if name not in JOURNALS:
            self.want(call.startswith("mkdir") or not self.journals() - {*paths}, line)
        if call == "utimensat":
            self.files.add(path)
            return
        if call == "unlink" and name == LIST:
            self.want(not self.dirty(path), line)
        if call.startswith("rename"):
            is_folder = os.path.dirname(path) == f"{self.top}/M" and name.startswith(".")
            below = {one for one in self.dirty("") if one.startswith(f"{paths[0]}/")}
            self.want(not (below if is_folder else self.dirty(paths[0]) if name == LIST else ()), line)
            self.want(paths[0] not in self.files or "/tmp/" not in paths[0] and name != LIST, line)
            self.there |= {path + one[len(paths[0]) :] for one in self.there if one.startswith(f"{paths[0]}/")}
        self.names.update(paths if not call.startswith("link") else paths[-1:])
        self.there -= set(paths[:1])
        self.there.update(paths[-1:] if call.startswith(("rename", "link", "mkdir")) else ())
        self.files -= set(paths[:1])

    def paths(self, process: str, words: str) -> Iterator[str]:
        """The paths that a call is about."""
        for folder, name in [] if FILE.match(words) and '"/' not in words else NAME.findall(words):
            self.at[process] = folder or self.at.get(process, self.top)
            yield os.path.normpath(os.path.join(self.at[process], name))
        yield from FILE.findall(words)[:1] if FILE.match(words) else []

    def journals(self) -> set[str]:
        """The records, ledgers and lists that are not on the disk with their names, and the folders above them."""
        several = [path for path in self.there if os.path.basename(path) in JOURNALS]
        return {path for path in self.files | self.names if any(f"{one}/".startswith(f"{path}/") for one in several)}

    def dirty(self, path: str) -> set[str]:
        """All that is not on the disk but for a file that is written to. A power cut may bring back the list of a
        folder that is done, as its ledger shows, an empty folder that no server shows, and what was in `tmp`."""
        gone = {one for one in self.names - self.there if "/mbox2maildir-aside" in one or "/tmp/" in one}
        gone.update(one for one in self.names - self.there if one.replace(LIST, LEDGER) in self.there)
        lost = {one for one in self.names if os.path.dirname(one) not in {self.top, *self.there}}
        return (self.files | self.names) - gone - lost - {path}

    def want(self, is_right: bool, line: str) -> None:
        """Notes what is wrong."""
        if not is_right:
            self.wrong.append(f"{line}\n    before these are on the disk, or locked: {self.files} {self.names}")


def in_order(home: Home, name: str) -> None:
    """A case: the calls of a command."""
    deed, log = ALL[name], home.path.parent / "calls"
    deed.prepare(home)
    disk = Disk(home)
    log.touch()
    log.chmod(0o666)
    strace = [
        shutil.which("strace") or "",
        "-f",
        "-y",
        "-z",
        "-qq",
        "-s",
        "4000",
        "-o",
        str(log),
        "-e",
        f"trace={CALLS}",
    ]
    program = str(home.place.programs / "mbox2maildir-admin")
    ran = home.place.run([*strace, "-e", "signal=none", program, "migrate", "--json", "--now", *deed.words])
    if ran.status:
        raise Failed(f"status {ran.status}: {ran.output}")
    for line in log.read_text(encoding="utf-8", errors="replace").splitlines():
        disk.take(line)
    if disk.wrong or disk.dirty(""):
        raise Failed("\n".join([*disk.wrong, f"in the end: {disk.dirty('')}"]))


def case(name: str) -> None:
    """One deed, in a home of its own."""
    want_strace()
    with fresh() as home:
        home.begin()
        in_order(home, name)


if __name__ == "__main__":
    run_cases({name: partial(case, name) for name in ALL})
