"""Each call of a conversion fails in turn, with each error: what the built program says of it, what it leaves, and what
the next run does. A case is an error, by its name.

tests/support/calls.c is between the program and the system. tests/program/calls has what else a call may do.
"""
import errno
import shutil
import tempfile
from collections.abc import Callable, Iterator
from functools import partial
from pathlib import Path
from typing import NamedTuple, Optional

from tests.support.cases import run_cases
from tests.support.checks import equal
from tests.support.preload import Ran, library, run

# the errors with which each call fails: an interruption, no room on a disk, in a table of files or in memory, refusals,
# and a file that is another one on the server
ERRORS = ["EINTR", "ENOENT", "EIO", "ENOMEM", "EACCES", "EXDEV", "EMFILE", "ENOSPC", "EROFS", "EDQUOT", "ESTALE"]
# those with which only calls of one kind fail: a limit of the size of files, and what a file system does not have
OF_KIND = {"EFBIG": "write", "EINVAL": "sync", "EOPNOTSUPP": "sync", "ENOSYS": "sync"}
# the SHA-256 of the only body
BODY = b"abc"
BASE = "ba7816bf8f01cfea414140de5dae2223b00361a396177a9cb410ff61f20015ad.1"
# what calls.c plants
PLANTED = b"planted long before"
# the calls by which a file of our own is emptied: once by its name, and once through its handle
EMPTIES = ("look at", "open", "look through", "empty")
IN_TMP, IN_NEW = f"maildir/tmp/{BASE}", f"maildir/new/{BASE}"
NO_FOLDER, NO_READ = "cannot open the folder", "the source could not be read"
NO_SOURCE, NO_OUTPUT = "cannot open the source", "the output could not be written"
SUBS = ["tmp", "new", "cur"]


class Row(NamedTuple):
    """A call, and a run in which it fails: what the run says, or None if it ends well; what the name of the message has
    then in `tmp` and in `new`; and how many calls come after it if it ends the run."""

    call: str
    told: Optional[str]
    in_tmp: Optional[bytes]
    in_new: Optional[bytes]
    after: int = 0

    def ends_well(self) -> "Row":
        """The same call, if the run goes on."""
        return Row(self.call, None, None, BODY)


class World(NamedTuple):
    """What is there before a conversion: a Maildir, or none; a leftover in `tmp`; and whether a file of our own comes
    there once the names of `tmp` were taken."""

    what: str
    is_made: bool = True
    leftover: Optional[bytes] = None
    is_planted: bool = False

    def make(self, folder: Path) -> None:
        """Makes it anew."""
        shutil.rmtree(str(folder / "maildir"), ignore_errors=True)
        (folder / "mbox").write_bytes(b"From x\n" + BODY)
        for sub in SUBS if self.is_made else []:
            (folder / "maildir" / sub).mkdir(parents=True)
        if self.leftover is not None:
            (folder / IN_TMP).write_bytes(self.leftover)
            (folder / IN_TMP).chmod(0o600)

    def convert(self, folder: Path, calls: Path, **settings: object) -> Ran:
        """Makes it anew, and converts."""
        self.make(folder)
        planted = {"PLANTED": "f"} if self.is_planted else {}
        return run(["convert", "maildir", "mbox"], folder, calls, **planted, **settings)

    def rows(self) -> Iterator[Row]:
        """Each call of a conversion, in order."""
        yield Row("open mbox", NO_SOURCE, self.leftover, None)
        yield from self.opening()
        yield from [Row("read mbox", NO_READ, self.leftover, None)] * 2
        for number, sub in enumerate(SUBS, 1):
            yield from self.listing(number, sub)
        yield from self.delivery()
        yield Row("write standard output", NO_OUTPUT, None, BODY)

    def opening(self) -> Iterator[Row]:
        """The calls by which the Maildir is opened. A folder that is there need not be made."""
        fails = partial(Row, told=NO_FOLDER, in_tmp=self.leftover, in_new=None)
        if self.is_made:
            yield fails("make maildir").ends_well()
            yield fails("look at maildir")
        else:
            # a look finds none there
            yield fails("make maildir", after=1)
            # the Maildir that was made is removed, so that the next run makes it and syncs the parent
            yield fails("open maildir/..", after=1)
        yield fails("open maildir")
        yield fails("lock maildir")
        for sub in SUBS:
            if self.is_made:
                yield fails(f"make maildir/{sub}").ends_well()
                yield fails(f"look at maildir/{sub}")
            else:
                yield fails(f"make maildir/{sub}", after=1)

    def listing(self, number: int, sub: str) -> Iterator[Row]:
        """The calls by which a folder is listed. What a listing of messages does not show is gone from the disk too."""
        path = f"maildir/{sub}"
        entries = ["clock", f"open {path}/", f"list {path}/", f"list {path}/"]
        calls = ["clock", f"look at {path}", *entries, f"look at {path}"]
        synced = [] if sub == "tmp" else [f"open {path}", f"sync {path}"]
        for call in calls + synced:
            yield Row(call, f"folder call {number} failed", self.leftover, None)

    def delivery(self) -> Iterator[Row]:
        """The calls by which the leftover is removed, the message is delivered, and everything is synced."""
        number = 4
        if self.leftover:
            yield Row(f"remove {IN_TMP}", "folder call 4 failed", self.leftover, None)
            number = 5
        writes = partial(Row, told=f"folder call {number} failed", in_new=None)
        yield writes(f"open {IN_TMP}", in_tmp=PLANTED if self.is_planted else None)
        if self.is_planted:
            for call in ("look at maildir/tmp", *(f"{does} {IN_TMP}" for does in EMPTIES)):
                yield writes(call, in_tmp=PLANTED)
        yield writes(f"write {IN_TMP}", in_tmp=b"")
        yield writes(f"sync {IN_TMP}", in_tmp=BODY)
        yield Row(f"move {IN_TMP}", f"folder call {number + 1} failed", BODY, None)
        synced = [f"{call} maildir{below}" for below in ("/new", "/cur", "", "/..") for call in ("open", "sync")]
        if not self.is_made:
            synced.remove("open maildir/..")
        for call in synced:
            yield Row(call, f"folder call {number + 2} failed", None, BODY)


WORLDS = [
    World("a leftover", leftover=b"leftover"),
    World("no Maildir", is_made=False),
    World("a file of our own", is_planted=True),
]


def row_by(error: str, row: Row, world: World) -> Row:
    """What becomes of a run whose call fails with this error, if that depends on the error."""
    kind, _, path = row.call.partition(" ")
    is_listing = path.endswith("/")
    if error == "EINTR" and kind in ("open", "lock", "write", "sync", "empty") and not is_listing:
        return row.ends_well()
    if world.is_made and (error, row.call) in {
        # a parent that may not be opened, or whose file system has no sync, is not synced
        ("EACCES", "open maildir/.."),
        ("EINVAL", "sync maildir/.."),
        ("EROFS", "sync maildir/.."),
        # the file that is to be removed is gone
        ("ENOENT", f"remove {IN_TMP}"),
    }:
        return row.ends_well()
    if error == "ENOENT" and kind == "list":
        # it ends the list: docs/MODEL.md has the premise
        return row.ends_well()
    if error == "ENOENT" and kind == "move":
        # a look finds the file, so the folder to move to is what was not found
        return row._replace(after=1)
    return row


def holds(what: str, path: Path, wanted: Optional[bytes]) -> None:
    """A file holds this, or does not exist if this is None."""
    equal(f"{what}: {path.name} in {path.parent.name}", path.read_bytes() if path.exists() else None, wanted)


def ends(what: str, ran: Ran, told: Optional[str]) -> None:
    """A run said this and ended with status 1, or it ended well."""
    equal(f"{what}: standard error", ran.err, f"mbox2maildir: {told}\n" if told else "")
    equal(f"{what}: status", ran.status, 1 if told else 0)


def told_of(world: World, error: str, number: int, row: Row) -> str:
    """What a failed case says about a run."""
    return f"{world.what}, {error} of call {number}, {row.call}"


def check_call(world: World, error: str, number: int, row: Row, ran: Ran) -> None:
    """The failed call was this one; it was made again if it was interrupted, and otherwise ended the run."""
    what = told_of(world, error, number, row)
    equal(f"{what}: the call", ran.calls[number - 1], row.call)
    kind = row.call.split()[0]
    if error == "EINTR" and row.told is None and kind != "make":
        equal(f"{what}: the call after it", ran.calls[number], row.call)
    # what is left of the output is offered once more
    if row.told not in (None, NO_OUTPUT):
        equal(f"{what}: calls", len(ran.calls), number + row.after)
    # a file of our own has the name of the message: one that came, or a leftover that was not swept
    opened = [at for at, call in enumerate(ran.calls, 1) if call == f"open {IN_TMP}" and at != number]
    was_taken = len(opened) > (0 if world.is_planted else 1)
    equal(f"{what}: files that stay open", ran.begin("open") - ran.begin("close"), (kind == "open") + was_taken)


def starts_again(what: str, folder: Path, calls: Path, row: Row) -> None:
    """The run after a failed one finds the message in `new`, or delivers it, and sweeps what is left."""
    ran = run(["convert", "maildir", "mbox"], folder, calls)
    ends(f"{what}, and again", ran, None)
    there, swept = int(row.in_new is not None), int(row.in_tmp is not None)
    equal(f"{what}, and again", ran.out, f"messages 1, there {there}, placed {1 - there}, swept {swept}\n")
    holds(f"{what}, and again", folder / IN_TMP, None)
    holds(f"{what}, and again", folder / IN_NEW, BODY)


def each_call_fails(error: str, folder: Path, calls: Path) -> None:
    """Each call that may fail with an error does so in turn, in each world; in the last world only those by which a
    file is emptied."""
    kind = OF_KIND.get(error, "")
    for world in WORLDS:
        for number, row in enumerate(world.rows(), 1):
            if not row.call.startswith(kind) or world.is_planted and row.in_tmp != PLANTED:
                continue
            row = row_by(error, row, world)
            ran = world.convert(folder, calls, FAIL=number, ERROR=getattr(errno, error))
            what = told_of(world, error, number, row)
            ends(what, ran, row.told)
            check_call(world, error, number, row, ran)
            holds(what, folder / IN_TMP, row.in_tmp)
            holds(what, folder / IN_NEW, row.in_new)
            starts_again(what, folder, calls, row)


def each_call_is_made(folder: Path, calls: Path) -> None:
    """The calls of a conversion are these and no others, in this order."""
    for world in WORLDS:
        ran = world.convert(folder, calls)
        ends(world.what, ran, None)
        made = "\n".join(row.call for row in world.rows())
        equal(f"{world.what}: the calls of a conversion", "\n".join(ran.calls), made)


def in_a_folder(case: Callable[[Path, Path], None]) -> None:
    """Runs a case in a fresh folder, with calls.c as what LD_PRELOAD takes."""
    with tempfile.TemporaryDirectory() as work:
        case(Path(work), library("calls", Path(work)))


def cases() -> dict[str, Callable[[], None]]:
    """The cases: all calls, and each error."""
    found = {"each_call_is_made": partial(in_a_folder, each_call_is_made)}  # type: dict[str, Callable[[], None]]
    for error in [*ERRORS, *OF_KIND]:
        found[error] = partial(in_a_folder, partial(each_call_fails, error))
    return found


if __name__ == "__main__":
    run_cases(cases())
