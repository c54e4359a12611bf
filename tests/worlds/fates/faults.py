"""Runs in each of which one call of the system fails. Whatever a call answers, nothing is called done that is not, and
each name has a fate, or the run ends with a fault and status 1."""
import collections
import errno
import gc
import multiprocessing
import os
import re
from collections.abc import Callable, Iterator, Sequence
from pathlib import Path
from random import Random
from typing import NamedTuple

from tests.support.checks import LATER, without_progress
from tests.support.ledgers import wait_for_lock
from tests.support.running import COMPANION, Row, Run
from tests.worlds.fates import texts
from tests.worlds.fates.comparing import FIRST, Comparison, brief, files_of, folder_on_disk, migrate, path_of
from tests.worlds.fates.failing import counter, put_in_place
from tests.worlds.fates.names import name
from tests.worlds.fates.stores import maildir, mh_folder
from tests.worlds.fates.texts import TABLE, Fate
from tests.worlds.fates.trees import ready
from tests.worlds.fates.users import Homes
from tests.worlds.fates.world import INBOX, Branch, Thing, World
from tests.support.place import Place
from tests.worlds.stage import Accounts

ERRORS = [errno.ENOMEM, errno.EIO, errno.EACCES, errno.ESTALE]
# how many processes try a world in which each call fails
JOBS = 4
# calls that ask what is there, and for locks: if one fails, something is not known, and status 0 would say that it is
ASKING = "open stat lstat entry.stat scandir listdir readdir access readlink flock fcntl lockf".split()


Make = Callable[[Random, Path], World]


class Fault(NamedTuple):
    """The call that fails, counted from 1, and its error."""

    number: int
    error: int

    def told(self) -> str:
        """As a run is told of it."""
        return f"{self.number}:{self.error}"

    def __str__(self) -> str:
        return f"{self.number}:{errno.errorcode.get(self.error, '')}"


# no call fails
NONE = Fault(0, 0)


class Call(NamedTuple):
    """A call: its number, what was called, about what, and the functions that called it, the innermost first."""

    number: int
    what: str
    about: str
    callers: str


class Right(NamedTuple):
    """Why all is well though a call fails that a function makes, or has others make, about something. `inner in outer`
    is the function `inner` where `outer` calls it."""

    function: str
    about: str
    why: str

    def is_for(self, call: Call) -> bool:
        """Whether a call is meant."""
        ways = r":\d+ ".join(map(re.escape, self.function.split(" in ")))
        return bool(re.search(f"(?:^| ){ways}:", call.callers) and re.search(self.about, call.about))


# a file of the small tree that holds no mail, or what would stand beside it
NO_MAIL = r"cards\.sqlite|dovecot\.index\.log|\.imap|\.hidden|y\.lock"
# the look by which a Maildir is no mailbox
REFUSAL = "kinds.folders.is_maildir in looks.is_surely in migration.several.refuse"
RIGHT = (
    Right("version.version", "", "a path is taken as it is where it cannot be looked at"),
    Right("program.listing in readings.texts.read", "", "what the program does not list at once, it is asked again"),
    Right("mbox.inventory.read in readings.texts.read", "", "what cannot be read at once is read anew"),
    Right("readings.copies.unnamed", "b'M'", "where no file without a name can be made, a name is removed at once"),
    Right("commands.migrate.joined", "b'M tree'", "the words are looked at one by one"),
    Right(REFUSAL, "b'tree'", "whoever reads the tree sees whether it is a Maildir"),
    Right("migration.places.recorded", "", "no folder is wanted for what holds no mail"),
    Right("migration.places.paired_with", NO_MAIL, "what holds no mail is no copy, and has none"),
    Right("ledger.record.look", "", "a ledger that cannot be read is said where it is needed"),
    Right("ledger.record.changes", "", "what the index lacks is found in the ledgers"),
)
# the same of users, of whom not each call is tried
OF_USERS = (Right("users.accounts.key", "", "a home counts by its path where it cannot be looked at"),)


def rights_of(call: Call) -> list[Right]:
    """Why all may be well though this call failed."""
    return [right for right in (*RIGHT, *OF_USERS) if right.is_for(call)]


def of_kind(word: str) -> texts.Content:
    """A file of a kind that has this word."""
    return next(content for kind, content in TABLE.items() if word in kind)


def small_tree(draw: Random, home: Path) -> World:
    """A tree with a bit of everything, in which nothing is left unless a call fails."""
    world = World(home)
    tree = Branch(world, bytes(home / "tree"), b"tree")
    tree.file(name("Inbox", INBOX), texts.mboxrd(draw))
    tree.file(name("garden"), texts.MAIL["mboxcl2"](draw))
    below = tree.folder(name("Sent.sbd", "Sent"))
    below.file(name("crlf"), texts.MAIL["CR LF"](draw))
    below.empty(name("empty"))
    below.folder(name(".imap", "-imap")).file(name("dovecot.index.log"), of_kind("Dovecot's index"))
    tree.file(name("cards.sqlite"), of_kind("SQLite"))
    tree.empty(name(".hidden"), True)
    tree.file(name("y.lock"), texts.no_mail(b"12\n"))
    ready(world, b"M", [b"tree"])
    return world


def with_left(draw: Random, home: Path) -> World:
    """The same with something that is left, whatever fails."""
    world = small_tree(draw, home)
    tree = Branch(world, bytes(home / "tree" / "more"), b"tree/more")
    maildir(tree, name("Md"), [texts.one_mail(draw).data])
    mh_folder(tree, name("mh"), [texts.one_mail(draw).data])
    tree.file(name("x.pst"), of_kind("Outlook's pst"))
    tree.link(name("link"), "../Inbox")
    tree.special(name("pipe"))
    return world


def a_spool(who: Accounts) -> Make:
    """A spool with the mailboxes of two users, each of whom has a tree too."""

    def spool_of(draw: Random, home: Path) -> World:
        homes = Homes(World(home), who)
        for user in who.names[:2]:
            homes.tree(user, (name("sheds"), texts.mboxrd(draw)))
            homes.world.add(homes.mailbox(user, texts.mboxrd(draw)))
        homes.words(who.names[:2])
        return homes.world

    return spool_of


class FailingDesk(Place):
    """Runs the companion in copies of this process, in which a call fails. The calls are noted in a file."""

    log, fault = "", NONE

    def main(self) -> int:
        """What is run in the copy."""
        counter.begin(str(self.programs / COMPANION), self.log, self.fault.told())
        put_in_place()
        return super().main()


class Attempt:
    """A world in which one call fails."""

    def __init__(self, make: Make, place: Place) -> None:
        self.make, self.place, self.home, self.log = make, place, place.home, place.home.parent / "calls"
        # what was right though a call failed
        self.met: set[Right] = set()

    def begin(self) -> World:
        """Makes the world anew."""
        self.place.clear(is_for_users=True)
        world = self.make(Random(9), self.home)
        # several at a time make other calls in each run, and in another order
        world.options += ["--jobs", "1"]
        world.finish()
        return world

    def run(self, fault: Fault = NONE) -> tuple[World, Run, list[Call]]:
        """Runs the world anew. Returns also which calls failed, or all calls if none is to fail."""
        world = self.begin()
        self.log.write_bytes(b"")
        self.log.chmod(0o666)
        desk = FailingDesk(self.home, self.place.programs)
        desk.log, desk.fault = str(self.log), fault
        try:
            ran = migrate(world, desk)
        except AssertionError as died:
            raise AssertionError(f"{fault}: {died}") from died
        lines = self.log.read_text(encoding="utf-8", errors="replace").splitlines()
        calls = (line.split("\t") for line in lines)
        return world, ran, [Call(int(number), *words) for number, *words in calls]

    def faults(self) -> list[Fault]:
        """Each call with one error, and with further ones so that each place in the code meets all of them."""
        _, _, calls = self.run()
        places: collections.defaultdict[tuple[str, str], list[int]] = collections.defaultdict(list)
        for call in calls:
            places[call.what, call.callers].append(call.number)
        return [
            Fault(numbers[place % len(numbers)], ERRORS[place % len(ERRORS)])
            for numbers in places.values()
            for place in range(max(len(numbers), len(ERRORS)))
        ]

    def is_here(self, about: str) -> bool:
        """Whether a call is about a file of the world, or an open one."""
        here = rf"b?['\"](?:(?:{re.escape(str(self.home))}/)?(?:tree|M|spool|homes)(?:/|['\"]))"
        return about.isdigit() or re.match(here, about) is not None

    def wrong(self, fault: Fault, is_each: bool = False) -> list[str]:
        """What is wrong with a run in which a call fails: also that all is well, unless that is right. If not each call
        is tried, only those count that ask what is in the world; a run after it is looked at too."""
        world, run, failed = self.run(fault)
        wrong = list(wrong_of_fault(world, run))
        if run.status == 0:
            asked = [call for call in failed if is_each or call.what in ASKING and self.is_here(call.about)]
            rights = [rights_of(call) for call in asked]
            self.met.update(right for several in rights for right in several)
            wrong += [f"status 0: {run.out[-300:]}"] * (not all(rights))
        if not wrong and not is_each:
            # a program whose start failed may still be at work
            for path in world.maildirs.values():
                wait_for_lock(Path(os.fsdecode(path)))
            wrong = [f"the run after it: {line}" for line in wrong_after(world, migrate(world, self.place))]
        return told(fault, failed, wrong)


def told(fault: Fault, failed: Sequence[Call], wrong: Sequence[str]) -> list[str]:
    """What is wrong, each with the calls that failed."""
    calls = " and ".join(f"{call.what} {call.about} in {call.callers.split(' ')[0]}" for call in failed)
    return [f"{fault} {calls}: {line}" for line in wrong]


def wrong_in_share(make: Make, home: Path, programs: Path, faults: Sequence[Fault]) -> tuple[list[str], set[Right]]:
    """What is wrong with some runs, and what was right in them though a call failed."""
    home.parent.mkdir()
    # else each copy would have to move what is collected
    gc.freeze()
    attempt = Attempt(make, Place(home, programs))
    return [line for fault in faults for line in attempt.wrong(fault, is_each=True)], attempt.met


def wrong_calls(make: Make, top: Path, programs: Path) -> list[str]:
    """What is wrong with runs of a world in each of which another call fails."""
    faults = Attempt(make, Place(top / "home", programs)).faults()
    shares = [(make, top / str(share) / "home", programs, faults[share::JOBS]) for share in range(JOBS)]
    with multiprocessing.get_context("fork").Pool(JOBS) as pool:
        found = pool.starmap(wrong_in_share, shares)
    never = set(RIGHT).difference(*(met for _, met in found))
    return [line for wrong, _ in found for line in wrong] + [f"it never comes to this: {right}" for right in never]


def wrong_of_fault(world: World, run: Run) -> Iterator[str]:
    """What is wrong with a run in which a call failed."""
    if run.status not in (0, 1, LATER):
        yield f"status {run.status}: {run.err.strip()[-200:]}"
    comparison = Comparison(world, run)
    done = [thing for thing, rows in comparison.rows.items() if any(row["verdict"] == FIRST for row in rows)]
    for thing in done:
        yield from wrong_mail(world, thing)
    if run.status == 0:
        # as if nothing had failed: then everything is done, and nothing is left
        yield from (f"status 0: {line}" for line in comparison.all_wrong() if not line.startswith("standard error"))
    elif run.err.strip() or not run.objects or run.objects[-1]["type"] != "sum":
        # the run ended with a fault, and says so
        if not run.err.strip():
            yield f"status {run.status}, and nothing says why: {run.output}"
    else:
        yield from wrong_of_left(comparison, done)


def wrong_of_left(comparison: Comparison, done: Sequence[Thing]) -> Iterator[str]:
    """What is wrong with a run that left something. A folder is left as one, or a user, with what is in it."""
    run, things, verdicts = comparison.ran, comparison.world.things, comparison.ran.sums["verdicts"]
    left = [row for row in run.rows if row["verdict"] == "left"]
    covered = [thing for thing in things if any(is_in(thing, row) for row in left)]
    if not left:
        yield f"status {run.status}, and nothing is left: {run.output}"
    for thing in things:
        if thing.fate != Fate.NO_MAIL and not comparison.rows[thing] and thing not in covered:
            yield f"{thing}: it has no fate: {run.sums['says']}"
    if sum(verdicts.values()) < len(things) and not covered:
        yield f"{len(things)} names were made: {run.sums['says']}"
    if verdicts[FIRST] != len(done):
        yield f"{len(done)} rows say done: {run.sums['says']}"


def is_in(thing: Thing, row: Row) -> bool:
    """Whether a thing is in the folder of a row, belongs to its user, or is a folder that has its mailbox: of which
    kind a folder is, nobody knows if a file in it can't be read."""
    path = path_of(row)
    is_near = thing.path.startswith(path + b"/") or path.startswith(thing.path + b"/")
    return thing.user == (row["user"] or "") and (not path or is_near)


def wrong_mail(world: World, thing: Thing) -> Iterator[str]:
    """What is called done is there, message by message."""
    if thing.folder is None:
        yield f"{thing}: it is done, and can't be"
        return
    there = files_of(os.path.join(world.maildirs[thing.owner], folder_on_disk(thing.folder)))
    for text in thing.messages:
        if not there[text]:
            yield f"{thing}: it is done, and this is not there: {text[:80]!r}"


def wrong_after(world: World, run: Run) -> Iterator[str]:
    """What is wrong with a run after the failed one: everything is done, or noted as a sync that failed."""
    comparison = Comparison(world, run)
    yield from (f"a row of nothing that was made: {brief(row)}" for row in comparison.strange)
    for thing in world.things:
        if thing.fate == Fate.DONE:
            rows = comparison.rows[thing]
            if rows and rows[0]["verdict"] == "left":
                if "sync failed" not in rows[0]["says"]:
                    yield brief(rows[0])
            else:
                yield from wrong_mail(world, thing)
    errors = without_progress(run.err)
    if errors:
        yield f"standard error: {errors.strip()[-200:]}"
