"""Which file stands for which message, for `migrate`, its undo and `back`. Nothing is read here: this takes lines of
ledgers, and names of files.

All lines with a name are about one file, whichever mailboxes have them, but for two things: each run that places the
name anew begins another file, and a mailbox that has the name several times has several files. The newest file has the
name. Of lines without a name, those of one mailbox are about different files. A file whose name is not there, or
belongs to a newer file, is gone, unless a program has renamed it: then it is one of the files that no line names and
that have its form. Each of these is one file only.
"""
import bisect
import collections
from collections.abc import Container, Iterable, Iterator, Mapping, Sequence
from enum import Enum
from typing import NamedTuple, Optional

from ..mbox.bases import is_own
from ..remarks import Says, Sentence
from .lines import FOREIGN, NAMELESS, NOBODYS, SHARED, Brought, Line, State


class Means(NamedTuple):
    """What it means that a file may stand for a new message: without --again, the step of docs/LEDGER.md in which it is
    taken; what a row says of it, if anything; whether it stands for no more messages than another mailbox brought
    beyond those that this one has; and whether a run has finished with the file, unless the lines about it say that."""

    step: int = 0
    says: Optional[Sentence] = None
    is_limited: bool = False
    is_finished: Optional[bool] = None


class Why(Enum):
    """Why a file may stand for a new message of a mailbox."""

    # a run of the mailbox that was killed has placed it, or found it
    BEGUN = Means(1, is_finished=False)
    # another mailbox brought it, and it is there; or it is gone
    SHARED = Means(2, Says.SHARED, is_limited=True)
    GONE = Means(2, Says.GONE_ELSEWHERE, is_limited=True)
    # the mailbox brought it once, or a killed run of it
    REGAINED = Means(3, Says.REGAINED)
    ONCE = Means(3)
    # nobody brought it: it stays, whatever is undone
    NOBODYS = Means(4, Says.THERE_ALREADY)
    # another mailbox brought it once, or a killed run of that
    ONCE_THEIRS = Means(5, Says.SHARED)
    # with --again, it is there, whoever brought it; or it is nobody's, and was read just now
    ANY = Means()
    ANY_NOBODYS = Means(says=Says.THERE_ALREADY, is_finished=True)


# the states of what a mailbox brought, whether it has it still or not
BROUGHT = State.HELD, State.FORMER
# the names of files that no line names, in their order, by the forms of what they hold
Unnamed = Mapping[bytes, collections.deque[bytes]]


class File:
    """A file that lines are about: these lines, the newest first, the name that it has, and whether no newer file took
    the name that it had. It has none if it is gone. `takers` is how many lines say that a mailbox has its message
    still, or was to have it when a run was killed."""

    __slots__ = "lines", "name", "is_newest", "takers"

    def __init__(self, lines: list[Line], name: Optional[bytes], is_newest: bool = True) -> None:
        self.lines, self.name, self.is_newest = lines, name, is_newest
        self.takers = sum(line.state in (State.HELD, State.OPEN) for line in lines)

    @property
    def bare(self) -> bytes:
        """The bare form of what it holds. Later lines may be of messages in other forms."""
        return self.lines[-1].message.bare

    @property
    def is_held(self) -> bool:
        """Whether a mailbox has its message still."""
        return any(line.state is State.HELD for line in self.lines)

    @property
    def is_brought(self) -> bool:
        """Whether a mailbox has brought its message, and has it still or not. A run has finished with it then."""
        return any(line.state in BROUGHT for line in self.lines)

    def is_held_by(self, path: str) -> bool:
        """Whether this mailbox has it still."""
        return any(line[:2] == (path, State.HELD) for line in self.lines)

    def line_of(self, path: str) -> Optional[Line]:
        """The line of a mailbox about it, and the last of several; first of those that count for more than what the
        mailbox had once."""
        own = [line for line in self.lines if line.path == path]
        return next((line for line in own if line.state is not State.FORMER), own[0] if own else None)

    @property
    def is_gone(self) -> bool:
        """Whether it is not there, as far as it has a name that a line can have."""
        return self.name is None and self.lines[0].message.name != NAMELESS

    @property
    def is_renamed(self) -> bool:
        """Whether a program has given it its name."""
        return self.name is not None and self.lines[0].message.name not in (self.name, NAMELESS)

    def find(self, unnamed: Unnamed, form: bytes) -> bool:
        """Takes a name of this form if its own is not there, and returns whether it has one then. Who asks first gets
        it: `migrate` looks first for what its mailbox has, an undo for what others have, and `back` for what any has,
        by cores and in other folders too."""
        if self.name is None and unnamed.get(form):
            self.name = unnamed[form].popleft()
        return self.name is not None


def by_form(names: Iterable[tuple[bytes, bytes]]) -> Unnamed:
    """Takes forms, each with the name of a file. An empty one is none."""
    found: collections.defaultdict[bytes, collections.deque[bytes]] = collections.defaultdict(collections.deque)
    for form, name in names:
        if form:
            found[form].append(name)
    return found


def files_of(lines: Iterable[Line], there: Container[bytes]) -> list[File]:
    """The files that lines are about, with their names if these are there."""
    several: dict[bytes, list[Line]] = {}
    for line in lines:
        name = line.message.name
        several.setdefault(name if name != NAMELESS else NAMELESS + line.message.core, []).append(line)
    return [file for name, its in several.items() for file in files_named(its, name if name in there else None)]


def files_named(lines: list[Line], name: Optional[bytes]) -> Iterator[File]:
    """The files that lines with the same name are about, the newest first. It has the name if that is there."""
    if len(lines) == 1:
        yield File(lines, name)
        return
    placed = sorted({line.number for line in lines if line.was_nowhere})
    # each line of what a mailbox has is about another file, and without a name so is each of what it had once; of other
    # lines, each of the same run
    counted = BROUGHT if lines[0].message.name == NAMELESS else (State.HELD,)
    turns: collections.defaultdict[int, list[Line]] = collections.defaultdict(list)
    before: dict[tuple[str, int], int] = {}
    for line in sorted(lines, key=lambda one: (one.number, one.was_nowhere), reverse=True):
        turn = (bisect.bisect_right if line.was_nowhere else bisect.bisect_left)(placed, line.number)
        group = line.path, 0 if line.state in counted else line.number
        turn = before[group] = min(turn, before.get(group, turn + 1) - 1)
        turns[turn].append(line)
    for turn in sorted(turns, reverse=True):
        is_newest = turn == len(placed)
        yield File(turns[turn], name if is_newest else None, is_newest)


def nobodys(name: bytes, core: bytes, bare: bytes) -> File:
    """A file of a name that no mailbox brought, which holds a message of these forms."""
    return File([Line("", State.OVERTAKEN, Brought(FOREIGN, name, core, bare))], name)


def says_whose(message: Brought, is_ended: bool) -> bool:
    """Whether the line of a message says whose its file is, in a batch that has ended or not. A file of nobody that a
    killed run has found may be one of a mailbox that was renamed."""
    return is_ended or message.word != FOREIGN


class Offer(NamedTuple):
    """A file that may stand for a new message, by a line about it, and why; the bare form of such a message; and
    whether it stands for one with the same core in another form, too."""

    why: Why
    file: File
    line: Line
    bare: bytes
    in_any_form: bool = False

    @property
    def is_fresh(self) -> bool:
        """Whether this program has placed the file, and no run has finished with it, whichever mailbox that was for. It
        is verified then, and gets dates and flags too."""
        name, is_finished = self.line.message.name, self.why.value.is_finished
        is_there = name == self.file.name and is_own(name)
        return is_there and not (self.file.is_brought if is_finished is None else is_finished)

    def word_for(self, path: str) -> bytes:
        """The word of the line that the mailbox at a path gets about it."""
        word = self.line.message.word
        return word if self.line.path == path else FOREIGN if word in NOBODYS else SHARED


def whys_of(file: File, line: Line, path: str) -> Iterator[Why]:
    """Why a file may stand for new messages of the mailbox at a path, by a line about it."""
    is_theirs = line.path != path
    if is_theirs and line.state in BROUGHT:
        yield Why.GONE if file.is_gone else Why.SHARED
    if not file.name or line.state is State.HELD:
        return
    if is_theirs:
        yield Why.ONCE_THEIRS if line.path else Why.NOBODYS
    elif line.state is State.FORMER:
        yield Why.REGAINED
    else:
        yield Why.BEGUN if line.state is State.OPEN and line.message.word != SHARED else Why.ONCE


def offers_of(files: Iterable[File], path: str) -> list[Offer]:
    """What may stand for new messages of the mailbox at a path, in the order in which it is to be taken. A file may be
    offered for several reasons."""
    offers: list[Offer] = []
    for file, line in ((file, line) for file in files for line in reversed(file.lines)):
        # what another mailbox brought is the same message in the same form only, and what a killed run has only shared,
        # it shared in that form
        in_any_form = line.path == path and (line.state in BROUGHT or line.message.word != SHARED)
        offers += (Offer(why, file, line, line.message.bare, in_any_form) for why in whys_of(file, line, path))
    return sorted(
        offers,
        key=lambda one: (
            one.why.value.step,
            one.file.is_gone,
            one.file.is_renamed,
            one.line.path != path,
            one.line.state is State.FORMER,
            # what was nobody's stays, whatever is undone
            one.line.message.word not in NOBODYS,
            -one.file.takers,
        ),
    )


def offers_again(files: Iterable[File], path: str) -> list[Offer]:
    """The same with --again: all that is there, and first what the mailbox brought."""
    there = sorted((one for one in files if one.name), key=lambda one: not one.line_of(path))
    lines = ((one, one.line_of(path) or one.lines[-1]) for one in there)
    return [
        Offer(Why.ANY if line.path else Why.ANY_NOBODYS, one, line, one.bare, in_any_form=True) for one, line in lines
    ]


class Offers:
    """What is offered for new messages with the same core, in its order; which files stand for a message already; and
    in each bare form, how many more messages another mailbox brought than this one has."""

    def __init__(self, several: Sequence[Offer], served: Iterable[File], more: collections.Counter[bytes]) -> None:
        """`more` may count the forms of other cores, too. It is counted down."""
        self.several, self.served, self.more = several, {*served}, more

    def in_turn(self) -> Iterator[tuple[Offer, bool]]:
        """The offers that may be taken when it is their turn, and whether for a message in their own form only: first
        all of them for these, then some for any."""
        for is_same in (True, False):
            for one in self.several:
                if (is_same or one.in_any_form) and self.may_stand(one):
                    yield one, is_same

    def may_stand(self, one: Offer) -> bool:
        """Whether the file of an offer may stand for one more message."""
        return one.file not in self.served and (not one.why.value.is_limited or self.more[one.bare] > 0)

    def take(self, one: Offer) -> None:
        """Takes it that the file of an offer stands for a message."""
        self.served.add(one.file)
        self.more[one.bare] -= 1
