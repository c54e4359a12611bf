"""Several folders of a Maildir at the same time: each process migrates the mailboxes of one folder, then those of the
next. It tells its parent what became of each. Only the parent writes the record, and prints."""
import collections
import os
from collections.abc import Callable, Iterator, Mapping, Sequence
from typing import Any, NamedTuple, Optional

from ..faults import Left, Reason
from ..jobs.crew import Child, Crew, Parent
from ..jobs.order import SameFolder
from ..ledger.history import BY_WORD, About, RecordLine
from ..ledger.record import Record
from ..maildir.disk import Need, want_room
from ..progress import how_far
from ..signals import INTERRUPTS
from ..terminal import bytes_of, complain
from .outcomes import Observer, Outcome, row_left
from .places import Planned
from .telling import fields_of, row_of, value_of


class Work(Parent):
    """The work of a worker: it asks its parent for whatever concerns other workers too."""

    # the groups of mailboxes that it may be told to do, by the places of their first ones
    waiting: Mapping[int, SameFolder] = {}

    def groups(self) -> Iterator[SameFolder]:
        """The next groups of mailboxes, as long as there are any. Each is told by its first one: an answer must fit
        into a pipe, and one folder may have any number of mailboxes."""
        return (self.waiting[first] for first, in iter(lambda: tuple(self.ask("next")), ()))

    def begin(self) -> None:
        """Tells that work on a mailbox begins."""
        self.tell("begins")

    def write(self, *lines: RecordLine) -> None:
        """Has lines written into the record. Raises Fault if that fails."""
        for line in lines:
            refusal = self.refusal("line", *line)
            if refusal:
                raise refusal

    def want_room(self, need: Need) -> None:
        """Waits until nobody else at work counts on the same room on a disk. Raises Left if the disk lacks room
        then."""
        self.ask("needs", *need)
        want_room(need)

    def end(self, place: int, ended: Outcome) -> None:
        """Tells what became of the mailbox at a place in the plan."""
        self.next_time = 0.0
        # JSON would keep no fractions of the times of a state
        state = ended.state and ended.state.__reduce__()[1]
        self.tell("became", place, fields_of(ended.row), *ended[1:-1], state)


class Orders(NamedTuple):
    """What a worker does for a plan, the record that it has lines written into, and who is told of it."""

    work: Callable[[Work], object]
    plan: Sequence[Planned]
    record: Record
    observer: Observer


class Worker(Child):
    """A process at work for some mailboxes of one folder."""

    def __init__(self, places: SameFolder) -> None:
        super().__init__()
        # the mailboxes that it has told no row of yet
        self.places = list(places)
        # whose progress it told last, and what that was; the room that it counts on, and the room that it waits for
        self.who, self.at = "", ""
        self.has: Optional[Need] = None
        self.wants: Optional[Need] = None


class Workers(Crew):
    """Several workers."""

    parent = Work

    def __init__(self, jobs: int, groups: Sequence[SameFolder], orders: Orders) -> None:
        super().__init__(jobs)
        self.takes.update(at=self.take_progress, ask=self.take_question, became=self.take_row)
        self.takes["begins"] = lambda _: orders.observer.begin()
        self.orders = orders
        # the mailboxes that nobody has begun with
        self.groups = collections.deque(groups)
        # what became of mailboxes, by their places in the plan, until it is taken
        self.ended: dict[int, Outcome] = {}

    def __exit__(self, kind: Optional[type[BaseException]], *rest: object) -> None:
        with INTERRUPTS.held():
            for worker in self.children.values():
                if kind is KeyboardInterrupt and worker.at:
                    complain("%s: interrupted: %s" % (worker.who, worker.at))
            self.groups.clear()
            super().__exit__(kind, *rest)

    def become(self, child: Worker, parent: Any) -> None:
        parent.waiting = {group[0]: group for group in (child.places, *self.groups)}

    def turns(self) -> Iterator[None]:
        """Lets workers do everything. After each turn, what became of mailboxes can be taken."""
        while self.groups or self.children:
            if self.groups and len(self.children) < self.jobs:
                # they are its own even if it ends before it asks for them, lest one after the other starts for them
                self.start(Worker(self.groups.popleft()), self.orders.work)
            self.turn()
            yield

    def take_question(self, child: Worker, what: str, *words: Any) -> None:
        """Takes what a worker asks for: the mailboxes of the next folder, of which there are none once all are begun;
        that a line is written into the record; or room on a disk, for which it waits."""
        if what == "next":
            if self.groups and not child.places:
                child.places += self.groups.popleft()
            child.answer(*child.places[:1])
        elif what == "line":
            word, (folder, *text), *others = words
            child.serve(
                self.orders.record.add_lines, RecordLine(BY_WORD[word], About(bytes_of(folder), *text), *others)
            )
        else:
            child.has, child.wants = None, value_of(Need, words)

    def take_progress(self, child: Worker, who: str, doing: str, *numbers: int) -> None:
        """Passes on how far a mailbox is."""
        child.who, child.at = who, " ".join([doing, *([how_far(*numbers)] if len(numbers) == 2 else [])])
        self.orders.observer.progress(who, doing, *numbers)

    def take_row(self, child: Worker, place: int, row: Mapping[str, Any], *told: Any) -> None:
        """Takes what became of a mailbox."""
        child.places.remove(place)
        folder_path, batch, ends_list, path, state = told
        its = bytes_of(path), state and os.stat_result(*state)
        self.ended[place] = Outcome(row_of(row), bytes_of(folder_path), batch, ends_list, *its)
        self.rest(child)

    def serve(self) -> None:
        """Lets workers go on that wait for room: if there is enough beside the room that others count on, or if
        none of the others counts on the same disk. In the second case the worker finds out itself whether there is
        enough."""
        for worker in self.children.values():
            need = worker.wants
            if need:
                others = [one.has for one in self.children.values() if one.has and one.has.disk == need.disk]
                size = need.size + sum(one.size for one in others)
                inodes = need.inodes + sum(one.inodes for one in others)
                if not others or not need._replace(size=size, inodes=inodes).shortage():
                    worker.has, worker.wants = need, None
                    worker.answer()

    def rest(self, worker: Worker) -> None:
        """Notes that a worker has done a mailbox, or has ended."""
        if worker.at:
            self.orders.observer.rest(worker.who)
        worker.at, worker.has, worker.wants = "", None, None

    def end(self, child: Worker, status: int) -> None:
        """Takes out a worker that has ended. Mailboxes that it told no row of are left."""
        super().end(child, status)
        self.rest(child)
        why = child.why_ended(status)
        left = Left(why, Reason.DEFECT) if child.fault else Left(why + ": run this again", Reason.PROCESS)
        for place in child.places:
            one = self.orders.plan[place]
            self.ended[place] = Outcome(row_left(one.path, one.folder, left))
