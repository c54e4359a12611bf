"""Mailboxes that each go into a folder of one Maildir."""
import functools
import os
from collections.abc import Callable, Iterator, Sequence
from typing import TYPE_CHECKING, Optional

from ..faults import Fault, Left, Reason
from ..jobs.order import InOrder, SameFolder, in_groups, jobs_of, largest_first
from ..kinds.folders import is_maildir
from ..ledger.record import Record
from ..looks import is_below, is_file, is_folder, is_link, is_surely, is_there, may_be, real_path, type_at
from ..maildir.folders import INBOX
from ..maildir.making import real_place, want_maildir, want_own, want_roots, want_roots_alone
from ..maildir.disk import Syncs
from ..mbox.files import is_empty
from ..nexts import NOTHING, Runs, Todo, run_next, task
from ..program import Program, find_program
from ..progress import Beat
from ..readings.texts import is_mbox
from ..remarks import Says
from ..terminal import named, operand, text_of
from .dovecot import OLD_SUBSCRIPTIONS, SUBSCRIPTIONS, Dovecot, subscribe
from .carrying import rows_once_synced
from .mailbox import Migration
from .outcomes import Observer, Outcome, Row, Verdict, row_left, seen
from .places import Pairs, Planned, UserHome, as_inbox, as_named, into_inbox, recorded_or_moved
from .preparing import Leftovers
from .servers import locations, want_unread
from .options import Options
from .steps import Extra
from .trees import NamesMet, Tree, identity, link_left, other_names

if TYPE_CHECKING:
    from .workers import Work

# tells a row
Tell = Callable[[Row], object]


def migrate_own(maildir: bytes, names: Sequence[bytes], options: Options, observer: Observer) -> None:
    """Migrates into a Maildir of the user who runs this."""
    maildir, names = real_place(maildir), seen(names, observer)
    refuse(maildir, names, options)
    if options.prepare:
        want_unread(maildir, os.fsencode(os.path.expanduser("~")), locations(), options.unread)
    os.umask(0o077)
    run_all(options, maildir, names, observer, Program(find_program()))


def refuse(maildir: bytes, names: Sequence[bytes], options: Options = Options()) -> None:
    """Raises Fault for what is refused before anything is made. `options` go into the command that is to be run
    instead."""
    try:
        want_maildir(maildir)
    except NotADirectoryError:
        if not is_there(maildir):
            raise
        # a name that is no file may be the Maildir
        first = next((name for name in names if not is_file(name)), maildir)
        raise not_in_order(
            "%s: it is a file, not a Maildir" % named(maildir), first, [maildir, *names], options
        ) from None
    for name in names:
        # one that can't be looked at is left once it is read
        if is_surely(is_maildir, name):
            raise not_in_order("%s: it is a Maildir, not a mailbox" % named(name), name, [maildir, *names], options)
    if os.geteuid() == 0:
        words = [*options.words(), *(operand(os.path.abspath(name)) for name in [maildir, *names])]
        # the owner of the folder that the Maildir is in could put another one in its place
        for path in (maildir, os.path.dirname(os.path.abspath(maildir)), *names):
            if type_at(path):
                want_roots(path, words)
        want_roots_alone(maildir)


def not_in_order(why: str, first: bytes, names: Sequence[bytes], options: Options) -> Fault:
    """Why names are refused, and the command that names the Maildir first, unless one is there already, or that moves
    it if nothing is there that could go into it; if no name is the Maildir's, a human names it."""
    then = task(Todo.OTHER_MAILDIR, os.path.join(os.path.dirname(text_of(names[0])), "Maildir"))
    rest = [name for name in names if name != first]
    if not any(may_be(is_there, name) for name in rest):
        return Fault(why, Reason.MAILDIR, run_next(Runs.MOVE, operand(first), operand(names[0])))
    if first != names[0]:
        then = run_next(Runs.MIGRATE, *options.words(), operand(first), *map(operand, rest))
    return Fault(why + ": the Maildir comes first", Reason.MAILDIR, NOTHING if is_maildir(names[0]) else then)


def run_all(
    options: Options,
    maildir: bytes,
    names: Sequence[bytes],
    observer: Observer,
    program: Program,
    home: Optional[UserHome] = None,
) -> None:
    """Migrates each mailbox into its folder. In a home only what is its user's own is touched, over no symbolic
    link."""
    with Record.to_migrate(maildir, options.dry) as record:
        extra = Dovecot(record) if options.dovecot else Extra()
        options = options._replace(extra=extra, names=names, home=home.path if home else b"")
        several = Several(Migration(program, record, options), observer, home)
        # a first pass leaves nothing over
        leftovers = None if options.prepare else Leftovers(record, names, options)
        plan = several.migrate_all()
        for row in leftovers.rows(plan) if leftovers else ():
            observer.row(row)
        several.subscribe()


class Several:
    """The mailboxes of some names. A name that is a folder stands for a tree of mailboxes."""

    def __init__(self, migration: Migration, observer: Observer, home: Optional[UserHome]) -> None:
        options, names = migration.options, migration.options.names
        self.migration, self.names, self.observer, self.is_of_home = migration, names, observer, home is not None
        self.say, self.syncs = observer.progress, Syncs(self.tell_synced, home.sync_one if home else None)
        # an Inbox of a user's tree is not the user's inbox, if that is or was another mailbox
        is_taken = home and (home.has_inbox or migration.record.last_events(INBOX))
        self.taken: set[bytes] = {INBOX} if is_taken else set()
        # the symbolic links that are followed: those that were named
        self.links = {one for one in names if not self.is_of_home and is_link(one)}
        # the subscriptions of trees that are to be written
        trees = filter(self.is_tree, names) if options.dovecot and not options.prepare else ()
        self.subscriptions = {os.path.join(tree.rstrip(b"/") or b"/", OLD_SUBSCRIPTIONS): tree for tree in trees}
        own = names if self.is_of_home else None
        self.pairs = Pairs(migration.record, migration.record.maildir, options.of_next(), own)
        # the rows of files without mail
        self.found: dict[bytes, Row] = {}
        # a name that is given has its verdict by that name, even if a tree has the same file; the other names of files
        self.met: NamesMet = {}
        self.others: dict[bytes, list[bytes]] = {}
        self.trees: dict[bytes, Tree] = {}

    def migrate_all(self) -> Sequence[Planned]:
        """Migrates each mailbox; those that are files go into the folder that is asked for. Returns which hold mail."""
        options, record, plan = self.migration.options, self.migration.record, list(self.plan())
        if not options.folder:
            # the mailbox of a spool is its user's inbox, whatever its name is; an exported mailbox counts as its file
            files = [one for one in self.names if is_file(one) and (not self.is_of_home or is_below(one, options.home))]
            exports = [tree.export for tree in self.trees.values() if tree.export]
            plan = self.pairs.without_folders_in_inbox(plan, files + exports)
        self.observer.total += len(plan)
        groups, jobs, rows = list[SameFolder](), 1, InOrder(self.observer.row)
        if plan and options.jobs != 1:
            # a symbolic link may give a folder two names, and it has one ledger
            groups = in_groups([one.folder and real_path(one.folder_in(record.maildir)) for one in plan])
            jobs = min(jobs_of(options.jobs, len(groups)), len(groups))
        try:
            if jobs > 1 and any(is_mbox(one.leads_to or one.path) for one in plan):
                # several processes need it from the beginning
                record.make()
            # a rehearsal needs none
            if jobs > 1 and (record.is_dry or record.is_open):
                self.observer.at_once = jobs
                paths = [one.leads_to or one.path for one in plan]
                self.migrate_at_once(plan, largest_first(groups, paths), jobs, rows)
            else:
                for one in plan:
                    self.observer.begin()
                    ended = self.run_named(one)
                    self.observer.rest(named(one.path))
                    self.tell_once_synced(ended)
        finally:
            # what was verified is done, even if a signal ends this
            self.syncs.sync()
            rows.end()
        return [one for one in plan if one.path not in self.found]

    def migrate_at_once(self, plan: Sequence[Planned], groups: Sequence[SameFolder], jobs: int, rows: InOrder) -> None:
        """Migrates the mailboxes of several folders at the same time. What ends first is noted first."""
        from .workers import Orders, Workers

        orders = Orders(functools.partial(self.work, plan), plan, self.migration.record, self.observer)
        workers = Workers(jobs, groups, orders)

        def report() -> None:
            for place in sorted(workers.ended):
                self.tell_once_synced(workers.ended.pop(place), functools.partial(rows.take, place))

        try:
            with workers:
                for _ in workers.turns():
                    self.syncs.sync_in_time()
                    report()
        finally:
            report()

    def work(self, plan: Sequence[Planned], work: "Work") -> None:
        """Does the work of a worker. Its parent syncs, writes the record and reports, and knows the room that all
        workers need."""
        migration, self.syncs, self.say = self.migration, Syncs(self.tell_synced), work.progress
        migration.want_room, migration.program.alive = work.want_room, work.alive
        if not migration.options.dry:
            migration.record.write = work.write
        for places in work.groups():
            for place in places:
                work.begin()
                work.end(place, self.run_named(plan[place]))

    def tell_once_synced(self, one: Outcome, tell: Optional[Callable[[Optional[Row]], object]] = None) -> None:
        """Tells what became of a name: of subscriptions once they are written, and of a mailbox that was verified,
        and all after it, once that is on the disk. `tell` takes the row, and none of subscriptions."""
        if one.row.verdict == Verdict.NO_MAIL:
            self.found[one.row.path] = one.row
        if one.row.path not in self.subscriptions or one.row.verdict != Verdict.NO_MAIL:
            self.syncs.add(one.folder_path, (one, tell or self.observer.row))
        elif tell:
            tell(None)

    @staticmethod
    def tell_synced(several: Sequence[tuple[tuple[Outcome, Tell], Optional[OSError]]]) -> None:
        """Notes what became of mailboxes whose disks were synced, and tells their rows."""
        for row, ((_, tell), _) in zip(rows_once_synced([(one, fault) for (one, _), fault in several]), several):
            tell(row)

    def progress(self, who: str, doing: str, place: Optional[int] = None, size: Optional[int] = None) -> None:
        """Passes on how far a mailbox is. Syncs if others have waited for long enough meanwhile."""
        self.syncs.sync_in_time()
        self.say(who, doing, place, size)

    def is_tree(self, name: bytes) -> bool:
        """Whether a name is that of a folder of mailboxes. If no symbolic link is followed, one is not one unless its
        user has migrated what it leads to."""
        return is_folder(name) and not (self.is_of_home and is_link(name) and not self.migration.record.has_below(name))

    def plan(self) -> Iterator[Planned]:
        """The mailboxes in their order, with their folders. Reports the rows of what is not migrated."""
        names: dict[bytes, bytes] = {}
        folder = self.migration.options.named_folder
        for name in self.names:
            names.setdefault(os.path.abspath(name), name)
        for name in names.values():
            key = None if self.is_tree(name) or self.is_of_home and is_link(name) else identity(name)
            if key:
                self.met.setdefault(key, {}).setdefault(os.path.abspath(name), name)
        record, maildir, options, _ = self.pairs
        # before a file has its folder, all of its names are known
        is_alone = len(names) == 1 and not self.is_of_home
        trees = filter(self.is_tree, names.values())
        self.trees = {name: Tree(name, maildir, self.met, options, is_alone).read() for name in trees}
        self.others = other_names(self.met)
        for name in names.values():
            if name in self.trees:
                tree = self.trees[name]
                placed = tree.placed(record, maildir, self.taken, self.is_no_mail)
                maildirs = [one.row(maildir, self.taken) for one in tree.maildirs]
                for row in [*tree.rows, *maildirs]:
                    self.tell_once_synced(Outcome(row))
                yield from placed
            elif self.is_of_home and is_link(name):
                self.observer.leave(name, link_left(name))
            else:
                one = Planned(name, INBOX if folder is None else folder)
                if folder is None:
                    one = self.pairs.judged(recorded_or_moved(one, record))
                else:
                    one = as_named(one, self.migration.record, self.migration.options.of_next())
                self.taken.add(one.folder)
                yield as_inbox(one)

    def is_no_mail(self, one: Planned) -> bool:
        """Whether a file that would go into the folder of another one holds no mail."""
        why = Left("it is only looked at")
        return (
            is_empty(one.path)
            or self.migration.migrate_path(one.path, one.folder, why=why).row.verdict == Verdict.NO_MAIL
        )

    def run_named(self, one: Planned) -> Outcome:
        """Migrates a mailbox. Its row says which other name its folder had, and which other names the file has."""
        ended, others = self.run_one(one), self.others.get(one.path)
        row = ended.row
        if one.before and row.folder and row.verdict != Verdict.BEFORE:
            # mail programs will show another name than Dovecot did
            row = row._replace(remarks=(*row.remarks, Says.NAME_BEFORE.of(named(one.before))))
        if others and row.is_said():
            row = row._replace(remarks=(*row.remarks, Says.ALSO_NAMED.of(" and ".join(map(named, others)))))
        is_done = row.verdict in (Verdict.DONE, Verdict.BEFORE, Verdict.WOULD)
        if one.is_inbox and is_done and INBOX not in self.taken and not self.migration.record.last_events(INBOX):
            then = into_inbox(one, row.folder, self.migration.options, self.migration.record)
            row = row._replace(next=(*row.next, *then))
        return ended._replace(row=row)

    def run_one(self, one: Planned) -> Outcome:
        """Migrates a mailbox, unless it may not go into its folder."""
        if self.is_of_home and one.folder not in (INBOX, b""):
            try:
                want_own(one.folder_in(self.migration.record.maildir))
            except Fault as fault:
                return Outcome(row_left(one.path, one.folder, fault))
        reason = one.why.reason if one.why else None
        if reason is Reason.NO_FOLDER and is_empty(one.path):
            return Outcome(Row(one.path, b"", "", None, Verdict.NO_MAIL))
        if one.leads_to and one.why:
            return Outcome(row_left(one.path, b"", one.why))
        say = Beat(functools.partial(self.progress, named(one.path)))
        follow = one.path in self.links
        ended = self.migration.migrate_path(one.leads_to or one.path, one.folder, say, follow, one.why)
        row = ended.row._replace(path=one.path)
        if one.why and reason is Reason.COPY and row.verdict == Verdict.LEFT:
            # whatever its text is, this reason comes first
            row = row._replace(why=str(one.why), reason=reason, quotes=(), next=one.why.next)
        return ended._replace(row=row)

    def subscribe(self) -> None:
        """Writes the subscriptions of trees. Those that can't be written are left, and so is a file that is there and
        lacks some of their lines."""
        migration, maildir = self.migration, self.pairs.maildir
        dry, file = migration.options.dry or not migration.record.is_open, os.path.join(maildir, SUBSCRIPTIONS)
        for path in [one for one in self.subscriptions if one in self.found]:
            row = self.found[path]
            try:
                lines = subscribe(maildir, self.subscriptions[path], migration.record, dry)
            except (Fault, OSError) as fault:
                row = row_left(path, b"", fault)._replace(reason=Reason.SUBSCRIPTIONS)
            else:
                if lines:
                    escaped = [text_of(line.replace(b"\\", b"\\\\").replace(b"\t", b"\\t")) for line in lines]
                    then = run_next(Runs.ADD_LINES, operand(file), *escaped)
                    row = row_left(path, b"", Left("%s already exists" % named(file), Reason.SUBSCRIPTIONS, then))
            self.observer.row(row)
