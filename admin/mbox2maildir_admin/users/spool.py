"""The mailboxes of a spool: whose they are, and where the names of these users came from. For each user, a child with
only this user's rights does the work of a command."""
import os
from collections.abc import Container, Iterable, Iterator, Mapping, Sequence
from typing import AbstractSet, Optional, Union

from ..faults import Fault, Left, Reason, naming
from ..jobs.order import MOST, jobs_of, size_of
from ..kinds.named import is_auxiliary, is_no_mail
from ..looks import is_surely, is_there, may_be, upwards, way_to
from ..maildir.folders import COPIES, folder_path, on_disk
from ..migration.outcomes import Observer, Row, Verdict, row_left
from ..migration.servers import locations
from ..nexts import Answer, Command, Runs, run_next
from ..program import find_program
from ..terminal import INPUT, complain, first_of, named, operand, put, shown, text_of
from ..units import counted
from .accounts import MANY, NOBODY, Account, AccountKey, Accounts, size_of_mailbox, why_no_home
from .children import Children, load_for_children
from .homes import SpoolUser, Spool

COMMAND_LINE, SPOOL, ACCOUNTS = "from the command line", "from the spool", "from the accounts"
# as the name of a list of users: standard input
DASH = b"-"
# how long such a list may be, in bytes, and what ends a name in it
LONGEST_LIST, ENDS = 1 << 24, frozenset(b"\t\n")

# where each name came from, by the name
Sources = Mapping[bytes, str]


def asked_for(names: Sequence[bytes], path: Optional[bytes]) -> Optional[Sources]:
    """The users that the command line and a list name; None if neither names any. The list has one name per line, each
    up to a tab. Raises Fault if it has none, since that would have meant all users."""
    asked = dict.fromkeys(names, COMMAND_LINE)
    if path is None:
        return asked or None
    place = "standard input" if path == DASH else named(path)
    with naming(path), open(INPUT if path == DASH else path, "rb", closefd=path != DASH) as file:
        text = file.read(LONGEST_LIST + 1)
    if len(text) > LONGEST_LIST:
        raise Fault("%s: it is longer than 16 MB, so it is not a list of names" % place)
    listed = list(filter(None, (line.partition(b"\t")[0] for line in text.split(b"\n"))))
    if not listed:
        raise Fault("%s: it contains no name" % place)
    for name in listed:
        asked.setdefault(name, "from %s" % place)
    return asked


def for_users(spool: Spool, observer: Observer) -> None:
    """Does the work of a command on the mailboxes of a spool, and on a folder of mailboxes of each home, user by
    user."""
    options = spool.options
    spool = spool._replace(program=os.path.abspath(find_program()))
    if options.prepare:
        spool = spool._replace(locations=locations())
    jobs = observer.at_once = jobs_of(options.jobs, MOST)
    waiting, others = users_of(spool, observer, jobs > 1)
    load_for_children()
    observer.total = len(waiting) + len(others)
    # only one process at a time can be at work for an account
    first = map(SpoolUser.unpacked, waiting), min(jobs, len(waiting))
    for several, at_once in (first, (others, min(1, len(others)))):
        with Children(at_once, observer) as children:
            for place, one in enumerate(several):
                observer.begin()
                # if there are fewer users than jobs, several folders of a user are at work; what is left over goes to
                # the first ones, which are the largest
                its = options._replace(jobs=jobs // at_once + (place < jobs % at_once))
                children.add(spool.work(one, spool._replace(options=its)))
            children.wait()


def users_of(spool: Spool, observer: Observer, is_by_size: bool) -> tuple[list[bytes], list[SpoolUser]]:
    """The users for whom a command does its work, packed until it is their turn: those that were asked for, otherwise
    those of the spool, and all users if homes have a folder of mailboxes; and further mailboxes of theirs. Says which
    names are left."""
    listed = frozenset(os.listdir(spool.path))
    want_entered(spool.path)
    users = Users(spool, listed, observer)
    if spool.asked is None:
        counts, not_asked = {SPOOL: 0, ACCOUNTS: 0}, 0
        for name in listed - users.names:
            observer.row(Row(b"", b"", "", None, Verdict.NO_MAIL, user=shown(name)))
    else:
        counts = dict.fromkeys(spool.asked.values(), 0)
        not_asked = len({stem_of(name, listed) for name in listed} - spool.asked.keys())
    for name, source, account in users.looked_at():
        if isinstance(account, Left):
            users.leave(name, account)
            users.leave_copies(name)
        else:
            users.add(name, account)
            counts[source] += 1
    observer.notes += tuple(sums_of(counts, not_asked))
    if spool.work.is_back:
        users.join()
    found: Iterable[SpoolUser] = users.found.values()
    if is_by_size:
        # the largest mailbox begins first, lest it is alone at the end; otherwise users keep the order of names
        found = sorted(found, key=lambda one: one.size or 0, reverse=True)
    return list(map(SpoolUser.packed, found)), users.others


def sums_of(counts: Mapping[str, int], not_asked: int) -> Iterator[str]:
    """What the last line says of users: how many there are, by where their names came from, and how many names of the
    spool were not asked for."""
    found = {source: count for source, count in counts.items() if count} or dict([*counts.items()][:1])
    said = ", ".join("%d %s" % (count, source) for source, count in found.items())
    yield "%s: %s" % (counted(sum(counts.values()), "user"), said)
    if not_asked:
        yield "%s of the spool %s not asked for" % (counted(not_asked, "name"), "was" if not_asked == 1 else "were")


def list_users(spool: Spool) -> bool:
    """Prints the name of each user whom a run takes, where the name came from, and how many bytes the mailbox in the
    spool has, with tabs between them. Returns whether a list can hold all of these names."""
    can_hold, nobodys = True, list[bytes]()
    users = Users(spool, os.listdir(spool.path) if spool.asked is None else (), Observer())
    for name, source, account in users.looked_at():
        if isinstance(account, Left):
            nobodys.append(name)
            continue
        if source == ACCOUNTS and not may_have_mail(account, spool):
            continue
        if ENDS & {*name}:
            complain("%s: a list cannot hold this name" % named(name))
            can_hold = False
        else:
            put("%s\t%s\t%d" % (text_of(name), source, size_of(os.path.join(spool.path, name))))
    if spool.asked is not None and nobodys:
        complain("no user has %s: %s" % ("this name" if len(nobodys) == 1 else "these names", first_of(nobodys)))
    return can_hold


def may_have_mail(account: Account, spool: Spool) -> bool:
    """Whether a home may have a Maildir or a folder of mailboxes. Of their names root looks at the first part alone,
    lest it follows what is the user's. What could not be looked at may be there."""
    parts = [os.path.normpath(name).split(b"/")[0] for name in (spool.maildir, spool.tree) if name]
    return not is_surely(is_there, os.path.join(account.home, b".")) or any(
        may_be(is_there, os.path.join(account.home, part)) for part in parts
    )


def want_entered(spool: bytes) -> None:
    """Checks that users can enter a folder, and those of all symbolic links that lead there. Raises Fault if not."""
    real, links = way_to(spool)
    for here in (above for place in (real, *[os.path.dirname(link) for link in links]) for above in upwards(place)):
        if not os.stat(here).st_mode & 0o001:
            then = run_next(Runs.LET_ENTER, operand(here))
            raise Fault("users may not enter %s" % named(here), Reason.NOT_OWN, then)


def stem_of(name: bytes, names: Container[bytes]) -> bytes:
    """The name of the mailbox, among these names, that a file may be a copy of; otherwise the name of the file
    itself."""
    # a spool may have many names, of which most have no such ending
    if not name.endswith(COPIES):
        return name
    for ending in COPIES:
        stem = name[: -len(ending)]
        if name.endswith(ending) and stem in names:
            return stem_of(stem, names)
    return name


def mailboxes_among(names: Iterable[bytes], spool: Spool) -> AbstractSet[bytes]:
    """The names of a spool that may be mailboxes, or copies of one, as locks and empty hidden files are not."""
    passed = set()
    # of other names, no file is looked at: there may be many
    for name in filter(is_auxiliary, names):
        try:
            is_passed = is_no_mail(os.path.join(spool.path, name))
        except FileNotFoundError:
            # a lock that was let go of meanwhile
            is_passed = name.endswith(b".lock")
        except (Fault, OSError):
            # if it is there, it is left for that reason later
            is_passed = False
        if is_passed:
            passed.add(name)
    return frozenset(names) - passed


class Users:
    """The users who have a turn, and all names that are looked at for them: those that are asked for, otherwise the
    mailboxes of the spool and, if homes have a folder of mailboxes, all users. Each account is there once, under the
    name of its mailbox."""

    def __init__(self, spool: Spool, listed: Iterable[bytes], observer: Observer) -> None:
        """Begins without users, with the names that the spool has."""
        self.spool, self.observer, self.accounts = spool, observer, Accounts()
        self.names = mailboxes_among(listed, spool)
        # the names that may be copies, by the names of their mailboxes, with which they go
        self.copies: dict[bytes, list[bytes]] = {}
        found: dict[bytes, str] = {}
        for name in sorted(self.names):
            stem = stem_of(name, self.names)
            # an account may have such a name
            if stem == name or self.accounts.has(name):
                found[name] = SPOOL
            else:
                self.copies.setdefault(stem, []).append(name)
        if spool.asked is None and spool.is_of_homes:
            for account in filter(self.accounts.is_users, self.accounts.read()):
                found.setdefault(account.name, ACCOUNTS)
        self.sources: Sources = {name: found[name] for name in sorted(found)} if spool.asked is None else spool.asked
        self.found: dict[AccountKey, SpoolUser] = {}
        # further mailboxes of the same accounts
        self.others: list[SpoolUser] = []

    def looked_at(self) -> Iterator[tuple[bytes, str, Union[Account, Left]]]:
        """Each name with where it came from, and its account, or why it is left."""
        if len(self.sources) > MANY and not self.accounts.by_name:
            self.accounts.read()
        for name, source in self.sources.items():
            try:
                yield name, source, self.user_of(name)
            except Left as left:
                yield name, source, left

    def user_of(self, name: bytes) -> Account:
        """The account of a name. Raises Left if it is not a user's, and was not asked for by its name, with what would
        do it."""
        account, spool = self.accounts.of_name(name), self.spool
        if self.accounts.is_users(account) or spool.asked is not None and account.uid not in (0, *NOBODY):
            return account
        command, words, says = spool.work.command, spool.words(), "a system account"
        mailbox = operand(os.path.join(spool.path, account.name))
        if account.uid == 0:
            then = run_next(command, *words, operand(os.path.join(account.home, spool.maildir)), mailbox)
        elif account.uid not in NOBODY and not why_no_home(account):
            says += ", which must be named"
            then = run_next(
                command, "--users", *words, *spool.words_of_homes(), operand(spool.path), operand(account.name)
            )
        else:
            # whatever is at that place, it is no place for mail
            says += " without a home of its own"
            then = (Answer(Command.of(command, *words, "MAILDIR", mailbox, user=text_of(account.name))),)
        raise Left(says, Reason.SYSTEM_ACCOUNT, then)

    def leave(self, name: bytes, fault: Union[Fault, OSError]) -> None:
        """Reports why root itself leaves a user."""
        row = row_left(os.path.join(self.spool.path, name), b"", fault)
        self.observer.row(row._replace(path=b"", user=shown(name)))

    def add(self, name: bytes, account: Account) -> None:
        """Adds a user. If something is wrong with the mailbox, that is said, and the home is looked at all the same."""
        key, place = account.key, os.path.join(self.spool.path, name)
        user = SpoolUser(name, account, place, None)
        try:
            user = user._replace(size=size_of_mailbox(place, account))
            if user.size is None and not self.spool.is_of_homes:
                raise Left("no mailbox of that name in %s" % named(self.spool.path), Reason.NO_MAILBOX)
        except (Left, OSError) as fault:
            self.leave(name, fault)
            user = user._replace(is_left=True)
        if user.size is None:
            self.leave_copies(name)
        else:
            user = user._replace(copies=self.copies_of(name, account))
            other = self.other_name(name, key)
            if other is not None:
                self.others.append(user._replace(why_not=self.why_not(account, other, place)))
                if other in self.sources:
                    return
                user = SpoolUser(name, account, place, None, True)
        if user.size is not None or self.spool.is_of_homes and key not in self.found:
            self.found[key] = user

    def join(self) -> None:
        """Gives each account all of its mailboxes."""
        for one in self.others:
            key = one.account.key
            if key in self.found:
                self.found[key] = self.found[key]._replace(others=(*self.found[key].others, one.place))
        self.others.clear()

    def copies_of(self, name: bytes, account: Account) -> tuple[bytes, ...]:
        """The files beside the mailbox of this name that may be copies of it. Files of another owner are left."""
        found = []
        for other in self.copies.get(name, ()):
            path = os.path.join(self.spool.path, other)
            try:
                size_of_mailbox(path, account)
                found.append(path)
            except (Left, OSError) as fault:
                self.leave(other, fault)
        return tuple(found)

    def leave_copies(self, name: bytes) -> None:
        """Leaves the files beside a mailbox that is left itself."""
        for other in self.copies.get(name, ()):
            self.leave(other, Left("it may be a copy of %s, which is left" % named(name), Reason.COPY))

    def why_not(self, account: Account, other: bytes, mailbox: bytes) -> Left:
        """Why the mailbox of a further name of an account is left, and the command that migrates it, or checks it."""
        maildir, command = os.path.join(account.home, self.spool.maildir), self.spool.work.command
        words = [*self.spool.words(), "--folder", "NAME", operand(maildir)]
        if command is Runs.VERIFY:
            words = [operand(folder_path(maildir, on_disk("NAME")))]
        says = "%s is the same user, and its mailbox goes into INBOX" % named(other)
        return Left(says, Reason.SAME_USER, run_next(command, *words, operand(mailbox)))

    def other_name(self, name: bytes, key: AccountKey) -> Optional[bytes]:
        """The other name of an account whose mailbox goes into its Maildir: the one that the system gives its number,
        if the spool has that, or mail may go back there; otherwise the first one."""
        own = self.accounts.of_number(key[0])
        if own and own.name != name and own.key == key:
            # on the way back, an account has its place under its own name, even if no mailbox is there
            if own.name in self.names or self.spool.work.is_back and own.name in self.sources:
                return own.name
        taken = self.found.get(key)
        return taken.name if taken and taken.size is not None else None
