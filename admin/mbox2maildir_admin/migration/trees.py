"""The names below a folder of mailboxes, and the mailboxes among them."""
import os
import stat
from collections.abc import Callable, Collection, Mapping, Sequence
from typing import NamedTuple, Optional, Union

from ..faults import Fault, Left, Reason
from ..kinds.folders import (
    BY_THUNDERBIRD,
    MAILDIR,
    MBOX,
    MH,
    SEQUENCES,
    STORE,
    DirEntry,
    Profiles,
    has_maildir,
    has_store,
    is_export,
    is_of_maildir,
    lacking_in,
    messages_of_mh,
    next_of_mh,
)
from ..kinds.making import ORIGINAL
from ..kinds.named import is_no_mail
from ..ledger.history import History
from ..looks import is_folder, is_surely, is_there, may_be, real_path, state_at, type_at
from ..maildir.disk import PREFIX
from ..maildir.folders import INBOX, LONGEST, folder_on_disk, folder_path, name_before
from ..maildir.making import SUBFOLDERS
from ..nexts import NOTHING, Answer, Command, Next, Runs, Single, Todo, task
from ..remarks import Remark, Says
from ..terminal import is_text, named, operand, text_of
from .outcomes import Row, Verdict, row_left
from .places import Pairs, Planned, recorded, with_own_folders
from .options import Options

# the facts that show that two paths are of one file: its device and inode
Identity = tuple[int, int]
# the paths at which each file and folder was met, in their order, by their names without `..` and the like
NamesMet = dict[Identity, dict[bytes, bytes]]


class Maildir(NamedTuple):
    """A Maildir in a tree, the name on the disk of the folder that it would be, if it has one, whether other names are
    in it, and which of its folders it lacks."""

    path: bytes
    folder: bytes
    has_more: bool
    lacking: Collection[bytes]

    def row(self, maildir: bytes, taken: set[bytes]) -> Row:
        """Its row, with the command that moves it into the place of a folder of a Maildir, if that is free, which is
        taken then. The command makes what is missing of both."""
        place, missing = folder_path(maildir, self.folder), folders_of(self.path, self.lacking)
        if not self.folder:
            then = making(missing) + task(Todo.MOVE_TO, text_of(os.path.join(maildir, b".NAME")))
        elif self.folder == INBOX or self.folder in taken or may_be(is_there, place):
            then = task(Todo.MOVE_FILES, text_of(place))
        elif self.has_more:
            then = making(missing) + task(Todo.MOVE_OTHERS)
        else:
            taken.add(self.folder)
            if not may_be(is_there, maildir):
                # it may be that no mailbox goes there
                missing = [operand(maildir), *folders_of(maildir, SUBFOLDERS), *missing]
            then = making(missing, Single(Runs.MOVE, (operand(self.path), operand(place))))
        return row_left(self.path, b"", Left(MAILDIR, Reason.MAILDIR, then))


def folders_of(maildir: bytes, subs: Collection[bytes]) -> list[str]:
    """Some of a Maildir's folders, as operands."""
    return [operand(os.path.join(maildir, sub)) for sub in SUBFOLDERS if sub in subs]


def making(folders: Sequence[str], *rest: Single) -> Next:
    """The command that makes folders that are missing, and does the rest; nothing if there is nothing to do."""
    singles = (*[Single(Runs.MAKE_OWN_FOLDERS, tuple(folders))] * bool(folders), *rest)
    return (Answer(Command(singles)),) if singles else NOTHING


class Tree:
    """The names below a folder. Each is met once. No symbolic link is followed, since it may lead anywhere."""

    def __init__(
        self,
        old: bytes,
        maildir: Optional[bytes] = None,
        met: Optional[NamesMet] = None,
        options: Options = Options(),
        is_alone: bool = False,
    ) -> None:
        """Takes the folder, the Maildir into which all goes, which may be below the folder and is left out, what was
        met before elsewhere, the options of the next commands, and whether nothing else is named."""
        self.old, self.options, self.is_alone = old.rstrip(b"/") or b"/", options, is_alone
        # the folder below which the path of a mailbox is its place; and the mailbox that the folder itself is, if
        # Apple Mail exported it
        self.top, self.export = self.old, b""
        self.without = identity(maildir) if maildir else None
        # of the command for a mailbox that needs a folder
        self.words_by_hand = [*options.words(), "--folder", "NAME", operand(maildir) if maildir else "MAILDIR"]
        self.files: list[bytes] = []
        self.links: list[bytes] = []
        self.maildirs: list[Maildir] = []
        # the rows of what is left out
        self.rows: list[Row] = []
        self.met: NamesMet = {} if met is None else met
        self.profiles = Profiles(self.old)

    def read(self) -> "Tree":
        """Finds the names."""
        key = identity(self.old)
        folders = [] if key and self.is_met(self.old, key) else [self.old]
        while folders:
            folders += self.walk(folders.pop())
        self.files.sort()
        return self

    def leave(self, path: bytes, fault: Union[Fault, OSError]) -> None:
        """Leaves something out."""
        self.rows.append(row_left(path, b"", fault))

    def pass_over(self, path: bytes, *remarks: Remark, kind: str = "") -> None:
        """Leaves something out that holds no mail."""
        self.rows.append(Row(path, b"", kind, None, Verdict.NO_MAIL, remarks=remarks))

    def walk(self, folder: bytes) -> list[bytes]:
        """Takes what is in a folder, and returns the folders in it."""
        try:
            # in some folders names may be listed, but nothing may be entered
            os.stat(os.path.join(folder, b"."))
            with os.scandir(folder) as found:
                entries = self.without_messages(folder, sorted(found, key=lambda entry: entry.name))
            if folder == self.old and is_export(folder, entries):
                self.top, self.export = os.path.dirname(os.path.abspath(folder)), os.path.join(folder, MBOX)
            entries, rest = self.profiles.parted(folder, entries)
        except OSError as error:
            self.leave(folder, Left(error.strerror, Reason.ERROR))
            return []
        for entry in rest:
            self.pass_over(entry.path)
        return [entry.path for entry in entries if self.take(entry)]

    def without_messages(self, folder: bytes, entries: list[DirEntry]) -> list[DirEntry]:
        """The entries of a folder without those that count as one name: the parts of a Maildir or of a folder of
        Thunderbird's that is like one, and the messages of MH."""
        if has_maildir(entries):
            lacking, entries = lacking_in(entries), [entry for entry in entries if not is_of_maildir(entry)]
            above = next((one for one in self.maildirs if one.path == os.path.dirname(folder)), None)
            name = os.path.basename(folder)
            if above and above.folder and name.startswith(b"."):
                # a Maildir names its folders itself
                place = name if above.folder == INBOX else above.folder + name
            else:
                below = os.path.relpath(folder, self.top)
                place = folder_on_disk(below) if folder != self.old and is_text(below) else b""
            self.maildirs.append(Maildir(folder, place, bool(entries), lacking))
        elif has_store(entries):
            self.leave(folder, Left(BY_THUNDERBIRD, Reason.MAILDIR))
            entries = [entry for entry in entries if entry.name not in STORE]
        mails = messages_of_mh(entries)
        if not mails:
            return entries
        then = next_of_mh(folder, folder + b".mbox")
        self.rows.append(Row(folder, b"", MH, len(mails), Verdict.LEFT, "", Reason.MH, next=then))
        names = {SEQUENCES, *(mail.name for mail in mails)}
        return [entry for entry in entries if entry.name not in names]

    def take(self, entry: DirEntry) -> bool:
        """Takes a name, and returns whether it is a folder to be entered."""
        try:
            state = entry.stat(follow_symlinks=False)
        except OSError as error:
            self.leave(entry.path, Left(error.strerror, Reason.ERROR))
            return False
        if stat.S_ISDIR(state.st_mode):
            if entry.name.startswith(ORIGINAL):
                self.pass_over(entry.path, Says.PUT_ASIDE.of())
                return False
            key = state.st_dev, state.st_ino
            return key != self.without and not self.is_met(entry.path, key)
        if stat.S_ISLNK(state.st_mode):
            self.links.append(entry.path)
        elif stat.S_ISREG(state.st_mode):
            self.add(entry.path, state)
        else:
            self.leave(entry.path, Left("it is not a regular file", Reason.NO_FILE))
        return False

    def is_met(self, path: bytes, key: Identity) -> bool:
        """Whether something was met before by this name. Notes the name."""
        names, name = self.met.setdefault(key, {}), os.path.abspath(path)
        is_met = name in names
        names.setdefault(name, path)
        return is_met

    def add(self, path: bytes, state: os.stat_result) -> None:
        """Takes a file, unless it was met before by this name, or by another path that leads to this name. Each name of
        a file is a mailbox of its own."""
        key = state.st_dev, state.st_ino
        if self.is_met(path, key):
            return
        names = list(self.met[key].values())[:-1]
        others = [one for one in names if state.st_nlink == 1 or real_path(one) == real_path(path)]
        if others:
            self.pass_over(path, Says.SAME_FILE.of(named(others[0])))
        else:
            self.files.append(path)

    def mailboxes(self) -> list[Planned]:
        """The files that may be mailboxes, with the folders of their names. Adds rows for files that are none."""
        found = []
        for path in self.files:
            try:
                if is_no_mail(path) or self.profiles.is_no_mail(path):
                    self.pass_over(path)
                    continue
            except (Fault, OSError) as fault:
                self.leave(path, fault)
                continue
            found.append(self.planned(path))
        return found

    def planned(self, path: bytes) -> Planned:
        """A mailbox with its folder, or why its folder can't have that name."""
        place, one = self.profiles.place(path, self.top), Planned(path, b"")
        if os.path.basename(path).startswith(PREFIX):
            return one.left(Left("an interrupted `quote` left it behind: remove it", Reason.LEFT_BEHIND))
        if self.is_alone and path == self.export:
            return Planned(path, INBOX)
        if not (is_text(path) and is_text(place.name)):
            return one.left_to_human("its name is not UTF-8", self.words_by_hand)
        folder = folder_on_disk(place.account + place.name)
        if len(folder) > LONGEST:
            return one.left_to_human("the name of its folder would be too long", self.words_by_hand)
        return Planned(path, folder, name_before(place.name.decode()), is_inbox=place.is_inbox)

    def plan(
        self, record: History, maildir: bytes, has_no_mail: Callable[[Planned], bool] = lambda one: False
    ) -> list[Planned]:
        """The mailboxes with their folders. Adds rows for mailboxes without one, and for everything else."""
        plan = self.placed(record, maildir, set(), has_no_mail)
        for met in self.maildirs:
            self.leave(met.path, Left(MAILDIR, Reason.MAILDIR))
        for one in plan:
            if one.why:
                self.leave(one.path, one.why)
        return [one for one in plan if not one.why]

    def placed(
        self,
        record: History,
        maildir: bytes,
        taken: set[bytes],
        has_no_mail: Callable[[Planned], bool] = lambda one: False,
    ) -> list[Planned]:
        """The mailboxes with their folders in a Maildir, which are taken then. What the record has stays where it is,
        whatever else would go there; symbolic links are left unless they were migrated or prepared by themselves."""
        pairs = Pairs(record, maildir, self.options)
        found = [pairs.judged(recorded(one, record)) for one in self.mailboxes()]
        links = []
        for path in self.links:
            try:
                folders = record.folders_of(path) or record.prepared_from(record.names_of(path))
                target = real_path(path) if folders else None
            except OSError:
                # if this user may not look at what it leads to, it is not in this user's record
                target = None
            if target is None:
                self.leave(path, link_left(path))
            else:
                links.append(recorded(Planned(path, folders[-1], leads_to=target), record))
        found = self.without_targets(found, {one.leads_to: one.path for one in links if not one.why}, record)
        stay = [one for one in found if not one.why and record.folders_of(one.path)]
        taken.update(one.folder for one in [*stay, *links] if not one.why)
        moving = with_own_folders([one for one in found if one not in stay], taken, has_no_mail, self.words_by_hand)
        plan = sorted([*stay, *moving, *links], key=lambda one: one.path)
        taken.update(one.folder for one in plan if not one.why)
        return plan

    def without_targets(
        self, several: Sequence[Planned], links: Mapping[Optional[bytes], bytes], record: History
    ) -> list[Planned]:
        """Mailboxes without those to which symbolic links lead that are followed, and of which the record has nothing
        by their own paths: such a mailbox was renamed, and has the folder of its link."""
        rest = []
        for one in several:
            link = links.get(real_path(one.path)) if links else None
            if link is None or record.folders_given(one.path):
                rest.append(one)
            else:
                self.pass_over(one.path, Says.SAME_FILE.of(named(link)))
        return rest


def other_names(met: NamesMet) -> dict[bytes, list[bytes]]:
    """The other names of each file with several, by each of its names. Several paths may lead to a name."""
    others = {}
    for names in met.values():
        places: dict[bytes, bytes] = {}
        for path in names.values() if len(names) > 1 else ():
            places.setdefault(real_path(path), path)
        others.update({path: [one for one in places.values() if one != path] for path in places.values()})
    return others


def identity(path: bytes) -> Optional[Identity]:
    """What shows which file or folder is at a path; None if there is none."""
    state = state_at(path)
    return (state.st_dev, state.st_ino) if state else None


def link_left(path: bytes) -> Left:
    """Why a symbolic link is left. One that leads nowhere holds no mail."""
    if not may_be(type_at, path):
        return Left("it is a symbolic link that leads nowhere", Reason.LINK, task(Todo.REMOVE))
    try:
        target = named(os.readlink(path))
    except OSError as fault:
        return Left(fault.strerror, Reason.ERROR)
    then = task(Todo.FOLLOW if is_surely(is_folder, path) else Todo.FOLLOW_INTO)
    return Left("it is a symbolic link to %s" % target, Reason.LINK, then)
