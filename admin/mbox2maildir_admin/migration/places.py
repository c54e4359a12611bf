"""The folder of a Maildir that a mailbox becomes: the one in which the record has it, otherwise the one of its name. It
becomes none if another file is beside it, such as FILE.mboxrd or FILE.gz beside FILE. One may be a copy of the other,
but nothing shows that it is complete and of the same mail. So neither is taken for the other, and a human decides."""
import collections
import os
from collections.abc import Callable, Container, Iterable, Sequence
from typing import NamedTuple, Optional

from ..faults import Fault, Left, Reason, fault_of
from ..kinds.folders import Profiles
from ..kinds.named import is_no_mail, name_of_folder
from ..ledger.history import Event, History, Note, RecordLine
from ..ledger.record import Record, unspelled
from ..looks import is_file, is_there, may_be
from ..maildir.files import mail_in
from ..maildir.folders import COPIES, COPY, INBOX, folder_on_disk, folder_path, folder_shown, words_of
from ..maildir.disk import SyncOne
from ..mbox.mailbox import Mailbox
from ..nexts import Answer, Command, Does, Next, Runs, Single, Todo, run_next, task
from ..readings.reading import UNDECIDED, Reading
from ..terminal import is_text, named, operand, option
from .options import Options

ELSEWHERE = "its mail is in %s: the ledger there says so, and the record does not"
NAMED_AS_FOLDER = "INBOX has or gets other mail, and mail programs keep a folder in a file named %s"


class UserHome(NamedTuple):
    """The home of a user, whether the user's inbox is another mailbox, which is elsewhere, and what syncs a disk."""

    path: bytes
    has_inbox: bool
    sync_one: Optional[SyncOne]


class Planned(NamedTuple):
    """A mailbox, the name of its folder on the disk, and the name that it had in Dovecot, if that was another one."""

    path: bytes
    folder: bytes
    before: str = ""
    # why it goes nowhere, if it holds mail
    why: Optional[Fault] = None
    # for a symbolic link, the path that it leads to, which was migrated by hand
    leads_to: Optional[bytes] = None
    # whether it is one of several Inboxes with mail of a profile
    is_inbox: bool = False

    def folder_in(self, maildir: bytes) -> bytes:
        """The path of its folder in a Maildir."""
        return folder_path(maildir, self.folder)

    def left(self, why: Fault) -> "Planned":
        """The same mailbox, which goes nowhere."""
        return Planned(self.path, b"", "", why, self.leads_to)

    def left_to_human(self, why: str, words: Sequence[str]) -> "Planned":
        """The same mailbox, for which a human must find a folder. The command has these words before its path."""
        return self.left(Left(why, Reason.NO_FOLDER, run_next(Runs.MIGRATE, *words, operand(self.path))))


def recorded(one: Planned, record: History) -> Planned:
    """A mailbox with the folder of a Maildir in which its record has it last; or why it goes nowhere."""
    try:
        folders = record.folders_given(one.path)
    except (Fault, OSError) as fault:
        return one.left(fault_of(fault, one.path))
    if not folders or folders[-1] == one.folder:
        return one
    return one._replace(folder=folders[-1], before="", why=None)


def recorded_or_moved(one: Planned, record: History) -> Planned:
    """The same of a file for which no folder was named. One that was moved has the folder that it had."""
    found = recorded(one, record)
    # one that was prepared at this path goes on there, also in INBOX
    is_known = found.why or record.folders_given(one.path) or record.prepared_from(record.names_of(one.path))
    folders = [] if is_known else folders_of_moved(one.path, record)
    return found._replace(folder=folders[-1]) if folders else found


def folders_of_moved(path: bytes, record: History) -> list[bytes]:
    """The folders of mailboxes that had the bytes of a file, or of its beginning, and are gone, or from which they were
    prepared: it is one of them, moved, if the record does not have its path. Of several, those count that had its
    name."""
    try:
        mailbox = Mailbox.open(path) if is_file(path) else None
    except (Fault, OSError):
        # whoever needs it says why it can't be opened
        mailbox = None
    if not mailbox:
        return []
    with mailbox:
        lines = lines_of_moved(mailbox, record)
    # the mail of a Takeout is in the folders of its labels
    lines = [one for one in lines if not Reading.of_words(one.words).part]
    named_so = [one for one in lines if os.path.basename(unspelled(one.path)) == os.path.basename(path)]
    return list(dict.fromkeys(one.about.folder for one in named_so or lines))


def lines_of_moved(mailbox: Mailbox, record: History) -> list[RecordLine]:
    """The lines about mailboxes that are gone, and had the bytes of this one or, if none had, the most of those with
    which it begins: then it has grown. It is read as far as the largest that is gone."""
    several = (*record.lines_of(mailbox), *record.lines(), *record.all_prepared())
    smaller = [
        one for one in several if one.about.size == mailbox.size or one.about.size < mailbox.size and one.messages
    ]
    gone = [one for one in smaller if one.about.size and not may_be(is_there, unspelled(one.path))]
    beginnings = mailbox.beginnings({one.about.size for one in gone})
    its = [one for one in gone if beginnings.get(one.about.size) == one.about.digest]
    return [one for one in its if one.about.size == max(other.about.size for other in its)]


def as_named(one: Planned, record: Record, options: Options) -> Planned:
    """A mailbox for which a folder was named, which may have another name by now; or left, since only the ledger of
    another folder has it, which may have had this name. The command for it has these options."""
    try:
        folder, found = record.name_now(one.folder, one.path), record.found_of(one.path)
    except OSError as fault:
        return one.left(fault_of(fault, one.path))
    if not found or folder in found:
        return one._replace(folder=folder)
    words = [*options.words(), *words_of(found[0]), operand(record.maildir)]
    return one.left_to_human(ELSEWHERE % folder_shown(found[0]), words)


def with_own_folders(
    mailboxes: Iterable[Planned], taken: Container[bytes], has_no_mail: Callable[[Planned], bool], words: Sequence[str]
) -> list[Planned]:
    """Mailboxes with their folders. Those that would go into the same folder, or into one that is taken, go nowhere;
    files without mail do not count. The commands for them have these words."""
    folders: collections.defaultdict[bytes, list[Planned]] = collections.defaultdict(list)
    several: list[Planned] = []
    for one in mailboxes:
        (several if one.why else folders[one.folder]).append(one)
    for folder, found in folders.items():
        if len(found) == 1 and folder not in taken:
            several += found
            continue
        mail = [one for one in found if not has_no_mail(one)]
        is_free = len(mail) == 1 and folder not in taken
        why = "another mailbox goes into %s too" % folder_shown(folder)
        several += [one if is_free and one in mail else one.left_to_human(why, words) for one in found]
    return several


class Pairs(NamedTuple):
    """What the record of a Maildir says of files beside each other. The commands for them have these options. If these
    files are known to be a user's own, no other file counts: in a spool anybody may have made it."""

    record: History
    maildir: bytes
    options: Options = Options()
    own: Optional[Container[bytes]] = None

    def paired_with(self, path: bytes) -> list[bytes]:
        """The files beside one that count, and may be its copies, or that it may be a copy of, by their names; those
        that are known to hold no mail are neither."""
        names = [path + ending for ending in COPIES]
        names += [path[: -len(ending)] for ending in COPIES if path.endswith(ending)]
        there = [name for name in names if is_file(name) and not is_no_mail(name)]
        own = there if self.own is None else self.own
        return [other for other in there if other in own]

    def without_folders_in_inbox(self, several: Sequence[Planned], given: Container[bytes]) -> list[Planned]:
        """Mailboxes, of which those are left that are named as a folder and would join other mail in INBOX, if these
        files were given without a folder."""
        has_mail, line = bool(self.record.last_events(INBOX)) or any(mail_in(self.maildir)), self.record.prepared(INBOX)
        for_inbox = [os.path.basename(one.path) for one in several if one.folder == INBOX and not one.why]
        # it may stand elsewhere than when it was prepared
        is_its_own = line and for_inbox == [os.path.basename(unspelled(line.path))]
        if len(for_inbox) < 2 and (not has_mail or is_its_own):
            return list(several)
        return [self.apart(one) if one.path in given else one for one in several]

    def apart(self, one: Planned) -> Planned:
        """A mailbox that was given; or left, if it is named as a folder and the record does not have it in INBOX."""
        name = name_of_folder(one.path)
        if one.why or one.folder != INBOX or not name or self.record.folders_of(one.path):
            return one
        words, paths = self.options.words(), [operand(self.maildir), operand(one.path)]
        folders = (option("--folder", its.encode()) for its in (name, "INBOX"))
        folder, inbox = (Command.of(Runs.MIGRATE, *words, *its, *paths) for its in folders)
        then = Answer(folder, Does.OWN_FOLDER), Answer(inbox, Does.JOINS_INBOX)
        return one.left(Left(NAMED_AS_FOLDER % named(name), Reason.NO_FOLDER, then))

    def done_in(self, path: bytes, folder: bytes = b"") -> Optional[bytes]:
        """The folder, this one or one of the record, into which all of a file went, even if programs have written into
        it since."""
        names = self.record.names_of(path)
        for name in dict.fromkeys([folder, *self.record.folders_with(names)]):
            last = self.record.last_of(name, names)
            if last and last.what is Event.DONE:
                return name
        return None

    def judged(self, one: Planned) -> Planned:
        """A mailbox as it was planned; or left, since another is beside it and it is not done. Unless it may be a copy
        itself, the command that migrates it all the same is told."""
        try:
            others = self.paired_with(one.path)
            if one.why or not others or self.done_in(one.path, one.folder) is not None:
                return one
            # once a compressed file is done, its mail counts as other mail
            compressed = [other for other in others if other.startswith(one.path) and not other.endswith(COPY)]
            others = [other for other in others if other not in compressed or self.done_in(other) is None]
        except (Fault, OSError) as fault:
            return one.left(fault_of(fault, one.path))
        if not others:
            return one
        then = task(Todo.COPY_AWAY)
        if all(other.startswith(one.path) for other in others):
            folder = words_of(one.folder) if one.folder else ["--folder", "NAME"]
            words = [*self.options.words(), *folder, operand(self.maildir), operand(one.path)]
            then += run_next(Runs.MIGRATE, *words, does=Does.KEEP_BOTH)
        names = " and ".join(map(named, others)) + (" stands" if len(others) == 1 else " stand")
        return one.left(Left("%s beside it" % names, Reason.COPY, then))


def as_inbox(one: Planned) -> Planned:
    """A mailbox that was named; one of several Inboxes of its profile, if it goes into the folder of its account."""
    if one.folder in (INBOX, b"") or not is_text(one.path):
        return one
    place = Profiles(one.path).place(one.path, os.path.dirname(one.path))
    return one._replace(is_inbox=place.is_inbox and one.folder == folder_on_disk(place.account + place.name))


def into_inbox(one: Planned, folder: bytes, options: Options, record: Record) -> Next:
    """The command that puts one of several Inboxes, which has this folder, into INBOX instead, as it was answered."""
    noted = record.noting(Note.ANSWERED, folder, record.names_of(one.path))
    answer = Reading.of_words(noted[-1].words).decided if noted else UNDECIDED
    # a human is asked again about lines: the record does not have their numbers, and the text may have changed since
    is_of_lines = answer.text or answer.begin or (answer.of and answer.word)
    decision = UNDECIDED if is_of_lines else answer._replace(of="")
    options, paths = options.of_next()._replace(decision=decision), [operand(record.maildir), operand(one.path)]
    into = Command.of(Runs.MIGRATE, *options.words(), "--folder", "INBOX", *paths)
    undo = "--undo", *Options(now=options.now).words(), *words_of(folder), *paths
    if not options.dry:
        into = into._replace(singles=(Single(Runs.MIGRATE, undo), *into.singles))
    return (Answer(into, Does.INTO_INBOX),)
