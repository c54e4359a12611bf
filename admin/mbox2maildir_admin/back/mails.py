"""Which files of a Maildir go back: what no mailbox brought there, by the ledgers of all of its folders.

A message that a mailbox brought has one file, in its folder or where people have moved it. Names and bytes show which
one: IMAP keeps some names and changes others. Any further file is new, also a copy of such a message.
"""
import collections
import functools
import itertools
import os
from collections.abc import Callable, Container, Iterable, Iterator, Sequence
from typing import NamedTuple, TypeVar

from ..faults import Fault, Reason
from ..ledger.assign import File, by_form, files_of
from ..ledger.lines import RETURNED, Line, State
from ..ledger.ledger import Ledger
from ..ledger.prepared import Origin, origin_in
from ..ledger.record import is_gone, unspelled
from ..looks import is_link, is_there, may_be, state_at
from ..maildir.files import changed_at, listings_of
from ..maildir.folders import folder_shown, folders_in, name_of, words_of
from ..mbox.bases import BASE, before_info
from ..mbox.core import forms_of
from ..mbox.files import open_file
from ..nexts import NOTHING, Does, Next, Runs, run_next
from ..readings.reading import Reading
from ..remarks import Remark
from ..terminal import operand
from ..units import Say

DAMAGED = "the ledger of %s is damaged in line %d, so nothing shows which mail came from the old mailboxes"
NOT_DONE = "a migrate into %s was interrupted: run it again first"
ONLY_PREPARED = "mail is only prepared in %s: finish or remove that first"
NOT_UNDONE = "the undo of %s was interrupted: run it again first"
One = TypeVar("One")


class Mail(NamedTuple):
    """A file of mail: its folder, its name and its path, the core of what it holds, and when that was changed last
    (its mtime), in seconds since 1970: `migrate` dates a file by its message, and others leave the time of delivery."""

    folder: bytes
    name: bytes
    path: bytes
    core: bytes
    time: int

    @property
    def before(self) -> bytes:
        """Its name without its info."""
        return before_info(self.name)


def in_order(mails: Iterable[Mail], uid: Callable[[Mail], int] = lambda mail: 0) -> list[Mail]:
    """Mail in the order in which it is appended: by the UIDs that it keeps in its mailbox, once that is known; then by
    time and name."""
    return sorted(mails, key=lambda mail: (uid(mail), mail.time, mail.name))


class Target(NamedTuple):
    """A mailbox, its folder by the name on the disk, the mail that goes back into it, what is said of that, and what
    went back before."""

    path: bytes
    folder: bytes
    mails: Sequence[Mail]
    remarks: tuple[Remark, ...] = ()
    returned: Sequence[Mail] = ()


class Slot(NamedTuple):
    """A file that mailboxes brought into a folder, or that went back. Nobody misses that of a message that went back
    and is no longer in its mailbox."""

    folder: bytes
    file: File

    @property
    def core(self) -> bytes:
        """The core of its message."""
        return self.file.lines[0].message.core

    def own_of(self, several: Sequence[Mail]) -> Mail:
        """Which of the files with its name it is: of several, one that holds its message."""
        return next((one for one in several if one.core == self.core), several[0])

    @property
    def paths(self) -> set[str]:
        """The paths of the mailboxes that have it, or had it."""
        lines = [line for line in self.file.lines if line.state is State.HELD] or self.file.lines
        return {line.path for line in lines}

    def went_back(self, state: State) -> bool:
        """Whether a mailbox has it since it went back, or had it, by the state of its lines."""
        return any(line.state is state and line.message.word == RETURNED for line in self.file.lines)


# by what a file is found that does not have the name of its message: by its folder and core; in other folders by the
# name that this program gave, then by its core
FORMS: Sequence[Callable[[bytes, bytes, bytes], bytes]] = (
    lambda folder, name, core: folder + core,
    lambda folder, name, core: name if BASE.fullmatch(name) else b"",
    lambda folder, name, core: core,
)


class Findings(NamedTuple):
    """By folders: what is new, in its order; the folders of messages that were moved there; of each message that was
    changed, and of each that was deleted, the paths of the mailboxes that have it; and what went back before, and is in
    its folder. And the folders from which mail is there that no mailbox has which is still at its path."""

    new: dict[bytes, list[Mail]]
    moved: dict[bytes, list[bytes]]
    changed: dict[bytes, list[set[str]]]
    deleted: dict[bytes, list[set[str]]]
    returned: dict[bytes, list[Mail]]
    alone: set[bytes]

    @classmethod
    def by(cls, lines: Iterable[tuple[bytes, list[Line]]], mails: Iterable[Mail]) -> "Findings":
        """Finds the file of each message that mailboxes brought, by the lines about each folder, and the files of all:
        by its name, or by its core, in the folder; then in other folders."""
        left = {mail.path: mail for mail in mails}
        homes: collections.defaultdict[bytes, dict[bytes, list[Mail]]] = collections.defaultdict(dict)
        for mail in left.values():
            homes[mail.folder].setdefault(mail.before, []).append(mail)
        several = (Slot(folder, file) for folder, its in lines for file in files_of(its, homes[folder]))
        slots = [slot for slot in several if slot.file.is_held or slot.went_back(State.FORMER)]
        slots.sort(key=lambda slot: not slot.file.is_held)
        named = ((slot.own_of(homes[slot.folder][slot.file.name]), slot) for slot in slots if slot.file.name)
        found = [(left.pop(mail.path), slot) for mail, slot in named]
        for form_of in FORMS:
            free = by_form((form_of(mail.folder, mail.before, mail.core), path) for path, mail in left.items())
            for slot in slots:
                form = form_of(slot.folder, slot.file.lines[0].message.name, slot.core)
                if slot.file.name is None and slot.file.find(free, form):
                    found.append((left.pop(slot.file.name or b""), slot))
        at_home = [(mail, slot) for mail, slot in found if mail.folder == slot.folder]
        return cls(
            by_folder((mail.folder, mail) for mail in in_order(left.values())),
            by_folder((mail.folder, slot.folder) for mail, slot in found if mail.folder != slot.folder),
            by_folder((slot.folder, slot.paths) for mail, slot in found if mail.core != slot.core),
            by_folder((slot.folder, slot.paths) for slot in slots if slot.file.is_held and slot.file.name is None),
            by_folder((mail.folder, mail) for mail, slot in at_home if slot.went_back(State.HELD)),
            folders_alone(slots, left.values()),
        )


def folders_alone(slots: Sequence[Slot], new: Iterable[Mail]) -> set[bytes]:
    """The folders from which mail is there that no mailbox has which is still at its path, and that is not new in
    another folder: it goes back from there."""
    held, is_gone_once = [slot for slot in slots if slot.file.is_held], functools.lru_cache(maxsize=None)(is_gone)
    gone = [slot for slot in held if slot.file.name and all(map(is_gone_once, slot.paths))]
    others = {slot.core for slot in held if gone and not all(map(is_gone_once, slot.paths))}
    others.update(mail.core for mail in new if gone)
    return {slot.folder for slot in gone if slot.core not in others}


def by_folder(pairs: Iterable[tuple[bytes, One]]) -> dict[bytes, list[One]]:
    """What each folder has."""
    found: collections.defaultdict[bytes, list[One]] = collections.defaultdict(list)
    for folder, one in pairs:
        found[folder].append(one)
    return found


def folders_once(maildir: bytes, with_mailbox: Container[bytes]) -> list[bytes]:
    """The paths of the folders of a Maildir, each folder once: of the links that lead to one, and its own name, those
    come first that have a mailbox."""
    found = dict[tuple[int, int], bytes]()
    turns = {
        one: (one != maildir, name_of(maildir, one) not in with_mailbox, is_link(one)) for one in folders_in(maildir)
    }
    for path in sorted(turns, key=lambda one: turns[one]):
        state = state_at(path)
        if state:
            found.setdefault((state.st_dev, state.st_ino), path)
    return [*found.values()]


def lines_about(maildir: bytes, places: Iterable[bytes]) -> Iterator[tuple[bytes, list[Line]]]:
    """The lines about the folders at these places of a Maildir. Raises Fault if a ledger does not say all that is in
    its folder."""
    for path in places:
        folder, ledger = name_of(maildir, path), Ledger(path)
        if ledger.leaving:
            raise Fault(NOT_UNDONE % min(ledger.leaving), Reason.UNDO)
        if ledger.damage:
            raise Fault(DAMAGED % (folder_shown(folder), ledger.damage), Reason.LEDGER)
        # beside mail, a list comes from a backup
        origin = None if ledger.sources else origin_in(path)
        # a run was killed that may have placed something; what is only to go back has no file of its own
        batches = (ledger.open.get(ledger.pending(one) or 0) for one in ledger.paths())
        begun = [one for one in batches if one and set(one.line_words) - set(RETURNED)]
        if begun:
            names = operand(maildir), operand(unspelled(begun[0].path))
            then = run_next(Runs.MIGRATE, *with_dovecot(begun[0].head.words), *names)
            raise Fault(NOT_DONE % folder_shown(folder), Reason.PREPARED if origin else Reason.OTHER, then)
        if origin:
            then = next_of_prepared(operand(maildir), folder, origin)
            raise Fault(ONLY_PREPARED % folder_shown(folder), Reason.PREPARED, then)
        yield folder, [line for line in ledger.message_lines(None) if line.state is not State.UNDONE]


def next_of_prepared(maildir: str, folder: bytes, origin: Origin) -> Next:
    """What ends that mail is only prepared in a folder of a Maildir: its mailbox is migrated, if that is still where it
    was, or the mail is removed."""
    path = unspelled(origin.path)
    names = *words_of(folder), maildir, operand(path)
    then = run_next(Runs.MIGRATE, *with_dovecot(origin.words), *names) if may_be(is_there, path) else NOTHING
    return then + run_next(Runs.MIGRATE, "--undo", *names, does=Does.UNDO_PREPARED)


def with_dovecot(words: str) -> list[str]:
    """The option with which a mailbox was migrated that was read by these words."""
    return ["--dovecot"] * Reading.of_words(words).stripped


def mails_of(maildir: bytes, places: Iterable[bytes], say: Say) -> Iterator[Mail]:
    """The files of mail in the folders at these places of a Maildir, each once, though programs may rename them
    meanwhile. The core is that of the message as a mailbox would have it: its last line has ended."""
    for place in places:
        # what was met, by its name and its inode, which may change on a network disk; or by its name and its core
        folder, met = name_of(maildir, place), set[tuple[bytes, object]]()
        whole = listings_of(place, is_whole=True) if any(changed_at(place)) else ()
        listings = (enumerate(listing, 1) for listing in whole)
        for number, (name, path) in itertools.chain.from_iterable(listings):
            say("looking at file %d of %s" % (number, folder_shown(folder)))
            try:
                state, before = os.lstat(path), before_info(name)
                if (before, state.st_ino) in met:
                    continue
                with open_file(path, os.O_NOFOLLOW) as file:
                    core, _ = forms_of(file.read, is_ended=True)
            except (FileNotFoundError, Fault):
                # it is gone, or no file
                continue
            if (before, core) not in met:
                yield Mail(folder, name, path, core, int(state.st_mtime))
            met |= {(before, state.st_ino), (before, core)}


def findings_in(maildir: bytes, with_mailbox: Container[bytes], say: Say) -> Findings:
    """Which mail of a Maildir is new, and what became of the rest, by its folders, of which some have a mailbox. Raises
    Fault if nothing shows that."""
    try:
        places = folders_once(maildir, with_mailbox)
        return Findings.by(lines_about(maildir, places), mails_of(maildir, places, say))
    except OSError as error:
        raise Fault(error.strerror, Reason.ERROR, place=error.filename or maildir) from error
