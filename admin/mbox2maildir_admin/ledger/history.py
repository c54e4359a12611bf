"""What the lines of a record say: what is noted of mailboxes, and the index of the ledgers that have them.

A line has, between tabs: the event or other note, the folder, the mailbox's size and SHA-256, how many messages
it has, when, and from which path. That of an event also has the words by which the mailbox is read, and the number of
its folder's ledger, with the ledger's size and the number of the mailbox's last batch there, or of its undo.
"""
import collections
import enum
import functools
import itertools
import os
from collections.abc import Container, Iterable, Iterator, Sequence
from typing import NamedTuple, Optional, Union

from ..looks import real_path
from ..maildir.folders import INBOX
from ..mbox.mailbox import Mailbox
from ..patterns import pattern
from ..terminal import shown, spelled
from ..units import Size

TIME = "%Y-%m-%dT%H:%M:%SZ"
# the words of a mailbox that has no folders by its labels any more
UNLABELLED = "nothing"
LINE = pattern(
    rb"([a-z-]+)\t([^\t]+)\t(\d{1,19})\t([0-9a-f]{64})\t(\d{1,19})\t"
    rb"([12]\d{3}-(?:0[1-9]|1[0-2])-\d\dT\d\d:\d\d:\d\dZ)\t([^\t]+)"
    rb"(?:\t([!-~][ -~]*)(?:\t([0-9a-f]{32})-(\d{1,18})-(\d{1,18}))?)?\Z"
)


class Event(enum.Enum):
    """What happened last to a mailbox by the ledger of its folder, in the word of its line."""

    BEGUN = "begun"
    DONE = "done"
    # it is not in that ledger any more
    UNDONE = "undone"


class Note(enum.Enum):
    """What else a line notes, in its word."""

    # the mailbox whose UIDs a folder has, a file of Dovecot's that is to be written, that subscriptions were written
    NUMBERED = "numbered"
    WROTE = "wrote"
    SUBSCRIBED = "subscribed"
    # an answer of a human, by its words
    ANSWERED = "answered"
    # a file that holds no mail, by a pattern of the command line; and a mailbox of no byte that has its folder
    NO_MAIL = "no-mail"
    EMPTY = "empty"
    # which folders a mailbox has by its labels
    LABELS = "labels"
    # a mailbox that a ledger has which no line named: its folder may have had another name
    FOUND = "found"
    # a mailbox that was prepared in a folder; and that nothing is prepared there any more, or done without mail
    PREPARED = "prepared"
    UNPREPARED = "unprepared"
    # the name of a file that a human was asked to remove: it holds the beginning of a message that is there
    CUT = "cut"


What = Union[Event, Note]
BY_WORD: dict[str, What] = {**{event.value: event for event in Event}, **{note.value: note for note in Note}}


class About(NamedTuple):
    """What a line is about: a folder by its name on the disk, and a text by its size and its SHA-256."""

    folder: bytes
    size: Size
    digest: str


class RecordLine(NamedTuple):
    """A line. Its path is spelled as in the file."""

    what: What
    about: About
    messages: int
    when: str
    path: str
    words: Optional[str]
    # the number of the ledger, how many bytes that had, and the last number of the mailbox in it
    ledger: str = ""
    size: int = 0
    number: int = 0

    @classmethod
    def parse(cls, line: bytes) -> Optional["RecordLine"]:
        """Reads a line; None if it is no line of a mailbox."""
        found = LINE.match(line)
        what = BY_WORD.get(found.group(1).decode()) if found else None
        if not found or not what:
            return None
        folder, size, digest, messages, when, path, words, ledger, length, number = found.groups()[1:]
        return cls(
            what,
            About(folder, Size(int(size)), digest.decode()),
            int(messages),
            when.decode(),
            path.decode("utf-8", "replace"),
            words.decode() if words else None,
            ledger.decode() if ledger else "",
            int(length or 0),
            int(number or 0),
        )

    def line(self) -> bytes:
        """The line as bytes."""
        folder, size, digest = self.about
        fields = [self.what.value, shown(folder), str(size), digest, str(self.messages), self.when, self.path]
        fields += [] if self.words is None else [self.words]
        fields += ["%s-%d-%d" % (self.ledger, self.size, self.number)] if self.ledger else []
        return "\t".join(fields).encode() + b"\n"

    def says(self) -> tuple[object, ...]:
        """What it says of a mailbox, whenever it was written."""
        return self.what, self.about, self.messages, self.path, self.words, self.ledger, self.number


class History:
    """What was done with which mailbox. A folder is asked for by its name on the disk; a path as it is if it is bytes,
    and as lines spell it if it is text."""

    def __init__(self) -> None:
        # the numbers of the ledgers that folders have, and the folder that has each
        self.numbers: dict[bytes, str] = {}
        self.folders: dict[str, bytes] = {}
        # how many bytes each ledger had that a line names, and its last number
        self.ledger_sizes: dict[str, int] = {}
        self.last_numbers: dict[str, int] = {}
        # the index: by folders and paths the last line about each mailbox, the last of all at the end
        self._index: collections.defaultdict[bytes, dict[str, RecordLine]] = collections.defaultdict(dict)
        # the folders that a path had; and the names that such folders have now, by those that they had for a path
        self._folders: collections.defaultdict[str, dict[bytes, None]] = collections.defaultdict(dict)
        self._names: dict[tuple[bytes, str], bytes] = {}
        # by ledgers: the name that its folder had first for each path
        self._first_names: collections.defaultdict[str, dict[str, bytes]] = collections.defaultdict(dict)
        # the sizes of the texts that have an event: one of another size is not read to find out whether it has one
        self.sizes: set[int] = set()
        # the last line with an event of each text, by its size and its SHA-256: by the folders and paths that it has
        self._texts: collections.defaultdict[tuple[int, str], dict[tuple[bytes, str], RecordLine]]
        self._texts = collections.defaultdict(dict)
        # the last folder that a path had with a mailbox of no byte, until that has an event
        self._empty: dict[str, bytes] = {}
        # the mailbox that a folder was prepared from last, until something of the folder is done
        self._prepared: dict[bytes, RecordLine] = {}
        # whether anything was ever prepared
        self.has_prepared = False
        # the folders of the paths of all lines, by the last names of these
        self._places: collections.defaultdict[str, dict[str, None]] = collections.defaultdict(dict)
        # by what they note and their folder, in their order
        self._notes: collections.defaultdict[tuple[Note, bytes], list[RecordLine]] = collections.defaultdict(list)

    def take(self, line: RecordLine) -> None:
        """Takes the next line."""
        line = self.where_it_is_now(line)
        folder = line.about.folder
        self._places[os.path.basename(line.path)][os.path.dirname(line.path)] = None
        if isinstance(line.what, Event):
            self._index[folder].pop(line.path, None)
            self._index[folder][line.path] = line
            self._folders[line.path].pop(folder, None)
            self._empty.pop(line.path, None)
            self.forget_notes(folder, line.path, Note.FOUND)
        if line.what is Event.UNDONE:
            self.forget_notes(folder, line.path, Note.NUMBERED, Note.ANSWERED)
            for several in self._texts.values():
                several.pop((folder, line.path), None)
        elif isinstance(line.what, Event):
            self.sizes.add(line.about.size)
            self._texts[line.about[1:]][folder, line.path] = line
            self._folders[line.path][folder] = None
            self.forget_notes(folder, line.path, *([Note.EMPTY] if line.messages else []))
        else:
            self._notes[line.what, folder].append(line)
            self._empty.update({line.path: folder} if line.what is Note.EMPTY else {})
        if line.what is Note.PREPARED:
            self._prepared[folder], self.has_prepared = line, True
        elif line.what in (Note.UNPREPARED, Event.DONE):
            self._prepared.pop(folder, None)
        if line.what in (Note.PREPARED, Note.UNPREPARED):
            self._notes.pop((Note.EMPTY, folder), None)
        if line.what is Note.UNPREPARED:
            self.forget_notes(folder, line.path, Note.ANSWERED)

    def where_it_is_now(self, line: RecordLine) -> RecordLine:
        """A line with the name that its folder has now, which people may have renamed."""
        folder = line.about.folder
        if line.ledger:
            self.ledger_sizes[line.ledger] = line.size
            self.last_numbers[line.ledger] = max(line.number, self.last_numbers.get(line.ledger, 0))
            self._first_names[line.ledger].setdefault(line.path, folder)
            if self.numbers.get(folder) != line.ledger:
                folder = self.folders.get(line.ledger, folder)
                self._names[line.about.folder, line.path] = folder
        return line._replace(about=line.about._replace(folder=folder))

    def prepared(self, folder: bytes) -> Optional[RecordLine]:
        """The mailbox that a folder was prepared from last, if nothing of the folder is done since."""
        return self._prepared.get(folder)

    def all_prepared(self) -> Iterable[RecordLine]:
        """The same of all folders."""
        return self._prepared.values()

    def prepared_from(self, paths: Container[str]) -> list[bytes]:
        """The folders that were prepared last from one of some paths, and of which nothing is done since."""
        return [folder for folder, line in self._prepared.items() if line.path in paths]

    def forget_notes(self, folder: bytes, path: str, *several: Note) -> None:
        """Forgets what is noted of a mailbox in a folder."""
        for note in several:
            notes = self._notes[note, folder]
            notes[:] = [one for one in notes if one.path != path]

    def index_of(self, folder: bytes) -> list[RecordLine]:
        """The lines of the index about a folder, in their order, also those of mailboxes that were undone."""
        return [*self._index.get(folder, {}).values()]

    def last_events(self, folder: bytes) -> list[RecordLine]:
        """The lines about the mailboxes that a folder has, in their order."""
        return [one for one in self.index_of(folder) if one.what is not Event.UNDONE]

    def names_of(self, path: bytes) -> Sequence[str]:
        """The paths by which lines may name what is at a path: that one, and the one that it leads to. Raises OSError
        if it can't be looked at."""
        return names_of(path)

    def places_of(self, name: str) -> Iterable[str]:
        """The folders of the paths of lines that have this last name."""
        return self._places.get(name, ())

    def name_now(self, folder: bytes, path: bytes) -> bytes:
        """The name that a folder has now which was named for the mailbox of a path. A label has the folder that an
        earlier Takeout filled, unless there is a newer one of its name. Raises OSError if the path can't be looked
        at."""
        paths = self.names_of(path)
        takeouts = dict.fromkeys(line.path for line in self.notes(Note.LABELS, INBOX))
        others = takeouts if any(one in self.labelled() for one in paths) else {}
        labels = self.labels_by(others)
        several = [now for now, label in labels.items() if label == folder and self.last_of(now, others)]
        several = several or [self._names[folder, one] for one in (*paths, *others) if (folder, one) in self._names]
        # what has the name now may be the folder of another label
        is_others = labels.get(folder, folder) != folder
        its = (one for one in (*([] if is_others else [folder]), *several) if self.last_of(one, paths))
        is_free = is_others or folder not in self.numbers
        theirs = (one for one in several if is_free and self.last_of(one, others))
        return next(itertools.chain(its, theirs), folder)

    def labels_by(self, takeouts: Container[str]) -> dict[bytes, bytes]:
        """The names that folders had when the first of these Takeouts filled them, by the names that they have now."""
        first = {
            number: next((name for path, name in names.items() if path in takeouts), b"")
            for number, names in self._first_names.items()
        }
        return {self.folders[number]: name for number, name in first.items() if name and number in self.folders}

    def found_of(self, path: bytes) -> list[bytes]:
        """The folders whose ledgers have a mailbox, if no other line names them. Raises OSError if the path can't be
        looked at."""
        paths = self.names_of(path)
        folders = self.folders_with(paths)
        found = [one for one in folders if any(note.path in paths for note in self.notes(Note.FOUND, one))]
        return found if len(found) == len(folders) else []

    def last_of(self, folder: bytes, paths: Container[str]) -> Optional[RecordLine]:
        """The last line with an event of one of some paths in a folder."""
        return next((one for one in reversed(self.last_events(folder)) if one.path in paths), None)

    def folders_of(self, path: bytes) -> list[bytes]:
        """The folders in which a path has an event by one of its names, the last one at the end. Raises OSError if the
        path can't be looked at."""
        return self.folders_with(self.names_of(path))

    def folders_with(self, paths: Iterable[str]) -> list[bytes]:
        """The folders in which one of some paths has an event, the last one at the end."""
        return list(dict.fromkeys(folder for path in paths for folder in self._folders.get(path, {})))

    def folders_given(self, path: bytes) -> list[bytes]:
        """The same or, if a mailbox has brought nothing, the folder for which it was prepared, or that it was given
        last. INBOX is not given: a file without a folder gets it."""
        paths = self.names_of(path)
        given = *self.prepared_from(paths), *(self._empty[one] for one in paths if one in self._empty)
        return self.folders_with(paths) or [folder for folder in given if folder != INBOX][:1]

    def lines(self) -> Iterator[RecordLine]:
        """The lines about the mailboxes of all folders."""
        return (line for folder in self._index for line in self.last_events(folder))

    def lines_of(self, mailbox: Mailbox) -> list[RecordLine]:
        """The lines about the mailboxes that had the bytes of this one, in any folder. It is not read to find this out
        if none had its size."""
        return [*self._texts.get(mailbox.key(), {}).values()] if mailbox.size in self.sizes else []

    def notes(self, note: Note, folder: bytes) -> list[RecordLine]:
        """The lines that note this of a folder, in their order."""
        return self._notes.get((note, folder), [])

    def numbered(self, folder: bytes) -> Optional[RecordLine]:
        """The line of the mailbox whose numbers a folder has, if it has any."""
        notes = self.notes(Note.NUMBERED, folder)
        return notes[-1] if notes else None

    def to_be_removed(self, folder: bytes) -> set[bytes]:
        """The names of the files of a folder that a human was asked to remove."""
        return {(one.words or "").encode() for one in self.notes(Note.CUT, folder)}

    def has_numbered(self, paths: Container[str]) -> bool:
        """Whether any folder got the numbers of a mailbox at one of these paths."""
        notes = (notes for (note, _), notes in self._notes.items() if note is Note.NUMBERED)
        return any(one.path in paths for several in notes for one in several)

    def noting(self, note: Note, folder: bytes, paths: Container[str]) -> list[RecordLine]:
        """The lines that note this with one of some paths, in their order."""
        return [line for line in self.notes(note, folder) if line.path in paths]

    def labelled(self) -> dict[str, RecordLine]:
        """The last lines that name the folders of mailboxes by their labels, by the paths of these mailboxes."""
        lines = {line.path: line for line in self.notes(Note.LABELS, INBOX)}
        return {path: line for path, line in lines.items() if line.words != UNLABELLED}


@functools.lru_cache(maxsize=1 << 10)
def names_of(path: bytes) -> tuple[str, ...]:
    """A path, and the path that it leads to, as lines of a record have them. They stay the same while a mailbox is at
    work. Raises OSError if it can't be looked at."""
    return tuple(dict.fromkeys([spelled(path), spelled(real_path(path))]))
