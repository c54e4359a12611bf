"""What a run does with a mailbox and its folder: a value, which is made before anything is placed for it. A rehearsal
ends with it, and `carrying.py` carries it out."""
import collections
import contextlib
import os
import time
from collections.abc import Callable, Container, Iterator, Sequence
from typing import NamedTuple, Optional, Union

from ..faults import Left
from ..flags.clients import GMAIL, KeptFlags, kept_in, letters_of_evolution
from ..flags.dovecot_headers import flags_in
from ..flags.renaming import add_flags, lacking_flags
from ..ledger.gone import left_by_killed
from ..ledger.lines import PLACED
from ..ledger.match import Match, Stand
from ..ledger.placing import Placing
from ..ledger.prepared import Origin, Prepared, ReadText
from ..ledger.record import unspelled
from ..maildir.folders import INBOX
from ..mbox.bases import BASE
from ..mbox.fields import Header
from ..mbox.inventory import Inventory
from ..mbox.mailbox import Mailbox
from ..readings.reading import Reading
from ..readings.texts import Choice, Text
from ..remarks import Remark, Says, Sentence
from ..terminal import first_of, named
from ..units import Offset, Place
from .known import Known, Opened


class Contents(NamedTuple):
    """What is converted of a mailbox: the text that stands for it, its messages, and how it is read."""

    text: Text
    inventory: Inventory
    reading: Reading

    @property
    def full(self) -> Text:
        """The text with all its header fields."""
        return self.text.full or self.text._replace(offsets=self.inventory.offsets)

    @property
    def is_stripped(self) -> bool:
        """Whether its stripped text goes into the files."""
        return self.text.full is not None

    def header(self, place: Place) -> bytes:
        """The header of a message, with all its fields."""
        full = self.full
        return Header.at(full.mailbox, Offset(full.offsets[place])).text

    def is_trashed(self, place: Place) -> bool:
        """Whether a message is marked as deleted."""
        header = self.header(place)
        return "T" in flags_in(header, self.is_stripped) + (letters_of_evolution(header) or "")

    def unquoted(self, places: Sequence[int]) -> int:
        """How many lines of messages at some places lose a `>`."""
        quoted = self.text.quoted_before
        skipped = len(quoted) - 1 - len(self.inventory)
        by_copy = sum(quoted[skipped + place + 1] - quoted[skipped + place] for place in places) if quoted else 0
        return sum(self.inventory.unquoted[place] for place in places) - by_copy


class Part(NamedTuple):
    """What goes of a mailbox into one folder: the text that was chosen for it, what reads that, and how many bytes it
    has. That is all of a mailbox, or the messages of one folder of a Takeout: then it also has their flags, how often
    the Takeout has each core, and what is to be said of the folder."""

    choice: Choice
    read: Callable[[], contextlib.AbstractContextManager[Contents]]
    size: int
    # whether the mailbox is as it was prepared, so that all of it is known and nothing is read
    is_as_prepared: bool = False
    kept: Optional[KeptFlags] = None
    cores: Optional[collections.Counter[bytes]] = None
    remarks: tuple[Remark, ...] = ()


class FirstPass(NamedTuple):
    """What a first pass has of its own, which goes by nothing in the ledger: the list of what is prepared in the
    folder, and what it notes there of the mailbox and, if it can, of the text, with the milliseconds that these took to
    read."""

    prepared: Prepared
    origin: Origin
    text: Optional[ReadText]
    took: int

    def is_done(self, placing: Placing) -> bool:
        """Whether it finds everything as the last one has left it."""
        prepared, before = self.prepared, self.prepared.origin
        is_all = prepared.is_whole and not placing.nowhere and prepared.count() == len(prepared.table)
        return before is not None and is_all and before.key == self.origin.key


class OtherPass(NamedTuple):
    """What any other pass has of its own, also if it is the only one. It makes mail at once. Once mail was prepared in
    the Maildir, it is a last pass in any folder without mail: if it is killed, a first pass may follow."""

    # whether all that is nowhere is placed, as with --again; and whether the list of what was prepared is over then
    is_again: bool
    ends_list: bool
    # what was only prepared in the folder, unless that stays as it is; and what is read, if its list does not have that
    prepared: Optional[Prepared] = None
    origin: Optional[Origin] = None
    # how many messages may come back that were deleted, and the names of files that may hold the beginning of one
    back: int = 0
    may_be_cut: Container[bytes] = ()
    # whether the mailbox has no message that it has not brought, so that it is only noted that it was read
    has_nothing_new: bool = False


class Steps(NamedTuple):
    """What a run does with a mailbox and its folder. What was only prepared there, and no message wants, is removed.
    Then it is noted what is going to be there; what is nowhere is placed; and what this program has placed gets dates
    and flags, and is verified."""

    known: Known
    contents: Contents
    placing: Placing
    # what is done besides mail and dates, and what this pass has of its own
    extra: "Extra"
    own: Union[FirstPass, OtherPass]
    # the places in the text of the messages that are placed, or that a run has placed that was killed; and these with
    # the bases of their files
    places: Sequence[int]
    files: Inventory
    # by the ledger as it was before anything is done: whether a run was killed that had begun with this; whether the
    # mailbox has brought something; and when it was begun first, in seconds since 1970
    was_begun: bool
    had_brought: bool
    begun_at: int

    @classmethod
    def of(
        cls, known: Known, contents: Contents, match: Match, extra: "Extra", own: Union[FirstPass, OtherPass]
    ) -> "Steps":
        """What is to be done by what was found of the messages."""
        placing, places = Placing(match), match.places(Stand.NOWHERE, Stand.MINE, Stand.FRESH)
        ledger, files = known.ledger, placing.messages_at(places)
        before = known.is_begun, known.path in ledger.sources, ledger.begun.get(known.path, int(time.time()))
        return cls(known, contents, placing, extra, own, places, files, *before)

    @property
    def opened(self) -> Opened:
        """The mailbox, and its folder."""
        return self.known.opened

    def is_unread(self, place: Place) -> bool:
        """Whether nobody but this program has given the file of a message its name: this run places it, or it was
        prepared."""
        at, prepared = self.place_prepared(place), self.own.prepared
        is_placed = self.placing.match.stands[self.places[place]] == Stand.NOWHERE
        return is_placed or prepared is not None and at is not None and bool(prepared.files[at])

    def place_prepared(self, place: Place) -> Optional[int]:
        """The place of the file of a message among those that were prepared; None if it was not."""
        prepared = self.own.prepared
        return prepared.table.place_of(self.files.table.base(place)) if prepared else None

    def digest_by(self, place: Place, number: int, state: os.stat_result) -> Optional[bytes]:
        """The digest of an open file of this state, if it is known that it has the bytes of one of its messages."""
        at, prepared = self.place_prepared(place), self.own.prepared
        # what was prepared, and is as it was verified then, is not read again
        if prepared and at is not None and prepared.verified[at]:
            return self.files.table.digest(place)
        return self.contents.inventory.digest_by(self.contents.text.mailbox, self.places[place], number, state)


class Extra:
    """What is done for a mailbox besides mail and dates: here, the flags that a mail program kept in its headers."""

    # whether stripped text goes into the files
    IS_STRIPPED = False

    def __init__(self, by_labels: Optional[KeptFlags] = None) -> None:
        """Takes the flags if they are known by the labels of a Takeout, whose folders were asked for."""
        self.by_labels = by_labels

    def start_of(self, text: Mailbox, start: Offset) -> Offset:
        """The offset at which the part of a text begins that is converted; the text begins at this offset."""
        del text
        return start

    def hindrance(self, one: Steps) -> Optional[Left]:  # pylint: disable=useless-return
        """Why `apply` could not do it, if it can't. It is asked before anything is placed."""
        del one
        return None

    def apply(self, one: Steps, dry: bool = False) -> list[Remark]:
        """Does it once all is placed, before files get dates and are verified, unless nothing may be made. Returns what
        is to be said of it: of flags that a program kept, and of labels that were not asked for."""
        contents = one.contents
        kept = self.by_labels or kept_in(contents.text.mailbox, contents.inventory)
        if not kept:
            return []
        if not dry:
            add_flags(one.opened.folder, one.files, [kept.letters[place] for place in one.places], one.is_unread)
        remarks = kept.remarks(one.places)
        if kept.program == GMAIL and not self.by_labels:
            from ..labels.sorting import remarks_on_labels

            remarks += remarks_on_labels(map(contents.header, map(Place, one.places)))
        return remarks


def remarks_on_match(one: Steps, dry: bool) -> Iterator[Remark]:
    """What is to be said of what is new, what is there, and what is gone."""
    match, ledger = one.placing.match, one.known.ledger
    if isinstance(one.own, OtherPass) and one.own.is_again:
        yield from Says.PLACED.of_any(match.count(Stand.NOWHERE), dry=dry)
    else:
        yield from remarks_on_lost(match)
        others = [unspelled(path) for path, source in ledger.sources.items() if source.count()]
        if match.path in ledger.sources:
            yield from Says.GREW.of_any(match.count_new())
        elif others and one.opened.name == INBOX and not {path for _, path in match.seen} - {match.path, ""}:
            yield Says.JOINS.of(first_of(others, most=1))
    yield from remarks_on_seen(match.seen)
    yield from Says.OTHER_PROGRAMS.of_any(match.files.others)
    yield from remarks_on_flags_that_differ(one)


def remarks_on_seen(seen: collections.Counter[tuple[Sentence, str]]) -> Iterator[Remark]:
    """What is to be said of messages that were seen to be there or gone, with the mailboxes that most of them are of.
    Of those that are gone, each mailbox brings its own back."""
    # of mailboxes with as many, the one that was met first
    met = dict.fromkeys(path for _, path in seen)
    for says in dict.fromkeys(says for says, _ in seen):
        if says is Says.GONE_ELSEWHERE:
            yield from (says.of(count, named(unspelled(path))) for (its, path), count in seen.items() if its is says)
            continue
        counts = collections.Counter({path: seen[says, path] for path in met if (says, path) in seen})
        paths = [unspelled(path) for path, _ in counts.most_common()]
        yield from says.of_any(sum(counts.values()), first_of(paths, most=1))


def remarks_on_flags_that_differ(one: Steps) -> Iterator[Remark]:
    """What is to be said of messages whose files, which others brought, lack flags."""
    by_labels = one.extra.by_labels
    found = ((place, BASE.match(its.name)) for place, its in one.placing.match.found.items() if its.word != PLACED)
    places = {base[0]: Place(place) for place, base in found if base}

    def flags_of(base: bytes) -> str:
        if base not in places:
            return ""
        place = places[base]
        flags = flags_in(one.contents.header(place), one.contents.is_stripped)
        return flags + (by_labels.letters[place] if by_labels else "")

    if places:
        yield from Says.FLAGS_DIFFER.of_any(lacking_flags(one.opened.folder, flags_of))


def remarks_on_lost(match: Match) -> list[Remark]:
    """What is to be said of messages that the mailbox no longer has, and that it brought, also in runs that were
    killed."""
    lost = Says.LOST.of_any(match.count_lost() + left_by_killed(match))
    return Says.UNLABELLED.of_any(sum(match.unlabelled.values())) + lost
