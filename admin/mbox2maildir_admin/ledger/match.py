"""Which messages of a mailbox are new to its folder, and which files stand for these.

Within a mailbox's history a message is known by its core. A new one that another mailbox brought as often, in the same
bare form, is that one's too: if its file is gone, somebody deleted it. Any other one is there if a file holds it that
counts for no message yet. What is nowhere then is to be placed. Each file counts once, and one that is marked as
deleted counts for no message that is not.
"""
import array
import bisect
import collections
import contextlib
import enum
import itertools
from collections.abc import Callable, Container, Iterable, Iterator, Sequence
from typing import Optional

from ..looks import is_link
from ..maildir.files import digest_of, forms_in, mail_in
from ..mbox.bases import BASE, DIGEST, FIRST, base_in, before_info, is_own
from ..mbox.inventory import Inventory
from ..remarks import Says, Sentence
from ..units import Place, Say, silent
from .assign import BROUGHT, File, Offer, Offers, Unnamed
from .assign import by_form, files_of, nobodys, offers_again, offers_of, says_whose
from .lines import NAMELESS, PLACED, Brought, Line, State
from .ledger import Ledger

# tells whether a file of this name, without its info, counts for nothing
Hides = Callable[[bytes], bool]


class Files:
    """What a folder has: files with bases of a text's messages, and with names of its ledger. Names have no infos."""

    def __init__(self, folder: bytes, inventory: Inventory, say: Say = silent, hides: Optional[Hides] = None) -> None:
        """Lists a folder. Some files may be passed over."""
        self.folder, self.inventory, self.say, self.hides = folder, inventory, say, hides
        # by place: 1 if a file has the base of the message; and the counts of other bases with a digest of the text
        self.there = bytearray(len(inventory))
        self.counts: collections.defaultdict[bytes, list[int]] = collections.defaultdict(list)
        # the names of files that are marked as deleted; how many files of other programs there are, and whether
        # programs have named any file, and any file has no base of the text
        self.trashed: set[bytes] = set()
        self.others, self.has_named, self.has_strange = 0, False, False
        # the names that mailboxes gave which were undone
        self.kept: set[bytes] = set()
        for name, path in self.listed():
            say("looking into the folder")
            before = before_info(name)
            base = base_in(name) if is_own(before) else None
            if base:
                self.take(base)
            self.has_named = self.has_named or base is None
            self.has_strange = self.has_strange or inventory.table.place_of(base) is None
            # a symbolic link is no mail
            self.others += BASE.match(name) is None and not is_link(path)
            if b"T" in name[len(before) :]:
                self.trashed.add(before)

    def take(self, base: bytes) -> None:
        """Takes a file that has a base."""
        place = self.inventory.table.place_of(base)
        if place is not None:
            self.there[place] = 1
        elif self.inventory.table.has(base[:DIGEST]):
            self.counts[base[:DIGEST]].append(int(base[DIGEST + 1 :]))

    def present(self, names: Container[bytes]) -> set[bytes]:
        """Those of some names that are there."""
        return {before for before in (before_info(name) for name, _ in self.listed()) if before in names}

    def listed(self) -> Iterator[tuple[bytes, bytes]]:
        """The names and paths of the files that are not passed over."""
        return (one for one in mail_in(self.folder) if not (self.hides and self.hides(before_info(one[0]))))

    def has_digest(self, digest: bytes) -> bool:
        """Whether a file has a base with a digest of the text."""
        return digest in self.counts or any(self.there[place] for place in self.inventory.table.places_of(digest))

    def counts_of(self, digest: bytes) -> list[int]:
        """The counts of the bases with a digest of the text that files have."""
        table = self.inventory.table
        there = [table.counts[place] for place in table.places_of(digest) if self.there[place]]
        return sorted([*there, *self.counts.get(digest, ())])

    def by_core(self, known: Container[bytes]) -> dict[bytes, list[tuple[bytes, bytes]]]:
        """All files but those that are known, by the cores of what they hold, with its bare form. They are read."""
        found: collections.defaultdict[bytes, list[tuple[bytes, bytes]]] = collections.defaultdict(list)
        for before, path in self.numbered():
            forms = forms_in(path) if before not in known else None
            if forms:
                found[forms[0]].append((forms[1], before))
        return found

    def numbered(self) -> Iterator[tuple[bytes, bytes]]:
        """The names of all files, and their paths. Says how far it is."""
        for number, (name, path) in enumerate(self.listed(), 1):
            self.say("looking at file %d of the folder" % number)
            yield before_info(name), path


# tells whether a message is marked as deleted in its mailbox
IsDeleted = Callable[[Place], bool]


class Stand(enum.IntEnum):
    """How a message of a mailbox stands: nothing was found that stands for it; the mailbox had it before; a killed run
    of the mailbox or a first pass has placed it under the base that it has in the text; a file stands for it; or the
    same, and this program has placed that file, and no run has finished with it."""

    NOWHERE = 0
    KNOWN = 1
    MINE = 2
    FOUND = 3
    FRESH = 4


# how messages stand that the mailbox did not bring before: they are new, whatever stands for them
NEW = tuple(one for one in Stand if one is not Stand.KNOWN)


class Match:
    """What a mailbox brings to a folder."""

    def __init__(self, ledger: Ledger, path: str, files: Files, is_deleted: IsDeleted) -> None:
        """Takes the path of the mailbox as the ledger spells it, and what the folder has of its messages."""
        self.ledger, self.path, self.files, self.is_deleted = ledger, path, files, is_deleted
        self.inventory = files.inventory
        # by place: how the message stands; and what stands for those that were found
        self.stands = bytearray(len(self.inventory))
        self.found: dict[int, Brought] = {}
        # how often the mailbox no longer has a core, and the lines about these messages
        self.lost: collections.Counter[bytes] = collections.Counter()
        self.lost_lines: list[Brought] = []
        # of these, what only left the folder of a label, and is in the Takeout all the same
        self.unlabelled: collections.Counter[bytes] = collections.Counter()
        # the lines of the ledger about these messages, by their cores
        self.lines: dict[bytes, list[Line]] = {}
        # those of the names in these lines that are there, and the files that no line explains, by their bare forms
        self.present: set[bytes] = set()
        self.strangers: collections.defaultdict[bytes, list[bytes]] = collections.defaultdict(list)
        # what a row says of new messages, with the path of the mailbox whose file it says that of, and of how many
        self.seen: collections.Counter[tuple[Sentence, str]] = collections.Counter()
        # how many new messages other mailboxes brought, in other forms that are gone; and of how many that equal new
        # ones the mailbox has brought the file, which is gone
        self.gone_in_other_form = 0
        self.gone: collections.Counter[bytes] = collections.Counter()

    @classmethod
    def of(cls, ledger: Ledger, path: str, files: Files, is_deleted: IsDeleted) -> "Match":
        """Finds how each message of a mailbox stands, in the order of docs/LEDGER.md."""
        self = cls(ledger, path, files, is_deleted)
        # what the mailbox has brought before is known; all else is new
        self.find_known()
        # a file that a killed run has placed stands for what is new, by its name
        self.find_mine()
        # or else the first that lines of the ledger and files of nobody offer, in the order of `Why`
        self.read_lines()
        self.find_strangers()
        self.find_files()
        # all that is nowhere then is placed, and what the mailbox no longer has is noted
        self.find_lost_lines()
        return self

    @classmethod
    def again(cls, ledger: Ledger, path: str, files: Files, is_deleted: IsDeleted) -> "Match":
        """Looks for what is nowhere, whoever had it before. A message is there if any file has its core. All lines of
        the mailbox are written anew."""
        self = cls(ledger, path, files, is_deleted)
        if path in ledger.sources:
            self.lost = ledger.sources[path].has()
        self.read_lines()
        unnamed = self.files.by_core(self.names_of_lines())
        groups: collections.defaultdict[bytes, list[int]] = collections.defaultdict(list)
        for place in range(len(self.inventory)):
            groups[self.inventory.core(place)].append(place)
        for core, places in groups.items():
            its = files_of(self.lines.get(core, ()), self.present)
            its += [nobodys(name, core, bare) for bare, name in unnamed.get(core, ())]
            self.give(places, Offers(offers_again(its, path), (), collections.Counter()))
        several = itertools.chain.from_iterable(self.lines.values())
        self.lost_lines = [one.message for one in several if one[:2] == (path, State.HELD)]
        return self

    def find_known(self) -> None:
        """Finds what the mailbox has brought before, and what it no longer has."""
        source = self.ledger.sources.get(self.path)
        if source:
            # 1 and 0 are KNOWN and NOWHERE
            self.stands, self.lost = source.known(self.inventory)

    def find_mine(self) -> None:
        """Finds what a run that was killed has placed under the bases of this text. Most of it needs no more looking. A
        name that another mailbox has placed since is that of another file."""
        table, there = self.inventory.table, self.files.there
        theirs = Hashes(self.ledger.placed_since(self.path))
        for one in self.ledger.intended(self.path, was_nowhere=True):
            place = table.own_place(one.name)
            if place is None or not there[place] or self.stands[place] != Stand.NOWHERE or one.name in theirs:
                continue
            if self.may_count(one.name, place):
                self.stands[place] = Stand.MINE

    def take_prepared(self, place: int, base: bytes, name: Optional[bytes]) -> None:
        """Takes the file with this base, which was prepared for a message that is nowhere, and its name unless that is
        the one of the text."""
        self.files.take(base)
        self.stands[place] = Stand.FRESH if name else Stand.MINE
        if name:
            self.found[place] = Brought(PLACED, name, self.inventory.core(place), self.inventory.bare(place))

    def may_count(self, name: Optional[bytes], place: int) -> bool:
        """Whether a file of this name may count for a message: one that is marked as deleted counts only for one with
        that mark."""
        return name not in self.files.trashed or self.is_deleted(Place(place))

    def is_mine(self, name: bytes) -> bool:
        """Whether a run that was killed has placed a file of the mailbox under this name, which the text has."""
        place = self.inventory.table.own_place(name)
        return place is not None and self.stands[place] == Stand.MINE

    def read_lines(self) -> None:
        """Looks into the ledger for what is new, and for what is lost."""
        if self.ledger.last:
            cores = {self.inventory.core(place) for place in self.nowhere}.union(self.lost)
            for line in self.ledger.message_lines(cores):
                if line.state is State.UNDONE:
                    self.files.kept.add(line.message.name)
                elif says_whose(line.message, line.state in BROUGHT):
                    self.lines.setdefault(line.message.core, []).append(line)
        names = self.names_of_lines()
        self.present = self.files.present(names) if names else set()

    def names_of_lines(self) -> set[bytes]:
        """The names of the files in the lines that were looked at."""
        return {line.message.name for lines in self.lines.values() for line in lines} - {NAMELESS}

    def find_strangers(self) -> None:
        """Finds the files that no line explains, by the bare forms of what they hold. If the mailbox has brought
        nothing so far, or a run of it was killed, all lines count, and all other files are read."""
        ledger, path, files = self.ledger, self.path, self.files
        # what a killed run has placed may have another name, and the text other bytes
        is_first = path not in ledger.sources or ledger.pending(path) is not None
        is_worthwhile = files.has_named or files.kept or is_first and files.has_strange
        sizes = {self.inventory.sizes[place] for place in self.nowhere} if is_worthwhile else set[int]()
        if not sizes:
            return
        several = ledger.messages({*ledger.ended, *ledger.open} if is_first else ())
        named = (one.name for number, one in several if says_whose(one, number in ledger.ended))
        known = Hashes(itertools.chain(self.taken(), self.names_of_lines(), named))
        for before, file in files.numbered():
            bare = None if before in known else self.form_of(before, file, is_first, sizes)
            if bare:
                self.strangers[bare].append(before)

    def form_of(self, before: bytes, path: bytes, is_first: bool, sizes: Container[int]) -> Optional[bytes]:
        """The bare form of a file that no line explains; None if it is not read. Since people may have much mail there,
        it is read at first, or if an undo may have kept it; later only if another program has placed it, and it may
        have the bytes of a message as it is."""
        table = self.inventory.table
        if before in self.files.kept or is_first and table.own_place(before) is None:
            forms = forms_in(path)
            return forms[1] if forms else None
        if not is_own(before):
            with contextlib.suppress(OSError):
                digest = digest_of(path, sizes)[0]
                place = table.place_of(digest + FIRST) if digest else None
                return None if place is None else self.inventory.bare(place)
        return None

    def taken(self) -> set[bytes]:
        """The names of what stands for new messages."""
        mine = map(self.inventory.table.name, self.places(Stand.MINE))
        return {*mine, *(one.name for one in self.found.values())}

    def find_files(self) -> None:
        """Finds what stands for new messages."""
        table, has_files = self.inventory.table, bool(self.files.counts or self.strangers or any(self.files.there))
        # the places of those for which a file or a line may stand, by their cores
        groups: collections.defaultdict[bytes, list[int]] = collections.defaultdict(list)
        for place in self.nowhere if self.lines or has_files else ():
            core, bare = self.inventory.core(place), self.inventory.bare(place)
            if core in self.lines or bare in self.strangers or self.files.has_digest(table.digest(place)):
                groups[core].append(place)
        if not groups:
            return
        more = self.more_of_others(groups)
        for core, places in groups.items():
            files = files_of(self.lines.get(core, ()), self.present)
            unnamed = self.unnamed(files, places)
            # first what the mailbox has: each counts for one message only
            for file in sorted(files, key=lambda one: (not one.is_held_by(self.path), not one.is_held)):
                if file.is_brought:
                    file.find(unnamed, file.bare)
            self.gone[core] = sum(one.is_gone and one.is_held_by(self.path) for one in files)
            files += [nobodys(name, core, bare) for bare, names in unnamed.items() for name in names]
            served = (one for one in files if self.is_mine(one.name or b"") or one.is_held_by(self.path))
            self.give(places, Offers(offers_of(files, self.path), served, more))

    def more_of_others(self, cores: Iterable[bytes]) -> collections.Counter[bytes]:
        """How many more messages than this one has so far another mailbox brought, at most, in each bare form that
        lines with these cores have."""
        bares = {line.message.bare for core in cores for line in self.lines.get(core, ())}
        more, had = self.ledger.most(self.path, bares), self.places(Stand.KNOWN, Stand.MINE)
        more.subtract(bare for bare in map(self.inventory.bare, had) if bare in bares)
        return more

    def unnamed(self, files: Iterable[File], places: Iterable[int]) -> Unnamed:
        """The files that may hold messages at these places, and that no line about some files names."""
        names, inventory = {line.message.name for file in files for line in file.lines}, self.inventory
        forms = dict.fromkeys((inventory.bare(place), inventory.table.digest(place)) for place in places)
        found: dict[tuple[bytes, bytes], None] = {}
        for bare, digest in forms:
            own = (b"%s.%d" % (digest.hex().encode(), count) for count in self.files.counts_of(digest))
            several = itertools.chain(own, self.strangers.get(bare, ()))
            found.update(((bare, name), None) for name in several if name not in names and not self.is_mine(name))
        return by_form(found)

    def give(self, places: Iterable[int], offers: Offers) -> None:
        """Gives new messages at these places, which have the same core, what is offered."""
        waiting: dict[bytes, list[int]] = {}
        refused: list[tuple[bytes, File]] = []
        for place in places:
            waiting.setdefault(self.inventory.bare(place), []).append(place)
        for one, is_same in offers.in_turn():
            forms = [one.bare] if is_same else list(waiting)
            waits = (at for form in forms for at in waiting.get(form, ()))
            found = next((at for at in waits if self.may_count(one.file.name, at)), None)
            if found is not None:
                offers.take(one)
                waiting[self.inventory.bare(found)].remove(found)
                self.note(one, found)
            elif one.file.name in self.files.trashed:
                refused += [(form, one.file) for form in forms]
        marked = {file for form, file in refused if waiting.get(form)} - offers.served
        self.count_nowhere([*itertools.chain(*waiting.values())], marked)

    def count_nowhere(self, rest: list[int], marked: set[File]) -> None:
        """Counts what is said of messages at these places, which have the same core, and are nowhere: for how many a
        file is there that is marked as deleted, and how many another mailbox brought in another form alone, which is
        there or gone."""
        self.seen[Says.MARKED, self.path] += min(len(marked), len(rest))
        lines = self.lines.get(self.inventory.core(rest[0]), ()) if rest else ()
        theirs = [one.message for one in lines if one.path != self.path and one.state is State.HELD]
        there = {one.bare for one in theirs if one.name in self.present}
        forms = there or {one.bare for one in theirs}
        in_other_form = sum(bool(forms) and self.inventory.bare(place) not in forms for place in rest)
        self.seen[Says.OTHER_FORM, self.path] += in_other_form if there else 0
        self.gone_in_other_form += 0 if there else in_other_form

    def note(self, offer: Offer, place: int) -> None:
        """Notes that a file stands for a message, as what it is offered for means."""
        word, name, says = offer.word_for(self.path), offer.line.message.name, offer.why.value.says
        self.found[place] = Brought(word, name, self.inventory.core(place), self.inventory.bare(place))
        self.stands[place] = Stand.FRESH if offer.is_fresh else Stand.FOUND
        if says:
            self.seen[says, offer.line.path] += 1

    def find_lost_lines(self) -> None:
        """Finds the lines of what the mailbox no longer has: first forms that it has not, then files that are gone."""
        places = range(len(self.inventory)) if self.lost else ()
        forms = {self.inventory.bare(place) for place in places if self.inventory.core(place) in self.lost}
        for core, count in self.lost.items():
            lines = [one for one in self.lines.get(core, ()) if one.path == self.path and one.state is State.HELD]
            held = sorted((one.message for one in lines), key=lambda one: (one.bare in forms, one.name in self.present))
            self.lost_lines += held[:count]

    def places(self, *stands: Stand) -> Sequence[int]:
        """The places of the messages that stand so."""
        count = sum(map(self.stands.count, stands))
        if count in (0, len(self.stands)):
            return range(count)
        are_wanted = self.stands.translate(bytes(one in stands for one in range(256)))
        return array.array("Q", itertools.compress(itertools.count(), are_wanted))

    @property
    def nowhere(self) -> Sequence[int]:
        """The places of what is nowhere: it is new, and nothing stands for it."""
        return self.places(Stand.NOWHERE)

    def count(self, stand: Stand) -> int:
        """How many messages stand so."""
        return self.stands.count(stand)

    @property
    def new(self) -> Sequence[int]:
        """The places of what is new."""
        return self.places(*NEW)

    def count_new(self) -> int:
        """How many messages are new."""
        return sum(map(self.count, NEW))

    def count_lost(self) -> int:
        """How many messages the mailbox no longer has that it brought."""
        return sum(self.lost.values()) - sum(self.unlabelled.values())


def cores_of(inventory: Inventory) -> collections.Counter[bytes]:
    """How often each core is among some messages."""
    return collections.Counter(map(inventory.core, range(len(inventory))))


class Hashes:
    """Names by their hashes, which rise. A name takes 8 bytes in place of some 150. Two names have the same hash once
    in 10^19 pairs, and nobody can choose them, since Python draws anew how it hashes."""

    def __init__(self, names: Iterable[bytes]) -> None:
        self.several = array.array("q", sorted(array.array("q", map(hash, names))))

    def __contains__(self, name: object) -> bool:
        at = bisect.bisect_left(self.several, hash(name))
        return at < len(self.several) and self.several[at] == hash(name)


class Holders:
    """Which of several mailboxes, by their numbers, may have a core. A core takes 8 bytes: its hash, with the number in
    the last bits."""

    NUMBER = (1 << 24) - 1

    def __init__(self, several: Iterable[Iterable[bytes]]) -> None:
        pairs = (hash(core) & ~self.NUMBER | number for number, cores in enumerate(several) for core in cores)
        self.several = array.array("q", sorted(array.array("q", pairs)))

    def of(self, cores: Iterable[bytes]) -> list[int]:
        """The numbers of those that may have one of these cores."""
        found = set[int]()
        for first in (hash(core) & ~self.NUMBER for core in (cores if self.several else ())):
            start = bisect.bisect_left(self.several, first)
            end = bisect.bisect_right(self.several, first | self.NUMBER)
            found.update(pair & self.NUMBER for pair in self.several[start:end])
        return sorted(found)
