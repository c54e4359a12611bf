"""The ledger of a folder: which messages each mailbox brought there, in the lines of docs/LEDGER.md, which are only
appended. It has a number of its own, by which it is known wherever its folder is. The lines of a batch are an
intention: they count once all of it was verified, and is on the disk.
"""
import array
import collections
import copy
import itertools
import os
from collections.abc import Container, Iterable, Iterator
from typing import Optional, Union

from ..looks import is_there
from ..maildir.making import LEDGER, SyncNames, sync_folder
from ..mbox.core import SHORT
from ..mbox.inventory import Inventory
from ..terminal import is_text
from .lines import (
    ALL_PLACED,
    BATCH,
    BEGINS,
    DAMAGED,
    END,
    END_LINE,
    FAILED,
    FIRST_LINE,
    LOST,
    MOVED,
    NAMELESS,
    PLACED,
    SHARED,
    UNDOING,
    UNDONE,
    BatchHead,
    Brought,
    Line,
    Messages,
    State,
    append,
    counted_in,
    digest_at,
    pieces_in,
    pieces_of,
    was_cut,
)


# what a line that is not that of a message is, by its first sign
BY_SIGN = {
    **{b"m": FIRST_LINE, b"@": BATCH, b"+": ALL_PLACED, b"=": END},
    **{b">": MOVED, b"<": UNDOING, b"-": UNDONE, b"!": FAILED},
}


class Batch:
    """What a run brings of one mailbox: an intention, until it is ended."""

    def __init__(self, head: BatchHead) -> None:
        self.head, self.path = head, head.path
        # the words of its lines, and the digests that they have, one after the other
        self.line_words, self.cores, self.bares = bytearray(), bytearray(), bytearray()
        # whether each of its messages has had a file
        self.is_placed = False

    @property
    def is_whole(self) -> bool:
        """Whether it has all of its lines. Before that nothing of it is placed."""
        return len(self.line_words) == self.head.lines

    def take(self, words: bytes, cores: bytes, bares: bytes) -> None:
        """Takes lines by their words and digests, one after the other."""
        self.line_words += words
        self.cores += cores
        self.bares += bares


class Source:
    """What a mailbox has brought, and how it was when it was read last: the words of its reading, size and SHA-256."""

    # how many bytes of digests are compared at once
    STEP = 1 << 14

    def __init__(self) -> None:
        self.words, self.key, self.inode = "", (0, ""), 0
        self.cores, self.bares = bytearray(), bytearray()
        # how often each core is no longer in the mailbox, and the bare forms that these messages had; and how many
        # messages may have come back
        self.lost: collections.Counter[bytes] = collections.Counter()
        self.forms: collections.defaultdict[bytes, list[bytes]] = collections.defaultdict(list)
        self.back = 0
        # how often it had a bare form of which a file in another form took the place
        self.earlier: collections.Counter[bytes] = collections.Counter()

    def take(self, batch: Batch) -> None:
        """Takes a batch that has ended."""
        self.words, self.key, self.inode = batch.head.words, batch.head.key, batch.head.inode
        self.back += batch.head.back
        if not self.lost and LOST not in batch.line_words:
            self.cores += batch.cores
            self.bares += batch.bares
            # the mailbox has them now
            batch.cores, batch.bares = bytearray(), bytearray()
            return
        for at, word in enumerate(batch.line_words):
            core, bare = digest_at(batch.cores, at), digest_at(batch.bares, at)
            if word == LOST[0]:
                self.lost[core] += 1
                self.forms[core].append(bare)
            elif core in self.lost:
                self.take_again(core, bare)
            else:
                self.cores += core
                self.bares += bare

    def take_again(self, core: bytes, bare: bytes) -> None:
        """Takes a message with a core that it no longer had. What it has again it had before, perhaps in another
        form."""
        self.lost[core] -= 1
        if not self.lost[core]:
            del self.lost[core]
        forms = self.forms[core]
        was = bare if bare in forms else forms[0]
        forms.remove(was)
        at = -1 if was == bare else self.cores.find(core)
        while at >= 0 and (at % SHORT or self.bares[at : at + SHORT] != was):
            at = self.cores.find(core, at + 1)
        if at >= 0:
            self.bares[at : at + SHORT] = bare
            self.earlier[was] += 1

    def has(self, first: int = 0) -> collections.Counter[bytes]:
        """How often it had each core when it was read last, from a message on."""
        return counted_in(self.cores[first * SHORT :]) - self.lost

    def known(self, inventory: Inventory) -> tuple[bytearray, collections.Counter[bytes]]:
        """Which messages of the mailbox it has brought before, for `migrate` and `back`: 1 at their places. And how
        often it no longer has a core. Messages in their old form come first."""
        known, first = bytearray(len(inventory)), self.same_start(inventory.cores, inventory.bares)
        cores, bares = self.has(first), counted_in(self.bares[first * SHORT :]) + self.earlier
        known[:first] = b"\1" * first
        rest = array.array("Q")
        for place in range(first, len(inventory)):
            core, bare = inventory.core(place), inventory.bare(place)
            if cores[core] > 0 and bares[bare] > 0:
                cores[core] -= 1
                bares[bare] -= 1
                known[place] = 1
            else:
                rest.append(place)
        for place in rest:
            core = inventory.core(place)
            if cores[core] > 0:
                cores[core] -= 1
                known[place] = 1
        return known, +cores

    def same_start(self, cores: bytearray, bares: bytearray) -> int:
        """How many of its first messages are those of a text with these digests, in large steps. Most mailboxes only
        grow, and it takes much memory to count each digest."""
        at, end = 0, 0 if self.lost else min(len(self.cores), len(cores))
        for at in range(0, end, self.STEP):
            several = slice(at, at + self.STEP)
            if self.cores[several] != cores[several] or self.bares[several] != bares[several]:
                break
        return at // SHORT

    def count(self) -> int:
        """How many messages it had when it was read last."""
        return len(self.cores) // SHORT - sum(self.lost.values())


class Told:
    """What the lines of a ledger say: before any is taken, nothing."""

    def __init__(self) -> None:
        self.is_made, self.in_memory = False, b""
        self.number, self.size, self.last = "", 0, 0
        # the last number of each mailbox: of a batch that is whole or, if it was undone since, of that
        self.lasts: dict[str, int] = {}
        self.sources: dict[str, Source] = {}
        # the batches without an end, by their numbers in their order, and the one whose lines follow
        self.open: dict[int, Batch] = {}
        self.batch: Optional[Batch] = None
        # the number of the first line that is damaged
        self.damage: Optional[int] = None
        # the paths of those that have ended, and of those of mailboxes that were undone, by their numbers
        self.ended: dict[int, str] = {}
        self.undone: dict[int, str] = {}
        # when mailboxes that have brought something were begun first, in seconds since 1970
        self.begun: dict[str, int] = {}
        # the batches of which a sync failed
        self.failed: set[int] = set()
        # how many of the names in it its folder no longer has, and how many it has itself; and how both were then
        self.gone = 0, 0
        self.looked_at: Optional[tuple[int, int, tuple[int, ...]]] = None
        # the paths of mailboxes whose undo is not finished: what they have belongs to nobody
        self.leaving: set[str] = set()


class Ledger(Told):
    """What mailboxes brought into a folder, by their paths as the record spells them."""

    def __init__(self, folder: bytes, verified: Iterable[int] = (), dry: bool = False) -> None:
        """Reads the ledger of a folder, which need not exist. Batches with these numbers count as ended: this run has
        verified them, and their disk is not synced yet. Lines that a rehearsal appends stay in memory. Raises Fault if
        others may have written to it."""
        super().__init__()
        self.folder, self.is_dry = folder, dry
        number, first = 1, 0
        for text, several in pieces_in(folder):
            if several and self.batch:
                self.batch.take(several.words, several.cores, several.bares)
                self.note_last(self.batch)
            elif several or not self.take(text[:-1]):
                # what was cut is no damage, unless a line that follows needs it
                first = first or number
                if not was_cut(text[:-1]):
                    self.damage = first
            self.size, number = self.size + len(text), number + text.count(b"\n")
        for batch in verified:
            self.end(batch)

    def take(self, line: bytes) -> bool:
        """Takes a line that is not that of a message, and returns whether it is one."""
        sign = line[:1]
        found = BY_SIGN[sign].match(line) if sign in BY_SIGN and b"\0" not in line and is_text(line) else None
        words = [one.decode() for one in found.groups(default=b"")] if found else [""]
        if not found:
            return False
        if sign == b"m":
            self.number = words[0]
        elif sign == b"@":
            self.last, self.batch = int(words[0]), Batch(BatchHead.of(found))
            self.open[self.last] = self.batch
            if self.batch.head.begun:
                self.begun.setdefault(self.batch.path, self.batch.head.begun)
            self.note_last(self.batch)
        elif sign == b"+":
            placed = self.open.get(int(words[0]))
            if placed is None or not placed.is_whole:
                return False
            placed.is_placed = True
        elif sign == b"=":
            return self.end(int(words[0]))
        elif sign == b">":
            self.rename(*words)
        elif sign == b"-":
            self.last = self.lasts[words[1]] = int(words[0])
            self.forget(words[1])
        elif sign == b"<":
            self.leaving.add(words[0])
        else:
            self.failed.add(int(words[0]))
        return True

    def note_last(self, batch: Batch) -> None:
        """Notes the number of the last batch, once it is whole."""
        if batch.is_whole:
            self.lasts[batch.path] = self.last

    def end(self, number: int) -> bool:
        """Ends a batch, and returns whether it had all of its lines."""
        batch = self.open.pop(number, None)
        if batch is None or not batch.is_whole:
            return False
        self.ended[number] = batch.path
        self.sources.setdefault(batch.path, Source()).take(batch)
        return True

    def forget(self, path: str) -> None:
        """Forgets a mailbox, all of which was undone."""
        self.sources.pop(path, None)
        self.begun.pop(path, None)
        self.leaving.discard(path)
        self.undone.update((number, path) for number, batch in self.open.items() if batch.path == path)
        self.undone.update((number, path) for number, its in self.ended.items() if its == path)
        self.open = {number: batch for number, batch in self.open.items() if batch.path != path}
        self.ended = {number: its for number, its in self.ended.items() if its != path}

    def rename(self, old: str, new: str) -> None:
        """Takes it that a mailbox has another path now."""
        if old in self.sources:
            self.sources[new] = self.sources.pop(old)
        if old in self.begun:
            self.begun[new] = self.begun.pop(old)
        self.lasts[new] = max(self.lasts.get(name, 0) for name in (old, new))
        self.leaving = {new if path == old else path for path in self.leaving}
        self.ended = {number: new if path == old else path for number, path in self.ended.items()}
        for batch in self.open.values():
            batch.path = new if batch.path == old else batch.path

    def pending(self, path: str) -> Optional[int]:
        """The number of the last batch of a mailbox, if something of it may have been placed and it has no end."""
        several = (number for number, batch in self.open.items() if batch.path == path and batch.is_whole)
        return max((number for number in several if number > self.last_end(path)), default=None)

    def last_read(self, path: str) -> Union[BatchHead, Source]:
        """How a mailbox was when it was read last: the words of its reading, its size and SHA-256, and its inode."""
        number = self.pending(path)
        return self.sources[path] if number is None else self.open[number].head

    def is_of(self, path: str, key: tuple[int, str], inode: int) -> bool:
        """Whether a mailbox with this size and SHA-256, or in the file with this inode, is the one that was at a
        path."""
        before = self.last_read(path)
        return before.key == key or bool(inode) and before.inode == inode

    def paths(self) -> list[str]:
        """The paths of the mailboxes that brought something, or may have."""
        return list(dict.fromkeys([*self.sources, *(one.path for one in self.open.values() if one.is_whole)]))

    def has(self, path: str) -> collections.Counter[bytes]:
        """How often the mailbox of a path had each core when it was read last, or a killed run was to bring it."""
        source, batch = self.sources.get(path), self.open.get(self.pending(path) or 0)
        return (source.has() if source else collections.Counter()) | counted_in(batch.cores if batch else bytearray())

    def is_in(self, path: str, cores: collections.Counter[bytes]) -> bool:
        """Whether these are all cores, and perhaps more, that the mailbox of a path has."""
        has = self.has(path)
        return bool(has) and not has - cores

    def most(self, path: str, wanted: Container[bytes]) -> collections.Counter[bytes]:
        """How often a mailbox with another path has brought each of these bare forms, at most."""
        most: collections.Counter[bytes] = collections.Counter()
        for other, source in self.sources.items():
            if other != path and other not in self.leaving:
                most |= counted_in(source.bares, wanted)
        return most

    def pieces(self) -> Iterator[tuple[int, Messages, int]]:
        """The lines of messages, the number of their batch, and how many come before those that it was to place."""
        number = first = 0
        for text, several in itertools.chain(pieces_in(self.folder), pieces_of(self.in_memory)):
            batch = None if several else BATCH.match(text[:-1])
            number, first = (int(batch[1]), int(batch[2]) - int(batch[3])) if batch else (number, first)
            if several:
                yield number, several, first
                first -= len(several.names)

    def messages(self, numbers: Container[int], was_nowhere: bool = False) -> Iterator[tuple[int, Brought]]:
        """The lines of messages in batches with these numbers, with their numbers; or those of messages that were to be
        placed."""
        for number, several, first in self.pieces() if numbers else ():
            if number in numbers:
                yield from ((number, one) for at, one in several.counted() if at >= first or not was_nowhere)

    def message_lines(self, cores: Optional[Container[bytes]]) -> Iterator[Line]:
        """The lines of messages that have one of these cores; of all messages without them."""
        # by their paths: what mailboxes have, by the messages, and what they had once
        held: collections.defaultdict[str, collections.defaultdict[tuple[bytes, ...], list[Line]]]
        held = collections.defaultdict(lambda: collections.defaultdict(list))
        former: collections.defaultdict[str, list[Line]] = collections.defaultdict(list)
        states = {number: (path, State.HELD) for number, path in self.ended.items()}
        states.update((number, (path, State.UNDONE)) for number, path in self.undone.items())
        for number, its in self.open.items():
            states[number] = its.path, State.OPEN if number > self.last_end(its.path) else State.OVERTAKEN
        for number, several, first in self.pieces():
            for at, one in several.counted(cores) if number in states else ():
                line = Line(*states[number], one, number, at >= first)
                if line.state is State.HELD:
                    same = held[line.path][one[1:]]
                    if one.word != LOST:
                        same.append(line)
                    elif same:
                        # of several with a name, the last one has the file
                        former[line.path].append(same.pop(0)._replace(state=State.FORMER))
                elif one.word != LOST:
                    yield line
        for path, its_lines in held.items():
            for line in itertools.chain.from_iterable(its_lines.values()):
                yield line._replace(state=State.OPEN) if path in self.leaving else line
            yield from former[path]

    def last_end(self, path: str) -> int:
        """The number of the last batch of a mailbox that has ended; 0 if none has."""
        return max((number for number, its in self.ended.items() if its == path), default=0)

    def intended(self, path: str, was_nowhere: bool = False) -> Iterator[Brought]:
        """The lines of a mailbox whose batches have not ended; or those of messages that were to be placed since its
        last one that has."""
        after = self.last_end(path) if was_nowhere else 0
        numbers = {number for number, batch in self.open.items() if batch.path == path and number > after}
        return (one for _, one in self.messages(numbers, was_nowhere))

    def placed_since(self, path: str) -> Iterator[bytes]:
        """The names of messages that other mailboxes were to place since the last batch of this one, if that has no
        end."""
        last = self.pending(path)
        numbers = {number for number in (*self.ended, *self.open) if last is not None and number > last}
        return (one.name for _, one in self.messages(numbers, was_nowhere=True))

    def names(self, more: Iterable[int] = ()) -> Iterator[bytes]:
        """The names of the files that mailboxes have placed, or share, in batches that have ended, and in more with
        these numbers."""
        numbers = {*self.ended, *more}
        for number, several, _ in self.pieces():
            if number in numbers:
                named = zip(several.words, several.names)
                yield from (name for word, name in named if word in PLACED + SHARED and name != NAMELESS)

    def make(self, sync: SyncNames = sync_folder) -> None:
        """Makes its file, unless that has been done. `sync` syncs its name, which is on the disk before its lines."""
        if not (self.is_made or self.ended or self.is_dry):
            # if it is there, a run may have been killed before its name was on the disk
            append(self.folder, [], sync=False)
            sync(self.folder)
            self.is_made = True

    def begin(self, head: BatchHead, messages: Iterable[Brought]) -> int:
        """Begins a batch, and returns its number. It is on the disk then. Raises Fault if that fails, or if
        another process has begun one since the ledger was read."""
        self.make()
        number, first = self.last + 1, head.line(self.last + 1)

        def lines() -> Iterator[bytes]:
            if not self.number:
                self.number = os.urandom(16).hex()
                yield BEGINS + self.number.encode() + b"\n"
            self.take(first)
            yield first + b"\n"
            for one in messages:
                assert self.batch is not None, "it was begun"
                self.batch.take(one.word, one.core, one.bare)
                yield one.line()
            self.note_last(self.open[number])

        # its lines are known up to here
        self.append(lines(), self.size)
        return number

    def append(self, lines: Iterable[bytes], since: Optional[int] = None) -> None:
        """Appends lines, which are on the disk then. Raises Fault if that fails, or if another process has begun a
        batch since the ledger had a size."""
        if self.is_dry:
            self.in_memory += b"".join(lines)
        else:
            self.size = append(self.folder, lines, since=since)

    def note_without_files(self, key: tuple[int, str], words: str, path: str, inode: int, *messages: Brought) -> None:
        """Notes of a mailbox with this size and SHA-256, in the file with this inode, how it was read, and messages of
        which no file is placed."""
        head = BatchHead.without_files(len(messages), key, words, path, inode)
        self.note(END_LINE % self.begin(head, messages))

    def move(self, old: str, new: str) -> None:
        """Notes that a mailbox has another path now."""
        self.note(b">\t%s\t%s\n" % (old.encode(), new.encode()))

    def undo(self, path: str) -> None:
        """Notes that everything of a mailbox was undone."""
        self.note(b"-\t%d\t%s\n" % (self.last + 1, path.encode()))

    def note(self, line: bytes) -> None:
        """Appends a line, and takes it."""
        self.append([line])
        self.take(line[:-1])

    def without_lines(self) -> "Ledger":
        """The same folder, as if its ledger had no lines."""
        other = copy.copy(self)
        other.forget_all()
        return other

    def forget_all(self) -> None:
        """Forgets all lines."""
        super().__init__()

    def put_aside(self) -> None:
        """Begins anew. What is damaged stays beside it, each time under another name."""
        path, last = os.path.join(self.folder, LEDGER) + DAMAGED, self.last
        aside = itertools.chain([path], (b"%b.%d" % (path, number) for number in itertools.count(2)))
        if not self.is_dry:
            os.rename(os.path.join(self.folder, LEDGER), next(one for one in aside if not is_there(one)))
        self.forget_all()
        # a rehearsal still reads the lines of the file
        self.last = last


def count_in(ledger: Ledger, path: str) -> int:
    """How many messages a mailbox had when it was read last."""
    count, number = ledger.sources[path].count() if path in ledger.sources else 0, ledger.pending(path)
    words = b"" if number is None else ledger.open[number].line_words
    return count + len(words) - 2 * words.count(LOST)


def has_failed(ledger: Ledger, *paths: str) -> bool:
    """Whether a sync failed of what was to be brought last from one of these mailboxes; or from any."""
    return any(ledger.pending(path) in ledger.failed for path in paths or ledger.paths())
