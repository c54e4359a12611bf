"""The list of what `migrate --prepare` has placed in a folder; docs/LEDGER.md has its lines.

It stands beside the ledger until the mailbox of the folder is done, or all of this is removed. Its files are copies of
a mailbox as it was when it was read, and nobody reads them yet. A line of a file is on the disk before the file is.
Nobody has to read again what it notes of a text and of its messages, as long as the mailbox has the same bytes.
"""
import array
import contextlib
import functools
import itertools
import os
import re
import time
from collections.abc import Iterable, Iterator, Sequence
from typing import NamedTuple, Optional

from ..faults import Fault, Reason
from ..looks import is_there
from ..maildir.files import CLOCK_TICK, digest_of, mail_in, names_in
from ..maildir.making import PREPARED, TMP, WITH_MAIL, sync_folder
from ..mbox.bases import FIRST, Table, base_in, before_info
from ..mbox.core import SHORT
from ..mbox.inventory import NO_DATE, Inventory
from ..nexts import Runs, run_next
from ..progress import milliseconds_since
from ..remarks import PLACES, Remark
from ..patterns import pattern
from ..terminal import operand
from ..units import Say
from .lines import CUT, DAMAGED, FIRST_OF_LIST, append, lines_in
from .match import Match
from .placing import Placing

BEGUN = pattern(
    rb"@\t(\d{1,18})-([0-9a-f]{64})\t(\d{1,20}(?:,\d{1,20})*)\t(\d{1,18})\t([!-~][ -~]*)\t([^\t]*)\t([^\t]+)\Z"
)
FILE = pattern(
    rb"p\t([0-9a-f]{64}\.[1-9][0-9]{0,8})"
    rb"(?:\t(\d{1,20})\t(\d{1,19})\t(\d{1,19})\t((?:new|cur)(?::[!-~]*)?)"
    rb"(?:\t(=|[0-9a-f]{32})\t(=|[0-9a-f]{32})\t(\d{1,18})\t(\d{1,18})\t(\d{1,18}))?)?\Z"
)
FINISHES = pattern(rb">\t(\d{1,18})\Z")
TOOK = pattern(rb"t\t(\d{1,18})\Z")
AS_READ = re.compile(rb"&\t(\d{1,18})\t(\d{1,18})\t([^\t\n]+)((?:\t[a-z-]+\t\d{1,18}\t[^\t\n]+)*)\Z")
WHOLE, FAILED, MADE = b"=", b"!", b"/"
# stands for a core that begins the name, and for a bare form that is the core
SAME = b"="
# the facts of a file that is read again, whatever its facts are
READ_AGAIN = 0, 0, 0
# the list that takes the place of the other one once the disk is synced
NEXT_LIST = PREPARED + b".new"
# what comes before the name of a folder while it is made or removed
ASIDE = b"mbox2maildir-aside"
# how a name of the list is found in its folder
MISSING, OURS = 0, 1
MOST_INODE = (1 << 64) - 1
# how many times as long as a look at the files of a folder the work is that a last pass has with them
LOOKS = 12
LIST_DAMAGED = "line %d of it is damaged: nothing shows what was prepared"

# an inode, a size and a ctime in nanoseconds
Facts = tuple[int, int, int]


class Origin(NamedTuple):
    """What a pass reads: the mailbox by its size and SHA-256, the state of its file, how many messages it has, the
    words by which it is read, the tree that it is in, and its path."""

    key: tuple[int, str]
    state: tuple[int, ...]
    messages: int
    words: str
    tree: str
    path: str

    @classmethod
    def of(cls, found: re.Match[bytes]) -> "Origin":
        """What a line says."""
        size, digest, state, messages, words, tree, path = (one.decode() for one in found.groups())
        return cls((int(size), digest), tuple(map(int, state.split(","))), int(messages), words, tree, path)

    def line(self) -> bytes:
        """The same as a line."""
        state, key = ",".join(map(str, self.state)), "%d-%s" % self.key
        return "\t".join(["@", key, state, str(self.messages), self.words, self.tree, self.path]).encode() + b"\n"


def facts_of(state: os.stat_result) -> Facts:
    """The facts of a file that has this state."""
    return state.st_ino, state.st_size, max(0, state.st_ctime_ns)


def sub_with_info(name: bytes, path: bytes) -> bytes:
    """Where a file is, `new` or `cur`, with its info."""
    return os.path.basename(os.path.dirname(path)) + name[len(before_info(name)) :]


@functools.lru_cache(maxsize=1024)
def shared(sub: bytes) -> bytes:
    """The same bytes, once for all files that have them: a list of others would take much memory."""
    return sub


def finish_list(folder: bytes) -> None:
    """Puts the list that was written last into its place, once the disk of its files was synced."""
    os.rename(os.path.join(folder, NEXT_LIST), os.path.join(folder, PREPARED))
    sync_folder(folder)


def remove_list(folder: bytes, sync: bool = True) -> None:
    """Removes the list of a folder, in which nothing is only prepared any more. Without a sync, a power cut may bring
    it back."""
    for name in (NEXT_LIST, PREPARED):
        with contextlib.suppress(FileNotFoundError):
            os.unlink(os.path.join(folder, name))
    if sync:
        sync_folder(folder)


def aside_of(folder: bytes) -> bytes:
    """The path of a folder while it is made or removed: no server shows it there."""
    above, name = os.path.split(folder)
    return os.path.join(above, ASIDE + name)


def remove_aside(path: bytes) -> None:
    """Removes a folder that was made or removed, and has nothing but a list."""
    remove_list(path, sync=False)
    with contextlib.suppress(FileNotFoundError):
        os.rmdir(path)


def origin_in(folder: bytes) -> Optional[Origin]:
    """What a pass has read, by the last line of the list of a folder that says so, which may be damaged elsewhere."""
    found = [*filter(None, map(BEGUN.match, lines_in(folder, PREPARED)))]
    return Origin.of(found[-1]) if found else None


def has_list(folder: bytes) -> bool:
    """Whether a folder has a list."""
    return is_there(os.path.join(folder, PREPARED))


class AsRead(NamedTuple):
    """What is known of a text: where it begins, how many messages it has, with one that is left out, what it is, and
    what is to be said of it."""

    start: int
    messages: int
    kind: str
    remarks: tuple[Remark, ...]

    @classmethod
    def of(cls, found: re.Match[bytes]) -> "AsRead":
        """What a line says."""
        start, messages, kind, rest = (one.decode("utf-8", "surrogateescape") for one in found.groups())
        words = rest.split("\t")[1:]
        its = ((words[at], words[at + 2], int(words[at + 1])) for at in range(0, len(words), 3))
        remarks = (Remark(word, says, there) for word, says, there in its if word in PLACES)
        return cls(int(start), int(messages), kind, tuple(remarks))

    def line(self) -> bytes:
        """The same as a line."""
        remarks = (word for one in self.remarks for word in (one.word, str(one.there), one.says))
        words = ["&", str(self.start), str(self.messages), self.kind, *remarks]
        return "\t".join(words).encode("utf-8", "surrogateescape") + b"\n"


class ReadText(NamedTuple):
    """A text that was read: what is known of it, its messages, and their offsets in it with all its header fields."""

    as_read: AsRead
    inventory: Inventory
    offsets: Sequence[int]

    def places_in(self, table: Table, wanted: Sequence[int]) -> Optional[list[int]]:
        """The places of the messages among files, if each message has one by its own base that is wanted, and no other
        one is; otherwise None, or none for a text that cannot be noted."""
        places = [table.place_of(base) for base in self.inventory.table.bases()]
        found: list[int] = [place for place in places if place is not None and wanted[place]]
        is_noted = len(found) == len(places) == sum(wanted) and AS_READ.match(self.as_read.line()[:-1])
        return found if is_noted else None

    def words(self, place: int) -> bytes:
        """What is noted of a message: core, bare form, offset, line, and how many lines lose a `>`."""
        one = self.inventory
        core, bare = one.core(place), one.bare(place)
        return b"\t%s\t%s\t%d\t%d\t%d" % (
            SAME if core == one.table.digest(place)[:SHORT] else core.hex().encode(),
            SAME if bare == core else bare.hex().encode(),
            self.offsets[place],
            one.lines[place],
            one.unquoted[place],
        )


class Prepared:
    """The files that were prepared in a folder, by their bases, which of them are there and wanted, and what is noted
    of the text that has their messages."""

    def __init__(self, folder: bytes) -> None:
        """Takes a folder without a list."""
        self.folder = folder
        self.is_there = self.has_first_line = False
        self.table, self.facts = Table(), array.array("Q")
        # where each file was when it was verified, `new` or `cur`, with its info
        self.subs: list[Optional[bytes]] = []
        # what the latest pass has read, and whether it was whole; whether a sync failed, and whether the folder was
        # made for this; and in which batch it is finished
        self.origin: Optional[Origin] = None
        self.is_whole = self.has_failed = self.is_made = False
        self.batch: Optional[int] = None
        # what is known of the text, and of its messages in their order
        self.as_read: Optional[AsRead] = None
        self.messages = Inventory()
        self.messages.table, self.messages.lines = self.table, array.array("Q")
        # how long it took to read the mailbox as a last pass does, and to look at its files, in milliseconds
        self.reading = self.looking = 0
        # by place: whether its file is there, and is ours; whether it was verified since it changed last; and whether a
        # message wants it
        self.files, self.verified, self.wanted = bytearray(), bytearray(), bytearray()
        # the files of these names that are not what was prepared
        self.edited: set[bytes] = set()

    @classmethod
    def read(cls, folder: bytes) -> "Prepared":
        """Reads the list of a folder, which need not exist. Raises Fault if it is damaged, or if others may have
        written to it."""
        self = cls(folder)
        self.is_there = has_list(folder)
        path = os.path.join(folder, PREPARED)
        for number, line in enumerate(lines_in(folder, PREPARED), 1):
            if not self.take(line) and not line.endswith(CUT):
                then = run_next(Runs.MOVE, operand(path), operand(path + DAMAGED))
                raise Fault(LIST_DAMAGED % number, Reason.LEDGER, then, place=path)
        return self

    def take(self, line: bytes) -> bool:
        """Takes a line, and returns whether it is one."""
        file = FILE.match(line)
        if file:
            return self.take_file(file)
        begun, finishes, as_read, took = (one.match(line) for one in (BEGUN, FINISHES, AS_READ, TOOK))
        if begun:
            self.origin, self.is_whole, self.as_read = Origin.of(begun), False, None
        elif finishes:
            self.batch = int(finishes[1])
        elif as_read:
            self.as_read = AsRead.of(as_read)
        elif took:
            self.reading = int(took[1])
        self.is_whole = self.is_whole or line == WHOLE
        self.has_failed = self.has_failed or line == FAILED
        self.is_made = self.is_made or line == MADE
        self.has_first_line = self.has_first_line or line == FIRST_OF_LIST
        return bool(begun or finishes or as_read or took) or line in (WHOLE, FAILED, MADE, FIRST_OF_LIST)

    def take_file(self, file: re.Match[bytes]) -> bool:
        """Takes the line of a file, and returns whether it is one: no inode has more than 64 bits."""
        place = self.note(base_in(file[1]) or b"")
        if file[2]:
            if int(file[2]) > MOST_INODE:
                return False
            self.set_facts(place, (int(file[2]), int(file[3]), int(file[4])))
            self.subs[place] = shared(file[5])
        if file[6]:
            one = self.messages
            known = self.table.digest(place)[:SHORT] if file[6] == SAME else bytes.fromhex(file[6].decode())
            one.cores += known
            one.bares += known if file[7] == SAME else bytes.fromhex(file[7].decode())
            for row, number in zip((one.offsets, one.lines, one.unquoted), file.group(8, 9, 10)):
                row.append(int(number))
        return True

    def note(self, base: bytes) -> int:
        """Takes a file, and returns its place."""
        place = self.table.place_of(base)
        if place is not None:
            return place
        self.table.keep(base)
        self.facts.extend(READ_AGAIN)
        self.subs.append(None)
        self.files.append(MISSING)
        self.verified.append(0)
        self.wanted.append(0)
        return len(self.table) - 1

    def set_facts(self, place: int, facts: Facts) -> None:
        """Takes the facts of a file."""
        self.facts[3 * place : 3 * place + 3] = array.array("Q", facts)

    def facts_at(self, place: int) -> Facts:
        """The facts of a file."""
        inode, size, changed = self.facts[3 * place : 3 * place + 3]
        return inode, size, changed

    def listed(self) -> Iterator[tuple[int, bytes, bytes]]:
        """The files of the folder whose names are in the list, by their places there, with their names and paths."""
        for name, path in mail_in(self.folder):
            place = self.table.own_place(name)
            if place is not None:
                yield place, name, path

    def look(self, say: Say) -> None:
        """Looks which files are there and are ours: those with the facts of the list, and others with the bytes of
        their bases."""
        self.files, self.edited, began = bytearray(len(self.table)), set(), time.monotonic()
        owner = os.stat(self.folder).st_uid if self.is_there else 0
        for number, (place, _, path) in enumerate(self.listed() if self.is_there else (), 1):
            say("looking at file %d of the folder" % number)
            state = os.lstat(path)
            is_right = facts_of(state) == self.facts_at(place) or digest_of(path)[0] == self.table.digest(place)
            if not is_right or state.st_uid != owner or self.files[place]:
                self.edited.add(path)
            else:
                self.files[place] = OURS
                self.set_facts(place, facts_of(state))
        self.verified, self.looking = self.files[:], milliseconds_since(began)

    def give_to(self, match: Match) -> None:
        """Gives the files to those messages that are to be placed under their names. Then no message wants the
        others."""
        placing = Placing(match)
        for place in placing.nowhere:
            at = self.note(placing.base(place))
            self.wanted[at] = 1
            if self.files[at]:
                match.take_prepared(place, self.table.base(at), placing.names.get(place))

    def foreseen(self) -> int:
        """How many milliseconds a last pass would take for the mailbox as it is. It looks at the files several times:
        it also lists them in the ledger, dates them, gives them flags and verifies them."""
        return self.reading + LOOKS * self.looking

    def inventory(self, end: int) -> Optional[Inventory]:
        """The messages of the text, which has this end, without dates; None unless all are noted in the order of their
        bases, and the folder has their files, as the last look has found them, and no other ones."""
        one, table = self.messages, self.table
        if not self.origin or not self.is_whole or not self.origin.messages == len(table) > 0:
            return None
        has_all = all(self.files) and sum(1 for _ in mail_in(self.folder)) == len(self.files)
        if not has_all or len(one.lines) != len(table):
            return None
        for place in (place for place, count in enumerate(table.counts) if count > 1):
            digest, count = table.digest(place), table.counts[place]
            first, before = table.place_of(digest + FIRST), table.place_of(digest + b".%d" % (count - 1))
            if first is None or before is None or before > place:
                return None
            # the table knows them as equal then
            table.repeats[first] = count
        one.sizes, one.dates = self.facts[1::3], array.array("q", [NO_DATE]) * len(one.lines)
        one.offsets = array.array("Q", [*one.offsets[: len(one.lines)], end])
        return one

    def hides(self, name: bytes) -> bool:
        """Whether a file of this name, without its info, was prepared and is ours."""
        place = self.table.own_place(name)
        return place is not None and self.files[place] == OURS

    def count(self) -> int:
        """How many files are there, and are wanted."""
        return sum(is_there and is_wanted for is_there, is_wanted in zip(self.files, self.wanted))

    def unwanted(self) -> list[int]:
        """How many bytes each file has that is there, and that no message wants."""
        rows = zip(self.files, self.wanted, self.facts[1::3])
        return [size for is_there, is_wanted, size in rows if is_there and not is_wanted]

    def remove_unwanted(self) -> int:
        """Removes the files that no message wants, if they are still what was looked at, and what a killed run has left
        in `tmp`. Returns how many are not, and stay."""
        before, tmp = len(self.edited), os.path.join(self.folder, TMP)
        for name in names_in(tmp):
            # the record is locked, so none is at work
            if self.table.own_place(name) is not None:
                os.unlink(os.path.join(tmp, name))
        if not self.unwanted():
            return 0
        for place, _, path in self.listed():
            if self.files[place] != OURS or self.wanted[place]:
                continue
            # a file with other facts may be a second copy
            if facts_of(os.lstat(path)) == self.facts_at(place):
                os.unlink(path)
            else:
                self.edited.add(path)
        for sub in WITH_MAIL:
            sync_folder(os.path.join(self.folder, sub))
        return len(self.edited) - before

    def make_folder(self) -> None:
        """Makes the folder, which then has the list, if one of them is missing. It has its name once it has the
        list."""
        if not self.is_there and not is_there(self.folder):
            aside = aside_of(self.folder)
            remove_aside(aside)
            os.mkdir(aside, 0o700)
            append(aside, [FIRST_OF_LIST + b"\n", MADE + b"\n"], name=PREPARED)
            sync_folder(aside)
            os.rename(aside, self.folder)
            sync_folder(os.path.dirname(self.folder))
            self.is_made = self.is_there = self.has_first_line = True
        elif not self.is_there:
            self.append()

    def append(self, *lines: bytes) -> None:
        """Appends lines, which are on the disk when this returns."""
        append(self.folder, [*[FIRST_OF_LIST + b"\n"] * (not self.has_first_line), *lines], name=PREPARED)
        if not self.has_first_line:
            # a run may have been killed before the name of the file was on the disk
            sync_folder(self.folder)
        self.is_there = self.has_first_line = True

    def missing_lines(self) -> Iterator[bytes]:
        """The lines of the files that are wanted, and not there."""
        for place, is_wanted in enumerate(self.wanted):
            if is_wanted and not self.files[place]:
                yield b"p\t%s\n" % self.table.name(place)

    def write_whole(self, origin: Origin, text: Optional[ReadText], took: int) -> None:
        """Writes the list anew beside the other one: what is wanted, with the facts of its files, what is known of the
        text, and how many milliseconds it took to read. It is on the disk when this returns, and counts once that of
        the files was synced."""
        self.reading = took
        places = text.places_in(self.table, self.wanted) if text else None
        head, lines = [origin.line(), b"t\t%d\n" % took], map(self.line, range(len(self.table)))
        if text and places:
            head, lines = [*head, text.as_read.line()], map(self.line, places, map(text.words, range(len(places))))
        # all of them at once would take much memory
        self.write_next(itertools.chain(head, lines, [WHOLE + b"\n"]))
        self.is_there = True

    def line(self, place: int, words: bytes = b"") -> bytes:
        """The line of a file that is wanted, with these words about its message; empty for others."""
        if not self.wanted[place]:
            return b""
        sub = self.subs[place]
        more = b"\t%d\t%d\t%d\t%s%s" % (*self.facts_at(place), sub, words) if sub else b""
        return b"p\t%s%s\n" % (self.table.name(place), more)

    def write_next(self, lines: Iterable[bytes]) -> None:
        """Writes lines into the list beside the other one."""
        flags = os.O_WRONLY | os.O_CREAT | os.O_TRUNC | os.O_NOFOLLOW | os.O_CLOEXEC
        with open(os.open(os.path.join(self.folder, NEXT_LIST), flags, 0o600), "wb") as file:
            file.write(FIRST_OF_LIST + b"\n" + (MADE + b"\n") * self.is_made)
            file.writelines(lines)
            file.flush()
            os.fsync(file.fileno())

    def take_back(self) -> None:
        """Notes that nobody finishes it any more. All files stay in the list."""
        self.wanted = bytearray(b"\1") * len(self.table)
        origin = [self.origin.line()] if self.origin else []
        self.write_next([*origin, *map(self.line, range(len(self.table)))])
        finish_list(self.folder)
        self.wanted, self.batch = bytearray(len(self.table)), None
        self.is_whole = False

    def note_facts(self) -> None:
        """Takes the facts of the files that are wanted. What changed since the look is verified after this, so that
        whoever changes it later is noticed. The facts of a file that changed a moment ago show nothing: the clock of a
        file system has ticks."""
        time.sleep(CLOCK_TICK)
        before, began, looked_at = (time.time() - CLOCK_TICK) * 10**9, time.monotonic(), self.facts
        self.facts = array.array("Q", READ_AGAIN) * len(self.table)
        for place, name, path in self.listed():
            if self.wanted[place]:
                facts, sub = facts_of(os.lstat(path)), sub_with_info(name, path)
                self.subs[place] = shared(sub)
                self.verified[place] &= facts == tuple(looked_at[3 * place : 3 * place + 3])
                if 0 < facts[2] < before and facts[2] % 10**9:
                    self.set_facts(place, facts)
        self.looking = milliseconds_since(began)
