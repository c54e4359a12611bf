"""Whether each message of a text is in a Maildir, once. Several threads may read its files ahead: while one hashes or
reads, Python lets others run.
"""
import collections
import functools
import itertools
import os
from collections.abc import Callable, Iterable, Iterator, MutableSequence
from typing import NamedTuple, Optional, Union

from ..looks import is_there
from ..mbox.bases import BASE, base_in, before_info, is_own
from ..mbox.inventory import Inventory
from ..remarks import Says, Sentence
from ..terminal import first_of
from ..units import Place, Say, silent
from .either import Others
from .files import digest_of, forms_in, listings_of, paths_of

# more threads gain little; each takes this many files at a time
MOST_THREADS, BATCH = 4, 16
# smaller files take longer to hand over than to hash
WORTHWHILE = 1 << 14

# the digest of a file and its owner
Digested = tuple[Optional[bytes], Optional[int]]
# a file: the place of the message to which its name belongs, if it belongs to one, its name and its path
ListedFile = tuple[Optional[Place], bytes, bytes]
# what was read of a file ahead: its digest and its owner, or the error of the read; None if it was not read
Ahead = Union[Digested, OSError, None]
# looks at the open file of a message, whose state this is, and gives its digest if that is known without hashing it
LookFirst = Callable[[Place, int, os.stat_result], Optional[bytes]]


class Sort(NamedTuple):
    """A sort of messages, files or lines: its word, and what a row says of how many there are; whether a mailbox that
    has some is whole; and, if they are named, what stands before each below the row of `verify`, and before all of them
    in the line of a `migrate` that leaves the mailbox. What it means, and what to do, is in `meanings.py`."""

    remark: Sentence
    is_right: bool
    each: str = ""
    several: str = ""


# of messages, each of which is of one of these; those that are there have no remark
THERE = Sort(Sentence("there", "there {}"), True)
OTHER_BYTES = Sort(Says.OTHER_BYTES, False, "other bytes in", "with other bytes")
RENAMED = Sort(Says.RENAMED, True, "under another name,")
NOWHERE = Sort(Says.NOWHERE, False, "nowhere")
# of files
DOUBLE = Sort(Says.DOUBLE, False, "a second copy of a message:", "a second copy of a message")
OTHER_OWNER = Sort(Says.OTHER_OWNER, False, "not owned by the owner of the Maildir:", "owned by another user")
# of lines
DOUBTFUL_LINE = Sort(Says.DOUBTFUL_LINE, False, "this From_ line may contain mail")
# of some of the messages that are there, which are only counted
WITHOUT_FIELDS = Sort(Says.WITHOUT_FIELDS, True)
OTHER_FORM = Sort(Says.IN_OTHER_FORM, True)


def last_paths(paths: Iterable[bytes]) -> list[bytes]:
    """The paths of files in their order; of one that was renamed meanwhile the last."""
    return sorted({before_info(os.path.basename(path)): path for path in paths}.values())


# in the order in which `verify` has them; those of files with what is named of the paths that were noted
MESSAGES, LINES = (THERE, OTHER_BYTES, RENAMED, NOWHERE), (DOUBTFUL_LINE,)
FILES: dict[Sort, Callable[[Iterable[bytes]], list[bytes]]] = {DOUBLE: list, OTHER_OWNER: last_paths}
SORTS = *MESSAGES, *FILES, *LINES, WITHOUT_FIELDS, OTHER_FORM


def alike_in(
    paths: Iterable[bytes], inventory: Inventory, places: Iterable[Place]
) -> Iterator[tuple[Place, bytes, Sort]]:
    """Files at these paths for messages at these places that differ only in header fields that mail programs write for
    themselves; then files with the same core."""
    files = {path: forms for path in paths for forms in [forms_in(path)] if forms}
    left = dict.fromkeys(places)
    for form, of_message, sort in ((1, inventory.bare, WITHOUT_FIELDS), (0, inventory.core, OTHER_FORM)):
        wanted: collections.defaultdict[bytes, list[Place]] = collections.defaultdict(list)
        for place in left:
            wanted[of_message(place)].append(place)
        for path in [one for one, forms in files.items() if forms[form] in wanted]:
            several = wanted[files[path][form]]
            if several:
                del files[path], left[several[0]]
                yield several.pop(0), path, sort


class Location(NamedTuple):
    """Where a message is: its line, its number, and the path of its file if that has another name than its own; or only
    the line, or the path of a file."""

    line: Optional[int] = None
    message: Optional[int] = None
    path: bytes = b""


class Check:
    """The messages of a text, and which of them are found in a Maildir."""

    def __init__(self, inventory: Inventory, say: Say = silent, others: Others = Others()) -> None:
        self.inventory, self.others, self.say = inventory, others, say
        # the digests of the messages whose files have another name
        self.renamed: dict[Place, bytes] = {}
        self.owner: Optional[int] = None
        # looks at the open file of a message first; None where each file is hashed
        self.look_first: Optional[LookFirst] = None
        is_worthwhile = sum(inventory.sizes) >= WORTHWHILE * max(len(inventory), 1)
        self.threads = min(MOST_THREADS, os.cpu_count() or 1) if is_worthwhile else 1
        # by message: its sort, and the path of its file if that has another name
        self.found = [NOWHERE] * len(inventory)
        self.paths: dict[Place, bytes] = {}
        # by sort: the files that were noted, and the messages that are of it besides
        self.files: collections.defaultdict[Sort, list[bytes]] = collections.defaultdict(list)
        doubtful = {DOUBTFUL_LINE: inventory.may_hold_mail}
        self.besides = collections.defaultdict[Sort, MutableSequence[int]](list, doubtful)
        # files that have a message's bytes and another name: by the digest, and by the name before its colon; and the
        # names of all such files that were read
        self.copies: collections.defaultdict[bytes, dict[bytes, bytes]] = collections.defaultdict(dict)
        self.met: set[bytes] = set()
        self.sizes: Optional[set[int]] = None
        # messages of which a second file was met
        self.met_again: set[Place] = set()

    def look(self, maildir: bytes) -> None:
        """Looks for the messages in the files of a Maildir, which other programs may have renamed."""
        self.owner = os.stat(maildir).st_uid
        for listing, paths in enumerate(listings_of(maildir)):
            again = listing > 0
            files = ((self.inventory.table.own_place(name), name, path) for name, path in paths)
            for number, (file, ahead) in enumerate(self.read_ahead(files, again), 1):
                # the number is news each time: a child that says nothing new is ended
                self.say("verifying file %d" % number)
                try:
                    self.look_at(file, ahead, again)
                except FileNotFoundError:
                    # the file was renamed meanwhile
                    continue
            if NOWHERE not in self.found:
                break
        for place in range(len(self.found)) if self.copies else ():
            self.take_copy(Place(place), self.inventory.table.digest(place))
        for digest, places in self.others.digests.items():
            for place in places:
                self.take_copy(place, digest)
        self.find_doubles(maildir)

    def read_ahead(self, files: Iterable[ListedFile], again: bool) -> Iterator[tuple[ListedFile, Ahead]]:
        """Yields the files in their order. Several threads read ahead those that are read as a message's."""
        if self.threads == 1:
            yield from ((file, None) for file in files)
            return
        from concurrent.futures import Future, ThreadPoolExecutor

        ahead: "collections.deque[Future[list[tuple[ListedFile, Ahead]]]]" = collections.deque()
        left = iter(files)
        with ThreadPoolExecutor(self.threads) as pool:
            try:
                for batch in iter(lambda: list(itertools.islice(left, BATCH)), []):
                    ahead.append(pool.submit(self.read_some, batch, again))
                    if len(ahead) > 2 * self.threads:
                        yield from ahead.popleft().result()
                while ahead:
                    yield from ahead.popleft().result()
            finally:
                for batch_ahead in ahead:
                    batch_ahead.cancel()

    def read_some(self, files: list[ListedFile], again: bool) -> list[tuple[ListedFile, Ahead]]:
        """Reads those of some files that are read as a message's. The others are left for later."""
        some: list[tuple[ListedFile, Ahead]] = []
        for file in files:
            place, _, path = file
            ahead: Ahead = None
            if place is not None and self.is_home(place, again):
                try:
                    ahead = self.read(place, path)
                except OSError as error:
                    ahead = error
            some.append((file, ahead))
        return some

    def take_copy(self, place: Place, digest: bytes) -> None:
        """Takes a file of another name with this digest for a message that is nowhere, if there is such a file."""
        if self.found[place] is NOWHERE and self.copies.get(digest):
            self.paths[place], self.found[place] = self.copies[digest].popitem()[1], RENAMED
            self.renamed[place] = digest

    def take_alike(self, place: Place, path: bytes, sort: Sort) -> None:
        """Takes a file for a message that is nowhere, since they differ only in what mail programs rewrite."""
        self.found[place] = THERE
        self.besides[sort].append(place)
        self.note_owner(path, os.lstat(path).st_uid)

    def find_doubles(self, maildir: bytes) -> None:
        """Finds the files that hold a message once more: with its bytes and another name, or with the same base."""
        for copies in self.copies.values():
            for name, path in copies.items():
                if not is_own(name) or self.others.unchosen and base_in(name) in self.others.unchosen:
                    self.files[DOUBLE].append(path)
        homes: collections.defaultdict[Place, list[bytes]] = collections.defaultdict(list)
        for name, path in paths_of(maildir) if self.met_again else ():
            place = self.inventory.table.own_place(name)
            if place is not None and place in self.met_again:
                homes[place].append(path)
        for paths in homes.values():
            # a file that was moved is there only once
            self.files[DOUBLE] += list(filter(is_there, paths))[1:]

    def is_home(self, place: Place, again: bool) -> bool:
        """Whether a file is read as that of the message whose base it has. In a listing after the first one, this holds
        only if the message has no file so far."""
        return not again or self.found[place] is NOWHERE

    def read(self, place: Place, path: bytes) -> Digested:
        """Reads the file of a message."""
        return digest_of(path, look=functools.partial(self.look_first, place) if self.look_first else None)

    def look_at(self, file: ListedFile, ahead: Ahead, again: bool) -> None:
        """Looks at a file that has a message's base, or at any other file, which may have a message's bytes."""
        place, name, path = file
        if place is None:
            self.look_at_other(name, path)
            return
        if not self.is_home(place, again):
            return
        if isinstance(ahead, OSError):
            raise ahead
        digest, owner = ahead or self.read(place, path)
        if self.found[place] is not NOWHERE:
            self.met_again.add(place)
        if digest == bytes.fromhex(name[:64].decode()):
            self.found[place] = THERE
        elif self.found[place] is not THERE:
            self.paths[place], self.found[place] = path, OTHER_BYTES
        self.note_owner(path, owner)

    def look_at_other(self, name: bytes, path: bytes) -> None:
        """Looks at a file that has no message's base."""
        base, name = BASE.match(name), before_info(name)
        # a file that has a base has the bytes of that base
        if name in self.met or base and not self.may_have(bytes.fromhex(base["digest"].decode())):
            return
        if self.sizes is None:
            self.sizes = {*self.inventory.sizes, *self.others.sizes}
        digest, owner = digest_of(path, self.sizes)
        if digest:
            self.met.add(name)
            if self.may_have(digest):
                self.copies[digest][name] = path
                self.note_owner(path, owner)

    def may_have(self, digest: bytes) -> bool:
        """Whether a message may have a file of this digest."""
        return self.inventory.table.has(digest) or digest in self.others.digests

    def note_owner(self, path: bytes, owner: Optional[int]) -> None:
        """Notes a file whose owner is not the Maildir's."""
        if owner is not None and owner != self.owner:
            self.files[OTHER_OWNER].append(path)

    def digests(self) -> Iterator[Optional[bytes]]:
        """The digest of the file of each message; None for a message that is nowhere."""
        for place, found in enumerate(self.found):
            is_nowhere = found is NOWHERE
            yield None if is_nowhere else self.renamed.get(Place(place)) or self.inventory.table.digest(place)

    def places(self, sort: Sort) -> Iterator[Place]:
        """The messages of a sort."""
        if sort in MESSAGES:
            return (Place(place) for place, found in enumerate(self.found) if found is sort)
        return map(Place, self.besides[sort])

    def paths_of(self, sort: Sort) -> list[bytes]:
        """The files of a sort."""
        return FILES[sort](self.files[sort])

    def where(self, sort: Sort) -> Iterator[Location]:
        """Where the messages, files or lines of a sort are."""
        if sort in FILES:
            return (Location(path=path) for path in self.paths_of(sort))
        lines = self.inventory.lines
        if sort in LINES:
            return (Location(lines[place]) for place in self.places(sort))
        return (Location(lines[place], place + 1, self.paths.get(place, b"")) for place in self.places(sort))

    def count(self, sort: Sort) -> int:
        """How many messages, files or lines are of a sort."""
        return len(self.paths_of(sort)) if sort in FILES else sum(1 for _ in self.places(sort))

    def is_right(self) -> bool:
        """Whether each message is there exactly once, in a file of its owner."""
        return not any(self.count(one) for one in SORTS if not one.is_right)

    def report(self) -> str:
        """What is said unless each message is there exactly once."""
        # what is right comes first
        counts = sorted(MESSAGES, key=lambda one: not one.is_right)
        says = [", ".join(one.remark.says.format(self.count(one)) for one in counts)]
        for one in (*FILES, *MESSAGES):
            paths = [where.path for where in self.where(one)] if one.several else []
            says += ["%s: %s" % (one.several, first_of(paths))] if paths else []
        return "; ".join(says)
