"""What must be in the folders of a Maildir, by what mailboxes had and people did: each message as often as the mailbox
had it that had it most often; and, by Message-IDs, in no more files than it was in mailboxes.

It knows the texts of mailboxes, by a splitter of the tests' own, and the bytes of files, and nothing of what a run
notes. What a run does beyond that must be said, by a number in a row.
"""
import collections
import contextlib
import copy
import functools
import operator
import re
import typing
from collections import Counter
from collections.abc import Callable, Iterable, Iterator, Sequence
from pathlib import Path
from typing import NamedTuple, Optional

from tests.support.archives import texts_of
from tests.support.homes import mail_below
from tests.support.running import Row
from tests.support.splitter import INTERNAL, WORDS, is_from, split
from tests.worlds.letters import content, form, id_of, without

Counts = typing.Counter[bytes]
# tells what a message is
What = Callable[[bytes], bytes]
INBOX = "INBOX"
# the remarks on files that an undo keeps though its mailbox brought them
KEPT = ("already-gone", "kept-renamed", "kept-edited")
# the remark on messages that were there already, by no mailbox
NOBODYS = "there-already"
# the remark on messages that the mailbox had, where remarks are counted for people, by mailboxes and not by messages
LOST = re.compile(r"(?m)^noted: (?:.*, )?lost \d")
# how the name of a converted file begins
CONVERTED = re.compile(r"[0-9a-f]{64}\.\d")


class Reading(NamedTuple):
    """The messages of a text by a word: what they are, whoever rewrote them, and by their Message-IDs; and the bytes
    that a file with one of them may have. Nothing must be there of Dovecot's own message, but it may."""

    contents: Counts
    ids: Counts
    bytes: frozenset[bytes]


@functools.lru_cache(maxsize=256)
def reading(text: bytes, word: str, lines: frozenset[int] = frozenset(), what: What = content) -> Reading:
    """How a text is read by a word, and with lines that are said to be mail."""
    return reading_of(split(text, word, lines) if text and is_from(text) else (), what)


def reading_of(several: Sequence[bytes], what: What = content) -> Reading:
    """These messages."""
    mail = [one for one in several if INTERNAL not in one]
    files = frozenset(one for whole in several for one in (whole, without(whole)))
    return Reading(Counter(map(what, mail)), Counter(map(id_of, mail)), files)


def readings(text: bytes) -> dict[str, Reading]:
    """How a text is read by each word."""
    return {word: reading(text, word) for word in WORDS}


def union(several: Iterable[Counts]) -> Counts:
    """Each message as often as the one has it that has it most often."""
    return functools.reduce(operator.or_, several, Counter())


def total(several: Iterable[Counts]) -> Counts:
    """Each message as often as all have it."""
    return sum(several, Counter())


class Shelf:
    """What lies in a folder, or in all: how often each message came from elsewhere, was taken away by people and is not
    back, with the folder or without it, and is there."""

    def __init__(self, of_several: Callable[[Iterable[Counts]], Counts] = union) -> None:
        self.of_several = of_several
        # what each mailbox may have brought, and what each surely has
        self.had: collections.defaultdict[int, Counts] = collections.defaultdict(Counter)
        self.sure: dict[int, Counts] = {}
        self.foreign: Counts = Counter()
        # what files held that people have edited since: an undo leaves these, and they count as there
        self.edited: Counts = Counter()
        # what people took away that killed runs were to bring: an undo keeps nothing in place of that
        self.unkept: Counts = Counter()
        self.taken: Counts = Counter()
        # what an undo left, until a mailbox is done again: who takes that away takes nothing of a mailbox
        self.left: Counts = Counter()
        self.gone: Counts = Counter()
        self.seen: Counts = Counter()

    @property
    def most(self) -> Counts:
        """How often each message may be there."""
        return self.of_several(self.had.values())

    def look(self, now: Counts) -> None:
        """People have changed what is there."""
        for what, count in (now - self.seen).items():
            back = min(count, self.taken[what])
            self.taken[what] -= back
            self.foreign[what] += count - back
        for what, count in (self.seen - now).items():
            self.take(what, count)
        self.seen = now

    def take(self, what: bytes, count: int = 1) -> None:
        """People have taken away a message so often."""
        self.foreign[what] -= min(count, self.foreign[what])
        of_mailboxes = min(count, self.seen[what] - min(self.left[what], self.seen[what]))
        self.left[what] -= min(count - of_mailboxes, self.left[what])
        self.taken[what] += of_mailboxes
        self.seen[what] -= count

    def ran(self, now: Counts) -> typing.Counter[str]:
        """A run has changed what is there. Returns how much is there too often, came back, and went away."""
        told, most_there = Counter(gone=sum((self.seen - now).values())), self.most
        for what, count in (now - self.seen).items():
            may_be = most_there[what] + self.foreign[what]
            over = max(0, min(count, now[what] - may_be))
            never = max(0, may_be - self.seen[what] - self.taken[what])
            back = max(0, min(count - over - never, self.taken[what]))
            self.taken[what] -= back
            self.foreign[what] += over
            told.update(doubled=over, back=back)
        self.seen = now
        return told

    def undone(self, now: Counts) -> None:
        """All that a mailbox brought was undone. What people had taken away may be there again then."""
        self.taken.clear()
        self.seen, self.left = now, now.copy()

    def undoes(self, now: Counts, mailboxes: Sequence[int], is_over: bool, apart: Counts) -> typing.Counter[str]:
        """Mailboxes are undone. Returns how much of others went away, and how much of these is still there when it is
        over, besides what lies apart. What only these had, and people had taken away, may come again then."""
        others = union([self.foreign, *(its for mailbox, its in self.sure.items() if mailbox not in mailboxes)])
        told = Counter(gone=sum(((self.seen & others) - now - self.edited - self.unkept).values()))
        if is_over:
            mine = union(self.had.pop(mailbox, Counter()) for mailbox in mailboxes)
            self.sure = {mailbox: its for mailbox, its in self.sure.items() if mailbox not in mailboxes}
            apart = self.foreign & apart
            kept = ((now - apart) & mine) - union([self.foreign - apart, self.most])
            told["kept"] = sum(kept.values())
            self.foreign += kept
            self.taken &= union(self.sure.values())
        self.seen = now
        return told


class Oracle:
    """The folders of a Maildir, by the names that mail programs show. What a message is may be its form."""

    def __init__(self, maildir: Path, is_one: bool = False, may_come_back: bool = True, what: What = content) -> None:
        self.what = what
        # whether only one mailbox goes into it, so that nothing is there too often, whatever is said; and whether
        # something may come back that people have taken away, if that is said
        self.maildir, self.is_one, self.may_come_back = maildir, is_one, may_come_back
        self.shelves: collections.defaultdict[str, Shelf] = collections.defaultdict(Shelf)
        # by Message-IDs, which may be there as often as all mailboxes have them
        self.all = Shelf(total)
        # the bytes that a file may have
        self.bytes: set[bytes] = set()
        # what runs that were killed have done, and nobody has said yet, by folders
        self.owed: collections.defaultdict[str, typing.Counter[str]] = collections.defaultdict(Counter)
        # the folder of each mailbox in its last row
        self.went: dict[int, str] = {}
        # how many messages of a mailbox in a folder no mailbox had brought, as rows have said
        self.nobodys: typing.Counter[str] = Counter()
        # what was there when a wrong answer was given, by which the same mail is read in another way
        self.before_misread: Counts = Counter()
        self.is_misread = False

    def kept(self) -> "Oracle":
        """The same as it is now."""
        return copy.deepcopy(self)

    def kept_with(self, later: "Oracle") -> "Oracle":
        """The same once more. Files may have the bytes that came later."""
        again = self.kept()
        again.bytes |= later.bytes
        return again

    def files(self) -> Iterator[tuple[str, Path]]:
        """The files of all mail, each with its folder."""
        for folder, path in mail_below(self.maildir):
            yield INBOX if folder == self.maildir else folder.name[1:].replace(".", "/"), path

    def mail(self) -> Iterator[tuple[str, Path, bytes]]:
        """The same with what is in them. A file that is renamed meanwhile is found in `cur`."""
        for name, path in self.files():
            with contextlib.suppress(FileNotFoundError):
                yield name, path, path.read_bytes()

    def counts(self) -> tuple[dict[str, Counts], Counts]:
        """How often each message is in each folder, and each Message-ID in all."""
        here: collections.defaultdict[str, Counts] = collections.defaultdict(Counter)
        ids: Counts = Counter()
        for name, _, mail in self.mail():
            if INTERNAL not in mail:
                here[name][self.what(mail)] += 1
                ids[id_of(mail)] += 1
        return here, ids

    def apart(self) -> dict[str, Counts]:
        """How often each folder has a message in files of other programs that stand for none of a mailbox: runs have
        placed it too, and each time in another form, as with other quotes before `From `."""
        placed: collections.defaultdict[tuple[str, bytes], set[bytes]] = collections.defaultdict(set)
        others: list[tuple[str, bytes, bytes]] = []
        for name, path, mail in self.mail():
            what, its = self.what(mail), form(mail)
            if CONVERTED.match(path.name):
                placed[name, what].add(its)
            else:
                others.append((name, what, its))
        found: collections.defaultdict[str, Counts] = collections.defaultdict(Counter)
        for name, what, its in others:
            forms = placed[name, what]
            found[name][what] += bool(forms) and its not in forms
        return found

    def look(self) -> None:
        """People have changed what is there."""
        here, ids = self.counts()
        for name in {*here, *self.shelves}:
            self.shelves[name].look(here.get(name, Counter()))
        self.all.look(ids)

    def take(self, name: str, mail: bytes) -> None:
        """People take away a file while a run is at work, which may place more meanwhile. Dovecot's own message counts
        nowhere."""
        if INTERNAL in mail:
            return
        for shelf, what in ((self.shelves[name], self.what(mail)), (self.all, id_of(mail))):
            shelf.take(what)

    def undone(self) -> None:
        """All that a mailbox brought was undone. Nothing that came back before is said any more. Of equal messages of
        which people have taken one away, the name of the other says whether it came from elsewhere."""
        self.owed.clear()
        here, ids = self.counts()
        elsewhere: collections.defaultdict[str, Counts] = collections.defaultdict(Counter)
        for name, path, mail in self.mail():
            elsewhere[name][self.what(mail)] += not CONVERTED.match(path.name)
        for name in {*here, *self.shelves}:
            self.shelves[name].undone(here.get(name, Counter()))
            self.shelves[name].foreign |= elsewhere[name]
        self.all.undone(ids)
        # an edited message that it kept, as its row says, has the Message-ID of the one that the mailbox has now
        self.all.foreign = Counter(ids)

    def misread(self) -> None:
        """A wrong answer is given. Files stay that right ones have placed."""
        here, _ = self.counts()
        self.before_misread, self.is_misread = sum(here.values(), Counter()), True

    def forget(self, name: str) -> None:
        """People delete a folder, and with it what is known of what went there. A mailbox that has changed since, and
        has another name, is one that nobody knows."""
        shelf = self.shelves[name]
        shelf.gone += shelf.seen + shelf.taken
        shelf.taken, shelf.seen = Counter(), Counter()

    def rename(self, old: str, new: str) -> None:
        """People have given a folder another name. Nothing is under the old one any more, where another folder may come
        to be."""
        self.shelves[new] = self.shelves.pop(old, Shelf())
        self.shelves[old] = copy.deepcopy(self.shelves[new])
        self.forget(old)
        self.owed[new] = self.owed.pop(old, Counter())

    def see(self, mailbox: int, folder: str, several: Iterable[Reading]) -> None:
        """A run will see a mailbox, which goes into a folder, and may be read in each of these ways."""
        for one in several:
            self.bytes |= one.bytes
            self.shelves[folder].had[mailbox] |= one.contents
            self.all.had[mailbox] |= one.ids

    def goes(self, mailbox: int, row: Row, several: Iterable[Reading]) -> None:
        """A row says into which folder a mailbox goes. It begins anew there, and the old folder keeps what it has of
        it, if the row says so, or if nobody knows it: it has another name now, and lacks a message that it had."""
        is_elsewhere = row["folder"] != self.went.get(mailbox, row["folder"])
        is_unknown = is_elsewhere and all(self.all.had[mailbox] - one.ids for one in several)
        if is_unknown or "elsewhere" in row.remarks:
            self.all.foreign += self.all.had[mailbox]
        self.went[mailbox] = row["folder"]

    def brings(self, mailbox: int, folder: str, contents: Counts) -> None:
        """A mailbox has brought this into a folder."""
        self.shelves[folder].sure[mailbox] = contents

    def undoes(self, mailboxes: Sequence[int], row: Optional[Row], more: Sequence[str] = ()) -> Iterator[str]:
        """Mailboxes are undone. When that is over, a row says what is kept, also by the remarks with these words."""
        here, ids = self.counts()
        apart = self.apart()
        told: typing.Counter[str] = Counter()
        for name in {*here, *self.shelves}:
            now = here.get(name, Counter())
            told += self.shelves[name].undoes(now, mailboxes, row is not None, apart.get(name, Counter()))
        if told["gone"]:
            yield f"{told['gone']} removed that others have"
        remarks = row["remarks"] if row else []
        said = " ".join(one["says"] for one in remarks if one["remark"] in (*KEPT, *more))
        if told["kept"] > sum(map(int, re.findall(r"\d+", said))):
            yield f"{told['kept']} still there of what was undone, unsaid"
        self.all.undoes(ids, mailboxes, row is not None, Counter())
        if row:
            self.owed.clear()

    def hear(self, row: Row) -> None:
        """A row says what no mailbox had brought. A mailbox that is done has what an undo left."""
        name = row["folder"] or INBOX
        if row["verdict"] == "done":
            self.shelves[name].left.clear()
        counts = [int(one["says"].split()[0]) for one in row["remarks"] if one["remark"] == NOBODYS]
        self.nobodys[name] = max([self.nobodys[name], *counts])

    def hear_noted(self, printed: str, several: Iterable[Reading]) -> None:
        """People were told that messages stay which the mailbox no longer has in any of these ways. If it has one in
        another form, each form is there, and by its Message-ID the message is doubled."""
        if not LOST.search(printed):
            return
        has = union(one.contents for one in several)
        stays = total(shelf.seen - shelf.foreign - has for shelf in self.shelves.values())
        owed = self.owed[""]
        owed["doubled"] -= min(owed["doubled"], sum(stays.values()))

    def ran(self, rows: Sequence[Row], is_killed: bool) -> Iterator[str]:
        """A run has ended, or was killed. Returns what is wrong with it."""
        here, ids = self.counts()
        for row in rows:
            self.hear(row)
        for name in {*here, *self.shelves}:
            told = self.shelves[name].ran(here.get(name, Counter()))
            if told["gone"]:
                yield f"{told['gone']} went away from {name}"
            if self.is_one and told["doubled"]:
                yield f"{told['doubled']} too often in {name}"
            if told["back"] and not self.may_come_back:
                yield f"{told['back']} came back in {name}"
            self.owed[name].update(doubled=told["doubled"], back=told["back"])
        told = self.all.ran(ids)
        self.owed[""].update(doubled=0 if self.is_misread else told["doubled"])
        for name, _, mail in self.mail():
            if mail not in self.bytes:
                yield f"other bytes in {name}: {mail[:200]!r}"
        yield from self.unsaid(rows, is_killed)

    def lose_row(self) -> None:
        """A run was killed once a mailbox was done, before it told the row. What came back is said later, nothing else
        is."""
        for owed in self.owed.values():
            owed["doubled"] = 0

    def unsaid(self, rows: Sequence[Row], is_killed: bool) -> Iterator[str]:
        """What no row has said that was done. What was left may be said later, and so may all that a killed run has
        not."""
        for name, owed in self.owed.items():
            mine = [row for row in rows if not name or (row["folder"] or INBOX) == name]
            said = sum(number for row in mine for number in numbers_in(row))
            # a mailbox that was moved in its tree goes into two folders, and its row says so
            said += sum(owed.values()) * any(re.search(r"\btoo\b", texts_of(row)) for row in mine)
            is_settled = bool(mine) and not is_killed and all(row["verdict"] != "left" for row in mine)
            # a message may have come back in several runs
            most = sum(row["messages"] or 0 for row in mine)
            for what, count in list(owed.items()):
                if count and said < min(count, most) and is_settled:
                    yield f"{count} {what} in {name or 'all'}, unsaid"
                if said >= count or is_settled:
                    owed[what] = 0

    def nearest(self, row: Row, several: Iterable[Reading]) -> tuple[Reading, list[str]]:
        """In which of these ways a mailbox that is done was read, and what is wrong with what is not there of it."""
        return min(((one, [*self.missing(row, one)]) for one in several), key=lambda way: len(way[1]))

    def missing(self, row: Row, one: Reading) -> Iterator[str]:
        """What is wrong with what is not there of a mailbox that is done, if it was read in this way."""
        shelf = self.shelves[row["folder"] or INBOX]
        gone = 0
        for what, count in one.contents.items():
            taken = shelf.taken[what] + shelf.gone[what]
            if shelf.seen[what] + taken < count:
                yield f"done, and {shelf.seen[what]} of {count} there, {taken} taken: {what[:100]!r}"
            # one more of a message may have the name of one that is gone, which no row sees then
            gone += 0 if shelf.seen[what] else count
        # only what a mailbox has brought is missed, as the ledger of the folder knows
        is_missed = gone > self.nobodys[row["folder"] or INBOX]
        if is_missed and not numbers_in(row) and "gone" not in texts_of(row):
            yield f"{gone} gone from {row['folder']}, unsaid"

    def read_otherwise(self, row: Row, own: Reading, others: Iterable[Reading]) -> Iterator[str]:
        """What is there of a mailbox that is read in one way, and belongs to another reading of it."""
        shelf = self.shelves[row["folder"] or INBOX]
        for what in {what for one in others for what in one.contents} - {*own.contents}:
            if shelf.seen[what] > max(shelf.foreign[what], self.before_misread[what]):
                yield f"read otherwise too: {what[:150]!r}"


def numbers_in(row: Row) -> list[int]:
    """The numbers that a row says, besides those of names. One that is left because a message was cut says that it is
    there twice."""
    text = re.sub(r"[^\s'\"]*/[^\s'\"]*", "", texts_of(Row(row, next=None)))
    numbers = [int(number) for number in re.findall(r"(?<![\w.])\d+(?![\w.])", text)]
    return [*numbers, *[1] * (row.get("reason") == "cut")]
