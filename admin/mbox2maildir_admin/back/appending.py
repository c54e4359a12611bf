"""One mailbox, and the mail of its folder that goes back into it: what is appended is planned, and then carried out."""
import collections
import contextlib
import itertools
import os
from collections.abc import Iterator, Sequence
from typing import NamedTuple

from ..faults import Left, Reason
from ..kinds.starts import text_start
from ..labels.noted import line_of
from ..ledger.history import About, Note
from ..ledger.ledger import Ledger, Source
from ..ledger.lines import END_LINE, RETURNED, BatchHead, Brought
from ..ledger.record import Record, is_gone
from ..looks import is_file, is_there
from ..maildir.making import GOES_BACK_NEW
from ..maildir.disk import Need, want_room
from ..mbox.dates import is_dated
from ..mbox.files import Reader
from ..mbox.inventory import Inventory
from ..mbox.locks import READING, WRITING, open_mailbox
from ..mbox.mailbox import Mailbox
from ..migration.known import Known, Opened
from ..migration.outcomes import Observer, Row, Verdict
from ..migration.options import Options
from ..nexts import Todo, task
from ..program import Program
from ..readings.copies import copy_of, unnamed
from ..readings.reading import MBOXRD
from ..remarks import Says
from ..terminal import first_of, named
from ..units import Size, counted
from .dialect import Client, Dialect, Letter, written
from .journal import Journal, NewFile
from .mails import Mail, Target, in_order
from .numbers import Listed, Numbering
from .places import Keeper, Places
from .styles import Appended, Style, are_at, reading_now, styles_of

FILE_CHANGED = "%s was changed meanwhile"
MISREAD = "what was appended is not read back as it is, so it was taken back"
REPLACED = "another file has its place meanwhile"
NOT_HELD = "it cannot hold %s, which %s in the Maildir alone: %s"
# the first message of a text is never in question, so others are tried behind this one
ANOTHER = b"Subject: another\n\nyes\n"
# the size and the SHA-256 of no mailbox
NO_KEY = Size(0), "0" * 64
# the row of a mailbox, and the mail that it cannot hold
Returned = tuple[Row, Sequence[Mail]]


class TakesNothing(Left):
    """A mailbox to which nothing is appended: it is packed, of another kind, or nothing says how it is written."""


class NotAsItIs(Left):
    """A mailbox that would not be read, with what was appended, as it is to be."""


class Way(NamedTuple):
    """The way back out of a Maildir: the program, the record of the Maildir, the options, the mailboxes of its
    folders, who makes what is missing there, and who is told."""

    program: Program
    record: Record
    options: Options
    places: Places
    keeper: Keeper
    observer: Observer

    @property
    def disk(self) -> bytes:
        """A folder on the disk where copies are made."""
        return self.options.disk(self.record.maildir)

    def say_uids(self, target: Target, mailbox: Mailbox) -> tuple[Numbering, Known]:
        """Has an open mailbox say which UIDs were given, before it gets mail: if that is interrupted, some are never
        given. Returns what it says from now on, and what is known of it."""
        opened = Opened.into(self.record.maildir, target.folder, mailbox)
        ledger = Ledger(opened.folder, dry=self.options.dry)
        # the UIDs of its folder, whatever the names of both are now
        is_numbered = self.record.has_numbered({*filter(is_gone, ledger.paths()), *self.record.names_of(mailbox.path)})
        known = Known(self.record, ledger, opened)
        if self.options.dovecot:
            name = self.places.name_of(target.path, target.folder)
            numbering = Numbering(name, Listed.of(opened.folder), is_numbered)
            # of the size that it had then, it has got no UIDs since
            then = self.record.numbered(target.folder)
            if numbering.goes_on(mailbox) and not (then and then.about.size == mailbox.size):
                self.look(numbering, known)
                source = ledger.sources.get(next(iter(known.paths()), known.path), Source())
                numbering.compare(ledger, target, source.known(numbering.inventory)[0])
            numbering.say(mailbox, target, self.options.dry)
        else:
            numbering = Numbering()
            numbering.remarks += [Says.UIDS_UNKNOWN.of()] * is_numbered
        return numbering, known

    def look(self, numbering: Numbering, known: Known) -> None:
        """Has the UIDs taken of a mailbox to which nothing is appended yet. What cannot be read as it was is said once
        mail goes back."""
        with contextlib.suppress(Left):
            style = next(styles_of(known, self.disk, self.options.dovecot), None)
            if style:
                style.messages(known.opened.mailbox, look=numbering.take)

    @contextlib.contextmanager
    def mailbox_at(self, path: bytes) -> Iterator[Mailbox]:
        """Opens a mailbox, and holds all of its locks."""
        dry, say = self.options.dry, self.observer.say(path)
        with contextlib.ExitStack() as stack:
            stack.callback(self.observer.rest, named(path))
            if dry and not is_there(path):
                yield stack.enter_context(Mailbox(path, os.open(os.devnull, os.O_RDONLY)))
                return
            # root follows no symbolic link, which may lead anywhere. For others, a link that somebody changes meanwhile
            # leads nothing elsewhere
            place = path if os.geteuid() == 0 else os.path.realpath(path)
            locking = READING if dry else WRITING
            mailbox = stack.enter_context(open_mailbox(place, say, False, not self.options.now, locking))
            mailbox.path = path
            if mailbox.state.st_uid != os.geteuid():
                raise Left("it belongs to another user", Reason.OTHER_OWNER, task(Todo.AS_OWNER))
            if not dry:
                stack.enter_context(self.keeper.locked(mailbox, os.path.realpath(self.record.maildir)))
                mailbox.take_state()
            if not os.path.samestat(os.stat(path), mailbox.state):
                raise Left(REPLACED, Reason.CHANGED)
            yield mailbox

    def append(self, target: Target) -> Returned:
        """Appends to a mailbox what did not come from it. Raises TakesNothing if it takes none."""
        with self.mailbox_at(target.path) as mailbox:
            if line_of(self.record, mailbox):
                # a message without labels would keep all others from their folders
                raise TakesNothing("it is a Takeout in the folders of its labels", Reason.OTHER_KIND)
            numbering, known = self.say_uids(target, mailbox)
            for style in styles_of(known, self.disk, self.options.dovecot):
                with contextlib.suppress(NotAsItIs):
                    return Appending(self, target, known, style, numbering).run()
        raise TakesNothing("nothing can be appended to it", Reason.OTHER_KIND)

    def row_without_mail(self, target: Target) -> Row:
        """The row of a mailbox that takes no mail, once it says which UIDs were given. It also says what keywords of
        mail that went back before are to be added."""
        row = nothing_new(target)
        if not self.options.dovecot or not is_file(target.path):
            return row
        with self.mailbox_at(target.path) as mailbox:
            numbering, known = self.say_uids(target, mailbox)
            if numbering.is_incomplete:
                self.look(numbering, known)
                numbering.add_keywords(target.returned, self.options.dry)
        return row._replace(remarks=(*numbering.remarks, *row.remarks), next=numbering.next)


class Goes(NamedTuple):
    """What goes back into a mailbox: the messages that are appended, which are an addition of this size; those that it
    has already, with their places; those that it cannot hold; whether it has more than the Maildir; and how many of the
    first had been gone from it."""

    entries: Sequence[Appended]
    size: int
    there: Sequence[tuple[Mail, int]]
    refused: Sequence[Mail]
    has_more: bool
    regained: int


class Appending:
    """The mail that goes back into one open mailbox, which is read in one way."""

    def __init__(self, way: Way, target: Target, known: Known, style: Style, numbering: Numbering) -> None:
        """Reads the mailbox. Raises NotAsItIs if nothing that is appended would be read in this way."""
        self.way, self.target, self.known, self.style, self.numbering = way, target, known, style, numbering
        self.opened, self.mailbox, self.client = known.opened, known.opened.mailbox, Client()
        self.inventory = style.messages(self.mailbox, way.program, self.look)
        known.take_place_by_cores(self.inventory)
        start = text_start(self.mailbox) if len(self.inventory) > 1 and not style.is_asked else None
        # once one of its From_ lines has a date, the others may be text
        if start is not None and not is_dated(self.mailbox.from_line_at(start)):
            raise NotAsItIs(MISREAD, Reason.MISREAD)

    def look(self, text: Mailbox, inventory: Inventory) -> None:
        """Takes what programs note of the messages that are there."""
        self.client = Client.of(text, inventory)
        self.numbering.take(text, inventory)

    def run(self) -> Returned:
        """Appends what the mailbox does not have."""
        dry, was_empty = self.way.options.dry, not self.mailbox.size
        with contextlib.ExitStack() as stack:
            if dry:
                addition = NewFile(stack.enter_context(unnamed(self.way.disk)).fileno())
            else:
                addition = stack.enter_context(NewFile.at(os.path.join(self.opened.folder, GOES_BACK_NEW)))
            goes = self.what_goes(addition)
            if not dry:
                self.carry_out(goes, addition)
            elif goes.entries:
                # a copy of the mailbox with it shows how that would be read
                its = Reader(addition.number, end=addition.size).blocks()
                with copy_of(self.mailbox, itertools.chain(self.mailbox.again().blocks(), its), self.way.disk) as text:
                    self.want_right(text, goes.entries, self.reads())
        self.numbering.add_keywords(
            [*self.target.returned, *(mail for mail, _ in goes.there), *(one.mail for one in goes.entries)], dry
        )
        row = self.row(goes)
        if goes.refused and not goes.entries and was_empty:
            # what goes into none of the same form either
            fault = not_held(goes.refused)
            return row._replace(verdict=Verdict.LEFT, reason=fault.reason, why=str(fault)), ()
        return row, goes.refused

    def what_goes(self, addition: NewFile) -> Goes:
        """What becomes of the mail. What is appended is in the addition then."""
        # what the mailbox did not bring is there already, wherever it comes from
        source = self.known.ledger.sources.get(self.known.path, Source())
        are_known, _ = source.known(self.inventory)
        new: collections.defaultdict[bytes, list[int]] = collections.defaultdict(list)
        for place, is_known in enumerate(are_known):
            if not is_known:
                new[self.inventory.core(place)].append(place)
        there: list[tuple[Mail, int]] = []
        rest: list[Mail] = []
        for mail in self.target.mails:
            if new[mail.core]:
                there.append((mail, new[mail.core].pop(0)))
            else:
                rest.append(mail)
        refused: list[Mail] = []
        while True:
            entries = self.write_to(addition, rest)
            bad = self.unheld(addition, entries)
            if not bad:
                size, regained = addition.size if entries else 0, sum(one.mail.core in source.lost for one in entries)
                return Goes(entries, size, there, refused, any(new.values()), regained)
            # one may be so in two ways
            refused += dict.fromkeys(bad)
            rest = [one.mail for one in entries if one.mail not in bad]

    def write_to(self, addition: NewFile, mails: Sequence[Mail]) -> list[Appended]:
        """Writes messages as the mailbox is to have them. What was removed meanwhile is left out."""
        addition.clear()
        addition.add(self.style.gap)
        entries: list[Appended] = []
        mails = in_order(mails, self.numbering.uid)
        for number, (mail, noted) in enumerate(zip(mails, self.numbering.fields_to_write(mails)), 1):
            self.mailbox.say("reading file %d of %d" % (number, len(mails)))
            letter = Letter.of(self.opened.folder, mail)
            if not letter:
                continue
            one = written(letter, self.style.dialect, self.client, number, noted)
            if one.core != mail.core:
                raise Left(FILE_CHANGED % named(mail.path), Reason.CHANGED)
            entries.append(Appended(mail, one.bares, addition.size, len(one.text), one.taken))
            addition.add(one.text)
        return entries

    def unheld(self, addition: NewFile, entries: Sequence[Appended]) -> list[Mail]:
        """The messages of an addition that the mailbox does not give back, each behind another one, as it is going to
        stand. Raises NotAsItIs if it gives each of them back, but not all, or if a new mailbox may hold them in another
        style."""
        style = self.style
        # in an empty mailbox, the first one of these is the first of all
        before = written(Letter(ANOTHER), style.dialect).text if self.mailbox.size else b""
        with Mailbox(addition.path, os.dup(addition.number)) as text:
            bad = self.others_again(text, entries)
            are_held = not entries or style.gives(text, entries)
            if are_held:
                # nothing was asked about the first one here, which is not the first one of a mailbox that has some
                entries = entries[:1] if before else []
            for one in entries:
                its = text.at(one.start, one.size)
                with copy_of(text, [before, its], style.disk) as alone:
                    if not style.gives(alone, [one], bool(before)):
                        bad.append(one.mail)
                    else:
                        before = before or its
        if not bad and not are_held or bad and style.again and not self.mailbox.size:
            raise NotAsItIs(MISREAD, Reason.MISREAD)
        return bad

    def others_again(self, text: Mailbox, entries: Sequence[Appended]) -> list[Mail]:
        """The messages of an addition that would be other ones if the same was decided about the mailbox again, each
        behind one without a length."""
        if not self.style.again:
            return []
        others = list[Mail]()
        before = written(Letter(ANOTHER), Dialect(MBOXRD, self.style.dialect.crlf)).text
        for one in entries:
            with copy_of(text, [before, text.at(one.start, one.size)], self.style.disk) as alone:
                others += [one.mail] * (not self.style.gives_again(alone, [one]))
        return others

    def carry_out(self, goes: Goes, addition: NewFile) -> None:
        """Appends the addition, and has the ledger say so."""
        mailbox, ledger = self.mailbox, self.known.ledger
        if not goes.entries:
            if goes.there:
                os.fsync(mailbox.number)
                ledger.note(END_LINE % self.begin(goes, addition))
            return
        want_room(Need.of(os.path.dirname(mailbox.place), [], goes.size))
        reads = self.reads()
        journal = Journal.made(addition, self.opened.folder, mailbox, [one.start for one in goes.entries])
        number = self.begin(goes, addition)
        journal.append_to(mailbox)
        try:
            self.want_right(mailbox, goes.entries, reads)
        except BaseException:
            journal.take_back(mailbox)
            raise
        # once the ledger says that it went back, no run may take it for a part, and cut it off
        journal.remove()
        ledger.note(END_LINE % number)

    def begin(self, goes: Goes, addition: NewFile) -> int:
        """Notes in the ledger what goes back, and what is there already, by the size and the SHA-256 that the mailbox
        has then. Returns the number of the batch."""
        mailbox, inventory = self.mailbox, self.inventory
        size, _ = mailbox.key()
        assert mailbox.digest, "its SHA-256 is that of a digest"
        hashed = mailbox.digest.hash.copy()
        for block in Reader(addition.number, end=goes.size).blocks():
            hashed.update(block)
        # a mailbox that has more than the Maildir is not done, whatever its bytes are
        key = NO_KEY if goes.has_more else (Size(size + goes.size), hashed.hexdigest())
        lines = [Brought(RETURNED, mail.before, mail.core, inventory.bare(place)) for mail, place in goes.there]
        lines += [Brought(RETURNED, one.mail.before, one.mail.core, one.bares[-1]) for one in goes.entries]
        head = BatchHead.without_files(len(lines), key, self.style.words, self.known.path, mailbox.state.st_ino)
        number = self.known.ledger.begin(head, lines)
        if self.numbering.first:
            # a further run knows the UIDs of the Maildir as those of the mailbox
            self.way.record.add(Note.NUMBERED, About(self.opened.name, *key), len(goes.entries), mailbox.path)
        return number

    def reads(self) -> str:
        """The words by which the mailbox is read as it is now."""
        return reading_now(self.mailbox) if self.mailbox.size else self.style.words

    def want_right(self, text: Mailbox, entries: Sequence[Appended], reads: str) -> None:
        """Raises NotAsItIs if a message of the mailbox with what was appended, which is this text, is not as it is to
        be, or if that is no longer read as the mailbox was."""
        cores = self.inventory.cores
        look = self.numbering.take if self.numbering.is_incomplete else None
        found = self.style.messages(text, self.way.program, look)
        is_right = are_at(entries, found, len(self.inventory)) and found.cores[: len(cores)] == cores
        if not is_right or reading_now(text) != reads or not self.style.gives_again(text, entries):
            raise NotAsItIs(MISREAD, Reason.MISREAD)

    def row(self, goes: Goes) -> Row:
        """The row of the mailbox."""
        count, there, is_dry = len(goes.entries) + len(goes.there), len(goes.there), self.way.options.dry
        verdict = (Verdict.WOULD_BACK if is_dry else Verdict.BACK) if count else Verdict.NOTHING_NEW
        says = Says.REGAINED.of_any(goes.regained) + Says.IN_MAILBOX.of_any(there)
        taken = [one.taken for one in goes.entries if one.taken]
        names = {name.lower(): named(name) for name in itertools.chain.from_iterable(taken)}
        says += Says.FIELDS_LEFT_OUT.of_any(len(taken), ", ".join(names.values()))
        remarks = (*self.mailbox.remarks, *says, *self.numbering.remarks, *self.target.remarks)
        row = Row(self.target.path, self.target.folder, self.style.dialect.word, count, verdict, size=goes.size)
        return row._replace(remarks=remarks, next=self.numbering.next, is_back=True)


def not_held(mails: Sequence[Mail]) -> Left:
    """Why messages go back into no mailbox."""
    stay = "stays" if len(mails) == 1 else "stay"
    why = NOT_HELD % (counted(len(mails), "message"), stay, first_of([one.path for one in mails]))
    return Left(why, Reason.NOT_HELD)


def nothing_new(target: Target) -> Row:
    """The row of a mailbox to which no mail goes back."""
    return Row(target.path, target.folder, "", 0, Verdict.NOTHING_NEW, remarks=target.remarks, is_back=True)
