"""The undo of a Takeout: of each folder that the record names. It is undone once each of them is."""
import collections
from collections.abc import Iterator
from typing import Optional

from ..faults import Fault
from ..labels.noted import Noted, line_of, note_nothing
from ..ledger.history import RecordLine
from ..ledger.ledger import Ledger
from ..ledger.record import Record
from ..looks import is_there
from ..maildir.folders import folder_path
from ..maildir.making import real_place
from ..mbox.locks import open_mailbox
from ..mbox.mailbox import Mailbox
from ..migration.outcomes import Observer, Row, Verdict, row_left
from ..migration.several import refuse
from ..migration.known import Opened
from ..migration.options import Options
from ..readings.reading import Reading
from ..remarks import Remark, Says
from ..undoing.undo import Undo
from ..units import Say


def undo_takeout(maildir: bytes, path: bytes, options: Options, observer: Observer) -> None:
    """Undoes a Takeout in a Maildir of the user who runs this."""
    maildir = real_place(maildir)
    refuse(maildir, [path], Options(options.dry, now=options.now, undo=True))
    with Record.open(maildir, not options.dry) as record:
        for row in TakeoutUndo(record, options).rows(path, observer.say(path)):
            observer.total += 1
            observer.begin()
            observer.row(row._replace(is_part=bool(row.folder)))


class TakeoutUndo(Undo):
    """Undoes a Takeout, whose messages are the same for each folder."""

    def __init__(self, record: Record, options: Options) -> None:
        super().__init__(record, options)
        # how often it has each core as it was read
        self.known: dict[Reading, collections.Counter[bytes]] = {}
        # its paths, as lines of the record have them
        self.paths: set[str] = set()

    def rows(self, path: bytes, say: Say) -> Iterator[Row]:
        """Undoes it folder by folder. What was undone by a run that was killed has no row."""
        try:
            with open_mailbox(path, say=say, follow=True, quiet=not self.options.now) as mailbox:
                line, is_left, count = line_of(self.record, mailbox), False, 0
                for opened in self.folders_of(mailbox, line):
                    try:
                        row = self.undo(opened)
                    except (Fault, OSError) as fault:
                        row = row_left(path, opened.name, fault)
                    is_left, count = is_left or row.verdict == Verdict.LEFT, count + 1
                    yield row
                if line and not is_left and not self.options.dry:
                    note_nothing(self.record, line)
                if not count:
                    yield self.of_nothing(path, b"", Says.NOTHING_PLACED.of())
        except (Fault, OSError) as fault:
            yield row_left(path, b"", fault)

    def undo(self, opened: Opened) -> Row:
        """Undoes an open mailbox in a folder. With one that people removed, all is gone that came into it."""
        if is_there(opened.folder):
            return super().undo(opened)
        if not self.options.dry:
            self.record.add_gone(opened.name, self.paths)
        return self.of_nothing(opened.mailbox.path, opened.name, Says.FOLDER_GONE.of())

    def of_nothing(self, path: bytes, folder: bytes, remark: Remark) -> Row:
        """The row of a mailbox of which nothing is removed."""
        verdict = Verdict.WOULD_UNDO if self.options.dry else Verdict.UNDONE
        return Row(path, folder, "", 0, verdict, remarks=(remark,))

    def folders_of(self, mailbox: Mailbox, line: Optional[RecordLine]) -> Iterator[Opened]:
        """The folders that have or had something of it, wherever they are now."""
        path = mailbox.path
        self.paths = {*self.record.names_of(path), *([line.path] if line else [])}
        names = [self.record.name_now(name, path) for name in Noted.of(line).folders]
        for folder in dict.fromkeys([*names, *self.record.folders_with(self.paths)]):
            last = self.record.last_of(folder, self.paths)
            ledger = Ledger(folder_path(self.record.maildir, folder))
            if last or ledger.damage or self.paths & set(ledger.paths()):
                yield Opened.into(self.record.maildir, folder, mailbox)

    def cores_now(self, opened: Opened, ledger: Ledger, path: str) -> collections.Counter[bytes]:
        """How often the Takeout has each core now, which is counted once."""
        reading = Reading.of_words(ledger.last_read(path).words).of_text
        if reading not in self.known:
            self.known[reading] = super().cores_now(opened, ledger, path)
        return self.known[reading].copy()
