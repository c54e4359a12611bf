"""The migration of a Takeout into the folders of its labels: for each of them, a text of its messages takes the place
of the mailbox. The Takeout is done once each folder is."""
import collections
import contextlib
import functools
import os
from collections.abc import Iterator, Sequence
from dataclasses import dataclass
from typing import Any, Optional

from ..faults import Fault, Left, Reason
from ..labels.choosing import ONE, Choosing
from ..labels.noted import Noted, line_of, note
from ..labels.parts import part_of, want_same, word_of
from ..labels.sorting import LabelFolders, LabelsLeft, Sorting
from ..ledger.ledger import Ledger
from ..ledger.match import cores_of
from ..ledger.prepared import has_list
from ..ledger.record import Record, is_gone, unspelled
from ..maildir.folders import folder_shown, folders_in, name_of
from ..maildir.making import real_place
from ..maildir.disk import Need, Syncs
from ..mbox.fields import headers_at
from ..mbox.inventory import Inventory
from ..migration.answers import answer_to, answers_for
from ..migration.mailbox import Migration
from ..migration.outcomes import Observer, Outcome, row_left, seen
from ..migration.preparing import Preparation
from ..migration.several import Several, refuse
from ..migration.steps import Contents, Part
from ..migration.options import Options
from ..migration.known import Opened
from ..migration.trees import Identity, identity
from ..nexts import Answer, Runs, run_next
from ..program import Program, find_program
from ..readings.plans import Question
from ..readings.reading import UNDECIDED
from ..readings.texts import Choice, Text, choice_at_once, read_messages
from ..remarks import Says
from ..terminal import complain, named, operand, quoted

NO_MESSAGE = "it has no message, and so no labels"
WITHOUT_LABELS = "it was migrated without --labels, so all of its mail is in one folder"
OTHERWISE = "it was migrated with other words about its labels: %s"
# what is said of a label that is named and that no message has; and of those that are spelled alike
NOT_THERE, ALIKE = "--label %s=%s: no message that was read has this label", "; spelled alike: %s"
# each would take the mail of the other for its own
ONE_PLACE = "its folder is that of %s too: it was renamed, a link leads there, or this disk has one name for both"
# nothing of it would be finished or removed
ONLY_PREPARED = "mail is only prepared in %s, and --labels is for a Maildir without such mail"


def migrate_takeouts(maildir: bytes, names: Sequence[bytes], options: Options, observer: Observer) -> None:
    """Migrates Takeouts into a Maildir of the user who runs this, by their labels. What was said about the labels of
    one before need not be said again."""
    maildir, names = real_place(maildir), seen(names, observer)
    refuse(maildir, names, options)
    os.umask(0o077)
    with Record.to_migrate(maildir, options.dry) as record:
        options = options._replace(names=names, is_labelled=True)
        takeouts = Takeouts(record, options, observer)
        observer.total += len(names)
        for name in names:
            takeouts.report(name)
        takeouts.say_not_there()


@dataclass(frozen=True)
class Takeout:
    """A Takeout that was read: what stands for it, its text and messages, and which of these go into which folder."""

    choice: Choice
    text: Text
    inventory: Inventory
    folders: LabelFolders

    @functools.cached_property
    def cores(self) -> collections.Counter[bytes]:
        """How often each core is among its messages."""
        return cores_of(self.inventory)

    def size(self, folder: bytes) -> int:
        """How many bytes the messages of a folder have."""
        return sum(self.inventory.sizes[place] for place in self.folders.places[folder])


class Takeouts(Migration):
    """Migrates Takeouts into the folders of their labels."""

    def __init__(self, record: Record, options: Options, observer: Observer) -> None:
        super().__init__(Program(find_program()), record, options)
        self.observer, self.syncs = observer, Syncs(Several.tell_synced)
        # the labels of the messages that were read
        self.labels: set[str] = set()
        # the folders of the Takeout at work that are there, and their paths, by what shows which folder is at a path
        self.placed: collections.defaultdict[Optional[Identity], dict[bytes, bytes]] = collections.defaultdict(dict)
        # the tie of the answer for several mailboxes that decided about the Takeout at work, if one did
        self.tie = ""

    def report(self, path: bytes) -> None:
        """Does what is left to do of a Takeout, and reports what became of each folder, or why it is left."""
        self.observer.begin()
        self.tie, say = "", self.observer.say(path)

        def sync_and_say(*words: Any) -> None:
            # others may have waited for long enough meanwhile
            self.syncs.sync_in_time()
            say(*words)

        try:
            self.tell_once_synced(self.migrate_path(path, b"", sync_and_say, follow=True))
        finally:
            # what was verified is done, even if a signal ends this
            self.syncs.sync()

    def say_not_there(self) -> None:
        """Says which labels were named that no message has, with those that are spelled alike: then nothing that was
        said of them had an effect. Nothing is said if no labels could be read."""
        unknown = [one for one in self.options.labels.given if one[0] not in self.labels] if self.options.labels else []
        if unknown and self.labels:
            # the module is loaded only here, so that nothing else waits for it
            from difflib import get_close_matches

            plain = {label.casefold(): label for label in sorted(self.labels)}
            for label, gives in unknown:
                near = [named(plain[one]) for one in get_close_matches(label.casefold(), plain, cutoff=0.7)]
                complain(NOT_THERE % (named(label), gives) + (ALIKE % ", ".join(near) if near else ""))

    def tell_once_synced(self, ended: Outcome) -> None:
        """Tells what became of a folder, once its disk is synced."""
        ended = ended._replace(row=ended.row._replace(is_part=bool(ended.row.folder), tie=self.tie))
        self.syncs.add(ended.folder_path, (ended, self.observer.row))

    def migrate_opened(self, opened: Opened) -> Outcome:
        """Migrates an open Takeout, and reports what became of each folder but the last, which it returns. Raises Fault
        if the Takeout is left."""
        line = line_of(self.record, opened.mailbox)
        self.want_none_prepared(opened)
        if not line:
            self.want_labelled(opened)
        noted = Noted.of(line)
        choosing = self.chosen(opened, noted)
        try:
            with self.chosen_text(opened, noted) as choice, self.read(opened, choice, noted, choosing) as takeout:
                folders = tuple(takeout.folders.places)
                # each folder wants room for its text again, and for its messages
                self.want_room(Need.of(self.disk, [], max(map(takeout.size, folders))))
                self.record.make()
                note(self.record, opened.mailbox, takeout.folders.noted, len(takeout.inventory))
                self.observer.total += len(folders) - 1
                self.placed.clear()
                for folder in folders:
                    self.into(folder, opened)
                for folder in folders[:-1]:
                    self.tell_once_synced(self.bring_into(folder, takeout, opened))
                    self.observer.begin()
                return self.bring_into(folders[-1], takeout, opened)
        except LabelsLeft as left:
            command = functools.partial(self.options.command, opened)
            left.next = tuple(Answer(command(labels=choosing), does) for choosing, does in left.says)
            raise
        except Question as question:
            question.want_labels()
            self.options.put_commands(opened, question)
            raise

    def want_none_prepared(self, opened: Opened) -> None:
        """Raises Left if a folder is only prepared, with the command that removes what is there."""
        for folder in filter(has_list, folders_in(self.record.maildir)):
            one = Preparation(self.record, name_of(self.record.maildir, folder), Ledger(folder))
            # before a list has what a pass reads, nothing is placed
            if one.prepared.origin and one.is_open:
                options, path = self.options._replace(is_labelled=False), unspelled(one.prepared.origin.path)
                undo = options.undo_command(opened._replace(name=one.name), path)
                raise Left(ONLY_PREPARED % named(folder), Reason.PREPARED, (Answer(undo),))

    def want_labelled(self, opened: Opened) -> None:
        """Raises Left if the mailbox went into one folder before, with the command that undoes that."""
        mailbox = opened.mailbox
        folders = self.record.folders_of(mailbox.path)
        if not folders:
            folders = [one.about.folder for one in self.record.lines_of(mailbox) if is_gone(one.path)]
        if folders:
            undo = self.options._replace(is_labelled=False).undo_command(opened._replace(name=folders[-1]))
            raise Left(WITHOUT_LABELS, Reason.ANOTHER_READING, (Answer(undo),))

    def chosen(self, opened: Opened, noted: Noted) -> Choosing:
        """What is said about labels now, and was said before. Raises Left if the two contradict each other."""
        before, now = noted.choosing, self.options.labels
        if now is None:
            return before
        is_other = noted.folders and (before.word == ONE) != (now.word == ONE)
        if is_other or any(before.gives(label) not in ("", gives) for label, gives in now.given):
            raise self.said_otherwise(opened, before)
        return before.with_given(*now.given)._replace(word=now.word or before.word)

    def said_otherwise(self, opened: Opened, before: Choosing) -> Left:
        """Why a mailbox is left of whose labels this was said before, and with the command that undoes it."""
        says = OTHERWISE % " ".join(map(quoted, before.words()))
        return Left(says, Reason.ANOTHER_READING, (Answer(self.options.undo_command(opened)),))

    @contextlib.contextmanager
    def chosen_text(self, opened: Opened, noted: Noted) -> Iterator[Choice]:
        """Chooses the text that stands for the mailbox, as it is certain, decided, or was answered before. Raises Left
        if a human must decide."""
        its = self.program, opened.mailbox, self.disk
        with contextlib.ExitStack() as stack:
            try:
                choice = stack.enter_context(choice_at_once(*its, self.options.decision))
            except Question as question:
                several = (opened._replace(name=name) for name in noted.folders)
                answers = (answer_to(answers_for(self.record, one), question) for one in several)
                given = question.by_tie(self.options.answer)
                answer = given or next(filter(None, answers), None)
                if not answer or self.options.decision != UNDECIDED:
                    raise
                self.tie = given.of if given else ""
                choice = stack.enter_context(choice_at_once(*its, answer))
            yield choice

    @contextlib.contextmanager
    def read(self, opened: Opened, choice: Choice, noted: Noted, choosing: Choosing) -> Iterator[Takeout]:
        """Reads the text, and sorts its messages by their labels, by what is noted, and by what is said of labels.
        Raises Left if that would place mail a second time."""
        if choice.plan.is_copied:
            self.want_room(Need.of(self.disk, [], choice.mailbox.size))
        with choice.text(self.disk) as text:
            inventory = read_messages(self.program, text, choice)
            if len(inventory) == 0:
                raise LabelsLeft(NO_MESSAGE)
            headers = headers_at(text.mailbox, inventory.offsets[:-1])
            earlier = (language for one in self.record.labelled().values() for language in Noted.of(one).languages)
            sorting = Sorting(headers, choosing, noted, earlier)
            self.labels.update(sorting.counts)
            if noted.folders and sorting.contradicts(noted.choosing):
                raise self.said_otherwise(opened, noted.choosing)
            yield Takeout(choice, text, inventory, sorting.folders())

    def into(self, folder: bytes, opened: Opened) -> Opened:
        """The Takeout in a folder of labels, which people may have given another name. Notes where that is."""
        name = self.record.name_now(folder, opened.mailbox.path)
        one = Opened.into(self.record.maildir, name, opened.mailbox)
        key = identity(one.folder)
        if key:
            self.placed[key][folder] = one.folder
        return one

    def bring_into(self, folder: bytes, takeout: Takeout, opened: Opened) -> Outcome:
        """Brings the messages of one folder. It is left if another one is at its place, as may be known only once that
        is made."""
        try:
            one = self.into(folder, opened)
            several = self.placed[identity(one.folder)]
            others = [name for name in several if name != folder]
            if others:
                then = run_next(Runs.LIST_ITSELF, *map(operand, several.values()))
                raise Left(ONE_PLACE % folder_shown(others[0]), Reason.NO_FOLDER, then)
            ended = self.transfer(one, self.part(folder, takeout))
            self.into(folder, opened)
            return ended
        except (Fault, OSError) as fault:
            return Outcome(row_left(opened.mailbox.path, folder, fault))

    def part(self, folder: bytes, takeout: Takeout) -> Part:
        """The messages of one folder."""
        plan, places, labels = takeout.choice.plan, takeout.folders.places[folder], takeout.folders.labels.get(folder)
        plan = plan._replace(messages=len(places), reading=plan.reading._replace(part=word_of(places)))
        choice, kept = takeout.choice._replace(plan=plan, known=None), takeout.folders.kept.at(places)
        says = [Says.SAME_FOLDER.of(" and ".join(map(named, labels)))] if labels else []
        read = functools.partial(self.read_part, folder, takeout, choice)
        return Part(choice, read, takeout.size(folder), False, kept, takeout.cores, tuple(says))

    @contextlib.contextmanager
    def read_part(self, folder: bytes, takeout: Takeout, choice: Choice) -> Iterator[Contents]:
        """Reads the text of the messages of one folder. The program must list them."""
        self.want_room(Need.of(self.disk, [], takeout.size(folder)))
        places = takeout.folders.places[folder]
        with part_of(takeout.text, takeout.inventory, places, self.disk) as text:
            inventory = read_messages(self.program, text, choice)
            want_same(inventory, takeout.inventory, places)
            yield Contents(text, inventory, choice.plan.reading)
