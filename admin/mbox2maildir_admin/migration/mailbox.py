"""The way of a mailbox into a folder of a Maildir: it is opened and read, its messages are matched with what is there,
and what is to be done is planned. That is carried out, unless this is a rehearsal.

The way is the same where mail is only prepared. What differs is asked as `options.prepare`, and the steps have what
their pass has of its own. Each pass removes what was prepared and no message wants any more. Files have the digests of
messages as names, so one is right or not wanted, whatever the mailbox was when it was read.
"""
import collections
import contextlib
import functools
import time
from collections.abc import Callable, Iterator, Sequence
from typing import IO, Any, Optional

from ..faults import Fault, Left, Reason
from ..kinds.look import Look
from ..kinds.named import is_no_mail
from ..labels.noted import line_of
from ..ledger.gone import back_in, gone_before, gone_from, placed_again, unexplained
from ..ledger.history import About, Note
from ..ledger.ledger import Ledger, count_in, has_failed
from ..ledger.match import Files, Match, Stand
from ..ledger.record import Record, unspelled
from ..looks import is_folder
from ..maildir.disk import Need, want_room, want_syncs
from ..maildir.folders import INBOX, folder_shown
from ..mbox.inventory import Inventory
from ..mbox.locks import open_mailbox, snapshot
from ..mbox.mailbox import CHANGED_MEANWHILE, Mailbox
from ..nexts import NOTHING, Answer, Does, Next, Phrase
from ..program import Program
from ..progress import Spent, in_milliseconds, milliseconds_since
from ..readings.copies import unnamed
from ..readings.plans import NoMail, NotKnown, OtherKind, Question
from ..readings.reading import UNDECIDED, Reading
from ..readings.texts import Choice, Text, choice_at_once, choice_of, read_messages
from ..remarks import Remark, Says
from ..terminal import first_of, named
from ..units import Say, counted, silent
from .answers import (
    answer_shown,
    answer_to,
    answers_of,
    as_before,
    contradicted,
    is_passed_over,
    note_answer,
    note_empty,
    noted_last,
    want_same_reading,
)
from .carrying import SYNC_FAILED, carry_out, names_that_may_be_cut
from .dovecot import DONE_WITHOUT
from .known import ONE_IN, Elsewhere, Known, Opened
from .options import Options
from .outcomes import Outcome, Row, Verdict, row_left
from .preparing import (
    Preparation,
    mend,
    origin_now,
    remarks_on_prepared,
    row_unchanged,
    same_as_prepared,
    text_to_list,
    want_free,
    want_usable,
)
from .steps import (
    Contents,
    Extra,
    FirstPass,
    OtherPass,
    Part,
    Steps,
    remarks_on_lost,
    remarks_on_match,
)


WITH_LABELS = "it was migrated with --labels, so its mail is in the folders of its labels"
# how many bytes a line of the ledger may have that names a file of this program
LONGEST_LINE = 140
# besides a tenth of it, the least of what the ledger has of a mailbox that was edited as a whole
FEW = 3
EDITED = "%s that it brought are gone from it, and as many are new: it was edited as a whole, or it is another mailbox"
PARTLY_THERE = "%d of its messages are there, and no ledger says why: the ledger is older than its folder, or was lost"
NOT_SHOWN = "the ledger of its folder is %s, so nothing shows which of its messages were placed"


class Migration:
    """Migrates mailboxes into the folders of a Maildir. One is done once the disk of its folder was synced as well."""

    def __init__(self, program: Program, record: Record, options: Options) -> None:
        self.program, self.record, self.options = program, record, options
        # raises Left if the disk has no room for a mailbox; others at work may count on the same room
        self.want_room: Callable[[Need], None] = want_room
        # the batches of each folder's ledger that were verified, and whose disk is not synced yet; and the last ledger,
        # while mailboxes go into its folder
        self.verified: collections.defaultdict[bytes, set[int]] = collections.defaultdict(set)
        self.last_ledger: Optional[Ledger] = None

    @property
    def disk(self) -> bytes:
        """A folder on the disk where copies are made."""
        return self.options.disk(self.record.maildir)

    def migrate_path(
        self, path: bytes, name: bytes, say: Say = silent, follow: bool = False, why: Optional[Fault] = None
    ) -> Outcome:
        """Migrates a mailbox into the folder of this name. `say` takes the progress. If `why` is a reason why not, a
        mailbox with mail is left for that reason."""
        try:
            if is_no_mail(path):
                return Outcome(Row(path, b"", "", None, Verdict.NO_MAIL))
            if self.options.prepare and not why:
                row = row_unchanged(self.record, self.options, path, name, say)
                if row:
                    return Outcome(row)
            with self.mailbox_at(path, say, follow, not (why or self.options.now)) as mailbox:
                opened = Opened.into(self.record.maildir, name, mailbox)
                try:
                    return Outcome(self.judge(opened, why)) if why else self.migrate_opened(opened)
                except OtherKind as left:
                    by_words = self.options.passes_over(path, not isinstance(left, NotKnown))
                    is_noted = is_passed_over(self.record, mailbox)
                    if not (by_words or is_noted):
                        left.put(self.options.where(opened))
                        raise
                    if not is_noted:
                        self.record.add(Note.NO_MAIL, About(INBOX, *mailbox.key()), 0, mailbox.path)
                    said = Says.BY_NO_MAIL if by_words else Says.NO_MAIL_NOTED
                    return Outcome(Row(path, b"", left.kind, None, Verdict.NO_MAIL, remarks=(said.of(),)))
        except NoMail as found:
            return Outcome(Row(path, b"", found.kind, None, Verdict.NO_MAIL))
        except (Fault, OSError) as fault:
            return Outcome(row_left(path, name, fault))

    def mailbox_at(self, path: bytes, say: Say, follow: bool, quiet: bool) -> Mailbox:
        """A mailbox that is open and locked or, while people use it, a copy of it."""
        if not self.options.prepare:
            return open_mailbox(path, say=say, follow=follow, quiet=quiet)

        def make(size: int) -> IO[bytes]:
            self.want_room(Need.of(self.disk, [], size))
            return unnamed(self.disk)

        return snapshot(path, make, say, follow)

    def judge(self, opened: Opened, why: Fault) -> Row:
        """The row of a mailbox that is left for this reason, unless it is no mbox text. What may be asked about one is
        asked once this reason is gone."""
        mailbox = opened.mailbox
        with contextlib.suppress(Question), choice_of(mailbox, self.disk, Look.read_begun):
            pass
        return row_left(mailbox.path, b"", why, None, mailbox.size)

    def migrate_opened(self, opened: Opened) -> Outcome:
        """Does what is left to do, and returns what became of the mailbox."""
        if not self.options.is_labelled and line_of(self.record, opened.mailbox):
            undo = self.options._replace(is_labelled=True).undo_command(opened)
            left = Left(WITH_LABELS, Reason.ANOTHER_READING, (Answer(undo),))
            return Outcome(row_left(opened.mailbox.path, b"", left, None, opened.mailbox.size))
        return self.transfer(opened)

    def transfer(self, opened: Opened, part: Optional[Part] = None) -> Outcome:
        """Brings a mailbox, or a part of it, into its folder, and returns what became of that."""
        verified, ledger, self.last_ledger = self.verified[opened.name], self.last_ledger, None
        if not ledger or ledger.folder != opened.folder:
            ledger = Ledger(opened.folder, verified, self.options.dry)
        preparation = None if part else mend(self.record, self.options, opened, ledger, verified)
        ended = Transfer(self, opened, ledger, preparation, part).bring_rest()
        if ended.batch:
            verified.add(ended.batch)
            # it ends on the disk once that is synced
            ledger.end(ended.batch)
        self.last_ledger = None if ended.row.verdict == Verdict.LEFT else ledger
        return ended


class Transfer:
    """One mailbox, which is open, on its way into a folder."""

    def __init__(
        self,
        migration: Migration,
        opened: Opened,
        ledger: Ledger,
        preparation: Optional[Preparation],
        part: Optional[Part],
    ) -> None:
        """Takes what is only prepared in the folder, if mail is not placed there for good at once; and what goes there,
        if that is not all of the mailbox."""
        self.program, self.record, self.options = migration.program, migration.record, migration.options
        self.want_room, self.disk = migration.want_room, migration.disk
        self.opened, self.ledger, self.part = opened, ledger, part
        self.preparation, self.prepared = preparation, preparation.prepared if preparation else None
        ledger.is_dry = ledger.is_dry or self.options.prepare
        # when this began; and whether a last pass would have it to do again, since the mailbox may change again
        self.began, self.is_changed = time.monotonic(), self.prepared is not None and self.prepared.is_whole
        self.known = Known(self.record, ledger, opened)
        self.path = self.known.path
        # what is to be said of it, whatever it brings
        self.remarks: list[Remark] = [*opened.mailbox.remarks, *(part.remarks if part else ())]
        # the tie of the answer for several mailboxes that decided about it, if one did
        self.tie = ""
        if part:
            self.options = self.options._replace(extra=Extra(part.kept))

    def bring_rest(self) -> Outcome:
        """Does what is left to do, and returns what became of the mailbox. If a human must decide about it, that may be
        known from before."""
        row = None if self.options.again else self.row_if_done()
        is_wanted = not row and self.is_wanted()
        while not row:
            try:
                with self.chosen() as part:
                    ended = self.try_to_bring(part) if is_wanted else Outcome(self.row(part))
                    return ended._replace(row=ended.row._replace(tie=self.tie))
            except Question as question:
                before = None if self.options.again else as_before(self.options, self.known)
                if before:
                    row = self.row_before(before[0], count_in(self.ledger, self.path), before[1])
                elif not self.take_answer(question):
                    self.options.put_commands(self.opened, question)
                    raise
        return Outcome(row)

    def row_if_done(self) -> Optional[Row]:
        """The row of a mailbox that is done by its bytes. A line may be about other messages of a Takeout."""
        self.known.take_place_by_bytes()
        line = self.known.done()
        if not line or self.part and Reading.of_words(line.words).part != self.part.choice.plan.reading.part:
            return None
        more, then = ([], NOTHING) if self.options.prepare else contradicted(self.options, self.opened, line)
        return self.row_before(line.words, line.messages, more)._replace(next=then)

    def is_wanted(self) -> bool:
        """Whether anything is done with it. A first pass does nothing with one that is empty, where another one has
        brought mail: a program that delivers makes such a file once the old one was moved away. Raises Left if it can't
        go there."""
        if not self.preparation or not self.options.prepare:
            return True
        if self.ledger.sources and self.path not in self.ledger.paths() and not self.opened.mailbox.size:
            return False
        self.want_not_leaving(*self.known.paths())
        want_free(self.preparation, self.known)
        return True

    def row_before(self, words: Optional[str], messages: Optional[int], more: Sequence[Remark]) -> Row:
        """The row of a mailbox of so many messages that was done before, by what words; what else is said."""
        mailbox, name = self.opened.mailbox, self.opened.name
        has_no_uids = self.options.dovecot and mailbox.size > 0 and not self.record.numbered(name)
        dropped = Says.DELETED_LEFT_OUT.of_any(Reading.of_words(words).dropped)
        of_folder = back_in(self.ledger) + gone_from(self.ledger, self.record.to_be_removed(name))
        by_index = self.known.by_index
        if by_index and self.known.is_cut:
            missing = max(0, by_index.messages - count_in(self.ledger, self.path))
            of_folder = [Says.LEDGER_OLDER.of(counted(missing, "message"))]
        elif by_index:
            of_folder = [(Says.LEDGER_GONE if is_folder(self.opened.folder) else Says.FOLDER_GONE).of()]
        says = (*[DONE_WITHOUT] * has_no_uids, *dropped, *of_folder, *more)
        return Row(mailbox.path, name, "", messages, Verdict.BEFORE, size=mailbox.size, remarks=says)

    def take_answer(self, question: Question) -> bool:
        """Has the mailbox read by the answer to a question that was given before, or that what it has brought shows.
        Returns whether there is one."""
        given = question.by_tie(self.options.answer)
        answer = given or answer_to(answers_of(self.known), question)
        # what is decided about several does not decide what was asked about one
        is_kept = not self.options.decision.alone and answer is not None and answer.alone
        if self.options.decision != UNDECIDED and not is_kept:
            return False
        decision = answer or answer_shown(self.options, self.known, question)
        if not decision:
            return False
        self.remarks += [] if given else [(Says.AS_ANSWERED if answer else Says.AS_BROUGHT).of()]
        self.options, self.tie = self.options._replace(decision=decision), given.of if given else ""
        return True

    @contextlib.contextmanager
    def chosen(self) -> Iterator[Part]:
        """What goes of the mailbox into the folder, once it is chosen which text stands for it. It is not read again if
        it is as it was prepared."""
        part = same_as_prepared(self.prepared, self.options, self.opened) if self.prepared else self.part
        if part:
            yield part
            return
        mailbox, is_stripped, given = self.opened.mailbox, self.options.extra.IS_STRIPPED, self.options.decision
        decision = given._replace(noted=noted_last(answers_of(self.known), given))
        with choice_at_once(self.program, mailbox, self.disk, decision, is_stripped) as choice:
            self.remarks += [Says.AS_ANSWERED.of()] * (given == UNDECIDED and choice.plan.answer is not None)
            yield Part(choice, functools.partial(self.read, choice), mailbox.size)

    def try_to_bring(self, part: Part) -> Outcome:
        """Brings the mailbox, which is left if that fails. Everything that is nowhere is brought of one that was
        rewritten, or whose sync failed, if that is wanted of such mailboxes alone."""
        mailbox, is_wanted = self.opened.mailbox, self.options.again_rewritten
        again = self.options.again or is_wanted and self.has_failed()
        try:
            try:
                return self.bring(part, again)
            except Left as left:
                if again or not is_wanted or left.reason not in (Reason.REWRITTEN, Reason.LEDGER):
                    raise
            return self.bring(part, True)
        except (Fault, OSError) as fault:
            return Outcome(row_left(mailbox.path, self.opened.name, fault, part.choice.plan, mailbox.size))

    def bring(self, part: Part, again: bool) -> Outcome:
        """Brings what is new, once it is chosen which text stands for the mailbox, or all that is nowhere. Raises what
        keeps it from being done."""
        if self.preparation and not again:
            want_usable(self.preparation, self.options, self.known)
        self.want_not_leaving(self.path)
        if self.has_failed() and not again:
            raise Left(SYNC_FAILED, Reason.SYNC_FAILED)
        if part.choice.plan.is_empty:
            return Outcome(self.bring_nothing(part, again))
        said = want_syncs(self.opened.folder, self.options.any_disk)
        with part.read() as contents:
            steps, row = (self.first_steps if self.options.prepare else self.other_steps)(part, contents, again, said)
            if self.options.dry:
                return Outcome(row)
            if again and self.preparation:
                self.preparation.note_kept()
            ended = carry_out(steps, row, self.program)
            return ended._replace(row=ended.row._replace(spent=row.spent and self.spent()))

    def want_not_leaving(self, *paths: str) -> None:
        """Raises Left if its undo was killed, which the ledger says of one of these paths."""
        if not self.ledger.leaving.isdisjoint(paths):
            undo = self.options.undo_command(self.opened)
            raise Left("its undo was interrupted", Reason.UNDO, (Answer(undo),))

    def bring_nothing(self, part: Part, again: bool) -> Row:
        """Brings a mailbox without mail, which only gets its folder, from which everything is removed that is prepared.
        A first pass removes the folder too if it was made for that: the mailbox may go later."""
        choice, preparation = part.choice, None if self.options.dry else self.preparation
        contents = Contents(Text(choice.mailbox, choice.plan.start), Inventory(), choice.plan.reading)
        again = again if self.options.prepare else self.go_by_ledger(contents, again)
        match, options, said = self.matched(part, contents, again), self.options._replace(again=again), list[Remark]()
        if self.prepared:
            said += remarks_on_prepared(self.prepared, options, self.opened.mailbox.say)
        said += [] if again or self.options.prepare else remarks_on_lost(match)
        has_list = preparation is not None and preparation.prepared.is_there and not again
        if self.options.prepare:
            if preparation and has_list:
                preparation.empty()
            return self.row(part, said)
        if preparation:
            if has_list:
                said += Says.KEPT_EDITED.of_any(preparation.prepared.remove_unwanted())
            elif again:
                preparation.note_kept()
            preparation.forget()
        self.record.make(self.opened.make_folder)
        note_empty(self.known, contents.reading, match.lost_lines)
        return self.row(part, said)

    def first_steps(self, part: Part, contents: Contents, again: bool, said: Sequence[Remark]) -> tuple[Steps, Row]:
        """What a first pass does by what it finds of the messages, and the row that says so."""
        assert self.prepared, "a first pass keeps a list"
        match = self.matched(part, contents, again)
        self.note_answer(part)
        said = [*said, *remarks_on_prepared(self.prepared, self.options, self.opened.mailbox.say)]
        origin, text = origin_now(self.known, contents, self.options.names), text_to_list(part.choice, contents)
        took = in_milliseconds(self.opened.mailbox.took) if text else self.passed()
        own = FirstPass(self.prepared, origin, text, took)
        steps = Steps.of(self.known, contents, match, self.options.extra, own)
        self.is_changed = self.is_changed and not own.is_done(steps.placing)
        self.want_room_for(steps)
        return steps, self.row(part, said)

    def other_steps(self, part: Part, contents: Contents, again: bool, said: Sequence[Remark]) -> tuple[Steps, Row]:
        """What any other pass does, and its row. Raises Left if it cannot be done, with the command that does what
        can."""
        known, again = self.known, self.go_by_ledger(contents, again)
        options = self.options._replace(again=again)
        want_same_reading(options, known, part.choice, contents)
        known.take_place_by_cores(contents.inventory)
        self.want_not_leaving(self.path)
        match, prepared = self.matched(part, contents, again), None if again else self.prepared
        self.note_answer(part)
        # a message of a Takeout may be in many folders
        elsewhere = [] if self.part else [*known.elsewhere(contents.inventory, match.new)]
        back = 0 if again else self.may_come_back(match, elsewhere)
        own = OtherPass(again, again or prepared is not None, back=back)
        if known.path in known.ledger.sources and not match.count_new():
            # what came back in a run that was killed stays, also if the mailbox no longer has it
            said = [*remarks_on_lost(match), *Says.CAME_BACK.of_any(back)]
            steps = Steps.of(known, contents, match, options.extra, own._replace(has_nothing_new=True))
            return steps, self.row_before(contents.reading.words(), len(contents.inventory), said)
        origin = origin_now(known, contents, options.names) if prepared and not prepared.origin else None
        own = own._replace(prepared=prepared, origin=origin, may_be_cut=names_that_may_be_cut(known, match))
        steps = Steps.of(known, contents, match, options.extra, own)
        hindrance = options.extra.hindrance(steps)
        if hindrance:
            raise Left(str(hindrance), hindrance.reason, self.command(Does.RUN, again=again, dovecot=False))
        self.want_room_for(steps)
        if self.prepared:
            said = [*said, *remarks_on_prepared(self.prepared, options, self.opened.mailbox.say)]
        return steps, self.row_of(part, steps, said, elsewhere)

    def row_of(self, part: Part, steps: Steps, said: Sequence[Remark], elsewhere: Sequence[Elsewhere]) -> Row:
        """The row of a mailbox that brings something, or would; with what is to be said of other folders, into which
        mail of it went, and of other mailboxes. What is said of flags and UIDs comes once they are set, but in a
        rehearsal."""
        said = [*said, *remarks_on_match(steps, self.options.dry), *back_in(self.ledger)]
        is_gone = any(one.word == Says.GONE_ELSEWHERE.word for one in said)
        then = self.command(Does.BRINGS_BACK, again=True) if is_gone else NOTHING
        for line, messages, _, is_moved, _ in (one for one in elsewhere if one.has_folder):
            its = counted(messages, "message"), folder_shown(line.about.folder)
            is_other = line.path not in self.known.names
            said.append(
                Says.ELSEWHERE_FROM.of(*its, named(unspelled(line.path))) if is_other else Says.ELSEWHERE.of(*its)
            )
            if is_moved:
                there = self.options._replace(folder=its[1])
                undo = there.undo_command(self.opened._replace(name=line.about.folder))
                then += (Answer(undo, Does.UNDO_THERE),)
        joined = self.known.joined(self.options.names)
        if joined:
            said.append(Says.JOINED.of(first_of(joined, most=1)))
        if self.options.dry:
            said += self.options.extra.apply(steps, dry=True)
        return self.row(part, said, then)

    def matched(self, part: Part, contents: Contents, again: bool) -> Match:
        """The messages of the text, with what is there of them; what was prepared counts for those that nothing else
        stands for. Raises Left if nobody knows what the files of the folder are, or whether it is the same mailbox."""
        prepared, say = self.prepared, self.opened.mailbox.say
        if again:
            match = self.matched_again(self.ledger, contents)
        else:
            if prepared and not part.is_as_prepared:
                prepared.look(say)
            files = Files(self.ledger.folder, contents.inventory, say, prepared.hides if prepared else None)
            match = Match.of(self.ledger, self.path, files, contents.is_trashed)
        if part.cores:
            # what only left the folder of a label is not gone
            match.unlabelled = match.lost & part.cores
        if not again:
            self.want_sure(contents, match)
            if prepared:
                prepared.give_to(match)
        if part.is_as_prepared and match.count(Stand.NOWHERE):
            raise Left(CHANGED_MEANWHILE, Reason.CHANGED)
        return match

    def note_answer(self, part: Part) -> None:
        """Notes the answer by which the mailbox was read, unless what it has brought gave that."""
        if Says.AS_BROUGHT.of() not in self.remarks:
            note_answer(self.known, part.choice.plan)

    def matched_again(self, ledger: Ledger, contents: Contents) -> Match:
        """The messages of the text, with what is there of them, if all that is nowhere is placed."""
        files = Files(ledger.folder, contents.inventory, self.opened.mailbox.say)
        return Match.again(ledger, self.path, files, contents.is_trashed)

    def want_room_for(self, steps: Steps) -> None:
        """Raises Left if the disk has no room for what is placed, and for the lines about it."""
        nowhere, sizes, prepared = steps.placing.nowhere, steps.contents.inventory.sizes, steps.own.prepared
        wanted = [*(sizes[place] for place in nowhere), LONGEST_LINE * steps.placing.count_of_lines()]
        # what no message wants is removed first
        freed = prepared.unwanted() if prepared else ()
        if len(nowhere):
            self.want_room(Need.of(self.opened.folder, wanted, freed=freed))

    def row(self, part: Part, said: Sequence[Remark] = (), then: Next = NOTHING) -> Row:
        """The row of a mailbox that is done or prepared, or would be; what else is said of it, and what is to be done
        next."""
        plan, done, would, spent = part.choice.plan, Verdict.DONE, Verdict.WOULD, None
        if self.options.prepare:
            done, would, spent = Verdict.PREPARED, Verdict.WOULD_PREPARE, self.spent()
        its = self.opened.name, plan.kind, plan.messages, would if self.options.dry else done
        row = Row(self.opened.mailbox.path, *its, size=part.size, spent=spent)
        return row._replace(remarks=(*plan.remarks, *self.remarks, *said), next=then)

    def spent(self) -> Optional[Spent]:
        """What a first pass has spent on it so far, and what a last pass is going to spend."""
        if not self.prepared or self.options.dry:
            return None
        return Spent(self.passed(), self.passed() if self.is_changed else self.prepared.foreseen())

    def passed(self) -> int:
        """How many milliseconds were spent on it so far."""
        return in_milliseconds(self.opened.mailbox.took) + milliseconds_since(self.began)

    def has_failed(self) -> bool:
        """Whether a sync of an earlier run failed, or of a pass."""
        is_failed = self.prepared is not None and (self.prepared.has_failed or has_failed(self.ledger))
        return is_failed or has_failed(self.ledger, self.path)

    def go_by_ledger(self, contents: Contents, again: bool) -> bool:
        """Raises Left if the ledger is damaged, or lacks something that the index has of the mailbox. If all that is
        nowhere is placed, what is damaged is put aside. Returns whether it is: also if nothing is nowhere, so that the
        ledger gets what it lacks."""
        known, ledger = self.known, self.ledger
        if again:
            if ledger.damage:
                ledger.put_aside()
        elif ledger.damage:
            left = Left(NOT_SHOWN % ("damaged in line %d" % ledger.damage), Reason.LEDGER)
            raise self.left_to_place(left, contents, self.matched_again(ledger.without_lines(), contents))
        elif known.by_index:
            left = Left(NOT_SHOWN % ("older than its record" if known.is_cut else "missing"), Reason.LEDGER)
            rest = self.matched_again(ledger, contents)
            # what is prepared is no mail yet
            if rest.count(Stand.NOWHERE) or self.prepared and self.prepared.is_there:
                raise self.left_to_place(left, contents, rest)
            return True
        return again

    def left_to_place(self, left: Left, contents: Contents, match: Match) -> Left:
        """Why it is left, with the command that places what is nowhere: without what could not be done besides then."""
        steps = Steps.of(self.known, contents, match, self.options.extra, OtherPass(True, ends_list=True))
        hindrance = self.options.extra.hindrance(steps)
        stays = self.options.dovecot and not hindrance
        then = self.command(Does.STORES_AGAIN, match.count(Stand.NOWHERE), again=True, dovecot=stays)
        return Left("%s; %s" % (left, hindrance) if hindrance else "%s" % left, left.reason, then)

    def command(self, does: Phrase, messages: Optional[int] = None, **changes: Any) -> Next:
        """The command that migrates this mailbox with these changes of the options, and how many messages it gives."""
        return (Answer(self.options.command(self.opened, **changes), does, messages),)

    @contextlib.contextmanager
    def read(self, choice: Choice) -> Iterator[Contents]:
        """Reads the text that stands for the mailbox. The program must list the same messages."""
        copies = choice.plan.is_copied + choice.plan.reading.stripped
        if copies:
            self.want_room(Need.of(self.disk, [], copies * choice.mailbox.size))
        with choice.text(self.disk) as whole:
            text = whole.begun_by(self.options.extra.start_of)
            inventory = read_messages(self.program, text, choice)
            yield Contents(text, inventory, choice.plan.reading)

    def want_sure(self, contents: Contents, match: Match) -> None:
        """Raises Left if nobody knows what the files of the folder are, or whether it is the same mailbox."""
        bases = unexplained(self.opened.maildir, match) if match.count(Stand.NOWHERE) else []
        if bases:
            left = Left(PARTLY_THERE % len(bases), Reason.PARTLY_THERE)
            if self.options.prepare:
                raise left
            raise self.left_to_place(left, contents, self.matched_again(self.ledger, contents))
        source, lost = self.ledger.sources.get(self.path), match.count_lost()
        is_much = source is not None and lost > max(FEW, source.count() // ONE_IN)
        if is_much and match.count_new() >= lost:
            raise Left(EDITED % counted(lost, "message"), Reason.REWRITTEN, self.command(Does.STORES, again=True))

    def may_come_back(self, match: Match, elsewhere: Sequence[Elsewhere]) -> int:
        """How many messages that are nowhere may have been there before, and were deleted."""
        # the ledger may lack what was deleted of other mailboxes that the index counts
        others = sum(one.messages for one in self.known.unknown if one.path not in self.known.names)
        # and so does a folder that is gone
        others += sum(one.line.messages for one in elsewhere if not one.has_folder)
        back, ledger = min(others, match.count(Stand.NOWHERE)) + match.gone_in_other_form, self.ledger
        gone = gone_before(ledger) + match.gone
        if self.path in ledger.sources:
            # what the mailbox had lost would be there if it had a file still
            gone += ledger.sources[self.path].lost
        for one in elsewhere:
            gone += one.gone
        if gone:
            back += sum((gone & collections.Counter(map(match.inventory.core, match.nowhere))).values())
        number = ledger.pending(self.path)
        # what came back in runs that were killed too was not said yet
        return back if number is None else back + ledger.open[number].head.back + placed_again(ledger, self.path)
