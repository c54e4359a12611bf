"""The way back from a Maildir into mailboxes, after a random history: what is in the mailboxes then, and what a further
run and a further migration do."""
import re
from collections import Counter
from collections.abc import Sequence

from tests.support.archives import Home, want
from tests.support.running import Run
from tests.support.splitter import WORDS, is_dated
from tests.worlds.back.histories import (
    BESIDE,
    DIALECTS,
    Appended,
    History,
    flags_of,
    of_new,
    read,
    shown_of,
    tail_of,
    text_at,
)
from tests.worlds.back.programs import KEEPERS, Deliver, listed_in, numbers_of
from tests.worlds.letters import bare, without
from tests.worlds.stage import Stage

BACK = ["back", "--json", "--now", "M", "mail", "spool"]
# a quoted line without a date that may begin a message: a header follows, perhaps after other such lines, or it has one
# word
MAY_BEGIN = re.compile(rb"(?m)^>From (?:.*\n(?:>+From .*\n)*[!-9;-~]+[ \t]*:|\S+\s*$)")


class Trial:
    """The way back after a history."""

    def __init__(self, history: History) -> None:
        self.history, self.home = history, history.home
        self.words = [*BACK, *["--dovecot"] * history.has_uids]
        self.before = self.texts()
        self.sure, self.any_of = history.wanted()

    def texts(self) -> dict[str, bytes]:
        """The mailboxes by their folders."""
        return {folder: text_at(self.home.path / path) for folder, path in self.history.paths().items()}

    def added(self) -> dict[str, list[Appended]]:
        """What was appended to each mailbox."""
        found = {}
        for folder, text in self.texts().items():
            tail = tail_of(self.before[folder], text)
            keeper = self.history.keeper_of(folder)
            found[folder] = [shown_of(*one, keeper) for one in read(tail, self.dialect_of(folder))]
        return found

    def check(self, ran: Run) -> None:
        """Each message is in one mailbox, with its bytes."""
        want(ran.status == 0, "status", ran)
        rest = Counter(self.history.appended(one) for one in self.any_of)
        spare = len({one.number for one in self.any_of})
        count, added = 0, self.added()
        want({*self.sure} <= {*added}, f"nobody looks into {({*self.sure} - {*added})}", ran)
        for folder, several in added.items():
            its, is_beside = folder.rstrip(BESIDE), folder.endswith(BESIDE)
            sure = Counter(self.sure.get(its, {}))
            for one in list(sure):
                if folder_refuses(self, its, one) != is_beside:
                    del sure[one]
            there = Counter(several)
            want(not sure - there, f"{folder}: missing {dict(sure - there)}, too much {dict(there - sure)}", ran)
            more = there - sure
            want(not more - rest, f"{folder}: too much {dict(more - rest)}", ran)
            rest -= more
            count += sum(more.values())
        want(count == len(self.any_of) - spare, f"{count} of {len(self.any_of)}", ran)

    def check_numbers(self, ran: Run) -> None:
        """No UID means one message in the Maildir, and another one in the mailbox; each that was given is known."""
        history = self.history
        for folder, text in self.texts().items():
            its = numbers_of([one for _, one in read(text, self.dialect_of(folder))], history.number_of)
            listed = listed_in(history.path(folder), history.number_of)
            if not its or not listed or its.validity != listed.validity or not history.has_uids:
                continue
            want(its.following >= listed.following, f"{folder}: {its} and {listed}", ran)
            both = {uid for uid in {*its.uids} & {*listed.uids} if listed.uids[uid] not in (0, its.uids[uid])}
            want(not both, f"{folder}: {both} of {its} and {listed}", ran)

    def as_migrated(self, message: bytes) -> bytes:
        """A message of a mailbox as `migrate` places it, without what programs note: Dovecot writes the empty line that
        ends a header without its CR."""
        return without(bare(message)) if self.history.has_uids else bare(message)

    def dialect_of(self, folder: str) -> str:
        """The dialect of the mailbox of a folder."""
        return self.history.dialect if self.before[folder] else of_new(self.texts()[folder])

    def dialect_again(self, folder: str) -> str:
        """The dialect by which it is migrated again. A new one without lengths is read by the word of all, for which
        only those are made that Dovecot is to serve. No length may lead over a line in a message that may begin another
        one."""
        dialect, text = self.dialect_of(folder), self.texts()[folder]
        may_begin = MAY_BEGIN.search(text) or any(map(is_dated, re.findall(rb"(?m)^>(From .*)$", text)))
        is_free = not self.before[folder] and (may_begin or not self.history.has_uids)
        return self.history.word or dialect if is_free and dialect == "mboxrd" else dialect

    def run(self) -> None:
        """Goes back, twice, and migrates again, into the same Maildir and into a new one."""
        names, words = self.names(), self.words
        ran = self.home.place.run(words)
        self.check(ran)
        self.check_numbers(ran)
        texts = self.texts()
        again = self.home.place.run(words)
        want(self.texts() == texts, "a second run changes something", ran, again)
        want(again.status == ran.status, "a second run ends otherwise", ran, again)
        several = [*self.history.migrate("M"), self.migrate_otherwise()]
        want(self.names() == names, f"migrate places {set(self.names()) ^ set(names)}", ran, *several)
        again = self.home.place.run(words)
        want((self.texts(), again.status) == (texts, ran.status), "a further run changes something", ran, again)
        self.history.migrate("N")
        for folder, text in texts.items():
            self.check_migrated(folder, text, ran)

    def migrate_otherwise(self) -> Run:
        """Another word is said of all mailboxes than the one by which they were read. It may leave them for that alone,
        since it would double mail, or go on as before."""
        word = self.history.draw.choice([one for one in WORDS if one != self.history.word])
        ran = self.home.place.run(["migrate", "--json", "--now", "--as", word, "M", "mail", "spool"])
        reasons = {row["reason"] for row in ran.rows if row["reason"]}
        want(reasons <= {"another-reading"}, f"left for {reasons}", ran)
        return ran

    def names(self) -> list[str]:
        """The names of all mail in the Maildir."""
        return sorted(str(path) for path in self.home.maildir.glob("**/*") if path.parent.name in ("new", "cur"))

    def check_migrated(self, folder: str, text: bytes, ran: Run) -> None:
        """A new Maildir has the mail of a mailbox, with its flags. Those of a program are in each message."""
        history, place = self.history, self.history.place_of(folder)
        messages = [message for _, message in read(text, self.dialect_again(folder))]
        keeper = next((its for its in KEEPERS.values() if None not in map(its.flags, messages)), None)
        wanted = Counter((self.as_migrated(one), flags_of(one, keeper, history.has_uids)) for one in messages)
        files = [one for one in history.files("N") if one.folder == place]
        found = Counter((bare(one.text), one.name.partition(":2,")[2]) for one in files)
        differ = f"{folder}: missing {brief(wanted - found)}, too much {brief(found - wanted)}"
        want(found == wanted, differ, ran)


def brief(several: "Counter[tuple[bytes, str]]") -> list[str]:
    """Messages with their flags, as they are shown: long ones by their beginning and their end."""
    return [f"{text[:200]!r}..{text[-80:]!r} {flags} ({count})" for (text, flags), count in several.items()]


def folder_refuses(trial: Trial, folder: str, one: Appended) -> bool:
    """Whether the mailbox of a folder cannot hold a message."""
    return bool(trial.before[folder]) and not trial.history.holds(one.bare)


def lived(home: Home, seed: int, dialect: str = "", count: int = 0, programs: Sequence[Deliver] = ()) -> History:
    """The history of a seed, of so many deeds, in a home in which these programs deliver too."""
    history = History(home, seed, dialect)
    history.programs += programs
    history.begin()
    history.act(count or history.draw.randrange(4, 20))
    return history


def one_world(stage: Stage, seed: int) -> list[str]:
    """The way back after a history."""
    history = lived(Home(stage.place.home, stage.place.programs), seed, DIALECTS[seed % len(DIALECTS)])
    stage.steps += history.steps
    said = f" by --as {history.word} of all" if history.word else ""
    stage.seen[f"ended {history.dialect}{said}"] += 1
    Trial(history).run()
    return []
