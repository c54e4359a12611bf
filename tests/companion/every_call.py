"""migrate, --prepare, --again and --undo that are killed, with all that they have started, at each call that changes
files or syncs them, or when half of it is written: the same command, given again, ends as one that was not killed,
nothing more is to be done then, and the mailboxes can be undone.

EVERY_CALL says which calls are tried: each one (1), or each third one (3). Otherwise each 17th one is.
"""
import os
import typing
from collections import Counter
from collections.abc import Callable, Sequence
from functools import partial
from typing import NamedTuple

from tests.support.archives import RO, Home, Kept, fresh, letter, letters, number_of, want
from tests.support.cases import try_all
from tests.support.kills import Killer, Moment, moments, run_with_kills
from tests.support.running import BY_OTHERS, Run

UIDS = b"X-IMAPbase: 1700000000 0000000009\nX-UID: %d\nStatus: RO\n"


class Deed(NamedTuple):
    """What is killed: the words of the command, how the home is made before it, and the mailboxes that are undone after
    it."""

    words: Sequence[str]
    prepare: Callable[[Home], object]
    names: Sequence[str]


def two_archives(home: Home) -> None:
    """Two archives that overlap, of which nothing is done."""
    home.write("OLD", letters(0, 1, 1, 2))
    home.write("READ", letters(1, 2, 3, fields=RO))


def one_grew(home: Home) -> None:
    """One is done, its reader has deleted a message, and it was rewritten and grew."""
    home.write("OLD", letters(0, 1, 1, 2))
    home.done("OLD")
    home.take(0)
    home.write("OLD", letters(0, 1, 1, 2, 4, 5, fields=RO))
    home.write("READ", letters(1, 2, 3))


def prepared(home: Home) -> None:
    """One was prepared in two passes, and has lost and got messages since."""
    for numbers in ((0, 1, 1, 2), (1, 2, 3, 4)):
        home.write("OLD", letters(*numbers))
        home.place.run(["migrate", "--json", *PREPARE, *FOLDER, "M", "OLD"])
    home.write("OLD", letters(2, 3, 3, fields=RO))


def prepared_beside(home: Home) -> None:
    """The same, and another one goes into its folder."""
    prepared(home)
    home.write("READ", letters(3, 5, fields=RO))


def both_done(home: Home) -> None:
    """Both are done, and a message of each was deleted."""
    two_archives(home)
    home.done("OLD", "READ")
    home.take(2, 3)


def of_a_server(home: Home) -> None:
    """A server has numbered the messages."""
    home.write("OLD", b"".join(letter(number, UIDS % (number + 1)) for number in range(4)))


def prepared_of_a_server(home: Home) -> None:
    """The same, but for one message more, which is prepared."""
    home.write("OLD", b"".join(letter(number, UIDS % (number + 1)) for number in (4, 0, 1)))
    home.place.run(["migrate", "--json", *PREPARE, "--dovecot", "M", "OLD"])
    of_a_server(home)


def of_a_tree(home: Home) -> None:
    """A tree of two mailboxes."""
    home.write("mail/x", letters(0, 1))
    home.write("mail/y", letters(1, 2, fields=RO))


def of_a_tree_of_a_server(home: Home) -> None:
    """The same of a server, by which a user is subscribed to one of them."""
    home.write("mail/x", letter(0, UIDS % 1) + letter(1, b"X-UID: 4\nX-Keywords: garden\nStatus: O\n"))
    home.write("mail/y", letter(2, UIDS % 1))
    home.write("mail/.subscriptions", b"x\n")


def unchanged_of_a_server(home: Home) -> None:
    """A server's mailbox is as it was prepared, so that its text is not read again."""
    of_a_server(home)
    home.place.run(["migrate", "--json", "--dovecot", *PREPARE, "M", "OLD"])


FOLDER, PREPARE = ["--folder", "Archive"], ["--prepare", "--unread"]
DEEDS = {
    "migrate": Deed([*FOLDER, "M", "OLD", "READ"], two_archives, ["READ", "OLD"]),
    "grown": Deed([*FOLDER, "M", "OLD", "READ"], one_grew, ["OLD", "READ"]),
    "dovecot": Deed(["--dovecot", "M", "OLD"], of_a_server, ["OLD"]),
    "tree": Deed(["--jobs", "1", "M", "mail"], of_a_tree, ["mail/x", "mail/y"]),
    "tree_of_a_server": Deed(["--jobs", "1", "--dovecot", "M", "mail"], of_a_tree_of_a_server, ["mail/x", "mail/y"]),
    "first_pass": Deed([*PREPARE, *FOLDER, "M", "OLD"], prepared, ["OLD"]),
    "last_pass": Deed([*FOLDER, "M", "OLD"], prepared, ["OLD"]),
    "last_pass_of_two": Deed([*FOLDER, "M", "OLD", "READ"], prepared_beside, ["READ", "OLD"]),
    "last_pass_of_a_server": Deed(["--dovecot", "M", "OLD"], prepared_of_a_server, ["OLD"]),
    "last_pass_unchanged": Deed(["--dovecot", "M", "OLD"], unchanged_of_a_server, ["OLD"]),
    "again": Deed([*FOLDER, "--again", "M", "OLD"], both_done, ["OLD", "READ"]),
    "undo": Deed([*FOLDER, "--undo", "M", "OLD"], both_done, ["READ"]),
    "undo_the_other": Deed([*FOLDER, "--undo", "M", "READ"], both_done, ["OLD"]),
}

# the folder of each file, the number of its message, and its flags; or its name and what is in it
Files = typing.Counter[tuple[str, object, object]]


def files_of(home: Home) -> Files:
    """The files of the mail, and those that Dovecot reads."""
    mail = [
        (path.parents[1].name, number_of(path.read_bytes()), path.name.partition(":2,")[2]) for path in home.files()
    ]
    several = [*home.maildir.rglob("dovecot-*"), *home.maildir.glob("subscriptions")]
    return Counter([*mail, *((path.parent.name, path.name, path.read_bytes()) for path in several)])


class Trial(Kept):
    """A command that is killed again and again, in a home that is brought back each time."""

    def __init__(self, home: Home, deed: Deed) -> None:
        home.begin()
        deed.prepare(home)
        super().__init__(home)
        self.deed, self.killer, self.words = deed, Killer(os.environ), ["migrate", "--json", "--now", *deed.words]
        ran, self.calls = self.killer.run(partial(home.place.run, self.words, BY_OTHERS))
        want(ran.status == 0 and bool(self.calls), "the command fails, or makes no call", ran)
        self.wanted = files_of(home)
        self.wanted_when_undone = self.undone()

    def undone(self) -> Files:
        """What is left once the mailboxes are undone."""
        for name in self.deed.names:
            folder = [word for word in self.deed.words if word in FOLDER]
            self.home.place.run(["migrate", "--json", "--now", "--undo", *folder, "M", name])
        return files_of(self.home)

    def try_at(self, moment: Moment) -> None:
        """Kills it at a moment, and gives the command again."""
        run = self.home.place.run
        when = f"killed before call {moment.number}, {self.calls[moment.number - 1]}: {moment}: "
        self.bring()
        killed, _ = self.killer.run(partial(run, self.words, BY_OTHERS), moment)
        want(killed.is_killed, f"{when}it is not killed", killed)
        then = run(self.words)
        is_over = "--undo" in self.words and then.status == 1
        want(then.status == 0 or is_over, f"{when}it does not go on", then)
        self.compare(files_of(self.home), self.wanted, when, then)
        last = run(self.words)
        want(last.status == 0 or is_over or "--undo" in self.words, f"{when}it is not done", then, last)
        self.compare(files_of(self.home), self.wanted, f"{when}a further run", then, last)
        self.compare(self.undone(), self.wanted_when_undone, f"{when}undone", then)

    @staticmethod
    def compare(there: Files, wanted: Files, when: str, *ran: Run) -> None:
        """Fails if too much is there, or something is missing."""
        want(there == wanted, f"{when}: too much: {dict(there - wanted)}, missing: {dict(wanted - there)}", *ran)


def case(name: str) -> None:
    """A deed that is killed at each call, or at some, in a home of its own."""
    with fresh() as home:
        trial = Trial(home, DEEDS[name])
        try_all(f"{name}: {len(trial.calls)} calls", (partial(trial.try_at, one) for one in moments(trial.calls, name)))


if __name__ == "__main__":
    run_with_kills("tests.companion.every_call", {name: partial(case, name) for name in DEEDS})
