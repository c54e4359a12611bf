"""Mailboxes of numbered messages that are migrated into the folders of one Maildir, and which of them are there then.

A message is known by its Message-ID, whatever mail programs have written into its header.
"""
import itertools
import json
import re
import shutil
import typing
from collections import Counter
from collections.abc import Callable, Iterable, Iterator, Mapping, Sequence
from contextlib import contextmanager
from functools import partial
from pathlib import Path
from typing import Any, NamedTuple, Optional

from tests.support.cases import Failed, run_cases
from tests.support.homes import fresh_folder, in_memory, install, mail_below
from tests.support.ledgers import LEDGER, RECORD, besides, wait_for_lock
from tests.support.place import ENDED, Place
from tests.support.running import NEVER, Kill, Row, Run

ID = re.compile(rb"(?m)^Message-ID: <(\d+)@example.com>")
RO = b"Status: RO\n"
GMAIL = b"X-GM-THRID: 1785134556187161\n"
TEN = list(range(10))

Numbers = typing.Counter[int]


def letter(number: int, fields: bytes = b"", body: bytes = b"") -> bytes:
    """A message of a mailbox, with fields in its header that mail programs write."""
    head = b"From a@example.com Mon Jan  6 12:00:%02d 2020\nSubject: %d\nMessage-ID: <%d@example.com>\n"
    return head % (number % 60, number, number) + fields + b"\n" + (body or b"hello %d\n" % number) + b"\n"


def letters(*numbers: int, fields: bytes = b"") -> bytes:
    """A mailbox of messages, each with these fields."""
    return b"".join(letter(number, fields) for number in numbers)


def number_of(mail: bytes) -> int:
    """The number of a message."""
    found = ID.search(mail)
    if not found:
        raise Failed(f"a file without a number: {mail[:200]!r}")
    return int(found[1])


class Fields(NamedTuple):
    """Fields in which a mail program notes what it knows of a message: as they are, and as they are then."""

    before: bytes
    after: bytes


# each field that the program reads or leaves out, with a value in which bytes change, one that is longer, or none
PROGRAMS = {
    "evolution": Fields(b"X-Evolution: 00000001-0000\n", b"X-Evolution: 00000001-0010\n"),
    "evolution_numbers": Fields(b"X-Evolution: 00000001-0010\n", b"X-Evolution: 0000002a-0010\n"),
    "evolution_looks": Fields(b"", b"X-Evolution: 00000001-0010\n"),
    "status": Fields(b"Status: O\n", b"Status: RO\n"),
    "status_goes": Fields(b"Status: RO\n", b""),
    "x_status": Fields(b"Status: RO\nX-Status:  \n", b"Status: RO\nX-Status: A\n"),
    "thunderbird": Fields(
        b"X-Mozilla-Status: 0000\nX-Mozilla-Status2: 00000000\n",
        b"X-Mozilla-Status: 0001\nX-Mozilla-Status2: 10000000\n",
    ),
    "thunderbird_looks": Fields(b"", b"X-Mozilla-Status: 0001\nX-Mozilla-Status2: 00000000\n"),
    "thunderbird_keys": Fields(
        b"X-Mozilla-Status: 0000\nX-Mozilla-Status2: 00000000\nX-Mozilla-Keys:          \n",
        b"X-Mozilla-Status: 0001\nX-Mozilla-Status2: 00000000\nX-Mozilla-Keys: $label1  \n",
    ),
    "gmail": Fields(GMAIL + b"X-Gmail-Labels: Inbox,Unread\n", GMAIL + b"X-Gmail-Labels: Inbox,Opened\n"),
    "server_looks": Fields(b"", b"Status: O\nX-UID: 7\nX-Keywords: a b\n"),
    "server_numbers": Fields(
        b"X-IMAPbase: 1700000000 0000000009\nX-UID: 3\n", b"X-IMAPbase: 1700000001 0000000123\nX-UID: 31\n"
    ),
    "server_of_old": Fields(b"", b"X-IMAP: 1700000000 0000000009\nStatus: O\n"),
    "lengths": Fields(b"", b"Content-Length: 8\n"),
    "mutt": Fields(b"", b"Status: RO\nContent-Length: 8\nLines: 1\n"),
}


class Outcome:
    """How a run ended: its status, what it printed, and its rows by the paths of mailboxes."""

    def __init__(self, words: Sequence[str], ran: Run) -> None:
        self.status, self.is_killed = ran.status, ran.is_killed
        self.text = f"$ {' '.join(words)} -> {ran.status}\n{ran.output}"
        self.rows = {str(row["path"]): row for row in ran.rows}

    def __getitem__(self, name: str) -> Row:
        """The row of a mailbox."""
        if name not in self.rows:
            raise Failed(f"no row of {name}: {self.text}")
        return self.rows[name]


class Home:
    """A home with mailboxes, and a Maildir."""

    def __init__(self, path: Path, programs: Path) -> None:
        self.path, self.maildir, self.record = path, path / "M", path / "M" / RECORD
        self.place = Place(path, programs)
        # what each run is told
        self.words = []  # type: list[str]
        # what the last run printed, and the values with which a story began
        self.printed, self.values = "", ()  # type: str, tuple[Any, ...]

    def begin(self, *words: str) -> None:
        """Begins with an empty home. Each run is told these words, or to use one folder."""
        self.words = list(words) or ["--folder", "Archive"]
        self.place.clear()

    def each(self, *several: Iterable[Any], words: Sequence[str] = ()) -> Iterator[Any]:
        """Begins with an empty home for each value, or for each combination of several. What fails names it."""
        for values in itertools.product(*several):
            self.begin(*words)
            self.values = values
            yield values if len(several) > 1 else values[0]

    def write(self, name: str, text: bytes) -> str:
        """Writes a mailbox, and returns its name."""
        self.place.write(name, text)
        return name

    def run(self, *names: str, words: Sequence[str] = (), kill: Kill = NEVER) -> Outcome:
        """Migrates mailboxes, or does with them what the words say."""
        words = ["migrate", "--json", "--now", *self.words, *words, "M", *names]
        ran = Outcome(words, self.place.run(words, kill))
        self.printed = ran.text
        if ran.is_killed:
            wait_for_lock(self.maildir)
        return ran

    def done(self, *names: str, words: Sequence[str] = ()) -> Outcome:
        """Does it without a question."""
        ran = self.run(*names, words=words)
        if ran.status != 0 or any(row["verdict"] not in ENDED for row in ran.rows.values()):
            raise Failed(f"it is not done: {ran.text}")
        return ran

    def undo(self, *names: str) -> Outcome:
        """Undoes mailboxes, one after the other."""
        for name in names:
            ran = self.done(name, words=["--undo"])
        return ran

    def bring(self, words: Sequence[str] = (), **texts: bytes) -> Outcome:
        """Writes mailboxes, each under its name, and migrates them by one command, without a question."""
        return self.done(*(self.write(name, text) for name, text in texts.items()), words=words)

    def bring_tree(self, **texts: bytes) -> Outcome:
        """Writes mailboxes of the tree `mail`, each under its name, and migrates the tree without a question."""
        for name, text in texts.items():
            self.write(f"mail/{name}", text)
        return self.done("mail")

    def killed(self, kill: Kill, **texts: bytes) -> Outcome:
        """Writes mailboxes, and migrates them by a run that is killed, unless it has ended before."""
        return self.run(*(self.write(name, text) for name, text in texts.items()), kill=kill)

    def left(self, name: str, text: Optional[bytes] = None, words: Sequence[str] = ()) -> Row:
        """Migrates a mailbox that is left, with this text if one is given. No mail changes."""
        if text is not None:
            self.write(name, text)
        before = self.names()
        ran = self.run(name, words=words)
        if ran.status != 1 or ran[name]["verdict"] != "left":
            raise Failed(f"it is not left: {ran.text}")
        if self.names() != before:
            raise Failed(f"it is left, and mail has changed: {ran.text}")
        return ran[name]

    def brings_again(self, name: str, text: Optional[bytes] = None) -> Row:
        """Migrates a mailbox that is left, and then brings all of it by --again, as its row offers."""
        row = self.left(name, text)
        want_offered(row, "--again")
        self.done(name, words=["--again"])
        return row

    def folder(self, name: str = "Archive") -> Path:
        """A folder of the Maildir."""
        return self.maildir / f".{name}"

    def ledger(self, name: str = "Archive") -> Path:
        """The ledger of a folder, which must be there."""
        path = self.folder(name) / LEDGER
        if not path.is_file():
            raise Failed(f"there is no {path}")
        return path

    def files(self, name: str = "*") -> list[Path]:
        """The files of the mail in a folder, or in all."""
        return sorted(path for folder, path in mail_below(self.maildir) if name in ("*", folder.name[1:]))

    def names(self) -> dict[str, bytes]:
        """All mail by the names of its files."""
        return {str(path.relative_to(self.maildir)): path.read_bytes() for path in self.files()}

    def numbers(self, name: str = "*") -> Numbers:
        """How many files of a folder, or of all, have each message."""
        return Counter(number_of(path.read_bytes()) for path in self.files(name))

    def has(self, *wanted: int, name: str = "*", why: object = "") -> None:
        """A folder, or all, must have these messages, each as often as it is named, and nothing that a run left."""
        there, wants = self.numbers(name), Counter(wanted)
        if there != wants:
            wrong = f"{name}: too many {dict(there - wants)}, missing {dict(wants - there)}"
            raise Failed(f"{wrong}: {self.values} {why}: {self.printed}")
        if besides(self.maildir):
            raise Failed(f"what else is there: {besides(self.maildir)}: {self.values} {why}: {self.printed}")

    def those(self, number: int, name: str = "*") -> list[Path]:
        """The files of a message."""
        return [path for path in self.files(name) if number_of(path.read_bytes()) == number]

    def take(self, *numbers: int, name: str = "*") -> None:
        """A reader deletes a file of each of these messages."""
        for number in numbers:
            self.those(number, name)[0].unlink()

    def place_file(self, name: str, mail: bytes, folder: str = "Archive") -> Path:
        """Another program places a file."""
        path = self.folder(folder) / "cur" / name
        path.write_bytes(mail)
        self.place.own(path)
        return path

    def rename(self, number: int, place: int = 0, name: str = "17000.1.host") -> None:
        """Another program gives a file of a message a name of its own."""
        path = self.those(number)[place]
        path.rename(path.parent.parent / "cur" / f"{name}:2,S")

    def forget_end(self) -> None:
        """Takes back that the last mailbox is done, as if its run had been killed just before that."""
        for path in self.ledger(), self.record:
            path.write_bytes(b"".join(path.read_bytes().splitlines(True)[:-1]))

    @contextmanager
    def from_a_backup(self, place: Path) -> Iterator[None]:
        """A file or a folder comes from a backup afterwards: it is as it was before."""
        kept = self.keep(place)
        yield
        self.put(kept, place)

    def keep(self, place: Path) -> Path:
        """Keeps a file or a folder as it is now, in a copy."""
        kept = self.path / f"kept-{place.name}"
        self.put(place, kept)
        return kept

    def put(self, source: Path, place: Path) -> None:
        """Puts a copy of a file or a folder in its place."""
        if source.is_dir():
            shutil.rmtree(place, ignore_errors=True)
            shutil.copytree(source, place, copy_function=shutil.copy2)
        else:
            shutil.copy2(source, place)
        self.place.own(place, *place.rglob("*"))


class Kept:
    """A home that is brought back as it was, again and again."""

    def __init__(self, home: Home) -> None:
        self.home, self.kept = home, home.path.parent / "kept"
        shutil.rmtree(self.kept, ignore_errors=True)
        shutil.copytree(home.path, self.kept, copy_function=shutil.copy2)

    def bring(self) -> None:
        """Brings it back."""
        shutil.rmtree(self.home.path)
        shutil.copytree(self.kept, self.home.path, copy_function=shutil.copy2)
        self.home.place.own(self.home.path, *self.home.path.rglob("*"))


def want(is_right: bool, what: str, *ran: Run) -> None:
    """Fails if something is not right."""
    if not is_right:
        raise Failed("\n".join([what, *(f"{one.status}: {one.output}" for one in ran)]))


Rule = Callable[[Home], None]


def texts_of(row: Row) -> str:
    """What a row says, in its sentence and its remarks, and of what is to be done next."""
    remarks = [remark["says"] for remark in row.get("remarks", [])]
    return "; ".join([row["says"], *remarks, json.dumps(row.get("next"))])


def says(row: Row, *wanted: object) -> bool:
    """Whether a row has these numbers and words."""
    text = re.sub(r"[^\s'\"]*/", "", texts_of(row))
    return all(re.search(rf"(?<!\w){re.escape(str(one))}(?!\w)", text) for one in wanted)


def want_said(row: Row, *wanted: object) -> None:
    """A row must have these numbers and words."""
    if not says(row, *wanted):
        raise Failed(f"{wanted} should be said: {row}")


def want_unsaid(row: Row, word: str) -> None:
    """A row must not have a word."""
    if word in texts_of(row):
        raise Failed(f"{word} should not be said: {row}")


def want_offered(row: Row, option: str) -> None:
    """What is to be done next must have an option."""
    if option not in json.dumps(row["next"]):
        raise Failed(f"{option} should be offered: {row}")


def mail_of(text: bytes) -> list[bytes]:
    """The mail of a mailbox of letters without lines `From `, as a file of a Maildir has it."""
    return [piece.split(b"\n", 1)[1][:-1] for piece in re.split(rb"(?m)^(?=From )", text) if piece]


@contextmanager
def fresh() -> Iterator[Home]:
    """A home, and the programs."""
    with fresh_folder(in_memory()) as top:
        install(top / "bin")
        yield Home(top / "home", top / "bin")


def rules_in(module: Mapping[str, Rule]) -> dict[str, Rule]:
    """The rules of a module, whose names begin so."""
    return {name: one for name, one in module.items() if name.startswith("rule_")}


def run_rules(rules: Mapping[str, Rule]) -> None:
    """Runs the cases, each in an empty home."""

    def case(name: str) -> None:
        with fresh() as home:
            home.begin()
            rules[name](home)

    run_cases({name: partial(case, name) for name in rules})
