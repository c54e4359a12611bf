"""Random histories of a Maildir that was migrated from old mailboxes, and what is to be in these after the way back."""
import collections
import os
import re
import time
import typing
from collections import Counter
from collections.abc import Iterator
from pathlib import Path
from random import Random
from typing import NamedTuple, Optional

from tests.support.archives import Home
from tests.support.cases import Failed
from tests.support.homes import mail_below
from tests.support.running import Run
from tests.support.splitter import is_from, pieces
from tests.worlds.back.programs import KEEPERS, Deliveries, Keeper, with_numbers
from tests.worlds.letters import HEADERLIKE, ODD, PLAIN, QUOTED, TALK, bare, field_of, parted, with_fields, written

# how mailboxes are written; the words by which `migrate` reads some, each alone; and those that may be said of all
DIALECTS = ("mboxrd", "mboxo", "mboxcl", "mboxcl2", "crlf")
WORDS = {"mboxo": ["--as", "mboxo"], "mboxcl": ["--as", "mboxcl"]}
OF_ALL = {"mboxrd": "mboxrd", "mboxo": "mboxo", "mboxcl2": "mboxcl2", "crlf": "mboxrd"}
LINE = b"From a@b Mon Mar  3 09:12:44 2025"
# stands for the mailbox beside that of a folder, which gets what that cannot hold
BESIDE = "!"
# the mailboxes by their folders
BOXES = {"": "spool", ".sent": "mail/sent", ".lists.b": "mail/lists/b", ".empty": "mail/empty"}
FOLDERS = [*BOXES, ".new", ".lists.sheds"]
NEW = {".new": "mail/new", ".lists.sheds": "mail/lists/sheds", ".sent.below": "mail/sent-below"}
# a folder whose name was changed keeps its mailbox, so that a new one of its old name gets another
NEW[".lists.b"] = "mail/lists-b"
LINES = [line + b"\n" for line in [*PLAIN, TALK[0], b"From a@b Mon Mar  3 09:12:44 2025", *QUOTED, *HEADERLIKE, *ODD]]
# a hundred times that many bytes are 10 MB
LONG_LINES = (b"y" * 76 + b"\n") * 1300
FIELDS = [
    b"Return-Path: <alva@example.org>\n", b"Content-Length: 3\n", b"Status: RO\n", b"X-UID: 7\n", b"X-Status: F\n",
    b"content-length:  999999\n", b"X-IMAPbase: 1 2\n", b"Subject: a\n", b"Received: by x\n\tfor y\n", b"Lines: 3\n",
]  # fmt: skip
# a line that looks like a From_ line: with a date, before a field, or with a word alone between blank lines
LIKE_FROM = re.compile(
    rb"(?m)^From .*(?: [A-Z][a-z][a-z] [A-Z][a-z][a-z] +\d+ \d\d:\d\d:\d\d \d{4}\r?$|\n(?:>+From .*\n)*[!-9;-~]+:)"
    rb"|\n\r?\nFrom \S+\r?\n\r?\n"
)
ID = re.compile(rb"(?m)^Message-ID: <(\d+)@")
# by the letters of Status and X-Status
LETTERS = {b"A": "R", b"D": "T", b"F": "F", b"R": "S", b"T": "D"}
INFO = ["", ":2,", ":2,S", ":2,FS", ":2,RS", ":2,ST", ":2,DF", ":2,PS"]


class File(NamedTuple):
    """A file of mail: its folder, whether it is in `new` or `cur`, its name, its message, and the number of that."""

    folder: str
    sub: str
    name: str
    text: bytes
    number: int


class Appended(NamedTuple):
    """What is to be appended for a file: the message as the mailbox gives it back, the sender, and its flags."""

    bare: bytes
    sender: bytes
    status: bytes
    x_status: bytes
    # the flags that a program keeps, if one does
    kept: Optional[str] = None


def read(text: bytes, dialect: str) -> list[tuple[bytes, bytes]]:
    """The From_ lines of a mailbox, each with its message."""
    assert not text or is_from(text), text[:80]
    return pieces(text, dialect.replace("crlf", "mboxrd"))


def of_new(text: bytes) -> str:
    """The dialect of a mailbox that `back` has made: each message has a length, or none."""
    header = re.split(rb"\n\r?\n", text, 1)[0]
    return "mboxcl2" if re.search(rb"(?m)^Content-Length: ", header) else "mboxrd"


class History:
    """A home with mailboxes of one dialect, which were migrated, and what people did in the Maildir then."""

    def __init__(self, home: Home, seed: int, dialect: str = "") -> None:
        self.home, self.seed, self.draw = home, seed, Random(seed)
        self.dialect = dialect or self.draw.choice(DIALECTS)
        # the word that is said of all mailboxes at once, if one is
        self.word = OF_ALL.get(self.dialect, "") if self.draw.random() < 0.4 else ""
        self.is_each_alone = self.dialect in WORDS and not self.word
        self.last = 0
        # the folder from which each known message came, and the names of its mailbox's folder by now
        self.known: dict[int, str] = {}
        self.boxes = dict(BOXES)
        self.edited: set[int] = set()
        # the mailboxes that were not empty, those of programs that keep flags, and whether Dovecot keeps UIDs in some
        self.filled: set[str] = set()
        self.keepers: dict[str, str] = {}
        self.has_uids = self.draw.random() < 0.3
        # what people did, and what delivers into the Maildir
        self.steps: list[str] = []
        self.programs = Deliveries(home.place, home.maildir).programs()

    def message(self, is_plain: bool = False) -> bytes:
        """A new message."""
        draw, self.last = self.draw, self.last + 1
        fields = draw.sample(FIELDS, draw.randrange(4))
        if is_plain:
            fields = [one for one in fields if not one.lower().startswith(b"content-length")]
        fields.insert(draw.randrange(len(fields) + 1), b"Message-ID: <%d@example.org>\n" % self.last)
        body = b"".join(draw.choices(LINES, k=draw.randrange(8)))
        body += (b"".join(LINES) + LONG_LINES) * 100 if draw.random() < 0.003 else b""
        if draw.random() < 0.2 and not is_plain:
            body = body[:-1]
        head = b"".join(fields)
        if draw.random() < 0.1 and not is_plain:
            head, body = head.replace(b"\n", b"\r\n"), body.replace(b"\r\n", b"\n").replace(b"\n", b"\r\n")
            return head + b"\r\n" + body
        if draw.random() < 0.05 and not is_plain:
            return head
        return head + b"\n" + body

    def begin(self) -> None:
        """Writes the mailboxes, and migrates them."""
        self.home.begin()
        for path in self.boxes.values():
            count = 0 if path.endswith("empty") else self.draw.randrange(1, 5)
            messages = [self.message(True) for _ in range(count)]
            messages = [one for one in messages if self.holds(one)]
            for one in messages:
                self.known[self.number_of(one)] = next(folder for folder, its in self.boxes.items() if its == path)
            text = b"".join(written(LINE, one, self.dialect) for one in self.kept(path, list(map(bare, messages))))
            if text and self.draw.random() < 0.3 and self.dialect not in ("mboxcl", "mboxcl2"):
                text = text[: -1 - (self.dialect == "crlf")]
            file = self.home.path / path
            file.parent.mkdir(parents=True, exist_ok=True)
            self.home.write(path, text)
            self.filled |= {path} if text else set()
        self.home.place.own(*self.home.path.rglob("*"))
        self.migrate("M")
        for folder in self.boxes:
            self.home.place.own(self.path(folder))

    def kept(self, path: str, messages: list[bytes]) -> list[bytes]:
        """Messages with what a program keeps in them, if one does. What the mailbox cannot hold has no such fields."""
        what = self.draw.random()
        if self.has_uids and what < 0.6:
            return with_numbers(messages)
        if what < 0.7 or self.has_uids or self.dialect in ("mboxo", "mboxcl2") or not messages:
            return messages
        program = self.keepers[path] = self.draw.choice(list(KEEPERS))
        flags = ["".join(self.draw.sample("DFPRST", self.draw.randrange(4))) for _ in messages]
        fields = [KEEPERS[program].fields(number, its) for number, its in enumerate(flags, 1)]
        return [with_fields(*pair) for pair in zip(messages, fields)]

    def migrate(self, maildir: str) -> list[Run]:
        """Migrates each mailbox, and must be done."""
        several = []
        for words in self.commands(maildir):
            words = ["migrate", "--json", "--now", "--jobs", "1", *["--dovecot"] * self.has_uids, *words]
            ran = self.home.place.run(words)
            if ran.status != 0 and '"no mail": 1' not in ran.output:
                raise Failed(f"{words}: {ran.status}: {ran.output}")
            several.append(ran)
        return several

    def commands(self, maildir: str) -> Iterator[list[str]]:
        """The words that migrate each mailbox. Unless each needs its own, all of a tree are migrated at once. The
        record knows the folder of a mailbox beside another one."""
        if not self.is_each_alone:
            yield [*(["--as", self.word] if self.word else []), maildir, "mail", "spool"]
            return
        for folder, path in self.paths().items():
            if (self.home.path / path).exists():
                place = self.place_of(folder) if maildir != "M" else "" if folder.endswith(BESIDE) else folder
                name = ["--folder", place[1:].replace(".", "/")] if place else []
                yield [*(WORDS[self.dialect] if path in self.filled else ()), *name, maildir, path]

    def holds(self, message: bytes) -> bool:
        """Whether a mailbox of the dialect can hold a message: mboxo reads a line `>From ` as one `From `, and nobody
        is to be asked how it is read: by its length, a line that looks like a From_ line belongs to a mail."""
        if self.dialect == "mboxo":
            return not re.search(rb"(?m)^>From ", message)
        return self.dialect != "mboxcl2" or not LIKE_FROM.search(message)

    def paths(self) -> dict[str, str]:
        """The mailboxes by their folders, with those of new folders, and those beside others."""
        paths = {**{folder: path for folder, path in NEW.items() if folder not in self.boxes}, **self.boxes}
        beside = {folder: path if folder else "mail/inbox" for folder, path in self.boxes.items()}
        return {**paths, **{folder + BESIDE: path + "-back" for folder, path in beside.items()}}

    def place_of(self, folder: str) -> str:
        """The folder of a new Maildir for the mailbox of a folder."""
        if self.is_each_alone and not folder.endswith(BESIDE):
            return folder
        path = self.paths()[folder]
        return "." + path.split("/", 1)[1].replace("/", ".") if "/" in path else {"spool": ""}.get(path, "." + path)

    def path(self, folder: str) -> Path:
        """The path of a folder."""
        return self.home.maildir / folder if folder else self.home.maildir

    @staticmethod
    def number_of(text: bytes) -> int:
        """The number of a message."""
        found = ID.search(text)
        if not found:
            raise Failed(f"no number: {text[:100]!r}")
        return int(found[1])

    def files(self, maildir: str = "M") -> Iterator[File]:
        """All mail."""
        root = self.home.path / maildir
        for folder, path in mail_below(root):
            text = path.read_bytes()
            its = "" if folder == root else folder.name
            yield File(its, path.parent.name, path.name, text, self.number_of(text))

    def file(self, one: File) -> Path:
        """The path of a file."""
        return self.path(one.folder) / one.sub / one.name

    def put(self, folder: str, text: bytes, name: str = "") -> None:
        """A program places a file."""
        for sub in ("tmp", "new", "cur"):
            (self.path(folder) / sub).mkdir(parents=True, exist_ok=True)
        info = self.draw.choice(INFO)
        path = self.path(folder) / ("cur" if info else "new") / ((name or f"17000.M{self.draw.random()}.host") + info)
        path.write_bytes(text)
        when = self.draw.randrange(10**9, 17 * 10**8)
        os.utime(str(path), (when, when))
        self.home.place.own(self.path(folder), *self.path(folder).glob("*"), path)

    def act(self, count: int) -> None:
        """People work in the Maildir."""
        for _ in range(count):
            there = list(self.files())
            one = self.draw.choice(there) if there else None
            what = self.draw.choice(["deliver"] * 5 + ["flag", "move", "move", "copy", "delete", "edit", "rename"])
            self.steps.append(f"({what} {one.folder}/{one.name})" if one and what != "deliver" else "(deliver)")
            if what == "deliver" and self.programs and self.draw.random() < 0.4:
                self.draw.choice(self.programs)(self.draw.choice(FOLDERS), self.message())
            elif what == "deliver" or not one:
                self.put(self.draw.choice(FOLDERS + [".sent.below"] * (self.draw.random() < 0.1)), self.message())
            elif what == "flag":
                before = one.name.partition(":")[0]
                self.file(one).rename(self.path(one.folder) / "cur" / (before + self.draw.choice(INFO[1:])))
            elif what in ("move", "copy") and one.number not in self.edited:
                keeps = self.draw.random() < 0.3 and what == "move"
                name = one.name.partition(":")[0] if keeps else ""
                if what == "move":
                    self.file(one).unlink()
                self.put(self.draw.choice(FOLDERS), one.text, name)
            elif what == "delete":
                self.file(one).unlink()
            elif what == "edit" and one.number in self.known:
                keeps = sum(each.number == one.number for each in there) == 1 and one.folder == self.known.get(
                    one.number
                )
                if keeps and re.match(r"[0-9a-f]{64}\.\d+(:|\Z)", one.name):
                    self.file(one).write_bytes(b"X-Scan: yes\n" + one.text)
                    self.edited.add(one.number)
            elif what == "rename" and self.boxes.get(".lists.b") in self.filled and self.draw.random() < 0.3:
                # nothing shows from which mailbox a folder came that had no mail
                self.path(".lists.b").rename(self.path(".renamed"))
                self.boxes[".renamed"] = self.boxes.pop(".lists.b")
                self.known = {number: ".renamed" if its == ".lists.b" else its for number, its in self.known.items()}

    def appended(self, one: File) -> Appended:
        """What is to be appended for a file."""
        sender = re.search(rb"(?m)^Return-Path: <([^>]*)>", one.text.replace(b"\r\n", b"\n").partition(b"\n\n")[0])
        flags = one.name.partition(":2,")[2]
        status = b"R" * ("S" in flags) + b"O" * (one.sub == "cur")
        letters = {"R": b"A", "F": b"F", "D": b"T", "T": b"D"}
        x_status = b"".join(sorted(letters[flag] for flag in flags if flag in letters))
        keeper = self.keeper_of(one.folder)
        kept = keeper.flags(keeper.fields(1, flags) + b"\n") if keeper else None
        return Appended(
            bare(one.text, keeper.names if keeper else ()),
            sender[1] if sender else b"MAILER-DAEMON",
            status,
            x_status,
            kept,
        )

    def keeper_of(self, folder: str) -> Optional[Keeper]:
        """The program that keeps flags in the mailbox of a folder, if one does."""
        return KEEPERS.get(self.keepers.get(self.paths()[folder], "")) if folder in self.paths() else None

    def wanted(self) -> "tuple[dict[str, typing.Counter[Appended]], list[File]]":
        """By folders, what is to be appended for certain; and the files of which all but one are."""
        several: collections.defaultdict[int, list[File]] = collections.defaultdict(list)
        for one in self.files():
            several[one.number].append(one)
        sure: collections.defaultdict[str, Counter[Appended]] = collections.defaultdict(Counter)
        any_of: list[File] = []
        for number, files in several.items():
            home = self.known.get(number)
            at_home = [one for one in files if one.folder == home]
            if home is None:
                for one in files:
                    sure[one.folder][self.appended(one)] += 1
            elif len(files) > 1:
                away = [one for one in files if one.folder != home]
                for one in away if at_home else []:
                    sure[one.folder][self.appended(one)] += 1
                any_of += at_home if len(at_home) > 1 else [] if at_home else files
        return dict(sure), any_of


def text_at(path: Path) -> bytes:
    """What a file has; nothing if there is none."""
    return path.read_bytes() if path.exists() else b""


def tail_of(before: bytes, after: bytes) -> bytes:
    """What was appended to a mailbox, which must have stayed as it was, but for numbers in the first header. A line
    that had not ended may have ended."""
    start = len(b"".join(parted(before)[0]))
    if not after[start:].startswith(before[start:]) or bare(after[:start]) != bare(before[:start]):
        raise Failed("what was there before has changed")
    tail = after[len(before) :]
    while before and tail.startswith((b"\n", b"\r\n")):
        tail = tail[1 + tail.startswith(b"\r") :]
    return tail


def shown_of(from_line: bytes, message: bytes, keeper: Optional[Keeper]) -> Appended:
    """A message that was appended, to a mailbox in which a program may keep flags."""
    words = from_line.split(b" ")
    stamp = time.strptime(b" ".join(words[2:]).strip().decode(), "%a %b %d %H:%M:%S %Y")
    assert stamp.tm_year >= 1970, from_line
    x_status = bytes(sorted(field_of(message, b"X-Status")))
    kept = keeper.flags(message) if keeper else None
    return Appended(
        bare(message, keeper.names if keeper else ()), words[1], field_of(message, b"Status"), x_status, kept
    )


def flags_of(message: bytes, keeper: Optional[Keeper], by_dovecot: bool) -> str:
    """The flags that `migrate` gives a message of a mailbox; with --dovecot, drafts too."""
    value = field_of(message, b"Status") + field_of(message, b"X-Status")
    flags = {flag for letter, flag in LETTERS.items() if letter in value and (flag != "D" or by_dovecot)}
    return "".join(sorted({*flags, *((keeper.flags(message) or "") if keeper else "")}))
