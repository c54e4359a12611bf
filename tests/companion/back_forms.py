"""mbox2maildir-admin back: messages of odd forms at the beginning, in the middle and at the end of what is new. Each
goes into its mailbox or beside it, a rehearsal says the same, and nothing empty is left behind. The list of
subscriptions names mailboxes that are there then."""
import os
import re
from collections.abc import Iterable, Iterator, Mapping, Sequence
from pathlib import Path
from typing import NamedTuple, Optional

from tests.support.archives import Home, letter, letters, run_rules, texts_of
from tests.support.checks import equal
from tests.support.running import Row, Run
from tests.support.splitter import split
from tests.worlds.back.programs import KEEPERS, Keeper
from tests.worlds.letters import bare

# first lines that are no header
ODD = {
    "text": b"hello world\nmore\n",
    "text alone": b"hello world",
    "an empty line": b"\n\nbody\n",
    "an empty line in CR LF": b"\r\nbody\r\n",
    "a mark": b">From x\nSubject: quoted\n\nbody\n",
    "a name in 8 bits": b"S\xfcbject: x\nTo: me\n\nbody\n",
    "a byte order mark": b"\xef\xbb\xbfSubject: x\n\nbody\n",
    "NULs": b"\0\0\0\0Subject: x\n\nbody\n",
    "a length alone": b"Content-Length: 5\n\nbody\n",
    "nothing": b"",
}
# one that no field of a program can precede
BLANK = b" Subject: blank\n\nbody\n"
# mail within a line, about which each mailbox is asked
JOINED = b"Subject: joined\n\nthe endFrom a@b Mon Mar  3 09:12:44 2025\nFrom: x\nSubject: y\n\nbody\n"
# one that Thunderbird has marked as deleted, about which each mailbox is asked that has nothing else
DELETED = b"Subject: deleted\nX-Mozilla-Status: 0009\n\nbody\n"
PLAIN = [b"Subject: plain %d\n\nFrom me\n" % number for number in range(3)]
OLD = letters(1, 2)
# the mailboxes by their folders, each with the place that an odd message has among plain ones
PLACES = {"": ("spool", 0), ".middle": ("mail/middle", 1), ".end": ("mail/end", 3)}
PATHS = [path for path, _ in PLACES.values()]
BOXES = dict.fromkeys(PATHS, OLD)
# the fields in which programs note what they know of a message: those of any mailbox, and those of single programs
ANY = "any"
FIELDS = {
    ANY: b"Content-Length: 9\nStatus: RO\nX-Status: A\nX-UID: 7\nX-Keywords: a\n b\nX-IMAPbase: 1 2\nX-IMAP: 1 2\n",
    "Thunderbird": b"X-Mozilla-Status: 0001\nX-Mozilla-Status2: 00000000\nX-Mozilla-Keys: work\n",
    "Evolution": b"X-Evolution: 00000001-0010\n",
    "Gmail": b"X-GM-THRID: 1785134556187161\nX-Gmail-Labels: Inbox,\n Opened\n",
    "mutt": b"Lines: 1\n",
}
DAY = 86400
# mailboxes by their formats, and the answer that gives these; new mail; and what goes beside: the first would lose its
# `>`, the next ones would leave it open whether lengths are right in the mailbox, and the last would keep each `>`
INSIDE = b"hello\n\nFrom the shed.\n"
BY_LENGTH = letter(1, b"Content-Length: %d\n" % len(INSIDE), INSIDE)
FORMATS = {
    "": {
        "mboxrd": OLD,
        "mboxcl2": BY_LENGTH,
        "mboxcl2-part": BY_LENGTH + letters(2),
        "mboxcl2-quoted": BY_LENGTH + letter(2, body=b">From afar\n"),
    },
    "--as mboxo": {"mboxo": OLD},
    "--as mboxcl": {"mboxcl": BY_LENGTH + letters(2)},
    "--as mboxcl2": {"mboxcl2": OLD},
    "--as unquoted": {"unquoted": OLD},
}
LINES = {
    "none": b"Subject: new\n\nhello\n",
    "from": b"Subject: new\n\nhello\nFrom here on\n",
    "quoted": b"Subject: new\n\nhello\n>From here on\n",
    "twice": b"Subject: new\n\nhello\n>>From here on\n",
}
IN_PART = "mboxcl2-part", "mboxcl2-quoted"
GO_BESIDE = {
    "": {(name, line) for name in IN_PART for line in ("quoted", "twice")},
    "--as mboxcl": {("mboxcl", "quoted"), ("mboxcl", "twice")},
    "--as mboxo": {("mboxo", "quoted")},
    "--as unquoted": {("unquoted", line) for line in LINES},
}


class Told(NamedTuple):
    """What a row says: the mailbox, why it is left, how many messages go back, which files it names, and which fields
    it says that they lack."""

    path: str
    reason: str = ""
    messages: int = 0
    files: tuple[str, ...] = ()
    fields: str = ""


class House:
    """A home whose mailboxes were migrated, and in whose Maildir mail came since. Each run is told the words, and
    that of `migrate` the answer too."""

    def __init__(
        self, home: Home, boxes: Optional[Mapping[str, bytes]] = None, words: Sequence[str] = (), answer: str = ""
    ) -> None:
        self.home, self.boxes, self.words = home, boxes or BOXES, words
        home.begin("--jobs", "1", *words)
        for path, text in self.boxes.items():
            home.write(path, text)
        home.place.own(home.path / "mail")
        home.done("spool", "mail", words=answer.split())

    def deliver(self, mails: Iterable[bytes], folder: str = "", first: int = 0) -> None:
        """Mail comes, one after the other."""
        place = self.home.maildir / folder
        for sub in ("tmp", "new", "cur"):
            (place / sub).mkdir(parents=True, exist_ok=True)
        for number, text in enumerate(mails, first):
            path = place / f"new/{number}.M1.host"
            path.write_bytes(text)
            os.utime(path, ((number + 1) * DAY,) * 2)
        self.home.place.own(place, *place.rglob("*"))

    def deliver_among(self, odd: bytes) -> None:
        """A message comes among plain ones, at another place in each folder."""
        for folder, (_, at) in PLACES.items():
            self.deliver([*PLAIN[:at], odd, *PLAIN[at:]], folder)

    def texts(self) -> dict[str, bytes]:
        """The mailboxes, and what is in them."""
        top = self.home.path
        paths = [top / "spool", *sorted(path for path in (top / "mail").rglob("*") if path.is_file())]
        return {str(path.relative_to(top)): path.read_bytes() for path in paths}

    def back(self, status: int = 0) -> list[Told]:
        """Goes back. A rehearsal writes nothing, and says the same; a second run has nothing to do; no mailbox is
        empty."""
        before = self.texts()
        dry, texts = self.run("--dry-run"), self.texts()
        equal("what a rehearsal writes", texts, before)
        ran, texts = self.run(), self.texts()
        equal("the statuses", (dry.status, ran.status), (status, status))
        equal("what the rehearsal says", told(dry), told(ran))
        equal("a second run", (self.run().status, self.texts()), (status, texts))
        equal("what is empty", [path for path, text in texts.items() if not text], [])
        return told(ran)

    def run(self, *words: str) -> Run:
        """Runs the way back."""
        return self.home.place.run(["back", "--json", "--now", *self.words, *words, "M", "spool", "mail"])

    def has(self, wanted: dict[str, list[bytes]]) -> None:
        """The mail that was appended to each mailbox, in its order, and a new Maildir gets all of it unasked."""
        found = {path: text.replace(self.boxes.get(path, b""), b"") for path, text in self.texts().items()}
        mails = {path: [*map(bare, split(text, "mboxrd"))] for path, text in found.items()}
        equal("the mail", mails, {path: [*map(bare, several)] for path, several in wanted.items()})
        ran = self.home.place.run(["migrate", "--json", "--now", "N", "spool", "mail"])
        equal("a new Maildir", (ran.status, [row["reason"] for row in ran.rows if row["reason"]]), (0, []))


def told(ran: Run) -> list[Told]:
    """What the rows of a run say about which there is something to say."""
    rows = [Told(row["path"], row["reason"] or "", row["messages"], files_in(row), fields_in(row)) for row in ran.rows]
    return sorted(row for row in rows if row.reason or row.messages)


def fields_in(row: Row) -> str:
    """The fields that a row says were left out."""
    found = re.search(r"fields left out of 1 message: ([^;]*)", texts_of(row))
    return found[1] if found else ""


def files_in(row: Row) -> tuple[str, ...]:
    """The files that a row names."""
    return tuple(sorted({*re.findall(r"M/\S*new/[^\s,;]+", texts_of(row))}))


def first_lines(home: Home) -> None:
    """Each goes into its mailbox, between the others: a field of its own precedes it there."""
    for odd in ODD.values():
        house = House(home)
        house.deliver_among(odd)
        rows = [row._replace(fields="") for row in house.back()]
        equal(f"{odd!r}: rows", rows, sorted(Told(path, messages=4) for path in PATHS))
        house.has({path: [*PLAIN[:at], odd, *PLAIN[at:]] for path, at in PLACES.values()})


def a_blank(home: Home) -> None:
    """What begins with a blank goes beside, into a mailbox of its own, by the name of its file, and all else into the
    mailbox."""
    house = House(home)
    house.deliver_among(BLANK)
    boxes = list(beside())
    wanted = [Told(path, messages=3) for path, _, _ in boxes]
    others = [Told(other, messages=1, files=(file,)) for _, other, file in boxes]
    equal("rows", house.back(), sorted(wanted + others))
    house.has({name: mails for path, other, _ in boxes for name, mails in ((path, PLAIN), (other, [BLANK]))})


def beside() -> Iterator[tuple[str, str, str]]:
    """Each mailbox, the one beside it, and the file of the odd message."""
    for folder, (path, at) in PLACES.items():
        other = f"{path}-back" if folder else "mail/inbox-back"
        yield path, other, str(Path("M", folder, f"new/{at}.M1.host"))


def several_blanks(home: Home) -> None:
    """Each has a mailbox of its own, also if one came later."""
    house = House(home)
    one, two, three = (b" Subject: %s\n\nbody\n" % name for name in (b"one", b"two", b"three"))
    house.deliver([one, *PLAIN, two])
    boxes = ["mail/inbox-back", "mail/inbox-back-2", "mail/inbox-back-3"]
    files = [f"M/new/{number}.M1.host" for number in (0, 4, 9)]
    rows = [Told(path, messages=1, files=(file,)) for path, file in zip(boxes, files)]
    equal("rows", house.back(), [*rows[:2], Told("spool", messages=3)])
    house.deliver([three], first=9)
    equal("rows later", house.back(), rows[2:])
    house.has({"spool": PLAIN, "mail/middle": [], "mail/end": [], **dict(zip(boxes, ([one], [two], [three])))})


def an_empty_mailbox(home: Home) -> None:
    """The first message of a text may have any first line."""
    house = House(home, dict.fromkeys(PATHS, b""))
    house.deliver_among(BLANK)
    house.deliver([BLANK], ".lists.one")
    equal("rows", {row.path: row.messages for row in house.back()}["mail/lists/one"], 1)
    texts = house.texts()
    equal("the first ones", [b"\n Subject: blank\n" in texts[path] for path in ("spool", "mail/lists/one")], [True] * 2)


def line_ends(home: Home) -> None:
    """What goes back into a mailbox whose lines end in CR LF has such lines too, also where a file has none."""
    house = House(home, {**BOXES, "spool": OLD.replace(b"\n", b"\r\n")})
    house.deliver([*PLAIN, PLAIN[0].replace(b"\n", b"\r\n")])
    equal("rows", [row.messages for row in house.back()], [4])
    equal("lines that end in LF alone", re.findall(rb"(?m)^.*(?<!\r)$\n", house.texts()["spool"]), [])


def marked_as_deleted(home: Home) -> None:
    """A message that Thunderbird has marked as deleted would be asked about in a new mailbox whose other messages all
    have its field. It holds up none of these, and goes back once they are there, since they are Thunderbird's then."""
    house = House(home)
    marks = b"0001", b"0009", b"0000"
    house.deliver([b"Subject: %s\nX-Mozilla-Status: %s\n\nyes\n" % (mark, mark) for mark in marks], ".new")
    ran = [told(house.run(*words.split())) for words in ("--dry-run", "", "")]
    stays = Told("mail/new-back", "not-held", 0, ("M/.new/new/1.M1.host",))
    equal("two runs", ran[:2], [[Told("mail/new", messages=2), stays]] * 2)
    equal("a third one", ran[2], [Told("mail/new", messages=1, fields="X-Mozilla-Status")])


def without_dates(home: Home) -> None:
    """A mailbox whose From_ lines have no date takes no line with one. All goes beside it."""
    old = re.sub(rb"(?m)^(From \S+) .*$", rb"\1", OLD)
    house = House(home, dict.fromkeys(PATHS, old))
    house.deliver(PLAIN)
    equal("rows", house.back(), [Told("mail/inbox-back", messages=3)])
    house.has({**dict.fromkeys(PATHS, []), "mail/inbox-back": PLAIN})
    # nor does that one, once it has none either
    (home.path / "mail/inbox-back").write_bytes(old)
    house.deliver(PLAIN[:1], first=9)
    equal("rows later", house.back(1), [Told("mail/inbox-back", "not-held", 1, ("M/new/9.M1.host",))])


def without_an_end(home: Home) -> None:
    """The length of the last message leaves out its last line end, as where mutt has copied one that had none."""
    text, last = (letter(number, b"Content-Length: 6\n", body) for number, body in ((1, b"hello\n"), (2, b"no end\n")))
    house = House(home, dict.fromkeys(PATHS, text + last[:-1]))
    new = b"Subject: new\n\nnew\n"
    house.deliver([new])
    equal("rows", house.back(), [Told("spool", messages=1)])
    house.has({**dict.fromkeys(PATHS, []), "spool": [new]})


def a_line_in_a_header(home: Home) -> None:
    """Where lengths are right nothing is quoted, and mail with a line `From ` in its header would be two: it goes
    beside."""
    body = b"hello\nFrom the shed.\n"
    house = House(home, dict.fromkeys(PATHS, letter(1, b"Content-Length: %d\n" % len(body), body)))
    plain, odd = b"Subject: plain\n\nhello\n", b"From x@y Mon Mar  3 09:12:44 2025\nSubject: odd\n\nbody\n"
    house.deliver([plain, odd])
    rows = [Told("mail/inbox-back", messages=1, files=("M/new/1.M1.host",)), Told("spool", messages=1)]
    equal("rows", house.back(), rows)
    house.has({**dict.fromkeys(PATHS, []), "spool": [plain], "mail/inbox-back": [odd]})


def lines_like_from(home: Home) -> None:
    """Lines `From `, with `>` and without, come into mailboxes of each format. The rehearsal says where they go, and
    they are there as they were, as the format of that mailbox has them."""
    for answer, boxes in FORMATS.items():
        paths = {f"mail/{name}-{line}": (name, line) for name in boxes for line in LINES}
        texts = {path: boxes[name] for path, (name, _) in paths.items()}
        house = House(home, {"spool": OLD, **texts}, answer=answer)
        for path, (_, line) in paths.items():
            house.deliver([LINES[line]], f".{Path(path).name}")
        beside_it = GO_BESIDE.get(answer, ())
        wanted = {path: f"{path}-back" if its in beside_it else path for path, its in paths.items()}
        equal(f"{answer}: rows", [row.path for row in house.back()], sorted(wanted.values()))
        for path, (name, line) in paths.items():
            word = name.split("-")[0] if wanted[path] == path else "mboxrd"
            found = split(house.texts()[wanted[path]], word)[-1]
            equal(f"{answer}: the mail in {wanted[path]}", bare(found), LINES[line])


def decided_again(home: Home) -> None:
    """What was decided about several mailboxes is decided again by who migrates next: mail that went back then comes as
    it was. So it does from a mailbox that was made for Dovecot, which has lengths, whatever is decided."""
    house = House(home, {"spool": OLD, "mail/old": OLD}, ["--dovecot"], "--as mboxcl2")
    for folder in ("", ".new"):
        house.deliver(LINES.values(), folder)
    house.back()
    for words, maildir, folder in (("--as mboxcl2", "A", "**"), ("", "B", ".new"), ("--as mboxo", "C", ".new")):
        home.place.run(["migrate", "--json", "--now", *words.split(), maildir, "spool", "mail"])
        there = {bare(path.read_bytes()) for path in (home.path / maildir).glob(f"{folder}/[nc]*/*")}
        equal(f"{words}: what {maildir} lacks", set(LINES.values()) - there, set())


def held_by_none(home: Home) -> None:
    """What no mailbox holds stays in the Maildir, by the name of its file; all else goes back. No mailbox is made for
    it."""
    house = House(home)
    house.deliver_among(JOINED)
    house.deliver([JOINED], ".new")
    stay = [*((other, file) for _, other, file in beside()), ("mail/new", "M/.new/new/0.M1.host")]
    wanted = [Told(path, messages=3) for path in PATHS]
    equal("rows", house.back(1), sorted([*wanted, *(Told(path, "not-held", 0, (file,)) for path, file in stay)]))
    house.has({path: PLAIN for path in PATHS})


def fields_of_programs(home: Home) -> None:
    """Fields stay in mail, but those by which any mailbox is read, and those of a program that has its own in each
    message of the mailbox. The row names what is left out."""
    head, end = b"Subject: new\n", b"\nnew\n"
    boxes = {f"mail/{name}": numbered(keeper, 1, 26) for name, keeper in KEEPERS.items()}
    boxes.update({"spool": OLD, "mail/doubt": numbered(KEEPERS["Thunderbird"], 1) + letters(2)})
    house = House(home, boxes)
    for path in (*boxes, "mail/new"):
        house.deliver([head + b"".join(FIELDS.values()) + end], "" if path == "spool" else f".{Path(path).name}")
    rows = {row.path: row for row in house.back()}
    for path, text in house.texts().items():
        name = Path(path).name
        (message,) = split(text.replace(boxes.get(path, b""), b""), "mboxrd")
        own = KEEPERS[name].names if name in KEEPERS else ()
        there = [one for one in names_in(message) if one.lower().encode() in own]
        equal(f"{path}: the program's own", len(there), len({*there}))
        equal(f"{path}: the number after 26", b"X-Evolution: 0000001b-" in message, name == "Evolution")
        kept = b"".join(fields for program, fields in FIELDS.items() if program not in (ANY, name))
        equal(f"{path}: what stays", bare(message, own), head + kept + end)
        gone = [names_in(fields) for program, fields in FIELDS.items() if program in (ANY, name)]
        equal(f"{path}: left out", rows[path], Told(path, messages=1, fields=", ".join(sum(gone, []))))


def subscriptions(home: Home) -> None:
    """The list of the tree gets those folders that have a mailbox there, and the mailboxes beside these. It keeps what
    it had. It gets the same if a run was killed before it had all."""
    boxes = {"spool": OLD, "mail/a": OLD, "mail/b": OLD, "mail/.subscriptions": b"a\nelsewhere\n"}
    house = House(home, boxes, ["--dovecot"])
    for folder in (".new", ".lists.one"):
        house.deliver(PLAIN, folder)
    for folder in ("", ".a", ".b"):
        house.deliver([BLANK], folder)
    for folder in (".empty", ".stays"):
        house.deliver([], folder)
    house.deliver([DELETED], ".stays")
    with open(home.maildir / "subscriptions", "ab") as file:
        file.write(b"INBOX\nnew\nlists\tone\nempty\nstays\nnowhere\n")
    ran = [house.run("--dry-run"), house.run()]
    wanted = b"a\nelsewhere\nINBOX\nnew\nlists/one\ninbox-back\na-back\n"
    equal("the list", house.texts()["mail/.subscriptions"], wanted)
    home.write("mail/.subscriptions", b"a\nelsewhere\n")
    ran.append(house.run())
    equal("the list of another run", house.texts()["mail/.subscriptions"], wanted)
    says = [one.rows[-1]["remarks"][0]["says"] for one in ran]
    equal("what is said", says, ["subscribed to 7 folders"] * 3)


def numbered(keeper: Keeper, *numbers: int) -> bytes:
    """Messages in which a program keeps flags."""
    return b"".join(letter(number, keeper.fields(number, "")) for number in numbers)


def names_in(header: bytes) -> list[str]:
    """The names of the fields of a header."""
    return re.findall(r"(?m)^([\w-]+):", header.decode())


if __name__ == "__main__":
    cases = (
        first_lines,
        a_blank,
        several_blanks,
        an_empty_mailbox,
        line_ends,
        marked_as_deleted,
        without_dates,
        without_an_end,
        a_line_in_a_header,
        lines_like_from,
        decided_again,
        held_by_none,
        fields_of_programs,
        subscriptions,
    )
    run_rules({case.__name__: case for case in cases})
