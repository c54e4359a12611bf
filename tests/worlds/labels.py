"""Random Takeouts of Gmail, which `migrate --labels` brings into folders, against a model that knows the labels of each
message as they were before they were written: labels in several encodings, equal messages, runs that are killed at any
moment, a later Takeout in the place of the first or beside it, labels that senders wrote, mail that people deleted, and
the undo."""
import base64
import collections
from collections import Counter
from collections.abc import Container, Mapping, Sequence
from dataclasses import dataclass, field
from random import Random
from typing import NamedTuple, Optional

from tests.support.place import ENDED
from tests.support.running import NEVER, Kill, Row, Run
from tests.support.splitter import split
from tests.worlds.history import Box, History
from tests.worlds.oracle import INBOX, Counts, Oracle, Reading, reading_of, total
from tests.worlds.stage import Stage

# what Gmail's own labels give, by the names in a Takeout: a folder, or nothing
OWN: dict[str, Optional[str]] = {
    "Inbox": "",
    "Sent": ".Sent",
    "Drafts": ".Drafts",
    "Draft": ".Drafts",
    "Spam": ".Junk",
    "Trash": ".Trash",
    **dict.fromkeys(["Archived", "Opened", "Unread", "Starred", "Important", "Category Updates", "Muted"]),
}
# the same in other languages, as far as messages have such labels
GERMAN: dict[str, Optional[str]] = {
    "Posteingang": "",
    "Gesendet": ".Sent",
    "Entw\u00fcrfe": ".Drafts",
    "Spam": ".Junk",
    "Papierkorb": ".Trash",
    **dict.fromkeys(["Archiviert", "Ge\u00f6ffnet", "Ungelesen", "Wichtig"]),
}
DUTCH: dict[str, Optional[str]] = {"Concepten": ".Drafts", "Spam": ".Junk"}
# in this order a message gets one folder
ORDER = ("", ".Sent", ".Drafts", ".Junk", ".Trash")
# labels of people, and the folders that they give: dots are hyphens, a slash is a dot, and the rest is modified UTF-7
PEOPLE = {
    "Work": ".Work",
    "Work/A": ".Work.A",
    "Work/A/b c": ".Work.A.b c",
    "a.b": ".a-b",
    "a-b": ".a-b",
    "Gr\u00fc\u00dfe": ".Gr&APwA3w-e",
    "\u65e5\u672c/\u8a9e": ".&ZeVnLA-.&ip4-",
    "bills, old": ".bills, old",
    "R&D": ".R&-D",
    "~x": ".-x",
    "Archive": ".Archive",
    "Junk": ".Junk",
    "Concepten": ".Concepten",
    "Inbox/sub": ".INBOX.sub",
    'say "x"': '.say "x"',
}
# what names in German give where nothing shows that they are Gmail's
UNKNOWN = {
    "Posteingang": ".Posteingang",
    "Gesendet": ".Gesendet",
    "Entw\u00fcrfe": ".Entw&APw-rfe",
    "Papierkorb": ".Papierkorb",
    "Archiviert": ".Archiviert",
    "Ge\u00f6ffnet": ".Ge&APY-ffnet",
    "Ungelesen": ".Ungelesen",
    "Wichtig": ".Wichtig",
}
# the folders and the marks that messages have, in English and in German
GMAIL = {
    False: (
        ("Inbox", "Sent", "Drafts", "Draft", "Spam", "Trash"),
        [one for one, gives in OWN.items() if gives is None],
    ),
    True: (
        ("Posteingang", "Gesendet", "Entw\u00fcrfe", "Spam", "Papierkorb"),
        ("Archiviert", "Ge\u00f6ffnet", "Ungelesen", "Wichtig"),
    ),
}
# fields that a sender wrote
SENT = [b"", b"", b"X-Gmail-Labels: Trash,Spam\n", b"x-gm-thrid: 1\nX-Gmail-Labels: Evil\n"]
# the number of things that a run of the smallest Takeout does, and of a larger one, as Python reports them
EVENTS = 40, 1500


class Message(NamedTuple):
    """A message by its number, its labels in their order, and what its sender wrote."""

    number: int
    labels: list[str]
    sent: bytes = b""

    @property
    def name(self) -> bytes:
        """Its Message-ID."""
        return b"%d@example.com" % self.number

    def text(self, draw: Random) -> bytes:
        """The message as it is in a Takeout."""
        thread = 1 << 60 | self.number
        head = b"From %d@xxx Mon Mar 03 09:12:%02d +0000 2025\n" % (thread, self.number % 60)
        fields = b"X-GM-THRID: %d\nX-Gmail-Labels: %s\n" % (thread, spelled(self.labels, draw))
        sent = b"From: a@example.com\nSubject: %d\nMessage-ID: <%s>\n" % (self.number, self.name)
        return head + fields + sent + self.sent + b"\nhello %d\n\n" % self.number


def spelled(labels: Sequence[str], draw: Random) -> bytes:
    """Labels as a field has them: with commas in quotes, and as one or several encoded words."""
    text = ",".join('"%s"' % one.replace('"', '""') if "," in one or '"' in one else one for one in labels)
    way = draw.choice(["q", "b", "folded", "raw"]) if not text.isascii() or draw.random() < 0.2 else "plain"
    data = text.encode()
    if way in ("plain", "raw"):
        return data
    if way == "b":
        return b"=?UTF-8?B?" + base64.b64encode(data) + b"?="
    # a letter may have its bytes in two words
    pieces = [data[at : at + 13] for at in range(0, len(data), 13)] if way == "folded" else [data]
    return b"\n ".join(b"=?utf-8?Q?" + b"".join(map(quoted, piece)) + b"?=" for piece in pieces)


def quoted(byte: int) -> bytes:
    """A byte in an encoded word."""
    return bytes([byte]) if bytes([byte]).isalnum() or byte == 0x2C else b"_" if byte == 0x20 else b"=%02X" % byte


def language_of(messages: Sequence[Message]) -> Mapping[str, Optional[str]]:
    """What the names of the language give that a Takeout is in: that of its word for Inbox, or the only one that has a
    name for each message, and all names that are Gmail's."""
    several = [set(message.labels) for message in messages]
    there = {label for labels in several for label in labels}
    if "Inbox" in there or "Posteingang" in there:
        return OWN if "Inbox" in there else GERMAN
    gmails = there & {*OWN, *GERMAN, *DUTCH}
    found = (its for its in (OWN, GERMAN, DUTCH) if gmails <= its.keys() and all(its.keys() & one for one in several))
    return next(found, OWN)


@dataclass
class Model:
    """The folders into which messages go, by the option that was given, and what was said of labels."""

    option: str
    is_german: bool
    said: dict[str, str] = field(default_factory=dict)

    def own(self, names: Mapping[str, Optional[str]], before: Container[str]) -> Mapping[str, Optional[str]]:
        """What Gmail's own labels give in a Takeout that has had these folders before, by their names in the languages
        that were found."""
        kept = [label for label in names if label not in OWN and {**PEOPLE, **UNKNOWN}[label] in before]
        return {one: gives for one, gives in names.items() if one not in kept and self.said.get(one) != "folder"}

    def asked(
        self, messages: Sequence[Message], names: Mapping[str, Optional[str]], before: Container[str]
    ) -> list[str]:
        """The labels about which a human is asked: one that has its folder keeps it."""
        counts = Counter(label for message in messages for label in set(message.labels))
        known = {*self.own(names, before), *self.said}
        new = [one for one in counts if one not in known and {**PEOPLE, **UNKNOWN}[one] not in before]
        return [one for one in new if 2 * counts[one] > len(messages)]

    def folders(
        self, messages: Sequence[Message], names: Mapping[str, Optional[str]], before: Container[str]
    ) -> dict[str, list[int]]:
        """The folders of a Takeout, each with the places of its messages."""
        own = self.own(names, before)
        found: collections.defaultdict[str, list[int]] = collections.defaultdict(list)
        for place, message in enumerate(messages):
            labels = [one for one in message.labels if self.said.get(one) != "none"]
            people = [{**PEOPLE, **UNKNOWN}[one] for one in labels if one not in own]
            gmail = [one for one in ORDER if one in [own[label] for label in labels if label in own]]
            wanted = list(dict.fromkeys(people + gmail)) or [".Archive"]
            for name in wanted[:1] if self.option == "one" else wanted:
                found[name[1:].replace(".", "/") or INBOX].append(place)
        return found

    def labels(self, draw: Random) -> list[str]:
        """The labels of a message."""
        gmail, marks = GMAIL[self.is_german]
        labels = draw.sample(gmail, draw.choice([0, 1, 1, 1, 2])) + draw.sample(marks, draw.randrange(3))
        labels += draw.sample(sorted(PEOPLE), draw.choice([0, 0, 1, 1, 2, 3]))
        draw.shuffle(labels)
        return labels

    def takeout(self, draw: Random) -> list[Message]:
        """The messages of a Takeout, some of them twice, some with labels that senders wrote."""
        messages = [Message(number, self.labels(draw), draw.choice(SENT)) for number in range(draw.randrange(1, 9))]
        for message in draw.sample(messages, min(len(messages), draw.choice([0, 0, 1, 2]))):
            again = message.labels if draw.random() < 0.5 else self.labels(draw)
            messages.insert(draw.randrange(len(messages) + 1), message._replace(labels=again))
        return messages

    def later(self, draw: Random, messages: Sequence[Message]) -> list[Message]:
        """A later Takeout: some labels changed, at most two messages are gone, and some are new."""
        kept = list(messages)
        for _ in range(draw.choice([0, 0, 1, 2])):
            if len(kept) > 1:
                kept.pop(draw.randrange(len(kept)))
        found = [one._replace(labels=self.labels(draw)) if draw.random() < 0.4 else one for one in kept]
        for number in range(20, 20 + draw.randrange(3)):
            found.insert(draw.randrange(len(found) + 1), Message(number, self.labels(draw)))
        return found


class Labels(History):
    """A Maildir, into which a Takeout goes, and a later one."""

    IS_SERVED = False

    def __init__(self, stage: Stage, seed: int) -> None:
        super().__init__(stage, seed)
        self.oracle = Oracle(self.maildir, is_one=True, may_come_back=False)
        self.model = Model(self.draw.choice(["", "", "all", "one"]), self.draw.random() < 0.3)
        # what each Takeout has for each folder
        self.parted: dict[Box, dict[str, Reading]] = {}
        # what names give in the languages that were found in it, and in English
        self.names: collections.defaultdict[Box, dict[str, Optional[str]]] = collections.defaultdict(OWN.copy)
        # the Message-IDs that each has ever had for each folder
        self.ids: collections.defaultdict[tuple[Box, str], Counts] = collections.defaultdict(Counter)

    def options(self) -> list[str]:
        """The options of a run."""
        words = ["--labels", *filter(None, [self.model.option])]
        return words + [word for label, gives in self.model.said.items() for word in ("--label", f"{label}={gives}")]

    def boxes_of(self, words: Sequence[str]) -> list[Box]:
        return [box for box in self.boxes if box.path in words]

    def sees(self, box: Box) -> None:
        for folder, one in self.parted.get(box, {}).items():
            self.oracle.see(box.number, folder, [one])
            self.ids[box, folder] |= one.ids
        # a message may be in several folders, also in those into which an earlier Takeout brought it
        self.oracle.all.had[box.number] = total(ids for (its, _), ids in self.ids.items() if its == box)

    def check(self, ran: Run, rows: dict[str, Row]) -> None:
        for row in ran.rows:
            box = next(box for box in self.boxes if box.path == row["path"])
            if row["verdict"] in ENDED and row["folder"] in self.parted.get(box, {}):
                lines = self.oracle.missing(row, self.parted[box][row["folder"]])
                # what a killed run has noted, it may have been about to say
                self.wrong += [line for line in lines if not line.endswith("unsaid")]

    def ends(self, status: int, box: Box, *words: str) -> Run:
        """Runs it, which ends with this status."""
        ran = self.run(["migrate", "--json", "--now", *words, "Maildir", box.path])[0]
        done = {row["folder"] for row in ran.rows if row["verdict"] in ENDED}
        if ran.status != status or status == 0 and done != {*self.parted[box]}:
            self.wrong.append(f"status {ran.status} in place of {status}, or other folders: {done}")
        return ran

    def killed(self, box: Box, *words: str) -> None:
        """Kills a run at any moment."""
        kill = Kill(event=self.draw.randrange(*EVENTS))
        self.run(["migrate", "--json", "--now", *words, "Maildir", box.path], kill)

    def bring(self, box: Box, messages: list[Message]) -> None:
        """Migrates a Takeout, after questions and kills, and once more."""
        texts = [message.text(self.draw) for message in messages]
        self.place.write(box.path, b"".join(texts))
        self.steps.append(f"{box.path} has {[(one.number, one.labels) for one in messages]}")
        before = ["." + name.replace("/", ".") for name in self.parted.pop(box, {})]
        names = self.names[box]
        names.update(language_of(messages))
        asked = self.model.asked(messages, names, before)
        if asked:
            self.ends(1, box, *self.options())
            self.model.said.update({label: self.draw.choice(["none", "folder"]) for label in asked})
        mails = [split(text, "mboxrd")[0] for text in texts]
        folders = self.model.folders(messages, names, before).items()
        self.parted[box] = {name: reading_of([mails[place] for place in places]) for name, places in folders}
        for _ in range(self.draw.choice([0, 1, 1, 2])):
            self.killed(box, *self.options())
        for _ in range(2):
            self.ends(0, box, *self.options())

    def delete(self) -> None:
        """A reader deletes a file."""
        files = [path for _, path in self.oracle.files()]
        if files:
            self.stage.remove(self.draw.choice(files))
            self.oracle.look()

    def verify(self, box: Box) -> None:
        """Each message must be there, by `verify` too."""
        ran = self.place.run(["verify", "--json", "Maildir", box.path])
        self.stage.told(ran, "verify", "Maildir", box.path)
        if ran.status or {one["folder"] for one in ran.rows} != {*self.parted[box]}:
            self.wrong.append("not verified")

    def undo(self) -> None:
        """Undoes all. Of a Takeout that took another one's place, what it no longer has stays."""
        box = self.boxes[-1]
        has = reading_of(split(self.text_of(box), "mboxrd")).contents
        stays = {name: its.seen - has for name, its in self.oracle.shelves.items() if len(self.boxes) == 1}
        for one in self.draw.sample(self.boxes, len(self.boxes)):
            for kill in [Kill(event=self.draw.randrange(*EVENTS))] * (self.draw.random() < 0.4) + [NEVER]:
                words = ["migrate", "--json", "--now", "--undo", "Maildir", one.path]
                ran = self.place.run(words, kill)
                self.stage.told(ran, *words, kill=kill)
            if ran.status and not (ran.status == 1 and "no ledger has it" in ran.output):
                self.wrong.append("it is not undone")
        here = self.oracle.counts()[0]
        if here != {name: counts for name, counts in stays.items() if counts}:
            self.wrong.append(f"after the undo there is {here}, and not {stays}")

    def live(self) -> None:
        first = self.model.takeout(self.draw)
        self.boxes.append(Box(0, "t.mbox", "mboxrd"))
        self.bring(self.boxes[0], first)
        self.verify(self.boxes[0])
        if self.draw.random() < 0.2:
            self.ends(1, self.boxes[0])
        if self.draw.random() < 0.4:
            self.delete()
        if self.draw.random() < 0.5:
            self.boxes.append(Box(1, "later.mbox", "mboxrd"))
        self.bring(self.boxes[-1], self.model.later(self.draw, first))
        self.undo()
        self.ended = "undone"
