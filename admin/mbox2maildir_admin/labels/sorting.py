"""The labels in the headers of messages of a Takeout, and which folders each message goes into by them."""
import array
import collections
import functools
import re
from collections.abc import Iterable, Mapping, Sequence
from typing import NamedTuple, Optional

from ..faults import Left, Reason
from ..flags.clients import GMAIL, KeptFlags, labels_in
from ..flags.gmail import ARCHIVE, ENGLISH, ORDER, Own, Roles, language_of, letters_by, own_names
from ..maildir.folders import INBOX, folder_of, on_disk, why_no_folder
from ..mbox.fields import VALUE
from ..nexts import Does, Phrase
from ..remarks import Remark, Says
from ..terminal import is_text, named
from .choosing import EACH, FOLDER, NONE, ONE, READ, Choosing
from .noted import Noted

# Google writes both fields before those that were sent; what a sender writes comes after them
FIELD = re.compile(rb"(X-GM-THRID|X-Gmail-Labels)" + VALUE + rb"(?:\n|\Z)", re.I)
# Gmail's folders that nobody looks for in INBOX
SAID = {Own.JUNK: "Spam", Own.TRASH: "Trash", Own.SENT: "Sent", Own.DRAFTS: "Drafts"}
# more folders than these are asked about
MOST = 2000
NO_LABELS = "message %d does not begin with X-GM-THRID and X-Gmail-Labels, as each message of a Takeout does"
UNREADABLE = "the labels of message %d cannot be read"
NO_FOLDER = "message %d has the label %s, which gives no folder: %s"
IN_QUESTION = "more than half of the messages have %s, so it may be a mark of Gmail's and no folder: %s of %d"
TOO_MANY = "its labels give %d folders"


def field_of(header: bytes) -> Optional[bytes]:
    """The value of the first field with labels; None unless it and the number of the thread come before all others."""
    first = FIELD.match(header)
    second = FIELD.match(header, first.end()) if first else None
    values = {one[1].lower(): one[2] for one in (first, second) if one}
    return values[b"x-gmail-labels"] if len(values) == 2 else None


def remarks_on_labels(headers: Iterable[bytes]) -> list[Remark]:
    """How many of some messages have labels of Gmail's folders that are not INBOX."""
    several = [set(labels_in(field_of(header) or b"") or ()) for header in headers]
    own = own_names([language_of(several)])
    roles = collections.Counter(role for labels in several for role in {own.get(label) for label in labels})
    counts = ["%s %d" % (name, roles[role]) for role, name in SAID.items() if roles[role]]
    return [Says.LABELLED.of(", ".join(counts))] if counts else []


def folder_by(label: str, roles: Roles) -> bytes:
    """The folder that a label gives; empty if it gives none."""
    own = roles.get(label)
    if own:
        return on_disk(own.value) if own in ORDER else b""
    return on_disk(folder_of(label)) if is_text(label) else b""


class LabelsLeft(Left):
    """Why nobody can sort a Takeout, and what a human may say about that."""

    def __init__(self, why: str, *says: tuple[Choosing, Phrase]) -> None:
        super().__init__(why, Reason.LABELS)
        self.says = says


class LabelFolders(NamedTuple):
    """The places of the messages that each folder gets, by its name on the disk; the labels of different names, if they
    give one folder; the flags of all messages; and what the record is to note of all that."""

    places: Mapping[bytes, Sequence[int]]
    labels: Mapping[bytes, Sequence[str]]
    kept: KeptFlags
    noted: Noted


class Sorting:
    """The labels of the messages of a Takeout."""

    def __init__(self, headers: Iterable[bytes], choosing: Choosing, noted: Noted, earlier: Iterable[str] = ()) -> None:
        """Takes the headers of the messages, what is said of labels, what an earlier run has noted, and the languages
        of earlier mailboxes. Raises LabelsLeft if one has no labels, or if they cannot be read."""
        self.choosing, self.noted, self.before = choosing, noted, noted.folders
        self.messages: list[tuple[str, ...]] = []
        # how many messages have each label
        self.counts: collections.Counter[str] = collections.Counter()
        known: dict[bytes, tuple[str, ...]] = {}
        for number, header in enumerate(headers, 1):
            field = field_of(header)
            if field is None:
                raise LabelsLeft(NO_LABELS % number)
            if field not in known:
                labels = labels_in(field)
                if labels is None:
                    raise LabelsLeft(UNREADABLE % number)
                known[field] = labels
            self.messages.append(known[field])
            self.counts.update(known[field])
        found = language_of(known.values(), earlier)
        self.languages = *noted.languages, *(() if found in ("Inbox", *noted.languages) else (found,))
        self.names = own_names(self.languages)
        self.roles = self.roles_by(choosing)
        # of names of one meaning, such as `Draft` and `Drafts`, the first one
        self.gmails = {self.roles[label]: label for label in reversed(self.counts) if label in self.roles}

    def roles_by(self, choosing: Choosing) -> Roles:
        """What the labels stand for that make no folders of their names, and made none before: what was said of them
        comes first."""
        names = self.names.items()
        own = {label: role for label, role in names if label in ENGLISH or on_disk(folder_of(label)) not in self.before}
        own.update((label, Own(gives)) for label, gives in choosing.given if gives != FOLDER)
        return {label: role for label, role in own.items() if choosing.gives(label) != FOLDER}

    def contradicts(self, then: Choosing) -> bool:
        """Whether a label gives another folder than it gave when this alone was said, which messages have since: the
        same ones would come into another folder too. One that is new may give any."""
        was = self.roles_by(then)
        new = [label for label in dict(self.choosing.given) if label in self.counts and not then.gives(label)]
        folders = ((folder_by(label, was), folder_by(label, self.roles)) for label in new)
        return any(now != before and (not before or before in self.before) for before, now in folders)

    def want_decided(self) -> None:
        """Raises LabelsLeft if a label gives no folder, or if a human must say whether it gives one."""
        users = [label for label in self.counts if label not in self.roles]
        for label in users:
            parts = (part if set(part) == {"."} else part.replace(".", "-") for part in label.split("/"))
            why = why_no_folder("/".join(parts))
            if why:
                says = self.choosing.with_given((label, NONE)), Does.LABEL_NONE
                first = next(number for number, labels in enumerate(self.messages, 1) if label in labels)
                raise LabelsLeft(NO_FOLDER % (first, named(label), why), says)
        half = len(self.messages) / 2
        # one that has its folder keeps it
        new = [label for label in users if on_disk(folder_of(label)) not in self.before]
        asked = [label for label in new if self.counts[label] > half and not self.choosing.gives(label)]
        if asked:
            ways = [(dict.fromkeys(asked, NONE), Does.LABEL_NONE), (dict.fromkeys(asked, FOLDER), Does.LABEL_FOLDER)]
            ways += [({**dict.fromkeys(asked, NONE), read: READ}, Does.LABEL_READ) for read in asked]
            answers = [(self.choosing.with_given(*given.items()), does) for given, does in ways]
            names = "the labels %s" if len(asked) > 1 else "the label %s"
            counts = " and ".join(str(self.counts[label]) for label in asked)
            its = names % " and ".join(map(named, asked)), counts, len(self.messages)
            raise LabelsLeft(IN_QUESTION % its, *answers)

    def folders(self) -> LabelFolders:
        """The places of the messages in each folder, that of INBOX first. Raises LabelsLeft for what is not decided."""
        self.want_decided()
        places: dict[bytes, "array.array[int]"] = collections.defaultdict(lambda: array.array("Q"))
        labels: collections.defaultdict[bytes, dict[str, None]] = collections.defaultdict(dict)
        # most messages have the labels of others
        folders_of = functools.lru_cache(maxsize=None)(self.folders_of)
        for place, its in enumerate(self.messages):
            for folder, names in folders_of(its).items():
                places[folder].append(place)
                labels[folder].update(dict.fromkeys(names))
        if len(places) > MOST and self.choosing.word == EACH:
            says = ((self.choosing._replace(word=word), does) for word, does in (("all", Does.ALL), ("one", Does.ONE)))
            raise LabelsLeft(TOO_MANY % len(places), *says)
        order = sorted(places, key=lambda folder: (folder != INBOX, folder))
        kept = KeptFlags(GMAIL, *letters_by(self.messages, self.roles))
        alike = {folder: list(its) for folder, its in labels.items() if len(its) > 1}
        # what is said of a label that no message has had is not noted: nothing came of it
        given = (one for one in self.choosing.given if one[0] in self.counts or self.noted.choosing.gives(one[0]))
        noted = Noted(self.choosing._replace(given=tuple(given)), tuple(order), self.languages)
        return LabelFolders({folder: places[folder] for folder in order}, alike, kept, noted)

    def folders_of(self, labels: tuple[str, ...]) -> dict[bytes, list[str]]:
        """The folders of a message with these labels, and the labels that give each."""
        users = [label for label in labels if label not in self.roles]
        gmails = {self.roles.get(label) for label in labels}
        several = [(on_disk(folder_of(label)), label) for label in users]
        several += [(on_disk(own.value), self.gmails[own]) for own in ORDER if own in gmails]
        found: dict[bytes, list[str]] = {}
        for folder, label in several[:1] if self.choosing.word == ONE else several:
            found.setdefault(folder, []).append(label)
        return found or {on_disk(ARCHIVE): []}
