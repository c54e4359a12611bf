"""Random trees of mailboxes and of everything that is beside them, and lists of mailboxes that are named one by one."""
import glob
import os
from collections.abc import Callable
from pathlib import Path
from random import Random
from typing import Optional

from tests.worlds.fates import stores, texts
from tests.worlds.fates.names import MUTE, SOUND, Stems, name
from tests.worlds.fates.texts import Content
from tests.worlds.fates.world import FRESH, INBOX, OLD, Branch, Thing, World

DEEPEST = 4


def mails(draw: Random) -> list[bytes]:
    """Mail without From_ lines."""
    return [texts.one_mail(draw).data for _ in range(draw.randint(1, 4))]


# the beginnings of what gzip, bzip2 and xz compress
PACKED = (b"\x1f\x8b", b"BZh", b"\xfd7zXZ")


class Grower:
    """Fills the folders of a tree."""

    def __init__(self, draw: Random, with_patterns: bool = False) -> None:
        self.draw, self.stems = draw, Stems(draw)
        # whether a pattern names one file, or all with an ending
        self.is_exact = draw.random() < 0.5
        # what is made of mail, and of everything else, with how often
        self.habits: dict[Callable[[Branch], None], int] = {
            self.mail: 30,
            self.other: 25,
            self.misnamed_mail: 10,
            self.empty: 8,
            self.lock_note: 3,
            self.link: 6,
            self.special: 4,
            self.closed: 6,
            self.hard_link: 4,
            self.locked: 3,
            self.collision: 3,
            self.maildir: 5,
            self.broken_maildir: 3,
            self.mh_folder: 4,
            self.dovecot: 2,
            self.sparse: 1,
            self.spared: 12 if with_patterns else 0,
        }

    def mail_of(self) -> Content:
        """A mailbox of some kind."""
        return self.draw.choice(list(texts.MAIL.values()))(self.draw)

    def any_content(self) -> Content:
        """A file of any kind."""
        return self.draw.choice(list(texts.EVERYTHING.values()))(self.draw)

    def fill(self, branch: Branch, count: int, depth: int = 0) -> None:
        """Makes this many things in a folder, and in folders below it."""
        habits = list(self.habits)
        for habit in self.draw.choices(habits, [self.habits[one] for one in habits], k=count):
            habit(branch)
        for _ in range(self.draw.choice([0, 0, 1, 2]) if depth < DEEPEST else 0):
            one = self.stems.folder()
            if not branch.has(one):
                self.fill(branch.folder(one), self.draw.randint(0, 4), depth + 1)

    def mail(self, branch: Branch) -> None:
        """Mail of some kind."""
        branch.file(self.stems.file(MUTE), self.mail_of())

    def misnamed_mail(self, branch: Branch) -> None:
        """Mail under the name of something that is no mail."""
        branch.file(self.stems.file(["dat", "lock", "msf", "hidden", "pdf"]), self.mail_of())

    def other(self, branch: Branch) -> None:
        """What is no mail, or mail of another kind, under any name."""
        kinds = self.draw.choice([texts.DOUBTFUL, texts.NO_MAIL, texts.OF_ANOTHER_KIND, texts.UNKNOWN])
        # for a short line in a lock there is a rule of its own
        forms = [form for form in MUTE if form != "long"] + ["msf", "hidden"]
        branch.file(self.stems.file(forms), self.draw.choice(list(kinds.values()))(self.draw))

    def empty(self, branch: Branch) -> None:
        """An empty file. Its name says whether it is a mailbox."""
        is_hidden = self.draw.random() < 0.5
        branch.empty(self.stems.file(["hidden", "lock", "msf"] if is_hidden else MUTE), is_hidden)

    def lock_note(self, branch: Branch) -> None:
        """A lock with the number of a process, or with more than a lock has."""
        number = b"%d\n" % self.draw.randrange(1, 99999)
        texts_of_locks = [
            texts.no_mail(number),
            texts.no_mail(number[:-1]),
            texts.not_known(number * 2),
            texts.not_known(b"1" * 257),
        ]
        branch.file(self.stems.file(["lock"]), self.draw.choice(texts_of_locks))

    def link(self, branch: Branch) -> None:
        """A symbolic link to a file, to a folder, to nothing, or to itself."""
        one = self.stems.file(MUTE)
        targets = ["/etc/passwd", "..", ".", "nowhere", "/", one.raw.decode(errors="surrogateescape"), "../../gone/box"]
        branch.link(one, self.draw.choice(targets))

    def special(self, branch: Branch) -> None:
        """A FIFO or a socket."""
        branch.special(self.stems.file(["plain", "ending", "dat", "hidden"]), self.draw.random() < 0.5)

    def closed(self, branch: Branch) -> None:
        """A file or a folder that its own user may not read."""
        if self.draw.random() < 0.5:
            branch.closed_file(self.stems.file(MUTE + ["lock", "msf", "hidden"]), self.any_content())
        else:
            one = self.stems.file(["plain", "ending", "hidden", "spaces"])
            branch.closed_folder(one, self.any_content(), self.draw.choice([0, 0o100, 0o300]))

    def hard_link(self, branch: Branch) -> None:
        """A file with two names."""
        if branch.parts is None:
            return
        content, first, second = self.mail_of(), self.stems.file(SOUND[:3]), self.stems.file(SOUND[:3])
        branch.file(first, content)
        branch.hard_link(second, first, content)

    def locked(self, branch: Branch) -> None:
        """Mail with a lock beside it."""
        branch.locked(self.stems.file(["plain", "ending", "spaces"]), self.mail_of(), self.draw.choice([OLD, FRESH]))

    def collision(self, branch: Branch) -> None:
        """Two mailboxes that would become one folder."""
        stem = self.stems.next()
        for one in self.draw.sample(
            [name(stem), name(f"{stem}.mbox", stem), name(f".{stem}.mbox", f"-{stem}"), name(f"-{stem}")], 2
        ):
            branch.file(one, self.mail_of())

    def maildir(self, branch: Branch) -> None:
        """A Maildir, which may have more in it."""
        beside = self.draw.sample(list(stores.OF_SERVERS), self.draw.randrange(3))
        made = stores.maildir(branch, self.stems.file(SOUND[:4]), mails(self.draw), beside)
        if self.draw.random() < 0.4:
            stores.maildir(made, name(".Sent", "-Sent"), mails(self.draw), ["maildirfolder"])
        if self.draw.random() < 0.3:
            self.mail(made)

    def broken_maildir(self, branch: Branch) -> None:
        """A folder that is nearly a Maildir."""
        stores.broken_maildir(
            branch, self.stems.file(SOUND[:4]), mails(self.draw), self.draw.choice(["tmp", "new", "cur"])
        )

    def mh_folder(self, branch: Branch) -> None:
        """A folder of MH, which may have a mailbox in it."""
        made = stores.mh_folder(branch, self.stems.file(SOUND[:4]), mails(self.draw))
        if self.draw.random() < 0.5:
            self.mail(made)
        if self.draw.random() < 0.3:
            # a packed one does not begin with a From_ line, and so belongs to the folder
            plain = (one for one in iter(self.mail_of, None) if not one.data.startswith(PACKED))
            made.file(name("77"), next(plain))

    def dovecot(self, branch: Branch) -> None:
        """What Dovecot writes beside mailboxes."""
        if not branch.has(name(".imap")):
            stores.indexes(branch, self.stems.next())

    def sparse(self, branch: Branch) -> None:
        """A file that is mostly a hole."""
        branch.sparse(self.stems.file(["plain", "ending"]), self.mail_of())

    def spared(self, branch: Branch) -> None:
        """Files that a pattern matches: those of unknown kinds are no mail by it, all others are what they are."""
        stem = self.stems.next()
        one = name(f"{stem}.junk", f"{stem}-junk")
        content = self.draw.choice([self.draw.choice(list(texts.UNKNOWN.values()))(self.draw), self.any_content()])
        branch.file(one, content).is_spared = content.is_unknown
        path = (branch.below + one.raw).decode(errors="surrogateescape")
        branch.world.patterns.append(glob.escape(path) if self.is_exact else "*.junk")


def inbox(grower: Grower, branch: Branch) -> None:
    """The mailbox of a tree that becomes the Maildir itself, or two that would."""
    draw = grower.draw
    for word in draw.sample(["Inbox", "INBOX", "inbox", "inbox.mbox"], draw.choice([0, 1, 1, 1, 2])):
        branch.file(name(word, INBOX), grower.mail_of())
    if draw.random() < 0.3:
        grower.fill(branch.folder(name("Inbox.sbd", INBOX)), 2, DEEPEST)


def subscriptions(grower: Grower, branch: Branch) -> None:
    """Dovecot's list of folders, or mail in its place."""
    one = name(".subscriptions", "-subscriptions")
    if grower.draw.random() < 0.2:
        branch.file(one, grower.draw.choice([texts.SUBSCRIPTIONS, grower.mail_of()]))


def of_a_tree(draw: Random, home: Path) -> World:
    """One tree, in which the Maildir may be."""
    world, grower = World(home), Grower(draw, draw.random() < 0.3)
    branch = Branch(world, bytes(home / "tree"), b"tree")
    inbox(grower, branch)
    subscriptions(grower, branch)
    grower.fill(branch, draw.randint(2, 12))
    maildir = draw.choice([b"M", b"M", b"tree/M"])
    if draw.random() < 0.2:
        for sub in (b"cur", b"new", b"tmp"):
            (home / (maildir + b"/" + sub).decode()).mkdir(parents=True)
    branch.settle()
    ready(world, maildir, [b"tree"])
    return world


def ready(world: World, maildir: bytes, words: list[bytes]) -> None:
    """The words of a run for one's own Maildir."""
    world.maildirs[""] = bytes(world.home) + b"/" + maildir
    for pattern in dict.fromkeys(world.patterns):
        world.options += ["--no-mail", pattern]
    world.words = [maildir, *words]


def of_words(draw: Random, home: Path) -> World:
    """Mailboxes that are named one by one, and trees beside them."""
    world, grower = World(home), Grower(draw)
    here = Branch(world, bytes(home / "old"), b"old")
    folder: Optional[tuple[str, str]] = draw.choice([None, ("Old", "Old"), ("2004-x/\u00e4", "2004-x/&AOQ-")])
    words: list[bytes] = []
    for _ in range(draw.randint(1, 6)):
        words.append(b"old/" + one_word(grower, here, folder[1] if folder else INBOX))
    if folder:
        world.options += ["--folder", folder[0]]
    else:
        for number in range(draw.randrange(3)):
            tree = Branch(world, bytes(home / f"tree{number}"), b"tree%d" % number)
            grower.fill(tree, draw.randint(0, 5), DEEPEST - 1)
            tree.settle()
            words.append(b"tree%d" % number + draw.choice([b"", b"/"]))
    draw.shuffle(words)
    ready(world, b"M", words)
    return world


def one_word(grower: Grower, here: Branch, folder: str) -> bytes:
    """Makes a mailbox that is named, and returns its name. Whatever it is, its folder is the one that is given."""
    draw, forms = grower.draw, [form for form in MUTE if form != "long"]
    one = grower.stems.file([*forms, "lock", "msf", "hidden"])
    what = draw.choice(["mail", "mail", "mail", "other", "link", "missing", "pipe", "closed"])
    if what == "missing":
        here.leave(one, "No such file")
    elif what == "pipe":
        here.special(one)
    elif what == "closed":
        here.closed_file(one, grower.any_content())
    else:
        content = (grower.any_content() if what == "other" else grower.mail_of()).under(one.raw)
        path = here.put(one, content.data)
        if what == "link":
            # a symbolic link that is named is followed
            os.rename(path, path + b".real")
            os.symlink(one.raw + b".real", path)
        here.world.add(Thing(here.shown_of(one), content.fate).holding(content, folder))
    return one.raw
