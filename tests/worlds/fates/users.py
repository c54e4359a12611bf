"""Random spools, and homes of users who are made for the test."""
import os
import pwd
import shutil
from collections.abc import Sequence
from pathlib import Path
from random import Random
from typing import Optional

from tests.support.homes import mailbox
from tests.worlds.fates.names import SOUND, Name, name
from tests.worlds.fates.texts import Content, Fate
from tests.worlds.fates.trees import Grower, inbox
from tests.worlds.fates.world import INBOX, Branch, Thing, World
from tests.worlds.stage import COUNT, PREFIX, TREE, Accounts

# what is in the place of a tree, and how often
TREES = ["folder"] * 4 + ["none", "file", "link", "behind"]


class Homes:
    """A spool and homes, and the words that name them."""

    def __init__(self, world: World, who: Accounts, maildir: str = "Maildir") -> None:
        self.world, self.who, self.maildir = world, who, maildir
        world.is_for_users = True
        self.spool = Branch(world, bytes(world.home / "spool"), b"spool")

    def own(self, path: bytes, user: str) -> None:
        """Gives a file, or a folder with everything in it, to a user."""
        account = pwd.getpwnam(user)
        inside = [os.path.join(below, one) for below, *names in os.walk(path) for one in [*names[0], *names[1]]]
        self.world.owners += [(one, account.pw_uid, account.pw_gid) for one in (path, *inside)]

    def home(self, user: str) -> Path:
        """Makes the home of a user, which has a Maildir."""
        home = self.who.home(user)
        home.mkdir(parents=True, exist_ok=True)
        self.world.maildirs[user] = bytes(home / self.maildir)
        return home

    def tree(self, user: str, *several: tuple[Name, Content]) -> list[Thing]:
        """Makes the tree of a user, with these mailboxes."""
        home = self.home(user)
        tree = Branch(self.world, bytes(home / TREE), TREE.encode(), user=user)
        things = [tree.file(*one) for one in several]
        self.own(bytes(home), user)
        return things

    def mailbox(self, user: str, content: Content) -> Thing:
        """Makes the mailbox of a user in the spool. Whoever it is asked for has a thing."""
        self.own(self.spool.put(name(user), content.data), user)
        return Thing(b"", content.fate, user=user).holding(content, INBOX)

    def words(self, names: Sequence[str] = (), tree: str = TREE) -> None:
        """The words of the run."""
        self.world.options += ["--users", *(["--tree", tree] if tree else [])]
        self.world.words = [b"spool", *map(str.encode, names)]


def printed(name_of_nobody: bytes) -> str:
    """The name of no user, as rows have it: without what a terminal would obey."""
    letters = name_of_nobody.decode(errors="backslashreplace")
    return "".join(one if one.isprintable() else f"\\x{ord(one):02x}" for one in letters)


class Spool(Homes):
    """A spool and homes that are drawn."""

    def __init__(self, draw: Random, home: Path, who: Accounts) -> None:
        self.draw, self.grower = draw, Grower(draw, draw.random() < 0.2)
        self.has_tree = draw.random() < 0.8
        self.asked: Optional[list[str]] = None
        if draw.random() < 0.5:
            self.asked = draw.sample(who.names, draw.randint(1, COUNT))
        # the name of the tree in a home
        self.place = draw.choice([TREE, TREE, f"{TREE}/in"])
        super().__init__(World(home), who, draw.choice(["Maildir", "Post"]))

    def is_asked(self, user: str) -> bool:
        """Whether the run asks for this user."""
        return self.asked is None or user in self.asked

    def note(self, user: str, thing: Thing) -> Thing:
        """Takes note of a thing of a user, if the run asks for that user."""
        return self.world.add(thing) if self.is_asked(user) else thing

    def drawn_mailbox(self, user: str, is_plain: bool) -> Optional[Thing]:
        """Makes what the spool has under the name of a user, if it has anything."""
        others = [] if is_plain else ["link", "pipe", "folder", "root's"]
        what = self.draw.choice(["mail"] * 4 + ["none", "other", "empty"] + others)
        path = self.spool.path_of(name(user))
        if what == "none":
            return None
        if what in ("mail", "other"):
            content = self.grower.mail_of() if what == "mail" else self.grower.any_content()
            return self.note(user, self.mailbox(user, content))
        if what == "empty":
            return self.note(user, self.mailbox(user, Content(b"", Fate.DONE)))
        if what == "link":
            os.symlink("/etc/passwd", path)
        elif what == "pipe":
            os.mkfifo(path)
        elif what == "folder":
            os.mkdir(path)
        else:
            self.spool.put(name(user), self.grower.mail_of().data)
        return self.note(user, Thing(b"", Fate.LEFT, user=user))

    def user(self, user: str) -> None:
        """Makes the home of a user, and what the spool has for that user."""
        state = self.draw.choice(["fine"] * 6 + ["missing", "unmounted", "another's", "closed"])
        home, thing = self.who.home(user), self.drawn_mailbox(user, state != "fine")
        if state == "fine":
            self.home(user)
            if self.has_tree:
                self.fill(user, home, thing is not None)
            self.own(bytes(home), user)
            return
        if state == "missing":
            shutil.rmtree(home, ignore_errors=True)
        else:
            home.mkdir(parents=True)
        if state == "another's":
            self.own(bytes(home), next(other for other in self.who.names if other != user))
        elif state == "closed":
            self.own(bytes(home), user)
            self.world.modes.append((bytes(home), 0))
        # the home can't be looked into, which is said once
        if thing:
            thing.leave()
        elif self.has_tree:
            self.note(user, Thing(b"", Fate.LEFT, user=user))

    def fill(self, user: str, home: Path, has_mailbox: bool) -> None:
        """Makes the tree of a home: a folder, a file, a symbolic link, or something behind a folder that may not be
        entered. If the spool has something under the user's name, an Inbox of the tree is another mailbox."""
        what, path, before = self.draw.choice(TREES), home / self.place, len(self.world.choices)
        thing = Thing(self.place.encode(), Fate.LEFT, user=user)
        path.parent.mkdir(exist_ok=True)
        if what == "folder":
            branch = Branch(self.world, bytes(path), thing.path, user=user)
            branch.taken = {INBOX} if has_mailbox else set()
            inbox(self.grower, branch)
            self.grower.fill(branch, self.draw.randint(0, 5), 2)
            branch.settle()
        elif what == "file":
            content = self.grower.mail_of()
            mailbox(path, content.data)
            self.world.add(thing).holding(content._replace(says=""), INBOX)
        elif what == "link":
            path.symlink_to("/etc")
            self.world.add(thing).leave("link")
        elif what == "behind" and "/" in self.place:
            path.mkdir()
            self.world.modes.append((bytes(path.parent), 0))
            self.world.add(thing).leave("Permission denied")
        if not self.is_asked(user):
            del self.world.choices[before:]

    def strangers(self) -> None:
        """Makes names in the spool that belong to no user, or are no mailboxes."""
        draw, lock = self.draw, f"{self.who.names[1]}.lock"
        made: list[Thing] = []
        for what in draw.sample(["nobody's", "root", lock, ".x", ".old", "second"], draw.randint(0, 4)):
            one = self.grower.stems.file(SOUND + ["latin"]) if what == "nobody's" else name(what)
            thing = Thing(b"", Fate.LEFT, user=printed(one.raw))
            if what == "second":
                self.second()
                continue
            if what == ".old":
                os.mkdir(self.spool.path_of(one))
            elif what in (lock, ".x"):
                self.spool.put(one, b"")
                thing.pass_over()
            else:
                self.spool.put(one, self.grower.any_content().data)
            made.append(thing)
        for thing in made if self.asked is None else []:
            self.world.add(thing)

    def second(self) -> None:
        """Makes the mailbox of the second name of the first user. Only one of the two is done."""
        first, second = self.who.names[0], self.who.second
        choice = next((choice for choice in self.world.choices if choice.things[0].keys == [(first, b"")]), None)
        is_left = choice is not None and choice.things[0].fate != Fate.DONE
        # without another mailbox, an Inbox of the tree would not be left
        is_left |= choice is None and any(one.user == first and one.folder == INBOX for one in self.world.things)
        if self.asked is not None or first not in self.world.maildirs or is_left:
            return
        thing = self.mailbox(second, self.grower.mail_of())
        thing.owner = first
        if choice:
            choice.things.append(thing)
        else:
            self.world.add(thing)

    def drawn_words(self) -> None:
        """The words of the run."""
        world, draw, asked = self.world, self.draw, self.asked
        world.options = ["--maildir", self.maildir, "--jobs", str(draw.randint(1, 3))]
        for pattern in dict.fromkeys(world.patterns):
            world.options += ["--no-mail", pattern if "*" in pattern else f"{self.place}/{pattern}"]
        by_list = asked is not None and draw.random() < 0.3
        self.words([] if by_list else asked or [], self.place if self.has_tree else "")
        if by_list:
            world.options += ["--names", "-"]
            world.input = "".join(f"{user}\n" for user in asked or []).encode()
        if asked is not None:
            world.not_asked = len({*os.listdir(world.home / "spool")} - {*asked})


def gone(spool: Spool) -> None:
    """Asks for a user whom nobody knows."""
    if spool.asked is not None and spool.draw.random() < 0.3:
        spool.asked.append(f"{PREFIX}-gone")
        spool.world.add(Thing(b"", Fate.LEFT, user=f"{PREFIX}-gone"))


def of_users(draw: Random, home: Path, who: Accounts) -> World:
    """A spool, and homes."""
    spool = Spool(draw, home, who)
    gone(spool)
    for user in who.names:
        spool.user(user)
    spool.strangers()
    without_mailbox(spool)
    second_names(spool)
    spool.drawn_words()
    return spool.world


def without_mailbox(spool: Spool) -> None:
    """A user who is asked for, and has neither a mailbox nor a place for a tree, is left."""
    known = {thing.user for thing in spool.world.things}
    for user in spool.asked or [] if not spool.has_tree else []:
        if user not in known:
            spool.world.add(Thing(b"", Fate.LEFT, user=user))


def second_names(spool: Spool) -> None:
    """In a run without names, the first user's mailbox may have the second name of the same account."""
    first, second = spool.who.names[0], spool.who.second
    is_twice = any(thing.user == second for thing in spool.world.things)
    for thing in spool.world.things if spool.asked is None else []:
        if thing.user == first and (thing.path or not is_twice):
            thing.also = second
