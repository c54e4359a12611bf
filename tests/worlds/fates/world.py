"""A world: files, folders, symbolic links and special files. What must become of each is written down when it is
made."""
import os
import socket
import stat
import time
from pathlib import Path
from typing import Optional

from tests.support.homes import hand_over
from tests.worlds.fates.names import Name, name
from tests.worlds.fates.texts import Content, Fate

# how old a file is, in seconds: nobody has written to it for a while; a lock of that age does not count, a fresh one
# does
OLD, FRESH = 3600, 100
# how long the name of a folder may be
LONGEST = 255
INBOX = "INBOX"


class Thing:
    """A name that was made, by the user and the path that its row has, and what must become of it."""

    def __init__(self, path: bytes, fate: Fate, says: str = "", user: str = "") -> None:
        self.path, self.user, self.fate, self.says = path, user, fate, says
        # its folder, and the messages that come into it
        self.folder: Optional[str] = None
        self.messages: tuple[bytes, ...] = ()
        # whether a pattern of --no-mail makes it no mail, as its row says; whose Maildir it goes into, if that is not
        # the user's; and whether its row may have the user's other name
        self.is_spared = False
        self.owner = user
        self.also = ""

    @property
    def keys(self) -> list[tuple[str, bytes]]:
        """The users and the paths that its row may have."""
        return [(user, self.path) for user in (self.user, self.also) if user == self.user or user]

    def holding(self, content: Content, folder: Optional[str]) -> "Thing":
        """The same with this content, which comes into a folder if it is mail."""
        self.fate, self.says, self.messages = content.fate, content.says, content.messages
        self.folder = folder if content.fate == Fate.DONE else None
        return self

    def leave(self, says: str = "") -> None:
        """Leaves the thing, whatever it holds."""
        self.fate, self.says, self.folder, self.messages = Fate.LEFT, says, None, ()

    def pass_over(self) -> None:
        """Passes the thing over: it has no byte."""
        self.fate, self.folder = Fate.NO_MAIL, None

    def __repr__(self) -> str:
        where = f" in {self.folder}" if self.folder else ""
        return f"{self.user} {self.path!r}: {self.fate.value}{where}"


class Choice:
    """Things of which one has its fate, and the others are left."""

    def __init__(self, first: Thing) -> None:
        self.things = [first]

    def count(self, fate: Fate) -> int:
        """How many of them must have a fate."""
        first = Fate.NO_MAIL if self.things[0].is_spared else self.things[0].fate
        return (first == fate) + (fate == Fate.LEFT) * (len(self.things) - 1)


class World:
    """What was made for a run, and the words with which it runs."""

    def __init__(self, home: Path) -> None:
        self.home = home
        self.choices: list[Choice] = []
        # the words of the run; its Maildirs by their users, or "" for one's own; and what --no-mail spares
        self.options: list[str] = []
        self.words: list[bytes] = []
        self.maildirs: dict[str, bytes] = {}
        self.patterns: list[str] = []
        # the modes and owners that are set once everything is made
        self.modes: list[tuple[bytes, int]] = []
        self.owners: list[tuple[bytes, int, int]] = []
        # whether root runs it, for users of the machine; how many names of the spool were not asked for; and the input
        self.is_for_users, self.not_asked, self.input = False, 0, b""

    def add(self, thing: Thing) -> Thing:
        """Takes note of what was made."""
        self.choices.append(Choice(thing))
        return thing

    @property
    def things(self) -> list[Thing]:
        """All that was made."""
        return [thing for choice in self.choices for thing in choice.things]

    def count(self, fate: Fate) -> int:
        """How many names must have this fate."""
        return sum(choice.count(fate) for choice in self.choices)

    def finish(self) -> None:
        """Gives files to their owners, and takes rights away."""
        if not self.is_for_users:
            hand_over(self.home)
        for path, user, group in self.owners:
            os.chown(path, user, group, follow_symlinks=False)
        for path, mode in reversed(self.modes):
            os.chmod(path, mode)

    def state(self) -> dict[bytes, tuple[int, ...]]:
        """What is in the world beside its Maildirs: each name with what a change of it would change."""
        found: dict[bytes, tuple[int, ...]] = {}
        for below, folders, files in os.walk(os.fsencode(self.home)):
            folders[:] = [one for one in folders if os.path.join(below, one) not in self.maildirs.values()]
            for path in (os.path.join(below, one) for one in (*folders, *files)):
                seen = os.lstat(path)
                of_file = () if stat.S_ISDIR(seen.st_mode) else (seen.st_size, seen.st_mtime_ns)
                found[path] = (seen.st_ino, seen.st_mode, seen.st_uid, *of_file)
        return found


class Branch:
    """A folder with mailboxes in it, which become folders of a Maildir, named after their places below its top."""

    def __init__(self, world: World, path: bytes, shown: bytes, top: Optional["Branch"] = None, user: str = "") -> None:
        self.world, self.path, self.shown, self.top = world, path, shown, top or self
        # the parts of the name that it gives a folder, unless it is not UTF-8
        self.parts: Optional[tuple[str, ...]] = ()
        # at the top of a tree: whose it is, which names become the same folder, and which folders belong to others
        # already
        self.user = user
        self.folders: dict[str, list[Thing]] = {}
        self.empty_ones: list[Thing] = []
        self.taken: set[str] = set()
        os.makedirs(path, exist_ok=True)

    @property
    def below(self) -> bytes:
        """Its path below the top."""
        return b"" if self.top is self else os.path.relpath(self.path, self.top.path) + b"/"

    def shown_of(self, one: Name) -> bytes:
        """How a row names what is here."""
        return self.shown + b"/" + one.raw

    def path_of(self, one: Name) -> bytes:
        """The path of what is here."""
        return os.path.join(self.path, one.raw)

    def is_sound(self, one: Name) -> bool:
        """Whether a name can be that of a folder of a Maildir. A name that cannot be is left for that reason, whatever
        else is wrong."""
        return self.parts is not None and one.part is not None and len(".".join(["", *self.parts, one.part])) <= LONGEST

    def has(self, one: Name) -> bool:
        """Whether the name is taken."""
        return os.path.lexists(self.path_of(one))

    def put(self, one: Name, data: bytes, age: int = OLD) -> bytes:
        """Writes a file that is part of something else."""
        path = self.path_of(one)
        with open(path, "wb") as file:
            file.write(data)
        os.utime(path, (time.time() - age,) * 2)
        return path

    def leave(self, one: Optional[Name], says: str = "") -> Thing:
        """Takes note of what must be left: this folder, or what is in it."""
        path = self.shown_of(one) if one else self.shown
        return self.world.add(Thing(path, Fate.LEFT, says, user=self.top.user))

    def pass_over(self, one: Name) -> Thing:
        """Takes note of what holds no mail."""
        return self.world.add(Thing(self.shown_of(one), Fate.NO_MAIL, user=self.top.user))

    def file(self, one: Name, content: Content, age: int = OLD) -> Thing:
        """Writes a file, whose fate is that of its content."""
        self.put(one, content.data, age)
        return self.world.add(self.thing(one, content))

    def thing(self, one: Name, content: Content) -> Thing:
        """What must become of a content under this name."""
        content = content.under(one.raw)
        thing = Thing(self.shown_of(one), content.fate, user=self.top.user).holding(content, None)
        if content.fate == Fate.LEFT and not self.is_sound(one):
            thing.leave()
        elif content.fate == Fate.DONE and not content.data and not self.is_sound(one):
            thing.pass_over()
        elif content.fate == Fate.DONE and (self.parts is None or one.part is None):
            thing.leave("UTF-8")
        elif content.fate == Fate.DONE and not self.is_sound(one):
            thing.leave("too long")
        elif content.fate == Fate.DONE:
            thing.folder = "/".join([*(self.parts or ()), one.part or ""])
            self.top.folders.setdefault(thing.folder, []).append(thing)
            self.top.empty_ones += [] if content.data else [thing]
        return thing

    def settle(self) -> None:
        """If several mailboxes would become one folder, all of them are left. Empty files do not count."""
        for folder, several in self.folders.items():
            is_taken = folder in self.taken
            full = [thing for thing in several if thing not in self.empty_ones]
            for thing in several if is_taken or len(several) > 1 else []:
                if thing in self.empty_ones:
                    thing.pass_over()
                elif is_taken or len(full) > 1:
                    thing.leave("another mailbox")

    def empty(self, one: Name, is_hidden: bool = False) -> Thing:
        """Makes an empty file: a mailbox without mail, unless its name says that it is none."""
        return self.file(one, Content(b"", Fate.NO_MAIL if is_hidden else Fate.DONE))

    def locked(self, one: Name, content: Content, age: int) -> Thing:
        """Makes a file, and beside it a lock of this age. An old lock does not count."""
        thing, lock = self.file(one, content), name(one.raw.decode() + ".lock")
        self.put(lock, b"", age)
        self.pass_over(lock)
        if age == FRESH:
            self.top.folders.pop(thing.folder or "", None)
            thing.leave("another program has locked it" if self.is_sound(one) else "")
        return thing

    def sparse(self, one: Name, content: Content) -> Thing:
        """Makes a file with a hole of 20 MB after its text, and a last line."""
        path = self.put(one, content.data)
        with open(path, "r+b") as file:
            file.seek(len(content.data) + 20_000_000)
            file.write(b"\n")
        os.utime(path, (time.time() - OLD,) * 2)
        return self.leave(one)

    def hard_link(self, one: Name, first: Name, content: Content) -> None:
        """Gives a file with this content another name. Each of the two is a mailbox."""
        os.link(self.path_of(first), self.path_of(one))
        self.world.add(self.thing(one, content))

    def closed_file(self, one: Name, content: Content) -> Thing:
        """Makes a file that may not be read."""
        path = self.put(one, content.data)
        self.world.modes.append((path, 0))
        return self.leave(one, "Permission denied" if self.is_sound(one) else "")

    def closed_folder(self, one: Name, content: Content, mode: int) -> Thing:
        """Makes a folder that may not be entered, or not be listed, with a file in it. It is one thing."""
        inside = self.folder(one)
        inside.put(name("inside"), content.data)
        self.world.modes.append((inside.path, mode))
        return self.leave(one, "Permission denied")

    def link(self, one: Name, target: str) -> Thing:
        """Makes a symbolic link, which nobody follows."""
        os.symlink(target, self.path_of(one))
        return self.leave(one, "link")

    def special(self, one: Name, is_socket: bool = False) -> Thing:
        """Makes a FIFO, or a socket, by its short name, since a long path would be too long for it."""
        if is_socket:
            here = os.getcwd()
            os.chdir(self.path)
            with socket.socket(socket.AF_UNIX) as made:
                made.bind(one.raw)
            os.chdir(here)
        else:
            os.mkfifo(self.path_of(one))
        return self.leave(one, "not a regular file")

    def folder(self, one: Name) -> "Branch":
        """Makes a folder of mailboxes."""
        made = Branch(self.world, self.path_of(one), self.shown_of(one), self.top)
        made.parts = None if self.parts is None or one.part is None else (*self.parts, one.part)
        return made
