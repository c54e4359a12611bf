"""A FIFO, a folder or a symbolic link has the name of something that mbox2maildir-admin opens. Each command ends, loses
no mail, and follows no link. A run in which nothing is in the way tells which names a command opens."""
import os
import re
import shutil
import sys
from collections.abc import Callable, Iterator, Sequence
from functools import partial
from pathlib import Path
from typing import Any

from tests.support.archives import Home, fresh, letters
from tests.support.cases import Failed, run_cases
from tests.support.checks import PATIENCE, equal
from tests.support.copies import Copies
from tests.support.running import OWNER, Kill

# the words of each command; new mail has come into the mailboxes and into the Maildir M, P was prepared before, and
# nothing of N is there
BOXES = ["spool", "mail"]
COMMANDS = {
    "migrate": ["migrate", "--now", "--dovecot", "--jobs", "1", "M", *BOXES],
    "prepare": ["migrate", "--now", "--prepare", "--jobs", "1", "N", *BOXES],
    "finish": ["migrate", "--now", "--jobs", "1", "P", *BOXES],
    "verify": ["verify", "M", *BOXES],
    "back": ["back", "--now", "--dovecot", "M", *BOXES],
    "undo": ["migrate", "--undo", "M", "spool"],
    "dates": ["dates", "M", "spool"],
    "quote": ["quote", "-o", "copy", "spool"],
}
# how long a run may take: a machine with much other work is not as slow
LIMIT = Kill(seconds=PATIENCE)
PLACED = re.compile(r"/[0-9a-f]{64}\.\d")
NEW, SECRET = b"Subject: new\n\nnew\n", b"secret\n"


class Watched(Copies):
    """A place in which is seen what the companion opens."""

    def __init__(self, place: Copies, log: Path) -> None:
        super().__init__(place.home, place.programs, OWNER)
        self.log = log
        log.touch()
        log.chmod(0o666)

    def main(self) -> int:
        number = os.open(self.log, os.O_WRONLY | os.O_TRUNC)

        def note(what: str, given: Any) -> None:
            if what == "open" and isinstance(given[0], (str, bytes)):
                os.write(number, os.fsencode(given[0]) + b"\n")

        add: Any = getattr(sys, "addaudithook")
        add(note)
        return super().main()

    def opened(self, words: Sequence[str]) -> list[str]:
        """The names below the home that a command opens."""
        self.run(words)
        lines = os.fsdecode(self.log.read_bytes()).splitlines()
        names = {os.path.relpath(os.path.join(self.home, line), self.home) for line in lines}
        # one file of mail stands for all
        return sorted(one for one in names if one != "." and not one.startswith("../") and not PLACED.search(one))


class World:
    """A home in which there is something to do for each command, and the same again and again."""

    def __init__(self, home: Home) -> None:
        self.home, self.kept = home, home.path.parent / "kept"
        home.begin()
        self.write(letters(1, 2), letters(3))
        for words in (["--dovecot", "M"], ["--prepare", "P"]):
            equal("status", home.place.run(["migrate", "--now", "--jobs", "1", *words, *BOXES]).status, 0)
        self.write(letters(1, 2, 4), letters(3, 5))
        for folder in (home.maildir, home.maildir / ".a"):
            (folder / "new/1.M1.host").write_bytes(NEW)
            (folder / "dovecot-uidlist").write_bytes(b"3 V1700000000 N2\n1 :1.M1.host\n")
            (folder / "dovecot-keywords").write_bytes(b"0 work\n")
        home.write("secret", SECRET)
        shutil.copytree(home.path, self.kept, symlinks=True)

    def write(self, spool: bytes, other: bytes) -> None:
        """The mailboxes, and what a client is subscribed to."""
        self.home.write("spool", spool)
        self.home.write("mail/a", other)
        self.home.write("mail/.subscriptions", b"a\n")

    def again(self) -> None:
        """Brings it back as it was."""
        shutil.rmtree(self.home.path)
        shutil.copytree(self.kept, self.home.path, symlinks=True)
        self.home.place.own(self.home.path, *self.home.path.rglob("*"))

    def plant(self, name: str, make: Callable[[Path], object]) -> None:
        """Something else has a name. What had it is gone."""
        path = self.home.path / name
        if path.is_dir():
            shutil.rmtree(path)
        path.unlink(missing_ok=True)
        path.parent.mkdir(parents=True, exist_ok=True)
        make(path)
        if not path.is_symlink():
            self.home.place.own(path)
        self.home.place.own(path.parent)

    def mail(self) -> Iterator[bytes]:
        """The mail in all Maildirs."""
        for path in self.home.path.glob("[MNP]/**/*"):
            if path.parent.name in ("new", "cur") and path.is_file() and not path.is_symlink():
                yield path.read_bytes()

    def boxes(self) -> dict[str, bytes]:
        """The mailboxes."""
        paths = [self.home.path / "spool", self.home.path / "mail/a"]
        return {path.name: path.read_bytes() for path in paths if path.is_file() and not path.is_symlink()}


def attempt(world: World, words: Sequence[str], name: str, make: Callable[[Path], object]) -> None:
    """Runs a command while something else has a name."""
    world.again()
    world.plant(name, make)
    before, boxes = [*world.mail()], world.boxes()
    ran = world.home.place.run(words, LIMIT)
    if ran.is_killed or "(defect)" in ran.output:
        raise Failed(f"it does not end, or fails: {ran.status}: {ran.output}")
    lost = [text for text in before if text not in [*world.mail()] and "--undo" not in words]
    equal("lost mail", lost, [])
    equal("mail that came", NEW in before, NEW in [*world.mail()])
    equal("the mailboxes", [box for box, text in boxes.items() if not world.boxes()[box].startswith(text)], [])
    equal("what a link leads to", (world.home.path / "secret").read_bytes(), SECRET)


def kinds(home: Path) -> dict[str, Callable[[Path], object]]:
    """What may have a name."""
    return {"FIFO": os.mkfifo, "folder": Path.mkdir, "link": lambda path: path.symlink_to(home / "secret")}


def case(command: str) -> None:
    """A case: a command, and each thing at each name that it opens."""
    with fresh() as home:
        world, words = World(home), COMMANDS[command]
        world.again()
        # what mbox2maildir opens itself, the companion opens too, but for this
        names = [*Watched(home.place, home.path.parent / "opened").opened(words), "M/tmp"]
        wrong = []
        for name in names:
            for kind, make in kinds(home.path).items():
                try:
                    attempt(world, words, name, make)
                except (AssertionError, Failed) as failed:
                    wrong.append(f"{kind} {name}: {failed}")
        print(f"{command}: {len(names)} names, {len(wrong)} wrong", flush=True)
        if wrong:
            raise Failed("\n".join(wrong))


if __name__ == "__main__":
    run_cases({name: partial(case, name) for name in COMMANDS})
