"""What the worlds of a run share: a place in which the companion is run, users, a server, and what was seen."""
import os
import shlex
import typing
from collections import Counter
from collections.abc import Iterator
from contextlib import ExitStack, contextmanager
from pathlib import Path
from typing import Optional

from tests.support.accounts import users
from tests.support.cases import LeftOut
from tests.support.dovecot.server import Dovecot, is_there
from tests.support.homes import fresh_folder, in_memory, install, want_users
from tests.support.running import COMPANION, NEVER, Kill, Row, Run
from tests.support.place import Place

# the users of a world, and another name of the first of them; no other account has this tree in its home
PREFIX, COUNT, SECOND = "m90", 4, "info"
TREE = "m90-mail"


class Accounts:
    """Users. Their homes are below one folder, in which each world makes them anew."""

    def __init__(self, homes: Path) -> None:
        self.homes = homes
        self.names = [f"{PREFIX}{number}" for number in range(COUNT)]
        # a second name of the first user
        self.second = f"{PREFIX}{SECOND}"

    def home(self, user: str) -> Path:
        """The home of a user."""
        return self.homes / (self.names[0] if user == self.second else user)


class Stage:
    """What is there for each world, one after the other. Users and a server are made once a world wants them."""

    def __init__(self, top: Path, stack: ExitStack) -> None:
        install(top / "bin")
        self.top, self.stack = top, stack
        self.place = Place(top / "home", top / "bin")
        self.place.clear()
        self.made: Optional[Accounts] = None
        self.started: Optional[Dovecot] = None
        # what was seen in all worlds, and what was done in this one, as a person could type it
        self.seen: typing.Counter[str] = Counter()
        self.steps: list[str] = []

    def told(self, ran: Run, *words: str, kill: Kill = NEVER) -> None:
        """Notes a run, as a person could type it, and how it ended."""
        how = f" ({kill})" if kill != NEVER else ""
        self.steps.append(
            f"$ {COMPANION} {' '.join(map(shlex.quote, words))}{how} -> {'killed' if ran.is_killed else ran.status}"
        )
        self.steps += [f"  {brief(row)}" for row in ran.rows if row["type"] == "row"] or [
            f"  {ran.output.strip()[-600:]}"
        ]
        self.seen["runs"] += 1
        self.seen["kills"] += ran.is_killed

    def shown(self, path: Path) -> str:
        """A path as it is typed in the home."""
        return shlex.quote(os.path.relpath(path, self.place.home))

    def remove(self, path: Path) -> None:
        """Somebody removes a file."""
        path.unlink()
        self.steps.append(f"$ rm {self.shown(path)}")

    def move(self, path: Path, new: Path) -> None:
        """Somebody gives a file another name."""
        path.rename(new)
        self.steps.append(f"$ mv {self.shown(path)} {self.shown(new)}")

    def rename(self, path: Path, new: Path) -> None:
        """A mail program gives a file of mail a name that none has."""
        if not new.exists():
            self.move(path, new)

    def users(self) -> Accounts:
        """The users. Without them the world is left out."""
        want_users()
        if not self.made:
            self.made = made = Accounts(self.place.home / "homes")
            self.stack.enter_context(users({user: made.home(user) for user in made.names}))
            self.stack.enter_context(users({made.second: made.home(made.second)}, like=made.names[0]))
        return self.made

    def server(self) -> Dovecot:
        """A Dovecot. Without it the world is left out."""
        if not is_there():
            raise LeftOut("Dovecot's server with IMAP and POP3 is not here")
        if not self.started:
            self.started = Dovecot(str(self.top / "dovecot"))
            self.started.write()
            self.started.start()
            self.stack.callback(self.started.stop)
        return self.started


def brief(row: Row) -> str:
    """A row in short."""
    reason = f" ({row['reason']})" if row["reason"] else ""
    return f"{row['path']} -> {row['folder']}: {row['verdict']}{reason} {row['says']}"


@contextmanager
def fresh_stage() -> Iterator[Stage]:
    """A stage on a fast disk."""
    with fresh_folder(in_memory()) as top, ExitStack() as stack:
        yield Stage(top, stack)
