"""Commands that make mailboxes of a file of another kind. What they make is complete before it takes the file's place.
The file itself goes into a new folder, outside of what is migrated."""
import os
from collections.abc import Callable
from typing import NamedTuple, Union

from .. import ADMIN
from ..looks import is_below
from ..nexts import Answer, Command, Does, Next, Phrase, Single, Step, Task, Template, Todo, User, task
from ..terminal import operand, text_of

NEW_FOLDER = Template("new-folder", "d=$(mktemp -d {})")
PUT_ASIDE = Template("put-aside", 'mv -nT {} "$d/original"')
TAKE_PLACE = Template("take-place", "mv -nT {copy} {}")
MIGRATE_COPY = Template("migrate-copy", ADMIN + " migrate {all} {copy}")
# prints the mailboxes in a folder, as Takeouts and `readpst -r` name them
PRINTS = Single(Template("print-mailboxes", "find {copy} -name '*mbox' -type f"))
# how the name of a new folder begins that is among the names of a tree: trees pass it over
ORIGINAL = b".mbox2maildir-original-"
# how many bytes of a file's name go into the name of the new folder, which has an ending of its own
LONGEST = 200


class Makes(NamedTuple):
    """A command that makes {copy} of the file {}, and what it is an answer to."""

    template: Template
    does: Phrase = Does.RUN
    # whether it makes a folder, with all that the file holds
    is_folder: bool = False
    # what it says after the name of the file
    more: tuple[str, ...] = ()


# what is to be done with a file of a kind, whatever its name is: what makes a mailbox of it, a command by which a human
# finds out what it is, and tasks
Recipe = tuple[Union[Makes, Template, Task], ...]


def new_folder(above: bytes, path: bytes, before: bytes = b"") -> Single:
    """Makes a new folder, which is named after a file, with something before the name."""
    name = os.path.join(above, before + os.path.basename(path)[:LONGEST] + b".XXXXXX")
    return Single(NEW_FOLDER, (operand(name),))


def with_aside(made: Command, path: bytes) -> Command:
    """The command of root that runs what an owner makes of a file, and then puts the file aside, in whose folder the
    owner may not write."""
    spool = os.path.dirname(os.path.dirname(os.path.abspath(path)))
    return Command((made.by_root(), new_folder(spool, path), Single(PUT_ASIDE, (operand(path),))))


class Where(NamedTuple):
    """The folder in which a file is put aside, whose rights the command needs, the words that migrate what is made, if
    that can't take the file's place, whether that command makes nothing, whether the folder is in the tree that is
    migrated, and whether only a file is migrated, so that a folder can't take the place of one."""

    aside: bytes
    user: User = None
    migrate: tuple[str, ...] = ()
    is_dry: bool = False
    is_in_tree: bool = False
    wants_file: bool = False

    @classmethod
    def of(cls, path: bytes, top: bytes, home: bytes, may_write: Callable[[bytes], bool]) -> "Where":
        """Where a file is put that is migrated by its name or, if `top` is given, by the name of that folder of
        mailboxes. `may_write` says in which folders the owner may write."""
        folder, above = os.path.dirname(os.path.abspath(path)), os.path.dirname(os.path.abspath(top or path))
        aside = above if may_write(folder) and may_write(above) else home
        return cls(aside, is_in_tree=bool(top) and is_below(aside, os.path.abspath(top)))

    def made(self, makes: Makes, path: bytes) -> Answer:
        """The command that makes of a file what is migrated, and puts the file aside."""
        name, only_prints = (operand(path),), self.only_prints(makes)
        ends = [Single(PUT_ASIDE, name), Single(TAKE_PLACE, name)]
        if only_prints:
            ends = [PRINTS]
        elif self.migrate:
            ends = [Single(MIGRATE_COPY, self.migrate)]
        aside = new_folder(self.aside, path, ORIGINAL if self.is_in_tree else b"")
        command = Command((aside, Single(makes.template, (*name, *makes.more)), *ends), self.user)
        if not self.migrate or self.is_dry or only_prints:
            return Answer(command, makes.does)
        # the folder does not belong to the owner, so that only root can put the file aside
        return Answer(command if self.user is None else with_aside(command, path), Does.MAKE_ELSEWHERE)

    def next(self, recipe: Recipe, path: bytes) -> Next:
        """What is to be done with a file."""
        steps: list[Step] = []
        for part in recipe:
            if isinstance(part, Task):
                steps.append(part)
            elif isinstance(part, Makes):
                steps.append(self.made(part, path))
            else:
                steps.append(Answer(Command.of(part, operand(path), user=self.user), Does.FIND_OUT))
        if any(map(self.only_prints, recipe)):
            steps += task(Todo.NAME_PRINTED, text_of(path))
        return tuple(steps)

    def only_prints(self, part: Union[Makes, Template, Task]) -> bool:
        """Whether the command of one part leaves a file where it is, and prints what may be migrated in its place."""
        return self.wants_file and isinstance(part, Makes) and part.is_folder
