"""What is to be done next, as a value: commands with what each is an answer to, and tasks for a human. It is printed in
lines of its own, and as JSON. A process tells it as words of a table and names, from which whoever prints it makes its
line: no code takes a sentence apart."""
import functools
import os
import pwd
from collections.abc import Iterable, Iterator, Sequence
from typing import Any, NamedTuple, Optional, Union

from . import ADMIN
from .patterns import pattern
from .terminal import is_text, named, quoted, shown
from .units import counted

# the program by which root runs another one with the rights of an account
RUNUSER = "runuser"
ROOT = "root"
# how far what stands below a row is indented, and a command
BELOW, COMMAND = "    ", "        "
# in a text for a shell: the first name, all others, all names, and the file that a command makes in its new folder
PLACES = pattern(r"\{(?:rest|all|copy)?\}")
COPY = '"$d/copy"'

# an account by its name, or the number of one that has no name; None for whoever runs this
User = Union[None, str, int]


class Phrase:
    """A word for programs, which stays the same, and the sentence that a reader gets for it."""

    def __init__(self, word: str, says: str) -> None:
        self.word, self.says = word, says


def by_word(phrases: type) -> dict[str, Phrase]:
    """The phrases of a class by their words."""
    return {one.word: one for one in vars(phrases).values() if isinstance(one, Phrase)}


class Template:
    """A command without its names, by a word for it: words, which names follow, or a text for a shell with places for
    them. Debian's package is named if it has another name than the program."""

    # all of them, by their words
    all: "dict[str, Template]" = {}

    def __init__(self, word: str, text: str, package: str = "") -> None:
        self.word, self.text, self.package = word, text, package
        # a word for two commands would be read as the other one
        assert self.all.setdefault(word, self).text == text, word


class Runs:
    """What is run."""

    MIGRATE = Template("migrate", ADMIN + " migrate")
    VERIFY = Template("verify", ADMIN + " verify")
    BACK = Template("back", ADMIN + " back")
    KIND = Template("kind", ADMIN + " kind")
    QUOTE = Template("quote", ADMIN + " quote")
    LIST = Template("list", "ls")
    LIST_ITSELF = Template("list-itself", "ls -ld")
    MAKE_FOLDERS = Template("make-folders", "mkdir -p")
    MAKE_OWN_FOLDERS = Template("make-own-folders", "mkdir -pm 700")
    LET_ENTER = Template("let-enter", "chmod 711")
    MOVE = Template("move", "mv -nT")
    REMOVE = Template("remove", "rm")
    BUILD = Template("build", "make -C")
    DOVECONF = Template("doveconf", "doveconf -n")
    ADD_FLAGS = Template("add-flags", "doveadm flags add")
    # by these root runs the other names with the rights of an account, and with those of a number without one
    AS_USER = Template("as-user", RUNUSER + " -u {} -- {rest}")
    AS_NUMBER = Template("as-number", "setpriv --clear-groups --reuid {} {rest}")
    # the other names are the lines that are added to a file
    ADD_LINES = Template("add-lines", "printf '%b\\n' {rest} >>{}")


class Does:
    """What a command does, or what it says of the mail."""

    RUN = Phrase("run", "run this next")
    FIND_OUT = Phrase("find-out", "find out what it is")
    # answers to a question about lines
    BEGINS = Phrase("begins-here", "a mail begins here")
    BELONGS = Phrase("belongs-above", "this belongs to the mail above")
    BEGINS_DROP = Phrase("begins-here-drop-deleted", "a mail begins here, and deleted mail is left out")
    BELONGS_DROP = Phrase("belongs-above-drop-deleted", "this belongs to the mail above, and deleted mail is left out")
    FIRST_BEGINS = Phrase("first-line-begins", "line 1 begins a mail")
    FIRST_IS_TEXT = Phrase("first-line-is-text", "line 1 is text of a mail")
    # answers to other questions
    DROP = Phrase("drop-deleted", "deleted mail is left out")
    KEEP = Phrase("keep-deleted", "deleted mail is kept")
    # `{}` stands for the format that the command names
    READ_AS = Phrase("read-as", "it was written as {}")
    KEEP_BOTH = Phrase("keep-both", "if none is a copy, run this next")
    UNDO = Phrase("undo", "if these are right, run this next")
    UNDO_THERE = Phrase("undo-there", "this removes what it placed there")
    UNDO_PREPARED = Phrase("undo-prepared", "if it is not wanted any more, this removes what is prepared")
    OWN_FOLDER = Phrase("own-folder", "it becomes this folder")
    JOINS_INBOX = Phrase("joins-inbox", "its mail joins that of INBOX")
    # what a label of Gmail's gives
    LABEL_NONE = Phrase("label-none", "it gives no folder")
    LABEL_FOLDER = Phrase("label-folder", "it gives a folder")
    LABEL_READ = Phrase("label-read", "it says that mail was read, and gives no folder")
    ALL = Phrase("labels-all", "each message goes into all of its folders")
    ONE = Phrase("labels-one", "each message goes into one folder")
    INTO_INBOX = Phrase("into-inbox", "if it is to be INBOX, this migrates it anew, with mail deleted in the Maildir")
    # commands that store what is nowhere, and what comes of that
    STORES = Phrase("stores-rest", "this stores the messages that are nowhere, deleted ones too")
    BRINGS_BACK = Phrase(
        "stores-rest-brings-back", "this stores the messages that are nowhere, and brings back deleted mail"
    )
    STORES_AGAIN = Phrase(
        "stores-rest-may-double",
        "this stores the messages that are nowhere: it brings back mail that was deleted, and doubles mail that was "
        "changed",
    )
    ADD_KEYWORDS = Phrase("add-keywords", "once Dovecot runs with its old settings, run this")
    # the owner makes it and migrates it; the file itself stays where only root may write
    MAKE_ELSEWHERE = Phrase("make-elsewhere", "run this next")


class OfFiles(Phrase):
    """What is done with files, in whose folders their owner could lead root elsewhere."""


class Todo:
    """What a human does. `{}` stands for a name."""

    LEAVE = Phrase("leave", "leave it as it is")
    PASS_OVER = Phrase("pass-over", "if it holds no mail, pass over it by --no-mail")
    PASS_OVER_ALONE = Phrase(
        "pass-over-alone", "something in it looks like mail: only if it holds none, pass over it by --no-mail"
    )
    DOVEADM = Phrase(
        "doveadm", "copy the account by `doveadm backup`, or over IMAP, because this is one file of several"
    )
    FOLLOW = OfFiles("migrate-target", "migrate what it points to, unless that is migrated anyway")
    FOLLOW_INTO = OfFiles(
        "migrate-target-into", "migrate what it points to, with --folder NAME, unless that is migrated anyway"
    )
    REMOVE = OfFiles("remove", "remove it")
    MOVE_TO = OfFiles("move-to", "move it to {}")
    MOVE_FILES = OfFiles("move-files", "move the files in its new and cur into those of {}")
    MOVE_OTHERS = OfFiles("move-others", "move out of it what is not part of a Maildir, and run this again")
    MOVE_AWAY = OfFiles("move-away", "then move {} out of here")
    BRING_BACK = Phrase("bring-back", "mount or bring back {}, and run this again")
    ONE_NAME = Phrase(
        "one-name", "find out whose mail it is, and let the file have one name: to give it away changes its other names"
    )
    COPY_AWAY = OfFiles("move-copy", "if one is a copy, move it out of here")
    NAME_FOLDER = Phrase("name-folder", "run this again with --folder NAME")
    NAME_PRINTED = Phrase("name-printed", "then run this again, with the mailboxes that it printed last in place of {}")
    AS_OWNER = Phrase("as-owner", "run this as that user")
    OTHER_PLACE = Phrase(
        "other-place", "name a Maildir below folders that belong to root and in which only root may write"
    )
    MOUNT_OTHERWISE = Phrase("mount-otherwise", "mount it without this option, or add --any-disk")
    NAME_BELOW = Phrase("name-below", "name the Maildir by its path on the file system below, or add --any-disk")
    OTHER_MAILDIR = Phrase("other-maildir", "name a Maildir, or a folder that is not there, such as {}")
    OTHER_NAME = Phrase("other-name", "name a file that is not there")
    NOT_MAIL = Phrase("not-mail", "leave it: only a regular file, or a folder of such files, is a mailbox")
    NO_FILES = Phrase("no-files", "there is nothing to be done")
    INSTALL = Phrase("install", "install it in one of these places")
    LOOK_AT_MAILDIR = Phrase("look-at-maildir", "run this again, and look at its Maildir")
    # what is to be done before the same command settles it
    WAIT = Phrase("wait", "wait until that program has ended, or end it, and run the same command again")
    STOP_WRITER = Phrase("stop-writer", "stop the program that writes to it, and run the same command again")
    STOP_READERS = Phrase("stop-readers", "stop mail programs, and run the same command again")
    STOP_DOVECOT = Phrase("stop-dovecot", "stop Dovecot, and run the same command again")
    PUT_BACK = Phrase("put-back", "put it back as it was, and run the same command again")
    NEXT_PASS = Phrase("next-pass", "the next pass may find it at rest")
    ASK_USER = Phrase("as-user", "run `migrate` as that user, which says what to do next")


DOES, TODOS = by_word(Does), by_word(Todo)


class Single(NamedTuple):
    """A single command: which one of the table it is, and the names in it."""

    template: Template
    names: tuple[str, ...] = ()

    @property
    def words(self) -> tuple[str, ...]:
        """Its words; none if only a shell can read it."""
        text = self.template.text
        return () if PLACES.search(text) else (*text.split(" "), *self.names)

    def line(self) -> str:
        """It as a shell reads it. Raises KeyError if it lacks a name."""
        if self.words:
            return line_of(self.words)
        stands = {"{copy}": COPY, "{all}": line_of(self.names), "{rest}": line_of(self.names[1:])}
        stands.update({"{}": quoted(self.names[0])} if self.names else {})
        return PLACES.sub(lambda place: stands[place[0]], self.template.text)


class Command(NamedTuple):
    """A command: its singles, of which each runs once the one before has done its work; and whose rights it needs."""

    singles: tuple[Single, ...]
    user: User = None

    @classmethod
    def of(cls, template: Template, *names: str, user: User = None) -> "Command":
        """The command of a single."""
        return cls((Single(template, names),), user)

    def names_for(self, template: Template) -> Sequence[str]:
        """Its names, if it is only a single, this one of the table; otherwise none."""
        return self.singles[0].names if [one.template for one in self.singles] == [template] else ()

    @property
    def words(self) -> tuple[str, ...]:
        """Its words; none if only a shell can read it."""
        return self.singles[0].words if len(self.singles) == 1 else ()

    def text(self) -> str:
        """What a shell of its user reads."""
        packages = [" # package " + one.template.package for one in self.singles if one.template.package]
        return "".join([" && ".join(one.line() for one in self.singles), *packages])

    def by_root(self) -> Single:
        """The single by which root runs it with the rights of its user."""
        words = self.words or ("sh", "-c", self.text())
        return Single(Runs.AS_NUMBER if isinstance(self.user, int) else Runs.AS_USER, (str(self.user), *words))

    def line(self) -> str:
        """The command as it is typed. For another user's rights, root types it, who may have run this by `runuser`."""
        user = user_of_runuser() if self.user is None else self.user
        return self.text() if user is None else self._replace(user=user).by_root().line()

    def fields(self) -> dict[str, Any]:
        """The command without its user, for JSON: its words if each is a text, otherwise what a shell reads."""
        if self.words and all(map(is_text, self.words)):
            return {"argv": list(self.words)}
        return {"shell": self.text()}


# what is said in place of a format if the command names lines
BY_LINES = "it is read by the lines that this command names"


class Answer(NamedTuple):
    """A command, what it is an answer to, and how many messages it gives, if that is known."""

    command: Command
    does: Phrase = Does.RUN
    messages: Optional[int] = None

    def sentence(self) -> str:
        """What a reader gets before the command."""
        names = self.command.singles[0].names
        given = dict(zip(names, names[1:]))
        says = self.does.says.format(shown(given.get("--as", "")))
        if self.does is Does.READ_AS and {"--text", "--begin"} & given.keys():
            says = BY_LINES
        return says + ("" if self.messages is None else ": " + counted(self.messages, "message"))


class Task(NamedTuple):
    """What a human does, the names in that, and with whose rights, if not with those of whoever runs this."""

    todo: Phrase
    names: tuple[str, ...] = ()
    user: Optional[str] = None

    def sentence(self) -> str:
        """What a reader gets."""
        says = self.todo.says.format(*map(named, self.names))
        user = user_of_runuser() if self.user is None and isinstance(self.todo, OfFiles) else self.user
        return says if user is None else "as %s, %s" % (named(user), says)


class Quote(NamedTuple):
    """A line of a mailbox that is shown, by its number; as it is printed, without what is not printable; and whether it
    is shown only since it stands around another one."""

    line: int
    text: str
    is_around: bool = False


Step = Union[Answer, Task]
# one after the other, or the answers to one question
Next = tuple[Step, ...]
NOTHING: Next = ()


def line_of(words: Iterable[str]) -> str:
    """The words of a command as a shell reads them."""
    return " ".join(map(quoted, words))


def run_next(template: Template, *names: str, does: Phrase = Does.RUN) -> Next:
    """The command with these names, and nothing else."""
    return (Answer(Command.of(template, *names), does),)


def task(todo: Phrase, *names: str) -> Next:
    """A task, and nothing else."""
    return (Task(todo, names),)


@functools.lru_cache(maxsize=None)
def user_of_runuser() -> Optional[str]:
    """The account with whose rights root runs this by `runuser`, which waits for the end: then root types what is
    printed. None if nobody does so."""
    above = "/proc/%d" % os.getppid()
    try:
        with open(above + "/comm", "rb") as file:
            is_there = file.read() == RUNUSER.encode() + b"\n" and os.stat(above).st_uid == 0
        return pwd.getpwuid(os.geteuid()).pw_name if is_there and os.geteuid() else None
    except (OSError, KeyError):
        return None


def summed(answers: Sequence[Answer]) -> Answer:
    """The same answer to several questions, with how many messages it gives to all of them, if that is known."""
    known = [one.messages for one in answers if one.messages is not None]
    return answers[0]._replace(messages=sum(known) if len(known) == len(answers) else None)


def lines_of(several: Sequence[Step], letter: str = "") -> Iterator[str]:
    """A step, or the same one of several mailboxes: its sentence once, which has a letter if a human chooses by that,
    and each command."""
    answers = [one for one in several if isinstance(one, Answer)]
    tasks = [one for one in several if isinstance(one, Task)]
    if len({one.user for one in tasks}) > 1:
        tasks = [one._replace(user="each user") for one in tasks]
    yield from dict.fromkeys(BELOW + one.sentence() for one in tasks)
    if answers:
        yield "%s%s%s:" % (BELOW, letter, summed(answers).sentence())
    yield from dict.fromkeys(COMMAND + one.command.line() for one in answers)


def lines_below(quotes: Sequence[Quote], then: Next) -> Iterator[str]:
    """What stands below a row or a fault: lines of mail behind their numbers, of which those are marked that others
    stand around, and gaps between them; and what is to be done, each command by itself."""
    marks = ("> ", "  ") if any(quote.is_around for quote in quotes) else ("", "")
    for above, quote in zip((None, *quotes), quotes):
        if marks[0] and above and quote.line > above.line + 1:
            yield BELOW + ".."
        yield ("%s%s%d | %s" % (BELOW, marks[quote.is_around], quote.line, quote.text)).rstrip()
    for step in then:
        yield from lines_of([step])


def objects_of(then: Next, user: Optional[str] = None) -> list[dict[str, Any]]:
    """The same for programs. `user` is who runs what names no user, if that is said."""
    objects: list[dict[str, Any]] = []
    for step in then:
        if isinstance(step, Task):
            objects.append({"task": step.sentence()})
            continue
        command, by = step.command, user if step.command.user is None else step.command.user
        objects.append({"answer": step.does.word, **command.fields(), "user": by, "messages": step.messages})
    return objects
