"""What `kind` and `migrate` decide about mailboxes, and what each decision gives, against a splitter of the tests' own.

Of a mailbox that a program wrote, what is done without a word is the mail that the program was given, unless the row
says otherwise. Each command that is printed is run, and words are forced; the Maildir then has what the splitter has. A
word that is said of several mailboxes decides only about those that do not contradict it and ask nothing else, and in a
spool root runs what is printed for each user that is left."""
import re
import shlex
import shutil
from collections.abc import Iterator, Sequence
from random import Random
from typing import NamedTuple, Optional

from tests.support.printed import COMMAND
from tests.support.running import Row, typed
from tests.support.splitter import WORDS, begins_dated, contradictions, has_sure_lengths, lines_of, quoted_lines, split
from tests.support.splitter import without_deleted
from tests.worlds.fates.texts import done
from tests.worlds.fates.users import Homes
from tests.worlds.fates.world import World
from tests.worlds.letters import letters
from tests.worlds.stage import Stage
from tests.worlds.writers import WRITERS, Written

# what a row says of lines whose `>` may come from the mail or from a program
SAID_QUOTES = re.compile(r"`>+From ` (?:loses|keeps) .*? in (\d+) lines? \(--as (\w+)")
# the kinds of mailboxes whose lines `From ` are escaped, by the pages
ESCAPED = ("mboxrd or mboxo", "Google Groups' archive")
COUNTS = re.compile(r"(?m), messages (\d+)(?: to (\d+))?(?:[:;,]|$)")
QUOTES = re.compile(rb"(?m)^>*From ")
# a dated From_ line within a line, as a crash and a missing line end leave it, after an address too; after a blank, or
# a CR that begins the line, only before a header of mail: it is left whatever is said of several
DATED = rb"From \S+ [^\n]*\d\d:\d\d:\d\d [^\n]*\d{4}$"
DAMAGE = re.compile(
    rb"(?m)(?:[^>\s]|@[^<>\s]+>)%s|(?:[^>\s-]-*[ \t\r]|^\r)%s\n(?:[^\s:]+:.*\n)*?(?i:from|return-path|date):"
    % (DATED, DATED)
)
SAME = (("mboxrd", "mboxo"), ("mboxcl", "mboxcl2"), ("unquoted",))
NONE: frozenset[int] = frozenset()


class Answer(NamedTuple):
    """A command that was printed, as it was, what it decides, and how many messages it is to give."""

    command: str
    word: str
    mail: frozenset[int]
    begin: frozenset[int]
    drops: bool
    messages: Optional[int] = None

    def of(self, text: bytes) -> tuple[bytes, ...]:
        """What it makes of a text, by the splitter."""
        messages = split(text, self.word or "mboxrd", self.mail, self.begin)
        return tuple(sorted(without_deleted(messages) if self.drops else messages))


def numbers(words: list[str], option: str) -> frozenset[int]:
    """The numbers of lines that an option names."""
    values = [words[place + 1] for place, word in enumerate(words) if word == option]
    return frozenset(int(number) for value in values for number in value.split(","))


def answer_of(command: str) -> Answer:
    """What a printed command decides."""
    words = shlex.split(command)
    word = words[words.index("--as") + 1] if "--as" in words else ""
    return Answer(command, word, numbers(words, "--text"), numbers(words, "--begin"), "--drop-deleted" in words)


def answers_in(row: Row) -> list[Answer]:
    """The commands of a row, as root types those of a user."""
    answers = [one for one in row["next"] if "answer" in one]
    return [answer_of(typed(one))._replace(messages=one["messages"]) for one in answers]


def by_word(text: bytes, word: str) -> tuple[bytes, ...]:
    """The mail of a text by a word."""
    return tuple(sorted(split(text, word)))


def unquoted(message: bytes) -> bytes:
    """A message without any `>` before `From `."""
    return QUOTES.sub(b"From ", message)


class Trial:
    """A mailbox of a writer, and what is done to it."""

    def __init__(self, stage: Stage, written: Written) -> None:
        self.stage, self.place, self.written, self.text = stage, stage.place, written, written.text

    def begin(self) -> None:
        """Makes a fresh folder with the mailbox in it."""
        self.place.clear()
        self.place.write("box", self.text)

    def migrate(self, *options: str) -> Row:
        """Migrates the mailbox into a new Maildir, and returns the row."""
        self.begin()
        return self.place.run(["migrate", "--now", "--json", *options, "M", "box"]).row

    def look(self) -> Iterator[str]:
        """What `kind` counts is what a word gives."""
        self.begin()
        said = self.place.run(["kind", "box"]).output
        found = COUNTS.search(said)
        if not found:
            yield f"kind counts no messages: {said}"
            return
        answers = [answer_of(line.strip()) for line in said.splitlines() if line.startswith(COMMAND)]
        counts = {*(len(split(self.text, word)) for word in WORDS), len(self.written.pieces)}
        counts |= {len(answer._replace(drops=False).of(self.text)) for answer in answers}
        for number in filter(None, found.groups()):
            if int(number) not in counts:
                yield f"kind counts {number}, and the splitter {sorted(counts)}: {said}"

    def undecided(self, in_shell: bool) -> Iterator[str]:
        """What is made of it without a word."""
        row = self.migrate()
        yield from self.done(row) if row["verdict"] == "done" else self.left(row, in_shell)

    def done(self, row: Row) -> Iterator[str]:
        """What is done without a word is the mail that the writer was given, or the row says what is not."""
        mail, pieces = self.place.mail(), self.written.pieces
        if row["messages"] != len(mail):
            yield f"the row has {row['messages']} messages, the Maildir {len(mail)}"
        wanted = {one for piece in pieces for one in (piece.message, piece.sent)}
        strange = [one for one in mail if one not in wanted]
        says = SAID_QUOTES.findall(row["says"])
        for count, word in says:
            if quoted_lines(self.text)[word] != int(count):
                yield f"it says {count} lines as {word}, and there are {quoted_lines(self.text)[word]}: {row}"
        if len(mail) == len(pieces) and not strange:
            self.stage.seen["done, as it was given"] += 1
        elif sorted(map(unquoted, mail)) != sorted(unquoted(piece.message) for piece in pieces):
            yield f"done, and merged, cut or changed: {row}: {strange[:1]}"
        elif says:
            self.stage.seen["done, and says which `>` are doubtful"] += 1
        elif row["kind"].startswith(ESCAPED) and mail == by_word(self.text, "mboxrd"):
            self.stage.seen["done, as its kind says, and a `>` was the mail's own"] += 1
        else:
            yield f"done, with `>` lost or more, and nothing is said: {row}: {strange[:1]}"

    def left(self, row: Row, in_shell: bool) -> Iterator[str]:
        """Each command that is printed gives what the splitter has. By one of them the mail is as it was given, or the
        lines are shown that are in question."""
        answers = answers_in(row)
        if not answers:
            yield f"left without a command: {row}"
        results = []
        for answer in answers:
            self.begin()
            words = shlex.split(answer.command)
            ran = self.place.in_shell(answer.command) if in_shell else self.place.run(words)
            results.append(self.place.mail())
            if ran.status or results[-1] != answer.of(self.text):
                yield f"{answer.command}: {ran.status}, the mail is not the splitter's: {ran.output}"
            if len(results[-1]) != answer.messages:
                yield f"{answer.command}: gives {len(results[-1])} messages, and {answer.messages} were said"
        yield from self.shown(row)
        if tuple(sorted(self.written.messages)) in results:
            self.stage.seen["left, and a printed command gives what was given"] += 1
        elif row["lines"]:
            self.stage.seen["left, with lines that are shown"] += 1
        else:
            yield f"left, and no printed command gives the mail, nor is a line shown: {row}"

    def shown(self, row: Row) -> Iterator[str]:
        """The lines of a row are those of the text: whole, or their beginning, or what stands late in one, or a part of
        that."""
        lines = lines_of(self.text)
        for one in row["lines"]:
            line, says = lines[one["line"] - 1].rstrip(b"\n").decode("utf-8", "surrogateescape"), one["text"]
            late = says[3:] if says.startswith("...") else ""
            is_part = late.endswith("...") and late[:-3] in line
            is_right = says in (line, line[:72] + "...") or late and (line.endswith(late) or is_part)
            self.stage.seen["shown lines"] += 1
            if line.isprintable() and not is_right:
                yield f"line {one['line']} is shown as {says}, and is {line}"

    def forced(self, word: str) -> Iterator[str]:
        """By a word that is forced, the mail is that of the splitter. Lengths decide nothing if lines outside of them
        look like mail: then answers are printed."""
        row = self.migrate("--as", word)
        if row["verdict"] != "done":
            is_told = word in ("mboxcl", "mboxcl2") and contradictions(self.text, "outside") and answers_in(row)
            if not is_told and (word != "unquoted" or begins_dated(self.text)):
                yield f"--as {word}: {row['says']}"
            return
        mail = self.place.mail()
        if mail != by_word(self.text, word):
            yield f"--as {word}: the mail is not the splitter's: {row}"
        if row["messages"] != len(mail):
            yield f"--as {word}: the row has {row['messages']} messages, the Maildir {len(mail)}"


def written_of(seed: int, name: str = "") -> Written:
    """The mailbox of a seed, by the writer whose turn it is."""
    draw, names = Random(seed), list(WRITERS)
    return WRITERS[name or names[seed % len(names)]](draw, letters(draw))


def one_mailbox(stage: Stage, seed: int) -> Iterator[str]:
    """The mailbox of a writer: without a word, and by two."""
    trial = Trial(stage, written_of(seed))
    yield from trial.look()
    yield from trial.undecided(in_shell=seed % 10 == 0)
    for word in (WORDS[seed % len(WORDS)], WORDS[(seed + 1 + seed // len(WORDS) % 4) % len(WORDS)]):
        yield from trial.forced(word)


def drawn(draw: Random) -> tuple[str, Written]:
    """A small mailbox, with the name of its writer."""
    name = draw.choice(list(WRITERS))
    return name, WRITERS[name](draw, letters(draw, 4))


def in_a_tree(stage: Stage, seed: int) -> Iterator[str]:
    """A word is said for a folder of mailboxes."""
    draw, place = Random(f"tree {seed}"), stage.place
    word, boxes = draw.choice(WORDS), dict(drawn(draw) for _ in range(6))
    place.clear()
    for name, written in boxes.items():
        place.write(f"old/a-{name}", written.text)
    ran = place.run(["migrate", "--now", "--json", "--as", word, "M", "old"])
    for name, written in boxes.items():
        row = ran.of(f"old/a-{name}")
        for line in wrong_of_several(written.text, word, row, place.mail(f"M/.a-{name}")):
            yield f"--as {word}, {name}: {line}: {row}"


def wrong_of_several(text: bytes, word: str, row: Row, mail: tuple[bytes, ...]) -> Iterator[str]:
    """What is wrong with the row of a mailbox for which a word was said as for several, and with its mail."""
    lines, is_damaged = contradictions(text, word), DAMAGE.search(text.lstrip(b"\0")) is not None
    messages = split(text, "mboxrd")
    if row["verdict"] == "left":
        if not (lines or is_damaged or without_deleted(messages) != messages or not is_printed(word, row)):
            yield "left, and nothing contradicts the word"
    elif lines and not has_sure_lengths(text):
        yield f"done, and line {lines[0]} contradicts the word"
    elif is_damaged:
        yield "done, and a message begins within a line"
    elif by_word(text, "mboxcl2" if has_sure_lengths(text) else word) != mail:
        yield "the mail is not the splitter's"


def is_printed(word: str, row: Row) -> bool:
    """Whether a word by which the same lines begin messages is one of the answers that a row prints."""
    same = next(some for some in SAME if word in some)
    return any(one.word in same and not one.mail | one.begin for one in answers_in(row))


def in_a_spool(stage: Stage, seed: int) -> Iterator[str]:
    """Users have such mailboxes in a spool."""
    draw, place, boxes = Random(f"users {seed}"), stage.place, {}
    place.clear(is_for_users=True)
    homes = Homes(World(place.home), stage.users())
    for user in homes.who.names:
        boxes[user] = drawn(draw)
        homes.own(bytes(homes.home(user)), user)
        homes.mailbox(user, done(boxes[user][1].text))
    homes.world.finish()
    for row in place.run(["migrate", "--users", "--now", "--json", "spool", *boxes]).rows:
        yield from wrong_of_user(stage, row, *boxes[row["user"]])


def wrong_of_user(stage: Stage, row: Row, writer: str, written: Written) -> Iterator[str]:
    """What is wrong with the mail of a user that is done, or with the commands that are printed for one that is
    left."""
    maildir, answers = stage.users().home(row["user"]) / "Maildir", answers_in(row)
    if row["verdict"] == "done":
        count, counts = len(stage.place.mail(str(maildir))), {len(written.pieces)}
        if writer == "export":
            # it does not quote: pasted mail begins a message in it
            counts.add(len(split(written.text, written.word)))
        if count not in counts:
            yield f"{count} messages, and {len(written.pieces)} were given: {row}"
    elif not answers:
        yield f"left without a command: {row['says']}"
    for answer in answers if row["verdict"] != "done" else ():
        shutil.rmtree(str(maildir), ignore_errors=True)
        ran = stage.place.in_shell(answer.command)
        if ran.status or stage.place.mail(str(maildir)) != answer.of(written.text):
            yield f"{answer.command}: {ran.output}"


def wrong_splitter(seeds: Sequence[int]) -> Iterator[str]:
    """What the splitter reads otherwise than a writer wrote it, by the writer's word. What git or an export wrote, and
    what was damaged, may be read in another way."""
    for name in sorted({*WRITERS} - {"git", "export", "crashed", "joined"}):
        for seed in seeds:
            written = written_of(seed, name)
            if split(written.text, written.word) != written.messages:
                yield f"{name} {seed} as {written.word}: {split(written.text, written.word)}"
