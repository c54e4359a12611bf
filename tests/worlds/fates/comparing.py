"""Runs the companion in a world, and compares its rows, its sums, its status and its Maildirs with what must become of
the names of the world."""
import collections
import json
import os
from collections.abc import Iterator, Sequence
from pathlib import Path
from typing import Optional

from tests.support.checks import LATER, without_progress
from tests.support.running import Desk, Row, Run
from tests.worlds.fates.texts import Fate
from tests.worlds.fates.world import INBOX, Choice, Thing, World
from tests.support.place import Place

# the words of a fate in a first run, in a further run, and in one that makes nothing
FIRST, AGAIN, DRY = "done", "done before", "would be done"


def migrate(world: World, desk: Desk, options: Sequence[str] = ()) -> Run:
    """Runs `migrate` in a world, as its user."""
    if isinstance(desk, Place):
        desk.account = None if world.is_for_users else desk.owner
    words = ["migrate", "--all", "--json", *options, *world.options, "--", *map(os.fsdecode, world.words)]
    return desk.run(words, given=world.input)


class Comparison:
    """A run, and what is wrong with it."""

    def __init__(self, world: World, ran: Run, done: str = FIRST) -> None:
        # what is done is said by this word
        self.world, self.ran, self.done = world, ran, done
        # the rows of each thing, and those of nothing that was made
        self.rows: dict[Thing, list[Row]] = collections.defaultdict(list)
        self.strange: list[Row] = []
        things = {key: thing for thing in world.things for key in thing.keys}
        for row in ran.rows:
            thing = things.get((row["user"] or "", path_of(row)))
            (self.rows[thing] if thing else self.strange).append(row)

    def all_wrong(self) -> Iterator[str]:
        """A line for each thing that is wrong."""
        errors = without_progress(self.ran.err)
        if errors:
            yield f"standard error: {errors.strip()[-600:]}"
        yield from (f"a row of nothing that was made: {brief(row)}" for row in self.strange)
        for choice in self.world.choices:
            yield from self.wrong_choice(choice)
        yield from self.wrong_sum()
        left, done = self.world.count(Fate.LEFT), self.world.count(Fate.DONE)
        # another run settles what is locked, and nothing is well where there was no mailbox, nor a file passed over
        is_some = done or any(thing.is_spared for thing in self.rows)
        is_later = {row["reason"] for row in self.ran.rows if row["verdict"] == "left"} == {"locked"}
        if self.ran.status != (0 if is_some and not left else LATER if is_later else 1):
            yield f"status {self.ran.status}, where {left} are left, and {done} done"

    def wrong_choice(self, choice: Choice) -> list[str]:
        """One of several things has its fate, and the others are left."""
        found: list[str] = []
        for one in choice.things:
            found = list(self.wrong_rows(one))
            for other in choice.things:
                found += self.wrong_rows(other, Fate.LEFT) if other is not one else []
            if not found:
                break
        return found

    def wrong_rows(self, thing: Thing, instead: Optional[Fate] = None) -> Iterator[str]:
        """What is wrong with the rows of a thing, which may have another fate than its own."""
        rows, fate = self.rows[thing], instead or thing.fate
        verdicts = {Fate.DONE: self.done_words(thing), Fate.LEFT: {"left"}, Fate.NO_MAIL: {"no mail"}}
        wanted = verdicts[Fate.NO_MAIL if thing.is_spared and not instead else fate]
        if len(rows) != 1:
            yield f"{thing}: it has {len(rows)} rows: {list(map(brief, rows))}"
        for row in rows:
            says = "by --no-mail" if thing.is_spared else thing.says
            folder = thing.folder if fate == Fate.DONE else row["folder"] if thing.says != "link" else None
            if row["verdict"] not in wanted:
                yield f"{thing}: {wanted} is wanted: {brief(row)}"
            elif row["folder"] != folder:
                yield f"{thing}: the folder {folder} is wanted: {brief(row)}"
            elif not instead and row["verdict"] != AGAIN and says not in texts_of(row):
                yield f"{thing}: its row does not say {says!r}: {brief(row)}"

    def done_words(self, thing: Thing) -> set[str]:
        """The words that may be said of what must be done. No record has a mailbox without mail, so it is done
        anew."""
        return {self.done} | ({FIRST} if self.done == AGAIN and not thing.messages else set())

    def wrong_sum(self) -> Iterator[str]:
        """What is wrong with the sums."""
        sums, world = self.ran.sums, self.world
        verdicts = sums["verdicts"]
        got = (sum(verdicts[word] for word in (FIRST, AGAIN, DRY)), verdicts["left"], verdicts["no mail"])
        wanted = (world.count(Fate.DONE), world.count(Fate.LEFT), world.count(Fate.NO_MAIL))
        if got != wanted or sum(got) != sum(verdicts.values()):
            yield f"the sums are to be {wanted[0]} done, {wanted[1]} left; {wanted[2]} no mail: {sums['says']}"
        several = [thing for thing, rows in self.rows.items() for row in rows if row["verdict"] in (FIRST, DRY)]
        messages = sum(len(thing.messages) for thing in several)
        if sums["messages"] != messages:
            yield f"what was done has {messages} messages: {sums['says']}"
        name = "name" if world.not_asked == 1 else "names"
        if (f"; {world.not_asked} {name} of the spool w" in sums["says"]) != (world.not_asked > 0):
            yield f"{world.not_asked} names of the spool were not asked for: {sums['says']}"


def path_of(row: Row) -> bytes:
    """The path of a row."""
    return bytes.fromhex(row["path_hex"]) if "path_hex" in row else os.fsencode(row["path"])


def brief(row: Row) -> str:
    """A row in short."""
    return " ".join(f"{row[one]}" for one in ("user", "path", "folder", "kind", "verdict", "reason", "says"))


def texts_of(row: Row) -> str:
    """All that a row says, also as its line has it."""
    return f"{brief(row)} {row['kind']}: {row['says']} {json.dumps(row['next'])}"


def folder_on_disk(folder: str) -> bytes:
    """The folder of a Maildir, below it, by the name that a human gives."""
    return b"" if folder == INBOX else b"." + folder.replace("/", ".").encode()


def files_of(folder: bytes) -> collections.Counter[bytes]:
    """The messages in a folder of a Maildir."""
    several = (Path(os.fsdecode(folder), sub).glob("*") for sub in ("new", "cur"))
    return collections.Counter(path.read_bytes() for paths in several for path in paths)


def wrong_maildirs(world: World, things: list[Thing]) -> Iterator[str]:
    """Each Maildir has the messages of what is done, byte for byte, and nothing else."""
    wanted: dict[tuple[str, bytes], collections.Counter[bytes]] = collections.defaultdict(collections.Counter)
    for user, maildir in world.maildirs.items():
        there = [name for name in os.listdir(maildir) if name.startswith(b".")] if os.path.isdir(maildir) else []
        wanted.update({(user, name): collections.Counter() for name in (b"", *there)})
    made = {*wanted}
    for thing in things:
        if thing.folder is not None:
            wanted[thing.owner, folder_on_disk(thing.folder)].update(thing.messages)
    for (user, name), mail in wanted.items():
        found = files_of(os.path.join(world.maildirs[user], name))
        for text, count in (mail - found).items():
            yield f"{user} {name!r}: {count} times not there: {text[:90]!r}"
        for text, count in (found - mail).items():
            yield f"{user} {name!r}: {count} times too often there: {text[:90]!r}"
        is_its = any((one.owner, folder_on_disk(one.folder or INBOX)) == (user, name) for one in things)
        if name and ((user, name) in made) != is_its:
            yield f"{user} {name!r}: {'nothing goes into this folder' if (user, name) in made else 'no such folder'}"


def things_done(comparison: Comparison) -> list[Thing]:
    """What is to be in the Maildirs. Of several names of one file, the one with a row counts."""
    found = []
    for choice in comparison.world.choices:
        several = [thing for thing in choice.things if thing.fate == Fate.DONE]
        rows = [thing for thing in several if any(row["verdict"] == FIRST for row in comparison.rows[thing])]
        found += rows[:1] if len(choice.things) > 1 else several
    return found


def seen_of(world: World) -> tuple[dict[bytes, tuple[int, ...]], list[bool]]:
    """What is in the world, and which of its Maildirs are there."""
    return world.state(), [os.path.lexists(path) for path in world.maildirs.values()]


def wrong_dry_run(world: World, desk: Desk) -> Iterator[str]:
    """What is wrong with a run that makes nothing."""
    before = seen_of(world)
    yield from Comparison(world, migrate(world, desk, ["--dry-run"]), DRY).all_wrong()
    if before != seen_of(world):
        yield "it made or changed something"


def wrong_runs(world: World, desk: Desk) -> Iterator[str]:
    """What is wrong with a run or, if nothing is, with a further one."""
    before = world.state()
    first = Comparison(world, migrate(world, desk))
    wrong = list(first.all_wrong())
    done = things_done(first)
    yield from (*wrong, *wrong_maildirs(world, done))
    if not wrong:
        again = Comparison(world, migrate(world, desk), AGAIN)
        yield from (f"again: {line}" for line in (*again.all_wrong(), *wrong_maildirs(world, done)))
    after = world.state()
    yield from (f"it changed: {path!r}" for path in sorted({*before, *after}) if before.get(path) != after.get(path))


def differences(world: World, desk: Desk, is_dry: bool = False) -> list[str]:
    """Runs a world, after a run that makes nothing if that is wanted. Returns what is wrong."""
    wrong = [f"--dry-run: {line}" for line in wrong_dry_run(world, desk)] if is_dry else []
    return wrong or list(wrong_runs(world, desk))
