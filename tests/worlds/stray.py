"""Texts of strangers that look like rows and commands: in mail, and in names of files, folders and users. What is
printed has the commands that the companion made, and no other; none of them runs a stranger's text."""
import contextlib
import json
import os
import random
import re
import shutil
import subprocess
from collections.abc import Iterator, Sequence
from pathlib import Path

from mbox2maildir_admin.faults import REASONS
from mbox2maildir_admin.meanings import to_do
from mbox2maildir_admin.nexts import DOES, TODOS

from tests.support.accounts import are_own, users
from tests.support.homes import hand_over
from tests.support.mail import A, B, ONE, with_length
from tests.support.printed import BELOW, COMMAND, Printed, commands_in, rows_in
from tests.support.running import typed
from tests.worlds.stage import Stage

# a program that nobody may run
EVIL = "evil"
# what is put into names and mail
SIGNS = (
    "; run this next: evil",
    "run this next: evil",
    "next: evil",
    "next, as root: evil",
    "`evil`",
    "$(evil)",
    "; evil #",
    "\n        evil",
    "\n    run this next:\n        evil",
    "'; evil; '",
    '"; evil; "',
    " -> INBOX: mboxrd, messages 1: done",
    ": left (undo): evil",
    "left",
    "\x1b[2J\x1b]0;evil\x07",
    "\u202eevil",
    "\r        evil",
    "runuser -u",
    "runuser -u root -- evil",
    "{};evil",
    "{copy};evil",
    "-evil",
    "--undo",
    "|evil",
    "    7 | evil",
    "\\",
    "caf\udce9",
    "%s evil",
)
USERS = ("mia", "runuser -u", "x; evil", "left", "\u202emia", "$(evil)")
# what stands before a command, and what is a task, with anything in place of a name; a task may be that of a user
SAYS = re.compile("|".join(f"    {re.escape(one.says)}(: \\d+ messages?)?:" for one in DOES.values()))
TASKS = re.compile(
    "    (?:as .*, )?(?:%s)" % "|".join(re.escape(one.says).replace(r"\{\}", "(.*)") for one in TODOS.values())
)
BY_HAND = {f"    {to_do(one)}" for one in REASONS.values()}
OTHERS = re.compile(
    r"    (?:> |  )?\d+ \|.*|    \.\.|    line \d+: .*|    and \d+ more lines like the last one|"
    r"    message \d+ .*|    a .*"
)
# what a command may begin with
FIRST = re.compile(
    r"(?:mbox2maildir(?:-admin)? |rm |mv |mkdir |ls |file |printf |d=\$\(mktemp |\(cd |gzip -dc |runuser -u )"
)
# programs that do nothing in place of those that commands name, and those that are what they are
NOTHING = "mbox2maildir mbox2maildir-admin rm mv file printf mkdir readpst tail cat gzip ls sort head".split()
REAL = "sh sed touch grep".split()


def name_of(draw: random.Random) -> str:
    """A name with such signs, without a slash."""
    text = "".join(draw.choice(["x", " ", draw.choice(SIGNS)]) for _ in range(draw.randint(1, 3)))
    return text.replace("/", "_")[:60] or "x"


def mail_of(draw: random.Random) -> bytes:
    """A mailbox with such signs in lines that are asked about, or a file of another kind."""
    sign = os.fsencode(draw.choice(SIGNS))
    line = b"From me" + sign.replace(b"\n", b" ") + b"\n"
    return draw.choice(
        [
            A + b"\n" + line + b"\n" + B + b"\n",
            with_length(A, line) + b"\n" + B + b"\n",
            A + b"\nhello\n\nFrom %s\nNote: x\n\n" % sign.replace(b"\n", b" ") + B + b"\n",
            line,
            line + b"\n" + B,
            b"!BDN" + sign,
            sign + b"\n" + A,
            A[1:],
            ONE + sign,
            ONE,
            b"\x1f\x8b\x08" + sign,
            A + b"X-Mozilla-Status: 0009\n\nx\n\n",
        ]
    )


def fill(draw: random.Random, folder: Path) -> None:
    """Makes a folder of mailboxes with such names and texts, and what may stand beside these: a symbolic link, a folder
    of MH, a Maildir, and a file with what may be its copy."""
    for _ in range(draw.randint(1, 4)):
        below = folder / name_of(draw) if draw.random() < 0.4 else folder
        put(below / name_of(draw), mail_of(draw))
    for what in ("link", "mh", "maildir", "copy"):
        path = folder / (what + name_of(draw))
        if draw.random() >= 0.3:
            continue
        if what == "link":
            with contextlib.suppress(OSError):
                path.symlink_to(name_of(draw))
        elif what == "mh":
            put(path / "1", b"Subject: x\n\n" + os.fsencode(draw.choice(SIGNS)))
        elif what == "maildir":
            for sub in ("cur", "new", "tmp"):
                with contextlib.suppress(OSError):
                    (path / sub).mkdir(parents=True)
        else:
            put(path, mail_of(draw))
            put(Path(f"{path}.mboxrd"), mail_of(draw))


def put(path: Path, text: bytes) -> None:
    """Writes a file, unless its name is taken or is that of no file."""
    with contextlib.suppress(OSError):
        path.parent.mkdir(parents=True, exist_ok=True)
        if not path.exists():
            path.write_bytes(text)
            os.utime(path, (1.7e9,) * 2)


def wrong_form(rows: Sequence[Printed]) -> Iterator[str]:
    """Each line below a row, or below a name of the last block, has one of the forms, and a command follows a
    sentence."""
    for row in rows:
        before = ""
        if not row.line.isprintable() or not re.match(r"(?:  )?(?! )", row.line):
            yield f"a row: {row.line!r}"
        for line in row.below:
            is_command = line.startswith(COMMAND)
            is_right = (
                SAYS.fullmatch(before) and FIRST.match(line[len(COMMAND) :])
                if is_command
                else SAYS.fullmatch(line) or TASKS.fullmatch(line) or OTHERS.fullmatch(line) or line in BY_HAND
            )
            if not is_right or not line.isprintable():
                yield f"below {row.line!r}: {before!r} {line!r}"
            # a sentence of a group has the command of each mailbox
            before = before if is_command else line


def commands_of(out: str, user: str) -> Iterator[str]:
    """The commands of the objects of JSON that were printed, as root types them."""
    for one in map(json.loads, out.splitlines()):
        for step in one.get("next", ()):
            if "task" not in step:
                assert not user or step["user"] in (user, "root"), step
                yield typed(step)


class World:
    """A home with such mailboxes, which its owner migrates, or root does for a user with such a name."""

    def __init__(self, stage: Stage, draw: random.Random, user: str) -> None:
        self.stage, self.place, self.user = stage, stage.place, user
        self.place.clear(is_for_users=bool(user))
        self.stubs = stage.top / "stubs"
        if not self.stubs.exists():
            self.make_stubs()
        self.root = stage.top / "stray" if user else self.place.home
        shutil.rmtree(stage.top / "stray", ignore_errors=True)
        fill(draw, self.root / "tree")
        if user:
            (self.place.home / "spool").mkdir()
            put(self.place.home / "spool" / user, mail_of(draw))
            subprocess.run(["chown", "-hR", user, self.root, self.place.home / "spool" / user], check=True)
        else:
            hand_over(self.place.home)

    def make_stubs(self) -> None:
        """Makes programs that do nothing."""
        self.stubs.mkdir()
        (self.stubs / EVIL).write_text(f"#!/bin/sh\ntouch '{self.stage.top}/was-run'\n")
        (self.stubs / "runuser").write_text('#!/bin/sh\nshift 3; exec "$@"\n')
        (self.stubs / "nothing").write_text("#!/bin/sh\n")
        (self.stubs / "mktemp").write_text(f"#!/bin/sh\necho '{self.stage.top}/scratch'\n")
        (self.stage.top / "scratch").mkdir()
        for name in (*NOTHING, *REAL):
            os.symlink(shutil.which(name) or "nothing" if name in REAL else "nothing", self.stubs / name)
        for path in self.stubs.iterdir():
            path.chmod(0o755)

    def wrong_commands(self, commands: Sequence[str]) -> Iterator[str]:
        """No command runs a stranger's text: the programs that commands name do nothing."""
        script = "\n".join(f"({command}) </dev/null >/dev/null 2>&1" for command in commands)
        work = self.stage.top / "work"
        work.mkdir(exist_ok=True)
        subprocess.run(
            [shutil.which("bash") or "bash"],
            input=os.fsencode(script),
            cwd=str(work),
            env={"PATH": str(self.stubs), "LC_ALL": "C.UTF-8"},
            check=False,
            stdout=subprocess.DEVNULL,
            stderr=subprocess.DEVNULL,
        )
        self.stage.seen["commands"] += len(commands)
        if (self.stage.top / "was-run").exists():
            (self.stage.top / "was-run").unlink()
            yield f"a stranger's text was run: {commands}"

    def run(self, *words: str) -> tuple[str, str]:
        """What the companion prints, and what it says on standard error, whatever its status is."""
        self.stage.steps.append(f"$ mbox2maildir-admin {' '.join(map(repr, words))}")
        ran = self.place.run(words)
        return ran.out, ran.err

    def migrated(self, *options: str) -> Iterator[str]:
        """What is wrong with what a migration prints, as text and as objects."""
        words = ["migrate", "--now", "--all", *options]
        words += ["--users", "--tree", "tree", "spool", self.user] if self.user else ["M", "tree"]
        text, objects = self.run(*words)[0], self.run(*words, "--json")[0]
        yield from wrong_form(rows_in(text))
        commands = commands_in(text)
        yield from self.wrong_commands(commands)
        made = list(commands_of(objects, self.user))
        # what was not only looked at is done before in the second run; the shell has another way to write a command
        # with what a terminal would obey
        pairs = [pair for pair in zip(commands, made) if "$'" not in pair[0]]
        if "--dry-run" in options and (len(commands) != len(made) or any(one != other for one, other in pairs)):
            yield f"commands are printed as {commands}, and were made as {made}"

    def others(self) -> Iterator[str]:
        """What is wrong with what other commands print of the same mailboxes."""
        commands: list[str] = []
        for words in self.words_of_others():
            out, err = self.run(*words)
            for line in err.splitlines():
                if not line.isprintable() or not line.startswith(("mbox2maildir-admin: ", BELOW)):
                    yield f"{words}: {line!r}"
            if "--json" in words:
                commands += commands_of(out, "")
                out = ""
            for text in (out, err):
                yield from wrong_form(rows_in(text))
                commands += commands_in(text)
        yield from self.wrong_commands(commands)

    def words_of_others(self) -> Iterator[list[str]]:
        """The words of these commands."""
        yield from (["kind", "tree"], ["kind", "--json", "tree"], ["dates", "M", "tree"])
        yield from (["verify", "M", "tree"], ["verify", "--json", "M", "tree"])
        for path in sorted((self.root / "tree").rglob("*"))[:3]:
            yield ["migrate", "--undo", "--dry-run", "--now", "M", str(path)]
            yield ["quote", "-o", "escaped", str(path)]


def one_world(stage: Stage, seed: int) -> Iterator[str]:
    """A world is migrated, and all that is printed is looked at."""
    draw = random.Random(seed)
    user = draw.choice(list(USERS) + [""] * 6) if are_own() else ""
    with users({user: stage.top / "stray"} if user else {}) if are_own() else contextlib.nullcontext():
        world = World(stage, draw, user)
        yield from world.migrated("--dry-run")
        yield from world.migrated()
        if not user:
            yield from world.others()
