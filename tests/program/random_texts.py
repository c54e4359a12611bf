"""Random texts through the built program: listings, names and bytes must be those of the independent listing. The
companion must read the same messages, in blocks of any size, and must say for each what was done to its file.

Then random lists of such texts go into one Maildir, with killed runs and a mail reader between them. Each message of
each text must be there once, and no other file.
"""
import collections
import hashlib
import importlib
import io
import json
import os
import random
import shutil
import subprocess
import tempfile
import time
import typing
from collections.abc import Callable, Sequence
from functools import partial
from pathlib import Path
from typing import Any, Union

from tests.support.cases import run_cases
from tests.support.checks import equal, program
from tests.support.homes import ADMIN, mail_in
from tests.support.oracle import listing, messages_of

# files of a Maildir, each by its folder and name
Files = dict[tuple[str, str], bytes]
# the companion's readers of a text
Readers = list[Any]

STARTS = [b"From a\n", b"From  x y\n", b"From a\tb@c Thu Jan  1 00:00:00 1970\r\n", b"From \n"]
LINES = [
    *STARTS,
    b">From b\n",
    b">>From c\n",
    b"From a\rSubject: b\r\r\n",
    b"> From d\n",
    b"From\n",
    b"\n",
    b"\n",
    b"\r\n",
    b"Status: RO\n",
    b"STATUS: FA\n",
    b"X-Status: AD\n",
    b"abc\n",
    b"\xff\0\n",
    b">\n",
]


def any_text(dice: random.Random) -> bytes:
    """A random text, which may end in the middle of a line."""
    text = b"".join([dice.choice(STARTS), *dice.choices(LINES, k=dice.randrange(12))])
    return text[:-1] if dice.randrange(3) == 0 and len(text) > 6 else text


def wanted(text: bytes) -> tuple[bytes, Files]:
    """The listing of a text, and each of its files by folder and name."""
    listed = list(listing(io.BytesIO(text)))
    files = {}
    for line, (_, body) in zip(listed, messages_of(io.BytesIO(text))):
        _, base, place, info, *_ = line.split(" ")
        files[place, base if info == "-" else f"{base}:{info}"] = body
    return "".join(listed).encode(), files


def run(text: bytes, *words: Union[str, Path]) -> bytes:
    """What the program prints for a text, which it takes without a fault."""
    done = subprocess.run([program(), *words], input=text, capture_output=True, check=False)
    equal(f"{words} of {text!r}: status and standard error", (done.returncode, done.stderr), (0, b""))
    return done.stdout


def texts_of(maildir: Path) -> Files:
    """The files of a Maildir, with their contents."""
    return {(path.parent.name, path.name): path.read_bytes() for path in mail_in(maildir, ("tmp", "new", "cur"))}


def check_text(text: bytes, maildir: Path) -> None:
    """A text is listed, converted and spelled as the independent listing has it."""
    listed, files = wanted(text)
    count = len(files)
    equal(f"list of {text!r}", run(text, "list"), listed)
    expected = f"messages {count}, there 0, placed {count}, swept 0\n".encode()
    equal(f"convert of {text!r}", run(text, "convert", maildir), expected)
    equal(f"the files of {text!r}", texts_of(maildir), files)
    spelled = run(text, "rewrite")
    equal(f"rewrite twice of {text!r}", run(spelled, "rewrite"), spelled)


def companion() -> Readers:
    """The companion's readers of a text, as modules."""
    return [importlib.import_module(f"mbox2maildir_admin.mbox.{name}") for name in ("pieces", "mailbox", "inventory")]


def check_read(modules: Readers, dice: random.Random, text: bytes, file: Path) -> None:
    """The companion reads the messages of the independent listing, one by one and those that are plain at once, and
    each byte and line belongs to one of them."""
    file.write_bytes(text)
    block, long = dice.choice([1, 2, 3, 5, 8, 64, 1 << 20]), dice.choice([6, 8, 12, 998])
    for module in modules:
        module.BLOCK, module.LONG = block, long
    _, mailbox_module, inventory_module = modules
    with mailbox_module.Mailbox.open(file) as source:
        found = list(inventory_module.messages_of(source, 0))
        whole = inventory_module.Inventory.read(source, 0, None)
        lines = list(whole.lines)
    digests = [(len(body), hashlib.sha256(body).digest()) for _, body in messages_of(io.BytesIO(text))]
    what = f"what the companion reads of {text!r} in blocks of {block}"
    equal(what, [(one.size, one.digest) for one in found], digests)
    equal(f"{what}: bytes", sum(one.read for one in found), len(text))
    equal(f"{what}, at once", list(zip(whole.sizes, (base[:32] for base in whole.table.bases()))), digests)
    equal(f"{what}: lines", lines, [text.count(b"\n", 0, one.offset) + 1 for one in found])


def change_files(dice: random.Random, maildir: Path) -> tuple[int, int, int, int]:
    """Some files are removed, changed, or named as other programs do. Returns how many messages are then there, under
    another name, with other bytes, and nowhere."""
    states = collections.Counter()  # type: typing.Counter[str]
    missing = collections.Counter()  # type: typing.Counter[str]
    copies = collections.Counter()  # type: typing.Counter[str]
    for number, ((sub, name), _) in enumerate(sorted(texts_of(maildir).items())):
        path, base = maildir / sub / name, name.split(":")[0]
        change = dice.randrange(8)
        if change == 0:
            path.write_bytes(path.read_bytes() + b"x")
            states["other"] += 1
        elif change > 3:
            path.rename(maildir / "cur" / f"{base}:2,{dice.choice(['', 'S', 'FS'])}")
            states["there"] += 1
        else:
            missing[base[:64]] += 1
            copies[base[:64]] += change > 1
            if change > 1:
                path.rename(maildir / "cur" / (f"{base},U={number}:2,S" if change == 2 else f"17.M{number}.host:2,"))
            else:
                path.unlink()
    renamed = sum(min(missing[digest], copies[digest]) for digest in missing)
    return states["there"], renamed, states["other"], sum(missing.values()) - renamed


def check_verified(dice: random.Random, text: bytes, maildir: Path, file: Path) -> None:
    """Each message is counted as what became of it."""
    file.write_bytes(text)
    messages = list(messages_of(io.BytesIO(text)))
    there, renamed, other, nowhere = change_files(dice, maildir)
    doubt = any(b"\r" in from_line[:-1] for from_line, _ in messages)
    done = subprocess.run(
        [ADMIN, "verify", "--json", maildir, file],
        capture_output=True,
        check=False,
        env={**os.environ, "PATH": f"{Path(program()).parent}:{os.environ['PATH']}"},
        text=True,
    )
    row = json.loads(done.stdout.split("\n")[0])
    found = {word: row["counts"][word] for word in ("there", "renamed", "other-bytes", "nowhere", "double")}
    counts = {"there": there, "renamed": renamed, "other-bytes": other, "nowhere": nowhere, "double": 0}
    sizes = len(messages), sum(len(body) for _, body in messages)
    equal(f"verify of {text!r}", (row["messages"], row["bytes"], found, done.stderr), (*sizes, counts, ""))
    equal(f"verify of {text!r}: status", done.returncode, int(bool(nowhere or other or doubt)))


def kill_run(dice: random.Random, text: bytes, maildir: Path) -> None:
    """A run that is killed before it has read its source to the end."""
    with subprocess.Popen([program(), "convert", maildir], stdin=subprocess.PIPE, stdout=subprocess.DEVNULL) as running:
        assert running.stdin
        running.stdin.write(text[: dice.randrange(len(text))])
        running.stdin.flush()
        time.sleep(dice.random() / 200)
        running.kill()


def read_mail(dice: random.Random, maildir: Path) -> None:
    """A mail reader moves some messages to `cur`, and gives others flags."""
    for sub, name in texts_of(maildir):
        if sub != "tmp" and dice.randrange(3) == 0:
            base = name.split(":")[0]
            os.rename(maildir / sub / name, maildir / "cur" / f"{base}:2,{dice.choice(['', 'S', 'FS', 'T'])}")


def check_list(dice: random.Random, some: Sequence[bytes], maildir: Path) -> None:
    """Each message of texts that are delivered one after the other is there once."""
    bodies = {}  # type: dict[str, bytes]
    for text in some:
        while dice.randrange(2):
            kill_run(dice, dice.choice(some), maildir)
        run(text, "convert", maildir)
        read_mail(dice, maildir)
        bodies.update((name.split(":")[0], body) for (_, name), body in wanted(text)[1].items())
    # what a killed run left in tmp is gone after the run that follows
    files = texts_of(maildir)
    found = sorted((name.split(":")[0], body) for (_, name), body in files.items())
    equal(f"bases and bodies of {some}", found, sorted(bodies.items()))


def companion_reads(work: Path) -> None:
    """The companion reads 5000 texts as the independent listing has them."""
    modules = companion()
    for seed in range(5000):
        check_read(modules, random.Random(seed), any_text(random.Random(seed)), work / "text")


def texts(work: Path) -> None:
    """150 texts are listed, converted and spelled as the independent listing has them."""
    maildir = work / "maildir"
    for seed in range(150):
        text = any_text(random.Random(seed))
        check_text(text, maildir)
        if seed % 2:
            check_verified(random.Random(seed), text, maildir, work / "text")
        shutil.rmtree(maildir)


def lists(work: Path) -> None:
    """60 lists of texts are delivered by runs that are killed, with a mail reader between them."""
    for seed in range(60):
        dice = random.Random(seed)
        maildir = work / "maildir"
        check_list(dice, [any_text(dice) for _ in range(dice.randrange(1, 5))], maildir)
        shutil.rmtree(maildir)


def in_a_folder(case: Callable[[Path], None]) -> None:
    """Runs a case in a fresh folder."""
    with tempfile.TemporaryDirectory() as work:
        case(Path(work))


if __name__ == "__main__":
    run_cases({case.__name__: partial(in_a_folder, case) for case in (companion_reads, texts, lists)})
