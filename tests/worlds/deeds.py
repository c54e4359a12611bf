"""What people and programs do between runs: with mailboxes, with mail in the Maildir, with its folders, and with what
a backup has."""
import gzip
import shutil
from pathlib import Path
from typing import Optional

from tests.support.ledgers import LEDGER, RECORD
from tests.worlds.history import INBOX, Box, Deeds, History, kill_at
from tests.worlds.letters import content, numbered
from tests.worlds.rewriters import BY_HAND, BY_PROGRAM, appended_unquoted, by_procmail

# what a backup has, by the parts that come from it alone
PARTS = {"folder": [".*"], "record": [RECORD], "ledger": [LEDGER, f".*/{LEDGER}"]}


def rewritten(tree: History) -> None:
    """A program, or a person, rewrites a mailbox."""
    box = tree.draw.choice(tree.plain())
    ways = [one for one in BY_HAND if one is not appended_unquoted or tree.draw.random() < 0.1]
    for name, some in BY_PROGRAM.items():
        if shutil.which(name) and (name != "dovecot" or tree.is_served(box)):
            ways += some
    way = tree.draw.choice(ways)
    tree.rewrite(box, way)


def moved_message(tree: History) -> None:
    """A mail program moves a message, or copies it, from one mailbox into another."""
    old, new = tree.draw.choice(tree.plain()), tree.draw.choice(tree.plain())
    pieces = tree.mailbox(old).pieces()
    if not pieces or old.kind != new.kind:
        return
    piece = pieces.pop(tree.draw.randrange(len(pieces)))
    # it may take a line of an unquoted letter for the end of that
    tree.parts.add(content(piece.split(b"\n", 1)[1]))
    is_copy = tree.draw.random() < 0.4
    tree.steps.append(f"{'copies' if is_copy else 'moves'} a message of {old.path} to {new.path}")
    if not is_copy:
        tree.mailbox(old).write(pieces)
    with open(tree.home / new.path, "ab") as file:
        file.write(piece)


def renamed_mailbox(tree: History) -> None:
    """A mailbox gets another name."""
    box = tree.draw.choice(tree.boxes)
    if box.path != INBOX:
        put(tree, box, f"mail/{tree.new_name()}{'.gz' * box.path.endswith('.gz')}")


def put(tree: History, box: Box, path: str) -> None:
    """A mailbox has another path. If the ledger of its folder is lost, nobody may know it there."""
    name = tree.target(box)
    if not (tree.maildir / ("" if name == "INBOX" else f".{name.replace('/', '.')}") / LEDGER).exists():
        tree.oracle.all.foreign += tree.oracle.all.had[box.number]
    tree.stage.move(tree.home / box.path, tree.home / path)
    tree.boxes[tree.boxes.index(box)] = box._replace(path=path)


def copied_mailbox(tree: History) -> None:
    """A mailbox is copied."""
    box = tree.draw.choice(tree.boxes)
    copy = box._replace(number=len(tree.boxes) + 100, path=f"mail/{tree.new_name()}")
    copy = copy._replace(path=copy.path + ".gz" * box.path.endswith(".gz"))
    shutil.copy(tree.home / box.path, tree.home / copy.path)
    tree.steps.append(f"$ cp {box.path} {copy.path}")
    tree.boxes.append(copy)


def compressed(tree: History) -> None:
    """A mailbox is compressed, or not any more."""
    box = tree.draw.choice(tree.boxes)
    if box.path == INBOX or not tree.text_of(box):
        return
    is_packed = box.path.endswith(".gz")
    path, text = (box.path[:-3] if is_packed else f"{box.path}.gz"), tree.text_of(box)
    put(tree, box, path)
    (tree.home / path).write_bytes(text if is_packed else gzip.compress(text))


def kept_mailbox(tree: History) -> None:
    """A mailbox comes from a backup, which was made when it was kept first."""
    box = tree.draw.choice(tree.plain())
    path, kept = tree.home / box.path, tree.home / f"backup-{box.number}"
    if kept.exists():
        tree.steps.append(f"{box.path} is restored")
    shutil.copy(*((kept, path) if kept.exists() else (path, kept)))


def read_some(tree: History) -> None:
    """People read and delete mail, file it elsewhere, and copy it."""
    for _ in range(tree.draw.randint(1, 4)):
        files = [path for _, path in tree.oracle.files()]
        if files:
            read_one(tree, tree.draw.choice(files))


def read_flags(tree: History, path: Path, flags: str = "S") -> None:
    """A file gets these flags."""
    tree.stage.rename(path, path.parent.parent / "cur" / f"{path.name.split(':')[0]}:2,{flags}")


def read_one(tree: History, path: Path) -> None:
    """They do so with a file."""
    deed = tree.draw.choice(["read", "take", "take", "file", "copy", "rename"])
    cur, read = path.parent.parent / "cur", f"{path.name.split(':')[0]}:2,S"
    others = [other for other in sorted(tree.maildir.glob(".*/cur")) if other != cur]
    if deed == "take":
        tree.stage.remove(path)
    elif deed == "read":
        read_flags(tree, path)
    elif deed == "rename":
        tree.stage.rename(path, cur / f"1700{tree.draw.randint(0, 9999)}.host:2,S")
    elif deed == "copy":
        copy = cur / f"1701{tree.draw.randint(0, 9999)}.host:2,S"
        shutil.copy(path, copy)
        tree.steps.append(f"$ cp {tree.stage.shown(path)} {tree.stage.shown(copy)}")
    elif others:
        tree.stage.rename(path, tree.draw.choice(others) / read)


def delivered(tree: History) -> None:
    """Another program delivers mail into a folder: a letter that a mailbox has, or one that none has."""
    letters = tree.letters
    letter = tree.draw.choice(letters) if tree.draw.random() < 0.5 else numbered(tree.draw, len(letters))
    if letter not in letters:
        letters.append(letter)
    places = [path for path in [tree.maildir / "new", *sorted(tree.maildir.glob(".*/new"))] if path.is_dir()]
    if places:
        path = tree.draw.choice(places) / f"1702{tree.draw.randint(0, 9999)}.host"
        path.write_bytes(letter.whole)
        tree.oracle.bytes.add(letter.whole)
        tree.steps.append(f"(delivered: {tree.stage.shown(path)})")


def a_folder(tree: History) -> Optional[Path]:
    """A folder of the Maildir, but not the Maildir itself."""
    folders = [path for path in sorted(tree.maildir.glob(".*")) if (path / "cur").is_dir()]
    return tree.draw.choice(folders) if folders else None


def renamed_folder(tree: History) -> None:
    """People give a folder another name."""
    folder = a_folder(tree)
    if folder:
        name = tree.new_name()
        tree.oracle.rename(folder.name[1:].replace(".", "/"), name)
        tree.stage.move(folder, tree.maildir / f".{name}")


def deleted_folder(tree: History) -> None:
    """People delete a folder."""
    folder = a_folder(tree)
    if folder:
        tree.steps.append(f"$ rm -r {tree.stage.shown(folder)}")
        shutil.rmtree(folder)
        tree.oracle.forget(folder.name[1:].replace(".", "/"))


def backup(tree: History) -> None:
    """The Maildir is kept, or comes from the backup: all of it, a folder, the record, or a ledger."""
    kept = tree.home / "backup"
    if tree.kept is None:
        if tree.maildir.is_dir():
            shutil.copytree(tree.maildir, kept, copy_function=shutil.copy2)
            tree.kept = tree.oracle.kept()
            tree.steps.append("$ cp -a Maildir backup")
        return
    way = tree.draw.choice(["all", *PARTS])
    tree.steps.append(f"from the backup: {way}")
    tree.seen[f"restored: {way}"] += 1
    if way == "all":
        shutil.rmtree(tree.maildir)
        shutil.copytree(kept, tree.maildir, copy_function=shutil.copy2)
        tree.oracle = tree.kept.kept_with(tree.oracle)
    else:
        restore_part(tree, kept, [path for pattern in PARTS[way] for path in sorted(kept.glob(pattern))])


def restore_part(tree: History, kept: Path, parts: list[Path]) -> None:
    """One of these parts of the Maildir comes from the backup."""
    if not parts:
        return
    part = tree.draw.choice(parts)
    there = tree.maildir / part.relative_to(kept)
    if part.is_dir():
        shutil.rmtree(there, ignore_errors=True)
        shutil.copytree(part, there, copy_function=shutil.copy2)
    elif there.parent.is_dir():
        shutil.copy2(part, there)


def lost_ledger(tree: History) -> None:
    """A ledger is lost."""
    found = [*tree.maildir.glob(LEDGER), *tree.maildir.glob(f".*/{LEDGER}")]
    if found:
        tree.stage.remove(tree.draw.choice(sorted(found)))


def killed(tree: History) -> None:
    """A run is killed at a random moment."""
    tree.run(
        ["migrate", "--json", "--now", *tree.words, *tree.draw.choice(tree.commands())], kill_at(tree.draw, 250, 80)
    )


def grown(tree: History) -> None:
    """Mail is delivered to a mailbox."""
    by_procmail(tree.mailbox(tree.draw.choice(tree.plain())))


def emptied(tree: History) -> None:
    """Somebody empties a mailbox."""
    box = tree.draw.choice(tree.plain())
    (tree.home / box.path).write_bytes(b"")
    tree.steps.append(f"$ : >{box.path}")


def made(tree: History) -> None:
    """Somebody makes a mailbox."""
    tree.make(f"mail/{tree.new_name()}", 1, 6)


def renamed(tree: History) -> None:
    """Somebody gives a mailbox another name, maybe one that another one had."""
    box = tree.draw.choice(tree.boxes)
    name = tree.draw.choice([tree.new_name(), "a", "b"])
    if box.path != INBOX and not any((tree.home / "mail" / f"{name}{end}").exists() for end in ("", ".gz")):
        put(tree, box, f"mail/{name}{'.gz' * box.path.endswith('.gz')}")


def removed(tree: History) -> None:
    """Somebody removes a mailbox, but not the last one."""
    inner = [box for box in tree.boxes if box.path != INBOX]
    if len(inner) > 1:
        box = tree.draw.choice(inner)
        tree.stage.remove(tree.home / box.path)
        tree.boxes.remove(box)


# how often each is done: in a tree and its Maildir, to mailboxes that are used, by people who tidy them up, and if it
# gives mailboxes other paths
OF_TREES: Deeds = {
    rewritten: 6,
    read_some: 4,
    moved_message: 3,
    delivered: 2,
    killed: 2,
    backup: 2,
    renamed_mailbox: 1,
    copied_mailbox: 1,
    compressed: 1,
    kept_mailbox: 1,
    renamed_folder: 1,
    deleted_folder: 1,
    lost_ledger: 1,
}
OF_MAILBOXES: Deeds = {rewritten: 12, moved_message: 6, grown: 8}
OF_USERS: Deeds = {emptied: 2, made: 2, copied_mailbox: 2, kept_mailbox: 2}
OF_NAMES: Deeds = {renamed: 4, removed: 2, compressed: 2}
# those that want a mailbox that is not compressed
OF_PLAIN = (rewritten, moved_message, kept_mailbox, grown, emptied)
