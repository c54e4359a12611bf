"""The way into a Maildir and back, over a real Dovecot: random users whom it serves before, in between, after
`back --dovecot` and the commands that it prints, and after a further migration, into a new Maildir or into the same
one. No UID ever means two messages; and the mail that came in between has its UID, its flags and its keywords in the
mailboxes.

The environment's WAY_BACK_USERS says how many users there are, and WAY_BACK_FIRST the first one. Everything is left out
if Dovecot is missing.
"""
import contextlib
import os
import re
import shlex
import shutil
import subprocess
import time
from collections import Counter
from collections.abc import Callable, Iterator, Mapping, Sequence
from functools import lru_cache, partial
from pathlib import Path
from random import Random

from tests.support.cases import Failed, LeftOut, run_cases
from tests.support.checks import match_in
from tests.support.dovecot.mailboxes import KEYWORDS
from tests.support.dovecot.served import FLAGS, Case, mail, served
from tests.support.dovecot.server import Dovecot, Folder, Row, is_there
from tests.support.dovecot.settings import settings_here
from tests.support.printed import commands_in

USERS, FIRST = int(os.environ.get("WAY_BACK_USERS") or 3), int(os.environ.get("WAY_BACK_FIRST") or 0)
OLD = ["INBOX", "sent", "lists/garden", "Gr&APwA3w-e"]
NEW, RENAMED = ["lists/sheds", "new"], {"lists/garden": "shed"}
KEPT_FLAGS = [flag for flag in FLAGS if flag != r"\Deleted"]
# a first message has no room for the second one of the long ones
MARKS = [*KEYWORDS, "-that-grows-in-the-garden-behind-the-shed", "and-is-longer-than-the-blanks-that-dovecot-leaves"]
LDA = "/usr/lib/dovecot/dovecot-lda"
LISTED = re.compile(rb'\(([^)]*)\) "/" "?([^"]*)"?')
BACK = ["mbox2maildir-admin", "back", "--dovecot", "--now", "Maildir", "mail", "inbox"]
ADDED = "Dovecot is to add keywords"


class Trip:
    """A user, what is done in the mailboxes and in the Maildir, and which message each UID means."""

    def __init__(self, home: Path, server: Dovecot, seed: int) -> None:
        self.case, self.server, self.draw = Case(home, server, f"user{seed}"), server, Random(seed)
        self.last, self.renamed = 0, False
        # by folder, UIDVALIDITY and UID
        self.means: dict[tuple[str, int, int], str] = {}

    def message(self) -> bytes:
        """A new message as a client appends it."""
        self.last += 1
        return mail(self.last).split(b"\n", 1)[1][:-1]

    def marks(self) -> str:
        """Some flags and keywords."""
        draw = self.draw
        return " ".join(draw.sample(KEPT_FLAGS, draw.randrange(3)) + draw.sample(MARKS, draw.randrange(3)))

    def shown(self, user: str, when: str) -> dict[str, Folder]:
        """What Dovecot shows of each folder. Fails if a UID means another message than before."""
        client = self.server.client(user)
        listed = [LISTED.match(line) for line in client.list()[1] if isinstance(line, bytes)]
        client.logout()
        names = [found[2].decode() for found in listed if found and b"Noselect" not in found[1]]
        several = {name: self.server.by_imap(user, name) for name in names}
        for name, (validity, following, rows) in several.items():
            for uid, _, _, _, text in rows:
                subject, key = subject_of(text), (name, validity, uid)
                if self.means.setdefault(key, subject) != subject:
                    raise Failed(f"{when}: {key} is {subject}, and it was {self.means[key]}")
                if uid >= following:
                    raise Failed(f"{when}: {name} has UID {uid}, and the next one is {following}")
        return several

    def work(self, user: str, folders: Sequence[str], count: int) -> None:
        """A client works in some folders."""
        client, draw = self.server.client(user), self.draw
        for _ in range(count):
            folder, what = draw.choice(folders), draw.choice(["append"] * 4 + ["store", "store", "copy", "expunge"])
            there = int(client.select(f'"{folder}"')[1][0] or 0)
            number = str(draw.randint(1, there)) if there else ""
            if what == "append" or not there:
                client.append(f'"{folder}"', f"({self.marks()})", "", self.message())
            elif what == "store":
                client.store(number, draw.choice(["+FLAGS", "FLAGS"]), f"({self.marks()})")
            elif what == "copy":
                client.copy(number, f'"{draw.choice(folders)}"')
            if what == "expunge" or what == "copy" and draw.random() < 0.5:
                client.store(number or "1", "+FLAGS", r"(\Deleted)")
                client.expunge()
        client.logout()

    def make(self, user: str, folders: Sequence[str]) -> None:
        """A client makes folders, and subscribes to some."""
        client = self.server.client(user)
        for name in folders:
            client.create(f'"{name}"')
            if self.draw.random() < 0.7:
                client.subscribe(f'"{name}"')
        client.logout()

    def before(self) -> dict[str, Folder]:
        """What is in the mailboxes before."""
        case = self.case
        self.make(case.name, OLD[1:])
        case.deliver(*(mail(self.number()) for _ in range(self.draw.randint(1, 4))))
        self.work(case.name, OLD, self.draw.randint(4, 12))
        case.folders = OLD
        case.look()
        return self.shown(case.name, "before")

    def number(self) -> int:
        """The number of a new message."""
        self.last += 1
        return self.last

    def between(self, named: Sequence[str]) -> dict[str, Folder]:
        """What is done in the Maildir: mail comes and goes, and folders are made, and these are perhaps renamed."""
        user, draw = f"{self.case.name}@after", self.draw
        self.shown(user, "in the Maildir")
        folders = [*OLD, *draw.sample(NEW, draw.randrange(3))]
        self.make(user, folders[len(OLD) :])
        for _ in range(3):
            self.work(user, folders, draw.randint(1, 6))
            self.shown(user, "in the Maildir")
            self.deliver(draw.choice(folders))
        if draw.random() < 0.4 and named:
            self.renamed = True
            client = self.server.client(user)
            for name in named:
                client.rename(f'"{name}"', f'"{RENAMED[name]}"')
            client.logout()
        found = self.shown(user, "in the Maildir")
        # this one, nobody has seen
        (self.case.home / "Maildir/new/1.M1.host").write_bytes(self.message())
        self.case.own()
        return found

    def deliver(self, folder: str) -> None:
        """The LDA delivers into the Maildir."""
        words = [LDA, "-c", self.server.configuration, "-d", self.case.name, "-m", folder]
        words += settings_here().options(self.case.home / "Maildir")
        ran = subprocess.run(words, input=self.message(), check=False, stdout=subprocess.PIPE, stderr=subprocess.STDOUT)
        if ran.returncode:
            raise Failed(f"{words}: {ran.returncode}: {ran.stdout.decode()}")

    def run(self) -> Iterator[str]:
        """There, back, and there again. Returns what is said of the way back."""
        case = self.case
        first = self.before()
        # Dovecot numbers an empty folder by the time, which cannot be that of the mailbox
        while time.time() <= max(folder[0] for folder in first.values()) + 1:
            time.sleep(0.1)
        self.done(*case.migrate())
        # nothing shows from which mailbox a folder came that had no mail
        there = self.between([name for name in RENAMED if first[name][2]])
        says = self.done(*case.run(*BACK))
        yield says
        again = self.done(*case.run(*BACK))
        if ": back" in again or self.commands(again) != self.commands(says):
            raise Failed(f"a second run brings mail back, or prints other commands: {again}\n{says}")
        self.add(self.commands(says))
        again = self.done(*case.run(*BACK))
        if self.commands(again):
            raise Failed(f"Dovecot was told, and is to be told again: {again}\n{says}")
        back = self.shown(case.name, "back")
        self.compare(first, there, back, says)
        self.compare_subscriptions(back, says)
        case.deliver(mail(self.number()))
        self.work(case.name, OLD, self.draw.randint(1, 6))
        case.look()
        before = self.shown(case.name, "afterwards")
        is_new = self.draw.random() < 0.5
        if is_new:
            shutil.move(str(case.home / "Maildir"), str(case.home / "Maildir.back"))
        case.folders = list(before)
        status, said = case.migrate()
        # a folder that Dovecot has numbered, and no mailbox, may be left
        self.done(status if is_new or said.count("left (") != said.count("left (numbered)") else 0, said)
        after = self.shown(f"{case.name}@after", "there again")
        # an empty mailbox has no numbers
        wanted = {name: one for name, one in brief(before).items() if one[2]}
        found = {name: one for name, one in brief(after).items() if one[2]}
        if is_new and found != wanted:
            raise Failed(f"there again: {found}, and it was {wanted}")

    @staticmethod
    def commands(says: str) -> list[list[str]]:
        """The words of the commands for Dovecot that were printed."""
        return [words for words in map(shlex.split, commands_in(says)) if words[0] == "doveadm"]

    def add(self, commands: Sequence[Sequence[str]]) -> None:
        """Runs commands for Dovecot, which knows the user by another name than the system."""
        for _, noun, verb, option, _, *words in commands:
            ran = self.server.doveadm(noun, verb, option, self.case.name, *words)
            if ran.returncode:
                raise Failed(f"{noun} {verb} {words}: {ran.stderr.decode()}")

    def done(self, status: int, says: str) -> str:
        """What a command says that ended well."""
        if status:
            raise Failed(f"status {status}: {says}")
        return says

    def old_name(self, folder: str) -> str:
        """The name of the mailbox of a folder."""
        names = {other: name for name, other in RENAMED.items()} if self.renamed else {}
        return names.get(folder, folder)

    def compare(
        self, first: Mapping[str, Folder], there: Mapping[str, Folder], back: Mapping[str, Folder], says: str
    ) -> None:
        """Fails unless the mailboxes have what they had, and what came since, with UIDs, flags and keywords."""
        known = {subject_of(row[4]) for folder in first.values() for row in folder[2]}
        for name, folder in first.items():
            lacks = Counter(map(marks_of, folder[2])) - Counter(map(marks_of, back[name][2]))
            if lacks or folder[2] and back[name][0] != folder[0]:
                raise Failed(f"{name}: it had {folder[0]} {lacks}: {brief(back)[name]}\n{says}")
        for name, (validity, following, rows) in there.items():
            its = self.old_name(name)
            new = [row for row in rows if subject_of(row[4]) not in known]
            if not new and (its not in first or not first[its][2]):
                # an empty mailbox has no numbers
                continue
            lacks = Counter(map(marks_of, new)) - Counter(map(marks_of, back[its][2]))
            if lacks or back[its][0] != validity or back[its][1] < following:
                raise Failed(f"{its}: lacks {lacks} of {validity} {following}: {brief(back)[its]}\n{says}")

    def compare_subscriptions(self, back: Mapping[str, Folder], says: str) -> None:
        """Fails unless the mailboxes are subscribed to like the folders. A new folder without new mail has none."""
        user = self.case.name
        now, wanted = (self.server.subscribed(one) for one in (user, f"{user}@after"))
        names = [self.old_name(name.decode()) for name in wanted]
        if now != sorted(name.encode() for name in names if name in back):
            raise Failed(f"subscribed to {now}, and it was {wanted}: {says}")


def subject_of(text: bytes) -> str:
    """The subject of a message, which is its number."""
    return match_in(rb"Subject: (\d+)", text)[1].decode()


def marks_of(row: Row) -> tuple[int, str, str]:
    """The UID of a message, its subject, and its flags and keywords."""
    uid, flags, keywords, _, text = row
    return uid, subject_of(text), b" ".join([*flags, *keywords]).decode()


def brief(several: Mapping[str, Folder]) -> dict[str, tuple[int, int, list[tuple[int, str, str]]]]:
    """What is shown of folders, without the mail."""
    return {name: (one[0], one[1], list(map(marks_of, one[2]))) for name, one in several.items()}


def way_of(place: Callable[[], tuple[Path, Dovecot]], seed: int) -> None:
    """A case: a user."""
    if not is_there():
        raise LeftOut("Dovecot's server with IMAP and POP3 is not here")
    home, server = place()
    for says in Trip(home, server, seed).run():
        words = re.findall(f"its next UID|its UIDVALIDITY|{ADDED}|subscriptions", says)
        print(f"user {seed}: {dict(Counter(words))}", flush=True)


def main() -> None:
    with contextlib.ExitStack() as stack:
        place = lru_cache(maxsize=None)(lambda: stack.enter_context(served()))
        run_cases({f"user_{seed}": partial(way_of, place, seed) for seed in range(FIRST, FIRST + USERS)})


if __name__ == "__main__":
    main()
