"""Mailboxes that other programs lock or write to, on disks that lock nothing too: when `migrate` waits, takes a mailbox
or leaves it, and what `back` makes of FILE.lock."""
import errno
import fcntl
import os
import re
import shutil
import signal
import subprocess
import time
from collections.abc import Callable, Sequence
from pathlib import Path
from typing import Any

from tests.support.checks import LATER, equal
from tests.support.copies import Copies, Meanwhile
from tests.support.homes import by_json, check_all, checks_in, expect, fake, mailbox, restore
from tests.support.mail import A, B, ONE, TWO
from tests.support.processes import wait_for
from tests.support.running import BY_OTHERS, Row, Run

KEEPS_CHANGING, LOCKED = "it keeps changing", "another program has locked it"
# what a disk says that has no locks, and why a mailbox is left for what another error says
WITHOUT_LOCKS = errno.ENOLCK, errno.ENOSYS, errno.EOPNOTSUPP
OTHER_ERRORS = errno.EIO, errno.EINVAL, errno.ESTALE
# for how many seconds a mailbox was left alone, when mail is delivered to it, how many messages are migrated, or None
# if it keeps changing, and how long that takes: the last minute is a quiet one, and all of it is five minutes at most
QUIET: list[tuple[float, Sequence[float], object, tuple[float, float]]] = [
    (60, [], 1, (0, 0)),
    (59.5, [], 1, (0.5, 0.6)),
    (58, [], 1, (2, 3)),
    (-3600, [], 1, (0, 0)),
    (10, [20.5, 40.5], 3, (100.5, 102)),
    (0, [30 * count for count in range(1, 20)], None, (300, 302)),
]


class Clocked(Copies):
    """A place with a clock that goes on only while the companion sleeps. What is to happen at a moment is done then."""

    def __init__(
        self, home: Path, deeds: Sequence[tuple[float, Callable[[], object]]], start: float, step: float = 0
    ) -> None:
        super().__init__(home, home / "bin")
        self.deeds, self.begun, self.slept, self.step = list(deeds), start, 0.0, step

    def sleep(self, seconds: float) -> None:
        """Goes on, and does what is due."""
        self.slept += seconds
        while self.deeds and self.deeds[0][0] <= self.slept:
            self.deeds.pop(0)[1]()
        (self.home / "slept").write_text(str(self.slept), encoding="ascii")

    def monotonic(self) -> float:
        """How long it has gone on. A look at it may take its time."""
        self.sleep(self.step)
        return self.slept

    def main(self) -> int:
        for name, does in (
            ("sleep", self.sleep),
            ("monotonic", self.monotonic),
            ("time", lambda: self.begun + self.slept),
        ):
            setattr(time, name, does)
        return super().main()


class Late(Clocked):
    """The same, and mail is delivered just before the mailbox is locked first."""

    def main(self) -> int:
        take = fcntl.flock

        def lock(file: int, how: int) -> None:
            if "/box" in os.readlink(f"/proc/self/fd/{file}"):
                setattr(fcntl, "flock", take)
                deliver(self.home / "box", self.begun + self.slept)
            take(file, how)

        setattr(fcntl, "flock", lock)
        return super().main()


class Failing(Copies):
    """A place in which locks of files other than records fail with an error."""

    def __init__(self, home: Path, names: Sequence[str], number: int) -> None:
        super().__init__(home, home / "bin")
        self.names, self.number = names, number

    def main(self) -> int:
        def failing(lock: Callable[..., Any]) -> Callable[..., Any]:
            def refuse(file: Any, *words: Any) -> Any:
                if "/box" in os.readlink(f"/proc/self/fd/{file}"):
                    raise OSError(self.number, os.strerror(self.number))
                return lock(file, *words)

            return refuse

        for name in self.names:
            setattr(fcntl, name, failing(getattr(fcntl, name)))
        return super().main()


def deliver(path: Path, when: float) -> None:
    """Delivers a message, as a program that locks the mailbox for it."""
    with path.open("ab") as file:
        fcntl.flock(file, fcntl.LOCK_EX | fcntl.LOCK_NB)
        file.write(B + b"\n")
    os.utime(path, (when, when))


def is_locked(path: Path) -> bool:
    """Whether a delivery would have to wait."""
    with path.open("ab") as file:
        try:
            fcntl.flock(file, fcntl.LOCK_EX | fcntl.LOCK_NB)
        except BlockingIOError:
            return True
    return False


def let_go(process: int, path: Path) -> None:
    """Kills a process, which has a file locked."""
    os.kill(process, signal.SIGKILL)
    while is_locked(path):
        pass


def row_of(ran: Run) -> Row:
    """The row of a run, without what is said of others."""
    assert "(defect)" not in ran.output, ran.output
    return ran.row


def quiet(home: Path) -> None:
    """A mailbox is migrated once it was left alone for a minute, with all that was delivered until then."""
    box, start = home / "box", time.time()
    for number, (age, moments, wanted, (least, most)) in enumerate(QUIET):
        mailbox(box, ONE)
        os.utime(box, (start - age,) * 2)
        (home / "slept").write_text("0", encoding="ascii")
        deeds = [(one, lambda when=start + one: deliver(box, when)) for one in moments]
        ran = Clocked(home, deeds, start).run(["migrate", "--json", f"M{number}", "box"], BY_OTHERS)
        slept = float((home / "slept").read_text(encoding="ascii"))
        equal(f"{age} {moments}: {slept} seconds", least <= slept <= most, True)
        row = row_of(ran)
        if wanted:
            equal(f"{age} {moments}: {ran.output}", (row["verdict"], row["messages"]), ("done", wanted))
        else:
            equal(f"{age}: {ran.output}", (ran.status, row["reason"], row["says"]), (LATER, "changed", KEEPS_CHANGING))
        said = [line for line in ran.err.split("\n") if "waiting" in line]
        equal(f"{age}: what is said once: {said}", len(said), int(slept > 1) if slept < 60 else len(said))


def errors(home: Path) -> None:
    """Each error that a lock may give: a disk has no locks, another program has it, or the mailbox is left with it."""
    mailbox(home / "box", ONE)
    for name in ("flock", "fcntl"):
        for number in (*WITHOUT_LOCKS, errno.EAGAIN, errno.EACCES, *OTHER_ERRORS):
            ran = Failing(home, [name], number).run(["migrate", "--json", "--dry-run", "--now", "M", "box"], BY_OTHERS)
            row, what = row_of(ran), f"{name} {errno.errorcode[number]}: {ran.output}"
            if number in WITHOUT_LOCKS:
                equal(what, (ran.status, row["verdict"]), (0, "would be done"))
            elif number in OTHER_ERRORS:
                equal(what, (ran.status, row["says"]), (1, os.strerror(number)))
            else:
                equal(what, (ran.status, row["reason"], row["says"]), (LATER, "locked", LOCKED))


def prepared_meanwhile(home: Path) -> None:
    """A first pass takes a copy of a mailbox. What is appended meanwhile comes with the next pass; one that changes
    otherwise, each time, is left; and who has locked it is waited for."""
    box = mailbox(home / "box", (A + b"\n" + b"hello\n" * 1_000_000 + b"\n") * 3)
    words = ["migrate", "--json", "--prepare", "--unread", "M", "box"]

    def append() -> None:
        with box.open("ab", 0) as file:
            file.write(B + b"\n")

    ran = Copies(home, home / "bin").run(words, BY_OTHERS, append)
    row = row_of(ran)
    equal(f"appended: {ran.output}", (ran.status, row["verdict"]), (0, "prepared"))
    count = box.read_bytes().count(b"Subject: two")
    assert 3 <= row["messages"] < 3 + count, f"{row['messages']} of {count}"
    ran = Copies(home, home / "bin").run(words, BY_OTHERS, lambda: os.utime(box))
    equal(f"changed: {ran.output}", (ran.status, row_of(ran)["says"]), (LATER, KEEPS_CHANGING))
    equal("what is next", ran.row["next"], [{"task": "the next pass may find it at rest"}])
    for text, releases, wanted, (least, most) in (
        (ONE, True, (0, "prepared"), (3, 4)),
        (ONE + TWO, False, (LATER, "left"), (15, 16)),
    ):
        mailbox(box, text)
        with subprocess.Popen(["flock", "--close", box, "cat"], stdin=subprocess.PIPE) as holder:
            wait_for(lambda: is_locked(box), holder)
            deeds = [(3.0, lambda holder=holder: let_go(holder.pid, box))] * releases
            ran = Clocked(home, deeds, time.time()).run(words, BY_OTHERS)
            holder.kill()
        equal(f"locked: {ran.output}", (ran.status, row_of(ran)["verdict"]), wanted)
        equal("how long it waited", least <= float((home / "slept").read_text(encoding="ascii")) <= most, True)


def locked_for_ten_seconds(home: Path) -> None:
    """While a copy is taken of a mailbox, it is locked for ten seconds at most."""
    box = mailbox(home / "box", A + b"\n" + b"hello\n" * 2_000_000 + b"\n")

    def try_at(second: int) -> None:
        if is_locked(box):
            (home / f"refused at {second}").touch()

    deeds = [(float(second), lambda second=second: try_at(second)) for second in (10, 14, 23)]
    words = ["migrate", "--json", "--prepare", "--unread", "M", "box"]
    ran = Clocked(home, deeds, time.time(), step=1).run(words, BY_OTHERS)
    equal(f"it is prepared: {ran.output}", (ran.status, row_of(ran)["verdict"]), (0, "prepared"))
    equal("when it was locked", sorted(one.name for one in home.glob("refused*")), ["refused at 10", "refused at 14"])


def delivered_at_the_last_moment(home: Path) -> None:
    """Mail is delivered to a quiet mailbox just before it is locked: another minute is waited for, in which it is
    unlocked."""
    box, start = mailbox(home / "box", ONE), time.time()
    deeds = [(20.0, lambda: deliver(box, start + 20))]
    ran = Late(home, deeds, start).run(["migrate", "--json", "M", "box"], BY_OTHERS)
    equal(f"with both: {ran.output}", (ran.status, row_of(ran)["messages"]), (0, 3))
    assert 80 <= float((home / "slept").read_text(encoding="ascii")) <= 81


def holes(home: Path) -> None:
    """A file of which more than 16 MB were never written is left, wherever the holes are."""
    limit, page = 16 << 20, 1 << 16
    for number, (first, size, is_left) in enumerate(
        ((b"", limit, False), (ONE, limit, False), (b"", limit + page, True), (ONE, 8 << 40, True))
    ):
        with (home / "box").open("wb") as file:
            file.write(first)
            file.truncate(size)
        os.utime(home / "box", (1e9, 1e9))
        row = row_of(by_json(f"migrate --dry-run M{number} box", home))
        equal(f"{number}: {row}", row["reason"] == "holes", is_left)
    with (home / "box").open("wb") as file:
        for count in range(1, 20):
            file.write(b"x" * page)
            file.seek(count << 20)
        file.write(b"x" * page)
    row = row_of(by_json("migrate --dry-run --now M box", home))
    says = "more than 16 MB of it are holes, which were never written: find a complete copy"
    equal("between data", (row["reason"], row["says"]), ("holes", says))


def rehearsed(home: Path) -> None:
    """What a rehearsal of `back` finds locked is left, as in a run, and it keeps nobody from reading."""
    mailbox(home / "old/box", ONE)
    expect("migrate --now M old", home, 0, None)
    (home / "M/.box/new/1.h").write_bytes(b"Subject: new\n\nhello\n")
    with (home / "old/box").open("rb") as file:
        fcntl.flock(file, fcntl.LOCK_SH)
        equal("while another reads", row_of(by_json("back --dry-run --now M old", home))["verdict"], "would go back")
    mailbox(home / "old/box.lock", b"17\n", 0)
    for words in ("--dry-run --now", "--now"):
        equal(words, row_of(by_json(f"back {words} M old", home))["reason"], "locked")


def after_a_kill(home: Path) -> None:
    """A mailbox that a killed `back` has written to a moment ago is waited for, and it is said once for how long."""
    mailbox(home / "old/box", ONE)
    expect("migrate --now M old", home, 0, None)
    (home / "M/.box/new/1.h").write_bytes(b"Subject: new\n\nhello\n")
    words = ["back", "--json", "M", "old"]
    dies = Meanwhile(home, "os.remove", "mbox2maildir-back$", lambda _: os.kill(os.getpid(), signal.SIGKILL))
    equal("it is killed", dies.run([*words, "--now"], BY_OTHERS).is_killed, True)
    ran = Clocked(home, [], time.time()).run(words, BY_OTHERS)
    equal(f"what is said: {ran.output}", (ran.status, ran.err.count("waiting")), (0, 1))


def locks_of_back(home: Path) -> None:
    """A lock that another program takes away meanwhile, or makes its own, is not removed; where none can be made, and
    on a disk without locks, mail comes back too."""
    rows: list[tuple[str, str, list[str]]] = [
        ("box", "true", []),
        ("box", "rm -f old/box.lock", []),
        # another run must not take it for one that was left
        ("box", "test -e old/box.lock && flock -n old/box.lock touch old/free", []),
        ("box", "rm -f old/box.lock; echo 17 >old/box.lock", ["box.lock"]),
        ("box" + "x" * 250, "true", []),
        ("box-no-flock", "true", []),
    ]
    for name, deed, left in rows:
        mailbox(home / "old" / name, ONE)
        expect("migrate --now M old", home, 0, None)
        (home / f"M/.{name}/new/1.h").write_bytes(b"Subject: new\n\nhello\n")
        sees = f'{{ cat "old/{name}.lock" 2>/dev/null; true; }} >>seen'
        fake(home, f'cd "{home}" && {sees} && {deed}\nexec "$real" "$@"', "")
        numbers = ["flock"] if "no-flock" in name else []
        ran = Failing(home, numbers, errno.ENOLCK).run(["back", "--json", "--now", "M", "old"], BY_OTHERS)
        equal(f"{deed}: {ran.output}", (ran.status, b"Subject: new" in (home / "old" / name).read_bytes()), (0, True))
        equal(f"{deed}: what is there", sorted(one.name for one in (home / "old").iterdir()), [name, *left])
        # programs read the number of a process at its start
        held = re.search(r"(?m)^\d+ mbox2maildir-admin [0-9a-f]{32}$", (home / "seen").read_text(encoding="ascii"))
        equal(f"{name}: whether it is held meanwhile", held is not None, len(name) < 250)
        (home / "seen").unlink()
        restore(home)
        for folder in ("M", "old"):
            shutil.rmtree(home / folder)


if __name__ == "__main__":
    check_all(*checks_in(globals()))
