"""`migrate --jobs`: several folders of a Maildir at the same time become what they become one after the other, whatever
ends the runs. Random ones, which are killed among users, are worlds of tests/companion/worlds.py."""
import os
import re
import select
import signal
import subprocess
import sys
import time
from collections import Counter
from collections.abc import Iterator
from contextlib import contextmanager
from pathlib import Path

from tests.support.checks import PATIENCE, equal
from tests.support.homes import ADMIN, check_all, checks_in, expect, fake, mail_in, mailbox, run, script, want_users
from tests.support.ledgers import LEDGER, RECORD, wait_for_lock, without_chance
from tests.support.mail import ONE, TWO, bodies_of, digest_of
from tests.support.mounts import small_disk
from tests.support.processes import wait_for
from tests.support.running import Desk
from tests.support.terminals import Terminal

FOLDERS, MESSAGES = 6, 60
# what is no mailbox
WHAT = b"what is it?\n" * 9
# runs a file in whose children something is done as soon as they are there, but not in the programs that it starts
IN_CHILDREN = """import os, runpy, sys
os.register_at_fork(after_in_child=lambda: {})
runpy.run_path(sys.argv.pop(1), run_name="__main__")"""
# what ends a worker at once, or has it fail, and what is said of its mailboxes
FAULTS = {
    "os.kill(os.getpid(), 9)": "(process): its process was killed by signal 9: run this again",
    "os.kill(os.getpid(), 15)": "(process): its process was interrupted: run this again",
    "setattr(os, 'scandir', None)": "(defect): internal error: TypeError(",
}
# has each pipe take no more than 4,096 bytes at once (F_SETPIPE_SZ)
SMALL_PIPES = """[
    __import__("fcntl").fcntl(int(one), 1031, 4096)
    for one in os.listdir("/proc/self/fd")
    if "pipe:" in os.path.realpath("/proc/self/fd/" + one)
]"""
# the first line of a record, and how large one may be
VERSION_LINE, MOST = b"mbox2maildir-record\t2\n", 1 << 23


def text_of(folder: int, count: int = MESSAGES) -> bytes:
    """A mailbox with this many messages, which no other mailbox has."""
    head = b"From a@example.org Mon Mar  3 09:12:44 2025\nSubject: %d of %d\n\n"
    return b"".join(head % (number, folder) + b"hello\n\n" for number in range(count))


def tree(home: Path) -> dict[str, bytes]:
    """A folder of mailboxes. Two of them go into one folder, one is left, and one file is no mail."""
    texts = {f"old/f{number}": text_of(number) for number in range(FOLDERS)}
    for name, text in texts.items():
        mailbox(home / name, text)
    mailbox(home / "old/what", WHAT)
    mailbox(home / "old/lock.lock", b"")
    return texts


def folder_of(maildir: Path, name: str) -> Path:
    """The folder of a mailbox of the tree."""
    return maildir / f".{Path(name).name}"


def as_one_at_a_time(home: Path) -> None:
    """Rows in their order, files, and lines of the record are the same as with --jobs 1."""
    texts = tree(home)
    mailbox(home / "inbox", ONE)
    mailbox(home / "more", TWO)
    outputs = [
        run(["migrate", "--all", "--jobs", str(jobs), f"M{jobs}", "inbox", "old", "more"], home)[:2]
        for jobs in (1, 3, 8)
    ]
    found = [(status, out.replace("M3", "M1").replace("M8", "M1")) for status, out in outputs]
    equal("what is said with 3 and 8 jobs", found, outputs[:1] * 3)
    equal("its last line", outputs[0][1].splitlines()[-1], "9 mailboxes: 8 done, 1 left; 1 other file: no mail")
    for jobs in (3, 8):
        for name in [".", *(folder_of(Path(), one).name for one in texts)]:
            one, other = (home / f"M{number}" / name for number in (1, jobs))
            equal(f"{name} with {jobs} jobs", names_in(other), names_in(one))
            equal(f"the ledger of {name}", without_chance(other / LEDGER), without_chance(one / LEDGER))
        lines = [Counter(without_chance(home / f"M{number}" / RECORD).splitlines()) for number in (1, jobs)]
        equal(f"the record with {jobs} jobs", lines[1], lines[0])


def largest_first(home: Path) -> None:
    """The largest mailboxes begin first. Rows come in the order of names."""
    for number in range(FOLDERS):
        mailbox(home / f"old/f{number}", text_of(number, 4**number))
    words = ["migrate", "--all", "--jobs", "2", "M", "old"]
    _, out, _ = run(words, home)
    equal("rows", [line.split(" ", 1)[0] for line in out.splitlines()[:-1]], [f"old/f{n}" for n in range(FOLDERS)])
    first = min((home / "M").glob(".f*/cur"), key=lambda path: path.stat().st_mtime_ns).parent.name
    equal("which is made first", first in (f".f{FOLDERS - 1}", f".f{FOLDERS - 2}"), True)


def names_in(maildir: Path) -> list[str]:
    """The names of the mail of a folder."""
    return sorted(path.name for path in mail_in(maildir))


@contextmanager
def migrating(home: Path, *words: str) -> Iterator["subprocess.Popen[bytes]"]:
    """A migration that is running, in a process group of its own."""
    child = Desk(home).start(["migrate", "--all", "--jobs", "8", *words])
    try:
        yield child
    finally:
        try:
            os.killpg(child.pid, signal.SIGKILL)
        except ProcessLookupError:
            pass
        child.communicate()


def wait_for_mail(maildir: Path, child: "subprocess.Popen[bytes]", count: int) -> None:
    """Waits until several folders have mail, and this many files are there."""

    def is_there() -> bool:
        there = list(maildir.glob(".*/new/*"))
        return len(there) >= count and len({path.parent for path in there}) > 1

    assert wait_for(is_there, child), "it does not convert"


def ended_by_a_signal(home: Path) -> None:
    """The first signal ends everything that is at work, and it is said how far each mailbox was. The next run goes
    on."""
    texts = tree(home)
    for number in (signal.SIGINT, signal.SIGTERM):
        maildir = home / f"M{int(number)}"
        with migrating(home, maildir.name, "old") as child:
            wait_for_mail(maildir, child, 9)
            child.send_signal(number)
            _, err = child.communicate(timeout=PATIENCE)
        equal(f"{number!r}", child.returncode, 130)
        says = err.decode().splitlines()
        assert says and all(re.match(r"mbox2maildir-admin: old/f\d: interrupted: \w+", line) for line in says), says
        # nobody has its record locked
        equal("the next run", run(["migrate", maildir.name, "old"], home)[0], 1)
        for name, text in texts.items():
            equal(name, sorted(map(digest_of, bodies_of(text))), sorted(bases(folder_of(maildir, name))))


def without_their_parent(home: Path) -> None:
    """Workers whose parent was killed end, and with them what they run, though that may be at work for hours. When the
    parent is killed, a worker has said that it has begun, and has nothing more to say. The next run goes on."""
    texts = tree(home)
    os.rename(home / "bin/mbox2maildir", home / "real")
    script(
        home / "bin/mbox2maildir",
        f"test $1 = convert || exec '{home}/real' \"$@\"\nsleep 1\n: >'{home}'/begun.$$\nexec tail -f /dev/null",
    )
    with migrating(home, "M", "old") as child:
        assert wait_for(lambda: len(list(home.glob("begun.*"))) > 1, child), "it does not convert"
        child.kill()
        child.wait()
        wait_for_lock(home / "M")
    os.rename(home / "real", home / "bin/mbox2maildir")
    equal("the next run", run("migrate M old", home)[0], 1)
    for name, text in texts.items():
        equal(name, sorted(map(digest_of, bodies_of(text))), sorted(bases(folder_of(home / "M", name))))


def ended_at_once(home: Path) -> None:
    """Workers that end before they take a mailbox leave the mailboxes that are theirs, and none is started for these
    again. The next run goes on."""
    texts, words = tree(home), ["migrate", "--all", "--jobs", "3", "M", "old"]
    for deed, says in FAULTS.items():
        code = IN_CHILDREN.format(deed)
        status, out, _ = run([sys.executable, "-I", "-S", "-B", "-c", code, ADMIN, *words], home)
        rows = [line for line in out.splitlines() if line.startswith("old/f") and f": left {says}" in line]
        equal(f"status, and how many are left: {out}", (status, len(rows)), (1, FOLDERS))
        equal("the last line", out.splitlines()[-1], "7 mailboxes: 7 left; 1 other file: no mail")
    equal("the next run", run(words, home)[0], 1)
    for name, text in texts.items():
        equal(name, sorted(map(digest_of, bodies_of(text))), sorted(bases(folder_of(home / "M", name))))


def many_in_one_folder(home: Path) -> None:
    """One folder may have more mailboxes than a pipe can name at once."""
    names = [f"f{number}" for number in range(1000, 1900)]
    for name, text in [*((name, b"") for name in names), ("old/f", ONE)]:
        mailbox(home / name, text)
    words = ["migrate", "--jobs", "2", "M", *names, "old"]
    _, out, _ = run([sys.executable, "-I", "-S", "-B", "-c", IN_CHILDREN.format(SMALL_PIPES), ADMIN, *words], home)
    equal("the last line", out.splitlines()[-1], "901 mailboxes: 901 done")


def ended_out_of_turn(home: Path) -> None:
    """A signal comes when the last mailbox is done, which is the largest, and the first one has not begun: the row of
    what is done is told. Of one that is waited for it is said that it waits."""
    for name, count, age in (("f0", 1, 60), ("f1", 2, 60), ("f2", 9, 0), ("f3", 99, 60)):
        mailbox(home / "old" / name, text_of(1, count), age)
    os.rename(home / "bin/mbox2maildir", home / "real")
    script(home / "bin/mbox2maildir", f"case $1$PWD in convert*.f1) exec sleep 600;; esac\nexec '{home}/real' \"$@\"")
    with migrating(home, "--jobs", "2", "M", "old") as child:
        assert wait_for((home / "M/.f1" / LEDGER).exists, child), "it does not convert"
        child.send_signal(signal.SIGTERM)
        out, err = child.communicate(timeout=PATIENCE)
    says = "left (process): its process was interrupted: run this again"
    wanted = [f"old/f1 -> f1: {says}", f"old/f2 -> f2: {says}", "old/f3 -> f3: mboxrd or mboxo, messages 99: done"]
    equal("what is told", out.decode().splitlines()[:-1], wanted)
    equal("whether it is noted", (home / "M/.f3" / LEDGER).read_text().splitlines()[-1], "=\t1")
    waits = r"mbox2maildir-admin: old/f2: interrupted: waiting (60|[1-5]?\d) seconds, because it changed a moment ago"
    assert any(re.fullmatch(waits, line) for line in err.decode().splitlines()), err


def told_at_once(home: Path) -> None:
    """Of the first mailboxes it is told at once that they are left, while another one is at work."""
    for name, text in (("f0", WHAT), ("f1", WHAT), ("f2", ONE)):
        mailbox(home / "old" / name, text)
    waits = f"case $PWD in *.f2) until test -e '{home}/told'; do sleep 0.1; done;; esac"
    fake(home, f'{waits}\nexec "$real" "$@"')
    with migrating(home, "M", "old") as child:
        told = ""
        while told.count(" -> ") < 2:
            assert child.stdout and wait_for(lambda: bool(select.select([child.stdout], [], [], 0)[0]), child)
            told += os.read(child.stdout.fileno(), 1 << 16).decode()
        (home / "told").touch()
        out, _ = child.communicate(timeout=PATIENCE)
    first = [line.partition(" (")[0] for line in told.splitlines() if " -> " in line]
    equal("what is told at first", first, [f"old/{name} -> {name}: not known: left" for name in ("f0", "f1")])
    equal("what is told then", out.decode().splitlines()[0], "old/f2 -> f2: mboxrd or mboxo, messages 1: done")


def full_record(home: Path) -> None:
    """A record that is full takes no line: nothing is placed, since it lacks what the ledgers have. Once it is moved
    away, what they say counts."""
    texts = tree(home)
    equal("a run before", run("migrate --jobs 1 --folder f0 M old/f0", home)[0], 0)
    record = home / "M" / RECORD
    record.write_bytes(VERSION_LINE + b"x" * (MOST - len(VERSION_LINE) - 2) + b"\n")
    says = f"M/{RECORD}: it is full: move it away; the ledgers in the folders say what was brought"
    for jobs in ("1", "2"):
        found = run(["migrate", "--all", "--jobs", jobs, "M", "old"], home)
        equal("what is said", found, (1, "", f"{ADMIN.name}: {says}\n"))
    equal("what is there", [path.parent.parent.name for path in home.glob("M/.f[1-9]/new/*")], [])
    record.unlink()
    equal("the next run", run("migrate M old", home)[0], 1)
    for name, text in texts.items():
        equal(name, sorted(map(digest_of, bodies_of(text))), sorted(bases(folder_of(home / "M", name))))


def little_memory(home: Path) -> None:
    """If nobody says how many mailboxes are at work, there are no more than memory allows, and it is said if that is
    few."""
    want_users()
    for number in range(3):
        mailbox(home / f"old/f{number}", ONE)
    says = "mbox2maildir-admin: only {} of memory are free, so {} at a time; --jobs N sets another number\n".format
    rows: list[tuple[int, list[str], str]] = [
        (3 << 18, [], ""),
        ((3 << 18) - 1, [], says("805.3 MB", 2)),
        (100, [], says("102.4 kB", 1)),
        (100, ["--jobs", "3"], ""),
    ]
    for free, words, said in rows:
        (home / "memory").write_text(f"MemTotal: 1 kB\nMemAvailable:    {free} kB\n", encoding="ascii")
        subprocess.run(["mount", "--bind", home / "memory", "/proc/meminfo"], check=True)
        try:
            expect(["migrate", "--dry-run", *words, "M", "old"], home, 0, None, said)
            expect(["migrate", "--dry-run", *words, "M", "old/f0"], home, 0, None)
        finally:
            subprocess.run(["umount", "/proc/meminfo"], check=True)


def one_at_work(home: Path) -> None:
    """With one job, the line of a terminal is about the mailbox that is at work. Those that are done are no longer at
    work, though their rows wait for a sync."""
    for number in range(3 * FOLDERS):
        mailbox(home / f"old/f{number}", text_of(number))
    words = [str(ADMIN), "migrate", "--jobs", "1", "M", "old"]
    with Terminal(words, home, PATH=f"{home}/bin:{os.environ['PATH']}") as terminal:
        while terminal.reads_more(time.monotonic() + PATIENCE):
            pass
        said = terminal.printed.decode()
        status, _ = terminal.end()
    shown = re.findall(r"\d+/\d+ (\S+(?: at work)?): ", said)
    equal("status, and whether a mailbox was shown", (status, bool(shown)), (0, True))
    equal("what else was shown", [name for name in shown if not re.fullmatch(r"old/f\d+", name)], [])


def bases(folder: Path) -> list[str]:
    """The digests of the mail of a folder, as its bytes have them."""
    return [digest_of(path.read_bytes()) for path in mail_in(folder)]


def full_disk(home: Path) -> None:
    """A mailbox for which there is no space is left, and the others are done. Those that fit only one after the other
    wait for each other."""
    want_users()
    with small_disk(home / "disk") as disk:
        for number in range(4):
            mailbox(home / f"old/f{number}", text_of(number, 200))
        mailbox(home / "old/large", ONE.rstrip(b"\n") + b"\n" + b"x" * 9000000 + b"\n\n")
        status, out, _ = run(["migrate", "--all", "--jobs", "8", disk / "M", "old"], home)
        rows = [line for line in out.splitlines() if ": left (" in line]
        found = (status, len(rows), "old/large" in rows[0], "not enough space" in rows[0])
        equal("status, and what is left", found, (1, 1, True, True))
        equal("the last line", out.splitlines()[-1], "5 mailboxes: 4 done, 1 left")


if __name__ == "__main__":
    check_all(*checks_in(globals()))
