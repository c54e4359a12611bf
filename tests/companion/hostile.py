"""mbox2maildir-admin migrate --users: a user has taken over the process that root started with that user's rights. What
it tells is only printed, and never trusted; whatever it does, root ends in order. It needs root, and is left out
without it."""
import ctypes
import json
import os
import pwd
import resource
import shlex
import subprocess
import time
from collections.abc import Iterator
from contextlib import contextmanager
from pathlib import Path
from typing import Any, NamedTuple, Optional

from tests.companion.spool import theirs, users
from tests.support import accounts
from tests.support.checks import PATIENCE, equal
from tests.support.homes import check_all, doing_first, mailbox, run, script, want_users
from tests.support.mail import ONE

NAME = "m61one"
UNREADABLE = "could not read what its process reported"
# takes the place of what a process does once it has the user's rights; root hears what is written to the pipe
TAKEN_OVER = """
import fcntl, json, os, signal, time
taken, rights = signal.pthread_sigmask, os.setuid

def tell(*lines):
    for line in lines:
        rest = (line if isinstance(line, bytes) else json.dumps(line).encode()) + b"\\n"
        while rest:
            rest = rest[os.write(pipe, rest) :]

def take_over(*words):
    global pipe
    for number in range(3, 64):
        try:
            if fcntl.fcntl(number, fcntl.F_GETFL) & os.O_ACCMODE == os.O_WRONLY:
                pipe = number
        except OSError:
            pass
    try:
        %s
    finally:
        os._exit(0)

def with_rights(number):
    rights(number)
    signal.pthread_sigmask = take_over

os.setuid = with_rights
"""
# the fields of a row, as a process tells them
FIELDS: dict[str, object] = {
    **{"path": "mail/a", "folder": ".a", "kind": "", "messages": 1, "verdict": "left", "why": "", "reason": None},
    **{"size": None, "remarks": [], "quotes": [], "next": [], "spent": None, "is_back": False, "tie": "", "most": None},
    **{"counts": [], "details": [], "user": None},
}


def row(**others: object) -> list[object]:
    """A row of a mailbox that is left, with other fields."""
    return ["row", {**FIELDS, **others}]


def answer(does: str, *parts: object, messages: Optional[int] = None) -> list[object]:
    """A command that is next, which is said to be root's: its parts, each a word of a table with names."""
    return [[parts, "root"], does, messages]


def a_task(todo: str, *names: str) -> list[object]:
    """A task that is next, which is said to be root's."""
    return [todo, names, "root"]


DONE, REMOVE = row(verdict="done"), ["remove", ["a b"]]
# lines that no process of this program tells: each counts as a row that could not be read
NONSENSE = [
    b"",
    b"{",
    b"7",
    b"null",
    b"[" * 9000,
    b"\xff",
    b'["at", "x", "reading", Infinity, 1]',
    b'["at", "x", "reading", 1, NaN]',
    b'["at", "x", "reading", %s, 1]' % (b"9" * 400),
    b'["at", "x", "%s"]' % (b"x" * (1 << 16)),
    json.dumps(row(messages=float("inf"))).encode(),
    json.dumps(row(path="\ud800")).encode(),
    ["at"],
    ["at", "x", ["a"], 1, 2],
    ["end"],
    ["end", -1],
    ["what"],
    ["ask"],
    ["ask", "make", 0],
    ["then"],
    ["then", [["answer"]]],
    ["row"],
    ["row", *range(len(FIELDS))],
    ["row", [*FIELDS.values()]],
    ["row", {name: value for name, value in FIELDS.items() if name != "path"}],
    row(more=1),
    [*DONE, None],
    *(row(messages=count) for count in (1.5, -1, "1", 1 << 63)),
    row(verdict="fine"),
    row(reason="no word"),
    row(size=-1),
    row(most=-1),
    row(tie=7),
    row(spent=[70]),
    row(spent=[70, -3]),
    row(remarks=[["Grew!", "x", 0, 0]]),
    row(remarks=[["", "x", 0, 0]]),
    row(remarks=[["grew", "x", 0, -1]]),
    row(remarks=[["grew"]]),
    row(remarks=[["grew", "x", 0, 0, 0]]),
    row(quotes=[[-1, "x", False]]),
    row(quotes=[["7", "x", False]]),
    row(counts=[["x", -1]]),
    row(counts=[["x"]]),
    row(details=[["x", "grew", None, None, "\ud800", ""]]),
    row(details=[["x", "Grew!", None, None, "", ""]]),
    row(details=[["x", "", -1, None, "", ""]]),
    *(
        row(next=steps)
        for steps in (
            [answer("run")],
            # it tells a command: words of its own, and a text for a shell
            [answer("run", ["rm", ["a"]])],
            [answer("run", ["rm a", []])],
            [answer("run", ["", ["rm", "a"]])],
            [[[[], "rm a", "root"], "run", None]],
            [answer("no word", REMOVE)],
            [answer("run", REMOVE, messages=-1)],
            [answer("run", "remove")],
            [answer("run", ["add-lines", []])],
            [answer("run", ["remove", 7])],
            [answer("run", ["remove", [7]])],
            [answer("run", ["remove", ["a\0b"]])],
            [answer("run", ["remove", ["\ud800"]])],
            [a_task("no word")],
            [a_task("move-to")],
            [[7, "run", None]],
            [a_task("leave")] * 65,
        )
    ),
]


BELL, ESCAPED = "\x1b]0;x\x07", r"\x1b]0;x\x07"
MAKE = answer("make-elsewhere", ["print-mailboxes", []])
RUN, COMMAND = "    run this next:", f"        runuser -u {NAME} -- "
MAKES = COMMAND + "sh -c " + shlex.quote("find \"$d/copy\" -name '*mbox' -type f")
THEN = ["then", [answer("run", ["move", ["a", "b"]])]]


def left(path: str, *steps: object) -> list[object]:
    """A row of a mailbox that is left, and what is next."""
    return row(path=path, next=[*steps])


# what is told of a mailbox, and what is printed of it
LINE, INBOX = f"{NAME} mail/x -> a: messages 1: left (other)", f"{NAME} -> a: messages 1: left (other)"
PRINTED = [
    (
        row(
            path="a",
            folder=".b",
            kind=BELL,
            why=BELL,
            remarks=[["grew", BELL, 0, 0]],
            quotes=[[7, BELL, 1]],
            details=[[BELL, "", 7, 2, BELL, ""]],
        ),
        [
            f"{NAME} a -> b: {ESCAPED}, messages 1: left (other): {ESCAPED}; {ESCAPED}",
            f"    message 2 (line 7): {ESCAPED} {ESCAPED}",
            f"    7 | {ESCAPED}",
        ],
    ),
    (
        left(
            "mail/x",
            answer("run", REMOVE),
            answer("stores-rest", ["remove", ["x"]], messages=3),
            answer("run", ["remove", ["a"]], ["remove", ["b c"]]),
            answer("read-as", ["migrate", ["--as", BELL, "; rm x"]]),
            a_task("move-to", "x: y"),
        ),
        [
            LINE,
            *(RUN, f"{COMMAND}rm 'a b'"),
            *("    this stores the messages that are nowhere, deleted ones too: 3 messages:", f"{COMMAND}rm x"),
            *(RUN, f"{COMMAND}sh -c 'rm a && rm '\"'\"'b c'\"'\"''"),
            f"    it was written as {ESCAPED}:",
            f"{COMMAND}mbox2maildir-admin migrate --as $'{ESCAPED}' '; rm x'",
            f"    as {NAME}, move it to 'x: y'",
        ],
    ),
    # in a folder of the user root could be led elsewhere; in the spool only root can move a file
    (
        left("mail/x", a_task("migrate-target")),
        [LINE, f"    as {NAME}, migrate what it points to, unless that is migrated anyway"],
    ),
    (left("mail/x", a_task("move-copy")), [LINE, f"    as {NAME}, if one is a copy, move it out of here"]),
    (left("", a_task("move-copy")), [INBOX, "    if one is a copy, move it out of here"]),
    (
        left("", a_task("migrate-target")),
        [INBOX, f"    as {NAME}, migrate what it points to, unless that is migrated anyway"],
    ),
    (left("mail/x", a_task("pass-over")), [LINE, "    if it holds no mail, pass over it by --no-mail"]),
    (left("", MAKE), [INBOX, RUN, f"{MAKES} && ASIDE"]),
    (left("mail/x", MAKE), [LINE, RUN, MAKES]),
    (left("/etc/passwd", MAKE), [LINE.replace("mail/x", "/etc/passwd"), RUN, MAKES]),
    (DONE, [f"{NAME} mail/a -> a: messages 1: done"]),
]


class Deed(NamedTuple):
    """What a process does, in Python, and what is said of it: nothing if all seems well."""

    does: str
    says: Optional[str]
    # in root's process
    before: str = ""


FLOOD = "[os.write(pipe, b'x' * 65536) for _ in range(2000)]; tell(b'', ['end', 1])"
DEEDS = [
    Deed("tell(['end', 0])", None),
    Deed("pass", "its process ended early"),
    Deed("tell(['end', 3])", "its process reported 3 rows, but 0 arrived"),
    Deed("os._exit(130)", "its process was interrupted"),
    Deed("os.kill(os.getpid(), signal.SIGKILL)", "its process was killed by signal 9"),
    Deed("os.kill(os.getpid(), signal.SIGSTOP)", "its user stopped its process"),
    # a quarter of an hour is over at once
    Deed(
        "time.sleep(999)",
        "its process reported nothing for 15 minutes",
        "clock = time.monotonic\ntime.monotonic = lambda: clock() * 9999",
    ),
    # much without an end of a line
    Deed(FLOOD, UNREADABLE),
    # it asks, and reads no answer
    Deed("tell(*[['ask', 'sync', 0]] * 5000, ['end', 0])", None),
]


def started(home: Path, before: str, word: str = "migrate") -> list[str]:
    """The words of a migration, or of the way back, for users, before which this was done in root's process."""
    return [str(doing_first(before, home / "bin")), word, "--users", "--now", "spool", NAME]


def taken_over(home: Path, does: str, before: str = "", word: str = "migrate") -> list[str]:
    """The words for a user whose process does this."""
    return started(home, TAKEN_OVER % does.replace("\n", "\n        ") + before, word)


def told(*lines: object) -> str:
    """What tells lines, in Python."""
    return f"tell(*{list(lines)!r})"


def rows_of(command: list[str], home: Path) -> list[dict[str, Any]]:
    """The rows that a migration prints."""
    _, out, _ = run([*command, "--json"], home)
    return [one for one in map(json.loads, out.splitlines()) if one["type"] == "row"]


@contextmanager
def one_user(home: Path) -> Iterator[None]:
    """A user with a mailbox in a spool."""
    want_users()
    with users(home):
        theirs(mailbox(home / "spool" / NAME, ONE), NAME)
        yield


def ends(home: Path) -> None:
    """However a process ends, a row says it. Of what it tells no more is kept than shows that it is too much."""
    with one_user(home):
        for deed in DEEDS:
            got = [(row["reason"], row["says"]) for row in rows_of(taken_over(home, deed.does, deed.before), home)]
            equal(deed.does, got, [("process", deed.says)] if deed.says else [])
        most = resource.getrusage(resource.RUSAGE_CHILDREN).ru_maxrss
        assert most < 1 << 17, f"{most} kB"


def an_internal_error(home: Path) -> None:
    """It leaves each mailbox of a user."""
    fails = "import os; os.register_at_fork(after_in_child=lambda: setattr(os, 'scandir', None))"
    with one_user(home):
        theirs(mailbox(home / f"homes/{NAME}/mail/a", ONE), NAME)
        program, *words = started(home, fails)
        found = [
            (row["path"], row["reason"]) for row in rows_of([program, words[0], "--tree", "mail", *words[1:]], home)
        ]
        equal("rows", found, [("", "defect"), ("mail", "defect")])


def nonsense(home: Path) -> None:
    """Each line that can't be read may have been the row of a mailbox. It is heard to the last."""
    with one_user(home):
        rows = rows_of(taken_over(home, told(*NONSENSE, DONE, ["end", len(NONSENSE) + 1])), home)
        equal("rows", [row["says"] for row in rows], [UNREADABLE] * len(NONSENSE) + [""])
        equal("the last", (rows[-1]["path"], rows[-1]["verdict"]), ("mail/a", "done"))


def printed(home: Path) -> None:
    """What a terminal would obey is escaped. What is next is done with the user's rights, whoever it is said to be for;
    only for the mailbox of the spool that root knows is there more."""
    with one_user(home):
        command = taken_over(home, told(*(row for row, _ in PRINTED), *[THEN] * 3, ["end", len(PRINTED)]))
        _, out, err = run([*command, "--all"], home)
        got, spool = out.splitlines(), home / "spool"
        aside = f'd=$(mktemp -d {home}/{NAME}.XXXXXX) && mv -nT {spool}/{NAME} "$d/original"'
        wanted = [line.replace("ASIDE", aside) for _, lines in PRINTED for line in lines]
        equal("rows", got[: len(wanted)], wanted)
        # what is next for the user is said once, below the sums
        equal(
            "what is next", got[len(wanted) + 1 :], ["    run this next:", f"        runuser -u {NAME} -- mv -nT a b"]
        )
        equal("standard error", err, "")


def has_ended(number: int) -> bool:
    """Whether a process is over within the time that one waits."""
    late = time.monotonic() + PATIENCE
    while time.monotonic() < late:
        try:
            if ") Z " in Path(f"/proc/{number}/stat").read_text(encoding="utf-8"):
                return True
        except OSError:
            return True
        time.sleep(0.05)
    return False


def what_it_started(home: Path) -> None:
    """What a process has started ends with it, and so does a process that heeds no signal, if root is to end. Nothing
    is said of one that ends by itself then."""
    with one_user(home):
        note = home / "homes" / NAME / "note"
        starts = f"child = os.fork()\nif child:\n    open('{note}', 'w').write(str(child))\nelse:\n    time.sleep(999)"
        rows_of(taken_over(home, starts), home)
        assert has_ended(int(note.read_text(encoding="utf-8"))), "it goes on"
        note.unlink()
        out = interrupted(home, note, "signal.SIG_IGN")
        assert f"  {NAME}  its process was interrupted" in out, out
        note.unlink()
        out = interrupted(home, note, "lambda *_: os._exit(130)")
        assert not [line for line in out if "process" in line], out


def interrupted(home: Path, note: Path, heeds: str) -> list[str]:
    """Root is to end while a process waits that does this at its signal. Returns what root prints."""
    waits = f"signal.signal(signal.SIGTERM, {heeds})\ntaken(signal.SIG_SETMASK, [])\n"
    waits += f"open('{note}', 'w').close()\ntime.sleep(999)"
    with subprocess.Popen(taken_over(home, waits), cwd=str(home), stdout=subprocess.PIPE, text=True) as running:
        while not note.exists():
            time.sleep(0.05)
        running.terminate()
        out = running.communicate(timeout=PATIENCE)[0]
    equal("status", running.returncode, 130)
    return out.splitlines()


# tells what it has
FACTS = """import resource, stat
def kind_of(number):
    try:
        mode = os.fstat(number).st_mode
    except OSError:
        return None
    return 'pipe' if stat.S_ISFIFO(mode) else 'device' if stat.S_ISCHR(mode) else 'other'
own = [os.getresuid(), os.getresgid(), os.getgroups(), os.getsid(0) == os.getpid(), os.umask(0), os.getcwd()]
own += [resource.getrlimit(resource.RLIMIT_CORE), sorted(os.environ), list(filter(None, map(kind_of, range(64))))]
import ctypes
own.append(ctypes.CDLL(None).syscall(*map(ctypes.c_long, %s)))
with open('%s', 'w') as file:
    json.dump(own, file)"""
# the call that asks for the number of a process's session keyring, by the machine
KEYRING = {"x86_64": (250, 0, -3, 0), "aarch64": (219, 0, -3, 0)}.get(os.uname().machine, (-1,))
# how root's process begins, as a line for a shell: with a file open, also where it cannot tell which are
BEGINS = (
    'exec 40</etc/shadow; exec "$@"',
    'exec 40</etc/shadow; ulimit -Sn 30; exec unshare -m sh -c \'mount -t tmpfs none /proc && exec "$@"\' sh "$@"',
)


def rights(home: Path) -> None:
    """A process has the user's rights, none of root's files, groups or settings, and makes no core dump."""
    with one_user(home):
        note, account = home / "homes" / NAME / "note", pwd.getpwnam(NAME)
        resource.setrlimit(resource.RLIMIT_CORE, (0, resource.getrlimit(resource.RLIMIT_CORE)[1]))
        uid, gid = account.pw_uid, account.pw_gid
        wanted = [[uid] * 3, [gid] * 3, [gid], True, 0o077, "/", [0, 0], ["HOME", "LOGNAME", "PATH", "TZ", "USER"]]
        for begins in BEGINS:
            facts = taken_over(home, FACTS % (KEYRING, note))
            ran = run(["/bin/bash", "-c", begins, "bash", *facts], home, SECRET="x", TZ="UTC")
            if not ran.err.startswith(("unshare", "mount")):
                *found, keys = json.loads(note.read_text(encoding="utf-8"))
                roots = ctypes.CDLL(None).syscall(*map(ctypes.c_long, KEYRING))
                equal("whether it has root's keys", keys == roots, roots < 0)
                equal(f"what it has: {begins}", found, [*wanted, ["device"] * 3 + ["pipe"] * 2])
                note.unlink()


# what a process may ask root for beside its own inboxes, of which it has two
ASKS: list[list[object]] = [
    [],
    ["make"],
    ["make", 2],
    ["make", -1],
    ["make", "m61one"],
    ["remove", 0],
    [[], 0],
    ["sync", "0"],
    ["sync", -1],
]
# a delivery makes an inbox while root makes it, and the lock of one cannot be released
MEANWHILE = """
import os
sync, unlink, BOX = os.fsync, os.unlink, '%s'
def delivers(number):
    sync(number)
    if not os.path.exists(BOX):
        with open(BOX, 'w') as file:
            file.write('mine')
def refuses(path, **where):
    if path == b'm61one.lock':
        raise OSError(5, 'as of a disk')
    unlink(path, **where)
os.fsync, os.unlink = delivers, refuses
"""


def asks(home: Path) -> None:
    """It gets an answer for its own inboxes alone. What another program delivers there meanwhile is never replaced. In
    the end no lock is held for it, even if one of them cannot be released."""
    with one_user(home), accounts.users({"m61info": home / "homes" / NAME}, like=NAME):
        box = home / "spool" / NAME
        theirs(mailbox(box.with_name("m61info"), ONE), NAME)
        does = told(*(["ask", *words] for words in ASKS), ["ask", "lock", 0], ["ask", "lock", 1], ["end", len(ASKS)])
        words = [*taken_over(home, f"{does}\ntime.sleep(1)", MEANWHILE % box, "back"), "m61info"]
        equal("rows", [row["says"] for row in rows_of(words, home)], [UNREADABLE] * len(ASKS))
        equal("what is there", sorted(path.name for path in box.parent.iterdir()), ["m61info", NAME, f"{NAME}.lock"])
        (box.parent / "m61info").unlink()
        box.unlink()
        rows_of(taken_over(home, f"{told(['ask', 'make', 0])}\ntime.sleep(1)", MEANWHILE % box, "back"), home)
        equal("what another program delivered", box.read_bytes(), b"mine")


# the first sync of a disk does this, and ends so
SYNCING = """
import ctypes, mmap
# the counter is that of all processes
library, synced = ctypes.CDLL, mmap.mmap(-1, 1)
class Library:
    def __init__(self, *words, **named):
        self.real = library(*words, **named)
    def __getattr__(self, name):
        return syncs if name == 'syncfs' else getattr(self.real, name)
def syncs(number):
    synced[0] += 1
    if synced[0] > 1:
        return 0
    %s
    return %d
ctypes.CDLL = Library
"""
# it fails, which the system tells once
FAILING = SYNCING % ("ctypes.set_errno(5)", -1)


def a_sync_that_fails(home: Path) -> None:
    """Nobody's mail is done whose disk lost something, also if that was said to somebody else."""
    with one_user(home):
        theirs(mailbox(home / "spool/m61two", ONE), "m61two")
        rows = rows_of([*started(home, FAILING), "m61two", "--jobs", "1"], home)
        found = [(row["user"], row["reason"]) for row in rows]
        equal("who is left", found, [(NAME, "sync-failed"), ("m61two", "sync-failed")])


def children_of(number: int) -> list[int]:
    """The processes that a process has started."""
    try:
        return [*map(int, Path(f"/proc/{number}/task/{number}/children").read_text(encoding="utf-8").split())]
    except OSError:
        return []


def root_is_killed(home: Path) -> None:
    """A process ends if root does, while it waits for a mailbox and while a program lists or converts it. Nothing of
    the mail comes then."""
    with one_user(home):
        (home / "bin/mbox2maildir").rename(home / "bin/real")
        for age, hangs in ((0, "convert"), (3600, "convert"), (3600, "list")):
            script(home / "bin/mbox2maildir", f'test "$1" != {hangs} || exec sleep 999; exec {home}/bin/real "$@"')
            mailbox(home / "spool" / NAME, ONE, age)
            words = [word for word in started(home, "") if word != "--now"]
            with subprocess.Popen(words, cwd=str(home), stdout=subprocess.DEVNULL, stderr=subprocess.DEVNULL) as root:
                late, found = time.monotonic() + PATIENCE, list[int]()
                while len(found) < (2 if age else 1):
                    assert time.monotonic() < late, "nothing is at work"
                    found = [one for child in children_of(root.pid) for one in (child, *children_of(child))]
                    time.sleep(0.5)
                root.kill()
            for one in found:
                assert has_ended(one), f"{hangs}, {age}: {one} goes on"
            # the mailbox is waited for until it was left alone for a minute
            assert age or time.time() - (home / "spool" / NAME).stat().st_mtime < 55, "it waited on"
            equal(f"{age}: what came", list((home / "homes" / NAME).glob("Maildir/new/*")), [])


if __name__ == "__main__":
    check_all(
        ends, an_internal_error, nonsense, printed, what_it_started, rights, asks, a_sync_that_fails, root_is_killed
    )
