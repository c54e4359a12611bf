"""What Dovecot shows of mailboxes before `migrate --dovecot`, and of the Maildir after it, over IMAP and POP3, is the
same. Other cases show what a further run does, and that clients which have a state from before fetch nothing again.
Random mailboxes are worlds of tests/companion/worlds.py. Everything is left out if Dovecot is missing.
"""
import contextlib
import re
import shutil
from collections.abc import Callable, Iterator, Sequence
from functools import lru_cache, partial
from pathlib import Path

from tests.support.cases import LeftOut, nothing_wrong, run_cases
from tests.support.dovecot.clients import IMAP, POP3, Client, missing
from tests.support.dovecot.mailboxes import CASES, Build, hole_without_index, kept, never_read, tail, tree
from tests.support.dovecot.served import Case, differences, mail, served
from tests.support.dovecot.server import Dovecot, is_there
from tests.support.dovecot.settings import settings_here
from tests.support.homes import fresh_home, install, make_maildir
from tests.support.ledgers import RECORD, take_back_ends
from tests.support.printed import commands_in

# what a row says of lines that lost a `>`
UNQUOTED = r"`>From ` loses a `>` in %s \(Dovecot showed it\)"


def says(what: str, got: tuple[int, str], status: int, pattern: str) -> Iterator[str]:
    """What is wrong if a run ended with another status, or printed something else."""
    if got[0] != status or not re.search(pattern, got[1]):
        yield f"dovecot: {what}: status {got[0]}: {got[1]}"


def goes_on(home: Path, server: Dovecot) -> Iterator[str]:
    """A run was interrupted before `done`, or before the list was there. The next one writes the same."""
    case = Case(home, server, "broken")
    kept(case)
    case.migrate()
    maildir, record = case.home / "Maildir", case.home / "Maildir" / RECORD
    numbers, lines = (maildir / "dovecot-uidlist").read_bytes(), record.read_text().splitlines(True)
    for what, remove, count in (
        ("`done`", "", 1),
        ("the list", "uidlist", 1),
        ("its line", "uidlist", 2),
        ("the keywords", "uidlist keywords", 2),
    ):
        for name in remove.split():
            (maildir / f"dovecot-{name}").unlink()
        record.write_text("".join(lines[:-count]))
        take_back_ends(maildir)
        yield from says(f"broken off before {what}", case.migrate(), 0, "done")
        if (maildir / "dovecot-uidlist").read_bytes() != numbers:
            yield f"dovecot: broken off before {what}: other numbers"


def comes_before(home: Path, server: Dovecot) -> Iterator[str]:
    """Mail that came into the Maildir before is numbered after what was there. Mail that Dovecot delivered has a
    number."""
    case = Case(home, server, "came")
    kept(case)
    make_maildir(case.home / "Maildir")
    (case.home / "Maildir/new/1700000000.M1.host").write_bytes(b"Subject: new\n\n")
    case.own()
    before, other = case.before()[0]["INBOX"], case.copy("delivered")
    yield from says("mail came before", case.migrate(), 0, "done\n")
    uids = [row[0] for row in case.after()[0]["INBOX"][2]]
    if uids != [row[0] for row in before[2]] + [before[1]]:
        yield f"dovecot: mail came before: UIDs {uids}"
    client = server.client("delivered@after")
    client.append("INBOX", "", "", b"Subject: new\n\n")
    client.logout()
    yield from says(
        "Dovecot delivered before", other.migrate(), 1, r"left \(numbered\): dovecot.* is there: Dovecot has looked"
    )


def has_others(home: Path, server: Dovecot) -> Iterator[str]:
    """A second mailbox for a folder that has numbers is left if it has some too; Dovecot numbers it after the first. If
    it has none, there is nothing to ask."""
    case = Case(home, server, "others")
    kept(case)
    before = case.before()
    (case.home / "more").write_bytes(mail(20, "X-IMAPbase: 1700000000 0000000001\nX-UID: 1\n"))
    (case.home / "none").write_bytes(mail(21))
    yield from says("the first of two", case.migrate(), 0, "done")
    yield from says(
        "the second", case.migrate(names=["more"]), 1, r"left \(numbered\): INBOX has the UIDs of another mailbox"
    )
    yield from says("the second, without", case.migrate("--folder", "INBOX", names=["more"]), 0, "done")
    yield from says(
        "one without numbers", case.migrate(names=["none"]), 0, "done, .*Dovecot gives what is new its UIDs"
    )
    uids = [row[0] for row in case.after()[0]["INBOX"][2]]
    following = before[0]["INBOX"][1]
    if uids != [row[0] for row in before[0]["INBOX"][2]] + [following, following + 1]:
        yield f"dovecot: of two mailboxes: UIDs {uids}"


def moves(home: Path, server: Dovecot) -> Iterator[str]:
    """A copy of a mailbox brings nothing, and says so. A mailbox keeps its UIDs if it was moved, and then grew."""
    case = Case(home, server, "moves")
    kept(case)
    yield from says("before it was copied", case.migrate(), 0, "done")
    numbers = (case.home / "Maildir/dovecot-uidlist").read_bytes()
    shutil.copy2(case.home / "inbox", case.home / "copy")
    case.own()
    wanted = "done, 4 messages there already, from .*; without its UIDs, because INBOX has the UIDs of another mailbox"
    yield from says("a copy", case.migrate(names=["copy"]), 0, wanted)
    case.inbox.rename(case.home / "moved")
    yield from says("it was moved", case.migrate(names=["moved"]), 0, "1 done before")
    with open(case.home / "moved", "ab") as file:
        file.write(mail(20))
    wanted = f"done, {UNQUOTED % '1 line'}; it grew by 1 message; Dovecot gives what is new its UIDs"
    yield from says("it was moved, and grew", case.migrate(names=["moved"]), 0, wanted)
    if (case.home / "Maildir/dovecot-uidlist").read_bytes() != numbers:
        yield "dovecot: it was copied, moved, and grew: other numbers"


def grows(home: Path, server: Dovecot) -> Iterator[str]:
    """A mailbox grew after it was done. What was there keeps its UIDs, and Dovecot gives UIDs to what is new."""
    case = Case(home, server, "grows")
    kept(case)
    yield from says("before it grew", case.migrate(), 0, "done")
    for number, has_looked in ((20, False), (21, True)):
        case.deliver(mail(number))
        before = case.before()
        wanted = f"done, {UNQUOTED % '1 line'}; it grew by 1 message; Dovecot gives what is new its UIDs"
        # a rehearsal says the same in the same order
        yield from says("it would grow", case.migrate("--dovecot", "--dry-run"), 0, "would be " + wanted)
        yield from says("it grew", case.migrate(), 0, wanted)
        for line in differences(before, case.after(), False):
            yield f"dovecot: it grew, {'and Dovecot had looked' if has_looked else 'and nobody had looked'}: {line}"


def was_done(home: Path, server: Dovecot) -> Iterator[str]:
    """A mailbox that was done without numbers gets none later, and the row says so."""
    case = Case(home, server, "without")
    kept(case)
    yield from says("without --dovecot", case.migrate("--folder", "INBOX"), 0, "done")
    yield from says("done before", case.migrate(), 0, "INBOX: done before, without its UIDs")
    case.deliver(mail(20))
    wanted = f"done, {UNQUOTED % '1 line'}; it grew by 1 message; without its UIDs"
    yield from says("done before, and it grew", case.migrate(), 0, wanted)
    if list((case.home / "Maildir").glob("dovecot*")):
        yield "dovecot: done without --dovecot, and numbers came later"


def foresees(home: Path, server: Dovecot) -> Iterator[str]:
    """What `--dry-run` says of numbers. It makes nothing."""
    foreseen = [
        (kept, f"messages 4: would be done, {UNQUOTED % '4 lines'}\n"),
        (tail, f"messages 6: would be done, {UNQUOTED % '6 lines'}\n"),
        (never_read, f"would be done, {UNQUOTED % '5 lines'}; Dovecot had given it no UIDs\n"),
        (hole_without_index, f"would be done, {UNQUOTED % '4 lines'}; some messages get new UIDs, because"),
    ]  # type: list[tuple[Build, str]]
    for build, pattern in foreseen:
        case = Case(home, server, f"dry-{build.__name__}")
        build(case)
        yield from says(f"--dry-run of {build.__doc__}", case.migrate("--dry-run", "--dovecot"), 0, pattern)
        if (case.home / "Maildir").exists():
            yield f"dovecot: --dry-run of {build.__doc__}: it made something"


def subscribes(home: Path, server: Dovecot) -> Iterator[str]:
    """Subscriptions that are there stay, and the row says what they lack. Somebody who leaves a folder stays out."""
    case = Case(home, server, "subscriber")
    tree(case)
    before = case.before()
    yield from says("subscriptions", case.migrate(), 0, ": 6 done; ")
    file = case.home / "Maildir/subscriptions"
    written = file.read_bytes()
    file.write_bytes(b"V\t2\n\nSent\n")
    yield from says("a folder was left", case.migrate(), 0, ": 6 done before; ")
    (make_maildir(case.home / "Other") / "subscriptions").write_bytes(b"V\t2\n\nSent\n")
    (case.home / "Maildir").rename(case.home / "First")
    (case.home / "Other").rename(case.home / "Maildir")
    got = case.migrate()
    yield from says(
        "subscriptions that are there", got, 1, r"left \(subscriptions\): Maildir/subscriptions already exists"
    )
    if file.read_bytes() != b"V\t2\n\nSent\n":
        yield "dovecot: subscriptions that were there were written over"
    (command,) = commands_in(got[1])
    case.run("/bin/sh", "-c", command)
    yield from says("what it lacked is in it", case.migrate(), 0, ": 6 done before; ")
    if sorted(file.read_bytes().splitlines()) != sorted(written.splitlines()) or case.after()[2] != before[2]:
        yield f"dovecot: subscriptions: {case.after()[2]}, and they were {before[2]}"


def leaves_room(home: Path, server: Dovecot) -> Iterator[str]:
    """If a stranger's header says that nearly all numbers are used up, new mail gets a number all the same."""
    case = Case(home, server, "nearly")
    case.deliver(mail(0, "X-IMAPbase: 222 4294967290\n"), mail(1))
    yield from says("numbers are nearly used up", case.migrate(), 0, "done, .*; its UIDs start anew")
    for number in range(6):
        new = case.home / f"Maildir/new/170000000{number}.M1.host"
        new.write_bytes(b"Subject: new\n\n")
        case.own()
        uids = [row[0] for row in case.after()[0]["INBOX"][2]]
        if uids != list(range(1, 4 + number)):
            yield f"dovecot: numbers are nearly used up: UIDs {uids}"


def begins_empty(home: Path, server: Dovecot) -> Iterator[str]:
    """A folder that was emptied, and that a client has filled since: its messages have lengths, and the one by which
    Dovecot kept it empty needs none."""
    case = Case(home, server, "empty")
    client = server.client(case.name)
    client.create('"Sent"')
    client.append('"Sent"', "", "", b"Subject: old\n\n")
    client.select('"Sent"')
    client.store("1", "+FLAGS", r"(\Deleted)")
    client.expunge()
    for subject in (b"one", b"two"):
        client.append('"Sent"', "", "", b"Subject: %s\n\nhello\nFrom the shed.\n" % subject)
    client.logout()
    yield from says("it began empty", case.migrate(names=["mail"]), 0, r"Sent: mboxcl2, quoted, messages 3: done")
    bodies = sorted(path.read_bytes().split(b"\n\n", 1)[1] for path in (case.home / "Maildir/.Sent").glob("*/*:2,*"))
    if bodies != [b"hello\nFrom the shed.\n"] * 2:
        yield f"dovecot: a folder that began empty: {bodies}"


def stays_empty(home: Path, server: Dovecot) -> Iterator[str]:
    """An empty mailbox is done once. Mail that has come into its folder since keeps its UID."""
    case = Case(home, server, "nothing")
    yield from says("an empty mailbox", case.migrate(), 0, "inbox -> INBOX: empty, messages 0: done\n")
    client = server.client("nothing@after")
    client.append("INBOX", "", "", b"Subject: new\n\n")
    client.logout()
    file = case.home / "Maildir/dovecot-uidlist"
    before, uids = file.read_bytes(), case.after()
    yield from says("an empty mailbox, once more", case.migrate(), 0, "^1 mailbox: 1 done before\n")
    if (file.read_bytes(), case.after()) != (before, uids):
        yield f"dovecot: an empty mailbox, once more: {case.after()}, and it was {uids}"


def fetch_nothing(home: Path) -> Iterator[str]:
    """Clients with a state from before fetch only the one message that has come since."""
    if missing():
        print(f"dovecot: left out, not here: {', '.join(missing())}")
    server = Dovecot(str(home / "turned"))
    server.write()
    server.start()
    try:
        case = Case(home, server, "mia")
        tree(case)
        (home / "clients").mkdir()
        clients = [Client(name, home / "clients", server, "mia") for name in (*POP3, *IMAP) if name not in missing()]
        # what POP3 has fetched counts as seen, which IMAP shows in the second round
        for _ in range(2):
            yield from run_all(clients)
            case.look()
        had = {client.name: client.mail() for client in clients}
        shown = case.shown("mia")
        server.stop()
        yield from says("clients", case.migrate(), 0, "6 done")
        server.change(settings_here().mailboxes, settings_here().maildirs)
        server.start()
        yield from run_all(clients)
        yield from differences(shown, case.shown("mia"), False)
        (case.home / "Maildir/new/1700000000.M1.host").write_bytes(b"Subject: new\n\nhello\n")
        case.own()
        now = {client.name: client.mail() for client in clients}
        yield from run_all(clients)
        for client in clients:
            count = len(had[client.name])
            if now[client.name] != had[client.name] or count != (4 if client.name in POP3 else 14):
                yield f"dovecot: {client.name} had {count} messages, and after the migration {len(now[client.name])}"
            if len(client.mail()) != count + 1:
                yield f"dovecot: {client.name} has {len(client.mail())} messages, of {count} and one that came"
    finally:
        server.stop()


def follows_maildir(server: Dovecot, setting: str) -> None:
    """Puts a setting behind the place of the Maildirs."""
    maildir = settings_here().maildir
    server.change(maildir, maildir + setting)


def with_control(case: Case) -> Iterator[str]:
    """CONTROL= and INDEX= are elsewhere, so the files are moved there."""
    yield from says("CONTROL=", case.migrate(), 0, ": 6 done; ")
    maildir, control = case.home / "Maildir", case.home / "control"
    for file in [*maildir.rglob("dovecot-*")]:
        folder = control / (".INBOX" if file.parent == maildir else file.parent.name)
        folder.mkdir(parents=True, exist_ok=True)
        file.rename(folder / file.name)
    (maildir / "subscriptions").rename(control / "subscriptions")
    follows_maildir(case.server, settings_here().control)


def with_layout(case: Case) -> Iterator[str]:
    """LAYOUT=fs: each folder is a Maildir of its own, and the subscriptions are copied."""
    for name in case.folders:
        old, new = ("inbox", "Maildir") if name == "INBOX" else (f"mail/{name}", f"Maildir/{name}")
        (case.home / new).parent.mkdir(parents=True, exist_ok=True)
        yield from says("LAYOUT=fs", case.migrate(names=[old], into=new), 0, "1 done\n")
    shutil.copy(case.home / "mail/.subscriptions", case.home / "Maildir/subscriptions")
    follows_maildir(case.server, settings_here().layout)


def with_digests(case: Case) -> Iterator[str]:
    """UIDLs are digests, which a Maildir does not have, so each is put into the list."""
    words = "-f", "flow", "fetch", "-u", case.name, "uid guid", "mailbox", "INBOX", "all"
    uidls = dict(re.findall(r"(?m)^uid=(\d+) guid=(\S+)$", case.server.doveadm(*words).stdout.decode()))
    yield from says("other UIDLs", case.migrate(), 0, ": 6 done; ")
    file = case.home / "Maildir/dovecot-uidlist"
    file.write_text(re.sub(r"(?m)^(\d+) :", lambda found: f"{found[1]} P{uidls[found[1]]} :", file.read_text()))
    case.server.change(settings_here().digests, settings_here().uidls)


def with_headers(case: Case) -> Iterator[str]:
    """UIDLs are those of the headers X-UIDL, in a Maildir too."""
    yield from says("X-UIDL", case.migrate(), 0, ": 6 done; ")


def as_it_is(uidls: str) -> str:
    """UIDLs that the server had all the time."""
    return uidls


def of_digests(_: str) -> str:
    """UIDLs that are digests."""
    return settings_here().digests


def of_headers(uidls: str) -> str:
    """UIDLs that may come from headers."""
    return f"{uidls}\n  pop3_reuse_xuidl = yes"


SETTINGS = {
    "control": (with_control, as_it_is),
    "layout": (with_layout, as_it_is),
    "digests": (with_digests, of_digests),
    "headers": (with_headers, of_headers),
}


def follows_settings(
    arrange: Callable[[Case], Iterator[str]], changed: Callable[[str], str], home: Path
) -> Iterator[str]:
    """With what the guide says of settings of Dovecot, its clients see no change."""
    server = Dovecot(str(home / "settings"))
    server.write()
    server.change(settings_here().uidls, changed(settings_here().uidls))
    server.start()
    try:
        case = Case(home, server, "mia")
        tree(case)
        case.deliver(mail(20, "Message-ID: <20@example.com>\nX-UIDL: mine\n"))
        case.look()
        before = case.before()
        yield from arrange(case)
        case.own()
        server.stop()
        server.start()
        for line in [*differences(before, case.after(), False), *server.complaints()]:
            yield f"dovecot: {arrange.__doc__}: {line}"
    finally:
        server.stop()


def run_all(clients: Sequence[Client]) -> Iterator[str]:
    """Each client fetches what is new. Returns what failed."""
    for client in clients:
        failed = client.run()
        if failed:
            yield f"dovecot: {client.name}: {failed}"


def looks_as_before(number: int, build: Build, home: Path, server: Dovecot) -> Iterator[str]:
    """A mailbox looks as before over IMAP and POP3, and the server does not complain."""
    case = Case(home, server, f"user{number}")
    build(case)
    said = len(server.complaints())
    for line in case.wrong():
        yield f"dovecot: {build.__doc__}: {line}"
    for line in server.complaints()[said:]:
        yield f"dovecot: {build.__doc__}: the log: {line}"


def finds_nothing(check: Callable[[], Iterator[str]]) -> None:
    """A check of a server finds nothing that is wrong."""
    if not is_there():
        raise LeftOut("Dovecot's server with IMAP and POP3 is not here")
    nothing_wrong(check)


def at_server(
    place: Callable[[], tuple[Path, Dovecot]], check: Callable[[Path, Dovecot], Iterator[str]]
) -> Iterator[str]:
    """What a check finds at the server that many checks share. The first one starts it."""
    home, server = place()
    yield from check(home, server)


def at_home_alone(check: Callable[[Path], Iterator[str]]) -> Iterator[str]:
    """What a check finds that starts a server of its own."""
    with fresh_home() as home:
        install(home / "bin")
        yield from check(home)


def main() -> None:
    own_server = {
        "fetch_nothing": fetch_nothing,
        **{f"settings_of_{name}": partial(follows_settings, *row) for name, row in SETTINGS.items()},
    }  # type: dict[str, Callable[[Path], Iterator[str]]]
    checks = {
        check.__name__: check
        for check in (
            goes_on,
            comes_before,
            has_others,
            moves,
            grows,
            was_done,
            foresees,
            subscribes,
            leaves_room,
            begins_empty,
            stays_empty,
        )
    }  # type: dict[str, Callable[[Path, Dovecot], Iterator[str]]]
    checks.update((build.__name__, partial(looks_as_before, number, build)) for number, build in enumerate(CASES))
    with contextlib.ExitStack() as stack:
        place = lru_cache(maxsize=None)(lambda: stack.enter_context(served()))
        cases = {name: partial(finds_nothing, partial(at_server, place, check)) for name, check in checks.items()}
        cases.update(
            (name, partial(finds_nothing, partial(at_home_alone, check))) for name, check in own_server.items()
        )
        run_cases(cases)


if __name__ == "__main__":
    main()
