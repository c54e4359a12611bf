"""Mailboxes that Dovecot kept, that strangers forged, or that nobody has read. Each is built in a case of
tests.support.dovecot.served."""
import re
import shutil
from collections.abc import Callable

from tests.support.dovecot.served import FLAGS, INTERNAL, Case, mail

Build = Callable[[Case], None]

KEYWORDS = ["Garden", "$Forwarded", "NonJunk", "later"]
FORGED = {
    "X-IMAPbase": "777 0000000099 Evil",
    "X-IMAP": "777 0000000099 Evil",
    "X-UID": "2",
    "X-Keywords": "Evil Garden",
    "Status": "ROD",
    "X-UID ": "4294967295",
}


def kept(case: Case) -> None:
    """A mailbox that Dovecot kept: read, flagged, with keywords and a gap in its UIDs."""
    case.deliver(*map(mail, range(6)))
    case.look()
    case.store("1,3", r"\Seen Garden")
    case.store("3", r"$Forwarded \Answered")
    case.expunge("2,5")


def marked(case: Case) -> None:
    """Drafts, deleted, flagged and answered mail."""
    case.deliver(*map(mail, range(7)))
    case.look()
    for number, flag in enumerate(FLAGS, 1):
        case.store(str(number), flag)
    case.store("6", " ".join(FLAGS))


def emptied(case: Case) -> None:
    """A mailbox that was fetched and deleted over POP3."""
    case.deliver(mail(1), mail(2))
    case.look()
    case.store("1", "Garden")
    case.expunge("1:*")
    assert INTERNAL.match(case.inbox.read_bytes()), case.inbox.read_bytes()


def emptied_and_filled(case: Case) -> None:
    """The same, with mail that has come since, and that Dovecot has shown."""
    emptied(case)
    case.deliver(mail(3), mail(4))
    case.look()
    case.store("2", r"\Seen Garden")


def emptied_with_tail(case: Case) -> None:
    """The same, with mail that Dovecot has not seen."""
    emptied(case)
    case.deliver(mail(3), mail(4, "X-UID: 1\n"))


def tail(case: Case) -> None:
    """Mail that was delivered since Dovecot looked."""
    kept(case)
    case.deliver(mail(10), mail(11))


def hole(case: Case) -> None:
    """A message whose X-UID is gone. Dovecot has it in its index, and writes it again when a keyword changes."""
    hole_without_index(case, keep=True)
    for what in ("add", "remove"):
        case.server.doveadm("flags", what, "-u", case.name, "Moved", "mailbox", "*", "all")
    case.look()


def hole_without_index(case: Case, keep: bool = False) -> None:
    """A message whose X-UID is gone, and is in no index."""
    kept(case)
    if not keep:
        shutil.rmtree(case.home / "mail/.imap")
    text = case.inbox.read_bytes()
    found = list(re.finditer(rb"X-UID: .*\n", text))[1]
    case.inbox.write_bytes(text[: found.start()] + text[found.end() :])


def never_read(case: Case) -> None:
    """A mailbox that no server has seen."""
    case.is_new = True
    case.deliver(*map(mail, range(5)))


def tree(case: Case) -> None:
    """Folders below others, with subscriptions."""
    kept(case)
    client = case.server.client(case.name)
    for name in ("Sent", "lists/garden", "lists/a&-b", "with space", "Gr&APwA3w-e"):
        client.create(f'"{name}"')
        client.append(f'"{name}"', r"(\Seen Garden)", '"03-Mar-2025 09:12:44 +0000"', mail(1).split(b"\n", 1)[1][:-1])
        client.append(f'"{name}"', r"(\Draft later)", '"04-Mar-2025 09:12:44 +0000"', mail(2).split(b"\n", 1)[1][:-1])
        case.folders.append(name)
    for name in ("Sent", "lists/garden", "with space", "Gr&APwA3w-e", "INBOX"):
        client.subscribe(f'"{name}"')
    client.logout()
    case.look()


def forged(field: str, value: str, place: str, looked: bool) -> Build:
    """A header that Dovecot writes itself, in the mail of a stranger, before or after Dovecot looked."""

    def build(case: Case) -> None:
        header = f"{field.strip()}: {value}\n"
        if place == "first":
            case.deliver(mail(0, header), mail(1), mail(2))
            case.has_hidden = field == "X-IMAP"
            case.is_new = not looked and not field.startswith("X-IMAP")
        else:
            kept(case)
            case.deliver(mail(20, header))
            if place == "middle":
                case.deliver(mail(21), mail(22))
        if looked:
            case.look()

    build.__name__ = "_".join([field.replace(" ", "-and-space"), "in", place, "seen" if looked else "unseen"])
    build.__doc__ = f"{field.strip()}: {value} in the {place} message, {'shown' if looked else 'not shown'} before"
    return build


CASES = [
    kept,
    marked,
    emptied,
    emptied_and_filled,
    emptied_with_tail,
    tail,
    hole,
    hole_without_index,
    never_read,
    tree,
] + [
    forged(field, value, place, looked)
    for field, value in FORGED.items()
    for place in ("first", "middle", "last")
    for looked in (True, False)
]
