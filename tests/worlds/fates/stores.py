"""Folders that are one thing, or nearly: Maildirs, folders of MH, and what Dovecot keeps beside mailboxes."""
from collections.abc import Sequence

from tests.worlds.fates.names import Name, name
from tests.worlds.fates.texts import TABLE, Fate
from tests.worlds.fates.world import Branch

# what servers write into a Maildir, beside mail
OF_SERVERS = {
    "maildirfolder": b"",
    "maildirsize": b"0S,0C\n1024 2\n",
    "dovecot-uidlist": b"3 V1700000000 N3 G4f1b0a2c4f1b0a2c4f1b0a2c4f1b0a2c\n",
    "dovecot.index.log": b"\1\3\x28\0" + bytes(36),
    "courierimapuiddb": b"1 1700000000 3\n",
    "subscriptions": b"V\t2\n\nSent\n",
}
# the files of Dovecot, in the order of the table that has what they hold
OF_DOVECOT = ["dovecot.index", "dovecot.index.log", "dovecot.index.cache", "dovecot.mailbox.log"]


def maildir(branch: Branch, one: Name, mails: Sequence[bytes], beside: Sequence[str] = ()) -> Branch:
    """Makes a Maildir. It is one thing, with what servers write in it."""
    made = branch.folder(one)
    for sub in ("cur", "new", "tmp"):
        made.folder(name(sub))
    letters(made, "cur", mails)
    for file in beside:
        made.put(name(file), OF_SERVERS[file])
    made.leave(None, "a Maildir")
    return made


def letters(made: Branch, sub: str, mails: Sequence[bytes]) -> list[Name]:
    """Puts messages into a folder of a Maildir, and returns their names."""
    inside, names = made.folder(name(sub)), [name(f"17000000{number}.M1P2.host:2,S") for number in range(len(mails))]
    for one, mail in zip(names, mails):
        inside.put(one, mail)
    return names


def broken_maildir(branch: Branch, one: Name, mails: Sequence[bytes], lacks: str) -> Branch:
    """Makes a Maildir that lacks an empty folder; or something that is none since a folder is a symbolic link: there
    each message has a fate of its own."""
    made = branch.folder(one)
    for sub in ("cur", "new", "tmp"):
        if sub != lacks:
            made.folder(name(sub))
    if lacks == "cur":
        made.link(name("cur"), "new")
        for letter in letters(made, "new", mails):
            made.folder(name("new")).leave(letter)
    elif letters(made, "cur", mails):
        made.leave(None, "a Maildir")
    return made


def mh_folder(branch: Branch, one: Name, mails: Sequence[bytes]) -> Branch:
    """Makes a folder of MH. It is one thing, with its messages."""
    made = branch.folder(one)
    for number, mail in enumerate(mails, 1):
        made.put(name(str(number)), mail)
    made.put(name(".mh_sequences"), b"unseen: 1\n")
    made.leave(None, "MH")
    return made


def indexes(branch: Branch, mailbox: str) -> None:
    """Makes what Dovecot writes beside mailboxes, with the index of one."""
    inside = branch.folder(name(".imap", "-imap")).folder(name(mailbox))
    several = [content for kind, content in TABLE.items() if "Dovecot" in kind and content.fate == Fate.NO_MAIL]
    for file, content in zip(OF_DOVECOT, several):
        inside.file(name(file), content)
