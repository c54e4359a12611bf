"""Where a server or a delivery program would find a Maildir by itself, so that the first pass would move its user
there."""
import os
import re
import subprocess
from collections.abc import Iterable, Iterator, Mapping, Sequence
from typing import Optional

from ..faults import Fault, Reason
from ..mbox.files import open_file, read_up_to
from ..nexts import Runs, run_next
from ..terminal import named

DOVECONF = "doveconf"
# the name in a home that Dovecot looks for
FOUND_ALONE = b"Maildir"
# drivers of Dovecot that look for mail themselves
AUTOMATIC = "", "auto"
# the files of a home that say where its mail is delivered, and how many bytes of them are looked at
DELIVERY, LONGEST = (b".forward", b".procmailrc"), 1 << 20
# the settings that say where mail is: of Dovecot 2.3, and of 2.4, where a user database may have them too
OLD, DRIVER, PATH, INBOX = "mail_location", "mail_driver", "mail_path", "mail_inbox_path"
SETS = re.compile(r"\s*(?:userdb_)?(location|mail_(?:location|driver|path|inbox_path)) =[ \t]*(.*?)\s*")
NO_DOVECONF = (
    "no doveconf shows whether a server would find the Maildir by itself: say by --unread that nobody reads it"
)
LOOKS = (
    "Dovecot looks for mail by itself, and would find %s: set mail_location, or in Dovecot 2.4 mail_driver and "
    "mail_path, to the mailboxes that people use"
)
READS = "Dovecot has its mail in %s, so people read %s already"
DELIVERS = "%s delivers into it already"


def locations() -> Optional[list[str]]:
    """Where Dovecot looks for mail, by its settings: the general location, and those of blocks such as namespaces; None
    without Dovecot. Each is as `mail_location` has it: a driver and a path."""
    from shutil import which

    doveconf = which(DOVECONF)
    if doveconf is None:
        return None
    # of these names, each version knows its own
    named_so = filter(None, map(SETS.fullmatch, printed_by(doveconf, OLD, DRIVER, PATH, INBOX)))
    general = {found[1]: found[2] for found in named_so}
    others = printed_by(doveconf, "-n")
    if OLD in general:
        found = filter(None, map(SETS.fullmatch, others))
        # a namespace without a location of its own has the general one
        return [general[OLD], *(one[2] for one in found if one[2])]
    return [*places_in(general), *places_of_blocks(general, others)] if DRIVER in general else None


def printed_by(*words: str) -> list[str]:
    """The lines that a command prints; none if it fails."""
    ran = subprocess.run(words, stdout=subprocess.PIPE, stderr=subprocess.DEVNULL, check=False)
    return [] if ran.returncode else ran.stdout.decode("utf-8", "replace").splitlines()


def places_in(settings: Mapping[str, str]) -> Iterator[str]:
    """Where mail is by the settings of Dovecot 2.4: the folders, and the inbox, which may be elsewhere."""
    for name in PATH, INBOX:
        if settings.get(name) or name == PATH:
            yield "%s:%s" % (settings.get(DRIVER, ""), settings.get(name, ""))


def places_of_blocks(general: Mapping[str, str], lines: Iterable[str]) -> Iterator[str]:
    """Where mail is by each block of these lines that says something of that; what it does not say is as around it."""
    around = [(general, False)]
    for line in lines:
        (settings, says), found = around[-1], SETS.fullmatch(line)
        if line.endswith("{"):
            around.append((settings, False))
        elif line.strip() == "}":
            around.pop()
            yield from places_in(settings) if says else ()
        elif found:
            around[-1] = {**settings, found[1]: found[2]}, True


def want_unread(maildir: bytes, home: bytes, several: Optional[Sequence[str]], is_said: bool) -> None:
    """Raises Fault if a server would find a Maildir, of a user with this home, by these settings, or if there are none
    and nobody has said that it is unread; or if mail is delivered there."""
    if several is None and not is_said:
        raise Fault(NO_DOVECONF, Reason.PREPARED)
    is_in_home = os.path.abspath(maildir) == os.path.abspath(os.path.join(home, FOUND_ALONE))
    for location in several or ():
        driver, sign, rest = location.partition(":")
        is_named = names(os.fsencode(rest.split(":")[0] if sign else location), maildir, home)
        is_automatic = not sign or driver in AUTOMATIC
        if is_automatic and (is_named or is_in_home) or is_named and driver == "maildir":
            why = LOOKS % named(maildir) if is_automatic else READS % (named(location), named(maildir))
            raise Fault(why, Reason.PREPARED, run_next(Runs.DOVECONF))
    want_not_delivered(maildir, home)


def names(path: bytes, maildir: bytes, home: bytes) -> bool:
    """Whether a path of Dovecot's settings is that of a Maildir, or may be."""
    for variable in (b"~", b"%h", b"%{home}"):
        if path == variable or path.startswith(variable + b"/"):
            path = home + path[len(variable) :]
    maildir, path = os.path.abspath(maildir), path.rstrip(b"/")
    last = os.path.basename(path)
    if b"%" in path:
        # only Dovecot knows what it stands for
        return b"%" in last or last == os.path.basename(maildir)
    return bool(path) and os.path.abspath(path) == maildir


def want_not_delivered(maildir: bytes, home: bytes) -> None:
    """Raises Fault if a file of the home names the Maildir as where mail is delivered."""
    name = re.escape(os.path.basename(os.path.abspath(maildir)))
    pattern = re.compile(rb"(?:^|[/\"'\s=:,])%s(?:[/\"'\s:,]|\Z)" % name, re.MULTILINE)
    for file in DELIVERY:
        path = os.path.join(home, file)
        try:
            with open_file(path) as opened:
                text = read_up_to(opened, LONGEST)
        except (Fault, OSError):
            continue
        if pattern.search(text):
            raise Fault(DELIVERS % named(path), Reason.PREPARED)
