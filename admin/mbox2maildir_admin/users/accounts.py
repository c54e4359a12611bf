"""The accounts of the system, and what each of them must own: its mailbox in the spool, and its home."""
import os
import pwd
import re
import stat
from collections.abc import Iterable
from typing import NamedTuple, Optional

from ..faults import Left, Reason
from ..looks import straight
from ..nexts import Todo, task
from ..terminal import named

# the first user's number if login.defs names none, and the numbers of nobody
FIRST_UID, NOBODY = 1000, (65534, 0xFFFFFFFE)
# how much of login.defs is read
LONGEST_SETTINGS = 1 << 20
# of so many accounts, each is no longer asked for by itself: to answer, a system goes through half of its list
MANY = 1000

# an account, however many names it has: its number and its home
AccountKey = tuple[int, bytes]


class Account(NamedTuple):
    """What is asked of an account: its name, its number and that of its group, and its home."""

    name: bytes
    uid: int
    gid: int
    home: bytes

    @classmethod
    def of(cls, known: pwd.struct_passwd) -> "Account":
        """The account that the system knows so."""
        home = straight(os.path.join(b"/", os.fsencode(known.pw_dir)))
        return cls(os.fsencode(known.pw_name), known.pw_uid, known.pw_gid, home)

    @property
    def key(self) -> AccountKey:
        """What all of its names have in common, also if symbolic links lead some of them to its home."""
        return self.uid, os.path.realpath(self.home)


class Accounts:
    """The accounts of a system, of which those that it enumerates can be read once, and the number of the first that is
    a user's."""

    def __init__(self) -> None:
        try:
            with open("/etc/login.defs", encoding="utf-8", errors="replace") as file:
                found = re.search(r"(?m)^\s*UID_MIN\s+(\d+)", file.read(LONGEST_SETTINGS))
        except OSError:
            found = None
        self.first = int(found.group(1)) if found else FIRST_UID
        self.by_name: dict[bytes, Account] = {}
        self.by_number: dict[int, Account] = {}

    def read(self) -> Iterable[Account]:
        """Reads those that the system enumerates."""
        for account in map(Account.of, pwd.getpwall()):
            self.by_name.setdefault(account.name, account)
            self.by_number.setdefault(account.uid, account)
        return self.by_name.values()

    def of_name(self, name: bytes) -> Account:
        """The account of a user, even if the system does not enumerate it. Raises Left if the name belongs to
        nobody."""
        try:
            return self.by_name.get(name) or Account.of(pwd.getpwnam(os.fsdecode(name)))
        except (KeyError, ValueError):
            raise Left("no such user", Reason.NO_USER) from None

    def of_number(self, number: int) -> Optional[Account]:
        """The account with a number; None if there is none."""
        try:
            return self.by_number.get(number) or Account.of(pwd.getpwuid(number))
        except KeyError:
            return None

    def has(self, name: bytes) -> bool:
        """Whether a name is that of an account."""
        try:
            return bool(self.of_name(name))
        except Left:
            return False

    def is_users(self, account: Account) -> bool:
        """Whether an account is a user's."""
        return account.uid >= self.first and account.uid not in NOBODY


def name_of(uid: int) -> str:
    """The name of the user with this number."""
    try:
        return named(os.fsencode(pwd.getpwuid(uid).pw_name))
    except KeyError:
        return "user %d" % uid


def size_of_mailbox(mailbox: bytes, account: Account) -> Optional[int]:
    """How many bytes a mailbox of the spool has; None if there is no such file. Raises Left if it is not a mailbox of
    the account, and OSError if that is not known."""
    try:
        state = os.lstat(mailbox)
    except FileNotFoundError:
        return None
    if stat.S_ISLNK(state.st_mode):
        raise Left("it is a symbolic link", Reason.LINK)
    if not stat.S_ISREG(state.st_mode):
        raise Left("it is not a regular file", Reason.NO_FILE)
    if state.st_uid != account.uid:
        says = "it belongs to %s" % name_of(state.st_uid)
        if state.st_nlink > 1:
            # whoever gets the file gets it under each name
            raise Left(says + ", and has other names", Reason.OTHER_OWNER, task(Todo.ONE_NAME))
        raise Left(says, Reason.OTHER_OWNER)
    return state.st_size


def why_no_home(account: Account) -> Optional[Left]:
    """Why an account has no home of its own: a disk that is not mounted there leaves a folder of another owner. None if
    it has one. Whoever looks as the user learns whether the user can enter it."""
    home = named(account.home)
    try:
        owner = os.stat(os.path.join(account.home, b".")).st_uid
    except FileNotFoundError:
        return Left("the home of its user is missing: %s" % home, Reason.HOME)
    except OSError as error:
        return Left("could not enter the home of its user: %s: %s" % (home, error.strerror), Reason.HOME)
    if owner == account.uid:
        return None
    return Left("the home of its user belongs to %s: %s" % (name_of(owner), home), Reason.HOME)
