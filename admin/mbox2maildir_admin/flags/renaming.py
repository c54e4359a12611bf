"""The flags of the files of messages: which of them they lack, and how they get some, by renaming."""
import array
import contextlib
import os
from collections.abc import Callable, Container, Iterator, Sequence
from typing import NamedTuple, Optional

from ..looks import is_there
from ..maildir.files import INFO, letters_of, mail_in
from ..maildir.making import WITH_MAIL, sync_folder
from ..mbox.bases import OWN, before_info
from ..mbox.inventory import Inventory
from ..units import Place
from .dovecot_headers import info_of, is_listed

# by place: what follows the base in the name of a message's file, since names would take much memory; None without a
# file
Infos = list[Optional[bytes]]


class Flagged(NamedTuple):
    """The file of a message under its base: the folder of the Maildir that it is in, and the letters of its flags."""

    place: Place
    sub: bytes
    name: bytes
    base: bytes
    letters: str

    def give(self, folder: bytes, letters: str, was_listed: bool = False) -> bytes:
        """Gives the file these letters in place of its own, but never in place of another file. Returns the name that
        it has then. A message that was listed is not new, and leaves `new`."""
        new = self.base + INFO + letters.encode("latin-1")
        target = os.path.join(folder, b"cur", new)
        is_so = letters == self.letters and (self.sub == b"cur" or not was_listed)
        if is_so or is_there(target):
            return self.name
        os.rename(os.path.join(folder, self.sub, self.name), target)
        return new


def info_in(name: bytes) -> Optional[bytes]:
    """What follows the base in the name of a file, if that is nothing or has the letters of flags; otherwise None."""
    info = name[len(before_info(name)) :]
    return info if not info or info.startswith(INFO) else None


def flagged_in(folder: bytes, inventory: Inventory) -> Iterator[Flagged]:
    """The files of a Maildir that belong to messages. A file that gets flags meanwhile comes twice."""
    for sub in WITH_MAIL:
        # what follows the bases: files share few of these infos, while a list of their names would take much memory
        places, infos, known = array.array("Q"), list[bytes](), {b"": b""}
        with os.scandir(os.path.join(folder, sub)) as entries:
            for name in (entry.name for entry in entries):
                place, info = inventory.table.own_place(name), info_in(name)
                if place is not None and info is not None:
                    places.append(place)
                    infos.append(known.setdefault(info, info))
        for place, info in zip(map(Place, places), infos):
            base = inventory.table.name(place)
            yield Flagged(place, sub, base + info, base, letters_of(info))


def add_flags(
    folder: bytes,
    inventory: Inventory,
    letters: Sequence[str],
    is_unread: Callable[[Place], bool],
    listed: Container[Place] = (),
) -> None:
    """Adds the letters of messages to the flags of their files, if these were placed just now, or if nobody has touched
    them. A file that is gone by now has been touched. A message that was listed is not new."""
    for file in flagged_in(folder, inventory):
        is_untouched = file.sub == b"new" and file.name == file.base
        if is_untouched or is_unread(file.place):
            with contextlib.suppress(FileNotFoundError):
                file.give(folder, "".join(sorted({*file.letters, *letters[file.place]})), file.place in listed)
    sync_names(folder)


def give_marks(folder: bytes, inventory: Inventory, marks: Sequence[int]) -> Infos:
    """Gives each message the flags and keywords of its marks, which Dovecot's mbox driver knew. Returns the infos of
    the files by their places."""
    infos: Infos = [None] * len(inventory)
    known: dict[bytes, bytes] = {}
    for file in flagged_in(folder, inventory):
        its = marks[file.place]
        info = file.give(folder, info_of(its, file.letters), is_listed(its))[len(file.base) :]
        infos[file.place] = known.setdefault(info, info)
    sync_names(folder)
    return infos


def lacking_flags(folder: bytes, flags_of: Callable[[bytes], str]) -> int:
    """How many files of messages lack a flag that these have in a mailbox, by the bases of their names."""
    count = 0
    for name, _ in mail_in(folder):
        base, info = OWN.match(name), info_in(name)
        if base and info is not None:
            count += bool({*flags_of(base[0])} - {*letters_of(info)})
    return count


def sync_names(folder: bytes) -> None:
    """Syncs the folders of a Maildir in which files were renamed, beginning with the one that they went into."""
    for sub in reversed(WITH_MAIL):
        sync_folder(os.path.join(folder, sub))
