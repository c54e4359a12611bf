"""The text of those messages of a Takeout that go into one folder, and such texts of all its folders."""
import array
import contextlib
import hashlib
from collections.abc import Iterator, Sequence

from ..faults import Fault, Reason
from ..mbox.fields import headers_at
from ..mbox.inventory import Inventory
from ..readings.copies import copy_of_some
from ..readings.texts import ReadingOf, Text, folder_for_copies, open_text
from ..units import Offset, Place, Say
from .noted import Noted
from .sorting import Sorting


@contextlib.contextmanager
def part_of(text: Text, inventory: Inventory, places: Sequence[int], folder: bytes) -> Iterator[Text]:
    """The text of the messages at these places, on the disk of a folder. Its messages have the lines in which they
    begin in the mailbox."""
    with copy_of_some(text.mailbox, inventory, list(map(Place, places)), folder) as copy:
        yield Text(
            copy, Offset(0), array.array("Q", (inventory.lines[at] for at in places)), is_recorded=text.is_recorded
        )


def want_same(part: Inventory, inventory: Inventory, places: Sequence[int]) -> None:
    """Raises Fault unless a part has the messages of these places."""
    wanted = map(inventory.table.digest, places)
    if len(part) != len(places) or any(map(bytes.__ne__, map(part.table.digest, range(len(part))), wanted)):
        raise Fault("the messages of a folder differ from those of the mailbox", Reason.MISREAD)


def word_of(places: Sequence[int]) -> str:
    """The word for the messages at these places, which go into a folder."""
    return hashlib.sha256(array.array("Q", places).tobytes()).hexdigest()[:32]


@contextlib.contextmanager
def parts_of(
    maildir: bytes, file: bytes, noted: Noted, recorded: ReadingOf, say: Say
) -> Iterator[dict[bytes, contextlib.AbstractContextManager[Text]]]:
    """The text of each folder of a Takeout, by the folder's name on the disk. It is read as it was when it was
    recorded, and made once it is entered."""
    with open_text(file, maildir, say, recorded) as text:
        inventory = text.messages(with_cores=False)
        found = Sorting(headers_at(text.mailbox, inventory.offsets[:-1]), noted.choosing, noted).folders()
        where = folder_for_copies(maildir)
        yield {name: part_of(text, inventory, places, where) for name, places in found.places.items()}
