"""The types of the numbers and functions that modules hand to each other."""
from collections.abc import Callable
from typing import NewType

# a place in a text, in bytes from its beginning
Offset = NewType("Offset", int)
# the number of a line of a text, counted from 1
LineNumber = NewType("LineNumber", int)
# the place of a message among those of its text, counted from 0
Place = NewType("Place", int)
# the size of a text, or of the body of a message, in bytes
Size = NewType("Size", int)

# takes what is being done and, if that is known, the place in a text and the size of that text
Say = Callable[..., None]
# how that begins if something is waited for; this is said without a terminal too
WAITING = "waiting"


def silent(*_: object) -> None:
    """Takes what is said of the progress of a task, and says nothing."""


def counted(count: int, noun: str, plural: str = "s") -> str:
    """A count with its noun, and the ending that this has in the plural."""
    return "%d %s%s" % (count, noun, "" if count == 1 else plural)
