"""Lists of mistakes that no generator makes.

A mistake of a list is: `in:`, a place, for all that follow; `old:`, a text that stands once there, if it is another one
than that of the mistake before; `new:`, the mistake in its place; `harm:`, what a user would suffer; and `seen:`, the
test that sees it, if it is another one than before. One without both does the same harm as the one before, and is seen
by the same test. One that nobody would notice has `harmless:`, the reason, in place of the last two. `same:` is the
text of lines that have no mistake, with the reason. A line that begins with `#` is a comment.
"""
from pathlib import Path
from typing import Optional, TypeVar

from tests.support.checks import text_of


class Planted:
    """A mistake in a place: texts, and what replaces each."""

    def __init__(self, place: str) -> None:
        self.place = place
        self.pairs = []  # type: list[tuple[str, str]]
        self.harm = self.seen = self.harmless = self.errors = ""
        self.number = 0

    def __str__(self) -> str:
        old, new = self.pairs[0]
        return f"{self.number} {self.place.split()[-1]}: {old} -> {new or 'nothing'}"

    def stands_once(self, text: str) -> bool:
        """Whether each text that is replaced is in another text exactly once."""
        return all(text.count(old) == 1 for old, _ in self.pairs)

    def applied(self, text: str) -> str:
        """A text with the mistake."""
        for old, new in self.pairs:
            text = text.replace(old, new)
        return text

    def set(self, key: str, value: str) -> bool:
        """Takes a line of the list, and returns whether it belongs to a mistake."""
        if key == "old":
            self.pairs.append((value, ""))
        elif key in ("new", "new:"):
            self.pairs[-1] = (self.pairs[-1][0], value)
        elif key in ("harm", "seen", "harmless", "errors"):
            setattr(self, key, value)
        else:
            return False
        return True


AnyPlanted = TypeVar("AnyPlanted", bound=Planted)


def listed(path: Path, of: type[AnyPlanted]) -> tuple[list[AnyPlanted], dict[str, str]]:
    """The mistakes of a list, and the lines that have none by its word."""
    found, same, place = [], {}, ""  # type: list[AnyPlanted], dict[str, str], str
    one = None  # type: Optional[AnyPlanted]
    for number, line in enumerate(text_of(path).splitlines(), 1):
        key, _, value = line.partition(": ")
        if not line.strip() or line.startswith("#"):
            one = None
        elif key == "in":
            place = value
        elif key == "same":
            text, _, reason = value.rpartition(" | ")
            same[text] = reason
        else:
            if one is None:
                one = of(place)
                if key == "new" and found:
                    one.set("old", found[-1].pairs[-1][0])
                found.append(one)
                one.number = len(found)
            if not one.set(key, value):
                raise SystemExit(f"line {number} of the list: {line}")
    before = None  # type: Optional[AnyPlanted]
    for one in found:
        if one.harmless:
            continue
        if not one.harm and (one.seen or not before) or not (one.seen or before):
            raise SystemExit(f"{one}: wants harm and seen, or harmless")
        if before:
            one.harm, one.seen = one.harm or before.harm, one.seen or before.seen
        before = one
    return found, same
