"""What a human says about labels: whether each gives a folder, and which of them do at all."""

from typing import NamedTuple

from ..terminal import bytes_of, option

# a message goes into the folder of each of its labels; the same, however many folders that makes; into one of them
EACH, ALL, ONE = "", "all", "one"
WORDS = ALL, ONE
# what a label may be said to give: no folder, one of its own, or a flag alone
NONE, FOLDER, READ, UNREAD, STARRED = GIVES = "none", "folder", "read", "unread", "starred"


class Choosing(NamedTuple):
    """In how many of its folders a message goes, and what labels give of which that was said."""

    word: str = EACH
    given: tuple[tuple[str, str], ...] = ()

    def gives(self, label: str) -> str:
        """What was said that a label gives; empty if nothing was said. What was said last counts."""
        return dict(self.given).get(label, "")

    def with_given(self, *given: tuple[str, str]) -> "Choosing":
        """The same, and what else is said."""
        return Choosing(self.word, tuple({**dict(self.given), **dict(given)}.items()))

    def words(self) -> list[str]:
        """The options, as words of a command."""
        words = ["--labels", *([self.word] if self.word else [])]
        for label, gives in self.given:
            words += option("--label", bytes_of("%s=%s" % (label, gives)))
        return words
