"""What a page says to type: its lines of commands, its spans of code, and its blocks of settings."""
import re
import textwrap

from tests.support.checks import TOP, text_of

CODE = re.compile(r"(?m)^(?: {4,}.*\n)+")
SPAN = re.compile(r"`([^`\n]+)`")


class Page:
    """Pages of docs by their names."""

    def __init__(self, *names: str) -> None:
        self.name, self.text = " ".join(names), "\n".join(text_of(TOP / "docs" / name) for name in names)
        self.blocks = [textwrap.dedent(block) for block in CODE.findall(self.text)]

    def the_one(self, found: set[str], part: str) -> str:
        """What was found with this in it, which must be one text."""
        assert len(found) == 1, f"{self.name}: {part}: {sorted(found)}"
        return found.pop()

    def line(self, part: str) -> str:
        """The command that begins with this, or else has it in it, without the sign of who runs it."""
        lines = {re.sub(r"^[$#] ", "", line) for block in self.blocks for line in block.splitlines() if part in line}
        return self.the_one({line for line in lines if line.startswith(part)} or lines, part)

    def span(self, part: str) -> str:
        """The span of code that has this in it."""
        return self.the_one({span for span in SPAN.findall(CODE.sub("", self.text)) if part in span}, part)

    def block(self, part: str) -> str:
        """The block of settings that has this in it."""
        return self.the_one({block for block in self.blocks if part in block}, part)

    def cells(self, first: str) -> list[str]:
        """The further cells of the row of a table by its first cell."""
        rows = re.findall(rf"(?m)^\| {re.escape(first)} \| (.*) \|$", self.text)
        return self.the_one(set(rows), first).split(" | ")


def spans(cell: str) -> list[str]:
    """The spans of code of a cell."""
    return SPAN.findall(cell)


SERVER, REFERENCE = Page("SERVER.md"), Page("DELIVERY.md", "FORMATS.md", "LEFT.md", "LARGE.md")
