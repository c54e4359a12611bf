"""What a migration printed for people, as tests of that read it: rows, what stands below each, and the last block."""
import re
from typing import NamedTuple

# what stands before each line below a row, and before a command
BELOW, COMMAND = "    ", "        "
# a name in the last block, and what stands behind it
NAME = re.compile(r"\A((?:'(?:[^'\\]|\\.)*'|\S| (?! ))+)  +(.*)")


def unquoted(text: str) -> str:
    """A text with names without their quotes."""
    return re.sub(r"'((?:[^'\\]|\\.)*)'", lambda quoted: re.sub(r"\\(['\\])", r"\1", quoted[1]), text)


def in_quotes(text: str) -> str:
    """A line of mail as it stands in a sentence: in quotes if it could be taken for a part of that."""
    return f"'{text}'" if re.search(r"  |[:;,] |[:;]$|[`'\"|]|->|^ | $|^$", text) else text


class Printed(NamedTuple):
    """A row that was printed: its line, and what stands below it."""

    line: str
    below: list[str]

    @property
    def name(self) -> str:
        """The name that the row begins with, without quotes."""
        return unquoted(self.line.split(" -> ")[0].split(": ")[0])

    @property
    def commands(self) -> list[str]:
        """The commands below it, each as it is typed."""
        return [line[len(COMMAND) :] for line in self.below if line.startswith(COMMAND)]

    @property
    def command(self) -> str:
        """The command that is to be run, the only one."""
        (command,) = self.commands
        return command

    def answers(self) -> list["Reply"]:
        """The commands with what stands before them."""
        pairs = zip(self.below, self.below[1:])
        return [Reply(says.strip(), line[len(COMMAND) :]) for says, line in pairs if line.startswith(COMMAND)]


class Reply(NamedTuple):
    """A command, and the sentence before it."""

    says: str
    command: str

    @property
    def messages(self) -> int:
        """How many messages it is to give; -1 if that is not said."""
        words = self.says.rstrip(":").split(": ")[-1].split()
        return int(words[0]) if len(words) == 2 and words[1].startswith("message") else -1


class Group(NamedTuple):
    """A group of the last block: its title, its mailboxes by their names with what is said of each, and what stands
    below."""

    title: str
    rows: dict[str, str]
    below: list[str]

    @property
    def word(self) -> str:
        """The reason, or `look at`."""
        return self.title.split(": ")[0]

    @property
    def commands(self) -> list[str]:
        """The commands below it, each as it is typed."""
        return Printed("", self.below).commands

    def answers(self) -> list["Reply"]:
        """The commands with what stands before them."""
        return Printed("", self.below).answers()


def groups_in(out: str) -> list[Group]:
    """The groups of the last block."""
    return [group_of(one.splitlines()) for one in re.findall(r"(?m)^\n(\S.*\n(?:  .*\n)+)", out)]


def group_of(lines: list[str]) -> Group:
    """A group, by its lines."""
    found = Group(lines[0], {}, [])
    for line in lines[1:]:
        if line.startswith(BELOW):
            found.below.append(line)
        else:
            name, _, says = re.sub(NAME, r"\1\0\2", line[2:]).partition("\0")
            found.rows[unquoted(name)] = says
    return found


def rows_in(out: str) -> list[Printed]:
    """The rows that were printed with --all, and the line of the sums."""
    rows: list[Printed] = []
    for line in out.splitlines():
        if line.startswith(BELOW):
            rows[-1].below.append(line)
        else:
            rows.append(Printed(line, []))
    return rows


def row_in(out: str, name: str) -> Printed:
    """The row that begins with this."""
    return next(row for row in rows_in(out) if row.line.startswith(name))


def commands_in(out: str) -> list[str]:
    """All commands that were printed."""
    return [command for row in rows_in(out) for command in row.commands]
