"""What a process tells its parent of a row. If it is that of a user, root trusts none of it, and prints it escaped."""
from collections.abc import Callable, Mapping, Sequence
from typing import Any, NamedTuple, Optional

from ..faults import REASONS
from ..jobs.crew import in_json
from ..kinds.making import with_aside
from ..nexts import DOES, TODOS, Answer, Command, Does, Next, OfFiles, Phrase, Single, Task, Template, Todo, task
from ..remarks import PLACES
from ..terminal import bytes_of, shown
from .outcomes import VERDICTS, Row

# how long a line of a child may be, in bytes
LONGEST = 1 << 16
# how much of a reason fits into a line, whatever its letters are
LONGEST_WHY = 1 << 13
# the highest number of messages or bytes
HIGHEST = 1 << 63


class Whose(NamedTuple):
    """A user as root knows it: the name that is printed, the name of the account, the paths of those mailboxes of the
    spool that a child may be asked for, by the names that it tells, and whether mail is on the way back into these."""

    name: str
    user: str
    mailboxes: Mapping[bytes, bytes]
    is_back: bool


def fields_of(row: Row) -> dict[str, Any]:
    """The fields of a row by their names."""
    return dict(zip(KINDS, row))


def told(row: Row) -> dict[str, Any]:
    """The object by which a child tells a row. What is too long is left out: no command is told in part."""
    words = fields_of(row._replace(why=row.why[:LONGEST_WHY]))
    if len(in_json(words)) <= LONGEST - len('["row", ]'):
        return words
    return told(row._replace(remarks=(), quotes=(), details=(), next=task(Todo.ASK_USER)))


def row_of(words: Mapping[str, Any], whose: Optional[Whose] = None) -> Row:
    """Reads a row that a process told, which may be that of a user. Root itself knows which way mail goes then, and
    whose it is. Raises an error of Python's if it is no row."""
    row = Row(**{name: list(one) if name == "next" else value_of(KINDS[name], one) for name, one in words.items()})
    its = {one.word for one in row.details if one.word} | {one.word for one in row.remarks}
    if not its <= PLACES.keys() or row.verdict not in VERDICTS:
        raise ValueError("no word")
    row = row._replace(next=next_of(row.next, row.path, whose))
    return row._replace(is_back=whose.is_back, user=whose.name) if whose else row


def value_of(kind: Any, value: Any) -> Any:
    """Reads what a process told as a value of a type, which has as many items as that. A text is escaped here, a name
    where it is printed. Raises an error of Python's if it is none."""
    kinds: Sequence[Any] = getattr(kind, "__args__", ())
    if kind in READS:
        return READS[kind](value)
    if type(None) in kinds:
        return None if value is None else value_of(kinds[0], value)
    if ... in kinds:
        return tuple(value_of(kinds[0], one) for one in value)
    if len(value) != len(kinds or kind.__annotations__):
        raise ValueError("too few or too many items")
    items = tuple(map(value_of, kinds or kind.__annotations__.values(), value))
    return items if kinds else kind(*items)


def next_of(steps: Sequence[Any], path: bytes, whose: Optional[Whose]) -> Next:
    """Reads what a process told of what is to be done with a path. Whoever it says is to do that, root runs nothing of
    a user's but with the rights of that user."""
    return tuple(
        task_of(path, whose, *one) if isinstance(one[0], str) else answer_of(path, whose, *one) for one in steps
    )


def answer_of(path: bytes, whose: Optional[Whose], words: Sequence[Any], does: str, messages: Any) -> Answer:
    """Reads a command for a path that a process told, and what it answers. Raises an error if the table has none of
    its word, or names are missing in one. What only root can do is made here, for a path that root knows."""
    singles, user = words
    command = Command(tuple(Single(Template.all[one], tuple(map(name_in, names))) for one, names in singles), user)
    if not singles or not all(one.line() for one in command.singles):
        raise ValueError("no command")
    answer = Answer(command, DOES[does], value_of(Optional[int], messages))
    if whose:
        command = command._replace(user=whose.user)
        mailbox = whose.mailboxes.get(path) if answer.does is Does.MAKE_ELSEWHERE else None
        answer = answer._replace(command=with_aside(command, mailbox) if mailbox else command)
    return answer


def task_of(path: bytes, whose: Optional[Whose], word: str, names: Sequence[str], user: Optional[str]) -> Task:
    """Reads a task for a path that a process told. What is done with files of a user is done as that user, but only
    root can move what is in the spool."""
    todo = TODOS[word]
    if whose:
        is_roots = todo is Todo.COPY_AWAY and path in whose.mailboxes
        user = whose.user if isinstance(todo, OfFiles) and not is_roots else None
    found = Task(todo, tuple(map(name_in, names)), user)
    # a sentence has as many places as there are names
    assert found.sentence()
    return found


def name_in(value: str) -> str:
    """Reads a word of a command, or a name. Raises an error if no system takes it."""
    if b"\0" in bytes_of(value):
        raise ValueError("no name")
    return value


def number_of(value: object) -> int:
    """Reads a number that a child told. Raises an error if it is none, or higher than anything that a computer
    counts."""
    if not isinstance(value, int) or not 0 <= value < HIGHEST:
        raise ValueError("no number")
    return value


# the types of the fields of a row, and how a value of each type is read that has no items
KINDS = Row.__annotations__
READS: Mapping[Any, Callable[[Any], Any]] = {
    **{str: shown, bytes: bytes_of, int: number_of, bool: lambda value: value is True},
    **{Phrase: REASONS.__getitem__},
}
