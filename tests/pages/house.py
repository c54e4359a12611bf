"""What docs/ARCHITECTURE.md says of the companion's rooms: a room imports only from itself and from those above it in
the table. And what the package keeps to: no code reads a next step out of a sentence, and a look at a path has three
answers."""
import ast
import re
from collections.abc import Iterator
from pathlib import Path

from tests.support.cases import find_nothing
from tests.support.checks import TOP, match_in, text_of

PACKAGE = TOP / "admin/mbox2maildir_admin"
TABLE = re.compile(r"\n\| Room \| What it knows \|\n\|---\|---\|\n((?:\|.*\n)+)")
# the lowest room and the highest, which the table leaves out: the name of the companion, and what begins a run
FIRST, LAST = "", "cli"
# what looks for a pattern in a text, and what says no where nothing is known
SEARCHES = ("search", "match", "fullmatch", "findall", "finditer", "split", "sub")
LOOKS = {"exists", "isdir", "isfile", "islink", "lexists"}


def trees() -> Iterator[tuple[Path, ast.Module]]:
    """The modules of the package by their paths below it, and the syntax of each."""
    for path in sorted(PACKAGE.rglob("*.py")):
        yield path.relative_to(PACKAGE), ast.parse(text_of(path), str(path))


def heights() -> dict[str, int]:
    """How high each room stands, by the table of the page."""
    rows = match_in(TABLE.pattern, text_of(TOP / "docs/ARCHITECTURE.md"))[1].splitlines()
    several = [[FIRST], *(re.findall(r"`(\w+)`", row.split("|")[1]) for row in rows), [LAST]]
    return {room: height for height, rooms in enumerate(several) for room in rooms}


def rooms_imported(path: Path, node: ast.ImportFrom) -> Iterator[str]:
    """The rooms that a statement of a module imports something from."""
    above = path.parts[: len(path.parts) - node.level]
    parts = [*above, *(node.module or "").split(".")] if node.module else [*above]
    if parts:
        yield parts[0]
    else:
        yield from (one.name if (PACKAGE / f"{one.name}.py").exists() else FIRST for one in node.names)


def wrong_imports() -> Iterator[str]:
    """Imports from a room that stands higher, and rooms that are not in the table."""
    height = heights()
    for path, tree in trees():
        room = path.parts[0].partition(".")[0].replace("__init__", FIRST)
        if room not in height:
            yield f"{path}: the table of docs/ARCHITECTURE.md has no such room"
            continue
        for node in ast.walk(tree):
            for other in rooms_imported(path, node) if isinstance(node, ast.ImportFrom) and node.level else ():
                if height.get(other, len(height)) > height[room]:
                    yield f"{path}:{getattr(node, 'lineno')}: {other} stands higher than {room}"


def is_sentence(node: ast.AST) -> bool:
    """Whether an expression is what a row, a fault, a remark or a task says."""
    if isinstance(node, ast.Attribute):
        return node.attr in ("why", "says")
    if not isinstance(node, ast.Call):
        return False
    if isinstance(node.func, ast.Attribute):
        return node.func.attr == "sentence"
    names = {one.id for one in node.args if isinstance(one, ast.Name)}
    return isinstance(node.func, ast.Name) and node.func.id == "str" and bool(names & {"fault", "left", "question"})


def searches(node: ast.AST) -> bool:
    """Whether a sentence is searched, cut or changed here: by a pattern, by a method of texts, or by `in`."""
    if isinstance(node, ast.Compare):
        pairs = zip(node.ops, node.comparators)
        return any(isinstance(sign, (ast.In, ast.NotIn)) and is_sentence(other) for sign, other in pairs)
    if not isinstance(node, ast.Call) or not isinstance(node.func, ast.Attribute):
        return False
    if node.func.attr in SEARCHES and any(map(is_sentence, node.args)):
        return True
    return is_sentence(node.func.value) and node.func.attr != "format"


def wrong_sentences() -> Iterator[str]:
    """Sentences that are searched."""
    for path, tree in trees():
        yield from (f"{path}:{getattr(node, 'lineno')}: it searches" for node in ast.walk(tree) if searches(node))
    for line in (
        "NEXT.search(row.why)",
        "row.why.partition(':')",
        "task.sentence().replace('a', 'b')",
        "'a' in row.says",
    ):
        if not any(map(searches, ast.walk(ast.parse(line)))):
            yield f"{line} is not found"


def wrong_looks() -> Iterator[str]:
    """Looks that say no where nothing is known, as those of `os.path` do."""
    for path, tree in trees():
        for node in ast.walk(tree):
            if isinstance(node, ast.Attribute) and node.attr in LOOKS and ast.unparse(node.value) == "os.path":
                yield f"{path}:{node.lineno}: os.path.{node.attr}"


if __name__ == "__main__":
    find_nothing(globals())
