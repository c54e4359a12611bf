"""What tools find in the Python of the repository, if they are installed: black its layout, mypy its types, and pylint
the rest, by the settings of pyproject.toml. It also shows whether the Python keeps to version 3.9: to its grammar, and
to what its library has."""
import ast
import os
import re
import shutil
import subprocess
from collections.abc import Iterator

from tests.support.cases import LeftOut, find_nothing
from tests.support.checks import TOP, text_of

FOLDERS = ["admin", "tests"]
OUR_OWN = ["mbox2maildir_admin", "tests"]
# a line for each module of the library: what it has got since, or that all of it came since
LATER = TOP / "tests/pages/since_3_9.txt"
LOWEST = (3, 9)


def files() -> list[str]:
    """The Python below the folders: modules, and scripts that name it in their first line."""
    paths = [path for folder in FOLDERS for path in sorted((TOP / folder).rglob("*")) if path.is_file()]
    python = re.compile(rb"#!.*\bpython3?\b")
    return [
        str(path.relative_to(TOP))
        for path in paths
        if path.suffix == ".py" or not path.suffix and python.match(path.read_bytes()[:99])
    ]


def told_by(*words: str) -> Iterator[str]:
    """The lines of a tool that does not end with status 0."""
    if not shutil.which(words[0]):
        raise LeftOut(f"{words[0]} is not here")
    # tools keep nothing in the home of who tests
    env = {**os.environ, "PYTHONPATH": str(TOP / "admin"), "XDG_CACHE_HOME": str(TOP / "build/cache")}
    ran = subprocess.run(words, cwd=str(TOP), env=env, stdout=subprocess.PIPE, stderr=subprocess.STDOUT, check=False)
    if ran.returncode:
        yield from ran.stdout.decode().splitlines()
        yield f"{words[0]} ended with status {ran.returncode}"


def wrong_black() -> Iterator[str]:
    """Files that are not in black's layout."""
    return told_by("black", "--check", "--diff", "--quiet", *files())


def wrong_mypy() -> Iterator[str]:
    """What has no type, or another type than it says. The types of folders that are not looked at count."""
    return told_by("mypy", "--follow-imports=silent", f"--cache-dir={TOP}/build/mypy", *files())


def wrong_pylint() -> Iterator[str]:
    """What pylint finds."""
    return told_by("pylint", "--score=no", f"--jobs={len(os.sched_getaffinity(0))}", *files())


def wrong_grammar() -> Iterator[str]:
    """Files that are not Python 3.9, as far as the parser of this version knows."""
    for file in files():
        try:
            ast.parse(text_of(TOP / file), file, feature_version=LOWEST)
        except SyntaxError as error:
            yield f"{file}:{error.lineno}: {error.msg}"


def names_of(tree: ast.AST) -> Iterator[tuple[str, str]]:
    """The modules that a file imports, each with a name that it takes from it, or ''."""
    known = {}  # type: dict[str, str]
    for node in ast.walk(tree):
        if isinstance(node, ast.Import):
            for alias in node.names:
                known[alias.asname or alias.name.split(".")[0]] = (
                    alias.name if alias.asname else alias.name.split(".")[0]
                )
                yield alias.name, ""
        elif isinstance(node, ast.ImportFrom) and node.module and not node.level:
            yield from ((node.module, alias.name) for alias in node.names)
    for node in ast.walk(tree):
        if isinstance(node, ast.Attribute) and isinstance(node.value, ast.Name) and node.value.id in known:
            yield known[node.value.id], node.attr


def wrong_library() -> Iterator[str]:
    """What is taken from a module of the library and missing in Python 3.9, so that an import of it fails there."""
    later = {}  # type: dict[str, set[str]]
    for line in text_of(LATER).splitlines():
        if not line.startswith("#"):
            module, _, names = line.partition(":")
            later[module] = set(names.split())
    later.update((module, set()) for module in later.pop("the same"))
    for file in files():
        for module, name in sorted(set(names_of(ast.parse(text_of(TOP / file))))):
            if module.split(".")[0] in OUR_OWN:
                continue
            if module not in later:
                yield f"{file}: {LATER.name} doesn't know {module}: compare what Python 3.9 has of it"
            elif name in later[module] or "all" in later[module]:
                yield f"{file}: Python 3.9 has no {module}.{name}"


if __name__ == "__main__":
    find_nothing(globals())
