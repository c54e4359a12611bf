"""Holds docs/PROMISES.md to the sources: what it names is there, and each must-fail edit is under a promise.

A promise is a heading of the third level. tests/pages/carried.txt says, in the page's order, what carries each promise.
A call of a type or a trait is named with it, as `Folder::list`. The file of an edit is named for the function that it
changes and the mistake, as `Splitter.new.begins_refused.edit`. Whatever else a page calls by words with underscores
between them, but for the commands that it shows, or by a capital word between backquotes, is to be somewhere in the
sources.
"""
import re
from collections.abc import Iterator

from tests.support.cases import find_nothing
from tests.support.checks import TOP, differ, text_of
from tests.support.sources import carriers, functions, items, public_contracts

PROMISES = TOP / "docs/PROMISES.md"
# their capital words are folders
OF_MAILBOXES = ("SERVER.md", "BACK.md", "DELIVERY.md", "FORMATS.md", "LEFT.md", "LARGE.md")
PAGES = [*(TOP / name for name in ("README.md", "CONTRIBUTING.md")), *sorted(TOP.glob("docs/*.md"))]
CLAUSE = re.compile(r"\bensures (?:(\w+) )?\{")
SPAN = re.compile(r"`([^`]+)`")
NAME = re.compile(r"\b[a-z][a-z0-9]*(?:_[a-z0-9]+)+\b")
TYPE = re.compile(r"\b[A-Z][a-z0-9]+(?:[A-Z][a-z0-9]*)*\b")
COMMANDS = re.compile(r"^ {4}.*$", re.MULTILINE)
PROMISE = re.compile(r"^### (.*)$", re.MULTILINE)
RECORD = re.compile(r"^pub record (\w+).*?\bwhere$(.*?)(?=^\S|\Z)", re.DOTALL | re.MULTILINE)
FIELD = re.compile(r"^  pub (\w+) :", re.MULTILINE)


def records() -> dict[str, list[set[str]]]:
    """The fields of each record of specs/ that public contracts may cite."""
    found = {}  # type: dict[str, list[set[str]]]
    for path in TOP.glob("crates/*/specs/**/*.antt"):
        if "Private" not in path.parts:
            for name, body in RECORD.findall(text_of(path)):
                found.setdefault(name, []).append(set(FIELD.findall(body)))
    return found


def clauses() -> dict[str, list[set[str]]]:
    """The named clauses of each public call, and '' for one without a name. A method without clauses has those of its
    trait."""
    implemented = {
        (owner, trait)
        for path in TOP.glob("crates/*/src/**/*.rt")
        for (_, _, _, trait, owner), _ in items(text_of(path))
    }
    found = {}  # type: dict[str, list[set[str]]]
    for place, contract, _ in public_contracts():
        found.setdefault(place.split(": ")[1], []).append(set(CLAUSE.findall(contract)))
    of_traits = {}  # type: dict[str, list[set[str]]]
    for owner, trait in implemented:
        for call, sets in found.items():
            if trait and call.startswith(f"{trait}::"):
                of_traits.setdefault(call.replace(trait, owner, 1), []).extend(sets)
    found = {
        call: [own or other for own in sets for other in of_traits.get(call, [own])] for call, sets in found.items()
    }
    return found


def wrong_carriers() -> Iterator[str]:
    """What is said to carry a promise is a record with these fields, or a public call with these clauses."""
    given = {**clauses(), **records()}
    crates = {path.name for path in TOP.glob("crates/*")}
    for call in (call for _, calls, _ in carriers() for call in calls):
        name, _, parts = call.partition(": ")
        if name not in crates and not any(set(parts.split(", ")) <= found for found in given.get(name, [])):
            yield f"`{call}` carries nothing: no public contract or record has it"


def wrong_edits() -> Iterator[str]:
    """An edit that names no function, or one that is not there; two of the same name; one that is under no promise, or
    missing."""
    edits, named = sorted(TOP.glob("crates/*/must-fail/*.edit")), {edit for *_, edits in carriers() for edit in edits}
    calls = {call for owner, name in functions() for call in (name, f"{owner}::{name}")}
    seen = {}  # type: dict[str, str]
    for path in edits:
        *function, mistake = path.stem.split(".")
        if "::".join(function) not in calls:
            yield f"the edit {path.stem} is of no function in the sources"
        if mistake in seen:
            yield f"the edits {seen[mistake]} and {path.stem} have one name"
        seen[mistake] = path.stem
    yield from (f"the edit {name} is not there" for name in sorted(named - set(seen)))
    yield from (f"the edit {name} is under no promise" for name in sorted(set(seen) - named))


def words_of_sources() -> set[str]:
    """Each name that has underscores or a capital, in the sources of the crates and the tests, and in the names of
    their files."""
    files = [path for path in TOP.glob("crates/*/*/**/*") if path.is_file() and path.relative_to(TOP).parts[2] != "out"]
    files += [path for path in TOP.glob("tests/**/*") if path.is_file() and path.suffix != ".pyc"]
    texts = [f"{path.stem} {text_of(path)}" for path in files]
    crates = {path.name for path in TOP.glob("crates/*")}
    return crates.union(*(pattern.findall(text) for text in texts for pattern in (NAME, TYPE)))


def wrong_names() -> Iterator[str]:
    """What a page names and nothing has."""
    words = words_of_sources()
    for page in PAGES:
        text = COMMANDS.sub("", text_of(page))
        types = {span for span in SPAN.findall(text) if TYPE.fullmatch(span) and page.name not in OF_MAILBOXES}
        unknown = {*NAME.findall(text), *types} - words
        yield from (f"{page.relative_to(TOP)}: {name} is nowhere in the sources" for name in sorted(unknown))


def wrong_order() -> Iterator[str]:
    """The promises of the page are those of the list, in the same order."""
    promises, listed = PROMISE.findall(text_of(PROMISES)), [promise for promise, _, _ in carriers()]
    if promises != listed or not listed:
        yield "the promises of docs/PROMISES.md and of tests/pages/carried.txt are not the same:"
        yield differ("\n".join(listed), "\n".join(promises))


if __name__ == "__main__":
    find_nothing(globals())
