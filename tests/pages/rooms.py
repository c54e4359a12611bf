"""Keeps what must be believed apart from what only the prover reads.

The contracts of public calls and laws, the traits and the ghost members of public types cite definitions of specs/, and
types, which cite others. None of these is in a folder specs/Private, and each definition elsewhere in specs/ is one of
them. In specs/ and proofs/ each line `mod` has the first line of its file before it: Lib.antt, and the file of a
folder, are tables of contents. What the list of docs/PROMISES.md needs is named there, also for the promises that it is
for. A file of specs/ imports only what its definitions name.
"""
import re
from collections.abc import Iterator
from pathlib import Path

from tests.support.cases import find_nothing
from tests.support.checks import TOP, text_of
from tests.support.sources import GHOST, GHOST_USE, carriers, exports, files_to_read, imports, items, public_contracts
from tests.support.sources import without_comments

USE = re.compile(r"^(?:pub )?use ([^\s;{]+?)(?:\.\{(.*?)\})?(?: as (\S+))?;?$", re.MULTILINE)
TOKEN = re.compile(r"[^\s(){}\[\],;\"`<>&:]+")
MODIFIERS = {"pub", "abbrev", "unfoldable", "record", "data"}
FIELD = re.compile(r"(?m)^ +pub \S+ :|(?<=[{;]) *\w+ =(?= )|^ +\w+ =(?= )")
WORD = re.compile(r"[^\s(){}\[\],;\"`:]+|\[\]")
IMPORT = re.compile(r"^use (?:crate::)?((?:\w+::)*\w+)::(?:\{([^}]*)\}|(\w+));", re.MULTILINE)
MODULE = re.compile(r"(?:pub )?mod (\S+)")
PARTS = re.compile(r"^## (?:The whole program|Delivery)\n(.*?)(?=^## )", re.DOTALL | re.MULTILINE)
PROMISE = re.compile(r"^### (.*)$", re.MULTILINE)


def declared(crate: str, module: str, name: str) -> str:
    """The path under which specs find a type of the code."""
    return f"Rattle.{crate}.specs.declared.{module}.{name}.{name}"


def exported_types(crate: str) -> dict[str, str]:
    """The paths under which specs find the types that another crate exports; none if it is not a crate of ours."""
    lib = TOP / "crates" / crate / "src/lib.rt"
    return {name: declared(crate, module, name) for name, module in exports(lib).items()} if lib.exists() else {}


def home_of(crate: str, origin: str, name: str) -> str:
    """The path under which specs find a type that a crate imports, from another crate or from a module of its own."""
    return exported_types(origin).get(name, declared(crate, origin.replace("::", "."), name))


class Specs:
    """The definitions of each crate's specs by their paths, and its types, each with the paths that it cites."""

    def __init__(self) -> None:
        self.files = {}  # type: dict[str, Path]
        self.owners = {}  # type: dict[str, str]
        self.texts = {}  # type: dict[str, str]
        self.scopes = {}  # type: dict[str, dict[str, str]]
        for file in sorted(TOP.glob("crates/*/specs/**/*.antt")):
            self.read(file)
        for file in sorted(TOP.glob("crates/*/src/**/*.rt")):
            self.read_types(file)

    def read(self, file: Path) -> None:
        """Takes the definitions of a file of specs, and what each one cites."""
        module = ".".join(("Rattle", *file.relative_to(TOP / "crates").with_suffix("").parts))
        text = without_comments(text_of(file), "--")
        scope, owner, is_data = imports(text, USE), "", False
        for line in text.splitlines():
            words = [word for word in line.split() if word not in MODIFIERS]
            if not words or re.match(r"(pub )?(use|mod) |\}", line):
                continue
            if not line[0].isspace():
                is_data = "data" in line.split()[:2]
                owner = f"{module}.{words[0]}"
                self.files[owner] = file.relative_to(TOP)
                self.owners[owner] = owner
                scope[words[0]] = owner
            elif is_data and len(words) > 1 and words[1] == ":":
                self.owners[f"{owner}.{words[0]}"] = owner
                scope[words[0]] = owner
            self.texts[owner] = f"{self.texts.get(owner, '')}\n{line}"
            self.scopes[owner] = scope

    def read_types(self, file: Path) -> None:
        """Takes the types of a file of code: a type is its fields, and the ghost members that its blocks give."""
        _, crate, _, *parts = file.relative_to(TOP).with_suffix("").parts
        text = without_comments(text_of(file), "//")
        scope = imports(text, GHOST_USE)
        for origin, many, one in IMPORT.findall(text):
            scope.update((name, home_of(crate, origin, name)) for name in re.findall(r"\w+", many or one))
        for (_, kind, item, _, owner), block in items(text):
            if owner or kind in ("struct", "enum"):
                path = scope[owner or item] = declared(crate, ".".join(parts), owner or item)
                self.owners[path], self.scopes[path] = path, scope
                said = "\n".join(GHOST.findall(block)) if owner else block
                self.texts[path] = f"{self.texts.get(path, '')}\n{said}"

    def cited(self, text: str, scope: dict[str, str]) -> Iterator[str]:
        """The definitions that a text cites by names of this scope. A field, or a part of a module, may follow a
        dot."""
        for token in TOKEN.findall(text):
            names = token.strip(".").split(".")
            for count in range(1, len(names) + 1):
                path = ".".join((scope.get(names[0], ""), *names[1:count]))
                if path in self.owners:
                    yield self.owners[path]

    def reached(self, start: dict[str, str]) -> dict[str, str]:
        """Everything that is reached from these definitions, each with the one that it is reached from."""
        found, ways = dict(start), list(start)
        while ways:
            place = ways.pop()
            for other in self.cited(self.texts[place], self.scopes[place]):
                if other not in found:
                    found[other] = place
                    ways.append(other)
        return found


def wrong_rooms() -> Iterator[str]:
    """Definitions in Private that are reached, or elsewhere that are not."""
    specs = Specs()
    start = {}  # type: dict[str, str]
    for place, text, scope in public_contracts():
        for definition in specs.cited(text, scope):
            start.setdefault(definition, place)
    if not start:
        yield "no public contract was found"
    reached = specs.reached(start)
    for definition, file in sorted(specs.files.items()):
        name = definition.split(".")[-1]
        if "Private" in file.parts and definition in reached:
            yield f"{file}: {name} is reached from {reached[definition]}"
        elif "Private" not in file.parts and definition not in reached:
            yield f"{file}: {name} is reached from no public contract, and is not in Private"


def wrong_list() -> Iterator[str]:
    """The list of docs/PROMISES.md has each file of specs/ that is reached from the contracts that it tells its reader
    to read, or from what carries the promises on delivery and on the whole program."""
    specs, parts = Specs(), PARTS.findall(text_of(TOP / "docs/PROMISES.md"))
    promises = PROMISE.findall("".join(parts))
    carry = {call.split(": ")[0] for promise, calls, _ in carriers() if promise in promises for call in calls}
    start = {definition: "docs/PROMISES.md" for definition in specs.files if definition.split(".")[-1] in carry}
    named = {(place, word) for place, says in files_to_read() for word in re.findall(r"`(\w+)`", says)}
    for place, text, scope in public_contracts():
        if tuple(place.split(": ")) in named or place.split(": ")[1] in carry:
            start.update((definition, place) for definition in specs.cited(text, scope))
    files = {specs.files[definition] for definition in specs.reached(start) if definition in specs.files}
    yield from (
        f"docs/PROMISES.md: {file} is wanted by its list, and is not named"
        for file in sorted(files)
        if (str(file.parent), file.stem) not in named
    )
    if not files or len(parts) < 2:
        yield "docs/PROMISES.md has no list of files to read, or not the promises that it is for"


def wrong_contents() -> Iterator[str]:
    """Lines `mod` that do not follow the first line of their file."""
    for file in sorted([*TOP.glob("crates/*/specs/**/*.antt"), *TOP.glob("crates/*/proofs/**/*.antt")]):
        lines = text_of(file).splitlines()
        folder = file.parent if file.stem == "Lib" else file.with_suffix("")
        for before, line in zip(["", *lines], lines):
            module = MODULE.fullmatch(line)
            if module:
                first = text_of(folder / f"{module[1]}.antt").splitlines()[0]
                if not first.startswith("-- ") or first != before:
                    yield f"{file.relative_to(TOP)}: {module[1]} does not stand under its first line: {first}"


def wrong_imports() -> Iterator[str]:
    """What a file of specs/ imports and no definition in it names. An operator is named by its signs."""
    for file in sorted(TOP.glob("crates/*/specs/**/*.antt")):
        text = without_comments(text_of(file), "--")
        words = WORD.findall(FIELD.sub("", USE.sub("", text)))
        named = {*words, *(word.split(".")[0] for word in words)}
        for name in imports(text, USE):
            if not named.issuperset(filter(None, name.split("◌"))):
                yield f"{file.relative_to(TOP)}: {name} is imported, and nothing names it"


if __name__ == "__main__":
    find_nothing(globals())
