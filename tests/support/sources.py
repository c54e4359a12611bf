"""What the sources of the crates say: their items, each with its head, and the contracts of their functions; and what
docs/PROMISES.md says of them, with the list beside it of what carries its promises."""
import re
from collections.abc import Iterator
from pathlib import Path
from typing import Optional

from tests.support.checks import TOP, text_of

# of an item: `pub `, its kind, its name, and for a block the trait and the type; None for what is not there
Head = tuple[Optional[str], Optional[str], str, Optional[str], str]

GHOST_USE = re.compile(r"^ *ghost use ([^\s;{]+?)(?:\.\{(.*?)\})?(?: as (\S+))?;", re.MULTILINE)
ITEM = re.compile(
    r"^(pub )?(?:pub\(crate\) )?(?:(struct|enum|trait|fn) (\w+)|impl(?:<.*?>)? (?:(\w+)(?:<.*>)? for )?(\w+))",
    re.MULTILINE,
)
EXPORT = re.compile(r"^pub use ((?:\w+::)*\w+)::(?:\{([^}]*)\}|(\w+));", re.MULTILINE)
PUBLIC_MODULE = re.compile(r"^pub mod (\w+);", re.MULTILINE)
# a function with its contract, up to the line in which its body begins, or a semicolon
FUNCTION = re.compile(r"^ *(pub )?(?:pub\(crate\) )?fn (\w+)(?:.*\n)*?(?:.*;|.*\{\}|(?! *ensures).*\{)$", re.MULTILINE)
CARRIED = re.compile(r"^(\S.*)\n {4}by: (.*\n(?: {8}.*\n)*)(?: {4}edits: (.*\n(?: {8}.*\n)*))?", re.MULTILINE)
READING = re.compile(r"^\| In \| Read \|\n((?:\|.*\n)+)", re.MULTILINE)
TO_READ = re.compile(r"^\| `([^`]+)` \| ([^|]*) \|$", re.MULTILINE)
GHOST = re.compile(r"^ *ghost (?!use ).*?[;,]$", re.DOTALL | re.MULTILINE)


def without_comments(text: str, mark: str) -> str:
    """A text without its comments, which begin with this mark."""
    return re.sub(rf"(?m)(^|\s){mark}.*$", r"\1", text)


def imports(text: str, pattern: re.Pattern[str]) -> dict[str, str]:
    """What each imported name means: a path."""
    found = {}
    for path, names, alias in pattern.findall(text):
        for item in names.split(",") if names else [""]:
            words = item.split()
            local = words[-1] if words else alias or path.split(".")[-1]
            found[local] = f"{path}.{words[0]}" if words else path
    return found


def items(text: str) -> Iterator[tuple[Head, str]]:
    """The items of a file of code, each with its head. An item ends at a brace at the start of a line."""
    for block in re.split(r"(?<=^\}\n)|(?<=^\{\}\n)", text, flags=re.MULTILINE):
        match = ITEM.search(block)
        if match:
            public, kind, name, trait, owner = match.groups()
            yield (public, kind, name, trait, owner), block[match.start() :]


def heads(block: str) -> Iterator[tuple[bool, str, str]]:
    """The functions of a block: whether each is public, its name, and its head with its contract."""
    return ((bool(match[1]), match[2], match[0]) for match in FUNCTION.finditer(block))


def exports(lib: Path) -> dict[str, str]:
    """The names that a crate exports, each with its module."""
    return {
        name: module.replace("::", ".")
        for module, many, one in EXPORT.findall(text_of(lib))
        for name in re.findall(r"\w+", many or one)
    }


def contracts(head: Head, block: str, exported: Optional[set[str]]) -> Iterator[tuple[str, str]]:
    """What an item of the code says to a caller, by the name of the call or the type. If `exported` is None, all is
    exported. The block of an exported type or trait counts wherever it is."""
    public, kind, name, trait, owner = head
    if exported is not None and not exported.intersection((name, trait, owner)):
        return
    if kind == "trait" and public:
        yield name, block
    if kind == "fn":
        yield from ((call, head) for is_public, call, head in heads(block) if is_public)
    else:
        yield from ((name or owner, ghost) for ghost in GHOST.findall(block))
        of_trait = trait or kind == "trait" and public
        yield from (
            (f"{owner or name}::{call}", head) for is_public, call, head in heads(block) if is_public or of_trait
        )


def public_contracts() -> Iterator[tuple[str, str, dict[str, str]]]:
    """Each public contract: its place, its text, and the names that it may cite."""
    for lib in sorted(TOP.glob("crates/*/src/lib.rt")):
        exported, public = set(exports(lib)), set(PUBLIC_MODULE.findall(text_of(lib)))
        for file in sorted(lib.parent.rglob("*.rt")):
            text = without_comments(text_of(file), "//")
            scope = imports(text, GHOST_USE)
            for head, block in items(text):
                for name, contract in contracts(head, block, None if file.stem in public else exported):
                    yield f"{file.relative_to(TOP)}: {name}", contract, scope


def files_to_read() -> list[tuple[str, str]]:
    """The rows of the list in docs/PROMISES.md: a file or a folder, and what is to be read there."""
    return TO_READ.findall("".join(READING.findall(text_of(TOP / "docs/PROMISES.md"))))


def carriers() -> list[tuple[str, list[str], list[str]]]:
    """The promises of tests/pages/carried.txt, each with what carries it, and with its edits."""
    return [
        (promise, " ".join(by.split()).split("; "), re.findall(r"\w+", edits))
        for promise, by, edits in CARRIED.findall(text_of(TOP / "tests/pages/carried.txt"))
    ]


def functions() -> Iterator[tuple[str, str]]:
    """Each function of the crates, as its owner, or '', and its name."""
    for path in TOP.glob("crates/*/src/**/*.rt"):
        for (_, _, name, _, owner), block in items(text_of(path)):
            of = owner or name if not re.match(r"(pub(\(crate\))? )?fn ", block) else ""
            yield from ((of, call) for _, call, _ in heads(block))
