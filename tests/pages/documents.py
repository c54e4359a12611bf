"""Holds the documents to each other, to what is installed, to the sources and to the kit: links lead somewhere, here
and where the pages are installed; what a page names by its path is there, also by its path within a crate; code that it
shows is in the sources, each file of which begins with a line that says what is in it; docs/PROMISES.md names what is
in the files that it has a reader read, and each file that reaches the machine; the texts that the program tells are
those of the page of the manual; the reasons of the companion are those of docs/LEFT.md, of its page of the manual and
of its schema, and that page has its options, and what it calls files that are not mbox text; the pages of the manual
please mandoc; docs/PROMISES.md names the kit of `rt version`; README.md has the best and the worst of
docs/COMPARISON.md; and pages have what the tests of machines type from them. What wants a tool that is missing is left
out."""
import importlib
import json
import os
import re
import shutil
import subprocess
import tempfile
from collections.abc import Callable, Iterator, Sequence
from pathlib import Path

from tests.support.cases import LeftOut, find_nothing
from tests.support.checks import TOP, differ, match_in, text_of
from tests.support.machine import page as machine
from tests.support.sources import files_to_read

PAGES = [*sorted(TOP.glob("*.md")), *sorted(TOP.glob("docs/*.md"))]
README, PROMISES = TOP / "README.md", TOP / "docs/PROMISES.md"
MANUAL = TOP / "docs/mbox2maildir.1"
MANUAL_OF_ADMIN = TOP / "docs/mbox2maildir-admin.1"
MANUALS = sorted(TOP.glob("docs/*.1"))
# the files that say something about a package
PACKAGED = [TOP / "packaging/release", TOP / "debian/control", TOP / "debian/README.source"]
LEFT, SCHEMA = TOP / "docs/LEFT.md", TOP / "docs/rows.schema.json"
INSTALLED = "/usr/share/doc/mbox2maildir"
LINK = re.compile(r"\]\(([^)#]*)(?:#([^)]*))?\)")
# an anchor that a row of a table has
ANCHOR = re.compile(r'<a id="([\w-]+)"></a>')
HEADING = re.compile(r"^#+ (.*)$", re.MULTILINE)
SHOWN = re.compile(r"^```.*?^```$|^ {4}[^\n]*$", re.DOTALL | re.MULTILINE)
PATH = re.compile(r"`((?:admin|bench|crates|debian|docs|examples|packaging|tests|src|specs|proofs|must-fail)/[^`\s]*)")
SPAN = re.compile(r"`([^`]+)`")
FILE = re.compile(r"`(\w+\.rt)`")
TRUSTED = re.compile(r"^\| `(crates/[^`]+)` \| (\d+) \| [^|]* \|$", re.MULTILINE)
# what reaches the machine: files, clocks, words, streams, threads
HOST = re.compile(r"^use std::(?:\{[^}]*\b(?:env|fs|thread)\b|(?:env|fs|os|process|rt|thread)\b)", re.MULTILINE)
INSTALLED_PATH = re.compile(rf"{INSTALLED}(?:/[\w.-]*\w)*")
CODE = re.compile(r"^```rust\n(.*?)^```$", re.DOTALL | re.MULTILINE)
FAULT_TEXT = re.compile(r"^fault_text .*? = (.*)$", re.MULTILINE)
TOLD = re.compile(r'\btold \(codes "(.*?)"\)')
BEGIN = re.compile(r'^told text = codes "(.*?)" \+\+ text', re.MULTILINE)
REPORT = re.compile(r"^report_line report = (.*?)^$", re.DOTALL | re.MULTILINE)
PART = re.compile(r'codes "(.*?)(?:\\n)?"|decimal (?:\w+\.)?(\w)')
DIAGNOSTIC = re.compile(r'^\.It "(.*)"$', re.MULTILINE)
REASONS = re.compile(r"^## Reasons why .*?(?=^#)", re.DOTALL | re.MULTILINE)
ROW_OF_REASON = re.compile(r"^\| <a id=.*", re.MULTILINE)
LATER = re.compile(r"^If all that is left is (.*), the status is 75\.", re.MULTILINE)
OF_COMMAND = re.compile(r"^\.Ss (\w+).*\n((?:(?!\.S[hs] ).*\n)*)", re.MULTILINE)
OPTION = re.compile(r"(?<= -)[a-z][\w-]+")
ITEM_OF_OPTIONS = re.compile(r"^\.It Fl .*", re.MULTILINE)
OPTION_OF_HELP = re.compile(r"^  --([\w-]+)", re.MULTILINE)
KINDS = re.compile(r"^\.Sh KINDS$(.*?)^\.Sh ", re.DOTALL | re.MULTILINE)
WORDS_OF_REASONS = re.compile(r"^\.Sh REASONS$(.*?)^\.Sh ", re.DOTALL | re.MULTILINE)
LINE_OF_WORDS = re.compile(r"^\.Li (.*)$", re.MULTILINE)
KILLED = re.compile(r"^## Killed, .*?(?=^## )", re.DOTALL | re.MULTILINE)
WHY = re.compile(r"^## Why not another tool$.*?(?=^## )", re.DOTALL | re.MULTILINE)
ROWS = re.compile(r"^\| .*", re.MULTILINE)
OTHER = re.compile(r"^(\| [^*|]+ \| (\d+) of \d+ \| (\d+) \| (\d+) \|.*)$", re.MULTILINE)
TYPED = re.compile(r"""\b(SERVER|REFERENCE)\.(line|span|block|cells)\((["'])(.+?)\3\)""")
KIT = re.compile(r"^ {6}(rattle-kit-\S+ logic \S+)$", re.MULTILINE)


def anchors_of(page: Path) -> set[str]:
    """The anchors of a page: those of its headings, as GitHub makes them, and those that it names."""
    text = text_of(page)
    headings = {re.sub(r"[^\w\- ]", "", heading.lower()).replace(" ", "-") for heading in HEADING.findall(text)}
    return headings | set(ANCHOR.findall(text))


def links_to_nothing(top: Path, pages: Sequence[Path]) -> Iterator[str]:
    """The links of pages that lead nowhere."""
    for page in pages:
        for target, anchor in LINK.findall(SHOWN.sub("", text_of(page))):
            if "://" in target:
                continue
            path = (page.parent / target) if target else page
            if not path.exists():
                yield f"{page.relative_to(top)}: the link to {target} leads nowhere"
            elif anchor and anchor not in anchors_of(path):
                yield f"{page.relative_to(top)}: {target} has no heading {anchor}"


def wrong_files() -> Iterator[str]:
    """docs/ARCHITECTURE.md tells its reader to read the first line of each file of the code."""
    for path in sorted(TOP.glob("crates/*/src/**/*.rt")):
        if not re.match(r"//!? \w", text_of(path)):
            yield f"{path.relative_to(TOP)}: no line at the start says what is in it"


def wrong_paths() -> Iterator[str]:
    """What a page or a package names by its path is in the repository, or in one of its crates. NAME and `*` stand for
    anything. A file of code may be named alone."""
    for page in [*PAGES, *MANUALS, *PACKAGED]:
        for path in sorted(set(PATH.findall(text_of(page)))):
            pattern = path.rstrip("/").replace("NAME", "*")
            if not any(TOP.glob(pattern)) and not any(TOP.glob(f"crates/*/{pattern}")):
                yield f"{page.relative_to(TOP)}: {path} is not there"
        for file in sorted(set(FILE.findall(text_of(page)))):
            if not any(TOP.glob(f"crates/*/src/**/{file}")):
                yield f"{page.relative_to(TOP)}: {file} is not there"


def wrong_picture() -> Iterator[str]:
    """The picture of docs/ARCHITECTURE.md has each crate, and each room of the companion."""
    picture = text_of(TOP / "docs/ARCHITECTURE.md").split("```text\n")[1].split("```")[0]
    crates = (path.name for path in TOP.glob("crates/*") if (path / "src").is_dir())
    rooms = (path.parent.name for path in TOP.glob("admin/mbox2maildir_admin/*/__init__.py"))
    for name in sorted([*crates, *rooms]):
        if not re.search(rf"\b{name}\b", picture):
            yield f"docs/ARCHITECTURE.md: the picture has no {name}"


def wrong_reading() -> Iterator[str]:
    """What docs/PROMISES.md tells its reader to read is there: files of a folder, or what is in a file."""
    for place, words in files_to_read():
        path, named = TOP / place, SPAN.findall(words)
        files = [path / f"{word}.antt" for word in named] if path.is_dir() else [path]
        yield from (f"docs/PROMISES.md: {file.relative_to(TOP)} is not there" for file in files if not file.is_file())
        if path.is_file():
            yield from (f"docs/PROMISES.md: {place} has no {word}" for word in named if word not in text_of(path))


def wrong_code() -> Iterator[str]:
    """The code that a page shows is in the sources in the same form."""
    sources = "\n".join(text_of(path) for path in sorted(TOP.glob("crates/*/src/**/*.rt")))
    for page in PAGES:
        yield from (
            f"{page.name} shows code that is not there: {code}"
            for code in CODE.findall(text_of(page))
            if code not in sources
        )


def wrong_trusted() -> Iterator[str]:
    """The list of docs/PROMISES.md has each file that reaches the machine, with its lines, and each library of the kit.
    copyright names these libraries too."""
    section = text_of(TOP / "docs/PROMISES.md").split("## What is trusted\n")[-1]
    crates = {path.name for path in TOP.glob("crates/*")}
    libraries = {
        word for line in text_of(TOP / "crates.txt").splitlines() if line[0] != "#" for word in re.findall(r"\w+", line)
    }
    yield from (
        f"docs/PROMISES.md: {word} is not trusted" for word in sorted(libraries - crates - set(SPAN.findall(section)))
    )
    notices = set(re.findall(r"\w+", text_of(TOP / "copyright")))
    yield from (f"copyright: {word} is linked in, and is not named" for word in sorted(libraries - crates - notices))
    listed = {file: int(lines) for file, lines in TRUSTED.findall(section)}
    files = [path for path in TOP.glob("crates/*/src/**/*.rt") if path.relative_to(TOP).parts[1] != "vectors"]
    found = {
        str(path.relative_to(TOP)): len(text_of(path).splitlines()) for path in files if HOST.search(text_of(path))
    }
    for file in sorted({*listed, *found}):
        if listed.get(file) != found.get(file):
            counts = f"{listed.get(file)} lines, and reaches the machine with {found.get(file)}"
            yield f"docs/PROMISES.md: {file} is trusted with {counts}"


def wrong_installed() -> Iterator[str]:
    """The links of pages in the folder in which they are installed, and the paths of installed files that pages and
    packages name."""
    with tempfile.TemporaryDirectory() as root:
        subprocess.run([TOP / "packaging/install", os.devnull, f"{root}/usr"], check=True)
        docs = Path(f"{root}{INSTALLED}")
        yield from (f"installed: {line}" for line in links_to_nothing(docs, sorted(docs.glob("**/*.md"))))
        for page in [*PAGES, *MANUALS, *PACKAGED]:
            for path in INSTALLED_PATH.findall(text_of(page).replace("$name", "mbox2maildir")):
                if not Path(f"{root}{path}").exists():
                    yield f"{page.relative_to(TOP)}: {path} is not installed"


def said(definition: str, number: Callable[[str], str]) -> str:
    """The text that a definition gives, with what stands for a number."""
    return "".join(text if text or not value else number(value) for text, value in PART.findall(definition))


def wrong_texts() -> Iterator[str]:
    """The texts are taken from the definitions that the code is proved to print."""
    specs = "\n".join(text_of(path) for path in sorted(TOP.glob("crates/maildir_commands/specs/**/*.antt")))
    told = {*(said(text, lambda _: "n") for text in FAULT_TEXT.findall(specs)), *TOLD.findall(specs)}
    manual = text_of(MANUAL)
    page = set(DIAGNOSTIC.findall(manual))
    yield from (f"the page of the manual does not tell of: {text}" for text in sorted(told - page))
    yield from (f"the page of the manual tells of what nothing tells: {text}" for text in sorted(page - told))
    lines = [".Dq " + begin.replace(" ", r"\~") + " ." for begin in BEGIN.findall(specs)]
    lines += [".Dl " + said(report, str.upper) for report in REPORT.findall(specs)]
    if len(lines) != 2:
        yield f"the definitions have not one beginning of a fault's line, and one report: {lines}"
    yield from (f"the page of the manual has no line: {line}" for line in lines if line not in manual.splitlines())


def wrong_reasons() -> Iterator[str]:
    """The reasons have the words of the companion and, in docs/LEFT.md, what `explain` says of them."""
    faults = importlib.import_module("mbox2maildir_admin.faults")
    words, reasons = list(faults.REASONS), faults.REASONS.values()
    to_do = importlib.import_module("mbox2maildir_admin.meanings").TO_DO
    lines = LINE_OF_WORDS.findall(match_in(WORDS_OF_REASONS, text_of(MANUAL_OF_ADMIN))[1])
    rows = [f'| <a id="{one.word}"></a>`{one.word}` | {one.says} | {to_do[one]} |' for one in reasons]
    for name, found, wanted in (
        ("docs/rows.schema.json", json.loads(text_of(SCHEMA))["$defs"]["reason"]["enum"], words),
        ("the page of the manual", re.findall(r"[a-z-]+", " ".join(lines)), words),
        ("docs/LEFT.md", sorted(ROW_OF_REASON.findall("".join(REASONS.findall(text_of(LEFT))))), sorted(rows)),
    ):
        if found != wanted:
            yield f"{name} has other reasons than the companion:\n" + differ("\n".join(found), "\n".join(wanted))
    later = [reason.word for reason in reasons if faults.Status.after([reason]) == 75]
    if SPAN.findall(match_in(LATER, text_of(LEFT))[1]) != later:
        yield f"docs/LEFT.md: another run settles {later}"


def wrong_remarks() -> Iterator[str]:
    """The schema has the words of remarks that `explain` has, and each of these has its sentence in the table."""
    words = list(importlib.import_module("mbox2maildir_admin.meanings").REMARKS)
    table = importlib.import_module("mbox2maildir_admin.remarks").PLACES
    schema = json.loads(text_of(SCHEMA))["$defs"]["remark"]["enum"]
    if schema != words:
        yield f"docs/rows.schema.json has the remarks {schema}, and the companion has {words}"
    for word in sorted(table.keys() ^ words):
        yield f"{word}: `explain` or the table of remarks does not have it"


def wrong_kinds() -> Iterator[str]:
    """The page of the manual has the kinds of files that are not mbox text, and of dates, in the companion's words."""
    others = importlib.import_module("mbox2maildir_admin.kinds.others").OTHERS
    endings = importlib.import_module("mbox2maildir_admin.kinds.starts").Ending
    section = " ".join(match_in(KINDS, text_of(MANUAL_OF_ADMIN))[1].split())
    kinds = {*(other.kind.removeprefix("no mail: ") for other in others), *(ending.value for ending in endings)}
    yield from (f"the page of the manual has no kind: {kind}" for kind in sorted(kinds) if kind not in section)


def printed_by(*words: str) -> str:
    """What a command prints, on both of its streams."""
    if not shutil.which(words[0]):
        raise LeftOut(f"{words[0]} is not here")
    ran = subprocess.run(words, cwd=TOP, stdout=subprocess.PIPE, stderr=subprocess.STDOUT, text=True, check=False)
    return ran.stdout


def wrong_options() -> Iterator[str]:
    """The sections of a command have an item for each option of its help, and for no other."""
    commands = importlib.import_module("mbox2maildir_admin.commands.words").COMMANDS
    described = {command.name: set[str]() for command in commands}
    for command, section in OF_COMMAND.findall(text_of(MANUAL_OF_ADMIN)):
        described[command].update(OPTION.findall("\n".join(ITEM_OF_OPTIONS.findall(section))))
    for command, options in described.items():
        told = set(OPTION_OF_HELP.findall(printed_by(str(TOP / "admin/mbox2maildir-admin"), command, "--help")))
        yield from (f"--{option} of {command} is not described" for option in sorted(told - options))
        yield from (f"{command} has no --{option}" for option in sorted(options - told))


def wrong_kit() -> Iterator[str]:
    """docs/PROMISES.md names the kit that is here."""
    named = KIT.findall(text_of(PROMISES))
    version = printed_by("rt", "version").strip()
    if version not in named:
        yield f"docs/PROMISES.md names the kits {named}, and `rt version` is {version}"


def wrong_comparison() -> Iterator[str]:
    """The rows of killed runs in README.md are those of docs/COMPARISON.md of the project's own and of the best of the
    others. README.md also says how many others there are, and how much the worst lost."""
    killed = match_in(KILLED, text_of(TOP / "docs/COMPARISON.md"))[0]
    shown = match_in(WHY, text_of(README))[0]
    others = [(int(whole), -int(lost), -int(doubled), row) for row, whole, lost, doubled in OTHER.findall(killed)]
    rows = ROWS.findall(killed)
    wanted = [*rows[:2], *(row for row in rows if "**" in row), max(others)[3]]
    for row in sorted({*wanted} ^ {*ROWS.findall(shown)}):
        yield f"README.md has this row, or should have it: {row}"
    for text in (f"[{len(others)} others]", f"lost {max(-lost for _, lost, _, _ in others):,} messages"):
        if text not in shown:
            yield f"README.md does not say: {text}"


def wrong_commands() -> Iterator[str]:
    """What the tests of machines look up on pages by its text is there, as one command, span, block or row."""
    found = [match for path in TOP.glob("tests/support/machine/*.py") for match in TYPED.findall(text_of(path))]
    if not found:
        yield "the tests of machines look up nothing"
    for page, kind, _, part in sorted(found):
        try:
            getattr(getattr(machine, page), kind)(part)
        except AssertionError as fault:
            yield str(fault)


def wrong_manuals() -> Iterator[str]:
    """What mandoc finds in the pages of the manual. It is no fault of theirs which other pages are installed here."""
    for page in MANUALS:
        for line in printed_by("mandoc", "-T", "lint", str(page)).splitlines():
            if "mandoc.db" not in line and "referenced manual not found" not in line:
                yield line


def wrong_links() -> Iterator[str]:
    """The links of the pages as they are here."""
    return links_to_nothing(TOP, PAGES)


if __name__ == "__main__":
    find_nothing(globals())
