"""The words of the command line: a command, its options and its operands, and what is wrong with them."""
import collections
import functools
import gc
import importlib
import sys
from collections.abc import Iterable, Sequence
from typing import Any, NoReturn

from .. import ADMIN
from ..faults import Status
from ..nexts import Does
from ..terminal import bytes_of, complain, put, shown, text_of, write
from .options import USERS, Given, Option, WrongOptions, options_of, want_homes, want_together
from .words import COMMANDS, PROGRAM, Words

# how many columns a help has
WIDTH = 80
# what follows the name of an operand that may be given several times
SEVERAL = "..."
HELP = Option("-h --help", "", "show this help message and exit")


class Command:
    """A command, or the program without one, and its options, whose names must be complete and which may stand anywhere
    among the operands. An error is a line that says what is wrong, and one with the command that says more."""

    def __init__(self, words: Words) -> None:
        self.words, self.groups = words, options_of(words.name)
        self.prog = ADMIN if words.name == ADMIN else "%s %s" % (ADMIN, words.name)
        options = [HELP, *(one for several in self.groups.values() for one in several)]
        self.named = {name: one for one in options for name in one.names.split()}

    def help(self) -> str:
        """The help, which has 80 columns. Only it needs the modules that lay it out, unless these are there already."""
        import argparse
        from textwrap import fill

        ways = self.words.usage or ["[OPTION]... %s" % " ".join(self.words.operands)]
        usage = "\n       ".join("%s %s" % (self.prog, one) for one in ways)
        text = self.words.text if "\n" in self.words.text else fill(self.words.text, WIDTH)
        layout = functools.partial(argparse.RawDescriptionHelpFormatter, width=WIDTH)
        examples = ["  " + one.format(ADMIN) for one in self.words.examples]
        epilog = "\n".join(["examples:", *examples, "", fill(self.words.ending, WIDTH)]) if examples else ""
        parser = argparse.ArgumentParser(self.prog, usage, text, epilog, formatter_class=layout)
        for group, options in self.groups.items():
            # those of `migrate` are so many that a reader needs groups
            place = parser.add_argument_group(group) if group == USERS or self.words.name == "migrate" else parser
            for one in options:
                how: dict[str, Any] = {"action": "store_true"}
                if one.value:
                    how = {"metavar": one.value, "nargs": "?" if one.choices else None}
                place.add_argument(*one.names.split(), help=one.help, **how)
        return parser.format_help()

    def error(self, message: str) -> NoReturn:
        """Ends the program with status 2."""
        complain(message)
        complain("%s: %s --help" % (Does.RUN.says, self.prog))
        sys.exit(2)

    def read(self, words: Iterable[str]) -> Given:
        """What the words give."""
        given = Given(**{one.key: one.default() for one in self.named.values()})
        rest = collections.deque(words)
        while rest:
            word = rest.popleft()
            if word == "--":
                given.operands += map(bytes_of, rest)
                rest.clear()
            elif word == "-" or not word.startswith("-"):
                given.operands.append(bytes_of(word))
            else:
                given.typed.append(self.take(word, rest, given))
        if given.help:
            write(self.help().encode())
            sys.exit(0)
        return given

    def take(self, word: str, rest: collections.deque[str], given: Given) -> list[str]:
        """Takes an option with its value, which may be the next word, and returns its words. It is an error if there is
        none of this name. After one that needs no value, a word that is none of its values is an operand."""
        name, sign, value = word.partition("=")
        one = self.named.get(name) or self.named.get(word[:2])
        if one is None:
            self.error("%s: no such option%s" % (shown(word), like(name, self.named)))
        if not one.value and word not in self.named:
            self.error("%s: %s takes no value" % (shown(word), one.name))
        typed = [word]
        if name not in self.named:
            value = word[2:]
        elif one.choices and not sign:
            value = rest.popleft() if rest and rest[0] in one.choices else one.choices[0]
            typed = [word if value == one.choices[0] else "%s=%s" % (word, value)]
        elif one.value and not sign:
            value = rest.popleft() if rest else "--"
            if value.startswith("-") and value != "-":
                what = word, one.value, one.name, one.value
                self.error("%s: its %s is missing; if that begins with a dash, write %s=%s" % what)
            typed.append(value)
        if one.choices and value not in one.choices:
            self.error("%s: it takes %s" % (shown(word), one.value.replace("|", " or ")))
        if one.is_several:
            getattr(given, one.key).append(value)
        else:
            setattr(given, one.key, value if one.value else True)
        return typed

    def given(self, words: Iterable[str]) -> Given:
        """The options and operands that the words give, which go together."""
        given = self.read(words)
        is_of_users = getattr(given, "users", False)
        if self.words.operands:
            want_operands(given.operands, ("OLD...",) if is_of_users else self.words.operands)
        if is_of_users:
            want_homes(given)
        want_together(self.words.name, given)
        return given

    def run(self, words: Iterable[str]) -> int:
        """Does what the words say, by the module of the command's name, and returns the status."""
        try:
            given = self.given(words)
            given.read = self.given
            module = importlib.import_module("%s.%s" % (__package__, self.words.name))
            # what is loaded stays: nobody looks through it for garbage, and processes that begin as copies share it for
            # longer
            gc.freeze()
            gc.enable()
            status: int = getattr(module, "do_" + self.words.name)(given)
            return status
        except WrongOptions as wrong:
            return self.error(str(wrong))


def run(words: Sequence[str]) -> int:
    """Does what the command line says, and returns the status."""
    commands = {one.name: one for one in COMMANDS}
    if words and words[0] in commands:
        return Command(commands[words[0]]).run(words[1:])
    shorts = ["  %-9s %s" % (one.name, one.short) for one in COMMANDS]
    program = Command(PROGRAM._replace(text="\n".join([PROGRAM.text, "", "commands:", *shorts])))
    given = program.read(words)
    if given.version:
        from ..version import version

        put("%s %s" % (ADMIN, version()))
        return Status.WELL
    for name in given.operands:
        program.error("%s: no such command%s" % (shown(name), like(text_of(name), commands)))
    return program.error("the command is missing: %s" % ", ".join(commands))


def like(name: str, known: Iterable[str]) -> str:
    """What is said after a name that is not known: the one that it resembles, if there is one."""
    import difflib

    near = difflib.get_close_matches(name, known, 1)
    return ": did you mean %s?" % near[0] if near else ""


def want_operands(given: Sequence[bytes], names: Sequence[str]) -> None:
    """Raises WrongOptions unless there is an operand for each name. Only a last name with dots takes several. None is
    empty, as that of a variable that is not set."""
    missing = names[len(given) :]
    if missing:
        they = " and ".join(name.replace(SEVERAL, "") for name in missing)
        raise WrongOptions("%s %s missing" % (they, "is" if len(missing) == 1 else "are"))
    if len(given) > len(names) and not names[-1].endswith(SEVERAL):
        raise WrongOptions("%s: it takes only one %s" % (shown(given[len(names)]), names[-1]))
    if b"" in given:
        name = names[min(given.index(b""), len(names) - 1)]
        raise WrongOptions("'': %s is empty" % name.replace(SEVERAL, ""))
