"""Patterns that are compiled when they are first used: to compile all of them takes longer than to migrate a message,
and a run needs few."""
import re
from typing import Any, AnyStr, Union, cast


class Uncompiled:
    """A pattern of which nothing was used yet but its text. It keeps what is used."""

    all: "list[Uncompiled]" = []

    def __init__(self, text: Union[str, bytes], flags: int) -> None:
        self.pattern, self.flags = text, flags
        self.all.append(self)

    def __getattr__(self, name: str) -> Any:
        value = getattr(re.compile(self.pattern, self.flags), name)
        setattr(self, name, value)
        return value


def compile_all() -> None:
    """Compiles all patterns, for the processes that begin as copies of this one. The library keeps so many."""
    for one in Uncompiled.all:
        re.compile(one.pattern, one.flags)


def pattern(text: AnyStr, flags: int = 0) -> re.Pattern[AnyStr]:
    """The pattern of a text, as `re.compile` gives it."""
    return cast("re.Pattern[AnyStr]", Uncompiled(text, flags))
