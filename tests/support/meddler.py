#!/usr/bin/env python3
"""A person at work in a Maildir, until SIGTERM ends it.

Words: the Maildir, a folder to file mail in, a file with the bases of the messages that may be meddled with, one per
line, and how many deeds to do per second. To other messages it does what a mail reader does: it moves them from `new`
to `cur`, and flags them. Of the messages that may be meddled with it deletes some, files some, gives some another base,
marks some as new, gives some a second name for a moment, and writes into some. It says when it does each for the first
time and, at its end, how often it did each.
"""
import collections
import os
import random
import signal
import sys
import time
import typing


def mark(maildir: str, sub: str, name: str, base: str, _: str) -> None:
    """Does what a mail reader does: renames a file to a free name of the same base."""
    seen = name.endswith("S")
    os.rename(f"{maildir}/{sub}/{name}", f"{maildir}/cur/{base}:2,{'' if seen else 'S'}")


def delete(maildir: str, sub: str, name: str, _: str, __: str) -> None:
    """Deletes a message."""
    os.unlink(f"{maildir}/{sub}/{name}")


def file_elsewhere(maildir: str, sub: str, name: str, _: str, filed: str) -> None:
    """Moves a message to another folder."""
    os.rename(f"{maildir}/{sub}/{name}", f"{filed}/{name}")


def rename(maildir: str, sub: str, name: str, base: str, _: str) -> None:
    """Gives a message another base."""
    os.rename(f"{maildir}/{sub}/{name}", f"{maildir}/cur/{base},U=1:2,S")


def mark_as_new(maildir: str, sub: str, name: str, base: str, _: str) -> None:
    """Moves a message back to `new`."""
    os.rename(f"{maildir}/{sub}/{name}", f"{maildir}/new/{base}")


def link(maildir: str, sub: str, name: str, base: str, _: str) -> None:
    """Gives a message a second name for a moment, and removes the first one."""
    os.link(f"{maildir}/{sub}/{name}", f"{maildir}/cur/{base}:2,F")
    os.unlink(f"{maildir}/{sub}/{name}")


def write(maildir: str, sub: str, name: str, _: str, __: str) -> None:
    """Cuts a message."""
    with open(f"{maildir}/{sub}/{name}", "r+b") as file:
        file.truncate(5)


DEEDS = [delete, file_elsewhere, rename, mark_as_new, link, write]


def main() -> None:
    maildir, filed, bases, rate = sys.argv[1], sys.argv[2], sys.argv[3], int(sys.argv[4])
    with open(bases, encoding="ascii") as lines:
        theirs = set(lines.read().split())
    draw = random.Random(maildir)
    done = collections.Counter()  # type: typing.Counter[str]
    asked = []  # type: list[int]
    signal.signal(signal.SIGTERM, lambda number, frame: asked.append(number))
    while not asked:
        time.sleep(draw.expovariate(rate))
        sub = draw.choice(["new", "cur"])
        names = os.listdir(f"{maildir}/{sub}") if os.path.isdir(f"{maildir}/{sub}") else []
        if not names:
            continue
        name = draw.choice(names)
        base = name.split(":")[0]
        deed = draw.choice(DEEDS)
        try:
            if base in theirs:
                deed(maildir, sub, name, base, filed)
            elif "," not in base:
                deed = mark
                mark(maildir, sub, name, base, filed)
        except FileExistsError:
            continue
        if not done[deed.__name__]:
            print("first", deed.__name__, flush=True)
        done[deed.__name__] += 1
    print(*(f"{deed.__name__} {done[deed.__name__]}" for deed in [mark, *DEEDS]))


if __name__ == "__main__":
    main()
