"""The version of the package."""
import os

from .faults import Fault

NAME = "VERSION"


def version() -> str:
    """The version from a file: an installed package has it beside this file, the source tree at its top."""
    here = os.path.dirname(os.path.dirname(os.path.realpath(__file__)))
    for folder in (here, os.path.dirname(here)):
        try:
            with open(os.path.join(folder, NAME), encoding="ascii") as file:
                return file.read().strip()
        except FileNotFoundError:
            continue
    raise Fault("it is missing: install the package anew", place=os.fsencode(os.path.join(here, NAME)))
