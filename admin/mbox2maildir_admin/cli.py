"""The command line."""
import os
import sys

from .commands import command_line
from .faults import Fault, Status, complain_of
from .signals import INTERRUPTS, end_in_order
from .terminal import LINE, OutputFault, complain, drop, flush, open_streams, text_of


def run() -> int:
    """Does what the command line says, and returns the status."""
    try:
        try:
            # whatever the locale is
            return command_line.run([text_of(os.fsencode(word)) for word in sys.argv[1:]])
        finally:
            flush()
    except OutputFault as fault:
        drop(sys.stdout)
        if not isinstance(fault.cause, BrokenPipeError):
            complain("the output could not be written: %s" % fault.cause.strerror)
    except (Fault, OSError) as fault:
        complain_of(fault)
        return Status.after([fault.reason]) if isinstance(fault, Fault) else Status.LEFT
    except MemoryError:
        complain("out of memory")
    return Status.LEFT


def main() -> int:
    """Runs the program."""
    open_streams()
    end_in_order()
    try:
        with INTERRUPTS.let_through():
            return run()
    except KeyboardInterrupt:
        LINE.clear()
        return 130
