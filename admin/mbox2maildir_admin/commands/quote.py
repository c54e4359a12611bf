"""The command `quote`: a copy of a mailbox for `mbox2maildir convert`."""

from ..faults import Status
from ..flags.dovecot_headers import internal_head
from ..maildir.disk import trial_folder
from ..mbox.mailbox import Mailbox
from ..nexts import Command, Runs
from ..progress import say_of
from ..readings.copies import Copy, with_lf
from ..readings.plans import Plan, Question, plan_of
from ..readings.quoting import Quoter, give_all, write_copy
from ..readings.reading import PLAIN, Reading
from ..terminal import bytes_of, named, operand, put, write
from ..units import Say, silent
from .files import Complaints, each
from .options import Given, WrongOptions, decision_of

STANDARD_OUTPUT = b"-"


def do_quote(given: Given) -> int:
    """Writes a copy."""
    if not given.output:
        raise WrongOptions("-o COPY is missing: the name of the copy, or - for standard output")
    decision, output = decision_of(given, True), bytes_of(given.output)
    is_stripped, complaints = bool(given.dovecot), Complaints()
    each(given.operands, lambda file: quote_file(decision, file, output, is_stripped), complaints)
    return Status.of(complaints.is_well)


def quote_file(decision: Reading, file: bytes, output: bytes, is_stripped: bool) -> None:
    """Writes a copy of a file, and says what it has."""
    say: Say = say_of(file)
    if output == STANDARD_OUTPUT:
        # the copy may go to a terminal
        say = silent
    with Mailbox.open(file, say) as opened, with_lf(opened, trial_folder()) as mailbox:
        plan = plan_to_quote(mailbox, decision, output, is_stripped)
        reading, start, messages = plan.reading if plan.is_copied else PLAIN, plan.start, plan.messages
        if is_stripped:
            head, end = internal_head(mailbox, start)
            start, messages = (end, messages - 1) if head else (start, messages)
        if output == STANDARD_OUTPUT:
            quoter = Quoter(reading, mailbox, start, keeps_lengths=False)
            give_all(quoter, write, is_stripped)
            quoter.check(quoter.given, quoter.messages, messages)
            return
        with Copy(output) as copy:
            quoter = write_copy(reading, mailbox, start, messages, copy, is_stripped)
    put("%s: messages %d, lines quoted %d" % (named(output), messages, quoter.quoted))


def plan_to_quote(mailbox: Mailbox, decision: Reading, output: bytes, is_stripped: bool) -> Plan:
    """How a file is read. Raises Fault if a human must decide that, with the commands that do."""
    try:
        return plan_of(mailbox, decision=decision)
    except Question as question:
        names = "-" if output == STANDARD_OUTPUT else operand(output), operand(mailbox.path)
        dovecot = ["--dovecot"] * is_stripped
        question.put(lambda decision: Command.of(Runs.QUOTE, *dovecot, *decision.options(), "-o", *names))
        raise
