"""Whether each message of a mailbox is in the folder of a Maildir that has its mail, for `verify`."""
import array
import functools
from itertools import compress, islice

from ..maildir.checking import DOUBTFUL_LINE, NOWHERE, SORTS, THERE, WITHOUT_FIELDS, Check, alike_in
from ..maildir.either import Either
from ..maildir.files import paths_of
from ..mbox.inventory import IN_MEMORY
from ..migration.outcomes import Detail, Observer, Row, Verdict
from ..program import Program
from ..readings.texts import Text
from ..terminal import NAMED
from ..units import Say
from .files import Migrated


def compare_mailbox(program: bytes, observer: Observer, one: Migrated) -> None:
    """Compares one mailbox with its folder of a Maildir, or with each folder of its labels."""

    def compare(one: Migrated, text: Text) -> None:
        check = check_of(program, one.folder, text, observer.say(one.file))
        if text.is_recorded:
            # it was decided then that no mail is in its From_ lines
            del check.besides[DOUBTFUL_LINE]
        observer.row(row_of(one.file, one.name, check))

    one.for_texts(compare, observer)


def row_of(path: bytes, folder: bytes, check: Check) -> Row:
    """The row of a mailbox that was compared with its folder, with the first messages, files and lines of each sort
    that are named."""
    sizes, verdict = check.inventory.sizes, Verdict.WHOLE if check.is_right() else Verdict.NOT_WHOLE
    counts = {sort: check.count(sort) for sort in SORTS}
    remarks = tuple(sort.remark.of(count) for sort, count in counts.items() if count and sort is not THERE)
    row = Row(path, folder, "", len(sizes), verdict, size=sum(sizes), remarks=remarks)
    named = ((sort, islice(check.where(sort), NAMED)) for sort in SORTS if sort.each)
    details = tuple(Detail(sort.each, sort.remark.word, *where) for sort, several in named for where in several)
    return row._replace(counts=tuple((sort.remark.word, count) for sort, count in counts.items()), details=details)


def check_of(program: bytes, maildir: bytes, text: Text, say: Say) -> Check:
    """What a look into a Maildir shows of the messages of a text. Raises Fault unless `mbox2maildir list` has the same
    messages."""
    with Program(program).listing(text.mailbox.number, text.start) as listing:
        inventory = text.messages(listing, with_cores=False)
    either = Either.of(maildir, inventory, text.mailbox, text.start)
    check = Check(either.inventory, say, either.others())
    if not either.chosen and text.mailbox.size <= IN_MEMORY:
        # all files have what is in the text
        check.look_first = functools.partial(either.inventory.digest_by, text.mailbox)
    check.look(maildir)
    check.besides[WITHOUT_FIELDS] = array.array(
        "Q", compress(range(len(inventory)), either.are_stripped(check.digests()))
    )
    take_alike(maildir, text, check)
    return check


def take_alike(maildir: bytes, text: Text, check: Check) -> None:
    """Takes a file for each message that is nowhere if they are alike: another mailbox has brought it, or a program has
    rewritten this one since. `offers_of` in `ledger/assign.py` has a like rule, by lines of a ledger."""
    nowhere, taken = [*check.places(NOWHERE)], {*check.paths.values()}
    if nowhere:
        named = (path for name, path in paths_of(maildir) if check.inventory.table.own_place(name) is None)
        for place, path, sort in alike_in((one for one in named if one not in taken), text.messages(), nowhere):
            check.take_alike(place, path, sort)
