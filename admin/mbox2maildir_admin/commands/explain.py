"""The command `explain`: what the words of rows mean, and what to do."""
from ..faults import REASONS, Status
from ..meanings import COUNTED, LOOK, SILENT, to_do
from ..terminal import complain, put, shown
from .options import Given


def do_explain(given: Given) -> int:
    """Prints what some words mean, or all of them. Returns whether all of them are known."""
    meanings = [(word, "left: %s What to do: %s." % (reason.says, to_do(reason))) for word, reason in REASONS.items()]
    for asks, remarks in (("asks for a look", LOOK), ("is counted", COUNTED), ("is printed only with --all", SILENT)):
        meanings += [(word, "%s: %s" % (asks, says)) for word, says in remarks.items()]
    wanted = dict.fromkeys(map(shown, given.operands))
    known = [(word, says) for word, says in meanings if word in wanted or not wanted]
    for word, says in known:
        put("%s: %s" % (word, says))
    unknown = [word for word in wanted if word not in dict(known)]
    for word in unknown:
        complain("%s: no such word: `explain` without a word prints all of them" % word)
    return Status.of(not unknown)
