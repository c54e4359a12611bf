"""The kinds of random worlds, and how many of each the suite tries."""
from collections.abc import Callable, Iterable
from functools import partial
from typing import NamedTuple

from tests.support.cases import Failed
from tests.worlds import crowded, decisions, labels, mutated, passes, rewritten, served, shared, stray, trees, undone
from tests.worlds.back import trial
from tests.worlds.fates import drawn
from tests.worlds.history import History
from tests.worlds.stage import Stage

# how many lines are printed of what is wrong with a world, and how long one may be
LINES, LONGEST = 6, 900


class Kind(NamedTuple):
    """A kind: what plays the world of a seed, and tells what is wrong with it; and how many the suite tries."""

    play: Callable[[Stage, int], Iterable[str]]
    tried: int


def lived(kind: Callable[[Stage, int], History]) -> Callable[[Stage, int], list[str]]:
    """A kind of histories."""
    return lambda stage, seed: kind(stage, seed).play()


KINDS = {
    # one mailbox that programs and people rewrite between runs, each of whose printed commands is run
    "rewritten": Kind(lived(rewritten.Rewritten), 12),
    # the same, whose runs are killed again and again
    "killed": Kind(lived(rewritten.Killed), 6),
    # the same, while its owner is at work
    "killed_among_users": Kind(lived(partial(rewritten.Killed, is_among_users=True)), 6),
    # several that go into their folders at the same time, whose runs are killed among users, perhaps on a full disk
    "crowded": Kind(lived(crowded.Crowded), 6),
    # the same, which is undone beside others
    "undone": Kind(lived(undone.Undone), 10),
    # several, between which mail is moved; folders, ledgers and mailboxes are renamed, deleted, lost or restored
    "trees": Kind(lived(trees.Trees), 12),
    # the same, which are prepared while people use them: all is then as after one run
    "passes": Kind(lived(passes.Passes), 6),
    # trees, spools and homes, each of whose names has one fate; and the same where one call of the system fails
    "fates": Kind(drawn.one_world, 12),
    "some_faults": Kind(drawn.one_fault, 12),
    # one mailbox of a program, several in a tree, and users in a spool, that are decided about
    "decisions": Kind(decisions.one_mailbox, 85),
    "said_of_trees": Kind(decisions.in_a_tree, 6),
    "said_of_users": Kind(decisions.in_a_spool, 2),
    # texts that no program wrote
    "mutated": Kind(mutated.one_text, 1000),
    # mailboxes that Dovecot keeps, and shows as before once they are migrated
    "served": Kind(served.one_world, 12),
    # Takeouts, which go into folders by the labels of their messages
    "labels": Kind(lived(labels.Labels), 16),
    # mailboxes of five dialects, into which the mail of a Maildir goes back
    "back": Kind(trial.one_world, 15),
    # mailboxes that share messages
    "shared": Kind(lived(shared.Shared), 13),
    # texts and names of strangers
    "stray": Kind(stray.one_world, 30),
}


def wrong_with(kind: Kind, stage: Stage, seed: int) -> list[str]:
    """What is wrong with the world of a seed, and what was done in it."""
    stage.steps.clear()
    try:
        lines = list(kind.play(stage, seed))
    except (AssertionError, Failed) as failed:
        lines = [str(failed)]
    some = [line if len(line) < LONGEST else line[:LONGEST] + " ..." for line in lines[:LINES]]
    return [*some, *(["by:", *stage.steps] if lines and stage.steps else [])]


def told_of(name: str, stage: Stage, seeds: Iterable[int]) -> int:
    """Plays the worlds of these seeds, prints what is wrong with each, and returns with how many something is."""
    wrong = 0
    for seed in seeds:
        lines = wrong_with(KINDS[name], stage, seed)
        if lines:
            wrong += 1
            print(f"{name}, seed {seed}:", *lines, sep="\n    ", flush=True)
    return wrong
