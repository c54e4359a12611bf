"""Random trees, spools and homes, and lists of mailboxes: what must become of each name is noted when it is made, and
is compared with rows, sums, status and Maildirs of runs."""
from collections.abc import Iterator
from random import Random

from tests.support.accounts import are_own
from tests.worlds.fates.comparing import differences
from tests.worlds.fates.faults import Attempt, a_spool, small_tree, with_left
from tests.worlds.fates.trees import of_a_tree, of_words
from tests.worlds.fates.users import of_users
from tests.worlds.stage import Stage


def one_world(stage: Stage, seed: int) -> list[str]:
    """A tree, mailboxes that are named, or users, mostly after a run that makes nothing."""
    draw, place = Random(seed), stage.place
    place.clear(is_for_users=True)
    kind = draw.choice(["tree", "tree", "words", "users"])
    if kind == "users" and are_own():
        world = of_users(draw, place.home, stage.users())
    else:
        world = (of_words if kind == "words" else of_a_tree)(draw, place.home)
    world.finish()
    stage.steps.append(f"migrate {' '.join(map(repr, [*world.options, *world.words]))}")
    return differences(world, place, is_dry=seed % 4 == 0)


def one_fault(stage: Stage, seed: int) -> Iterator[str]:
    """A small world in which one call of the system fails."""
    draw = Random(seed)
    make = draw.choice([small_tree, with_left, *([a_spool(stage.users())] if are_own() else [])])
    stage.place.clear(is_for_users=True)
    attempt = Attempt(make, stage.place)
    yield from attempt.wrong(draw.choice(attempt.faults()))
