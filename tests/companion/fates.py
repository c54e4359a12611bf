"""Each name in a tree, a spool and a home has exactly one fate. In each case but one there is something that `migrate`
once passed over, or left for ever, with status 0, and that the worlds of tests/companion/worlds.py do not draw. In
`faults` each call of the system fails in a run of its own."""
import shutil
from collections.abc import Callable, Mapping
from functools import partial
from random import Random
from typing import Any

from tests.support.cases import Failed, run_cases
from tests.support.homes import latin_locale
from tests.support.running import OWNER, Desk
from tests.worlds.fates import texts
from tests.worlds.fates.comparing import Comparison, differences, migrate
from tests.worlds.fates.faults import small_tree, wrong_calls
from tests.worlds.fates.names import Name, name
from tests.worlds.fates.texts import Content, Fate
from tests.worlds.fates.trees import ready
from tests.worlds.fates.users import Homes
from tests.worlds.fates.world import INBOX, Branch, Thing, World
from tests.worlds.stage import TREE, Stage, fresh_stage

# how many lines are printed of what is wrong
LINES = 12
# contents by their names, or names in a folder
Names = Mapping[Name, Any]


def grow(branch: Branch, names: Names) -> None:
    """Makes files and folders in a folder."""
    for one, what in names.items():
        if isinstance(what, Content):
            branch.file(one, what)
        else:
            grow(branch.folder(one), what)


class Scene:
    """A world that is not drawn, in an empty folder."""

    def __init__(self, stage: Stage) -> None:
        stage.place.clear(is_for_users=True)
        self.stage, self.place, self.home, self.draw = stage, stage.place, stage.place.home, Random(72)
        self.world = World(self.home)

    def mail(self) -> Content:
        """A mailbox."""
        return texts.mboxrd(self.draw)

    def tree(self, *others: bytes) -> Branch:
        """A folder of mailboxes, which the words of the run name, beside others."""
        ready(self.world, b"M", [b"tree", *others])
        return Branch(self.world, bytes(self.home / "tree"), b"tree")

    def homes(self) -> Homes:
        """The homes of users. Without users the case is left out."""
        return Homes(self.world, self.stage.users())

    def finish(self) -> World:
        """Ends the making."""
        self.world.finish()
        return self.world

    def wrong(self) -> list[str]:
        """Runs it, and gives what is wrong."""
        return differences(self.finish(), self.place, is_dry=True)

    def wrong_at(self, desk: Desk) -> list[str]:
        """What is wrong with one run of it at a desk."""
        world = self.finish()
        return list(Comparison(world, migrate(world, desk)).all_wrong())


def folders_named_cur(scene: Scene) -> list[str]:
    """A folder `cur`, or a symbolic link of that name, makes no Maildir of what is beside and below it."""
    tree = scene.tree()
    beside = {name(sub): {name("x"): scene.mail()} for sub in ("new", "tmp")}
    grow(tree, {name("p"): {name("cur"): {name("jan"): scene.mail()}, name("garden"): scene.mail()}})
    grow(tree, {name("q"): {name("sheds"): scene.mail(), **beside}, name("r"): {name("cur"): scene.mail()}})
    tree.folder(name("q")).link(name("cur"), "../p")
    return scene.wrong()


def homes_that_are_closed(scene: Scene) -> list[str]:
    """A home that is missing, closed, another user's or not mounted is left, and so is a tree behind a closed
    folder."""
    homes = scene.homes()
    missing, closed, unmounted, behind = homes.who.names
    shutil.rmtree(homes.who.home(missing), ignore_errors=True)
    homes.who.home(unmounted).mkdir(parents=True)
    (homes.home(behind) / "m90" / "in").mkdir(parents=True)
    for user in (closed, behind):
        homes.own(bytes(homes.home(user)), user)
    scene.world.modes += [(bytes(homes.who.home(closed)), 0), (bytes(homes.who.home(behind) / "m90"), 0)]
    for user in (missing, closed, unmounted):
        scene.world.add(Thing(b"", Fate.LEFT, user=user))
    scene.world.add(Thing(b"m90/in", Fate.LEFT, user=behind))
    homes.words(homes.who.names, "m90/in")
    return scene.wrong()


def of_japan(scene: Scene) -> Names:
    """Names that a locale in Latin-1 does not have. They are in rows, in remarks and in next commands."""
    return {
        name("\u65e5\u672c", "&ZeVnLA-"): {name("sheds"): scene.mail()},
        name("\u65e5\u672c.2004", "&ZeVnLA--2004"): scene.mail(),
        name("\u65e5", "&ZeU-"): texts.DOUBTFUL["damaged"](scene.draw),
    }


def names_in_another_locale(scene: Scene) -> list[str]:
    """A name that the locale does not have has its row, in one's own run."""
    grow(scene.tree(), of_japan(scene))
    return scene.wrong_at(Desk(scene.home, scene.place.programs, OWNER, **latin(scene)))


def users_names_in_another_locale(scene: Scene) -> list[str]:
    """The same for users."""
    homes = scene.homes()
    user = homes.who.names[0]
    grow(Branch(scene.world, bytes(homes.home(user) / TREE), TREE.encode(), user=user), of_japan(scene))
    homes.own(bytes(homes.home(user)), user)
    homes.words([user])
    return scene.wrong_at(Desk(scene.home, scene.place.programs, **latin(scene)))


def latin(scene: Scene) -> dict[str, str]:
    """The settings of a locale in Latin-1, and of a home."""
    return {**latin_locale(scene.home.parent), "HOME": str(scene.home)}


def named_and_met(scene: Scene) -> list[str]:
    """What is named as a word, and met in a tree or two, has one fate, by the word. Another name of it is no mail."""
    tree, content = scene.tree(b"tree/sheds", b"tree/lists", b"./tree/sheds"), scene.mail()
    tree.file(name("sheds"), content).folder = INBOX
    lists = tree.folder(name("lists"))
    lists.file(name("garden"), scene.mail())
    lists.hard_link(name("more"), name("../sheds"), content)
    return scene.wrong()


def faults(scene: Scene) -> list[str]:
    """Each call of the small tree fails once, each in a run of its own."""
    top = scene.stage.top / "shares"
    top.mkdir()
    return wrong_calls(small_tree, top, scene.place.programs)


def case(check: Callable[[Scene], list[str]]) -> None:
    """Nothing is wrong in a scene."""
    with fresh_stage() as stage:
        wrong = check(Scene(stage))
    if wrong:
        raise Failed("\n".join([f"{len(wrong)} differ", *wrong[:LINES]]))


CASES = (
    folders_named_cur,
    homes_that_are_closed,
    names_in_another_locale,
    users_names_in_another_locale,
    named_and_met,
    faults,
)

if __name__ == "__main__":
    run_cases({check.__name__: partial(case, check) for check in CASES})
