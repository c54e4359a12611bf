"""Machines of the tests' own, each of a suite of Debian and of who delivers there: a root that debootstrap makes, the
package, Dovecot, a mail transfer agent and twelve users with numbered mail. In each the pages for a server are followed
by their own lines, while mail arrives. Over IMAP and POP3 nothing changes but what the pages say, and no message is
lost or there twice. Root runs it, by hand; it needs debootstrap and Debian's archive."""
import shutil
from functools import partial

from tests.support.cases import Failed, LeftOut, run_cases
from tests.support.homes import want_root
from tests.support.machine.root import Root

SUITES = ["bullseye", "bookworm", "trixie"]
# who delivers, and the package of the mail transfer agent
WAYS = {"postfix": "postfix", "lmtp": "postfix", "lda": "postfix", "exim": "exim4-daemon-light"}


def follow(suite: str, way: str) -> None:
    """Follows the pages in a machine."""
    want_root()
    if not shutil.which("debootstrap"):
        raise LeftOut("debootstrap is not here")
    root = Root(suite, WAYS[way])
    root.make()
    status = root.run("python3", "-B", "-m", "tests.support.machine.follow", way)
    if status:
        raise Failed(f"status {status}")


if __name__ == "__main__":
    run_cases({f"{suite}_{way}": partial(follow, suite, way) for suite in SUITES for way in WAYS})
