"""mbox2maildir-admin back after a real Postfix has delivered into the Maildir, by `local` and by `virtual`, beside
procmail and Dovecot's LDA: the random histories of tests/worlds/back. Everything is left out without Postfix, or if
somebody else than root runs it.
"""
from functools import partial
from random import Random

from tests.support.archives import fresh
from tests.support.cases import run_cases
from tests.worlds.back.histories import DIALECTS, FOLDERS
from tests.worlds.back.postfix import postfix_for
from tests.worlds.back.trial import Trial, lived

SEEDS = 3


def histories(dialect: str) -> None:
    """A case: some histories of one dialect."""
    with fresh() as home, postfix_for(home.maildir, FOLDERS, Random(dialect)) as server:
        for seed in range(SEEDS):
            Trial(lived(home, seed, dialect, programs=server.programs)).run()
        print(f"{dialect}: {server.count} mails by Postfix", flush=True)


if __name__ == "__main__":
    run_cases({name: partial(histories, name) for name in DIALECTS})
