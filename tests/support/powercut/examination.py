"""Records a workload, and looks at what cuts leave of it; on some disks also at cuts of the run that is made again."""
import os
import random
import shutil
import typing
from collections import Counter
from collections.abc import Sequence
from typing import NamedTuple, Optional

from tests.support.powercut.checks import Checker, Finding, Wrong, other_files
from tests.support.powercut.images import Images
from tests.support.powercut.log import FLUSH, TORN_SECTORS, WRITE, ZEROS, Log, State
from tests.support.powercut.recording import Recorder
from tests.support.powercut.systems import System
from tests.support.powercut.workloads import Workload

# how many lines are shown for each thing that is wrong
SHOWN = 3
# the mark of a run that a cut ended
CUT = "exit by a cut"


class Sample(NamedTuple):
    """How many states of a log are looked at, by which seed; on which share of them the run is made again, and on how
    many of these that run is cut too; and where the first image of each wrong thing is kept, if it is kept."""

    states: int
    seed: int
    again: float = 1.0
    twice: int = 0
    keep: Optional[str] = None


class Result:
    """What was seen."""

    def __init__(self) -> None:
        self.logs = self.writes = self.flushes = self.states = 0
        self.wrong = Counter()  # type: typing.Counter[Wrong]
        # lines about some findings
        self.shown = []  # type: list[tuple[Wrong, str]]

    def take(self, state: State, marks: Sequence[str], findings: Sequence[Finding]) -> None:
        """Takes what was found in a state."""
        self.states += 1
        for wrong in {wrong for wrong, _ in findings}:
            self.wrong[wrong] += 1
            if self.wrong[wrong] <= SHOWN:
                line = next(line for which, line in findings if which == wrong)
                place = f"{state.kind}, {len(state.kept)} kept, after `{marks[-1] if marks else 'the start'}`"
                self.shown.append((wrong, f"{wrong.value}: {place}: {line}"))

    def __str__(self) -> str:
        wrong = ", ".join(f"{which.value} in {count}" for which, count in sorted(self.wrong.items(), key=str))
        return (
            f"{self.states} states of {self.logs} logs with {self.writes} writes and {self.flushes} flushes: "
            f"{wrong or 'all right'}"
        )


class Examination:
    """Looks at what cuts leave of a workload on a file system, in a folder."""

    def __init__(self, workload: Workload, system: System, sample: Sample, work: str) -> None:
        self.workload, self.system, self.sample, self.work = workload, system, sample, work
        self.chance, self.result = random.Random(sample.seed), Result()

    def run(self, cutdisk: str) -> Result:
        """Records on a disk that keeps a log, and looks."""
        recorder = Recorder(cutdisk, self.system, self.work)
        recorder.record(self.workload.prepare, self.workload.record)
        log = Log(recorder.log)
        states = self.states_of(log, self.sample.states)
        some = self.chance.sample(states, min(self.sample.twice, len(states)))
        with Images.open(log, self.system, self.work) as images:
            images.make(log.at_start())
            with images.mounted() as at:
                checker = Checker(self.workload, other_files(self.workload, at))
            for state in states:
                self.look_at(images, checker, state)
                if state in some:
                    images.make(state)
                    self.cut_again(cutdisk, images.path, [*log.marks(state.point), CUT], checker)
        return self.result

    def states_of(self, log: Log, budget: int) -> list[State]:
        """The states of a log that are looked at."""
        self.result.logs += 1
        self.result.writes += log.count(WRITE) + log.count(ZEROS)
        self.result.flushes += log.count(FLUSH)
        return log.states(budget, self.sample.seed)

    def look_at(self, images: Images, checker: Checker, state: State) -> None:
        """Makes the image of a state, and takes what is wrong with it."""
        images.make(state)
        marks, is_run_again = images.log.marks(state.point), self.chance.random() < self.sample.again
        found = []  # type: list[Finding]
        for is_repaired in (False, True)[: 2 if self.system.repair else 1]:
            try:
                with images.mounted(is_repaired) as at:
                    found += checker.check(at, marks, is_run_again)
                break
            except OSError as fault:
                if state.kind == TORN_SECTORS:
                    # file systems count a block as written at once, and a repair goes back to what is older
                    break
                found.append((Wrong.UNREPAIRED if is_repaired else Wrong.UNMOUNTED, str(fault)[-300:]))
        self.keep(images, state, {wrong for wrong, _ in found})
        self.result.take(state, marks, found)

    def keep(self, images: Images, state: State, found: set[Wrong]) -> None:
        """Keeps the image in which something is found wrong for the first time."""
        for wrong in found if self.sample.keep else ():
            if not self.result.wrong[wrong]:
                images.make(state)
                shutil.copy(images.path, f"{self.sample.keep}/{type(self.workload).__name__}.{wrong.name}")

    def cut_again(self, cutdisk: str, image: str, marks: Sequence[str], checker: Checker) -> None:
        """Records the run that is made again on a disk that a cut left, and looks at what cuts leave of that."""
        work = os.path.join(self.work, "second")
        os.mkdir(work)
        first = shutil.copy(image, os.path.join(work, "first"))
        recorder = Recorder(cutdisk, self.system, work)
        recorder.record_again(first, lambda again: self.workload.run(again, self.workload.mailboxes))
        log = Log(recorder.log, marks)
        with Images.open(log, self.system, work, first) as images:
            for state in self.states_of(log, self.sample.states // 4):
                self.look_at(images, checker, state)
        shutil.rmtree(work)
