"""The line in which a part counts its cases."""

from __future__ import annotations

import os
import re
from typing import NamedTuple, Sequence, Tuple

#: The variable by which a skip is a failure, 1, or isn't, 0.
SKIPS_FAIL = 'SKIPS_FAIL'

LINE = re.compile(rb'^([0-9]+) passed, ([0-9]+) failed(?:, ([0-9]+) skipped)?$', re.MULTILINE)


class Counts(NamedTuple):
    passed: int = 0
    failed: int = 0
    skipped: int = 0

    def plus(self, other: Counts) -> Counts:
        return Counts(self.passed + other.passed, self.failed + other.failed, self.skipped + other.skipped)

    def __str__(self) -> str:
        return f'{self.passed} passed, {self.failed} failed, {self.skipped} skipped'

    def status(self) -> int:
        """The status to end with."""
        return 1 if self.failed or (self.skipped and skips_fail()) else 0


class Tally:
    """Counts cases one by one, with a line for each that failed or was skipped."""

    def __init__(self) -> None:
        self.counts = Counts()

    def check(self, name: str, fault: str = '') -> None:
        self.counts = self.counts.plus(Counts(failed=1) if fault else Counts(passed=1))
        print(f'FAILED: {name}: {fault}\n' if fault else '', end='', flush=True)

    def skip(self, name: str, reason: str) -> None:
        self.counts = self.counts.plus(Counts(skipped=1))
        print(f'skipped: {name}: {reason}', flush=True)


def compared(cases: int, faults: Sequence[str]) -> int:
    """Says what differs of so many cases, and how many are as they have to be. Gives the status to end with."""
    for text in faults:
        print(f'FAILED: {text}')
    print(f'{cases - len(faults)} passed, {len(faults)} failed')
    return 1 if faults else 0


def skips_fail(by_itself: bool = True) -> bool:
    """Whether a skip is a failure, since it is no pass: as the variable says, and where it says nothing as it is by itself."""
    return {'0': False, '1': True}.get(os.environ.get(SKIPS_FAIL, ''), by_itself)


def counted(said: bytes, status: int) -> Tuple[Counts, str]:
    """The counts of the last counting line of a part, and the oddity about it. One that has none, or ends badly though nothing failed, counts as one failure."""
    lines = LINE.findall(said)
    if not lines:
        return Counts(0, 1, 0), f'it has not counted; its status is {status}'
    counts = Counts(*(int(number or 0) for number in lines[-1]))
    # A part may itself take a skip for a failure.
    is_for_skips = counts.skipped > 0 and skips_fail()
    if status != 0 and counts.failed == 0 and not is_for_skips:
        return counts._replace(failed=1), f'1 failed: its status is {status}'
    return counts, ''


def finish(counts: Counts) -> int:
    """Prints the last line, which counts all, and gives the status to end with."""
    if counts.skipped and skips_fail():
        print(f'A skipped case is not tried, so this has failed; {SKIPS_FAIL}=0 lets it pass.', flush=True)
    print(counts, flush=True)
    return counts.status()
