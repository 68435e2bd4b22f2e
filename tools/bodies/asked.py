"""The edits to be tried of each crate: crates are tried side by side, as far as processors and memory reach."""

from __future__ import annotations

import tempfile
from concurrent.futures import Future, ThreadPoolExecutor, as_completed
from pathlib import Path
from typing import Generator, Iterable, Iterator, List, NamedTuple, Tuple

from bodies.edits import Body, Edit
from bodies.kept import Kept
from bodies.kit import Kit, Tree
from bodies.outcomes import Outcome, name_of_twin, of_bodies, of_kept, of_twins
from bodies.trial import Trial

#: How many wrong bodies of a crate the gate tries at least, where there are so many.
LEAST = 3


class Asked(NamedTuple):
    """The twins and the wrong bodies of a crate that are tried, the names of those without a twin, and what is wrong with their files."""

    crate: str
    twins: List[Edit]
    bodies: List[Edit]
    without_twin: List[str]
    faults: List[Outcome]

    @staticmethod
    def of(crate: str, bodies: List[Body], mode: str) -> Asked:
        """The wishes of a mode of the script."""
        chosen = [body for body in bodies if body.is_in_gate or mode != '--gate']
        faults = [Outcome(body.name, body.fault) for body in bodies if body.fault]
        if len(chosen) < min(LEAST, len(bodies)):
            faults.append(Outcome('the wrong bodies for the gate', f"of {len(bodies)} only {len(chosen)} are marked 'gate'"))
        fit = [body for body in chosen if not body.fault]
        twins = [body.twin for body in fit if body.twin.pairs and mode != '--wrong']
        # `rt ci`, which tries these one by one, is a part of the gate.
        wrong = [body.wrong for body in fit if mode != '--twins' and not (mode == '--gate' and body.is_must_fail)]
        return Asked(crate, twins, wrong, [body.name for body in fit if not body.twin.pairs], faults)

    def left(self, kept: Kept) -> Tuple[Asked, List[Outcome]]:
        """The edits left to be tried, and the outcomes of the others in earlier runs."""
        known = of_kept(self.crate, kept, self.twins, self.bodies)
        names = {outcome.name for outcome in known}
        twins = [edit for edit in self.twins if name_of_twin(edit) not in names]
        return self._replace(twins=twins, bodies=[edit for edit in self.bodies if edit.name not in names]), known

    @property
    def size(self) -> int:
        return len(self.twins) + len(self.bodies)


class Result(NamedTuple):
    """The outcome of a crate, and how often the whole crate had to be checked, since a function of it couldn't be asked for."""

    crate: str
    outcomes: List[Outcome]
    whole_checks: int = 0


def tried(asked: Asked, trial: Trial, kept: Kept) -> Result:
    """Twins come first: what is proved with them is there for the wrong bodies."""
    outcomes = [*of_twins(trial, kept, asked.twins), *of_bodies(trial, kept, asked.bodies)]
    return Result(asked.crate, outcomes, trial.whole_checks)


class NotBuilt(Exception):
    """Libraries are lacking. Its text names them, and says what to run first."""


def results(asked: Iterable[Asked], kit: Kit) -> Generator[Result, None, None]:
    """The outcome of each crate: first those that are kept, then the others as they end. Raises `NotBuilt` before anything is tried."""
    kept = Kept(kit.line)
    left: List[Asked] = []
    for one in asked:
        rest, known = one.left(kept)
        if known:
            yield Result(one.crate, known)
        if rest.size:
            left.append(rest)
    if left:
        yield from tried_side_by_side(left, kit, kept)


def tried_side_by_side(asked: List[Asked], kit: Kit, kept: Kept) -> Iterator[Result]:
    """Tries these, those with most to be tried first."""
    with tempfile.TemporaryDirectory() as folder:
        tree = Tree(Path(folder), [one.crate for one in asked], kit)
        lacking = {name for one in asked for name in tree.lacking(one.crate)}
        if lacking:
            raise NotBuilt(f'not built of the sources here: {", ".join(sorted(lacking))}; run make build first, or make gate')
        with ThreadPoolExecutor(kit.lanes()) as pool:
            begun: List[Future[Result]] = []
            try:
                for one in sorted(asked, key=lambda one: -one.size):
                    begun.append(pool.submit(tried, one, Trial(tree, one.crate), kept))
                for ended in as_completed(begun):
                    yield ended.result()
            except BaseException:
                for waiting in begun:
                    waiting.cancel()
                kit.stop()
                raise
