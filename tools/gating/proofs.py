"""The part of the gate that proves: `rt ci`, and a note of the sources of which it left libraries."""

from __future__ import annotations

import contextlib
import shutil
from pathlib import Path
from typing import Sequence

from building.kit import knows
from building.listing import BUILD, ROOT, listed
from building.record import sum_of_sources
from gating.counts import counted
from gating.in_turn import Turns

#: The files that `rt ci` leaves of each crate for those above it, and a file that says of which sources these are. By their dates nobody knows: those that
#: an earlier run has kept come back with the dates of then.
LIBRARIES = 'crates/*/out/rlib'
NOTE = BUILD / 'libraries'

#: A kit that takes what an earlier run has kept beside it does all anew by this word. Others don't know it, and always do.
ALL_ANEW = '--anew'


def prove(turns: Turns, name: str, rt: str, prover: str, programs: Sequence[str], is_anew: bool) -> None:
    """Counts the proofs. The programs that other parts try are then those that were built of these sources."""
    before = sum_of_libraries(prover)
    for path in [*map(Path, programs), NOTE]:
        with contextlib.suppress(FileNotFoundError):
            path.unlink()
    # The libraries that other parts check with are those that are built here, too: `rt ci` would bring back those that it finds.
    for library in ROOT.glob(LIBRARIES):
        shutil.rmtree(library)
    said = turns.part(name, [rt, 'ci', *([ALL_ANEW] if is_anew and knows(rt, ALL_ANEW) else [])])
    counts, odd = counted(*said)
    has_passed = said.status == 0 and not odd and counts.passed > 0 and counts.failed == counts.skipped == 0
    # A file that was changed meanwhile may not be the one that was proved.
    if has_passed and sum_of_libraries(prover) == before:
        NOTE.write_text(before, encoding='ascii')


def when_left(prover: str) -> float:
    """When `rt ci` left libraries of these sources for the gate: those that aren't newer are of the sources as they are. 0 for never."""
    try:
        return NOTE.stat().st_mtime if NOTE.read_text(encoding='ascii') == sum_of_libraries(prover) else 0
    except (OSError, UnicodeError):
        return 0


def sum_of_libraries(prover: str) -> str:
    """The bases of libraries: the prover, and the sources of all crates."""
    return f'{prover} {sum_of_sources(listed())}'
