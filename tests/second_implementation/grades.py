"""Grades: what their reasons leave of a puzzle, when none strikes anything more (docs/RULES.md, section 9)."""

from __future__ import annotations

from functools import lru_cache
from itertools import combinations
from typing import Dict, FrozenSet, Iterable, Iterator, List, Optional, Tuple

from tests.second_implementation.puzzles import Numbers, Puzzle, cells_of
from tests.second_implementation.steps import NONE, Left, Reason, each, in_view, struck
from tests.second_implementation.towers import TowersPuzzle
from tests.second_implementation.unequal import UnequalPuzzle

LATIN, EASY, HARD = range(3)

#: The grades of each game, the least first, by their letters.
LETTERS: Dict[str, Dict[str, int]] = {'towers': {'e': EASY, 'h': HARD}, 'unequal': {'t': LATIN, 'e': EASY, 'k': HARD}}

#: The kinds of reasons, each with the least grade that has it.
KINDS = {
    'given': LATIN, 'peer': LATIN, 'place': LATIN,
    'bound': EASY, 'stand': EASY, 'sign': EASY,
    'clue': HARD, 'set': HARD,
}


def letters_of(puzzle: Puzzle) -> Dict[str, int]:
    return LETTERS['towers' if isinstance(puzzle, TowersPuzzle) else 'unequal']


def latin_reasons(puzzle: Puzzle, left: Left) -> Iterator[Reason]:
    """Those that strike. The numbers in view have the givens."""
    size = puzzle.size
    for line in range(2 * size):
        squares = cells_of(size, line)
        once, again, single = NONE, NONE, NONE
        for numbers in [left[cell] for cell in squares]:
            again |= once & numbers
            once |= numbers
            single |= numbers if len(numbers) == 1 else NONE
        if not single.isdisjoint(again):
            yield from (Reason('peer', cells=(cell,)) for cell in squares if len(left[cell]) == 1 and left[cell] <= again)
        for number in each(size) - again - single:
            # A number without a square has any of them left alone.
            alone = next((cell for cell in squares if number in left[cell]), squares[0])
            yield Reason('place', line=line, cells=(alone,), numbers=frozenset([number]))


def clue_reasons(puzzle: Puzzle, kind: str) -> Iterator[Reason]:
    if isinstance(puzzle, TowersPuzzle):
        yield from (Reason(kind, place=place) for place, clue in enumerate(puzzle.clues) if clue)


def easy_reasons(puzzle: Puzzle, left: Left) -> Iterator[Reason]:
    """All but `bound`, which strikes nothing that `stand` doesn't."""
    if isinstance(puzzle, UnequalPuzzle):
        yield from (Reason('sign', sign=sign) for sign in puzzle.signs)
    yield from clue_reasons(puzzle, 'stand')


def hard_reasons(puzzle: Puzzle, left: Left) -> Iterator[Reason]:
    """The sets are those of squares of which several numbers are left: the number of a single one has been struck elsewhere."""
    yield from clue_reasons(puzzle, 'clue')
    for line in range(2 * puzzle.size):
        several = [cell for cell in cells_of(puzzle.size, line) if len(left[cell]) > 1]
        for count in range(2, len(several)):
            for cells in combinations([cell for cell in several if len(left[cell]) <= count], count):
                numbers = NONE.union(*[left[cell] for cell in cells])
                if len(numbers) == count:
                    yield Reason('set', line=line, cells=cells, numbers=numbers)


REASONS = [latin_reasons, easy_reasons, hard_reasons]


def strike(puzzle: Puzzle, left: List[FrozenSet[int]], reasons: Iterable[Reason]) -> bool:
    """Takes away what the reasons strike, and tells whether that was any."""
    any_struck = False
    for reason in reasons:
        for cell, numbers in struck(puzzle, left, reason).items():
            if not numbers.isdisjoint(left[cell]):
                left[cell] -= numbers
                any_struck = True
    return any_struck


def left_by(puzzle: Puzzle, numbers: Numbers, grade: int) -> Left:
    """The numbers that a grade leaves of a board. Where it leaves a square nothing, that is all that counts."""
    return left_from(puzzle, in_view(puzzle.size, numbers), grade)


def left_from(puzzle: Puzzle, view: Left, grade: int) -> Left:
    """The same, of some numbers in view."""
    left = list(view)
    while all(left) and any(strike(puzzle, left, reasons(puzzle, left)) for reasons in REASONS[:grade + 1]):
        pass
    return left


def follows(puzzle: Puzzle, grade: int) -> bool:
    """Whether the numbers of a solution are all that a grade leaves."""
    left = left_by(puzzle, puzzle.givens, grade)
    return all(len(numbers) == 1 for numbers in left) and puzzle.solved_by(tuple(min(numbers) for numbers in left))


@lru_cache(maxsize=4096)
def grade_of(puzzle: Puzzle) -> Optional[str]:
    """The letter of the least grade by which a puzzle follows."""
    return next((letter for letter, grade in letters_of(puzzle).items() if follows(puzzle, grade)), None)


@lru_cache(maxsize=4096)
def leads_on(puzzle: Puzzle, numbers: Numbers, view: Tuple[FrozenSet[int], ...], grade: int) -> Optional[bool]:
    """Whether a grade leaves one number of an empty square of those in view; nothing where it leaves a square nothing."""
    left = left_from(puzzle, view, grade)
    return any(len(values) == 1 and not number for values, number in zip(left, numbers)) if all(left) else None
