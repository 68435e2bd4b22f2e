"""The numbers that complete a board: by trying all Latin squares at sizes 3 and 4, and by the second implementation's count above."""

from dataclasses import replace
from functools import lru_cache
from itertools import chain, permutations
from typing import List, Sequence, Tuple

from tests.objects.reading import Object
from tests.objects.schema import COUNTS
from tests.second_implementation.puzzles import Numbers, Puzzle
from tests.second_implementation.solving import solution_count

#: The greatest size whose squares are all tried, and the greatest of which anything is counted.
MOST_TRIED, MOST_COUNTED = 4, 6


@lru_cache(maxsize=None)
def latin_squares(size: int) -> List[Numbers]:
    """All of a size, row by row."""
    rows = list(permutations(range(1, size + 1)))
    squares: List[Tuple[Tuple[int, ...], ...]] = [()]
    for _ in range(size):
        squares = [
            (*square, row) for square in squares for row in rows if all(len(set(column)) == len(column) for column in zip(*square, row))
        ]
    return [tuple(chain.from_iterable(square)) for square in squares]


@lru_cache(maxsize=4096)
def solutions_of(puzzle: Puzzle) -> List[Numbers]:
    return [square for square in latin_squares(puzzle.size) if puzzle.solved_by(square)]


def keeps(numbers: Numbers, square: Numbers) -> bool:
    return all(number in (0, found) for number, found in zip(numbers, square))


def completions(puzzle: Puzzle, numbers: Numbers) -> int:
    """How many solutions keep these numbers; 2 stands for more, too."""
    if puzzle.size > MOST_TRIED:
        return solution_count(replace(puzzle, givens=numbers))
    return min(2, sum(keeps(numbers, square) for square in solutions_of(puzzle)))


def expect_completable(puzzle: Puzzle, numbers: Numbers, told: object) -> None:
    assert puzzle.size > MOST_COUNTED or told == COUNTS[completions(puzzle, numbers)], numbers


def expect_hint(puzzle: Puzzle, numbers: Numbers, hint: Object) -> None:
    """A hint is true. That one is found is promised nowhere."""
    cell, number = hint['cell'], hint['number']
    if hint['kind'] == 'follows':
        assert cell < len(numbers) and not numbers[cell] and number, 'it is for an empty square'
        others = (other for other in range(1, puzzle.size + 1) if other != number and puzzle.size <= MOST_COUNTED)
        assert not any(completions(puzzle, numbers[:cell] + (other,) + numbers[cell + 1:]) for other in others), numbers
    else:
        told = [cell, number].count(None)
        assert told == (2 if hint['kind'] == 'nothing' else 1), 'of a contradiction a square or a number without one is told'
    if hint['kind'] == 'contradiction' and puzzle.size <= MOST_COUNTED:
        assert not completions(puzzle, numbers), numbers


def expect_solutions(puzzle: Puzzle, numbers: Numbers, grids: Sequence[Sequence[int]]) -> None:
    """They solve the puzzle and keep the numbers, they differ, and there are as many as there have to be."""
    assert len(grids) == len({tuple(grid) for grid in grids})
    assert all(puzzle.solved_by(tuple(grid)) and all(n in (0, kept) for n, kept in zip(numbers, grid)) for grid in grids), grids
    assert puzzle.size > MOST_COUNTED or len(grids) == completions(puzzle, numbers)
