"""The common part of both games: squares, and the rule of a Latin square (docs/RULES.md, sections 1 and 4)."""

from dataclasses import dataclass
from functools import lru_cache
from typing import List, Sequence, Tuple

#: The numbers of a grid in reading order, 0 for none.
Numbers = Tuple[int, ...]


@dataclass(frozen=True)
class Puzzle:
    """A puzzle of either game: a size, and at each square a given number or 0."""

    size: int
    givens: Numbers

    def is_clued(self, x: int, y: int) -> bool:
        """Whether a clue stands at a place that may have a done mark."""
        return False

    def keeps_clues(self, numbers: Numbers) -> bool:
        """Whether a Latin square has what the clues or signs ask."""
        raise NotImplementedError

    def description(self) -> str:
        """The description in canonical form."""
        raise NotImplementedError

    def solved_by(self, numbers: Numbers) -> bool:
        """Whether the numbers are a solution."""
        if len(numbers) != self.size * self.size or not is_latin(self.size, numbers):
            return False
        if any(given not in (0, found) for given, found in zip(self.givens, numbers)):
            return False
        return self.keeps_clues(numbers)


def row(size: int, numbers: Sequence[int], y: int) -> List[int]:
    return [numbers[y * size + x] for x in range(size)]


def column(size: int, numbers: Sequence[int], x: int) -> List[int]:
    return [numbers[y * size + x] for y in range(size)]


@lru_cache(maxsize=None)
def cells_of(size: int, line: int) -> Sequence[int]:
    """The cells of a line: the rows come first, then the columns."""
    return [line * size + at if line < size else at * size + line - size for at in range(size)]


def is_latin(size: int, numbers: Sequence[int]) -> bool:
    """Each row and each column has each of the numbers from 1 to the size."""
    each = list(range(1, size + 1))
    return all(sorted(row(size, numbers, at)) == each and sorted(column(size, numbers, at)) == each for at in range(size))
