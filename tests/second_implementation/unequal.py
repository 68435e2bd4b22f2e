"""Unequal: signs between neighbours, and descriptions (docs/RULES.md, section 3; docs/FORMATS.md, section 4)."""

import re
from dataclasses import dataclass
from typing import Dict, FrozenSet, List, Set, Tuple

from tests.second_implementation.puzzles import Numbers, Puzzle
from tests.second_implementation.words import Refused, digit

#: A greater cell and a smaller one.
Sign = Tuple[int, int]

#: Where the smaller neighbour lies, as steps in x and y, by letter, in the order in which letters are written.
STEPS: Dict[str, Tuple[int, int]] = {'U': (0, -1), 'R': (1, 0), 'D': (0, 1), 'L': (-1, 0)}


@dataclass(frozen=True)
class UnequalPuzzle(Puzzle):
    signs: FrozenSet[Sign]

    def keeps_clues(self, numbers: Numbers) -> bool:
        return all(numbers[greater] > numbers[smaller] for greater, smaller in self.signs)

    def description(self) -> str:
        return ''.join(f'{given}{self.letters(cell)},' for cell, given in enumerate(self.givens))

    def letters(self, cell: int) -> str:
        """The letters of the signs at their greater cell."""
        return ''.join(letter for letter in STEPS if (cell, neighbour(self.size, cell, letter)) in self.signs)


def neighbour(size: int, cell: int, letter: str) -> int:
    """The cell beside another one, or -1 where that is out of the grid."""
    x, y = cell % size + STEPS[letter][0], cell // size + STEPS[letter][1]
    return y * size + x if 0 <= x < size and 0 <= y < size else -1


def read_unequal(size: int, text: bytes) -> UnequalPuzzle:
    """The puzzle of a description at this size."""
    pieces = text.split(b',')
    if pieces[-1] == b'':
        pieces.pop()
    found = [re.fullmatch(b'(.)([URDL]*)', piece) for piece in pieces]
    read = [(digit(match[1], 0, size), match[2].decode()) for match in found if match]
    signs: Set[Sign] = {(cell, neighbour(size, cell, letter)) for cell, (_, letters) in enumerate(read) for letter in letters}
    if not len(read) == len(pieces) == size * size or any(smaller == -1 or (smaller, greater) in signs for greater, smaller in signs):
        raise Refused('BadDesc')
    return UnequalPuzzle(size, tuple(given for given, _ in read), frozenset(signs))


def all_neighbours(size: int) -> List[Tuple[int, int]]:
    """Each two neighbouring cells: those side by side, row by row, and then those one above the other."""
    beside = [(r * size + c, r * size + c + 1) for r in range(size) for c in range(size - 1)]
    above = [(r * size + c, (r + 1) * size + c) for r in range(size - 1) for c in range(size)]
    return beside + above
