"""Towers: the towers that are seen, and descriptions (docs/RULES.md, section 2; docs/FORMATS.md, section 3)."""

import re
from dataclasses import dataclass
from functools import lru_cache
from typing import Dict, FrozenSet, List, Sequence, Set, Tuple

from tests.second_implementation.puzzles import Numbers, Puzzle, column, row
from tests.second_implementation.words import Refused, digit


def seen(line: Sequence[int]) -> int:
    """How many towers are seen along a line, from its front."""
    return sum(1 for at, height in enumerate(line) if all(nearer < height for nearer in line[:at]))


def edge_line(size: int, numbers: Sequence[int], place: int) -> List[int]:
    """The line that the clue of an edge place sees. Places are numbered in description order."""
    side, at = divmod(place, size)
    line = column(size, numbers, at) if side < 2 else row(size, numbers, at)
    return line[::-1] if side in (1, 3) else line


def edge_xy(size: int, place: int) -> Tuple[int, int]:
    """The coordinates of an edge place."""
    side, at = divmod(place, size)
    return [(at, -1), (at, size), (-1, at), (size, at)][side]


def edge_place(size: int, x: int, y: int) -> int:
    """The number of the edge place with these coordinates, or -1."""
    return next((place for place in range(4 * size) if edge_xy(size, place) == (x, y)), -1)


@lru_cache(maxsize=1 << 16)
def in_fillings(clue: int, may: Tuple[FrozenSet[int], ...]) -> Tuple[FrozenSet[int], ...]:
    """The numbers that each square has in some filling of a line that shows a clue, by what may stand in the squares, the nearest first. A filling
    has no number twice."""
    found: List[Set[int]] = [set() for _ in may]
    known: Dict[Tuple[int, int, int], bool] = {}

    def fills(at: int, used: int, shown: int) -> bool:
        """Whether the squares from a place on can be filled, where the bits of the used numbers are set; and what they have then is found."""
        if not shown <= clue <= shown + len(may) - at:
            return False
        if at == len(may):
            return True
        state = (at, used, shown)
        if state not in known:
            ways = [height for height in may[at] if not used >> height & 1 and fills(at + 1, used | 1 << height, shown + (1 << height > used))]
            found[at].update(ways)
            known[state] = bool(ways)
        return known[state]

    fills(0, 0, 0)
    return tuple(map(frozenset, found))


@lru_cache(maxsize=1 << 16)
def counts_in_fillings(may: Tuple[FrozenSet[int], ...]) -> FrozenSet[int]:
    """The counts of towers that are seen in the fillings of a line, by what may stand in its squares, the nearest first."""
    # So far, by the used numbers as bits, which tell the tallest too.
    seen_so_far: Dict[int, FrozenSet[int]] = {0: frozenset([0])}
    for numbers in may:
        further: Dict[int, FrozenSet[int]] = {}
        for used, counts in seen_so_far.items():
            for height in numbers:
                if not used >> height & 1:
                    grown = used | 1 << height
                    further[grown] = further.get(grown, frozenset()).union(count + (1 << height > used) for count in counts)
        seen_so_far = further
    return frozenset().union(*seen_so_far.values())


@dataclass(frozen=True)
class TowersPuzzle(Puzzle):
    #: The clue at each edge place, 0 for none.
    clues: Tuple[int, ...]

    def is_clued(self, x: int, y: int) -> bool:
        place = edge_place(self.size, x, y)
        return place >= 0 and self.clues[place] != 0

    def keeps_clues(self, numbers: Numbers) -> bool:
        return all(clue in (0, seen(edge_line(self.size, numbers, place))) for place, clue in enumerate(self.clues))

    def description(self) -> str:
        fields = '/'.join(str(clue) if clue else '' for clue in self.clues)
        return f'{fields},{written_squares(self.givens)}' if any(self.givens) else fields


def written_squares(givens: Numbers) -> str:
    """The square part: runs of empty squares as letters, and `_` between two givens side by side."""
    pieces = re.findall('0+|[1-9]', ''.join(map(str, givens)))
    text = ''.join(run_of_empty(len(piece)) if piece.startswith('0') else piece for piece in pieces)
    return re.sub('(?<=[1-9])(?=[1-9])', '_', text)


def run_of_empty(count: int) -> str:
    """`z` while more than 26 are left, and then one letter for the rest."""
    return 'z' * ((count - 1) // 26) + chr(ord('a') + (count - 1) % 26)


def read_towers(size: int, text: bytes) -> TowersPuzzle:
    """The puzzle of a description at this size."""
    clue_part, comma, square_part = text.partition(b',')
    clues = [digit(field, 1, size) if field else 0 for field in clue_part.split(b'/')]
    givens = read_squares(size, square_part) if comma else [0] * (size * size)
    if (len(clues), len(givens)) != (4 * size, size * size):
        raise Refused('BadDesc')
    return TowersPuzzle(size, tuple(givens), tuple(clues))


def read_squares(size: int, text: bytes) -> List[int]:
    """The givens of the square part."""
    givens: List[int] = []
    for piece in re.findall(rb'[0-9]+|(?s:.)', text):
        if re.fullmatch(rb'[a-z]', piece):
            givens += [0] * (piece[0] - ord('a') + 1)
        elif piece != b'_':
            givens.append(digit(piece, 1, size))
    return givens
