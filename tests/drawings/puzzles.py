"""Puzzles by chance, and what of them stands in lines of the program. They need no solution, since a drawing is read whatever it says."""

from __future__ import annotations

import random
from typing import Dict, FrozenSet, List, NamedTuple, Tuple

Place = Tuple[int, int]


class Puzzle(NamedTuple):
    game: str
    size: int
    clues: Dict[Place, int]
    givens: Dict[Place, int]
    #: Two squares, of which the first is the greater.
    signs: FrozenSet[Tuple[Place, Place]]

    @property
    def items(self) -> List[str]:
        """As lines of the program, sorted."""
        numbers = [f'item {x},{y},{number}' for (x, y), number in [*self.clues.items(), *self.givens.items()]]
        return sorted([*numbers, *(f'item {a},{b},{c},{d},1' for (a, b), (c, d) in self.signs)])

    @property
    def id(self) -> str:
        """Of Towers without givens, and of Unequal without signs."""
        size = self.size
        if self.game == 'towers':
            edge = [*((x, -1) for x in range(size)), *((x, size) for x in range(size)), *((-1, y) for y in range(size)), *((size, y) for y in range(size))]
            return f'{size}:' + '/'.join(str(self.clues.get(place, '')) for place in edge)
        return f'{size}:' + ''.join(f'{self.givens.get((x, y), 0)},' for y in range(size) for x in range(size))


#: How many of all clues or signs, and of all givens, a puzzle has.
KINDS = {
    'towers': [(1.0, 0.15), (1.0, 0.0), (0.6, 0.15), (0.4, 0.05), (0.5, 0.0), (0.8, 0.0)],
    'unequal': [(0.4, 0.2), (0.25, 0.1), (0.15, 0.2), (0.35, 0.05), (0.5, 0.0), (0.3, 0.3)],
}


def puzzle(game: str, size: int, kind: int, chance: random.Random) -> Puzzle:
    others, givens = KINDS[game][kind % 6]
    squares = [(x, y) for y in range(size) for x in range(size)]
    edge = [place for at in range(size) for place in ((at, -1), (at, size), (-1, at), (size, at))] if game == 'towers' else []
    pairs = [((x, y), other) for x, y in squares for other in ((x + 1, y), (x, y + 1)) if other in squares] if game == 'unequal' else []
    # One at least, since a puzzle without clues and signs is of no game.
    signs = [pair for at, pair in enumerate(pairs) if at == 0 or chance.random() < others]
    return Puzzle(
        game,
        size,
        {place: chance.randint(1, size) for at, place in enumerate(edge) if at == 0 or chance.random() < others},
        {place: chance.randint(1, size) for place in squares if chance.random() < givens},
        frozenset(pair if chance.random() < 0.5 else (pair[1], pair[0]) for pair in signs),
    )


def puzzles(seed: int, count: int) -> List[Puzzle]:
    """So many of each game and size."""
    chance = random.Random(seed)
    return [puzzle(game, size, kind, chance) for game in KINDS for size in range(3, 10) for kind in range(count)]
