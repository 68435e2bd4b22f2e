"""All families by name, and the lines of their puzzles."""

from __future__ import annotations

from random import Random
from typing import Callable, Dict, Iterator, Sequence, Tuple

from families import clues, signs
from tests.second_implementation.puzzles import Puzzle

Maker = Callable[[Random, int], Puzzle]

#: Most puzzles are as large as can be.
SIZES = [7, 8, 9, 9]

#: The makers by game and family, which has the name of its maker.
MAKERS: Dict[Tuple[str, str], Maker] = {
    **{('unequal', maker.__name__.replace('_', '-')): maker for maker in signs.MAKERS},
    **{('towers', maker.__name__.replace('_', '-')): maker for maker in clues.MAKERS},
}


def lines(seed: int, count: int, families: Sequence[Tuple[str, str]]) -> Iterator[str]:
    """So many puzzles, a line each, by the families in turn. A line depends on the seed, the family and the place alone."""
    for number in range(count):
        game, family = families[number % len(families)]
        random = Random(f'{seed} {game} {family} {number}')
        yield line(game, family, MAKERS[game, family](random, random.choice(SIZES)))


def line(game: str, family: str, puzzle: Puzzle) -> str:
    """A puzzle as the programs that measure read it."""
    return f'{game} {family} {puzzle.size}:{puzzle.description()}'
