"""Makers for Towers."""

from __future__ import annotations

from random import Random
from typing import List, Sequence

from families.squares import a_few, cyclic_square, random_square, some_of
from tests.second_implementation.towers import TowersPuzzle, edge_line, seen


def clues_of(size: int, square: Sequence[int]) -> List[int]:
    """The clue of each edge place."""
    return [seen(edge_line(size, square, place)) for place in range(4 * size)]


def puzzle(size: int, clues: Sequence[int], givens: Sequence[int] = ()) -> TowersPuzzle:
    return TowersPuzzle(size, tuple(givens) or (0,) * (size * size), tuple(clues))


def nudged(random: Random, size: int, clues: Sequence[int], most: int) -> List[int]:
    """The clues, of which at most so many are one more or less."""
    found = list(clues)
    for place in random.sample(range(len(found)), random.randint(1, most)):
        if found[place]:
            found[place] = min(max(found[place] + random.choice([-1, 1]), 1), size)
    return found


def random_clues(random: Random, size: int) -> TowersPuzzle:
    """Most clues of a random square, and no given: mostly several solutions."""
    return puzzle(size, some_of(random, clues_of(size, random_square(random, size)), random.uniform(0.5, 1)))


def nudged_clues(random: Random, size: int) -> TowersPuzzle:
    """Most clues of a random square, with some one off."""
    clues = some_of(random, clues_of(size, random_square(random, size)), random.uniform(0.6, 1))
    return puzzle(size, nudged(random, size, clues, 3))


def swapped_clues(random: Random, size: int) -> TowersPuzzle:
    """Most clues of a random square, with some pairs exchanged."""
    clues = clues_of(size, random_square(random, size))
    for _ in range(random.randint(1, 3)):
        a, b = random.sample(range(4 * size), 2)
        clues[a], clues[b] = clues[b], clues[a]
    return puzzle(size, some_of(random, clues, random.uniform(0.6, 1)))


def loose_clues(random: Random, size: int) -> TowersPuzzle:
    """Clues of 2 to 4 at random, with a few givens."""
    clues = some_of(random, [random.choice([2, 2, 3, 3, 4]) for _ in range(4 * size)], random.uniform(0.3, 0.7))
    return puzzle(size, clues, a_few(random, random_square(random, size), size))


def tight_clues(random: Random, size: int) -> TowersPuzzle:
    """Lines whose two clues leave the greatest number one or two places; the other clues of a random square."""
    clues = clues_of(size, random_square(random, size))
    share = random.uniform(0.1, 0.4)
    for place in [place for place in range(4 * size) if place // size % 2 == 0 and random.random() < share]:
        front = random.randint(2, size - 2)
        clues[place], clues[place + size] = front, size + random.choice([0, 1]) - front
    return puzzle(size, some_of(random, clues, random.uniform(0.3, 0.9)))


def waving_clues(random: Random, size: int) -> TowersPuzzle:
    """The clues of a cyclic square, with some one off."""
    clues = some_of(random, clues_of(size, cyclic_square(random, size)), random.uniform(0.6, 1))
    return puzzle(size, nudged(random, size, clues, 3))


def two_squares(random: Random, size: int) -> TowersPuzzle:
    """The clues of columns from one random square, and those of rows from another."""
    columns, rows = (clues_of(size, random_square(random, size)) for _ in range(2))
    return puzzle(size, some_of(random, columns[:2 * size] + rows[2 * size:], random.uniform(0.4, 0.9)))


def one_side(random: Random, size: int) -> TowersPuzzle:
    """All clues of one side or two, and some givens, of which two may be exchanged."""
    square = list(random_square(random, size))
    sides = random.sample(range(4), random.choice([1, 2]))
    clues = [clue if place // size in sides else 0 for place, clue in enumerate(clues_of(size, square))]
    a, b = random.sample(range(size * size), 2)
    if random.random() < 0.5:
        square[a], square[b] = square[b], square[a]
    return puzzle(size, clues, some_of(random, square, random.uniform(0.05, 0.3)))


def alike_clues(random: Random, size: int) -> TowersPuzzle:
    """The same clue, or one more, at most places."""
    clue = random.randint(2, size // 2)
    clues = [clue + (random.random() < 0.2) for _ in range(4 * size)]
    return puzzle(size, some_of(random, clues, random.uniform(0.3, 0.8)))


def diagonals(random: Random, size: int) -> TowersPuzzle:
    """The diagonals of a random square, and some clues, one off at times."""
    square = random_square(random, size)
    both = random.random() < 0.5
    givens = [number if x == y or both and x + y == size - 1 else 0 for y, x, number in cells(size, square)]
    clues = some_of(random, clues_of(size, square), random.uniform(0.3, 0.8))
    return puzzle(size, nudged(random, size, clues, 1), some_of(random, givens, random.uniform(0.5, 1)))


def cells(size: int, square: Sequence[int]) -> List[List[int]]:
    """Row, column and number of each cell."""
    return [[*divmod(cell, size), number] for cell, number in enumerate(square)]


def holes(random: Random, size: int) -> TowersPuzzle:
    """A random square with a third of its numbers given, and a few clues, one off at times."""
    square = random_square(random, size)
    clues = some_of(random, clues_of(size, square), random.uniform(0, 0.3))
    return puzzle(size, nudged(random, size, clues, 2), some_of(random, square, random.uniform(0.2, 0.45)))


MAKERS = [
    random_clues, nudged_clues, swapped_clues, loose_clues, tight_clues, waving_clues, two_squares, one_side, alike_clues, diagonals, holes,
]
