"""Makers for Unequal."""

from __future__ import annotations

from random import Random
from typing import Iterable, List, Sequence, Set

from families.squares import a_few, cyclic_square, random_square, some_of
from tests.second_implementation.puzzles import Numbers
from tests.second_implementation.unequal import STEPS, Sign, UnequalPuzzle, all_neighbours, neighbour


def signs_of(size: int, heights: Sequence[float]) -> List[Sign]:
    """Each sign that agrees with the heights of the cells; none between two of the same height."""
    pairs = all_neighbours(size)
    return [(a, b) if heights[a] > heights[b] else (b, a) for a, b in pairs if heights[a] != heights[b]]


def kept(random: Random, signs: Iterable[Sign], share: float) -> List[Sign]:
    """Each sign with this probability."""
    return [sign for sign in signs if random.random() < share]


def turned(random: Random, signs: Sequence[Sign], most: int) -> List[Sign]:
    """The signs, of which one or more, at most so many, point the other way."""
    wrong = random.sample(range(len(signs)), min(len(signs), random.randint(1, most)))
    return [(b, a) if at in wrong else (a, b) for at, (a, b) in enumerate(signs)]


def puzzle(size: int, signs: Iterable[Sign], givens: Sequence[int] = ()) -> UnequalPuzzle:
    return UnequalPuzzle(size, tuple(givens) or (0,) * (size * size), frozenset(signs))


def colours(random: Random, size: int) -> List[int]:
    """The squares of a checkerboard, 0 or 1."""
    first = random.randrange(2)
    return [(x + y + first) % 2 for y in range(size) for x in range(size)]


def random_heights(random: Random, size: int) -> List[float]:
    return [random.random() for _ in range(size * size)]


def few_givens(random: Random, size: int) -> Numbers:
    return a_few(random, random_square(random, size), 4)


def checkerboard(random: Random, size: int) -> UnequalPuzzle:
    """Squares of one colour are greater than their neighbours, so the greatest number has places of one colour only."""
    return puzzle(size, kept(random, signs_of(size, colours(random, size)), random.uniform(0.6, 1)))


def broken_checkerboard(random: Random, size: int) -> UnequalPuzzle:
    """A checkerboard with one square in eight turned, and a few givens."""
    heights = [height if random.random() < 7 / 8 else 1 - height for height in colours(random, size)]
    return puzzle(size, kept(random, signs_of(size, heights), random.uniform(0.8, 1)), few_givens(random, size))


def crowded(random: Random, size: int) -> UnequalPuzzle:
    """A checkerboard over some rows, and nothing elsewhere."""
    rows = random.sample(range(size), random.randint(size // 3, size * 2 // 3))
    signs = [(a, b) for a, b in signs_of(size, colours(random, size)) if a // size in rows and b // size in rows]
    return puzzle(size, kept(random, signs, random.uniform(0.8, 1)))


def stripes(random: Random, size: int) -> UnequalPuzzle:
    """Rows that are mostly greater than those above and below, with some signs within the rows."""
    first, within, across = random.randrange(2), random.uniform(0, 0.3), random.uniform(0.4, 0.8)
    heights = [(cell // size + first) % 2 + random.random() / 2 for cell in range(size * size)]
    return puzzle(size, [(a, b) for a, b in signs_of(size, heights) if random.random() < (across if abs(a - b) == size else within)])


def landscape(random: Random, size: int) -> UnequalPuzzle:
    """Most signs of random heights, which no square need have."""
    return puzzle(size, kept(random, signs_of(size, random_heights(random, size)), random.uniform(0.4, 0.8)))


def waves(random: Random, size: int) -> UnequalPuzzle:
    """The signs of a cyclic square, with some turned."""
    signs = kept(random, signs_of(size, cyclic_square(random, size)), random.uniform(0.4, 0.9))
    return puzzle(size, turned(random, signs, 3))


def chains(random: Random, size: int) -> UnequalPuzzle:
    """Snakes of cells each greater than the one before, nearly as long as there are numbers."""
    free: Set[int] = set(range(size * size))
    signs: List[Sign] = []
    left = random.uniform(0.4, 0.7) * size * size
    while len(free) > left:
        cell = random.choice(sorted(free))
        free.remove(cell)
        for _ in range(random.randint(2, size - 2)):
            ways = sorted(free.intersection(neighbour(size, cell, letter) for letter in STEPS))
            if not ways:
                break
            smaller, cell = cell, random.choice(ways)
            free.remove(cell)
            signs.append((cell, smaller))
    return puzzle(size, signs)


def peaks(random: Random, size: int) -> UnequalPuzzle:
    """Squares a knight's move apart are greater than all about them, and some other signs."""
    first = random.randrange(5)
    tops = [(x + 2 * y + first) % 5 == 0 for y in range(size) for x in range(size)]
    heights = [top + random.random() / 2 for top in tops]
    share = random.uniform(0, 0.4)
    return puzzle(size, [sign for sign in signs_of(size, heights) if tops[sign[0]] or random.random() < share])


def turned_signs(random: Random, size: int) -> UnequalPuzzle:
    """Most signs of a random square, with some turned, and a few givens of the square."""
    square = random_square(random, size)
    signs = turned(random, kept(random, signs_of(size, square), random.uniform(0.4, 0.8)), 3)
    return puzzle(size, signs, a_few(random, square, 4))


def sparse_signs(random: Random, size: int) -> UnequalPuzzle:
    """Some signs of a random square, and no given: mostly several solutions."""
    return puzzle(size, kept(random, signs_of(size, random_square(random, size)), random.uniform(0.25, 0.6)))


def holes(random: Random, size: int) -> UnequalPuzzle:
    """A random square with more than a third of its numbers given, two of them exchanged at times, and a few signs."""
    square = random_square(random, size)
    signs = kept(random, signs_of(size, square), random.uniform(0, 0.2))
    return puzzle(size, turned(random, signs, 1) if random.random() < 0.5 else signs, some_of(random, square, random.uniform(0.2, 0.45)))


MAKERS = [checkerboard, broken_checkerboard, crowded, stripes, landscape, waves, chains, peaks, turned_signs, sparse_signs, holes]
