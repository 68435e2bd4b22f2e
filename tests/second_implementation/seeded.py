"""Seeded squares and games (docs/RULES.md, section 8)."""

from dataclasses import replace
from typing import Iterator, List, Tuple

from tests.second_implementation.puzzles import Numbers, Puzzle
from tests.second_implementation.solving import solution_count
from tests.second_implementation.stream import shuffled, words_of
from tests.second_implementation.towers import TowersPuzzle, edge_line, seen
from tests.second_implementation.unequal import UnequalPuzzle, all_neighbours


def square(size: int, seed: int) -> Numbers:
    """The numbers of a seed's square in reading order."""
    return drawn_square(size, words_of(seed))


def drawn_square(size: int, words: Iterator[int]) -> Numbers:
    a, b, s = (shuffled(words, size) for _ in range(3))
    return tuple(s[(a[r] + b[c]) % size] + 1 for r in range(size) for c in range(size))


def full_puzzle(game: str, size: int, numbers: Numbers) -> Tuple[Puzzle, int]:
    """All that a square says, and how many items that is."""
    if game == 'towers':
        clues = tuple(seen(edge_line(size, numbers, place)) for place in range(4 * size))
        return TowersPuzzle(size, numbers, clues), 4 * size + size * size
    pairs = all_neighbours(size)
    signs = frozenset((first, second) if numbers[first] > numbers[second] else (second, first) for first, second in pairs)
    return UnequalPuzzle(size, numbers, signs), len(pairs) + size * size


def without_item(puzzle: Puzzle, item: int) -> Puzzle:
    """The puzzle without a clue, a sign or a given."""
    if item >= first_given(puzzle):
        return replace(puzzle, givens=put(puzzle.givens, item - first_given(puzzle), 0))
    if isinstance(puzzle, TowersPuzzle):
        return replace(puzzle, clues=put(puzzle.clues, item, 0))
    assert isinstance(puzzle, UnequalPuzzle)
    pair = all_neighbours(puzzle.size)[item]
    return replace(puzzle, signs=puzzle.signs - {pair, pair[::-1]})


def first_given(puzzle: Puzzle) -> int:
    """How many items are clues or signs; the givens come after them."""
    return 4 * puzzle.size if isinstance(puzzle, TowersPuzzle) else 2 * puzzle.size * (puzzle.size - 1)


def put(numbers: Tuple[int, ...], place: int, number: int) -> Tuple[int, ...]:
    return numbers[:place] + (number,) + numbers[place + 1:]


def generate(game: str, size: int, seed: int) -> Puzzle:
    """A seed's puzzle: each item is taken away, in the order of the fourth shuffle, where one solution is left."""
    words = words_of(seed)
    puzzle, items = full_puzzle(game, size, drawn_square(size, words))
    order: List[int] = shuffled(words, items)
    for item in order:
        less = without_item(puzzle, item)
        if solution_count(less) == 1:
            puzzle = less
    return puzzle
