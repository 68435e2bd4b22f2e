"""How many solutions a puzzle has, up to two, and which is the only one: by what the hardest grade leaves, and by trying what that leaves."""

from dataclasses import replace

from tests.second_implementation.grades import HARD, left_by
from tests.second_implementation.puzzles import Numbers, Puzzle


def solution_count(puzzle: Puzzle) -> int:
    """0, 1, or 2 for two and more."""
    return count(puzzle, puzzle.givens)


def count(puzzle: Puzzle, numbers: Numbers) -> int:
    """The same of the solutions that keep some numbers."""
    left = left_by(puzzle, numbers, HARD)
    if not all(left):
        return 0
    settled = tuple(min(values) if len(values) == 1 else 0 for values in left)
    if all(settled):
        return int(puzzle.solved_by(settled))
    cell = min((cell for cell, number in enumerate(settled) if not number), key=lambda cell: len(left[cell]))
    found = 0
    for number in sorted(left[cell]):
        found += count(puzzle, settled[:cell] + (number,) + settled[cell + 1:])
        if found > 1:
            return 2
    return found


def only_solution(puzzle: Puzzle) -> Numbers:
    """That of a puzzle with one: in each square the number with which there still is one."""
    numbers = puzzle.givens
    for cell in (cell for cell, number in enumerate(puzzle.givens) if not number):
        tried = (numbers[:cell] + (number,) + numbers[cell + 1:] for number in range(1, puzzle.size + 1))
        numbers = next(more for more in tried if solution_count(replace(puzzle, givens=more)))
    return numbers
