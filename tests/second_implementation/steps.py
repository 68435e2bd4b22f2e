"""Named steps: what each strikes, by what is left after the steps before it (docs/JSON.md, hint; docs/RULES.md, section 9)."""

from __future__ import annotations

from functools import lru_cache
from typing import Dict, FrozenSet, NamedTuple, Optional, Sequence, Tuple

from tests.second_implementation.puzzles import Numbers, Puzzle, cells_of
from tests.second_implementation.towers import TowersPuzzle, counts_in_fillings, edge_line, in_fillings
from tests.second_implementation.unequal import Sign, UnequalPuzzle

#: The numbers left in each square, in reading order.
Left = Sequence[FrozenSet[int]]

NONE: FrozenSet[int] = frozenset()


class Reason(NamedTuple):
    """Why values are struck: a kind, and where it looks."""

    kind: str
    #: The edge place of a clue.
    place: int = -1
    #: The greater and the lesser square of a sign.
    sign: Sign = (-1, -1)
    line: int = -1
    cells: Tuple[int, ...] = ()
    numbers: FrozenSet[int] = NONE


class Step(NamedTuple):
    """A reason, and what is struck by it, by the square."""

    reason: Reason
    strikes: Dict[int, FrozenSet[int]]


@lru_cache(maxsize=None)
def each(size: int) -> FrozenSet[int]:
    return frozenset(range(1, size + 1))


@lru_cache(maxsize=None)
def peers(size: int, cell: int) -> Sequence[int]:
    """The other squares of its row and its column."""
    y, x = divmod(cell, size)
    return [other for other in range(size * size) if other != cell and (other // size == y or other % size == x)]


def in_view(size: int, numbers: Numbers) -> Left:
    """A filled square has its number, an empty one what doesn't stand in its row or column."""
    return [
        frozenset([number]) if number else each(size) - {numbers[peer] for peer in peers(size, cell)}
        for cell, number in enumerate(numbers)
    ]


def view_by_marks(size: int, numbers: Numbers, marks: Sequence[Sequence[int]]) -> Left:
    """The same, but of an empty square with pencil marks those that are marked."""
    view = in_view(size, numbers)
    return [left & frozenset(marked) if marked and not number else left for left, marked, number in zip(view, marks, numbers)]


@lru_cache(maxsize=None)
def seen_squares(size: int, place: int) -> Sequence[int]:
    """The squares of the line that a clue sees, the nearest first."""
    return edge_line(size, range(size * size), place)


def struck(puzzle: Puzzle, left: Left, reason: Reason) -> Dict[int, FrozenSet[int]]:
    """All that a reason strikes, left or not, by the square."""
    size, kind = puzzle.size, reason.kind
    if kind == 'sign':
        return struck_by_sign(puzzle, left, reason.sign)
    if kind in ('bound', 'stand', 'clue'):
        return struck_by_clue(puzzle, left, reason)
    if kind == 'set':
        return struck_by_set(size, left, reason)
    cell, = reason.cells
    if kind == 'given':
        return {cell: each(size) - {puzzle.givens[cell]}} if puzzle.givens[cell] else {}
    if kind == 'peer':
        return dict.fromkeys(peers(size, cell), left[cell]) if len(left[cell]) == 1 else {}
    number, = reason.numbers
    return {cell: each(size) - {number}} if is_left_alone(size, left, cell, number, reason.line) else {}


def struck_by_clue(puzzle: Puzzle, left: Left, reason: Reason) -> Dict[int, FrozenSet[int]]:
    if not isinstance(puzzle, TowersPuzzle) or not puzzle.clues[reason.place]:
        return {}
    squares = seen_squares(puzzle.size, reason.place)
    may = tuple(looked_at(reason.kind, puzzle.size, left[square]) for square in squares)
    return {square: each(puzzle.size) - numbers for square, numbers in zip(squares, in_fillings(puzzle.clues[reason.place], may))}


def looked_at(kind: str, size: int, left: FrozenSet[int]) -> FrozenSet[int]:
    """The numbers of a square with which a clue is looked at: nothing but the clue, those that stand, or all that are left."""
    if kind == 'clue' or (kind == 'stand' and len(left) <= 1):
        return left
    return each(size)


def shown_with(size: int, left: Left, reason: Reason, cell: int, number: int) -> FrozenSet[int]:
    """The counts of towers that a clue's line would show with a number in one of its squares, by what the clue is looked at with."""
    looks = {square: looked_at(reason.kind, size, left[square]) for square in seen_squares(size, reason.place)}
    return counts_in_fillings(tuple(may & {number} if square == cell else may for square, may in looks.items()))


def struck_by_sign(puzzle: Puzzle, left: Left, sign: Sign) -> Dict[int, FrozenSet[int]]:
    """Where an end has nothing left, no number goes with it."""
    if not isinstance(puzzle, UnequalPuzzle) or sign not in puzzle.signs:
        return {}
    greater, less = sign
    return {
        less: frozenset(range(max(left[greater], default=1), puzzle.size + 1)),
        greater: frozenset(range(1, min(left[less], default=puzzle.size) + 1)),
    }


def struck_by_set(size: int, left: Left, reason: Reason) -> Dict[int, FrozenSet[int]]:
    cells, numbers, squares = set(reason.cells), reason.numbers, cells_of(size, reason.line)
    if len(cells) != len(numbers) or not cells.issubset(squares) or not all(left[cell] <= numbers for cell in cells):
        return {}
    return {cell: numbers for cell in squares if cell not in cells}


def is_left_alone(size: int, left: Left, cell: int, number: int, line: int) -> bool:
    """Whether no other square of a line has the number left."""
    squares = cells_of(size, line)
    return cell in squares and not any(number in left[other] for other in squares if other != cell)


def held(puzzle: Puzzle, left: Left, reason: Reason, cell: int) -> FrozenSet[int]:
    """The numbers that a reason strikes of those left in a square."""
    return left[cell] & struck(puzzle, left, reason).get(cell, NONE)


def after(puzzle: Puzzle, left: Left, steps: Sequence[Step]) -> Optional[Left]:
    """The numbers left after the steps, or nothing if one of them strikes more than its reason does."""
    for step in steps:
        may = struck(puzzle, left, step.reason)
        if not all(numbers <= may.get(cell, NONE) for cell, numbers in step.strikes.items()):
            return None
        left = [numbers - step.strikes.get(cell, NONE) for cell, numbers in enumerate(left)]
    return left


def is_shown(puzzle: Puzzle, left: Left, cell: int, number: int, line: Optional[int]) -> bool:
    """Whether nothing else is left of the square; or in the line, if there is one, no other square for the number."""
    return left[cell] <= {number} if line is None else is_left_alone(puzzle.size, left, cell, number, line)
