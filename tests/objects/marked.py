"""The hint of the line `hint marks`: as any hint, but its steps begin from the pencil marks, unless a number is wrong."""

from typing import List, Optional, Sequence

from tests.objects.reading import Object
from tests.objects.solutions import MOST_TRIED, expect_hint, keeps, solutions_of
from tests.objects.steps import expect_steps_from
from tests.second_implementation.grades import leads_on, letters_of
from tests.second_implementation.puzzles import Numbers, Puzzle
from tests.second_implementation.steps import Left, in_view, view_by_marks

#: The pencil marks of each square.
Marks = Sequence[Sequence[int]]


def expect_marks_hint(puzzle: Puzzle, numbers: Numbers, marks: Marks, hint: Object) -> None:
    bare = in_view(puzzle.size, numbers)
    if is_refuted(puzzle, numbers, bare):
        # A wrong number is told before a wrong mark.
        assert (hint['from'], hint['unmarked']) == ('numbers', None)
        expect_hint(puzzle, numbers, hint)
        expect_steps_from(puzzle, numbers, bare, hint)
        return
    view = view_by_marks(puzzle.size, numbers, marks)
    assert hint['from'] == 'marks'
    assert hint['unmarked'] is None or hint['kind'] == 'contradiction'
    expect_steps_from(puzzle, numbers, view, hint)
    if puzzle.size <= MOST_TRIED:
        expect_true(puzzle, numbers, view, hint)


def is_refuted(puzzle: Puzzle, numbers: Numbers, view: Left) -> bool:
    """Whether steps of some grade leave a square nothing."""
    return any(leads_on(puzzle, numbers, tuple(view), grade) is None for grade in letters_of(puzzle).values())


def expect_true(puzzle: Puzzle, numbers: Numbers, view: Left, hint: Object) -> None:
    """It is so in each solution that keeps the numbers and is within the marks. A mark that is told as missing is the first that the one solution lacks."""
    kept = [square for square in solutions_of(puzzle) if keeps(numbers, square)]
    within = [square for square in kept if first_lacking(view, square) is None]
    if hint['kind'] == 'follows':
        assert all(square[hint['cell']] == hint['number'] for square in within), numbers
    if hint['kind'] == 'contradiction':
        assert not within, numbers
        assert hint['unmarked'] == (first_lacking(view, kept[0]) if len(kept) == 1 else None)


def first_lacking(view: Left, solution: Numbers) -> Optional[int]:
    """The first square whose number isn't in view."""
    lacking: List[int] = [cell for cell, number in enumerate(solution) if number not in view[cell]]
    return lacking[0] if lacking else None


def kept_lines(size: int, board: Object, hint: Object) -> List[str]:
    """Moves that leave the marks of what is left after the hint's steps: those of the squares where they strike."""
    left = {strike['cell']: set(hint['view'][strike['cell']]) for step in hint['steps'] for strike in step['strikes']}
    for step in hint['steps']:
        for strike in step['strikes']:
            left[strike['cell']] -= set(strike['numbers'])
    return [
        f'move P{cell % size},{cell // size},{number}'
        for cell, numbers in left.items() if numbers and not board['numbers'][cell]
        for number in sorted(numbers ^ set(board['marks'][cell]))
    ]
