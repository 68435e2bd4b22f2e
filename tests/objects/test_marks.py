"""Hints from pencil marks: their steps begin from these, a wrong number is told before a wrong mark, and marks that keep the solution lead to the end."""

from random import Random
from typing import List, Sequence

import pytest

from tests.harness import Room, in_the_gate
from tests.objects.boards import puzzle_of
from tests.objects.forms import expect_known
from tests.objects.marked import expect_marks_hint, kept_lines
from tests.objects.reading import Object, told
from tests.second_implementation.grades import HARD, LETTERS

#: Game, size and letter of each class of fair games.
CLASSES = [
    (game, size, letter) for game, letters in LETTERS.items() for size in range(3, 10) for letter, grade in letters.items() if grade < HARD or size > 3
]

#: How many boards of a class are asked.
EACH = 12

#: The one solution is 123 312 231.
ID = '3:0,0L,0L,0U,0,0,0U,0,0,'

#: Lines, and then the kind of the hint, from what it begins, its square, and the square whose mark is missing.
TOLD = [
    # Marks that keep the solution.
    ([], ('follows', 'marks', 0, None)),
    (['move P1,1,3'], ('follows', 'marks', 4, None)),
    # A mark is missing, in the first of two such squares.
    (['move P1,1,2'], ('contradiction', 'marks', None, 4)),
    (['move P1,1,2', 'move P2,2,1'], ('contradiction', 'marks', None, 4)),
    # A wrong number comes first, with a wrong mark or without one.
    (['move R0,0,3'], ('contradiction', 'numbers', None, None)),
    (['move P1,1,2', 'move R0,0,3'], ('contradiction', 'numbers', None, None)),
    # Marks of a square with a number aren't looked at, nor can there be any.
    (['move P0,0,3', 'move R0,0,1'], ('follows', 'marks', None, None)),
]


def expect_hint_of(game: str, board: Object, hint: Object) -> None:
    puzzle = puzzle_of(game.title(), board['session']['id'])
    expect_known(hint['hint'])
    expect_marks_hint(puzzle, tuple(board['board']['numbers']), board['board']['marks'], hint['hint'])


@pytest.mark.parametrize(('lines', 'wanted'), TOLD)
def test_told(objects: str, room: Room, lines: List[str], wanted: Sequence[object]) -> None:
    *_, board, hint = told(objects, room, 'unequal', [f'new {ID}', *lines, 'board', 'hint marks'])
    found = hint['hint']
    expect_hint_of('unequal', board, hint)
    assert (found['kind'], found['from'], found['unmarked']) == (wanted[0], wanted[1], wanted[3])
    assert wanted[2] in (None, found['cell'])


def test_several_solutions(objects: str, room: Room) -> None:
    """No square is named if several solutions keep the numbers. Marks that leave a square nothing need no step."""
    lines = ['new 3:0,0,0,0,0,0,0,0,0,', 'move P0,0,1', 'move P1,0,1', 'board', 'hint marks']
    *_, board, hint = told(objects, room, 'unequal', lines)
    expect_hint_of('unequal', board, hint)
    assert (hint['hint']['kind'], hint['hint']['from'], hint['hint']['unmarked']) == ('contradiction', 'marks', None)
    *_, board, hint = told(objects, room, 'unequal', [*lines[:2], 'move R2,0,1', 'board', 'hint marks'])
    expect_hint_of('unequal', board, hint)
    assert (hint['hint']['kind'], hint['hint']['unmarked'], hint['hint']['steps']) == ('contradiction', None, [])


@pytest.mark.parametrize(('game', 'size', 'letter'), in_the_gate(CLASSES, lambda row: row[1] > 6))
def test_boards(objects: str, room: Room, game: str, size: int, letter: str) -> None:
    """Parts of the solution with marks, of which some boards have a wrong one, or a wrong number."""
    random = Random(size)
    begun = f'fair {size} {letter} 11'
    solution = [int(digit) for digit in told(objects, room, game, [begun, 'solve'])[1]['reply'][0][1:]]
    lines = [begun]
    for at in range(EACH):
        lines += ['restart', *moves_to(random, size, solution, at % 3 == 1, at % 6 == 2), 'board', 'hint marks']
    answers = told(objects, room, game, lines)
    for board, hint in zip(answers, answers[1:]):
        if 'hint' in hint:
            expect_hint_of(game, board, hint)
            unmarked = hint['hint']['unmarked']
            assert unmarked is None or solution[unmarked] not in board['board']['marks'][unmarked]


def moves_to(random: Random, size: int, solution: Sequence[int], is_mark_wrong: bool, is_number_wrong: bool) -> List[str]:
    """Moves that put some numbers of the solution into their squares, and marks into half of the others; a mark may lack, or a number be wrong."""
    cells = random.sample(range(size * size), random.randrange(size, size * size))
    filled = cells[:random.randrange(len(cells))]
    marked = [cell for cell in cells[len(filled):] if random.random() < 0.5]
    moves: List[str] = []
    for at, cell in enumerate(filled):
        number = random.randint(1, size) if is_number_wrong and not at else solution[cell]
        moves.append(f'move R{cell % size},{cell // size},{number}')
    for at, cell in enumerate(marked):
        kept = [] if is_mark_wrong and not at else [solution[cell]]
        others = [number for number in range(1, size + 1) if number != solution[cell] and random.random() < 0.6]
        moves += [f'move P{cell % size},{cell // size},{number}' for number in [*kept, *others]]
    return moves


@pytest.mark.parametrize(('game', 'size', 'letter'), in_the_gate((row for row in CLASSES if row[1] in (3, 4, 6)), lambda row: row[1] == 6))
def test_kept(objects: str, room: Room, game: str, size: int, letter: str) -> None:
    """What each hint struck is kept as marks: hints lead to the end by no higher grade, none of them strikes a number twice, and no mark is missing."""
    grades = list(LETTERS[game])
    lines = [f'fair {size} {letter} 1']
    while True:
        *_, board, hint = told(objects, room, game, [*lines, 'board', 'hint marks'])
        if 0 not in board['board']['numbers']:
            break
        found = hint['hint']
        assert (found['kind'], found['from']) == ('follows', 'marks'), lines
        assert grades.index(found['grade']) <= grades.index(letter)
        expect_hint_of(game, board, hint)
        lines += [*kept_lines(size, board['board'], found), f"move R{found['cell'] % size},{found['cell'] // size},{found['number']}"]
    assert board['session']['status'] == 'solved'
