"""Hints of boards of all sizes and classes, right ones and wrong ones: each step holds where it stands by the second implementation.

It is a sample of boards. HINT_BOARDS in the environment says how many there are to be, as HINT_BOARDS=20000.
"""

import os
from random import Random
from typing import Iterator, List, Sequence, Tuple

import pytest

from tests.harness import Room
from tests.objects.boards import puzzle_of
from tests.objects.forms import expect_known
from tests.objects.reading import Object, told
from tests.objects.solutions import expect_hint
from tests.objects.steps import expect_steps
from tests.second_implementation.grades import HARD, LETTERS

#: Game, size and letter of each class of fair games.
CLASSES = [
    (game, size, letter) for game, letters in LETTERS.items() for size in range(3, 10) for letter, grade in letters.items() if grade < HARD or size > 3
]

BOARDS = int(os.environ.get('HINT_BOARDS', '400'))

#: How many boards are asked in one run of the program, and how many of a board's numbers are wrong.
EACH, WRONG = 20, [0, 0, 0, 1, 2, 3]


#: Numbers that a clue strikes with what stands, and only when an earlier one of them is struck: they are steps of their own.
ONE_BY_ONE = [
    ('towers', ['new 4:////2///////////2,c2b4i']),
    ('towers', ['new 6dh://4////3/////2/2//2///4////3//,a1i1b3u', 'move R2,4,5']),
    ('towers', ['new 7dh:2/2//2/2/5///2/3/3///3//4/////2///5/2//4/,b1r4_1z', 'move R5,5,5']),
]


def expect_hint_of(game: str, board: Object, hint: Object) -> None:
    puzzle = puzzle_of(game.title(), board['session']['id'])
    numbers = tuple(board['board']['numbers'])
    expect_known(hint['hint'])
    expect_hint(puzzle, numbers, hint['hint'])
    expect_steps(puzzle, numbers, hint['hint'])


@pytest.mark.parametrize(('game', 'lines'), ONE_BY_ONE)
def test_one_by_one(objects: str, room: Room, game: str, lines: List[str]) -> None:
    *_, board, hint = told(objects, room, game, [*lines, 'board', 'hint'])
    expect_hint_of(game, board, hint)


def runs() -> Iterator[Tuple[str, int, str, int]]:
    """A class and a seed for each run: all classes come, and a few runs have both games and sizes from the least to the greatest."""
    for at in range(-(-BOARDS // EACH)):
        yield (*CLASSES[10 * at % len(CLASSES)], at)


@pytest.mark.parametrize(('game', 'size', 'letter', 'seed'), runs())
def test_boards(objects: str, room: Room, game: str, size: int, letter: str, seed: int) -> None:
    """Parts of the solution, with some wrong numbers; and the boards between, as they come in play."""
    random = Random(seed)
    begun = f'fair {size} {letter} {seed}'
    solution = [int(digit) for digit in told(objects, room, game, [begun, 'solve'])[1]['reply'][0][1:]]
    lines = [begun]
    for _ in range(EACH):
        lines += ['restart', *moves_to(random, size, solution), 'board', 'hint']
    answers = told(objects, room, game, lines)
    for board, hint in zip(answers, answers[1:]):
        if 'hint' in hint:
            expect_hint_of(game, board, hint)


def moves_to(random: Random, size: int, solution: Sequence[int]) -> List[str]:
    """Moves that put some numbers of the solution into their squares, and a few wrong ones."""
    # Half of the boards are at the beginning of a game, where it takes more steps.
    cells = random.sample(range(size * size), random.randrange(random.choice([size * size, size + 2])))
    wrong = random.choice(WRONG)
    return [
        f'move R{cell % size},{cell // size},{solution[cell] if at >= wrong else random.randint(1, size)}' for at, cell in enumerate(cells)
    ]
