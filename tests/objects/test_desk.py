"""A setter's lines: blank puzzles, items that are changed one by one, solutions, spare items, and puzzles without them, as the second
implementation has them by the rules alone.

It is a sample of half-set puzzles. DESK_PUZZLES in the environment says how many there are to be, as DESK_PUZZLES=5000.
"""

import os
from dataclasses import replace
from random import Random
from typing import Any, Dict, Iterator, List, Optional, Tuple

import pytest

from tests.harness import Room, in_the_gate
from tests.objects.boards import puzzle_of
from tests.objects.reading import Object, told
from tests.objects.solutions import expect_solutions
from tests.second_implementation.desk import begun, filled, puzzle_after, spare
from tests.second_implementation.grades import LETTERS
from tests.second_implementation.puzzles import Puzzle
from tests.second_implementation.seeded import full_puzzle, square
from tests.second_implementation.solving import solution_count
from tests.second_implementation.towers import TowersPuzzle, edge_xy
from tests.second_implementation.unequal import UnequalPuzzle

PUZZLES = int(os.environ.get('DESK_PUZZLES', '60'))

#: How many puzzles are set in one run of the program.
EACH = 5

#: Of this size on grades are asked of fewer puzzles, and of a larger one on most squares are given, so that the second implementation has the
#: solutions soon.
LARGE, DENSE = 6, 8


def id_of(puzzle: Puzzle) -> str:
    return f'{puzzle.size}:{puzzle.description()}'


def session(game: str, puzzle: Puzzle) -> Dict[str, Any]:
    """That of a game that has just begun."""
    return {'game': game.title(), 'id': id_of(puzzle), 'position': 1, 'states': 1, 'status': 'playing'}


@pytest.mark.parametrize('game', LETTERS)
def test_letter_goes(objects: str, room: Room, game: str) -> None:
    """A puzzle that is changed has another grade or none, so its ID has no letter; a new game begins."""
    begun, *_, same, thin = told(objects, room, game, ['fair 4 e 7', 'move R0,0,1', 'item 0,0,0', 'thin e'])
    assert begun['session']['id'].startswith('4de:')
    for found in (same, thin):
        assert found['session']['id'].startswith('4:')
        assert (found['session']['position'], found['session']['states']) == (1, 1)


def item_lines(puzzle: Puzzle) -> List[str]:
    """Lines that say each item of a puzzle."""
    size = puzzle.size
    lines = [f'item {cell % size},{cell // size},{n}' for cell, n in enumerate(puzzle.givens) if n]
    if isinstance(puzzle, TowersPuzzle):
        for place, clue in enumerate(puzzle.clues):
            x, y = edge_xy(size, place)
            lines += [f'item {x},{y},{clue}'] if clue else []
    if isinstance(puzzle, UnequalPuzzle):
        lines += [f'item {a % size},{a // size},{b % size},{b // size},1' for a, b in sorted(puzzle.signs)]
    return lines


def mistaken(random: Random, line: str, size: int) -> str:
    """The line with another number, or the sign turned or taken away."""
    numbers = line[5:].split(',')
    if len(numbers) == 3:
        return f'item {numbers[0]},{numbers[1]},{random.randint(0, size)}'
    return f'item {",".join(numbers[:4])},0' if random.random() < .3 else f'item {",".join([*numbers[2:4], *numbers[:2]])},1'


def half_set(random: Random, game: str, size: int) -> List[str]:
    """Lines that set a part of what a square says, some of it wrong, one after another."""
    whole, _ = full_puzzle(game, size, square(size, random.randrange(10 ** 6)))
    lines = item_lines(whole)
    random.shuffle(lines)
    part = random.choice([.2, .4, .6, .8]) if size < DENSE else random.choice([.7, .8])
    chosen = [line for line in lines if random.random() < part or size >= DENSE and random.random() < .5]
    wrong = random.choice([0, 0, 0, 1, 2])
    return chosen + [mistaken(random, line, size) for line in chosen[:wrong]]


def runs() -> Iterator[Tuple[str, int, int]]:
    classes = [(game, size) for size in range(3, 10) for game in LETTERS]
    for at in range(-(-PUZZLES // EACH)):
        yield (*classes[3 * at % len(classes)], at)


@pytest.mark.parametrize(('game', 'size', 'seed'), in_the_gate(runs(), lambda row: row[1] > 6))
def test_half_set(objects: str, room: Room, game: str, size: int, seed: int) -> None:
    random = Random(seed)
    for _ in range(EACH):
        letter = random.choice(list(LETTERS[game]))
        first = random.choice(['', ' givens', ' clues', ' signs'])
        graded = [f'spare {letter}', f'thin {letter}{first}', f'spare {letter}'] if size < LARGE or size < DENSE and random.random() < .2 else []
        cell = random.randrange(size * size)
        moved = f'move R{cell % size},{cell // size},{random.randint(1, size)}'
        lines = [f'blank {size}', *half_set(random, game, size), 'board', 'solutions', moved, 'board', 'solutions', 'spare', *graded]
        lines += ['spare', 'thin', 'board', 'spare', 'solutions'] if size < DENSE else []
        expect_desk(game, lines, told(objects, room, game, lines))


def expect_desk(game: str, lines: List[str], found: List[Object]) -> None:
    """Each line as the second implementation has it."""
    puzzle: Optional[Puzzle] = None
    numbers: Tuple[int, ...] = ()
    for line, answer in zip(lines, found):
        asked = begun(line.encode())
        if asked:
            puzzle = puzzle_after(game, puzzle, asked)
            assert answer == {'refused': None, 'reply': ['ok'], 'session': session(game, puzzle)}, line
        assert puzzle and puzzle_of(game.title(), answer['session']['id']) == puzzle
        if line == 'board':
            numbers = tuple(answer['board']['numbers'])
        if line.startswith('spare'):
            assert answer['spare'] == spare(game, puzzle, line[6:].encode()), id_of(puzzle)
        if line == 'solutions':
            expect_solutions(puzzle, numbers, answer['solutions'])
            assert len(answer['solutions']) == solution_count(replace(puzzle, givens=numbers)), id_of(puzzle)


@pytest.mark.parametrize(('game', 'size', 'seed'), runs())
def test_filled_in(objects: str, room: Room, game: str, size: int, seed: int) -> None:
    """A puzzle with one solution gets each clue or sign of it, whatever the board shows; any other is refused for what it has."""
    random = Random(seed)
    for _ in range(EACH if size < DENSE else 1):
        lines = [f'blank {size}', *half_set(random, game, size), 'move R0,0,1', 'status', 'fill', 'solutions']
        found = told(objects, room, game, lines)
        before = found[-3]['session']
        puzzle = puzzle_of(game.title(), before['id'])
        name = {0: 'NoSolution', 1: '', 2: 'SeveralSolutions'}[solution_count(puzzle)]
        if name:
            assert found[-2] == {'refused': name, 'reply': [f'refused: {name}'], 'session': before}
        else:
            assert found[-2] == {'refused': None, 'reply': ['ok'], 'session': session(game, filled(game, puzzle))}
            assert len(found[-1]['solutions']) == 1
