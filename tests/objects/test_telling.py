"""Each sentence of a hint is told anew, to the letter, of its object alone (docs/JSON.md, hint), as a program tells it in another language.

Here a game of each class is played, by each build; tests/second_implementation plays 594 more.
"""

from random import Random
from typing import Iterable, Iterator, Tuple

import pytest

from playing.program import Program
from tests.objects.forms import sentences
from tests.objects.marked import kept_lines
from tests.objects.reading import Object
from tests.second_implementation.grades import HARD, LETTERS
from tests.second_implementation.telling import tell

#: Game, size and letter of each class of fair games.
CLASSES = [
    (game, size, letter)
    for game, letters in LETTERS.items() for size in range(3, 10) for letter, grade in letters.items() if grade < HARD or size > 3
]

#: How often a move is tried that may be wrong.
TRIED = 0.4


@pytest.mark.parametrize(('game', 'size', 'letter'), CLASSES)
def test_games(objects: str, game: str, size: int, letter: str) -> None:
    expect_games(objects, game, size, letter, [0])


def expect_games(objects: str, game: str, size: int, letter: str, seeds: Iterable[int]) -> None:
    """Games to their end, by hints from the board and from marks."""
    for seed in seeds:
        with Program(objects, game) as program:
            program.object(f'fair {size} {letter} {seed}')
            for board, hint in hints(program, Random(seed), size):
                expect_told(board, hint)


def expect_told(board: Object, hint: Object) -> None:
    without = {**hint, 'steps': [{**step, 'text': None} for step in hint['steps']], 'text': None}
    alone, whole = tell(without, board['numbers'])
    assert [step['text'] for step, text in zip(hint['steps'], alone) if text != step['text'] and not is_open(step)] == []
    assert whole == hint['text'] or any(map(is_open, hint['steps']))


def is_open(step: Object) -> bool:
    """Whether the object lacks which case goes with which struck number: several have counts on both sides of the clue, and they may have cases of their
    own."""
    settled = {(split['number'], split['place'] == 'either') for split in step['split'] if split['seen'] or split['place'] == 'either'}
    both = [counts for strike in step['strikes'] for counts in strike['shows'] or [] if counts and min(counts) < step['clue'] < max(counts)]
    return len(both) > 1 and (len(settled) > 1 or any(is_either for _, is_either in settled))


def test_manual(objects: str) -> None:
    """Each form that the manual has."""
    for sentence in sentences():
        with Program(objects, sentence.game) as program:
            for line in sentence.lines:
                program.object(line)
            for board, hint in asked(program):
                expect_told(board, hint)


def asked(program: Program) -> Iterator[Tuple[Object, Object]]:
    """The board, with its hint from numbers, and with that from marks."""
    board = program.object('board')['board']
    for line in ('hint', 'hint marks'):
        yield board, program.object(line)['hint']


def hints(program: Program, random: Random, size: int) -> Iterator[Tuple[Object, Object]]:
    """Boards with their hints. What these rule out is kept as marks, and now and then a number is tried, or a single mark."""
    while True:
        (board, by_numbers), (_, hint) = asked(program)
        if 0 not in board['numbers']:
            return
        yield board, by_numbers
        yield board, hint
        if random.random() < TRIED:
            cell = random.choice([cell for cell, number in enumerate(board['numbers']) if not number])
            number = random.choice(hint['view'][cell])
            program.object(f"move {random.choice('PR')}{cell % size},{cell // size},{number}")
            yield from asked(program)
            program.object('undo')
        for line in [*kept_lines(size, board, hint), f"move R{hint['cell'] % size},{hint['cell'] // size},{hint['number']}"]:
            program.object(line)
