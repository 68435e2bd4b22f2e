"""The line `fair`: it begins the game that `new` begins with its ID, whose grade it has, and hints lead to its end."""

import pytest

from tests.harness import Room, in_the_gate
from tests.objects.reading import told
from tests.second_implementation.fair_lines import fair_id
from tests.second_implementation.grades import HARD, LETTERS

#: The letters, the least grade first, and the sizes; hard games begin at size 4.
OFFERED = [
    (game, size, letter) for game, letters in LETTERS.items() for size in range(3, 10) for letter, grade in letters.items() if grade < HARD or size > 3
]

#: Seeds at both ends, and one between.
SEEDS = [0, 20261126, 2 ** 64 - 1]

#: A game that goes on: moves, back and forth, what is told of it, and another game.
PLAYED = ['board', 'grade', 'hint', 'completable', 'status', 'id', 'move M', 'move R1,1,1', 'undo', 'undo', 'undo', 'redo', 'solve', 'undo', 'restart', 'save', 'list 2']


@pytest.mark.parametrize(('game', 'size', 'letter'), OFFERED)
def test_offered(objects: str, room: Room, game: str, size: int, letter: str) -> None:
    """Each has games: of the grade, and with one solution."""
    for seed in SEEDS:
        begun, grade, count = told(objects, room, game, [f'fair {size} {letter} {seed}', 'grade', 'completable'])
        assert begun['reply'] == ['ok']
        assert begun['session']['id'].startswith(f'{size}d{letter}:')
        assert (grade['grade'], count['completable']) == (letter, 'one')


@pytest.mark.parametrize(('game', 'size', 'letter'), [row for row in OFFERED if row[1] <= 5])
def test_as_new(objects: str, room: Room, game: str, size: int, letter: str) -> None:
    """All that is told after it is what is told after `new` with the ID, as the second implementation makes it."""
    line, id = f'fair {size} {letter} 7', fair_id(game, size, letter, 7)
    begun = told(objects, room, game, [line, *PLAYED, line, 'board'])
    named = told(objects, room, game, [f'new {id}', *PLAYED, f'new {id}', 'board'])
    assert begun == named
    assert begun[0]['session'] == {'game': game.title(), 'id': id, 'position': 1, 'states': 1, 'status': 'playing'}


@pytest.mark.parametrize(('game', 'size', 'letter'), in_the_gate((row for row in OFFERED if row[1] in (3, 4, 6)), lambda row: row[1] == 6))
def test_hints_lead_on(objects: str, room: Room, game: str, size: int, letter: str) -> None:
    """Hints lead to the end, by steps of the grade or of one below, and one of them is of the grade; with a wrong number they tell that."""
    grades = list(LETTERS[game])
    lines, cells, met = [f'fair {size} {letter} 1'], size * size, []
    while True:
        answer = told(objects, room, game, [*lines, 'board', 'hint'])
        board, hint = answer[-2]['board'], answer[-1]['hint']
        if 0 not in board['numbers']:
            break
        assert hint['kind'] == 'follows', lines
        assert grades.index(hint['grade']) <= grades.index(letter)
        met.append(hint['grade'])
        cell = hint['cell']
        wrong = hint['number'] % size + 1
        if sum(number == 0 for number in board['numbers']) > 1 and len(lines) in (1, cells // 2):
            mistaken = told(objects, room, game, [*lines, f'move R{cell % size},{cell // size},{wrong}', 'hint'])
            assert mistaken[-1]['hint']['kind'] == 'contradiction'
        lines.append(f"move R{cell % size},{cell // size},{hint['number']}")
    assert answer[-1]['session']['status'] == 'solved'
    assert letter in met
