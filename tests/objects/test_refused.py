"""Lines of puzzles-json's own that are none, or are refused by name, in order (docs/JSON.md): the session stays, and where there is none, there is none."""

from typing import Optional

import pytest

from tests.harness import Room
from tests.objects.reading import Object, told
from tests.second_implementation.grades import LETTERS

#: Lines that begin as its own do, and are no commands.
OTHER = [
    'fair', 'fair ', 'fair 4', 'fair 4 e', 'fair 4 e ', 'fair 4 e 7 ', 'fair 4 e 7 8', 'fair  4 e 7', 'fair 4  e 7', 'fair 4 e  7', ' fair 4 e 7', 'Fair 4 e 7',
    'fair\t4 e 7', 'fair,4 e 7', 'fair4 e 7', 'fairly 4 e 7', 'board ', 'board x', 'BOARD', 'hint ', 'hint 1', 'grade ', 'grade 1', 'completable x',
    'blank', 'blank ', 'blank  4', 'blank 4 ', 'blank 4 5', 'Blank 4', 'blank\t4', 'item', 'item ', 'item 0', 'item 0,0', 'item 0,0,', 'item 0,0,x', 'item 0,0,-1',
    'item 0,0,256', 'item 00,0,1', 'item 0,0,01', 'item -2,0,1', 'item 128,0,1', 'item +1,0,1', 'item 0,0,1 ', 'item  0,0,1', 'item 0, 0,1', 'item 0,0,1,0',
    'item 0,0,1,0,', 'item 0,0,1,0,1,1', 'item 0,0,1,0,-1', 'item 0 0 1', 'solutions ', 'solutions 2', 'Solutions', 'spare ', 'spare  e', 'spare e ', 'spare e k',
    'Spare', 'thin ', 'thin  e', 'thin e ', 'thin e k', 'Thin', 'thinner', 'thin  givens', 'thin e  givens', 'thin e givens ', 'thin e Clues', 'thin e clue',
    'thin e givens clues', 'thin e clues,givens', 'fill ', 'fill e', 'Fill', 'fills', 'filled',
]

#: Lines by which games would begin, with their refusals: those of both games, and of one of them.
BEGINNING = [
    *((game, f'fair {words}', 'BadSize') for game in LETTERS for words in ('2 e 7', '10 e 7', '0 e 7', '03 e 7', '+4 e 7', 'e 4 7', '4.0 e 7', '33 x x', 'x x x')),
    *((game, f'fair {words}', 'BadLetter') for game in LETTERS for words in ('4 x 7', '4 E 7', '4 ee 7', '9 u 7', '9 r 7', '4 4 x', '4 - -1', '9 \xe9 7')),
    *((game, f'fair {words}', 'BadSeed') for game in LETTERS for words in ('4 e x', '3 e -1', '4 e 07', '4 e 00', f'9 e {2 ** 64}', '4 e 7.0', '4 e 7\t')),
    *((game, f'blank {word}', 'BadSize') for game in LETTERS for word in ('2', '10', '0', '33', '03', 'x', '-3', '3.0', '\xe9')),
    ('towers', 'fair 3 h 7', 'BadLetter'), ('towers', 'fair 9 t 7', 'BadLetter'), ('towers', 'fair 9 k 7', 'BadLetter'),
    ('unequal', 'fair 3 k 7', 'BadLetter'), ('unequal', 'fair 9 h 7', 'BadLetter'),
]

#: Lines that need a game, with their refusals in one of size 4.
IN_A_GAME = [
    *((game, line, 'OffGrid') for game in LETTERS for line in (
        'item 4,4,1', 'item -1,-1,1', 'item -1,4,1', 'item 5,0,1', 'item 0,5,9', 'item 127,127,255', 'item 0,0,2,0,1', 'item 0,0,1,1,1', 'item 0,0,0,0,1',
        'item 3,0,0,1,1', 'item 3,0,4,0,1', 'item 0,-1,0,0,1', 'item 0,0,0,-1,2', 'item 9,9,9,8,9',
    )),
    *((game, line, 'OffRange') for game in LETTERS for line in ('item 0,0,5', 'item 3,3,255')),
    *((game, f'{word} {letter}', 'BadLetter') for game in LETTERS for word in ('spare', 'thin') for letter in ('x', 'E', 'ee', '4', '-', 'u', '\xe9')),
    *((game, f'thin {letter} {first}', 'BadLetter') for game in LETTERS for letter in ('x', 'clues', 'givens') for first in ('givens', 'clues', 'signs')),
    ('towers', 'item 0,-1,5', 'OffRange'), ('towers', 'item 4,0,9', 'OffRange'), ('towers', 'item 0,0,1,0,1', 'OffGrid'),
    ('towers', 'spare t', 'BadLetter'), ('towers', 'thin k', 'BadLetter'),
    ('unequal', 'item 0,-1,1', 'OffGrid'), ('unequal', 'item 4,0,0', 'OffGrid'), ('unequal', 'item 0,0,1,0,2', 'OffRange'), ('unequal', 'item 1,1,1,0,255', 'OffRange'),
    ('unequal', 'spare h', 'BadLetter'), ('unequal', 'thin h', 'BadLetter'),
]

#: The game, the line, its refusal without a game, and in one.
ROWS = [
    *((game, line, 'BadCommand', 'BadCommand') for game in LETTERS for line in OTHER),
    *((game, line, name, name) for game, line, name in BEGINNING),
    *((game, line, 'NoGame', name) for game, line, name in IN_A_GAME),
]

#: Lines that have an answer in a game, and only there.
NEED_A_GAME = ['board', 'completable', 'hint', 'hint marks', 'grade', 'solutions', 'spare', 'spare e', 'thin', 'thin e', 'thin e clues', 'fill', 'item 0,0,1']


def refusal(name: str, session: Optional[Object]) -> Object:
    return {'refused': name, 'reply': [f'refused: {name}'], 'session': session}


@pytest.mark.parametrize(('game', 'line', 'first', 'name'), ROWS)
def test_refused(objects: str, room: Room, game: str, line: str, first: str, name: str) -> None:
    """The game that goes on stays, with what can be redone."""
    none, *_, before, found, after, _ = told(objects, room, game, [line, 'new 4!1', 'move R0,0,1', 'move P1,1,2', 'undo', 'status', line, 'status', 'redo'])
    assert none == refusal(first, None)
    assert found == refusal(name, before['session'])
    assert (after['session'], after['session']['states']) == (before['session'], 3)


@pytest.mark.parametrize('game', LETTERS)
def test_no_game(objects: str, room: Room, game: str) -> None:
    assert told(objects, room, game, NEED_A_GAME) == [refusal('NoGame', None)] * len(NEED_A_GAME)
