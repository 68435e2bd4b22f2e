"""Keys on the board, and the pictures that have to be seen then, as transcripts in the folder `played`; and whole games."""

import re
from pathlib import Path
from typing import List

import pytest

from tests.board.playing import BoardFront, solution, whole_game
from tests.harness import ID, Room, made, moves_of
from tests.harness.played import Line, transcripts

GIVEN = '3:///////////,1c3c2'

#: Easy puzzles of size 9.
NINE = {game: made(game, 9, 'e')[0] for game in ('towers', 'unequal')}

#: Puzzles that are played to their end by keys alone, with the most keys that this may take.
WHOLE = [
    ('towers', '5!7', 46),
    ('unequal', '5!7', 46),
    ('towers', NINE['towers'], 161),
    ('unequal', NINE['unequal'], 161),
]

@pytest.mark.parametrize('lines', transcripts(Path(__file__).with_name('played')))
def test_played(front: BoardFront, lines: List[Line]) -> None:
    front.play(lines)


def test_kept_choice(front: BoardFront, room: Room) -> None:
    """That marks go is kept, and holds in lines, too; what is saved can be opened anywhere."""
    with front.window(['towers', ID], leave='q') as window:
        window.look('M', ['From now on'])
    with front.window(['--lines'], leave='q<enter>') as window:
        window.look('m<enter>', ['9 squares have other pencil marks'])
        window.look('1 1 1<enter>', ['r1c1 is 1; row 1 lacks 2 and 3; 4 other squares have other pencil marks'])
        window.look('2 1<enter>', ['r2c1 is empty, marked 2 and 3'])
        window.look('undo<enter>', ['towers 2/7>'])
        window.look('tidy<enter>', ['From now on, marks stay'])
        window.look('redo<enter>', ['towers 7/7>'])
    with front.window([], leave='q') as window:
        # States that go together are kept, too.
        window.look('u', ['0 of 9', 'move 1/6', '│ 1   2   3 │ 1   2   3 │'])
        window.look('r', ['1 of 9', 'move 6/6'])
    moves = [b'M', b'P1,0,1', b'P2,0,1', b'P0,1,1', b'P0,2,1', b'R0,0,1']
    assert moves_of(room.read('state/puzzles/towers.sav')) == moves


def test_no_color(front: BoardFront) -> None:
    """With NO_COLOR the terminal is sent no colour."""
    with front.window(['towers', GIVEN], env=front.env(NO_COLOR='1')) as window:
        window.look('<right>1', ['1!'], styles=[('1!', [1, -31, -91, -38])])
        window.look('<right><down>p1', ['PENCIL'])
        assert not re.search(rb'\x1b\[[0-9;]*\b[349][0-9]\b[0-9;]*m', window.came), 'a colour'


def test_question(front: BoardFront) -> None:
    """It stands right below a board that is small in its window."""
    with front.window(['towers', ID], (60, 200)) as window:
        window.look('S', ['y/N'])
        assert window.reads([' Fill in the solution? u takes it back. y/N'], 28)
        window.look('x:', hides=['y/N'])
        assert window.reads([' :'], 28)


@pytest.mark.parametrize(('game', 'id', 'most'), WHOLE)
def test_whole_game(front: BoardFront, game: str, id: str, most: int) -> None:
    """A game from its first to its last number."""
    with front.window([game, id], leave='q') as window:
        window.look('', ['move 0/0'])
        window.look(whole_game(*solution(front.program, game, id)), ['Solved!'])
        assert window.pressed <= most
