"""A player's move as lines of the program: all of them or none, one step for undo, and none where nothing changes."""

import os
from typing import List, Sequence, Tuple

import pytest

from playing.beside import Beside, beside_in, content_of
from playing.moves import Joined, Pair
from tests.board.playing import BoardFront
from tests.harness import ID, Room, save_text

#: Pairs as they were kept, how many states the game has, and those of them that fit it.
KEPT: List[Tuple[Sequence[Pair], int, List[Pair]]] = [
    ([(6, 2), (9, 6)], 9, [(6, 2), (9, 6)]),
    ([(9, 6), (6, 2)], 9, [(6, 2), (9, 6)]),
    ([(6, 2), (9, 6)], 8, [(6, 2)]),
    ([(3, 0), (3, 3), (2, 4), (10**8, 1), (4, 1)], 9, [(4, 1)]),
    ([(6, 2), (7, 5)], 9, [(6, 2)]),
]

@pytest.mark.parametrize(('pairs', 'states', 'wanted'), KEPT)
def test_kept_pairs(pairs: Sequence[Pair], states: int, wanted: List[Pair]) -> None:
    assert Joined(pairs, states).pairs == wanted
    kept = Beside(2, 7, tuple(wanted))
    assert beside_in(content_of(kept, ID), ID) == kept
    assert beside_in(content_of(kept, ID), '4!7') == Beside(), 'of another puzzle'


def test_joined() -> None:
    """A new move forgets what could be redone; from within a move of several states undo takes one state."""
    joined = Joined([(6, 2), (9, 7)], 9)
    assert [joined.states('undo', at) for at in (9, 7, 6, 5, 2)] == [2, 1, 4, 1, 1]
    assert [joined.states('redo', at) for at in (1, 2, 6, 7)] == [1, 4, 1, 2]
    assert joined.states_back(3, 9) == 7
    joined.made(6, 7)
    assert joined.pairs == [(6, 2)]
    joined.made(2, 5)
    assert joined.pairs == [(5, 2)]


def test_all_or_none(front: BoardFront, room: Room) -> None:
    """A number that has no room in the game any more leaves its marks, and what could be redone."""
    moves = [b'M', *[b'P2,2,1'] * 99_997, b'R2,2,2']
    head = save_text(0).replace(b'NSTATES :1:1\nSTATEPOS:1:1\n', b'NSTATES :6:100000\nSTATEPOS:5:99999\n')
    room.put('long.sav', head + b''.join(b'MOVE    :%d:%s\n' % (len(move), move) for move in moves))
    with front.window(['towers', os.path.join(room.path, 'long.sav')], leave='q') as window:
        window.look('M', ['move 99998/99999', 'marks go'])
        window.look('1', ['A game has at most 100,000 states. Undo some moves first.', 'move 99998/99999', '│ 1   2   3 │ 1   2   3 │'])
        window.look('r', ['move 99999/99999', '│     2     │'])
