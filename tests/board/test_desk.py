"""The setter's desk on the board: puzzles are typed in, and what is said of them; how it begins and ends."""

from typing import Dict, List

import pytest

from playing.games import stored
from playing.naming import Place
from playing.program import Program
from tests.board.playing import BoardFront, to_and_fro
from tests.harness import ID, Room

#: A sign by where the lesser square is, seen from the greater one. It stands right of a square, or below it: where it is read.
SIGNS: Dict[Place, str] = {(1, 0): '>', (-1, 0): '<', (0, 1): 'v', (0, -1): '^'}

#: So many keys somebody types in a minute.
MINUTE = 150


def way(size: int, at: Place, to: Place) -> List[str]:
    """The arrows from one place to another: from the edge into the grid, along it, and out again; on one edge along that."""
    inside = [(min(max(x, 0), size - 1), min(max(y, 0), size - 1)) for x, y in (at, to)]
    if at != inside[0] and any(one == other and one in (-1, size) for one, other in zip(at, to)):
        inside = []
    keys: List[str] = []
    for x, y in [*inside, to]:
        across, down = x - at[0], y - at[1]
        keys += ['<right>' if across > 0 else '<left>'] * abs(across) + ['<down>' if down > 0 else '<up>'] * abs(down)
        at = x, y
    return keys


def typed(objects: str, game: str, id: str) -> List[str]:
    """The keys for all items, from the first square on: around the edge, and then row by row, to and fro."""
    with Program(objects, game, ['--id', id]) as program:
        board = program.first.board
    assert board
    size = board.size
    edge = [(x, -1) for x in range(size)] + [(size, y) for y in range(size)] + [(x, size) for x in range(size)[::-1]] + [(-1, y) for y in range(size)[::-1]]
    items = [(place, str(board.clues[place].number)) for place in edge if place in board.clues]
    for x, y in to_and_fro(size):
        items += [((x, y), str(board.numbers[x, y]))] if (x, y) in board.givens else []
        signs = [sign for sign in board.signs if (x, y) == min(sign.greater, sign.less)]
        items += [((x, y), SIGNS[sign.less[0] - sign.greater[0], sign.less[1] - sign.greater[1]]) for sign in signs]
    return [key for at, (to, press) in zip([(0, 0), *(place for place, _ in items)], items) for key in [*way(size, at, to), press]]


@pytest.mark.parametrize('game', ['towers', 'unequal'])
def test_typed(front: BoardFront, room: Room, game: str) -> None:
    """A printed puzzle of five by five, in a minute. It has one solution once all is there, and is played then, as a game that is kept."""
    id = stored(game, 5, 'x')[0]
    plain = id[0] + id[id.index(':') :]
    with front.window([game, '3!7' if game == 'unequal' else ID], leave='qq') as window:
        window.look('1', ['move 1/1'])
        keys = ['E', '5', '<enter>', *typed(front.program, game, id)]
        for key in keys:
            window.press(key)
        window.look('', [f'{game.capitalize()} 5x5', 'Exactly one solution. It is'])
        assert len(keys) < MINUTE
        window.look('p', ['0 of ', 'move 0/0'], ['desk'])
        window.look('o', [f'{game.capitalize()} 3x3'])
    kept = room.read(f'state/puzzles/{game}.sav') or b''
    assert f':{plain.partition(":")[2]}\n'.encode() in kept
    assert (room.read(f'state/puzzles/{game}-draft.ids') or b'').endswith(f'\n{plain}\n'.encode())
