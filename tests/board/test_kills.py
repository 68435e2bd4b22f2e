"""The board is killed at random moments of steady play: nothing that was on its screen is gone. `--kills 60` says how often, each time by another seed."""

import random
import re
from typing import NamedTuple, Tuple

import pytest

from tests.board import test_lives as lives
from tests.board.playing import BoardFront
from tests.harness import Room, moves_of

#: Boards without clues and givens, on which every mark can be set.
BOARDS = [f'{size}:{"/" * (4 * size - 1)}' for size in (4, 6, 9)]

#: How the board ends: what ends it, and what can't be heard of.
ENDS = [end[:2] for end in lives.ENDS if end[0] != 'TERM']

#: How many keys are waited for, and how many more are pressed at once; and for how many seconds these are at work when the board is killed.
WAITED, MORE, AT_WORK = (5, 40), (0, 6), 0.08

#: How often it is killed, if `--kills` doesn't say.
KILLS = 9


class Played(NamedTuple):
    """The moves, those that were undone among them, and how many are done."""

    moves: Tuple[bytes, ...] = ()
    done: int = 0

    @property
    def told(self) -> str:
        """As the board tells it."""
        return f'move {self.done}/{len(self.moves)}'


class Player:
    """Sets marks here and there, and goes back and forth."""

    def __init__(self, size: int, chance: random.Random) -> None:
        self._size = size
        self._chance = chance
        self._at = (0, 0)
        self.now = Played()

    def keys(self) -> str:
        """The key that is pressed next."""
        moves, done = self.now
        way = self._chance.random()
        if way < 0.1 and done:
            self.now = Played(moves, done - 1)
            return 'u'
        if way < 0.2 and done < len(moves):
            self.now = Played(moves, done + 1)
            return 'r'
        (x, y), number = self._at, self._chance.randint(1, self._size)
        to = self._chance.randrange(self._size), self._chance.randrange(self._size)
        self._at = to
        self.now = Played((*moves[:done], b'P%d,%d,%d' % (*to, number)), done + 1)
        return ('<right>' if to[0] > x else '<left>') * abs(to[0] - x) + ('<down>' if to[1] > y else '<up>') * abs(to[1] - y) + str(number)


def kept(room: Room) -> Played:
    """The bytes of a save."""
    save = room.read(lives.KEPT) or b''
    position = re.search(rb'^STATEPOS:.:(.*)$', save, re.MULTILINE)
    assert position, save
    return Played(tuple(moves_of(save)), int(position[1]) - 1)


def pytest_generate_tests(metafunc: pytest.Metafunc) -> None:
    if 'seed' in metafunc.fixturenames:
        metafunc.parametrize('seed', range(metafunc.config.getoption('--kills') or KILLS))


def test_killed(front: BoardFront, room: Room, seed: int) -> None:
    chance = random.Random(seed)
    name, end = ENDS[seed % len(ENDS)]
    id = BOARDS[seed // len(ENDS) % len(BOARDS)]
    player = Player(int(id[0]), chance)
    with front.window(['towers', id]) as window:
        window.look('p', ['PENCIL', 'move 0/0'])
        for _ in range(chance.randint(*WAITED)):
            window.look(player.keys(), [player.now.told])
        may_be = [player.now]
        for _ in range(chance.randint(*MORE)):
            window.press(player.keys())
            may_be.append(player.now)
        window.wait_until(lambda screen: False, chance.uniform(0, AT_WORK))
        end(window)
        window.status()
    found = kept(room)
    print(f'{seed}: {name}: {len(may_be[0].moves)} moves seen, {len(may_be) - 1} on the way, of which {may_be.index(found) if found in may_be else "?"} kept')
    assert found in may_be, f'{name}: {may_be[0].told} was seen, {found.told} is kept'
    front.shows([], found.told)
