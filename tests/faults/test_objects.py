"""Reads, writes and requests for memory are refused, each in turn: what is written is whole objects, and no session is in doubt."""

from typing import Any, Callable, List, Sequence

import pytest

from tests.faults.devices import input_fails, output_fails, whole_run
from tests.faults.memory import GAME_SAVE, GAMES, Game, Refusing
from tests.faults.rounds import OLD_SAVE, Round, Rounds, Target
from tests.harness import FaultLibrary, Room, by_name
from tests.harness.game import ID
from tests.objects.reading import OWN_LINES, read_answers

#: A setter's lines.
DESK = [b'solutions', b'spare', b'spare e', b'thin', b'item 0,0,1', b'blank 3', b'item 1,0,2', b'thin e', b'status']

DEVICES = b'board\nmove R0,0,1\nundo\nsave\nhint\nundo\n'


@pytest.fixture
def rounds(objects: str, room: Room, library: FaultLibrary) -> Rounds:
    made = Rounds(room, objects, library)
    made.put('game.sav', GAME_SAVE.replace(b':8:0011aabb', b':8:\n"\\\x00\x80\xff\r\n'))
    return made


class RefusingObjects(Refusing):
    """One game of puzzles-json. An answer is a line with its object."""

    rounds_on = 150

    def __init__(self, rounds: Rounds, game: Game) -> None:
        super().__init__(rounds, game)
        self.commands = [*game.commands, b'fair 3 e 7', b'status', *DESK]
        self.owed = [*(line.decode() for line in OWN_LINES if line in self.commands), 'fair', 'blank', 'item', 'thin']

    def typed(self, commands: Sequence[bytes]) -> bytes:
        return b''.join(command + b'\n' for command in commands)

    def read(self, output: bytes) -> List[Any]:
        return read_answers(self.rounds.input, output, may_lose=True)

    def is_refused(self, answer: Any) -> bool:
        return bool(answer.found.get('refused') == 'OutOfMemory')

    def is_lost(self, answer: Any) -> bool:
        return bool(answer.is_lost)


@pytest.mark.parametrize('game', GAMES[:3], ids=by_name)
def test_memory(rounds: Rounds, game: Game) -> None:
    refusing = RefusingObjects(rounds, game)
    rounds.target = Target(OLD_SAVE)
    refusing.refuse()
    assert refusing.lost


@pytest.mark.parametrize(('fails', 'piece'), [(input_fails, 7), (input_fails, 4096), (output_fails, 50), (output_fails, 4096)])
def test_devices(rounds: Rounds, fails: Callable[[Rounds, Round, int], None], piece: int) -> None:
    rounds.words = ['towers', '--id', ID, '--save', 'new.sav']
    rounds.input = DEVICES
    fails(rounds, whole_run(rounds), piece)
