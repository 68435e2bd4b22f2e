"""Games: transcripts line by line, the input and its end, what becomes of a stream that fails, and lines at a terminal."""

import os
from typing import Any, Dict

import pytest

from tests.harness import Room, by_name
from tests.harness.game import ID
from tests.harness.terminal import Terminal
from tests.lines.runs import Player, Run
from tests.lines.transcripts import Transcript, transcripts

ONE_MOVE = b'move R0,0,1\n'

GAMES = [
    Run('a last line without its end', ['towers', '--id', ID], b'status', output=b'playing 1/1\n'),
    Run('an ID after an equals sign, ahead of the game', [f'--id={ID}', 'towers'], b'id\n', output=ID.encode() + b'\n'),
    Run('a seeded game', ['towers', '--id', '5!0'], b'id\n', output=b'5:////////2///2////////,c2b1a4h2a3a3c\n'),
]

#: Refused IDs. The status says so, and standard error why.
REFUSED = [
    Run('an empty ID', ['towers', '--id', ''], status=3, error=b'refused: BadSize\n'),
    Run('a seed of another generator', ['towers', '--id', '5#7'], status=3, error=b'refused: ForeignSeed\n'),
    Run('a seeded game that is too large', ['towers', '--id', '7!1'], status=3, error=b'refused: SizeTooLarge\n'),
    Run('a seeded game with a difficulty', ['towers', '--id', '5de!7'], status=3, error=b'refused: Graded\n'),
]

OLD = {'old.sav': b'old'}
FAILS = Run('a stream fails', ['towers', '--id', ID, '--save', 'old.sav'], ONE_MOVE, given=OLD, status=1, holds=OLD)
OUTPUT = b'cannot write the output\n'
NO_ERROR = Run('standard error is closed', ['towers', '--id', ''], status=3)

#: The lines that are told once, before the first line, where lines are typed.
TOLD = 'puzzles --help has the lines that can be typed; puzzles-play is the board'

ENV = {'PATH': os.defpath, 'TERM': 'xterm', 'LC_ALL': 'C'}


@pytest.mark.parametrize('played', transcripts(), ids=by_name)
def test_played(player: Player, played: Transcript) -> None:
    player.play(played.run)


@pytest.mark.parametrize('row', [*GAMES, *REFUSED], ids=by_name)
def test_game(player: Player, row: Run) -> None:
    player.play(row)


@pytest.mark.parametrize(('stream', 'error'), [('unread', b'cannot read the input\n'), ('full', OUTPUT), ('closed', OUTPUT), ('gone', OUTPUT)], indirect=['stream'])
def test_stream_fails(player: Player, stream: Dict[str, Any], error: bytes) -> None:
    """That ends the run, and nothing is saved."""
    player.play(FAILS._replace(error=error), **stream)


def test_closed_error(player: Player) -> None:
    player.play(NO_ERROR, closed=[2])


def test_terminal(program: str, objects: str, room: Room) -> None:
    """It tells once, before the first line, which lines there are; puzzles-json tells nothing."""
    with Terminal([program, 'towers', '--id', ID], ENV, (24, 80), cwd=room.path) as window:
        window.look('', [TOLD])
        window.look('help<enter>?<enter>id<enter>', [ID])
        # Ctrl-D at the beginning of a line is the end.
        window.send('\x04')
        assert window.status() == 0, 'the status'
        assert (window.shown.count(TOLD), window.shown.count('refused: BadCommand')) == (1, 2), window.shown
    with Terminal([objects, 'towers', '--id', ID], ENV, (24, 80), cwd=room.path) as window:
        window.look('quit<enter>')
        assert window.status() == 0, 'the status of puzzles-json'
        assert 'puzzles --help' not in window.shown, 'puzzles-json'
