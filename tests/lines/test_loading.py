"""The file to load: saves, with what is written of each, texts that are none, and files that can't be read."""

import os

import pytest

from tests.harness import by_name
from tests.harness.game import save_text
from tests.harness.users import plain_user
from tests.lines.runs import Player, Run
from tests.lines.save_files import ROWS, longest
from tests.lines.save_files.sample import Loaded, run_of

LOAD = ['towers', '--load', 'game.sav']
UNDONE = save_text(2, 2)
MOST_BYTES = 16_777_216

LOADED = [
    Run('a session is loaded', LOAD, b'status\nredo\nstatus\n', given={'game.sav': UNDONE}, output=b'playing 2/3\nok\nplaying 3/3\n', holds={'game.sav': UNDONE}),
]

REFUSED = [
    Run('a missing file', LOAD, status=1, error=b'cannot read the file\n'),
    Run('an empty name', ['towers', '--load', ''], status=1, error=b'cannot read the file\n'),
    Run('a file without end', ['towers', '--load', '/dev/zero'], status=3, error=b'refused: TooLarge\n'),
]

#: Files that are made longer by zeros, and how long they are then. The size comes first.
LENGTHENED = [
    (Run('a file that is one byte too large', LOAD, status=3, error=b'refused: TooLarge\n'), b'', MOST_BYTES + 1),
    (Run('a save with much after its last record', LOAD, b'status\n', output=b'playing 2/3\n'), UNDONE, MOST_BYTES),
    (Run('the same and one byte more', LOAD, status=3, error=b'refused: TooLarge\n'), UNDONE, MOST_BYTES + 1),
]

PIPED = Run(
    'a file from a pipe, which is then at its end',
    ['towers', '--load', '/dev/stdin', '--save', 'new.sav'],
    holds={'new.sav': UNDONE},
)
FOLDER = Run('a folder in place of the file', LOAD, status=1, error=b'cannot read the file\n')
UNREAD = Run('a file that may not be read', LOAD, status=1, error=b'cannot read the file\n')


@pytest.mark.parametrize('row', ROWS, ids=by_name)
def test_text(player: Player, row: Loaded) -> None:
    player.play(run_of(row))


def test_longest(player: Player) -> None:
    """The longest history, saved and loaded."""
    for row in (longest.FILLED, longest.GONE_BACK, longest.AGAIN):
        player.play(row)


@pytest.mark.parametrize('row', [*LOADED, *REFUSED], ids=by_name)
def test_loaded(player: Player, row: Run) -> None:
    player.play(row)


@pytest.mark.parametrize(('row', 'front', 'length'), LENGTHENED)
def test_lengthened(player: Player, row: Run, front: bytes, length: int) -> None:
    player.room.put('game.sav', front)
    os.truncate(f'{player.room.path}/game.sav', length)
    player.play(row)


def test_pipe(player: Player) -> None:
    reading, writing = os.pipe()
    with os.fdopen(writing, 'wb') as pipe:
        pipe.write(UNDONE)
    with os.fdopen(reading, 'rb') as pipe:
        player.play(PIPED, stdin=pipe.fileno())


def test_folder(player: Player) -> None:
    player.room.make_folder('game.sav').close()
    player.play(FOLDER)


def test_may_not_read(player: Player) -> None:
    user = plain_user()
    player.room.put('game.sav', UNDONE, 0o000, user and user.owner)
    player.play(UNREAD, user=user)
