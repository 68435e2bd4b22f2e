"""When a session is saved, and what becomes of the file. How it is saved to any place is tried in tests/saving."""

import os

import pytest

from tests.harness import by_name
from tests.harness.game import ID, save_text
from tests.harness.users import plain_user
from tests.lines.runs import Player, Run

NEW = ['towers', '--id', ID, '--save', 'new.sav']
OLD = ['towers', '--id', ID, '--save', 'old.sav']
GAME = ['towers', '--load', 'game.sav', '--save', 'game.sav']
FRESH, ONE_MOVE = save_text(0), save_text(1)
MOVE = b'move R0,0,1\n'
GIVEN = {'old.sav': b'old'}
REFUSED = b'cannot write the file\n'

SAVED = [
    Run(
        'loaded, played and saved under one name',
        GAME,
        MOVE,
        given={'game.sav': FRESH},
        output=b'ok\n',
        holds={'game.sav': ONE_MOVE},
    ),
    Run('quit in the middle saves', NEW, MOVE + b'quit\nmove R1,0,2\n', output=b'ok\n', holds={'new.sav': ONE_MOVE}),
    Run(
        'a game that a command began is saved',
        ['towers', '--save', 'new.sav'],
        b'new 3:3//////3/////\n',
        output=b'ok\n',
        holds={'new.sav': FRESH},
    ),
    Run(
        'without a session nothing is made',
        ['towers', '--save', 'new.sav'],
        b'undo\n',
        output=b'refused: NoGame\n',
        absent=['new.sav'],
    ),
    Run('empty lines leave no session', ['towers', '--save', 'new.sav'], b'\n\n', absent=['new.sav']),
    Run('without a session nothing is changed', ['towers', '--save', 'old.sav'], given=GIVEN, holds=GIVEN),
    Run(
        'a refused ID leaves the file',
        ['towers', '--id', '2', '--save', 'old.sav'],
        given=GIVEN,
        status=3,
        error=b'refused: BadSize\n',
        holds=GIVEN,
    ),
    Run(
        'a refused file leaves itself',
        ['towers', '--load', 'old.sav', '--save', 'old.sav'],
        given=GIVEN,
        status=3,
        error=b'refused: NotASave\n',
        holds=GIVEN,
    ),
    Run('a missing folder', ['towers', '--id', ID, '--save', 'none/new.sav'], status=1, error=REFUSED, absent=['none']),
    Run('an empty name', ['towers', '--id', ID, '--save', ''], status=1, error=REFUSED, left=FRESH),
]

UNWRITTEN = Run('a file that may not be written', OLD, status=1, error=REFUSED, holds=GIVEN, left=FRESH)
CLOSED = Run('a folder that may not be written', OLD, status=1, error=REFUSED, holds=GIVEN)


@pytest.mark.parametrize('row', SAVED, ids=by_name)
def test_saved(player: Player, row: Run) -> None:
    player.play(row)


@pytest.mark.parametrize(('row', 'file_mode', 'folder_mode'), [(UNWRITTEN, 0o444, 0o755), (CLOSED, 0o644, 0o555)])
def test_may_not_write(player: Player, row: Run, file_mode: int, folder_mode: int) -> None:
    user = plain_user()
    with player.room.make_folder('hers', owner=user and user.owner) as folder:
        folder.put('old.sav', b'old', file_mode, user and user.owner)
        os.fchmod(folder.fd, folder_mode)
        player.play(row, folder, user=user)
