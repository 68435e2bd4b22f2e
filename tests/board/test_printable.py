"""Text from outside doesn't steer the terminal."""

import os

from tests.board.playing import BoardFront
from tests.harness import ID, Room, run

#: Sets the title of a window where a terminal obeys it.
STEERING = 'x\x1b]0;steered\x07y'


def test_faces(front: BoardFront, room: Room) -> None:
    """Words, names that are typed, and the name of the folder for games, in both faces and on standard error."""
    folder = os.path.join(room.path, f'st{STEERING}te\udcff√')
    os.utime(room.lay(f'{folder}/puzzles/towers.sav', os.mkfifo), (2e9, 2e9))
    env = front.env(XDG_STATE_HOME=folder)
    with front.window(['towers', STEERING], (24, 200), env) as window:
        window.look('', ["There is no file 'x?]0;steered?y'"])
        assert b'steered\x07' not in window.came, 'a refused word'
    with front.window(['towers'], (24, 132), env) as window:
        window.look('', ['stx?]0;steered?yte?√/puzzles/towers.sav is a named pipe'])
        window.leave('q')
        assert b'steered\x07' not in window.came, 'a folder'
    with front.window(['--lines', 'towers', ID], (24, 200), env) as window:
        window.look('', ['stx?]0;steered?yte?√/puzzles/towers.sav is a named pipe', 'towers 1/1>'])
        window.look('load \x16\x1b[31mred<enter>', ["There is no file '?[31mred'."])
        window.look('save \x16\x1b[31mred<enter>', ['Saved in ?[31mred'])
        window.look('open<enter>', ['?[31mred: Towers 3x3'])
        assert b'\x1b[31m' not in window.came, 'a name that is typed'
    ended = run([front.path, '--ids', 'towers', '6', STEERING], room, env=env)
    assert ended.status == 2 and b'steered\x07' not in ended.error, 'standard error'
