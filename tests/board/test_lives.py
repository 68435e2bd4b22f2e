"""Terminals that are closed, resized and stopped, programs that are killed: and how the game goes on then."""

import os
import signal
from typing import Callable, List, Tuple

import pytest

from board import manual
from tests.board.playing import BoardFront
from tests.harness import ID, Room, Terminal, run, save_text
from tests.harness.program import eventually

KEPT = 'state/puzzles/towers.sav'

#: Whatever ends the front, and how the front ends then.
ENDS: List[Tuple[str, Callable[[Terminal], None], int]] = [
    ('the window is closed', Terminal.close, 129),
    ('HUP', lambda window: window.signal(signal.SIGHUP), 129),
    ('TERM', lambda window: window.signal(signal.SIGTERM), 143),
    ('the front is killed', lambda window: window.signal(signal.SIGKILL), -9),
]

#: Sizes of a window, and what stands there then.
SIZES = [
    ((43, 132), '│       1       │'),
    ((17, 40), '│   1   │'),
    ((10, 30), 'needs a window of'),
    ((24, 80), '│     1     │'),
    ((12, 36), '│   1   │'),
]

#: Line and column of a click, the button, keys that are pressed then, and what is seen.
CLICKS = [
    (10, 21, 0, '2', '│     2     │'),
    (0, 9, 0, 'd', '3·'),
    (0, 9, 0, '<down>', '        3\n'.strip()),
    (16, 9, 2, '1', 'PENCIL'),
]

LEARN = b"'learn' takes the name of a game and --lines, and nothing else"

#: A shell with jobs: it says when the front has stopped, and how the terminal is then.
STOPS = """\
set -m
"$0" towers "$1"
echo STOPPED modes=$(stty -a | tr " ;" "\\n\\n" | grep -cx -e icanon -e isig -e echo)
read -r _
fg > /dev/null
echo OVER
"""


@pytest.mark.parametrize(('end', 'status'), [end[1:] for end in ENDS], ids=[end[0] for end in ENDS])
def test_ended(front: BoardFront, room: Room, end: Callable[[Terminal], None], status: int) -> None:
    """The played game is kept, and nothing lies elsewhere; the next start goes on."""
    with front.window(['towers', ID]) as window:
        window.look('1<right>2u', ['1 of 9', 'move 1/2'])
        programs = window.programs()
        end(window)
        assert window.status() == status, 'the status'
    assert room.read(KEPT) == save_text(2, 2), 'what is kept'
    others = [path for path in room.paths() if not path.startswith('state/puzzles/')]
    assert others == [], 'nothing lies elsewhere'
    assert all(is_gone(pid) for pid in programs), programs
    front.shows([], 'Towers 3x3', '1 of 9', 'move 1/2')


def is_gone(pid: int) -> bool:
    """Whether a process has ended, or does so in a moment."""
    return eventually(lambda: has_ended(pid))


def has_ended(pid: int) -> bool:
    try:
        with open(f'/proc/{pid}/stat', encoding='ascii') as file:
            return file.read().rpartition(')')[2].split()[0] == 'Z'
    except (FileNotFoundError, ProcessLookupError):
        return True


def test_resized(front: BoardFront, room: Room) -> None:
    with front.window(['towers', ID]) as window:
        window.look('1<right>', ['1 of 9'])
        for size, text in SIZES:
            window.resize(size)
            window.look('', [text])
        window.look('2', ['2 of 9'])
        window.resize((10, 30))
        window.press('n')
        window.resize((24, 80))
        window.look('', ['A new game', 'Escape or q goes back'])
        window.look('m4q', ['2 of 9', 'move 2/2'])


def test_stopped(front: BoardFront, room: Room) -> None:
    """Z stops the front, with the terminal as it was, and it comes back."""
    with Terminal(['bash', '-c', STOPS, front.path, ID], front.env(), cwd=room.path, size=(24, 80)) as window:
        window.look('1', ['1 of 9'])
        window.look('Z', ['STOPPED modes=3'])
        window.look('<enter>', ['1 of 9'], ['STOPPED'])
        window.look('<right>2', ['2 of 9'])
        window.look('q', ['OVER'])


def test_without_home(front: BoardFront, room: Room) -> None:
    env = front.env()
    del env['HOME'], env['XDG_STATE_HOME']
    with front.window(['towers', ID], env=env, leave='qy') as window:
        window.look('1', ['The game is not kept: neither XDG_STATE_HOME nor HOME names a folder.', '1 of 9'])
        window.look('q', ['Quit and lose it? y/N'])
        window.look('x', ['1 of 9'], ['y/N'])
        window.look('n<enter>', ["The present game can't be put away", 'Lose it? y/N'])
        window.look('x', ['The present game stays.', '1 of 9'])


def test_two_windows(front: BoardFront, room: Room) -> None:
    with front.window(['towers', ID], leave='q') as first:
        first.look('1', ['1 of 9'])
        with front.window(['towers', ID], leave='q') as second:
            second.look('', ['Another window has the last game; this one is kept in towers-2.sav.'])
            second.look('1<right>2', ['2 of 9'], ['Another window'])
    assert [room.read(KEPT), room.read('state/puzzles/towers-2.sav')] == [save_text(1), save_text(2)], 'both games'


def test_mouse(front: BoardFront, room: Room) -> None:
    """A click goes to a square or a clue; on the clue of the cursor it sets the done mark; the right button takes pencil marks."""
    with front.window(['towers', ID]) as window:
        window.look('', ['move 0/0', '│           │'])
        for line, column, button, keys, text in CLICKS:
            window.click(line, column, button)
            window.look(keys, [text])


def test_without_modules(front: BoardFront, room: Room) -> None:
    """Without `curses` it is the line mode, and without `readline` it is one, too."""
    room.lay('modules')
    for module in ('curses', 'readline'):
        room.put(f'modules/{module}.py', b'raise ImportError\n')
    env = front.env(PYTHONPATH=os.path.join(room.path, 'modules'))
    with front.window(['towers', ID], env=env) as window:
        window.look('1 1 1<enter>', ['r1c1 is 1; row 1 lacks 2 and 3', 'towers 2/2>'])
        window.look('q<enter>', ['towers 2/2> q'])
        assert window.status() == 0, 'the status'


def test_to_lines(front: BoardFront, room: Room) -> None:
    """T goes on in lines of text; Ctrl-Z there leaves the terminal as a shell wants it."""
    with Terminal(['bash', '-c', STOPS, front.path, ID], front.env(), cwd=room.path, size=(24, 80)) as window:
        window.look('1', ['1 of 9'])
        window.look('T', ['1 3 1 . . -', 'towers 2/2>'])
        window.look('1 2 2<enter>', ['r1c2 is 2'])
        window.look('<ctrl-z>', ['STOPPED modes=3'])
        window.look('<enter>1 3 3<enter>', ['r1c3 is 3'])
        window.look('q<enter>', ['OVER'])


#: Words, the status, and what is told: help, the version, and why words can't be read.
WORDS: List[Tuple[List[str], int, bytes]] = [
    (['--help'], 0, b'usage: '),
    (['-h'], 0, b'usage: '),
    (['towers', '-h'], 0, b'usage: '),
    (['--version'], 0, b''),
    (['--nothing'], 2, b"\n\npuzzles-play: there is no option '--nothing'\n"),
    (['chess'], 2, b"'chess' is not a game, a size, a grade or a file\n"),
    (['/nowhere'], 2, b"there is no file '/nowhere'\n"),
    (['5!7'], 2, b"'5!7' fits both games"),
    (['5!7'], 2, b"towers '5!7'?"),
    (['towers', ID, 'more'], 2, b"'more' is not a size or a grade\n"),
    (['towers', '6', 'more'], 2, b"'more' is not a size or a grade\n"),
    (['--ids', '--lines'], 2, b'--ids plays no game'),
    (['--ids', ID], 2, b'usage: '),
    (['--ids', 'towers', '6', 'easy', '0'], 2, b"'0' is not a number of IDs\n"),
    (['--ids', 'towers', '6', 'tricky'], 2, b"Towers has no grade 'tricky': easy, hard, extreme or unreasonable."),
    (['--ids', 'towers', '3', 'hard'], 2, b'Of size 3 there are puzzles of the grades easy, extreme and unreasonable.'),
    (['--ids', 'towers', 'today', '5', '2'], 2, b'There are only 1 of them.'),
    (['--ids', 'towers', '9', 'extreme', '21'], 2, b'There are only 20 of them.'),
    (['learn', 'chess'], 2, LEARN),
    (['learn', '5'], 2, LEARN),
    (['--ids', 'learn'], 2, LEARN),
    (['towers', '5', 'learn'], 2, LEARN),
    (['--lines', 'towers', '3:3'], 3, b"Too few parts: a description has 4 x size clues separated by '/', then ',' and the squares."),
    (['--lines', 'towers', f'{ID}\nstatus'], 3, b'Each clue is nothing, or one digit from 1 to the size.'),
    (['--lines', 'unequal', 'nothing.sav'], 3, b"There is no file 'nothing.sav', and no puzzle with that ID."),
    ([], 2, b'the board is for a terminal; in a pipe use --lines'),
    (['towers', ID], 2, b'the board is for a terminal; in a pipe use --lines, or the program itself, puzzles towers'),
]


def test_words(front: BoardFront, room: Room) -> None:
    for line, status, text in WORDS:
        found = run([front.path, *line], room, env=front.env())
        assert found.status == status, f'{line}: the status'
        assert text in found.output + found.error, found
        assert not text.endswith(b'\n') or found.error.endswith(text), f'{line}: the reason is not the last line'
        assert status == 3 or max(map(len, found.output.splitlines()), default=0) < 80, f'{line}: a wide line'
    assert max(map(len, [*manual.LINES, *manual.KEYS])) < 80, 'a wide line of help'
