"""Programs below the board that end, take long, or lack memory: and how the game goes on then."""

import os
import signal
from pathlib import Path
from typing import Dict

from tests.board.playing import BoardFront
from tests.board.test_lives import is_gone
from tests.harness import ID, Room, Terminal, save_text
from tests.harness.between import put_between
from tests.harness.program import eventually

KEPT = 'state/puzzles/towers.sav'

#: A program that never answers.
SILENT = b'#!/bin/sh\nexec sleep 600\n'

#: A program that answers by plain lines.
PLAIN = b'#!/bin/sh\nwhile read -r line; do echo ok; done\n'

#: Takes long over `completable` and one move, and the memory for some replies is lacking: for one the move is made and its reply is lost, the other one is
#: refused.
BETWEEN = """\
    if line in (b'completable\\n', b'move R0,1,3\\n'):
        time.sleep(600)
    reply = answer(b'board\\n' if line == b'move R2,0,3\\n' else line)
    if line == b'move R1,0,2\\n':
        reply = dict(lost='OutOfMemory')
    if line == b'move R2,0,3\\n':
        reply.update(refused='OutOfMemory', reply=['refused: OutOfMemory'])
"""

#: Takes long to fill in all clues.
SLOW_FILL = """\
    if line == b'fill\\n':
        time.sleep(600)
    reply = answer(line)
"""

#: Has no game of the number 7, nor of the first three numbers that it is asked for at a start.
WITHOUT_GAMES = """\
    asked += line.startswith(b'fair ')
    lacks = line.startswith(b'fair ') and (asked <= 3 or line.endswith(b' 7\\n'))
    reply = {**answer(b'status\\n'), 'refused': 'NoneFound'} if lacks else answer(line)
"""

#: Has no memory for the first two saves.
WITHOUT_SAVES = """\
    asked += line == b'save\\n'
    reply = answer(line)
    if line == b'save\\n' and asked <= 2:
        reply.update(refused='OutOfMemory', reply=[])
"""

#: Stands before the program, and takes over the first save until there is a file.
SLOW_SAVE = """\
#!/usr/bin/env bash
while read -r line; do
    if [[ $line = save ]]; then until [[ -e '{room}/goes on' ]]; do sleep 0.1; done; fi
    echo "$line"
done | exec -a puzzles-json '{program}' "$@"
"""


def between(front: BoardFront, room: Room, rule: str = BETWEEN) -> Dict[str, str]:
    """The environment of a front over the program with something between."""
    return front.env(PUZZLES_JSON=put_between(room, front.program, rule))


def test_program_killed(front: BoardFront, room: Room) -> None:
    with front.begun('q') as window:
        for pid in window.programs():
            os.kill(pid, signal.SIGKILL)
        window.look('<right>2', ['The program had ended (signal 9). The game is as it was. Try that again.', '1 of 9'])
        window.look('2', ['2 of 9', 'move 2/2'])
    assert room.read(KEPT) == save_text(2), 'what is kept'


def test_long_work(front: BoardFront, room: Room) -> None:
    """Something moves meanwhile, a key stops it, and the game goes on; in lines it is said once."""
    with front.window(['towers', ID], env=between(front, room), leave='q') as window:
        window.look('', ['move 0/0'])
        window.look('1', ['1 of 9'])
        window.look('c', ['The program is at work. Any key stops it.'])
        before = window.screen.text()
        assert window.wait_until(lambda screen: screen.text() != before), 'nothing moves'
        window.look('x', ['Stopped. Nothing has changed.', '1 of 9'])
        window.look('2', ['│     2     │', 'move 2/2'])
    with front.window(['--lines', 'towers', ID], env=between(front, room), leave='q<enter>') as window:
        window.look('', ['towers 1/1>'])
        window.look('check<enter>', ['towers 1/1> check The program is at work: Ctrl-C stops it.'])
        window.look('<ctrl-c>', ['Stopped. Nothing has changed.', 'towers 1/1>'])
        assert window.shown.partition('check')[2].count('is at work') == 1


def test_long_filling(front: BoardFront, room: Room) -> None:
    """At the desk the next key ends it from the first moment on, and the puzzle is as it was."""
    os.makedirs(os.path.join(room.path, 'state/puzzles'))
    room.put('state/puzzles/towers-draft.ids', f'draft 1, puzzle 1\n{ID}\n'.encode())
    with front.window(['towers', ID], env=between(front, room, SLOW_FILL), leave='qq') as window:
        window.look('', ['move 0/0'])
        window.look('E', ['2 clues, 0 given', 'Exactly one solution'])
        before = len(window.shown)
        window.look('F', ['The next key ends that.'])
        assert 'is at work' not in window.shown[before:]
        window.look('u', ['2 clues, 0 given', 'Exactly one solution'])


def test_no_game(front: BoardFront, room: Room) -> None:
    """Where a number by chance has no game the next one is taken; where it was typed that is told, and the game before stays."""
    env = between(front, room, WITHOUT_GAMES)
    with front.window([], env=env, leave='q') as window:
        window.look('', ['Towers 5x5', 'easy', 'move 0/0'])
        window.look('m', ['move 1/1'])
        window.look('n<down>7<enter>', ['A new game', 'That number gives no such game. Try another one.', '[typed: 7]'])
        window.look('q', ['move 1/1'])
        window.look('n<enter>', ['move 0/0', 'That number is always this game.'])
    front.shows(['--lines', 'towers', '5', 'number', '7'], 'That number gives no such game. Try another one.', env=env, leave='', status=3)


def test_no_answer(front: BoardFront, room: Room) -> None:
    """A move that takes long can be stopped after a while, and a closed window ends the front at once."""
    with front.window(['towers', ID], env=between(front, room)) as window:
        window.look('', ['move 0/0'])
        window.look('1', ['1 of 9'])
        window.look('<down>3', ['The program is at work. Any key stops it.'])
        window.look('x', ['Stopped. Nothing has changed.', '1 of 9'])
        window.look('2', ['2 of 9', 'move 2/2'])
        # A key that was pressed before the offer to stop stops nothing, and is heard afterwards. Both come at once: the offer comes after a while.
        window.send('3u')
        window.look('', ['The program is at work. Any key stops it.'])
        assert not window.wait_until(lambda screen: 'Stopped.' in screen.text(), 0.5), 'the key before the offer has stopped it'
        window.look('x', ['1 of 9', 'move 1/2'])
        window.look('r', ['2 of 9', 'move 2/2'])
        programs = window.programs()
        window.look('3', ['The program is at work'])
        window.signal(signal.SIGHUP)
        assert window.status() == 129, 'the status'
        assert all(is_gone(pid) for pid in programs), programs
    assert (room.read(KEPT) or b'').endswith(b'R0,0,1\nMOVE    :6:R0,1,2\n'), room.read(KEPT)


def test_silent(front: BoardFront, room: Room) -> None:
    """A program that never answers, not even at the start: keys and a closed window are heard."""
    room.put('silent', SILENT, 0o755)
    env = front.env(PUZZLES_JSON=os.path.join(room.path, 'silent'))
    with front.window(['towers'], env=env) as window:
        window.look('', ['The program is at work. Any key stops it.'])
        window.look('x', ['the program has ended: it gave no answer'])
        assert window.status() == 1, 'the status'
    for words in (['towers'], ['--lines', 'towers'], ['towers', ID]):
        with front.window(words, env=env) as window:
            assert wait_for_program(window), 'it has not begun'
            window.signal(signal.SIGHUP)
            assert window.status() == 129, f'{words}: the status of a closed window'
    with front.window(['--lines', 'towers'], env=env) as window:
        assert wait_for_program(window), 'it has not begun'
        window.press('<ctrl-c>')
        window.look('', ['the program has ended: it gave no answer'])
        assert window.status() == 1, 'in lines: the status'


def test_other_names(front: BoardFront, room: Room) -> None:
    """The file of the program may have any name; a program that answers by plain lines is told for what it is."""
    for file, content in (('another', Path(front.program).read_bytes()), ('plain', PLAIN)):
        room.put(file, content, 0o755)
    for words, shown in ((['towers'], 'move 0/0'), (['--lines', 'towers'], 'towers 1/1>')):
        env = front.env(PUZZLES_JSON=os.path.join(room.path, 'another'))
        front.shows([*words, ID], shown, env=env, leave='q<enter>' if '--lines' in words else 'q')
        front.shows(words, 'its answer is not an object: it is not', env=front.env(PUZZLES_JSON=os.path.join(room.path, 'plain')), leave='', status=1)


def wait_for_program(window: Terminal) -> bool:
    """Whether the front has started a program, which has a session of its own, or does so in a moment."""
    return eventually(lambda: any(os.getsid(pid) == pid for pid in window.programs()))


def test_first_save(front: BoardFront, room: Room) -> None:
    """A key that is pressed while a game is saved for the first time stops nothing, and is heard then. A card of the course is waited for, too."""
    room.put('between', SLOW_SAVE.format(program=front.program, room=room.path).encode(), 0o755)
    env = front.env(PUZZLES_JSON=os.path.join(room.path, 'between'))
    with front.window(['learn', 'towers'], env=env, leave='q') as window:
        window.look('', ['The program is at work ..'])
        room.put('goes on', b'')
        window.look('', ['Card 1/9.'])
    room.remove('goes on')
    with front.window(['towers', ID], env=env, leave='q') as window:
        # Longer than a player has to wait for anything else.
        window.look('', ['move 0/0', 'The program is at work ..'])
        assert not window.wait_until(lambda screen: 'Any key stops it' in ' '.join(screen.text()), 4), 'it can be stopped'
        window.press('1')
        room.put('goes on', b'')
        window.look('', ['1 of 9', 'move 1/1'])
    assert room.read(KEPT) == save_text(1), 'what is kept'


def test_no_memory(front: BoardFront, room: Room) -> None:
    """A move is shown, whether its reply was lost or not, and is kept."""
    with front.window(['towers', ID], env=between(front, room), leave='q') as window:
        window.look('', ['move 0/0'])
        window.look('1', ['1 of 9'])
        window.look('<right>2', ['Out of memory. The command may or may not have been carried out: look at the board.', '2 of 9'])
        window.look('<right>3', ['There is no memory left for that. Nothing has changed.', '2 of 9'])
    assert room.read(KEPT) == save_text(2), 'what is kept'


def test_no_save(front: BoardFront, room: Room) -> None:
    """A game that has no save yet is not put away without a question, and each key tries to keep it."""
    with front.window(['towers', ID], env=between(front, room, WITHOUT_SAVES), leave='q') as window:
        window.look('', ['The game is not kept: There is no memory left for that. Nothing has changed.', '0 of 9'])
        window.look('n<enter>', ["The present game can't be put away", 'Lose it? y/N'])
        window.look('x', ['The present game stays.', 'Towers 3x3'])
        window.look('<right>', ['0 of 9'], ['not kept', 'The present game stays.'])
        assert room.read(KEPT) == save_text(0), 'what is kept'
