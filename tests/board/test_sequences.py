"""Keys that a terminal sends as several characters, as they come over a slow line."""

import os
from typing import List, Tuple

import pytest

from board.keys import Key
from board.sequences import ESCAPE_LASTS, KEY_LASTS, Sequences
from tests.board.playing import BoardFront
from tests.harness import TOP, Room
from tests.harness.program import eventually

#: So many seconds between two characters, as over a bad line.
APART = 0.3

#: Bytes that come, all at once or a character each time, and the keys that these are.
WHOLE: List[Tuple[str, List[str]]] = [
    ('m', ['m']),
    ('\x1b[A', ['up']),
    ('\x1bOA', ['up']),
    ('\x1b[3~', ['delete']),
    ('\x1b[H', ['other']),
    ('\x1bOR', ['other']),
    ('\x1b[15~m', ['other', 'm']),
    ('\x1b[1;5C', ['other']),
    ('\x1b[[A', ['other']),
    ('\x1b[M !!1', ['other', '1']),
    ('\x1b[<0;10;12M1', ['other', '1']),
    ('\x1bm', ['escape', 'm']),
    ('\x1b\x1b[A', ['escape', 'up']),
    ('\x1b[\x1b[A', ['other', 'up']),
]


def key(character: str) -> Key:
    return Key('escape' if character == '\x1b' else character)


@pytest.mark.parametrize(('came', 'wanted'), WHOLE)
def test_whole(came: str, wanted: List[str]) -> None:
    at_once, apart = Sequences(), Sequences()
    assert [one.name for one in at_once.keys(map(key, came), 0.0)] == wanted
    found: List[Key] = []
    for at, character in enumerate(came):
        found += apart.late(at * APART) + apart.keys([key(character)], at * APART)
    assert [one.name for one in found] == wanted
    assert apart.wait(0.0) is None, 'nothing is owed'


@pytest.mark.parametrize(('came', 'lasts', 'wanted'), [('\x1b', ESCAPE_LASTS, 'escape'), ('\x1b[', KEY_LASTS, 'other'), ('\x1b[1', KEY_LASTS, 'other')])
def test_late(came: str, lasts: float, wanted: str) -> None:
    """An Escape by itself, and keys of which the rest doesn't come."""
    sequences = Sequences()
    assert sequences.keys(map(key, came), 7.0) == []
    assert sequences.keys([Key('resize')], 7.0) == [Key('resize')], 'a window that is resized meanwhile'
    assert (sequences.wait(7.0), sequences.late(7.0 + lasts / 2)) == (lasts, [])
    assert sequences.late(7.0 + lasts) == [Key(wanted)]
    assert sequences.keys([Key('m')], 9.0) == [Key('m')]


#: The board, for which a key that has begun may go on as long as it likes: a busy machine may take its time between two characters.
PATIENT = f"""#!/usr/bin/env python3
import sys
sys.path.insert(0, '{TOP}')
from board import main, sequences
sequences.ESCAPE_LASTS = sequences.KEY_LASTS = 3600.0
sys.exit(main.main(sys.argv[1:], '{TOP}/board'))
"""


@pytest.mark.parametrize('term', ['xterm-256color', 'vt100'])
def test_slow_line(front: BoardFront, room: Room, term: str) -> None:
    """Home isn't H, which counts a hint, and F3 isn't R, which goes back to the start; arrows move."""
    room.put('patient', PATIENT.encode(), 0o755)
    patient = BoardFront(os.path.join(room.path, 'patient'), front.program, room)
    with patient.begun('q', env=front.env(TERM=term)) as window:
        for sent, shows in (('\x1b[H', 'That key does nothing'), ('\x1bOR', 'That key does nothing'), ('\x1b[C', 'move 1/1'), ('\x1bOB', 'move 1/1')):
            for character in sent:
                window.send(character)
                assert eventually(lambda: window.unread() == 0), 'each character is read by itself'
            window.look('', [shows, 'move 1/1'], ['1 hint', 'Back at the start'])
        window.look('3', ['2 of 9', 'move 2/2'])


def test_escape(front: BoardFront) -> None:
    """An Escape by itself leaves a question."""
    with front.begun('q') as window:
        window.look('S', ['y/N'])
        window.look('<escape>', ['1 of 9'], ['y/N'])
