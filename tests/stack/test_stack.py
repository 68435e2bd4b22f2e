"""Every command of both programs with a stack of 64 KB, on boards of size 9 that the search goes deep for: they say what they say with more.

How much stack a program takes is its compiler's affair, too. So this is no test of each build: the second compiler's, which users don't get, takes twice
as much.
"""

import os
import resource
import signal
from pathlib import Path
from typing import Any, Dict, Iterator

import pytest

from tests.harness import Room, bytecode, named, run
from tests.harness.faults import preloaded
from tests.lines.runs import Player, Run
from tests.second_implementation.grades import LETTERS

STACK = 64 * 1024

#: Less than any program can do with.
TOO_LITTLE = 32 * 1024

#: Which items are spare takes minutes by qemu.
SECONDS = 900

#: So often what takes most of it is tried: a system lets the stack begin up to 8 KB lower, each time elsewhere. So many bytes the words and the
#: environment take then, as the manual allows.
TIMES, BEFORE = 60, 2048

#: Each command, on the puzzle itself and on a board with all its marks, and then on a seeded game.
COMMANDS = Path(__file__).with_name('commands.txt').read_bytes()

#: The lines that the plain program doesn't know.
FURTHER = b'board\ncompletable\nhint\nhint marks\ngrade\nsolutions\nspare\n'

#: Marks of which one is missing: the hint from the numbers alone is looked for while the marks are kept.
MARKED = b'move P0,0,1\nmove P1,0,1\nhint marks\nundo\nundo\n'

#: Those of a setter, which begin a game each.
DESK = b'thin\nspare\nspare e\nthin e\nitem 0,0,1\nspare\nthin\nblank 9\nsolutions\nspare\n'


#: Puzzles of size 9 by their games and IDs.
BOARDS = [
    ('an empty board of Towers', 'towers', '9:' + '/' * 35),
    ('an empty board of Unequal', 'unequal', '9:' + '0,' * 81),
    ('few clues', 'towers', '9:2/3///3//4/3//4/2///1/2/2//2//3///2//5/2/3////2/2////'),
    (
        'few signs',
        'unequal',
        '9:0,0,0D,0,0,0,0,0,0,0,0,0,0,0,0,0,0,0,0U,0RL,0,0,0,0,0,0,0,0,0,0,0,0,0,0,0,0,0D,0,0D,0,0,0,0,0,0,0,0,0,0,0,0,0,0,0,0D,0'
        'RL,0D,0,0,0,0,0,0,0,0,0,0,0,0,0,0,0,0,0,0,0,0,0,0,0,0,',
    ),
]


@pytest.fixture(scope='module')
def guard() -> Iterator[Dict[str, str]]:
    """The words that bound the stack if qemu may run the programs, which doesn't do so itself; nothing elsewhere."""
    is_arm = 'CC_OF_TESTS' in os.environ or os.uname().machine == 'aarch64'
    with Room() as room:
        yield {'LD_PRELOAD': preloaded(room, Path(__file__).with_name('guard.c'))} if is_arm else {}


def bounded(guard: Dict[str, str], bytes: int = STACK) -> Dict[str, Any]:
    """The words for a run that has so much stack."""
    return {'limits': {resource.RLIMIT_STACK: bytes}, 'env': {**guard, **({'STACK_BYTES': str(bytes)} if guard else {})}}


@pytest.mark.parametrize(('game', 'id'), named(BOARDS))
def test_puzzles(program: str, room: Room, guard: Dict[str, str], game: str, id: str) -> None:
    player = Player(program, room)
    row = Run('deep', [game, '--id', id, '--save', 'deep.sav'], COMMANDS, output=None, made=['deep.sav'])
    wanted = player.play(row)
    saved = room.read('deep.sav') or b''
    player.play(row._replace(output=wanted, holds={'deep.sav': saved}), **bounded(guard))


@pytest.mark.parametrize(('game', 'id'), named(BOARDS))
def test_objects(objects: str, room: Room, guard: Dict[str, str], game: str, id: str) -> None:
    words, script = [objects, game, '--id', id], FURTHER + MARKED + COMMANDS + FURTHER + DESK
    wanted = run(words, room, input=script, seconds=SECONDS)
    assert run(words, room, input=script, seconds=SECONDS, **bounded(guard)) == wanted
    assert wanted.status == 0


@pytest.mark.parametrize(('game', 'letter'), [(game, letter) for game, letters in LETTERS.items() for letter in letters])
def test_fair(objects: str, room: Room, guard: Dict[str, str], game: str, letter: str) -> None:
    """Fair games of the largest boards, and what follows in each."""
    words = [objects, game]
    script = b''.join(b'fair 9 %s %d\n%s' % (letter.encode(), seed, FURTHER + MARKED + DESK) for seed in (1, 7, 20261126))
    wanted = run(words, room, input=script)
    assert run(words, room, input=script, **bounded(guard)) == wanted
    assert wanted.status == 0


def test_where_the_stack_begins(objects: str, room: Room, guard: Dict[str, str]) -> None:
    """Hints of hard Towers, from marks, too, wherever the system lets the stack begin."""
    words = [objects, 'towers']
    script = b''.join(b'fair 9 h %d\nhint\n%s' % (seed, MARKED) for seed in range(1, 6))
    wanted = run(words, room, input=script)
    limits, more = bounded(guard).values()
    env = {'LC_ALL': 'C', 'PATH': '', **bytecode(), **more, 'EVERYTHING_ELSE': ''}
    taken = sum(len(text) + 1 for text in [*words, *(f'{name}={text}' for name, text in env.items())])
    env['EVERYTHING_ELSE'] = (BEFORE - taken) * '.'
    for _ in range(TIMES):
        assert run(words, room, input=script, env=env, limits=limits) == wanted


def test_too_little(objects: str, room: Room, guard: Dict[str, str]) -> None:
    """The bound holds, by qemu, too: half as much isn't enough."""
    assert run([objects, 'towers'], room, input=b'fair 9 h 1\nhint\n', **bounded(guard, TOO_LITTLE)).status == -signal.SIGSEGV
