"""The commands in Python if nothing can be written to standard output, or if the program isn't there or ends: a line on standard error. And
their help."""

import os
import subprocess
from typing import Dict, List, Sequence, Tuple

import pytest

from tests.board.playing import BoardFront
from tests.harness import ID, TOP, run

#: The commands, by their folders and the status that says so.
COMMANDS: Dict[str, Tuple[str, int]] = {'puzzles-play': ('board', 1), 'puzzles-sheet': ('sheet', 1), 'puzzles-check': ('check', 3)}

#: A command that writes: its name, and the words. There is a list of puzzles.
WRITTEN: List[Tuple[str, Sequence[str]]] = [
    ('puzzles-play', ['--help']),
    ('puzzles-play', ['--version']),
    ('puzzles-play', ['--ids', 'towers', '3']),
    ('puzzles-sheet', ['--help']),
    ('puzzles-sheet', ['-V']),
    ('puzzles-sheet', ['--ids', 'list']),
    ('puzzles-check', ['--help']),
    ('puzzles-check', ['--version']),
    ('puzzles-check', ['--quick', 'list']),
]

#: A shell that runs the command with such an output, and the reason that is told. One that reads nothing is gone once nothing more can be written to it.
OUTPUTS = [
    ('"$0" "$@" > /dev/full', 'No space left on device'),
    ('"$0" "$@" >&-', 'Bad file descriptor'),
    ('trap "" PIPE; (while printf x; do :; done 2> /dev/null; "$0" "$@"; echo $? > status) | true; exit $(cat status)', 'Broken pipe'),
]

#: A stand-in for the program, and the beginning of the sentence on it.
PROGRAMS = [
    ('/no program', 'the program is not built yet: run make\n'),
    ('/bin/cat', 'the program has ended: '),
    ('/bin/false', 'the program has ended: status 1\n'),
]


def told(front: BoardFront, name: str, words: Sequence[str], shell: str, **env: str) -> Tuple[int, str]:
    """The status of a command, and what it says on standard error after its name."""
    folder, status = COMMANDS[name]
    front.room.put('list', f'{ID}\n'.encode())
    command, own = ['sh', '-c', shell, str(TOP / folder / name), *words], {**os.environ, **front.env(), **env}
    ended = subprocess.run(command, env=own, cwd=front.room.path, stderr=subprocess.PIPE, encoding='utf-8', check=False)
    return ended.returncode - status, ended.stderr.partition(f'{name}: ')[2]


@pytest.mark.parametrize(('shell', 'reason'), OUTPUTS, ids=['full', 'closed', 'gone'])
@pytest.mark.parametrize(('name', 'words'), WRITTEN, ids=[' '.join([name, *words]) for name, words in WRITTEN])
def test_output(front: BoardFront, shell: str, reason: str, name: str, words: Sequence[str]) -> None:
    assert told(front, name, words, shell) == (0, f'standard output: {reason}\n')


@pytest.mark.parametrize(('program', 'begins'), PROGRAMS)
@pytest.mark.parametrize(('name', 'words'), [('puzzles-sheet', ['--ids', 'list', '--output', 'page.html']), ('puzzles-check', ['list'])])
def test_program(front: BoardFront, program: str, begins: str, name: str, words: Sequence[str]) -> None:
    """One that isn't there, that isn't the program, or that ends. Nothing is written then."""
    status, error = told(front, name, words, '"$0" "$@" > output', PUZZLES_JSON=program)
    assert (status, error[: len(begins)]) == (0, begins)
    assert (front.room.read('output'), front.room.names()) == (b'', ['list', 'output'])


@pytest.mark.parametrize(('name', 'usage'), [('puzzles-sheet', b'usage: puzzles-sheet GAME '), ('puzzles-check', b'usage: puzzles-check [')])
def test_help(front: BoardFront, name: str, usage: bytes) -> None:
    for word, begins in (('--help', usage), ('-h', usage), ('--version', b'puzzles ')):
        ended = run([str(TOP / COMMANDS[name][0] / name), word], front.room, env=front.env())
        assert (ended.status, ended.error, ended.output[: len(begins)]) == (0, b'', begins)
