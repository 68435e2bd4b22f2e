"""Where certificates are written, and what comes of it where there is none, or where they can't be written. tests/certificates has what they say."""

import json
import os
from typing import List

import pytest

from tests.check.conftest import PATH, Checker
from tests.harness import ID, Room, Terminal, by_words, run

NONE, SEVERAL = '3:3/3//////////', '3:///////////'

#: The row of the small game, as far as its ID, and with no item counted.
ROW = f'list:1 towers one e - {ID}'

NEEDS_FILE = '--needed, --seconds and --megabytes go with --certificate FILE'
RANGES = '--seconds are above 0 and up to 1,000,000, and --megabytes above 0 and up to 16'
REFUSED = [
    (['--needed'], NEEDS_FILE), (['--seconds', '1'], NEEDS_FILE), (['--megabytes', '1'], NEEDS_FILE), (['--certificate', ''], 'FILE is the name of a file'),
    (['--certificate'], 'argument --certificate: expected one argument'), (['--certificate', 'new', '--seconds', '0'], RANGES),
    (['--certificate', 'new', '--seconds', 'nan'], RANGES), (['--certificate', 'new', '--megabytes', '17'], RANGES), (['--certificate', 'new', '--megabytes', '-1'], RANGES),
    (['--certificate', 'list', 'list'], 'certificates are written to list, which is read'), (['--certificate', 'new', 'new'], 'certificates are written to new, which is read'),
    (['--certificate', './list', 'list'], 'certificates are written to ./list, which is read'),
    (['--certificate', 'list', 'none', 'link'], 'certificates are written to list, which is read'),
    (['--certificate', 'link', 'list'], 'certificates are written to link, which is read'),
    (['--certificate', 'hard', 'list'], 'certificates are written to hard, which is read'),
]  # fmt: skip


def listed(room: Room) -> None:
    """The small game in a file, which has two other names."""
    room.put('list', f'{ID}\n'.encode())
    os.symlink('list', f'{room.path}/link')
    os.link(f'{room.path}/list', f'{room.path}/hard')


@pytest.mark.parametrize(('words', 'told'), by_words(REFUSED))
def test_refused(checker: Checker, room: Room, words: List[str], told: str) -> None:
    """Nothing is written, and least of all over what is read."""
    listed(room)
    ended = checker.run(words)
    assert (ended.status, ended.output) == (2, b'') and ended.error.decode().startswith(f'puzzles-check: {told}\n')
    assert room.read('list') == f'{ID}\n'.encode() and not os.path.exists(f'{room.path}/new')


def test_standard_input(checker: Checker, room: Room) -> None:
    """The file that standard input is read from is refused by its name. Something that is no file may be both."""
    listed(room)
    for name, told, status in (('hard', b'puzzles-check: certificates are written to hard, which is read\n', 2), ('/dev/null', b'puzzles-check: -: it has no puzzles\n', 2)):
        source = 'list' if name == 'hard' else name
        ended = run(['sh', '-c', f'"{PATH}" --certificate {name} < {source}'], room, env={'PUZZLES_JSON': checker.program})
        assert (ended.status, ended.output) == (status, b'') and ended.error.startswith(told)
    assert room.read('list') == f'{ID}\n'.encode()


UNWRITTEN = [('.', '.: Is a directory'), ('none/new', 'none/new: No such file or directory'), ('/dev/full', '/dev/full: No space left on device')]


@pytest.mark.parametrize(('name', 'told'), UNWRITTEN)
def test_unwritten(checker: Checker, name: str, told: str) -> None:
    ended = checker.run(['--certificate', name], ID.encode())
    assert (ended.status, ended.output, ended.error.decode()) == (3, b'', f'puzzles-check: {told}\n')


def test_closed_output(checker: Checker) -> None:
    ended = checker.run(['--certificate', '-'], ID.encode(), closed=[1])
    assert (ended.status, ended.error) == (3, b'puzzles-check: -: Bad file descriptor\n')


@pytest.mark.parametrize('limit', [['--megabytes', '0.0001'], ['--seconds', '0.000001']], ids=' '.join)
def test_beyond_limits(checker: Checker, room: Room, limit: List[str]) -> None:
    """The row says so, or with standard output a line on standard error; nothing of it is written, and the status is 4 whatever the others have."""
    room.put('list', f'{ID}\n{NONE}\n'.encode())
    ended = checker.run(['--quick', '--certificate', 'new', *limit, 'list'])
    assert ended.output.decode().replace('\t', ' ').splitlines() == [f'{ROW} no certificate', f'list:2 towers none - - {NONE} no certificate']
    assert (ended.status, ended.error, room.read('new')) == (4, b'', b'')
    ended = checker.run(['--certificate', '-', *limit, 'list'])
    assert (ended.status, ended.output) == (4, b'')
    assert ended.error == b'puzzles-check: list:1: no certificate\npuzzles-check: list:2: no certificate\n'
    ended = checker.run(['--json', '--certificate', 'new', *limit, 'list'])
    assert [json.loads(line)['suppositions'] for line in ended.output.splitlines()] == [None, None]


def test_rows(checker: Checker, room: Room) -> None:
    """A seventh column; a line for each that could be read; standard output has them alone if it is asked for; the status is as without."""
    room.put('list', f'{ID}\nwords\n{NONE}\n{SEVERAL}\ntowers 2:\n'.encode())
    ended = checker.run(['--quick', '--certificate', 'new', 'list'])
    rows = ended.output.decode().replace('\t', ' ').splitlines()
    assert rows == [f'{ROW} 0', f'list:3 towers none - - {NONE} 0', f'list:4 towers several - - {SEVERAL} 0']
    assert (ended.status, ended.error.count(b'list:5: ')) == (2, 1)
    written = room.read('new') or b''
    assert [json.loads(line)['answer'] for line in written.splitlines()] == ['one', 'none', 'several']
    assert checker.run(['--quick', '--certificate', '-', 'list']).output == written
    assert [checker.run(['--certificate', 'new'], id.encode()).status for id in (ID, NONE, SEVERAL)] == [0, 1, 1]


def test_progress(checker: Checker, room: Room) -> None:
    """A terminal is told how long a long one is by now, and nothing of that is left at the end. A program that waits makes it long."""
    slow = f'#!/bin/bash\nwhile read -r line; do case $line in hint) sleep 0.05;; esac; echo "$line"; done | exec -a puzzles-json "{checker.program}" "$@"\n'
    room.put('slow', slow.encode(), 0o755)
    room.put('list', b'towers 6!1\n')
    env = {'PATH': os.environ['PATH'], 'PUZZLES_JSON': f'{room.path}/slow'}
    with Terminal(['sh', '-c', f'"{PATH}" --quick --certificate new list > out'], env, cwd=room.path) as terminal:
        assert terminal.status() == 0
        assert 'list: 0 of 1 puzzles; certificate of 1 KB' in terminal.shown
        assert terminal.screen.text()[0] == ''
    assert (room.read('out') or b'').startswith(b'list:1\ttowers\tone\t')
