"""How it reads and writes: as it comes, large and odd files, outputs that are closed, signals, and programs that end."""

import os
import resource
import signal
import subprocess
from typing import List

import pytest

from tests.check.conftest import PATH, Checker
from tests.harness import ID, PICTURE, Room, Terminal

#: The answer on the small game if items that could go aren't counted.
LINE = f'towers one e - {ID}\n'

TIP = "'puzzles-check --help' lists all options.\n"

#: The memory that one run of Python and its talk with the program may take, however long a file is.
MEMORY = 200 << 20


@pytest.mark.parametrize('words', [['--jsn'], ['--json=x'], ['']], ids=str)
def test_words(checker: Checker, words: List[str]) -> None:
    ended = checker.run(words)
    assert (ended.status, ended.output) == (2, b'') and ended.error.decode().endswith(TIP)


def test_files(checker: Checker, room: Room) -> None:
    """A puzzle that can't be read is named, and the others are."""
    room.make_folder('folder').close()
    room.put('empty')
    room.put('\x1b[31m', ID.encode())
    ended = checker.run(['--quick', 'folder', 'none', 'empty', '\x1b[31m'])
    assert (ended.status, ended.output.decode().replace('\t', ' ')) == (2, f'?[31m:1 {LINE}')
    told = ["folder: it can't be read (Is a directory)", "none: it can't be read (No such file or directory)", 'empty: it has no puzzles']
    assert ended.error.decode().splitlines() == [f'puzzles-check: {text}' for text in told]


def test_closed_input(checker: Checker) -> None:
    assert checker.run([], closed=[0]).expect("-: it can't be read (it is closed)", status=2)


@pytest.mark.parametrize('begins', [b'', b'SAVEFILE:41:', b'. .', b'3:'], ids=['zeros', 'save', 'picture', 'ID'])
def test_large(checker: Checker, room: Room, begins: bytes) -> None:
    """A file of 100 MB that is no puzzle takes little memory, and what comes after it is checked."""
    room.put('large', begins)
    os.truncate(f'{room.path}/large', 100_000_000)
    ended = checker.run(['--quick', 'large', '-'], ID.encode(), limits={resource.RLIMIT_AS: MEMORY})
    assert (ended.status, ended.output.decode().replace('\t', ' ')) == (2, f'-:1 {LINE}')
    assert ended.error.decode().count('\n') == 1


def test_as_they_come(checker: Checker, room: Room) -> None:
    """Each is answered before the next one is there, however short it is; a drawing that isn't closed with the empty line after it."""
    env = {**os.environ, 'PUZZLES_JSON': checker.program}
    with subprocess.Popen(['timeout', '600', PATH, '--quick'], env=env, cwd=room.path, stdin=subprocess.PIPE, stdout=subprocess.PIPE) as process:
        assert process.stdin and process.stdout
        drawn = PICTURE.decode()
        typed = ((1, 'towers 3!7\n', ''), (2, drawn, LINE), (7, drawn.replace('+', ' ') + '\n', LINE), (13, f'{ID}\n', LINE))
        for number, text, line in typed:
            process.stdin.write(text.encode())
            process.stdin.flush()
            assert process.stdout.readline().decode().replace('\t', ' ').startswith(f'-:{number} {line}')
        process.stdin.close()
        assert process.wait() == 0


@pytest.mark.parametrize('number', [signal.SIGINT, signal.SIGTERM])
def test_stopped(checker: Checker, room: Room, number: signal.Signals) -> None:
    """It leaves no program that runs."""
    env = {'PATH': os.environ['PATH'], 'PUZZLES_JSON': checker.program}
    with Terminal([PATH], env, cwd=room.path) as terminal:
        terminal.send(f'{ID}\n')
        assert terminal.wait_until(lambda screen: any('one' in line for line in screen.text()))
        programs = terminal.programs()
        terminal.signal(number)
        assert terminal.status() == 128 + number
    assert not any(os.path.exists(f'/proc/{each}') for each in programs)


def test_progress(checker: Checker, room: Room) -> None:
    """It is told on a terminal, and gone at the end. A program that waits makes it long."""
    slow = f'#!/bin/sh\nwhile read -r line; do case $line in completable) sleep 0.3;; esac; echo "$line"; done | exec -a puzzles-json "{checker.program}" "$@"\n'
    room.put('slow', slow.replace('/bin/sh', '/bin/bash').encode(), 0o755)
    room.put('list', f'{ID}\n'.encode() * 4)
    env = {'PATH': os.environ['PATH'], 'PUZZLES_JSON': f'{room.path}/slow'}
    with Terminal(['sh', '-c', f'"{PATH}" list > out'], env, cwd=room.path) as terminal:
        assert terminal.status() == 0
        assert ' of 4 puzzles' in terminal.shown
        assert terminal.screen.text()[0] == ''
    assert (room.read('out') or b'').count(b'\tone\t') == 4


def test_many(checker: Checker, room: Room) -> None:
    """Thousands of them are one run of the program for each game, so two seconds are enough where little else is at work."""
    room.put('counted', f'#!/bin/bash\necho >> "{room.path}/runs"\nexec -a puzzles-json "{checker.program}" "$@"\n'.encode(), 0o755)
    ended = checker.run(['--quick'], f'{ID}\n'.encode() * 10_000, env={'PUZZLES_JSON': f'{room.path}/counted'})
    assert (ended.status, ended.output.count(b'\n'), ended.error) == (0, 10_000, b'')
    assert room.read('runs') == b'\n' * 2
