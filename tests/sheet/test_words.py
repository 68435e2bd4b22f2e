"""The words of the command line, where the page goes, and that nothing is left where that comes to nothing."""

import os
import re
import signal
from typing import List, Sequence, Tuple

import pytest

from tests.harness import ID, Folder, Room, Terminal, by_words, fill, small_disk
from tests.harness.program import eventually
from tests.sheet.making import PATH, Maker, content

TIP = "'puzzles-sheet --help' lists all options.\n"


WRONG: List[Tuple[List[str], str]] = [
    ([], 'GAME is towers or unequal'),
    (['mines'], 'GAME is towers or unequal'),
    (['towers', '--output', ''], 'argument --output: the name of a file'),
    (['--ids', ''], 'argument --ids: the name of a file'),
    (['towers', 'unequal'], 'GAME is towers or unequal'),
    (['skyscrapers', '4'], "'4' is no game: write --size 4"),
    (['5-7', 'futoshiki'], "'5-7' is no game: write --size 5-7"),
    (['unequal', 'easy'], "'easy' is no game: write --grade easy"),
    (['--ids', 'list', 'mines'], 'GAME is towers or unequal'),
    (['towers', '--size', '2'], 'argument --size: 3 to 9, several as 5-7 or 3,5'),
    (['towers', '--size', '10'], 'argument --size: 3 to 9, several as 5-7 or 3,5'),
    (['towers', '--size', '6-4'], 'argument --size: 3 to 9, several as 5-7 or 3,5'),
    (['towers', '--size', '5,'], 'argument --size: 3 to 9, several as 5-7 or 3,5'),
    (['towers', '--grade', 'tricky'], 'argument --grade: towers from seeds are easy or hard, not tricky: --ids prints others'),
    (['towers', '--grade', 'easy,unreasonable'], 'argument --grade: towers from seeds are easy or hard, not unreasonable: --ids prints others'),
    (['unequal', '--grade', 'recursive'], 'argument --grade: unequal from seeds are trivial, easy or tricky, not recursive: --ids prints others'),
    (['unequal', '--grade', 'easy,,'], 'argument --grade: unequal from seeds are trivial, easy or tricky, not : --ids prints others'),
    (['towers', '--seed=-1'], 'argument --seed: a number from 0 to 18446744073709551615'),
    (['towers', '--seed', '007'], 'argument --seed: a number from 0 to 18446744073709551615'),
    (['towers', '--seed', '18446744073709551616'], 'argument --seed: a number from 0 to 18446744073709551615'),
    (['towers', '--count', '201'], 'argument --count: a number from 1 to 200'),
    (['towers', '--per-page', '13'], 'argument --per-page: a number from 1 to 12'),
    (['towers', '--paper', 'a5'], "argument --paper: invalid choice: 'a5' (choose from 'a4', 'letter')"),
    (['towers', '--steps', '--answers', 'none'], '--steps goes with answers'),
    (['--ids', 'list', '--seed', '1'], '--ids takes no --size, --grade, --series, --seed or --names, since the list has the puzzles'),
    (['--ids', 'list', '--names', 'names'], '--ids takes no --size, --grade, --series, --seed or --names, since the list has the puzzles'),
    (['towers', '--series', '1000000000000'], 'argument --series: a number from 0 to 999999999999'),
    (['towers', '--series', '7', '--seed', '7'], '--series and --seed: the foot of a sheet has one of them'),
    (['towers', '--names', ''], 'argument --names: the name of a file'),
    (['towers', '--all-steps', '--answers', 'none'], '--steps goes with answers'),
    (['towers', '--tit', 'x'], 'unrecognized arguments: --tit x'),
    (['towers', '--\x1b[31m'], 'unrecognized arguments: --?[31m'),
]


@pytest.mark.parametrize(('words', 'told'), by_words(WRONG))
def test_wrong(maker: Maker, words: Sequence[str], told: str) -> None:
    """Nothing is made, and a line says why. How it lists choices depends on the Python."""
    ended = maker.run(words)
    assert (ended.status, ended.output) == (2, b'')
    assert ended.error.decode().replace("'", '') == f'puzzles-sheet: {told}\n{TIP}'.replace("'", '')


LIST = content([ID])


def test_output(maker: Maker, room: Room) -> None:
    """A new file has the mode that others have, an old one keeps its own, and a link stays a link."""
    room.put('old.html', b'old', 0o604)
    room.link('link.html', 'old.html')
    page = maker.page(['--ids', '-'], LIST)
    for name in ('new.html', 'link.html'):
        ended = maker.run(['--ids', '-', '--output', name], LIST, umask=0o027)
        assert (ended.status, ended.output, ended.error) == (0, b'', b'')
    assert (room.read('new.html'), room.mode('new.html')) == (page.encode(), 0o640)
    assert (room.read('old.html'), room.mode('old.html'), room.link_text('link.html')) == (page.encode(), 0o604, 'old.html')
    assert maker.run(['--ids', '-', '--output', '/dev/stdout'], LIST).output == page.encode()
    assert room.names() == ['link.html', 'new.html', 'old.html']


def test_unwritten(maker: Maker, room: Room) -> None:
    """A folder, a folder that isn't there, a device that is full: told, and nothing is left."""
    room.make_folder('folder').close()
    for name, why in (('folder', 'Is a directory'), ('none/page', 'No such file or directory'), ('/dev/full', 'No space left on device')):
        maker.refuses(['--ids', '-', '--output', name], 1, f'puzzles-sheet: {name}: {why}\n', LIST)
    assert room.names() == ['folder']


def test_full_disk(maker: Maker, room: Room) -> None:
    """The file that was there is as before."""
    with small_disk(room.lay('disk'), 1 << 16), Folder('disk', room) as disk:
        disk.put('page.html', b'before')
        fill(disk)
        maker.refuses(['--ids', '-', '--output', 'disk/page.html'], 1, 'puzzles-sheet: disk/page.html: No space left on device\n', content([ID] * 9))
        assert (disk.read('page.html'), disk.names()) == (b'before', ['filler', 'page.html'])


def test_called(maker: Maker) -> None:
    """The rules say which name newspapers have for a game, above puzzles and above a first lesson, whose first card says it, too; and nothing else says it."""
    for page in (maker.page(['--ids', '-'], content([ID, 'unequal 3!7'])), maker.page(['towers', '--example']) + maker.page(['unequal', '--example'])):
        rules = re.findall('<p class="rules"><b>(.*?)</b> Fill in the numbers', page)
        assert set(rules) == {'Towers (Skyscrapers).', 'Unequal (Futoshiki).'}
        cards = re.findall(r'(?:Towers \(Skyscrapers|Unequal \(Futoshiki)\):', page)
        assert page.count('Skyscrapers') + page.count('Futoshiki') == len(rules) + len(cards)


#: A program that never answers. A file says that it was asked.
SILENT = b'#!/bin/sh\nread -r line\n: > asked\nexec sleep 600\n'


@pytest.mark.parametrize('number', [signal.SIGINT, signal.SIGTERM])
def test_stopped(room: Room, number: signal.Signals) -> None:
    """A command that is stopped leaves no file, and no program that runs."""
    room.put('silent', SILENT, 0o755)
    room.put('list', LIST)
    env = {'PATH': os.environ['PATH'], 'PUZZLES_JSON': f'{room.path}/silent'}
    with Terminal([PATH, '--ids', 'list', '--output', 'page.html'], env, cwd=room.path) as terminal:
        assert eventually(lambda: 'asked' in room.names())
        (silent,) = terminal.programs()
        terminal.signal(number)
        assert terminal.status() == 128 + number
    assert not os.path.exists(f'/proc/{silent}')
    assert room.names() == ['asked', 'list', 'silent']


def test_progress(maker: Maker, objects: str, room: Room) -> None:
    """It is told on a terminal alone, and gone at the end."""
    room.put('list', content([f'towers 4!{seed}' for seed in range(12)]))
    env = {'PATH': os.environ['PATH'], 'PUZZLES_JSON': objects}
    with Terminal([PATH, '--ids', 'list', '--output', 'page.html'], env, cwd=room.path) as terminal:
        assert terminal.status() == 0
        assert '7 of 12' in terminal.shown
        assert terminal.screen.text()[0] == ''
