"""The work of `make` and the scripts in a copy elsewhere, where the gate itself has no use for them: programs of the tree, and where there are none."""

import os
import shutil
from typing import NamedTuple, Sequence

import pytest

from tests.scripts.place import Place
from tests.board.playing import PROMPT
from tests.harness import Ended, by_name
from tests.harness.game import ID, PICTURE, save_text


class Make(NamedTuple):
    """A command, and what has to come of it. The input is that of the program."""

    name: str
    words: Sequence[str]
    status: int = 0
    says: Sequence[str] = ()
    input: bytes = b''


#: The picture that `show` prints of the game.
SHOWN = PICTURE.decode()

#: A save of Unequal.
UNEQUAL_SAVE = save_text(0).replace(b':6:Towers', b':7:Unequal').replace(b':13:3//////3/////', b':22:0,0L,0L,0U,0,0,0U,0,0,')

#: The words if no programs are there, and no page, by each command that needs some.
NOT_BUILT = 'there is no programs/RECORD: run make, which proves and builds them'
NO_PAGE = 'programs/RECORD says nothing of the page: run make web, which proves and builds it'

UNBUILT = [
    *(Make(f'make {name}', ['make', name, 'DESTDIR=/nowhere'], 2, [NOT_BUILT]) for name in ('play', 'sheet', 'test', 'exchange', 'install')),
    *(Make(f'make {name}', ['make', name], 2, [NO_PAGE]) for name in ('page', 'site')),
    Make('make dist', ['make', 'dist'], 2, ['dist: ']),
    Make('make installcheck', ['make', 'installcheck', 'DESTDIR=/nowhere'], 2, ['bin/puzzles is not there', 'does not play']),
    Make('make install, to no whole path', ['make', 'install', 'PREFIX=usr'], 2, ['gamesdir is no path that begins with /']),
    Make('make check, of no crate', ['make', 'check', 'CRATE=chess'], 2, ['CRATE= one of:', 'clue_rules']),
]

OF_THE_TREE = [
    Make('make', ['make']),
    Make('make sheet, of seeds', ['make', 'sheet'], says=['build/sheet.html is there']),
    Make('make sheet, of a save', ['make', 'sheet', 'IDS=../a.sav', 'WORDS=--large'], says=['build/sheet.html is there']),
    Make('make sheet, a list that is not there', ['make', 'sheet', "IDS=it's"], 2, ["it's can't be read"]),
    Make('make play, an ID in a pipe', ['make', 'play', f'ID={ID}'], says=[SHOWN], input=b'show\n'),
    Make('make play, no ID and a line without its end', ['make', 'play'], says=['playing 1/1\n'], input=b'status'),
    Make('make play, no input', ['make', 'play', f'ID={ID}'], says=[SHOWN, 'to play on']),
    Make('make play, a save', ['make', 'play', 'ID=../a.sav'], says=['playing 2/2\n'], input=b'status\n'),
    Make('make play, a save of the other game', ['make', 'play', 'ID=../b.sav'], says=['3:0,0L,0L,0U,'], input=b'id\n'),
    Make('make play, a save of another game than is named', ['make', 'play', 'GAME=towers', 'ID=../b.sav'], 2, ['refused: WrongGame']),
    Make('make play, the other game', ['make', 'play', 'GAME=unequal', 'ID=4!7'], says=['playing 1/1\n'], input=b'status\n'),
    Make("make play, by a newspaper's name", ['make', 'play', 'GAME=futoshiki', 'ID=4!7'], says=['playing 1/1\n'], input=b'status\n'),
    Make('make play, a game with an apostrophe', ['make', 'play', "GAME=it's"], 2, ['GAME is towers or unequal']),
    Make('make play, an ID with an apostrophe', ['make', 'play', "ID=it's"], 2, ['refused: BadSize']),
    Make('make install', ['sh', '-c', 'make install DESTDIR="$PWD/.." && make installcheck DESTDIR="$PWD/.."'], says=['is there and plays']),
    Make('make build', ['make', 'build'], 2, ['not built: there is no command /no kit']),
]


def expect(place: Place, row: Make, **env: str) -> Ended:
    """Runs the command. The named words are what else the environment has."""
    return place.run(row.words, input=row.input, env=env).expect(*row.says, status=row.status)


@pytest.mark.parametrize('row', UNBUILT, ids=by_name)
def test_unbuilt(place: Place, row: Make) -> None:
    """They say what is to be typed, and begin no proof, though there is a kit."""
    ended = expect(place, row)
    assert 'functions proved' not in ended.said
    assert not os.path.exists(os.path.join(place.path, 'build'))


def test_from_the_tree(place: Place) -> None:
    """The programs that are stored play, without a kit and without a build, from a terminal, too, where `make play` is the board."""
    place.run(['make', 'programs']).expect('stored: programs/linux-amd64/puzzles\n', 'stored: programs/RECORD')
    shutil.rmtree(os.path.join(place.path, 'build'))
    place.put('../a.sav', save_text(1), 0o644)
    place.put('../b.sav', UNEQUAL_SAVE, 0o644)
    for row in OF_THE_TREE:
        expect(place, row, RT='/no kit')
    with place.terminal('make', 'play', f'ID={ID}', RT='/no kit') as terminal:
        first = terminal.wait_for(PROMPT)
        terminal.answer('quit', PROMPT)
        assert terminal.status() == 0
    assert '1 3 . . . -' in first
    assert not any(map(place.file, ('build/puzzles', 'build/puzzles-json')))


SOURCE = 'crates/clue_rules/src/lib.rt'


def test_compared(place: Place) -> None:
    """The programs in the tree are those that were built, by the same kit and of the sources that are here; otherwise the gate fails."""
    place.run(['make', 'programs']).expect()
    other, advice = place.put('../another', b'#!/bin/sh\n'), ': make programs, and commit\n'
    rows = [
        ('build/puzzles', 0, ['3 passed, 0 failed']),
        (other, 1, [advice, '2 passed, 1 failed']),
        ('nowhere', 1, ['No such file', advice, '2 passed, 1 failed']),
    ]
    for built, status, says in rows:
        place.run(['tools/programs', 'compare', built]).expect(*says, status=status)
    place.put(SOURCE, b'// Else.\n', 0o644)
    stale = 'are of other sources than those that are here'
    place.run(['tools/programs', 'compare', 'build/puzzles']).expect(f'{stale}{advice}', '2 passed, 1 failed', status=1)
    place.run(['make', 'play']).expect(f'{stale}: run make, which proves and builds them', status=2)
    place.put(SOURCE, b'', 0o644)
    place.put('programs/linux-amd64/puzzles', b'#!/bin/sh\n')
    shutil.rmtree(os.path.join(place.path, 'build'))
    place.run(['make', 'play']).expect('puzzles is not the program that programs/RECORD names', status=2)
