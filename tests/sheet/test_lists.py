"""Lists of IDs and save files: what is taken, and what is told of each line that isn't. Nothing is written then."""

import itertools
import os
import re
import resource
from typing import Iterator, List, NamedTuple

import pytest

from tests.harness import ID, Room, by_name, named, save_text
from tests.second_implementation.seeded import generate
from tests.sheet.making import Maker, content, stored
from tests.sheet.reading import pictures

#: A small puzzle of each game; the same one turned over, and one with another solution; and three that can't be printed.
TOWERS, TURNED, OTHER = '3:3//////3/////', '3://3///////3//', '3:///////////,3_2_1_2_1_3_1_3_2'
UNEQUAL = '3:0,0L,0L,0U,0,0,0U,0,0,'
SEVERAL, NONE, SHORT = '3:///////////', '3:1,1,0,0,0,0,0,0,0,', '3:1/2'

FEW = "Too few parts: a description has 4 x size clues separated by '/', then ',' and the squares."
SIZE = "An ID begins with the size, one digit from 3 to 9, like the 5 in '5!7'."


def seeded(game: str) -> str:
    """The ID of the puzzle 3!7."""
    return f'3:{generate(game, 3, 7).description()}'


class Good(NamedTuple):
    """A list, and the IDs of what is printed, without letters; what is told of it; and what stands in the page."""

    name: str
    list: bytes
    ids: List[str]
    told: str = ''
    has: str = ''
    words: List[str] = []


GOOD = [
    Good('either game', content([TOWERS, UNEQUAL]), [TOWERS, UNEQUAL]),
    Good('CR and a mark of UTF-8', b'\xef\xbb\xbf' + f'{TOWERS}\r\n\r\n{UNEQUAL}\r\n'.encode(), [TOWERS, UNEQUAL]),
    Good('a caption', f'{UNEQUAL}\t for   <Anna> &\n'.encode(), [UNEQUAL], has='>for &lt;Anna&gt; &amp;</p>'),
    Good('letters that are none', UNEQUAL.encode() + b' caf\xe9 \x07\x1b[31m\n', [UNEQUAL], has='>caf\ufffd [31m</p>'),
    Good('a seed of the game that is named', b'unequal 3!7\n', [seeded('unequal')]),
    Good('a seed where the words name the game', b'3!7 seven', [seeded('towers')], words=['towers'], has='>seven</p>'),
    Good('another spelling', b'3:///////////,3_2_1_2_1_3_1_3_2', [OTHER]),
    Good('the same once more', content([TOWERS, TOWERS]), [TOWERS, TOWERS], 'line 2: it has the solution of line 1, perhaps turned over\n'),
    Good('turned over', content([TOWERS, OTHER, TURNED]), [TOWERS, OTHER, TURNED], 'line 3: it has the solution of line 1, perhaps turned over\n'),
    Good('two that differ', content([TOWERS, TURNED, OTHER, SEVERAL]), [TOWERS, OTHER], words=['--count', '2']),
    Good('too few that differ', content([TOWERS, TURNED]), [TOWERS, TURNED], 'line 2: it has the solution of line 1, perhaps turned over\n', words=['--count', '9']),
]


@pytest.mark.parametrize('row', GOOD, ids=by_name)
def test_good(maker: Maker, row: Good) -> None:
    page = maker.page([*row.words, '--ids', '-', '--answers', 'none'], row.list, row.told)
    assert [puzzle.id for puzzle in pictures(page)] == row.ids
    assert row.has in page


#: A list, and what is told of it.
WRONG = [
    ('several solutions', content([TOWERS] * 6 + [SEVERAL]), 'line 7: several solutions\n'),
    ('each line is told', content([SEVERAL, TOWERS, NONE, SHORT, 'x']), f'line 1: several solutions\nline 3: no solution\nline 4: {FEW}\nline 5: {SIZE}\n'),
    ('a seed that fits both', b'3!7', 'line 1: it fits both games: write towers or unequal before it\n'),
    ('of the game that is named', f'towers {UNEQUAL}'.encode(), f'line 1: {FEW}\n'),
    ('a long line', b'3:' + b'/' * 5000, 'line 1: A line has 1,024 bytes at most.\n'),
    ('a line of zeros', b'3:\x00', "line 1: Too few parts: a description has one for each square, separated by ','.\n"),
    ('a folder', b'/tmp', 'line 1: /tmp is a folder\n'),
    ('no save', b'/etc/passwd', "line 1: This is not a save file of the collection: one begins with 'SAVEFILE:41:'.\n"),
    ('empty', b'', 'standard input has no puzzles\n'),
    ('empty lines', b'\n\r\n \n', 'standard input has no puzzles\n'),
    ('too many', content([TOWERS] * 201), 'There are more than 200 puzzles, and a sheet has 200 at most: --count 200 takes the first ones.\n'),
    ('letters for the terminal', b'\x1b[31m', f'line 1: {SIZE}\n'),
]


@pytest.mark.parametrize(('listed', 'told'), named(WRONG))
def test_wrong(maker: Maker, room: Room, listed: bytes, told: str) -> None:
    maker.refuses(['--ids', '-', '--output', 'page.html'], 3, told, listed)
    assert room.names() == []


def test_saves(maker: Maker, room: Room) -> None:
    """A save in the list, with a caption, in a place whose name has a blank; and as the list itself. Its puzzle is at the start."""
    room.put('a game.sav', save_text(3))
    room.put('game.sav', save_text(3))
    room.put('damaged.sav', save_text(3)[:53])
    room.put('third.sav', save_text(3).replace(b'GAME    :6:Towers', b'GAME    :5:Mines'))
    assert [puzzle.id for puzzle in pictures(maker.page(['--ids', '-'], b'a game.sav\n'))] == [ID, ID]
    assert 'of Anna</p>' in maker.page(['--ids', '-'], b'game.sav of Anna')
    assert [sum(puzzle.numbers) for puzzle in pictures(maker.page(['--ids', 'game.sav']))] == [0, 18]
    told = 'line 1: That save is damaged (Missing).\nline 2: That is a save of Mines, which is not played here.\n'
    maker.refuses(['--ids', '-'], 3, told, b'damaged.sav\nthird.sav\n')


def test_large(maker: Maker, room: Room) -> None:
    """A list of 1 GB is not read to its end, nor is one that has none."""
    room.put('large')
    with open(f'{room.path}/large', 'wb') as file:
        file.truncate(1 << 30)
    for name in ('large', '/dev/zero'):
        maker.refuses(['--ids', name], 3, f'{name} has more than 16,777,216 bytes\n')


def test_long(maker: Maker, room: Room) -> None:
    """A list is read as it comes: one of line ends alone is refused in little time of a processor, and of a long one no more is read than is needed."""
    limits = {resource.RLIMIT_AS: 400 << 20}
    maker.refuses(['--ids', '-'], 3, 'standard input has no puzzles\n', b'\n' * 16_777_216, limits={**limits, resource.RLIMIT_CPU: 20})
    lines = stored('towers', 5, 20)
    room.put('many', content(lines * 5000))
    with open(f'{room.path}/many', 'rb') as file:
        ended = maker.run(['--ids', '-', '--count', '5', '--answers', 'none'], stdin=file.fileno(), limits=limits)
        assert file.seek(0, os.SEEK_CUR) < 1 << 17, 'what was read'
    assert (ended.status, ended.error) == (0, b'')
    assert [puzzle.id for puzzle in pictures(ended.output.decode())] == [re.sub('d.:', ':', id) for id in lines[:5]]
    room.put('too many', content(['x'] * 1_000_000))
    with open(f'{room.path}/too many', 'rb') as file:
        ended = maker.run(['--ids', '-'], stdin=file.fileno())
        assert file.seek(0, os.SEEK_CUR) < 1 << 17, 'what was read'
    assert (ended.status, ended.error.decode()[:31]) == (3, 'There are more than 200 puzzles')


def test_unread(maker: Maker) -> None:
    for name, why in (('lacks', 'No such file or directory'), ('.', 'Is a directory')):
        maker.refuses(['--ids', name], 3, f"{name} can't be read ({why})\n")


def test_long_list(maker: Maker) -> None:
    """A long list gives as many puzzles as were asked for, and no two with one solution."""
    lines = stored('unequal', 4, 40)
    page = maker.page(['--ids', '-', '--count', '20', '--answers', 'only'], content(lines))
    answers = [picture.numbers for picture in pictures(page)]
    assert len(answers) == 20
    assert len({tuple(min(turned(answer))) for answer in answers}) == 20


def turned(numbers: List[int]) -> Iterator[List[int]]:
    """A square of Unequal in all its positions, with its numbers in reverse, too; by places, and not by rows."""
    size = round(len(numbers) ** 0.5)
    for is_turned, across, down, is_reversed in itertools.product([False, True], repeat=4):
        found = []
        for x, y in itertools.product(range(size), repeat=2):
            column, row = (size - 1 - x if across else x), (size - 1 - y if down else y)
            number = numbers[size * column + row if is_turned else size * row + column]
            found.append(size + 1 - number if is_reversed else number)
        yield found
