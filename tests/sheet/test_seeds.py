"""Fair games by size, grade and seed: which ones come onto a sheet, as a second implementation makes and grades them, and what is told where there are none."""

import re
from html import unescape
from typing import List

import pytest

from playing.games import GRADES
from playing.program import Program
from tests.harness import Room, by_words, in_the_gate
from tests.harness.between import put_between
from tests.second_implementation.fair import fair
from tests.second_implementation.grades import LETTERS, follows
from tests.sheet.making import Maker, content
from tests.sheet.reading import Picture, pictures

#: Puzzles of no grade: both are of seeds, 6!7 and 5!9.
TOWERS, UNEQUAL = 'towers 6!7', 'unequal 5!9'


def captions(page: str) -> List[str]:
    """The size and the grade of each puzzle."""
    return [f'{size} {grade}'.strip() for grade, size in re.findall(r'<b>\d+</b><span>(\w*)</span><i [^>]*>\w+ (\d)', page)]


def ids(page: str) -> List[str]:
    return [picture.id for picture in pictures(page)]


def graded(picture: Picture) -> str:
    """The size of a puzzle, and its grade as the second implementation has it."""
    found = [letter for letter, grade in LETTERS[picture.game].items() if follows(picture.puzzle, grade)]
    return f'{picture.puzzle.size} {GRADES[picture.game][found[0]].title() if found else ""}'.strip()


#: The words, what each puzzle's caption is to have, and what is told.
SHEETS = [
    (['towers'], ['5 Easy'] * 12, ''),
    (['unequal', '--count', '3', '--seed', '0'], ['5 Easy'] * 3, ''),
    (
        ['towers', '--size', '4-6', '--count', '4'],
        ['4 Easy', '4 Easy', '5 Easy', '6 Easy'],
        '4 puzzles of 3 kinds: 2 of size 4 easy, 1 of size 5 easy, 1 of size 6 easy',
    ),
    (
        ['unequal', '--size', '4-5', '--grade', 'easy,tricky', '--count', '3'],
        ['4 Easy', '4 Tricky', '5 Easy'],
        '3 puzzles of 4 kinds: 1 of size 4 easy, 1 of size 4 tricky, 1 of size 5 easy, 0 of size 5 tricky',
    ),
    (['towers', '--size', '4-5', '--count', '1'], ['4 Easy'], '1 puzzle of 2 kinds: 1 of size 4 easy, 0 of size 5 easy'),
    (
        ['towers', '--size', '5-7', '--grade', 'easy,hard', '--seed', '20261126'],
        [f'{size} {grade}' for size in (5, 6, 7) for grade in ('Easy', 'Easy', 'Hard', 'Hard')],
        '',
    ),
    (
        ['unequal', '--size', '5,4', '--grade', 'easy,trivial', '--count', '8'],
        ['4 Trivial', '4 Trivial', '4 Easy', '4 Easy', '5 Trivial', '5 Trivial', '5 Easy', '5 Easy'],
        '',
    ),
    (['unequal', '--size', '7', '--grade', 'tricky', '--count', '4'], ['7 Tricky'] * 4, ''),
    (['towers', '--size', '3-9', '--count', '7', '--per-page', '4'], [f'{size} Easy' for size in range(3, 10)], ''),
    (['unequal', '--size', '8-9', '--grade', 'trivial,tricky', '--count', '4', '--per-page', '2'], ['8 Trivial', '8 Tricky', '9 Trivial', '9 Tricky'], ''),
]


@pytest.mark.parametrize(('words', 'wanted', 'told'), by_words(SHEETS))
def test_sheet(maker: Maker, words: List[str], wanted: List[str], told: str) -> None:
    """They rise by size, and then by grade, with as many of one kind as of another, or it is told; each has the grade that was asked for."""
    page = maker.page([*words, '--answers', 'none', '--show-grades', 'all'], told=f'{told}\n' if told else '')
    assert captions(page) == wanted
    assert [graded(picture) for picture in pictures(page)] == wanted


def made(game: str, size: int, letter: str, seed: int) -> str:
    """The ID of a fair game, as the second implementation has it, without its letter."""
    return f'{size}:{fair(game, size, letter, seed).description()}'


EACH = [('towers', 5, 'hard', 1, 6), ('unequal', 6, 'easy', 40, 4), ('towers', 9, 'easy', 20261126, 2), ('unequal', 8, 'tricky', 2**64 - 1, 2)]


@pytest.mark.parametrize(('game', 'size', 'grade', 'first', 'count'), in_the_gate(EACH, lambda row: row[1] > 6))
def test_each_seed(maker: Maker, game: str, size: int, grade: str, first: int, count: int) -> None:
    """The puzzles are those of the seeds from the first one on, one after the other; after the last seed comes 0."""
    letter = next(letter for letter, name in GRADES[game].items() if name == grade)
    page = maker.page([game, '--size', str(size), '--grade', grade, '--seed', str(first), '--count', str(count), '--answers', 'none'])
    assert ids(page) == [made(game, size, letter, (first + at) % 2**64) for at in range(count)]


@pytest.mark.parametrize(('game', 'letter', 'first'), [('towers', 'e', 20261126), ('towers', 'e', 20261127), ('unequal', 'k', 10**12 - 1)])
def test_series(maker: Maker, game: str, letter: str, first: int) -> None:
    """The seeds of a series are a million millions apart, so no two series have one in common. The foot tells the series."""
    page = maker.page([game, '--grade', GRADES[game][letter], '--series', str(first), '--count', '4', '--answers', 'none'])
    assert ids(page) == [made(game, 5, letter, first + at * 10**12) for at in range(4)]
    assert re.search(rf'<footer><span>Sheet [0-9A-F]{{4}}, series {first}</span>', page)


def test_again(maker: Maker) -> None:
    """The same words make the same bytes, whatever the environment says, and so does the command in the foot; another seed makes others."""
    words = ['towers', '--seed', '11', '--count', '5', '--words', '--paper', 'letter', '--title', "Anna's sheet"]
    page = maker.page(words)
    assert maker.run(words, env={'LC_ALL': 'C', 'TZ': 'Asia/Tokyo', 'PYTHONHASHSEED': '7'}).output.decode() == page
    (again,) = set(re.findall(r'<footer>.*?<code>puzzles-sheet (.*?)</code>', page))
    assert unescape(again) == """towers --size 5 --grade easy --seed 11 --count 5 --paper letter --words --title 'Anna'"'"'s sheet'"""
    assert maker.page([*again.split(' --title')[0].split(), *words[-2:]]) == page
    assert not set(ids(page)) & set(ids(maker.page(['towers', '--seed', '90', '--count', '5'])))
    assert set(ids(page)) <= set(ids(maker.page(['towers', '--seed', '10', '--count', '8'])))


def test_number(maker: Maker) -> None:
    """The number at the foot of a class sheet is the seed: with size, grade and count, which the sheet shows, it makes the puzzles again."""
    page = maker.page(['unequal', '--size', '6', '--grade', 'tricky', '--seed', '20261127', '--count', '4', '--title', 'Class 4b', '--per-page', '4'])
    sheet, number = re.findall(r'<footer><span>Sheet ([0-9A-F]{4}), number (\d+)</span><code></code>', page)[0]
    assert 'puzzles-sheet' not in page and '<figcaption' in page and '6:' not in re.sub('<svg.*?</svg>', '', page)
    again = maker.page(['unequal', '--size', '6', '--grade', 'tricky', '--seed', number, '--count', '4'])
    assert ids(again) == ids(page) and f'Sheet {sheet}, number' in again


@pytest.mark.parametrize(('game', 'count', 'told'), [('unequal', 9, '[78] of the 9 puzzles have'), ('towers', 4, '1 of the 4 puzzles has')])
def test_few(maker: Maker, game: str, count: int, told: str) -> None:
    """Of the twelve Latin squares of size 3 few are left when those that turn into each other count once."""
    ended = maker.run([game, '--size', '3', '--count', str(count), '--answers', 'none'])
    assert ended.status == 0
    assert re.fullmatch(f'{told} the solution of an earlier one, perhaps turned over: 60 in a row had no new one\n', ended.error.decode())
    assert len(set(ids(ended.output.decode()))) == count


REFUSED = [
    (['towers', '--size', '3', '--grade', 'hard'], 'Towers of size 3 has no hard puzzles: --ids prints the puzzles of a list.\n'),
    (['unequal', '--size', '3-9', '--grade', 'easy,tricky'], 'Unequal of size 3 has no tricky puzzles: --ids prints the puzzles of a list.\n'),
]


@pytest.mark.parametrize(('words', 'told'), by_words(REFUSED))
def test_refused(maker: Maker, room: Room, words: List[str], told: str) -> None:
    maker.refuses([*words, '--output', 'page.html'], 3, told)
    assert room.names() == []


#: Has no game of the seeds for which a condition holds.
WITHOUT = """\
    words = line.split()
    seed = int(words[3]) if words[0] == b'fair' else 0
    reply = {{**answer(b'board\\n'), 'refused': 'NoneFound'}} if {condition} else answer(line)
"""


def before(room: Room, program: str, condition: str) -> Maker:
    return Maker(put_between(room, program, WITHOUT.format(condition=condition)), room)


def test_passed_over(maker: Maker, room: Room, objects: str) -> None:
    """A seed of which no draw gave a game is passed over, as 1185 is; after a hundred in a row no more are tried."""
    page = maker.page(['unequal', '--size', '4', '--grade', 'tricky', '--seed', '1185', '--count', '1', '--answers', 'none'])
    assert ids(page) == [made('unequal', 4, 'k', 1186)]
    page = before(room, objects, 'seed in (2, 3, 5)').page(['towers', '--seed', '1', '--count', '4', '--answers', 'none'])
    assert ids(page) == [made('towers', 5, 'e', seed) for seed in (1, 4, 6, 7)]
    told = 'No easy puzzle of Towers of size 5 was found with 100 seeds, from 9 to 108.\n'
    before(room, objects, '8 < seed < 2**64').refuses(['towers', '--seed', '7', '--output', 'page.html'], 3, told)
    assert room.names() == ['between']


def test_grade(maker: Maker, objects: str) -> None:
    """The grade of a caption is the program's; where the program finds none, that of the ID's letter."""
    with Program(objects, 'towers', ['--id', TOWERS.split()[1]]) as program:
        board = program.first.board
    assert board is not None
    description = board.session.id[2:]
    rows = [
        ('3:3//////3/////', '3 Easy'),
        ('3dh:3//////3/////', '3 Easy'),
        ('unequal 5!36', '5 Trivial'),
        ('unequal 5!25', '5 Tricky'),
        ('towers 5!2', '5 Hard'),
        (TOWERS, '6'),
        (UNEQUAL, '5'),
        (f'6dx:{description}', '6 Extreme'),
    ]
    ended = maker.run(['--ids', '-', '--answers', 'none', '--show-grades', 'all'], content([line for line, _ in rows]))
    page = ended.output.decode()
    assert captions(page) == [caption for _, caption in rows]
    assert [graded(picture) for picture in pictures(page)][:-1] == [caption for _, caption in rows][:-1]
