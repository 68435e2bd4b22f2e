"""The sentences on puzzles: IDs, pictures and saves, as the second implementation has it, and what can't be read, by its line."""

import json
from typing import List, Sequence

import pytest

from tests.check.conftest import Checker
from tests.harness import ID, PICTURE, Room, made, named, run, save_text

#: The one way to fill the first is 1 2 3, 2 3 1, 3 1 2.
ONE, NONE, SEVERAL = ID, '3:3/3//////////', '3:///////////'
ONE_DRAWN = PICTURE.decode()

#: With 1 or 2 above either column the other clue 3 leaves one way, so four numbers would do, and none is named.
NONE_LINE = f'towers none - - {NONE} Without any one of 2 items there is a solution.'
#: A game of easy Towers, whose second clue was 2.
MISPRINT = '4:3/4/2/1/2/3/1/3/4/2/1/2/1/2/4/2'
SIGNS, SIGNS_DRAWN = '3:0,0L,0L,0U,0,0,0U,0,0,', '.<.<.\n^ - -\n. . .\n^ - -\n. . .\n'

#: Without either clue there are two ways, so no clue can go. Of the signs of the first row the first can, since by those of the first column the
#: corner is 1, and so is the first row's end then; without the second there are two ways. So it is in the column.
ONE_LINE, SIGNS_LINE = f'towers one e 0 {ONE}', f'unequal one e 2 {SIGNS}'


#: The input, the status, and the output.
INPUTS = [
    ('one', f'{ONE}\n', 0, [f'-:1 {ONE_LINE}']),
    ('without a line end', ONE, 0, [f'-:1 {ONE_LINE}']),
    ('lines of another system', f'\ufeff{ONE}\r\n\r\ntowers {ONE}\r\n', 0, [f'-:1 {ONE_LINE}', f'-:3 {ONE_LINE}']),
    ('with a caption', f'{ONE} from the paper\ntowers {ONE} 5!7\n', 0, [f'-:1 {ONE_LINE}', f'-:2 {ONE_LINE}']),
    ('none', f'{NONE}\n', 1, [f'-:1 {NONE_LINE}']),
    ('several', f'{ONE}\n{SEVERAL}\n', 1, [f'-:1 {ONE_LINE}', f'-:2 towers several - - {SEVERAL}']),
    ('a picture of Towers', ONE_DRAWN, 0, [f'-:1 {ONE_LINE}']),
    ('a picture of Unequal', SIGNS_DRAWN, 0, [f'-:1 {SIGNS_LINE}']),
    ('both', f'{SIGNS}\n{ONE_DRAWN}\n\n{SIGNS_DRAWN}\n{ONE}\n', 0, [f'-:1 {SIGNS_LINE}', f'-:2 {ONE_LINE}', f'-:9 {SIGNS_LINE}', f'-:15 {ONE_LINE}']),
    ('a picture with a margin', ''.join(f'    {line}  \n' for line in ONE_DRAWN.splitlines()), 0, [f'-:1 {ONE_LINE}']),
    ('a misprinted clue', MISPRINT, 1, [f'-:1 towers none - - {MISPRINT} With 2 above column 2 it has one solution.']),
    ('two givens of a row twice', '3:1,1,0,2,2,0,0,0,0,', 1, ['-:1 unequal none - - 3:1,1,0,2,2,0,0,0,0, Without two of 4 items there is a solution, in 4 ways.']),
    ('blank', '. . .\n- - -\n. . .\n- - -\n. . .\n', 1, ['-:1 unequal several - - 3:0,0,0,0,0,0,0,0,0,']),
    ('two below one another', ONE_DRAWN + ONE_DRAWN, 0, [f'-:1 {ONE_LINE}', f'-:6 {ONE_LINE}']),
    ('words and names', f'Monday\n\nSkyscrapers\n{ONE}\n\nFutoshiki {SIGNS}\n1. "{ONE}"\n', 0, [f'-:4 {ONE_LINE}', f'-:6 {SIGNS_LINE}', f'-:7 {ONE_LINE}']),
    ('a link', f'see puzzles.html#towers:{ONE}\n', 0, [f'-:1 {ONE_LINE}']),
    ('two equal givens in a row', '1 . 1\n- - -\n. . .\n- - -\n. . .\n', 1, ['-:1 unequal none - - 3:1,0,1,0,0,0,0,0,0, Without any one of 2 items there is a solution.']),
    ('signs that contradict one another', '.>.<.\nv - -\n. . .\n^ - v\n. 1>.\n', 1, ['-:1 unequal none - - 3:0RD,0,0L,0,0,0D,0U,1R,0, With 2 or 3 in r3c2 it has one solution.']),
]

FITS_BOTH = 'it fits both games: write towers or unequal before it'
NO_SIZE = "An ID begins with the size, one digit from 3 to 9, like the 5 in '5!7'."

#: A text that can't be read is told, and the puzzle after it is checked.
UNREAD = [
    ('both games', '4!7', f'-:1: {FITS_BOTH}'),
    ('NUL bytes', '\0\0 3', '-:1: column 1: U+0000 is no number, no sign and no empty square'),
    ('one inside', 'towers 3!1\0', "-:1: A seed is a number from 0 to 18446744073709551615, without leading zeros: '5!7'."),
    ('a size', 'unequal 2:0,0,0,0,', f'-:1: {NO_SIZE}'),
    ('a size by another name', 'Futoshiki 2:0,0,0,0,', f'-:1: {NO_SIZE}'),
    ('a long ID', f'5:{"/" * 3000}', '-:1: A line has 1,024 bytes at most.'),
    ('a long line', f'5:{"/" * 5000}', '-:1: the line has more than 4,096 bytes'),
    ('a short line', ONE_DRAWN.replace('- . . . -', '- . . -', 1), '-:3: this line has 4 symbols, and the others 5'),
    ('a long one', SIGNS_DRAWN.replace('. . .', '. . . .', 1), '-:3: this line has 4 symbols, and the others 3'),
    ('too few lines', SIGNS_DRAWN[:-6].rstrip(), '-:3: the drawing ends here, after 2 rows of 3'),
    ('a number above the size', ONE_DRAWN.replace('- . . .', '- . 4 .', 1), '-:3: column 5: a number is above the size, 3'),
    ('no space', ONE_DRAWN.replace('3 .', '3>.'), "-:2: column 2: '>' stands between two squares of Towers, which has no signs"),
    ('a sign at the edge', SIGNS_DRAWN.replace('^', '<', 1), "-:2: column 1: '<' stands at the edge, and a sign stands between two squares"),
    ('a size of 2', '. .\n- -\n. .\n', '-:1: a drawing of size 2, and sizes go from 3 to 9'),
    ('a line alone', f'{". " * 10}\n', '-:1: 1 line, and a drawing has from 3 to 24'),
    ('a size of 10', f'{". " * 9}.\n' * 10, '-:1: a drawing of size 10, and sizes go from 3 to 9'),
    ('two sizes in one', ONE_DRAWN[:20] + '- . . . . -\n- . . . . -\n+ - - - - +\n', '-:2: this line has 5 symbols, and the others 6'),
    ('another character', ONE_DRAWN.replace('3 .', '3 \u2460'), "-:2: column 3: '\u2460' is no number, no sign and no empty square"),
    ('a mark of direction', ONE_DRAWN.replace('3 .', '3\u200f .'), '-:2: column 2: U+200F is no number, no sign and no empty square'),
    ('tabs and spaces', '  3\n3\t. . .\n  . . .\n  . . .\n', '-:2: column 2: tabs and spaces are mixed: write one of them between two places'),
    ('cut off', ONE_DRAWN[:25], '-:3: this line has 3 symbols, and the others 5'),
]


@pytest.mark.parametrize(('typed', 'status', 'lines'), named(INPUTS))
def test_puzzles(checker: Checker, typed: str, status: int, lines: List[str]) -> None:
    checker.expect(typed, status, lines)


@pytest.mark.parametrize(('typed', 'told'), named(UNREAD))
def test_unread(checker: Checker, typed: str, told: str) -> None:
    lines = typed.rstrip('\n').count('\n') + 3
    checker.expect(f'{typed.rstrip()}\n\n{ONE}\n', 2, [f'-:{lines} {ONE_LINE}'], [told])


def test_refused_ones_cost_nothing(checker: Checker) -> None:
    """After a refused ID nothing is asked, and the answers stay with their puzzles."""
    typed = ''.join(f'towers {id}\nunequal 3:\ntowers 3!x\n{SIGNS}\n' for id in (ONE, SEVERAL, NONE))
    ended = checker.run(['--quick'], typed.encode())
    assert [line.split('\t')[:3] for line in ended.output.decode().splitlines()] == [
        ['-:1', 'towers', 'one'], ['-:4', 'unequal', 'one'], ['-:5', 'towers', 'several'], ['-:8', 'unequal', 'one'], ['-:9', 'towers', 'none'], ['-:12', 'unequal', 'one'],
    ]  # fmt: skip
    assert [line.split(':')[2] for line in ended.error.decode().splitlines()] == ['2', '3', '6', '7', '10', '11']


def test_solutions(checker: Checker) -> None:
    """Up to two, each on a line of its own. The two of the second puzzle are the only ones whose first row is 1 2 3, and so are its givens."""
    two = 'unequal 3:1,2,3,0,0,0,0,0,0,'
    checker.expect(f'{ONE}\n{NONE}\n', 1, [f'-:1 {ONE_LINE}', ' 123 231 312', f'-:2 {NONE_LINE}'], words=['--solutions'])
    ended = checker.run(['--solutions', '--quick'], two.encode())
    first, *solutions = ended.output.decode().splitlines()
    assert (first.split('\t')[2], sorted(solutions)) == ('several', ['\t123 231 312', '\t123 312 231'])


def test_objects(checker: Checker) -> None:
    """With the items that could go; where there is no solution, those without each of which there is one."""
    ended = checker.run(['--json', '--solutions'], f'{SIGNS}\n{NONE}\n'.encode())
    one, none = map(json.loads, ended.output.decode().splitlines())
    spare = {'clues': [], 'givens': [], 'signs': [{'greater': 1, 'less': 0}, {'greater': 3, 'less': 0}]}
    names = ['r1c2 greater than r1c1', 'r2c1 greater than r1c1']
    assert one == {
        'file': '-', 'line': 1, 'game': 'Unequal', 'completable': 'one', 'grade': 'e', 'spare': spare, 'spareNames': names, 'spareByGrade': spare,
        'spareByGradeNames': names, 'id': SIGNS, 'doubt': None, 'solutions': [[1, 2, 3, 2, 3, 1, 3, 1, 2]],
    }  # fmt: skip
    assert (none['completable'], none['grade'], none['solutions']) == ('none', None, [])
    assert none['spare']['clues'] == [{'x': 0, 'y': -1}, {'x': 1, 'y': -1}]
    assert none['spareNames'] == ['clue 3 above column 1', 'clue 3 above column 2']
    above = [{'x': x, 'y': -1, 'name': f'clue above column {x + 1}', 'clue': clue} for x in (0, 1) for clue in (1, 2)]
    assert (none['mends'], none['pairs']) == ({'one': above, 'several': []}, [])
    pairs = json.loads(checker.run(['--json'], b'3:1,1,0,2,2,0,0,0,0,').output)['pairs']
    assert pairs == [[{'cell': one, 'name': f'r1c{one + 1}'}, {'cell': other, 'name': f'r2c{other - 2}'}] for one in (0, 1) for other in (3, 4)]
    signs = json.loads(checker.run(['--json'], b'.>.<.\nv - -\n. . .\n^ - v\n. 1>.\n').output)['mends']
    assert signs['one'] == [{'cell': 7, 'name': 'r3c2', 'number': number} for number in (2, 3)]
    assert json.loads(checker.run(['--json', '--quick'], ONE.encode()).output)['spare'] is None


def test_saves(checker: Checker, room: Room) -> None:
    """Of a save only the puzzle is checked. A file and standard input may be one, and several files come one after the other."""
    room.put('old.sav', save_text(2))
    room.put('two words', f'{ONE}\n'.encode())
    ended = checker.run(['old.sav', 'two words'])
    assert ended.output.decode().replace('\t', ' ') == f'old.sav:1 {ONE_LINE}\ntwo words:1 {ONE_LINE}\n'
    assert ended.error == b'' and ended.status == 0
    assert checker.run([], room.read('old.sav') or b'').output.decode().replace('\t', ' ') == f'-:1 {ONE_LINE}\n'
    later = save_text(2) + save_text(2) + f'{ONE}\n'.encode()
    lines = later.count(b'\n')
    assert checker.run([], later).output.decode().replace('\t', ' ').splitlines() == [f'-:{at} {ONE_LINE}' for at in (1, (lines + 1) // 2, lines)]
    checker.expect('SAVEFILE:41:', 2, [], ['-:1: This is not a save file of the collection: one begins with \'SAVEFILE:41:\'.'])


#: Saves that come in one stream, and the lines in which they begin.
STREAMS = [
    ('without line ends', save_text(2).rstrip() * 3, [1, 10, 19]),
    ('behind something else in its line', save_text(2).rstrip() + b' ' + save_text(2) + b'Monday: ' + save_text(2), [1, 10, 20]),
    ('more than Python calls itself', save_text(2) * 1500, range(1, 1 + 1500 * 10, 10)),
]


@pytest.mark.parametrize(('typed', 'lines'), named(STREAMS))
def test_saves_in_a_row(checker: Checker, typed: bytes, lines: Sequence[int]) -> None:
    """Each is checked, and none is taken for a title."""
    ended = checker.run(['--quick'], typed)
    assert (ended.status, ended.error) == (0, b'')
    assert [line.split('\t')[0] for line in ended.output.decode().splitlines()] == [f'-:{line}' for line in lines]


@pytest.mark.parametrize('game', ['towers', 'unequal'])
def test_pictures(checker: Checker, program: str, room: Room, game: str) -> None:
    """A picture is read as the puzzle that it was drawn of: the ID is that one's, and so are its answers."""
    ids = [id for size in (3, 4, 5) for id in made(game, size, 'tekhxur')[:12]]
    plain = [f'{id[0]}:{id.partition(":")[2]}' for id in ids]
    lines = ''.join(f'new {id}\nshow\n' for id in ids)
    drawn = run([program, game], room, input=lines.encode()).output.decode().split('ok\n')[1:]
    ended = checker.run(['--quick', '--json'], '\n'.join(drawn).encode())
    found = [json.loads(line) for line in ended.output.decode().splitlines()]
    assert [(each['id'], each['completable']) for each in found] == [(id, 'one') for id in plain]
    listed = checker.run(['--quick', '--json'], ''.join(f'{game} {id}\n' for id in plain).encode())
    assert [json.loads(line)['grade'] for line in listed.output.decode().splitlines()] == [each['grade'] for each in found]
