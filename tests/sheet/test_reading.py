"""The drawing is the puzzle that its ID names, and its only answer: read back from the places of lines and digits."""

import re

from playing.program import Program
from sheet import drawing
from tests.harness import Room, run
from tests.sheet.making import Maker, content, listed
from tests.sheet.reading import Picture, picture, pictures

#: The ID in a caption, with marks where its lines may end.
ID = re.compile(r'<code[^>]*>(\d.*?)</code>')


def plain(id: str) -> str:
    """An ID without its letter."""
    return re.sub('^(.)d.:', r'\1:', id)


def test_all(maker: Maker, program: str, room: Room) -> None:
    """Of 200 puzzles of both games and all sizes each is drawn as it was given, and each answer is taken by the program."""
    lines = listed()
    ended = maker.run(['--ids', '-', '--title', 'All', '--ids-below', '--count', '200'], content(lines))
    assert ended.status == 0, ended.error
    page = ended.output.decode()
    ids = [id.replace('<wbr>', '') for id in ID.findall(page)]
    drawn = pictures(page)
    puzzles, answers = drawn[:200], drawn[200:]
    assert (len(ids), len(drawn)) == (200, 400)
    assert [plain(id) for id in ids] == [puzzle.id for puzzle in puzzles]
    assert [answer.id for answer in answers] == [puzzle.id for puzzle in puzzles]
    # The IDs are those of the lines, and the numbers that are drawn solve them.
    for game in ('towers', 'unequal'):
        rows = [(line, id, answer) for line, id, answer in zip(lines, ids, answers) if answer.game == game]
        typed = [f'new {line.rpartition(" ")[2]}\nid\nmove S{digits(answer)}\nlist 2' for line, _, answer in rows]
        answered = run([program, game], room, input=content(typed)).expect().output.decode().splitlines()
        for at, (_, id, answer) in enumerate(rows):
            assert answered[4 * at : 4 * at + 4] == ['ok', id, 'ok', digits(answer)]


def digits(answer: Picture) -> str:
    return ''.join(map(str, answer.numbers))


def test_wrong_sign(objects: str) -> None:
    """A sign that no numbers can meet any more is drawn apart from the others."""
    with Program(objects, 'unequal', ['--id', '3:0,0L,0L,0U,0,0,0U,0,0,']) as asked:
        asked.ask('move R0,0,3')
        board = asked.ask('board').board
    assert board
    svg = drawing.picture(board, drawing.pen('unequal', 1000), 'A board')
    wrong = [path.attrib['d'].count('M') for path in svg.iter('path') if path.get('class') == 'wrong']
    assert wrong == [2]
    assert picture(svg).id == '3:0,0L,0L,0U,0,0,0U,0,0,'
