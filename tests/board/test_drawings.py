"""Files with drawings in the line mode: a drawing is shown before it counts, and is played by a word. `played/drawings.txt` has the board's."""

from typing import List, Tuple

import pytest

from tests.board.playing import BoardFront
from tests.harness import Room, run

DRAWN = '    3 - -\n  3 . . . -\n  - . . . -\n  - . . . -\n    - - -\n'
SIGNED = '.<. .\n. . 2\nv    \n. . .\n'

#: As the desk shows it, with the numbers of columns and rows.
SHOWN = '    1 2 3\n  + 3 - - +\n1 3 . . . -\n2 - . . . -\n3 - . . . -\n  + - - - +\n2 clues, 0 given; exactly one solution\n'

#: The file, the lines, and what is said in this order.
READ: List[Tuple[str, str, List[str]]] = [
    (f'Skyscrapers\n\n{DRAWN}', 'play\nid\nstatus\n', [f'\nRead in line 3 of printed.txt: Towers 3x3, 2 clues, 0 given.\n{SHOWN}', '\n3:3//////3/////\nplaying 1/1\n']),
    (SIGNED, 'undo\nback\n', ['2 signs, 1 given. Note: no line of signs stands below row 1, so there are none', '\n0 signs, 0 given. ', 'Type a square and a number']),
    (
        f'{SIGNED}\n3:3//////3/////\n',
        '1\nid\nload printed.txt\n\nid\ndesk\nload\nload printed.txt\n1\nid\nundo\nload printed.txt\n0\nid\n',
        [
            'printed.txt has 2 puzzles: one of them is taken.\n0  line 1: Unequal 3x3, 2 signs, 1 given\n1  line 6: 3:3//////3/////\n'
            'Type the number of one, or an empty line for none.\n',
            '\n3:3//////3/////\n',
            'an empty line for none.\nNo puzzle was taken.\n3:3//////3/////\n',
            "\n'load FILE' reads a puzzle that is drawn in a file.\n",
            f'for none.\n{SHOWN}3:3//////3/////\n0 clues, 0 given. ',
            '\n3:0,0L,0,0D,0,2,0,0,0,\n',
        ],
    ),
]


@pytest.mark.parametrize(('file', 'lines', 'wanted'), READ)
def test_read(front: BoardFront, room: Room, file: str, lines: str, wanted: List[str]) -> None:
    room.put('printed.txt', file.encode())
    said = run([front.path, '--lines', 'printed.txt'], room, input=lines.encode(), env=front.env()).expect().output.decode()
    rest = f'\n{said}'
    for text in wanted:
        assert text in rest, f'{text!r} is lacking in {rest!r} of {said!r}'
        rest = rest.partition(text)[2]


#: The game, its ID, and its text.
COPIED = [
    ('towers', '3:3//////3/////', '   3    \n\n3          \n           \n           \n\n        \n'),
    ('towers', '3:3/2/1/1/2/2/3/2/1/1/2/2', '   3 2 1\n\n3         1\n2         2\n1         2\n\n   1 2 2\n'),
    ('unequal', '3:0,0L,0,0D,0,2,0,0,0,', '.<. .\n     \n. . 2\nv    \n. . .\n'),
]


@pytest.mark.parametrize(('game', 'id', 'text'), COPIED)
def test_copied(front: BoardFront, room: Room, game: str, id: str, text: str) -> None:
    """A puzzle is printed as the usual program copies it, in a game and at the desk, and that is read again."""
    for lines in (b'text\nid\n', b'desk\ngame\ntext\nid\n'):
        ended = run([front.path, '--lines', game, id], room, input=lines, env=front.env())
        assert ended.expect().output.decode().partition(text)[1:][1].startswith(f'{id}\n')
    room.put('copied.txt', text.encode())
    assert f'\n{id}\n' in run([front.path, '--lines', 'copied.txt'], room, input=b'id\n', env=front.env()).expect().output.decode()


#: A file, and why nothing is taken of it.
REFUSED = [
    ('    3 - -\n  3 . q . -\n  - . . . -\n  - . . . -\n    - - -\n', "printed.txt, line 2, column 7: 'q' is no number, no sign and no empty square."),
    (DRAWN[:-10], 'printed.txt, line 4: the drawing ends here, after 4 lines of 5. '),
    (f'{SIGNED}\n{DRAWN}', 'No puzzle was taken.'),
    ('5:3/2\n', 'Too few'),
    ('words', 'Nor is a puzzle drawn in it: '),
    ('3:3//////3/////\n' * 7000, 'It has more than 100,000 bytes, so no printed puzzle is sought in it.'),
]


@pytest.mark.parametrize(('file', 'why'), REFUSED, ids=[why for _, why in REFUSED])
def test_refused(front: BoardFront, room: Room, file: str, why: str) -> None:
    room.put('printed.txt', file.encode())
    ended = run([front.path, '--lines', 'printed.txt'], room, env=front.env())
    assert ended.status == 3
    assert why in ended.output.decode()
