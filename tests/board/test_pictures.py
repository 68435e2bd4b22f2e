"""Pictures of the board with squares of each depth, as text files for a person to look at, which a terminal has to show. Other sizes are in `test_layout`."""

import os
from pathlib import Path
from typing import List, NamedTuple, Tuple

import pytest

from tests.board.playing import USUAL, BoardFront
from tests.harness import by_name, made
from tests.harness.screen import Screen

PICTURES = Path(__file__).resolve().parent / 'pictures'

#: All marks, two equal numbers, pencil marks taken away, and a clue that is done where there is one.
KEYS = 'm1<right>1<right><down>p12p<down><left><left><left>d'

#: At the desk: a puzzle whose clues can each be left out; and two clues of which one must be wrong.
SPARE = '3:3/2/1/1/2/2/3/2/1/1/2/2'
NINE, BLAMED = '9:///////////////////////////////////', '<up>1<right>1'

#: Clears the sentence that the last key may have left.
LAST = '<right>'


class Picture(NamedTuple):
    """An easy puzzle on a screen of so many lines and columns."""

    game: str
    size: int
    screen: Tuple[int, int] = USUAL
    term: str = 'xterm-256color'
    locale: str = 'C.UTF-8'

    #: A puzzle that is set or checked at the desk, in place of keys in the game of the usual puzzle: its name, the puzzle, and the keys.
    desk: Tuple[str, str, str] = ('', '', '')

    @property
    def name(self) -> str:
        lines, columns = self.screen
        plain = '-plain' if self.locale == 'C' else ''
        return f'{self.game}-{self.size}-{self.desk[0]}{columns}x{lines}{plain}.txt'


ALL: List[Picture] = [
    *(Picture(game, size) for game in ('towers', 'unequal') for size in (3, 5, 6, 9)),
    *(Picture(game, 5, (20, 40)) for game in ('towers', 'unequal')),
    Picture('unequal', 5, (43, 132)),
    Picture('towers', 9, (43, 132)),
    *(Picture(game, 6, term='vt100', locale='C') for game in ('towers', 'unequal')),
    *(Picture('towers', 3, term=term, locale=locale, desk=('spare-', SPARE, '')) for term, locale in (('xterm-256color', 'C.UTF-8'), ('vt100', 'C'))),
    Picture('towers', 9, desk=('blamed-', NINE, BLAMED)),
    Picture('unequal', 4, desk=('several-', '4:0,0,0R,0,0,0,0,0,0,0U,0,0,0,3,0,0,', '')),
    Picture('unequal', 9, (24, 44), desk=('wrong-', '9:' + '0,' * 81, '1>v<right>2<down><left>2')),
]


def text_of(screen: Screen) -> str:
    return ''.join(f'{line}\n' for line in screen.text()).rstrip('\n') + '\n'


def seen(front: BoardFront, picture: Picture, wanted: str) -> str:
    """The text of the screen at the end, as soon as that is the wanted one, or when it stays otherwise."""
    env = front.env(TERM=picture.term, LC_ALL=picture.locale)
    id = picture.desk[1] or made(picture.game, picture.size, 'e')[0]
    keys = f'E<left><enter>{picture.desk[2]}' if picture.desk[1] else KEYS + LAST
    with front.window([picture.game, id], picture.screen, env) as window:
        window.wait_until(lambda screen: any('0/0' in line for line in screen.text()))
        window.press(keys + '?')
        window.wait_until(lambda screen: any('any' in line and 'back' in line for line in screen.text()))
        window.press('x')
        window.wait_until(lambda screen: text_of(screen) == wanted, 5)
        return text_of(window.screen)


@pytest.mark.parametrize('picture', ALL, ids=by_name)
def test_picture(front: BoardFront, picture: Picture) -> None:
    """With PICTURES=new in the environment they are stored anew."""
    path = PICTURES / picture.name
    is_new = os.environ.get('PICTURES') == 'new'
    wanted = path.read_text(encoding='utf-8') if path.exists() and not is_new else ''
    shown = seen(front, picture, wanted)
    if is_new:
        path.write_text(shown, encoding='utf-8')
    else:
        assert shown == wanted, shown
