"""Questions, lines of text, pages and lists over the board."""

from __future__ import annotations

import textwrap
from typing import Callable, List, NamedTuple, Optional, Sequence

from board.file_names import completed
from board.keys import Key
from board.picture import Piece, Style, wrapped
from board.screen import Screen
from playing.typed import is_number

#: The board under a question; called anew when the window has another size.
Background = Callable[[], List[Piece]]

#: Keys that leave a question, and the most lines of names that complete what is typed.
LEAVING = ('escape', '\x03', '\x07')
MOST_LINES = 5

#: The lines of a list's title and foot, and those that are free between.
LIST_LINES = 5

#: Keys that go to the next row of a list, or to the one before.
WAYS = {'down': 1, 'j': 1, 'up': -1, 'k': -1}

#: How far something moves while the program is at work.
WAY = 8

SCROLLING = {'down': 1, 'j': 1, 'enter': 1, 'up': -1, 'k': -1, ' ': 0, 'page down': 0, 'page up': 0}


class Chosen(NamedTuple):
    """A row of a list, and whether what it names is to be deleted."""

    at: int
    is_deleted: bool = False


class Dialogues:
    """Questions and sentences on a screen."""

    def __init__(self, screen: Screen, background: Background) -> None:
        self._screen = screen
        self._background = background

    def confirm(self, question: str) -> bool:
        """Whether it was answered by y. Any other key is a no."""
        while True:
            self._ask(f'{question} y/N')
            key = self._screen.key()
            if key.name != 'resize':
                return key.name in ('y', 'Y')

    def tell(self, text: str) -> None:
        """A sentence, while something goes on."""
        self._ask(text)

    def read(self, prompt: str, text: str = '', is_file: bool = False) -> Optional[str]:
        """A line of text, where there is one that another replaces; nothing where Escape or Ctrl-C took it back. Tab completes the name of a file."""
        is_untouched = True
        names: List[str] = []
        while True:
            columns = self._screen.size[1]
            room = max(8, columns - len(prompt) - 3)
            shown = text[-room:]
            self._show([*names, f'{prompt} {shown}'], at=len(prompt) + 2 + len(shown))
            name = self._screen.key().name
            names = []
            if name == 'enter':
                return text.strip()
            if name in LEAVING:
                return None
            if name in ('backspace', 'delete'):
                text = text[:-1]
            elif name == '\x15':
                text = ''
            elif name == '\t' and is_file:
                text, found = completed(text)
                names = wrapped('  '.join(found), columns - 2)[:MOST_LINES]
            elif len(name) == 1 and name.isprintable():
                text = name if is_untouched else text + name
            is_untouched = is_untouched and name == 'resize'

    def page(self, title: str, lines: Sequence[str]) -> Key:
        """Shows lines over the whole screen until a key is pressed, which is given; arrows and the space bar go through those that don't fit."""
        top = 0
        while True:
            height, columns = self._screen.size
            wrapped = [part for line in lines for part in textwrap.wrap(line, columns - 2, subsequent_indent='  ') or ['']]
            room = max(1, height - 3)
            last = max(0, len(wrapped) - room)
            top = min(top, last)
            pieces = [Piece(0, 1, title, Style.TITLE)]
            pieces += [Piece(1 + at, 1, line) for at, line in enumerate(wrapped[top : top + room])]
            foot = f'lines {top + 1}-{top + room} of {len(wrapped)}, any other key: back' if last else 'any key goes back'
            pieces.append(Piece(height - 1, 1, foot, Style.GRID))
            self._screen.paint(pieces)
            key = self._screen.key()
            name = key.name
            if name in SCROLLING and last and not (name in (' ', 'enter') and top == last):
                step = SCROLLING[name] or (-room if name == 'page up' else room)
                top = min(max(0, top + step), last)
            elif name != 'resize':
                return key

    def choose(self, title: str, rows: Sequence[str], at: int = 0, may_delete: bool = True) -> Optional[Chosen]:
        """Which of the rows, from one on; nothing where it was left. A key that does nothing here is none for the board either."""
        while True:
            self._screen.paint(self._rows(title, rows, at, may_delete))
            name = self._screen.key().name
            room = max(1, self._screen.size[0] - LIST_LINES)
            if name in WAYS:
                at = (at + WAYS[name]) % len(rows)
            elif name in ('page down', 'page up'):
                at = min(max(0, at + (room if name == 'page down' else -room)), len(rows) - 1)
            elif name in ('enter', ' '):
                return Chosen(at)
            elif name == 'x' and may_delete:
                return Chosen(at, is_deleted=True)
            elif is_number(name) and int(name) < len(rows):
                return Chosen(int(name))
            elif name == 'q' or name in LEAVING:
                return None

    def _rows(self, title: str, rows: Sequence[str], at: int, may_delete: bool) -> List[Piece]:
        """As many rows as the screen has room for, the chosen one among them."""
        height = self._screen.size[0]
        room = max(1, height - LIST_LINES)
        first = max(0, at - room + 1)
        foot = f'arrows and Enter, or a number, choose; {"x deletes; " if may_delete else ""}Escape or q goes back'
        pieces = [Piece(0, 1, title, Style.TITLE), Piece(height - 1, 1, foot, Style.GRID)]
        for number, row in enumerate(rows[first : first + room], first):
            pieces.append(Piece(number - first + 2, 1, f'{number if number < 10 else " "} {row}', is_cursor=number == at))
        return pieces

    def _show(self, lines: Sequence[str], at: Optional[int] = None) -> None:
        """Draws `lines` below the board, or over its last rows if there is no room; `at` is the cursor's column in the last line."""
        height, columns = self._screen.size
        board = self._background()
        below = max((piece.line for piece in board), default=height) + 1
        top = max(0, min(below, height - len(lines)))
        pieces = [piece for piece in board if piece.line < top]
        pieces += [Piece(top + number, 1, line, Style.TITLE) for number, line in enumerate(lines)]
        self._screen.paint(pieces, None if at is None else (top + len(lines) - 1, min(at, columns - 1)))

    def _ask(self, text: str) -> None:
        self._show(wrapped(text, self._screen.size[1] - 2))


def moving(seconds: float) -> str:
    """A bar on which something goes to and fro as time passes."""
    at = int(seconds * 10) % (2 * WAY)
    at = min(at, 2 * WAY - at)
    return f'[{" " * at}={" " * (WAY - at)}]'
