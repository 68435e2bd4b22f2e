"""A board as pieces of text, each with its place and its style. No terminal is needed for that."""

from __future__ import annotations

import re
import textwrap
from enum import Enum
from typing import Iterator, List, NamedTuple, Optional, Sequence, Tuple

from board.layout import Layout, wanted
from playing import shared_texts
from playing.beside import hints_told
from playing.board import GAMES, Board
from playing.games import GRADES
from playing.naming import Place
from playing.steps import Shown
from playing.texts import of_solved


class Style(Enum):
    """How a piece looks. Red and dim pieces have a sign of their own too, for where there are no colours. Mistakes alone are red: just the
    errors that the program tells of the board."""

    PLAIN = 'plain'
    TITLE = 'title'
    GRID = 'grid'
    GIVEN = 'given'
    OWN = 'own'
    MARKS = 'marks'
    CLUE = 'clue'
    DONE = 'done'
    WRONG = 'wrong'
    SHOWN = 'shown'
    #: The numbers left in a square while a hint is told, and those that the step rules out.
    LEFT = 'left'
    STRUCK = 'struck'
    #: An item of a setter's puzzle that may be the mistake.
    BLAMED = 'blamed'


class Piece(NamedTuple):
    line: int
    column: int
    text: str
    style: Style = Style.PLAIN
    #: Whether the cursor is there.
    is_cursor: bool = False
    #: Whether a hint rests on what is there.
    is_tinted: bool = False


class Look(NamedTuple):
    """The parts that are drawn besides the board."""

    cursor: Optional[Place] = None
    is_pencil: bool = False
    message: str = ''
    #: The sentence on why the game isn't kept; nothing where it is.
    trouble: str = ''
    #: Whether lines can be drawn by other characters than + - |.
    has_lines: bool = True
    #: How many hints the game had.
    hints: int = 0
    #: The places at which a hint points.
    shown: Shown = Shown()
    #: The letter of the puzzle's grade, by the program's own steps.
    grade: str = ''
    #: The line of keys while one walks along the steps of a hint; nothing otherwise.
    way: str = ''
    #: The title's end, if that isn't how far a game is.
    title: Sequence[str] = ()


#: The corners and crossings of the grid by rows, then the line across and the one down.
LINES = ('┌┬┐', '├┼┤', '└┴┘', '─', '│', '·')
PLAIN_LINES = ('+++', '+++', '+++', '-', '|', '.')

#: The words for a square, a row or a column.
NAMED = re.compile(r'\br[1-9]c[1-9]|\b(row|column) [1-9]', re.IGNORECASE)

KEYS_BELOW = [
    '1-9 number  p pencil  0 clear  u undo  r redo  h hint  n new  q quit  ? keys',
    'p pencil u undo h hint n new q quit ?',
]
#: So many lines of a message have room at the side, where the window is tall enough; and so many below the board.
MESSAGE_LINES, MESSAGE_BELOW = 6, 3
KEYS_ASIDE = ['1-9 number  p pencil', '0 clear     m all marks', 'u undo      r redo', 'h hint      H why', 'c check     n new', '? all keys  q quit']


def picture(board: Board, layout: Layout, look: Look) -> List[Piece]:
    """The whole screen."""
    pieces = [*_grid(layout, look), *_edge(layout, look), *_squares(board, layout, look), *_shown(board, layout, look)]
    pieces += [*_signs(board, layout), *_clues(board, layout, look), *([] if look.title else _left(board, layout))]
    return pieces + list(_texts_below(board, layout, look) if layout.side is None else _texts_aside(board, layout, look, layout.side))


def wrapped(text: str, columns: int) -> List[str]:
    """The lines of a text that are no longer than that, broken between words."""
    return textwrap.wrap(text, columns, break_on_hyphens=False)


def too_small(board: Board, lines: int, columns: int) -> List[Piece]:
    """The lines that are shown if the board has no room."""
    wide, tall = wanted(board.size, board.session.game == 'towers')
    text = (
        f'{name(board)} needs a window of {wide} columns and {tall} lines, and this one has {columns} and {lines}. '
        'Make it larger; or T for lines of text, q to quit: the game is kept.'
    )
    return [Piece(at, 0, line) for at, line in enumerate(wrapped(text, max(8, columns - 1))[:lines])]


def name(board: Board) -> str:
    return f'{GAMES[board.session.game]} {board.size}x{board.size}'


def grade(board: Board) -> str:
    return GRADES[board.session.game].get(board.session.letter, '')


def grades(board: Board, own: str) -> str:
    """The grade that the ID has, and the one that the program finds, where that is another."""
    found = GRADES[board.session.game].get(own, '')
    return ', '.join(filter(None, [grade(board), f'{found} by our steps' if found != grade(board) and found else '']))


def state(board: Board) -> str:
    """Whether it is solved, by what is on the board: the program's own word stays when a solved board is changed."""
    if board.session.status == 'helped':
        return 'filled in' if board.is_solved else 'helped'
    if board.is_solved:
        return 'solved'
    return 'was solved' if board.session.status == 'solved' else ''


def counts(board: Board) -> List[str]:
    """How far the game is."""
    filled, empty = board.own
    return [f'{filled} of {empty}', f'move {board.session.position - 1}/{board.session.states - 1}']


def told(board: Board, look: Look, layout: Layout) -> str:
    """The message; where there is none, what there is to say of a full board, or of the square of the cursor."""
    return f'{look.message or _told_of(board, look, layout)} {look.trouble}'.strip()


def told_of_full(board: Board, hints: int) -> str:
    """The sentence on a full board, after so many hints; nothing of another one."""
    if board.is_solved:
        return of_solved(board.session.status, hints)
    return shared_texts.FULL_AND_WRONG if board.is_full else ''


def _told_of(board: Board, look: Look, layout: Layout) -> str:
    if board.is_full:
        return told_of_full(board, look.hints)
    marks = board.marks.get(look.cursor) if look.cursor else None
    return f'marks: {" ".join(map(str, marks))}' if marks and layout.deep == 1 else ''


class Room(NamedTuple):
    """Where a message may stand: its first line and column, and how many lines and columns there are for it."""

    line: int
    column: int
    lines: int
    columns: int


def room_of(board: Board, layout: Layout, look: Look) -> Room:
    """At the side below the title; or right below the board, where the last line is the keys' unless there is one other alone."""
    if layout.side is None:
        lines = layout.lines - 1 - layout.below - (1 if left_line(board, layout) is not None else 0)
        return Room(layout.below, 1, max(2, lines), layout.columns - 2)
    line = len(_side_title(board, look)) + 2
    return Room(line, layout.side, max(1, _keys_line(board, layout, look, layout.side) - 1 - line), layout.columns - layout.side)


def has_room(text: str, board: Board, layout: Layout, look: Look) -> bool:
    """Whether a message fits where messages stand."""
    room = room_of(board, layout, look)
    return len(wrapped(text, room.columns)) <= room.lines


def left_text(board: Board) -> str:
    """How many of each number are left to be put in."""
    numbers = list(board.numbers.values())
    counts = ((number, max(0, board.size - numbers.count(number))) for number in range(1, board.size + 1))
    return 'left  ' + '  '.join(f'{number}:{count}' for number, count in counts)


def left_line(board: Board, layout: Layout) -> Optional[int]:
    """The line below the board where that stands; nothing where there is no room for it, or nothing is left."""
    text = left_text(board)
    if board.is_full:
        return None
    if layout.side is None:
        has_line = layout.lines - 1 - layout.below > MESSAGE_BELOW
        return layout.lines - 2 if has_line and len(text) <= layout.columns - 2 else None
    return layout.below if layout.below < layout.lines and len(text) <= layout.side - 2 else None


def _left(board: Board, layout: Layout) -> Iterator[Piece]:
    line = left_line(board, layout)
    if line is not None:
        yield Piece(line, 1, left_text(board), Style.GRID)


def preview_text(left: List[int], struck: List[int], size: int, room: int) -> Tuple[str, str]:
    """The numbers left in a square on one line, and after an x those that the step rules out; these alone where there is no room for both."""
    kept = [number for number in left if number not in struck]
    if not struck:
        return marks_text(kept, size, room), ''
    gone = 'x' + ''.join(map(str, struck))
    digits = ''.join(map(str, kept))
    if len(digits) + len(gone) <= room:
        return digits, gone
    return '', gone if len(gone) <= room else gone[: room - 1] + '+'


def marks_text(marks: List[int], size: int, room: int) -> str:
    """Marks on one line: the digits, or those that lack, or as many as fit."""
    digits = ''.join(map(str, marks))
    if len(digits) == size and len(digits) > room:
        return 'all'
    lacking = ''.join(str(number) for number in range(1, size + 1) if number not in marks)
    fitting = [text for text in (digits, f'not {lacking}', f'no{lacking}') if len(text) <= room]
    return fitting[0] if fitting else digits[: room - 1] + '+'


def _grid(layout: Layout, look: Look) -> Iterator[Piece]:
    above, between, below, across, down, _ = LINES if look.has_lines else PLAIN_LINES
    for row in range(layout.size + 1):
        edge = above if row == 0 else below if row == layout.size else between
        line = layout.top + row * (layout.deep + 1)
        middle = edge[1].join([across * layout.wide] * layout.size)
        yield Piece(line, layout.left, edge[0] + middle + edge[2], Style.GRID)
        if row < layout.size:
            inside = down + (' ' * layout.wide + down) * layout.size
            for at in range(layout.deep):
                yield Piece(line + 1 + at, layout.left, inside, Style.GRID)


def _edge(layout: Layout, look: Look) -> Iterator[Piece]:
    """The rows and columns by their names on the frame, r1 and c1, where a sentence names some: a clue may stand beside."""
    if NAMED.search(look.message):
        for at in range(layout.size):
            yield Piece(layout.top, layout.centre((at, 0))[1] - 1, f'c{at + 1}', Style.SHOWN)
            yield Piece(layout.centre((0, at))[0], layout.left - 1, f'r{at + 1}', Style.SHOWN)


def _squares(board: Board, layout: Layout, look: Look) -> Iterator[Piece]:
    left = look.shown.left
    for place in board.squares:
        is_cursor, is_tinted = place == look.cursor, place in look.shown.rests_on
        line, column = layout.corner(place)
        if is_cursor or is_tinted:
            for at in range(layout.deep):
                yield Piece(line + at, column, ' ' * layout.wide, Style.PLAIN, is_cursor, is_tinted)
        for piece in _inside(board, layout, place, look) if left is None or place in board.numbers else _preview(board, layout, place, look):
            yield piece._replace(is_cursor=is_cursor, is_tinted=is_tinted)


def _inside(board: Board, layout: Layout, place: Place, look: Look) -> Iterator[Piece]:
    """The number of a square, or the player's marks."""
    number = board.numbers.get(place)
    if number is not None:
        is_wrong = place in board.wrong
        style = Style.WRONG if is_wrong else Style.GIVEN if place in board.givens else Style.OWN
        yield Piece(*layout.centre(place), f'{number}!' if is_wrong else str(number), style)
        return
    marks = board.marks.get(place, [])
    if layout.deep > 1:
        yield from (Piece(*_mark_at(layout, place, mark), str(mark), Style.MARKS) for mark in marks)
    elif marks:
        line, column, room = _one_line(layout, place)
        yield Piece(line, column, marks_text(marks, board.size, room), Style.MARKS)


def _preview(board: Board, layout: Layout, place: Place, look: Look) -> Iterator[Piece]:
    """The numbers left in an empty square before a step of a hint, in place of the player's marks; those that the step rules out have an x."""
    left, struck = (look.shown.left or {}).get(place, []), look.shown.struck.get(place, [])
    if not left:
        yield Piece(*layout.centre(place), '!', Style.STRUCK)
    elif layout.deep > 1:
        for number in left:
            is_struck = number in struck
            yield Piece(*_mark_at(layout, place, number), f'{number}x' if is_struck else str(number), Style.STRUCK if is_struck else Style.LEFT)
    else:
        line, column, room = _one_line(layout, place)
        if struck and len(left) >= room:
            # The x and all numbers need the whole square.
            column, room = layout.corner(place)[1], layout.wide
        kept, gone = preview_text(left, struck, board.size, room)
        yield Piece(line, column, kept, Style.LEFT)
        yield Piece(line, column + len(kept), gone, Style.STRUCK)


def _mark_at(layout: Layout, place: Place, mark: int) -> Tuple[int, int]:
    """Three in a row, each number at a place of its own."""
    line, column = layout.corner(place)
    down, across = (layout.deep - 1) // 2, (layout.wide - 3) // 2
    return line + (mark - 1) // 3 * down, column + 1 + (mark - 1) % 3 * across


def _one_line(layout: Layout, place: Place) -> Tuple[int, int, int]:
    """Where marks begin in a square of one line, and how many there is room for."""
    line, column = layout.corner(place)
    indent = 1 if layout.wide > 3 else 0
    return line, column + indent, layout.wide - indent


def _shown(board: Board, layout: Layout, look: Look) -> Iterator[Piece]:
    """A sign in the corner of each square that a hint rests on, and of each where it rules numbers out; on one line these have an x."""
    for place in board.squares:
        is_tinted, is_struck = place in look.shown.rests_on, place in look.shown.struck
        if (is_tinted and not is_struck) or (is_struck and layout.deep > 1):
            yield Piece(*layout.corner(place), '-' if is_struck else '*', Style.SHOWN, place == look.cursor, is_tinted)


def _signs(board: Board, layout: Layout) -> Iterator[Piece]:
    for sign in board.signs:
        style = Style.WRONG if sign.is_wrong else Style.CLUE
        is_first_less = sign.less[::-1] < sign.greater[::-1]
        text = ('<' if is_first_less else '>') if sign.greater[1] == sign.less[1] else '^' if is_first_less else 'v'
        yield Piece(*between(layout, sign.greater, sign.less), text + ('!' if sign.is_wrong else ''), style)


def between(layout: Layout, one: Place, other: Place) -> Tuple[int, int]:
    """Where the sign of two neighbours is."""
    (x, y), (other_x, other_y) = sorted([one, other])
    if y == other_y:
        return layout.centre((x, y))[0], layout.corner((other_x, y))[1] - 1
    return layout.corner((x, other_y))[0] - 1, layout.centre((x, y))[1]


def _clues(board: Board, layout: Layout, look: Look) -> Iterator[Piece]:
    done = (LINES if look.has_lines else PLAIN_LINES)[-1]
    for place, clue in board.clues.items():
        is_shown = place in look.shown.rests_on
        style = Style.WRONG if clue.is_wrong else Style.SHOWN if is_shown else Style.DONE if clue.is_done else Style.CLUE
        text = f'{clue.number or " "}{"!" if clue.is_wrong else "*" if is_shown else done if clue.is_done else " "}'
        yield Piece(*layout.centre(place), text, style, place == look.cursor)


def _message(board: Board, layout: Layout, look: Look) -> List[Piece]:
    room = room_of(board, layout, look)
    lines = wrapped(told(board, look, layout), room.columns)
    if len(lines) > room.lines:
        lines = [*lines[: room.lines - 1], lines[room.lines - 1][: room.columns - 2] + '..']
    return [Piece(room.line + at, room.column, text, Style.TITLE) for at, text in enumerate(lines)]


def _texts_below(board: Board, layout: Layout, look: Look) -> Iterator[Piece]:
    between = f' {LINES[-1] if look.has_lines else "-"} '
    told: List[Sequence[str]] = [look.title, look.title[:-1]] if look.title else [
        [name(board), said, state(board), hints_told(look.hints), 'PENCIL' if look.is_pencil else '', between.join(counts(board))]
        for said in (grades(board, look.grade), grade(board))
    ]
    titles = [gap.join(filter(None, words)) for words in told for gap in ('   ', '  ', ' ')]
    title = next((title for title in titles if len(title) < layout.columns), titles[-1])
    keys = next((keys for keys in filter(None, [look.way, *KEYS_BELOW]) if len(keys) < layout.columns - 1), '? keys')
    message = _message(board, layout, look)
    yield from message
    if message and message[-1].line == layout.lines - 1:
        # A message that needs the last line takes the place of the title, and not of the keys.
        yield Piece(0, 1, keys, Style.GRID)
    else:
        yield Piece(0, 1, title, Style.TITLE)
        yield Piece(layout.lines - 1, 1, keys, Style.GRID)


def _texts_aside(board: Board, layout: Layout, look: Look, side: int) -> Iterator[Piece]:
    for at, text in enumerate(_side_title(board, look), 1):
        yield Piece(at, side, text, Style.TITLE)
    yield from _message(board, layout, look)
    for at, text in enumerate(_keys_aside(layout, look, side), _keys_line(board, layout, look, side)):
        yield Piece(at, side, text, Style.GRID)


def _side_title(board: Board, look: Look) -> List[str]:
    words = [name(board), *grades(board, look.grade).split(', '), *counts(board), state(board), hints_told(look.hints), 'PENCIL' if look.is_pencil else '']
    return [word for word in look.title or words if word]


def _keys_aside(layout: Layout, look: Look, side: int) -> List[str]:
    """The line of keys; while one walks along the steps of a hint that of the walk, which leaves more room for its sentences."""
    # The words for one key stand on one line.
    whole = '  '.join(words.replace(' ', '\0') for words in look.way.split('  '))
    return [line.replace('\0', ' ') for line in wrapped(whole, layout.columns - side)] or KEYS_ASIDE


def _keys_line(board: Board, layout: Layout, look: Look, side: int) -> int:
    """The first line of the keys at the side: they end with the board, but leave room for a message."""
    last = len(_side_title(board, look)) + MESSAGE_LINES + len(KEYS_ASIDE) + 3
    return min(layout.lines, max(layout.below, last)) - len(_keys_aside(layout, look, side))
