"""A board as a picture in SVG. One unit is a hundredth of a millimetre, and all is in whole numbers, so that the picture is the same everywhere. It is
black on white."""

from __future__ import annotations

from typing import Iterable, Iterator, Mapping, NamedTuple, Optional, Tuple
from xml.etree import ElementTree
from xml.etree.ElementTree import Element, SubElement

from playing.board import GAMES, Board, Sign
from playing.naming import Place
from sheet.steps import Move

#: In per cent of a square's side: the room for clues outside of Towers, and that between two squares of Unequal.
OUTSIDE, BETWEEN = 52, 34

#: How far from the frame's middle the middle of a clue is, and half of a wedge's depth and of its height, in the same measure.
CLUE, DEPTH, HEIGHT = 35, 8, 17

#: The room for the names of rows and columns, with their font, in the same measure.
EDGE, EDGE_FONT = 52, 36

#: The number of a move in the corner of its square: its font, and how far it is from the left, in the same measure.
ORDER, ORDER_LEFT = 24, 7

#: A digit's baseline is so far below its middle, in per cent of the font: half of a digit's height.
BASELINE = 36

#: How lines and digits are drawn. The edges of a picture are cut to whole points of a screen, which an outer line is not to be.
LINES = {'fill': 'none', 'stroke': '#000', 'stroke-linejoin': 'round', 'stroke-linecap': 'round', 'overflow': 'visible'}
DIGITS = {'fill': '#000', 'stroke': 'none', 'text-anchor': 'middle'}

#: How wide the frames of either game are, and other lines: in per cent of a square's side, and at least and at most.
THICK = {'towers': (7, 45, 90), 'unequal': (4, 25, 50), 'inner': (3, 20, 40), 'wedge': (5, 35, 75)}
THIN = {'towers': (7, 32, 999), 'unequal': (3, 16, 999), 'inner': (3, 16, 999), 'wedge': (5, 20, 999)}

#: A character that stands for an empty square, or for no clue, in words.
NONE = '-'


class Pen(NamedTuple):
    """How large and how strong all is drawn: sides, lines and fonts."""

    #: Of a square.
    side: int
    #: The frame of Towers, or that of each square of Unequal.
    frame: int
    #: The lines between the squares of Towers.
    inner: int
    wedge: int
    number: int
    clue: int


def pen(game: str, side: int, strength: int = 100, is_small: bool = False) -> Pen:
    """For a puzzle with squares of this side; the lines may be stronger, in per cent."""

    def line(kind: str) -> int:
        percent, least, most = (THIN if is_small else THICK)[kind]
        return min(most, max(least, side * percent // 100)) * strength // 100

    return Pen(side, line(game), line('inner'), line('wedge'), side * 58 // 100, side * (52 if is_small else 46) // 100)


def small_pen(game: str, side: int) -> Pen:
    """For an answer: its lines are thin and its clues large."""
    return pen(game, side, is_small=True)


def parts(game: str, size: int) -> int:
    """How wide a picture is without its lines, in per cent of a square's side."""
    return 100 * size + (2 * OUTSIDE if game == 'towers' else BETWEEN * (size - 1))


def extent(game: str, size: int, with_pen: Pen) -> int:
    """How wide and how high a picture is."""
    return parts(game, size) * with_pen.side // 100 + with_pen.frame


def edge(side: int) -> int:
    """The space that the names of rows and columns take, at the left and above."""
    return side * EDGE // 100


class Places:
    """Where squares, clues and wedges of a board are."""

    def __init__(self, board: Board, with_pen: Pen) -> None:
        self.size = board.size
        self.side = with_pen.side
        self.is_towers = board.session.game == 'towers'
        outside, between = (OUTSIDE, 0) if self.is_towers else (0, BETWEEN)
        first = with_pen.frame // 2 + self.side * outside // 100
        self.step = self.side * (100 + between) // 100
        #: Where each square begins, and where one more would.
        self.at = [first + self.step * index for index in range(self.size + 1)]

    def middle(self, place: Place) -> Tuple[int, int]:
        """Of a square, or of a clue."""
        return self._along(place[0]), self._along(place[1])

    def _along(self, index: int) -> int:
        if index < 0:
            return self.at[0] - self.side * CLUE // 100
        return self.at[self.size] + self.side * CLUE // 100 if index == self.size else self.at[index] + self.side // 2

    def wedge(self, sign: Sign) -> str:
        """A path that opens towards the greater number, and points at the lesser one."""
        (x, y), (other_x, other_y) = self.middle(sign.greater), self.middle(sign.less)
        x, y = (x + other_x) // 2, (y + other_y) // 2
        depth, height = self.side * DEPTH // 100, self.side * HEIGHT // 100
        if sign.greater < sign.less:
            depth = -depth
        if sign.greater[1] == sign.less[1]:
            return f'M{x + depth} {y - height}l{-2 * depth} {height}l{2 * depth} {height}'
        return f'M{x - height} {y + depth}l{height} {-2 * depth}l{height} {2 * depth}'


def picture(
    board: Board, with_pen: Pen, name: str, hinted: Optional[Place] = None, has_edges: bool = False, order: Optional[Mapping[Place, Move]] = None
) -> Element:
    """The element `svg`, with its name and the board in words for who doesn't see it; at its edges may stand the names of rows and columns, and in the
    squares the numbers of the moves that put theirs."""
    places, outside = Places(board, with_pen), edge(with_pen.side) if has_edges else 0
    full = extent(board.session.game, board.size, with_pen) + outside
    length = f'{full // 100}.{full % 100:02}mm'
    svg = Element('svg', {'role': 'img', 'width': length, 'height': length, 'viewBox': f'{-outside} {-outside} {full} {full}', **LINES})
    SubElement(svg, 'title').text = name
    SubElement(svg, 'desc').text = ' '.join([*told(board), ''])
    if hinted:
        SubElement(svg, 'path', {'class': 'hint', 'd': square(places, hinted), 'stroke-width': str(2 * with_pen.frame)})
    _add_grid(svg, places, with_pen)
    _add_signs(svg, board, places, with_pen)
    _add_numbers(svg, board, places, with_pen)
    if order:
        _add_order(svg, places, order)
    if has_edges:
        _add_edges(svg, places, -outside // 2)
    return svg


def text_of(element: Element) -> str:
    """As it stands in a page."""
    return ElementTree.tostring(element, encoding='unicode')


def square(places: Places, place: Place) -> str:
    """A path around a square."""
    return f'M{places.at[place[0]]} {places.at[place[1]]}h{places.side}v{places.side}h-{places.side}z'


def _add_grid(svg: Element, places: Places, with_pen: Pen) -> None:
    first, *between, last = places.at
    if places.is_towers:
        inner = ''.join(f'M{at} {first}V{last}M{first} {at}H{last}' for at in between)
        SubElement(svg, 'path', {'d': inner, 'stroke-width': str(with_pen.inner)})
        SubElement(svg, 'path', {'d': f'M{first} {first}H{last}V{last}H{first}z', 'stroke-width': str(with_pen.frame)})
    else:
        squares = ''.join(square(places, (x, y)) for y in range(places.size) for x in range(places.size))
        SubElement(svg, 'path', {'d': squares, 'stroke-width': str(with_pen.frame)})


def _add_signs(svg: Element, board: Board, places: Places, with_pen: Pen) -> None:
    for is_wrong in (False, True):
        path = ''.join(places.wedge(sign) for sign in board.signs if sign.is_wrong == is_wrong)
        if path:
            SubElement(svg, 'path', {'d': path, 'stroke-width': str(with_pen.wedge), **({'class': 'wrong'} if is_wrong else {})})


def _add_numbers(svg: Element, board: Board, places: Places, with_pen: Pen) -> None:
    group = SubElement(svg, 'g', DIGITS)

    def add(font: int, numbers: Mapping[Place, int], more: Optional[Mapping[str, str]] = None) -> None:
        own = SubElement(group, 'g', {'font-size': str(font), **(more or {})}) if numbers else group
        for place, number in numbers.items():
            x, y = places.middle(place)
            SubElement(own, 'text', {'x': str(x), 'y': str(y + font * BASELINE // 100)}).text = str(number)

    shown = {place: board.numbers[place] for place in board.squares if place in board.numbers}
    add(with_pen.number, {place: number for place, number in shown.items() if place in board.givens}, {'font-weight': '700'})
    add(with_pen.number, {place: number for place, number in shown.items() if place not in board.givens})
    add(with_pen.clue, {place: clue.number for place, clue in board.clues.items()})


def _add_edges(svg: Element, places: Places, at: int) -> None:
    """The names of columns above, and those of rows at the left, so that r1c2 is found."""
    font = places.side * EDGE_FONT // 100
    group = SubElement(svg, 'g', {**DIGITS, 'font-size': str(font), 'font-style': 'italic', 'class': 'edges'})
    for index in range(places.size):
        middle = places.at[index] + places.side // 2
        for text, x, y in ((f'c{index + 1}', middle, at), (f'r{index + 1}', at, middle)):
            SubElement(group, 'text', {'x': str(x), 'y': str(y + font * BASELINE // 100)}).text = text


def _add_order(svg: Element, places: Places, order: Mapping[Place, Move]) -> None:
    """The number of its move, small in the corner of each square. The hardest one is underlined."""
    font = places.side * ORDER // 100
    group = SubElement(svg, 'g', {**DIGITS, 'text-anchor': 'start', 'font-size': str(font), 'class': 'order'})
    for (x, y), move in order.items():
        hardest = {'font-weight': '700', 'text-decoration': 'underline'} if move.is_hardest else {}
        SubElement(group, 'text', {'x': str(places.at[x] + places.side * ORDER_LEFT // 100), 'y': str(places.at[y] + font), **hardest}).text = str(move.number)


def told(board: Board) -> Iterator[str]:
    """The board in words: its rows, and what stands outside of it or between its squares. Rows and columns count from 1."""
    size = board.size
    yield f'Rows: {"; ".join(_row([board.numbers.get((x, y)) for x in range(size)]) for y in range(size))}.'
    if board.session.game == 'towers':
        sides = {
            'above': [(index, -1) for index in range(size)],
            'below': [(index, size) for index in range(size)],
            'left': [(-1, index) for index in range(size)],
            'right': [(size, index) for index in range(size)],
        }
        numbers = {place: clue.number for place, clue in board.clues.items()}
        for side, line in sides.items():
            yield f'Clues {side}: {_row([numbers.get(place) for place in line])}.'
    if board.signs:
        yield f'Greater: {", ".join(f"{_named(sign.greater)} than {_named(sign.less)}" for sign in board.signs)}.'


def _row(numbers: Iterable[Optional[int]]) -> str:
    return ' '.join(str(number) if number else NONE for number in numbers)


def _named(place: Place) -> str:
    return f'r{place[1] + 1}c{place[0] + 1}'


def title(kind: str, board: Board, grade: str) -> str:
    """The name of a picture: `Puzzle 7: Towers, 6 by 6, Easy`."""
    return ', '.join(filter(None, [f'{kind}: {GAMES[board.session.game]}', f'{board.size} by {board.size}', grade]))
