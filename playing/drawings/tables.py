"""The letters of drawings, and the meanings that a table of them may have: a puzzle of Towers, one of Unequal, or squares alone."""

from __future__ import annotations

from itertools import product
from typing import Iterator, List, NamedTuple, Optional, Sequence, Set, Tuple

from playing.fair import SIZES
from playing.naming import listed

#: The symbols of an empty square or of no clue; an empty cell of a table is a blank, and one that isn't drawn is nothing.
EMPTY, BLANK, CORNER, NUMBERS, SIGNS = '.', ' ', '+', '123456789', '<>^v'
NONE = frozenset((EMPTY, '-', BLANK))

#: Pencil marks, which say nothing of a puzzle; and what can be no symbol of one.
MARKS, ODD = '~', '@'

#: Other letters of the same meaning. Those of ruled lines become '-', '|' and '+'.
OTHERS = {
    EMPTY: '_0xXoO*?·•∙・□☐▢⬜◻○＿０＊？．',
    '-': '–—−‐‑─━═╌┄－',
    '|': '│┃║¦｜',
    CORNER: '┌┐└┘├┤┬┴┼┏┓┗┛┣┫┳┻╋╔╗╚╝╠╣╦╩╬╤╧╟╢╪╫╒╕╘╛╞╡╓╖╙╜╥╨┯┷┠┨┿╂＋',
    BLANK: '\xa0\u2007\u2009\u3000',
    '<': '＜﹤‹〈',
    '>': '＞﹥›〉',
    '^': '∧˄⌃⋀Λ︿▲△A＾',
    'v': '∨˅⌄⋁V﹀▼▽',
    **{number: chr(0xFF10 + int(number)) for number in NUMBERS},
}
SAME = str.maketrans({other: own for own, others in OTHERS.items() for other in others})

#: Rows of symbols: of squares, and of what is at their edges or between them.
Table = List[List[Optional[str]]]

SQUARES: Set[Optional[str]] = {*NUMBERS, *NONE}
CORNERS: Set[Optional[str]] = {None, CORNER, *NONE}


def has_sign(text: str) -> bool:
    return any(sign in text for sign in SIGNS)


class Puzzle(NamedTuple):
    """A puzzle by its items, as lines of the program have them."""

    game: str
    size: int
    items: Tuple[str, ...]

    @property
    def lines(self) -> List[str]:
        """The line that begins it in the program."""
        return [f'blank {self.size}', *self.items]

    @property
    def called(self) -> str:
        """As `Towers 5x5, 20 clues, 2 given`."""
        given = sum(self.is_given(item) for item in self.items)
        others, thing = len(self.items) - given, 'clue' if self.game == 'towers' else 'sign'
        return f'{self.game.title()} {self.size}x{self.size}, {others} {thing}{"" if others == 1 else "s"}, {given} given'

    @property
    def is_bare(self) -> bool:
        """Whether it has nothing but numbers in squares."""
        return all(map(self.is_given, self.items))

    def is_given(self, item: str) -> bool:
        """Whether an item is a number in a square."""
        x, y, *others = item.partition(' ')[2].split(',')
        return len(others) == 1 and all(at in map(str, range(self.size)) for at in (x, y))

    def fits(self) -> bool:
        """Whether no number is above the size. The last one of a sign is 1."""
        return all(int(item[-1]) <= self.size for item in self.items)


class Reading(NamedTuple):
    """A puzzle that lines may mean."""

    puzzle: Puzzle
    #: A doubt about parts that may have been lost; nothing where each line of it says that it is there.
    doubt: str = ''
    #: Whether nothing that stands above or below could belong to it, too.
    is_whole: bool = True
    #: What has been left out, so that it isn't taken.
    lost: str = ''


def towers(table: Table, is_told: bool) -> Iterator[Reading]:
    """A square of squares, and at each side a line of clues, or none. In a table of cells all four are there."""
    high, wide = len(table), len(table[0])
    ends = (table[0], table[-1], [row[0] for row in table], [row[-1] for row in table])
    for size, top, left in product(SIZES, (1, 0), (1, 0)):
        sides = (top, high - size - top, left, wide - size - left)
        if {*sides} <= {0, 1} and any(sides) and (all(sides) or not is_told):
            # In the place of a side that isn't drawn stand squares, and no line of clues.
            if all(is_side or {*line} & NONE for is_side, line in zip(sides, ends)):
                yield from _framed(_frame(table, size, top, left))


def _frame(table: Table, size: int, top: int, left: int) -> Table:
    """The squares with all four sides around."""
    rows = [table[y + top] if y + top in range(len(table)) else [] for y in range(-1, size + 1)]
    return [[row[x + left] if x + left in range(len(row)) else None for x in range(-1, size + 1)] for row in rows]


def _framed(table: Table) -> Iterator[Reading]:
    """The puzzle of Towers with these squares and sides, if it is one."""
    inner, corners = table[1:-1], corners_of(table)
    squares = {symbol for row in inner for symbol in row[1:-1]}
    edges = {'above': table[0][1:-1], 'below': table[-1][1:-1], 'left': [row[0] for row in inner], 'right': [row[-1] for row in inner]}
    symbols = {symbol for edge in edges.values() for symbol in edge}
    # Without any clue the edge is told from the squares by its corners alone; '+' there says that each place is drawn.
    is_edge = bool(symbols & {*NUMBERS} or corners & {None, BLANK, CORNER})
    are_even = not any(map(_is_mixed, (squares, corners, symbols | ({'-'} if CORNER in corners else set()))))
    if is_edge and are_even and squares <= SQUARES and corners <= CORNERS and symbols <= {None, *SQUARES}:
        bare = [side for side, edge in edges.items() if {*edge} == {None}]
        lines = [side for side in bare if side in ('above', 'below')]
        doubt = f'no line of clues stands {listed(lines)}, so there are none: if one was left out, add it' if lines else ''
        lacking = [symbol for side, edge in edges.items() if side not in bare for symbol in edge].count(None)
        # A side with nothing at all is one without clues if others have such places, too. If a single place has nothing, a letter may be lost.
        is_lost = not lacking if bare else lacking == 1 and BLANK not in squares
        lost = ('a side has no clue' if bare else 'one place at the edge has no clue') if is_lost else ''
        yield Reading(Puzzle('towers', len(inner), _numbers(table, 1)), doubt, not bare, lost)


def corners_of(table: Table) -> Set[Optional[str]]:
    return {table[y][x] for y in (0, -1) for x in (0, -1)}


def _is_mixed(symbols: Set[Optional[str]]) -> bool:
    """Whether places without a number say so in two ways: by a symbol, and by nothing."""
    return bool(symbols & {None, BLANK} and symbols & {EMPTY, '-'})


def _numbers(table: Table, outside: int = 0) -> Tuple[str, ...]:
    """The items of a table's numbers, of which so many lines are outside of the squares."""
    places = ((x - outside, y - outside, symbol) for y, row in enumerate(table) for x, symbol in enumerate(row))
    return tuple(f'item {x},{y},{symbol}' for x, y, symbol in places if symbol in {*NUMBERS})


def unequal(table: Table, doubt: str = '') -> Iterator[Reading]:
    """Squares at each second place, and signs between."""
    extent, size = len(table), (len(table) + 1) // 2
    if size not in SIZES or extent != 2 * size - 1 or len(table[0]) != extent:
        return
    items: List[str] = []
    for y, x in product(range(extent), repeat=2):
        item = _item_between(table[y][x] or ODD, x, y)
        if item is None:
            return
        items += [item] if item else []
    yield Reading(Puzzle('unequal', size, tuple(items)), doubt)


def _item_between(symbol: str, x: int, y: int) -> Optional[str]:
    """The item of a place of such a table, or '' where it says none; nothing where the symbol can't stand there."""
    place, other = f'{x // 2},{y // 2}', f'{(x + 1) // 2},{(y + 1) // 2}'
    if not x % 2 and not y % 2:
        return f'item {place},{symbol}' if symbol in NUMBERS else '' if symbol in NONE else None
    if x % 2 != y % 2 and symbol in SIGNS:
        if symbol not in SIGNS[:2] if x % 2 else symbol not in SIGNS[2:]:
            return None
        return f'item {place},{other},1' if symbol in '>v' else f'item {other},{place},1'
    return '' if symbol == BLANK or (symbol == '-' and y % 2) else None


def plain(table: Table, games: Sequence[str]) -> Iterator[Reading]:
    """Squares alone. They belong to any game."""
    size = len(table)
    if size in SIZES and len(table[0]) == size and {symbol for row in table for symbol in row} <= SQUARES:
        for game in games:
            yield Reading(Puzzle(game, size, _numbers(table)), is_whole=False)
