"""Drawings with ruled lines around the squares: clues outside of them, and signs on them. Letters and several numbers in a square are pencil marks."""

from __future__ import annotations

import re
from typing import List, Optional, Sequence, Tuple, TypeVar

from playing.drawings.tables import BLANK, EMPTY, MARKS, ODD, Table, has_sign

#: A ruled line, perhaps with signs on it, or with a document's marks of where cells are aligned; and the numbers that are left in a square, in their order.
RULE = re.compile(r'[\s|+v^:-]*(--|-\+|:-|-:)[\s|+v^:-]*')
LEFT = re.compile('(?=..)1?2?3?4?5?6?7?8?9?')

#: A line and a column.
Place = Tuple[int, int]
T = TypeVar('T')


class Grid:
    """Lines with walls between their columns: which of them are rules, which are rows of squares, and which stand around these."""

    def __init__(self, lines: Sequence[str], walls: List[int]) -> None:
        #: Each is as long as the last wall needs.
        self.lines = [line.ljust(walls[-1] + 1) for line in lines]
        self.walls = walls
        self.rules = {y for y, line in enumerate(lines) if RULE.fullmatch(line)}
        self.rows = [y for y, line in enumerate(lines) if y not in self.rules and re.search('[|<>]', line)]
        self.others = [y for y, line in enumerate(lines) if y not in self.rules and y not in self.rows and line.strip()]
        cut = [self.cut(y) for y in self.rows]
        #: The squares of each row, with the clues beside them.
        self.table: Table = [[_clue(row[0]), *map(_square, row[1:-1]), _clue(row[-1])] for row in cut]
        #: Whether nothing stands around the squares.
        self.is_bare = not self.others and all(row[0] is row[-1] is None for row in self.table)
        self.is_signed = any(map(has_sign, lines))

    def cut(self, y: int) -> List[str]:
        """What stands in a line at the left, in each column, and at the right."""
        ends = [-1, *self.walls, len(self.lines[y])]
        return [self.lines[y][begin + 1 : end].strip() for begin, end in zip(ends, ends[1:])]

    @property
    def gap(self) -> Optional[Place]:
        """The first place at which a wall is missing."""
        return next(((y, x) for y in self.rows for x in self.walls if self.lines[y][x] not in '|<>'), None)

    @property
    def stray(self) -> Optional[Place]:
        """The first sign that isn't between two squares, as one at a corner or at the edge."""
        inner = range(self.rows[0], self.rows[-1])
        signs = ((y, x) for y, line in enumerate(self.lines) for x, letter in enumerate(line) if has_sign(letter))
        return next(((y, x) for y, x in signs if not (x in self.walls[1:-1] if y in self.rows else y in inner and x not in self.walls)), None)

    @property
    def is_whole(self) -> bool:
        """Whether no wall is missing, and nothing but rules is between the rows."""
        return bool(self.rows) and not self.gap and not any(self.rows[0] < y < self.rows[-1] for y in self.others)

    @property
    def is_spaced(self) -> bool:
        """Whether each row but the last has one rule below it."""
        return self.rows == [*range(self.rows[0], self.rows[-1] + 1, 2)] and all(y + 1 in self.rules for y in self.rows[:-1])

    @property
    def is_lone(self) -> bool:
        """Whether a rule stands below each row, and nothing around: these are squares alone."""
        return self.is_whole and self.is_spaced and self.is_bare and not self.is_signed

    @property
    def tables(self) -> List[Table]:
        """The table that is drawn, if one is."""
        squares = [row[1:-1] for row in self.table]
        is_square = len(squares) == len(self.walls) - 1
        # Several numbers in one square alone are no marks; nor are they in squares without clues.
        if self.is_whole and (sum(row.count(MARKS) for row in squares) == 1 or (self.is_bare and not self.is_signed)):
            return [squares]
        if self.is_whole and is_square and not self.is_signed:
            return [self._framed()]
        return [self._woven()] if self.is_whole and is_square and self.is_bare and self.is_spaced and not self.stray else []

    def _framed(self) -> Table:
        """The squares with the clues around them."""
        above, below = ([y for y in self.others if is_above == (y < self.rows[0])] for is_above in (True, False))
        return [self._clues(above), *map(_unmarked, self.table), self._clues(below)]

    def _clues(self, lines: Sequence[int]) -> List[Optional[str]]:
        """Those above or below, in one line. A number between two columns is none."""
        if not lines:
            return [None] * (len(self.walls) + 1)
        places = self.cut(lines[0])[1:-1]
        is_all = len(lines) == 1 and len(self.lines[lines[0]].replace(BLANK, '')) == len(''.join(places).replace(BLANK, ''))
        return [None, *(_clue(place) if is_all else ODD for place in places), None]

    def _woven(self) -> Table:
        """The squares and what is between them."""
        lying = [[self.lines[y][x].replace('|', BLANK) for x in self.walls[1:-1]] for y in self.rows]
        standing = [[part.strip(' -') or BLANK for part in self.cut(y + 1)[1:-1]] for y in self.rows[:-1]]
        rows = [_among(_unmarked(row)[1:-1], signs) for row, signs in zip(self.table, lying)]
        return _among(rows, [_among(signs, [BLANK] * len(signs)) for signs in standing])


def _square(text: str) -> str:
    own = text.rstrip('!') or BLANK
    return MARKS if own == 'all' or LEFT.fullmatch(own) else own if len(own) == 1 else ODD


def _clue(text: str) -> Optional[str]:
    """A clue with what the board puts beside one: a dot where it is done, and '!' where it is wrong."""
    own = text.rstrip('!')
    return own[:1] or None if len(own.rstrip(EMPTY)) < 2 else ODD


def _unmarked(row: Sequence[Optional[str]]) -> List[Optional[str]]:
    return [BLANK if symbol == MARKS else symbol for symbol in row]


def _among(all: Sequence[T], between: Sequence[T]) -> List[T]:
    """What stands between each two, among them."""
    return [each for pair in zip(all, between) for each in pair] + [all[-1]]


def grid_of(lines: Sequence[str]) -> Optional[Grid]:
    """The grid of lines whose walls are as far from one another, though a wall may be missing in one."""
    walled = [line for line in lines if RULE.fullmatch(line) or line.count('|') > 2]
    walls = sorted({x for line in walled for x, letter in enumerate(line) if letter in '|+'})
    is_fit = len(walls) > 3 and len({b - a for a, b in zip(walls, walls[1:])}) == 1 and any('|' in line for line in lines)
    return Grid(lines, walls) if is_fit else None
