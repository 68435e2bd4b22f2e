"""Where on a screen the squares, the clues and the texts are."""

from __future__ import annotations

from typing import Iterator, NamedTuple, Optional, Tuple

from playing.naming import Place

#: A screen has at least so many columns, for sentences.
FEWEST_COLUMNS = 36

#: The columns of the texts at the side, with those between them and the board.
SIDE_COLUMNS = 25


class Layout(NamedTuple):
    """Lines and columns count from 0."""

    size: int
    #: Whether clues are around the grid.
    has_clues: bool
    #: The lines and columns inside a square.
    deep: int
    wide: int
    #: Where the upper left corner of the grid is.
    top: int
    left: int
    #: Where the texts at the side begin; nothing where they are above and below.
    side: Optional[int]
    lines: int
    columns: int

    @property
    def bottom(self) -> int:
        """The line of the lower edge of the grid."""
        return self.top + self.size * (self.deep + 1)

    @property
    def right(self) -> int:
        """The column of the right edge of the grid."""
        return self.left + self.size * (self.wide + 1)

    @property
    def below(self) -> int:
        """The first line below the board and its clues."""
        return self.bottom + (2 if self.has_clues else 1)

    def corner(self, place: Place) -> Tuple[int, int]:
        """The line and the column of the first character inside a square."""
        x, y = place
        return self.top + 1 + y * (self.deep + 1), self.left + 1 + x * (self.wide + 1)

    def centre(self, place: Place) -> Tuple[int, int]:
        """Where the number of a square or of a clue is."""
        line, column = self.corner(place)
        x, y = place
        if y < 0 or y >= self.size:
            return (self.top - 1 if y < 0 else self.bottom + 1), column + self.wide // 2
        if x < 0 or x >= self.size:
            return line + self.deep // 2, (self.left - 3 if x < 0 else self.right + 2)
        return line + self.deep // 2, column + self.wide // 2

    def place_at(self, line: int, column: int) -> Optional[Place]:
        """The square there, or the place of a clue; nothing for other spots, as the texts at the side."""
        if not (self.left - 3 <= column <= self.right + 3 and self.top - 1 <= line <= self.bottom + 1):
            return None
        x = (column - self.left - 1) // (self.wide + 1) if column > self.left else -1
        y = (line - self.top - 1) // (self.deep + 1) if line > self.top else -1
        x, y = min(x, self.size), min(y, self.size)
        at_edge = (x in (-1, self.size)) + (y in (-1, self.size))
        return (x, y) if at_edge == 0 or (at_edge == 1 and self.has_clues) else None


def fit(size: int, has_clues: bool, lines: int, columns: int) -> Optional[Layout]:
    """How a board is drawn on a screen: with seven, five or three lines a square where there is room, else with one; nothing where it is too small."""
    if columns < FEWEST_COLUMNS:
        return None
    return next(filter(None, (_tried(size, has_clues, lines, columns, *shape) for shape in _shapes())), None)


def _shapes() -> Iterator[Tuple[int, int, bool]]:
    """Deep, wide, and whether the texts are at the side; the best first."""
    for deep, wide in ((7, 15), (5, 11), (3, 7), (1, 7), (1, 5), (1, 3)):
        for is_aside in (True, False):
            yield deep, wide, is_aside


def _tried(size: int, has_clues: bool, lines: int, columns: int, deep: int, wide: int, is_aside: bool) -> Optional[Layout]:
    around = 1 if has_clues else 0
    tall = size * (deep + 1) + 1 + 2 * around
    left = 3 if has_clues else 1
    broad = left + size * (wide + 1) + 1 + 3 * around
    if is_aside:
        if tall > lines or broad + SIDE_COLUMNS > columns:
            return None
        return Layout(size, has_clues, deep, wide, around, left, broad + 1 + around, lines, columns)
    # The title above, and below a message and the line of keys; a message has three lines, or one where squares can't be smaller.
    needed = tall + (5 if deep > 1 else 3)
    if needed > lines or broad > columns:
        return None
    # Where there is a line to spare it is below the title.
    top = 1 + around + (1 if needed < lines else 0)
    spare = 1 if broad < columns else 0
    return Layout(size, has_clues, deep, wide, top, left + spare, None, lines, columns)


def wanted(size: int, has_clues: bool) -> Tuple[int, int]:
    """The least columns and lines for a board."""
    around = 1 if has_clues else 0
    return max(FEWEST_COLUMNS, (3 if has_clues else 1) + 4 * size + 1 + 3 * around), 2 * size + 1 + 2 * around + 3
