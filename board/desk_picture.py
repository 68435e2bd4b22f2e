"""The marks that the verdict of the setter's desk puts over the board: signs at the items that it marks, and numbers of solutions."""

from __future__ import annotations

from typing import Iterator, Mapping, Tuple

from board.layout import Layout
from board.picture import Piece, Style, between
from playing.naming import Place
from playing.verdict import Item, Verdict

#: The sign at an item that may be the mistake, and at one that isn't needed.
SIGNS = {'none': ('?', Style.BLAMED), 'one': ('-', Style.SHOWN)}


def which(verdict: Verdict) -> str:
    """How a sentence tells the marked items from others."""
    return f'with a {SIGNS[verdict.kind][0]}' if verdict.kind in SIGNS else ''


def over(layout: Layout, verdict: Verdict, cursor: Place) -> Iterator[Piece]:
    """Both numbers where two solutions differ, and the signs of the marked items."""
    for place, numbers in verdict.differ.items():
        line, column = layout.centre(place)
        yield Piece(line, column - 1, '/'.join(map(str, numbers)), Style.LEFT, place == cursor)
    if verdict.kind in SIGNS:
        sign, style = SIGNS[verdict.kind]
        yield from (Piece(*_beside(layout, item), sign, style, item == (cursor,)) for item in verdict.marked)


def filled(layout: Layout, solution: Mapping[Place, int], givens: Mapping[Place, int], cursor: Place) -> Iterator[Piece]:
    """The numbers of a solution in the empty squares."""
    return (Piece(*layout.centre(place), str(number), Style.OWN, place == cursor) for place, number in solution.items() if place not in givens)


def _beside(layout: Layout, item: Item) -> Tuple[int, int]:
    """Before an item, or between a clue at the left and the grid: after it comes its `!`."""
    if len(item) > 1:
        line, column = between(layout, *item)
    else:
        line, column = layout.centre(item[0])
    return line, column + 2 if item[0][0] < 0 else column - 1
