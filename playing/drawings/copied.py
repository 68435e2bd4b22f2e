"""Drawings of Towers that have numbers alone, and nothing where there is none, as the usual program copies them."""

from __future__ import annotations

from itertools import product
from typing import Dict, Iterator, List, NamedTuple, Sequence, Tuple

from playing.drawings.tables import BLANK, NUMBERS, Reading, Table, towers
from playing.fair import SIZES


class Places(NamedTuple):
    """Where such a drawing has its columns and lines: the step between two columns, and how far the squares are from what is left of them, and above."""

    step: int
    left: int
    top: int

    def columns(self, size: int) -> List[int]:
        return [0, *(self.left + self.step * x for x in range(size)), 2 * self.left + self.step * (size - 1)]

    def rows(self, size: int) -> List[int]:
        return [0, *(self.top + y for y in range(size)), 2 * self.top + size - 1]


#: As the usual program copies it; and all as people may write it: no clue beside the squares is nearer to them than they are to one another.
USUAL = Places(2, 3, 2)
FORMS = [Places(step, step + more, top) for step, more, top in product((1, 2, 3, 4), (0, 1, 2), (1, 2))]

#: Numbers by line and column.
Numbers = Dict[Tuple[int, int], str]


class Found(NamedTuple):
    """A table with what could have been lost in it; whether clues may stand apart from it, and whether it is wholly in the usual program's form."""

    table: Table
    doubt: str
    is_apart: bool
    is_usual: bool


def exact(lines: Sequence[str]) -> List[Reading]:
    """The puzzle of lines that are as long as the usual program makes them, blanks at their ends included: nothing in it can have been lost."""
    rows = '\n'.join(lines).strip('\n').split('\n')
    size, numbers = len(rows) - 4, _numbers(rows)
    if size not in SIZES or [*map(len, rows)] != [2 * size + 2, 0, *[2 * size + 5] * size, 0, 2 * size + 2] or not {*numbers.values()} <= {*NUMBERS}:
        return []
    found = [reading for table in _placed(numbers, USUAL.rows(size), USUAL.columns(size)) for reading in towers(table, True)]
    return [reading._replace(doubt='', lost='') for reading in found if reading.puzzle.fits()]


def copied(lines: Sequence[str]) -> Iterator[Reading]:
    """The puzzle of numbers alone, if all forms that the lines may have give the same."""
    numbers = _numbers(lines)
    if not numbers or not {*numbers.values()} <= {*NUMBERS}:
        return
    extent = len('\n'.join(lines).rstrip().split('\n')), max(map(len, lines))
    forms = [(form, size) for form, size in product(FORMS, SIZES) if size + 1 < len(numbers)]
    found = [each for form, size in forms for each in _found(lines, numbers, extent, form, size)]
    near = [each for each in found if not each.is_apart]
    is_sure = len(near) == len(found) or any(each.is_usual for each in near)
    if near and is_sure and all(each.table == near[0].table for each in near):
        yield from (reading._replace(doubt=near[0].doubt, is_whole=False) for reading in towers(near[0].table, True) if not reading.lost)


def _numbers(lines: Sequence[str]) -> Numbers:
    return {(y, x): letter for y, line in enumerate(lines) for x, letter in enumerate(line) if letter != BLANK}


def _found(lines: Sequence[str], numbers: Numbers, extent: Tuple[int, int], form: Places, size: int) -> Iterator[Found]:
    """The numbers in this form: the text ends where the drawing does, or with the squares of a row; with the last row in the usual program's form alone."""
    ys, xs = form.rows(size), form.columns(size)
    ends = extent[0] <= ys[-1] + 1 <= len(lines), extent[1] == xs[-1] + 1
    lasts = form == USUAL and max(y for y, _ in numbers) == ys[-2], max(x for _, x in numbers) == xs[-2]
    if any(ends) and all(map(max, ends, lasts)):
        for table in _placed(numbers, ys, xs):
            yield Found(table, _lost(lines, ys), _is_apart(table, form.top == 1 or not ends[0]), form == USUAL and all(ends))


def _is_apart(table: Table, is_close: bool) -> bool:
    """Whether nothing stands next to the first and the last numbers, so that these may be clues of fewer squares; where lines are close one of both is enough."""
    used = [y for y, row in enumerate(table) if {*row} & {*NUMBERS}]
    gaps = [abs(end - other) > 1 for end, other in zip((used[0], used[-1]), (*used[1:2], *used[-2:-1]))]
    return len(table) - 3 in SIZES and (any(gaps) if is_close else all(gaps))


def _placed(numbers: Numbers, ys: List[int], xs: List[int]) -> Iterator[Table]:
    """The table of numbers at these places: blank where a square is empty, and nothing at the edge. There is none if a number is elsewhere, or in a corner."""
    if all(y in ys and x in xs and (y in ys[1:-1] or x in xs[1:-1]) for y, x in numbers):
        inner = range(1, len(ys) - 1)
        yield [[numbers.get((own, other), BLANK if y in inner and x in inner else None) for x, other in enumerate(xs)] for y, own in enumerate(ys)]


def _lost(lines: Sequence[str], ys: Sequence[int]) -> str:
    """A doubt: a line of it has nothing, not even blanks, and may have been lost."""
    empty = next((at for at, y in enumerate(ys) if not (lines[y] if y in range(len(lines)) else '')), None)
    size = len(ys) - 2
    if empty is None:
        return ''
    if empty in (0, size + 1):
        return f'no line of clues stands {"below" if empty else "above"}, so there are none: if one was left out, add it'
    return f'an empty line counts as row {empty} of {size}: if a line was left out, this is another puzzle'
