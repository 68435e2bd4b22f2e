"""A puzzle as a drawing: as the usual program copies it, and as a table for a spreadsheet. Both are read again as the same puzzle."""

from __future__ import annotations

from typing import List, Sequence

from playing.board import Board
from playing.drawings.tables import BLANK, EMPTY, Puzzle
from playing.naming import Place


def puzzle_of(board: Board) -> Puzzle:
    """The clues, signs and givens of a board."""
    numbers = [*((place, clue.number) for place, clue in board.clues.items()), *((place, board.numbers[place]) for place in sorted(board.givens))]
    signs = [f'item {_told(sign.greater)},{_told(sign.less)},1' for sign in board.signs]
    return Puzzle(board.session.game, board.size, (*(f'item {_told(place)},{number}' for place, number in numbers), *signs))


def as_text(board: Board) -> List[str]:
    """The lines that *Copy as text* gives on board and page."""
    return copied(puzzle_of(board)).splitlines()


def _told(place: Place) -> str:
    return f'{place[0]},{place[1]}'


def copied(puzzle: Puzzle) -> str:
    """As the usual program copies it: of Towers with nothing where there is no number."""
    rows = _rows(puzzle, BLANK if puzzle.game == 'towers' else EMPTY)
    if puzzle.game == 'unequal':
        lines = [''.join(row) for row in rows]
    else:
        between = [f'{row[0]}  {" ".join(row[1:-1])}  {row[-1]}' for row in rows[1:-1]]
        lines = [_end(rows[0]), '', *between, '', _end(rows[-1])]
    return ''.join(f'{line}\n' for line in lines)


def _end(row: Sequence[str]) -> str:
    """The line of clues above or below."""
    return f'   {" ".join(row[1:-1])}'


def tabbed(puzzle: Puzzle) -> str:
    """A table with tabs, and nothing where there is no item: spreadsheets take - and + as the beginning of a formula."""
    return ''.join('\t'.join(symbol.strip() for symbol in row) + '\n' for row in _rows(puzzle, BLANK))


def _rows(puzzle: Puzzle, empty: str) -> List[List[str]]:
    """A table of symbols: of Towers squares with all sides around, of Unequal squares at each second place and signs between."""
    is_towers, size = puzzle.game == 'towers', puzzle.size
    extent = size + 2 if is_towers else 2 * size - 1
    rows = [[BLANK if is_towers or x % 2 or y % 2 else empty for x in range(extent)] for y in range(extent)]
    for item in puzzle.items:
        x, y, *others = map(int, item.partition(' ')[2].split(','))
        if is_towers:
            rows[y + 1][x + 1] = str(others[0])
        elif len(others) == 1:
            rows[2 * y][2 * x] = str(others[0])
        else:
            less_x, less_y, _ = others
            rows[y + less_y][x + less_x] = ('>' if x < less_x else '<') if y == less_y else 'v' if y < less_y else '^'
    return rows
