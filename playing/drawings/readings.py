"""All that the lines of a drawing may mean: each way to read them as a table of symbols is tried, of which some stand here."""

from __future__ import annotations

import re
from typing import Dict, Iterator, List, Sequence

from playing.drawings.copied import copied, exact
from playing.drawings.ruled import grid_of
from playing.drawings.signed import signed
from playing.drawings.tables import BLANK, CORNER, EMPTY, NUMBERS, ODD, Puzzle, Reading, Table, corners_of, plain, towers, unequal

#: A square in brackets.
BOXED = re.compile(r'\[(.)\]|\((.)\)')


def readings(lines: Sequence[str], game: str = '') -> List[Reading]:
    """Each puzzle that the lines may be, where a game is named of that game alone."""
    return [reading for reading in tried(lines, game) if not reading.lost and reading.puzzle.fits()]


def tried(lines: Sequence[str], game: str) -> List[Reading]:
    """Those too in which something has been left out, or a number is above the size."""
    copies = copies_in(lines, game)
    if copies:
        return copies
    flat = [BOXED.sub(lambda of: f' {(of[1] or of[2]).strip() or EMPTY} ', line) for line in lines]
    grid = grid_of(flat)
    tables = [*cells(lines)] or (grid.tables if grid else [])
    if grid and grid.is_lone:
        found = [each for table in tables for each in plain(table, _games(game))]
    else:
        found = [each for table in tables for each in _of_table(table, game, True)] if tables else [*_of_symbols(flat, game)]
    best: Dict[Puzzle, Reading] = {}
    for each in found:
        if game in ('', each.puzzle.game):
            # The same puzzle by a way in which nothing could have been lost.
            best[each.puzzle] = min(best.get(each.puzzle, each), each, key=lambda own: (bool(own.lost), bool(own.doubt), not own.is_whole))
    return [*best.values()]


def copies_in(lines: Sequence[str], game: str) -> List[Reading]:
    """The puzzle of lines that are just as the usual program copies Towers, so that they are nothing else."""
    return exact(lines) if game != 'unequal' else []


def _of_symbols(lines: Sequence[str], game: str) -> Iterator[Reading]:
    """Of lines without rules and cells. Where a tab may be as wide as it likes nothing stands below anything."""
    rows = unbarred([line.replace('\t', BLANK) for line in lines])
    has_tabs = any('\t' in line for line in lines)
    for table in (*([] if has_tabs else columns(rows)), *counts(rows)):
        yield from _of_table(table, game, False)
    if not has_tabs:
        for table, doubt in signed(rows):
            yield from unequal(table, doubt)
        yield from copied(lines)


def _of_table(table: Table, game: str, is_told: bool) -> Iterator[Reading]:
    """`is_told` says that each cell is there, also an empty one."""
    yield from towers(table, is_told)
    yield from unequal(table)
    if game == 'unequal' or not corners_of(table) & {None, BLANK, CORNER}:
        yield from plain(table, _games(game))


def _games(game: str) -> List[str]:
    return [game] if game else ['towers', 'unequal']


# --- cells with something between them, symbols that stand below one another, and lines that have all their symbols ---


def cells(lines: Sequence[str]) -> Iterator[Table]:
    """Cells with a tab, a comma or a semicolon between them, as many in each line."""
    for between in '\t,;':
        rows = [[cell.strip().strip('"') or BLANK for cell in line.split(between)] for line in lines if line.strip(' ')]
        if all(len(row) > 2 for row in rows) and len({*map(len, rows)}) == 1:
            yield [[_number(cell) for cell in row] for row in rows]


def _number(cell: str) -> str:
    """Spreadsheets write 3.0 of a 3."""
    return cell[0] if re.fullmatch(r'[1-9]\.0+|[1-9]\.\.+', cell) else cell if len(cell) == 1 else ODD


def columns(lines: Sequence[str]) -> Iterator[Table]:
    """Each symbol belongs to the others of its column."""
    used = sorted({at for line in lines for at, letter in enumerate(line) if letter != BLANK})
    if used:
        yield [[line[at] if at < len(line) and line[at] != BLANK else None for at in used] for line in lines if line.strip()]


def counts(lines: Sequence[str]) -> Iterator[Table]:
    """Each line has all its symbols, wherever they stand; the first and the last may have no corners."""
    rows: Table = [[*line.replace(BLANK, '')] for line in lines if line.strip()]
    size = len(rows) - 2
    for at in (0, -1) if size > 0 else ():
        if len(rows[at]) == size:
            rows[at] = [None, *rows[at], None]
    if size > 0 and all(len(row) == size + 2 for row in rows):
        yield rows


def unbarred(lines: Sequence[str]) -> List[str]:
    """Without the bars that stand at the same places in all lines that have some, and the ruled lines between; the same lines where there are none."""
    bars = [[at for at, letter in enumerate(line) if letter == '|'] for line in lines if '|' in line]
    if len(bars) < 3 or any(own != bars[0] for own in bars):
        return [*lines]
    inner = [line for line in lines if not re.fullmatch(r'[\s+-]*-[+-]+[\s+-]*', line)]
    places = _in_box(bars[0][0], bars[0][-1], len(bars)) if len(bars[0]) == 2 else range(0)
    return [(_filled(line, places) if '|' in line else line).replace('|', BLANK) for line in inner]


def _in_box(begin: int, end: int, size: int) -> range:
    """Where the squares of a row are in a box around them, which is as wide as they need: side by side, apart, with blanks around, or ruled no more."""
    first, step = {size: (1, 1), 2 * size - 1: (1, 2), 2 * size + 1: (2, 2), 4 * size - 1: (2, 4)}.get(end - begin - 1, (0, 0))
    return range(begin + first, end, step) if step else range(0)


def _filled(line: str, places: range) -> str:
    """Empty squares that are blank have a symbol then, if all others in the line are numbers."""
    if not {line[at] for at in places} <= {BLANK, *NUMBERS}:
        return line
    return ''.join(EMPTY if at in places and letter == BLANK else letter for at, letter in enumerate(line))
