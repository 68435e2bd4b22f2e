"""Drawings of Unequal in lines of squares, with signs between them, and lines of signs below; those without signs may be blank, or left out."""

from __future__ import annotations

import re
from typing import Iterator, List, Optional, Sequence, Tuple

from playing.drawings.tables import BLANK, Table, has_sign
from playing.fair import SIZES

STANDING = {*'^v'}


def signed(lines: Sequence[str]) -> Iterator[Tuple[Table, str]]:
    """Each table with what could have been lost in it."""
    rows = '\n'.join(lines).strip('\n').split('\n')
    size = max((squares_in(line) for line in rows if not set(line) & STANDING), default=0)
    for found in _in_turn(rows, size) if size in SIZES else ():
        between = found[1::2]
        # Where '-' or a blank line says that there is no sign, each line is there; so it is where there is no sign at all.
        is_told = any('-' in line or (line and not line.strip()) for line in between) or not any(map(has_sign, rows))
        table = _placed(found, size) if '' not in between or not is_told else None
        if table is not None:
            yield table, _lost(between)


def squares_in(line: str) -> int:
    return len(re.sub(r'[\s<>]', '', line))


def _lost(between: Sequence[str]) -> str:
    """A doubt: some lines of signs are there, and others aren't, which may have been lost."""
    lacking = [at for at, line in enumerate(between, 1) if not line]
    if not lacking or len(lacking) == len(between):
        return ''
    return f'no line of signs stands below row {lacking[0]}, so there are none: if one was left out, add it'


def _in_turn(rows: Sequence[str], size: int, found: Tuple[str, ...] = ()) -> Iterator[Tuple[str, ...]]:
    """The lines as those of squares and of signs in turn, with '' for one of signs that isn't there."""
    if not rows:
        if len(found) == 2 * size - 1:
            yield found
    elif len(found) % 2:
        if not set(rows[0]) - {*STANDING, '-', BLANK}:
            yield from _in_turn(rows[1:], size, (*found, rows[0] or BLANK))
        if rows[0].strip():
            yield from _in_turn(rows, size, (*found, ''))
    elif not rows[0].strip():
        yield from _in_turn(rows[1:], size, found)
    elif squares_in(rows[0]) == size and not set(rows[0]) & STANDING and len(found) < 2 * size - 1:
        yield from _in_turn(rows[1:], size, (*found, rows[0]))


def _placed(lines: Sequence[str], size: int) -> Optional[Table]:
    """The table of such lines; nothing where a sign isn't between two squares, or a letter between two may be lost."""
    gaps = [gap for line in lines[::2] for gap in _gaps(line)]
    if '' in gaps and any(gap and not gap.strip() for gap in gaps):
        return None
    table: Table = []
    for at, line in enumerate(lines):
        row = _standing(lines[at - 1], line, lines[at + 1], size) if at % 2 else _lying(line)
        if row is None:
            return None
        table.append([*row])
    return table


def _gaps(line: str) -> List[str]:
    """The sign between each two squares of a line."""
    return re.split(r'[^\s<>]', line)[1:-1]


def _lying(line: str) -> Optional[List[str]]:
    """A line of squares, with a sign or a blank between each two."""
    parts = re.split(r'([^\s<>])', re.sub(r'\s', '', line))
    is_fit = not parts[0] and not parts[-1] and all(len(sign) < 2 for sign in parts[::2])
    return [part or BLANK for part in parts[1:-1]] if is_fit else None


def _standing(above: str, line: str, below: str, size: int) -> Optional[List[str]]:
    """A line of signs: one for each column, as far from one another, or each below its square."""
    squares, others = ([x for x, letter in enumerate(row) if letter not in ' <>'] for row in (above, below))
    signs = {x: letter for x, letter in enumerate(line) if letter != BLANK}
    places = [*signs]
    if len(signs) == size and (places == squares or len({b - a for a, b in zip(places, places[1:])}) == 1):
        return [*BLANK.join(signs.values())]
    # Squares need not stand below one another where no sign is between them.
    is_fit = not signs or (squares == others and set(signs) <= set(squares) and '-' not in signs.values())
    return [*BLANK.join(signs.get(x, BLANK) for x in squares)] if is_fit else None
