"""How squares, rows, columns and clues are called, to players and by them. Rows and columns count from 1, the row first, as in the program's hints."""

from __future__ import annotations

import re
from typing import Optional, Sequence, Tuple

#: How the games are called: by the words of the programs, and as newspapers do.
GAME_NAMES = {
    'towers': 'towers',
    'skyscrapers': 'towers',
    'skyscraper': 'towers',
    'unequal': 'unequal',
    'futoshiki': 'unequal',
    'hutosiki': 'unequal',
}

#: Column and row of a square, counted from 0; of a clue, with -1 or the size at the edge.
Place = Tuple[int, int]

#: A square as `r1c2`, or as its row and its column.
SQUARE = re.compile(r'[rR]?([0-9]+)(?:[cC]|[ ,]+)([0-9]+)')

#: A clue by its edge and the number of its column or row.
CLUE = re.compile(r'(above|below|left|right)(?: of)?(?: (?:column|row))? ([0-9]+)', re.IGNORECASE)


#: As which puzzle newspapers print each.
PRINTED_AS = {'towers': 'Skyscrapers', 'unequal': 'Futoshiki'}


def game_called(word: str) -> Optional[str]:
    """The game that is called so; nothing where none is."""
    return GAME_NAMES.get(word.lower())


def listed(words: Sequence[object], last: str = 'and') -> str:
    """`1, 2 and 3`."""
    texts = [str(word) for word in words]
    return f'{", ".join(texts[:-1])} {last} {texts[-1]}' if len(texts) > 1 else ''.join(texts)


def name(place: Place) -> str:
    """A square by its row and its column."""
    return f'r{place[1] + 1}c{place[0] + 1}'


def line_name(line: int, size: int) -> str:
    """A row or a column by its number, which counts from 0, the rows first."""
    return f'row {line + 1}' if line < size else f'column {line - size + 1}'


def side(place: Place, size: int) -> str:
    """Where a clue is."""
    x, y = place
    if y in (-1, size):
        return f'{"above" if y < 0 else "below"} column {x + 1}'
    return f'{"left" if x < 0 else "right"} of row {y + 1}'


def clue_name(place: Place, number: int, size: int) -> str:
    """A clue at the edge."""
    return f'clue {number} {side(place, size)}'


def square_of(text: str, size: int) -> Optional[Place]:
    """The square that is meant by these words; nothing where there is none of that name."""
    found = SQUARE.fullmatch(text)
    if found is None:
        return None
    y, x = int(found[1]) - 1, int(found[2]) - 1
    return (x, y) if x in range(size) and y in range(size) else None


def clue_of(text: str, size: int) -> Optional[Place]:
    """The place of a clue that is meant by these words, as `above 1`; nothing where there is no such row or column."""
    found = CLUE.fullmatch(text)
    if found is None or int(found[2]) - 1 not in range(size):
        return None
    at = int(found[2]) - 1
    return {'above': (at, -1), 'below': (at, size), 'left': (-1, at), 'right': (size, at)}[found[1].lower()]
