"""Moves as they are typed in the line mode: `r1c2 3` or `1 2 3`, `p r1c2 3`, `d above 1`; and squares and clues by themselves.

On the setter's desk items of a puzzle: `clue above 1 3`, `given r1c2 4`, `sign r1c1 > r1c2`.
"""

from __future__ import annotations

import re
from enum import Enum
from typing import NamedTuple, Optional, Tuple

from playing.naming import CLUE, SQUARE, Place, clue_of, square_of
from playing.verdict import Item

#: A square and a number; with a letter ahead of it that is a pencil mark.
NUMBER = re.compile(rf'(?P<mark>[pP] +)?(?P<square>{SQUARE.pattern})[ ,]+(?P<number>[0-9]+)')
MARKED = re.compile(r'[dD] +(?P<clue>.*)')

#: A clue, or a given; and a sign, or none.
ITEM = re.compile(rf'(?:(?:clue +)?(?P<clue>{CLUE.pattern})|(?:given +)?(?P<square>{SQUARE.pattern}))[ ,]+(?P<number>[0-9]+)', re.IGNORECASE)
SIGN = re.compile(rf'sign +(?P<one>{SQUARE.pattern}) *(?P<way>[ <>]) *(?P<other>{SQUARE.pattern})(?P<none> +0)?', re.IGNORECASE)


class OutOfGrid(Exception):
    """There is no such row or column."""


class Kind(Enum):
    NUMBER = 'a number in a square'
    MARK = 'a pencil mark, or none'
    DONE = "a clue's done mark, or none"
    LOOK = 'what there is to say'


class TypedMove(NamedTuple):
    kind: Kind
    place: Place
    #: As it was typed.
    number: str = ''

    @property
    def line(self) -> str:
        """The program's line for it."""
        letter = {Kind.NUMBER: 'R', Kind.MARK: 'P', Kind.DONE: 'D'}[self.kind]
        return f'move {letter}{self.place[0]},{self.place[1]}' + (f',{self.number}' if self.number else '')


def typed_move(text: str, size: int) -> Optional[TypedMove]:
    """The move that is meant on a board of this size; nothing if it is something else. Raises `OutOfGrid`."""
    found = NUMBER.fullmatch(text)
    if found:
        return TypedMove(Kind.MARK if found['mark'] else Kind.NUMBER, there(square_of(found['square'], size)), found['number'])
    if SQUARE.fullmatch(text):
        return TypedMove(Kind.LOOK, there(square_of(text, size)))
    marked = MARKED.fullmatch(text)
    clue = marked['clue'].strip() if marked else text
    if CLUE.fullmatch(clue):
        return TypedMove(Kind.DONE if marked else Kind.LOOK, there(clue_of(clue, size)))
    return None


def typed_item(text: str, size: int) -> Optional[Tuple[Item, int]]:
    """An item and its number; nothing where something else is meant. Raises `OutOfGrid`."""
    found = SIGN.fullmatch(text)
    if found and (found['none'] or found['way'] != ' '):
        one, other = (there(square_of(found[name], size)) for name in ('one', 'other'))
        return (other, one) if found['way'] == '<' else (one, other), 0 if found['none'] else 1
    found = ITEM.fullmatch(text)
    if found is None:
        return None
    return (there(clue_of(found['clue'], size) if found['clue'] else square_of(found['square'], size)),), int(found['number'])


def there(place: Optional[Place]) -> Place:
    if place is None:
        raise OutOfGrid
    return place
