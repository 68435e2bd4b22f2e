"""Damaged drawings: a letter that is changed, left out or doubled, or a line that is left out; and whether what is read of one is what it draws."""

from __future__ import annotations

import random
import re
from typing import Dict, List, Tuple

from playing import drawings
from tests.drawings.forms import forms
from tests.drawings.puzzles import Place, Puzzle, puzzles

LETTERS = '123456789.-+_0x*? <>^v|,\tq#A'

#: Letters of one meaning.
SAME = str.maketrans('_0xo*?·□．A∧˄＾∨˅V＜＞－\t', '.........^^^^vvv<>- ')


def damaged(drawing: str, chance: random.Random) -> str:
    kind = chance.choice(('change', 'out', 'double', 'line', 'blank'))
    lines = drawing.split('\n')
    if kind == 'line':
        at = chance.randrange(max(1, len(lines) - 1))
        return '\n'.join([*lines[:at], *lines[at + 1 :]])
    at = chance.choice([at for at, letter in enumerate(drawing) if letter not in '\r\n'])
    instead = {'blank': ' ', 'change': chance.choice(LETTERS), 'out': '', 'double': drawing[at] * 2}[kind]
    return drawing[:at] + instead + drawing[at + 1 :]


def some(seed: int, count: int) -> List[Tuple[str, str, str]]:
    """So many: the form, the drawing, and the same damaged."""
    chance = random.Random(seed)
    whole = [(name, drawing) for puzzle in puzzles(seed, 2) for name, drawing in forms(puzzle).items()]
    picked = [chance.choice(whole) for _ in range(count)]
    return [(name, drawing, damaged(drawing, chance)) for name, drawing in picked]


def puzzle_of(read: drawings.Puzzle) -> Puzzle:
    """A puzzle that was read, as forms are made of it."""
    clues: Dict[Place, int] = {}
    givens: Dict[Place, int] = {}
    signs = []
    for item in read.items:
        x, y, *others = map(int, item.partition(' ')[2].split(','))
        if len(others) == 3:
            signs.append(((x, y), (others[0], others[1])))
        else:
            (clues if {x, y} & {-1, read.size} else givens)[x, y] = others[0]
    return Puzzle(read.game, read.size, clues, givens, frozenset(signs))


def says(drawing: str) -> str:
    """The letters of a drawing in their order, without titles: what stands for nothing, and what is around squares, is all the same."""
    lines = [line for line in drawing.replace('.0', '').splitlines() if not re.search('[a-zA-Z]{3}', line)]
    return re.sub(r'[\s.\-|+,;"\[\]─│┌┐└┘├┤┬┴┼#>`~\ufeff]', '', '\n'.join(lines).translate(SAME))


def is_drawn(read: drawings.Puzzle, name: str, drawing: str) -> bool:
    """Whether a drawing, which may be damaged, is that of a puzzle in this form."""
    again = forms(puzzle_of(read)).get(name)
    return again is not None and says(again) == says(drawing)
