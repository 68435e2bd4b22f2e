"""Fair games: which there are, the line by which the program begins one, and the seed of a day.

The board, the sheets and a page in a browser take their new games from here: `letters` and `SIZES` say what can be chosen, `line` is what to ask
the program, which answers as to `new`, and `today` or `by_chance` is a seed where the player types none. To players a seed is the game's number.
"""

from __future__ import annotations

import random
import time
from typing import Dict, List, Optional

#: The sizes of the grid.
SIZES = range(3, 10)

#: Of each game the letters of the grades, the least first, and the sizes at which a grade is offered: docs/RULES.md, section 10, has the same table.
#: The program refuses all others.
OFFERED: Dict[str, Dict[str, range]] = {
    'towers': {'e': SIZES, 'h': range(4, 10)},
    'unequal': {'t': SIZES, 'e': SIZES, 'k': range(4, 10)},
}

#: Seeds are below this.
SEEDS = 1 << 64

#: Seeds by chance are below this, so that they are soon typed.
SHORT_SEEDS = 10**8


def letters(game: str, size: int) -> List[str]:
    """The grades that are offered of a game at a size, the least first."""
    return [letter for letter, sizes in OFFERED[game].items() if size in sizes]


def line(size: int, letter: str, seed: int) -> str:
    """The line that begins the game of this size, grade and seed."""
    return f'fair {size} {letter} {seed}'


def today() -> int:
    """The seed that the date is, as 20261126."""
    return int(time.strftime('%Y%m%d'))


def by_chance() -> int:
    return random.randrange(SHORT_SEEDS)


def seed_of(text: str) -> Optional[int]:
    """The seed that is typed; nothing where it is none. A keyboard has other digits, as ², that are none."""
    return int(text) if text.isascii() and text.isdigit() and len(text) <= len(str(SEEDS)) and int(text) < SEEDS else None
