"""The line `fair` of puzzles-json (docs/JSON.md)."""

from __future__ import annotations

import re
from functools import lru_cache
from typing import List, Optional, Sequence

from tests.second_implementation.fair import fair
from tests.second_implementation.grades import HARD, LETTERS
from tests.second_implementation.words import number

MOST_SEED = 2 ** 64 - 1


def fair_words(line: bytes) -> Optional[Sequence[bytes]]:
    """The words of a line that is `fair` and three of them, with one space between each; or nothing."""
    found = re.fullmatch(rb'fair ([^ ]+) ([^ ]+) ([^ ]+)', line)
    return found.groups() if found else None


@lru_cache(maxsize=None)
def fair_id(game: str, size: int, letter: str, seed: int) -> str:
    """The ID of a fair game."""
    return f'{size}d{letter}:{fair(game, size, letter, seed).description()}'


def plain_lines(game: str, line: bytes) -> List[bytes]:
    """The line of the plain program for a line: one that begins a fair game is `new` and its ID, and none where it is refused."""
    words = fair_words(line)
    if words is None:
        return [line]
    size, letter, seed = number(words[0], 3, 9), words[1].decode('latin-1'), number(words[2], 0, MOST_SEED)
    if size is None or seed is None or letter not in LETTERS[game] or (LETTERS[game][letter] == HARD and size == 3):
        return []
    return [b'new ' + fair_id(game, size, letter, seed).encode()]
