"""The two games: what their names, letters and readers are; and their parameters (docs/FORMATS.md, section 1)."""

import re
from dataclasses import dataclass
from typing import Callable, Dict

from tests.second_implementation.puzzles import Puzzle
from tests.second_implementation.towers import read_towers
from tests.second_implementation.unequal import read_unequal
from tests.second_implementation.words import Refused


@dataclass(frozen=True)
class Parameters:
    size: int
    #: The difficulty letter, or nothing.
    letter: str

    def text(self) -> str:
        return f'{self.size}d{self.letter}' if self.letter else str(self.size)


@dataclass(frozen=True)
class Game:
    name: str
    letters: bytes
    read_description: Callable[[int, bytes], Puzzle]

    def read_parameters(self, text: bytes) -> Parameters:
        found = re.fullmatch(b'([3-9])(?:d([%b]))?' % self.letters, text)
        if not found:
            raise Refused('BadParams')
        return Parameters(int(found[1]), (found[2] or b'').decode())


#: By the word for each on a command line.
GAMES: Dict[str, Game] = {
    'towers': Game('Towers', b'ehxu', read_towers),
    'unequal': Game('Unequal', b'tekxr', read_unequal),
}
