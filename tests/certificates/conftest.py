"""Puzzles that are certified: of all kinds, by the command puzzles-check; all of them in the gate, and some of each in `make test`."""

import json
from itertools import islice
from typing import Any, Dict, Iterable, List, NamedTuple, Sequence

import pytest

from tests.harness import TOP, Room, run

CHECK = str(TOP / 'check' / 'puzzles-check')

GAMES = ['towers', 'unequal']

#: The letters of fair games, by game.
LETTERS = {'towers': 'eh', 'unequal': 'tek'}

#: Where a puzzle's certificate isn't made, the row says so.
NONE_MADE = 'no certificate'


class Row(NamedTuple):
    """The line of puzzles-check on a puzzle."""

    place: str
    game: str
    solutions: str
    grade: str
    spare: str
    id: str
    suppositions: str
    #: The items to blame that there is no solution.
    blame: str = ''


class Certified(NamedTuple):
    rows: List[Row]
    certificates: List[Dict[str, Any]]
    #: The same, as they are written.
    lines: List[str]


class Writer:
    """The command, over a program."""

    def __init__(self, program: str, room: Room) -> None:
        self.program, self.room = program, room

    def write(self, ids: Iterable[str], name: str = 'certificates', words: Sequence[str] = ('--quick', '--seconds', '3600')) -> Certified:
        """Certificates of lines with a game and an ID, in a file of the room."""
        listed = ''.join(f'{id}\n' for id in ids).encode()
        ended = run([CHECK, *words, '--certificate', name], self.room, input=listed, env={'PUZZLES_JSON': self.program}, seconds=7200)
        assert (ended.error, ended.status in (0, 1, 4)) == (b'', True), ended.said[-500:]
        lines = (self.room.read(name) or b'').decode().splitlines()
        return Certified([Row(*row.split('\t')) for row in ended.output.decode().splitlines()], [json.loads(line) for line in lines], lines)

    def fair(self, seeds: Sequence[int], sizes: Sequence[int]) -> List[str]:
        """Fair games of all grades, as far as the program finds them."""
        found: List[str] = []
        for game in GAMES:
            lines = ''.join(f'fair {size} {letter} {seed}\n' for size in sizes for letter in LETTERS[game] for seed in seeds)
            told = [json.loads(line) for line in run([self.program, game], self.room, input=lines.encode()).output.splitlines()]
            found += [f'{game} {each["session"]["id"]}' for each in told if not each['refused']]
        return found


def stored(path: str) -> List[str]:
    """Lines of a list of the repository, each with its game and its ID."""
    lines = [line.split() for line in (TOP / path).read_text(encoding='ascii').splitlines() if not line.startswith('#')]
    return [f'{words[0]} {words[-1]}' if len(words) > 1 else f'{path.rpartition("/")[2].partition(".")[0]} {words[0]}' for words in lines if words]


def seeds(count: int) -> List[str]:
    """Seeded games of both games and all sizes, so many of each."""
    return [f'{game} {size}!{seed}' for game in GAMES for size in range(3, 7) for seed in range(count)]


def some(lines: Sequence[str], count: int) -> List[str]:
    """So many, from all parts of a list."""
    return list(islice(lines, 0, None, max(1, len(lines) // count)))


@pytest.fixture
def writer(objects: str, room: Room) -> Writer:
    return Writer(objects, room)


@pytest.fixture
def is_whole(request: pytest.FixtureRequest) -> bool:
    """Whether all is tried, and not a sample."""
    return bool(request.config.getoption('--all-certificates'))
