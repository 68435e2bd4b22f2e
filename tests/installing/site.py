"""A copy of the repository in which the programs are built, and what is done there."""

import os
from typing import Dict, List, Mapping, Optional, Sequence, Tuple

import pytest

from tests.board.line_games import SAVES
from tests.board.playing import BoardFront
from tests.conftest import Programs
from tests.scripts.place import Place
from tests.harness import Ended, Room


class Site(Place):
    """`make` has left the programs that are tested. Where the test is root's, another user does all that is done here."""

    def __init__(self, room: Room, program: str, objects: str) -> None:
        super().__init__(room, program, objects)
        self.room = room
        self.above = os.path.dirname(self.path)
        self.expect(['make'])

    def expect(self, words: Sequence[str], status: int = 0, says: str = '', env: Optional[Mapping[str, str]] = None) -> Ended:
        """Runs a command. Its status is this one, and it says this somewhere."""
        return self.run(words, env=env).expect(says, status=status)


def snapshot(folder: str) -> List[str]:
    """The path of each file and folder below a folder, from there, with its mode."""
    found: List[str] = []
    for way, names, files in os.walk(folder):
        found += [os.path.join(way, name) for name in names + files]
    return sorted(f'{os.path.relpath(path, folder)} {os.stat(path).st_mode & 0o777:o}' for path in found)


def files(folder: str) -> List[str]:
    """The path of each file below a folder, from there."""
    found = (os.path.join(way, name) for way, _, names in os.walk(folder) for name in names)
    return sorted(os.path.relpath(path, folder) for path in found)


def words_of(variables: Mapping[str, str]) -> List[str]:
    """Variables for the command line of `make`."""
    return [f'{name}={value}' for name, value in variables.items()]


#: The answers that the programs have to give, wherever they lie: the words, the input, and the output.
ANSWERS: Dict[str, Tuple[Sequence[str], bytes, bytes]] = {
    'puzzles': (['towers'], b'new 3:3//////3/////\nmove R0,0,1\nstatus\n', b'ok\nok\nplaying 2/2\n'),
    'puzzles-json': (['towers'], b'undo\n', b'{"refused":"NoGame","reply":["refused: NoGame"],"session":null}\n'),
}


def expect_plays(site: Site, folder: str) -> None:
    """Both programs in a folder play, puzzles-page says how it is used, puzzles-sheet makes a page, and puzzles-check checks a puzzle, in an environment with
    next to nothing; and puzzles-play finds its program by itself, and plays, saves and loads."""
    for program, (words, typed, written) in ANSWERS.items():
        ended = site.run([os.path.join(folder, program), *words], cwd='..', input=typed)
        assert ended == Ended(0, written, b''), program
    one = b'3:3//////3/////\n'
    for words, typed in (['puzzles-page', '--help'], b''), (['puzzles-sheet', '--ids', '-'], one), (['puzzles-check'], one):
        ended = site.run([os.path.join(folder, words[0]), *words[1:]], cwd='..', input=typed)
        assert (ended.status, ended.error) == (0, b''), words
    with Room() as room:
        BoardFront(os.path.join(folder, 'puzzles-play'), '', room).play_in_lines(SAVES[0])


@pytest.fixture
def site(room: Room, programs: Programs) -> Site:
    return Site(room, *programs)
