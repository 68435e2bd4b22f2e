"""A run as a row of a table: what is there, what is typed, and what has to have come of it."""

from typing import Any, Mapping, NamedTuple, Optional, Sequence

import pytest

from tests.harness import Folder, Room, run
from tests.harness.game import NEW_NAME, told_left
from tests.harness.program import Word


class Run(NamedTuple):
    """One run in a folder of its own. A part that is None is not looked at. A run that says no more ends well, and writes nothing."""

    name: str
    words: Sequence[Word]
    input: bytes = b''
    #: The files that are there before.
    given: Mapping[str, bytes] = {}
    status: int = 0
    output: Optional[bytes] = b''
    output_has: Sequence[bytes] = ()
    error: Optional[bytes] = b''
    error_has: Sequence[bytes] = ()
    #: Files that have to stand there afterwards, and those for which nothing may stand there.
    holds: Mapping[str, bytes] = {}
    absent: Sequence[str] = ()
    #: Files that may be new, with any content.
    made: Sequence[str] = ()
    #: The content of the one new file that is left beside, of which standard error tells; nothing where none may be left.
    left: Optional[bytes] = None


class Player:
    """The program, in a room of its own."""

    def __init__(self, program: str, room: Room) -> None:
        self._program = program
        self.room = room

    def play(self, row: Run, folder: Optional[Folder] = None, **how: Any) -> bytes:
        """Makes what is given, runs the program, and looks at what has come of it; gives the output.

        It runs in the room, if no other folder is named. Other words go to `run`; a stream that is given there
        has no text to be compared.
        """
        where = folder or self.room
        for name, content in row.given.items():
            where.put(name, content)
        before = where.paths()
        ended = run([self._program, *row.words], where, input=row.input, **how)
        assert ended.status == row.status, ended
        if 'stdout' not in how:
            expect_text('the output', ended.output, row.output, row.output_has)
        for name, content in row.holds.items():
            assert where.read(name) == content, f'the file {name[:20]}'
        for name in row.absent:
            assert name not in where.names()
        after = where.paths()
        assert [path for path in before if path not in after] == [], 'what is gone'
        new = [path for path in after if path not in [*before, *row.holds, *row.made]]
        expect_left(where, new, row.left)
        if 'stderr' not in how:
            told = told_left(new if row.left is not None else []).encode()
            expect_text('standard error', ended.error, None if row.error is None else row.error + told, row.error_has)
        return ended.output


def expect_text(what: str, found: bytes, wanted: Optional[bytes], parts: Sequence[bytes]) -> None:
    """It is what is wanted, or, where only parts are named, has these."""
    if parts:
        for part in parts:
            assert part in found, f'{what} lacks {part!r}'
    elif wanted is not None:
        assert found == wanted, what


def expect_left(folder: Folder, new: Sequence[str], wanted: Optional[bytes]) -> None:
    """No file that nobody asked for is new, or, where that is wanted, one is, which has the whole save."""
    if wanted is None:
        assert new == [], 'what is left beside'
        return
    assert len(new) == 1, 'how many files are left'
    for path in new:
        assert bool(NEW_NAME.fullmatch(path)), f'it is called {path}'
        assert folder.read(path) == wanted, 'what is left'


@pytest.fixture
def player(program: str, room: Room) -> Player:
    return Player(program, room)
