"""The program that saves a small game, and what has to come of it."""

import os
import re
from functools import partial
from typing import Any, Callable, Optional, Sequence

import pytest

from tests.harness import Ended, FaultLibrary, Folder, Room, User, run
from tests.harness.game import ID, MOVES, left_files, save_text

#: The words of a line on standard error before the name of a new file that was left.
TOLD = re.compile('^the save is in (.*/)?')


class Saver:
    """The program that saves, in a room of its own."""

    def __init__(self, program: str, room: Room, faults: Callable[[], FaultLibrary]) -> None:
        self.program = program
        self.room = room
        #: Gives the library by which calls fail. The case is skipped where there is none.
        self.faults = faults

    def save(self, folder: Folder, path: str, moves: int = 0, front: Sequence[str] = (), **how: Any) -> Ended:
        """Plays the game and saves it. Words in front may start the program; what else there is goes to `run`."""
        script = b''.join(b'move %s\n' % move for move in MOVES[:moves])
        words = [*front, self.program, 'towers', '--id', ID, '--save', path]
        return run(words, folder, input=script, **how)

    def save_twice(self, folder: Folder, path: str, file: str, user: Optional[User] = None) -> None:
        """The first save makes the file, and the second one replaces it: the old one is not written into."""
        expect_saved(self.save(folder, path, user=user, umask=0o027))
        assert (folder.read(file), folder.mode(file)) == (save_text(0), 0o640), 'the first save'
        folder.put(file, save_text(0), 0o604)
        with folder.reader(file) as old:
            expect_saved(self.save(folder, path, 1, user=user), 1)
            assert (folder.read(file), folder.mode(file)) == (save_text(1), 0o604), 'the second save'
            assert old.read() == save_text(0), 'the old file'
        expect_none_left(folder)


def replies(moves: int) -> bytes:
    return b'ok\n' * moves


def expect_saved(ended: Ended, moves: int = 0) -> None:
    """The run ended well and said what it had to say."""
    assert ended == Ended(0, replies(moves), b'')


def expect_refused(ended: Ended, moves: int = 0, left: Optional[Folder] = None) -> None:
    """The run ended with the word that the save can't be written, and told of a new file that it left in this folder or below."""
    first, *told = ended.error.decode(errors='replace').splitlines()
    names = [os.path.basename(path) for path in left_files(left)] if left else []
    assert (first, [TOLD.sub('', line) for line in told]) == ('cannot write the file', names)
    assert (ended.status, ended.output) == (1, replies(moves))


def expect_whole_left(folder: Folder, content: bytes) -> None:
    """Where nothing could be done the whole save may be left, and nobody may run it."""
    for name in left_files(folder):
        assert folder.read(name) == content
        assert (folder.mode(name) or 0) & 0o111 == 0, oct(folder.mode(name) or 0)


def expect_none_left(folder: Folder) -> None:
    assert left_files(folder) == []


@pytest.fixture
def saver(request: pytest.FixtureRequest, program: str, room: Room) -> Saver:
    return Saver(program, room, partial(request.getfixturevalue, 'library'))
