"""Runs a built program from outside and looks at what came of it.

room      a folder for a case, gone afterwards, and what is made and read in it
skips     what would make it possible to try what can't be tried here
program   one run: words, input, folder, user, limits, streams; and how it ended
terminal  a run in a terminal, with what is typed to it and what it shows
screen    the screen of that terminal
browser   a browser without a window, and what it prints; with `driver`, what all have in common, `firefox` and `webkit`
between   what stands between puzzles-json and who asks it
builds    where the repository is, and copies of programs
played    games as transcripts
bytecode  what Python compiles of scripts, kept for a run
game      a small game, what its saves are, and the new files that saves leave; larger puzzles, which the usual program made
faults    the library tests/faults/faults.c, by which a chosen call of the program fails
mounts    a file that is mounted alone, and a disk that is soon full
users     whom a program can be run as
"""

from operator import attrgetter
from typing import Any, Callable, Iterable, List

import pytest

from tests.harness.browser import Browser
from tests.harness.builds import TOP
from tests.harness.bytecode import bytecode
from tests.harness.driver import BLANK, RIGHT, Driver
from tests.harness.faults import FaultLibrary, Met
from tests.harness.game import HEAD, ID, PICTURE, left_files, made, moves_of, save_text
from tests.harness.mounts import fill, small_disk
from tests.harness.program import SLOWNESS, Ended, run
from tests.harness.room import Folder, Room, Skip
from tests.harness.skips import need
from tests.harness.terminal import Terminal
from tests.harness.users import ANNA, CARL, User, is_root, need_root

__all__ = [
    'ANNA', 'BLANK', 'Browser', 'CARL', 'Driver', 'Ended', 'FaultLibrary', 'Folder', 'HEAD', 'ID', 'Met', 'PICTURE', 'RIGHT', 'Room', 'SLOWNESS',
    'Skip', 'TOP', 'Terminal', 'User', 'by_name', 'by_words', 'bytecode', 'fill', 'in_the_gate', 'is_root', 'left_files', 'made', 'moves_of', 'named', 'need', 'need_root', 'run',
    'save_text', 'small_disk',
]

#: The name that pytest gives the case of a row that has one.
by_name = attrgetter('name')


def named(rows: Iterable[Any]) -> List[Any]:
    """Rows as cases of pytest, each called by its first member, which it isn't given."""
    return [pytest.param(*row[1:], id=row[0]) for row in rows]


def in_the_gate(rows: Iterable[Any], is_long: Callable[[Any], object]) -> List[Any]:
    """Rows as cases, the long ones for the gate alone."""
    return [pytest.param(*row, marks=[pytest.mark.long] if is_long(row) else []) for row in rows]


def by_words(rows: Iterable[Any]) -> List[Any]:
    """The same, where each row begins with the words of a command, which it is given, too."""
    return [pytest.param(*row, id=' '.join(row[0])) for row in rows]
